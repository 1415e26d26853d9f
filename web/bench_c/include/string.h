/* The functions of the C library that xxhash.h uses, for a target that has none: clang expands these calls. */
#include <stddef.h>
int memcmp(const void *first, const void *second, size_t length);
#define memcpy __builtin_memcpy
#define memset __builtin_memset
