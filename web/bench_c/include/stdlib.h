/* Declared for functions of xxhash.h that are not called here. */
#include <stddef.h>
void *malloc(size_t size);
void free(void *memory);
