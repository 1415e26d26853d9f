/* SPDX-License-Identifier: MIT */
/* Other names of the calls of XXH3, which choose the instruction set at run time in the C library. Here the dynamic
 * loader chooses, and each of these is the call without _dispatch. Only on x86. */
#ifndef XXH_X86DISPATCH_H_TWOX_HASH
#define XXH_X86DISPATCH_H_TWOX_HASH

#if !defined(__x86_64__) && !defined(__i386__)
#error "xxh_x86dispatch.h is only for x86: include xxhash.h, and call without _dispatch"
#endif

#if defined(XXH_INLINE_ALL) || defined(XXH_PRIVATE_API) || defined(XXH_NAMESPACE)
#error "xxh_x86dispatch.h declares calls of a library to link: include xxhash.h, and call without _dispatch"
#endif

#include "xxhash.h"

#ifdef __cplusplus
extern "C" {
#endif

/* The widest vectors of this processor and system for which release 0.8.3 has code, by its numbers. A program may
 * choose by it. The calls here don't. */
#ifndef XXH_SSE2
#define XXH_SCALAR 0
#define XXH_SSE2 1
#define XXH_AVX2 2
#define XXH_AVX512 3
#endif
int XXH_featureTest(void);

XXH64_hash_t XXH3_64bits_dispatch(const void *input, size_t length);
XXH64_hash_t XXH3_64bits_withSeed_dispatch(const void *input, size_t length, XXH64_hash_t seed);
XXH64_hash_t XXH3_64bits_withSecret_dispatch(const void *input, size_t length, const void *secret,
                                             size_t secret_length);
XXH_errorcode XXH3_64bits_update_dispatch(XXH3_state_t *state, const void *input, size_t length);
XXH128_hash_t XXH3_128bits_dispatch(const void *input, size_t length);
XXH128_hash_t XXH3_128bits_withSeed_dispatch(const void *input, size_t length, XXH64_hash_t seed);
XXH128_hash_t XXH3_128bits_withSecret_dispatch(const void *input, size_t length, const void *secret,
                                               size_t secret_length);
XXH_errorcode XXH3_128bits_update_dispatch(XXH3_state_t *state, const void *input, size_t length);

#ifdef __cplusplus
}
#endif
#endif
