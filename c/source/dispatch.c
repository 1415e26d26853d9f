/* SPDX-License-Identifier: MIT */
/* The calls of xxh_x86dispatch.h, for libraries compiled from xxhash.c on x86: other names of the calls of XXH3. */
#include "xxh_x86dispatch.h"

#define OTHER_NAMES(width, hash) \
    hash XXH3_##width##bits_dispatch(const void *input, size_t length) \
    { \
        return XXH3_##width##bits(input, length); \
    } \
    hash XXH3_##width##bits_withSeed_dispatch(const void *input, size_t length, XXH64_hash_t seed) \
    { \
        return XXH3_##width##bits_withSeed(input, length, seed); \
    } \
    hash XXH3_##width##bits_withSecret_dispatch(const void *input, size_t length, const void *secret, \
                                               size_t secret_length) \
    { \
        return XXH3_##width##bits_withSecret(input, length, secret, secret_length); \
    } \
    XXH_errorcode XXH3_##width##bits_update_dispatch(XXH3_state_t *state, const void *input, size_t length) \
    { \
        return XXH3_##width##bits_update(state, input, length); \
    }

OTHER_NAMES(64, XXH64_hash_t)
OTHER_NAMES(128, XXH128_hash_t)
