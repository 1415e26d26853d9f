/* SPDX-License-Identifier: MIT */
/* Null pointers for which the C library returns XXH_ERROR. Contracts of twox_c are about existing memory, so c/build
 * gives the proved calls names that begin with proved_, and these functions wrap them. An update has no guard: the
 * test would cost a cycle. */
#include <stdint.h>
#include "xxhash.h"

/* The proved call if these pointers are not null, and otherwise XXH_ERROR. */
#define WHERE(there, name, parameters, arguments) \
    XXH_errorcode proved_##name parameters;       \
    XXH_errorcode name parameters { return there ? proved_##name arguments : XXH_ERROR; }

#define RESETS(width) \
    WHERE(state, XXH3_##width##bits_reset, (XXH3_state_t *state), (state)) \
    WHERE(state, XXH3_##width##bits_reset_withSeed, (XXH3_state_t *state, XXH64_hash_t seed), (state, seed)) \
    RESETS_WITH_SECRET(width)

/* The proved calls get a secret twice: as bytes, of which they copy 192, and as an address, which they store for any
 * other number. */
XXH_errorcode twox_c_reset_xxh3_secret(XXH3_state_t *state, const void *secret, size_t length, uintptr_t address);
XXH_errorcode twox_c_reset_xxh3_secret_and_seed(XXH3_state_t *state, const void *secret, size_t length,
                                                uintptr_t address, XXH64_hash_t seed);

#define RESETS_WITH_SECRET(width) \
    XXH_errorcode XXH3_##width##bits_reset_withSecret(XXH3_state_t *state, const void *secret, size_t length) \
    { \
        if (!state || !secret) return XXH_ERROR; \
        return twox_c_reset_xxh3_secret(state, secret, length, (uintptr_t)secret); \
    } \
    XXH_errorcode XXH3_##width##bits_reset_withSecretandSeed(XXH3_state_t *state, const void *secret, size_t length, \
                                                             XXH64_hash_t seed) \
    { \
        if (!state || !secret) return XXH_ERROR; \
        return twox_c_reset_xxh3_secret_and_seed(state, secret, length, (uintptr_t)secret, seed); \
    }

RESETS(64)
RESETS(128)

WHERE(secret && (seed || !seed_length), XXH3_generateSecret,
      (void *secret, size_t length, const void *seed, size_t seed_length), (secret, length, seed, seed_length))
