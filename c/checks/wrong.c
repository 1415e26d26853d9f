/* A wrong library, to show that the checks detect one: the hashes of libxxhash under names that begin with right_,
 * with the lowest bit changed. With STOPS each hash ends the process instead. */
#include <stdlib.h>
#include "xxhash.h"

static uint64_t wrong(uint64_t hash)
{
#ifdef STOPS
    abort();
#endif
    return hash ^ 1;
}

#define CHANGED(result, name, parameters, arguments) \
    result right_##name parameters;                  \
    result name parameters { return (result)wrong(right_##name arguments); }

CHANGED(XXH32_hash_t, XXH32, (const void *p, size_t n, XXH32_hash_t seed), (p, n, seed))
CHANGED(XXH32_hash_t, XXH32_digest, (const XXH32_state_t *state), (state))
CHANGED(XXH64_hash_t, XXH64, (const void *p, size_t n, XXH64_hash_t seed), (p, n, seed))
CHANGED(XXH64_hash_t, XXH64_digest, (const XXH64_state_t *state), (state))
CHANGED(XXH64_hash_t, XXH3_64bits, (const void *p, size_t n), (p, n))
CHANGED(XXH64_hash_t, XXH3_64bits_withSeed, (const void *p, size_t n, XXH64_hash_t seed), (p, n, seed))
CHANGED(XXH64_hash_t, XXH3_64bits_digest, (const XXH3_state_t *state), (state))

#define CHANGED_128(name, parameters, arguments)     \
    XXH128_hash_t right_##name parameters;           \
    XXH128_hash_t name parameters                    \
    {                                                \
        XXH128_hash_t hash = right_##name arguments; \
        hash.low64 = wrong(hash.low64);              \
        return hash;                                 \
    }

CHANGED_128(XXH3_128bits, (const void *p, size_t n), (p, n))
CHANGED_128(XXH3_128bits_withSeed, (const void *p, size_t n, XXH64_hash_t seed), (p, n, seed))
CHANGED_128(XXH3_128bits_digest, (const XXH3_state_t *state), (state))
