/* The reference library's one-shots and streams as functions of one form, for clang to turn into LLVM's text. A stream
   takes chunks that end at `cuts`, and the rest. With XXH_IMPLEMENTATION, as in c/source/xxhash.c, clang also writes
   the public functions that no function here calls. */
#ifndef XXH_IMPLEMENTATION
#define XXH_INLINE_ALL
#endif
#define XXH_STATIC_LINKING_ONLY
#include <xxhash.h>

#define MESSAGE const void *p, size_t n
#define SECRET const void *s, size_t k
#define SEED XXH64_hash_t seed
#define PIECES const size_t *cuts, size_t count
#define OUT XXH64_hash_t *out

static void put(XXH128_hash_t h, OUT) { out[0] = h.low64; out[1] = h.high64; }

XXH32_hash_t once_32_seed(MESSAGE, XXH32_hash_t seed) { return XXH32(p, n, seed); }
XXH64_hash_t once_64_seed(MESSAGE, SEED) { return XXH64(p, n, seed); }

XXH64_hash_t once_3_64_default(MESSAGE) { return XXH3_64bits(p, n); }
XXH64_hash_t once_3_64_seed(MESSAGE, SEED) { return XXH3_64bits_withSeed(p, n, seed); }
XXH64_hash_t once_3_64_secret(MESSAGE, SECRET) { return XXH3_64bits_withSecret(p, n, s, k); }
XXH64_hash_t once_3_64_both(MESSAGE, SECRET, SEED) { return XXH3_64bits_withSecretandSeed(p, n, s, k, seed); }

void once_3_128_default(MESSAGE, OUT) { put(XXH3_128bits(p, n), out); }
void once_3_128_seed(MESSAGE, SEED, OUT) { put(XXH3_128bits_withSeed(p, n, seed), out); }
void once_3_128_secret(MESSAGE, SECRET, OUT) { put(XXH3_128bits_withSecret(p, n, s, k), out); }
void once_3_128_both(MESSAGE, SECRET, SEED, OUT) { put(XXH3_128bits_withSecretandSeed(p, n, s, k, seed), out); }

#define STREAM(state_t, hash, reset) \
    state_t state; \
    size_t at = 0; \
    reset; \
    for (size_t i = 0; i < count; i++) { hash##_update(&state, (const char *)p + at, cuts[i] - at); at = cuts[i]; } \
    hash##_update(&state, (const char *)p + at, n - at);
#define STREAM_64(reset) \
    STREAM(XXH3_state_t, XXH3_64bits, XXH3_INITSTATE(&state); reset) return XXH3_64bits_digest(&state);
#define STREAM_128(reset) \
    STREAM(XXH3_state_t, XXH3_128bits, XXH3_INITSTATE(&state); reset) put(XXH3_128bits_digest(&state), out);

XXH32_hash_t stream_32_seed(MESSAGE, XXH32_hash_t seed, PIECES)
{
    STREAM(XXH32_state_t, XXH32, XXH32_reset(&state, seed))
    return XXH32_digest(&state);
}

XXH64_hash_t stream_64_seed(MESSAGE, SEED, PIECES)
{
    STREAM(XXH64_state_t, XXH64, XXH64_reset(&state, seed))
    return XXH64_digest(&state);
}

XXH64_hash_t stream_3_64_default(MESSAGE, PIECES) { STREAM_64(XXH3_64bits_reset(&state)) }
XXH64_hash_t stream_3_64_seed(MESSAGE, SEED, PIECES) { STREAM_64(XXH3_64bits_reset_withSeed(&state, seed)) }
XXH64_hash_t stream_3_64_secret(MESSAGE, SECRET, PIECES) { STREAM_64(XXH3_64bits_reset_withSecret(&state, s, k)) }
XXH64_hash_t stream_3_64_both(MESSAGE, SECRET, SEED, PIECES)
{
    STREAM_64(XXH3_64bits_reset_withSecretandSeed(&state, s, k, seed))
}

void stream_3_128_default(MESSAGE, OUT, PIECES) { STREAM_128(XXH3_128bits_reset(&state)) }
void stream_3_128_seed(MESSAGE, SEED, OUT, PIECES) { STREAM_128(XXH3_128bits_reset_withSeed(&state, seed)) }
void stream_3_128_secret(MESSAGE, SECRET, OUT, PIECES) { STREAM_128(XXH3_128bits_reset_withSecret(&state, s, k)) }
void stream_3_128_both(MESSAGE, SECRET, SEED, OUT, PIECES)
{
    STREAM_128(XXH3_128bits_reset_withSecretandSeed(&state, s, k, seed))
}
