/* The reference library as a peer: PEER names it. With XXH_INLINE_ALL it is the header's own build, with the
 * instruction set and the compiler of this file; without, the shared library. */
#define XXH_STATIC_LINKING_ONLY
#include <xxhash.h>
#include "peer.h"

#define NAME_OF(x) #x
#define NAME(x) NAME_OF(x)

static struct halves halves(XXH128_hash_t h) { return (struct halves){ h.low64, h.high64 }; }

static uint32_t xxh32(uint32_t seed, const void *p, size_t n) { return XXH32(p, CLIPPED(n), seed); }
static uint64_t xxh64(uint64_t seed, const void *p, size_t n) { return XXH64(p, CLIPPED(n), seed); }
static uint64_t xxh3_64(const void *p, size_t n) { return XXH3_64bits(p, CLIPPED(n)); }
static uint64_t xxh3_64_seeded(uint64_t seed, const void *p, size_t n)
{
    return XXH3_64bits_withSeed(p, CLIPPED(n), seed);
}
static uint64_t xxh3_64_keyed(const void *s, size_t m, const void *p, size_t n)
{
    return XXH3_64bits_withSecret(p, CLIPPED(n), s, CLIPPED(m));
}
static struct halves xxh3_128(const void *p, size_t n) { return halves(XXH3_128bits(p, CLIPPED(n))); }
static struct halves xxh3_128_seeded(uint64_t seed, const void *p, size_t n)
{
    return halves(XXH3_128bits_withSeed(p, CLIPPED(n), seed));
}

/* The calls that hash a chunk, none of them inlined. Those of the shared library never are. */
#ifdef XXH_INLINE_ALL
#define CALLED __attribute__((noinline)) static void
#else
#define CALLED static inline void
#endif
CALLED update_32(XXH32_state_t *s, const void *p, size_t n) { XXH32_update(s, p, n); }
CALLED update_64(XXH64_state_t *s, const void *p, size_t n) { XXH64_update(s, p, n); }
CALLED update_3_64(XXH3_state_t *s, const void *p, size_t n) { XXH3_64bits_update(s, p, n); }
CALLED update_3_128(XXH3_state_t *s, const void *p, size_t n) { XXH3_128bits_update(s, p, n); }

/* A stream that hashes chunks by `update`. */
#define STREAM(name, result, state_type, reset, update, digest)             \
    static result name(const void *p, size_t n, size_t piece)               \
    {                                                                       \
        state_type state;                                                   \
        reset;                                                              \
        for (size_t at = 0; at < n; at += piece)                            \
            update(&state, (const char *)p + at, n - at < piece ? n - at : piece); \
        return digest;                                                      \
    }
#define RESET_3(reset) XXH3_INITSTATE(&state); reset(&state)
STREAM(xxh32_inlined, uint32_t, XXH32_state_t, XXH32_reset(&state, 0), XXH32_update, XXH32_digest(&state))
STREAM(xxh32_called, uint32_t, XXH32_state_t, XXH32_reset(&state, 0), update_32, XXH32_digest(&state))
STREAM(xxh64_inlined, uint64_t, XXH64_state_t, XXH64_reset(&state, 0), XXH64_update, XXH64_digest(&state))
STREAM(xxh64_called, uint64_t, XXH64_state_t, XXH64_reset(&state, 0), update_64, XXH64_digest(&state))
STREAM(xxh3_64_inlined, uint64_t, XXH3_state_t, RESET_3(XXH3_64bits_reset), XXH3_64bits_update,
       XXH3_64bits_digest(&state))
STREAM(xxh3_64_called, uint64_t, XXH3_state_t, RESET_3(XXH3_64bits_reset), update_3_64, XXH3_64bits_digest(&state))
STREAM(xxh3_128_inlined, struct halves, XXH3_state_t, RESET_3(XXH3_128bits_reset), XXH3_128bits_update,
       halves(XXH3_128bits_digest(&state)))
STREAM(xxh3_128_called, struct halves, XXH3_state_t, RESET_3(XXH3_128bits_reset), update_3_128,
       halves(XXH3_128bits_digest(&state)))

const struct peer PEER = {
    NAME(PEER), xxh32, xxh64, xxh3_64, xxh3_64_seeded, xxh3_64_keyed, xxh3_128, xxh3_128_seeded,
    { xxh32_inlined, xxh64_inlined, xxh3_64_inlined, xxh3_128_inlined },
    { xxh32_called, xxh64_called, xxh3_64_called, xxh3_128_called },
#ifdef XXH_INLINE_ALL
    /* Each of our kernels is compared with the header's own. */
    { xxh3_64, xxh3_64, xxh3_64, xxh3_64 },
    { xxh3_64_called, xxh3_64_called, xxh3_64_called, xxh3_64_called },
#else
    { 0 }, { 0 },
#endif
};
