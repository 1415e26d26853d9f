/* The reference library's header for WebAssembly: one-shots and chunks. The host fills the memory. */
#define XXH_INLINE_ALL
#define XXH_STATIC_LINKING_ONLY
#include <xxhash.h>

#define EXPORT __attribute__((visibility("default")))

static XXH32_state_t state32;
static XXH64_state_t state64;
static XXH3_state_t state3;

EXPORT uint32_t peer_xxh32(uint32_t seed, const void *input, size_t length) { return XXH32(input, length, seed); }
EXPORT uint64_t peer_xxh64(uint64_t seed, const void *input, size_t length) { return XXH64(input, length, seed); }
EXPORT uint64_t peer_xxh3_64(const void *input, size_t length) { return XXH3_64bits(input, length); }

EXPORT void peer_xxh3_128(const void *input, size_t length, uint64_t *value)
{
    XXH128_hash_t hash = XXH3_128bits(input, length);
    value[0] = hash.low64;
    value[1] = hash.high64;
}

EXPORT void peer_xxh32_start(void) { XXH32_reset(&state32, 0); }
EXPORT void peer_xxh32_update(const void *piece, size_t length) { XXH32_update(&state32, piece, length); }
EXPORT uint32_t peer_xxh32_digest(void) { return XXH32_digest(&state32); }
EXPORT void peer_xxh64_start(void) { XXH64_reset(&state64, 0); }
EXPORT void peer_xxh64_update(const void *piece, size_t length) { XXH64_update(&state64, piece, length); }
EXPORT uint64_t peer_xxh64_digest(void) { return XXH64_digest(&state64); }
EXPORT void peer_xxh3_64_start(void) { XXH3_64bits_reset(&state3); }
EXPORT void peer_xxh3_64_update(const void *piece, size_t length) { XXH3_64bits_update(&state3, piece, length); }
EXPORT uint64_t peer_xxh3_64_digest(void) { return XXH3_64bits_digest(&state3); }
