/* The Rust crates as peers: the exports of bench/peer_rust. */
#include "peer.h"

#define PEER_OF(name, start) \
    uint32_t start##_xxh32(uint32_t seed, const void *input, size_t length); \
    uint64_t start##_xxh64(uint64_t seed, const void *input, size_t length); \
    uint64_t start##_xxh3_64(const void *input, size_t length); \
    uint64_t start##_xxh3_64_seeded(uint64_t seed, const void *input, size_t length); \
    uint64_t start##_xxh3_64_keyed(const void *secret, size_t secret_length, const void *input, size_t length); \
    struct halves start##_xxh3_128(const void *input, size_t length); \
    struct halves start##_xxh3_128_seeded(uint64_t seed, const void *input, size_t length); \
    stream_of_32 start##_xxh32_stream, start##_xxh32_stream_called; \
    stream_of_64 start##_xxh64_stream, start##_xxh64_stream_called, start##_xxh3_64_stream, \
        start##_xxh3_64_stream_called; \
    stream_of_128 start##_xxh3_128_stream, start##_xxh3_128_stream_called; \
    const struct peer name = { \
        #name, \
        start##_xxh32, \
        start##_xxh64, \
        start##_xxh3_64, \
        start##_xxh3_64_seeded, \
        start##_xxh3_64_keyed, \
        start##_xxh3_128, \
        start##_xxh3_128_seeded, \
        { start##_xxh32_stream, start##_xxh64_stream, start##_xxh3_64_stream, start##_xxh3_128_stream }, \
        { start##_xxh32_stream_called, start##_xxh64_stream_called, start##_xxh3_64_stream_called, \
          start##_xxh3_128_stream_called }, \
        { 0 }, \
        { 0 }, \
    }

PEER_OF(xxhash_rust, rust);
#ifdef TWOX_HASH
PEER_OF(twox_hash, twox_hash);
#endif
