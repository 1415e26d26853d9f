/* What a peer of the benchmark offers: one-shots, and streams that hash the input in chunks. The signatures are
 * those of the exports of the crate bench_exports, so that each peer is one call away. Functions that a peer lacks
 * are null pointers, and the driver's rows of that kind omit it. */
#ifndef PEER_H
#define PEER_H
#include <stddef.h>
#include <stdint.h>

struct halves { uint64_t low, high; };

/* Size of the input's buffer. Our exports compare a length with it, and a secret's with its size, which no caller in
 * Rattle has to do: so that this favours nobody, the one-shots of every peer do. */
#define CAPACITY ((size_t)64 << 20)
#define CLIPPED(length) ((length) < CAPACITY ? (length) : CAPACITY)

enum { SCALAR, LANES2, LANES4, SPLIT2, KERNELS };

typedef uint32_t stream_of_32(const void *input, size_t length, size_t piece);
typedef uint64_t stream_of_64(const void *input, size_t length, size_t piece);
typedef struct halves stream_of_128(const void *input, size_t length, size_t piece);

/* A stream of each hash. */
struct streams {
    stream_of_32 *xxh32;
    stream_of_64 *xxh64, *xxh3_64;
    stream_of_128 *xxh3_128;
};

struct peer {
    const char *name;
    uint32_t (*xxh32)(uint32_t seed, const void *input, size_t length);
    uint64_t (*xxh64)(uint64_t seed, const void *input, size_t length);
    uint64_t (*xxh3_64)(const void *input, size_t length);
    uint64_t (*xxh3_64_seeded)(uint64_t seed, const void *input, size_t length);
    uint64_t (*xxh3_64_keyed)(const void *secret, size_t secret_length, const void *input, size_t length);
    struct halves (*xxh3_128)(const void *input, size_t length);
    struct halves (*xxh3_128_seeded)(uint64_t seed, const void *input, size_t length);
    struct streams inlined; /* the compiler may inline the call that hashes a chunk */
    struct streams called;  /* it may not */
    uint64_t (*kernel_oneshot[KERNELS])(const void *input, size_t length); /* XXH3 64 by each kernel */
    stream_of_64 *kernel_stream[KERNELS];
};
#endif
