/* SPDX-License-Identifier: MIT */
/* The cases of bench/header, with the header that HEADER names, as the function RUN. */
#define XXH_INLINE_ALL
#include HEADER
#include "header.h"

static uint64_t folded(XXH128_hash_t hash) { return hash.low64 ^ hash.high64; }

/* Hashes chunks of one length. `mixed` is the sum of the hashes, so that none is left out. */
#define STREAM(state, reset, update, digest, whole, chunk)                                     \
    do {                                                                                       \
        size_t at;                                                                             \
        reset;                                                                                 \
        for (at = 0; at + (chunk) <= (whole); at += (chunk)) update(state, bytes + at, chunk); \
        mixed += digest(state);                                                                \
    } while (0)

#define STREAM_32(whole, chunk) \
    STREAM(&state_32, XXH32_reset(&state_32, 0), XXH32_update, XXH32_digest, whole, chunk)
#define STREAM_64(whole, chunk) \
    STREAM(&state_64, XXH64_reset(&state_64, 0), XXH64_update, XXH64_digest, whole, chunk)
#define STREAM_3(whole, chunk) \
    STREAM(&state_3, XXH3_64bits_reset(&state_3), XXH3_64bits_update, XXH3_64bits_digest, whole, chunk)

#define CASE(title, count, call)                               \
    if (number == next++) {                                    \
        long i;                                                \
        uint64_t mixed = 0;                                    \
        double begin = nanoseconds();                          \
        for (i = 0; i < (count); i++) { call; }                \
        timed.nanoseconds = (nanoseconds() - begin) / (count); \
        timed.name = title;                                    \
        sink = mixed;                                          \
        return 1;                                              \
    }
#define AT (bytes + (i & 1023) * 8)
#define SOME_LENGTH lengths[i & 4095]

static volatile uint64_t sink;

int RUN(int number)
{
    int next = 0;
    XXH32_state_t state_32;
    XXH64_state_t state_64;
    XXH3_state_t state_3;
    CASE("XXH3 64, constant 4", 20000, mixed += XXH3_64bits(AT, 4))
    CASE("XXH3 64, constant 8", 20000, mixed += XXH3_64bits(AT, 8))
    CASE("XXH3 64, constant 16", 20000, mixed += XXH3_64bits(AT, 16))
    CASE("XXH3 128, constant 16", 20000, mixed += folded(XXH3_128bits(AT, 16)))
    CASE("XXH64, constant 4", 20000, mixed += XXH64(AT, 4, 0))
    CASE("XXH64, constant 8", 20000, mixed += XXH64(AT, 8, 0))
    CASE("XXH64, constant 16", 20000, mixed += XXH64(AT, 16, 0))
    CASE("XXH32, constant 4", 20000, mixed += XXH32(AT, 4, 0))
    CASE("XXH32, constant 16", 20000, mixed += XXH32(AT, 16, 0))
    CASE("XXH3 64, 0 to 64", 8192, mixed += XXH3_64bits(AT, SOME_LENGTH))
    CASE("XXH3 128, 0 to 64", 8192, mixed += folded(XXH3_128bits(AT, SOME_LENGTH)))
    CASE("XXH64, 0 to 64", 8192, mixed += XXH64(AT, SOME_LENGTH, 0))
    CASE("XXH32, 0 to 64", 8192, mixed += XXH32(AT, SOME_LENGTH, 0))
    CASE("XXH3 64, 0 to 64, in a chain", 8192, mixed = XXH3_64bits(bytes + (mixed & 1023) * 8, SOME_LENGTH))
    CASE("XXH3 64, 128", 8192, mixed += XXH3_64bits(AT, 127 + (mixed & 1)))
    CASE("XXH3 64, 200", 8192, mixed += XXH3_64bits(AT, 199 + (mixed & 1)))
    CASE("XXH3 64, 240", 8192, mixed += XXH3_64bits(AT, 239 + (mixed & 1)))
    CASE("XXH3 128, 200", 8192, mixed += folded(XXH3_128bits(AT, 199 + (mixed & 1))))
    CASE("XXH3 64, 1 KiB", 1000, mixed += XXH3_64bits(AT, 1024))
    CASE("XXH3 64 with a seed, 1 KiB", 1000, mixed += XXH3_64bits_withSeed(AT, 1024, (XXH64_hash_t)i + 1))
    CASE("XXH3 128, 1 KiB", 1000, mixed += folded(XXH3_128bits(AT, 1024)))
    CASE("XXH64, 1 KiB", 1000, mixed += XXH64(AT, 1024, 0))
    CASE("XXH32, 1 KiB", 1000, mixed += XXH32(AT, 1024, 0))
    CASE("XXH3 64, 64 KiB", 30, mixed += XXH3_64bits(AT, 65536))
    CASE("XXH64, 64 KiB", 30, mixed += XXH64(AT, 65536, 0))
    CASE("XXH32, 64 KiB", 10, mixed += XXH32(AT, 65536, 0))
    CASE("stream XXH3, by 8", 100, STREAM_3(4096, 8))
    CASE("stream XXH3, by 100", 10, STREAM_3(65536, 100))
    CASE("stream XXH3, by 4096", 30, STREAM_3(65536, 4096))
    CASE("stream XXH64, by 8", 100, STREAM_64(4096, 8))
    CASE("stream XXH64, by 100", 10, STREAM_64(65536, 100))
    CASE("stream XXH64, by 4096", 30, STREAM_64(65536, 4096))
    CASE("stream XXH32, by 100", 10, STREAM_32(65536, 100))
    CASE("stream XXH3, 20 bytes", 8000, STREAM_3(20, 20))
    return 0;
}
