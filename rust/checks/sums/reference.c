// SPDX-License-Identifier: MIT
// The sum of sums/src/lib.rs by the reference's header. However a stream is cut, its hash is the one-shot's.
#define XXH_STATIC_LINKING_ONLY
#define XXH_INLINE_ALL
#include <stdio.h>
#include <xxhash.h>

static uint64_t state = 0x9e3779b97f4a7c15, sum = 0xcbf29ce484222325;

static uint64_t next(void) {
    state ^= state << 13;
    state ^= state >> 7;
    state ^= state << 17;
    return state;
}

static void add(uint64_t hash) {
    sum = (sum ^ hash) * 0x00000100000001b3;
    sum = sum << 17 | sum >> 47;
}

static void add_wide(XXH128_hash_t hash) {
    add(hash.low64);
    add(hash.high64);
}

static void random_pieces(size_t length) {
    size_t most = length % 2 == 0 ? 700 : 9;
    for (size_t at = 0; at < length;) {
        at += 1 + (uint16_t)next() % most;
    }
}

static void add_hashes(const unsigned char *bytes, size_t length) {
    uint64_t seed = length % 3 == 0 ? 0 : length % 3 == 1 ? UINT64_MAX : next();
    const unsigned char *secret = bytes + length % 100;
    size_t size = 136 + length % 200;
    add(XXH32(bytes, length, (uint32_t)seed));
    add(XXH64(bytes, length, seed));
    add(XXH3_64bits(bytes, length));
    add(XXH3_64bits_withSeed(bytes, length, seed));
    add(XXH3_64bits_withSecret(bytes, length, secret, size));
    add(XXH3_64bits_withSecretandSeed(bytes, length, secret, size, seed));
    add_wide(XXH3_128bits(bytes, length));
    add_wide(XXH3_128bits_withSeed(bytes, length, seed));
    add_wide(XXH3_128bits_withSecret(bytes, length, secret, size));
    random_pieces(length);
    add(XXH32(bytes, length, (uint32_t)seed));
    add(XXH64(bytes, length, seed));
    add(XXH3_64bits_withSeed(bytes, length, seed));
    add_wide(XXH3_128bits(bytes, length));
}

int main(void) {
    static unsigned char bytes[9000];
    static const size_t longer[] = {2048, 2049, 4096, 5000, 8191, 9000};
    for (size_t i = 0; i < sizeof bytes; i++) {
        bytes[i] = (unsigned char)next();
    }
    for (size_t length = 0; length < 1100; length++) {
        add_hashes(bytes, length);
    }
    for (size_t i = 0; i < sizeof longer / sizeof *longer; i++) {
        add_hashes(bytes, longer[i]);
    }
    printf("%016llx\n", (unsigned long long)sum);
    return 0;
}
