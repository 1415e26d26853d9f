/* SPDX-License-Identifier: MIT */
/* The code of xxhash.h, inlined, compared with the reference's header on random calls.
 *
 *     source_values ROUNDS
 *
 * The reference is an object of its header, whose names begin with theirs_. Each input and secret is a block of its
 * exact length, at any alignment, for the sanitizers. Prints how much was compared, and returns 1 if something
 * differs. */
#define XXH_INLINE_ALL
#include "xxhash.h"
#include <stdio.h>
#include <stdlib.h>
#include <string.h>

#ifdef __cplusplus
extern "C" {
#endif
unsigned theirs_XXH32(const void *, size_t, unsigned);
uint64_t theirs_XXH64(const void *, size_t, uint64_t);
uint64_t theirs_XXH3_64bits(const void *, size_t);
uint64_t theirs_XXH3_64bits_withSeed(const void *, size_t, uint64_t);
uint64_t theirs_XXH3_64bits_withSecret(const void *, size_t, const void *, size_t);
uint64_t theirs_XXH3_64bits_withSecretandSeed(const void *, size_t, const void *, size_t, uint64_t);
XXH128_hash_t theirs_XXH3_128bits(const void *, size_t);
XXH128_hash_t theirs_XXH3_128bits_withSeed(const void *, size_t, uint64_t);
XXH128_hash_t theirs_XXH3_128bits_withSecret(const void *, size_t, const void *, size_t);
XXH128_hash_t theirs_XXH3_128bits_withSecretandSeed(const void *, size_t, const void *, size_t, uint64_t);
XXH128_hash_t theirs_XXH128(const void *, size_t, uint64_t);
int theirs_XXH128_isEqual(XXH128_hash_t, XXH128_hash_t);
int theirs_XXH128_cmp(const void *, const void *);
void theirs_XXH32_canonicalFromHash(XXH32_canonical_t *, XXH32_hash_t);
void theirs_XXH64_canonicalFromHash(XXH64_canonical_t *, XXH64_hash_t);
void theirs_XXH128_canonicalFromHash(XXH128_canonical_t *, XXH128_hash_t);
int theirs_XXH3_generateSecret(void *, size_t, const void *, size_t);
void theirs_XXH3_generateSecret_fromSeed(void *, uint64_t);
#ifdef __cplusplus
}
#endif

static unsigned long compared, differing;

static void check(int holds, const char *call, size_t length)
{
    compared++;
    if (!holds && ++differing <= 20) printf("    differs: %s of %lu bytes\n", call, (unsigned long)length);
}

static int is_same(XXH128_hash_t a, XXH128_hash_t b) { return a.low64 == b.low64 && a.high64 == b.high64; }

#define SAME(call, length, expected) check((call) == (expected), #call, length)
#define SAME_128(call, length, expected) check(is_same(call, expected), #call, length)

static uint64_t random_word(void)
{
    static uint64_t state = 88172645463325252u;
    state ^= state << 13;
    state ^= state >> 7;
    state ^= state << 17;
    return state;
}

static size_t random_below(size_t limit) { return (size_t)(random_word() >> 16) % limit; }

/* A block whose last bytes are random ones of this length, at an offset of 0 to 15 bytes from the block's start. */
struct block {
    unsigned char *start, *bytes;
    size_t length;
};

static struct block random_block(size_t length)
{
    struct block block;
    size_t offset = random_below(16), i;
    block.length = length;
    block.start = (unsigned char *)malloc(offset + length);
    if (!block.start && offset + length) exit(2);
    block.bytes = block.start + offset;
    for (i = 0; i < length; i++) block.bytes[i] = (unsigned char)random_word();
    return block;
}

struct inputs {
    struct block message, secret;
    uint64_t seed;
};

static void one_shots(const struct inputs *in)
{
    const unsigned char *p = in->message.bytes, *s = in->secret.bytes;
    const size_t n = in->message.length, k = in->secret.length;
    SAME(XXH32(p, n, (uint32_t)in->seed), n, theirs_XXH32(p, n, (uint32_t)in->seed));
    SAME(XXH64(p, n, in->seed), n, theirs_XXH64(p, n, in->seed));
    SAME(XXH3_64bits(p, n), n, theirs_XXH3_64bits(p, n));
    SAME(XXH3_64bits_withSeed(p, n, in->seed), n, theirs_XXH3_64bits_withSeed(p, n, in->seed));
    SAME(XXH3_64bits_withSecret(p, n, s, k), n, theirs_XXH3_64bits_withSecret(p, n, s, k));
    SAME(XXH3_64bits_withSecretandSeed(p, n, s, k, in->seed), n,
         theirs_XXH3_64bits_withSecretandSeed(p, n, s, k, in->seed));
    SAME_128(XXH3_128bits(p, n), n, theirs_XXH3_128bits(p, n));
    SAME_128(XXH128(p, n, in->seed), n, theirs_XXH128(p, n, in->seed));
    SAME_128(XXH3_128bits_withSeed(p, n, in->seed), n, theirs_XXH3_128bits_withSeed(p, n, in->seed));
    SAME_128(XXH3_128bits_withSecret(p, n, s, k), n, theirs_XXH3_128bits_withSecret(p, n, s, k));
    SAME_128(XXH3_128bits_withSecretandSeed(p, n, s, k, in->seed), n,
             theirs_XXH3_128bits_withSecretandSeed(p, n, s, k, in->seed));
}

/* A reset of each kind, one stream of random chunks, and digests in between of a copy. */
static void streams(const struct inputs *in)
{
    const unsigned char *p = in->message.bytes, *s = in->secret.bytes;
    const size_t n = in->message.length, k = in->secret.length;
    size_t at = 0;
    XXH32_state_t state_32;
    XXH64_state_t state_64;
    XXH3_state_t plain, seeded, keyed, both, copied;
    memset(&state_32, 0xa5, sizeof state_32);
    memset(&state_64, 0xa5, sizeof state_64);
    memset(&plain, 0xa5, sizeof plain);
    seeded = keyed = both = copied = plain;
    XXH32_reset(&state_32, (uint32_t)in->seed);
    XXH64_reset(&state_64, in->seed);
    XXH3_64bits_reset(&plain);
    XXH3_128bits_reset_withSeed(&seeded, in->seed);
    XXH3_64bits_reset_withSecret(&keyed, s, k);
    XXH3_128bits_reset_withSecretandSeed(&both, s, k, in->seed);
    while (at < n || random_below(4) == 0) {
        size_t chunk = random_below(3) ? random_below(400) : random_below(2) ? random_below(20) : random_below(5000);
        if (chunk > n - at) chunk = n - at;
        XXH32_update(&state_32, p + at, chunk);
        XXH64_update(&state_64, p + at, chunk);
        XXH3_64bits_update(&plain, p + at, chunk);
        XXH3_128bits_update(&seeded, p + at, chunk);
        XXH3_64bits_update(&keyed, p + at, chunk);
        XXH3_128bits_update(&both, p + at, chunk);
        at += chunk;
        if (random_below(8) == 0) {
            XXH3_copyState(&copied, &seeded);
            SAME(XXH3_64bits_digest(&copied), at, theirs_XXH3_64bits_withSeed(p, at, in->seed));
        }
    }
    SAME(XXH32_digest(&state_32), n, theirs_XXH32(p, n, (uint32_t)in->seed));
    SAME(XXH64_digest(&state_64), n, theirs_XXH64(p, n, in->seed));
    SAME(XXH3_64bits_digest(&plain), n, theirs_XXH3_64bits(p, n));
    SAME_128(XXH3_128bits_digest(&seeded), n, theirs_XXH3_128bits_withSeed(p, n, in->seed));
    SAME(XXH3_64bits_digest(&keyed), n, theirs_XXH3_64bits_withSecret(p, n, s, k));
    SAME_128(XXH3_128bits_digest(&keyed), n, theirs_XXH3_128bits_withSecret(p, n, s, k));
    SAME(XXH3_64bits_digest(&both), n, theirs_XXH3_64bits_withSecretandSeed(p, n, s, k, in->seed));
    SAME_128(XXH3_128bits_digest(&both), n, theirs_XXH3_128bits_withSecretandSeed(p, n, s, k, in->seed));
}

static int sign(int x) { return (x > 0) - (x < 0); }

static void forms_of_hashes(const struct inputs *in)
{
    XXH32_canonical_t ours_32, theirs_32;
    XXH64_canonical_t ours_64, theirs_64;
    XXH128_canonical_t ours_128, theirs_128;
    XXH128_hash_t hash, other;
    hash.low64 = random_word();
    hash.high64 = in->seed;
    other = hash;
    if (random_below(2)) other.low64 = random_word();
    if (random_below(2)) other.high64 = random_word();
    XXH32_canonicalFromHash(&ours_32, (uint32_t)in->seed);
    theirs_XXH32_canonicalFromHash(&theirs_32, (uint32_t)in->seed);
    XXH64_canonicalFromHash(&ours_64, in->seed);
    theirs_XXH64_canonicalFromHash(&theirs_64, in->seed);
    XXH128_canonicalFromHash(&ours_128, hash);
    theirs_XXH128_canonicalFromHash(&theirs_128, hash);
    check(memcmp(&ours_32, &theirs_32, 4) == 0 && XXH32_hashFromCanonical(&ours_32) == (uint32_t)in->seed,
          "XXH32_canonicalFromHash", 4);
    check(memcmp(&ours_64, &theirs_64, 8) == 0 && XXH64_hashFromCanonical(&ours_64) == in->seed,
          "XXH64_canonicalFromHash", 8);
    check(memcmp(&ours_128, &theirs_128, 16) == 0 && is_same(XXH128_hashFromCanonical(&ours_128), hash),
          "XXH128_canonicalFromHash", 16);
    SAME(XXH128_isEqual(hash, other), 16, theirs_XXH128_isEqual(hash, other));
    SAME(sign(XXH128_cmp(&hash, &other)), 16, sign(theirs_XXH128_cmp(&hash, &other)));
}

static void secrets(const struct inputs *in)
{
    unsigned char ours[1000], theirs[1000];
    const size_t n = in->message.length > 3000 ? 3000 : in->message.length, k = 136 + random_below(sizeof ours - 136);
    XXH3_generateSecret(ours, k, in->message.bytes, n);
    theirs_XXH3_generateSecret(theirs, k, in->message.bytes, n);
    check(memcmp(ours, theirs, k) == 0, "XXH3_generateSecret", n);
    XXH3_generateSecret_fromSeed(ours, in->seed);
    theirs_XXH3_generateSecret_fromSeed(theirs, in->seed);
    check(memcmp(ours, theirs, 192) == 0, "XXH3_generateSecret_fromSeed", 192);
}

/* Null pointers and short secrets, by the header's rules. */
static void refusals(void)
{
    unsigned char secret[192] = { 0 };
    XXH3_state_t state, *null_state = NULL;
    XXH32_state_t state_32;
    XXH64_state_t state_64;
    XXH3_64bits_reset(&state);
    XXH32_reset(&state_32, 0);
    XXH64_reset(&state_64, 0);
    check(XXH32(NULL, 0, 0) == 0x02CC5D05u && XXH64(NULL, 0, 0) == 0xEF46DB3751D8E999u
              && XXH3_64bits(NULL, 0) == 0x2D06800538D394C2u,
          "one-shots of null", 0);
    check(XXH32_update(&state_32, NULL, 0) == XXH_OK && XXH64_update(&state_64, NULL, 0) == XXH_OK
              && XXH3_64bits_update(&state, NULL, 0) == XXH_OK && XXH3_128bits_update(&state, NULL, 0) == XXH_OK,
          "updates of null", 0);
    check(XXH3_64bits_reset(null_state) == XXH_ERROR && XXH3_128bits_reset_withSeed(null_state, 1) == XXH_ERROR
              && XXH3_64bits_reset_withSecret(null_state, secret, 192) == XXH_ERROR
              && XXH3_64bits_reset_withSecret(&state, NULL, 192) == XXH_ERROR
              && XXH3_128bits_reset_withSecretandSeed(&state, secret, 135, 1) == XXH_ERROR,
          "refused resets", 0);
    check(XXH3_64bits_withSecret(secret, 1, secret, 135) == 0 && XXH3_128bits_withSecret(secret, 1, NULL, 0).high64 == 0
              && XXH3_64bits_withSecretandSeed(secret, 1, NULL, 0, 7) == XXH3_64bits_withSeed(secret, 1, 7),
          "secrets of fewer than 136 bytes", 1);
    check(XXH3_generateSecret(secret, 135, NULL, 0) == XXH_ERROR && XXH3_generateSecret(NULL, 192, NULL, 0) == XXH_ERROR
              && XXH3_generateSecret(secret, 192, NULL, 1) == XXH_ERROR,
          "refused secrets", 0);
}

/* States on the heap. */
static void memory(void)
{
    XXH32_state_t *state_32 = XXH32_createState();
    XXH64_state_t *state_64 = XXH64_createState();
    XXH3_state_t *state = XXH3_createState();
    check(state_32 && XXH32_digest(state_32) == XXH32("", 0, 0), "XXH32_createState", 0);
    check(state_64 && XXH64_digest(state_64) == XXH64("", 0, 0), "XXH64_createState", 0);
    check(state && (uintptr_t)state % 64 == 0 && XXH3_64bits_digest(state) == XXH3_64bits("", 0), "XXH3_createState",
          0);
    check(XXH32_freeState(state_32) == XXH_OK && XXH64_freeState(state_64) == XXH_OK && XXH3_freeState(state) == XXH_OK
              && XXH32_freeState(NULL) == XXH_OK && XXH64_freeState(NULL) == XXH_OK && XXH3_freeState(NULL) == XXH_OK,
          "freeState", 0);
    check(XXH_versionNumber() == XXH_VERSION_NUMBER, "XXH_versionNumber", 0);
    check(sizeof *state_32 == 48 && sizeof *state_64 == 88 && sizeof *state == 576, "sizes of states", 0);
}

int main(int argc, char **argv)
{
    long rounds = argc > 1 ? atol(argv[1]) : 1000, i;
    refusals();
    for (i = 0; i < rounds; i++) {
        struct inputs in;
        size_t limit = i % 10 < 6 ? 300 : i % 10 < 9 ? 3000 : 65000;
        in.message = random_block(random_below(limit));
        in.secret = random_block(136 + random_below(i % 5 ? 120 : 801));
        in.seed = random_below(4) ? random_word() : 0;
        one_shots(&in);
        streams(&in);
        forms_of_hashes(&in);
        secrets(&in);
        memory();
        free(in.message.start);
        free(in.secret.start);
    }
    printf("%lu compared, %lu differ\n", compared, differing);
    return differing != 0;
}
