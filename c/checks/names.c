/* SPDX-License-Identifier: MIT */
/* Calls each name of the headers, whatever library it is linked with, and prints the names that it called, in their
 * order. The one-shots are not compared here: they are in the oracle's table. Everything else is compared with
 * one-shots: streams in chunks, copies, other names of one call, secrets. At the first difference it prints an error
 * and returns 1. */
#include <stdio.h>
#include <stdlib.h>
#include <string.h>
#include "xxhash.h"
#if (defined(__x86_64__) || defined(__i386__)) && defined(__linux__)
#include "xxh_x86dispatch.h"
#endif

/* Each name, in the order of libxxhash.map. */
#define EACH_NAME(X, X_86) \
    X(XXH128) X(XXH128_canonicalFromHash) X(XXH128_cmp) X(XXH128_hashFromCanonical) X(XXH128_isEqual) \
    X(XXH32) X(XXH32_canonicalFromHash) X(XXH32_copyState) X(XXH32_createState) X(XXH32_digest) X(XXH32_freeState) \
    X(XXH32_hashFromCanonical) X(XXH32_reset) X(XXH32_update) \
    X(XXH3_128bits) X(XXH3_128bits_digest) X_86(XXH3_128bits_dispatch) X(XXH3_128bits_reset) \
    X(XXH3_128bits_reset_withSecret) X(XXH3_128bits_reset_withSecretandSeed) X(XXH3_128bits_reset_withSeed) \
    X(XXH3_128bits_update) X_86(XXH3_128bits_update_dispatch) X(XXH3_128bits_withSecret) \
    X_86(XXH3_128bits_withSecret_dispatch) X(XXH3_128bits_withSecretandSeed) X(XXH3_128bits_withSeed) \
    X_86(XXH3_128bits_withSeed_dispatch) \
    X(XXH3_64bits) X(XXH3_64bits_digest) X_86(XXH3_64bits_dispatch) X(XXH3_64bits_reset) \
    X(XXH3_64bits_reset_withSecret) X(XXH3_64bits_reset_withSecretandSeed) X(XXH3_64bits_reset_withSeed) \
    X(XXH3_64bits_update) X_86(XXH3_64bits_update_dispatch) X(XXH3_64bits_withSecret) \
    X_86(XXH3_64bits_withSecret_dispatch) X(XXH3_64bits_withSecretandSeed) X(XXH3_64bits_withSeed) \
    X_86(XXH3_64bits_withSeed_dispatch) \
    X(XXH3_copyState) X(XXH3_createState) X(XXH3_freeState) X(XXH3_generateSecret) X(XXH3_generateSecret_fromSeed) \
    X(XXH64) X(XXH64_canonicalFromHash) X(XXH64_copyState) X(XXH64_createState) X(XXH64_digest) X(XXH64_freeState) \
    X(XXH64_hashFromCanonical) X(XXH64_reset) X(XXH64_update) \
    X_86(XXH_featureTest) X(XXH_versionNumber)
#define NONE(name)
#if (defined(__x86_64__) || defined(__i386__)) && defined(__linux__)
#define ALL_NAMES(X) EACH_NAME(X, X)
#else
#define ALL_NAMES(X) EACH_NAME(X, NONE)
#endif

#define NUMBER(name) NUMBER_##name,
enum { ALL_NAMES(NUMBER) NAMES };
#define TEXT(name) #name,
static const char *const texts[NAMES] = { ALL_NAMES(TEXT) };
static char called[NAMES];

/* A name, which counts as called from here on. */
#define THE(name) (called[NUMBER_##name] = 1, name)

static void check(int holds, const char *what, size_t length)
{
    if (holds) return;
    fprintf(stderr, "names: %s, %zu bytes\n", what, length);
    exit(1);
}

static int same(XXH128_hash_t one, XXH128_hash_t other)
{
    return one.low64 == other.low64 && one.high64 == other.high64;
}

static unsigned char input[3000], secret[XXH3_SECRET_DEFAULT_SIZE];
static const XXH64_hash_t seed = 0x9e3779b97f4a7c15;

/* Passes the first bytes of the input to an update, in chunks that grow from 1 byte on. */
#define IN_PIECES(name, state, length) \
    do { \
        size_t piece_ = 1; \
        for (size_t at_ = 0; at_ < (length); at_ += piece_, piece_ += piece_ % 3 + 1) { \
            if (piece_ > (length) - at_) piece_ = (length) - at_; \
            check(THE(name)(state, input + at_, piece_) == XXH_OK, #name, length); \
        } \
    } while (0)

/* Streams of XXH32 and of XXH64: in chunks, copied on the way, and the copy continues. */
#define PLAIN(bits) \
    static void plain_##bits(size_t length) \
    { \
        XXH##bits##_state_t *state = THE(XXH##bits##_createState)(), *copy = XXH##bits##_createState(); \
        XXH##bits##_hash_t expected = THE(XXH##bits)(input, length, (XXH##bits##_hash_t)seed); \
        XXH##bits##_canonical_t bytes; \
        check(state && copy, "memory", length); \
        check(THE(XXH##bits##_reset)(state, (XXH##bits##_hash_t)seed) == XXH_OK, "XXH" #bits "_reset", length); \
        IN_PIECES(XXH##bits##_update, state, length); \
        THE(XXH##bits##_copyState)(copy, state); \
        check(THE(XXH##bits##_digest)(state) == expected, "a stream of XXH" #bits, length); \
        XXH##bits##_update(copy, input, 10); \
        check(XXH##bits##_digest(state) == expected, "a stream of XXH" #bits " after its copy went on", length); \
        check(XXH##bits##_digest(copy) != expected, "a copy of a stream of XXH" #bits, length); \
        check(THE(XXH##bits##_freeState)(state) == XXH_OK, "XXH" #bits "_freeState", length); \
        XXH##bits##_freeState(copy); \
        THE(XXH##bits##_canonicalFromHash)(&bytes, expected); \
        check(bytes.digest[0] == expected >> (bits - 8), "XXH" #bits "_canonicalFromHash", length); \
        check(THE(XXH##bits##_hashFromCanonical)(&bytes) == expected, "XXH" #bits "_hashFromCanonical", length); \
    }
PLAIN(32)
PLAIN(64)

/* A stream of XXH3 after one of the resets of a width. */
#define STREAM(width, differs, reset, update, expected) \
    do { \
        check(reset == XXH_OK, #reset, length); \
        IN_PIECES(update, state, length); \
        THE(XXH3_copyState)(copy, state); \
        check(!(differs(THE(XXH3_##width##bits_digest)(copy), expected)), "after " #reset, length); \
    } while (0)

#define SECRET secret, sizeof secret
#define WIDTH(width, differs, update_2) \
    static void streams_##width(XXH3_state_t *state, XXH3_state_t *copy, size_t length) \
    { \
        STREAM(width, differs, THE(XXH3_##width##bits_reset)(state), XXH3_##width##bits_update, \
               THE(XXH3_##width##bits)(input, length)); \
        STREAM(width, differs, THE(XXH3_##width##bits_reset_withSeed)(state, seed), update_2, \
               THE(XXH3_##width##bits_withSeed)(input, length, seed)); \
        STREAM(width, differs, THE(XXH3_##width##bits_reset_withSecret)(state, SECRET), XXH3_##width##bits_update, \
               THE(XXH3_##width##bits_withSecret)(input, length, SECRET)); \
        STREAM(width, differs, THE(XXH3_##width##bits_reset_withSecretandSeed)(state, SECRET, seed), \
               XXH3_##width##bits_update, THE(XXH3_##width##bits_withSecretandSeed)(input, length, SECRET, seed)); \
    }
#define DIFFER(one, other) (one) != (other)
#define DIFFER_128(one, other) !same(one, other)
#if (defined(__x86_64__) || defined(__i386__)) && defined(__linux__)
WIDTH(64, DIFFER, XXH3_64bits_update_dispatch)
WIDTH(128, DIFFER_128, XXH3_128bits_update_dispatch)

static void other_names(size_t length)
{
    check(THE(XXH3_64bits_dispatch)(input, length) == XXH3_64bits(input, length), "XXH3_64bits_dispatch", length);
    check(THE(XXH3_64bits_withSeed_dispatch)(input, length, seed) == XXH3_64bits_withSeed(input, length, seed),
         "XXH3_64bits_withSeed_dispatch", length);
    check(THE(XXH3_64bits_withSecret_dispatch)(input, length, SECRET) == XXH3_64bits_withSecret(input, length, SECRET),
         "XXH3_64bits_withSecret_dispatch", length);
    check(same(THE(XXH3_128bits_dispatch)(input, length), XXH3_128bits(input, length)), "XXH3_128bits_dispatch",
          length);
    check(same(THE(XXH3_128bits_withSeed_dispatch)(input, length, seed), XXH3_128bits_withSeed(input, length, seed)),
         "XXH3_128bits_withSeed_dispatch", length);
    check(same(THE(XXH3_128bits_withSecret_dispatch)(input, length, SECRET),
              XXH3_128bits_withSecret(input, length, SECRET)), "XXH3_128bits_withSecret_dispatch", length);
    check(THE(XXH_featureTest)() >= XXH_SSE2 && XXH_featureTest() <= XXH_AVX512, "XXH_featureTest", length);
}
#else
WIDTH(64, DIFFER, XXH3_64bits_update)
WIDTH(128, DIFFER_128, XXH3_128bits_update)

static void other_names(size_t length) { (void)length; }
#endif

static void streams_of_xxh3(size_t length)
{
    XXH3_state_t *state = THE(XXH3_createState)(), *copy = XXH3_createState();
    check(state && copy, "memory", length);
    streams_64(state, copy, length);
    streams_128(state, copy, length);
    check(THE(XXH3_freeState)(state) == XXH_OK, "XXH3_freeState", length);
    XXH3_freeState(copy);
}

/* 128-bit values: their order and their bytes. */
static void values_of_128(size_t length)
{
    XXH128_hash_t one = THE(XXH128)(input, length, seed), other = one;
    XXH128_canonical_t bytes;
    check(same(one, XXH3_128bits_withSeed(input, length, seed)), "XXH128", length);
    check(THE(XXH128_isEqual)(one, other) && !THE(XXH128_cmp)(&one, &other), "XXH128_isEqual of one hash", length);
    other.low64 ^= 1;
    check(!XXH128_isEqual(one, other), "XXH128_isEqual of two", length);
    check((XXH128_cmp(&one, &other) > 0) == (one.low64 > other.low64), "XXH128_cmp", length);
    THE(XXH128_canonicalFromHash)(&bytes, one);
    check(bytes.digest[0] == one.high64 >> 56 && bytes.digest[15] == (one.low64 & 255), "XXH128_canonicalFromHash",
         length);
    check(same(THE(XXH128_hashFromCanonical)(&bytes), one), "XXH128_hashFromCanonical", length);
}

/* The secret of a seed gives the values of the seed if only the secret is used. */
static void secrets(void)
{
    check(THE(XXH3_generateSecret)(secret, sizeof secret, "custom", 6) == XXH_OK, "XXH3_generateSecret", 6);
    check(XXH3_generateSecret(secret, XXH3_SECRET_SIZE_MIN - 1, "custom", 6) == XXH_ERROR, "XXH3_generateSecret, few",
          6);
    THE(XXH3_generateSecret_fromSeed)(secret, seed);
    check(XXH3_64bits_withSecret(input, sizeof input, SECRET) == XXH3_64bits_withSeed(input, sizeof input, seed),
         "XXH3_generateSecret_fromSeed", sizeof input);
}

int main(void)
{
    static const size_t lengths[] = { 0, 1, 15, 16, 17, 31, 32, 100, 240, 241, 511, 512, 513, 1025, sizeof input };
    for (size_t i = 0; i < sizeof input; i++) input[i] = (unsigned char)(i * i >> 3 ^ i);
    check(THE(XXH_versionNumber)() == XXH_VERSION_NUMBER, "XXH_versionNumber", 0);
    secrets();
    for (size_t i = 0; i < sizeof lengths / sizeof *lengths; i++) {
        plain_32(lengths[i]);
        plain_64(lengths[i]);
        streams_of_xxh3(lengths[i]);
        values_of_128(lengths[i]);
        other_names(lengths[i]);
    }
    for (int name = 0; name < NAMES; name++)
        if (called[name]) puts(texts[name]);
    return 0;
}
