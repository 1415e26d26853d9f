/* Writes requests to the reference library and its values, one per line: the oracle of this repository.
 *
 *     HASH SEED SECRET LENGTH START ANSWER
 *
 * HASH is 32, 64, 3-64 or 3-128. SEED is the seed in hexadecimal, or - for none. SECRET is LENGTH:START of the
 * secret's bytes, or - for none. LENGTH and START give the input's bytes. ANSWER is in hexadecimal, as long
 * as the hash. The bytes of START are the highest bytes of the numbers x after START, where a number's
 * successor is x * 6364136223846793005 + 1442695040888963407 modulo 2^64, so that no row holds its bytes.
 */
#define XXH_STATIC_LINKING_ONLY
#include <inttypes.h>
#include <stdio.h>
#include <stdlib.h>
#include <string.h>
#include <xxhash.h>

#define LONGEST 100000
#define LONGEST_SECRET 1000
#define LONGEST_RANDOM 5000 /* of a request of random length */

static uint64_t next_number(uint64_t x) { return x * 6364136223846793005u + 1442695040888963407u; }

static void fill(unsigned char *bytes, size_t length, uint64_t start)
{
    uint64_t x = start;
    for (size_t i = 0; i < length; i++) {
        x = next_number(x);
        bytes[i] = (unsigned char)(x >> 56);
    }
}

/* The generator of random requests, fixed so that the table is the same each time. */
static uint64_t state = 0x243F6A8885A308D3u;
static uint64_t random_number(void)
{
    state ^= state << 13;
    state ^= state >> 7;
    state ^= state << 17;
    return state;
}

static unsigned char input[LONGEST], secret[LONGEST_SECRET];

enum hash { H32, H64, H3_64, H3_128 };
static const char *const names[] = { "32", "64", "3-64", "3-128" };

static void print_wide(XXH128_hash_t h) { printf("%016" PRIx64 "%016" PRIx64 "\n", h.high64, h.low64); }

/* In what follows each random number is drawn into a variable of its own: a compiler chooses the order in which it
 * evaluates the arguments of a call, and the table is the same on every processor. */

/* A request with a seed and no secret. */
static void seeded(enum hash hash, uint64_t seed, size_t length, uint64_t start)
{
    fill(input, length, start);
    printf("%s %" PRIx64 " - %zu %" PRIx64 " ", names[hash], seed, length, start);
    switch (hash) {
    case H32: printf("%08" PRIx32 "\n", XXH32(input, length, (XXH32_hash_t)seed)); break;
    case H64: printf("%016" PRIx64 "\n", XXH64(input, length, seed)); break;
    case H3_64: printf("%016" PRIx64 "\n", XXH3_64bits_withSeed(input, length, seed)); break;
    case H3_128: print_wide(XXH3_128bits_withSeed(input, length, seed)); break;
    }
}

/* A test case with a random input. */
static void seeded_input(enum hash hash, uint64_t seed, size_t length)
{
    const uint64_t start = random_number();
    seeded(hash, seed, length, start);
}

/* A test case with a random input and a random seed. */
static void seeded_at_random(enum hash hash, size_t length)
{
    const uint64_t start = random_number();
    const uint64_t seed = random_number();
    seeded(hash, hash == H32 ? seed & 0xFFFFFFFFu : seed, length, start);
}

/* A request with only a secret, or with a seed too. */
static void keyed(enum hash hash, int has_seed, uint64_t seed, size_t secret_length, uint64_t secret_start,
                  size_t length, uint64_t start)
{
    fill(input, length, start);
    fill(secret, secret_length, secret_start);
    printf("%s ", names[hash]);
    if (has_seed) printf("%" PRIx64, seed); else printf("-");
    printf(" %zu:%" PRIx64 " %zu %" PRIx64 " ", secret_length, secret_start, length, start);
    if (hash == H3_64)
        printf("%016" PRIx64 "\n", has_seed ? XXH3_64bits_withSecretandSeed(input, length, secret, secret_length, seed)
                                            : XXH3_64bits_withSecret(input, length, secret, secret_length));
    else
        print_wide(has_seed ? XXH3_128bits_withSecretandSeed(input, length, secret, secret_length, seed)
                            : XXH3_128bits_withSecret(input, length, secret, secret_length));
}

/* A test case with a random secret and input, and no seed. */
static void keyed_alone(enum hash hash, size_t secret_length, size_t length)
{
    const uint64_t start = random_number();
    const uint64_t secret_start = random_number();
    keyed(hash, 0, 0, secret_length, secret_start, length, start);
}

/* A test case with a random secret and input. The seed is drawn even if it isn't used, so that later test cases stay
   the same. */
static void keyed_and_seeded(enum hash hash, int has_seed, size_t secret_length, size_t length)
{
    const uint64_t start = random_number();
    const uint64_t secret_start = random_number();
    const uint64_t seed = random_number();
    keyed(hash, has_seed, seed, secret_length, secret_start, length, start);
}

/* The edges of every range, stripe, block and buffer. */
static const size_t edges[] = {
    0, 1, 3, 4, 7, 8, 9, 15, 16, 17, 31, 32, 33, 63, 64, 65, 95, 96, 97, 127, 128, 129, 143, 144, 145, 159, 160,
    191, 192, 193, 223, 224, 225, 239, 240, 241, 255, 256, 257, 319, 320, 321, 383, 384, 385, 511, 512, 513, 575,
    576, 577, 578, 639, 640, 641, 767, 768, 769, 1023, 1024, 1025, 1087, 1088, 1089, 2047, 2048, 2049, 2111, 2112,
    3071, 3072, 3073, 4095, 4096, 4097, 4607, 4608, 4609, 4999, 5000,
};
#define EDGES (sizeof edges / sizeof edges[0])

static void all_seeded(enum hash hash)
{
    const uint64_t mask = hash == H32 ? 0xFFFFFFFFu : UINT64_MAX;
    const uint64_t seeds[] = { 0, 1, 0xFFFFFFFFu, 0x8000000000000000u, UINT64_MAX };
    for (size_t length = 0; length <= 300; length++) {
        seeded_input(hash, 0, length);
        seeded_at_random(hash, length);
    }
    for (size_t e = 0; e < EDGES; e++) {
        for (size_t s = 0; s < sizeof seeds / sizeof seeds[0]; s++) seeded_input(hash, seeds[s] & mask, edges[e]);
        seeded_at_random(hash, edges[e]);
    }
    for (int k = 0; k < 200; k++) {
        size_t length = random_number() % (LONGEST_RANDOM + 1);
        seeded_at_random(hash, length);
    }
}

static void all_keyed(enum hash hash)
{
    const size_t lengths[] = { 136, 137, 143, 144, 192, 256, 300 };
    for (size_t l = 0; l < sizeof lengths / sizeof lengths[0]; l++) {
        for (size_t e = 0; e < EDGES; e++) {
            keyed_alone(hash, lengths[l], edges[e]);
            keyed_and_seeded(hash, 1, lengths[l], edges[e]);
        }
        for (int k = 0; k < 40; k++) {
            size_t length = random_number() % (LONGEST_RANDOM + 1);
            keyed_and_seeded(hash, k % 2, lengths[l], length);
        }
    }
}

/* Under secrets of these lengths the inputs of every length to 1,100: up to 240 bytes, where a secret has an
 * effect only by itself, with no seed, and above with one. */
static void every_length(enum hash hash)
{
    const size_t lengths[] = { 136, 137, 143, 144, 192, 300 };
    for (size_t l = 0; l < sizeof lengths / sizeof lengths[0]; l++) {
        const uint64_t secret_start = random_number();
        for (size_t length = 0; length <= 1100; length++) {
            const uint64_t start = random_number();
            const uint64_t seed = random_number();
            keyed(hash, length > 240, seed, lengths[l], secret_start, length, start);
        }
    }
}

/* Under secrets of every kind of length the edges of the first three blocks: a block has a stripe for each eight
 * bytes of the secret except its last 64, and a scramble ends it. */
static void past_scrambles(enum hash hash)
{
    const size_t lengths[] = { 136, 137, 143, 144, 192, 300, 301, 500, 777, 999, 1000 };
    for (size_t l = 0; l < sizeof lengths / sizeof lengths[0]; l++)
        for (size_t block = 1; block <= 3; block++)
            for (size_t past = 0; past <= 3; past++) {
                const size_t length = block * 64 * ((lengths[l] - 64) / 8) + past - 1;
                keyed_alone(hash, lengths[l], length);
                keyed_and_seeded(hash, 1, lengths[l], length);
            }
}

/* Inputs of up to 100,000 bytes. */
static void long_inputs(enum hash hash)
{
    const size_t lengths[] = { 10000, 10240, 16384, 32767, 49151, 49152, 49153, 65535, 65536, 65537, 99999, 100000 };
    const size_t secrets[] = { 136, 192, 1000 };
    for (size_t l = 0; l < sizeof lengths / sizeof lengths[0]; l++) {
        seeded_input(hash, 0, lengths[l]);
        seeded_at_random(hash, lengths[l]);
        for (size_t s = 0; s < 3 && hash >= H3_64; s++) keyed_and_seeded(hash, s == 1, secrets[s], lengths[l]);
    }
}

int main(void)
{
    printf("# Answers of xxHash %d.%d.%d, made by oracle/make-vectors\n", XXH_versionNumber() / 10000,
           XXH_versionNumber() / 100 % 100, XXH_versionNumber() % 100);
    for (int hash = H32; hash <= H3_128; hash++) all_seeded((enum hash)hash);
    all_keyed(H3_64);
    all_keyed(H3_128);
    for (int hash = H3_64; hash <= H3_128; hash++) every_length((enum hash)hash);
    for (int hash = H3_64; hash <= H3_128; hash++) past_scrambles((enum hash)hash);
    for (int hash = H32; hash <= H3_128; hash++) long_inputs((enum hash)hash);
    return 0;
}
