/* SPDX-License-Identifier: MIT */
/* States of XXH3 that a program allocates itself, by the header that this is compiled with: the C library's or ours.
 *
 *     own_states_3 REFERENCE OURS
 *
 * A state of exactly 576 bytes is placed at the start and at the end of a page between two that may not be read, and at
 * multiples of 8 bytes there, after memory of several kinds. Its digests of both widths are compared with the
 * reference's one-shots, for all four resets, secrets of 136 to 935 bytes, copies and splits. Memory without a mark is
 * refused, and its address isn't followed. Prints how much was compared, and returns 1 if something differs. */
#define XXH_STATIC_LINKING_ONLY
#include <dlfcn.h>
#include <stdint.h>
#include <stdio.h>
#include <stdlib.h>
#include <string.h>
#include <sys/mman.h>
#include <unistd.h>
#include <xxhash.h>

enum { BYTES = 576, BUFFERED = 80, MARK = 544, LENGTH = 560, ADDRESS = 568, LONGEST_SECRET = 935 };
_Static_assert(sizeof(XXH3_state_t) == BYTES && _Alignof(XXH3_state_t) == 64, "XXH3_state_t");

#define EACH(X) \
    X(XXH3_64bits_withSeed) X(XXH3_64bits_withSecret) X(XXH3_64bits_withSecretandSeed) \
    X(XXH3_128bits_withSeed) X(XXH3_128bits_withSecret) X(XXH3_128bits_withSecretandSeed) \
    X(XXH3_64bits_reset) X(XXH3_128bits_reset_withSeed) X(XXH3_64bits_reset_withSecret) \
    X(XXH3_128bits_reset_withSecret) X(XXH3_128bits_reset_withSecretandSeed) X(XXH3_64bits_reset_withSecretandSeed) \
    X(XXH3_64bits_update) X(XXH3_128bits_update) X(XXH3_64bits_digest) X(XXH3_128bits_digest) X(XXH3_copyState) \
    X(XXH3_createState) X(XXH3_freeState)
#define MEMBER(name) __typeof__(&name) name;
struct library {
    EACH(MEMBER)
};

static struct library reference, ours;
static long compared, bad;
static unsigned char input[20000], secret[LONGEST_SECRET];

static void check(int holds, const char *what, size_t number)
{
    compared++;
    if (!holds && ++bad <= 20) printf("    differs: %s, %zu\n", what, number);
}

static uint64_t random_word(void)
{
    static uint64_t x = 0x9e3779b97f4a7c15;
    x ^= x << 13;
    x ^= x >> 7;
    return x ^= x << 17;
}

static struct library opened(const char *path)
{
    struct library all;
    void *file = dlopen(path, RTLD_NOW | RTLD_LOCAL);
#define FIND(name) \
    if (!file || !(all.name = (__typeof__(&name))dlsym(file, #name))) { \
        fprintf(stderr, "own_states_3: %s has no " #name "\n", path); \
        exit(2); \
    }
    EACH(FIND)
    return all;
}

/* Pages, the first and the last of which may not be read. Returns the second. */
static unsigned char *lone_page(size_t size)
{
    unsigned char *pages = mmap(0, 3 * size, PROT_NONE, MAP_PRIVATE | MAP_ANONYMOUS, -1, 0);
    if (pages == MAP_FAILED || mprotect(pages + size, size, PROT_READ | PROT_WRITE)) {
        fprintf(stderr, "own_states_3: no memory\n");
        exit(2);
    }
    return pages + size;
}

/* ---- Streams ---- */

/* How a state is reset: the number of a call, a seed, and the length of a secret. */
struct key {
    int call;
    uint64_t seed;
    size_t length;
};

static struct key random_key(void)
{
    static const size_t lengths[] = { 136, 137, 191, 192, 193, 256, LONGEST_SECRET };
    const size_t few = sizeof lengths / sizeof *lengths, pick = random_word() % (2 * few);
    const size_t length = pick < few ? lengths[pick] : 136 + random_word() % (LONGEST_SECRET - 135);
    return (struct key){ (int)(random_word() % 6), random_word() % 4 ? random_word() : 0, length };
}

static XXH_errorcode reset(XXH3_state_t *state, struct key key)
{
    switch (key.call) {
    case 0: return ours.XXH3_64bits_reset(state);
    case 1: return ours.XXH3_128bits_reset_withSeed(state, key.seed);
    case 2: return ours.XXH3_64bits_reset_withSecret(state, secret, key.length);
    case 3: return ours.XXH3_128bits_reset_withSecret(state, secret, key.length);
    case 4: return ours.XXH3_64bits_reset_withSecretandSeed(state, secret, key.length, key.seed);
    default: return ours.XXH3_128bits_reset_withSecretandSeed(state, secret, key.length, key.seed);
    }
}

static int is_right(const XXH3_state_t *state, struct key key, size_t n)
{
    const XXH64_hash_t narrow = ours.XXH3_64bits_digest(state);
    const XXH128_hash_t wide = ours.XXH3_128bits_digest(state);
    const uint64_t seed = key.call ? key.seed : 0;
    XXH64_hash_t first;
    XXH128_hash_t second;
    if (key.call < 2) {
        first = reference.XXH3_64bits_withSeed(input, n, seed);
        second = reference.XXH3_128bits_withSeed(input, n, seed);
    } else if (key.call < 4) {
        first = reference.XXH3_64bits_withSecret(input, n, secret, key.length);
        second = reference.XXH3_128bits_withSecret(input, n, secret, key.length);
    } else {
        first = reference.XXH3_64bits_withSecretandSeed(input, n, secret, key.length, seed);
        second = reference.XXH3_128bits_withSecretandSeed(input, n, secret, key.length, seed);
    }
    return narrow == first && wide.low64 == second.low64 && wide.high64 == second.high64;
}

/* What the memory of a state holds before its reset. */
static void before_reset(void *state, int form)
{
    static const int left[] = { 0, 0xff, 0xcc, 0xaa };
    if (form < 4) memset(state, left[form], BYTES);
    else if (form == 4) for (size_t i = 0; i < BYTES; i++) ((unsigned char *)state)[i] = (unsigned char)random_word();
    else if (form == 5) XXH3_INITSTATE((XXH3_state_t *)state);
}

/* A stream in a state, which moves to other memory and back between its chunks. */
static void stream(void *state, void *other, struct key key)
{
    const size_t most = (size_t)1 << (1 + random_word() % 12);
    before_reset(state, (int)(random_word() % 7));
    check(reset(state, key) == XXH_OK, "a reset", key.length);
    for (size_t n = 0, length; n < sizeof input - most && random_word() % 12; n += length) {
        length = random_word() % most;
        __typeof__(&XXH3_64bits_update) update = random_word() % 2 ? ours.XXH3_64bits_update : ours.XXH3_128bits_update;
        check(update(state, input + n, length) == XXH_OK, "an update", n);
        check(is_right(state, key, n + length), "a digest", n + length);
        if (random_word() % 3) continue;
        if (random_word() % 2) memcpy(other, state, BYTES);
        else ours.XXH3_copyState(other, state);
        memset(state, 0x5a, BYTES);
        memcpy(state, other, BYTES);
    }
}

static void streams(void)
{
    const size_t size = (size_t)sysconf(_SC_PAGESIZE);
    unsigned char *page = lone_page(size), *second = lone_page(size);
    for (int round = 0; round < 20000; round++) {
        const size_t off = 8 * (random_word() % 16);
        void *state = round % 2 ? page + off : page + size - BYTES - off;
        stream(state, round % 4 < 2 ? second : second + size - BYTES, random_key());
    }
    XXH3_state_t on_the_stack, beside;
    for (int round = 0; round < 2000; round++) stream(&on_the_stack, &beside, random_key());
}

/* ---- Refusals ---- */

static void refused(unsigned char *state, const char *what, size_t number)
{
    unsigned char before[BYTES];
    memcpy(before, state, BYTES);
    const XXH128_hash_t wide = ours.XXH3_128bits_digest((void *)state);
    check(ours.XXH3_64bits_update((void *)state, input, 300) == XXH_ERROR, what, number);
    check(ours.XXH3_128bits_update((void *)state, input, 3) == XXH_ERROR, what, number);
    check(ours.XXH3_64bits_digest((void *)state) == 0 && wide.low64 == 0 && wide.high64 == 0, what, number);
    check(!memcmp(before, state, BYTES), what, number);
}

/* Memory with no mark, whose address may not be read. */
static void without_a_mark(unsigned char *state, const unsigned char *nowhere)
{
    for (int form = 0; form < 5; form++) {
        before_reset(state, form);
        refused(state, "memory without a mark", (size_t)form);
        memcpy(state + ADDRESS, &nowhere, sizeof nowhere);
        refused(state, "memory without a mark, with an address", (size_t)form);
    }
    reference.XXH3_64bits_reset((void *)state);
    refused(state, "a reset of the reference", 0);
    reference.XXH3_64bits_reset_withSecret((void *)state, secret, 200);
    refused(state, "a reset of the reference with a secret", 200);
}

/* Each mark with one bit changed, and members that no call leaves. */
static void beside_a_mark(unsigned char *state)
{
    static const struct key keys[] = { { 0, 0, 0 }, { 2, 0, 192 }, { 2, 0, 200 }, { 4, 7, 200 } };
    for (size_t i = 0; i < sizeof keys / sizeof *keys; i++) {
        for (size_t bit = 0; bit < 64; bit++) {
            check(reset((void *)state, keys[i]) == XXH_OK, "a reset", i);
            state[MARK + bit / 8] ^= (unsigned char)(1 << bit % 8);
            refused(state, "a mark with another bit", 64 * i + bit);
        }
        check(reset((void *)state, keys[i]) == XXH_OK, "a reset", i);
        state[BUFFERED] = 1, state[BUFFERED + 1] = 1;
        refused(state, "257 bytes buffered", i);
    }
    for (uint64_t length = 0; length < 136; length += 27) {
        check(reset((void *)state, keys[2]) == XXH_OK, "a reset", length);
        memcpy(state + LENGTH, &length, sizeof length);
        refused(state, "a secret of a refused length", length);
    }
}

static void refused_resets(unsigned char *state)
{
    for (size_t length = 0; length < 136; length++)
        for (int call = 2; call < 6; call++) {
            check(reset((void *)state, (struct key){ call % 2 ? 1 : 2, 3, 300 }) == XXH_OK, "a reset", length);
            unsigned char before[BYTES];
            memcpy(before, state, BYTES);
            check(reset((void *)state, (struct key){ call, 5, length }) == XXH_ERROR, "a short secret", length);
            check(!memcmp(before, state, BYTES), "a state after a short secret", length);
        }
}

/* ---- What a state has of its secret ---- */

/* A secret of 192 bytes is copied. Another one is read at each call. */
static void changed_secrets(void *state)
{
    for (size_t length = 136; length <= LONGEST_SECRET; length += 28) {
        const struct key key = { 2, 0, length };
        unsigned char saved = secret[length - 1];
        check(reset(state, key) == XXH_OK && ours.XXH3_64bits_update(state, input, 100) == XXH_OK, "a stream", length);
        const XXH64_hash_t before = reference.XXH3_64bits_withSecret(input, 100, secret, length);
        for (size_t i = 0; i < length; i++) secret[i] ^= 0x81;
        const XXH64_hash_t after = reference.XXH3_64bits_withSecret(input, 100, secret, length);
        const XXH64_hash_t hash = ours.XXH3_64bits_digest(state);
        check(before != after && hash == (length == 192 ? before : after), "a changed secret", length);
        for (size_t i = 0; i < length; i++) secret[i] ^= 0x81;
        check(saved == secret[length - 1], "the secret", length);
    }
}

/* XXH3_INITSTATE in the middle of a stream: it clears the seed and, since 0.8.2, the address. */
static void initialized_states(void *state)
{
    const struct key keys[] = { { 0, 0, 0 }, { 2, 0, 192 }, { 2, 0, 200 } };
    for (size_t i = 0; i < sizeof keys / sizeof *keys; i++) {
        const void *address;
        check(reset(state, keys[i]) == XXH_OK && ours.XXH3_64bits_update(state, input, 1000) == XXH_OK, "a stream", i);
        XXH3_INITSTATE((XXH3_state_t *)state);
        memcpy(&address, (unsigned char *)state + ADDRESS, sizeof address);
        if (i < 2 || address) check(is_right(state, keys[i], 1000), "a state after XXH3_INITSTATE", i);
        else refused(state, "a state whose address XXH3_INITSTATE cleared", i);
    }
}

/* A created state has the alignment of its type, on which compilers rely when a program copies it. */
static void created_states(const struct library *library)
{
    for (size_t i = 0; i < 100; i++) {
        void *before = malloc(16 * i + 8);
        XXH3_state_t *state = library->XXH3_createState();
        check(before && state && !((uintptr_t)state % _Alignof(XXH3_state_t)), "the alignment of a created state", i);
        library->XXH3_freeState(state);
        free(before);
    }
}

int main(int count, char **argv)
{
    if (count != 3) {
        fprintf(stderr, "usage: own_states_3 REFERENCE OURS\n");
        return 2;
    }
    for (size_t i = 0; i < sizeof input; i++) input[i] = (unsigned char)random_word();
    for (size_t i = 0; i < sizeof secret; i++) secret[i] = (unsigned char)random_word();
    reference = opened(argv[1]);
    ours = opened(argv[2]);
    const size_t size = (size_t)sysconf(_SC_PAGESIZE);
    unsigned char *page = lone_page(size), *state = page + size - BYTES;
    streams();
    without_a_mark(state, page - size);
    beside_a_mark(state);
    refused_resets(state);
    changed_secrets(state);
    initialized_states(state);
    created_states(&reference);
    created_states(&ours);
    printf("%ld compared, %ld differ\n", compared, bad);
    return bad != 0;
}
