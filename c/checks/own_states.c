/* SPDX-License-Identifier: MIT */
/* States that a program allocates itself, by the header that this is compiled with: the C library's or ours.
 *
 *     own_states REFERENCE OURS
 *
 * Each state of XXH32 and of XXH64 is placed between bytes that must not change, at every place of its alignment.
 * Its digests are compared with the reference's one-shots, with splits and copies. Memory that was never reset is
 * tested only with ours: what debuggers and allocators leave is refused, and so is a value adjacent to a valid mark.
 * Memory whose mark passes by chance has some value, and nothing outside it is read or written: it is also placed
 * next to memory that may not be read. Prints how much was compared, and returns 1 if something differs. */
#define XXH_STATIC_LINKING_ONLY
#include <dlfcn.h>
#include <stdalign.h>
#include <stdint.h>
#include <stdio.h>
#include <stdlib.h>
#include <string.h>
#include <sys/mman.h>
#include <unistd.h>
#include <xxhash.h>

_Static_assert(sizeof(XXH32_state_t) == 48 && alignof(XXH32_state_t) == 4, "XXH32_state_t");
_Static_assert(sizeof(XXH64_state_t) == 88 && alignof(XXH64_state_t) == 8, "XXH64_state_t");

#define BESIDE 64    /* bytes on each side of a state */
#define STAYS 0xa5   /* their value */
#define MARK_32 0x32335858u
#define MARK_64 0x34365858u

static long compared, bad;

static void check(int holds, const char *what)
{
    compared++;
    if (!holds && ++bad <= 20) printf("    differs: %s\n", what);
}

static uint64_t random_word(void)
{
    static uint64_t x = 0x9e3779b97f4a7c15;
    x ^= x << 13;
    x ^= x >> 7;
    return x ^= x << 17;
}

static unsigned char input[1500];

static void *symbol(const char *path, const char *name)
{
    void *library = dlopen(path, RTLD_NOW | RTLD_LOCAL), *found = library ? dlsym(library, name) : NULL;
    if (found) return found;
    fprintf(stderr, "own_states: %s has no %s\n", path, name);
    exit(2);
}

/* A buffer with a state in it, and whether the bytes on both sides of it are unchanged. */
struct buffer {
    alignas(64) unsigned char bytes[BESIDE + 64 + 88 + BESIDE];
};

static void fill(struct buffer *buffer) { memset(buffer->bytes, STAYS, sizeof buffer->bytes); }

static int stays(const struct buffer *buffer, const void *state, size_t size)
{
    size_t at = (size_t)((const unsigned char *)state - buffer->bytes);
    for (size_t i = 0; i < sizeof buffer->bytes; i++)
        if ((i < at || i >= at + size) && buffer->bytes[i] != STAYS) return 0;
    return 1;
}

/* A page between two that may not be read. */
static unsigned char *lone_page(size_t size)
{
    unsigned char *pages = mmap(0, 3 * size, PROT_NONE, MAP_PRIVATE | MAP_ANONYMOUS, -1, 0);
    if (pages == MAP_FAILED || mprotect(pages + size, size, PROT_READ | PROT_WRITE)) {
        fprintf(stderr, "own_states: no memory\n");
        exit(2);
    }
    return pages + size;
}

/* The calls of an algorithm, and its tests. `place` is the offset of its mark. */
#define ALGORITHM(bits, stripe, place, mark) \
    struct calls_##bits { \
        __typeof__(&XXH##bits) whole; \
        __typeof__(&XXH##bits##_reset) reset; \
        __typeof__(&XXH##bits##_update) update; \
        __typeof__(&XXH##bits##_digest) digest; \
        __typeof__(&XXH##bits##_copyState) copy; \
    }; \
    static struct calls_##bits calls_of_##bits(const char *reference, const char *ours) \
    { \
        return (struct calls_##bits){ (__typeof__(&XXH##bits))symbol(reference, "XXH" #bits), \
                                      (__typeof__(&XXH##bits##_reset))symbol(ours, "XXH" #bits "_reset"), \
                                      (__typeof__(&XXH##bits##_update))symbol(ours, "XXH" #bits "_update"), \
                                      (__typeof__(&XXH##bits##_digest))symbol(ours, "XXH" #bits "_digest"), \
                                      (__typeof__(&XXH##bits##_copyState))symbol(ours, "XXH" #bits "_copyState") }; \
    } \
    /* A stream in a state, and a copy of it in another. */ \
    static void stream_##bits(struct calls_##bits by, struct buffer *buffer, struct buffer *other, size_t at, \
                              size_t most) \
    { \
        XXH##bits##_state_t *state = (void *)(buffer->bytes + at), *copy = (void *)(other->bytes + at); \
        XXH##bits##_hash_t seed = (XXH##bits##_hash_t)random_word(); \
        check(by.reset(state, seed) == XXH_OK, "a reset of XXH" #bits); \
        for (size_t taken = 0, piece; taken < sizeof input; taken += piece) { \
            piece = random_word() % most; \
            if (piece > sizeof input - taken) piece = sizeof input - taken; \
            check(by.update(state, input + taken, piece) == XXH_OK, "an update of XXH" #bits); \
            check(by.digest(state) == by.whole(input, taken + piece, seed), "a digest of XXH" #bits); \
            by.copy(copy, state); \
            check(by.digest(copy) == by.digest(state), "a copy of XXH" #bits); \
        } \
        check(stays(buffer, state, sizeof *state) && stays(other, copy, sizeof *copy), "what lies beside XXH" #bits); \
    } \
    /* Memory that is no state is refused, and stays as it is. */ \
    static void refused_##bits(struct calls_##bits by, struct buffer *buffer, size_t at, const char *what) \
    { \
        XXH##bits##_state_t *state = (void *)(buffer->bytes + at); \
        struct buffer before = *buffer; \
        check(by.update(state, input, 3) == XXH_ERROR && by.digest(state) == 0, what); \
        check(!memcmp(before.bytes, buffer->bytes, sizeof before.bytes), what); \
    } \
    static void never_reset_##bits(struct calls_##bits by, struct buffer *buffer, size_t at) \
    { \
        static const int left[] = { 0, 0xff, 0xcc, 0xcd, 0xdd, 0xfe, 0xaa, STAYS }; \
        unsigned char *state = buffer->bytes + at; \
        for (size_t i = 0; i < sizeof left / sizeof *left; i++) { \
            memset(state, left[i], sizeof(XXH##bits##_state_t)); \
            refused_##bits(by, buffer, at, "XXH" #bits " of memory of one byte"); \
        } \
    } \
    /* A word of the mark and a number of bytes, in memory of any other bytes. */ \
    static void put_word_##bits(unsigned char *state, int usage) \
    { \
        uint32_t word = mark + (uint32_t)usage; \
        for (size_t i = 0; i < sizeof(XXH##bits##_state_t); i++) state[i] = (unsigned char)random_word(); \
        memcpy(state + place, &word, sizeof word); \
    } \
    static void word_##bits(struct calls_##bits by, struct buffer *buffer, size_t at, int usage) \
    { \
        unsigned char *state = buffer->bytes + at; \
        put_word_##bits(state, usage); \
        if (usage < 0 || usage >= stripe) { \
            refused_##bits(by, buffer, at, "XXH" #bits " of a word beside the mark"); \
            return; \
        } \
        check(by.update((void *)state, input, random_word() % 100) == XXH_OK, "XXH" #bits " of a word that passes"); \
        by.digest((void *)state); \
        check(stays(buffer, state, sizeof(XXH##bits##_state_t)), \
              "what lies beside XXH" #bits " of a word that passes"); \
    } \
    /* Such memory at the start and at the end of a page, next to memory that can't be read. */ \
    static void lone_##bits(struct calls_##bits by) \
    { \
        size_t size = (size_t)sysconf(_SC_PAGESIZE); \
        unsigned char *page = lone_page(size), *ends[] = { page, page + size - sizeof(XXH##bits##_state_t) }; \
        for (int try = 0; try < 2000; try++) { \
            unsigned char *state = ends[try % 2]; \
            put_word_##bits(state, (int)(random_word() % (stripe + 4)) - 2); \
            by.update((void *)state, input, random_word() % 100); \
            by.digest((void *)state); \
        } \
        munmap(page - size, 3 * size); \
    } \
    static void try_##bits(const char *reference, const char *ours) \
    { \
        struct calls_##bits by = calls_of_##bits(reference, ours); \
        struct buffer buffer, other; \
        lone_##bits(by); \
        for (size_t at = BESIDE; at < BESIDE + 64; at += alignof(XXH##bits##_state_t)) { \
            fill(&buffer), fill(&other); \
            for (int round = 0; round < 50; round++) stream_##bits(by, &buffer, &other, at, round % 4 ? 20 : 300); \
            never_reset_##bits(by, &buffer, at); \
            for (int usage = -2; usage <= stripe + 2; usage++) word_##bits(by, &buffer, at, usage); \
        } \
    }
ALGORITHM(32, 16, 12, MARK_32)
ALGORITHM(64, 32, 40, MARK_64)

/* Variables on the stack, next to each other, as in most programs. */
static void on_the_stack(const char *reference, const char *ours)
{
    struct calls_32 by_32 = calls_of_32(reference, ours);
    struct calls_64 by_64 = calls_of_64(reference, ours);
    XXH32_state_t first;
    XXH64_state_t second;
    XXH32_state_t third;
    by_32.reset(&first, 1), by_64.reset(&second, 2), by_32.reset(&third, 3);
    by_32.update(&first, input, 100), by_64.update(&second, input, 200), by_32.update(&third, input, 300);
    check(by_32.digest(&first) == by_32.whole(input, 100, 1), "the first state on the stack");
    check(by_64.digest(&second) == by_64.whole(input, 200, 2), "the second state on the stack");
    check(by_32.digest(&third) == by_32.whole(input, 300, 3), "the third state on the stack");
}

int main(int count, char **argv)
{
    if (count != 3) {
        fprintf(stderr, "usage: own_states REFERENCE OURS\n");
        return 2;
    }
    for (size_t i = 0; i < sizeof input; i++) input[i] = (unsigned char)random_word();
    try_32(argv[1], argv[2]);
    try_64(argv[1], argv[2]);
    on_the_stack(argv[1], argv[2]);
    printf("%ld compared, %ld differ\n", compared, bad);
    return bad != 0;
}
