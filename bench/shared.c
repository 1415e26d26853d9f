/* Measures two shared libraries of the same names in turns, in one process, through the pointers of dlsym:
 *
 *     shared OURS THEIRS [--dispatch] [--quick] [--only WORD]..
 *
 * OURS and THEIRS are arguments of dlopen: a path, or libxxhash.so.0 for the file that the loader chooses. It writes a
 * line for each row and library, as driver.c does:
 *
 *     FORM NAME SIZE LIBRARY NANOSECONDS
 *
 * With --dispatch THEIRS is called by the names `.._dispatch`, if it has them.
 *
 * FORM is oneshot or stream; SIZE is the length of the input or of a stream's chunks. NANOSECONDS is the time of a
 * call, or of a stream for 1 MiB with its reset and its digest: the best of many short turns (turns.h). Before a row
 * is timed both must agree; otherwise the status is 1.
 */
#define _GNU_SOURCE
#include <dlfcn.h>
#include <link.h>
#include <stdbool.h>
#include "../c/include/xxhash.h"
#include "turns.h"

#define CAPACITY (64 * MIB)
#define SEED 7

#define EACH_CALL(X) \
    X(XXH32) X(XXH32_createState) X(XXH32_reset) X(XXH32_update) X(XXH32_digest) \
    X(XXH64) X(XXH64_createState) X(XXH64_reset) X(XXH64_update) X(XXH64_digest) X(XXH3_createState) \
    X(XXH3_64bits) X(XXH3_64bits_withSeed) X(XXH3_64bits_withSecret) X(XXH3_64bits_reset) \
    X(XXH3_64bits_reset_withSeed) X(XXH3_64bits_reset_withSecret) X(XXH3_64bits_update) X(XXH3_64bits_digest) \
    X(XXH3_128bits) X(XXH3_128bits_withSeed) X(XXH3_128bits_withSecret) X(XXH3_128bits_reset) \
    X(XXH3_128bits_reset_withSeed) X(XXH3_128bits_reset_withSecret) X(XXH3_128bits_update) X(XXH3_128bits_digest)

struct library {
    const char *name;
    XXH32_state_t *state_32;
    XXH64_state_t *state_64;
    XXH3_state_t *state_3;
#define MEMBER(name) __typeof__(&name) name;
    EACH_CALL(MEMBER)
};

static struct library libraries[2];

static void fail(const char *what)
{
    fprintf(stderr, "shared: %s\n", what);
    exit(1);
}

static void *address_of(void *handle, const char *call, bool is_dispatched)
{
    char name[64];
    snprintf(name, sizeof name, "%s_dispatch", call);
    void *address = is_dispatched ? dlsym(handle, name) : NULL;
    return address ? address : dlsym(handle, call);
}

static void load(struct library *library, const char *name, const char *path, bool is_dispatched)
{
    struct link_map *map;
    void *handle = dlopen(path, RTLD_NOW | RTLD_LOCAL);
    if (!handle) fail(dlerror());
    dlinfo(handle, RTLD_DI_LINKMAP, &map);
    fprintf(stderr, "%s: %s\n", name, map->l_name);
    library->name = name;
#define LOAD(call) \
    if (!(library->call = (__typeof__(&call))address_of(handle, #call, is_dispatched))) fail(dlerror());
    EACH_CALL(LOAD)
    library->state_32 = library->XXH32_createState();
    library->state_64 = library->XXH64_createState();
    library->state_3 = library->XXH3_createState();
    if (!library->state_32 || !library->state_64 || !library->state_3) fail("no memory");
}

enum form { ONESHOT, STREAM };
static const char *const forms[] = { "oneshot", "stream" };

enum hash {
    XXH32_,
    XXH64_,
    XXH3_64_,
    XXH3_64_SEEDED,
    XXH3_64_SECRET,
    XXH3_128_,
    XXH3_128_SEEDED,
    XXH3_128_SECRET,
    HASHES
};
static const char *const hashes[] = { "XXH32", "XXH64", "XXH3-64", "XXH3-64-seeded", "XXH3-64-secret", "XXH3-128",
    "XXH3-128-seeded", "XXH3-128-secret" };

static const char *form_of(struct row r) { return forms[r.form]; }
static const char *name_of(struct row r) { return hashes[r.which]; }

/* For 128 bits it returns the sum of the halves. */
static uint64_t both(XXH128_hash_t hash) { return hash.low64 + hash.high64; }

/* The sum of the results of this many one-shots. The call is chosen outside the loop. */
static uint64_t oneshots(const struct library *l, enum hash hash, size_t n, long times)
{
    uint64_t sum = 0;
#define TIMES(expression) do { for (long i = 0; i < times; i++) sum += (expression); return sum; } while (0)
    switch (hash) {
    case XXH32_: TIMES(l->XXH32(input, n, SEED));
    case XXH64_: TIMES(l->XXH64(input, n, SEED));
    case XXH3_64_: TIMES(l->XXH3_64bits(input, n));
    case XXH3_64_SEEDED: TIMES(l->XXH3_64bits_withSeed(input, n, SEED));
    case XXH3_64_SECRET: TIMES(l->XXH3_64bits_withSecret(input, n, secret, SECRET));
    case XXH3_128_: TIMES(both(l->XXH3_128bits(input, n)));
    case XXH3_128_SEEDED: TIMES(both(l->XXH3_128bits_withSeed(input, n, SEED)));
    default: TIMES(both(l->XXH3_128bits_withSecret(input, n, secret, SECRET)));
    }
}

/* The sum of the results of this many streams. */
static uint64_t streams(const struct library *l, enum hash hash, size_t piece, long times)
{
    const size_t n = stream_length(piece);
    uint64_t sum = 0;
#define FEED(update, state) \
    for (size_t at = 0; at < n; at += piece) l->update(l->state, input + at, n - at < piece ? n - at : piece)
#define STREAMS(reset, update, state, digest) \
    do { for (long i = 0; i < times; i++) { reset; FEED(update, state); sum += digest; } return sum; } while (0)
#define STREAMS_64(reset) STREAMS(reset, XXH3_64bits_update, state_3, l->XXH3_64bits_digest(l->state_3))
#define STREAMS_128(reset) STREAMS(reset, XXH3_128bits_update, state_3, both(l->XXH3_128bits_digest(l->state_3)))
    switch (hash) {
    case XXH32_: STREAMS(l->XXH32_reset(l->state_32, SEED), XXH32_update, state_32, l->XXH32_digest(l->state_32));
    case XXH64_: STREAMS(l->XXH64_reset(l->state_64, SEED), XXH64_update, state_64, l->XXH64_digest(l->state_64));
    case XXH3_64_: STREAMS_64(l->XXH3_64bits_reset(l->state_3));
    case XXH3_64_SEEDED: STREAMS_64(l->XXH3_64bits_reset_withSeed(l->state_3, SEED));
    case XXH3_64_SECRET: STREAMS_64(l->XXH3_64bits_reset_withSecret(l->state_3, secret, SECRET));
    case XXH3_128_: STREAMS_128(l->XXH3_128bits_reset(l->state_3));
    case XXH3_128_SEEDED: STREAMS_128(l->XXH3_128bits_reset_withSeed(l->state_3, SEED));
    default: STREAMS_128(l->XXH3_128bits_reset_withSecret(l->state_3, secret, SECRET));
    }
}

static uint64_t called(const void *library, struct row r, long times)
{
    enum hash hash = (enum hash)r.which;
    return r.form == ONESHOT ? oneshots(library, hash, r.size, times) : streams(library, hash, r.size, times);
}

static void measure(struct row r)
{
    const void *those[] = { &libraries[0], &libraries[1] };
    const char *names[] = { libraries[0].name, libraries[1].name };
    measure_each(those, names, 2, r, r.form == ONESHOT ? 1 : (double)MIB / (double)stream_length(r.size));
}

static void rows(enum form form, const size_t *sizes)
{
    for (int hash = 0; hash < HASHES; hash++)
        for (const size_t *size = sizes; *size; size++) {
            struct row r = { form, hash, *size };
            if (is_selected(r)) measure(r);
        }
}

int main(int argc, char **argv)
{
    static const size_t lengths[] = { 1, 4, 8, 16, 32, 64, 128, 240, 256, 512, 1 << 10, 4 << 10, 16 << 10, 64 << 10,
        256 << 10, MIB, 4 * MIB, 16 * MIB, CAPACITY, 0 };
    static const size_t few_lengths[] = { 1, 4, 16, 64, 240, 256, 1 << 10, 16 << 10, MIB, 0 };
    static const size_t pieces[] = { 1, 8, 16, 32, 40, 64, 100, 129, 160, 200, 255, 256, 1000, 4096, 65536, 0 };
    static const size_t few_pieces[] = { 1, 16, 64, 200, 1000, 65536, 0 };
    const bool is_dispatched = argc > 3 && strcmp(argv[3], "--dispatch") == 0;
    if (argc < 3 || !read_options(argc, argv, 3 + is_dispatched))
        return fprintf(stderr, "usage: shared OURS THEIRS [--dispatch] [--quick] [--only WORD]..\n"), 2;
    load(&libraries[0], "ours", argv[1], false); /* first, since the loader gives a name that it knows no second file */
    load(&libraries[1], "c_shared", argv[2], is_dispatched);
    if (!fill_input(CAPACITY)) fail("no memory");
    rows(ONESHOT, quick ? few_lengths : lengths);
    rows(STREAM, quick ? few_pieces : pieces);
    return 0;
}
