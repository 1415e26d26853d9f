/* Measures peers in turns, in one process, and writes a line for each row and peer:
 *
 *     FORM NAME SIZE PEER NANOSECONDS
 *
 * FORM is oneshot, inlined or called (streams), kernel or kernel_stream; SIZE is the length of the input or of a
 * stream's chunks. NANOSECONDS is the time of a one-shot's call, or of a stream for 1 MiB: the best of many short turns
 * (turns.h). Before a row is timed its peers must agree; otherwise the status is 1.
 *
 *     driver [--quick] [--only WORD]..
 *
 * --quick measures fewer rows, and each for less time; --only selects the rows whose "FORM NAME SIZE" contains WORD
 * (or one of several). The peers are those of `peers`, a list in another file.
 */
#include "peer.h"
#include "turns.h"

extern const struct peer *const peers[];
extern const size_t peer_count;

enum form { ONESHOT, INLINED, CALLED, KERNEL, KERNEL_STREAM };
static const char *const forms[] = { "oneshot", "inlined", "called", "kernel", "kernel_stream" };

enum hash { XXH32_, XXH64_, XXH3_64_, XXH3_64_SEEDED, XXH3_64_SECRET, XXH3_128_, XXH3_128_SEEDED, HASHES };
static const char *const hashes[] = { "XXH32",          "XXH64",    "XXH3-64",        "XXH3-64-seeded",
                                      "XXH3-64-secret", "XXH3-128", "XXH3-128-seeded" };
static const char *const kernels[] = { "scalar", "lanes2", "lanes4", "split2" };

static const char *form_of(struct row r) { return forms[r.form]; }
static const char *name_of(struct row r)
{
    return r.form == KERNEL || r.form == KERNEL_STREAM ? kernels[r.which] : hashes[r.which];
}

/* For 128 bits it returns the sum of the halves. */
static uint64_t both(struct halves h) { return h.low + h.high; }

static const struct streams *streams_of(const struct peer *p, int form)
{
    return form == INLINED ? &p->inlined : &p->called;
}

static int offers(const struct peer *p, struct row r)
{
    const struct streams *s = streams_of(p, r.form);
    switch (r.form) {
    case KERNEL: return p->kernel_oneshot[r.which] != 0;
    case KERNEL_STREAM: return p->kernel_stream[r.which] != 0;
    case ONESHOT:
        switch ((enum hash)r.which) {
        case XXH32_: return p->xxh32 != 0;
        case XXH64_: return p->xxh64 != 0;
        case XXH3_64_: return p->xxh3_64 != 0;
        case XXH3_64_SEEDED: return p->xxh3_64_seeded != 0;
        case XXH3_64_SECRET: return p->xxh3_64_keyed != 0;
        case XXH3_128_: return p->xxh3_128 != 0;
        default: return p->xxh3_128_seeded != 0;
        }
    default:
        switch ((enum hash)r.which) {
        case XXH32_: return s->xxh32 != 0;
        case XXH64_: return s->xxh64 != 0;
        case XXH3_64_: return s->xxh3_64 != 0;
        default: return s->xxh3_128 != 0;
        }
    }
}

static uint64_t called(const void *peer, struct row r, long times)
{
    const struct peer *p = peer;
    const struct streams *s = streams_of(p, r.form);
    const size_t n = r.size, all = stream_length(r.size);
    uint64_t sum = 0;
#define TIMES(expression) do { for (long i = 0; i < times; i++) sum += (expression); return sum; } while (0)
    switch (r.form) {
    case KERNEL: TIMES(p->kernel_oneshot[r.which](input, n));
    case KERNEL_STREAM: TIMES(p->kernel_stream[r.which](input, all, n));
    case ONESHOT:
        switch ((enum hash)r.which) {
        case XXH32_: TIMES(p->xxh32(7, input, n));
        case XXH64_: TIMES(p->xxh64(7, input, n));
        case XXH3_64_: TIMES(p->xxh3_64(input, n));
        case XXH3_64_SEEDED: TIMES(p->xxh3_64_seeded(7, input, n));
        case XXH3_64_SECRET: TIMES(p->xxh3_64_keyed(secret, SECRET, input, n));
        case XXH3_128_: TIMES(both(p->xxh3_128(input, n)));
        default: TIMES(both(p->xxh3_128_seeded(7, input, n)));
        }
    default:
        switch ((enum hash)r.which) {
        case XXH32_: TIMES(s->xxh32(input, all, n));
        case XXH64_: TIMES(s->xxh64(input, all, n));
        case XXH3_64_: TIMES(s->xxh3_64(input, all, n));
        default: TIMES(both(s->xxh3_128(input, all, n)));
        }
    }
}

/* The peers that offer the row, which have to agree on it. */
static size_t offering(struct row r, const void **those, const char **names)
{
    size_t count = 0;
    for (size_t p = 0; p < peer_count; p++)
        if (offers(peers[p], r)) names[count] = peers[p]->name, those[count++] = peers[p];
    agree(those, names, count, r);
    return count;
}

static void measure(struct row r)
{
    const void *those[MOST_PEERS];
    const char *names[MOST_PEERS];
    size_t count = offering(r, those, names);
    if (count < 2) return;
    measure_each(those, names, count, r,
                 r.form == ONESHOT || r.form == KERNEL ? 1 : (double)MIB / (double)stream_length(r.size));
}

static void rows(enum form form, int which, const size_t *sizes)
{
    for (; *sizes; sizes++) {
        struct row r = { form, which, *sizes };
        if (is_selected(r)) measure(r);
    }
}

int main(int argc, char **argv)
{
    static const size_t lengths[] = { 4, 8, 16, 32, 64, 128, 240, 256, 512, 1 << 10, 4 << 10, 16 << 10, 64 << 10,
        256 << 10, MIB, 2 * MIB, 4 * MIB, 16 * MIB, CAPACITY, 0 };
    static const size_t few_lengths[] = { 4, 16, 32, 64, 128, 240, 256, 1 << 10, 16 << 10, 256 << 10, 4 * MIB, 0 };
    static const size_t pieces[] = { 1, 8, 16, 24, 32, 40, 64, 100, 256, 1000, 4096, 65536, 0 };
    static const size_t few_pieces[] = { 1, 8, 24, 64, 100, 1000, 65536, 0 };
    static const size_t kernel_lengths[] = { 256, 1 << 10, 4 << 10, 64 << 10, MIB, 16 * MIB, 0 };
    static const size_t kernel_pieces[] = { 64, 1000, 65536, 0 };
    if (!read_options(argc, argv, 1)) return fprintf(stderr, "usage: driver [--quick] [--only WORD]..\n"), 2;
    if (!fill_input(CAPACITY)) return 1;
    for (int hash = 0; hash < HASHES; hash++) {
        const void *those[MOST_PEERS];
        const char *names[MOST_PEERS];
        for (size_t n = 0; n <= 1100; n++) offering((struct row){ ONESHOT, hash, n }, those, names);
        rows(ONESHOT, hash, quick ? few_lengths : lengths);
    }
    static const enum hash streamed[] = { XXH32_, XXH64_, XXH3_64_, XXH3_128_ };
    for (enum form form = INLINED; form <= CALLED; form++)
        for (int s = 0; s < 4; s++) rows(form, (int)streamed[s], quick ? few_pieces : pieces);
    for (int kernel = 0; kernel < KERNELS; kernel++) {
        rows(KERNEL, kernel, kernel_lengths);
        rows(KERNEL_STREAM, kernel, kernel_pieces);
    }
    return 0;
}
