/* How the drivers driver.c and shared.c measure: peers in turns, in one process, of which the best counts, and a line
 *
 *     FORM NAME SIZE PEER NANOSECONDS
 *
 * for each row and peer. A virtual machine's neighbours slow it for milliseconds: a call through a pointer then takes
 * 39 cycles in place of 10. The file that includes this has the rows, and `called`, which calls a peer. */
#ifndef TURNS_H
#define TURNS_H
#include <stdint.h>
#include <stdio.h>
#include <stdlib.h>
#include <string.h>
#include <time.h>

#define MOST_PEERS 8
#define TURN 25000.0 /* nanoseconds that a peer is timed for, a turn, or a call's where that takes longer */
#define TURNS 6000000.0 /* nanoseconds of a peer's turns together */
#define LEAST_TURNS 3
#define MIB ((size_t)1 << 20)
#define SECRET 192

/* A row: its form, its hash or kernel, and the length of the input or of a stream's chunks. */
struct row { int form, which; size_t size; };

static unsigned char *input, secret[SECRET];
static int quick, filters;
static char *word[100];

/* The sum of the results of this many calls of a peer. The function is chosen outside the loop. */
static uint64_t called(const void *peer, struct row r, long times);
static const char *form_of(struct row r);
static const char *name_of(struct row r);

/* A stream hashes 1 MiB in large chunks, and a part of it in small ones, so that a turn is short. */
static size_t stream_length(size_t piece) { return piece < 24 ? MIB / 64 : piece < 1000 ? MIB / 16 : MIB; }

/* The fastest clock. That a turn may wait for a processor doesn't matter, since the best one counts. */
static double now(void)
{
    struct timespec t;
    clock_gettime(CLOCK_MONOTONIC, &t);
    return 1e9 * (double)t.tv_sec + (double)t.tv_nsec;
}

static volatile uint64_t sink;

static double timed(const void *peer, struct row r, long times)
{
    double start = now();
    sink += called(peer, r, times);
    return (now() - start) / (double)times;
}

/* How long a call takes, roughly: the best of three, of which the first is slow. */
static double roughly(const void *peer, struct row r)
{
    double best = timed(peer, r, 1);
    long times = best < 100000 ? 100 : 1;
    for (int i = 0; i < 2; i++) {
        double taken = timed(peer, r, times);
        if (taken < best) best = taken;
    }
    return best;
}

/* Ends the driver if two peers have different results for the row. */
static void agree(const void *const *those, const char *const *names, size_t count, struct row r)
{
    for (size_t p = 1; p < count; p++)
        if (called(those[p], r, 1) != called(those[0], r, 1)) {
            fprintf(stderr, "%s and %s disagree: %s %s %zu\n", names[0], names[p], form_of(r), name_of(r), r.size);
            exit(1);
        }
}

/* Times these peers on the row, in turns; prints each time multiplied by the scale. */
static void measure_each(const void *const *those, const char *const *names, size_t count, struct row r, double scale)
{
    double best[MOST_PEERS], longest = TURN;
    long times[MOST_PEERS];
    agree(those, names, count, r);
    for (size_t p = 0; p < count; p++) {
        double once = roughly(those[p], r);
        times[p] = (long)(TURN / once) + 1;
        best[p] = 1e18;
        if (once > longest) longest = once;
    }
    int turns = (int)((quick ? TURNS / 4 : TURNS) / longest);
    if (turns < LEAST_TURNS) turns = LEAST_TURNS;
    for (int turn = 0; turn < turns; turn++)
        for (size_t k = 0; k < count; k++) {
            size_t p = (k + (size_t)turn) % count;
            double taken = timed(those[p], r, times[p]);
            if (taken < best[p]) best[p] = taken;
        }
    for (size_t p = 0; p < count; p++)
        printf("%s %s %zu %s %.4f\n", form_of(r), name_of(r), r.size, names[p], best[p] * scale);
    fflush(stdout);
}

/* Whether each word is in the row's "FORM NAME SIZE". */
static int is_selected(struct row r)
{
    char line[100];
    snprintf(line, sizeof line, "%s %s %zu", form_of(r), name_of(r), r.size);
    for (int w = 0; w < filters; w++)
        if (!strstr(line, word[w])) return 0;
    return 1;
}

/* Reads the options from this one on: --quick, which takes fewer rows and less time for each, and --only WORD, which
 * takes the rows that hold it (of several words each). No if there are others. */
static int read_options(int argc, char **argv, int first)
{
    for (int i = first; i < argc; i++)
        if (!strcmp(argv[i], "--quick")) quick = 1;
        else if (!strcmp(argv[i], "--only") && i + 1 < argc && filters < 100) word[filters++] = argv[++i];
        else return 0;
    return 1;
}

/* Makes an input of so many bytes, and the secret. No if there is no memory. */
static int fill_input(size_t length)
{
    uint64_t x = 1;
    if (!(input = malloc(length))) return 0;
    for (size_t i = 0; i < length; i++) {
        x = x * 6364136223846793005u + 1442695040888963407u;
        input[i] = (unsigned char)(x >> 56);
        if (i < SECRET) secret[i] = (unsigned char)(x >> 48);
    }
    return 1;
}
#endif
