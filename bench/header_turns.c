/* SPDX-License-Identifier: MIT */
/* Runs the cases of two builds of header.c by turns, and prints for each: its name, the time of theirs over that of
 * ours, the median of all rounds, and our least nanoseconds. */
#include <stdio.h>
#include <stdlib.h>
#include "header.h"

enum { MOST_CASES = 100, MOST_ROUNDS = 1000 };

struct timed timed;
unsigned char bytes[1 << 17], lengths[4096];
/* Run a case, and return 0 if there is none with this number. */
int run_ours(int number);
int run_theirs(int number);

static double least[MOST_CASES], ratios[MOST_CASES][MOST_ROUNDS];
static const char *names[MOST_CASES];

static unsigned random_number(void)
{
    static unsigned long long state = 1;
    state = state * 6364136223846793005u + 1442695040888963407u;
    return (unsigned)(state >> 40);
}

static void fill(void)
{
    size_t i;
    for (i = 0; i < sizeof bytes; i++) bytes[i] = (unsigned char)random_number();
    for (i = 0; i < sizeof lengths; i++) lengths[i] = (unsigned char)(random_number() % 65);
}

/* Times a case of a build, and returns 0 if there is none with this number. */
static double run(int (*build)(int), int number)
{
    if (!build(number)) return 0;
    names[number] = timed.name;
    return timed.nanoseconds;
}

static int by_size(const void *a, const void *b)
{
    double x = *(const double *)a, y = *(const double *)b;
    return (x > y) - (x < y);
}

int main(int argc, char **argv)
{
    int rounds = argc > 1 ? atoi(argv[1]) : 60, count = 0, round, number;
    if (rounds < 1 || rounds > MOST_ROUNDS) return 2;
    fill();
    while (count < MOST_CASES && (least[count] = run(run_ours, count)) > 0) count++;
    for (round = 0; round < rounds; round++)
        for (number = 0; number < count; number++) {
            double theirs = run(run_theirs, number), ours = run(run_ours, number);
            ratios[number][round] = theirs / ours;
            if (ours < least[number]) least[number] = ours;
        }
    for (number = 0; number < count; number++) {
        qsort(ratios[number], (size_t)rounds, sizeof ratios[0][0], by_size);
        printf("%s\t%.2f\t%.1f\n", names[number], ratios[number][rounds / 2], least[number]);
    }
    return 0;
}
