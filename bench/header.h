/* SPDX-License-Identifier: MIT */
/* Shared by the two builds of header.c and header_turns.c. */
#ifndef TWOX_HASH_BENCH_HEADER_H
#define TWOX_HASH_BENCH_HEADER_H

#include <time.h>

/* The case that ran last, and its time of one call. */
struct timed {
    const char *name;
    double nanoseconds;
};

extern struct timed timed;
extern unsigned char bytes[1 << 17], lengths[4096];

static inline double nanoseconds(void)
{
    struct timespec now;
    clock_gettime(CLOCK_MONOTONIC, &now);
    return (double)now.tv_sec * 1e9 + (double)now.tv_nsec;
}

#endif
