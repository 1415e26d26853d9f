/* Loaded before a program: its monotonic clock counts the bytes read, a millisecond for each 128 KiB, or fails if
   CLOCK_FAILS is set, or goes back if CLOCK_GOES_BACK is. So rates and times are known. Other clocks fail. */
#define _GNU_SOURCE
#include <dlfcn.h>
#include <errno.h>
#include <stdlib.h>
#include <time.h>
#include <unistd.h>

enum { BYTES_A_MILLISECOND = 131072, FIRST_SECOND = 5000 };

static unsigned long long total;

ssize_t read(int descriptor, void *buffer, size_t size) {
    static ssize_t (*real_read)(int, void *, size_t);
    if (!real_read)
        real_read = (ssize_t (*)(int, void *, size_t))dlsym(RTLD_NEXT, "read");
    ssize_t count = real_read(descriptor, buffer, size);
    if (count > 0)
        total += (unsigned long long)count;
    return count;
}

int clock_gettime(clockid_t clock, struct timespec *time) {
    if (clock != CLOCK_MONOTONIC || getenv("CLOCK_FAILS")) {
        errno = EINVAL;
        return -1;
    }
    unsigned long long milliseconds = total / BYTES_A_MILLISECOND;
    if (getenv("CLOCK_GOES_BACK"))
        milliseconds = FIRST_SECOND * 1000ULL - milliseconds;
    else
        milliseconds += FIRST_SECOND * 1000ULL;
    time->tv_sec = (time_t)(milliseconds / 1000);
    time->tv_nsec = (long)(milliseconds % 1000) * 1000000;
    return 0;
}
