/* Calls one function of a library a number of times, to count its instructions:
 *
 *     caller LIBRARY CALL BYTES TIMES
 *
 * CALL is the name of a hash, XXH3_64bits_update, whose stream continues from call to call, or nothing: an empty
 * function, to measure the instructions around a call. */
#include <dlfcn.h>
#include <stdint.h>
#include <stdio.h>
#include <stdlib.h>
#include <string.h>
#include "xxhash.h"

static unsigned char input[1 << 20];
static void *library;

static void fail(const char *what)
{
    fprintf(stderr, "caller: %s\n", what);
    exit(2);
}

static void *named(const char *name)
{
    void *found = dlsym(library, name);
    if (!found) fail(name);
    return found;
}

/* The empty function has the arguments and the result of a hash, so that the instructions around its call are the
   same. */
__attribute__((noinline)) static XXH64_hash_t nothing(const void *p, size_t n, XXH64_hash_t seed)
{
    __asm__ volatile("" : : "r"(p), "r"(n));
    return seed;
}

/* A call of any of these has at most three arguments, in the registers of these. */
typedef XXH64_hash_t call_of_hash(const void *, size_t, XXH64_hash_t);
typedef XXH_errorcode call_of_update(XXH3_state_t *, const void *, size_t);

int main(int count, char **argv)
{
    if (count != 5) fail("usage: caller LIBRARY CALL BYTES TIMES");
    size_t bytes = strtoul(argv[3], NULL, 10), times = strtoul(argv[4], NULL, 10);
    if (bytes > sizeof input) fail("too many bytes");
    if (!(library = dlopen(argv[1], RTLD_NOW | RTLD_LOCAL))) fail(dlerror());
    if (strstr(argv[2], "_update")) {
        XXH3_state_t *state = ((__typeof__(&XXH3_createState))named("XXH3_createState"))();
        call_of_update *update = (call_of_update *)named(argv[2]);
        ((__typeof__(&XXH3_64bits_reset))named("XXH3_64bits_reset"))(state);
        while (times--) update(state, input, bytes);
        return 0;
    }
    call_of_hash *hash = strcmp(argv[2], "nothing") ? (call_of_hash *)named(argv[2]) : nothing;
    while (times--) hash(input, bytes, 1234);
    return 0;
}
