/* Compares two libraries with this API in one process, on random calls and streams:
 *
 *     calls REFERENCE OURS COUNT [--limits | --freed]
 *
 * Each input, and each secret, ends right before memory that may not be read. Each intermediate digest of a stream is
 * compared, with splits, copies and resets. What the reference leaves undefined is tested only for ours: secrets that
 * are too short, and states that were never reset. --limits adds inputs and streams of more than 4 GiB, and states with
 * no memory left. --freed instead tests only memory that held a state and was freed; don't use it with valgrind, since
 * nothing has written to such memory.
 * Prints a line for each group and the first differences. The exit status is 1 if there are any.
 */
#define _GNU_SOURCE
#include <dlfcn.h>
#include <malloc.h>
#include <pthread.h>
#include <stdarg.h>
#include <stdio.h>
#include <stdlib.h>
#include <string.h>
#include <sys/mman.h>
#include <sys/resource.h>
#include <unistd.h>
#include "xxhash.h"
#ifdef __x86_64__
#include "xxh_x86dispatch.h"
#endif

#define EACH_CALL(X) \
    X(XXH_versionNumber) \
    X(XXH32) X(XXH32_createState) X(XXH32_freeState) X(XXH32_copyState) X(XXH32_reset) X(XXH32_update) \
    X(XXH32_digest) X(XXH32_canonicalFromHash) X(XXH32_hashFromCanonical) \
    X(XXH64) X(XXH64_createState) X(XXH64_freeState) X(XXH64_copyState) X(XXH64_reset) X(XXH64_update) \
    X(XXH64_digest) X(XXH64_canonicalFromHash) X(XXH64_hashFromCanonical) \
    X(XXH3_createState) X(XXH3_freeState) X(XXH3_copyState) \
    X(XXH3_64bits) X(XXH3_64bits_withSeed) X(XXH3_64bits_withSecret) X(XXH3_64bits_withSecretandSeed) \
    X(XXH3_64bits_reset) X(XXH3_64bits_reset_withSeed) X(XXH3_64bits_reset_withSecret) \
    X(XXH3_64bits_reset_withSecretandSeed) X(XXH3_64bits_update) X(XXH3_64bits_digest) \
    X(XXH3_128bits) X(XXH3_128bits_withSeed) X(XXH3_128bits_withSecret) X(XXH3_128bits_withSecretandSeed) X(XXH128) \
    X(XXH3_128bits_reset) X(XXH3_128bits_reset_withSeed) X(XXH3_128bits_reset_withSecret) \
    X(XXH3_128bits_reset_withSecretandSeed) X(XXH3_128bits_update) X(XXH3_128bits_digest) \
    X(XXH128_isEqual) X(XXH128_cmp) X(XXH128_canonicalFromHash) X(XXH128_hashFromCanonical) \
    X(XXH3_generateSecret) X(XXH3_generateSecret_fromSeed) \
    EACH_DISPATCHED_CALL(X)

/* The C library has these only on x86-64. */
#ifdef __x86_64__
#define EACH_DISPATCHED_CALL(X) \
    X(XXH3_64bits_dispatch) X(XXH3_64bits_withSeed_dispatch) X(XXH3_64bits_withSecret_dispatch) \
    X(XXH3_64bits_update_dispatch) \
    X(XXH3_128bits_dispatch) X(XXH3_128bits_withSeed_dispatch) X(XXH3_128bits_withSecret_dispatch) \
    X(XXH3_128bits_update_dispatch)
#else
#define EACH_DISPATCHED_CALL(X)
#endif

struct library {
#define MEMBER(name) __typeof__(&name) name;
    EACH_CALL(MEMBER)
};

static struct library reference, ours;

/* Stops: nothing could be compared. */
static void fail(const char *what)
{
    fprintf(stderr, "calls: %s\n", what);
    exit(2);
}

static void *symbol(void *handle, const char *path, const char *name)
{
    void *found = dlsym(handle, name);
    if (!found) {
        fprintf(stderr, "calls: %s has no %s\n", path, name);
        exit(2);
    }
    return found;
}

static void load(struct library *library, const char *path)
{
    void *handle = dlopen(path, RTLD_NOW | RTLD_LOCAL);
    if (!handle) fail(dlerror());
#define LOAD(name) library->name = (__typeof__(&name))symbol(handle, path, #name);
    EACH_CALL(LOAD)
}

/* ---- The libraries ---- */

static long compared, differing;

static void report(int same, const char *form, ...)
{
    va_list arguments;
    compared++;
    if (same) return;
    if (++differing > 20) return;
    printf("    differs: ");
    va_start(arguments, form);
    vprintf(form, arguments);
    va_end(arguments);
    printf("\n");
}

static int same_128(XXH128_hash_t a, XXH128_hash_t b) { return a.low64 == b.low64 && a.high64 == b.high64; }

static void group(const char *name)
{
    static long before, differing_before;
    printf("  %s: %ld compared, %ld differ\n", name, compared - before, differing - differing_before);
    fflush(stdout);
    before = compared;
    differing_before = differing;
}

/* ---- Inputs ---- */

static uint64_t random_state = 0x9e3779b97f4a7c15u;

static uint64_t random_word(void)
{
    random_state = random_state * 6364136223846793005u + 1442695040888963407u;
    uint64_t x = random_state;
    x ^= x >> 33;
    x *= 0xff51afd7ed558ccdu;
    return x ^ x >> 29;
}

static size_t below(size_t bound) { return random_word() % bound; }

/* A seed: often 0, small or all ones. */
static uint64_t random_seed(void)
{
    switch (below(6)) {
    case 0: return 0;
    case 1: return below(256);
    case 2: return UINT64_MAX - below(2);
    default: return random_word();
    }
}

#define BUFFER_BYTES ((size_t)1 << 17)

/* A buffer of random bytes that ends right before memory that may not be read. */
static unsigned char *guarded(void)
{
    unsigned char *buffer = mmap(0, BUFFER_BYTES + 4096, PROT_READ | PROT_WRITE, MAP_PRIVATE | MAP_ANONYMOUS, -1, 0);
    if (buffer == MAP_FAILED || mprotect(buffer + BUFFER_BYTES, 4096, PROT_NONE)) fail("no memory");
    for (size_t i = 0; i < BUFFER_BYTES; i++) buffer[i] = (unsigned char)(random_word() >> 56);
    return buffer;
}

static unsigned char *input_buffer, *secret_buffer;

/* An input or a secret of this many bytes, at the end of its buffer. */
static const unsigned char *input_of(size_t length)
{
    input_buffer[BUFFER_BYTES - 1 - below(64)] = (unsigned char)random_word();
    return input_buffer + BUFFER_BYTES - length;
}

static const unsigned char *secret_of(size_t length)
{
    secret_buffer[BUFFER_BYTES - 1 - below(136)] = (unsigned char)random_word();
    return secret_buffer + BUFFER_BYTES - length;
}

/* A length: most often near the limits of the ranges and of the buffers, rarely long. */
static size_t random_length(void)
{
    switch (below(8)) {
    case 0: return below(20);
    case 1: return 230 + below(40);
    case 2: return 500 + below(40);
    case 3: return below(5000);
    case 4: return below(64) ? below(1100) : below(BUFFER_BYTES);
    default: return below(300);
    }
}

/* ---- One-shots ---- */

#define SAME(call, length) \
    report(ours.call == reference.call, "%s, length %zu", #call, (size_t)(length))
#define SAME_128(call, length) \
    report(same_128(ours.call, reference.call), "%s, length %zu", #call, (size_t)(length))

static void oneshots(const void *p, size_t n, uint64_t seed, const void *secret, size_t m)
{
    SAME(XXH32(p, n, (uint32_t)seed), n);
    SAME(XXH64(p, n, seed), n);
    SAME(XXH3_64bits(p, n), n);
    SAME(XXH3_64bits_withSeed(p, n, seed), n);
    SAME(XXH3_64bits_withSecret(p, n, secret, m), n);
    SAME(XXH3_64bits_withSecretandSeed(p, n, secret, m, seed), n);
    SAME_128(XXH3_128bits(p, n), n);
    SAME_128(XXH3_128bits_withSeed(p, n, seed), n);
    SAME_128(XXH3_128bits_withSecret(p, n, secret, m), n);
    SAME_128(XXH3_128bits_withSecretandSeed(p, n, secret, m, seed), n);
    SAME_128(XXH128(p, n, seed), n);
#ifdef __x86_64__
    SAME(XXH3_64bits_dispatch(p, n), n);
    SAME(XXH3_64bits_withSeed_dispatch(p, n, seed), n);
    SAME(XXH3_64bits_withSecret_dispatch(p, n, secret, m), n);
    SAME_128(XXH3_128bits_dispatch(p, n), n);
    SAME_128(XXH3_128bits_withSeed_dispatch(p, n, seed), n);
    SAME_128(XXH3_128bits_withSecret_dispatch(p, n, secret, m), n);
#endif
}

static void random_oneshots(void)
{
    size_t n = random_length(), m = 136 + below(below(4) ? 121 : 1000);
    oneshots(input_of(n), n, random_seed(), secret_of(m), m);
}

/* ---- Streams: a state of each library, with the same calls. The arguments of BOTH are used twice. ---- */

struct pair_32 { XXH32_state_t *ours, *reference; };
struct pair_64 { XXH64_state_t *ours, *reference; };
struct pair_3 { XXH3_state_t *ours, *reference; };

#define BOTH(pair, call, ...) \
    report(ours.call((pair).ours, ##__VA_ARGS__) == reference.call((pair).reference, ##__VA_ARGS__), "%s", #call)
#define BOTH_128(pair, call) \
    report(same_128(ours.call((pair).ours), reference.call((pair).reference)), "%s", #call)
#define CREATE(algorithm) { ours.algorithm##_createState(), reference.algorithm##_createState() }
#define COPY(algorithm, to, from) \
    (ours.algorithm##_copyState((to).ours, (from).ours), \
     reference.algorithm##_copyState((to).reference, (from).reference))

static const void *random_piece(size_t *length)
{
    *length = below(4) ? random_length() : below(70);
    return *length || below(2) ? input_of(*length) : NULL;
}

static void stream_32(void)
{
    struct pair_32 a = CREATE(XXH32), b = CREATE(XXH32);
    uint32_t seed = (uint32_t)random_seed(), next_seed = (uint32_t)random_seed();
    BOTH(a, XXH32_reset, seed);
    BOTH(b, XXH32_reset, 0);
    for (size_t pieces = below(9); pieces; pieces--) {
        size_t n;
        const void *p = random_piece(&n);
        BOTH(a, XXH32_update, p, n);
        if (!below(3)) BOTH(a, XXH32_digest);
        if (!below(4)) COPY(XXH32, b, a);
        if (!below(9)) BOTH(a, XXH32_reset, next_seed);
        if (!below(3)) BOTH(b, XXH32_update, p, n / 2);
    }
    BOTH(a, XXH32_digest);
    BOTH(b, XXH32_digest);
    BOTH(a, XXH32_freeState);
    BOTH(b, XXH32_freeState);
}

static void stream_64(void)
{
    struct pair_64 a = CREATE(XXH64), b = CREATE(XXH64);
    uint64_t seed = random_seed(), next_seed = random_seed();
    BOTH(a, XXH64_reset, seed);
    BOTH(b, XXH64_reset, 0);
    for (size_t pieces = below(9); pieces; pieces--) {
        size_t n;
        const void *p = random_piece(&n);
        BOTH(a, XXH64_update, p, n);
        if (!below(3)) BOTH(a, XXH64_digest);
        if (!below(4)) COPY(XXH64, b, a);
        if (!below(9)) BOTH(a, XXH64_reset, next_seed);
        if (!below(3)) BOTH(b, XXH64_update, p, n / 2);
    }
    BOTH(a, XXH64_digest);
    BOTH(b, XXH64_digest);
    BOTH(a, XXH64_freeState);
    BOTH(b, XXH64_freeState);
}

/* Resets by one of the calls of a width. The reference reads the secret as long as the state is used, so it stays.
 * The last call gets no seed 0 here: see seed_0_and_secret. */
static void reset_3(struct pair_3 a, int wide, const void *secret, size_t m, uint64_t seed)
{
    switch (below(4) + (wide ? 4 : 0)) {
    case 0: BOTH(a, XXH3_64bits_reset); break;
    case 1: BOTH(a, XXH3_64bits_reset_withSeed, seed); break;
    case 2: BOTH(a, XXH3_64bits_reset_withSecret, secret, m); break;
    case 3: BOTH(a, XXH3_64bits_reset_withSecretandSeed, secret, m, seed); break;
    case 4: BOTH(a, XXH3_128bits_reset); break;
    case 5: BOTH(a, XXH3_128bits_reset_withSeed, seed); break;
    case 6: BOTH(a, XXH3_128bits_reset_withSecret, secret, m); break;
    default: BOTH(a, XXH3_128bits_reset_withSecretandSeed, secret, m, seed ? seed : 1); break;
    }
}

static void update_3(struct pair_3 a, int wide, const void *p, size_t n)
{
    switch (below(8) + (wide ? 8 : 0)) {
#ifdef __x86_64__
    case 0: BOTH(a, XXH3_64bits_update_dispatch, p, n); break;
    case 8: BOTH(a, XXH3_128bits_update_dispatch, p, n); break;
#endif
    default:
        if (wide) BOTH(a, XXH3_128bits_update, p, n);
        else BOTH(a, XXH3_64bits_update, p, n);
    }
}

static void digest_3(struct pair_3 a, int wide)
{
    if (wide) BOTH_128(a, XXH3_128bits_digest);
    else BOTH(a, XXH3_64bits_digest);
}

static void stream_3(int wide, const unsigned char *secret, size_t m)
{
    struct pair_3 a = CREATE(XXH3), b = CREATE(XXH3);
    reset_3(a, wide, secret, m, random_seed());
    reset_3(b, wide, secret, m, random_seed());
    for (size_t pieces = below(12); pieces; pieces--) {
        size_t n;
        const void *p = random_piece(&n);
        update_3(a, wide, p, n);
        if (!below(3)) digest_3(a, wide);
        if (!below(4)) COPY(XXH3, b, a);
        if (!below(9)) reset_3(a, wide, secret, m, random_seed());
        if (!below(3)) update_3(b, wide, p, n / 2);
    }
    digest_3(a, wide);
    digest_3(b, wide);
    BOTH(a, XXH3_freeState);
    BOTH(b, XXH3_freeState);
}

static void random_stream(void)
{
    size_t m = below(3) ? 136 + below(121) : 136 + below(800);
    switch (below(4)) {
    case 0: stream_32(); break;
    case 1: stream_64(); break;
    case 2: stream_3(0, secret_of(m), m); break;
    default: stream_3(1, secret_of(m), m); break;
    }
}

/* ---- Small calls ---- */

static void canonical_forms(void)
{
    uint64_t low = random_word(), high = random_word();
    XXH32_canonical_t a4, b4;
    XXH64_canonical_t a8, b8;
    XXH128_canonical_t a16, b16;
    XXH128_hash_t one = { low, high };
    XXH128_hash_t other = { below(2) ? low : random_word(), below(2) ? high : random_word() };
    ours.XXH32_canonicalFromHash(&a4, (uint32_t)low), reference.XXH32_canonicalFromHash(&b4, (uint32_t)low);
    ours.XXH64_canonicalFromHash(&a8, low), reference.XXH64_canonicalFromHash(&b8, low);
    ours.XXH128_canonicalFromHash(&a16, one), reference.XXH128_canonicalFromHash(&b16, one);
    report(!memcmp(&a4, &b4, 4), "XXH32_canonicalFromHash");
    report(!memcmp(&a8, &b8, 8), "XXH64_canonicalFromHash");
    report(!memcmp(&a16, &b16, 16), "XXH128_canonicalFromHash");
    SAME(XXH32_hashFromCanonical(&b4), 4);
    SAME(XXH64_hashFromCanonical(&b8), 8);
    SAME_128(XXH128_hashFromCanonical(&b16), 16);
    SAME(XXH128_isEqual(one, other), 16);
    int order = ours.XXH128_cmp(&one, &other), expected = reference.XXH128_cmp(&one, &other);
    report((order > 0) == (expected > 0) && (order < 0) == (expected < 0), "XXH128_cmp");
}

static void secrets_of_seeds(void)
{
    unsigned char a[XXH3_SECRET_DEFAULT_SIZE], b[XXH3_SECRET_DEFAULT_SIZE];
    uint64_t seed = random_seed();
    ours.XXH3_generateSecret_fromSeed(a, seed);
    reference.XXH3_generateSecret_fromSeed(b, seed);
    report(!memcmp(a, b, sizeof a), "XXH3_generateSecret_fromSeed");
}

/* A secret from a custom seed, in a buffer that ends right before memory that may not be read, and too short in one
 * case of ten. The bytes before the buffer stay as they are. */
static void generated_secrets(void)
{
    static unsigned char theirs[16 + 1000];
    size_t n = below(10) ? XXH3_SECRET_SIZE_MIN + below(865) : below(XXH3_SECRET_SIZE_MIN);
    size_t m = below(20) ? below(600) : 0;
    const unsigned char *seed = m || below(2) ? input_of(m) : NULL;
    unsigned char *buffer = secret_buffer + BUFFER_BYTES - n;
    memcpy(theirs, buffer - 16, 16 + n);
    XXH_errorcode code = ours.XXH3_generateSecret(buffer, n, seed, m);
    report(code == reference.XXH3_generateSecret(theirs + 16, n, seed, m), "XXH3_generateSecret, %zu of %zu: %d", n, m,
         (int)code);
    report(!memcmp(buffer - 16, theirs, 16 + n), "XXH3_generateSecret, %zu of %zu", n, m);
}

/* ---- Every length of a secret ---- */

static void every_secret_length(void)
{
    static const size_t lengths[] = { 0, 3, 8, 16, 17, 128, 129, 240, 241, 255, 256, 257, 512, 1023, 1024, 1025, 4000 };
    for (size_t m = XXH3_SECRET_SIZE_MIN; m <= 600; m++) {
        const unsigned char *secret = secret_of(m);
        for (size_t i = 0; i < sizeof lengths / sizeof *lengths; i++)
            oneshots(input_of(lengths[i]), lengths[i], random_seed(), secret, m);
        for (int wide = 0; wide < 2; wide++) stream_3(wide, secret, m);
    }
}

/* Ours refuses a secret that is too short: the stream continues unchanged. */
static void refused_secrets(void)
{
    XXH3_state_t *state = ours.XXH3_createState();
    const unsigned char *p = input_of(700);
    ours.XXH3_64bits_reset_withSeed(state, 11);
    ours.XXH3_64bits_update(state, p, 700);
    XXH64_hash_t before = ours.XXH3_64bits_digest(state);
    XXH128_hash_t none = { 0, 0 };
    for (size_t m = 0; m < XXH3_SECRET_SIZE_MIN; m++) {
        const unsigned char *secret = m ? secret_of(m) : NULL;
        report(ours.XXH3_64bits_reset_withSecret(state, secret, m) == XXH_ERROR, "64 takes a secret of %zu bytes", m);
        report(ours.XXH3_128bits_reset_withSecret(state, secret, m) == XXH_ERROR, "128 takes a secret of %zu bytes", m);
        report(ours.XXH3_64bits_reset_withSecretandSeed(state, secret, m, 5) == XXH_ERROR,
             "64 takes a secret of %zu bytes and a seed", m);
        report(ours.XXH3_128bits_reset_withSecretandSeed(state, secret, m, 5) == XXH_ERROR,
             "128 takes a secret of %zu bytes and a seed", m);
        report(ours.XXH3_64bits_digest(state) == before, "a refused secret of %zu bytes changes the state", m);
        report(ours.XXH3_64bits_withSecret(p, 700, secret, m) == 0, "64 hashes with %zu bytes", m);
        report(same_128(ours.XXH3_128bits_withSecret(p, 700, secret, m), none), "128 hashes with %zu bytes", m);
    }
    ours.XXH3_freeState(state);
}

/* A secret and the seed 0, 128-bit: the reference's one-shot uses the default secret for up to 240 bytes, and its
 * digest the given secret, whichever call reset the stream. Ours uses the default secret in both. */
static void seed_0_and_secret(void)
{
    XXH3_state_t *state = ours.XXH3_createState();
    for (size_t n = 0; n < 600; n++) {
        const unsigned char *p = input_of(n), *secret = secret_of(192);
        for (int wide = 0; wide < 2; wide++) {
            if (wide) ours.XXH3_128bits_reset_withSecretandSeed(state, secret, 192, 0);
            else ours.XXH3_64bits_reset_withSecretandSeed(state, secret, 192, 0);
            ours.XXH3_128bits_update(state, p, n);
            XXH128_hash_t expected = reference.XXH3_128bits_withSecretandSeed(p, n, secret, 192, 0);
            report(same_128(ours.XXH3_128bits_digest(state), expected),
                   "%zu bytes with a secret and the seed 0, reset %d", n, wide);
        }
    }
    ours.XXH3_freeState(state);
}

/* ---- Null ---- */

static void null_inputs(void)
{
    struct pair_32 a = CREATE(XXH32);
    struct pair_64 b = CREATE(XXH64);
    oneshots(NULL, 0, random_seed(), secret_of(192), 192);
    BOTH(a, XXH32_reset, 1);
    BOTH(a, XXH32_update, NULL, 0);
    BOTH(a, XXH32_digest);
    BOTH(b, XXH64_reset, 1);
    BOTH(b, XXH64_update, NULL, 0);
    BOTH(b, XXH64_digest);
    BOTH(a, XXH32_freeState);
    BOTH(b, XXH64_freeState);
    for (int wide = 0; wide < 2; wide++) {
        struct pair_3 c = CREATE(XXH3);
        reset_3(c, wide, secret_of(192), 192, 1);
        update_3(c, wide, NULL, 0);
        digest_3(c, wide);
        BOTH(c, XXH3_freeState);
    }
    struct pair_32 no_32 = { NULL, NULL };
    struct pair_64 no_64 = { NULL, NULL };
    struct pair_3 no_3 = { NULL, NULL };
    BOTH(no_32, XXH32_freeState);
    BOTH(no_64, XXH64_freeState);
    BOTH(no_3, XXH3_freeState);
}

/* A null state or secret that the reference refuses. A state of ours stays unchanged, and so does a buffer. */
static void null_refused(void)
{
    struct pair_3 none = { NULL, NULL }, a = CREATE(XXH3);
    unsigned char buffer[2][192] = { { 0 } }, *const null = NULL;
    BOTH(none, XXH3_64bits_reset);
    BOTH(none, XXH3_64bits_reset_withSeed, 3);
    BOTH(none, XXH3_64bits_reset_withSecret, secret_of(192), 192);
    BOTH(none, XXH3_64bits_reset_withSecretandSeed, secret_of(192), 192, 3);
    BOTH(none, XXH3_128bits_reset);
    BOTH(none, XXH3_128bits_reset_withSeed, 3);
    BOTH(none, XXH3_128bits_reset_withSecret, secret_of(192), 192);
    BOTH(none, XXH3_128bits_reset_withSecretandSeed, secret_of(192), 192, 3);
    ours.XXH3_64bits_reset_withSeed(a.ours, 11);
    XXH64_hash_t before = ours.XXH3_64bits_digest(a.ours);
    for (size_t m = 0; m <= 192; m += 192) {
        BOTH(a, XXH3_64bits_reset_withSecret, null, m);
        BOTH(a, XXH3_64bits_reset_withSecretandSeed, null, m, 3);
        BOTH(a, XXH3_128bits_reset_withSecret, null, m);
        BOTH(a, XXH3_128bits_reset_withSecretandSeed, null, m, 3);
    }
    report(ours.XXH3_64bits_digest(a.ours) == before, "a null secret changes the state");
    BOTH(a, XXH3_freeState);
    SAME(XXH3_generateSecret(null, 192, secret_of(9), 9), 192);
    report(ours.XXH3_generateSecret(buffer[0], 192, null, 9) == reference.XXH3_generateSecret(buffer[1], 192, null, 9),
         "XXH3_generateSecret of a null seed");
    report(!memcmp(buffer[0], buffer[1], 192), "XXH3_generateSecret of a null seed writes");
}

/* ---- States of ours: of each algorithm, with the reference's value for the same bytes ---- */

enum algorithm { ALGORITHM_32, ALGORITHM_64, ALGORITHM_3_64, ALGORITHM_3_128, ALGORITHMS };

static void *created(enum algorithm algorithm)
{
    switch (algorithm) {
    case ALGORITHM_32: return ours.XXH32_createState();
    case ALGORITHM_64: return ours.XXH64_createState();
    default: return ours.XXH3_createState();
    }
}

static void freed(enum algorithm algorithm, void *state)
{
    switch (algorithm) {
    case ALGORITHM_32: ours.XXH32_freeState(state); break;
    case ALGORITHM_64: ours.XXH64_freeState(state); break;
    default: ours.XXH3_freeState(state);
    }
}

static XXH_errorcode reset(enum algorithm algorithm, void *state, uint32_t seed)
{
    switch (algorithm) {
    case ALGORITHM_32: return ours.XXH32_reset(state, seed);
    case ALGORITHM_64: return ours.XXH64_reset(state, seed);
    case ALGORITHM_3_64: return ours.XXH3_64bits_reset_withSeed(state, seed);
    default: return ours.XXH3_128bits_reset_withSeed(state, seed);
    }
}

static XXH_errorcode update(enum algorithm algorithm, void *state, const void *p, size_t n)
{
    switch (algorithm) {
    case ALGORITHM_32: return ours.XXH32_update(state, p, n);
    case ALGORITHM_64: return ours.XXH64_update(state, p, n);
    case ALGORITHM_3_64: return ours.XXH3_64bits_update(state, p, n);
    default: return ours.XXH3_128bits_update(state, p, n);
    }
}

static XXH128_hash_t digest(enum algorithm algorithm, const void *state)
{
    switch (algorithm) {
    case ALGORITHM_32: return (XXH128_hash_t){ ours.XXH32_digest(state), 0 };
    case ALGORITHM_64: return (XXH128_hash_t){ ours.XXH64_digest(state), 0 };
    case ALGORITHM_3_64: return (XXH128_hash_t){ ours.XXH3_64bits_digest(state), 0 };
    default: return ours.XXH3_128bits_digest(state);
    }
}

static XXH128_hash_t value(enum algorithm algorithm, const void *p, size_t n, uint32_t seed)
{
    switch (algorithm) {
    case ALGORITHM_32: return (XXH128_hash_t){ reference.XXH32(p, n, seed), 0 };
    case ALGORITHM_64: return (XXH128_hash_t){ reference.XXH64(p, n, seed), 0 };
    case ALGORITHM_3_64: return (XXH128_hash_t){ reference.XXH3_64bits_withSeed(p, n, seed), 0 };
    default: return reference.XXH3_128bits_withSeed(p, n, seed);
    }
}

/* A state that was just created represents no bytes and the seed 0. */
static void created_state(enum algorithm algorithm)
{
    void *state = created(algorithm);
    size_t n = random_length();
    const unsigned char *p = input_of(n);
    report(same_128(digest(algorithm, state), value(algorithm, NULL, 0, 0)), "a created state of algorithm %d",
           (int)algorithm);
    report(update(algorithm, state, p, n) == XXH_OK, "a created state of algorithm %d refuses", (int)algorithm);
    report(same_128(digest(algorithm, state), value(algorithm, p, n, 0)),
           "a created state of algorithm %d and %zu bytes", (int)algorithm, n);
    freed(algorithm, state);
}

/* Fills a state with what another program could have left there: all zero, all ones, any bytes. */
static void overwrite(unsigned char *state, size_t size)
{
    switch (below(3)) {
    case 0: memset(state, 0, size); break;
    case 1: memset(state, 0xff, size); break;
    default: for (size_t i = 0; i < size; i++) state[i] = (unsigned char)random_word();
    }
}

/* Changes some bytes of a state. */
static void spoil(unsigned char *state, size_t size)
{
    for (size_t times = 1 + below(3); times; times--)
        state[below(size)] = below(2) ? (unsigned char)random_word() : 255;
}

/* Memory that no reset has written is refused and unchanged. A state with changed bytes may or may not be refused:
 * in both cases a call returns, and reads and writes nothing else. A reset makes either valid. */
static void state_never_reset(enum algorithm algorithm)
{
    static const size_t lengths[] = { 0, 1, 31, 64, 255, 256, 257, 512, 513, 1500 };
    static const XXH128_hash_t none = { 0, 0 };
    static unsigned char before[4096];
    void *state = created(algorithm);
    size_t size = malloc_usable_size(state), n = lengths[below(10)];
    const unsigned char *p = input_of(n);
    int never = below(2) == 0;
    if (size > sizeof before) fail("a state has more than 4096 bytes");
    overwrite(state, size);
    if (!never) reset(algorithm, state, 5), spoil(state, size);
    memcpy(before, state, size);
    XXH_errorcode code = update(algorithm, state, p, n);
    XXH128_hash_t hash = digest(algorithm, state);
    report(code == XXH_ERROR || (code == XXH_OK && !never), "algorithm %d, never reset: %d", (int)algorithm, (int)code);
    report(code == XXH_OK || (!memcmp(before, state, size) && same_128(hash, none)), "algorithm %d, refused, changes",
         (int)algorithm);
    report(reset(algorithm, state, 9) == XXH_OK && update(algorithm, state, p, n) == XXH_OK,
           "algorithm %d refuses after a reset", (int)algorithm);
    report(same_128(digest(algorithm, state), value(algorithm, p, n, 9)), "algorithm %d after a reset", (int)algorithm);
    freed(algorithm, state);
}

/* ---- Memory of a state that was freed ---- */

/* malloc returns the memory of a state that was just freed, with the content that free left in it: it is no state.
 * Returns whether it was that memory. */
static int freed_memory(enum algorithm algorithm)
{
    void *state = created(algorithm);
    uintptr_t place = (uintptr_t)state;
    size_t size = malloc_usable_size(state), n = random_length();
    reset(algorithm, state, 5);
    update(algorithm, state, input_of(n), n);
    freed(algorithm, state);
    void *memory = malloc(size);
    if (!memory) fail("no memory");
    report(update(algorithm, memory, input_of(n), n) == XXH_ERROR, "algorithm %d is served after it was freed",
           (int)algorithm);
    int same = (uintptr_t)memory == place;
    free(memory);
    return same;
}

static void all_freed_memory(long count)
{
    long same[ALGORITHMS] = { 0 };
    for (long i = 0; i < count; i++) same[i % ALGORITHMS] += freed_memory((enum algorithm)(i % ALGORITHMS));
    for (int algorithm = 0; algorithm < ALGORITHMS; algorithm++)
        report(same[algorithm] > 0, "malloc gives no freed memory of algorithm %d", algorithm);
    group("memory of states that were freed");
}

/* ---- Every length to 1,100 ---- */

static void stream_in_pieces(enum algorithm algorithm, size_t n, size_t piece)
{
    void *state = created(algorithm);
    uint32_t seed = (uint32_t)random_seed();
    reset(algorithm, state, seed);
    for (size_t at = 0; at < n; at += piece)
        update(algorithm, state, input_buffer + at, n - at < piece ? n - at : piece);
    report(same_128(digest(algorithm, state), value(algorithm, input_buffer, n, seed)),
           "algorithm %d, %zu bytes in pieces of %zu", (int)algorithm, n, piece);
    freed(algorithm, state);
}

/* One-shots against the reference's, with inputs at four alignments; streams of ours in chunks of one length, or
 * whole, against the reference's one-shots. */
static void every_length(void)
{
    static const size_t places[] = { 0, 1, 6, 12 }, pieces[] = { 1, 7, 64, 255, 256, 257, 1024, 5000 };
    for (size_t n = 0; n <= 1100; n++) {
        for (size_t i = 0; i < sizeof places / sizeof *places; i++) {
            size_t m = 136 + below(400);
            oneshots(input_buffer + places[i], n, random_seed(), secret_of(m), m);
        }
        for (int algorithm = 0; algorithm < ALGORITHMS; algorithm++)
            for (size_t i = 0; i < sizeof pieces / sizeof *pieces; i++)
                stream_in_pieces((enum algorithm)algorithm, n, pieces[i]);
    }
}

/* ---- Threads ---- */

#define THREADS 8
#define STREAMS 1000

/* Streams of ours in chunks of 100 bytes, each algorithm in turn. Returns how many differ from the reference's
 * one-shots. */
static void *streams_of_a_thread(void *first)
{
    long differ = 0;
    for (size_t i = (size_t)first; i < (size_t)first + STREAMS; i++) {
        enum algorithm algorithm = (enum algorithm)(i % ALGORITHMS);
        size_t n = i * 7 % 2000;
        void *state = created(algorithm);
        reset(algorithm, state, (uint32_t)i);
        for (size_t at = 0; at < n; at += 100) update(algorithm, state, input_buffer + at, n - at < 100 ? n - at : 100);
        differ += !same_128(digest(algorithm, state), value(algorithm, input_buffer, n, (uint32_t)i));
        freed(algorithm, state);
    }
    return (void *)differ;
}

static void threads(void)
{
    pthread_t running[THREADS];
    void *differ;
    for (size_t i = 0; i < THREADS; i++)
        if (pthread_create(&running[i], NULL, streams_of_a_thread, (void *)(i * 333))) fail("no thread");
    for (size_t i = 0; i < THREADS; i++) {
        pthread_join(running[i], &differ);
        report(!differ, "%ld streams of a thread", (long)differ);
    }
}

/* ---- No memory ---- */

/* If memory runs out, createState returns null. All remaining memory is allocated first, in blocks of each size. */
static void no_memory(void)
{
    struct piece { struct piece *next; } *pieces = NULL, *piece;
    struct rlimit none = { 0, 0 }, before;
    if (getrlimit(RLIMIT_AS, &before)) fail("no limit of memory can be read");
    none.rlim_max = before.rlim_max;
    if (setrlimit(RLIMIT_AS, &none)) fail("no limit of memory can be set");
    for (size_t size = 1024; size >= sizeof *piece; size -= 8)
        while ((piece = malloc(size))) piece->next = pieces, pieces = piece;
    void *states[] = { ours.XXH32_createState(), ours.XXH64_createState(), ours.XXH3_createState() };
    while ((piece = pieces)) pieces = piece->next, free(piece);
    if (setrlimit(RLIMIT_AS, &before)) fail("no limit of memory can be set");
    for (int i = 0; i < 3; i++) report(!states[i], "createState answers %p without memory", states[i]);
}

/* ---- More than 4 GiB ---- */

#define PART ((size_t)64 << 20)
#define PARTS 66

/* One part of random bytes, mapped this many times in a row. */
static const unsigned char *huge_input(void)
{
    int file = memfd_create("huge", 0);
    unsigned char *buffer = mmap(0, PARTS * PART, PROT_NONE, MAP_PRIVATE | MAP_ANONYMOUS | MAP_NORESERVE, -1, 0);
    if (file < 0 || buffer == MAP_FAILED || ftruncate(file, (off_t)PART))
        fail("no memory for an input of more than 4 GiB");
    for (size_t i = 0; i < PARTS; i++)
        if (mmap(buffer + i * PART, PART, PROT_READ | PROT_WRITE, MAP_SHARED | MAP_FIXED, file, 0) == MAP_FAILED)
            fail("no memory for an input of more than 4 GiB");
    for (size_t i = 0; i < PART; i += 8) { uint64_t word = random_word(); memcpy(buffer + i, &word, 8); }
    return buffer;
}

static void huge(void)
{
    const unsigned char *p = huge_input();
    size_t n = PARTS * PART - 5, m = 192;
    const unsigned char *secret = secret_of(m);
    SAME(XXH32(p, n, 3), n);
    SAME(XXH64(p, n, 3), n);
    SAME(XXH3_64bits_withSecret(p, n, secret, m), n);
    SAME_128(XXH3_128bits_withSeed(p, n, 3), n);
    struct pair_32 a = CREATE(XXH32);
    struct pair_64 b = CREATE(XXH64);
    struct pair_3 c = CREATE(XXH3);
    BOTH(a, XXH32_reset, 3);
    BOTH(b, XXH64_reset, 3);
    BOTH(c, XXH3_64bits_reset_withSeed, 3);
    for (size_t at = 0; at < n; at += PART - 77) {
        size_t piece = n - at < PART - 77 ? n - at : PART - 77;
        BOTH(a, XXH32_update, p + at, piece);
        BOTH(b, XXH64_update, p + at, piece);
        BOTH(c, XXH3_64bits_update, p + at, piece);
    }
    BOTH(a, XXH32_digest);
    BOTH(b, XXH64_digest);
    BOTH(c, XXH3_64bits_digest);
    BOTH(a, XXH32_freeState);
    BOTH(b, XXH64_freeState);
    BOTH(c, XXH3_freeState);
}

int main(int argc, char **argv)
{
    int limits = argc == 5 && !strcmp(argv[4], "--limits"), after_free = argc == 5 && !strcmp(argv[4], "--freed");
    if (argc != (limits || after_free ? 5 : 4) || atol(argv[3]) < 1) {
        fprintf(stderr, "usage: calls REFERENCE OURS COUNT [--limits | --freed]\n");
        return 2;
    }
    long count = atol(argv[3]);
    load(&reference, argv[1]);
    load(&ours, argv[2]);
    input_buffer = guarded();
    secret_buffer = guarded();
    if (after_free) return all_freed_memory(count), differing != 0;
    SAME(XXH_versionNumber(), 0);
    for (long i = 0; i < count / 2; i++) random_oneshots();
    group("one-shots");
    for (long i = 0; i < count / 2; i++) random_stream();
    group("streams");
    for (long i = 0; i < count / 10; i++) canonical_forms(), secrets_of_seeds(), null_inputs(), null_refused();
    group("canonical forms, secrets of seeds, null pointers");
    for (long i = 0; i < count; i++) generated_secrets();
    group("secrets of custom seeds");
    every_secret_length();
    refused_secrets();
    seed_0_and_secret();
    group("secrets of each length");
    for (long i = 0; i < count; i++)
        created_state((enum algorithm)(i % ALGORITHMS)), state_never_reset((enum algorithm)(i % ALGORITHMS));
    group("states just created, and never reset");
    every_length();
    group("each length to 1100");
    threads();
    group("streams of eight threads at once");
    if (limits) {
        no_memory();
        group("without memory");
        huge();
        group("more than 4 GiB");
    }
    return differing != 0;
}
