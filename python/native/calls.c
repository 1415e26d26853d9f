/* The calls in use, by instruction set. backend.py puts a prefix before each name of an instruction set's source: v2_,
   v3_, v4_ or arm_. With TWOX_HASH_SOURCE they are those of source.c, which are not proved. */
#include "calls.h"

#include <pthread.h>
#include <string.h>

struct calls calls;
/* Interpreters with a GIL of their own may import the module concurrently. */
static pthread_mutex_t choice = PTHREAD_MUTEX_INITIALIZER;

/* An instruction set: whether the processor has it, and its calls. */
struct set {
    int (*is_there)(void);
    struct calls calls;
};

#if defined(TWOX_HASH_SOURCE) || defined(__aarch64__)
static int is_always(void)
{
    return 1;
}
#endif

#ifdef TWOX_HASH_SOURCE

#include "source.h"

#define IN_SOURCE(answer, name, parameters) .name = source_##name,

static const struct set sets[] = {{is_always, {EACH_CALL(IN_SOURCE).instructions = "source"}}};

#elif defined(__x86_64__) && defined(__linux__)

#include <cpuid.h>

#define DECLARED(answer, name, parameters) \
    answer v2_##name parameters; \
    answer v3_##name parameters; \
    answer v4_##name parameters;
#define IN_V2(answer, name, parameters) .name = v2_##name,
#define IN_V3(answer, name, parameters) .name = v3_##name,
#define IN_V4(answer, name, parameters) .name = v4_##name,
EACH_CALL(DECLARED)

static int has_v2(void)
{
    unsigned a, b, c, d;
    const unsigned needed = bit_SSE3 | bit_SSSE3 | bit_CMPXCHG16B | bit_SSE4_1 | bit_SSE4_2 | bit_POPCNT;
    return __get_cpuid(1, &a, &b, &c, &d) && (c & needed) == needed;
}

/* True if the system saves a thread's registers of 256 bits, and those of 512 and the masks. */
enum { OF_256_BITS = 3 << 1, OF_512_BITS = 7 << 5 | OF_256_BITS };

static int keeps(unsigned registers)
{
    unsigned low, high;
    __asm__("xgetbv" : "=a"(low), "=d"(high) : "c"(0));
    return (low & registers) == registers;
}

static int has_v3(void)
{
    unsigned a, b, c, d;
    const unsigned needed = bit_FMA | bit_MOVBE | bit_OSXSAVE | bit_AVX | bit_F16C;
    const unsigned needed_of_leaf_7 = bit_BMI | bit_AVX2 | bit_BMI2;
    if (!has_v2() || !__get_cpuid(1, &a, &b, &c, &d) || (c & needed) != needed || !keeps(OF_256_BITS)) return 0;
    if (!__get_cpuid_count(7, 0, &a, &b, &c, &d) || (b & needed_of_leaf_7) != needed_of_leaf_7) return 0;
    return __get_cpuid(0x80000001, &a, &b, &c, &d) && (c & bit_LZCNT);
}

static int has_v4(void)
{
    unsigned a, b, c, d;
    const unsigned needed = bit_AVX512F | bit_AVX512BW | bit_AVX512CD | bit_AVX512DQ | bit_AVX512VL;
    return has_v3() && keeps(OF_512_BITS) && __get_cpuid_count(7, 0, &a, &b, &c, &d) && (b & needed) == needed;
}

/* The best one first. */
static const struct set sets[] = {
    {has_v4, {EACH_CALL(IN_V4).instructions = "x86-64-v4"}},
    {has_v3, {EACH_CALL(IN_V3).instructions = "x86-64-v3"}},
    {has_v2, {EACH_CALL(IN_V2).instructions = "x86-64-v2"}},
};

#elif defined(__aarch64__) && defined(__linux__)

#define DECLARED(answer, name, parameters) answer arm_##name parameters;
#define IN_ARM(answer, name, parameters) .name = arm_##name,
EACH_CALL(DECLARED)

static const struct set sets[] = {{is_always, {EACH_CALL(IN_ARM).instructions = "aarch64"}}};

#else
#error "there is proved code for Linux on x86-64 and on 64-bit ARM: elsewhere, define TWOX_HASH_SOURCE"
#endif

static const char *choose(const char *chosen)
{
    const char *fault = chosen ? "there is no such instruction set" : "this processor lacks x86-64-v2";
    for (size_t i = 0; i < sizeof(sets) / sizeof(*sets); i++) {
        if (chosen && strcmp(chosen, sets[i].calls.instructions)) continue;
        if (sets[i].is_there()) {
            calls = sets[i].calls;
            return NULL;
        }
        if (chosen) fault = "this processor lacks it";
    }
    return fault;
}

const char *choose_calls(const char *chosen)
{
    pthread_mutex_lock(&choice);
    const char *fault = !calls.instructions ? choose(chosen)
                        : chosen && strcmp(chosen, calls.instructions) ? "this process uses another one" : NULL;
    pthread_mutex_unlock(&choice);
    return fault;
}
