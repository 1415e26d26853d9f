/* SPDX-License-Identifier: MIT */
/* The x86 features of the processor for which the system saves the registers. No compiler builtin is used: clang
 * has no x86-64-v3 before release 16, and libgcc would be one more library for a static program. */
#ifndef TWOX_HASH_PROCESSOR_H
#define TWOX_HASH_PROCESSOR_H

#include <cpuid.h>

/* Bits of the words that cpuid returns, by leaf, and of those that xgetbv returns. */
enum {
    LEAF_1_V3 = 1 << 12 | 1 << 22 | 1 << 28 | 1 << 29, /* FMA, MOVBE, AVX, F16C */
    LEAF_1_XSAVE = 1 << 26 | 1 << 27,
    LEAF_1_SSE2 = 1 << 26, /* of the word edx */
    LEAF_7_AVX2 = 1 << 5,
    LEAF_7_BMI = 1 << 3 | 1 << 8, /* BMI1, BMI2 */
    LEAF_7_AVX512F = 1 << 16,
    EXTENDED_LZCNT = 1 << 5,
    KEEPS_AVX = 1 << 1 | 1 << 2,
    KEEPS_AVX512 = 7 << 5 | KEEPS_AVX
};

struct features {
    unsigned leaf_1, leaf_1_edx, leaf_7, extended, enabled;
};

static __inline__ int has_all(unsigned word, unsigned bits)
{
    return (word & bits) == bits;
}

static __inline__ struct features features_here(void)
{
    struct features found = { 0, 0, 0, 0, 0 };
    unsigned a, b, c, d;
    if (__get_cpuid(1, &a, &b, &c, &d)) {
        found.leaf_1 = c;
        found.leaf_1_edx = d;
    }
    if (__get_cpuid_count(7, 0, &a, &b, &c, &d)) found.leaf_7 = b;
    if (__get_cpuid(0x80000001, &a, &b, &c, &d)) found.extended = c;
    if (has_all(found.leaf_1, LEAF_1_XSAVE)) __asm__("xgetbv" : "=a"(found.enabled), "=d"(d) : "c"(0));
    return found;
}

static __inline__ int has_avx2(struct features here)
{
    return has_all(here.leaf_7, LEAF_7_AVX2) && has_all(here.enabled, KEEPS_AVX);
}

static __inline__ int has_avx512(struct features here)
{
    return has_avx2(here) && has_all(here.leaf_7, LEAF_7_AVX512F) && has_all(here.enabled, KEEPS_AVX512);
}

static __inline__ int has_v3(struct features here)
{
    return has_avx2(here) && has_all(here.leaf_1, LEAF_1_V3) && has_all(here.leaf_7, LEAF_7_BMI)
        && has_all(here.extended, EXTENDED_LZCNT);
}

#endif
