/* SPDX-License-Identifier: MIT */
/* For programs that choose by the processor themselves. The calls of this library need no such choice. */
#include "processor.h"
#include "xxh_x86dispatch.h"

int XXH_featureTest(void)
{
    struct features here = features_here();
    return has_avx512(here) ? XXH_AVX512 : has_avx2(here) ? XXH_AVX2
        : has_all(here.leaf_1_edx, LEAF_1_SSE2) ? XXH_SSE2 : XXH_SCALAR;
}
