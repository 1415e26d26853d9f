/* SPDX-License-Identifier: MIT */
/* Memory for states, which the crate twox_c cannot pass to C: an export of it has no raw pointer. Everything else is
 * there, and proved. */
#ifndef _ISOC11_SOURCE
#define _ISOC11_SOURCE /* for aligned_alloc, also with -std=c99 */
#endif
#include <stdlib.h>
#include "state_sizes.h" /* the sizes that twox_c proves its states to have */
#include "xxhash.h"

XXH32_state_t *XXH32_createState(void)
{
    XXH32_state_t *state = malloc(XXH32_STATE_BYTES);
    if (state) XXH32_reset(state, 0);
    return state;
}

XXH64_state_t *XXH64_createState(void)
{
    XXH64_state_t *state = malloc(XXH64_STATE_BYTES);
    if (state) XXH64_reset(state, 0);
    return state;
}

/* The alignment of the type in xxhash.h: compilers copy a state by moves that need it. */
#define XXH3_ALIGNMENT 64
_Static_assert(XXH3_STATE_BYTES % XXH3_ALIGNMENT == 0, "aligned_alloc needs a multiple of the alignment");

XXH3_state_t *XXH3_createState(void)
{
    XXH3_state_t *state = aligned_alloc(XXH3_ALIGNMENT, XXH3_STATE_BYTES);
    if (state) XXH3_64bits_reset(state);
    return state;
}

/* Calls of twox_c that remove the mark of a reset from a state: memory that malloc returns again is no state. */
void twox_c_forget_xxh32(XXH32_state_t *state);
void twox_c_forget_xxh64(XXH64_state_t *state);
void twox_c_forget_xxh3(XXH3_state_t *state);

XXH_errorcode XXH32_freeState(XXH32_state_t *state)
{
    if (state) twox_c_forget_xxh32(state);
    free(state);
    return XXH_OK;
}

XXH_errorcode XXH64_freeState(XXH64_state_t *state)
{
    if (state) twox_c_forget_xxh64(state);
    free(state);
    return XXH_OK;
}

XXH_errorcode XXH3_freeState(XXH3_state_t *state)
{
    if (state) twox_c_forget_xxh3(state);
    free(state);
    return XXH_OK;
}
