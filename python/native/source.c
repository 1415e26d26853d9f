/* The calls of calls.h by the code of xxhash.h, which is written by hand and not proved, for machines without assembly
 * source. A state has the form of states.h. Each call opens it as one of xxhash.h, and refuses what no reset wrote. */
#ifdef TWOX_HASH_SOURCE

#include "source.h"
#include "states.h"

#define XXH_INLINE_ALL
#include "xxhash.h"

#include <string.h>

/* ---- One-shots ---- */

#define ONESHOT(answer, name, parameters, arguments) \
    answer source_##name parameters \
    { \
        return name arguments; \
    }
#define ONESHOTS_OF_XXH3(answer, bits) \
    ONESHOT(answer, XXH3_##bits##bits_withSeed, (const void *input, size_t length, XXH64_hash_t seed), \
            (input, length, seed)) \
    ONESHOT(answer, XXH3_##bits##bits_withSecret, \
            (const void *input, size_t length, const void *secret, size_t secret_length), \
            (input, length, secret, secret_length)) \
    ONESHOT(answer, XXH3_##bits##bits_withSecretandSeed, \
            (const void *input, size_t length, const void *secret, size_t secret_length, XXH64_hash_t seed), \
            (input, length, secret, secret_length, seed))

ONESHOT(XXH32_hash_t, XXH32, (const void *input, size_t length, XXH32_hash_t seed), (input, length, seed))
ONESHOT(XXH64_hash_t, XXH64, (const void *input, size_t length, XXH64_hash_t seed), (input, length, seed))
ONESHOTS_OF_XXH3(XXH64_hash_t, 64)
ONESHOTS_OF_XXH3(XXH128_hash_t, 128)

/* ---- Streams of XXH32 and XXH64 ---- */

/* Adds to a length, which stays at 2^64 - 1. */
static uint64_t counted(uint64_t total, uint64_t more)
{
    return more > UINT64_MAX - total ? UINT64_MAX : total + more;
}

static int open_32(XXH32_state_t *state, const struct xxh32_state *saved)
{
    uint64_t total;
    memcpy(&total, saved->total_length, sizeof total);
    *state = (XXH32_state_t){.total = (uint32_t)total, .is_large = total >= sizeof saved->buffer,
                             .accumulators = {saved->v1, saved->v2, saved->v3, saved->v4},
                             .buffered = saved->marked_usage - MARK_32};
    memcpy(state->buffer, saved->buffer, sizeof saved->buffer);
    return state->buffered < sizeof saved->buffer;
}

static void add_length_32(struct xxh32_state *saved, size_t length)
{
    uint64_t total;
    memcpy(&total, saved->total_length, sizeof total);
    total = counted(total, length);
    memcpy(saved->total_length, &total, sizeof total);
}

static int open_64(XXH64_state_t *state, const struct xxh64_state *saved)
{
    *state = (XXH64_state_t){.total = saved->total_length,
                             .accumulators = {saved->v1, saved->v2, saved->v3, saved->v4},
                             .buffered = saved->marked_usage - MARK_64};
    memcpy(state->buffer, saved->buffer, sizeof saved->buffer);
    return state->buffered < sizeof saved->buffer;
}

static void add_length_64(struct xxh64_state *saved, size_t length)
{
    saved->total_length = counted(saved->total_length, length);
}

#define STREAM(bits) \
    static void close_##bits(struct xxh##bits##_state *saved, const XXH##bits##_state_t *state) \
    { \
        saved->v1 = state->accumulators[0]; \
        saved->v2 = state->accumulators[1]; \
        saved->v3 = state->accumulators[2]; \
        saved->v4 = state->accumulators[3]; \
        saved->marked_usage = MARK_##bits + state->buffered; \
        memcpy(saved->buffer, state->buffer, state->buffered); \
    } \
    XXH_errorcode source_XXH##bits##_reset(XXH##bits##_state_t *memory, XXH##bits##_hash_t seed) \
    { \
        XXH##bits##_state_t state; \
        XXH##bits##_reset(&state, seed); \
        *(struct xxh##bits##_state *)memory = (struct xxh##bits##_state){.seed = seed}; \
        close_##bits((struct xxh##bits##_state *)memory, &state); \
        return XXH_OK; \
    } \
    XXH_errorcode source_XXH##bits##_update(XXH##bits##_state_t *memory, const void *input, size_t length) \
    { \
        XXH##bits##_state_t state; \
        if (!open_##bits(&state, (struct xxh##bits##_state *)memory)) return XXH_ERROR; \
        XXH##bits##_update(&state, input, length); \
        close_##bits((struct xxh##bits##_state *)memory, &state); \
        add_length_##bits((struct xxh##bits##_state *)memory, length); \
        return XXH_OK; \
    } \
    XXH##bits##_hash_t source_XXH##bits##_digest(const XXH##bits##_state_t *memory) \
    { \
        XXH##bits##_state_t state; \
        return open_##bits(&state, (const struct xxh##bits##_state *)memory) ? XXH##bits##_digest(&state) : 0; \
    }

STREAM(32)
STREAM(64)

/* ---- Streams of XXH3 ---- */

static XXH_errorcode start_3(struct xxh3_state *saved, uint64_t mark, uint64_t seed, const void *secret,
                             size_t secret_length)
{
    XXH3_state_t state;
    if (secret_length < XXH3_SECRET_SIZE_MIN) return XXH_ERROR;
    XXH3_64bits_reset(&state);
    *saved = (struct xxh3_state){.mark = mark, .seed = seed, .secret_length = secret_length};
    if (secret_length == sizeof saved->secret) memcpy(saved->secret, secret, sizeof saved->secret);
    memcpy(saved->accumulators, state.accumulators, sizeof saved->accumulators);
    return XXH_OK;
}

/* Opens a state with its secret, if its mark is one of two. */
static int open_3(XXH3_state_t *state, const struct xxh3_state *saved, const void *secret, size_t secret_length,
                  uint64_t mark, uint64_t mark_with_seed)
{
    if (saved->mark != mark && saved->mark != mark_with_seed) return 0;
    state->uses_seed = saved->mark == mark_with_seed;
    state->seed = saved->seed;
    state->secret = secret;
    state->secret_limit = secret_length - 64;
    state->stripes_per_block = state->secret_limit / 8;
    state->block_stripes = (size_t)saved->place;
    state->buffered = (uint32_t)saved->waiting;
    state->total = saved->total_length;
    memcpy(state->accumulators, saved->accumulators, sizeof saved->accumulators);
    memcpy(state->buffer, saved->buffer, sizeof saved->buffer);
    return saved->place < state->stripes_per_block && saved->waiting <= sizeof saved->buffer
        && (saved->waiting || !saved->total_length);
}

static int open_own(XXH3_state_t *state, const struct xxh3_state *saved)
{
    return open_3(state, saved, saved->secret, sizeof saved->secret, MARK_COPY, MARK_3);
}

static int open_borrowed(XXH3_state_t *state, const struct xxh3_state *saved, const void *secret, size_t secret_length)
{
    return secret_length >= XXH3_SECRET_SIZE_MIN
        && open_3(state, saved, secret, secret_length, MARK_ADDRESS, MARK_ADDRESS_AND_SEED);
}

static XXH_errorcode update_3(struct xxh3_state *saved, XXH3_state_t *state, const void *input, size_t length)
{
    XXH3_64bits_update(state, input, length);
    saved->stripes = counted(saved->stripes, (saved->waiting + length - state->buffered) / 64);
    saved->place = state->block_stripes;
    saved->waiting = state->buffered;
    saved->total_length = counted(saved->total_length, length);
    memcpy(saved->accumulators, state->accumulators, sizeof saved->accumulators);
    memcpy(saved->buffer, state->buffer, sizeof saved->buffer);
    return XXH_OK;
}

XXH_errorcode source_twox_c_reset_xxh3_secret(XXH3_state_t *memory, const void *secret, size_t secret_length,
                                              size_t address)
{
    (void)address;
    return start_3((struct xxh3_state *)memory, secret_length == XXH3_SECRET_DEFAULT_SIZE ? MARK_COPY : MARK_ADDRESS, 0,
                   secret, secret_length);
}

XXH_errorcode source_twox_c_reset_xxh3_secret_and_seed(XXH3_state_t *memory, const void *secret, size_t secret_length,
                                                       size_t address, XXH64_hash_t seed)
{
    (void)address;
    return start_3((struct xxh3_state *)memory,
                   secret_length == XXH3_SECRET_DEFAULT_SIZE ? MARK_3 : MARK_ADDRESS_AND_SEED, seed, secret,
                   secret_length);
}

XXH_errorcode source_twox_c_update_xxh3(XXH3_state_t *memory, const void *input, size_t length, const void *secret,
                                        size_t secret_length)
{
    XXH3_state_t state;
    if (!open_borrowed(&state, (struct xxh3_state *)memory, secret, secret_length)) return XXH_ERROR;
    return update_3((struct xxh3_state *)memory, &state, input, length);
}

#define STREAM_OF_XXH3(bits, answer) \
    XXH_errorcode source_XXH3_##bits##bits_reset_withSeed(XXH3_state_t *memory, XXH64_hash_t seed) \
    { \
        unsigned char secret[XXH3_SECRET_DEFAULT_SIZE]; \
        XXH3_generateSecret_fromSeed(secret, seed); \
        return start_3((struct xxh3_state *)memory, MARK_3, seed, secret, sizeof secret); \
    } \
    XXH_errorcode source_XXH3_##bits##bits_update(XXH3_state_t *memory, const void *input, size_t length) \
    { \
        XXH3_state_t state; \
        if (!open_own(&state, (struct xxh3_state *)memory)) return XXH_ERROR; \
        return update_3((struct xxh3_state *)memory, &state, input, length); \
    } \
    answer source_XXH3_##bits##bits_digest(const XXH3_state_t *memory) \
    { \
        XXH3_state_t state; \
        if (!open_own(&state, (const struct xxh3_state *)memory)) return (answer){0}; \
        return XXH3_##bits##bits_digest(&state); \
    } \
    answer source_twox_c_digest_##bits(const XXH3_state_t *memory, const void *secret, size_t secret_length) \
    { \
        XXH3_state_t state; \
        if (!open_borrowed(&state, (const struct xxh3_state *)memory, secret, secret_length)) return (answer){0}; \
        return XXH3_##bits##bits_digest(&state); \
    }

STREAM_OF_XXH3(64, XXH64_hash_t)
STREAM_OF_XXH3(128, XXH128_hash_t)

#endif
