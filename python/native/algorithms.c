/* The calls of each hash, in one form for all. */
#include "algorithms.h"

#include <string.h>

#include "calls.h"
#include "states.h"

/* A value of 64 bits or fewer as the common type. */
static inline hash_value narrow(uint64_t low)
{
    return (hash_value){.low64 = low, .high64 = 0};
}

/* ---- XXH32 and XXH64 ---- */

#define PLAIN_ALGORITHM(bits, block) \
    static hash_value hash_##bits(const void *input, size_t length, const struct key *key) \
    { \
        return narrow(calls.XXH##bits(input, length, (XXH##bits##_hash_t)key->seed)); \
    } \
    static void start_##bits(void *state, const struct key *key) \
    { \
        calls.XXH##bits##_reset(state, (XXH##bits##_hash_t)key->seed); \
    } \
    static void take_##bits(void *state, const void *input, size_t length) \
    { \
        calls.XXH##bits##_update(state, input, length); \
    } \
    static hash_value finish_##bits(const void *state) \
    { \
        return narrow(calls.XXH##bits##_digest(state)); \
    } \
    static struct key key_of_##bits(const void *state) \
    { \
        return (struct key){.seed = ((const struct xxh##bits##_state *)state)->seed, .has_seed = 1}; \
    } \
    const struct algorithm xxh##bits##_algorithm = { \
        .name = "XXH" #bits, .digest_bytes = bits / 8, .block_bytes = block, \
        .has_narrow_seed = bits == 32, .state_bytes = XXH##bits##_STATE_BYTES, .hash = hash_##bits, \
        .start = start_##bits, .take = take_##bits, .finish = finish_##bits, .key_of = key_of_##bits, \
    };

PLAIN_ALGORITHM(32, 16)
PLAIN_ALGORITHM(64, 32)

/* ---- XXH3 ---- */

/* The state of an object, and its secret if the state has no copy of it. The calls get this secret as an argument, so
 * the address in the state is 0. */
struct keyed_state {
    struct xxh3_state state;
    unsigned char secret[GREATEST_SECRET];
};

_Static_assert(sizeof(struct keyed_state) == KEYED_STATE_BYTES, "an object of XXH3 has another layout");

static int borrows(const struct keyed_state *keyed)
{
    return keyed->state.mark == MARK_ADDRESS || keyed->state.mark == MARK_ADDRESS_AND_SEED;
}

static struct key key_of_3(const void *memory)
{
    const struct keyed_state *keyed = memory;
    const struct xxh3_state *state = &keyed->state;
    const int has_seed = state->mark != MARK_COPY && state->mark != MARK_ADDRESS;
    const uint64_t seed = has_seed ? state->seed : 0;
    if (borrows(keyed)) return (struct key){seed, has_seed, keyed->secret, state->secret_length};
    return (struct key){seed, has_seed, state->secret, sizeof state->secret};
}

/* Resets with a secret, which is not in the memory. */
static void start_with_secret(void *memory, const struct key *key)
{
    struct keyed_state *keyed = memory;
    memcpy(keyed->secret, key->secret, key->secret_length);
    if (key->has_seed)
        calls.twox_c_reset_xxh3_secret_and_seed(memory, key->secret, key->secret_length, 0, key->seed);
    else
        calls.twox_c_reset_xxh3_secret(memory, key->secret, key->secret_length, 0);
}

static hash_value as_64(XXH64_hash_t hash)
{
    return narrow(hash);
}

static hash_value as_128(XXH128_hash_t hash)
{
    return hash;
}

#define XXH3_ALGORITHM(bits, block) \
    static hash_value hash_3_##bits(const void *input, size_t length, const struct key *key) \
    { \
        if (!key->secret) return as_##bits(calls.XXH3_##bits##bits_withSeed(input, length, key->seed)); \
        if (!key->has_seed) \
            return as_##bits(calls.XXH3_##bits##bits_withSecret(input, length, key->secret, key->secret_length)); \
        return as_##bits(calls.XXH3_##bits##bits_withSecretandSeed(input, length, key->secret, key->secret_length, \
                                                                    key->seed)); \
    } \
    static void start_3_##bits(void *state, const struct key *key) \
    { \
        if (key->secret) \
            start_with_secret(state, key); \
        else \
            calls.XXH3_##bits##bits_reset_withSeed(state, key->seed); \
    } \
    static void take_3_##bits(void *state, const void *input, size_t length) \
    { \
        const struct keyed_state *keyed = state; \
        if (borrows(keyed)) \
            calls.twox_c_update_xxh3(state, input, length, keyed->secret, keyed->state.secret_length); \
        else \
            calls.XXH3_##bits##bits_update(state, input, length); \
    } \
    static hash_value finish_3_##bits(const void *state) \
    { \
        const struct keyed_state *keyed = state; \
        if (borrows(keyed)) \
            return as_##bits(calls.twox_c_digest_##bits(state, keyed->secret, keyed->state.secret_length)); \
        return as_##bits(calls.XXH3_##bits##bits_digest(state)); \
    } \
    const struct algorithm xxh3_##bits##_algorithm = { \
        .name = "XXH3_" #bits, .digest_bytes = bits / 8, .block_bytes = block, \
        .has_secret = 1, .state_bytes = KEYED_STATE_BYTES, .hash = hash_3_##bits, .start = start_3_##bits, \
        .take = take_3_##bits, .finish = finish_3_##bits, .key_of = key_of_3, \
    };

XXH3_ALGORITHM(64, 32)
XXH3_ALGORITHM(128, 64)
