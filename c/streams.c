/* SPDX-License-Identifier: MIT */
/* Updates and digests of XXH3. After a reset with a secret of the caller, a state has the secret's address, and the
 * proved calls, which have no pointers, get the secret as an argument: these functions pass it. twox_c proves where the
 * members lie, and which reset writes which mark. */
#include <stddef.h>
#include <stdint.h>
#include "state_sizes.h"
#include "xxhash.h"

/* The end of a state. */
struct state {
    unsigned char others[544];
    uint64_t mark, seed;
    size_t secret_length;
    const void *secret;
};
_Static_assert(sizeof(struct state) == XXH3_STATE_BYTES, "a state of XXH3 has another size");

/* The marks of a reset with such a secret, without a seed and with one. */
#define MARK_ADDRESS 0x9b4ed3712ac8f516
#define MARK_ADDRESS_AND_SEED 0x68d7b5aec13f0e9b

/* True if the caller has the secret. No other address is followed, so memory without a mark is refused. The address of
 * other states is null, which XXH3_INITSTATE writes too. */
static int borrows(const struct state *state)
{
    return __builtin_expect(state->secret != NULL, 0)
        && (state->mark == MARK_ADDRESS || state->mark == MARK_ADDRESS_AND_SEED);
}

XXH_errorcode twox_c_update_xxh3(XXH3_state_t *state, const void *input, size_t length, const void *secret,
                                 size_t secret_length);
XXH64_hash_t twox_c_digest_64(const XXH3_state_t *state, const void *secret, size_t secret_length);
XXH128_hash_t twox_c_digest_128(const XXH3_state_t *state, const void *secret, size_t secret_length);

#define UPDATE(name) \
    XXH_errorcode proved_##name(XXH3_state_t *state, const void *input, size_t length); \
    XXH_errorcode name(XXH3_state_t *state, const void *input, size_t length) \
    { \
        const struct state *members = (const void *)state; \
        if (!borrows(members)) return proved_##name(state, input, length); \
        return twox_c_update_xxh3(state, input, length, members->secret, members->secret_length); \
    }
#define DIGEST(width) \
    XXH##width##_hash_t proved_XXH3_##width##bits_digest(const XXH3_state_t *state); \
    XXH##width##_hash_t XXH3_##width##bits_digest(const XXH3_state_t *state) \
    { \
        const struct state *members = (const void *)state; \
        if (!borrows(members)) return proved_XXH3_##width##bits_digest(state); \
        return twox_c_digest_##width(state, members->secret, members->secret_length); \
    }

UPDATE(XXH3_64bits_update)
UPDATE(XXH3_128bits_update)
#ifdef __x86_64__
#include "xxh_x86dispatch.h"
UPDATE(XXH3_64bits_update_dispatch)
UPDATE(XXH3_128bits_update_dispatch)
#endif
DIGEST(64)
DIGEST(128)
