/* The four hashes, as a table of their differences. */
#ifndef TWOX_HASH_ALGORITHMS_H
#define TWOX_HASH_ALGORITHMS_H

#include <stddef.h>
#include <stdint.h>

#include "state_sizes.h"
#include "xxhash.h"

/* Minimum length of a secret, and maximum length of an object's. */
#define LEAST_SECRET XXH3_SECRET_SIZE_MIN
#define GREATEST_SECRET 256

/* Size of a state of XXH3 with a secret behind it. */
#define KEYED_STATE_BYTES (XXH3_STATE_BYTES + GREATEST_SECRET)

/* The key of a hash. Its secret is null if there is none. A secret without a seed takes effect at every length, and
 * one with a seed only above 240 bytes. */
struct key {
    uint64_t seed;
    int has_seed;
    const void *secret;
    size_t secret_length;
};

/* A value of any hash: only the low half if it has 64 bits or fewer. */
typedef XXH128_hash_t hash_value;

struct algorithm {
    const char *name; /* the attribute of this name */
    unsigned char digest_bytes;
    unsigned char block_bytes;
    unsigned char has_secret;      /* it takes a secret */
    unsigned char has_narrow_seed; /* of 32 bits */
    size_t state_bytes;
    hash_value (*hash)(const void *input, size_t length, const struct key *key);
    /* Operations on a state: reset, hash a chunk, return the value so far. */
    void (*start)(void *state, const struct key *key);
    void (*take)(void *state, const void *input, size_t length);
    hash_value (*finish)(const void *state);
    /* The key of the state. A secret that is returned is in the state. */
    struct key (*key_of)(const void *state);
};

extern const struct algorithm xxh32_algorithm, xxh64_algorithm, xxh3_64_algorithm, xxh3_128_algorithm;

#endif
