/* The states as they are in memory, in the machine's byte order: crates/twox_c declares them like this, and proves
 * their sizes. source.c keeps the same form. */
#ifndef TWOX_HASH_STATES_H
#define TWOX_HASH_STATES_H

#include <stdint.h>

#include "state_sizes.h"
#include "xxhash.h"

struct xxh32_state {
    uint32_t v1, seed, v2, marked_usage, v3;
    uint32_t total_length[2]; /* one number of 64 bits */
    uint32_t v4;
    unsigned char buffer[16];
};

struct xxh64_state {
    uint64_t v1, seed, v2, total_length, v3;
    uint32_t marked_usage, unused;
    uint64_t v4;
    unsigned char buffer[32];
};

struct xxh3_state {
    uint64_t accumulators[8], place;
    uint64_t stripes, waiting, total_length;
    unsigned char buffer[256];
    unsigned char secret[XXH3_SECRET_DEFAULT_SIZE];
    uint64_t mark, seed, secret_length, address;
};

_Static_assert(sizeof(struct xxh32_state) == XXH32_STATE_BYTES, "the state of XXH32 has another layout");
_Static_assert(sizeof(struct xxh64_state) == XXH64_STATE_BYTES, "the state of XXH64 has another layout");
_Static_assert(sizeof(struct xxh3_state) == XXH3_STATE_BYTES, "the state of XXH3 has another layout");

/* The marks of a reset. To those of XXH32 and XXH64 the number of bytes in the buffer is added. */
#define MARK_32 0x32335858u
#define MARK_64 0x34365858u
/* The state of XXH3 has its secret: derived from the seed or given with it, or given without a seed. */
#define MARK_3 0x33485858786f7774u
#define MARK_COPY 0xc5a16e0f93d24b87u
/* The state has the address of a secret, without a seed and with one. */
#define MARK_ADDRESS 0x9b4ed3712ac8f516u
#define MARK_ADDRESS_AND_SEED 0x68d7b5aec13f0e9bu

#endif
