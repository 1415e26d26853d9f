/* The proved calls that the package makes, by the processor's instruction set, or those of source.c in their place.
 * Their results are documented in xxhash.h, the header of the library for C, and in crates/twox_c. */
#ifndef TWOX_HASH_CALLS_H
#define TWOX_HASH_CALLS_H

#include "state_sizes.h"
#include "xxhash.h"

/* EACH(result, name, parameters): once for each call. */
#define EACH_CALL(EACH) \
    EACH(XXH32_hash_t, XXH32, (const void *, size_t, XXH32_hash_t)) \
    EACH(XXH_errorcode, XXH32_reset, (XXH32_state_t *, XXH32_hash_t)) \
    EACH(XXH_errorcode, XXH32_update, (XXH32_state_t *, const void *, size_t)) \
    EACH(XXH32_hash_t, XXH32_digest, (const XXH32_state_t *)) \
    EACH(XXH64_hash_t, XXH64, (const void *, size_t, XXH64_hash_t)) \
    EACH(XXH_errorcode, XXH64_reset, (XXH64_state_t *, XXH64_hash_t)) \
    EACH(XXH_errorcode, XXH64_update, (XXH64_state_t *, const void *, size_t)) \
    EACH(XXH64_hash_t, XXH64_digest, (const XXH64_state_t *)) \
    EACH(XXH_errorcode, twox_c_reset_xxh3_secret, (XXH3_state_t *, const void *, size_t, size_t)) \
    EACH(XXH_errorcode, twox_c_reset_xxh3_secret_and_seed, \
         (XXH3_state_t *, const void *, size_t, size_t, XXH64_hash_t)) \
    EACH(XXH_errorcode, twox_c_update_xxh3, (XXH3_state_t *, const void *, size_t, const void *, size_t)) \
    EACH_OF_XXH3(EACH, 64, XXH64_hash_t) \
    EACH_OF_XXH3(EACH, 128, XXH128_hash_t)

#define EACH_OF_XXH3(EACH, bits, hash) \
    EACH(hash, XXH3_##bits##bits_withSeed, (const void *, size_t, XXH64_hash_t)) \
    EACH(hash, XXH3_##bits##bits_withSecret, (const void *, size_t, const void *, size_t)) \
    EACH(hash, XXH3_##bits##bits_withSecretandSeed, (const void *, size_t, const void *, size_t, XXH64_hash_t)) \
    EACH(XXH_errorcode, XXH3_##bits##bits_reset_withSeed, (XXH3_state_t *, XXH64_hash_t)) \
    EACH(XXH_errorcode, XXH3_##bits##bits_update, (XXH3_state_t *, const void *, size_t)) \
    EACH(hash, XXH3_##bits##bits_digest, (const XXH3_state_t *)) \
    EACH(hash, twox_c_digest_##bits, (const XXH3_state_t *, const void *, size_t))

struct calls {
#define MEMBER(answer, name, parameters) answer(*name) parameters;
    EACH_CALL(MEMBER)
#undef MEMBER
    /* The instruction set: "x86-64-v2", "x86-64-v3", "x86-64-v4" or "aarch64", or "source". */
    const char *instructions;
};

/* The calls in use. choose_calls fills it before any call. */
extern struct calls calls;

/* Selects the processor's best instruction set, or `chosen` if that isn't null: once in a process. Returns null, or
 * the error: the processor lacks the instruction set, its name is unknown, or another one was selected before. */
const char *choose_calls(const char *chosen);

#endif
