/* SPDX-License-Identifier: MIT */
/* XXH32, XXH64, XXH3 64-bit and XXH3 128-bit: the API of libxxhash 0.8.1, as declarations and as code in C99 or C++11.
 *
 *     #include "xxhash.h"              declares the functions: link with the library, or compile source/xxhash.c
 *     #define XXH_INLINE_ALL           before the inclusion, includes their code: nothing to link
 *
 * The library of this project is assembly source compiled from a proved program. The code below is written by hand and
 * not proved; symbolic execution compares it with the definition. docs/C.md explains when to use which, what is
 * verified of each, and the differences from the C library.
 *
 * Macros, defined before the file is included for the first time or again:
 *
 *     XXH_INLINE_ALL           each function is static, and the short ones are inlined into their callers
 *     XXH_PRIVATE_API          each function is static, and the compiler chooses what to inline
 *     XXH_STATIC_LINKING_ONLY  defines the types of states, for states on the stack or in a struct
 *     XXH_NAMESPACE            a prefix of the functions' names, here and in the object of source/xxhash.c
 *     XXH_NO_STREAM            leaves out streams
 *     XXH_NO_XXH3              leaves out XXH3
 *     XXH_NO_STDLIB            needs no malloc: createState returns null
 *     XXH_VECTOR               XXH_SCALAR, XXH_SSE2, XXH_AVX2 or XXH_NEON, instead of the compiler's widest
 *
 * For every call:
 * - A length is in bytes. An input of length 0 may be null.
 * - A pointer and a length refer to memory of the caller that doesn't change during the call. The memory that a call
 *   writes to overlaps no other argument. Only a reset of XXH3 with a secret keeps a pointer.
 * - Calls on different states may run concurrently in several threads. Two calls on one state may not, unless both only
 *   read it.
 * - None of these hashes is safe against attackers.
 */

/* ==== Names ==== */

#undef XXH_IS_PRIVATE
#if defined(XXH_INLINE_ALL) || defined(XXH_PRIVATE_API)
#define XXH_IS_PRIVATE 1
#else
#define XXH_IS_PRIVATE 0
#endif

/* Static functions have names of their own, and are declared again if the file was included without their code. */
#if XXH_IS_PRIVATE && !defined(XXHASH_H_TWOX_HASH_CODE)
#undef XXHASH_H_TWOX_HASH
#undef XXH_NAMESPACE
#define XXH_NAMESPACE XXH_INLINE_
#endif

#if defined(XXH_NAMESPACE) && !defined(XXH_NAME)
#define XXH_JOIN(prefix, name) prefix##name
#define XXH_JOIN_EXPANDED(prefix, name) XXH_JOIN(prefix, name)
#define XXH_NAME(name) XXH_JOIN_EXPANDED(XXH_NAMESPACE, name)
#define XXH_versionNumber XXH_NAME(XXH_versionNumber)
#define XXH32 XXH_NAME(XXH32)
#define XXH32_createState XXH_NAME(XXH32_createState)
#define XXH32_freeState XXH_NAME(XXH32_freeState)
#define XXH32_copyState XXH_NAME(XXH32_copyState)
#define XXH32_reset XXH_NAME(XXH32_reset)
#define XXH32_update XXH_NAME(XXH32_update)
#define XXH32_digest XXH_NAME(XXH32_digest)
#define XXH32_canonicalFromHash XXH_NAME(XXH32_canonicalFromHash)
#define XXH32_hashFromCanonical XXH_NAME(XXH32_hashFromCanonical)
#define XXH64 XXH_NAME(XXH64)
#define XXH64_createState XXH_NAME(XXH64_createState)
#define XXH64_freeState XXH_NAME(XXH64_freeState)
#define XXH64_copyState XXH_NAME(XXH64_copyState)
#define XXH64_reset XXH_NAME(XXH64_reset)
#define XXH64_update XXH_NAME(XXH64_update)
#define XXH64_digest XXH_NAME(XXH64_digest)
#define XXH64_canonicalFromHash XXH_NAME(XXH64_canonicalFromHash)
#define XXH64_hashFromCanonical XXH_NAME(XXH64_hashFromCanonical)
#define XXH3_createState XXH_NAME(XXH3_createState)
#define XXH3_freeState XXH_NAME(XXH3_freeState)
#define XXH3_copyState XXH_NAME(XXH3_copyState)
#define XXH3_64bits XXH_NAME(XXH3_64bits)
#define XXH3_64bits_withSeed XXH_NAME(XXH3_64bits_withSeed)
#define XXH3_64bits_withSecret XXH_NAME(XXH3_64bits_withSecret)
#define XXH3_64bits_withSecretandSeed XXH_NAME(XXH3_64bits_withSecretandSeed)
#define XXH3_64bits_reset XXH_NAME(XXH3_64bits_reset)
#define XXH3_64bits_reset_withSeed XXH_NAME(XXH3_64bits_reset_withSeed)
#define XXH3_64bits_reset_withSecret XXH_NAME(XXH3_64bits_reset_withSecret)
#define XXH3_64bits_reset_withSecretandSeed XXH_NAME(XXH3_64bits_reset_withSecretandSeed)
#define XXH3_64bits_update XXH_NAME(XXH3_64bits_update)
#define XXH3_64bits_digest XXH_NAME(XXH3_64bits_digest)
#define XXH3_128bits XXH_NAME(XXH3_128bits)
#define XXH3_128bits_withSeed XXH_NAME(XXH3_128bits_withSeed)
#define XXH3_128bits_withSecret XXH_NAME(XXH3_128bits_withSecret)
#define XXH3_128bits_withSecretandSeed XXH_NAME(XXH3_128bits_withSecretandSeed)
#define XXH3_128bits_reset XXH_NAME(XXH3_128bits_reset)
#define XXH3_128bits_reset_withSeed XXH_NAME(XXH3_128bits_reset_withSeed)
#define XXH3_128bits_reset_withSecret XXH_NAME(XXH3_128bits_reset_withSecret)
#define XXH3_128bits_reset_withSecretandSeed XXH_NAME(XXH3_128bits_reset_withSecretandSeed)
#define XXH3_128bits_update XXH_NAME(XXH3_128bits_update)
#define XXH3_128bits_digest XXH_NAME(XXH3_128bits_digest)
#define XXH128 XXH_NAME(XXH128)
#define XXH128_isEqual XXH_NAME(XXH128_isEqual)
#define XXH128_cmp XXH_NAME(XXH128_cmp)
#define XXH128_canonicalFromHash XXH_NAME(XXH128_canonicalFromHash)
#define XXH128_hashFromCanonical XXH_NAME(XXH128_hashFromCanonical)
#define XXH3_generateSecret XXH_NAME(XXH3_generateSecret)
#define XXH3_generateSecret_fromSeed XXH_NAME(XXH3_generateSecret_fromSeed)
#endif

/* ==== Types ==== */

#ifndef XXHASH_H_TWOX_HASH_TYPES
#define XXHASH_H_TWOX_HASH_TYPES

#include <stddef.h>
#include <stdint.h>

#if defined(__GNUC__) || defined(__clang__) || defined(__TINYC__)
#define XXH_HAS_ATTRIBUTES 1
#else
#define XXH_HAS_ATTRIBUTES 0
#endif

/* The release of the C library that has these calls: 0.8.1. */
#define XXH_VERSION_MAJOR 0
#define XXH_VERSION_MINOR 8
#define XXH_VERSION_RELEASE 1
#define XXH_VERSION_NUMBER (XXH_VERSION_MAJOR * 10000 + XXH_VERSION_MINOR * 100 + XXH_VERSION_RELEASE)

typedef uint32_t XXH32_hash_t;
typedef uint64_t XXH64_hash_t;

/* A 128-bit hash as two halves. */
typedef struct {
    XXH64_hash_t low64;
    XXH64_hash_t high64;
} XXH128_hash_t;

/* A hash as bytes, the highest first: the form to store and to send. */
typedef struct {
    unsigned char digest[4];
} XXH32_canonical_t;
typedef struct {
    unsigned char digest[8];
} XXH64_canonical_t;
typedef struct {
    unsigned char digest[16];
} XXH128_canonical_t;

/* The result of a call that can fail. */
typedef enum {
    XXH_OK = 0,
    XXH_ERROR = 1
} XXH_errorcode;

/* States of streams. */
typedef struct XXH32_state_s XXH32_state_t;
typedef struct XXH64_state_s XXH64_state_t;
typedef struct XXH3_state_s XXH3_state_t;

/* Minimum length of a secret of XXH3, in bytes. */
#define XXH3_SECRET_SIZE_MIN 136
/* Length of the secret derived from a seed, in bytes. */
#define XXH3_SECRET_DEFAULT_SIZE 192

/* Kernels of XXH3, for XXH_VECTOR. */
#ifndef XXH_SSE2
#define XXH_SCALAR 0
#define XXH_SSE2 1
#define XXH_AVX2 2
#define XXH_AVX512 3
#endif
#ifndef XXH_NEON
#define XXH_NEON 4
#endif
#endif

/* ==== Declarations ==== */

#ifndef XXHASH_H_TWOX_HASH
#define XXHASH_H_TWOX_HASH

#undef XXH_PUBLIC_API
#if XXH_IS_PRIVATE && XXH_HAS_ATTRIBUTES
#define XXH_PUBLIC_API static __attribute__((unused))
#elif XXH_IS_PRIVATE
#define XXH_PUBLIC_API static
#else
#define XXH_PUBLIC_API
#endif

#ifdef __cplusplus
extern "C" {
#endif

/* XXH_VERSION_NUMBER of the library at run time. */
XXH_PUBLIC_API unsigned XXH_versionNumber(void);

/* ---- XXH32 ---- */

/* Returns the hash of the whole input. */
XXH_PUBLIC_API XXH32_hash_t XXH32(const void *input, size_t length, XXH32_hash_t seed);

#ifndef XXH_NO_STREAM
/* Allocates a state of no bytes and the seed 0, or returns null if out of memory. The caller owns it and frees it
 * with XXH32_freeState, which also accepts null and always returns XXH_OK. */
XXH_PUBLIC_API XXH32_state_t *XXH32_createState(void);
XXH_PUBLIC_API XXH_errorcode XXH32_freeState(XXH32_state_t *state);

/* Copies `from` to `to`. The two states are then independent. */
XXH_PUBLIC_API void XXH32_copyState(XXH32_state_t *to, const XXH32_state_t *from);

/* Resets the state to no bytes and the seed. Returns XXH_OK. */
XXH_PUBLIC_API XXH_errorcode XXH32_reset(XXH32_state_t *state, XXH32_hash_t seed);

/* Hashes these bytes after those before. Returns XXH_OK. The state must have been reset, as createState does. For
 * memory without the mark of a reset, the assembly library changes nothing and returns XXH_ERROR; the code below has no
 * mark. The mark is one word: 16 values of 2^32 pass, with XXH64 32. If memory passes by chance, the value is
 * arbitrary, and nothing outside the state is written. */
XXH_PUBLIC_API XXH_errorcode XXH32_update(XXH32_state_t *state, const void *input, size_t length);

/* Returns the hash of the state's bytes; more may be hashed afterwards. The assembly library returns 0 for memory that
 * update refuses. */
XXH_PUBLIC_API XXH32_hash_t XXH32_digest(const XXH32_state_t *state);
#endif

/* Convert a hash to bytes, and back. */
XXH_PUBLIC_API void XXH32_canonicalFromHash(XXH32_canonical_t *bytes, XXH32_hash_t hash);
XXH_PUBLIC_API XXH32_hash_t XXH32_hashFromCanonical(const XXH32_canonical_t *bytes);

/* ---- XXH64: each call works as that of XXH32 ---- */

XXH_PUBLIC_API XXH64_hash_t XXH64(const void *input, size_t length, XXH64_hash_t seed);
#ifndef XXH_NO_STREAM
XXH_PUBLIC_API XXH64_state_t *XXH64_createState(void);
XXH_PUBLIC_API XXH_errorcode XXH64_freeState(XXH64_state_t *state);
XXH_PUBLIC_API void XXH64_copyState(XXH64_state_t *to, const XXH64_state_t *from);
XXH_PUBLIC_API XXH_errorcode XXH64_reset(XXH64_state_t *state, XXH64_hash_t seed);
XXH_PUBLIC_API XXH_errorcode XXH64_update(XXH64_state_t *state, const void *input, size_t length);
XXH_PUBLIC_API XXH64_hash_t XXH64_digest(const XXH64_state_t *state);
#endif
XXH_PUBLIC_API void XXH64_canonicalFromHash(XXH64_canonical_t *bytes, XXH64_hash_t hash);
XXH_PUBLIC_API XXH64_hash_t XXH64_hashFromCanonical(const XXH64_canonical_t *bytes);

#ifndef XXH_NO_XXH3
/* ---- XXH3 64-bit ---- */

/* Return the hash of the whole input: with the seed 0, with a seed, with a secret, or with both. With both, an input
 * of up to 240 bytes is hashed with only the seed, and a longer one with only the secret. If a secret is needed and
 * has fewer than XXH3_SECRET_SIZE_MIN bytes, the result is 0. */
XXH_PUBLIC_API XXH64_hash_t XXH3_64bits(const void *input, size_t length);
XXH_PUBLIC_API XXH64_hash_t XXH3_64bits_withSeed(const void *input, size_t length, XXH64_hash_t seed);
XXH_PUBLIC_API XXH64_hash_t XXH3_64bits_withSecret(const void *input, size_t length, const void *secret,
                                                   size_t secret_length);
XXH_PUBLIC_API XXH64_hash_t XXH3_64bits_withSecretandSeed(const void *input, size_t length, const void *secret,
                                                          size_t secret_length, XXH64_hash_t seed);

#ifndef XXH_NO_STREAM
/* Allocates a state for both widths of XXH3. See XXH32_createState. */
XXH_PUBLIC_API XXH3_state_t *XXH3_createState(void);
XXH_PUBLIC_API XXH_errorcode XXH3_freeState(XXH3_state_t *state);
XXH_PUBLIC_API void XXH3_copyState(XXH3_state_t *to, const XXH3_state_t *from);

/* Reset the state to no bytes, with the seed 0, with a seed, with a secret, or with both as above. Return XXH_OK.
 * The state keeps the secret's address: the caller must not change or free the secret before the last digest of the
 * state and of its copies. The assembly library copies a secret of XXH3_SECRET_DEFAULT_SIZE bytes; the code below and
 * the C library don't. For a secret of fewer than XXH3_SECRET_SIZE_MIN bytes, a null secret, or a null state, these
 * change nothing and return XXH_ERROR. */
XXH_PUBLIC_API XXH_errorcode XXH3_64bits_reset(XXH3_state_t *state);
XXH_PUBLIC_API XXH_errorcode XXH3_64bits_reset_withSeed(XXH3_state_t *state, XXH64_hash_t seed);
XXH_PUBLIC_API XXH_errorcode XXH3_64bits_reset_withSecret(XXH3_state_t *state, const void *secret,
                                                          size_t secret_length);
XXH_PUBLIC_API XXH_errorcode XXH3_64bits_reset_withSecretandSeed(XXH3_state_t *state, const void *secret,
                                                                 size_t secret_length, XXH64_hash_t seed);

/* See XXH32_update and XXH32_digest. */
XXH_PUBLIC_API XXH_errorcode XXH3_64bits_update(XXH3_state_t *state, const void *input, size_t length);
XXH_PUBLIC_API XXH64_hash_t XXH3_64bits_digest(const XXH3_state_t *state);
#endif

/* ---- XXH3 128-bit: each call works as the 64-bit one ---- */

XXH_PUBLIC_API XXH128_hash_t XXH3_128bits(const void *input, size_t length);
XXH_PUBLIC_API XXH128_hash_t XXH3_128bits_withSeed(const void *input, size_t length, XXH64_hash_t seed);
XXH_PUBLIC_API XXH128_hash_t XXH3_128bits_withSecret(const void *input, size_t length, const void *secret,
                                                     size_t secret_length);
XXH_PUBLIC_API XXH128_hash_t XXH3_128bits_withSecretandSeed(const void *input, size_t length, const void *secret,
                                                            size_t secret_length, XXH64_hash_t seed);
/* Another name of XXH3_128bits_withSeed. */
XXH_PUBLIC_API XXH128_hash_t XXH128(const void *input, size_t length, XXH64_hash_t seed);

#ifndef XXH_NO_STREAM
XXH_PUBLIC_API XXH_errorcode XXH3_128bits_reset(XXH3_state_t *state);
XXH_PUBLIC_API XXH_errorcode XXH3_128bits_reset_withSeed(XXH3_state_t *state, XXH64_hash_t seed);
XXH_PUBLIC_API XXH_errorcode XXH3_128bits_reset_withSecret(XXH3_state_t *state, const void *secret,
                                                           size_t secret_length);
XXH_PUBLIC_API XXH_errorcode XXH3_128bits_reset_withSecretandSeed(XXH3_state_t *state, const void *secret,
                                                                  size_t secret_length, XXH64_hash_t seed);
XXH_PUBLIC_API XXH_errorcode XXH3_128bits_update(XXH3_state_t *state, const void *input, size_t length);
XXH_PUBLIC_API XXH128_hash_t XXH3_128bits_digest(const XXH3_state_t *state);
#endif

/* Returns 1 if both hashes are the same, and 0 otherwise. */
XXH_PUBLIC_API int XXH128_isEqual(XXH128_hash_t one, XXH128_hash_t other);

/* Compares two hashes as numbers, each behind a pointer to an XXH128_hash_t, for qsort: returns a value below, at or
 * above 0. */
XXH_PUBLIC_API int XXH128_cmp(const void *one, const void *other);

XXH_PUBLIC_API void XXH128_canonicalFromHash(XXH128_canonical_t *bytes, XXH128_hash_t hash);
XXH_PUBLIC_API XXH128_hash_t XXH128_hashFromCanonical(const XXH128_canonical_t *bytes);

/* ---- Secrets ---- */

/* Writes a secret of this many bytes derived from a custom seed of any length. Returns XXH_OK. An empty seed means
 * the default secret. For fewer than XXH3_SECRET_SIZE_MIN bytes, a null buffer, or a null seed of more than 0 bytes,
 * writes nothing and returns XXH_ERROR. */
XXH_PUBLIC_API XXH_errorcode XXH3_generateSecret(void *secret, size_t secret_length, const void *custom_seed,
                                                 size_t custom_seed_length);

/* Writes the XXH3_SECRET_DEFAULT_SIZE bytes of the secret derived from the seed. */
XXH_PUBLIC_API void XXH3_generateSecret_fromSeed(void *secret, XXH64_hash_t seed);
#endif

#ifdef __cplusplus
}
#endif
#endif

/* ==== The types of states: 48, 88 and 576 bytes, as in the C library ==== */

#if defined(XXH_STATIC_LINKING_ONLY) || XXH_IS_PRIVATE || defined(XXH_IMPLEMENTATION)
#ifndef XXHASH_H_TWOX_HASH_STATES
#define XXHASH_H_TWOX_HASH_STATES

/* Members are private. A state must be reset before its first use. */
struct XXH32_state_s {
    uint32_t total; /* bytes so far, modulo 2^32 */
    uint32_t is_large; /* 1 if they were ever 16 or more, else 0 */
    uint32_t accumulators[4];
    uint8_t buffer[16]; /* begins with the bytes of an incomplete stripe */
    uint32_t buffered; /* their number */
    uint32_t reserved;
};

struct XXH64_state_s {
    uint64_t total;
    uint64_t accumulators[4];
    uint8_t buffer[32];
    uint32_t buffered;
    uint32_t reserved32;
    uint64_t reserved64;
};
#endif

#if !defined(XXH_NO_XXH3) && !defined(XXHASH_H_TWOX_HASH_STATE_3)
#define XXHASH_H_TWOX_HASH_STATE_3

/* As in the C library's header. The assembly library needs only 8 bytes. */
#if XXH_HAS_ATTRIBUTES
#define XXH3_ALIGNED __attribute__((aligned(64)))
#elif defined(_MSC_VER)
#define XXH3_ALIGNED __declspec(align(64))
#elif defined(__cplusplus)
#define XXH3_ALIGNED alignas(64)
#elif defined(__STDC_VERSION__) && __STDC_VERSION__ >= 201112L
#define XXH3_ALIGNED _Alignas(64)
#else
#define XXH3_ALIGNED
#endif

struct XXH3_state_s {
    XXH3_ALIGNED uint64_t accumulators[8];
    uint8_t derived_secret[XXH3_SECRET_DEFAULT_SIZE]; /* from the seed, if `secret` is null */
    uint8_t buffer[256]; /* begins with the last `buffered` bytes, at least one if there are any; ends with the last
                            stripe, if one was accumulated, where later bytes haven't replaced it */
    uint32_t buffered;
    uint32_t uses_seed; /* 1 if up to 240 bytes are hashed with the seed */
    size_t block_stripes; /* accumulated stripes of the current block */
    uint64_t total;
    size_t stripes_per_block;
    size_t secret_limit; /* the secret's length less 64 */
    uint64_t seed;
    uint64_t reserved;
    const uint8_t *secret;
};

/* For programs written for the C library, which needs it before a reset with a seed: does nothing here. */
#define XXH3_INITSTATE(state) ((void)(state))
#endif
#endif

/* ==== Code ==== */

#if (XXH_IS_PRIVATE || defined(XXH_IMPLEMENTATION)) && !defined(XXHASH_H_TWOX_HASH_CODE)
#define XXHASH_H_TWOX_HASH_CODE

#if !defined(XXH_NO_STDLIB)
#include <stdlib.h>
#endif

/* ---- Compilers and processors ---- */

#ifdef __has_builtin
#if __has_builtin(__builtin_memcpy)
#define XXH_COPY __builtin_memcpy
#endif
#elif defined(__GNUC__)
#define XXH_COPY __builtin_memcpy
#endif
#ifndef XXH_COPY
#include <string.h>
#define XXH_COPY memcpy
#endif

#if XXH_HAS_ATTRIBUTES
#define XXH_INLINE static __inline__ __attribute__((unused))
#ifdef __NO_INLINE__ /* without optimization */
#define XXH_FORCE_INLINE XXH_INLINE
#else
#define XXH_FORCE_INLINE static __inline__ __attribute__((always_inline, unused))
#endif
#define XXH_NO_INLINE static __attribute__((noinline, unused))
#elif defined(_MSC_VER)
#define XXH_INLINE static __inline
#define XXH_FORCE_INLINE static __forceinline
#define XXH_NO_INLINE static __declspec(noinline)
#else
#define XXH_INLINE static inline
#define XXH_FORCE_INLINE static inline
#define XXH_NO_INLINE static
#endif

/* Before definitions of public functions: ordinary ones, short ones, and ones that no caller needs inlined. */
#if defined(XXH_INLINE_ALL)
#define XXH_FUNCTION XXH_INLINE
#define XXH_SHORT_FUNCTION XXH_FORCE_INLINE
#define XXH_LARGE_FUNCTION XXH_NO_INLINE
#else
#define XXH_FUNCTION XXH_PUBLIC_API
#define XXH_SHORT_FUNCTION XXH_PUBLIC_API
#define XXH_LARGE_FUNCTION XXH_PUBLIC_API
#endif

/* Copies up to 256 bytes. If gcc knew this bound, it would use an instruction that takes long to start. */
#if defined(__GNUC__) && !defined(__clang__) && __GNUC__ >= 8
static __attribute__((noipa, unused)) void xxh_copy(void *to, const void *from, size_t length)
#else
XXH_FORCE_INLINE void xxh_copy(void *to, const void *from, size_t length)
#endif
{
    XXH_COPY(to, from, length);
}

/* Before a loop with at most eight iterations. */
#if defined(__GNUC__) && !defined(__clang__) && __GNUC__ >= 8
#define XXH_UNROLLED _Pragma("GCC unroll 8")
#else
#define XXH_UNROLLED
#endif

/* Keeps a word of a loop out of vectors, in which products of words are slow. */
#if defined(__GNUC__) || defined(__clang__)
#define XXH_KEEP_SCALAR(word) __asm__("" : "+r"(word))
#define XXH_PREFETCH(at) __builtin_prefetch(at)
#else
#define XXH_KEEP_SCALAR(word) ((void)(word))
#define XXH_PREFETCH(at) ((void)(at))
#endif

/* True if the processor is known to store the lowest byte of a word first. Otherwise words are read byte by byte. */
#ifndef XXH_CPU_LITTLE_ENDIAN
#if defined(__BYTE_ORDER__) && defined(__ORDER_LITTLE_ENDIAN__)
#define XXH_CPU_LITTLE_ENDIAN (__BYTE_ORDER__ == __ORDER_LITTLE_ENDIAN__)
#elif defined(_WIN32) || defined(__x86_64__) || defined(__i386__)
#define XXH_CPU_LITTLE_ENDIAN 1
#else
#define XXH_CPU_LITTLE_ENDIAN 0
#endif
#endif

#ifndef XXH_VECTOR
#if defined(__AVX2__)
#define XXH_VECTOR XXH_AVX2
#elif defined(__SSE2__) || defined(_M_X64) && !defined(_M_ARM64EC)
#define XXH_VECTOR XXH_SSE2
#elif defined(__ARM_NEON) && !defined(__ARM_BIG_ENDIAN)
#define XXH_VECTOR XXH_NEON
#else
#define XXH_VECTOR XXH_SCALAR
#endif
#elif XXH_VECTOR == XXH_AVX512
#undef XXH_VECTOR
#define XXH_VECTOR XXH_AVX2
#elif XXH_VECTOR != XXH_SCALAR && XXH_VECTOR != XXH_SSE2 && XXH_VECTOR != XXH_AVX2 && XXH_VECTOR != XXH_NEON
#undef XXH_VECTOR
#define XXH_VECTOR XXH_SCALAR
#endif

#ifndef XXH_NO_XXH3
#if XXH_VECTOR == XXH_AVX2
#include <immintrin.h>
#elif XXH_VECTOR == XXH_SSE2
#include <emmintrin.h>
#elif XXH_VECTOR == XXH_NEON
#include <arm_neon.h>
#endif
#endif

#ifdef __cplusplus
extern "C" {
#endif

/* ---- Words ---- */

XXH_FORCE_INLINE uint32_t xxh_read32(const uint8_t *bytes)
{
#if XXH_CPU_LITTLE_ENDIAN
    uint32_t word;
    XXH_COPY(&word, bytes, 4);
    return word;
#else
    return bytes[0] | (uint32_t)bytes[1] << 8 | (uint32_t)bytes[2] << 16 | (uint32_t)bytes[3] << 24;
#endif
}

XXH_FORCE_INLINE uint64_t xxh_read64(const uint8_t *bytes)
{
#if XXH_CPU_LITTLE_ENDIAN
    uint64_t word;
    XXH_COPY(&word, bytes, 8);
    return word;
#else
    return xxh_read32(bytes) | (uint64_t)xxh_read32(bytes + 4) << 32;
#endif
}

XXH_FORCE_INLINE void xxh_write64(uint8_t *bytes, uint64_t word)
{
#if XXH_CPU_LITTLE_ENDIAN
    XXH_COPY(bytes, &word, 8);
#else
    int i;
    for (i = 0; i < 8; i++) bytes[i] = (uint8_t)(word >> (8 * i));
#endif
}

XXH_FORCE_INLINE uint32_t xxh_rotate_left32(uint32_t word, unsigned count)
{
    return word << count | word >> (32 - count);
}

XXH_FORCE_INLINE uint64_t xxh_rotate_left64(uint64_t word, unsigned count)
{
    return word << count | word >> (64 - count);
}

XXH_FORCE_INLINE uint32_t xxh_swap_bytes32(uint32_t word)
{
    return word << 24 | (word << 8 & 0xFF0000) | (word >> 8 & 0xFF00) | word >> 24;
}

XXH_FORCE_INLINE uint64_t xxh_swap_bytes64(uint64_t word)
{
    return word << 56 | (word << 40 & 0xFF000000000000U) | (word << 24 & 0xFF0000000000U)
        | (word << 8 & 0xFF00000000U) | (word >> 8 & 0xFF000000U) | (word >> 24 & 0xFF0000U) | (word >> 40 & 0xFF00U)
        | word >> 56;
}

/* The canonical form: the highest byte first. */
XXH_FORCE_INLINE void xxh_write_canonical(unsigned char *bytes, uint64_t word, int count)
{
    int i;
    for (i = count - 1; i >= 0; i--, word >>= 8) bytes[i] = (unsigned char)word;
}

XXH_FORCE_INLINE uint64_t xxh_read_canonical(const unsigned char *bytes, int count)
{
    uint64_t word = 0;
    int i;
    for (i = 0; i < count; i++) word = word << 8 | bytes[i];
    return word;
}

/* ---- XXH32 ---- */

static const uint32_t XXH32_PRIME1 = 0x9E3779B1U, XXH32_PRIME2 = 0x85EBCA77U, XXH32_PRIME3 = 0xC2B2AE3DU,
                      XXH32_PRIME4 = 0x27D4EB2FU, XXH32_PRIME5 = 0x165667B1U;

XXH_FORCE_INLINE void xxh32_start(uint32_t *accumulators, uint32_t seed)
{
    accumulators[0] = seed + XXH32_PRIME1 + XXH32_PRIME2;
    accumulators[1] = seed + XXH32_PRIME2;
    accumulators[2] = seed;
    accumulators[3] = seed - XXH32_PRIME1;
}

XXH_FORCE_INLINE uint32_t xxh32_round(uint32_t accumulator, const uint8_t *lane)
{
    return xxh_rotate_left32(accumulator + xxh_read32(lane) * XXH32_PRIME2, 13) * XXH32_PRIME1;
}

/* Accumulates stripes of 16 bytes. */
XXH_FORCE_INLINE void xxh32_accumulate(uint32_t *accumulators, const uint8_t *stripe, size_t count)
{
    uint32_t a = accumulators[0], b = accumulators[1], c = accumulators[2], d = accumulators[3];
    for (; count; count--, stripe += 16) {
        a = xxh32_round(a, stripe);
        b = xxh32_round(b, stripe + 4);
        c = xxh32_round(c, stripe + 8);
        d = xxh32_round(d, stripe + 12);
        XXH_KEEP_SCALAR(a);
        XXH_KEEP_SCALAR(b);
        XXH_KEEP_SCALAR(c);
        XXH_KEEP_SCALAR(d);
    }
    accumulators[0] = a;
    accumulators[1] = b;
    accumulators[2] = c;
    accumulators[3] = d;
}

XXH_FORCE_INLINE uint32_t xxh32_converge(const uint32_t *accumulators)
{
    return xxh_rotate_left32(accumulators[0], 1) + xxh_rotate_left32(accumulators[1], 7)
        + xxh_rotate_left32(accumulators[2], 12) + xxh_rotate_left32(accumulators[3], 18);
}

/* Hashes the last bytes, fewer than 16, and mixes the result. */
XXH_FORCE_INLINE uint32_t xxh32_finish(uint32_t hash, const uint8_t *rest, size_t length)
{
    for (; length >= 4; length -= 4, rest += 4)
        hash = xxh_rotate_left32(hash + xxh_read32(rest) * XXH32_PRIME3, 17) * XXH32_PRIME4;
    for (; length; length--, rest++) hash = xxh_rotate_left32(hash + *rest * XXH32_PRIME5, 11) * XXH32_PRIME1;
    hash = (hash ^ hash >> 15) * XXH32_PRIME2;
    hash = (hash ^ hash >> 13) * XXH32_PRIME3;
    return hash ^ hash >> 16;
}

XXH_FUNCTION XXH32_hash_t XXH32(const void *input, size_t length, XXH32_hash_t seed)
{
    const uint8_t *bytes = (const uint8_t *)input;
    uint32_t accumulators[4], hash = seed + XXH32_PRIME5;
    if (length >= 16) {
        xxh32_start(accumulators, seed);
        xxh32_accumulate(accumulators, bytes, length / 16);
        hash = xxh32_converge(accumulators);
        bytes += length / 16 * 16;
    }
    return xxh32_finish(hash + (uint32_t)length, bytes, length % 16);
}

XXH_FUNCTION void XXH32_canonicalFromHash(XXH32_canonical_t *bytes, XXH32_hash_t hash)
{
    xxh_write_canonical(bytes->digest, hash, 4);
}

XXH_FUNCTION XXH32_hash_t XXH32_hashFromCanonical(const XXH32_canonical_t *bytes)
{
    return (XXH32_hash_t)xxh_read_canonical(bytes->digest, 4);
}

#ifndef XXH_NO_STREAM
XXH_FUNCTION XXH_errorcode XXH32_reset(XXH32_state_t *state, XXH32_hash_t seed)
{
    state->total = state->is_large = state->buffered = state->reserved = 0;
    xxh32_start(state->accumulators, seed);
    return XXH_OK;
}

/* Completes the buffered stripe, if there is one, accumulates it and the other stripes in place, and buffers the rest. */
XXH_INLINE void xxh32_update_stripes(XXH32_state_t *state, const uint8_t *bytes, size_t length)
{
    state->is_large = 1;
    if (state->buffered) {
        const size_t missing = 16 - state->buffered;
        XXH_COPY(state->buffer + state->buffered, bytes, missing);
        xxh32_accumulate(state->accumulators, state->buffer, 1);
        bytes += missing;
        length -= missing;
    }
    xxh32_accumulate(state->accumulators, bytes, length / 16);
    state->buffered = (uint32_t)(length % 16);
    XXH_COPY(state->buffer, bytes + length / 16 * 16, length % 16);
}

XXH_FUNCTION XXH_errorcode XXH32_update(XXH32_state_t *state, const void *input, size_t length)
{
    if (!input) return XXH_OK;
    state->total += (uint32_t)length;
    if (length >= 16 - state->buffered) {
        xxh32_update_stripes(state, (const uint8_t *)input, length);
    } else {
        XXH_COPY(state->buffer + state->buffered, input, length);
        state->buffered += (uint32_t)length;
    }
    return XXH_OK;
}

XXH_FUNCTION XXH32_hash_t XXH32_digest(const XXH32_state_t *state)
{
    uint32_t hash = state->is_large ? xxh32_converge(state->accumulators) : state->accumulators[2] + XXH32_PRIME5;
    return xxh32_finish(hash + state->total, state->buffer, state->buffered);
}
#endif

/* ---- XXH64 ---- */

static const uint64_t XXH64_PRIME1 = 0x9E3779B185EBCA87U, XXH64_PRIME2 = 0xC2B2AE3D27D4EB4FU,
                      XXH64_PRIME3 = 0x165667B19E3779F9U, XXH64_PRIME4 = 0x85EBCA77C2B2AE63U,
                      XXH64_PRIME5 = 0x27D4EB2F165667C5U;

XXH_FORCE_INLINE void xxh64_start(uint64_t *accumulators, uint64_t seed)
{
    accumulators[0] = seed + XXH64_PRIME1 + XXH64_PRIME2;
    accumulators[1] = seed + XXH64_PRIME2;
    accumulators[2] = seed;
    accumulators[3] = seed - XXH64_PRIME1;
}

XXH_FORCE_INLINE uint64_t xxh64_round(uint64_t accumulator, uint64_t lane)
{
    return xxh_rotate_left64(accumulator + lane * XXH64_PRIME2, 31) * XXH64_PRIME1;
}

/* Accumulates stripes of 32 bytes. */
XXH_FORCE_INLINE void xxh64_accumulate(uint64_t *accumulators, const uint8_t *stripe, size_t count)
{
    uint64_t a = accumulators[0], b = accumulators[1], c = accumulators[2], d = accumulators[3];
    for (; count; count--, stripe += 32) {
        a = xxh64_round(a, xxh_read64(stripe));
        b = xxh64_round(b, xxh_read64(stripe + 8));
        c = xxh64_round(c, xxh_read64(stripe + 16));
        d = xxh64_round(d, xxh_read64(stripe + 24));
        XXH_KEEP_SCALAR(a);
        XXH_KEEP_SCALAR(b);
        XXH_KEEP_SCALAR(c);
        XXH_KEEP_SCALAR(d);
    }
    accumulators[0] = a;
    accumulators[1] = b;
    accumulators[2] = c;
    accumulators[3] = d;
}

XXH_FORCE_INLINE uint64_t xxh64_merge(uint64_t hash, uint64_t accumulator)
{
    return (hash ^ xxh64_round(0, accumulator)) * XXH64_PRIME1 + XXH64_PRIME4;
}

XXH_FORCE_INLINE uint64_t xxh64_converge(const uint64_t *accumulators)
{
    uint64_t hash = xxh_rotate_left64(accumulators[0], 1) + xxh_rotate_left64(accumulators[1], 7)
        + xxh_rotate_left64(accumulators[2], 12) + xxh_rotate_left64(accumulators[3], 18);
    hash = xxh64_merge(hash, accumulators[0]);
    hash = xxh64_merge(hash, accumulators[1]);
    hash = xxh64_merge(hash, accumulators[2]);
    return xxh64_merge(hash, accumulators[3]);
}

XXH_FORCE_INLINE uint64_t xxh64_avalanche(uint64_t hash)
{
    hash = (hash ^ hash >> 33) * XXH64_PRIME2;
    hash = (hash ^ hash >> 29) * XXH64_PRIME3;
    return hash ^ hash >> 32;
}

/* Hashes the last bytes, fewer than 32, and mixes the result. */
XXH_FORCE_INLINE uint64_t xxh64_finish(uint64_t hash, const uint8_t *rest, size_t length)
{
    for (; length >= 8; length -= 8, rest += 8)
        hash = xxh_rotate_left64(hash ^ xxh64_round(0, xxh_read64(rest)), 27) * XXH64_PRIME1 + XXH64_PRIME4;
    if (length >= 4) {
        hash = xxh_rotate_left64(hash ^ xxh_read32(rest) * XXH64_PRIME1, 23) * XXH64_PRIME2 + XXH64_PRIME3;
        length -= 4;
        rest += 4;
    }
    for (; length; length--, rest++) hash = xxh_rotate_left64(hash ^ *rest * XXH64_PRIME5, 11) * XXH64_PRIME1;
    return xxh64_avalanche(hash);
}

XXH_FUNCTION XXH64_hash_t XXH64(const void *input, size_t length, XXH64_hash_t seed)
{
    const uint8_t *bytes = (const uint8_t *)input;
    uint64_t accumulators[4], hash = seed + XXH64_PRIME5;
    if (length >= 32) {
        xxh64_start(accumulators, seed);
        xxh64_accumulate(accumulators, bytes, length / 32);
        hash = xxh64_converge(accumulators);
        bytes += length / 32 * 32;
    }
    return xxh64_finish(hash + length, bytes, length % 32);
}

XXH_FUNCTION void XXH64_canonicalFromHash(XXH64_canonical_t *bytes, XXH64_hash_t hash)
{
    xxh_write_canonical(bytes->digest, hash, 8);
}

XXH_FUNCTION XXH64_hash_t XXH64_hashFromCanonical(const XXH64_canonical_t *bytes)
{
    return xxh_read_canonical(bytes->digest, 8);
}

#ifndef XXH_NO_STREAM
XXH_FUNCTION XXH_errorcode XXH64_reset(XXH64_state_t *state, XXH64_hash_t seed)
{
    state->total = state->reserved64 = 0;
    state->buffered = state->reserved32 = 0;
    xxh64_start(state->accumulators, seed);
    return XXH_OK;
}

/* Completes the buffered stripe, if there is one, accumulates it and the other stripes in place, and buffers the rest. */
XXH_INLINE void xxh64_update_stripes(XXH64_state_t *state, const uint8_t *bytes, size_t length)
{
    if (state->buffered) {
        const size_t missing = 32 - state->buffered;
        XXH_COPY(state->buffer + state->buffered, bytes, missing);
        xxh64_accumulate(state->accumulators, state->buffer, 1);
        bytes += missing;
        length -= missing;
    }
    xxh64_accumulate(state->accumulators, bytes, length / 32);
    state->buffered = (uint32_t)(length % 32);
    XXH_COPY(state->buffer, bytes + length / 32 * 32, length % 32);
}

XXH_FUNCTION XXH_errorcode XXH64_update(XXH64_state_t *state, const void *input, size_t length)
{
    if (!input) return XXH_OK;
    state->total += length;
    if (length >= 32 - state->buffered) {
        xxh64_update_stripes(state, (const uint8_t *)input, length);
    } else {
        XXH_COPY(state->buffer + state->buffered, input, length);
        state->buffered += (uint32_t)length;
    }
    return XXH_OK;
}

XXH_FUNCTION XXH64_hash_t XXH64_digest(const XXH64_state_t *state)
{
    uint64_t hash = state->total >= 32 ? xxh64_converge(state->accumulators) : state->accumulators[2] + XXH64_PRIME5;
    return xxh64_finish(hash + state->total, state->buffer, state->buffered);
}
#endif

#ifndef XXH_NO_XXH3
/* ---- XXH3: constants and steps ---- */

static const uint64_t XXH3_PRIME_MX1 = 0x165667919E3779F9U, XXH3_PRIME_MX2 = 0x9FB21C651E98DF25U;

static const uint8_t xxh3_default_secret[XXH3_SECRET_DEFAULT_SIZE] = {
    0xb8, 0xfe, 0x6c, 0x39, 0x23, 0xa4, 0x4b, 0xbe, 0x7c, 0x01, 0x81, 0x2c, 0xf7, 0x21, 0xad, 0x1c,
    0xde, 0xd4, 0x6d, 0xe9, 0x83, 0x90, 0x97, 0xdb, 0x72, 0x40, 0xa4, 0xa4, 0xb7, 0xb3, 0x67, 0x1f,
    0xcb, 0x79, 0xe6, 0x4e, 0xcc, 0xc0, 0xe5, 0x78, 0x82, 0x5a, 0xd0, 0x7d, 0xcc, 0xff, 0x72, 0x21,
    0xb8, 0x08, 0x46, 0x74, 0xf7, 0x43, 0x24, 0x8e, 0xe0, 0x35, 0x90, 0xe6, 0x81, 0x3a, 0x26, 0x4c,
    0x3c, 0x28, 0x52, 0xbb, 0x91, 0xc3, 0x00, 0xcb, 0x88, 0xd0, 0x65, 0x8b, 0x1b, 0x53, 0x2e, 0xa3,
    0x71, 0x64, 0x48, 0x97, 0xa2, 0x0d, 0xf9, 0x4e, 0x38, 0x19, 0xef, 0x46, 0xa9, 0xde, 0xac, 0xd8,
    0xa8, 0xfa, 0x76, 0x3f, 0xe3, 0x9c, 0x34, 0x3f, 0xf9, 0xdc, 0xbb, 0xc7, 0xc7, 0x0b, 0x4f, 0x1d,
    0x8a, 0x51, 0xe0, 0x4b, 0xcd, 0xb4, 0x59, 0x31, 0xc8, 0x9f, 0x7e, 0xc9, 0xd9, 0x78, 0x73, 0x64,
    0xea, 0xc5, 0xac, 0x83, 0x34, 0xd3, 0xeb, 0xc3, 0xc5, 0x81, 0xa0, 0xff, 0xfa, 0x13, 0x63, 0xeb,
    0x17, 0x0d, 0xdd, 0x51, 0xb7, 0xf0, 0xda, 0x49, 0xd3, 0x16, 0x55, 0x26, 0x29, 0xd4, 0x68, 0x9e,
    0x2b, 0x16, 0xbe, 0x58, 0x7d, 0x47, 0xa1, 0xfc, 0x8f, 0xf8, 0xb8, 0xd1, 0x7a, 0xd0, 0x31, 0xce,
    0x45, 0xcb, 0x3a, 0x8f, 0x95, 0x16, 0x04, 0x28, 0xaf, 0xd7, 0xfb, 0xca, 0xbb, 0x4b, 0x40, 0x7e,
};

/* Returns the product of two words, which has 128 bits. */
XXH_FORCE_INLINE XXH128_hash_t xxh3_multiply(uint64_t a, uint64_t b)
{
    XXH128_hash_t product;
#ifdef __SIZEOF_INT128__
    __extension__ unsigned __int128 whole = (unsigned __int128)a * b;
    product.low64 = (uint64_t)whole;
    product.high64 = (uint64_t)(whole >> 64);
#else
    const uint64_t half = 0xFFFFFFFFU;
    uint64_t a0 = a & half, a1 = a >> 32, b0 = b & half, b1 = b >> 32, lowest = a0 * b0;
    uint64_t t = a1 * b0 + (lowest >> 32), u = a0 * b1 + (t & half);
    product.low64 = u << 32 | (lowest & half);
    product.high64 = a1 * b1 + (t >> 32) + (u >> 32);
#endif
    return product;
}

/* Returns the two halves of a product, xored. */
XXH_FORCE_INLINE uint64_t xxh3_fold(uint64_t a, uint64_t b)
{
    XXH128_hash_t product = xxh3_multiply(a, b);
    return product.low64 ^ product.high64;
}

XXH_FORCE_INLINE uint64_t xxh3_avalanche(uint64_t hash)
{
    hash = (hash ^ hash >> 37) * XXH3_PRIME_MX1;
    return hash ^ hash >> 32;
}

/* Returns two adjacent words of a secret, xored. */
XXH_FORCE_INLINE uint64_t xxh3_xor_words(const uint8_t *secret) { return xxh_read64(secret) ^ xxh_read64(secret + 8); }

/* Mixes 16 bytes with 16 of the secret. */
XXH_FORCE_INLINE uint64_t xxh3_mix(const uint8_t *bytes, const uint8_t *secret, uint64_t seed)
{
    return xxh3_fold(xxh_read64(bytes) ^ (xxh_read64(secret) + seed),
                     xxh_read64(bytes + 8) ^ (xxh_read64(secret + 8) - seed));
}

/* Returns 1 to 3 bytes and their number as one word. */
XXH_FORCE_INLINE uint32_t xxh3_combine(const uint8_t *bytes, size_t length)
{
    return bytes[length - 1] | (uint32_t)length << 8 | (uint32_t)bytes[0] << 16 | (uint32_t)bytes[length / 2] << 24;
}

/* Returns the seed as 4 to 8 bytes use it. */
XXH_FORCE_INLINE uint64_t xxh3_widen_seed(uint64_t seed)
{
    return seed ^ (uint64_t)xxh_swap_bytes32((uint32_t)seed) << 32;
}

/* ---- XXH3 64-bit: up to 240 bytes ---- */

XXH_FORCE_INLINE uint64_t xxh3_64_0_to_16(const uint8_t *bytes, size_t length, const uint8_t *secret, uint64_t seed)
{
    if (length > 8) {
        uint64_t first = (xxh3_xor_words(secret + 24) + seed) ^ xxh_read64(bytes);
        uint64_t last = (xxh3_xor_words(secret + 40) - seed) ^ xxh_read64(bytes + length - 8);
        return xxh3_avalanche(length + xxh_swap_bytes64(first) + last + xxh3_fold(first, last));
    }
    if (length >= 4) {
        uint64_t word = xxh_read32(bytes + length - 4) + ((uint64_t)xxh_read32(bytes) << 32);
        uint64_t hash = (xxh3_xor_words(secret + 8) - xxh3_widen_seed(seed)) ^ word;
        hash ^= xxh_rotate_left64(hash, 49) ^ xxh_rotate_left64(hash, 24);
        hash *= XXH3_PRIME_MX2;
        hash = (hash ^ ((hash >> 35) + length)) * XXH3_PRIME_MX2;
        return hash ^ hash >> 28;
    }
    if (length) {
        uint64_t key = (xxh_read32(secret) ^ xxh_read32(secret + 4)) + seed;
        return xxh64_avalanche(key ^ xxh3_combine(bytes, length));
    }
    return xxh64_avalanche(seed ^ xxh3_xor_words(secret + 56));
}

/* Mixes 16 bytes at an offset from the start, and 16 at the same offset from the end. */
XXH_FORCE_INLINE uint64_t xxh3_64_mix_ends(const uint8_t *bytes, size_t length, size_t offset, const uint8_t *secret,
                                           uint64_t seed)
{
    return xxh3_mix(bytes + offset, secret + 2 * offset, seed)
        + xxh3_mix(bytes + length - 16 - offset, secret + 2 * offset + 16, seed);
}

XXH_FORCE_INLINE uint64_t xxh3_64_17_to_128(const uint8_t *bytes, size_t length, const uint8_t *secret, uint64_t seed)
{
    uint64_t hash = length * XXH64_PRIME1 + xxh3_64_mix_ends(bytes, length, 0, secret, seed);
    if (length > 32) hash += xxh3_64_mix_ends(bytes, length, 16, secret, seed);
    if (length > 64) hash += xxh3_64_mix_ends(bytes, length, 32, secret, seed);
    if (length > 96) hash += xxh3_64_mix_ends(bytes, length, 48, secret, seed);
    return xxh3_avalanche(hash);
}

XXH_NO_INLINE uint64_t xxh3_64_129_to_240(const uint8_t *bytes, size_t length, const uint8_t *secret, uint64_t seed)
{
    uint64_t hash = length * XXH64_PRIME1;
    size_t i;
    XXH_UNROLLED
    for (i = 0; i < 8; i++) hash += xxh3_mix(bytes + 16 * i, secret + 16 * i, seed);
    hash = xxh3_avalanche(hash);
    for (i = 8; i < length / 16; i++) hash += xxh3_mix(bytes + 16 * i, secret + 16 * (i - 8) + 3, seed);
    return xxh3_avalanche(hash + xxh3_mix(bytes + length - 16, secret + 119, seed));
}

/* ---- XXH3 128-bit: up to 240 bytes ---- */

XXH_FORCE_INLINE XXH128_hash_t xxh3_128_9_to_16(const uint8_t *bytes, size_t length, const uint8_t *secret,
                                                uint64_t seed)
{
    uint64_t last = xxh_read64(bytes + length - 8);
    uint64_t low = (xxh3_xor_words(secret + 32) - seed) ^ xxh_read64(bytes) ^ last;
    uint64_t high = (xxh3_xor_words(secret + 48) + seed) ^ last;
    XXH128_hash_t product = xxh3_multiply(low, XXH64_PRIME1), hash;
    product.low64 += (uint64_t)(length - 1) << 54;
    product.high64 += ((high >> 32) << 32) + (uint32_t)high * (uint64_t)XXH32_PRIME2;
    product.low64 ^= xxh_swap_bytes64(product.high64);
    hash = xxh3_multiply(product.low64, XXH64_PRIME2);
    hash.high64 += product.high64 * XXH64_PRIME2;
    hash.low64 = xxh3_avalanche(hash.low64);
    hash.high64 = xxh3_avalanche(hash.high64);
    return hash;
}

XXH_FORCE_INLINE XXH128_hash_t xxh3_128_4_to_8(const uint8_t *bytes, size_t length, const uint8_t *secret,
                                               uint64_t seed)
{
    uint64_t word = xxh_read32(bytes) + ((uint64_t)xxh_read32(bytes + length - 4) << 32);
    uint64_t keyed = (xxh3_xor_words(secret + 16) + xxh3_widen_seed(seed)) ^ word;
    XXH128_hash_t hash = xxh3_multiply(keyed, XXH64_PRIME1 + ((uint64_t)length << 2));
    hash.high64 += hash.low64 << 1;
    hash.low64 ^= hash.high64 >> 3;
    hash.low64 = (hash.low64 ^ hash.low64 >> 35) * XXH3_PRIME_MX2;
    hash.low64 ^= hash.low64 >> 28;
    hash.high64 = xxh3_avalanche(hash.high64);
    return hash;
}

XXH_FORCE_INLINE XXH128_hash_t xxh3_128_0_to_16(const uint8_t *bytes, size_t length, const uint8_t *secret,
                                                uint64_t seed)
{
    XXH128_hash_t hash;
    if (length > 8) return xxh3_128_9_to_16(bytes, length, secret, seed);
    if (length >= 4) return xxh3_128_4_to_8(bytes, length, secret, seed);
    if (length) {
        uint32_t combined = xxh3_combine(bytes, length);
        hash.low64 = ((xxh_read32(secret) ^ xxh_read32(secret + 4)) + seed) ^ combined;
        hash.high64 = ((xxh_read32(secret + 8) ^ xxh_read32(secret + 12)) - seed)
            ^ xxh_rotate_left32(xxh_swap_bytes32(combined), 13);
    } else {
        hash.low64 = seed ^ xxh3_xor_words(secret + 64);
        hash.high64 = seed ^ xxh3_xor_words(secret + 80);
    }
    hash.low64 = xxh64_avalanche(hash.low64);
    hash.high64 = xxh64_avalanche(hash.high64);
    return hash;
}

/* Mixes 16 bytes into each half, and adds the words of the other 16. */
XXH_FORCE_INLINE void xxh3_128_mix(XXH128_hash_t *hash, const uint8_t *low, const uint8_t *high, const uint8_t *secret,
                                   uint64_t seed)
{
    hash->low64 = (hash->low64 + xxh3_mix(low, secret, seed)) ^ (xxh_read64(high) + xxh_read64(high + 8));
    hash->high64 = (hash->high64 + xxh3_mix(high, secret + 16, seed)) ^ (xxh_read64(low) + xxh_read64(low + 8));
}

XXH_FORCE_INLINE XXH128_hash_t xxh3_128_finish(XXH128_hash_t halves, size_t length, uint64_t seed)
{
    XXH128_hash_t hash;
    hash.low64 = xxh3_avalanche(halves.low64 + halves.high64);
    hash.high64 = 0 - xxh3_avalanche(halves.low64 * XXH64_PRIME1 + halves.high64 * XXH64_PRIME4
                                     + (length - seed) * XXH64_PRIME2);
    return hash;
}

XXH_FORCE_INLINE XXH128_hash_t xxh3_128_17_to_128(const uint8_t *bytes, size_t length, const uint8_t *secret,
                                                  uint64_t seed)
{
    const uint8_t *end = bytes + length;
    XXH128_hash_t halves;
    halves.low64 = length * XXH64_PRIME1;
    halves.high64 = 0;
    if (length > 96) xxh3_128_mix(&halves, bytes + 48, end - 64, secret + 96, seed);
    if (length > 64) xxh3_128_mix(&halves, bytes + 32, end - 48, secret + 64, seed);
    if (length > 32) xxh3_128_mix(&halves, bytes + 16, end - 32, secret + 32, seed);
    xxh3_128_mix(&halves, bytes, end - 16, secret, seed);
    return xxh3_128_finish(halves, length, seed);
}

XXH_NO_INLINE XXH128_hash_t xxh3_128_129_to_240(const uint8_t *bytes, size_t length, const uint8_t *secret,
                                                uint64_t seed)
{
    const uint8_t *end = bytes + length;
    XXH128_hash_t halves;
    size_t i;
    halves.low64 = length * XXH64_PRIME1;
    halves.high64 = 0;
    XXH_UNROLLED
    for (i = 0; i < 4; i++) xxh3_128_mix(&halves, bytes + 32 * i, bytes + 32 * i + 16, secret + 32 * i, seed);
    halves.low64 = xxh3_avalanche(halves.low64);
    halves.high64 = xxh3_avalanche(halves.high64);
    for (i = 4; i < length / 32; i++)
        xxh3_128_mix(&halves, bytes + 32 * i, bytes + 32 * i + 16, secret + 32 * (i - 4) + 3, seed);
    xxh3_128_mix(&halves, end - 16, end - 32, secret + 103, 0 - seed);
    return xxh3_128_finish(halves, length, seed);
}

/* ---- XXH3: the kernel, on eight accumulators in vectors of 1, 2 or 4 ---- */

#if XXH_VECTOR == XXH_AVX2 || XXH_VECTOR == XXH_SSE2
#if XXH_VECTOR == XXH_AVX2
typedef __m256i xxh3_vector;
#define XXH3_VECTORS 2
#define XXH3_ON_WORDS(operation) _mm256_##operation
#define XXH3_ON_BITS(operation) _mm256_##operation##_si256
#define XXH3_XOR _mm256_xor_si256
#else
typedef __m128i xxh3_vector;
#define XXH3_VECTORS 4
#define XXH3_ON_WORDS(operation) _mm_##operation
#define XXH3_ON_BITS(operation) _mm_##operation##_si128
#define XXH3_XOR _mm_xor_si128
#endif

XXH_FORCE_INLINE xxh3_vector xxh3_load(const void *at) { return XXH3_ON_BITS(loadu)((const xxh3_vector *)at); }
XXH_FORCE_INLINE void xxh3_store(void *at, xxh3_vector vector) { XXH3_ON_BITS(storeu)((xxh3_vector *)at, vector); }

XXH_FORCE_INLINE xxh3_vector xxh3_accumulate_vector(xxh3_vector accumulators, xxh3_vector lanes, xxh3_vector key)
{
    xxh3_vector keyed = XXH3_XOR(lanes, key);
    xxh3_vector product = XXH3_ON_WORDS(mul_epu32)(keyed, XXH3_ON_WORDS(srli_epi64)(keyed, 32));
    xxh3_vector swapped = XXH3_ON_WORDS(shuffle_epi32)(lanes, 0x4E);
    return XXH3_ON_WORDS(add_epi64)(product, XXH3_ON_WORDS(add_epi64)(accumulators, swapped));
}

XXH_FORCE_INLINE xxh3_vector xxh3_scramble_vector(xxh3_vector accumulators, xxh3_vector key)
{
    const xxh3_vector prime = XXH3_ON_WORDS(set1_epi32)((int)XXH32_PRIME1);
    xxh3_vector shifted = XXH3_ON_WORDS(srli_epi64)(accumulators, 47);
    xxh3_vector keyed = XXH3_XOR(XXH3_XOR(accumulators, shifted), key);
    xxh3_vector high = XXH3_ON_WORDS(mul_epu32)(XXH3_ON_WORDS(srli_epi64)(keyed, 32), prime);
    return XXH3_ON_WORDS(add_epi64)(XXH3_ON_WORDS(mul_epu32)(keyed, prime), XXH3_ON_WORDS(slli_epi64)(high, 32));
}

#elif XXH_VECTOR == XXH_NEON
typedef uint64x2_t xxh3_vector;
#define XXH3_VECTORS 4

XXH_FORCE_INLINE xxh3_vector xxh3_load(const void *at)
{
    return vreinterpretq_u64_u8(vld1q_u8((const uint8_t *)at));
}

XXH_FORCE_INLINE void xxh3_store(void *at, xxh3_vector vector)
{
    vst1q_u8((uint8_t *)at, vreinterpretq_u8_u64(vector));
}

XXH_FORCE_INLINE xxh3_vector xxh3_accumulate_vector(xxh3_vector accumulators, xxh3_vector lanes, xxh3_vector key)
{
    xxh3_vector keyed = veorq_u64(lanes, key), swapped = vextq_u64(lanes, lanes, 1);
    return vmlal_u32(vaddq_u64(accumulators, swapped), vmovn_u64(keyed), vshrn_n_u64(keyed, 32));
}

XXH_FORCE_INLINE xxh3_vector xxh3_scramble_vector(xxh3_vector accumulators, xxh3_vector key)
{
    const uint32x2_t prime = vdup_n_u32(XXH32_PRIME1);
    xxh3_vector keyed = veorq_u64(veorq_u64(accumulators, vshrq_n_u64(accumulators, 47)), key);
    xxh3_vector high = vshlq_n_u64(vmull_u32(vshrn_n_u64(keyed, 32), prime), 32);
    return vmlal_u32(high, vmovn_u64(keyed), prime);
}
#endif

#if XXH_VECTOR == XXH_SCALAR
typedef uint64_t xxh3_vector;
#define XXH3_VECTORS 8

XXH_FORCE_INLINE void xxh3_load_all(uint64_t *local, const uint64_t *accumulators)
{
    XXH_COPY(local, accumulators, 64);
}

XXH_FORCE_INLINE void xxh3_store_all(uint64_t *accumulators, const uint64_t *local)
{
    XXH_COPY(accumulators, local, 64);
}

XXH_FORCE_INLINE void xxh3_accumulate_stripe(uint64_t *local, const uint8_t *stripe, const uint8_t *key)
{
    size_t i;
    XXH_UNROLLED
    for (i = 0; i < 8; i++) {
        uint64_t lane = xxh_read64(stripe + 8 * i), keyed = lane ^ xxh_read64(key + 8 * i);
        local[i ^ 1] += lane;
        local[i] += (uint64_t)(uint32_t)keyed * (keyed >> 32);
    }
}

/* Scrambles the accumulators at the end of a block. */
XXH_FORCE_INLINE void xxh3_scramble(uint64_t *accumulators, const uint8_t *key)
{
    size_t i;
    for (i = 0; i < 8; i++)
        accumulators[i] = (accumulators[i] ^ accumulators[i] >> 47 ^ xxh_read64(key + 8 * i)) * XXH32_PRIME1;
}

#else
/* Bytes and accumulators of a vector. */
#define XXH3_VECTOR_BYTES (64 / XXH3_VECTORS)
#define XXH3_VECTOR_WORDS (8 / XXH3_VECTORS)

XXH_FORCE_INLINE void xxh3_load_all(xxh3_vector *local, const uint64_t *accumulators)
{
    size_t i;
    XXH_UNROLLED
    for (i = 0; i < XXH3_VECTORS; i++) local[i] = xxh3_load(accumulators + XXH3_VECTOR_WORDS * i);
}

XXH_FORCE_INLINE void xxh3_store_all(uint64_t *accumulators, const xxh3_vector *local)
{
    size_t i;
    XXH_UNROLLED
    for (i = 0; i < XXH3_VECTORS; i++) xxh3_store(accumulators + XXH3_VECTOR_WORDS * i, local[i]);
}

XXH_FORCE_INLINE void xxh3_accumulate_stripe(xxh3_vector *local, const uint8_t *stripe, const uint8_t *key)
{
    size_t i;
    XXH_UNROLLED
    for (i = 0; i < XXH3_VECTORS; i++)
        local[i] = xxh3_accumulate_vector(local[i], xxh3_load(stripe + XXH3_VECTOR_BYTES * i),
                                          xxh3_load(key + XXH3_VECTOR_BYTES * i));
}

/* Scrambles the accumulators at the end of a block. */
XXH_FORCE_INLINE void xxh3_scramble(uint64_t *accumulators, const uint8_t *key)
{
    size_t i;
    XXH_UNROLLED
    for (i = 0; i < XXH3_VECTORS; i++) {
        uint64_t *part = accumulators + XXH3_VECTOR_WORDS * i;
        xxh3_store(part, xxh3_scramble_vector(xxh3_load(part), xxh3_load(key + XXH3_VECTOR_BYTES * i)));
    }
}
#endif

/* Accumulates stripes, and begins 8 bytes later in the secret with each. */
XXH_FORCE_INLINE void xxh3_accumulate_stripes(uint64_t *accumulators, const uint8_t *stripe, const uint8_t *key,
                                              size_t count)
{
    xxh3_vector local[XXH3_VECTORS];
    xxh3_load_all(local, accumulators);
    for (; count; count--, stripe += 64, key += 8) {
        XXH_PREFETCH(stripe + 512);
        xxh3_accumulate_stripe(local, stripe, key);
    }
    xxh3_store_all(accumulators, local);
}

XXH_FORCE_INLINE void xxh3_start(uint64_t *accumulators)
{
    accumulators[0] = XXH32_PRIME3;
    accumulators[1] = XXH64_PRIME1;
    accumulators[2] = XXH64_PRIME2;
    accumulators[3] = XXH64_PRIME3;
    accumulators[4] = XXH64_PRIME4;
    accumulators[5] = XXH32_PRIME2;
    accumulators[6] = XXH64_PRIME5;
    accumulators[7] = XXH32_PRIME1;
}

XXH_FORCE_INLINE uint64_t xxh3_merge(const uint64_t *accumulators, const uint8_t *secret, uint64_t hash)
{
    size_t i;
    XXH_UNROLLED
    for (i = 0; i < 4; i++)
        hash += xxh3_fold(accumulators[2 * i] ^ xxh_read64(secret + 16 * i),
                          accumulators[2 * i + 1] ^ xxh_read64(secret + 16 * i + 8));
    return xxh3_avalanche(hash);
}

XXH_FORCE_INLINE uint64_t xxh3_64_merge(const uint64_t *accumulators, const uint8_t *secret, uint64_t length)
{
    return xxh3_merge(accumulators, secret + 11, length * XXH64_PRIME1);
}

XXH_FORCE_INLINE XXH128_hash_t xxh3_128_merge(const uint64_t *accumulators, const uint8_t *secret,
                                              size_t secret_length, uint64_t length)
{
    XXH128_hash_t hash;
    hash.low64 = xxh3_64_merge(accumulators, secret, length);
    hash.high64 = xxh3_merge(accumulators, secret + secret_length - 75, ~(length * XXH64_PRIME2));
    return hash;
}

/* Writes the secret of a seed, which is added to every second word and subtracted from the others. */
XXH_FORCE_INLINE void xxh3_derive_secret(uint8_t *secret, uint64_t seed)
{
    size_t i;
    for (i = 0; i < XXH3_SECRET_DEFAULT_SIZE; i += 16) {
        xxh_write64(secret + i, xxh_read64(xxh3_default_secret + i) + seed);
        xxh_write64(secret + i + 8, xxh_read64(xxh3_default_secret + i + 8) - seed);
    }
}

/* ---- XXH3: more than 240 bytes ---- */

/* Accumulates all stripes, in blocks that end with a scramble, and the last 64 bytes. */
XXH_FORCE_INLINE void xxh3_accumulate_all(uint64_t *accumulators, const uint8_t *bytes, size_t length,
                                          const uint8_t *secret, size_t secret_length)
{
    const size_t stripes_per_block = (secret_length - 64) / 8, stripes = (length - 1) / 64;
    const size_t blocks = stripes / stripes_per_block;
    size_t block;
    xxh3_start(accumulators);
    for (block = 0; block < blocks; block++) {
        xxh3_accumulate_stripes(accumulators, bytes + 64 * stripes_per_block * block, secret, stripes_per_block);
        xxh3_scramble(accumulators, secret + secret_length - 64);
    }
    xxh3_accumulate_stripes(accumulators, bytes + 64 * stripes_per_block * blocks, secret,
                    stripes - stripes_per_block * blocks);
    xxh3_accumulate_stripes(accumulators, bytes + length - 64, secret + secret_length - 71, 1);
}

XXH_FORCE_INLINE uint64_t xxh3_64_long(const uint8_t *bytes, size_t length, const uint8_t *secret, size_t secret_length)
{
    uint64_t accumulators[8];
    xxh3_accumulate_all(accumulators, bytes, length, secret, secret_length);
    return xxh3_64_merge(accumulators, secret, length);
}

XXH_FORCE_INLINE XXH128_hash_t xxh3_128_long(const uint8_t *bytes, size_t length, const uint8_t *secret,
                                             size_t secret_length)
{
    uint64_t accumulators[8];
    xxh3_accumulate_all(accumulators, bytes, length, secret, secret_length);
    return xxh3_128_merge(accumulators, secret, secret_length, length);
}

/* The same with the default secret, with a custom one, and with one derived from a seed. */
#define XXH3_LONG(width, hash)                                                                                     \
    XXH_NO_INLINE hash xxh3_##width##_long_default(const uint8_t *bytes, size_t length)                            \
    {                                                                                                              \
        return xxh3_##width##_long(bytes, length, xxh3_default_secret, XXH3_SECRET_DEFAULT_SIZE);                  \
    }                                                                                                              \
    XXH_NO_INLINE hash xxh3_##width##_long_secret(const uint8_t *bytes, size_t length, const uint8_t *secret,      \
                                                  size_t secret_length)                                            \
    {                                                                                                              \
        return xxh3_##width##_long(bytes, length, secret, secret_length);                                          \
    }                                                                                                              \
    XXH_NO_INLINE hash xxh3_##width##_long_seed(const uint8_t *bytes, size_t length, uint64_t seed)                \
    {                                                                                                              \
        uint8_t secret[XXH3_SECRET_DEFAULT_SIZE];                                                                  \
        if (!seed) return xxh3_##width##_long_default(bytes, length);                                              \
        xxh3_derive_secret(secret, seed);                                                                          \
        return xxh3_##width##_long(bytes, length, secret, XXH3_SECRET_DEFAULT_SIZE);                               \
    }

XXH3_LONG(64, XXH64_hash_t)
XXH3_LONG(128, XXH128_hash_t)

/* ---- XXH3: one-shots ---- */

/* The hash of up to 240 bytes. */
#define XXH3_SHORT(width, bytes, length, secret, seed)                        \
    ((length) <= 16    ? xxh3_##width##_0_to_16(bytes, length, secret, seed)   \
     : (length) <= 128 ? xxh3_##width##_17_to_128(bytes, length, secret, seed) \
                       : xxh3_##width##_129_to_240(bytes, length, secret, seed))

/* The four one-shots of a width. `none` is the hash 0. */
#define XXH3_ONE_SHOTS(width, hash, none)                                                                          \
    XXH_SHORT_FUNCTION hash XXH3_##width##bits(const void *input, size_t length)                                   \
    {                                                                                                              \
        const uint8_t *bytes = (const uint8_t *)input;                                                             \
        if (length <= 240) return XXH3_SHORT(width, bytes, length, xxh3_default_secret, 0);                        \
        return xxh3_##width##_long_default(bytes, length);                                                         \
    }                                                                                                              \
    XXH_SHORT_FUNCTION hash XXH3_##width##bits_withSeed(const void *input, size_t length, XXH64_hash_t seed)       \
    {                                                                                                              \
        const uint8_t *bytes = (const uint8_t *)input;                                                             \
        if (length <= 240) return XXH3_SHORT(width, bytes, length, xxh3_default_secret, seed);                     \
        return xxh3_##width##_long_seed(bytes, length, seed);                                                      \
    }                                                                                                              \
    XXH_SHORT_FUNCTION hash XXH3_##width##bits_withSecret(const void *input, size_t length, const void *secret,    \
                                                          size_t secret_length)                                    \
    {                                                                                                              \
        const uint8_t *bytes = (const uint8_t *)input, *key = (const uint8_t *)secret;                             \
        if (secret_length < XXH3_SECRET_SIZE_MIN) return none;                                                     \
        if (length <= 240) return XXH3_SHORT(width, bytes, length, key, 0);                                        \
        return xxh3_##width##_long_secret(bytes, length, key, secret_length);                                      \
    }                                                                                                              \
    XXH_SHORT_FUNCTION hash XXH3_##width##bits_withSecretandSeed(                                                  \
        const void *input, size_t length, const void *secret, size_t secret_length, XXH64_hash_t seed)             \
    {                                                                                                              \
        const uint8_t *bytes = (const uint8_t *)input, *key = (const uint8_t *)secret;                             \
        if (length <= 240) return XXH3_SHORT(width, bytes, length, xxh3_default_secret, seed);                     \
        if (secret_length < XXH3_SECRET_SIZE_MIN) return none;                                                     \
        return xxh3_##width##_long_secret(bytes, length, key, secret_length);                                      \
    }

XXH_FORCE_INLINE XXH128_hash_t xxh3_128_from(uint64_t low, uint64_t high)
{
    XXH128_hash_t hash;
    hash.low64 = low;
    hash.high64 = high;
    return hash;
}

XXH3_ONE_SHOTS(64, XXH64_hash_t, 0)
XXH3_ONE_SHOTS(128, XXH128_hash_t, xxh3_128_from(0, 0))

XXH_SHORT_FUNCTION XXH128_hash_t XXH128(const void *input, size_t length, XXH64_hash_t seed)
{
    return XXH3_128bits_withSeed(input, length, seed);
}

XXH_FUNCTION int XXH128_isEqual(XXH128_hash_t one, XXH128_hash_t other)
{
    return one.low64 == other.low64 && one.high64 == other.high64;
}

XXH_FUNCTION int XXH128_cmp(const void *one, const void *other)
{
    const XXH128_hash_t *a = (const XXH128_hash_t *)one, *b = (const XXH128_hash_t *)other;
    if (a->high64 != b->high64) return a->high64 < b->high64 ? -1 : 1;
    return a->low64 == b->low64 ? 0 : a->low64 < b->low64 ? -1 : 1;
}

XXH_FUNCTION void XXH128_canonicalFromHash(XXH128_canonical_t *bytes, XXH128_hash_t hash)
{
    xxh_write_canonical(bytes->digest, hash.high64, 8);
    xxh_write_canonical(bytes->digest + 8, hash.low64, 8);
}

XXH_FUNCTION XXH128_hash_t XXH128_hashFromCanonical(const XXH128_canonical_t *bytes)
{
    return xxh3_128_from(xxh_read_canonical(bytes->digest + 8, 8), xxh_read_canonical(bytes->digest, 8));
}

/* ---- XXH3: secrets ---- */

/* Xors 16 bytes with a hash. */
XXH_FORCE_INLINE void xxh3_xor_hash(uint8_t *bytes, XXH128_hash_t hash)
{
    xxh_write64(bytes, xxh_read64(bytes) ^ hash.low64);
    xxh_write64(bytes + 8, xxh_read64(bytes + 8) ^ hash.high64);
}

XXH_LARGE_FUNCTION XXH_errorcode XXH3_generateSecret(void *secret, size_t secret_length, const void *custom_seed,
                                                     size_t custom_seed_length)
{
    const uint8_t *source = (const uint8_t *)custom_seed;
    uint8_t *bytes = (uint8_t *)secret;
    XXH128_hash_t hash;
    XXH128_canonical_t canonical;
    size_t i;
    if (!bytes || secret_length < XXH3_SECRET_SIZE_MIN || (!source && custom_seed_length)) return XXH_ERROR;
    if (!custom_seed_length) {
        source = xxh3_default_secret;
        custom_seed_length = XXH3_SECRET_DEFAULT_SIZE;
    }
    for (i = 0; i < secret_length; i++) bytes[i] = source[i % custom_seed_length];
    hash = XXH128(source, custom_seed_length, 0);
    XXH128_canonicalFromHash(&canonical, hash);
    for (i = 0; i < secret_length / 16; i++)
        xxh3_xor_hash(bytes + 16 * i, XXH128(canonical.digest, sizeof canonical.digest, i));
    xxh3_xor_hash(bytes + secret_length - 16, hash);
    return XXH_OK;
}

XXH_FUNCTION void XXH3_generateSecret_fromSeed(void *secret, XXH64_hash_t seed)
{
    xxh3_derive_secret((uint8_t *)secret, seed);
}

#ifndef XXH_NO_STREAM
/* ---- XXH3: streams ---- */

XXH_FORCE_INLINE const uint8_t *xxh3_secret_of(const XXH3_state_t *state)
{
    return state->secret ? state->secret : state->derived_secret;
}

/* Accumulates stripes, of which the first is at any position of a block. Returns the position after them. */
XXH_NO_INLINE size_t xxh3_accumulate_blocks(uint64_t *accumulators, size_t position, const uint8_t *stripe,
                                            size_t count, const uint8_t *secret, size_t stripes_per_block,
                                            size_t secret_limit)
{
    const size_t left = stripes_per_block - position;
    if (count < left) {
        xxh3_accumulate_stripes(accumulators, stripe, secret + 8 * position, count);
        return position + count;
    }
    xxh3_accumulate_stripes(accumulators, stripe, secret + 8 * position, left);
    xxh3_scramble(accumulators, secret + secret_limit);
    stripe += 64 * left;
    count -= left;
    for (; count >= stripes_per_block; count -= stripes_per_block, stripe += 64 * stripes_per_block) {
        xxh3_accumulate_stripes(accumulators, stripe, secret, stripes_per_block);
        xxh3_scramble(accumulators, secret + secret_limit);
    }
    xxh3_accumulate_stripes(accumulators, stripe, secret, count);
    return count;
}

XXH_FORCE_INLINE void xxh3_accumulate_into(XXH3_state_t *state, const uint8_t *stripe, size_t count)
{
    state->block_stripes = xxh3_accumulate_blocks(state->accumulators, state->block_stripes, stripe, count,
                                                  xxh3_secret_of(state), state->stripes_per_block,
                                                  state->secret_limit);
}

/* Fills the buffer and accumulates its four stripes, and of the rest, in place, all stripes that are followed by a byte. */
XXH_NO_INLINE void xxh3_update_stripes(XXH3_state_t *state, const uint8_t *bytes, size_t length)
{
    const size_t capacity = sizeof state->buffer;
    if (state->buffered) {
        const size_t missing = capacity - state->buffered;
        xxh_copy(state->buffer + state->buffered, bytes, missing);
        xxh3_accumulate_into(state, state->buffer, capacity / 64);
        bytes += missing;
        length -= missing;
    }
    if (length > capacity) {
        const size_t count = (length - 1) / 64;
        xxh3_accumulate_into(state, bytes, count);
        bytes += 64 * count;
        length -= 64 * count;
        XXH_COPY(state->buffer + capacity - 64, bytes - 64, 64);
    }
    xxh_copy(state->buffer, bytes, length);
    state->buffered = (uint32_t)length;
}

/* Buffers bytes until more than the buffer's length are there. */
XXH_FORCE_INLINE XXH_errorcode xxh3_update(XXH3_state_t *state, const void *input, size_t length)
{
    if (!input) return XXH_OK;
    state->total += length;
    if (length > sizeof state->buffer - state->buffered) {
        xxh3_update_stripes(state, (const uint8_t *)input, length);
    } else {
        XXH_COPY(state->buffer + state->buffered, input, length);
        state->buffered += (uint32_t)length;
    }
    return XXH_OK;
}

/* Accumulates the buffered stripes and the last 64 bytes, in a copy of the accumulators. */
XXH_FORCE_INLINE void xxh3_accumulate_last(uint64_t *accumulators, const XXH3_state_t *state)
{
    const uint8_t *secret = xxh3_secret_of(state), *last;
    const size_t buffered = state->buffered;
    uint8_t joined[64];
    XXH_COPY(accumulators, state->accumulators, 64);
    if (buffered >= 64) {
        xxh3_accumulate_blocks(accumulators, state->block_stripes, state->buffer, (buffered - 1) / 64, secret,
                               state->stripes_per_block, state->secret_limit);
        last = state->buffer + buffered - 64;
    } else {
        XXH_COPY(joined, state->buffer + sizeof state->buffer - 64 + buffered, 64 - buffered);
        XXH_COPY(joined + 64 - buffered, state->buffer, buffered);
        last = joined;
    }
    xxh3_accumulate_stripes(accumulators, last, secret + state->secret_limit - 7, 1);
}

XXH_FORCE_INLINE XXH_errorcode xxh3_reset(XXH3_state_t *state, const void *secret, size_t secret_length, uint64_t seed,
                                          uint32_t uses_seed)
{
    xxh3_start(state->accumulators);
    state->buffered = 0;
    state->uses_seed = uses_seed;
    state->block_stripes = 0;
    state->total = 0;
    state->stripes_per_block = (secret_length - 64) / 8;
    state->secret_limit = secret_length - 64;
    state->seed = seed;
    state->secret = (const uint8_t *)secret;
    return XXH_OK;
}

XXH_FORCE_INLINE XXH_errorcode xxh3_reset_with_seed(XXH3_state_t *state, uint64_t seed)
{
    if (!state) return XXH_ERROR;
    if (!seed) return xxh3_reset(state, xxh3_default_secret, XXH3_SECRET_DEFAULT_SIZE, 0, 0);
    xxh3_derive_secret(state->derived_secret, seed);
    return xxh3_reset(state, NULL, XXH3_SECRET_DEFAULT_SIZE, seed, 1);
}

XXH_FORCE_INLINE XXH_errorcode xxh3_reset_with_secret(XXH3_state_t *state, const void *secret, size_t secret_length,
                                                      uint64_t seed, uint32_t uses_seed)
{
    if (!state || !secret || secret_length < XXH3_SECRET_SIZE_MIN) return XXH_ERROR;
    return xxh3_reset(state, secret, secret_length, seed, uses_seed);
}

/* The calls of a stream, which are the same for both widths except the digest. */
#define XXH3_STREAMS(width)                                                                                        \
    XXH_FUNCTION XXH_errorcode XXH3_##width##bits_reset(XXH3_state_t *state)                                       \
    {                                                                                                              \
        return xxh3_reset_with_seed(state, 0);                                                                     \
    }                                                                                                              \
    XXH_FUNCTION XXH_errorcode XXH3_##width##bits_reset_withSeed(XXH3_state_t *state, XXH64_hash_t seed)           \
    {                                                                                                              \
        return xxh3_reset_with_seed(state, seed);                                                                  \
    }                                                                                                              \
    XXH_FUNCTION XXH_errorcode XXH3_##width##bits_reset_withSecret(XXH3_state_t *state, const void *secret,        \
                                                                   size_t secret_length)                           \
    {                                                                                                              \
        return xxh3_reset_with_secret(state, secret, secret_length, 0, 0);                                         \
    }                                                                                                              \
    XXH_FUNCTION XXH_errorcode XXH3_##width##bits_reset_withSecretandSeed(                                         \
        XXH3_state_t *state, const void *secret, size_t secret_length, XXH64_hash_t seed)                          \
    {                                                                                                              \
        return xxh3_reset_with_secret(state, secret, secret_length, seed, 1);                                      \
    }                                                                                                              \
    XXH_FUNCTION XXH_errorcode XXH3_##width##bits_update(XXH3_state_t *state, const void *input, size_t length)    \
    {                                                                                                              \
        return xxh3_update(state, input, length);                                                                  \
    }

XXH3_STREAMS(64)
XXH3_STREAMS(128)

XXH_FUNCTION XXH64_hash_t XXH3_64bits_digest(const XXH3_state_t *state)
{
    uint64_t accumulators[8];
    if (state->total > 240) {
        xxh3_accumulate_last(accumulators, state);
        return xxh3_64_merge(accumulators, xxh3_secret_of(state), state->total);
    }
    if (state->uses_seed) return XXH3_64bits_withSeed(state->buffer, (size_t)state->total, state->seed);
    return XXH3_64bits_withSecret(state->buffer, (size_t)state->total, state->secret, state->secret_limit + 64);
}

XXH_FUNCTION XXH128_hash_t XXH3_128bits_digest(const XXH3_state_t *state)
{
    uint64_t accumulators[8];
    if (state->total > 240) {
        xxh3_accumulate_last(accumulators, state);
        return xxh3_128_merge(accumulators, xxh3_secret_of(state), state->secret_limit + 64, state->total);
    }
    if (state->uses_seed) return XXH3_128bits_withSeed(state->buffer, (size_t)state->total, state->seed);
    return XXH3_128bits_withSecret(state->buffer, (size_t)state->total, state->secret, state->secret_limit + 64);
}
#endif
#endif

/* ---- Memory ---- */

XXH_FUNCTION unsigned XXH_versionNumber(void) { return XXH_VERSION_NUMBER; }

#ifndef XXH_NO_STREAM
#ifdef XXH_NO_STDLIB
#define XXH_ALLOCATE(bytes) NULL
#define XXH_FREE(block) ((void)(block))
#else
#define XXH_ALLOCATE(bytes) malloc(bytes)
#define XXH_FREE(block) free(block)
#endif

#define XXH_MEMORY(algorithm)                                                              \
    XXH_FUNCTION algorithm##_state_t *algorithm##_createState(void)                        \
    {                                                                                      \
        algorithm##_state_t *state = (algorithm##_state_t *)XXH_ALLOCATE(sizeof *state);   \
        if (state) algorithm##_reset(state, 0);                                            \
        return state;                                                                      \
    }                                                                                      \
    XXH_FUNCTION XXH_errorcode algorithm##_freeState(algorithm##_state_t *state)           \
    {                                                                                      \
        XXH_FREE(state);                                                                   \
        return XXH_OK;                                                                     \
    }                                                                                      \
    XXH_FUNCTION void algorithm##_copyState(algorithm##_state_t *to, const algorithm##_state_t *from) { *to = *from; }

XXH_MEMORY(XXH32)
XXH_MEMORY(XXH64)

#ifndef XXH_NO_XXH3
/* A state at the first multiple of 64 inside a block. The byte before it is its distance from the block's start. */
XXH_FUNCTION XXH3_state_t *XXH3_createState(void)
{
    uint8_t *block = (uint8_t *)XXH_ALLOCATE(sizeof(XXH3_state_t) + 64), *start;
    if (!block) return NULL;
    start = block + 64 - (size_t)((uintptr_t)block % 64);
    start[-1] = (uint8_t)(start - block);
    XXH3_64bits_reset((XXH3_state_t *)(void *)start);
    return (XXH3_state_t *)(void *)start;
}

XXH_FUNCTION XXH_errorcode XXH3_freeState(XXH3_state_t *state)
{
    uint8_t *start = (uint8_t *)state;
    if (start) XXH_FREE(start - start[-1]);
    return XXH_OK;
}

XXH_FUNCTION void XXH3_copyState(XXH3_state_t *to, const XXH3_state_t *from) { *to = *from; }
#endif
#endif

#ifdef __cplusplus
}
#endif
#endif
