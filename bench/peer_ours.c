/* This repository as a peer: the exports of the crate bench_exports. PEER names it. With OLD the names are
 * those of an older revision's library, which bench/compare renames. What a library does not export is null. */
#include "peer.h"

#ifdef OLD
#define EXPORT(name) old_twox_##name
#else
#define EXPORT(name) twox_##name
#endif
#define NAME_OF(x) #x
#define NAME(x) NAME_OF(x)
#define WEAK __attribute__((weak))

WEAK uint32_t EXPORT(xxh32)(uint32_t seed, const void *input, size_t length);
WEAK uint64_t EXPORT(xxh64)(uint64_t seed, const void *input, size_t length);
WEAK uint64_t EXPORT(xxh3_64)(const void *input, size_t length);
WEAK uint64_t EXPORT(xxh3_64_with_seed)(uint64_t seed, const void *input, size_t length);
WEAK uint64_t EXPORT(xxh3_64_with_secret)(const void *secret, size_t secret_length, const void *input, size_t length);
WEAK struct halves EXPORT(xxh3_128)(const void *input, size_t length);
WEAK struct halves EXPORT(xxh3_128_with_seed)(uint64_t seed, const void *input, size_t length);
WEAK uint64_t EXPORT(xxh3_64_scalar)(const void *input, size_t length);
WEAK uint64_t EXPORT(xxh3_64_lanes2)(const void *input, size_t length);
WEAK uint64_t EXPORT(xxh3_64_lanes4)(const void *input, size_t length);
WEAK uint64_t EXPORT(xxh3_64_split2)(const void *input, size_t length);
WEAK stream_of_32 EXPORT(xxh32_stream), EXPORT(xxh32_stream_called);
WEAK stream_of_64 EXPORT(xxh64_stream), EXPORT(xxh64_stream_called);
WEAK stream_of_64 EXPORT(xxh3_64_stream), EXPORT(xxh3_64_stream_called);
WEAK stream_of_128 EXPORT(xxh3_128_stream), EXPORT(xxh3_128_stream_called);
WEAK stream_of_64 EXPORT(xxh3_64_stream_scalar), EXPORT(xxh3_64_stream_lanes2);
WEAK stream_of_64 EXPORT(xxh3_64_stream_lanes4), EXPORT(xxh3_64_stream_split2);

const struct peer PEER = {
    NAME(PEER),
    EXPORT(xxh32),
    EXPORT(xxh64),
    EXPORT(xxh3_64),
    EXPORT(xxh3_64_with_seed),
    EXPORT(xxh3_64_with_secret),
    EXPORT(xxh3_128),
    EXPORT(xxh3_128_with_seed),
    { EXPORT(xxh32_stream), EXPORT(xxh64_stream), EXPORT(xxh3_64_stream), EXPORT(xxh3_128_stream) },
    { EXPORT(xxh32_stream_called), EXPORT(xxh64_stream_called), EXPORT(xxh3_64_stream_called),
      EXPORT(xxh3_128_stream_called) },
    { EXPORT(xxh3_64_scalar), EXPORT(xxh3_64_lanes2), EXPORT(xxh3_64_lanes4), EXPORT(xxh3_64_split2) },
    { EXPORT(xxh3_64_stream_scalar), EXPORT(xxh3_64_stream_lanes2), EXPORT(xxh3_64_stream_lanes4),
      EXPORT(xxh3_64_stream_split2) },
};
