"""XXH32, XXH64, XXH3 64-bit and XXH3 128-bit, by code that is proved equal to the xxHash definition.

    import twox_hash as xxhash

runs programs that were written for the package `xxhash`. This package has more: secrets (`secret=`), objects that
can be saved, loaded and pickled (`state`, `from_state`), `file_digest`, and `many`. If `instruction_set` is "source",
the code is not proved, but compiled from C. None of these hashes is safe against an attacker who chooses the input."""
from ._files import file_digest
from ._many import many
from ._native import (
    XXHASH_VERSION,
    instruction_set,
    xxh3_64,
    xxh3_64_digest,
    xxh3_64_hexdigest,
    xxh3_64_intdigest,
    xxh3_128,
    xxh3_128_digest,
    xxh3_128_hexdigest,
    xxh3_128_intdigest,
    xxh32,
    xxh32_digest,
    xxh32_hexdigest,
    xxh32_intdigest,
    xxh64,
    xxh64_digest,
    xxh64_hexdigest,
    xxh64_intdigest,
)
from ._types import algorithms_available
from .version import VERSION, VERSION_TUPLE, __version__

xxh128 = xxh3_128
xxh128_digest = xxh3_128_digest
xxh128_hexdigest = xxh3_128_hexdigest
xxh128_intdigest = xxh3_128_intdigest

__all__ = [
    'xxh32',
    'xxh32_digest',
    'xxh32_intdigest',
    'xxh32_hexdigest',
    'xxh64',
    'xxh64_digest',
    'xxh64_intdigest',
    'xxh64_hexdigest',
    'xxh3_64',
    'xxh3_64_digest',
    'xxh3_64_intdigest',
    'xxh3_64_hexdigest',
    'xxh3_128',
    'xxh3_128_digest',
    'xxh3_128_intdigest',
    'xxh3_128_hexdigest',
    'xxh128',
    'xxh128_digest',
    'xxh128_intdigest',
    'xxh128_hexdigest',
    'file_digest',
    'many',
    'algorithms_available',
    'instruction_set',
    'VERSION',
    'VERSION_TUPLE',
    'XXHASH_VERSION',
    '__version__',
]
