"""Both modules, and random inputs for the tests."""
import random

import twox_hash as ours
import xxhash as theirs

__all__ = ['FORMS', 'LONG_LENGTHS', 'NAMES', 'SEEDS', 'WITH_SECRET', 'bytes_of', 'ours', 'pieces_of', 'theirs']

NAMES = ('xxh32', 'xxh64', 'xxh3_64', 'xxh3_128', 'xxh128')
WITH_SECRET = ('xxh3_64', 'xxh3_128', 'xxh128')
FORMS = ('digest', 'hexdigest', 'intdigest')
# Around the sizes at which the code path changes, and around 64 KiB, from where on the GIL is released.
LONG_LENGTHS = (1 << 11, 4095, 4096, 20000, 32768, 65535, 65536, 65537, 200000, 1 << 20)
SEEDS = (
    0,
    1,
    0x9E3779B1,
    (1 << 32) - 1,
    1 << 32,
    (1 << 64) - 1,
    1 << 64,
    (1 << 70) + 9,
    -1,
    -(1 << 63),
    -(1 << 64) - 5,
)


def bytes_of(length, start=0):
    """Bytes that depend only on both numbers."""
    return random.Random(length << 8 | start).randbytes(length)


def pieces_of(data, rng, longest):
    """The bytes in chunks of random lengths."""
    at = 0
    while at < len(data):
        length = rng.randint(0, longest)
        yield data[at : at + length]
        at += length
