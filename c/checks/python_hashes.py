"""Prints hashes of the module xxhash over inputs of many lengths: at once, in chunks, of copies, after a reset.
Debian's python3 runs it, on one library or another."""
import random

import xxhash

ALGORITHMS = ('xxh32', 'xxh64', 'xxh3_64', 'xxh3_128')
LENGTHS = [*range(300), 511, 512, 513, 1000, 5000, 100000, 1 << 20]


def in_pieces(hasher, data):
    while data:
        length = random.randrange(1, 400)
        hasher.update(data[:length])
        data = data[length:]


def print_hashes(algorithm, data, seed):
    make = getattr(xxhash, algorithm)
    print(
        make(data, seed=seed).hexdigest(), make(data).intdigest(), getattr(xxhash, algorithm + '_hexdigest')(data, seed)
    )
    hasher = make(seed=seed)
    in_pieces(hasher, data)
    other = hasher.copy()
    other.update(b'more')
    print(hasher.hexdigest(), other.hexdigest(), hasher.digest().hex())
    hasher.reset()
    hasher.update(data[:7])
    print(hasher.hexdigest())


random.seed(5)
print(xxhash.XXHASH_VERSION)
for length in LENGTHS:
    data, seed = random.randbytes(length), random.getrandbits(32)
    for algorithm in ALGORITHMS:
        print_hashes(algorithm, data, seed)
