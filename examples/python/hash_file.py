#!/usr/bin/env python3
"""Hashes a file with XXH32, XXH64, XXH3 64-bit and XXH3 128-bit, and prints a line for each, using only Python's
standard library:

    hash_file.py LIBRARY FILE

LIBRARY is the shared library, as PREFIX/lib/libxxhash.so.0, or libxxhash.so.0 for the one that the loader finds."""
import ctypes
import sys

CHUNK_BYTES = 65536


class Hash128(ctypes.Structure):
    """A 128-bit hash as two halves."""

    _fields_ = [('low64', ctypes.c_uint64), ('high64', ctypes.c_uint64)]


class Hasher:
    """A stream of one hash. `state` is the type of its state, `name` the calls' prefix, `seed` the type of a seed for
    reset, if it takes one."""

    def __init__(self, library, state, name, result, seed=None):
        self._free = self._call(library, state + '_freeState', ctypes.c_int, ctypes.c_void_p)
        self._update = self._call(
            library, name + '_update', ctypes.c_int, ctypes.c_void_p, ctypes.c_char_p, ctypes.c_size_t
        )
        self._digest = self._call(library, name + '_digest', result, ctypes.c_void_p)
        seeds = [seed] if seed else []
        reset = self._call(library, name + '_reset', ctypes.c_int, ctypes.c_void_p, *seeds)
        self._state = self._call(library, state + '_createState', ctypes.c_void_p)()
        if not self._state:
            raise MemoryError
        reset(self._state, *[0 for _ in seeds])

    @staticmethod
    def _call(library, name, result, *parameters):
        call = getattr(library, name)
        call.restype, call.argtypes = result, parameters
        return call

    def update(self, chunk):
        if self._update(self._state, chunk, len(chunk)):
            raise ValueError('the state was never reset')

    def digest(self):
        return self._digest(self._state)

    def close(self):
        self._free(self._state)
        self._state = None


def main():
    if len(sys.argv) != 3:
        sys.exit('usage: hash_file.py LIBRARY FILE')
    library = ctypes.CDLL(sys.argv[1])
    hashers = {
        '32': Hasher(library, 'XXH32', 'XXH32', ctypes.c_uint32, ctypes.c_uint32),
        '64': Hasher(library, 'XXH64', 'XXH64', ctypes.c_uint64, ctypes.c_uint64),
        '3-64': Hasher(library, 'XXH3', 'XXH3_64bits', ctypes.c_uint64),
        '3-128': Hasher(library, 'XXH3', 'XXH3_128bits', Hash128),
    }
    with open(sys.argv[2], 'rb') as file:
        while chunk := file.read(CHUNK_BYTES):
            for hasher in hashers.values():
                hasher.update(chunk)
    wide = hashers['3-128'].digest()
    print(f"32 {hashers['32'].digest():08x}")
    print(f"64 {hashers['64'].digest():016x}")
    print(f"3-64 {hashers['3-64'].digest():016x}")
    print(f"3-128 {wide.high64:016x}{wide.low64:016x}")
    for hasher in hashers.values():
        hasher.close()


main()
