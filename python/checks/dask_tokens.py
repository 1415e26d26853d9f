"""Prints dask's tokens of arrays by the module xxhash, and that module's name."""
import dask.hashing
import numpy
import xxhash
from dask.base import tokenize

print(xxhash.__name__)
for length in (0, 1, 7, 100, 1000, 100000):
    for dtype in ('u1', 'f8', 'S7', 'M8[s]'):
        values = numpy.arange(length).astype(dtype)
        print(length, dtype, dask.hashing.hash_buffer_hex(values.view('i1')), tokenize(values), tokenize(values[::2]))
