"""Digests of files."""
import os
from typing import Any, BinaryIO, Union, overload

from ._types import Hasher, OneHasher, begun

Path = Union[str, bytes, 'os.PathLike[Any]']

# Size of a read: reads and updates are long, so that the GIL is released, and fit into the second-level cache.
PIECE_BYTES = 1 << 18


@overload
def file_digest(file: Union[Path, BinaryIO], algorithm: str = ..., **key: Any) -> Hasher:
    ...


@overload
def file_digest(file: Union[Path, BinaryIO], algorithm: type[OneHasher], **key: Any) -> OneHasher:
    ...


def file_digest(file: Union[Path, BinaryIO], algorithm: Any = 'xxh3_64', **key: Any) -> Hasher:
    """Returns the hash of a file, as an object: `file_digest(path, "xxh3_128").hexdigest()`.

    `file` is a path, or a file opened for binary reading, which is read from its position to its end and stays open.
    `seed` and `secret` are as for the algorithm's type. The GIL is released meanwhile.

    System errors are raised unchanged: FileNotFoundError, IsADirectoryError, PermissionError and the others.
    OSError: `readinto` returned a number out of range.
    TypeError: `file` is neither, or is open for text. BlockingIOError: it has no bytes yet, and is non-blocking.
    ValueError: the algorithm is unknown, or the secret is too short."""
    hasher = begun(algorithm, key)
    if isinstance(file, (str, bytes, os.PathLike)):
        with open(file, 'rb', buffering=0) as opened:
            _take_all(hasher, opened)
    else:
        _take_all(hasher, file)
    return hasher


def _take_all(hasher: Hasher, file: Any) -> None:
    """Hashes the rest of a file, with one buffer if it has `readinto`."""
    if not hasattr(file, 'readinto'):
        _take_pieces(hasher, file)
        return
    buffer = memoryview(bytearray(PIECE_BYTES))
    while True:
        length = file.readinto(buffer)
        if length is None:
            raise BlockingIOError(f'{file!r} has no bytes yet')
        if not length:
            return
        if not 0 < length <= PIECE_BYTES:
            raise OSError(f'{file!r}.readinto() returned {length}, for a buffer of {PIECE_BYTES} bytes')
        hasher.update(buffer[:length])


def _take_pieces(hasher: Hasher, file: Any) -> None:
    """Hashes the rest of a file whose `read` returns bytes."""
    if not hasattr(file, 'read'):
        raise TypeError(f'file must be a path or a file open for reading, not {type(file).__name__!r}')
    while True:
        piece = file.read(PIECE_BYTES)
        if isinstance(piece, str):
            raise TypeError(f'{file!r} is open for text, not for bytes')
        if piece is None:
            raise BlockingIOError(f'{file!r} has no bytes yet')
        if not piece:
            return
        hasher.update(piece)
