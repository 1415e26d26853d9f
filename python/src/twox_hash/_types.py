"""The hashes by their names."""
from typing import Any, TypeVar, Union

from ._native import xxh3_64, xxh3_128, xxh32, xxh64

Hasher = Union[xxh32, xxh64, xxh3_64, xxh3_128]
HasherType = Union[type[xxh32], type[xxh64], type[xxh3_64], type[xxh3_128]]
OneHasher = TypeVar('OneHasher', xxh32, xxh64, xxh3_64, xxh3_128)

_BY_NAME: dict[str, HasherType] = {
    'xxh32': xxh32,
    'xxh64': xxh64,
    'xxh3_64': xxh3_64,
    'xxh3_128': xxh3_128,
    'xxh128': xxh3_128,
}
algorithms_available: set[str] = set(_BY_NAME)


def type_of(algorithm: Union[str, HasherType]) -> HasherType:
    """Returns the type of a hash, given by name or as the type itself.

    ValueError: the name is unknown. TypeError: it is neither a name nor one of the types."""
    if isinstance(algorithm, str):
        if algorithm not in _BY_NAME:
            raise ValueError(f'unknown algorithm {algorithm!r}: use one of {", ".join(sorted(_BY_NAME))}')
        return _BY_NAME[algorithm]
    if algorithm not in _BY_NAME.values():
        raise TypeError(f'algorithm must be a name or one of the types, not {algorithm!r}')
    return algorithm


def begun(algorithm: Union[str, HasherType], key: dict[str, Any]) -> Hasher:
    """Creates an object of no bytes. Its key is only a seed and a secret: an input would come before everything that
    follows."""
    if 'input' in key:
        raise TypeError("'input' is an invalid keyword argument: use `seed` and `secret`")
    return type_of(algorithm)(**key)
