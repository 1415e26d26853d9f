"""Digests of many inputs in one call."""
import operator
import re
import sys
from collections.abc import Iterable, Sized
from typing import Any, Optional, SupportsIndex, TypeVar, Union, overload

from ._types import HasherType, begun

Into = TypeVar('Into', bound=Sized)

# The name of a field in the format of a buffer.
FIELD = re.compile(':[^:]*:')
# Addresses of bytes, text, anything, a function and a type. Before the letter of a float, Z is a complex number.
POINTER = re.compile('[zPX&]|Z(?![efdgFDG])')
# Integers in the machine's byte order.
NATIVE_INTEGER = re.compile(f'[@={"<" if sys.byteorder == "little" else ">"}]?[hHiIlLqQnN]')


@overload
def many(
    rows: Iterable[Any],
    algorithm: Union[str, HasherType] = ...,
    *,
    width: Optional[SupportsIndex] = ...,
    into: None = ...,
    **key: Any,
) -> list[bytes]:
    ...


@overload
def many(
    rows: Iterable[Any],
    algorithm: Union[str, HasherType] = ...,
    *,
    width: Optional[SupportsIndex] = ...,
    into: Into,
    **key: Any,
) -> Into:
    ...


def many(
    rows: Iterable[Any],
    algorithm: Union[str, HasherType] = 'xxh3_64',
    *,
    width: Optional[SupportsIndex] = None,
    into: Any = None,
    **key: Any,
) -> Any:
    """Returns the digests of many inputs, each as `<algorithm>_digest(row, ...)` returns it, as a list of bytes.

    `rows` is an iterable of bytes-like objects or str, or a contiguous buffer of rows of one length: of two dimensions
    or more (each item of the first is a row), of one dimension with items of several bytes (each is a row), or of any
    form with `width`, the length of a row in bytes.

    With `into`, a writable contiguous buffer with exactly the size of all digests, these are written there one after
    another, no objects are created, and `into` is returned. Native integers get the values as numbers, and must have a
    digest's size; everything else gets the digests' bytes. `seed` and `secret` are as for the algorithm's type.

    ValueError: the lengths don't fit, `into` overlaps a row, or the algorithm is unknown. BufferError: a buffer
    isn't contiguous or writable. TypeError: the rows are a str, contain text as UTF-32, objects or addresses, or one
    of them has no bytes. OverflowError: there are more digests than a buffer can have. An exception for a row has
    the row's number, and `into` is then unchanged."""
    hasher = begun(algorithm, key)
    if isinstance(rows, str):
        raise TypeError("rows must not be a 'str'")
    numbers = into is not None and _takes_numbers(into, hasher.digest_size)
    view = _view_of(rows)
    if view is None:
        if width is not None:
            raise TypeError(f'width is only for a buffer, not {type(rows).__name__!r}')
        digests = hasher._many(tuple(rows), into, numbers)
    else:
        with view:  # a traceback that is kept would keep the buffer
            digests = hasher._many_of_width(view, _count(view, width), into, numbers)
    return digests if into is None else into


def _takes_numbers(into: Any, digest_bytes: int) -> bool:
    """True if a buffer gets the values as native integers, and not the digests' bytes."""
    with memoryview(into) as view:
        if view.readonly or not view.c_contiguous:
            raise BufferError(f'into {"is read-only" if view.readonly else "is not C-contiguous"}')
        if not NATIVE_INTEGER.fullmatch(view.format):
            return False
        if view.itemsize == digest_bytes:
            return True
        raise ValueError(
            f'into has integers of {view.itemsize} bytes, and a digest has {digest_bytes}: they would hold '
            'parts of it'
        )


def _view_of(rows: Any) -> Optional[memoryview]:
    """Returns the rows as a buffer, or None if they are objects."""
    try:
        view = memoryview(rows)
    except TypeError:
        return None
    return None if view.format == 'O' and view.ndim == 1 else view


def _test_rows(view: memoryview) -> None:
    """Refuses a buffer of anything but bytes, or with gaps."""
    items = FIELD.sub(' ', view.format)
    if 'O' in items:
        raise TypeError(f'the rows must be bytes, not objects (format {view.format!r})')
    if POINTER.search(items):
        raise TypeError(f'the rows must be bytes, not addresses (format {view.format!r})')
    if 'w' in items or 'u' in items:
        raise TypeError(
            f'the rows must be bytes, not UTF-32 text (format {view.format!r}): ' 'use rows.tolist() for str'
        )
    if not view.c_contiguous:
        raise BufferError('the rows are not adjacent: the buffer is not C-contiguous')


def _count(view: memoryview, width: Optional[SupportsIndex]) -> int:
    """Returns the number of rows of a buffer."""
    _test_rows(view)
    if width is None:
        if view.ndim == 0 or view.ndim == 1 and view.itemsize == 1:
            raise ValueError('the bytes have no rows: width must be the length of a row')
        assert view.shape
        return view.shape[0]
    width = operator.index(width)  # an integer of numpy may overflow
    if width <= 0 or view.nbytes % width:
        raise ValueError(f'{view.nbytes} bytes are not rows of {width} bytes')
    return view.nbytes // width


def name_row(fault: Exception, row: int) -> None:
    """Adds the row's number to an exception. many.c calls it."""
    if isinstance(fault, UnicodeEncodeError):
        fault.reason += f', in row {row}'
    elif fault.args:
        fault.args = (f'row {row}: {fault.args[0]}', *fault.args[1:])
