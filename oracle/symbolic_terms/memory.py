"""Memory objects: writable ones, and inputs, which are read-only and of which only the length is known.

An address is (object, offset). Offsets and lengths may be polynomials. Each access must be provably inside its object.
Loading a byte that was never stored is an error."""
from typing import Any, Iterator

from . import operations
from .refusals import Unsupported
from .nodes import symbol
from .polynomials import Poly, constant_of, is_natural, is_same_number, minus, plus
from .rules import bits_of, from_segments

LONGEST = 1 << 15        # bytes of the window at the start of an input
REACH = 4096             # bytes on each side of any other window
WIDEST = 32              # maximum bytes of a cell: a vector's
RUNS = "runs"


class Unset(Unsupported):
    """Raised if a load reads bytes that were never stored."""


def is_inside(at: int | Poly, n: int | Poly, length: int | Poly) -> bool:
    if isinstance(at, int) and isinstance(n, int) and isinstance(length, int):
        return 0 <= at and at + n <= length
    return is_natural(at) and is_natural(minus(length, plus(at, n)))


def is_within(first: int | Poly, end: int | Poly, low: int | Poly, high: int | Poly) -> bool:
    """True if low <= first and end <= high."""
    return is_natural(minus(first, low)) and is_natural(minus(high, end))


class Input:
    """The bytes of a message or a secret. Bytes at x + c, c a number, belong to one symbol for each x: such windows may
    overlap, but nothing here uses that."""

    alignment, residue = 1, 0

    def __init__(self, name, length):
        self.name, self.length = name, length

    def window(self, at, n):
        """Returns the window's symbol, and the byte in it that is byte `at`."""
        if not is_inside(at, n, self.length):
            raise Unsupported(f"{n} bytes at {at} of {self.name}, which has {self.length}")
        if isinstance(at, int) and at + n <= LONGEST:
            return symbol(self.name, 8 * LONGEST), at
        c = constant_of(at)
        if not -REACH <= c <= REACH - n:
            raise Unsupported(f"{at} is too far from its window")
        return symbol(f"{self.name}@{minus(at, c)}", 16 * REACH), c + REACH

    def load(self, at, n):
        whole, first = self.window(at, n)
        return operations.bits(whole, 8 * first, 8 * n)

    def store(self, at, n, value):
        raise Unsupported(f"a store to {self.name}")

    def origin(self, at):
        """Returns the input and the offset in it of the byte `at`."""
        return self, at


class Piece(Input):
    """Part of an input from `first` on, as a separate object."""

    def __init__(self, whole, first, length):
        super().__init__(whole.name, length)
        self.whole, self.first = whole, first

    def window(self, at, n):
        if not is_inside(at, n, self.length):
            raise Unsupported(f"{n} bytes at {at} of a piece of {self.name}, which has {self.length}")
        return self.whole.window(plus(self.first, at), n)

    def origin(self, at):
        return self.whole, plus(self.first, at)


class Memory:
    """A writable object, `residue` bytes above a multiple of `alignment`. `cells` maps offsets to (size, value). Under
    RUNS it has copies of symbolic length or to a symbolic offset: (low, high, input, place) means that byte c of the
    object is byte place + c of the input, low <= c < high. No byte is in two of them. Copies to `run_area` are runs."""

    def __init__(self, name, length, cells=(), runs=(), run_area=None, alignment=1):
        self.name, self.length, self.run_area, self.alignment, self.residue = name, length, run_area, alignment, 0
        self.cells: dict = {at: (n, value) for at, n, value in cells}
        if runs:
            self.cells[RUNS] = tuple(runs)

    def runs(self):
        return self.cells.get(RUNS, ())

    def check(self, at, n):
        if not is_inside(at, n, self.length):
            raise Unsupported(f"{n} bytes at {at} of {self.name}, which has {self.length}")

    # ---- stores

    def allow(self, at, n):
        """Refuses a store outside of the object, or at a symbolic offset."""
        if not isinstance(at, int):
            raise Unsupported(f"a store at {at} of {self.name}")
        self.check(at, n)

    def store(self, at, n, value):
        self.allow(at, n)
        cell = self.cells.get(at)
        if self.cells and (cell is None or cell[0] != n):
            self.clear(at, n)
        self.cells[at] = n, value

    def clear(self, at, n):
        """Makes some bytes unset."""
        for first in self.cells_near(at, n):
            size, value = self.cells.pop(first)
            for k in range(size):
                if not at <= first + k < at + n:
                    self.cells[first + k] = 1, operations.bits(value, 8 * k, 8)
        for low, high, *_ in self.runs():
            if not (is_natural(minus(low, at + n)) or is_natural(minus(at, high))):
                raise Unsupported(f"a store into a run of {self.name}")

    def cells_near(self, at, n):
        """Returns the cells that contain some of the bytes."""
        cells = self.cells
        return [first for first in range(at - WIDEST + 1, at + n) if first in cells and first + cells[first][0] > at]

    def cell_with(self, at):
        """Returns the cell that contains a byte, or None. No two cells overlap."""
        first = next((first for first in range(at, at - WIDEST, -1) if first in self.cells), None)
        return first if first is not None and first + self.cells[first][0] > at else None

    def fill(self, at, n, byte):
        self.check(at, n)
        self.clear(at, n)
        for k in range(n):
            self.cells[at + k] = 1, byte

    # ---- loads

    def load(self, at, n):
        cell = self.cells.get(at)
        if cell is not None and cell[0] == n:
            return cell[1]
        self.check(at, n)
        for low, high, source, place in self.runs():
            if is_within(at, plus(at, n), low, high):
                return source.load(plus(place, at), n)
        return from_segments(self.parts_from(at, n))

    def parts_from(self, at, n):
        """Returns the bytes as segments."""
        out = []
        while n:
            first = self.cell_with(at) if isinstance(at, int) else None
            if first is None:
                raise Unset(f"byte {at} of {self.name}")
            size, value = self.cells[first]
            have = min(n, first + size - at)
            out += bits_of(value, 8 * (at - first), 8 * have)
            at, n = at + have, n - have
        return out

    def has(self, at):
        return self.cell_with(at) is not None

    # ---- runs

    def origin(self, at, n):
        """Returns the input and the offset in it of the n bytes at an offset."""
        for low, high, source, place in self.runs():
            if is_within(at, plus(at, n), low, high):
                return source, plus(place, at)
        raise Unset(f"{n} bytes at {at} of {self.name}")

    def has_run(self, run):
        """True if the bytes are known to be those of a run."""
        low, high, source, place = run
        return any(other[2] is source and is_same_number(other[3], place) and is_within(low, high, other[0], other[1])
                   for other in self.runs())

    def put_run(self, at, n, source, place):
        """Stores bytes of an input, from `place` on, as a run at an offset. Cells that may overlap become unset."""
        self.check(at, n)
        end = plus(at, n)
        self.cells = {first: cell for first, cell in self.cells.items()
                      if first == RUNS or is_natural(minus(first, end)) or is_natural(minus(at, first + cell[0]))}
        low, high, shift, others = at, end, minus(place, at), []
        for run in self.runs():
            goes_on = run[2] is source and is_same_number(run[3], shift)
            if goes_on and is_natural(minus(run[1], low)) and is_natural(minus(high, run[0])):
                low, high = in_order(run[0], low)[0], in_order(run[1], high)[1]
            else:
                others += outside(run, at, end)
        self.cells[RUNS] = (*others, (low, high, source, shift))


def in_order(a: int | Poly, b: int | Poly) -> tuple[int | Poly, int | Poly]:
    """Returns the two, the smaller one first. Raises if the order isn't decided."""
    if is_natural(minus(b, a)):
        return a, b
    if is_natural(minus(a, b)):
        return b, a
    raise Unsupported(f"the order of {a} and {b}")


def outside(run: tuple, at: int | Poly, end: int | Poly) -> list[tuple]:
    """Returns the parts of a run that are known to be outside of at .. end - 1: one before and one behind. If it isn't
    known where the run begins, compared with `end`, the latter begins some bytes later."""
    low, high, source, place = run
    if is_natural(minus(at, high)) or is_natural(minus(low, end)):
        return [run]
    parts = [(low, at)] if is_natural(minus(at, low)) and is_natural(minus(high, at)) else []
    for first in (end, *(plus(low, 1 << k) for k in range(3, 8))):
        if is_natural(minus(first, low)) and is_natural(minus(first, end)) and is_natural(minus(high, first)):
            parts.append((first, high))
            break
    return [(*part, source, place) for part in parts if not is_same_number(*part)]


def taken(source: Input | Memory, first: int | Poly, n: int) -> Iterator[tuple[int, int, Any]]:
    """Yields the bytes by 8, or by 1 if some of 8 are unset: (offset, size, value). Omits bytes never stored."""
    for k in range(0, n, 8):
        size = min(8, n - k)
        try:
            yield k, size, source.load(plus(first, k), size)
        except Unset:
            for at in range(k, k + size):
                if source.has(plus(first, at)):
                    yield at, 1, source.load(plus(first, at), 1)
