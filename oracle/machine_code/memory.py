"""The memory of a source: symbolic_terms/memory.py's objects, whose cells may hold addresses, and the stack.

A call may write to its writable objects and below its caller's frame. An external function, such as memcpy, may use
everything below the stack pointer: there is no red zone across a call."""
import collections
import contextlib

from oracle.symbolic_terms import (Input, Memory, Node, Poly, Undecided, Unsupported, Value, divided, is_inside,
                                   is_natural, is_same_number, lifted, minus, ones, plus, taken)
from oracle.symbolic_terms.nodes import memo
from oracle.symbolic_terms.operations import bits
from oracle.symbolic_terms.polynomials import WORD

from .values import place_of

STACK = 1 << 14                   # bytes of stack that a call may use
ENTRY = STACK - 64                # offset of the caller's frame, a multiple of 16
RED = 128                         # bytes of the red zone below the stack pointer

# Maps the number of a term to (polynomial, bits): the term is the polynomial's lowest bits, and equals it if it fits.
spelled = memo()

# A return address on the stack.
ReturnTo = collections.namedtuple("ReturnTo", "section at")


class WordMemory(Memory):
    """Memory object whose cells hold values of registers. Parts of addresses can't be loaded."""

    secret: Input | None              # of a state: the caller's

    def load(self, at, n):
        cell = self.cells.get(at)
        if cell is not None and cell[0] == n:
            return cell[1]
        near = self.cells_near(at, n) if isinstance(at, int) else []
        if all(isinstance(self.cells[first][1], (int, Node)) for first in near):
            found = super().load(at, n)
            return numbered(found) if n == 8 else found
        with contextlib.suppress(Undecided):
            return self.part_of_number(near, at, n)
        return Memory(self.name, self.length, self.in_bits(near)).load(at, n)

    def part_of_number(self, near, at, n):
        """Returns bytes of one cell that holds a polynomial."""
        size, value = self.cells[near[0]]
        if len(near) > 1 or not isinstance(value, Poly) or not near[0] <= at <= near[0] + size - n:
            raise Undecided("bytes of no number")
        return divided(divided(value, 1 << 8 * (at - near[0]))[0], 1 << 8 * n)[1]

    def keeps_runs(self, at, n):
        """True if a copy to this place is kept as a run of an input."""
        return not (isinstance(at, int) and isinstance(n, int))

    def take(self, at, n, source, first):
        raise Unsupported(f"a copy of {n} bytes to {at} of {self.name}")

    def in_bits(self, firsts):
        """Yields those of the cells that have bits: (offset, size, number or term)."""
        for first in firsts:
            size, value = self.cells[first]
            if isinstance(value, (int, Node, Poly)):
                yield first, size, spell(value)

    def clear(self, at, n):
        near = self.cells_near(at, n)
        parts = list(self.in_bits(near))
        for first in near:
            del self.cells[first]
        self.cells.update({first: (size, value) for first, size, value in parts})
        super().clear(at, n)


class OnlyRead(WordMemory):
    """Memory object that a call may only read. Two such objects may overlap."""

    def allow(self, at, n):
        raise Unsupported(f"a store to {self.name}")


class Constants(OnlyRead):
    def __init__(self, name, data, alignment):
        super().__init__(name, len(data), [(k, 1, byte) for k, byte in enumerate(data)], alignment=alignment)


def lie_apart(first: Input | Memory, second: Input | Memory) -> bool:
    """True if two objects are disjoint: one of them is writable."""
    return any(isinstance(memory, WordMemory) and not isinstance(memory, OnlyRead) for memory in (first, second))


class Stack(WordMemory):
    """The stack below the caller's frame. `lowest` is the lowest stored offset."""

    def __init__(self):
        super().__init__("stack", STACK, alignment=16)
        self.lowest = ENTRY

    def allow(self, at, n):
        super().allow(at, n)
        self.lowest = min(self.lowest, at)
        if at + n > ENTRY:
            raise Unsupported(f"a store to the caller's frame, at {at}")

    def forget_below(self, at):
        """Forgets everything below an offset."""
        for first in [first for first in self.cells if first < at]:
            del self.cells[first]


class Numbers(Input):
    """Input whose bytes are concrete."""

    def __init__(self, name, data):
        super().__init__(name, len(data))
        self.data, self.whole = data, int.from_bytes(data, "little")

    def window(self, at, n):
        if not is_inside(at, n, self.length):
            raise Unsupported(f"{n} bytes at {at} of {self.name}, which has {self.length}")
        return self.whole, at


def spell(x: int | Node | Poly, width: int = WORD) -> Value:
    """Returns a polynomial's lowest bits as a term, and records the polynomial for `numbered`."""
    found = lifted(x)
    if isinstance(x, Poly) and isinstance(found, Node):
        lowest = {n: bits(found, 0, n) for n in range(8, WORD + 1, 8)}
        spelled.update({part.number: (x, n) for n, part in lowest.items() if isinstance(part, Node)})
        return lowest[width]
    return found


def numbered(x: int | Node) -> Value:
    """Returns the polynomial of a term made by `spell`, if it fits in the term's width; else the term."""
    number, width = spelled.get(x.number, (-1, 0)) if isinstance(x, Node) else (-1, 0)
    return number if is_natural(number) and is_natural(minus(ones(width), number)) else x


def copy(to: Value, source: Value, n: Value, may_overlap: bool) -> None:
    """Performs memcpy, or memmove with `may_overlap`."""
    if is_same_number(n, 0):
        return
    (memory, at), (source, first) = place_of(to), place_of(source)
    if memory.keeps_runs(at, n):
        memory.take(at, n, source, first)
        return
    if memory is source and not may_overlap and not is_apart(at, first, n):
        raise Unsupported("a copy of bytes onto themselves")
    parts = list(taken(source, first, n))
    memory.allow(at, n)
    memory.clear(at, n)
    for k, size, value in parts:
        memory.store(at + k, size, value)


def fill(to: Value, byte: Value, n: Value) -> None:
    """Performs memset."""
    memory, at = place_of(to)
    if not isinstance(byte, int) or not isinstance(n, int):
        raise Unsupported(f"{n} bytes of {byte}")
    for k in range(0, n, 8):
        memory.store(at + k, min(8, n - k), int.from_bytes(bytes([byte]) * min(8, n - k), "little"))


def is_apart(a: int | Poly, b: int | Poly, n: int | Poly) -> bool:
    return is_natural(minus(a, plus(b, n))) or is_natural(minus(b, plus(a, n)))
