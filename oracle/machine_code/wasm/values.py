"""Values on the operand stack: numbers, polynomials and terms below 2 ^ width, addresses, and vectors as pairs of
64-bit lanes."""
import contextlib

from oracle.symbolic_terms import (
    BINARY,
    Input,
    Memory,
    Node,
    Poly,
    Undecided,
    Unsupported,
    Value,
    at_most,
    divided,
    halves,
    is_natural,
    is_number,
    is_same_number,
    minus,
    ones,
    operations,
    plus,
    times,
    wrapped,
    zeros_below,
)
from oracle.symbolic_terms.signs_and_rotations import compare_numbers, rotated
from oracle.symbolic_terms.polynomials import polynomial, remainder

from .. import values as of_text

WORD, HALF = 64, 32
SPACE = 1 << 32  # end of the address space for objects
LEAST_PLACE = 1024  # lowest address of an object


class Trap(Unsupported):
    """Raised if a call traps."""


def low(x: Value, width: int) -> Value:
    """Returns the lowest bits of a value."""
    if isinstance(x, int):
        return x & ones(width)
    if x.__class__ is Address:
        raise Undecided(f"some bits of {x}")
    return low_of_number(x, width) if isinstance(x, Poly) else operations.bits(x, 0, width)


def low_of_number(x, width):
    """The same for a polynomial."""
    with contextlib.suppress(Undecided):
        return divided(x, 1 << width)[1]
    return remainder(nearest(x, width), 1 << width)


def nearest(x, width):
    """Returns an equal number modulo 2 ^ width, with coefficients as near to 0 as possible."""
    half = 1 << width - 1
    if isinstance(x, int):
        return (x + half) % (2 * half) - half
    return polynomial({names: nearest(c, width) for names, c in x.parts.items()})


def high(x: Value, width: int) -> Value:
    """Returns a word shifted right by `width` bits."""
    return BINARY["lshr"](WORD, x, width)


def side_by_side(parts: list[tuple[Value, int]]) -> Value:
    """Concatenates values, each as (value, width), the lowest bits first."""
    if all(isinstance(x, int) for x, _ in parts):
        out = at = 0
        for x, width in parts:
            out, at = out | x << at, at + width
        return out
    return operations.side_by_side(*parts)


def decided(x: Value, what: str) -> int:
    """Returns x if it is a number. Raises if a length, an amount or an address depends on symbols."""
    if not isinstance(x, int):
        raise Undecided(f"{what} that depends on {x}")
    return x


def condition(x: Value, what: str) -> int:
    """True if a branch condition isn't 0."""
    return compare("ne", 32, x, 0) if isinstance(x, (Poly, Address)) else decided(x, what)


# ---- addresses


class Address(of_text.Address):
    """A sum of objects' unknown addresses and an offset. The objects begin at LEAST_PLACE or above, end below 2 ^ 32,
    and don't contain each other, even if empty."""

    __slots__ = ()

    def __getattr__(self, name):
        """Refuses attributes that only terms have: an address's bits are unknown."""
        raise Undecided(f"{self} as a term")

    def near(self):
        """Returns the same address, if it is a 32-bit number: in its object, at its end, or a little before it."""
        memory, offset = self.place()
        offset = nearest(offset, HALF)
        if not (is_natural(plus(offset, LEAST_PLACE - 1)) and is_natural(minus(memory.length, offset))):
            raise Undecided(f"an address by {offset} of {memory.name}")
        return Address(self.bases, offset)


def address(memory: Input | Memory, at: int | Poly = 0) -> "Address":
    return Address(((memory, 1),), at)


def sum_of_addresses(width, a, b, sign):
    """Returns a + b or a - b, if one is an address."""
    bases, offset = of_text.sum_of(a, b, sign)
    if bases:
        return Address(bases, offset)
    return offset % (1 << width) if isinstance(offset, int) else wrapped(offset, width)


def is_far(x, least):
    """True if the difference of the addresses of two disjoint objects is `least` or more, or negative: then it is at
    least that as an unsigned 64-bit number. Two read-only objects may overlap."""
    places = {count: memory for memory, count in x.bases}
    if len(x.bases) != 2 or set(places) != {1, -1} or not any(isinstance(memory, Memory) for memory in places.values()):
        return False
    is_behind = minus(plus(places[-1].length, x.offset), least)
    is_before = minus(minus(places[1].length, x.offset), 1)
    are_small = least, at_most(least, SPACE), minus(plus(x.offset, SPACE), 1), at_most(x.offset, SPACE - 1)
    return all(map(is_natural, (is_behind, is_before, *are_small)))


def compare_addresses(test, width, a, b):
    if b.__class__ is int and b == 0 and test in ("eq", "ne"):  # no object begins at 0
        a.near()
        return int(test == "ne")
    if width == WORD and is_number(b) and test in ("lt_u", "ge_u") and is_far(a, b):
        return int(test == "ge_u")
    raise Undecided(f"{test} of {a} and {b}")


# ---- operations

NAMES = {"shr_u": "lshr", "rem_u": "urem"}  # names of the same operations in symbolic_terms/machine.py
NOTED = "add", "mul", "and", "or", "shl", "lshr"  # operations in a product by halves


def binary(name: str, width: int, a: Value, b: Value) -> Value:
    if a.__class__ is Address or b.__class__ is Address:
        if name not in ("add", "sub"):
            raise Undecided(f"{name} of {a} and {b}")
        return sum_of_addresses(width, a, b, 1 if name == "add" else -1)
    if name in ("rotl", "rotr"):
        return rotation(name, width, a, decided(b, "the amount of a rotation") % width)
    if name in ("shl", "shr_u"):
        b = decided(b, "the amount of a shift") % width
    if name == "rem_u" and is_same_number(b, 0):
        raise Trap("a division by 0")
    if isinstance(a, Poly) and isinstance(b, int) and name == "and":
        return masked(a, b, width)
    if isinstance(a, Poly) and name == "xor" and is_same_number(b, ones(width)):
        return minus(b, a)
    if isinstance(a, Poly) and name == "shl" and not is_natural(at_most(a, ones(width - b))):
        return times(divided(a, 1 << width - b)[1], 1 << b)
    name = NAMES.get(name, name)
    answer = BINARY[name](width, a, b)
    return halves.noted(name, a, b, answer) if width == WORD and name in NOTED else answer


def masked(x, mask, width):
    """Returns a polynomial's bits under a mask."""
    k = zeros_below(mask) if mask else 0
    run = mask >> k
    if run & run + 1:
        return BINARY["and"](width, x, mask)
    return times(low(divided(x, 1 << k)[0], run.bit_length()), 1 << k)


def rotation(name, width, a, k):
    k = k if name == "rotl" else -k % width
    if isinstance(a, int):
        return (a << k | a >> width - k) & ones(width)
    if isinstance(a, Poly):
        raise Undecided(f"a rotation of {a}")
    return rotated(width, a, a, k)


def compare(test: str, width: int, a: Value, b: Value) -> int:
    """Returns the value of a test, if the values or the facts decide it."""
    if a.__class__ is Address:
        return compare_addresses(test, width, a, b)
    if is_number(a) and is_number(b):
        return int(compare_numbers(("s" if test.endswith("_s") else "u") + test[:2], width, a, b))
    if a is b and isinstance(a, Node) and test in ("eq", "ne"):
        return int(test == "eq")
    raise Undecided(f"{test} of {a} and {b}")
