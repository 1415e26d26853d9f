"""Values of registers and memory cells: an int, a term, a polynomial below 2 ^ 64, or an Address.

An Address is a sum of objects' unknown addresses and an offset, so that the difference of two addresses in one object
is a number. An object's address is only known to be nonzero and aligned. Values that are computed here and not by
operations.py are also compared at the points."""
import contextlib
from typing import Any

from oracle.symbolic_terms import (BINARY, Node, Poly, Undecided, Value, WrongRule, as_word, constant_of, divided,
                                   is_natural, lifted, minus, nodes, ones, operations, parts_of, plus, symbol, wrapped,
                                   zeros_below)

Cpu = Any                         # a Runner of processor.py, which imports this file
WORD = 64
HALF, WHOLE = 1 << 63, 1 << 64


class Names:
    """Fresh names. Other processors may use the same name with the same width."""
    fresh_count = 0

    def new_name(self, prefix):
        self.fresh_count += 1
        return f"{prefix}#{self.fresh_count}"

    def fresh(self, prefix, width=WORD):
        """Returns a fresh symbol."""
        return symbol(f"{self.new_name(prefix)}:{width}", width)


class Address:
    __slots__ = "bases", "offset"    # bases: ((object, count), ..), sorted by name

    def __init__(self, bases, offset):
        self.bases, self.offset = bases, offset

    def __repr__(self):
        return " + ".join(f"{count}*{base.name}" for base, count in self.bases) + f" + {self.offset}"

    def place(self):
        """Returns (object, offset) of an address in an object, or raises."""
        if len(self.bases) != 1 or self.bases[0][1] != 1:
            raise Undecided(f"{self} as an address")
        return self.bases[0][0], self.offset


class Either:
    """The bitwise or of numbers, masked, then shifted right. Only a comparison with 0 is defined: sources test that
    before a division, which is faster for narrow numbers."""
    __slots__ = "numbers", "mask", "moved"

    def __init__(self, numbers, mask, moved=0):
        self.numbers, self.mask, self.moved = numbers, mask, moved

    def under(self, mask):
        return Either(self.numbers, self.mask & mask << self.moved, self.moved)

    def moved_down(self, k):
        moved = self.moved + k
        return Either(self.numbers, self.mask & ones(WORD) - ones(moved), moved)

    def is_zero(self):
        if not self.mask:
            return True
        first, width = zeros_below(self.mask), self.mask.bit_length()
        is_run = self.mask == ones(width) - ones(first)
        if not is_run or not all(is_natural(minus(ones(width), x)) for x in self.numbers):
            raise Undecided("the bits of numbers")
        if all(is_natural(minus(ones(first), x)) for x in self.numbers):
            return True
        if any(is_natural(minus(x, 1 << first)) for x in self.numbers):
            return False
        raise Undecided(f"{self.numbers} below 2 ^ {first}")


def address(memory: Any, at: int | Poly = 0) -> Address:
    return Address(((memory, 1),), at)


def place_of(x: Value) -> tuple[Any, Any]:
    """Returns (object, offset) of an address. Raises if x is a number."""
    if not isinstance(x, Address):
        raise Undecided(f"{x} as an address")
    return x.place()


# ---- addition and subtraction of addresses

def combined(a: Value, b: Value, sign: int) -> Value:
    """Returns a + sign * b, if one is an address."""
    if isinstance(b, int):
        return Address(a.bases, near_zero(plus(a.offset, sign * b)))
    bases, offset = sum_of(a, b, sign)
    return Address(bases, near_zero(offset)) if bases else wrapped(offset, WORD)


def sum_of(a: Value, b: Value, sign: int) -> tuple[tuple, Value]:
    """Returns the bases and the offset of a + sign * b."""
    bases = {}
    for x, count in ((a, 1), (b, sign)):
        for base, often in x.bases if isinstance(x, Address) else ():
            bases[base] = bases.get(base, 0) + count * often
    offsets = [x.offset if isinstance(x, Address) else x for x in (a, b)]
    if not all(isinstance(x, (int, Poly)) for x in offsets):
        raise Undecided("an address that depends on symbols")
    left = tuple(sorted(((base, count) for base, count in bases.items() if count), key=lambda x: x[0].name))
    return left, plus(*offsets) if sign > 0 else minus(*offsets)


def near_zero(offset: int | Poly) -> Value:
    """Returns an equal offset modulo 2 ^ 64 whose constant is from -2 ^ 63 to 2 ^ 63 - 1."""
    c = constant_of(offset)
    return plus(offset, (c + HALF) % WHOLE - HALF - c)


def low_bits(a: Address, mask: int) -> Value:
    """Returns the address's known low bits under a mask, from its object's alignment."""
    memory, at = a.place()
    if mask & mask + 1 or memory.alignment % (mask + 1):
        raise Undecided(f"the bits {mask:#x} of a place in {memory.name}")
    return arithmetic("and", WORD, (at + memory.residue) % WHOLE if isinstance(at, int) else at + memory.residue, mask)


# ---- words

quotients = nodes.memo()     # number of a term that is a shifted polynomial -> (polynomial, shift)
halves = nodes.memo()        # number of a 64-bit term -> (its low bits, computed separately; their number)


def arithmetic(word: str, width: int, a: Value, b: Value) -> Value:
    """Returns an operation's result on two values, modulo 2 ^ width."""
    classes = {a.__class__, b.__class__}
    if word in ("xor", "and") and isinstance(a, int):
        a, b = b, a
    if word == "or" and width == WORD and classes in ({Poly}, {Poly, int}):
        return Either([a, b], ones(WORD))
    if Either in classes:
        return masked(word, a, b)
    if Address in classes:
        return with_address(word, width, a, b)
    if Poly in classes and isinstance(b, int) and word in ("xor", "and"):
        return with_number(word, width, a, b)
    answer = BINARY[word](width, a, b)
    if word == "lshr" and isinstance(a, Poly) and isinstance(answer, Node) and isinstance(b, int):
        quotients[answer.number] = a, b
    return answer


def with_half(x: Value, half: Value, width: int = WORD // 2) -> Value:
    """Returns x, and records its separately computed low bits if it is a term."""
    if isinstance(x, Node):
        halves[x.number] = half, width
    return x


def half_of(x: Value) -> Value:
    """Returns the lower 32 bits of a value, if they were computed separately, or None."""
    half, width = halves.get(x.number, (None, 0)) if isinstance(x, Node) else (None, 0)
    return half if width == WORD // 2 else None


def masked(word: str, a: Value, b: Value) -> Either:
    """Applies a mask or a right shift to an Either."""
    if word == "lshr" and isinstance(b, int):
        return a.moved_down(b)
    a, b = (a, b) if isinstance(a, Either) else (b, a)
    if word != "and" or not isinstance(b, int):
        raise Undecided(f"{word} of united bits")
    return a.under(b)


def with_address(word, width, a, b):
    if width == WORD and word in ("add", "sub"):
        return combined(a, b, 1 if word == "add" else -1)
    if word == "and" and isinstance(b, int) and isinstance(a, Address):
        return low_bits(a, b)
    if word == "or" and isinstance(b, int) and isinstance(a, Address) and low_bits(a, ones(b.bit_length())) == 0:
        return combined(a, b, 1)
    raise Undecided(f"{word} of an address")


def with_number(word, width, a, b):
    """Returns a polynomial xor a number, or a polynomial and a number."""
    if word == "xor":
        return BINARY["sub"](width, b, a) if b == ones(width) else BINARY["xor"](width, a, b)
    below, _, known = split(a)
    if b < 1 << known:
        return below & b
    low_bit = b & -b
    if b and not b + low_bit & b + low_bit - 1:      # a run of bits: subtracts the bits above and below
        with contextlib.suppress(Undecided):
            inside = a if is_natural(minus(b + low_bit - 1, a)) else divided(a, b + low_bit)[1]
            return minus(inside, divided(inside, low_bit)[1])
    return BINARY["and"](width, term_of(a, WORD) if b & b + 1 else a, b)


def split(x: Poly) -> tuple[int, Poly, int]:
    """Returns (low bits, rest, z) of a polynomial. The z low bits are concrete: the rest is multiplied by 2 ^ z."""
    z = min(zeros_below(c) for names, c in x.parts.items() if names)
    below = constant_of(x) & ones(z)
    return below, Poly({names: c >> z for names, c in minus(x, below).parts.items()}), z


def term_of(x: Poly, width: int) -> Value:
    """Returns a polynomial modulo 2 ^ width as a term."""
    below, rest, z = split(x)
    answer = below & ones(width) if z >= width else joined((below, z), (as_word(rest, width - z), width - z))
    for k in range(nodes.POINTS):
        value = sum(c * symbol("*".join(names), WORD).values[k] if names else c for names, c in parts_of(x).items())
        if (answer if isinstance(answer, int) else answer.values[k]) != value % (1 << width):
            raise WrongRule(f"{x} mod 2 ^ {width} at point {k}")
    return answer


def low(x: Value, width: int) -> Value:
    """Returns a value modulo 2 ^ width."""
    if isinstance(x, int):
        return x & ones(width)
    if width == WORD and not isinstance(x, Either):
        return x
    if isinstance(x, Poly):
        with contextlib.suppress(Undecided):
            return divided(x, 1 << width)[1]
        return term_of(x, width)
    if isinstance(x, Address):
        return low_bits(x, ones(width))
    if isinstance(x, Either):
        return x.under(ones(width))
    half, known = halves.get(x.number, (x, 0))
    return operations.remainder(x, 1 << width) if width > known else half if width == known else bits(half, 0, width)


def bits(x: Value, first: int, n: int) -> Value:
    """Returns bits first .. first + n - 1 of a value, as a number or a term. Raises for an address."""
    if isinstance(x, (Address, Either)):
        raise Undecided(f"bits of {x}")
    return operations.bits(lifted(x), first, n)


def high_and_low(a: Value, b: Value) -> tuple[Value, Value]:
    """Returns the upper and the lower word of a product of two words."""
    if not all(isinstance(x, (int, Poly, Node)) for x in (a, b)):
        raise Undecided(f"the product of {a} and {b}")
    product = a * b if isinstance(a, int) and isinstance(b, int) else operations.multiply(lifted(a), lifted(b))
    return operations.bits(product, WORD, WORD), operations.bits(product, 0, WORD)


def joined(*parts: tuple[Value, int]) -> Value:
    """Concatenates values, each as (value, width), the lowest bits first."""
    some = [part for part in parts if part[1]]
    if len(some) == 1:
        return low(*some[0])
    if not all(isinstance(x, (int, Poly, Node)) for x, _ in some):
        raise Undecided(f"{some[0][0]} beside other bits")
    return operations.side_by_side(*((lifted(x), width) for x, width in some))


def is_term(*values: Value) -> bool:
    return any(isinstance(x, Node) for x in values)
