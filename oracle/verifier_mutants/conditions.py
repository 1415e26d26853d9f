"""Tests of conditions and of values in registers: comparisons of terms, numbers, united bits and addresses, each at its
bound. Each takes a random generator, which it doesn't use, and raises Wrong."""
import types
import unittest.mock
from typing import Any

from oracle.machine_code import flags, values
from oracle.machine_code.flags import Flags
from oracle.machine_code.memory import ENTRY, Stack, WordMemory
from oracle.machine_code.values import Address, Either, address, arithmetic
from oracle.symbolic_terms import (
    Input,
    Undecided,
    WrongRule,
    at_most,
    given,
    is_same_number,
    lifted,
    minus,
    nodes,
    operations,
    plus,
    polynomials,
    symbol,
    times,
    value_at,
    variable,
)

from .values import expect, refuses, value_of

FIRST, SECOND, STACKED = WordMemory("first", 100, alignment=8), Input("second", 100), Stack()
FAR = 1 << 62


def processor(now=None, carry=None, not_zero=()):
    return types.SimpleNamespace(flags=now, carry=now if carry is None else carry, not_zero=not_zero, stack=STACKED)


def after(proof_class, a, b, result=None, not_zero=()):
    """Returns a processor after an operation of 64 bits."""
    return processor(Flags(proof_class, 64, a, b, result), not_zero=not_zero)


def decided(name, cpu, expected, what):
    """Checks a condition: its value, or None if it must be refused."""
    if expected is None:
        refuses(lambda: flags.condition(cpu, name), f"{name} of {what}")
    else:
        expect(flags.condition(cpu, name), expected, f"{name} of {what}")


def orders_of_terms(_):
    """Tests each unsigned condition of terms that their bounds decide, in both orders."""
    byte, other, n = symbol("a byte", 8), symbol("another byte", 8), variable("n")
    with given(minus(n, 5), at_most(n, 100)):
        shifted = arithmetic("lshr", 64, plus(n, 3), 2)  # 2 to 25
        for a, b, is_below, is_equal in (
            (byte, 256, True, None),
            (byte, 300, True, None),
            (byte, 255, None, None),
            (256, byte, False, None),
            (300, byte, False, None),
            (byte, other, None, None),
            (byte, byte, False, True),
            (shifted, 26, True, None),
            (shifted, 25, None, None),
            (shifted, 2, False, None),
            (shifted, 3, None, None),
            (1, shifted, True, None),
            (2, shifted, None, None),
            (25, shifted, False, None),
            (24, shifted, None, None),
            (shifted, byte, None, None),
            (byte, shifted, None, None),
            (n, byte, None, None),
            (n, lifted(n), False, True),
            (lifted(n), n, False, True),
        ):
            cpu = after("sub", a, b)
            decided("b", cpu, is_below, (a, b))
            decided("ae", cpu, None if is_below is None else not is_below, (a, b))
            decided("e", cpu, is_equal, (a, b))
            decided("ne", cpu, None if is_equal is None else not is_equal, (a, b))
            either = True if is_below or is_equal else None if None in (is_below, is_equal) else False
            decided("be", cpu, either, (a, b))
            decided("a", cpu, None if either is None else not either, (a, b))
        for a, b in ((byte, 5), (5, byte), (byte, other), (n, byte)):
            decided("b", after("add", a, b), None, ("a sum", a, b))
        decided("b", after("add", n, (1 << 64) - 5), True, "a sum that carries")


def results_of_two(_):
    """Tests that conditions of both flags use the last result, and the last carry of another one."""
    for (a, b), (c, d), is_either in (
        ((5, 3), (1, 2), True),
        ((5, 3), (2, 1), False),
        ((3, 3), (2, 1), True),
        ((3, 5), (2, 1), False),
    ):
        cpu = processor(Flags("sub", 64, a, b, None), Flags("sub", 64, c, d, None))
        decided("be", cpu, is_either, "two results")
        decided("a", cpu, not is_either, "two results")
    for proof_class, is_signed in (
        ("sub", True),
        ("logic", True),
        ("add", False),
        ("shift", False),
        ("step", False),
        ("borrow", False),
    ):
        decided(
            "l",
            after(proof_class, 1, 2, 3),
            {"sub": True, "logic": False}.get(proof_class) if is_signed else None,
            proof_class,
        )
    for a, b, result, proof_class in (
        (symbol("s64", 64), 1, None, "sub"),
        (1, symbol("s64", 64), None, "sub"),
        (1, 1, symbol("s64", 64), "logic"),
    ):
        decided("ge", after(proof_class, a, b, result), None, "symbols")
    for name in ("", "p", "o", "c", "nz"):
        decided(name, after("sub", 1, 2), None, "an unknown condition")


def zeros(_):
    """Tests which terms are known to be nonzero, and when united numbers are 0."""
    x, y, z, n = symbol("x64", 64), symbol("y64", 64), symbol("z64", 64), variable("n")
    union, product = operations.either(x, y), operations.multiply_at(64, x, y)
    for term, not_zero, expected in (
        (x, [x], False),
        (x, [y], None),
        (x, [], None),
        (x, [y, x], False),
        (union, [x], False),
        (union, [y], False),
        (union, [z], None),
        (union, [], None),
        (operations.either(union, z), [x], False),
        (operations.either(z, union), [y], False),
        (operations.either(x, 6), [x], False),
        (operations.either(x, 6), [y], None),
        (operations.both(x, y), [x], None),
        (product, [x], None),
        (operations.xor(x, y), [x, y], None),
        (operations.add_at(64, (1, x), (1, 1)), [x], None),
    ):
        decided("e", after("logic", term, term, term, not_zero), expected, f"{term} with {not_zero}")
    for b in (1, 5, y):
        decided("e", after("sub", x, b, None, [x]), None, f"a nonzero term and {b}")
    decided("e", after("sub", x, 0, None, [x]), False, "a nonzero term and 0")
    for most, least, mask, expected in (
        (255, 0, ~255, True),
        (256, 0, ~255, None),
        (300, 256, ~255, False),
        (300, 255, ~255, None),
        (300, 0, 0, True),
    ):
        with given(at_most(n, most), minus(n, least)):
            united = Either([n, 3], mask % (1 << 64))
            decided("e", after("logic", united, united, united), expected, f"united numbers from {least} to {most}")
            decided("e", after("sub", united, 0), expected, "united numbers and 0")
            for b in (1, x, n):
                decided("e", after("sub", united, b), None, "united numbers and another value")
    with given(at_most(n, 300)):
        for mask in (0b1011 << 8, 1 << 64 | 255 << 8, (1 << 8) - 1):
            refuses(Either([n], mask).is_zero, f"the bits {mask:#x} of numbers")
        expect(Either([n], 1 << 20).is_zero(), True, "one bit above numbers")
        expect(Either([0, 0], 255).is_zero(), True, "united zeros")
        refuses(Either([n, times(n, 2)], (1 << 64) - 256).is_zero, "undecided upper bits")
    for number, mask in ((255, 0b1011 << 8), (1 << 10, 0b1011 << 8), (1 << 20, 255 << 8), (1 << 16, 255 << 8)):
        refuses(Either([number], mask).is_zero, f"the bits {mask:#x} of {number:#x}")
    expect(Either([(1 << 16) - 1], 255 << 8).is_zero(), False, "the greatest number that a mask covers")


def apart(a, b, offset=0):
    """Returns the distance of two objects' beginnings, plus an offset."""
    return Address(tuple(sorted(((a, 1), (b, -1)), key=lambda base: base[0].name)), offset)


def places(_):
    """Tests equality of places in one object, by numbers, near offsets, or because both are within it."""
    n, m, large = variable("n"), variable("m"), WordMemory("large", 1 << 63, alignment=8)
    with given(minus(n, 1), at_most(n, 100), minus(m, FAR + 9), at_most(m, (1 << 63) - 1)):
        far = times(1 << 57, n)
        for a, b, expected in (
            (address(FIRST, 8), address(FIRST, 8), True),
            (address(FIRST, 8), address(FIRST, 9), False),
            (address(FIRST, n), address(FIRST, n), True),
            (address(FIRST, n), address(FIRST, 0), False),
            (address(FIRST, n), address(FIRST, 50), None),
            (address(FIRST, n), address(FIRST, 200), False),
            (address(FIRST, far), address(FIRST, plus(far, 1)), False),
            (address(FIRST, far), address(FIRST, far), True),
            (address(FIRST, far), address(FIRST, 0), None),
            (address(large, m), address(large, 5), False),
            (address(large, 5), address(large, m), False),
            (address(large, m), address(large, plus(m, 1)), False),
            (address(large, m), address(large, -1), None),
            (address(large, -1), address(large, m), None),
            (apart(FIRST, SECOND, 3), apart(FIRST, SECOND, 3), True),
            (apart(FIRST, SECOND, 3), apart(FIRST, SECOND, 4), False),
            (apart(FIRST, SECOND, n), apart(FIRST, SECOND, 200), False),
            (apart(FIRST, SECOND, n), apart(FIRST, SECOND, 50), None),
            (apart(FIRST, SECOND, m), apart(FIRST, SECOND, 5), None),
            (address(FIRST), address(SECOND), None),
            (address(FIRST), apart(FIRST, SECOND), None),
            (7, address(FIRST), None),
            (0, address(FIRST), None),
            (address(FIRST), 0, False),
            (address(FIRST, 100), 0, False),
            (address(FIRST, 101), 0, None),
            (address(FIRST, -1), 0, None),
            (address(FIRST, n), 0, False),
            (address(FIRST, plus(n, 1)), 0, None),
            (address(FIRST), 7, None),
            (symbol("x64", 64), address(FIRST), None),
            (address(FIRST), symbol("x64", 64), None),
        ):
            decided("e", after("sub", a, b), expected, f"{a} and {b}")
            decided("ne", after("sub", a, b), None if expected is None else not expected, f"{a} and {b}")


def order_of_places(_):
    """Tests the order of places within one object."""
    n = variable("n")
    with given(minus(n, 1), at_most(n, 100)):
        for a, b, expected in (
            (address(FIRST), address(FIRST, 1), True),
            (address(FIRST, 1), address(FIRST), False),
            (address(FIRST), address(FIRST), False),
            (address(FIRST), address(FIRST, n), True),
            (address(FIRST, n), address(FIRST, 100), None),
            (address(FIRST, 100), address(FIRST, n), False),
            (address(FIRST, 101), address(FIRST), None),
            (address(FIRST), address(FIRST, 101), None),
            (address(FIRST, -1), address(FIRST), None),
            (address(FIRST), address(FIRST, -1), None),
            (address(FIRST), address(SECOND, 1), None),
            (address(FIRST), apart(FIRST, SECOND), None),
            (8, address(FIRST), None),
            (address(FIRST), 8, None),
            (address(FIRST), 0, None),
            (address(FIRST), symbol("x64", 64), None),
            (symbol("x64", 64), address(FIRST), None),
            (apart(FIRST, SECOND), address(FIRST), None),
            (apart(FIRST, SECOND), apart(FIRST, SECOND), None),
        ):
            decided("b", after("sub", a, b), expected, f"{a} and {b}")


def distances(_):
    """Tests when a distance of two objects is n or more: of objects at P with p bytes and at Q with q it is P - Q,
    which is at least q, or 2 ^ 64 less Q - P, which is at most p below 2 ^ 64."""
    a: Any
    b: Any
    count: Any
    equal: Any
    offset: Any
    cpu, read_only, n = after("sub", 0, 0), Input("third", 60), variable("n")
    other = WordMemory("other", 60, alignment=8)
    for a, b, q, p in (
        (FIRST, SECOND, 100, 100),
        (SECOND, FIRST, 100, 100),
        (FIRST, other, 60, 100),
        (other, FIRST, 100, 60),
        (STACKED, SECOND, 100, ENTRY),
        (SECOND, STACKED, ENTRY, 100),
    ):
        for offset, count, expected in (
            (0, q, True),
            (0, q + 1, False),
            (0, 0, True),
            (5, q + 5, True),
            (5, q + 6, False),
            (-5, q - 5, True),
            (-5, q - 4, False),
            (p - 1, 8, True),
            (p, 8, False),
            (FAR, 8, False),
            (-q, 0, True),
            (-q, 1, False),
        ):
            expect(
                flags.is_far(cpu, apart(a, b, offset), count),
                expected,
                f"{a.name} - {b.name} + {offset} is {count} at least",
            )
            decided(
                "b",
                after("sub", apart(a, b, offset), count),
                False if expected else None,
                f"{a.name} - {b.name} + {offset} and {count}",
            )
            equal = False if flags.is_far(cpu, apart(a, b, offset), count + 1) else None
            decided("e", after("sub", apart(a, b, offset), count), equal, f"{a.name} - {b.name} + {offset} and {count}")
    for a, b in ((SECOND, read_only), (read_only, SECOND)):
        expect(flags.is_far(cpu, apart(a, b), 1), False, "a distance of objects that may overlap")
    for bases in (((FIRST, 1),), ((FIRST, 2), (SECOND, -1)), ((FIRST, 1), (SECOND, 1)), ((FIRST, -1),), ()):
        expect(flags.is_far(cpu, Address(bases, 0), 0), False, f"no distance: {bases}")
    large, huge = (WordMemory(name, 1 << 63, alignment=8) for name in ("large", "huge"))
    for offset, count, expected in (
        (0, FAR, True),
        (0, FAR + 1, False),
        (FAR, 0, True),
        (FAR + 1, 0, False),
        (-FAR, 0, True),
        (-FAR - 1, 0, False),
    ):
        expect(flags.is_far(cpu, apart(large, huge, offset), count), expected, f"a distance of {count} with {offset}")
    with given(at_most(n, 50)):
        for count, expected in ((50, True), (51, True), (100, True), (101, False)):
            expect(flags.is_far(cpu, apart(FIRST, SECOND, n), count), expected, "a distance with a number")
            expect(flags.is_far(cpu, apart(FIRST, SECOND), plus(n, count - 50)), expected, "a distance above a number")


def sums_of_places(_):
    """Tests sums and differences of addresses and numbers: their bases, sorted by name, and their offset near 0."""
    bases: Any
    found: Any
    n, other = variable("n"), Input("other", 9)
    with given(minus(n, 3), at_most(n, 100)):
        for word, a, b, bases, offset in (
            ("add", address(FIRST, 5), 7, {FIRST: 1}, 12),
            ("add", 7, address(FIRST, 5), {FIRST: 1}, 12),
            ("sub", address(FIRST, 5), 7, {FIRST: 1}, -2),
            ("sub", 7, address(FIRST, 5), {FIRST: -1}, 2),
            ("add", address(FIRST, 5), address(SECOND, 6), {FIRST: 1, SECOND: 1}, 11),
            ("sub", address(FIRST, 5), address(SECOND, 6), {FIRST: 1, SECOND: -1}, -1),
            ("add", address(FIRST, 5), address(FIRST, 6), {FIRST: 2}, 11),
            ("add", address(FIRST, 5), n, {FIRST: 1}, plus(n, 5)),
            ("sub", address(FIRST, 5), n, {FIRST: 1}, minus(5, n)),
            ("add", n, address(FIRST, 5), {FIRST: 1}, plus(n, 5)),
            ("add", address(FIRST, (1 << 63) - 1), 1, {FIRST: 1}, -1 << 63),
            ("sub", address(FIRST, -1 << 63), 1, {FIRST: 1}, (1 << 63) - 1),
            ("add", address(other), apart(FIRST, SECOND), {FIRST: 1, SECOND: -1, other: 1}, 0),
        ):
            found = arithmetic(word, 64, a, b)
            expect(
                dict(found.bases) == bases and is_same_number(found.offset, offset), True, f"{a} {word} {b}: {found}"
            )
            expect(
                [base.name for base, _ in found.bases] == sorted(base.name for base in bases),
                True,
                "the order of bases",
            )
        for a, b, expected in (
            (address(FIRST, 40), address(FIRST, 9), 31),
            (address(FIRST, 9), address(FIRST, 40), -31 % (1 << 64)),
            (address(FIRST, plus(n, 9)), address(FIRST, 9), n),
            (apart(FIRST, SECOND, 9), apart(FIRST, SECOND, 3), 6),
        ):
            expect(is_same_number(arithmetic("sub", 64, a, b), expected), True, f"{a} - {b}")
    for word, a, b in (
        ("add", address(FIRST), symbol("x64", 64)),
        ("sub", address(FIRST), symbol("x64", 64)),
        ("add", symbol("x64", 64), address(FIRST)),
        ("xor", address(FIRST), 1),
        ("mul", address(FIRST), 1),
        ("and", address(FIRST), symbol("x64", 64)),
        ("or", address(FIRST), n),
        ("and", address(FIRST), address(FIRST)),
        ("shl", address(FIRST), 1),
        ("lshr", address(FIRST), 1),
        ("or", address(FIRST), address(FIRST)),
        ("and", apart(FIRST, SECOND), 7),
        ("or", apart(FIRST, SECOND), 7),
    ):
        refuses(lambda: arithmetic(word, 64, a, b), f"{a} {word} {b}")
    for width in (8, 16, 32):
        for word in ("add", "sub"):
            refuses(lambda: arithmetic(word, width, address(FIRST), 1), f"a sum of {width} bits with an address")


def refused_sums(_):
    """Tests which sums of addresses are refused, and which addresses are places."""
    n = variable("n")
    for x in (7, n, symbol("x64", 64), None):
        refuses(lambda: values.place_of(x), "a number as an address")
    for bases in (((FIRST, 2),), ((FIRST, -1),), ((FIRST, 1), (SECOND, 1)), ()):
        refuses(lambda: Address(bases, 0).place(), "a sum as an address")
    expect(
        values.place_of(address(FIRST, 5)) == (FIRST, 5) and values.place_of(address(FIRST))[1] == 0, True, "an address"
    )


def bits_of_places(_):
    """Tests the low bits of addresses: of objects at multiples of 1, 8 and 64, some bytes above one."""
    n = variable("n")
    for alignment, residue in ((1, 0), (8, 0), (64, 0), (64, 8), (64, 63)):
        memory = WordMemory("room", 1000, alignment=alignment)
        memory.residue = residue
        for k in range(8):
            mask = (1 << k) - 1
            for at in (0, 1, 7, 8, 63, 64, 999, -1):
                for ask in (
                    lambda: arithmetic("and", 64, address(memory, at), mask),
                    lambda: arithmetic("and", 64, mask, address(memory, at)),
                    lambda: values.low(address(memory, at), k),
                    lambda: arithmetic("and", 32, address(memory, at), mask),
                ):
                    if alignment % (mask + 1):
                        refuses(ask, f"{k} bits of an address")
                    elif k:
                        expect(ask(), (at + residue) & mask, f"{k} bits of {at} in {memory.name}")
            with given(at_most(n, 9)):
                if not alignment % (mask + 1):
                    expect(
                        is_same_number(
                            arithmetic("and", 64, address(memory, plus(times(64, n), 5)), mask), (residue + 5) & mask
                        ),
                        True,
                        "bits of a number",
                    )
        for mask in (2, 5, 6, 0b1001):
            refuses(lambda: arithmetic("and", 64, address(memory), mask), f"the bits {mask} of an address")
        odd = WordMemory("odd", 1000, alignment=6)
        refuses(lambda: arithmetic("and", 64, address(odd, 4), 5), "the bits 5 of an address")
        for at, number, is_free in (
            (64, 7, True),
            (64, 8, True),
            (72, 7, True),
            (65, 1, False),
            (65, 2, False),
            (64, 63, True),
            (64, 64, False),
        ):
            size = number.bit_length()
            is_known = not alignment % (1 << size) and (at + residue) % (1 << size) == 0
            if is_known:
                expect(
                    arithmetic("or", 64, address(memory, at), number).place()[1],
                    at + number,
                    "an address with low bits",
                )
            else:
                refuses(lambda: arithmetic("or", 64, address(memory, at), number), f"an address {at} or {number}")
    expect(is_free, False, "the last case")


def shifted_numbers(_):
    """Tests that only a right shift of a number that becomes a term is recorded, as its quotient."""
    n, x = variable("n"), symbol("x64", 64)
    with given(at_most(n, 100)):
        found = arithmetic("lshr", 64, plus(n, 3), 2)
        number, k = values.quotients[found.number]
        expect(is_same_number(number, plus(n, 3)) and k == 2, True, "the quotient of a shift")
        for word, a, b in (
            ("and", plus(n, 3), 12),
            ("shl", x, 3),
            ("lshr", x, 3),
            ("mul", x, 3),
            ("xor", plus(n, 3), 3),
            ("add", n, (1 << 64) - 50),
            ("sub", n, 50),
            ("mul", n, 1 << 60),
            ("shl", n, 60),
        ):
            answer = arithmetic(word, 64, a, b)
            expect(getattr(answer, "number", -1) not in values.quotients, True, f"{word} as a quotient")
        expect(is_same_number(arithmetic("lshr", 64, times(n, 8), 3), n), True, "a shift that leaves a number")
        expect(is_same_number(arithmetic("xor", 64, n, (1 << 64) - 1), minus((1 << 64) - 1, n)), True, "a complement")
        expect(is_same_number(arithmetic("xor", 64, (1 << 64) - 1, n), minus((1 << 64) - 1, n)), True, "a complement")
        expect(is_same_number(arithmetic("and", 64, 63, plus(times(64, n), 5)), 5), True, "a mask of a number")
        term = symbol("n", 64).values
        for word, a, b, of in (
            ("xor", n, (1 << 32) - 1, lambda v: v ^ (1 << 32) - 1),
            ("and", n, x, None),
            ("or", n, x, None),
            ("or", x, n, None),
        ):
            found = arithmetic(word, 64, a, b)
            for k in range(nodes.POINTS):
                v, w = term[k], x.values[k]
                expect(found.values[k], of(v) if of else v & w if word == "and" else v | w, f"{word} of {a} and {b}")
        for a, b in ((n, 5), (5, n), (n, n)):
            expect(isinstance(arithmetic("or", 64, a, b), Either), True, "united numbers")
            refuses(
                lambda: arithmetic("or", 32, a, b).is_zero(), "united numbers of 32 bits", (Undecided, AttributeError)
            )


def halves(_):
    """Tests the lower half of a term that was computed separately: its bits, those of fewer and of more."""
    x, y, n = symbol("x64", 64), symbol("y64", 64), variable("n")
    half = operations.bits(y, 0, 32)
    for width in (32, 16):
        whole = operations.add_at(64, (1, x), (width, 1))
        expect(values.with_half(whole, half, width) is whole, True, "a term with a half")
        expect(values.half_of(whole) is half if width == 32 else values.half_of(whole) is None, True, "a half")
        expect(values.low(whole, width) is half, True, "the half of a term")
        expect(value_of(values.low(whole, width - 8)), half.values[0] % (1 << width - 8), "bits of a half")
        expect(value_of(values.low(whole, width + 1)), whole.values[0] % (1 << width + 1), "more than a half")
    for value in (5, n):
        expect(values.with_half(value, 7) is value and values.half_of(value) is None, True, "a number without a half")
    expect(values.half_of(address(FIRST)) is None, True, "an address without a half")
    expect(values.low(x, 64) is x and values.low(n, 64) is n and values.low(5, 64) == 5, True, "a whole value")
    with given(at_most(n, 100)):
        expect(is_same_number(values.low(plus(times(1 << 32, n), 7), 32), 7), True, "the low bits of a number")
        expect(is_same_number(values.low(n, 32), n), True, "the low bits of a small number")
        found = values.low(plus(times(1 << 20, n), n), 16)
        expect(
            value_of(found),
            symbol("n", 64).values[0] % (1 << 16)
            if not hasattr(found, "parts") or isinstance(found, nodes.Node)
            else -1,
            "a term's low bits",
        ) if isinstance(found, nodes.Node) else None
    with given(at_most(n, 1 << 40)):
        for width in (8, 16, 32):
            expect(values.low(n, width).values[0], symbol("n", 64).values[0] % (1 << width), "a term's low bits")
    for width in (1, 2, 63):
        expect(value_of(values.low(x, width)), x.values[0] % (1 << width), "a term's low bits")
    united = Either([n], (1 << 64) - 1)
    expect(values.low(united, 8).mask, 255, "the low bits of united numbers")


def joined_values(_):
    """Tests values side by side, and which can't be."""
    x, n, place = symbol("x64", 64), variable("n"), address(FIRST, 8)
    for parts, expected in (
        (((5, 8), (0, 0)), 5),
        (((0, 0), (5, 8)), 5),
        (((0x1FF, 8),), 0xFF),
        (((1, 4), (2, 4), (3, 8)), 0x321),
        (((0x15, 4), (2, 4)), 0x25),
    ):
        expect(values.joined(*parts), expected, f"the values {parts}")
    expect(values.joined((x, 64)) is x and values.joined((x, 64), (place, 0)) is x, True, "one value")
    expect(values.joined((place, 64)).place() == (FIRST, 8), True, "one address")
    expect(values.joined((place, 3)), 0, "the low bits of an address")
    with given(at_most(n, 100)):
        found = values.joined((n, 32), (x, 32))
        expect(
            found.values[0],
            symbol("n", 64).values[0] % (1 << 32) | x.values[0] % (1 << 32) << 32,
            "a number and a term",
        )
        expect(is_same_number(values.joined((n, 64)), n), True, "one number")
        for parts in (((place, 32), (x, 32)), ((x, 32), (place, 32)), ((Either([n], 1), 32), (0, 32))):
            refuses(lambda: values.joined(*parts), "an address beside other bits")
        for value in (place, Either([n], 1)):
            refuses(lambda: values.bits(value, 0, 8), "bits of an address")
            for a, b in ((value, 5), (5, value), (value, value)):
                refuses(lambda: values.high_and_low(a, b), "a product of an address")
        for a, b in ((n, x), (x, n), (n, 5), (5, n), (n, n), (5, 7), (x, 1 << 63), ((1 << 64) - 1, (1 << 64) - 3)):
            above, below = values.high_and_low(a, b)
            for k in range(nodes.POINTS):
                u, v = (value_of(lifted(y), k) for y in (a, b))
                expect(value_of(above, k), u * v >> 64, f"the upper word of the product of {a} and {b}")
                expect(value_of(below, k), u * v % (1 << 64), f"the lower word of the product of {a} and {b}")
    expect(values.is_term(1, x) and not values.is_term(1, n) and not values.is_term(), True, "a term")


def values_of_numbers(_):
    """Tests a polynomial modulo powers of two as a term, with all of its low bits that are numbers."""
    n, m = variable("n"), variable("m")
    with given(at_most(n, 100), at_most(m, 100)):
        for x in (
            n,
            plus(n, 1),
            plus(times(8, n), 5),
            plus(times(64, n), times(16, m), 3),
            plus(times(-8, n), 5),
            times(n, m),
            plus(times(4, times(n, m)), 1),
        ):
            below, rest, z = values.split(x)
            for point in ({"n": 3, "m": 5}, {"n": 0, "m": 0}, {"n": 77, "m": 2}):
                expect(below + (value_at(rest, point) << z), value_at(x, point), f"{x} split")
            expect(0 <= below < 1 << z, True, "the low bits")
            for width in (1, 2, 3, 4, 8, 32, 64):
                found = values.term_of(x, width)
                for k in range(nodes.POINTS):
                    of = {name: symbol(name, 64).values[k] for name in ("n", "m")}
                    value = sum(
                        c * (symbol("*".join(names), 64).values[k] if len(names) > 1 else of[names[0]] if names else 1)
                        for names, c in polynomials.parts_of(x).items()
                    )
                    expect(value_of(found, k), value % (1 << width), f"{x} modulo 2 ^ {width}")
    expect(values.split(plus(times(8, n), 12))[2], 3, "bits that are numbers")
    expect(values.split(plus(times(8, n), times(4, m)))[2], 2, "bits that are numbers")


def fresh_names(_):
    """Tests that fresh symbols have other names, the given width and the given beginning."""
    names = values.Names()
    expect([names.new_name("a"), names.new_name("b"), names.new_name("a")] == ["a#1", "b#2", "a#3"], True, "new names")
    for width in (8, 32, 64):
        found = names.fresh("word", width)
        expect(found.width == width and found.parts == (f"word#{names.fresh_count}:{width}",), True, "a fresh symbol")
    expect(names.fresh("word").width, 64, "the width of a fresh symbol")
    right = symbol("n", 64).values
    for wrong in ((right[0], right[1] ^ 1), (right[0] ^ 1, right[1])):
        term = types.SimpleNamespace(values=wrong)
        with unittest.mock.patch.object(values, "as_word", lambda *_: term), unittest.mock.patch.object(
            values, "joined", lambda *_: term
        ):
            refuses(lambda: values.term_of(variable("n"), 64), "a wrong term of a number", WrongRule)


ALL = [
    orders_of_terms,
    results_of_two,
    zeros,
    places,
    order_of_places,
    distances,
    sums_of_places,
    refused_sums,
    bits_of_places,
    shifted_numbers,
    halves,
    joined_values,
    values_of_numbers,
    fresh_names,
]
