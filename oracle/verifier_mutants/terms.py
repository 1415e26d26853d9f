"""Tests of the forms of terms and polynomials: which results are the same object, operators and facts at their
bounds, and the rules one by one. Each takes a random generator and raises Wrong."""
import itertools
import unittest.mock
from typing import Any

from oracle.symbolic_terms import (
    Undecided,
    Unsupported,
    at_most,
    given,
    is_natural,
    is_number,
    is_same_number,
    lifted,
    minus,
    nodes,
    operations,
    parts_of,
    plus,
    polynomials,
    rules,
    symbol,
    times,
    value_at,
    variable,
)
from oracle.symbolic_terms import modular as symbolic_modular
from oracle.symbolic_terms import mutation, signs_and_rotations
from oracle.symbolic_terms.nodes import BITS, OPAQUE, PRODUCT, SUM, SYMBOL
from oracle.symbolic_terms.polynomials import Poly, divided, is_below, is_less, monus, remainder, smaller, wrapped

from .values import expect, refuses, value_of

patched = unittest.mock.patch.object


def operators(_):
    """Tests the kind, the width and the bound of results, and which operations have one result in both orders."""
    x, y, byte = symbol("x64", 64), symbol("y64", 64), symbol("a byte", 8)
    for term, op, width, most in (
        (x, SYMBOL, 64, (1 << 64) - 1),
        (operations.bits(x, 8, 8), BITS, 8, 255),
        (operations.add(byte, 5), SUM, 9, 260),
        (operations.add(byte, 1), SUM, 9, 256),
        (operations.multiply(byte, byte), PRODUCT, 16, 65025),
        (operations.either(x, y), OPAQUE, 64, (1 << 64) - 1),
        (operations.both(x, byte), OPAQUE, 8, 255),
        (operations.add_at(64, (1, x), (1, y)), SUM, 64, (1 << 64) - 1),
        (operations.monus(byte, 3), OPAQUE, 8, 255),
        (operations.multiply(byte, 4), BITS, 10, 1020),
        (operations.remainder(x, 10), OPAQUE, 64, (1 << 64) - 1),
        (operations.remainder(byte, 10), OPAQUE, 8, 255),
        (operations.quotient(byte, 10), OPAQUE, 8, 255),
        (operations.side_by_side((byte, 8), (0, 8), (byte, 8)), BITS, 24, 0xFF00FF),
    ):
        expect(
            (term.op, term.width, term.most) == (op, width, most),
            True,
            f"{term}: {term.op} {term.width} {term.most:#x}",
        )
    for found, expected in (
        (operations.both(x, 255), operations.both(255, x)),
        (operations.both(x, 255), operations.bits(x, 0, 8)),
        (operations.either(x, 5), operations.either(5, x)),
        (operations.remainder(byte, 256), byte),
        (operations.remainder(byte, 300), byte),
        (operations.quotient(x, 8), operations.shift_right(x, 3)),
        (operations.remainder(x, 1 << 8), operations.bits(x, 0, 8)),
        (operations.both(x, x), x),
        (operations.either(x, x), x),
        (operations.xor(operations.xor(x, y), y), x),
        (operations.add(x, 0), x),
        (operations.multiply(x, 1), x),
        (operations.bits(x, 0, 64), x),
        (operations.shift_right(x, 0), x),
        (operations.side_by_side((operations.bits(x, 0, 20), 20), (operations.bits(x, 20, 44), 44)), x),
        (operations.either(operations.bits(x, 0, 8), operations.multiply(operations.bits(x, 8, 56), 256)), x),
        (operations.add_at(64, (1, x), (1, y)), operations.add_at(64, (1, y), (1, x))),
        (operations.multiply_at(64, x, y), operations.multiply_at(64, y, x)),
        (operations.xor(x, y), operations.xor(y, x)),
        (operations.add_at(64, (3, x), (5, x)), operations.multiply_at(64, x, 8)),
        (operations.add_at(64, (1, x), (-1, x), (1, byte)), byte),
        (operations.complement(8, operations.complement(8, byte)), byte),
        (operations.bits(operations.bits(x, 8, 32), 8, 8), operations.bits(x, 16, 8)),
        (operations.bits(operations.add_at(128, (1, x), (1 << 64, y)), 64, 64), y),
    ):
        expect(found is expected, True, f"{found} and {expected} as one term")
    for a, b, what in ((12, 10, "and"), (0, 5, "and"), (5, 5, "and")):
        expect(operations.both(a, b), a & b, what)
        expect(operations.either(a, b), a | b, "or")


def undecided_orders(_):
    """Tests that each order and equality of terms whose bounds don't decide it is refused, in both orders."""
    byte, other = symbol("a byte", 8), symbol("another byte", 8)
    for a, b in ((byte, other), (byte, 7), (7, byte), (byte, 254), (254, byte)):
        for ask in (lambda: a < b, lambda: a <= b, lambda: a > b, lambda: a >= b, lambda: a == b, lambda: a != b):
            refuses(ask, f"the order of {a} and {b}")


def joined_sums(_):
    """Tests that parts of a sum or product side by side are the whole again, also if they were narrowed."""
    x, y = symbol("x64", 64), symbol("y64", 64)
    for whole in (
        operations.add_at(64, (1, x), (1, y)),
        operations.multiply_at(64, x, y),
        operations.add_at(64, (3, x), (1, 5)),
        operations.xor(operations.add_at(64, (1, x), (1, y)), y),
    ):
        for cuts in ((32,), (8,), (16, 32), (1,), (63,), (20, 40, 60)):
            ends = [0, *cuts, 64]
            parts = [(operations.bits(whole, at, end - at), end - at) for at, end in zip(ends, ends[1:])]
            expect(operations.side_by_side(*parts) is whole, True, f"{whole} from parts at {cuts}")
    wide = operations.add_at(128, (1, x), (1 << 40, y))
    for at in (32, 64):
        parts = [(operations.bits(wide, 0, at), at), (operations.bits(wide, at, 128 - at), 128 - at)]
        expect(value_of(operations.side_by_side(*parts)), value_of(wide), "a sum from its parts")


def values_of_operations(_):
    """Tests the values of operations with numbers at the ends of their ranges, and what terms have inside."""
    x, y, byte = symbol("x64", 64), symbol("y64", 64), symbol("a byte", 8)
    for term, value in (
        (operations.remainder(x, 0), x.values[0]),
        (operations.quotient(x, 0), 0),
        (operations.either(byte, 0x1F0), byte.values[0] | 0x1F0),
        (operations.either(byte, 255), 255),
        (operations.either(byte, 511), 511),
        (operations.shift_right(12, 2), 3),
        (operations.bits(0xABCD, 4, 8), 0xBC),
        (operations.multiply(0, x), 0),
        (operations.multiply_at(64, x, 0), 0),
        (operations.xor(x, x), 0),
        (operations.add_at(8, (256, x)), 0),
        (operations.monus(255, byte), 255 - byte.values[0]),
        (operations.monus(254, byte), max(0, 254 - byte.values[0])),
        (operations.both(byte, 0), 0),
        (operations.bits(x, 64, 8), 0),
        (operations.bits(x, 60, 8), x.values[0] >> 60),
        (operations.side_by_side((0x1FF, 8), (x, 64)), x.values[0] << 8 | 255),
    ):
        expect(value_of(term), value, "a value")
    expect(
        operations.is_power_of_two(8)
        and not operations.is_power_of_two(6)
        and not operations.is_power_of_two(0)
        and not operations.is_power_of_two(x),
        True,
        "powers of two",
    )
    expect(operations.joined((8, 4), (0x1FF, 0x15)), 0x5FF, "numbers side by side")
    expect(
        nodes.children(operations.add(x, y)) == [x, y]
        and nodes.children(x) == []
        and nodes.children(operations.either(x, 6)) == [x],
        True,
        "terms inside a term",
    )
    expect(
        nodes.most_of(7) == 7
        and nodes.most_of(byte) == 255
        and nodes.is_same(5, 5)
        and not nodes.is_same(5, 6)
        and not nodes.is_same(x, 5)
        and nodes.is_same(x, x),
        True,
        "bounds",
    )


def points(_):
    """Tests the values of symbols at the points, terms that are known, and how tables are forgotten."""
    expected: Any
    for width in (1, 8, 12, 64, 65, 512):
        found = nodes.values_of_symbol(f"p{width}", width)
        expect(len(found), nodes.POINTS, "points")
        expect(nodes.values_of_symbol(f"p{width}", width) is found, True, "values that are known")
        for value in found:
            if width <= 64:
                expect(isinstance(value, int) and 0 <= value < 1 << width, True, "the value of a word")
            else:
                expect(isinstance(value, bytes) and len(value) == (width + 7) // 8, True, "the value of a message")
    wide = nodes.values_of_symbol("a long message", 8 * 4000)
    counts = [sum(byte in (0, 255) for byte in value) for value in wide]
    expect(counts[0] < 200 and counts[1] > 2000, True, "bytes with long carries")
    for value, first, length, expected in (
        (0xABCD, 4, 8, 0xBC),
        (bytes([0xCD, 0xAB, 0x12]), 4, 8, 0xBC),
        (bytes([0xCD, 0xAB, 0x12]), 8, 16, 0x12AB),
        (bytes([0xCD, 0xAB]), 12, 4, 0xA),
        (bytes([1, 2, 3]), 0, 24, 0x30201),
    ):
        expect(nodes.window(value, first, length), expected, "bits of a value")
    x = symbol("x64", 64)
    expect(symbol("x64", 64) is x and nodes.node(SYMBOL, ("x64",), 64, 5) is x, True, "one symbol")
    expect(
        [
            nodes.NATURALS[name](a, b)
            for name, a, b in (
                ("mod", 7, 0),
                ("div", 7, 0),
                ("monus", 3, 5),
                ("monus", 5, 3),
                ("and", 6, 3),
                ("or", 6, 3),
                ("mod", 7, 4),
                ("div", 7, 4),
            )
        ]
        == [7, 0, 0, 2, 2, 7, 3, 1],
        True,
        "naturals",
    )
    roots = [
        operations.add(x, 5),
        x,
        7,
        operations.multiply_at(64, operations.add_at(64, (1, x), (1, 1)), x),
        operations.either(x, 6),
        operations.bits(x, 4, 8),
    ]
    for value in (0, 1, 1 << 63, (1 << 64) - 1):
        expected = [value + 5, value, 7, (value + 1) * value % (1 << 64), value | 6, value >> 4 & 255]
        expect(nodes.values_at(roots, {"x64": value}) == expected, True, "values at a point")
    known = nodes.memo()
    known["a"] = 1
    mark = mutation.mark()
    operations.add(symbol("y64", 64), x)
    known["b"] = 2
    mutation.release(mark)
    expect(known == {"a": 1} and mutation.mark() == mark, True, "tables after a release")


def forgotten_tables(_):
    """Tests that tables are forgotten together, and that uses of rules are counted."""
    known = nodes.memo()
    with patched(nodes, "NODES", list(nodes.NODES)):
        saved = [(table, dict(table)) for table in [*nodes.MEMOS, nodes.symbol_values]]
        nodes.forget()
        expect(
            known == {} and nodes.NODES == [] and not any(nodes.MEMOS) and nodes.symbol_values == {},
            True,
            "forgotten terms",
        )
        for table, content in saved:
            table.update(content)
    nodes.MEMOS.pop()
    with patched(nodes, "USED", {}):
        for _ in range(3):
            nodes.use("a rule")
        expect(nodes.USED == {"a rule": 3}, True, "uses of a rule")


def numbers(_):
    """Tests sums, products and parts of polynomials, and their operators in both orders."""
    expected: Any
    found: Any
    a, b = variable("a"), variable("b")
    expect(
        parts_of(0) == {}
        and parts_of(5) == {(): 5}
        and parts_of(a) == {("a",): 1}
        and is_number(5)
        and is_number(a)
        and not is_number("a")
        and not is_number(None),
        True,
        "parts",
    )
    for found, expected in (
        (plus(a, 0), {("a",): 1}),
        (plus(0, a), {("a",): 1}),
        (plus(a, 5), {("a",): 1, (): 5}),
        (plus(plus(a, 5), -5), {("a",): 1}),
        (plus(a, b, 1), {("a",): 1, ("b",): 1, (): 1}),
        (plus(a, times(-1, a), 3), {(): 3}),
        (minus(plus(a, 3), a), {(): 3}),
        (minus(a, a), {}),
        (minus(5, a), {("a",): -1, (): 5}),
        (times(0, a), {}),
        (times(a, b), {("a", "b"): 1}),
        (times(b, a), {("a", "b"): 1}),
        (times(plus(a, 1), minus(a, 1)), {("a", "a"): 1, (): -1}),
        (times(3, 4), {(): 12}),
        (plus(1, 2), {(): 3}),
        (plus(1, 2, 3), {(): 6}),
        (minus(5, 3), {(): 2}),
    ):
        expect(parts_of(found) == expected and isinstance(found, Poly if any(expected) else int), True, f"{found}")
    expect(
        polynomials.constant_of(plus(a, 7)) == 7
        and polynomials.constant_of(a) == 0
        and polynomials.constant_of(9) == 9,
        True,
        "constants",
    )
    expect(
        polynomials.names_of(plus(a, times(a, b)), 5) == {"a", "b"}
        and polynomials.names_of(5) == set()
        and polynomials.names_of() == set(),
        True,
        "names",
    )
    expect(
        repr(plus(times(2, times(a, b)), a, -3)) == "2*a*b + a + -3"
        and repr(variable("a")) == "a"
        and repr(plus(b, a)) == "a + b",
        True,
        "a polynomial as text",
    )
    expect(
        hash(plus(a, 1)) == hash(plus(1, a)) and len({plus(a, 1).key(), plus(1, a).key(), a.key()}) == 2, True, "keys"
    )
    for x, y, same in (
        (a, a, True),
        (a, plus(a, 0), True),
        (a, b, False),
        (5, 5, True),
        (5, 6, False),
        (a, 5, False),
        (0, 0, True),
        (a, "a", False),
        (None, None, False),
    ):
        expect(is_same_number(x, y), same, f"{x} and {y} as one number")


def operators_on_numbers(_):
    """Tests the operators of polynomials under facts, and orders that the facts decide."""
    expected: Any
    x: Any
    y: Any
    a, b = variable("a"), variable("b")
    with given(minus(a, 5), at_most(a, 10), at_most(b, 3)):
        for found, point, expected in (
            (a + 3, {"a": 7}, 10),
            (3 + a, {"a": 7}, 10),
            (a + b, {"a": 7, "b": 2}, 9),
            (a - 2, {"a": 7}, 5),
            (a - 20, {"a": 7}, 0),
            (20 - a, {"a": 7}, 13),
            (2 - a, {"a": 7}, 0),
            (a - b, {"a": 7, "b": 2}, 5),
            (a * 3, {"a": 7}, 21),
            (3 * a, {"a": 7}, 21),
            (a * b, {"a": 7, "b": 2}, 14),
            (a << 3, {"a": 7}, 56),
            (times(8, a) >> 3, {"a": 7}, 7),
            (times(8, a) // 4, {"a": 7}, 14),
            (plus(times(8, a), 3) % 8, {}, 3),
            (100 // plus(times(0, a), 7), {}, 14),
        ):
            expect(value_at(found, point), expected, f"{found}")
        for holds in (
            a == a,
            a != 4,
            a < 11,
            a <= 10,
            a > 4,
            a >= 5,
            not a < 5,
            not a == 11,
            not a > 10,
            not a >= 11,
            not a <= 4,
            4 < a,
            11 > a,
            5 <= a,
            10 >= a,
            bool(a),
            a > b,
            b < a,
            not a != a,
        ):
            expect(holds, True, "an order")
        for ask in (
            lambda: a == 7,
            lambda: a != 7,
            lambda: a < 7,
            lambda: a > 7,
            lambda: a <= 7,
            lambda: a >= 7,
            lambda: bool(b),
            lambda: a.__index__(),
            lambda: [1, 2][b],
            lambda: a - 7,
            lambda: 7 - a,
            lambda: b == 0,
        ):
            refuses(ask, "an undecided order")
        for x, y, expected in (
            (a, 11, True),
            (a, 10, None),
            (a, 5, False),
            (a, 6, None),
            (4, a, True),
            (5, a, None),
            (10, a, False),
            (b, a, True),
            (a, b, False),
            (a, a, False),
            (3, 5, True),
            (5, 3, False),
            (5, 5, False),
            (plus(a, 1), a, False),
            (a, plus(a, 1), True),
        ):
            expect(is_below(x, y) is expected, True, f"{x} < {y}")
            if expected is None:
                refuses(lambda: is_less(x, y), f"{x} < {y}")
            else:
                expect(is_less(x, y), expected, f"{x} < {y}")
        for x, y, found in ((a, 10, a), (11, a, a), (5, a, 5), (a, 4, 4), (b, a, b), (3, 7, 3), (a, a, a)):
            expect(is_same_number(smaller(x, y), found), True, f"the smaller one of {x} and {y}")
        refuses(lambda: smaller(a, 7), "an undecided order")
        for x, y, found in (
            (a, 5, minus(a, 5)),
            (a, 11, 0),
            (5, a, None),
            (4, a, 0),
            (a, b, minus(a, b)),
            (10, a, minus(10, a)),
            (3, 5, 0),
            (5, 3, 2),
        ):
            if found is None:
                refuses(lambda: monus(x, y), f"{x} - {y}")
            else:
                expect(is_same_number(monus(x, y), found), True, f"{x} - {y}")


def operators_with_texts(_):
    """Tests that a polynomial and a text have no sum, difference or product."""
    a = variable("a")
    for operation in ("__add__", "__sub__", "__mul__", "__rsub__"):
        expect(getattr(a, operation)("text") is NotImplemented, True, f"{operation} of a text")


def facts(rng):
    """Tests that facts hold only within their context, that bounds are the greatest, and that contradictions are
    refused."""
    a, b = variable("a"), variable("b")
    expect(polynomials.facts == [] and polynomials.least == {}, True, "no facts")
    before = polynomials.under
    with given(minus(a, 3), minus(a, 7), minus(a, 5), at_most(b, 9)):
        expect(polynomials.least == {"a": 7} and len(polynomials.facts) == 1, True, "facts")
        expect(
            is_natural(minus(a, 7))
            and not is_natural(minus(a, 8))
            and is_natural(minus(9, b))
            and not is_natural(minus(8, b)),
            True,
            "bounds",
        )
        inside = polynomials.under
        with given(minus(a, 10), at_most(a, 20), at_most(plus(a, b), 25)):
            expect(
                polynomials.least == {"a": 10} and len(polynomials.facts) == 3 and polynomials.under is not inside,
                True,
                "more facts",
            )
            expect(
                is_natural(minus(a, 10))
                and is_natural(minus(20, a))
                and not is_natural(minus(19, a))
                and is_natural(minus(25, plus(a, b)))
                and not is_natural(minus(24, plus(a, b))),
                True,
                "more bounds",
            )
            for point in polynomials.under.points:
                expect(10 <= point["a"] <= 20 and point["b"] <= 9 and point["a"] + point["b"] <= 25, True, "a point")
        expect(
            polynomials.least == {"a": 7} and len(polynomials.facts) == 1 and polynomials.under is inside,
            True,
            "facts afterwards",
        )
        with given(minus(a, 10)):
            pass
        try:
            with given(minus(a, 50)):
                raise ValueError
        except ValueError:
            pass
        expect(polynomials.least == {"a": 7} and polynomials.under is inside, True, "facts after a failure")
    expect(
        polynomials.facts == [] and polynomials.least == {} and polynomials.under is before, True, "no facts afterwards"
    )
    with given(5, 0, plus(a, 3), times(2, a), minus(times(2, a), 4)):
        expect(
            polynomials.least == {}
            and len(polynomials.facts) == 3
            and is_natural(minus(times(2, a), 4))
            and not is_natural(minus(a, 3)),
            True,
            "facts of other forms",
        )
    for wrong in ((-1,), (minus(a, 5), at_most(a, 4)), (at_most(plus(a, b), 3), minus(a, 4))):
        refuses(lambda: given(*wrong).__enter__(), f"the facts {wrong}")
        expect(
            polynomials.facts == [] and polynomials.least == {} and polynomials.under is before,
            True,
            "facts after a refusal",
        )


def points_of_variables(rng):
    """Tests the points of variables that facts bound, and how a point is moved until facts hold."""
    a, b = variable("a"), variable("b")
    with patched(polynomials, "decided", {}), patched(polynomials, "SETS", 2):
        for k, count in ((1, 1), (2, 2), (1, 2), (3, 1), (4, 2)):
            with given(minus(a, k)):
                expect(len(polynomials.decided), count, "sets of facts")
    with given(minus(a, 5), at_most(b, 3), minus(variable("c"), 2)):
        for point in polynomials.points_for(plus(a, variable("d"))):
            expect(point["a"] >= 5 and point["d"] >= 0, True, "a point of other variables")
        with given(minus(variable("d"), 9)):
            expect(
                all(point["d"] >= 9 for point in polynomials.points_for(plus(a, variable("d")))),
                True,
                "a point of other variables",
            )
        shifted = polynomials.from_zero(plus(times(a, b), times(-1, a)))
        expect(shifted == {("a", "b"): 1, ("b",): 5, ("a",): -1, (): -5}, True, "a polynomial from the least values")
    for point, holds in (({"a": 5, "b": 1}, True), ({"a": 0, "b": 0}, True), ({"a": 100, "b": 50}, True)):
        with given(minus(a, 2), at_most(a, 9), minus(minus(a, b), 1)):
            found = polynomials.moved(point, rng)
            expect(found is not None and 2 <= found["a"] <= 9 and found["a"] - found["b"] >= 1, holds, "a moved point")
    expect(polynomials.moved({"a": 5}, None) == {"a": 5}, True, "a point without facts")


def sums_of_facts(_):
    """Tests when a polynomial is a sum of monomials and of facts times monomials, by the number of subtracted facts."""

    def parts(text):
        return {tuple(sorted(names)): c for names, c in text}

    x, y = ("x",), ("y",)
    for of, known, depth, holds in (
        (parts([(x, 1), ((), 3)]), [], 0, True),
        (parts([(x, -1)]), [], 4, False),
        (parts([(x, -1), ((), 9)]), [parts([(x, -1), ((), 9)])], 1, True),
        (parts([(x, -1), ((), 9)]), [parts([(x, -1), ((), 9)])], 0, False),
        (parts([(x, -1), ((), 8)]), [parts([(x, -1), ((), 9)])], 2, False),
        (parts([(x, -2), ((), 18)]), [parts([(x, -1), ((), 9)])], 1, True),
        (parts([(x, -1), (y, -1), ((), 9)]), [parts([(x, -1), ((), 4)]), parts([(y, -1), ((), 5)])], 2, True),
        (parts([(x, -1), (y, -1), ((), 9)]), [parts([(x, -1), ((), 4)]), parts([(y, -1), ((), 5)])], 1, False),
        (parts([(x, -1), ((), 3)]), [parts([(x, -2), ((), 7)])], 2, False),
        (parts([(x, -1), ((), 4)]), [parts([(x, -2), ((), 7)])], 2, True),
        (parts([(("x", "y"), -1), (y, 9)]), [parts([(x, -1), ((), 9)])], 1, True),
        (parts([(("x", "y"), -1), (y, 8)]), [parts([(x, -1), ((), 9)])], 2, False),
    ):
        expect(polynomials.is_sum_of_facts(of, known, depth), holds, f"{of} by {known} in {depth}")
    for names, product, rest in (
        (x, ("x", "y"), ("y",)),
        ((), ("x",), ("x",)),
        (("x", "x"), ("x",), None),
        (("z",), ("x",), None),
        (("x", "x"), ("x", "x", "y"), ("y",)),
    ):
        expect(polynomials.without(names, product) == rest, True, f"{product} without {names}")
    found = polynomials.taken_away({x: -3, (): 5}, {x: -2, (): 7}, x, 2, ())
    expect(found == {(): 10 - 21}, True, f"a removed part: {found}")
    found = polynomials.taken_away({("x", "y"): -1, (): 5}, {x: -1, (): 7}, ("x", "y"), 1, ("y",))
    expect(found == {(): 5, y: -7}, True, f"a removed part: {found}")


def quotients(_):
    """Tests quotients and remainders of polynomials, words of a width, and numbers as terms."""
    a, b, j = variable("a"), variable("b"), variable("j")
    with given(at_most(b, 63), minus(a, 1), minus(j, 1), at_most(j, 15)):
        for x, d, q, r in (
            (plus(times(64, a), b), 64, a, b),
            (plus(times(64, a), b), 1, plus(times(64, a), b), 0),
            (b, 64, 0, b),
            (plus(times(128, a), b), 64, times(2, a), b),
            (minus(times(64, a), 1), 64, minus(a, 1), 63),
            (7, 2, 3, 1),
            (0, 5, 0, 0),
            (plus(times(64, a), 64), 64, plus(a, 1), 0),
            (times(64, times(a, b)), times(64, a), b, 0),
            (plus(times(960, j), 0), 1024, minus(j, 1), minus(1024, times(64, j))),
            (plus(times(a, b), 0), a, b, 0),
            (times(3, a), 1, times(3, a), 0),
        ):
            quotient, rest = divided(x, d)
            expect(is_same_number(quotient, q) and is_same_number(rest, r), True, f"{x} / {d}: {quotient} and {rest}")
            expect(is_same_number(x // d, q) and is_same_number(remainder(x, d), r), True, f"{x} by operators")
        for x, d in ((plus(times(64, a), b, 1), 64), (a, 0), (a, 2), (b, 63), (times(a, b), 7), (a, b)):
            refuses(lambda: divided(x, d), f"{x} / {d}")
        for x, d, width in ((plus(a, b), 8, 3), (a, 1 << 64, None), (times(a, b), 2, 1), (plus(a, 1), 1, None)):
            found = remainder(x, d)
            if width:
                expect(found.width, width, "a remainder as a term")
        for d in (6, 0, 1 << 65, b, 10):
            refuses(lambda: remainder(times(a, 7), d), f"a remainder by {d}")


def numbers_as_values(_):
    """Tests polynomials in words of a width, and as terms."""
    a, b = variable("a"), variable("b")
    with given(at_most(a, 1000)):
        for x, width, expected in (
            (a, 16, a),
            (plus(a, 65535 - 1000), 16, plus(a, 65535 - 1000)),
            (plus(a, 65536), 16, a),
            (minus(a, 1001), 16, plus(a, 65536 - 1001)),
            (5, 8, 5),
            (-1, 8, 255),
            (256, 8, 0),
            (a, 10, a),
            (a, 64, a),
        ):
            expect(is_same_number(wrapped(x, width), expected), True, f"{x} in {width} bits")
        for x, width in (
            (plus(a, 65536 - 1000), 16),
            (minus(a, 1), 16),
            (a, 9),
            (plus(a, 2 * 65536), 16),
            (minus(a, 65536 + 1), 16),
            (600, 8),
        ):
            refuses(lambda: wrapped(x, width), f"{x} in {width} bits")
        term = symbol("a", 64)
        for x, value in (
            (a, term.values[0]),
            (plus(a, 5), (term.values[0] + 5) % (1 << 64)),
            (minus(1000, a), (1000 - term.values[0]) % (1 << 64)),
            (times(3, a), 3 * term.values[0] % (1 << 64)),
        ):
            expect(value_of(lifted(x)), value, f"{x} as a term")
        for x in (minus(a, 1), minus(999, a), times(a, 1 << 60)):
            refuses(lambda: lifted(x), f"{x} as a term")
        expect(
            lifted(5) == 5 and lifted(term) is term and lifted("a") == "a" and lifted(a) is term,
            True,
            "other values as terms",
        )
        expect(value_of(polynomials.as_word(times(a, b), 64)), symbol("a*b", 64).values[0], "a product as a term")
        expect(value_of(polynomials.as_word(minus(a, 1), 8)), (term.values[0] - 1) % 256, "a number in a byte")
    with given(at_most(a, (1 << 64) - 1)):
        expect(lifted(a) is symbol("a", 64), True, "a word")
    with given(at_most(a, 1 << 64)):
        refuses(lambda: lifted(a), "more than a word as a term")


def operations_of_widths(_):
    """Tests each operation on words of numbers, of polynomials that stay one, and of others, which become terms."""
    a, x = variable("a"), symbol("x64", 64)
    with given(minus(a, 10), at_most(a, 1000)):
        term = symbol("a", 64).values[0]
        for name, width, p, q, expected in (
            ("add", 64, a, 5, plus(a, 5)),
            ("add", 64, 5, a, plus(a, 5)),
            ("sub", 64, a, 10, minus(a, 10)),
            ("sub", 64, 2000, a, minus(2000, a)),
            ("mul", 64, a, 3, times(a, 3)),
            ("mul", 64, a, a, times(a, a)),
            ("shl", 64, a, 3, times(a, 8)),
            ("lshr", 64, times(8, a), 3, a),
            ("lshr", 64, a, 10, 0),
            ("and", 64, plus(times(64, a), 5), 63, 5),
            ("and", 64, 63, plus(times(64, a), 5), 5),
            ("udiv", 64, times(8, a), 4, times(2, a)),
            ("urem", 64, plus(times(8, a), 3), 8, 3),
            ("add", 32, plus(a, (1 << 32) - 10), 0, minus(a, 10)),
            ("sub", 32, a, 1001, plus(a, (1 << 32) - 1001)),
            ("add", 8, 200, 100, 44),
            ("sub", 8, 3, 5, 254),
            ("mul", 8, 20, 20, 144),
            ("shl", 8, 255, 4, 240),
            ("lshr", 8, 255, 4, 15),
            ("udiv", 8, 200, 7, 28),
            ("urem", 8, 200, 7, 4),
            ("sdiv", 8, 250, 2, 253),
            ("sdiv", 8, 6, 254, 253),
            ("sdiv", 8, 249, 2, 253),
            ("sdiv", 64, (1 << 53) + 1, 1, (1 << 53) + 1),
            ("sdiv", 64, (1 << 64) - (1 << 62) - 1, 3, (1 << 64) - ((1 << 62) + 1) // 3),
            ("xor", 8, 0xF0, 0xFF, 0x0F),
            ("or", 8, 3, 5, 7),
            ("and", 8, 3, 5, 1),
        ):
            expect(is_same_number(symbolic_modular.BINARY[name](width, p, q), expected), True, f"{p} {name} {q}")
        for name, width, p, q, value in (
            ("sub", 64, a, 11, (term - 11) % (1 << 64)),
            ("and", 64, a, 5, term & 5),
            ("and", 64, 12, a, term & 12),
            ("or", 64, a, x, term | x.values[0]),
            ("xor", 64, a, 5, term ^ 5),
            ("lshr", 64, a, 1, term >> 1),
            ("mul", 64, a, x, term * x.values[0] % (1 << 64)),
            ("shl", 64, a, 60, (term << 60) % (1 << 64)),
            ("add", 64, a, x, (term + x.values[0]) % (1 << 64)),
            ("xor", 64, x, (1 << 64) - 1, x.values[0] ^ (1 << 64) - 1),
            (
                "xor",
                32,
                operations.add_at(32, (1, x), (1, 1)),
                (1 << 32) - 1,
                (x.values[0] + 1) % (1 << 32) ^ (1 << 32) - 1,
            ),
            (
                "xor",
                32,
                (1 << 32) - 1,
                operations.add_at(32, (1, x), (1, 1)),
                (x.values[0] + 1) % (1 << 32) ^ (1 << 32) - 1,
            ),
        ):
            expect(value_of(symbolic_modular.BINARY[name](width, p, q)), value, f"{p} {name} {q}")
        for name, p, q in (
            ("udiv", x, 3),
            ("urem", x, 3),
            ("sdiv", x, 3),
            ("sdiv", a, 3),
            ("udiv", a, 3),
            ("urem", a, 3),
            ("shl", 1, a),
            ("lshr", x, a),
            ("shl", x, x),
            ("udiv", a, 0),
        ):
            refuses(lambda: symbolic_modular.BINARY[name](64, p, q), f"{p} {name} {q}")
        for p, q in ((a, 5), (a, 6), (a, x), (a, plus(a, 1))):
            refuses(lambda: symbolic_modular.low_bits(64, p, q), f"the low bits {q} of {p}")
        for p, q in ((3, operations.add_at(64, (1, x), (1, 1))), (operations.add_at(64, (1, x), (1, 1)), 3)):
            refuses(lambda: plus(p, q), f"{p} plus {q}, a term")
        expect(
            is_same_number(symbolic_modular.low_bits(64, plus(times(8, a), 3), 7), 3)
            and is_same_number(symbolic_modular.low_bits(64, 7, plus(times(8, a), 3)), 3),
            True,
            "low bits",
        )
        for name, p, q, holds in (
            ("eq", a, 5, False),
            ("ne", a, 5, True),
            ("ult", a, 1001, True),
            ("uge", a, 10, True),
            ("ugt", a, 9, True),
            ("ule", a, 1000, True),
            ("slt", a, 1001, True),
            ("sgt", a, (1 << 64) - 1, True),
            ("slt", (1 << 64) - 1, a, True),
            ("sge", a, 1 << 63, True),
            ("ult", a, 1 << 63, True),
            ("eq", 3, 3, True),
            ("slt", 3, (1 << 64) - 3, False),
        ):
            expect(signs_and_rotations.compare_numbers(name, 64, p, q), holds, f"{p} {name} {q}")
        with given(at_most(variable("m"), 1 << 63)):
            refuses(lambda: signs_and_rotations.compare_numbers("slt", 64, variable("m"), 5), "the sign of a number")
        with given(at_most(variable("k"), (1 << 63) - 1)):
            expect(
                signs_and_rotations.with_sign(variable("k"), 64).parts == {("k",): 1}, True, "a number without a sign"
            )


def rotations(_):
    """Tests rotations and signs of words."""
    x = symbol("x64", 64)
    for k, expected in (
        (0, x.values[0]),
        (64, x.values[0]),
        (1, (x.values[0] << 1 | x.values[0] >> 63) % (1 << 64)),
        (65, (x.values[0] << 1 | x.values[0] >> 63) % (1 << 64)),
    ):
        expect(value_of(signs_and_rotations.rotated(64, x, x, k)), expected, f"a rotation by {k}")
    expect(signs_and_rotations.rotated(8, 0x81, 0x81, 4), 0x18, "a rotation")
    refuses(lambda: signs_and_rotations.rotated(64, 5, 6, 1), "a shift of two numbers", (Unsupported,))
    refuses(lambda: signs_and_rotations.rotated(64, x, x, x), "a rotation by a term", (Undecided,))
    expect(
        [symbolic_modular.signed(n, 8) for n in (0, 127, 128, 255, 256, -1)] == [0, 127, -128, -1, 0, -1],
        True,
        "signed numbers",
    )


def segments(_):
    """Tests segments of values one by one: bits, joined neighbours, zeros at the top, xors and cuts."""
    some: Any
    x, y = symbol("x64", 64), symbol("y64", 64)
    total = operations.add_at(64, (1, x), (1, y))
    for value in (
        0,
        5,
        0xABCDEF,
        x,
        total,
        operations.side_by_side((operations.bits(x, 8, 8), 8), (5, 8), (operations.bits(y, 0, 48), 48)),
        operations.xor(x, 0xFF00),
        operations.multiply_at(64, x, y),
    ):
        width = 64 if not isinstance(value, int) else 24
        for first, n in itertools.product((0, 1, 7, 8, 16, 20, 63, 64, 70), (0, 1, 8, 16, 33, 64)):
            found = rules.bits_of(value, first, n)
            expect(sum(length for length, *_ in found), n, "the length of segments")
            for k in range(nodes.POINTS):
                expect(
                    value_of(rules.from_segments(found), k),
                    value_of(value, k) >> first & (1 << n) - 1,
                    f"bits {first} to {first + n} of {value}",
                )
        expect(value_of(rules.from_segments(rules.segments_of(value))), value_of(value), "a value's segments")
        for bits in (1, 8, 23, 63, 64, 65, width):
            expect(value_of(rules.narrow(value, bits)), value_of(value) % (1 << bits), "a narrowed value")
        mask = rules.places(value)
        expect(all(value_of(value, k) & ~mask == 0 for k in range(nodes.POINTS)), True, "places of a value")
        for bits in (1, 13, 64):
            cut = [
                part
                for segment in rules.segments_of(value)
                for part in (
                    rules.cut_segment(segment, 0, min(bits, segment[0]))
                    + rules.cut_segment(segment, min(bits, segment[0]), segment[0] - min(bits, segment[0]))
                )
            ]
            expect(value_of(rules.from_segments(cut)), value_of(value), "cut segments")
        for other in (0, 7, 0xFFFF0000FFFF, y, operations.bits(x, 4, 40), total):
            found = rules.from_segments(rules.xor_segments(rules.segments_of(value), rules.segments_of(other)))
            expect(value_of(found, 1), value_of(value, 1) ^ value_of(other, 1), f"{value} xor {other}")
    for some, left in (
        ([(8, 0, ())], []),
        ([(8, 5, ()), (8, 0, ())], [(3, 5, ())]),
        ([(8, 0, ((x.number, 0),)), (8, 0, ())], [(8, 0, ((x.number, 0),))]),
        ([(8, 0, ()), (8, 4, ())], [(8, 0, ()), (3, 4, ())]),
        ([], []),
    ):
        some = list(some)
        rules.drop_zeros(some)
        expect(some == left, True, "zeros at the top")
    a, b = ((x.number, 0),), ((x.number, 8),)
    for low, high, joined in (
        ((8, 0, a), (8, 0, b), (16, 0, a)),
        ((8, 1, a), (8, 2, b), (16, 0x201, a)),
        ((8, 0, a), (8, 0, ((x.number, 9),)), None),
        ((8, 0, a), (8, 0, ()), None),
        ((8, 5, ()), (8, 6, ()), (16, 0x605, ())),
        ((8, 0, a), (8, 0, ((y.number, 8),)), None),
        ((7, 0, a), (8, 0, b), None),
    ):
        expect(rules.joined_with(low, high) == joined, True, f"{low} and {high} joined")
    expect(
        [rules.zeros_below(c) for c in (1, 2, 12, 1 << 70)] == [0, 1, 2, 70]
        and rules.ones(0) == 0
        and rules.ones(9) == 511,
        True,
        "zeros and ones",
    )
    expect(
        rules.differing_atoms(((1, 0), (2, 0)), ((2, 0), (3, 0))) == ((1, 0), (3, 0))
        and rules.differing_atoms((), ((1, 0),)) == ((1, 0),) == rules.differing_atoms(((1, 0),), ()),
        True,
        "differing parts",
    )


def sums(_):
    """Tests sums with parts that are numbers, segments, shifted, narrowed or of an inner sum, at each width."""
    c: Any
    constant: Any
    found: Any
    parts: Any
    x, y, byte = symbol("x64", 64), symbol("y64", 64), symbol("a byte", 8)
    some = [
        x,
        y,
        byte,
        operations.bits(x, 8, 24),
        operations.add_at(32, (1, x), (3, y)),
        operations.add(byte, 7),
        operations.xor(x, 5),
        operations.complement(64, x),
        operations.multiply_at(64, x, y),
        operations.bits(operations.add_at(64, (1, x), (1, y)), 5, 20),
        77,
    ]
    for width, (p, q) in itertools.product((8, 32, 63, 64, 100, 128), itertools.combinations(some, 2)):
        for c, d in ((1, 1), (1, -1), (256, 3), (1 << 40, 1 << 8)):
            found = rules.sum_at(width, 9, [(c, p), (d, q), (1, p)])
            for k in range(nodes.POINTS):
                expect(
                    value_of(found, k),
                    (9 + c * value_of(p, k) + d * value_of(q, k) + value_of(p, k)) % (1 << width),
                    f"a sum of {c} {p} and {d} {q} in {width} bits",
                )
            if not isinstance(found, int):
                expect(
                    all(value_of(found, k) <= found.most < 1 << found.width <= 1 << width for k in range(nodes.POINTS)),
                    True,
                    "the bound of a sum",
                )
        found = rules.product_at(width, [p, q, 12])
        for k in range(nodes.POINTS):
            expect(
                value_of(found, k),
                value_of(p, k) * value_of(q, k) * 12 % (1 << width),
                f"a product of {p} and {q} in {width} bits",
            )
    for constant, parts, is_apart in (
        (0, [(1, byte), (256, byte)], True),
        (0, [(1, byte), (128, byte)], False),
        (1 << 20, [(1, byte)], True),
        (1, [(1, byte)], False),
        (0, [(3, byte)], False),
        (0, [(1 << 57, byte)], False),
        (0, [(1 << 56, byte)], True),
        (0, [], True),
    ):
        found = rules.concatenation(64, constant, parts)
        expect(found is not None, is_apart, f"{parts} side by side")
        if is_apart:
            expect(value_of(found), constant + sum(c * value_of(term) for c, term in parts), "values side by side")
    shifted = operations.add_at(128, (1, x), (1 << 64, y), (1 << 70, x))
    for k in (64, 70, 80):
        found = rules.high_of_a_sum(shifted, k) if shifted.op is SUM else None
        expect(found is None or value_of(found) == shifted.values[0] >> k, True, f"a sum from bit {k} on")


ALL = [
    operators,
    undecided_orders,
    joined_sums,
    values_of_operations,
    points,
    forgotten_tables,
    numbers,
    operators_on_numbers,
    operators_with_texts,
    facts,
    points_of_variables,
    sums_of_facts,
    quotients,
    numbers_as_values,
    operations_of_widths,
    rotations,
    segments,
    sums,
]
