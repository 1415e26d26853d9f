"""Tests of values: operations, rules, words, polynomials, memory and flags on random numbers, beside Python's integers.

Each test takes a random generator and raises Wrong. The expected values are computed here, on numbers."""
import operator
import random
from typing import Any, Callable

from oracle import antt
from oracle import table
from oracle.machine_code import flags, memory as machine_memory, values
from oracle.machine_code.flags import Flags
from oracle.machine_code.values import Either, address
from oracle.symbolic_terms import (
    BINARY,
    Input,
    Memory,
    Piece,
    Undecided,
    Unsupported,
    at_most,
    divided,
    given,
    is_inside,
    is_natural,
    is_number,
    lifted,
    minus,
    nodes,
    operations,
    parts_of,
    plus,
    rules,
    self_tests,
    signed,
    symbol,
    times,
    value_at,
    variable,
    wrapped,
    zeros_below,
)
from oracle.symbolic_terms.signs_and_rotations import compare_numbers, rotated
from oracle.symbolic_terms import polynomials, modular as symbolic_modular
from oracle.symbolic_terms.memory import in_order, outside, taken

EDGES = (
    0,
    1,
    2,
    127,
    128,
    255,
    256,
    (1 << 31) - 1,
    1 << 31,
    (1 << 32) - 1,
    1 << 32,
    (1 << 63) - 1,
    1 << 63,
    (1 << 64) - 1,
)


class Wrong(Exception):
    """Raised if a value isn't the expected one."""


def expect(actual: object, expected: object, what: str) -> None:
    if actual.__class__ in (int, bool) and expected.__class__ in (int, bool) and actual == expected:
        return
    if actual.__class__ is not int or actual != expected:
        raise Wrong(f"{what}: {actual!r} and not {expected!r}")


def refuses(
    call: Callable[[], object],
    what: str,
    errors: type[BaseException] | tuple[type[BaseException], ...] = (Undecided, Unsupported),
) -> None:
    """Checks that a call is refused."""
    try:
        call()
    except errors:
        return
    raise Wrong(f"{what} isn't refused")


def number(rng: random.Random, width: int = 64) -> int:
    return (rng.choice(EDGES) if rng.random() < 0.4 else rng.getrandbits(rng.choice((3, 8, 16, 32, 64)))) % (1 << width)


# ---- words


def word_operations(rng):
    plain = {
        "add": operator.add,
        "sub": operator.sub,
        "mul": operator.mul,
        "xor": operator.xor,
        "or": operator.or_,
        "and": operator.and_,
    }
    for _ in range(60):
        width = rng.choice((8, 16, 32, 64))
        a, b, k = number(rng, width), number(rng, width), rng.randrange(width)
        limit = 1 << width
        for name, on_numbers in plain.items():
            expect(BINARY[name](width, a, b), on_numbers(a, b) % limit, name)
            x, y = symbol(f"a{width}", width), symbol(f"b{width}", width)
            for p, q, of in (
                (x, b, lambda i: on_numbers(x.values[i], b)),
                (a, y, lambda i: on_numbers(a, y.values[i])),
                (x, y, lambda i: on_numbers(x.values[i], y.values[i])),
                (x, x, lambda i: on_numbers(x.values[i], x.values[i])),
            ):
                found = BINARY[name](width, p, q)
                for i in range(nodes.POINTS):
                    expect(found if isinstance(found, int) else found.values[i], of(i) % limit, f"{name} of terms")
        expect(BINARY["shl"](width, a, k), (a << k) % limit, "shl")
        expect(BINARY["lshr"](width, a, k), a >> k, "lshr")
        expect(
            BINARY["shl"](width, x, k).values[0] if k else 0, (x.values[0] << k) % limit if k else 0, "shl of a term"
        )
        expect(value_of(BINARY["lshr"](width, x, k)), x.values[0] >> k, "lshr of a term")
        if b:
            expect(BINARY["udiv"](width, a, b), a // b, "udiv")
            expect(BINARY["urem"](width, a, b), a % b, "urem")
        c, d = (n - limit if n >= limit // 2 else n for n in (a, b))
        expect(signed(a, width), c, "signed")
        for test, holds in (
            ("eq", a == b),
            ("ne", a != b),
            ("ult", a < b),
            ("ugt", a > b),
            ("ule", a <= b),
            ("uge", a >= b),
            ("slt", c < d),
            ("sgt", c > d),
            ("sle", c <= d),
            ("sge", c >= d),
        ):
            expect(compare_numbers(test, width, a, b), holds, test)
        for left, right in ((x, x), (a, a)):
            turned = rotated(width, left, right, k)
            n = value_of(left)
            expect(value_of(turned), (n << k | n >> width - k) % limit, "rotated")
        refuses(
            lambda: rotated(width, symbol(f"a{width}", width), symbol(f"b{width}", width), 3), "a shift of two words"
        )
        refuses(lambda: BINARY["udiv"](width, x, 3), "a quotient of a term")
        refuses(lambda: BINARY["shl"](width, 1, y), "a shift by a term")
    expect(zeros_below(40), 3, "zeros below")
    expect(rules.ones(5), 31, "ones")
    x = symbol("a32", 32)
    complement = BINARY["xor"](32, BINARY["add"](32, x, 5), 0xFFFFFFFF)
    expect(complement.values[0], (x.values[0] + 5) % (1 << 32) ^ 0xFFFFFFFF, "a complement")


def value_of(x: Any, k: int = 0) -> int:
    return x if isinstance(x, int) else x.values[k]


# ---- terms


def terms(rng):
    _, bad = self_tests.random_operations(None, 4)
    if bad:
        raise Wrong(bad[0])


def shapes(rng):
    """Compares the widths and the bounds of terms with their values, and equal terms by two ways."""
    message = symbol("m", 8 * 64)
    pool = [operations.bits(message, 8 * rng.randrange(40), rng.choice((8, 32, 64))) for _ in range(4)]
    for _ in range(120):
        a, b, k, n = rng.choice(pool), rng.choice(pool), rng.randrange(64), rng.randrange(1, 65)
        found = rng.choice(
            (
                lambda: operations.add(a, b),
                lambda: operations.xor(a, b),
                lambda: operations.bits(a, k, n),
                lambda: operations.multiply_at(64, a, b),
                lambda: operations.multiply(a, number(rng)),
                lambda: operations.either(a, b),
                lambda: operations.both(a, number(rng)),
                lambda: operations.shift_right(a, k),
                lambda: operations.side_by_side((operations.bits(a, 0, 32), 32), (operations.bits(b, 0, 32), 32)),
                lambda: operations.add_at(64, (number(rng), a), (-1, b)),
                lambda: operations.add_at(32, (1 << k, a), (1, b), (number(rng), 1)),
            )
        )()
        if isinstance(found, int):
            continue
        for k in range(nodes.POINTS):
            if not found.values[k] <= found.most < 1 << found.width:
                raise Wrong(f"a term of {found.values[k]:#x} below {found.most:#x}, of {found.width} bits")
            if found.values[k] & ~rules.places(found):
                raise Wrong("a bit outside of a term's places")
        size = sum(length for length, *_ in found.segments)
        if size != found.width:
            raise Wrong("segments of another length than the term")
        for first, length in ((0, 8), (k, n)):
            part = operations.bits(found, first, length)
            expect(value_of(part, 1), found.values[1] >> first & (1 << length) - 1, "bits")
        if found.width <= 64:
            pool = [*pool, found][-9:]
    again = nodes.values_at(pool, {"m": message.values[0]})
    expect(nodes.values_at([pool[0], 7], {"m": message.values[0]})[1], 7, "a number at a point")
    for x, y in zip(pool, again):
        expect(y, x.values[0], "a value at a point")
    x, y = (operations.bits(message, 64 * k, 64) for k in (0, 1))
    different = [
        operations.add_at(64, (1, x), (1, y)),
        operations.add_at(64, (1, x), (2, y)),
        operations.xor(x, y),
        operations.multiply_at(64, x, y),
        x,
        y,
        operations.bits(message, 0, 32),
        operations.bits(message, 0, 33),
        operations.add_at(64, (1, x), (1, 1)),
        operations.add_at(32, (1, x), (1, y)),
        operations.both(x, y),
        operations.both(x, 0xFFFF),
    ]
    for i, p in enumerate(different):
        for j, q in enumerate(different):
            if nodes.is_same(p, q) != (i == j):
                raise Wrong("two terms of different values are one")
    for name, p, q, expected in (
        ("mod", x, 10, x.values[0] % 10),
        ("div", x, 10, x.values[0] // 10),
        ("mod", x, 16, x.values[0] % 16),
        ("div", x, 16, x.values[0] // 16),
    ):
        expect(value_of({"mod": operations.remainder, "div": operations.quotient}[name](p, q)), expected, name)
    expect(value_of(operations.monus(1 << 64, x)), (1 << 64) - x.values[0], "monus")
    expect(value_of(operations.monus(5, x)), max(0, 5 - x.values[0]), "monus")
    expect(value_of(operations.complement(64, x)), x.values[0] ^ (1 << 64) - 1, "complement")
    expect(value_of(operations.remainder(operations.bits(x, 0, 8), 300)), x.values[0] & 255, "a small remainder")
    expect(operations.quotient(operations.bits(x, 0, 8), 300), 0, "a small quotient")
    refuses(lambda: operations.is_below(x, y), "an order of terms")
    refuses(lambda: operations.is_equal(x, y), "an equality of terms")
    refuses(lambda: operations.is_below(x, 1 << 63), "an order of a term and a number")
    refuses(lambda: bool(x), "a term as a condition")
    expect(operations.is_below(operations.bits(x, 0, 8), 256), True, "a byte below 256")
    expect(operations.is_below(256, operations.bits(x, 0, 8)), False, "256 below a byte")
    expect(operations.is_below(x, x), False, "a term below itself")
    refuses(lambda: operations.is_below(operations.bits(x, 0, 8), 255), "a byte below 255")
    refuses(lambda: operations.is_below(254, operations.bits(x, 0, 8)), "254 below a byte")


def wrong_rules(rng):
    """Checks that results of another value are detected."""
    x, y = symbol("a64", 64), symbol("b64", 64)
    for name, answer, arguments in (
        ("add", x, (x, y)),
        ("multiply_at", y, (64, x, y)),
        ("bits", x, (x, 0, 8)),
        ("xor", 0, (x, y)),
        ("side_by_side", x, ((64, 64), y, x)),
        ("complement", x, (64, x)),
    ):
        refuses(lambda: operations.checked(name, answer, *arguments), f"a wrong {name}", nodes.WrongRule)
    refuses(lambda: symbol("a64", 32), "one name of two widths", nodes.WrongRule)


# ---- polynomials


def some_polynomial(rng, names="abc"):
    out = rng.choice((0, 1, -1, 5, 64, -300))
    for _ in range(rng.randrange(1, 4)):
        c = rng.choice((1, -1, 2, 16, 64, -64, 1024, 3))
        for name in rng.sample(names, rng.choice((1, 1, 2))):
            c = times(c, variable(name))
        out = plus(out, c)
    return out


def points(rng, count):
    for _ in range(count):
        yield {name: rng.choice((0, 0, 1, 2, 3, 7, 15, 16, 63, 100, 1 << 20)) for name in "abc"}


def polynomial_values(rng):
    for _ in range(60):
        p, q = some_polynomial(rng), some_polynomial(rng)
        for point in points(rng, 4):
            a, b = value_at(p, point), value_at(q, point)
            for what, r, expected in (
                ("plus", plus(p, q), a + b),
                ("minus", minus(p, q), a - b),
                ("times", times(p, q), a * b),
                ("plus a number", plus(p, 7), a + 7),
                ("plus three", plus(p, q, 1), a + b + 1),
                ("at most", at_most(p, q), b - a),
                ("a number plus", plus(7, p), a + 7),
                ("twice", times(2, p), 2 * a),
            ):
                expect(value_at(r, point), expected, what)
        if polynomials.is_same_number(p, q) != (parts_of(minus(p, q)) == {}) or polynomials.is_same_number(
            p, plus(p, 1)
        ):
            raise Wrong("two polynomials are the same number")
    x = variable("a")
    for y in (5, x, plus(x, 1), times(x, x), times(3, x)):
        if is_number(minus(y, y)) and minus(y, y) != 0 or not polynomials.is_same_number(plus(y, 0), y):
            raise Wrong("a polynomial minus itself")
    expect(polynomials.constant_of(plus(x, 9)), 9, "the constant")
    expect(polynomials.names_of(plus(x, times(variable("b"), variable("c")))) == {"a", "b", "c"}, True, "the variables")


def polynomial_facts(rng):
    """Compares decisions under facts with all small values of the variables."""
    a, b = variable("a"), variable("b")
    grid = [
        {"a": i, "b": j} for i in [*range(0, 12), 62, 63, 64, 65, 1000] for j in [*range(0, 12), 62, 63, 64, 65, 1000]
    ]
    fact_sets = (
        (),
        (minus(a, 1),),
        (minus(b, 3),),
        (at_most(b, 9),),
        (at_most(b, 63), minus(a, 2)),
        (minus(a, b),),
        (minus(a, plus(b, 1)), at_most(a, 64)),
        (at_most(plus(a, b), 70),),
        (minus(minus(a, b), 5), minus(b, 1)),
    )
    for facts in fact_sets:
        inside = [point for point in grid if all(value_at(fact, point) >= 0 for fact in facts)]
        with given(*facts):
            for x in [
                *(some_polynomial(rng, "ab") for _ in range(12)),
                a,
                minus(a, 1),
                minus(a, 2),
                minus(a, b),
                minus(b, a),
                minus(63, b),
                minus(62, b),
                minus(9, b),
                minus(8, b),
                minus(minus(a, b), 1),
                minus(minus(a, b), 5),
                minus(minus(a, b), 6),
                minus(b, 3),
                minus(b, 4),
                minus(a, 3),
                minus(64, a),
                minus(63, a),
                minus(70, plus(a, b)),
                minus(69, plus(a, b)),
                minus(times(a, 64), plus(b, 1)),
            ]:
                if is_number(x) and is_natural(x) and any(value_at(x, point) < 0 for point in inside):
                    raise Wrong(f"{x} isn't negative, under {facts}")
                answer = polynomials.is_below(x, 10)
                if answer is not None and any((value_at(x, point) < 10) != answer for point in inside):
                    raise Wrong(f"{x} < 10 is {answer}, under {facts}")
    with given(minus(a, 1), at_most(b, 63)):
        for x, expected in (
            (a, True),
            (minus(a, 1), True),
            (minus(a, 2), False),
            (minus(63, b), True),
            (minus(62, b), False),
            (minus(times(64, a), b), True),
            (plus(a, b), True),
            (minus(plus(times(64, a), b), 64), True),
            (minus(plus(times(64, a), b), 65), False),
            (5, True),
            (-1, False),
        ):
            expect(is_natural(x), expected, f"{x} is natural")
        for x, d in (
            (plus(times(64, a), b), 64),
            (plus(times(128, a), b), 64),
            (plus(times(64, a), b, 64), 64),
            (plus(times(1024, a), times(2, b)), 1024),
        ):
            q, r = divided(x, d)
            for point in grid:
                if point["a"] >= 1 and point["b"] <= 63:
                    if (value_at(q, point), value_at(r, point)) != divmod(value_at(x, point), d):
                        raise Wrong(f"{x} / {d}")
        refuses(lambda: divided(plus(times(64, a), b, 1), 64), "an undecided quotient")
        refuses(lambda: divided(a, 0), "a quotient by 0")
        refuses(lambda: polynomials.is_less(a, 2), "an undecided order")
        refuses(lambda: a == 1, "an undecided equality")
        expect(a == 0, False, "a number from 1 on is 0")
        expect(bool(a), True, "a number from 1 on as a condition")
        expect(polynomials.smaller(b, 64) is b, True, "the smaller one")
        expect(polynomials.smaller(64, b) is b, True, "the smaller one")
        expect(value_at(polynomials.monus(plus(a, b), 1), {"a": 5, "b": 3}), 7, "monus")
        expect(polynomials.monus(b, 64), 0, "monus of less")
        expect(polynomials.remainder(plus(times(64, a), b), 64) == b, True, "a remainder")
    refuses(lambda: given(minus(a, 5), at_most(a, 4)).__enter__(), "facts that can't be")
    refuses(lambda: given(-1).__enter__(), "a fact below 0")
    expect(polynomials.facts == [] and polynomials.least == {}, True, "facts that remain")
    expect(is_natural(minus(a, 1)), False, "a fact that remains")


def polynomial_operations(rng):
    a, b = variable("a"), variable("b")
    with given(at_most(a, 1000), at_most(b, 63)):
        for x in (plus(a, b), plus(times(64, a), 3), minus(1000, a), plus(times(1 << 20, a), b)):
            for width in (16, 32, 64):
                refuse = value_at(x, {"a": 1000, "b": 63}) >= 1 << width
                if not refuse:
                    expect(polynomials.is_same_number(wrapped(x, width), x), True, "a word that fits")
            term = lifted(x)
            for k in range(nodes.POINTS):
                point = {name: symbol(name, 64).values[k] for name in "ab"}
                expect(term.values[k], value_at(x, point) % (1 << 64), "a polynomial as a term")
        expect(polynomials.is_same_number(wrapped(plus(a, 1 << 32), 32), a), True, "a word that wraps")
        expect(
            polynomials.is_same_number(wrapped(minus(a, 1001), 32), plus(minus(a, 1001), 1 << 32)),
            True,
            "a word below 0",
        )
        refuses(lambda: wrapped(minus(a, 5), 32), "a word that may wrap")
        refuses(lambda: lifted(minus(a, 5)), "a polynomial that may be negative as a term")
    refuses(lambda: lifted(times(a, 1 << 60)), "a polynomial of more bits as a term")
    x, y = symbol("a64", 64), symbol("b64", 64)
    for p, q, expected in (
        (x, x, True),
        (x, y, False),
        (5, 5, True),
        (5, 6, False),
        (plus(a, 1), plus(a, 1), True),
        (plus(a, 1), a, False),
        ((x, 1), (x, 1), True),
        ((x, 1), (x, 2), False),
        ((x,), (x, 1), False),
        ("a", "a", True),
        ("a", "b", False),
        (x, 5, False),
    ):
        expect(polynomials.agree(p, q), expected, f"{p} agrees with {q}")


# ---- values of registers


def registers(rng):
    """Tests arithmetic of addresses, polynomials and united numbers."""
    first, second, n = Input("first", 1000), Input("second", 1000), variable("n")
    first.alignment = 16
    place = address(first, 40)
    add, sub = (lambda a, b, word=word: values.arithmetic(word, 64, a, b) for word in ("add", "sub"))
    expect(sub(add(place, 24), place), 24, "a difference of addresses")
    expect(sub(place, add(place, 24)), (1 << 64) - 24, "a difference of addresses below 0")
    expect(add(place, (1 << 64) - 8).place()[1], 32, "an address minus 8")
    expect(sub(place, 8).place()[1], 32, "an address minus 8")
    expect(add(8, place).place()[1], 48, "8 plus an address")
    expect(add(place, 24).place()[0] is first, True, "an address's object")
    expect(values.arithmetic("and", 64, address(first, 37), 15), 5, "the low bits of an address")
    expect(values.arithmetic("and", 64, 15, address(first, 37)), 5, "the low bits of an address")
    expect(values.low(address(first, 37), 3), 5, "the low bits of an address")
    expect(values.arithmetic("or", 64, address(first, 32), 5).place()[1], 37, "an address with low bits")
    refuses(lambda: values.arithmetic("or", 64, address(first, 33), 1), "an address with a low bit that it has")
    refuses(lambda: values.arithmetic("and", 64, address(second, 0), 1), "the low bit of an unaligned address")
    refuses(lambda: values.arithmetic("and", 64, place, 31), "more low bits than are known")
    refuses(lambda: values.arithmetic("mul", 64, place, 2), "a product of an address")
    refuses(lambda: values.arithmetic("add", 32, place, 2), "a narrow sum of an address")
    refuses(lambda: add(place, address(second, 0)).place(), "a sum of addresses as an address")
    refuses(lambda: values.place_of(7), "a number as an address")
    both = sub(address(first, 4), address(second, 1))
    expect(sorted(count for _, count in both.bases) == [-1, 1] and both.offset == 3, True, "a distance of two objects")
    expect(add(both, address(second, 2)).place() == (first, 5), True, "an address by a distance")
    with given(at_most(n, 1000)):
        for word, k, of in (
            ("xor", 3, lambda v: v ^ 3),
            ("and", 63, lambda v: v & 63),
            ("and", 0xFF0, lambda v: v & 0xFF0),
            ("and", 5, lambda v: v & 5),
            ("lshr", 3, lambda v: v >> 3),
            ("shl", 3, lambda v: v << 3),
            ("add", 9, lambda v: v + 9),
            ("mul", 5, lambda v: v * 5),
            ("xor", (1 << 64) - 1, lambda v: v ^ (1 << 64) - 1),
        ):
            for x in (n, plus(times(8, n), 5), times(64, n)):
                found = values.arithmetic(word, 64, x, k)
                for i in range(nodes.POINTS):
                    v = symbol("n", 64).values[i]
                    if isinstance(found, nodes.Node):
                        expect(found.values[i], of(value_at(x, {"n": v}) % (1 << 64)) % (1 << 64), f"{word} of {x}")
                if not isinstance(found, nodes.Node):
                    for v in (0, 1, 7, 63, 64, 100, 1000):
                        expect(value_at(found, {"n": v}), of(value_at(x, {"n": v})), f"{word} of {x} and {k}")
            for i in range(nodes.POINTS):
                expect(
                    value_of(values.low(plus(times(8, n), 5), 32), i),
                    (8 * symbol("n", 64).values[i] + 5) % (1 << 32),
                    "low",
                ) if isinstance(values.low(plus(times(8, n), 5), 32), nodes.Node) else None
        united = values.arithmetic("or", 64, n, times(4, n))
        for mask, moved, expected in (
            (0, 0, True),
            ((1 << 64) - (1 << 13), 0, True),
            ((1 << 64) - (1 << 12), 0, True),
            (0, 13, True),
        ):
            x = values.arithmetic("lshr", 64, united, moved) if moved else values.arithmetic("and", 64, united, mask)
            expect(x.is_zero(), expected, "the upper bits of united numbers")
        refuses(values.arithmetic("and", 64, united, (1 << 64) - (1 << 11)).is_zero, "undecided united bits")
        with given(minus(n, 256)):
            expect(
                values.arithmetic("and", 64, united, (1 << 64) - (1 << 10)).is_zero(),
                False,
                "united numbers with upper bits",
            )
        expect(Either([n], 0xFF00).moved_down(8).mask, 0xFF00, "a mask moved down")
        expect(Either([n], 0xFFFF).moved_down(8).mask, 0xFF00, "a mask moved down")
        refuses(lambda: values.arithmetic("add", 64, united, 1), "a sum of united numbers")
    x, y = symbol("a64", 64), symbol("b64", 64)
    for a, b in ((x, y), (x, 0x9E3779B185EBCA87), (number(rng), y), (number(rng), number(rng))):
        above, below = values.high_and_low(a, b)
        expect(value_of(above) << 64 | value_of(below), value_of(a) * value_of(b), "a product of two words")
    expect(value_of(values.bits(x, 8, 16)), x.values[0] >> 8 & 0xFFFF, "bits")
    expect(
        value_of(values.joined((operations.bits(x, 0, 32), 32), (0, 0), (operations.bits(y, 0, 32), 32))),
        x.values[0] % (1 << 32) | y.values[0] % (1 << 32) << 32,
        "joined",
    )
    expect(values.joined((5, 8), (3, 8)), 0x305, "joined numbers")
    expect(values.low(0x12345, 8), 0x45, "low")
    expect(value_of(values.low(x, 32)), x.values[0] % (1 << 32), "low")
    half = operations.bits(y, 0, 32)
    whole = values.with_half(values.joined((half, 32), (operations.bits(x, 0, 32), 32)), half)
    expect(values.half_of(whole) is half, True, "a half that was computed")
    expect(values.half_of(x) is None, True, "no half that was computed")
    expect(value_of(values.low(whole, 32)), y.values[0] % (1 << 32), "a half")
    expect(value_of(values.low(whole, 16)), y.values[0] % (1 << 16), "a part of a half")
    expect(value_of(values.low(whole, 48)), whole.values[0] % (1 << 48), "more than a half")
    for c in (0, 5, (1 << 63) - 1, 1 << 63, (1 << 64) - 1):
        expect(values.near_zero(c), c - (1 << 64) if c >= 1 << 63 else c, "an offset near 0")


# ---- flags


class Cpu:
    """The parts of a processor that flags use."""

    def __init__(self, now):
        self.flags = self.carry = now
        self.not_zero, self.stack = [], None


def condition(name, now):
    return flags.condition(Cpu(now), name)


def flag_values(rng):
    for _ in range(80):
        width = rng.choice((8, 32, 64))
        limit, a, b = 1 << width, number(rng, width), number(rng, width)
        b = a if rng.random() < 0.3 else b
        c, d = (n - limit if n >= limit // 2 else n for n in (a, b))
        now = Flags("sub", width, a, b, rng.choice((None, (a - b) % limit)))
        for name, holds in (
            ("e", a == b),
            ("ne", a != b),
            ("b", a < b),
            ("ae", a >= b),
            ("a", a > b),
            ("be", a <= b),
            ("l", c < d),
            ("ge", c >= d),
            ("g", c > d),
            ("le", c <= d),
        ):
            expect(condition(name, now), holds, f"{name} after a comparison")
        total = a + b
        for name, holds in (
            ("e", total % limit == 0),
            ("ne", total % limit != 0),
            ("b", total >= limit),
            ("ae", total < limit),
        ):
            expect(condition(name, Flags("add", width, a, b, total % limit)), holds, f"{name} after a sum")
        r = a & b
        s = r - limit if r >= limit // 2 else r
        for name, holds in (
            ("e", r == 0),
            ("b", False),
            ("ae", True),
            ("a", r != 0),
            ("be", r == 0),
            ("l", s < 0),
            ("ge", s >= 0),
            ("g", s > 0),
            ("le", s <= 0),
        ):
            expect(condition(name, Flags("logic", width, a, b, r)), holds, f"{name} after a logical operation")
        expect(condition("e", Flags("shift", width, a, 1, r)), r == 0, "e after a shift")
        expect(condition("b", Flags("borrow", width, a, plus(b, 1), 0)), a < b + 1, "b after a borrow")
    refuses(lambda: condition("e", None), "flags that aren't set")
    refuses(lambda: condition("b", None), "a carry that isn't set")
    refuses(lambda: condition("b", Flags("shift", 64, 1, 2, 3)), "the carry of a shift")
    refuses(lambda: condition("l", Flags("add", 64, 1, 2, 3)), "a signed comparison of a sum")
    refuses(lambda: condition("x", Flags("sub", 64, 1, 2, 3)), "an unknown condition")
    x, y = symbol("a64", 64), symbol("b64", 64)
    for name in ("e", "b", "a", "l"):
        refuses(lambda: condition(name, Flags("sub", 64, x, y, None)), f"{name} of terms")
    refuses(lambda: condition("b", Flags("add", 64, x, 1, None)), "the carry of a sum of terms")
    refuses(lambda: condition("e", Flags("logic", 64, x, x, x)), "a term that is 0")
    cpu = Cpu(Flags("logic", 64, x, x, x))
    cpu.not_zero = [x]
    expect(flags.condition(cpu, "e"), False, "a term that isn't 0")
    cpu = Cpu(Flags("logic", 64, y, y, y))
    cpu.not_zero = [x]
    refuses(lambda: flags.condition(cpu, "e"), "another term than the one that isn't 0")
    n = variable("n")
    with given(minus(n, 5), at_most(n, 100)):
        for name, b, holds in (
            ("b", 101, True),
            ("b", 5, False),
            ("ae", 5, True),
            ("a", 4, True),
            ("be", 100, True),
            ("be", 4, False),
            ("e", 4, False),
            ("ne", 101, True),
            ("a", 100, False),
        ):
            expect(condition(name, Flags("sub", 64, n, b, None)), holds, f"{name} of a number")
        for name, b in (("b", 100), ("b", 6), ("a", 5), ("e", 5), ("be", 5), ("e", 50)):
            refuses(lambda: condition(name, Flags("sub", 64, n, b, None)), f"an undecided {name}")
        expect(condition("e", Flags("sub", 64, n, n, None)), True, "a number that is itself")
        expect(condition("b", Flags("add", 64, n, (1 << 64) - 5, None)), True, "a sum that carries")
        expect(condition("b", Flags("add", 64, n, (1 << 64) - 101, None)), False, "a sum that doesn't carry")
        shifted = values.arithmetic("lshr", 64, plus(n, 3), 2)
        if isinstance(shifted, nodes.Node):
            expect(condition("b", Flags("sub", 64, shifted, 26, None)), True, "a shifted number")
            expect(condition("b", Flags("sub", 64, shifted, 2, None)), False, "a shifted number")
            expect(condition("b", Flags("sub", 64, 1, shifted, None)), True, "a number below a shifted one")
            expect(condition("b", Flags("sub", 64, 26, shifted, None)), False, "a number above a shifted one")


def flags_of_addresses(rng):
    first, second = machine_memory.WordMemory("first", 100, alignment=8), Input("second", 100)
    third, stack = Input("third", 100), machine_memory.Stack()
    at = address(first, 40)
    for b, name, holds in (
        (address(first, 40), "e", True),
        (address(first, 41), "e", False),
        (address(first, 41), "b", True),
        (address(first, 40), "b", False),
        (address(first, 39), "b", False),
        (0, "e", False),
        (address(first, 100), "b", True),
    ):
        cpu = Cpu(Flags("sub", 64, at, b, None))
        cpu.stack = stack
        expect(flags.condition(cpu, name), holds, f"{name} of places")
    for a, b, name in (
        (at, address(second, 40), "e"),
        (at, address(second, 40), "b"),
        (at, 7, "e"),
        (address(first, 101), 0, "e"),
        (address(first, -1), 0, "e"),
        (address(first, 101), address(first, 0), "b"),
        (at, 8, "b"),
    ):
        cpu = Cpu(Flags("sub", 64, a, b, None))
        cpu.stack = stack
        refuses(lambda: flags.condition(cpu, name), f"{name} of {a} and {b}")
    apart = values.arithmetic("sub", 64, at, address(second, 0))
    for distance, n, holds in ((apart, 8, False), (apart, 60, False)):
        cpu = Cpu(Flags("sub", 64, distance, n, None))
        cpu.stack = stack
        expect(flags.condition(cpu, "b"), holds, "a distance of objects")
    read_only = values.arithmetic("sub", 64, address(third, 40), address(second, 0))
    for distance, n in ((read_only, 8), (apart, 141), (values.arithmetic("sub", 64, at, address(second, 80)), 61)):
        cpu = Cpu(Flags("sub", 64, distance, n, None))
        cpu.stack = stack
        refuses(lambda: flags.condition(cpu, "b"), f"a distance below {n}")


# ---- memory


def memory(rng):
    for memory_class in (Memory, machine_memory.WordMemory):
        size = 64
        buffer, data = memory_class("room", size, [(k, 1, k) for k in range(size)], alignment=8), bytearray(range(size))
        for turn in range(60):
            n = rng.choice((1, 2, 4, 8, 16, 32))
            at = rng.randrange(size - n + 1)
            if rng.random() < 0.5:
                value = rng.getrandbits(8 * n)
                x = symbol(f"x{turn}:{n}", 8 * n) if rng.random() < 0.4 and n <= 8 else value
                buffer.store(at, n, x)
                data[at : at + n] = value_of(x).to_bytes(n, "little")
            else:
                expect(
                    value_of(buffer.load(at, n)),
                    int.from_bytes(data[at : at + n], "little"),
                    f"a load of {memory_class.__name__}",
                )
        for at in range(size):
            expect(value_of(buffer.load(at, 1)), data[at], "a byte")
            expect(buffer.has(at), True, "a stored byte")
        for at, n in ((-1, 1), (size, 1), (size - 7, 8), (-4, 8)):
            refuses(lambda: buffer.load(at, n), f"a load at {at}")
            refuses(lambda: buffer.store(at, n, 0), f"a store at {at}")
        refuses(lambda: buffer.store(variable("n"), 1, 0), "a store at a symbol")
        buffer = memory_class("room", size, [(0, 8, 5)])
        refuses(lambda: buffer.load(8, 1), "a byte that was never stored")
        refuses(lambda: buffer.load(4, 8), "bytes that weren't all stored")
        refuses(lambda: buffer.load(9, 4), "bytes that were never stored")
        expect(buffer.has(7) and not buffer.has(8), True, "stored bytes")
        expect(buffer.load(2, 4), 0, "a part of a cell")
    buffer = machine_memory.WordMemory("room", 64)
    n = variable("n")
    with given(at_most(n, 1000)):
        buffer.store(8, 8, plus(times(256, n), 7))
        expect(polynomials.is_same_number(buffer.load(8, 8), plus(times(256, n), 7)), True, "a number")
        expect(buffer.load(8, 1), 7, "a byte of a number")
        expect(polynomials.is_same_number(buffer.load(9, 7), n), True, "the upper bytes of a number")
        buffer.store(16, 8, address(buffer, 3))
        expect(buffer.load(16, 8).place() == (buffer, 3), True, "an address")
        refuses(lambda: buffer.load(16, 4), "a part of an address")
    stack = machine_memory.Stack()
    stack.store(machine_memory.ENTRY - 8, 8, 7)
    expect(stack.lowest, machine_memory.ENTRY - 8, "the lowest store")
    refuses(lambda: stack.store(machine_memory.ENTRY - 4, 8, 7), "a store to the caller's frame")
    stack.store(machine_memory.ENTRY - 64, 8, 9)
    expect(stack.lowest, machine_memory.ENTRY - 64, "the lowest store")
    stack.store(machine_memory.ENTRY - 16, 8, 9)
    expect(stack.lowest, machine_memory.ENTRY - 64, "the lowest store")
    stack.forget_below(machine_memory.ENTRY - 16)
    refuses(lambda: stack.load(machine_memory.ENTRY - 64, 8), "a forgotten byte")
    expect(stack.load(machine_memory.ENTRY - 8, 8), 7, "a byte above")
    expect(stack.load(machine_memory.ENTRY - 16, 8), 9, "a byte above")
    refuses(lambda: machine_memory.OnlyRead("read", 8, [(0, 8, 5)]).store(0, 8, 1), "a store to what is read")
    expect(
        machine_memory.lie_apart(buffer, Input("m", 5)) and machine_memory.lie_apart(Input("m", 5), buffer),
        True,
        "objects apart",
    )
    expect(
        machine_memory.lie_apart(Input("m", 5), machine_memory.OnlyRead("read", 8)), False, "objects that may overlap"
    )


def copies(rng):
    for source_type in ("words", "input"):
        data = rng.randbytes(64)
        to = machine_memory.WordMemory("to", 64, alignment=8)
        source = (
            machine_memory.WordMemory("from", 64, [(k, 1, byte) for k, byte in enumerate(data)])
            if source_type == "words"
            else machine_memory.Numbers("from", data)
        )
        for at, first, n in ((0, 0, 64), (3, 5, 17), (8, 8, 8), (1, 0, 0)):
            machine_memory.copy(address(to, at), address(source, first), n, False)
            for k in range(n):
                expect(value_of(to.load(at + k, 1)), data[first + k], "a copied byte")
        refuses(lambda: machine_memory.copy(address(to, 60), address(source, 0), 8, False), "a copy behind the end")
        refuses(
            lambda: machine_memory.copy(address(to, 0), address(source, 60), 8, False), "a copy from behind the end"
        )
    refuses(lambda: machine_memory.copy(address(to, 0), address(to, 4), 8, False), "a copy onto itself")
    before = [value_of(to.load(k, 1)) for k in range(64)]
    machine_memory.copy(address(to, 0), address(to, 4), 8, True)
    expect([value_of(to.load(k, 1)) for k in range(8)] == before[4:12], True, "an overlapping copy")
    machine_memory.copy(address(to, 16), address(to, 8), 8, False)
    machine_memory.fill(address(to, 8), 0xAB, 16)
    for k in range(8, 24):
        expect(to.load(k, 1), 0xAB, "a filled byte")
    fourth = value_of(to.load(3, 1))
    machine_memory.fill(address(to, 0), 0xCD, 3)
    expect(value_of(to.load(0, 4)), fourth << 24 | 0xCDCDCD, "three filled bytes")
    refuses(lambda: machine_memory.fill(address(to, 0), 0, symbol("b64", 64)), "a symbolic number of filled bytes")
    refuses(lambda: machine_memory.fill(address(to, 0), symbol("b8", 8), 8), "bytes of a symbol")
    expect(
        machine_memory.is_apart(0, 8, 8) and machine_memory.is_apart(8, 0, 8) and not machine_memory.is_apart(0, 7, 8),
        True,
        "apart",
    )


def rests_of_runs(message, n):
    """Tests what is left of a run beside a store, also of a run from a symbolic offset on."""
    at: Any
    end: Any
    found: Any
    left: Any
    low: Any
    for low, at, end, left in (
        (0, 2, 20, [(0, 2)]),
        (0, 10, 20, [(0, 10)]),
        (0, -9, 0, [(0, 10)]),
        (0, 0, 4, [(4, 10)]),
        (5, 0, 5, [(5, 10)]),
        (0, 3, 7, [(0, 3), (7, 10)]),
        (0, 0, 10, []),
        (0, -3, 13, []),
        (0, 9, 10, [(0, 9)]),
    ):
        found = outside((low, 10, message, 0), at, end)
        expect(found == [(*part, message, 0) for part in left], True, f"a run from {low} beside {at} to {end}")
    found = outside((n, plus(n, 40), message, 0), 0, 7)
    expect(found == [(plus(n, 8), plus(n, 40), message, 0)], True, "the rest of a run from a symbolic offset")
    expect(outside((n, plus(n, 6), message, 0), 0, 7) == [], True, "a run that may be written over")


def inputs(rng):
    n = variable("n")
    message = Input("m", plus(times(64, n), 10))
    with given(minus(n, 1), at_most(n, 100)):
        whole = message.load(0, 8)
        expect(value_of(message.load(2, 4)), whole.values[0] >> 16 & 0xFFFFFFFF, "bytes of an input")
        near = message.load(times(64, n), 8)
        expect(
            value_of(message.load(plus(times(64, n), 2), 4)),
            near.values[0] >> 16 & 0xFFFFFFFF,
            "bytes of an input near its end",
        )
        for at, size in (
            (plus(times(64, n), 3), 8),
            (-1, 1),
            (plus(times(64, n), 10), 1),
            (minus(times(64, n), 65), 1),
        ):
            refuses(lambda: message.load(at, size), f"{size} bytes at {at}")
        message.load(plus(times(64, n), 2), 8)
        piece = Piece(message, 64, times(64, minus(n, 1)))
        expect(piece.origin(3) == (message, 67), True, "the origin of a byte")
        with given(minus(n, 2)):
            expect(nodes.is_same(piece.load(1, 8), message.load(65, 8)), True, "bytes of a chunk")
            refuses(lambda: piece.load(times(64, minus(n, 1)), 1), "a byte behind a chunk")
        refuses(lambda: message.store(0, 1, 0), "a store to an input")
        buffer = Memory("room", 512)
        buffer.put_run(0, plus(n, 5), message, 3)
        expect(nodes.is_same(buffer.load(1, 4), message.load(4, 4)), True, "a run's bytes")
        expect(buffer.origin(1, 2) == (message, 4), True, "a run's origin")
        refuses(lambda: buffer.load(5, 2), "bytes behind a run")
        refuses(lambda: buffer.origin(4, 3), "bytes behind a run")
        refuses(lambda: buffer.store(2, 1, 0), "a store into a run")
        expect(buffer.has_run((0, plus(n, 5), message, 3)), True, "a run")
        for run in ((0, plus(n, 6), message, 3), (0, plus(n, 5), message, 4), (0, plus(n, 5), Input("o", 600), 3)):
            expect(buffer.has_run(run), False, "another run")
        buffer.put_run(plus(n, 5), 7, message, plus(n, 8))
        expect(buffer.has_run((0, plus(n, 12), message, 3)), True, "a run that goes on")
        buffer.put_run(0, 3, Input("o", 600), 0)
        expect(buffer.has_run((3, plus(n, 12), message, 3)), True, "the rest of a run")
        expect(buffer.has_run((0, plus(n, 12), message, 3)), False, "a run that was written over")
        refuses(lambda: buffer.put_run(500, plus(n, 12), message, 0), "a run behind the end")
        expect(in_order(3, 5) == (3, 5) and in_order(5, 3) == (3, 5), True, "the order of two")
        refuses(lambda: in_order(n, 5), "an undecided order")
        rests_of_runs(message, n)
    for at, size, length, expected in (
        (0, 8, 8, True),
        (1, 8, 8, False),
        (-1, 2, 8, False),
        (8, 0, 8, True),
        (7, 1, 8, True),
        (8, 1, 8, False),
    ):
        expect(is_inside(at, size, length), expected, "inside")
    buffer = Memory("room", 64, [(k, 1, k) for k in (0, 1, 2, 3, 4, 5, 6, 7, 8, 10, 12)])
    expect([one[:2] for one in taken(buffer, 0, 16)] == [(0, 8), (8, 1), (10, 1), (12, 1)], True, "bytes taken")


# ---- the definition


def definition(rng):
    """Evaluates the definitions on test vectors of the reference library, with the evaluator's own library."""
    from oracle.symbolic_terms import definition as symbolic

    cases = [case for case in map(table.Case, table.lines()[::211]) if case.length <= 600]
    entries = symbolic.read().run()
    for case in cases:
        if not case.agrees(entries):
            raise Wrong(f"the definition disagrees with {case.line}")
    for name, arguments, expected in (
        ("from_le_bytes", (32, (1, 2)), 0x201),
        ("to_le_bytes", (16, 0x1234), (0x34, 0x12)),
        ("rotate_left", (8, 0x81, 1), 3),
        ("rotate_left", (8, 0x81, 9), 3),
        ("to_be_bytes", (16, 0x1234), (0x12, 0x34)),
        ("swap_bytes", (16, 0x1234), 0x3412),
        ("take", (2, (1, 2, 3)), (1, 2)),
        ("drop", (2, (1, 2, 3)), (3,)),
        ("slice_index", ((1, 2), 5), 0),
        ("slice_index", ((1, 2), 1), 2),
        ("bit_xor", (5, 3), 6),
        ("nat_lt", (1, 2), True),
        ("nat_eq", (1, 2), False),
        ("byte_len", (32,), 4),
        ("min", (3, 5), 3),
        ("max", (3, 5), 5),
    ):
        if antt.LIBRARY[name][1](*arguments) != expected:
            raise Wrong(f"{name} of {arguments}")
    for name, a, b, expected in (
        ("-", 3, 5, 0),
        ("-", 5, 3, 2),
        ("/", 7, 2, 3),
        ("/", 7, 0, 0),
        ("%", 7, 0, 7),
        ("%", 7, 2, 1),
        ("^", 2, 5, 32),
        ("+", 1, 2, 3),
        ("*", 3, 4, 12),
        ("==", 1, 1, True),
    ):
        expect(antt.OPERATORS[name](a, b), expected, name)


ALL = [
    word_operations,
    terms,
    shapes,
    wrong_rules,
    polynomial_values,
    polynomial_facts,
    polynomial_operations,
    registers,
    flag_values,
    flags_of_addresses,
    memory,
    copies,
    inputs,
    definition,
]
assert symbolic_modular
