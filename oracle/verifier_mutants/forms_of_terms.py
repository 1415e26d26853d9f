"""Tests the rules of terms at their bounds: numbers and inner sums among the parts of a sum, bits beyond a value, and
neighbours that only seem to continue each other. Each takes a random generator and raises Wrong."""

from oracle import antt
from oracle.symbolic_terms import (
    is_same_number,
    minus,
    nodes,
    operations,
    plus,
    polynomials,
    rules,
    signs_and_rotations,
    symbol,
    times,
    variable,
)

from . import readers
from .values import Wrong, expect, refuses, value_of

WORD = 1 << 64


def symbols_of(*names):
    return [symbol(f"{name}64", 64) for name in names]


def numbers_in_sums(rng):
    """Tests that a number among the parts of a sum is added with its coefficient, and that the parts aren't lost."""
    x, y = symbols_of("x", "y")
    for width in (8, 32, 64, 128):
        c, d, n = (rng.getrandbits(width) | 1 for _ in range(3))
        for parts in ([(c, n)], [(c, n), (d, 5)], [(c, n), (d, x)], [(d, x), (c, n), (1, y)]):
            collected = rules.Collected(width, 7)
            collected.take_all(list(parts))
            constant = 7 + sum(a * b for a, b in parts if isinstance(b, int))
            expect(collected.constant % (1 << width), constant % (1 << width), f"the constant of {parts}")
            found = rules.sum_at(width, 7, list(parts))
            for k in range(nodes.POINTS):
                expected = 7 + sum(a * value_of(b, k) for a, b in parts)
                expect(value_of(found, k), expected % (1 << width), f"the sum of {parts}")


def inner_sums(_):
    """Tests that a sum whose lower bits another sum takes is the same term as with its parts."""
    x, y, z, w = symbols_of("x", "y", "z", "w")
    for width in (32, 64):
        low = [operations.bits(one, 0, width) for one in (x, y, z, w)]
        inner = operations.add_at(width, (1, low[0]), (3, low[1]))
        flat = operations.add_at(width, (1, low[0]), (3, low[1]), (1, low[2]))
        beside = operations.side_by_side((inner, width), (low[3], width))
        for part in (inner, beside):
            found = operations.add_at(width, (1, part), (1, low[2]))
            expect(found is flat, True, f"a sum of a sum of {width} bits")
        narrow = operations.add_at(width - 8, (1, inner), (1, low[2]))
        for k in range(nodes.POINTS):
            total = value_of(low[0], k) + 3 * value_of(low[1], k) + value_of(low[2], k)
            expect(value_of(narrow, k), total % (1 << width - 8), "a narrower sum of a sum")
        high = operations.add_at(width, (256, inner), (1, low[2]))
        expect(high is operations.add_at(width, (256, low[0]), (768, low[1]), (1, low[2])), True, "a multiple of a sum")


def bits_beyond(_):
    """Tests that the bits above a value's width are 0, in one segment."""
    (x,) = symbols_of("x")
    pair = operations.side_by_side((x, 64), (operations.bits(x, 0, 8), 8))
    for one in (x, pair, operations.add_at(64, (1, x), (1, 5)), operations.multiply_at(64, x, x)):
        for first, n in ((one.width, 8), (one.width + 5, 3), (one.width + 64, 1)):
            expect(rules.bits_of(one, first, n) == [(n, 0, ())], True, f"{n} bits at {first} of {one.width}")
        for first, n in ((one.width - 4, 8), (0, one.width + 3)):
            found = rules.bits_of(one, first, n)
            expect(sum(length for length, *_ in found), n, "the length of segments")
            expect(found[-1] == (n - (one.width - first), 0, ()), True, "the last segment")
        expect(rules.bits_of(one, 3, 0) == [] and rules.bits_of(one, 3, -1) == [], True, "no bits")
    expect(rules.bits_of(0x1234, 4, 8) == [(8, 0x23, ())], True, "bits of a number")


def seeming_neighbours(_):
    """Tests the bits of a product beside a part of what the product's lower half is: both keep their values."""
    p, q, z = symbols_of("p", "q", "z")
    factor = operations.side_by_side((1, 64), (z, 64))
    product = operations.multiply(operations.xor(p, q), factor)
    high = operations.bits(product, 64, 64)
    for low in (p, q, operations.xor(p, q)):
        found = operations.side_by_side((low, 64), (high, 64))
        for k in range(nodes.POINTS):
            whole = (value_of(p, k) ^ value_of(q, k)) * (1 + WORD * value_of(z, k))
            expect(
                value_of(found, k), value_of(low, k) + WORD * (whole // WORD % WORD), "a value beside a product's bits"
            )


def neighbours(_):
    """Tests which neighbouring bits are joined: those that continue each other, of the same atoms."""
    x, y = symbols_of("x", "y")
    total = operations.add_at(64, (1, x), (1, y))
    for one in (x, total, operations.xor(x, y), operations.multiply_at(64, x, y)):
        for first, n, m in ((0, 8, 8), (8, 16, 8), (0, 32, 32), (3, 5, 7)):
            left, right = operations.bits(one, first, n), operations.bits(one, first + n, m)
            joined = operations.side_by_side((left, n), (right, m))
            expect(joined is operations.bits(one, first, n + m), True, f"{n} and {m} bits from {first}")
            for other in (operations.bits(one, first + n + 1, m), operations.bits(y, first + n, m), left):
                found = operations.side_by_side((left, n), (other, m))
                for k in range(nodes.POINTS):
                    expected = value_of(left, k) + (value_of(other, k) % (1 << m) << n)
                    expect(value_of(found, k), expected, f"{n} bits beside others")


def rotations(_):
    """Tests rotations of a term, a number, and a sum, by all distances that matter; and of two different words."""
    x, y = symbols_of("x", "y")
    for one in (x, operations.add_at(64, (1, x), (1, y)), 0x0123456789ABCDEF, 0):
        for k in (0, 1, 31, 63, 64, 65):
            found, moved = signs_and_rotations.rotated(64, one, one, k), k % 64
            for point in range(nodes.POINTS):
                n = value_of(one, point)
                expect(value_of(found, point), (n << moved | n >> 64 - moved) % WORD, f"a rotation by {k}")
    for a, b in ((x, y), (x, 5), (5, 6)):
        refuses(lambda: signs_and_rotations.rotated(64, a, b, 3), "a rotation of two words")


def orders_of_operands(_):
    """Tests that sums, products, equality and inequality don't depend on the order of their operands."""
    a, b = variable("a"), variable("b")
    for p, q in ((a, 5), (a, b), (plus(a, 1), times(2, b)), (7, 8), (a, 0)):
        expect(
            is_same_number(plus(p, q), plus(q, p)) and is_same_number(times(p, q), times(q, p)), True, "two operands"
        )
        expect(is_same_number(p + q, plus(p, q)) and is_same_number(p * q, times(p, q)), True, "operators")
        expect(is_same_number(minus(plus(p, q), q), p), True, "a difference of a sum")
    x, y = symbols_of("x", "y")
    for found, expected in ((x == x, True), (x != x, False), (a == a, True), (a != a, False), (a == plus(a, 1), False)):
        expect(found, expected, "an equality")
    refuses(lambda: x != y, "an inequality of terms")
    if polynomials.is_same_number(a, b):
        raise Wrong("two variables are the same number")


def library_functions(_):
    """Tests that a function and a number of the language's library can be values of a definition."""
    text = """use Rattle.std.specs.Prelude.{ℕ, min, max}
use Rattle.std.specs.Int.{w32}

applied : (ℕ → ℕ → ℕ) → ℕ → ℕ
applied f n = f n 5

results : ℕ → ℕ
results n = applied min n + 100 * applied max n + 10000 * w32
"""
    with readers.Folder({("more", "More"): text}) as definitions:
        found = antt.Program(definitions, ["results"]).run()["results"]
    for n in (3, 5, 9):
        expect(found(n), min(n, 5) + 100 * max(n, 5) + 10000 * 32, f"the library's functions of {n}")


ALL = [
    library_functions,
    numbers_in_sums,
    inner_sums,
    bits_beyond,
    seeming_neighbours,
    neighbours,
    rotations,
    orders_of_operands,
]
