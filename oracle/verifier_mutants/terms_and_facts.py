"""Tests terms, facts, memory objects and definitions: bits that continue each other, the points that satisfy facts, and
stored values. Each takes a random generator and raises Wrong."""

import random
import unittest.mock

from oracle import antt
from oracle.machine_code.memory import copy
from oracle.machine_code.stream_state import Source, State
from oracle.machine_code.values import address
from oracle.symbolic_terms import BINARY, Input, Memory, at_most, definition, given, is_same_number, minus, nodes
from oracle.symbolic_terms import operations, plus, polynomials, rules, symbol, times, variable
from oracle.symbolic_terms.definition import Suppositions

from . import readers
from .values import expect, refuses, value_of

patched = unittest.mock.patch.object


def symbols_of(*names):
    return [symbol(f"{name}64", 64) for name in names]


# ---- terms


def halves_of_products(_):
    """Tests that the two halves of a product are joined to the product: its lower half is a narrower product."""
    x, y = symbols_of("x", "y")
    product = operations.multiply(x, y)
    low, high = operations.bits(product, 0, 64), operations.bits(product, 64, 64)
    expect(operations.side_by_side((low, 64), (high, 64)) is product, True, "the halves of a product")
    expect(rules.lower_neighbours(((product.number, 64),), 64) == ((low.number, 0),), True, "the bits below a half")


def numbers_in_high_bits(_):
    """Tests that the upper bits of a sum are those of its parts, with a number's upper bits added."""
    x, y = symbols_of("x", "y")
    product = operations.multiply(x, y)
    total = operations.add_at(128, (1, product), (1, 5 << 64))
    expected = operations.add_at(64, (1, operations.bits(product, 64, 64)), (1, 5))
    expect(operations.bits(total, 64, 64) is expected, True, "the upper bits of a sum with a number")


def widths_of_results(_):
    """Tests that a sum and a product whose greatest value is known have only as many bits as it."""
    a, b = symbol("a8", 8), symbol("b8", 8)
    expect(operations.add_at(64, (1, a), (1, b)).width, 9, "the width of a sum")
    expect(operations.multiply_at(64, a, b).width, 16, "the width of a product")
    expect(operations.add_at(8, (1, a), (1, b)).width, 8, "the width of a sum modulo 2^8")


def products_of_powers(_):
    """Tests that a product of two values of at most 2^8 is 0 modulo 2^16 if both are 2^8."""
    a, b = (operations.add(symbol(f"{name}8", 8), 1) for name in "ab")
    found = operations.multiply_at(16, a, b)
    for x, y in ((255, 255), (255, 254), (0, 255)):
        expect(nodes.values_at([found], {"a8": x, "b8": y})[0], (x + 1) * (y + 1) % (1 << 16), f"{x + 1} * {y + 1}")


def parts_of_values(_):
    """Tests sums of values side by side: an exact inner sum is taken apart, and each part has its place."""
    a, b, c = (symbol(f"{name}8", 8) for name in "abc")
    (z,) = symbols_of("z")
    inner = operations.add_at(64, (1, a), (1, b))
    beside = operations.side_by_side((inner, 9), (c, 8))
    expect(operations.add_at(64, (1, inner), (512, c)) is beside, True, "a sum beside other bits")
    found = operations.add_at(64, (1, beside), (1, z))
    expect(found is operations.add_at(64, (1, a), (1, b), (512, c), (1, z)), True, "a sum of parts side by side")
    runs: list = []
    rules.add_run(runs, 3, 4, 0, 1, 255)
    expect(runs == [(3, 4, 0, 1)], True, "the first run")


def continued_coefficients(_):
    """Tests that neighbouring bits are joined in a sum if their coefficients continue each other, and only then."""
    x, y = symbols_of("x", "y")
    low, high = operations.bits(x, 0, 32), operations.bits(x, 32, 32)
    whole = operations.add_at(64, (1, x), (1, y))
    expect(operations.add_at(64, (1, low), (1 << 32, high), (1, y)) is whole, True, "two halves in a sum")
    for c in (1, 1 << 31, 3 << 32):
        found = operations.add_at(64, (1, low), (c, high), (1, y))
        for k in range(nodes.POINTS):
            total = value_of(low, k) + c * value_of(high, k) + value_of(y, k)
            expect(value_of(found, k), total % (1 << 64), f"half with the coefficient {c}")


def complements(_):
    """Tests that a number without its complement's bits is a difference in sums, and stays bits elsewhere."""
    (x,) = symbols_of("x")
    ones = (1 << 64) - 1
    for one in (operations.xor(x, ones), operations.complement(64, x)):
        expect(operations.add_at(64, (1, one), (1, x)), ones, "a number and its complement")
    expect(BINARY["xor"](64, x, ones) is operations.xor(x, ones), True, "the bits of a complement")
    total = operations.add_at(64, (1, x), (1, 5))
    expect(BINARY["xor"](64, total, ones) is operations.add_at(64, (-1, x), (1, ones - 5)), True, "of a sum")


def flipped_sums(_):
    """Tests the xor of a sum and a number, in both orders. Only all ones give the sum's complement."""
    x, y = symbols_of("x", "y")
    for width in (32, 64):
        total, ones = operations.add_at(width, (1, x), (1, y)), (1 << width) - 1
        for c in (1, 5, 1 << width - 1, ones >> 1, ones - 1, ones):
            for found in (BINARY["xor"](width, total, c), BINARY["xor"](width, c, total)):
                for k in range(nodes.POINTS):
                    expect(value_of(found, k), value_of(total, k) ^ c, f"a sum of {width} bits xor {c:#x}")


def narrowed_values(_):
    """Tests values whose lower half is several parts, a number, or another value with some bits flipped."""
    x, y, z = symbols_of("x", "y", "z")
    a, b = symbol("a32", 32), symbol("b32", 32)
    parts, upper = operations.side_by_side((a, 32), (b, 32)), operations.side_by_side((1, 64), (z, 64))
    total = operations.add_at(128, (1, parts), (1 << 64, y), (1 << 64, z))
    product = operations.multiply_at(128, parts, upper)
    number = operations.multiply_at(
        128, operations.side_by_side((5, 64), (y, 64)), operations.side_by_side((1, 64), (z, 64))
    )
    for k in range(nodes.POINTS):
        expect(value_of(operations.xor(total, x), k), value_of(total, k) ^ value_of(x, k), "a sum's lower half")
        for one in (product, number):
            found = operations.add_at(128, (1 << 64, one), (1, y))
            expected = (value_of(one, k) << 64) + value_of(y, k)
            expect(value_of(found, k), expected % (1 << 128), "a multiple of a product")
    flipped = operations.multiply(operations.xor(x, 5), upper)
    found = operations.side_by_side((x, 64), (operations.bits(flipped, 64, 64), 64))
    for k in range(nodes.POINTS):
        expected = (value_of(x, k) ^ 5) * value_of(upper, k) >> 64 << 64 & (1 << 128) - 1 | value_of(x, k)
        expect(value_of(found, k), expected, "a value beside the bits of a product")


def masks(_):
    """Tests a mask on a number, of which not only the lowest bits are set."""
    n = variable("n")
    with given(at_most(n, 5)):
        found = BINARY["and"](64, n, 6)
        for k in range(nodes.POINTS):
            expect(value_of(found, k), symbol("n", 64).values[k] & 6, "a number under a mask")


# ---- facts


def points_of_facts(_):
    """Tests that points without facts begin at 0 and have different values then."""
    found = polynomials.random_points(["a", "b"], random.Random(1), (), 100)
    expect(len(found), polynomials.ENOUGH, "points")
    expect(found[0] == {"a": 0, "b": 0}, True, "the first point")
    expect(len({point["a"] for point in found}) > 2, True, "values of a variable")


def moved_points(rng):
    """Tests that a point is moved to where facts hold: a variable up or down, by as much as the fact needs."""
    a, b = variable("a"), variable("b")
    for facts, begun, expected in (
        ([minus(a, plus(b, 5))], {"a": 0, "b": 0}, {"a": 5, "b": 0}),
        ([minus(times(3, a), plus(b, 7))], {"a": 0, "b": 0}, {"a": 3, "b": 0}),
        ([minus(9, times(2, a))], {"a": 20}, {"a": 4}),
        ([minus(9, times(2, a)), minus(a, plus(b, 4))], {"a": 9, "b": 0}, {"a": 4, "b": 0}),
        ([minus(times(a, b), 6)], {"a": 0, "b": 0}, None),
    ):
        with patched(polynomials, "facts", facts):
            expect(polynomials.moved(begun, rng) == expected, True, f"the point of {facts}")


def tested_points(_):
    """Tests that a statement on facts is false if it is at one of their points, whatever the proof is."""
    n = variable("n")
    with patched(polynomials, "is_sum_of_facts", lambda *_: True), given(at_most(n, 9)):
        expect(polynomials.is_natural(minus(n, 10)), False, "a statement that is false at each point")
        expect(polynomials.is_natural(minus(10, n)), True, "a true statement")
    refuses(lambda: given(-1).__enter__(), "a fact that can't be")
    with given(at_most(n, 5)):
        expect(is_same_number(definition.subtract(5, n), minus(5, n)), True, "a number minus a smaller one")
    with given(minus(variable("m"), 2)):
        refuses(lambda: polynomials.remainder(n, variable("m")), "an undecided remainder")


# ---- memory


def stored_polynomials(_):
    """Tests that a polynomial is loaded as it was stored, and only with its size."""
    n, memory = variable("n"), Memory("m", 16)
    memory.store(8, 8, n)
    expect(memory.load(8, 8) is n, True, "a stored polynomial")


def cells_around_runs(_):
    """Tests that a run keeps the cells before and behind it, and no others."""
    memory, source = Memory("m", 40, [(at, 8, at) for at in range(0, 40, 8)]), Source("m", 100)
    memory.put_run(12, 8, source, 3)
    expect([at for at in range(0, 40, 8) if memory.has(at)] == [0, 24, 32], True, "the cells beside a run")
    expect(memory.has_run((12, 20, source, 3 - 12)), True, "a run")


def copies_to_buffers(_):
    """Tests that a copy to a state's buffer is stored as a run, and one elsewhere as cells."""
    source = Source("m", 100)
    for at, is_run in ((16, True), (40, True), (8, False), (12, False), (44, False)):
        state = State("state", 64, [], [], (16, 48))
        copy(address(state, at), address(source, 3), 8, False)
        expect(state.has_run((at, at + 8, source, 3 - at)), is_run, f"a copy to {at}")
        expect(state.has(at), not is_run, f"a cell at {at}")
    n, state = variable("n"), State("state", 64, [], [], (16, 48))
    with given(at_most(n, 20)):
        copy(address(state, 16), address(source, 3), n, False)
        expect(state.has_run((16, plus(16, n), source, 3 - 16)), True, "a copy of n bytes")


def symbolic_loads(_):
    """Tests a load at a symbolic place of a run, and stores before and behind a run."""
    n, source = variable("n"), Source("m", 100)
    state = State("state", 64, [], [(16, 48, source, 3)], (16, 48))
    with given(at_most(n, 24)):
        found = state.load(plus(16, n), 8)
        expect(found is source.load(plus(19, n), 8), True, "a load at a symbolic place")
    memory = Memory("m", 64, [(0, 8, 5)], [(16, 48, source, 3)])
    for at, is_right in ((0, True), (4, True), (8, True), (48, True), (9, False), (47, False)):
        memory.clear(at, 8) if is_right else refuses(lambda: memory.clear(at, 8), f"8 bytes at {at} in a run")


def bytes_beyond(_):
    """Tests that a byte beyond an input of symbolic length, or at a symbolic place, is refused, and ends no list."""
    n = variable("n")
    with given(at_most(n, 2)):
        refuses(lambda: definition.Bytes(Input("m", n), 0, n)[3], "a byte beyond an input")
    with given(minus(n, 50), at_most(n, 60)):
        refuses(lambda: definition.Bytes(Input("m", 10), 0, 10)[n], "a byte beyond an input")


# ---- definitions


def assumed_functions(_):
    """Tests that a call's arguments are the same as another's if they are functions with the same code and values."""

    def adder(k):
        return antt.Function(1, lambda a: a + k)

    n, (x,), known = variable("n"), symbols_of("x"), Suppositions()
    function = known.around(lambda *arguments: "computed", "a recursion")
    known.suppose(lambda i: function(adder(1), n), [x])
    expect(function(adder(1), plus(n, 0)) is x, True, "an assumed value")
    expect(function(adder(2), n) == "computed", True, "the value of another function")
    expect(known.identity(1 << 70), 1 << 70, "the key of a number")
    deep = known.around(lambda k: deep(k - 1) if k else "end", "a recursion")
    expect(deep(definition.FARTHEST + 5) == "end", True, "a deep recursion over numbers")


def values_under_facts(_):
    """Tests that a definition is evaluated again under other facts."""
    text = "use Rattle.std.specs.Prelude.{ℕ, min}\n\nentry : ℕ → ℕ → ℕ\nentry a b = min a b\n"
    n = variable("n")
    with readers.Folder({("more", "More"): text}) as definitions:
        entry = antt.Program(definitions, ["entry"]).run()["entry"]
        for facts, expected in (([at_most(n, 5)], n), ([minus(n, 20)], 10), ([at_most(n, 9)], n)):
            with given(*facts):
                expect(is_same_number(entry(n, 10), expected), True, f"the smaller one of n and 10, given {facts}")


def undeclared_names(_):
    """Tests that a block of a name without a type isn't read, and changes no definition."""
    text = "entry : ℕ → ℕ\nentry n = n + 3\n\nother n = n\n"
    with readers.Folder({("more", "More"): text}) as definitions:
        (module,) = definitions.modules.values()
        expect({*module.definitions} == {"entry"}, True, "definitions")
        expect(antt.Program(definitions, ["entry"]).run()["entry"](4), 7, "a definition's value")


def names_of_modules(_):
    """Tests names that two modules have, constructors imported by their type, and library functions applied in part."""
    base = "data Color : Set where\n  Red : Color\n  Blue : Color\n\nentry : ℕ → ℕ\n"
    more = "use Rattle.base.specs.Base.Color.{Red}\nuse Rattle.std.specs.Prelude.{ℕ, min}\n\n"
    more += "entry : ℕ → ℕ\nentry n = (min 3) n\n"
    with readers.Folder({("base", "Base"): base, ("more", "More"): more}) as definitions:
        module = definitions.modules["Rattle.more.specs.More"]
        found = definitions.resolve(module, "Red")
        expect(found == ("constructor", "Color", "Red"), True, "a constructor")
        expect(definitions.entry("entry") is module.definitions["entry"], True, "a definition with clauses")
        run = antt.Program(definitions, ["entry"]).run()["entry"]
        expect((run(2), run(7)) == (2, 3), True, "a function applied in part")


ALL = [
    *(halves_of_products, numbers_in_high_bits, widths_of_results, products_of_powers, parts_of_values),
    *(continued_coefficients, complements, flipped_sums, narrowed_values, masks, points_of_facts, moved_points),
    *(tested_points, stored_polynomials, cells_around_runs, copies_to_buffers, symbolic_loads, bytes_beyond),
    *(assumed_functions, values_under_facts, undeclared_names, names_of_modules),
]
