"""Operations on terms: on naturals, as in the definitions, and on words of a width, as in LLVM code. Python operators
convert a polynomial argument to a word.

Each operation is computed once for the same arguments. Its result is then compared, at the points of nodes.py, with the
operation on numbers. CHECKED = False turns this off."""
import functools
from typing import Callable

from . import nodes, rules
from .nodes import NATURALS, OPAQUE, Node, Value, WrongRule, memo, most_of, node, use, window
from .refusals import Undecided
from .polynomials import lifted
from .rules import bits_of, from_segments, narrow, places, product_at, segments_of, sum_at, xor_segments, zeros_below

CHECKED = True
watching = []        # called with each operation: its name, its result and its arguments

# Semantics of each operation on numbers.
MEANINGS: dict[str, Callable] = {
    "add": lambda a, b: a + b, "multiply": lambda a, b: a * b, "monus": NATURALS["monus"], "remainder": NATURALS["mod"],
    "quotient": NATURALS["div"], "xor": lambda a, b: a ^ b, "either": lambda a, b: a | b, "both": lambda a, b: a & b,
    "shift_right": lambda a, k: a >> k, "bits": window, "multiply_at": lambda width, a, b: a * b % (1 << width),
    "add_at": lambda width, coefficients, *values: sum(c * x for c, x in zip(coefficients, values)) % (1 << width),
    "complement": lambda width, a: a ^ rules.ones(width),
    "side_by_side": lambda widths, *values: joined(widths, values),
}


def joined(widths: tuple[int, ...], values: tuple[int, ...]) -> int:
    out = at = 0
    for width, x in zip(widths, values):
        out |= x % (1 << width) << at
        at += width
    return out


def checked(name: str, answer: Value, *arguments: int | Node | tuple[int, ...]) -> Value:
    """Returns the result, after a comparison with the operation on numbers."""
    if CHECKED:
        for k in range(nodes.POINTS):
            numbers = [x.values[k] if isinstance(x, Node) else x for x in arguments]
            if (answer if isinstance(answer, int) else answer.values[k]) != MEANINGS[name](*numbers):
                raise WrongRule(f"{name} of {arguments} at point {k}")
    for watch in watching:
        watch(name, answer, arguments)
    return answer


def once(operation):
    """Decorator that caches results until the nodes are forgotten. Equal arguments are the same node or number."""
    known = memo()

    @functools.wraps(operation)
    def ask(*arguments):
        answer = known.get(arguments)
        if answer is None:
            answer = known[arguments] = operation(*arguments)
        return answer
    return ask


@once
def add(a: int | Node, b: int | Node) -> int | Node:
    width = (most_of(a) + most_of(b)).bit_length()
    return checked("add", sum_at(width, 0, [(1, a), (1, b)]), a, b)


@once
def multiply(a: int | Node, b: int | Node) -> int | Node:
    width = (most_of(a) * most_of(b)).bit_length()
    return checked("multiply", product_at(width, [a, b]) if width else 0, a, b)


@once
def monus(a: int | Node, b: int | Node) -> int | Node:
    """Returns a - b, or 0 if b is greater."""
    if isinstance(a, int) and most_of(b) <= a:
        answer = sum_at(a.bit_length(), a, [(-1, b)])
    else:
        answer = opaque("monus", most_of(a), a, b)
    return checked("monus", answer, a, b)


@once
def add_at(width: int, *parts: tuple[int, int | Node]) -> int | Node:
    """Returns the sum of coefficient * value of the parts modulo 2 ^ width."""
    return checked("add_at", sum_at(width, 0, list(parts)), width, tuple(c for c, _ in parts), *(x for _, x in parts))


@once
def multiply_at(width: int, a: int | Node, b: int | Node) -> int | Node:
    return checked("multiply_at", product_at(width, [a, b]), width, a, b)


def is_power_of_two(b: int | Node) -> bool | int:
    return isinstance(b, int) and b and not b & b - 1


@once
def remainder(a: int | Node, b: int | Node) -> int | Node:
    if is_power_of_two(b):
        answer = narrow(a, b.bit_length() - 1)
    elif isinstance(b, int) and most_of(a) < b:
        use("small_remainder")
        answer = a
    else:
        answer = opaque("mod", max(most_of(a), most_of(b)), a, b)
    return checked("remainder", answer, a, b)


@once
def quotient(a: int | Node, b: int | Node) -> int | Node:
    if is_power_of_two(b):
        return shift_right(a, b.bit_length() - 1)
    if isinstance(b, int) and most_of(a) < b:
        use("small_remainder")
        return checked("quotient", 0, a, b)
    return checked("quotient", opaque("div", most_of(a), a, b), a, b)


@once
def shift_right(a: int | Node, k: int) -> int | Node:
    if isinstance(a, int):
        return a >> k
    return checked("shift_right", from_segments(bits_of(a, k, a.width - k)), a, k)


@once
def bits(a: int | Node, first: int, n: int) -> int | Node:
    """Returns bits first .. first + n - 1 of a value, as a number or a term."""
    if isinstance(a, int):
        return window(a, first, n)
    return checked("bits", from_segments(bits_of(a, first, n)), a, first, n)


@once
def side_by_side(*parts: tuple[int | Node, int]) -> int | Node:
    """Concatenates values, each as (value, width), the lowest bits first."""
    answer = from_segments([segment for x, width in parts for segment in bits_of(x, 0, width)])
    return checked("side_by_side", answer, tuple(width for _, width in parts), *(x for x, _ in parts))


@once
def xor(a: int | Node, b: int | Node) -> int | Node:
    use("xor_of_parts")
    use("xor_in_any_order")
    return checked("xor", from_segments(xor_segments(segments_of(a), segments_of(b))), a, b)


@once
def complement(width: int, a: int | Node) -> int | Node:
    """Returns 2 ^ width - 1 - a, for a below 2 ^ width."""
    use("complement")
    return checked("complement", sum_at(width, rules.ones(width), [(-1, a)]), width, a)


@once
def either(a: int | Node, b: int | Node) -> int | Node:
    """Returns the bitwise or."""
    if isinstance(a, int):
        a, b = b, a
    if a is b:
        answer = a
    elif not places(a) & places(b):
        use("bits_apart")
        answer = from_segments(xor_segments(segments_of(a), segments_of(b)))
    elif isinstance(b, int) and not b & b + 1 and most_of(a) <= b:
        use("union_with_ones")
        answer = b
    else:
        answer = opaque("or", places(a) | places(b), a, b)
    return checked("either", answer, a, b)


@once
def both(a: int | Node, b: int | Node) -> int | Node:
    """Returns the bitwise and."""
    if isinstance(a, int):
        a, b = b, a
    if a is b:
        answer = a
    elif isinstance(b, int) and not isinstance(a, int):
        use("mask")
        answer = from_segments(masked(a, b))
    else:
        answer = opaque("and", min(most_of(a), most_of(b)), a, b)
    return checked("both", answer, a, b)


def masked(a, mask):
    """Returns a under a mask, as segments."""
    out, at = [], 0
    while mask >> at:
        is_set = mask >> at & 1
        run = zeros_below(~(mask >> at)) if is_set else zeros_below(mask >> at)
        out += bits_of(a, at, run) if is_set else [(run, 0, ())]
        at += run
    return out


def is_below(a: int | Node, b: int | Node) -> bool:
    """Returns a < b, if the bounds decide it."""
    if a is b or isinstance(a, int) and most_of(b) <= a:
        return False
    if isinstance(b, int) and most_of(a) < b:
        return True
    raise Undecided(f"{a} < {b}")


def is_equal(a: int | Node, b: int | Node) -> bool:
    if a is b:
        return True
    raise Undecided(f"{a} == {b}")


def opaque(name, most, *arguments):
    """Returns an operation that has no canonical form."""
    if all(isinstance(x, int) for x in arguments):
        return NATURALS[name](*arguments)
    use(f"opaque {name}")
    return node(OPAQUE, (name, *arguments), max(most.bit_length(), 1), most)


def no_number(x, *_):
    raise Undecided(f"{x} as a condition or an index")


def operator(operation):
    return lambda self, other: operation(self, lifted(other))


def turned(operation):
    return lambda self, other: operation(lifted(other), self)


# Operators that the evaluator of the definitions uses on its numbers.
for name, on_naturals in {"add": add, "mul": multiply, "xor": xor, "or": either, "and": both, "mod": remainder,
                          "floordiv": quotient}.items():
    setattr(Node, f"__{name}__", operator(on_naturals))
    setattr(Node, f"__r{name}__", turned(on_naturals))
for name, method in {"lshift": lambda self, k: multiply(self, 1 << k), "rshift": shift_right, "eq": operator(is_equal),
                     "ne": lambda self, other: not self == other, "hash": object.__hash__, "lt": operator(is_below),
                     "gt": turned(is_below), "le": lambda self, other: not self > other,
                     "ge": lambda self, other: not self < other, "bool": no_number, "index": no_number}.items():
    setattr(Node, f"__{name}__", method)
