"""Operations and comparisons of words: numbers, polynomials or terms."""
import contextlib
import fractions

from . import operations
from .nodes import SUM, Node, Value
from .polynomials import Poly, divided, is_less, is_number, lifted, minus, plus, times, wrapped
from .refusals import Undecided
from .rules import ones


def operator(on_numbers, on_terms, on_polynomials=None):
    """Returns an operation modulo 2 ^ width. If the result on polynomials is undecided, it becomes a term."""
    def operation(width, a, b):
        if isinstance(a, int) and isinstance(b, int):
            return on_numbers(width, a, b) % (1 << width)
        if on_polynomials and is_number(a) and is_number(b):
            with contextlib.suppress(Undecided):
                return on_polynomials(width, a, b)
        return on_terms(width, lifted(a), lifted(b))
    return operation


def amount(k: object) -> int:
    if not isinstance(k, int):
        raise Undecided("the amount of a shift")
    return k


def no_terms(width, a, b):
    raise Undecided(f"a quotient or remainder of {a} and {b}")


def xor(width, a, b):
    for x, other in ((a, b), (b, a)):
        if other.__class__ is int and other == ones(width) and isinstance(x, Node) and x.op is SUM:
            return operations.complement(width, x)
    return operations.xor(a, b)


def low_bits(width: int, a: int | Poly, b: int | Poly) -> Value:
    """Returns the bitwise and, if one operand is 2 ^ k - 1."""
    if isinstance(a, int):
        a, b = b, a
    if not isinstance(b, int) or b & b + 1:
        raise Undecided("a mask")
    return divided(a, b + 1)[1]


BINARY = {
    "add": operator(lambda w, a, b: a + b, lambda w, a, b: operations.add_at(w, (1, a), (1, b)),
                    lambda w, a, b: wrapped(plus(a, b), w)),
    "sub": operator(lambda w, a, b: a - b, lambda w, a, b: operations.add_at(w, (1, a), (-1, b)),
                    lambda w, a, b: wrapped(minus(a, b), w)),
    "mul": operator(lambda w, a, b: a * b, operations.multiply_at, lambda w, a, b: wrapped(times(a, b), w)),
    "xor": operator(lambda w, a, b: a ^ b, xor),
    "or": operator(lambda w, a, b: a | b, lambda w, a, b: operations.either(a, b)),
    "and": operator(lambda w, a, b: a & b, lambda w, a, b: operations.both(a, b), low_bits),
    "shl": operator(lambda w, a, b: a << b, lambda w, a, b: operations.multiply_at(w, a, 1 << amount(b)),
                    lambda w, a, b: wrapped(times(a, 1 << amount(b)), w)),
    "lshr": operator(lambda w, a, b: a >> b, lambda w, a, b: operations.shift_right(a, amount(b)),
                     lambda w, a, b: divided(a, 1 << amount(b))[0]),
    "udiv": operator(lambda w, a, b: a // b, no_terms, lambda w, a, b: divided(a, b)[0]),
    "urem": operator(lambda w, a, b: a % b, no_terms, lambda w, a, b: divided(a, b)[1]),
    "sdiv": operator(lambda w, a, b: int(fractions.Fraction(signed(a, w), signed(b, w))), no_terms),
}


# ---- comparisons

TESTS = {"eq": lambda a, b: a == b, "ne": lambda a, b: a != b, "lt": is_less, "gt": lambda a, b: is_less(b, a),
         "le": lambda a, b: not is_less(b, a), "ge": lambda a, b: not is_less(a, b)}


def signed(n: int, width: int = 64) -> int:
    n %= 1 << width
    return n - (1 << width) if n >> width - 1 else n
