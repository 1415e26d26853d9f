"""Comparisons of words that may have a sign, and rotations: of LLVM code, modules and 64-bit ARM."""
from . import operations
from .modular import TESTS, amount, signed
from .nodes import Value
from .operations import bits
from .polynomials import is_natural, minus
from .refusals import Undecided, Unsupported
from .rules import ones


def compare_numbers(test: str, width: int, a: Value, b: Value) -> bool:
    if test[0] == "s":
        a, b = (with_sign(x, width) for x in (a, b))
    return TESTS[test[-2:]](a, b)


def with_sign(x: Value, width: int) -> Value:
    if isinstance(x, int):
        return signed(x, width)
    if not is_natural(minus(ones(width - 1), x)):
        raise Undecided(f"the sign of {x}")
    return x


def rotated(width: int, a: Value, b: Value, k: Value) -> Value:
    if a is not b and a != b:
        raise Unsupported("a shift of two words")
    k = amount(k) % width
    return operations.either(operations.multiply_at(width, a, 1 << k), bits(a, width - k, k)) if k else a
