"""Splits a case with any number of whole blocks in two: none, and some.

Loops over stripes that end at an address test after the first stripe if there is another one. So they take another path
if there is no whole block."""
import functools
import itertools
from typing import Any, Iterable, Iterator

from oracle.symbolic_terms import Poly, minus, names_of, parts_of, plus, times, variable
from oracle.symbolic_terms.polynomials import is_sum_of_facts

BLOCKS = "D"  # the variable for the number of blocks
TRIED = 2  # number of facts combined to refute another one
FOURTHS = {"a": range(3), "e": range(1, 4)}  # of a block: where such cases begin and end


def in_few(case: tuple) -> Iterator[tuple]:
    """Splits a case of blocks of 16 stripes by the fourths in which it begins and ends."""
    names = sorted(FOURTHS.keys() & names_in(case)) if "a" in names_in(case) else []
    for values in itertools.product(*(FOURTHS[name] for name in names)):
        out = case
        for name, value in zip(names, values):
            out = in_numbers(out, name, value)
        yield out


def names_in(x: Any) -> set[str]:
    if isinstance(x, Poly):
        return names_of(x)
    return set().union(*map(names_in, x)) if isinstance(x, (list, tuple)) else set()


def may_hold(facts: Iterable[int | Poly]) -> bool:
    """True if no fact is refuted by the others."""
    known = list(map(parts_of, facts))
    return not any(is_sum_of_facts(parts_of(minus(-1, fact)), known, TRIED) for fact in facts)


# ---- substitution


def in_numbers(x: Any, name: str, value: int) -> Any:
    """Replaces a variable by a number in all polynomials of a structure."""
    if isinstance(x, Poly):
        return with_value(x, name, value)
    if isinstance(x, functools.partial):
        return functools.partial(x.func, *in_numbers(x.args, name, value))
    if isinstance(x, (list, tuple)):
        parts = [in_numbers(part, name, value) for part in x]
        return type(x)(*parts) if hasattr(x, "_fields") else type(x)(parts)
    return x


def with_value(x: int | Poly, name: str, value: int | Poly) -> int | Poly:
    """Replaces a variable in a polynomial by another polynomial."""
    out = 0
    for names, c in parts_of(x).items():
        for one in names:
            c = times(c, value if one == name else variable(one))
        out = plus(out, c)
    return out
