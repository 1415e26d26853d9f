"""Naturals that depend on a length: polynomials over natural variables, under facts. A fact is a polynomial that isn't
negative. A comparison is decided if the facts decide it for all values, and is Undecided otherwise.

`is_natural(x)` tries to write x as a sum of monomials and of facts times monomials, after shifting each variable to
begin at 0. Each positive result is also tested at some points that satisfy the facts."""
import contextlib
import random
from typing import Iterator, Sequence, TypeGuard

from . import nodes, rules
from .nodes import Value, symbol
from .refusals import Undecided

WORD = 64
DEPTH = 4                     # maximum number of subtracted facts
TRIED, ENOUGH = 60, 8           # points drawn, and points kept
NEAR, STAYS = 100, 0.7        # points drawn near known ones, and the probability that a variable keeps its value
SEARCHED, IN_TURN = 400, 20   # points drawn until one is found, and how many of these use the same choices
MOVES = 40                    # steps to move a point to where the facts hold
CHOICES = (0, 1, 2, 3, 5, 62, 200), (0, 1, 7, 15, 480, 1 << 20, 1 << 32)
SETS = 4000                   # sets of facts whose decisions are kept

facts, least = [], {}         # polynomials >= 0; variable -> its least value


class Decided:
    """Known results under a set of facts: points that satisfy them, the facts in variables that begin at 0, and
    polynomials with whether they are never negative."""

    def __init__(self, points=()):
        self.points, self.zero_based, self.answers = points, None, {}


under = Decided()             # under the current facts; and under each earlier set
decided = {}


class Poly:
    """The sum of coefficient * product of variables. A polynomial without variables is an int instead."""
    __slots__ = "parts", "known_key"

    def __init__(self, parts):
        self.parts, self.known_key = parts, None

    def key(self):
        if self.known_key is None:
            self.known_key = frozenset(self.parts.items())
        return self.known_key

    def __hash__(self): return hash(self.key())

    def __repr__(self):
        order = sorted(self.parts.items(), key=lambda part: (-len(part[0]), part[0]))
        return " + ".join("*".join([str(c)] * (c != 1 or not names) + list(names)) for names, c in order)

    def __add__(self, other): return plus(self, other) if is_number(other) else NotImplemented
    __radd__ = __add__
    def __sub__(self, other): return monus(self, other) if is_number(other) else NotImplemented
    def __rsub__(self, other): return monus(other, self) if is_number(other) else NotImplemented
    def __mul__(self, other): return times(self, other) if is_number(other) else NotImplemented
    __rmul__ = __mul__
    def __lshift__(self, k): return times(self, 1 << k)
    def __rshift__(self, k): return divided(self, 1 << k)[0]
    def __floordiv__(self, other): return divided(self, other)[0]
    def __rfloordiv__(self, other): return divided(other, self)[0]
    def __mod__(self, other): return remainder(self, other)
    def __rmod__(self, other): return remainder(other, self)

    def __eq__(self, other):
        if is_same_number(self, other):
            return True
        if is_below(self, other) or is_below(other, self):
            return False
        raise Undecided(f"{self} == {other}")

    def __ne__(self, other): return not self == other
    def __lt__(self, other): return is_less(self, other)
    def __gt__(self, other): return is_less(other, self)
    def __le__(self, other): return not is_less(other, self)
    def __ge__(self, other): return not is_less(self, other)
    def __bool__(self): return not self == 0
    def __index__(self): raise Undecided(f"{self} as an index")


def variable(name: str) -> Value:
    return Poly({(name,): 1})


def is_number(x: object) -> TypeGuard[int | Poly]:
    return isinstance(x, (int, Poly))


def parts_of(x: int | Poly) -> dict[tuple[str, ...], int]:
    return x.parts if isinstance(x, Poly) else {(): x} if x else {}


def polynomial(parts: dict[tuple[str, ...], int]) -> Value:
    parts = {names: c for names, c in parts.items() if c}
    return Poly(parts) if any(parts) else parts.get((), 0)


def plus(*terms: int | Poly) -> Value:
    if len(terms) == 2:
        a, b = terms
        if a.__class__ is int:
            return a + b if b.__class__ is int else with_constant(b, a)
        if b.__class__ is int:
            return with_constant(a, b)
    out = {}
    for x in terms:
        for names, c in parts_of(x).items():
            out[names] = out.get(names, 0) + c
    return polynomial(out)


def with_constant(x, c):
    """Returns a polynomial plus a number."""
    parts = dict(parts_of(x))
    c += parts.pop((), 0)
    if c:
        parts[()] = c
    return Poly(parts)


def minus(a: int | Poly, b: int | Poly) -> Value:
    """Returns a - b, which may be negative."""
    if isinstance(b, int):
        return plus(a, -b)
    out = dict(parts_of(a))
    for names, c in b.parts.items():
        out[names] = out.get(names, 0) - c
    return polynomial(out)


def times(a: int | Poly, b: int | Poly) -> Value:
    if isinstance(a, int) and isinstance(b, int):
        return a * b
    out = {}
    for names, c in parts_of(a).items():
        for others, d in parts_of(b).items():
            key = tuple(sorted(names + others))
            out[key] = out.get(key, 0) + c * d
    return polynomial(out)


def constant_of(x: int | Poly) -> int:
    return parts_of(x).get((), 0)


def is_same_number(a: object, b: object) -> bool:
    return is_number(a) and is_number(b) and parts_of(a) == parts_of(b)


# ---- facts

@contextlib.contextmanager
def given(*more: int | Poly) -> Iterator[None]:
    """Context manager that adds facts. A fact `v - c` makes the variable v begin at c."""
    global under
    size, bounds, around = len(facts), dict(least), under
    try:
        for fact in more:
            suppose(fact)
        under = decided_under(around)
        yield
    finally:
        del facts[size:]
        least.clear()
        least.update(bounds)
        under = around


def suppose(fact):
    parts = parts_of(fact)
    name = next(iter(names_of(fact)), None)
    if parts == {(name,): 1, (): parts.get((), 0)} and parts[()] < 0:
        least[name] = max(least.get(name, 0), -parts[()])
    elif isinstance(fact, Poly):
        facts.append(fact)
    elif fact < 0:
        raise Undecided("facts that can't be")


def at_most(x: int | Poly, bound: int | Poly) -> Value:
    """Returns the fact x <= bound."""
    return minus(bound, x)


def value_at(x: int | Poly, point: dict[str, int]) -> int:
    out = 0
    for names, c in parts_of(x).items():
        for name in names:
            c *= point[name]
        out += c
    return out


def names_of(*polynomials: int | Poly) -> set[str]:
    return {name for x in polynomials for names in parts_of(x) for name in names}


def points_for(x: int | Poly) -> Iterator[dict[str, int]]:
    """Yields points that satisfy the facts, with values for the variables of x."""
    names = sorted(names_of(x) - names_of(*facts))
    for number, point in enumerate(under.points):
        yield {**point, **{name: least.get(name, 0) + CHOICES[0][(number + k) % len(CHOICES[0])] for k,
                           name in enumerate(names)}}


def decided_under(around):
    """Returns the known results under the current facts. Contradictory facts would imply anything, so there must be
    points that satisfy them. Points of the enclosing facts are tried first."""
    key = frozenset([*(fact.key() for fact in facts), *least.items()])
    if key not in decided:
        names, rng = sorted(names_of(*facts)), random.Random(1)
        found = random_points(names, rng, around.points, NEAR) or random_points(names, rng, (), SEARCHED)
        if not found:
            raise Undecided(f"facts that hold nowhere, as far as was seen: {facts} {least}")
        if len(decided) == SETS:
            decided.clear()
        decided[key] = Decided(found)
    return decided[key]


def random_points(names: list[str], rng: random.Random, around: Sequence[dict[str, int]], attempts: int) -> list[dict]:
    """Returns points that satisfy the facts, near to the points `around` if there are any."""
    found = []
    for attempt in range(attempts):
        choices = CHOICES[attempt // IN_TURN % len(CHOICES)]
        begun = around[attempt % len(around)] if around else {}
        fixed = {name for name in begun if attempt < TRIED or rng.random() < STAYS}
        point = {name: max(begun[name], least.get(name, 0)) if name in fixed else
                 least.get(name, 0) + (rng.choice(choices) if attempt else 0) for name in names}
        found += [point for point in [moved(point, rng)] if point is not None]
        if len(found) == ENOUGH or found and attempt > TRIED:
            break
    return found


def moved(point: dict[str, int], rng: random.Random) -> dict[str, int] | None:
    """Moves a point, one variable after another, until it satisfies the facts. Returns None if that fails."""
    for _ in range(MOVES):
        broken = [(fact, value) for fact in facts if (value := value_at(fact, point)) < 0]
        if not broken:
            return point
        fact, value = rng.choice(broken)
        name = rng.choice(sorted(names_of(fact)))
        slope = value_at(fact, {**point, name: point[name] + 1}) - value
        if slope:
            steps = -(value // abs(slope))
            point = {**point, name: max(least.get(name, 0), point[name] + (steps if slope > 0 else -steps))}
    return None


def from_zero(x: int | Poly) -> dict[tuple[str, ...], int]:
    """Returns x in variables that begin at 0, as its parts."""
    out = 0
    for names, c in parts_of(x).items():
        for name in names:
            c = times(c, plus(variable(name), least.get(name, 0)))
        out = plus(out, c)
    return parts_of(out)


def is_natural(x: int | Poly) -> bool:
    """True if x >= 0 for all values that the facts allow."""
    if isinstance(x, int):
        return x >= 0
    key = x.key()
    if key not in under.answers:
        if under.zero_based is None:
            under.zero_based = [from_zero(fact) for fact in facts]
        holds = all(value_at(x, point) >= 0 for point in points_for(x))
        depths = range(1, DEPTH + 1)
        under.answers[key] = holds and any(is_sum_of_facts(from_zero(x), under.zero_based, depth) for depth in depths)
    return under.answers[key]


def without(names: tuple[str, ...], product: tuple[str, ...]) -> tuple[str, ...] | None:
    """Returns the variables of a product without some of them, or None."""
    out = list(product)
    for name in names:
        if name not in out:
            return None
        out.remove(name)
    return tuple(out)


def is_sum_of_facts(x: dict[tuple[str, ...], int], zero_based: list[dict[tuple[str, ...], int]], depth: int) -> bool:
    """True if x is a sum of monomials and of facts times monomials: removes a negative part by a fact that has it."""
    negative = [names for names, c in x.items() if c < 0]
    if not negative:
        return True
    if not depth:
        return False
    part = max(negative, key=lambda names: (len(names), names))
    for fact in zero_based:
        for names, c in fact.items():
            rest = without(names, part) if c < 0 else None
            if rest is not None and is_sum_of_facts(taken_away(x, fact, part, -c, rest), zero_based, depth - 1):
                return True
    return False


def taken_away(x: dict, fact: dict, part: tuple[str, ...], scale: int, rest: tuple[str, ...]) -> dict:
    """Returns scale * x - |coefficient of part| * rest * fact, which doesn't contain `part`."""
    out = {names: scale * c for names, c in x.items()}
    for names, c in fact.items():
        key = tuple(sorted(names + rest))
        out[key] = out.get(key, 0) + x[part] * c
    return {names: c for names, c in out.items() if c}


def is_below(a: int | Poly, b: int | Poly) -> bool | None:
    """Returns a < b, or None if the facts don't decide it."""
    if is_natural(minus(minus(b, a), 1)):
        return True
    return False if is_natural(minus(a, b)) else None


def is_less(a: int | Poly, b: int | Poly) -> bool:
    answer = is_below(a, b)
    if answer is None:
        raise Undecided(f"{a} < {b}")
    return answer


def smaller(a: int | Poly, b: int | Poly) -> Value:
    return a if is_less(a, plus(b, 1)) else b


def monus(a: int | Poly, b: int | Poly) -> Value:
    return 0 if is_less(a, b) else minus(a, b)


def divided(a: int | Poly, b: int | Poly) -> tuple[Value, Value]:
    """Returns quotient and remainder: guessed, then proved."""
    if is_same_number(b, 0):
        raise Undecided(f"{a} / {b}")
    for q in quotients(a, b):
        r = minus(a, times(b, q))
        if is_natural(r) and is_natural(minus(minus(b, r), 1)):
            return q, r
    raise Undecided(f"{a} / {b}")


def quotients(a, b):
    """Yields guesses of a / b. Divides the parts of a by the part of b with the most variables: exactly divisible ones,
    then each to the nearest number, as j - 1 for 960 j / 1024, j from 1 to 15. Then one less and one more."""
    names, d = max(parts_of(b).items(), key=lambda part: len(part[0]))
    parts = [(rest, c) for product, c in parts_of(a).items() for rest in [without(names, product)] if rest is not None]
    for is_near in (False, True):
        guess = polynomial({rest: (2 * c + d) // (2 * d) if is_near and rest else c // d for rest, c in parts
                            if is_near or c % d == 0 or not rest})
        yield from (plus(guess, more) for more in (0, -1, 1))


def remainder(a: int | Poly, b: int | Poly) -> Value:
    with contextlib.suppress(Undecided):
        return divided(a, b)[1]
    if isinstance(b, int) and b and not b & b - 1 and b <= 1 << WORD:
        return as_word(a, b.bit_length() - 1)
    raise Undecided(f"{a} % {b}")


# ---- polynomials as words

def wrapped(x: int | Poly, width: int) -> Value:
    """Returns x modulo 2 ^ width as a polynomial."""
    for more in (0, 1 << width, -1 << width):
        y = plus(x, more)
        if is_natural(y) and is_natural(at_most(y, (1 << width) - 1)):
            return y
    raise Undecided(f"{x} may leave {width} bits")


def as_word(x: int | Poly, width: int) -> Value:
    """Returns x modulo 2 ^ width as a term. A product of variables is a symbol for the product modulo 2 ^ 64."""
    parts = [(c, symbol("*".join(names), WORD)) for names, c in parts_of(x).items() if names]
    return rules.sum_at(width, constant_of(x), parts)


def lifted(x: Value) -> Value:
    """Returns a polynomial, which must be below 2 ^ 64, as a term. Returns other values unchanged."""
    if not isinstance(x, Poly):
        return x
    if not (is_natural(x) and is_natural(at_most(x, (1 << WORD) - 1))):
        raise Undecided(f"{x} as a word")
    return as_word(x, WORD)


def agree(a: object, b: object) -> bool:
    """True if two values, or tuples of values, are the same."""
    if isinstance(a, tuple) and isinstance(b, tuple):
        return len(a) == len(b) and all(x is y or agree(x, y) for x, y in zip(a, b))
    return nodes.is_same(a, b) or is_same_number(a, b) or isinstance(a, str) and a == b
