"""Recognises products of two 64-bit words computed from the products of their halves, as on machines without wide
multiplication.

For halves a0, a1, b0, b1 below 2 ^ 32, a = a0 + 2^32 a1 and b = b0 + 2^32 b1:

    t = a1 b0 + a0 b0 / 2^32,  u = a0 b1 + t mod 2^32
    product_by_halves     a b / 2^64 = a1 b1 + t / 2^32 + u / 2^32
                          a b mod 2^64 = 2^32 (u mod 2^32) + a0 b0 mod 2^32

crates/symbolic_rules proves both. The canonical form of a product doesn't show its factors, so this module records the
operations that produced each value."""
from . import operations, rules
from .nodes import Node, Value, WrongRule, is_same, memo, most_of, use

WORD, HALF = 64, 32
givers = memo()  # number of a node -> the 64-bit operations that produced it: (name, a, b)


def noted(name: str, a: Value, b: Value, answer: Value) -> Value:
    """Records a 64-bit operation, add, mul, and, or, shl or lshr, and returns its result. After the last step of such a
    product, the result is a term with that product."""
    if not isinstance(answer, Node):
        return answer
    known = givers.setdefault(answer.number, [])
    if not any(word == name and is_same(a, c) and is_same(b, d) for word, c, d in known):
        known.append((name, a, b))
    if name == "add":
        return with_upper_word(answer, a, b)
    return with_lower_word(answer, a, b) if name == "or" else answer


def pairs(x, name):
    """Yields the pairs of arguments, in both orders, of an operation that produced x."""
    for word, a, b in givers.get(x.number, ()) if isinstance(x, Node) else ():
        if word == name:
            yield from ((a, b), (b, a))


def argument(x, name, number):
    """Returns the value from which an operation with a number produced x, or None."""
    return next((a for a, b in pairs(x, name) if b.__class__ is int and b == number), None)


def steps_to(u):
    """Yields (a0, a1, b0, b1, t, a0 b0) if u is that sum."""
    for second, of_t in pairs(u, "add"):
        t = argument(of_t, "and", rules.ones(HALF))
        for first, of_lowest in pairs(t, "add"):
            lowest = argument(of_lowest, "lshr", HALF)
            for a0, b0 in pairs(lowest, "mul"):
                a1 = next((a for a, b in pairs(first, "mul") if is_same(b, b0)), None)
                b1 = next((b for a, b in pairs(second, "mul") if is_same(a, a0)), None)
                halves = a0, a1, b0, b1
                if a1 is not None and b1 is not None and all(most_of(x) <= rules.ones(HALF) for x in halves):
                    yield *halves, t, lowest


def joined(low, high):
    return operations.side_by_side((low, HALF), (high, HALF))


def same(answer, other):
    """Returns the new term. Checks that it has the same values as the other one."""
    use("product_by_halves")
    if isinstance(answer, Node) and answer.values != other.values:
        raise WrongRule("a product by halves")
    return answer


def with_upper_word(out, x, y):
    """Returns the sum with u / 2^32, which is x or y, replaced by the product's upper word minus t / 2^32 and a1 b1.
    These two may be added elsewhere."""
    for shifted in (x, y):
        for a0, a1, b0, b1, t, _ in steps_to(argument(shifted, "lshr", HALF)):
            upper = operations.bits(operations.multiply(joined(a0, a1), joined(b0, b1)), WORD, WORD)
            highest, carried = operations.multiply_at(WORD, a1, b1), operations.shift_right(t, HALF)
            return same(operations.add_at(WORD, (1, out), (1, upper), (-1, highest), (-1, carried), (-1, shifted)), out)
    return out


def with_lower_word(out, x, y):
    """Returns the product modulo 2^64, if x and y are a0 b0 mod 2^32 and 2^32 u."""
    for low, high in ((x, y), (y, x)):
        for a0, a1, b0, b1, _, lowest in steps_to(argument(high, "shl", HALF)):
            if is_same(operations.bits(lowest, 0, HALF), low):
                return same(operations.multiply_at(WORD, joined(a0, a1), joined(b0, b1)), out)
    return out
