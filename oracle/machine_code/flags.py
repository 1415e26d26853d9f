"""The flags that branches use. The operands are kept, and a condition is computed when it is needed.

    sub      of a and b, as `cmp` and `sub`           borrow   of a, b and a carry, as `sbb`: b is their sum
    add      of a and b                               logic    of a result, with no carry
    shift    of a result; the carry isn't modelled    step     of a result; the previous carry remains"""
import collections
import operator

from oracle.symbolic_terms import (OPAQUE, TESTS, Node, Poly, Undecided, Unsupported, Value, is_natural, is_number,
                                   is_same_number, lifted, minus, operations, plus)

from .memory import ENTRY, lie_apart
from .values import Address, Cpu, Either, quotients

Flags = collections.namedtuple("Flags", "op width a b result")
FAR = 1 << 62                     # no object reaches this address
SIGNED = {"l": operator.lt, "ge": operator.ge, "g": operator.gt, "le": operator.le}


def condition(cpu: Cpu, name: str) -> bool:
    """Returns the value of a condition, given as the suffix of a mnemonic."""
    if name in ("b", "ae"):
        return carry(cpu) == (name == "b")
    if name in ("e", "ne"):
        return is_zero(cpu) == (name == "e")
    if name in SIGNED:
        return SIGNED[name](*signed_operands(cpu))
    if name not in ("a", "be"):
        raise Unsupported(f"the condition {name}")
    now = cpu.flags
    if now and now.op == "sub" and now is cpu.carry and is_number(now.a) and is_number(now.b):
        return TESTS["le"](now.a, now.b) == (name == "be")
    return (carry(cpu) or is_zero(cpu)) == (name == "be")


def signed_operands(cpu):
    """Returns the operands of the last comparison, as signed numbers."""
    now = cpu.flags
    if not now or now.op not in ("sub", "logic"):
        raise Unsupported("a signed comparison of another result")
    both = (now.a, now.b) if now.op == "sub" else (now.result, 0)
    if not all(isinstance(x, int) for x in both):
        raise Undecided("a signed comparison of symbols")
    limit = 1 << now.width
    return [x % limit - limit * (x % limit >= limit // 2) for x in both]


def carry(cpu: Cpu) -> bool:
    """True if there was a carry or a borrow. Decided only for numbers."""
    now = cpu.carry
    if now is None or now.op == "shift":
        raise Unsupported("a carry that isn't set")
    if now.op == "logic":
        return False
    if now.op == "add":
        if not (is_number(now.a) and is_number(now.b)):
            raise Undecided("the carry of a sum of symbols")
        return TESTS["ge"](plus(now.a, now.b), 1 << now.width)
    return is_below(cpu, now.a, now.b)


def is_zero(cpu):
    now = cpu.flags
    if now is None:
        raise Unsupported("flags that aren't set")
    if now.op == "sub":
        return is_equal(cpu, now.a, now.b)
    return is_equal(cpu, now.result, 0)


def is_equal(cpu: Cpu, a: Value, b: Value) -> bool:
    if isinstance(a, Either) and is_same_number(b, 0):
        return a.is_zero()
    if isinstance(a, Address) or isinstance(b, Address):
        return not (isinstance(a, Address) and is_number(b) and is_far(cpu, a, plus(b, 1))) and are_one_place(a, b)
    if is_number(a) and is_number(b):
        return TESTS["eq"](a, b)
    a, b = lifted(a), lifted(b)
    if a is b:
        return True
    if isinstance(b, int) and not b and is_not_zero(cpu, a):
        return False
    raise Undecided(f"{a} == {b}")


def is_not_zero(cpu, x):
    """True if a term is assumed to be nonzero, or is an `or` with such a term."""
    if any(x is other for other in cpu.not_zero):
        return True
    is_either = isinstance(x, Node) and x.op is OPAQUE and x.parts[0] == "or"
    return is_either and any(is_not_zero(cpu, part) for part in x.parts[1:])


def is_below(cpu: Cpu, a: Value, b: Value) -> bool:
    """True if a < b, as unsigned numbers."""
    if isinstance(a, Address) or isinstance(b, Address):
        return is_below_as_places(cpu, a, b)
    if is_number(a) and is_number(b):
        return TESTS["lt"](a, b)
    if isinstance(a, Node) and a.number in quotients and isinstance(b, int):
        x, k = quotients[a.number]
        return TESTS["lt"](x, b << k)
    if isinstance(b, Node) and b.number in quotients and isinstance(a, int):
        x, k = quotients[b.number]
        return not TESTS["lt"](x, a + 1 << k)
    return operations.is_below(lifted(a), lifted(b))


# ---- addresses

def is_within(x):
    """True if an address is within its object, or at its end."""
    memory, at = x.place()
    return is_natural(at) and is_natural(minus(memory.length, at))


def are_one_place(a: Value, b: Value) -> bool:
    if is_same_number(b, 0) and is_within(a):      # no object begins at 0
        return False
    if isinstance(a, Address) and isinstance(b, Address) and a.bases == b.bases:
        is_known = isinstance(minus(a.offset, b.offset), int) or is_near(a.offset) and is_near(b.offset)
        if is_known or len(a.bases) == 1 and is_within(a) and is_within(b):
            return TESTS["eq"](a.offset, b.offset)
    raise Undecided(f"{a} == {b}")


def is_near(offset: int | Poly) -> bool:
    """True if an offset is small: two such offsets are equal exactly if the addresses modulo 2 ^ 64 are."""
    return is_natural(minus(FAR, offset)) and is_natural(plus(offset, FAR))


def is_below_as_places(cpu, a, b):
    """Compares two addresses in one object, or the distance between two objects with a number."""
    if isinstance(a, Address) and isinstance(b, Address) and a.bases == b.bases and is_within(a) and is_within(b):
        return TESTS["lt"](a.offset, b.offset)
    if isinstance(a, Address) and is_number(b) and is_far(cpu, a, b):
        return False
    raise Undecided(f"{a} < {b}")


def is_far(cpu: Cpu, distance: Address, n: int | Poly) -> bool:
    """True if the distance of two addresses modulo 2 ^ 64 is n or more because their objects are disjoint. For objects
    at P with p bytes and Q with q, P - Q >= q or Q - P >= p, and both are below 2 ^ 62. Read-only ones may overlap."""
    if sorted(count for _, count in distance.bases) != [-1, 1]:
        return False
    (first, _), (second, _) = sorted(distance.bases, key=lambda base: -base[1])
    if not lie_apart(first, second):
        return False
    p, q = (ENTRY if memory is cpu.stack else memory.length for memory in (first, second))
    at = distance.offset
    ahead, behind = minus(plus(at, q), n), minus(minus(p, at), 1)
    return all(map(is_natural, [ahead, behind, minus(at, -FAR), minus(FAR, at), minus(FAR, n)]))
