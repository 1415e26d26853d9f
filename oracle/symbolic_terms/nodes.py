"""Terms: symbolic numbers in a canonical form, so that equal terms are one object.

A value is a Python int or a Node. Each node has a width, and its value is below 2 ^ width:

    SYMBOL   a message or a secret as one number (byte i is its bits 8i .. 8i + 7), a seed, an accumulator
    BITS     segments side by side, the lowest first: a segment is (length, constant, atoms), the xor of the constant
             and of `length` bits of each atom; an atom is (number of a node that isn't BITS, its first bit)
    SUM      (constant + sum of coefficient * node) mod 2 ^ width, each node of one segment
    PRODUCT  the product of two or more nodes mod 2 ^ width
    OPAQUE   any other operation on naturals, by its name and arguments; correct sources never produce one

Each node has its values at POINTS points, computed only from its own structure. Each operation compares its result at
these points with the operation on its arguments (operations.py), so each use of each rule is tested there."""
import random
from typing import Any

SYMBOL, BITS, SUM, PRODUCT, OPAQUE = "symbol", "bits", "sum", "product", "opaque"
POINTS = 2
WORD = 64   # a wider symbol's values are bytes


class WrongRule(Exception):
    """Raised if a rule returns a term of another value: a fault of this program."""


class Node:
    __slots__ = "number", "op", "width", "most", "parts", "constant", "is_exact", "values", "segments"

    def __init__(self, op, parts, width, most, constant, is_exact):
        self.number, self.op, self.width, self.most, self.parts = len(NODES), op, width, most, parts
        self.constant, self.is_exact = constant, is_exact
        self.segments = parts if op is BITS else ((width, 0, ((self.number, 0),)),)
        NODES.append(self)
        if op is SYMBOL:
            self.values = values_of_symbol(parts[0], width)
        else:
            self.values = tuple(meaning(self, lambda x, k=k: x if isinstance(x, int) else x.values[k])
                                for k in range(POINTS))

    def __repr__(self):
        return f"<{self.op}{self.width} #{self.number}>"


Value = Any                # an int, a Node, a Poly or another word of a processor; mypy would join them to `object`
NODES, BY_KEY = [], {}
MEMOS = [BY_KEY]           # dictionaries to clear together with the table
USED = {}                  # name of a rule -> number of its uses
symbol_values = {}         # name of a symbol -> its values
EXTREME = bytes([0] * 90 + [255] * 90 + [1] * 20 + [128] * 20 + list(range(220, 256)))
rng = random.Random(20240229)


def memo() -> dict:
    """Returns a dictionary that is cleared together with the table."""
    MEMOS.append({})
    return MEMOS[-1]


def use(rule: str) -> None:
    USED[rule] = USED.get(rule, 0) + 1


def forget() -> None:
    """Forgets all nodes."""
    del NODES[:]
    for known in [*MEMOS, symbol_values]:
        known.clear()


def node(op: str, parts: tuple, width: int, most: int, constant: int = 0, is_exact: bool = False) -> Node:
    """Returns the node of a structure, made only once. `most` is an upper bound of its value."""
    if op is BITS:
        key: tuple = op, parts
    elif op is SUM:
        key = op, width, constant, tuple((c, x.number) for c, x in parts)
    elif op is PRODUCT:
        key = op, width, tuple(x.number for x in parts)
    else:
        key = op, tuple(x if isinstance(x, (int, str)) else ("node", x.number) for x in parts)
    known = BY_KEY.get(key)
    if known is None:
        known = BY_KEY[key] = Node(op, parts, width, most, constant, is_exact)
    return known


def symbol(name: str, width: int) -> Value:
    found = BY_KEY.get((SYMBOL, (name,)))
    if found is None:
        return node(SYMBOL, (name,), width, (1 << width) - 1)
    if found.width != width:
        raise WrongRule(f"{name} of {width} bits, and of {found.width}")
    return found


def values_of_symbol(name: str, width: int) -> tuple:
    """Returns random values. In the second one most bytes are 0 or 255, so that sums have long carries."""
    if name not in symbol_values:
        size = (width + 7) // 8
        values: list = [rng.randbytes(size) for _ in range(POINTS)]
        values[1] = values[1].translate(EXTREME)
        numbers = [int.from_bytes(value, "little") % (1 << width) for value in values] if width <= WORD else values
        symbol_values[name] = tuple(numbers)
    return symbol_values[name]


def window(value: int | bytes, first: int, length: int) -> int:
    """Returns bits first .. first + length - 1 of a number, or of bytes."""
    if isinstance(value, bytes):
        value, first = int.from_bytes(value[first >> 3:first + length + 7 >> 3], "little"), first & 7
    return value >> first & (1 << length) - 1


# Semantics of the operations that have no canonical form.
NATURALS = {"mod": lambda a, b: a % b if b else a, "div": lambda a, b: a // b if b else 0, "and": lambda a, b: a & b,
            "or": lambda a, b: a | b, "monus": lambda a, b: a - b if a > b else 0}


def meaning(x, value):
    """Returns the value of a node, from the values of its parts."""
    if x.op is BITS:
        out = at = 0
        for length, part, atoms in x.parts:
            for atom, first in atoms:
                part ^= window(value(NODES[atom]), first, length)
            out |= part << at
            at += length
        return out
    if x.op is SUM:
        return (x.constant + sum(c * value(y) for c, y in x.parts)) % (1 << x.width)
    if x.op is PRODUCT:
        out = 1
        for y in x.parts:
            out *= value(y)
        return out % (1 << x.width)
    return NATURALS[x.parts[0]](*(value(y) for y in x.parts[1:]))


def children(x: Node) -> list[Node]:
    """Returns the nodes inside a node."""
    if x.op is BITS:
        return [NODES[atom] for _, _, atoms in x.parts for atom, _ in atoms]
    if x.op is SUM:
        return [y for _, y in x.parts]
    return [y for y in x.parts if isinstance(y, Node)]


def values_at(roots: list[int | Node], symbols: dict[str, Any]) -> list[int]:
    """Evaluates terms at given values of the symbols."""
    known = {}

    def value(x):
        return x if isinstance(x, int) else known[x.number]
    waiting = [x for x in roots if isinstance(x, Node)]
    while waiting:
        x = waiting[-1]
        below = [] if x.number in known or x.op is SYMBOL else [y for y in children(x) if y.number not in known]
        if below:
            waiting += below
            continue
        waiting.pop()
        if x.number not in known:
            known[x.number] = symbols[x.parts[0]] if x.op is SYMBOL else meaning(x, value)
    return [value(x) for x in roots]


def most_of(x: int | Node) -> int:
    return x if isinstance(x, int) else x.most


def is_same(a: object, b: object) -> bool:
    """True if two values are the same term or number."""
    return a is b or isinstance(a, int) and isinstance(b, int) and a == b
