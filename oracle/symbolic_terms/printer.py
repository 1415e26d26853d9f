"""Prints the term of a request step by step, as each side computes it."""
from . import definition, nodes, reference
from .machine import Module
from .nodes import BITS, NODES, PRODUCT, SUM, SYMBOL, Node
from .requests import Request

NAMES = {"m": "message", "s": "secret", "seed32": "seed", "seed64": "seed"}


def bits_shown(x, first, length, names):
    """Returns some bits of a node that isn't BITS, as text."""
    if x.op is SYMBOL:
        name = NAMES[x.parts[0]]
        if x.width <= 64:
            return name if (first, length) == (0, x.width) else f"{name}[bits {first} to {first + length - 1}]"
        if first % 8 == 0 and length % 8 == 0:
            low, high = first // 8, (first + length) // 8 - 1
            return f"{name}[{low}]" if low == high else f"{name}[{low}..{high}]"
        return f"{name}[bits {first} to {first + length - 1}]"
    whole = first == 0 and length == x.width
    return names[x.number] if whole else f"{names[x.number]}[bits {first} to {first + length - 1}]"


def segment_shown(segment, names):
    length, constant, atoms = segment
    parts = sorted(bits_shown(NODES[atom], first, length, names) for atom, first in atoms)
    return " xor ".join(parts + [f"{constant:#x}"] * (bool(constant) or not parts))


def shown(x, names):
    """Returns a node as text, with the names of its parts."""
    if x.op is BITS:
        if len(x.parts) == 1:
            return segment_shown(x.parts[0], names)
        places, at = [], 0
        for segment in x.parts:
            places.append(f"({segment_shown(segment, names)}) at bit {at}" if segment[2] or segment[1] else "")
            at += segment[0]
        return ", ".join(place for place in places if place)
    if x.op is SUM:
        parts = [f"{c:#x} * {named(y, names)}" if c != 1 else named(y, names) for c, y in x.parts]
        out = " + ".join(sorted(parts) + [f"{x.constant:#x}"] * bool(x.constant))
        return out if x.is_exact else f"({out}) mod 2^{x.width}"
    out = " * ".join(sorted(named(y, names) for y in x.parts))
    return out if x.is_exact else f"({out}) mod 2^{x.width}"


def named(x, names):
    if x.op is SYMBOL:
        return bits_shown(x, 0, x.width, names)
    return names.get(x.number) or "(" + shown(x, names) + ")"


def steps(value):
    """Returns the lines that show a value: each sum and product in it has a name."""
    lines, names = [], {}

    def visit(x):
        if x.number in names or x.op is SYMBOL:
            return
        for y in nodes.children(x):
            visit(y)
        if x.op in (SUM, PRODUCT):
            text = shown(x, names)
            names[x.number] = f"t{len(names) + 1}"
            lines.append(f"{names[x.number]} = {text}")

    if not isinstance(value, Node):
        return [f"value = {value:#x}"]
    visit(value)
    return [*lines, f"value = {names.get(value.number) or shown(value, names)}"]


def show(module: Module, hash_name: str, length: int) -> list[tuple[str, list[str]]]:
    """Returns the lines of both sides, each from an empty table, with a symbolic seed."""
    out = []
    request = Request(hash_name, "seed", length)
    for side, ask in (
        ("the definition", lambda: request.of_definition(definition.program().run())),
        ("the reference", lambda: reference.of_reference(request, module)),
    ):
        nodes.forget()
        out.append((f"{request}, by {side}", steps(ask())))
    return out
