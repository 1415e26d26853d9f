"""The definition's side: antt.py parses the unchanged files in specs/ and evaluates them symbolically.

Extends antt.py with subtraction of symbolic numbers, messages as lists and, for induction, assumed values of calls."""
import functools
from typing import Callable

from oracle import antt, specs

from . import operations
from .nodes import Value, WrongRule, is_same, memo
from .refusals import Undecided
from .polynomials import Poly, is_number, is_natural, minus, monus, plus, smaller

ENTRIES = specs.ENTRIES + ["word64", "Xxh32.accumulator", "Xxh64.accumulator", "Long.accumulator_after"]
RECURSIONS = "after_units", "accumulator_after"
FARTHEST = 64            # calls in a recursion without a hypothesis


class Bytes:
    """Bytes first .. end - 1 of an input, which the evaluator treats as a list of numbers below 256."""

    def __init__(self, source, first, end):
        self.source, self.first, self.end = source, first, end

    def length(self):
        return minus(self.end, self.first)

    __len__ = length

    def __iter__(self):
        return (self[k] for k in range(self.length()))

    def __getitem__(self, at):
        if not isinstance(at, slice):
            if isinstance(at, int) and isinstance(self.length(), int) and not 0 <= at < self.length():
                raise IndexError(at)
            return self.source.load(self.place(at), 1)
        first = self.first if at.start is None else smaller(self.place(at.start), self.end)
        end = self.end if at.stop is None else smaller(self.place(at.stop), self.end)
        return Bytes(self.source, first, end if is_natural(minus(end, first)) else first)

    def place(self, at):
        if not is_number(at):
            raise Undecided("a place that depends on a byte or the seed")
        return plus(self.first, at)


def length(xs: Bytes | tuple | memoryview) -> Value:
    return xs.length() if isinstance(xs, Bytes) else len(xs)


part_terms = memo()           # (symbol, first byte, bytes) -> word
compared = set()         # (bits, bytes) of words already compared with antt.py's result from single bytes


def from_le_bytes(bits: int, xs: Bytes | tuple | memoryview) -> Value:
    """Returns a word of bytes. For an input, it consists of bits of the input's symbol."""
    if not isinstance(xs, Bytes):
        return word_of_bytes(bits, xs)
    n = min(xs.length(), bits // 8)
    whole, first = xs.source.window(xs.first, n)
    key = whole.number, first, n
    if key not in part_terms:
        part_terms[key] = operations.bits(whole, 8 * first, 8 * n)
    if (bits, n) not in compared:
        compared.add((bits, n))
        if not is_same(part_terms[key], word_of_bytes(bits, Bytes(xs.source, xs.first, plus(xs.first, n)))):
            raise WrongRule(f"a word of {n} bytes")
    return part_terms[key]


def subtract(a: Value, b: Value) -> Value:
    if is_number(a) and is_number(b):
        return natural_minus(a, b) if isinstance(a, int) and isinstance(b, int) else monus(a, b)
    return operations.monus(operations.lifted(a), operations.lifted(b))


def least(a: Value, b: Value) -> Value:
    return smaller(a, b) if isinstance(a, Poly) or isinstance(b, Poly) else min(a, b)


word_of_bytes, natural_minus = antt.LIBRARY["from_le_bytes"][1], antt.OPERATORS["-"]
antt.OPERATORS["-"] = subtract
antt.LIBRARY.update({
    "from_le_bytes": (2, from_le_bytes), "length": (1, length), "min": (2, least),
    "slice_index": (2, lambda xs, i: xs[i] if i < length(xs) else 0),
})


# ---- assumed values of calls in a recursion

class Suppositions:
    """Calls with a polynomial argument, and the values assumed for them."""

    def __init__(self):
        self.values, self.next, self.alive, self.depth = {}, [], [], 0

    def clear(self):
        self.values.clear()
        self.next.clear()
        self.alive.clear()

    def suppose(self, call, values):
        """Assumes the values of call(0), call(1), ..: each must reach exactly one call of a recursion."""
        for i, value in enumerate(values):
            self.next.append(value)
            if call(i) is not value or self.next:
                raise Undecided("the hypothesis isn't of the recursion")

    def around(self, function, definition):
        """Returns a recursion's function with the assumed values."""
        def call(*arguments):
            if any(isinstance(x, Poly) for x in arguments):
                key = str(definition), tuple(self.identity(x) for x in arguments)
                if self.next:
                    self.values[key] = self.next.pop()
                if key in self.values:
                    return self.values[key]
                return self.unfolded(function, arguments)
            return function(*arguments)
        return call

    def unfolded(self, function, arguments):
        """Calls a function without a hypothesis. Raises after FARTHEST nested calls: none has a hypothesis."""
        if self.depth == FARTHEST:
            raise Undecided("a recursion that comes to no hypothesis")
        self.depth += 1
        try:
            return function(*arguments)
        finally:
            self.depth -= 1

    def identity(self, x):
        """Returns a key that is equal only for the same object or number, or a function of the same code and values."""
        if isinstance(x, (int, str)):
            return x
        if isinstance(x, Poly):
            return "polynomial", x.key()
        self.alive.append(x)   # keeps the object alive so that its id stays unique
        if isinstance(x, antt.Function):
            code = getattr(x.body, "__code__", None)
            cells = [cell.cell_contents for cell in getattr(x.body, "__closure__", None) or ()]
            return "function", code or id(x.body), tuple(map(self.identity, [*cells, *x.given]))
        return "object", id(x)


suppositions = Suppositions()
plain_noted = antt.noted


def noted(function: Callable, definition: antt.Definition, traced: "set | Suppositions | None") -> Callable:
    """Overrides antt.py's hook that wraps each function: `traced` is a set of definitions, or these assumptions."""
    if traced is not suppositions:
        return plain_noted(function, definition, traced)
    return suppositions.around(function, definition) if definition.name in RECURSIONS else function


antt.noted = noted


# ---- the definitions

class Named(antt.Definitions):
    """Finds a definition by its name, optionally with its module's name before it."""

    def entry(self, name):
        module, dot, own = name.rpartition(".")
        if not dot:
            return super().entry(name)
        path, = (path for path in self.modules if path.endswith("." + module))
        return self.modules[path].definitions[own]


def read(crates: tuple[str, ...] = (), entries: tuple[str, ...] = ()) -> antt.Program:
    """Returns the definitions, with those of further crates. Callers that change the text need their own copy."""
    return antt.Program(Named(specs.TOP, [*specs.CRATES, *crates]), [*ENTRIES, *entries])


program = functools.cache(read)      # the same, read once


def value(entries: dict, hash_name: str, variant: str, seed: Value, secret: Value, message: Value) -> Value:
    """Returns the definition's value, by the rule of table.Case.ask: `variant` is seed, default, secret or both."""
    entry = entries[specs.HASHES[hash_name]]
    if hash_name in ("32", "64"):
        return entry(seed, message)
    if variant == "secret":
        return entry(0, secret, message)
    own = secret if variant == "both" else entries["derived_secret"](seed)
    return entry(seed, entries["effective_secret"](own, message), message)
