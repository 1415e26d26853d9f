"""A state of XXH3 in memory, parts of which are runs: bytes of a message or a secret of a symbolic offset or length."""
import contextlib

from oracle.symbolic_terms import (NODES, RUNS, SYMBOL, Input, Node, Unsupported, Value, in_order, is_inside,
                                   is_natural, is_same_number, is_within, minus, outside, plus)

from .memory import WordMemory

windows = {}                      # name of a window's symbol -> (input, offset of the window's byte 0)


class Source(Input):
    """Input whose windows are recorded, so that `source_of` recognises stored bytes."""

    def window(self, at, n):
        whole, first = super().window(at, n)
        windows[whole.parts[0]] = self, minus(at, first)
        return whole, first


def source_of(value: Value, n: int) -> tuple[Input, Value]:
    """Returns the input and the offset whose n bytes a value is."""
    segments = value.segments if isinstance(value, Node) else ()
    if len(segments) == 1:
        (length, constant, atoms), = segments
        (number, bit), *others = atoms or [(0, 1)]
        name = NODES[number].parts[0] if NODES[number].op is SYMBOL else None
        if length == 8 * n and not constant and not others and name in windows and bit % 8 == 0:
            source, at = windows[name]
            return source, plus(at, bit // 8)
    raise Unsupported(f"a store of {value}, which isn't {n} bytes of an input")


class State(WordMemory):
    """State that keeps stores to `buffer`, (first, end), as runs, and elsewhere copies of symbolic length."""

    def __init__(self, name, length, cells, runs, buffer, alignment=8):
        super().__init__(name, length, cells, runs, alignment=alignment)
        self.buffer = buffer

    def keeps_runs(self, at, n):
        return super().keeps_runs(at, n) or is_within(at, plus(at, n), *self.buffer)

    def store(self, at, n, value):
        if self.keeps_runs(at, n):
            self.put_run(at, n, *source_of(value, n))
        else:
            super().store(at, n, value)

    def take(self, at, n, source, first):
        if not isinstance(source, Input):
            raise Unsupported(f"a copy of {n} bytes of {source.name}")
        if not is_inside(first, n, source.length):
            raise Unsupported(f"{n} bytes at {first} of {source.name}, which has {source.length}")
        self.put_run(at, n, *source.origin(first))

    def put_run(self, at, n, source, place):
        """Stores a run like Memory, and also keeps all parts of a run whose order isn't decided yet."""
        self.check(at, n)
        end, shift, parts, others = plus(at, n), minus(place, at), [], []
        for run in self.runs():
            if run[2] is source and is_same_number(run[3], shift):
                parts.append(run[:2])
            else:
                others += outside(run, at, end)
        self.cells = {first: cell for first, cell in self.cells.items()
                      if first == RUNS or is_natural(minus(first, end)) or is_natural(minus(at, first + cell[0]))}
        self.cells[RUNS] = (*others, *((low, high, source, shift) for low, high in united([*parts, (at, end)])))


def united(spans: list) -> list[tuple[Value, Value]]:
    """Merges spans that are known to touch or overlap."""
    done = []
    for span in spans:
        while (near := next((one for one in done if union(one, span)), None)):
            done = [one for one in done if one is not near]
            span = union(near, span)
        done.append(span)
    return done


def union(a: tuple[Value, Value], b: tuple[Value, Value]) -> tuple[Value, Value] | None:
    """Returns the union of two spans, or None if they aren't known to touch or overlap."""
    with contextlib.suppress(Unsupported):
        if is_natural(minus(a[1], b[0])) and is_natural(minus(b[1], a[0])):
            return in_order(a[0], b[0])[0], in_order(a[1], b[1])[1]
    return None
