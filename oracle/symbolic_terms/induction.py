"""Proves loops of any number of iterations (turns) by induction, on any machine.

At the loop head after k turns, the cells of `indices` hold words of the definition, those of `places` have advanced k
steps, those of `counts` one step per turn in the block, those of `unset` may hold anything, and all others are
unchanged. First turns determine these sets. Then a turn from any k is proved to lead to the same for k + 1. A cell that
violates this becomes unset, if it may, and the turn runs again.

loops.py has the states for LLVM code, ../machine_code/induction.py and wasm/induction.py for assembly and modules."""
from typing import Callable

from .polynomials import Poly, Value, agree, given, is_number, is_same_number, minus, plus, times, variable
from .refusals import NotShown


# ---- values: a number, a term, an address, or a tuple whose last part advances

def same(a: Value, b: Value) -> bool:
    if isinstance(a, tuple) and isinstance(b, tuple):
        return len(a) == len(b) and all(map(same, a, b))
    if hasattr(type(a), "bases") and hasattr(type(b), "bases"):
        return a.bases == b.bases and is_same_number(a.offset, b.offset)
    return a is b or agree(a, b)


def step_between(old: Value, now: Value) -> Value:
    """Returns by how much a number or an address has advanced, or None."""
    if isinstance(old, tuple) and isinstance(now, tuple):
        goes_on = len(old) == len(now) == 2 and (old[0] is now[0] or old[0] == now[0])
        return step_between(old[1], now[1]) if goes_on else None
    if hasattr(type(old), "bases") and hasattr(type(now), "bases") and old.bases == now.bases:
        return minus(now.offset, old.offset)
    return minus(now, old) if is_number(old) and is_number(now) else None


def moved(x: Value, step: int | Poly, k: int | Poly) -> Value:
    """Returns a value advanced by k steps."""
    if isinstance(x, tuple):
        return *x[:-1], moved(x[-1], step, k)
    if hasattr(type(x), "bases"):
        return type(x)(x.bases, plus(x.offset, times(step, k)))
    return plus(x, times(step, k))


class Induction:
    """A loop, given by the cells at its head. A subclass has `name`; `state()`, the current cells; `put(cells)`, which
    sets them; `turn()`, from the head to the head; `new_name(prefix)`; `defined(k)`, the definition's words after k
    turns; `supposed(k)`, fresh symbols assumed equal to these; and `may_hold_anything(cell)`."""

    name: str
    state: Callable
    put: Callable
    turn: Callable
    new_name: Callable
    defined: Callable
    supposed: Callable
    may_hold_anything: Callable
    name_of = staticmethod(str)

    def __init__(self, start):
        self.start = start
        self.forget()

    def forget(self):
        """Forgets the guesses."""
        self.indices, self.places, self.counts, self.unset = {}, {}, {}, set()

    def expected(self, k, values, j=0):
        """Returns the cells after k turns, j of them in a block, with these words; without unset cells."""
        out = dict(self.start)
        for turns, cells in ((k, self.places), (j, self.counts)):
            out.update({cell: moved(x, step, turns) for cell, (x, step) in cells.items()})
        out.update({cell: self.as_stored(cell, values[i]) for cell, i in self.indices.items()})
        for cell in self.unset:
            out.pop(cell, None)
        return out

    def as_stored(self, cell, x):
        """Returns a word in the form in which a cell holds it: with its size, if the cell has one."""
        old = self.start[cell]
        return (old[0], x) if isinstance(old, tuple) else x

    def enter(self, k, values=(), j=0):
        self.put(self.expected(k, values, j))

    def show_below(self, last):
        """Proves a turn from any k below `last`."""
        k = variable(self.new_name("k"))
        with given(minus(minus(last, k), 1)):
            self.until_settled(lambda: self.show_turn(k))

    def until_settled(self, show):
        """Repeats a proof until no further cell becomes unset."""
        size = None
        while size != len(self.unset):
            size = len(self.unset)
            show()

    def show_turn(self, k):
        self.enter(k, self.supposed(k))
        self.turn()
        self.compare(plus(k, 1))

    def compare(self, k, j=0):
        """Checks that the cells are the expected ones after k turns."""
        expected, now = self.expected(k, self.defined(k), j), self.state()
        for cell in {*expected, *now} - self.unset:
            if not same(now.get(cell), expected.get(cell)):
                self.let_go(cell, now.get(cell), expected.get(cell))

    def let_go(self, cell, found, expected):
        if not self.may_hold_anything(cell):
            raise NotShown(f"{self.name}: {self.name_of(cell)} is {found} and not {expected}")
        for known in (self.indices, self.places, self.counts):
            known.pop(cell, None)
        self.unset.add(cell)

    # ---- guesses

    def changed(self, now):
        """Returns the cells that differ from the start."""
        return {cell for cell in {*self.start, *now} if not same(self.start.get(cell), now.get(cell))}

    def guess_places(self, cells, once, twice=None):
        """Guesses which of these cells advance, by their values after one turn, or after one and two."""
        for cell in cells - set(self.indices):
            step = step_between(self.start.get(cell), once.get(cell))
            if step is None or twice is not None and not same(twice.get(cell), moved(once[cell], step, 1)):
                self.let_go(cell, once.get(cell), self.start.get(cell))
            else:
                self.places[cell] = self.start[cell], step
