"""Proves loops of a module by induction (../induction.py, ../stripes.py).

A cell is a variable, a lane of one, a value on the operand stack, a global, or a cell of the stack's or a live object's
memory. After the proof of a loop, execution continues with its last iteration."""
from typing import Any, Callable

from oracle.symbolic_terms import RUNS, NotShown, minus

from ..induction import Family, Proof
from ..stripes import Stripes, StripesProof
from .values import WORD


class Loops:
    """Called at each loop head. Proves a loop over stripes of the family, and runs out of it; otherwise runs an
    iteration. `live` has the memories, besides the stack, that a call may write to."""

    def __init__(self, family, live):
        self.family, self.live, self.refused, self.messages = family, list(live), [], []
        self.is_busy, self.is_guessing, self.guesses, self.tried = family is None, False, {}, set()

    def pass_by(self, vm, frame):
        if self.is_busy:
            return
        self.is_busy, proof = True, (ByPlaces if isinstance(self.family, Stripes) else ByTurns)(self, vm, frame)
        try:
            if proof.show():
                proof.leave()
                self.messages.append(
                    f"{self.family.name}: {proof.step} stripes a turn, {len(proof.places)} places go on"
                )
        finally:
            self.is_busy = False


def proved(proof: Any, family: Family | None, live: list, ask: Callable[[], Any]) -> Any:
    """Returns a call's result. Proves the loops of the family, if any. The call may write to `live`."""
    loops = Loops(family, live)
    result = proof.with_loops(loops, ask)
    if family and not loops.messages:
        raise NotShown(f"{family.name}: no such loop was met")
    if proof.cpu.has_asked:
        raise NotShown("whether the seed is 0 was asked, which is another case")
    proof.messages += loops.messages
    return result


class AtHead(Proof):
    """The state at a loop head that a call has reached, and the paths from it, for a subclass of a proof."""

    def __init__(self, loops, vm, frame):
        self.frame, self.code, self.place = frame, vm.prepared(frame.function), frame.pc - 1
        self.end = vm.ends[frame.function.index][self.place]
        self.widths, self.memories = [*frame.function.signature.takes, *frame.function.locals], [vm.stack, *loops.live]
        self.begin(loops, vm, (f"function {frame.function.index}", self.place), self.memories)

    def state(self):
        """Returns the state as cells."""
        out: dict = {}
        for k, x in enumerate(self.frame.variables):
            if isinstance(x, tuple):
                out.update({("lane", k, lane): part for lane, part in enumerate(x)})
            else:
                out["variable", k] = x
        out.update({("stack", k): x for k, x in enumerate(self.frame.stack)})
        out.update({("global", k): x for k, x in enumerate(self.cpu.globals)})
        for memory in self.memories:
            out.update({(memory, at, cell[0]): cell[1] for at, cell in memory.cells.items() if at != RUNS})
        return out

    def put(self, cells):
        """Sets the state at the head. Cells without a known value become fresh symbols or unset."""
        variables, stack = self.frame.variables, []
        for memory in self.memories:
            memory.cells = {RUNS: runs for runs in [self.runs[memory]] if runs}
        for memory, at, size in (cell for cell in cells if not isinstance(cell[0], str)):
            memory.cells[at] = size, cells[memory, at, size]
        for cell in (cell for cell in self.start if isinstance(cell[0], str)):
            (place, k, *lane), x = cell, self.anything(cell) if cell in self.unset else cells[cell]
            if place == "variable":
                variables[k] = x
            elif place == "lane":
                variables[k] = tuple(x if j == lane[0] else part for j, part in enumerate(variables[k]))
            elif place == "global":
                self.cpu.globals[k] = x
            else:
                stack.append(x)
        self.frame.stack[:], self.frame.pc = stack, self.place + 1

    def anything(self, cell):
        """Returns a fresh symbol for a cell that may hold anything."""
        return self.cpu.fresh("anything", self.widths[cell[1]] if cell[0] == "variable" else WORD)

    def again(self):
        self.forget()
        self.enter(0)

    def turn(self):
        """Runs one iteration, from the head to the head."""
        while True:
            self.cpu.step(self.frame, self.code)
            if self.frame.pc == self.place:
                return
            if not self.place < self.frame.pc <= self.end:
                raise NotShown("a turn leaves the loop")

    def leave(self):
        """Runs from the head out of the loop."""
        while self.place < self.frame.pc <= self.end:
            self.cpu.step(self.frame, self.code)
        if self.frame.pc == self.place:
            raise NotShown("the loop isn't left")


class ByPlaces(AtHead, StripesProof):
    """Proof of a loop over stripes that begin and end anywhere in a block."""


class ByTurns(AtHead, Proof):
    """Proof of a loop over the family's stripes from `first` on."""

    def firsts(self):
        first = self.family.first
        if not isinstance(minus(self.family.total, first), int) and self.holds(first):
            yield first
