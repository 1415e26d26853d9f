"""Proves loops of LLVM code by induction (induction.py).

The words are the accumulators. Their cells are found by their names in the header, and must hold the definition's
values at the start. A cell that a first iteration changes advances by a step, or is unset at the loop head: then
reading it is an error. No other live cell may change. The loop is left after the last iteration. A loop head is a block
to which a function jumps back."""
from .induction import Induction, moved
from .machine import Function
from .nodes import is_same, symbol
from .polynomials import given, is_natural, minus, variable
from .polynomials import is_same_number
from .refusals import NotShown


class Loop:
    """The claim about a loop: after k iterations, k from 0 to `last`, the cells (memory, offset) hold definition(k).
    `suppose(k, values)` assumes that. The loop is left from the last k. With `then`, control reaches the head once
    more, and `then` is the claim about the remaining iterations."""

    def __init__(self, name, last, cells, width, suppose, definition, then=None):
        self.name, self.last, self.cells, self.width = name, last, cells, width
        self.suppose, self.definition, self.then, self.is_leaving = suppose, definition, then, False


# ---- the loops of a function


def successors(function):
    out = {}
    for name, lines in function.blocks.items():
        operation, parts = lines[-1][1:]
        out[name] = [label for label in parts[1:] if label] if operation == "br" else []
    return out


def reached(after, first, without=None):
    """Returns the blocks that are reachable from `first` on paths that avoid `without`."""
    seen, waiting = set(), [first] if first != without else []
    while waiting:
        block = waiting.pop()
        if block not in seen:
            seen.add(block)
            waiting += [other for other in after[block] if other != without]
    return seen


def loops_of(function: Function) -> dict[str, set[str]]:
    """Maps each loop head to the blocks of the loop. A head is on each path to a block that jumps back to it."""
    if not hasattr(function, "loops"):
        after, function.loops = successors(function), {}
        for head in function.blocks:
            around = reached(after, function.first, without=head)
            run = reached(after, function.first)
            back = [block for block in run if head in after[block] and block not in around]
            if back:
                function.loops[head] = blocks_of_loop(after, head, back)
    return function.loops


def blocks_of_loop(after, head, back):
    body, waiting = {head}, list(back)
    while waiting:
        block = waiting.pop()
        if block not in body:
            body.add(block)
            waiting += [other for other, labels in after.items() if block in labels]
    return body


class Loops:
    """Proves each loop that control reaches. `describers` maps the prefix of a function's name to a function of the
    module's function and the registers. That returns a Loop, or None if the number of iterations is concrete."""

    def __init__(self, describers, messages):
        self.describers, self.messages, self.running = describers, messages, {}

    def pass_by(self, function, registers, before, block):
        """Returns (before, block) after the loop, or unchanged if the loop isn't proved."""
        describe = next(
            (describe for name, describe in self.describers.items() if function.name.startswith(name)), None
        )
        if describe is None or block not in loops_of(function):
            return before, block
        key = function.name, block
        around = self.running.get(key)
        if around:
            loop = around.then if around.is_leaving else None
        else:
            loop = describe(function, registers)
        if loop is None or is_same_number(loop.last, 0):  # runs iteration by iteration
            return before, block
        self.running[key] = loop
        try:
            return Proof(self, loop, function, registers, before, block).behind()
        finally:
            self.running[key] = around


class Proof(Induction):
    """Proof of a loop. A cell is one of a live memory, with its size."""

    def __init__(self, loops, loop, function, registers, before, head):
        self.loops, self.loop, self.function, self.registers = loops, loop, function, registers
        self.before, self.head, self.body = before, head, loops_of(function)[head]
        self.name, self.new_name, self.is_guessing = loop.name, function.module.fresh, False
        inside = {target for block in self.body for target, *_ in function.blocks[block]}
        self.unchanged = {name: x for name, x in registers.items() if name not in inside}
        super().__init__(self.state())

    def state(self):
        return {(memory, at): cell for memory in self.function.module.live for at, cell in memory.cells.items()}

    def put(self, cells):
        for memory in self.function.module.live:
            memory.cells = {}
        for (memory, at), cell in cells.items():
            memory.cells[at] = cell
        self.registers.clear()
        self.registers.update(self.unchanged)

    def behind(self):
        """Proves the loop. Returns (before, block) after it, with the registers and memories at that point."""
        loop = self.loop
        if not is_natural(loop.last):
            raise NotShown(f"{loop.name}: no number of turns")
        self.indices = {cell: i for i, cell in enumerate(loop.cells)}
        self.start.update(self.accumulators())
        self.guess()
        self.show_below(loop.last)
        loop.is_leaving = True
        self.enter(loop.last, self.supposed(loop.last))
        answer = self.walk(None)
        if not isinstance(answer, tuple) or answer[1] == self.head:
            raise NotShown(f"{loop.name}: the loop isn't left")
        places = sorted(
            f"{memory.name[1:]} = {shown(moved(value, step, variable('k'))[1])}"
            for (memory, _), (value, step) in self.places.items()
        )
        self.loops.messages.append(f"{loop.name}: k = 0 .. {loop.last}, {', '.join(places)}")
        return answer

    def accumulators(self):
        """Yields the accumulators' cells at the start. They must hold the definition's values."""
        size, defined = self.loop.width // 8, self.defined(0)
        for i, (memory, at) in enumerate(self.loop.cells):
            x = memory.load(at, size)
            if not is_same(x, defined[i]):
                raise NotShown(f"{self.loop.name} at the start: accumulator {i} is another term")
            yield (memory, at), (size, x)

    def guess(self):
        """Guesses from a first iteration which cells advance, and which are written before they are read."""
        self.is_guessing = True
        with given(minus(self.loop.last, 1)):
            self.enter(0, self.defined(0))
            self.turn()
        now = self.state()
        self.guess_places(self.changed(now), now)
        self.is_guessing = False

    def may_hold_anything(self, cell):
        return self.is_guessing

    def defined(self, k):
        return self.loop.definition(k)

    def supposed(self, k):
        values = [symbol(self.new_name("accumulator"), self.loop.width) for _ in self.loop.cells]
        self.loop.suppose(k, values)
        return values

    @staticmethod
    def name_of(cell):
        memory, at = cell
        return f"{memory.name} at {at}"

    def turn(self):
        """Runs an iteration. Then each accumulator has a cell again: vectors store several in one."""
        answer = self.walk(self.head)
        if not isinstance(answer, tuple) or answer[1] != self.head:
            raise NotShown(f"{self.loop.name}: a turn goes to {answer}")
        size = self.loop.width // 8
        values = [memory.load(at, size) for memory, at in self.loop.cells]
        for (memory, at), x in zip(self.loop.cells, values):
            memory.store(at, size, x)

    def walk(self, until):
        return self.function.walk(self.registers, self.before, self.head, self.body, until)


def shown(x):
    return f"{x[0].name} + {x[1]}" if isinstance(x, tuple) else str(x)
