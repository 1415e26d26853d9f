"""Proves loops of an assembly source by induction (symbolic_terms/induction.py).

A cell is a register or its lower half, a lane of a vector, or a cell of the stack or another writable object. The words
are the definition's accumulators after some stripes. The cells that hold them are found, not declared: they hold the
words at the start, and the words some stripes later after a first iteration. The last cell with a word is never
dropped. The flags are unset at a loop head."""
import contextlib
import functools

from oracle.symbolic_terms import (REFUSALS, RUNS, Induction, Input, Node, NotShown, Undecided, divided, given,
                                   is_natural, is_number, is_same_number, minus, plus, same, step_between, times)

from .values import Address, Cpu, half_of, joined, with_half

STEPS = 1, 2, 4, 8, 16            # stripes per iteration
FIRST_TURNS = 64, 4               # numbers of stripes left, at which a first iteration is tried
NEAR = 0, 1, -1, -2, -4           # distance in stripes between a pointer and the processed bytes
HALF = "lower half"               # of a register that holds a separately computed 32-bit number


class Family:
    """The definition's words: after(k)(j) is word j of `count` after k stripes. A stripe has `stripe` bytes; there are
    `total` stripes. suppose(k, values) makes these values the words for k. `together` is the number of 32-bit words in
    a cell, one of `sizes`. A module's loop begins with the stripe `first`."""

    def __init__(self, name, stripe, total, count, after, suppose, sizes=(1,), first=0):
        self.name, self.stripe, self.total, self.count, self.after = name, stripe, total, count, after
        self.put, self.known, self.first, self.together = suppose, {}, first, 1
        self.sizes = sizes if stripe == 16 else (1,)

    def word(self, k, j):
        """Returns the content of cell j after k stripes: one word, or several joined."""
        key, n = (repr(k), j, self.together), self.together
        if key not in self.known:
            self.known[key] = self.cell([self.after(k)(i) for i in range(n * j, n * j + n)])
        return self.known[key]

    def cell(self, values):
        return values[0] if self.together == 1 else joined(*((word, 32) for word in values))

    def values_after(self, k):
        return [self.word(k, j) for j in range(self.cell_count())]

    def cell_count(self):
        return self.count // self.together

    def suppose(self, k, values):
        self.known.clear()       # earlier terms may depend on other suppositions
        self.put(k, values)

    def seem(self, k, is_there):
        """True if `is_there` holds for all words for k. Tests them one by one, since each may be expensive."""
        return all(is_there(self.word(k, j)) for j in range(self.cell_count()))


# ---- cells

def cells_of(cpu: Cpu) -> dict:
    """Maps all cells of a processor and its live objects to their values. A memory cell's key includes its size."""
    out: dict = {("register", name): x for name, x in cpu.registers.items()}
    out.update({(HALF, name): half for name, x in cpu.registers.items() for half in [half_of(x)] if half is not None})
    out.update({("lane", k, lane): x for k, lanes in enumerate(cpu.vectors) for lane, x in enumerate(lanes)})
    for memory in [cpu.stack, *cpu.live]:
        out.update({(memory, at, cell[0]): cell[1] for at, cell in memory.cells.items() if at != RUNS})
    return out


def named(cell: tuple) -> tuple:
    """Returns a cell with the name of its object instead of the object."""
    return cell if isinstance(cell[0], str) else (cell[0].name, *cell[1:])


def name_of(cell: tuple) -> str:
    holder, *where = cell
    if holder in ("register", HALF):
        return where[0]
    if holder == "lane":
        return f"v{where[0]}[{where[1]}]"
    return f"{holder} {where[0]}" if isinstance(holder, str) else f"{holder.name}[{where[0]}]"


# ---- loop heads

class Head(Exception):
    """Raised when control reaches the loop head again."""


class Loops:
    """Called at each possible loop head: at each place with a jump back to it in its section. `guesses` maps heads to
    what was proved of their loops in other calls."""

    def __init__(self, program, family, proof=None, guesses=None):
        self.program, self.family, self.refused, self.known = program, family, [], {}
        self.proof, self.guesses = proof or Proof, {} if guesses is None else guesses
        self.running, self.stop, self.is_guessing, self.given_up = {}, None, False, set()
        self.tried = set()       # loop heads with the numbers of stripes at which a guess failed

    def heads(self, section):
        """Maps each loop head of a section to the last jump back to it."""
        if section not in self.known:
            found = self.known[section] = {}
            for at, x in self.program.sections.get(section, {}).items():
                if x.target and x.target[0] == section and x.target[1] <= at:
                    found[x.target[1]] = max(at, found.get(x.target[1], 0))
        return self.known[section]

    def pass_by(self, cpu, place):
        """Proves a loop if `place` is its head, and returns the place where execution continues."""
        if self.stop == place:
            self.stop = None
            raise Head
        for head, end in list(self.running.items()):
            if end is not None and head[0] == place[0] and not head[1] <= place[1] <= end:      # control left that loop
                del self.running[head]
        if place in self.running:
            if self.running[place] is not None:
                raise NotShown(f"the loop at {place[0]} {place[1]:x} isn't left")
            return place
        within = tuple(head for head, end in self.running.items() if end is None)      # enclosing loops
        may_begin = place[1] in self.heads(place[0]) and not self.is_guessing and (within, place) not in self.given_up
        if may_begin and (self.proof.HAS_INNER or not within):
            if self.proof(self, cpu, place).show():
                self.running[place] = self.heads(place[0])[place[1]]
            elif within:                               # a concrete number of iterations
                self.given_up.add((within, place))
        return place


# ---- proof of a loop

class Proof(Induction):
    HAS_INNER = False         # whether inner loops may have symbolic numbers of iterations
    name_of = staticmethod(name_of)

    def __init__(self, loops, cpu, head):
        self.flags = cpu.flags, cpu.carry
        self.begin(loops, cpu, head, [cpu.stack, *cpu.live])

    def begin(self, loops, cpu, head, memories):
        """Saves the state at the loop head, of the processor and the given objects."""
        self.loops, self.cpu, self.family, self.head = loops, cpu, loops.family, head
        self.name, self.new_name, self.first = loops.family.name, cpu.new_name, 0
        super().__init__(self.state())
        self.runs = {memory: memory.runs() for memory in memories}

    def state(self):
        return cells_of(self.cpu)

    def again(self):
        """Drops the guesses and restores the saved state."""
        self.forget()
        self.enter(0)
        self.cpu.flags, self.cpu.carry = self.flags

    def show(self):
        """Proves the loop and leaves the processor at its head before the last iteration; execution continues there.
        Returns False and restores the state if it isn't a loop of the family: it then runs iteration by iteration."""
        family = self.family
        return any(self.is_shown_from(first) for family.together in family.sizes for first in self.firsts())

    def is_shown_from(self, first):
        """Proves the loop from `first` stripes on. Uses earlier facts about the loop, or guesses from one first
        iteration, or from two, which drop cells that don't continue in the same way."""
        for guess in (self.guess_again, *(functools.partial(self.guess_of, is_twice) for is_twice in (False, True))):
            try:
                if self.by_turns(first, guess):
                    self.loops.guesses[self.head] = self.known()
                    return True
            except REFUSALS as error:
                self.loops.refused.append(f"{self.head[0]} {self.head[1]:x} from {first}: {error}")
            self.again()
        self.loops.tried.add((self.head, repr(first), self.family.together))
        return False

    def firsts(self):
        """Yields guesses of the stripes before the loop: 0, or near a pointer into the message, if some cells hold the
        definition's words. Yields none if a concrete number of stripes is left: such a loop runs turn by turn."""
        guesses = [0]
        for x in self.cpu.registers.values():
            if isinstance(x, Address) and len(x.bases) == 1 and isinstance(x.bases[0][0], Input):
                with contextlib.suppress(Undecided):
                    memory, at = x.place()
                    k, _ = divided(memory.origin(at)[1], self.family.stripe)
                    guesses += [plus(k, d) for d in NEAR if not any(is_same_number(plus(k, d), x) for x in guesses)]
        for guess in guesses:
            is_tried = (self.head, repr(guess), self.family.together) in self.loops.tried
            is_hopeless = isinstance(minus(self.family.total, guess), int) or is_tried
            if not is_hopeless and self.holds(guess):
                yield guess

    def holds(self, first):
        """True if the words after `first` stripes are in some cells."""
        numbers = {x for x in self.start.values() if isinstance(x, int)}
        terms = {x.number for x in self.start.values() if isinstance(x, Node)}
        try:
            return is_natural(first) and self.family.seem(
                first, lambda x: x in numbers if isinstance(x, int) else x.number in terms)
        except REFUSALS:
            return False

    def by_turns(self, first, guess):
        if not guess(first):
            return False
        turns, _ = divided(minus(self.family.total, first), self.step)
        last, self.first = minus(turns, 1), first
        if not is_natural(last):
            return False
        self.show_below(last)
        self.enter(last, self.supposed(last))
        return True

    # ---- an iteration

    def put(self, cells):
        """Sets the cells to these values. Cells without a known value become fresh symbols or unset."""
        cpu = self.cpu
        cpu.forget_flags()
        for cell in self.start:
            if cell[0] == "register":
                cpu.registers[cell[1]] = cpu.fresh("unset") if cell in self.unset else cells[cell]
            elif cell[0] == "lane":
                cpu.vectors[cell[1]][cell[2]] = cpu.unset_lane() if cell in self.unset else cells[cell]
        for cell in [cell for cell in cells if cell[0] == HALF and ("register", cell[1]) in self.unset]:
            upper = cpu.fresh("unset", 32)
            cpu.registers[cell[1]] = with_half(joined((cells[cell], 32), (upper, 32)), cells[cell])
        for memory in [cpu.stack, *cpu.live]:
            memory.cells = {cell[1]: (cell[2], x) for cell, x in cells.items() if cell[0] is memory}
            memory.cells.update({RUNS: runs for runs in [self.runs[memory]] if runs})

    def stripes_after(self, k):
        return plus(self.first, times(self.step, k))

    def defined(self, k):
        return self.family.values_after(self.stripes_after(k))

    def supposed(self, k):
        family, width, after = self.family, 32 if self.family.stripe == 16 else 64, self.stripes_after(k)
        if isinstance(after, int):
            return family.values_after(after)
        values = [self.cpu.fresh("word", width) for _ in range(family.count)]
        family.suppose(after, values)
        return [family.cell(values[k:k + family.together]) for k in range(0, family.count, family.together)]

    def turn(self):
        """Runs one iteration, from the loop head to itself. A return from the head's function leaves the loop."""
        loops, place, running, floor = self.loops, self.head, dict(self.loops.running), self.cpu.stack_pointer()
        loops.running[self.head] = None
        try:
            while place is not None:
                place, loops.stop = self.cpu.step(place), self.head
                if self.cpu.stack_pointer() > floor:
                    break
                place = place and loops.pass_by(self.cpu, place)
        except Head:
            return
        finally:
            loops.stop, loops.running = None, running
        raise NotShown(f"{self.family.name}: a turn leaves the loop")

    def compare(self, k, j=0):
        if any(memory.runs() != runs for memory, runs in self.runs.items()):
            raise NotShown(f"{self.name}: a turn stores to a run")
        super().compare(k, j)

    def may_hold_anything(self, cell):
        """True if another cell has the same word, or this one has none."""
        return list(self.indices.values()).count(self.indices.get(cell)) != 1

    # ---- guesses

    def known(self):
        """Returns the proved facts of the loop, with cells named so that another call can use them."""
        steps = {named(cell): step for cell, (_, step) in self.places.items()}
        return self.step, {named(cell): j for cell, j in self.indices.items()}, steps, {*map(named, self.unset)}

    def guess_again(self, first):
        """Reuses the facts proved in another call. True if the words are in their cells at the start."""
        if self.head not in self.loops.guesses:
            return False
        self.step, values, steps, unset = self.loops.guesses[self.head]
        objects = {memory.name: memory for memory in [self.cpu.stack, *self.cpu.live]}
        self.unset = {(objects.get(name[0], name[0]), *name[1:]) for name in unset}
        begun = self.family.values_after(first)
        for cell, x in self.start.items():
            name = named(cell)
            if name in values and same(x, begun[values[name]]):
                self.indices[cell] = values[name]
            elif name in steps and (isinstance(x, Address) or is_number(x)):
                self.places[cell] = x, steps[name]
            elif name in values or name in steps:
                self.unset.add(cell)
        return len({*self.indices.values()}) == len(begun)

    def guess_of(self, is_twice, first):
        return any(self.guess(first, turns, is_twice) for turns in FIRST_TURNS)

    def guess(self, first, turns, is_twice):
        """Guesses the words, the steps and the unset cells from one iteration or two."""
        self.forget()
        self.enter(0)
        self.loops.is_guessing = True
        try:
            with given(minus(self.family.total, plus(first, turns))):
                self.turn()
                once = self.state()
                if is_twice:
                    self.turn()
        except REFUSALS:
            return False
        finally:
            self.loops.is_guessing = False
        twice, changed = self.state() if is_twice else None, self.changed(once)
        if not self.guess_indices(first, changed, once):
            return False
        self.guess_places(changed, once, twice)
        return True

    def steps(self, changed, once):
        """Returns the possible numbers of stripes per iteration, from the steps of the pointers."""
        moves = {step_between(self.start.get(cell), once.get(cell)) for cell in changed
                 if isinstance(once.get(cell), Address)}
        return [step for step in STEPS if any(is_same_number(x, step * self.family.stripe) for x in moves)] or STEPS

    def guess_indices(self, first, changed, once):
        """Finds the cells that hold the words at the start, and those `step` stripes later after an iteration."""
        values = self.family.values_after(first)
        for self.step in self.steps(changed, once):
            then = self.family.values_after(plus(first, self.step))
            self.indices = {cell: j for cell in changed for j, (x, y) in enumerate(zip(values, then))
                            if same(self.start.get(cell), x) and same(once.get(cell), y)}
            if len({*self.indices.values()}) == len(values):
                return True
        return False
