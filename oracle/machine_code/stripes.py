"""Proves by induction the loops of XXH3 over stripes that begin and end anywhere in a block. Functions that take
stripes are proved once, then assumed at their calls.

A place is (b, j): b blocks and j stripes of the next one. A loop advances a place by one, four or more stripes per
iteration. Its counter of a block's stripes restarts at a block's end. Which cells advance and which restart is guessed
from an iteration that ends a block, and then proved with everything else."""
import collections
import functools

from oracle.symbolic_terms import (REFUSALS, Input, NotShown, Poly, divided, given, is_natural, is_same_number, minus,
                                   moved, plus, same, suppositions, times, variable)

from . import layouts
from .induction import Family, Proof
from .memory import ENTRY
from .values import Address

# Consecutive stripes: the first place, their number, and the place behind them.
Part = collections.namedtuple("Part", "start turns end")
ACCUMULATOR_BYTES = PLACE = layouts.TAKEN.current_stripe      # bytes of accumulators, before the position in a block
TAKEN = layouts.TAKEN.size                        # bytes of both
# For guessed iterations: stripes left, stripes to the block's end, and whether to run two iterations.
GUESSES = (4, 2, True), (64, 8, True), (64, 4, False)
DEEP = 2048                              # bytes of stack that a summarised function uses, at most
LEAST_ENTRY = ENTRY - 2 * DEEP


class Stripes(Family):
    """The definition's words, and the parts that a call takes, with q stripes per block."""

    def __init__(self, name, q, parts, after, suppose):
        super().__init__(name, 64, 0, 8, after, suppose)
        self.q, self.parts = q, parts

    def stripes(self, place):
        return plus(times(self.q, place[0]), place[1])

    def supposed(self):
        """Returns the assumed values of the words, for `restore`."""
        return dict(suppositions.values)

    def restore(self, known):
        suppositions.values.clear()
        suppositions.values.update(known)
        self.known.clear()

    def before(self, place, n):
        """Returns the place n stripes before another."""
        b, j = place
        return (minus(b, 1), minus(self.q, n)) if is_same_number(j, 0) else (b, minus(j, n))

    def behind(self, place, n):
        b, j = place
        return (plus(b, 1), 0) if is_same_number(plus(j, n), self.q) else (b, plus(j, n))


class StripesProof(Proof):
    """Proof of a loop over stripes. Its head may be before the first stripe or after it."""

    HAS_INNER = True

    def show(self):
        known = self.family.supposed()
        for part in self.family.parts:
            for done in (4, 1, 0):
                try:
                    if self.by_places(part, done):
                        return True
                except REFUSALS as error:
                    self.loops.refused.append(f"{self.head[0]} {self.head[1]:x} from {part.start}: {error}")
                self.family.restore(known)
                self.again()
        return False

    def by_places(self, part, done):
        family = self.family
        start = family.behind(part.start, done) if done else part.start
        first = family.stripes(start)
        family.total = plus(family.stripes(part.start), part.turns)
        if isinstance(minus(family.total, first), int) and self.is_run(part) or not self.holds(first):
            return False
        self.first_place, self.first = start, first
        if not self.guess_of_some(first):
            return False
        left, over = divided(minus(family.total, first), self.step)
        if isinstance(left, int) and over:           # so few iterations run one by one
            return False
        self.find_counters(left)
        left = minus(left, self.left_at_end(left, part.end))
        if not is_natural(left):
            return False
        self.until_settled(lambda: self.show_turns(left))
        end = part.end if self.ends_with == 0 else family.before(part.end, self.step)
        self.enter(left, self.supposed(left), divided(end[1], self.step)[0])
        return True

    def is_run(self, part):
        """True if the part runs turn by turn: 0 or 1 stripes, or a concrete distance to the block's end."""
        return part.turns in (0, 1) or isinstance(minus(self.family.q, part.start[1]), int)

    def guess_of_some(self, first):
        """Guesses the loop's cells, with the numbers of stripes in GUESSES left, in total and to the block's end."""
        for left, more, is_twice in GUESSES:
            facts = (minus(self.family.q, plus(self.first_place[1], more, 1)),
                     minus(self.family.total, plus(first, left)))
            if any(is_natural(minus(-1, fact)) for fact in facts):
                continue
            try:
                with given(*facts):
                    if self.guess(first, left, is_twice):
                        return True
            except REFUSALS as error:
                self.loops.refused.append(f"a guess from {first}: {error}")
        return False

    # ---- iterations: k counts from the loop's beginning, i from the block's

    def in_turns(self):
        return divided(self.first_place[1], self.step)[0], divided(self.family.q, self.step)[0]

    def find_counters(self, left):
        """Finds the cells that restart at a block's end. `counts` maps each to its first value and its step."""
        at, whole = self.in_turns()
        k = minus(minus(whole, at), 1)
        more = [n for n in (2, 1) if not is_natural(minus(plus(k, n - 1), left))]
        if not more:
            return
        with given(minus(minus(left, k), more[0])):
            self.enter(k, self.supposed(k))
            try:
                self.turn()
            except NotShown:          # this iteration leaves the loop
                return
            now = self.state()
            for cell, (x, step) in list(self.places.items()):
                base = moved(x, step, minus(0, at))
                if not is_same_number(step, 0) and not same(now.get(cell), moved(x, step, plus(k, 1))) \
                        and same(now.get(cell), base):
                    self.counts[cell] = base, step
                    del self.places[cell]

    def left_at_end(self, left, end):
        """Returns the number of iterations left when control reaches the head for the last time: 0, or 1 if the last
        iteration doesn't return to it."""
        self.ends_with = 0
        if is_natural(minus(0, left)):
            return 0
        place = self.family.before(end, self.step)
        with given(minus(left, 1)):
            self.enter(minus(left, 1), self.supposed(minus(left, 1)), divided(place[1], self.step)[0])
            try:
                self.turn()
            except NotShown:
                self.ends_with = 1
        return self.ends_with

    def cases_of_turns(self):
        """Yields (k, i, facts) of iterations: within the first block, at its end, within a later block, at its end."""
        at, whole = self.in_turns()
        t, i, c = (variable(self.cpu.new_name(name)) for name in "tic")
        behind = minus(whole, at)
        later = plus(behind, times(whole, c))
        yield t, plus(at, t), [minus(minus(whole, 2), plus(at, t))]
        yield minus(behind, 1), minus(whole, 1), []
        yield plus(later, i), i, [minus(minus(whole, 2), i)]
        yield plus(later, minus(whole, 1)), minus(whole, 1), []

    def show_turns(self, left):
        for k, i, facts in self.cases_of_turns():
            facts = [*facts, minus(minus(left, 1), k)]
            if any(is_natural(minus(-1, fact)) for fact in facts):      # no such iteration exists
                continue
            with given(*facts):
                self.enter(k, self.supposed(k), i)
                self.turn()
                self.compare(plus(k, 1), 0 if is_same_number(plus(i, 1), self.in_turns()[1]) else plus(i, 1))


# ---- functions that take stripes

class Summary:
    """The effect of a function that takes the stripes of a part. It reads a record of accumulators, with the position
    in the block if `has_place`, and the stripes and the secret. It writes another such record, or the same one. `taken`
    of xxh3_updates.py proves this of the function; `put_into` assumes it at its calls."""

    def __init__(self, name, has_place=True, least=0, has_length=True, is_in_place=False):
        self.name, self.size, self.has_place, self.least = \
            name, TAKEN if has_place else ACCUMULATOR_BYTES, has_place, least
        self.has_length = has_length     # whether the secret's length is an argument
        self.is_in_place = is_in_place   # whether it updates the record in place

    def registers(self, cpu):
        """Returns the argument registers."""
        return cpu.TAKES_STRIPES[:5] if self.is_in_place else cpu.TAKES_STRIPES

    def put_into(self, cpu, family, source, secret):
        """Replaces the function: its calls take parts of the family, from the inputs `source` and `secret`."""
        cpu.replaced[cpu.program.functions[self.name]] = functools.partial(self.call, cpu, family, source, secret)

    def call(self, cpu, family, source, secret):
        stack, floor = cpu.frame()
        self.expect("the stack", floor % 16 == 0 and floor >= LEAST_ENTRY)
        arguments = list(map(cpu.argument, self.registers(cpu)))
        self.take(cpu, family, source, secret, arguments, stack, floor)
        return cpu.return_from_another()

    def take(self, cpu, family, source, secret, arguments, stack, floor):
        """Checks a call's arguments and applies the effect. The caller's frame begins at `floor`."""
        *records, stripes, length, own, own_length = arguments
        self.expect("the places", all(isinstance(x, Address) for x in (*records, stripes, own)))
        (target, first), (memory, place) = records[0].place(), records[-1].place()
        if not self.is_in_place:
            is_apart = target is not memory or abs(first - place) >= self.size
            self.expect("the records", is_apart and target is stack and first >= floor)
        self.expect("the record", memory is not stack or place >= floor)
        values = [memory.load(plus(place, 8 * i), 8) for i in range(8)]
        begun = memory.load(plus(place, PLACE), 8) if self.has_place else 0
        part = next((part for part in family.parts if is_same_number(length, times(64, part.turns)) and
                     is_same_number(begun, part.start[1]) and
                     all(map(same, values, family.values_after(family.stripes(part.start))))), None)
        self.expect(f"the stripes, {length} bytes from {begun} on", part is not None)
        at, end = family.stripes(part.start), family.stripes(part.end)
        self.expect("the number of stripes",
                    is_natural(minus(part.turns, self.least)) and is_same_number(end, plus(at, part.turns)))
        self.expect("the piece", is_same_number(length, 0) or is_at(stripes, source, times(64, at), length))
        has_whole = not self.has_length or is_same_number(own_length, secret.length)
        self.expect("the secret", has_whole and is_at(own, secret, 0, secret.length))
        self.leave(cpu, family, part, target, first)

    def leave(self, cpu, family, part, memory, first):
        values = family.values_after(family.stripes(part.start))
        if not is_same_number(part.turns, 0):
            values = [cpu.fresh("word") for _ in range(8)]
            family.suppose(family.stripes(part.end), values)
        for i, x in enumerate(values):
            memory.store(first + 8 * i, 8, x)
        if self.has_place:
            memory.store(first + PLACE, 8, part.end[1])

    def expect(self, what, holds):
        if not holds:
            raise NotShown(f"a call of {self.name}: {what}")


def is_at(place: Address, source: Input, at: int | Poly, n: int | Poly) -> bool:
    """True if the n bytes at an address are an input's bytes at offset `at`."""
    memory, offset = place.place()
    if isinstance(memory, Input):
        found, first = memory.origin(offset)
        is_there = is_natural(offset) and is_natural(minus(memory.length, plus(offset, n)))
    else:
        (found, first), is_there = memory.origin(offset, n), True
    return is_there and found is source and is_same_number(first, at)
