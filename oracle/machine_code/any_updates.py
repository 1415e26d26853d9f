"""Proves the streams of XXH32 and XXH64 of an assembly source by induction over the updates: a reset, any number of
updates of any lengths, a digest. symbolic_terms/plain_streams.py does this for the reference.

A state represents the first N = stripe * a + r bytes of a message if its total is N, its accumulators are the
definition's after a stripes, its marked word is the mark plus r, and its buffer begins with the last r bytes. All other
bytes are unconstrained. A reset creates a state that represents 0 bytes. An update leads from a state that represents N
bytes to one that represents N plus its length. Its r, its tail and its stripes modulo the unrolled loop's are numbers;
all else is symbolic. A digest returns the definition's value and leaves the state unchanged."""
import collections
import functools
from typing import Iterator

from oracle.symbolic_terms import (LONGEST, Bytes, Input, NotShown, Piece, Request, at_most, given, is_same,
                                   is_same_number, lifted, minus, plus, same, seed_symbol, suppositions, times,
                                   variable)

from . import layouts, streams
from .every_length import UNROLLED, Cases
from .induction import Family, Loops
from .memory import WordMemory

# An update of a state with r buffered bytes. It fills their stripe or not, takes `further` stripes, plus any number of
# turns of the unrolled loop with `more`, and leaves s bytes in the buffer.
Update = collections.namedtuple("Update", "r s fills further more")


def updates(hash_name: str) -> Iterator[Update]:
    stripe, most = int(hash_name) // 2, UNROLLED[hash_name]
    for r in range(stripe):
        yield from (Update(r, s, False, 0, False) for s in range(r, stripe))
        for s in range(stripe):
            for further in range(most):
                yield from (Update(r, s, r > 0, further, more) for more in (False, True) if r or further or more)


def length_of(one: Update, hash_name: str, turns: int) -> int:
    """Returns the length of an update's chunk, with `turns` turns of the unrolled loop."""
    stripe = int(hash_name) // 2
    whole = int(one.fills) + one.further + (UNROLLED[hash_name] * turns if one.more else 0)
    return stripe * whole + one.s - one.r


def left_out(hash_name: str) -> list[tuple[int, int]]:
    """Returns the chunks (r, length) that no update covers, for lengths up to 3 turns of the unrolled loop."""
    most = int(hash_name) // 2 * UNROLLED[hash_name]
    found = {(one.r, length_of(one, hash_name, turns)) for one in updates(hash_name) for turns in range(1, 4)}
    return sorted({(r, length) for r in range(int(hash_name) // 2) for length in range(3 * most)} - found)


class AnyUpdates(Cases):
    LAYOUTS, MARKED, longest = layouts.PLAIN, 4, LONGEST     # MARKED is the size of the marked word

    def __init__(self, cpu, hash_name):
        self.hash_name = hash_name
        self.width, self.stripe, self.at = int(hash_name), int(hash_name) // 2, self.LAYOUTS[hash_name]
        super().__init__(cpu)

    def read(self):
        super().read()
        self.seed = seed_symbol(self.hash_name)

    # ---- states

    def begin(self, n):
        """Sets a symbolic message of n or more bytes."""
        self.source = Input("m", plus(n, variable("rest")))
        self.message = Bytes(self.source, 0, self.source.length)

    def accumulator(self, j, k):
        return self.texts[f"Xxh{self.width}.accumulator"](self.seed, self.message, j, k)

    def parts(self, a, r, accumulators):
        """Yields the content of a state that represents stripe * a + r bytes: (offset, size, value)."""
        word, n = self.width // 8, plus(times(self.stripe, a), r)
        yield from ((at, word, x) for at, x in zip(self.at.accumulators, accumulators, strict=True))
        yield from ((self.at.seed, word, self.seed), (self.at.marked, self.MARKED, self.at.first_mark + r),
                    (self.at.total, 8, n))
        for k in range(r):
            yield self.at.buffer + k, 1, self.source.load(plus(times(self.stripe, a), k), 1)

    def state(self, a, r):
        """Returns a state that represents stripe * a + r bytes. Its accumulators are symbols if a isn't 0."""
        suppositions.clear()
        accumulators = [self.accumulator(j, 0) for j in range(4)]
        if not is_same_number(a, 0):
            accumulators = [self.cpu.fresh("accumulator", self.width) for _ in range(4)]
            suppositions.suppose(lambda j: self.accumulator(j, a), accumulators)
        size = self.library.SIZES[self.hash_name]
        state = WordMemory("state", size, [(at, 1, self.cpu.fresh("a byte", 8)) for at in range(size)],
                           alignment=streams.ALIGNMENT.get(self.hash_name, 8))
        for at, size, x in self.parts(a, r, accumulators):
            state.store(at, size, x)
        return state

    def expect_state(self, what, state, a, r):
        for at, size, x in self.parts(a, r, [self.accumulator(j, a) for j in range(4)]):
            found = state.load(at, size)
            if not (same(found, x) or is_same(found, lifted(x))):
                raise NotShown(f"{what}: the state at {at} is {found} and not {x}, of {self.stripe} * ({a}) + {r}")

    def call(self, what, state, *rest, family=None):
        """Calls a function of the library that resets, updates or digests `state`. Proves the loops of a family."""
        self.cpu.not_zero, self.cpu.live = [], [state]
        ask = functools.partial(what, self.cpu, *rest)
        return self.with_loops(Loops(self.cpu.program, family, guesses=self.guesses), ask) if family else ask()

    # ---- the three steps of the induction

    def reset(self):
        """Proves a reset of memory with any content."""
        self.begin(0)
        with given(at_most(self.source.length, self.longest)):
            state = streams.new_state(self.cpu, self.hash_name, self.library)
            self.call(self.library.reset, state, Request(self.hash_name, "seed", 0), state)
            self.expect_state("a reset", state, 0, 0)

    def update(self, one, total=None):
        """Proves an update by one chunk of a state that represents stripe * a + r bytes, for any a."""
        a = variable("a")
        further = plus(one.further, times(UNROLLED[self.hash_name], variable("d")) if one.more else 0)
        b = plus(a, int(one.fills), further)
        self.update_between(a, one.r, b, one.s, [minus(variable("d"), 1)] if one.more else [], self.family(b), total)

    def lost_total(self, one):
        """Proves an update after which the total is 2 ^ 64 - 1, since it can't have more: it was less by `lost`."""
        if one.s != one.r or one.fills or one.further or one.more:
            self.update(one, minus(LONGEST, variable("lost")))

    def update_between(self, a, r, b, s, facts, family, total=None):
        """Proves an update from stripe * a + r bytes to stripe * b + s. If the state has another total, the sum with
        the chunk's length is 2 ^ 64 or more, and the total must become 2 ^ 64 - 1."""
        begun, ended = plus(times(self.stripe, a), r), plus(times(self.stripe, b), s)
        self.begin(ended)
        length = minus(ended, begun)
        lost = [] if total is None else [minus(LONGEST, total), minus(plus(total, length), LONGEST + 1)]
        with given(at_most(self.source.length, self.longest), *facts, *lost):
            state = self.state(a, r)
            if lost:
                state.store(self.at.total, 8, total)
            self.call(self.library.update, state, self.hash_name, state, Piece(self.source, begun, length),
                      family=family)
            if lost and not is_same_number(state.load(self.at.total, 8), LONGEST):
                raise NotShown(f"an update: the total is {state.load(self.at.total, 8)} and not 2^64 - 1")
            if lost:
                state.store(self.at.total, 8, ended)
            self.expect_state("an update", state, b, s)

    def family(self, stripes, first=0):
        def after(k):
            return lambda j: self.accumulator(j, k)
        return Family(f"XXH{self.width}, an update", self.stripe, stripes, 4, after,
                      lambda k, values: suppositions.suppose(after(k), values), self.cpu.TOGETHER, first)

    def digest(self, a, r):
        """Proves the digest of a state that represents the whole message."""
        n = plus(times(self.stripe, a), r)
        self.source = Input("m", n)
        self.message = Bytes(self.source, 0, n)
        with given(at_most(n, self.longest), *([] if is_same_number(a, 0) else [minus(a, 1)])):
            state = self.state(a, r)
            before = streams.contents(state, 1)
            value = self.call(self.library.digest, state, self.hash_name, state)
            streams.expect_same("a digest", before, state, 1)
            if not is_same(value, self.texts[f"xxh{self.width}"](self.seed, self.message)):
                raise NotShown(f"a digest of {n} bytes: another value")
