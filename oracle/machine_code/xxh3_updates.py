"""Proves the streams of XXH3 of an assembly source by induction over the updates: reset, any number of updates of any
lengths, digests of 64 and 128 bits. symbolic_terms/xxh3_streams.py does this for the reference.

A state represents the first N = 64 K + f bytes of a message, K = q b + j stripes, j < q. q is the number of stripes in
a block, f the number of buffered bytes, f = 0 only if N = 0, and K is 0 or N above 240. Its accumulators are the
definition's after K stripes. It has j, K, f, N, the mark and the secret, of 64 + 8 q + u bytes. Its buffer begins with
the last f bytes. If K > 0 and f < 64, it ends with the last stripe. All else is unconstrained. The secret's bytes are
symbols: the default secret and derived ones are instances.

Bytes written at a symbolic offset or of a symbolic length are runs (stream_state.py). The separate functions that take
stripes (stripes.py), and those for chunks that don't fit in the buffer (xxh3_states.py), are proved on their own."""
import collections
import functools
import itertools
from typing import Any, Callable, Iterable, Iterator

from oracle.symbolic_terms import (LONGEST, LONGEST_SECRET, RUNS, Bytes, NotShown, Piece, at_most, given, is_natural,
                                   is_same, is_same_number, minus, nodes, plus, same, suppositions, times, variable)

from . import layouts
from .every_length import FAR, Cases
from .induction import Loops
from .memory import ENTRY, WordMemory
from .stream_state import Source, State
from .stripes import DEEP, Part, Stripes, StripesProof, Summary
from .values import address

STRIPE, SHORT = 64, 240           # bytes of a stripe, and of messages hashed without stripes
LONG_PIECE = 2048                 # bytes from which on a separate function takes the stripes
FEW_STRIPES = 4                   # of a buffer, over which loops run turn by turn
BLOCK = 16                        # stripes of a block with separate paths
MANY = 29                         # minimum number of stripes of a long chunk, between the first ones and the last
WIDTHS, LEAST = ("64", "128"), 9  # stripes of a block, at least
UPDATES, DIGESTS, STRIPES = "any updates", "resets and digests", "functions that take stripes"
# The functions that take stripes.
TAKE = Summary("twox_core.xxhash3.stripes.take_stripes")
TAKE_MANY = Summary("twox_core.xxhash3.stripes.take_many_stripes", least=MANY, is_in_place=True)
TAKE_BLOCKS = Summary("twox_core.xxhash3.stripes.blocks.take_many_blocks", has_place=False, least=1)
# x86-64-v4's, compiled without a trusted compiler, for a secret of the default length.
TAKE_WIDENED = Summary("twox_core.xxhash3.stripes.take_widened", least=BLOCK, has_length=False, is_in_place=True)

# The stripes of a block, and the bytes of the secret beyond those that they need.
ANY, OF_16, OF_DEFAULT = (None, None), (BLOCK, None), (BLOCK, 0)

# State before an update that takes stripes: r bytes complete the buffer's g stripes, which end at `behind`.
Start = collections.namedtuple("Start", "place g r behind facts")
Pair = tuple[Any, Any]            # a place and the number of buffered bytes
# Lengths (from, to) for which a source has separate code to copy.
SHORT_COPIES = (1, 1), (2, 3), (4, 7), (8, 16), (17, 32), (33, 63)


def lengths(name: str, spans: Iterable[tuple[int, int]]) -> Iterator[tuple[Any, list]]:
    """Yields (length, facts) for each span: a variable, or a number if the span has one length."""
    for low, high in spans:
        x = variable(name)
        yield (low, []) if low == high else (x, [minus(x, low), at_most(x, high)])


def stripes_of(whole: int, least: int = 1) -> Iterator[tuple[Any, list]]:
    """Yields (stripes, facts) of a buffer of at most `whole` stripes: each number, or a variable if they aren't few."""
    yield from ((g, []) for g in range(least, whole + 1) if whole <= FEW_STRIPES)
    yield from lengths("g", [(least, whole)] * (whole > FEW_STRIPES))


def starts(whole: int, is_split: bool, gs: Iterable[int] | None = None) -> Iterator[Start]:
    """Yields nonempty states of a buffer of `whole` stripes: g in it that end in the block, at its end or behind it."""
    b, j, q = (variable(name) for name in "bjq")
    for r, of_r in [(0, []), *lengths("r", SHORT_COPIES)]:
        for g, of_g in [(g, []) for g in gs or ()] or stripes_of(whole):
            for k in (1, None) if is_split else (None,):
                at, of_k = (minus(q, plus(g, 1)), []) if k else (j, [minus(minus(q, 1 + is_split), plus(j, g))])
                yield Start((b, at), g, r, (b, plus(at, g)), [*of_r, *of_g, *of_k])
            yield from ends_of_blocks(whole, g, r, [*of_r, *of_g])


def ends_of_blocks(whole: int, g: Any, r: Any, facts: list) -> Iterator[Start]:
    b, i, y, q = (variable(name) for name in "biyq")
    if whole <= FEW_STRIPES:
        yield from (Start((b, minus(q, g - k)), g, r, (plus(b, 1), k), facts) for k in range(g))
        return
    if not isinstance(g, int):
        yield Start((b, minus(q, 1)), 1, r, (plus(b, 1), 0), facts[:-2])
        yield Start((b, minus(q, g)), g, r, (plus(b, 1), 0), [*facts, minus(g, 2)])
        yield Start((b, minus(q, 1)), plus(1, y), r, (plus(b, 1), y), [*facts[:-2], minus(y, 1), at_most(y, whole - 1)])
        yield Start((b, minus(q, i)), plus(i, y), r, (plus(b, 1), y),
                    [*facts[:-2], minus(i, 2), minus(y, 1), at_most(plus(i, y), whole)])
        return
    yield Start((b, minus(q, g)), g, r, (plus(b, 1), 0), facts)
    yield Start((b, minus(q, 1)), g, r, (plus(b, 1), g - 1), facts)
    yield Start((b, minus(q, minus(g, y))), g, r, (plus(b, 1), y), [*facts, minus(y, 1), at_most(y, g - 2)])


EMPTY = Start((0, 0), 0, 0, (0, 0), [])


class Xxh3Updates(Cases):
    at = layouts.CORE
    HAS_SEED: tuple[int, ...] = 0, 1      # whether a stream was created with a seed
    has_seed = 0
    TASKS: tuple[str, ...] = UPDATES, STRIPES      # the kinds of tasks of a source
    HAS_COUNTERS = True           # that stay at 2 ^ 64 - 1
    longest_secret, longest_piece = LONGEST_SECRET, LONGEST
    TITLE: str
    resets: Callable              # of sources with DIGESTS, as `reset`
    reset: Callable

    def __init__(self, cpu):
        self.cpu, self.capacity, self.whole = cpu, self.at.capacity, self.at.capacity // STRIPE
        self.use(variable("q"))

    def use(self, q, u=None):
        """Sets q stripes per block, and a secret u bytes, u < 8, longer than these need."""
        u = variable("u") if u is None else u
        self.q, self.secret_length = q, plus(64, times(8, q), u)
        self.facts = [minus(7, u), minus(q, LEAST), at_most(self.secret_length, self.longest_secret)]
        self.read()

    def read(self):
        """Runs the definition's program on symbols, with a symbolic secret."""
        super().read()
        self.secret_source = Source("s", self.secret_length)
        self.secret = Bytes(self.secret_source, 0, self.secret_length)

    def queries(self, what):
        """Returns all proofs of a task, by its title."""
        if what == UPDATES:
            return [functools.partial(self.any_update, *case) for case in self.all_updates()]
        if what == DIGESTS:
            return [*(functools.partial(self.reset, *case) for case in self.resets()),
                    *(functools.partial(self.digest, *case, has_seed, width) for case in self.digests()
                      for has_seed in self.HAS_SEED for width in WIDTHS)]
        return [functools.partial(self.taken_of, *case) for case in self.all_taken()]

    # ---- the definition

    def begin(self, n):
        """Sets a symbolic message of n bytes."""
        suppositions.clear()
        self.source = Source("m", n)
        self.message = Bytes(self.source, 0, n)

    def after(self, k):
        return lambda i: self.texts["Long.accumulator_after"](self.secret, self.message, i, k)

    def stripes(self, place):
        return plus(times(self.q, place[0]), place[1])

    def family(self, *parts):
        return Stripes("XXH3", self.q, parts, self.after, lambda k, values: suppositions.suppose(self.after(k), values))

    def accumulators(self, place):
        """Returns the words after the stripes before a place, as symbols."""
        k = self.stripes(place)
        if is_same_number(k, 0):
            return [self.after(0)(i) for i in range(8)]
        values = [self.cpu.fresh("accumulator") for _ in range(8)]
        suppositions.suppose(self.after(k), values)
        return values

    # ---- states

    def numbers(self, place, f):
        """Returns the numbers in a state, except accumulators and buffer: (offset, value) of 8 bytes."""
        k, at = self.stripes(place), self.at
        return [(at.current_stripe, place[1]), (at.count, k), (at.buffer_usage, f),
                (at.total_bytes, plus(times(64, k), f))]

    def own(self):
        """Returns the fields that only a state of the C library or a record of a module has, the seed last."""
        return []

    def buffered(self, place, f):
        at = self.at.buffer
        return [] if is_same_number(f, 0) else [(at, plus(at, f), self.source,
                                                 minus(times(64, self.stripes(place)), at))]

    def secret_runs(self):
        """Returns the runs of the secret, if a state stores it."""
        return []

    def cells_of(self, values):
        """Returns the cells of accumulators: (offset, value)."""
        return [(self.at.accumulator + 8 * k, x) for k, x in enumerate(values)]

    def last_stripe(self, source, end):
        """Returns the run of a buffer's last 64 bytes, if they are those of a source that end at `end`."""
        high = self.at.buffer + self.capacity
        return high - STRIPE, high, source, minus(end, high)

    def state(self, place, f, runs=(), has_seed=None, seed=None):
        self.has_seed = self.has_seed if has_seed is None else has_seed
        self.seed = self.cpu.fresh("seed") if seed is None else seed
        cells = [*self.cells_of(self.accumulators(place)), *self.numbers(place, f), *self.own()]
        state = State("state", self.size(), [(at, 8, x) for at, x in cells],
                      [*self.buffered(place, f), *runs, *self.secret_runs()],
                      (self.at.buffer, self.at.buffer + self.capacity))
        state.secret = None if self.secret_runs() else self.secret_source
        return state

    def size(self):
        return self.library.SIZES["3"]

    def expect_state(self, what, state, place, f, runs, counters):
        values = map(self.after(self.stripes(place)), range(8))
        cells = [*self.cells_of(values), *self.numbers(place, f), *self.own()]
        for at, x in ((at, counters.get(at, x)) for at, x in cells):
            found = state.load(at, 8)
            if not (is_same(found, x) or is_same_number(found, x)):
                raise NotShown(f"{what}: the state at {at} is {found} and not {x}")
        for run in [*self.buffered(place, f), *runs, *self.secret_runs()]:
            if not state.has_run(run):
                raise NotShown(f"{what}: the state isn't {run}, but has {state.runs()}")

    @staticmethod
    def expect_cells(what, state, expected):
        """Checks that a state has these cells, and its runs."""
        if state.cells.keys() != expected.keys() or any(state.cells[at] is not x and not (
                at != RUNS and same(state.cells[at][1], x[1])) for at, x in expected.items()):
            raise NotShown(f"{what} changes the state")

    # ---- updates

    def any_update(self, *case):
        """Proves an update, also with counters that stay at 2 ^ 64 - 1."""
        self.update(*case)
        if self.HAS_COUNTERS:
            self.lost_totals(*case)
            self.lost_counts(*case)

    def lost_totals(self, start, end, length, facts, *more):
        """Proves the same update with another total: the sum with the chunk's length is 2 ^ 64 or more, and the total
        becomes 2 ^ 64 - 1. Without buffered bytes the total is 0."""
        if not is_same_number(length, 0) and not is_same_number(start[1], 0):
            self.update(start, end, length, [*facts, at_most(variable("lost"), minus(length, 1))], *more,
                        lost={self.at.total_bytes: minus(LONGEST, variable("lost"))})

    def lost_counts(self, start, end, length, facts, parts=(), *more):
        """Proves the same with another number of stripes, which some part makes so."""
        taken, lost = 0, variable("lost")
        for part in parts if not is_same_number(start[1], 0) else ():
            if not is_same_number(part.turns, 0):
                first, last = minus(lost, taken), minus(plus(taken, part.turns), plus(lost, 1))
                self.update(start, end, length, [*facts, first, last], parts, *more,
                            lost={self.at.total_bytes: LONGEST, self.at.count: minus(LONGEST, lost)})
                taken = plus(taken, part.turns)

    def ways_to_end(self, end, facts):
        """Yields whether a state may have stripes and fewer than 64 bytes after them, so that its buffer ends with the
        last stripe, and facts: one way or both."""
        few, more = at_most(end[1], STRIPE - 1), minus(end[1], STRIPE)
        with given(*self.facts, *facts):
            if is_same_number(self.stripes(end[0]), 0) or is_natural(more):
                ways = [(False, [])]
            else:
                ways = [(True, [])] if is_natural(few) else [(True, [few]), (False, [more])]
        yield from ways

    def update(self, start, end, length, facts, *more, **lost):
        """Proves an update of a state (place, f) by a chunk, with the arguments of `update_to`."""
        for is_short, of_end in self.ways_to_end(end, facts):
            self.update_to(is_short, start, end, length, [*facts, *of_end], *more, **lost)

    def update_to(self, is_short, start: Pair, end: Pair, length, facts, parts=(), summaries=(), lost=()):
        """Proves an update to a state whose buffer ends with the last stripe if it `is_short`: a stripe of some part,
        or otherwise the same as before. `lost` has the values of counters that are other ones before, and 2 ^ 64 - 1
        after it, by their offsets."""
        begun, ended = (plus(times(64, self.stripes(place)), f) for place, f in (start, end))
        self.begin(plus(ended, variable("rest")))
        most = [minus(LONGEST, variable("lost"))] if lost else []
        with given(*self.facts, *facts, *most, at_most(self.source.length, LONGEST)):
            stored = [self.last_stripe(Source("last", STRIPE), STRIPE)] if is_short and not parts else []
            last = [self.last_stripe(self.source, times(64, self.stripes(end[0])))] if is_short and parts else stored
            state = self.state(*start, stored)
            for at in lost:
                state.store(at, 8, lost[at])
            piece = Piece(self.source, begun, length)
            if not is_same_number(plus(begun, length), ended):
                raise NotShown("the case's piece has another length")
            self.run([state], self.write, parts, self.cpu, "3-64", state, piece, summaries=summaries)
            self.expect_state("an update", state, *end, last, dict.fromkeys(lost, LONGEST))
            if parts and not is_natural(minus(ended, SHORT + 1)):
                raise NotShown("stripes of a short message are taken")

    def write(self, *arguments):
        """Updates a state, as the case needs it."""
        self.library.update(*arguments)

    def run(self, live, what, parts, *arguments, summaries=(), not_zero=(), **more):
        """Calls a function by its name, or `what`, with the proofs of loops over stripes, and with summaries."""
        cpu, family = self.cpu, self.family(*parts)
        cpu.not_zero, cpu.live = not_zero, live
        for summary in summaries:
            summary.put_into(cpu, family, self.source, self.secret_source)
        what = what if callable(what) else functools.partial(cpu.call, what)
        try:
            return self.with_loops(Loops(cpu.program, family, StripesProof),
                                   functools.partial(what, *arguments, **more))
        finally:
            cpu.replaced = {}

    def small_pieces(self):
        """Yields chunks that fit in the buffer, as arguments of `update`."""
        b, j, f, more = (variable(name) for name in ("b", "j", "f", "more"))
        sizes = [*((n, []) for n in range(33)), *((plus(33, more), facts) for facts in self.ways_from_33(more))]
        for place, of_place, buffered in (((0, 0), [], 0), ((b, j), [minus(minus(self.q, 1), j), minus(f, 1)], f)):
            for n, of_n in sizes:
                yield (place, buffered), (place, plus(buffered, n)), n, [*of_place, *of_n,
                                                                         at_most(plus(buffered, n), self.capacity)]

    @staticmethod
    def ways_from_33(more):
        """Yields facts for chunks of 33 + more bytes, one list for each separate path of a source."""
        yield []

    def end_of(self, place, to, least):
        """Yields the ways to take at least `least` stripes from a place: (stripes, place behind them, facts)."""
        n, D, e = (variable(name) for name in "nDe")
        b, j = place
        if to == "none":
            yield 0, place, []
        if to == "some" and not is_same_number(plus(j, 1), self.q):
            yield n, (b, plus(j, n)), [minus(n, least), minus(minus(self.q, 1), plus(j, n))]
        turns, of_e = plus(minus(self.q, j), times(self.q, D)), minus(minus(self.q, 1), e)
        if to == "some":
            yield turns, (plus(b, 1, D), 0), []
            yield plus(turns, e), (plus(b, 1, D), e), [minus(e, 1), of_e]
        if to == "many":
            yield plus(turns, e), (plus(b, 1, D), e), [of_e, minus(plus(turns, e), MANY)]
            yield self.within_block(place)

    def within_block(self, place):
        """Returns many stripes within a block: (stripes, place behind them, facts)."""
        n, (b, j) = variable("n"), place
        return n, (b, plus(j, n)), [minus(n, MANY), minus(minus(self.q, 1), plus(j, n))]

    def pieces(self, to, begin, lefts):
        """Yields chunks that don't fit in the buffer, as arguments of `update`."""
        for start in begin:
            for left, of_left in lefts:
                least = self.whole - 1        # of stripes taken if a chunk doesn't fit in the buffer
                for n, place, of_n in self.end_of(start.behind, to,
                                                  max(1, least - start.g) if isinstance(start.g, int) else 1):
                    f = minus(times(64, start.g), start.r)
                    length = plus(start.r, times(64, n), left)
                    facts = [*start.facts, *of_left, *of_n, minus(plus(f, length), self.capacity + 1),
                             minus(plus(start.g, n), least)]
                    facts.append(minus(length, LONG_PIECE) if to == "many" else at_most(length, LONG_PIECE - 1))
                    parts = Part(start.place, start.g, start.behind), Part(start.behind, n, place)
                    more = [TAKE_MANY] if to == "many" else []
                    yield (start.place, f), (place, left), length, facts, parts, more

    def all_updates(self):
        """Yields all cases of updates, as arguments of `update`."""
        yield from self.small_pieces()
        whole = [(64, []), *lengths("left", [(65, 127)])]
        yield from self.pieces("none", self.starts(False, [self.whole]), [*lengths("left", SHORT_COPIES), *whole])
        yield from self.pieces("none", self.starts(False, [self.whole - 1]), whole[1:])
        yield from self.pieces("some", [EMPTY, *self.starts(True)], whole)
        yield from self.pieces("many", [EMPTY, *self.starts(False)], whole)

    def starts(self, is_split, gs=None):
        """Yields the states before updates that take stripes."""
        return starts(self.whole, is_split, gs)

    # ---- digest

    def digests(self):
        """Yields arguments of `digest`, without `has_seed` and `width`."""
        for f in range(SHORT + 1):
            yield (0, 0), f, [], ()
        h, b, j = (variable(name) for name in "hbj")
        for g, of_g in stripes_of(self.whole - 1, SHORT // STRIPE):
            few = [*of_g, at_most(h, 63), minus(plus(times(64, g), h), SHORT)]
            yield (0, 0), plus(times(64, g), h, 1), few, [Part((0, 0), g, (0, g))]
        for f in range(1, 65):
            yield ((b, j), f,
                   [minus(plus(times(64, self.stripes((b, j))), f), SHORT + 1), minus(minus(self.q, 1), j)], ())
        for start in starts(self.whole - 1, True):
            if is_same_number(start.r, 0):
                f = plus(times(64, start.g), h, 1)
                more = [minus(plus(times(64, self.stripes(start.place)), f), SHORT + 1),
                        minus(self.stripes(start.place), 1), at_most(h, 63)]
                yield start.place, f, [*start.facts, *more], [Part(start.place, start.g, start.behind)]

    def digest(self, place, f, facts, parts, has_seed, width):
        """Proves the digest of a state, whose stream has a seed or none. The state stays unchanged."""
        n = plus(times(64, self.stripes(place)), f)
        self.begin(n)
        seed = nodes.symbol("seed64", 64)
        with given(*self.facts, *facts, at_most(n, LONGEST)):
            needs_last = isinstance(f, int) and f < STRIPE and not is_same_number(self.stripes(place), 0)
            last = [self.last_stripe(self.source, times(64, self.stripes(place)))] if needs_last else []
            state = self.state(place, f, last, has_seed, seed)
            before = dict(state.cells)
            value = self.run([state], self.library.digest, parts, self.cpu, f"3-{width}", state)
            self.expect_cells("a digest", state, before)
            secret = self.texts["effective_secret"](self.secret, self.message) if has_seed else self.secret
            expected = self.texts[f"xxh3_{width}"](seed if has_seed else 0, secret, self.message)
            if not is_same(value, expected):
                raise NotShown(f"a digest of {n} bytes: another value")

    # ---- the functions that take stripes

    def taken_of(self, secret, case):
        """Proves a case of `taken`, with q stripes per block and u further bytes of the secret. None is any number."""
        q, u = secret
        self.use(variable("q") if q is None else q, u)
        try:
            self.taken(*case)
        finally:
            self.use(variable("q"))

    def taken(self, summary, parts, facts, summaries=()):
        """Proves that a function has its summary's effect on the stripes of some consecutive parts."""
        place, turns, end = parts[0].start, plus(*(part.turns for part in parts)), parts[-1].end
        self.begin(plus(times(64, self.stripes(end)), variable("rest")))
        with given(*self.facts, *facts, at_most(self.source.length, LONGEST)):
            values = self.accumulators(place)
            cells = [(8 * i, 8, x) for i, x in enumerate(values)]
            cells += [(layouts.TAKEN.current_stripe, 8, place[1])] if summary.has_place else []
            taken = WordMemory("taken", summary.size, cells, alignment=8)
            to = WordMemory("to", summary.size, [(at, 8, self.cpu.fresh("a word")) for at in range(0, summary.size, 8)],
                            alignment=8)
            piece = Piece(self.source, times(64, self.stripes(place)), times(64, turns))
            records = [taken] if summary.is_in_place else [to, taken]
            self.run(records, self.taker(summary), parts, *map(address, records), address(piece), piece.length,
                     address(self.secret_source), *([self.secret_length] * summary.has_length), summaries=summaries)
            expected = [self.after(self.stripes(end))(i) for i in range(8)] + [end[1]] * summary.has_place
            for memory, cells in zip(records, [expected, [x for *_, x in cells]]):
                for k, x in enumerate(cells):
                    if not same(memory.load(8 * k, 8), x):
                        raise NotShown(f"{summary.name}: {memory.name} at {8 * k} is {memory.load(8 * k, 8)} "
                                       f"and not {x}")
            self.expect_stack(summary)

    def taker(self, summary):
        """Returns a function that calls a function which takes stripes."""
        return functools.partial(self.cpu.call, summary.name, into=summary.registers(self.cpu))

    def expect_stack(self, summary):
        """Checks that a function used no more stack than its summary claims."""
        if self.cpu.stack.lowest < ENTRY - DEEP:
            raise NotShown(f"{summary.name}: more than {DEEP} bytes of stack")

    def all_taken(self):
        """Yields a block's stripes and the secret's further bytes, or None for any number, and arguments of `taken`."""
        for part, facts in self.of_any_blocks():
            yield ANY, (TAKE, [part], facts)
        for of_q in (at_most(self.q, BLOCK - 1), minus(self.q, BLOCK + 1)):
            part, facts = self.to_another_block(self.q)
            yield ANY, (TAKE_MANY, [part], [*facts, of_q], [TAKE])
        b, D = variable("b"), variable("D")
        turns, end, facts = self.within_block((b, variable("j")))
        yield ANY, (TAKE_MANY, [Part((b, variable("j")), turns, end)], facts, [TAKE])
        yield OF_16, (TAKE_BLOCKS, [Part((b, 0), plus(BLOCK, times(BLOCK, D)), (plus(b, 1, D), 0))], [])
        longer = [minus(variable("u"), 1)] if self.is_widened() else []
        for parts, facts in self.by_fours():
            yield OF_16, (TAKE_MANY, parts, [*facts, *longer, *of_many(parts)])
        for parts, facts in self.by_blocks():
            yield OF_16, (TAKE_MANY, parts, [*facts, *longer, *of_many(parts, FAR)], [TAKE, TAKE_BLOCKS])
        if self.is_widened():
            part, facts = self.to_another_block(BLOCK)
            yield OF_DEFAULT, (TAKE_MANY, [part], facts, [TAKE_WIDENED])
            yield from ((OF_DEFAULT, (TAKE_WIDENED, *case)) for case in self.widened())

    def is_widened(self):
        return TAKE_WIDENED.name in self.cpu.program.functions

    @staticmethod
    def to_another_block(q):
        """Returns a part of many stripes, from any place to any place of a later block, and its facts."""
        b, j, D, e = (variable(name) for name in "bjDe")
        turns = plus(minus(q, j), times(q, D), e)
        return Part((b, j), turns, (plus(b, 1, D), e)), [
            minus(minus(q, 1), j), minus(minus(q, 1), e), minus(turns, MANY)]

    def of_any_blocks(self):
        """Yields parts of any number of stripes from any place, with facts."""
        b, j, n, D, e, last = *(variable(name) for name in "bjnDe"), minus(self.q, 1)
        yield Part((b, j), 0, (b, j)), [minus(last, j)]
        yield Part((b, j), n, (b, plus(j, n))), [minus(n, 1), minus(last, plus(j, n))]
        for at, of_at in ((j, [minus(minus(last, 1), j)]), (last, [])):
            turns = plus(minus(self.q, at), times(self.q, D))
            yield Part((b, at), turns, (plus(b, 1, D), 0)), of_at
            yield Part((b, at), plus(turns, e), (plus(b, 1, D), e)), [*of_at, minus(e, 1), minus(last, e)]

    @staticmethod
    def by_fours():
        """Yields parts for blocks of 16 stripes: stripes up to a multiple of four, fours, and the remaining ones."""
        b, a, D, e = (variable(name) for name in "baDe")
        for c in range(4):
            front = -c % 4
            fourths = [((b, times(4, a)), [minus(a, int(c > 0)), at_most(a, 2)]), ((b, 12), [])]
            fourths += [((plus(b, 1), 0), [])] * (c > 0)
            for at, of_a in fourths:
                start = (b, 16 - front) if is_same_number(at[1], 0) else (b, minus(at[1], front))
                for last, of_e in ((0, []), (e, [minus(e, 1), at_most(e, 3)])):
                    turns = plus(16, times(-1, at[1]), times(16, D), times(4, last))
                    end = plus(at[0], 1, D), times(4, last)
                    for rest in range(4):
                        parts = [Part(start, front, at), Part(at, turns, end),
                                 Part(end, rest, (end[0], plus(end[1], rest)))]
                        least = front + rest + 16 - (at[1] if isinstance(at[1], int) else 8) + 4 * bool(of_e)
                        yield parts, [*of_a, *of_e, at_most(D, (FAR - 1 - least) // 16)]

    @staticmethod
    def by_blocks():
        """Yields parts of FAR stripes and more: to a block's end, whole blocks, and the stripes of a last block. From a
        block's beginning there are FAR / BLOCK whole blocks at least."""
        b, j, D, e = (variable(name) for name in "bjDe")
        for start, turns, at, facts in (((b, 0), 0, (b, 0), [minus(D, FAR // BLOCK - 1)]),
                                        ((b, j), minus(16, j), (plus(b, 1), 0), [minus(j, 1), at_most(j, 15)])):
            end = plus(at[0], 1, D), 0
            yield [Part(start, turns, at), Part(at, plus(16, times(16, D)), end),
                   Part(end, e, (end[0], e))], [*facts, at_most(e, 15)]

    @staticmethod
    def widened():
        """Yields parts from each place in a block to each: to its end, whole blocks or none, a last block."""
        b, D = variable("b"), variable("D")
        for start, rest in itertools.product(range(BLOCK), range(BLOCK)):
            front, at = -start % BLOCK, (plus(b, int(start > 0)), 0)
            whole = Part(at, plus(BLOCK, times(BLOCK, D)), (plus(at[0], 1, D), 0))
            for middle in [whole, Part(at, 0, at)] if front + rest >= BLOCK else [whole]:
                end = middle.end
                yield [Part((b, start), front, at), middle, Part(end, rest, (end[0], rest))], []


def of_many(parts: list[Part], least: int | None = None) -> list:
    """Returns the facts for the number of stripes: `least` or more, or from MANY to FAR - 1."""
    turns = plus(*(part.turns for part in parts))
    return [minus(turns, least)] if least else [minus(turns, MANY), at_most(turns, FAR - 1)]
