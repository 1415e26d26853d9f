"""Proves the streams of XXH3 of a module by induction over the updates: a start, any number of updates of any lengths,
digests of 64 and 128 bits. ../xxh3_updates.py does this for an assembly source.

A record has the number of seeds it was started with, 0 or 1, the seed, and a state's fields, without mark and secret.
Each call takes the secret, of any length that fits in memory. Calls test if the record's numbers are consistent, so a
record without stripes, whose accumulators are known, is a separate case."""
import functools

from oracle.symbolic_terms import (
    LONGEST as MOST_BYTES,
    Node,
    NotShown,
    Request,
    at_most,
    given,
    is_natural,
    is_same_number,
    minus,
    plus,
    same,
    symbol,
    times,
    variable,
)

from ..cargo_streams import FEW
from ..whole_blocks import BLOCKS, in_few, in_numbers, may_hold, names_in, with_value
from ..xxh3_updates import DIGESTS, STRIPES, UPDATES, Start, Xxh3Updates
from . import calls, every_length, layouts
from .induction import Loops
from .stripes import Takers

LONGEST = every_length.LONGEST  # bytes of a chunk and of a secret, by the size of the memory


def parted(case, at):
    """Splits a case, whose facts are at index `at`, by whether there are whole blocks."""
    if BLOCKS not in names_in(case):
        yield case
        return
    yield from (none for none in in_few(in_numbers(case, BLOCKS, 0)) if may_hold(none[at]))
    facts = [*case[at], minus(variable(BLOCKS), 1)]
    yield (*case[:at], facts, *case[at + 1 :])


class ModuleUpdates(Xxh3Updates):
    at, HAS_COUNTERS, TASKS = layouts.RECORD, False, (UPDATES, DIGESTS, STRIPES)  # refusals.py tests the counters
    library, longest_secret, longest_piece = calls.Page, LONGEST, LONGEST

    def __init__(self, vm):
        super().__init__(vm)
        self.takers = Takers(vm)

    @staticmethod
    def is_widened():
        return False

    # ---- records

    def state(self, place, f, runs=(), has_seed=None, seed=None):
        return super().state(place, f, runs, self.cpu.fresh("has a seed") if has_seed is None else has_seed, seed)

    def own(self):
        return [(self.at.seeds, self.has_seed), (self.at.seed, self.seed)]

    def resets(self):
        """Yields arguments of `reset`: the way, and the seed, which a module may test for 0."""
        seed = symbol("seed64", 64)
        yield from (("seed", seed), ("seed", 0), ("both", seed), ("both", 0), ("secret", None))

    def reset(self, way, seed):
        """Proves a start in memory with any content."""
        self.begin(0)
        with given(*self.facts):
            length = None if way == "seed" else self.secret_length
            stream = calls.Stream(self.cpu, Request("3-64", way, 0, length, seed))
            stream.start()
            if self.cpu.has_asked and not isinstance(seed, Node):
                raise NotShown(f"a start, {way}: whether the seed is 0 was asked")
            self.has_seed, self.seed = int(seed is not None), seed
            cells = [*self.cells_of(map(self.after(0), range(8))), *self.numbers((0, 0), 0)]
            self.expect_stored(f"a start, {way}", stream.record, [*self.own()[: 1 + self.has_seed], *cells])
            if way == "seed":
                secret = self.texts["derived_secret"](seed)
                self.expect_stored(
                    "a derived secret",
                    stream.derived,
                    [(k, self.texts["word64"](secret, k)) for k in range(0, calls.DERIVED, 8)],
                )

    def expect_stored(self, what, memory, cells):
        for at, x in cells:
            if not same(memory.load(at, 8), x):
                raise NotShown(f"{what}: {memory.name} at {at} is {memory.load(at, 8)} and not {x}")

    # ---- cases

    def all_updates(self):
        yield from map(self.with_limit, self.by_paths())

    def by_paths(self):
        """Splits a case in two if the length of its chunk may be on both sides of a separate path."""
        for (place, f), (to, left), length, facts, *rest in super().all_updates():
            few, more = at_most(length, FEW), minus(length, FEW + 1)
            with given(*self.facts, *facts):
                is_known = is_natural(few) or is_natural(more)
                name = "left" if is_natural(minus(left, minus(length, left))) else "r"
            yield (place, f), (to, left), length, facts if is_known else [*facts, few], *rest
            if not is_known:
                # A chunk of 65 + w bytes: `left` or `r` becomes 65 + w minus the length's other parts.
                value = minus(plus(FEW + 1, variable("w")), minus(length, variable(name)))
                f, left, length, *facts = (with_value(x, name, value) for x in (f, left, length, *facts))
                yield (place, f), (to, left), length, facts, *rest

    @staticmethod
    def ways_from_33(more):
        yield from ([at_most(more, FEW - 33)], [minus(more, FEW - 32)])

    def full_buffers(self):
        """Makes a chunk of no bytes with a full buffer a separate case."""
        for (place, f), end, length, facts in super().small_pieces():
            if is_same_number(length, 0) and not is_same_number(f, 0):
                yield (place, self.capacity), (place, self.capacity), length, facts
                facts = [*facts, at_most(f, self.capacity - 1)]
            yield (place, f), end, length, facts

    @staticmethod
    def with_limit(case):
        """Adds the fact that an update's chunk fits in memory."""
        start, end, length, facts, *rest = case
        return start, end, length, [*facts, at_most(length, LONGEST)], *rest

    def small_pieces(self):
        for case in self.full_buffers():
            (place, _), *_ = case
            yield from self.by_stripes(case, place)

    def starts(self, is_split, gs=None):
        """Yields the states before updates. In the modules' loops a block's last stripe is not a separate case."""
        for start in super().starts(False, gs):
            yield from (Start(*case) for case in self.by_stripes(start, start.place))

    def by_stripes(self, case, place):
        """Splits a case, whose last item is its facts: stripes were taken before, or none."""
        *others, facts = case
        if is_same_number(self.stripes(place), 0):
            yield case
            return
        yield *others, [*facts, minus(self.stripes(place), 1)]
        if is_same_number(place[1], variable("j")):  # other places in a block have a stripe before them
            yield in_numbers(in_numbers((*others, facts), "b", 0), "j", 0)

    def update(self, start, end, length, facts, *rest):
        super().update(start, end, length, [*facts, self.of_stripes(start[0])], *rest)

    def digest(self, place, f, facts, *rest):
        super().digest(place, f, [*facts, self.of_stripes(place)], *rest)

    def of_stripes(self, place):
        """Returns the maximum of stripes as a fact. It follows from the bytes, but not as a sum of facts."""
        return at_most(self.stripes(place), MOST_BYTES // 64)

    def all_taken(self):
        """Splits cases from a block's last stripe to a block's end: the loop tests for another whole block."""
        for secret, case in super().all_taken():
            turns = plus(0, 0, *(part.turns for part in case[1]))
            case = *case[:2], [*case[2], at_most(times(64, turns), LONGEST)], *case[3:]
            asks = is_same_number(turns, plus(times(self.q, variable(BLOCKS)), 1))
            yield from ((secret, one) for one in (parted(case, 2) if asks else [case]))

    def taker(self, summary):
        return functools.partial(self.takers.call, summary.name)

    def run(self, live, what, parts, *arguments, summaries=()):
        vm, family = self.cpu, self.family(*parts)
        vm.seed, vm.has_asked = None, False
        vm.replaced = self.takers.replaced(summaries, family, self.source, self.secret_source)
        try:
            return self.with_loops(Loops(family, live), functools.partial(what, *arguments))
        finally:
            vm.replaced = {}

    def expect_stack(self, summary):
        self.takers.expect_stack(summary.name)
