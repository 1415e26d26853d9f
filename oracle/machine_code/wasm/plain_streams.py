"""Proves the streams of XXH32 and XXH64 of a module by induction over the updates: a start, any number of updates of
any lengths, a digest. ../any_updates.py does this for an assembly source.

A record represents the first N = stripe * a + r bytes of a message if it has N, the seed, the definition's accumulators
after a stripes, the number r of buffered bytes, and these bytes. The rest of its buffer is unconstrained. Calls test if
the record's numbers are consistent, so a record without stripes, whose accumulators are known, is a separate case."""
import functools

from oracle.symbolic_terms import at_most, minus, plus, times, variable

from ..any_updates import AnyUpdates
from . import calls, every_length, layouts
from .induction import proved
from .machine import Machine


class PlainStreams(AnyUpdates):
    LAYOUTS, MARKED, library = layouts.PLAIN_RECORDS, 8, calls.Page  # the number of buffered bytes, without a mark
    longest = (1 << 64) - 2  # bytes of a stream, up to which its length is exact

    def __init__(self, vm, hash_name):
        super().__init__(vm, hash_name)
        self.messages, self.cases = [], 0

    def call(self, what, state, *rest, family=None):
        self.cpu.seed, self.cpu.has_asked, self.cases = None, False, self.cases + 1
        return proved(self, family, [state], functools.partial(what, self.cpu, *rest))

    def updates(self, each):
        """Proves updates from stripe * a + r bytes, for every `each`-th r, by chunks that complete no stripe, one, or
        more, and leave each number of bytes, or every second one if `each` isn't 1."""
        d = variable("d")
        for a in (0, variable("a")):
            for r in range(each - 1, self.stripe, each):
                for s in range(self.stripe - 1, -1, -1 if each == 1 else -2):
                    if s >= r:
                        self.update_of_page(a, r, a, s, [])
                    if r:
                        self.update_of_page(a, r, plus(a, 1), s, [])
                    self.update_of_page(a, r, plus(a, d), s, [minus(d, 2 if r else 1)])

    def update_of_page(self, a, r, b, s, facts):
        length = minus(plus(times(self.stripe, b), s), plus(times(self.stripe, a), r))
        of_a = [] if isinstance(a, int) else [minus(a, 1)]
        self.update_between(
            a,
            r,
            b,
            s,
            [*of_a, *facts, at_most(length, every_length.LONGEST)],
            self.family(b, plus(a, int(r > 0))) if facts else None,
        )


def show(vm: Machine, width: int, each: int = 1) -> PlainStreams:
    """Proves the streams of XXH32 or XXH64, with updates from every `each`-th number of buffered bytes. Returns the
    proof, or raises."""
    streams = PlainStreams(vm, str(width))
    streams.reset()
    streams.updates(each)
    for a in (0, variable("a")):
        for r in range(streams.stripe):
            streams.digest(a, r)
    return streams
