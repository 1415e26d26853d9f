"""The cases of the inductions over the objects of c/source/xxhash.c: one-shots of every length, and streams of XXH32
and XXH64 with any updates."""
import collections
import functools
from typing import Any

from oracle.symbolic_terms import at_most, is_same_number, minus, plus, times, variable
from oracle.symbolic_terms.polynomials import as_word, is_natural

from .. import any_updates, every_length
from ..any_updates import Update
from ..every_length import DERIVED, TURNS, Case, xxh3_case
from .objects import OF_STATE, at_each_residue

LEAST = 2  # turns of a case of XXH32 and XXH64: shorter lengths are compared one by one
OWN_SECRET = "secret", "both"
# Offsets in a state: of the total with its size, of the accumulators, of the buffer, and of the buffered bytes' number.
Layout = collections.namedtuple("Layout", "total size accumulators buffer buffered")
BY_HASH = {"32": Layout(0, 4, 8, 24, 40), "64": Layout(0, 8, 8, 40, 72)}
IS_LARGE = 4  # offset of a word of XXH32's states: 1 if there was a stripe


# ---- one-shots


def plain_cases(hash_name):
    """Yields the cases of XXH32 or XXH64: any number of stripes, and a rest."""
    stripe, turns = int(hash_name) // 2, variable(TURNS)
    for rest in range(stripe):
        yield Case(plus(times(stripe, turns), rest), turns, [minus(turns, LEAST)], {})


def xxh3_cases():
    """Yields the cases of XXH3 from 241 bytes on, by blocks of 16 stripes: none, one, and more."""
    turns, t = variable(TURNS), variable("t")
    yield xxh3_case(0, 3, minus(t, 48))
    for J in range(DERIVED):
        yield from [xxh3_case(0, J)] if J > 3 else []
        yield xxh3_case(1, J)
        yield xxh3_case(turns, J, minus(turns, LEAST))


def cases(algorithm: str) -> list[Case]:
    """Returns the cases of a kind. A secret has 192 to 199 bytes."""
    name, _, way = algorithm.partition(":")
    if not way:
        return list(plain_cases(name))
    found = list(xxh3_cases())
    if way not in OWN_SECRET:
        return found
    return [every_length.with_rest(case, rest) for case in found for rest in (False, True)]


def shortest(algorithm: str) -> int:
    """Returns the shortest length that the cases contain."""
    return 241 if ":" in algorithm else LEAST * int(algorithm) // 2


def left_out(algorithm: str) -> list[int]:
    """Returns the lengths that no case contains, one of each gap."""
    return every_length.left_out(
        cases(algorithm), shortest(algorithm), 64 * DERIVED if ":" in algorithm else int(algorithm) // 2
    )


class EveryLength(every_length.EveryLength):
    """Proves a case at each residue of the stack."""

    def show(self, case, seed=None):
        at_each_residue(self.cpu, functools.partial(super().show, case, seed))


# ---- streams of XXH32 and XXH64


class Updates(any_updates.AnyUpdates):
    """Proves the three steps for states with the layout of the header. An update takes the stripe in the buffer or
    not, and any number of others."""

    LAYOUTS: Any = BY_HASH

    def parts(self, a, r, accumulators):
        at, word, n = self.at, self.width // 8, plus(times(self.stripe, a), r)
        is_short = self.width == 32 and not is_natural(at_most(n, (1 << 32) - 1))
        yield at.total, at.size, as_word(n, 32) if is_short else n
        if self.width == 32:
            yield IS_LARGE, 4, int(not is_same_number(a, 0))
        yield from ((at.accumulators + word * j, word, x) for j, x in enumerate(accumulators))
        yield at.buffered, 4, r
        for k in range(r):
            yield at.buffer + k, 1, self.source.load(plus(times(self.stripe, a), k), 1)

    def state(self, a, r):
        state = super().state(a, r)
        self.cpu.lay(state, self.hash_name)
        return state

    def at_each_residue(self, ask):
        at_each_residue(self.cpu, ask, OF_STATE[self.hash_name])

    def show(self, one):
        """Proves an update of a state with any number of stripes. XXH32's states keep whether there was one."""
        a = variable("a")
        for begun in (a,) if self.width == 64 else (0, plus(a, 1)):
            self.at_each_residue(functools.partial(self.show_from, begun, one))

    def show_from(self, begun, one):
        d = variable("d")
        ended, facts = plus(begun, int(one.fills), d if one.more else 0), [minus(d, 1)] if one.more else []
        self.update_between(begun, one.r, ended, one.s, facts, self.family(ended) if facts else None)

    def ends(self):
        """Yields the proofs of the reset and of the digests."""
        yield functools.partial(self.at_each_residue, self.reset)
        for r in range(self.stripe):
            for a in (0, plus(variable("a"), 1)):
                yield functools.partial(self.at_each_residue, functools.partial(self.digest, a, r))


def updates(hash_name: str) -> list[Update]:
    """Returns the updates: r bytes before and s bytes after it in the buffer, with no further stripe, or any number."""
    return [one for one in any_updates.updates(hash_name) if one.further == 0]


def updates_left_out(hash_name: str) -> list[tuple[int, int]]:
    """Returns the chunks (r, length) that no update covers, for lengths up to three stripes."""
    stripe = int(hash_name) // 2
    found = {
        (one.r, stripe * (int(one.fills) + turns * one.more) + one.s - one.r)
        for one in updates(hash_name)
        for turns in range(1, 4)
    }
    return sorted({(r, length) for r in range(stripe) for length in range(3 * stripe)} - found)
