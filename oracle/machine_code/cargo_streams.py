"""Proves the chunks of XXH3 streams of a cargo source, like xxh3_states.py for the C library. A stream has no mark,
seed or secret: each call takes the secret as an argument."""
from oracle.symbolic_terms import at_most, is_same_number, minus

from . import layouts
from .xxh3_states import CallersSecret, Through
from .xxh3_updates import LONG_PIECE, UPDATES

FEW = 64  # bytes of a chunk, up to which a write has a separate path


class CargoThrough(Through):
    at, TITLE = layouts.CORE, "pieces of XXH3 that don't fit in the buffer"


class CargoUpdates(CallersSecret):
    at, TITLE, HAS_SEED = layouts.CORE, "pieces of XXH3", (0,)
    TASKS: tuple[str, ...] = (UPDATES,)
    SPANS = (1, FEW), (FEW + 1, LONG_PIECE - 1), (LONG_PIECE, None)

    def own(self):
        return []

    def small_pieces(self):
        """Makes a chunk of no bytes with a full buffer a separate case."""
        for (place, f), end, length, facts in super().small_pieces():
            if is_same_number(length, 0) and not is_same_number(f, 0):
                yield (place, self.capacity), (place, self.capacity), length, facts
                facts = [*facts, at_most(f, self.capacity - 1)]
            yield (place, f), end, length, facts

    @staticmethod
    def ways_from_33(more):
        yield from ([at_most(more, FEW - 33)], [minus(more, FEW - 32)])


PROOFS = CargoThrough, CargoUpdates
