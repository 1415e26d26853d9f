"""Proves the streams of a `RawHasher` over a secret of the caller by induction, like ../xxh3_states.py for the C
library, in the build with the assembly source. A chunk that doesn't fit in the buffer is one call of that source, with
the unchanged stream, its secret and the chunk; ../cargo_streams.py proves this call. Digests are rustc's code."""
import functools
import types

from oracle.symbolic_terms import (
    LONGEST,
    Input,
    NotShown,
    Piece,
    Request,
    at_most,
    given,
    is_same_number,
    plus,
    same,
    times,
)

from .. import layouts
from ..cargo_streams import CargoUpdates
from ..stream_state import State
from ..stripes import is_at
from ..xxh3_updates import DIGESTS, UPDATES
from . import choice, uses
from .library import ways

PREFIX = "raw_given_{}_"  # of the exports of these streams
FILLED = 200  # bytes of the stream whose other fields a proof's state has
LONGEST_SLICE = (1 << 63) - 1
WRITES = "_xxh3_write", "_xxh3_write_v3", "_xxh3_write_v4"  # ends of the assembly source's names


class RawStreams(CargoUpdates):
    TASKS, HAS_SEED, has_seed = (UPDATES, DIGESTS), (1,), 1

    def __init__(self, cpu, width="64"):
        self.hash_name = f"3-{width}"
        self.way = next(way for way in ways(self.hash_name) if way.prefix == PREFIX.format(f"3_{width}"))
        first = self.place_of_core(cpu)
        fields = {name: first + at for name, at in vars(layouts.CORE).items() if name not in ("size", "capacity")}
        self.at, self.span = types.SimpleNamespace(**{**vars(layouts.CORE), **fields}), range(
            first, first + layouts.CORE.size
        )
        super().__init__(cpu)

    # ---- states

    def filled(self, cpu, secret):
        """Returns a stream of FILLED bytes, with a secret."""
        request = Request(self.hash_name, "both", FILLED, secret.length, cuts=[])
        request.secret = secret
        state, library = uses.started(cpu, self.hash_name, self.way, request)
        library.update(cpu, self.hash_name, state, Piece(request.message, 0, FILLED))
        return state

    def place_of_core(self, cpu):
        """Returns the offset of the stream's core, of which the assembly source gets the address."""
        calls, state = [], self.filled(cpu, Input("s", 136))
        try:
            self.replace(cpu, functools.partial(choice.record, cpu, calls, True))
            cpu.library.update(cpu, self.hash_name, state, Input("chunk", layouts.CORE.capacity))
        finally:
            cpu.replaced = {}
        (((memory, at), *_),) = calls
        if memory is not state:
            raise NotShown(f"a core in {memory.name}")
        return at

    @staticmethod
    def replace(cpu, what):
        cpu.replaced.update({place: what for name, place in cpu.program.functions.items() if name.endswith(WRITES)})

    def state(self, place, f, runs=(), has_seed=None, seed=None):
        """Returns a stream that has another core: all other fields are those of a real one."""
        loops, self.cpu.loops = self.cpu.loops, None
        other = self.filled(self.cpu, self.secret_source)
        self.cpu.loops = loops
        cells = [(at, n, x) for at, (n, x) in other.cells.items() if at not in self.span]
        state = State(
            "state",
            other.length,
            cells,
            [*self.buffered(place, f), *runs],
            (self.at.buffer, self.at.buffer + self.capacity),
        )
        for at, x in [*self.cells_of(self.accumulators(place)), *self.numbers(place, f)]:
            state.store(at, 8, x)
        return state

    def start(self):
        """Proves that a new stream has the core of no bytes, and otherwise the fields that `state` takes."""
        request = Request(self.hash_name, "both", 0, self.secret_length, cuts=[])
        request.secret = self.secret_source
        self.begin(0)
        with given(*self.facts):
            state, _ = uses.started(self.cpu, self.hash_name, self.way, request)
            other = self.filled(self.cpu, self.secret_source)
            for at, x in [*self.cells_of(map(self.after(0), range(8))), *self.numbers((0, 0), 0)]:
                uses.expect(f"a new stream at {at}", state.load(at, 8), x)
            if not all(
                same(state.cells.get(at, (n, None))[1], x) for at, (n, x) in other.cells.items() if at not in self.span
            ):
                raise NotShown("a new stream has other fields")

    # ---- updates

    def update(self, start, end, length, facts, *more, **lost):
        super().update(start, end, length, [*facts, at_most(length, LONGEST_SLICE)], *more, **lost)

    def long_update(self, place, f, length, facts, *_):
        """Proves that an update by a chunk that doesn't fit is one call, and changes nothing before or after it."""
        begun = plus(times(64, self.stripes(place)), f)
        self.begin(plus(begun, length))
        with given(*self.facts, *facts, at_most(length, LONGEST_SLICE), at_most(self.source.length, LONGEST)):
            state, calls = self.state(place, f), []
            before = dict(state.cells)
            self.run([state], functools.partial(self.ask_long, calls), [], state, Piece(self.source, begun, length))
            if len(calls) != 1 or any(state.cells[at] is not x for at, x in before.items()):
                raise NotShown(f"an update of {length} bytes: {len(calls)} calls, or a change")

    def ask_long(self, calls, state, piece):
        self.replace(self.cpu, functools.partial(self.called, calls, state, piece))
        self.library.update(self.cpu, self.hash_name, state, piece)

    def called(self, calls, state, piece):
        core, own, size, chunk, length = map(self.cpu.argument, self.cpu.ARGUMENTS[:5])
        if (
            core.place() != (state, self.span[0])
            or chunk.place() != (piece, 0)
            or not is_same_number(length, piece.length)
            or not is_same_number(size, self.secret_length)
            or not is_at(own, self.secret_source, 0, size)
        ):
            raise NotShown(f"a call with {length} bytes, and a secret of {size}")
        calls.append(core)
        to = self.cpu.return_from_another()
        self.cpu.registers["rax"] = 0
        return to

    # ---- queries

    def queries(self, what):
        """Returns the updates, or the digests of one width."""
        if what == UPDATES:
            return [self.start, *super().queries(what)]
        return [functools.partial(self.digest, *case, 1, self.hash_name[2:]) for case in self.digests()]
