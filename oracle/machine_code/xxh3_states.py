"""Proves the states of XXH3 of the C library, with an own secret of 192 bytes or one of the caller, which each call
takes. An update by a chunk that doesn't fit in the buffer adds its length, and is a call of a function of `Through`."""
import functools
import itertools

from oracle.symbolic_terms import (LONGEST, NotShown, Piece, at_most, given, is_natural, is_same_number, minus, nodes,
                                   plus, same, times, variable)

from . import exports, layouts, streams
from .memory import ENTRY
from .stream_state import State
from .stripes import DEEP, LEAST_ENTRY, Part, is_at
from .values import address
from .xxh3_updates import BLOCK, DIGESTS, LONG_PIECE, SHORT, STRIPES, UPDATES, WIDTHS, Xxh3Updates

RESET = "twox_c_reset_xxh3_secret"
# The functions for chunks that don't fit: of fewer than LONG_PIECE bytes, and of others.
THROUGH = "twox_core.xxhash3.streaming.stream_counts.StreamCounts.write_through"
BOTH = THROUGH, f"{THROUGH}.2"


class Through(Xxh3Updates):
    """Proofs of these functions: they get the counts, the chunk, the secret and the buffer, with the total after it."""
    at, TITLE = layouts.STATE, "streams of XXH3, chunks that don't fit in the buffer"

    def queries(self, what):
        """Leaves out the chunks that fit."""
        return [ask for ask in super().queries(what) if what == STRIPES or len(ask.args) > 4]

    def lost_totals(self, *_):
        """Empty: these functions don't change totals."""

    def size(self):
        return self.at.buffer + self.capacity

    def write(self, cpu, _, state, piece):
        total = state.load(self.at.total_bytes, 8)
        state.store(self.at.total_bytes, 8, total if is_same_number(total, LONGEST) else plus(total, piece.length))
        cpu.call(BOTH[is_natural(minus(piece.length, LONG_PIECE))], address(state), address(piece), piece.length,
                 address(self.secret_source), self.secret_length, address(state, self.at.buffer),
                 into=cpu.TAKES_STRIPES)
        if cpu.stack.lowest < ENTRY - 2 * DEEP:
            raise NotShown(f"{THROUGH}: more than {2 * DEEP} bytes of stack")


class CallersSecret(Xxh3Updates):
    """Proofs of states with a secret of the caller, of any length, and with each mark."""
    at, TITLE, MARKS = layouts.STATE, "streams of XXH3, a caller's secret", layouts.CALLERS_MARKS
    TASKS: tuple[str, ...] = UPDATES, DIGESTS
    SPANS: tuple[tuple, ...] = (1, LONG_PIECE - 1), (LONG_PIECE, None)      # lengths that have a path

    def queries(self, what):
        long = [functools.partial(self.long_update, *case, is_lost)
                for case in self.long_pieces() for is_lost in (False, True)]
        return [*super().queries(what), *(long if what == UPDATES else [])]

    def all_updates(self):
        return self.small_pieces()

    def update(self, *case, **lost):
        for self.has_seed in self.HAS_SEED:
            super().update(*case, **lost)

    def own(self):
        return [(self.at.mark, self.MARKS[self.has_seed]), (self.at.secret_length, self.secret_length),
                (self.at.address, nodes.symbol("address", 64)), (self.at.seed, self.seed)]

    # ---- chunks that don't fit in the buffer

    def long_pieces(self):
        """Yields the chunks that don't fit, as arguments of `long_update`. A full buffer is a separate case."""
        b, j, f, n = (variable(name) for name in "bjfn")
        bounds = (1, self.capacity - 1), (self.capacity, self.capacity)
        for place, buffered, facts in (((0, 0), 0, []), *(
                ((b, j), f, [minus(minus(self.q, 1), j), minus(f, low), at_most(f, high)]) for low, high in bounds)):
            length = plus(minus(self.capacity + 1, buffered), n)
            for least, most in self.SPANS:
                if most is None or buffered is f or most > self.capacity:
                    yield (place, buffered, length,
                           [*facts, minus(length, least), *([at_most(length, most)] if most else [])], not most)

    def long_update(self, place, f, length, facts, is_long, is_lost):
        """Proves that an update adds the chunk's length, or becomes 2 ^ 64 - 1, and is one call of a function of
        `Through`, after which it changes nothing. Without buffered bytes the total is 0."""
        begun, lost = plus(times(64, self.stripes(place)), f), variable("lost")
        self.begin(plus(begun, length, variable("rest")))
        of_lost = [at_most(lost, minus(length, 1))] if is_lost else []
        with given(*self.facts, *facts, *of_lost, at_most(self.source.length, LONGEST)):
            for self.has_seed in () if is_lost and is_same_number(f, 0) else self.HAS_SEED:
                state, calls = self.state(place, f), []
                state.store(self.at.total_bytes, 8, minus(LONGEST, lost) if is_lost else begun)
                expected = {**state.cells, self.at.total_bytes: (8, LONGEST if is_lost else plus(begun, length))}
                self.run([state], functools.partial(self.ask_long, calls), [], state, Piece(self.source, begun, length))
                if [index for index, _ in calls] != [is_long] or \
                        any(state.cells[at] is not x for at, x in calls[0][1].items()):
                    raise NotShown(f"an update of {length} bytes: {len(calls)} calls, or a change after one")
                self.expect_cells("a call for a chunk that doesn't fit", state, expected)

    def ask_long(self, calls, state, piece):
        for index, name in enumerate(BOTH):
            self.cpu.replaced[self.cpu.program.functions[name]] = functools.partial(
                self.called, calls, index, state, piece)
        self.library.update(self.cpu, "3-64", state, piece)

    def called(self, calls, index, state, piece):
        """Checks a call of a function of `Through`."""
        counts, chunk, length, secret, size, buffer = map(self.cpu.argument, self.cpu.TAKES_STRIPES)
        is_secret = secret.place() == (state, self.at.secret) if self.secret_runs() else \
            is_at(secret, self.secret_source, 0, size)
        _, floor = self.cpu.frame()
        if floor % 16 or floor < LEAST_ENTRY or counts.place() != (state, 0) or \
                buffer.place() != (state, self.at.buffer) or chunk.place() != (piece, 0) or \
                not is_same_number(length, piece.length) or not is_secret or \
                not is_same_number(size, self.secret_length):
            raise NotShown(f"a call of {THROUGH} with {length} bytes, and a secret of {size}")
        calls.append((index, dict(state.cells)))
        return self.cpu.return_from_another()

    # ---- reset

    def resets(self):
        """Yields the resets, as arguments of `reset`. A secret of OWN bytes is copied."""
        for facts in ([at_most(self.secret_length, layouts.OWN - 1)], [minus(self.secret_length, layouts.OWN + 1)]):
            yield from ((RESET, None, facts), (f"{RESET}_and_seed", "seed", facts))

    def reset(self, name, seed, facts=()):
        """Proves a reset of memory with any content: it becomes an empty state, with the given secret or one derived
        from the seed. Before a derivation the sources test if the seed is 0."""
        seed = nodes.symbol("seed64", 64) if seed == "seed" else seed
        is_given, self.has_seed, self.seed = name.startswith(RESET), int(seed is not None), seed
        arguments = [address(self.secret_source), self.secret_length, nodes.symbol("address", 64)] if is_given else []
        arguments += [seed] if name.lower().endswith("seed") else []
        self.begin(0)
        with given(*self.facts, *facts):
            cells = [(at, 8, self.cpu.fresh("a state's word")) for at in range(0, self.size(), 8)]
            state = State("state", self.size(), cells, [], (0, 0))
            answer = self.run([state], name, [], address(state), *arguments,
                              not_zero=[seed] if isinstance(seed, nodes.Node) and not is_given else [])
            streams.expect_answer(answer, streams.OK)
            expected = [*self.cells_of(map(self.after(0), range(8))), *self.numbers((0, 0), 0)]
            expected += self.own() if self.has_seed else self.own()[:-1]
            secret = self.secret if is_given else self.texts["derived_secret"](seed)
            own = range(0, layouts.OWN, 8) if self.secret_runs() else ()
            for at, x in [*expected, *((self.at.secret + k, self.texts["word64"](secret, k)) for k in own)]:
                if not same(state.load(at, 8), x):
                    raise NotShown(f"{name}: the state at {at} is {state.load(at, 8)} and not {x}")


class OwnSecret(CallersSecret):
    """Proofs of states with an own secret: the default one, a derived one, or a copy of the caller's."""
    MARKS, TITLE = layouts.OWN_MARKS, "streams of XXH3, an own secret"

    def queries(self, what):
        return [*([self.one_update] if what == UPDATES else []), *super().queries(what)]

    def one_update(self):
        """Checks that an update has the same code for both widths."""
        if len({str(exports.code_of(self.cpu.program, f"proved_XXH3_{width}bits_update")) for width in WIDTHS}) > 1:
            raise NotShown("two updates")

    def use(self, *_):
        super().use(BLOCK, 0)

    def own(self):
        return [(self.at.mark, self.MARKS[self.has_seed]), (self.at.address, 0), (self.at.seed, self.seed)]

    def secret_runs(self):
        return [(self.at.secret, self.at.secret + layouts.OWN, self.secret_source, -self.at.secret)]

    def resets(self):
        for name in [f"proved_XXH3_{width}bits_reset" for width in WIDTHS]:
            yield from ((name, 0), (f"{name}_withSeed", "seed"), (f"{name}_withSeed", 0))
        yield from ((RESET, None), (f"{RESET}_and_seed", "seed"))

    def digests(self):
        """Yields the digests with few bytes in the buffer, and with each number of stripes at each place in a block."""
        b, h = variable("b"), variable("h")
        yield from (case for case in super().digests() if not case[3])
        for g, j in itertools.product(range(1, self.whole), range(BLOCK)):
            f, end = plus(times(64, g), h, 1), (plus(b, (j + g) // BLOCK), (j + g) % BLOCK)
            yield ((b, j), f, [minus(plus(times(64, self.stripes((b, j))), f), SHORT + 1), at_most(h, 63)],
                   [Part((b, j), g, end)])


PROOFS = Through, CallersSecret, OwnSecret
