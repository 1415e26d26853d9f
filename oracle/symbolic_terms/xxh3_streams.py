"""Proves the streams of XXH3 by induction over the updates: reset, any number of updates of any lengths, digests of 64
and 128 bits.

A state represents the first N = 64 K + f bytes of a message, K = q b + j stripes, j < q. q is the number of stripes in
a block, f <= 256 the number of buffered bytes, f = 0 only if N = 0, and K is 0 or at least 4. Its accumulators are the
definition's after K stripes, its counters j, f and N. Its buffer begins with the last f bytes. If K > 0, the other
bytes of the buffer from 192 on are the last stripe's.

The secret is outside of the state, with any length, or inside, where one derived from a seed is stored. Its bytes are
symbols: derived secrets and the default one are instances."""
from typing import Any

from . import definition, nodes
from .definition import Bytes
from .every_length import DEFAULT_STRIPES, SHORTEST_SECRET_STRIPES, Proof, cells_at, suppositions, xxh3_loop
from .header_names import REFERENCE
from .refusals import NotShown
from .requests import LONGEST_SECRET, seed_symbol
from .loops import loops_of
from .machine import Module
from .memory import Input, Memory, Piece
from .nodes import symbol
from .operations import side_by_side
from .polynomials import agree, at_most, divided, given, is_natural, is_same_number, minus, plus, Poly, times, variable
from .reference import BESIDE

LONGEST = (1 << 63) - 1  # bytes of a stream: the header takes differences of addresses as signed numbers
FIELDS = [
    "accumulators",
    "inside",
    "buffer",
    "buffered",
    "uses_seed",
    "so_far",
    "total",
    "per_block",
    "limit",
    "seed",
    "reserved",
    "outside",
]
BUFFER, STRIPE, LAST_STRIPE = 256, 64, 192
DEFAULT_SECRET = 192
OK = 0
WIDTHS = "64", "128"
PLACES = "outside", "inside"
Place = tuple[Any, Any, Any]  # blocks, stripes of the next one, and buffered bytes


class Xxh3Streams(Proof):
    """Proves streams with the secret `place`, "outside" or "inside", of the state. Outside, q >= 9 is symbolic."""

    def __init__(self, module, place):
        super().__init__(module)
        layout = module.types[self.names.state_3]
        self.at = {name: layout.offset(k) for k, name in enumerate(FIELDS)}
        self.size, self.place, self.source = layout.size(), place, Input("m", 0)
        self.message = Bytes(self.source, 0, 0)
        self.seed, self.uses_seed = seed_symbol("3-64"), symbol("uses_seed", 32)
        self.is_0_8_1 = self.names is REFERENCE and bool(loops_of(module.functions["@XXH3_update"]))  # not in 0.8.3
        self.use_stripes(variable("q") if place == "outside" else DEFAULT_STRIPES)

    def use_stripes(self, q):
        """Sets q stripes per block."""
        u = variable("u") if self.place == "outside" else 0
        self.q, self.secret_length = q, plus(STRIPE, times(8, q), u)
        self.secret_source = Input("s", self.secret_length)
        self.secret = Bytes(self.secret_source, 0, self.secret_length)
        self.facts = [minus(7, u), minus(q, SHORTEST_SECRET_STRIPES), at_most(self.secret_length, LONGEST_SECRET)]

    # ---- states

    def after(self, i, k):
        return self.texts["Long.accumulator_after"](self.secret, self.message, i, k)

    def stripes(self, b, j):
        return plus(times(self.q, b), j)

    def bytes_of(self, b, j, f):
        return plus(times(STRIPE, self.stripes(b, j)), f)

    def numbers(self, b, j, f):
        """Returns the content of a state, without accumulators and buffer: (offset, size, value)."""
        values = {
            "buffered": (4, f),
            "so_far": (8, j),
            "total": (8, self.bytes_of(b, j, f)),
            "per_block": (8, self.q),
            "uses_seed": (4, self.uses_seed),
            "seed": (8, self.seed),
            "limit": (8, minus(self.secret_length, STRIPE)),
            "outside": (8, (self.secret_source, 0) if self.place == "outside" else 0),
        }
        return [(self.at[name], size, x) for name, (size, x) in values.items()]

    def run(self, low, high, place):
        """Returns a run: bytes low .. high - 1 of the buffer are the message's from place + low on."""
        first = self.at["buffer"]
        return plus(first, low), plus(first, high), self.source, minus(place, first)

    def buffered(self, b, j, f):
        return [] if is_same_number(f, 0) else [self.run(0, f, times(STRIPE, self.stripes(b, j)))]

    def before(self, b, j, low):
        """Returns the run of the end of the last stripe, in the buffer from `low` on."""
        return self.run(low, BUFFER, minus(times(STRIPE, self.stripes(b, j)), BUFFER))

    def secret_runs(self):
        first = self.at["inside"]
        return [(first, first + DEFAULT_SECRET, self.secret_source, -first)] if self.place == "inside" else []

    def ends(self, b, j, f):
        """Yields the required contents of the buffer, by the possible cases of f: (facts, runs)."""
        if not is_natural(minus(f, LAST_STRIPE + 1)):
            yield [at_most(f, LAST_STRIPE)], [*self.buffered(b, j, f), self.before(b, j, LAST_STRIPE)]
        if not is_natural(minus(LAST_STRIPE - 1, f)):
            yield [minus(f, LAST_STRIPE)], [*self.buffered(b, j, f), self.before(b, j, f)]

    def state(self, b, j, f, runs):
        k = self.stripes(b, j)
        suppositions.clear()
        accumulators = self.symbols_after(k, lambda i: self.after(i, k), 8, 64)
        cells = self.numbers(b, j, f) + [(self.at["accumulators"] + 8 * i, 8, x) for i, x in enumerate(accumulators)]
        buffer = self.at["buffer"]
        return Memory(
            "state", self.size, cells, [*self.secret_runs(), *runs], run_area=(buffer, buffer + BUFFER), alignment=64
        )

    def expect_state(self, what, memory, b, j, f, runs):
        accumulators = [(self.at["accumulators"] + 8 * i, 8, self.after(i, self.stripes(b, j))) for i in range(8)]
        for at, size, x in self.numbers(b, j, f) + accumulators:
            if not agree(memory.load(at, size), x):
                raise NotShown(f"{what}: the state at {at} is {memory.load(at, size)} and not {x}")
        for run in [*runs, *self.secret_runs()]:
            if not memory.has_run(run):
                raise NotShown(f"{what}: the state isn't {run[3]} from {run[0]} to {run[1]}, but {memory.runs()}")

    # ---- updates

    def one_update_for_both_widths(self):
        """Checks that the update of 128 bits has the code of the one of 64, or calls it: then one proof covers both."""
        both = [self.module.functions[f"@XXH_INLINE_XXH3_{width}bits_update"] for width in WIDTHS]
        lines = [line for block in both[1].blocks.values() for line in block]
        called = [parts[0].value.name for _, operation, parts in lines if operation == "call"]
        if both[0].blocks != both[1].blocks and called != [both[0].name]:
            raise NotShown("two updates")
        self.module.called.add(both[0].name)

    def update(self, start: Place, end: Place, runs, expected, facts, blocks=None):
        """Proves an update by one chunk from a state (b, j, f) to another. `blocks` describes the loop over blocks."""
        begun, ended = self.bytes_of(*start), self.bytes_of(*end)
        length, rest = minus(ended, begun), variable("rest")
        self.source.length = self.message.end = plus(ended, rest)
        self.cases += 1
        with given(*self.facts, at_most(plus(ended, rest), LONGEST), *facts):
            self.prepare({})
            self.module.beside = BESIDE
            memory = self.state(*start, runs)
            self.module.live.append(memory)
            self.module.loops.describers[self.names.stripes] = self.of_stripes
            if blocks:
                self.module.loops.describers.update(dict.fromkeys(self.names.update_blocks, blocks))
            if (
                self.module.call(
                    "@XXH_INLINE_XXH3_128bits_update", [(memory, 0), (Piece(self.source, begun, length), 0), length]
                )
                != OK
            ):
                raise NotShown("an update answers an error")
            self.expect_some_stripes(start, end)
            for more, end_runs in expected:
                with given(*more):
                    self.expect_state("update", memory, *end, end_runs)
        if len(nodes.NODES) > 100000:
            nodes.forget()
            self.seed, self.uses_seed = seed_symbol("3-64"), symbol("uses_seed", 32)
            self.texts = definition.program().run(traced=suppositions)

    def update_by_ends(self, start, end, runs, facts, blocks=None):
        """Proves an update that overwrites bytes of the last stripe in the buffer, or none: the cases that can be."""
        with given(*self.facts, *facts):
            ends = list(self.ends(*end))
        for of_end, end_runs in ends:
            self.update(start, end, runs, [([], end_runs)], [*facts, *of_end], blocks)

    def expect_some_stripes(self, start, end):
        """Checks that at least four stripes were taken, if any."""
        k = self.stripes(*end[:2])
        if not is_same_number(k, self.stripes(*start[:2])) and not is_natural(minus(k, 4)):
            raise NotShown("fewer than four stripes are taken")

    def of_stripes(self, function, registers):
        """Describes the loop over stripes if their number is symbolic. At a block's end, the last iteration includes
        the scramble."""
        count = registers.get(self.names.stripe_count)
        if not isinstance(count, Poly):
            return None
        piece, at = registers[self.names.input]
        first = divided(piece.origin(at)[1], STRIPE)[0]
        secret, place = registers[self.names.secret]
        position = divided(minus(place, self.at["inside"] if self.place == "inside" else 0), 8)[0]
        is_whole = is_same_number(plus(position, count), self.q)
        return xxh3_loop(
            self.after,
            "stripes",
            minus(count, int(is_whole)),
            cells_at(registers[self.names.array]),
            lambda k: plus(first, k),
        )

    def loop(self, name, last, place, then=None):
        """Describes a loop of an update: after k iterations the accumulators are the words after place(k) stripes."""

        def describe(function, registers):
            memory = self.module.live[len(self.module.globals)]
            cells = cells_at((memory, self.at["accumulators"]))
            out = xxh3_loop(self.after, name, last, cells, place)
            out.then = then(function, registers) if then else None
            return out

        return describe

    def updates(self):
        self.small_pieces()
        for start, facts, b, j in self.starts():
            self.rest_in_buffer(start, facts, b, j)
            if self.is_0_8_1:
                self.whole_blocks(start, facts, b, j)
                self.by_buffers_within_a_block(start, facts, b, j)
            else:
                self.within_a_block(start, facts, b, j)
                self.to_ends_of_blocks(start, facts, b, j)
        if self.is_0_8_1:
            self.by_buffers_over_an_end()

    def small_pieces(self):
        """Proves chunks that fit in the buffer."""
        b, j, f, L = (variable(name) for name in "bjfL")
        after = plus(f, L)
        fits = at_most(after, BUFFER)
        self.update((0, 0, f), (0, 0, after), self.buffered(0, 0, f), [([], self.buffered(0, 0, after))], [fits])
        there = [fits, at_most(j, minus(self.q, 1)), minus(self.stripes(b, j), 4), minus(f, 1)]
        start, end = (b, j, f), (b, j, after)
        for low, of_f in ((LAST_STRIPE, at_most(f, LAST_STRIPE)), (f, minus(f, LAST_STRIPE))):
            runs = [*self.buffered(*start), self.before(b, j, low)]
            self.update_by_ends(start, end, runs, [*there, of_f])

    def starts(self):
        """Yields the states before an update that takes stripes, with facts, and the block and stripe after the
        buffer."""
        b, j, f = (variable(name) for name in "bjf")
        yield (0, 0, 0), [], 0, 0
        there = [minus(f, 1), at_most(f, BUFFER)]
        yield (b, j, f), [*there, at_most(j, minus(self.q, 5))], b, plus(j, 4)
        for i in range(1, 5):
            yield (b, minus(self.q, i), f), there, plus(b, 1), 4 - i

    def rest_in_buffer(self, start, facts, b, j):
        """Proves updates that take the buffer's stripes, and store the rest of the chunk in the buffer."""
        R = variable("R")
        if not is_same_number(start[2], 0):
            self.update(
                start, (b, j, R), self.buffered(*start), self.ends(b, j, R), [*facts, minus(R, 1), at_most(R, BUFFER)]
            )

    # ---- chunks of which more is left than fits in the buffer: release 0.8.3

    def within_a_block(self, start, facts, b, j):
        """Proves S stripes after the buffer, which end within the block, and 1 + h bytes."""
        S, h = variable("S"), variable("h")
        end = b, plus(j, S), plus(1, h)
        more = [minus(S, 4), at_most(h, 63), minus(minus(self.q, 1), plus(j, S))]
        self.update(start, end, self.buffered(*start), self.ends(*end), [*facts, *more])

    def to_ends_of_blocks(self, start, facts, b, j):
        """Proves stripes to the block's end, D blocks, e stripes, 1 + h bytes."""
        h, e, D = (variable(name) for name in ("h", "e", "D"))
        for blocks, of_blocks in ((0, []), (D, [minus(D, 1)])):
            for last, of_last in ((0, []), (e, [minus(e, 1), at_most(e, minus(self.q, 1))])):
                S = plus(minus(self.q, j), times(self.q, blocks), last)
                end = plus(b, 1, blocks), last, plus(1, h)
                self.update(
                    start,
                    end,
                    self.buffered(*start),
                    self.ends(*end),
                    [*facts, *of_blocks, *of_last, minus(S, 4), at_most(h, 63)],
                    self.loop_over_blocks(b, blocks),
                )

    def loop_over_blocks(self, b, blocks):
        """Describes the loop over blocks of an update. In the reference, its first iteration ends the block of the
        state. In c/include/xxhash.h it comes after that, and isn't described if the number of stripes is a number."""

        def place(k):
            return times(self.q, plus(b, 1, k))

        if self.names is REFERENCE:
            return at_second_time(self.loop("an update's blocks", minus(variable("D"), 1), place))
        describe = self.loop("an update's blocks", blocks, place)
        return lambda function, registers: (
            describe(function, registers) if isinstance(registers.get(self.names.stripe_count), Poly) else None
        )

    # ---- the same: release 0.8.1

    def whole_blocks(self, start, facts, b, j):
        """Proves at least a block after the buffer: to the block's end, D blocks, e stripes, and 1 + h bytes."""
        h, e, D = (variable(name) for name in ("h", "e", "D"))
        S = plus(minus(self.q, j), times(self.q, D), e)
        end = plus(b, 1, D), e, plus(1, h)
        more = [minus(S, self.q), at_most(h, 63), at_most(e, minus(self.q, 1))]
        self.update(
            start,
            end,
            self.buffered(*start),
            self.ends(*end),
            [*facts, *more],
            self.loop("an update's blocks", D, lambda k: times(self.q, plus(b, 1, k))),
        )

    def of_buffers(self, T):
        """Returns the facts if T times the buffer's length is taken, and h bytes are left: at most a block together."""
        h = variable("h")
        return [minus(h, 1), at_most(h, BUFFER), minus(times(STRIPE, self.q), plus(times(BUFFER, T), h))]

    def by_buffers_within_a_block(self, start, facts, b, j):
        """Proves T times four stripes, which end within the block."""
        T, h = variable("T"), variable("h")
        end = b, plus(j, times(4, T)), h
        more = [*self.of_buffers(T), minus(T, 1), minus(minus(self.q, 1), end[1])]
        self.update_by_ends(
            start,
            end,
            self.buffered(*start),
            [*facts, *more],
            self.loop("four stripes", minus(T, 1), lambda k: plus(self.stripes(b, j), times(4, k))),
        )

    def by_buffers_over_an_end(self):
        """Proves 4 K stripes in a block, four of which c end it, and 4 M stripes of the next block."""
        M, h, whole = variable("M"), variable("h"), self.q
        for start, facts, b, j, K, c, goes_on in self.starts_before_an_end():
            first = self.stripes(b, j)
            for times_more, of_more in ((0, []), (M, [minus(M, 1)]))[: 1 + goes_on]:
                end = plus(b, 1), plus(4 - c, times(4, times_more)), h
                behind = (
                    None
                    if is_same_number(times_more, 0)
                    else self.loop(
                        "four stripes behind",
                        minus(M, 1),
                        lambda k: plus(times(self.q, plus(b, 1)), 4 - c, times(4, k)),
                    )
                )
                describe = self.loop("four stripes to the next block", K, lambda k: plus(first, times(4, k)), behind)
                self.update_by_ends(
                    start,
                    end,
                    self.buffered(*start),
                    [*facts, *of_more, *self.of_buffers(plus(K, 1, times_more))],
                    describe,
                )
        self.use_stripes(whole)

    def starts_before_an_end(self):
        """Yields states like `starts`, with 4 K + c stripes, c from 1 to 4, left of the block, and whether four or more
        stripes can be left afterwards."""
        b, f, K, whole = variable("b"), variable("f"), variable("K"), self.q
        there = [minus(f, 1), at_most(f, BUFFER)]
        for c in range(1, 5):
            j = minus(whole, plus(times(4, K), c))
            yield (b, minus(j, 4), f), [*there, minus(j, 4)], b, j, K, c, True
        if not isinstance(whole, Poly) and whole % 4 == 0:  # for i < c <= 4, 4 - i stripes, 4 K and c make no block
            return
        for i in range(1, 5):
            for c in range(i + 1, 5):  # otherwise a block or more is taken
                self.use_stripes(plus(times(4, K), 4 - i + c))
                yield (b, minus(self.q, i), f), there, plus(b, 1), 4 - i, K, c, False

    # ---- reset and digest

    def update_of_nothing(self):
        """Checks that a null chunk changes nothing."""
        self.source.length = self.message.end = 3
        for width in WIDTHS:
            with given(*self.facts):
                memory = self.state(0, 0, 3, self.buffered(0, 0, 3))
                self.prepare({}, [memory])
                self.call_keeping("an update of nothing", memory, f"@XXH_INLINE_XXH3_{width}bits_update", 0, 0)
            self.cases += 1

    def digests(self, way):
        """Proves digests after a reset with a secret, with a seed, with both, or with a secret and the seed 0."""
        self.uses_seed, self.seed = int(way != "secret"), seed_symbol("3-64") if way in ("seed", "both") else 0
        b, j, h = (variable(name) for name in "bjh")
        for n in range(241):
            self.digest(way, 0, 0, n, self.buffered(0, 0, n), [])
        f = plus(241, h)
        self.digest(way, 0, 0, f, self.buffered(0, 0, f), [at_most(h, BUFFER - 241)])
        for at, of_at in [(j, [at_most(j, minus(self.q, 5))])] + [(minus(self.q, i), []) for i in range(1, 5)]:
            facts = [*of_at, minus(self.stripes(b, at), 4)]
            for low, most in ((1, 62), (64, 0), (65, 63), (129, 63), (193, 63)):
                f = plus(low, h) if most else low
                runs = self.buffered(b, at, f) + ([self.before(b, at, LAST_STRIPE)] if low <= 128 else [])
                self.digest(way, b, at, f, runs, [*facts, at_most(h, most)])

    def digest(self, way, b, j, f, runs, facts):
        n = self.bytes_of(b, j, f)
        self.source.length = self.message.end = n
        self.cases += 1
        with given(*self.facts, at_most(n, LONGEST), *facts):
            self.prepare({})
            memory = self.state(b, j, f, runs)
            if isinstance(self.seed, nodes.Node):
                self.module.suppose_different(self.seed, 0)
            for width in WIDTHS:
                secret = self.effective(way, width)
                ours = self.call_keeping("a digest", memory, f"@XXH_INLINE_XXH3_{width}bits_digest")
                ours = side_by_side(*((half, 64) for half in ours)) if width == "128" else ours
                if not nodes.is_same(ours, self.texts[f"xxh3_{width}"](self.seed, secret, self.message)):
                    raise NotShown(f"a digest of {n} bytes: another value")

    def effective(self, way, width):
        """Returns the effective secret. In release 0.8.1 a digest of 128 bits tests if the seed is 0, and not if one
        was given: the only difference between its streams and its one-shots (docs/C.md)."""
        if way == "secret" or way == "both 0" and width == "128" and self.is_0_8_1:
            return self.secret
        return self.texts["effective_secret"](self.secret, self.message)

    def resets(self):
        """Proves that each reset creates a state of 0 bytes. A seed's secret is derived, unless the state has it
        already. The seed 0 counts as no seed."""
        seed, default = seed_symbol("3-64"), (self.module.globals[self.names.default_secret], 0)
        if [default[0].load(k, 1) for k in range(DEFAULT_SECRET)] != list(self.texts["default_secret"]()) or self.texts[
            "derived_secret"
        ](0) != self.texts["default_secret"]():
            raise NotShown("another default secret")
        own = (self.secret_source, 0), self.secret_length
        for width in WIDTHS:
            if self.place == "outside":
                self.reset(f"{width}bits_reset_withSecret", own, 0, 0, *own)
                self.reset(f"{width}bits_reset_withSecretandSeed", (*own, seed), 1, seed, *own)
                self.reset(f"{width}bits_reset_withSecretandSeed", (*own, 0), 1, 0, *own)
                continue
            self.reset(f"{width}bits_reset", (), 0, 0, default, DEFAULT_SECRET)
            self.reset(f"{width}bits_reset_withSeed", (0,), 0, 0, default, DEFAULT_SECRET)
            self.reset(f"{width}bits_reset_withSeed", (seed,), 1, seed, 0, DEFAULT_SECRET)
            self.reset(f"{width}bits_reset_withSeed", (seed,), 1, seed, 0, DEFAULT_SECRET, symbol("other_seed", 64))
            self.reset(f"{width}bits_reset_withSeed", (seed,), 1, seed, 0, DEFAULT_SECRET, seed)

    def reset(self, name, arguments, uses_seed, seed, outside, secret_length, seed_before=0):
        """Proves a reset of a state with the seed `seed_before`, and a secret inside."""
        derived = [self.texts["word64"](self.texts["derived_secret"](seed), 8 * i) for i in range(DEFAULT_SECRET // 8)]
        inside = [(self.at["inside"] + 8 * i, 8, x) for i, x in enumerate(derived)]
        memory = Memory(
            "state", self.size, [(self.at["seed"], 8, seed_before), (self.at["outside"], 8, 0)], alignment=64
        )
        self.prepare({}, [memory])
        if seed_before is seed and outside == 0:
            memory.cells.update({at: (size, x) for at, size, x in inside})
        for a, b in ((seed, 0), (seed, seed_before)):
            if a is not b and isinstance(a, nodes.Node):
                self.module.suppose_different(a, b)
        self.uses_seed, self.seed = uses_seed, seed
        with given(*self.facts):
            if self.module.call(f"@XXH_INLINE_XXH3_{name}", [(memory, 0), *arguments]) != OK:
                raise NotShown("a reset answers an error")
            for at, size, x in self.reset_numbers(outside, secret_length) + (inside if outside == 0 else []):
                if not agree(memory.load(at, size), x):
                    raise NotShown(f"{name}: the state at {at} is {memory.load(at, size)} and not {x}")
        self.cases += 1

    def reset_numbers(self, outside, secret_length):
        """Returns the content of an empty state, whose secret is at `outside`, or inside if that is 0."""
        others = {
            "outside": outside,
            "limit": minus(secret_length, STRIPE),
            "per_block": divided(minus(secret_length, STRIPE), 8)[0],
        }
        cells = [cell for cell in self.numbers(0, 0, 0) if cell[0] not in [self.at[name] for name in others]]
        accumulators = [(self.at["accumulators"] + 8 * i, 8, self.after(i, 0)) for i in range(8)]
        return cells + [(self.at[name], 8, x) for name, x in others.items()] + accumulators


def at_second_time(describe):
    """Returns a function that describes a loop like `describe` when its head is reached again in one call."""
    seen = []

    def again(function, registers):
        if any(other is registers for other in seen):
            return describe(function, registers)
        seen.append(registers)
        return None

    return again


def show(module: Module, place: str) -> "Xxh3Streams":
    """Proves the streams of XXH3 whose secret is outside or inside of the state. Returns the proof, or raises."""
    streams = Xxh3Streams(module, place)
    streams.resets()
    streams.one_update_for_both_widths()
    streams.update_of_nothing()
    for way in ("secret", "both", "both 0") if place == "outside" else ("seed",):
        streams.digests(way)
    streams.uses_seed, streams.seed = symbol("uses_seed", 32), seed_symbol("3-64")
    streams.updates()
    return streams
