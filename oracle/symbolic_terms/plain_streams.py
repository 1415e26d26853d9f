"""Proves the streams of XXH32 and XXH64 by induction over the updates: reset, any number of updates, digest.

A state represents the first N bytes of a message if its total is N, its accumulators are the definition's after N /
stripe stripes, its memsize is N % stripe, and its buffer begins with the last memsize bytes. A reset creates a state of
0 bytes. An update leads from a state of N = stripe * a + r bytes to one of stripe * b + s. A digest returns the
definition's value and changes nothing."""
from .definition import Bytes
from .every_length import Proof, plain_loop
from .header_names import REFERENCE
from .machine import Module
from .refusals import NotShown
from .requests import LONGEST, seed_symbol
from .memory import Input, Memory, Piece
from .polynomials import agree, as_word, at_most, given, is_natural, is_same_number, minus, plus, times, variable
from .reference import BESIDE

FIELDS = {
    64: ["total", "accumulators", "buffer", "memsize"],
    32: ["total", "large", "accumulators", "buffer", "memsize"],
}
OK = 0


class PlainStreams(Proof):
    def __init__(self, module, width):
        super().__init__(module)
        self.width, self.stripe, self.word = width, width // 2, width // 8
        layout = module.types[self.names.state.format(width)]
        self.at = {name: layout.offset(k) for k, name in enumerate(FIELDS[width])}
        self.size, self.seed, self.whole = layout.size(), seed_symbol(str(width)), variable("whole")
        self.source = Input("m", self.whole)
        self.message = Bytes(self.source, 0, self.whole)

    def function(self, name):
        return f"@XXH_INLINE_XXH{self.width}_{name}"

    def accumulator(self, j, k):
        return self.texts[f"Xxh{self.width}.accumulator"](self.seed, self.message, j, k)

    # ---- states

    def total(self, n):
        """Returns the state's total of n bytes. XXH32 counts modulo 2 ^ 32."""
        return n if self.width == 64 or is_natural(at_most(n, (1 << 32) - 1)) else as_word(n, 32)

    def numbers(self, a, r, accumulators):
        """Returns the content of a state of stripe * a + r bytes, without the buffer: (offset, size, value)."""
        n = plus(times(self.stripe, a), r)
        out = [(self.at["total"], self.word, self.total(n)), (self.at["memsize"], 4, r)]
        if self.width == 32:
            out.append((self.at["large"], 4, int(not is_same_number(a, 0))))
        return out + [(self.at["accumulators"] + self.word * j, self.word, x) for j, x in enumerate(accumulators)]

    def buffered(self, a, r):
        """Returns the bytes of an incomplete stripe, as a run in the buffer."""
        first = self.at["buffer"]
        return (
            [] if is_same_number(r, 0) else [(first, plus(first, r), self.source, minus(times(self.stripe, a), first))]
        )

    def state(self, a, r):
        accumulators = self.symbols_after(a, lambda j: self.accumulator(j, a), 4, self.width)
        first = self.at["buffer"]
        return Memory(
            "state",
            self.size,
            self.numbers(a, r, accumulators),
            self.buffered(a, r),
            run_area=(first, first + self.stripe),
        )

    def expect_state(self, what, memory, a, r):
        self.cases += 1
        for at, size, x in self.numbers(a, r, [self.accumulator(j, a) for j in range(4)]):
            if not agree(memory.load(at, size), x):
                raise NotShown(f"{what}: the state at {at} isn't that of {self.stripe} * ({a}) + {r} bytes")
        for run in self.buffered(a, r):
            if not memory.has_run(run):
                raise NotShown(f"{what}: the buffer isn't that of {self.stripe} * ({a}) + {r} bytes")

    # ---- the three steps of the induction

    def reset(self):
        memory = Memory("state", self.size)
        self.prepare({}, memories=[memory])
        self.module.call(self.function("reset"), [(memory, 0), self.seed])
        with self.up_to(0):
            self.expect_state("reset", memory, 0, 0)

    def up_to(self, n, *more):
        """Returns the facts: n bytes of the whole message, of at most 2 ^ 64 - 1 bytes."""
        return given(at_most(self.whole, LONGEST), minus(self.whole, n), *more)

    def updates(self):
        """Proves updates from stripe * a + r bytes: by chunks that complete no stripe, one stripe, or more."""
        r, t, d = variable("r"), variable("t"), variable("d")
        some = [minus(r, 1), at_most(r, self.stripe - 1)]
        for a in (0, variable("a")):
            self.update(a, 0, a, t, [at_most(t, self.stripe - 1)])
            self.update(a, r, a, plus(r, t), [*some, at_most(plus(r, t), self.stripe - 1)])
            for s, of_s in ((0, []), (t, [minus(t, 1), at_most(t, self.stripe - 1)])):
                self.update(a, 0, plus(a, d), s, [*of_s, minus(d, 1)])
                self.update(a, r, plus(a, 1), s, [*some, *of_s, minus(minus(r, 1), s)])
                self.update(a, r, plus(a, d), s, [*some, *of_s, minus(d, 2)])
            self.update(a, r, plus(a, 1), t, [*some, at_most(t, self.stripe - 1), minus(t, r)])  # t >= 1 here

    def update(self, a, r, b, s, facts):
        """Proves an update by one chunk from stripe * a + r bytes to stripe * b + s."""
        begun, ended = plus(times(self.stripe, a), r), plus(times(self.stripe, b), s)
        first = plus(a, int(not is_same_number(r, 0)))  # the first stripe behind the buffered one
        with self.up_to(ended, *facts, *at_least_one(a)):
            self.prepare({})
            self.module.allows_unknown_bits, self.module.beside = self.width == 32, BESIDE
            memory = self.state(a, r)
            of_state = [(memory, self.at["accumulators"] + self.word * j) for j in range(4)]
            cells = of_state if self.names is REFERENCE else None
            describe = plain_loop(
                self.names,
                "an update's stripes",
                self.texts[f"Xxh{self.width}.accumulator"],
                self.seed,
                self.message,
                minus(minus(b, first), 1),
                self.width,
                first,
                cells,
            )
            self.module.loops.describers.update(
                {
                    self.function("update"): describe,
                    **{
                        name.format(self.width): of_any_length(describe, self.names) for name in self.names.update_loops
                    },
                }
            )
            self.module.live.append(memory)
            length = minus(ended, begun)
            piece = Piece(self.source, begun, length)
            if self.module.call(self.function("update"), [(memory, 0), (piece, 0), length]) != OK:
                raise NotShown("an update answers an error")
            self.expect_state("update", memory, b, s)

    def update_of_nothing(self):
        """Checks that a null chunk changes nothing."""
        with self.up_to(3):
            memory = self.state(0, 3)
            self.prepare({}, memories=[memory])
            self.call_keeping("an update of nothing", memory, self.function("update"), 0, 0)
        self.cases += 1

    def digests(self):
        for a in (0, variable("a")):
            for r in range(self.stripe):
                self.digest(a, r)

    def digest(self, a, r):
        n = plus(times(self.stripe, a), r)
        self.source = Input("m", n)  # the whole message here
        self.message = Bytes(self.source, 0, n)
        with given(at_most(n, LONGEST), *at_least_one(a)):
            self.prepare({})
            ours = self.call_keeping("a digest", self.state(a, r), self.function("digest"))
            self.expect(f"a digest of {n} bytes", ours, self.texts[f"xxh{self.width}"](self.seed, self.message))


def at_least_one(a):
    """Returns the fact that there were stripes, if their number isn't 0."""
    return [] if is_same_number(a, 0) else [minus(a, 1)]


def of_any_length(describe, names):
    """Returns a function that describes a loop like `describe`, if the length isn't a number."""
    return lambda function, registers: (
        None if isinstance(registers.get(names.plain_length), int) else describe(function, registers)
    )


def show(module: Module, algorithm: str) -> PlainStreams:
    """Proves the streams of XXH32 or XXH64. Returns the proof, or raises."""
    streams = PlainStreams(module, int(algorithm))
    streams.reset()
    streams.update_of_nothing()
    streams.updates()
    streams.digests()
    return streams
