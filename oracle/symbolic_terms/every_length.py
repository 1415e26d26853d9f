"""Proves the one-shots for every length, by induction over the reference's loops.

A length is a polynomial. XXH32 and XXH64: n = stripe * a + r, r a number. XXH3 above 240 bytes: n = 64 q B + 64 J + t +
1, B blocks of q stripes, J < q stripes of the last block, t < 64. A custom secret has 64 + 8 q + u bytes, q >= 9, u <
8. Without one, the call of the function for long inputs is checked."""
from typing import Any, Callable

from . import definition, nodes
from .definition import Bytes, suppositions
from .header_names import Names, names_of
from .loops import Loop, Loops
from .machine import Module
from .refusals import NotShown
from .requests import LONGEST, LONGEST_SECRET, seed_symbol
from .memory import Input, Memory
from .nodes import Node, Value, symbol
from .operations import side_by_side
from .polynomials import agree, at_most, divided, given, is_same_number, minus, plus, Poly, times, variable

from oracle.antt import Program

SHORTEST_SECRET_STRIPES = 9  # stripes of a block, with a secret of 136 bytes
DEFAULT_SECRET, DEFAULT_STRIPES = 192, 16  # its bytes, and the stripes of a block with it
WAYS = "default", "seed", "seed 0", "secret", "both"
OWN_SECRET = "secret", "both"
XXH3 = "3-64", "3-128"
ALGORITHMS = ["32", "64"] + [f"{name}:{way}" for name in XXH3 for way in WAYS]


def shortest(algorithm: str) -> int:
    """Returns the shortest length that the induction proves; shorter ones are compared one by one."""
    return {"32": 16, "64": 32}.get(algorithm, 0 if algorithm.endswith(OWN_SECRET) else 241)


class Proof:
    """Proves one-shots of a module by induction. Keeps a report on the loops, and the number of cases."""

    def __init__(self, module, program=None):
        self.module, self.names, self.messages, self.cases = module, names_of(module), [], 0
        nodes.forget()
        suppositions.clear()
        self.texts = (program or definition.program()).run(traced=suppositions)

    def prepare(self, describers, memories=()):
        """Prepares a run of the reference: the proofs of its loops, and the live memories."""
        self.module.reset()
        self.module.loops = Loops(describers, self.messages)
        self.module.live[:] = [*self.module.globals.values(), *memories]

    def symbols_after(self, k, after, count, width):
        """Returns the definition's words after(k), as symbols that are assumed to be these if k isn't 0."""
        if is_same_number(k, 0):
            return [after(j) for j in range(count)]
        symbols = [symbol(self.module.fresh("accumulator"), width) for _ in range(count)]
        suppositions.suppose(after, symbols)
        return symbols

    def call_keeping(self, what, memory, name, *arguments):
        """Returns the value of a call that must not change a state."""
        before = dict(memory.cells)
        value = self.module.call(name, [(memory, 0), *arguments])
        if before != memory.cells:
            raise NotShown(f"{what} changes the state")
        return value

    def lines(self):
        """Returns the report on the loops, without repeated lines."""
        return list(dict.fromkeys(self.messages))

    # ---- XXH32 and XXH64

    def plain(self, width):
        for r in range(width // 2):
            self.plain_of_rest(width, r)

    def plain_of_rest(self, width, r):
        stripe, turns, seed = width // 2, variable("a"), seed_symbol(str(width))
        n = plus(times(stripe, turns), r)
        with given(minus(turns, 1), at_most(n, LONGEST)):
            source = Input("m", n)
            message = Bytes(source, 0, n)
            describe = plain_loop(
                self.names,
                f"XXH{width} of {n} bytes",
                self.texts[f"Xxh{width}.accumulator"],
                seed,
                message,
                minus(turns, 1),
                width,
            )
            self.prepare({name.format(width): describe for name in self.names.plain_loops})
            ours = self.module.call(f"@once_{width}_seed", [(source, 0), n, seed])
            self.expect(f"XXH{width} of {n} bytes", ours, self.texts[f"xxh{width}"](seed, message))

    # ---- XXH3

    def xxh3(self, hash_name, way):
        if way in OWN_SECRET:
            self.long(hash_name, way)
            for n in range(241):
                self.short(hash_name, way, n)
        else:
            self.by_derived_secret(hash_name, way)

    def own_secret(self):
        """Returns a secret of any length: (memory, list, stripes of a block, facts)."""
        q, u = variable("q"), variable("u")
        size = plus(64, times(8, q), u)
        source = Input("s", size)
        of_secret = [minus(q, SHORTEST_SECRET_STRIPES), at_most(u, 7), at_most(size, LONGEST_SECRET)]
        return source, Bytes(source, 0, size), q, of_secret

    def short(self, hash_name, way, n):
        """Proves n bytes, n <= 240, with a secret of any length."""
        source, secret, _, of_secret = self.own_secret()
        seed = seed_symbol(hash_name) if way == "both" else 0
        message = Input("m", n)
        with given(*of_secret):
            ours = self.call(hash_name, way, [(message, 0), n, (source, 0), source.length], seed, {})
            theirs = definition.value(self.texts, hash_name, way, seed, secret, Bytes(message, 0, n))
            self.expect(f"XXH{hash_name}, {way}, of {n} bytes", ours, theirs)

    def long(self, hash_name, way):
        """Proves 64 q B + 64 J + t + 1 bytes, with a secret of any length."""
        source, secret, q, of_secret = self.own_secret()
        B, J, t = (variable(name) for name in "BJt")
        n = plus(times(times(64, q), B), times(64, J), t, 1)
        seed = seed_symbol(hash_name) if way == "both" else 0
        with given(at_most(n, LONGEST), minus(n, 241), at_most(J, minus(q, 1)), at_most(t, 63), *of_secret):
            message = Input("m", n)
            listed = Bytes(message, 0, n)
            describers = long_loops(self.names, self.texts["Long.accumulator_after"], q, B, J, secret, listed)
            ours = self.call(hash_name, way, [(message, 0), n, (source, 0), source.length], seed, describers)
            self.expect_internal(hash_name, message, n, (source, 0), source.length, ours)
            theirs = definition.value(self.texts, hash_name, way, seed, secret, listed)
            self.expect(f"XXH{hash_name}, {way}, of {n} bytes", ours, theirs)

    def by_derived_secret(self, hash_name, way):
        """Proves n > 240 bytes, with the default secret or one derived from the seed."""
        n, seed = variable("n"), seed_symbol(hash_name) if way == "seed" else 0
        with given(minus(n, 241), at_most(n, LONGEST)):
            message = Input("m", n)
            ours = self.call(hash_name, way, [(message, 0), n], seed, {})
            self.expect_internal(hash_name, message, n, self.called[2], DEFAULT_SECRET, ours)
            derived = self.texts["effective_secret"](self.texts["derived_secret"](seed), Bytes(message, 0, n))
            if not all(nodes.is_same(x, y) for x, y in zip(self.secret_called, derived, strict=True)):
                raise NotShown(f"XXH{hash_name}, {way}: another secret")
        self.cases += 1

    def expect_internal(self, hash_name, message, n, secret, length, value):
        """Checks the arguments of the call for long inputs, and that its value is the result."""
        *arguments, answer = self.called
        asked = [(message, 0), n, secret, length]
        if not all(agree(a, b) for a, b in zip(arguments[:4], asked, strict=True)) or not nodes.is_same(answer, value):
            raise NotShown(f"XXH{hash_name}: another call of the function for long inputs")

    def call(self, hash_name, way, arguments, seed, describers):
        """Returns a one-shot of the reference. Without a custom secret, a long input's hash is a symbol."""
        out = Memory("out", 16)
        self.prepare(describers, [out])
        self.watch(self.names.long.format(hash_name[2:]), runs=way in OWN_SECRET)
        if isinstance(seed, Node):
            self.module.suppose_different(seed, 0)
        arguments = arguments + ([seed] if way not in ("default", "secret") else [])
        name = f"@once_{hash_name.replace('-', '_')}_{way.split()[0]}"
        if hash_name == "3-64":
            return self.module.call(name, arguments)
        self.module.call(name, [*arguments, (out, 0)])
        return out.load(0, 16)

    def watch(self, name, runs):
        """Records the arguments and the value of each call of a function. It runs, or returns symbols."""
        function = self.module.functions[name]
        self.called: Any = None

        def call(arguments):
            if runs:
                value = function.run(arguments)
            else:
                (memory, at), size = arguments[2:4]
                self.secret_called = [memory.load(at + k, 1) for k in range(size)]
                value = tuple(symbol(self.module.fresh("value"), 64) for _ in range(2))
                value = value if "128" in name else value[0]
            whole = side_by_side(*((half, 64) for half in value)) if "128" in name else value
            self.called = [*arguments[:4], whole]
            return value

        self.module.instead[name] = call

    def expect(self, what, ours, theirs):
        self.cases += 1
        if not nodes.is_same(ours, theirs):
            raise NotShown(f"{what}: another value")


def plain_loop(
    names: Names,
    name: str,
    accumulator: Callable,
    seed: Value,
    message: Bytes,
    last: Value,
    width: int,
    first: Value = 0,
    cells: list | None = None,
) -> Callable:
    """Returns a function that describes the loop over stripes: after k iterations the accumulators are the words after
    first + k stripes. They are in `cells`, in an array, or in four variables."""

    def after(k):
        return lambda j: accumulator(seed, message, j, plus(first, k))

    def describe(function, registers):
        array, variables = registers.get(names.plain_array), [registers.get(x) for x in names.plain_variables]
        own = cells or ([(array[0], array[1] + width // 8 * j) for j in range(4)] if array else variables)
        return Loop(
            name,
            last,
            own,
            width,
            lambda k, values: suppositions.suppose(after(k), values),
            lambda k: [after(k)(j) for j in range(4)],
        )

    return describe


def xxh3_loop(after: Callable, name: str, last: Value, cells: list, place: Callable) -> Loop:
    """Describes a loop of XXH3: after k iterations the accumulators are the words after place(k) stripes."""
    return Loop(
        name,
        last,
        cells,
        64,
        lambda k, values: suppositions.suppose(lambda i: after(i, place(k)), values),
        lambda k: [after(i, place(k)) for i in range(8)],
    )


def cells_at(address: tuple[Memory, int]) -> list[tuple[Memory, int]]:
    return [(address[0], plus(address[1], 8 * i)) for i in range(8)]


def long_loops(
    names: Names, accumulator_after: Callable, q: Value, B: Value, J: Value, secret: Bytes, message: Bytes
) -> dict[str, Callable]:
    """Describes the loop over blocks, and the one over a block's stripes if their number is symbolic. The definition
    scrambles with the last stripe of a block, the library after it, so that stripe is the loop's last iteration."""

    def after(i, k):
        return accumulator_after(secret, message, i, k)

    def blocks(function, registers):
        return xxh3_loop(after, "blocks", B, cells_at(registers[names.block_array]), lambda k: times(q, k))

    def stripes(function, registers):
        turns = registers.get(names.stripe_count)
        if not isinstance(turns, Poly):
            return None
        first, is_whole = divided(registers[names.input][1], 64)[0], is_same_number(turns, q)
        return xxh3_loop(
            after,
            "stripes of a block" if is_whole else "stripes of the last block",
            minus(q, 1) if is_whole else J,
            cells_at(registers[names.array]),
            lambda k: plus(first, k),
        )

    return {names.blocks: blocks, names.stripes: stripes}


def show(module: Module, algorithm: str, program: Program | None = None) -> Proof:
    """Proves an algorithm for every length from shortest(algorithm) on. Returns the Proof, or raises. `program` is the
    definition, if it is changed."""
    proof = Proof(module, program)
    name, _, way = algorithm.partition(":")
    if way:
        proof.xxh3(name, way)
    else:
        proof.plain(int(name))
    return proof
