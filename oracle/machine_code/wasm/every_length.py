"""Proves the one-shots for every length that fits in the module's memory, by induction over its loops.

XXH32 and XXH64: stripe * a + r bytes, r a number. XXH3 above 240 bytes: 64 q B + 64 J + t + 1, B blocks of q stripes, J
< q, t < 64. With the default secret, a derived one and one of 192 to 199 bytes, q is 16 and J a number. With other
secrets, of 64 + 8 q + u bytes, u < 8, J is symbolic, and q is a number below 16, or symbolic and at least 17."""
import collections
from typing import Iterable, Iterator

from oracle import specs
from oracle.symbolic_terms import (
    Bytes,
    NotShown,
    Request,
    at_most,
    given,
    minus,
    nodes,
    plus,
    seed_symbol,
    suppositions,
    times,
    variable,
)

from ..every_length import Cases
from ..induction import Family
from ..stripes import Part, Stripes
from . import calls
from .calls import WAYS, is_plain
from .induction import proved
from .machine import Machine
from .values import LEAST_PLACE, SPACE

LONGEST = SPACE - 1 - LEAST_PLACE
LEAST_STRIPES = 9  # of a block, with a secret of 136 bytes
OWN_SECRET = "secret", "both"
LONG = 241  # minimum length of XXH3 with loops
BLOCK = 1024  # bytes of a block with a secret of 192 to 199 bytes
FAR = 31_744  # from this length on the modules have separate code for blocks
ALGORITHMS = [("32", "seed"), ("64", "seed"), *((name, way) for name in ("3-64", "3-128") for way in WAYS)]


# Lengths 1024 B + 64 J + t + 1 with least_blocks <= B <= most_blocks (None: no maximum) and least <= t <= most.
Case = collections.namedtuple("Case", "J least_blocks most_blocks least most")


def cases():
    """Yields the cases of XXH3: no block, some, and many. FAR bytes are 30 blocks, 15 stripes and t = 63."""
    some, last = FAR // BLOCK - 1, BLOCK // 64 - 1
    for J in range(BLOCK // 64):
        if 64 * J + 64 >= LONG:
            yield Case(J, 0, 0, max(0, LONG - 64 * J - 1), 63)
        yield Case(J, 1, some - (J == last), 0, 63)
        yield Case(J, some + 1, None, 0, 63)
    for least, most in ((0, 62), (63, 63)):
        yield Case(last, some, some, least, most)


def missing(found: list["Case"]) -> list[int]:
    """Returns the lengths that are not in exactly one case. Checks enough blocks: further ones are alike."""
    count = collections.Counter(
        BLOCK * B + 64 * case.J + t + 1
        for case in found
        for t in range(case.least, case.most + 1)
        for B in range(case.least_blocks, (FAR // BLOCK + 1 if case.most_blocks is None else case.most_blocks) + 1)
    )
    return [n for n in range(LONG, BLOCK * (FAR // BLOCK + 2) + 1) if count[n] != 1]


CASES = list(cases())
# Cases with a custom secret: q, the stripes of a block, or None for 17 and more; whether there are whole blocks;
# whether there are stripes behind them; whether there are FAR bytes.
OwnCase = collections.namedtuple("OwnCase", "q has_blocks has_more is_far")


def own_cases():
    for q in [*range(LEAST_STRIPES, BLOCK // 64), None]:
        for has_blocks, has_more in ((True, False), (True, True), (False, True)):
            yield OwnCase(q, has_blocks, has_more, False)
            if q is None or has_blocks:  # with q < 16 and no block, there are fewer than FAR bytes
                yield OwnCase(q, has_blocks, has_more, True)


OWN_CASES = list(own_cases())


def missing_own(found: list["OwnCase"]) -> Iterator[tuple[int, int]]:
    """Yields the (q, length) that are not in exactly one case: some blocks, and lengths near FAR."""
    for q in [*range(LEAST_STRIPES, 20), 494, 495, 496, 497]:
        for n in [*range(LONG, 64 * 20 * 2), *range(FAR - 70, FAR + 70)]:
            blocks, more = divmod((n - 1) // 64, q)
            fitting = [
                case for case in found if case[1:] == (blocks > 0, more > 0, n >= FAR) and (case.q or max(q, 17)) == q
            ]
            yield from [(q, n)] * (len(fitting) != (q != BLOCK // 64))


def facts_of(case, q, B, J):
    out = [] if case.q else [minus(q, 17)]
    if case.has_blocks:
        least = -(-FAR // (64 * case.q)) - 1 if case.q and case.is_far else 1  # minimum of B, by the length
        out.append(minus(B, least))
    if case.has_more:
        out += [minus(J, 1), at_most(J, minus(q, 1))]
    if case.is_far and not case.has_blocks:  # implied by the length
        out += [minus(J, FAR // 64 - 1), minus(q, FAR // 64)]
    return out


class Proof(Cases):
    """Proves one-shots of a module by induction. Keeps a report on the loops, and the number of cases."""

    def __init__(self, vm):
        nodes.forget()
        super().__init__(vm)
        self.messages, self.cases = [], 0

    def call(self, family, request):
        """Returns the result of a one-shot. Proves the loops of a family by induction."""
        return proved(self, family, [], lambda: calls.one_shot(self.cpu, request))

    def expect(self, what, ours, theirs):
        self.cases += 1
        if not nodes.is_same(ours, theirs):
            raise NotShown(f"{what}: another value")

    # ---- XXH32 and XXH64

    def plain_of_rest(self, hash_name, r):
        width = int(hash_name)
        stripe, turns, seed = width // 2, variable("a"), seed_symbol(hash_name)
        n = plus(times(stripe, turns), r)
        accumulator = self.texts[f"Xxh{width}.accumulator"]
        with given(minus(turns, 1), at_most(n, LONGEST)):
            request = Request(hash_name, "seed", n)
            message = Bytes(request.message, 0, n)

            def after(k):
                return lambda j: accumulator(seed, message, j, k)

            family = Family(
                f"XXH{width} of {n} bytes",
                stripe,
                turns,
                4,
                after,
                lambda k, values: suppositions.suppose(after(k), values),
            )
            self.expect(family.name, self.call(family, request), self.texts[f"xxh{width}"](seed, message))

    # ---- XXH3

    def xxh3(self, hash_name, way, each):
        for case in CASES[::each]:
            self.long(hash_name, way, case)
        if way in OWN_SECRET:
            for case in OWN_CASES[::each]:
                self.own_secret(hash_name, way, case)
            for n in range(0, LONG, each):
                self.short(hash_name, way, n)

    def long(self, hash_name, way, case):
        """Proves 1024 B + 64 J + t + 1 bytes, with the default secret, a derived one or one of 192 to 199 bytes."""
        is_number = case.least_blocks == case.most_blocks and case.least == case.most
        B, t = (variable(name) for name in "Bt")
        B, t = (case.least_blocks, case.least) if is_number else (B if case.least_blocks else 0, t)
        n, size = plus(times(BLOCK, B), 64 * case.J + 1, t), plus(192, variable("u"))
        of_blocks = [minus(B, case.least_blocks)] if case.least_blocks else []
        of_blocks += [at_most(B, case.most_blocks)] if case.most_blocks else []
        of_rest = [minus(t, case.least), at_most(t, case.most), at_most(variable("u"), 7)]
        with given(*of_blocks, *of_rest, at_most(n, LONGEST)):
            self.of_blocks(
                hash_name,
                way,
                n,
                size,
                lambda name, after, suppose: None
                if isinstance(B, int)
                else Family(name, 64, times(BLOCK // 64, B), 8, after, suppose),
            )

    def of_blocks(self, hash_name, way, n, size, family):
        """Proves n > 240 bytes, with a custom secret of `size` bytes, or none. `family` makes the loops' family."""
        request = Request(hash_name, way, n, size if way in OWN_SECRET else None)
        seed, message = request.seed(), Bytes(request.message, 0, n)
        secret = Bytes(request.secret, 0, size) if request.secret else self.texts["derived_secret"](seed)
        secret = secret if way == "secret" else self.texts["effective_secret"](secret, message)
        accumulator = self.texts["Long.accumulator_after"]

        def after(k):
            return lambda i: accumulator(secret, message, i, k)

        name = f"XXH{hash_name}, {way}, of {n} bytes"
        loops = family(name, after, lambda k, values: suppositions.suppose(after(k), values))
        self.expect(name, self.call(loops, request), self.texts[specs.HASHES[hash_name]](seed, secret, message))

    def short(self, hash_name, way, n):
        """Proves n bytes, n <= 240, with a secret of any length."""
        q, u = variable("q"), variable("u")
        size = plus(64, times(8, q), u)
        with given(minus(q, LEAST_STRIPES), at_most(u, 7), at_most(size, LONGEST)):
            request = Request(hash_name, way, n, size)
            self.expect(
                f"XXH{hash_name}, {way}, of {n} bytes", self.call(None, request), request.of_definition(self.texts)
            )

    def own_secret(self, hash_name, way, case):
        """Proves 64 q B + 64 J + t + 1 bytes, with a secret of 64 + 8 q + u bytes, u < 8, q not 16."""
        t, u = variable("t"), variable("u")
        q = case.q or variable("q")
        B, J = (variable(name) if there else 0 for name, there in (("B", case.has_blocks), ("J", case.has_more)))
        n, size = plus(times(64, times(q, B)), times(64, J), t, 1), plus(64, times(8, q), u)
        parts = Part((0, 0), times(q, B), (B, 0)), Part((B, 0), J, (B, J))
        with given(
            *facts_of(case, q, B, J),
            at_most(t, 63),
            at_most(u, 7),
            at_most(size, LONGEST),
            minus(n, LONG),
            *([minus(n, FAR), at_most(n, LONGEST)] if case.is_far else [at_most(n, FAR - 1)]),
        ):
            self.of_blocks(hash_name, way, n, size, lambda name, *args: Stripes(name, q, parts, *args))


def shortest(hash_name: str, way: str) -> int:
    """Returns the shortest length that is proved here; shorter ones are compared one by one."""
    return int(hash_name) // 2 if is_plain(hash_name) else 0 if way in OWN_SECRET else LONG


def show(vm: Machine, hash_name: str, way: str, each: int = 1, rests: Iterable[int] | None = None) -> Proof:
    """Proves a kind: of XXH3 each `each`-th case, of the others the given remainders. Returns the proof."""
    proof = Proof(vm)
    if is_plain(hash_name):
        for r in range(int(hash_name) // 2) if rests is None else rests:
            proof.plain_of_rest(hash_name, r)
    else:
        proof.xxh3(hash_name, way, each)
    return proof
