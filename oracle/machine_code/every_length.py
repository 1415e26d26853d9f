"""Proves the one-shots of an assembly source for every length, by induction over its loops.

XXH32 and XXH64: stripe * (u b + c) + r bytes. The source processes u stripes per turn, b >= 1, c < u, r < stripe. XXH3,
above the lengths that are tested one by one: 64 (16 B + J) + t + 1 bytes, B blocks of 16 stripes, J < 16, t < 64, with
the default secret, with one derived from a seed, and with one of 192 to 199 bytes (any_secret.py has the other
secrets). The sources have separate paths from 31,744 bytes on. `left_out` computes the lengths that no case covers."""
import collections
import functools
import itertools
from typing import Iterator

from oracle import specs
from oracle.symbolic_terms import (LONGEST, LONGEST_SECRET, REFUSALS, Bytes, Input, NotShown, Poly, Request, Value,
                                   at_most, definition, given, minus, nodes, parts_of, plus, seed_symbol, suppositions,
                                   times, value_at, variable)

from . import one_shots
from .induction import Family, Loops
from .values import address

UNROLLED = {"32": 8, "64": 2}     # multiple of the stripes that a source processes per turn
LEAST = {"32": 2, "64": 1}        # minimum number of turns in a case: shorter lengths are tested one by one
PREFETCHED = 31_744               # bytes from which on the sources of XXH3 have separate loops
SHORTEST = 136                    # bytes of a secret
TURNS, FAR, MANY = "turns", 496, 1 << 32      # the variable; numbers of stripes from which on a source has other paths
DERIVED = 16                      # stripes of a block, with the default secret's length

# A case: its length, and its accumulated stripes, in the variable `turns` and others; facts; the other variables'
# values; and the bytes of a secret beyond those that the stripes need.
Case = collections.namedtuple("Case", "length stripes facts others rest", defaults=(0,))


# ---- the cases

def plain_cases(hash_name: str) -> Iterator[Case]:
    stripe, turns = int(hash_name) // 2, variable(TURNS)
    for c in range(UNROLLED[hash_name]):
        for r in range(stripe):
            stripes = plus(times(UNROLLED[hash_name], turns), c)
            yield Case(plus(times(stripe, stripes), r), stripes, [minus(turns, LEAST[hash_name])], {})


def xxh3_case(blocks: Value, J: int, *facts: Value, is_near: bool = False) -> Case:
    """Returns a case of `blocks` blocks and J stripes, below PREFETCHED bytes if `is_near`."""
    stripes, t = plus(times(DERIVED, blocks), J), variable("t")
    n = plus(times(64, stripes), t, 1)
    of_n = [at_most(n, PREFETCHED - 1)] if is_near else [at_most(stripes, LONGEST // 64)]
    return Case(n, stripes, [at_most(t, 63), *of_n, *facts], {"t": range(64)})


def derived_cases() -> Iterator[Case]:
    turns = variable(TURNS)
    for J in range(DERIVED):
        yield xxh3_case(turns, J, minus(turns, 1), at_most(turns, PREFETCHED // 1024 - 1), is_near=True)
        yield xxh3_case(turns, J, minus(turns, FAR // DERIVED))


def cases(algorithm: str) -> list[Case]:
    """Returns the cases of XXH32, of XXH64, or of XXH3 without a secret argument."""
    return list(plain_cases(algorithm) if algorithm in UNROLLED else derived_cases())


def of_secret() -> list[Case]:
    """Returns the cases above 240 bytes with a secret of 192 to 199 bytes. The sources test for a length of 192."""
    found = [xxh3_case(0, 3, minus(variable("t"), 48)), *(xxh3_case(0, J) for J in range(4, DERIVED - 1))]
    # x86-64-v4 tests if there is a whole block.
    found += [xxh3_case(0, DERIVED - 1, at_most(variable("t"), 62)), Case(64 * DERIVED, DERIVED - 1, [], {})]
    found += [*derived_cases(), Case(PREFETCHED, FAR - 1, [], {})]
    return [with_rest(case, rest) for case in found for rest in (False, True)]


def of_secret_by_turns() -> list[Case]:
    """Returns the cases of `of_secret` in which x86-64-v4 has no separate path, or that have a variable number of
    blocks. Its other lengths, with 192 bytes and up to a block and a little more, are tested one by one."""
    return [case for case in of_secret() if isinstance(case.rest, Poly) or (TURNS,) in parts_of(case.length)]


def with_rest(case: Case, rest: bool) -> Case:
    """Returns a case with a secret longer by 0 bytes, or by 1 to 7 with `rest`, than its stripes need."""
    u = variable("u")
    facts, others = [*case.facts, minus(u, 1), at_most(u, 7)], {**case.others, "u": [1]}
    return case._replace(rest=u, facts=facts, others=others) if rest else case


# ---- completeness of the cases

def turns_of(case: Case, point: dict[str, int]) -> tuple[int, int | None]:
    """Returns the least and the greatest number of turns (None: any) in a case, at values of the other variables."""
    least, ends = 0, []
    for fact in case.facts:
        c, step = value_at(fact, {TURNS: 0, **point}), parts_of(fact).get((TURNS,), 0)
        if step > 0:
            least = max(least, -(c // step))
        elif step < 0:
            ends.append(c // -step)
        elif c < 0:
            return 1, 0
    return least, min(ends, default=None)


def spans(found: list[Case], period: int) -> dict[int, list]:
    """Maps each remainder modulo the period to the spans of quotients in the cases."""
    out = collections.defaultdict(list)
    for case in found:
        names, ranges = case.others.keys(), case.others.values()
        for point in (dict(zip(names, values)) for values in itertools.product(*ranges)):
            least, most = turns_of(case, point)
            first, step = value_at(case.length, {TURNS: 0, **point}), parts_of(case.length).get((TURNS,), 0)
            if most is None or least <= most:
                at = first // period
                out[first % period].append((at + least, most and at + most) if step else (at, at))
    return out


def left_out(found: list[Case], first: int, period: int) -> list[int]:
    """Returns the lengths from `first` on that no case contains, one of each gap."""
    out, known = [], spans(found, period)
    for rest in range(period):
        at = -(-(first - rest) // period)
        for least, most in sorted(known[rest], key=lambda span: span[0]):
            if least > at:
                out.append(rest + period * at)
            if most is None:
                break
            at = max(at, most + 1)
        else:
            out += [rest + period * at] if rest + period * at <= LONGEST else []
    return sorted(out)


# ---- proof of a case

class Cases:
    """Proofs of the cases of some calls, one by one."""

    def __init__(self, cpu):
        self.cpu, self.guesses = cpu, {}
        self.read()

    @property
    def library(self):
        """The library that calls the exports."""
        return self.cpu.library

    def forget(self):
        nodes.forget()
        self.read()

    def read(self):
        """Runs the definition's program on symbols."""
        suppositions.clear()
        self.texts = definition.program().run(traced=suppositions)

    def with_loops(self, loops, ask):
        """Returns the result of a call, during which loops are proved."""
        cpu, limit = self.cpu, self.cpu.limit
        cpu.loops, cpu.limit = loops, min(limit, cpu.LIMIT_OF_CASE)
        try:
            return ask()
        except REFUSALS as error:
            raise NotShown("; ".join([str(error), *loops.refused])) from error
        finally:
            cpu.loops, cpu.limit = None, limit


class EveryLength(Cases):
    """Proves the cases of one call of a source: XXH32, XXH64, or XXH3 as in 3-64:seed."""

    def __init__(self, cpu, algorithm):
        super().__init__(cpu)
        self.algorithm, (self.hash_name, _, self.way) = algorithm, algorithm.partition(":")

    def show(self, case, seed=None):
        """Proves a case, with the given seed or a symbolic nonzero one."""
        with given(*case.facts, at_most(case.length, LONGEST)):
            source = Input("m", case.length)
            ask = self.xxh3 if self.way else self.plain
            ours, theirs = ask(case, source, Bytes(source, 0, case.length), seed)
        if not nodes.is_same(ours, theirs):
            raise NotShown(f"XXH{self.algorithm} of {case.length} bytes: another value")

    def show_short(self, n):
        """Proves the hash of n bytes, at most 240, with a secret of any length from 136 bytes on."""
        request = Request(self.hash_name, self.way, n, plus(SHORTEST, variable("more")))
        with given(at_most(request.secret_length, LONGEST_SECRET)):
            ours, theirs = one_shots.of_text(self.cpu, request), request.of_definition(self.texts)
        if not nodes.is_same(ours, theirs):
            raise NotShown(f"XXH{self.algorithm} of {n} bytes: another value")

    def plain(self, case, source, message, _):
        width, seed = int(self.hash_name), seed_symbol(self.hash_name)
        accumulator = self.texts[f"Xxh{width}.accumulator"]
        self.cpu.not_zero = []
        ours = self.call(case, width // 2, 4, lambda k: lambda j: accumulator(seed, message, j, k),
                         address(source), case.length, (seed, width))
        return ours, self.texts[f"xxh{width}"](seed, message)

    def xxh3(self, case, source, message, fixed):
        seed = seed_symbol(self.hash_name) if fixed is None else fixed
        seed = [seed] if self.way in ("seed", "both") else []
        if self.way in ("secret", "both"):
            given_secret = Input("s", plus(64 + 8 * DERIVED, case.rest))
            secret, handed = Bytes(given_secret, 0, given_secret.length), [address(given_secret), given_secret.length]
        else:
            secret = self.texts["effective_secret"](self.texts["derived_secret"](seed[0] if seed else 0), message)
            handed = []
        after = self.texts["Long.accumulator_after"]
        self.cpu.not_zero = [x for x in seed if not isinstance(x, int)] if self.way == "seed" else []
        ours = self.call(case, 64, 8, lambda k: lambda i: after(secret, message, i, k),
                         address(source), case.length, *handed, *seed)
        return ours, self.texts[specs.HASHES[self.hash_name]](seed[0] if seed else 0, secret, message)

    def call(self, case, stripe, count, after, *arguments):
        ask = functools.partial(self.library.one_shot, self.cpu, self.hash_name, self.way, *arguments)
        return self.proved(ask, case, stripe, count, after)

    def proved(self, ask, case, stripe, count, after):
        """Calls the source, and proves its loops for a case's length."""
        family = Family(f"XXH{self.algorithm} of {case.length} bytes", stripe, case.stripes, count, after,
                        lambda k, values: suppositions.suppose(after(k), values), self.cpu.TOGETHER)
        loops = Loops(self.cpu.program, family, guesses=self.guesses)
        return self.with_loops(loops, ask) if isinstance(case.length, Poly) else ask()
