"""Checks that the cases of the streams of XXH3 are complete: many points, each a concrete state and chunk, must be in a
case. Only the polynomials and facts that a case's proof uses are taken from it."""
import random
from typing import Iterable, Iterator

from oracle.symbolic_terms import Value, names_of, plus, value_at

from . import xxh3_updates

STRIPES, LONG_BLOCKS = range(9, 25), (100, 1 << 20)          # stripes of a block, and long blocks for any secret
EDGES = 0, 1, 2, 3, 4, 7, 8, 16, 17, 32, 33, 63, 64, 65, 127, 128, 448, 449, 511, 512, 513, 1023, 1024, 1500, 2047, 2048
FAR_OFF = 31_744, 32_000, 100_000, 1 << 40


def points(count: int, proof: xxh3_updates.Xxh3Updates) -> Iterator[tuple[int, ...]]:
    """Yields points (q, u, b, j, f, L): edges and random numbers, the same each time."""
    rng = random.Random(5)
    stripes = [proof.q] if isinstance(proof.q, int) else [*STRIPES, *LONG_BLOCKS]
    for k in range(count):
        q = rng.choice(stripes)
        j, b = rng.choice((0, q - 1, rng.randrange(q))), rng.choice((0, 1, rng.randrange(1 << 40)))
        f = min(proof.capacity, max(0, rng.choice((64 * rng.randrange(proof.whole + 1) + rng.randrange(-2, 3),
                                                   rng.randrange(proof.capacity + 1)))))
        L = max(0, rng.choice((*EDGES, *FAR_OFF, 64 * rng.randrange(600), rng.randrange(3000))) + rng.randrange(-2, 3))
        if not f:
            b = j = 0
        u = rng.choice((0, rng.randrange(min(8, proof.longest_secret - 63 - 8 * q))))
        yield q, u, b, j, f, min(L, proof.longest_piece)


def states(count: int, proof: xxh3_updates.Xxh3Updates) -> Iterator[tuple[int, ...]]:
    for q, u, b, j, f, _ in points(count, proof):
        if not (b or j) or 64 * (q * b + j) + f > xxh3_updates.SHORT:
            yield q, u, b, j, f


def variables(q: int, u: int, b: int, j: int, f: int, L: int = 0) -> dict[str, int]:
    """Returns the values of the cases' variables at a point."""
    r = -f % 64
    g, left = (f + r) // 64, L - r
    n = max(0, left - 64) // 64
    at = (j + g) % q
    D, e = divmod(n - (q - at), q)
    return {"q": q, "u": u, "b": b, "j": j, "f": f, "g": g, "r": r, "i": q - j, "y": g - (q - j), "n": n, "D": D,
            "e": e, "left": left - 64 * n, "more": L - 33, "w": L - 65, "rest": 0}


def has(point: dict[str, int], facts: list[Value], values: list[tuple[Value, int]]) -> bool:
    """True if a case contains a point: its facts hold there, and its polynomials have the given values."""
    names = names_of(*facts, *(x for x, _ in values))
    return all(point.get(name, -1) >= 0 for name in names) and all(value_at(x, point) == n for x, n in values) and \
        all(value_at(fact, point) >= 0 for fact in facts)


def without_update(cases: Iterable, proof: xxh3_updates.Xxh3Updates, count: int) -> Iterator[tuple[int, ...]]:
    """Yields the points that no update contains."""
    cases = list(cases)
    for q, u, b, j, f, L in points(count, proof):
        point = variables(q, u, b, j, f, L)
        K, total = q * b + j, 64 * (q * b + j) + f + L
        taken = 0 if f + L <= proof.capacity else point["g"] + point["n"]
        end = K + taken, total - 64 * (K + taken)
        if not any(has(point, [*of_case, *proof.facts], [(x, n) for x, n in zip(
                (*start[0], start[1], length, *to[0], to[1]), (b, j, f, L, end[0] // q, end[0] % q, end[1]))])
                for start, to, length, of_case, *_ in cases):
            yield q, u, b, j, f, L


def without_digest(cases: Iterable, proof: xxh3_updates.Xxh3Updates, count: int) -> Iterator[tuple[int, ...]]:
    cases = list(cases)
    for q, u, b, j, f in states(count, proof):
        g = max(0, f - 1) // 64
        point = {**variables(q, u, b, j, f), "g": g, "h": f - 1 - 64 * g, "y": g - (q - j)}
        if not any(has(point, [*of_case, *proof.facts], [(place[0], b), (place[1], j), (x, f)])
                   for place, x, of_case, _ in cases):
            yield q, u, b, j, f


def of_stripes(b: int, j: int, n: int) -> Iterator[dict[str, int]]:
    """Yields further variables for taken stripes of blocks of 16: by fours, and by blocks."""
    for front, unit in (-j % 4, 4), (-j % 16, 16):
        at = (j + front) % 16
        D, e = divmod((n - front) // unit * unit - (16 - at), 16)
        yield {"a": at // 4, "D": D, "e": e // 4 if unit == 4 else (n - front) % 16}


def without_taken(cases: Iterable, proof: xxh3_updates.Xxh3Updates, names: list, count: int) -> Iterator[tuple]:
    """Yields the points of taken stripes that no case contains, for any number of stripes and for many."""
    cases = list(cases)
    for q, u, b, j, f, L in points(count, proof):
        for name, least in names:
            if name == xxh3_updates.TAKE_WIDENED.name:
                q, u, j = xxh3_updates.BLOCK, 0, j % xxh3_updates.BLOCK
            n = min(least + L // 64, proof.longest_piece // 64)
            point = variables(q, u, b, j, 0)
            D, e = divmod(n - (q - j), q)
            ways = [{"D": D, "e": e}, *(of_stripes(b, j, n) if q == 16 else ())]
            if not any(has({**point, "n": n, **way}, [*of_case, *(proof.facts if own is None else ())],
                           [(parts[0].start[0], b), (parts[0].start[1], j), (sum_of(parts), n)])
                       for (own, more), (summary, parts, of_case, *_) in cases
                       if summary.name == name and own in (None, q) and more in (None, u) for way in ways):
                yield name, q, u, b, j, n


def without_one_shot(cases: Iterable, facts: list[Value], count: int) -> Iterator[tuple[int, int]]:
    """Yields lengths (q, n) that no case contains, for blocks of q stripes, q not 16."""
    cases, rng = list(cases), random.Random(6)
    while count:
        q = rng.choice((*STRIPES, rng.randrange(9, 600), rng.randrange(9, 1 << 33)))
        n = rng.choice((*EDGES, *FAR_OFF, rng.randrange(1 << 16), 1 << 38, rng.randrange(1 << 63),
                        64 * q * rng.randrange(5))) + rng.randrange(-2, 3)
        if q != 16 and n > 240:
            count -= 1
            K, t = divmod(n - 1, 64)
            B, J = divmod(K, q)
            point = {"q": q, "u": rng.randrange(8), "B": B, "J": J, "t": t}
            if not any(has(point, [*case.facts, *facts], [(case.blocks, B), (case.more, J)]) for case in cases):
                yield q, n


def sum_of(parts: list[xxh3_updates.Part]) -> Value:
    return plus(*(part.turns for part in parts))


def left_out(proof: xxh3_updates.Xxh3Updates, count: int) -> list[tuple]:
    """Returns the points that no case contains: of updates, digests, and functions that take stripes."""
    taken = [(xxh3_updates.TAKE.name, 0), (xxh3_updates.TAKE_MANY.name, xxh3_updates.MANY)]
    taken += [(xxh3_updates.TAKE_WIDENED.name, xxh3_updates.BLOCK)] * proof.is_widened()
    found = [*without_digest(proof.digests(), proof, count)] if xxh3_updates.DIGESTS in proof.TASKS else []
    if xxh3_updates.STRIPES in proof.TASKS:
        found += [*without_update(proof.all_updates(), proof, count),
                  *without_taken(proof.all_taken(), proof, taken, count)]
    return found
