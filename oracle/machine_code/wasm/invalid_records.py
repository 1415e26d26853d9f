"""Records of streams that no call leaves, for all values of their fields. An update of any length and a digest refuse
each, and change nothing.

XXH32 and XXH64: less than a stripe is buffered. The total ends in as many bytes behind whole stripes, or is 2^64 - 1.
Below a stripe the accumulators are those before the first one, here of the seed 7.

XXH3, with a secret of any length: 64 bytes of each stripe taken and the buffered bytes make the total, or 2^64 - 1 if
that is less. If no stripe was taken, the position is 0 and the accumulators are the initial ones. The position is below
the stripes of a block. If a byte was taken, 1 to 512 bytes are buffered.

All other fields have any value. Of wrong accumulators there is one at a time."""
import itertools
import random
from typing import Iterator

from oracle.symbolic_terms import (
    Input,
    Memory,
    Request,
    at_most,
    given,
    minus,
    parts_of,
    plus,
    times,
    value_at,
    variable,
)
from oracle.symbolic_terms.polynomials import names_of

from .. import coverage
from . import calls
from .calls import NOT_A_STREAM, Stream, answered, expect_unchanged
from .every_length import LEAST_STRIPES, LONGEST
from .machine import Machine
from .values import address

PLAIN, XXH3 = ("32", "64"), ("3-64", "3-128")
AT = calls.RECORDS["xxh3"]
MOST, SEED = 2**64 - 1, 7
ROUND = 2**58  # stripes, of 2^64 bytes
LANES, POINTS = 8, 3000  # accumulators; random records of each hash
FEW = 64  # bytes of a chunk, up to which an update of XXH3 has a separate path


class Invalid(Request):
    """Fields with values of their own, (offset, size, value), .., with facts; and the chunks that an update of such a
    record takes on different paths: (length, facts), .."""

    def __init__(self, hash_name, what, fields, facts, chunks):
        super().__init__(hash_name, "seed", 0)
        self.what, self.fields, self.facts, self.chunks = what, fields, facts, chunks


def any_chunk():
    n = variable("n")
    return [(n, [at_most(n, LONGEST)])]


def by_length():
    """Returns chunks of up to FEW bytes, and others."""
    n = variable("n")
    return [(n, [at_most(n, FEW)]), (plus(n, FEW + 1), [at_most(plus(n, FEW + 1), LONGEST)])]


def by_capacity(used):
    """Returns the same with those that the buffer has room for apart."""
    (n, few), others = by_length()
    together = plus(used, n)
    return [(n, [*few, at_most(together, AT.capacity)]), (n, [*few, minus(together, AT.capacity + 1)]), others]


def apart_from(x, most):
    """Yields the numbers up to `most` that are less and that are greater than x: (number, fact)."""
    v = variable("v")
    yield v, minus(x, plus(v, 1))
    yield plus(v, x + 1), at_most(plus(v, x + 1), most)


# ---- XXH32 and XXH64


def of_plain(hash_name, initial):
    """Yields the invalid records of XXH32 or XXH64."""
    at, size = calls.RECORDS[f"xxh{hash_name}"], int(hash_name) // 8
    r, u = variable("r"), variable("u")
    whole = times(at.capacity, variable("t"))
    behind = plus(u, at.capacity)

    def one(what, total, used, *facts, more=()):
        fields = [(at.total, 8, total), (at.marked, 8, used), *more]
        return Invalid(hash_name, what, fields, [*facts, at_most(used, MOST)], any_chunk())

    for total, fact in ((plus(whole, r), [at_most(plus(whole, r), MOST - 1), at_most(r, at.capacity - 1)]), (MOST, [])):
        yield one(f"a stripe and more is buffered, of {total} bytes", total, behind, *fact)
    for used, rest, fact in ((u, plus(r, 1), minus(r, u)), (plus(r, u, 1), r, minus(at.capacity - 1, plus(r, u, 1)))):
        total = plus(whole, rest)
        yield one(
            f"{used} bytes are buffered, of {total}",
            total,
            used,
            fact,
            at_most(total, MOST - 1),
            at_most(rest, at.capacity - 1),
        )
    begun = [*zip(at.accumulators, itertools.repeat(size), initial), (at.seed, size, SEED)]
    for place, _, x in begun[:-1]:
        for value, fact in apart_from(x, 2 ** (8 * size) - 1):
            yield one(
                f"{value} at {place}", u, u, fact, at_most(u, at.capacity - 1), more=[*begun, (place, size, value)]
            )


# ---- XXH3


def of_xxh3(what, count, used, total, facts, chunks=None, more=()):
    fields = [(AT.count, 8, count), (AT.buffer_usage, 8, used), (AT.total_bytes, 8, total), *more]
    return Invalid(
        "3-64", f"{count} stripes and {used} bytes, of {total}; {what}", fields, facts, chunks or any_chunk()
    )


def counted(used):
    """Yields the numbers of stripes with that many buffered bytes: (number, total, facts)."""
    c, k = variable("c"), variable("k")
    together, far = plus(times(64, c), used), plus(times(ROUND, plus(k, 1)), c)
    few, rounds, within = at_most(c, ROUND - 1), at_most(k, MOST // ROUND - 1), at_most(together, MOST)
    yield c, together, [few, within]
    yield far, MOST, [few, rounds, within]
    if used.__class__ is not int:
        beyond = minus(together, MOST + 1)
        yield c, MOST, [few, beyond]
        yield far, MOST, [few, rounds, beyond]


def with_other_totals():
    """Yields records with a total that is greater, or less, than it must be."""
    u, v = variable("u"), variable("v")
    for number, (count, total, facts) in enumerate(counted(u)):
        facts = [*facts, at_most(u, MOST)]
        yield of_xxh3(f"less, {number}", count, u, v, [*facts, minus(total, plus(v, 1))])
        if total is not MOST:
            more = plus(total, plus(v, 1))
            yield of_xxh3("more", count, u, more, [*facts, at_most(more, MOST)])


def with_no_stripe(initial):
    """Yields records with no stripe taken, and another position than before the first one, another accumulator, or too
    many buffered bytes."""
    u, v = variable("u"), variable("v")
    of_use, begun = at_most(u, MOST), [(AT.accumulator + 8 * k, 8, x) for k, x in enumerate(initial)]
    yield of_xxh3("a position", 0, u, u, [of_use, at_most(v, MOST - 1)], more=[(AT.current_stripe, 8, plus(v, 1))])
    for at, _, x in begun:
        for value, fact in apart_from(x, MOST):
            more = [(AT.current_stripe, 8, 0), *begun, (at, 8, value)]
            yield of_xxh3(f"{value} at {at}", 0, u, u, [of_use, fact], more=more)
    behind = plus(u, AT.capacity + 1)
    yield of_xxh3(
        "too many", 0, behind, behind, [at_most(behind, MOST)], by_length(), [(AT.current_stripe, 8, 0), *begun]
    )


def out_of_range(q):
    """Yields records with stripes taken, and a position behind the q stripes of a block, or too many or no buffered
    bytes."""
    u, v = variable("u"), variable("v")
    some, behind = plus(u, 1), plus(u, AT.capacity + 1)
    uses = [
        (0, [], by_length(), True),
        (behind, [at_most(behind, MOST)], by_length(), True),
        (some, [at_most(some, AT.capacity)], by_capacity(some), False),
    ]
    positions = [(v, [minus(q, plus(v, 1))], False), (plus(v, q), [at_most(plus(v, q), MOST)], True)]
    for (used, of_use, chunks, is_use), (position, of_position, is_position) in itertools.product(uses, positions):
        for number, (count, total, facts) in enumerate(counted(used)) if is_use or is_position else ():
            taken = [minus(count, 1)] if number in (0, 2) else []
            yield of_xxh3(
                f"the position {position}, {number}",
                count,
                used,
                total,
                [*facts, *taken, *of_use, *of_position],
                chunks,
                [(AT.current_stripe, 8, position)],
            )


# ---- the calls


def initial(vm, hash_name):
    """Returns the accumulators of a stream of no bytes."""
    it = Stream(vm, Request(hash_name, "seed", 0, seed=SEED))
    it.start()
    at = calls.RECORDS[it.family]
    places = at.accumulators if hash_name in PLAIN else [at.accumulator + 8 * k for k in range(LANES)]
    return [it.record.load(place, calls.BYTES[hash_name]) for place in places]


def records(vm: Machine) -> Iterator[Invalid]:
    """Yields all invalid records. The secret has 64 + 8 q + e bytes."""
    for hash_name in PLAIN:
        yield from of_plain(hash_name, initial(vm, hash_name))
    q, e = variable("q"), variable("e")
    of_secret = [minus(q, LEAST_STRIPES), at_most(e, 7), at_most(plus(64, times(8, q), e), LONGEST)]
    for record in (*with_other_totals(), *with_no_stripe(initial(vm, XXH3[0])), *out_of_range(q)):
        record.facts += of_secret
        yield record


def stream_of(vm, record, length, *more):
    """Returns a stream with the fields of an invalid record."""
    it = Stream(vm, Request(record.hash_name, "seed", length))
    calls.begin(vm, it.request)
    if record.hash_name not in PLAIN:
        secret = Input("s", plus(64, times(8, variable("q")), variable("e")))
        it.secret = [address(secret), secret.length]
    for field in (*record.fields, *more):
        it.record.store(*field)
    return it, dict(it.record.cells)


def refuse(vm: Machine, record: Invalid) -> None:
    """Tests an update with each chunk, and each digest."""
    for length, facts in record.chunks:
        with given(*record.facts, *facts):
            it, before = stream_of(vm, record, length)
            answered(it.update(0, length), NOT_A_STREAM)
            expect_unchanged("the record", it.record, before)
    for hash_name, fields, facts in digests_of(record):
        with given(*record.facts, *facts):
            it, before = stream_of(vm, record, 0, *fields)
            out = Memory("the value", calls.BYTES[hash_name])
            answered(it.digest(out, hash_name), NOT_A_STREAM)
            expect_unchanged("the value", out, {})
            expect_unchanged("the record", it.record, before)


def digests_of(record):
    """Yields the digests of a stream: of XXH3 both, without a seed and with one."""
    if record.hash_name in PLAIN:
        yield record.hash_name, [], []
        return
    w = variable("w")
    for hash_name in XXH3:
        yield hash_name, [(AT.seeds, 8, 0)], []
        yield hash_name, [(AT.seeds, 8, plus(w, 1))], [at_most(plus(w, 1), MOST)]


# ---- completeness


def solved(fields, point):
    """Returns the values of the variables for which the fields have the point's values, as far as there are any."""
    found = {"q": point["q"], "e": 0}
    for at, _, x in fields:
        rest = point[at] - value_at(x, {name: found.get(name, 0) for name in names_of(x)})
        unknown = [(c, *names) for names, c in parts_of(x).items() if names and names[0] not in found]
        for c, name in sorted(unknown, reverse=True):
            found[name], rest = divmod(rest, c)
    return found


def is_valid(hash_name, point, initial):
    """True if a record with these fields is one of a stream."""
    if hash_name in PLAIN:
        at = calls.RECORDS[f"xxh{hash_name}"]
        total, used = point[at.total], point[at.marked]
        if used >= at.capacity or total < MOST and total % at.capacity != used:
            return False
        return total >= at.capacity or [point[place] for place in at.accumulators] == initial
    count, used, total, position = (point[at] for at in (AT.count, AT.buffer_usage, AT.total_bytes, AT.current_stripe))
    if total != min(64 * count + used, MOST):
        return False
    if count:
        return position < point["q"] and 0 < used <= AT.capacity
    return position == 0 and used <= AT.capacity and [point[AT.accumulator + 8 * k] for k in range(LANES)] == initial


def near(rng, *numbers):
    """Returns a random word, mostly one near some numbers."""
    return min(MOST, max(0, rng.choice([*numbers, rng.getrandbits(64)]) + rng.choice((-1, 0, 0, 1))))


def points(hash_name, initial, count):
    """Yields random fields of records, with at most one other accumulator than the initial ones."""
    rng = random.Random(count)
    for _ in range(count):
        point, wrong = {"q": LEAST_STRIPES + rng.randrange(100)}, list(initial)
        if rng.random() < 0.5:
            k = rng.randrange(len(initial))
            wrong[k] = near(rng, 0, initial[k]) % (1 << 8 * calls.BYTES[hash_name])
        if hash_name in PLAIN:
            at = calls.RECORDS[f"xxh{hash_name}"]
            used = near(rng, 0, 5, at.capacity)
            point |= {
                at.total: near(rng, 0, used, used + 3 * at.capacity, at.capacity, MOST),
                at.marked: used,
                at.seed: SEED,
            }
            point |= dict(zip(at.accumulators, wrong))
        else:
            stripes, used = rng.choice((0, near(rng, 5, ROUND, 9 * ROUND))), near(
                rng, 0, 1, 200, AT.capacity, AT.capacity
            )
            total = min(64 * stripes + used, MOST)
            point |= {
                AT.count: stripes,
                AT.buffer_usage: used,
                AT.total_bytes: rng.choice((total, near(rng, 0, total, MOST))),
                AT.current_stripe: rng.choice((0, near(rng, 5, point["q"]))),
            }
            point |= {AT.accumulator + 8 * k: x for k, x in enumerate(wrong)}
        yield point


def left_out(vm, all_records, count):
    """Yields the points that are no stream's and in no record, or a stream's and in one."""
    for hash_name in (*PLAIN, XXH3[0]):
        begun = initial(vm, hash_name)
        own = [
            ([*{at: (at, size, x) for at, size, x in record.fields}.values()], record.facts)
            for record in all_records
            if record.hash_name == hash_name
        ]
        for point in points(hash_name, begun, count):
            is_found = any(
                coverage.has(solved(fields, point), facts, [(x, point[at]) for at, _, x in fields])
                for fields, facts in own
            )
            if is_found == is_valid(hash_name, point, begun):
                yield f"{hash_name}: {point}"


def refuse_all(machines: dict[str, Machine]) -> tuple[str, list[str]]:
    """Tests all records on each module, and that they are all invalid ones."""
    count = 0
    for vm in machines.values():
        found = list(records(vm))
        for record in found:
            refuse(vm, record)
        count += len(found)
    bad = [*itertools.islice(left_out(vm, found, POINTS), 5)]
    return f"{count} refused, which contain each of {POINTS} random records of each hash that is invalid", bad
