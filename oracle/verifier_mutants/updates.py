"""Tests of the proofs of streams of XXH3: states before and after an update, the cases of chunks, digests and
functions that take stripes, by models of a library with and without a fault. Each takes a random generator and raises
Wrong."""
import functools
import itertools
import unittest.mock
from typing import Any

from oracle.machine_code import layouts, xxh3_states, xxh3_updates
from oracle.machine_code.stream_state import Source
from oracle.machine_code.stripes import Part, Summary
from oracle.machine_code.xxh3_updates import MANY, TAKE_MANY, Start, Xxh3Updates
from oracle.symbolic_terms import (
    LONGEST,
    RUNS,
    NotShown,
    at_most,
    given,
    is_natural,
    is_same,
    is_same_number,
    minus,
    plus,
    polynomials,
    suppositions,
    symbol,
    times,
    value_at,
    variable,
)

from . import processors
from .values import expect, refuses

patched = unittest.mock.patch.object


def proof_of(proof_class=xxh3_states.CallersSecret, q=None, u=None):
    """Returns a proof whose definition has one symbol for each word after some stripes."""
    proof = proof_class(processors.new_processor())
    if q is not None:
        Xxh3Updates.use(proof, q, u)
    after = suppositions.around(lambda secret, message, i, k: symbol(f"word {k} {i}", 64), "Long.accumulator_after")
    proof.texts = {
        "Long.accumulator_after": after,
        "effective_secret": lambda secret, message: ("effective", secret),
        "xxh3_64": lambda *of: ("hash", 64, *of),
        "xxh3_128": lambda *of: ("hash", 128, *of),
    }
    proof.seed = 0
    return proof


def same_numbers(found, expected, what):
    expect(
        len(found) == len(expected) and all(map(is_same_number, found, expected)),
        True,
        f"{what}: {found} and not {expected}",
    )


def states_before(_):
    """Tests the fields and runs of a state: of no bytes, of buffered ones, and after stripes."""
    b, j, f = (variable(name) for name in "bjf")
    for proof_class, (place, buffered) in itertools.product(
        (xxh3_states.CallersSecret, xxh3_states.OwnSecret), (((0, 0), 0), ((0, 0), 9), ((b, j), f), ((b, 3), 64))
    ):
        proof = proof_of(proof_class)
        with given(*proof.facts, minus(minus(proof.q, 1), j), minus(f, 1), at_most(f, 256), minus(b, 1)):
            proof.begin(plus(times(64, proof.stripes(place)), buffered, 100))
            seed = symbol("seed64", 64)
            for has_seed in (None, 0, 1):
                proof.has_seed = 1
                state = proof.state(place, buffered, [(300, 340, Source("last", 64), 0)], has_seed, seed)
                k = plus(times(proof.q, place[0]), place[1])
                same_numbers(
                    [state.load(at, 8) for at in (64, 72, 80, 88)],
                    [place[1], k, buffered, plus(times(64, k), buffered)],
                    "numbers of a state",
                )
                expect(
                    proof.has_seed == (1 if has_seed is None else has_seed) and proof.seed is seed,
                    True,
                    "a state's seed",
                )
                mark = (xxh3_states.OwnSecret is proof_class and layouts.OWN_MARKS or layouts.CALLERS_MARKS)[
                    proof.has_seed
                ]
                expect(state.load(544, 8) == mark and state.load(552, 8) is seed, True, "a state's mark and seed")
                is_own = proof_class is xxh3_states.OwnSecret
                expect(state.secret is (None if is_own else proof.secret_source), True, "a state's secret")
                expect(
                    (state.length, state.buffer, state.name, state.alignment) == (576, (96, 352), "state", 8),
                    True,
                    "a state's memory",
                )
                runs = [(96, plus(96, buffered), proof.source, minus(times(64, k), 96))] * (
                    buffered != 0 if isinstance(buffered, int) else True
                )
                runs += [(300, 340, None, 0)] + [(352, 544, proof.secret_source, -352)] * is_own
                expect(
                    len(state.runs()) == len(runs)
                    and all(
                        all(map(is_same_number, (*one[:2], one[3]), (*other[:2], other[3])))
                        for one, other in zip(state.runs(), runs)
                    ),
                    True,
                    f"runs of a state: {state.runs()}",
                )
                values = [state.load(8 * i, 8) for i in range(8)]
                expect(
                    all(is_same(x, proof.after(k)(i)) for i, x in enumerate(values))
                    and len({x.number for x in values}) == 8,
                    True,
                    "words of a state",
                )
                is_first = is_same_number(k, 0)
                expect(
                    all((x.parts[0] == f"word 0 {i}") == is_first for i, x in enumerate(values)), True, "assumed words"
                )
            proof.has_seed = 0
            expect(proof.state(place, buffered).load(552, 8).parts[0].startswith("seed#"), True, "a fresh seed")
            expect(len(proof.accumulators(place)), 8, "accumulators")
        expect(proof.own()[-1][0] == 552, True, "the seed is the last field")
    nothing: Any = None
    expect(
        xxh3_updates.Xxh3Updates.own(nothing) == [] == xxh3_updates.Xxh3Updates.secret_runs(nothing),
        True,
        "fields of another state",
    )


def states_after(_):
    """Tests that each field and each run of a state is required."""
    b, j, f = (variable(name) for name in "bjf")
    for proof_class, (place, buffered) in itertools.product(
        (xxh3_states.CallersSecret, xxh3_states.OwnSecret), (((0, 0), 0), ((b, j), f))
    ):
        proof = proof_of(proof_class)
        with given(*proof.facts, minus(minus(proof.q, 1), j), minus(f, 1), at_most(f, 192), minus(b, 1)):
            proof.begin(plus(times(64, proof.stripes(place)), buffered, 100))
            last = proof.last_stripe(proof.source, times(64, proof.stripes(place)))
            same_numbers(
                [last[0], last[1], last[3]], [288, 352, minus(times(64, proof.stripes(place)), 352)], "a last stripe"
            )
            state = proof.state(place, buffered, [last])
            proof.expect_state("a state", state, place, buffered, [last], {})
            proof.expect_state("a state", state, place, buffered, [], {})
            cells = dict(state.cells)
            for at in [at for at in cells if at != RUNS]:
                state.cells = {**cells, at: (8, symbol("another", 64))}
                refuses(
                    lambda: proof.expect_state("a state", state, place, buffered, [last], {}),
                    f"another field at {at}",
                    (NotShown,),
                )
                is_counter = at in (72, 88)
                state.cells = {**cells, at: (8, LONGEST)}
                if is_counter:
                    proof.expect_state("a state", state, place, buffered, [last], {at: LONGEST})
                refuses(
                    lambda: proof.expect_state("a state", state, place, buffered, [last], {}),
                    f"another field at {at}",
                    (NotShown,),
                )
                state.cells = cells
                refuses(
                    lambda: proof.expect_state("a state", state, place, buffered, [last], {at: LONGEST}),
                    f"a counter at {at}",
                    (NotShown,),
                )
            for k in range(len(cells[RUNS])):
                state.cells = {**cells, RUNS: cells[RUNS][:k] + cells[RUNS][k + 1 :]}
                refuses(
                    lambda: proof.expect_state("a state", state, place, buffered, [last], {}), "a lost run", (NotShown,)
                )


def model(proof, end, last, fault=None, lost=(), before=None):
    """Returns a function in place of a proof's `run` that leaves a state after an update, with a fault."""

    def run(live, what, parts, *arguments, **more):
        cpu, name, state, piece = arguments
        expect(
            live == [state] and cpu is proof.cpu and name == "3-64" and what.__func__ is type(proof).write,
            True,
            "an update",
        )
        if before:
            before(state, piece, parts, more)
        (place, f), at = end, proof.at
        for i in range(8):
            state.cells[8 * i] = 8, proof.after(proof.stripes(place))(i)
        k = proof.stripes(place)
        for where, x in (
            (at.current_stripe, place[1]),
            (at.count, k),
            (at.buffer_usage, f),
            (at.total_bytes, plus(times(64, k), f)),
        ):
            state.cells[where] = 8, LONGEST if where in lost else x
        others = [run for run in state.runs() if not is_same_number(run[0], 96)]
        state.cells[RUNS] = (
            *(others if last is None else proof.secret_runs()),
            *proof.buffered(place, f),
            *(last or []),
        )
        if isinstance(fault, int):
            state.cells[fault] = 8, symbol("another", 64)
        elif fault:
            state.cells[RUNS] = tuple(run for run in state.runs() if not is_same_number(run[0], fault[0]))

    return run


def small_and_large_updates():
    """Returns updates: if the buffer ends with the last stripe, start, end, length, parts, last stripes before."""
    b, j, f = (variable(name) for name in "bjf")
    place = b, j
    return (
        (False, ((0, 0), 5), ((0, 0), 9), 4, (), 0),
        (False, ((0, 0), 0), ((0, 0), 0), 0, (), 0),
        (True, (place, f), (place, plus(f, 7)), 7, (), 1),
        (False, (place, f), (place, plus(f, 7)), 7, (), 0),
        (True, (place, f), ((b, plus(j, 4)), 20), minus(276, f), (Part(place, 4, (b, plus(j, 4))),), 0),
        (False, (place, f), ((b, plus(j, 4)), 80), minus(336, f), (Part(place, 4, (b, plus(j, 4))),), 0),
    )


def single_updates(_):
    """Tests what an update assumes of a state, and that each field is required after it."""
    b, j, f = (variable(name) for name in "bjf")
    for is_short, start, end, length, parts, last_runs in small_and_large_updates():
        proof = proof_of()
        Xxh3Updates.use(proof, variable("q"))
        facts = [minus(minus(proof.q, 6), j), minus(f, 1), at_most(f, 50), minus(b, 1)]
        seen = []

        def before(state, piece, of_parts, more):
            seen.append(more)
            expect(of_parts == parts, True, "the parts of an update")
            k = proof.stripes(start[0])
            same_numbers([state.load(at, 8) for at in (64, 80)], [start[0][1], start[1]], "a state before an update")
            same_numbers(
                [piece.first, piece.length, piece.whole is proof.source],
                [plus(times(64, k), start[1]), length, 1],
                "a chunk",
            )
            expect(
                sum(is_same_number(run[1], 352) for run in state.runs()), last_runs, "the last stripe before an update"
            )
            expect(
                is_natural(minus(LONGEST, proof.source.length))
                and is_natural(minus(proof.source.length, plus(times(64, proof.stripes(end[0])), end[1]))),
                True,
                "a message",
            )
            expect(polynomials.names_of(proof.source.length) >= {"rest"}, True, "a message of any length")

        last = None if not parts else [(288, 352, "m", None)] if is_short else []

        def asked(fault=None, lost=(), lengths=length, see=before):
            def run(*arguments, **more):
                now = [proof.last_stripe(proof.source, times(64, proof.stripes(end[0])))] if last else last
                model(proof, end, now, fault, lost, see)(*arguments, **more)

            with patched(proof, "run", run, create=True):
                proof.update_to(is_short, start, end, lengths, facts, parts, ["a summary"], lost)

        asked()
        expect(seen == [{"summaries": ["a summary"]}], True, "summaries")
        faults = (
            [0, 56, 64, 72, 80, 88, 544][:: 1 if parts and is_short else 3]
            + ([(96,)] if not is_same_number(end[1], 0) else [])
            + ([(288,)] if is_short else [])
        )
        for fault in faults:
            refuses(lambda: asked(fault), f"an update with another field {fault}", (NotShown,))
        refuses(lambda: asked(lengths=plus(length, 1), see=None), "a case with another length", (NotShown,))
        if not is_same_number(start[1], 0):

            def seen_before(state, *_):
                expect(is_same_number(state.load(88, 8), minus(LONGEST, variable("lost"))), True, "a lost total")
                expect(is_natural(minus(LONGEST, variable("lost"))), True, "a total that isn't negative")

            asked(lost={88: minus(LONGEST, variable("lost"))}, see=seen_before)


def short_messages(_):
    """Tests that an update that takes stripes of a message up to 240 bytes is refused."""
    for end, is_right in (((0, 2), 113), True), (((0, 2), 112), False), (((0, 3), 49), True), (((0, 3), 48), False):
        proof = proof_of()
        (place, f), parts = end, (Part((0, 0), end[0][1], end[0]),)

        def run(*arguments, **more):
            model(proof, end, [proof.last_stripe(proof.source, 64 * place[1])], None)(*arguments, **more)

        with patched(proof, "run", run, create=True):
            ask = lambda: proof.update_to(False, ((0, 0), 0), end, 64 * place[1] + f, [], parts)
            if is_right:
                ask()
            else:
                refuses(ask, f"stripes of {64 * place[1] + f} bytes", (NotShown,))


def ends_of_updates(_):
    """Tests for which ends a buffer may end with the last stripe: with stripes, and fewer than 64 bytes after them."""
    asked: Any
    proof, b, j, f = proof_of(Xxh3Updates), variable("b"), variable("j"), variable("f")
    few = [minus(minus(proof.q, 1), j), minus(b, 1)]
    for end, facts, expected in (
        (((0, 0), 5), [], [False]),
        (((0, 0), f), [at_most(f, 256)], [False]),
        (((b, j), 63), few, [True]),
        (((b, j), 64), few, [False]),
        (((b, j), f), [*few, at_most(f, 63)], [True]),
        (((b, j), f), [*few, minus(f, 64)], [False]),
        (((b, j), f), [*few, at_most(f, 64)], [True, False]),
        (((b, j), f), [*few, minus(f, 63)], [True, False]),
        (((0, 1), 0), [], [True]),
    ):
        ways = list(proof.ways_to_end(end, facts))
        expect([way for way, _ in ways] == expected, True, f"the ways to {end}: {ways}")
        for is_short, more in ways:
            for value in (0, 5, 63, 64, 100):
                holds = all(value_at(fact, {"f": value}) >= 0 for fact in more)
                expect(
                    holds,
                    len(ways) == 1 and not more or (value < 64) == is_short or not isinstance(end[1], polynomials.Poly),
                    f"facts of the end with {value} bytes",
                )
        asked = []
        with patched(proof, "update_to", lambda *of, **more: asked.append((of, more)), create=True):
            proof.update("start", end, 7, facts, "parts", lost={1: 2})
        expect(
            repr(asked)
            == repr([((way, "start", end, 7, [*facts, *more], "parts"), {"lost": {1: 2}}) for way, more in ways]),
            True,
            "updates",
        )
    asked = []
    for has_counters, names in ((True, ["update", "totals", "counts"]), (False, ["update"])):
        proof.HAS_COUNTERS = has_counters
        for name, title in (("update", "update"), ("lost_totals", "totals"), ("lost_counts", "counts")):
            setattr(proof, name, lambda *case, title=title: asked.append((title, case)))
        proof.any_update(1, 2)
        expect(asked == [(name, (1, 2)) for name in names], True, "proofs of an update")
        asked.clear()
    proof = proof_of(xxh3_states.CallersSecret)
    with patched(Xxh3Updates, "update", lambda self, *case, **lost: asked.append((self.has_seed, case, lost))):
        proof.update(1, 2, lost=3)
    expect(
        asked == [(has_seed, (1, 2), {"lost": 3}) for has_seed in (0, 1)],
        True,
        "updates of streams with a seed and without",
    )


def taken_places(_):
    """Compares the ways to take stripes from each place of a block with each number of stripes."""
    q = 9
    proof = proof_of(q=q, u=0)
    for to, least, b, j in itertools.product(("none", "some", "many"), (1, 3), (0, 2), range(q)):
        ways = list(proof.end_of((b, j), to, least))
        for n in (*range(12), 18, 28, 29, 30, 31, 100):
            found = []
            for turns, place, facts in ways:
                D, e = divmod(j + n, q)
                point = {"n": n, "D": D - 1, "e": e}
                if (
                    D >= (1 if "D" in polynomials.names_of(turns, *facts) or "e" in polynomials.names_of(turns) else 0)
                    and value_at(turns, point) == n
                    and all(value_at(fact, point) >= 0 for fact in facts)
                    and not (D < 1 and "e" in polynomials.names_of(turns))
                ):
                    expect(
                        (value_at(place[0], point), value_at(place[1], point)) == (b + D, e),
                        True,
                        f"the end of {n} stripes from {j}",
                    )
                    found.append(turns)
            is_there = {
                "none": n == 0,
                "some": n >= 1 and (n >= least or j + n >= q),
                "many": n >= MANY and not j + n < q,
            }[to]
            expect(len(found) > 0, is_there, f"ways to take {n} stripes from {j}, {to}")
    n = variable("n")
    proof = proof_of(q=100, u=0)
    for turns, place, facts in [proof.within_block((2, 5)), list(proof.end_of((2, 5), "many", 1))[-1]]:
        same_numbers(
            [turns, *place, *facts], [n, 2, plus(n, 5), minus(n, MANY), minus(94, n)], "many stripes within a block"
        )


def large_chunks(_):
    """Tests the cases of chunks that don't fit: their lengths, parts, facts and summaries."""
    proof = proof_of(q=100, u=0)
    begun = [
        Start((1, 3), 2, 5, (1, 5), ["a start's fact"]),
        Start((0, 0), 0, 0, (0, 0), []),
        Start((1, 3), variable("g"), 7, (1, plus(variable("g"), 3)), []),
    ]
    lefts, asked = [(64, []), (variable("left"), ["a rest's fact"])], []

    def end_of(place, to, least):
        asked.append((place, to, least))
        return [(0, place, ["no stripes"]), (variable("n"), (7, 8), ["some stripes"])]

    for to in ("none", "some", "many"):
        with patched(proof, "end_of", end_of, create=True):
            found = list(proof.pieces(to, begun, lefts))
        expect(len(found), 12, "cases of chunks")
        expect(
            repr([one[2] for one in asked]) == repr([1, 1, 3, 3, 1, 1]), True, f"the least numbers of stripes: {asked}"
        )
        asked.clear()
        for (start, (left, of_left), (n, place, of_n)), case in zip(
            itertools.product(begun, lefts, [(0, None, ["no stripes"]), (variable("n"), (7, 8), ["some stripes"])]),
            found,
        ):
            (at, f), (end, rest), length, facts, parts, more = case
            place = start.behind if place is None else place
            expect(
                at == start.place and end == place and rest is left and more == ([TAKE_MANY] if to == "many" else []),
                True,
                "a case of a chunk",
            )
            same_numbers(
                [f, length], [minus(times(64, start.g), start.r), plus(start.r, times(64, n), left)], "bytes of a chunk"
            )
            expect(
                repr(parts) == repr((Part(start.place, start.g, start.behind), Part(start.behind, n, place))),
                True,
                "parts of a chunk",
            )
            expect(facts[:-3] == [*start.facts, *of_left, *of_n], True, "facts of a chunk")
            same_numbers(
                facts[-3:],
                [
                    minus(plus(f, length), 257),
                    minus(plus(start.g, n), 3),
                    minus(length, 2048) if to == "many" else minus(2047, length),
                ],
                "facts of a chunk",
            )


def spans_of_lengths(_):
    """Tests the lengths of spans: a number, or a variable with both bounds."""
    found = list(xxh3_updates.lengths("r", ((1, 1), (2, 3), (33, 63))))
    expect(found[0] == (1, []) and len(found) == 3, True, "a span of one length")
    for (x, facts), (low, high) in zip(found[1:], ((2, 3), (33, 63))):
        expect(x.parts == {("r",): 1}, True, "a span's variable")
        for value in (low - 1, low, high, high + 1):
            holds = all(value_at(fact, {"r": value}) >= 0 for fact in facts)
            expect(holds, low <= value <= high, f"the length {value} in a span from {low} to {high}")


def small_chunks(_):
    """Tests the cases of chunks that fit: each number of bytes up to 32, and more, with no stripes and with some."""
    proof, b, j, f, more = proof_of(), *(variable(name) for name in ("b", "j", "f", "more"))
    cases = list(proof.small_pieces())
    expect(len(cases), 68, "cases")
    for k, ((place, buffered), (end, after), n, facts) in enumerate(cases):
        size = k % 34
        is_first = k < 34
        expect(place == end and place == ((0, 0) if is_first else place), True, "the place of a chunk that fits")
        same_numbers(
            [*place, buffered, n, after],
            [
                *((0, 0, 0) if is_first else (b, j, f)),
                size if size < 33 else plus(33, more),
                plus(0 if is_first else f, size if size < 33 else plus(33, more)),
            ],
            "a chunk that fits",
        )
        same_numbers(
            facts,
            [*([] if is_first else [minus(minus(proof.q, 1), j), minus(f, 1)]), minus(256, after)],
            "facts of a chunk that fits",
        )


def digests(_):
    """Tests which states a digest is proved for, that it changes nothing, and that its value is required."""
    b, j = variable("b"), variable("j")
    for (place, f), has_seed, width, fault in itertools.product(
        (((0, 0), 63), ((0, 0), 200), ((b, j), 63), ((b, j), 64), ((b, j), variable("f"))),
        (0, 1),
        ("64", "128"),
        (None, "value", "state", "run"),
    ):
        proof, seen = proof_of(), []
        facts = [minus(minus(proof.q, 1), j), minus(b, 1), minus(variable("f"), 1), at_most(variable("f"), 256)]
        seed = symbol("seed64", 64)

        def run(live, what, parts, cpu, name, state):
            seen.append(name)
            expect(
                live == [state] and what == proof.library.digest and parts == "parts" and cpu is proof.cpu,
                True,
                "a digest",
            )
            has_last = isinstance(f, int) and f < 64 and place != (0, 0)
            expect(
                sum(is_same_number(one[1], 352) for one in state.runs()) == has_last, True, "the last stripe of a state"
            )
            expect(state.load(552, 8) is seed and proof.has_seed == has_seed, True, "the seed of a state")
            if fault == "state":
                state.cells[88] = 8, 5
            elif fault == "run":
                state.cells[RUNS] = ()
            return value if fault != "value" else symbol("another", 64)

        value = symbol("a digest", 64)

        def hashed(of_seed, secret, message):
            expect(
                message.source is proof.source
                and is_same_number(message.end, plus(times(64, proof.stripes(place)), f))
                and message.first == 0,
                True,
                "the message",
            )
            expect(
                of_seed is (seed if has_seed else 0)
                and secret == (("effective", proof.secret) if has_seed else proof.secret),
                True,
                "a seed and a secret",
            )
            return value

        proof.texts[f"xxh3_{width}"] = hashed
        with patched(proof, "run", run, create=True):
            ask = lambda: proof.digest(place, f, facts, "parts", has_seed, width)
            if fault is None:
                ask()
            else:
                refuses(ask, f"a digest with another {fault}", (NotShown,))
        expect(seen == [f"3-{width}"], True, "the name of a digest")


def run_taken(proof, summary, parts, fault, live, what, of_parts, *arguments, summaries):
    """Models a call of a function that takes five stripes from j on, with a fault."""
    b, j = variable("b"), variable("j")
    places = [x.place()[0] for x in arguments[: 1 if summary.is_in_place else 2]]
    expect(
        live == places and of_parts == parts and summaries == ["a summary"] and what == ("taker", summary),
        True,
        "a call",
    )
    to, source, rest = places[0], places[-1], arguments[len(places) :]
    expect(
        [memory.name for memory in places] == (["taken"] if summary.is_in_place else ["to", "taken"])
        and {memory.length for memory in places} == {64 + 8 * summary.has_place},
        True,
        "records",
    )
    expect({memory.alignment for memory in places} == {8}, True, "places of records")
    stripes, length, own, *own_length = rest
    expect(
        stripes.place()[0].whole is proof.source
        and is_same_number(stripes.place()[0].first, times(64, proof.stripes((b, j))))
        and length == 320,
        True,
        "the stripes",
    )
    expect(
        own.place() == (proof.secret_source, 0) and own_length == [proof.secret_length] * summary.has_length,
        True,
        "the secret",
    )
    before = [source.load(8 * i, 8) for i in range(8 + summary.has_place)]
    expect(
        all(is_same(x, proof.after(proof.stripes((b, j)))(i)) for i, x in enumerate(before[:8])),
        True,
        "words before a call",
    )
    expect(not summary.has_place or is_same_number(before[8], j), True, "the place before a call")
    for i in range(8):
        to.store(8 * i, 8, proof.after(proof.stripes((b, plus(j, 5))))(i))
    if summary.has_place:
        to.store(64, 8, plus(j, 5))
    if isinstance(fault, tuple):
        {"to": to, "taken": source}[fault[0]].store(8 * fault[1], 8, symbol("another", 64))
    proof.cpu.stack.lowest = xxh3_updates.ENTRY - xxh3_updates.DEEP - (fault == "stack")


def taken_parts(_):
    """Tests that a function that takes stripes has each word and place of its summary's effect, and keeps its
    source."""
    b, j = variable("b"), variable("j")
    for has_place, is_in_place, has_length in (
        (True, False, True),
        (True, True, True),
        (False, False, True),
        (True, True, False),
    ):
        summary = Summary("take", has_place, 0, has_length, is_in_place)
        faults = [
            None,
            *(("to", k) for k in range(8 + has_place)),
            *(() if is_in_place else (("taken", 0), ("taken", 7))),
            "stack",
        ]
        for fault in faults:
            proof = proof_of()
            proof.q = variable("q")
            parts = [Part((b, j), 2, (b, plus(j, 2))), Part((b, plus(j, 2)), 3, (b, plus(j, 5)))]

            run = functools.partial(run_taken, proof, summary, parts, fault)
            facts = [minus(minus(proof.q, 6), j)]
            with patched(proof, "run", run, create=True), patched(
                proof, "taker", lambda of: ("taker", of), create=True
            ):
                ask = lambda: proof.taken(summary, parts, facts, ["a summary"])
                if fault is None:
                    ask()
                else:
                    refuses(ask, f"a function with the fault {fault}", (NotShown,))


def blocks_of_parts(_):
    """Tests for which blocks and secrets a function that takes stripes is proved."""
    asked, proof = [], proof_of()
    for q, u in ((None, None), (16, None), (16, 0)):
        with patched(proof, "taken", lambda *case: asked.append((case, proof.q, proof.secret_length)), create=True):
            proof.taken_of((q, u), ("summary", "parts"))
        case, of_q, length = asked.pop()
        expect(
            case == ("summary", "parts") and is_same_number(of_q, variable("q") if q is None else q), True, "a block"
        )
        expect(is_same_number(length, plus(64, times(8, of_q), variable("u") if u is None else u)), True, "a secret")
        expect(is_same_number(proof.q, variable("q")), True, "any block afterwards")


def secrets(_):
    """Tests the facts of a secret: at least nine stripes, at most seven bytes more, and the longest one."""
    proof = Xxh3Updates(processors.new_processor())
    for q, u, holds in (
        (9, 0, True),
        (8, 0, False),
        (9, 7, True),
        (9, 8, False),
        ((proof.longest_secret - 64) // 8, 0, True),
        ((proof.longest_secret - 64) // 8, 1, False),
    ):
        expect(
            all(value_at(fact, {"q": q, "u": u}) >= 0 for fact in proof.facts),
            holds,
            f"a secret of {q} stripes and {u} bytes",
        )
    same_numbers(
        [proof.q, proof.secret_length, proof.secret.end],
        [variable("q"), plus(64, times(8, variable("q")), variable("u")), proof.secret_length],
        "a secret",
    )
    expect(
        isinstance(proof.secret_source, Source)
        and proof.secret.source is proof.secret_source
        and proof.secret.first == 0
        and proof.secret_source.name == "s",
        True,
        "a secret",
    )
    expect(
        (proof.capacity, proof.whole, xxh3_states.OwnSecret(processors.new_processor()).whole) == (512, 8, 4),
        True,
        "buffers",
    )
    proof.begin(1000)
    expect(
        isinstance(proof.source, Source)
        and (proof.source.name, proof.message.first, proof.message.end) == ("m", 0, 1000)
        and proof.message.source is proof.source,
        True,
        "a message",
    )
    own = xxh3_states.OwnSecret(processors.new_processor())
    expect((own.q, own.secret_length) == (16, 192), True, "an own secret")
    family = proof.family("a part", "another")
    expect(
        family.parts == ("a part", "another")
        and family.q is proof.q
        and family.after == proof.after
        and family.stripe == 64,
        True,
        "a family",
    )
    put = []
    with patched(suppositions, "suppose", lambda call, values: put.append((call(3), values))), patched(
        proof, "after", lambda k: lambda i: (k, i), create=True
    ):
        family.put(5, ["values"])
    expect(put == [((5, 3), ["values"])], True, "assumed words")


def runs_of_calls(_):
    """Tests how a function is run: its objects, its summaries, its nonzero terms, and that nothing remains
    afterwards."""
    done: Any
    for what, fails in itertools.product(("name", "function"), (False, True)):
        proof, done = proof_of(), []
        proof.begin(100)

        class Put:
            def put_into(self, cpu, family, source, secret):
                done.append((family.parts, source is proof.source, secret is proof.secret_source))
                cpu.replaced["x"] = 1

        def call(*arguments, **more):
            done.append(
                (
                    arguments,
                    more,
                    dict(proof.cpu.replaced),
                    proof.cpu.live,
                    proof.cpu.not_zero,
                    proof.cpu.loops.family.parts,
                    proof.cpu.loops.proof,
                )
            )
            if fails:
                raise NotShown("a call")
            return "answer"

        proof.cpu.call = call
        ask = lambda: proof.run(
            ["state"],
            "f" if what == "name" else call,
            ["part"],
            1,
            2,
            summaries=[Put(), Put()],
            not_zero=["seed"],
            into=3,
        )
        if fails:
            refuses(ask, "a call", (NotShown,))
        else:
            expect(ask() == "answer", True, "the answer of a call")
        expected = [((("part",), True, True))] * 2
        arguments = ("f", 1, 2) if what == "name" else (1, 2)
        expect(
            done
            == [
                *expected,
                (arguments, {"into": 3}, {"x": 1}, ["state"], ["seed"], ("part",), xxh3_updates.StripesProof),
            ],
            True,
            f"a call: {done}",
        )
        expect(proof.cpu.replaced == {} and proof.cpu.loops is None, True, "a processor afterwards")


ALL = [
    states_before,
    states_after,
    single_updates,
    short_messages,
    ends_of_updates,
    taken_places,
    large_chunks,
    spans_of_lengths,
    small_chunks,
    digests,
    taken_parts,
    blocks_of_parts,
    secrets,
    runs_of_calls,
]
