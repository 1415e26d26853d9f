"""Tests which tasks there are, that their parts leave out no case, and that missing cases are found. Each test takes a
random generator and raises Wrong. tasks.tsv has the tasks, with their minimum numbers of cases."""
import collections
import functools
import itertools
import os
import re
import types
import unittest.mock
from typing import Any

from oracle.machine_code import (
    any_secret,
    any_updates,
    calls,
    cargo_calls,
    cargo_streams,
    cargo_tasks,
    coverage,
    every_length,
    long_seeds,
    tasks,
    xxh3_states,
    xxh3_updates,
)
from oracle.machine_code.cargo import CargoProgram
from oracle.machine_code.xxh3_updates import EMPTY
from oracle.symbolic_terms import (
    LONGEST,
    REFUSALS,
    NotShown,
    Request,
    Unsupported,
    WrongRule,
    at_most,
    comparison,
    given,
    is_same_number,
    minus,
    names_of,
    plus,
    suppositions,
    symbol,
    times,
    value_at,
    variable,
)

from . import processors
from .values import Wrong, expect, refuses

TABLE = os.path.join(os.path.dirname(os.path.abspath(__file__)), "tasks.tsv")
NAME, PART = re.compile(r"(cargo's )?x86-64(-v\d)?"), re.compile(r"part \d of")
MANY = 23  # cases of a proof that only records what is asked
patched = unittest.mock.patch.object


# ---- the tasks


def tasks_with(is_all: bool) -> list:
    """Returns the tasks on both folders of sources, with their minimum numbers of cases."""
    texts, others = dict.fromkeys(tasks.NAMES), dict.fromkeys(f"cargo's {name}" for name in cargo_tasks.NAMES)
    with patched(tasks, "counted", lambda title, least, *_: types.SimpleNamespace(title=title, least=least)), patched(
        tasks, "makers", dict.fromkeys
    ):
        return [*tasks.choose(types.SimpleNamespace(all=is_all), texts), *cargo_tasks.choose(others, texts, is_all)]


def summed(asked):
    """Maps each title, without names of sources and numbers of parts, to its number of tasks and of cases."""
    found = collections.defaultdict(lambda: (0, 0))
    for task in asked:
        title = PART.sub("part _ of", NAME.sub("_", task.title))
        found[title] = found[title][0] + 1, found[title][1] + task.least
    return found


def lists(_):
    """Compares the tasks without and with --all with the table."""
    with open(TABLE, encoding="utf-8") as file:
        lines = [line.rstrip("\n").split("\t") for line in file if not line.startswith("#")]
    for is_all in (False, True):
        expected = {
            line[-1]: (int(line[2 * is_all]), int(line[2 * is_all + 1])) for line in lines if line[2 * is_all] != "0"
        }
        asked = tasks_with(is_all)
        expect(len({task.title for task in asked}), len(asked), "titles of tasks")
        found = summed(asked)
        for title in {*expected, *found}:
            if found.get(title) != expected.get(title):
                raise Wrong(f"{title}: {found.get(title)} and not {expected.get(title)} of tasks.tsv, {is_all=}")


def outcomes(_):
    """Tests that a task with too few cases fails."""
    for count, bad, is_right in (
        (2, [], False),
        (3, [], True),
        (4, [], True),
        (4, ["a fault"], False),
        (2, ["a fault"], False),
    ):
        message, faults = tasks.counted("a task", 3, lambda count, bad: (count, bad), count, bad).ask()
        expect(not faults, is_right, f"a task with {count} cases")
        expect(message == f"{count} cases" and (not bad or faults == bad), True, "the output of a task")


def processors_of(_):
    """Tests that each source gets its processor."""
    cargo = CargoProgram.__new__(CargoProgram)
    with patched(tasks, "Processor", lambda *of: ("c", *of)), patched(
        tasks, "CargoProcessor", lambda *of: ("cargo", *of)
    ):
        found = {name: make() for name, make in tasks.makers({"x86-64-v3": 5, "cargo's x86-64": cargo}).items()}
    expect(found == {"x86-64-v3": ("c", 5, "x86-64-v3"), "cargo's x86-64": ("cargo", cargo)}, True, "the processors")


# ---- their cases


def asked_once(asked, cases, what):
    """Checks that each of these cases, in any order, was asked once."""
    if sorted(map(repr, asked)) != sorted(map(repr, cases)):
        raise Wrong(f"{what}: other cases")


def with_cases(asked):
    """Returns a kind of proofs with MANY cases, which it records."""
    return lambda *_: types.SimpleNamespace(
        queries=lambda *_: [functools.partial(asked.append, k) for k in range(MANY)]
    )


def parts(_):
    """Tests that the parts of a task have each case once, and a sample some of them."""
    for what, (some, count) in tasks.XXH3_CASES.items():
        asked = []
        shown = [tasks.any_xxh3(lambda: None, what, part, with_cases(asked)) for part in range(count)]
        asked_once(asked, range(MANY), what)
        expect(sum(shown for shown, _ in shown), MANY, what)
        ask = [functools.partial(asked.append, (types.SimpleNamespace(name=name),)) for name in "abab"]
        ask = [functools.partial(one.func, None, *one.args) for one in ask]
        found = tasks.sample(what, ask if what == xxh3_updates.STRIPES else [*range(MANY)], some)
        expect(len(found) >= some and len({*found}) == len(found), True, f"a sample of {what}")
    for step in (1, 5):
        asked = []
        with patched(any_secret, "AnySecret", with_cases(asked)):
            expect(tasks.any_secrets(lambda: None, "3-64:both", step)[0], len(asked), "cases of any secret")
        asked_once(asked, range(0, MANY, step), "any secret")


def parts_of_updates(_):
    """Tests the same of XXH32 and XXH64, whose sample and first part have the reset and digests, if any."""
    for hash_name, has_ends in (("32", True), ("32", False), ("64", True)):
        asked, cases = [], list(any_updates.updates(hash_name))

        def proof_class(*_, asked=asked):
            return types.SimpleNamespace(
                update=lambda one: asked.append(one),
                lost_total=lambda one: asked.append(("lost", one)),
                reset=lambda: asked.append("reset"),
                digest=lambda a, r: asked.append((a, r)),
            )

        ends = ["reset", *((a, r) for r in range(int(hash_name) // 2) for a in (0, variable("a")))] if has_ends else []
        for part in range(tasks.UPDATE_PARTS):
            tasks.any_streams(lambda: None, hash_name, part, None, has_ends, proof_class)
        asked_once(asked, [*cases, *(("lost", one) for one in cases), *ends], f"updates of XXH{hash_name}")
        asked.clear()
        count, _ = tasks.any_streams(lambda: None, hash_name, None, 300, has_ends, proof_class)
        asked_once(
            asked, [*cases[::300], *(("lost", one) for one in cases[::300]), *ends], f"some updates of XXH{hash_name}"
        )
        expect(count, len(asked), "the number of cases")


def cases_of_lengths(_):
    """Tests that tasks of lengths ask each of their cases, and tasks of requests each request of each source."""
    found: Any
    asked = []

    def new_proof(_, algorithm):
        return types.SimpleNamespace(
            show=lambda *case: asked.append((algorithm, *case)), show_short=lambda n: asked.append((algorithm, n))
        )

    with patched(every_length, "EveryLength", new_proof):
        expect(tasks.up_to_240(lambda: None, "a")[0], 241, "short lengths")
        expect(tasks.shown(lambda: None, "b", [3, 4, 5], 7)[0], 3, "lengths")
    asked_once(asked, [*(("a", n) for n in range(241)), *(("b", k, 7) for k in (3, 4, 5))], "lengths")
    for hash_name, count in (("32", 2), ("3-64", 3)):
        some, found = [Request(hash_name, "seed", n) for n in (7, 2, 9)], []
        with patched(comparison, "compare", lambda sides, asked: found.append(([*sides], asked)) or (6, [])):
            task = tasks.compared(dict.fromkeys(tasks.NAMES, lambda: None), "a", some)
            task.ask()
        expect(found == [([*tasks.NAMES[:count]], some)], True, "requests of a task")
        expect(task.title == "a: 2 to 9 bytes", True, "a title")


def shown_cases(_):
    """Tests that a refused case is a failure, and that terms are forgotten between cases."""

    def fails(error):
        raise error

    forgotten, proof = [], types.SimpleNamespace(forget=lambda: forgotten.append(1))
    asked = [lambda: None, *(functools.partial(fails, error("x")) for error in (NotShown, WrongRule))]
    count, bad = tasks.count_shown(proof, asked)
    expect(count == 1 and bad == ["NotShown: x", "WrongRule: x"], True, "cases and failures")
    refuses(lambda: tasks.count_shown(proof, [functools.partial(fails, ValueError())]), "a crash", ValueError)
    with patched(tasks, "MOST_NODES", -1):
        tasks.count_shown(proof, asked[:1])
    expect(len(forgotten), 1, "times that terms are forgotten")


def messages(_):
    """Tests that tasks of completeness report what is left out."""
    counts: Any
    found: Any
    expect(
        tasks.report_left_out({"a": [], "b": [1, 2], "c": [*range(9)]})
        == (3, ["b: no task has [1, 2]", "c: no task has [0, 1, 2, 3, 4]"]),
        True,
        "what is left out",
    )
    for is_all in (False, True):
        for left in ([], [3, 4, 5, 6, 7, 8]):
            counts = []
            with patched(coverage, "left_out", lambda proof, count: counts.append(count) or left), patched(
                coverage, "without_one_shot", lambda cases, facts, count: counts.append(count) or left
            ), patched(any_secret, "AnySecret", lambda cpu: types.SimpleNamespace(cases=list, facts=[])):
                for ask in (
                    functools.partial(tasks.points_left_out, lambda: None, is_all, lambda cpu: cpu),
                    functools.partial(tasks.secrets_left_out, {"a": lambda: None}, is_all),
                ):
                    count, bad = ask()
                    expect(count, counts[-1], "points")
                    expect(bad == [f"no case has {point}" for point in left[:5]], True, "points that are left out")
            expect(counts == [tasks.COVERED[is_all] // 3, tasks.COVERED[is_all]], True, "numbers of points")
    with patched(any_updates, "left_out", lambda name: [(1, 2)] * (name == "64")):
        expect(tasks.updates_left_out() == (1, ["XXH64: no case has [(1, 2)]"]), True, "updates that are left out")
    for found, left in (({}, 0), ({"32": [5]}, 1)):
        with patched(every_length, "left_out", lambda cases, first, period: found.get(str(2 * first), [])):
            with patched(tasks, "ONE_BY_ONE", range(16)):
                expect(len(tasks.plain_left_out()[1]), 2 * left, "lengths that are left out")


# ---- the cases of every length and of updates


def members(case, most):
    """Returns the lengths in a case, for up to `most` turns."""
    names, found = case.others.keys(), set()
    for turns, values in itertools.product(range(most), itertools.product(*case.others.values())):
        point = {every_length.TURNS: turns, **dict(zip(names, values))}
        if all(value_at(fact, point) >= 0 for fact in case.facts):
            found.add(value_at(case.length, point))
    return found


def missed_lengths(rng):
    """Compares the lengths that no case has with all lengths, for cases with any number of turns, some, or none."""
    turns, t, period, first, most = variable(every_length.TURNS), variable("t"), 8, 10, 30
    some = [every_length.Case(plus(times(period, turns), k), 0, [minus(turns, 2)], {}) for k in range(8)]
    some += [
        every_length.Case(plus(times(period, turns), 5), 0, [at_most(turns, 7), minus(turns, low)], {})
        for low in (0, 3)
    ]
    some += [
        every_length.Case(plus(times(period, turns), t), 0, [at_most(times(2, turns), 9)], {"t": range(2, 5)}),
        every_length.Case(plus(times(period, turns), t), 0, [minus(times(2, turns), 7), minus(3, t)], {"t": range(8)}),
        every_length.Case(plus(16, t), 0, [at_most(t, 3)], {"t": range(8)}),
        every_length.Case(13, 0, [], {}),
    ]
    for _ in range(60):
        found = rng.sample(some, rng.randrange(1, len(some)))
        there = set().union(*(members(case, most) for case in found))
        left, gaps = every_length.left_out(found, first, period), []
        for rest in range(period):
            missing = [n for n in range(first, period * (most - 8)) if n % period == rest and n not in there]
            gaps += [n for n in missing if n - period not in missing]
        expect(left == sorted(gaps), True, f"the lengths that {found} lack")
    expect(
        every_length.left_out([every_length.Case(LONGEST, 0, [], {})], LONGEST, 1) == [], True, "lengths to the longest"
    )


def each_update(_):
    """Compares the updates with all chunks of up to three turns of the unrolled loop."""
    for hash_name, unrolled in every_length.UNROLLED.items():
        stripe, expected, turns = int(hash_name) // 2, set(), {}
        for r in range(stripe):
            for length in range(3 * stripe * unrolled):
                taken, s = divmod(r + length, stripe)
                further = taken - (r > 0)
                one = (
                    any_updates.Update(r, s, r > 0, further % unrolled, further >= unrolled)
                    if taken
                    else any_updates.Update(r, s, False, 0, False)
                )
                expected.add(one)
                turns[one, further // unrolled if taken else 0] = length
        asked_once(any_updates.updates(hash_name), expected, f"updates of XXH{hash_name}")
        for (one, count), length in turns.items():
            expect(any_updates.length_of(one, hash_name, count), length, f"the length of {one}")
        for left_out in (any_updates.Update(3, 5, True, 1, False), any_updates.Update(3, 5, False, 0, False)):
            some = [one for one in any_updates.updates(hash_name) if one != left_out]
            with patched(any_updates, "updates", lambda _, some=some: iter(some)):
                expect(len(any_updates.left_out(hash_name)), 1, "chunks that are left out")


def proved_updates(_):
    """Tests the stripes and facts of each update's proof, also with a total that becomes 2^64 - 1."""
    proof: Any
    proof, asked = any_updates.AnyUpdates(processors.new_processor(), "64"), []
    proof.update_between = lambda *of: asked.append(of)
    a, d = variable("a"), variable("d")
    for one in any_updates.updates("64"):
        is_empty = any_updates.length_of(one, "64", 1) == 0
        end = plus(a, one.fills + one.further, times(2, d) if one.more else 0)
        proof.update(one)
        proof.lost_total(one)
        expect(len(asked), 1 if is_empty else 2, f"proofs of {one}")
        for (*numbers, facts, family, total), lost in zip(asked, (None, minus(LONGEST, variable("lost")))):
            expect(numbers == [a, one.r, end, one.s] and facts == [minus(d, 1)] * one.more, True, f"the proof of {one}")
            expect(
                (family.stripe, family.count, family.total, total) == (32, 4, end, lost), True, f"the proof of {one}"
            )
        asked.clear()


def edges_of_blocks(_):
    """Tests the lengths at the edges of blocks, whose stripes a secret's length determines."""
    for secret, stripes in ((None, 16), (136, 9), (192, 16), (256, 24)):
        ends = {64 * stripes * b + d for b in range(1, 200) for d in (0, 1)}
        expected = {n for n in {*ends, 2048, 2049, 4096, 4097, 10_240, 10_241} if 1101 <= n <= 10_241}
        expect(comparison.edges(secret) == sorted(expected), True, f"edges with a secret of {secret}")


# ---- the cases of the streams of XXH3


def queries(_):
    """Tests that each kind of proof asks all of its cases: of chunks, resets, digests and stripes."""
    large: Any
    proof: Any
    small: Any
    updates: Any
    small, large = ("start", "end", 5, []), ("start", "end", 700, [], "parts")
    for proof_class in (*xxh3_states.PROOFS, *cargo_streams.PROOFS):
        proof = proof_class(processors.new_processor())
        proof.all_updates, proof.long_pieces = lambda: iter([small, large, small]), lambda: iter(
            [("first",), ("second",)]
        )
        proof.resets, proof.digests, proof.all_taken = (
            lambda name=name: iter([(name, 1), (name, 2)]) for name in "rdt"
        )
        updates = (
            [("any_update", *large)]
            if isinstance(proof, xxh3_states.Through)
            else [("any_update", *case) for case in (small, large, small)]
            + [("long_update", case, is_lost) for case in ("first", "second") for is_lost in (False, True)]
        )
        expected = {
            xxh3_updates.UPDATES: [("one_update",)] * isinstance(proof, xxh3_states.OwnSecret) + updates,
            xxh3_updates.DIGESTS: [("reset", "r", 1), ("reset", "r", 2)]
            + [("digest", "d", k, has_seed, width) for k in (1, 2) for has_seed in (0, 1) for width in ("64", "128")],
            xxh3_updates.STRIPES: [("taken_of", "t", 1), ("taken_of", "t", 2)],
        }
        for what in proof_class.TASKS:
            found = [
                (ask.func.__name__, *ask.args) if hasattr(ask, "func") else (ask.__name__,)
                for ask in proof.queries(what)
            ]
            asked_once(found, expected[what], f"{proof_class.TITLE}: {what}")
    for proof_class, count in ((xxh3_states.OwnSecret, 8), (xxh3_states.CallersSecret, 4)):
        expect(len({*map(repr, proof_class(processors.new_processor()).resets())}), count, "resets")


def chunks(_):
    """Tests that each chunk is in a case of the proofs of whole updates, whether it fits in the buffer or not."""
    for proof_class in (xxh3_states.CallersSecret, xxh3_states.OwnSecret, cargo_streams.CargoUpdates):
        proof = proof_class(processors.new_processor())
        small = [(*start[0], start[1], length, facts) for start, _, length, facts in proof.all_updates()]
        large = [(*place, f, length, facts) for place, f, length, facts, _ in proof.long_pieces()]
        for q, u, b, j, f, L in coverage.points(150, proof):
            is_small = f + L <= proof.capacity
            point = {
                **coverage.variables(q, u, b, j, f, L),
                **({} if is_small else {"n": L - (proof.capacity + 1 - f)}),
            }
            if not any(
                coverage.has(point, [*facts, *proof.facts], [*zip(case, (b, j, f, L))])
                for *case, facts in (small if is_small else large)
            ):
                raise Wrong(f"{proof_class.TITLE}: no case has {(q, u, b, j, f, L)}")
        for *_, length, facts, is_long in proof.long_pieces():
            with given(*proof.facts, *facts):
                expect(length >= xxh3_updates.LONG_PIECE, is_long, "a chunk that a separate function takes")


def starts_of_updates(_):
    """Tests that each full buffer, at each place in a block, is a start of an update with the right end."""
    for whole, is_split in itertools.product((2, 4, 8), (False, True)):
        found, q = list(xxh3_updates.starts(whole, is_split)), 9
        places = [(g, j, 20 * (j % 2)) for g in range(1, whole + 1) for j in range(q)] + [(1, 3, r) for r in range(64)]
        for g, j, r in places:
            behind = 5 + (j + g) // q, (j + g) % q
            point = {"q": q, "b": 5, "j": j, "g": g, "r": r, "i": q - j, "y": g - (q - j)}
            if not any(
                coverage.has(point, one.facts, [*zip((*one.place, one.g, one.r, *one.behind), (5, j, g, r, *behind))])
                for one in found
            ):
                raise Wrong(f"no start of {whole} stripes has {point}")
    for least, most in ((1, 4), (2, 4), (1, 3), (3, 2)):
        expect([g for g, _ in xxh3_updates.stripes_of(most, least)] == [*range(least, most + 1)], True, "few stripes")
    expect([g for g, _ in xxh3_updates.stripes_of(5)] == [variable("g")], True, "many stripes")
    ((g, facts),) = xxh3_updates.stripes_of(8, 2)
    expect([value_at(fact, {"g": 5}) for fact in facts] == [3, 3] and g == variable("g"), True, "many stripes")


def starts_of_full_buffers(_):
    """Tests that a buffer of a given number of stripes has a start at each place in a block, with the right end."""
    for g, is_split, q in itertools.product((7, 8), (False, True), (9, 16)):
        found = list(xxh3_updates.starts(8, is_split, [g]))
        for j, r in itertools.product(range(q), (0, 1, 20, 63)):
            point = {"q": q, "b": 5, "j": j, "r": r, "y": g - (q - j)}
            expected = 5, j, g, r, 5 + (j + g) // q, (j + g) % q
            if not any(
                coverage.has(point, one.facts, [*zip((*one.place, one.g, one.r, *one.behind), expected)])
                for one in found
            ):
                raise Wrong(f"no start of {g} stripes has {point}")


def digests(_):
    """Tests that each state has a digest's case: each number of bytes to 240, and points with stripes."""
    for proof_class in (xxh3_states.OwnSecret, xxh3_states.CallersSecret, cargo_streams.CargoUpdates):
        proof = proof_class(processors.new_processor())
        cases = list(proof.digests())
        short = [f for place, f, *_ in cases if is_same_number(place[0], 0) and isinstance(f, int)]
        expect(short == [*range(241)], True, "short messages")
        starts = {str(place) for place, *_ in cases if isinstance(place[0], int)}
        expect(starts == {"(0, 0)"}, True, "places of short messages")
        expect(len(list(coverage.without_digest(cases, proof, 60))), 0, "states without a digest")


def edges_of_digests(_):
    """Tests that states with few stripes before a full or nearly full buffer, or around 241 bytes, have a digest's
    case."""
    for proof_class in (xxh3_states.OwnSecret, xxh3_states.CallersSecret, cargo_streams.CargoUpdates):
        proof, q = proof_class(processors.new_processor()), 16
        edges = {64 * k + more for k in range(proof.whole + 1) for more in (-16, -15, -1, 0, 1, 48, 49)}
        states = [
            (q, 0, *divmod(stripes, q), f)
            for stripes, f in itertools.product((0, 1, 2, 3, q - 1, q, 3 * q - 1), edges & {*range(proof.capacity + 1)})
            if not stripes or f and 64 * stripes + f > 240
        ]
        with patched(coverage, "states", lambda *_: states):
            expect(len([*coverage.without_digest(proof.digests(), proof, 0)]), 0, "states without a digest")


def whole_digests(_):
    """Tests that the stripes of a digest's buffer begin at its state's place and end where they should."""
    for proof_class in (xxh3_states.OwnSecret, xxh3_states.CallersSecret, cargo_streams.CargoUpdates):
        proof = proof_class(processors.new_processor())
        for place, f, facts, stripes in proof.digests():
            for part in stripes:
                expect(all(map(is_same_number, place, part.start)), True, f"the place of {part}")
                end = plus(proof.stripes(place), part.turns)
                expect(is_same_number(proof.stripes(part.end), end), True, f"the end of {part}")


def cases_of_chunks(_):
    """Tests that all updates are those by chunks that fit, and by others that take no stripes, some or many."""
    proof: Any
    proof = xxh3_states.Through(processors.new_processor())
    proof.small_pieces = lambda: iter(["small"])
    proof.pieces = lambda to, begin, lefts: iter([(to, any(one is EMPTY for one in begin))])
    found = list(proof.all_updates())
    expect(found == ["small", ("none", False), ("none", False), ("some", True), ("many", True)], True, "updates")


def short_secrets(_):
    """Tests that one-shots with secrets that are too short have each kind and length."""
    asked = []

    def one_shot(_, request):
        asked.append((request.variant, request.length))

    with patched(calls.one_shots, "of_text", one_shot), patched(calls, "expect", lambda *_: None), patched(
        Request, "of_definition", lambda *_: 0
    ):
        expect(calls.short_secrets(processors.new_processor(), "3-64"), 243, "calls")
    n = variable("n")
    asked_once(asked, [("secret", n), ("both", plus(n, 241)), *(("both", k) for k in range(241))], "short secrets")


def refused_secrets(_):
    """Tests that a generated secret needs the code of success."""
    proof: Any
    proof = long_seeds.LongSeeds(processors.new_processor())
    proof.proved = lambda *_: (1, 0)
    refuses(lambda: proof.show(137), "a refused secret", (Unsupported,))


def several_updates(_):
    """Tests that an update is also proved with totals and counts of stripes that become 2^64 - 1."""
    ask: Any
    cases: Any
    expected: Any
    f: Any
    length: Any
    lost: Any
    of_counts: Any
    parts: Any
    proof: Any
    proof, asked = xxh3_updates.Xxh3Updates(processors.new_processor()), []
    proof.update = lambda *case, lost=(): asked.append((case, lost))
    part, none, lost = xxh3_updates.Part(0, 5, 5), xxh3_updates.Part(5, 0, 5), variable("lost")
    of_total = [([at_most(lost, 69)], {proof.at.total_bytes: minus(LONGEST, lost)})]
    of_counts = {proof.at.total_bytes: LONGEST, proof.at.count: minus(LONGEST, lost)}
    of_counts = [([lost, at_most(lost, 4)], of_counts), ([minus(lost, 5), at_most(lost, 9)], of_counts)]
    for f, length, parts, totals, counts in (
        (9, 70, (part, none, part), of_total, of_counts),
        (0, 70, (part, part), [], []),
        (9, 0, (), [], []),
        (9, 70, (), of_total, []),
    ):
        for ask, expected in ((proof.lost_totals, totals), (proof.lost_counts, counts)):
            ask(((0, 0), f), "end", length, ["fact"], parts, "more")
            cases = [((((0, 0), f), "end", length, ["fact", *facts], parts, "more"), lost) for facts, lost in expected]
            expect(asked == cases, True, f"cases with lost counts of {f} bytes and {length} more")
            asked.clear()


def points(_):
    """Tests that the points at which completeness is tested have each edge: of blocks, places, buffers and chunks."""
    proof = types.SimpleNamespace(q=None, longest_secret=1 << 60, longest_piece=1 << 41, capacity=512, whole=8)
    found = list(coverage.points(3000, proof))
    expect(len(found), 3000, "points")
    for q, u, b, j, f, L in found:
        expect(
            0 <= j < q and 0 <= f <= 512 and 0 <= u < 8 and 0 <= L <= 1 << 41 and (f > 0 or b == j == 0),
            True,
            "a point",
        )
    qs, us, bs, js, fs, Ls = (
        collections.Counter(values)
        for values in zip(
            *(
                (q, u, b, "start" if not j else "end" if j == q - 1 else "within", f, L)
                for q, u, b, j, f, L in found
                if f
            )
        )
    )
    expect({*qs} == {*range(9, 25), 100, 1 << 20} and {*us} == {*range(8)} and us[0] > 1200, True, "blocks and secrets")
    expect(bs[0] > 500 and bs[1] > 500 and len(bs) > 500 and min(js.values()) > 600, True, "places")
    expect(
        {f % 64 for f in fs} == {*range(64)}
        and all({64 * g + d for d in (-2, -1, 1, 2)} <= {*fs} for g in range(1, 8)),
        True,
        "buffered bytes",
    )
    expect(fs[512] > 30 and 0 < sum(not point[4] for point in found) < 300, True, "empty and full buffers")
    for at in (*coverage.EDGES, *coverage.FAR_OFF):
        expect(any(abs(L - at) < 3 for L in Ls), True, f"chunks of {at} bytes")
    expect(len(Ls) > 200 and min(Ls) == 0 and max(Ls) >= (1 << 40) - 2, True, "chunks")
    proof.longest_piece, proof.q = 100, 16
    found = list(coverage.points(300, proof))
    expect(
        {q for q, *_ in found} == {16} and max(point[5] for point in found) == 100, True, "points of a smaller proof"
    )


# ---- calls


def chunks_of_refusals(_):
    """Tests that the refused chunks have each length, and the refused marks each word."""
    for waiting in (0, 1, 448, 511, 512, 513, 600):
        found = [(n, facts) for _, n, facts in cargo_calls.chunks(waiting)]
        for length in (*range(130), 447, 448, 449, 511, 512, 513, 1 << 40, (1 << 64) - 1):
            if not any(is_in(length, *case) for case in found):
                raise Wrong(f"no chunk has {length} bytes beside {waiting}")
    mark, stripe = 0x5EED1000, 16
    for word in (
        0,
        1,
        mark - 1,
        mark + stripe,
        mark + stripe + 1,
        (1 << 31) - 1,
        1 << 31,
        (1 << 31) + mark - 1,
        (1 << 31) + mark,
        (1 << 32) - 1,
        *range(mark, mark + stripe),
    ):
        has = any(is_in(word, *case) for case in cargo_calls.not_marked(mark, stripe))
        expect(has, not mark <= word < mark + stripe, f"the word {word:#x} as no mark")


def is_in(value, x, facts):
    """True if a number, or a variable and a number, may be this value under the facts."""
    names = names_of(x)
    point = {name: value - value_at(x, {name: 0}) for name in names}
    return (
        value_at(x, point) == value
        and all(number >= 0 for number in point.values())
        and all(value_at(fact, point) >= 0 for fact in facts)
    )


def copied_states(_):
    """Tests that a copy of a state has its bytes, and that the original keeps them."""

    def copy(to, source, is_back=False):
        (to, _), (source, _) = (source.place(), to.place()) if is_back else (to.place(), source.place())
        to.cells = dict(source.cells)

    for call, is_right in (
        (copy, True),
        (functools.partial(copy, is_back=True), False),
        (lambda *_: None, False),
        (lambda to, source: copy(to, source) or source.place()[0].store(8, 8, 5), False),
    ):
        cpu: Any = processors.new_processor()
        cpu.call = lambda _, *places, call=call: call(*places)
        expect(calls.copies(cpu), 3, "copies") if is_right else refuses(
            lambda: calls.copies(cpu), "a wrong copy", REFUSALS
        )


def ends_of_streams(_):
    """Tests that only tasks of XXH32 and XXH64 have resets and digests."""
    for names, is_all in itertools.product((("32", "64"), ("32",)), (False, True)):
        with patched(tasks, "counted", lambda title, least, ask, *arguments: arguments):
            asked = [*filter(None, tasks.plain_stream_tasks({"a": "made"}, is_all, 50, "{}", names))]
        parts = range(tasks.UPDATE_PARTS) if is_all else [None]
        expect(
            asked == [("made", name, part, 50, len(names) > 1) for name in names for part in parts],
            True,
            "tasks of streams",
        )


def nothing_supposed(_):
    """Tests that a proof begins without the hypotheses of another one."""
    cpu = processors.new_processor()
    whole, plain = xxh3_states.OwnSecret(cpu), any_updates.AnyUpdates(cpu, "64")
    plain.begin(100)
    for begin in (
        lambda: every_length.EveryLength(cpu, "64"),
        lambda: long_seeds.LongSeeds(cpu),
        lambda: whole.begin(5),
        lambda: plain.state(0, 0),
        plain.read,
        whole.read,
    ):
        suppositions.values["a call"] = 5
        begin()
        expect("a call" not in suppositions.values, True, "hypotheses of another proof")


def nothing_assumed(_):
    """Tests that calls which don't depend on a seed assume no term to be nonzero."""

    class Asked(Exception):
        pass

    def stop(*_, **__):
        raise Asked

    for ask in (calls.null_pointers, calls.in_one_place, calls.derived_secret):
        cpu = types.SimpleNamespace(
            not_zero=[symbol("a64", 64)],
            call=stop,
            fresh=symbol,
            library=types.SimpleNamespace(one_shot=stop, has=lambda _: True),
        )
        refuses(lambda ask=ask, cpu=cpu: ask(cpu), "a call", Asked)
        expect(cpu.not_zero == [], True, "terms that are assumed to be nonzero")


ALL = [
    lists,
    outcomes,
    processors_of,
    parts,
    parts_of_updates,
    cases_of_lengths,
    shown_cases,
    messages,
    missed_lengths,
    each_update,
    proved_updates,
    edges_of_blocks,
    queries,
    chunks,
    starts_of_updates,
    starts_of_full_buffers,
    digests,
    edges_of_digests,
    whole_digests,
    cases_of_chunks,
    several_updates,
    points,
    chunks_of_refusals,
    copied_states,
    short_secrets,
    refused_secrets,
    ends_of_streams,
    nothing_supposed,
    nothing_assumed,
]
