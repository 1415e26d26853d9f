"""Tests the cases of the functions that take stripes of XXH3's streams: each case's parts follow one another within the
blocks, each place and number of stripes has a case, and no case assumes itself. Each takes a random generator, which it
doesn't use, and raises Wrong."""

import itertools
import types
import unittest.mock

from oracle.machine_code import coverage, xxh3_states, xxh3_updates
from oracle.machine_code.processor import ARGUMENTS
from oracle.machine_code.xxh3_updates import BLOCK, FAR, MANY, TAKE, TAKE_BLOCKS, TAKE_MANY, TAKE_WIDENED
from oracle.symbolic_terms import names_of, value_at

from . import processors
from .values import Wrong, expect

patched = unittest.mock.patch.object
# Small values of the variables of the cases.
VALUES = {
    "q": (9, 15, 16, 17, 40),
    "u": (0, 1, 7),
    "b": (0, 3),
    "j": (0, 1, 8, 14, 15, 16),
    "a": (0, 1, 2, 3),
    "n": (0, 1, 7, 29),
    "D": (0, 1, 3, 29, 30),
    "e": (0, 1, 3, 4, 8, 15),
}
NARROW = {**VALUES, "b": (3,), "D": (0, 3, 30)}  # for the cases of one block's length


def proof_of(is_widened=False):
    """Returns the proofs of streams of a processor without a program, or with the name of the widened function."""
    cpu = processors.new_processor()
    cpu.program.functions = {TAKE_WIDENED.name: ("f", 0)} if is_widened else {}
    return xxh3_states.Through(cpu)


def cases_of(proof):
    """Yields (stripes of a block or None, further bytes of the secret or None, summary, parts, facts, summaries)."""
    for (q, u), (summary, parts, facts, *others) in proof.all_taken():
        yield q, u, summary, parts, [*facts, *proof.facts], [*others, []][0]


def points(case, values):
    """Yields values of a case's variables at which its facts hold."""
    q, u, _, parts, facts, _ = case
    terms = [x for part in parts for x in (*part.start, part.turns, *part.end)]
    fixed = {name: (x,) for name, x in (("q", q), ("u", u)) if x is not None}
    names = sorted({"q"} | names_of(*facts, *terms))
    for numbers in itertools.product(*({**values, **fixed}[name] for name in names)):
        point = dict(zip(names, numbers))
        if all(value_at(fact, point) >= 0 for fact in facts):
            yield point


def consecutive_parts(_):
    """Tests that the parts of a case follow one another, begin and end within blocks, and take the stripes between."""
    for is_widened in (False, True):
        for case in cases_of(proof_of(is_widened)):
            _, _, summary, parts, _, _ = case
            is_any = False
            for point in points(case, VALUES if case[0] is None else NARROW):
                q, is_any, total = point["q"], True, 0
                places = [[value_at(x, point) for x in (*part.start, part.turns, *part.end)] for part in parts]
                for b, j, turns, to, at in places:
                    total += turns
                    is_right = 0 <= j < q and 0 <= at < q and turns >= 0 and b >= 0 and q * b + j + turns == q * to + at
                    expect(is_right, True, f"a part of {summary.name}, {(b, j, turns, to, at)} of {q}, at {point}")
                for before, after in itertools.pairwise(places):
                    expect(before[3:] == after[:2], True, f"parts of {summary.name} that follow one another")
                expect(total >= summary.least, True, f"{total} stripes of {summary.name}")
            expect(is_any, True, f"a point of a case of {summary.name}")


def complete_cases(_):
    """Tests that each place of a block, with each number of stripes, is in a case."""
    counts = [0, 1, 2, 3, 15, 16, 17, 31, 100, FAR - MANY - 1, FAR - MANY, FAR - MANY + 1, 4 * FAR]
    for is_widened, q, u in (
        (False, 9, 0),
        (False, 16, 3),
        (False, 17, 7),
        (False, 40, 7),
        (True, 16, 0),
        (True, 16, 3),
    ):
        proof = proof_of(is_widened)
        names = [(TAKE.name, 0), (TAKE_MANY.name, MANY)] + [(TAKE_WIDENED.name, BLOCK)] * is_widened
        places = [(k % 3, k * 5 % q, 64 * n) for k, n in enumerate(counts)]
        found = [(q, u, b, j, 0, n) for b, j, n in places]
        with patched(coverage, "points", lambda count, proof, found=found: found):
            missing = list(coverage.without_taken(proof.all_taken(), proof, names, len(found)))
        if missing:
            raise Wrong(f"no case has {missing[0]}")


def whole_blocks(_):
    """Tests the case of whole blocks of 16 stripes: from any block's beginning to any later one's."""
    (case,) = [case for case in cases_of(proof_of()) if case[2] is TAKE_BLOCKS]
    q, _, _, (part,), facts, others = case
    expect(q, BLOCK, "stripes of a block")
    expect(others == [], True, "functions that whole blocks assume")
    ways = {(point["b"], value_at(part.turns, point)) for point in points(case, VALUES)}
    expect(ways == {(b, 16 * (1 + D)) for b in VALUES["b"] for D in VALUES["D"]}, True, "whole blocks")


def assumed_functions(_):
    """Tests that the functions whose summaries a case assumes have cases that don't assume the case's own function, and
    that each function has cases."""
    for is_widened in (False, True):
        assumed = {}
        for _, _, summary, _, _, others in cases_of(proof_of(is_widened)):
            assumed.setdefault(summary.name, set()).update(one.name for one in others)
        expected = {TAKE.name, TAKE_MANY.name, TAKE_BLOCKS.name, *([TAKE_WIDENED.name] if is_widened else [])}
        expect({*assumed} == expected, True, "functions that take stripes")
        for name in assumed:
            reached = set()
            waiting = {*assumed[name]}
            while waiting:
                one = waiting.pop()
                reached.add(one)
                waiting |= assumed[one] - reached
            expect(name in reached, False, f"{name} assumed by its own proof")


def called_functions(_):
    """Tests which function a proof calls, with which registers of arguments, and how it updates a state."""
    proof, called = proof_of(), []
    proof.cpu = types.SimpleNamespace(call=lambda *of, into: called.append((of, into)), TAKES_STRIPES=ARGUMENTS)
    for summary, registers in ((TAKE, ARGUMENTS), (TAKE_MANY, ARGUMENTS[:5]), (TAKE_WIDENED, ARGUMENTS[:5])):
        proof.taker(summary)(1, 2)
        expect(called.pop() == ((summary.name, 1, 2), registers), True, f"a call of {summary.name}")
    updated = []
    with patched(xxh3_updates.Xxh3Updates, "library", types.SimpleNamespace(update=lambda *of: updated.append(of))):
        xxh3_updates.Xxh3Updates.write(proof, "cpu", "3-64", "state", "piece")
    expect(updated == [("cpu", "3-64", "state", "piece")], True, "an update")


def is_in_start(start, point):
    """True if a state of a buffer, with the stripes that complete it, is in a case, which ends at the right place."""
    values = [value_at(x, point) for x in (*start.place, start.g, start.r, *start.behind)]
    if values[:4] != [point[name] for name in "bjgr"] or any(value_at(fact, point) < 0 for fact in start.facts):
        return False
    names = names_of(*start.place, start.g, *start.behind, *start.facts)
    if any(point[name] < 0 for name in names):
        return False
    end = point["q"] * point["b"] + point["j"] + point["g"]
    expect(values[4:] == [*divmod(end, point["q"])], True, f"the place behind the stripes of {point}")
    return True


def buffered_states(_):
    """Tests that each number of stripes that a buffer may have, at each place of a block, is in a case."""
    buffers = (4, None), (8, None), (8, [8]), (8, [7])  # the stripes of a buffer, and the given numbers in it
    for (whole, gs), is_split, q in itertools.product(buffers, (False, True), (9, 16)):
        found = [*xxh3_updates.starts(whole, is_split, gs)]
        for j, g, r in itertools.product((0, 1, *range(q - 8, q)), gs or range(1, whole + 1), (0, 2, 33)):
            point = {"q": q, "b": 2, "j": j, "g": g, "r": r, "i": q - j, "y": g - (q - j)}
            is_there = any(is_in_start(start, point) for start in found)
            expect(is_there, True, f"a case of {g} of {whole} stripes and {r} bytes at {j} of {q}")


ALL = [buffered_states, consecutive_parts, complete_cases, whole_blocks, assumed_functions, called_functions]
