"""Tests what the proofs of XXH3's streams assume of a state and of calls, and what they require of them. Each takes a
random generator, which it doesn't use, and raises Wrong."""
import itertools
import types
import unittest.mock
from typing import Any

from oracle.machine_code import coverage, xxh3_states, xxh3_updates
from oracle.machine_code.memory import ENTRY, Stack, WordMemory
from oracle.machine_code.stripes import DEEP, TAKEN, ACCUMULATOR_BYTES, Part, Summary
from oracle.machine_code.values import Names, address
from oracle.symbolic_terms import LONGEST, Input, NotShown, given, minus, plus, same, variable

from . import processors
from .values import expect, refuses

FLOOR, STRIPES_AT = ENTRY - 512, 128
MESSAGE, SECRET, OTHER = Input("m", 1000), Input("s", 192), Input("o", 1000)


class Taken:
    """A call of a function that takes three stripes from `first` on in a block, or none. `changed` has other
    arguments: words, begun, stripes, length, own or own_length."""

    def __init__(self, summary, first=2, turns=3, end=None, **changed):
        self.supposed, self.summary, values = [], summary, [100 + i for i in range(8)]
        part = Part((0, first), turns, (0, first + turns if end is None else end))
        family = types.SimpleNamespace(
            parts=[part],
            stripes=lambda place: place[1],
            values_after=lambda k: values,
            suppose=lambda *put: self.supposed.append(put),
        )
        self.stack, source = Stack(), WordMemory("other", TAKEN, alignment=8)
        for i, x in enumerate([*changed.get("values", values), changed.get("begun", first)]):
            source.cells[8 * i] = 8, x
        self.to, at = (source, 0) if summary.is_in_place else (self.stack, FLOOR)
        records = [address(source)] if summary.is_in_place else [address(self.stack, at), address(source)]
        arguments = [
            changed.get(name, x)
            for name, x in (
                ("stripes", address(MESSAGE, 64 * first)),
                ("length", 64 * turns),
                ("own", address(SECRET)),
                ("own_length", 192),
            )
        ]
        summary.take(Names(), family, MESSAGE, SECRET, [*records, *arguments], self.stack, FLOOR)
        self.values = [self.to.load(at + 8 * i, 8) for i in range(8)]
        self.place = self.to.cells.get(at + 64, (8, None))[1]
        expect(all(map(same, self.values, values)), turns == 0, "the words after a call")


def taken_stripes(_):
    """Changes each argument of a call that takes stripes, and tests its effect."""
    for has_place, is_in_place in ((True, False), (True, True), (False, False)):
        first = 2 if has_place else 0
        for least in (0, 3):
            summary = Summary("take", has_place, least, is_in_place=is_in_place)
            expect(summary.size, TAKEN if has_place else ACCUMULATOR_BYTES, "bytes of a record")
            done = Taken(summary, first)
            expect(done.supposed == [(first + 3, done.values)], True, "the assumed words")
            expect(done.place, first + 3, "the place") if has_place else None
        summary = Summary("take", has_place, 0, is_in_place=is_in_place)
        changes = [
            {"stripes": address(MESSAGE, 64 * first + 1)},
            {"stripes": address(OTHER, 64 * first)},
            {"length": 191},
            {"length": 256},
            {"own": address(SECRET, 1)},
            {"own": address(OTHER)},
            {"own_length": 191},
            {"own": 5},
            {"stripes": 5},
            {"values": [*range(100, 107), 0]},
            {"values": [0, *range(101, 108)]},
            {"end": first + 4},
        ]
        for change in [*changes, *([{"begun": 3}, {"begun": 1}] if has_place else [])]:
            refuses(lambda: Taken(summary, first, **change), f"a call with another {[*change]}", (NotShown,))
        refuses(
            lambda: Taken(Summary("take", has_place, 4, is_in_place=is_in_place), first), "too few stripes", (NotShown,)
        )
        for stripes in (address(MESSAGE, 64 * first), address(OTHER, 7)):
            done = Taken(summary, first, 0, stripes=stripes)
            expect(done.supposed == [], True, "assumed words of no stripes")
        Taken(Summary("take", has_place, has_length=False, is_in_place=is_in_place), first, own_length=7)


def long_update(proof, case, is_lost, calls=1, is_long=None, seen=(), after=()):
    """Proves an update by a chunk that doesn't fit, whose run only changes the total and adds calls with the state
    `seen`. Returns the number of runs."""
    runs = []

    def run(live, what, _, state, piece):
        total = LONGEST if is_lost else plus(state.load(proof.at.total_bytes, 8), piece.length)
        state.store(proof.at.total_bytes, 8, total)
        what.args[0].extend([(case[-1] if is_long is None else is_long, {**state.cells, **dict(seen)})] * calls)
        state.cells.update(after)
        runs.append(live)

    proof.run = run
    proof.long_update(*case, is_lost)
    return len(runs)


def whole_updates(_):
    """Tests that an update by a chunk that doesn't fit is one call, and only changes the total."""
    case: Any
    change: Any
    is_lost: Any
    proof: Any
    what: Any
    for proof_class in (xxh3_states.OwnSecret, xxh3_states.CallersSecret):
        proof = proof_class(processors.new_processor())
        total, count = {proof.at.total_bytes: (8, 7)}, {proof.at.count: (8, 1)}
        for (k, case), is_lost in itertools.product(enumerate(proof.long_pieces()), (False, True)):
            runs = 0 if is_lost and k < 2 else 2
            expect(long_update(proof, case, is_lost), runs, "runs of an update")
            changes = (
                {"calls": 0},
                {"calls": 2},
                {"is_long": not case[-1]},
                {"seen": total},
                {"after": total},
                {"after": count},
            )
            for change in changes if runs else ():
                what = f"an update with other {[*change]}"
                refuses(lambda: long_update(proof, case, is_lost, **change), what, (NotShown,))


def resets(_):
    """Tests the arguments of resets, and that only a seed for a derived secret is assumed to be nonzero."""

    proof: Any

    class Asked(Exception):
        pass

    for proof_class in (xxh3_states.OwnSecret, xxh3_states.CallersSecret):
        proof, asked = proof_class(processors.new_processor()), []

        def run(live, name, parts, *arguments, not_zero=(), asked=asked):
            asked.append((name, len(arguments), len(not_zero)))
            raise Asked

        proof.run = run
        for case in proof.resets():
            refuses(lambda: proof.reset(*case), "a reset", Asked)
            name, count, assumed = asked.pop()
            expect(name == case[0], True, "the function's name")
            is_given, has_seed = name.startswith("twox_c"), case[1] is not None and name.lower().endswith("seed")
            expect(count, 1 + 3 * is_given + has_seed, f"arguments of {name}")
            expect(assumed, case[1] == "seed" and not is_given, f"terms that {name} assumes to be nonzero")


def stack_of_calls(_):
    """Tests the bytes of stack that functions may use."""
    proof = xxh3_states.Through(processors.new_processor())
    for lowest, is_right in ((ENTRY - DEEP, True), (ENTRY - DEEP - 1, False)):
        proof.cpu.stack.lowest = lowest
        if is_right:
            proof.expect_stack(xxh3_updates.TAKE)
        else:
            refuses(lambda: proof.expect_stack(xxh3_updates.TAKE), "a function that uses more stack", (NotShown,))
    proof.begin(5000)
    with given(*proof.facts):
        state, piece = proof.state((0, 0), 0), xxh3_updates.Piece(proof.source, 0, 700)
        for lowest, is_right in ((ENTRY - 2 * DEEP, True), (ENTRY - 2 * DEEP - 1, False)):
            calls = []
            cpu = types.SimpleNamespace(
                stack=types.SimpleNamespace(lowest=lowest),
                TAKES_STRIPES=5,
                call=lambda *arguments, into, calls=calls: calls.append(arguments[0]),
            )
            if is_right:
                proof.write(cpu, None, state, piece)
            else:
                refuses(lambda: proof.write(cpu, None, state, piece), "an update that uses more stack", (NotShown,))
            expect(calls == [xxh3_states.THROUGH], True, "the called function")


def facts_of_places(_):
    """Tests that the cases of taken stripes need the facts of a proof, if they aren't of one block and secret."""
    part = Part((variable("b"), variable("j")), variable("n"), None)
    for own, facts, count in (
        ((None, None), [], 0),
        ((None, None), [minus(0, 1)], 30),
        ((16, None), [minus(0, 1)], 0),
        ((17, None), [], 30),
        ((16, 1), [], 30),
        ((16, 0), [], 0),
        ((None, 0), [], 0),
        ((None, None), [minus(variable("q"), 17)], 30),
    ):
        proof = types.SimpleNamespace(facts=facts, longest_piece=1 << 40)
        points = [(16, 0, 1, 3, 0, 64 * k) for k in range(30)]
        with unittest.mock.patch.object(coverage, "points", lambda *_, points=points: points):
            missing = coverage.without_taken(
                [(own, (xxh3_updates.TAKE, [part], []))], proof, [(xxh3_updates.TAKE.name, 0)], 30
            )
            expect(len(list(missing)), count, f"places without a case for {own}")
    expect(len(list(xxh3_updates.Xxh3Updates.widened())), 256 + 120, "cases of the function for x86-64-v4")


ALL = [taken_stripes, whole_updates, resets, stack_of_calls, facts_of_places]
