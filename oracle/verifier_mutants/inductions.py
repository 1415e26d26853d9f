"""Tests of the proofs of XXH3's streams: which turns of a loop are run, calls of functions that take stripes, a state's
runs, which places the cases have, and which tasks there are. Each raises Wrong."""
import types
import unittest.mock
from typing import Any

from oracle.machine_code import cargo_tasks, coverage, tasks, values, xxh3_states, xxh3_updates
from oracle.machine_code.induction import Family, Head, Loops, Proof
from oracle.machine_code.memory import ENTRY, Stack, WordMemory
from oracle.machine_code.stripes import LEAST_ENTRY, TAKEN, Part, Stripes, StripesProof, Summary, is_at
from oracle.machine_code.values import Cpu, Names, address, joined
from oracle.symbolic_terms import (
    REFUSALS,
    RUNS,
    Input,
    Memory,
    NotShown,
    Piece,
    at_most,
    given,
    is_same_number,
    minus,
    moved,
    plus,
    same,
    step_between,
    symbol,
    times,
    variable,
)

from . import (
    assumptions,
    blocks,
    choices,
    chosen_tasks,
    commands,
    conditions,
    contents,
    definitions,
    exported,
    fields,
    files_and_tasks,
    forms_of_terms,
    lengths,
    libraries,
    limits,
    loops,
    machines,
    processors,
    processors_and_cases,
    programs,
    readers,
    storage,
    stripe_cases,
    terms,
    terms_and_facts,
    updates,
    vector_forms,
    word_forms,
)
from .values import expect, refuses

BLOCK, FIRST = 16, 3  # stripes of a block, and the place in it where a loop begins
# Functions that take stripes, with the least number.
LEAST = {
    xxh3_updates.TAKE.name: 0,
    xxh3_updates.TAKE_MANY.name: xxh3_updates.MANY,
    xxh3_updates.TAKE_WIDENED.name: BLOCK,
}


def turns(_):
    """Tests which turns a loop's proof runs: within the first block, at its end, within a later block, at its end, as
    far as a loop with so many turns has them."""
    i: Any
    k: Any
    proof: Any
    for left, count in ((0, 0), (12, 1), (13, 2), (14, 3), (28, 3), (29, 4), (variable("left"), 4)):
        proof, entered, compared = StripesProof.__new__(StripesProof), [], []
        proof.cpu, proof.family, proof.first_place, proof.step = Names(), types.SimpleNamespace(q=BLOCK), (0, FIRST), 1
        proof.supposed, proof.turn = lambda k: None, lambda: None
        proof.enter = lambda k, _, i, found=entered: found.append((k, i))
        proof.compare = lambda k, i, found=compared: found.append((k, i))
        proof.show_turns(left)
        expect(len(entered), count, f"turns of {left}")
        expect(len(compared), count, f"compared turns of {left}")
        for (k, i), (then, at) in zip(entered, compared):
            expect(is_same_number(then, plus(k, 1)), True, "the next turn")
            expect(
                is_same_number(at, 0 if is_same_number(i, BLOCK - 1) else plus(i, 1)), True, "the next place in a block"
            )


def records(_):
    """Tests where the records of a call that takes stripes may be."""
    floor, part = ENTRY - 512, Part((0, 2), 3, (0, 5))
    family = types.SimpleNamespace(
        parts=[part],
        stripes=lambda place: BLOCK * place[0] + place[1],
        values_after=lambda k: [100 * k + i for i in range(8)],
        suppose=lambda k, values: None,
    )
    message, secret = Input("m", 1000), Input("s", 192)

    def call(to, first, source, place):
        memories = {"stack": Stack(), "other": WordMemory("other", ENTRY, alignment=8)}
        for i, x in enumerate([*family.values_after(2), 2]):
            memories[source].cells[place + 8 * i] = 8, x
        arguments = (
            address(memories[to], first),
            address(memories[source], place),
            address(message, 128),
            192,
            address(secret),
            192,
        )
        Summary("take").take(Names(), family, message, secret, arguments, memories["stack"], floor)
        return memories[to].load(first + 64, 8)

    for first, source, place in (
        (floor, "other", 0),
        (floor, "other", floor),
        (floor, "stack", floor + TAKEN),
        (floor + TAKEN, "stack", floor),
    ):
        expect(call("stack", first, source, place), 5, "the place after a call")
    for to, first, source, place in (
        ("stack", floor, "stack", floor),
        ("stack", floor, "stack", floor + TAKEN - 8),
        ("stack", floor + TAKEN - 8, "stack", floor),
        ("stack", floor - 8, "other", 0),
        ("other", floor, "other", 0),
        ("other", floor, "stack", floor),
        ("stack", floor + TAKEN, "stack", floor - 8),
    ):
        refuses(
            lambda asked=(to, first, source, place): call(*asked),
            f"records at {first} of {to} and {place} of {source}",
            (NotShown,),
        )


def lost_runs(cpu: Cpu) -> None:
    """Tests that a state without its buffered bytes, or without its secret, is refused."""
    proof = xxh3_states.OwnSecret(cpu)
    b, j, f = (variable(name) for name in "bjf")
    with given(*proof.facts, minus(minus(proof.q, 1), j), minus(f, 1), at_most(f, proof.capacity)):
        proof.begin(plus(times(64, proof.stripes((b, j))), f))
        state = proof.state((b, j), f)
        proof.expect_state("a state", state, (b, j), f, [], {})
        runs = state.cells[RUNS]
        expect(len(runs), 2, "the runs of a state")
        for k in range(len(runs)):
            state.cells[RUNS] = runs[:k] + runs[k + 1 :]
            refuses(
                lambda: proof.expect_state("a state", state, (b, j), f, [], {}), "a state without a run", (NotShown,)
            )


def places(_):
    """Tests that the cases by fours have each start of a block, with the least and the most stripes and some
    between."""
    least, far = xxh3_updates.MANY, xxh3_updates.FAR
    proof = types.SimpleNamespace(facts=[], longest_piece=64 * far, longest_secret=256)
    cases = [
        ((BLOCK, None), (xxh3_updates.TAKE_MANY, parts, [*facts, *xxh3_updates.of_many(parts)]))
        for parts, facts in xxh3_updates.Xxh3Updates.by_fours()
    ]
    for counts, is_missing in (
        ((least, least + 1, 100, 200, 300, 400, far - 2, far - 1), False),
        ((least - 1, far), True),
    ):
        found = [(BLOCK, 0, 1, j, 0, 64 * n) for j in range(BLOCK) for n in counts]
        with unittest.mock.patch.object(coverage, "points", lambda count, proof, found=found: found):
            missing = list(coverage.without_taken(cases, proof, [(xxh3_updates.TAKE_MANY.name, 0)], len(found)))
        expect(len(missing), len(found) if is_missing else 0, f"places that no case has, with {counts} stripes")


def tasks_of_streams(_):
    """Tests the tasks of cargo's streams: all parts, without the functions that c/asm's tasks show, or a sample."""
    built = dict.fromkeys(("cargo's x86-64", "cargo's x86-64-v3"))
    for is_all, count, of_v3 in ((True, 30, 0), (False, 10, 1)):
        titles = [task.title for task in cargo_tasks.xxh3_tasks(built, is_all)]
        expect(len(titles), count, "tasks of streams")
        expect(len({*titles}), count, "titles of tasks")
        expect(sum(xxh3_updates.STRIPES in title and "-v3," in title for title in titles), of_v3, "tasks of stripes")


def last_stripes(cpu: Cpu) -> None:
    """Tests for which states a case assumes that the buffer ends with the last stripe, and that cases with another
    length, or with stripes of a short message, are refused."""
    assumed: Any
    proof: Any
    proof, assumed = xxh3_states.Through(cpu), []
    proof.state = lambda place, f, runs=(), *_: assumed.append(len(runs)) or types.SimpleNamespace(cells={})
    proof.run, proof.expect_state = lambda *_, **__: None, lambda *_: None
    for is_short, count, length, parts, expected in (
        (True, 0, 10, (), 1),
        (False, 0, 10, (), 0),
        (True, 4, 266, (Part((0, 0), 4, (0, 4)),), 0),
    ):
        proof.update_to(is_short, ((0, 0), 0), ((0, count), 10), length, [], parts)
        expect(assumed.pop(), expected, "last stripes of a state before an update")
    for count, length in ((3, 202), (4, 267)):
        refuses(
            lambda count=count, length=length: proof.update_to(
                False, ((0, 0), 0), ((0, count), 10), length, [], (Part((0, 0), count, (0, count)),)
            ),
            "a wrong case",
            (NotShown,),
        )
    b, j = variable("b"), variable("j")
    for place, f, expected in (((b, j), 63, 1), ((b, j), 64, 0), ((0, 0), 63, 0)):
        try:
            proof.digest(place, f, [minus(b, 1), minus(minus(proof.q, 1), j)], (), 0, "64")
        except REFUSALS:
            pass  # of the value, which nothing computes here
        expect(assumed.pop(), expected, "last stripes of a state before a digest")


def places_of_v4(cpu: Cpu) -> None:
    """Tests that the cases of functions that take stripes have blocks and secrets of each kind."""
    proof = xxh3_updates.Xxh3Updates(cpu)
    found = [
        (q, u, 1, j, 0, 64 * n)
        for q, u in ((9, 0), (15, 3), (16, 0), (16, 3), (17, 0))
        for j in (0, 4, q - 1)
        for n in (0, 1, 30, 100)
    ]
    with unittest.mock.patch.object(coverage, "points", lambda count, proof: found):
        left = list(coverage.without_taken(proof.all_taken(), proof, [*LEAST.items()], len(found)))
    expect(len(left), 0, "places that no case has")


def states(_):
    """Tests the states at which digests are tested: no stripes, or more than 240 bytes."""
    proof = types.SimpleNamespace(q=None, longest_secret=1 << 60, longest_piece=1 << 40, capacity=512, whole=8)
    found = list(coverage.states(3000, proof))
    expect(len(found) > 2000, True, "the number of states")
    expect(all(not (b or j) or 64 * (q * b + j) + f > 240 for q, _, b, j, f in found), True, "the stripes of a state")


def held_values(_):
    """Tests that words that are numbers are found in the cells."""
    is_held: Any
    proof: Any
    for word, is_held in ((5, True), (6, False)):
        proof = types.SimpleNamespace(
            start={"cell": 5}, family=types.SimpleNamespace(seem=lambda _, has, x=word: has(x))
        )
        expect(Proof.holds(proof, 0), is_held, "a number in a cell")


def heads(_):
    """Tests that a loop is proved at its head, except while cells are guessed, and that a run stops there once."""
    loops: Any
    shown: Any
    place, shown = ("f", 0), []
    program = types.SimpleNamespace(sections={"f": {4: types.SimpleNamespace(target=place)}})
    loops = Loops(program, None, lambda *_: types.SimpleNamespace(show=lambda: shown.append(place) or True))
    loops.HAS_INNER, loops.is_guessing = True, True
    loops.proof.HAS_INNER = True
    loops.pass_by(None, place)
    expect(len(shown), 0, "proofs while cells are guessed")
    loops.is_guessing = False
    loops.pass_by(None, ("f", 4))
    expect(len(shown), 0, "proofs at another place")
    loops.pass_by(None, place)
    expect(len(shown), 1, "proofs of a loop")
    loops.stop, loops.running = place, {}
    refuses(lambda: loops.pass_by(None, place), "the head at which a run stops", (Head,))
    expect(loops.stop is None, True, "a run that stops once")


def sources_of_v4(_):
    """Tests which sources are for x86-64-v4."""
    built = dict.fromkeys(("x86-64-v3", "x86-64-v4", "cargo's x86-64-v4"))
    expect([*tasks.only_v4(built)] == ["x86-64-v4", "cargo's x86-64-v4"], True, "sources for x86-64-v4")
    expect([*tasks.before_v4(built)] == ["x86-64-v3"], True, "sources for others")


def steps_in_blocks(_):
    """Tests the places some stripes before and behind another, in blocks of a number of stripes or of any number."""
    for q in (BLOCK, variable("q")):
        family, b = Stripes("XXH3", q, (), None, None), variable("b")
        for n, j, before, behind in (
            (1, 0, (minus(b, 1), minus(q, 1)), (b, 1)),
            (4, 0, (minus(b, 1), minus(q, 4)), (b, 4)),
            (1, minus(q, 1), (b, minus(q, 2)), (plus(b, 1), 0)),
            (4, 8, (b, 4), (b, 12)),
            (4, minus(q, 4), (b, minus(q, 8)), (plus(b, 1), 0)),
            (1, 1, (b, 0), (b, 2)),
        ):
            for found, expected in ((family.before((b, j), n), before), (family.behind((b, j), n), behind)):
                expect(all(map(is_same_number, found, expected)), True, f"{n} stripes from {j}")
        expect(is_same_number(family.stripes((b, 3)), plus(times(q, b), 3)), True, "stripes")


def places_in_inputs(_):
    """Tests which addresses are known to be bytes of an input: in it, in a part of it, or in memory with a copy."""
    at: Any
    memory: Any
    offset: Any
    size: Any
    source, n = Input("s", 300), variable("n")
    piece, buffer = Piece(source, 64, 128), Memory("room", 100)
    with given(minus(n, 40), at_most(n, 60)):
        buffer.put_run(10, n, source, 5)
        for memory, offset, at, size, holds in (
            (source, 10, 10, 20, True),
            (source, 10, 11, 20, False),
            (source, 290, 290, 10, True),
            (source, 290, 290, 11, False),
            (source, -1, -1, 5, False),
            (piece, 3, 67, 10, True),
            (piece, 3, 3, 10, False),
            (piece, 120, 184, 8, True),
            (piece, 120, 184, 9, False),
            (piece, -1, 63, 2, False),
            (buffer, 12, 7, 8, True),
            (buffer, 12, 12, 8, False),
            (Input("t", 300), 10, 10, 20, False),
        ):
            expect(
                is_at(address(memory, offset), source, at, size),
                holds,
                f"{size} bytes at {offset} of {memory.name} as {at}",
            )
        for offset, size in ((9, 4), (49, 2)):
            refuses(
                lambda: is_at(address(buffer, offset), source, offset - 5, size), f"{size} bytes at {offset} of a copy"
            )


def families(_):
    """Tests the words of a loop, of which a cell has one or several."""
    known = []
    for stripe, sizes, together, expected in (
        (16, (1, 2, 4), 1, 4),
        (16, (1, 2, 4), 2, 2),
        (16, (1, 2, 4), 4, 1),
        (64, (1, 2), 1, 4),
    ):
        family = Family(
            "f", stripe, 9, 4, lambda k: lambda j: symbol(f"w{k}:{j}", 32), lambda *put: known.append(put), sizes
        )
        expect(family.sizes == (sizes if stripe == 16 else (1,)), True, "numbers of words in a cell")
        family.together = together
        symbols = [symbol(f"w3:{j}", 32) for j in range(4)]
        cells = [
            symbols[j] if together == 1 else joined(*((x, 32) for x in symbols[j : j + together]))
            for j in range(0, 4, together)
        ]
        expect(len(cells), expected, "cells")
        expect(
            len(family.values_after(3)) == len(cells) and all(map(same, family.values_after(3), cells)), True, "words"
        )
        for missing in (None, *range(expected)):
            expect(
                family.seem(3, lambda x, missing=missing: missing is None or x is not cells[missing]),
                missing is None,
                "words that are there",
            )
        family.suppose(3, symbols)
        expect(known.pop() == (3, symbols) and not family.known, True, "assumed words")


def advances(_):
    """Tests by how much values advance, and whether two are the same: numbers, terms, addresses, and tuples of
    these."""
    n, x, y, first, second = variable("n"), symbol("x64", 64), symbol("y64", 64), Input("a", 100), Input("b", 100)
    place, other = address(first, 8), values.arithmetic("add", 64, address(first, 8), address(second, 0))
    for old, now, step in (
        (5, 9, 4),
        (n, plus(n, 64), 64),
        (n, plus(times(2, n), 1), plus(n, 1)),
        (place, address(first, 72), 64),
        (place, address(first, plus(n, 8)), n),
        ((8, 5), (8, 9), 4),
        (("a", n), ("a", plus(n, 2)), 2),
        ((first, 5), (first, 8), 3),
        (x, plus(n, 1), None),
        (n, x, None),
        (place, 72, None),
        (8, place, None),
        (place, address(second, 72), None),
        (place, other, None),
        ((8, 5), (4, 9), None),
        ((8, 5), 9, None),
        ((8, 5), (8, 9, 1), None),
        ((8, 5, 1), (8, 9, 1), None),
        ((first, 5), (second, 8), None),
        ((8, x), (8, y), None),
    ):
        found = step_between(old, now)
        expect(found is None if step is None else is_same_number(found, step), True, f"the step from {old} to {now}")
        if step is not None:
            expect(same(moved(old, step, 1), now) and same(moved(old, step, 0), old), True, f"{old} moved by {step}")
            expect(same(moved(moved(old, step, n), step, 2), moved(old, step, plus(n, 2))), True, f"{old} moved twice")
    alike = [
        (5, 5),
        (n, plus(n, 0)),
        (x, x),
        (place, address(first, 8)),
        ((8, n), (8, plus(n, 0))),
        ((8, place), (8, address(first, 8))),
    ]
    unlike = [
        5,
        6,
        n,
        plus(n, 1),
        x,
        y,
        place,
        address(first, 9),
        address(second, 8),
        other,
        (8, n),
        (4, n),
        (8, n, 1),
        (8, x),
        (8, place),
        None,
    ]
    expect(all(same(a, b) for a, b in alike), True, "the same values")
    for i, a in enumerate(unlike):
        for j, b in enumerate(unlike):
            expect(same(a, b), i == j, f"{a} and {b} as the same")


def earlier_guesses(_):
    """Tests which cells have the words by facts of another call: those whose values at the start are the words."""
    symbols, other, buffer = (
        [symbol(f"v{j}", 64) for j in range(2)],
        symbol("other", 64),
        WordMemory("room", 64, alignment=8),
    )
    rax, rbx, rcx, rdx, rsi = (("register", name) for name in ("rax", "rbx", "rcx", "rdx", "rsi"))
    source, cell, head = Input("m", 100), (buffer, 8, 8), ("f", 4)
    facts = 2, {rax: 0, rbx: 1}, {rcx: 128, rdx: 1, rsi: 3}, {("room", 8, 8)}
    for start, places, unset in (
        ({rax: symbols[0], rbx: symbols[1]}, {rcx, rdx}, {rsi, cell}),
        ({rax: symbols[0], rbx: other}, {rcx, rdx}, {rbx, rsi, cell}),
        ({rax: symbols[1], rbx: symbols[0]}, {rcx, rdx}, {rax, rbx, rsi, cell}),
    ):
        proof = Proof.__new__(Proof)
        proof.head, proof.loops = head, types.SimpleNamespace(guesses={head: facts})
        proof.cpu, proof.family = types.SimpleNamespace(stack=Stack(), live=[buffer]), types.SimpleNamespace(
            values_after=lambda first: symbols
        )
        proof.start = {**start, rcx: address(source, 8), rdx: 7, rsi: other, cell: 5, ("register", "rdi"): 9}
        proof.forget()
        is_right = all(start[name] is symbols[j] for name, j in facts[1].items())
        expect(proof.guess_again(0), is_right, "facts of another call")
        expect(
            proof.indices == {name: j for name, j in facts[1].items() if start[name] is symbols[j]},
            True,
            "cells of words",
        )
        expect(
            {*proof.places} == places and proof.places[rdx] == (7, 1) and proof.places[rcx][1] == 128,
            True,
            "cells that advance",
        )
        expect(proof.unset == unset and proof.step == 2, True, "cells that may hold anything")
    proof.head = "g", 4
    expect(proof.guess_again(0), False, "facts of another loop")


def changed_cells(_):
    """Tests that a state with another cell or run than the expected ones is refused."""
    cells: Any
    right: Any
    wrong: Any
    x, y, source = symbol("x64", 64), symbol("y64", 64), Input("m", 100)
    runs = ((8, 40, source, 0),)
    right = {0: (8, x), 8: (8, 5), 16: (8, variable("n")), RUNS: runs}
    state = types.SimpleNamespace()

    def expect_cells(cells):
        state.cells = cells
        xxh3_updates.Xxh3Updates.expect_cells("a call", state, right)

    for cells in (right, {**right, 8: (8, 5), 16: (8, variable("n"))}):
        expect_cells(cells)
    wrong = [{at: cell for at, cell in right.items() if at != left} for left in right] + [{**right, 24: (8, 1)}]
    wrong += [
        {**right, 0: (8, y)},
        {**right, 8: (8, 6)},
        {**right, 16: (8, plus(variable("n"), 1))},
        {**right, RUNS: ((8, 41, source, 0),)},
    ]
    for cells in wrong:
        refuses(lambda: expect_cells(cells), "a changed state", (NotShown,))


def long_calls(_):
    """Tests the arguments of calls of the functions for chunks that don't fit."""
    for proof_class in (xxh3_states.OwnSecret, xxh3_states.CallersSecret):
        proof, calls, other = proof_class(processors.new_processor()), [], WordMemory("other", 600, alignment=8)
        with given(*proof.facts):
            proof.begin(5000)
            state, piece, at = proof.state((0, 0), 0), Piece(proof.source, 0, 700), proof.at
            own, elsewhere = address(state, at.secret), address(proof.secret_source)
            own, elsewhere = (own, elsewhere) if proof.secret_runs() else (elsewhere, own)
            right = [address(state), address(piece), 700, own, proof.secret_length, address(state, at.buffer)]
            cpu = types.SimpleNamespace(TAKES_STRIPES=range(6), return_from_another=lambda: "back")

            def call(arguments=right, floor=ENTRY - 256):
                cpu.argument, cpu.frame, proof.cpu = arguments.__getitem__, lambda: (None, floor), cpu
                return proof.called(calls, 1, state, piece)

            for floor in (ENTRY - 256, LEAST_ENTRY):
                expect(call(floor=floor) == "back" and calls.pop() == (1, state.cells), True, "a call")
            for floor in (ENTRY - 256 + 8, LEAST_ENTRY - 16):
                refuses(lambda: call(floor=floor), "a call with another stack", (NotShown,))
            for k, wrong in (
                (0, (address(other), address(state, 8))),
                (1, (address(proof.source), address(piece, 1))),
                (2, (699, 701)),
                (3, (address(other), elsewhere, plus_address(own))),
                (4, (plus(proof.secret_length, 1), 0)),
                (5, (address(state, at.buffer + 64), address(other, at.buffer))),
            ):
                for x in wrong:
                    refuses(
                        lambda: call([*right[:k], x, *right[k + 1 :]]), f"a call with another argument {k}", REFUSALS
                    )
            expect(len(calls), 0, "refused calls")


def plus_address(place):
    memory, at = place.place()
    return address(memory, at + 1)


# Modules with further tests.
MODULES = (
    assumptions,
    blocks,
    choices,
    chosen_tasks,
    commands,
    conditions,
    contents,
    definitions,
    exported,
    fields,
    files_and_tasks,
    forms_of_terms,
    lengths,
    libraries,
    limits,
    loops,
    machines,
    processors_and_cases,
    programs,
    readers,
    storage,
    stripe_cases,
    terms,
    terms_and_facts,
    updates,
    vector_forms,
    word_forms,
)
ALL = [
    heads,
    sources_of_v4,
    turns,
    records,
    places,
    tasks_of_streams,
    states,
    held_values,
    steps_in_blocks,
    places_in_inputs,
    families,
    advances,
    earlier_guesses,
    changed_cells,
    long_calls,
    *(test for module in MODULES for test in module.ALL),
]
