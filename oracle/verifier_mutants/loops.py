"""Tests of the proofs of loops: small programs with a loop, right and wrong ones, and the steps of a proof one by
one. Each takes a random generator, which it doesn't use, and raises Wrong."""
import functools
import itertools
import types
from typing import Any

from oracle.machine_code import induction, values
from oracle.machine_code.every_length import Cases
from oracle.machine_code.induction import HALF, Family, Loops, Proof
from oracle.machine_code.memory import WordMemory
from oracle.machine_code.objects import Immediate, Instruction, Place, Register
from oracle.machine_code.values import address, joined, low, with_half
from oracle.symbolic_terms import (
    REFUSALS,
    RUNS,
    Induction,
    Input,
    NotShown,
    Undecided,
    at_most,
    given,
    is_same,
    is_same_number,
    minus,
    operations,
    plus,
    polynomials,
    same,
    symbol,
    times,
    variable,
)

from .processors import instruction, new_processor
from .values import Wrong, expect, refuses

R = {
    name: Register(name) for name in ("rax", "rcx", "rdx", "rdi", "rsi", "r8", "r9", "r10", "eax", "ecx", "edx", "r8d")
}


class Sums:
    """A definition with two words: the sum of a message's words, and their xor. A stripe has one word in `size`
    bytes."""

    def __init__(self, source, begun, size=8, width=64):
        self.source, self.begun, self.size, self.width, self.supposed = source, begun, size, width, {}

    def after(self, k):
        return functools.partial(self.word, k)

    def word(self, k, j, depth=0):
        if repr(k) in self.supposed:
            return self.supposed[repr(k)][j]
        if is_same_number(k, 0):
            return self.begun[j]
        before = minus(k, 1)
        if depth > 4 and not isinstance(before, int):
            raise Undecided("a word without a hypothesis")
        x, word = self.source.load(times(self.size, before), self.width // 8), self.word(before, j, depth + 1)
        return operations.add_at(self.width, (1, word), (1, x)) if j == 0 else operations.xor(word, x)

    def suppose(self, k, values_of):
        self.supposed[repr(k)] = values_of


def at(base: str, offset: int = 0) -> Place:
    return Place(offset, base, None, 1)


# The message's place and end are in rdi and rsi, the words in rdx and rcx. The result is in rax and rdx.
BEFORE = [("mov", R["rdx"], R["rax"]), ("mov", R["rcx"], R["r8"])]
TURN = [("add", at("rdi"), R["rax"]), ("xor", at("rdi"), R["r8"]), ("add", Immediate(8), R["rdi"])]
TEST = [("cmp", R["rsi"], R["rdi"]), ("jb", len(BEFORE))]
AFTER = [("mov", R["r8"], R["rdx"]), ("ret",)]
TWICE = [*TURN[:2], ("add", at("rdi", 8), R["rax"]), ("xor", at("rdi", 8), R["r8"]), ("add", Immediate(16), R["rdi"])]


def assembled(lines: list[tuple]) -> list[Instruction]:
    """Returns the instructions of lines. A jump leads to the instruction of a number."""
    return [
        instruction(
            name,
            *(x for x in rest if not isinstance(x, int)),
            at=4 * k,
            target=("f", 4 * rest[0]) if rest and isinstance(rest[0], int) else None,
        )
        for k, (name, *rest) in enumerate(lines)
    ]


def run(lines, step=1, size=8, width=64, sizes=(1,), facts=None, least=1):
    """Runs a program over any number of stripes. Returns the proof, its result, and the definition's words."""
    arguments: Any
    cpu: Any
    found: Any
    proof: Any
    cpu, n = new_processor(*assembled(lines)), variable("n")
    count = times(step, n)
    with given(minus(n, least), at_most(n, 1 << 40), *(facts or [])):
        source, begun = Input("m", times(size, count)), [symbol(f"begun{j}:{width}", width) for j in range(2)]
        known = Sums(source, begun, size, width)
        proof = types.SimpleNamespace(cpu=cpu)
        family = Family("sums", size, count, 2, known.after, known.suppose, sizes)
        proof.loops = Loops(cpu.program, family)
        arguments = (
            address(source),
            address(source, source.length),
            *(begun if width == 64 else [(x, 32) for x in begun]),
        )
        found = Cases.with_loops(proof, proof.loops, lambda: cpu.call("f", *arguments))
        expect(cpu.loops is None and cpu.limit == 1 << 24, True, "a processor after a proof")
        return proof, found, [known.word(count, j) for j in range(2)]


def right(lines, **more):
    proof, found, symbols = run(lines, **more)
    for x, word in zip(found, symbols):
        expect(is_same(x if more.get("width", 64) == 64 else low(x, 32), word), True, "the words after a loop")
    return proof


def wrong(lines, what, **more):
    """Checks that a program is refused or returns other words."""
    try:
        _, found, symbols = run(lines, **more)
    except REFUSALS:
        return
    if all(map(is_same, found, symbols)):
        raise Wrong(f"{what} returns the right words")


def right_loops(_):
    """Proves loops that take one stripe or two, with words in registers, on the stack, and with other changed
    registers."""
    proof = right([*BEFORE, *TURN, *TEST, *AFTER])
    ((head, (step, symbols, places, unset)),) = proof.loops.guesses.items()
    expect(head == ("f", 8) and step == 1, True, "the head of a loop")
    expect(
        symbols == {("register", "rax"): 0, ("register", "r8"): 1} and places == {("register", "rdi"): 8},
        True,
        "cells of a loop",
    )
    expect(unset == set(), True, "cells that may hold anything")
    proof = right([*BEFORE, *TWICE, *TEST, *AFTER], step=2)
    expect(proof.loops.guesses[head][0], 2, "stripes of a turn")
    turn = [*TURN[:1], ("mov", at("rdi"), R["r9"]), ("xor", R["r9"], R["r8"]), *TURN[2:], ("inc", R["r10"])]
    proof = right([*BEFORE, ("mov", Immediate(5), R["r10"]), *turn, ("cmp", R["rsi"], R["rdi"]), ("jb", 3), *AFTER])
    _, _, places, unset = proof.loops.guesses["f", 12]
    expect(places[("register", "r10")] == 1 and ("register", "r9") in unset, True, "other cells of a loop")
    stacked = [
        ("mov", R["rcx"], at("rsp", -8)),
        ("mov", R["rdx"], R["rax"]),
        TURN[0],
        ("mov", at("rdi"), R["r9"]),
        ("xor", at("rsp", -8), R["r9"]),
        ("mov", R["r9"], at("rsp", -8)),
        TURN[2],
        ("cmp", R["rsi"], R["rdi"]),
        ("jb", 2),
        ("mov", at("rsp", -8), R["rdx"]),
        ("ret",),
    ]
    _, symbols, _, _ = right(stacked).loops.guesses["f", 8]
    expect({cell[0] for cell in symbols} == {"register", "stack"}, True, "a word on the stack")
    narrow = [
        ("mov", R["edx"], R["eax"]),
        ("mov", R["ecx"], R["r8d"]),
        ("add", at("rdi"), R["eax"]),
        ("xor", at("rdi"), R["r8d"]),
        ("add", Immediate(16), R["rdi"]),
        *TEST,
        ("mov", R["r8d"], R["edx"]),
        ("ret",),
    ]
    right(narrow, size=16, width=32, sizes=(1, 2))


def wrong_loops(_):
    """Tests that wrong loops are refused, or return other words."""
    lines: Any
    more: Any
    what: Any
    for what, lines, more in (
        ("another step", [*BEFORE, *TURN[:2], ("add", Immediate(16), R["rdi"]), *TEST, *AFTER], {"step": 2}),
        ("another place", [*BEFORE, TURN[0], ("xor", at("rdi", 8), R["r8"]), TURN[2], *TEST, *AFTER], {}),
        ("one word", [*BEFORE, TURN[0], TURN[2], *TEST, *AFTER], {}),
        ("an end that isn't reached", [*BEFORE, *TURN, ("jmp", 2), *AFTER], {}),
        (
            "an end too early",
            [*BEFORE, *TURN, ("lea", at("rdi", 8), R["r9"]), ("cmp", R["rsi"], R["r9"]), ("jb", 2), *AFTER],
            {"least": 3},
        ),
        ("an end too late", [*BEFORE, *TURN, ("cmp", R["rdi"], R["rsi"]), ("jae", 2), *AFTER], {}),
        (
            "other words at the start",
            [("mov", R["rcx"], R["rax"]), ("mov", R["rdx"], R["r8"]), *TURN, *TEST, *AFTER],
            {},
        ),
        ("a word that is lost", [*BEFORE, *TURN, *TEST, ("mov", R["rcx"], R["rdx"]), ("ret",)], {}),
        (
            "a counter that is added",
            [
                *BEFORE,
                ("mov", Immediate(0), R["r10"]),
                *TURN,
                ("inc", R["r10"]),
                ("cmp", R["rsi"], R["rdi"]),
                ("jb", 3),
                ("add", R["r10"], R["rax"]),
                *AFTER,
            ],
            {},
        ),
        (
            "a word of a turn that is added",
            [
                *BEFORE,
                ("mov", Immediate(0), R["r10"]),
                *TURN,
                ("mov", at("rdi", -8), R["r10"]),
                ("cmp", R["rsi"], R["rdi"]),
                ("jb", 3),
                ("and", Immediate(1), R["r10"]),
                ("add", R["r10"], R["rax"]),
                *AFTER,
            ],
            {},
        ),
        ("a changed end", [*BEFORE, *TURN, ("add", Immediate(8), R["rsi"]), *TEST, *AFTER], {}),
        (
            "two stripes of each two",
            [*BEFORE, *TWICE[:3], TWICE[3], ("add", Immediate(8), R["rdi"]), *TEST, *AFTER],
            {},
        ),
    ):
        wrong(lines, what, **more)


def nested_loops(_):
    """Tests that a loop within a turn runs turn by turn, and that a second loop after the first one is proved too."""
    inner = [("mov", Immediate(3), R["r9"]), ("dec", R["r9"]), ("jne", 3)]
    lines = [*BEFORE, *inner, *TURN, *TEST, *AFTER]
    proof = right(lines)
    expect(("f", 8) in proof.loops.guesses and ("f", 12) not in proof.loops.guesses, True, "the loop that is proved")
    expect(proof.loops.given_up == set(), True, "loops that are given up")
    again = [*BEFORE, *TURN, *TEST, ("mov", Immediate(3), R["r9"]), ("dec", R["r9"]), ("jne", 8), *AFTER]
    expect([*right(again).loops.guesses] == [("f", 8)], True, "the loop that is proved")


# ---- the steps of a proof


def passed_heads(_):
    """Tests when control leaves a loop, and at which places a loop is tried."""
    loops: Any
    running: Any
    code = {
        8: types.SimpleNamespace(target=("f", 4)),
        20: types.SimpleNamespace(target=("f", 16)),
        24: types.SimpleNamespace(target=None),
        28: types.SimpleNamespace(target=("g", 4)),
        32: types.SimpleNamespace(target=("f", 40)),
        36: types.SimpleNamespace(target=("f", 16)),
        44: types.SimpleNamespace(target=("f", 44)),
    }
    program = types.SimpleNamespace(sections={"f": code, "g": {}})
    expect(Loops(program, None).heads("f") == {4: 8, 16: 36, 44: 44}, True, "the heads of a section")
    expect(Loops(program, None).heads("g") == {} == Loops(program, None).heads("h"), True, "a section without heads")
    loops = Loops(program, None)
    first = loops.heads("f")
    expect(loops.heads("f") is first, True, "heads that are known")
    for running, place, left in (
        ({("f", 4): 8}, ("f", 4), "raises"),
        ({("f", 4): 8}, ("f", 8), [("f", 4)]),
        ({("f", 4): 8}, ("f", 12), []),
        ({("f", 4): 8}, ("f", 0), []),
        ({("f", 4): 8}, ("g", 6), [("f", 4)]),
        ({("f", 4): 8}, ("g", 100), [("f", 4)]),
        ({("f", 4): None}, ("f", 100), [("f", 4)]),
        ({("f", 4): None}, ("f", 4), [("f", 4)]),
        ({("f", 4): 8, ("f", 16): 36}, ("f", 20), [("f", 16)]),
        ({("f", 4): 8, ("f", 16): 36}, ("f", 12), []),
        ({("f", 16): 36, ("f", 4): 8}, ("f", 6), [("f", 4)]),
    ):
        loops = Loops(program, None, lambda *_: types.SimpleNamespace(show=lambda: False))
        loops.proof.HAS_INNER, loops.running = True, dict(running)
        if left == "raises":
            refuses(lambda: loops.pass_by(None, place), "a loop that isn't left", (NotShown,))
        else:
            expect(loops.pass_by(None, place) == place, True, "the place where control continues")
            expect([*loops.running] == left, True, f"loops that are running at {place}, of {running}")


def tried_loops(_):
    """Tests which loops are tried: within another one only if the proof allows it, and not again after a failure."""
    proof: Any
    program = types.SimpleNamespace(
        sections={"f": {8: types.SimpleNamespace(target=("f", 4)), 20: types.SimpleNamespace(target=("f", 0))}}
    )
    outer, place = ("f", 0), ("f", 4)
    for has_inner, is_within, is_shown, is_guessing, is_given_up in itertools.product((False, True), repeat=5):
        tried = []

        def tried_of(*arguments):
            tried.append(arguments)
            return types.SimpleNamespace(show=lambda: is_shown)

        proof = tried_of
        proof.HAS_INNER = has_inner
        loops = Loops(program, None, proof)
        loops.running, loops.is_guessing = ({outer: None} if is_within else {}), is_guessing
        within = (outer,) if is_within else ()
        if is_given_up:
            loops.given_up.add((within, place))
        before = set(loops.given_up)
        expect(loops.pass_by("cpu", place) == place, True, "the place where control continues")
        is_tried = (has_inner or not is_within) and not is_guessing and not is_given_up
        expect(tried == [(loops, "cpu", place)] * is_tried, True, "tried loops")
        expect(loops.running.get(place) == (8 if is_tried and is_shown else None), True, "the end of a loop")
        expect((place in loops.running) == (is_tried and is_shown), True, "a loop that is running")
        expect(
            loops.given_up == before | ({(within, place)} if is_tried and not is_shown and is_within else set()),
            True,
            "loops that are given up",
        )
    loops = Loops(program, "family", "proof", "guesses")
    expect(
        (loops.program is program, loops.family, loops.proof, loops.guesses) == (True, "family", "proof", "guesses"),
        True,
        "loops",
    )
    loops = Loops(program, "family")
    expect(
        loops.proof is Proof
        and loops.guesses == {}
        and not loops.is_guessing
        and loops.stop is None
        and loops.tried == set(),
        True,
        "loops",
    )
    known = {}
    expect(Loops(program, None, guesses=known).guesses is known, True, "guesses of other calls")


def machine():
    """Returns a processor with cells of each kind: registers, one with a half, lanes, and memory with a run."""
    cpu = new_processor()
    cpu.forget_vectors()
    buffer = WordMemory("buffer", 64, [(0, 8, 5), (8, 4, symbol("y32", 32))], alignment=8)
    buffer.cells[RUNS] = ((16, 24, Input("m", 9), 0),)
    cpu.live = [buffer]
    half = symbol("half", 32)
    cpu.registers["r9"] = with_half(joined((half, 32), (symbol("upper", 32), 32)), half)
    cpu.vectors[3][1] = symbol("lane", 64)
    cpu.stack.store(cpu.stack_pointer() - 8, 8, 77)
    return cpu, buffer, half


def cells(_):
    """Tests the cells of a processor, their names, and that they are set again."""
    cpu, buffer, half = machine()
    found, below = induction.cells_of(cpu), cpu.stack_pointer() - 8
    expect(
        {name for proof_class, name, *_ in found if proof_class == "register"} == {*cpu.registers}, True, "registers"
    )
    expect(
        [cell for cell in found if cell[0] == HALF] == [(HALF, "r9")] and found[HALF, "r9"] is half,
        True,
        "a lower half",
    )
    expect(
        len([cell for cell in found if cell[0] == "lane"]) == 256 and found["lane", 3, 1] is cpu.vectors[3][1],
        True,
        "lanes",
    )
    expect(found["lane", 3, 0] is None and found["lane", 31, 7] is None, True, "unset lanes")
    memory = {cell: x for cell, x in found.items() if not isinstance(cell[0], str)}
    expect(memory == {(cpu.stack, below, 8): 77, (buffer, 0, 8): 5, (buffer, 8, 4): symbol("y32", 32)}, True, "memory")
    for cell, name, title in (
        (("register", "rax"), ("register", "rax"), "rax"),
        ((HALF, "r9"), (HALF, "r9"), "r9"),
        (("lane", 3, 1), ("lane", 3, 1), "v3[1]"),
        ((buffer, 8, 4), ("buffer", 8, 4), "buffer[8]"),
        (("other", 9), ("other", 9), "other 9"),
    ):
        expect(induction.named(cell) == name and induction.name_of(cell) == title, True, f"the name of {cell}")


def set_cells(_):
    """Tests that a proof sets exactly the given cells: others become fresh symbols, unset lanes, or lost memory."""
    cpu, buffer, half = machine()
    cpu.set_flags("logic", 64, 0, 0, 0)
    proof = Proof(types.SimpleNamespace(family=types.SimpleNamespace(name="f"), running={}), cpu, ("f", 0))
    expect(
        proof.flags[0] is cpu.flags and proof.flags[1] is cpu.carry and proof.flags[0] is not None,
        True,
        "flags at a head",
    )
    expect(
        proof.first == 0 and proof.head == ("f", 0) and proof.name == "f" and proof.start == induction.cells_of(cpu),
        True,
        "a proof's beginning",
    )
    expect(proof.runs == {cpu.stack: (), buffer: buffer.runs()}, True, "runs at a head")
    lost = {("register", "rax"), ("register", "r9"), ("lane", 3, 1), (buffer, 0, 8)}
    proof.unset = set(lost)
    given_cells = {cell: x for cell, x in proof.start.items() if cell not in lost}
    given_cells["register", "rcx"], given_cells["lane", 2, 0], given_cells[buffer, 8, 4] = 1234, 99, symbol("z32", 32)
    old = dict(cpu.registers)
    buffer.cells.clear()
    proof.put(given_cells)
    expect(cpu.flags is None and cpu.carry is None, True, "flags at a head")
    expect(
        cpu.registers["rcx"] == 1234
        and all(cpu.registers[name] is old[name] for name in old if name not in ("rax", "r9", "rcx")),
        True,
        "registers",
    )
    expect(
        cpu.registers["rax"] is not old["rax"] and cpu.registers["rax"].width == 64,
        True,
        "a register that may hold anything",
    )
    expect(
        values.half_of(cpu.registers["r9"]) is half and cpu.registers["r9"] is not old["r9"],
        True,
        "a register with a known half",
    )
    expect(
        is_same(low(cpu.registers["r9"], 32), half)
        and values.bits(cpu.registers["r9"], 32, 32) is not symbol("upper", 32),
        True,
        "a half",
    )
    expect(cpu.vectors[3][1] is None and cpu.vectors[2][0] == 99, True, "lanes")
    expect(buffer.cells == {8: (4, symbol("z32", 32)), RUNS: proof.runs[buffer]}, True, "memory")
    expect(cpu.stack.cells == {cpu.stack_pointer() - 8: (8, 77)}, True, "the stack")
    proof.unset, cpu.flags = set(), "other"
    proof.indices = {("register", "rax"): 0}
    proof.again()
    expect(
        cpu.registers == old and cpu.flags is proof.flags[0] and proof.indices == {} and cpu.vectors[3][1] is not None,
        True,
        "a state that is restored",
    )


def compared_runs(_):
    """Tests that a turn may change no run, and that the cells are compared."""
    proof: Any
    cpu, buffer, _ = machine()
    proof = Proof(types.SimpleNamespace(family=types.SimpleNamespace(name="f"), running={}), cpu, ("f", 0))
    proof.defined = lambda k: ()
    proof.compare(1)
    for change in (lambda: buffer.cells.pop(RUNS), lambda: buffer.cells.update({RUNS: ((16, 25, Input("m", 9), 0),)})):
        before = dict(buffer.cells)
        change()
        refuses(lambda: proof.compare(1), "a turn that changes a run", (NotShown,))
        buffer.cells = before
    cpu.registers["rcx"] = 4321
    proof.compare(1)
    expect(proof.unset == {("register", "rcx")}, True, "a cell that may hold anything")


def assumed_values(_):
    """Tests the words that a turn assumes: fresh symbols, of 32 bits for stripes of 16 bytes, several in a cell."""
    for stripe, width, together in ((16, 32, 1), (16, 32, 2), (16, 32, 4), (32, 64, 1), (64, 64, 1)):
        put = []
        family = Family(
            "f",
            stripe,
            variable("n"),
            4,
            lambda k: lambda j: symbol(f"{k}:{j}:{width}", width),
            lambda *of: put.append(of),
            (1, 2, 4),
        )
        family.together = together
        proof = Proof.__new__(Proof)
        proof.family, proof.cpu, proof.first, proof.step = family, new_processor(), 2, 3
        k = variable("k")
        expect(is_same_number(proof.stripes_after(k), plus(times(3, k), 2)), True, "stripes after turns")
        found = proof.supposed(k)
        ((after, symbols),) = put
        expect(
            is_same_number(after, plus(times(3, k), 2)) and len(symbols) == 4 and {x.width for x in symbols} == {width},
            True,
            "assumed words",
        )
        expect(len({*map(id, symbols)}), 4, "fresh words")
        expected = [
            symbols[j] if together == 1 else joined(*((x, 32) for x in symbols[j : j + together]))
            for j in range(0, 4, together)
        ]
        expect(len(found) == len(expected) and all(map(is_same, found, expected)), True, "words in cells")
        put.clear()
        expect(
            all(map(is_same, proof.supposed(1), family.values_after(5))) and not put,
            True,
            "words of a known number of stripes",
        )
        expect(all(map(is_same, proof.defined(1), family.values_after(5))), True, "the definition's words")


def turns(_):
    """Tests where a turn ends: at its head, in the function's caller, or behind the loop."""

    def run_turn(steps, depths=(), floor=100):
        places, seen = iter(steps), []
        loops = Loops(types.SimpleNamespace(sections={}), types.SimpleNamespace(name="f"))
        loops.running = {("f", 0): 5}
        proof = Proof.__new__(Proof)
        proof.loops, proof.head, proof.family = loops, ("f", 4), loops.family
        depth = iter([floor, *depths, *[floor] * 20])

        def step(place):
            seen.append((place, loops.stop, dict(loops.running)))
            return next(places)

        proof.cpu = types.SimpleNamespace(step=step, stack_pointer=lambda: next(depth))
        try:
            proof.turn()
        finally:
            expect(loops.stop is None and loops.running == {("f", 0): 5}, True, "loops after a turn")
        return seen

    seen = run_turn([("f", 8), ("f", 4)])
    expect([one[0] for one in seen] == [("f", 4), ("f", 8)], True, "the places of a turn")
    expect([one[1] for one in seen] == [None, ("f", 4)], True, "the head at which a turn stops")
    expect(all(one[2][("f", 4)] is None for one in seen), True, "the running loop")
    run_turn([("f", 4)])
    run_turn([("f", 8), ("f", 4)], depths=(92, 92))
    for steps, depths in (
        ([None], ()),
        ([("f", 8), None], ()),
        ([("g", 0), ("f", 4)], (108,)),
        ([("f", 8), ("f", 4)], (100, 101)),
    ):
        refuses(lambda: run_turn(steps, depths), f"a turn that leaves the loop by {steps}", (NotShown,))


def values_of_cells(_):
    """Tests which cells have words: those that hold them at the start, and some stripes later after a turn."""
    source, n = Input("m", 1000), variable("n")
    symbols = {k: [symbol(f"w{k}:{j}", 64) for j in range(2)] for k in (0, 1, 2, 4, 8, 16)}
    rax, rbx, rcx, rdi, rsi = (("register", name) for name in ("rax", "rbx", "rcx", "rdi", "rsi"))

    def proof_of(start, once, first=0):
        proof = Proof.__new__(Proof)
        proof.family = types.SimpleNamespace(stripe=8, values_after=lambda k: symbols[k])
        proof.start = start
        proof.forget()
        changed = {cell for cell in start if not same(start[cell], once[cell])}
        return proof, proof.guess_indices(first, changed, once), changed, once

    start = {rax: symbols[0][0], rbx: symbols[0][1], rcx: 5, rdi: address(source), rsi: n}
    for step in (1, 2, 4, 8, 16):
        once = {rax: symbols[step][0], rbx: symbols[step][1], rcx: 6, rdi: address(source, 8 * step), rsi: n}
        proof, is_found, changed, _ = proof_of(start, once)
        expect(
            is_found and proof.step == step and proof.indices == {rax: 0, rbx: 1}, True, f"words after {step} stripes"
        )
        expect(proof.steps(changed, once) == [step], True, "stripes by a pointer's step")
    for change in (
        {rax: symbols[1][1]},
        {rax: symbols[2][0]},
        {rbx: 7},
        {rdi: address(source, 16)},
        {rax: symbols[0][0]},
    ):
        once = {rax: symbols[1][0], rbx: symbols[1][1], rcx: 6, rdi: address(source, 8), rsi: n, **change}
        expect(proof_of(start, once)[1], False, f"words in other cells: {change}")
    for change in ({rax: symbols[0][1]}, {rbx: 7}, {rax: symbols[1][0]}):
        once = {rax: symbols[1][0], rbx: symbols[1][1], rcx: 6, rdi: address(source, 8), rsi: n}
        expect(proof_of({**start, **change}, once)[1], False, f"other words at the start: {change}")
    for moved_to, steps in ((address(source, 12), induction.STEPS), (9, induction.STEPS), (address(source, 32), [4])):
        proof = proof_of(start, {**start, rax: symbols[1][0], rdi: moved_to})[0]
        expect(proof.steps({rax, rdi}, {**start, rdi: moved_to}) == steps, True, "stripes of a turn")


def firsts(_):
    """Tests from which stripes on a loop is tried: 0 and near a pointer into the message, if the words are in cells."""
    source, n = Input("m", 1000), variable("n")

    def found(registers, total=n, held=lambda k: True, tried=()):
        proof: Any
        proof = Proof.__new__(Proof)
        proof.cpu = types.SimpleNamespace(registers=registers)
        proof.head, proof.loops = ("f", 4), types.SimpleNamespace(tried={(("f", 4), repr(k), 1) for k in tried})
        proof.family = types.SimpleNamespace(stripe=8, total=total, together=1)
        proof.holds = held
        return list(proof.firsts())

    expect(found({"rax": 5, "rbx": symbol("x64", 64)}) == [0], True, "the beginning")
    expect(found({"rdi": address(source, 80)}) == [0, 10, 11, 9, 8, 6], True, "near a pointer")
    expect(found({"rdi": address(source, 84)}) == [0, 10, 11, 9, 8, 6], True, "near a pointer within a stripe")
    expect(found({"rdi": address(source, 8)}) == [0, 1, 2, -1, -3], True, "each number once")
    expect(found({"rdi": address(WordMemory("w", 100), 80)}) == [0], True, "a pointer into other memory")
    expect(found({"rdi": address(source, 80)}, held=lambda k: k in (9, 10)) == [10, 9], True, "words in cells")
    expect(found({"rdi": address(source, 80)}, tried=(0, 11)) == [10, 9, 8, 6], True, "loops that failed")
    expect(found({"rdi": address(source, 80)}, total=50) == [], True, "a concrete number of stripes")
    expect(found({"rdi": address(source, 80)}, total=plus(n, 3)) == [0, 10, 11, 9, 8, 6], True, "any number of stripes")


def held_terms(_):
    """Tests that words that are terms must be in cells, and that a number of stripes isn't negative."""
    cells_held: Any
    first: Any
    holds: Any
    proof: Any
    symbols: Any
    x, y = symbol("x64", 64), symbol("y64", 64)
    for cells_held, symbols, first, holds in (
        ({"a": x}, [x], 0, True),
        ({"a": y}, [x], 0, False),
        ({"a": x, "b": 5}, [x, 5], 3, True),
        ({"a": x, "b": 6}, [x, 5], 0, False),
        ({"a": x}, [x], -1, False),
        ({"a": 5}, [5, x], 0, False),
        ({"a": address(Input("m", 9))}, [x], 0, False),
    ):
        proof = types.SimpleNamespace(
            start=cells_held,
            family=types.SimpleNamespace(seem=lambda _, has, some=symbols: all(has(one) for one in some)),
        )
        expect(Proof.holds(proof, first), holds, f"the words {symbols} in {cells_held}")

    def refused(*_):
        raise Undecided("a word")

    proof = types.SimpleNamespace(start={}, family=types.SimpleNamespace(seem=refused))
    expect(Proof.holds(proof, 0), False, "words that are refused")


def shown_by_turns(_):
    """Tests that a loop is proved below its last turn, and left before it."""
    done: Any
    proof: Any
    n = variable("n")
    with given(minus(n, 5), at_most(n, 100)):
        for total, step, first, is_guessed, last in (
            (n, 1, 0, True, minus(n, 1)),
            (n, 1, 3, True, minus(n, 4)),
            (times(2, n), 2, 0, True, minus(n, 1)),
            (n, 1, 5, True, None),
            (n, 1, 6, True, None),
            (n, 1, 0, False, None),
            (plus(times(2, n), 1), 2, 1, True, minus(n, 1)),
            (9, 4, 0, True, 1),
            (4, 4, 0, True, 0),
            (3, 4, 0, True, None),
        ):
            proof, done = Proof.__new__(Proof), []
            proof.family, proof.step = types.SimpleNamespace(total=total), step
            proof.show_below, proof.supposed = lambda last: done.append(("below", last)), lambda k: ("words", k)
            proof.enter = lambda k, symbols: done.append(("enter", k, symbols))
            is_shown = proof.by_turns(first, lambda at, is_guessed=is_guessed: done.append(("guess", at)) or is_guessed)
            expect(is_shown, last is not None, f"a loop of {total} stripes from {first}")
            if last is not None:
                expect(
                    repr(done) == repr([("guess", first), ("below", last), ("enter", last, ("words", last))]),
                    True,
                    f"the steps of a proof: {done}",
                )
                expect(is_same_number(proof.first, first), True, "the first stripe")
            else:
                expect(done == [("guess", first)], True, "a loop that isn't proved")


def guesses(_):
    """Tests that a guess runs one turn or two under its facts, and is tried with each number of turns."""
    asked: Any
    done: Any
    proof: Any
    n = variable("n")
    for is_twice, fails, has_values in itertools.product((False, True), (None, 1, 2), (False, True)):
        proof, done = Proof.__new__(Proof), []
        proof.loops, proof.family = types.SimpleNamespace(is_guessing=False), types.SimpleNamespace(total=n)
        proof.indices = {"old": 1}
        proof.enter = lambda k: done.append(("enter", k, dict(proof.indices), proof.loops.is_guessing))

        def turn():
            done.append(
                (
                    "turn",
                    proof.loops.is_guessing,
                    polynomials.is_natural(minus(n, 66)),
                    polynomials.is_natural(minus(n, 67)),
                )
            )
            if fails == sum(one[0] == "turn" for one in done):
                raise NotShown("a turn")

        proof.turn, proof.state = turn, lambda: f"state {sum(one[0] == 'turn' for one in done)}"
        proof.changed = lambda now: ("changed", now)
        proof.guess_indices = lambda *of: done.append(("words", of)) or has_values
        proof.guess_places = lambda *of: done.append(("places", of))
        is_right = has_values and (fails is None or fails == 2 and not is_twice)
        expect(proof.guess(2, 64, is_twice), is_right, "a guess")
        count = 1 if fails == 1 or not is_twice else 2
        expect(
            done[0] == ("enter", 0, {}, False) and done[1 : 1 + count] == [("turn", True, True, False)] * count,
            True,
            f"turns of a guess: {done}",
        )
        expect(proof.loops.is_guessing, False, "a guess that ends")
        if is_right:
            changed = "changed", "state 1"
            expected = [
                ("words", (2, changed, "state 1")),
                ("places", (changed, "state 1", "state 2" if is_twice else None)),
            ]
            expect(done[1 + count :] == expected, True, f"what is guessed: {done}")
        else:
            expect(not any(one[0] == "places" for one in done), True, "a guess that fails")
    asked = []
    proof = types.SimpleNamespace(
        guess=lambda first, turns, is_twice: asked.append((first, turns, is_twice)) or turns == 4
    )
    expect(Proof.guess_of(proof, True, 3) and asked == [(3, 64, True), (3, 4, True)], True, "numbers of turns")


def proofs(_):
    """Tests the ways to prove a loop: known facts, a guess from one turn, from two; and what is recorded."""
    asked: Any
    proof: Any
    for works in (0, 1, 2, None):
        proof, asked = Proof.__new__(Proof), []
        proof.loops = types.SimpleNamespace(guesses={}, refused=[], tried=set())
        proof.head, proof.family = ("f", 4), types.SimpleNamespace(together=1)
        proof.again, proof.known = lambda: asked.append("again"), lambda: "facts"
        proof.guess_again = lambda first: "known"
        proof.guess_of = lambda is_twice, first: is_twice

        def by_turns(first, guess):
            asked.append(guess(first))
            if asked[-1] is False:
                raise NotShown("a guess")
            return works is not None and asked[-1] == ("known", False, True)[works]

        proof.by_turns = by_turns
        works_here = works in (0, 2)
        expect(proof.is_shown_from(7), works_here, f"a loop that is proved by way {works}")
        expected = (
            ["known"] if works == 0 else ["known", "again", False, "again", True] + (["again"] if works != 2 else [])
        )
        expect(asked == expected, True, f"the ways: {asked}")
        expect(proof.loops.guesses == ({("f", 4): "facts"} if works_here else {}), True, "recorded facts")
        expect(proof.loops.tried == (set() if works_here else {(("f", 4), "7", 1)}), True, "recorded failures")
        expect(len(proof.loops.refused), 0 if works == 0 else 1, "messages")
    proof, asked = Proof.__new__(Proof), []
    proof.family = types.SimpleNamespace(sizes=(1, 2), together=1)
    proof.firsts, proof.is_shown_from = (
        lambda: [0, 5],
        lambda first: asked.append((proof.family.together, first)) or len(asked) == 4,
    )
    expect(proof.show() and asked == [(1, 0), (1, 5), (2, 0), (2, 5)], True, "numbers of words and of stripes")
    proof.is_shown_from = lambda first: False
    expect(proof.show(), False, "a loop that isn't proved")


def last_cells(_):
    """Tests that the only cell with a word isn't dropped, and the facts that another call can use."""
    proof = Proof.__new__(Proof)
    buffer = WordMemory("buffer", 64)
    proof.indices = {"a": 0, "b": 0, "c": 1}
    for cell, holds in (("a", True), ("b", True), ("c", False), ("d", True)):
        expect(proof.may_hold_anything(cell), holds, f"the cell {cell}")
    proof.step, proof.places, proof.unset = (
        2,
        {("register", "rdi"): (5, 64), (buffer, 0, 8): (7, 1)},
        {(buffer, 8, 8), ("lane", 1, 2)},
    )
    proof.indices = {("register", "rax"): 0, (buffer, 16, 8): 1}
    expect(
        proof.known()
        == (
            2,
            {("register", "rax"): 0, ("buffer", 16, 8): 1},
            {("register", "rdi"): 64, ("buffer", 0, 8): 1},
            {("buffer", 8, 8), ("lane", 1, 2)},
        ),
        True,
        "the facts of a loop",
    )


# ---- induction on any machine


class Counter(Induction):
    """A machine whose cells `turn` changes."""

    name = "counter"

    def __init__(self, start, turn, values_of):
        self.now, self.run, self.values_of, self.entered, self.fixed = dict(start), turn, values_of, [], ()
        self.names = itertools.count()
        super().__init__(start)

    def state(self):
        return dict(self.now)

    def put(self, given_cells):
        self.entered.append(dict(given_cells))
        self.now = dict(given_cells)

    def turn(self):
        self.run(self.now)

    def new_name(self, prefix):
        return f"{prefix}#{next(self.names)}"

    def defined(self, k):
        return [self.values_of(k)]

    supposed = defined

    def may_hold_anything(self, cell):
        return cell not in self.fixed


def steps_of_induction(_):
    """Tests a turn from any number of turns on: cells with words, that advance, that count in a block, that are
    unset."""
    change: Any
    expected: Any
    proof: Any
    n, k = variable("n"), variable("k")
    start = {"word": 0, "sized": (4, 0), "place": 100, "count": 7, "same": 5, "lost": 1}
    proof = Counter(start, lambda now: None, lambda k: times(10, k))
    expect((proof.indices, proof.places, proof.counts, proof.unset) == ({}, {}, {}, set()), True, "no guesses")
    proof.indices, proof.places, proof.counts, proof.unset = (
        {"word": 0, "sized": 0},
        {"place": (100, 8)},
        {"count": (7, 2)},
        {"lost"},
    )
    found = proof.expected(k, [times(10, k)], 3)
    expect(
        found
        == {"word": times(10, k), "sized": (4, times(10, k)), "place": plus(100, times(8, k)), "count": 13, "same": 5},
        True,
        "expected cells",
    )
    expect(
        "count" in proof.expected(0, [0]) and proof.expected(0, [0])["count"] == 7,
        True,
        "the count at a block's beginning",
    )
    proof.enter(k, [9], 1)
    expect(proof.entered[-1]["word"] == 9 and proof.entered[-1]["count"] == 9, True, "entered cells")
    proof.forget()
    expect((proof.indices, proof.places, proof.counts, proof.unset) == ({}, {}, {}, set()), True, "no guesses")

    def turn(now):
        now.update(word=plus(now["word"], 10), place=plus(now["place"], 8))

    for change, fixed, expected in (
        ({}, (), set()),
        ({"same": 6}, (), {"same"}),
        ({"same": 6}, ("same",), None),
        ({"new": 1}, (), {"new"}),
        ({"new": 1}, ("new",), None),
        ({"word": 3}, (), {"word"}),
        ({"place": 5}, (), {"place"}),
        ({"word": 3}, ("word",), None),
    ):
        proof = Counter(
            {"word": 0, "place": 100, "same": 5},
            lambda now, change=change: (turn(now), now.update(change)),
            lambda k: times(10, k),
        )
        proof.indices, proof.places, proof.fixed = {"word": 0}, {"place": (100, 8)}, fixed
        with given(minus(n, 3)):
            if expected is None:
                refuses(lambda: proof.show_below(n), f"a turn that changes {change}", (NotShown,))
            else:
                if "word" in change or "place" in change:
                    proof.run = lambda now, change=change: now.update(
                        {"word": plus(now.get("word", 0), 10), "place": plus(now.get("place", 0), 8), **change}
                    )
                proof.show_below(n)
                expect(proof.unset == expected, True, f"unset cells after {change}: {proof.unset}")
                expect(len(proof.entered), 2 if expected else 1, "turns that are run")
                expect(not expected & {*proof.indices, *proof.places}, True, "cells without a guess")
    proof = Counter({"a": 1}, lambda now: now.pop("a"), lambda k: 0)


def turns_of_induction(_):
    """Tests which cells become unset by a turn that changes them."""
    n = variable("n")
    start = {"word": 0, "sized": (4, 0), "place": 100, "count": 7, "same": 5, "lost": 1}
    proof = Counter(start, lambda now: None, lambda k: times(10, k))
    proof = Counter({"a": 1}, lambda now: now.pop("a"), lambda k: 0)
    with given(minus(n, 3)):
        proof.run = lambda now: now.pop("a", None)
        proof.show_below(n)
    expect(proof.unset == {"a"}, True, "a cell that is lost")


def facts_of_turns(_):
    """Tests that a turn is proved for each number of turns below the last one."""
    proof: Any
    n, seen = variable("n"), []
    proof = Counter({"a": 1}, lambda now: None, lambda k: 0)

    def show_turn(k):
        seen.append(
            (
                k,
                polynomials.is_natural(minus(minus(n, k), 1)),
                polynomials.is_natural(minus(minus(n, k), 2)),
                polynomials.is_natural(minus(k, 1)),
            )
        )

    proof.show_turn = show_turn
    with given(minus(n, 3), at_most(n, 100)):
        proof.show_below(n)
    expect(
        [one[1:] for one in seen] == [(True, False, False)] and seen[0][0].parts == {("k#0",): 1},
        True,
        "facts of a turn",
    )
    compared = []
    proof = Counter({"a": 1}, lambda now: now.update(a=2), lambda k: k)
    proof.enter, proof.compare = lambda *of: compared.append(("enter", *of)), lambda *of: compared.append(
        ("compare", *of)
    )
    k = variable("k")
    proof.show_turn(k)
    expect(
        repr(compared) == repr([("enter", k, [k]), ("compare", plus(k, 1))]) and proof.now == {"a": 2},
        True,
        "a turn that is compared",
    )


def guessed_places(_):
    """Tests which cells advance, by one turn or by two, and which differ from the start."""
    n, x = variable("n"), symbol("x64", 64)
    start = {"a": 5, "b": n, "c": x, "d": 1, "w": 0}
    for once, twice, places, unset in (
        ({"a": 9, "b": plus(n, 2), "c": 4, "d": 1, "w": 7}, None, {"a": 4, "b": 2}, {"c"}),
        (
            {"a": 9, "b": plus(n, 2), "c": 4, "d": 1, "w": 7},
            {"a": 13, "b": plus(n, 5), "c": 4, "d": 1, "w": 9},
            {"a": 4},
            {"b", "c"},
        ),
        ({"a": 9, "c": x, "d": 3, "w": 7}, {"a": 13, "c": x, "d": 5, "w": 9}, {"a": 4, "d": 2}, {"b"}),
    ):
        proof = Counter(start, None, None)
        proof.indices = {"w": 0}
        changed = proof.changed(once)
        expect(changed == {cell for cell in start if not same(start[cell], once.get(cell))}, True, "changed cells")
        proof.guess_places(changed, once, twice)
        expect(
            {cell: step for cell, (_, step) in proof.places.items()} == places and proof.unset == unset,
            True,
            f"cells that advance: {proof.places}",
        )
        expect(all(same(proof.places[cell][0], start[cell]) for cell in places), True, "the beginnings of cells")
    expect(Counter(start, None, None).changed({**start, "new": 1}) == {"new"}, True, "a new cell")


ALL = [
    right_loops,
    wrong_loops,
    nested_loops,
    passed_heads,
    tried_loops,
    cells,
    set_cells,
    compared_runs,
    assumed_values,
    turns,
    values_of_cells,
    firsts,
    held_terms,
    shown_by_turns,
    guesses,
    proofs,
    last_cells,
    steps_of_induction,
    turns_of_induction,
    facts_of_turns,
    guessed_places,
]
