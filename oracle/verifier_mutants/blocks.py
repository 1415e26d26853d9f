"""Tests of proofs over blocks of stripes: small programs whose loop counts the stripes of a block, right and wrong
ones, and functions that take stripes. Each takes a random generator, which it doesn't use, and raises Wrong."""
import itertools
import types
from typing import Any

from oracle.machine_code import stripes
from oracle.machine_code.every_length import Cases
from oracle.machine_code.induction import Loops
from oracle.machine_code.instructions import PARTS
from oracle.machine_code.memory import ENTRY, Stack, WordMemory
from oracle.machine_code.objects import Immediate, Register
from oracle.machine_code.stripes import LEAST_ENTRY, Part, Stripes, StripesProof, Summary
from oracle.machine_code.values import address
from oracle.symbolic_terms import (
    REFUSALS,
    Input,
    NotShown,
    Undecided,
    at_most,
    divided,
    given,
    is_same,
    is_same_number,
    minus,
    names_of,
    operations,
    plus,
    suppositions,
    symbol,
    times,
    value_at,
    variable,
)

from .loops import assembled, at
from .processors import new_processor
from .values import Wrong, expect, refuses

KEY = 0x1234567
R = {name: Register(name) for name in (*PARTS, "xmm2", *(f"ymm{k}" for k in range(3)))}


class Blocks:
    """A definition with eight words: sums of a message's words, which are xored with KEY after each block of q
    stripes."""

    def __init__(self, source, begun, q):
        self.source, self.begun, self.q, self.supposed = source, begun, q, {}

    def after(self, k):
        return lambda i: self.word(k, i)

    def word(self, k, i, depth=0):
        if repr(k) in self.supposed:
            return self.supposed[repr(k)][i]
        if is_same_number(k, 0):
            return self.begun[i]
        before = minus(k, 1)
        if depth > 8:
            raise Undecided("a word without a hypothesis")
        x = operations.add_at(
            64, (1, self.word(before, i, depth + 1)), (1, self.source.load(plus(times(64, before), 8 * i), 8))
        )
        _, rest = divided(k, self.q)
        return operations.xor(x, KEY) if is_same_number(rest, 0) else x

    def suppose(self, k, values):
        self.supposed[repr(k)] = values


# The message's place and end are in rdi and rdx, the words in memory at r8, the block's stripes and those that are left
# of it in rsi and rcx. The words are stored again at the end.
LOAD = [
    ("vmovdqu", at("r8"), R["ymm0"]),
    ("vmovdqu", at("r8", 32), R["ymm1"]),
    ("mov", Immediate(KEY), R["eax"]),
    ("vmovq", R["rax"], R["xmm2"]),
    ("vpbroadcastq", R["xmm2"], R["ymm2"]),
]
ADD = [
    ("vpaddq", at("rdi"), R["ymm0"], R["ymm0"]),
    ("vpaddq", at("rdi", 32), R["ymm1"], R["ymm1"]),
    ("add", Immediate(64), R["rdi"]),
]
END = [
    ("dec", R["rcx"]),
    ("jne", 13),
    ("vpxor", R["ymm2"], R["ymm0"], R["ymm0"]),
    ("vpxor", R["ymm2"], R["ymm1"], R["ymm1"]),
    ("mov", R["rsi"], R["rcx"]),
]
REPEAT = [("cmp", R["rdx"], R["rdi"]), ("jb", 5)]
STORE = [("vmovdqu", R["ymm0"], at("r8")), ("vmovdqu", R["ymm1"], at("r8", 32)), ("ret",)]
RIGHT = [*LOAD, *ADD, *END, *REPEAT, *STORE]


def run(lines, start=0, end=None, facts=()):
    """Runs a program over stripes from a place of a block to a place of a later one. Returns its words and the
    definition's."""
    arguments: Any
    cpu: Any
    family: Any
    known: Any
    proof: Any
    q, b, D = variable("q"), variable("b"), variable("D")
    cpu, e = new_processor(*assembled(lines)), variable("e") if end is None else end
    turns = plus(minus(q, start), times(q, D), e)
    part = Part((b, start), turns, (plus(b, 1, D), e))
    with given(
        minus(q, 9),
        at_most(q, 1 << 30),
        minus(minus(q, 1), e) if not isinstance(e, int) else 0,
        *([minus(e, 1)] if not isinstance(e, int) else []),
        at_most(D, 1 << 20),
        *facts,
    ):
        source, begun = Input("m", times(64, plus(times(q, plus(b, 1, D)), e))), [
            symbol(f"begun{i}", 64) for i in range(8)
        ]
        known = Blocks(source, begun, q)
        first = plus(times(q, b), start)
        known.suppose(first, begun)
        family = Stripes("blocks", q, (part,), known.after, known.suppose)
        family.supposed, family.restore = lambda: dict(known.supposed), lambda old: (
            known.supposed.clear(),
            known.supposed.update(old),
            family.known.clear(),
        )
        values = WordMemory("words", 64, [(8 * i, 8, x) for i, x in enumerate(begun)], alignment=8)
        proof = types.SimpleNamespace(cpu=cpu, loops=Loops(cpu.program, family, StripesProof))
        cpu.live = [values]
        arguments = (
            address(source, times(64, first)),
            q,
            address(source, source.length),
            minus(q, start),
            address(values),
        )
        Cases.with_loops(proof, proof.loops, lambda: cpu.call("f", *arguments))
        return [values.load(8 * i, 8) for i in range(8)], [known.word(plus(first, turns), i) for i in range(8)]


def right_blocks(_):
    """Proves a loop over blocks from a block's beginning and from within one, to a block's beginning and within one."""
    for start, end in ((0, None), (3, None), (0, 0), (3, 0)):
        found, values = run(RIGHT, start, end)
        expect(all(map(is_same, found, values)), True, f"words after stripes from {start} to {end}")


def wrong_blocks(_):
    """Tests that loops that end a block at another stripe, or lose or change something, are refused or return other
    words."""

    def changed(k, *lines):
        return [*RIGHT[:k], *lines, *RIGHT[k + 1 :]]

    for what, lines in (
        ("a block's end that is lost", changed(10, ("nop",))),
        ("another key", changed(2, ("mov", Immediate(KEY + 1), R["eax"]))),
        ("another counter", changed(12, ("nop",))),
        ("another step", changed(7, ("add", Immediate(128), R["rdi"]))),
        ("another place", changed(6, ("vpaddq", at("rdi", 40), R["ymm1"], R["ymm1"]))),
        ("a counter of two", changed(8, ("sub", Immediate(2), R["rcx"]))),
        ("a block's end that is always there", changed(9, ("nop",))),
        ("an end too early", changed(14, ("jmp", 15))),
    ):
        try:
            found, values = run(lines, 3)
        except REFUSALS:
            continue
        if all(map(is_same, found, values)):
            raise Wrong(f"{what} returns the right words")


def ways(_):
    """Tests which parts and starts a loop over stripes is tried with, and what remains of a failure."""
    expected: Any
    proof: Any
    asked, parts = [], [Part("a", 1, 2), Part("b", 3, 4)]
    for works in (("a", 4), ("a", 0), ("b", 1), None):
        proof = StripesProof.__new__(StripesProof)
        proof.family = types.SimpleNamespace(
            parts=parts, supposed=lambda: "known", restore=lambda known: asked.append(known)
        )
        proof.loops, proof.head, proof.again = (
            types.SimpleNamespace(refused=[]),
            ("f", 4),
            lambda: asked.append("again"),
        )

        def by_places(part, done):
            asked.append((part.start, done))
            if done == 1 and (part.start, done) != works:
                raise NotShown("a way")
            return (part.start, done) == works

        proof.by_places = by_places
        expect(proof.show(), works is not None, "a loop over stripes")
        expected = []
        for way in itertools.product("ab", (4, 1, 0)):
            expected.append(way)
            if way == works:
                break
            expected += ["known", "again"]
        expect(asked == expected, True, f"ways: {asked}")
        expect(
            len(proof.loops.refused),
            sum(
                way[1] == 1
                for way in expected
                if isinstance(way, tuple) and way != works and way in [("a", 1), ("b", 1)]
            ),
            "messages",
        )
        asked.clear()
    expect(StripesProof.HAS_INNER, True, "loops within loops")


def single_parts(_):
    """Tests which parts run turn by turn, and which are proved: from which place on, for how many turns, to which
    place."""
    b: Any
    done: Any
    done_steps: Any
    end: Any
    first: Any
    part: Any
    proof: Any
    start: Any
    step: Any
    turns: Any
    q, b, n = variable("q"), variable("b"), variable("n")
    for turns, start, of_q, holds in (
        (0, 3, q, True),
        (1, 3, q, True),
        (2, 3, q, False),
        (n, 3, q, False),
        (n, minus(q, 3), q, True),
        (n, 3, 16, True),
        (n, variable("j"), q, False),
    ):
        proof = types.SimpleNamespace(family=types.SimpleNamespace(q=of_q))
        with given(minus(n, 2)):
            expect(
                StripesProof.is_run(proof, Part((b, start), turns, None)),
                holds,
                f"{turns} stripes from {start} one by one",
            )
    for total, step, done, holds_values, is_guessed, at_end, expected in (
        (n, 1, 0, True, True, 0, (n, 0)),
        (n, 1, 0, True, True, 1, (minus(n, 1), 1)),
        (n, 1, 4, True, True, 0, (minus(n, 4), 0)),
        (n, 1, 0, False, True, 0, None),
        (n, 1, 0, True, False, 0, None),
        (8, 4, 0, True, True, 0, (2, 0)),
        (9, 4, 0, True, True, 0, None),
        (n, 1, 5, True, True, 1, (minus(n, 6), 1)),
        (3, 1, 4, True, True, 0, None),
    ):
        proof, done_steps = StripesProof.__new__(StripesProof), []
        part = Part((b, 2), total, (b, plus(total, 2)))
        proof.family, proof.step = Stripes("f", 16, (part,), None, None), step
        proof.first_place = None
        proof.is_run = lambda part: False
        proof.holds = lambda first: done_steps.append(("holds", first)) or holds_values
        proof.guess_of_some = (
            lambda first: done_steps.append(("guess", first, proof.first_place, proof.first)) or is_guessed
        )
        proof.find_counters = lambda left: done_steps.append(("counters", left))

        def left_at_end(left, end):
            proof.ends_with = at_end
            done_steps.append(("end", left, end))
            return at_end

        proof.left_at_end, proof.show_turns = left_at_end, lambda left: done_steps.append(("turns", left))
        proof.supposed, proof.unset = lambda k: ("words", k), set()
        proof.enter = lambda k, values, i: done_steps.append(("enter", k, values, i))
        with given(minus(n, 10), at_most(n, 1000)):
            is_shown = proof.by_places(part, done)
            expect(is_shown, expected is not None, f"{total} stripes, {done} of them done")
            first = plus(16 * 0, times(16, b), 2, done)
            expect(is_same_number(proof.family.total, plus(times(16, b), 2, total)), True, "the last stripe")
            expect(done_steps[0][0] == "holds" and is_same_number(done_steps[0][1], first), True, "the first stripe")
            if expected:
                left, back = expected
                names = [one[0] for one in done_steps]
                expect(
                    names == ["holds", "guess", "counters", "end", "turns", "enter"],
                    True,
                    f"the steps of a proof: {names}",
                )
                whole = divided(minus(total, done), step)[0]
                expect(
                    is_same_number(done_steps[2][1], whole)
                    and is_same_number(done_steps[3][1], whole)
                    and done_steps[3][2] == part.end,
                    True,
                    "turns of a loop",
                )
                expect(is_same_number(done_steps[4][1], left), True, "proved turns")
                end = minus(part.end[1], step * back)
                expect(
                    is_same_number(done_steps[5][1], left)
                    and done_steps[5][2][0] == "words"
                    and is_same_number(done_steps[5][3], divided(end, step)[0]),
                    True,
                    "the last turn",
                )
                expect(
                    done_steps[1][2][0] is b
                    and is_same_number(done_steps[1][2][1], 2 + done)
                    and is_same_number(done_steps[1][3], first),
                    True,
                    "the first place",
                )


def last_turns(_):
    """Tests if control reaches the head after the last stripe, and which cells restart at a block's end."""
    counts: Any
    done: Any
    expected: Any
    proof: Any
    n = variable("n")
    with given(minus(n, 10), at_most(n, 1000)):
        for leaves, left, expected in ((False, n, 0), (True, n, 1), (True, 0, 0), (True, minus(n, 10), 1)):
            proof, done = StripesProof.__new__(StripesProof), []
            proof.family, proof.step, proof.ends_with = Stripes("f", 16, (), None, None), 2, 7
            proof.supposed = lambda k: ("words", k)
            proof.enter = lambda k, values, i: done.append((k, values, i))

            def turn():
                done.append("turn")
                if leaves:
                    raise NotShown("a turn")

            proof.turn = turn
            expect(proof.left_at_end(left, (3, 8)), expected, "turns that don't return to the head")
            expect(proof.ends_with, expected, "turns that don't return to the head")
            if left != 0 if isinstance(left, int) else True:
                k = minus(left, 1)
                expect(repr(done) == repr([(k, ("words", k), 3), "turn"]), True, f"the last turn: {done}")
            else:
                expect(done == [], True, "no turn")
        for now, leaves, counts in (
            ({"a": 0, "b": plus(5, times(8, 14)), "c": 9}, False, {"a": (0, 1)}),
            ({"a": plus(2, 14), "b": 5, "c": 9}, False, {}),
            ({"a": 0, "b": 0, "c": 9}, True, {}),
            ({"a": 3, "b": minus(5, 16), "c": 9}, False, {"b": (minus(5, 16), 8)}),
        ):
            proof, entered = StripesProof.__new__(StripesProof), []
            proof.family, proof.step, proof.first_place = types.SimpleNamespace(q=16), 1, (0, 2)
            proof.places, proof.counts = {"a": (2, 1), "b": (5, 8), "c": (9, 0)}, {}
            proof.supposed, proof.state = lambda k: ("words", k), lambda: now
            proof.enter = lambda k, values: entered.append(k)

            def turn_once():
                if leaves:
                    raise NotShown("a turn")

            proof.turn = turn_once
            proof.find_counters(n)
            expect(entered == [13], True, "the last turn of the first block")
            expected = {"a": (2 - 2, 1)} if counts.get("a") else {"b": (5 - 16, 8)} if counts.get("b") else {}
            expect(
                proof.counts == expected and {*proof.places} == {"a", "b", "c"} - {*expected},
                True,
                f"cells that restart: {proof.counts}",
            )


def cases_of_turns(_):
    """Tests the turns of a loop by their place in the block, for blocks of any number of stripes and several in a
    turn."""
    for start, step in ((0, 1), (3, 1), (4, 4)):
        proof = StripesProof.__new__(StripesProof)
        proof.cpu = new_processor()
        proof.family, proof.first_place, proof.step = types.SimpleNamespace(q=16), (0, start), step
        at_first, whole = start // step, 16 // step
        expect(proof.in_turns() == (at_first, whole), True, "turns of a block")
        found = list(proof.cases_of_turns())
        for k in range(3 * whole):
            place = (at_first + k) % whole
            is_first = at_first + k < whole
            there = []
            for number, (turns, i, facts) in enumerate(found):
                names = sorted(names_of(turns, i, *facts))
                for values in itertools.product(range(3 * whole), repeat=len(names)):
                    point = dict(zip(names, values))
                    if (
                        value_at(turns, point) == k
                        and value_at(i, point) == place
                        and all(value_at(fact, point) >= 0 for fact in facts)
                    ):
                        there.append(number)
                        break
            expect(
                there == [(0 if is_first else 2) + (place == whole - 1)], True, f"the turn {k} from {start}: {there}"
            )


def summaries(_):
    """Tests how calls of a function that takes stripes are replaced: its registers, its stack, and its effect."""
    arguments: Any
    name: Any
    summary: Any
    for is_in_place, count in ((True, 5), (False, 6)):
        summary = Summary("take", is_in_place=is_in_place)
        asked, cpu = [], types.SimpleNamespace(
            TAKES_STRIPES=("a", "b", "c", "d", "e", "f"),
            program=types.SimpleNamespace(functions={"take": ("f", 0), "g": ("g", 0)}),
            replaced={},
        )
        expect(summary.registers(cpu) == ("a", "b", "c", "d", "e", "f")[:count], True, "argument registers")
        summary.put_into(cpu, "family", "source", "secret")
        expect([*cpu.replaced] == [("f", 0)], True, "replaced functions")
        summary.take = lambda *of: asked.append(of)
        cpu.argument, cpu.return_from_another = lambda name: name.upper(), lambda: "back"
        for floor, is_right in (
            (ENTRY - 512, True),
            (LEAST_ENTRY, True),
            (LEAST_ENTRY - 16, False),
            (ENTRY - 504, False),
            (ENTRY - 511, False),
        ):
            cpu.frame = lambda floor=floor: ("stack", floor)
            if is_right:
                expect(
                    cpu.replaced["f", 0]() == "back"
                    and asked.pop() == (cpu, "family", "source", "secret", [*"ABCDEF"[:count]], "stack", floor),
                    True,
                    "a call",
                )
            else:
                refuses(cpu.replaced["f", 0], f"a call with the stack at {floor}", (NotShown,))
    for name, arguments, expected in (
        ("a", {}, (72, True, 0, True, False)),
        ("b", {"has_place": False, "least": 3}, (64, False, 3, True, False)),
        ("c", {"has_length": False, "is_in_place": True}, (72, True, 0, False, True)),
    ):
        summary = Summary(name, **arguments)
        expect(
            (summary.name, summary.size, summary.has_place, summary.least, summary.has_length, summary.is_in_place)
            == (name, *expected),
            True,
            "a summary",
        )
    expect(stripes.DEEP == 2048 and LEAST_ENTRY == ENTRY - 4096 and Stack().length > ENTRY, True, "bytes of stack")


def records_without_places(_):
    """Tests that a function whose record has no place in a block reads and writes only the words."""
    floor, values = ENTRY - 512, [symbol(f"record{i}", 64) for i in range(8)]
    message, secret = Input("m", 1000), Input("s", 192)
    part = Part((1, 0), 2, (1, 2))
    family = types.SimpleNamespace(
        parts=[part], stripes=lambda place: place[1], values_after=lambda k: values, suppose=lambda *_: None
    )
    source, stack = WordMemory("source", 64, [(8 * i, 8, x) for i, x in enumerate(values)], alignment=8), Stack()
    arguments = [address(stack, floor), address(source), address(message), 128, address(secret), 192]
    Summary("take", has_place=False).take(new_processor(), family, message, secret, arguments, stack, floor)
    expect([at for at in sorted(stack.cells)] == [*range(floor, floor + 64, 8)], True, "the words after a call")
    expect([source.load(8 * i, 8) is x for i, x in enumerate(values)] == [True] * 8, True, "the words before a call")


def assumed_stripes(_):
    """Tests that a failed proof forgets its assumptions, and keeps those from before."""
    family = Stripes("f", 16, (), lambda k: lambda i: (k, i), None)
    expect((family.stripe, family.count, family.q, family.parts, family.total) == (64, 8, 16, (), 0), True, "a family")
    suppositions.clear()
    suppositions.values["before"] = 1
    known = family.supposed()
    suppositions.values["later"] = 2
    family.word(3, 1)
    family.restore(known)
    expect(suppositions.values == {"before": 1} and known == {"before": 1} and family.known == {}, True, "assumptions")
    suppositions.values["again"] = 3
    expect(known == {"before": 1}, True, "assumptions from before")
    suppositions.clear()


ALL = [
    right_blocks,
    wrong_blocks,
    ways,
    single_parts,
    last_turns,
    cases_of_turns,
    summaries,
    records_without_places,
    assumed_stripes,
]
