"""Tests limits: places at an object's bounds, copies beyond them, the bytes that an unknown store changes, invalid
fields of states, the places where blocks end, and the constants of XXH3. Each takes a random generator and raises
Wrong."""

import itertools
import types
import unittest.mock

from oracle.machine_code import any_secret, calls, cargo, cargo_exports, every_length, layouts, long_seeds, scalar
from oracle.machine_code import unwinding, values, xxh3_states, xxh3_updates
from oracle.machine_code.induction import Proof
from oracle.machine_code.memory import Stack, WordMemory, copy
from oracle.machine_code.objects import Place, Register
from oracle.machine_code.rustc import inductions
from oracle.machine_code.stripes import Part
from oracle.machine_code.values import address
from oracle.machine_code.xxh3_updates import TAKE, TAKE_BLOCKS, TAKE_MANY
from oracle.symbolic_terms import Memory, NotShown, Undecided, Unsupported, at_most, given, is_inside, minus, names_of
from oracle.symbolic_terms import is_same_number, nodes, operations, plus, symbol, taken, times, value_at, variable

from . import processors
from .processors import instruction
from .values import expect, refuses, value_of

REFUSED = Unsupported, Undecided, NotShown
patched = unittest.mock.patch.object
LAST = (1 << 64) - 1


# ---- places and copies


def places(_):
    """Tests which bytes are inside an object: numbers, polynomials, and undecided ones, which aren't."""
    n = variable("n")
    with given(minus(n, 2), at_most(n, 10)):
        for at, size, length, holds in (
            (0, 8, 8, True),
            (0, 9, 8, False),
            (1, 8, 8, False),
            (-1, 1, 8, False),
            (-8, 8, 8, False),
            (8, 0, 8, True),
            (0, 2, n, True),
            (0, 3, n, False),
            (-1, 1, n, False),
            (n, 8, 18, True),
            (n, 8, 17, False),
            (minus(n, 2), 8, 16, True),
            (minus(n, 3), 8, 18, False),
            (0, n, 10, True),
            (0, n, 9, False),
            (n, n, 20, True),
            (n, n, 19, False),
            (1, n, plus(n, 1), True),
            (1, n, n, False),
        ):
            expect(is_inside(at, size, length), holds, f"{size} bytes at {at} of {length}")


def copied_bytes(_):
    """Tests which bytes a copy reads, by 8 or one by one, and that bytes beyond an object are refused."""
    source = Memory("source", 40, [(0, 8, 0x0807060504030201), (8, 1, 9), (10, 1, 11), (24, 8, 5), (32, 8, 6)])
    for first, n, expected in (
        (0, 8, [(0, 8, 0x0807060504030201)]),
        (3, 8, [(at, 1, 4 + at) for at in (0, 1, 2, 3, 4, 5, 7)]),
        (8, 8, [(0, 1, 9), (2, 1, 11)]),
        (0, 11, [(0, 8, 0x0807060504030201), (8, 1, 9), (10, 1, 11)]),
        (12, 8, []),
        (24, 12, [(0, 8, 5), (8, 4, 6)]),
        (4, 2, [(0, 2, 0x0605)]),
    ):
        expect(list(taken(source, first, n)) == expected, True, f"{n} bytes at {first}")
    for at, is_right in ((0, True), (24, True), (25, False), (-8, False), (-1, False), (40, False)):
        to = WordMemory("to", 40, alignment=8)
        ask = lambda: copy(address(to, at), address(source, 8), 16, False)
        ask() if is_right else refuses(ask, f"a copy of 16 bytes to {at} of 40", REFUSED)
        if is_right:
            expect(to.cells == {at: (1, 9), at + 2: (1, 11)}, True, f"the copied bytes at {at}")
    for at, first, n in ((-12, 12, 24), (24, 0, 24), (-4, 12, 8)):  # the bytes of the source beyond `to` are unset
        to = WordMemory("to", 40, alignment=8)
        part = Memory("part", 40, [(24, 8, 5)] if at < 0 else [(0, 8, 5)])
        refuses(lambda: copy(address(to, at), address(part, first), n, False), f"a copy of {n} bytes to {at}", REFUSED)


def masked_numbers(_):
    """Tests a number's bits under a mask: those of values that the facts allow, also beyond the mask."""
    n = variable("n")
    for least, most in ((0, 3), (100, 120), (1 << 20, 1 << 21)):
        with given(minus(n, least), at_most(n, most)):
            for x, mask in itertools.product(
                (plus(times(16, n), 3), times(16, n), n, plus(n, 7)), (0xF0, 0xF, 0x30, 0x1F0)
            ):
                found = values.arithmetic("and", 64, x, mask)
                if isinstance(found, nodes.Node):
                    ways = [(value_of(found, k), symbol("n", 64).values[k]) for k in range(nodes.POINTS)]
                else:
                    ways = [(value_at(found, {"n": k}), k) for k in {least, least + 1, (least + most) // 2, most}]
                for result, k in ways:
                    expect(result, value_at(x, {"n": k}) % (1 << 64) & mask, f"{x} under {mask:#x}")


def unrotated_values(_):
    """Tests that a rotation by no bits keeps an address, a number and a term."""
    place = address(WordMemory("w", 64, alignment=64), 8)
    for x in (place, variable("n"), symbol("x64", 64), 5):
        expect(scalar.side_shifted(64, x, x, 0) is x, True, "a rotation by no bits")


def checked_points(_):
    """Tests that a result with another value at any one point is refused."""
    x, y = symbol("x64", 64), symbol("y64", 64)
    right = [a + b for a, b in zip(x.values, y.values)]
    operations.checked("add", types.SimpleNamespace(values=right), x, y)
    for k in range(nodes.POINTS):
        wrong = [n + (at == k) for at, n in enumerate(right)]
        refuses(
            lambda: operations.checked("add", types.SimpleNamespace(values=wrong), x, y), f"point {k}", nodes.WrongRule
        )


# ---- frames and functions


def unknown_stores(_):
    """Tests that a store to an unknown place changes 16 KiB of stack, and a stack pointer moved by memory."""
    expect(unwinding.ANYWHERE == (-16 * 1024, 16 * 1024), True, "the bytes that an unknown store changes")
    store = instruction("mov", Register("rax"), Place(0, "rsp", "rcx", 1))
    for depth in (16, 64, 16 * 1024):
        for at in (-16, -depth):
            frame = depth, {16: -8, 3: at}
            is_detected = unwinding.difference(unwinding.X86, store, frame, frame) is not None
            expect(is_detected, True, f"an unknown store with a register at {at} of {depth}")
    for mnemonic in ("add", "sub"):
        x = instruction(mnemonic, Place(0, "rax", None, 1), Register("rsp"))
        expect("rsp" in unwinding.X86.effect(x)[3], True, f"{mnemonic} of memory to the stack pointer")


def shapes(_):
    """Tests which targets a function's shape has: those of instructions that lead out of its section."""
    code = {
        0: instruction("nop"),
        4: instruction("jmp", target=("f", 0), at=4),
        8: instruction("call", target=("g.i7_v3", 4), at=8),
        12: instruction("lea", target=("c", 2), at=12),
    }
    program = types.SimpleNamespace(
        sections={"f": code},
        heads={"f": "head"},
        constants={"c": (bytes(range(8)), 8)},
        object=types.SimpleNamespace(body=lambda head: b"the code" if head == "head" else b""),
    )
    expected = b"the code", [(8, ("g", 4)), (12, (bytes(range(8)), 8, 2))]
    expect(cargo_exports.shape(program, "f") == expected, True, "the shape of a function")


def earlier_facts(_):
    """Tests that facts of another call are used for each cell, whichever the last one is."""
    word, other = symbol("word64", 64), symbol("other64", 64)
    rax, rcx, rdx, rsi = (("register", name) for name in ("rax", "rcx", "rdx", "rsi"))
    facts = 2, {rax: 0}, {rcx: 64, rdx: 1}, {("lane", 1, 0)}
    start = {rax: word, rcx: 8, rdx: other, rsi: 5}
    for cells in itertools.permutations(start):
        proof = Proof.__new__(Proof)
        proof.head, proof.loops = "head", types.SimpleNamespace(guesses={"head": facts})
        proof.cpu = types.SimpleNamespace(stack=Stack(), live=[])
        proof.family = types.SimpleNamespace(values_after=lambda first: [word])
        proof.start = {cell: start[cell] for cell in cells}
        proof.forget()
        expect(proof.guess_again(0), True, "facts of another call")
        expect(proof.indices == {rax: 0} and proof.places == {rcx: (8, 64)}, True, f"facts of the cells {cells}")
        expect(proof.unset == {("lane", 1, 0), rdx}, True, f"unset cells of {cells}")


# ---- states of XXH3


def is_in_case(case, at, q, fields):
    """True if these values of a state's fields are in a case."""
    values_of, facts = case
    point, known = {"q": q}, {at.current_stripe: "v", at.buffer_usage: "w", at.total_bytes: "w"}
    for where, x in values_of:
        n = fields[where] - value_at(x, {"v": 0, "w": 0, "q": q})
        if n < 0 or n and not names_of(x) - {"q"}:
            return False
        point[known[where]] = n if names_of(x) - {"q"} else point.get(known[where], 0)
    return all(value_at(fact, {"v": 0, "w": 0, **point}) >= 0 for fact in facts)


def invalid_fields(_):
    """Compares the cases of invalid fields with the definition: a stripe that isn't in the block, more buffered bytes
    than the buffer holds, or none of some bytes. Fields are below 2 ^ 64."""
    for at, q in itertools.product((layouts.STATE, layouts.CORE), (9, 16, 1 << 40)):
        for case_q in (q, variable("q")):
            cases = list(calls.invalid_fields(at, case_q))
            numbers = {0, 1, q - 1, q, q + 1, LAST, LAST + 1}, {
                0,
                1,
                at.capacity - 1,
                at.capacity,
                at.capacity + 1,
                LAST,
                LAST + 1,
            }
            for stripe, usage, total in itertools.product(*numbers, (0, 1, 300, LAST, LAST + 1)):
                fields = {at.current_stripe: stripe, at.buffer_usage: usage, at.total_bytes: total}
                is_wrong = stripe >= q or usage > at.capacity or not usage and total > 0
                if max(stripe, usage) > LAST or total > LAST and not usage:
                    is_wrong = False
                elif total > LAST:
                    continue
                found = sum(is_in_case(case, at, q, fields) for case in cases)
                expect(found > 0, is_wrong, f"the fields {fields} with {q} stripes in a block")


def ends_of_blocks(_):
    """Tests the ways to take stripes from a block's last place: each has a number of stripes, each number has one."""
    proof = xxh3_states.Through(processors.new_processor())
    b, q = variable("b"), proof.q
    for to, least, of_q in itertools.product(("none", "some"), (1, 3), (9, 16, 40)):
        found = set()
        for turns, (to_b, to_j), facts in proof.end_of((b, minus(q, 1)), to, least):
            names = sorted(names_of(turns, to_b, to_j, *facts) - {"b", "q"})
            used = False
            for numbers in itertools.product(range(40), repeat=len(names)):
                point = {"b": 5, "q": of_q, **dict(zip(names, numbers))}
                if all(value_at(fact, point) >= 0 for fact in facts):
                    n, used = value_at(turns, point), True
                    expect(
                        value_at(plus(times(of_q, to_b), to_j), point), of_q * 5 + of_q - 1 + n, "the end of stripes"
                    )
                    expect(0 <= value_at(to_j, point) < of_q, True, "a place in a block")
                    found.add(n)
            expect(used, True, f"a number of stripes, {to}, {least} at least")
        expected = {"none": {0}, "some": {*range(1, 100)}}[to]
        expect({n for n in found if n < 100} == expected, True, f"the numbers of stripes, {to}")


def given_stripes(_):
    """Tests that states with a given number of buffered stripes have only that."""
    for whole, gs in ((4, [4]), (4, [3]), (8, [8]), (8, [7]), (3, [1, 2])):
        for is_split in (False, True):
            found = [start.g for start in xxh3_updates.starts(whole, is_split, gs)]
            expect({*found} == {*gs}, True, f"stripes of {gs} in a buffer of {whole}")


def records(_):
    """Tests that the records of functions that take stripes have no bytes beyond the summary's size."""
    b, j = variable("b"), variable("j")
    for summary in (TAKE, TAKE_MANY, TAKE_BLOCKS):
        proof, seen = xxh3_states.Through(processors.new_processor()), []
        place = (b, j) if summary.has_place else (b, 0)
        part = Part(place, 0, place)

        def run(live, *_, **__):
            seen.extend(live)
            for memory in live:
                for at in range(0, summary.size, 8):
                    memory.store(at, 8, live[-1].load(at, 8))

        proof.cpu.stack.lowest = xxh3_updates.ENTRY
        with patched(proof, "run", run, create=True), patched(proof, "taker", lambda of: None, create=True):
            proof.taken(summary, [part], [minus(minus(proof.q, 1), j)])
        for memory in seen:
            bytes_of = {at for first, (n, _) in memory.cells.items() for at in range(first, first + n)}
            expect(bytes_of == {*range(72 if summary.has_place else 64)}, True, f"a record of {summary.name}")


def constants(_):
    """Tests the numbers of XXH3: a stripe of 64 bytes moves 8 bytes on in the secret, of which 64 belong to the last
    stripe of a block. The default secret has 192 bytes, a shortest one 136. 240 bytes need no stripes."""
    stripes = (192 - 64) // 8
    found: tuple[int, ...] = every_length.DERIVED, xxh3_updates.BLOCK, long_seeds.BLOCK
    expect(found == (stripes, stripes, 64 * stripes), True, "a block with the default secret")
    found = xxh3_updates.STRIPE, xxh3_updates.SHORT, cargo.LONGEST_WITHOUT, xxh3_updates.LEAST
    expect(found == (64, 240, 240, (136 - 64) // 8), True, "stripes and short messages")
    expect((every_length.SHORTEST, calls.SHORTEST, cargo.SHORTEST) == (136, 136, 136), True, "the shortest secret")
    expect(any_secret.DERIVED, stripes, "the block of the default secret")
    spans = [n for low, high in xxh3_updates.SHORT_COPIES for n in range(low, high + 1)]
    expect(spans == [*range(1, 64)], True, "the bytes that a stripe may lack")


def loads_beyond_numbers(_):
    """Tests that a load of bytes behind a number, or from its middle, is refused, and one of its lower bytes is not."""
    n, memory = variable("n"), WordMemory("m", 24)
    with given(at_most(n, 1000)):
        memory.store(8, 8, n)
        for at in (9, 12, 15, 4):
            refuses(lambda at=at: memory.load(at, 8), f"8 bytes at {at} of a number at 8", REFUSED)
        expect(is_same_number(memory.load(8, 4), n), True, "the lower bytes of a number")


def cases_of_rust(_):
    """Tests that each case of the inductions over rustc's object has values: `given` refuses facts without any."""
    algorithms = "32", "64", *(f"3-{width}:{way}" for width in (64, 128) for way in ("default", "seed"))
    found = [case for name in algorithms for case in (*inductions.cases_of(name), *inductions.cases_of(name, True))]
    for case in (*found, *inductions.of_any_secret()):
        with given(*case.facts):
            pass
    expect(len(inductions.of_any_secret()) < 2 * len(every_length.of_secret()), True, "cases that stay whole")


ALL = [
    *(places, copied_bytes, masked_numbers, unrotated_values, checked_points, unknown_stores, shapes, earlier_facts),
    *(invalid_fields, ends_of_blocks, given_stripes, records, constants, loads_beyond_numbers, cases_of_rust),
]
