"""Tests values in registers, frames, and the cases of inductions at the edges between two. Each takes a random
generator and raises Wrong."""

import itertools
import types
import unittest.mock
from typing import Any

from oracle.machine_code import any_secret, unwinding, xxh3_states, xxh3_updates
from oracle.machine_code.every_length import FAR
from oracle.machine_code.instructions import TABLE
from oracle.machine_code.memory import WordMemory
from oracle.machine_code.objects import Immediate, Place, Register
from oracle.machine_code.unwinding import NOTHING, X86
from oracle.machine_code.values import address
from oracle.symbolic_terms import LONGEST, NotShown, Unsupported, at_most, given, is_natural, is_same_number, minus
from oracle.symbolic_terms import lifted, names_of, plus, symbol, times, value_at, variable

from . import lengths
from .processors import instruction, new_processor
from .values import expect, refuses

patched = unittest.mock.patch.object


# ---- registers and frames


def bytes_of_conditions(_):
    """Tests that a condition becomes the number 0 or 1 in a register, and no truth value."""
    for a, b, expected in ((5, 5, 1), (5, 6, 0)):
        cpu, x = new_processor(), instruction("sete", Register("cl"))
        cpu.registers["rcx"] = 7
        cpu.set_flags("sub", 64, a, b, None)
        TABLE["sete", "b"][1](cpu, x)
        expect(cpu.registers["rcx"], expected, f"{a} == {b}")
        expect(cpu.registers["rcx"].__class__ is int, True, "the type of a byte")


def halves_of_saved_registers(_):
    """Tests that a move of 32 bits neither saves nor restores a register."""
    place = Place(8, "rsp", None, 1)
    for name, half in (("rbx", "ebx"), ("r12", "r12d")):
        for used, is_whole in ((name, True), (half, False)):
            stored, loaded = ({name: 8}, {name: 8}) if is_whole else ({}, {})
            found = X86.effect(instruction("mov", Register(used), place))
            expect(found == (0, stored, {}, [] if is_whole else [name], (8, 16)), True, f"a store of {used}")
            found = X86.effect(instruction("mov", place, Register(used)))
            expect(found == (0, {}, loaded, [name], NOTHING), True, f"a load of {used}")


def returns_of_external_functions(_):
    """Tests that the return of an external function unsets what is below the stack pointer, and keeps what is above."""
    cpu = new_processor()
    cpu.push(9)
    cpu.push(7)
    memory, at = cpu.registers["rsp"].place()
    memory.store(at - 8, 8, 5)
    cpu.registers.update(rbx=3, rcx=4)
    expect(cpu.return_from_another(), 7, "the return address")
    refuses(lambda: memory.load(at - 8, 8), "a value below the stack pointer")
    expect(cpu.pop(), 9, "a value above the stack pointer")
    expect(cpu.registers["rbx"], 3, "a saved register")
    expect(cpu.registers["rcx"].__class__ is int, False, "a register that isn't saved")


def shifts_by_nothing(_):
    """Tests that a shift by 0 bits keeps any value, also an address."""
    for mnemonic in ("shlx", "shrx"):
        for amount in (0, 64):
            cpu = new_processor()
            place = address(WordMemory("m", 16, alignment=8), 8)
            cpu.registers.update(rcx=amount, rdx=place)
            registers = Register("rcx"), Register("rdx"), Register("rax")
            TABLE[mnemonic, "qqq"][1](cpu, instruction(mnemonic, *registers))
            expect(cpu.registers["rax"] is place, True, f"{mnemonic} by {amount}")


def shifts_of_addresses(_):
    """Tests that shifts by 64 bits, which are none, keep an address."""
    for mnemonic, letters in (("shl", "iq"), ("shr", "iq"), ("shld", "iqq"), ("shrd", "iqq")):
        cpu, place = new_processor(), address(WordMemory("m", 16, alignment=8), 8)
        cpu.registers.update(rax=place, rcx=3)
        operands = Immediate(64), *[Register("rcx")] * (len(letters) - 2), Register("rax")
        TABLE[mnemonic, letters][1](cpu, instruction(mnemonic, *operands))
        expect(cpu.registers["rax"] is place, True, f"{mnemonic} by 64")


def equal_operands(_):
    """Tests instructions whose operands are one register: 0, or the same value, whatever it is."""
    n, rax = variable("n"), Register("rax")
    place = address(WordMemory("m", 16, alignment=8), 8)
    with given(minus(n, 1), at_most(n, 100)):
        for mnemonic, before, after in (("xor", place, 0), ("sub", place, 0), ("or", n, n)):
            cpu = new_processor()
            cpu.registers["rax"] = before
            TABLE[mnemonic, "qq"][1](cpu, instruction(mnemonic, rax, rax))
            expect(is_same_number(cpu.registers["rax"], after), True, f"{mnemonic} of {before}")
        cpu = new_processor()
        cpu.registers["rax"] = n
        TABLE["test", "qq"][1](cpu, instruction("test", rax, rax))
        expect(cpu.condition("ne"), True, "a number that isn't 0")
        cpu = new_processor()
        cpu.vectors[0] = [0, n, *[0] * 6]
        TABLE["vptest", "xx"][1](cpu, instruction("vptest", Register("xmm0"), Register("xmm0")))
        expect(cpu.condition("ne"), True, "a vector that isn't 0")


def orders_of_bytes(_):
    """Tests that an order of bytes that depends on a term is refused as one."""
    cpu = new_processor()
    cpu.vectors[0], cpu.vectors[1] = [[1] * 8, [symbol("x64", 64)] * 8]
    operands = Register("xmm1"), Register("xmm0"), Register("xmm2")
    ask = lambda: TABLE["vpshufb", "xxx"][1](cpu, instruction("vpshufb", *operands))
    refuses(ask, "an order of bytes", (Unsupported,))


def frames_behind_jumps(_):
    """Tests the frames of jumps to other functions and of an end without a return."""
    push, end = instruction("push", Register("rbx"), size=2), instruction("ud2", at=2, size=2)
    outer = instruction("jmp", target=("g", 4))
    for code, frames, is_right in (
        ({0: outer}, [(0, X86.ENTRY), (4, (24, {16: -8}))], True),
        ({0: push, 2: end}, [(0, X86.ENTRY), (2, (16, {16: -8, 3: -16}))], True),
        ({0: push, 2: end}, [(0, X86.ENTRY), (2, (24, {16: -8}))], False),
    ):
        table = types.SimpleNamespace(at=lambda _, place: [frame for at, frame in frames if at <= place][-1])
        ask = lambda: unwinding.followed(X86, code, "f", table)
        expect(ask() == {*code}, True, "followed places") if is_right else refuses(ask, "a frame", (NotShown,))


def masks_of_numbers(_):
    """Tests that a mask of 32 bits on a larger number gives the number's remainder, and no term."""
    k, j = variable("k"), variable("j")
    with given(at_most(j, 63), at_most(k, 1 << 40)):
        cpu, operands = new_processor(), (Immediate(63), Register("eax"))
        cpu.registers["rax"] = plus(times(64, k), j)
        TABLE["and", "il"][1](cpu, instruction("and", *operands))
        expect(is_same_number(cpu.registers["rax"], j), True, "a remainder")


# ---- cases


def totals_of_updates(_):
    """Tests that the total after an update must be the message's length."""
    a, b = variable("a"), variable("b")
    for total, is_right in ((plus(times(32, b), 9), True), (plus(times(32, b), 8), False), (5, False)):
        proof = lengths.plain()

        def call(what, state, *_, **__):
            for at, size, x in proof.parts(b, 9, [proof.accumulator(j, b) for j in range(4)]):
                state.store(at, size, x)
            state.store(proof.at.total, 8, lifted(total) if is_right else total)

        proof.cpu.library = types.SimpleNamespace(update=None, SIZES={"64": 88})
        with patched(proof, "call", call):
            ask = lambda: proof.update_between(a, 3, b, 9, [minus(b, plus(a, 1)), minus(a, 1)], None)
            ask() if is_right else refuses(ask, f"the total {total}", (NotShown,))


def consecutive_stripes(_):
    """Tests that each part of taken stripes ends where the next one begins, at a place within a block."""
    proof = xxh3_states.Through(new_processor())
    lists = [(parts, facts, 16) for parts, facts in [*proof.widened(), *proof.by_fours(), *proof.by_blocks()]]
    for parts, facts, q in lists:
        with given(*facts):
            for part, following in zip(parts, [*parts[1:], None]):
                first, end = (plus(times(q, b), j) for b, j in (part.start, part.end))
                expect(is_same_number(end, plus(first, part.turns)), True, f"the end of {part}")
                expect(following is None or following.start == part.end, True, f"the part behind {part}")
            j = parts[0].start[1]
            expect(is_natural(j) and is_natural(minus(q - 1, j)), True, f"the place {j}")
    for parts, facts in proof.by_fours():
        names = sorted({*names_of(*facts, *(part.turns for part in parts))} - {"D", "b"})
        points = [dict(zip(names, values)) for values in itertools.product(range(4), repeat=len(names))]
        turns = plus(*(part.turns for part in parts))

        def has(point, k, of_turns):
            at = {**point, "D": k, "b": 0}
            holds = all(value_at(fact, at) >= 0 for fact in facts if of_turns or "D" not in names_of(fact))
            return holds and value_at(turns, at) < FAR

        found, expected = ([k for k in range(64) if any(has(one, k, way) for one in points)] for way in (True, False))
        expect(found == expected, True, f"the blocks of {parts[1]}")


def buffered_stripes(_):
    """Tests the numbers of stripes in a buffer, and where a block may end among any number of them."""
    for whole in (3, 4):
        expect([g for g, _ in xxh3_updates.stripes_of(whole)] == [*range(1, whole + 1)], True, "few stripes")
    ((g, facts),) = xxh3_updates.stripes_of(8)
    values = [k for k in range(20) if all(value_at(fact, {"g": k}) >= 0 for fact in facts)]
    expect(is_same_number(g, variable("g")) and values == [*range(1, 9)], True, "many stripes")
    found = list(xxh3_updates.ends_of_blocks(8, g, 0, facts))
    expect(len(found), 4, "the ends of blocks")
    expect([start.g for start in found][0], 1, "one stripe to the block's end")


def stripes_without_remainder(_):
    """Tests that digests begin with no bytes of another update, and that cases of any secret have any length."""
    proof = xxh3_states.Through(new_processor())
    for place, f, facts, parts in proof.digests():
        expect("r" in names_of(*facts, f), False, "bytes that complete a stripe")
    secrets = [case for own, case in proof.all_taken() if own == xxh3_updates.OF_16]
    expect(len(secrets) > 2 and all("u" not in names_of(*case[2]) for case in secrets), True, "longer secrets")


def states_of_updates(_):
    """Tests what an update assumes of a state's last stripe and of lost counters, and what it requires afterwards."""
    b, j, lost = (variable(name) for name in ("b", "j", "lost"))
    seen: Any
    for is_short, has_parts, is_lost in itertools.product((False, True), repeat=3):
        proof, seen = xxh3_states.Through(new_processor()), {}
        state = types.SimpleNamespace(store=lambda at, n, x: None)
        parts = [xxh3_updates.Part((b, j), 1, (b, plus(j, 1)))] if has_parts else []
        end = (b, plus(j, 1)) if has_parts else (b, j)
        length = plus(
            minus(plus(times(64, plus(times(proof.q, end[0]), end[1])), 5), 1), times(-64, proof.stripes((b, j)))
        )

        def run(*_, **__):
            seen["bound"] = is_natural(minus(LONGEST, lost))

        with unittest.mock.patch.multiple(
            proof,
            state=lambda place, f, runs=(): seen.update(before=list(runs)) or state,
            run=run,
            expect_state=lambda *of: seen.update(after=list(of[4])),
        ):
            facts = [minus(b, 1), minus(minus(proof.q, 2), j)]
            proof.update_to(is_short, ((b, j), 1), (end, 5), length, facts, parts, (), {8: 1} if is_lost else ())
        expect(len(seen["before"]), int(is_short and not has_parts), "runs before an update")
        expect(len(seen["after"]), int(is_short), "runs after an update")
        source = seen["after"][0][2] if is_short else None
        expect(source is proof.source, is_short and has_parts, "the last stripe of the message")
        expect(seen["bound"], is_lost, "the bound of lost bytes")


def short_messages(_):
    """Tests that an update may take stripes only of messages above 240 bytes."""
    for parts, is_right in (((), True), ([xxh3_updates.Part((0, 0), 0, (0, 0))], False)):
        proof = xxh3_states.Through(new_processor())
        with unittest.mock.patch.multiple(proof, state=lambda *_: None, run=lambda *_, **__: None):
            with patched(proof, "expect_state", lambda *_: None):
                ask = lambda: proof.update_to(False, ((0, 0), 1), ((0, 0), 5), 4, [], parts)
                ask() if is_right else refuses(ask, "stripes of a short message", (NotShown,))


def stripes_of_any_secret(_):
    """Tests that 2^32 - 1 and 2^32 stripes are in no common case, and that each number has its case."""
    proof = any_secret.AnySecret(new_processor())
    found = []
    for stripes in ((1 << 32) - 1, 1 << 32):
        point = {"q": 9, "B": stripes // 9, "J": stripes % 9, "t": 5, "u": 0}
        found.append(
            {
                k
                for k, case in enumerate(proof.cases())
                if all(value_at(fact, point) >= 0 for fact in case.facts)
                and (value_at(case.blocks, point), value_at(case.more, point)) == (point["B"], point["J"])
            }
        )
    expect(len(found[0]) == len(found[1]) == 1 and found[0] != found[1], True, "the cases near 2^32 stripes")


def ends_within_buffers(_):
    """Tests where a block ends among a buffer's stripes: at each place if there are at most four, else at any."""
    q = variable("q")
    for whole, count in ((3, 3), (4, 3), (5, 3)):
        found = [start.behind[1] for start in xxh3_updates.ends_of_blocks(whole, 3, 0, [])]
        expect(len(found), count, f"the ends in a buffer of {whole}")
        expect(all(isinstance(j, int) for j in found), whole <= 4, f"numbers of stripes in a buffer of {whole}")
    for start in xxh3_updates.ends_of_blocks(4, 3, 0, []):
        expect(is_same_number(plus(start.place[1], 3), plus(q, start.behind[1])), True, "the number of stripes")


ALL = [
    *(bytes_of_conditions, halves_of_saved_registers, shifts_by_nothing, shifts_of_addresses, equal_operands),
    *(orders_of_bytes, frames_behind_jumps, masks_of_numbers, totals_of_updates, consecutive_stripes),
    *(buffered_stripes, stripes_without_remainder, states_of_updates, short_messages, stripes_of_any_secret),
    *(ends_within_buffers, returns_of_external_functions),
]
