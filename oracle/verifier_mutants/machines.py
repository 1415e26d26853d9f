"""Tests of how the processor runs a program: calls, steps, places, registers and the functions of another library.
Each takes a random generator, which it doesn't use, and raises Wrong."""
import itertools
import types
import unittest.mock
from typing import Any

from oracle.machine_code import processor, scalar
from oracle.machine_code.instructions import TABLE
from oracle.machine_code.memory import ENTRY, RED, Numbers, OnlyRead, ReturnTo, WordMemory
from oracle.machine_code.objects import Immediate, Place, Register
from oracle.machine_code.processor import ARGUMENTS, CALLEE_SAVED, WIDE, call_of_outer
from oracle.machine_code.values import address
from oracle.symbolic_terms import (
    Input,
    Unsupported,
    at_most,
    given,
    is_same,
    is_same_number,
    minus,
    nodes,
    operations,
    plus,
    symbol,
    times,
    variable,
)

from .processors import instruction, new_processor
from .values import expect, refuses, value_of

patched = unittest.mock.patch.object
X = instruction("mov")
RAX = Register("rax")


def calls_of_functions(_):
    """Tests a processor's state at a function's first instruction, and what a call requires at its end."""
    seen = []

    def run(self, place):
        seen.append(
            (place, dict(self.registers), [list(lanes) for lanes in self.vectors], self.flags, self.carry, self.count)
        )
        memory, at = self.registers["rsp"].place()
        expect(
            memory is self.stack
            and at == ENTRY - 8
            and memory.load(at, 8) == ReturnTo("return", 0)
            and len(memory.cells) == 1,
            True,
            "the stack at a call",
        )
        self.registers["rax"], self.registers["rdx"] = 5, 6
        if change:
            self.registers[change] = symbol("another", 64)

    cpu: Any = new_processor(instruction("ret"))
    cpu.set_flags("logic", 64, 0, 0, 0)
    cpu.vectors[3][2], cpu.count = 7, 99
    for change in (None, "rcx", *CALLEE_SAVED):
        with patched(processor.Processor, "run", run):
            if change in CALLEE_SAVED:
                refuses(lambda: cpu.call("f", 1, (2, 32)), f"a call that changes {change}")
            else:
                expect(cpu.call("f", 1, (2, 32), symbol("x64", 64)) == (5, 6), True, "the result of a call")
    place, registers, vectors, flags, carry, count = seen[0]
    expect(place == ("f", 0) and flags is None and carry is None and count == 0, True, "a processor at a call")
    expect(vectors == [[None] * 8] * 32 and len(vectors) == 32, True, "vectors at a call")
    expect(
        registers["rdi"] == 1
        and value_of(operations.bits(registers["rsi"], 0, 32)) == 2
        and registers["rdx"] is symbol("x64", 64),
        True,
        "arguments of a call",
    )
    upper = operations.bits(registers["rsi"], 32, 32)
    expect(isinstance(upper, nodes.Node) and upper.width == 32, True, "bits above an argument")
    names = [name for name in WIDE if name not in ("rdi", "rsi", "rdx", "rsp")]
    expect(
        len({registers[name].number for name in names}) == len(names) == 12
        and all(registers[name].width == 64 for name in names),
        True,
        "other registers",
    )
    expect(
        CALLEE_SAVED == ("rbx", "rbp", "r12", "r13", "r14", "r15")
        and ARGUMENTS == ("rdi", "rsi", "rdx", "rcx", "r8", "r9"),
        True,
        "the calling convention",
    )
    with patched(processor.Processor, "run", lambda self, place: seen.append(self.registers["r9"])):
        new_processor(instruction("ret")).call("f", 7, into=("r9",))
    expect(seen[-1], 7, "another register of arguments")


def functions_of_programs(_):
    """Tests the functions of a program's instructions, and of another library."""
    with patched(processor, "known", lambda *of: of), patched(
        processor.Processor, "known", staticmethod(lambda *of: of)
    ):
        cpu: Any = new_processor(instruction("ret"))
        expect(
            cpu.code["f"] == {0: ((instruction("ret"), "x86-64-v3"), instruction("ret"))} and cpu.name == "x86-64-v3",
            True,
            "a program's functions",
        )
        cpu.change(instruction("nop"))
        expect(
            cpu.code["f"][0] == ((instruction("nop"), "x86-64-v3"), instruction("nop")), True, "a changed instruction"
        )
    for name in ("memcpy", "memmove", "memset"):
        operation, none = cpu.code[name][0]
        expect(
            operation.func is call_of_outer and operation.args == (name,) and none is None,
            True,
            "a function of another library",
        )
    expect(
        (cpu.not_zero, cpu.loops, cpu.live, cpu.replaced, cpu.used, cpu.limit, cpu.TOGETHER)
        == ([], None, [], {}, set(), 1 << 24, (1,)),
        True,
        "a processor",
    )


def steps(_):
    """Tests where a step ends: at a jump, at the return from the first function, at a loop's head, or at the limit."""
    found: Any
    passed: Any
    to: Any
    lines = [instruction("nop", at=4 * k) for k in range(5)]
    lines[3] = instruction("jmp", target=("f", 0), at=12)
    lines[4] = instruction("ret", at=16)
    cpu = new_processor(*lines)
    expect(
        cpu.step(("f", 0)) == ("f", 0) and cpu.count == 4 and cpu.used == {("f", 4 * k) for k in range(4)},
        True,
        "a step to a jump",
    )
    cpu.push(ReturnTo("return", 0))
    expect(cpu.step(("f", 16)) is None, True, "the return from the first function")
    cpu.push(ReturnTo("f", 8))
    expect(cpu.step(("f", 16)) == ("f", 8), True, "a return")
    for heads, at, found in (((8,), 0, 8), ((0,), 0, 0), ((4, 8), 0, 4), ((4,), 4, 0)):
        cpu.loops = types.SimpleNamespace(heads=lambda section: heads)
        expect(cpu.step(("f", at)) == ("f", found), True, f"a step to a loop's head of {heads}")
    cpu.loops, cpu.count = None, 0
    for limit, is_right in ((4, True), (3, False)):
        cpu.limit, cpu.count = limit, 0
        if is_right:
            cpu.step(("f", 0))
        else:
            refuses(lambda: cpu.step(("f", 0)), "too many instructions", (Unsupported,))
    for place in (("g", 0), ("f", 2), ("f", 20)):
        refuses(lambda: cpu.step(place), f"a step from {place}", (Unsupported,))
    for to, found in ((ReturnTo("return", 0), None), (("g", 5), ("g", 5))):
        cpu.replaced = {("f", 0): lambda: to}
        expect(cpu.step(("f", 0)) == found, True, "a function that is replaced")
    passed = []
    cpu.replaced, cpu.count = {}, 0
    cpu.limit = 100
    cpu.loops = types.SimpleNamespace(
        heads=lambda _: (), pass_by=lambda of, place: passed.append((of, place)) or ("f", 16)
    )
    cpu.push(ReturnTo("return", 0))
    cpu.run(("f", 0))
    expect(passed == [(cpu, ("f", 0))], True, "places that loops see")


def stack_pointers(_):
    """Tests pushes, pops, and places below the stack pointer."""
    cpu, n = new_processor(), variable("n")
    for to, is_right in (
        (address(cpu.stack, ENTRY - 512), True),
        (address(cpu.stack, n), False),
        (address(WordMemory("w", 512), 8), False),
        (7, False),
        (n, False),
    ):
        if is_right:
            cpu.move_stack(to)
            expect(cpu.registers["rsp"] is to and cpu.stack_pointer() == ENTRY - 512, True, "the stack pointer")
        else:
            with given(minus(n, ENTRY - 600), at_most(n, ENTRY - 500)):
                refuses(lambda: cpu.move_stack(to), f"the stack at {to}")
    cpu.registers["rsp"] = address(cpu.stack, ENTRY - 256)
    with given(minus(n, ENTRY - 256), at_most(n, ENTRY - 100)):
        for at, holds in (
            (ENTRY - 256 - RED, True),
            (ENTRY - 256 - RED - 1, False),
            (n, False),
            (plus(n, 8), False),
            (ENTRY, True),
        ):
            cpu.registers["rdi"] = address(cpu.stack, at)
            ask = lambda: cpu.place(Place(0, "rdi", None, 1), X)
            if holds:
                expect(ask() == (cpu.stack, at), True, "a place on the stack")
            else:
                refuses(ask, f"the place {at} on the stack")
    cpu.registers["rdi"] = address(cpu.stack, ENTRY - 384)
    cpu.put_register("rsp", 0, 64, address(cpu.stack, ENTRY - 300))
    expect(cpu.stack_pointer(), ENTRY - 300, "a written stack pointer")
    refuses(lambda: cpu.put_register("rsp", 0, 64, 5), "a number as the stack pointer")
    cpu.push(11)
    cpu.push(12)
    expect([cpu.pop(), cpu.pop()] == [12, 11] and cpu.stack_pointer() == ENTRY - 300, True, "pops")
    cpu = new_processor()
    cpu.push(ReturnTo("f", 4))
    for ask in (
        lambda: TABLE["pop", "q"][1](cpu, instruction("pop", RAX)),
        lambda: cpu.load(cpu.stack, cpu.stack_pointer(), 8),
    ):
        refuses(ask, "a place to return to as a value", (Unsupported,))
    cpu.push(9)
    TABLE["pop", "q"][1](cpu, instruction("pop", RAX))
    expect(cpu.registers["rax"], 9, "a popped value")
    refuses(lambda: TABLE["ret", ""][1](new_processor(*[]), instruction("ret")), "a return without an address")


def aligned_places(_):
    """Tests operands in memory: their address, and their alignment, which objects have by their own and their
    offset."""
    n = variable("n")
    for alignment, residue, at, needed, holds in (
        (16, 0, 0, 16, True),
        (16, 0, 8, 16, False),
        (16, 8, 8, 16, True),
        (16, 8, 0, 16, False),
        (8, 0, 16, 16, False),
        (32, 0, 16, 16, True),
        (16, 0, 16, 32, False),
        (1, 0, 3, 1, True),
        (64, 0, 32, 64, False),
        (64, 0, 64, 64, True),
        (16, 0, n, 1, True),
        (16, 0, times(16, n), 16, False),
        (24, 0, 0, 16, False),
        (16, 0, 2, 2, True),
        (16, 0, 1, 2, False),
    ):
        cpu, memory = new_processor(), WordMemory("room", 256, alignment=alignment)
        memory.residue = residue
        cpu.registers["rdi"] = address(memory, at)
        ask = lambda: cpu.place(Place(0, "rdi", None, 1), X, needed)
        with given(at_most(n, 9)):
            if holds:
                found, offset = ask()
                expect(found is memory and is_same_number(offset, at), True, "an aligned place")
            else:
                refuses(
                    ask, f"{at} of a multiple of {alignment} and {residue} as a multiple of {needed}", (Unsupported,)
                )
    cpu, memory = new_processor(), WordMemory("room", 256, alignment=8)
    cpu.registers.update(rdi=address(memory, 64), rsi=6, rcx=n, rdx=address(memory, 8))
    with given(at_most(n, 9)):
        for place, at in (
            (Place(-64, "rdi", None, 1), 0),
            (Place((1 << 64) - 8, "rdi", None, 1), 56),
            (Place(3, "rdi", "rsi", 8), 115),
            (Place(0, "rdi", "rsi", 1), 70),
            (Place(0, "rsi", "rdi", 1), 70),
            (Place(0, "rdi", "rcx", 4), plus(times(4, n), 64)),
            (Place(8, None, "rdi", 1), 72),
        ):
            expect(is_same_number(cpu.place(place, X)[1], at), True, f"the place {place}")
        refuses(lambda: cpu.place(Place(0, "rdi", "rdi", 1), X), "a sum of two addresses")
        refuses(lambda: cpu.place(Place(0, "rsi", "rdi", 2), X), "a product of an address")
    expect(
        cpu.effective(Place(5, None, None, 1), X) == 5
        and cpu.effective(Place(-1, None, None, 1), X) == (1 << 64) - 1
        and cpu.effective(Place(7, "rsi", "rsi", 2), X) == 25,
        True,
        "numbers as places",
    )


def parts_of_registers(_):
    """Tests what a write to a part of a register leaves, for numbers, terms and addresses, and the widths of
    operands."""
    n, x = variable("n"), symbol("x64", 64)
    for name, width in (("al", 8), ("ax", 16), ("eax", 32), ("rax", 64)):
        for old in (0, 5, 0x1234, (1 << 64) - 1, x, n, address(Input("m", 9), 3)):
            for most in ((1 << width) - 1, 1 << min(width, 63)):
                with given(at_most(n, most)):
                    cpu = new_processor()
                    cpu.registers["rax"] = old
                    cpu.put(Register(name), width, 3, X)
                    found = cpu.registers["rax"]
                    before = old if isinstance(old, int) else symbol("n", 64).values[0] if old is n else x.values[0]
                    is_small = old is n and most < 1 << width or width >= 32
                    if is_small:
                        expect(found, 3, f"{name} over a number")
                    elif old is n or isinstance(old, (int, nodes.Node)):
                        expect(value_of(found), before >> width << width | 3, f"{name} over {old}")
                    else:
                        expect(value_of(found) % (1 << width), 3, f"{name} over an address")
                        above = operations.bits(found, width, 64 - width)
                        expect(
                            above.width == 64 - width and above.op == "symbol", True, "bits above a part of an address"
                        )
    refuses(lambda: new_processor().put(Register("bh"), 8, 1, X), "a second byte", (Unsupported,))
    cpu = new_processor()
    for operands, mnemonic, width in (
        ((RAX, Register("al")), "mov", 8),
        ((Register("al"), RAX), "mov", 64),
        ((RAX, Register("xmm1")), "movq", 64),
        ((Immediate(1), Place(0, "rax", None, 1)), "cmpb", 8),
        ((Immediate(1), Place(0, "rax", None, 1)), "movw", 16),
        ((Immediate(1), Place(0, "rax", None, 1)), "movl", 32),
        ((Register("xmm1"), Place(0, "rax", None, 1)), "movq", 64),
    ):
        expect(cpu.width(instruction(mnemonic, *operands)), width, f"the width of {mnemonic}")
    refuses(lambda: cpu.width(instruction("movx", Register("xmm1"))), "an unknown width", KeyError)
    for name, expected in (("rax", True), ("eax", True), ("al", True), ("ah", False)):
        expect(cpu.whole(Register(name)) is not None, expected, f"the whole register of {name}")
    expect(cpu.whole(Place(0, "rax", None, 1)) is None and cpu.whole(Immediate(1)) is None, True, "no register")


def lanes_of_vectors(_):
    """Tests lanes of vectors, which must be set."""
    cpu = new_processor()
    cpu.vectors[1] = [*range(10, 18)]
    for first, count in ((0, 1), (0, 8), (1, 1), (2, 4), (7, 1)):
        expect(
            cpu.lanes(Register("xmm1"), count, first) == [*range(10, 18)][first : first + count],
            True,
            f"{count} lanes from {first}",
        )
    cpu.vectors[1][5] = None
    for name, first, count, holds in (
        ("zmm1", 0, 8, False),
        ("ymm1", 0, 4, True),
        ("xmm1", 5, 1, False),
        ("xmm1", 6, 2, True),
        ("xmm2", 0, 1, False),
    ):
        if holds:
            cpu.lanes(Register(name), count, first)
        else:
            refuses(lambda: cpu.lanes(Register(name), count, first), "a lane that isn't set", (Unsupported,))


def stores(_):
    """Tests to which objects a store may go: writable ones, and during a loop's proof the stack and live ones."""
    ask: Any
    memory: Any
    for memory, has_loops, is_live, holds in (
        (WordMemory("w", 8), False, False, True),
        (WordMemory("w", 8), True, True, True),
        (WordMemory("w", 8), True, False, False),
        (Input("i", 8), False, False, False),
        (Numbers("m", b"12345678"), True, True, False),
    ):
        cpu = new_processor()
        cpu.loops, cpu.live = (types.SimpleNamespace(heads=lambda _: ()) if has_loops else None), [
            memory
        ] if is_live else [WordMemory("w", 8)]
        ask = lambda: cpu.store(memory, 0, 8, 5)
        if holds:
            ask()
            expect(memory.load(0, 8), 5, "a store")
        else:
            refuses(ask, f"a store to {memory.name}", (Unsupported,))
    cpu = new_processor()
    cpu.loops = types.SimpleNamespace(heads=lambda _: ())
    cpu.store(cpu.stack, ENTRY - 64, 8, 7)
    expect(cpu.stack.load(ENTRY - 64, 8), 7, "a store to the stack")
    for registers, is_right in (
        ({"rbx": cpu.registers["rbx"]}, True),
        ({"rbx": symbol("x64", 64)}, False),
        ({}, True),
        ({"rbx": cpu.registers["rbx"], "rbp": symbol("x64", 64)}, False),
    ):
        if is_right:
            cpu.expect_unchanged(registers)
        else:
            refuses(lambda: cpu.expect_unchanged(registers), "a changed register", (Unsupported,))
    expect(
        cpu.argument("rdi") is cpu.registers["rdi"] and cpu.frame() == (cpu.stack, ENTRY - 248),
        True,
        "arguments and the caller's frame",
    )


def called(name, to=None, source=None, count=16, depth=264, change=None):
    """Calls a function of another library. Returns the processor, the memory, the registers before, and the place."""
    cpu: Any = new_processor()
    cpu.registers["rsp"] = address(cpu.stack, ENTRY - depth + 8)
    for at in range(ENTRY - 640, ENTRY - 200, 8):
        cpu.stack.store(at, 8, at)
    cpu.push(ReturnTo("f", 4))
    buffer, other = WordMemory("buffer", 64, [(k, 1, k) for k in range(64)], alignment=8), Numbers(
        "m", bytes(range(100, 164))
    )
    cpu.registers.update(
        rdi=address(buffer, 8) if to is None else to(cpu),
        rsi=address(other, 4) if source is None else source(cpu, buffer),
        rdx=count,
    )
    cpu.set_flags("logic", 64, 0, 0, 0)
    cpu.vectors[1][0] = 5
    if change:
        change(cpu, buffer)
    before = dict(cpu.registers)
    found = call_of_outer(name, cpu, None)
    return cpu, buffer, before, found


def outer_calls(_):
    """Tests calls of memcpy, memmove and memset: the stack, what they may write, and what they leave."""
    for name in ("memcpy", "memmove", "memset"):
        cpu, buffer, before, place = called(name, source=(lambda cpu, _: 0x1FF41) if name == "memset" else None)
        expect(
            place == ReturnTo("f", 4) and cpu.registers["rax"] is before["rdi"] and cpu.stack_pointer() == ENTRY - 256,
            True,
            "the end of a call",
        )
        expect(
            [buffer.load(k, 1) for k in range(7, 25)]
            == [7, *([0x41] * 16 if name == "memset" else range(104, 120)), 24],
            True,
            f"bytes by {name}",
        )
        expect(cpu.flags is None and cpu.carry is None and cpu.vectors[1][0] is None, True, "flags and vectors")
        for register in WIDE:
            is_same_one = cpu.registers[register] is before[register]
            expect(is_same_one, register in CALLEE_SAVED, f"{register} after a call") if register not in (
                "rax",
                "rsp",
            ) else None
            expect(
                register in CALLEE_SAVED or register in ("rax", "rsp") or cpu.registers[register].width == 64,
                True,
                "a register that may hold anything",
            )
        refuses(lambda: cpu.stack.load(ENTRY - 272, 8), "the stack below a call")
        expect(cpu.stack.load(ENTRY - 256, 8), ENTRY - 256, "the stack above a call")


def places_of_outer_calls(_):
    """Tests the stack at calls of another library, and the places that they may write."""
    n = variable("n")
    for depth, is_right in ((264, True), (256, False), (260, False), (280, True), (272, False)):
        ask = lambda: called("memcpy", depth=depth)
        if is_right:
            ask()
        else:
            refuses(ask, f"a call with the stack at {depth}", (Unsupported,))
    same = lambda cpu, buffer: address(buffer, 4)
    refuses(lambda: called("memcpy", source=same), "a copy onto itself by memcpy")
    expect(
        [called("memmove", source=same)[1].load(k, 1) for k in range(8, 24)] == [*range(4, 20)],
        True,
        "a copy onto itself by memmove",
    )
    for to, is_right in (
        (lambda cpu: address(cpu.stack, cpu.stack_pointer() + 8), True),
        (lambda cpu: address(cpu.stack, cpu.stack_pointer() + 7), False),
        (lambda cpu: address(cpu.stack, cpu.stack_pointer()), False),
        (lambda cpu: address(cpu.stack, ENTRY - 16), True),
        (lambda cpu: address(cpu.stack, ENTRY - 8), False),
        (lambda cpu: address(OnlyRead("o", 64, [(0, 8, 1)])), False),
        (lambda cpu: 5, False),
    ):
        if is_right:
            called("memcpy", to)
        else:
            refuses(lambda: called("memcpy", to), "a copy to a place that a call may not write")
    called("memcpy", lambda cpu: 5, lambda *_: 7, 0)
    for change, is_right in (
        (lambda cpu, buffer: setattr(cpu, "live", [buffer]), True),
        (lambda cpu, buffer: setattr(cpu, "live", []), False),
    ):

        def loops(cpu, buffer):
            cpu.loops = types.SimpleNamespace(heads=lambda _: ())
            change(cpu, buffer)

        if is_right:
            called("memset", source=lambda *_: 7, change=loops)
        else:
            refuses(
                lambda: called("memset", source=lambda *_: 7, change=loops),
                "a fill of an object that a proof doesn't know",
                (Unsupported,),
            )
    with given(minus(n, 1), at_most(n, 8)):
        refuses(lambda: called("memcpy", count=n), "a copy of any length to memory")


def carries(_):
    """Tests instructions that use or leave the carry, and the flags of sums, steps, negations and shifts."""
    for a, b, borrow in itertools.product((0, 5, 7, (1 << 64) - 1), (0, 5, 7, (1 << 64) - 1), (0, 1)):
        cpu, x = new_processor(), instruction("sbb", Register("rbx"), RAX)
        cpu.registers.update(rax=a, rbx=b)
        cpu.set_flags("sub", 64, 0, borrow, None)
        TABLE["sbb", "qq"][1](cpu, x)
        expect(cpu.registers["rax"], (a - b - borrow) % (1 << 64), "a difference with a borrow")
        expect(cpu.condition("b"), a < b + borrow, "the borrow of a difference")
        expect(cpu.condition("e"), (a - b - borrow) % (1 << 64) == 0, "a difference that is 0")
        for name, change in (("inc", 1), ("dec", -1)):
            cpu.registers["rax"] = a
            cpu.set_flags("sub", 64, 0, borrow, None)
            TABLE[name, "q"][1](cpu, instruction(name, RAX))
            expect(cpu.registers["rax"], (a + change) % (1 << 64), name)
            expect(
                cpu.condition("b") == bool(borrow) and cpu.condition("e") == ((a + change) % (1 << 64) == 0),
                True,
                f"flags of {name}",
            )
        cpu.registers["rax"] = a
        TABLE["neg", "q"][1](cpu, instruction("neg", RAX))
        expect(
            cpu.registers["rax"] == -a % (1 << 64)
            and cpu.condition("b") == (a != 0)
            and cpu.condition("e") == (a == 0),
            True,
            "a negation",
        )
    for a, b in ((symbol("x64", 64), 5), (5, symbol("x64", 64))):
        cpu = new_processor()
        cpu.registers.update(rax=a, rbx=b)
        cpu.set_flags("sub", 64, 0, 1, None)
        refuses(
            lambda: TABLE["sbb", "qq"][1](cpu, instruction("sbb", Register("rbx"), RAX)),
            "a borrow of terms",
            (Unsupported,),
        )
    for a, b in itertools.product((0, 1, 0b1100, (1 << 64) - 1), repeat=2):
        cpu = new_processor()
        cpu.vectors[1][:2], cpu.vectors[2][:2] = [a, 0], [b, 0]
        TABLE["vptest", "xx"][1](cpu, instruction("vptest", Register("xmm1"), Register("xmm2")))
        expect(cpu.condition("e"), a & b == 0, f"common bits of {a:#x} and {b:#x}")
        cpu.vectors[1][:2], cpu.vectors[2][:2] = [0, a], [0, b]
        TABLE["vptest", "xx"][1](cpu, instruction("vptest", Register("xmm1"), Register("xmm2")))
        expect(cpu.condition("e"), a & b == 0, f"common bits of {a:#x} and {b:#x}")
        refuses(lambda: cpu.condition("b"), "the carry of vptest", (Unsupported,))


def other_results(_):
    """Tests vptest, shifts by one, signs of bytes, and what is refused of terms."""
    cpu: Any
    key: Any
    name: Any
    operands: Any
    for name, key, operands in (
        ("shl", "q", []),
        ("shl", "iq", [Immediate(1)]),
        ("shr", "q", []),
        ("shr", "iq", [Immediate(65)]),
    ):
        cpu = new_processor()
        cpu.registers["rax"] = 0x8000000000000001
        TABLE[name, key][1](cpu, instruction(name, *operands, RAX))
        expect(cpu.registers["rax"], 2 if name == "shl" else 1 << 62, f"{name} by one")
    refuses(lambda: TABLE["ud2", ""][1](new_processor(), instruction("ud2")), "ud2", (Unsupported,))
    for byte, expected in ((0, 0), (127, 127), (128, 0xFFFFFF80), (255, 0xFFFFFFFF)):
        cpu = new_processor()
        cpu.registers["rbx"] = byte
        TABLE["movsbl", "bl"][1](cpu, instruction("movsbl", Register("bl"), Register("eax")))
        expect(cpu.registers["rax"], expected, f"the byte {byte} with its sign")
    cpu.registers["rbx"] = symbol("x64", 64)
    for name, operands in (("movsbl", (Register("bl"), Register("eax"))),):
        refuses(lambda: TABLE[name, "bl"][1](cpu, instruction(name, *operands)), "the sign of a term", (Unsupported,))
    cpu.registers["rcx"] = symbol("x64", 64)
    for name, key, operands in (
        ("shlx", "qqq", [Register("rcx"), Register("rbx"), RAX]),
        ("shl", "bq", [Register("cl"), RAX]),
    ):
        refuses(lambda: TABLE[name, key][1](cpu, instruction(name, *operands)), "a shift by a term", (Unsupported,))


def equal_operands(_):
    """Tests results of a term with itself, and masks of addresses and numbers."""
    x, n = symbol("x64", 64), variable("n")
    for name, expected in (("xor", 0), ("sub", 0), ("or", x), ("and", x), ("cmp", None), ("test", None)):
        cpu = new_processor()
        cpu.registers["rax"] = x
        cpu.not_zero = [x]
        TABLE[name, "qq"][1](cpu, instruction(name, RAX, RAX))
        expect(
            cpu.registers["rax"] is (x if expected is None else expected) or cpu.registers["rax"] == 0 == expected,
            True,
            f"{name} of a term with itself",
        )
        expect(cpu.condition("e"), name in ("xor", "sub", "cmp"), f"the zero flag of {name}")
    for name, other in (("xor", "rbx"), ("sub", "rbx")):
        cpu = new_processor()
        cpu.registers.update(rax=x, rbx=5)
        TABLE[name, "qq"][1](cpu, instruction(name, Register(other), RAX))
        expect(
            value_of(cpu.registers["rax"]),
            x.values[0] ^ 5 if name == "xor" else (x.values[0] - 5) % (1 << 64),
            f"{name} of two",
        )
    with given(at_most(n, 1000)):
        cpu = new_processor()
        cpu.registers["rax"] = plus(times(64, n), 5)
        TABLE["and", "il"][1](cpu, instruction("and", Immediate(63), Register("eax")))
        expect(is_same_number(cpu.registers["rax"], 5), True, "the low bits of a number")
        cpu.registers["rax"] = n
        TABLE["test", "qq"][1](cpu, instruction("test", RAX, RAX))
        refuses(lambda: cpu.condition("e"), "a number that may be 0")
        TABLE["not", "q"][1](cpu, instruction("not", RAX))
        expect(is_same_number(cpu.registers["rax"], minus((1 << 64) - 1, n)), True, "a complement")
    for name, is_moved in (("cmovb", True), ("cmovae", False)):
        cpu = new_processor()
        cpu.registers.update(rax=1, rbx=2)
        cpu.set_flags("sub", 64, 1, 2, None)
        TABLE[name, "qq"][1](cpu, instruction(name, Register("rbx"), RAX))
        expect(cpu.registers["rax"], 2 if is_moved else 1, name)
        TABLE["setb", "b"][1](cpu, instruction("setb", Register("al")))
        expect(cpu.registers["rax"] & 255, 1, "setb")
    for name in ("jb", "jae"):
        found = TABLE[name, ""][1](cpu, instruction(name, target=("f", 40)))
        expect(found == (("f", 40) if name == "jb" else None), True, name)


def conditional_moves(_):
    """Tests conditional moves, jumps, calls, quotients and rotations."""
    x = symbol("x64", 64)
    cpu = new_processor()
    expect(
        TABLE["call", ""][1](cpu, instruction("call", target=("g", 0), at=8)) == ("g", 0)
        and cpu.pop() == ReturnTo("f", 12),
        True,
        "a call",
    )
    expect(TABLE["jmp", ""][1](cpu, instruction("jmp", target=("g", 4))) == ("g", 4), True, "a jump")
    for above, a, b in ((0, 100, 7), (5, 100, 7), (0, 100, 0)):
        cpu = new_processor()
        cpu.registers.update(rdx=above, rax=a, rcx=b)
        ask = lambda: TABLE["div", "l"][1](cpu, instruction("div", Register("ecx")))
        if above or not b:
            refuses(ask, f"a quotient of {above}, {a} and {b}", (Unsupported,))
        else:
            ask()
            expect((cpu.registers["rax"], cpu.registers["rdx"]) == (14, 2), True, "a quotient and a remainder")
    for k in (0, 1, 31, 32, 63, 64):
        for width, name in ((32, "eax"), (64, "rax")):
            value = 0x123456789ABCDEF1 % (1 << width)
            found = scalar.side_shifted(width, value, value, k % width)
            expect(
                found,
                (value << k % width | value >> width - k % width) % (1 << width) if k % width else value,
                f"a rotation of {name}",
            )
    expect(
        is_same(
            scalar.turned(x, 64), operations.side_by_side(*((operations.bits(x, 56 - 8 * k, 8), 8) for k in range(8)))
        ),
        True,
        "bytes in reverse order",
    )


ALL = [
    calls_of_functions,
    functions_of_programs,
    steps,
    stack_pointers,
    aligned_places,
    parts_of_registers,
    lanes_of_vectors,
    stores,
    outer_calls,
    places_of_outer_calls,
    carries,
    other_results,
    equal_operands,
    conditional_moves,
]
