"""Tests of the processor's parts that every instruction uses: registers, addresses, the stack, calls of another
library.

Expected values are those of the processor's manual and of the calling convention."""
import types
from typing import Any

from oracle.machine_code import lanes, processor, scalar
from oracle.machine_code.memory import ENTRY, RED, Constants, Numbers, OnlyRead, ReturnTo, Stack, WordMemory
from oracle.machine_code.objects import Immediate, Instruction, Place, Register
from oracle.machine_code.values import address
from oracle.symbolic_terms import at_most, given, nodes, operations, symbol, variable

from .values import Wrong, expect, refuses, value_of

assert lanes and scalar  # imported because they fill the table of instructions
RAX, RBX = 0x1122334455667788, 0x99AABBCCDDEEFF00


def instruction(
    mnemonic: str,
    *operands: Immediate | Place | Register,
    target: tuple[str, int] | None = None,
    at: int = 0,
    size: int = 4,
) -> Instruction:
    return Instruction("f", at, at + size, mnemonic, operands, target)


def new_processor(*code: Instruction) -> processor.Processor:
    """Returns a processor with a program of one function, with a stack, whose registers are numbers."""
    program = types.SimpleNamespace(
        constants={"c": (bytes(range(32)), 16)},
        sections={"f": {x.at: x for x in code}},
        functions={},
        function=lambda name: ("f", 0),
        exports={},
    )
    cpu = processor.Processor(program, "x86-64-v3")
    cpu.registers = {name: k for k, name in enumerate(processor.WIDE)}
    cpu.registers.update(rax=RAX, rbx=RBX)
    cpu.stack = Stack()
    cpu.registers["rsp"] = address(cpu.stack, ENTRY - 256)
    cpu.forget_vectors()
    cpu.forget_flags()
    return cpu


def registers(rng):
    """Reads and writes parts of registers."""
    x = instruction("mov")
    for name, width, expected in (
        ("al", 8, 0x88),
        ("ah", 8, 0x77),
        ("ax", 16, 0x7788),
        ("eax", 32, 0x55667788),
        ("rax", 64, RAX),
    ):
        expect(new_processor().get(Register(name), width, x), expected, f"the register {name}")
    for name, value, expected in (
        ("al", 0xAB, RAX & ~0xFF | 0xAB),
        ("ax", 0xABCD, RAX & ~0xFFFF | 0xABCD),
        ("eax", 0xABCDEF01, 0xABCDEF01),
        ("rax", 5, 5),
    ):
        cpu = new_processor()
        cpu.put(Register(name), {"al": 8, "ax": 16, "eax": 32, "rax": 64}[name], value, x)
        expect(cpu.registers["rax"], expected, f"a write of {name}")
    refuses(lambda: new_processor().put(Register("ah"), 8, 1, x), "a write of a second byte")
    cpu, place = new_processor(), WordMemory("room", 16, alignment=8)
    cpu.registers["rcx"] = address(place, 3)
    cpu.put(Register("cl"), 8, 7, x)
    if not isinstance(cpu.registers["rcx"], nodes.Node):
        raise Wrong("a byte in place of an address")
    expect(cpu.registers["rcx"].values[0] & 255, 7, "a byte of what was an address")
    n = variable("n")
    with given(at_most(n, 200)):
        cpu.registers["rdx"] = n
        cpu.put(Register("dl"), 8, 9, x)
        expect(cpu.registers["rdx"], 9, "a byte in place of a number of one byte")
    with given(at_most(n, 300)):
        cpu.registers["rdx"] = n
        cpu.put(Register("dl"), 8, 9, x)
        found = cpu.registers["rdx"]
        for k in range(nodes.POINTS):
            expect(value_of(found, k) & ~255, symbol("n", 64).values[k] & ~255 & (1 << 64) - 1, "the bits above a byte")
    term = symbol("a64", 64)
    cpu.registers["rax"] = term
    cpu.put(Register("ax"), 16, 0x1234, x)
    expect(value_of(cpu.registers["rax"]), term.values[0] & ~0xFFFF | 0x1234, "the bits above two bytes")
    expect(new_processor().get(Immediate(-1 % (1 << 64)), 32, x), 0xFFFFFFFF, "a number of 32 bits")
    for found, expected in (
        (new_processor().width(instruction("mov", Register("al"), Register("ecx"))), 32),
        (new_processor().width(instruction("movq", Immediate(1), Place(0, "rsp", None, 1))), 64),
        (new_processor().width(instruction("movl", Immediate(1), Place(0, "rsp", None, 1))), 32),
        (new_processor().width(instruction("add", Register("rcx"), Place(0, "rsp", None, 1))), 64),
    ):
        expect(found, expected, "the width of operands")
    expect(new_processor().whole(Register("eax")), RAX, "a whole register")
    expect(
        new_processor().whole(Register("ah")) is None and new_processor().whole(Immediate(3)) is None,
        True,
        "no whole register",
    )


def addresses(rng):
    """Computes addresses, and refuses places that a call may not use."""
    cpu: Any
    memory: Any
    x: Any
    cpu, x, buffer = (
        new_processor(),
        instruction("mov"),
        WordMemory("room", 64, [(k, 1, k) for k in range(64)], alignment=16),
    )
    cpu.registers.update(rdi=address(buffer, 8), rsi=4)
    for place, at in (
        (Place(0, "rdi", None, 1), 8),
        (Place(5, "rdi", None, 1), 13),
        (Place(-8, "rdi", None, 1), 0),
        (Place(1, "rdi", "rsi", 1), 13),
        (Place(1, "rdi", "rsi", 8), 41),
    ):
        found, offset = cpu.place(place, x)
        expect(found is buffer and offset == at, True, f"the place {place}")
    expect(cpu.get(Place(5, "rdi", None, 1), 16, x), 13 | 14 << 8, "a load")
    cpu.put(Place(5, "rdi", None, 1), 16, 0x1234, x)
    expect(buffer.load(13, 2), 0x1234, "a store")
    expect(
        cpu.effective(Place(0, "rip", None, 1), instruction("lea", target=("c", 4))).place()[1],
        4,
        "the place of a constant",
    )
    refuses(
        lambda: cpu.effective(Place(0, "rip", None, 1), instruction("lea", target=("g", 4))), "the place of no constant"
    )
    for place, alignment, holds in (
        (Place(8, "rdi", None, 1), 16, True),
        (Place(0, "rdi", None, 1), 16, False),
        (Place(0, "rdi", None, 1), 8, True),
        (Place(8, "rdi", None, 1), 32, False),
    ):
        cpu.place(place, x, alignment) if holds else refuses(
            lambda: cpu.place(place, x, alignment), f"{place} as a multiple of {alignment}"
        )
    for at, holds in ((0, True), (-RED, True), (-RED - 1, False), (-RED - 8, False)):
        place = Place(at, "rsp", None, 1)
        cpu.place(place, x) if holds else refuses(lambda: cpu.place(place, x), "a place below the red zone")
    refuses(lambda: cpu.place(Place(0, "rax", None, 1), x), "a number as a place")
    refuses(lambda: cpu.place(Place(0, None, None, 1), x), "a number as a place")
    for memory in (Constants("d", b"12345678", 8), OnlyRead("o", 8, [(0, 8, 1)]), Numbers("m", b"12345678")):
        cpu.registers["rdi"] = address(memory)
        refuses(lambda: cpu.put(Place(0, "rdi", None, 1), 64, 1, x), f"a store to {memory.name}")
    cpu.loops, cpu.live = types.SimpleNamespace(heads=lambda section: ()), [buffer]
    cpu.registers["rdi"] = address(buffer)
    cpu.put(Place(0, "rdi", None, 1), 64, 1, x)
    cpu.put(Place(0, "rsp", None, 1), 64, 1, x)
    cpu.live = [WordMemory("other", 8)]
    refuses(
        lambda: cpu.put(Place(0, "rdi", None, 1), 64, 1, x), "a store to an object that a loop's proof doesn't know"
    )


def stack(rng):
    """Pushes, pops and moves the stack pointer: what lies below the red zone is lost."""
    cpu = new_processor()
    cpu.push(5)
    expect(cpu.stack_pointer(), ENTRY - 264, "the stack pointer after a push")
    cpu.push(6)
    expect(cpu.pop(), 6, "a pop")
    expect(cpu.pop(), 5, "a pop")
    expect(cpu.stack_pointer(), ENTRY - 256, "the stack pointer after a pop")
    cpu = new_processor()
    for at in range(0, 256, 8):
        cpu.stack.store(ENTRY - 512 + at, 8, at)
    cpu.move_stack(address(cpu.stack, ENTRY - 256))
    expect(cpu.stack.load(ENTRY - 256 - RED, 8), 256 - RED, "a word in the red zone")
    refuses(lambda: cpu.stack.load(ENTRY - 256 - RED - 8, 8), "a word below the red zone")
    for to in (address(WordMemory("room", 512), 8), address(cpu.stack, variable("n"))):
        refuses(lambda: cpu.move_stack(to), "another stack")
    refuses(lambda: cpu.move_stack(5), "a number as the stack")
    cpu = new_processor()
    cpu.push(ReturnTo("f", 4))
    refuses(lambda: cpu.get(Place(0, "rsp", None, 1), 64, instruction("mov")), "a place to return to as a value")
    expect(cpu.frame()[1], ENTRY - 256, "the caller's frame")


def calls(rng):
    """Runs small functions, calls of another library, and endings."""
    cpu = new_processor(instruction("ret"))
    expect(cpu.call("f", 3, 4)[0].__class__ is nodes.Node, True, "a register that a call leaves")
    expect(cpu.registers["rdi"], 3, "the first argument")
    expect(cpu.registers["rsi"], 4, "the second argument")
    cpu.call("f", (7, 32))
    expect(value_of(operations.bits(cpu.registers["rdi"], 0, 32)), 7, "an argument of 32 bits")
    expect(cpu.registers["rdi"] != 7 if isinstance(cpu.registers["rdi"], int) else True, True, "bits above an argument")
    for name in ("rbx", "rbp", "r12", "r13", "r14", "r15"):
        refuses(
            lambda: new_processor(instruction("mov", Immediate(1), Register(name)), instruction("ret", at=4)).call("f"),
            f"a call that changes {name}",
        )
    for name in ("rax", "rcx", "rdx", "rsi", "rdi", "r8", "r11"):
        new_processor(instruction("mov", Immediate(1), Register(name)), instruction("ret", at=4)).call("f")
    refuses(lambda: new_processor(instruction("nop")).call("f"), "a function that goes on behind its end")
    refuses(lambda: new_processor(instruction("jmp", target=("f", 2))).call("f"), "a jump into an instruction")
    refuses(lambda: new_processor(instruction("jmp", target=("g", 0))).call("f"), "a jump to no section")
    cpu = new_processor(instruction("jmp", target=("f", 0)))
    cpu.limit = 50
    refuses(lambda: cpu.call("f"), "a call without end")
    refuses(
        lambda: new_processor(instruction("push", Register("rax")), instruction("ret", at=4)).call("f"),
        "a return to a value",
    )
    refuses(
        lambda: new_processor(instruction("pop", Register("rax")), instruction("ret", at=4)).call("f"),
        "a place to return to that is lost",
    )
    refuses(
        lambda: new_processor(instruction("vmovdqa", Register("ymm1"), Register("ymm2"))).call("f"),
        "a vector that isn't set",
    )
    to: Any
    for name, source in (
        ("memcpy", Numbers("m", bytes(range(100, 132)))),
        ("memmove", Numbers("m", bytes(range(100, 132)))),
        ("memset", None),
    ):
        cpu, to = new_processor(), WordMemory("to", 64, alignment=8)
        cpu.push(ReturnTo("f", 4))
        cpu.registers.update(rdi=address(to, 8), rsi=0x141 if source is None else address(source, 4), rdx=16)
        before = dict(cpu.registers)
        place = processor.call_of_outer(name, cpu, None)
        expect(place == ReturnTo("f", 4), True, "the place after a call")
        for k in range(16):
            expect(value_of(to.load(8 + k, 1)), 0x41 if source is None else 104 + k, f"a byte by {name}")
        expect(cpu.registers["rax"].place() == (to, 8), True, "the result of a call")
        for register in processor.WIDE:
            is_saved = register in ("rbx", "rbp", "r12", "r13", "r14", "r15")
            if register not in ("rax", "rsp") and (cpu.registers[register] is before[register]) != is_saved:
                raise Wrong(f"{register} after a call of another library")
    cpu = new_processor()
    cpu.registers.update(rdi=address(WordMemory("to", 64)), rsi=address(Numbers("m", bytes(16))), rdx=16)
    refuses(lambda: processor.call_of_outer("memcpy", cpu, None), "a call with the stack at no multiple of 16")
    cpu.push(ReturnTo("f", 4))
    for to in (address(cpu.stack, ENTRY - 512), address(Numbers("n", bytes(64))), address(cpu.stack, ENTRY - 264)):
        cpu.registers.update(rdi=to)
        refuses(lambda: processor.call_of_outer("memcpy", cpu, None), "a copy to what a call may not write")


def saved_values(rng):
    """Compares the operators of terms and the callee-saved registers."""
    x, byte = symbol("a64", 64), operations.bits(symbol("a64", 64), 0, 8)
    for what, found, expected in (
        ("<", byte < 256, True),
        ("<=", byte <= 255, True),
        (">", byte > 255, False),
        (">=", byte >= 256, False),
        ("==", x == x, True),
        ("!=", x != x, False),
        ("> of numbers", 256 > byte, True),
        ("<= of a number", 256 <= byte, False),
    ):
        expect(found, expected, f"{what} of terms")
    for what, found, expected in (
        ("+", x + 5, (x.values[0] + 5)),
        ("* of a number", 3 * x, 3 * x.values[0]),
        ("^", x ^ 5, x.values[0] ^ 5),
        ("<<", x << 3, x.values[0] << 3),
        (">>", x >> 3, x.values[0] >> 3),
        ("%", x % 256, x.values[0] % 256),
        ("&", x & 255, x.values[0] & 255),
        ("//", x // 8, x.values[0] // 8),
        ("|", byte | 256, byte.values[0] | 256),
    ):
        expect(value_of(found), expected, f"{what} of terms")
    expect(operations.is_equal(x, x), True, "a term that is itself")
    cpu = new_processor()
    cpu.expect_unchanged({"rbx": cpu.registers["rbx"]})
    refuses(
        lambda: cpu.expect_unchanged({"rbx": symbol("other", 64)}), "another value of a register that is the caller's"
    )


ALL = [registers, addresses, stack, calls, saved_values]
