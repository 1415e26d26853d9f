"""Runs an x86-64 program symbolically, from a function's first instruction to its return.

Branches, addresses and lengths are numbers, or polynomials that the facts decide; words are terms. Everything unknown
at the start is a fresh symbol for each call: registers without an argument, and the upper half of a 32-bit argument.
The flags are unset. Errors are: an address outside of the passed objects, a load of a byte that was never stored, a
store to read-only memory, a branch on a symbol, and a form of an instruction that the table lacks."""
import functools
from typing import Any, Callable

from oracle.symbolic_terms import Unsupported, is_natural, is_number, is_same_number, minus, ones

from . import flags
from .instructions import PARTS, VECTORS, WIDE, known
from .object_contents import OUTER
from .memory import ENTRY, RED, Constants, ReturnTo, Stack, WordMemory, copy, fill
from .objects import Immediate, Register
from .streams import ForC
from .values import WORD, Address, Names, address, arithmetic, bits, joined, low, place_of

CALLEE_SAVED = "rbx", "rbp", "r12", "r13", "r14", "r15"          # callee-saved registers
ARGUMENTS = "rdi", "rsi", "rdx", "rcx", "r8", "r9"
OUT = "return"
LANES = 8                         # lanes of a vector, 64 bits each
VECTORS_COUNT = 32
NO_LIMIT = 1 << 24                # instructions of a call


class Runner(Names):
    """Runs a program on a processor, which a subclass models. `not_zero` has terms assumed to be nonzero; `loops` is
    called at each possible loop head, and `live` has the objects that calls may write to then; `used` has the executed
    instructions; `limit` is the maximum per call. `replaced` maps a function's place to Python's function for it."""

    library: Any = ForC           # calls the exports
    registers: dict
    stack: Stack
    step: Callable
    STACK_POINTER: str
    TOGETHER: tuple[int, ...] = 1,        # possible numbers of XXH32's accumulators in a cell
    LIMIT_OF_CASE = 30_000        # instructions of a case: beyond, a loop runs that the induction should cover

    def __init__(self, program):
        self.program = program
        self.constants: dict = {key: Constants(key, *x) for key, x in program.constants.items()}
        self.not_zero, self.loops, self.live, self.replaced = [], None, [], {}
        self.used, self.limit, self.count = set(), NO_LIMIT, 0

    def run(self, place):
        """Runs from a place to the return from the first function."""
        while place is not None:
            if self.loops:
                place = self.loops.pass_by(self, place)
            place = self.step(place)

    def expect_unchanged(self, saved):
        """Checks the callee-saved registers."""
        for register, x in saved.items():
            if self.registers[register] is not x:
                raise Unsupported(f"{register} isn't the caller's at the end")

    def argument(self, where):
        """Returns a register's value at a function's first instruction."""
        return self.registers[where]

    def stack_pointer(self):
        return self.registers[self.STACK_POINTER].place()[1]

    def expect_writable(self, memory):
        """Checks a store's object: writable, and during a loop's proof the stack or an object of `live`."""
        is_known = not self.loops or memory is self.stack or any(memory is other for other in self.live)
        if not isinstance(memory, WordMemory) or not is_known:
            raise Unsupported(f"a store to {memory.name}")

    def store(self, memory, at, n, x):
        self.expect_writable(memory)
        memory.store(at, n, x)


class Processor(Runner):
    """An x86-64 processor with an instruction set's name."""

    ARGUMENTS, STACK_POINTER, new_stack = ARGUMENTS, "rsp", Stack
    TAKES_STRIPES = ARGUMENTS     # argument registers of a function that takes stripes

    known = staticmethod(known)       # returns an instruction's function

    def __init__(self, program, name):
        super().__init__(program)
        self.name = name
        self.code = {section: {at: (self.known(x, name), x) for at, x in code.items()}
                     for section, code in program.sections.items()}
        for outer in OUTER:
            self.code[outer] = {0: (functools.partial(call_of_outer, outer), None)}

    def change(self, instruction):
        """Replaces the instruction at its place."""
        self.code[instruction.section][instruction.at] = self.known(instruction, self.name), instruction

    # ---- calls

    def call(self, name, *arguments, into=ARGUMENTS):
        """Calls a function with the C calling convention. Returns rax and rdx. An argument is a number, a term or an
        address, or (value, 32) with an unconstrained upper half of the register."""
        self.registers = {name: self.fresh(name) for name in WIDE}
        self.forget_vectors()
        self.flags = self.carry = None
        self.stack, self.count = self.new_stack(), 0
        self.registers["rsp"] = address(self.stack, ENTRY)
        self.push(ReturnTo(OUT, 0))
        for where, x in zip(into, arguments):
            if isinstance(x, tuple):
                value, width = x
                x = joined((value, width), (self.fresh(where, WORD - width), WORD - width))
            self.registers[where] = x
        saved = {name: self.registers[name] for name in CALLEE_SAVED}
        self.run(self.program.function(name))
        self.expect_unchanged(saved)         # a return checks the stack pointer: its address is at one place only
        return self.registers["rax"], self.registers["rdx"]

    @staticmethod
    def unset_lane():
        return None

    def forget_vectors(self):
        """Makes all lanes unset: a lane must be written before it is read."""
        self.vectors = [[None] * LANES for _ in range(VECTORS_COUNT)]

    def step(self, place):
        """Runs from a place to the next jump or possible loop head. Returns the place reached, or None at the end."""
        section, at = place
        if place in self.replaced:
            to = self.replaced[place]()
            return None if to[0] == OUT else to
        code, heads = self.code.get(section), self.loops.heads(section) if self.loops else ()
        while True:
            if code is None or at not in code:
                raise Unsupported(f"no instruction at {at:#x} of {section}")
            operation, instruction = code[at]
            self.count += 1
            if self.count > self.limit:
                raise Unsupported("too many instructions")
            self.used.add((section, at))
            to = operation(self, instruction)
            if to is not None:
                return None if to[0] == OUT else to
            at = instruction.end
            if at in heads:
                return section, at

    # ---- the stack

    def frame(self):
        """Returns the stack, and the offset of the caller's frame, at a function's first instruction."""
        memory, at = self.registers["rsp"].place()
        return memory, at + 8

    def return_from_another(self):
        """Returns from an external function. Clobbers caller-saved registers and everything below the stack pointer."""
        memory, at = self.registers["rsp"].place()
        memory.forget_below(at)
        for register in WIDE:
            if register not in CALLEE_SAVED and register != "rsp":
                self.registers[register] = self.fresh(register)
        self.forget_vectors()
        self.forget_flags()
        return self.pop()

    def push(self, x):
        self.registers["rsp"] = arithmetic("sub", WORD, self.registers["rsp"], 8)
        memory, at = self.registers["rsp"].place()
        memory.store(at, 8, x)

    def pop(self):
        memory, at = self.registers["rsp"].place()
        x = memory.load(at, 8)
        self.move_stack(arithmetic("add", WORD, self.registers["rsp"], 8))
        return x

    def move_stack(self, to):
        """Sets the stack pointer, and forgets the memory below the red zone: a signal handler may write there."""
        memory, at = place_of(to)
        if memory is not self.stack or not isinstance(at, int):
            raise Unsupported("another stack")
        memory.forget_below(at - RED)
        self.registers["rsp"] = to

    # ---- addresses

    def effective(self, place, instruction):
        """Returns the address of a memory operand."""
        if place.base == "rip":
            name, at = instruction.target
            if name not in self.constants:
                raise Unsupported(f"an address in {name}")
            return address(self.constants[name], at)
        out = place.displacement % (1 << WORD)
        if place.base:
            out = arithmetic("add", WORD, self.registers[place.base], out)
        if place.index:
            index = arithmetic("mul", WORD, self.registers[place.index], place.scale) if place.scale > 1 \
                else self.registers[place.index]
            out = arithmetic("add", WORD, out, index)
        return out

    def place(self, operand, instruction, alignment=1) -> tuple[Any, Any]:
        """Returns the object and the offset of a memory operand. Checks the alignment."""
        memory, at = place_of(self.effective(operand, instruction))
        if memory is self.stack and not (isinstance(at, int) and at >= self.registers["rsp"].place()[1] - RED):
            raise Unsupported("a place below the stack")
        is_aligned = not memory.alignment % alignment and isinstance(at, int) and not (at + memory.residue) % alignment
        if alignment > 1 and not is_aligned:
            raise Unsupported(f"a place in {memory.name} that may not be a multiple of {alignment}")
        return memory, at

    def load(self, memory, at, n):
        x = memory.load(at, n)
        if isinstance(x, ReturnTo):
            raise Unsupported("a place to return to as a value")
        return x

    # ---- operands

    def width(self, instruction):
        """Returns the operands' width in bits: the last register operand's, or the mnemonic's."""
        for operand in reversed(instruction.operands):
            if isinstance(operand, Register) and operand.name in PARTS:
                return PARTS[operand.name][2]
        return {"b": 8, "w": 16, "l": 32, "q": 64}[instruction.mnemonic[-1]]

    def get(self, operand, width, instruction):
        if isinstance(operand, Register):
            name, first, n = PARTS[operand.name]
            return bits(self.registers[name], first, n) if first else low(self.registers[name], n)
        if isinstance(operand, Immediate):
            return operand.value & ones(width)
        return self.load(*self.place(operand, instruction), width // 8)

    def whole(self, operand):
        """Returns the value of the register whose low bits an operand is, or None."""
        name, first, _ = PARTS[operand.name] if isinstance(operand, Register) else (None, 1, 0)
        return None if first else self.registers[name]

    def put(self, operand, width, x, instruction):
        if isinstance(operand, Register):
            self.put_register(*PARTS[operand.name], x)
        else:
            self.store(*self.place(operand, instruction), width // 8, x)

    def put_register(self, name, first, width, x):
        """Writes a register. A write of 32 bits clears the upper half; a narrower one keeps the bits above it."""
        old = self.registers[name]
        if first:
            raise Unsupported("a store to a second byte")
        if width < 32 and not (is_number(old) and is_natural(old) and is_natural(minus(ones(width), old))):
            above = self.fresh("bits of an address", WORD - width) if isinstance(old, Address) else \
                bits(old, width, WORD - width)
            x = joined((x, width), (above, WORD - width))
        if name == "rsp":
            self.move_stack(x)
        self.registers[name] = x

    def lanes(self, operand, count=1, first=0):
        """Returns lanes of a vector. Raises if one is unset."""
        found = self.vectors[VECTORS[operand.name]][first:first + count]
        if any(x is None for x in found):
            raise Unsupported(f"%{operand.name}, which isn't set")
        return found

    # ---- flags

    def set_flags(self, *what):
        self.flags = self.carry = flags.Flags(*what)

    def forget_flags(self):
        self.flags = self.carry = None

    def condition(self, name):
        return flags.condition(self, name)


def call_of_outer(name: str, cpu: Processor, _: None) -> ReturnTo:
    """Runs a call of memcpy, memmove or memset of another library."""
    to, source, n = (cpu.registers[name] for name in ARGUMENTS[:3])
    memory, at = cpu.registers["rsp"].place()
    if (at + 8) % 16:
        raise Unsupported("a call with the stack at no multiple of 16")
    memory.forget_below(at)
    if not is_same_number(n, 0):
        target, first = place_of(to)
        cpu.expect_writable(target)
        if target is memory and not is_natural(minus(first, at + 8)):
            raise Unsupported("a copy to what lies below the stack")
    if name == "memset":
        fill(to, low(source, 8), n)
    else:
        copy(to, source, n, name == "memmove")
    place = cpu.return_from_another()
    cpu.registers["rax"] = to
    return place
