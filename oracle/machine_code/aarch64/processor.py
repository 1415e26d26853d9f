"""Runs a program for 64-bit ARM symbolically, from a function's first instruction to its return, like ../processor.py
for x86-64. A call leaves the return address in a register."""
import operator
from typing import Any, Callable

from oracle.symbolic_terms import TESTS, Undecided, Unsupported, is_number, is_same_number, plus, signed

from ..flags import is_below, is_equal
from ..memory import ENTRY, Stack, WordMemory, copy, fill
from ..object_contents import OUTER
from ..processor import Runner
from ..values import WORD, Address, address, arithmetic, is_term, joined, low, place_of

TABLE = {}  # (mnemonic, form) -> function
SIGNED = {"ge": operator.ge, "lt": operator.lt, "gt": operator.gt, "le": operator.le}
RETURN = "return"  # return address of the first function


class ReturnTo:
    """Return address of a function."""

    def __init__(self, section, at):
        self.place = section, at

    def __getattr__(self, name):
        raise Undecided("a place to return to as a number")


class Page:
    """The page of an address, or the upper part of its distance. The low bits of the same address complete it."""

    def __init__(self, target):
        self.target = target

    def __getattr__(self, name):
        raise Undecided("a page as a number")


def form(mnemonics: str, forms: str) -> Callable:
    """Returns a decorator that adds a function to the table for some mnemonics, each with comma-separated forms. It
    takes the processor, the instruction and the operands."""

    def put(function):
        def run(cpu, x):
            return function(cpu, x, *x.operands)

        for mnemonic in mnemonics.split():
            for one in map(str.strip, forms.split(",")):
                TABLE[mnemonic, one] = run
        return function

    return put


class Processor(Runner):
    """A processor. `changed` has replaced instructions."""

    REGISTERS = [f"x{k}" for k in range(31)]
    ARGUMENTS, SCRATCH = REGISTERS[:8], REGISTERS[:19]
    CALLEE_SAVED = REGISTERS[19:]  # callee-saved registers, and the one for the return address
    LINK, STACK_POINTER = "x30", "sp"
    VECTORS, CALLEE_SAVED_LANES = 32, range(8, 16)  # number of vectors, and those whose lower lane is callee-saved
    TAKES_STRIPES = ARGUMENTS[:6]  # of a function that takes stripes and returns a record
    TOGETHER = 1, 2
    flags: Any
    carry = None  # unused: `flags` includes the carry
    has_moved = False  # whether an instruction moved the stack pointer

    def __init__(self, program):
        super().__init__(program)
        self.changed = {}

    def change(self, instruction):
        """Replaces the instruction at its place."""
        self.changed[instruction.section, instruction.at] = instruction

    def unset_lane(self):
        return self.fresh("a lane")

    def forget_flags(self):
        self.flags = None

    # ---- calls

    def call(self, name, *arguments, into=ARGUMENTS):
        """Calls a function with the C calling convention. Returns x0 and x1. An argument is a number, a term or an
        address, or (value, 32) with an unconstrained upper half of the register."""
        self.prepare()
        for register, x in zip(into, arguments):
            value, width = x if isinstance(x, tuple) else (x, WORD)
            self.registers[register] = value if width == WORD else joined((value, 32), (self.fresh(register, 32), 32))
        saved, self.count = {name: self.registers[name] for name in self.CALLEE_SAVED}, 0
        lanes = {k: self.vectors[k][0] for k in self.CALLEE_SAVED_LANES}
        self.run(self.program.function(name))
        self.expect_unchanged(saved)
        if any(self.vectors[k][0] is not x for k, x in lanes.items()):
            raise Unsupported("a vector isn't the caller's at the end")
        if self.registers["sp"].place() != (self.stack, ENTRY):
            raise Unsupported("the stack isn't the caller's at the end")
        return self.registers["x0"], self.registers["x1"]

    def prepare(self):
        """Resets the state to an unconstrained one."""
        self.registers = {name: self.fresh(name) for name in self.REGISTERS}
        self.vectors = [[self.fresh(f"v{k}"), self.fresh(f"v{k}")] for k in range(self.VECTORS)]
        self.flags, self.stack = None, Stack()
        self.registers["sp"] = address(self.stack, ENTRY)

    def step(self, place):
        section, at = place
        self.count += 1
        if self.count > self.limit:
            raise Unsupported("too many instructions")
        if place in self.replaced:
            return self.replaced[place]()
        if section in OUTER:
            return self.call_outer(section)
        x = self.changed.get(place) or self.program.sections.get(section, {}).get(at)
        if x is None:
            raise Unsupported(f"no instruction at {at:#x} of {section}")
        function = TABLE.get((x.mnemonic, x.form))
        if function is None:
            raise Unsupported(f"{section} {at:#x}: the table has no {x.mnemonic} {x.form}")
        self.used.add(place)
        to = function(self, x)
        if self.has_moved:
            self.give_back()
        return (section, x.end) if to is None else None if to == RETURN else to

    def call_outer(self, name):
        """Runs memcpy, memmove or memset of another library: copies or fills, and clobbers the caller-saved registers
        and everything below the stack pointer."""
        to, source, n = (self.registers[register] for register in self.ARGUMENTS[:3])
        memory, at = self.registers["sp"].place()
        memory.forget_below(at)
        if not is_same_number(n, 0):
            target, first = place_of(to)
            if not isinstance(target, WordMemory) or target is memory and not (isinstance(first, int) and first >= at):
                raise Unsupported(f"a copy to {target.name}")
        fill(to, source, n) if name == "memset" else copy(to, source, n, name == "memmove")
        place = self.return_from_another()
        self.registers[self.ARGUMENTS[0]] = to
        return place

    def give_back(self):
        """Clobbers all below a moved stack pointer: a signal handler may write there."""
        memory, at = self.registers["sp"].place()
        memory.forget_below(at)
        self.has_moved = False

    def frame(self):
        """Returns the stack, and the offset of the caller's frame, at a function's first instruction."""
        return self.registers["sp"].place()

    def return_from_another(self):
        """Returns from an external function. Clobbers caller-saved registers and everything below the stack pointer."""
        memory, at = self.registers["sp"].place()
        memory.forget_below(at)
        self.registers.update({name: self.fresh(name) for name in self.SCRATCH})
        for k, lanes in enumerate(self.vectors):
            self.vectors[k] = [lanes[0] if k in self.CALLEE_SAVED_LANES else self.fresh(f"v{k}"), self.fresh(f"v{k}")]
        self.flags = None
        return self.return_place()

    def return_place(self):
        """Returns the return address, or None for the first function's."""
        link = self.registers[self.LINK]
        return link.place if isinstance(link, ReturnTo) else None

    # ---- registers

    def get(self, register):
        if register.name == "xzr":
            return 0
        value = self.registers[register.name]
        return value if register.width == WORD else low(value, register.width)

    def put(self, register, value):
        if register.name == "xzr":
            return
        if register.name == "sp":
            memory, at = value.place() if isinstance(value, Address) else (None, 1)
            if memory is not self.stack or not isinstance(at, int) or at % 16:
                raise Unsupported("another stack, or one at no multiple of 16")
            self.has_moved = True
        self.registers[register.name] = value

    # ---- memory

    def inside(self, found):
        """Returns (object, offset) of an address. Refuses addresses below the stack pointer."""
        memory, at = place_of(found)
        if memory is self.stack and not (isinstance(at, int) and at >= self.registers["sp"].place()[1]):
            raise Unsupported("a place below the stack")
        return memory, at

    def place(self, operand, instruction):
        """Returns (object, offset) of a memory operand, and updates its base in the modes "before" and "after"."""
        base = self.registers[operand.base.name]
        if isinstance(base, Page):
            if instruction.target != base.target:
                raise Unsupported("the rest of another address than the page's")
            name, at = base.target
            return self.constants[name], at
        step = self.get(operand.index) if operand.index else operand.offset % (1 << WORD)
        moved = arithmetic("add", WORD, base, step)
        if operand.mode == "before":
            self.put(operand.base, moved)
        found = self.inside(base if operand.mode == "after" else moved)
        if operand.mode == "after":
            self.put(operand.base, moved)
        return found

    # ---- flags

    def test(self, name):
        """Returns the value of a condition, by the last comparison's (kind, width, a, b, result). With a borrow, b is
        one more."""
        if self.flags is None:
            raise Unsupported("flags that aren't set")
        op, width, a, b, answer = self.flags
        if name in SIGNED:
            return SIGNED[name](*self.signed_operands())
        if name in ("eq", "ne"):
            if op == "sub" and is_term(a) and is_term(b):  # they are equal if no bit differs
                op, answer = "xor", arithmetic("xor", width, a, b)
            return (is_equal(self, a, b) if op == "sub" else is_equal(self, answer, 0)) == (name == "eq")
        if op == "and":  # there is no carry
            return name in ("cc", "ls")
        if op == "add" and name in ("cs", "cc") and is_number(a) and is_number(b):
            return TESTS["ge"](plus(a, b), 1 << width) == (name == "cs")
        if op in ("sub", "borrow") and name in ("cs", "cc"):
            return is_below(self, a, b) == (name == "cc")
        if op != "sub":
            raise Undecided(f"{name} of a sum, or with a borrow")
        return is_below(self, a, plus(b, 1) if is_number(b) else b) == (name == "ls")

    def signed_operands(self):
        """Returns the operands of the last comparison, as signed numbers."""
        op, width, a, b, answer = self.flags
        if op not in ("sub", "and"):
            raise Unsupported("a signed comparison of another result")
        both = (a, b) if op == "sub" else (answer, 0)
        if not all(isinstance(x, int) for x in both):
            raise Undecided("a signed comparison of symbols")
        return [signed(x % (1 << width), width) for x in both]
