"""Reads the object that a compiler makes of c/source/xxhash.c. Compilers use low bits of addresses, to align the stack
and copies. They are known of what the calling convention and the header's types align. Where that isn't enough, a call
runs once for each residue modulo 64 of the stack and of a state."""
import contextlib
import functools
import itertools
from typing import Any, Callable

from oracle.symbolic_terms import REFUSALS, NotShown, Unsupported, is_same

from ..memory import Stack, WordMemory
from ..objects import RELOCATED, Immediate, Instruction, Register, operands, split
from ..one_shots import NAMES, WAYS, is_plain, of_seed
from ..processor import Processor
from ..rustc.objects import RustProgram, known_where_reached
from ..streams import OK, ForC, expect_answer
from ..values import Address, address
from . import forms

TABLES = (forms,)  # imported because it fills the table of instructions
MODULUS = 64  # bytes by which residues count
OF_STACK = 16  # the stack is a multiple at a call
OF_STATE = {"32": 4, "64": 8, "3": 64}  # so is a state, by the header's types
COPY = "rep-movsq"  # name of an instruction with a prefix
PROVED = "proved_"  # part of names of the assembly library that the source's names lack


def copy_of(section: str, at: int, end: int, text: str) -> Instruction | None:
    """Returns a copy of words, or None."""
    return Instruction(section, at, end, COPY, (), None) if text.startswith("rep movsq ") else None


class CProgram(RustProgram):
    def instruction(self, section, at, end, text, places):
        """Reads an instruction. One that the reader refuses is refused when a run reaches it."""
        if copy := copy_of(section, at, end, text):
            return copy
        if places == [end - 5]:
            return self.with_number(section, at, end, text, places[0])
        try:
            return super().instruction(section, at, end, text, places)
        except Unsupported:
            return Instruction(section, at, end, text, (), None)

    def with_number(self, section, at, end, text, place):
        """Reads an instruction whose last byte is a number, behind the distance of a constant."""
        mnemonic, rest = split(text)
        number, *others = operands(rest)
        symbol, addend = self.relocations[section][place]
        target = self.target_of(symbol, addend + end - place)
        if not isinstance(number, Immediate) or any(x != RELOCATED for x in others if not isinstance(x, Register)):
            raise Unsupported(f"{section} {at:#x}: {text}")
        return Instruction(section, at, end, mnemonic, (number, *others), target)


class ForHeader(ForC):
    """Calls the functions of the source by their names in the header."""

    SIZES = {"32": 48, "64": 88, "3": 576}

    @staticmethod
    def reset(cpu, request, state):
        cpu.lay(state, request.hash_name)
        name = f"{NAMES[request.hash_name]}_reset" + ("" if is_plain(request.hash_name) else WAYS[request.variant])
        secret = [address(request.secret), request.secret_length] if request.secret else []
        expect_answer(cpu.call(name, address(state), *secret, *of_seed(request)), OK)


class CProcessor(Processor):
    """A processor. `of_stack` and `of_state` are a modulus and a residue of the places of the stack and of states."""

    known, library = staticmethod(known_where_reached), ForHeader
    of_stack, of_state = (OF_STACK, 0), (1, 0)

    def __init__(self, program):
        super().__init__(program, program.name)
        self.called, self.blocks, self.freed, self.is_full = set(), [], [], False
        for name, run in (("malloc", allocate), ("free", release)):
            self.code[name] = {0: (run, None)}

    def call(self, name, *arguments, **more):
        name = name.removeprefix(PROVED)
        self.called.add(name)
        return super().call(name, *arguments, **more)

    def pop(self):
        """Pops a word. One that was never stored, which gcc takes to move the stack pointer, has any content."""
        memory, at = self.registers["rsp"].place()
        if not any(map(memory.has, range(at, at + 8))):
            memory.store(at, 8, self.fresh("an unset word"))
        return super().pop()

    def new_stack(self):
        stack = Stack()
        stack.alignment, stack.residue = self.of_stack
        return stack

    def lay(self, state, hash_name):
        """Gives a state its place."""
        state.alignment, state.residue = max(self.of_state, (OF_STATE[hash_name.split("-")[0]], 0))


def allocate(cpu, _):
    """Runs a call of malloc, which returns memory aligned for any type, or null if it is full."""
    size = cpu.registers["rdi"]
    if not isinstance(size, int):
        raise Unsupported(f"memory of {size} bytes")
    found: int | Address
    place, found = cpu.return_from_another(), 0
    if not cpu.is_full:
        block = WordMemory(f"block {len(cpu.blocks)}", size)
        block.alignment, block.residue = max(cpu.of_state, (OF_STACK, 0))
        cpu.blocks.append(block)
        found = address(block)
    cpu.registers["rax"] = found
    return place


def release(cpu, _):
    """Runs a call of free."""
    cpu.freed.append(cpu.registers["rdi"])
    return cpu.return_from_another()


def at_each_residue(cpu: "CProcessor", ask: Callable[[], Any], least: int = MODULUS) -> list:
    """Returns the results of a call for each place of the stack and of a state that is a multiple of `least`. The
    residues are those of the smallest moduli, up to 64, that decide the low bits of addresses."""
    pairs = itertools.product(multiples(OF_STACK), multiples(least))
    *fewer, last = sorted(pairs, key=lambda pair: pair[0] * pair[1])
    try:
        for pair in fewer:
            with contextlib.suppress(*REFUSALS):
                return for_all(cpu, ask, pair[0], pair[1], least)
        return for_all(cpu, ask, last[0], last[1], least)
    finally:
        cpu.of_stack, cpu.of_state = CProcessor.of_stack, CProcessor.of_state


def multiples(least):
    """Returns the moduli for a place that is a multiple of `least`."""
    return [least << k for k in range(MODULUS.bit_length()) if least << k <= MODULUS]


def for_all(cpu, ask, of_stack, of_state, least):
    """Returns the results for all residues of these moduli."""
    found = []
    for first, second in itertools.product(range(0, of_stack, OF_STACK), range(0, of_state, least)):
        cpu.of_stack, cpu.of_state = (of_stack, first), (of_state, second)
        found.append(ask())
    return found


class OfText:
    """Runs requests by one-shots or streams, at each residue."""

    def __init__(self, side):
        self.side = side

    def of_text(self, cpu, request):
        least = OF_STATE[request.hash_name.split("-")[0]]
        values = at_each_residue(cpu, functools.partial(self.side.of_text, cpu, request), least)
        if not all(is_same(value, values[0]) for value in values):
            raise NotShown(f"{request}: another value at another residue")
        return values[0]
