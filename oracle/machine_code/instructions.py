"""Defines the table of x86-64 instructions: the semantics of each form, and the instruction set that has it.

A form is a mnemonic with a letter per operand, as in `add ml`: b, w, l, q a register of 8, 16, 32, 64 bits, h a second
byte such as `ah`, x, y and z a vector of 128, 256 and 512 bits, m memory, i a number. An instruction that isn't in the
table is refused. scalar.py and lanes.py fill it: each entry is a function of the processor and the instruction. It
returns the next instruction's place if that isn't the following one. `form` also passes it the operands."""
import functools
from typing import Callable

from oracle.symbolic_terms import Unsupported

from .objects import Immediate, Instruction, Place, Register

V1, V2, V3, V4 = NAMES = "x86-64", "x86-64-v2", "x86-64-v3", "x86-64-v4"
SETS = {name: NAMES[:k + 1] for k, name in enumerate(NAMES)}      # instruction sets that a processor of that name has
TABLE: dict = {}                           # (mnemonic, letters) -> (set, function)
WIDE = "rax", "rcx", "rdx", "rbx", "rsp", "rbp", "rsi", "rdi", *(f"r{k}" for k in range(8, 16))
LETTERS = {8: "b", 16: "w", 32: "l", 64: "q"}


def parts_of_registers() -> dict[str, tuple[str, int, int]]:
    """Maps each register name to (the full register, its first bit in it, its width)."""
    out = {}
    for name in WIDE:
        out[name] = name, 0, 64
        if name[1:].isdigit():
            out.update({name + suffix: (name, 0, width) for suffix, width in (("d", 32), ("w", 16), ("b", 8))})
        else:
            byte = name[1] if name[2] == "x" else name[1:]
            out.update({"e" + name[1:]: (name, 0, 32), name[1:]: (name, 0, 16), byte + "l": (name, 0, 8)})
    out.update({f"{letter}h": (f"r{letter}x", 8, 8) for letter in "abcd"})
    return out


PARTS = parts_of_registers()
VECTORS = {f"{letter}mm{k}": k for letter in "xyz" for k in range(32)}
OLDER = 16                                 # number of vector registers before x86-64-v4


def form(level: str, mnemonics: str, letters: str) -> Callable:
    """Returns a decorator that adds a function to the table for the given mnemonics, letters and instruction set."""
    def put(function):
        def run(cpu, x):
            return function(cpu, x, *x.operands)
        for mnemonic in mnemonics.split():
            for one in letters.split() or [""]:
                TABLE[mnemonic, one] = level, run
        return function
    return put


def letter(operand: Immediate | Place | Register) -> str:
    if isinstance(operand, Immediate):
        return "i"
    if isinstance(operand, Place):
        is_known = (operand.base in (None, "rip") or operand.base in WIDE) and (operand.index or "rax") in WIDE
        return "m" if is_known else "?"
    if operand.name in VECTORS:
        return operand.name[0]
    if operand.name not in PARTS:
        return "?"
    _, first, width = PARTS[operand.name]
    return "h" if first else LETTERS[width]


def letters(instruction: Instruction) -> str:
    return "".join(map(letter, instruction.operands))


def needs_v4(instruction: Instruction) -> bool:
    """True if an operand is a vector register that x86-64-v4 added, of any width."""
    return any(VECTORS.get(x.name, 0) >= OLDER for x in instruction.operands if isinstance(x, Register))


@functools.cache
def known(instruction: Instruction, processor: str) -> Callable:
    """Returns the function for an instruction, or raises if the processor lacks it."""
    key = instruction.mnemonic, letters(instruction)
    level, function = TABLE.get(key, (None, None))
    if level not in SETS[processor] or needs_v4(instruction) and V4 not in SETS[processor]:
        raise Unsupported(f"{instruction.section} {instruction.at:#x}: the instruction {' '.join(key)}, "
                          f"which {processor} hasn't here")
    return function
