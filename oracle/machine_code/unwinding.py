"""Compares a source's unwinding table with its instructions: at each one the callee-saved registers are where the table
has them. At a function's first instruction each is in its register, by the table. For each instruction and each one
that may follow, a register stays where it was, or is stored or loaded, exactly as the table says.

Stores through another register than the stack pointer aren't followed here."""
import struct
from typing import Any

from assembly.eh_frame import Table
from oracle.symbolic_terms import NotShown, signed

from .instructions import PARTS, VECTORS
from .object_contents import CODE, Loaded
from .objects import Immediate, Instruction, Register

VECTOR_BYTES = {"x": 16, "y": 32, "z": 64}
NOTHING, ANYWHERE = (0, 0), (-(1 << 14), 1 << 14)         # bytes that an instruction may change


class X86:
    """The parts that depend on the processor. `NUMBERS` are DWARF's numbers of callee-saved registers; `ENTRY` is the
    frame before a function's first instruction: the distance from the stack pointer to the CFA, and places below it."""
    NUMBERS = {"rbx": 3, "rbp": 6, "r12": 12, "r13": 13, "r14": 14, "r15": 15}
    ENTRY = 8, {16: -8}                  # the return address
    RETURNS, ENDS = ("ret",), ("ret", "jmp", "ud2")

    @staticmethod
    def is_jump(x):
        return x.mnemonic[0] == "j"

    @classmethod
    def effect(cls, x):
        """Returns how far an instruction lowers the stack pointer; registers that it stores and loads, with their
        distances from the stack pointer before it; and the registers and the bytes (first, end) that it may change."""
        name, used = x.mnemonic, [PARTS[y.name][0] for y in x.operands if isinstance(y, Register) and y.name in PARTS]
        if name == "push":
            return 8, {used[0]: -8} if used else {}, {}, [], (-8, 0)
        if name == "pop":
            return -8, {}, {used[0]: 0}, used, NOTHING
        if name in ("add", "sub") and x.operands[1:] == (Register("rsp"),) and isinstance(x.operands[0], Immediate):
            return signed(x.operands[0].value, 64) * (1 if name == "sub" else -1), {}, {}, [], NOTHING
        used = used[1:] if name == "mov" and x.operands[0] == Register("rsp") else used        # only read
        place = next((y for y in x.operands if not isinstance(y, (Register, Immediate)) and y.base == "rsp"), None)
        at, is_store = place.displacement if place else 0, place is not None and x.operands[-1] is place
        if name == "mov" and place and not place.index and used and used[0] in cls.NUMBERS and \
                Register(used[0]) in x.operands:
            there = {used[0]: at}
            return (0, there, {}, [], (at, at + 8)) if is_store else (0, {}, there, used, NOTHING)
        sizes = [VECTOR_BYTES[y.name[0]] for y in x.operands if isinstance(y, Register) and y.name in VECTORS]
        changed = ANYWHERE if place and place.index else (at, at + max([8, *sizes]))
        return 0, {}, {}, used, changed if is_store else NOTHING


def expect_frames(program: Loaded) -> int:
    """Checks the table at each reachable instruction. Returns their number."""
    processor, count = getattr(program, "frames", X86), 0
    code = {name for name, head in program.heads.items() if head.flags == CODE}
    try:
        table = Table(program.object)
        if code ^ {*table.functions}:
            raise NotShown(f"frames of no function, or none of {min(code ^ {*table.functions})}")
        for section in program.sections:
            count += len(followed(processor, program.sections[section], section, table))
    except (ValueError, LookupError, struct.error) as fault:
        raise NotShown(f"the table of frames: {fault}") from None
    return count


def followed(processor: Any, code: dict[int, Instruction], section: str, table: Table) -> set[int]:
    """Checks a function from its first instruction on. Returns the places of the reachable instructions."""
    if table.at(section, 0) != processor.ENTRY:
        raise NotShown(f"{section}: another frame at its beginning than {processor.ENTRY}")
    known, waiting = set(), [0]
    while waiting:
        at = waiting.pop()
        if at in known:
            continue
        known.add(at)
        x, before = code[at], table.at(section, at)
        following = [x.target] * processor.is_jump(x) + [(section, x.end)] * (x.mnemonic not in processor.ENDS)
        for name, place in following or [(None, 0)] * (x.mnemonic in processor.RETURNS):
            after = table.at(section, place) if name == section else processor.ENTRY
            fault = difference(processor, x, before, after)
            if fault:
                raise NotShown(f"{section} {at:#x}: another frame than the table's: {fault}")
            waiting += [place] * (name == section)
    return known


def difference(processor: Any, x: Instruction, before: tuple[int, dict], after: tuple[int, dict]) -> str | None:
    """Returns how the frame after an instruction differs from the table's, or None."""
    (depth, saved), (low_end, restored) = before, after
    lowered, stored, loaded, changed, (first, end) = processor.effect(x)
    if low_end != depth + lowered or "rsp" in changed or "sp" in changed:
        return f"the stack pointer is {depth + lowered} bytes below, and not {low_end}"
    is_spoiled = {number for number, at in saved.items() if at < end - depth and first - depth < at + 8}
    for name, number in [*processor.NUMBERS.items(), *((None, number) for number in processor.ENTRY[1])]:
        at, place = restored.get(number), saved.get(number)
        if at is None:
            is_there = name not in changed if place is None else name in loaded and loaded[name] - depth == place
        else:
            is_there = at >= -low_end and (at == place and number not in is_spoiled or
                                           place is None and name in stored and stored[name] - depth == at)
        if not is_there:
            return f"register {number} isn't at {'its place' if at is None else at}"
    return f"of {restored.keys()}" if restored.keys() - {*processor.NUMBERS.values(), *processor.ENTRY[1]} else None
