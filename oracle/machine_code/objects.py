"""Reads an assembled object in the form that the verifier runs: instructions by section and address, and constants.

The instructions are those that objdump decodes from the object's bytes; the assembler's input isn't used. Each byte of
a section belongs to one instruction. object_contents.py checks the object's other contents. A relocation's target is
one that no linker moves or takes from another library."""
import collections
import functools
import re
import subprocess

from oracle.symbolic_terms import Unsupported

from .disassembly import expect_bytes
from .object_contents import CODE, Loaded

# An instruction: `end` is the next one's address; `target` is (section or external function, offset), or None.
Instruction = collections.namedtuple("Instruction", "section at end mnemonic operands target")
Register = collections.namedtuple("Register", "name")
Immediate = collections.namedtuple("Immediate", "value")
Place = collections.namedtuple("Place", "displacement base index scale")     # memory operand

PC32, PLT32 = 2, 4                            # relocation types: distances from the next instruction
PREFIXES = "data16", "cs"                     # prefixes of an instruction that does nothing
RELOCATED = Place(0, "rip", None, 1)          # operand that a relocation at the end of an instruction fills
LINE = re.compile(r" *([0-9a-f]+):\t((?:[0-9a-f]{2} )+) *(?:\t(.*))?")
MEMORY = re.compile(r"(-?0x[0-9a-f]+|-?[0-9]+)?\((%\w+)?(?:,(%\w+),([1248]))?\)")
TEXT = ".text."                               # prefix of a function's section
TARGET = re.compile(r"([0-9a-f]+)(?: <.*>)?")


class Program(Loaded):
    """The instructions of a program: section -> address -> Instruction."""

    RELOCATIONS: tuple[int, ...] = PC32, PLT32

    def __init__(self, path):
        super().__init__(path)
        self.relocations = {name: self.relocations_of(head) for name, head in self.heads.items()}
        self.listing = listing(path)
        self.sections = {name: self.read(name, lines) for name, lines in self.listing.items()}
        if set(self.sections) != {name for name, head in self.heads.items() if head.flags == CODE}:
            raise Unsupported("a section that objdump doesn't list")
        expect_bytes(self)
        self.labels = {symbol.name: self.place_of(symbol) for symbol in self.object.symbols
                       if symbol.section and symbol.section < len(self.object.heads)}

    @staticmethod
    def title_of(section):
        """Returns the section's name without the version."""
        return section

    # ---- relocations

    def is_relocated(self, section, first, end):
        return any(first <= place < end for place in self.relocations[section])

    def relocations_of(self, section):
        """Maps each place to its relocation: (symbol, addend)."""
        found = {}
        for place, r_type, symbol, addend in self.relocations_in(section):
            if r_type not in self.RELOCATIONS or section.flags != CODE or place in found:
                raise Unsupported(f"a relocation at {place:#x} of {section.name}")
            found[place] = symbol, addend
        return found

    # ---- instructions

    def read(self, section, lines):
        """Returns the instructions of a section. They must cover all of its bytes and relocations."""
        found, at, body, used = {}, 0, self.object.body(self.heads[section]), set()
        for address, raw, text in lines:
            end = at + len(raw)
            if address != at or body[at:end] != raw:
                raise Unsupported(f"{section} {address:#x}: objdump leaves bytes out")
            places = [place for place in range(at, end) if place in self.relocations[section]]
            used.update(places)
            found[at] = self.instruction(section, at, end, text, places)
            at = end
        if at != len(body) or used != set(self.relocations[section]):
            raise Unsupported(f"{section}: bytes or relocations in no instruction")
        return found

    def instruction(self, section, at, end, text, places):
        mnemonic, rest = split(text)
        if mnemonic.startswith("nop") or (mnemonic, rest) == ("xchg", "%ax,%ax"):
            if places:
                raise Unsupported(f"{section} {at:#x}: a relocation in {text}")
            return Instruction(section, at, end, "nop", (), None)
        is_jump = mnemonic[0] == "j" or mnemonic == "call"
        there = TARGET.fullmatch(rest) if is_jump else None
        if is_jump and not there:
            raise Unsupported(f"{section} {at:#x}: {text}, which leads to no one place")
        if not is_jump and bool(places) != ("(%rip)" in rest) or places not in ([], [end - 4]):
            raise Unsupported(f"{section} {at:#x}: {text} with relocations at {places}")
        mnemonic, rest = with_broadcast(mnemonic, rest)
        found = () if is_jump else operands(rest)
        if places and any(x != RELOCATED for x in found if not isinstance(x, Register)):
            raise Unsupported(f"{section} {at:#x}: {text}, of which another part is relocated")
        target = (section, int(there[1], 16)) if is_jump else None
        if places:
            symbol, addend = self.relocations[section][places[0]]
            target = self.target_of(symbol, addend + end - places[0])
        return Instruction(section, at, end, mnemonic, found, target)


def listing(path: str, objdump: str = "objdump", options: tuple[str, ...] = (), pattern: re.Pattern = LINE,
            order: int = 1) -> dict[str, list[tuple[int, bytes, str]]]:
    """Maps each section to objdump's (address, bytes, text) of its instructions. `order` is -1 for reversed bytes."""
    command = [objdump, "-d", "-z", "-w", *options, path]
    found, lines = {}, None
    for line in subprocess.run(command, check=True, capture_output=True, text=True).stdout.splitlines():
        if line.startswith("Disassembly of section "):
            lines = found.setdefault(line[len("Disassembly of section "):-1], [])
        elif match := pattern.fullmatch(line):
            lines.append((int(match[1], 16), bytes.fromhex(match[2])[::order], match[3] or "no instruction"))
    return found


def split(text: str) -> tuple[str, str]:
    """Returns the mnemonic and the operands, without objdump's comments, and without the prefixes of a `nop`."""
    parts = text.split("#")[0].split(None, 1)
    while parts[0] in PREFIXES and len(parts) > 1 and re.match(r"(\w+ )*nop", parts[1]):
        parts = parts[1].split(None, 1)
    return parts[0], parts[1].strip() if len(parts) > 1 else ""


def with_broadcast(mnemonic: str, rest: str) -> tuple[str, str]:
    """Moves a broadcast such as {1to8} from the memory operand to the mnemonic."""
    found = re.search(r"\{1to\d+\}", rest)
    return (mnemonic + found[0], rest.replace(found[0], "")) if found else (mnemonic, rest)


def operand(text: str) -> Immediate | Place | Register:
    if text.startswith("$"):
        return Immediate(int(text[1:], 16))
    if text.startswith("%"):
        return Register(text[1:])
    found = MEMORY.fullmatch(text)
    if not found:
        raise Unsupported(f"the operand {text}")
    displacement, base, index, scale = found.groups()
    return Place(int(displacement or "0", 16), base and base[1:], index and index[1:], int(scale or 1))


@functools.cache
def operands(text: str) -> tuple[Immediate | Place | Register, ...]:
    return tuple(operand(part) for part in re.split(r",(?![^(]*\))", text)) if text else ()
