"""Reads an assembled object for 64-bit ARM in the form that the verifier runs, like ../objects.py for x86-64."""
import collections
import re

from oracle.symbolic_terms import Unsupported

from .. import objects
from ..disassembly import expect_bytes
from ..object_contents import AARCH64, CODE, Loaded
from .unwinding import Arm

# An instruction: `form` has a word per operand; `target` is (section or constant, offset), or None.
Instruction = collections.namedtuple("Instruction", "section at end mnemonic form operands target")
Register = collections.namedtuple("Register", "name width")  # x0 and w0, xzr, sp
Vector = collections.namedtuple("Vector", "number arrangement lane")  # q0 is (0, "q", None), v0.d[1] is (0, "d", 1)
Immediate = collections.namedtuple("Immediate", "value")
Shift = collections.namedtuple("Shift", "op amount")
Place = collections.namedtuple("Place", "base index offset mode")  # mode: offset, before or after

PAGE, LOW_ADD, JUMP, CALL, LOW_64, LOW_128 = 275, 277, 282, 283, 286, 299  # relocation types
OF_RELOCATION = {PAGE: "adrp", LOW_ADD: "add", JUMP: "b", CALL: "bl", LOW_64: "ldr", LOW_128: "ldr"}
MULTIPLES = {LOW_64: 8, LOW_128: 16}  # required alignment of the target
SIZE = 4
LINE = re.compile(r" *([0-9a-f]+):\t([0-9a-f]{8}) +\t(.*)")
CONDITIONS = "eq", "ne", "cs", "cc", "hi", "ls", "ge", "lt", "gt", "le"
JUMPS = re.compile(r"b|bl|b\.\w\w|t?cbn?z|tbn?z")


class Program(Loaded):
    """The instructions of a program: section -> address -> Instruction."""

    MACHINE, frames = AARCH64, Arm

    def __init__(self, path):
        super().__init__(path)
        self.listing, self.relocated = listing(path), {}
        self.sections = {name: dict(self.read(name, lines)) for name, lines in self.listing.items()}
        if set(self.sections) != {name for name, head in self.heads.items() if head.flags == CODE}:
            raise Unsupported("a section that objdump doesn't list")
        expect_bytes(self)

    # ---- relocations

    def is_relocated(self, section, first, end):
        return any(first <= place < end for place in self.relocated[section])

    def relocations_of(self, section):
        """Maps each place to its relocation: (type, target)."""
        found = {}
        for place, r_type, symbol, addend in self.relocations_in(section):
            if r_type not in OF_RELOCATION or place in found:
                raise Unsupported(f"a relocation of kind {r_type} at {place:#x} of {section.name}")
            found[place] = r_type, self.target_of(symbol, addend)
        return found

    # ---- instructions

    def read(self, section, lines):
        """Yields the instructions of a section. They must cover all of its bytes and relocations."""
        head, at = self.heads[section], 0
        body, relocations = self.object.body(head), self.relocations_of(head)
        self.relocated[section] = set(relocations)
        for address, raw, text in lines:
            if address != at or body[at : at + SIZE] != raw:
                raise Unsupported(f"{section} {address:#x}: objdump leaves bytes out")
            yield at, self.instruction(section, at, text, relocations.pop(at, None))
            at += SIZE
        if at != len(body) or relocations:
            raise Unsupported(f"{section}: bytes or relocations in no instruction")

    def instruction(self, section, at, text, relocation):
        mnemonic, *rest = text.split("//")[0].split(None, 1)
        parts = split(re.sub(r" *<[^>]*>", "", rest[0].strip())) if rest else []
        is_jump, target = JUMPS.fullmatch(mnemonic) is not None, None
        to, parts = (int(parts[-1], 16), parts[:-1]) if is_jump or mnemonic == "adrp" else (None, parts)
        found = [operand(word) for word in parts]
        if relocation:
            r_type, target = relocation
            if OF_RELOCATION[r_type] != mnemonic:
                raise Unsupported(f"{section} {at:#x}: {text} with a relocation of kind {r_type}")
            if r_type not in (PAGE, JUMP, CALL):
                found = without_offset(found)
                self.expect_multiple(target, MULTIPLES.get(r_type, 1))
        elif is_jump:
            target = section, to
        elif mnemonic == "adrp":
            raise Unsupported(f"{section} {at:#x}: {text} without a relocation")
        form = " ".join(map(word_of, found))
        return Instruction(section, at, at + SIZE, mnemonic, form, tuple(found), target)

    def expect_multiple(self, target, size):
        """Checks a constant's alignment: a load encodes the low bits of its address in units of `size`."""
        _, alignment = self.constants.get(target[0], (b"", 1))
        if target[0] not in self.constants or alignment % size or target[1] % size:
            raise Unsupported(f"{target[1]:#x} of {target[0]}, which may be no multiple of {size}")


def without_offset(found):
    """Returns the operands of an instruction whose offset the linker inserts. The offset must be 0."""
    last = found[-1]
    if last == Place(last.base, None, 0, "offset") if isinstance(last, Place) else last == Immediate(0):
        return found if isinstance(last, Place) else found[:-1]
    raise Unsupported(f"a relocation over {last}")


def listing(path: str, *options: str) -> dict[str, list[tuple[int, bytes, str]]]:
    """Maps each section to (address, bytes, text) of the instructions that objdump prints."""
    return objects.listing(path, "aarch64-linux-gnu-objdump", options, LINE, -1)


def split(text):
    """Splits the operands at commas outside of brackets."""
    return (
        [part.strip() for part in re.split(r",(?![^\[]*\])(?![^{]*\})", text)]
        if "[" not in text
        else parts_with_place(text)
    )


def parts_with_place(text):
    """The same for operands with a memory operand and the step after it."""
    match = (
        re.fullmatch(r"(?:(.*), )?(\[[^\]]*\](?:!|, #-?\w+)?)", text) if not re.search(r"v\d+\.\w\[", text) else None
    )
    if match and not (match[1] or "").startswith("{"):
        return [*([part.strip() for part in match[1].split(",")] if match[1] else []), match[2]]
    match = re.fullmatch(r"(\{v\d+\.\w\}\[\d\]), (\[[^\]]*\])", text)
    return [match[1], match[2]] if match else [part.strip() for part in text.split(",")]


def number(text):
    return int(text.lstrip("#"), 0)


def operand(text):
    if re.fullmatch(r"#-?\w+", text):
        return Immediate(number(text))
    if match := re.fullmatch(r"([xw])(\d+|zr)|(w?sp)", text):
        if match[3]:
            return Register("sp", 64 if text == "sp" else 32)
        return Register(f"x{match[2]}", 64 if match[1] == "x" else 32)
    if match := re.fullmatch(r"([qdsb])(\d+)", text):
        return Vector(int(match[2]), match[1], None)
    if match := re.fullmatch(r"v(\d+)\.(\d+[bhsd])", text):
        return Vector(int(match[1]), match[2], None)
    if match := re.fullmatch(r"\{?v(\d+)\.([bhsd])\}?\[(\d+)\]", text):
        return Vector(int(match[1]), match[2], int(match[3]))
    if match := re.fullmatch(r"(lsl|lsr|ror|uxt[bw])(?: #(\w+))?", text):
        return Shift(match[1], int(match[2] or "0", 0))
    if text in CONDITIONS or text.startswith("pld"):
        return text
    return place(text)


def place(text):
    match = re.fullmatch(r"\[(\w+)(?:, (?:#(-?\w+)|([xw]\w+)))?\](!)?(?:, #(-?\w+))?", text)
    if not match or match[5] and (match[2] or match[3] or match[4]):
        raise Unsupported(f"the operand {text}")
    mode = "before" if match[4] else "after" if match[5] else "offset"
    return Place(operand(match[1]), match[3] and operand(match[3]), int(match[2] or match[5] or "0", 0), mode)


def word_of(x):
    """Returns the word of an operand in an instruction's form."""
    if isinstance(x, Register):
        return "x" if x.width == 64 else "w"
    if isinstance(x, Vector):
        return x.arrangement + ("[]" if x.lane is not None else "")
    if isinstance(x, Shift):
        return x.op
    if isinstance(x, Place):
        return "m"
    return "i" if isinstance(x, Immediate) else "c" if x in CONDITIONS else "p"
