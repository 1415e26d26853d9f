"""Tests that single-instruction changes of the source for 64-bit ARM are detected (../mutation.py).

A change inverts one of an instruction's 32 bits: of a register, a number, a condition, a shift, a width, or the
operation. objdump decodes the changed bytes, like the source's. Bytes that are no instruction, or one that the table
lacks, aren't a change: the table's refusal would prove nothing."""
import functools
import os
import re
import tempfile

from oracle.symbolic_terms import Unsupported

from .. import executions, mutation
from . import objects
from .objects import SIZE, Shift, listing
from .table import TABLE, Processor

MANY, FEW = 1000, 40  # changes of a random seed, with --all and without
BITS = 8 * SIZE


# Names of the relocations' types.
TYPES = {
    objects.PAGE: "ADR_PREL_PG_HI21",
    objects.LOW_ADD: "ADD_ABS_LO12_NC",
    objects.JUMP: "JUMP26",
    objects.CALL: "CALL26",
    objects.LOW_64: "LDST64_ABS_LO12_NC",
    objects.LOW_128: "LDST128_ABS_LO12_NC",
}


class Library(executions.Library):
    """The C library for 64-bit ARM, under qemu, beside the reference's header."""

    tools, emulator = "aarch64-linux-gnu-", ["qemu-aarch64", "-L", "/usr/aarch64-linux-gnu"]

    def __init__(self, program, folder):
        super().__init__("aarch64", program, folder)
        macros = "-DXXH_STATIC_LINKING_ONLY", "-DXXH_IMPLEMENTATION"
        header = "-include", "/usr/include/xxhash.h", "-x", "c", os.devnull
        self.reference = self.compiled("reference.so", "-shared", "-fPIC", *macros, *header)
        self.program = program

    def with_bit(self, text):
        """Returns what differs if a bit of an instruction is inverted, or an empty string. `text` is that of
        `random_changes`."""
        section, at, bit = re.match(r"(\S+) (0x\w+) .*: bit (\d+) ", text).groups()
        section, at = f".text.{section}", int(at, 16)
        head, lines = self.program.heads[section], list(self.lines)
        word = int.from_bytes(self.program.object.body(head)[at : at + SIZE], "little") ^ 1 << int(bit)
        number = self.line_at[section, at]
        relocation = self.program.relocations_of(head).get(at)
        if relocation:
            symbol = re.search(r"([.\w]+)\]?$", lines[number])[1]
            lines[number] = f"\t.reloc ., R_AARCH64_{TYPES[relocation[0]]}, {symbol}; .inst {word:#x}"
        else:
            lines[number] = f"\t.inst {word:#x}"
        return self.difference_of(lines)


class Changed:
    """A program's object as a file in which one bit of one instruction at a time is inverted."""

    def __init__(self, program, path):
        self.program, self.path, self.relocations = program, path, {}
        with open(path, "wb") as file:
            file.write(program.object.data)

    def instruction(self, place, bit):
        """Returns the instruction at a place with this bit inverted, or None if the table lacks it."""
        section, at = place
        head = self.program.heads[section]
        offset, one = head.offset + at + bit // 8, 1 << bit % 8
        with open(self.path, "r+b") as file:
            self.put(file, offset, self.program.object.data[offset] ^ one)
            file.flush()
            found = self.listed(section, at)
            self.put(file, offset, self.program.object.data[offset])
        return found

    @staticmethod
    def put(file, offset, byte):
        file.seek(offset)
        file.write(bytes([byte]))

    def listed(self, section, at):
        options = f"--section={section}", f"--start-address={at}", f"--stop-address={at + SIZE}"
        try:
            ((_, _, text),) = listing(self.path, *options)[section]
            x = self.program.instruction(section, at, text, self.relocations_of(section).get(at))
        except (Unsupported, ValueError):
            return None
        return x if (x.mnemonic, x.form) in TABLE else None

    def relocations_of(self, section):
        if section not in self.relocations:
            self.relocations[section] = self.program.relocations_of(self.program.heads[section])
        return self.relocations[section]


def random_changes(changed, places, rng):
    """Yields an endless sequence of random changes: (place, text, instructions). Skips instructions that compute
    nothing, and shifts by 0."""
    while True:
        section, at = place = rng.choice(places)
        x, bit = changed.program.sections[section][at], rng.randrange(BITS)
        found = changed.instruction(place, bit) if x.mnemonic not in ("prfm", "brk") else None
        if found and found != x and not any(isinstance(y, Shift) and not y.amount for y in found.operands):
            yield place, f"{section[6:]} {at:#x} {written(x)}: bit {bit} {written(found)}", [found]


def written(x):
    """Returns an instruction as text, with its operands in the table's form."""
    target = [f"{x.target[1]:#x}" if x.target[0] == x.section else x.target[0]] if x.target else []
    return " ".join([x.mnemonic, x.form, *map(str, map(plain, x.operands)), *target])


def plain(operand):
    return tuple(operand) if isinstance(operand, tuple) else operand


def noticed(program, part):
    """Returns the number of changes, and the undetected ones that change a result: one part of all, or a few."""
    is_all = part is not None
    with tempfile.TemporaryDirectory(prefix="arm-text-") as workdir:
        changed = Changed(program, os.path.join(workdir, "text.o"))
        some = mutation.of_seeds(functools.partial(random_changes, changed), MANY if is_all else FEW)
        some = mutation.part_of(some, part) if is_all else some
        library = Library(program, os.path.join(workdir, "library"))
        return mutation.noticed_by_calls(Processor(program), some, is_all, lambda text, _: library.with_bit(text))
