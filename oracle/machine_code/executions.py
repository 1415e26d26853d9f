"""Runs random calls of the C library, built from a changed assembly source, beside the reference library
(c/checks/calls.c). A change that no comparison detects must not change the result of any of these calls."""
import os
import re
import shutil
import subprocess

from checks.lib.tools import TOP, must, text_of, write

from .instructions import V3, V4
from .objects import Immediate, Register

C, DEBIANS = os.path.join(TOP, "c"), "/usr/lib/x86_64-linux-gnu/libxxhash.so.0"
CALLS, SECONDS = 300, 120  # number of calls of each group; of one change, since changed code may not end
COMMA = re.compile(r",(?![^(]*\))")
# A jump in a longer form than the assembler's own, and the jumps by the last byte of their code.
FAR_JUMP = re.compile(r"\t\.byte 15,(\d+)\n\t\.long (\S+)-\.-4\n")
JUMPS = {130: "jb", 131: "jae", 132: "je", 133: "jne", 134: "jbe", 135: "ja"}


class Library:
    """The C library, built in a folder from an assembly source or a changed one."""

    tools, emulator, reference = "", [], DEBIANS

    def __init__(self, name, program, folder):
        self.name, self.folder = name, folder
        self.source = os.path.join(folder, "asm", f"{name}.s")
        shutil.copytree(os.path.join(C, "asm"), os.path.join(folder, "asm"))
        source = FAR_JUMP.sub(lambda jump: f"\t{JUMPS[int(jump[1])]} {jump[2]}\n", text_of(self.source))
        self.lines = source.split("\n")
        self.line_at = lines_of(program, self.lines)
        options = f"{C}/checks/calls.c", "-DXXH_STATIC_LINKING_ONLY", "-pthread"
        self.calls = [*self.emulator, self.compiled("calls", *options)]

    def compiled(self, name, *args):
        must([f"{self.tools}gcc", "-O2", "-I", f"{C}/include", *args, "-o", os.path.join(self.folder, name)])
        return os.path.join(self.folder, name)

    def first_difference(self, before, after):
        """Returns what differs if instructions are replaced, or an empty string."""
        lines = list(self.lines)
        for x, y in zip(before, after, strict=True):
            lines[self.line_at[x.section, x.at]] = self.line_of(y, before)
        return self.difference_of(lines)

    def line_of(self, y, before):
        """Returns the source line of a changed instruction: of the same one at its place, or of the one swapped."""
        same = [x for x in before if (x.mnemonic, x.operands, x.target) == (y.mnemonic, y.operands, y.target)]
        x = same[0] if same else next(x for x in before if x.at == y.at)
        line = self.lines[self.line_at[x.section, x.at]]
        return line if same else changed_line(line, x, y)

    def difference_of(self, lines):
        write(self.source, "\n".join(lines))
        folders = [f"{part}={self.folder}/{part}" for part in ("asm", "out", "lib")]
        must(["make", "-s", "-C", C, f"CC={self.tools}gcc", *folders])
        above = f"glibc-hwcaps/{self.name}/" if self.name in (V3, V4) else ""
        command = [*self.calls, self.reference, f"{self.folder}/lib/{above}libxxhash.so.0", str(CALLS)]
        try:
            done = subprocess.run(command, capture_output=True, text=True, timeout=SECONDS)
        except subprocess.TimeoutExpired:
            return "the calls do not end"
        if done.returncode == 2:
            raise RuntimeError(done.stderr.strip())
        faults = [line.strip() for line in done.stdout.splitlines() if " 0 differ" not in line]
        return "" if done.returncode == 0 else faults[0] if faults else f"status {done.returncode}"


def lines_of(program, lines):
    """Maps each instruction's section and address to the number of its line. Alignment has lines only in part."""
    found, section, rest = {}, None, []
    for number, line in enumerate(lines):
        text = line.strip()
        if text.startswith(".section"):
            section = text.split()[1].split(",")[0]
            rest = sorted(program.sections.get(section, {}).items())
        elif rest and (text[:1].isalpha() or text.startswith(".byte")) and not text.endswith(":"):
            while rest[0][1].mnemonic == "nop" and not text.startswith(".byte"):
                rest.pop(0)
            at, x = rest.pop(0)
            if x.mnemonic.split("{")[0] != (text.split()[0] if text[:1].isalpha() else "nop"):
                raise ValueError(f"{section} {at:#x}: {x.mnemonic}, and its line is {text}")
            found[section, at] = number
    return found


def changed_line(line, x, y):
    """Returns the line of `x` with what differs in `y`: the mnemonic, an operand, or the address of a constant."""
    mnemonic, _, rest = line.strip().partition(" ")
    if not y.operands and not y.target:
        return "\tnop"
    parts = [part.strip() for part in COMMA.split(rest)]
    for k, (old, new) in enumerate(zip(x.operands, y.operands, strict=True)):
        parts[k] = parts[k] if old == new else shown(new) + "".join(re.findall(r"\{1to\d+\}", parts[k]))
    if x.target != y.target:
        parts = [part.replace("(%rip)", f"+{y.target[1] - x.target[1]}(%rip)") for part in parts]
    return f"\t{mnemonic if x.mnemonic == y.mnemonic else y.mnemonic.split('{')[0]} {','.join(parts)}"


def shown(operand):
    if isinstance(operand, Register):
        return f"%{operand.name}"
    if isinstance(operand, Immediate):
        return f"${operand.value:#x}"
    index = f",%{operand.index},{operand.scale}" if operand.index else ""
    return f"{operand.displacement:#x}({'%' + operand.base if operand.base else ''}{index})"
