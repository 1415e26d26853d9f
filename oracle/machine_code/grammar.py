"""Checks the grammar of an assembly source: the allowed lines and their order. It is strict, so that all assemblers
read the source alike and a reader sees everything: one instruction or directive per line, no macros, no conditions
except the one guard, no assigned symbols, no other encodings, no comment except the first line.

A source is a comment, an optional guard, functions and constants, the guard's end, the notes, and `.text`. A function
is one section: its name, then instructions, labels and frames without a gap."""
import re

from oracle.symbolic_terms import Unsupported

NAME = r"[A-Za-z_][A-Za-z0-9_]*(?:\.[A-Za-z0-9_]+)*"
LABEL = r"\.L[0-9]+_[0-9a-f]+(?:\.[A-Za-z0-9_]+)?"
HEX, DECIMAL = "0x[0-9a-f]{1,16}", "(?:0|[1-9][0-9]*)"
COMMENT = r"/\* [A-Za-z0-9 ,.:_-]* \*/"
FRAME = rf"\t\.cfi_(?:def_cfa_offset {DECIMAL}|offset {DECIMAL}, -?{DECIMAL}|restore {DECIMAL})"
NUMBERS = rf"\t\.quad {HEX}(?:,{HEX})*", rf"\t\.byte {DECIMAL}(?:,{DECIMAL})*"
CONSTANTS = r'\t\.section (\.rodata(?:\.[A-Za-z0-9_]+)*),(?:"a",@progbits|"aM",@progbits,(?:4|8|16|32))'
ALIGNED = r"\t\.p2align [0-6]"
STACK = '\t.section .note.GNU-stack,"",@progbits'
BYTE = 1 << 8


# ---- instructions

# x86-64 instructions in GNU as's AT&T syntax. A long jump that could be short is its opcode bytes and a distance.
REGISTER = "%[a-z][a-z0-9]*"
MEMORY = rf"(?:-?{HEX})?\({REGISTER}(?:,{REGISTER},[1248])?\)|{LABEL}(?:\+{HEX})?\(%rip\)"
OPERAND = rf"(?:{REGISTER}|\$-?{HEX}|(?:{MEMORY})(?:\{{1to8\}})?)"
X86 = "|".join(["ret|ud2|vzeroupper", rf"(?:j[a-z]+|call) (?:{LABEL}|{NAME}|(?:memcpy|memmove|memset)@PLT)",
                rf"(?!j|call|lock|rep|notrack|bnd)[a-z][a-z0-9]* {OPERAND}(?:,{OPERAND}){{0,3}}",
                rf"\.byte {DECIMAL}(?:,{DECIMAL})*|\.long {LABEL}-\.-4"])
SHADOW_STACK = ('\t.section .note.gnu.property,"a",@note', "\t.p2align 3", "\t.long 4,16,5", '\t.asciz "GNU"',
                "\t.long 0xc0000002,4,2,0")
# 64-bit ARM instructions.
NUMBER = rf"#-?(?:{HEX}|{DECIMAL})"
WORD = "(?:[xw](?:[12]?[0-9]|30|zr)|w?sp)"
VECTOR = r"(?:[qds][0-9]+|v[0-9]+\.[0-9]+[bhsd]|v[0-9]+\.[bhsd]\[[0-9]+\]|\{v[0-9]+\.[bhsd]\}\[[0-9]+\])"
PLACE = rf"\[{WORD}(?:, (?:{NUMBER}|{WORD}|#:lo12:{LABEL}))?\](?:!|, {NUMBER})?"
ARM_OPERAND = (rf"(?:{WORD}|{VECTOR}|{NUMBER}|{PLACE}|(?:lsl|lsr|ror) #{DECIMAL}|pldl1keep|eq|ne|cs|cc|hi|ls|"
               rf":lo12:{LABEL})")
ARM = (rf"ret|nop|(?:bl?|b\.[a-z]{{2}}) (?:{LABEL}|{NAME})|(?:cbn?z|tbn?z|adrp) {WORD}, (?:#{DECIMAL}, )?{LABEL}|"
       rf"(?!b |bl |cb|tb|adrp)[a-z][a-z0-9]* {ARM_OPERAND}(?:, {ARM_OPERAND}){{0,4}}|\.inst 0x[0-9a-f]{{8}}")
GRAMMARS = {"x86-64": (X86, SHADOW_STACK), "aarch64": (ARM, ())}     # the instructions, and the notes at the end


# ---- a source

class Lines:
    """Reads the lines of a source one after another. `number` is the next line's."""

    def __init__(self, path):
        with open(path, "rb") as file:
            text = file.read().decode("ascii", "replace")
        self.path, self.lines, self.number = path, text.split("\n"), 1
        if self.lines.pop():
            self.number = len(self.lines) + 1
            self.refuse("a last line that doesn't end")

    def next_one(self):
        return self.lines[self.number - 1] if self.number <= len(self.lines) else ""

    def refuse(self, expected):
        raise Unsupported(f"{self.path.rsplit('/', 1)[-1]}:{self.number}: not of the grammar, which wants {expected} "
                          f"here: {self.next_one()[:80]!r}")

    def has(self, pattern):
        """Reads the next line if it matches. Returns the match or None."""
        found = re.fullmatch(pattern, self.next_one(), re.ASCII)
        self.number += bool(found)
        return found

    def take(self, pattern, expected):
        return self.has(pattern) or self.refuse(expected)

    def take_exactly(self, *lines):
        for line in lines:
            self.take(re.escape(line), line.strip())


def expect_grammar(path: str, arch: str) -> None:
    """Refuses a source that doesn't follow the grammar, with the number of the first wrong line."""
    lines, sections, (instructions, notes) = Lines(path), set(), GRAMMARS[arch]
    lines.take(COMMENT, "a comment of one line")
    guard = lines.has(rf"\t\.ifndef ({NAME})")
    guarded, weak = lines.number - 1, set()
    while (found := begun(lines)):
        if found[1] in sections:
            lines.number -= 1
            lines.refuse("a section of another name")
        sections.add(found[1])
        lines.take(ALIGNED, ".p2align")
        if found[1].startswith(".text."):
            weak |= take_function(lines, instructions, found[1].removeprefix(".text."))
        else:
            take_constants(lines)
    if guard:
        lines.take_exactly("\t.endif")
    lines.take_exactly(STACK, *notes, "\t.text")
    if lines.number <= len(lines.lines):
        lines.refuse("the end")
    if guard and guard[1] not in weak:
        lines.number = guarded
        lines.refuse("the name of a weak function of this text")


def begun(lines):
    """Returns the match of a line that begins the section of a function or of constants, or None."""
    return lines.has(rf'\t\.section (\.text\.{NAME}),"ax",@progbits') or lines.has(CONSTANTS)


def take_function(lines, instructions, name):
    """Reads a function. Returns its name in a set if it is weak, else an empty set."""
    name = re.escape(name)
    binding = lines.has(rf"\t\.(globl|weak) {name}")
    if binding and binding[1] == "weak":
        lines.take(rf"\t\.hidden {name}", ".hidden and the function's name")
    lines.take(rf"\t\.type {name},@function", ".type and the section's function")
    lines.take(f"{name}:", "the function's name")
    lines.take_exactly("\t.cfi_startproc")
    while lines.has(rf"\t(?:{instructions})|{LABEL}:|{FRAME}"):
        expect_bytes(lines)
    lines.take(r"\t\.cfi_endproc", "one instruction, a label, a frame or the function's end")
    lines.take(rf"\t\.size {name},\.-{name}", ".size and the function's name")
    return {name.replace("\\", "")} if binding and binding[1] == "weak" else set()


def take_constants(lines):
    lines.take("|".join([f"{LABEL}:", *NUMBERS]), "a label or words")
    expect_bytes(lines)
    while lines.has("|".join([f"{LABEL}:", *NUMBERS])):
        expect_bytes(lines)


def expect_bytes(lines):
    """Checks that the numbers in the last line, if it is a `.byte` line, are below 256."""
    line = lines.lines[lines.number - 2]
    if line.startswith("\t.byte ") and any(int(x) >= BYTE for x in line[7:].split(",")):
        lines.number -= 1
        lines.refuse("bytes")
