"""Planted faults that only the grammar refuses: each is a committed source with other lines that GNU as assembles."""
import os
import re

from oracle.symbolic_terms import TOP

from .grammar import expect_grammar
from .planted import Asked, Wrong
from .sources import by_gnu, expect_alike

C, CARGO, ARM = (
    os.path.join(TOP, *path)
    for path in (("c", "asm", "x86-64-v2.s"), ("rust", "asm", "x86-64.s"), ("c", "asm", "aarch64.s"))
)
BODY = r"(?<=\t\.cfi_startproc\n)"
GUARD = r"\t\.ifndef .*\n"


def put(*lines, place=BODY, behind="\t"):
    """Returns a change that replaces the first match of a pattern by lines."""
    return lambda text: re.sub(place, lambda _: "".join(f"{behind}{line}\n" for line in lines), text, count=1)


IN_X86 = [
    ("two instructions on a line", put("nop; xor %edx,%edx")),
    ("an instruction behind a directive", put(".p2align 0; xor %edx,%edx")),
    ("code that GNU as leaves out and others don't", put(".ifndef .gasversion.", "xor %edx,%edx", ".endif")),
    ("a condition on a number", put(".if 0", "xor %edx,%edx", ".else", ".endif")),
    ("a macro", put(".macro more", "xor %edx,%edx", ".endm", "more")),
    ("lines that are repeated", put(".rept 2", "xor %edx,%edx", ".endr")),
    ("a symbol that is set", put("five = 5", "mov $five,%eax")),
    ("a symbol that is set by a directive", put(".set five,5", "mov $five,%eax")),
    ("another file", put('.include "/dev/null"')),
    ("another encoding", put("{disp32} mov (%rdi),%rax")),
    ("a prefix as a line", put("lock", "incl (%rdi)")),
    ("a prefix before an instruction", put("rep ret")),
    ("another syntax", put(".intel_syntax noprefix", "mov rax,rdx", ".att_syntax prefix")),
    ("code for another mode", put(".code32", ".code64")),
    ("a comment behind an instruction", put("xor %edx,%edx # nothing")),
    ("a comment over lines", put("/* nothing", "xor %edx,%edx", "*/")),
    ("a line by which compilers name a file", put('# 1 "elsewhere.s"', behind="")),
    (
        "another section inside of a function",
        put(".text", "xor %edx,%edx", ".section .text.twox_plain.xxhash32.rounds.products_of_block"),
    ),
    ("another section that is kept in mind", put('.pushsection .init,"ax"', "xor %edx,%edx", ".popsection")),
    ("a part of a section", put(".subsection 1", "xor %edx,%edx", ".previous")),
    ("zeros as instructions", put(".zero 8")),
    ("filling inside of a function", put(".p2align 5")),
    ("a place that is left out", put(".org .+8")),
    ("a label by a number", put("jmp 1f", "1:")),
    ("a way to a distance from a label", put("jmp .+2")),
    ("a way by an address in memory", put("jmp *(%rdi)")),
    ("a way by the table of the linker", put("call memcpy@GOTPCREL(%rip)")),
    ("a byte that is none", put(".byte -1")),
    ("a relocation by hand", put(".reloc .,R_X86_64_NONE,memcpy")),
    ("a second name of a function", put(".globl XXH_more", "XXH_more:")),
    ("a name that the loader asks a function for", put(".type XXH_versionNumber,@gnu_indirect_function")),
    ("another version of a name", put(".symver XXH32,XXH32@@OLD")),
    ("who is called where a stack is unwound", put(".cfi_personality 0x1b,memcpy")),
    ("a frame in bytes", put(".cfi_escape 0x16,6,2,0x76,0x0")),
    (
        "the end of the text within it",
        lambda text: text.replace("\t.section .note.GNU-stack", "\t.end\n\t.section .note.GNU-stack"),
    ),
    ("a last line that doesn't end", lambda text: text[:-1]),
    ("a text without a comment", put(place=r"\A/\*.*\n")),
    (
        "a section that is begun twice",
        lambda text: text.replace(
            "\t.section .note.GNU", '\t.section .text.XXH32,"ax",@progbits\n\t.p2align 0\n\t.section .note.GNU'
        ),
    ),
    ("a function that isn't aligned", put(place=r"\t\.p2align \d\n(?=\t\.globl)")),
    ("code behind the end", lambda text: text + "\tnop\n"),
    ("an instruction behind a name", lambda text: text.replace("\nXXH32:\n", "\nXXH32: nop\n")),
    (
        "a function without frames",
        lambda text: re.sub(
            r"(\nXXH_versionNumber:\n)\t\.cfi_startproc\n((?:\t[^.].*\n)*)\t\.cfi_endproc\n", r"\1\2", text
        ),
    ),
    ("a byte of more bits", put(".byte 300")),
    ("a byte of more bits among constants", put(".byte 300", place=r"(?<=\.L96_0:\n)")),
    (
        "constants that aren't there",
        lambda text: text.replace(
            "\t.section .note.GNU", '\t.section .rodata.more,"a",@progbits\n\t.p2align 4\n\t.section .note.GNU'
        ),
    ),
    ("a function of another size", lambda text: text.replace(".size XXH32,.-XXH32", ".size XXH32,1")),
    (
        "a function under another section's name",
        put('.section .text.elsewhere,"ax",@progbits', place=r"\t\.section \.text\.XXH_versionNumber.*\n"),
    ),
]
IN_CARGO = [
    ("a guard that GNU as alone knows", put(".ifndef .gasversion.", place=GUARD)),
    ("a guard by a name that the text hasn't", put(".ifndef memcpy", place=GUARD)),
    (
        "a guard by a function that isn't weak",
        put(".ifndef twox_plain.xxhash32.rounds.products_of_block.i5", place=GUARD),
    ),
    ("a second guard", put(".ifndef twox_rust_7_more", ".endif", place=r"(?<=\n)(?=\t\.section)")),
    ("a weak name that isn't hidden", put(place=r"\t\.hidden .*\n")),
]
IN_ARM = [
    ("two instructions on a line", put("nop; mov x2, #0")),
    ("an instruction behind a sign of another system", put("%% mov x2, #0")),
    ("a constant that the assembler places", put("ldr x9, =0x123456789")),
    ("an alias of a register", put("five .req x5", "mov five, #0", behind="")),
    ("another set of instructions", put(".arch armv8.2-a+sha3")),
    ("code that GNU as leaves out and others don't", put(".ifndef .gasversion.", "mov x2, #0", ".endif")),
    ("a comment behind an instruction", put("mov x2, #0 // nothing")),
]
# Lines that GNU as assembles otherwise than clang and rustc.
OTHERWISE = [
    ("what other assemblers refuse", put(".nolist", ".list")),
    ("code that GNU as leaves out", put(".ifndef .gasversion.", "nop", ".endif")),
    ("code that GNU as alone has", put(".ifdef .gasversion.", "nop", ".endif")),
]
NOT_ASSEMBLED = {"an instruction behind a sign of another system", "a way by the table of the linker"}


class AskedLines(Asked):
    """Tests a planted fault that the grammar must refuse, or with `is_alike` the comparison of objects."""

    def __init__(self, source, arch, what, change, is_alike=False):
        message = "by GNU as and by|refuses the text" if is_alike else r"^wrong\.s:\d+: not of the grammar"
        super().__init__(Wrong(what, change, None, message), source, None, arch)
        self.is_alike = is_alike

    def run(self, path, workdir):
        if self.title not in NOT_ASSEMBLED:
            by_gnu(path, self.arch, workdir)
        if self.is_alike:
            expect_alike([(path, self.arch)])
        else:
            expect_grammar(path, self.arch)


X86_ASKED = [
    *(AskedLines(C, "x86-64", *wrong) for wrong in IN_X86),
    *(AskedLines(CARGO, "x86-64", *wrong) for wrong in IN_CARGO),
]
ARM_ASKED = [AskedLines(ARM, "aarch64", *wrong) for wrong in IN_ARM]
X86_ALIKE, ARM_ALIKE = (
    [AskedLines(source, arch, *wrong, True) for source in sources for wrong in OTHERWISE]
    for arch, sources in (("x86-64", (C, CARGO)), ("aarch64", (ARM,)))
)
