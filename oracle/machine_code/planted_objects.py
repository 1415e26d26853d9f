"""Planted faults that only the list of an object's contents (object_contents.py) refuses, or the tasks of exports,
twins and frames: each is a committed source with other lines, and its executed instructions are unchanged."""
import os
from typing import Callable

from oracle.symbolic_terms import TOP, NotShown

from . import calls, exports
from .aarch64 import objects, table
from .instructions import V1, V3
from .objects import Program
from .planted import VERSION, Asked, Wrong, begun, ended, request, substituted
from .processor import Processor
from .unwinding import expect_frames
from .values import Cpu

ARM = "aarch64"
X86_SOURCE, ARM_SOURCE = (os.path.join(TOP, "c", "asm", f"{name}.s") for name in (V3, ARM))
PROPERTY = "\t.long 4,16,5\n", "\t.long 0xc0000002,4,2,0\n"


def exchanged(old, new):
    """Returns a change that replaces all matches of a text, which must occur."""

    def change(text):
        if old not in text:
            raise NotShown(f"the text has no {old}")
        return text.replace(old, new)

    return change


def in_section(name: str, *lines: str) -> Callable[[str], str]:
    return ended(f".section {name}", *lines)


def local(name: str) -> Callable[[str], str]:
    return exchanged(f"\t.globl {name}\n", "")


def with_property(length, *values):
    """Returns a change that gives the note other properties of `length` bytes."""
    return lambda text: exchanged(PROPERTY[1], "".join(f"\t.long {word}\n" for word in values))(
        exchanged(PROPERTY[0], f"\t.long 4,{length},5\n")(text)
    )


# ---- tests


def of_object(cpu: Cpu) -> None:
    """Reads the object, as every task does first, and runs the version's call."""
    calls.version(cpu)


def of_exports(cpu):
    exports.expect_all(cpu.program, exports.shown_by().values())


def of_twins(cpu: Cpu) -> None:
    exports.expect_twins(cpu.program)


def of_frames(cpu):
    expect_frames(cpu.program)


LISTED = [
    ("code that runs before a program", in_section('.init,"ax",@progbits', "nop"), "the section .init"),
    ("code that runs behind a program", in_section('.fini,"ax",@progbits', "nop"), "the section .fini"),
    (
        "places of what runs before a program",
        in_section('.ctors,"a",@progbits', ".quad 0x401000"),
        "the section .ctors",
    ),
    (
        "places that are called before all else",
        in_section('.preinit_array,"a",@progbits', ".quad 0x401000"),
        "the section .preinit_array",
    ),
    ("a stack that may be run", exchanged('.note.GNU-stack,""', '.note.GNU-stack,"x"'), "the section .note.GNU-stack"),
    ("a text that says nothing of its stack", exchanged('\t.section .note.GNU-stack,"",@progbits\n', ""), "no note"),
    (
        "another note",
        in_section('.note.more,"a",@note', ".long 4,4,1", '.asciz "GNU"', ".long 0"),
        "the section .note.more",
    ),
    ("an export that is hidden", ended(".hidden XXH32"), "XXH32 of the binding 1 and visibility 2"),
    ("an export that stays within its library", ended(".protected XXH32"), "visibility 3"),
    ("an export that is weak", exchanged(".globl XXH32\n", ".weak XXH32\n"), "XXH32 of the binding 2"),
    ("a function of another library that is hidden", ended(".hidden memcpy"), "memcpy, which isn't here, or is weak"),
    (
        "a function that the loader asks where it is",
        exchanged(
            "\t.type twox_plain.xxhash64.rounds.impl_long,@function\n",
            "\t.type twox_plain.xxhash64.rounds.impl_long,@gnu_indirect_function\n",
        ),
        "another system|of kind 10",
    ),
    ("a function of another size", exchanged(".size XXH32,.-XXH32", ".size XXH32,1"), "isn't all of"),
    (
        "two functions in a section",
        begun(VERSION, "nop", "ret", ".type second,@function", "second:", "ret", ".size second,1"),
        "isn't all of .text.XXH_versionNumber",
    ),
    ("code that is no function", in_section('.text.more,"ax",@progbits', "nop"), "which is no function"),
    (
        "constants at another multiple than their size",
        exchanged(
            '.section .rodata.cst16,"aM",@progbits,16\n\t.p2align 4',
            '.section .rodata.cst16,"aM",@progbits,16\n\t.p2align 5',
        ),
        "entries of .rodata.cst16",
    ),
    ("a number as a name", ended("number = 7", ".type number,@function"), "a place in no section"),
]
OF_X86 = [
    (
        "a note that asks for another processor",
        with_property(32, "0xc0000002,4,2,0", "0xc0008002,4,15,0"),
        "a property beyond",
    ),
    ("a note of jumps that the text doesn't mark", with_property(16, "0xc0000002,4,3,0"), "a property beyond"),
    (
        "a text that says nothing of shadow stacks",
        exchanged(PROPERTY[1], "\t.long 0xc0010001,4,1,0\n"),
        "a property beyond",
    ),
]
OF_ARM = [
    (
        "a note of jumps that the text doesn't mark",
        in_section(
            '.note.gnu.property,"a",@note', ".p2align 3", ".long 4,16,5", '.asciz "GNU"', ".long 0xc0000000,4,1,0"
        ),
        "other notes",
    ),
    (
        "another place of a mergeable constant",
        substituted(r"(?s)(adrp (x\d+), \.L\d+_)10\n(.*?:lo12:\.L\d+_)10\]", r"\g<1>0+16\n\g<3>0+16]"),
        "a linker may move",
    ),
]
OF_ARM.append(
    (
        "a constant at no multiple of its size",
        lambda text: substituted(r"(?s)(adrp (x\d+), )(\.L\d+_0)\n(.*?:lo12:)\3\]", r"\1.L999_3\n\4.L999_3]")(
            in_section('.rodata.more,"a",@progbits', ".p2align 4", ".byte 1,2,3", ".L999_3: .quad 1,2")(text)
        ),
        "may be no multiple of 16",
    )
)
WITH_BYTES = [
    (
        "vzeroupper in bytes that a processor refuses",
        begun(VERSION, ".byte 0xc5,0xfa,0x77"),
        "c5fa77, which aren't its own",
    ),
    (
        "a move in the bytes of another assembler",
        begun(VERSION, ".byte 0x48,0x8b,0xc7"),
        "488bc7, which aren't its own",
    ),
    (
        "nothing to do in bytes that are kept for other uses",
        begun(VERSION, ".byte 0x0f,0x19,0xc0"),
        "which aren't its own",
    ),
]
ARM_BYTES = [("a product whose fixed bits are others", begun(VERSION, ".inst 0x9bc10009"), "which aren't its own")]
SHARED = [
    *((what, change, of_object, message) for what, change, message in LISTED),
    ("an export that is missing", local("XXH64_update"), of_exports, "XXH64_update isn't exported"),
    (
        "a frame of another depth",
        substituted(r"^\t\.cfi_def_cfa_offset \d+$", "\t.cfi_def_cfa_offset 8000"),
        of_frames,
        "another frame",
    ),
    ("a frame that lacks a register", substituted(r"^\t\.cfi_offset .*\n", ""), of_frames, "another frame"),
    ("a register that stays away", substituted(r"^\t\.cfi_restore .*\n", ""), of_frames, "another frame"),
    (
        "a function without frames",
        substituted(r"^\t\.cfi_startproc\n((?:\t[^.].*\n)*)\t\.cfi_endproc\n", r"\1"),
        of_frames,
        "or none of",
    ),
    (
        "who is called where a stack is unwound",
        substituted(r"(?<=^\t\.cfi_startproc\n)", "\t.cfi_personality 0x1b,memcpy\n"),
        of_frames,
        "the table of frames",
    ),
]
OF_FRAMES = [
    (
        "a register that is changed where the table has the caller's",
        begun(VERSION, "mov %rbx,%r11", "xor %ebx,%ebx", "mov %r11,%rbx"),
        of_frames,
        "register 3 isn't at its place",
    ),
    (
        "a register that is stored, and of which the table has nothing",
        begun(
            VERSION,
            "push %rax",
            ".cfi_def_cfa_offset 16",
            "mov %rbx,(%rsp)",
            "xor %ebx,%ebx",
            "mov (%rsp),%rbx",
            "pop %rax",
            ".cfi_def_cfa_offset 8",
        ),
        of_frames,
        "register 3 isn't at its place",
    ),
    (
        "another value in a stored register's place",
        begun(
            VERSION,
            "push %rbx",
            ".cfi_def_cfa_offset 16",
            ".cfi_offset 3,-16",
            "movq $0x0,(%rsp)",
            "nop",
            "pop %rbx",
            ".cfi_def_cfa_offset 8",
            ".cfi_restore 3",
        ),
        of_frames,
        "register 3 isn't at -16",
    ),
    ("a return address that is written to", begun(VERSION, "mov %rax,0x4(%rsp)"), of_frames, "register 16 isn't at -8"),
    (
        "a stored register below the stack pointer",
        begun(VERSION, "mov %rbx,-0x8(%rsp)", ".cfi_offset 3,-16", "nop", ".cfi_restore 3"),
        of_frames,
        "register 3 isn't at -16",
    ),
    (
        "a frame of another register",
        begun(VERSION, "nop", ".cfi_offset 0,-16"),
        of_frames,
        "another frame than the table's: of",
    ),
    (
        "another frame at a function's beginning",
        begun(VERSION, ".cfi_def_cfa_offset 16"),
        of_frames,
        "at its beginning",
    ),
    (
        "a stack pointer from another register",
        begun(VERSION, "mov %rsp,%rax", "mov %rax,%rsp"),
        of_frames,
        "the stack pointer is",
    ),
]
ARM_FRAMES = [
    (
        "a register that is changed where the table has the caller's",
        begun(VERSION, "mov x9, x19", "mov x19, #0", "mov x19, x9"),
        of_frames,
        "register 19 isn't at its place",
    ),
    (
        "a return address that a call changes",
        begun(VERSION, "mov x9, x30", "bl memcpy", "mov x30, x9"),
        of_frames,
        "register 30",
    ),
    (
        "a vector that is changed where the table has the caller's",
        begun(VERSION, "fmov x9, d8", "fmov d8, x9"),
        of_frames,
        "register 72 isn't at its place",
    ),
    (
        "another value in a stored register's place",
        begun(
            VERSION,
            "str x19, [sp, #-16]!",
            ".cfi_def_cfa_offset 16",
            ".cfi_offset 19,-16",
            "str xzr, [sp]",
            "nop",
            "ldr x19, [sp], #16",
            ".cfi_def_cfa_offset 0",
            ".cfi_restore 19",
        ),
        of_frames,
        "register 19 isn't at -16",
    ),
]
TEXTS = [
    *SHARED,
    *OF_FRAMES,
    *((what, change, of_object, message) for what, change, message in [*OF_X86, *WITH_BYTES]),
    (
        "another value under a second name",
        begun("XXH128", "xor %eax,%eax", "xor %edx,%edx", "ret"),
        of_twins,
        "XXH128 has other code",
    ),
]
ARM_TEXTS = [
    *SHARED,
    *ARM_FRAMES,
    (
        "a value by where the secret lies beside the message",
        begun("XXH3_64bits_withSecret", "sub x9, x0, x2", "cmp x9, #8", "b.cs 1f", "mov x0, #0", "ret", "1:"),
        request("3-64", "secret", 40, 136),
        "< 8",
    ),
    *((what, change, of_object, message) for what, change, message in [*OF_ARM, *ARM_BYTES]),
    (
        "another value under a second name",
        begun("XXH128", "mov x0, #0", "mov x1, #0", "ret"),
        of_twins,
        "XXH128 has other code",
    ),
]


X86_ASKED = [Asked(Wrong(*wrong), X86_SOURCE, lambda path: Processor(Program(path), V3), V1) for wrong in TEXTS]
ARM_ASKED = [
    Asked(Wrong(*wrong), ARM_SOURCE, lambda path: table.Processor(objects.Program(path)), ARM) for wrong in ARM_TEXTS
]
