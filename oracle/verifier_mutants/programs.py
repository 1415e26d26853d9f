"""Tests of reading a program: operands, instructions, relocations, constants and names of an object, the assemblers,
and the frames at each instruction. Each takes a random generator, which it doesn't use, and raises Wrong."""
import contextlib
import os
import struct
import tempfile
import types
import unittest.mock
from typing import Any

from oracle.machine_code import disassembly, exports, instructions, object_contents, objects, sources, unwinding
from oracle.machine_code.instructions import TABLE
from oracle.machine_code.object_contents import Loaded
from oracle.machine_code.objects import Immediate, Instruction, Place, Program, Register
from oracle.symbolic_terms import NotShown, Unsupported

from . import choices, contents
from .processors import instruction
from .readers import CODE, RELOCATIONS, SECTIONS, SYMBOLS, elf
from .values import expect, refuses

patched = unittest.mock.patch.object
REFUSED = (Unsupported,)


def operands_of_text(_):
    """Tests operands as objdump prints them."""
    for text, expected in (
        ("$0x5", Immediate(5)),
        ("$0xffffffffffffffff", Immediate((1 << 64) - 1)),
        ("%rax", Register("rax")),
        ("%zmm31", Register("zmm31")),
        ("(%rdi)", Place(0, "rdi", None, 1)),
        ("0x8(%rdi)", Place(8, "rdi", None, 1)),
        ("-0x10(%rsp)", Place(-16, "rsp", None, 1)),
        ("(%rdi,%rsi,4)", Place(0, "rdi", "rsi", 4)),
        ("0x18(%r8,%r9,8)", Place(24, "r8", "r9", 8)),
        ("0x0(,%rax,2)", Place(0, None, "rax", 2)),
        ("0x0(%rip)", Place(0, "rip", None, 1)),
        ("(%rdi,%rsi,1)", Place(0, "rdi", "rsi", 1)),
    ):
        expect(objects.operand(text) == expected, True, f"the operand {text}")
    for text in ("0x5", "*%rax", "(%rdi,%rsi,3)", "(%rdi", "f", "{%k1}", "(%rdi,%rsi)", "0x8(%rdi) ", ""):
        refuses(lambda: objects.operand(text), f"the operand {text}", REFUSED)
    for text, expected in (
        ("", ()),
        ("%rax", (Register("rax"),)),
        ("%rax,%rbx", (Register("rax"), Register("rbx"))),
        ("(%rdi,%rsi,8),%rax", (Place(0, "rdi", "rsi", 8), Register("rax"))),
        ("$0x1,0x8(%rdi,%rsi,8),%rax", (Immediate(1), Place(8, "rdi", "rsi", 8), Register("rax"))),
        ("%xmm1,(%rdi,%rcx,1)", (Register("xmm1"), Place(0, "rdi", "rcx", 1))),
    ):
        expect(objects.operands(text) == expected, True, f"the operands {text}")
    for text, expected in (
        ("ret", ("ret", "")),
        ("mov %rax,%rbx", ("mov", "%rax,%rbx")),
        ("lea 0x0(%rip),%rax        # b <f+0xb>", ("lea", "0x0(%rip),%rax")),
        ("ret    ", ("ret", "")),
        ("data16 cs nopw 0x0(%rax,%rax,1)", ("nopw", "0x0(%rax,%rax,1)")),
        ("cs nopw 0x0(%rax)", ("nopw", "0x0(%rax)")),
        ("data16 mov %ax,%bx", ("data16", "mov %ax,%bx")),
        ("data16", ("data16", "")),
        ("cs", ("cs", "")),
        ("rep ret", ("rep", "ret")),
        ("data16 data16 nop", ("nop", "")),
        ("xchg   %ax,%ax", ("xchg", "%ax,%ax")),
    ):
        expect(objects.split(text) == expected, True, f"the parts of {text}")
    for mnemonic, rest, expected in (
        ("vpmullq", "(%rdi){1to8},%zmm0,%zmm1", ("vpmullq{1to8}", "(%rdi),%zmm0,%zmm1")),
        ("add", "%rax,%rbx", ("add", "%rax,%rbx")),
        ("vpmullq", "(%rdi){1to16},%zmm0", ("vpmullq{1to16}", "(%rdi),%zmm0")),
        ("vmovdqu8", "(%rdi){%k1},%zmm0", ("vmovdqu8", "(%rdi){%k1},%zmm0")),
    ):
        expect(objects.with_broadcast(mnemonic, rest) == expected, True, f"a broadcast of {rest}")


def instructions_of_text(_):
    """Tests instructions with and without relocations: their targets, and which are refused."""
    program: Any
    program = types.SimpleNamespace(
        relocations={"f": {12: ("symbol", -4), 11: ("other", 5)}}, target_of=lambda symbol, addend: (symbol, addend)
    )

    def found(text, places=(), at=8, end=16):
        return Program.instruction(program, "f", at, end, text, list(places))

    rax, rbx = Register("rax"), Register("rbx")
    for text, places, mnemonic, operands, target in (
        ("mov %rax,%rbx", (), "mov", (rax, rbx), None),
        ("ret", (), "ret", (), None),
        ("nopw 0x0(%rax)", (), "nop", (), None),
        ("nop", (), "nop", (), None),
        ("xchg %ax,%ax", (), "nop", (), None),
        ("jmp 1f <f+0x1f>", (), "jmp", (), ("f", 31)),
        ("je 8 <f+0x8>", (), "je", (), ("f", 8)),
        ("call 20", (), "call", (), ("f", 32)),
        ("call 10 <f+0x10>", (12,), "call", (), ("symbol", 0)),
        ("lea 0x0(%rip),%rax        # 10 <f+0x10>", (12,), "lea", (Place(0, "rip", None, 1), rax), ("symbol", 0)),
        (
            "vpmullq (%rdi){1to8},%zmm0,%zmm1",
            (),
            "vpmullq{1to8}",
            (Place(0, "rdi", None, 1), Register("zmm0"), Register("zmm1")),
            None,
        ),
    ):
        expect(
            found(text, places) == Instruction("f", 8, 16, mnemonic, operands, target),
            True,
            f"the instruction {text}: {found(text, places)}",
        )
    expect(
        found("xchg %rax,%rbx").mnemonic == "xchg" and found("jmp 0", (11,), end=15).target == ("other", 5 + 4),
        True,
        "other instructions",
    )
    for text, places, end in (
        ("nop", (12,), 16),
        ("nopw 0x0(%rip)", (12,), 16),
        ("jmp *%rax", (), 16),
        ("call *0x8(%rax)", (), 16),
        ("jmp", (), 16),
        ("mov %rax,%rbx", (12,), 16),
        ("lea 0x0(%rip),%rax", (), 16),
        ("lea 0x8(%rip),%rax", (12,), 16),
        ("mov $0x1,0x0(%rip)", (12,), 16),
        ("call 10", (11,), 16),
        ("lea 0x0(%rip),%rax", (11,), 16),
        ("call 10", (11, 12), 16),
        ("mov 0x0(%rip),0x8(%rax)", (12,), 16),
        ("jxx", (), 16),
    ):
        refuses(lambda: found(text, places, end=end), f"the instruction {text} with relocations at {places}", REFUSED)


def sections_of_text(_):
    """Tests that the instructions of a section cover all of its bytes and relocations."""

    end: Any
    first: Any
    found: Any
    holds: Any
    more: Any
    program: Any
    section: Any
    some: Any
    what: Any

    def reads(lines: Any, body=b"\x01\x02\x03\x04\x05", relocations=()):
        asked: Any
        found: Any
        program: Any
        asked = []
        program = types.SimpleNamespace(
            object=types.SimpleNamespace(body=lambda head: body if head == "head" else b""),
            heads={"f": "head"},
            relocations={"f": dict.fromkeys(relocations)},
            instruction=lambda *of: asked.append(of) or of[-1],
        )
        found = Program.read(program, "f", lines)
        return found, asked

    lines = [(0, b"\x01\x02", "a"), (2, b"\x03", "b"), (3, b"\x04\x05", "c")]
    found, asked = reads(lines, relocations=(1, 4))
    expect(
        [*found] == [0, 2, 3] and asked == [("f", 0, 2, "a", [1]), ("f", 2, 3, "b", []), ("f", 3, 5, "c", [4])],
        True,
        "instructions of a section",
    )
    for what, some, more in (
        ("a gap", lines[1:], {}),
        ("a last one missing", lines[:2], {}),
        ("other bytes", [(0, b"\x01\x03", "a"), *lines[1:]], {}),
        ("another address", [lines[0], (1, b"\x03", "b"), lines[2]], {}),
        ("bytes that follow", lines, {"body": b"\x01\x02\x03\x04\x05\x06"}),
        ("a relocation behind the end", lines, {"relocations": (5,)}),
        ("no instructions", [], {}),
        ("one in the middle missing", [lines[0], lines[2]], {}),
    ):
        refuses(lambda: reads(some, **more), f"a section with {what}", REFUSED)
    expect(reads([], b"")[0] == {}, True, "an empty section")
    program = types.SimpleNamespace(relocations={"f": {4: 1}})
    for first, end, holds in ((0, 4, False), (0, 5, True), (4, 5, True), (5, 8, False), (4, 4, False), (3, 8, True)):
        expect(Program.is_relocated(program, "f", first, end), holds, f"a relocation from {first} to {end}")
    code = types.SimpleNamespace(name=".text.f", flags=object_contents.CODE)
    for found, flags, is_right in (
        ([(4, 2, "s", -4), (9, 4, "t", 0)], code.flags, True),
        ([(4, 1, "s", -4)], code.flags, False),
        ([(4, 2, "s", -4), (4, 2, "t", 0)], code.flags, False),
        ([(4, 2, "s", -4)], 2, False),
        ([], 2, True),
    ):
        program = types.SimpleNamespace(RELOCATIONS=Program.RELOCATIONS, relocations_in=lambda _, found=found: found)
        section = types.SimpleNamespace(name="f", flags=flags)
        if is_right:
            expect(
                Program.relocations_of(program, section)
                == {place: (symbol, addend) for place, _, symbol, addend in found},
                True,
                "relocations",
            )
        else:
            refuses(lambda: Program.relocations_of(program, section), f"the relocations {found}", REFUSED)
    expect(Program.RELOCATIONS == (2, 4) and Program.title_of("x") == "x", True, "kinds of relocations")


def listings(_):
    """Tests what is read of objdump's output, and how it is called."""
    text = (
        "\nf.o:     file format elf64-x86-64\n\n\nDisassembly of section .text.f:\n\n0000000000000000 <f>:\n"
        "   0:\t48 89 c3             \tmov    %rax,%rbx\n   3:\tc3                   \tret\n"
        "  1f:\t06                   \t(bad)\n  20:\t0f 0b \nDisassembly of section .text.g:\n"
        "   0:\t90                   \tnop\n\t...\n"
    )
    asked = []

    def ran(command, **more):
        asked.append((command, more))
        return types.SimpleNamespace(stdout=text)

    with patched(objects.subprocess, "run", ran):
        found = objects.listing("path")
        expect(
            found
            == {
                ".text.f": [
                    (0, b"\x48\x89\xc3", "mov    %rax,%rbx"),
                    (3, b"\xc3", "ret"),
                    (31, b"\x06", "(bad)"),
                    (32, b"\x0f\x0b", "no instruction"),
                ],
                ".text.g": [(0, b"\x90", "nop")],
            },
            True,
            f"a listing: {found}",
        )
        expect(
            objects.listing("path", "other", ["-x"], order=-1)[".text.f"][0][1] == b"\xc3\x89\x48",
            True,
            "the last byte first",
        )
    expect(
        asked[0] == (["objdump", "-d", "-z", "-w", "path"], {"check": True, "capture_output": True, "text": True})
        and asked[1][0] == ["other", "-d", "-z", "-w", "-x", "path"],
        True,
        "objdump's options",
    )


@contextlib.contextmanager
def file_of(data):
    with tempfile.NamedTemporaryFile() as file:
        file.write(data)
        file.flush()
        yield file.name


class Free(Loaded):
    """Reads an object with other contents than a source's."""

    def expect_listed(self):
        pass


class FreeProgram(Program):
    def expect_listed(self):
        pass


WHOLE = [
    *SECTIONS,
    (".rodata", 1, 2, b"0123456789", 0, 0, 4, 0),
    (".eh_frame", 1, 2, b"12345678", 0, 0, 8, 0),
    (".data.x", 1, 3, b"12", 0, 0, 1, 0),
    (".comment", 1, 0, b"12", 0, 0, 1, 0),
    (".text.g", 1, 6, b"\xc3", 0, 0, 16, 0),
    (".rodata.cst8", 1, 0x12, b"0123456789abcdef", 0, 0, 32, 8),
    (".rodata.empty", 1, 2, b"", 0, 0, 1, 0),
]
NAMES = [*SYMBOLS, ("h", 0x02, 0, 11, 0, 1), ("k", 0x11, 0, 3, 0, 16)]


def loaded_objects(_):
    """Tests the sections, constants, names and relocations of an object."""
    with file_of(elf(WHOLE, NAMES)) as path:
        found = Free(path)
        expect(
            [*found.heads] == [".text.f", ".rodata.cst16", ".rodata", ".data.x", ".text.g", ".rodata.cst8"],
            True,
            f"loaded sections: {[*found.heads]}",
        )
        data = SECTIONS[2][3]
        expect(
            found.constants
            == {
                ".rodata.cst16+0": (data[:16], 16),
                ".rodata.cst16+16": (data[16:], 16),
                ".rodata": (b"0123456789", 4),
                ".rodata.cst8+0": (b"01234567", 8),
                ".rodata.cst8+8": (b"89abcdef", 8),
            },
            True,
            f"constants: {found.constants}",
        )
        expect(
            found.functions == {"f": (".text.f", 0), "g": (".text.f", 4), "h": (".text.g", 0)},
            True,
            f"functions: {found.functions}",
        )
        expect(
            found.exports == {"f": (".text.f", 0), "g": (".text.f", 4)} and found.function("h") == (".text.g", 0),
            True,
            f"exports: {found.exports}",
        )
        refuses(lambda: found.function("memcpy"), "a function that isn't here", REFUSED)
        relocations = list(found.relocations_in(found.heads[".text.f"]))
        expect(
            [(place, proof_class, symbol.name, addend) for place, proof_class, symbol, addend in relocations]
            == [(8, 4, "memcpy", -4), (2, 2, "c", 6)],
            True,
            "relocations",
        )
        expect(list(found.relocations_in(found.heads[".rodata"])) == [], True, "no relocations")
        symbol = {one.name: one for one in found.object.symbols}
        section = types.SimpleNamespace(name="", info=3, section=3, value=0)
        inner = types.SimpleNamespace(name="", info=1, section=3, value=8)
        read_only, lost = (
            types.SimpleNamespace(name="r", info=info, section=number, value=4) for info, number in ((3, 7), (0, 8))
        )
        for of, addend, expected in (
            (symbol["memcpy"], 0, ("memcpy", 0)),
            (symbol["memcpy"], 4, None),
            (symbol["f"], 0, None),
            (symbol["h"], 0, (".text.g", 0)),
            (symbol["h"], 8, (".text.g", 8)),
            (symbol["local"], 4, (".text.f", 16)),
            (symbol["c"], 0, (".rodata.cst16+16", 0)),
            (symbol["c"], 4, None),
            (section, 16, (".rodata.cst16+16", 0)),
            (section, 0, (".rodata.cst16+0", 0)),
            (section, 8, None),
            (section, 32, None),
            (inner, 0, None),
            (inner, 8, None),
            (read_only, 3, (".rodata", 7)),
            (lost, 0, None),
            (types.SimpleNamespace(name="memcmp", info=0x10, section=0), 0, None),
            (types.SimpleNamespace(name="memcpy", info=0x10, section=1), 0, None),
        ):
            if expected:
                expect(found.target_of(of, addend) == expected, True, f"the target of {of.name}{addend:+}")
            else:
                refuses(lambda: found.target_of(of, addend), f"the target of {of.name}{addend:+}", REFUSED)
        expect((found.MACHINE, found.EXPORT) == (62, (1, 0)), True, "a processor's objects")


def other_objects(_):
    """Tests that objects of another processor, or with other contents, are refused."""
    for data, what in (
        (elf(WHOLE, NAMES, machine=183), "another processor"),
        (elf(WHOLE, [*NAMES, ("h", 0x12, 0, 1, 0, 1)]), "two functions of one name"),
    ):
        with file_of(data) as path:
            refuses(lambda: Free(path), f"an object with {what}", REFUSED)
    with file_of(elf(SECTIONS, SYMBOLS)) as path:
        refuses(lambda: Loaded(path), "an object with other contents", REFUSED)


def functions_in_sections(_):
    """Tests that a function is all of a section of code, and that an object says that its stack isn't run."""
    for symbol in (("d", 0x12, 0, 5, 0, 4), ("d", 0x02, 0, 4, 0, 32)):
        symbols = [*contents.SYMBOLS, symbol]
        refuses(lambda: contents.listed(contents.new_object(symbols=symbols)), "a function of constants", REFUSED)
    bss = contents.SECTIONS[13]
    expect((bss[0], contents.SECTIONS[9][0]) == (".bss", ".note.GNU-stack"), True, "sections")
    sections = [*contents.SECTIONS[:9], bss, *contents.SECTIONS[10:13], *contents.SECTIONS[14:]]
    symbols = [(*one[:3], 13, *one[4:]) if one[3] == 14 else one for one in contents.SYMBOLS]
    refuses(
        lambda: contents.listed(contents.new_object(sections, symbols)), "an object whose stack may be run", REFUSED
    )
    contents.listed(contents.new_object([*sections, contents.SECTIONS[9]], symbols))


def whole_programs(_):
    """Tests a program's labels and sections, and that each code section is listed and compared with its text."""
    lines: Any
    sections = [
        (*SECTIONS[0][:3], CODE[:5], *SECTIONS[0][4:]),
        ("x", *SECTIONS[1][1:3], RELOCATIONS[:0], *SECTIONS[1][4:]),
        *WHOLE[2:],
    ]
    lines = {".text.f": [(0, CODE[:3], "mov %rax,%rbx"), (3, CODE[3:5], "nop")], ".text.g": [(0, b"\xc3", "ret")]}
    with file_of(elf(sections, [*NAMES, ("odd", 0, 0, 99, 0, 0), ("last", 0, 0, len(sections) + 4, 0, 0)])) as path:
        for some, is_right in (
            (lines, True),
            ({".text.f": lines[".text.f"]}, False),
            ({**lines, ".text.h": []}, False),
        ):
            compared = []
            with patched(objects, "listing", lambda of: some if of == path else {}), patched(
                objects, "expect_bytes", compared.append
            ):
                if is_right:
                    found = FreeProgram(path)
                    expect(compared == [found] and found.listing is lines, True, "bytes that are compared")
                    expect(
                        {name: [*code] for name, code in found.sections.items()} == {".text.f": [0, 3], ".text.g": [0]},
                        True,
                        "instructions",
                    )
                    expect(
                        found.labels
                        == {
                            "f": (".text.f", 0),
                            "g": (".text.f", 4),
                            "local": (".text.f", 12),
                            "c": (".rodata.cst16", 16),
                            "h": (".text.g", 0),
                            "k": (".rodata.cst16", 0),
                        },
                        True,
                        f"labels: {found.labels}",
                    )
                    expect(found.relocations == dict.fromkeys(found.heads, {}), True, "relocations")
                else:
                    refuses(lambda: FreeProgram(path), "sections that aren't listed", (Unsupported, KeyError))


def assemblers(_):
    """Tests how sources are assembled, and that each assembler must make the same object."""
    asked: Any
    asked = []

    def ran(command, **more):
        asked.append((command, more))
        return types.SimpleNamespace(returncode=status, stderr="a fault\n")

    with patched(sources.subprocess, "run", ran), tempfile.TemporaryDirectory() as workdir:
        status = 0
        for ask, proof_class, name, command in (
            (sources.by_gnu, "x86-64", "gnu.o", ["as", "--no-warn", "a.s", "-o"]),
            (sources.by_gnu, "aarch64", "gnu.o", ["aarch64-linux-gnu-as", "--no-warn", "a.s", "-o"]),
            (sources.by_clang, "x86-64", "clang.o", ["clang", "-c", "--target=x86_64-linux-gnu", "a.s", "-o"]),
            (sources.by_clang, "aarch64", "clang.o", ["clang", "-c", "--target=aarch64-linux-gnu", "a.s", "-o"]),
            (
                sources.by_rustc,
                "x86-64",
                "rustc.o",
                [
                    "rustc",
                    "--crate-type=lib",
                    "--emit=obj",
                    "--target=x86_64-unknown-linux-gnu",
                    os.path.join(workdir, "rustc.rs"),
                    "-o",
                ],
            ),
        ):
            expect(ask("a.s", proof_class, workdir) == os.path.join(workdir, name), True, "the path of an object")
            ((called, more),) = asked
            expect(
                called == [*command, os.path.join(workdir, name)]
                and more["capture_output"]
                and more["text"] is True
                and more["env"]["PATH"] == os.environ["PATH"],
                True,
                f"an assembler: {called}",
            )
            expect(
                more["env"].get("RUSTC_BOOTSTRAP") == ("1" if name == "rustc.o" else os.environ.get("RUSTC_BOOTSTRAP")),
                True,
                "an assembler's environment",
            )
            asked.clear()
        with open(os.path.join(workdir, "rustc.rs"), encoding="utf-8") as file:
            text = file.read()
        expect(
            f'global_asm!(include_str!("{os.path.abspath("a.s")}"), options(att_syntax, raw));' in text
            and "() => {}" in text,
            True,
            "a crate with a source",
        )
        status = 1
        refuses(lambda: sources.by_gnu("a.s", "x86-64", workdir), "a source that isn't assembled", REFUSED)
    with patched(sources, "expect_grammar", lambda *of: asked.append(of)), patched(
        sources, "by_gnu", lambda *of: of[:2]
    ):
        asked.clear()
        expect(
            sources.assembled("a.s", "x86-64", lambda of: ("read", of)) == ("read", ("a.s", "x86-64"))
            and asked == [("a.s", "x86-64")],
            True,
            "an assembled source",
        )


def equal_objects(_):
    """Tests that an object by another assembler that differs is refused, and one that isn't read."""
    known: Any
    name: Any
    objects_of: Any
    other: Any
    seen: Any
    objects_of = {"gnu": {"a": 1}, "clang": {"a": 1}, "rustc": {"a": 1}}
    for name, other in (
        (None, None),
        ("clang", {"a": 2}),
        ("rustc", {"a": 2}),
        ("clang", {}),
        ("rustc", {"a": 1, "b": 1}),
        ("gnu", {}),
    ):
        known = {**objects_of, **({name: other} if name else {})}
        seen = []
        with patched(sources, "parts_of", lambda path: known[path]), patched(
            sources, "by_gnu", lambda *of: seen.append(of[:2]) or "gnu"
        ), patched(sources, "by_clang", lambda *of: seen.append(of[:2]) or "clang"), patched(
            sources, "by_rustc", lambda *of: seen.append(of[:2]) or "rustc"
        ), patched(
            sources, "difference", lambda *_: "another"
        ):
            ask = lambda: sources.expect_alike([("a.s", "x86-64"), ("b.s", "x86-64")])
            if name:
                refuses(ask, f"another object by {name}", (NotShown,))
            else:
                expect(ask(), 4, "equal objects")
                expect(seen == [("a.s", "x86-64")] * 3 + [("b.s", "x86-64")] * 3, True, "assembled sources")
    with file_of(elf(SECTIONS, SYMBOLS)) as path:
        expect(
            {*sources.parts_of(path)} == {".text.f", ".rodata.cst16", ".bss", "names", "notes", "frames"},
            True,
            "parts of an object",
        )
    with file_of(elf([*SECTIONS, SECTIONS[0]], SYMBOLS)) as path:
        refuses(lambda: sources.parts_of(path), "an object that isn't read", REFUSED)


class Frames:
    """A table of frames: of each function, by the place."""

    def __init__(self, frames):
        self.functions = {name: None for name, _ in frames}
        self.frames = frames

    def at(self, section, place):
        return self.frames[section, max(at for name, at in self.frames if name == section and at <= place)]


def followed_functions(_):
    """Tests which instructions of a function are reached, and that each frame is compared with those that follow."""
    change: Any
    is_right: Any
    entry, pushed = unwinding.X86.ENTRY, (16, {16: -8, 3: -16})
    push, pop, ret, nop = (
        instruction(name, *([Register("rbx")] if name in ("push", "pop") else []), size=1)
        for name in ("push", "pop", "ret", "nop")
    )
    code = {
        0: push._replace(at=0, end=1),
        1: instruction("je", target=("f", 4), at=1, size=1),
        2: pop._replace(at=2, end=3),
        3: ret._replace(at=3, end=4),
        4: nop._replace(at=4, end=5),
        5: instruction("jmp", target=("f", 1), at=5, size=1),
        6: nop._replace(at=6, end=7),
    }
    frames = {("f", 0): entry, ("f", 1): pushed, ("f", 3): entry, ("f", 4): pushed, ("f", 6): entry}
    expect(
        unwinding.followed(unwinding.X86, code, "f", Frames(frames)) == {0, 1, 2, 3, 4, 5},
        True,
        "instructions that are reached",
    )
    for change in (
        {("f", 0): pushed},
        {("f", 1): entry},
        {("f", 3): pushed},
        {("f", 4): entry},
        {("f", 2): (24, pushed[1])},
        {("f", 5): entry},
    ):
        refuses(
            lambda: unwinding.followed(unwinding.X86, code, "f", Frames({**frames, **change})),
            f"another frame: {change}",
            (NotShown,),
        )
    for change, is_right in (
        ({5: instruction("jmp", target=("g", 0), at=5, size=1)}, False),
        ({5: instruction("jmp", target=("g", 0), at=5, size=1), 4: pop._replace(at=4, end=5)}, None),
        ({3: instruction("ud2", at=3, size=1)}, True),
        ({5: instruction("call", target=("g", 0), at=5, size=1)}, False),
        ({3: nop._replace(at=3, end=4)}, False),
        ({2: nop._replace(at=2, end=3)}, False),
    ):
        ask = lambda: unwinding.followed(
            unwinding.X86,
            {**code, **change},
            "f",
            Frames({**frames, **({("f", 5): entry} if is_right is None else {})}),
        )
        if is_right is False:
            refuses(ask, f"a function with {change}", (NotShown, LookupError))
        else:
            ask()
    deep = {0: code[0], 1: ret._replace(at=1, end=2)}
    refuses(
        lambda: unwinding.followed(unwinding.X86, deep, "f", Frames({("f", 0): entry, ("f", 1): pushed})),
        "a return from another frame",
        (NotShown,),
    )
    for at, table_frames in ((0, {("f", 0): (16, entry[1])}), (0, {("f", 0): (8, {})})):
        refuses(
            lambda: unwinding.followed(unwinding.X86, {at: ret}, "f", Frames(table_frames)),
            "another frame at the beginning",
            (NotShown,),
        )


def whole_frames(_):
    """Tests that each code section has its frames, and that their number is that of the reached instructions."""
    asked: Any
    heads = {
        "f": types.SimpleNamespace(flags=object_contents.CODE),
        "g": types.SimpleNamespace(flags=object_contents.CODE),
        "c": types.SimpleNamespace(flags=object_contents.CONSTANTS),
    }
    for names, error, is_right in (
        ("fg", None, True),
        ("f", None, False),
        ("fgh", None, False),
        ("fgc", None, False),
        ("fg", ValueError(), False),
        ("fg", LookupError(), False),
        ("fg", struct.error(), False),
    ):
        program, asked = (
            types.SimpleNamespace(heads=heads, sections={"f": "code f", "g": "code g"}, object="object"),
            [],
        )

        def table(of):
            expect(of == "object", True, "an object's table")
            if error:
                raise error
            return types.SimpleNamespace(functions=dict.fromkeys(names))

        for processor in (None, "another"):
            if processor:
                program.frames = processor
            with patched(unwinding, "Table", table), patched(
                unwinding, "followed", lambda *of: asked.append(of[:3]) or {1, 2, 3}
            ):
                if is_right:
                    expect(unwinding.expect_frames(program), 6, "instructions")
                    expect(
                        asked
                        == [(processor or unwinding.X86, "code f", "f"), (processor or unwinding.X86, "code g", "g")],
                        True,
                        "functions",
                    )
                    asked.clear()
                else:
                    refuses(lambda: unwinding.expect_frames(program), f"frames of {names}, {error!r}", (NotShown,))


def effects_on_frames(_):
    """Tests effects and frames at their bounds: bytes beside a saved register, and registers that aren't
    callee-saved."""
    after: Any
    before: Any
    cpu: Any
    found: Any
    effect, nothing = unwinding.X86.effect, unwinding.NOTHING
    place = Place(-16, "rsp", None, 1)
    for x, expected in (
        (instruction("push", Immediate(5)), (8, {}, {}, [], (-8, 0))),
        (instruction("push", place), (8, {}, {}, [], (-8, 0))),
        (instruction("sub", Register("rax"), Register("rsp")), (0, {}, {}, ["rax", "rsp"], nothing)),
        (instruction("mov", Register("rsp"), Register("rbp")), (0, {}, {}, ["rbp"], nothing)),
        (instruction("mov", Place(8, "rsp", "rcx", 1), Register("rbx")), (0, {}, {}, ["rbx"], nothing)),
        (instruction("mov", Immediate(1), place), (0, {}, {}, [], (-16, -8))),
        (instruction("add", Immediate(1), place), (0, {}, {}, [], (-16, -8))),
        (instruction("lea", place, Register("rbx")), (0, {}, {}, ["rbx"], nothing)),
        (instruction("mov", Place(0, "rbx", None, 1), Register("rbx")), (0, {}, {}, ["rbx"], nothing)),
        (instruction("add", Immediate(8), Register("rsp"), Register("rsp")), (0, {}, {}, ["rsp", "rsp"], nothing)),
    ):
        expect(effect(x) == expected, True, f"the effect of {x.mnemonic} {x.operands}: {effect(x)}")
    for first, end, is_unchanged in (
        (-16, -8, False),
        (-24, -16, True),
        (-8, 0, True),
        (-17, -16, True),
        (-17, -15, False),
        (-9, -8, False),
        (-8, -7, True),
    ):
        cpu = types.SimpleNamespace(
            NUMBERS={"rbx": 3}, ENTRY=(8, {16: 0}), effect=lambda _: (0, {}, {}, [], (first + 16, end + 16))
        )
        frame = 16, {3: -16, 16: 0}
        expect(
            unwinding.difference(cpu, None, frame, frame) is None,
            is_unchanged,
            f"a register beside stored bytes {first} to {end}",
        )
    for before, stored, after, holds in (
        ({}, {"rbx": -8}, {3: -16}, True),
        ({}, {"rbx": -16}, {3: -16}, False),
        ({3: -16}, {"rbx": -8}, {3: -16}, True),
        ({3: -24}, {"rbx": -8}, {3: -16}, False),
        ({}, {}, {3: -16}, False),
        ({}, {"rax": -8}, {3: -16}, False),
        ({}, {"rbx": -16}, {3: -24}, False),
    ):
        cpu = types.SimpleNamespace(
            NUMBERS={"rbx": 3}, ENTRY=(8, {16: -8}), effect=lambda _: (8, stored, {}, [], (0, 0))
        )
        found = unwinding.difference(cpu, None, (8, {16: -8, **before}), (16, {16: -8, **after}))
        expect(found is None, holds, f"a stored register: {before} {stored} {after}")


def registers(_):
    """Tests the names of registers and their parts, by the processor's manual, and which processors have a form."""
    seen: Any
    expected = {}
    for name in "abcd":
        expected.update(
            {
                f"r{name}x": (f"r{name}x", 0, 64),
                f"e{name}x": (f"r{name}x", 0, 32),
                f"{name}x": (f"r{name}x", 0, 16),
                f"{name}l": (f"r{name}x", 0, 8),
                f"{name}h": (f"r{name}x", 8, 8),
            }
        )
    for name in ("sp", "bp", "si", "di"):
        expected.update(
            {
                f"r{name}": (f"r{name}", 0, 64),
                f"e{name}": (f"r{name}", 0, 32),
                name: (f"r{name}", 0, 16),
                f"{name}l": (f"r{name}", 0, 8),
            }
        )
    for k in range(8, 16):
        expected.update(
            {f"r{k}{end}": (f"r{k}", 0, width) for end, width in (("", 64), ("d", 32), ("w", 16), ("b", 8))}
        )
    expect(instructions.parts_of_registers() == expected and instructions.PARTS == expected, True, "parts of registers")
    expect(
        instructions.VECTORS == {f"{letter}mm{k}": k for letter in "xyz" for k in range(32)}
        and instructions.OLDER == 16,
        True,
        "vectors",
    )
    with unittest.mock.patch.dict(TABLE):
        seen = []
        put = instructions.form("x86-64-v3", "one two", "ml qq")
        expect(
            put(lambda cpu, x, *operands: seen.append((cpu, x, operands)) or "next") is not None,
            True,
            "a decorated function",
        )
        instructions.form("x86-64", "three", "")(lambda cpu, x: 5)
        for key in (("one", "ml"), ("one", "qq"), ("two", "ml"), ("two", "qq")):
            expect(TABLE[key][0] == "x86-64-v3", True, f"the form {key}")
            x = instruction("one", Register("rax"), Register("rbx"))
            expect(TABLE[key][1]("cpu", x) == "next" and seen.pop() == ("cpu", x, x.operands), True, "a called form")
        expect(TABLE["three", ""][1]("cpu", instruction("three")), 5, "a form without operands")
    add, wide, v3, high = (
        instruction("add", Register("rax"), Register("rbx")),
        instruction("vpaddq", *[Register("zmm1")] * 3),
        instruction("vpaddq", *[Register("xmm1")] * 3),
        instruction("vpaddq", Register("xmm1"), Register("xmm16"), Register("xmm1")),
    )
    for x, sets in (
        (add, 4),
        (wide, 1),
        (v3, 2),
        (high, 1),
        (instruction("vpaddq", *[Register("ymm15")] * 3), 2),
        (instruction("hlt"), 0),
        (instruction("add", Register("ah"), Register("bl")), 0),
    ):
        for k, name in enumerate(("x86-64", "x86-64-v2", "x86-64-v3", "x86-64-v4")):
            if k >= 4 - sets:
                expect(callable(instructions.known(x, name)), True, f"{x.mnemonic} of {name}")
            else:
                refuses(lambda: instructions.known(x, name), f"{x.mnemonic} of {name}", REFUSED)


def sets_of_forms(_):
    """Tests the instruction set of each form of the table, by the processor's manual: SSE2 is in the first one, SSSE3
    and SSE4 in the second, AVX2, BMI and MOVBE in the third, AVX-512 in the fourth."""
    of_v2, of_v3 = {"pextrq", "pshufb", "pmulld"}, {"mulx", "rorx", "shlx", "shrx", "movbe"}
    of_v4 = {
        "vmovdqu64",
        "vmovdqa64",
        "vextracti64x4",
        "vinserti64x4",
        "vpmullq",
        "vpmullq{1to8}",
        "vpternlogq",
        "vpxorq",
        "vporq",
    }
    for (mnemonic, letters), (name, _) in TABLE.items():
        if mnemonic in of_v4 or "z" in letters:
            expected = "x86-64-v4"
        elif mnemonic in of_v3 or mnemonic[0] == "v":
            expected = "x86-64-v3"
        else:
            expected = "x86-64-v2" if mnemonic in of_v2 else "x86-64"
        expect(name == expected, True, f"the instruction set of {mnemonic} {letters}: {name}")


def titles_of_exports(_):
    """Tests that each export has the beginning of the title of a task for its hash and function."""
    titles, known = [task.title for task in choices.tasks_with(False)], exports.shown_by()
    for export, title in known.items():
        expect(any(one.startswith(title) for one in titles), True, f"a task {title}")
    ways = {"": "default", "_withSeed": "seed", "_withSecret": "secret", "_withSecretandSeed": "both"}
    for name, hash_name in (("XXH3_64bits", "XXH3-64"), ("XXH3_128bits", "XXH3-128")):
        for end, way in ways.items():
            expect(known[name + end] == f"{hash_name}, {way}", True, f"the task of {name}{end}")
        for end in ("reset", "reset_withSeed", "update", "digest"):
            expect(known[f"proved_{name}_{end}"] == "streams", True, f"the task of {name}_{end}")
    for name in ("XXH32", "XXH64"):
        found = {known[f"{name}_{end}"] for end in ("reset", "update", "digest")}
        expect(known[name] == f"{name}, seed" and found == {"streams"}, True, f"the tasks of {name}")


def twins(_):
    """Tests the calls with two names, and which exports of a source must be another's byte for byte."""
    program = types.SimpleNamespace(exports={"XXH3_64bits_update_dispatch": 1})
    for of, update in (
        (None, "proved_XXH3_64bits_update_dispatch"),
        (program, "XXH3_64bits_update_dispatch"),
        (types.SimpleNamespace(exports={}), "proved_XXH3_64bits_update_dispatch"),
    ):
        found = exports.twins(of)
        expect(
            len(found) == 9
            and found[update] == "proved_XXH3_64bits_update"
            and found["XXH128"] == "XXH3_128bits_withSeed",
            True,
            "twins",
        )
        for name in ("XXH3_64bits", "XXH3_128bits"):
            expect(
                all(found[f"{name}{way}_dispatch"] == name + way for way in ("", "_withSeed", "_withSecret")),
                True,
                "twins",
            )
        known = exports.shown_by(of)
        expect(
            all(known[name] == "names of another's code" for name in found) and len(known) == 55,
            True,
            "titles of twins",
        )
    program = types.SimpleNamespace(exports=dict.fromkeys(("XXH32_reset", "XXH128_cmp", "XXH3_64bits")))
    for shared, is_right in (
        ({"XXH32_reset", "XXH128_cmp"}, True),
        ({"XXH32_reset"}, False),
        ({"XXH32_reset", "XXH128_cmp", "XXH3_64bits"}, True),
        (set(), False),
    ):
        with patched(exports, "shared", lambda *of: shared if of == (program, "other") else {"wrong"}):
            if is_right:
                expect(exports.expect_code_of_v3(program, "other"), 2, "exports of x86-64-v3")
            else:
                refuses(lambda: exports.expect_code_of_v3(program, "other"), f"only {shared} of x86-64-v3", (NotShown,))


def required_bytes(_):
    """Tests the bytes of jumps without a place, and the texts that are assembled once."""
    led = disassembly.led_on_x86
    for text, raw, is_relocated, expected in (
        ("jmp <f>", b"\xeb\0", False, b""),
        ("jmp", b"\xeb\0", False, b""),
        ("je f+4", b"\x74\0", False, b""),
        ("call 7", b"\xe8\2\0\0\0", False, b"\xe8\2\0\0\0"),
        ("call 5", b"\xe8\0", False, b"\xe8\3\0\0\0"),
        ("jmp 5", b"\xe9\0\0\0\0", False, b"\xe9\0\0\0\0"),
        ("je 6", b"\x0f\x84\0\0\0\0", False, b"\x0f\x84\0\0\0\0"),
        ("call 5", b"\xe8\0\0\0\0", True, b"\xe8\0\0\0\0"),
        ("call 7", b"\xe8\2\0\0\0", True, b""),
    ):
        if text == "jmp":
            refuses(lambda: led(0, raw, text, is_relocated), "a jump without a place", (IndexError,))
        else:
            expect(led(0, raw, text, is_relocated) == expected, True, f"the bytes of {text}")
    program = types.SimpleNamespace(
        listing={"f": [(4, b"\xc3\x90", "ret  # more"), (6, b"\x90", "nop")]},
        is_relocated=lambda *of: of == ("f", 4, 6),
    )
    expect(
        list(disassembly.lines_of(program)) == [("f", 4, b"\xc3\x90", "ret", True), ("f", 6, b"\x90", "nop", False)],
        True,
        "instructions of a program",
    )


ALL = [
    operands_of_text,
    instructions_of_text,
    sections_of_text,
    listings,
    loaded_objects,
    other_objects,
    functions_in_sections,
    whole_programs,
    assemblers,
    equal_objects,
    followed_functions,
    whole_frames,
    effects_on_frames,
    registers,
    sets_of_forms,
    titles_of_exports,
    twins,
    required_bytes,
]
