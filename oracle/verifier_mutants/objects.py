"""Tests of the readers of objects: frames, instructions' effects on them, notes and comparisons of objects.

Expected values come from the formats: LEB128 and DWARF's directives for frames, ELF for objects."""
import random
import struct
import types
from typing import Any, Callable

from assembly import eh_frame
from assembly import same_bytes
from oracle.machine_code import disassembly, unwinding
from oracle.machine_code.objects import Immediate, Instruction, Place, Register

from .values import Wrong, expect, refuses

FAULTS = ValueError, LookupError, struct.error
RSP = "rsp"


def leb128(value):
    out = []
    while True:
        byte, value = value & 127, value >> 7
        is_last = value == 0 and not byte & 64 or value == -1 and byte & 64
        out.append(byte if is_last else byte | 128)
        if is_last:
            return bytes(out)


def frames(rng):
    """Follows directives of a frame, and compares it with the table that they describe."""
    for value in (0, 1, 63, 64, 127, 128, 300, 16384, -1, -8, -64, -65, -128, -300):
        data = b"\x11" + leb128(value) + b"\x22"
        found = eh_frame.number(data, 1, True)
        if found != (value, len(data) - 1):
            raise Wrong(f"{value} as {found}")
        if value >= 0 and eh_frame.number(data + b"\0", 1, False)[0] != value:
            raise Wrong(f"{value} without a sign")
    table = object.__new__(eh_frame.Table)
    table.stack = 7
    directives = bytes(
        [
            0x41,
            0x0E,
            16,
            0x86,
            2,
            0x43,
            0x0E,
            24,
            0x83,
            3,
            0x02,
            100,
            0x0E,
            8,
            0xC6,
            0xC3,
            0x00,
            0x03,
            0x10,
            0x01,
            0x0C,
            7,
            32,
            0x05,
            12,
            4,
            0x04,
            2,
            0,
            0,
            0,
            0x06,
            12,
        ]
    )
    table.data = b"\xff" * 3 + directives
    entries, end = table.followed(3, len(table.data), 1, -8, (8, {16: -8}), {16: -8})
    first, second = {16: -8}, {16: -8, 6: -16}
    expected = [
        (0, (8, first)),
        (1, (16, second)),
        (4, (24, {**second, 3: -24})),
        (104, (8, first)),
        (376, (32, {**first, 12: -32})),
        (378, (32, first)),
    ]
    if entries != expected or end != len(table.data):
        raise Wrong(f"the frames {entries}")
    table.functions = {"f": entries, "a": entries[:1]}
    for at, k in ((0, 0), (1, 1), (3, 1), (4, 2), (103, 2), (104, 3), (375, 3), (376, 4), (10**6, 5)):
        if table.at("f", at) != expected[k][1]:
            raise Wrong(f"the frame at {at}")
    if [name for name, _ in table.sorted_frames()] != ["a", "f"] or table.sorted_frames()[1][1][1] != (
        1,
        16,
        [(6, -16), (16, -8)],
    ):
        raise Wrong("sorted frames")
    entries, _ = table.followed(3, 5, 4, -8, (8, {}), {})
    if entries[0][0] != 0:
        raise Wrong("the first frame")
    table.data = bytes([0x42, 0x0E, 16, 0x83, 3, 0x41, 0xC3, 0x41, 0x08, 3])
    entries, _ = table.followed(0, len(table.data), 4, -4, (8, {3: -4}), {3: -4})
    if entries != [(0, (8, {3: -4})), (8, (16, {3: -12})), (12, (16, {3: -4})), (16, (16, {}))]:
        raise Wrong(f"a restored register: {entries}")
    for bad in (b"\x0c\x06\x08", b"\x0f\x01\x00", b"\x0a", b"\x13\x01"):
        table.data = bad
        refuses(lambda: table.followed(0, len(bad), 1, -8, (8, {}), {}), f"the directive {bad.hex()}", FAULTS)


class Parts:
    """An object that has only a table of frames."""

    def __init__(self, body, relocations, size=16, flags=(2,), machine=62):
        self.machine, self.data, self.relocations = machine, body, relocations
        self.heads = [types.SimpleNamespace(name=".eh_frame", flags=flag, size=len(body)) for flag in flags]
        self.heads.append(types.SimpleNamespace(name=".text.f", flags=6, size=size))
        self.symbols = [types.SimpleNamespace(name="f", section=len(self.heads) - 1, info=0x12, value=0)]

    def body(self, _):
        return self.data

    def relocations_of(self, _):
        return self.relocations


HEAD = struct.pack("<II", 20, 0) + b"\x01zR\0" + bytes([1, 0x78, 16, 1, 0x1B, 0x0C, 7, 8, 0x90, 1, 0, 0])
FUNCTION = struct.pack("<IIII", 20, 28, 0, 16) + bytes([0, 0x41, 0x0E, 16, 0, 0, 0, 0])
LEAD = [(32, 2, ".text.f", 0, 0)]


def tables(rng):
    """Reads a table of one function, and refuses tables that describe another."""
    right = HEAD + FUNCTION
    if eh_frame.Table(Parts(right, LEAD)).functions != {".text.f": [(0, (8, {16: -8})), (1, (16, {16: -8}))]}:
        raise Wrong("the frames of a function")
    if eh_frame.Table(Parts(right, [(32, 2, "f", 0, 0)])).functions.keys() != {".text.f"}:
        raise Wrong("the frames of a function by its name")
    if eh_frame.Table(Parts(b"", [], flags=())).functions:
        raise Wrong("frames of no table")

    def refused(what, *arguments, **more):
        refuses(lambda: eh_frame.Table(Parts(*arguments, **more)), what, FAULTS)

    for k in range(8, 22):
        refused(
            f"a head with another byte {k}", right[:k] + bytes([right[k] ^ 0x40]) + right[k + 1 :], LEAD
        ) if k not in (12, 13, 19, 20, 21) else None
    for what, lead in (
        ("no relocation", []),
        ("another kind", [(32, 1, ".text.f", 0, 0)]),
        ("an offset", [(32, 2, ".text.f", 4, 0)]),
        ("an addend", [(32, 2, ".text.f", 0, 4)]),
        ("two relocations", [*LEAD, (36, 2, ".text.f", 0, 0)]),
    ):
        refused(what, right, lead)
    refused("a function of another size", right, LEAD, size=17)
    refused("two tables", right, LEAD, flags=(2, 2))
    refused("a table that is written to", right, LEAD, flags=(3,))
    refused(
        "a function twice",
        right + struct.pack("<IIII", 20, 52, 0, 16) + FUNCTION[16:],
        [*LEAD, (56, 2, ".text.f", 0, 0)],
    )
    refused("a function with data of its own", right[:40] + b"\1" + right[41:], LEAD)
    refused("an incomplete table", right + b"\1", LEAD)
    refused("another processor", right, LEAD, machine=3)


def local_names(_):
    """Tests that frames belong to their section, even if a local symbol of another section has its name."""
    parts = Parts(HEAD + FUNCTION, LEAD)
    parts.heads.append(types.SimpleNamespace(name=".text.g", flags=6, size=16))
    parts.symbols.append(types.SimpleNamespace(name=".text.f", section=len(parts.heads) - 1, info=0, value=0))
    if eh_frame.Table(parts).functions.keys() != {".text.f"}:
        raise Wrong("frames of another section")


def instruction(mnemonic, *operands, target=None):
    return Instruction("f", 0, 4, mnemonic, operands, target)


def effects(rng):
    """Compares the effects of instructions on a frame with the processor's manual."""
    expected: Any
    mnemonic: Any
    rsp, rbx, rax, place = Register("rsp"), Register("rbx"), Register("rax"), Place(-16, "rsp", None, 1)
    effect = unwinding.X86.effect
    nothing = unwinding.NOTHING
    for x, expected in (
        (instruction("push", rbx), (8, {"rbx": -8}, {}, [], (-8, 0))),
        (instruction("pop", rbx), (-8, {}, {"rbx": 0}, ["rbx"], nothing)),
        (instruction("sub", Immediate(24), rsp), (24, {}, {}, [], nothing)),
        (instruction("add", Immediate(24), rsp), (-24, {}, {}, [], nothing)),
        (instruction("add", Immediate(2**64 - 8), rsp), (8, {}, {}, [], nothing)),
        (instruction("mov", rbx, place), (0, {"rbx": -16}, {}, [], (-16, -8))),
        (instruction("mov", place, rbx), (0, {}, {"rbx": -16}, ["rbx"], nothing)),
        (instruction("mov", rax, rbx), (0, {}, {}, ["rax", "rbx"], nothing)),
        (instruction("mov", rsp, rbx), (0, {}, {}, ["rbx"], nothing)),
        (instruction("mov", rax, place), (0, {}, {}, ["rax"], (-16, -8))),
        (instruction("movdqa", Register("xmm1"), place), (0, {}, {}, [], (-16, 0))),
        (instruction("vmovdqa", Register("ymm1"), place), (0, {}, {}, [], (-16, 16))),
        (instruction("vmovdqa64", Register("zmm1"), place), (0, {}, {}, [], (-16, 48))),
        (instruction("mov", rbx, Place(-16, "rsp", "rcx", 1)), (0, {}, {}, ["rbx"], unwinding.ANYWHERE)),
        (instruction("mov", rbx, Place(-16, "rdi", None, 1)), (0, {}, {}, ["rbx"], nothing)),
        (instruction("add", Immediate(24), rbx), (0, {}, {}, ["rbx"], nothing)),
        (instruction("sub", rax, rsp), (0, {}, {}, ["rax", "rsp"], nothing)),
        (instruction("add", Immediate(1), Register("ebx")), (0, {}, {}, ["rbx"], nothing)),
        (instruction("xor", rbx, place), (0, {}, {}, ["rbx"], (-16, -8))),
    ):
        if effect(x) != expected:
            raise Wrong(f"the effect of {x.mnemonic} {x.operands}: {effect(x)}")
    for mnemonic, expected in (
        ("jmp", True),
        ("je", True),
        ("ja", True),
        ("call", False),
        ("ret", False),
        ("mov", False),
    ):
        if unwinding.X86.is_jump(instruction(mnemonic)) != expected:
            raise Wrong(f"{mnemonic} as a jump")


def followed_frames(rng):
    """Compares frames after an instruction with those that it leads to."""
    rsp, rbx = Register("rsp"), Register("rbx")
    push, pop, sub, nop = (
        instruction("push", rbx),
        instruction("pop", rbx),
        instruction("sub", Immediate(24), rsp),
        instruction("nop"),
    )
    store, load = (
        instruction("mov", *x) for x in ((rbx, Place(-16, "rsp", None, 1)), (Place(-16, "rsp", None, 1), rbx))
    )
    entry, pushed = {16: -8}, {16: -8, 3: -16}
    own = instruction("mov", Register("rax"), Place(0, "rsp", None, 1))
    for x, before, after, holds in (
        (nop, (8, entry), (8, entry), True),
        (nop, (8, entry), (16, entry), False),
        (push, (8, entry), (16, pushed), True),
        (push, (8, entry), (16, entry), True),
        (push, (8, entry), (8, pushed), False),
        (push, (8, entry), (16, {16: -8, 3: -24}), False),
        (pop, (16, pushed), (8, entry), True),
        (pop, (16, pushed), (8, pushed), False),
        (pop, (24, pushed), (16, entry), False),
        (pop, (16, entry), (8, entry), False),
        (sub, (8, entry), (32, entry), True),
        (sub, (8, entry), (8, entry), False),
        (sub, (8, entry), (32, pushed), False),
        (nop, (8, entry), (8, {}), False),
        (nop, (16, pushed), (16, entry), False),
        (nop, (16, pushed), (16, {16: -8, 3: -24}), False),
        (nop, (16, pushed), (16, pushed), True),
        (store, (24, entry), (24, {16: -8, 3: -40}), False),
        (instruction("mov", rbx, Place(8, "rsp", None, 1)), (32, entry), (32, {16: -8, 3: -24}), True),
        (instruction("mov", rbx, Place(8, "rsp", None, 1)), (32, entry), (32, {16: -8, 3: -16}), False),
        (load, (24, pushed), (24, entry), False),
        (instruction("mov", Place(8, "rsp", None, 1), rbx), (24, pushed), (24, entry), True),
        (instruction("mov", Place(0, "rsp", None, 1), rbx), (24, pushed), (24, entry), False),
        (instruction("xor", rbx, rbx), (8, entry), (8, entry), False),
        (instruction("xor", rbx, rbx), (16, pushed), (16, pushed), True),
        (own, (16, pushed), (16, pushed), False),
        (own, (24, pushed), (24, pushed), True),
        (own, (8, entry), (8, entry), False),
        (instruction("mov", Register("rax"), Place(-8, "rsp", None, 1)), (16, pushed), (16, pushed), True),
        (instruction("mov", Register("rax"), Place(1, "rsp", None, 1)), (24, pushed), (24, pushed), False),
        (nop, (8, entry), (8, {16: -8, 9: -16}), False),
        (instruction("sub", Register("rax"), rsp), (8, entry), (8, entry), False),
        (pop, (8, {16: -8, 3: -16}), (0, {16: -8, 3: -16}), False),
    ):
        fault = unwinding.difference(unwinding.X86, x, before, after)
        if (fault is None) != holds:
            raise Wrong(f"{x.mnemonic} from {before} to {after}: {fault}")


def notes(rng):
    """Reads notes and properties of an object."""

    info: Any
    is_global: Any

    def note(name, content, note_type):
        padded = name + bytes(-len(name) % 4)
        return struct.pack("<III", len(name), len(content), note_type) + padded + content + bytes(-len(content) % 8)

    data = note(b"GNU\0", b"12345678", 5) + note(b"GNU\0", b"abc", 7)
    if list(same_bytes.notes_of(data, 8)) != [((5, b"GNU\0"), b"12345678"), ((7, b"GNU\0"), b"abc")]:
        raise Wrong("notes")
    properties = [
        struct.pack("<IIII", property_type, 4, 9, 0)
        for property_type in (0xC0000002, 0xC0010001, 0xC0008002, 0xC0017FFF, 0xC0018000)
    ]
    expected = [properties[k][:12] for k in (0, 2, 4)]
    if list(same_bytes.properties_of(b"".join(properties))) != expected:
        raise Wrong("properties")
    for info, is_global in ((0x00, False), (0x02, False), (0x12, True), (0x22, True)):
        if same_bytes.is_global(same_bytes.Symbol("", info, 0, 0, 0, 0)) != is_global:
            raise Wrong("a global name")
    part = same_bytes.Part
    for ours, is_same in (
        (part("h", b"12", []), True),
        (part("i", b"12", []), False),
        (part("h", b"13", []), False),
        (part("h", b"12", [(1,)]), False),
    ):
        found = list(same_bytes.differences({"a": part("h", b"12", [])}, {"a": ours}, same_bytes.difference))
        if bool(found) == is_same:
            raise Wrong("a difference of parts")
    for a, b in (({"a": 1}, {}), ({}, {"a": 1}), ({"a": 1}, {"a": 1, "b": 2})):
        if len(list(same_bytes.differences(a, b, same_bytes.difference))) != 1:
            raise Wrong("a part of only one object")
    expect(same_bytes.PC32, 2, "the relocation of a distance")


def changed_objects(
    path: str,
    rng: random.Random,
    seen: Callable = lambda first, second: list(same_bytes.differences(first, second, same_bytes.difference)),
) -> None:
    """Changes bytes of an object's headers, symbols, relocations and code. Each must be refused or differ."""
    whole = same_bytes.Object(path)
    data, parts = whole.data, {**whole.parts(), **whole.added()}
    changes = [0, 4, 5, 16, 18]
    (start,) = struct.unpack_from("<Q", data, 40)
    loaded = [k for k, head in enumerate(whole.heads) if head.flags & 2 and head.size and head.kind != 8]
    for k in rng.sample(loaded, min(6, len(loaded))):
        changes += [start + 64 * k + 8, start + 64 * k + 32, start + 64 * k + 48]
        changes.append(whole.heads[k].offset + rng.randrange(whole.heads[k].size))
    for head in whole.heads:
        if head.kind == 2:
            named = [k for k, symbol in enumerate(whole.symbols) if symbol.info >> 4 and symbol.section]
            changes += [head.offset + 24 * k + at for k in rng.sample(named, 3) for at in (4, 5, 6, 8, 16)]
        elif head.kind == 4 and whole.heads[head.info].flags & 2:
            changes += [head.offset + at for at in (0, 8, 16)]
    for at in changes:
        other = object.__new__(same_bytes.Object)
        changed = data[:at] + bytes([data[at] ^ 1]) + data[at + 1 :]
        try:
            read(other, changed)
            found = {**other.parts(), **other.added()}
        except (*FAULTS, UnicodeDecodeError):
            continue
        if not seen(parts, found):
            raise Wrong(f"an object with another byte {at:#x} is the same")


def read(other, data):
    """Reads an object from bytes instead of a file."""
    import os
    import tempfile

    with tempfile.NamedTemporaryFile() as file:
        file.write(data)
        file.flush()
        other.__init__(file.name)
    assert os


def jumps(rng):
    """Compares the bytes of jumps, calls and nops on x86-64 with the processor's manual."""
    holds: Any
    led: Any
    raw: Any
    text: Any
    led = disassembly.led_on_x86
    for at, text, expected in (
        (0, "jmp 2", "eb00"),
        (0, "jmp 81", "eb7f"),
        (0x100, "jmp 82", "eb80"),
        (0, "je 10", "740e"),
        (0, "jne 10", "750e"),
        (0, "jb 10", "720e"),
        (0, "jae 10", "730e"),
        (0, "ja 10", "770e"),
        (0, "jbe 10", "760e"),
        (0, "jl 10", "7c0e"),
        (0, "jge 10", "7d0e"),
        (0, "jg 10", "7f0e"),
        (0, "jle 10", "7e0e"),
        (0, "js 10", "780e"),
        (0, "jp 10", "7a0e"),
        (0, "jo 10", "700e"),
        (0, "jmp 105", "e900010000"),
        (0x1000, "jmp 5", "e900f0ffff"),
        (0, "je 106", "0f8400010000"),
        (0, "jne 106", "0f8500010000"),
        (0, "call 105", "e800010000"),
        (0, "call 5", "e800000000"),
    ):
        raw = bytes.fromhex(expected)
        if led(at, raw, text, False) != raw:
            raise Wrong(f"{text} at {at:#x}")
        for k in range(len(raw)):
            other = raw[:k] + bytes([raw[k] ^ 1]) + raw[k + 1 :]
            if led(at, other, text, False) == other:
                raise Wrong(f"{text} of the bytes {other.hex()}")
    for raw, text in (("eb80", "jmp 82"), ("7480", "je 82"), ("e87f000000", "jmp 84")):
        if led(0, bytes.fromhex(raw), text, False) == bytes.fromhex(raw):
            raise Wrong(f"{text} of the bytes {raw}")
    for text in ("mov %eax,%ebx", "ret", "push %rbx", "call *%rax", "jmp *%rax"):
        if led(0, b"\x90", text, False) is not None:
            raise Wrong(f"{text} as a jump")
    for raw, holds in (("90", True), ("0f1f00", True), ("0f1f01", False), ("6690", False), ("660f1f440000", True)):
        if (led(0, bytes.fromhex(raw), "nop", False) == bytes.fromhex(raw)) != holds:
            raise Wrong(f"{raw} as nop")
    if led(0, b"\xe8\0\0\0\0", "call 5", True) != b"\xe8\0\0\0\0" or led(0, b"\xe8\0\0\0\0", "call 6", True) != b"":
        raise Wrong("a call with a relocation")
    expect(len(disassembly.NOPS), 14, "the number of nops")


def bytes_of_text(rng):
    """Assembles instructions again: each whose bytes aren't those of its text is refused, wherever it is."""
    right = [
        (0, "b805000000", "mov $0x5,%eax"),
        (5, "4801d8", "add %rbx,%rax"),
        (8, "eb00", "jmp a <f+0xa>"),
        (10, "c3", "ret"),
    ]

    def program(entries, last="c3"):
        return types.SimpleNamespace(
            listing={
                "f": [(at, bytes.fromhex(raw), text) for at, raw, text in entries],
                "g": [(0, bytes.fromhex(last), "ret # nothing")],
            },
            object=types.SimpleNamespace(machine=62),
            is_relocated=lambda *_: False,
        )

    disassembly.expect_bytes(program(right))
    for k, (raw, text) in enumerate(
        (("b806000000", "mov $0x5,%eax"), ("4801d9", "add %rbx,%rax"), ("eb01", "jmp a <f+0xa>"), ("c3", "nop"))
    ):
        refuses(
            lambda: disassembly.expect_bytes(program([*right[:k], (right[k][0], raw, text), *right[k + 1 :]])),
            f"another {text}",
        )
    refuses(lambda: disassembly.expect_bytes(program([(0, "90", "no instruction")])), "a text that isn't assembled")
    refuses(lambda: disassembly.expect_bytes(program(right, "cb")), "another last instruction")


ALL = [jumps, bytes_of_text, frames, tables, local_names, effects, followed_frames, notes]
