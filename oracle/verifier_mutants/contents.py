"""Tests of what objects and sources may contain: sections, symbols and notes, exports and their twins, and functions
that two sources share. Each takes a random generator, which it doesn't use, and raises Wrong."""
import struct
import types
import unittest.mock
from typing import Any

from assembly import same_bytes
from oracle.machine_code import cargo, cargo_exports, exports, object_contents, unwinding
from oracle.machine_code.object_contents import (
    CODE,
    CONSTANTS,
    INFO,
    MERGEABLE,
    NOBITS,
    PROGBITS,
    SHADOW_STACK,
    WRITTEN,
)
from oracle.machine_code.objects import Register
from assembly.same_bytes import NONE, NOTE, RELA, STRTAB, SYMTAB
from oracle.symbolic_terms import NotShown, Unsupported

from .processors import instruction
from .values import expect, refuses

# Sections of a right object: name, kind, flags, bytes, alignment, bytes of an entry, sections `link` and `info`.
SECTIONS = [
    ("", NONE, 0, 0, 0, 0, 0, 0),
    (".text", PROGBITS, CODE, 0, 1, 0, 0, 0),
    (".text.f", PROGBITS, CODE, 8, 16, 0, 0, 0),
    (".rela.text.f", RELA, INFO, 24, 8, 24, 10, 2),
    (".rodata.cst16", PROGBITS, MERGEABLE, 32, 16, 16, 0, 0),
    (".rodata", PROGBITS, CONSTANTS, 4, 64, 0, 0, 0),
    (".eh_frame", PROGBITS, CONSTANTS, 40, 8, 0, 0, 0),
    (".rela.eh_frame", RELA, INFO, 24, 8, 24, 10, 6),
    (".note.gnu.property", NOTE, CONSTANTS, 32, 8, 0, 0, 0),
    (".note.GNU-stack", PROGBITS, 0, 0, 1, 0, 0, 0),
    (".symtab", SYMTAB, 0, 96, 8, 24, 11, 1),
    (".strtab", STRTAB, 0, 20, 1, 0, 0, 0),
    (".data", PROGBITS, WRITTEN, 0, 1, 0, 0, 0),
    (".bss", NOBITS, WRITTEN, 0, 1, 0, 0, 0),
    (".text.g", PROGBITS, CODE, 4, 16, 0, 0, 0),
    (".shstrtab", STRTAB, 0, 20, 1, 0, 0, 0),
]
FIELDS = "name", "kind", "flags", "size", "align", "entry", "link", "info"
# Its symbols: name, type and binding, visibility, section, place and size.
SYMBOLS = [
    ("", 0, 0, 0, 0, 0),
    ("f", 0x12, 0, 2, 0, 8),
    ("g", 0x02, 0, 14, 0, 4),
    ("label", 0x00, 0, 2, 8, 0),
    ("", 0x03, 0, 5, 0, 0),
    ("memcpy", 0x10, 0, 0, 0, 0),
]
PARTS = "name", "info", "other", "section", "value", "size"
F, G, LABEL, MEMCPY = 1, 2, 3, 5
EXPORT = 1, 0  # binding and visibility


def note(*properties, note_type=5, name=b"GNU\0"):
    content = b"".join(struct.pack("<IIII", *one, 0) for one in properties)
    return struct.pack("<III", len(name), len(content), note_type) + name + content


def new_object(
    sections: list = SECTIONS,
    symbols: list = SYMBOLS,
    notes: bytes = note((0xC0000002, 4, 2)),
    system: tuple[int, int, int] = (1, 0, 0),
    flags: int = 0,
    machine: int = 62,
) -> Any:
    heads, names = (
        [types.SimpleNamespace(**dict(zip(fields, one))) for one in some]
        for some, fields in ((sections, FIELDS), (symbols, PARTS))
    )
    return types.SimpleNamespace(
        heads=heads, symbols=names, data=bytes(6) + bytes(system), flags=flags, machine=machine, body=lambda _: notes
    )


def listed(object_: Any) -> None:
    object_contents.expect_listed(object_, EXPORT)


def with_field(some, fields, k, **changed):
    """Returns sections or symbols, with other fields of number k."""
    return [*some[:k], tuple(changed.get(name, x) for name, x in zip(fields, some[k])), *some[k + 1 :]]


def sections(_):
    """Changes each field of each section."""
    change: Any
    k: Any
    listed(new_object())
    for k, (name, section_type, flags, size, align, entry, link, _) in enumerate(SECTIONS):
        changes = [
            {"name": ".init"},
            {"name": name + "é"},
            {"kind": section_type + 20},
            {"flags": flags ^ 1},
            {"flags": flags ^ 4},
            {"flags": flags | 0x200},
            {"size": 0 if size else 8},
            {"align": 128},
        ]
        changes += [{"entry": entry // 2}, {"align": align // 2}, {"size": size + 8}, {"name": ".rodata.cst32"}] * (
            flags == MERGEABLE
        )
        changes += [
            {"info": 4},
            {"info": len(SECTIONS)},
            {"info": 6 if name == ".rela.text.f" else 2},
            {"link": link + 1},
            {"link": 2},
        ] * (section_type == RELA)
        for change in changes:
            refuses(
                lambda: listed(new_object(with_field(SECTIONS, FIELDS, k, **change))),
                f"{name} with {change}",
                Unsupported,
            )
    refuses(lambda: listed(new_object([*SECTIONS, SECTIONS[5]])), "two sections of one name", Unsupported)
    refuses(
        lambda: listed(new_object([*SECTIONS, (".text.h", *SECTIONS[2][1:])])), "code without a function", Unsupported
    )
    stack = [one[0] for one in SECTIONS].index(".note.GNU-stack")
    refuses(
        lambda: listed(new_object(with_field(SECTIONS, FIELDS, stack, name=".bss.x"))),
        "a stack that may be run",
        Unsupported,
    )
    for system in ((2, 0, 0), (1, 3, 0), (1, 0, 1)):
        refuses(lambda: listed(new_object(system=system)), f"an object for the system {system}", Unsupported)
    refuses(lambda: listed(new_object(flags=1)), "an object with flags", Unsupported)


def symbols(_):
    """Changes each field of each symbol."""
    change: Any
    k: Any
    for k, changes in (
        (
            F,
            (
                {"info": 0x22},
                {"info": 0x11},
                {"info": 0x10},
                {"other": 1},
                {"other": 2},
                {"section": 5},
                {"section": 99},
                {"section": 14},
                {"value": 4},
                {"value": 9},
                {"size": 4},
                {"size": 9},
                {"name": "f", "info": 0x1A},
            ),
        ),
        (
            G,
            ({"section": 2}, {"section": 1}, {"value": 1}, {"size": 3}, {"info": 0x04}, {"info": 0x0A}, {"info": 0x01}),
        ),
        (LABEL, ({"info": 0x04}, {"info": 0x01}, {"value": 9}, {"section": 16}, {"info": 0x10})),
        (MEMCPY, ({"name": "memcmp"}, {"info": 0x20}, {"info": 0x12}, {"info": 0x00}, {"other": 2})),
    ):
        for change in changes:
            refuses(
                lambda: listed(new_object(symbols=with_field(SYMBOLS, PARTS, k, **change))),
                f"{SYMBOLS[k][0]} with {change}",
                Unsupported,
            )
    for change in ({"value": 0}, {"value": 7}, {"section": 5, "value": 4}):
        listed(new_object(symbols=with_field(SYMBOLS, PARTS, LABEL, **change)))
    for name in ("memmove", "memset"):
        listed(new_object(symbols=with_field(SYMBOLS, PARTS, MEMCPY, name=name)))
    refuses(lambda: listed(new_object(symbols=[*SYMBOLS, SYMBOLS[F]])), "two functions of one section", Unsupported)
    refuses(
        lambda: listed(new_object(symbols=[*SYMBOLS[:G], *SYMBOLS[G + 1 :]])), "code without a function", Unsupported
    )


def properties(_):
    """Changes the note of properties."""
    shadow, used = (0xC0000002, 4, 2), (0xC0010002, 4, 1)
    for right in (note(shadow), note(shadow, used), note(used, shadow)):
        listed(new_object(notes=right))
    for wrong in (
        b"",
        note(),
        note(used),
        note((0xC0000002, 4, 3)),
        note((0xC0000002, 4, 0)),
        note(shadow, (0xC0008002, 4, 1)),
        note((0xC0008002, 4, 1), shadow),
        note(shadow, note_type=4),
        note(shadow, name=b"GNV\0"),
        note(shadow) * 2,
        note((0xC0000001, 4, 2)),
        struct.pack("<III", 4, 20, 5) + b"GNU\0" + struct.pack("<IIIII", *shadow[:1], 12, 2, 0, 0) + bytes(4),
    ):
        refuses(lambda: listed(new_object(notes=wrong)), f"the note {wrong.hex()}", (Unsupported, struct.error))
    refuses(lambda: listed(new_object(machine=183)), "a note for ARM", Unsupported)
    expect(SHADOW_STACK == note(shadow)[16:28], True, "the property")


def loaded_sections(_):
    """Tests which sections of an object are compared byte for byte."""
    found: Any
    whole: Any
    whole = types.SimpleNamespace(heads=new_object().heads)
    found = [head.name for head in same_bytes.Object.loaded(whole)]
    expect(found == [".text.f", ".rodata.cst16", ".rodata", ".text.g"], True, "loaded sections")


def relocations(_):
    """Tests the targets of relocations, in which assemblers differ: calls of local names, and mergeable sections."""
    found: Any
    r_type: Any
    symbol: Any
    whole: Any
    whole = types.SimpleNamespace(heads=new_object().heads, symbols=new_object().symbols)
    local, label, section = G, LABEL, 4
    whole.symbols.append(types.SimpleNamespace(name="c", info=0x01, other=0, section=4, value=16, size=16))
    whole.symbols.append(types.SimpleNamespace(name="", info=0x03, other=0, section=4, value=0, size=0))
    for machine, symbol, r_type, expected in (
        (62, F, 4, (5, 4, "f", 0, -4)),
        (62, local, 4, (5, 2, ".text.g", -4, 0)),
        (62, local, 2, (5, 2, ".text.g", -4, 0)),
        (183, local, 4, (5, 4, ".text.g", -4, 0)),
        (62, label, 2, (5, 2, ".text.f", 4, 0)),
        (62, section, 2, (5, 2, ".rodata", -4, 0)),
        (62, 6, 2, (5, 2, ".rodata.cst16", 16, -4)),
        (62, 7, 2, (5, 2, ".rodata.cst16", -4, 0)),
    ):
        whole.machine = machine
        found = same_bytes.Object.relocation(whole, 5, symbol << 32 | r_type, -4)
        expect(found == expected, True, f"a relocation of kind {r_type} to {symbol}: {found}")


def names(_):
    """Tests which names and sections of an object are compared."""
    other = [
        *SECTIONS,
        (".comment", PROGBITS, 0, 9, 1, 0, 0, 0),
        (".weird", PROGBITS, 0, 9, 1, 0, 0, 0),
        (".rel", 9, 0, 9, 8, 0, 0, 0),
    ]
    whole = new_object(other, [*SYMBOLS, ("_GLOBAL_OFFSET_TABLE_", 0x10, 0, 0, 0, 0)])
    whole.place = lambda symbol: same_bytes.Object.place(whole, symbol)
    head, _, found = same_bytes.Object.names(whole, ["a", "b"])
    expect(head == (62, 0, bytes((1, 0, 0)), ["a", "b"]), True, "the head of an object")
    expected = [("f", ".text.f+0x0", 8, 0x12, 0), ("memcpy", 0x10, 0), ".weird", "the stack may be executed: False"]
    expect(found == expected, True, f"the names of an object: {found}")
    stack = [one[0] for one in SECTIONS].index(".note.GNU-stack")
    for flags, is_run in ((4, True), (0, False), (1, False)):
        whole.heads[stack].flags = flags
        expect(same_bytes.Object.names(whole, [])[2][-1] == f"the stack may be executed: {is_run}", True, "the stack")


def spoiled_frames(_):
    """Tests that an instruction that changes the stack pointer by no known distance is refused, on each processor."""
    for name, is_right in (("rax", True), ("rsp", False), ("sp", False)):
        processor = types.SimpleNamespace(NUMBERS={}, ENTRY=(8, {16: -8}), effect=lambda _: (0, {}, {}, [name], (0, 0)))
        fault = unwinding.difference(processor, None, processor.ENTRY, processor.ENTRY)
        expect(fault is None, is_right, f"a changed {name}")


def names_of_cargo(_):
    """Tests the names of the cargo crate's functions, without the interface's number."""
    for name, expected in (
        ("twox_rust_7_xxh3_write", "xxh3_write"),
        ("twox_rust_7_xxh3_write_v4", "xxh3_write"),
        ("twox_core.a.b.i7", "twox_core.a.b"),
        ("twox_core.a.b.i12_v3", "twox_core.a.b"),
        ("twox_rust_interface", "interface"),
        ("twox_rust_interface_v3", "interface"),
    ):
        expect(cargo.plain(name) == expected, True, f"the name of {name}")
    for name in ("twox_core.a.b", "twox_rust_xxh3_write", "f", "twox_core.a.b.i7_v2"):
        refuses(lambda: cargo.plain(name), f"the name {name}", (Unsupported,))


# ---- exports


def program(**functions):
    """Returns a program of these functions: lists of instructions."""
    return types.SimpleNamespace(
        exports={name: (f".text.{name}", 0) for name in functions},
        constants={},
        sections={f".text.{name}": {x.at: x for x in code} for name, code in functions.items()},
    )


def codes(_):
    """Compares functions: jumps within a function go to the same offset, others to the same place."""

    def code(name, to=8, section="", mnemonic="jmp", last=Register("rax")):
        return [
            instruction(mnemonic, target=(section or f".text.{name}", to)),
            instruction("not", last, at=4),
            instruction("ret", at=8),
        ]

    found = program(
        a=code("a"),
        b=code("b"),
        c=code("c", 4),
        d=code("d", section=".text.a"),
        e=code("e", section=".text.z"),
        f=code("f", mnemonic="je"),
        g=code("g", last=Register("rbx")),
        h=code("h")[:2],
        i=[*code("i")[:2], instruction("ret", at=8, size=1)],
        j=code("j", section=".text.z"),
    )
    for name in found.exports:
        for other in found.exports:
            is_same = name == other or {name, other} in ({"a", "b"}, {"e", "j"})
            expect(
                exports.code_of(found, name) == exports.code_of(found, other),
                is_same,
                f"the code of {name} and {other}",
            )
            with unittest.mock.patch.object(exports, "twins", lambda _, pair=(name, other): dict([pair])):
                if is_same:
                    expect(exports.expect_twins(found), 1, "twins")
                else:
                    refuses(lambda: exports.expect_twins(found), f"{name} as a twin of {other}", NotShown)
    refuses(lambda: exports.code_of(found, "k"), "a function that isn't exported", NotShown)


def titles(_):
    """Tests that each export needs its task, and each task its export."""
    known = {"a": "task a", "b": "task b"}
    with unittest.mock.patch.object(exports, "shown_by", lambda _: known), unittest.mock.patch.object(
        cargo_exports, "shown_by", lambda: known
    ):
        for names, found, is_right in (
            ("ab", ("task a, more", "task b"), True),
            ("abc", ("task a", "task b", "task c"), False),
            ("a", ("task a", "task b"), False),
            ("ab", ("task a", "a task b"), False),
            ("ab", (), False),
        ):
            some = program(**dict.fromkeys(names, []))
            count, bad = cargo_exports.exports_left_out({"x": some, "y": program(a=[], b=[])}, found)
            expect(not bad and count == 4, is_right, f"{names} with {found}")
            if is_right:
                expect(exports.expect_all(some, found), 2, "exports")
            else:
                refuses(lambda: exports.expect_all(some, found), f"{names} with {found}", NotShown)


def exports_of_v3(_):
    """Tests which exports of the source for x86-64-v4 must have the code of x86-64-v3's."""
    of_v3 = (
        "XXH32",
        "XXH64",
        "XXH32_copyState",
        "XXH64_copyState",
        "XXH3_copyState",
        "XXH_versionNumber",
        "XXH128_cmp",
        "XXH128_isEqual",
        "XXH128_canonicalFromHash",
        "XXH3_generateSecret_fromSeed",
        "twox_c_forget_xxh3",
        "XXH32_update",
        "XXH64_digest",
    )
    others = (
        "XXH128",
        "XXH3_64bits",
        "XXH3_64bits_withSeed",
        "XXH3_128bits_withSecret",
        "proved_XXH3_64bits_update",
        "twox_c_update_xxh3",
        "twox_c_digest_64",
        "proved_XXH3_generateSecret",
        "XXH3_64bits_dispatch",
        "proved_XXH3_128bits_digest",
    )
    for name in (*of_v3, *others):
        if name in exports.shown_by():
            expect(exports.is_of_v3(name), name in of_v3, f"{name} as x86-64-v3's")


# ---- functions that two sources share


def source(bodies, targets, constants, end=""):
    """Returns a source of functions with these bytes and targets. Names of sections end with `end`."""
    places = {name: (f".text.{name}{end}", 0) for name in bodies}
    code = {
        places[name][0]: {
            4 * k: instruction(mnemonic, at=4 * k, target=(to if to in constants else places[to][0], at))
            for k, (mnemonic, to, at) in enumerate(targets.get(name, ()))
        }
        for name in bodies
    }
    return types.SimpleNamespace(
        functions=places,
        sections=code,
        constants=constants,
        heads={place: place for place, _ in places.values()},
        object=types.SimpleNamespace(body=lambda head: bodies[head[len(".text.") : len(head) - len(end)]]),
    )


BODIES, DATA = {name: name.encode() for name in "fghjk"}, bytes(range(200))
TARGETS: dict[str, list] = {
    "f": [("call", "g", 0)],
    "g": [("jmp", "h", 0), ("jmp", "g", 4)],
    "j": [("add", "c", 8)],
    "k": [("lea", "c", 8)],
}
# Differences of a second source, and the functions that it still shares.
DIFFERENCES = [
    ({}, "fghjk"),
    ({"bodies": {**BODIES, "h": b"x"}}, "jk"),
    ({"bodies": {**BODIES, "f": b"x"}}, "ghjk"),
    ({"bodies": {name: BODIES[name] for name in "fghj"}}, "fghj"),
    ({"targets": {**TARGETS, "f": [("call", "h", 0)]}}, "ghjk"),
    ({"targets": {**TARGETS, "f": []}}, "ghjk"),
    ({"targets": {**TARGETS, "f": [("call", "g", 4)]}}, "ghjk"),
    ({"targets": {**TARGETS, "g": [("jmp", "h", 0), ("jmp", "g", 0)]}}, "fghjk"),
    ({"targets": {**TARGETS, "j": [("add", "c", 40)]}}, "fghk"),
    ({"constants": {"c": (DATA, 16)}}, "fgh"),
    ({"constants": {"c": (DATA[:100], 32)}}, "fghj"),
    ({"constants": {"c": (DATA[:60], 32)}}, "fgh"),
    ({"constants": {"c": (b"x" + DATA[1:], 32)}}, "fghj"),
    ({"constants": {"c": (DATA[:8] + b"x" + DATA[9:], 32)}}, "fgh"),
    ({"end": ".i7_v2"}, "hjk"),
    ({"end": ""}, "fghjk"),
]


def shared_functions(_):
    """Tests that functions are shared if their bytes, targets and constants are, and those of all that they reach."""
    changed: Any
    expected: Any
    first: Any
    found: Any
    right: Any
    right = {"bodies": BODIES, "targets": TARGETS, "constants": {"c": (DATA, 32)}, "end": ".i7"}
    first = source(**right)
    for changed, expected in DIFFERENCES:
        found = cargo_exports.shared(first, source(**{**right, "end": ".i7_v3", **changed}))
        expect(found == {*expected}, True, f"functions shared with a source with other {[*changed]}")
    other = source(**right)
    other.functions["h"] = other.functions["h"][0], 4
    expect(cargo_exports.shared(first, other) == {*"jk"}, True, "a function within a section")


ALL = [
    sections,
    symbols,
    properties,
    loaded_sections,
    relocations,
    names,
    spoiled_frames,
    names_of_cargo,
    codes,
    titles,
    exports_of_v3,
    shared_functions,
]
