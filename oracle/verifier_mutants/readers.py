"""Tests of the readers of definitions, objects and sources on small files written here, by the rules of their
formats. Each takes a random generator, which it doesn't use, and raises Wrong."""
import os
import struct
import tempfile
import types
from typing import Any

from oracle import antt
from assembly import same_bytes
from oracle.antt import Reader, Unreadable
from oracle.machine_code import grammar
from oracle.symbolic_terms import REFUSALS

from .values import Wrong, expect, refuses

FAULTS = ValueError, LookupError, struct.error


# ---- definitions

BASE = """-- A comment: no definition.
use Rattle.std.specs.Prelude.{ℕ, ◌+◌, List, [], length, slice_index, min}
use Rattle.std.specs.Int.{w32, bits, rotate_left as turned}

data Choice where
  Left : Choice
  Right : Choice

abbrev pub one : ℕ
one = 1

abbrev twice : ℕ → ℕ
twice n = n + n

pub sum_to : ℕ → ℕ
sum_to zero = 0
sum_to (suc n) = suc_of n + sum_to n

suc_of : ℕ → ℕ
suc_of n = n + one

unfoldable choose : Choice → ℕ → ℕ
choose Left n = n
choose Right n = 2 * n

record unused : ℕ
unused = 0
"""
MORE = """use Rattle.base.specs.Base.{twice, sum_to as total, choose, Left, Right, one}
use Rattle.base.specs.Base as Other
use Rattle.std.specs.Prelude.{min, take, length}
use Rattle.base.specs.Base
mod inner

entry : ℕ → ℕ → ℕ
entry a b = let c = a * 10 in let d : ℕ = c + b in
    if a == b then d else d - 1

levels : ℕ → ℕ
levels n = 2 + 3 * n ^ 2 ^ 1 - 1 + 7 / 2 + 7 % 4

lists : ℕ → List ℕ
lists n = n ∷ 2 ∷ [] ++ (3 ∷ []) ++ take 1 (4 ∷ 5 ∷ [])

applied : (ℕ → ℕ) → ℕ → ℕ
applied f n = f n + (λ x y. x * y) n 3

results : ℕ → ℕ
results n = applied twice n + total n + choose Left n + choose Right n + Other.suc_of n + min n 3 + Base.twice 1 + zero

partial : ℕ → ℕ
partial n = applied (add_to 4) n

add_to : ℕ → ℕ → ℕ
add_to a b = a + b

chosen : ℕ → ℕ
chosen n = Other.turned 8 n 1 + length (0x10 ∷ []) + one

nested : ℕ → ℕ
nested n = (λ f. f 2) (λ x. x + n)

constant : List ℕ
constant = 1 ∷ 2 ∷ []
"""


class Folder:
    """A folder with definitions: files by crate and name."""

    def __init__(self, files):
        self.folder, self.files = tempfile.TemporaryDirectory(), files

    def __enter__(self):
        top = self.folder.name
        for (crate, name), text in self.files.items():
            place = os.path.join(top, "crates", crate, "specs")
            os.makedirs(place, exist_ok=True)
            with open(os.path.join(place, f"{name}.antt"), "w", encoding="utf-8") as file:
                file.write(text)
        return antt.Definitions(top, dict.fromkeys(crate for crate, _ in self.files))

    def __exit__(self, *_):
        self.folder.cleanup()


def definitions(_):
    """Evaluates definitions of each form on numbers."""
    names = "entry", "levels", "lists", "results", "partial", "chosen", "nested", "constant"
    with Folder({("base", "Base"): BASE, ("more", "More"): MORE, ("more", "Lib"): "use unreadable {{{\n"}) as known:
        run = antt.Program(known, names).run()
        for a, b in ((3, 4), (3, 3), (0, 0), (0, 7)):
            expect(run["entry"](a, b), 10 * a + b if a == b else max(0, 10 * a + b - 1), "conditions")
        for n in (0, 1, 2, 5):
            expect(run["levels"](n), 2 + 3 * n**2 - 1 + 3 + 3, "operators")
            expect(run["lists"](n) == (n, 2, 3, 4), True, "lists")
            expect(run["results"](n), 2 * n + 3 * n + n * (n + 1) // 2 + n + 2 * n + n + 1 + min(n, 3) + 2, "calls")
            expect(run["partial"](n), n + 4 + 3 * n, "a partial call")
            expect(run["chosen"](n), n * 2 + 1 + 1, "library functions")
            expect(run["nested"](n), n + 2, "functions of functions")
        first = run["constant"]()
        expect(first == (1, 2) and run["constant"]() is first, True, "a constant, which is computed once")
        module = known.modules["Rattle.base.specs.Base"]
        expect(
            {*module.definitions} == {"one", "twice", "sum_to", "suc_of", "choose", "unused"}
            and module.constructors == {"Left": "Choice", "Right": "Choice"},
            True,
            "definitions",
        )
        expect(
            [module.definitions[name].is_unfoldable for name in ("choose", "one", "sum_to")] == [True, False, False],
            True,
            "unfolded definitions",
        )
        expect(
            module.definitions["twice"].type_tokens == ["ℕ", "→", "ℕ"] and module.definitions["twice"].arity() == 1,
            True,
            "a type",
        )
        expect(repr(module.definitions["one"]) == "Rattle.base.specs.Base.one", True, "the name of a definition")
        more = known.modules["Rattle.more.specs.More"]
        expect(
            more.modules == {"Other": "Rattle.base.specs.Base", "Base": "Rattle.base.specs.Base"}
            and more.names["total"] == ("Rattle.base.specs.Base", "sum_to"),
            True,
            "imports",
        )
        expect([*known.modules] == ["Rattle.base.specs.Base", "Rattle.more.specs.More"], True, "modules")
        expect(known.entry("entry") is more.definitions["entry"], True, "an entry")
        refuses(lambda: known.entry("missing"), "an entry without a definition", (Unreadable,))
        changed = antt.Program(known, names)
        other = changed.run({more.definitions["add_to"]: [["a", "*", "b"]]})
        expect(other["partial"](5), 20 + 15, "another right-hand side")
        expect(changed.run()["partial"](5), 24, "the right-hand side again")
        seen = set()
        changed.run(traced=seen)["partial"](5)
        expect(
            {definition.name for definition in seen} == {"partial", "applied", "add_to"}, True, "reached definitions"
        )
        for name, meaning in (
            ("Left", ("constructor", "Choice", "Left")),
            ("min", ("library", "min")),
            ("Other.turned", ("library", "rotate_left")),
            ("entry", more.definitions["entry"]),
        ):
            expect(known.resolve(more, name) == meaning, True, f"the meaning of {name}")
        for name in ("missing", "Other.missing", "Unknown.twice", "levels.twice"):
            refuses(lambda: known.resolve(more, name), f"the name {name}", (Unreadable,))
        refuses(
            lambda: known.member("Rattle.std.specs.Prelude", "no_function", more), "an unknown function", (Unreadable,)
        )


def names_in_two_modules(_):
    """Tests that a name with two definitions is refused."""
    with Folder({("a", "A"): "f : ℕ\nf = 1\n", ("b", "B"): "f : ℕ\nf = 2\n"}) as known:
        refuses(lambda: known.entry("f"), "two definitions of a name", (Unreadable,))


def unreadable(_):
    """Tests that text outside of the language is refused."""
    for text in (
        "f n = n n2 )",
        "f n = let x = 1",
        "f n = if n then 1",
        "f n = (n",
        "f n = n +",
        "f n = let x = 1 at x",
        "f n = ?",
        "f n = _",
        "f n = n → n",
        "f n = :",
        "f n = then",
        "f n = n = n",
        "f n = n in",
        "f n = missing n",
        "f n = λ x",
        "f ( zero n ) = n",
        "f n = 2 . 3",
        "f _ = _",
        "f then = then",
        "f n = let x n = 1 in x",
    ):
        with Folder({("a", "A"): f"f : ℕ → ℕ\n{text}\n"}) as known:
            refuses(lambda: antt.Program(known, ["f"]).run(), f"the text {text}", (Unreadable, IndexError, ValueError))
    for text in ("use Rattle.std.{a", "use Rattle.std.{a} and more", "use Rattle std", "use Rattle.std as"):
        refuses(lambda: Folder({("a", "A"): text + "\n"}).__enter__(), f"the import {text}", (Unreadable,))
    for values, tree in (
        (["1"], ("number", 1, 0)),
        (["0x1F"], ("number", 31, 0)),
        (["[]"], ("nil",)),
        (["(", "f", "x", "y", ")"], ("apply", ("name", "f", 1), [("name", "x", 2), ("name", "y", 3)])),
        (
            ["a", "-", "b", "-", "c"],
            ("operator", "-", ("operator", "-", ("name", "a", 0), ("name", "b", 2), 1), ("name", "c", 4), 3),
        ),
        (
            ["a", "∷", "b", "∷", "c"],
            ("operator", "∷", ("name", "a", 0), ("operator", "∷", ("name", "b", 2), ("name", "c", 4), 3), 1),
        ),
        (
            ["a", "^", "b", "^", "c"],
            ("operator", "^", ("name", "a", 0), ("operator", "^", ("name", "b", 2), ("name", "c", 4), 3), 1),
        ),
        (
            ["a", "+", "let", "x", "=", "1", "in", "x"],
            ("operator", "+", ("name", "a", 0), ("let", "x", ("number", 1, 5), ("name", "x", 7)), 1),
        ),
        (["let", "x", ":", "ℕ", "→", "ℕ", "=", "1", "in", "x"], ("let", "x", ("number", 1, 7), ("name", "x", 9))),
        (["a", "+", "λ", "x", ".", "x"], ("operator", "+", ("name", "a", 0), ("lambda", ["x"], ("name", "x", 5)), 1)),
        (["if", "a", "then", "b", "else", "c"], ("if", ("name", "a", 1), ("name", "b", 3), ("name", "c", 5))),
    ):
        reader = Reader(values)
        expect(
            reader.expression() == tree and reader.at == len(values) and reader.peek() is None,
            True,
            f"the tree of {values}",
        )
    for text, found in (
        ("a b", [("a", 0), ("b", 2)]),
        ("(a)", [("(", 0), ("a", 1), (")", 2)]),
        ("λ x. y", [("λ", 0), ("x", 2), (".", 3), ("y", 5)]),
        ("λx.", [("λ", 0), ("x", 1), (".", 2)]),
        ("a -- b\nc", [("a", 0), ("c", 7)]),
        (".", [(".", 0)]),
        ("a.b", [("a.b", 0)]),
        ("-- a\n", []),
        ("xy. z", [("xy", 0), (".", 2), ("z", 4)]),
    ):
        expect(antt.tokens(text) == found, True, f"the tokens of {text!r}: {antt.tokens(text)}")
    refuses(lambda: Reader([]).next(), "a token behind the end", (Unreadable,))
    refuses(lambda: Reader(["a"]).expect("b"), "another token", (Unreadable,))


def called_functions(_):
    """Tests partial and full calls, and functions that are noted."""
    function = antt.Function(3, lambda a, b, c: (a, b, c))
    partial = antt.call(antt.call(function, 1), 2)
    expect(
        isinstance(partial, antt.Function)
        and (partial.arity, partial.given) == (3, (1, 2))
        and antt.call(partial, 3) == (1, 2, 3),
        True,
        "a partial call",
    )
    more = antt.Function(1, lambda a: antt.Function(1, lambda b: a - b))
    expect(antt.call(more, 9, 4), 5, "a call with more arguments")
    seen = set()
    expect(
        antt.noted(lambda a: a + 1, "a definition", seen)(4) == 5 and seen == {"a definition"}, True, "a noted function"
    )
    expect(antt.with_deep_recursion(lambda a, b: a + b, 3, 4), 7, "a call in another thread")
    for name, arguments, result in (
        ("from_le_bytes", (16, (1, 2, 3)), 0x201),
        ("from_le_bytes", (16, (5,)), 5),
        ("from_le_bytes", (8, ()), 0),
        ("to_le_bytes", (32, 0x01020304), (4, 3, 2, 1)),
        ("rotate_left", (32, 1, 31), 1 << 31),
        ("rotate_left", (32, 3, 31), 1 << 31 | 1),
        ("rotate_left", (8, 0x80, 8), 0x80),
        ("bits", (32,), 32),
        ("bit_xor", (12, 10), 6),
        ("take", (0, (1, 2)), ()),
        ("drop", (5, (1, 2)), ()),
        ("length", ((1, 2),), 2),
        ("nat_eq", (2, 2), True),
        ("nat_lt", (2, 2), False),
    ):
        expect(antt.LIBRARY[name][1](*arguments) == result, True, f"{name} of {arguments}")
    of_two = "take drop slice_index bit_xor min max nat_lt nat_eq from_le_bytes to_le_bytes to_be_bytes swap_bytes"
    for arity, names in ((1, "bits byte_len length"), (2, of_two), (3, "rotate_left")):
        expect(all(antt.LIBRARY[name][0] == arity for name in names.split()), True, "numbers of arguments")
    expect([antt.LIBRARY[name] for name in ("w32", "w64", "w128")] == [32, 64, 128], True, "widths")


# ---- objects


def elf(
    sections: list[tuple],
    symbols: list[tuple],
    machine: int = 62,
    flags: int = 0,
    proof_class: int = 1,
    magic: bytes = b"\x7fELF\x02\x01\x01",
) -> bytes:
    """Returns an object of ELF with sections (name, type, flags, data, link, info, align, entry) and symbols (name,
    info, other, section, value, size). The tables of symbols and names follow the given sections."""

    def table(names):
        data, places = b"\0", {}
        for name in names:
            places[name], data = len(data), data + name.encode() + b"\0"
        return data, places

    strings, at_of = table([symbol[0] for symbol in symbols])
    packed = b"".join(struct.pack("<IBBHQQ", at_of[name] if name else 0, *rest) for name, *rest in symbols)
    count = len(sections)
    whole = [
        ("", 0, 0, b"", 0, 0, 0, 0),
        *sections,
        (".symtab", 2, 0, packed, count + 2, 1, 8, 24),
        (".strtab", 3, 0, strings, 0, 0, 1, 0),
    ]
    names, name_at = table([one[0] for one in whole] + [".shstrtab"])
    whole.append((".shstrtab", 3, 0, names, 0, 0, 1, 0))
    body, heads = b"", b""
    for name, section_type, section_flags, data, link, info, align, entry in whole:
        size = data if isinstance(data, int) else len(data)
        heads += struct.pack(
            "<IIQQQQIIQQ", name_at[name], section_type, section_flags, 0, 64 + len(body), size, link, info, align, entry
        )
        body += b"" if isinstance(data, int) else data
    head = magic.ljust(16, b"\0") + struct.pack(
        "<HHIQQQIHHHHHH", proof_class, machine, 1, 0, 0, 64 + len(body), flags, 64, 0, 0, 64, len(whole), len(whole) - 1
    )
    return head + body + heads


def read(data):
    with tempfile.NamedTemporaryFile() as file:
        file.write(data)
        file.flush()
        return same_bytes.Object(file.name)


def note(content, proof_class=5, name=b"GNU\0"):
    return struct.pack("<III", len(name), len(content), proof_class) + name + bytes(-len(name) % 4) + content


CODE, DATA = bytes(range(16)), bytes(range(100, 132))
PROPERTY, USED = struct.pack("<IIII", 0xC0000002, 4, 3, 0), struct.pack("<IIII", 0xC0010001, 4, 1, 0)
RELOCATIONS = struct.pack("<QQq", 8, 3 << 32 | 4, -4) + struct.pack("<QQq", 2, 5 << 32 | 2, 6)
SECTIONS = [
    (".text.f", 1, 6, CODE, 0, 0, 16, 0),
    (".rela.text.f", 4, 0x40, RELOCATIONS, 7, 1, 8, 24),
    (".rodata.cst16", 1, 0x12, DATA, 0, 0, 16, 16),
    (".bss", 8, 3, 40, 0, 0, 8, 0),
    (".note.gnu.property", 7, 2, note(PROPERTY + USED), 0, 0, 8, 0),
    (".note.GNU-stack", 1, 0, b"", 0, 0, 1, 0),
]
SYMBOLS = [
    ("", 0, 0, 0, 0, 0),
    ("f", 0x12, 0, 1, 0, 16),
    ("g", 0x22, 2, 1, 4, 8),
    ("memcpy", 0x10, 0, 0, 0, 0),
    ("local", 0x00, 0, 1, 12, 0),
    ("c", 0x01, 0, 3, 16, 16),
]


def objects(_):
    """Reads an object's headers, symbols, relocations, notes and parts."""
    object_ = read(elf(SECTIONS, SYMBOLS))
    expect(
        (object_.machine, object_.flags) == (62, 0)
        and [head.name for head in object_.heads]
        == ["", *(one[0] for one in SECTIONS), ".symtab", ".strtab", ".shstrtab"],
        True,
        "sections",
    )
    code, _, constants, zeros, notes = object_.heads[1:6]
    expect([tuple(symbol) for symbol in object_.symbols] == SYMBOLS, True, f"symbols: {object_.symbols}")
    expect(
        object_.body(code) == CODE and object_.body(constants) == DATA and object_.body(zeros) == b"",
        True,
        "bytes of sections",
    )
    expect([head.name for head in object_.loaded()] == [".text.f", ".rodata.cst16", ".bss"], True, "loaded sections")
    expect(
        object_.relocations_of(code) == [(2, 2, ".rodata.cst16", 16, 6), (8, 4, "memcpy", 0, -4)]
        and object_.relocations_of(constants) == [],
        True,
        "relocations",
    )
    expect(
        list(object_.notes()) == [(".note.gnu.property", 2, 5, b"GNU\0", PROPERTY[:12])]
        and object_.body(notes) == note(PROPERTY + USED),
        True,
        "notes",
    )
    parts = object_.parts()
    expect([*parts] == [".text.f", ".rodata.cst16", ".bss", "names"], True, "parts")
    expect(
        parts[".text.f"].body == CODE and parts[".text.f"].relocations == object_.relocations_of(code), True, "a part"
    )
    expect(
        (
            parts[".text.f"].head.kind,
            parts[".text.f"].head.size,
            parts[".text.f"].head.align,
            parts[".text.f"].head.name,
        )
        == (1, 16, 16, ""),
        True,
        "a part's header",
    )
    head, _, names = parts["names"]
    expect(head == (62, 0, b"\1\0\0", [".text.f", ".rodata.cst16", ".bss"]), True, "the names' header")
    expect(
        names
        == [
            ("f", ".text.f+0x0", 16, 0x12, 0),
            ("g", ".text.f+0x4", 8, 0x22, 2),
            ("memcpy", 0x10, 0),
            "the stack may be executed: False",
        ],
        True,
        f"names: {names}",
    )
    expect(
        object_.added()["notes"].relocations == list(object_.notes()) and object_.added()["frames"].relocations == [],
        True,
        "added parts",
    )
    other = read(
        elf(
            [
                *SECTIONS[:4],
                (".note.a", 7, 2, note(b"12345678", 9, b"AB\0"), 0, 0, 4, 0),
                (".note.b", 7, 0, note(b"1234", 9), 0, 0, 4, 0),
                *SECTIONS[5:],
            ],
            SYMBOLS,
            flags=7,
            machine=183,
        )
    )
    expect(
        list(other.notes()) == [(".note.a", 2, 9, b"AB\0", b"12345678")] and other.flags == 7 and other.machine == 183,
        True,
        "other notes",
    )
    expect([(part.head, part.body) for part in object_.added().values()] == [((), b"")] * 2, True, "added parts")
    turned = read(elf(SECTIONS, [SYMBOLS[0], ("memset", 0x10, 0, 0, 0, 0), *SYMBOLS[3:0:-1], *SYMBOLS[4:]]))
    found = turned.parts()["names"].relocations
    expect([one[0] for one in found[:4]] == ["f", "g", "memcpy", "memset"], True, f"sorted names: {found}")


def notes_of_objects(_):
    """Tests notes, sorted names, relocations and sums of objects."""
    expected: Any
    last: Any
    proof_class: Any
    section: Any
    whole: Any
    object_ = read(elf(SECTIONS, SYMBOLS))
    parts = object_.parts()
    two = note(b"12345", 9) + bytes(3) + note(b"1234", 8)
    for align in (0, 1, 4):
        whole = types.SimpleNamespace(
            heads=[types.SimpleNamespace(kind=7, flags=2, align=align, name=".note.x")], body=lambda _: two
        )
        expect(
            [one[2:] for one in same_bytes.Object.notes(whole)] == [(9, b"GNU\0", b"12345"), (8, b"GNU\0", b"1234")],
            True,
            "notes at a multiple of 4",
        )
    section = types.SimpleNamespace(name=".text.f", kind=1)
    last = types.SimpleNamespace(
        heads=[section, types.SimpleNamespace(kind=4, info=0)], body=lambda _: RELOCATIONS, relocation=lambda *one: one
    )
    expect(
        same_bytes.Object.relocations_of(last, section) == [(2, 5 << 32 | 2, 6), (8, 3 << 32 | 4, -4)],
        True,
        "relocations of the last section",
    )
    for proof_class, info, expected in (
        (1, 0x00, (5, 1, ".text.f", 8, 0)),
        (4, 0x06, (5, 2, ".text.f by a symbol of kind 6", 8, 0)),
        (2, 0x02, (5, 2, ".text.f", 8, 0)),
    ):
        whole = types.SimpleNamespace(
            machine=62,
            heads=[types.SimpleNamespace(name=".text.f", flags=6)],
            symbols=[types.SimpleNamespace(info=info, section=0, value=12, name="x")],
        )
        expect(
            same_bytes.Object.relocation(whole, 5, proof_class, -4) == expected,
            True,
            f"a relocation of kind {proof_class}",
        )
    sums = same_bytes.sums(object_)
    expect(
        sums == same_bytes.sums(read(elf(SECTIONS, SYMBOLS))) and {*sums} == {*parts, "notes", "frames"}, True, "sums"
    )
    changed = same_bytes.sums(
        read(elf([(*SECTIONS[0][:3], CODE[1:] + b"x", *SECTIONS[0][4:]), *SECTIONS[1:]], SYMBOLS))
    )
    expect([name for name in sums if sums[name] != changed[name]] == [".text.f"], True, "a changed sum")
    with tempfile.NamedTemporaryFile("w") as file:
        file.write("".join(f"{total}  {name}\n" for name, total in sums.items()))
        file.flush()
        expect(same_bytes.read_sums(file.name) == sums, True, "sums that are read")


def wrong_objects(_):
    """Tests that other files, and objects with another structure, are refused or differ."""
    field: Any
    k: Any
    symbols: Any
    right = elf(SECTIONS, SYMBOLS)
    for data, what in (
        (b"\x7fELF\x01\x01" + right[6:], "32 bits"),
        (b"\x7fELF\x02\x02" + right[6:], "another order of bytes"),
        (b"\x7fELG" + right[4:], "another format"),
        (elf(SECTIONS, SYMBOLS, proof_class=2), "a program"),
        (elf([*SECTIONS, (".symtab2", 2, 0, b"", 8, 0, 8, 24)], SYMBOLS), "two tables of symbols"),
    ):
        refuses(lambda: read(data), what, FAULTS)
    twice = read(elf([*SECTIONS, SECTIONS[0]], SYMBOLS))
    refuses(twice.parts, "two sections of one name", FAULTS)
    old = read(elf([SECTIONS[0], (".rel.text.f", 9, 0x40, RELOCATIONS, 7, 1, 8, 24), *SECTIONS[2:]], SYMBOLS))
    refuses(lambda: old.relocations_of(old.heads[1]), "relocations of another kind", FAULTS)
    elsewhere = read(elf([SECTIONS[0], (*SECTIONS[1][:5], 3, *SECTIONS[1][6:]), *SECTIONS[2:]], SYMBOLS))
    expect(
        elsewhere.relocations_of(elsewhere.heads[1]) == [] and len(elsewhere.relocations_of(elsewhere.heads[3])) == 2,
        True,
        "relocations of another section",
    )
    parts = read(right).parts()
    for k, change in (
        (3, (".text.f", 1, 6, CODE[::-1], 0, 0, 16, 0)),
        (0, (".text.f", 1, 6, CODE, 0, 0, 32, 0)),
        (0, (".text.f", 1, 7, CODE, 0, 0, 16, 0)),
        (0, (".text.g", 1, 6, CODE, 0, 0, 16, 0)),
    ):
        other = read(elf([change, *SECTIONS[1:]], SYMBOLS)).parts()
        expect(
            len(list(same_bytes.differences(parts, other, same_bytes.difference))) > 0,
            True,
            f"an object that differs {k}",
        )
    for k, field in ((1, 1), (1, 2), (1, 4), (1, 5), (2, 3), (3, 1)):
        symbols = [list(one) for one in SYMBOLS]
        symbols[k][field] += 1
        other = read(elf(SECTIONS, [tuple(one) for one in symbols])).parts()
        expect(
            [line.split(":")[0] for line in same_bytes.differences(parts, other, same_bytes.difference)][-1:]
            == ["names"],
            True,
            f"a symbol {k} that differs",
        )


# ---- sources

RIGHT = """/* A source: for tests. */
\t.ifndef f
\t.section .text.f,"ax",@progbits
\t.p2align 4
\t.weak f
\t.hidden f
\t.type f,@function
f:
\t.cfi_startproc
\tpush %rbx
\t.cfi_def_cfa_offset 16
\t.cfi_offset 3, -16
.L1_0:
\tmov $0x5,%eax
\tmov 0x8(%rdi,%rax,4),%rbx
\tvpaddq .L0_10(%rip),%ymm0,%ymm1
\tvpmullq (%rdi){1to8},%zmm0,%zmm1
\tjne .L1_0
\tcall memcpy@PLT
\t.byte 15,133
\t.long .L1_0-.-4
\tpop %rbx
\t.cfi_restore 3
\tret
\t.cfi_endproc
\t.size f,.-f
\t.section .rodata.cst16,"aM",@progbits,16
\t.p2align 4
.L0_10:
\t.quad 0x1,0xff
\t.byte 0,255
\t.endif
\t.section .note.GNU-stack,"",@progbits
\t.section .note.gnu.property,"a",@note
\t.p2align 3
\t.long 4,16,5
\t.asciz "GNU"
\t.long 0xc0000002,4,2,0
\t.text
"""


def followed(text: str, proof_class: str = "x86-64") -> None:
    with tempfile.NamedTemporaryFile() as file:
        file.write(text.encode())
        file.flush()
        grammar.expect_grammar(file.name, proof_class)


def sources(_):
    """Tests that a source with a dropped, doubled or changed line is refused, except instructions and frames."""
    other: Any
    followed(RIGHT)
    lines = RIGHT.split("\n")[:-1]
    free = {*range(9, 24), 28, 29, 30}
    for k, line in enumerate(lines):
        for what, other in (
            ("dropped", lines[:k] + lines[k + 1 :]),
            ("twice", lines[: k + 1] + lines[k:]),
            ("changed", lines[:k] + [line + "x"] + lines[k + 1 :]),
            ("with a comment", lines[:k] + [line + " # more"] + lines[k + 1 :]),
            ("with a space", lines[:k] + [" " + line] + lines[k + 1 :]),
        ):
            if k in free and what in ("dropped", "twice"):
                followed("\n".join([*other, ""]))
            elif k not in free or what != "changed":
                refuses(lambda: followed("\n".join([*other, ""])), f"the line {line!r} {what}", REFUSALS)
    for what, text in (
        ("no last line end", RIGHT[:-1]),
        ("a line at the end", RIGHT + "\tnop\n"),
        ("an empty line", RIGHT.replace("\tret\n", "\tret\n\n")),
        ("another letter", RIGHT.replace("tests", "tösts")),
        ("a prefix", RIGHT.replace("\tret\n", "\trep ret\n")),
        ("a byte of 256", RIGHT.replace(".byte 15,133", ".byte 15,256")),
        ("a constant of 256", RIGHT.replace(".byte 0,255", ".byte 0,256")),
        ("a jump to a register", RIGHT.replace("jne .L1_0", "jmp *%rax")),
        ("two instructions", RIGHT.replace("\tret\n", "\tret; ret\n")),
        ("another alignment", RIGHT.replace(".p2align 4", ".p2align 7")),
        ("a weak name that isn't hidden", RIGHT.replace("\t.hidden f\n", "")),
        ("a guard of another name", RIGHT.replace(".ifndef f", ".ifndef g")),
        ("a global name with a guard", RIGHT.replace("\t.weak f\n\t.hidden f\n", "\t.globl f\n")),
        ("another note", RIGHT.replace("0xc0000002,4,2,0", "0xc0000002,4,3,0")),
    ):
        refuses(lambda: followed(text), what, REFUSALS)
    for text in (
        RIGHT.replace("\t.ifndef f\n", "").replace("\t.endif\n", ""),
        RIGHT.replace("\t.ifndef f\n", "")
        .replace("\t.endif\n", "")
        .replace("\t.weak f\n\t.hidden f\n", "\t.globl f\n"),
        RIGHT.replace("\t.ifndef f\n", "").replace("\t.endif\n", "").replace("\t.weak f\n\t.hidden f\n", ""),
    ):
        followed(text)
    dotted = RIGHT.replace("\t.ifndef f\n", "").replace("\t.endif\n", "")
    dotted = dotted.replace("\t.weak f\n\t.hidden f\n", "\t.globl f\n")
    for old in (".text.f", ".globl f", ".type f", "\nf:", ".size f", ",.-f"):
        dotted = dotted.replace(old, old[: old.rindex("f")] + "a.b" + old[old.rindex("f") + 1 :])
    followed(dotted)
    for old in (".globl a.b", ".type a.b", "\na.b:", ".size a.b", ",.-a.b"):
        other = dotted.replace(old, old.replace("a.b", "axb"))
        refuses(lambda: followed(other), "a function of another name", REFUSALS)
    refuses(lambda: followed(RIGHT, "aarch64"), "a source for another processor", REFUSALS)
    wrong = RIGHT.replace("\tpop %rbx\n", "\tpop rbx\n")
    try:
        followed(wrong)
    except REFUSALS as error:
        expect(
            f":{wrong.split(chr(10)).index(chr(9) + 'pop rbx') + 1}:" in str(error), True, "the number of a wrong line"
        )
    else:
        raise Wrong("a wrong line isn't refused")


ALL = [
    definitions,
    names_in_two_modules,
    unreadable,
    called_functions,
    objects,
    notes_of_objects,
    wrong_objects,
    sources,
]
