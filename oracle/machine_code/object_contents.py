"""Checks the contents of a source's object: sections by name, kind, flags and alignment, symbols by kind, binding and
visibility, and the one note. A linker or a loader may handle anything else in its own way."""
import re
import struct

from oracle.symbolic_terms import Unsupported
from assembly.same_bytes import (FRAMES, LOADED, NONE, NOTE, RELA, STRTAB, SYMTAB, USED, Object, Symbol, is_global,
                                 notes_of, properties_of)

PROGBITS, NOBITS, UNWIND = 1, 8, 0x70000001           # section types
CODE, CONSTANTS, MERGEABLE, WRITTEN, INFO = LOADED | 4, LOADED, LOADED | 0x10, LOADED | 1, 0x40      # section flags
LABEL, FUNCTION, SECTION = 0, 2, 3                    # symbol types
GLOBAL, WEAK = 1, 2                                   # symbol bindings
DEFAULT, HIDDEN = 0, 2                                # symbol visibilities
OUTER = "memcpy", "memmove", "memset"                 # functions that the source calls and another library has
HEAD = (1, 0, 0)                                      # version, system and its version
X86_64, AARCH64 = 62, 183
PROPERTIES = 5, b"GNU\0"
SHADOW_STACK = struct.pack("<III", 0xC0000002, 4, 2)  # declares that the code supports a shadow stack
MOST_ALIGNED = 64
NAME = r"[A-Za-z_][\w.]*"
# Allowed names, types and flags of sections. Assemblers add the ones with 0 bytes.
LISTED = [(rf"\.text\.{NAME}", (PROGBITS,), CODE), (rf"\.rodata(\.{NAME})?", (PROGBITS,), CONSTANTS),
          (r"\.rodata\.cst(4|8|16|32)", (PROGBITS,), MERGEABLE), (r"\.eh_frame", (PROGBITS, UNWIND), CONSTANTS),
          (r"\.note\.gnu\.property", (NOTE,), CONSTANTS), (rf"\.rela(\.eh_frame|\.text\.{NAME})", (RELA,), INFO),
          (r"\.symtab", (SYMTAB,), 0), (r"\.strtab|\.shstrtab", (STRTAB,), 0)]
EMPTY: list[tuple[str, tuple[int, ...], int]] = [
    (r"", (NONE,), 0), (r"\.text", (PROGBITS,), CODE), (r"\.data", (PROGBITS,), WRITTEN),
    (r"\.bss", (NOBITS,), WRITTEN), (r"\.note\.GNU-stack", (PROGBITS,), 0)]


def require(holds, why):
    if not holds:
        raise Unsupported(why)


def expect_listed(object_: Object, export: tuple[int, int]) -> None:
    """Refuses an object with contents that aren't listed. `export` is an export's binding and visibility."""
    require((tuple(object_.data[6:9]), object_.flags) == (HEAD, 0), "an object for another system")
    names = [head.name for head in object_.heads]
    require(len({*names}) == len(names), f"two sections are named {max(names, key=names.count)}")
    require(".note.GNU-stack" in names, "no note that the stack isn't run")
    for head in object_.heads:
        expect_section(object_, head)
    expect_notes(object_)
    begun = set()
    for symbol in object_.symbols[1:]:
        begun |= expect_symbol(object_, symbol, export, begun)
    left = {head.name for head in object_.heads if head.flags == CODE and head.size} - begun
    require(not left, f"the section {min(left, default='')}, which is no function")


def expect_section(object_, head):
    known = LISTED if head.size else EMPTY
    require(any(re.fullmatch(name, head.name, re.ASCII) and head.kind in types and head.flags == flags
                for name, types, flags in known),
            f"the section {head.name} of kind {head.kind} and flags {head.flags:#x}")
    require(head.align <= MOST_ALIGNED, f"{head.name} at a multiple of {head.align}")
    if head.flags == MERGEABLE:
        entry = int(head.name[len(".rodata.cst"):])
        require(head.entry == head.align == entry and not head.size % entry, f"entries of {head.name} of another size")
    if head.kind == RELA:
        target = object_.heads[head.info].name if head.info < len(object_.heads) else ""
        require(head.name == ".rela" + target and object_.heads[head.link].kind == SYMTAB,
                f"{head.name} of another section")


def expect_notes(object_: Object) -> None:
    """Checks the notes: on x86-64 the one for shadow stacks and an assembler's list of instructions, else none."""
    found = [head for head in object_.heads if head.kind == NOTE]
    notes = [note for head in found for note in notes_of(object_.body(head), 8)]
    require([key for key, _ in notes] == ([PROPERTIES] if object_.machine == X86_64 else []), "other notes")
    require(all(content[:12] == SHADOW_STACK and len(content) <= 16
                for _, whole in notes for content in properties_of(whole)) and
            all(list(properties_of(whole)) for _, whole in notes), f"a property beyond {SHADOW_STACK.hex()} and {USED}")


def expect_symbol(object_: Object, symbol: Symbol, export: tuple[int, int], begun: set[str]) -> set[str]:
    """Checks a symbol. Returns the section that it is the function of in a set, or an empty set."""
    symbol_type, binding = symbol.info & 15, symbol.info >> 4
    if not symbol.section:
        require((symbol_type, binding, symbol.other) == (LABEL, GLOBAL, DEFAULT) and symbol.name in OUTER,
                f"{symbol.name}, which isn't here, or is weak")
        return set()
    require(symbol.section < len(object_.heads), f"{symbol.name} has a place in no section")
    head = object_.heads[symbol.section]
    if is_global(symbol):
        require(symbol_type == FUNCTION, f"{symbol.name} is no function")
        require((binding, symbol.other) == export,
                f"{symbol.name} of the binding {binding} and visibility {symbol.other}")
    require(symbol_type in (LABEL, FUNCTION, SECTION) and symbol.value <= head.size,
            f"{symbol.name} of kind {symbol_type}")
    if symbol_type != FUNCTION:
        return set()
    require((symbol.value, symbol.size) == (0, head.size) and head.flags == CODE and head.name not in begun,
            f"{symbol.name} isn't all of {head.name}")
    return {head.name}


class Loaded:
    """The executed or read parts of an object: `heads`, name -> header of a section of code or constants; `functions`
    and `exports`, name -> (section, offset); `constants`, name -> (bytes, alignment)."""

    MACHINE = X86_64
    EXPORT = GLOBAL, DEFAULT      # binding and visibility
    sections: dict                # of a subclass: name -> address -> instruction

    def __init__(self, path):
        self.object = Object(path)
        require(self.object.machine == self.MACHINE, "an object of another processor")
        self.expect_listed()
        self.heads = self.loaded_sections()
        self.constants = dict(self.read_constants())
        self.functions, self.exports = self.names()

    def expect_listed(self):
        expect_listed(self.object, self.EXPORT)

    def loaded_sections(self):
        return {head.name: head for head in self.object.heads
                if head.kind == PROGBITS and head.flags & LOADED and head.size and head.name != FRAMES}

    def read_constants(self):
        """Yields the constants. Each entry of a mergeable section is a separate memory object."""
        for name, head in self.heads.items():
            data = self.object.body(head)
            if head.flags == CONSTANTS:
                yield name, (data, head.align)
            elif head.flags == MERGEABLE:
                for at in range(0, len(data), head.entry):
                    yield f"{name}+{at}", (data[at:at + head.entry], min(head.align, head.entry & -head.entry))

    def relocations_in(self, section):
        """Yields (place, type, symbol, addend) of each relocation in a section."""
        for head in self.object.heads:
            if head.kind == RELA and self.object.heads[head.info] is section:
                for place, info, addend in struct.iter_unpack("<QQq", self.object.body(head)):
                    yield place, info & 0xFFFFFFFF, self.object.symbols[info >> 32], addend

    def names(self):
        functions = [symbol for symbol in self.object.symbols if symbol.section and symbol.info & 15 == FUNCTION]
        require(len({symbol.name for symbol in functions}) == len(functions), "two functions of one name")
        return ({symbol.name: self.place_of(symbol) for symbol in functions if is_global(symbol) or not of_exports}
                for of_exports in (False, True))

    def function(self, name):
        """Returns the place of a function."""
        require(name in self.functions, f"the text has no {name}")
        return self.functions[name]

    def place_of(self, symbol):
        return self.object.heads[symbol.section].name, symbol.value

    def target_of(self, symbol, addend):
        """Returns a relocation's target: (section, constant or external function, offset). A linker merges constants
        before it adds the addend, so a place in a mergeable section must be a constant's first byte."""
        if is_global(symbol):
            require(not symbol.section and symbol.name in OUTER and not addend,
                    f"a way to {symbol.name}{addend:+#x}, which another library may have")
            return symbol.name, 0
        name, value = self.place_of(symbol)
        require(name in self.heads, f"a way to {name}")
        if self.heads[name].flags != MERGEABLE:
            return name, value + addend
        # An addend to the section itself is an offset in it.
        value, addend = (value + addend, 0) if symbol.info & 15 == SECTION else (value, addend)
        require(not addend and f"{name}+{value}" in self.constants,
                f"a place in the constant at {value + addend:#x} of {name}, which a linker may move")
        return f"{name}+{value}", 0
