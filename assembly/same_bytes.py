"""Compares objects as a linker sees them. To trust the assembly source, read this program and eh_frame.py:

    assembly/same-bytes PROVED OURS             compares an object with the proved one
    assembly/same-bytes --sums OBJECT           prints a sum for each part of an object
    assembly/same-bytes --against SUMS OBJECT   compares an object with such sums

The parts of an object are its loaded sections, `names`, `notes` and `frames`.

- A section has a name, kind, flags, size, alignment, bytes and relocations. A relocation has a place, a kind and a
  target: a global name and an addend, or a section and an offset in it. A linker moves the entries of a mergeable
  section before it adds the addend, so there the offset of the symbol and the addend are compared separately.
- `names` has the processor, the order of the sections, each global name with its place, size, kind, binding and
  visibility, the undefined names, the sections that aren't loaded, and whether the stack is executable.
- `notes` has the notes that are loaded, except the properties that list which instructions an object uses.
- `frames` has the frame at each instruction of each function, as an unwinder reads it from .eh_frame.

The proved object has neither notes nor frames: text.py writes both. PROVED OURS doesn't compare them, --against does.
Not compared at all: local names, empty sections, and the contents of sections that aren't loaded.

The last line is `same: ..`, or `differ: ..` after a line for each difference. The status is 0 if they are the same,
1 if they differ, and 2 if a file is not an object that this program reads."""
import hashlib
import struct
import sys
from collections import namedtuple
from typing import Callable, Iterator

from assembly.eh_frame import Table

Head = namedtuple('Head', 'name kind flags address offset size link info align entry')
Symbol = namedtuple('Symbol', 'name info other section value size')
Part = namedtuple('Part', 'head body relocations')

NONE, SYMTAB, STRTAB, RELA, NOTE, NOBITS, REL = 0, 2, 3, 4, 7, 8, 9
LOADED, EXECUTED, MERGED = 2, 4, 0x10
# Kinds of local symbols that represent their address: none, data, function, section.
PLAIN, SECTION = (0, 1, 2, 3), 3
FRAMES = '.eh_frame'
# Sections from which no linker makes code or data: LLVM's command line, and the functions that it may fold.
WITHOUT_MEANING = ('.comment', '.llvm_addrsig', '.note.GNU-stack')
# A call of a local name: LLVM writes the one kind, GNU as the other, and the linker makes the same bytes of both.
X86_64, PC32, PLT32 = 62, 2, 4
# The note of properties, and the properties that list what an object uses, which neither linker nor loader evaluates.
PROPERTIES, USED = (5, b'GNU\0'), range(0xc0010000, 0xc0018000)


class Object:
    def __init__(self, path):
        with open(path, 'rb') as file:
            self.data = file.read()
        if self.data[:6] != b'\x7fELF\x02\x01' or self.data[16] != 1:
            raise ValueError(f'{path} is no object of ELF with 64 bits, the lowest byte first')
        self.machine, = struct.unpack_from('<H', self.data, 18)
        self.flags, = struct.unpack_from('<I', self.data, 48)
        start, = struct.unpack_from('<Q', self.data, 40)
        size, count, names = struct.unpack_from('<HHH', self.data, 58)
        heads = [Head(*struct.unpack_from('<IIQQQQIIQQ', self.data, start + size * at)) for at in range(count)]
        self.heads = [head._replace(name=self.text(heads[names], head.name)) for head in heads]
        tables = [head for head in self.heads if head.kind == SYMTAB]
        if len(tables) > 1:
            raise ValueError(f'{path} has two tables of symbols')
        self.symbols = [symbol for head in tables for symbol in self.symbols_of(head)]

    def body(self, head):
        return b'' if head.kind == NOBITS else self.data[head.offset:head.offset + head.size]

    def text(self, table, at):
        start = table.offset + at
        return self.data[start:self.data.index(b'\0', start)].decode()

    def symbols_of(self, head):
        for name, *rest in struct.iter_unpack('<IBBHQQ', self.body(head)):
            yield Symbol(self.text(self.heads[head.link], name), *rest)

    def loaded(self):
        """The headers of the loaded sections, without notes and without the frames for unwinders."""
        return [head for head in self.heads
                if head.flags & LOADED and head.size and head.kind != NOTE and head.name != FRAMES]

    def place(self, symbol):
        """A section, and an offset in it."""
        return f'{self.heads[symbol.section].name}{symbol.value:+#x}'

    def relocations_of(self, section):
        """Each relocation of a section: its place, its kind, and its target: a name, an offset, and an addend."""
        found = []
        for head in self.heads:
            if head.kind in (RELA, REL) and self.heads[head.info] is section:
                if head.kind == REL:
                    raise ValueError(f'{section.name} has relocations of a kind that is not read here')
                found += [self.relocation(*record) for record in struct.iter_unpack('<QQq', self.body(head))]
        return sorted(found)

    def relocation(self, offset, info, add):
        symbol, r_type = self.symbols[info >> 32], info & 0xffffffff
        if is_global(symbol):
            return offset, r_type, symbol.name, 0, add
        if self.machine == X86_64 and r_type == PLT32:
            r_type = PC32
        section = self.heads[symbol.section]
        name = section.name if symbol.info & 15 in PLAIN else f'{section.name} by a symbol of kind {symbol.info & 15}'
        # The addend of a mergeable section itself is an offset in it.
        if section.flags & MERGED and symbol.info & 15 != SECTION:
            return offset, r_type, name, symbol.value, add
        return offset, r_type, name, symbol.value + add, 0

    def parts(self):
        found = {}
        for head in self.loaded():
            if head.name in found:
                raise ValueError(f'two sections are named {head.name}')
            found[head.name] = Part(head._replace(name='', address=0, offset=0, link=0, info=0), self.body(head),
                                    self.relocations_of(head))
        return {**found, 'names': self.names(list(found))}

    def added(self):
        """The parts that the source adds to the proved object."""
        return {'notes': Part((), b'', sorted(self.notes())), 'frames': Part((), b'', Table(self).sorted_frames())}

    def notes(self):
        """The notes that are loaded: the section's name and flags, the note's kind and name, and its content."""
        for head in self.heads:
            if head.kind == NOTE and head.flags & LOADED:
                for key, content in notes_of(self.body(head), max(head.align, 4)):
                    contents = properties_of(content) if key == PROPERTIES else [content]
                    yield from ((head.name, head.flags, *key, content) for content in contents)

    def names(self, sections):
        defined = sorted((symbol.name, self.place(symbol), symbol.size, symbol.info, symbol.other)
                         for symbol in self.symbols if is_global(symbol) and symbol.section)
        # LLVM also names the linker's table if nothing refers to it.
        undefined = sorted((symbol.name, symbol.info, symbol.other) for symbol in self.symbols
                           if is_global(symbol) and not symbol.section and symbol.name != '_GLOBAL_OFFSET_TABLE_')
        for_linker = [head.name for head in self.heads if not head.flags & LOADED
                      and head.kind not in (NONE, SYMTAB, STRTAB, RELA, REL) and head.name not in WITHOUT_MEANING]
        stack = [head.flags & EXECUTED for head in self.heads if head.name == '.note.GNU-stack']
        return Part((self.machine, self.flags, self.data[6:9], sections), b'',
                    [*defined, *undefined, *for_linker, f'the stack may be executed: {stack != [0]}'])


def is_global(symbol: Symbol) -> bool:
    return symbol.info >> 4 != 0


def notes_of(data: bytes, align: int) -> Iterator[tuple[tuple[int, bytes], bytes]]:
    """Each note: its kind and its name, and its content."""
    at = 0
    while at < len(data):
        name, size, note_type = struct.unpack_from('<III', data, at)
        begin = at + 12 + (name + 3 & -4)
        yield (note_type, data[at + 12:at + 12 + name]), data[begin:begin + size]
        at = begin + (size + align - 1 & -align)


def properties_of(content: bytes) -> Iterator[bytes]:
    """Each property of 64-bit ELF: its kind and its value."""
    at = 0
    while at < len(content):
        property_type, size = struct.unpack_from('<II', content, at)
        if property_type not in USED:
            yield content[at:at + 8 + size]
        at += 8 + (size + 7 & -8)


def sums(object_: Object) -> dict[str, str]:
    parts = {**object_.parts(), **object_.added()}
    return {name: hashlib.sha256(repr(tuple(part)).encode()).hexdigest() for name, part in parts.items()}


def read_sums(path: str) -> dict[str, str]:
    with open(path) as file:
        return {name: total for total, name in (line.rstrip('\n').split('  ', 1) for line in file)}


def difference(proved: Part, ours: Part) -> str:
    """The difference of a part, with an example."""
    if proved.head != ours.head:
        return f'proved {str(proved.head)[:200]}, ours {str(ours.head)[:200]}'
    if proved.body != ours.body:
        at = next((at for at, (a, b) in enumerate(zip(proved.body, ours.body)) if a != b), 'the end')
        where = at if at == 'the end' else f'{at:#x}: {proved.body[at:at + 8].hex()}, ours {ours.body[at:at + 8].hex()}'
        return f'other bytes, from {where}'
    lost, found = ([record for record in a if record not in b] for a, b in ((proved.relocations, ours.relocations),
                                                                            (ours.relocations, proved.relocations)))
    return f'proved has {lost[:2]}, ours {found[:2]}'


def differences(proved: dict, ours: dict, describe: Callable) -> Iterator[str]:
    """Yields a line for each part that is in only one object, or differs; `describe` describes the difference."""
    for name in {**proved, **ours}:
        if name not in ours or name not in proved:
            yield f'{name}: only in {"what is proved" if name in proved else "ours"}'
        elif proved[name] != ours[name]:
            yield f'{name}: {describe(proved[name], ours[name])}'


def compare(proved: str, ours: str) -> list[str]:
    """The lines for two objects."""
    return list(differences(Object(proved).parts(), Object(ours).parts(), difference))


def compare_sums(path: str, ours: str) -> list[str]:
    """The lines for the sums of an object, and an object."""
    return list(differences(read_sums(path), sums(Object(ours)), lambda *_: 'other than what was proved'))


def run(args: list[str]) -> int:
    if len(args) == 2 and args[0] == '--sums':
        for name, total in sums(Object(args[1])).items():
            print(f'{total}  {name}')
        return 0
    if len(args) == 3 and args[0] == '--against':
        found = compare_sums(*args[1:])
    elif len(args) == 2:
        found = compare(*args)
    else:
        print(__doc__, file=sys.stderr)
        return 2
    print(*found, sep='\n', end='\n' if found else '')
    parts = Object(args[-1]).parts()
    size = sum(len(part.body) for part in parts.values())
    print(f'differ: {len(found)} parts' if found else f'same: {len(parts) - 1} sections, {size} bytes')
    return 1 if found else 0


def main() -> int:
    try:
        return run(sys.argv[1:])
    except (OSError, ValueError, LookupError, struct.error) as fault:
        print(f'same-bytes: {fault}', file=sys.stderr)
        return 2
