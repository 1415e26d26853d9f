"""Renames the functions of an object to the names of its source:

    python3 -B . assembly.names names OBJECT [TAG]

A name of the toolchain, such as `twox_core::xxhash3::stripes::take_stripes::<#ebc3218c48dd1f1e>`, becomes one that
every assembler accepts, `twox_core.xxhash3.stripes.take_stripes`: without the mark of a generic's arguments, which
depends on the toolchain. Further functions of one name get the suffixes .2, .3 and so on. Each function's section
has its name. Local names end in .TAG, so that sources of different tags can be assembled as one. Global names stay."""
import re
import subprocess
import sys
from collections import Counter

from assembly.same_bytes import Object, is_global

FUNCTION, MERGED = 2, 0x10
TOOLS = {62: '', 183: 'aarch64-linux-gnu-'}


def plain(name: str) -> str:
    name = re.sub(r'::<#[0-9a-f]+>', '', name).replace('::', '.').replace('..L', '.')
    if not re.fullmatch(r'[A-Za-z_.][A-Za-z0-9_.]*', name):
        raise ValueError(f'no assembler takes the name {name}')
    return name


class NewNames:
    def __init__(self, object_, tag):
        self.tag, self.taken = tag, Counter()
        self.symbols, self.sections = {}, {}
        functions = {
            object_.heads[symbol.section].name: symbol
            for symbol in object_.symbols
            if symbol.info & 15 == FUNCTION and symbol.section
        }
        for head in object_.loaded():
            if head.name in functions:
                self.sections[head.name] = '.text.' + self.of_function(functions[head.name])
            elif not head.flags & MERGED:
                self.sections[head.name] = self.local(head.name)

    def of_function(self, symbol):
        if is_global(symbol):
            return symbol.name
        self.symbols[symbol.name] = self.local(symbol.name)
        return self.symbols[symbol.name]

    def local(self, name):
        name = plain(name)
        self.taken[name] += 1
        number = f'.{self.taken[name]}' if self.taken[name] > 1 else ''
        return name + number + (f'.{self.tag}' if self.tag else '')

    def options(self):
        """objcopy's arguments."""
        for option, names in (('--redefine-sym', self.symbols), ('--rename-section', self.sections)):
            for old, new in names.items():
                yield from (option, f'{old}={new}') if old != new else ()


def rename_symbols(path, tag=''):
    object_ = Object(path)
    subprocess.run([TOOLS[object_.machine] + 'objcopy', *NewNames(object_, tag).options(), path], check=True)


def main():
    if len(sys.argv) not in (2, 3):
        sys.exit(__doc__)
    rename_symbols(*sys.argv[1:])
