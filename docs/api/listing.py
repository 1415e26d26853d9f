"""docs/api.txt: a line for each public name."""
import os
import re
from typing import Iterable

from docs.api.rattle import TOP, Crate, text_of, trait_of


def lines_of_type(crate, path):
    """A type's public fields or variants, its calls, and the traits that it has."""
    item, _ = crate.items[path]
    for text in item.variants:
        yield f'  {path}::{text.removeprefix("pub ")}'
    for block in crate.impls_of(path):
        if trait_of(block):
            yield f'  {path}: {trait_of(block)}'
        for call in block.inner:
            if call.is_public:
                yield f'  {path}::{bare(call)}'


def bare(item, name=None):
    """An item's signature without what each has before its name, and with the name under which it is exported."""
    text = re.sub(r'^(pub )?(const |unsafe |extern "C" )*((fn|type|static|struct|enum|trait) )?', '', item.signature)
    return re.sub(r' = \[.*', '', name + text.removeprefix(item.name) if name else text)


def lines_of_crate(crate):
    for path, (item, _) in sorted(crate.items.items()):
        module, _, name = path.rpartition('::')
        yield f'{item.kind} {module}::{bare(item, name)}'
        if item.kind == 'trait':
            yield from (f'  {path}::{bare(inner)}' for inner in item.inner)
        yield from lines_of_type(crate, path)
    yield from (f'use {path} = {target}' for path, target in sorted(crate.others.items()))


# Macros of xxhash.h that are no part of its interface.
INTERNAL_MACROS = 'XXH_HAS_ATTRIBUTES', 'XXH_PUBLIC_API'


def lines_of_c():
    """The declarations, definitions and names of the headers, without the part of xxhash.h that is code."""
    for header in ('xxhash.h', 'xxh_x86dispatch.h'):
        text = text_of('c', 'include', header).split('/* ==== Types')[-1].partition('/* ==== The types of states')[0]
        text = re.sub(r'/\*.*?\*/', '', text, flags=re.S).replace('XXH_PUBLIC_API ', '')
        calls = re.findall(r'^([A-Za-z][\w *]*?\bXXH\w*\([^;{]*\));', text, re.M)
        names = re.findall(r'^#define (XXH\w+)(?: |$)', text, re.M) + re.findall(r'(XXH\w+);(?=\n)', text)
        names += re.findall(r'^ +(XXH_\w+) = ', text, re.M)
        public = {name for name in names if 'TWOX_HASH' not in name and name not in INTERNAL_MACROS}
        public.update(re.findall(r'^(?:#define|extern) (TWOX_HASH_\w+|const [\w ]+)', text, re.M))
        yield from sorted(public | {re.sub(r'\s+', ' ', call) for call in calls})


def lines_of_javascript():
    """The exports of each file of types."""
    for name in sorted(os.listdir(os.path.join(TOP, 'web'))):
        if name.endswith('.d.ts'):
            item_kinds = 'function|class|const|interface|type'
            found = re.findall(rf'^export ((?:{item_kinds}) (?:[^{{;=\n]|=>)*)', text_of('web', name), re.M)
            yield from (f'{name}: {line.strip()}' for line in found)


def lines_of_python():
    listed = re.search(r'__all__ = \[(.*?)\]', text_of('python', 'src', 'twox_hash', '__init__.py'), re.S)[1]
    yield from re.findall(r"'(\w+)'", listed)


def text(crates: Iterable[Crate]) -> str:
    parts = {f'The crate {crate.name}': lines_of_crate(crate) for crate in crates}
    parts |= {'C': lines_of_c(), 'JavaScript': lines_of_javascript(), 'Python': lines_of_python()}
    head = 'Every public name, a line each. Made by docs/api/make: not to be changed by hand.'
    return '\n\n'.join([head, *('\n'.join([f'# {title}', *lines]) for title, lines in parts.items())]) + '\n'
