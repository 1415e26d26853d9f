"""The public items of the crates, read from their sources: module, name, signature and contract."""
import os
import re

from checks.lib.tools import TOP

CRATES = os.path.join(TOP, 'crates')
# The crates that others call. Those of tests, evidence and benchmarks are left out.
LISTED = """
    twox_words twox_plain twox_core twox_hash xxh_io xxh_program xxhsum_line xxhsum_options xxhsum_audit
    xxhsum_fs xxhsum_output xxhsum_program xxhsum_app twox_exports twox_c twox_web twox_rust
""".split()
ITEM = re.compile(
    r'(?P<pub>pub )?(?:const |unsafe |extern "C" )*'
    r'(?P<kind>fn|struct|enum|trait|const|static|type|mod|use|impl)\b\s*(?P<name>\w*)'
)
CLAUSE = re.compile(r'(requires|ensures)\b')


def text_of(*names: str) -> str:
    with open(os.path.join(TOP, *names), encoding='utf-8') as file:
        return file.read()


class Item:
    """An item as it is written. `inner` are those between its braces."""

    def __init__(self, kind, name, is_public, lines):
        self.kind, self.name, self.is_public = kind, name, is_public
        at = next((number for number, text in enumerate(lines) if CLAUSE.match(text.strip())), len(lines))
        self.signature = re.sub(r'\s+', ' ', ' '.join(text.strip() for text in lines[:at])).rstrip(' {;')
        self.signature = re.sub(r'\( | (?=\))|,(?= \))', lambda it: it[0].strip().strip(','), self.signature)
        self.clauses = [text.rstrip().removesuffix(';') for text in lines[at:] if text.strip() not in ('{', '{}', '')]
        self.inner, self.variants = [], []


def depth(line):
    return len(line) - len(line.lstrip())


def header_end(lines, start):
    """The last line of an item's head: its brace, its semicolon, or the line before a body that follows a contract."""
    has_contract, is_use = False, lines[start].strip().startswith('pub use')
    for at in range(start, len(lines)):
        text = lines[at].rstrip()
        if is_use and not text.endswith(';'):
            continue
        has_contract = has_contract or CLAUSE.match(text.strip()) is not None
        if has_contract and text.lstrip() in ('{', '{}') and depth(text) == depth(lines[start]):
            return at
        if text.endswith(';') or not has_contract and text.endswith(('{', '{}')):
            return at
    raise ValueError(lines[start])


def closing(lines, start, at):
    """The line after an item that opens a brace in its head."""
    if not lines[at].rstrip().endswith('{'):
        return at + 1
    end = ' ' * depth(lines[start]) + '}'
    return next(number for number in range(at + 1, len(lines)) if lines[number].rstrip() in (end, end + ';')) + 1


def read_items(lines, indent=0):
    """The items at a depth of a file's lines."""
    found, at = [], 0
    while at < len(lines):
        text = lines[at].strip()
        match = ITEM.match(text) if depth(lines[at]) == indent and not text.startswith('//') else None
        if not match:
            at += 1
            continue
        end = header_end(lines, at)
        item = Item(match['kind'], match['name'], match['pub'] is not None, lines[at : end + 1])
        behind = closing(lines, at, end)
        body = lines[end + 1 : behind - 1]
        if item.kind in ('impl', 'trait'):
            item.inner = read_items(body, indent + 4)
        elif item.kind in ('struct', 'enum'):
            item.variants = members(body, indent + 4, item.kind)
        found.append(item)
        at = behind
    return found


def members(body, indent, kind):
    """The public fields of a struct, or the variants of an enum."""
    pattern = 'pub (?!ghost)' if kind == 'struct' else '[A-Z]'
    return [line.strip().rstrip(',{ ') for line in body if depth(line) == indent and re.match(pattern, line.strip())]


class Module:
    """A file of a crate."""

    def __init__(self, file):
        self.file, self.items = file, read_items(text_of(file).split('\n'))


def modules_of(crate: str) -> dict[str, "Module"]:
    """The modules of a crate by their paths."""
    source = os.path.join(CRATES, crate, 'src')
    found = {}
    for folder, _, names in os.walk(source):
        for name in sorted(names):
            if name.endswith('.rt'):
                path = os.path.relpath(os.path.join(folder, name), source).removesuffix('.rt').replace(os.sep, '::')
                path = crate if path in ('lib', 'main') else f'{crate}::{path}'
                found[path] = Module(os.path.join(folder, name))
    return found


def used(text):
    """The paths of a `pub use`, and the names that they get: of one, or of a list in braces."""
    text = re.sub(r'\s+', '', text.removeprefix('pub use ').replace(' as ', '@').rstrip(';'))
    begin, _, names = text.partition('{')
    for name in names.rstrip('}').split(',') if names else [begin]:
        path, _, other = (begin + name if names else name).partition('@')
        if name:
            yield path, other or path.split('::')[-1]


class Crate:
    """A crate's public items, by the paths under which a caller names them."""

    def __init__(self, name):
        self.name, self.modules = name, modules_of(name)
        # The items, with their modules; and the re-exports of other crates.
        self.items, self.others = {}, {}
        self.walk(name, name)
        self.add_exports()

    def walk(self, module, path):
        for item in self.modules[module].items:
            if not item.is_public or item.kind == 'impl':
                continue
            if item.kind == 'use':
                for target, name in used(item.signature):
                    self.add_use(module, target, f'{path}::{name}')
            elif item.kind == 'mod':
                self.walk(f'{module}::{item.name}', f'{path}::{item.name}')
            else:
                self.items[f'{path}::{item.name}'] = (item, module)

    def add_exports(self):
        """Exported symbols are public in any module."""
        for module, source in self.modules.items():
            for item in source.items:
                if item.is_public and 'extern "C"' in item.signature:
                    self.items.setdefault(f'{self.name}::{item.name}', (item, module))

    def add_use(self, module, target, path):
        parts = target.split('::')
        home = {'crate': self.name, 'self': module, 'super': module.rpartition('::')[0]}.get(parts[0])
        if home is None and f'{module}::{parts[0]}' in self.modules:
            home = f'{module}::{parts[0]}'
        owner = '::'.join([home, *parts[1:-1]]) if home else None
        if owner in self.modules:
            item = next((it for it in self.modules[owner].items if it.name == parts[-1]), None)
            if item and item.kind not in ('mod', 'use'):
                self.items[path] = (item, owner)
                return
        self.others[path] = target

    def impls_of(self, path):
        """The blocks of `impl` for a type: those in modules nearest to its own."""
        item, module = self.items[path]
        rivals = {owner for other, owner in self.items.values() if other.name == item.name}
        for owner, source in sorted(self.modules.items()):
            for block in source.items:
                if block.kind == 'impl' and type_of(block) == item.name and nearest(owner, rivals) == module:
                    yield block


def nearest(module, owners):
    return max(owners, key=lambda owner: len(os.path.commonprefix([module.split('::'), owner.split('::')])))


def type_of(block: Item) -> str:
    """The name of the type that a block of `impl` is for."""
    text = re.sub(r'^impl(<[^>]*>)? ?', '', block.signature)
    text = text.rpartition(' for ')[2]
    return re.match(r'[\w:]*', text.lstrip('&'))[0].split('::')[-1]


def trait_of(block: Item) -> str:
    """The trait that a block of `impl` is of, if it is of one."""
    return re.sub(r'^impl(<.*?>)? (?=\S)', '', block.signature).rpartition(' for ')[0]
