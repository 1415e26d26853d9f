"""docs/CONTRACTS.md: for each function that callers use, the names of the clauses of its contract, and the files of
definitions that contracts cite."""
import os
import re

from docs.api.rattle import CRATES, LISTED, modules_of, text_of, trait_of, type_of

# The crates whose functions state the guarantees beside those that others call.
STATED = ('theorems', 'xxhsum_theorems')
CLAUSE = re.compile(r'\s*(requires|ensures)\b\s*(\w+)?')
# A definition, by the word before or behind `pub`.
DEFINED = re.compile(r'^(?:(?:abbrev|unfoldable|data|record) pub|pub (?:data|record)) ([^\s:]+)', re.M)
HEAD = (
    '# Contracts\n\nEach function that has a contract, with its clauses by name, and the files of definitions that '
    'contracts cite. A clause without a name is shown as `ensures`. Written by `docs/api/make`.\n'
)


def clauses(item):
    """The clauses of a contract by name, each once, in their order."""
    found = (CLAUSE.match(line) for line in item.clauses)
    names = [it[2] or it[1] if it[1] == 'ensures' else f'requires {it[2] or ""}'.strip() for it in found if it]
    return list(dict.fromkeys(names))


def functions(module):
    """Each function of a file that has a contract and that a caller can reach, by its type and name."""
    for item in module.items:
        if item.kind == 'fn' and item.is_public:
            yield item.name, item
        elif item.kind == 'trait' and item.is_public:
            yield from ((f'{item.name}::{inner.name}', inner) for inner in item.inner if inner.kind == 'fn')
        elif item.kind == 'impl':
            of_trait = re.match(r'\w*', trait_of(item).split('::')[-1])[0]
            owner = f'<{type_of(item)} as {of_trait}>' if of_trait else type_of(item)
            yield from (
                (f'{owner}::{inner.name}', inner)
                for inner in item.inner
                if inner.kind == 'fn' and (inner.is_public or of_trait)
            )


def table(head, rows):
    return [f'| {" | ".join(head)} |', f'|{"---|" * len(head)}', *(f'| {" | ".join(row)} |' for row in rows), '']


def of_crate(name):
    """A table for each file of a crate that has contracts."""
    lines = []
    for _, module in sorted(modules_of(name).items()):
        found = {}
        for path, item in functions(module):
            found[path] = list(dict.fromkeys(found.get(path, []) + clauses(item)))
        rows = [(f'`{path}`', ', '.join(f'`{it}`' for it in names)) for path, names in found.items() if names]
        if rows:
            lines += [f'### `{os.path.relpath(module.file, CRATES)}`', '', *table(('function', 'clauses'), rows)]
    return [f'## {name}', '', *lines] if lines else []


def definitions():
    """The files of definitions of each crate, with the names that they define."""
    for crate in sorted(os.listdir(CRATES)):
        folder = os.path.join(CRATES, crate, 'specs')
        names = sorted(name.removesuffix('.antt') for name in os.listdir(folder)) if os.path.isdir(folder) else []
        for name in names:
            if name != 'Lib':
                found = DEFINED.findall(text_of(folder, f'{name}.antt'))
                yield f'`{crate}`', f'`{name}`', ', '.join(f'`{it}`' for it in found)


def text() -> str:
    parts = [line for name in (*STATED, *LISTED) for line in of_crate(name)]
    return (
        '\n'.join(
            [HEAD, *parts, '## Files of definitions', '', *table(('crate', 'file', 'definitions'), definitions())]
        ).rstrip('\n')
        + '\n'
    )
