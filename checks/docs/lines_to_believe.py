"""Counts what a reader must trust of the main theorem: the lines of this repository's definitions of the hashes, of
the clauses of crates/theorems, and of those that it names, and the definitions of the toolchain's library that these
cite, each of which counts as one. The same for `xxhsum`: the clauses of crates/xxhsum_theorems, and each definition
that they cite, with everything that those cite in turn; and for the contract of its `run` in the same way. Blank
lines, comments and imports don't count. It prints the sentences that README.md and docs/XXHSUM.md have."""
import glob
import os
import re

from checks.lib import command
from checks.lib.tools import TOP, text_of

SPECS = ['twox_words/specs/Word'] + ['twox_plain/specs/' + name for name in ('Units', 'Xxh32', 'Xxh64')]
SPECS += ['twox_core/specs/' + name for name in ('Primes', 'Steps', 'Secret', 'Short', 'Middle', 'Long', 'Value')]
SPECS += ['theorems/specs/Values']
# Of these files the main theorem cites a few definitions, with those that they cite there.
PARTS = {
    'twox_core/specs/Ending': ('accumulators_after', 'stream_accumulators', 'stream_block', 'last_stripe'),
    'twox_core/specs/Kernel': ('eight',),
    'twox_core/specs/SecretBytes': ('secret_bytes',),
}
# What a reader of the main theorem needs from elsewhere: the clauses of these functions, and those and the definitions
# of these traits and of their blocks.
STREAMING = 'twox_core/src/xxhash3/streaming/'
BESIDE = {
    STREAMING + 'secret_buffer.rt': [rf'pub fn {name}\b' for name in ('new', 'with_secret', 'with_seed', 'default')],
    STREAMING + 'buffers.rt': [r'pub trait FixedBuffer\b', r'impl.* FixedBuffer for .*'],
    'twox_core/src/xxhash3/large.rt': [r'pub trait Finalize\b'],
}
# The program, by its main theorem, and by the contract of its run.
PROGRAM_HEADLINE = 'xxhsum_theorems/src/lib.rt'
PROGRAM = ('xxhsum_app/src/run.rt', r'pub fn run\b')
DEFINITION = re.compile(r'(?:(?:abbrev|unfoldable) pub|pub data|record pub) (\S+)')
IMPORT = re.compile(r'(?:ghost |pub )?use (Rattle\.\S+?)\.\{(.*)\}')
CITED = re.compile(r'(?:ghost )?use (Rattle\.std|mir)\S*\.\{(.*)\}')


def text_lines(name):
    return [line.strip() for line in text_of(f'crates/{name}').splitlines()]


def cited_names(lines):
    """The definitions of the toolchain's library that the lines import."""
    imports = filter(None, map(CITED.match, lines))
    return {word.strip() for cited in imports for word in cited.group(2).split(',')}


def lines_of(definition, lines):
    """The number of lines of the definition: those from its signature to the next blank line."""
    start = next(i for i, line in enumerate(lines) if re.match(rf'(abbrev|unfoldable) pub {definition} :', line))
    return lines[start:].index('')


def lines_of_clauses(lines):
    """The number of lines of a `requires` or an `ensures`."""
    count, inside = 0, False
    for line in lines:
        inside = inside or re.match(r'(requires|ensures)\b', line) is not None
        count += inside and line != '{'
        inside = inside and line != '{' and not line.endswith('};')
    return count


def items(name, heads):
    """The lines of each item of a file whose first line begins with one of the heads."""
    text = text_of(f'crates/{name}')
    found = [item for head in heads for _, item in re.findall(rf'^( *)({head}.*\n(?:.*\n)*?)\1}}$', text, re.M)]
    return [[line.strip() for line in item.splitlines()] for item in found]


def counted_beside(name, heads):
    """The number of lines that a reader needs from these items of a file, and the definitions of the toolchain's
    library that they cite."""
    found = items(name, heads)
    ghosts = [
        line for lines in found for line in lines if line.startswith('ghost ') and not line.startswith('ghost use ')
    ]
    cited = {
        word
        for word in cited_names(text_lines(name))
        for lines in found
        for line in lines
        if word.strip('◌') in re.findall(r'\w+|[^\w\s]', line)
    }
    return sum(map(lines_of_clauses, found)) + len(ghosts), cited


def counted():
    """The number of lines of this repository, and of definitions of the toolchain's library."""
    specs = [text_lines(spec + '.antt') for spec in SPECS]
    headline = text_lines('theorems/src/lib.rt')
    lines = sum(
        bool(line) and not line.startswith(('use ', '--')) and not CITED.match(line) for spec in specs for line in spec
    )
    lines += sum(lines_of(name, text_lines(spec + '.antt')) for spec, names in PARTS.items() for name in names)
    names_cited = set().union(*map(cited_names, [*specs, headline]))
    for name, heads in BESIDE.items():
        more, cited = counted_beside(name, heads)
        lines, names_cited = lines + more, names_cited | cited
    return lines + lines_of_clauses(headline), len(names_cited)


# ---- the program


def definitions_of(path):
    """The definitions of a file of specs/ by their names, each as its lines."""
    found, name = {}, None
    for line in text_lines(path):
        begins = DEFINITION.match(line)
        name = begins.group(1) if begins else name and line and name
        if name and not line.startswith('--'):
            found.setdefault(name, []).append(line)
    return found


def imports_of(lines):
    """The module of each imported name."""
    found = filter(None, map(IMPORT.match, lines))
    return {word.strip(): cited.group(1) for cited in found for word in cited.group(2).split(',')}


def modules():
    """The definitions and the imports of each file of specs/, by the module's name."""
    found = {}
    for path in glob.glob(os.path.join(TOP, 'crates', '*', 'specs', '**', '*.antt'), recursive=True):
        name = os.path.relpath(path, os.path.join(TOP, 'crates'))
        found['Rattle.' + name[: -len('.antt')].replace('/', '.')] = definitions_of(name), imports_of(text_lines(name))
    return found


def names_in(lines):
    return {word for line in lines for word in re.findall(r"[\w'-]+", line)}


def clauses_of(path, head):
    """The lines of the clauses of a file's functions whose first line begins like this."""
    lines, clauses = text_lines(path), []
    for start in (i for i, line in enumerate(lines) if re.match(head, line)):
        end = next(i for i in range(start, len(lines)) if lines[i] in ('{', '{}'))
        clauses += lines[next(i for i in range(start, end) if re.match(r'(requires|ensures)\b', lines[i])) : end]
    return clauses


def counted_of_program(path, head):
    """The number of lines of this repository in the clauses of these functions, with everything that they cite."""
    known, imports, clauses = modules(), imports_of(text_lines(path)), clauses_of(path, head)
    left = [(imports[word], word) for word in names_in(clauses) if word in imports]
    seen, lines = set(), len(clauses)
    while left:
        module, name = left.pop()
        definitions, imported = known.get(module, ({}, {}))
        if name not in definitions and name in imported:
            # The module re-exports it.
            left.append((imported[name], name))
        if (module, name) in seen or name not in definitions:
            continue
        seen.add((module, name))
        lines += len(definitions[name])
        left += [(imported.get(word, module), word) for word in names_in(definitions[name])]
    return lines


def main():
    command.parser(__doc__).parse_args()
    lines, cited = counted()
    print(f'{lines} lines of this repository and {cited} definitions of the toolchain\'s library')
    print(f'{counted_of_program(PROGRAM_HEADLINE, r"pub fn "):,} lines for `xxhsum`')
    print(f'{counted_of_program(*PROGRAM):,} lines for the contract of `run`')
