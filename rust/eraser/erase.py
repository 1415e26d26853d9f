"""Writes rust/src/erased: the proved crates without their contracts, which is Rust.

    rust/erase [--programs] [--of-ci] [--check | --to FOLDER] [--from FOLDER]

Without an option it rewrites rust/src/erased, the library. --programs does all of this for rust/programs/src/erased,
the programs `xxh` and `xxhsum`. --check writes nothing, and fails if a file would differ. --to replaces another folder,
which must be empty or contain a tree that this program wrote. --from reads the crates from another folder.

Contracts are removed by the toolchain's tokens (rust/eraser/tokens.py, contracts.py), names of Rattle's library and
modules get those of their replacements (names.py), and what else differs is one table with counts (edits.py). Any other
form is refused with its file and line (forms.py, items.py), and so is a call of a function that is not in callees.txt
(stored.py), for which changed crates are proved; with --of-ci it reads the libraries that `rt ci` has proved and left
in the same tree. Without `rt`, --check compares the checksums of stored.txt: it succeeds if nothing has changed, and
else refuses."""
import os
import re
import shutil
import sys
from collections import Counter

from checks.lib import command

RUST = os.path.dirname(os.path.dirname(os.path.abspath(__file__)))

from rust.eraser.contracts import tidied, without_contracts
from rust.eraser.edits import apply, parts_of, sums_of
from rust.eraser.forms import check_forms
from rust.eraser.items import Items
from rust.eraser.names import import_prelude, paths_of, prelude_of, rename_paths, rename_roots, replace_modules
from rust.eraser.own import inline_functions, move_bounds, replace_items
from rust.eraser.packages import LIBRARY_PACKAGE, PROGRAM_PACKAGE
from rust.eraser.stored import calls, eraser_files, stored, sum_of, write
from rust.eraser.tokens import Refused, lex, toolchain_tokens

HEAD = '''// SPDX-License-Identifier: MIT
// crates/{file} without its contracts, written by {command}: change that file.

'''


def sources(crates, package):
    """The files of the crates that a package reads, by their names below crates/."""
    found = {}
    for crate in package.read:
        for folder, _, files in os.walk(os.path.join(crates, crate, 'src')):
            for file in files:
                path = os.path.join(folder, file)
                name = os.path.relpath(path, crates)
                if not file.endswith('.rt'):
                    raise Refused(f'{name} is not Rattle')
                found[name] = read_file(path)
    return dict(sorted(found.items()))


def target_of(file):
    crate, _, inside = file.removesuffix('.rt').split('/', 2)
    return f'{crate}.rs' if inside in ('lib', 'main') else f'{crate}/{inside}.rs'


def read(file, text, spans):
    """The tokens of a file without its contracts."""
    return without_contracts(lex(text, spans))


def as_rust(file, tokens, counts, items, package=LIBRARY_PACKAGE):
    """A file without contracts as Rust. Counts each edit."""
    check_forms(tokens, file, items)
    names = prelude_of(tokens, package.prelude)
    sums, texts = sums_of(tokens), {token.text for token in tokens}
    for edit in package.edits:
        if re.fullmatch(edit.files, file) and {part for part in parts_of(edit.old) if part[0] != '$'} <= texts:
            counts[edit] += apply(edit, tokens, sums)
    inline_functions(tokens, file)
    replace_items(tokens, file)
    move_bounds(tokens, file)
    replace_modules(tokens, file)
    rename_paths(tokens, paths_of(package.paths, file))
    rename_roots(tokens, package.tree, file.split('/')[0], package.read)
    import_prelude(tokens, file, names)
    return tidied(tokens)


def named(file, call, *args):
    """The result of a call, or its refusal with the file's name."""
    try:
        return call(file, *args)
    except Refused as reason:
        raise Refused(f'crates/{file}: {reason}') from None


def erased(texts, package):
    """The files of the tree, by name."""
    spans = toolchain_tokens(texts)
    tokens = {file: named(file, read, text, spans[file]) for file, text in texts.items()}
    items, counts, files = Items(), Counter(), dict(package.roots)
    for file in tokens:
        items.learn(file, tokens[file])
    for file in filter(package.has, tokens):
        files[target_of(file)] = HEAD.format(file=file, command=package.name) + named(
            file, as_rust, tokens[file], counts, items, package
        )
    for edit in package.edits:
        if counts[edit] != edit.count:
            raise Refused(f'the edit `{edit.name}` ({edit.old}) applies {counts[edit]} times, not {edit.count}')
    return files


def is_ours(folder, package):
    """True if the folder is missing, is empty or holds this package's tree, perhaps in part."""
    if not os.path.lexists(folder):
        return True
    if os.path.islink(folder) or not os.path.isdir(folder):
        return False
    first = os.path.join(folder, 'mod.rs')
    if not os.path.isfile(first):
        return not os.listdir(folder)
    with open(first, encoding='utf-8', errors='replace') as file:
        return file.read().split('\n\n')[0] == package.roots['mod.rs'].split('\n\n')[0]


def written(files, folder, package):
    if not is_ours(folder, package):
        raise Refused(f'{folder} contains other files: nothing was written')
    if os.path.isdir(folder):
        shutil.rmtree(folder)
    for name, text in files.items():
        path = os.path.join(folder, name)
        os.makedirs(os.path.dirname(path), exist_ok=True)
        with open(path, 'w', encoding='utf-8') as file:
            file.write(text)


def differences(files, folder):
    """The names of files that differ, that are missing, and that are superfluous."""
    there = {os.path.relpath(os.path.join(path, name), folder) for path, _, names in os.walk(folder) for name in names}
    found = sorted(there ^ files.keys())
    for name in sorted(there & files.keys()):
        with open(os.path.join(folder, name), encoding='utf-8') as file:
            if file.read() != files[name]:
                found.append(name)
    return found


def sums(texts, files):
    return sum_of({**texts, **eraser_files()}), [sum_of(files)]


def unchanged(texts, folder, package):
    """Without the toolchain: returns if the sources, the eraser and the tree are those of its last run. Else
    refuses."""
    files = {os.path.relpath(os.path.join(path, name), folder) for path, _, names in os.walk(folder) for name in names}
    there = {name: read_file(os.path.join(folder, name)) for name in files}
    if stored().get(package.name) != sums(texts, there):
        raise Refused(
            'the sources, the eraser or the tree have changed since the last run: this needs the toolchain `rt`'
        )


def read_file(path):
    with open(path, encoding='utf-8', newline='') as file:
        return file.read()


def run(chosen, package, folder, is_own):
    """Writes or compares the tree, and what is stored of it."""
    texts = sources(chosen.crates, package)
    if chosen.check and is_own and not shutil.which('rt'):
        return unchanged(texts, folder, package)
    files, sections = erased(texts, package), stored()
    if not chosen.check:
        written(files, folder, package)
    elif found := differences(files, folder):
        raise Refused(f'{folder} differs in {", ".join(found[:5])}: run {package.name}')
    if is_own:
        found = {
            **sections,
            **calls(chosen.crates, texts, package, sections, chosen.of_ci),
            package.name: sums(texts, files),
        }
        if chosen.check and found != sections:
            raise Refused(f'stored.txt is of other sources: run {package.name}')
        write(found)


def main():
    parser = command.parser(__doc__)
    parser.add_argument(
        '--programs',
        dest='package',
        action='store_const',
        const=PROGRAM_PACKAGE,
        default=LIBRARY_PACKAGE,
        help='erase the programs in place of the library',
    )
    parser.add_argument('--of-ci', action='store_true', help='read the libraries that rt ci has proved')
    parser.add_argument('--check', action='store_true', help='compare, and write nothing')
    parser.add_argument('--to', metavar='FOLDER', help='write to this folder')
    parser.add_argument('--from', metavar='FOLDER', dest='crates', help='read the crates of this folder')
    chosen = parser.parse_args()
    package, is_own = chosen.package, not (chosen.to or chosen.crates)
    chosen.crates = chosen.crates or os.path.join(os.path.dirname(RUST), 'crates')
    try:
        run(chosen, package, chosen.to or package.folder, is_own)
    except Refused as reason:
        sys.exit(f'{package.name}: {reason}')
