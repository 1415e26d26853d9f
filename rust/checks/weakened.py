"""Weakened erasers, derived from its source: each without one refusal, with one more keyword, with one row of the
tables of edits that has no place, no function, or other code, or with one name of the other tables that is another.
Each is detected: a planted source, a changed crate or a scenario has another result than with the right eraser, or the
second reader can't explain a file."""
import ast
import dataclasses
import os
import re
from collections import Counter
from typing import Any, Iterable, Iterator, Optional

from rust.checks import reader
from rust.checks.erasers import CRATES, PARTS, Eraser, source_of, spans_of
from rust.checks.planted_sources import CHANGED_CRATES, CHANGED_PROGRAMS, LIBRARY, PLANTED, PROGRAM
from rust.checks.scenarios import SCENARIOS
from rust.eraser.edits import Edit
from rust.eraser.packages import Package

# Mistakes that are no missing refusal: the part, its text, and the wrong one.
MISTAKES = (
    (
        'a clause keeps the comments above it',
        'contracts',
        "            drop(tokens, first_with_comments(tokens, i), i)\n            dropped",
        "            drop(tokens, i, i)\n            dropped",
    ),
    (
        'the line above a ghost is lost',
        'contracts',
        "comment.kind != 'comment' or comment.text.startswith('//!') or not begins_line:",
        "comment.kind == 'space':",
    ),
    ('derives are lost', 'contracts', "    if names == {'Drop'}:", "    if 'Drop' in names:"),
    (
        'attributes are lost',
        'contracts',
        "            if name == 'tactic':",
        "            if name in ('tactic', 'inline'):",
    ),
    (
        'bounds are lost',
        'contracts',
        "token.text != 'Drop':\n            continue\n        before,",
        "token.text not in ('Drop', 'Copy'):\n            continue\n        before,",
    ),
    (
        'a contract ends late',
        'tokens',
        "    if word in ('requires', 'ensures'):\n        return 'clause', end",
        "    if word in ('requires', 'ensures'):\n        return 'clause', end + 1",
    ),
    ('a contract ends at the first brace', 'tokens', "if spans[k][3] == 'End') + 1", "if spans[k][4] == '}') + 1"),
    (
        'the field beside a ghost field is lost',
        'tokens',
        "('item' if spans[end][4] == ';' else 'field'), end + 1",
        "'field', end + 4",
    ),
    (
        'examples that rustdoc compiles',
        'contracts',
        "'```rattle' if begins and not fence[2]",
        "'```' if begins and not fence[2]",
    ),
    (
        'marks of documentation in strings',
        'contracts',
        "FENCE.fullmatch(token.text) if token.kind == 'comment'",
        "FENCE.search(token.text) if token.kind != 'space'",
    ),
    (
        'the forms of the programs in the library',
        'forms',
        "PROGRAM_FORMS if is_of_programs(file) else LIBRARY_FORMS",
        "PROGRAM_FORMS",
    ),
    ('a path to another crate', 'names', "{crate if token.text == \"crate\" else token.text}", "{crate}"),
    (
        "names of Rust's prelude",
        'names',
        "use crate::rattle::prelude::{braced(names)}",
        "use std::prelude::v1::{braced(names)}",
    ),
    (
        'a name in the middle of a path',
        'names',
        "tokens[before].text not in (':', '.', '$'))",
        "tokens[before].text not in ('.', '$'))",
    ),
    ('an own item with other arguments', 'own', "({\", \".join(names)})'", "({\", \".join(reversed(names))})'"),
    ('bounds that only the type had', 'own', "f'where S: {BOUND} {{'", "'{'"),
    ('vectors of the other set', 'names', "if file == f'{TWICE}.rt':", "if file == TWICE:"),
    (
        'files of the library in the programs',
        'packages',
        "        return is_of_programs == (self is PROGRAM_PACKAGE)",
        "        return True",
    ),
)


def refusals() -> Iterator[tuple[str, dict[str, str]]]:
    """Each refusal of the eraser: its part, its line, and the part's source without it."""
    for part in PARTS:
        source = source_of(part)
        lines = source.split('\n')
        for node in ast.walk(ast.parse(source)):
            call = node.exc if isinstance(node, ast.Raise) else node.value if isinstance(node, ast.Expr) else None
            name = call.func.id if isinstance(call, ast.Call) and isinstance(call.func, ast.Name) else ''
            if name == 'refuse' or name == 'Refused' and isinstance(node, ast.Raise) and node.cause is None:
                text = '\n'.join(lines[node.lineno - 1 : node.end_lineno]).strip()
                without = [*lines[: node.lineno - 1], ' ' * node.col_offset + 'pass', *lines[node.end_lineno :]]
                yield f'{part}, line {node.lineno}: {text[:80]}', {part: '\n'.join(without)}


def wider_lists() -> Iterator[tuple[str, dict[str, str]]]:
    """The eraser with one more keyword, or one function of a layout less."""
    forms, source = Eraser().forms, source_of('forms')
    for word in sorted(forms.KEYWORDS - forms.ALLOWED_KEYWORDS):
        changed = re.sub(r'(?<=^ALLOWED_KEYWORDS = set\(\n    """)', f'{word} ', source, flags=re.M)
        yield f'the keyword {word}', {'forms': changed}
    for word in sorted(forms.LAYOUTS):
        yield f'the function {word}', {'forms': source.replace(f"'{word}'", "'none'", 1)}


def mistakes() -> Iterator[tuple[str, dict[str, str]]]:
    for name, part, old, new in MISTAKES:
        if source_of(part).count(old) != 1:
            raise ValueError(f'{name}: {part} has the text {source_of(part).count(old)} times')
        yield name, {part: source_of(part).replace(old, new)}


class Right:
    """The right eraser, what it reads, and its results."""

    def __init__(self):
        self.eraser, self.known, self.spans_of_changed = Eraser(), {}, {}
        self.spans = spans_of(self.eraser, {it.name: it.source for it in PLANTED})
        self.results = self.planted(self.eraser)
        self.scenarios = {name: run(self.eraser) for name, run in SCENARIOS.items()}
        self.texts = self.eraser.erase.sources(CRATES, self.eraser.packages.PROGRAM_PACKAGE)
        self.tokens = self.eraser.tokens.toolchain_tokens(self.texts)

    def planted(self, eraser):
        return {it.name: eraser.one(it.file, it.source, self.spans[it.name]) for it in PLANTED}

    def of(self, package):
        """The sources that a package reads, and their tokens."""
        texts = {file: text for file, text in self.texts.items() if file.split('/')[0] in package.read}
        return texts, {file: self.tokens[file] for file in texts}

    def touched(self, package, edit):
        """The files of a package to which a row applies."""
        return [file for file in self.erased(package)[1] if edit in self.erased(package)[1][file]]

    def erased(self, package):
        """The items of a package, and the rows that apply to each file."""
        if package.name not in self.known:
            self.known[package.name] = self.applied(own(self.eraser, package))
        return self.known[package.name]

    def applied(self, package):
        texts, spans = self.of(package)
        tokens = {file: self.eraser.erase.read(file, text, spans[file]) for file, text in texts.items()}
        items, edits = self.eraser.items.Items(), {}
        for file in tokens:
            items.learn(file, tokens[file])
        for file in filter(package.has, tokens):
            counts = Counter()
            self.eraser.erase.as_rust(file, tokens[file], counts, items, package)
            edits[file] = {edit for edit, count in counts.items() if count}
        return items, edits

    def with_edit(self, package, file, edit, weaker):
        """A file's source in Rust, with a row in place of another."""
        items = self.erased(package)[0]
        items.methods.clear()
        edits = tuple(weaker if one is edit else one for one in package.edits)
        return self.eraser.erase.as_rust(
            file,
            self.eraser.erase.read(file, self.texts[file], self.tokens[file]),
            Counter(),
            items,
            dataclasses.replace(package, edits=edits),
        )

    def changed_file(self, eraser, change, package):
        """What an eraser makes of a changed file by itself, and how often each row applies."""
        file, old, new, _ = change
        counts, items = Counter(), self.erased(package)[0]
        package = own(eraser, package)
        text = self.texts[file].replace(old, new)
        if text not in self.spans_of_changed:
            self.spans_of_changed[text] = self.eraser.tokens.toolchain_tokens({file: text})[file]
        items.methods.clear()
        try:
            return eraser.erase.as_rust(
                file, eraser.erase.read(file, text, self.spans_of_changed[text]), counts, items, package
            ), sorted(counts.values())
        except eraser.tokens.Refused as reason:
            return str(reason)
        except Exception as fault:
            return repr(fault)

    def changed(self, eraser, change, package):
        """What an eraser makes of a package with one source changed: its tree, or its refusal."""
        file, old, new, _ = change
        texts, spans = self.of(package)
        if texts[file].count(old) != 1:
            raise ValueError(f'{file} has the text {texts[file].count(old)} times')
        texts[file] = texts[file].replace(old, new)
        spans.update(eraser.tokens.toolchain_tokens({file: texts[file]}))
        return eraser.tree(texts, spans, package)

    def noticed(self, changed):
        """What detects an eraser with these changes, or ''."""
        eraser = Eraser(**changed)
        for it in PLANTED:
            if eraser.one(it.file, it.source, self.spans[it.name]) != self.results[it.name]:
                return f'"{it.name}"'
        for name, run in SCENARIOS.items():
            if run(eraser) != self.scenarios[name]:
                return f'the scenario "{name}"'
        packages = eraser.packages
        for changes, package in (CHANGED_CRATES, packages.LIBRARY_PACKAGE), (
            CHANGED_PROGRAMS,
            packages.PROGRAM_PACKAGE,
        ):
            for change in changes:
                if self.changed_file(eraser, change, package) != self.changed_file(self.eraser, change, package):
                    return f'a changed {change.file}'
            tree = self.changed(eraser, changes[0], package)
            if not isinstance(tree, str) or changes[0].reason not in tree:
                return f'a changed {changes[0].file}'
            texts, spans = self.of(package)
            tree = eraser.tree(texts, spans, package)
            if isinstance(tree, str) or any(there(package, name) != text for name, text in tree.items()):
                return f'the tree of {package.name}'
        return ''


def own(eraser, package):
    """The package of an eraser that another calls so."""
    packages = eraser.packages
    return next(one for one in (packages.LIBRARY_PACKAGE, packages.PROGRAM_PACKAGE) if one.name == package.name)


def there(package, name):
    path = os.path.join(package.folder, name)
    return open(path, encoding='utf-8').read() if os.path.exists(path) else ''


# ---- rows of the tables of edits ----


def balanced(text):
    """A row's pattern as a source: each `$name` is a name, and what is open is closed."""
    closers = []
    for mark in re.findall(r'"(?:\\.|[^"])*"|[][(){}]', text):
        if mark in '([{':
            closers.append({'(': ')', '[': ']', '{': '}'}[mark])
        elif mark in ')]}':
            closers.pop()
    source = text.replace('$', '') + ''.join(reversed(closers))
    return source + '>' * source.endswith('<V') + '() { }' * (') fn ' in source or '] fn ' in source)


def weakened_edits(eraser: Eraser) -> Iterator[tuple]:
    """Each row of both tables, weakened: the package, the row, what was done, and the weaker row."""
    for package in (eraser.packages.LIBRARY_PACKAGE, eraser.packages.PROGRAM_PACKAGE):
        for edit in package.edits:
            yield package, edit, 'other code', dataclasses.replace(edit, new=damaged(edit.new))
            if edit.files != '.*':
                yield package, edit, 'in any file', dataclasses.replace(edit, files='.*', function='', was='')
            if edit.function:
                yield package, edit, 'in any code of its function', dataclasses.replace(edit, function='', was='')


def damaged(new):
    """A row's new code without its middle token, or with one if it has none."""
    tokens = re.findall(r'"(?:\\.|[^"])*"|\$?\w+|\S', new)
    if not tokens:
        return 'x'
    middle = tokens[len(tokens) // 2]
    begin = next(
        place
        for place in (m.start() for m in re.finditer(re.escape(middle), new))
        if place >= len(new) // 3 or new.count(middle) == 1
    )
    return new[:begin] + new[begin + len(middle) :]


def edit_is_noticed(right: 'Right', package: Package, edit: Edit, what: str, weaker: Edit) -> bool:
    """True if the second reader, or a source where the row may not apply, detects a weaker row."""
    eraser = right.eraser
    if what == 'other code':
        return any(reader_notices(right, package, file, edit, weaker) for file in right.touched(package, edit))
    file = PROGRAM if package is eraser.packages.PROGRAM_PACKAGE else LIBRARY
    source = balanced(edit.old)
    if what != 'in any file':
        file, source = next(iter(right.touched(package, edit))), f'fn {edit.function}() {{ {source} }}'
    spans = eraser.tokens.toolchain_tokens({'row': source})['row']
    return erased_by(eraser, file, source, spans, edit) != erased_by(eraser, file, source, spans, weaker)


# ---- names of the other tables ----


def weakened_names(right: 'Right') -> Iterator[tuple]:
    """Each name of the tables of names and of own items, weakened: what it is, its table, its key, the other one, and a
    file."""
    own, names, packages = right.eraser.own, right.eraser.names, right.eraser.packages
    for file, items in own.ITEMS.items():
        for name, (path, why) in items.items():
            yield f'the own item `{name}`', items, name, (f'{path}_2', why), [file]
    for file, functions in own.INLINED.items():
        for name in functions:
            yield f'the attribute of `{name}`', functions, name, 'cold', [file]
    for file, (path, why) in names.MODULES.items():
        if path:
            folder = os.path.dirname(file)
            above = f'{folder}/lib.rt' if folder.endswith('/src') else f'{folder}.rt'
            yield f'the module {file}', names.MODULES, file, (f'{path}_2', why), [above]
    for package in (packages.LIBRARY_PACKAGE, packages.PROGRAM_PACKAGE):
        for path, new in package.paths.items():
            files = [
                file for file in filter(package.has, right.of(package)[0]) if path.split('::')[-1] in right.texts[file]
            ]
            yield f'the path {path}', package.paths, path, f'{new}::x', files


def name_is_noticed(right: 'Right', table: dict, key: str, weaker: Any, files: Iterable[str]) -> bool:
    """True if the second reader can't explain a file with another name."""
    before, table[key] = table[key], weaker
    try:
        return any(
            unexplained(right, file, right.texts[file], right.with_edit(own_package(right, file), file, None, None))
            is not None
            for file in files
        )
    finally:
        table[key] = before


def own_package(right, file):
    packages = right.eraser.packages
    return next(one for one in (packages.LIBRARY_PACKAGE, packages.PROGRAM_PACKAGE) if one.has(file))


def reader_notices(right, package, file, edit, weaker):
    """True if the second reader can't explain a file that is erased with a weaker row."""
    return unexplained(right, file, right.texts[file], right.with_edit(package, file, edit, weaker)) is not None


def unexplained(right: 'Right', file: str, source: str, rust: str) -> Optional[tuple[str, str]]:
    """What the second reader can't explain in a file's Rust, or None."""
    crate, name = file.split('/')[0], right.eraser.erase.target_of(file).removesuffix('.rs')
    is_of_programs = right.eraser.forms.is_of_programs(file)
    return reader.unexplained(source, rust, crate, name, reader.PROGRAMS if is_of_programs else reader.LIBRARY)


def erased_by(eraser, file, source, spans, edit):
    """A source's text with a row applied as rust/erase does, or the refusal."""
    tokens = eraser.contracts.without_contracts(eraser.tokens.lex(source, spans))
    try:
        if re.fullmatch(edit.files, file):
            eraser.edits.apply(edit, tokens, eraser.edits.sums_of(tokens))
        return eraser.contracts.tidied(tokens)
    except eraser.tokens.Refused as reason:
        return str(reason)
