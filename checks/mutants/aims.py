"""The public functions without a mutant for their clauses."""
import glob
import os
import re

from . import edits, source, toolchain

CLAUSE = re.compile(r"\s*ensures(?: (\w+))? \{")


def main(files: dict) -> int:
    """Lists, for each crate, the public functions that no edit changes, each with the names of its clauses."""
    for crate, its in files.items():
        aimed = {(it.path, it.body.head) for it in (edits.Edit(file, crate, set()) for file in its) if it.body}
        found = list(public_functions(crate))
        missed = [(path, it, clauses) for path, it, clauses in found if (path, it.head) not in aimed]
        print(f"{crate.name}: {len(found) - len(missed)} of {len(found)} public functions with clauses have an edit")
        for path, it, clauses in missed:
            print(f"  {path}:{it.head + 1} {it.owner}{it.name}: {', '.join(clauses)}")
    return 0


def public_functions(crate):
    """The functions with a body that callers may call and that have clauses: file, function, names of its clauses."""
    for file in sorted(glob.glob(f"{crate.folder}/src/**/*.rt", recursive=True)):
        path, lines = os.path.relpath(file, crate.folder), toolchain.read(file).split("\n")
        for it in source.functions(path, lines):
            clauses = [found[1] or "result" for found in map(CLAUSE.match, lines[it.head : it.first]) if found]
            if clauses and re.match(r"\s*pub (?!\()", lines[it.head]):
                yield path, it, clauses
