"""docs/EDITS.md: the rows of the eraser's tables of edits, and how many rules, sources and weakened erasers there
are."""
from checks.lib.tools import text_of
from rust.checks.erasers import Eraser
from rust.checks.planted_sources import CHANGED_CRATES, CHANGED_PROGRAMS, PLANTED
from rust.checks.scenarios import SCENARIOS

PAGE, TEMPLATE = 'docs/EDITS.md', 'rust/checks/edits.md.in'


def cell(text):
    return ' '.join(text.split()).replace('|', '\\|')


def lines(*rows):
    return ''.join(f'| {" | ".join(map(cell, row))} |\n' for row in rows)


def edits_of(eraser):
    """A line for each edit: how often it applies, in which files, and why."""
    packages, where = eraser.packages, lambda edit: edit.function and f'`{edit.function}`' or edit.files.replace(
        '.*', 'all files'
    )
    head = '| Edit | Of | Times | In | Reason |\n|---|---|---|---|---|\n'
    return head + lines(
        *(
            (edit.name, of, str(edit.count), where(edit), edit.why)
            for of, package in (('library', packages.LIBRARY_PACKAGE), ('programs', packages.PROGRAM_PACKAGE))
            for edit in package.edits
        )
    )


def own_items(eraser):
    head = '| Item | In the crate | Reason |\n|---|---|---|\n'
    return head + lines(
        *(
            (f'`{name}` of {file.replace("/src/", "/")}', f'`{path.removeprefix("crate::")}`', why)
            for file, items in eraser.own.ITEMS.items()
            for name, (path, why) in items.items()
        )
    )


def paths_of(eraser):
    paths = {**eraser.names.PROGRAM_PATHS, **eraser.names.LIBRARY_PATHS}
    return '| Path | In its place |\n|---|---|\n' + lines(
        *((f'`{old}`', f'`{new}`') for old, new in sorted(paths.items()))
    )


def page(eraser: Eraser, counts: dict[str, int], callees: int) -> str:
    packages, names, own = eraser.packages, eraser.names, eraser.own
    erased = sum(not planted.reason for planted in PLANTED)
    count = lambda table: str(sum(len(entries) for entries in table.values()))
    return text_of(TEMPLATE).format(
        rules=counts['rules'],
        callees=callees,
        rows=len(packages.LIBRARY_PACKAGE.edits) + len(packages.PROGRAM_PACKAGE.edits),
        planted=len(PLANTED),
        erased=erased,
        refused=len(PLANTED) - erased,
        changed=len(CHANGED_CRATES) + len(CHANGED_PROGRAMS),
        scenarios=len(SCENARIOS),
        weakened=sum(counts.values()),
        edits=edits_of(eraser),
        items=count(own.ITEMS),
        own=own_items(eraser),
        paths=paths_of(eraser),
        prelude=', '.join(f'`{name}`' for name in sorted({*names.LIBRARY_PRELUDE, *names.PROGRAM_PRELUDE})),
        twice=names.TWICE.replace('/src/', '/'),
        modules=lines(
            *(
                (file.replace('/src/', '/'), f'`{path}`' if path else 'none', why)
                for file, (path, why) in names.MODULES.items()
            )
        ),
        inlined=count(own.INLINED),
        bounded=count(own.BOUNDS),
        bound=own.BOUND,
    )
