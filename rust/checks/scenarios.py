"""What the eraser does with folders, files and tools: each scenario returns its result, or its refusal."""
import os
import tempfile
from types import SimpleNamespace

from checks.lib.tools import write
from rust.checks.erasers import limits

CASE = {'case/src/lib.rt': 'pub fn f() { }'}


def scenario(run):
    """The scenario's result for an eraser, in an empty folder."""

    def result(eraser):
        path = os.environ['PATH']
        with tempfile.TemporaryDirectory() as folder:
            try:
                with limits():
                    return str(run(eraser, folder)).replace(folder, '')
            except eraser.tokens.Refused as reason:
                return str(reason).replace(folder, '')
            except Exception as fault:
                return repr(fault).replace(folder, '')
            finally:
                os.environ['PATH'] = path

    return result


def fake_rt(folder, text):
    path = write(os.path.join(folder, 'bin', 'rt'), f'#!/bin/sh\n{text}\n')
    os.chmod(path, 0o755)
    os.environ['PATH'] = f'{os.path.dirname(path)}:{os.environ["PATH"]}'


def foreign_folder(eraser, folder):
    write(os.path.join(folder, 'mod.rs'), 'mod mine;\n')
    eraser.erase.written({'a.rs': ''}, folder, eraser.packages.LIBRARY_PACKAGE)
    return os.listdir(folder)


def foreign_file(eraser, folder):
    path = write(os.path.join(folder, 'tree'), 'mine')
    eraser.erase.written({'a.rs': ''}, path, eraser.packages.LIBRARY_PACKAGE)
    return os.listdir(folder)


def file_that_is_not_rattle(eraser, folder):
    for crate in eraser.packages.LIBRARY_PACKAGE.read:
        write(os.path.join(folder, crate, 'src', 'a.txt'), '')
    return eraser.erase.sources(folder, eraser.packages.LIBRARY_PACKAGE)


def no_toolchain(eraser, folder):
    os.environ['PATH'] = folder
    return eraser.tokens.toolchain_tokens(CASE)


def failing_toolchain(eraser, folder):
    fake_rt(folder, '')
    write(os.path.join(folder, 'bin', 'rattle'), '#!/bin/sh\necho no memory >&2; exit 3\n')
    os.chmod(os.path.join(folder, 'bin', 'rattle'), 0o755)
    return eraser.tokens.toolchain_tokens(CASE)


def code_that_the_toolchain_reads_as_none(eraser, _):
    return eraser.tokens.lex('a', [(1, 0, 1, 'Antt', 'a')])


def text_between_tokens(eraser, _):
    return eraser.tokens.lex('a b', [(1, 0, 1, 'Code', 'a')])


def comment_between_tokens(eraser, _):
    return eraser.tokens.lex('a /* b', [(1, 0, 1, 'Code', 'a')])


def name_in_brackets(eraser, _):
    return eraser.tokens.lex('«a»', [(1, 0, 5, 'Code', 'a')])


def changed_without_toolchain(eraser, folder):
    os.environ['PATH'] = folder
    package = eraser.packages.LIBRARY_PACKAGE
    write(os.path.join(folder, 'tree', 'mod.rs'), '')
    return eraser.erase.unchanged(CASE, os.path.join(folder, 'tree'), package)


def unchanged_without_toolchain(eraser, folder):
    os.environ['PATH'] = folder
    package = eraser.packages.LIBRARY_PACKAGE
    crates = os.path.join(os.path.dirname(eraser.packages.RUST), 'crates')
    return eraser.erase.run(SimpleNamespace(crates=crates, check=True, of_ci=False), package, package.folder, True)


def run_with(eraser, folder, **stored):
    """`--check` of a crate `case` with nothing in its tree but what the eraser writes."""
    package = SimpleNamespace(name='rust/erase', read=('case',), left_out=())
    eraser.stored.STORED = os.path.join(folder, 'stored.txt')
    eraser.erase.sources, eraser.erase.erased = (lambda *_: CASE), (lambda *_: {'a.rs': ''})
    eraser.erase.stored, eraser.erase.calls = (lambda: stored), (lambda *_: {'crate case': ('1', [])})
    return eraser.erase.run(
        SimpleNamespace(crates=folder, check=True, of_ci=False), package, os.path.join(folder, 'tree'), True
    )


def restored(run):
    """A scenario that changes the modules `erase` and `stored`."""

    def result(eraser, folder):
        before = dict(eraser.erase.__dict__), dict(eraser.stored.__dict__)
        try:
            return run(eraser, folder)
        finally:
            eraser.erase.__dict__.update(before[0])
            eraser.stored.__dict__.update(before[1])

    return result


def tree_that_differs(eraser, folder):
    write(os.path.join(folder, 'tree', 'a.rs'), 'x')
    return run_with(eraser, folder)


def stored_of_others(eraser, folder):
    write(os.path.join(folder, 'tree', 'a.rs'), '')
    return run_with(eraser, folder)


def unknown_callee(eraser, _):
    texts = {'twox_words/src/words.rt': 'pub fn a() { }\npub fn u32_at() -> bool {\n    Clone::clone(&r).is_ok()\n}'}
    return eraser.stored.check_callees({'core::clone::ResultClone::clone': ['twox_words::words::u32_at']}, texts)


def unproved_crate(eraser, folder):
    fake_rt(folder, 'echo not proved; exit 1')
    write(os.path.join(folder, 'crates', 'case', 'src', 'lib.rt'), '')
    write(os.path.join(folder, 'crates', 'case', 'out', 'rlib', 'case.rlib', 'toolchain', 'mir.json'), '[]')
    return eraser.stored.proved_mir(os.path.join(folder, 'crates'), 'case')


def crate_changed_since_ci(eraser, folder):
    write(os.path.join(folder, 'crates.txt'), 'case:\n')
    library = os.path.join(folder, 'crates', 'case', 'out', 'rlib', 'case.rlib')
    write(os.path.join(library, 'toolchain', 'mir.json'), '[]')
    os.utime(library, (0, 0))
    write(os.path.join(folder, 'crates', 'case', 'src', 'lib.rt'), '')
    return eraser.stored.proved_mir(os.path.join(folder, 'crates'), 'case', of_ci=True)


def unread_program(eraser, folder):
    write(os.path.join(folder, 'crates.txt'), 'case:\n')
    package = SimpleNamespace(read=('case',), left_out=())
    return eraser.stored.calls(os.path.join(folder, 'crates'), {'case/src/main.rt': 'fn main() { }'}, package, {})


def stored_callee_that_is_unknown(eraser, folder):
    write(os.path.join(folder, 'crates.txt'), 'case:\n')
    package, texts = SimpleNamespace(read=('case',), left_out=()), {'case/src/lib.rt': ''}
    crates = os.path.join(folder, 'crates')
    sections = {'crate case': (eraser.stored.sum_of_crate(crates, 'case', texts), ['core::mem::size_of_val'])}
    return eraser.stored.calls(crates, texts, package, sections)


SCENARIOS = {
    run.__name__.replace('_', ' '): scenario(run)
    for run in (
        foreign_folder,
        foreign_file,
        file_that_is_not_rattle,
        no_toolchain,
        failing_toolchain,
        code_that_the_toolchain_reads_as_none,
        text_between_tokens,
        comment_between_tokens,
        name_in_brackets,
        changed_without_toolchain,
        unchanged_without_toolchain,
        unknown_callee,
        unproved_crate,
        crate_changed_since_ci,
        unread_program,
        stored_callee_that_is_unknown,
    )
}
SCENARIOS |= {run.__name__.replace('_', ' '): scenario(restored(run)) for run in (tree_that_differs, stored_of_others)}
