"""The Rattle tests of the library's crates, erased and run as tests of the crate: `rt test` runs the same in Rattle."""
import os
import re
import shutil
from collections import Counter

from checks.lib.report import check, last_line
from checks.lib.tools import ran, write
from rust.checks.erasers import CRATES, RUST, Eraser

TESTS = ('core_tests', 'twox_tests', 'plain_tests')
# A file of a crate that only tests call in Rust.
STRIPES = 'twox_plain/src/by_stripes.rt'
# Over JSON, random numbers, copies that take memory, buffers that the crate has of its own, and the trait of the main
# theorem.
LEFT_OUT = tuple(
    f'{crate}/src/{name}.rt'
    for crate, names in (
        ('core_tests', ('buffers',)),
        ('plain_tests', ('copies', 'maps', 'refusals', 'saved', 'text_lengths')),
        ('twox_tests', ('counts', 'kinds', 'pieces', 'secret_lengths', 'secrets')),
    )
    for name in names
)
FEATURES = ('xxhash32', 'xxhash64', 'xxhash3_64', 'xxhash3_128', 'std', 'alloc')
FAIL = '''
#[cfg(test)]
impl std::fmt::Display for rattle::AllocError {
    fn fmt(&self, f: &mut std::fmt::Formatter<'_>) -> std::fmt::Result {
        f.write_str("no memory")
    }
}

/// Any error of a test.
#[cfg(test)]
#[derive(Debug)]
pub struct Fail;
#[cfg(test)]
impl<E: std::fmt::Display> From<E> for Fail {
    fn from(_: E) -> Fail {
        Fail
    }
}
'''


def edits_of_tests(eraser):
    edit = eraser.edits.Edit
    return (
        edit('tests', 'assert!(rt; ', 'assert!(', 0, ''),
        edit('runtime', '(rt: HostRuntime)', '()', 0, ''),
        edit('allocator', 'rt.alloc()', 'crate::rattle::Global', 0, ''),
        edit('errors', 'std::test::Fail', 'crate::Fail', 0, ''),
        edit('texts', 'format!(in alloc; "{error}")?', 'format!("{error}")', 0, ''),
        *(shared for shared in eraser.packages.LIBRARY_PACKAGE.edits if shared.files == '.*' and not shared.function),
    )


def erased_tests(eraser):
    """The modules of the tests, by the names of their files."""
    eraser.contracts.ALLOWED_ATTRIBUTES |= {'test', 'cfg'}
    eraser.forms.STD.update({'test', 'collections', 'cell'})
    eraser.forms.MACROS.update({'assert', 'format'})
    eraser.forms.check_casts = lambda *_: None
    library = eraser.packages.LIBRARY_PACKAGE
    package = eraser.packages.Package(
        'tests',
        '',
        library.tree,
        (*TESTS, *library.read),
        edits_of_tests(eraser),
        library.paths,
        library.prelude,
        {},
        left_out=frozenset(LEFT_OUT),
    )
    texts = eraser.erase.sources(CRATES, package)
    spans = eraser.tokens.toolchain_tokens(texts)
    tokens = {file: eraser.erase.named(file, eraser.erase.read, text, spans[file]) for file, text in texts.items()}
    items, files = eraser.items.Items(), {}
    for file in tokens:
        items.learn(file, tokens[file])
    for file in tokens:
        if file.startswith((*TESTS, STRIPES)) and file not in LEFT_OUT:
            files[eraser.erase.target_of(file)] = eraser.erase.named(
                file, eraser.erase.as_rust, tokens[file], Counter(), items, package
            )
    return files


def run_tests(workdir: str) -> str:
    """Runs them in a copy of the crate, and returns how many there are."""
    folder = os.path.join(workdir, 'tests')
    shutil.copytree(RUST, folder, ignore=shutil.ignore_patterns('programs', 'checks', 'target'))
    files = erased_tests(Eraser())
    for file, text in files.items():
        for left_out in LEFT_OUT:
            crate, name = left_out.split('/')[0], os.path.basename(left_out).removesuffix('.rt')
            if file == f'{crate}.rs':
                text = re.sub(rf'#\[cfg\(test\)\]\nmod {name};\n', '', text)
        write(os.path.join(folder, 'src', 'erased', file), text)
    for path, more in (
        ('src/erased/mod.rs', ''.join(f'#[cfg(test)]\npub mod {crate};\n' for crate in TESTS)),
        ('src/erased/twox_plain.rs', '#[cfg(test)]\npub mod by_stripes;\n'),
        ('src/lib.rs', FAIL),
    ):
        with open(os.path.join(folder, path), 'a', encoding='utf-8') as file:
            file.write(more)
    features = [word for feature in FEATURES for word in ('--cfg', f'feature="{feature}"')]
    program = os.path.join(workdir, 'rattle_tests')
    done = ran(
        [
            *'rustc --test --edition 2021 -Awarnings -Adeprecated'.split(),
            *features,
            os.path.join(folder, 'src', 'lib.rs'),
            '-o',
            program,
        ]
    )
    check(done.returncode == 0, last_line(done.stdout))
    done = ran([program])
    counts = re.search(r'(\d+) passed; (\d+) failed', done.stdout)
    check(done.returncode == 0 and counts, last_line(done.stdout))
    written = sum(text.count('#[test]') for text in files.values())
    check(int(counts[1]) >= written > 0, f'{counts[0]}, of {written} tests')
    return f'{counts[1]} tests'
