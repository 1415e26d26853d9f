"""Judges the items that the crate has in a form of its own by their numbers: the crate with them, with and without
assembly source, beside the crate with the proved items in their places, by 10,000 calls of each function. A wrong form
of each is detected."""
import os
import shutil
import subprocess

from checks.lib.report import Report, check, last_line
from checks.lib.tools import ran, text_of, write
from rust.checks.erasers import RUST
from rust.checks.weakened import Right

CALLS, SECONDS = 10_000, 120
FEATURES = ('xxhash32', 'xxhash64', 'xxhash3_64', 'xxhash3_128', 'std', 'alloc')
MAIN = '''
use std::hash::Hasher;

fn next(state: &mut u64) -> u64 {
    *state = state.wrapping_mul(6364136223846793005).wrapping_add(1442695040888963407);
    *state >> 11
}

macro_rules! all {
    ($library:ident, $input:expr, $seed:expr, $secret:expr, $cut:expr) => {{
        let (input, seed, secret, cut): (&[u8], u64, &[u8], usize) = ($input, $seed, $secret, $cut);
        let mut streams = (
            $library::XxHash32::with_seed(seed as u32),
            $library::XxHash64::with_seed(seed),
            $library::XxHash3_64::with_seed(seed),
            $library::XxHash3_128::with_seed(seed),
            $library::XxHash3_64::with_seed_and_secret(seed, secret).unwrap(),
        );
        for piece in [&input[..cut], &input[cut..], &input[..cut.min(8)], input] {
            streams.0.write(piece);
            streams.1.write(piece);
            streams.2.write(piece);
            streams.3.write(piece);
            streams.4.write(piece);
        }
        [
            $library::XxHash32::oneshot(seed as u32, input) as u128,
            $library::XxHash64::oneshot(seed, input) as u128,
            $library::XxHash3_64::oneshot(input) as u128,
            $library::XxHash3_64::oneshot_with_seed(seed, input) as u128,
            $library::XxHash3_64::oneshot_with_secret(secret, input).unwrap() as u128,
            $library::XxHash3_64::oneshot_with_seed_and_secret(seed, secret, input).unwrap() as u128,
            $library::XxHash3_128::oneshot(input),
            $library::XxHash3_128::oneshot_with_seed(seed, input),
            $library::XxHash3_128::oneshot_with_secret(secret, input).unwrap(),
            streams.0.finish() as u128,
            streams.1.finish() as u128,
            streams.2.finish() as u128,
            streams.3.finish_128(),
            streams.4.finish() as u128,
        ]
    }};
}

fn main() {
    let mut state = SEED;
    let bytes: Vec<u8> = (0..70_000).map(|_| next(&mut state) as u8).collect();
    let mut different = 0;
    for call in 0..CALLS {
        let most = [16, 128, 240, 600, 5_000, 65_000][(next(&mut state) % if call % 20 == 0 { 6 } else { 4 }) as usize];
        let (start, len) = (next(&mut state) as usize % 4_000, next(&mut state) as usize % (most + 1));
        let (input, cut) = (&bytes[start..start + len], next(&mut state) as usize % (len + 1));
        let (seed, secret) = (next(&mut state), &bytes[start..start + 136 + next(&mut state) as usize % 100]);
        different += (all!(plain, input, seed, secret, cut) != all!(whole, input, seed, secret, cut)) as usize;
    }
    println!("{different} differ");
}
'''
# A wrong form of each item that the crate has in a form of its own: the item, its file below rust/src, its text, and
# the wrong one. A constant on which no value depends gets one that does not compile.
WRONG = (
    (
        'u32_at',
        'rattle.rs',
        'u32::from_le_bytes(*array_at(bytes, i))',
        'u32::from_le_bytes(*array_at(bytes, i.max(1) - 1))',
    ),
    (
        'u64_at',
        'rattle.rs',
        'u64::from_le_bytes(*array_at(bytes, i))',
        'u64::from_le_bytes(*array_at(bytes, i.max(1) - 1))',
    ),
    ('second_word', 'rattle.rs', 'u64_at(input, i + 8)', 'u64_at(input, i + 7)'),
    ('bp_as_chunks', 'rattle.rs', 'let count = items.len() / N;', 'let count = (items.len() / N).min(1);'),
    ('copy_ends', 'rattle.rs', 'barriers::hidden_usize(from.len() - N)', 'barriers::hidden_usize(0)'),
    (
        'write_blocks',
        'kernels/assembly.rs',
        '*core = after_stripes_32(core.v1, core.v2, core.v3, core.v4, blocks);',
        'let _ = blocks;',
    ),
    ('BYTES_FOR_BLOCKS', 'kernels/assembly.rs', 'BYTES_FOR_BLOCKS: usize = 1024', 'BYTES_FOR_BLOCKS: usize = panic!()'),
    ('IN_PAIRS', 'kernels.rs', 'IN_PAIRS: bool = true', 'IN_PAIRS: bool = panic!()'),
    (
        'oneshot_long',
        'kernels/assembly.rs',
        'xxh3_64_long(input.as_ptr(), input.len(),',
        'xxh3_64_long(input.as_ptr(), input.len() - 1,',
    ),
    (
        'oneshot_long',
        'kernels/assembly.rs',
        'xxh3_128_long(input.as_ptr(), input.len(),',
        'xxh3_128_long(input.as_ptr(), input.len() - 1,',
    ),
    (
        'oneshot_long',
        'kernels/source.rs',
        'oneshot(secret, input, Finalize64)',
        'oneshot(secret, &input[1..], Finalize64)',
    ),
    (
        'oneshot_long',
        'kernels/source.rs',
        'oneshot(secret, input, Finalize128)',
        'oneshot(secret, &input[1..], Finalize128)',
    ),
    (
        'oneshot_long_derived',
        'kernels.rs',
        'let secret = derived_secret(seed);\n    long_64',
        'let secret = derived_secret(seed ^ 1);\n    long_64',
    ),
    (
        'oneshot_long_derived',
        'kernels.rs',
        'let secret = derived_secret(seed);\n    long_128',
        'let secret = derived_secret(seed ^ 1);\n    long_128',
    ),
    ('expect_middle', 'kernels.rs', 'matches!(input.len(), 129..=240)', 'matches!(input.len(), 129..=239)'),
    ('Kernel', 'kernels.rs', 'pub type Kernel = large::lanes4::Impl;', 'pub type Kernel = large::Derived;'),
    (
        'write_by_default',
        'kernels/source.rs',
        'core.write(v, input, secret);',
        'core.write(v, &input[..input.len() / 2], secret);',
    ),
    (
        'write_by_default',
        'kernels/assembly.rs',
        'xxh3_write(core, start, length, input.as_ptr(), input.len())',
        'xxh3_write(core, start, length, input.as_ptr(), input.len() / 2)',
    ),
    ('secret_of', 'buffers.rs', 'Secret::new(bytes)', 'Secret::new(&bytes[..136])'),
)


def library(right, workdir, name, own, changes=(), flags=(), level=3):
    """The crate compiled with own items or without, and with changes of its files; or rustc's refusal."""
    items, eraser = right.eraser.own.ITEMS, right.eraser
    remaining = dict(items)
    if not own:
        items.clear()
    try:
        tree = eraser.tree(*right.of(eraser.packages.LIBRARY_PACKAGE), eraser.packages.LIBRARY_PACKAGE)
    finally:
        items.update(remaining)
    check(not isinstance(tree, str), f'{tree}')
    folder = os.path.join(workdir, name)
    shutil.rmtree(folder, ignore_errors=True)
    shutil.copytree(RUST, folder, ignore=shutil.ignore_patterns('erased', 'programs', 'checks', 'target'))
    for file, text in tree.items():
        write(os.path.join(folder, 'src', 'erased', file), text)
    for file, old, new in changes:
        path = os.path.join(folder, 'src', file)
        check(text_of(path).count(old) == 1, f'{file} has {old!r} {text_of(path).count(old)} times')
        write(path, text_of(path).replace(old, new))
    features = [word for feature in FEATURES for word in ('--cfg', f'feature="{feature}"')]
    return ran(
        [
            *'rustc --edition 2021 -Awarnings'.split(),
            f'-Copt-level={level}',
            *'--crate-type lib --crate-name'.split(),
            name,
            *features,
            *flags,
            os.path.join(folder, 'src', 'lib.rs'),
            '--out-dir',
            workdir,
        ]
    )


def differing(workdir, whole, seed):
    """The number of inputs for which two compiled crates have other hashes."""
    text = MAIN.replace('whole', whole).replace('SEED', str(seed)).replace('CALLS', str(CALLS))
    path = write(os.path.join(workdir, f'compare_{whole}.rs'), text)
    program = path.removesuffix('.rs')
    done = ran(
        [
            *'rustc --edition 2021 -Awarnings -Copt-level=1'.split(),
            path,
            '-L',
            workdir,
            *'--extern plain --extern'.split(),
            whole,
            '-o',
            program,
        ]
    )
    check(done.returncode == 0, last_line(done.stdout))
    try:
        return (
            subprocess.run(
                [program], stdout=subprocess.PIPE, stderr=subprocess.DEVNULL, text=True, timeout=SECONDS
            ).stdout.strip()
            or 'a panic'
        )
    except subprocess.TimeoutExpired:
        return 'no end'


def is_same(right, workdir, name, seed, *flags):
    done = library(right, workdir, name, True, flags=flags)
    check(done.returncode == 0, last_line(done.stdout))
    found = differing(workdir, name, seed)
    check(found == '0 differ', found)
    return f'{CALLS} inputs'


def is_noticed(right, workdir, number, change, seed):
    """A wrong form is detected by rustc, or by another hash."""
    name = f'wrong_{number}'
    flags = () if change[0] == 'kernels/assembly.rs' else ('--cfg', 'twox_hash_no_assembly')
    done = library(right, workdir, name, True, (change,), flags, level=1)
    if done.returncode:
        return f'by rustc: {next(line for line in done.stdout.splitlines() if line.startswith("error"))[:60]}'
    found = differing(workdir, name, seed)
    check(found != '0 differ', 'it was not noticed')
    return found


def check_all(report: Report, right: Right, workdir: str, seed: int) -> None:
    done = library(right, workdir, 'plain', False, flags=('--cfg', 'twox_hash_no_assembly'))
    check(done.returncode == 0, last_line(done.stdout))
    report.attempt('own items, beside the proved ones in their places', is_same, right, workdir, 'whole', seed)
    report.attempt(
        'the same without assembly source', is_same, right, workdir, 'erased', seed, '--cfg', 'twox_hash_no_assembly'
    )
    for number, (name, *change) in enumerate(WRONG):
        report.attempt(f'a wrong form of `{name}`, {change[0]}', is_noticed, right, workdir, number, change, seed)
    listed = {name for items in right.eraser.own.ITEMS.values() for name in items}
    report.attempt(
        'each own item has a wrong form',
        check,
        listed == {name for name, *_ in WRONG},
        f'{listed ^ {name for name, *_ in WRONG}}',
    )
