"""Checks the cargo crate of rust/, and regenerates both of its halves:

    rust/check [--target aarch64 | riscv64 | windows | sums] [--quick] [--original FOLDER]
    rust/check --without-rt

- rust/src/erased, compared with the crates, also by a second reader, and weakened erasers (rust/checks/eraser);
- its declarations, compared with the exports, and its assembly source, compared with the proved code
  (assembly/check);
- cargo's tests, the examples of its documentation, ten sets of features, and clippy if the machine has it;
- the oracle's table, one-shots and streams;
- a million calls compared with Debian's libxxhash and xxhash-rust, by each instruction set, also under valgrind;
- all that again without the assembly source, and with debug assertions and overflow checks;
- saved hashers compared with those of the program `xxh`, each read by the other;
- a program that uses the crate by one line, examples/rust, two versions in one program, and the crate as a package;
- tests and the table with musl, over Rust's standard library from Debian's sources;
- wrong assembly source, which must be detected.

With --target aarch64 the same for 64-bit ARM, under qemu-aarch64: the assembly source, cargo's tests, the calls and the
oracle's table, and the same with musl. The crate is then compiled by Debian's rustc, over Debian's standard library for
that processor.

With --target riscv64, under qemu-riscv64, and windows, under wine, cargo's tests, the oracle's table, and calls
compared with the reference's header. With --target sums one sum of 18,802 hashes by programs for further targets, each
under qemu or in Node.

--without-rt checks what is possible without a toolchain, from a clean copy with rt hidden.

--original also compares with the crate twox-hash 2.1.5, texts and saved hashers included: FOLDER has its sources, with
or without its Cargo.toml. --quick makes a tenth of the calls.

It runs on Debian as root, installs missing packages, uses no registry of crates, and changes nothing else outside a
folder of its own. One line per check; the status is 1 if one failed."""
import json
import os
import re
import shutil
import subprocess
import sys
import tempfile

from assembly.check import SETS, check_sums, check_texts
from assembly.same_bytes import Object
from checks.lib import arm_roots, command
from checks.lib.report import Fault, Report, check, last_line
from checks.lib.tools import (
    TOP,
    clean_copy,
    four_hashes,
    hide_rt,
    proved_program,
    ran,
    replace_once,
    short_reads,
    text_of,
    write,
)
from rust.checks.sums import check_sums_of_targets
from rust.checks.workspace import (
    ARM_PACKAGES,
    FURTHER,
    OLDER_PACKAGES,
    SOURCE_PACKAGES,
    ArmWorkspace,
    SourceWorkspace,
    Workspace,
    errors_of,
    has,
    install_packages,
    must,
)

RUST = os.path.join(TOP, 'rust')

HASHES = ('xxhash32', 'xxhash64', 'xxhash3_64', 'xxhash3_128')
FEATURES = [
    '',
    *HASHES,
    'xxhash32,xxhash64',
    'xxhash64,std',
    'xxhash3_64,xxhash3_128,alloc',
    'xxhash3_64,std',
    ','.join(HASHES) + ',serialize',
    ','.join(HASHES) + ',random,serialize',
]


# The crate compiled only from its erased source, as for every target without assembly source.
NO_ASSEMBLY = '--cfg twox_hash_no_assembly'
ASSEMBLY_SOURCE = os.path.join(RUST, 'src', 'kernels', 'assembly.rs')


# ---- the declarations ----


def as_list(types):
    """The types of arguments as they are passed: a slice as its address and its length."""
    renamed = {'&[u8]': '*const u8, usize', '&DefaultSecret': '&[u8; 192]'}
    return ', '.join(renamed.get(type_name, type_name) for type_name in types)


def declared():
    """The functions that the crate declares, by name: their argument types, and their result."""
    text = re.search(r'\nexports! \{(.*?)\n\}', text_of(ASSEMBLY_SOURCE), re.S)[1]
    return {name: (types, answer) for name, types, answer in re.findall(r'fn (\w+)\(([^()]*)\)(?: -> (\w+))?;', text)}


def exports():
    """The exports of crates/twox_rust, in the same form."""
    found, source = {}, os.path.join(TOP, 'crates', 'twox_rust', 'src')
    for file in os.listdir(source):
        heads = r'extern "C" fn twox_rust_(\w+)\(([^()]*)\)(?: -> (\w+))?\s+ensures'
        for name, arguments, answer in re.findall(heads, text_of(os.path.join(source, file))):
            types = [pair.split(':', 1)[1].strip() for pair in arguments.split(',') if pair.strip()]
            found[name] = as_list(types), answer
    return found


def interface_number():
    """The number in each name of the crate's declarations."""
    (number,) = set(re.findall(r'link_name = concat!\("twox_rust_(\d+)_"', text_of(ASSEMBLY_SOURCE)))
    return number


def declarations_agree():
    """Each declaration of the crate has an export's name, arguments and result."""
    ours, theirs = declared(), exports()
    (interface,) = (name for name in theirs if name.startswith('interface_'))
    check(ours, 'the crate declares nothing')
    for name, declaration in ours.items():
        check(declaration == theirs.get(name), f'{name}: {declaration}, and the export {theirs.get(name)}')
    expected = interface.removeprefix('interface_')
    check(interface_number() == expected, f'the names have {interface_number()}, not {expected}')
    return f'{len(ours)} of {len(theirs)} exports'


# ---- cargo's own ----


def tests_pass(workspace, *args, flags=''):
    done = workspace.cargo(workspace.rust, 'test', *args, environment=workspace.environment(flags=flags))
    counts = [tuple(map(int, found)) for found in re.findall(r'(\d+) passed; (\d+) failed', done.stdout)]
    passed, failed = sum(good for good, _ in counts), sum(bad for _, bad in counts)
    check(done.returncode == 0 and not failed and passed, f'{failed} failed: {last_line(errors_of(done.stdout))}')
    return f'{passed} tests'


def features_compile(workspace, features):
    args = ['--no-default-features', '--features', features]
    workspace.must(workspace.rust, 'check', *args, environment=workspace.environment(flags='-D warnings'))
    return tests_pass(workspace, '--lib', '--tests', *args) if features else ''


def documentation_is_built(workspace):
    workspace.must(
        workspace.rust,
        'doc',
        '--all-features',
        '--no-deps',
        environment=workspace.environment(RUSTDOCFLAGS='-D warnings'),
    )


def clippy_is_silent(workspace):
    workspace.must(workspace.rust, 'clippy', '--all-targets', '--all-features', '--', '-D', 'warnings')


def check_cargo(report, workspace, sets):
    report.attempt("cargo's tests", tests_pass, workspace, '--all-features', '--lib', '--tests')
    report.attempt('examples of the documentation', tests_pass, workspace, '--all-features', '--doc')
    report.attempt('the pages of the documentation', documentation_is_built, workspace)
    for features in sets:
        report.attempt(f'features: {features or "none"}', features_compile, workspace, features)
    if sets == FEATURES and shutil.which('cargo-clippy'):
        report.attempt('clippy', clippy_is_silent, workspace)


# ---- calls ----


def none_differs(command, **more):
    done = ran(command, **more)
    check(done.returncode == 0 and 'none differs' in done.stdout, done.stdout[:300])
    return done.stdout.strip().splitlines()[-1]


def calls_agree(program, count, seed, before=()):
    return none_differs([*before, program, 'compare', str(count), str(seed)])


def table_agrees(program, before=()):
    return none_differs([*before, program, 'table'], input=text_of('oracle/vectors.txt'))


# An instruction inserted before an export's others, by which it hashes one byte fewer.
ONE_FEWER = {'x86-64': 'dec %rsi', 'aarch64': 'sub x1, x1, #1'}


def calls_notice(workspace, name, processor='x86-64', runner=(), suffixes=('', '_v3', '_v4')):
    """A crate in whose assembly source an export hashes one byte fewer, for some instruction sets."""
    begun = re.compile(rf'^(twox_rust_\d+_xxh3_64_long({"|".join(suffixes)}):)$', re.M)
    crate = workspace.changed(name, lambda text: begun.sub(rf'\1\n\t{ONE_FEWER[processor]}', text))
    done = ran([*runner, workspace.build(f'{crate}/checks/calls', f'calls@{name}'), 'compare', '1000', '1'])
    # The comparison stops with 1, and the crate with 101 if the export refuses 240 bytes.
    check(done.returncode in (1, 101), f'it was not noticed: {last_line(done.stdout)}')


def check_choice(report, workspace, program):
    """The instruction set that a program uses at run time: qemu's processors of these names have no more than these."""
    install_packages(OLDER_PACKAGES)
    for name, processor in (('x86-64', 'Nehalem-v1'), ('x86-64-v3', 'Haswell-v4')):
        report.attempt(
            f'calls on a processor of {name}', calls_agree, program, 2_000, 6, ['qemu-x86_64', '-cpu', processor]
        )
    for name, suffix in (('x86-64-v3', '_v3'), ('x86-64-v4', '_v4')):
        if has(name) and not (suffix == '_v3' and has('x86-64-v4')):
            report.attempt(
                f'wrong assembly source for {name} alone',
                calls_notice,
                workspace,
                f'wrong{suffix}',
                'x86-64',
                (),
                (suffix,),
            )


def check_calls(report, workspace, quick, original):
    folder = os.path.join(workspace.rust, 'checks', 'calls')
    if original:
        workspace.add_original(folder, original)
    args = ['--features', 'original'] if original else []
    count = 100_000 if quick else 1_000_000
    valgrind = ['valgrind', '-q', '--error-exitcode=3', '--leak-check=full']
    program = workspace.build(folder, 'calls', *args)
    report.attempt("the oracle's table", table_agrees, program)
    report.attempt('calls, by the processor that runs them', calls_agree, program, count, 1)
    report.attempt('calls under valgrind', calls_agree, program, count // 200, 2, valgrind)
    bare = workspace.build(folder, 'calls@bare', '--no-default-features', '--features', 'without-std')
    report.attempt('calls without std', calls_agree, bare, count // 2, 3)
    for name in filter(has, ('x86-64-v3', 'x86-64-v4')):
        built = workspace.build(
            folder, f'calls@{name}', *args, environment=workspace.environment(flags=f'-C target-cpu={name}')
        )
        report.attempt(f'calls by the set for {name}', calls_agree, built, count // 2, 4)
    report.attempt('wrong assembly source', calls_notice, workspace, 'wrong')
    check_choice(report, workspace, program)
    check_source_alone(report, workspace, args, count)
    return program


def check_source_alone(report, workspace, args, count):
    """The crate without its assembly source: by SSE2, by AVX2 that the program detects, by AVX2 as a flag of rustc,
    and with all of rustc's tests of overflow."""
    folder = os.path.join(workspace.rust, 'checks', 'calls')
    report.attempt(
        "cargo's tests of the erased source",
        lambda: tests_pass(workspace, '--all-features', '--lib', '--tests', flags=NO_ASSEMBLY),
    )
    program = workspace.build(folder, 'calls@source', *args, environment=workspace.environment(flags=NO_ASSEMBLY))
    report.attempt("the oracle's table by the erased source", table_agrees, program)
    report.attempt('calls by the erased source', calls_agree, program, count, 5)
    report.attempt('no proved function and no call of an instruction is in it', holds_no_assembly, program)
    install_packages(OLDER_PACKAGES)
    older = ['qemu-x86_64', '-cpu', 'Nehalem-v1']
    report.attempt('calls by the erased source on a processor of x86-64', calls_agree, program, 2_000, 6, older)
    if has('x86-64-v3'):
        by_features = workspace.build(
            folder, 'calls@source-v3', environment=workspace.environment(flags=f'{NO_ASSEMBLY} -C target-cpu=x86-64-v3')
        )
        report.attempt('calls by the erased source for x86-64-v3', calls_agree, by_features, count // 2, 7)
    tested = f'{NO_ASSEMBLY} -C debug-assertions=on -C overflow-checks=on'
    program = workspace.build(folder, 'calls@tested', environment=workspace.environment(flags=tested))
    report.attempt("the oracle's table with tests of overflow", table_agrees, program)
    report.attempt('calls with tests of overflow', calls_agree, program, count // 4, 8)


def holds_no_assembly(program):
    """A program has none of the proved functions, and no vector instruction as a call, which would take fifty times
    as long."""
    left = set(re.findall(r'twox_rust_\d+_(\w+)|(_mm\d*_\w+)', must(['nm', '-C', program])))
    check(not left, f'it holds {sorted(left)[:5]}')


# ---- saved hashers ----


def printed(command, data, environment=None):
    done = subprocess.run(command, input=data, stdout=subprocess.PIPE, stderr=subprocess.STDOUT, env=environment)
    check(done.returncode == 0, f'{command[1:3]}: {last_line(done.stdout.decode())}')
    return done.stdout.decode().strip()


def saved_hashers_agree(calls, xxh):
    count = 0
    for bits in ('32', '64'):
        for length in (0, 1, 15, 16, 17, 31, 32, 33, 100, 5000):
            data, rest, seed = os.urandom(length), os.urandom(50), str(length * 7)
            ours = printed([calls, 'save', bits, seed], data)
            theirs = printed([xxh, 'save', bits, seed], data)
            check(json.loads(ours) == json.loads(theirs), f'of {length} bytes: {ours} and {theirs}')
            whole = int(printed([xxh, 'hash', bits, seed], data + rest), 16)
            for program, text in ((calls, theirs), (xxh, ours)):
                went_on = int(printed([program, 'resume', bits, text], rest), 16)
                check(went_on == whole, f'{os.path.basename(program)} after {length} bytes: {went_on:x}, {whole:x}')
                count += 1
    return f'{count} read by the other'


def bad_records_are_refused(calls):
    good = json.loads(printed([calls, 'save', '64', '7'], b'some bytes'))
    for field, value in (('buffer_usage', 11), ('buffer_usage', 32), ('total_len', 11), ('total_len', 2**63)):
        done = subprocess.run(
            [calls, 'resume', '64', json.dumps({**good, field: value})], input=b'', capture_output=True
        )
        message = done.stderr.decode()
        check(
            done.returncode == 1 and 'no bytes lead to this record of XXH64' in message, f'{field} {value}: {message}'
        )
    return 'no bytes lead to this record of XXH64'


def check_saved(report, calls):
    report.attempt('saved hashers beside xxh', saved_hashers_agree, calls, proved_program('xxh'))
    report.attempt('records that no bytes lead to', bad_records_are_refused, calls)


# ---- programs, packages and targets ----

PROGRAM = '''use std::hash::Hasher as _;
use twox_hash::{XxHash3_128, XxHash64};

fn main() {
    let mut hasher = XxHash64::with_seed(1234);
    hasher.write(b"some ");
    hasher.write(b"bytes");
    println!("{:016x} {:032x}", hasher.finish(), XxHash3_128::oneshot_with_seed(1234, b"some bytes"));
}
'''
MANIFEST = '[package]\nname = "program"\nversion = "0.1.0"\nedition = "2021"\n\n[dependencies]\ntwox-hash = "2.1"\n'
# The reference library's, of "some bytes" under the seed 1234.
PRINTED = 'eab55659a496d78b d13af43e9c4507cfc327b2ddc4f87078'


def program_folder(workspace, name='one-line', manifest='', text=PROGRAM, source=None):
    source = source or f'path = "{workspace.rust}"'
    folder = os.path.join(workspace.path, name)
    write(os.path.join(folder, 'src', 'main.rs'), text)
    write(os.path.join(folder, 'Cargo.toml'), MANIFEST + f'{manifest}\n[patch.crates-io]\ntwox-hash = {{ {source} }}\n')
    return folder


def program_runs(workspace, environment=None, runner=()):
    out = printed([*runner, workspace.build(program_folder(workspace), 'program', environment=environment)], b'')
    check(out == PRINTED, out)
    return out.split()[0]


def program_runs_by_git(workspace, copy):
    """The crate from a git repository of everything, which cargo searches for it."""
    identity = ['-c', 'user.name=check', '-c', 'user.email=check@localhost']
    for args in (['init', '-q'], ['add', '-A'], [*identity, 'commit', '-q', '-m', 'all']):
        must(['git', '-C', copy, *args])
    folder = program_folder(workspace, 'by-git', source=f'git = "file://{copy}"')
    environment = workspace.environment(
        CARGO_NET_OFFLINE='false', CARGO_HOME=os.path.join(workspace.path, 'cargo-home')
    )
    check(
        printed([workspace.build(folder, 'program', environment=environment)], b'') == PRINTED, 'it prints another line'
    )


def is_built_alone(workspace):
    """The crate is compiled on a machine with neither a C compiler nor a linker."""
    tools = os.path.join(workspace.path, 'tools')
    os.makedirs(tools)
    for name in ('cargo', 'rustc'):
        os.symlink(shutil.which(name) or name, os.path.join(tools, name))
    workspace.must(workspace.rust, 'build', '--release', environment=workspace.environment(PATH=tools))


TWO_VERSIONS = PROGRAM.replace(
    'fn main() {',
    '''fn main() {
    let other = other::XxHash64::oneshot(1234, b"some bytes");
    assert_eq!(other, XxHash64::oneshot(1234, b"some bytes"));
    let long = [7; 5000];
    assert_eq!(other::XxHash3_128::oneshot(&long), XxHash3_128::oneshot(&long));''',
)


def two_versions_run(workspace, interface):
    """Another version of the crate, of the same interface or of another, is linked into one program with this one,
    also if the optimizer makes one module of both."""

    def renamed(text):
        own = interface_number()
        return text.replace(f'twox_rust_{own}_', f'twox_rust_{interface}_').replace(f'.i{own}', f'.i{interface}')

    crate = workspace.changed(f'interface-{interface}', renamed)
    for name, change in (
        ('Cargo.toml', lambda text: text.replace('version = "2.1.5"', 'version = "3.0.0"')),
        ('src/kernels/assembly.rs', renamed),
    ):
        write(os.path.join(crate, name), change(text_of(os.path.join(crate, name))))
    manifest = f'other = {{ package = "twox-hash", path = "{crate}" }}\n'
    for profile in ('', '\n[profile.release]\nlto = "fat"\n'):
        folder = program_folder(workspace, f'two-{interface}', manifest + profile, TWO_VERSIONS)
        out = printed([workspace.build(folder, 'program')], b'')
        check(out == PRINTED, out)
    return 'also by fat LTO'


def no_name_leaves(workspace):
    """A shared library with the crate in it exports only its own function."""
    folder = program_folder(workspace, 'shared', '\n[lib]\nname = "shared"\ncrate-type = ["cdylib"]\n')
    write(
        os.path.join(folder, 'src', 'lib.rs'),
        'use std::{hash::Hasher, slice::from_raw_parts};\n\n#[no_mangle]\n'
        'pub unsafe extern "C" fn hash(bytes: *const u8, length: usize) -> u64 {\n'
        '    let mut hasher = twox_hash::XxHash3_64::new();\n'
        '    hasher.write(unsafe { from_raw_parts(bytes, length) });\n    hasher.finish()\n}\n',
    )
    workspace.must(folder, 'build', '--release', '--lib')
    library = os.path.join(workspace.build_dir, 'libshared.so')
    names = [line.split()[-1] for line in must(['nm', '-D', '--defined-only', library]).splitlines()]
    inside = must(['nm', library])
    check(f'twox_rust_{interface_number()}_xxh3_write' in inside and names == ['hash'], f'it exports {names}')


def package_is_whole(workspace):
    """The files of the package, unpacked elsewhere, are compiled and run."""
    workspace.must(workspace.rust, 'package', '--no-verify', '--allow-dirty')
    file = os.path.join(workspace.path, 'target', 'package', 'twox-hash-2.1.5.crate')
    unpacked = os.path.join(workspace.path, 'unpacked')
    os.makedirs(unpacked)
    must(['tar', 'xzf', file, '-C', unpacked])
    crate = os.path.join(unpacked, 'twox-hash-2.1.5')
    files = [os.path.relpath(f'{folder}/{name}', crate) for folder, _, names in os.walk(crate) for name in names]
    check(text_of(os.path.join(crate, 'LICENSE')) == text_of('LICENSE'), "LICENSE isn't that of the repository")
    sources = ('lib.rs', 'erased/twox_core.rs', 'kernels/source.rs')
    assembly = ('x86-64', 'x86-64-v3', 'x86-64-v4', 'aarch64')
    listed = {'README.md', *(f'src/{name}' for name in sources), *(f'asm/{name}.s' for name in assembly)}
    expected = re.compile(r'(src|tests)/[\w/]+\.rs$|asm/[\w.-]+\.s$|Cargo\.|LICENSE$|README\.md$')
    others = [name for name in files if not expected.match(name)]
    check(listed <= set(files) and not others, f'without {sorted(listed - set(files))}, with {others}')
    workspace.must(crate, 'test', '--lib', '--tests')
    return f'{len(files)} files, {os.path.getsize(file)} bytes'


def holds_proved_functions(workspace):
    """The object that rustc makes of the crate has each function of the assembly sources. It merges all constants."""
    workspace.must(workspace.rust, 'build', '--release')
    folder = os.path.join(workspace.path, 'objects')
    os.mkdir(folder)
    must(['ar', 'x', os.path.join(workspace.build_dir, 'libtwox_hash.rlib'), '--output', folder])
    parts = {}
    for name in os.listdir(folder):
        if name.endswith('.o'):
            parts.update(Object(os.path.join(folder, name)).parts())
    count = 0
    for name in SETS['rust', 'x86-64']:
        proved = Object(os.path.join(RUST, 'out', 'proved', f'{name}.o')).parts()
        for section in [section for section in proved if section.startswith('.text.')]:
            check(section in parts and parts[section][:2] == proved[section][:2], f'{section} is another')
            count += 1
    return f'{count} functions'


def example_agrees(workspace):
    folder = os.path.join(workspace.path, 'example')
    shutil.copytree(os.path.join(TOP, 'examples', 'rust'), folder, ignore=shutil.ignore_patterns('target'))
    replace_once(os.path.join(folder, 'Cargo.toml'), '../../rust', workspace.rust)
    program = workspace.build(folder, 'hash-file')
    preloaded = {**os.environ, 'LD_PRELOAD': short_reads(workspace.path)}
    for length in (0, 3, 200, 70000):
        path = write(os.path.join(workspace.path, 'file'), os.urandom(length))
        for reads, environment in (('whole', None), ('short', preloaded)):
            out = printed([program, path], b'', environment) + '\n'
            check(out == four_hashes(path), f'{reads} reads of {length} bytes')
    wrong: list[list[str]] = [[], [path, path]]
    for names in wrong:
        done = ran([program, *names])
        check(done.returncode == 1 and 'usage: hash-file FILE' in done.stdout, f'{len(names)} names: {done.stdout}')
    return 'the four hashes of xxhsum, of four files, also by short reads'


def check_programs(report, workspace):
    report.attempt('with neither a C compiler nor a linker', is_built_alone, workspace)
    report.attempt('a program by one line', program_runs, workspace)
    report.attempt('examples/rust', example_agrees, workspace)
    own = int(interface_number())
    for count, other in (('one interface', own), ('two interfaces', own + 1)):
        report.attempt(f'two versions of {count} in one program', two_versions_run, workspace, other)
    report.attempt('a shared library exports none of the names', no_name_leaves, workspace)
    report.attempt('the package', package_is_whole, workspace)


def check_musl(report, workspace):
    """cargo's tests, a program and the table with musl. The reference that the program `calls` is linked with is the
    library for C by musl: the table doesn't call it."""
    runner = workspace.runner.split()
    report.attempt(f"cargo's tests for {workspace.target}", tests_pass, workspace, '--release', '--lib', '--tests')
    report.attempt(f'a program for {workspace.target}', program_runs, workspace, None, runner)
    must(
        [
            'make',
            '-s',
            '-C',
            f'{TOP}/c',
            f'CC={workspace.linker}',
            f'out={workspace.path}/c',
            f'lib={workspace.libraries}',
        ]
    )
    program = workspace.build(os.path.join(workspace.rust, 'checks', 'calls'), 'calls')
    report.attempt(f"the oracle's table for {workspace.target}", table_agrees, program, runner)


def check_x86(report, chosen, path):
    workspace = Workspace(path)
    report.attempt('the functions in the crate as rustc makes it', holds_proved_functions, workspace)
    check_programs(report, workspace)
    check_cargo(report, workspace, FEATURES)
    check_saved(report, check_calls(report, workspace, chosen.quick, chosen.original))
    install_packages(SOURCE_PACKAGES)
    check_musl(report, SourceWorkspace(os.path.join(path, 'musl'), 'x86_64-unknown-linux-musl', 'musl-gcc'))


# ---- without rt ----


def check_without_rt(report, path):
    hide_rt(path)
    is_erased_up_to_date(report)
    report.attempt('declarations beside the exports', declarations_agree)
    copy = os.path.join(path, 'copy')
    clean_copy(copy)
    workspace = Workspace(path, os.path.join(copy, 'rust'))
    check_programs(report, workspace)
    report.attempt('a program by one line, from git', program_runs_by_git, workspace, copy)
    check_sums(report, os.path.join(copy, 'rust', 'asm'), SETS['rust', 'x86-64'])
    check_cargo(report, workspace, [''])
    program = workspace.build(os.path.join(workspace.rust, 'checks', 'calls'), 'calls')
    report.attempt("the oracle's table", table_agrees, program)
    report.attempt('calls', calls_agree, program, 100_000, 1)
    report.attempt('wrong assembly source', calls_notice, workspace, 'wrong')
    check_choice(report, workspace, program)
    check_source_alone(report, workspace, [], 100_000)


# ---- 64-bit ARM ----


def check_arm(report, chosen, path):
    install_packages(ARM_PACKAGES)
    workspace = ArmWorkspace(path)
    folder = os.path.join(workspace.rust, 'checks', 'calls')
    if chosen.original:
        workspace.add_original(folder, chosen.original)
    args = ['--features', 'original'] if chosen.original else []
    count = 20_000 if chosen.quick else 200_000
    report.attempt("cargo's tests", tests_pass, workspace, '--all-features', '--lib', '--tests')
    program = workspace.build(folder, 'calls', *args)
    report.attempt("the oracle's table", table_agrees, program, workspace.runner)
    report.attempt('calls', calls_agree, program, count, 1, workspace.runner)
    base = workspace.build(folder, 'calls@base', '--no-default-features', '--features', 'without-std')
    report.attempt('calls without std', calls_agree, base, count // 2, 3, workspace.runner)
    install_packages(SOURCE_PACKAGES)
    unwinder = arm_roots.debian_root(os.path.join(path, 'unwinder'), 'libunwind-14-dev')
    check_musl(
        report,
        SourceWorkspace(
            os.path.join(path, 'musl'), 'aarch64-unknown-linux-musl', arm_roots.musl_gcc(path), 'qemu-aarch64', unwinder
        ),
    )


# ---- targets without assembly source ----


def check_further(report, chosen, path):
    """The erased source, run by an emulator."""
    make_workspace, packages = FURTHER[chosen.target]
    install_packages({**SOURCE_PACKAGES, **packages})
    workspace, count = make_workspace(path), 5_000 if chosen.quick else 50_000
    runner = workspace.runner.split()
    report.attempt(f"cargo's tests for {workspace.target}", tests_pass, workspace, '--release', '--lib', '--tests')
    report.attempt(f'a program for {workspace.target}', program_runs, workspace, None, runner)
    program = workspace.build(os.path.join(workspace.rust, 'checks', 'calls'), 'calls')
    report.attempt("the oracle's table", table_agrees, program, runner)
    report.attempt("calls beside the reference's header", calls_agree, program, count, 1, runner)


def is_erased_up_to_date(report):
    report.attempt('the erased source is up to date', lambda: must([os.path.join(RUST, 'erase'), '--check']))


def check_all(report, chosen, path):
    """With rt: regenerates the assembly source first."""
    is_erased_up_to_date(report)
    if chosen.target == 'sums':
        return check_sums_of_targets(report, path)
    if chosen.target in FURTHER:
        return check_further(report, chosen, path)
    report.attempt('declarations beside the exports', declarations_agree)
    must([os.path.join(RUST, 'build-library'), '--target', chosen.target])
    check_texts(report, 'rust', chosen.target)
    (check_arm if chosen.target == 'aarch64' else check_x86)(report, chosen, path)


def main():
    parser = command.parser(__doc__)
    parser.add_argument(
        '--target',
        choices=('x86-64', 'aarch64', *FURTHER, 'sums'),
        default='x86-64',
        help='check the crate for another target',
    )
    parser.add_argument('--quick', action='store_true', help='make fewer calls')
    parser.add_argument('--original', metavar='FOLDER', help='compare with the crate twox-hash of this folder')
    parser.add_argument('--without-rt', action='store_true', help='only what needs no rt, with rt hidden')
    chosen, report = parser.parse_args(), Report()
    if chosen.original and not os.path.isfile(os.path.join(chosen.original, 'src', 'lib.rs')):
        parser.error(f'{chosen.original} has no src/lib.rs')
    install_packages()
    with tempfile.TemporaryDirectory() as path:
        try:
            check_without_rt(report, path) if chosen.without_rt else check_all(report, chosen, path)
        except (Fault, SystemExit) as fault:
            report.record('a program of the check was not built', ' '.join(str(fault).split()))
    sys.exit(report.end())
