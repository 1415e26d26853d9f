"""One sum of hashes, by programs for targets of each width and byte order, under qemu and in Node. The crate is
compiled over Rust's core library, which is built from Debian's sources, and linked with a line of C. The expected
sum is that of the same calls by the reference's header."""
import os

from checks.lib.report import Report, check, last_line
from checks.lib.tools import ran, text_of, write
from rust.checks.workspace import SOURCE_PACKAGES, SourceWorkspace, errors_of, install_packages, must

SUMS = os.path.join(os.path.dirname(os.path.abspath(__file__)), 'sums')
# Target -> the name of Debian's compiler and of its C library for that processor, and the emulator. Node runs wasm32.
TARGETS = {
    'x86_64-unknown-linux-gnu': ('', '', ''),
    # The code needs no system. Here a program of Linux calls it.
    'x86_64-unknown-none': ('', '', ''),
    'x86_64-fortanix-unknown-sgx': ('', '', ''),
    'aarch64-unknown-linux-gnu': ('aarch64-linux-gnu', 'arm64', 'qemu-aarch64'),
    'i686-unknown-linux-gnu': ('i686-linux-gnu', 'i386', 'qemu-i386'),
    'armv7-unknown-linux-gnueabihf': ('arm-linux-gnueabihf', 'armhf', 'qemu-arm'),
    'powerpc-unknown-linux-gnu': ('powerpc-linux-gnu', 'powerpc', 'qemu-ppc'),
    's390x-unknown-linux-gnu': ('s390x-linux-gnu', 's390x', 'qemu-s390x'),
    'riscv64gc-unknown-linux-gnu': ('riscv64-linux-gnu', 'riscv64', 'qemu-riscv64'),
    'wasm32-unknown-unknown': None,
}


def packages():
    found = {**SOURCE_PACKAGES, 'gcc': 'gcc', 'node': 'nodejs', 'wasm-ld': 'lld', 'qemu-arm': 'qemu-user'}
    for name, library, _ in filter(None, TARGETS.values()):
        if name:
            found.update({f'{name}-gcc': f'gcc-{name}', f'/usr/{name}/include/stdio.h': f'libc6-dev-{library}-cross'})
    return found


def sum_of(workspace, target, flags=''):
    """The output of the program for a target."""
    flags += '' if TARGETS[target] else ' -C linker=wasm-ld'
    environment = {**workspace.environment(), 'RUSTFLAGS': flags, 'RUSTC_BOOTSTRAP': '1', 'RUSTC': '/usr/bin/rustc'}
    folder = os.path.join(workspace.rust, 'checks', 'sums')
    crate_type = 'staticlib' if TARGETS[target] else 'cdylib'
    command = [
        workspace.cargo_program,
        *'rustc --release -Z build-std=core --target'.split(),
        target,
        '--crate-type',
        crate_type,
    ]
    done = ran(command, cwd=folder, env=environment)
    check(done.returncode == 0, last_line(errors_of(done.stdout)))
    build_dir = os.path.join(workspace.path, 'target', target, 'release')
    compilers = TARGETS[target]
    if not compilers:
        return must(['node', os.path.join(SUMS, 'main.mjs'), os.path.join(build_dir, 'sums.wasm')]).strip()
    (name, _, emulator), program = compilers, os.path.join(build_dir, 'sum')
    must(
        [
            f'{name}-gcc' if name else 'gcc',
            '-O1',
            '-static',
            os.path.join(SUMS, 'main.c'),
            os.path.join(build_dir, 'libsums.a'),
            '-o',
            program,
        ]
    )
    return must([*([emulator] if emulator else []), program]).strip()


def has_no_cpuid(workspace):
    """SGX forbids the instruction, which the program for Linux has if it compiles the erased source."""
    found = {}
    for target in ('x86_64-fortanix-unknown-sgx', 'x86_64-unknown-linux-gnu'):
        sum_of(workspace, target, '--cfg twox_hash_no_assembly')
        code = must(['objdump', '-d', os.path.join(workspace.path, 'target', target, 'release', 'libsums.a')])
        found[target] = code.count('\tcpuid')
    check(list(map(bool, found.values())) == [False, True], f'{found}')


def is_the_sum(workspace, target, expected, flags=''):
    found = sum_of(workspace, target, flags)
    check(found == expected, f'{found}, not {expected}')
    return found


def check_sums_of_targets(report: Report, path: str) -> None:
    install_packages(packages())
    must(['gcc', '-O2', os.path.join(SUMS, 'reference.c'), '-o', os.path.join(path, 'reference')])
    expected, workspace = must([os.path.join(path, 'reference')]).strip(), SourceWorkspace(path, 'sums')
    for target in TARGETS:
        report.attempt(f'18,802 hashes for {target}', is_the_sum, workspace, target, expected)
    for target in ('x86_64-unknown-linux-gnu', 'aarch64-unknown-linux-gnu'):
        report.attempt(
            '.. by the erased source', is_the_sum, workspace, target, expected, '--cfg twox_hash_no_assembly'
        )
    report.attempt('no cpuid in SGX', has_no_cpuid, workspace)
    report.attempt('another sum is noticed', notices_another, workspace, expected)


def notices_another(workspace, expected):
    """The crate with one wrong rotation."""
    file = os.path.join(workspace.rust, 'src', 'erased', 'twox_plain', 'xxhash32', 'rounds.rs')
    write(file, text_of(file).replace('rotate_left(13)', 'rotate_left(14)'))
    check(sum_of(workspace, 's390x-unknown-linux-gnu') != expected, 'it was not noticed')
