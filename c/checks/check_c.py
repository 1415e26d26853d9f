"""Checks the library for C, which c/install builds in a folder of the check's own:

    c/check [--target aarch64] [--quick | --without-rt]
    c/check --source [--target i386 | s390x | armhf | arm64 | ppc64el | riscv64 | windows] [--quick]
    c/check --programs
    c/check --source-package
    c/check --debian 12 | 13

- its assembly source in c/asm, compared with the proved code (assembly/check);
- its names, compared with those of Debian's libxxhash0, and the file that the dynamic loader chooses;
- calls and streams, compared with that library, also under valgrind and with AddressSanitizer (c/checks/calls.c);
- states that programs allocate themselves (c/checks/own_states.c, own_states_3.c);
- Debian's programs on it: python3-xxhash, rsync, borgbackup, apt, gdb, lighttpd;
- the headers, and the examples in C, C++ and Python, by pkg-config, with -static and by CMake, and those in Go and Java
  if the machine has them;
- the programs xxh and xxhsum, and the launcher that runs the build for the processor;
- the Debian package of c/package: checked by lintian, installed, used and removed again;
- a wrong library, which each of these must detect.

With --without-rt it instead checks what is possible without a toolchain, from a clean copy with rt hidden: make by
several compilers, make check, install and uninstall, states that programs allocate themselves, the examples,
calls compared with Debian's library, and errors.

With --source it checks the code of c/include/xxhash.h instead (c/checks/source.py): names and warnings in all
combinations of its macros and orders of inclusion, by gcc, clang and tcc; values of each form beside the oracle's table
and the reference's header, also with sanitizers; programs of the installed library by pkg-config and CMake; xxHash's
own tests; and planted faults. With --target i386, s390x, .. it runs the code for that processor under an emulator, and
with windows that of MinGW under wine. It needs no rt.

With --programs it builds xxHash, lz4, zstd, rsync, btrfs-progs and Crypt::xxHash from Debian's sources, with
c/include/xxhash.h in the place of their copy, and runs their own tests (c/checks/copies.py).

With --source-package it builds Debian's packages of the library for four processors, by the commands of docs/C.md, in a
fresh root of Debian 12 (c/checks/source_package.py).

With --debian it creates a fresh root of that release, and runs its programs on the library that make builds, and on
Debian's: those of c/checks/programs.

With --target aarch64 it checks the library for 64-bit ARM, under qemu-aarch64: its names, calls and streams compared
with the reference's header compiled for that processor, the oracle's table, and Debian's python3-xxhash for arm64.

It runs on Debian as root, installs missing packages and temporarily that of c/package, and changes nothing else
outside its own folder. One line per check; the status is 1 if one failed. --quick makes a tenth of the calls."""
import os
import re
import shutil
import signal
import subprocess
import sys
import tempfile

from assembly.check import check_texts
from c.checks import (
    aarch64,
    clients,
    copies,
    headers,
    installed,
    launcher,
    on_debian,
    package,
    source,
    source_package,
    without_rt,
)
from c.checks.file_program import file_program_agrees
from c.checks.headers import EXAMPLE_C, by_cmake, cpp_by_cmake, package_path, static_by_pkg_config, versions_are_found
from c.checks.library import Built, sets_here
from c.checks.sides import THEIRS, Side, run
from c.checks.values import calls_agree, calls_notice, calls_program, freed_states_are_refused, names_are_theirs
from checks.lib import command
from checks.lib.report import Fault, Report, check, last_line
from checks.lib.tools import TOP, four_hashes, install_packages, must, short_reads, text_of, write

HIDDEN = 'glibc.cpu.hwcaps=-AVX2_Usable,-AVX2'
AVX512_HIDDEN = 'glibc.cpu.hwcaps=-AVX512F_Usable,-AVX512F'
EXAMPLE_PYTHON = os.path.join(TOP, 'examples', 'python', 'hash_file.py')
UNKNOWN_TO_VALGRIND = ('x86-64-v4',)
PACKAGES = {
    'gcc': 'gcc',
    '/usr/include/stdio.h': 'libc6-dev',
    'g++': 'g++',
    'nm': 'binutils',
    'objcopy': 'binutils',
    'make': 'make',
    'pkg-config': 'pkg-config',
    'valgrind': 'valgrind',
    'xxhsum': 'xxhash',
    'rsync': 'rsync',
    'borg': 'borgbackup',
    'gdb': 'gdb',
    'lighttpd': 'lighttpd',
    'curl': 'curl',
    'cmake': 'cmake',
    'clang': 'clang',
    'lintian': 'lintian',
    'qemu-x86_64': 'qemu-user',
    THEIRS: 'libxxhash0',
    '/usr/lib/x86_64-linux-gnu/libxxhash.a': 'libxxhash-dev',
    '/usr/lib/python3/dist-packages/xxhash/__init__.py': 'python3-xxhash',
    '/usr/lib/python3/dist-packages/pytest/__init__.py': 'python3-pytest',
}


def loads(side):
    """A program that needs libxxhash.so.0 loads this side's library."""
    run(side, [clients.PYTHON, '-c', 'import ctypes; ctypes.CDLL("libxxhash.so.0").XXH_versionNumber()'])
    return side.file


def has_v3():
    return 'x86-64-v3' in sets_here()


def check_calls(report, built, wrong, quick):
    program, guarded = calls_program(built, 'calls'), calls_program(built, 'calls-sanitized', '-fsanitize=address')
    valgrind = ['valgrind', '-q', '--error-exitcode=3', '--leak-check=full', program]
    count, limits, sets = 10000 if quick else 100000, [] if quick else ['--limits'], sets_here()
    for name in sets:
        more = limits if name == sets[-1] else []
        report.attempt(f'calls of {name}', calls_agree, [program], THEIRS, built.shared(name), count, *more)
        if name not in UNKNOWN_TO_VALGRIND:
            report.attempt(
                f'calls of {name} under valgrind', calls_agree, valgrind, THEIRS, built.shared(name), count // 100
            )
    report.attempt('states after freeState', freed_states_are_refused, [program], THEIRS, built.plain, 1000)
    report.attempt(
        'calls with AddressSanitizer on the C', calls_agree, [guarded], THEIRS, built.sanitized(), count // 10
    )
    report.attempt('calls of a wrong library differ', calls_notice, [program], THEIRS, wrong, count // 100)


NULL_UPDATE = '''import ctypes, resource
resource.setrlimit(resource.RLIMIT_CORE, (0, 0))
library = ctypes.CDLL('libxxhash.so.0')
create, update = library.{0}_createState, library.{1}_update
create.restype, update.argtypes = ctypes.c_void_p, (ctypes.c_void_p, ctypes.c_void_p, ctypes.c_size_t)
print(update(create(), None, {2}), flush=True)'''


def null_updates(side, ends):
    """An update of null with no bytes returns XXH_OK on both sides. With bytes it crashes the program on ours."""
    for state, call in (('XXH32', 'XXH32'), ('XXH64', 'XXH64'), ('XXH3', 'XXH3_64bits'), ('XXH3', 'XXH3_128bits')):
        for length in (0, 1, 100, 100000):
            done = run(side, [clients.PYTHON, '-c', NULL_UPDATE.format(state, call, length)])
            if ends and length:
                check(done.status == -signal.SIGSEGV, f'{call}_update of {length} bytes: status {done.status}')
            else:
                check((done.status, done.out) == (0, '0\n'), f'{call}_update of {length} bytes: {last_line(done.out)}')


# ---- Examples ----


def example_c(built):
    folder = os.path.join(built.workdir, 'example-c')
    shutil.copytree(os.path.join(TOP, 'examples', 'c'), folder)
    must(['make', '-s', '-C', folder], env=package_path(built))
    return [os.path.join(folder, 'hash-file')]


def example_cpp(built):
    """The example in C as C++, which the header must support."""
    path = os.path.join(built.workdir, 'hash-file-cpp')
    flags = must(['pkg-config', '--cflags', '--libs', 'libxxhash'], env=package_path(built)).split()
    must(['g++', '-x', 'c++', '-Wall', '-Wextra', '-Wno-missing-field-initializers', EXAMPLE_C, *flags, '-o', path])
    return [path]


def example_go(built):
    """The example in Go, if the machine has it."""
    path = os.path.join(built.workdir, 'hash-file-go')
    environment = {
        **package_path(built),
        'GOCACHE': os.path.join(built.workdir, 'go-cache'),
        'GOFLAGS': '-buildvcs=false',
    }
    must(['go', 'build', '-o', path, '.'], cwd=os.path.join(TOP, 'examples', 'go'), env=environment)
    return [path]


def example_java(built):
    """The example in Java, if the machine has one with the foreign-function interface."""
    preview = ['--enable-preview', '--source', '21'] if java_version() == 21 else []
    source = os.path.join(TOP, 'examples', 'java', 'HashFile.java')
    return ['java', *preview, '--enable-native-access=ALL-UNNAMED', source, built.libraries()[1][-1]]


def java_version():
    """The number of the machine's Java, or 0."""
    version = shutil.which('javac') and re.search(r'version "(\d+)', must(['java', '-version']))
    return int(version[1]) if version else 0


def example_agrees(side, args, dynamic=True):
    """The example's lines for files of several lengths, with our library, however many bytes a read returns."""
    with tempfile.TemporaryDirectory() as folder:
        path, preloaded = os.path.join(folder, 'file'), {'LD_PRELOAD': short_reads(folder)}
        for length in (0, 3, 200, 70000, 1000000):
            write(path, os.urandom(length))
            hashes = four_hashes(path)
            for reads, done in (
                ('whole', run(side, [*args, path], expect_loaded=dynamic)),
                ('short', run(side, [*args, path], expect_loaded=dynamic, **preloaded)),
                ('piped', run_on_pipe(side, args, path, dynamic)),
            ):
                check(
                    done.status == 0 and done.out == hashes, f'{reads} reads of {length} bytes: {last_line(done.out)}'
                )
    return 'the four hashes of xxhsum, of five files, also by short reads'


def run_on_pipe(side, args, path, dynamic):
    """Runs an example on a named pipe, into which a file is written in chunks of 1000 bytes."""
    pipe = path + '-pipe'
    os.mkfifo(pipe)
    with subprocess.Popen(['dd', 'bs=1000', f'if={path}', f'of={pipe}', 'status=none']) as writer:
        try:
            return run(side, [*args, pipe], expect_loaded=dynamic)
        finally:
            writer.kill()
            os.remove(pipe)


def single_read_is_noticed(built, ours):
    """An example that expects all bytes from one read passes on whole reads, and fails on short ones."""
    source = text_of(EXAMPLE_PYTHON)
    once = source.replace(
        "'rb') as file:\n        while chunk := file.read(CHUNK_BYTES)",
        "'rb', 0) as file:\n        if chunk := file.read(1 << 30)",
    )
    check(once != source, 'the example reads in another way')
    path = write(os.path.join(built.workdir, 'reads-once.py'), once)
    try:
        example_agrees(ours, [clients.PYTHON, '-B', path, 'libxxhash.so.0'])
    except Fault as fault:
        check(str(fault).startswith('short reads of 70000 bytes'), f'another failure: {fault}')
        return str(fault)
    raise Fault('it passes')


def program_agrees(built):
    """The installed program xxh against xxhsum, and its manual page."""
    program = os.path.join(built.prefix, 'bin', 'xxh')
    file = os.path.join(TOP, 'LICENSE')
    algorithms = ('32', '64', '3-64', '3-128')
    lines = ''.join(
        f'{algorithm} ' + must([program, 'hash', algorithm], stdin=open(file, 'rb')) for algorithm in algorithms
    )
    check(lines == four_hashes(file), 'the hashes differ')
    check(os.path.isfile(os.path.join(built.prefix, 'share/man/man1/xxh.1')), 'there is no manual page')
    return 'the four hashes of xxhsum'


def check_library_examples(report, built, ours):
    report.attempt('examples/c', lambda: example_agrees(ours, example_c(built)))
    report.attempt('examples/c as C++', lambda: example_agrees(ours, example_cpp(built)))
    report.attempt(
        'examples/c with -static by pkg-config',
        lambda: example_agrees(ours, static_by_pkg_config(built), dynamic=False),
    )
    report.attempt('examples/cmake', lambda: example_agrees(ours, by_cmake(built)[0]))
    report.attempt(
        'examples/cmake with the static library', lambda: example_agrees(ours, by_cmake(built)[1], dynamic=False)
    )
    report.attempt('examples/cpp', lambda: example_agrees(ours, cpp_by_cmake(built)))
    report.attempt('requests for versions by CMake', versions_are_found, built)
    report.attempt('examples/python', example_agrees, ours, [clients.PYTHON, '-B', EXAMPLE_PYTHON, 'libxxhash.so.0'])
    report.attempt('an example that reads once', single_read_is_noticed, built, ours)


def check_examples(report, built, ours):
    check_library_examples(report, built, ours)
    if shutil.which('go'):
        report.attempt('examples/go', lambda: example_agrees(ours, example_go(built)))
    if java_version() >= 21:
        report.attempt('examples/java', lambda: example_agrees(ours, example_java(built)))
    report.attempt('xxh, installed', program_agrees, built)
    report.attempt('xxhsum, installed', file_program_agrees, built.prefix)
    report.attempt('the launcher of two builds', launcher.launches, built.workdir, has_v3(), 'gcc')


def check_all(report, quick):
    install_packages(PACKAGES)
    with tempfile.TemporaryDirectory() as workdir:
        built = Built(workdir)
        check_texts(report, 'c', 'x86-64')
        wrong, stopping = built.wrong('wrong'), built.wrong('stopping', '-DSTOPS')
        theirs = Side('theirs', None, THEIRS)
        every, here = built.libraries()
        ours = Side('ours', built.folder, here[-1])
        hidden = Side('ours with AVX2 hidden', built.folder, built.plain, HIDDEN)
        narrow = Side('ours with AVX-512 hidden', built.folder, here[:2][-1], AVX512_HIDDEN)
        for path in every:
            report.attempt(f'names of {os.path.relpath(path, built.folder)}', names_are_theirs, path, THEIRS)
        for side in (theirs, ours, hidden, narrow):
            report.attempt(f'the loader takes {side.name}', loads, side)
        check_calls(report, built, wrong, quick)
        report.attempt('null updates on theirs are passed over', null_updates, theirs, False)
        report.attempt('null updates on ours end the program', null_updates, ours, True)
        headers.check_all(report, built)
        installed.check_all(report, built, here)
        sides = clients.Sides(
            theirs,
            ours,
            Side('wrong', os.path.dirname(wrong), wrong),
            Side('stopping', os.path.dirname(stopping), stopping),
        )
        clients.check_all(report, sides)
        report.attempt('python3-xxhash with AVX2 hidden', clients.python_hashes, sides._replace(ours=hidden))
        check_examples(report, built, ours)
        package.check_all(report, workdir, sides, has_v3())


def main():
    parser = command.parser(__doc__)
    parser.add_argument(
        '--target',
        choices=('x86-64', 'aarch64', *source.TARGETS),
        default='x86-64',
        help='check the library or the source for another processor, under qemu',
    )
    parser.add_argument('--quick', action='store_true', help='make fewer calls')
    parser.add_argument('--without-rt', action='store_true', help='only what needs no rt, with rt hidden')
    parser.add_argument(
        '--source', action='store_true', help='the C source and the header in place of the assembly source'
    )
    parser.add_argument(
        '--programs', action='store_true', help='also build and test programs of Debian from their sources'
    )
    parser.add_argument(
        '--source-package', action='store_true', help="build Debian's packages in a fresh root of Debian 12"
    )
    parser.add_argument('--debian', choices=on_debian.RELEASES, help='test on a fresh system of this release of Debian')
    chosen, report = parser.parse_args(), Report()
    if chosen.target in source.TARGETS and not chosen.source:
        parser.error(f'--target {chosen.target} needs --source')
    if chosen.source:
        source.check_all(report, chosen.target, 200 if chosen.quick else 2000)
    elif chosen.programs:
        copies.check_all(report)
    elif chosen.source_package:
        source_package.check_all(report)
    elif chosen.debian:
        on_debian.check_all(report, chosen.debian)
    elif chosen.without_rt:
        without_rt.check_all(report, chosen.target, has_v3(), check_library_examples)
    else:
        (aarch64.check_all if chosen.target == 'aarch64' else check_all)(report, chosen.quick)
    sys.exit(report.end())
