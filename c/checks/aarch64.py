"""Checks the library for C of 64-bit ARM on a machine of another processor, under qemu-aarch64."""
import functools
import os
import tempfile
from typing import Sequence

from assembly.check import check_texts
from c.checks import clients, headers, installed, package, values
from c.checks.library import Built, C
from c.checks.sides import EmulatedSide, run
from checks.lib.arm_roots import TOOLS, debian_root
from checks.lib.report import Report, check
from checks.lib.tools import TOP, install_packages, must, replace_once, text_of, write

HEADER = '/usr/include/xxhash.h'
PACKAGES = {
    TOOLS + 'gcc': 'gcc-aarch64-linux-gnu',
    TOOLS + 'objcopy': 'binutils-aarch64-linux-gnu',
    '/usr/aarch64-linux-gnu/include/stdio.h': 'libc6-dev-arm64-cross',
    'nm': 'binutils',
    'qemu-aarch64': 'qemu-user',
    HEADER: 'libxxhash-dev',
}
# Debian's library in the folder of its packages.
THEIRS = '/usr/lib/aarch64-linux-gnu/libxxhash.so.0'
# A constant of the reference, and a wrong one.
RIGHT, WRONG = '#define XXH_PRIME32_1  0x9E3779B1U', '#define XXH_PRIME32_1  0x9E3779B3U'


def reference(built: Built, name: str, change: Sequence[str] = (), flags: Sequence[str] = ('-O2',)) -> str:
    """Builds only the reference's header as a shared library, with one change."""
    folder = os.path.join(built.workdir, name)
    header, path = write(os.path.join(folder, 'xxhash.h'), text_of(HEADER)), os.path.join(folder, 'reference.so')
    if change:
        replace_once(header, *change)
    source = write(
        os.path.join(folder, 'reference.c'),
        '#define XXH_STATIC_LINKING_ONLY\n#define XXH_IMPLEMENTATION\n' '#include "xxhash.h"\n',
    )
    built.tool('gcc', *flags, '-shared', '-fPIC', '-Wl,-Bsymbolic-functions', source, '-o', path)
    return path


def wrong_reference_differs(built, qemu, program, count):
    """Each hash of a reference with a wrong constant is different."""
    wrong = reference(built, 'wrong-reference', (RIGHT, WRONG))
    return values.calls_notice([*qemu, program], wrong, built.plain, count)


def table_agrees(built, qemu):
    """The oracle's table, with our static library."""
    program = built.program('table', os.path.join(TOP, 'oracle', 'vectors.c'), built.archive, '-static')
    return values.table_agrees([*qemu, program])


def loads(side):
    run(side, [clients.PYTHON, '-c', 'import xxhash; print(xxhash.xxh3_128_hexdigest(b""))'])
    return side.file


def package_serves(built, sides, root):
    """Debian's python3-xxhash loads the library of the package for arm64, if the environment requests it."""
    folder = os.path.join(built.workdir, 'package')
    os.mkdir(folder)
    must([os.path.join(C, 'package'), '--target', 'aarch64', folder])
    (file,) = os.listdir(folder)
    file = os.path.join(folder, file)
    check(must(['dpkg-deb', '-f', file, 'Architecture']) == 'arm64\n', 'it is for another processor')
    must(['dpkg-deb', '-x', file, root])
    ours = EmulatedSide('the package', package.FOLDER, os.path.join(package.FOLDER, 'libxxhash.so.0'), root)
    return clients.python_hashes(sides._replace(ours=ours))


def check_calls(report, built, program, qemu, theirs, count):
    """Calls of the program under qemu, beside the reference's header and Debian's library."""
    run = [*qemu, program]
    header = reference(built, 'reference')
    report.attempt("calls beside the reference's header", values.calls_agree, run, header, built.plain, count)
    report.attempt("calls beside Debian's library", values.calls_agree, run, theirs, built.plain, count // 10)
    report.attempt('states after freeState', values.freed_states_are_refused, run, theirs, built.plain, 1000)
    wrong = 'calls of a reference with a wrong constant differ'
    report.attempt(wrong, wrong_reference_differs, built, qemu, program, count // 100)


def check_programs(report, built, root):
    """Debian's programs under qemu, on our library and on wrong ones."""
    wrong, stopping = built.wrong('wrong'), built.wrong('stopping', '-DSTOPS')
    sides = clients.Sides(
        EmulatedSide('theirs', None, THEIRS, root),
        EmulatedSide('ours', built.folder, built.plain, root),
        EmulatedSide('wrong', os.path.dirname(wrong), wrong, root),
        EmulatedSide('stopping', os.path.dirname(stopping), stopping, root),
    )
    for side in (sides.theirs, sides.ours):
        report.attempt(f'the loader takes {side.name}', loads, side)
    report.attempt("Debian's python3-xxhash", clients.python_hashes, sides)
    report.attempt("Debian's python3-xxhash on the Debian package", package_serves, built, sides, root)


def check_all(report: Report, quick: bool) -> None:
    install_packages(PACKAGES)
    with tempfile.TemporaryDirectory() as workdir:
        built = Built(workdir, 'aarch64', TOOLS)
        check_texts(report, 'c', 'aarch64')
        root = debian_root(os.path.join(workdir, 'debian'), 'libc6', 'python3-xxhash')
        qemu, count, theirs = ['qemu-aarch64', '-L', root], 10000 if quick else 100000, root + THEIRS
        program = values.calls_program(built, 'calls')
        report.attempt('names', values.names_are_theirs, built.plain, theirs)
        check_calls(report, built, program, qemu, theirs, count)
        for name, folder in (('theirs', installed.their_header(workdir)), ('ours', built.include)):
            title, gcc = f'states of a program by the header of {name}', TOOLS + 'gcc'
            report.attempt(title, installed.own_states_agree, built, theirs, [built.plain], gcc, folder, qemu)
        report.attempt("the oracle's table, with the static library", table_agrees, built, qemu)
        refused = functools.partial(headers.dispatch_header_is_refused, built, word='include xxhash.h')
        report.attempt('xxh_x86dispatch.h is refused', refused)
        check_programs(report, built, root)
