"""Checks the Python package, built in a folder of the check's own, with rt hidden:

    python/check [--target aarch64 | i386 | s390x] [--xxh PROGRAM] [--python PYTHON].. [--quick]

- the packages: built without rt and without a network, also from the source package, installed on a machine without a
  compiler; the exported names of the extension; its proved code, compared with the sums of the proved object; the
  instruction set that it uses;
- the package's own tests (python/tests) compared with Debian's python3-xxhash, over each instruction set, under
  valgrind, with a debug build of Python, compiled by clang, with the limited interface, and over the code of xxhash.h,
  which replaces the assembly source on other processors;
- its C under AddressSanitizer and UndefinedBehaviorSanitizer, called with hostile shapes, strides and buffers;
- the types, by mypy --strict;
- programs of Debian that import xxhash, with this package in its place: dask and dupeGuru;
- wrong builds, each of which the tests must detect.

With --target the package for 64-bit ARM, i386 or s390x, and its tests under qemu. --xxh passes saved states to the
program `xxh` and back. --python runs the tests in another CPython from 3.9 on. --quick omits the tests that take
minutes.

It runs on Debian as root, installs missing packages, needs no rt, and changes nothing else outside its own folder.
One line per check; the status is 1 if one failed."""
import sys
import tempfile

from checks.lib import command
from checks.lib.report import Fault, Report
from checks.lib.tools import install_packages
from python.checks import builds, environment, planted, programs, sanitized, suite, targets, typed

PACKAGES = {
    **environment.PACKAGES,
    '/usr/bin/clang': 'clang',
    '/usr/bin/valgrind': 'valgrind',
    environment.DEBUG: 'python3-dbg',
    '/usr/bin/mypy': 'mypy',
    '/usr/bin/qemu-x86_64': 'qemu-user',
    **{
        f'{environment.DEBIANS}/{module}/__init__.py': f'python3-{module.replace("_", "-")}'
        for module in ('pytest', 'numpy', 'dask', 'mutagen', 'send2trash', 'semantic_version')
    },
}


def sets():
    """The instruction sets that the machine has."""
    done = environment.run(['/lib64/ld-linux-x86-64.so.2', '--help'])
    return [name for name in builds.backend.SETS['x86_64'] if f'{name} (supported' in done.stdout]


def check_tests(report, built, chosen):
    for instructions in sets():
        report.attempt(f'the tests over {instructions}', suite.of_set, built, instructions)
    report.attempt('the tests over a debug build of Python', suite.of_debug_build, built)
    report.attempt('the tests of values over what clang compiles', suite.of_clang, built)
    report.attempt('the tests over the limited interface', suite.of_limited_interface, built, chosen.python)
    report.attempt('the tests over the code of xxhash.h', suite.of_source, built)
    if not chosen.quick:
        report.attempt('the tests under valgrind', suite.under_valgrind, built)
        report.attempt('the tests of leaks under valgrind', suite.leaks_under_valgrind, built)
    for python in chosen.python:
        report.attempt(f'the tests in {python}', suite.of_another_python, built, python)
    if chosen.xxh:
        report.attempt(f'states to {chosen.xxh} and back', suite.with_xxh, built, chosen.xxh)


def check_all(report, chosen, folder):
    install_packages(PACKAGES)
    built = environment.Built(folder)
    builds.check_all(report, built)
    check_tests(report, built, chosen)
    sanitized.check_all(report, folder)
    typed.check_all(report, built)
    programs.check_all(report, built)
    if not chosen.quick:
        planted.check_all(report, folder, sets())


def check_target(report, name, folder):
    install_packages({**environment.PACKAGES, **targets.packages(targets.TARGETS[name])})
    targets.check_all(report, name, folder)


def main():
    parser = command.parser(__doc__)
    parser.add_argument(
        '--target',
        choices=('x86-64', *targets.TARGETS),
        default='x86-64',
        help='check the package for another processor, under qemu',
    )
    parser.add_argument('--xxh', metavar='PROGRAM', help='pass saved states to this program and back')
    parser.add_argument(
        '--python', metavar='PYTHON', action='append', default=[], help='also run the tests in this CPython'
    )
    parser.add_argument('--quick', action='store_true', help='omit the tests that take longest')
    chosen, report = parser.parse_args(), Report()
    with tempfile.TemporaryDirectory(prefix='twox-python-') as folder:
        try:
            if chosen.target in targets.TARGETS:
                check_target(report, chosen.target, folder)
            else:
                check_all(report, chosen, folder)
        except Fault as fault:
            report.record('the build', str(fault))
    sys.exit(report.end())
