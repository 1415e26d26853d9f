"""Checks the programs that cargo builds of rust/programs:

    rust/programs/check [--of-ci] [--runs N] [--seed N] [XXH XXHSUM]
    rust/programs/check --target aarch64 | windows

- cargo's tests, and a build from a copy with rt hidden, without a registry of crates;
- the tables of both programs, checks/program and checks/xxhsum --stored, with and without assembly source, and if they
  are there checks/failing_calls and checks/xxhsum-many;
- cargo's tests and checks/failing_calls for the programs that list directories by Rust's library, as on systems other
  than Linux;
- their allocations, refused at each call, and small limits of memory;
- random runs and random texts of JSON, compared with the programs that rt built: XXH and XXHSUM, with --of-ci those
  that `rt ci` has just built. Without either this part is skipped, and the output states that.

With --target aarch64 the tables are run on the programs for 64-bit ARM, by qemu; with windows some commands by wine.

A panic, or an end by a signal, fails each of these. --runs is the number of random runs, by default 1,500, and --seed
that of their choice. It needs cargo and gcc, runs on Debian as root, installs missing packages, and uses no registry.
One line per check; the last is "N passed, M failed"."""
import os
import re
import sys
import tempfile

from checks.lib import command
from checks.lib.report import Fault, Report, check, last_line
from checks.lib.tools import TOP, clean_copy, hide_rt, install_packages, ran
from rust.checks.workspace import DEBIANS_RUST, Workspace, errors_of
from rust.programs.checks import random_runs, refused, targets

PACKAGES = {'gcc': 'gcc', '/usr/include/stdio.h': 'libc6-dev', 'xxhsum': 'xxhash'}
PROGRAMS = ('xxh', 'xxhsum')
NO_ASSEMBLY = '--cfg twox_hash_no_assembly'
# Directories are listed by Rust's library, as on systems other than Linux.
READ_DIR = '--cfg twox_programs_read_dir'


def built(workspace, flags=''):
    """Both programs, by name."""
    folder, environment = os.path.join(workspace.rust, 'programs'), workspace.environment(flags=flags)
    ending = '@' + flags.split('_', 1)[1] if flags else ''
    return {name: workspace.build(folder, name + ending, environment=environment) for name in PROGRAMS}


def tests_pass(workspace, flags=''):
    done = workspace.cargo(
        os.path.join(workspace.rust, 'programs'), 'test', environment=workspace.environment(flags=flags)
    )
    passed = sum(map(int, re.findall(r'(\d+) passed', done.stdout)))
    check(done.returncode == 0 and passed, last_line(errors_of(done.stdout)))
    return f'{passed} tests'


def table(report, *args):
    """A check of the repository, whose counts are added."""
    done = ran(args)
    counts = re.fullmatch(r'(\d+) passed, (\d+) failed', last_line(done.stdout))
    if not counts or 'panicked' in done.stdout or done.returncode:
        print(done.stdout)
    check(counts and done.returncode == 0 and 'panicked' not in done.stdout, last_line(done.stdout))
    report.count(int(counts[1]), 0)
    return counts[0]


def check_tables(report, workspace, programs):
    at_top = lambda *names: os.path.join(TOP, 'checks', *names)
    report.attempt("xxh's table", table, report, at_top('program'), programs['xxh'])
    report.attempt("xxhsum's table", table, report, at_top('xxhsum'), '--stored', programs['xxhsum'])
    for name, args in (
        ('failing_calls', (programs['xxhsum'], programs['xxh'])),
        ('xxhsum-many', (programs['xxhsum'],)),
    ):
        if os.path.exists(at_top(name)):
            report.attempt(f'checks/{name}', table, report, at_top(name), *args)
    bare = built(workspace, NO_ASSEMBLY)
    report.attempt("xxh's table, without assembly source", table, report, at_top('program'), bare['xxh'])
    report.attempt(
        "xxhsum's table, without assembly source", table, report, at_top('xxhsum'), '--stored', bare['xxhsum']
    )


def check_read_dir(report, workspace):
    """The programs that list directories by Rust's library."""
    programs, failing_calls = built(workspace, READ_DIR), os.path.join(TOP, 'checks', 'failing_calls')
    report.attempt("cargo's tests, directories by Rust's library", tests_pass, workspace, READ_DIR)
    if os.path.exists(failing_calls):
        report.attempt(
            "checks/failing_calls, directories by Rust's library",
            table,
            report,
            failing_calls,
            '--readdir',
            programs['xxhsum'],
            programs['xxh'],
        )


def is_noticed(call, *args):
    """A comparison has to differ. One that crashes is an error of the check."""
    try:
        call(*args)
    except Fault:
        return
    check(False, 'it was not noticed')


def check_random(report, programs, proved, chosen, path):
    for number, (name, call) in enumerate(
        (('drawn runs', random_runs.compare_runs), ('drawn texts of JSON', random_runs.compare_json))
    ):
        folders = [os.path.join(path, f'drawn-{number}-{side}') for side in ('right', 'wrong')]
        for folder in folders:
            os.mkdir(folder)
        report.attempt(
            f'{chosen.runs} {name} beside the proved programs',
            call,
            programs,
            proved,
            chosen.runs,
            chosen.seed,
            folders[0],
        )
        wrong = {'xxh': programs['xxhsum'], 'xxhsum': programs['xxh']}
        report.attempt(f'{name} notice another program', is_noticed, call, wrong, proved, 10, chosen.seed, folders[1])


def proved_programs(chosen):
    if chosen.of_ci:
        return {name: os.path.join(TOP, 'crates', name, 'out', name) for name in PROGRAMS}
    return dict(zip(PROGRAMS, map(os.path.abspath, chosen.proved)))


def check_here(report, chosen, path):
    hide_rt(path)
    copy = os.path.join(path, 'copy')
    clean_copy(copy)
    workspace, proved = Workspace(path, os.path.join(copy, 'rust')), proved_programs(chosen)
    programs = built(workspace)
    report.attempt("cargo's tests", tests_pass, workspace)
    check_tables(report, workspace, programs)
    check_read_dir(report, workspace)
    refused.check_all(report, programs, path)
    if proved:
        check_random(report, programs, proved, chosen, path)
    else:
        print('left out  drawn runs: no proved programs were named')


def main():
    parser = command.parser(__doc__)
    parser.add_argument(
        '--of-ci', action='store_true', help='compare with the programs that rt ci has proved in this tree'
    )
    parser.add_argument('--runs', metavar='N', type=int, default=1500, help='random runs')
    parser.add_argument('--seed', metavar='N', type=int, default=1, help='the seed of random runs')
    parser.add_argument('--target', choices=targets.TARGETS, help='check the programs for another target')
    parser.add_argument('proved', nargs='*', metavar='PROGRAM', help='the proved programs xxh and xxhsum')
    chosen, report = parser.parse_args(), Report()
    if len(chosen.proved) not in (0, 2):
        parser.error('xxh and xxhsum, or neither')
    install_packages({**PACKAGES, **DEBIANS_RUST})
    with tempfile.TemporaryDirectory(prefix='twox-programs-') as path:
        test = targets.TARGETS.get(chosen.target)
        test(report, path, built) if test else check_here(report, chosen, path)
    sys.exit(report.end())
