"""Checks a release, and tests it on machines without a toolchain:

    release/check [--gate LOG] [--made FOLDER] [--only WORD]

- release/make twice, in two working folders and two output folders: equal bytes;
- the sums, the provenance in each archive, that a changed byte is detected, and that release/make deletes no foreign
  file;
- release/make --without-rt makes the same on a fresh machine;
- on fresh machines of Debian 12 and 13 (debootstrap), with only the packages that a page lists: every archive is
  installed by the commands of docs/RELEASES.md, used and removed again, and the commands of all other pages are run as
  they are printed, and their output is compared;
- programs of both releases run with the library for C, and with Debian's (c/checks/on_debian.py);
- the assembly source of every target, regenerated from the proved code, equals the committed one, and each mutant is
  refused again;
- the library, the Debian package and the wheel for 64-bit ARM, under qemu-aarch64.

--gate is an option of release/make. --made uses a folder that release/make has written, and makes none. --only runs the
trials whose names contain the word. It runs on Debian as root, installs missing packages, and changes nothing else
outside a folder of its own. It needs some 8 GB there. One line per check; the last is "N passed, M failed", and the
status is 1 if one failed."""
import concurrent.futures
import functools
import os
import signal
import subprocess
import sys
import tempfile

from c.checks import on_debian
from checks.docs import printed
from checks.lib import command
from checks.lib.report import Fault, Report
from checks.lib.roots import new_base, new_root
from checks.lib.tools import install_packages
from release.parts import on_arm, outputs
from release.parts.trials import BOTH, TRIALS, headings_without_trial, installation

PACKAGES = {
    '/usr/sbin/debootstrap': 'debootstrap',
    'xxhsum': 'xxhash',
    'objdump': 'binutils',
    'git': 'git',
    'qemu-x86_64': 'qemu-user',
}
AT_A_TIME = 3
TEXTS, WRONG_BODIES = 'the assembly sources of all targets, regenerated', 'the mutants, each tried again'


def tried(trial, suite, base, workdir, folder, stem):
    """A trial on a machine of its own: its note, or the error."""
    path = tempfile.mkdtemp(prefix=f'{suite}-', dir=workdir)
    os.rmdir(path)
    try:
        with new_root(base, path, suite, folder, stem) as root:
            if trial.heading:
                section = printed.section_of(printed.RELEASES, trial.heading, suite)
                root.must(installation(sorted(section.packages)) or 'true')
            return trial.check(root), None
    except (Fault, OSError, SystemExit, subprocess.TimeoutExpired) as fault:
        return '', str(fault) or type(fault).__name__


def base_of(workdir, suite):
    """The root of a release, created if there is none yet."""
    path = os.path.join(workdir, suite)
    return path if os.path.exists(path) else new_base(suite, path)


def check_trials(report, workdir, folder, stem, word):
    expected = [(trial, suite) for trial in TRIALS for suite in trial.suites if word in f'{suite}: {trial.name}']
    suites = [suite for suite in BOTH if any(suite == other for _, other in expected)]
    with concurrent.futures.ThreadPoolExecutor(AT_A_TIME) as pool:
        bases = dict(zip(suites, pool.map(functools.partial(base_of, workdir), suites)))
        jobs = [
            (trial, suite, pool.submit(tried, trial, suite, bases[suite], workdir, folder, stem))
            for trial, suite in expected
        ]
        for trial, suite, job in jobs:
            note, fault = job.result()
            report.record(f'{suite}: {trial.name}', fault, note)


def check_all(report, workdir, chosen):
    folder = chosen.made and os.path.abspath(chosen.made)
    if not folder:
        folder = os.path.join(workdir, 'one')
        report.attempt('release/make twice', outputs.twice, workdir, folder, chosen.gate)
    stem, lost = outputs.stem(folder), headings_without_trial()
    outputs.check_all(report, workdir, folder)
    report.record('each command of docs/RELEASES.md is tried', lost and f'none below {", ".join(lost)}')
    check_trials(report, workdir, folder, stem, chosen.only)
    for release, suite in on_debian.RELEASES.items():
        if chosen.only in f'Debian {release}: programs':
            on_debian.check_release(report, release, base_of(workdir, suite), tempfile.mkdtemp(dir=workdir))
    if chosen.only in TEXTS:
        report.attempt(TEXTS, outputs.texts_are_regenerated, workdir)
    if chosen.only in WRONG_BODIES:
        report.attempt(WRONG_BODIES, outputs.wrong_bodies_are_refused, workdir)
    if chosen.only in on_arm.NAME:
        on_arm.check_all(report, workdir, folder, stem)


def main():
    parser = command.parser(__doc__)
    parser.add_argument('--gate', metavar='LOG', help='the log of checks/all, as for release/make')
    parser.add_argument('--made', metavar='FOLDER', help='test the files of this folder, and make none')
    parser.add_argument('--only', metavar='WORD', default='', help='the trials whose names contain the word')
    chosen, report = parser.parse_args(), Report()
    signal.signal(signal.SIGTERM, lambda *_: sys.exit(1))  # so that everything mounted is unmounted
    install_packages(PACKAGES)
    with tempfile.TemporaryDirectory(prefix='twox-release-check-') as workdir:
        try:
            check_all(report, workdir, chosen)
        except Fault as fault:
            report.record('the release', str(fault))
    sys.exit(report.end())
