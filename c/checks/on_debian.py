"""Debian's own programs on fresh roots of its releases, each on Debian's libxxhash0 and on ours: the scripts of
programs/.

A script's first lines state what it does, its releases, and the packages that it needs. It runs in an empty folder on
each library and must print the same, with the loader loading the intended library. On a library that stops at a hash it
must fail or print something else.

A script that names a source builds that, once with Debian's header and library and once with ours, with Debian's
header removed. The program's own tests must print the same on both, and something else on a library that stops."""
import glob
import os
import re
import shutil
import tempfile
from typing import NamedTuple, Optional

from c.checks.library import Built, C
from checks.lib.report import Report, check
from checks.lib.roots import TAKEN, new_base, new_root
from checks.lib.tools import clean_copy, install_packages, text_of

PACKAGES = {
    'debootstrap': 'debootstrap',
    'gcc': 'gcc',
    '/usr/include/stdio.h': 'libc6-dev',
    'nm': 'binutils',
    'make': 'make',
}
RELEASES = {'12': 'bookworm', '13': 'trixie'}
DEBIANS = '/lib/x86_64-linux-gnu/libxxhash'
CHECKS = os.path.join(C, 'checks')


class Script(NamedTuple):
    """A script of c/checks/programs, and what its first lines state."""

    name: str
    releases: list[str]
    packages: list[str]
    source: Optional[str]


def scripts():
    """The scripts, by their first lines."""
    for path in sorted(glob.glob(os.path.join(CHECKS, 'programs', '*.sh'))):
        fields = dict(re.findall(r'^# (Debian|packages|source): *(.*)$', text_of(path), re.M))
        yield Script(
            os.path.basename(path).removesuffix('.sh'),
            fields['Debian'].split(),
            fields.get('packages', '').split(),
            fields.get('source'),
        )


class Library:
    """A library of the root: its folder in the loader's path, or none."""

    def __init__(self, root, folder=None):
        self.root, self.folder = root, folder

    def run(self, script):
        """Runs a script on this library in an empty folder. Returns its status, its output, and the loaded library."""
        self.root.must('rm -rf work; mkdir work')
        return self.followed(script, 'work')

    def followed(self, script, folder, then=':'):
        """Runs a script on this library in a folder, and then a further command there. Returns the status, the
        output of both, and the loaded library."""
        variables = {
            'PROGRAMS': f'{TAKEN}/programs',
            'LD_DEBUG': 'libs',
            'LD_DEBUG_OUTPUT': f'{TAKEN}/logs/log',
            **({'LD_LIBRARY_PATH': self.folder} if self.folder else {}),
        }
        exports = ' '.join(f'{name}={value}' for name, value in variables.items())
        self.root.must('rm -rf logs; mkdir logs')
        begin = f'set -euo pipefail; cd {folder}; export {exports}'
        status, out = self.root.run(f'{begin}\nsource "$PROGRAMS/{script.name}.sh"\n{then}')
        return status, out, self.root.run('grep -rhoE "calling init: .*libxxhash.so.*" logs | sort -u')[1]

    def build(self, script, folder):
        """Builds a source in a folder with this library, and its header unless that is Debian's."""
        prefix = os.path.dirname(self.folder) if self.folder else ''
        exports = (
            f'export CPATH={prefix}/include LIBRARY_PATH={self.folder} LD_LIBRARY_PATH={self.folder}' if prefix else ':'
        )
        return self.root.must(f'cd {folder}; {exports}\nsource {TAKEN}/programs/{script.name}.sh\nbuild')


def same_on_both(theirs, ours, stopping, script):
    if script.source:
        return built_on_both(theirs, ours, stopping, script)
    expected = theirs.run(script)
    check(DEBIANS in expected[2], f"on Debian's library {expected[2]} is loaded")
    lines = compared(expected, ours.run(script), stopping.run(script), ours)
    return f'{lines} lines are the same, and a library that stops is noticed'


def built_on_both(theirs, ours, stopping, script):
    """Runs both builds, and the program's own tests on each. Debian's header is removed before the second build; the
    first may have inlined its calls."""
    root, of_theirs, of_ours = ours.root, f'{script.source}-theirs', f'{script.source}-ours'
    root.must(f'apt-get source -qq {script.source}; mv {script.source}-*/ {of_theirs}; cp -r {of_theirs} {of_ours}')
    theirs.build(script, of_theirs)
    root.must('mv /usr/include/xxhash.h /root')
    try:
        ours.build(script, of_ours)
    finally:
        root.must('mv /root/xxhash.h /usr/include')
    folders = ((theirs, of_theirs), (ours, of_ours), (stopping, of_ours))
    right, found, stopped = (side.followed(script, folder, 'check') for side, folder in folders)
    lines = compared(right, found, stopped, ours)
    return f"{lines} lines of its tests are the same on both headers, and a library that stops is noticed"


def compared(expected, found, stopped, ours):
    """The number of lines that are the same on both, if each ran on its library and the one that stops was detected."""
    check(expected[0] == 0, f"on Debian's library: {expected[1][-300:]}")
    check(ours.folder in found[2] and DEBIANS not in found[2], f'on ours {found[2]} is loaded')
    check(found[:2] == expected[:2], f'status {found[0]}: {found[1][-300:]}')
    check(stopped[:2] != found[:2], 'it never asks the library for a hash')
    return len(found[1].splitlines())


def laid_out(workdir):
    """A folder of the files for the root: the scripts, the library with its headers, and one that stops."""
    copy, taken = os.path.join(workdir, 'copy'), os.path.join(workdir, 'taken')
    clean_copy(copy)
    built = Built.by_make(workdir, copy)
    shutil.copytree(os.path.join(CHECKS, 'programs'), os.path.join(taken, 'programs'))
    shutil.copy(os.path.join(CHECKS, 'python_hashes.py'), os.path.join(taken, 'programs'))
    shutil.copytree(built.prefix, os.path.join(taken, 'ours'), symlinks=True)
    os.mkdir(os.path.join(taken, 'stopping'))
    shutil.copy(built.wrong('stopping-library', '-DSTOPS'), os.path.join(taken, 'stopping'))
    return taken


def check_release(report: Report, release: str, base: str, workdir: str) -> None:
    """The scripts of a release, on a copy of a root of it."""
    expected = [script for script in scripts() if release in script.releases]
    with new_root(base, os.path.join(workdir, f'root-{release}'), RELEASES[release], laid_out(workdir), '') as root:
        root.install('binutils', 'python3', *{package for script in expected for package in script.packages})
        root.must(
            'sed "s/^deb/deb-src/; q" /etc/apt/sources.list > /etc/apt/sources.list.d/sources.list; apt-get update -qq'
        )
        root.must(f'apt-get build-dep -y -qq {" ".join(script.source for script in expected if script.source)}')
        libraries = [Library(root), Library(root, f'{TAKEN}/ours/lib'), Library(root, f'{TAKEN}/stopping')]
        for script in expected:
            report.attempt(f'Debian {release}: {script.name}', same_on_both, *libraries, script)


def check_all(report: Report, release: str) -> None:
    install_packages(PACKAGES)
    with tempfile.TemporaryDirectory() as workdir:
        check_release(report, release, new_base(RELEASES[release], os.path.join(workdir, 'base')), workdir)
