"""Packs all parts of the last commit, for machines without a toolchain:

    release/make [--gate LOG] [FOLDER]
    release/make --without-rt [FOLDER]

FOLDER, or release/out, then has for Linux on x86-64 and on 64-bit ARM the library for C, the Debian packages, the
wheels for Python, and the programs xxh and xxhsum as cargo builds them; for x86-64 those that rt proves and builds;
Python's source package, the crate for cargo, the package for Node, and the page; the sums of all, an
SPDX file, and PROVENANCE, which is also in each archive. docs/RELEASES.md describes how to use them.

It works on a clone of its own, without uncommitted changes. `rt ci` first proves the clone, reusing proofs of the same
files on this machine. LOG is the output of `checks/all` or `rt ci`: PROVENANCE has its verdicts and its last line, and
without LOG states that they are absent. The same commit, toolchain, log and Debian give the same bytes. It needs rt,
runs on Debian 12 as root on a machine with x86-64-v3, and installs missing packages.

In FOLDER it replaces an earlier release, whose files are in SHA256SUMS. If anything else is there, it stops.

--without-rt makes everything except the programs that rt builds, from the assembly source, the modules and the
erased source of the commit. The Debian packages then have the programs that cargo builds. It proves nothing, as
PROVENANCE states. It needs no root, and lists missing packages; the parts for 64-bit ARM are omitted if there is no
compiler for it."""
import argparse
import os
import shutil
import sys
import tempfile

from checks.lib.tools import TOP, install_packages, missing_packages, write
from release.parts import archives, provenance, written
from release.parts.commit import Commit

PACKAGES_WITHOUT_RT = {
    'gcc': 'gcc',
    '/usr/include/stdio.h': 'libc6-dev',
    'make': 'make',
    'strip': 'binutils',
    'git': 'git',
    'npm': 'npm',
    '/usr/include/python3.11/Python.h': 'python3-dev',
    '/usr/bin/rustc': 'rustc-web',
    '/usr/bin/cargo': 'cargo-web',
}
PACKAGES = {
    **PACKAGES_WITHOUT_RT,
    'objcopy': 'binutils',
    '/usr/bin/python3': 'python3',
    'aarch64-linux-gnu-gcc': 'gcc-aarch64-linux-gnu',
    'aarch64-linux-gnu-objcopy': 'binutils-aarch64-linux-gnu',
    '/usr/aarch64-linux-gnu/include/stdio.h': 'libc6-dev-arm64-cross',
}


def check_packages(packages):
    """Stops and lists the missing packages, since a normal user can't install them."""
    missing = missing_packages(packages)
    if missing:
        sys.exit(f'release/make: these Debian packages are missing: {" ".join(sorted(missing))}')


def make(folder, log, without_rt):
    with tempfile.TemporaryDirectory(prefix='twox-release-') as workdir:
        commit = Commit(TOP, workdir)
        if not without_rt:
            commit.prove()
        build_dir = os.path.join(workdir, 'build')
        os.mkdir(build_dir)
        write(os.path.join(build_dir, 'PROVENANCE'), provenance.text(commit, log, without_rt), 0o644)
        write(os.path.join(build_dir, f'{commit.stem}.spdx'), provenance.spdx(commit), 0o644)
        for part in archives.PARTS_WITHOUT_RT if without_rt else archives.PARTS:
            for name in part(commit, build_dir):
                print(f'{name}: {os.path.getsize(os.path.join(build_dir, name)):,} bytes', flush=True)
        count = written.write_sums(build_dir)
        written.replace(folder, build_dir)
    print(f'{folder}: {count} files of {commit.version}, commit {commit.name[:12]}, and SHA256SUMS')


def main():
    parser = argparse.ArgumentParser('release/make', usage='release/make [--gate LOG | --without-rt] [FOLDER]')
    way = parser.add_mutually_exclusive_group()
    way.add_argument('--gate', metavar='LOG', help='also make the programs that rt proves, if checks/all ended so')
    way.add_argument('--without-rt', action='store_true', help='make what needs no rt')
    parser.add_argument('folder', nargs='?', default=os.path.join(TOP, 'release', 'out'), help='where the files go')
    chosen = parser.parse_args()
    folder = os.path.abspath(chosen.folder)
    written.earlier_files(folder)
    if chosen.gate and not os.path.isfile(chosen.gate):
        sys.exit(f'release/make: there is no log {chosen.gate}')
    if chosen.without_rt:
        check_packages(PACKAGES_WITHOUT_RT)
    elif not shutil.which('rt'):
        sys.exit('release/make: no rt, which proves and builds the programs. --without-rt makes the other parts')
    else:
        install_packages(PACKAGES)
    make(folder, chosen.gate and os.path.abspath(chosen.gate), chosen.without_rt)
