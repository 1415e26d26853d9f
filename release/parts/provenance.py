"""The provenance of a release: what it was made from, and by what."""
import os
import platform
import re
import shutil
import time

from checks.lib.tools import must, text_of
from release.parts.commit import Commit
from release.parts.written import sum_of

VERDICT = re.compile(r'^logic=')
CRATE = re.compile(r'^== (\w+)$')
COUNTS = re.compile(r'^\d+ passed, \d+ failed$')
# The toolchain files that make the programs and the assembly source, below its folder.
KIT_FILES = """
    bin/rattle bin/rattle-link bin/rt bin/rtlib.py toolchain/bin/clang toolchain/bin/ld.lld
    rattle/logic/antt-project.json c/liblibc_c.a c/libos_c.a
""".split()


def sums(folder, names):
    return [f'{sum_of(f"{folder}/{name}")}  {name}' for name in names if os.path.isfile(f'{folder}/{name}')]


def kit_folder() -> str:
    return os.path.dirname(os.path.dirname(os.path.realpath(must(['which', 'rt']).strip())))


def kit():
    return [must(['rt', 'version']).strip(), *sums(kit_folder(), KIT_FILES)]


def tools():
    """The first line of each compiler's version."""
    names = filter(
        shutil.which,
        ('gcc', 'aarch64-linux-gnu-gcc', 'ld', '/usr/bin/python3', '/usr/bin/rustc', '/usr/bin/cargo', 'npm'),
    )
    return [f'{os.path.basename(name)}: {must([name, "--version"]).splitlines()[0]}' for name in names]


def verdicts(lines):
    """The last verdict on each crate of a log."""
    found, crate = {}, None
    for line in lines:
        named = CRATE.match(line)
        crate = named[1] if named else None if line.startswith('== ') else crate
        if crate and VERDICT.match(line):
            found[crate] = line
    return [f'{name}: {line}' for name, line in sorted(found.items())]


def machine():
    model = re.search(r'^model name\s*: (.*)$', text_of('/proc/cpuinfo'), re.M)
    return f'{model[1] if model else platform.machine()}, {os.cpu_count()} processors'


def gate(log):
    """The verdicts of a log of CI, and its last line, or that there is none."""
    if not log:
        return {
            'Verdicts': ['absent: release/make was called without --gate'],
            'CI': ['absent: release/make was called without --gate'],
        }
    with open(log, encoding='utf-8', errors='replace') as file:
        lines = [line.strip() for line in file if line.strip()]
    ended = time.strftime('%Y-%m-%d %H:%M UTC', time.gmtime(os.path.getmtime(log)))
    last = lines[-1] if lines and COUNTS.match(lines[-1]) else 'absent: the log has no last line of counts'
    return {
        'Verdicts': verdicts(lines) or ['absent: the log has none'],
        'CI': [last, f'ended {ended}, packed on {machine()}', f'{sum_of(log)}  the log'],
    }


def texts(commit):
    names = [f'{folder}/{name}' for folder in ('c/asm', 'rust/asm') for name in sorted(os.listdir(commit.path(folder)))]
    return sums(commit.tree, [name for name in names if name.endswith('.s')])


UNPROVED = [
    'none: release/make --without-rt proves nothing. The assembly source, the modules and the erased source are',
    'those of the commit, which CI compares with the proved code',
]
BY_CARGO = 'compiled by rustc from proved source without its contracts; tested, not proved, as xxhsum --version says'
BY_RT = 'proved and compiled by the toolchain'


def programs(without_rt):
    """The origin of xxh and xxhsum in each archive."""
    packages = BY_CARGO if without_rt else f'{BY_RT} (amd64 only)'
    return [
        *([] if without_rt else [f'programs-x86_64: {BY_RT}']),
        f'cargo-programs: {BY_CARGO}',
        f'Debian packages: {packages}',
    ]


def text(commit: Commit, log: str, without_rt: bool) -> str:
    """PROVENANCE: what was packed, what proved and compiled it, and the SHA-256 of its inputs."""
    parts = {
        f'twox_hash {commit.version}': [f'commit {commit.name}', f'of {commit.date}'],
        'Toolchain': UNPROVED if without_rt else kit(),
        'Programs': programs(without_rt),
        'Tools': tools(),
        **gate(log),
        'Assembly source': texts(commit),
        'Modules': sums(commit.tree, ['web/twox_hash.wasm', 'web/twox_hash_simd.wasm']),
    }
    return '\n'.join('\n'.join([title, *(f'  {line}' for line in lines), '']) for title, lines in parts.items())


def spdx(commit: Commit) -> str:
    holder = re.search(r'^Copyright.*$', commit.read('LICENSE'), re.M)[0]
    created = time.strftime('%Y-%m-%dT%H:%M:%SZ', time.gmtime(commit.seconds))
    return f'''SPDXVersion: SPDX-2.3
DataLicense: CC0-1.0
SPDXID: SPDXRef-DOCUMENT
DocumentName: {commit.stem}
DocumentNamespace: https://spdx.org/spdxdocs/{commit.stem}-{commit.name}
Creator: Tool: twox_hash-release-make
Created: {created}
Relationship: SPDXRef-DOCUMENT DESCRIBES SPDXRef-Package

PackageName: twox_hash
SPDXID: SPDXRef-Package
PackageVersion: {commit.version}
PackageDownloadLocation: NOASSERTION
FilesAnalyzed: false
PackageLicenseConcluded: MIT
PackageLicenseDeclared: MIT
PackageCopyrightText: <text>{holder}</text>
PackageComment: <text>The programs and the module for browsers hold parts of the toolchain's library too.</text>
'''
