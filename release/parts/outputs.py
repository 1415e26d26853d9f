"""The output of release/make: the same bytes twice, sums, and provenance in each archive."""
import glob
import io
import os
import re
import shutil
import stat
import subprocess
import tarfile
import tempfile
import zipfile
from typing import Any

from checks.lib.report import Report, check, last_line
from checks.lib.tools import TOP, bytes_of, flip_bit, must, ran, text_of, write
from release.parts import written
from release.parts.packing import read_tar

# The programs that make the assembly sources, and their targets.
TEXTS = {'c/build': ('x86-64', 'aarch64'), 'rust/build-library': ('x86-64', 'aarch64')}
MAKE = os.path.join(TOP, 'release', 'make')


def make(workdir, folder, log, umask):
    """release/make, with a working folder of its own."""
    os.mkdir(workdir)
    done = ran([MAKE, *(['--gate', log] if log else []), folder], env={**os.environ, 'TMPDIR': workdir}, umask=umask)
    check(done.returncode == 0, done.stdout[-1500:])
    return last_line(done.stdout)


def twice(workdir: str, folder: str, log: str) -> str:
    """The files in the folder are those of a second run, under another umask, byte for byte."""
    other = os.path.join(workdir, 'a second folder')
    summary, again = (
        make(os.path.join(workdir, name), into, log, umask).split(': ', 1)[1]
        for name, into, umask in (('first', folder, 0o022), ('second', other, 0o077))
    )
    check(summary == again, f'first {summary}, then {again}')  # for example if a commit was made meanwhile
    one, two = ({name: written.sum_of(f'{path}/{name}') for name in os.listdir(path)} for path in (folder, other))
    shutil.rmtree(other)
    differ = sorted(name for name in set(one) | set(two) if one.get(name) != two.get(name))
    check(not differ, f'other bytes: {", ".join(differ)}')
    return summary


def proved_clone(workdir):
    """A clone that `rt ci` has proved."""
    clone = os.path.join(workdir, 'proved')
    if not os.path.exists(clone):
        must(['git', 'clone', '-q', TOP, clone])
        must(['rt', 'ci'], cwd=clone)
    return clone


def texts_are_regenerated(workdir: str) -> str:
    """Regenerates the assembly source of every target from the proved code, including the targets that CI skips."""
    clone = proved_clone(workdir)
    for build, targets in TEXTS.items():
        for target in targets:
            must([os.path.join(clone, build), '--target', target, '--of-ci', '--update'])
    other = must(['git', 'status', '--porcelain', '--', 'c/asm', 'rust/asm', 'rust/lto'], cwd=clone)
    check(not other, f'other than they are made: {other.split()[1::2]}')
    return ', '.join(TEXTS['rust/build-library'])


def wrong_bodies_are_refused(workdir: str) -> str:
    """Each mutant, even if this machine remembers that it was refused. The planted ones of all crates have the
    expected verdicts; CI tests those of the smallest crates."""
    program = os.path.join(proved_clone(workdir), 'checks', 'wrong-bodies')
    for word in '--self-test', '--anew':
        done = ran([program, word], stdin=subprocess.DEVNULL)
        check(done.returncode == 0, done.stdout[-1500:])
    return last_line(done.stdout)


def stem(folder: str) -> str:
    """The name and the version with which file names begin."""
    found = glob.glob(os.path.join(folder, 'twox_hash-*.spdx'))
    check(len(found) == 1, f'{folder} has no release')
    return os.path.basename(found[0]).removesuffix('.spdx')


def sums_agree(folder):
    summary = must(['sha256sum', '-c', '--strict', 'SHA256SUMS'], cwd=folder)
    names = {line.rsplit(': ', 1)[0] for line in summary.splitlines()}
    check(names == set(os.listdir(folder)) - {'SHA256SUMS'}, f'{names ^ set(os.listdir(folder))} has no sum')
    return f'{len(names)} files'


def change_is_noticed(workdir, folder):
    """A changed byte of an archive."""
    copy = os.path.join(workdir, 'changed')
    shutil.copytree(folder, copy)
    path = sorted(glob.glob(os.path.join(copy, '*.tar.gz')))[0]
    flip_bit(path, 1000)
    done = subprocess.run(['sha256sum', '-c', '--quiet', 'SHA256SUMS'], cwd=copy, capture_output=True, text=True)
    shutil.rmtree(copy)
    check(done.returncode and os.path.basename(path) in done.stdout, 'it is not detected')
    return os.path.basename(path)


def members(path: str) -> dict[str, Any]:
    """The content of an archive, except its provenance."""
    found: dict[str, Any]
    if path.endswith('.whl'):
        with zipfile.ZipFile(path) as archive:
            found = {name: archive.read(name) for name in archive.namelist()}
    elif path.endswith(('.gz', '.tgz', '.crate')):
        found = read_tar(path)
    elif path.endswith('.deb'):
        packed = subprocess.run(['dpkg-deb', '--fsys-tarfile', path], stdout=subprocess.PIPE, check=True).stdout
        with tarfile.open(fileobj=io.BytesIO(packed)) as archive:
            found = {
                it.name: (oct(it.mode), it.linkname, it.isfile() and archive.extractfile(it).read()) for it in archive
            }
    else:
        found = {'': bytes_of(path)}
    return {name: data for name, data in found.items() if os.path.basename(name) not in ('PROVENANCE', 'RECORD')}


def commit_of(folder: str) -> str:
    """The commit that a release names."""
    return re.search(r'^  commit (\w+)$', text_of(os.path.join(folder, 'PROVENANCE')), re.M)[1]


def tree(folder):
    """The tree below a folder: each name, and its content or target."""
    found = {}
    for path in [folder, *sorted(glob.glob(f'{folder}/**/*', recursive=True, include_hidden=True))]:
        if os.path.islink(path) or os.path.isdir(path):
            found[path] = os.readlink(path) if os.path.islink(path) else None
        else:
            found[path] = bytes_of(path)
    return found


def foreign_folders(workdir, folder):
    """Folders with more than a release in them, each with a name that release/make must refuse."""
    mirror, name = os.path.join(workdir, 'mirror'), sorted(os.listdir(folder))[-1]
    write(os.path.join(mirror, 'disk.iso'), b'an image')
    write(os.path.join(mirror, written.SUMS), must(['sha256sum', 'disk.iso'], cwd=mirror))
    yield mirror, 'disk.iso'
    yield shutil.copytree(os.path.join(TOP, 'web'), os.path.join(workdir, 'web')), 'LICENSE'
    for number, (foreign, change) in enumerate(
        (
            ('more', 'echo > more'),
            ('more', 'mkdir more'),
            (name, f'echo >> {name}'),
            (name, f'mv {name} ../moved; ln -s ../moved {name}'),
        )
    ):
        copy = shutil.copytree(folder, os.path.join(workdir, f'copy {number}'))
        must(['sh', '-c', change], cwd=copy)
        yield copy, foreign
    yield write(os.path.join(workdir, 'a file'), ''), 'a file'


def foreign_folders_stay(folder):
    """release/make deletes nothing that it didn't write, and lists what that is. It replaces an earlier release."""
    with tempfile.TemporaryDirectory(prefix='twox-foreign-') as workdir:
        count = 0
        for place, name in foreign_folders(workdir, folder):
            before = tree(place)
            done = ran([MAKE, place], timeout=60)
            check(
                done.returncode and place in done.stdout and name in done.stdout and tree(place) == before,
                f'{place}: status {done.returncode}: {last_line(done.stdout)}',
            )
            count += 1
        earlier, other = shutil.copytree(folder, os.path.join(workdir, 'earlier')), os.path.join(workdir, 'other')
        write(os.path.join(other, 'new'), '')
        written.write_sums(other)
        written.replace(earlier, other)
        check(sorted(os.listdir(earlier)) == [written.SUMS, 'new'], f'of a release is left {os.listdir(earlier)}')
        sums_agree(earlier)
    return f'{count} folders stay, a release gives way'


def missing_log_is_refused():
    """Before the proofs, which take an hour."""
    done = ran([MAKE, '--gate', 'none'], timeout=60)
    check(done.returncode == 1 and done.stdout == 'release/make: there is no log none\n', last_line(done.stdout))


def provenances(workdir, path):
    """The files of that name in an archive."""
    if path.endswith('.whl'):
        with zipfile.ZipFile(path) as archive:
            return [archive.read(name) for name in archive.namelist() if name.endswith('/PROVENANCE')]
    if path.endswith('.deb'):
        folder = os.path.join(workdir, 'unpacked')
        must(['dpkg-deb', '-x', path, folder])
        found = glob.glob(os.path.join(folder, 'usr', 'share', 'doc', '*', 'PROVENANCE'))
        held = [open(name, 'rb').read() for name in found]
        shutil.rmtree(folder)
        return held
    return [data for name, data in read_tar(path).items() if name.endswith('/PROVENANCE')]


def has_provenance(workdir, folder):
    right = bytes_of(os.path.join(folder, 'PROVENANCE'))
    names = list(filter(is_archive, sorted(os.listdir(folder))))
    for name in names:
        check(provenances(workdir, os.path.join(folder, name)) == [right], f'{name} has another one, or none')
    target, has_programs = right.decode(), any('-programs-' in name and '-cargo-' not in name for name in names)
    kit = ('rattle-kit', '[0-9a-f]{64}  bin/rattle') if has_programs else ('none: release/make --without-rt',)
    for part in ('commit [0-9a-f]{40}', *kit, '[0-9a-f]{64}  c/asm/x86-64-v2.s'):
        check(re.search(part, target), f'without {part}')
    gate = re.search(r'^CI\n  (.*)', target, re.M)[1]
    return f'{len(names)} archives; gate: {gate}'


def modes_of(path):
    """The mode, owner and name of each entry of an archive."""
    if path.endswith('.deb'):
        lines = must(['dpkg-deb', '-c', path]).splitlines()
    elif path.endswith('.whl'):
        with zipfile.ZipFile(path) as archive:
            lines = [f'{stat.filemode(it.external_attr >> 16)} root/root {it.filename}' for it in archive.infolist()]
    else:
        lines = must(['tar', 'tvzf', path]).splitlines()
    return [line.split(maxsplit=2) for line in lines]


def all_users_can_read(folder: str) -> str:
    """Each file of each archive has one of the usual modes, whatever the umask of release/make was, and the programs
    can be run."""
    count = 0
    for name in filter(is_archive, sorted(os.listdir(folder))):
        for mode, owner, rest in modes_of(os.path.join(folder, name)):
            is_program = re.search(r'/bin/[\w-]+$', rest)
            expected = (
                ('-rwxr-xr-x', 'lrwxrwxrwx') if is_program else ('-rw-r--r--', '-rwxr-xr-x', 'drwxr-xr-x', 'lrwxrwxrwx')
            )
            check(mode in expected and owner in ('root/root', '0/0'), f'{name}: {mode} {owner} {rest}')
            count += 1
    return f'{count} files'


def is_archive(name):
    return name.endswith(('.gz', '.tgz', '.crate', '.whl', '.deb'))


def check_all(report: Report, workdir: str, folder: str) -> None:
    report.attempt('the modes of all files', all_users_can_read, folder)
    report.attempt('SHA256SUMS', sums_agree, folder)
    report.attempt('a changed byte is detected', change_is_noticed, workdir, folder)
    report.attempt('PROVENANCE in each archive', has_provenance, workdir, folder)
    report.attempt('release/make in a folder with other files', foreign_folders_stay, folder)
    report.attempt('a log that is missing', missing_log_is_refused)
