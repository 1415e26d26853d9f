"""Fresh Debian machines: a root for each release by debootstrap, and a copy of it for each user."""
import contextlib
import os
import shutil
import subprocess
from typing import Iterator, Union

from checks.lib.report import check, last_line
from checks.lib.tools import QUIET, must, ran, write

MIRROR, SECURITY = 'http://deb.debian.org/debian', 'http://deb.debian.org/debian-security'
# The folder of the archives in a root, as downloaded by a user, and of the repository, as cloned.
TAKEN, CLONE = '/root/taken', '/root/twox_hash'
# What an installation may leave behind: logs, caches, and the data of apt and dpkg.
LEFT = ('proc', 'root', 'tmp', 'var/log', 'var/cache', 'var/lib/apt', 'var/lib/dpkg', 'etc/ld.so.cache')


def new_base(suite: str, folder: str) -> str:
    """A root of a release with what every Debian machine has, and its updates."""
    must(['debootstrap', '--variant=minbase', suite, folder, MIRROR], env=QUIET)
    places = ((MIRROR, suite), (MIRROR, f'{suite}-updates'), (SECURITY, f'{suite}-security'))
    write(f'{folder}/etc/apt/sources.list', ''.join(f'deb {place} {name} main\n' for place, name in places))
    write(f'{folder}/etc/apt/apt.conf.d/90quiet', 'APT::Install-Recommends "false";\nAPT::Sandbox::User "root";\n')
    write(f'{folder}/etc/hosts', '127.0.0.1 localhost\n')
    shutil.copy('/etc/resolv.conf', os.path.join(folder, 'etc', 'resolv.conf'))
    must(['chroot', folder, 'apt-get', 'update', '-qq'], env=QUIET)
    return folder


class Root:
    """A user's machine: programs there see no other file, and no toolchain."""

    def __init__(self, path: str, suite: str = '', stem: str = '') -> None:
        self.path, self.suite, self.stem = path, suite, stem

    def at(self, name: str) -> str:
        return os.path.join(self.path, name.lstrip('/'))

    def run(self, script: str, folder: str = TAKEN, **variables: str) -> tuple[int, str]:
        """The status and the output of a script of bash in a folder."""
        environment = {
            'PATH': '/usr/sbin:/usr/bin:/sbin:/bin',
            'HOME': '/root',
            'DEBIAN_FRONTEND': 'noninteractive',
            'LC_ALL': 'C.UTF-8',
            'PYTHONDONTWRITEBYTECODE': '1',
            **variables,
        }
        command = ['chroot', self.path, '/bin/bash', '-c', f'cd {folder}\n{script}']
        done = ran(command, env=environment, stdin=subprocess.DEVNULL, timeout=1800)
        return done.returncode, done.stdout

    def must(self, script: str, **variables: str) -> str:
        status, out = self.run(f'set -euo pipefail\n{script}', **variables)
        check(status == 0, f'{script.strip().splitlines()[-1][:80]}: status {status}: {last_line(out)}')
        return out

    def install(self, *packages: str) -> None:
        if packages:
            self.must(f'apt-get install -y -qq {" ".join(packages)}')

    def write(self, name: str, data: Union[str, bytes]) -> None:
        write(self.at(f'{TAKEN}/{name}'), data)

    def copy(self, source: str, name: str) -> None:
        """Copies a file or a folder of this machine to the archives."""
        target = self.at(f'{TAKEN}/{name}')
        shutil.copytree(source, target) if os.path.isdir(source) else shutil.copy(source, target)

    def files(self) -> set[str]:
        """All files except those that an installation may leave behind."""
        found = set()
        for folder, folders, names in os.walk(self.path):
            place = os.path.relpath(folder, self.path)
            folders[:] = [name for name in folders if os.path.normpath(os.path.join(place, name)) not in LEFT]
            found |= {os.path.normpath(os.path.join(place, name)) for name in [*names, *folders]}
        return found - set(LEFT)


@contextlib.contextmanager
def new_root(base: str, path: str, suite: str, files: str, stem: str) -> Iterator[Root]:
    """A copy of a base with the archives in it, whose names begin with the stem, while it is needed."""
    must(['cp', '-a', base, path])
    root = Root(path, suite, stem)
    shutil.copytree(files, root.at(TAKEN))
    must(['mount', '-t', 'proc', 'proc', root.at('proc')])
    try:
        check(root.run('command -v rt || command -v rattle')[0] != 0, 'the root has the toolchain')
        yield root
    finally:
        must(['umount', '-l', root.at('proc')])
        shutil.rmtree(path, ignore_errors=True)
