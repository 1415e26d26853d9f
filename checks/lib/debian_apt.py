"""Debian's archive, by apt with lists, a cache and a status in a folder: the machine's own packages stay unchanged."""
import glob
import os
from typing import Any

from checks.lib.tools import QUIET, must, write

LINE = '[signed-by=/usr/share/keyrings/debian-archive-keyring.gpg] http://deb.debian.org/debian'


class Apt:
    """Debian for one architecture: the machine's own lists, or those of a release with the `list_type` deb or
    deb-src."""

    def __init__(self, folder: str, architecture: str, list_type: str = '', release: str = '') -> None:
        self.folder, self.archives = folder, os.path.join(folder, 'cache', 'archives')
        for part in ('state/lists/partial', 'cache/archives/partial', 'none'):
            os.makedirs(os.path.join(folder, part))
        settings = {
            'APT::Architecture': architecture,
            'APT::Architectures::': architecture,
            'APT::Sandbox::User': 'root',
            'Debug::NoLocking': '1',
            'Dir::State': os.path.join(folder, 'state'),
            'Dir::State::status': write(os.path.join(folder, 'status'), ''),
            'Dir::Cache': os.path.join(folder, 'cache'),
        }
        if release:
            settings |= {
                'Dir::Etc::sourcelist': write(os.path.join(folder, 'list'), f'{list_type} {LINE} {release} main\n'),
                'Dir::Etc::sourceparts': os.path.join(folder, 'none'),
            }
        self.command = [
            'apt-get',
            '-qq',
            *(word for name, value in settings.items() for word in ('-o', f'{name}={value}')),
        ]
        self.run('update')

    def run(self, *args: str, **more: Any) -> None:
        must([*self.command, *args], env=QUIET, **more)

    def download(self, *packages: str) -> list[str]:
        """Downloads packages and everything that they need, and returns the files."""
        self.run('install', '-y', '--no-install-recommends', '--download-only', *packages)
        return glob.glob(os.path.join(self.archives, '*.deb'))

    def source(self, name: str) -> str:
        """The folder of a package's original source."""
        folder = os.path.join(self.folder, name)
        os.mkdir(folder)
        self.run('source', '--tar-only', name, cwd=folder)
        for archive in glob.glob(os.path.join(folder, '*.orig.tar.*')):
            must(['tar', '-xf', archive, '-C', folder])
        (found,) = glob.glob(os.path.join(folder, '*/'))
        return found.rstrip('/')


def sources(folder: str) -> Apt:
    """The sources of Debian 13, which has the release of xxHash whose tests run here."""
    return Apt(folder, 'amd64', 'deb-src', 'trixie')
