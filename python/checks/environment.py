"""Shared by python/check and python/bench: a folder of their own, Debian's packages, and builds of the package."""
import glob
import os
import shutil
import subprocess
from typing import Any, Optional, Sequence

from checks.lib.report import Fault, check, last_line
from checks.lib.tools import TOP, ran

PYTHON_FOLDER = os.path.join(TOP, 'python')

PYTHON, DEBUG = '/usr/bin/python3', '/usr/bin/python3-dbg'
DEBIANS = '/usr/lib/python3/dist-packages'
PACKAGES = {
    '/usr/bin/gcc': 'gcc',
    '/usr/bin/nm': 'binutils',
    '/usr/include/stdio.h': 'libc6-dev',
    PYTHON: 'python3',
    '/usr/include/python3.11/Python.h': 'python3-dev',
    f'{DEBIANS}/xxhash/__init__.py': 'python3-xxhash',
    '/usr/share/doc/python3-venv': 'python3-venv',
    f'{DEBIANS}/pip/__init__.py': 'python3-pip',
}
# A user's environment: no rt, whatever the machine has.
PATH = '/usr/bin:/bin'


def environment(**more: str) -> dict[str, str]:
    """The environment of a user without the toolchain and a network, and with pip's messages off."""
    inherited = {
        name: value
        for name, value in os.environ.items()
        if name in ('HOME', 'LANG', 'LC_ALL', 'TMPDIR', 'TERM', 'USER') or name.lower().endswith('_proxy')
    }
    quiet = {'PIP_NO_INDEX': '1', 'PIP_DISABLE_PIP_VERSION_CHECK': '1', 'PIP_ROOT_USER_ACTION': 'ignore'}
    return {**inherited, 'PATH': PATH, 'PYTHONDONTWRITEBYTECODE': '1', **quiet, **more}


def run(
    command: Sequence[Any], folder: Optional[str] = None, timeout: float = 1200, **more: Any
) -> subprocess.CompletedProcess[str]:
    """A program's status and both of its outputs, in the environment of such a user."""
    return ran(command, cwd=folder, env=environment(**more), timeout=timeout)


def must(command: Sequence[Any], folder: Optional[str] = None, **more: Any) -> str:
    """The output of a program that must succeed."""
    done = run(command, folder, **more)
    if done.returncode:
        raise Fault(f'{" ".join(command)}: {last_line(done.stdout)}')
    return done.stdout


def copied(folder: str) -> str:
    """A copy of the package's sources, as in a clean clone: nothing is built in the repository."""
    keep = shutil.ignore_patterns('out', '__pycache__', '*.so')
    for part in ('python', 'c/asm', 'c/include'):
        shutil.copytree(os.path.join(TOP, part), os.path.join(folder, part), ignore=keep)
    shutil.copy(os.path.join(TOP, 'LICENSE'), folder)
    return os.path.join(folder, 'python')


def packed(folder: str, *args: str, **more: str) -> list[str]:
    """The source package and the wheel that python/build makes in a copy, called with these arguments."""
    must([os.path.join(folder, 'build'), *(args or [PYTHON])], **more)
    names = sorted(os.listdir(os.path.join(folder, 'out')), key=lambda name: name.endswith('.whl'))
    check(len(names) == 2, f'python/build made {names}')
    return [os.path.join(folder, 'out', name) for name in names]


def site(workdir: str, name: str, wheel: str) -> str:
    """A folder for PYTHONPATH that has the wheel's files."""
    path = os.path.join(workdir, 'sites', name)
    must([PYTHON, '-m', 'zipfile', '-e', wheel, path])
    return path


class Built:
    """The package, built in the check's folder: `source`, `wheel`, and `site`, the folder of the wheel's files."""

    def __init__(self, workdir):
        self.workdir = workdir
        self.folder = copied(os.path.join(workdir, 'clone'))
        self.source, self.wheel = packed(self.folder)
        self.site = site(workdir, 'plain', self.wheel)
        (self.library,) = glob.glob(os.path.join(self.site, 'twox_hash', '_native*.so'))
