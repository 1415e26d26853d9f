"""Programs on one library or another: the loader's log shows which one it loaded."""
import glob
import os
import re
import subprocess
import tempfile
from typing import NamedTuple, Optional

from checks.lib.report import check

THEIRS = '/usr/lib/x86_64-linux-gnu/libxxhash.so.0'


class Done(NamedTuple):
    """How a program ended: its status, its output, and the libraries that the loader initialized."""

    status: int
    out: str
    files: set[str]


class Side:
    """A library that programs run on: `folder` goes into LD_LIBRARY_PATH, `file` is what the loader must load."""

    def __init__(self, name, folder, file, tunables=''):
        self.name, self.folder, self.file, self.tunables = name, folder, file, tunables

    def variables(self, logs: str) -> dict[str, str]:
        """The environment variables of a program on this side, whose loader writes files with this prefix."""
        found = {'LD_DEBUG': 'libs', 'LD_DEBUG_OUTPUT': logs}
        if self.folder:
            found['LD_LIBRARY_PATH'] = self.folder
        if self.tunables:
            found['GLIBC_TUNABLES'] = self.tunables
        return found

    def environment(self, logs: str, **more: str) -> dict[str, str]:
        return {**others(), **self.variables(logs), **more}

    def command(self, args: list[str], logs: str) -> list[str]:
        """The command line of a program whose loader writes files with this prefix."""
        return args


class EmulatedSide(Side):
    """A library for AArch64, on which programs run under qemu. They are in a folder of packages for arm64, with
    everything that they read."""

    def __init__(self, name, folder, file, root):
        super().__init__(name, folder, file)
        self.root = root

    def environment(self, logs: str, **more: str) -> dict[str, str]:
        return {**others(), **more}

    def command(self, args: list[str], logs: str) -> list[str]:
        variables = [word for pair in self.variables(logs).items() for word in ('-E', '='.join(pair))]
        return ['qemu-aarch64', '-L', self.root, *variables, self.root + args[0], *args[1:]]


def others() -> dict[str, str]:
    """The environment without the loader's variables."""
    return {name: value for name, value in os.environ.items() if not name.startswith(('LD_', 'GLIBC_'))}


def loaded(logs: str) -> set[str]:
    """The files of libxxhash that the loader initialized, over all processes whose log has this prefix."""
    files: set[str] = set()
    for log in glob.glob(logs + '.*'):
        with open(log, errors='replace') as lines:
            files |= set(map(os.path.realpath, re.findall(r'calling init: (\S*libxxhash\.so\S*)', lines.read())))
    return files


def run(side: 'Side', args: list[str], expect_loaded: bool = True, folder: Optional[str] = None, **more: str) -> Done:
    """Runs a program on a side. It must load that side's library, and no other."""
    with tempfile.TemporaryDirectory() as workdir:
        logs = os.path.join(workdir, 'log')
        done = subprocess.run(
            side.command(args, logs),
            env=side.environment(logs, **more),
            cwd=folder,
            stdin=subprocess.DEVNULL,
            stdout=subprocess.PIPE,
            stderr=subprocess.STDOUT,
            timeout=300,
        )
        files = loaded(logs)
    if expect_loaded:
        check_library(side, files)
    return Done(done.returncode, done.stdout.decode(errors='replace'), files)


def check_library(side: Side, files: set[str]) -> None:
    check(files == {os.path.realpath(side.file)}, f'on {side.name}, {", ".join(files) or "no libxxhash"} was loaded')
