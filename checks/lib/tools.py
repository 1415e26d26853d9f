"""Shared by all checks: packages, tools, programs of crates/, and copies of the repository."""
import fcntl
import os
import shutil
import socket
import subprocess
import sys
import time
from typing import Any, Optional, Sequence, TypeVar, Union

# A path, as text or as bytes.
Path = TypeVar('Path', str, bytes)
TOP = os.path.dirname(os.path.dirname(os.path.dirname(os.path.abspath(__file__))))
# So that apt-get's messages are in English.
QUIET = {**os.environ, 'DEBIAN_FRONTEND': 'noninteractive', 'LC_ALL': 'C.UTF-8'}
# How many seconds an installation waits for another one.
PATIENCE = 900


def text_of(path: str) -> str:
    """The text of a file, by its path from the top of the repository."""
    with open(os.path.join(TOP, path), encoding='utf-8') as file:
        return file.read()


def bytes_of(path: str) -> bytes:
    with open(os.path.join(TOP, path), 'rb') as file:
        return file.read()


def write(path: Path, data: Union[str, bytes], mode: Optional[int] = None) -> Path:
    """Writes a file of bytes or text, in a folder that is created if it is missing. Returns the path."""
    if folder := os.path.dirname(path):
        os.makedirs(folder, exist_ok=True)
    with open(path, 'wb') as file:
        file.write(data.encode() if isinstance(data, str) else data)
    if mode:
        os.chmod(path, mode)
    return path


def replace_once(path: str, old: str, new: str) -> None:
    """Replaces a text of a file, which must have it once."""
    text = text_of(path)
    if text.count(old) != 1:
        sys.exit(f'{path} has {old!r} {text.count(old)} times')
    write(path, text.replace(old, new))


def flip_bit(path: str, at: int = 0) -> None:
    """Changes one bit of the byte at a place of a file. A second call reverts it."""
    with open(path, 'r+b') as file:
        file.seek(at)
        (byte,) = file.read(1)
        file.seek(at)
        file.write(bytes([byte ^ 1]))


def free_port() -> int:
    with socket.socket() as probe:
        probe.bind(('127.0.0.1', 0))
        return probe.getsockname()[1]


def ran(command: Sequence[Any], **more: Any) -> subprocess.CompletedProcess[str]:
    """Runs a tool to its end. Its messages are in its output."""
    return subprocess.run(
        command, stdout=subprocess.PIPE, stderr=subprocess.STDOUT, text=True, errors='replace', **more
    )


def must(command: Sequence[Any], **more: Any) -> str:
    """Runs a tool of the check itself, which must succeed."""
    done = ran(command, **more)
    if done.returncode:
        sys.exit(f'{os.path.relpath(sys.argv[0], TOP)}: {" ".join(command)}:\n{done.stdout[-2000:]}')
    return done.stdout


def four_hashes(file: str) -> str:
    """The lines that each example prints, by Debian's xxhsum."""
    flags = {'32': '-H0', '64': '-H1', '3-64': '-H3', '3-128': '-H2'}
    hashes = {
        algorithm: must(['xxhsum', flag, '-'], stdin=open(file, 'rb')).split() for algorithm, flag in flags.items()
    }
    return ''.join(
        f'{algorithm} {fields[0] if algorithm != "3-64" else fields[-1]}\n' for algorithm, fields in hashes.items()
    )


def short_reads(folder: str) -> str:
    """A library that clips the reads of programs which preload it."""
    path = os.path.join(folder, 'short_reads.so')
    must(['gcc', '-O2', '-shared', '-fPIC', os.path.join(TOP, 'checks', 'lib', 'short_reads.c'), '-o', path, '-ldl'])
    return path


def missing_packages(packages: dict[str, str]) -> set[str]:
    """The packages whose command or file is missing."""
    return {package for name, package in packages.items() if not (shutil.which(name) or os.path.exists(name))}


def install_packages(packages: dict[str, str]) -> None:
    """Installs the missing ones."""
    install(missing_packages(packages))


def install(packages: set[str]) -> None:
    """Installs packages. Concurrent checks take turns, and wait for other installations."""
    if packages:
        with open('/var/lock/twox-hash-packages', 'w') as turn:
            fcntl.flock(turn, fcntl.LOCK_EX)
            apt_get('update')
            apt_get('install', '-y', '--no-install-recommends', *sorted(packages))


def apt_get(*args: str) -> None:
    """Runs apt-get. It runs again while another process holds a lock (`update` can't wait for one), and after
    completing an installation that was killed."""
    deadline = time.monotonic() + PATIENCE
    command = ['apt-get', '-qq', '-o', f'DPkg::Lock::Timeout={PATIENCE}', *args]
    while True:
        done = ran(command, env=QUIET)
        if not done.returncode:
            return
        if 'dpkg was interrupted' in done.stdout:
            must(['dpkg', '--configure', '-a'], env=QUIET)
        elif 'Could not get lock' not in done.stdout:
            break
        if time.monotonic() > deadline:
            break
        time.sleep(1)
    sys.exit(f'{os.path.relpath(sys.argv[0], TOP)}: {" ".join(command)}:\n{done.stdout[-2000:]}')


def proved_program(name: str, *flags: str) -> str:
    """A program of crates/, which rt proves and builds again. Run with no arguments, as here, it may return any
    status."""
    crate = os.path.join(TOP, 'crates', name)
    program = os.path.join(crate, 'out', name)
    if os.path.exists(program):
        os.remove(program)
    done = ran(['rt', 'run', *flags], cwd=crate, stdin=subprocess.DEVNULL)
    if not os.path.exists(program):
        sys.exit(f'{done.stdout[-2000:]}\n{name} was not built')
    return program


def path_without(workdir: str, hidden: str) -> str:
    """PATH without a command: a folder that contains it is replaced by one with links to everything else in it."""
    folders = []
    for number, folder in enumerate(os.environ['PATH'].split(':')):
        if os.path.lexists(os.path.join(folder, hidden)):
            links = os.path.join(workdir, f'commands-without-{hidden}-{number}')
            os.mkdir(links)
            for name in os.listdir(folder):
                if name != hidden:
                    os.symlink(os.path.join(folder, name), os.path.join(links, name))
            folder = links
        folders.append(folder)
    return ':'.join(folders)


def hide_rt(workdir: str) -> None:
    """Removes rt from PATH."""
    os.environ['PATH'] = path_without(workdir, 'rt')
    if shutil.which('rt'):
        sys.exit('rt is on PATH still')


def clean_copy(folder: str) -> None:
    """Copies the repository without build output, and without the files that only rt reads: the files in git, or
    without git all."""
    if not os.path.exists(os.path.join(TOP, '.git')):
        ignored = shutil.ignore_patterns('out', 'target', '__pycache__', 'crates')
        shutil.copytree(TOP, folder, symlinks=True, ignore=ignored)
        return
    for name in must(['git', '-C', TOP, 'ls-files', '-z', '--', ':!crates']).split('\0')[:-1]:
        path = os.path.join(folder, name)
        os.makedirs(os.path.dirname(path), exist_ok=True)
        shutil.copy(os.path.join(TOP, name), path, follow_symlinks=False)
