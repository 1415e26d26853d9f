"""Debian's packages for 64-bit ARM, or another processor, below a folder of their own, and a compiler over them."""
import os
import platform

from checks.lib.debian_apt import Apt
from checks.lib.tools import must, text_of, write

TOOLS = 'aarch64-linux-gnu-'


def debian_root(folder: str, *packages: str, architecture: str = 'arm64') -> str:
    """Debian's packages and everything that they need, unpacked below a folder. For arm64 the versions are those of the
    machine's own lists, to which its compilers belong; for another processor those of the release, since a further
    list may lack it."""
    release = '' if architecture == 'arm64' else platform.freedesktop_os_release()['VERSION_CODENAME']
    root = os.path.join(folder, 'root')
    for file in Apt(folder, architecture, 'deb', release).download(*packages):
        must(['dpkg-deb', '-x', file, root])
    return root


def musl_gcc(workdir: str) -> str:
    """A compiler for musl on 64-bit ARM: Debian's cross compiler, over Debian's musl for that processor."""
    root = debian_root(os.path.join(workdir, 'musl'), 'musl-dev')
    specs, path = os.path.join(workdir, 'musl-gcc.specs'), os.path.join(workdir, 'aarch64-linux-musl-gcc')
    text = text_of(os.path.join(root, 'usr/lib/aarch64-linux-musl/musl-gcc.specs'))
    write(specs, text.replace('/usr/', root + '/usr/'))
    return write(path, f'#!/bin/sh\nexec {TOOLS}gcc "$@" -specs {specs}\n', 0o755)
