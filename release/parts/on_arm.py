"""The archives for 64-bit ARM, on a machine of another processor, under qemu-aarch64."""
import filecmp
import glob
import os

from checks.lib.arm_roots import debian_root
from checks.lib.report import Report, check, last_line
from checks.lib.tools import TOP, four_hashes, install_packages, must, ran

NAME = '64-bit ARM, under qemu'
PACKAGES = {
    'qemu-aarch64': 'qemu-user',
    'aarch64-linux-gnu-gcc': 'gcc-aarch64-linux-gnu',
    '/usr/aarch64-linux-gnu/include/stdio.h': 'libc6-dev-arm64-cross',
    'pkg-config': 'pkg-config',
}
LICENSE = os.path.join(TOP, 'LICENSE')
VALUE = 'import twox_hash as xxhash; print(xxhash.instruction_set, xxhash.xxh64_hexdigest(b"some bytes", 1234))'


def run(command, root, **variables):
    """A program for that processor."""
    pairs = [word for pair in variables.items() for word in ('-E', '='.join(pair))]
    done = ran(['qemu-aarch64', '-L', root, *pairs, *command], timeout=600)
    check(done.returncode == 0, f'{command}: {last_line(done.stdout)}')
    return done.stdout


def library(workdir, folder, stem):
    """A program by pkg-config, with the shared library and with the static one."""
    must(['tar', 'xzf', os.path.join(folder, f'{stem}-c-aarch64.tar.gz'), '-C', workdir])
    prefix = os.path.join(workdir, f'{stem}-c-aarch64')
    environment = {**os.environ, 'PKG_CONFIG_PATH': os.path.join(prefix, 'lib', 'pkgconfig')}
    flags = must(['pkg-config', '--cflags', '--libs', 'libxxhash'], env=environment).split()
    source = os.path.join(prefix, 'examples', 'c', 'hash-file.c')
    for name, more in (('shared', ()), ('static', ('-static',))):
        program = os.path.join(workdir, f'hash-file-{name}')
        must(['aarch64-linux-gnu-gcc', *more, source, *flags, '-o', program])
        out = run([program, LICENSE], '/usr/aarch64-linux-gnu', LD_LIBRARY_PATH=os.path.join(prefix, 'lib'))
        check(out == four_hashes(LICENSE), f'{name}: {last_line(out)}')
    return 'shared and static'


def package(workdir, folder, stem):
    """The Debian package has the library of the archive, and is for that processor."""
    (path,) = glob.glob(os.path.join(folder, '*_arm64.deb'))
    check(must(['dpkg-deb', '-f', path, 'Architecture']).strip() == 'arm64', 'it is for another processor')
    unpacked = os.path.join(workdir, 'arm64')
    must(['dpkg-deb', '-x', path, unpacked])
    lib = os.path.join(unpacked, 'usr', 'lib', 'twox-hash', 'lib')
    names = ['libxxhash.so.0', 'libtwox_hash.a', 'pkgconfig/libxxhash.pc']
    same, other, lost = filecmp.cmpfiles(lib, os.path.join(workdir, f'{stem}-c-aarch64', 'lib'), names, shallow=False)
    check(same == names, f'{other + lost} is another')
    return must(['dpkg-deb', '-f', path, 'Version']).strip()


def wheel(workdir, folder, stem):
    root = debian_root(os.path.join(workdir, 'python-arm'), 'libc6', 'python3')
    paths = sorted(glob.glob(os.path.join(folder, f'{stem}-*_aarch64.whl')))
    check(len(paths) == 2, f'there are {paths}')
    for path in paths:
        site = os.path.join(workdir, f'site-of-{os.path.basename(path)}')
        must(['python3', '-m', 'zipfile', '-e', path, site])
        out = run([f'{root}/usr/bin/python3.11', '-c', VALUE], root, PYTHONPATH=site)
        check(out.split() == ['aarch64', 'eab55659a496d78b'], last_line(out))
    return ', '.join(map(os.path.basename, paths))


def check_all(report: Report, workdir: str, folder: str, stem: str) -> None:
    install_packages(PACKAGES)
    for name, test in (('the library for C', library), ('the Debian package', package), ('the wheels', wheel)):
        report.attempt(f'{NAME}: {name}', test, workdir, folder, stem)
