"""Programs built from the original sources of Debian's packages, with c/include/xxhash.h in the place of their copy of
xxhash.h, or of the installed one. `c/check --programs` runs this.

Each program's own tests must pass, and fail on a header whose hashes stop the program. What is built needs no
libxxhash, and where a program sets XXH_NAMESPACE, no symbol begins with XXH."""
import os
import subprocess
import tempfile
from typing import NamedTuple

from checks.lib.debian_apt import sources
from checks.lib.report import Fault, Report, check, last_line
from checks.lib.tools import TOP, install_packages, must, ran, text_of, write

HEADER, CODE = text_of('c/include/xxhash.h'), text_of('c/source/xxhash.c')
PACKAGES = {
    'gcc': 'gcc',
    'g++': 'g++',
    '/usr/include/stdio.h': 'libc6-dev',
    'make': 'make',
    'nm': 'binutils',
    'dpkg-source': 'dpkg-dev',
}
# The avalanche of each hash, and one that stops the program.
STOPS = {f'hash ^ hash >> {shift}': f'(__builtin_trap(), hash) ^ hash >> {shift}' for shift in (15, 29, 37)}


class Program(NamedTuple):
    """A source package: the folder of its copy, commands that prepare, build and test it in the package's folder, and
    the files that are built. `prefix` is its XXH_NAMESPACE, and `before` is what its copy has before the code."""

    copy: str
    build: str
    test: str
    files: list
    prepare: str = ':'
    prefix: str = ''
    before: str = ''
    packages: dict = {}


OF_ZSTD = (
    '#ifndef XXH_NO_XXH3\n#define XXH_NO_XXH3\n#endif\n' '#ifndef XXH_NAMESPACE\n#define XXH_NAMESPACE ZSTD_\n#endif\n'
)
# xxHash's own program without its dispatch, and with what its tests take from its header: a macro and <string.h>.
OF_XXHASH = 'DISPATCH=0 CC="gcc -include string.h -DXXH3_MIDSIZE_MAX=240"'
RSYNCS_LIBRARY = (
    'gcc -O2 -c twox/xxhash.c -o twox/xxhash.o && rm -f twox/libxxhash.a && ' 'ar rcs twox/libxxhash.a twox/xxhash.o'
)
PROGRAMS = {
    'xxhash': Program(
        '.',
        f'make -s {OF_XXHASH} xxhsum libxxhash.a',
        f'make -s {OF_XXHASH} check test-xxhsum-c '
        'namespaceTest noxxh3test nostreamtest nostdlibtest && '
        f'make -s {OF_XXHASH} -C tests test_multiInclude',
        ['xxhsum'],
    ),
    'lz4': Program(
        'lib',
        'make -s -C lib liblz4.a && make -s -C programs lz4',
        'make -s -C tests check && make -s -C tests test-frametest FUZZER_TIME=-T5s',
        ['lib/liblz4.a', 'programs/lz4'],
        prefix='LZ4_',
    ),
    'libzstd': Program(
        'lib/common',
        'make -s -C lib libzstd.a && make -s -C programs zstd',
        'make -s -C tests check',
        ['lib/libzstd.a', 'programs/zstd'],
        prefix='ZSTD_',
        before=OF_ZSTD,
    ),
    'rsync': Program(
        'twox',
        f'{RSYNCS_LIBRARY} && rm -f rsync && make -s',
        'make -s check',
        ['rsync'],
        f'{RSYNCS_LIBRARY} && mkdir -p zlib popt && touch zlib/dummy.in popt/dummy.in && ./configure --quiet '
        '--disable-md2man --disable-openssl --disable-zstd --disable-lz4 '
        '--without-included-zlib --without-included-popt '
        'CPPFLAGS=-I$PWD/twox LDFLAGS=-L$PWD/twox LIBS=-lxxhash',
        packages={
            '/usr/include/acl/libacl.h': 'libacl1-dev',
            '/usr/include/attr/libattr.h': 'libattr1-dev',
            '/usr/include/popt.h': 'libpopt-dev',
            '/usr/include/zlib.h': 'zlib1g-dev',
            'python3': 'python3',
        },
    ),
    'btrfs-progs': Program(
        'crypto',
        'make -s hash-vectest hash-speedtest btrfs',
        'make -s test-hash',
        ['btrfs'],
        './autogen.sh && ./configure --quiet --disable-documentation --disable-convert --disable-zstd '
        '--disable-lzo --disable-libudev --disable-python --disable-backtrace',
        packages={
            'autoconf': 'autoconf',
            'automake': 'automake',
            'pkg-config': 'pkg-config',
            '/usr/include/blkid/blkid.h': 'libblkid-dev',
            '/usr/include/zlib.h': 'zlib1g-dev',
            '/usr/include/uuid/uuid.h': 'uuid-dev',
        },
    ),
    'libcrypt-xxhash-perl': Program(
        'ext/xxHash',
        'rm -f lib/Crypt/xxHash.[co] && ./Build',
        './Build test',
        ['blib/arch/auto/Crypt/xxHash/xxHash.so'],
        'rm ext/xxHash/xxh_x86dispatch.* && perl Build.PL',
        packages={
            '/usr/share/perl5/Module/Build.pm': 'libmodule-build-perl',
            '/usr/share/perl5/File/Which.pm': 'libfile-which-perl',
            '/usr/share/perl5/IPC/Run.pm': 'libipc-run-perl',
            '/usr/share/doc/libmath-int64-perl': 'libmath-int64-perl',
        },
    ),
}


class Copy:
    """The unpacked source of a program, with this header."""

    def __init__(self, program, folder):
        self.program, self.folder = program, folder
        self.header = os.path.join(folder, program.copy, 'xxhash.h')
        self.code = os.path.join(folder, program.copy, 'xxhash.c')
        write(self.header, program.before + HEADER)
        write(self.code, CODE)

    def run(self, command):
        return ran(['bash', '-euc', command], cwd=self.folder, timeout=1800, stdin=subprocess.DEVNULL)

    def stop(self):
        """Makes the hashes stop the program. Only what is compiled from the code is built again."""
        changed = self.program.before + HEADER
        for old, new in STOPS.items():
            check(changed.count(old) == 1, f'xxhash.h has {old} {changed.count(old)} times')
            changed = changed.replace(old, new)
        time = os.stat(self.header).st_mtime_ns
        write(self.header, changed)
        os.utime(self.header, ns=(time, time))
        os.utime(self.code)


def passes(copy):
    for command in (copy.program.prepare, copy.program.build, copy.program.test):
        done = copy.run(command)
        check(done.returncode == 0, f'{command}: {last_line(done.stdout)}')


def has_prefix(path, prefix):
    """Each external symbol of the hashes begins with a prefix, and there are some."""
    names = {line.split()[-1] for line in must(['nm', '-g', path]).splitlines() if line.strip() and ':' not in line}
    plain = sorted(name for name in names if name.startswith('XXH'))
    check(not plain, f'{os.path.basename(path)} has {", ".join(plain[:3])}')
    check(any(name.startswith(f'{prefix}XXH') for name in names), f'{os.path.basename(path)} has no name {prefix}XXH..')


def symbols_are_its_own(copy):
    """No plain name is left if there is a prefix, and no library of the hashes is needed."""
    for file in copy.program.files:
        path = os.path.join(copy.folder, file)
        check('libxxhash' not in must(['objdump', '-p', path]), f'{file} needs libxxhash')
        if copy.program.prefix:
            has_prefix(path, copy.program.prefix)


def plain_symbols_are_detected(workdir):
    """An object that is compiled without XXH_NAMESPACE, and one with another one."""
    for name, flags, fault in (
        ('plain', (), 'plain.o has XXH128, '),
        ('other', ('-DXXH_NAMESPACE=MY_',), 'no name LZ4_XXH'),
    ):
        path = os.path.join(workdir, f'{name}.o')
        must(['gcc', *flags, '-I', 'c/include', '-c', 'c/source/xxhash.c', '-o', path], cwd=TOP)
        try:
            has_prefix(path, 'LZ4_')
            raise Fault(f'{name}: it is not noticed')
        except Fault as found:
            check(fault in str(found), found)


def stopping_is_detected(copy):
    copy.stop()
    done = copy.run(copy.program.build)
    check(done.returncode == 0, f'it is not built: {last_line(done.stdout)}')
    done = copy.run(copy.program.test)
    check(done.returncode != 0, 'its tests pass with hashes that stop')
    return last_line(done.stdout)


def check_all(report: Report) -> None:
    install_packages(
        {**PACKAGES, **{name: package for program in PROGRAMS.values() for name, package in program.packages.items()}}
    )
    with tempfile.TemporaryDirectory() as workdir:
        report.attempt('symbols without the prefix are detected', plain_symbols_are_detected, workdir)
        debian = sources(os.path.join(workdir, 'sources'))
        for name, program in PROGRAMS.items():
            copy = Copy(program, debian.source(name))
            report.attempt(f'{os.path.basename(copy.folder)}: its own tests', passes, copy)
            report.attempt(f'{os.path.basename(copy.folder)}: its symbols', symbols_are_its_own, copy)
            report.attempt(
                f'{os.path.basename(copy.folder)}: hashes that stop are detected', stopping_is_detected, copy
            )
