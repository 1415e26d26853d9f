"""The Debian package of c/package: built, checked by lintian, installed on this machine, used, and removed again."""
import glob
import hashlib
import os
import re
import shutil
import subprocess

from c.checks import clients
from c.checks.file_program import file_program_agrees
from c.checks.launcher import OLD, SETS
from c.checks.library import C, sets_here, sets_of_library
from c.checks.sides import THEIRS, Side, others, run
from checks.lib.report import Report, check, last_line
from checks.lib.tools import TOP, bytes_of, must, ran, write

NAME = 'twox-hash'
PREFIX = '/usr/lib/twox-hash'
FOLDER = os.path.join(PREFIX, 'lib')
# What of lintian is left: the second `lib` of the folder is meant, as in those of LLVM; xxh is no C, whose calls gcc
# could fortify; a word that it takes for a misspelled one is code; what it takes for a library that needs no other is a
# program, linked statically so that it starts without any; and the section .comment names the logic of the proofs.
LEFT = """
    repeated-path-segment hardening-no-fortify-functions spelling-error-in-binary
    shared-library-lacks-prerequisites binary-has-unneeded-section
""".split()
EXAMPLE = os.path.join(TOP, 'examples', 'c', 'hash-file.c')


class Package:
    """The package file, and the machine's own library before."""

    def __init__(self, workdir):
        self.workdir, self.ours = workdir, library(sets_here()[-1])
        self.output = must([os.path.join(C, 'package'), workdir]).splitlines()[-1]
        (self.file,) = glob.glob(os.path.join(workdir, '*.deb'))
        self.theirs_before = their_state()


def library(instructions):
    above = [] if instructions == sets_of_library()[0] else ['glibc-hwcaps', instructions]
    return os.path.join(FOLDER, *above, 'libxxhash.so.0')


def their_state():
    """Debian's library: its bytes, what dpkg finds changed in its package, and what the loader has under its name."""
    digest = hashlib.sha256(bytes_of(THEIRS)).hexdigest()
    known = [line for line in must(['ldconfig', '-p']).splitlines() if 'libxxhash' in line]
    return digest, must(['dpkg', '-V', 'libxxhash0']), known


def is_installed():
    done = subprocess.run(
        ['dpkg-query', '-W', '-f', '${db:Status-Status}', NAME],
        stdout=subprocess.PIPE,
        stderr=subprocess.DEVNULL,
        text=True,
    )
    return done.returncode == 0


def lintian_is_silent(package):
    """Except a warning and three hints: see LEFT."""
    output = must(
        [*'lintian --fail-on none --display-info --pedantic --suppress-tags'.split(), ','.join(LEFT), package.file]
    )
    tags = [line for line in output.splitlines() if re.match('[EWIP]: ', line)]
    check(not tags, ' / '.join(tags))
    return f'no error, warning or hint but {", ".join(LEFT)}'


def installs(package):
    """dpkg installs it, lists what the package file has, and finds nothing changed."""
    must(['dpkg', '-i', package.file])
    check(not must(['dpkg', '-V', NAME]), 'dpkg -V finds a change')
    listed = {path for path in must(['dpkg', '-L', NAME]).splitlines() if path != '/.'}
    packed = {
        line.split(' -> ')[0].split(' ./', 1)[1]
        for line in must(['dpkg-deb', '-c', package.file]).splitlines()
        if not line.endswith(' ./')
    }
    check(listed == {'/' + path.rstrip('/') for path in packed}, 'dpkg -L lists other files')
    files = [path for path in listed if os.path.isfile(path)]
    for path in (
        *map(library, sets_of_library()),
        '/usr/bin/xxh',
        '/usr/share/man/man1/xxh.1.gz',
        f'/usr/share/doc/{NAME}/copyright',
    ):
        check(path in files, f'without {path}')
    check(their_state() == package.theirs_before, "Debian's library is another")
    return package.output.split(': ', 1)[1] + f'; {len(files)} files and links'


def hashes_file(side, args):
    """A program of examples/c hashes a file on this library, with xxhsum's result."""
    done = run(side, [*args, EXAMPLE])
    check(done.status == 0, last_line(done.out))
    digest = must(['xxhsum', '-H2', EXAMPLE]).split()[0]
    check(f'3-128 {digest}' in done.out.splitlines(), 'the hash differs')


def builds_by_pkg_config(package):
    """With pkg-config's folder in the environment, and a path for the loader in the program."""
    flags = must(
        ['pkg-config', '--cflags', '--libs', 'libxxhash'],
        env={**os.environ, 'PKG_CONFIG_PATH': os.path.join(FOLDER, 'pkgconfig')},
    ).split()
    folders = [os.path.normpath(flag[2:]) for flag in flags if flag.startswith('-I')]
    check(folders == [PREFIX + '/include'], f'the header of another library: {flags}')
    path = os.path.join(package.workdir, 'by-pkg-config')
    must(['gcc', EXAMPLE, *flags, '-Wl,-rpath,' + FOLDER, '-o', path])
    hashes_file(Side('the installed package', None, package.ours), [path])


def builds_by_cmake(package):
    folder = os.path.join(package.workdir, 'by-cmake')
    must(['cmake', '-S', os.path.join(TOP, 'examples', 'cmake'), '-B', folder, '-DCMAKE_PREFIX_PATH=' + PREFIX])
    must(['cmake', '--build', folder])
    hashes_file(Side('the installed package', None, package.ours), [os.path.join(folder, 'hash-file')])


def copied_root(package):
    """A folder with rsync and the files that it loads, as a root."""
    root = os.path.join(package.workdir, 'root')
    for part in ('lib', 'lib64', 'bin'):
        os.makedirs(os.path.join(root, 'usr', part))
        os.symlink('usr/' + part, os.path.join(root, part))
    for path in ['/usr/bin/rsync', *re.findall(r'/\S+\.so\S*', must(['ldd', '/usr/bin/rsync']))]:
        os.makedirs(os.path.dirname(root + path), exist_ok=True)
        shutil.copy(path, root + path)
    os.mkdir(os.path.join(root, 'etc'))
    shutil.copy('/etc/ld.so.conf', os.path.join(root, 'etc'))
    shutil.copytree('/etc/ld.so.conf.d', os.path.join(root, 'etc', 'ld.so.conf.d'))
    return root


def library_in(root):
    """The libxxhash that rsync loads in this root."""
    done = ran(['chroot', root, '/usr/bin/rsync', '--version'], env={**others(), 'LD_DEBUG': 'libs'})
    check(done.returncode == 0, last_line(done.stdout))
    return os.path.normpath(' '.join(re.findall(r'calling init: (\S*libxxhash\S*)', done.stdout)) or 'none')


def serves_a_machine(package):
    """A line for the loader, written by hand, makes the library that of a whole machine: in a root of the check's
    own. Without the package the line does no harm."""
    root = copied_root(package)
    must(['dpkg-deb', '-x', package.file, root])
    must(['ldconfig', '-r', root])
    theirs = library_in(root)
    check(not theirs.startswith(PREFIX), f'the package alone changes what is loaded: {theirs}')
    write(os.path.join(root, 'etc/ld.so.conf.d/00-twox-hash.conf'), FOLDER + '\n')
    must(['ldconfig', '-r', root])
    check(library_in(root) == package.ours, f'{library_in(root)} is loaded')
    shutil.rmtree(root + PREFIX)
    check(library_in(root) == theirs, f'{library_in(root)} is loaded without the package')
    return 'by 00-twox-hash.conf and ldconfig, in a folder as root'


def commands_are_there(package):
    """xxh prints what xxhsum prints, and its manual page can be read."""
    with open(EXAMPLE, 'rb') as file:
        printed = must(['/usr/bin/xxh', 'hash', '3-128'], stdin=file).strip()
    check(printed == must(['xxhsum', '-H2', EXAMPLE]).split()[0], 'the hash differs')
    check('xxh blocks' in must(['zcat', '/usr/share/man/man1/xxh.1.gz']), 'the manual page is another')


def both_builds_run(package, v3):
    """xxhsum by its four names against Debian's; and each command runs the build for the processor."""
    note = file_program_agrees(PREFIX)
    if not v3:
        return note
    for args, build in (((), SETS[v3]), (tuple(OLD), SETS[0])):
        path = os.path.join(PREFIX, 'libexec', NAME, build, 'xxhsum')
        os.rename(path, path + '.away')
        done = subprocess.run([*args, os.path.join(PREFIX, 'bin', 'xxhsum'), EXAMPLE], capture_output=True, text=True)
        os.rename(path + '.away', path)
        check((done.returncode, done.stdout) == (127, '') and path in done.stderr, f'{build} is not what runs')
        check(
            must([*args, os.path.join(PREFIX, 'bin', 'xxhsum'), '-q', EXAMPLE]) == must(['xxhsum', '-q', EXAMPLE]),
            f'{build} prints another line',
        )
    return note + '; each build where the processor has it'


def change_is_reported(package):
    """dpkg -V reports a changed file."""
    path = os.path.join(PREFIX, 'include', 'xxhash.h')
    with open(path, 'a') as file:
        file.write('\n')
    done = subprocess.run(['dpkg', '-V', NAME], stdout=subprocess.PIPE, text=True)
    check(done.stdout.split() == ['??5??????', path], f'dpkg -V says {done.stdout or "nothing"}')


def leaves_nothing(package):
    """After the removal no path of the package exists except folders that others have, and Debian's library is as
    before."""
    listed = [path for path in must(['dpkg', '-L', NAME]).splitlines() if NAME in path or not os.path.isdir(path)]
    must(['dpkg', '-r', NAME])
    left = [path for path in listed if os.path.lexists(path)] + glob.glob(f'/var/lib/dpkg/info/{NAME}.*')
    check(not left, f'left: {", ".join(left)}')
    check(not is_installed(), 'dpkg still knows it')
    check(their_state() == package.theirs_before, "Debian's library is another")
    return f"{len(listed)} paths are gone; Debian's library has the bytes and the place that it had"


def check_all(report: Report, workdir: str, sides: clients.Sides, v3: bool) -> None:
    if is_installed():
        report.record('the Debian package', f'{NAME} is installed here, and this check would remove it: do so by hand')
        return
    folder = os.path.join(workdir, 'package')
    os.mkdir(folder)
    package = Package(folder)
    report.attempt('the Debian package: lintian', lintian_is_silent, package)
    try:
        report.attempt('the Debian package: installed', installs, package)
        report.attempt('the Debian package: a program by pkg-config', builds_by_pkg_config, package)
        report.attempt('the Debian package: a program by CMake', builds_by_cmake, package)
        # It loads Debian's library, and ours if LD_LIBRARY_PATH has its folder.
        report.attempt(
            'the Debian package: python3-xxhash where it is told to',
            clients.python_hashes,
            sides._replace(ours=Side('the installed package', FOLDER, package.ours)),
        )
        report.attempt('the Debian package: a whole machine', serves_a_machine, package)
        report.attempt('the Debian package: xxh', commands_are_there, package)
        report.attempt('the Debian package: both builds of xxhsum', both_builds_run, package, v3)
        report.attempt('the Debian package: a changed file is told', change_is_reported, package)
        report.attempt('the Debian package: removed', leaves_nothing, package)
    finally:
        if is_installed():
            must(['dpkg', '-P', NAME])
