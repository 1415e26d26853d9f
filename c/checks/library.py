"""The library for C as c/install installs it, for each instruction set, and copies of it that are wrong."""
import os
import shutil

from checks.lib.instruction_sets import C, sets_here, sets_of_library
from checks.lib.report import check, last_line
from checks.lib.tools import must, ran


class Built:
    """The library under test: the installed library of a processor, and copies of it that are wrong."""

    def __init__(self, workdir, target='x86-64', tools=''):
        self.workdir, self.tools = workdir, tools
        self.set_paths(os.path.join(workdir, 'prefix'))
        must([os.path.join(C, 'install'), '--target', target, self.prefix])

    @classmethod
    def by_make(cls, workdir, copy):
        """The library that make installs from a clean copy, moved afterwards, since an installed folder may be."""
        built = cls.__new__(cls)
        built.workdir, built.tools = workdir, ''
        done = ran(['make', '-s', '-C', os.path.join(copy, 'c'), 'install', f'PREFIX={workdir}/first'])
        check(done.returncode == 0, last_line(done.stdout))
        os.rename(f'{workdir}/first', f'{workdir}/prefix')
        built.set_paths(f'{workdir}/prefix')
        return built

    def set_paths(self, prefix: str) -> None:
        self.prefix, self.folder = prefix, os.path.join(prefix, 'lib')
        self.include = os.path.join(self.prefix, 'include')
        self.archive = os.path.join(self.folder, 'libtwox_hash.a')
        self.plain = os.path.join(self.folder, 'libxxhash.so.0')

    def shared(self, instructions: str) -> str:
        """The shared library for an instruction set."""
        above = [] if instructions == sets_of_library()[0] else ['glibc-hwcaps', instructions]
        return os.path.join(self.folder, *above, 'libxxhash.so.0')

    def libraries(self):
        """The shared library of each instruction set, and of those that the loader uses here."""
        return [self.shared(name) for name in sets_of_library()], [self.shared(name) for name in sets_here()]

    def tool(self, name: str, *args: str) -> str:
        return must([self.tools + name, *args])

    def program(self, name: str, *args: str) -> str:
        """A program in C, with the installed header."""
        path = os.path.join(self.workdir, name)
        self.tool('gcc', '-O2', '-g', '-Wall', '-Wextra', '-Werror', '-I', self.include, *args, '-o', path)
        return path

    def object(self, name, source, *flags):
        path = os.path.join(self.workdir, name + '.o')
        self.tool('gcc', '-O1', '-g', '-fPIC', '-Wall', '-Wextra', '-I', self.include, *flags, '-c', source, '-o', path)
        return path

    def link(self, name, archive, *args):
        """Links the archive and other objects to a shared library, in a folder of its own."""
        os.makedirs(os.path.join(self.workdir, name), exist_ok=True)
        path = os.path.join(self.workdir, name, 'libxxhash.so.0')
        names = '-Wl,--version-script=' + os.path.join(C, 'libxxhash.map')
        self.tool(
            'gcc',
            '-shared',
            *args,
            '-Wl,--whole-archive',
            archive,
            '-Wl,--no-whole-archive',
            names,
            '-Wl,-soname,libxxhash.so.0',
            '-o',
            path,
        )
        return path

    def wrong(self, name: str, *flags: str) -> str:
        """The library with each hash changed, by checks/wrong.c."""
        changed = self.object(name, os.path.join(C, 'checks', 'wrong.c'), *flags)
        names = [line.split()[-1] for line in self.tool('nm', '-u', changed).splitlines() if ' right_' in line]
        archive = os.path.join(self.workdir, name + '.a')
        renamed = [word for right in names for word in ('--redefine-sym', f'{right.removeprefix("right_")}={right}')]
        self.tool('objcopy', *renamed, self.archive, archive)
        return self.link(name, archive, changed)

    def sanitized(self):
        """The library with its C built for AddressSanitizer."""
        archive = os.path.join(self.workdir, 'proved.a')
        shutil.copy(self.archive, archive)
        self.tool('ar', 'd', archive, 'states.o')
        states = self.object(
            'sanitized', os.path.join(C, 'states.c'), '-fsanitize=address', '-I', os.path.join(C, 'asm')
        )
        return self.link('sanitized', archive, '-fsanitize=address', states)
