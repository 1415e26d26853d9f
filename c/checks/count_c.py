"""Counts the instructions of one call of the library for 64-bit ARM, of Debian's and of the reference's header compiled
by gcc -O3, and prints them in the format of bench/data/arm_instructions.tsv:

    c/count

They are counted under qemu-aarch64 on x86-64: the instructions of 101 calls minus those of one, divided by 100,
minus those around a call. An instruction is not a time. It installs missing packages."""
import os
import tempfile

from c.checks import aarch64
from c.checks.library import Built, C
from checks.lib import command
from checks.lib.tools import install_packages, must, text_of

CALLS = {
    'XXH32': 'XXH32',
    'XXH64': 'XXH64',
    'XXH3_64bits': 'XXH3-64',
    'XXH3_64bits_withSeed': 'XXH3-64, seeded',
    'XXH3_128bits': 'XXH3-128',
    'XXH3_64bits_update': 'XXH3-64, one update',
}
SIZES = (4, 16, 64, 240, 1024, 65536)
FILES = os.path.join(C, 'checks', 'count')


class Counter:
    def __init__(self, workdir, root, built):
        self.workdir, self.root = workdir, root
        self.plugin = os.path.join(workdir, 'plugin.so')
        must(['gcc', '-O2', '-Wall', '-Wextra', '-shared', '-fPIC', os.path.join(FILES, 'plugin.c'), '-o', self.plugin])
        self.program = built.program('caller', os.path.join(FILES, 'caller.c'))

    def all(self, library, call, size, times):
        """The instructions of the whole program, with this many calls."""
        log = os.path.join(self.workdir, 'log')
        must(
            [
                'qemu-aarch64',
                '-L',
                self.root,
                '-plugin',
                self.plugin,
                *'-d plugin -D'.split(),
                log,
                self.program,
                library,
                call,
                str(size),
                str(times),
            ]
        )
        return int(text_of(log).split()[-1])

    def between(self, library, call, size):
        """The instructions of a call and around it."""
        return (self.all(library, call, size, 101) - self.all(library, call, size, 1)) / 100

    def of_call(self, library, call, size):
        """The instructions of a call, including its return."""
        return round(self.between(library, call, size) - self.between(library, 'nothing', size) + 1)


def main():
    command.parser(__doc__).parse_args()
    install_packages({**aarch64.PACKAGES, 'gcc': 'gcc', '/usr/include/stdio.h': 'libc6-dev'})
    with tempfile.TemporaryDirectory() as workdir:
        built = Built(workdir, 'aarch64', aarch64.TOOLS)
        root = aarch64.debian_root(os.path.join(workdir, 'debian'), 'libc6', 'libxxhash0')
        header = aarch64.reference(built, 'reference', flags=['-O3'])
        counter = Counter(workdir, root, built)
        for call, name in CALLS.items():
            for size in SIZES:
                libraries = (built.plain, root + aarch64.THEIRS, header)
                counts = [counter.of_call(library, call, size) for library in libraries]
                print(name, size, *counts, sep='\t', flush=True)
