"""Replaces the toolchain's clang, installed by `annotated`:

    assembly/compile.py CLANG FOLDER WIDE WORD..

It first runs clang with these arguments. If clang has compiled a module of the proved code, the module with prefetches
(prefetch.py) is compiled in its place with the same arguments, for x86-64 so that no jump crosses or ends at a multiple
of 32 bytes, where some processors decode a jump again each time. If WIDE isn't empty, that folder gets an object for
x86-64-v4 too, from the same module (wide.py). Before that it compares, and stops if something differs:

- the module as text, compiled with the same arguments, with the toolchain's object of the module, byte for byte;
- the module with all additions, as clang reads it, and with these removed again, with the text of the module.

For 64-bit ARM the toolchain has clang optimize the module, changes its text and has clang compile that: the
prefetches are in the first of the two. FOLDER and WIDE get the module that the object was made from, as module.ll,
and the `args` of clang's last call; WIDE also the object, as module.o."""
import filecmp
import os
import re
import subprocess
import sys
import tempfile
from typing import NoReturn

from assembly import prefetch, wide

FOR_X86_64 = ['-mbranches-within-32B-boundaries']


def stop(why: object) -> NoReturn:
    sys.exit(f'assembly/compile.py: {why}')


class Clang:
    def __init__(self, path, args):
        self.path, self.args = path, args
        self.target = [word for word in args if word.startswith('--target=')]

    def run(self, args, folder='.'):
        return subprocess.run([self.path, *args], cwd=folder).returncode

    def module(self):
        """The bitcode that these arguments compile, or None if they compile none."""
        read = [word for word in self.args if word.endswith('.bc') and os.path.exists(word)]
        return read[0] if len(read) == 1 and '-x' in self.args else None

    def output(self):
        return os.path.abspath(self.args[self.args.index('-o') + 1])

    def compile(self, folder, output, more=()):
        """Runs the arguments with the module of its name in a folder, and writes another file."""
        args = [output if os.path.abspath(word) == self.output() else word for word in self.args]
        if self.run([*args, *more], folder):
            stop(f'clang does not compile the module in {folder}')

    def written(self, output_type, folder, output, *more):
        """Writes the module of a folder as clang reads it, as text (-S) or as bitcode (-c), under the same name,
        with which a text begins."""
        os.makedirs(output, exist_ok=True)
        args = [*self.target, '--no-default-config', '-w', '-x', 'ir', '-Xclang', '-disable-llvm-passes', '-emit-llvm']
        if self.run([*args, *more, output_type, self.module(), '-o', os.path.join(output, self.module())], folder):
            stop(f'clang does not read the module in {folder}')

    def text(self, folder):
        return read(os.path.join(folder, self.module()))


def read(path):
    with open(path, encoding='latin-1') as file:
        return file.read()


def write(path, text):
    os.makedirs(os.path.dirname(path), exist_ok=True)
    with open(path, 'w', encoding='latin-1') as file:
        file.write(text)


def expect_as_text(clang, workdir):
    """Checks that the module as text gives the toolchain's object. Returns the text, as clang reads it."""
    ordered, proved, again = (os.path.join(workdir, it) for it in ('ordered', 'proved', 'again'))
    # The text includes the order of a value's uses, which determines only the order of some instructions.
    clang.written('-S', os.getcwd(), ordered, '-Xclang', '-emit-llvm-uselists')
    clang.compile(ordered, again)
    if not filecmp.cmp(again, clang.output(), shallow=False):
        stop('the module as text gives another object than the toolchain has: this kit builds otherwise')
    clang.written('-S', os.getcwd(), proved)
    return clang.text(proved)


def compile_changed(clang, workdir, text, output, is_wide=False):
    """Writes the object of the module with its additions, after checking that without them it is the proved one.
    Returns its text."""
    annotated, bitcode, as_read, narrow = (
        os.path.join(workdir, it) for it in ('annotated', 'bitcode', 'as_read', 'narrow')
    )
    write(os.path.join(annotated, clang.module()), with_changes(text, is_wide))
    clang.written('-c', annotated, bitcode)
    clang.written('-S', bitcode, as_read)
    if without_changes(clang, as_read, narrow, is_wide) != text:
        stop('without what was added the module is not the one that was proved')
    clang.compile(bitcode, output, FOR_X86_64 if re.search('^target triple = "x86_64', text, re.M) else [])
    return clang.text(annotated)


def with_changes(text: str, is_wide: bool) -> str:
    try:
        return prefetch.add(wide.widen(text) if is_wide else text)
    except ValueError as why:
        stop(why)


def without_changes(clang, folder, narrow, is_wide):
    """The text of a folder's module, after clang has renumbered what a wide module's functions have separately."""
    if is_wide:
        write(os.path.join(narrow, clang.module()), wide.narrow(clang.text(folder)))
        clang.written('-S', narrow, folder)
    return prefetch.strip(clang.text(folder))


def keep(folder, clang, module):
    write(os.path.join(folder, 'module.ll'), module)
    write(os.path.join(folder, 'args'), '\n'.join(clang.args) + '\n')


def compile_all(clang, widened):
    """Writes the object of the module with prefetches in place of the toolchain's, and the one for x86-64-v4.
    Returns the first one's text."""
    with tempfile.TemporaryDirectory() as workdir:
        text = expect_as_text(clang, workdir)
        if widened:
            os.makedirs(widened, exist_ok=True)
            output = os.path.join(widened, 'module.o')
            keep(widened, clang, compile_changed(clang, workdir, text, output, is_wide=True))
        return compile_changed(clang, workdir, text, clang.output())


def run_clang(path: str, stored: str, widened: str, *args: str) -> int:
    clang = Clang(path, list(args))
    status = clang.run(args)
    if status:
        return status
    module = next((read(word) for word in args if word.endswith('.ll') and os.path.exists(word)), None)
    if clang.module():
        module = compile_all(clang, widened)
    if stored and module and '-c' in args:
        keep(stored, clang, module)
    return 0


def main():
    if len(sys.argv) < 5:
        sys.exit(__doc__)
    return run_clang(*sys.argv[1:])
