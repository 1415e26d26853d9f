"""Does what `rt lib` does in the folder of a static library, and `rt run` in that of a program, over the libraries that
`rt ci` left in this tree:

    cd crates/twox_c && ../../assembly/over-ci lib [--cpu=x86-64-v3 | --target aarch64-unknown-linux-gnu]
    cd crates/xxh && ../../assembly/over-ci run [--cpu=x86-64-v3] -- WORD..

It proves only the crate of the folder. `rt` itself uses no library of `rt ci`, and would prove each again."""
import os
import sys

from checks.mutants import toolchain


def run_rt(verb, *args):
    name = os.path.basename(os.getcwd())
    crate = toolchain.crates().get(name) or sys.exit(__doc__)
    for below in crate.below():
        if not toolchain.is_built(below):
            sys.exit(f'{name}: rt ci left no library {below.name} of what its files say now')
    at = args.index('--') if '--' in args else len(args)
    flags, arguments = [*toolchain.one_job(), *args[:at]], [*args[at + 1 :]]
    if verb == 'lib':
        return crate.build_static(flags)
    crate.held = []  # rt's locks, which it releases before it runs the program
    return crate.run(flags, arguments)


def main():
    return run_rt(*sys.argv[1:])
