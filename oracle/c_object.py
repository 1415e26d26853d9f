"""Compares the functions of c/source/xxhash.c, as Debian's gcc and clang compile them with -O2 for x86-64-v2 and
x86-64-v3, with the definitions of the hashes in specs/, for all bytes, all seeds and all bytes of a secret: the
object's instructions run on symbols instead of numbers, like the assembly source's in oracle/machine-text. Where code
depends on an address, it runs for each residue modulo 64 of the stack and of a state.

  oracle/c-object                  a sample of all tasks, as in CI
  oracle/c-object --all            each length of 0 to 300 bytes, at once and as streams; every length, and any updates
                                   of XXH32 and XXH64, by induction; all planted faults
  oracle/c-object --compiler NAME  only the objects of compilers with this in their name, as in gcc or x86-64-v3
  oracle/c-object --only WORD      only the tasks with that word
  oracle/c-object --jobs NUMBER    number of processes (default: 2)

It lists what isn't verified. It needs gcc, clang and binutils, and installs missing packages with apt-get. One task
needs an x86-64-v3 processor. The last line is "N passed, M failed"; the exit status is 1 if one failed.
docs/VERIFICATION.md lists what to trust."""

from checks.lib import tools
from oracle.machine_code.c_source import compilers, tasks
from oracle.symbolic_terms import processes


def main():
    options = processes.options(__doc__)
    options.add_argument("--compiler", default="", help="only this compiler")
    given = options.parse_args()
    tools.install_packages(compilers.PACKAGES)
    found = [compiler for compiler in compilers.compilers() if given.compiler in compiler.name]
    chosen = tasks.choose(given, found)
    for line in tasks.not_verified(found):
        print(f"not verified: {line}")
    return processes.run(chosen, given.jobs)
