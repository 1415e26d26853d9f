"""Compares the definitions of the hashes in specs/ with the code of the reference library, for all bytes, all seeds and
all bytes of a secret: both run on symbols instead of numbers, and must produce the same term.

  oracle/symbolic                     every length, by induction, and one by one below; a sample of changes
  oracle/symbolic --all               lengths to 1,100 and edges to 10,241, split streams, SSE2 and AVX2, all
                                      changes, and the checks of the machinery
  oracle/symbolic --headers FOLDER    with the xxhash.h of that folder, instead of Debian's (libxxhash-dev, 0.8.1)
  oracle/symbolic --headers c/include with the code of this project's header in its six forms, and planted faults
  oracle/symbolic --vector NAME       the library's code for scalar (the default), sse2 or avx2
  oracle/symbolic --only WORD         only the tasks with that word
  oracle/symbolic --jobs NUMBER       number of processes (default: 2)
  oracle/symbolic --show 3-64 17      the term of a hash (32, 64, 3-64, 3-128) of this many bytes, step by step, as each
                                      side computes it

It needs clang-14 and libxxhash-dev, and for --all python3-z3, and installs missing packages with apt-get. The last line
is "N passed, M failed"; the exit status is 1 if one failed. docs/VERIFICATION.md lists what to trust."""

from oracle import antt
from oracle.symbolic_terms import processes, tasks, printer, reference


def main():
    options = processes.options(__doc__)
    options.add_argument("--headers", default=reference.HEADERS, help="folder of the header")
    options.add_argument("--vector", choices=reference.FORMS, default="scalar", help="form of the loops")
    options.add_argument("--show", nargs=2, metavar=("HASH", "LENGTH"), help="print the terms of a request")
    given = options.parse_args()
    reference.install(given.headers, with_solver=given.all)
    if given.show:
        return shown(reference.module(given.headers, given.vector), *given.show)
    release, checksum = reference.release_of(given.headers)
    print(f"xxhash.h {release}, SHA-256 {checksum}", flush=True)
    return tasks.run(tasks.choose(given), given.headers, given.jobs)


def shown(module, hash_name, length):
    for title, lines in antt.with_deep_recursion(lambda: printer.show(module, hash_name, int(length))):
        print(title, *(f"    {line}" for line in lines), sep="\n")
    return 0
