"""Compares the C library's and the cargo crate's assembly sources with the definitions of the hashes in specs/, for all
bytes, all seeds and all bytes of a secret: both run on symbols instead of numbers, and must produce the same term. The
code is what GNU as assembles from c/asm and rust/asm, as decoded by objdump; clang and rustc must produce the same
objects.

  oracle/machine-text                 all refusals; a sample of the lengths to 300, of every length, of streams, and of
                                      all tasks on the crate's sources
  oracle/machine-text --all           lengths 0 to 300; every length with any secret, streams of any updates, edges to
                                      10,241 bytes, each instruction compared with the processor, 3,000 changes
  oracle/machine-text --only WORD     only the tasks with that word
  oracle/machine-text --jobs NUMBER   number of processes (default: 2)

It needs gcc, binutils (for 64-bit ARM too), clang and rustc, and installs missing packages with apt-get. One task needs
an x86-64-v3 processor, and x86-64-v4 to test all instructions. The last line is "N passed, M failed"; the exit status
is 1 if one failed. docs/VERIFICATION.md lists what to trust."""
from checks.lib import tools
from oracle.machine_code import cargo_tasks, tasks, self_tests
from oracle.symbolic_terms import processes


def main():
    given = processes.options(__doc__).parse_args()
    tools.install_packages({"gcc": "gcc", "objdump": "binutils", "clang": "clang", "rustc": "rustc-web", "make": "make",
                            "aarch64-linux-gnu-as": "binutils-aarch64-linux-gnu",
                            "/usr/lib/x86_64-linux-gnu/libxxhash.so.0": "libxxhash0"})
    texts, others = tasks.programs(), cargo_tasks.programs()
    found = [*tasks.choose(given, texts), *cargo_tasks.choose(others, texts, given.all),
             *self_tests.choose(texts, others, given.all)]
    return processes.run(processes.chosen(found, given), given.jobs)
