"""Compares the public calls of the cargo crate, as compiled by this machine's rustc, with the definitions of the hashes
in specs/, for all bytes, all seeds and all bytes of a secret: the object's instructions run on symbols instead of
numbers, like the assembly source's in oracle/machine-text. The object has the crate, as cargo compiles it for Linux,
and a program that uses each public type and function. Other builds have no assembly source, with and without vectors.

  oracle/rust-object                 one-shots and streams of every length, by induction: a sample of the cases
  oracle/rust-object --all           all cases, the build for x86-64-v3, and one by one 0 to 300 bytes, with a secret
                                     0 to 1,100
  oracle/rust-object --target aarch64   the Rust source for 64-bit ARM, with Debian's rustc and its libraries
  oracle/rust-object --only WORD     only the tasks with that word
  oracle/rust-object --jobs NUMBER   number of processes (default: 2)

This covers the public calls as exports of one object from this rustc, each instruction set of the assembly source, and
the choice between them. It doesn't cover code that rustc inlines into another program. It needs rustc, gcc, binutils
and, for one task, an x86-64-v3 processor. The last line is "N passed, M failed"; the exit status is 1 if one failed."""
import os
import tempfile

from checks.lib import arm_roots
from checks.lib import tools
from oracle.machine_code.rustc import compilers, tasks
from oracle.symbolic_terms import processes

FOR_ARM = {compilers.DEBIANS_RUSTC: "rustc-web", "aarch64-linux-gnu-as": "binutils-aarch64-linux-gnu"}


def main():
    options = processes.options(__doc__)
    options.add_argument("--target", choices=("x86-64", "aarch64"), default="x86-64", help="processor")
    given = options.parse_args()
    if given.target == "x86-64":
        tools.install_packages({"rustc": "rustc-web", "gcc": "gcc", "objdump": "binutils"})
        return processes.run(tasks.choose(given, compilers.for_x86()), given.jobs)
    tools.install_packages(FOR_ARM)
    with tempfile.TemporaryDirectory(prefix="rust-object-") as workdir:
        root = arm_roots.debian_root(os.path.join(workdir, "debian"), "libstd-rust-web-dev")
        found = compilers.for_arm(root, os.path.join(workdir, "sysroot"))
        return processes.run(tasks.choose(given, found), given.jobs)
