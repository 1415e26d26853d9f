"""Compares the C library's assembly source for 64-bit ARM, c/asm/aarch64.s, and the cargo crate's, rust/asm/aarch64.s,
with the definitions of the hashes in specs/, for all bytes, all seeds and all bytes of a secret, like
oracle/machine-text for x86-64.

  oracle/arm-text                 one-shots of 0 to 300 bytes, XXH32 and XXH64 of every length, streams in a sample,
                                  refusals, the other calls, and each instruction of the table compared with qemu
  oracle/arm-text --all           XXH3 of every length with any secret, and streams of any updates
  oracle/arm-text --only WORD     only the tasks with that word
  oracle/arm-text --jobs NUMBER   number of processes (default: 2)

It needs binutils for 64-bit ARM, clang, rustc and qemu, and installs missing packages with apt-get. The last line is "N
passed, M failed"; the exit status is 1 if one failed."""

from checks.lib import tools
from oracle.machine_code.aarch64 import tasks
from oracle.symbolic_terms import processes


def main():
    given = processes.options(__doc__).parse_args()
    tools.install_packages(
        {
            "aarch64-linux-gnu-as": "binutils-aarch64-linux-gnu",
            "clang": "clang",
            "rustc": "rustc-web",
            "qemu-aarch64": "qemu-user",
            "make": "make",
            "aarch64-linux-gnu-gcc": "gcc-aarch64-linux-gnu",
            "/usr/aarch64-linux-gnu/include/stdio.h": "libc6-dev-arm64-cross",
            "/usr/include/xxhash.h": "libxxhash-dev",
        }
    )
    return processes.run(tasks.choose(given, tasks.program()), given.jobs)
