"""Proves and tests everything: the checks that a change must pass.

    checks/all [--anew]

It works on a copy of the tree. What this machine has proved or seen refused before isn't tried again, except with
--anew, which runs everything as on a new machine. The parts and the minimum number of checks of each are in one list
below: a part that has fewer, or no counts in its last line, fails. The mutants of a crate are tried as soon as `rt
ci` has proved it, in parallel with the crates above. The checks for users without `rt` run in parallel with the
proofs, and so do those over symbols; the assembly source is compared with the proved code after them. Each part
prints its time and its processor time. Before the last line it prints the maximum memory in use beyond that at the
start. The last line is "N passed, M failed" over all parts; the status is 1 if one failed. It needs `rt`, and
installs missing Debian packages."""
import os
import re
import shutil
import tempfile
import threading
import time

from checks.lib import command
from checks.lib.report import Report
from checks.lib.tools import TOP, ran, text_of

from .parts import Part

# Each part: its title, its minimum number of checks, and its command.
BESIDE_PROOFS = [
    ("the library for C without rt", 22, "c/check --without-rt"),
    ("the cargo crate without rt", 37, "rust/check --without-rt"),
    ("the eraser, and the source that it wrote", 402, "rust/checks/eraser"),
    ("scripts, and what is no Rattle", 20, "checks/lint"),
    ("the commands of the pages, as they are printed", 6, "checks/pages"),
    ("what the gate has to notice", 11, "checks/planted"),
    # Over symbols, for all bytes: they use the processors that the proofs leave idle.
    ("the definitions beside the reference's code", 32, "nice -n10 oracle/symbolic"),
    ("the C header beside the definitions", 120, "nice -n10 oracle/symbolic --headers c/include"),
    ("the C source as gcc and clang compile it, beside the definitions", 72, "nice -n10 oracle/c-object"),
    ("the assembly text beside the definitions", 140, "nice -n10 oracle/machine-text"),
    ("the crate's calls, as rustc compiles them, beside the definitions", 95, "nice -n10 oracle/rust-object"),
    ("the modules for browsers beside the definitions", 53, "nice -n10 oracle/modules"),
    ("changes of the verifier, and its tests of values", 30, "nice -n10 oracle/mutate --values --seconds 60"),
]
BEFORE_PROOFS = [
    ("the table beside the reference library", 4, "oracle/make-vectors --check"),
    ("proofs of outside vectors, beside the table", 5, "oracle/make-proofs --check"),
]
AFTER_PROOFS = [
    ("the assembly text beside what is proved", 48, "assembly/check --of-ci"),
    ("the modules for browsers beside what is proved", 2, "web/build --of-ci"),
    ("the check of wrong bodies, on planted ones", 23, "checks/wrong-bodies --self-test twox_words xxhsum_options"),
    ("both programs, as cargo builds them", 1170, "rust/programs/check --of-ci"),
]
XXHSUM = "crates/xxhsum/out/xxhsum"
OF_PROGRAMS = [
    ("the program `xxh`", 196, "checks/program --of-ci"),
    ("the program `xxhsum`", 993, f"checks/xxhsum --stored {XXHSUM} {XXHSUM}.by-rattle"),
    ("many names, files, reads and arguments", 16, f"checks/xxhsum-many {XXHSUM} {XXHSUM}.by-rattle"),
    ("failing system calls", 1200, f"checks/failing_calls --readdir {XXHSUM} crates/xxh/out/xxh"),
]


def memory_in_use():
    kib = dict(re.findall(r"^(\w+): +(\d+)", text_of("/proc/meminfo"), re.M))
    return (int(kib["MemTotal"]) - int(kib["MemAvailable"])) / 2**20


class MostMemory(threading.Thread):
    """Samples once a second how much memory is in use."""

    def __init__(self):
        super().__init__(daemon=True)
        self.start_value = self.most = memory_in_use()
        self.start()

    def run(self):
        while True:
            self.most = max(self.most, memory_in_use())
            time.sleep(1)


def copied(workdir):
    """A copy of the tree, with nothing that was built in it."""
    top = f"{workdir}/{os.path.basename(TOP)}"
    shutil.copytree(TOP, top, symlinks=True, ignore=shutil.ignore_patterns(".git", "out", "target", "__pycache__"))
    return top


def args_for_ci(workdir, anew):
    """Arguments by which `rt ci` also proves what this machine has kept. Release 13b keeps nothing, and prints its
    usage for such an argument."""
    return [] if ran(["rt", "ci", *anew], cwd=workdir).stdout.startswith("usage:") else anew


def parts(top, anew):
    """Runs the parts, each with the minimum number of its checks, and returns their results. Parts that are started
    before they are followed run in parallel with the others. `anew` are the arguments for `rt ci`."""

    def started(title, least, line, *more):
        return Part(top, title, least, *line.split(), *more)

    yield started("what the pages quote", 23, "checks/readme").follow()
    wrong_bodies = started("wrong bodies, beside and after the proofs", 1115, "checks/wrong-bodies --beside-ci")
    beside = [started(*part) for part in BESIDE_PROOFS]
    yield from (started(*part).follow() for part in BEFORE_PROOFS)
    yield started("proofs, tests and programs", 36, "rt ci", *anew).follow(hearer=wrong_bodies)
    after = [started(*part) for part in AFTER_PROOFS]
    yield from (started(*part).follow() for part in OF_PROGRAMS)
    for part in [*beside, *after[:2], wrong_bodies, *after[2:]]:
        yield part.follow()


def main():
    parser = command.parser(__doc__)
    parser.add_argument("--anew", action="store_true", help="use no result of an earlier run")
    anew = ["--anew"] if parser.parse_args().anew else []
    began, memory, report = time.monotonic(), MostMemory(), Report()
    with tempfile.TemporaryDirectory(prefix="checks-all-") as workdir:
        if anew:
            os.environ["XDG_CACHE_HOME"] = f"{workdir}/cache"
        summaries, passed, failed = zip(*parts(copied(workdir), args_for_ci(workdir, anew)))
    print("", *summaries, sep="\n")
    print(f"in all: {(time.monotonic() - began) / 60:.1f} minutes, {memory.most - memory.start_value:.1f} GB of memory")
    report.count(sum(passed), sum(failed))
    return report.end()
