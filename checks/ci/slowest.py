"""Proves crates from nothing, and lists the functions whose proofs take the longest:

    checks/slowest [--test] CRATE..

A function's time is from the end of the proof before it to the end of its own, in one process. So it includes that
of the lemmas that it is the first to need, and the first one's that of the start. --test includes a crate's tests.
Run it on an idle machine."""
import os
import re
import subprocess
import sys
import time

from checks.lib import command
from checks.mutants import toolchain

MOST = 10
ENDED = re.compile(r"checked (\S+), \d+ of \d+")


def times(crate, is_test):
    """The seconds of each function's proof, and of the whole check."""
    args = crate.words([*toolchain.one_job(), "--progress"], tests=is_test, keeps=False)
    how = {"cwd": crate.folder, "stdin": subprocess.DEVNULL, "stdout": subprocess.PIPE, "stderr": subprocess.STDOUT}
    began = last = time.monotonic()
    found = {}
    with subprocess.Popen(
        [*toolchain.rt.rtlib.guarded(), toolchain.rt.rtlib.RATTLE, "check", *args], text=True, errors="replace", **how
    ) as check:
        for line in check.stdout:
            now = time.monotonic()
            if ended := ENDED.match(line):
                found[ended[1]], last = now - last, now
    if check.returncode:
        sys.exit(f"slowest: {crate.name} is not proved")
    return found, time.monotonic() - began


def main():
    parser = command.parser(__doc__)
    parser.add_argument("--test", action="store_true", help="also prove the crates' tests")
    parser.add_argument("crates", nargs="+", metavar="CRATE", help="the crates to prove")
    given = parser.parse_args()
    os.chdir(toolchain.TOP)
    crates = toolchain.crates()
    for name in given.crates:
        crate = crates.get(name) or sys.exit(f"slowest: crates.txt has no {name}")
        for below in crate.below():
            toolchain.build_library(below)
        found, whole = times(crate, given.test)
        print(f"{name}: {len(found)} functions, {whole:.0f} s")
        for function, took in sorted(found.items(), key=lambda it: -it[1])[:MOST]:
            print(f"  {took:5.1f} s  {function.partition('::')[2]}", flush=True)
