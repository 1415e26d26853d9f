"""Compares the speed of `xxhsum` with Debian's, by the wall time of whole runs, writes bench/data/xxhsum.tsv,
and draws docs/SPEED.md:

    bench/xxhsum ORIGINAL OURS_V2 OURS_V3 [--quick]

OURS_V2 and OURS_V3 are the program as `c/install --cpu` builds it for each instruction set. The input is in the page
cache: a file of 1 GiB by each hash, and 100,000 files of 4 KiB by two. All programs take turns, in rounds; a ratio
is the original's best time over ours. --quick uses a sixteenth of the bytes and files, and writes nothing."""
import os
import platform
import subprocess
import tempfile
import time

from bench import rounds
from checks.lib import command
from checks.lib.tools import TOP

HASHES = {"XXH32": "-H0", "XXH64": "-H1", "XXH3-64": "-H3", "XXH3-128": "-H2"}
ROUNDS = 9
MIB = 1 << 20


def seconds(program, args):
    began = time.perf_counter()
    subprocess.run([program, *args], check=True, stdout=subprocess.DEVNULL, stderr=subprocess.DEVNULL)
    return time.perf_counter() - began


def times(programs, args):
    """The best and the middle time of each program, which take turns."""
    rounds = [[seconds(it, args) for it in programs] for _ in range(ROUNDS)]
    return [(min(of), sorted(of)[ROUNDS // 2]) for of in zip(*rounds)]


def lay_out(mebibytes, files):
    with open("large", "wb") as file:
        for _ in range(mebibytes):
            file.write(b"x" * MIB)
    for number in range(files):
        with open(str(number), "wb") as file:
            file.write(number.to_bytes(4, "little") * 1024)


def main():
    parser = command.parser(__doc__)
    parser.add_argument("programs", nargs=3, metavar="PROGRAM", help="the programs to compare")
    parser.add_argument("--quick", action="store_true", help="hash less")
    given = parser.parse_args()
    programs = [os.path.abspath(it) for it in given.programs]
    mebibytes, files = (64, 6250) if given.quick else (1024, 100000)
    load = " ".join(f"{it:.2f}" for it in os.getloadavg())
    lines = []
    with tempfile.TemporaryDirectory() as workdir:
        os.chdir(workdir)
        lay_out(mebibytes, files)
        works = {f"{mebibytes} MiB, {name}": [flag, "large"] for name, flag in HASHES.items()}
        for name in ("XXH64", "XXH3-128"):
            works[f"{files:,} files of 4 KiB, {name}"] = [HASHES[name], *map(str, range(files))]
        for name, args in works.items():
            (best, _), *ours = times(programs, args)
            lines.append("\t".join([name, f"{best:.3f}", *(f"{best / it:.2f}" for it, _ in ours)]))
            print(lines[-1], flush=True)
        os.chdir(TOP)
    if given.quick:
        return
    with open(f"{TOP}/bench/data/xxhsum.tsv", "w", encoding="utf-8") as out:
        commit = rounds.command("git", "rev-parse", "--short=8", "HEAD")
        out.write(
            f"# `xxhsum` beside Debian's, on {time.strftime('%Y-%m-%d')}, at commit {commit}, on {rounds.processor()}, "
            f"load average {load} before, Linux {platform.release()}: the best of {ROUNDS} rounds. Columns: what, the "
            "original's seconds, its time over ours at x86-64-v2 and at x86-64-v3.\n"
        )
        out.write("\n".join(lines) + "\n")
    subprocess.run([f"{TOP}/bench/page", "--record", "xxhsum"], check=True)
