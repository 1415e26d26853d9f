"""Benchmarks the `xxhsum` that cargo builds, against the one that rt builds and Debian's:

    rust/programs/bench OURS PROVED ORIGINAL [--quick]

The input is in memory, below /dev/shm: 1 GiB by each hash, 100,000 files of 4 KiB by two, and `-c` of their lists.
The programs take turns, in nine rounds, and a ratio is the best time of PROVED or ORIGINAL over that of OURS: above
1, ours is faster. A measurement below 0.97 fails, and so does a start that takes 2 ms. --quick uses a sixteenth of
the bytes and files. Other work on the machine makes the figures useless: the output begins with its amount. It needs
1.5 GB of memory, and installs nothing. The last line is "N passed, M failed"."""
import os
import subprocess
import sys
import tempfile
import time

from checks.lib import command
from checks.lib.report import Report
from checks.lib.tools import write

HASHES = {'XXH32': '-H0', 'XXH64': '-H1', 'XXH3 of 64 bits': '-H3', 'XXH3 of 128 bits': '-H2'}
OF_FILES = ('XXH64', 'XXH3 of 128 bits')
ROUNDS, STARTS = 9, 300
LEAST, MOST_START = 0.97, 0.002


def seconds(program, args):
    began = time.perf_counter()
    subprocess.run([program, *args], check=True, stdout=subprocess.DEVNULL, stderr=subprocess.DEVNULL)
    return time.perf_counter() - began


def best_times(programs, args, rounds=ROUNDS):
    """The best time of each program, which take turns."""
    return [min(times) for times in zip(*([seconds(it, args) for it in programs] for _ in range(rounds)))]


def lay_out(mebibytes, files):
    with open('large', 'wb') as file:
        for number in range(mebibytes):
            file.write(number.to_bytes(4, 'little') * 2**18)
    for number in range(files):
        write(str(number), number.to_bytes(4, 'little') * 1024)


def works(original, mebibytes, files):
    """What is measured, and its arguments. Debian's release supports no list of XXH3 64-bit."""
    for name, flag in HASHES.items():
        yield f'{mebibytes} MiB, {name}', [flag, 'large']
    names = [str(number) for number in range(files)]
    for name in OF_FILES:
        yield f'{files:,} files of 4 KiB, {name}', [HASHES[name], *names]
        with open(f'list{HASHES[name]}', 'wb') as file:
            subprocess.run([original, HASHES[name], *names], check=True, stdout=file, stderr=subprocess.DEVNULL)
        yield f'-c of these, {name}', ['-c', f'list{HASHES[name]}']


def measure(report, programs, mebibytes, files):
    ours, _, original = programs
    for name, args in works(original, mebibytes, files):
        best, proved, theirs = best_times(programs, args)
        ratios = proved / best, theirs / best
        summary = f'{best:.3f} s; {ratios[0]:.2f} beside PROVED, {ratios[1]:.2f} beside ORIGINAL'
        report.record(name, summary if min(ratios) < LEAST else None, summary)
    start = best_times([ours], ['--version'], STARTS)[0]
    report.record('a start', f'{start * 1000:.2f} ms' if start > MOST_START else None, f'{start * 1000:.2f} ms')


def main():
    parser = command.parser(__doc__)
    parser.add_argument('programs', nargs=3, metavar='PROGRAM', help='the programs to compare')
    parser.add_argument('--quick', action='store_true', help='hash less')
    chosen, report = parser.parse_args(), Report()
    programs = [os.path.abspath(program) for program in chosen.programs]
    print(f'load average {" ".join(f"{it:.2f}" for it in os.getloadavg())} of {os.cpu_count()} processors')
    with tempfile.TemporaryDirectory(dir='/dev/shm') as workdir:
        os.chdir(workdir)
        sizes = (64, 6250) if chosen.quick else (1024, 100_000)
        lay_out(*sizes)
        measure(report, programs, *sizes)
        os.chdir('/')
    sys.exit(report.end())
