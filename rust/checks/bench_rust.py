"""Benchmarks the cargo crate against Debian's xxhash-rust and, with --original, against twox-hash 2.1.5, and prints
tables in Markdown:

    rust/bench [--turns N] [--rounds N] [--original FOLDER]

A call's time is the minimum of N turns (150 by default) of some 20 microseconds, which the peers take in turn in one
process. Its ratio is the peer's time over ours, so that 1 is equal and more is faster: the median over seven builds and
over the rounds of each (3). The builds differ in their codegen units, and three have no branch across 32 bytes: on
Intel's processors from Skylake to Cascade Lake such a branch makes a loop slower, which changes single builds by a
fifth.

Another table has the time of `get` of a `HashMap` of 1,024 keys, divided by that with the standard library's SipHash.

The crate is compiled as by cargo, for this processor, and without assembly source. FOLDER has the sources of
twox-hash 2.1.5. After a change of crates/, first run `rust/erase` and `rust/build-library --update`. It installs
missing Debian packages."""
import datetime
import os
import re
import shutil
import subprocess
import tempfile
from statistics import geometric_mean, median

from checks.lib import command
from rust.checks.workspace import Workspace, install_packages, must

# Ways to compile: a name and flags of rustc. Each is built with these further flags and codegen units.
ALGORITHMS = (
    ('plain', ''),
    ('native', '-C target-cpu=native'),
    ('without assembly source', '--cfg twox_hash_no_assembly'),
)
ALIGNED = '-C llvm-args=-x86-branches-within-32B-boundaries'
BUILDS = (('', 16), ('', 1), ('', 4), ('', 256), (ALIGNED, 16), (ALIGNED, 1), (ALIGNED, 4))
HASHERS = ('XXH3', 'XXH64', '`twox-hash`, XXH3', '`twox-hash`, XXH64')


def is_of(least, most, streams=None):
    """Rows of one-shots, or of streams of some hashes, of this many bytes at once."""

    def holds(name, of):
        found = re.fullmatch(r'(\d+ by )?(\d+)', of)
        is_stream = bool(found and found[1])
        return found and least <= int(found[2]) <= most and is_stream == bool(streams) and re.match(streams or '', name)

    return holds


def is_named(begin):
    return lambda name, of: name.startswith(begin)


GROUPS = (
    ('one-shots of 0 to 16 bytes', is_of(0, 16)),
    ('one-shots of 17 to 128 bytes', is_of(17, 128)),
    ('one-shots of 129 to 240 bytes', is_of(129, 240)),
    ('one-shots of 241 bytes to 1 KiB', is_of(241, 1024)),
    ('one-shots of 16 KiB to 1 MiB', is_of(1025, 1 << 20)),
    ('streams of XXH32 and XXH64 in chunks of 1 to 64 bytes', is_of(1, 64, 'XXH(32|64)')),
    ('streams of XXH32 and XXH64 in chunks of 128 to 4,096 bytes', is_of(65, 4096, 'XXH(32|64)')),
    ('streams of XXH3 in chunks of 1 to 64 bytes', is_of(1, 64, 'XXH3')),
    ('streams of XXH3 in chunks of 128 to 4,096 bytes', is_of(65, 4096, 'XXH3')),
    ("a map's key that is a `u64`", is_named("a map's u64")),
    ("a map's key that is a tuple", is_named("a map's tuple")),
    ("a map's key that is a string", is_named("a map's string")),
    ('XXH3 of 64 bits: `with_seed`, 8 bytes, `finish`', is_named('XXH3 64 with_seed')),
)


def builds_of(workspace, flags, args):
    """The pairs of programs `speed` and `maps` of a way to compile."""
    folder, programs = os.path.join(workspace.rust, 'checks', 'speed'), []
    for further, units in BUILDS:
        environment = workspace.environment(flags=f'{flags} {further}', CARGO_PROFILE_RELEASE_CODEGEN_UNITS=str(units))
        must([workspace.cargo_program, 'build', '-q', '--release', *args], cwd=folder, env=environment)
        copies = [f'{workspace.path}/{name}-{len(os.listdir(workspace.path))}' for name in ('speed', 'maps')]
        for name, copy in zip(('speed', 'maps'), copies):
            shutil.move(os.path.join(workspace.build_dir, name), copy)
        programs.append(copies)
    return programs


def measured(programs, turns, rounds):
    """For each row, by name and size: a time for each peer in each run."""
    runs_by_case = {}
    for program in programs * rounds:
        for line in must([program, str(turns)]).splitlines():
            name, of, *times = line.split('\t')
            runs_by_case.setdefault((name, of), []).append([float(time) for time in times])
    return runs_by_case


def measured_maps(programs, rounds):
    """For each key: a time for each hasher in each build, SipHash first."""
    cases = {}
    for program in programs:
        for line in must([program, str(100 * rounds)]).splitlines():
            key, *times = line.split('\t')
            cases.setdefault(key, []).append([float(time) for time in times])
    return cases


def print_maps(cases):
    hashers = HASHERS[: len(next(iter(cases.values()))[0]) - 1]
    print('\n| key | SipHash, ns | ' + ' | '.join(hashers) + ' |\n|---|---' + '|---' * len(hashers) + '|')
    for key, runs in cases.items():
        ratios = (median(times[1 + at] / times[0] for times in runs) for at in range(len(hashers)))
        print(
            f'| {key} | {median(times[0] for times in runs):.1f} | '
            + ' | '.join(f'{ratio:.2f}' for ratio in ratios)
            + ' |'
        )


def ratios(runs):
    """For each peer the median of its time over ours."""
    return [median(times[1 + at] / times[0] for times in runs) for at in range(len(runs[0]) - 1)]


def cell(found):
    low, high = min(found), max(found)
    return f'{median(found):.2f}' if len(found) == 1 else f'{median(found):.2f} ({low:.2f} to {high:.2f})'


def print_groups(tables, peers):
    titles = [f'{peer}, {title}' for title, _ in tables for peer in peers]
    print('\n| what | ' + ' | '.join(titles) + ' |\n|---' + '|---' * len(titles) + '|')
    for group, holds in GROUPS:
        found = [
            [ratios(runs)[at] for key, runs in runs_by_case.items() if holds(*key)]
            for _, runs_by_case in tables
            for at in range(len(peers))
        ]
        print(f'| {group} | ' + ' | '.join(map(cell, found)) + ' |')


def print_table(title, runs_by_case, peers):
    print(f'\n{title}:\n')
    print('| call | bytes | here, ns | ' + ' | '.join(peers) + ' |\n|---|---|---' + '|---' * len(peers) + '|')
    for (name, of), runs in runs_by_case.items():
        shown = ' | '.join(f'{ratio:.2f}' for ratio in ratios(runs))
        print(f'| {name} | {of} | {median(times[0] for times in runs):.1f} | {shown} |')


def print_counts(tables, peers):
    for title, runs_by_case in tables:
        for at, peer in enumerate(peers):
            found = {key: ratios(runs)[at] for key, runs in runs_by_case.items()}
            (name, of), lowest = min(found.items(), key=lambda item: item[1])
            print(
                f'{title}, {peer}: {len(found)} rows, geometric mean {geometric_mean(found.values()):.2f}, '
                f'{sum(ratio < 0.95 for ratio in found.values())} below 0.95, the lowest {lowest:.2f} '
                f'({name}, {of})'
            )


def processor():
    with open('/proc/cpuinfo') as file:
        return re.search(r'model name\s*: (.*)', file.read())[1]


def main():
    parser = command.parser(__doc__)
    parser.add_argument('--turns', type=int, default=150, help='turns of a round')
    parser.add_argument('--rounds', type=int, default=3, help='rounds, each with other builds')
    parser.add_argument(
        '--original', metavar='FOLDER', help='also measure the sources of twox-hash 2.1.5 in this folder'
    )
    chosen = parser.parse_args()
    install_packages()
    with tempfile.TemporaryDirectory() as path:
        workspace = Workspace(path)
        peers, features = ['xxhash-rust'], []
        if chosen.original:
            workspace.add_original(os.path.join(workspace.rust, 'checks', 'speed'), chosen.original)
            peers, features = peers + ['twox-hash'], ['--features', 'original']
        programs = [(title, builds_of(workspace, flags, features)) for title, flags in ALGORITHMS]
        load = os.getloadavg()[0]
        tables = [
            (title, measured([speed for speed, _ in pairs], chosen.turns, chosen.rounds)) for title, pairs in programs
        ]
        maps = measured_maps([maps for _, maps in programs[0][1]], chosen.rounds)
    rustc = subprocess.run(['rustc', '--version'], stdout=subprocess.PIPE, text=True).stdout.strip()
    print(
        f'{datetime.date.today()}, {processor()}, {rustc}, load average {load:.1f} before it, {chosen.turns} turns a '
        f'row in '
        f'{chosen.rounds} rounds of each of {len(BUILDS)} builds.\n'
    )
    print_counts(tables, peers)
    print_groups(tables, peers)
    print_maps(maps)
    for title, runs_by_case in tables:
        print_table(title, runs_by_case, peers)
