"""Writes measured.tsv, c.tsv or header.tsv from what the drivers and the programs measured in their rounds:

    bench.rounds FOLDER DATA FILE_SIZE LOAD_BEFORE LOAD_AFTER
    bench.rounds --shared FOLDER FILE LOAD_BEFORE LOAD_AFTER
    bench.rounds --header LINES FILE LOAD_BEFORE LOAD_AFTER
"""
import datetime
import glob
import os
import statistics
import subprocess
import sys

from bench import figures, measured

MIB = 1 << 20


def row(part, key, cell):
    form, name, size = key
    peers = {}
    for peer in cell:
        if peer != "ours":
            ratios = figures.ratios(cell, peer, "ours")
            best = min(cell[peer]) / min(cell["ours"])
            peers[peer] = measured.Ratio(statistics.median(ratios), 100 * figures.spread(ratios), best)
    # A stream is timed for 1 MiB.
    speed = (size if form in ("oneshot", "kernel") else MIB) / statistics.median(cell["ours"])
    return measured.Row(part, form, name, size, speed, 100 * figures.spread(cell["ours"]), peers)


def rows_of(workdir, folder, part):
    return [row(part, *it) for it in figures.rows(sorted(glob.glob(os.path.join(workdir, folder, "round_*")))).items()]


def programs(workdir, file_size):
    """`xxh` beside `xxhsum`: their seconds for a file, and for a pipe."""
    times = {}
    with open(os.path.join(workdir, "programs.txt")) as lines:
        for line in lines:
            way, algorithm, *seconds = line.split()
            times.setdefault((algorithm, way), []).append(tuple(map(float, seconds)))
    for (algorithm, way), pairs in times.items():
        ours, theirs = zip(*pairs)
        ratios = [b / a for a, b in pairs]
        peer = measured.Ratio(statistics.median(ratios), 100 * figures.spread(ratios), min(theirs) / min(ours))
        speed = file_size / statistics.median(ours) / 1e9
        yield measured.Row("program", way, algorithm, file_size, speed, 100 * figures.spread(ours), {"xxhsum": peer})


def command(*args: str) -> str:
    done = subprocess.run(args, capture_output=True, text=True)
    return (done.stdout.strip() or done.stderr.strip()).split("\n")[0]


def processor() -> str:
    with open("/proc/cpuinfo") as lines:
        return next(
            (it.split(":", 1)[1].strip() for it in lines if it.startswith("model name")), "an unknown processor"
        )


def machine():
    """The date, the commit and the machine."""
    commit = command("git", "rev-parse", "--short=8", "HEAD")
    return (
        f"Measured on {datetime.date.today().isoformat()}, at commit {commit}, on {processor()} with {os.cpu_count()} "
        f"virtual "
        f"cores ({command('uname', '-sr')})."
    )


def load(before, after):
    return f"Load average {before} before the run and {after} after it, of which the run itself is 1."


def origin(before, after, peers):
    """The machine, and what built the peers."""
    rust = os.path.basename(glob.glob("/usr/share/cargo/registry/xxhash-rust-*")[0])
    return [
        machine(),
        f"Compilers: {command('gcc', '--version')}; {command('clang', '--version')}; {command('rustc', '--version')}.",
        f"Peers: {command('xxhsum', '--version')}; {rust}{'; twox-hash 2.1.5' if 'twox_hash' in peers else ''}.",
        load(before, after),
        "Each function begins at a multiple of 64, ours and the peers' alike, at another position in each round, "
        "because "
        "the time of a few nanoseconds depends on the position. Debian's library is as Debian made it.",
    ]


def all_tables(workdir, data, file_size, before, after):
    sets = sorted(os.path.basename(path) for path in glob.glob(os.path.join(workdir, "x86-64-v?")))
    rows = [it for name in sets for it in rows_of(workdir, name, name)]
    comments = origin(before, after, rows[0].peers)
    measured.write(comments, [*rows, *programs(workdir, int(file_size))], os.path.join(data, "measured.tsv"))


def shared(workdir, file, before, after):
    """The two shared libraries, of which only XXH3 has the names `.._dispatch`."""
    rows = rows_of(workdir, "c", "c") + [
        it for it in rows_of(workdir, "dispatch", "dispatch") if it.name.startswith("XXH3-")
    ]
    measured.write([machine(), load(before, after)], rows, file)


def header(lines, file, before, after):
    """The cases of each build: build, case, their time over ours, our nanoseconds."""
    with open(lines) as found, open(file, "w") as out:
        out.writelines(f"# {it}\n" for it in (machine(), load(before, after)))
        out.write(found.read())


def main():
    by_option = {"--shared": shared, "--header": header}.get(sys.argv[1])
    by_option(*sys.argv[2:]) if by_option else all_tables(*sys.argv[1:])
