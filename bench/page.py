"""Draws docs/SPEED.md, from bench/speed.md.in, and docs/speed.svg from bench/data:

    bench/page [--check | FOLDER | --record NAME..]

With --check it checks that the page in docs is up to date; with a folder, it reads the data and writes the page there.
--record stores the checksum of the code that a measurement ran, by the names of bench/objects.py, and draws the page:
the page marks a measurement as older than this version if that code has changed since. The tables of `rust/bench`,
`rust/programs/bench`, `python/bench` and `web/bench` are copied from bench/data."""
import math
import re
import statistics
import string
import sys
from pathlib import Path
from typing import Iterable, Optional, Sequence

from bench import figures, measured, objects
from bench.measured import Row
from checks.lib import command
from checks.lib.tools import TOP

SETS = ["x86-64-v2", "x86-64-v3"]
PEERS = ["c_gcc", "c_clang", "c_shared", "xxhash_rust"]
COLOURS = {"ours": "#c0392b", "c_gcc": "#2c3e50", "c_clang": "#2980b9", "c_shared": "#7f8c8d", "xxhash_rust": "#e67e22"}
STREAMS = ("inlined", "called")
FORMS = {"oneshot": "one-shot", "inlined": "chunks, inlined", "called": "chunks, called", "stream": "chunks"}
KIB, MIB = 1 << 10, 1 << 20
DATA = f"{TOP}/bench/data"
TEMPLATE = f"{TOP}/bench/speed.md.in"
LOWEST = 4

# The lines of a table: the name, the forms, and the sizes from and to.
SUMMARY = [
    ("one-shots of 4 to 16 bytes", ("oneshot",), 4, 16),
    ("one-shots of 32 to 240 bytes", ("oneshot",), 32, 240),
    ("one-shots of 256 bytes to 16 KiB", ("oneshot",), 256, 16 * KIB),
    ("one-shots of 64 KiB to 1 MiB", ("oneshot",), 64 * KIB, MIB),
    ("one-shots of 2 to 64 MiB", ("oneshot",), 2 * MIB, 64 * MIB),
    ("streams in chunks of 1 to 40 bytes", STREAMS, 1, 40),
    ("streams in chunks of 64 to 1,000 bytes", STREAMS, 64, 1000),
    ("streams in chunks of 4 and 64 KiB", STREAMS, 4096, 65536),
]
SHARED = [
    ("one-shots of 1 to 16 bytes", ("oneshot",), 1, 16),
    ("one-shots of 32 to 240 bytes", ("oneshot",), 32, 240),
    ("one-shots of 256 bytes to 1 MiB", ("oneshot",), 256, MIB),
    ("one-shots of 4 to 64 MiB", ("oneshot",), 4 * MIB, 64 * MIB),
    ("streams in chunks of 1 to 64 bytes", ("stream",), 1, 64),
    ("streams in chunks of 100 to 255 bytes", ("stream",), 100, 255),
    ("streams in chunks of 256 bytes to 64 KiB", ("stream",), 256, 65536),
]
HEADER = [
    ("one-shots of constant length, 4 to 16 bytes", r"constant"),
    ("one-shots of 0 to 64 bytes", r"0 to 64"),
    ("one-shots of 128 to 240 bytes", r", (128|2.0)$"),
    ("one-shots of 1 and 64 KiB", r"KiB"),
    ("streams", r"^stream"),
]
DISPATCH = [
    ("one-shots of", "oneshot", (16, 240, KIB, 4 * KIB, 16 * KIB, 64 * KIB, MIB)),
    ("streams in chunks of", "stream", (64, 1000, 4 * KIB, 64 * KIB)),
]


def markdown(head: Sequence[str], rows: Iterable[Sequence[str]]) -> list[str]:
    return (
        ["| " + " | ".join(head) + " |", "|---" * len(head) + "|"]
        + ["| " + " | ".join(row) + " |" for row in rows]
        + [""]
    )


def ranged(values):
    return "not measured" if not values else f"{statistics.median(values):.2f} ({min(values):.2f} to {max(values):.2f})"


def best(row: Row) -> float:
    return row.best_peer(PEERS)[1].median


def chosen(rows, forms, low, high, names=None):
    return [it for it in rows if it.form in forms and low <= it.size <= high and (not names or it.name in names)]


def summary(parts, ratio):
    lines = [
        [name, *(ranged([ratio(it) for it in chosen(parts[s], forms, low, high)]) for s in SETS)]
        for name, forms, low, high in SUMMARY
    ]
    return markdown(["what", "x86-64-v2, the default", "x86-64-v3"], lines)


def data_of(name: str) -> list[str]:
    return Path(f"{DATA}/{name}.tsv").read_text().splitlines()


def age(code, sums=None):
    """The end of the line below a table."""
    sums = sums or objects.stored()
    why = (
        "this repository does not have that commit"
        if sums[code] == "unknown"
        else "the measured code has changed since"
    )
    return f" Older than this version: {why}." if objects.is_older(code, sums) else ""


def origin(name: str, first: Optional[str] = None) -> re.Match[str]:
    """The date, the commit and the processor of a file of data, from its first line."""
    found = re.search(
        r"(on (\d{4}-\d\d-\d\d), (?:at|stored by) commit) (\w+), on (.+?)(?: and rustc|, | \(|\.$|\. )",
        first or data_of(name)[0],
    )
    if not found:
        sys.exit(
            f"bench/data/{name}.tsv: the first line has no date, commit and processor, as in "
            "`on 2026-11-29, at commit 766c1647, on an Intel Xeon`"
        )
    return found


def when(name, first=None, code=None):
    """The origin of a file of data, as a line below a table."""
    found = origin(name, first)
    return [f"Measured {found[1]} `{found[3]}`, on {found[4]}.{age(code or name)}", ""]


def copied(name):
    """A table that another program printed, and the sentences on how it was measured."""
    lines = data_of(name)
    origin(name)
    comments = [it[2:] for it in lines if it.startswith("# ")]
    return [*counted(name), *(line for it in [comments[0] + age(name), *comments[1:]] for line in (it, ""))]


def counted(name):
    head, *rows = [it.split("\t") for it in data_of(name) if not it.startswith("# ")]
    return markdown(head, rows)


def twox_hash(parts):
    """The lines beside the Rust crate whose names ours has, where bench/run was given its sources."""
    rows = {s: [it for it in parts[s] if "twox_hash" in it.peers] for s in SETS}
    if not all(rows.values()):
        return []
    return [
        "## Beside the Rust crate `twox-hash`",
        "",
        "The crate's sources, 2.1.5, built for the same instruction set. At x86-64-v2 too, it uses AVX2 if the "
        "processor has it.",
        "",
        *summary(rows, lambda it: it.peers["twox_hash"].median),
    ]


def lowest(parts):
    rows = [(best(it), s, it) for s in SETS for it in parts[s] if it.form in FORMS]
    lines = []
    for value, part, row in sorted(rows, key=lambda it: it[0])[:LOWEST]:
        lines.append([part, FORMS[row.form], row.name, figures.size(row.size), f"{value:.2f}", row.best_peer(PEERS)[0]])
    return markdown(["instruction set", "form", "hash", "size", "ratio", "peer"], lines)


def shared(rows):
    lines = []
    for name, forms, low, high in SHARED:
        ratios = {it: it.peers["c_shared"].median for it in chosen(rows, forms, low, high)}
        of_xxh3 = [it for row, it in ratios.items() if row.name.startswith("XXH3-")]
        lines.append(
            [name, ranged([it for row, it in ratios.items() if not row.name.startswith("XXH3-")]), ranged(of_xxh3)]
        )
    return markdown(["what", "XXH32, XXH64", "XXH3"], lines)


def dispatch(rows):
    """The calls `.._dispatch`, of both widths."""
    ratios = {(it.form, it.size, it.name): f"{it.peers['c_shared'].median:.2f}" for it in rows}
    lines = [
        [
            f"{name} {figures.size(size).replace(' B', ' bytes')}",
            *(ratios[form, size, width] for width in ("XXH3-64", "XXH3-128")),
        ]
        for name, form, sizes in DISPATCH
        for size in sizes
    ]
    return markdown(["what", "64 bits", "128 bits"], lines)


def header():
    """The cases of bench/header, of each compiler."""
    rows = [it.split("\t") for it in data_of("header") if not it.startswith("#")]
    lines = [
        [
            title,
            *(
                ranged([float(it[2]) for it in rows if it[0].startswith(compiler) and re.search(cases, it[1])])
                for compiler in ("gcc", "clang")
            ),
        ]
        for title, cases in HEADER
    ]
    return markdown(["what", "gcc 12", "clang 14"], lines)


def programs(rows):
    by_name = {}
    for it in rows:
        by_name.setdefault(it.name, {})[it.form] = it
    lines = [
        [name, *(f"{it[way].speed:.2f}, {it[way].peers['xxhsum'].median:.2f}" for way in ("file", "pipe"))]
        for name, it in by_name.items()
    ]
    return markdown(["`xxh hash`", "a file: GB/s, ratio", "a pipe: GB/s, ratio"], lines)


def xxhsum():
    """The program `xxhsum` beside Debian's, as bench/xxhsum measured both."""
    rows = [it.split("\t") for it in data_of("xxhsum") if not it.startswith("#")]
    return markdown(["`xxhsum`", "the original, s", *SETS], rows) + when("xxhsum")


def arm():
    """Counts of instructions: those of the header over ours."""
    counts = {}
    for name, size, *found in (it.split("\t") for it in data_of("arm_instructions") if not it.startswith("#")):
        counts.setdefault(name, {})[int(size)] = list(map(int, found))
    sizes = (16, 64, 240, 1024, 65536)
    shown = lambda it: f"{it[2] / it[0]:.2f}" if it else ""
    lines = [[name, *(shown(of.get(size)) for size in sizes)] for name, of in counts.items()]
    return markdown(["hash", *(f"{size:,} bytes" for size in sizes)], lines) + when("arm_instructions")


def picture(rows, names):
    """Throughput over the length, one panel a hash, both axes by powers of two."""
    width, height, left, gap = 340, 220, 50, 40
    out = []
    for n, name in enumerate(names):
        of = sorted(chosen(rows, ("oneshot",), 0, 1 << 40, [name]), key=lambda it: it.size)
        speeds = {peer: {it.size: it.speed / it.peers[peer].median for it in of if peer in it.peers} for peer in PEERS}
        speeds["ours"] = {it.size: it.speed for it in of}
        x0, y0 = left + (n % 2) * (width + gap), 40 + (n // 2) * (height + 60)
        low, high = math.log2(of[0].size), math.log2(of[-1].size)
        every = [it for line in speeds.values() for it in line.values()]
        bottom, top = math.floor(math.log2(min(every))), math.ceil(math.log2(max(every)))
        across = lambda v: x0 + (math.log2(v) - low) / (high - low) * width
        up = lambda v: y0 + height - (math.log2(v) - bottom) / (top - bottom) * height
        out.append(f'<text x="{x0}" y="{y0 - 8}" font-weight="bold">{name}, GB/s</text>')
        out.append(f'<rect x="{x0}" y="{y0}" width="{width}" height="{height}" fill="none" stroke="#bbb"/>')
        out += [
            f'<text x="{x0 - 6}" y="{up(2.0 ** it) + 4:.1f}" text-anchor="end">{2.0 ** it:g}</text>'
            for it in range(bottom, top + 1)
        ]
        out += [
            f'<text x="{across(it):.1f}" y="{y0 + height + 14}" text-anchor="middle">{figures.size(it)}</text>'
            for it in (4, 64, KIB, 16 * KIB, MIB, 64 * MIB)
            if it <= of[-1].size
        ]
        for peer in [*PEERS, "ours"]:
            points = " ".join(f"{across(at):.1f},{up(it):.1f}" for at, it in speeds[peer].items())
            out.append(
                f'<polyline points="{points}" fill="none" stroke="{COLOURS[peer]}" '
                f'stroke-width="{2.5 if peer == "ours" else 1.2}"/>'
            )
    total = 40 + (len(names) + 1) // 2 * (height + 60)
    for i, peer in enumerate(["ours", *PEERS]):
        out.append(f'<rect x="{left + i * 140}" y="{total - 6}" width="14" height="4" fill="{COLOURS[peer]}"/>')
        out.append(f'<text x="{left + i * 140 + 20}" y="{total}">{peer}</text>')
    return (
        f'<svg xmlns="http://www.w3.org/2000/svg" width="{left + 2 * width + gap + 20}" height="{total + 20}" '
        f'font-family="sans-serif" font-size="11"><rect width="100%" height="100%" fill="white"/>'
        + "\n".join(out)
        + "</svg>\n"
    )


def page(comments, parts):
    day = when("measured", comments[0], "library")
    blocks = {
        "COUNT": [str(sum(map(len, parts.values())))],
        "SUMMARY": summary(parts, best) + day,
        "TWOX_HASH": twox_hash(parts) + day,
        "LOWEST": lowest(parts) + day,
        "SHARED": shared(parts["c"]) + when("c"),
        "DISPATCH": dispatch(parts["dispatch"]) + when("c", code="dispatch"),
        "HEADER": header() + when("header"),
        "CARGO": copied("cargo"),
        "CARGO_COUNTS": counted("cargo_counts") + when("cargo"),
        "CARGO_MAPS": counted("cargo_maps") + when("cargo"),
        "CARGO_PROGRAMS": copied("cargo_programs"),
        "PYTHON": copied("python"),
        "WEB": copied("web"),
        "PROGRAMS": programs(parts["program"]) + when("measured", comments[0], "xxh"),
        "XXHSUM": xxhsum(),
        "ARM": arm(),
        "SAID": [f"- {it}" for it in comments],
    }
    template = string.Template(Path(TEMPLATE).read_text())
    return template.substitute({name: "\n".join(lines) for name, lines in blocks.items()})


def main():
    parser = command.parser(__doc__)
    way = parser.add_mutually_exclusive_group()
    way.add_argument("--check", action="store_true", help="compare the page with the data, and write nothing")
    way.add_argument("--record", nargs="+", metavar="NAME", help="store the checksum of the code of these measurements")
    way.add_argument("folder", nargs="?", metavar="FOLDER", help="read the data here, and write the page here")
    given = parser.parse_args()
    if given.record:
        objects.store({**objects.stored(), **{name: objects.checksum(name) for name in given.record}})
    is_check, folder = given.check, given.folder
    comments, rows = measured.read(f"{folder}/measured.tsv" if folder else measured.FILE)
    rows += measured.read(f"{DATA}/c.tsv")[1]
    parts = {name: [it for it in rows if it.part == name] for name in dict.fromkeys(it.part for it in rows)}
    pages = {
        "SPEED.md": page(comments, parts),
        "speed.svg": picture(parts[SETS[0]], ["XXH32", "XXH64", "XXH3-64", "XXH3-128"]),
    }
    for name, text in pages.items():
        path = Path(folder or f"{TOP}/docs", name)
        if not is_check:
            path.write_text(text)
        elif path.read_text() != text:
            sys.exit(f"docs/{name} is not as bench/page draws it: run it, also if only the measured code has changed")
