"""Prints the measurements as the table of docs/SPEED.md (bench/data/web.tsv):

    web/bench_c/table.py NAME=FILE..

FILE has the rows of JSON that run.mjs prints, of each pass, and NAME is the engine's. A cell has the median time of
a header over ours: the module with vectors against the fastest header of all, and the module without against the
fastest header without. It is the median of those passes in which the header's median is within a tenth of its
minimum: in the others the machine was busy."""
import json
import statistics
import sys

ALGORITHMS = {"xxh32": "XXH32", "xxh64": "XXH64", "xxh3_64": "XXH3-64", "xxh3_128": "XXH3-128"}
FORMS = {"oneshot": "", "stream": "chunks of "}
MEDIAN = 1  # of a module's times in a pass, behind the best
DISTURBED = 1.1


def ratio(row, ours, among):
    def fastest(times):
        return min(times[name][MEDIAN] for name in times if not name.startswith("ours") and among(name))

    least = min(fastest(times) for times in row["passes"])
    return statistics.median(
        fastest(times) / times[ours][MEDIAN] for times in row["passes"] if fastest(times) < DISTURBED * least
    )


def ratios(row):
    """Of the module with vectors, and of the one without."""
    plain = ratio(row, "ours", lambda name: not name.endswith(("_simd", "_neon")))
    return ratio(row, "ours_simd", lambda _: True), plain


def size_of(row):
    size = (
        "1 MiB"
        if row["size"] == 1 << 20
        else f"{row['size'] >> 10} KiB"
        if row["size"] >= 1024
        else f"{row['size']:,} bytes"
    )
    return FORMS[row["form"]] + size


def table(runs):
    """One row for each hash and engine, with a column for each size: with vectors, and without."""
    sizes = list(dict.fromkeys(size_of(row) for rows in runs.values() for row in rows))
    print("|", " | ".join(["with vectors, without", *sizes]), "|")
    print("|---" * (1 + len(sizes)) + "|")
    for algorithm, shown in ALGORITHMS.items():
        for name, rows in runs.items():
            cells = {size_of(row): "{:.2f}, {:.2f}".format(*ratios(row)) for row in rows if row["kind"] == algorithm}
            print("|", " | ".join([f"{shown}, {name}", *(cells.get(size, "") for size in sizes)]), "|")


def of_passes(lines):
    """Rows with the times of all passes."""
    rows = {}
    for it in map(json.loads, lines):
        row = {key: it[key] for key in ("kind", "form", "size")}
        rows.setdefault(tuple(row.values()), {**row, "passes": []})["passes"].append(it["times"])
    return list(rows.values())


def main():
    runs = {}
    for word in sys.argv[1:]:
        name, file = word.split("=")
        with open(file) as lines:
            runs[name] = of_passes(lines)
    table(runs)
