"""Prints the ratio of one library's time to another's, row by row: bench.compare TITLE OTHER OURS FILE.., where OTHER
and OURS are the names that the driver's lines have."""
import statistics
import sys

from bench import figures


def main():
    title, other, ours, files = sys.argv[1], sys.argv[2], sys.argv[3], sys.argv[4:]
    table = figures.rows(files)
    if not table:
        sys.exit("compare: no row is exported by both libraries and asked for")
    print(
        f"{title}: the time of {other} over that of {ours}, over 1 where {ours} is faster; the median of {len(files)} "
        f"rounds"
    )
    print(f"{'row':<36} {other + ' ns':>15} {ours + ' ns':>15} {'ratio':>6} {'spread':>6}")
    medians = {}
    for key, cell in table.items():
        ratio = figures.ratios(cell, other, ours)
        medians[key] = statistics.median(ratio)
        name = f"{key[0]} {key[1]} {figures.size(key[2])}"
        other_time, our_time = (statistics.median(cell[peer]) for peer in (other, ours))
        mark = " slower" if medians[key] < 0.98 else ""
        print(
            f"{name:<36} {other_time:>15.2f} {our_time:>15.2f} {medians[key]:>6.3f} "
            f"{100 * figures.spread(ratio):>5.0f}%{mark}"
        )
    print()
    for form in dict.fromkeys(key[0] for key in medians):
        values = [m for key, m in medians.items() if key[0] == form]
        print(
            f"{form:<14} {len(values):>4} rows, geometric mean {statistics.geometric_mean(values):.3f}, "
            f"lowest {min(values):.3f}, highest {max(values):.3f}"
        )
