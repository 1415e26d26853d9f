"""Reads what the driver wrote in each round."""
import math
import statistics
from typing import Iterable


def rows(files: Iterable[str]) -> dict:
    """(form, name, size) to peer to its times: nanoseconds a call, or for 1 MiB of a stream. A file is a round, of
    whose passes the best time counts."""
    table = {}
    for file in files:
        best = {}
        for line in open(file):
            form, name, size, peer, time = line.split()
            key = (form, name, int(size)), peer
            best[key] = min(float(time), best.get(key, math.inf))
        for (row, peer), time in best.items():
            table.setdefault(row, {}).setdefault(peer, []).append(time)
    return table


def ratios(cell: dict, peer: str, ours: str) -> list[float]:
    """The peer's time over ours, in each round."""
    return [a / b for a, b in zip(cell[peer], cell[ours])]


def spread(values: list[float]) -> float:
    """How far the rounds lie apart, as a part of their median."""
    return (max(values) - min(values)) / statistics.median(values)


def size(n: int) -> str:
    for unit, name in ((1 << 20, "MiB"), (1 << 10, "KiB")):
        if n >= unit and n % unit == 0:
            return f"{n // unit} {name}"
    return f"{n} B"
