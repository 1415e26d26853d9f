"""The data of docs/SPEED.md: bench/data/measured.tsv and c.tsv. Their first lines, from `# `, have the date and the
machine. Each other line is a row: the part, the form, the hash, the size in bytes, our GB/s, our spread in percent, and
for each peer `name=ratio`, a peer's time over ours, then our spread of that ratio in percent and the ratio of the best
times, as `c_gcc=1.03/12/0.98`. Figures that an older page lacked are left out: the best times of most rows, and some
speeds."""
import os
from collections import namedtuple

FILE = os.path.join(os.path.dirname(os.path.abspath(__file__)), "data", "measured.tsv")


class Ratio(namedtuple("Ratio", "median spread best", defaults=(None, None))):
    def __str__(self):
        return f"{self.median:.2f}" + ("" if self.best is None else f"/{self.spread:.0f}/{self.best:.2f}")


class Row:
    def __init__(self, part, form, name, size, speed, spread, peers):
        self.part, self.form, self.name, self.size = part, form, name, size
        self.speed, self.spread, self.peers = speed, spread, peers

    def best_peer(self, among=None):
        """The fastest peer and its ratio."""
        peers = {name: it for name, it in self.peers.items() if not among or name in among}
        name = min(peers, key=lambda it: peers[it].median)
        return name, peers[name]

    def __str__(self):
        peers = [f"{name}={ratio}" for name, ratio in self.peers.items()]
        ours = ["", ""] if self.speed is None else [f"{self.speed:.2f}", f"{self.spread:.0f}"]
        return "\t".join([self.part, self.form, self.name, str(self.size), *ours, *peers])


def read(file: str = FILE) -> tuple[list[str], list["Row"]]:
    """The texts of the first lines, and the rows."""
    comments, rows = [], []
    with open(file) as lines:
        for line in lines:
            if line.startswith("# "):
                comments.append(line[2:].strip())
            else:
                part, form, name, size, speed, spread, *peers = line.rstrip("\n").split("\t")
                pairs = [it.partition("=") for it in peers]
                ratios = {peer: Ratio(*map(float, values.split("/"))) for peer, _, values in pairs}
                ours, range_of_ours = (float(speed), float(spread)) if speed else (None, None)
                rows.append(Row(part, form, name, int(size), ours, range_of_ours, ratios))
    return comments, rows


def write(comments: list[str], rows: list["Row"], file: str = FILE) -> None:
    with open(file, "w") as out:
        out.writelines(f"# {it}\n" for it in comments)
        out.writelines(f"{it}\n" for it in rows)
