"""Chooses the test cases of the oracle's table that the proofs compute: for each hash the edges of each range, with all
sorts of seeds; secrets from 136 bytes on; and inputs longer than a block."""
from oracle import table

PLAIN = {
    "32": [0, 1, 3, 4, 7, 13, 15, 16, 17, 31, 32, 47, 64, 65],
    "64": [0, 1, 3, 4, 7, 8, 31, 32, 33, 35, 56, 63, 64, 65, 67, 95, 99, 128],
}
SHORT = [
    0,
    1,
    2,
    3,
    4,
    5,
    8,
    9,
    15,
    16,
    17,
    32,
    33,
    64,
    65,
    96,
    97,
    128,
    129,
    144,
    159,
    160,
    191,
    192,
    224,
    239,
    240,
    241,
]
KEYED_SHORT = [0, 3, 8, 16, 128, 240]
KEYED_LONG = [
    (136, 577),
    (136, 640),
    (137, 641),
    (143, 577),
    (143, 640),
    (143, 641),
    (144, 640),
    (144, 641),
    (192, 1025),
    (300, 577),
]
SEEDED_LONG = [320, 512, 1024, 1025, 1088, 1089]
FIXED = ["0", "1", "ffffffff", "8000000000000000", "ffffffffffffffff"]


# Counted lengths, for lengths that no input of the table has: a rule of this repository, not a value of the reference
# library.
COUNTED = [(2**64 + d, 2**64 + min(d, -1)) for d in (-2, -1, 0, 1)] + [(2**65, 2**64 - 1)]


class CountedLength:
    """A test case of `counted`."""

    def __init__(self, length, value):
        self.length, self.value, self.outcome = length, value, None

    def agrees(self, entries):
        self.outcome = None if entries["counted"](self.length) == self.value else "another counted length"
        return self.outcome is None


def counted_lengths() -> list["CountedLength"]:
    return [CountedLength(length, value) for length, value in COUNTED]


def choose() -> list[table.Case]:
    """Returns the test cases, in the table's order, without repetition."""
    cases = [table.Case(line) for line in table.lines()]
    found = {}
    for case in cases:
        fields = case.line.split()
        seed = fields[1] if fields[1] in FIXED + ["-"] else "drawn"
        secret = 0 if case.secret is None else case.secret[0]
        found.setdefault((fields[0], seed, secret, case.length), case)
    selected = []
    for name, lengths in PLAIN.items():
        selected += [(name, "drawn", 0, n) for n in lengths]
        selected += [(name, seed, 0, n) for seed, n in zip(["0", "ffffffff"], lengths[-2:])]
    for name in ("3-64", "3-128"):
        selected += [(name, "drawn", 0, n) for n in SHORT + SEEDED_LONG]
        selected += [
            (name, seed, 0, n) for n in (3, 8, 16, 128, 240) for seed in ("0", "8000000000000000", "ffffffffffffffff")
        ]
        selected += [(name, "-", 136, n) for n in KEYED_SHORT]
        selected += [(name, seed, m, n) for m, n in KEYED_LONG for seed in ("-", "drawn")]
        selected += [(name, "drawn", 136, 240), (name, "0", 0, 1025)]
    missing = [key for key in selected if key not in found]
    if missing:
        raise SystemExit(f"no cases in the table: {missing}")
    chosen = {id(found[key]) for key in selected}
    return [case for case in cases if id(case) in chosen]
