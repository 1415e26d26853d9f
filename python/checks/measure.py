"""Times both modules, turn by turn: measure.py ROUNDS [--all]. python/bench documents the output."""
import datetime
import platform
import sys
import timeit

import twox_hash as ours
import xxhash as theirs

NAMES = ('xxh32', 'xxh64', 'xxh3_64', 'xxh3_128')
LENGTHS = {'0': 0, '8': 8, '64': 64, '1 KiB': 1 << 10, '64 KiB': 1 << 16, '1 MiB': 1 << 20}
# The page's columns, and the lengths of each.
GROUPS = {'0, 8, 64 bytes': ('0', '8', '64'), '1 KiB': ('1 KiB',), '64 KiB': ('64 KiB',), '1 MiB': ('1 MiB',)}
# A turn takes about this long, in seconds.
TURN = 0.004


def at_once(form):
    """A function over an input."""

    def constructor(module, name, data):
        return getattr(module, f'{name}_{form}'), data, 'call(data)'

    return constructor


def of_an_object(module, name, data):
    """An object made from an input, and its digest."""
    return getattr(module, name), data, 'call(data).hexdigest()'


def update(module, name, data):
    return getattr(module, name)().update, data, 'call(data)'


CALLS = {
    '`_digest`': at_once('digest'),
    '`_hexdigest`': at_once('hexdigest'),
    '`_intdigest`': at_once('intdigest'),
    'object, `hexdigest`': of_an_object,
    '`update`': update,
}


def turn(call, data, statement, times):
    """The nanoseconds of a call, over a turn of this many."""
    return timeit.Timer(statement, globals={'call': call, 'data': data}).timeit(times) / times * 1e9


class Row:
    """A call over an input of one length, by both modules."""

    def __init__(self, name, call, length):
        data = bytes(i * 131 % 251 for i in range(LENGTHS[length]))
        self.name, self.call, self.length = name, call, length
        self.sides = [CALLS[call](module, name, data) for module in (theirs, ours)]
        self.best = [turn(*side, 20) for side in self.sides]
        self.times = max(1, int(TURN * 1e9 / max(self.best)))

    def measure(self):
        for number, side in enumerate(self.sides):
            self.best[number] = min(self.best[number], turn(*side, self.times))

    def ratio(self):
        return self.best[0] / self.best[1]


def print_ranges(rows):
    """The table of the page: the minimum and the maximum ratio of the four hashes."""
    print(f'| call | {" | ".join(GROUPS)} |\n|---|{"---|" * len(GROUPS)}')
    for call in CALLS:
        cells = []
        for lengths in GROUPS.values():
            found = [row.ratio() for row in rows if row.call == call and row.length in lengths]
            cells.append(f'{min(found):.2f} to {max(found):.2f}')
        print(f'| {call} | {" | ".join(cells)} |')


def of_many(rounds):
    """The nanoseconds of a row of 16 bytes among 10,000: by `many` into a buffer, by `many` as a list, and by the
    original's function in a loop."""
    rows, into = bytes(range(160)) * 1000, bytearray(80000)
    pieces = [rows[at : at + 16] for at in range(0, len(rows), 16)]
    ways = (
        lambda: ours.many(rows, width=16, into=into),
        lambda: ours.many(pieces),
        lambda: [theirs.xxh3_64_digest(piece) for piece in pieces],
    )
    best = [min(turn(way, None, 'call()', 1) for _ in range(rounds)) / len(pieces) for way in ways]
    return (
        f'`many` of 10,000 rows of 16 bytes: {best[0]:.1f} ns a row into a buffer, {best[1]:.0f} ns as a list; '
        f'the original in a loop {best[2]:.0f} ns.'
    )


def processor():
    with open('/proc/cpuinfo') as file:
        found = [line.split(':')[1].strip() for line in file if line.startswith(('model name', 'model\t'))]
    return ', model '.join(reversed(found[:2])) if found else platform.machine()


def main():
    rounds = int(sys.argv[1])
    rows = [Row(name, call, length) for length in LENGTHS for call in CALLS for name in NAMES]
    for _ in range(rounds):
        for row in rows:
            row.measure()
    if '--all' in sys.argv:
        for row in rows:
            theirs_and_ours = f'{row.best[0]:10.1f} {row.best[1]:10.1f}'
            print(f'{row.name:9} {row.call:20} {row.length:7} {theirs_and_ours} {row.ratio():6.2f}')
    print_ranges(rows)
    print()
    print(of_many(rounds))
    print(
        f'{datetime.date.today()}, {processor()}, {ours.instruction_set}, CPython {platform.python_version()}, '
        f'python3-xxhash over libxxhash {theirs.XXHASH_VERSION}.'
    )


main()
