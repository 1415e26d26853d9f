"""Counts the instructions per call of the cargo crate and of Debian's xxhash-rust, and prints a table in Markdown:

    rust/count [--cpu x86-64-v3] [--original FOLDER]

Callgrind counts the instructions between two marks, minus those of an empty loop. The count is the same on a busy
machine, and it is not a time. --original also counts the sources of twox-hash 2.1.5. After a change of crates/,
first run `rust/erase` and `rust/build-library --update`. It installs missing Debian packages."""
import os
import re
import tempfile

from checks.lib import command
from rust.checks.workspace import Workspace, install_packages, must

CALLS = 50


def counted(workspace, program):
    """For each row its name, its size, and the instructions per call of each peer."""
    outs = os.path.join(workspace.path, 'callgrind')
    os.makedirs(outs, exist_ok=True)
    names = must(
        [
            *'valgrind -q --tool=callgrind --dump-after=mark'.split(),
            f'--callgrind-out-file={outs}/out',
            program,
            'count',
            str(CALLS),
        ]
    ).splitlines()
    # The first dump ends at the first mark, and each second one has the calls.
    files = sorted((int(name.split('.')[1]), name) for name in os.listdir(outs) if '.' in name)
    return [line.split('\t') for line in names], [total(os.path.join(outs, name)) for _, name in files][1::2]


def total(path):
    with open(path) as file:
        return int(re.search(r'^(?:totals|summary): (\d+)', file.read(), re.M)[1])


def main():
    parser = command.parser(__doc__)
    parser.add_argument('--cpu', default='x86-64', help='the processor that the code is built for')
    parser.add_argument('--original', metavar='FOLDER', help='also count the sources of twox-hash 2.1.5 in this folder')
    chosen = parser.parse_args()
    install_packages()
    with tempfile.TemporaryDirectory() as path:
        workspace = Workspace(path)
        folder = os.path.join(workspace.rust, 'checks', 'speed')
        features = []
        if chosen.original:
            workspace.add_original(folder, chosen.original)
            features = ['--features', 'original']
        peers = ['xxhash-rust'] + ['twox-hash'] * bool(chosen.original)
        flags = f'-C target-cpu={chosen.cpu}'
        names, totals = counted(
            workspace, workspace.build(folder, 'speed', *features, environment=workspace.environment(flags=flags))
        )
        nothing, totals = totals[0], totals[1:]
        print(f'Instructions a call, for {chosen.cpu}.\n')
        print('| call | bytes | here | ' + ' | '.join(peers) + ' |')
        print('|---|---|---' + '|---' * len(peers) + '|')
        for name, of in names[1:]:
            line, totals = totals[: 1 + len(peers)], totals[1 + len(peers) :]
            print(f'| {name} | {of} | ' + ' | '.join(f'{(count - nothing) / CALLS:.0f}' for count in line) + ' |')
