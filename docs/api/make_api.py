"""Writes docs/api.txt, which has a line for each public name, docs/CONTRACTS.md, which has the clauses of each
function, and docs/MANUAL.md, which has the manual pages:

    docs/api/make [--check]

--check checks that they are up to date. It reads only the sources and takes a second."""
import os

from checks.lib import command
from docs.api import contracts, listing, manual
from docs.api.rattle import LISTED, TOP, Crate, text_of

LIST = os.path.join(TOP, 'docs', 'api.txt')
CONTRACTS, MANUAL = (os.path.join(TOP, 'docs', name) for name in ('CONTRACTS.md', 'MANUAL.md'))


def differs(path, text):
    """Whether a file is not what the sources give. Prints one line that differs."""
    there = text_of(path)
    if there != text:
        other = set(there.split('\n')) ^ set(text.split('\n')) or {'the order of its lines'}
        print(f'{os.path.relpath(path, TOP)} differs from the sources, as in {min(other).strip()}: run docs/api/make')
    return there != text


def main():
    parser = command.parser(__doc__)
    parser.add_argument('--check', action='store_true', help='compare the files, and write none')
    texts = {LIST: listing.text([Crate(name) for name in LISTED]), CONTRACTS: contracts.text(), MANUAL: manual.text()}
    if parser.parse_args().check:
        return int(any([differs(path, text) for path, text in texts.items()]))
    for path, text in texts.items():
        with open(path, 'w', encoding='utf-8') as file:
            file.write(text)
    return 0
