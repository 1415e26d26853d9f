"""Writes the proofs of outside vectors from the oracle's table:

    oracle/make-proofs           writes the files proofs/OutsideVectors*.antt of twox_words, twox_plain and twox_core
    oracle/make-proofs --check   prints which of them differ from its output; the exit status is 1 if one differs
"""
import os
import sys

from oracle import proofs
from oracle import table


def main():
    args = sys.argv[1:]
    if args not in ([], ["--check"]):
        sys.exit(__doc__)
    outdated = proofs.outdated()
    for path, text in outdated.items():
        if not args:
            with open(path, "w", encoding="utf-8") as file:
                file.write(text)
        print(f"{'outdated' if args else 'wrote'}: {os.path.relpath(path, table.TOP)}")
    if args:
        print(f"{len(proofs.files()) - len(outdated)} passed, {len(outdated)} failed")
    return 1 if args and outdated else 0
