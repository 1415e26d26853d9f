"""Tries planted edits with known verdicts: the blocks of planted/CRATE.edits, each with a line `expected: refused`,
`expected: not refused`, `expected: bad edit`, `expected: refused by a name alone` or `expected: refused by an answer
alone`, or with two of these and `or` between them. They are tried as other edits are, those of one crate together.
Then it checks the places of edits in copies of functions."""
import os
import re
import tempfile
import types
from typing import Collection

from . import copies, edits, proofs, run, source, toolchain
from .memory import Memory
from .trial import BY_ANSWERS, BY_NAMES

PLANTED = os.path.join(os.path.dirname(os.path.abspath(__file__)), "planted")
REFUSED = "refused, as it must be"
MESSAGES = {
    "refused by a name alone": BY_NAMES,
    "refused by an answer alone": BY_ANSWERS,
    "not refused": "NOT REFUSED",
    "bad edit": "BAD EDIT",
}
# A function whose brace is on the line of `fn`, and one with clauses between.
FUNCTIONS = """fn first(a: u64) -> u64 {
    a + 1
}

fn second(a: u64) -> u64
    ensures { result ≡ a }
{
    a + 2
}
"""


def main(jobs: int, chosen: Collection[str]) -> int:
    crates, names = toolchain.crates(), sorted(file.removesuffix(".edits") for file in os.listdir(PLANTED))
    with tempfile.TemporaryDirectory() as workdir:
        files = {
            crates[name]: sorted(edits.written(f"{PLANTED}/{name}.edits", f"{workdir}/{name}"))
            for name in names
            if name in chosen or not chosen
        }
        passed, failed = tried(files, jobs)
    lost = places_lost()
    print(
        *(f"an edit of a copy of {name} lands elsewhere" for name in lost),
        f"{passed + 2 - len(lost)} passed, {failed + len(lost)} failed",
        sep="\n",
    )
    return 1 if failed or lost else 0


def verdict(refused, reason):
    """The verdict on an edit."""
    return next((name for name, texts in MESSAGES.items() if texts in reason), "refused" if refused else reason[:100])


def tried(files, jobs):
    """Tries the edits of each crate, and prints those with another verdict than expected: how many passed and
    failed."""
    passed = failed = in_batches = 0
    for trial in run.try_all(
        files, proofs.Built(files, jobs), jobs, lambda it: None, Memory(is_fresh=True, keeps=False)
    ):
        for edit, (refused, reason) in trial.results.items():
            expected = re.search(r"^expected: (.*)$", toolchain.read(edit.file), re.M)[1].split(" or ")
            found = verdict(refused, reason)
            # A refusal of a batch has its function's own words; everything else has rt's words.
            in_batches += found == "refused" and REFUSED not in reason
            passed, failed = passed + (found in expected), failed + (found not in expected)
            if found not in expected:
                print(
                    f"{trial.crate.name}/{edit.name}: expected: {' or '.join(expected)}; found: {found}: {reason[:300]}"
                )
    if not in_batches:
        print("no planted edit was refused in a batch")
    return passed, failed + (not in_batches)


def places_lost():
    """The functions in whose copies an edit changes another place than it should."""
    lost = []
    for number, it in enumerate(source.functions("src/lib.rt", FUNCTIONS.rstrip("\n").split("\n")), 1):
        with tempfile.TemporaryDirectory() as workdir:
            toolchain.write(f"{workdir}/lib.rt", FUNCTIONS)
            edit = types.SimpleNamespace(body=it, path="lib.rt", function=f"crate::{it.name}")
            _, _, by = copies.add_copy(workdir, edit, 1)
            at, text = FUNCTIONS.index(f"+ {number}") + by, toolchain.read(f"{workdir}/lib.rt")
        lost += [it.name] if text[at : at + 3] != f"+ {number}" else []
    return lost
