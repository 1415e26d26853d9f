"""Refusals that are remembered: each under a checksum of everything that it depends on. A run of `rt ci` keeps
proofs in the same way. This machine remembers in a folder what it has seen refused. The repository remembers in
refused.txt the refusals of a run with --write, for machines that remember nothing; each run tries a random part of
them again. A user with write access can make an edit pass as refused until it is drawn: `--anew` uses nothing that
was cached."""
import glob
import hashlib
import os
import random
import re
import tempfile
from typing import Iterable

from . import source, toolchain

HERE = os.path.dirname(os.path.abspath(__file__))
FOLDER = os.path.join(os.environ.get("XDG_CACHE_HOME") or os.path.expanduser("~/.cache"), "twox_hash", "wrong-bodies")
WRITTEN = os.path.join(HERE, "refused.txt")
HEAD = (
    "# Refused by `checks/wrong-bodies --write`: an edit, half of the sum of all that its refusal stands on, and why.\n"
)
# The part of the repository's list that is tried again.
SAMPLED = 0.1
# The modules that determine whether an edit is refused. Those that choose edits and print results don't.
JUDGES = ("copies", "edits", "toolchain", "proofs", "source", "trial")


def half(its_sum):
    """As much of a checksum as no two texts share by chance."""
    return its_sum[:32]


class Memory:
    """Earlier refusals, which a run with --anew doesn't use, and doesn't keep for planted edits."""

    def __init__(self, is_fresh=False, keeps=True):
        self.is_fresh, self.keeps, self.sums = is_fresh, keeps, {}
        self.written = {} if is_fresh else without_sample(refusals_written())

    def recall(self, its_sum):
        """The message for the edit of this checksum when it was refused, or None."""
        path = os.path.join(FOLDER, its_sum)
        if not self.is_fresh and os.path.exists(path):
            return toolchain.read(path)
        return self.written.get(half(its_sum))

    def keep(self, its_sum, reason):
        if self.keeps:
            os.makedirs(FOLDER, exist_ok=True)
            with tempfile.NamedTemporaryFile("w", dir=FOLDER, delete=False, encoding="utf-8") as file:
                file.write(reason)
            os.replace(file.name, os.path.join(FOLDER, its_sum))

    def sum_of(self, edit, crate):
        """The checksum of the edit, of the toolchain and of this program, of the statements of the crate and those
        below, and of the one body that the edit changes with its proof answers, or if it changes no single one, of
        all bodies and proof answers of the crate. Comment lines are left out."""
        text = toolchain.read(f"{crate.folder}/{edit.path}").split("\n") if edit.function else []
        own = code_of("\n".join(text[edit.body.head : edit.body.last + 1])) if edit.function else self.bodies(crate)
        answers = self.answers(crate, edit.function.split("::")[-1] if edit.function else "")
        stated = map(self.stated, [crate, *crate.below()])
        return sum_of([self.machinery(), edit.name, toolchain.read(edit.file), own, answers, *stated])

    def machinery(self):
        judges = [f"{HERE}/{name}.py" for name in JUDGES]
        return self.known("the kit and this program", lambda: [toolchain.identity(), *map(toolchain.read, judges)])

    def bodies(self, crate):
        return self.known(f"bodies of {crate.name}", lambda: map(code_in, files_of(crate, "src", "rt")))

    def answers(self, crate, function):
        """The content of the folders of a function's name, and of cycles; without a name in those of all."""
        folders = {
            it: os.path.basename(os.path.dirname(it))
            for it in files_of(crate, "proofs", "antt")
            if not is_lemmas(crate, it)
        }
        own = [it for it, folder in folders.items() if folder.startswith("+") or function in ("", folder)]
        return self.known(f"answers of {crate.name} {function}", lambda: map(code_in, own))

    def stated(self, crate):
        """The contracts, the definitions and the lemmas."""

        def texts():
            for path in files_of(crate, "src", "rt"):
                yield code_of(source.without_bodies(os.path.relpath(path, crate.folder), toolchain.read(path)))
            yield from map(code_in, files_of(crate, "specs", "antt"))
            yield from (code_in(it) for it in files_of(crate, "proofs", "antt") if is_lemmas(crate, it))

        return self.known(f"statements of {crate.name}", texts)

    def known(self, name, texts):
        """A checksum that many edits share."""
        if name not in self.sums:
            self.sums[name] = sum_of(texts())
        return self.sums[name]


def code_in(path):
    return code_of(toolchain.read(path))


def code_of(text):
    """The text without its comment lines, or the whole text if a string may span lines."""
    lines = [it for it in text.split("\n") if not it.lstrip().startswith(("//", "--"))]
    return text if any(it.count('"') % 2 for it in lines) else "\n".join(lines)


def refusals_written():
    """The repository's list: the reason of each refusal, by half of its checksum. Other lines are ignored."""
    return dict(re.findall(r"^\S+ ([0-9a-f]{32}) (.+)$", toolchain.read(WRITTEN), re.M))


def without_sample(refusals):
    """The refusals except those that this run tries again."""
    rng = random.SystemRandom()
    return {its_sum: why for its_sum, why in refusals.items() if rng.random() >= SAMPLED}


def write(refusals: Iterable[tuple[str, str, str]]) -> None:
    """Adds refusals to the repository's list: (edit, its checksum, reason)."""
    toolchain.write(
        WRITTEN, HEAD + "".join(f"{name} {half(its_sum)} {why}\n" for name, its_sum, why in sorted(refusals))
    )


def files_of(crate, part, ending):
    return sorted(glob.glob(f"{crate.folder}/{part}/**/*.{ending}", recursive=True))


def is_lemmas(crate, path):
    """True if others may cite a file of proofs/: files in subfolders are proof answers for the goals of one
    function."""
    return os.path.dirname(path) == f"{crate.folder}/proofs"


def sum_of(texts):
    """A checksum of texts, and of their ends."""
    return hashlib.sha256("".join(f"{len(it)}:{it}" for it in texts).encode()).hexdigest()
