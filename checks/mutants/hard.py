"""Mutants that are refused only because a proof answer no longer fits, tried again without the proof answers of
their function. A mutant that the automatic search then proves was never refused by the contract. One that it doesn't
prove is refused only if it proves the unchanged body: otherwise nothing is known."""
import argparse
import glob
import os
import re
import tempfile

from . import edits, memory, toolchain
from .proofs import Built
from .trial import BY_ANSWERS

NO_ANSWERS = "-- none\n"
SURVIVES, OPEN, NOTHING = "proved without its answers", "not proved without them", "no verdict"
UNKNOWN = "unknown: the unchanged body is not proved without its answers either"


def main(given: argparse.Namespace, files: dict) -> int:
    """Tries them crate by crate: each has a line, and each crate."""
    weak = names_of_weak()
    Built(files, given.jobs)
    found = {}
    for crate, paths in files.items():
        names = toolchain.names_of_functions(crate)
        chosen = [edits.Edit(path, crate, names) for path in paths if f"{crate.name}/{edit_name(path)}" in weak]
        if chosen:
            found.update(tried(crate, chosen))
    counts = {outcome: list(found.values()).count(outcome) for outcome in (SURVIVES, OPEN, UNKNOWN, NOTHING)}
    print("; ".join(f"{count} {outcome}" for outcome, count in counts.items()))
    print(f"{counts[OPEN]} passed, {len(found) - counts[OPEN]} failed")
    return 0 if found and counts[OPEN] == len(found) else 1


def edit_name(path):
    return os.path.basename(path).removesuffix(".edit")


def names_of_weak():
    """The edits with such a refusal in the repository's list."""
    return set(re.findall(rf"^(\S+) [0-9a-f]{{32}} {re.escape(BY_ANSWERS)}", toolchain.read(memory.WRITTEN), re.M))


def tried(crate, chosen):
    """The results of a crate's edits, by name."""
    found = {f"{crate.name}/{it.name}": NOTHING for it in chosen if not it.function}
    waiting = [it for it in chosen if it.function]
    with tempfile.TemporaryDirectory(prefix="wrong-bodies-hard-") as workdir:
        cache = f"{workdir}/cache"
        os.makedirs(cache)
        functions = list(dict.fromkeys(it.function for it in waiting))
        toolchain.check(crate, {}, cache, functions)
        proved = proved_without_answers(crate, functions, {}, cache)
        while waiting:
            batch = list({it.function: it for it in reversed(waiting)}.values())
            waiting = [it for it in waiting if it not in batch]
            outcome = outcomes_of(crate, batch, cache)
            for it in batch:
                is_unknown = outcome[it] == OPEN and not proved.get(it.function)
                found[f"{crate.name}/{it.name}"] = UNKNOWN if is_unknown else outcome[it]
    for name, outcome in sorted(found.items()):
        if outcome != OPEN:
            print(f"{name}: {outcome}")
    print(f"{crate.name}: {len(found)} tried, {list(found.values()).count(SURVIVES)} {SURVIVES}", flush=True)
    return found


def outcomes_of(crate, batch, cache):
    """The results of these edits, one of a function."""
    proved = proved_without_answers(crate, [it.function for it in batch], {it.function: it for it in batch}, cache)
    outcomes = {True: SURVIVES, False: OPEN, None: NOTHING}
    return {it: outcomes[proved[it.function]] for it in batch}


def proved_without_answers(crate, functions, changed, cache):
    """True for each function that is proved without its answers, with its edit if it has one, False for others, None
    without a verdict: by one check, and if that has no verdict of all, by one of each."""
    texts = {
        **edits.texts_with(crate, [changed[it] for it in functions if it in changed]),
        **{path: NO_ANSWERS for it in functions for path in answers_of(crate, it)},
    }
    with toolchain.no_file_written(), toolchain.copy_of(cache) as copy:
        status, lines = toolchain.check(crate, texts, copy, functions)
    statuses = {it[2]: it[3] for it in map(toolchain.LINE.fullmatch, lines) if it}
    if status in (0, 1) and all(it in statuses for it in functions):
        return {it: statuses[it].startswith("proved") for it in functions}
    if len(functions) == 1:
        return {functions[0]: None}
    return {
        it: outcome for one in functions for it, outcome in proved_without_answers(crate, [one], changed, cache).items()
    }


def answers_of(crate, function):
    """The files of a function's proof answers, as the crate names them; those of a function that calls itself are
    after a `+`."""
    folder, name = os.path.split(edits.proof_folder(function).rstrip("/"))
    found = [
        path
        for mark in ("", "+")
        for path in glob.glob(glob.escape(f"{crate.folder}/{folder}/{mark}{name}") + "/Answers.antt")
    ]
    return [os.path.relpath(path, crate.folder) for path in found]
