"""Changes the verifier itself, the files that oracle/lines-to-trust counts, and requires that a check detects each
change: a test of values, an instruction beside the processor, a committed source that must pass, or a planted file that
must be refused. Each comparison and condition is decided either way, moved by one or loses a part; each other line has
one change of an operand, a number, an argument or a statement.

  oracle/mutate                  random mutants, for 180 s of processor time; prints the seed
  oracle/mutate --seconds NUMBER   another time
  oracle/mutate --all            each mutant, in 2 to 3 hours of processor time
  oracle/mutate --seed NUMBER    in the order of this seed
  oracle/mutate --only WORD      only the mutants with that word
  oracle/mutate --values         CI's part: of a sixteenth of the mutants, always the same ones, tests of values must
                                 detect each one drawn, except those in oracle/verifier_mutants/beyond_values.txt
  oracle/mutate --record         writes the counts and the unexplained mutants into oracle/verifier_mutants; with
                                 --values tries the whole sixteenth, and writes those that no test of values detects
  oracle/mutate --jobs NUMBER    number of processes (default: 2)

First it runs all checks once, in 4 minutes of processor time, and notes which functions each calls. An undetected
mutant needs a reason in oracle/verifier_mutants/reasons.txt. It needs gcc, binutils and an x86-64-v3 processor. The
last line is "N passed, M failed"; the exit status is 1 if one failed."""
import argparse
import collections
import datetime
import os
import random
import subprocess
import sys
import tempfile

from oracle.verifier_mutants import patches

LOADER = patches.Loader()
sys.meta_path.insert(0, LOADER)  # before other modules, whose functions it must know
from oracle import antt
from oracle.reasons import Reasons
from oracle.verifier_mutants import edits, runs

HERE = os.path.dirname(os.path.abspath(__file__))
TOP = os.path.dirname(HERE)
RECORDS = os.path.join(HERE, "verifier_mutants")
REASONS, COUNTS, UNEXPLAINED, BEYOND_VALUES = (
    os.path.join(RECORDS, name) for name in ("reasons.txt", "counts.tsv", "undetected.txt", "beyond_values.txt")
)
UNPLANTED = os.path.join(HERE, "machine_code", "unplanted.txt")
STARTS = "__main__.py", "oracle/machine_text.py"  # which only start the tasks
SECONDS = 180  # of processor time without --all
SEED_OF_VALUES, PART_OF_VALUES = 1, 16  # which mutants `--values` draws from
CHECK_TYPES = "value", "processor", "right", "planted"


def trusted_files():
    printed = subprocess.run(
        [os.path.join(HERE, "lines-to-trust"), "--files"], check=True, capture_output=True, text=True
    ).stdout
    return [line.split()[1] for line in printed.splitlines()[:-1] if line.endswith(".py") and not line.endswith(STARTS)]


def all_mutants(seed):
    found = [one for path in trusted_files() for one in edits.mutants_of(os.path.join(TOP, path), path, seed)]
    random.Random(seed).shuffle(found)
    return found


def mutants_for_values(seed):
    """Returns a sixteenth of the mutants, always the same ones, in the order of a seed."""
    found = [one for one in all_mutants(SEED_OF_VALUES) if edits.part_of(SEED_OF_VALUES, one, PART_OF_VALUES) == 0]
    random.Random(seed).shuffle(found)
    return found


def titles_in(path):
    with open(path, encoding="utf-8") as file:
        return {line.rstrip("\n") for line in file if not line.startswith("#")}


def unplanted():
    """Returns the checks that no planted file reaches, which have their reasons in unplanted.txt."""
    with open(UNPLANTED, encoding="utf-8") as file:
        return {line.split(" | ")[0].split(" ", 1)[1] for line in file if line.strip() and not line.startswith("#")}


def explained(found, reasons, checks):
    """True if an undetected mutant has a reason."""
    name = found.place.rpartition(" ")[2].rpartition(".")[2]
    return found.what == runs.EQUAL or bool(reasons.of(found.title)) or f"{name}: {found.check}" in checks


def record(outcomes, counts, unexplained, seed, total):
    with open(UNEXPLAINED, "w", encoding="utf-8") as file:
        print("# Mutants of the verifier that no check detects, without a reason.", file=file)
        print(*sorted(one.title for one in unexplained), sep="\n", file=file)
    with open(COUNTS, "w", encoding="utf-8") as file:
        print(
            "date",
            "seed",
            "mutants",
            "tested",
            *CHECK_TYPES,
            "reason",
            "unexplained",
            "of decisions",
            sep="\t",
            file=file,
        )
        print(
            datetime.date.today().isoformat(),
            seed,
            total,
            len(outcomes),
            *(counts[check_type] for check_type in CHECK_TYPES),
            counts["reason"],
            len(unexplained),
            sum(one.decides for one in unexplained),
            sep="\t",
            file=file,
        )


def report(outcomes, seed, total, is_recorded):
    """Prints the counts and the unexplained mutants. Returns the exit status."""
    reasons, checks = Reasons(REASONS), unplanted()
    counts = collections.Counter(one.what for one in outcomes)
    undetected = [one for one in outcomes if one.what not in CHECK_TYPES]
    unexplained = [one for one in undetected if not explained(one, reasons, checks)]
    counts["reason"] = len(undetected) - len(unexplained)
    if is_recorded:
        record(outcomes, counts, unexplained, seed, total)
    print(*(f"    undetected: {one.title}" for one in unexplained), sep="\n")
    print(
        f"seed {seed}: {len(outcomes)} of {total} mutants: "
        + ", ".join(f"{counts[check_type]} {check_type}" for check_type in (*CHECK_TYPES, "reason"))
        + f", {len(unexplained)} unexplained, of these {sum(one.decides for one in unexplained)} of decisions; "
        f"{sum(one.seconds for one in outcomes):.0f} s of processor time"
    )
    print(f"{len(outcomes) - len(unexplained)} passed, {len(unexplained)} failed")
    return 1 if unexplained or not outcomes else 0


def ask_values(given):
    """Requires that tests of values detect each drawn mutant, and that each exception is a mutant. Returns the exit
    status."""
    mutants = mutants_for_values(given.seed)
    beyond = set() if given.record else titles_in(BEYOND_VALUES)
    stale = sorted(beyond - {edits.title_of(one) for one in mutants})
    mutants = [one for one in mutants if edits.title_of(one) not in beyond and given.only in edits.title_of(one)]
    with tempfile.TemporaryDirectory(prefix="verifier-mutants-") as folder:
        known = runs.Known(LOADER, folder)
        coverage = runs.Coverage(known, CHECK_TYPES[:1])
        outcomes = [*runs.run_all(known, coverage, mutants, given.jobs, None if given.record else given.seconds)]
    undetected = sorted({one.title for one in outcomes if one.what == runs.UNDETECTED})
    if given.record:
        with open(BEYOND_VALUES, "w", encoding="utf-8") as file:
            print("# Mutants that `oracle/mutate --values` doesn't draw: tests of values don't detect them.", file=file)
            print(*undetected, sep="\n", file=file)
    for title in undetected:
        print(f"    undetected: {title}")
    for title in stale:
        print(f"    no such mutant: {title}")
    if undetected or stale:
        print("Add a test of values, or write the exceptions again: oracle/mutate --values --record")
    print(f"seed {given.seed}: {len(outcomes)} of {len(mutants)} mutants tried, {len(beyond)} excepted")
    print(f"{len(outcomes) - len(undetected)} passed, {len(undetected) + len(stale)} failed")
    return 1 if undetected or stale or not outcomes else 0


def ask(given):
    if given.values:
        return ask_values(given)
    mutants = [one for one in all_mutants(given.seed) if given.only in edits.title_of(one)]
    with tempfile.TemporaryDirectory(prefix="verifier-mutants-") as folder:
        known = runs.Known(LOADER, folder)
        outcomes = runs.run_all(known, runs.Coverage(known), mutants, given.jobs, None if given.all else given.seconds)
        return report(list(outcomes), given.seed, len(mutants), given.record)


def main():
    options = argparse.ArgumentParser(description=__doc__, formatter_class=argparse.RawDescriptionHelpFormatter)
    options.add_argument("--all", action="store_true", help="try each mutant")
    options.add_argument("--seconds", type=int, default=SECONDS, help="processor time")
    options.add_argument("--seed", type=int, default=random.SystemRandom().randrange(10**6), help="seed of the order")
    options.add_argument("--only", default="", help="try only the mutants with this word")
    options.add_argument("--values", action="store_true", help="require that tests of values detect recorded mutants")
    options.add_argument("--record", action="store_true", help="write the counts and the unexplained mutants")
    options.add_argument("--jobs", type=int, default=2, help="number of processes")
    given = options.parse_args()
    if given.record and given.only:
        options.error("--record is for all mutants")
    return antt.with_deep_recursion(ask, given)
