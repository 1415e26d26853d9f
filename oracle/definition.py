"""Evaluates the definitions of the hashes in specs/ on the test vectors:

    oracle/definition            on every test case; prints how many agree with the reference library, status 1 if not
                                 all
    oracle/definition --mutants  with one token changed at a time, on the test cases that the proofs compute; prints the
                                 changes that no test case detects, except those of equivalent_mutants.txt. These change
                                 no value, and no test case of up to 300 bytes may detect them
"""
import multiprocessing
import os
import sys

from oracle import antt
from oracle import mutants
from oracle import proofs
from oracle import proved_cases
from oracle import table

PROCESSES = os.cpu_count() or 1


def in_parts(function, items):
    """Returns a function's results for parts of the items, one process per part."""
    parts = [items[k::PROCESSES] for k in range(PROCESSES)]
    with multiprocessing.get_context("fork").Pool(PROCESSES) as pool:
        return pool.starmap(antt.with_deep_recursion, [(function, part) for part in parts])


def disagreeing(lines):
    """Returns the test cases for which the definition has another value."""
    entries = antt.Program(antt.Definitions(table.TOP, table.CRATES), table.ENTRIES).run()
    return [line.strip() for line in lines if not table.Case(line).agrees(entries)]


def every_case():
    lines = table.lines()
    others = sum(in_parts(disagreeing, lines), [])
    for line in others:
        print(f"disagrees: {line}")
    print(f"{table.heading()}: of {len(lines)} cases the definition agrees with {len(lines) - len(others)}")
    return 1 if others else 0


def program_and_cases(cases):
    program = antt.Program(antt.Definitions(table.TOP, table.CRATES), table.ENTRIES)
    return program, mutants.cases_by_definition(program, cases + proved_cases.counted_lengths())


def outcomes(changes):
    """Returns the outcomes of the changes on the proved test cases."""
    program, cases = program_and_cases(proved_cases.choose())
    return [(change, mutants.outcome(program, cases, change)) for change in changes]


def noticed_by_the_table(changes):
    """Returns the changes that a test case of up to 300 bytes detects."""
    program, cases = program_and_cases([case for case in map(table.Case, table.lines()) if case.length <= 300])
    return [change for change in changes if mutants.outcome(program, cases, change) == "noticed"]


def every_mutant():
    for path in proofs.outdated():
        print(f"outdated: {path}: run oracle/make-proofs")
        return 1
    program = antt.Program(antt.Definitions(table.TOP, table.CRATES), table.ENTRIES)
    found = sum(in_parts(outcomes, mutants.all_changes(program)), [])
    unnoticed = [change for change, what in found if what == "unnoticed"]
    reasons, equal = mutants.reasons(), []
    for change in sorted(unnoticed, key=lambda change: change.text):
        if reasons.of(change.text):
            equal.append(change)
        else:
            print(f"unnoticed: {change.text}")
    for change in sum(in_parts(noticed_by_the_table, equal), []):
        print(f"a case notices it, though equivalent_mutants.txt says that it changes no value: {change.text}")
    for pattern in reasons.unused([change.text for change in equal]):
        print(f"no such change: {pattern}")
    read = sum(what != "unreadable" for _, what in found)
    print(
        f"of {read} changes of one token {len(equal)} change no value, and of the others no proved case notices "
        f"{len(unnoticed) - len(equal)}"
    )
    return 0


def main():
    if sys.argv[1:] not in ([], ["--mutants"]):
        sys.exit(__doc__)
    return every_mutant() if sys.argv[1:] else every_case()
