"""Chooses and runs the tasks of oracle/symbolic: the requests, each in its own process, and their results."""
import argparse
import collections
import functools
import os
import tempfile
import unittest.mock
from typing import Callable

from oracle import mutants
from oracle.reasons import Reasons, is_fault

from . import (
    c_header,
    comparison,
    cuts,
    every_length,
    header_coverage,
    header_faults,
    header_mutants,
    mutation,
    plain_streams,
    processes,
    self_tests,
    xxh3_streams,
)
from .comparison import SECRETS, title_of
from .machine import Module
from .reference import FORMS, HEADERS, VECTORS, is_ours, llvm_text, of_reference

PARTS = 4  # tasks into which the changes are split
SAMPLE = 96  # in CI, step between tested changes of the definition
LINES, FEW_LINES = 5000, 25  # changes of the LLVM code, with --all and without
GATE_SECRETS, STREAM_SECRETS = (136,), (136, 192)


class Task(processes.Task):
    """A task whose function takes a module: the library's code for scalar, SSE2 or AVX2."""

    def __init__(self, title, ask, vector="scalar", is_deep=True):
        super().__init__(title + ("" if vector == "scalar" else f", {vector}"), ask, is_deep)
        self.vector = vector


def choose(given: argparse.Namespace) -> list["Task"]:
    tasks = of_c_header(given) if is_ours(given.headers) else of_the_reference(given)
    return processes.chosen(tasks, given)


def of_the_reference(given):
    vectors = list(VECTORS) if given.all else [given.vector]
    tasks = [*induction(vectors, given.all), *lengths(given.all, given.vector)]
    if given.all:
        tasks += vector_lengths([vector for vector in vectors if vector != given.vector])
    tasks += of_changes(given.all, given.vector, given.headers)
    return [*tasks, *of_machinery(given.all, given.vector, given.headers)]


def of_c_header(given):
    """Returns the tasks of c/include/xxhash.h: all its forms."""
    proofs = c_header.proofs(given.all)
    tasks = [
        Task("each public function has a task", functools.partial(header_coverage.all_compared, proofs)),
        Task("a public function without a task is missed", functools.partial(header_coverage.planted, proofs)),
    ]
    tasks += [
        Task(title, functools.partial(header_coverage.proved, show, case), form) for title, show, case, form in proofs
    ]
    tasks += [Task(title, ask) for title, ask in header_faults.planted(given.all, given.headers)]
    title, ask = "changes of LLVM's text", functools.partial(line_changes, sample=LINES if given.all else FEW_LINES)
    tasks += [
        Task(f"{title}, part {part + 1} of {PARTS}", functools.partial(ask, part=part, parts=PARTS), is_deep=False)
        for part in range(PARTS if given.all else 1)
    ]
    return tasks + [summed(given.headers, form) for form in FORMS]


# ---- single lengths


def lengths(is_all, vector):
    for algorithm in comparison.algorithms(SECRETS if is_all else GATE_SECRETS):
        yield compared(title_of(*algorithm), algorithm, range(301) if is_all else some_lengths(*algorithm), vector)
        if is_all:
            yield compared(title_of(*algorithm), algorithm, range(301, 1101), vector)
            yield compared(f"{title_of(*algorithm)}, at edges", algorithm, comparison.edges(algorithm[2]), vector)
            if algorithm[2] in (None, *STREAM_SECRETS):
                yield compared(f"{title_of(*algorithm)}, streams", algorithm, cuts.STREAMED, vector, cuts.streams)


def some_lengths(hash_name, _, secret):
    """Returns the lengths of CI: all that no induction has, and a sample of the others."""
    inductive_from = {"32": 16, "64": 32}.get(hash_name, 0 if secret else 241)
    return sorted({*range(inductive_from), *range(0, 301, 6)})


def vector_lengths(vectors):
    """Returns the tasks of the code for other vector instructions, which differs from 241 bytes on."""
    algorithms = [algorithm for algorithm in comparison.algorithms((136,)) if algorithm[0].startswith("3-")]
    return [
        compared(title_of(*algorithm), algorithm, [*range(241, 501), *comparison.edges(algorithm[2])], vector)
        for vector in vectors
        for algorithm in algorithms
    ]


def compared(title, algorithm, asked, vector, requests=comparison.requests):
    def ask(module):
        sides = {"the reference": lambda request: of_reference(request, module)}
        equal, complaints = comparison.compare(sides, requests(*algorithm, asked))
        return f"{equal} requests, each one term", complaints

    first, last = min(asked), max(asked)
    return Task(f"{title}: {first} to {last} bytes", ask, vector)


# ---- every length


def induction(vectors, is_all):
    yield from [
        shown(
            f"XXH{algorithm}, streams: any updates, to 2^64 - 1 bytes",
            functools.partial(plain_streams.show, algorithm=algorithm),
        )
        for algorithm in ("32", "64")
    ]
    for vector in vectors:
        for algorithm in every_length.ALGORITHMS:
            if vector == vectors[0] or algorithm.startswith("3-"):
                name, _, way = algorithm.partition(":")
                called = f"XXH{name}, {way}" if way else f"XXH{name}"
                title = f"{called}: every length from {every_length.shortest(algorithm)} to 2^64 - 1"
                yield shown(title, functools.partial(every_length.show, algorithm=algorithm), vector)
        for place in xxh3_streams.PLACES if is_all else ():
            yield shown(
                f"XXH3, streams with a secret {place} of the state: any updates, to 2^63 - 1 bytes",
                functools.partial(xxh3_streams.show, place=place),
                vector,
            )


def shown(title, show, vector="scalar"):
    def ask(module):
        proof = show(module)
        return f"{proof.cases} cases; " + "; ".join(proof.lines()[:4]), []

    return Task(title, ask, vector)


# ---- changes and the machinery


def of_changes(is_all, vector, headers):
    sample = LINES if is_all else FEW_LINES
    changes: tuple[tuple[str, Callable, int], ...] = (
        ("one token of the definitions", text_changes, PARTS if is_all else SAMPLE),
        ("LLVM's text", functools.partial(line_changes, sample=sample), PARTS if is_all else 1),
    )
    for what, ask, of in changes:
        for part in range(PARTS) if is_all else [0]:
            yield Task(
                f"changes of {what}, part {part + 1} of {of}",
                functools.partial(ask, part=part, parts=of),
                vector,
                is_deep=False,
            )
    yield Task(
        "changes of the definitions that differ from 2^31 bytes on alone, asked by induction",
        judged(mutation.by_induction, "changes, each refused"),
        vector,
    )
    yield Task("changes by hand of the definitions, that differ on rare inputs alone", judged(mutation.by_hand), vector)
    if headers != HEADERS:  # the changes fit only Debian's header
        return
    asked: dict[str, list] = {
        "asked by induction": header_mutants.CHANGES if is_all else header_mutants.CHANGES[::8],
        **({"streams of XXH3": header_mutants.DEAR} if is_all else {}),
    }
    yield from (
        Task(
            f"changes of the header 0.8.1, {how}",
            judged(lambda module, changed=changed: header_mutants.report(changed), "queries"),
        )
        for how, changed in asked.items()
    )


def judged(find, what="changes"):
    """Returns a task's function: `find` yields for each change whether its result is the expected one, and a line."""

    def ask(module):
        found = list(find(module))
        return f"{len(found)} {what}", [line for is_good, line in found if not is_good]

    return ask


def text_changes(module, part, parts):
    found = mutation.of_text(module, part, parts)
    reasons, by_induction = mutants.reasons(), [pattern for pattern, *_ in mutation.AT_LARGE_LENGTHS]
    return summary(found), faults(
        found, lambda text: reasons.of(text) or any(pattern in text for pattern in by_induction)
    )


def line_changes(module, sample, part, parts):
    found = mutation.of_reference(module, sample, part, parts)
    return summary(found), faults(found, Reasons(mutation.EQUAL_LINES).of)


def faults(found, reasons_of):
    """Returns the changes that are undetected without a reason."""
    return [f"{what}: {text}" for what, text in found if is_fault(what, bool(reasons_of(text)), must_fit=False)]


def summary(found):
    return ", ".join(f"{count} {what}" for what, count in collections.Counter(what for what, _ in found).most_common())


def header_is_the_one_named(headers, vector, _module):
    """Checks that the LLVM code is of the header with the printed checksum, even if compilers find another."""
    with tempfile.TemporaryDirectory(prefix="symbolic-") as workdir:
        with open(f"{workdir}/xxhash.h", "w", encoding="utf-8") as file:
            file.write('#error "another header"\n')
        with unittest.mock.patch.dict(os.environ, CPATH=workdir, C_INCLUDE_PATH=workdir):
            beside_another = llvm_text(headers, vector)
    is_same = beside_another == llvm_text(headers, vector)
    return "another one is passed over", [] if is_same else ["with another header beside it the text is another"]


def summed(headers, vector):
    return Task(
        "the header is the one that is summed", functools.partial(header_is_the_one_named, headers, vector), vector
    )


def of_machinery(is_all, vector, headers):
    yield summed(headers, vector)
    yield Task("the rules are the proved ones", self_tests.rules_are_proved, vector)
    yield Task(
        "random operations and laws",
        functools.partial(self_tests.random_operations, rounds=300 if is_all else 30),
        vector,
    )
    if is_all:
        yield Task("the reference's terms on the cases of the table", self_tests.table_cases, vector)
        yield Task("a sample of the operations by z3: 0 to 16 bytes", self_tests.by_solver, vector)


# ---- processes


def run(tasks: list["Task"], headers: str, jobs: int) -> int:
    """Runs the tasks, each with its own module. Returns the exit status."""
    texts = {vector: llvm_text(headers, vector) for vector in {task.vector for task in tasks}}
    return processes.run(
        [
            processes.Task(task.title, functools.partial(asked, task, texts[task.vector]), task.is_deep)
            for task in tasks
        ],
        jobs,
    )


def asked(task, text):
    return task.ask(Module(text))
