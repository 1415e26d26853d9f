"""Chooses the tasks on the verifier itself: planted faults, disabled checks, changes of instructions, and the table
compared with the processor. They can only fail: no proof of a source depends on them."""
import functools
import itertools
import math
import random
import tempfile
import types
from typing import Any, Collection, Iterator

from oracle.symbolic_terms.processes import Task
from oracle.verifier_mutants import checks, edges, inductions, objects, processors, values

from . import (
    any_updates,
    cargo_calls,
    cargo_exports,
    cargo_planted,
    cargo_streams,
    cargo_tasks,
    disabled_checks,
    exports,
    mutation,
    on_processor,
    planted,
    planted_checks,
    planted_lines,
    planted_objects,
    planted_values,
    removed,
    source_layouts,
    tasks,
    xxh3_updates,
)
from .cargo import CargoProgram
from .cargo_exports import BEGIN
from .instructions import SETS, TABLE, V1, V4
from .object_contents import Loaded
from .objects import Program
from .queries import CASES, Beside, plain_update, xxh3_update
from .tasks import counted, makers

OF_CARGO = [
    cargo_calls.interface,
    cargo_calls.few_bytes,
    cargo_calls.secrets_of_long_inputs,
    cargo_calls.without_mark,
    cargo_calls.out_of_range,
    cargo_calls.secrets_of_streams,
]
VALUE_TESTS = [*values.ALL, *edges.ALL, *inductions.ALL, *objects.ALL, *processors.ALL]
SOME_EXPORTS = 26  # step between removed exports without --all
SOME_CHECKS, SWITCHED_OFF = 9, (4, 100)  # step of planted faults without --all; minimum of disabled checks


def planted_task(title: str, asked: Collection) -> Task:
    return counted(title, len(asked), functools.partial(planted.refused, asked))


def choose(texts: dict[str, Program], others: dict[str, CargoProgram], is_all: bool) -> list[Task]:
    """Returns the tasks on c/asm's sources and on cargo's, which are `others`."""
    forms = sum(level in SETS[on_processor.processor_here()] for level, _ in TABLE.values())
    without = "" if on_processor.is_v4() else ", without what it lacks of x86-64-v4"
    return [
        counted(
            f"the table of instructions beside the processor{without}",
            forms - 40,
            functools.partial(beside_processor, [*texts.values(), *others.values()], is_all),
        ),
        planted_task("wrong lines are refused", planted_lines.X86_ASKED),
        planted_task("texts that assemblers read otherwise are refused", planted_lines.X86_ALIKE),
        planted_task("wrong objects are refused", planted_objects.X86_ASKED),
        planted_task("wrong texts of each kind are refused", planted.ASKED if is_all else planted.ASKED[:-1]),
        planted_task(
            "wrong texts, one for each check, are refused", planted_checks.X86_ASKED[:: 1 if is_all else SOME_CHECKS]
        ),
        planted_task("calls with wrong operands are refused", planted_values.ASKED),
        counted(
            "checks that are switched off are noticed",
            SWITCHED_OFF[is_all],
            functools.partial(disabled_checks.report, is_all),
        ),
        counted("tests of values", len(VALUE_TESTS), value_tests),
        counted("faults of the check itself are noticed", len(planted.CHECKS), planted.noticed),
        counted("the layouts of streams are those of the source", source_layouts.FEWEST, source_layouts.of_source),
        planted_task(f"{BEGIN}wrong texts are refused", cargo_planted.ASKED),
        *change_tasks(texts, others, is_all),
        *removal_tasks(texts, others, is_all),
    ]


def value_tests():
    """Runs the tests of values by which oracle/mutate detects changes of the verifier."""
    for test in VALUE_TESTS:
        checks.begin()
        test(random.Random(1))
    return len(VALUE_TESTS), []


def removal_tasks(texts, others, is_all):
    """Yields a task for each source: the tasks that CI runs must detect removed functions."""
    of_c = removed.Known(exports.shown_by(), exports.twins(), exports.is_of_v3, "exports of")
    of_cargo = removed.Known(
        cargo_exports.shown_by(), {}, lambda name: name not in cargo_tasks.WIDENED, f"{BEGIN}exports of"
    )
    for name, known in [*((name, of_c) for name in texts), *((name, of_cargo) for name in others)]:
        yield Task(
            f"removed functions of {name} are noticed",
            functools.partial(removed_of, name, texts, others, known, 1 if is_all else SOME_EXPORTS),
        )


def removed_of(name, texts, others, known, each):
    """Removes functions of a source. For C the tasks are only this source's; x86-64-v4's also compare with
    x86-64-v3's."""
    if name in others:
        return removed.unnoticed(name, others[name], cargo_tasks.choose(others, texts, False), known, each=each)
    only = {name: texts[name]}
    asked = tasks.choose(types.SimpleNamespace(all=False), only)
    only.update(texts)
    return removed.unnoticed(name, texts[name], asked, known, each=each)


def change_tasks(texts, others, is_all):
    """Yields tasks of single-instruction changes: for x86-64-v4 in its own functions, and of cargo's sources only for
    the one that shares no function with c/asm."""
    for name, make in makers(texts).items():
        if name == V4:
            yield change_task(
                f"in the widened functions of {name}", (4, 100), is_all, name, make, is_selected=is_widened
            )
        else:
            yield change_task(name, (6, 100), is_all, name, make)
    name = f"cargo's {V1}"
    task = change_task(
        name,
        (6, 30),
        is_all,
        f"cargo-{V1}",
        makers(others)[name],
        beside=Beside([*OF_CARGO, *pieces()], cargo_streams.PROOFS, each_piece, 241),
    )
    task.title = BEGIN + task.title
    yield task


def pieces():
    """Yields queries that prove cases of chunks: a changed cargo source has no requests of whole streams."""
    for k in range(CASES):
        yield functools.partial(plain_update, "32", k)
        yield from (functools.partial(xxh3_update, proof_class, k) for proof_class in cargo_streams.PROOFS)


def each_piece(cpu):
    """Yields calls that prove each case of chunks, of which `pieces` has some: of XXH32 and of XXH3 in turn."""
    plain = [lambda cpu, one=one: any_updates.AnyUpdates(cpu, "32").update(one) for one in any_updates.updates("32")]
    updates = [
        lambda _, ask=ask: ask()
        for proof_class in cargo_streams.PROOFS
        for ask in proof_class(cpu).queries(xxh3_updates.UPDATES)
    ]
    for both in itertools.zip_longest(spread(plain), spread(updates)):
        yield from filter(None, both)


def spread(cases):
    """Returns the cases in another order: neighbours, which mostly run the same code, are far from each other."""
    step = math.isqrt(len(cases))
    return [case for first in range(step) for case in cases[first::step]]


def is_widened(section):
    return "widened" in section


def change_task(where, counts, is_all, *asked, **more):
    """Returns a task of `count` changes of one random seed, or with --all of each seed."""
    count, seeds = counts[is_all], mutation.SEEDS if is_all else 1
    return counted(
        f"changes of one instruction, {where}",
        count * seeds,
        functools.partial(mutation.noticed, *asked, count, is_all, **more),
    )


def parts_of_changes(title: str, asked: Any, program: Loaded, is_all: bool) -> Iterator[Task]:
    """Yields a task with a few of a module's changes, or with --all a task for each part of them."""
    for part in range(mutation.TASKS) if is_all else [None]:
        portion = "" if part is None else f", part {part + 1} of {mutation.TASKS}"
        yield counted(
            title + portion,
            asked.MANY // mutation.TASKS if is_all else asked.FEW,
            functools.partial(asked.noticed, program, part),
        )


def beside_processor(programs, is_all):
    on_processor.expect_processor()
    with tempfile.TemporaryDirectory(prefix="machine-text-") as workdir:
        return on_processor.compare(on_processor.asked(programs, is_all), workdir, on_processor.own_bytes(programs))
