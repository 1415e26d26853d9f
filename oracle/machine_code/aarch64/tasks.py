"""Chooses the tasks of oracle/arm-text, on the sources for 64-bit ARM: the C library's and the cargo crate's."""
import functools
import os
import types
from typing import Any, Iterator

from oracle.symbolic_terms import TOP, comparison, cuts
from oracle.symbolic_terms.processes import Task, chosen

from .. import (
    calls,
    cargo_tasks,
    every_length,
    exports,
    planted_checks,
    planted_lines,
    planted_objects,
    removed,
    self_tests,
    streams,
)
from .. import tasks as shared
from ..cargo_exports import BEGIN, exports_left_out
from ..sources import assembled
from . import cargo, mutation, on_qemu
from .objects import Immediate, Instruction, Program
from .table import TABLE, Processor

TEXT = os.path.join(TOP, "c", "asm", "aarch64.s")
SECRETS = 136, 192
STREAMED = (5, 33, 70, 257, 300, 513, 700)
LONG_INPUTS = [*range(241, 301), 1024, 1025, 1089]  # lengths tested one by one, without --all


def program() -> Program:
    return assembled(TEXT, cargo.NAME, Program)


def choose(given: Any, found: Program) -> list[Task]:
    out, processors = [], {cargo.NAME: functools.partial(Processor, found)}
    for algorithm in comparison.algorithms(SECRETS):
        lengths = range(301) if given.all or algorithm[2] != SECRETS[1] else range(0, 301, 20)
        out.append(shared.one_by_one(processors, algorithm, lengths, ", one-shots"))
        if given.all and algorithm[2] is None and algorithm[0].startswith("3-"):
            asked: list | Iterator = [*shared.MORE, every_length.PREFETCHED]
            out.append(shared.one_by_one(processors, algorithm, asked, ", one-shots"))
        if algorithm[2] != SECRETS[1]:
            asked = cuts.streams(*algorithm, cuts.STREAMED if given.all else STREAMED)
            out.append(shared.compared(processors, f"streams of {comparison.title_of(*algorithm)}", asked, streams))
    out += [shared.of_each(processors, *call) for call in calls.OTHERS + calls.SHORT_SECRETS]
    out += [shared.twin_task({cargo.NAME: found}), shared.frames_task({cargo.NAME: found})]
    out += every_length_tasks(processors, given.all)
    out.append(Task("the table of instructions beside qemu", on_qemu.report))
    out.append(
        shared.counted(
            "each instruction is of the table", 14_900, functools.partial(in_table, [found, cargo.program()])
        )
    )
    out += self_tests.parts_of_changes("changes of one bit", mutation, found, given.all)
    out += [
        shared.assembler_task([(source, cargo.NAME) for source in (TEXT, cargo.SOURCE)]),
        self_tests.planted_task("wrong lines are refused", planted_lines.ARM_ASKED),
        self_tests.planted_task("texts that assemblers read otherwise are refused", planted_lines.ARM_ALIKE),
    ]
    out += [
        self_tests.planted_task("wrong objects are refused", planted_objects.ARM_ASKED),
        self_tests.planted_task("wrong texts, one for each check, are refused", planted_checks.ARM_ASKED),
    ]
    out.insert(0, shared.export_task({cargo.NAME: found}, [task.title for task in out]))
    out.append(Task("removed functions are noticed", functools.partial(removed_functions, found, given.all)))
    out += cargo_text_tasks(given.all)
    return chosen(out, given)


def removed_functions(found, is_all):
    """Removes functions of the C library's source, which the tasks without --all must detect."""
    known = removed.Known(exports.shown_by(found), exports.twins(found), lambda name: False, "")
    asked = choose(types.SimpleNamespace(all=False, only="", skip=0), found)
    return removed.unnoticed(cargo.NAME, found, asked, known, never, 1 if is_all else self_tests.SOME_EXPORTS)


def never(section):
    return {0: Instruction(section, 0, 4, "brk", "i", (Immediate(0),), None)}


def cargo_text_tasks(is_all):
    """Returns the tasks on the cargo crate's source, which shares no function with another one."""
    programs = {cargo.NAME: cargo.program()}
    processors = {name: functools.partial(cargo.CargoProcessor, program) for name, program in programs.items()}
    out = [
        *cargo_tasks.long_input_tasks(processors, is_all, LONG_INPUTS),
        *cargo_tasks.piece_tasks(processors, is_all),
        *cargo_tasks.xxh3_tasks(processors, is_all, like=()),
        *shared.any_secret_tasks(processors, is_all, cargo_tasks.ANY_SECRET),
        *cargo_tasks.refusal_tasks(functools.partial(shared.of_each, processors)),
        shared.frames_task(programs, cargo_tasks.FRAMED),
    ]
    titles = [BEGIN + task.title for task in out]
    out.insert(
        0,
        shared.counted(
            "each export has its task", cargo_tasks.EXPORTS, functools.partial(exports_left_out, programs, titles)
        ),
    )
    return cargo_tasks.with_begin(out, f"cargo's {cargo.NAME}: ")


def every_length_tasks(processors, is_all):
    """Yields the tasks of every length and of streams of any updates, by induction: some cases, or all."""
    yield from [
        task
        for algorithm in every_length.UNROLLED
        for task in shared.of_every_length(
            processors, algorithm, f"XXH{algorithm}: every length to 2^64 - 1", every_length.cases(algorithm)
        )
    ]
    yield from [
        *shared.long_tasks(processors, is_all),
        *shared.plain_stream_tasks(processors, is_all),
        *shared.xxh3_tasks(processors, is_all),
    ]


def in_table(programs):
    """Returns the number of instructions in the table, and the first missing ones."""
    code = [x for program in programs for section in program.sections.values() for x in section.values()]
    bad = [f"{x.section} {x.at:#x}: {x.mnemonic} {x.form}" for x in code if (x.mnemonic, x.form) not in TABLE]
    return len(code) - len(bad), bad[:5]
