"""Chooses the tasks of oracle/c-object: the functions of c/source/xxhash.c in each compiler's object, compared with the
definition."""
import argparse
import functools
from typing import Iterator

from oracle.symbolic_terms import Request, comparison, cuts, processes
from oracle.symbolic_terms.comparison import title_of

from .. import calls, one_shots, streams
from ..tasks import compared, count_shown, counted
from . import beside_processor, inductions, other_calls, planted
from .compilers import Compiler
from .objects import CProcessor, OfText, at_each_residue

FUNCTIONS = 49  # of the header
SECRETS = 136, 192
ONE_BY_ONE = range(301)
# Without --all: lengths of one-shots, and with a secret; lengths of streams, and the step between these.
SOME = [*range(20), 32, 33, 64, 65, 96, 97, 128, 129, 144, 192, 239, 240, 241, 256, 257, 300]
FEW, STREAMED, SOME_STREAMS = [0, 5, 17, 129, 240, 241, 300], [4, 16, 33, 257], 3
WAYS = "default", "seed", "secret", "both"
ALGORITHMS = ["32", "64", *(f"{name}:{way}" for name in ("3-64", "3-128") for way in WAYS)]
SOME_ALGORITHMS = ["32", "64", "3-64:default", "3-128:seed", "3-64:both"]
# Without --all: steps between the cases of inductions and the planted faults.
SOME_CASES, SOME_UPDATES = {"32": 5, "64": 7, "default": 15, "seed": 15, "both": 31}, {"32": 67, "64": 499}
SOME_ENDS, SOME_FAULTS = 8, 3
PARTS = 4  # tasks into which the updates are split, with --all
# Bytes of generated secrets, and of their custom seeds; without --all every 31st pair.
SIZES, LENGTHS, SOME_PAIRS = [*range(136, 161), 192, 199, 241, 256, 300], [0, 1, 16, 17, 136, 240, 241, 300, 1100], 31
# Functions that no task verifies, by the beginning of the compiler's name.
NOT_VERIFIED = {
    "clang": {
        "XXH3_createState": "the difference of two halves of addresses",
        "XXH3_freeState": "no state of XXH3_createState",
    }
}
OF_SECRETS = "gcc"  # compilers whose loops with a secret are proved
OF_MALLOC = "states of XXH3 of malloc"  # the check of these functions
LEFT_OUT = (
    "streams of XXH3 above 300 bytes, and in other chunks than those of symbolic_terms/cuts.py",
    "XXH3 with a secret of other lengths than 136 and 192 bytes, and above 300 bytes than 192 to 199 by gcc",
    "XXH3_generateSecret of other sizes and from other lengths than those in machine_code/c_source/tasks.py",
    "code by other compilers and with other flags, and functions inlined into a caller",
)


def left_out(name):
    """Returns the functions that no task verifies in a compiler's object, with the reasons."""
    return next((found for start, found in NOT_VERIFIED.items() if name.startswith(start)), {})


def not_verified(compilers: list[Compiler]) -> Iterator[str]:
    """Yields what no task verifies, with --all."""
    for compiler in compilers:
        yield from (f"{compiler.name}: {name}, for {reason}" for name, reason in left_out(compiler.name).items())
    yield from LEFT_OUT


def choose(given: argparse.Namespace, compilers: list[Compiler]) -> list[processes.Task]:
    """Returns the tasks, and compiles the source."""
    programs = {compiler.name: compiler.program() for compiler in compilers}
    processors = {name: functools.partial(CProcessor, program) for name, program in programs.items()}
    out = [
        all_called_task(programs, processors),
        *value_tasks(processors, given.all),
        *length_tasks(processors, given.all),
        *update_tasks(processors, given.all),
        *call_tasks(processors, given.all),
        *fault_tasks(compilers, given.all),
        counted(
            "forms of instructions beside the processor",
            beside_processor.FEWEST,
            functools.partial(beside_processor.compare, [*programs.values()]),
        ),
    ]
    return processes.chosen(out, given)


# ---- one by one


def value_tasks(processors, is_all):
    """Yields the tasks of one-shots and of streams, one by one."""
    for algorithm in comparison.algorithms(SECRETS if is_all else SECRETS[:1]):
        lengths = ONE_BY_ONE if is_all else FEW if algorithm[2] else SOME
        asked: list | Iterator = comparison.requests(*algorithm, lengths)
        yield compared(processors, f"{title_of(*algorithm)}, one-shots", asked, OfText(one_shots))
        asked = list(cuts.streams(*algorithm, cuts.STREAMED if is_all else STREAMED))
        asked = [*asked, *at_once(algorithm)] if is_all else asked[::SOME_STREAMS]
        yield compared(processors, f"{title_of(*algorithm)}, streams", asked, OfText(streams))


def at_once(algorithm):
    """Yields the streams of each length by one update."""
    for n in ONE_BY_ONE:
        request = Request(algorithm[0], algorithm[1], n, algorithm[2], cuts=[])
        yield from [request, *request.with_seed_0()]


# ---- every length, and any updates


def length_tasks(processors, is_all):
    yield counted(
        "every length has its case", len(ALGORITHMS), lambda: report_left_out(ALGORITHMS, inductions.left_out)
    )
    for algorithm in ALGORITHMS if is_all else SOME_ALGORITHMS:
        step = 1 if is_all else SOME_CASES[algorithm.rpartition(":")[2]]
        asked, first = inductions.cases(algorithm)[::step], inductions.shortest(algorithm)
        is_own = algorithm.endswith(inductions.OWN_SECRET)
        secret = " of 192 to 199 bytes" if is_own else ""
        for name, make in (
            (name, make) for name, make in processors.items() if not is_own or name.startswith(OF_SECRETS)
        ):
            title = f"{name}: XXH{algorithm.replace(':', ', ')}{secret}: every length from {first} to 2^64 - 1"
            yield counted(title, len(asked), functools.partial(of_lengths, make, algorithm, asked))


def of_lengths(make, algorithm, asked):
    proof = inductions.EveryLength(make(), algorithm)
    return count_shown(proof, [functools.partial(proof.show, case) for case in asked])


def update_tasks(processors, is_all):
    names = list(inductions.BY_HASH)
    yield counted("each update has its case", len(names), lambda: report_left_out(names, inductions.updates_left_out))
    for hash_name in names:
        step, asked = 1 if is_all else SOME_ENDS, inductions.updates(hash_name)
        parts = [asked[part::PARTS] for part in range(PARTS)] if is_all else [asked[:: SOME_UPDATES[hash_name]]]
        for name, make in processors.items():
            for k, part in enumerate(parts):
                title = f"{name}: streams of XXH{hash_name}: any updates, to 2^64 - 1 bytes"
                yield counted(
                    f"{title}, part {k + 1} of {len(parts)}",
                    len(part),
                    functools.partial(of_updates, make, hash_name, part, step if part is parts[0] else None),
                )


def of_updates(make, hash_name, asked, step):
    """Proves some updates, and each `step`-th of the reset and the digests, if there is a step."""
    proof = inductions.Updates(make(), hash_name)
    ends = list(proof.ends())[::step] if step else []
    return count_shown(proof, [*(functools.partial(proof.show, one) for one in asked), *ends])


def report_left_out(algorithms, find):
    bad = [f"XXH{algorithm}: no case has {left[:5]}" for algorithm in algorithms if (left := find(algorithm))]
    return len(algorithms) - len(bad), bad


# ---- the other functions


def other_checks(name="", is_all=False):
    """Yields the checks of the functions that are no one-shot and no stream, of one compiler's object or of all: title,
    minimum of cases, function."""
    part, pairs = functools.partial, [(size, length) for size in SIZES for length in LENGTHS]
    pairs = pairs if is_all else pairs[::SOME_PAIRS]
    yield from calls.WITHOUT_MESSAGE[:1]
    yield "equal hashes", 4, other_calls.equal_hashes
    yield "the order of hashes", 45, other_calls.order_of_hashes
    yield "the version", 1, calls.version
    yield "the derived secret", 2, calls.derived_secret
    yield "generated secrets", len(pairs), part(other_calls.generated_secrets, asked=pairs)
    yield "refused secrets", 3, other_calls.refused_secrets
    yield "refused resets", 16, other_calls.refused_resets
    yield "null inputs and secrets", 14, calls.null_pointers
    yield "XXH128", 14, part(other_calls.another_name, lengths=ONE_BY_ONE if is_all else FEW)
    yield "a message and a secret in one place", 32, lambda cpu: at_each_residue(cpu, part(calls.in_one_place, cpu))[0]
    yield from calls.SHORT_SECRETS if is_all else []
    for algorithm in other_calls.ALGORITHMS:
        yield f"copies of states of {algorithm}", 1, part(other_calls.copies, algorithm=algorithm)
        if (title := f"states of {algorithm} of malloc") != OF_MALLOC or not left_out(name):
            yield title, 3, part(other_calls.created_states, algorithm=algorithm)
    for hash_name in one_shots.NAMES:
        yield f"null chunks of XXH{hash_name}", 5, part(other_calls.updates_of_nothing, hash_name=hash_name)


def call_tasks(processors, is_all):
    for title, least, ask in other_checks(is_all=is_all):
        known = [make for name, make in processors.items() if title != OF_MALLOC or not left_out(name)]
        yield counted(title, least * len(known), functools.partial(asked_of, known, ask))


def asked_of(processors, ask):
    return sum(ask(make()) for make in processors), []


def all_called_task(programs, processors):
    least = sum(FUNCTIONS - len(left_out(name)) for name in processors)
    return counted("each function is called", least, functools.partial(all_called, programs, processors))


def all_called(programs, processors):
    """Calls all functions, and compares the called ones with those that the objects export."""
    count, bad = 0, []
    for name, make in processors.items():
        cpu, exports = make(), programs[name].exports.keys()
        for algorithm in comparison.algorithms(SECRETS[:1]):
            for side, ends in ((one_shots, None), (streams, [])):
                OfText(side).of_text(cpu, Request(*algorithm[:2], 17, algorithm[2], cuts=ends))
        for _, _, ask in other_checks(name):
            ask(cpu)
        bad += [f"{name}: no task calls {one}" for one in sorted(exports - cpu.called - left_out(name).keys())]
        count += len(cpu.called & exports)
    return count, bad


# ---- planted faults


def fault_tasks(compilers, is_all):
    """Yields the tasks of planted faults: all of them in each object, or some in one."""
    for compiler in compilers if is_all else compilers[:1]:
        unknown = left_out(compiler.name)
        known = [fault for fault in planted.FAULTS if not any(name in fault.function for name in unknown)]
        some = known[:: 1 if is_all else SOME_FAULTS]
        yield counted(
            f"{compiler.name}: planted faults", len(some), functools.partial(planted.unnoticed, compiler, some)
        )
