"""Chooses the tasks of oracle/machine-text on the cargo crate's sources for x86-64, rust/asm. Some functions of the
sources for x86-64-v3 and v4 are c/asm's, byte for byte, and have the same tasks."""
import functools
from typing import Callable, Iterable, Iterator, Mapping

from oracle.symbolic_terms import comparison

from . import calls, cargo_calls, cargo_streams, every_length, tasks, xxh3_updates
from .cargo import FOLDER, CargoProgram, export_name
from .cargo_exports import BEGIN, exports_left_out, shared
from .instructions import V1, V3, V4
from .sources import assembled

NAMES, LIKE = (V1, V3, V4), (V3, V4)      # the instruction sets, and those of c/asm among them
LEAST_SHARED = 8                  # minimum number of functions shared with c/asm
EXPORTS = 5
FRAMED = 3000                     # minimum number of instructions of a source
# Exports with other code for x86-64-v4, or that reach such code.
WIDENED = [*(f"{export_name(name)}_long" for name in cargo_calls.HASHES), "xxh3_write"]
LENGTHS = [241, 242, 255, 256, 257, 300, 1024]
MORE_LENGTHS = [*range(241, tasks.MORE.stop), every_length.PREFETCHED]
SOME_UPDATES = 389                # step between tested cases of updates, without --all
TAKING = [summary.name for summary in (xxh3_updates.TAKE, xxh3_updates.TAKE_MANY, xxh3_updates.TAKE_BLOCKS,
                                       xxh3_updates.TAKE_WIDENED)]
SECRETS = 136, 192
ANY_SECRET = [f"{name}:secret" for name in cargo_calls.HASHES]


def programs() -> dict[str, CargoProgram]:
    return {f"cargo's {name}": assembled(f"{FOLDER}/{name}.s", V1, functools.partial(CargoProgram, name))
            for name in NAMES}


# ---- the tasks

def choose(texts: dict[str, CargoProgram], like: dict[str, tasks.Program], is_all: bool) -> list[tasks.Task]:
    """Returns the tasks on `texts`; `like` has c/asm's sources."""
    processors = tasks.makers(texts)
    pieces = piece_tasks(tasks.before_v4(processors), is_all, SOME_UPDATES)
    out = [*with_begin([*long_input_tasks(processors, is_all), *pieces, *xxh3_tasks(processors, is_all),
                        *tasks.any_secret_tasks(processors, is_all, ANY_SECRET)]), *call_tasks(texts, processors, like)]
    out.insert(0, tasks.counted(f"{BEGIN}each export has its task", EXPORTS * len(texts),
                               lambda: exports_left_out(texts, [task.title for task in out])))
    return out


def with_begin(found: Iterable[tasks.Task], begin: str = BEGIN) -> Iterator[tasks.Task]:
    for task in found:
        task.title = begin + task.title
        yield task


def long_input_tasks(processors: Mapping[str, Callable], is_all: bool, some: list = LENGTHS) -> Iterator[tasks.Task]:
    """Yields the tasks of single lengths. With a secret of 136 bytes x86-64-v4 runs the code of x86-64-v3."""
    for hash_name in cargo_calls.HASHES:
        for size in SECRETS:
            algorithm = hash_name, "secret", size
            lengths = MORE_LENGTHS if is_all else [*some, *(tasks.EDGES_OF_BLOCKS if size == SECRETS[1] else ())]
            asked = processors if is_all or size == SECRETS[1] else tasks.before_v4(processors)
            yield tasks.compared(asked, comparison.title_of(*algorithm), comparison.requests(*algorithm, lengths))


def piece_tasks(processors: Mapping, is_all: bool, some: int = tasks.SOME_UPDATES) -> Iterator[tasks.Task]:
    """Returns the tasks of XXH32 chunks of any length: all cases, in parts, or a sample."""
    return tasks.plain_stream_tasks(processors, is_all, some, "pieces of XXH{}", ("32",))


def xxh3_tasks(processors: Mapping[str, Callable], is_all: bool, like: tuple = LIKE) -> Iterator[tasks.Task]:
    """Yields the tasks of XXH3 chunks. With --all c/asm's tasks cover functions of LIKE that take stripes."""
    left_out = [name for name in processors if name.endswith(like)] if is_all else []
    for task in tasks.xxh3_tasks(processors, is_all, cargo_streams.PROOFS):
        if xxh3_updates.STRIPES not in task.title or not any(f", {name}," in task.title for name in left_out):
            yield task


def expect_shared(program: CargoProgram, other: tasks.Program) -> tuple[int, list[str]]:
    """Returns the number of shared functions, and the missing ones that take stripes or are for x86-64-v4."""
    found = shared(program, other)
    bad = [f"{name} isn't" for name in program.functions
           if (name.endswith("_widened") or name in TAKING) and name not in found]
    return len(found), bad


def expect_code_of_v3(program: CargoProgram, other: tasks.Program) -> tuple[int, list[str]]:
    left = {*program.exports} - {*WIDENED} - shared(program, other)
    return len(program.exports) - len(WIDENED) - len(left), sorted(left)


def refusal_tasks(of: Callable[..., tasks.Task]) -> Iterator[tasks.Task]:
    """Yields the tasks of refusals: `of` makes a task of a title, a number of cases and a function."""
    yield of("the number of the interface", 1, cargo_calls.interface)
    yield of("a message and a secret in one place", 6, calls.in_one_place)
    yield of("inputs of up to 240 bytes", 8, cargo_calls.few_bytes)
    yield of("long inputs: secrets that are too short", 4, cargo_calls.secrets_of_long_inputs)
    yield of("records of XXH32 without a mark", 5, cargo_calls.without_mark)
    yield of("streams of XXH3 that no call leaves", 7, cargo_calls.out_of_range)
    yield of("streams of XXH3: secrets that are too short", 2, cargo_calls.secrets_of_streams)


def call_tasks(texts: dict[str, CargoProgram], processors: Mapping, like: dict[str, tasks.Program]) -> list[tasks.Task]:
    return [*(tasks.counted(f"{BEGIN}functions of {name} that are c/asm's, byte for byte", LEAST_SHARED,
                            expect_shared, texts[f"cargo's {name}"], like[name]) for name in LIKE),
            tasks.counted(f"{BEGIN}exports of {V4} that have the code of {V3}", EXPORTS - len(WIDENED),
                          expect_code_of_v3, texts[f"cargo's {V4}"], texts[f"cargo's {V3}"]),
            *with_begin([*refusal_tasks(functools.partial(tasks.of_each, processors)), tasks.frames_task(texts, FRAMED),
                         tasks.assembler_task([(f"{FOLDER}/{name}.s", V1) for name in NAMES])])]
