"""Chooses the tasks of oracle/machine-text on c/asm: their requests and their minimum numbers of cases."""
import functools
import itertools
import os
from typing import Any, Callable, Iterable, Iterator, Mapping

from oracle.symbolic_terms import REFUSALS, TOP, Request, WrongRule, comparison, nodes, variable
from oracle.symbolic_terms.processes import Task

from . import (any_secret, any_updates, calls, coverage, every_length, exports, lanes, layouts, long_seeds, one_shots,
               scalar, streams, xxh3_states, xxh3_updates)
from .cargo import CargoProcessor, CargoProgram
from .instructions import V1, V2, V3, V4
from .objects import Loaded, Program
from .processor import Processor
from .sources import assembled, expect_alike
from .unwinding import expect_frames

NAMES = V2, V3, V4
FOLDER = os.path.join(TOP, "c", "asm")
ONE_BY_ONE, MORE = range(301), range(301, 1101)     # lengths tested one by one: always, and with --all
SOME_SHORT = sorted({*range(0, 301, 6), *range(20), 33, 63, 65, 127, 128, 130, 239, 242, 256, 257})      # without --all
FEW_LENGTHS = [0, 2, 6, 12, 17, 70, 129, 200, 241, 300]        # of x86-64-v4 with a secret, without --all
EDGES_OF_BLOCKS = [1023, 1024, 1025, 1088, 1089, 2048, 2049, 2112]
SECRETS, SOME_OF_STREAMS, STREAM_SECRETS = (136,), (136, 192), (136, 192, 193, 256)
FEW_STREAMS = [(0,), (5, 2), (33, 1), (70, 33, 64), (200, 31, 160), (240, 239), (257, 256), (300, 64, 192),
               (600, 512, 599), (1100, 64), (1500, 40, 1100)]      # lengths of streams, each with its cuts
SOME_UPDATES, UPDATE_PARTS = 293, 4                 # step of the sample of updates, and the number of parts of all
# Cases of XXH3's streams: size of a sample, and the number of parts of all.
XXH3_CASES = {xxh3_updates.UPDATES: (4, 6), xxh3_updates.DIGESTS: (4, 1), xxh3_updates.STRIPES: (2, 2)}
COVERED = 90, 3000                                  # points tested for completeness of XXH3's cases, and with --all
SOME_SECRETS = [*range(136, 144), *range(190, 202), 256, 257, 576, 999, 1000]
ANY_SECRET = [f"{name}:{way}" for name in ("3-64", "3-128") for way in ("secret", "both")]
MOST_NODES = 400_000                                # terms kept between the cases of a proof
SOME_LENGTHS, SOME_OF_PLAIN = (5, 7), 9     # odd steps between cases of any secret, and of XXH32, without --all
OF_LONG_SEEDS = 137,                                # bytes of secrets generated from 2^32 bytes and more
FEWEST_FRAMED = 9000                                # minimum number of instructions of a source
assert scalar and lanes                             # imported because they fill the table


def programs() -> dict[str, Program]:
    return {name: assembled(f"{FOLDER}/{name}.s", V1, Program) for name in NAMES}


def makers(texts: Mapping[str, Program]) -> Mapping[str, Callable]:
    """Maps each name to a function that makes a processor of its source. Instructions' functions are looked up once."""
    processors = {name: functools.partial(Processor, program, name) if not isinstance(program, CargoProgram) else
                  functools.partial(CargoProcessor, program) for name, program in texts.items()}
    for make in processors.values():
        make()
    return processors


def counted(title: str, least: int, ask: Callable, *arguments: object) -> Task:
    """Returns a task with a minimum number of cases: `ask` returns how many passed, the failures, and remarks."""
    def outcome():
        count, bad, *remarks = ask(*arguments)
        few = [f"{count} cases, and {least} at least are wanted"] if count < least and not bad else []
        return "; ".join([f"{count} cases", *remarks]), bad + few
    return Task(title, outcome)


def choose(options: Any, texts: dict[str, Program]) -> list[Task]:
    """Returns the tasks on c/asm."""
    processors, is_all = makers(texts), options.all
    tasks = [*one_shot_tasks(processors, is_all), *secret_tasks(processors, is_all),
             *every_length_tasks(processors, is_all), *stream_tasks(processors, is_all),
             *call_tasks(texts, processors, is_all), assembler_task([(f"{FOLDER}/{name}.s", V1) for name in texts])]
    tasks.insert(0, export_task(texts, [task.title for task in tasks]))
    return tasks


def export_task(texts: Mapping[str, Loaded], titles: list[str]) -> Task:
    return counted("each export has its task", 55 * len(texts),
                   lambda: (sum(exports.expect_all(program, titles) for program in texts.values()), []))


def before_v4(processors: Mapping[str, Callable]) -> dict[str, Callable]:
    return {name: make for name, make in processors.items() if not name.endswith(V4)}


def only_v4(processors: Mapping[str, Callable]) -> dict[str, Callable]:
    return {name: make for name, make in processors.items() if name.endswith(V4)}


# ---- one-shots and streams, compared with the definition's terms

def compared(processors: Mapping, title: str, requests: Iterable[Request], side: Any = one_shots) -> Task:
    """Returns a task of requests, each for all sources: the definition's term is computed once. For XXH32 and XXH64
    x86-64-v4's code equals x86-64-v3's."""
    requests = list(requests)
    processors = before_v4(processors) if one_shots.is_plain(requests[0].hash_name) else processors
    lengths = [request.length for request in requests]

    def ask():
        sides = {name: functools.partial(side.of_text, make()) for name, make in processors.items()}
        return comparison.compare(sides, requests)
    return counted(f"{title}: {min(lengths)} to {max(lengths)} bytes", len(requests) * len(processors), ask)


def one_by_one(processors: Mapping, algorithm: tuple[str, str, Any], lengths: Iterable[int], more: str = "") -> Task:
    return compared(processors, comparison.title_of(*algorithm) + more, comparison.requests(*algorithm, lengths))


def one_shot_tasks(processors, is_all):
    """Yields the tasks of one-shots. With a secret of 136 bytes x86-64-v4 runs x86-64-v3's code."""
    yield from [one_by_one(processors if is_all or algorithm[2] is None else before_v4(processors), algorithm,
                           ONE_BY_ONE if is_all else SOME_SHORT) for algorithm in comparison.algorithms(SECRETS)]
    for algorithm in [("3-64", "default", None), ("3-128", "seed", None), ("3-64", "secret", 192)]:
        yield one_by_one(only_v4(processors), algorithm, EDGES_OF_BLOCKS, f", at the edges of blocks, {V4}")
    for algorithm in comparison.algorithms(SECRETS) if not is_all else ():
        yield from [one_by_one(only_v4(processors), algorithm, FEW_LENGTHS, f", {V4}")] if algorithm[2] else []
    for algorithm in comparison.algorithms(SECRETS) if is_all else ():
        yield one_by_one(processors, algorithm, comparison.edges(algorithm[2]), ", at edges")
        if algorithm[2] is None and algorithm[0].startswith("3-"):
            yield from (one_by_one(processors, algorithm, lengths) for lengths in (MORE, [every_length.PREFETCHED]))


def secret_tasks(processors, is_all):
    """Yields the tasks of secrets of several lengths: all, or every third."""
    for hash_name in ("3-64", "3-128"):
        requests = [Request(hash_name, variant, n, size) for size in SOME_SECRETS for variant in ("secret", "both")
                    for n in (240, 700)][::1 if is_all else 3]
        yield compared(processors, f"XXH{hash_name}, secrets of 136 to 1000 bytes", requests)


def stream_tasks(processors, is_all):
    for algorithm in comparison.algorithms(STREAM_SECRETS if is_all else SOME_OF_STREAMS):
        asked = list(few_streams(FEW_STREAMS[::1 if is_all else 2], *algorithm))
        yield compared(processors, f"streams of {comparison.title_of(*algorithm)}", asked, streams)
    yield from plain_stream_tasks(before_v4(processors), is_all)
    yield from xxh3_tasks(processors, is_all)


def plain_stream_tasks(processors: Mapping[str, Callable], is_all: bool, some: int = SOME_UPDATES,
                       title: str = "streams of XXH{}: any updates", names: tuple = ("32", "64")) -> Iterator[Task]:
    """Yields the tasks of streams of XXH32 and XXH64: all cases, or a sample. Only both have resets and digests."""
    yield counted("each update of XXH32 and XXH64 has its task", 2, updates_left_out)
    for hash_name in names:
        count = len(list(any_updates.updates(hash_name)))
        for name, make in processors.items():
            for part in range(UPDATE_PARTS) if is_all else [None]:
                portion = f"each {some}th case" if part is None else f"part {part + 1} of {UPDATE_PARTS}"
                least = count // (UPDATE_PARTS if is_all else some)
                yield counted(f"{title.format(hash_name)}, to 2^64 - 1 bytes, {name}, {portion}", least,
                              any_streams, make, hash_name, part, some, len(names) > 1)


def xxh3_tasks(processors: Mapping[str, Callable], is_all: bool, proofs: tuple = xxh3_states.PROOFS) -> Iterator[Task]:
    """Yields the tasks of streams of XXH3 with any updates, by proofs of some kinds: all cases, in parts, or some."""
    for proof_class, (name, make) in itertools.product(proofs, processors.items()):
        yield counted(f"{proof_class.TITLE}: each case has its task, {name}", COVERED[is_all] // 3,
                      points_left_out, make, is_all, proof_class)
        for what in proof_class.TASKS:
            some, parts = XXH3_CASES[what]
            for part in range(parts) if is_all else [None]:
                portion = "some cases" if part is None else f"part {part + 1} of {parts}"
                yield counted(f"{proof_class.TITLE}: {what}, to 2^64 - 1 bytes, {name}, {portion}", some,
                              any_xxh3, make, what, part, proof_class)


def points_left_out(make: Callable, is_all: bool, proof_class: Callable) -> tuple[int, list[str]]:
    """Returns the number of points, and messages for those that no case contains."""
    bad = [f"no case has {point}" for point in coverage.left_out(proof_class(make()), COVERED[is_all] // 3)]
    return COVERED[is_all] // 3, bad[:5]


def any_xxh3(make: Callable, what: str, part: int | None, proof_class: Callable) -> tuple[int, list[str]]:
    proof = proof_class(make())
    asked, (some, parts) = proof.queries(what), XXH3_CASES[what]
    return count_shown(proof, sample(what, asked, some) if part is None else asked[part::parts])


def sample(what: str, asked: list, some: int) -> list:
    """Returns some of the proofs and the last one, or one for each function that takes stripes."""
    each = {ask.args[1][0].name: ask for ask in asked if hasattr(ask, "args")} if what == xxh3_updates.STRIPES else {}
    return [*each.values()] or [*asked[::len(asked) // some], asked[-1]]


def few_streams(lengths, hash_name, variant, secret):
    for n, *cuts in lengths:
        request = Request(hash_name, variant, n, secret, cuts=cuts)
        yield from [request, *request.with_seed_0()]


def updates_left_out() -> tuple[int, list[str]]:
    bad = [f"XXH{name}: no case has {left[:5]}" for name in layouts.PLAIN if (left := any_updates.left_out(name))]
    return len(layouts.PLAIN) - len(bad), bad


def any_streams(make: Callable, hash_name: str, part: int | None, some: int, has_ends: bool,
                proof_class: Callable = any_updates.AnyUpdates) -> tuple[int, list[str]]:
    """Proves updates: a part, or a sample. The sample and the first part include the reset and digests, if any."""
    proof = proof_class(make(), hash_name)
    cases = list(any_updates.updates(hash_name))
    asked = [functools.partial(ask, one) for one in (cases[::some] if part is None else cases[part::UPDATE_PARTS])
             for ask in (proof.update, proof.lost_total)]
    asked += [proof.reset, *(functools.partial(proof.digest, a, r) for r in range(int(hash_name) // 2)
                             for a in (0, variable("a")))] if has_ends and not part else []
    return count_shown(proof, asked)


def count_shown(proof: every_length.Cases, asked: list) -> tuple[int, list[str]]:
    """Returns the number of proved cases, and the messages on the others."""
    bad = []
    for ask in asked:
        if len(nodes.NODES) > MOST_NODES:
            proof.forget()
        try:
            ask()
        except (*REFUSALS, WrongRule) as error:
            bad.append(f"{type(error).__name__}: {error}")
    return len(asked) - len(bad), bad


# ---- every length

def every_length_tasks(processors, is_all):
    yield counted("every length of XXH32 and XXH64 has its task", 2, plain_left_out)
    if is_all:
        yield counted("every length of XXH3 has its task", 2, xxh3_left_out)
    for algorithm in every_length.UNROLLED:
        yield from of_every_length(before_v4(processors), algorithm, f"XXH{algorithm}: every length to 2^64 - 1",
                                   every_length.cases(algorithm)[::1 if is_all else SOME_OF_PLAIN])
    for name in ("3-64", "3-128") if not is_all else ():
        yield from of_every_length(processors, f"{name}:seed", f"XXH{name}, seed: two cases of every length",
                                   every_length.cases(f"{name}:seed")[:2])
    yield from [*long_tasks(processors, is_all), *(short_tasks_of_v4(processors) if is_all else ())]


def long_tasks(processors: Mapping[str, Callable], is_all: bool) -> Iterator[Task]:
    """Yields the tasks of XXH3 of every length: all cases, or some with a secret."""
    yield from any_secret_tasks(processors, is_all, ANY_SECRET)
    for hash_name, way in itertools.product(("3-64", "3-128"), ("default", "seed")) if is_all else ():
        algorithm = f"{hash_name}:{way}"
        for seed in (None, 0) if way == "seed" else (None,):
            title = f"XXH{hash_name}, {way}{' 0' if seed == 0 else ''}: every length to 2^64 - 1"
            yield from of_every_length(processors, algorithm, title, every_length.cases(algorithm), seed)
    for algorithm, (name, make) in itertools.product(ANY_SECRET if is_all else (), processors.items()):
        title = f"XXH{algorithm.replace(':', ', ')} of any length: 0 to 240 bytes, {name}"
        yield counted(title, 241, up_to_240, make, algorithm)


def any_secret_tasks(processors: Mapping[str, Callable], is_all: bool, algorithms: list[str]) -> Iterator[Task]:
    """Yields the tasks of XXH3 from 241 bytes on with any secret: all cases, or some."""
    yield counted("every length with any secret has its task", COVERED[is_all], secrets_left_out, processors, is_all)
    for algorithm in algorithms:
        title, portion = f"XXH{algorithm.replace(':', ', ')} of", "" if is_all else ", some cases"
        step = 1 if is_all else SOME_LENGTHS[algorithm != algorithms[0]]
        yield from [counted(f"{title} any other length: every length from 241 on, {name}{portion}", 2, any_secrets,
                            make, algorithm, step) for name, make in processors.items()]
        if is_all:
            title = f"{title} 192 to 199 bytes: every length from 241 on"
            yield from of_every_length(before_v4(processors), algorithm, title, every_length.of_secret())
            yield from of_every_length(only_v4(processors), algorithm, title, every_length.of_secret_by_turns())


def short_tasks_of_v4(processors):
    """Returns tasks of secrets of 192 bytes for x86-64-v4: the lengths missing in its tasks of every length."""
    asked = [*range(241, MORE.stop), every_length.PREFETCHED]
    return [one_by_one(only_v4(processors), (name, way, 192), asked, f", {V4}")
            for name, way in (algorithm.split(":") for algorithm in ANY_SECRET)]


def of_every_length(processors: Mapping, algorithm: str, title: str, asked: list, seed: int | None = None) -> list:
    return [counted(f"{title}, {name}", len(asked), shown, make, algorithm, asked, seed)
            for name, make in processors.items()]


def plain_left_out() -> tuple[int, list[str]]:
    return report_left_out({f"XXH{name}": every_length.left_out(every_length.cases(name), ONE_BY_ONE.stop,
                                                                int(name) // 2 * every_length.UNROLLED[name])
                            for name in every_length.UNROLLED})


def xxh3_left_out() -> tuple[int, list[str]]:
    """Returns the lengths without a case. The length PREFETCHED of a default or derived secret has a separate task."""
    derived = every_length.left_out(every_length.cases("3-64:seed"), MORE.stop, 64 * every_length.DERIVED)
    own = every_length.left_out(every_length.of_secret(), 241, 64 * every_length.DERIVED)
    return report_left_out({"a secret of 192 bytes": own,
                            "a derived secret": sorted({*derived} - {every_length.PREFETCHED})})


def report_left_out(found: dict[str, list[int]]) -> tuple[int, list[str]]:
    return len(found), [f"{name}: no task has {left[:5]}" for name, left in found.items() if left]


def shown(make: Callable, algorithm: str, asked: list, seed: int | None) -> tuple[int, list[str]]:
    proof = every_length.EveryLength(make(), algorithm)
    return count_shown(proof, [functools.partial(proof.show, case, seed) for case in asked])


def secrets_left_out(processors: Mapping[str, Callable], is_all: bool) -> tuple[int, list[str]]:
    """The same for lengths with secrets of any length."""
    proof = any_secret.AnySecret(next(iter(processors.values()))())
    found = list(coverage.without_one_shot(proof.cases(), proof.facts, COVERED[is_all]))
    return COVERED[is_all], [f"no case has {point}" for point in found[:5]]


def any_secrets(make: Callable, algorithm: str, step: int) -> tuple[int, list[str]]:
    hash_name, _, way = algorithm.partition(":")
    proof = any_secret.AnySecret(make())
    return count_shown(proof, proof.queries(way, hash_name[2:])[::step])


def up_to_240(make: Callable, algorithm: str) -> tuple[int, list[str]]:
    proof = every_length.EveryLength(make(), algorithm)
    return count_shown(proof, [functools.partial(proof.show_short, n) for n in range(241)])


# ---- the other calls

def of_each(processors: Mapping[str, Callable], title: str, least: int, call: Callable, *more: object) -> Task:
    """Returns a task that calls a function on each processor. The function returns its number of cases, or raises."""
    return counted(title, least * len(processors),
                   lambda: (sum(call(make(), *more) for make in processors.values()), []))


def call_tasks(texts, processors, is_all):
    sizes = [0, 1, 135, 136, 137, 143, 144, 191, 192, 256, 1000] if not is_all else [*range(0, 301), 1000]
    seeds = [0, 1, 17, 136, 241, 300, 1100] if is_all else [0, 3, 241, 1100]
    generated = [(size, n) for size in sizes for n in (seeds if is_all or size == 136 else seeds[size % 4:][:1])]
    of = functools.partial(of_each, before_v4(processors))
    return [*(of(*call) for call in calls.WITHOUT_MESSAGE),
            *(of_each(processors, *call) for call in calls.OF_MESSAGES + calls.SHORT_SECRETS),
            of_each(processors, "made secrets", len(generated) + len(OF_LONG_SEEDS), generated_secrets, generated),
            counted(f"exports of {V4} that have the code of {V3}", 24,
                    lambda: (exports.expect_code_of_v3(texts[V4], texts[V3]), [])),
            twin_task(texts), frames_task(texts)]


def twin_task(texts: Mapping[str, Loaded]) -> Task:
    return counted("names of another's code", 9 * len(texts),
                   lambda: (sum(exports.expect_twins(program) for program in texts.values()), []))


def frames_task(texts: Mapping[str, Loaded], least: int = FEWEST_FRAMED) -> Task:
    """Returns the task of unwinding tables: a minimum number of instructions per source."""
    return counted("the frame at each instruction", least * len(texts),
                   lambda: (sum(map(expect_frames, texts.values())), []))


def generated_secrets(cpu: Processor, asked: list[tuple[int, int]]) -> int:
    return calls.generated_secrets(cpu, asked) + long_seeds.generated_secrets(cpu, OF_LONG_SEEDS)


def assembler_task(sources: list[tuple[str, str]]) -> Task:
    """Returns the task that compares each source's objects by three assemblers."""
    return counted("one object by GNU as, clang and rustc", 2 * len(sources), lambda: (expect_alike(sources), []))
