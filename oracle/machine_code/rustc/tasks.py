"""Chooses the tasks of oracle/rust-object: the crate's public calls in rustc's object, compared with the definition."""
import argparse
import functools
import itertools
import re
import tempfile

from oracle.symbolic_terms import comparison, cuts, processes, variable
from oracle.symbolic_terms.comparison import title_of

from .. import any_updates, every_length, on_processor, xxh3_updates
from ..instructions import V1, V3
from ..one_shots import is_plain
from ..processor import Processor
from ..tasks import SOME_SHORT, UPDATE_PARTS, any_streams, compared, count_shown, counted, of_each
from . import choice, names, planted, uses, xxh3_streams
from .compilers import ASSEMBLY, SCALAR_BUILD, Compiler
from .inductions import RustUpdates, by_call, by_last_stripe, cases_of, has_facts, of_any_secret
from .objects import LEVELS, OWN, known_where_reached

SECRETS = (136, 192)
ONE_BY_ONE = range(301)
SOME = [*range(0, 33), 48, 63, 64, 65, 96, 128, 129, 160, 192, 240, 241, 255, 256, 257, 300]
FEW = [0, 3, 7, 16, 33, 100, 129, 240, 241, 300]
LONG = [1024, 1025, 3137]  # bytes: the edge of a block, and more than two blocks
SOME_ALGORITHMS = [("3-64", "default", None), ("3-128", "secret", 136)]  # of long one-shots, without --all
STREAMED = [3, 8, 17, 33, 70]
# Steps between cases of the inductions, without --all: odd, since the cases alternate between two or four paths.
SOME_CASES, SOME_OF_XXH3, SOME_UPDATES, SOME_OF_RAW = 17, 21, 389, 7
LONGER = range(301, 1101)  # with a secret; the inductions have each length of the other one-shots
# The levels of each build: x86-64 has a choice of AVX2, and the assembly source of three instruction sets.
OF_BUILD = {V1: (1, 2), V3: (2,), SCALAR_BUILD: (1,), ASSEMBLY: tuple(LEVELS)}
FEWEST_USES, FEWEST_NAMES = 90, 40
FEWEST_OF_RAW = {xxh3_updates.UPDATES: 80, xxh3_updates.DIGESTS: 300}
# Exports that no task calls, with the reason.
NOT_CALLED = {f"xxh{name}_equal": "instructions that the processor's model lacks" for name in ("32", "64")}


def choose(given: argparse.Namespace, compilers: list[Compiler]) -> list[processes.Task]:
    """Returns the tasks, and compiles the builds that they run."""
    out = [
        counted("the program uses each public name", FEWEST_NAMES, names.left_out),
        counted("a public function without a use is refused", 1, new_name_is_missing),
        counted("samples of every length have each path", 3, samples_have_each_path),
    ]
    if compilers[0].name == V1:
        out.append(
            counted("instructions that only rustc's objects have, beside the processor", 12, forms_beside_processor)
        )
    for compiler in compilers if given.all else [one for one in compilers if one.name != V3]:
        program = compiler.program_of()
        make = functools.partial(compiler.processor, program)
        processors = {f"level {level}": functools.partial(make, level) for level in OF_BUILD.get(compiler.name, (1,))}
        for one in processors.values():
            one()  # looks up the instructions' functions, which the tasks' processes share
        out += build_tasks(compiler.name, processors, given.all)
        out += called_tasks(compiler.name, make, program, processors, given.all)
    out += fault_tasks(given, compilers)
    return processes.chosen(out, given)


def samples_have_each_path():
    """Without --all, the cases must include those with a call of the assembly source, those with a whole last stripe,
    and the others."""
    asked = [
        ("32", cases_of("32", True)[::SOME_CASES], by_call(variable(every_length.TURNS))),
        *((f"3-{width}", cases_of(f"3-{width}:seed")[::SOME_OF_XXH3], by_last_stripe()) for width in (64, 128)),
    ]
    bad = [f"XXH{name}: no case of {way}" for name, cases, ways in asked for way in ways if not includes(cases, way)]
    return len(asked), bad


def includes(cases, way):
    return any(has_facts(case, way) for case in cases)


class ProcessorOfForms(Processor):
    known = staticmethod(known_where_reached)


def forms_beside_processor():
    """Compares the forms that only rustc's objects have with this processor."""
    on_processor.expect_processor()
    forms = [(mnemonic, form) for mnemonic, form in OWN if form and " " not in mnemonic]
    with tempfile.TemporaryDirectory(prefix="rust-object-") as workdir:
        texts = {on_processor.sampled(*form): form for form in forms}
        return on_processor.compare(texts, workdir, snippets=[], processor=ProcessorOfForms)


def build_tasks(name, processors, is_all):
    first = dict([next(iter(processors.items()))])
    yield from one_shot_tasks(name, processors, first, is_all)
    if is_all or name in (V1, ASSEMBLY, "aarch64"):
        yield from stream_tasks(name, first, is_all)
        yield from induction_tasks(name, processors, first, is_all)
    if is_all or name == V1:
        yield from xxh3_tasks(name, processors, is_all)


def one_shot_tasks(name, processors, first, is_all):
    """Yields the tasks of one-shots. Without --all the first build has the most lengths."""
    for algorithm in comparison.algorithms(SECRETS):
        is_first = algorithm[2] is None and name in (V1, "aarch64")
        lengths = FEW if name in (V3, SCALAR_BUILD) else SOME
        if is_all:
            lengths = [*ONE_BY_ONE, *(LONGER if algorithm[2] else ())]
        if is_first and not is_all:
            lengths = SOME_SHORT
        yield compared(first, f"{name}: {title_of(*algorithm)}, one-shots", comparison.requests(*algorithm, lengths))
        if name in OF_BUILD and (is_all or algorithm in SOME_ALGORITHMS):
            more = [] if algorithm[2] or is_plain(algorithm[0]) else [every_length.PREFETCHED]
            lengths = [*LONG, *more] if is_all else LONG[1:2]
            yield compared(
                processors, f"{name}: {title_of(*algorithm)}, long one-shots", comparison.requests(*algorithm, lengths)
            )


def stream_tasks(name, processors, is_all):
    """Yields the tasks of streams. An XXH3 stream has a seed, and a custom secret or one derived from the seed."""
    for algorithm in comparison.algorithms(SECRETS):
        if algorithm[1] != "secret":
            some = STREAMED[name == V1 :: 2]  # the builds share the code of short streams
            asked = cuts.streams(*algorithm, cuts.STREAMED if is_all else some)
            yield compared(processors, f"{name}: {title_of(*algorithm)}, streams", asked, uses)


# ---- inductions


def induction_tasks(name, processors, first, is_all):
    """Yields the tasks of every length and of any updates of XXH32 and XXH64: all cases, or a sample. Only XXH32 calls
    the assembly source, by level."""
    for hash_name in every_length.UNROLLED:
        found, count = cases_of(hash_name, name == ASSEMBLY), len(list(any_updates.updates(hash_name)))
        cases = found[:: 1 if is_all else SOME_CASES]
        is_called = name == ASSEMBLY and hash_name == "32"
        levels = processors if is_called else first
        for level, make in levels.items():
            yield counted(
                f"{name}, {level}: XXH{hash_name}: every length to 2^{63 if is_called else 64} - 1",
                len(cases),
                functools.partial(shown, make, hash_name, cases),
            )
        for level, make in (levels if is_all else dict([*levels.items()][-1:])).items():
            for part in range(UPDATE_PARTS) if is_all else [None]:
                portion = f"each {SOME_UPDATES}th case" if part is None else f"part {part + 1} of {UPDATE_PARTS}"
                least = count // (UPDATE_PARTS if is_all else SOME_UPDATES)
                title = f"{name}, {level}: streams of XXH{hash_name}: any updates, to 2^64 - 1 bytes, {portion}"
                yield counted(
                    title, least, functools.partial(any_streams, make, hash_name, part, SOME_UPDATES, True, RustUpdates)
                )


def xxh3_tasks(name, processors, is_all):
    """Yields the tasks of XXH3 of every length in the Rust source: all cases, or a sample of two ways."""
    algorithms = [f"{name}:{way}" for name in ("3-64", "3-128") for way in ("default", "seed")]
    for algorithm in algorithms if is_all else (algorithms[0], algorithms[3]):
        cases = cases_of(algorithm)[:: 1 if is_all else SOME_OF_XXH3]
        for level, make in processors.items():
            yield counted(
                f"{name}, {level}: XXH{algorithm.replace(':', ', ')}: every length to 2^64 - 1",
                len(cases),
                functools.partial(shown, make, algorithm, cases),
            )
    for algorithm in [f"{name}:{way}" for name in ("3-64", "3-128") for way in ("secret", "both")] if is_all else ():
        for level, make in processors.items():
            title = f"{name}, {level}: XXH{algorithm.replace(':', ', ')} of 192 to 199 bytes: every length from 241 on"
            yield counted(title, len(of_any_secret()), functools.partial(shown, make, algorithm, of_any_secret()))


def shown(make, algorithm, cases):
    proof = every_length.EveryLength(make(), algorithm)
    return count_shown(proof, [functools.partial(proof.show, case) for case in cases])


# ---- the other calls


def called_tasks(name, make, program, processors, is_all):
    """Yields the tasks of the other calls, and of what they leave out."""
    first, *others = processors
    if name not in OF_BUILD:
        return
    if is_all or name == ASSEMBLY:
        yield counted(
            f"{name}: each export of the program is called",
            FEWEST_USES,
            functools.partial(all_called, processors[first], program, is_all),
        )
    elif name != V3:
        others = processors
    for level in others if is_all else [*others][-1:]:
        some = uses.STREAMS[0 if is_all else 4 :]
        yield of_each(
            {level: processors[level]},
            f"{name}, {level}: streams by each way to start them",
            25 * len(some),
            functools.partial(uses.by_each_way, is_cloned=False, asked=some),
        )
    if program.level and (is_all or name in (V1, ASSEMBLY)):
        yield of_each({first: make}, f"{name}: the level by `cpuid`", 48, choice.choice)
    if name == ASSEMBLY:
        yield of_each(processors, "assembly: one-shots of XXH3 of any length above 240 bytes", 10, choice.long_inputs)
        yield of_each(
            processors, "assembly: chunks of XXH3 of any length that don't fit the buffer", 58, choice.long_chunks
        )
        yield from raw_stream_tasks(name, first, make, is_all)


def raw_stream_tasks(name, level, make, is_all):
    """Yields the tasks of streams of `RawHasher` over a secret of the caller, with any updates: all, or a sample."""
    each = 1 if is_all else SOME_OF_RAW
    for width, what in itertools.product(xxh3_updates.WIDTHS, xxh3_streams.RawStreams.TASKS):
        yield counted(
            f"{name}, {level}: streams of XXH3-{width} by a RawHasher: {what}, to 2^64 - 1 bytes",
            FEWEST_OF_RAW[what] // each,
            functools.partial(raw_streams, make, width, what, each),
        )


def raw_streams(make, width, what, each):
    proof = xxh3_streams.RawStreams(make(), width)
    return count_shown(proof, proof.queries(what)[::each])


def all_called(make, program, is_all):
    """Runs all uses, and compares the exports that they call with the program's."""
    cpu, called = make(), set()
    call = cpu.call

    def noted(name, *arguments):
        called.add(name)
        return call(name, *arguments)

    cpu.call = noted
    for least, ask in uses.calls(is_all):
        if ask(cpu) < least:
            return 0, ["fewer cases than expected"]
    for algorithm in comparison.algorithms(SECRETS[:1]):
        uses.one_shot(cpu, next(comparison.requests(*algorithm, [17])))
    if program.level:
        choice.choice(cpu)
    exports = {name for name in program.exports if re.match(r"(xxh|raw_|secret_|processor_)", name)}
    bad = [f"no task calls {name}" for name in sorted(exports - called - NOT_CALLED.keys())]
    return len(exports), bad + [f"there is no {name}" for name in sorted(called - exports)]


def new_name_is_missing():
    """Adds a public function to the texts of the crate: it must be missing."""
    texts = [*names.texts_of_crate(), "impl Hasher { pub fn unheard_of(&self) {} }"]
    _, bad = names.left_out(texts)
    return 1, [] if bad == ["the program doesn't use unheard_of"] else [f"a new function isn't missing: {bad}"]


# ---- planted faults


def fault_tasks(given, compilers):
    """Yields the tasks of planted faults: of each build together, and with --all one by one."""
    known = {compiler.name for compiler in compilers}  # ARM has no planted faults
    for build, faults in planted.groups().items():
        if planted.build_of(build) in known:
            for some in [[fault] for fault in faults] if given.all else [faults]:
                title = some[0].file if given.all else f"{len(some)} faults"
                yield counted(
                    f"planted in {build}: {title}", len(some), functools.partial(planted.unnoticed, compilers, some)
                )
