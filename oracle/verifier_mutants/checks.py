"""What must detect a mutant of the verifier: tests of values, instructions beside the processor, the committed sources,
which must pass, and planted files, which must be refused.

Each is a Check: a title, and a function that raises if it fails. `prepare` reads the sources once; a mutant of a reader
reads them again."""
import collections
import functools
import os
import random
import re
import tempfile
import unittest.mock
from typing import Any

from assembly import same_bytes
from oracle.machine_code import (
    any_secret,
    any_updates,
    calls,
    cargo_exports,
    cargo_streams,
    cargo_tasks,
    coverage,
    disabled_checks,
    disassembly,
    every_length,
    exports,
    instructions,
    long_seeds,
    object_contents,
    on_processor,
    one_shots,
    planted,
    planted_values,
    sources,
    streams,
    tasks,
    xxh3_states,
    xxh3_updates,
)
from oracle.machine_code.cargo import CargoProcessor, CargoProgram
from oracle.machine_code.grammar import expect_grammar
from oracle.machine_code.instructions import V1, V2, V3, V4
from oracle.machine_code import objects as program_objects
from oracle.machine_code.objects import Program
from oracle.machine_code.processor import Processor
from oracle.machine_code.unwinding import expect_frames
from oracle.symbolic_terms import REFUSALS, TOP, Request, comparison, definition, nodes, polynomials, variable

from . import edges, inductions, objects, processors, values
from .values import Wrong

# Where a check belongs: values, the processor, sources that must pass, planted files.
Check = collections.namedtuple("Check", "title type ask")
VALUES, BESIDE, RIGHT, PLANTED = "value", "processor", "right", "planted"
GROUP = 12  # instruction forms of a check
C, CARGO = os.path.join(TOP, "c", "asm"), os.path.join(TOP, "rust", "asm")
LENGTHS = 0, 3, 7, 13, 40, 100, 200, 300
CUTS = [(40, 5), (300, 64, 192), (600, 512, 599), (1100, 64)]


def begin() -> None:
    """Forgets the terms and decisions of earlier checks."""
    nodes.forget()
    polynomials.decided.clear()
    polynomials.under = polynomials.Decided()
    polynomials.facts.clear()
    polynomials.least.clear()
    definition.suppositions.clear()
    instructions.known.cache_clear()
    disassembly.assembled.clear()
    program_objects.operands.cache_clear()


class Sources:
    """The committed sources, assembled, and the functions that the processor runs."""

    def __init__(self, folder, objects):
        self.objects = objects
        self.programs = {name: self.read(f"{C}/{name}.s", Program) for name in (V2, V3, V4)}
        self.programs["cargo"] = self.read(f"{CARGO}/{V1}.s", functools.partial(CargoProgram, V1))
        self.snippets = self.read_snippets(folder)

    def path(self, source):
        """Returns the path of a source's object, assembled once."""
        if source not in self.objects:
            folder = tempfile.mkdtemp(prefix="verifier-mutants-")
            self.objects[source] = sources.by_gnu(source, V1, folder)
        return self.objects[source]

    def read(self, source, read):
        return read(self.path(source))

    def processor(self, name):
        return CargoProcessor(self.programs[name]) if name == "cargo" else Processor(self.programs[name], name)

    def read_snippets(self, folder):
        asked = on_processor.asked(self.programs.values(), False)
        lines = [*([text] for text in asked), *on_processor.SNIPPETS]
        library, program = on_processor.assembled(lines, folder)
        return library, program, lines, [*asked.values(), *[None] * len(on_processor.SNIPPETS)]


# ---- the processor


def beside_processor(known, first):
    """Compares some instructions with the processor: their semantics, on the functions that were assembled before."""
    import ctypes

    library, program, lines, _ = known.snippets
    cpu, rng = Processor(program, on_processor.processor_here()), random.Random(first)
    whole = ctypes.create_string_buffer(on_processor.SIZE + 64)
    state: Any = (ctypes.c_ubyte * on_processor.SIZE).from_buffer(whole, -ctypes.addressof(whole) % 64)
    for number in range(first, min(first + GROUP, len(lines))):
        for _ in range(8):
            data = on_processor.inputs(lines[number][0].split()[0], lines[number], rng)
            state[:] = data
            getattr(library, f"t{number}")(ctypes.byref(state))
            if bytes(state) != on_processor.by_table(cpu, number, lines[number], bytes(data)):
                raise Wrong(f"{lines[number]} beside the processor")


def forms_that_differ(known):
    library, program, lines, forms = known.snippets
    for number, form in enumerate(forms):
        section, at = program.labels[f"b{number}"]
        if form not in (None, on_processor.form_of(program.sections[section][at])):
            raise Wrong(f"{lines[number]} isn't of its form")


# ---- sources that must pass


def expect_none(bad):
    if bad:
        raise Wrong(str(bad[0])[:200])


def requests(known, name, algorithm, lengths, cuts=()):
    side = streams if cuts else one_shots
    asked = []
    ends: list[tuple[int, Any]] = [(n, list(own)) for n, *own in cuts]
    for n, own in ends or [(n, None) for n in lengths]:
        one = Request(algorithm[0], algorithm[1], n, algorithm[2], cuts=own)
        asked += [one, *one.with_seed_0()]
    _, bad = comparison.compare({name: functools.partial(side.of_text, known.processor(name))}, asked)
    expect_none(bad)


def shown(result):
    expect_none(result[1])


def of_updates(known, name, proof_class=any_updates.AnyUpdates, hash_name="64", has_ends=True):
    proof = proof_class(known.processor(name), hash_name)
    cases = [one for one in any_updates.updates(hash_name)]
    some = [cases[5], cases[-1], cases[len(cases) // 2], next(one for one in cases if one.more)]
    asked = [functools.partial(ask, one) for one in some for ask in (proof.update, proof.lost_total)]
    asked += (
        [proof.reset, functools.partial(proof.digest, variable("a"), 3), functools.partial(proof.digest, 0, 5)]
        if has_ends
        else []
    )
    shown(tasks.count_shown(proof, asked))


def of_program(known, name):
    """Reads a source's object again."""
    program = known.read(f"{C}/{name}.s", Program)
    before = known.programs[name]
    if (
        program.sections != before.sections
        or program.exports != before.exports
        or program.constants != before.constants
    ):
        raise Wrong("another program")


def same_objects(known):
    first, second = (known.path(f"{CARGO}/{name}.s") for name in (V1, V3))
    if not same_bytes.Object(first).parts() or list(
        same_bytes.differences(
            same_bytes.Object(first).parts(), same_bytes.Object(first).parts(), same_bytes.difference
        )
    ):
        raise Wrong("an object that differs from itself")
    if not list(
        same_bytes.differences(
            same_bytes.Object(first).parts(), same_bytes.Object(second).parts(), same_bytes.difference
        )
    ):
        raise Wrong("two objects are the same")


def each_symbol(known):
    """Tests that each symbol of an object is compared with the list."""
    found: Any
    object_, found = object_contents.Object(known.path(f"{C}/{V2}.s")), []
    with unittest.mock.patch.object(
        object_contents, "expect_symbol", lambda _, symbol, *others: found.append(symbol) or set()
    ):
        values.refuses(lambda: object_contents.expect_listed(object_, Program.EXPORT), "sections without a symbol")
    values.expect(len(found), len(object_.symbols) - 1, "symbols")


def complete_cases(known):
    expect_none(any_updates.left_out("32") + any_updates.left_out("64"))
    for check in (tasks.plain_left_out, tasks.xxh3_left_out):
        shown(check())
    for algorithm in ("32", "64", "3-64:seed"):
        asked = every_length.cases(algorithm)
        for k in (0, len(asked) // 2, len(asked) - 1):
            period = 1024 if algorithm.startswith("3") else int(algorithm) // 2 * every_length.UNROLLED[algorithm]
            if not every_length.left_out(asked[:k] + asked[k + 1 :], 1101, period):
                raise Wrong("a case that isn't missed")


def complete_updates(known):
    for proof_class in xxh3_states.PROOFS:
        expect_none(list(coverage.left_out(proof_class(known.processor(V2)), 60)))
    proof = xxh3_states.Through(known.processor(V2))
    pieces = list(proof.all_updates())
    if not any(coverage.without_update(pieces[:67] + pieces[68:], proof, 300)):
        raise Wrong("an update that isn't missed")
    chunks = cargo_streams.CargoThrough(CargoProcessor(known.programs["cargo"]))
    expect_none(list(coverage.without_update(chunks.all_updates(), chunks, 200)))
    secrets = any_secret.AnySecret(known.processor(V2))
    expect_none(list(coverage.without_one_shot(secrets.cases(), secrets.facts, 100)))


def xxh3_cases(known, name, what, count, proof_class=xxh3_states.Through):
    proof = proof_class(known.processor(name))
    shown(tasks.count_shown(proof, tasks.sample(what, proof.queries(what), count)))


def lengths_of(known, name, algorithm, cases, seed=None):
    asked = every_length.cases(algorithm)
    shown(tasks.shown(lambda: known.processor(name), algorithm, [asked[k] for k in cases], seed))


def of_any_secret(known, name):
    proof = any_secret.AnySecret(known.processor(name))
    shown(tasks.count_shown(proof, proof.queries("secret", "64")[::9]))


def right_checks(known):
    """Yields the checks of committed sources."""

    algorithm: Any
    cases: Any

    def one(title, ask, *arguments, **more):
        return Check(title, RIGHT, functools.partial(ask, known, *arguments, **more))

    for algorithm in comparison.algorithms((136,)):
        yield one(f"one-shots of {comparison.title_of(*algorithm)}", requests, V2, algorithm, LENGTHS)
    for algorithm in (("32", "seed", None), ("64", "seed", None), ("3-64", "seed", None), ("3-128", "both", 136)):
        yield one(f"streams of {comparison.title_of(*algorithm)}", requests, V2, algorithm, (), CUTS)
        yield one(f"x86-64-v3, {comparison.title_of(*algorithm)}", requests, V3, algorithm, (5, 40, 150, 300))
    yield one("x86-64-v4", requests, V4, ("3-64", "secret", 192), (300, 1100))
    for name, count, call in [*calls.OTHERS, *calls.SHORT_SECRETS]:
        yield Check(name, RIGHT, lambda call=call, count=count: expect_count(call(known.processor(V2)), count))
    for title, count, call in cargo_tasks.refusal_tasks(lambda *of_task: of_task):
        yield Check(
            f"cargo: {title}", RIGHT, lambda call=call, count=count: expect_count(call(known.processor("cargo")), count)
        )
    yield Check("a state without a run", RIGHT, lambda: inductions.lost_runs(known.processor(V2)))
    yield Check("the last stripe in a buffer", RIGHT, lambda: inductions.last_stripes(known.processor(V2)))
    yield Check("places of x86-64-v4", RIGHT, lambda: inductions.places_of_v4(known.processor(V4)))
    yield Check(
        "secrets of 2^32 bytes", RIGHT, lambda: long_seeds.generated_secrets(known.processor(V2), tasks.OF_LONG_SEEDS)
    )
    yield one("cargo: long inputs", requests, "cargo", ("3-64", "secret", 136), (241, 300, 700))
    yield one("updates of XXH64", of_updates, V2)
    yield Check(
        "a task of updates",
        RIGHT,
        lambda: shown(tasks.any_streams(lambda: known.processor(V2), "32", None, 3000, True)),
    )
    yield one("updates of XXH32", of_updates, V2, hash_name="32")
    yield one("cargo: chunks of XXH32", of_updates, "cargo", hash_name="32", has_ends=False)
    for proof_class in xxh3_states.PROOFS:
        for what in proof_class.TASKS:
            yield one(
                f"{proof_class.TITLE}: {what}",
                xxh3_cases,
                V2,
                what,
                2 if what == xxh3_updates.STRIPES else 6,
                proof_class=proof_class,
            )
    yield one("XXH3 by x86-64-v4", xxh3_cases, V4, xxh3_updates.STRIPES, 2)
    for proof_class in cargo_streams.PROOFS:
        yield one(f"cargo: {proof_class.TITLE}", xxh3_cases, "cargo", xxh3_updates.UPDATES, 4, proof_class=proof_class)
    for algorithm, cases in (("64", (0, 40)), ("32", (0, 77)), ("3-64:seed", (0, 1)), ("3-128:default", (3, 30))):
        yield one(f"every length of XXH{algorithm}", lengths_of, V2, algorithm, cases)
    yield one("every length with the seed 0", lengths_of, V3, "3-64:seed", (5,), seed=0)
    yield one("any secret", of_any_secret, V2)
    yield Check("any length to 240 bytes", RIGHT, lambda: shown(tasks.count_shown(*of_short(known))))
    yield Check("exports", RIGHT, lambda: exports.expect_all(known.programs[V2], exports.shown_by().values()))
    yield Check(
        "exports without a task",
        RIGHT,
        lambda: values.refuses(
            lambda: exports.expect_all(known.programs[V2], [*exports.shown_by().values()][1:]),
            "an export without a task",
            REFUSALS,
        ),
    )
    yield Check("twins", RIGHT, lambda: exports.expect_twins(known.programs[V2]))
    yield Check("code of x86-64-v3", RIGHT, lambda: exports.expect_code_of_v3(known.programs[V4], known.programs[V3]))
    yield Check(
        "cargo: exports",
        RIGHT,
        lambda: expect_none(
            cargo_exports.exports_left_out(
                {"cargo's x86-64": known.programs["cargo"]}, [*cargo_exports.shown_by().values()]
            )[1]
        ),
    )
    yield Check("frames", RIGHT, lambda: expect_frames(known.programs["cargo"]))
    yield Check("the grammar", RIGHT, lambda: expect_grammar(f"{CARGO}/{V1}.s", V1))
    yield one("an object", of_program, V3)
    yield Check("bytes of instructions", RIGHT, lambda: disassembly.expect_bytes(known.programs["cargo"]))
    yield one("same objects", same_objects)
    yield one("each symbol of an object", each_symbol)
    yield Check(
        "changed objects", RIGHT, lambda: objects.changed_objects(known.path(f"{CARGO}/{V1}.s"), random.Random(1))
    )
    yield one("each length has its case", complete_cases)
    yield one("each update has its case", complete_updates)
    yield one("the forms of instructions", forms_that_differ)


def of_short(known):
    proof = every_length.EveryLength(known.processor(V2), "3-64:secret")
    return proof, [functools.partial(proof.show_short, n) for n in (0, 3, 8, 16, 17, 129, 200, 240)]


def expect_count(actual, expected):
    if actual != expected:
        raise Wrong(f"{actual} cases, and not {expected}")


# ---- planted files


def refused(one):
    try:
        one.ask()
    except REFUSALS as error:
        if not re.search(one.message, str(error)):
            raise Wrong(f"{one.title}: refused for another reason: {error}"[:300])
        return
    raise Wrong(f"{one.title}: not refused")


def planted_checks():
    """Yields the checks of planted files and, as values, of calls that must be refused."""
    for one in disabled_checks.every_text():
        yield Check(one.title, VALUES if one in planted_values.ASKED else PLANTED, functools.partial(refused, one))


def with_numbers(test):
    """Runs a test of values, with the same random numbers each time."""
    test(random.Random(1))


def value_checks(known):
    for test in [*values.ALL, *edges.ALL, *inductions.ALL, *objects.ALL, *processors.ALL]:
        title = f"{test.__module__.rpartition('.')[2]}: {test.__name__}"
        yield Check(title, VALUES, functools.partial(with_numbers, test))
    for first in range(0, len(known.snippets[2]), GROUP):
        yield Check(f"instructions from {first}", BESIDE, functools.partial(beside_processor, known, first))


def prepare(folder, objects):
    """Returns all checks. `objects` maps sources to their assembled objects, for another call."""
    known = Sources(folder, objects)
    return [*value_checks(known), *right_checks(known), *planted_checks()]


assert planted
