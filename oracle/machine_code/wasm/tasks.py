"""Chooses the tasks of oracle/modules: the requests of the two modules, and the task that proves each export."""
import argparse
import functools
import hashlib
import os
from typing import Iterator

from oracle.symbolic_terms import comparison, cuts
from oracle.symbolic_terms.processes import Task, chosen
from oracle.symbolic_terms.comparison import title_of
from oracle.symbolic_terms.tasks import STREAM_SECRETS

from .. import coverage
from .. import tasks as of_texts
from ..xxh3_updates import DIGESTS, STRIPES, UPDATES
from . import (
    calls,
    comparing,
    engine,
    every_length,
    invalid_records,
    mutation,
    plain_streams,
    planted,
    planted_sections,
    refusals,
    removed,
    xxh3_streams,
)
from .machine import STACK, Machine
from .module import FUNCTION, GLOBAL, MEMORY, PAGE, Module

WEB = os.path.join(os.path.dirname(os.path.abspath(__file__)), "..", "..", "..", "web")
NAMES = "twox_hash.wasm", "twox_hash_simd.wasm"
SECRETS, GATE_SECRETS = (136, 137, 143, 144, 192, 256), (136,)
GATE_EACH, GATE_STREAMS = 16, (33, 300)  # step between the lengths of one-shots, and the lengths of streams
GATE_ALGORITHMS, GATE_CASES = [("32", "seed"), ("64", "seed"), ("3-64", "seed"), ("3-128", "both")], 24
# Cases of XXH3's streams: size of a sample, and the number of parts of all.
XXH3_CASES = {UPDATES: (8, 4), DIGESTS: (37, 2), STRIPES: (2, 2)}
GATE_CHANGES, CHANGES = 6, 1000  # of a module
GATE_TYPES, GATE_REMOVED = 3, 6  # steps between planted types of exports, and removed exports
PARTS = 4  # tasks into which the changes of a module are split

# Every export, with words of the titles of tasks that prove it.
XXH3_ONE_SHOTS = {
    f"twox_xxh3_{bits}{calls.WAYS[way]}": [f"XXH3-{bits}, {way}", "one-shots"]
    for bits in (64, 128)
    for way in calls.WAYS
}
EXPORTS = {
    "twox_xxh32": ["XXH32, seed", "one-shots"],
    "twox_xxh64": ["XXH64, seed", "one-shots"],
    **XXH3_ONE_SHOTS,
    **{
        f"twox_xxh{bits}_{what}": [f"XXH{bits}, seed", "streams"]
        for bits in (32, 64)
        for what in ("stream_size", "start", "update", "digest")
    },
    "twox_xxh3_stream_size": ["XXH3-64, seed", "streams"],
    "twox_xxh3_update": ["XXH3-64, seed", "streams"],
    "twox_xxh3_64_digest": ["XXH3-64, seed", "streams"],
    "twox_xxh3_128_digest": ["XXH3-128, seed", "streams"],
    **{f"twox_xxh3_start{calls.WAYS[way]}": [f"XXH3-64, {way}", "streams"] for way in ("seed", "secret", "both")},
    "memory": ["the exports"],
    "__heap_base": ["the exports"],
}
HEAP_ALIGNMENT = 16  # of __heap_base


def signatures() -> dict[str, tuple[tuple[int, ...], tuple[int, ...]]]:
    """Maps each exported function to its type: widths of its arguments and of its results. An address, a length and a
    code are an i32, the size of a record is an i64."""
    out = {
        "twox_xxh3_stream_size": ((), (64,)),
        "twox_xxh3_update": ((32,) * 5, (32,)),
        "twox_xxh3_start_with_seed": ((32, 32, 64), ()),
        "twox_xxh3_start_with_secret": ((32,) * 3, (32,)),
        "twox_xxh3_start_with_seed_and_secret": ((32, 64, 32, 32), (32,)),
    }
    for width in (32, 64):
        out |= {
            f"twox_xxh{width}": ((width, 32, 32), (width,)),
            f"twox_xxh{width}_stream_size": ((), (64,)),
            f"twox_xxh{width}_start": ((32, width), ()),
            f"twox_xxh{width}_update": ((32,) * 3, (32,)),
            f"twox_xxh{width}_digest": ((32, 32), (32,)),
        }
    for width in (64, 128):
        out[f"twox_xxh3_{width}_digest"] = (32,) * 4, (32,)
        for way, name in calls.WAYS.items():
            seed, secret = (64,) * (way in ("seed", "both")), (32, 32) * (way in ("secret", "both"))
            value = (32,) * (bool(secret) or width == 128)  # where it is written to
            leaves = (32,) if secret else () if value else (64,)
            out[f"twox_xxh3_{width}{name}"] = (*seed, *secret, 32, 32, *value), leaves
    return out


def machines() -> dict[str, Machine]:
    """Maps each module's name to its machine."""
    out = {}
    for name in NAMES:
        with open(os.path.join(WEB, name), "rb") as file:
            out[name] = Machine(Module(file.read()))
    return out


def checksums() -> Iterator[str]:
    for name in NAMES:
        with open(os.path.join(WEB, name), "rb") as file:
            whole = file.read()
        yield f"{name}, {len(whole)} bytes, SHA-256 {hashlib.sha256(whole).hexdigest()}"


def choose(given: argparse.Namespace, machines: dict[str, Machine]) -> list[Task]:
    """Returns the tasks. The machines are made once; each task has its own copies, since it runs as a process."""
    out = [
        *lengths(given.all),
        *OF_REFUSALS,
        ("planted sections", functools.partial(planted_sections.report, each=1 if given.all else GATE_TYPES)),
        *induction(given.all),
        *streams_by_induction(given.all),
        *xxh3_streams_by_induction(given.all),
        ("the table of instructions beside Node", engine.compare_instructions),
        (
            "changed modules, which Node too accepts or refuses",
            functools.partial(engine.compare_validity, count=300 if given.all else 5),
        ),
        *of_changes(given.all),
    ]
    titles = [title for title, _ in out]
    out.insert(0, ("the exports are those of the table, each with its task", functools.partial(exports, titles=titles)))
    out.append(
        (
            "removed functions are noticed",
            functools.partial(
                removed.unnoticed, asked=asked_without_all(), titles_of=EXPORTS, each=1 if given.all else GATE_REMOVED
            ),
        )
    )
    return chosen([Task(title, functools.partial(ask, machines)) for title, ask in out], given)


def asked_without_all():
    """Returns the titles and the tasks of CI that compare the modules with the definition."""
    return [
        *lengths(False),
        *OF_REFUSALS,
        *induction(False),
        *streams_by_induction(False),
        *xxh3_streams_by_induction(False),
    ]


# ---- the exports


def exports(machines, titles):
    """Checks that each module has exactly the exports of the table, that their tasks exist, and where the caller's
    memory begins."""
    bad = [
        f"no task shows {name}"
        for name, title_parts in EXPORTS.items()
        if title_parts != ["the exports"] and not any(all(word in title for word in title_parts) for title in titles)
    ]
    for module, vm in machines.items():
        found = vm.module.exports
        bad += [f"{module} exports {name}, of which the table says nothing" for name in found.keys() - EXPORTS.keys()]
        bad += [f"{module} doesn't export {name}" for name in EXPORTS.keys() - found.keys()]
        bad += [f"{module}: {line}" for line in of_memory(vm, found)]
    return f"{len(EXPORTS)} exports of each module", bad


def of_memory(vm: Machine, found: dict[str, tuple[int, int]]) -> list[str]:
    """Checks the types of a module's exports, that __heap_base is just behind the stack and the constants, and that the
    memory has the pages before it, and no limit."""
    module, known = vm.module, signatures()
    types = {
        name: (export_type, tuple(module.functions[index].signature) if export_type == FUNCTION else None)
        for name, (export_type, index) in found.items()
    }
    bad = [
        f"the type of {name}"
        for name, found in types.items()
        if found != {"memory": (MEMORY, None), "__heap_base": (GLOBAL, None)}.get(name, (FUNCTION, known.get(name)))
    ]
    if bad:
        return bad
    base, end = module.globals[found["__heap_base"][1]], max(vm.end_of_stack, module.end_of_segments())
    if (
        (base.width, base.is_mutable) != (64, False)
        or not 0 <= base.value - end < HEAP_ALIGNMENT
        or vm.end_of_stack <= STACK
    ):
        bad.append(f"__heap_base is {base}, and not just behind the stack and the constants")
    bad += [f"a memory of {module.pages} pages"] if module.pages != -(-base.value // PAGE) else []
    return bad + [f"constants at {place}, on the stack" for place, _ in module.segments if place < vm.end_of_stack]


# ---- single lengths


def lengths(is_all):
    each, streamed = 1 if is_all else GATE_EACH, cuts.STREAMED if is_all else GATE_STREAMS
    for algorithm in comparison.algorithms(SECRETS if is_all else GATE_SECRETS):
        title = title_of(*algorithm)
        yield compared(f"{title}, one-shots of 0 to 300 bytes", algorithm, one_by_one(each), False)
        if algorithm[2] in (None, *STREAM_SECRETS):
            yield compared(f"{title}, streams of 0 to 1,088 bytes", algorithm, streamed, True)


def one_by_one(each):
    """Returns every `each`-th length up to 300, and the lengths at which a hash takes another path."""
    edges = {n + d for n in (32, 64, 96, 128, 240, 256) for d in (0, 1)}
    return sorted({*range(0, 301, each), *range(33), *edges, 300})


def compared(title, algorithm, asked, is_stream):
    def ask(machines):
        equal, bad = comparing.compare(
            machines, comparing.requests(algorithm, asked, is_stream), calls.stream if is_stream else calls.one_shot
        )
        return f"{len(asked)} lengths, {equal} requests, each one term", bad

    return title, ask


OF_REFUSALS = [
    ("planted modules", planted.report),
    ("planted modules, streams of XXH3", planted.report_of_streams),
    ("secrets of 0 to 135 bytes, one-shots", refusals.one_shots_with_short_secrets),
    ("secrets of 0 to 135 bytes, streams", refusals.streams_with_short_secrets),
    ("records that are no stream's", invalid_records.refuse_all),
    ("counters that stay at 2^64 - 1", refusals.counters_stay),
]


# ---- every length


def induction(is_all):
    yield "the cases of a length are all of them, each once", cases_are_all
    for module in NAMES:
        for hash_name, way in every_length.ALGORITHMS if is_all else GATE_ALGORITHMS:
            is_whole = is_all or calls.is_plain(hash_name)
            first = every_length.shortest(hash_name, way)
            title = f"{title_of(hash_name, way, None)}, {module}: every length from {first} on"
            yield (
                title + ("" if is_whole else ", a sample"),
                functools.partial(
                    shown, module=module, hash_name=hash_name, way=way, each=1 if is_whole else GATE_CASES
                ),
            )


def streams_by_induction(is_all):
    for module in NAMES:
        for width in (32, 64):
            title = f"XXH{width}, {module}: streams of any updates, to 2^64 - 2 bytes"
            yield (
                title + ("" if is_all else ", a sample"),
                functools.partial(streams_shown, module=module, width=width, each=1 if is_all else width // 2),
            )


def streams_shown(machines, module, width, each):
    proof = plain_streams.show(machines[module], width, each)
    return f"{proof.cases} cases; {proof.messages[-1]}", []


def xxh3_streams_by_induction(is_all):
    yield "the cases of streams of XXH3 are all of them", functools.partial(
        xxh3_cases_are_all, count=of_texts.COVERED[is_all] // 3
    )
    for module in NAMES:
        for what, (some, parts) in XXH3_CASES.items():
            title = f"XXH3, {module}: streams, {what}, to 2^64 - 1 bytes"
            for part in range(parts) if is_all else [None]:
                portion = ", a sample" if part is None else f", part {part + 1} of {parts}"
                yield (
                    title + portion,
                    functools.partial(
                        xxh3_streams_shown, module=module, what=what, first=part or 0, some=None if is_all else some
                    ),
                )


def xxh3_cases_are_all(machines, count):
    """Tests `count` points of each kind. The cases are the same for both modules."""
    proof = xxh3_streams.ModuleUpdates(machines[NAMES[0]])
    found = coverage.left_out(proof, count)
    bad = [f"no case has {point}" for point in found[:5]]
    return f"{3 * count} points", bad if planted.lacks_a_case(proof) else [*bad, "a case that is left out isn't missed"]


def xxh3_streams_shown(machines, module, what, first, some):
    """Proves the cases of a part, or a sample of `some` cases."""
    proof = xxh3_streams.ModuleUpdates(machines[module])
    asked = proof.queries(what)
    part = of_texts.sample(what, asked, some) if some else asked[first :: XXH3_CASES[what][1]]
    count, bad = of_texts.count_shown(proof, part)
    return f"{count} cases", bad


def cases_are_all(machines):
    bad = [f"{n} bytes" for n in every_length.missing(every_length.CASES)]
    bad += [f"{q} stripes, {n} bytes" for q, n in every_length.missing_own(every_length.OWN_CASES)]
    return f"{len(every_length.CASES)} and {len(every_length.OWN_CASES)} cases", bad


def shown(machines, module, hash_name, way, each):
    proof = every_length.show(machines[module], hash_name, way, each)
    return f"{proof.cases} cases; {proof.messages[0]}", []


# ---- changes


def of_changes(is_all):
    parts = PARTS if is_all else 1
    for module in NAMES:
        for part in range(parts):
            title = f"changes in the bytes of {module}" + (f", part {part + 1} of {parts}" if is_all else "")
            count = CHANGES // parts if is_all else GATE_CHANGES
            yield title, functools.partial(
                mutation.report, name=module, count=count, seed=part if is_all else PARTS, is_all=is_all
            )
