"""Planted faults in the header, which the compiled code must show."""
import collections
import functools

from oracle.symbolic_terms import REFUSALS, Request, WrongRule, comparison, header_mutants

from .. import one_shots, streams
from . import inductions, other_calls
from .compilers import Compiler
from .objects import CProcessor, OfText

# A fault: the function of the header, the old and the new text, and what must detect it, of a processor.
Fault = collections.namedtuple("Fault", "function old new ask")


# ---- what detects a fault: each function raises, or returns messages


def value(hash_name, variant, length, secret=None, cuts=None):
    """Returns the comparison of a one-shot, or of a stream that is cut."""

    def ask(cpu):
        side = OfText(one_shots if cuts is None else streams)
        request = Request(hash_name, variant, length, secret, cuts=cuts)
        return comparison.compare({"C": functools.partial(side.of_text, cpu)}, [request])[1]

    return ask


def any_length(algorithm, number=-1):
    """Returns the proof of a case of every length."""
    return lambda cpu: inductions.EveryLength(cpu, algorithm).show(inductions.cases(algorithm)[number]) or []


def update(hash_name, r, s, more):
    """Returns the proof of an update from r bytes in the buffer to s."""

    def ask(cpu):
        one = next(one for one in inductions.updates(hash_name) if one[:2] == (r, s) and one.more == more)
        return inductions.Updates(cpu, hash_name).show(one) or []

    return ask


def call(ask, *arguments):
    return lambda cpu: ask(cpu, *arguments) and []


FAULTS = [
    # Loops over a rest, and tests of lengths.
    Fault("xxh32_finish", "length >= 4;", "length > 4;", value("32", "seed", 4)),
    Fault("xxh64_finish", "length >= 4)", "length > 4)", value("64", "seed", 4)),
    Fault("XXH64(const void", "hash + length,", "hash + (uint32_t)length,", any_length("64")),
    Fault("XXH32(const void", "length / 16 * 16;", "(uint32_t)length / 16 * 16;", any_length("32")),
    Fault("xxh3_64_0_to_16", "length >= 4", "length > 4", value("3-64", "seed", 4)),
    Fault("xxh3_64_17_to_128", "length > 64", "length > 65", value("3-64", "seed", 65)),
    Fault("xxh3_128_129_to_240", "i < length / 32", "i + 1 < length / 32", value("3-128", "default", 240)),
    Fault("##bits_withSecretandSeed(", "length <= 240", "length < 240", value("3-64", "both", 240, 136)),
    # Loops over stripes and blocks.
    Fault("xxh3_accumulate_all", "(length - 1) / 64", "length / 64", any_length("3-64:default")),
    Fault(
        "xxh3_accumulate_all",
        "stripes_per_block * block,",
        "stripes_per_block * (uint32_t)block,",
        any_length("3-128:seed"),
    ),
    Fault("xxh3_accumulate_all", "block < blocks", "block + 1 < blocks", value("3-64", "secret", 1025, 192)),
    Fault("_long_seed(const", "if (!seed)", "if (seed)", value("3-64", "seed", 300)),
    # Streams.
    Fault("XXH_errorcode XXH32_update", "length >= 16", "length > 16", update("32", 5, 0, False)),
    Fault("xxh64_update_stripes", "bytes += missing;", "bytes += missing - 1;", update("64", 3, 7, True)),
    Fault(
        "XXH_errorcode xxh3_update", "length > sizeof", "length >= sizeof", value("3-64", "default", 256, cuts=[100])
    ),
    Fault("xxh3_accumulate_blocks", "count < left", "count <= left", value("3-128", "default", 1088, cuts=[])),
    Fault("xxh3_accumulate_last", "secret_limit - 7", "secret_limit - 8", value("3-64", "default", 300, cuts=[])),
    Fault(
        "XXH3_128bits_digest", "if (state->uses_seed)", "if (!state->uses_seed)", value("3-128", "seed", 100, cuts=[])
    ),
    # Other calls.
    Fault("XXH_errorcode xxh3_reset_with_secret", "!secret || ", "", call(other_calls.refused_resets)),
    Fault(
        "XXH3_generateSecret(",
        "secret_length - 16, hash",
        "secret_length - 17, hash",
        call(other_calls.generated_secrets, [(200, 17)]),
    ),
    Fault(
        "*XXH3_createState(", "(uintptr_t)block % 64", "(uintptr_t)block % 32", call(other_calls.created_states, "XXH3")
    ),
    Fault("XXH128_cmp(", "a->low64 < b->low64 ? -1 : 1", "-1", call(other_calls.order_of_hashes)),
]


def unnoticed(compiler: Compiler, faults: list[Fault]) -> tuple[int, list[str]]:
    """Returns how many faults are detected, and messages on the others."""
    bad = []
    for fault in faults:
        where = fault.function, fault.old, fault.new
        program = compiler.program(lambda header, where=where: header_mutants.changed(header, *where))
        if not is_noticed(fault, CProcessor(program)):
            bad.append(f"{fault.function} {fault.old}  ->  {fault.new}: it was not noticed")
    return len(faults) - len(bad), bad


def is_noticed(fault, cpu):
    try:
        return bool(fault.ask(cpu))
    except (*REFUSALS, WrongRule):
        return True
