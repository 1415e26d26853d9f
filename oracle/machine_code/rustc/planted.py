"""Planted faults in the crate's source, which tasks must detect. Faults that different calls show share an object."""
import collections
import functools
import re

from oracle.symbolic_terms import REFUSALS, Request, WrongRule, comparison, definition

from .. import any_updates, every_length, one_shots, xxh3_updates
from ..tasks import count_shown
from . import choice, uses, xxh3_streams
from .compilers import Compiler
from .inductions import RustUpdates, cases_of
from .library import ways

ERASED, CORE = "erased/", "erased/twox_core/xxhash3/"
LEVELS = {"Base": 1, "V3": 2, "V4": 3}
TAKEN = "            self.write(stripe);\n            {}rest = after;"
SMALL = "return finalize.small(default_secret(), {}, &self.short[..self.used]);"
SCRAMBLE = "v.round_scramble(&mut sums, secret.last_stripe());"
MINIMUM = "if secret.as_ref().len() >= SECRET_MINIMUM_LENGTH{} {{"
CUT = "if self.total_bytes <= CUTOFF.into_u64(){} {{"
TURNED = "(product)\n        .rotate_left({})"

# A fault: its build, with a remark if another fault would hide it there; the file, the old and the new text; what
# detects it, as a function of a maker of processors; and the pattern of its message.
Fault = collections.namedtuple("Fault", "build file old new ask message")


# ---- what detects a fault: each function raises, or returns messages


def value(hash_name, variant, length, secret=None, level="Base"):
    """Returns the comparison of a one-shot."""

    def ask(make):
        cpu = make(LEVELS[level])
        asked = [Request(hash_name, variant, length, secret)]
        return comparison.compare({"rustc": functools.partial(one_shots.of_text, cpu)}, asked)[1]

    return ask


def stream(hash_name, variant, prefix, start, length, *cuts):
    """Returns the comparison of a stream."""

    def ask(make):
        way = next(way for way in ways(hash_name) if (way.prefix, way.start) == (prefix, start))
        request, cpu = Request(hash_name, variant, length, cuts=cuts), make(LEVELS["Base"])
        expected = request.of_definition(definition.program().run())
        uses.expect(repr(request), uses.written(cpu, hash_name, way, request), expected)
        return []

    return ask


def on(function, level="Base"):
    return lambda make: function(make(LEVELS[level])) and []


def any_length(hash_name):
    """Returns the proof of some cases of every length."""

    def ask(make):
        proof = every_length.EveryLength(make(LEVELS["Base"]), hash_name)
        return count_shown(proof, [functools.partial(proof.show, case) for case in cases_of(hash_name, True)[::32]])[1]

    return ask


def lost_total(hash_name):
    """Returns the proof of some updates after which the total is 2 ^ 64 - 1."""

    def ask(make):
        proof = RustUpdates(make(LEVELS["Base"]), hash_name)
        updates = list(any_updates.updates(hash_name))[::97]
        return count_shown(proof, [functools.partial(proof.lost_total, update) for update in updates])[1]

    return ask


def raw_digests(make):
    """Returns the digests of a `RawHasher` that aren't shown."""
    proof = xxh3_streams.RawStreams(make(LEVELS["Base"]))
    return count_shown(proof, proof.queries(xxh3_updates.DIGESTS)[-8:])[1]


DIFFERS, WRONG_CHUNK = "by the definition and", r"write_u64 after \d+ bytes"

RAW_INTEGERS = functools.partial(uses.integers, only="raw_given")
FAULTS = [
    # Faults that reviewers tried.
    Fault(
        "assembly",
        "kernels/assembly.rs",
        "xxh3_64_long(input.as_ptr(), input.len(), secret.as_ptr(), secret.len())",
        "xxh3_64_long(input.as_ptr(), input.len(), secret.as_ptr(), secret.len() - 8)",
        on(choice.long_inputs),
        "secret of 184 bytes",
    ),
    Fault(
        "assembly",
        "kernels/assembly.rs",
        "        v2: record.v2,\n        v3: record.v3,",
        "        v2: record.v3,\n        v3: record.v2,",
        value("32", "seed", 1040),
        DIFFERS,
    ),
    Fault(
        "assembly",
        "kernels/assembly.rs",
        "xxh3_write(core, start, length, input.as_ptr(), input.len())",
        "xxh3_write(core, start, length - 8, input.as_ptr(), input.len())",
        on(choice.long_chunks),
        "another secret of 184 bytes",
    ),
    Fault(
        "assembly",
        "processor.rs",
        "1 << 16 | 1 << 17 | 1 << 28",
        "1 << 12 | 1 << 17 | 1 << 28",
        on(choice.choice),
        "the level 1 without .., not x86-64-v4",
    ),
    Fault(
        "assembly",
        ERASED + "twox_plain/xxhash64/rounds.rs",
        TAKEN.format(""),
        TAKEN.format("if after.len() >= 4096 && after.len() < 4128 { self.v1 ^= 1; }"),
        any_length("64"),
        "turns.* == 4128",
    ),
    Fault(
        "assembly",
        CORE + "streaming/stream_counts.rs",
        "saturating_add(LEN.into_u64())",
        "saturating_add(LEN.into_u64() + u64::from(LEN == 8))",
        on(RAW_INTEGERS),
        f"raw_given_3_64_{WRONG_CHUNK}",
    ),
    Fault(
        "assembly",
        CORE + "streaming/stream_state.rs",
        SMALL.format("seed"),
        SMALL.format("if self.used == 8 { 0 } else { seed }"),
        stream("3-128", "seed", "xxh3_128_", "with_seed", 8),
        "stream seed 8 bytes",
    ),
    Fault(
        "assembly",
        "xxhash3.rs",
        "Self::with_seed(seed, room).ok().unwrap()",
        "Self::with_seed(seed ^ 1, room).ok().unwrap()",
        stream("3-128", "seed", "raw_boxed_3_128_", "allocate_with_seed", 300),
        "stream seed 300 bytes",
    ),
    Fault(
        "assembly",
        CORE + "streaming/secret_buffer.rs",
        MINIMUM.format(""),
        MINIMUM.format(" || secret.as_ref().len() == 100"),
        on(uses.refused),
        "== 100",
    ),
    Fault(
        "assembly",
        CORE + "streaming/stream_counts.rs",
        CUT.format(""),
        CUT.format(" || self.total_bytes > 1 << 40"),
        raw_digests,
        "the order of|== 0|<|another value",
    ),
    Fault(
        "scalar",
        "lib.rs",
        "            self.0.finish()\n",
        "            self.0.finish() ^ 1\n",
        stream("64", "seed", "xxh64_", "start", 36),
        "stream seed 36 bytes",
    ),
    Fault(
        "scalar",
        ERASED + "twox_plain/xxhash64/state.rs",
        "self.total_len.saturating_add(input.len().into_u64())",
        "self.total_len.wrapping_add(input.len().into_u64())",
        lost_total("64"),
        r"the total is .* and not 2\^64 - 1",
    ),
    Fault(
        "scalar, apart",
        CORE + "stripes/blocks.rs",
        f"        {SCRAMBLE}",
        f"        if i < 2 {{ {SCRAMBLE} }}",
        value("3-64", "default", 3137),
        DIFFERS,
    ),
    Fault(
        "scalar",
        CORE + "large/scalar.rs",
        "(accumulator >> 47)",
        "(accumulator >> 46)",
        value("3-64", "default", 1025),
        DIFFERS,
    ),
    # Others.
    Fault(
        "scalar",
        ERASED + "twox_plain/xxhash64/rounds.rs",
        "rotate_left(27)",
        "rotate_left(26)",
        value("64", "seed", 9),
        DIFFERS,
    ),
    Fault(
        "scalar",
        ERASED + "twox_plain/xxhash32/rounds.rs",
        TURNED.format(13),
        TURNED.format(14),
        value("32", "seed", 16),
        DIFFERS,
    ),
    Fault(
        "scalar",
        ERASED + "twox_core/width_64.rs",
        "rotate_left(49)",
        "rotate_left(48)",
        value("3-64", "seed", 5),
        DIFFERS,
    ),
    Fault(
        "scalar", CORE + "mixing.rs", "input.len() as u8", "(input.len() as u8) ^ 1", value("3-128", "seed", 3), DIFFERS
    ),
]


def build_of(group: str) -> str:
    """Returns the name of a group's build."""
    return group.partition(",")[0]


def groups() -> dict[str, list[Fault]]:
    """Maps each build, and each remark, to its faults."""
    out = collections.defaultdict(list)
    for fault in FAULTS:
        out[fault.build].append(fault)
    return out


def unnoticed(compilers: list[Compiler], faults: list[Fault]) -> tuple[int, list[str]]:
    """Compiles faults together. Returns how many are detected, and messages on the others."""
    compiler = next(one for one in compilers if one.name == build_of(faults[0].build))
    program = compiler.program_of([(fault.file, fault.old, fault.new) for fault in faults])
    bad = [
        message for fault in faults if (message := messages_of(fault, functools.partial(compiler.processor, program)))
    ]
    return len(faults) - len(bad), bad


def messages_of(fault, make):
    """Returns a message if a fault isn't detected by what it must be."""
    try:
        messages = fault.ask(make)
    except (*REFUSALS, WrongRule) as error:
        messages = [str(error)]
    if isinstance(messages, list) and any(re.search(fault.message, line) for line in messages):
        return None
    return f"{fault.file}: {fault.new.strip()}: {messages or 'it was not noticed'}"
