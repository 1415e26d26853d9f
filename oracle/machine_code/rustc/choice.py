"""Tests the choice of an instruction set by `cpuid`, and the calls of the assembly source's exports by their arguments.

The features of each level are those of the x86-64 psABI, with their bits from Intel's and AMD's manuals."""
import functools

from oracle.symbolic_terms import (
    LONGEST_SECRET,
    Input,
    NotShown,
    Piece,
    Request,
    at_most,
    definition,
    given,
    is_same,
    is_same_number,
    minus,
    plus,
    seed_symbol,
    symbol,
    variable,
)

from .. import layouts
from ..cargo import LONGEST_WITHOUT, SHORTEST
from ..one_shots import value_of
from ..values import Address, Cpu, address, place_of
from .library import ForRust, ways
from .objects import UNKNOWN
from .uses import started

EAX, EBX, ECX, EDX = range(4)
FIRST, SEVENTH, EXTENDED = 1, 7, 0x8000_0001  # leaves of `cpuid`
BASIC, HIGHEST = 0, 0x8000_0000  # leaves with the maximum leaves
SAVED = "saved"  # the register with the state that the system saves
# (leaf, register, bit) of each feature
OF_V3 = {
    "FMA": (FIRST, ECX, 12),
    "MOVBE": (FIRST, ECX, 22),
    "OSXSAVE": (FIRST, ECX, 27),
    "AVX": (FIRST, ECX, 28),
    "F16C": (FIRST, ECX, 29),
    "BMI1": (SEVENTH, EBX, 3),
    "AVX2": (SEVENTH, EBX, 5),
    "BMI2": (SEVENTH, EBX, 8),
    "LZCNT": (EXTENDED, ECX, 5),
    "saved XMM": (SAVED, EAX, 1),
    "saved YMM": (SAVED, EAX, 2),
}
OF_V4 = {
    "AVX512F": (SEVENTH, EBX, 16),
    "AVX512DQ": (SEVENTH, EBX, 17),
    "AVX512CD": (SEVENTH, EBX, 28),
    "AVX512BW": (SEVENTH, EBX, 30),
    "AVX512VL": (SEVENTH, EBX, 31),
    "saved masks": (SAVED, EAX, 5),
    "saved upper halves": (SAVED, EAX, 6),
    "saved upper registers": (SAVED, EAX, 7),
}
NUMBERS = {"x86-64": 0, "x86-64-v3": 1, "x86-64-v4": 2}  # of the variants of `Level`
LONGEST_SLICE = (1 << 63) - 1
FILLED = 200  # buffered bytes of a stream
CAPACITY = layouts.CORE.capacity - FILLED  # and bytes that still fit
SWITCH = 2048  # bytes of a chunk from which on the code for x86-64-v4 is called


class Features:
    """Results of `cpuid` and `xgetbv`: these bits, in registers whose other bits are all set or all clear."""

    def __init__(self, bits, others, leaves=SEVENTH, further=EXTENDED):
        self.bits, self.others, self.ends = bits, others, {BASIC: leaves, HIGHEST: further}

    def leaf(self, leaf, further):
        if leaf in self.ends:
            return self.ends[leaf], 0, 0, 0
        if leaf > self.ends[BASIC] and leaf < HIGHEST or leaf > self.ends[HIGHEST] or leaf == SEVENTH and further:
            raise NotShown(f"the leaf {leaf:#x}, {further} doesn't exist")
        return tuple(self.register(leaf, k) for k in range(4))

    def saved(self):
        if OF_V3["OSXSAVE"] not in self.bits:
            raise NotShown("`xgetbv` without OSXSAVE")
        return self.register(SAVED, EAX)

    def register(self, leaf, k):
        value = 0
        for bit in range(32):
            place = leaf, k, bit
            is_known = place in [*OF_V3.values(), *OF_V4.values()]
            value |= (place in self.bits if is_known else self.others) << bit
        return value


def choice(cpu: Cpu) -> int:
    """Tests the level of processors that have all features, all but one, or only those of a level."""
    v3, v4, count = [*OF_V3.values()], [*OF_V4.values()], 0
    both = [*v3, *v4]
    cases = [(both, "x86-64-v4"), (v3, "x86-64-v3"), (v4, "x86-64"), ([], "x86-64")]
    cases += [([x for x in both if x != left], "x86-64") for left in v3]
    cases += [([x for x in both if x != left], "x86-64-v3") for left in v4]
    for bits, expected in cases:
        for others in (0, 1):
            expect_level(cpu, Features(bits, others), expected)
            count += 1
    for leaves, further in ((SEVENTH - 1, EXTENDED), (SEVENTH, HIGHEST)):
        expect_level(cpu, Features(both, 1, leaves, further), "x86-64")
        count += 1
    return count


def expect_level(cpu, features, expected):
    cpu.constants[cpu.program.level].store(0, 1, UNKNOWN)
    cpu.features = features
    for _ in range(2):  # the second call reads the level that the first one stored
        found = cpu.call("processor_level")[0]
        if not is_same_number(found, NUMBERS[expected]):
            missing = [name for name, place in {**OF_V3, **OF_V4}.items() if place not in features.bits]
            raise NotShown(f"the level {found} without {missing}, not {expected}")
        cpu.features = None


# ---- long inputs by the assembly source


class Called:
    """Replaces the exports `.._long` of all instruction sets: expects the message, and the secret that the definition
    uses, and returns symbols."""

    def __init__(self, cpu, width, message, length, secret):
        self.cpu, self.width, self.message, self.length, self.secret = cpu, width, message, length, secret
        self.values, self.count = [symbol(f"hash{k}", 64) for k in range(width // 64)], 0
        for name, place in cpu.program.functions.items():
            if name.endswith(tuple(f"xxh3_{width}_long{end}" for end in ("", "_v3", "_v4"))):
                cpu.replaced[place] = functools.partial(self.run, place)

    def run(self, _):
        at, n, secret, size, *to = (self.cpu.registers[name] for name in self.cpu.ARGUMENTS[: 4 + self.width // 128])
        source, first = place_of(at)
        if source is not self.message or not is_same_number(first, 0) or not is_same_number(n, self.length):
            raise NotShown(f"a call with {n} bytes at {at}")
        self.expect_secret(secret, size)
        self.count += 1
        place = self.cpu.return_from_another()
        self.cpu.registers["rax"] = 0
        if to:
            memory, at = place_of(to[0])
            for k, value in enumerate(self.values):
                self.cpu.store(memory, at + 8 * k, 8, value)
        else:
            self.cpu.registers["rdx"] = self.values[0]
        return place

    def expect_secret(self, place, size):
        memory, at = place_of(place)
        if isinstance(self.secret, Input):
            if memory is not self.secret or at != 0 or not is_same_number(size, self.secret.length):
                raise NotShown(f"a secret of {size} bytes at {place}")
            return
        loaded = [(memory.load(at + k, 1), x) for k, x in enumerate(self.secret)]
        if size != len(self.secret) or not all(is_same(x, y) or is_same_number(x, y) for x, y in loaded):
            raise NotShown(f"another secret of {size} bytes")


def long_inputs(cpu: Cpu) -> int:
    """Tests that a one-shot of any length above 240 bytes, with any secret, is one call of the assembly source."""
    count, derived_secret = 0, definition.program().run()["derived_secret"]
    seed, n, more = seed_symbol("64"), variable("n"), variable("more")
    length, size = plus(LONGEST_WITHOUT + 1, n), plus(SHORTEST, more)
    for width in (64, 128):
        for variant in ("default", "seed", "seed 0", "secret", "both"):
            has_secret = variant in ("secret", "both")
            message, secret = Input("m", length), Input("s", size) if has_secret else None
            used = 0 if variant == "seed 0" else seed
            rest = [address(secret), size] if has_secret else []
            rest += [used] if variant in ("seed", "seed 0", "both") else []
            cpu.replaced, cpu.not_zero, cpu.live = {}, [seed], []
            known = secret or derived_secret(seed if variant == "seed" else 0)
            with given(at_most(length, LONGEST_SLICE), at_most(size, LONGEST_SECRET)):
                called = Called(cpu, width, message, length, secret or [known[k] for k in range(192)])
                value = ForRust.one_shot(cpu, f"3-{width}", variant.split()[0], address(message), length, *rest)
            whole = called.values[0] if width == 64 else value_of("3-128", called.values)
            if called.count != 1 or not is_same(value, whole):
                raise NotShown(f"XXH3-{width}, {variant}: {called.count} calls, and the value {value}")
            count += 1
    cpu.replaced = {}
    return count


# ---- chunks by the assembly source


def long_chunks(cpu: Cpu) -> int:
    """Tests that a chunk that the buffer of a stream has no room for, of any length, is one call of the assembly
    source: with the stream's core, its secret, and the chunk."""
    count, n = 0, variable("n")
    length, of_level = plus(CAPACITY + 1, n), minus(SWITCH, CAPACITY + 1)
    for hash_name, way in [(name, way) for name in ("3-64", "3-128") for way in ways(name)]:
        asked = Request(hash_name, way.variant, FILLED, SHORTEST if way.variant == "both" else None, cuts=[])
        for request in [asked, *asked.with_seed_0()]:
            for facts in ([at_most(n, of_level - 1)], [minus(n, of_level), at_most(length, LONGEST_SLICE)]):
                with given(*facts):
                    long_chunk(cpu, way, request, Input("chunk", length))
                count += 1
    cpu.replaced = {}
    return count


def long_chunk(cpu, way, request, chunk):
    cpu.replaced, calls = {}, []
    state, library = started(cpu, request.hash_name, way, request)
    library.update(cpu, request.hash_name, state, Piece(request.message, 0, FILLED))
    before = dict(state.cells)
    for name, place in cpu.program.functions.items():
        if name.endswith(("_xxh3_write", "_xxh3_write_v3", "_xxh3_write_v4")):
            cpu.replaced[place] = functools.partial(record, cpu, calls, request.secret)
    library.update(cpu, request.hash_name, state, chunk)
    expect_chunk(calls, state, chunk, request)
    if before.keys() != state.cells.keys() or any(state.cells[at][1] is not x for at, (_, x) in before.items()):
        raise NotShown(f"{request}: the call changes the stream")


def record(cpu: Cpu, calls: list[tuple], secret: Address | None) -> tuple[str, int] | None:
    """Notes a call's arguments, with the bytes of its secret if that isn't the caller's, and returns the code 0."""
    core, own, size, at, length = (cpu.registers[name] for name in cpu.ARGUMENTS[:5])
    memory, first = place_of(own)
    known = own if secret else [memory.load(first + k, 1) for k in range(size)]
    calls.append((place_of(core), known, size, place_of(at), length))
    place = cpu.return_from_another()
    cpu.registers["rax"] = 0
    return place


def expect_chunk(calls, state, chunk, request):
    """Checks the calls that `record` noted: one, with the right arguments."""
    if len(calls) != 1:
        raise NotShown(f"{request}: {len(calls)} calls")
    (((memory, at), secret, size, (source, first), length),) = calls
    if (
        memory is not state
        or not isinstance(at, int)
        or source is not chunk
        or not is_same_number(first, 0)
        or not is_same_number(length, chunk.length)
    ):
        raise NotShown(f"{request}: a call with {length} bytes at {first} of {source.name}")
    if request.secret:
        is_right = place_of(secret) == (request.secret, 0) or is_copy(place_of(secret), request.secret)
    else:
        derived = definition.program().run()["derived_secret"](request.seed())
        is_right = size == len(secret) == 192 and all(
            is_same(x, derived[k]) or is_same_number(x, derived[k]) for k, x in enumerate(secret)
        )
    if not is_right or request.secret and size != request.secret.length:
        raise NotShown(f"{request}: another secret of {size} bytes")


def is_copy(place, secret):
    """True if the bytes at a place are those of a secret."""
    memory, at = place
    return all(is_same(memory.load(at + k, 1), secret.load(k, 1)) for k in range(secret.length))
