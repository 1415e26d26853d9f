"""Planted faults in modules: instructions inserted at the start of an export, each of which must be refused."""
import functools

from oracle.symbolic_terms import REFUSALS, Poly, Request, is_same, is_same_number, variable

from .. import coverage, layouts
from ..xxh3_updates import TAKE, TAKE_MANY
from . import calls, every_length, refusals
from .assembler import assembled, unsigned
from .mutation import with_change
from .comparing import Texts, compare, with_seed_0
from .machine import Machine
from .module import Malformed, Reader
from .stripes import Takers
from .xxh3_streams import ModuleUpdates

ONE_SHOT = "twox_xxh64"  # takes the seed, the message's address and its length
OTHER_SEED = "local.get 0; {}; i64.extend_i32_u; i64.add; local.set 0"
OF_ONE_LENGTH = "local.get 2; i32.const 0x2000000; i32.ne; i32.eqz; if; {}; end"
# Title, export, and the inserted instructions.
PLANTED = [
    ("a branch on a byte", ONE_SHOT, "local.get 1; i32.load8_u 0; if; end"),
    ("a place by a byte", ONE_SHOT, "local.get 1; local.get 1; i32.load8_u 0; i32.add; i32.load8_u 0; drop"),
    ("a shift by a byte", ONE_SHOT, "i32.const 1; local.get 1; i32.load8_u 0; i32.shl; drop"),
    ("a read behind the message", ONE_SHOT, "local.get 1; local.get 2; i32.add; i32.load8_u 0; drop"),
    ("a read before the message", ONE_SHOT, "local.get 1; i32.const 1; i32.sub; i32.load8_u 0; drop"),
    ("a store to the message", ONE_SHOT, "local.get 1; i32.const 0; i32.store8 0"),
    ("a store to the constants", ONE_SHOT, "i32.const 0x100000; i32.const 0; i32.store8 0"),
    ("a read of what the stack held", ONE_SHOT, "i32.const 0xff000; i32.load8_u 0; drop"),
    ("a store below the stack", ONE_SHOT, "i32.const 2048; i32.const 0; i32.store8 0"),
    ("a stack's end that isn't given back", ONE_SHOT, "global.get 0; i64.const 16; i64.sub; global.set 0"),
    ("another value for the seed 0", ONE_SHOT, OTHER_SEED.format("local.get 0; i64.eqz")),
    ("another value for one seed", ONE_SHOT, OTHER_SEED.format("local.get 0; i64.const 0x123456789; i64.eq")),
    ("a value by the message's place", ONE_SHOT, OTHER_SEED.format("local.get 1")),
    ("no end", ONE_SHOT, "loop; br 0; end"),
    ("another value for one length", ONE_SHOT, OF_ONE_LENGTH.format("local.get 0; i64.const 1; i64.xor; local.set 0")),
    ("a trap at one length", ONE_SHOT, OF_ONE_LENGTH.format("unreachable")),
    ("a store behind the value", "twox_xxh3_128", "local.get 2; i32.const 0; i32.store8 16"),
    ("a refused call that writes", "twox_xxh3_64_with_secret", "local.get 4; i32.const 0; i32.store8 0"),
    (
        "a value by where the secret lies beside the message",
        "twox_xxh3_64_with_secret",
        "local.get 0; i64.extend_i32_u; local.get 2; i64.extend_i32_u; i64.sub; "
        "i64.const 8; i64.lt_u; if; unreachable; end",
    ),
    (
        "a secret that is too short and isn't refused at one length",
        "twox_xxh3_64_with_secret",
        "local.get 3; i32.const 2000; i32.ne; i32.eqz; if; i32.const 136; local.set 1; end",
    ),
    (
        "a secret of one length that is too short and isn't refused",
        "twox_xxh3_64_with_secret",
        "local.get 1; i32.const 100; i32.ne; i32.eqz; if; i32.const 136; local.set 1; end",
    ),
    ("a digest that changes the record", "twox_xxh64_digest", "local.get 0; i32.const 0; i32.store8 8"),
]


def with_inserted(module, function, text):
    """Returns a module's bytes with instructions inserted at the start of a function."""
    whole, (first, end) = module.whole, module.place_of_functions
    begin, place = function.at + len(size_before(whole, function)), function.code[0].at
    body = whole[begin:place] + assembled(text) + whole[place : function.end]
    functions = whole[first : function.at] + unsigned(len(body)) + body + whole[function.end : end]
    size, other = unsigned(end - first), unsigned(len(functions))
    if whole[first - len(size) : first] != size or len(other) != len(size):
        raise Malformed("a size of another number of bytes")
    return whole[: first - len(size)] + other + functions + whole[end:]


def size_before(whole, function):
    """Returns the bytes that encode a function's size."""
    reader = Reader(whole, function.at)
    reader.unsigned()
    return whole[function.at : reader.at]


def answers(vm):
    """Yields tests of a module, as functions: True if it passes. A test may also raise a refusal."""
    texts = Texts()
    for request, answer in (
        (Request("64", "seed", 40), calls.one_shot),
        (Request("3-128", "default", 5), calls.one_shot),
        (Request("64", "seed", 40, cuts=[3]), calls.stream),
        (Request("3-64", "secret", 17, 136), calls.one_shot),
    ):
        vm.has_asked = False
        yield lambda: is_same(answer(vm, request), texts.value(request))
        if vm.has_asked:
            yield lambda: is_same(answer(vm, with_seed_0(request)), texts.value(with_seed_0(request)))
    yield lambda: refusals.refuse_any(vm, "3-64", "secret", variable("n")) is None  # type: ignore[func-returns-value]
    yield lambda: every_length.show(vm, "64", "seed", rests=[3]) is not None


def refusal(vm):
    """Returns the reason why a module is refused, or None."""
    for ask in answers(vm):
        try:
            if not ask():
                return "another value"
        except REFUSALS as error:
            return f"{type(error).__name__}: {error}"
    return None


def report(machines: dict[str, Machine]) -> tuple[str, list[str]]:
    """Tests each module with each planted fault. Returns faults that pass, and unchanged modules that fail."""
    bad = []
    for name, vm in machines.items():
        bad += [f"{name} is refused: {why}" for why in [refusal(vm)] if why]
        for what, export, text in PLANTED:
            function = vm.module.exported(export)
            if not refusal(with_change(vm, function, with_inserted(vm.module, function, text))):
                bad.append(f"{name} passes with {what}")
    return f"{len(PLANTED) * len(machines)} planted modules, each refused", bad


# ---- streams of XXH3 of any updates

FULL = "; ".join(
    [
        f"local.get 0; i32.wrap_i64; i64.load {layouts.CORE.buffer_usage}; i64.const {layouts.CORE.capacity}",
        "i64.eq; if",
        "local.get 0; i32.wrap_i64; i64.const 1; i64.store 0",
        "end",
    ]
)


def of_full_buffer(vm, takers):
    return takers.long_pieces, with_inserted(vm.module, takers.long_pieces, FULL)


def with_other_byte(number, then, byte, bits):
    """Returns a change of the function for many stripes: inverts `bits` of a number before the instruction `then`."""

    def make(vm, takers):
        function, whole = takers.found[TAKE_MANY.name][0], bytearray(vm.module.whole)
        x = next(
            x for x, behind in zip(function.code, function.code[1:]) if x.given == number and behind.opcode.name == then
        )
        whole[x.at + byte] ^= bits
        return function, bytes(whole)

    return make


def long_update(proof):
    """Proves an update by a long chunk, with stripes in the buffer."""
    return functools.partial(
        proof.update, *next(map(proof.with_limit, proof.pieces("many", proof.starts(False), [(64, [])])))
    )


def taken(which):
    """Returns a test that proves a case of the function for many stripes."""

    def ask(proof):
        return functools.partial(
            proof.taken_of,
            *next((secret, case) for secret, case in proof.all_taken() if case[0] is TAKE_MANY and which(*case[1])),
        )

    return ask


def ends_a_block(first, *others):
    """True if a part of one stripe ends a block before the others."""
    return bool(others) and is_same_number(first.turns, 1) and is_same_number(others[0].start[1], 0)


def has_blocks(first, *others):
    """True if there are whole blocks after the stripes to a block's end."""
    return bool(others) and isinstance(first.turns, Poly)


POINTS = 20  # points per test for a missing case
CUT = [Request("3-64", "seed", 1088, cuts=[512, 1000])]
# Faults in code that only long chunks of a stream run: title, change, test that must detect it, refusal's text.
OF_STREAMS = [
    ("another accumulator where the buffer is exactly full", of_full_buffer, long_update, "64*g == 512"),
    (
        "no scramble where a block ends before a fourth stripe",
        with_other_byte(16, "i64.ne", 1, 1),
        taken(ends_a_block),
        "192 of s, which has u + 192",
    ),
    (
        "fewer stripes before the first of many blocks",
        with_other_byte(960, "i64.and", 2, 4),
        taken(has_blocks),
        "as a condition",
    ),
]


def of_streams(vm, ask):
    """Returns the refusal of a proof about the streams of XXH3, or an empty string."""
    try:
        ask(ModuleUpdates(vm))()
    except REFUSALS as error:
        return str(error)
    return ""


def report_of_streams(machines: dict[str, Machine]) -> tuple[str, list[str]]:
    """Tests each module with each fault of streams: it must pass CUT, and be refused by its proof."""
    bad = []
    for what, make, ask, message in OF_STREAMS:
        wrong = {name: with_change(vm, *make(vm, Takers(vm))) for name, vm in machines.items()}
        bad += [f"with {what}, elsewhere: {line}" for line in compare(wrong, CUT, calls.stream)[1]]
        bad += [
            f"{name} with {what}: {why or 'it passes'}"
            for name, vm in wrong.items()
            if message not in (why := of_streams(vm, ask))
        ]
    return f"{len(OF_STREAMS) * len(machines)} planted modules, each refused", bad


def lacks_a_case(proof: ModuleUpdates) -> bool:
    """True if a missing update, a missing digest and missing stripes are detected."""
    updates, digests, takers = map(list, (proof.all_updates(), proof.digests(), proof.all_taken()))
    del updates[687], digests[310], takers[3]
    return all(
        map(
            any,
            (
                coverage.without_update(updates, proof, POINTS),
                coverage.without_digest(digests, proof, POINTS),
                coverage.without_taken(takers, proof, [(TAKE.name, 0)], POINTS),
            ),
        )
    )
