"""Tests the functions of c/source/xxhash.c other than one-shots and streams. Each check runs a processor, returns its
number of cases, and raises an exception on any mismatch."""
import contextlib
import functools
import itertools

from oracle.symbolic_terms import (
    LONGEST_SECRET,
    REFUSALS,
    Input,
    NotShown,
    Request,
    at_most,
    definition,
    given,
    is_same,
    plus,
    symbol,
    variable,
)

from .. import calls
from ..memory import WordMemory
from ..one_shots import is_plain
from ..streams import ERROR, OK, contents, expect_answer, expect_same, new_state
from ..values import Address, Cpu, address, low
from .objects import MODULUS, OF_STACK, OF_STATE, at_each_residue

ALGORITHMS = {"XXH32": "32", "XXH64": "64", "XXH3": "3-64"}
SHORTEST = 136  # bytes of a secret
LIMIT = (1 << 64) - 1


def any_state(cpu, hash_name, name="state"):
    """Returns memory of a state's size, with any content and its alignment."""
    state = new_state(cpu, hash_name)
    state.name = name
    cpu.lay(state, hash_name)
    return state


def equal_hashes(cpu: Cpu) -> int:
    """Tests equal hashes, and hashes that differ in the low word, in the high word, or in both: by any xor, which some
    code computes, or one is greater."""
    with contextlib.suppress(*REFUSALS):
        return calls.is_equal(cpu)
    for signs in itertools.product((0, 1, -1), repeat=2):
        pairs = [(variable(f"word {k}"), plus(variable(f"word {k}"), variable(f"more {k}"), 1)) for k in (0, 1)]
        one, other = [[pair[sign == side] for pair, sign in zip(pairs, signs)] for side in (1, -1)]
        with given(*(at_most(above, LIMIT) for _, above in pairs)):
            rax, _ = cpu.call("XXH128_isEqual", *one, *other)
        calls.expect("XXH128_isEqual", low(rax, 32), int(not any(signs)))
    return 9


def copies(cpu: Cpu, algorithm: str) -> int:
    """Tests that a copy has all bytes of its original, which stays as it was, at each residue."""
    hash_name = ALGORITHMS[algorithm]

    def ask():
        original, other = any_state(cpu, hash_name), any_state(cpu, hash_name, "copy")
        before = contents(original)
        cpu.call(f"{algorithm}_copyState", address(other), address(original))
        expect_same("a copy", before, original)
        expect_same("a copy of another value", before, other)

    return len(at_each_residue(cpu, ask, OF_STATE[hash_name.split("-")[0]]))


def refused_resets(cpu: Cpu) -> int:
    """Tests that resets of null, and with null or a secret of each length that is too short, leave the state."""
    size, seed, count = variable("size"), symbol("seed64", 64), 0
    large, secret = plus(size, SHORTEST), address(Input("s", plus(size, SHORTEST)))
    for width, way in itertools.product(("64", "128"), ("", "_withSeed", "_withSecret", "_withSecretandSeed")):
        state, more = any_state(cpu, "3-64"), [seed] if "eed" in way else []
        before = contents(state)
        place = address(state)
        refused = (0, secret, large), (place, 0, large), (place, secret, size)
        for arguments in refused if "Secret" in way else [(0,)]:
            with given(at_most(size, SHORTEST - 1), at_most(large, LONGEST_SECRET)):
                expect_answer(cpu.call(f"XXH3_{width}bits_reset{way}", *arguments, *more), ERROR)
            expect_same("a refused reset", before, state)
            count += 1
    return count


def refused_secrets(cpu: Cpu) -> int:
    """Tests generated secrets of each size that is too short, into null, and from null as more than 0 bytes."""
    size, length = variable("size"), variable("length")
    buffer, source = WordMemory("secret", SHORTEST, [], alignment=1), address(Input("m", length))
    place, large = address(buffer), plus(size, SHORTEST)
    cases = [
        (place, size, source, length, at_most(size, SHORTEST - 1)),
        (0, size, source, length, at_most(size, LIMIT)),
        (place, large, 0, plus(length, 1), at_most(plus(large, length), LIMIT - 1)),
    ]
    for *arguments, fact in cases:
        with given(fact, at_most(length, LIMIT)):
            expect_answer(cpu.call("XXH3_generateSecret", *arguments), ERROR)
        if buffer.cells:
            raise NotShown("a refused secret is written")
    return len(cases)


def updates_of_nothing(cpu: Cpu, hash_name: str) -> int:
    """Tests that a null chunk of length 0, before, between and after others, leaves the digest unchanged."""
    entries, lengths = definition.program().run(), (0, 5, 33, 300, 700)
    variant = "seed" if is_plain(hash_name) else "default"

    def ask(request):
        cpu.not_zero, state = [], any_state(cpu, hash_name)
        cpu.library.reset(cpu, request, state)
        for piece in (None, request.message, None):
            cpu.library.update(cpu, hash_name, state, piece)
        ours, theirs = cpu.library.digest(cpu, hash_name, state), request.of_definition(entries)
        calls.expect(f"{request} beside null pieces", ours, theirs)

    for n in lengths:
        at_each_residue(cpu, functools.partial(ask, Request(hash_name, variant, n)), OF_STATE[hash_name.split("-")[0]])
    return len(lengths)


def another_name(cpu: Cpu, lengths: list[int]) -> int:
    """Tests that XXH128 returns the same as XXH3_128bits_withSeed."""
    seed = symbol("seed64", 64)
    for n, own in itertools.product(lengths, (seed, 0)):
        source, cpu.not_zero = Input("m", n), [seed]
        one, other = (
            at_each_residue(cpu, functools.partial(cpu.call, name, address(source), n, own))[0]
            for name in ("XXH128", "XXH3_128bits_withSeed")
        )
        if not all(map(is_same, one, other)):
            raise NotShown(f"XXH128 of {n} bytes: another value")
    return 2 * len(lengths)


def order_of_hashes(cpu: Cpu) -> int:
    return calls.compare(cpu) + calls.compare_in_one_place(cpu)


def generated_secrets(cpu: Cpu, asked: list[tuple[int, int]]) -> int:
    """Tests secrets of given sizes, generated from seeds of given lengths."""
    for one in asked:
        at_each_residue(cpu, functools.partial(calls.generated_secrets, cpu, [one]))
    return len(asked)


# ---- memory


def created_states(cpu: Cpu, algorithm: str) -> int:
    """Tests a state in a block at each residue that malloc returns, and null if it does. The state has the content of
    one that was reset, and is freed as the block; a release of null does nothing."""

    def ask():
        cpu.blocks, cpu.freed = [], []
        rax, _ = cpu.call(f"{algorithm}_createState")
        expect_created(cpu, algorithm, rax)
        expect_answer(cpu.call(f"{algorithm}_freeState", rax), OK)
        if len(cpu.freed) != 1 or cpu.freed[0].place() != (cpu.blocks[0], 0):
            raise NotShown(f"{algorithm}_freeState releases {cpu.freed}")

    found = at_each_residue(cpu, ask, OF_STACK)
    cpu.is_full, cpu.freed = True, []
    rax, _ = cpu.call(f"{algorithm}_createState")
    cpu.is_full = False
    calls.expect("a state without memory", rax, 0)
    expect_answer(cpu.call(f"{algorithm}_freeState", 0), OK)
    if cpu.freed not in ([], [0]):
        raise NotShown(f"{algorithm}_freeState of null releases {cpu.freed}")
    return len(found) + 2


def expect_created(cpu, algorithm, place):
    """Checks that a place is a new state, which is aligned."""
    block, at = place.place() if isinstance(place, Address) else (None, 0)
    size, least = cpu.library.SIZES[algorithm[3:]], OF_STATE[algorithm[3:]]
    if [block] != cpu.blocks or not 0 <= at <= block.length - size:
        raise NotShown(f"{algorithm}_createState leaves its block")
    if least > OF_STACK and (block.alignment % least or (block.residue + at) % least):
        raise NotShown("a state that isn't aligned")
    state = WordMemory("state", size, [], alignment=MODULUS)
    width, seed = ("_64bits", []) if algorithm == "XXH3" else ("", [0])
    expect_answer(cpu.call(f"{algorithm}{width}_reset", address(state), *seed), OK)
    for first, (n, _) in state.cells.items():
        ours, theirs = block.load(at + first, n), state.load(first, n)
        if repr(ours) != repr(theirs) and not is_same(ours, theirs):
            raise NotShown(f"{algorithm}_createState: another state than that of a reset, at {first}")
