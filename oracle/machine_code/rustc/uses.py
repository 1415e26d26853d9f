"""Tests the calls of the crate that neither comparison.py nor the inductions make: integers as chunks, secrets that a
call returns, refusals, and the other values of a stream. Each function returns its number of cases, or raises."""
import functools
from typing import Callable, Iterable

from oracle.symbolic_terms import (
    Input,
    NotShown,
    Piece,
    Request,
    Value,
    at_most,
    definition,
    given,
    is_same,
    is_same_number,
    minus,
    plus,
    seed_symbol,
    variable,
)

from .. import one_shots, streams
from ..cargo import LONGEST_WITHOUT, SHORTEST, TOO_SHORT, call_into, expect_code, export_name
from ..memory import WordMemory
from ..one_shots import suppose_seed
from ..values import Cpu, address, low
from .library import ForRust, Way, ways

HASHES = "32", "64", "3-64", "3-128"
INTEGERS = {"u8": 1, "u16": 2, "u32": 4, "u64": 8, "usize": 8, "u128": 16}
BEFORE = 0, 3, 6, 13, 29, 120  # bytes before an integer
DERIVED, NEVER_DERIVED = 192, 191
REFUSED = 1000  # added by `secret_into_secret` to the length of a refused secret
LONGEST_SLICE = (1 << 63) - 1


def expect(what: str, found: Value, expected: Value) -> None:
    if not (is_same(found, expected) or is_same_number(found, expected)):
        raise NotShown(f"{what}: {found} and not {expected}")


def started(
    cpu: Cpu, hash_name: str, way: Way, request: Request, is_cloned: bool = False
) -> tuple[WordMemory, ForRust]:
    """Returns an empty stream, begun in a way, and its library."""
    cpu.library = library = ForRust(cpu, hash_name, way, is_cloned)
    suppose_seed(cpu, request)
    state = streams.new_state(cpu, hash_name, library)
    cpu.live = [state]
    library.reset(cpu, request, state)
    return state, library


# ---- chunks


def integers(cpu: Cpu, only: str = "") -> int:
    """Tests each type of integer as a chunk after some bytes, of the streams whose exports' names begin with `only`."""
    count, entries = 0, definition.program().run()
    asked = [(name, ways(name)[0]) for name in HASHES[:2]] + [("3-64", way) for way in ways("3-64")[1:3]]
    for hash_name, way in [(name, way) for name, way in asked if way.prefix.startswith(only)]:
        for name, size in INTEGERS.items():
            for before in BEFORE:
                request = Request(hash_name, way.variant, before + size, SHORTEST if way.variant == "both" else None)
                state, library = started(cpu, hash_name, way, request)
                library.update(cpu, hash_name, state, Piece(request.message, 0, before))
                values = [request.message.load(at, min(8, size)) for at in range(before, before + size, 8)]
                cpu.call(f"{way.prefix}write_{name}", address(state), *values)
                expect(
                    f"{way.prefix}write_{name} after {before} bytes",
                    library.digest(cpu, hash_name, state),
                    request.of_definition(entries),
                )
                count += 1
    return count


# ---- the other values of a stream


def getters(cpu):
    """Tests the seed, the number of bytes and the 32-bit hash of streams of XXH32 and XXH64."""
    for hash_name in HASHES[:2]:
        way, width, request = ways(hash_name)[0], int(hash_name), Request(hash_name, "seed", 37)
        state, library = started(cpu, hash_name, way, request)
        library.update(cpu, hash_name, state, Piece(request.message, 0, 37))
        expect("the seed", low(cpu.call(f"{way.prefix}seed", address(state))[0], width), seed_symbol(hash_name))
        expect("the length", cpu.call(f"{way.prefix}total_len", address(state))[0], 37)
    hash_name, request = "32", Request("32", "seed", 20)
    state, library = started(cpu, hash_name, ways(hash_name)[0], request)
    library.update(cpu, hash_name, state, Piece(request.message, 0, 20))
    for name, expected in (("finish_32", request.of_definition(definition.program().run())), ("total_len_32", 20)):
        expect(name, low(cpu.call(f"xxh32_{name}", address(state))[0], 32), expected)
    return 6


# ---- secrets


def expect_bytes(what, memory, expected, count):
    for at in range(count):
        expect(f"{what}, byte {at}", memory.load(at, 1), expected[at])


def new_bytes(cpu, size):
    return WordMemory("secret", size, [(at, 1, cpu.fresh("a byte", 8)) for at in range(size)])


def secrets(cpu):
    """Tests each call that returns a secret: the derived or default one, or the caller's."""
    derived_secret, count = definition.program().run()["derived_secret"], 0
    for hash_name in HASHES[2:]:
        asked = f"{export_name(hash_name)}_", f"raw_given_{hash_name.replace('-', '_')}_"
        for way in [way for way in ways(hash_name) if way.prefix in asked]:
            size = 137 if way.variant == "both" else DERIVED
            request = Request(hash_name, way.variant, 1000, size if way.variant == "both" else None)
            state, _ = started(cpu, hash_name, way, request)
            to = new_bytes(cpu, size)
            cpu.live = [*cpu.live, to]
            expect("a secret's length", cpu.call(f"{way.prefix}into_secret", address(state), address(to))[0], size)
            own = request.secret and [request.secret.load(at, 1) for at in range(size)]
            expect_bytes(f"{way.prefix}into_secret", to, own or derived_secret(request.seed()), size)
            count += 1
    return count + secret_buffers(cpu, derived_secret)


def secret_buffers(cpu, derived_secret):
    """Tests the secrets of a `SecretBuffer`, and of its errors."""
    for size in (SHORTEST, SHORTEST - 1):
        source, to = Input("s", size), new_bytes(cpu, size)
        cpu.live = [to]
        expect(
            "a secret's length",
            cpu.call("secret_into_secret", address(to), address(source), size)[0],
            size + (REFUSED if size < SHORTEST else 0),
        )
        expect_bytes("secret_into_secret", to, [source.load(at, 1) for at in range(size)], size)
    seed, to = seed_symbol("64"), new_bytes(cpu, DERIVED)
    cpu.live, cpu.not_zero = [to], [seed]
    expect("a derived secret", low(cpu.call("secret_with_seed", address(to), seed)[0], 32), 0)
    expect_bytes("secret_with_seed", to, derived_secret(seed), DERIVED)
    to = new_bytes(cpu, NEVER_DERIVED)
    before = streams.contents(to, 1)
    cpu.live = [to]
    expect("a refused buffer", low(cpu.call("secret_with_seed_in_191", address(to), seed)[0], 32), NEVER_DERIVED)
    streams.expect_same("a refusal", before, to, 1)
    for value, expected in zip(cpu.call("secret_lengths"), (DERIVED, SHORTEST), strict=True):
        expect("a length", value, expected)
    return 6


# ---- refusals


def refused(cpu: Cpu) -> int:
    """Tests secrets that are too short: one-shots of every length with secrets of every length, and streams."""
    count = 0
    for hash_name in HASHES[2:]:
        count += refused_one_shots(cpu, hash_name)
        for way in ways(hash_name):
            if way.variant == "both":
                count += refused_start(cpu, hash_name, way)
    return count


def refused_start(cpu, hash_name, way):
    """Tests the start of a stream with a secret of each length that is too short: one of no bytes has no address."""
    v = variable("v")
    for size, facts in ((0, []), (plus(v, 1), [at_most(v, SHORTEST - 2)])):
        cpu.library = library = ForRust(cpu, hash_name, way)
        state, secret = streams.new_state(cpu, hash_name, library), Input("s", size)
        cpu.live = [state]
        with given(*facts):
            answer = cpu.call(way.prefix + way.start, address(state), address(secret), size, seed_symbol("64"))
        expect_code(way.prefix + way.start, low(answer[0], 32), TOO_SHORT)
    return 2


def refused_one_shots(cpu, hash_name):
    n, size = variable("n"), variable("size")
    more = plus(LONGEST_WITHOUT + 1, n)
    for name, length, facts in (("secret", n, []), ("seed_and_secret", more, [minus(LONGEST_SLICE, more)])):
        with given(at_most(size, SHORTEST - 1), at_most(n, LONGEST_SLICE), *facts):
            arguments = address(Input("m", length)), length, address(Input("s", size)), size
            export, cpu.live = f"{export_name(hash_name)}_oneshot_with_{name}", []
            seed = [] if name == "secret" else [seed_symbol("64")]
            code, _ = call_into(cpu, hash_name, export, *arguments, *seed)
            expect_code(export, code, TOO_SHORT)
    return 2


def one_shot(cpu: Cpu, request: Request) -> None:
    """Compares a one-shot."""
    cpu.library = ForRust(cpu)
    expect(repr(request), one_shots.of_text(cpu, request), request.of_definition(definition.program().run()))


# ---- every way to start a stream

STREAMS = [(0,), (9, 2), (70, 33, 64), (241, 239), (600, 512, 599), (1100, 64)]


def by_each_way(cpu: Cpu, is_cloned: bool, asked: Iterable[tuple[int, ...]] = STREAMS) -> int:
    """Compares streams by each way to start them, with each chunk written to a clone or not."""
    count, entries, texts = 0, definition.program().run(), {}
    for hash_name in HASHES:
        for way in ways(hash_name):
            for length, *cuts in asked:
                fixed = 0 if way.variant == "zero" else None
                request = Request(
                    hash_name,
                    "seed" if way.variant == "zero" else way.variant,
                    length,
                    SHORTEST if way.variant == "both" else None,
                    fixed,
                    cuts,
                )
                key = hash_name, request.variant, length, fixed
                if key not in texts:
                    texts[key] = request.of_definition(entries)
                found = written(cpu, hash_name, way, request, is_cloned)
                expect(f"{way.prefix}{way.start}: {request}", found, texts[key])
                count += 1
    return count


def of_text(cpu, request):
    """Returns the hash of a stream, begun in the first way for a request's kind."""
    way = next(way for way in ways(request.hash_name) if way.variant == request.variant)
    return written(cpu, request.hash_name, way, request)


def written(cpu: Cpu, hash_name: str, way: Way, request: Request, is_cloned: bool = False) -> Value:
    """Returns the hash of a stream, begun in a way."""
    (state, library), at = started(cpu, hash_name, way, request, is_cloned), 0
    for end in [*request.cuts, request.length]:
        library.update(cpu, hash_name, state, Piece(request.message, at, end - at))
        at = end
    return streams.digest(cpu, hash_name, state)


def calls(is_all: bool) -> list[tuple[int, Callable]]:
    """Returns the minimum number of cases and the function of each test. Without `is_all`, streams have few lengths."""
    some = STREAMS[0 if is_all else 1 :: 1 if is_all else 2]
    by_way = [
        (25 * len(some), functools.partial(by_each_way, is_cloned=is_cloned, asked=some)) for is_cloned in (False, True)
    ]
    return [(4 * 6 * 6, integers), (6, getters), (8, secrets), (16, refused), *by_way]
