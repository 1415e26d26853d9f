"""Requests that test a changed source, and functions that report if one detects the change.

A request first runs on random numbers instead of symbols, which is cheap: message, secret and seed. If its value
differs from the definition's, it runs again on symbols, and the comparison must detect the change there. The other
calls compare their results themselves. With --all, a change that no request detects is also tested by induction: some
cases of updates of any lengths and of one-shots of every length."""
import collections
import functools
import random
from typing import Any, Callable, Iterable, Iterator, Optional

from oracle.reasons import CRASH
from oracle.symbolic_terms import REFUSALS, NotShown, Request, WrongRule, is_same, nodes
from oracle.symbolic_terms.mutation import definition_at, mark, release

from . import (
    any_secret,
    any_updates,
    calls,
    every_length,
    layouts,
    long_seeds,
    one_shots,
    streams,
    xxh3_states,
    xxh3_updates,
)
from .memory import Numbers
from .objects import Program
from .values import Cpu

ANOTHER_VALUE, ANOTHER_TERM = "another value", "another term"
CASES = 8  # cases of an induction that are tried for a change
EDGES = [
    0,
    1,
    2,
    3,
    4,
    7,
    8,
    9,
    15,
    16,
    17,
    31,
    32,
    33,
    64,
    65,
    96,
    97,
    128,
    129,
    144,
    145,
    240,
    241,
    256,
    257,
    320,
    640,
    1025,
    1088,
]
ONE_SHOTS = [
    *range(34),
    36,
    40,
    45,
    52,
    63,
    70,
    80,
    112,
    113,
    127,
    130,
    160,
    177,
    192,
    208,
    224,
    255,
    300,
    319,
    321,
    384,
    447,
    512,
    513,
    576,
    700,
    1024,
    1400,
    2049,
]
STREAMS = [
    (5, 2),
    (16, 7),
    (33, 1),
    (40, 20, 39),
    (64, 32),
    (70, 33, 64),
    (100, 3, 99),
    (200, 31, 160),
    (240, 239),
    (241, 240),
    (257, 256),
    (300, 64, 128, 192),
    (320, 129, 256),
    (513, 512),
    (600, 512, 599),
    (700, 1, 520),
    (1025, 512, 1024),
    (1100, 64),
    (1500, 600),
    (1500, 40, 1100),
    (2200, 513, 1500),
    (2600, 1, 513, 2561),
]
BY_SECRETS = [
    (300, 137),
    (700, 143),
    (900, 192),
    (700, 195),
    (1100, 195),
    (1025, 192),
    (1300, 200),
    (2000, 256),
    (600, 1000),
    (1100, 144),
]
LEFT_OUT = ("3-64", "both", 136), ("3-128", "secret", 136), ("3-64", "seed", None), ("3-128", "default", None)
# With --all, for XXH3: lengths with separate loops, and long chunks from each position in a block.
FAR = [
    ("3-64", "default", None, 31_744),
    ("3-64", "secret", 136, 31_800),
    ("3-128", "secret", 192, 31_744),
    ("3-128", "seed", None, 32_700),
]
LONG_STREAMS = [(2700 + 131 * k, 600 + 64 * k) for k in range(16)]
OF_BLOCKS = 3146, 600  # bytes of a stream whose second chunk has two whole blocks and ends with the second
# Bytes from which on a request takes longer than an induction. No requests near to it are generated.
LONG = 10_000
# Further requests, for changes still undetected: each short length, and each number of stripes of two blocks.
BUFFERED, LENGTHS = layouts.STATE.capacity, [*range(300), *range(300, 2400, 61)]
OTHER_SECRETS = [(2200, 195), (3300, 193), (5000, 140), (16_000, 184), (32_000, 195)]


# ---- requests


def requests(is_all):
    """Yields requests with lengths on both sides of each edge; without `is_all` fewer lengths and functions."""
    algorithms: list[tuple[str, str, Optional[int]]] = [("32", "seed", None), ("64", "seed", None)]
    algorithms += [
        (name, variant, 136 if variant in ("secret", "both") else None)
        for name in ("3-64", "3-128")
        for variant in one_shots.WAYS
    ]
    for hash_name, variant, secret in (
        algorithms if is_all else [variant for variant in algorithms if variant not in LEFT_OUT]
    ):
        for n in sorted({*EDGES, *ONE_SHOTS}) if is_all else EDGES[::2]:
            yield Request(hash_name, variant, n, secret)
        for n, *cuts in (
            [*((n,) for n in EDGES), *STREAMS] if is_all else [*((n,) for n in EDGES[1:-6:4]), *STREAMS[::3]]
        ):
            yield Request(hash_name, variant, n, secret, cuts=cuts)
    for hash_name in ("3-64", "3-128"):
        for n, secret in BY_SECRETS if is_all else BY_SECRETS[::3]:
            yield Request(hash_name, "secret", n, secret)
    yield Request("3-64", "seed", OF_BLOCKS[0], cuts=OF_BLOCKS[1:])
    yield from long_requests() if is_all else ()


def long_requests():
    for hash_name, variant, secret, n in FAR:
        yield Request(hash_name, variant, n, secret)
    for variant, secret in (("seed", None), ("both", 136), ("both", 200)):
        for n, *cuts in LONG_STREAMS:
            yield Request("3-64", variant, n, secret, cuts=cuts)


def with_twins(request):
    return [request, *request.with_seed_0()]


def in_numbers(request, is_extreme):
    """Returns the same request with concrete inputs; if `is_extreme`, most bytes are 0 or 255."""
    rng = random.Random(request.length)
    message, secret, own = (rng.randbytes(n) for n in (request.length, request.secret_length or 0, 8))
    if is_extreme:
        message, secret = message.translate(nodes.EXTREME), secret.translate(nodes.EXTREME)
    seed = request.fixed_seed
    if seed is None and request.has_seed():
        seed = int.from_bytes(own[:4] if request.hash_name == "32" else own, "little")
    out = Request(request.hash_name, request.variant, request.length, request.secret_length, seed, request.cuts)
    out.message, out.secret = Numbers("m", message), out.secret and Numbers("s", secret)
    return out


# ---- queries


def noticed_by(ask):
    """Returns the detection's name or None. Drops the terms that `ask` makes."""
    known = mark()
    try:
        return ask()
    except (*REFUSALS, WrongRule) as error:
        return type(error).__name__
    except Exception as error:
        return f"{CRASH}: {error!r}"
    finally:
        release(known)


class Call:
    """Query: a call that compares its result itself."""

    request = None

    def __init__(self, call):
        self.title, self.call = getattr(call, "__name__", repr(call)), call

    def over_symbols(self, cpu):
        cpu.not_zero = []
        return noticed_by(lambda: self.call(cpu) and None)

    with_numbers = over_symbols


class OfRequest:
    """Query: a request, with the definition's value and its term, each computed when first needed."""

    def __init__(self, request, entries, is_extreme=False):
        self.title, self.request, self.entries, self.term = repr(request), request, entries, None
        self.numbers = in_numbers(request, is_extreme)
        self.answer = (one_shots if request.cuts is None else streams).of_text

    @functools.cached_property
    def value(self):
        of = self.numbers
        return definition_at(of, self.entries, {"m": of.message.data, "s": of.secret.data if of.secret else b""})

    def with_numbers(self, cpu):
        return noticed_by(lambda: None if is_same(self.value, self.answer(cpu, self.numbers)) else ANOTHER_VALUE)

    def over_symbols(self, cpu):
        if self.term is None:
            self.term = self.request.of_definition(self.entries)
        return noticed_by(lambda: None if is_same(self.term, self.answer(cpu, self.request)) else ANOTHER_TERM)

    def twice(self, cpu):
        """Runs on numbers. If that detects something, runs on symbols, which must detect it too."""
        found = self.with_numbers(cpu)
        message = self.over_symbols(cpu) if found else None
        if found == ANOTHER_VALUE and not message:
            return f"{CRASH}: {self.title} comes to one term, and with numbers to two values"
        return message


def queries(entries: dict, is_all: bool, others: Iterable[Callable], library: Any) -> list:
    """Returns the requests that a library can run, the shortest first, and the other calls."""
    asked = [twin for request in requests(is_all) if library.has(request) for twin in with_twins(request)]
    asked.sort(key=lambda request: request.length)
    return [*(OfRequest(request, entries) for request in asked), *map(Call, others)]


def are_long(asked: Iterable["OfRequest"]) -> bool:
    """True if all requests take longer than an induction."""
    return all(query.request.length >= LONG for query in asked)


def near(asked: Iterable, entries: dict, rng: random.Random, count: int, shortest: int) -> Iterator["OfRequest"]:
    """Yields requests with lengths and cuts near to the given ones, with mostly extreme bytes."""
    requests = [query.request for query in asked if query.request.length < LONG]
    for one in rng.choices(requests, k=count if requests else 0):
        n = max(shortest, one.length + rng.randrange(-2, 3))
        cuts = None if one.cuts is None else [max(0, min(n, cut + rng.randrange(-2, 3))) for cut in one.cuts]
        request = Request(one.hash_name, one.variant, n, one.secret_length, cuts=cuts and sorted(cuts))
        yield from (OfRequest(twin, entries, True) for twin in with_twins(request))


def further(asked: Iterable["OfRequest"], entries: dict, shortest: int) -> Iterator["OfRequest"]:
    """Yields further requests of the same hashes: one-shots of LENGTHS and with other secrets, and streams that add
    each number of bytes to the buffer and leave each number in it."""
    by_algorithm = {(one.hash_name, one.cuts is None): one for one in (query.request for query in asked)}
    for (hash_name, is_once), one in by_algorithm.items():
        for n, *cuts in (
            [(n,) for n in LENGTHS if n >= shortest] if is_once else further_streams(one_shots.is_plain(hash_name))
        ):
            yield OfRequest(
                Request(hash_name, one.variant, n, one.secret_length, one.fixed_seed, None if is_once else cuts),
                entries,
            )
        for n, secret in OTHER_SECRETS if is_once and one.secret_length else ():
            yield OfRequest(Request(hash_name, one.variant, n, secret), entries)


def further_streams(is_plain):
    for k in range(1, 33 if is_plain else 65):
        yield from [(32, k), (64, k), (2 * k + 1, k), (5 * k + 40, k), (3 * k + 200, k)] if is_plain else [
            (BUFFERED, k),
            (k + 600, k),
            (k + 2100, k),
        ]
    for k in range(1, 0 if is_plain else 128):
        yield BUFFERED + k, BUFFERED - k % 9


def reaching(cpu: Cpu, asked: Iterable) -> dict[tuple[str, int], int]:
    """Maps each place to the queries that run its instruction, as a bit set. Raises if a query detects something
    in the unchanged source."""
    found = collections.defaultdict(int)
    for k, query in enumerate(asked):
        cpu.used = set()
        message = query.with_numbers(cpu)
        if message:
            raise NotShown(f"{query.title}: {message}")
        for place in cpu.used:
            found[place] |= 1 << k
    return {place: bits for place, bits in found.items() if place[0] in cpu.program.sections}


# Queries of a library besides requests: other calls, the classes that prove updates of XXH3, and a function that
# yields calls for changes that are still undetected; and the length of its shortest one-shots.
Beside = collections.namedtuple("Beside", "calls updates more shortest")
FOR_C = Beside([call for _, _, call in calls.OTHERS], xxh3_states.PROOFS, lambda cpu: (), 0)


# ---- queries by induction


def by_induction(
    program: Program, asked: Iterable["OfRequest"], section: str, updates: Iterable[Callable]
) -> list["Call"]:
    """Returns queries that prove some cases of updates and one-shots, chosen by the requests that run a section, and
    of the section if it takes stripes. The classes `updates` prove the streams of XXH3."""
    found: dict = {}
    for one in (query.request for query in asked):
        if one_shots.is_plain(one.hash_name):
            found.setdefault(
                (one.hash_name, one.cuts is None),
                functools.partial(one_shot if one.cuts is None else plain_update, one.hash_name),
            )
        elif one.cuts is not None:
            found.update(
                {
                    (ask, proof_class): functools.partial(ask, proof_class)
                    for proof_class in updates
                    for ask in of_streams(proof_class)
                }
            )
        elif one.length > 240:
            for ask in (one_shot,) if one.secret_length is None else (own_secret, any_secret_of):
                found.setdefault(ask, functools.partial(ask, f"{one.hash_name}:{one.variant}"))
    for summary in TAKING:
        if program.functions.get(summary.name, (None,))[0] == section:
            found[summary.name] = functools.partial(stripes_taken, updates[0], summary.name)
    if section == f".text.{long_seeds.WRITES}":
        found[section] = secret_of_long_seed
    return [Call(functools.partial(ask, k)) for ask in found.values() for k in range(CASES)]


def takes_stripes(program: Program, section: str) -> bool:
    """True if a section is a function that takes stripes."""
    return any(program.functions.get(summary.name, (None,))[0] == section for summary in TAKING)


TAKING = xxh3_updates.TAKE, xxh3_updates.TAKE_MANY, xxh3_updates.TAKE_BLOCKS, xxh3_updates.TAKE_WIDENED


def case_of(cases, k):
    """Returns case k of CASES, spread evenly over all cases."""
    cases = list(cases)
    return cases[k * (len(cases) - 1) // (CASES - 1)]


def plain_update(name: str, k: int, cpu: Cpu) -> None:
    any_updates.AnyUpdates(cpu, name).update(case_of(any_updates.updates(name), k))


def one_shot(algorithm, k, cpu):
    every_length.EveryLength(cpu, algorithm).show(case_of(every_length.cases(algorithm), k))


def any_secret_of(algorithm, k, cpu):
    name, way = algorithm.split(":")
    case_of(any_secret.AnySecret(cpu).queries(way, name[2:]), k)()


def own_secret(algorithm, k, cpu):
    """Proves a case with a secret of 192 to 199 bytes; for x86-64-v4 one of the cases in its task."""
    is_widened = xxh3_updates.TAKE_WIDENED.name in cpu.program.functions
    cases = every_length.of_secret_by_turns() if is_widened else every_length.of_secret()
    every_length.EveryLength(cpu, algorithm).show(case_of(cases, k))


def of_streams(proof_class):
    """Returns the queries of a class that proves streams of XXH3."""
    return [xxh3_update, *([xxh3_reset, xxh3_digest] if xxh3_updates.DIGESTS in proof_class.TASKS else [])]


def xxh3_reset(updates, k, cpu):
    proof = updates(cpu)
    proof.reset(*case_of(proof.resets(), k))


def xxh3_update(updates: Callable, k: int, cpu: Cpu) -> None:
    case_of(updates(cpu).queries(xxh3_updates.UPDATES), k)()


def xxh3_digest(updates, k, cpu):
    proof = updates(cpu)
    has_seed = proof.HAS_SEED[k % len(proof.HAS_SEED)]
    proof.digest(*case_of(proof.digests(), k), has_seed, xxh3_updates.WIDTHS[k // 2 % 2])


def secret_of_long_seed(k, cpu):
    long_seeds.generated_secrets(cpu, [calls.SHORTEST + k])


def stripes_taken(updates, name, k, cpu):
    proof = updates(cpu)
    proof.taken_of(*case_of([case for case in proof.all_taken() if case[1][0].name == name], k))
