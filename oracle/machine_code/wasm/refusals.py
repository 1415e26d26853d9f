"""Tests calls that the modules refuse without writing anything, because their secret has fewer than 136 bytes. Also
tests that a counter saturates at 2^64 - 1."""
import itertools

from oracle.symbolic_terms import Memory, Poly, Request, Unsupported, at_most, given, plus, variable

from . import calls
from .calls import SECRET_TOO_SHORT, Stream, answered, expect_unchanged
from .comparing import compare
from .every_length import LONGEST
from .machine import Machine

LEAST_SECRET = 136
SERVED = 241  # bytes of a message from which on a seeded call needs a secret
FEW, TAKEN = 64, (0, 300, 700)  # bytes of a chunk, up to which an update has a separate path; bytes of started streams
XXH3 = "3-64", "3-128"
MOST = 2**64 - 1
# Offsets of a record's counters, of bytes and of stripes.
OF_32, OF_64, OF_3 = calls.RECORDS.values()
COUNTERS = {"32": [OF_32.total], "64": [OF_64.total], **dict.fromkeys(XXH3, [OF_3.total_bytes, OF_3.count])}
PIECES = 5, 40, 200, 600, 3000


def short_secret(n):
    """Returns the facts of a message of `n` bytes and a secret of `size` bytes, any number below 136."""
    return given(at_most(n, LONGEST), at_most(variable("size"), LEAST_SECRET - 1))


def refuse_any(vm: Machine, name: str, way: str, length: int | Poly) -> None:
    """Tests that a one-shot refuses each secret that is too short, at a symbolic length of the message."""
    with short_secret(length):
        calls.refused_one_shot(vm, Request(name, way, length, variable("size")))
        expect_not_asked(vm)


def one_shots_with_short_secrets(machines: dict[str, Machine]) -> tuple[str, list[str]]:
    """Tests each length of a message and of a secret that is too short: a call that needs the secret is refused, others
    ignore it."""
    n, size, count = variable("n"), variable("size"), 0
    for name, (way, length), vm in itertools.product(
        XXH3, (("secret", n), ("both", plus(n, SERVED))), machines.values()
    ):
        refuse_any(vm, name, way, length)
        count += 1
    with short_secret(SERVED):
        served, complaints = compare(
            machines, [Request(name, "both", n, size) for name in XXH3 for n in range(SERVED)], calls.one_shot
        )
    return f"{served} answered, {count} refused", complaints


def streams_with_short_secrets(machines: dict[str, Machine]) -> tuple[str, list[str]]:
    """Tests that a start with each length of such a secret leaves the record unchanged, and an update of any length and
    a digest of a started stream do so too."""
    n, size, count = variable("n"), variable("size"), 0
    for vm in machines.values():
        for way, (length, facts) in itertools.product(
            ("secret", "both"), ((n, [at_most(n, FEW)]), (plus(n, FEW + 1), []))
        ):
            with short_secret(length), given(*facts):
                calls.refused_start(vm, Request("3-64", way, length, size))
                expect_not_asked(vm)
                for taken in TAKEN:
                    refuse_short_secret(vm, Request("3-64", way, length, size), taken)
                    count += 6
            count += 1
    return f"{count} refused", []


def refuse_short_secret(vm: Machine, request: Request, taken: int = 300) -> None:
    """Tests that an update and a digest of a stream of `taken` bytes refuse a secret that is too short, also with an
    invalid record, since the secret is tested first."""
    it = started(vm, Request(request.hash_name, request.variant, taken, LEAST_SECRET), taken)
    it.request, it.secret = request, calls.of_secret(request)
    expect_refused(it, SECRET_TOO_SHORT)
    it.record.store(COUNTERS[request.hash_name][0], 8, taken + 1)
    expect_refused(it, SECRET_TOO_SHORT)


def expect_not_asked(vm):
    """Checks that the call didn't test the seed for 0, which would be a separate case."""
    if vm.has_asked:
        raise Unsupported("whether the seed is 0 was asked")


def started(vm, request, taken):
    it = Stream(vm, request)
    it.start()
    answered(it.update(0, taken))
    return it


def names_of(it):
    """Returns the hashes of a stream's family."""
    return XXH3 if it.family == "xxh3" else [it.request.hash_name]


def expect_refused(it, code):
    """Checks that an update and a digest are refused, for both hashes of the family."""
    before = dict(it.record.cells)
    answered(it.update(0, it.request.length), code)
    for name in names_of(it):
        out = Memory("the value", calls.BYTES[name])
        answered(it.digest(out, name), code)
        expect_unchanged("the value", out, {})
    expect_unchanged("the record", it.record, before)


# ---- counters


def of_counters() -> list[Request]:
    return [Request(name, "seed", n, seed=7) for name in ("32", "64", "3-64") for n in PIECES]


def keep_counters(vm: Machine, request: Request) -> None:
    """Tests an update of a stream whose counters are 2^64 - 1. They must stay so, and a digest must succeed."""
    it, places = started(vm, request, PIECES[0]), COUNTERS[request.hash_name]
    for at in places:
        it.record.store(at, 8, MOST)
    answered(it.update(0, request.length))
    if any(it.record.load(at, 8) != MOST for at in places):
        raise Unsupported("a counter that isn't 2^64 - 1")
    for name in names_of(it):
        answered(it.digest(Memory("the value", calls.BYTES[name]), name))


def counters_stay(machines: dict[str, Machine]) -> tuple[str, list[str]]:
    for vm in machines.values():
        for request in of_counters():
            keep_counters(vm, request)
    return f"{len(of_counters()) * len(machines)} updates", []
