"""Tests of what is required of calls of exports, by models of a library that return right and wrong results: canonical
forms, orders, copies, secrets and refusals of C's library. Each takes a random generator and raises Wrong."""
import itertools
import types
import unittest.mock

from oracle.machine_code import calls, layouts
from oracle.machine_code.values import Names, arithmetic, bits, joined, low
from oracle.symbolic_terms import (
    LONGEST_SECRET,
    REFUSALS,
    Input,
    Request,
    definition,
    is_natural,
    is_same_number,
    minus,
    names_of,
    polynomials,
    symbol,
    value_at,
)

from .values import expect, refuses

patched = unittest.mock.patch.object
LIMIT, BELOW = 1 << 64, (1 << 32) - 1  # the words, and -1 as 32 bits


class Model(Names):
    """A processor whose calls `answer` returns, with the fault that it models. `calls` has each call."""

    def __init__(self, answer=None, fault=None, **more):
        self.answer, self.fault, self.calls, self.not_zero, self.live = answer, fault, [], [], []
        self.stack, self.library = None, types.SimpleNamespace(**more)

    def call(self, name, *arguments, **_):
        self.calls.append((name, arguments))
        return self.answer(self, name, *arguments)


def required(ask, answer, faults, expected, what, **more):
    """Checks that a test passes with a right model, and is refused with each fault."""
    right = Model(answer, **more)
    expect(ask(right), expected, what)
    for fault in faults:
        refuses(lambda: ask(Model(answer, fault, **more)), f"{what} with the fault {fault}", REFUSALS)
    return right


def canonical_forms(_):
    """Tests that each byte of a canonical form, and of a hash from it, is required."""

    def answer(cpu, name, place, *values):
        memory, at = place.place()
        size = {"XXH32": 4, "XXH64": 8, "XXH128": 16}[name.split("_")[0]]
        expect(at == 0 and memory.length == size and memory.alignment == 1, True, "a canonical form in memory")
        if name.endswith("canonicalFromHash"):
            expect([width for _, width in values] == [32] * (size == 4) + [64] * (size // 8), True, "widths of words")
            expect(all(x.width == width for x, width in values), True, "widths of a hash")
            whole = [bits(x, k, 8) for x, width in values for k in range(0, width, 8)]
            for k, byte in enumerate(reversed(whole)):
                memory.store(k, 1, inverted(byte) if cpu.fault == (name, k) else byte)
            return 0, 0
        loaded = [memory.load(k, 1) for k in reversed(range(size))]
        loaded = [inverted(byte) if cpu.fault == (name, size - 1 - k) else byte for k, byte in enumerate(loaded)]
        loaded += [cpu.fresh("above", 8) for _ in range(16 - size)]
        return tuple(side_by_side(loaded[k : k + 8]) for k in (0, 8))

    faults = [
        (f"{name}_{way}", k)
        for name, size in (("XXH32", 4), ("XXH64", 8), ("XXH128", 16))
        for k in (0, 1, size // 2, size - 1)
        for way in ("canonicalFromHash", "hashFromCanonical")
    ]
    required(calls.canonical_forms, answer, faults, 6, "canonical forms")


def inverted(byte):
    return arithmetic("xor", 8, byte, 255)


def side_by_side(parts):
    return low(joined(*((byte, 8) for byte in parts)), 64)


def equal_hashes(_):
    """Tests that two hashes must be equal in both words, and that the differences are assumed to be nonzero."""

    def answer(cpu, _, low, high, other_low, other_high):
        same = low is other_low, high is other_high
        expect(len(cpu.not_zero), 2 - sum(same), "differences")
        for is_same, a, b, found in zip(
            same, (low, high), (other_low, other_high), (cpu.not_zero[:1], cpu.not_zero[-1:])
        ):
            expect(is_same or b is arithmetic("xor", 64, a, found[0]), True, "a word with a difference")
        ways = {None: all(same), "low": same[0], "high": same[1], "all": True, "none": False}
        return symbol("above", 64) if cpu.fault == "term" else int(ways[cpu.fault]) | 7 << 32, 0

    right = required(calls.is_equal, answer, ("low", "high", "all", "none", "term"), 4, "equal hashes")
    expect(len({*map(repr, right.calls)}), 4, "pairs of hashes")


def sign(x):
    """Returns the sign of a number that the facts decide."""
    if is_same_number(x, 0):
        return 0
    if is_natural(minus(x, 1)):
        return 1
    expect(is_natural(minus(-1, x)), True, "a decided order")
    return -1


def order(cpu, _, first, second):
    """Models XXH128_cmp."""
    pairs = [[memory.load(at + k, 8) for k in (8, 0)] for memory, at in (first.place(), second.place())]
    for x in itertools.chain(*pairs):
        for point in polynomials.under.points:
            named = {name: point.get(name, 0) for name in names_of(x)}
            expect(0 <= value_at(x, named) < LIMIT, True, "a word of 64 bits")
    signs = [sign(minus(a, b)) for a, b in zip(*pairs)]
    cpu.seen.append((*signs, first.place()[0] is second.place()[0]))
    if cpu.fault in ("high", "low"):
        signs = [signs[cpu.fault == "low"], 0]
    if cpu.fault == "turned":
        signs = signs[::-1]
    found = signs[0] or signs[1]
    found = {"negated": -found, "zero": 0, "one": 1}.get(cpu.fault, found)
    return found % (1 << 32) | 5 << 32, 0


def orders(_):
    """Tests that the order of two hashes is that of their high words, then of their low words, in each combination."""
    faults = "high", "low", "turned", "negated", "zero", "one"
    for ask, count, is_shared in ((calls.compare, 9, False), (calls.compare_in_one_place, 108, True)):
        with patched(Model, "seen", [], create=True):
            expect(ask(Model(order)), count, "orders")
            seen = vars(Model)["seen"]
        combinations = {*itertools.product((1, 0, -1), repeat=2)}
        expect({pair[:2] for pair in seen} == combinations, True, "combinations of orders")
        expect({pair[2] for pair in seen} == {is_shared}, True, "hashes in one place")
        for fault in faults:
            with patched(Model, "seen", [], create=True):
                refuses(lambda: ask(Model(order, fault)), f"an order with the fault {fault}", REFUSALS)


def least_values(_):
    """Tests that hashes in one place have each three words in order, from 0 to 2^64 - 1."""
    found = set()

    def answer(cpu, _, first, second):
        memory, _ = first.place()
        found_values = [memory.load(8 * k, 8) for k in range(3)]
        names = sorted(names_of(*found_values))
        for values in itertools.product((0, 1, LIMIT - 3, LIMIT - 2, LIMIT - 1), repeat=len(names)):
            point = dict(zip(names, values))
            if all(value_at(fact, {**dict.fromkeys(names_of(fact), 0), **point}) >= 0 for fact in polynomials.facts):
                found.add(tuple(value_at(x, point) for x in found_values))
        return order(cpu, _, first, second)

    with patched(Model, "seen", [], create=True):
        calls.compare_in_one_place(Model(answer))
    expect(all(0 <= x < LIMIT for found_values in found for x in found_values), True, "words of hashes in one place")
    for values in (
        *itertools.product((0, 1, LIMIT - 1), repeat=3),
        *itertools.permutations((LIMIT - 3, LIMIT - 2, LIMIT - 1)),
    ):
        expect(values in found, True, f"the words {values} in one place")


def versions(_):
    """Tests that the version is 801, by its lower half."""
    for answer, is_right in (
        (801, True),
        (801 | 1 << 32, True),
        (800, False),
        (802, False),
        (symbol("v64", 64), False),
    ):
        cpu = Model(lambda *_, answer=answer: (answer, 0))
        if is_right:
            expect(calls.version(cpu), 1, "versions")
        else:
            refuses(lambda: calls.version(cpu), "another version", REFUSALS)
        expect(cpu.calls == [("XXH_versionNumber", ())], True, "calls")


def sizes() -> dict[str, int]:
    return {"3": layouts.STATE.size, "32": 48, "64": 88}


def forgotten_states(_):
    """Tests that a freed state is refused in each form, and that only its mark changes."""
    asked = []

    def answer(cpu, name, place):
        memory, _ = place.place()
        at, n = {"32": (12, 4), "64": (40, 4), "3": (544, 8)}[name.removeprefix("twox_c_forget_xxh")]
        memory.store(at, n, 0)
        if isinstance(cpu.fault, int):
            memory.store(cpu.fault, 4, 0)
        return 0, 0

    def refused(_, hash_name, state, secret=None):
        asked.append((hash_name, state.length, secret and secret.length))

    with patched(calls, "reset", lambda cpu, request, state: (1 if cpu.fault == "reset" else 0, 0)), patched(
        calls, "refused", refused
    ):
        required(calls.forgotten, answer, ("reset", 0, 8, 16, 44), 6, "freed states", SIZES=sizes())
        long = calls.callers_secret()[0].length
        expected = [
            ("32", 48, None),
            ("64", 88, None),
            ("3-64", 576, None),
            ("3-64", 576, long),
            ("3-128", 576, None),
            ("3-128", 576, long),
        ]
        expect(repr(asked[:6]) == repr(expected), True, f"refused states: {asked[:6]}")


def refusals(_):
    """Tests that a refused update and digest return an error and 0, and change nothing."""

    def run(fault=None, secret=None):
        cpu, asked = Model(SIZES=sizes()), []
        state = calls.new_state(cpu, "3-64")

        def update(_, hash_name, where, piece):
            expect(where is state and hash_name == "3-64" and state.secret is secret, True, "a refused state")
            asked.append(piece)
            if fault == len(asked):
                state.store(8 * len(asked), 8, 5)
            if piece:
                for n, holds in ((LIMIT - 1, True), (LIMIT - 2, False)):
                    expect(is_natural(minus(n, piece.length)), holds, "the greatest length")
                expect(piece.length.parts == {("n",): 1}, True, "any length")
            return (0 if fault == ("ok", len(asked)) else 1), 0

        with patched(calls, "update", update), patched(calls, "digest", lambda *_: 7 if fault == "digest" else 0):
            calls.refused(cpu, "3-64", state, secret)
        expect([one is None for one in asked] == [False, True], True, "pieces")

    run()
    run(secret=Input("s", 200))
    for fault in (1, 2, ("ok", 1), ("ok", 2), "digest"):
        refuses(lambda: run(fault), f"a refusal with the fault {fault}", REFUSALS)


def secrets_of_callers(_):
    """Tests the lengths of a caller's secret: 136 bytes to 2 ^ 60, by stripes and up to 7 bytes more."""
    secret, facts = calls.callers_secret()
    for q, u, holds in (
        (9, 0, True),
        (8, 7, False),
        (9, 7, True),
        (9, 8, False),
        (1 << 40, 0, True),
        ((LONGEST_SECRET - 64) // 8, 0, True),
        ((LONGEST_SECRET - 64) // 8, 1, False),
        ((LONGEST_SECRET - 64) // 8 + 1, 0, False),
    ):
        point = {"q": q, "u": u}
        expect(value_at(secret.length, point), 64 + 8 * q + u, "the length of a secret")
        expect(all(value_at(fact, point) >= 0 for fact in facts), holds, f"a secret of {q} stripes and {u} bytes")


def values_of_state(state, at, n):
    """Returns the least and the greatest value of a word in a state, under the facts."""
    x = state.load(at, n)
    names = names_of(x)
    tops = [
        value_at(fact, {"v": 0}) for fact in polynomials.facts if names_of(fact) == {"v"} and fact.parts[("v",)] == -1
    ]
    expect(names == {"v"} and len(tops) == 1 and x.parts[("v",)] == 1, True, "a word of any value")
    return value_at(x, {"v": 0}), value_at(x, {"v": tops[0]})


def unmarked_states(_):
    """Tests that the words without a mark are all but the marks, in each form of a state."""
    spans = {}

    def refused(_, hash_name, state, secret):
        at, n = {"32": (12, 4), "64": (40, 4)}.get(hash_name, (544, 8))
        spans.setdefault((hash_name, secret is not None), []).append(values_of_state(state, at, n))

    with patched(calls, "refused", refused):
        expect(calls.without_mark(Model(SIZES=sizes())), 16, "states without a mark")
    marks = {("32", False): [(0x32335858, 16)], ("64", False): [(0x34365858, 32)]}
    for name in ("3-64", "3-128"):
        marks[name, False] = [(mark, 1) for mark in sorted(layouts.OWN_MARKS)]
        marks[name, True] = [(mark, 1) for mark in sorted(layouts.CALLERS_MARKS)]
    expect(spans.keys() == marks.keys(), True, "forms of states")
    for form, known in marks.items():
        ends = [
            0,
            *itertools.chain(*((mark, mark + count) for mark, count in known)),
            1 << (64 if "-" in form[0] else 32),
        ]
        expected = [(low, high - 1) for low, high in zip(ends[::2], ends[1::2])]
        expect(spans[form] == expected, True, f"words of {form}: {spans[form]}")


def fields_of_states(_):
    """Compares the invalid fields with each concrete state of a small layout: a place, buffered bytes and a total."""
    at, q, capacity = types.SimpleNamespace(current_stripe=64, buffer_usage=80, total_bytes=88, capacity=6), 3, 6
    cases = list(calls.invalid_fields(at, q))
    expect(len(cases), 7, "cases of invalid fields")
    for place, usage, total in itertools.product(
        (0, 2, 3, 4, LIMIT - 1), (0, 1, 5, 6, 7, 8, LIMIT - 1), (0, 1, 2, LIMIT - 1)
    ):
        is_invalid = place >= q or usage > capacity or usage == 0 and total != 0
        found = 0
        for fields, facts in cases:
            point, holds = {}, True
            for where, x in fields:
                value = {64: place, 80: usage, 88: total}[where]
                names = names_of(x)
                holds = holds and (bool(names) or x == value)
                point.update({name: value - value_at(x, {name: 0}) for name in names})
            holds = holds and all(number >= 0 for number in point.values())
            found += holds and all(value_at(fact, {"v": 0, "w": 0, **point}) >= 0 for fact in facts)
        expect(found > 0, is_invalid, f"cases of {place}, {usage}, {total}")
        expect(found < 2, True, f"one case of {place}, {usage}, {total}")


def states_out_of_range(_):
    """Tests that each mark has each invalid field, and each secret that is too short."""
    asked = []

    def refused(_, hash_name, state, secret):
        values = tuple(
            repr(state.load(at, 8)) if isinstance(state.load(at, 8), (int, polynomials.Poly)) else None
            for at in (544, 64, 80, 88)
        )
        asked.append((hash_name, repr(secret and secret.length), values))
        if secret and names_of(secret.length) == {"v"}:
            expect(
                is_natural(minus(135, secret.length)) and not is_natural(minus(134, secret.length)),
                True,
                "short secrets",
            )

    with patched(calls, "refused", refused):
        expect(calls.out_of_range(Model(SIZES=sizes())), 60, "states out of range")
    expect(len({*asked}), 60, "states out of range")
    for name, marks, count in (
        ("3-64", layouts.OWN_MARKS, 7),
        ("3-128", layouts.OWN_MARKS, 7),
        ("3-64", layouts.CALLERS_MARKS, 8),
    ):
        for mark in marks:
            found = [one for one in asked if one[0] == name and one[2][0] == repr(mark)]
            expect(len(found), count, f"states of {name} with the mark {mark:#x}")
    expect(sum(length == "v" for _, length, _ in asked), 4, "short secrets")


def resets_with_short_secrets(_):
    """Tests that a reset with a secret that is too short returns an error and changes nothing."""

    def run(fault=None):
        seen = []

        def reset(_, request, state):
            seen.append(request.variant)
            expect(is_natural(minus(135, request.secret_length)), True, "a short secret")
            expect(
                is_natural(minus(134, request.secret_length)) or is_natural(minus(request.secret_length, 1)),
                False,
                "each short secret",
            )
            if fault == (request.variant, "store"):
                state.store(64, 8, 5)
            return 0 if fault == (request.variant, "ok") else 1, 0

        with patched(calls, "reset", reset):
            count = calls.refused_resets(Model(SIZES=sizes()))
        expect(count == 2 and seen == ["secret", "both"], True, "refused resets")

    run()
    for fault in itertools.product(("secret", "both"), ("store", "ok")):
        refuses(lambda: run(fault), f"a refused reset with the fault {fault}", REFUSALS)


# ---- calls with a message


class Definition:
    """A definition whose value of a request is its number among the requests."""

    def __init__(self):
        self.asked = []

    def run(self):
        return self

    def value(self, *asked):
        if asked not in self.asked:
            self.asked.append(asked)
        return 100 + self.asked.index(asked)


def key_of(request):
    return request.hash_name, request.variant, request.length, request.secret_length


def null_inputs(_):
    """Tests that inputs and secrets of no bytes are null, with the definition's value, or 0 without a secret."""

    def run(fault=None):
        known, calls_seen = Definition(), []

        def one_shot(cpu, hash_name, variant, message, length, *more):
            number = len(calls_seen)
            calls_seen.append(
                (hash_name, variant, message, length, tuple(x if isinstance(x, int) else repr(x) for x in more))
            )
            expect(cpu.not_zero == [], True, "terms that are assumed to be nonzero")
            size = more[1] if variant in ("secret", "both") else None
            value = 0 if variant == "secret" and not size else known.value(hash_name, variant, 0, size)
            return value + (fault == number)

        cpu = Model(one_shot=one_shot)
        cpu.not_zero = [symbol("x64", 64)]
        with patched(definition, "program", lambda: known), patched(
            Request, "of_definition", lambda self, _: known.value(*key_of(self))
        ):
            expect(calls.null_pointers(cpu), 14, "calls")
        return calls_seen

    seen = run()
    for k in range(14):
        refuses(lambda: run(k), f"a call {k} with another result", REFUSALS)
    expect(all(one[2:4] == (0, 0) for one in seen), True, "null inputs")
    expect([one[:2] for one in seen[:2]] == [("32", "seed"), ("64", "seed")], True, "plain hashes")
    for name in ("3-64", "3-128"):
        found = {one[1]: [] for one in seen}
        for one in seen:
            if one[0] == name:
                found[one[1]].append(one[4])
        expect(
            {variant: len(some) for variant, some in found.items()}
            == {"default": 1, "seed": 1, "secret": 2, "both": 2},
            True,
            "kinds of calls",
        )
        expect(found["default"] == [()] and len(found["seed"][0]) == 1, True, "arguments")
        for variant, count in (("secret", 2), ("both", 3)):
            expect(
                sorted(x[1] for x in found[variant]) == [0, 136] and {len(x) for x in found[variant]} == {count},
                True,
                "secrets",
            )
            expect(
                {x[0] for x in found[variant] if x[1] == 0} == {0} and 0 not in {x[0] for x in found[variant] if x[1]},
                True,
                "null secrets",
            )


def one_place(_):
    """Tests that a message and a secret in one place have the definition's value of their bytes."""

    def run(fault=None, missing=()):
        known, seen = Definition(), []

        def one_shot(cpu, hash_name, variant, message, n, own, size, *seed):
            (memory, at), (other, first) = message.place(), own.place()
            expect(memory is other and cpu.not_zero == [], True, "one place")
            expect(memory.length, max(at + n, first + size), "bytes of the place")
            seen.append((hash_name, variant, at, n, first, size))
            value = known.value(
                hash_name, variant, *(seed or [0]), memory.data[first : first + size], memory.data[at : at + n]
            )
            return value + (fault == len(seen))

        cpu = Model(
            one_shot=one_shot, has=lambda request: (request.hash_name, request.variant, request.length) not in missing
        )
        cpu.not_zero = [symbol("x64", 64)]
        with patched(definition, "program", lambda: known), patched(
            definition,
            "value",
            lambda _, hash_name, variant, seed, own, message: known.value(
                hash_name, variant, seed, bytes(own), bytes(message)
            ),
        ):
            return calls.in_one_place(cpu), seen

    count, seen = run()
    expect(count == len(seen) == len({*seen}) == 32, True, "calls")
    expect(
        {one[:2] for one in seen} == {*itertools.product(("3-64", "3-128"), ("secret", "both"))}, True, "kinds of calls"
    )
    expect({one[2:] for one in seen} == {*calls.ONE_PLACE} and len({*calls.ONE_PLACE}) == 8, True, "places")
    expect(any(at == first and n == size for at, n, first, size in calls.ONE_PLACE), True, "equal messages and secrets")
    for k in (1, 9, 32):
        refuses(lambda: run(k), f"a call {k} with another result", REFUSALS)
    expect(run(missing=[("3-64", "secret", 136)])[0], 31, "calls without one that is missing")
    expect(run(missing=[("3-64", "secret", 240), ("3-128", "both", 129)])[0], 30, "calls without two that are missing")


def updates_of_nothing(_):
    """Tests that null chunks are before, between and after others, for each kind of stream."""

    def run(fault=None):
        known, seen, algorithms = Definition(), [], []

        def update(_, hash_name, state, piece):
            seen.append(piece)
            return fault == ("update", len(seen)), 0

        def reset(_, request, state):
            algorithms.append(key_of(request))
            expect(
                state.length,
                576 if "-" in request.hash_name else {"32": 48, "64": 88}[request.hash_name],
                "bytes of a state",
            )
            return fault == ("reset", len(algorithms)), 0

        with patched(definition, "program", lambda: known), patched(
            Request, "of_definition", lambda self, entries: known.value(entries is known, *key_of(self))
        ), patched(calls, "reset", reset), patched(calls, "update", update), patched(
            calls,
            "digest",
            lambda _, hash_name, state: known.value(True, *algorithms[-1]) + (fault == ("digest", len(algorithms))),
        ):
            expect(calls.updates_of_nothing(Model(SIZES=sizes())), 30, "streams")
        return seen, algorithms

    seen, algorithms = run()
    expect([piece is None for piece in seen] == [True, False, True] * 30, True, "null chunks")
    expect([piece.length for piece in seen[1::3]] == [0, 5, 33, 300, 700] * 6, True, "lengths of chunks")
    expect(
        [one[:2] for one in algorithms[::5]]
        == [
            ("32", "seed"),
            ("64", "seed"),
            ("3-64", "default"),
            ("3-128", "default"),
            ("3-64", "secret"),
            ("3-128", "both"),
        ],
        True,
        "kinds of streams",
    )
    expect([one[3] for one in algorithms[::5]] == [None] * 4 + [136] * 2, True, "secrets")
    for fault in (("update", 1), ("update", 90), ("reset", 1), ("reset", 30), ("digest", 1), ("digest", 30)):
        refuses(lambda: run(fault), f"a stream with the fault {fault}", REFUSALS)


def derived_secrets(_):
    """Tests that each byte of a derived secret is required, for a symbolic seed and for 0."""
    known, seeds = types.SimpleNamespace(run=lambda: {"derived_secret": lambda seed: range(192)}), []

    def answer(cpu, name, place, seed):
        memory, at = place.place()
        expect(
            name == "XXH3_generateSecret_fromSeed" and memory.length == 192 and at == 0 and memory.alignment == 1,
            True,
            "a derived secret",
        )
        expect(cpu.not_zero == [], True, "terms that are assumed to be nonzero")
        seeds.append(seed)
        for k in range(192):
            memory.store(k, 1, k ^ (cpu.fault == (k, seed == 0 if isinstance(seed, int) else False)))
        return 0, 0

    with patched(definition, "program", lambda: known):
        required(calls.derived_secret, answer, itertools.product((0, 100, 191), (False, True)), 2, "derived secrets")
    expect(seeds[0] is symbol("seed64", 64) and seeds[1] == 0, True, "seeds")


def generated_secrets(_):
    """Tests that each byte of a generated secret is required, and that a refusal writes nothing."""
    asked = []

    def generated(message, size):
        asked.append((message.length(), size))
        expect(
            message.first == 0 and message.end == message.source.length and message.source.name == "m",
            True,
            "a message",
        )
        return [(k + message.length()) % 256 for k in range(size)]

    known = types.SimpleNamespace(run=lambda: {"generated_secret": generated})

    def program(crates, names):
        expect(crates == ("twox_c",) and names == ("generated_secret",), True, "the definition of generated secrets")
        return known

    def answer(cpu, name, place, size, source, length):
        memory, at = place.place()
        expect(
            name == "proved_XXH3_generateSecret" and at == 0 and memory.length == size and memory.alignment == 1,
            True,
            "a generated secret",
        )
        expect(source == 0 if not length else source.place()[0].length == length, True, "a seed")
        for k in range(size if size >= 136 else 0):
            memory.store(k, 1, (k + length + (cpu.fault == (size, k))) % 256)
        if size < 136 and cpu.fault == (size, 0):
            memory.store(0, 1, 7)
        return (0 if size >= 136 else 1) ^ (cpu.fault == ("code", size)), 0

    pairs = [(135, 3), (136, 0), (137, 5), (200, 17), (1, 1)]
    faults = [
        (135, 0),
        (1, 0),
        (136, 0),
        (136, 135),
        (200, 100),
        (137, 136),
        ("code", 135),
        ("code", 136),
        ("code", 200),
    ]
    for most in (calls.MOST_NODES, -1):
        with patched(definition, "program", program), patched(calls, "MOST_NODES", most):
            required(lambda cpu: calls.generated_secrets(cpu, pairs), answer, faults, 5, "generated secrets")
    expect({*asked} == {(0, 136), (5, 137), (17, 200)}, True, "generated secrets")
    with patched(calls, "generated_secrets", lambda _, pairs: pairs):
        expect(
            calls.some_secrets(None) == [(135, 3), (136, 0), (143, 3), (200, 17), (256, 241)], True, "sizes of secrets"
        )


ALL = [
    canonical_forms,
    equal_hashes,
    orders,
    least_values,
    versions,
    forgotten_states,
    refusals,
    secrets_of_callers,
    unmarked_states,
    fields_of_states,
    states_out_of_range,
    resets_with_short_secrets,
    null_inputs,
    one_place,
    updates_of_nothing,
    derived_secrets,
    generated_secrets,
]
