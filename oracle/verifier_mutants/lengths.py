"""Tests of the proofs of every length and of streams of XXH32 and XXH64, of the cases' completeness, and of choices
of tasks. Each takes a random generator, which it doesn't use, and raises Wrong."""
import itertools
import types
import unittest.mock
from typing import Any

from oracle.machine_code import (
    any_updates,
    cargo_tasks,
    coverage,
    every_length,
    layouts,
    tasks,
    xxh3_states,
    xxh3_updates,
)
from oracle.machine_code.any_updates import AnyUpdates
from oracle.machine_code.cargo import CargoProgram
from oracle.machine_code.every_length import Case, Cases, EveryLength
from oracle.machine_code.memory import WordMemory
from oracle.machine_code.objects import Program
from oracle.machine_code.stripes import Part
from oracle.machine_code.values import address
from oracle.symbolic_terms import (
    LONGEST,
    LONGEST_SECRET,
    REFUSALS,
    Input,
    NotShown,
    at_most,
    given,
    is_natural,
    is_same,
    is_same_number,
    minus,
    nodes,
    plus,
    suppositions,
    symbol,
    times,
    value_at,
    variable,
)

from . import processors
from .libraries import range_of, shown
from .values import expect, refuses

patched = unittest.mock.patch.object
HASHES = {"32": "xxh32", "64": "xxh64", "3-64": "xxh3_64", "3-128": "xxh3_128"}  # names of definitions


# ---- every length


def plain_definition(proof, seed, place, rest, defined, family):
    """Checks the arguments and the definition of a plain hash."""
    hash_name = proof.hash_name
    expect(rest == [(seed, int(hash_name))] and proof.cpu.not_zero == [], True, "arguments of a plain hash")
    expect(
        defined[-1][0] == HASHES[hash_name]
        and defined[-1][1][0] is seed
        and defined[-1][1][1].source is place.place()[0],
        True,
        "a definition",
    )
    family.after(5)(3)
    expect(
        defined[-1][0] == f"Xxh{hash_name}.accumulator" and defined[-1][1][0] is seed and defined[-1][1][2:] == (3, 5),
        True,
        "words",
    )


def xxh3_definition(proof, case, seed, fixed, place, rest, defined, family):
    """Checks the arguments and the definition of a hash of XXH3."""
    hash_name, way, algorithm = proof.hash_name, proof.way, proof.algorithm
    seeds = [seed if fixed is None else fixed] * (way in ("seed", "both"))
    expect(
        proof.cpu.not_zero == ([seed] if way == "seed" and fixed is None else []), True, f"nonzero seeds of {algorithm}"
    )
    own, expected = rest[:2] if way in ("secret", "both") else [], [*seeds]
    expect(rest[len(own) :] == expected, True, "a seed")
    ((hashed, (of_seed, secret, message)),) = [one for one in defined if one[0] in HASHES.values()]
    expect(
        hashed == HASHES[hash_name]
        and of_seed is (seeds[0] if seeds else 0)
        and message.source is place.place()[0]
        and is_same_number(message.end, case.length),
        True,
        "a definition",
    )
    if own:
        given_secret = own[0].place()[0]
        expect(
            own[0].place()[1] == 0
            and own[1] is given_secret.length
            and is_same_number(own[1], plus(192, variable("u"))),
            True,
            "a given secret",
        )
        expect(
            (secret.source, secret.first, secret.end) == (given_secret, 0, given_secret.length), True, "a given secret"
        )
    else:
        expect(secret[0] == "effective_secret" and secret[1] is message, True, "an effective secret")
        effective = next(of for name, of in defined if name == "effective_secret")
        derived = next(of for name, of in defined if name == "derived_secret")
        expect(effective[0][0] == "derived_secret" and derived == (seeds[0] if seeds else 0,), True, "a derived secret")
    family.after(5)(3)
    expect(defined[-1] == ("Long.accumulator_after", (secret, message, 3, 5)), True, "words")


def texts_of(x, defined):
    """Returns the definitions' functions, which add their name and arguments to `defined`. A hash is x."""

    def named(name):
        return lambda *of: defined.append((name, of)) or (
            x if name in HASHES.values() else (name, *of[-1:]) if name.endswith("secret") else (name, of[-2:])
        )

    return {
        name: named(name)
        for name in (
            *HASHES.values(),
            "Xxh32.accumulator",
            "Xxh64.accumulator",
            "Long.accumulator_after",
            "effective_secret",
            "derived_secret",
        )
    }


def proved_lengths(_):
    """Tests the calls of one-shots of every length: their family, arguments, seed and secret, and that the value is
    required."""
    turns, t = variable("turns"), variable("t")
    for algorithm in (
        "32",
        "64",
        *(f"{name}:{way}" for name in ("3-64", "3-128") for way in ("default", "seed", "secret", "both")),
    ):
        for fixed, fault in ((None, False), (0, False), (None, True)):
            hash_name, _, way = algorithm.partition(":")
            proof, seen = EveryLength(processors.new_processor(), algorithm), []
            expect(
                (proof.algorithm, proof.hash_name, proof.way, proof.guesses) == (algorithm, hash_name, way, {}),
                True,
                "a proof",
            )
            x, stripe, count = symbol("x64", 64), 64 if way else int(hash_name) // 2, 8 if way else 4
            case = Case(
                plus(times(1024, turns), t, 1),
                plus(times(16, turns), 3),
                [minus(turns, 1), at_most(t, 63)],
                {},
                variable("u") if way in ("secret", "both") else 0,
            )
            defined = []

            proof.texts = texts_of(x, defined)

            def with_loops(loops, ask):
                seen.append(loops)
                return ask()

            def one_shot(cpu, name, of_way, *arguments):
                seen.append((cpu, name, of_way, arguments))
                expect(
                    is_natural(minus(turns, 1)) and is_natural(minus(LONGEST, case.length)), True, "the facts of a case"
                )
                return symbol("another", 64) if fault else x

            proof.cpu.library = types.SimpleNamespace(one_shot=one_shot)
            proof.cpu.not_zero = ["before"]
            with patched(proof, "with_loops", with_loops):
                ask = lambda: proof.show(case, fixed)
                refuses(ask, "another value", (NotShown,)) if fault else ask()
            loops, (cpu, name, of_way, (place, length, *rest)) = seen
            family = loops.family
            expect(
                (family.stripe, family.total, family.count, family.sizes) == (stripe, case.stripes, count, (1,)),
                True,
                f"the family of {algorithm}",
            )
            expect(loops.program is proof.cpu.program and loops.guesses is proof.guesses, True, "loops")
            expect(
                (cpu, name, of_way) == (proof.cpu, hash_name, way)
                and length is case.length
                and place.place()[0].length is case.length
                and place.place()[1] == 0,
                True,
                "a call",
            )
            seed = symbol("seed32", 32) if hash_name == "32" else symbol("seed64", 64)
            if way:
                xxh3_definition(proof, case, seed, fixed, place, rest, defined, family)
            else:
                plain_definition(proof, seed, place, rest, defined, family)


def assumed_lengths(_):
    """Tests that a family's words are assumed, and that a call of a known length has no loops."""
    seen: Any
    proof, put, seen = EveryLength(processors.new_processor(), "64"), [], []
    for length, has_loops in ((times(32, variable("turns")), True), (300, False)):
        with patched(proof, "with_loops", lambda loops, ask: seen.append(loops.family) or ask()):
            expect(
                proof.proved(lambda: 7, Case(length, 3, [], {}), 32, 4, lambda k: ("after", k)),
                7,
                "the value of a call",
            )
        expect(len(seen), int(has_loops), "loops")
        if seen:
            with patched(suppositions, "suppose", lambda call, values: put.append((call, values))):
                seen.pop().put(5, ["values"])
            expect(put == [(("after", 5), ["values"])], True, "assumed words")


def short_lengths(_):
    """Tests the one-shots of up to 240 bytes with a secret of any length."""
    for fault in (False, True):
        proof, seen, x = EveryLength(processors.new_processor(), "3-128:both"), [], symbol("x64", 64)

        def of_text(cpu, request):
            seen.append((cpu, request.hash_name, request.variant, request.length))
            least, most = range_of(request.secret_length)
            expect((least, most) == (136, LONGEST_SECRET) and request.fixed_seed is None, True, "lengths of a secret")
            return symbol("another", 64) if fault else x

        with patched(every_length.one_shots, "of_text", of_text), patched(
            every_length.Request, "of_definition", lambda self, texts: x if texts is proof.texts else 7
        ):
            ask = lambda: proof.show_short(17)
            refuses(ask, "another value", (NotShown,)) if fault else ask()
        expect(seen == [(proof.cpu, "3-128", "both", 17)], True, "a one-shot")


def cases_with_loops(_):
    """Tests that a case's loops and limit hold during its call, and that a refusal's message has those of the loops."""
    cpu = processors.new_processor()
    proof, loops = Cases(cpu), types.SimpleNamespace(refused=["a loop", "another"])
    for limit, expected in ((1 << 24, cpu.LIMIT_OF_CASE), (50, 50)):
        cpu.limit = limit
        expect(
            proof.with_loops(loops, lambda: (cpu.loops is loops, cpu.limit)) == (True, expected),
            True,
            "the loops and the limit of a call",
        )
        expect(cpu.loops is None and cpu.limit == limit, True, "a processor afterwards")

        def refused():
            raise NotShown("a call")

        try:
            proof.with_loops(loops, refused)
        except NotShown as error:
            expect(str(error) == "a call; a loop; another", True, "a refusal's message")
        else:
            expect(False, True, "a refusal")
        expect(cpu.loops is None and cpu.limit == limit, True, "a processor afterwards")
        refuses(lambda: proof.with_loops(loops, lambda: [][1]), "a crash", IndexError)
    expect(cpu.LIMIT_OF_CASE, 30_000, "instructions of a case")
    done = []
    with patched(nodes, "forget", lambda: done.append("forget")), patched(proof, "read", lambda: done.append("read")):
        proof.forget()
    expect(done == ["forget", "read"] and proof.library is cpu.library, True, "forgotten terms")


def cases_of_plain_hashes(_):
    """Tests the cases of XXH32 and XXH64: each rest of the unrolled loop, from some turns on."""
    for name, stripe, unrolled, least in (("32", 16, 8, 2), ("64", 32, 2, 1)):
        found = list(every_length.plain_cases(name))
        rests = []
        for case in found:
            for turns in (least, 5):
                n, k = (value_at(x, {"turns": turns}) for x in (case.length, case.stripes))
                expect(
                    k == n // stripe and k // unrolled == turns and case.rest == 0 and case.others == {},
                    True,
                    "stripes of a case",
                )
            rests.append(value_at(case.length, {"turns": 0}))
            expect([value_at(fact, {"turns": least}) for fact in case.facts] == [0], True, "the least number of turns")
        expect(sorted(rests) == [*range(stripe * unrolled)], True, "cases")
        expect(
            every_length.cases(name) == found or len(every_length.cases(name)) == len(found), True, "cases of a hash"
        )


def cases_of_xxh3(_):
    """Tests the cases of XXH3 with a known secret against each length: at a turn's ends, near 31,744 bytes, and far
    away."""
    for of, first in ((every_length.derived_cases, 1025), (every_length.of_secret, 241)):
        found = list(of())
        for n in (
            *range(first, first + 5),
            240 + 64 * 3,
            1023,
            1024,
            1025,
            1026,
            1087,
            1088,
            1089,
            2048,
            2049,
            31_743,
            31_744,
            31_745,
            31_746,
            40_000,
            1 << 40,
            LONGEST,
            256,
            257,
        ):
            K, t = divmod(n - 1, 64)
            point = {"turns": K // 16, "t": t, "u": 0}
            there = [
                case
                for case in found
                if value_at(case.length, point) == n
                and all(value_at(fact, point) >= 0 for fact in case.facts)
                and isinstance(case.rest, int)
            ]
            is_there = n >= first and not (of is every_length.derived_cases and n == 31_744)
            expect(len(there) > 0, is_there, f"a case of {n} bytes")
            for case in there:
                expect(value_at(case.stripes, point), K, f"the stripes of {n} bytes")
    own = every_length.of_secret()
    longer = [case for case in own if not isinstance(case.rest, int)]
    expect(len(longer) * 2, len(own), "cases with a longer secret")
    for case in longer:
        expect(
            [value_at(fact, {"u": u}) >= 0 for fact in case.facts[-2:] for u in (0, 1, 7, 8)]
            == [False, True, True, True, True, True, True, False],
            True,
            "bytes of a secret",
        )
        expect(case.others["u"] == [1] and repr(case.rest) == "u", True, "bytes of a secret")
    by_turns = every_length.of_secret_by_turns()
    expected = [repr(case) for case in own if not isinstance(case.rest, int) or "turns" in repr(case.length)]
    expect([repr(case) for case in by_turns] == expected, True, "cases of x86-64-v4")


def turns_of_cases(_):
    """Tests the least and the greatest number of turns of a case at values of its other variables."""
    expected: Any
    facts: Any
    point: Any
    turns, t = variable("turns"), variable("t")
    for facts, point, expected in (
        ([], {}, (0, None)),
        ([minus(turns, 3)], {}, (3, None)),
        ([minus(times(2, turns), 3)], {}, (2, None)),
        ([minus(turns, 3), minus(turns, 5)], {}, (5, None)),
        ([at_most(turns, 7)], {}, (0, 7)),
        ([at_most(times(2, turns), 7)], {}, (0, 3)),
        ([at_most(turns, 7), at_most(turns, 4)], {}, (0, 4)),
        ([at_most(turns, 4), at_most(turns, 7)], {}, (0, 4)),
        ([minus(turns, t)], {"t": 6}, (6, None)),
        ([at_most(t, 5)], {"t": 5}, (0, None)),
        ([at_most(t, 5)], {"t": 6}, (1, 0)),
        ([at_most(turns, minus(0, t))], {"t": 1}, (0, -1)),
    ):
        expect(every_length.turns_of(Case(0, 0, facts, {}), {**point}) == expected, True, f"turns of {facts}")
    for length, facts, first, left in (
        (plus(turns, 0), [], 5, []),
        (plus(turns, 0), [at_most(turns, LONGEST)], 5, []),
        (plus(turns, 0), [at_most(turns, LONGEST - 1)], 5, [LONGEST]),
        (plus(turns, 0), [minus(turns, 6)], 5, [5]),
        (plus(turns, 0), [minus(turns, 6), at_most(turns, 6)], 5, [5, 7]),
        (plus(turns, 0), [at_most(turns, 9)], 5, [10]),
        (LONGEST, [], LONGEST, []),
    ):
        expect(
            every_length.left_out([Case(length, 0, facts, {})], first, 1) == left,
            True,
            f"missing lengths of {length}, {facts}",
        )


# ---- streams of XXH32 and XXH64


def plain(name: str = "64") -> AnyUpdates:
    proof = AnyUpdates(processors.new_processor(), name)
    recursion = suppositions.around(
        lambda seed, message, j, k: symbol(f"word {k} {j} of {name}", int(name)), "accumulator"
    )
    proof.texts = {f"Xxh{name}.accumulator": recursion, f"xxh{name}": lambda seed, message: ("hash", seed, message)}
    return proof


def plain_states(_):
    """Tests the content of a state of XXH32 and XXH64, and that each part of it is required."""
    a = variable("a")
    for name, stripe, size, word in (("32", 16, 48, 4), ("64", 32, 88, 8)):
        at = layouts.PLAIN[name]
        for stripes, r in ((0, 0), (0, 5), (a, 0), (a, stripe - 1)):
            proof = plain(name)
            expect(
                (proof.width, proof.stripe, proof.at, proof.hash_name, proof.MARKED, proof.longest)
                == (int(name), stripe, at, name, 4, LONGEST),
                True,
                "a proof",
            )
            n = plus(times(stripe, stripes), r)
            proof.begin(plus(n, 100))
            with given(minus(a, 1), at_most(proof.source.length, LONGEST)):
                state = proof.state(stripes, r)
                expect(
                    (state.length, state.alignment, state.name) == (size, {"32": 4, "64": 8}[name], "state"),
                    True,
                    "a state's memory",
                )
                values = [state.load(where, word) for where in at.accumulators]
                expect(
                    all(is_same(x, proof.accumulator(j, stripes)) for j, x in enumerate(values))
                    and len({x.number for x in values}) == 4,
                    True,
                    "words of a state",
                )
                expect(
                    all(
                        x.parts[0].startswith("word 0") == is_same_number(stripes, 0) and x.width == int(name)
                        for x in values
                    ),
                    True,
                    "assumed words",
                )
                expect(
                    is_same_number(state.load(at.total, 8), n)
                    and state.load(at.marked, 4) == at.first_mark + r
                    and state.load(at.seed, word) is proof.seed,
                    True,
                    "numbers of a state",
                )
                for k in range(r):
                    expect(
                        state.load(at.buffer + k, 1) is proof.source.load(plus(times(stripe, stripes), k), 1),
                        True,
                        "a buffered byte",
                    )
                others = {*range(size)} - {
                    byte
                    for where, count in [
                        *((x, word) for x in at.accumulators),
                        (at.seed, word),
                        (at.marked, 4),
                        (at.total, 8),
                        (at.buffer, r),
                    ]
                    for byte in range(where, where + count)
                }
                expect(all(state.load(k, 1).width == 8 for k in others), True, "other bytes of a state")
                proof.expect_state("a state", state, stripes, r)
                places = [
                    *((x, word) for x in at.accumulators),
                    (at.seed, word),
                    (at.marked, 4),
                    (at.total, 8),
                    *((at.buffer + k, 1) for k in {0, r - 1} if 0 <= k < r),
                ]
                for where, count in places:
                    old = state.load(where, count)
                    state.store(where, count, symbol(f"another{count}", 8 * count))
                    refuses(
                        lambda: proof.expect_state("a state", state, stripes, r),
                        f"another state at {where}",
                        (NotShown,),
                    )
                    state.store(where, count, old)
                for k in others:
                    state.store(k, 1, 0)
                proof.expect_state("a state", state, stripes, r)


def plain_steps(_):
    """Tests updates: what they assume of a state, and that each part of it is required afterwards."""
    a, b = variable("a"), variable("b")
    for fault in (None, "state", "total"):
        for total, r, s in ((None, 3, 9), (minus(LONGEST, variable("lost")), 3, 9), (None, 0, 0)):
            proof, seen = plain(), []

            def update(cpu, name, state, piece):
                n, ended = plus(times(32, a), r), plus(times(32, b), s)
                expect(
                    name == "64"
                    and is_same_number(piece.first, n)
                    and is_same_number(piece.length, minus(ended, n))
                    and piece.whole is proof.source,
                    True,
                    "a chunk",
                )
                expect(
                    is_same_number(state.load(24, 8), n if total is None else total), True, "the total before an update"
                )
                expect(
                    is_natural(minus(LONGEST, proof.source.length))
                    and is_same_number(minus(proof.source.length, ended), variable("rest")),
                    True,
                    "a message",
                )
                if total is not None:
                    expect(
                        is_natural(total) and is_natural(minus(plus(total, piece.length), LONGEST + 1)),
                        True,
                        "a total that can't be",
                    )
                for where, count, x in proof.parts(b, s, [proof.accumulator(j, b) for j in range(4)]):
                    state.store(where, count, x)
                if total is not None:
                    state.store(24, 8, LONGEST - 1 if fault == "total" else LONGEST)
                if fault == "state":
                    state.store(0, 8, symbol("another", 64))

            def call(what, state, *rest, family=None):
                seen.append(family)
                what(proof.cpu, *rest)

            proof.cpu.library = types.SimpleNamespace(update=update, SIZES={"64": 88})
            with patched(proof, "call", call):
                ask = lambda: proof.update_between(a, r, b, s, [minus(b, plus(a, 1)), minus(a, 1)], "family", total)
                if fault == "state" or fault == "total" and total is not None:
                    refuses(ask, f"an update with another {fault}", (NotShown,))
                else:
                    ask()
            expect(seen == ["family"], True, "a family")


def plain_resets(_):
    """Tests that each part of a state is required after a reset of memory with any content."""
    for fault in (False, True):
        proof = plain()

        def reset(cpu, request, state):
            expect(
                (request.hash_name, request.variant, request.length) == ("64", "seed", 0)
                and is_natural(minus(LONGEST, proof.source.length)),
                True,
                "a reset",
            )
            expect(
                {cell[0] for cell in state.cells.values()} == {8} and state.length == 88,
                True,
                "memory with any content",
            )
            for where, count, x in proof.parts(0, 0, [proof.accumulator(j, 0) for j in range(4)]):
                state.store(where, count, x)
            if fault:
                state.store(24, 8, 1)

        proof.cpu.library = types.SimpleNamespace(reset=reset, SIZES={"64": 88})
        refuses(proof.reset, "a wrong reset", (NotShown,)) if fault else proof.reset()


def plain_digests(_):
    """Tests digests of XXH64: of any number of stripes or of none, whose state stays unchanged."""
    for (a, r), fault in itertools.product(((variable("a"), 7), (0, 7)), (None, "value", "state")):
        proof, x = plain(), symbol("x64", 64)

        def digest(cpu, name, state):
            expect(
                name == "64"
                and (is_same_number(a, 0) or is_natural(minus(a, 1)))
                and is_natural(minus(LONGEST, plus(times(32, a), r))),
                True,
                "a digest",
            )
            expect(
                is_same_number(state.load(24, 8), plus(times(32, a), r)) and cpu.live == [state] and cpu.not_zero == [],
                True,
                "a state",
            )
            if fault == "state":
                state.store(87, 1, 5)
            return symbol("another", 64) if fault == "value" else x

        def hashed(seed, message):
            expect(
                seed is symbol("seed64", 64)
                and (message.source, message.first) == (proof.source, 0)
                and is_same_number(message.end, plus(times(32, a), r)),
                True,
                "a definition",
            )
            expect(is_same_number(proof.source.length, message.end) and proof.source.name == "m", True, "a message")
            return x

        proof.texts["xxh64"] = hashed
        proof.cpu.library, proof.cpu.not_zero = types.SimpleNamespace(digest=digest, SIZES={"64": 88}), ["before"]
        if fault:
            refuses(lambda: proof.digest(a, r), f"a digest with another {fault}", REFUSALS)
        else:
            proof.digest(a, r)


def plain_families(_):
    """Tests the family of an update's loops, and that calls without one prove no loops."""
    seen: Any
    proof, put, seen = plain(), [], []
    proof.begin(100)
    family = proof.family(variable("b"), 3)
    expect(
        (family.stripe, family.count, family.first, family.sizes) == (32, 4, 3, (1,))
        and is_same_number(family.total, variable("b")),
        True,
        "a family",
    )
    expect(family.after(0)(2) is proof.accumulator(2, 0), True, "words")
    with patched(suppositions, "suppose", lambda call, values: put.append((call(1), values))):
        family.put(0, ["values"])
    expect(put == [(proof.accumulator(1, 0), ["values"])], True, "assumed words")
    state = WordMemory("state", 88)
    for known in (None, family):
        proof.cpu.not_zero, proof.cpu.live = ["before"], ["before"]
        with patched(
            proof, "with_loops", lambda loops, ask: seen.append((loops.family, loops.guesses, loops.program)) or ask()
        ):
            found = proof.call(lambda *of: of, state, 1, 2, family=known)
        expect(found == (proof.cpu, 1, 2) and proof.cpu.not_zero == [] and proof.cpu.live == [state], True, "a call")
    expect(
        len(seen) == 1 and seen[0][0] is family and seen[0][1] is proof.guesses and seen[0][2] is proof.cpu.program,
        True,
        "loops",
    )
    expect(any_updates.left_out("32") == [] == any_updates.left_out("64"), True, "chunks without a case")


# ---- completeness


def concrete_points(_):
    """Tests the values of the cases' variables at points, by their meaning."""
    for q, b, j, f, L in itertools.product((9, 16), (0, 2), (0, 3, 8), (0, 1, 63, 64, 65, 200), (0, 1, 64, 500, 3000)):
        found = coverage.variables(q, 5, b, j, f, L)
        g, r = -(-f // 64), (64 - f % 64) % 64
        behind = (j + g) % q
        left = L - r
        n = (left - 64) // 64 if left >= 64 else 0
        expect(
            (found["q"], found["u"], found["b"], found["j"], found["f"], found["g"], found["r"], found["n"])
            == (q, 5, b, j, f, g, r, n),
            True,
            f"a point: {found}",
        )
        expect(
            found["left"] == left - 64 * n
            and found["i"] == q - j
            and found["y"] == j + g - q
            and found["more"] == L - 33
            and found["rest"] == 0
            and found["w"] == L - 65,
            True,
            "a point",
        )
        expect(found["D"] * q + found["e"] == n - (q - behind) and 0 <= found["e"] < q, True, "blocks of a point")
    expect(coverage.variables(9, 0, 0, 0, 0)["more"], -33, "a point without a chunk")


def known_points(_):
    """Tests that a case contains a point if its facts hold there and its numbers have the right values."""
    x, y = variable("x"), variable("y")
    for point, facts, defined, holds in (
        ({"x": 3}, [minus(x, 3)], [(x, 3)], True),
        ({"x": 2}, [minus(x, 3)], [], False),
        ({"x": 3}, [], [(x, 4)], False),
        ({}, [minus(x, 3)], [], False),
        ({"x": -1}, [], [(x, -1)], False),
        ({"x": 3, "y": -1}, [], [(x, 3)], True),
        ({"x": 3, "y": -1}, [y], [(x, 3)], False),
        ({}, [], [(5, 5)], True),
        ({}, [], [(5, 6)], False),
        ({"x": 0}, [x], [(x, 0), (plus(x, 2), 2)], True),
        ({"x": 0}, [], [(x, 0), (plus(x, 2), 3)], False),
    ):
        expect(coverage.has(point, facts, defined), holds, f"{point} in a case with {facts} and {defined}")
    proof = types.SimpleNamespace(capacity=512)
    for (b, j, f), holds in (
        ((0, 0, 5), True),
        ((0, 4, 0), True),
        ((0, 3, 48), False),
        ((0, 3, 49), True),
        ((1, 0, 0), True),
        ((0, 3, 47), False),
        ((0, 1, 5), False),
    ):
        with patched(
            coverage,
            "points",
            lambda count, of: [(9, 0, b, j, f, 7), (9, 1, 0, 0, 6, 7)] if (count, of) == (2, proof) else [],
        ):
            found = list(coverage.states(2, proof))
        expect(found == [(9, 0, b, j, f)] * holds + [(9, 1, 0, 0, 6)], True, f"the state {b} {j} {f}")
    expect(
        is_same_number(coverage.sum_of([Part(0, 3, 0), Part(0, variable("n"), 0)]), plus(variable("n"), 3)),
        True,
        "stripes of parts",
    )


def missing_updates(_):
    """Tests that an update's case needs the right start, length and end for a point."""
    case: Any
    found: Any
    proof: Any
    b, j, f = (variable(name) for name in "bjf")
    fits = (((b, j), f), ((b, j), plus(f, 10)), 10, [at_most(f, 502)])
    taken = (((b, j), f), ((b, plus(j, 3)), plus(f, 520 - 192)), 520, [])
    for case, points, count in (
        ([fits], [(9, 0, 1, 2, 5, 10)], 0),
        ([fits], [(9, 0, 1, 2, 502, 10)], 0),
        ([fits], [(9, 0, 1, 2, 503, 10)], 1),
        ([fits], [(9, 0, 1, 2, 5, 11)], 1),
        ([], [(9, 0, 1, 2, 5, 10)], 1),
        ([(*fits[:3], [minus(f, 6)])], [(9, 0, 1, 2, 5, 10)], 1),
        ([(fits[0], ((b, j), plus(f, 11)), *fits[2:])], [(9, 0, 1, 2, 5, 10)], 1),
        ([(fits[0], ((b, plus(j, 1)), plus(f, 10)), *fits[2:])], [(9, 0, 1, 2, 5, 10)], 1),
        ([(fits[0], ((plus(b, 1), j), plus(f, 10)), *fits[2:])], [(9, 0, 1, 2, 5, 10)], 1),
        ([(((b, 3), f), *fits[1:])], [(9, 0, 1, 2, 5, 10)], 1),
        ([taken], [(9, 0, 1, 2, 5, 520)], 1),
        ([(((b, j), f), ((b, plus(j, 7)), plus(f, 520 - 448)), 520, [])], [(9, 0, 1, 1, 5, 520)], 0),
        ([(((b, j), f), ((plus(b, 1), minus(j, 2)), plus(f, 520 - 448)), 520, [])], [(9, 0, 1, 2, 5, 520)], 0),
    ):
        proof = types.SimpleNamespace(facts=[], capacity=512)
        with patched(coverage, "points", lambda count, of, points=points: points):
            found = list(coverage.without_update(iter(case), proof, 1))
            expect(len(found), count, f"points without a case: {found} of {points}")
            expect(count == 0 or found == points, True, "points without a case")
            proof.facts = [minus(0, 1)]
            expect(len(list(coverage.without_update(iter(case), proof, 1))), 1, "points under other facts")


def missing_digests(_):
    """Tests that a digest's case needs the right place and number of buffered bytes."""
    b, j, f, h = (variable(name) for name in "bjfh")
    for case, state, count in (
        ([((b, j), f, [], ())], (9, 0, 1, 2, 5), 0),
        ([((b, j), 6, [], ())], (9, 0, 1, 2, 5), 1),
        ([((b, 3), f, [], ())], (9, 0, 1, 2, 5), 1),
        ([((2, j), f, [], ())], (9, 0, 1, 2, 5), 1),
        ([((b, j), f, [minus(f, 6)], ())], (9, 0, 1, 2, 5), 1),
        ([((b, j), plus(129, h), [], ())], (9, 0, 1, 2, 140), 0),
        ([((b, j), plus(times(64, variable("g")), h, 1), [at_most(h, 63)], ())], (9, 0, 1, 2, 128), 0),
        ([((b, j), plus(times(64, variable("g")), h, 1), [at_most(h, 63)], ())], (9, 0, 1, 2, 129), 0),
        ([((b, j), plus(times(64, variable("g")), h, 1), [minus(h, 63)], ())], (9, 0, 1, 2, 128), 0),
        ([((b, j), plus(times(64, variable("g")), h, 1), [minus(h, 1)], ())], (9, 0, 1, 2, 129), 1),
        ([((b, j), f, [minus(variable("y"), 1)], ())], (9, 0, 1, 7, 256), 0),
        ([((b, j), f, [minus(variable("y"), 2)], ())], (9, 0, 1, 7, 256), 1),
    ):
        proof = types.SimpleNamespace(facts=[])
        with patched(coverage, "states", lambda count, of, state=state: [state]):
            found = list(coverage.without_digest(iter(case), proof, 1))
            expect(found == [state] * count, True, f"states without a case: {found}")
            proof.facts = [minus(0, 1)]
            expect(len(list(coverage.without_digest(iter(case), proof, 1))), 1, "states under other facts")


def missing_lengths(_):
    """Tests the lengths at which cases of any secret are tested: each edge, above 240 bytes, and other blocks than of
    16 stripes."""
    seen = []

    def has(point, facts, defined):
        seen.append((point, [n for _, n in defined]))
        return len(seen) % 50 != 0

    case = types.SimpleNamespace(facts=["a fact"], blocks="B", more="J")
    with patched(coverage, "has", has):
        found = list(coverage.without_one_shot(iter([case]), ["another"], 600))
    expect(len(seen) == 600 and len(found) == 12, True, "points")
    for (q, n), (point, (B, J)) in zip(found, seen[49::50]):
        expect(
            (point["q"], point["B"], point["J"]) == (q, B, J)
            and 64 * (q * B + J) + point["t"] + 1 == n
            and 0 <= point["t"] < 64
            and 0 <= J < q,
            True,
            "a point",
        )
    expect(
        all(
            point["q"] != 16
            and 64 * (point["q"] * point["B"] + point["J"]) + point["t"] + 1 > 240
            and 0 <= point["u"] < 8
            for point, _ in seen
        ),
        True,
        "points",
    )
    lengths = {64 * (point["q"] * point["B"] + point["J"]) + point["t"] + 1 for point, _ in seen}
    expect(
        {point["u"] for point, _ in seen} == {*range(8)} and max(point["q"] for point, _ in seen) > 1 << 32,
        True,
        "secrets",
    )
    expect(
        min(lengths) < 450
        and max(lengths) > 1 << 62
        and all(
            any(abs(n - at) < 3 for n in lengths)
            for at in (448, 512, 1024, 2048, 31_744, 32_000, 100_000, 1 << 40, 1 << 38)
        ),
        True,
        "lengths",
    )


def missing_places(_):
    """Tests the further variables of taken stripes, and that a point needs a case of its function, block and secret."""
    cases: Any
    found: Any
    least: Any
    name: Any
    proof: Any
    for b, j, n in itertools.product((0, 2), (0, 3, 4, 15), (30, 100, 496)):
        for way, unit in zip(coverage.of_stripes(b, j, n), (4, 16)):
            front = -j % unit
            at = (j + front) % 16
            fours = (n - front) // unit * unit
            D, e = divmod(fours - (16 - at), 16)
            expect(
                way == {"a": at // 4, "D": D, "e": e // 4 if unit == 4 else (n - front) % 16},
                True,
                f"stripes by {unit}",
            )
    name, other = xxh3_updates.TAKE_MANY, xxh3_updates.TAKE
    b, j, n = (variable(x) for x in "bjn")
    part = Part((b, j), n, None)
    for cases, least, point, missing in (
        ([((None, None), (name, [part], []))], 0, (9, 0, 1, 2, 0, 640), 0),
        ([((None, None), (other, [part], []))], 0, (9, 0, 1, 2, 0, 640), 1),
        ([((None, None), (name, [part], [minus(n, 11)]))], 0, (9, 0, 1, 2, 0, 640), 1),
        ([((None, None), (name, [part], [minus(n, 11)]))], 1, (9, 0, 1, 2, 0, 640), 0),
        ([((9, None), (name, [part], []))], 0, (9, 0, 1, 2, 0, 640), 0),
        ([((16, None), (name, [part], []))], 0, (9, 0, 1, 2, 0, 640), 1),
        ([((None, 0), (name, [part], []))], 0, (9, 1, 1, 2, 0, 640), 1),
        ([((None, 1), (name, [part], []))], 0, (9, 1, 1, 2, 0, 640), 0),
        ([((None, None), (name, [Part((b, 3), n, None)], []))], 0, (9, 0, 1, 2, 0, 640), 1),
        ([((None, None), (name, [Part((2, j), n, None)], []))], 0, (9, 0, 1, 2, 0, 640), 1),
        ([((None, None), (name, [Part((b, j), plus(n, 1), None)], []))], 0, (9, 0, 1, 2, 0, 640), 1),
        ([((None, None), (name, [part, Part(None, 0, None)], []))], 0, (9, 0, 1, 2, 0, 640), 0),
        ([((None, None), (name, [part], [minus(n, 100)]))], 0, (9, 0, 1, 2, 0, 64 * 200), 1),
        ([((None, None), (name, [part], [minus(n, 90)]))], 0, (9, 0, 1, 2, 0, 64 * 200), 0),
        (
            [((None, None), (name, [Part((b, j), plus(times(9, variable("D")), variable("e"), 7), None)], []))],
            0,
            (9, 0, 1, 2, 0, 640),
            0,
        ),
    ):
        proof = types.SimpleNamespace(facts=[], longest_piece=64 * 90)
        with patched(coverage, "points", lambda count, of, point=point: [point]):
            found = list(coverage.without_taken(iter(cases), proof, [(name.name, least)], 1))
        expect(len(found), missing, f"points without a case: {found}")


def missing_places_of_v4(_):
    """Tests the places of the function for x86-64-v4, which are those of blocks of 16 stripes."""
    b, n = variable("b"), variable("n")
    widened = xxh3_updates.TAKE_WIDENED
    proof = types.SimpleNamespace(facts=[], longest_piece=64 * 90)
    for place, count in ((3, 0), (4, 1)):
        with patched(coverage, "points", lambda *_: [(9, 5, 1, 19, 0, 640)]):
            found = list(
                coverage.without_taken(
                    iter([((16, 0), (widened, [Part((b, place), n, None)], []))]), proof, [(widened.name, 16)], 1
                )
            )
        expect(
            found == [(widened.name, 16, 0, 1, 3, 26)] * count, True, f"points of the function for x86-64-v4: {found}"
        )


def parts_of_completeness(_):
    """Tests which points are tested of which kind of proof, by which functions."""
    asked: Any
    for parts, is_widened in itertools.product(
        ((xxh3_updates.UPDATES, xxh3_updates.STRIPES), (xxh3_updates.UPDATES, xxh3_updates.DIGESTS), ()), (False, True)
    ):
        asked = []
        proof = types.SimpleNamespace(
            TASKS=parts,
            is_widened=lambda: is_widened,
            digests=lambda: "digests",
            all_updates=lambda: "updates",
            all_taken=lambda: "taken",
        )
        with patched(coverage, "without_digest", lambda *of: asked.append(of) or ["d"]), patched(
            coverage, "without_update", lambda *of: asked.append(of) or ["u"]
        ), patched(coverage, "without_taken", lambda *of: asked.append(of) or ["t"]):
            found = coverage.left_out(proof, 7)
        names = [
            (xxh3_updates.TAKE.name, 0),
            (xxh3_updates.TAKE_MANY.name, 29),
            *([(xxh3_updates.TAKE_WIDENED.name, 16)] * is_widened),
        ]
        has_digests, has_stripes = xxh3_updates.DIGESTS in parts, xxh3_updates.STRIPES in parts
        expect(found == ["d"] * has_digests + ["u", "t"] * has_stripes, True, f"points: {found}")
        expect(
            asked
            == [("digests", proof, 7)] * has_digests
            + [("updates", proof, 7), ("taken", proof, names, 7)] * has_stripes,
            True,
            f"points: {asked}",
        )


# ---- tasks


def read_sources(_):
    """Tests which sources the tasks read, and how."""
    found: Any
    with patched(tasks, "assembled", lambda *of: of), patched(cargo_tasks, "assembled", lambda *of: of):
        found = tasks.programs()
        expect(
            [*found] == ["x86-64-v2", "x86-64-v3", "x86-64-v4"]
            and all(of == (f"{tasks.FOLDER}/{name}.s", "x86-64", Program) for name, of in found.items()),
            True,
            "sources for C",
        )
        found = cargo_tasks.programs()
        expect(
            [*found] == [f"cargo's {name}" for name in ("x86-64", "x86-64-v3", "x86-64-v4")],
            True,
            "sources of the crate",
        )
        for name, (path, algorithm, read) in found.items():
            name = name.removeprefix("cargo's ")
            expect(
                (path, algorithm, read.func, read.args)
                == (f"{cargo_tasks.FOLDER}/{name}.s", "x86-64", CargoProgram, (name,)),
                True,
                "a source of the crate",
            )
    expect(tasks.FOLDER.endswith("/c/asm") and cargo_tasks.FOLDER.endswith("/rust/asm"), True, "folders")


def asked_functions(_):
    """Tests the functions that tasks call: on each processor, with their counts."""
    ask: Any
    asked: Any
    found: Any
    built = {"a": lambda: "cpu a", "b": lambda: "cpu b"}
    asked = []
    task = tasks.of_each(built, "title", 3, lambda cpu: asked.append(cpu) or 3)
    expect(
        task.ask() == ("6 cases", []) and asked == ["cpu a", "cpu b"] and task.title == "title",
        True,
        "a function on each processor",
    )
    expect(tasks.of_each(built, "title", 4, lambda cpu: 3).ask()[1] != [], True, "too few cases")
    with patched(tasks.calls, "generated_secrets", lambda cpu, some: asked.append((cpu, some)) or 5), patched(
        tasks.long_seeds, "generated_secrets", lambda cpu, some: asked.append((cpu, some)) or 1
    ):
        expect(
            tasks.generated_secrets("cpu", "some") == 6 and asked[-2:] == [("cpu", "some"), ("cpu", (137,))],
            True,
            "generated secrets",
        )
    for ask, name, each in ((tasks.twin_task, "expect_twins", 9), (tasks.frames_task, "expect_frames", 9000)):
        for count, is_right in ((each, True), (each - 1, False)):
            where = tasks.exports if name == "expect_twins" else tasks
            with patched(where, name, lambda program, count=count: asked.append(program) or count):
                found = ask({"a": 1, "b": 2}).ask()
            expect(
                (found[1] == []) is is_right and found[0] == f"{2 * count} cases" and asked[-2:] == [1, 2],
                True,
                f"the task of {name}",
            )
    with patched(tasks.exports, "expect_all", lambda program, titles: 55 if titles == ["t"] else 0):
        expect(tasks.export_task({"a": 1, "b": 2}, ["t"]).ask() == ("110 cases", []), True, "the task of exports")
    with patched(tasks, "expect_alike", lambda sources: 2 * len(sources)):
        expect(tasks.assembler_task([1, 2, 3]).ask() == ("6 cases", []), True, "the task of assemblers")


def shared_code(_):
    """Tests which functions of the crate must be c/asm's, and which exports x86-64-v3's."""
    found: Any
    left: Any
    program: Any
    many = xxh3_updates.TAKE_MANY.name
    program = types.SimpleNamespace(
        functions=dict.fromkeys(("f", "a_widened", many, "g")), exports=dict.fromkeys(("x", "y", "xxh3_write"))
    )
    for found, bad in (
        ({"f", "a_widened", many}, []),
        ({"f", "a_widened"}, [f"{many} isn't"]),
        ({many}, ["a_widened isn't"]),
        (set(), ["a_widened isn't", f"{many} isn't"]),
    ):
        with patched(cargo_tasks, "shared", lambda *of, found=found: found if of == (program, "other") else {"wrong"}):
            expect(cargo_tasks.expect_shared(program, "other") == (len(found), bad), True, "shared functions")
    expect(
        cargo_tasks.TAKING
        == [xxh3_updates.TAKE.name, many, xxh3_updates.TAKE_BLOCKS.name, xxh3_updates.TAKE_WIDENED.name],
        True,
        "functions that take stripes",
    )
    expect(cargo_tasks.WIDENED == ["xxh3_64_long", "xxh3_128_long", "xxh3_write"], True, "exports with other code")
    for found, left in (({"x", "y"}, []), ({"x"}, ["y"]), ({"x", "y", "xxh3_write"}, []), (set(), ["x", "y"])):
        with patched(cargo_tasks, "shared", lambda *of, found=found: found if of == (program, "other") else {"wrong"}):
            expect(
                cargo_tasks.expect_code_of_v3(program, "other") == (0 - len(left), left), True, "exports of x86-64-v3"
            )


def called_tasks(_):
    """Tests which sources the crate's tasks compare."""
    asked: Any
    texts, like = {f"cargo's {name}": f"crate {name}" for name in ("x86-64", "x86-64-v3", "x86-64-v4")}, {
        "x86-64-v3": "c v3",
        "x86-64-v4": "c v4",
    }
    asked = []
    with patched(cargo_tasks, "expect_shared", lambda *of: asked.append(of) or (8, [])), patched(
        cargo_tasks, "expect_code_of_v3", lambda *of: asked.append(of) or (2, [])
    ):
        found = cargo_tasks.call_tasks(texts, dict.fromkeys(texts), like)
        for task in found[:3]:
            expect(task.ask()[1] == [], True, f"the task {task.title}")
    expect(
        asked == [("crate x86-64-v3", "c v3"), ("crate x86-64-v4", "c v4"), ("crate x86-64-v4", "crate x86-64-v3")],
        True,
        "compared sources",
    )
    with patched(tasks, "makers", lambda of: dict.fromkeys(of)), patched(
        cargo_tasks, "exports_left_out", lambda *of: asked.append(of) or (15, [])
    ):
        whole = cargo_tasks.choose(texts, like, False)
        expect(whole[0].ask()[1] == [], True, "the task of exports")
    expect(asked[-1][0] is texts and asked[-1][1] == [task.title for task in whole], True, "titles of tasks")


def states_of_c(_):
    """Tests what is special to states of C's library: their fields, their calls for chunks that don't fit, and equal
    updates."""
    callers: Any
    own: Any
    piece: Any
    same: Any
    state: Any
    through: Any
    own, callers, through = (
        algorithm(processors.new_processor())
        for algorithm in (xxh3_states.OwnSecret, xxh3_states.CallersSecret, xxh3_states.Through)
    )
    own.seed = callers.seed = "seed"
    for has_seed in (0, 1):
        own.has_seed = callers.has_seed = has_seed
        expect(
            own.own() == [(544, layouts.OWN_MARKS[has_seed]), (568, 0), (552, "seed")], True, "fields of an own secret"
        )
        found = callers.own()
        expect(
            found[:2] == [(544, layouts.CALLERS_MARKS[has_seed]), (560, callers.secret_length)]
            and found[2:] == [(568, symbol("address", 64)), (552, "seed")],
            True,
            "fields of a caller's secret",
        )
    expect(
        own.secret_runs() == [(352, 544, own.secret_source, -352)] and callers.secret_runs() == [],
        True,
        "a secret's run",
    )
    expect(through.size(), 96 + 256, "bytes of a state")
    expect(not through.lost_totals(1, 2), True, "other totals")
    for same in (True, False):
        with patched(xxh3_states.exports, "code_of", lambda program, name: "code" if same else name):
            own.one_update() if same else refuses(own.one_update, "two updates", (NotShown,))
    expect(
        list(own.resets())[-1][0] == "twox_c_reset_xxh3_secret_and_seed" and len(list(own.resets())) == 8,
        True,
        "resets",
    )
    calls, state, piece = [], WordMemory("state", 576), Input("m", 9)
    callers.cpu.program.functions = {name: name for name in xxh3_states.BOTH}
    callers.cpu.library = types.SimpleNamespace(update=lambda *of: calls.append(of))
    with patched(callers, "called", lambda *of: calls.append(of)):
        callers.ask_long("calls", state, piece)
        for name in xxh3_states.BOTH:
            callers.cpu.replaced[name]()
    expect(
        calls == [(callers.cpu, "3-64", state, piece), ("calls", 0, state, piece), ("calls", 1, state, piece)],
        True,
        "functions that are replaced",
    )


def writes_of_chunks(_):
    """Tests the arguments of the function for chunks that don't fit, and the total that it finds."""
    proof = xxh3_states.Through(processors.new_processor())
    for length, name in ((700, 0), (2047, 0), (2048, 1)):
        for total, after in ((9, 9 + length), (LONGEST, LONGEST)):
            proof.begin(5000)
            state, calls = proof.state((0, 0), 0), []
            state.store(88, 8, total)
            cpu = types.SimpleNamespace(
                stack=types.SimpleNamespace(lowest=1 << 20),
                TAKES_STRIPES="registers",
                call=lambda *of, into: calls.append((of, into, state.load(88, 8))),
            )
            piece = xxh3_updates.Piece(proof.source, 0, length)
            proof.write(cpu, "3-64", state, piece)
            (((called, *arguments), into, found),) = calls
            expect(
                called == xxh3_states.BOTH[name] and into == "registers" and found == after, True, f"a call: {called}"
            )
            expect(
                shown(arguments)
                == shown(
                    [
                        address(state),
                        address(piece),
                        length,
                        address(proof.secret_source),
                        proof.secret_length,
                        address(state, 96),
                    ]
                ),
                True,
                "arguments",
            )


def proved_resets(_):
    """Tests that each field of a state is required after a reset, and the secret: the given one, or one derived from
    the seed."""
    for algorithm in (xxh3_states.CallersSecret, xxh3_states.OwnSecret):
        for number, (name, seed, *facts) in enumerate(algorithm(processors.new_processor()).resets()):
            fields = [*range(0, 96, 8), 544, 568] + (
                [560] if algorithm is xxh3_states.CallersSecret else [352, 352 + 184]
            )
            has_seed = seed is not None
            for fault in [None, "answer", *fields, *([552] * has_seed)][:: 1 if number % 2 else 3]:
                proof = algorithm(processors.new_processor())
                word = symbol("seed64", 64) if seed == "seed" else seed

                def run(live, called, parts, place, *arguments, not_zero=()):
                    (state, at), at_of = place.place(), proof.at
                    expect(
                        live == [state]
                        and at == 0
                        and called == name
                        and parts == []
                        and state.buffer == (0, 0)
                        and state.length == 576,
                        True,
                        "a reset",
                    )
                    expect(
                        {cell[0] for cell in state.cells.values()} == {8} and len(state.cells) == 72,
                        True,
                        "memory with any content",
                    )
                    is_given = name.startswith("twox_c")
                    expected = [address(proof.secret_source), proof.secret_length, symbol("address", 64)] * is_given + [
                        word
                    ] * name.lower().endswith("seed")
                    expect(shown(arguments) == shown(expected), True, f"arguments of {name}: {arguments}")
                    fields_of = [
                        *((8 * i, proof.after(0)(i)) for i in range(8)),
                        (64, 0),
                        (72, 0),
                        (80, 0),
                        (88, 0),
                        *proof.own(),
                    ]
                    own = proof.secret if is_given else proof.texts["derived_secret"](word)
                    if algorithm is xxh3_states.OwnSecret:
                        fields_of += [(at_of.secret + k, proof.texts["word64"](own, k)) for k in range(0, 192, 8)]
                    for where, x in fields_of:
                        state.store(where, 8, x)
                    if isinstance(fault, int):
                        state.store(fault, 8, symbol("another", 64))
                    return (1 if fault == "answer" else 0), 0

                with patched(proof, "run", run):
                    ask = lambda: proof.reset(name, seed, *facts)
                    refuses(ask, f"{name} with another {fault}", REFUSALS) if fault is not None else ask()
                expect(proof.has_seed, int(has_seed), "a state with a seed")


ALL = [
    proved_lengths,
    assumed_lengths,
    short_lengths,
    cases_with_loops,
    cases_of_plain_hashes,
    cases_of_xxh3,
    turns_of_cases,
    plain_states,
    plain_steps,
    plain_resets,
    plain_digests,
    plain_families,
    concrete_points,
    known_points,
    missing_updates,
    missing_digests,
    missing_lengths,
    missing_places,
    missing_places_of_v4,
    parts_of_completeness,
    read_sources,
    asked_functions,
    shared_code,
    called_tasks,
    states_of_c,
    writes_of_chunks,
    proved_resets,
]
