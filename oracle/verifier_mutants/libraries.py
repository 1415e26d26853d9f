"""Tests how exports are called for one-shots and streams of C's library and of the cargo crate, and what a refusal of
the crate must return. Each takes a random generator, which it doesn't use, and raises Wrong."""
import itertools
import types
import unittest.mock
from typing import Any, Iterable

from oracle.machine_code import any_secret, cargo, cargo_calls, long_seeds, one_shots, streams
from oracle.machine_code.memory import WordMemory
from oracle.machine_code.values import address, low
from oracle.symbolic_terms import (
    LONGEST,
    REFUSALS,
    Input,
    Poly,
    Request,
    is_natural,
    is_same_number,
    minus,
    nodes,
    plus,
    polynomials,
    symbol,
    times,
    value_at,
    variable,
)

from . import processors
from .exported import Model, sizes
from .values import expect, refuses

patched = unittest.mock.patch.object


def library(answer=(0, 0), of=streams.ForC):
    cpu = Model(lambda *_: answer)
    cpu.library = of
    return cpu


def shown(arguments: Iterable) -> list:
    """Returns arguments as text: an address as its object's name and offset."""
    return [repr(x) if not isinstance(x, tuple) else (repr(x[0]), x[1]) for x in arguments]


def one_shots_of_c(_):
    """Tests the name, the arguments and the result of each one-shot of C's library."""
    X, Y = symbol("x64", 64), symbol("y64", 64)
    names = {"32": "XXH32", "64": "XXH64", "3-64": "XXH3_64bits", "3-128": "XXH3_128bits"}
    ways = {"default": "", "seed": "_withSeed", "secret": "_withSecret", "both": "_withSecretandSeed"}
    for hash_name, proof_class in [("32", "seed"), ("64", "seed"), *itertools.product(("3-64", "3-128"), ways)]:
        for seed, length in ((None, 300), (None, 7), (5, 300)):
            size = 136 if proof_class in ("secret", "both") else None
            request, cpu = Request(hash_name, proof_class, length, size, seed), library((X, Y))
            name = names[hash_name] + (ways[proof_class] if "-" in hash_name else "")
            expect(one_shots.name_of(hash_name, proof_class) == name, True, "the name of a one-shot")
            found = one_shots.of_text(cpu, request)
            ((called, arguments),) = cpu.calls
            given_seed = (
                [symbol("seed32", 32) if hash_name == "32" else symbol("seed64", 64)] if seed is None else [seed]
            )
            of_seed = (
                [(given_seed[0], 32) if hash_name == "32" else given_seed[0]] if proof_class in ("seed", "both") else []
            )
            expected = [address(request.message), length, *([address(request.secret), 136] if size else []), *of_seed]
            expect(called == name and shown(arguments) == shown(expected), True, f"the call {called} {arguments}")
            value = {"32": low(X, 32), "3-128": one_shots.joined((X, 64), (Y, 64))}.get(hash_name, X)
            expect(found is value, True, "the value of a hash")
            has_twin = "-" in hash_name and proof_class == "seed" and length > 240 and seed is None
            expect(cpu.not_zero == (given_seed if has_twin else []), True, f"nonzero seeds of {request}")
    expect([one_shots.is_plain(name) for name in names] == [True, True, False, False], True, "plain hashes")
    expect(
        one_shots.of_seed(Request("64", "seed", 3, seed=9)) == [9]
        and one_shots.of_seed(Request("3-64", "default", 3)) == [],
        True,
        "seeds",
    )


def streams_of_c(_):
    """Tests the names and arguments of calls of streams, for a secret of the stream and one of the caller."""
    state: Any
    X = symbol("x64", 64)

    def called(ask, answer=(0, 0)):
        cpu = library(answer)
        ask(cpu)
        ((name, arguments),) = cpu.calls
        return name, shown(arguments)

    names = {"32": "XXH32", "64": "XXH64", "3-64": "XXH3_64bits", "3-128": "XXH3_128bits"}
    for hash_name, name in names.items():
        is_plain, state, piece = "-" not in hash_name, WordMemory("state", 600, [(0, 8, 1)]), Input("m", 9)
        own = name if is_plain else f"proved_{name}"
        expect(
            streams.proved(hash_name) == own
            and streams.state_name(hash_name) == own.split("_")[-1 if is_plain else 1].removeprefix("XXH")
            if is_plain
            else streams.state_name(hash_name) == "3",
            True,
            "a stream's names",
        )
        for proof_class in ("seed",) if is_plain else ("default", "seed"):
            request = Request(hash_name, proof_class, 9)
            end = "_reset" + ("_withSeed" if proof_class == "seed" and not is_plain else "")
            seed = shown(one_shots.of_seed(request))
            expect(
                called(lambda cpu: streams.reset(cpu, request, state)) == (own + end, ["1*state + 0", *seed]),
                True,
                "a reset",
            )
            expect(state.secret is None, True, "no secret of the caller")
        for chunk, values in ((piece, ["1*m + 0", "9"]), (None, ["0", "0"])):
            found = called(lambda cpu: streams.update(cpu, hash_name, state, chunk))
            expect(found == (own + "_update", ["1*state + 0", *values]), True, "an update")
        expect(
            called(lambda cpu: streams.ForC.digest(cpu, hash_name, state)) == (own + "_digest", ["1*state + 0"]),
            True,
            "a digest",
        )
        if not is_plain:
            of_secrets(hash_name, state, piece, called)
    for code, is_right in ((0, True), (1, False), (1 << 32, True), (X, False)):
        for ask in (
            lambda cpu: streams.ForC.reset(cpu, Request("64", "seed", 9), state),
            lambda cpu: streams.ForC.update(cpu, "64", state, piece),
        ):
            if is_right:
                ask(library((code, 0)))
            else:
                refuses(lambda: ask(library((code, 0))), f"the answer {code}", REFUSALS)
    expect(streams.ForC.has(None) is True, True, "each call")
    expect(streams.ForC.SIZES == sizes(), True, "bytes of states")


def of_secrets(hash_name, state, piece, called):
    """Tests the calls of a stream with a secret: 192 bytes are the stream's own, others stay the caller's."""
    for proof_class, size in itertools.product(("secret", "both"), (136, 191, 192, 193)):
        request = Request(hash_name, proof_class, 9, size)
        name, arguments = called(lambda cpu: streams.reset(cpu, request, state))
        expect(
            name == "twox_c_reset_xxh3_secret" + ("_and_seed" if proof_class == "both" else ""),
            True,
            "a reset with a secret",
        )
        expect(
            arguments[:3] == ["1*state + 0", "1*s + 0", repr(size)] and len(arguments) == 4 + (proof_class == "both"),
            True,
            "arguments of a reset",
        )
        expect(state.secret is (None if size == 192 else request.secret), True, "a secret of the caller")
    state.secret = Input("s", 200)
    for chunk, values in ((piece, ["1*m + 0", "9"]), (None, ["0", "0"])):
        found = called(lambda cpu: streams.update(cpu, hash_name, state, chunk))
        expect(
            found == ("twox_c_update_xxh3", ["1*state + 0", *values, "1*s + 0", "200"]), True, "an update with a secret"
        )
    found = called(lambda cpu: streams.ForC.digest(cpu, hash_name, state))
    expect(
        found == (f"twox_c_digest_{hash_name[2:]}", ["1*state + 0", "1*s + 0", "200"]), True, "a digest with a secret"
    )
    state.secret = None


def states_of_streams(_):
    """Tests a state's memory, and that a changed byte or word of it is detected."""
    X = symbol("x64", 64)
    for name, size, alignment in (("32", 48, 4), ("64", 88, 8), ("3-64", 576, 8), ("3-128", 576, 8)):
        state = streams.new_state(library(), name)
        expect(
            (state.length, state.alignment, len(state.cells)) == (size, alignment, size // 8),
            True,
            f"a state of {name}",
        )
        before = streams.contents(state)
        expect(
            len(before) == size // 8 and all(isinstance(x, nodes.Node) and x.width == 64 for x in before),
            True,
            "contents",
        )
        for width in (1, 4, 8):
            values = streams.contents(state, width)
            streams.expect_same("nothing", values, state, width)
            for at in (0, size - 8):
                old = state.load(at, 8)
                state.store(at, 8, symbol("another", 64))
                refuses(lambda: streams.expect_same("a change", values, state, width), "a changed state", REFUSALS)
                state.store(at, 8, old)
    other = types.SimpleNamespace(SIZES={"32": 56})
    expect(streams.new_state(library(), "32", other).length, 56, "bytes of another library's state")
    n, memory = variable("n"), WordMemory("state", 16, [(0, 8, variable("n")), (8, 8, 5)])
    streams.expect_same("a number", [plus(n, 0), 5], memory)
    for values in ([plus(n, 1), 5], [n, 6]):
        refuses(lambda: streams.expect_same("a number", values, memory), "another number", REFUSALS)
    refuses(lambda: streams.expect_same("a number", [n], memory), "fewer words", ValueError)
    for answer, code, is_right in (
        (0, 0, True),
        (1 << 32, 0, True),
        (1, 0, False),
        (1, 1, True),
        (0, 1, False),
        (X, 0, False),
    ):
        if is_right:
            streams.expect_answer((answer, 7), code)
        else:
            refuses(lambda: streams.expect_answer((answer, 7), code), f"the answer {answer}", REFUSALS)


def digests_of_streams(_):
    """Tests that a stream is a reset, updates that end at the cuts and at the end, and a digest that changes
    nothing."""
    cuts: Any
    ends: Any
    X = symbol("x64", 64)

    def run(cuts, fault=None, length=300):
        done: Any
        done, request = [], Request("3-64", "seed", length, cuts=cuts)

        class Library:
            SIZES = sizes()

            @staticmethod
            def reset(_, asked, state):
                done.append(("reset", asked is request, state.length))

            @staticmethod
            def update(_, hash_name, state, piece):
                done.append((hash_name, piece.whole is request.message, piece.first, piece.length))

            @staticmethod
            def digest(_, hash_name, state):
                if fault:
                    state.store(8, 8, 5)
                return X

        cpu = library(of=Library)
        expect(streams.of_text(cpu, request) is X, True, "a digest")
        expect(cpu.not_zero == [symbol("seed64", 64)], True, "a nonzero seed")
        return done

    for cuts in ([], [40], [40, 40, 299], [0, 300]):
        ends = [*cuts, 300]
        pieces = [("3-64", True, at, end - at) for at, end in zip([0, *ends], ends)]
        expect(run(cuts) == [("reset", True, 576), *pieces], True, f"the chunks of {cuts}")
    refuses(lambda: run([], True), "a digest that changes the state", REFUSALS)


def values_of_cargo(_):
    """Tests the codes and values of calls of the crate: a refusal has no value, and writes none."""
    X, Y = symbol("x64", 64), symbol("y64", 64)
    for name in ("3-64", "3-128"):
        for code, store, value in (
            (0, (X, Y), "hash"),
            (1, (), 0),
            (3, (), 0),
            (0, (), "before"),
            (1, (X,), None),
            (1, (None, Y), None),
        ):

            def answer(cpu, called, *arguments):
                expect(called == "f" and arguments[:2] == (7, 8), True, "a call's name and arguments")
                if name == "3-64":
                    expect(len(arguments), 2, "arguments")
                    return code | 5 << 32, X
                memory, at = arguments[2].place()
                expect(
                    at == 0 and memory.length == 16 and memory.alignment == 8 and cpu.live[-1] is memory,
                    True,
                    "a value's memory",
                )
                for k, x in enumerate(store):
                    if x is not None:
                        memory.store(8 * k, 8, x)
                return code | 5 << 32, 9

            other = WordMemory("other", 8)
            cpu = Model(answer)
            cpu.live = [other]
            if name == "3-128" and value is None:
                refuses(lambda: cargo.call_into(cpu, name, "f", 7, 8), "a refusal that writes a value", REFUSALS)
            else:
                found = cargo.call_into(cpu, name, "f", 7, 8)
                expect(found[0], code, "the code of a call")
                if name == "3-64" or value == "hash":
                    expect(
                        found[1] is (X if name == "3-64" else one_shots.joined((X, 64), (Y, 64))),
                        True,
                        "the value of a call",
                    )
                elif value == 0:
                    expect(found[1], 0, "the value of a refusal")
            expect(cpu.live == [other], True, "the objects after a call")
    for code, expected, is_right in ((0, 0, True), (1, 0, False), (X, 0, False), (2, 2, True)):
        if is_right:
            cargo.expect_code("f", code, expected)
        else:
            refuses(lambda: cargo.expect_code("f", code, expected), "another code", REFUSALS)


def library_of_cargo(_):
    """Tests which requests the crate's sources have, and the arguments of their calls."""
    state: Any
    X = symbol("x64", 64)
    for proof_class, length, cuts, holds in (
        ("secret", 241, None, True),
        ("secret", 240, None, False),
        ("secret", 300, [], False),
        ("both", 300, None, False),
        ("default", 300, None, False),
        ("seed", 300, None, False),
    ):
        expect(
            cargo.ForCargo.has(Request("3-64", proof_class, length, 136, cuts=cuts)),
            holds,
            f"a call of {length} bytes, {proof_class}, {cuts}",
        )
    expect(cargo.ForCargo.SIZES == {"32": 48, "3": 608}, True, "bytes of states")
    expect(
        [cargo.write_of(name) for name in ("32", "3-64", "3-128")] == ["xxh32_write", "xxh3_write", "xxh3_write"],
        True,
        "names",
    )
    expect(
        [cargo.export_name(name) for name in ("32", "3-64", "3-128")] == ["xxh32", "xxh3_64", "xxh3_128"], True, "names"
    )
    for size, code, is_right in (
        (136, 0, True),
        (136, 1, False),
        (135, 1, True),
        (135, 0, False),
        (variable("n"), 0, True),
        (variable("n"), 1, False),
    ):
        cpu = Model(
            lambda cpu, name, *arguments: (code, 0 if code else X)
            if (name, *arguments) == ("xxh3_64_long", 1, 2, 3, size)
            else (9, 9)
        )
        if is_right:
            found = cargo.ForCargo.one_shot(cpu, "3-64", "secret", 1, 2, 3, size)
            expect(found is X if not code else found == 0, True, "a hash")
        else:
            refuses(
                lambda: cargo.ForCargo.one_shot(cpu, "3-64", "secret", 1, 2, 3, size),
                f"the code {code} of {size} bytes",
                REFUSALS,
            )
    refuses(lambda: cargo.ForCargo.one_shot(Model(), "3-64", "both", 1, 2, 3, 136), "another call", REFUSALS)
    state, piece = WordMemory("state", 608, [(0, 8, 1)]), Input("m", 9)
    state.secret = Input("s", 200)
    for hash_name, chunk, name, values in (
        ("32", piece, "xxh32_write", ["1*m + 0", "9"]),
        ("3-64", piece, "xxh3_write", ["1*s + 0", "200", "1*m + 0", "9"]),
        ("3-128", None, "xxh3_write", ["1*s + 0", "200", "0", "0"]),
    ):
        cpu = Model(lambda *_: (0, 0))
        cargo.ForCargo.update(cpu, hash_name, state, chunk)
        expect((cpu.calls[0][0], shown(cpu.calls[0][1])) == (name, ["1*state + 0", *values]), True, "a write")
        refuses(
            lambda: cargo.ForCargo.update(Model(lambda *_: (1, 0)), hash_name, state, chunk),
            "a refused write",
            REFUSALS,
        )


def interfaces(_):
    """Tests that the number of the interface is that of all names."""
    cpu: Any
    names: Any
    whole: Any
    for names, code, is_right in (
        (("twox_rust_7_f", "g"), 7, True),
        (("twox_rust_7_f", "twox_rust_7_g"), 7 | 1 << 40, True),
        (("twox_rust_7_f",), 8, False),
        (("twox_rust_7_f", "twox_rust_8_g"), 7, None),
        ((), 7, None),
        (("a_twox_rust_7_f", "twox_rust_f"), 7, None),
    ):
        cpu = Model(lambda cpu, name: (code, 0) if name == "interface" else (9, 0))
        cpu.program = types.SimpleNamespace(all_names=lambda: {*names})
        if is_right:
            expect(cargo_calls.interface(cpu), 1, "interfaces")
        else:
            refuses(lambda: cargo_calls.interface(cpu), f"the interface {code} of {names}", (*REFUSALS, TypeError))
    whole = types.SimpleNamespace(
        object=types.SimpleNamespace(symbols=[types.SimpleNamespace(name=name) for name in "aba"])
    )
    expect(cargo.OfCargo.all_names(whole) == {"a", "b"}, True, "all names of a source")


def range_of(x: int | Poly) -> tuple[int, int]:
    """Returns the least and the greatest value of a number under the facts: a sum of a variable and a number."""
    if isinstance(x, int):
        return x, x
    (name,) = polynomials.names_of(x)
    tops = [value_at(fact, {name: 0}) for fact in polynomials.facts if polynomials.names_of(fact) == {name}]
    return value_at(x, {name: polynomials.least.get(name, 0)}), value_at(x, {name: min(tops)})


def refused_inputs(_):
    """Tests that inputs of each length and secrets of each length are refused with their code and the value 0."""
    for ask, count, spans, own, code in (
        (cargo_calls.few_bytes, 8, [(0, 240), (0, 0)], [(0, LONGEST), (0, 0)], 3),
        (cargo_calls.secrets_of_long_inputs, 4, [(241, LONGEST)], [(0, 135), (0, 0)], 1),
    ):
        for fault in (None, 1, count, ("value", 1), ("value", count)):
            seen = []

            def call_into(cpu, hash_name, name, message, n, secret, size):
                seen.append(
                    (hash_name, message == 0 if isinstance(message, int) else False, range_of(n), range_of(size))
                )
                expect(
                    name == {"3-64": "xxh3_64_long", "3-128": "xxh3_128_long"}[hash_name], True, "the name of an export"
                )
                for place, length, title in ((message, n, "m"), (secret, size, "s")):
                    expect(
                        place == length == 0
                        if isinstance(place, int)
                        else place.place()[0].length is length and place.place()[0].name == title,
                        True,
                        "an address and a length",
                    )
                return code + (fault == len(seen)), int(fault == ("value", len(seen)))

            with patched(cargo_calls, "call_into", call_into):
                if fault:
                    refuses(lambda: ask(Model()), f"refused inputs with the fault {fault}", REFUSALS)
                else:
                    expect(ask(Model()), count, "refused inputs")
                    expected = itertools.product(("3-64", "3-128"), spans, own)
                    expect(
                        sorted((one[0], *one[2:]) for one in seen) == sorted(expected), True, f"refused inputs: {seen}"
                    )


def refused_writes(_):
    """Tests that a refused write returns its code for each length, and changes nothing."""
    for hash_name, size, secret in (("32", 48, ()), ("3-64", 608, (address(Input("s", 200)), 200))):
        for waiting in (0, 500, 512, 600):
            for fault in (None, ("code", 1), ("store", 1), ("code", 3), ("store", 4)):
                seen, state = [], WordMemory(
                    "state", size, [(at, 8, symbol(f"s{at}", 64)) for at in range(0, size, 8)], alignment=8
                )

                def answer(cpu, name, place, *arguments):
                    expect(
                        name == ("xxh32_write" if hash_name == "32" else "xxh3_write") and place.place() == (state, 0),
                        True,
                        "a write",
                    )
                    expect(
                        arguments[: len(secret)] == secret and len(arguments) == len(secret) + 2,
                        True,
                        "arguments of a write",
                    )
                    piece, n = arguments[-2:]
                    seen.append((piece == 0 if isinstance(piece, int) else False, range_of(n)))
                    expect(piece == n == 0 if isinstance(piece, int) else piece.place()[0].length is n, True, "a chunk")
                    if fault == ("store", len(seen)):
                        state.store(size - 8, 8, 5)
                    return 2 + (fault == ("code", len(seen))) | 1 << 32, 0

                ask = lambda: cargo_calls.refused(Model(answer), hash_name, state, 2, secret, waiting)
                if fault and fault[1] <= 3 + (0 < waiting <= 512):
                    refuses(ask, f"a refused write with the fault {fault}", REFUSALS)
                elif not fault:
                    ask()
                    expect(sum(is_null for is_null, _ in seen), 1, "null chunks")
                    split = [(0, 512 - waiting), (max(0, 513 - waiting), 64)] if 0 < waiting <= 512 else [(0, 64)]
                    found = [span for is_null, span in seen if not is_null]
                    expect(
                        found[-1] == (65, LONGEST) and len(found) == len(split) + 1, True, f"lengths of chunks: {found}"
                    )


def refused_streams(_):
    """Tests which streams of the crate must be refused, with which code."""

    def run(ask, of_states):
        seen = []

        def refused(cpu, hash_name, state, code, secret=(), waiting=0):
            of_states(seen, hash_name, state, code, secret, waiting)

        with patched(cargo_calls, "refused", refused):
            count = ask(Model(SIZES={"32": 48, "3": 608}))
        expect(count, len(seen), "refused streams")
        return seen

    first = 0x32335858
    found = run(
        cargo_calls.without_mark,
        lambda seen, name, state, code, secret, waiting: seen.append(
            (name, state.length, code, secret, range_of(state.load(12, 4)))
        ),
    )
    expect(len(found) == 5 and {one[:4] for one in found} == {("32", 48, 2, ())}, True, "streams without a mark")
    spans = sorted(one[4] for one in found)
    for word in (
        0,
        first - 1,
        first,
        first + 15,
        first + 16,
        (1 << 31) - 1,
        1 << 31,
        (1 << 32) - 1,
        (1 << 31) + first,
        (1 << 31) + first - 1,
    ):
        expect(
            any(low_end <= word <= end for low_end, end in spans), not first <= word < first + 16, f"the mark {word:#x}"
        )
    found = run(
        cargo_calls.secrets_of_streams,
        lambda seen, name, state, code, secret, waiting: seen.append(
            (name, state.length, code, isinstance(secret[0], int), range_of(secret[1]), waiting)
        ),
    )
    expect(
        found == [("3-64", 608, 1, False, (0, 135), 0), ("3-64", 608, 1, True, (0, 0), 0)],
        True,
        f"secrets of streams: {found}",
    )

    def of_fields(seen, name, state, code, secret, waiting):
        expect(
            (name, state.length, code) == ("3-64", 608, 2) and secret[0].place()[0].length is secret[1],
            True,
            "a stream out of range",
        )
        expect(is_natural(minus(secret[1], 136)), True, "a secret that isn't too short")
        found = state.load(80, 8)
        expect(is_same_number(found, waiting), True, "the buffered bytes")
        seen.append(
            tuple(
                repr(state.load(at, 8)) if not isinstance(state.load(at, 8), nodes.Node) else None
                for at in (64, 80, 88)
            )
        )

    found = run(cargo_calls.out_of_range, of_fields)
    expect(len(found) == len({*found}) == 7, True, f"streams out of range: {found}")


def any_secrets(_):
    """Tests the length, the parts and the arguments of one-shots with any secret, and that another value is refused."""
    proof: Any
    X, Y = symbol("x64", 64), symbol("y64", 64)
    proof = any_secret.AnySecret(processors.new_processor())
    q, B, J, t = (variable(name) for name in "qBJt")
    for case in proof.cases():
        expect(
            is_same_number(proof.length(case), plus(times(64, plus(times(q, case.blocks), case.more)), case.rest, 1)),
            True,
            "a length",
        )
    asked = [(ask.args[1:], repr(ask.args[0])) for ask in proof.queries("secret", "64")]
    expect(asked == [(("secret", "64"), repr(case)) for case in proof.cases()], True, "queries")
    for way, width, fault in itertools.product(("secret", "both"), ("64", "128"), (False, True)):
        case, calls = any_secret.Case(B, J, t, [minus(63, t), minus(minus(q, 1), J)]), []

        def run(live, ask, parts, *arguments, summaries):
            calls.append((ask.args[1:], arguments, parts, summaries))
            return Y if fault else X

        proof.run = run
        seed = [symbol("seed64", 64)] * (way == "both")
        with patched(
            proof,
            "texts",
            {f"xxh3_{width}": lambda *of: X if of == (seed[0] if seed else 0, proof.secret, proof.message) else Y},
        ):
            ask = lambda: proof.show(case, way, width)
            refuses(ask, "another value", REFUSALS) if fault else ask()
        ((of, arguments, parts, summaries),) = calls
        expect(of == (f"3-{width}", way) and summaries == [any_secret.TAKE], True, "a one-shot")
        expect(
            shown(arguments)
            == shown(
                [address(proof.source), proof.length(case), address(proof.secret_source), proof.secret_length, *seed]
            ),
            True,
            "arguments of a one-shot",
        )
        expect(is_same_number(proof.source.length, proof.length(case)), True, "the message's length")
        expect(
            repr(parts) == repr([any_secret.Part((0, 0), times(q, B), (B, 0)), any_secret.Part((B, 0), J, (B, J))]),
            True,
            "parts",
        )


def bounds_of_secrets(_):
    """Tests the facts of the cases of any secret at the ends of their ranges."""
    proof = any_secret.AnySecret(processors.new_processor())
    for B, J, t in ((0, 0, 0), (3, 2, 63), (1, 8, 5)):
        for q in (9, 17, 100):
            point = {"q": q, "B": B, "J": J, "t": t}
            n = 64 * (q * B + J) + t + 1
            expect(
                value_at(proof.near(variable("B"), variable("J")), point),
                31_743 - n,
                "below the longest one of near inputs",
            )
            first, second = proof.far(variable("B"), variable("J"))
            expect(
                (value_at(first, point), value_at(second, point)) == (n - 31_744, q * B + J - 495),
                True,
                "from the first far input on",
            )


def long_seeds_of_secrets(_):
    """Tests that each byte of a secret from a long seed is required."""
    X = symbol("x64", 64)
    proof = long_seeds.LongSeeds(processors.new_processor())
    for fault in (None, 0, 136, "code"):
        asked = []

        def call(name, place, size, source, length):
            memory, at = place.place()
            asked.append(
                (
                    name,
                    at,
                    memory.length,
                    memory.alignment,
                    size,
                    source.place()[0].length is length,
                    [x is memory for x in proof.cpu.live],
                )
            )
            for k in range(137):
                memory.store(k, 1, k ^ (fault == k))
            return fault == "code", 0

        def proved(ask, case, stripe, count, after):
            expect(
                (stripe, count, is_same_number(case.length, plus(times(1024, variable("turns")), variable("t"), 1)))
                == (64, 8, True),
                True,
                "a proof",
            )
            expect(after(5)(3) == ("default", "m", 3, 5), True, "the definition's words")
            return ask()

        texts = {
            "default_secret": lambda: "default",
            "generated_secret": lambda message, size: range(size),
            "Long.accumulator_after": lambda secret, message, i, k: (secret, message.source.name, i, k),
        }
        with patched(proof, "texts", texts), patched(proof, "proved", proved), patched(proof.cpu, "call", call):
            proof.cpu.not_zero = [X]
            refuses(
                lambda: proof.show(137), f"a secret with the fault {fault}", REFUSALS
            ) if fault is not None else proof.show(137)
            expect(proof.cpu.not_zero == [], True, "terms that are assumed to be nonzero")
        expect(asked == [("proved_XXH3_generateSecret", 0, 137, 1, 137, True, [True])], True, f"a call: {asked}")
    shown_sizes = []
    with patched(long_seeds.LongSeeds, "show", lambda self, size: shown_sizes.append(size)):
        expect(
            long_seeds.generated_secrets(processors.new_processor(), (137, 200)) == 2 and shown_sizes == [137, 200],
            True,
            "secrets",
        )


ALL = [
    one_shots_of_c,
    streams_of_c,
    states_of_streams,
    digests_of_streams,
    values_of_cargo,
    library_of_cargo,
    interfaces,
    refused_inputs,
    refused_writes,
    refused_streams,
    any_secrets,
    bounds_of_secrets,
    long_seeds_of_secrets,
]
