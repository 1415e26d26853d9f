"""Tests of the definition's side: bytes of an input, assumed values, requests and their comparison, and the processes
that run tasks. Each takes a random generator and raises Wrong."""
import contextlib
import io
import itertools
import resource
import types
import unittest.mock
from typing import Any

from oracle import antt
from oracle.symbolic_terms import (
    REFUSALS,
    Bytes,
    Input,
    NotShown,
    Request,
    WrongRule,
    at_most,
    comparison,
    definition,
    given,
    is_same,
    is_same_number,
    minus,
    nodes,
    operations,
    plus,
    processes,
    requests,
    symbol,
    times,
    variable,
)
from oracle.symbolic_terms.definition import Suppositions
from oracle.symbolic_terms.processes import Task

from .values import expect, refuses, value_of

patched = unittest.mock.patch.object


def bytes_of_inputs(_):
    """Tests bytes, slices and words of a part of an input, of a known length or of any."""
    n, source = variable("n"), Input("m", 1000)
    whole = Bytes(source, 10, 20)
    expect(
        whole.length() == len(whole) == 10 == definition.length(whole) and definition.length((1, 2)) == 2,
        True,
        "a length",
    )
    expect([x is source.load(10 + k, 1) for k, x in enumerate(whole)] == [True] * 10, True, "bytes")
    for at, holds in ((0, True), (9, True), (10, False), (-1, False)):
        if holds:
            expect(whole[at] is source.load(10 + at, 1), True, "a byte")
        else:
            refuses(lambda: whole[at], f"the byte {at}", IndexError)
    for part, first, end in (
        (whole[2:5], 12, 15),
        (whole[:5], 10, 15),
        (whole[5:], 15, 20),
        (whole[:], 10, 20),
        (whole[12:], 20, 20),
        (whole[:12], 10, 20),
        (whole[5:3], 15, 15),
        (whole[3:3], 13, 13),
        (whole[0:10], 10, 20),
        (whole[12:15], 20, 20),
    ):
        expect(
            (part.source, part.first, part.end) == (source, first, end),
            True,
            f"a part from {first} to {end}: {part.first} {part.end}",
        )
    for at in (symbol("x64", 64), "a"):
        refuses(lambda: whole.place(at), "a place that is no number")
        refuses(lambda: whole[at:], "a part that begins at no number")
    long = Input("long", plus(n, 100))
    with given(minus(n, 1), at_most(n, 50)):
        part = Bytes(long, 5, plus(n, 100))
        expect(
            is_same_number(part.length(), plus(n, 95))
            and part[n] is long.load(plus(n, 5), 1)
            and part[0] is long.load(5, 1),
            True,
            "bytes of any length",
        )
        some = part[plus(n, 3) : plus(n, 9)]
        expect(
            is_same_number(some.first, plus(n, 8)) and is_same_number(some.end, plus(n, 14)),
            True,
            "a part of any length",
        )
        refuses(lambda: part[plus(n, 95)], "a byte behind the end", REFUSALS)
        expect(is_same_number(part[n : plus(n, 200)].end, plus(n, 100)), True, "the end of a part")
        for bits, part_of, first, size in (
            (32, whole, 10, 4),
            (64, whole, 10, 8),
            (64, whole[5:], 15, 5),
            (64, whole[8:], 18, 2),
            (32, part[n:], plus(n, 5), 4),
            (16, whole[:1], 10, 1),
        ):
            expect(
                is_same(definition.from_le_bytes(bits, part_of), part_of.source.load(first, size)),
                True,
                f"a word of {bits} bits",
            )
    expect(
        definition.from_le_bytes(32, (1, 2, 3, 4)) == 0x04030201 and definition.from_le_bytes(32, (1, 2)) == 0x201,
        True,
        "a word of numbers",
    )
    expect(definition.from_le_bytes(64, whole[10:]), 0, "a word of no bytes")
    definition.compared.clear()


def values_of_inputs(_):
    """Tests words of an input's bytes, which are compared with those of single bytes."""
    source = Input("m", 1000)
    whole = Bytes(source, 10, 20)
    right = definition.word_of_bytes
    with patched(definition, "word_of_bytes", lambda bits, xs: operations.xor(right(bits, xs), 1)):
        refuses(lambda: definition.from_le_bytes(48, whole), "another word than of its bytes", WrongRule)
    definition.compared.clear()
    for part_of in (whole, whole, whole[1:]):
        definition.from_le_bytes(24, part_of)
    expect(definition.compared == {(24, 3)}, True, "words that are compared")


def naturals(_):
    """Tests differences, least numbers and elements of the definition's lists, for numbers and terms."""
    n, x = variable("n"), symbol("x64", 64)
    with given(minus(n, 5), at_most(n, 100)):
        for a, b, expected in (
            (3, 5, 0),
            (5, 3, 2),
            (n, 5, minus(n, 5)),
            (n, 200, 0),
            (200, n, minus(200, n)),
            (n, n, 0),
            (4, n, 0),
        ):
            expect(is_same_number(antt.OPERATORS["-"](a, b), expected), True, f"{a} - {b}")
        refuses(lambda: antt.OPERATORS["-"](n, 50), "an undecided difference")
        for a, b, expected in ((3, 5, 3), (n, 4, 4), (n, 200, n), (200, n, n), (4, n, 4), (n, n, n), (5, 3, 3)):
            expect(is_same_number(definition.least(a, b), expected), True, f"the least of {a} and {b}")
        for a, b, value in (
            (1 << 64, x, (1 << 64) - x.values[0]),
            (x, 5, max(0, x.values[0] - 5)),
            (x, n, max(0, x.values[0] - symbol("n", 64).values[0])),
            (n, x, max(0, symbol("n", 64).values[0] - x.values[0])),
        ):
            expect(value_of(definition.subtract(a, b)), value, f"{a} - {b}")
    at = antt.LIBRARY["slice_index"][1]
    source = Input("m", 9)
    expect(
        [at((4, 5), 0), at((4, 5), 1), at((4, 5), 2)] == [4, 5, 0]
        and at(Bytes(source, 3, 5), 1) is source.load(4, 1)
        and at(Bytes(source, 3, 5), 2) == 0,
        True,
        "elements",
    )


def assumed_values(_):
    """Tests that only a recursion's call with a polynomial has an assumed value: the one that was supposed for it."""
    calls: Any
    n, x, y = variable("n"), symbol("x64", 64), symbol("y64", 64)
    known, calls = Suppositions(), []
    function = known.around(
        lambda *arguments: calls.append(arguments) or ("computed", *map(repr, arguments)), "a recursion"
    )
    other = known.around(lambda *arguments: "other", "another recursion")
    expect((known.values, known.next, known.alive, known.depth) == ({}, [], [], 0), True, "no assumed values")
    known.suppose(lambda i: function(i, n), [x, y])
    expect(function(0, n) is x and function(1, plus(n, 0)) is y and calls == [], True, "assumed values")
    for arguments in ((2, n), (0, plus(n, 1)), (0, 5), (n, 0)):
        expect(function(*arguments) == ("computed", *map(repr, arguments)), True, f"the value of {arguments}")
    expect(other(0, n) == "other" and other(n) == "other", True, "a value of another recursion")
    for what, call, values in (
        ("no recursion", lambda i: 5, [x]),
        ("two calls", lambda i: function(i, times(n, 3)) and function(i, times(n, 3)) and 5, [x]),
        ("another value", lambda i: (function(i, times(n, 5)), y)[1], [x]),
        ("no call", lambda i: x, [x]),
    ):
        refuses(lambda: known.suppose(call, values), f"a hypothesis with {what}")
        known.next.clear()
    known.clear()
    expect(
        known.values == {} and known.next == [] and known.alive == [] and function(0, n)[0] == "computed",
        True,
        "no assumed values",
    )
    depths = []

    def deep(k, arguments):
        depths.append(known.depth)
        return recursion(k - 1, n) if k else "end"

    recursion = known.around(deep, "a deep recursion")
    expect(
        recursion(definition.FARTHEST - 1, n) == "end"
        and depths == [*range(1, definition.FARTHEST + 1)]
        and known.depth == 0,
        True,
        "nested calls",
    )
    refuses(lambda: recursion(definition.FARTHEST, n), "a recursion without a hypothesis")
    expect(known.depth, 0, "nested calls after a refusal")


def keys_of_arguments(_):
    """Tests which arguments are the same in two calls."""
    n, known = variable("n"), Suppositions()

    def adder(k):
        return lambda a: a + k

    body = adder(1)
    for a, b, is_same_key in (
        (5, 5, True),
        (5, 6, False),
        ("a", "a", True),
        (n, plus(n, 0), True),
        (n, plus(n, 1), False),
        (5, "5", False),
        (antt.Function(1, body), antt.Function(1, body), True),
        (antt.Function(1, adder(1)), antt.Function(1, adder(1)), True),
        (antt.Function(1, adder(1)), antt.Function(1, adder(2)), False),
        (antt.Function(1, body), antt.Function(1, body, (1,)), False),
        (antt.Function(1, body, (1,)), antt.Function(1, body, (1,)), True),
        (antt.Function(1, body, (1,)), antt.Function(1, body, (2,)), False),
        (antt.Function(1, len), antt.Function(1, len), True),
        (antt.Function(1, len), antt.Function(1, max), False),
        ([], [], False),
    ):
        expect(known.identity(a) == known.identity(b), is_same_key, f"{a} as {b}")
    stored = object()
    expect(
        known.identity(stored) == known.identity(stored) and any(x is stored for x in known.alive),
        True,
        "an object that is stored",
    )
    traced, plain = set(), antt.Definition(None, "accumulator_after", [], False)
    function = definition.noted(lambda: 7, plain, traced)
    expect(function() == 7 and traced == {plain}, True, "a function that is noted")
    for name, is_wrapped in (("accumulator_after", True), ("after_units", True), ("accumulator", False)):
        whole = adder(0)
        found = definition.noted(whole, types.SimpleNamespace(name=name), definition.suppositions)
        expect(found is whole, not is_wrapped, f"the function {name}")
        expect(found(5), 5, "a function's value")


def values_of_definitions(_):
    """Tests which definition a request has, and with which arguments."""
    entries = {
        name: (lambda *of, name=name: (name, *of))
        for name in ("xxh32", "xxh64", "xxh3_64", "xxh3_128", "derived_secret", "effective_secret")
    }
    for name, entry in (("32", "xxh32"), ("64", "xxh64")):
        expect(definition.value(entries, name, "seed", 7, None, "m") == (entry, 7, "m"), True, "a plain hash")
    derived = "effective_secret", ("derived_secret", 7), "m"
    for name, variant, expected in (
        ("3-64", "secret", ("xxh3_64", 0, "s", "m")),
        ("3-128", "secret", ("xxh3_128", 0, "s", "m")),
        ("3-64", "seed", ("xxh3_64", 7, derived, "m")),
        ("3-128", "default", ("xxh3_128", 7, derived, "m")),
        ("3-64", "both", ("xxh3_64", 7, ("effective_secret", "s", "m"), "m")),
    ):
        expect(definition.value(entries, name, variant, 7, "s", "m") == expected, True, f"a hash with {variant}")


def asked_requests(_):
    """Tests the parts of a request, its twin with the seed 0, and its points."""
    expect(
        requests.seed_symbol("32") is symbol("seed32", 32)
        and all(requests.seed_symbol(name) is symbol("seed64", 64) for name in ("64", "3-64", "3-128")),
        True,
        "seeds",
    )
    for variant, secret, seed in itertools.product(("default", "seed", "secret", "both"), (None, 136), (None, 0, 9)):
        request = Request("3-64", variant, 300, secret, seed, [64])
        expect(
            (
                request.hash_name,
                request.variant,
                request.length,
                request.secret_length,
                request.fixed_seed,
                request.cuts,
            )
            == ("3-64", variant, 300, secret, seed, [64]),
            True,
            "a request",
        )
        expect((request.message.name, request.message.length) == ("m", 300), True, "a message")
        expect(
            request.secret is None if secret is None else (request.secret.name, request.secret.length) == ("s", 136),
            True,
            "a secret",
        )
        has_seed = variant in ("seed", "both")
        expect(request.has_seed(), has_seed, "a request with a seed")
        expect(
            request.seed() is (symbol("seed64", 64) if seed is None else seed) if has_seed else request.seed() == 0,
            True,
            "the seed of a request",
        )
        twins = request.with_seed_0()
        expect(len(twins), 1 if has_seed and seed is None else 0, "twins")
        for twin in twins:
            expect(
                (twin.hash_name, twin.variant, twin.length, twin.secret_length, twin.fixed_seed, twin.cuts)
                == ("3-64", variant, 300, secret, 0, [64]),
                True,
                "a twin",
            )
        with patched(definition, "value", lambda *of: of):
            entries, name, way, of_seed, own, message = request.of_definition("entries")
            expect(
                (entries, name, way) == ("entries", "3-64", variant) and of_seed is request.seed(),
                True,
                "a definition's arguments",
            )
            expect((message.source, message.first, message.end) == (request.message, 0, 300), True, "a message")
            expect(
                own is None if secret is None else (own.source, own.first, own.end) == (request.secret, 0, 136),
                True,
                "a secret",
            )
        rng = types.SimpleNamespace(randbytes=lambda count: bytes([7]) * count, getrandbits=lambda bits: 1000 + bits)
        points, k = list(request.points(2, rng)), secret or 0
        expected = [
            {"m": bytes([byte]) * 300, "s": bytes([255 - byte]) * k, "seed32": number >> 32, "seed64": number}
            for byte in (0, 255)
            for number in (0, (1 << 64) - 1, 1 << 63)
        ]
        expect(
            points == expected + [{"m": bytes([7]) * 300, "s": bytes([7]) * k, "seed32": 1032, "seed64": 1064}] * 2,
            True,
            "points",
        )
    for hash_name, length, holds in (("3-64", 240, False), ("3-64", 241, True), ("32", 300, False), ("64", 300, False)):
        expect(len(Request(hash_name, "seed", length).with_seed_0()), holds, f"twins of {length} bytes")


def compared_requests(_):
    """Tests that each side of each request is compared with the definition's term, and that terms are forgotten."""
    for most in (comparison.MOST_NODES, -1):
        forgotten, defined = [], []
        right = {n: symbol(f"right{n}", 64) for n in (1, 2, 3)}

        def of_definition(self, entries):
            defined.append((self.length, self.fixed_seed, entries))
            return right[self.length]

        def failing(error):
            def ask(request):
                if request.length == 2:
                    raise error
                return right[request.length]

            return ask

        asked = [
            Request("3-64", "seed", 1),
            Request("3-64", "seed", 1, cuts=[1]),
            Request("3-64", "seed", 2),
            Request("3-64", "seed", 2, seed=0),
            Request("3-64", "seed", 3),
        ]
        sides = {
            "a": lambda request: right[request.length],
            "b": failing(NotShown("b")),
            "c": failing(WrongRule("c")),
            "d": lambda request: right[request.length] if request.length < 3 else right[1],
        }
        with patched(comparison, "MOST_NODES", most), patched(nodes, "forget", lambda: forgotten.append(1)), patched(
            Request, "of_definition", of_definition
        ), patched(definition, "program", lambda: types.SimpleNamespace(run=lambda: len(forgotten))), patched(
            comparison, "complaint", lambda request, name, *_: f"{request.length} {name}"
        ):
            count, bad = comparison.compare(sides, asked)
        expect(count, 15, "equal values")
        expect(
            bad[-1] == "3 d"
            and len(bad) == 5
            and all(one.startswith("XXH3-64 one-shot seed") and "2 bytes" in one for one in bad[:4]),
            True,
            f"complaints: {bad}",
        )
        expect(["b: NotShown: b" in bad[0], "c: WrongRule: c" in bad[1]] == [True, True], True, "refused values")
        lengths = [(n, seed) for n, seed, _ in defined]
        expect(lengths == [(1, None)] * (2 if most < 0 else 1) + [(2, None), (2, 0), (3, None)], True, "definitions")
        expect(len(forgotten), 6 if most < 0 else 1, "times that terms are forgotten")
        expect(
            [entries for *_, entries in defined] == ([2, 3, 4, 5, 6] if most < 0 else [1] * 4),
            True,
            "definitions after terms are forgotten",
        )
    refuses(lambda: comparison.compare({"a": lambda _: [][1]}, asked[:1]), "a crash", (IndexError,))
    x, y, request = symbol("x64", 64), symbol("seed64", 64), Request("3-64", "seed", 3)
    expect(requests.differing_point(request, y, y) is None, True, "one term")
    point, a, b = requests.differing_point(request, y, operations.add_at(64, (1, y), (1, 1)))
    expect(a == point["seed64"] and b == (a + 1) % (1 << 64), True, "a point where terms differ")
    expect(
        "Xy" != comparison.title_of("3-64", "secret", 136) == "XXH3-64, secret of 136 bytes"
        and comparison.title_of("32", "seed", None) == "XXH32, seed",
        True,
        "titles",
    )
    expect(x is not y, True, "two terms")


def variants_of_requests(_):
    """Tests the kinds of calls, their requests with twins, and the lengths at the edges of blocks."""
    ways = [("default", None), ("seed", None), ("secret", 136), ("secret", 192), ("both", 136), ("both", 192)]
    expect(
        comparison.algorithms((136, 192))
        == [("32", "seed", None), ("64", "seed", None), *((name, *way) for name in ("3-64", "3-128") for way in ways)],
        True,
        "kinds",
    )
    found = [
        (one.length, one.fixed_seed, one.secret_length) for one in comparison.requests("3-64", "seed", None, [5, 300])
    ]
    expect(found == [(5, None, None), (300, None, None), (300, 0, None)], True, "requests")
    for secret in (*range(136, 145), 192, 193, 200, 256, None):
        stripes = ((192 if secret is None else secret) - 64) // 8
        blocks = {n for n in range(1101, 10_242) if n % (64 * stripes) in (0, 1)}
        expect(
            comparison.edges(secret) == sorted(blocks | {2048, 2049, 4096, 4097, 10_240, 10_241}),
            True,
            f"edges of blocks with a secret of {secret} bytes",
        )


# ---- processes


def outcomes(_):
    """Tests what a task's process reports: its counts, its failures, and a refusal or a crash as a failure."""

    called: Any

    def raises(error):
        raise error

    for ask, bad, first in (
        (lambda: ("3 cases", []), [], "ok a task: 3 cases; "),
        (lambda: ("3 cases", ["a fault"]), ["a fault"], "FAILED a task: 3 cases; "),
        (lambda: raises(NotShown("x")), ["NotShown: x"], "FAILED a task: ; "),
        (lambda: raises(WrongRule("y")), ["WrongRule: y"], "FAILED a task: ; "),
        (lambda: raises(ValueError("z")), None, "FAILED a task: ; "),
        (lambda: raises(SystemExit("z")), None, "FAILED a task: ; "),
    ):
        what, found = processes.outcome(Task("a task", ask))
        expect(
            found == bad if bad is not None else found[-1] in ("ValueError: z", "SystemExit: z") and len(found) > 2,
            True,
            f"failures: {found}",
        )
        for is_deep in (True, False):
            sent, called = [], []
            with patched(
                antt, "with_deep_recursion", lambda function, *of: called.append("deep") or function(*of)
            ), patched(processes.mutation, "limits", lambda: contextlib.nullcontext(called.append("limits"))):
                processes.answer(Task("a task", ask, is_deep), types.SimpleNamespace(send=sent.append))
            ((text, is_good),) = sent
            expect(called == ["deep" if is_deep else "limits"], True, "the thread of a task")
            expect(
                is_good is (bad == [])
                and text.startswith(first)
                and text.split("\n")[1:] == [f"    {line}" for line in found][:30],
                True,
                f"a task's report: {text}",
            )
    text = []
    with patched(processes.mutation, "limits", contextlib.nullcontext):
        processes.answer(
            Task("t", lambda: ("", [*map(str, range(40))]), False), types.SimpleNamespace(send=text.append)
        )
    expect(len(text[0][0].split("\n")), 31, "printed failures")
    expect(Task("t", None).is_deep is True and (Task("t", 5).title, Task("t", 5).ask) == ("t", 5), True, "a task")


def started_processes(_):
    """Tests that a task runs in a process that is joined, and that one which ends early fails."""
    done: Any
    for sends in (True, False):
        done = []

        class Process:
            def __init__(self, target, args):
                done.append(("made", target, args[0]))
                self.args = args

            def start(self):
                done.append("started")
                if sends:
                    self.args[1].send(("the report", True))

            def join(self):
                self.exitcode = -9
                done.append("joined")

        fork = types.SimpleNamespace(Pipe=processes.FORK.Pipe, Process=Process)
        # A forked process has the lock as its parent held it.
        with patched(processes, "FORK", fork), patched(processes, "STARTING", contextlib.nullcontext()):
            task = Task("a task", None)
            found = processes.in_process(task)
        expected = ("the report", True) if sends else ("FAILED a task: its process ended with status -9", False)
        expect(found == expected, True, f"a report: {found}")
        expect(done == [("made", processes.answer, task), "started", "joined"], True, "a process")


def statuses(_):
    """Tests the exit status of tasks: 0 only if there are some and all pass."""
    for outcomes_of, jobs in itertools.product(((True,), (True, True, True), (False,), (True, False), ()), (1, 2)):
        printed, asked = io.StringIO(), []

        def in_process(task):
            asked.append(task)
            return f"line {task}", outcomes_of[task]

        with contextlib.redirect_stdout(printed), patched(processes, "in_process", in_process), patched(
            processes.gc, "freeze"
        ), patched(processes.gc, "set_threshold"), patched(
            definition, "program", lambda: types.SimpleNamespace(run=lambda: asked.append("definitions"))
        ):
            status = processes.run([*range(len(outcomes_of))], jobs)
        lines = printed.getvalue().splitlines()
        expect(status == int(not outcomes_of or not all(outcomes_of)), True, f"the status of {outcomes_of}")
        expect(
            lines[:-2] == [f"line {k}" for k in range(len(outcomes_of))]
            and lines[-1] == f"{sum(outcomes_of)} passed, {len(outcomes_of) - sum(outcomes_of)} failed",
            True,
            "reports",
        )
        expect(
            asked[0] == "definitions" and sorted(asked[1:]) == [*range(len(outcomes_of))],
            True,
            "definitions that are read once",
        )
    used = resource.getrusage(resource.RUSAGE_CHILDREN)
    expect(processes.processor_time(resource.RUSAGE_CHILDREN) == used.ru_utime + used.ru_stime, True, "processor time")
    options = processes.options("text", 3)
    values: Any
    for values, expected in (([], (False, "", 3)), (["--all", "--only", "a", "--jobs", "5"], (True, "a", 5))):
        found = options.parse_args(values)
        expect((found.all, found.only, found.jobs) == expected, True, "options")


ALL = [
    bytes_of_inputs,
    values_of_inputs,
    naturals,
    assumed_values,
    keys_of_arguments,
    values_of_definitions,
    asked_requests,
    compared_requests,
    variants_of_requests,
    outcomes,
    started_processes,
    statuses,
]
