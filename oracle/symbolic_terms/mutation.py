"""Tests that changes of either side are detected: otherwise a passing comparison would prove nothing.

    one token of the definition    mutants.py's changes; those that change no value are in equivalent_mutants.txt
    the reference's LLVM code      another operation, or a number that is one more or one less
    by hand                        of the definition, that differ on one input in 2 ^ 32 or fewer

A change is detected if the terms differ and a point is found where their values do. If the terms differ and no such
point is found, it counts as refused. A crash of this program counts as neither."""
import collections
import contextlib
import os
import random
import re
import resource
import signal
import sys
import unittest.mock
from typing import Any, Iterator

from oracle import antt
from oracle import mutants
from oracle import proved_cases
from oracle.reasons import CRASH, UNNOTICED, WRONG_RULE

from . import definition, every_length, header_calls, nodes, reference
from .header_names import OURS, names_of
from .refusals import REFUSALS, Undecided
from .requests import Request, differing_point
from .machine import Function, Module
from .nodes import Node, Value, WrongRule, values_at

BY_LENGTH = 0, 1, 2, 3, 4, 8, 9, 16, 17, 32, 33, 65, 97, 128, 129, 160, 240, 241
SECONDS = 4  # time limit, after which a change counts as not ending
EQUAL_LINES = os.path.join(os.path.dirname(os.path.abspath(__file__)), "equivalent_lines.txt")
RECURSION, MEMORY = 8000, 6 << 30
NO_NUMBER = (
    antt.Unreadable,
    TypeError,
    AttributeError,
    IndexError,
    OverflowError,
    ValueError,
    RecursionError,
    NameError,
    MemoryError,
    KeyError,
)
NOTICED, REFUSED = "differs at a point", "another term, no point found"
NOTICED_BY_NUMBERS, REFUSED_WITHOUT_TERM = "no term, differs at a point", "no term, no point found"


class Slow(Exception):
    pass


@contextlib.contextmanager
def limits() -> Iterator[None]:
    """Limits the recursion and the memory for changed texts."""
    sys.setrecursionlimit(RECURSION)
    resource.setrlimit(resource.RLIMIT_AS, (MEMORY, MEMORY))
    yield


def mark() -> tuple[int, list[int]]:
    """Returns the current size of the tables, for `release`."""
    return len(nodes.NODES), [len(known) for known in nodes.MEMOS]


def release(point: tuple[int, list[int]]) -> None:
    """Forgets the nodes made since `mark`."""
    count, sizes = point
    del nodes.NODES[count:]
    for known, size in zip(nodes.MEMOS, sizes):
        while len(known) > size:
            known.popitem()


class Limited:
    """Context manager that raises Slow after SECONDS of CPU time."""

    def __enter__(self):
        signal.signal(signal.SIGPROF, self.stop)
        signal.setitimer(signal.ITIMER_PROF, SECONDS)

    def stop(self, *_):
        raise Slow

    def __exit__(self, *_):
        signal.setitimer(signal.ITIMER_PROF, 0)


def differs(request: Request, a: Value, b: Value) -> bool:
    """True if two values differ at one of the points."""
    first, second = (x.values if isinstance(x, Node) else (x,) * nodes.POINTS for x in (a, b))
    return first != second or differing_point(request, a, b) is not None


def definition_at(request: Request, entries: dict, point: dict[str, Any]) -> Value:
    """Returns the definition's value of a request at concrete values of the symbols."""
    seed = request.seed() if isinstance(request.seed(), int) else point[request.seed().parts[0]]
    return definition.value(
        entries, request.hash_name, request.variant, seed, memoryview(point["s"]), memoryview(point["m"])
    )


def differing_point_of_numbers(request, entries, b, count=3):
    """Returns a point as `differing_point` does, if the definition has no term: evaluates it on numbers."""
    for point in request.points(count, random.Random(11)):
        x, (y,) = definition_at(request, entries, point), values_at([b], point)
        if x != y:
            return point, x, y
    return None


def asked():
    """Returns the requests that test changes, the shortest first: the lengths that the proofs compute."""
    out = []
    for name, lengths in proved_cases.PLAIN.items():
        out += [Request(name, "seed", n) for n in lengths]
    for name in ("3-64", "3-128"):
        out += [Request(name, "seed", n) for n in proved_cases.SHORT + proved_cases.SEEDED_LONG]
        out += [Request(name, "secret", n, 136) for n in proved_cases.KEYED_SHORT + [577, 640, 1217]]
        out += [Request(name, "secret", n, 143) for n in (577, 640, 641)]
        out += [Request(name, "both", n, 137) for n in (240, 241, 641)]
    return sorted([r for request in out for r in [request, *request.with_seed_0()]], key=lambda request: request.length)


def asked_of(module):
    """Returns the requests for a header. In ours each function of XXH3 chooses by the length: further ones ask for
    it."""
    more = [Request(name, way, n, 136) for name in ("3-64", "3-128") for way in ("secret", "both") for n in BY_LENGTH]
    more += [Request(name, "default", n) for name in ("3-64", "3-128") for n in BY_LENGTH]
    return sorted([*asked(), *(more if names_of(module) is OURS else [])], key=lambda request: request.length)


# ---- changes of the definition


class Asked:
    """A request with the reference's term, in the form of mutants.py's cases: `outcome` is the last result."""

    def __init__(self, request, module):
        self.request, self.length, self.outcome = request, request.length, None
        self.answer = reference.of_reference(request, module)

    def agrees(self, entries):
        """False if the two differ at a point; True if further cases must be tested."""
        try:
            with Limited():
                value = self.request.of_definition(entries)
                is_same = nodes.is_same(value, self.answer)
                self.outcome = None if is_same else NOTICED if differs(self.request, value, self.answer) else REFUSED
        except Undecided:
            self.outcome = self.by_numbers(entries)
        except Slow:
            self.outcome = "doesn't end"
        except WrongRule as error:
            self.outcome = f"{WRONG_RULE}: {error}"
        except NO_NUMBER as error:
            self.outcome = self.by_numbers(entries, error)
        return self.outcome in (None, REFUSED, REFUSED_WITHOUT_TERM)

    def by_numbers(self, entries, error=None):
        """Evaluates a definition without a term on numbers. If that fails too, the change is detected. If it succeeds,
        `error` is this program's fault."""
        try:
            with Limited():
                differs = differing_point_of_numbers(self.request, entries, self.answer)
        except NO_NUMBER:
            return "no number"
        except Slow:
            return "doesn't end"
        return NOTICED_BY_NUMBERS if differs else f"{CRASH}: {error!r}" if error else REFUSED_WITHOUT_TERM


def of_text(module: Module, part: int, parts: int) -> list[tuple[str, str]]:
    """Returns (outcome, text) for each change of one token, or for a part of them."""
    nodes.forget()
    program = definition.program()
    cases: list = [Asked(request, module) for request in asked()]
    cases += proved_cases.counted_lengths()  # lengths that no request has
    by_definition = mutants.cases_by_definition(program, cases)
    known, out = mark(), []
    for change in mutants.all_changes(program)[part::parts]:
        for case in cases:
            case.outcome = None
        what = mutants.outcome(program, by_definition, change)
        changed = program.definitions.modules[change.path].definitions[change.name]
        outcomes = [case.outcome for case in by_definition.get(changed, ()) if case.outcome]
        out.append((what if what == "unreadable" else outcomes[-1] if outcomes else UNNOTICED, change.text))
        release(known)
    return out


# ---- changes of the reference

SWAPS = {
    "add": "sub",
    "sub": "add",
    "mul": "add",
    "xor": "or",
    "or": "xor",
    "and": "or",
    "shl": "lshr",
    "lshr": "shl",
    "udiv": "mul",
    "ult": "ule",
    "ule": "ult",
    "ugt": "uge",
    "uge": "ugt",
    "slt": "sle",
    "eq": "ne",
    "ne": "eq",
}
LINE = re.compile(r"( *(?:%\S+ = )?)(\w+)(.*)")
NUMBER = re.compile(r"(?<=[ ])(?:i\d+ )?(-?\d+)(?=[,)]|$)")


def changed_lines(line):
    """Returns the line with another operation, or with a number plus or minus one."""
    match = LINE.match(line)
    if not match or match.group(2) in ("alloca", "ret", "br"):
        return []
    head, word, rest = match.groups()
    out = [head + SWAPS[word] + re.sub(r"\b(nuw|nsw|exact)\b ?", "", rest)] if word in SWAPS else []
    test = rest.split()[0] if rest.split() else ""
    if word == "icmp" and test in SWAPS:
        out.append(head + word + rest.replace(test, SWAPS[test], 1))
    for number in NUMBER.finditer(rest):
        if not rest[: number.start()].rstrip().endswith("align"):
            first, last = number.span(1)
            out += [head + word + rest[:first] + str(int(number.group(1)) + d) + rest[last:] for d in (1, -1)]
    return out


def all_lines(module):
    """Returns (function's name, line's number, changed line) of all changes, shuffled."""
    out, name = [], None
    for k, line in enumerate(module.lines):
        if line.startswith("define "):
            name = re.search(r"@[\w.]+", line).group(0)
        elif line == "}":
            name = None
        elif name and not name.startswith(("@once_", "@stream_")):
            out += [(name, k, other) for other in changed_lines(line)]
    random.Random(3).shuffle(out)
    return out


def with_line(module, name, k, other):
    """Returns the function with a line replaced."""
    first = max(j for j in range(k) if module.lines[j].startswith("define "))
    end = module.lines.index("}", first)
    return Function(module, module.lines[first:k] + [other] + module.lines[k + 1 : end])


def reaching(module, requests):
    """Maps each function's name to the requests that run it."""
    out, run = collections.defaultdict(list), Function.run
    seen = set()

    def traced(self, arguments):
        seen.add(self.name)
        return run(self, arguments)

    with unittest.mock.patch.object(Function, "run", traced):
        for request in requests:
            seen.clear()
            reference.of_reference(request, module)
            for name in seen:
                out[name].append(request)
    return out


def of_reference(module: Module, sample: int | None, part: int, parts: int) -> list[tuple[str, str]]:
    """Returns (outcome, text) for a sample of the changes of the LLVM code."""
    nodes.forget()
    requests, entries = asked_of(module), definition.program().run()
    answers = {id(request): request.of_definition(entries) for request in requests}
    by_function, known, out = reaching(module, requests), mark(), []
    reached = [change for change in all_lines(module) if change[0] in by_function]
    for name, k, other in reached[:sample][part::parts]:
        original = module.functions[name]
        what = changed_outcome(module, (name, k, other), by_function[name], answers)
        module.functions[name] = original
        out.append((what, f"{name} line {k + 1}: {module.lines[k].strip()}  ->  {other.strip()}"))
        release(known)
    return out


def changed_outcome(module, change, requests, answers):
    what = UNNOTICED
    try:
        module.functions[change[0]] = with_line(module, *change)
        for request in requests:
            with Limited():
                value = reference.of_reference(request, module)
                if not nodes.is_same(value, answers[id(request)]):
                    what = NOTICED if differs(request, value, answers[id(request)]) else REFUSED
            if what == NOTICED:
                break
        if what == UNNOTICED and names_of(module) is OURS and "withSecret" in change[0]:  # no request is refused
            header_calls.refused_one_shots(module, "128" if "128bits" in change[0] else "64")
    except REFUSALS as error:
        return f"no value: {type(error).__name__}"
    except Slow:
        return "doesn't end"
    except WrongRule as error:
        return f"{WRONG_RULE}: {error}"
    except NO_NUMBER as error:
        return f"{CRASH}: {error!r}"
    return what


# ---- by hand

RARE = (
    "twox_plain.specs.Xxh64",
    "twox_core.specs.Long",
    "twox_core.specs.Steps",
    "twox_core.specs.Short",
    "twox_core.specs.Middle",
)
XXH3 = ["3-64", "3-128"]
AVALANCHE = "avalanche x = xor_shift (wrap_mul w64 (xor_shift (wrap_mul w64 (xor_shift {} 33) p2) 29) p3) 32"
# File, old text, new text, hashes, whether the new text is equal for all inputs.
BY_HAND = [
    (RARE[0], "(wrap_mul w64 word p2)) 31)", "(wrap_mul w64 (word % (2 ^ 64 - 1)) p2)) 31)", ["64"], False),
    (
        RARE[0],
        "merge x a = wrap_add w64 (wrap_mul w64 (bit_xor x (round 0 a)) p1) p4",
        "merge x a = wrap_add w64 (wrap_mul w64 (bit_xor x (round 0 (a % (2 ^ 64 - 1)))) p1) p4",
        ["64"],
        False,
    ),
    (RARE[0], AVALANCHE.format("x"), AVALANCHE.format("(x % (2 ^ 64 - 1))"), ["64"], False),
    (
        RARE[1],
        "halves_product v = low32 v * high32 v",
        "halves_product v = (low32 v * high32 v) % (2 ^ 64 - 2 ^ 33 + 1)",
        XXH3,
        False,
    ),
    (
        RARE[1],
        "halves_product v = low32 v * high32 v",
        "halves_product v = low32 v * (high32 v % (2 ^ 32 - 1))",
        XXH3,
        False,
    ),
    (
        RARE[1],
        "(a + word64 m (p + 8 * bit_xor i 1) +",
        "((a + word64 m (p + 8 * bit_xor i 1)) % (2 ^ 65 - 2) +",
        XXH3,
        False,
    ),
    (
        RARE[2],
        "bit_xor (low64 (a * b)) (high64 (a * b))",
        "bit_xor (low64 (a * b)) (high64 (a * (b % (2 ^ 64 - 1))))",
        XXH3,
        False,
    ),
    (RARE[2], "mul64 (xor_shift x 37) prime_mx1", "mul64 (xor_shift (x % (2 ^ 64 - 1)) 37) prime_mx1", XXH3, False),
    (
        RARE[3],
        "add64 (low64 p) ((n - 1) * 2 ^ 54)",
        "add64 (low64 p % (2 ^ 64 - 1)) ((n - 1) * 2 ^ 54)",
        ["3-128"],
        False,
    ),
    (
        RARE[4],
        "merge_low a b = avalanche (add64 a b)",
        "merge_low a b = avalanche ((a + b) % (2 ^ 65 - 2) % 2 ^ 64)",
        ["3-128"],
        False,
    ),
    (
        RARE[4],
        "merge_low a b = avalanche (add64 a b)",
        "merge_low a b = avalanche ((a + b) % (2 ^ 65 - 1) % 2 ^ 64)",
        ["3-128"],
        True,
    ),
    (
        RARE[2],
        "bit_xor (low64 (a * b)) (high64 (a * b))",
        "bit_xor (a * low64 b % 2 ^ 64) (b * a / 2 ^ 64 % 2 ^ 64)",
        XXH3,
        True,
    ),
]
HAND_LENGTHS = {"64": [32, 64], **dict.fromkeys(XXH3, [9, 16, 17, 128, 240, 241, 1089])}


# Changes of one token that differ only from 2 ^ 31 or 2 ^ 32 bytes on: words of the change as printed by mutants.py,
# file, old text, new text, and the kind for the induction.
AT_LARGE_LENGTHS = [
    (
        "% [2 -> 3] ^ 32",
        "twox_plain.specs.Xxh32",
        "(counted (length m) % 2 ^ 32)",
        "(counted (length m) % 3 ^ 32)",
        "32",
    ),
    (
        "% 2 ^ [32 -> 31]",
        "twox_plain.specs.Xxh32",
        "(counted (length m) % 2 ^ 32)",
        "(counted (length m) % 2 ^ 31)",
        "32",
    ),
    (
        "[counted -> low32] ( length m ) ) prime64_1",
        RARE[1],
        "(counted (length m)) prime64_1",
        "(low32 (length m)) prime64_1",
        "3-64:secret",
    ),
    (
        "[counted -> low32] ( length m ) ) prime64_2",
        RARE[1],
        "(counted (length m)) prime64_2",
        "(low32 (length m)) prime64_2",
        "3-128:secret",
    ),
]


def by_induction(module: Module) -> Iterator[tuple[bool, str]]:
    """Yields for each of these: whether the induction refuses it, and a line."""
    for title, path, old, new, algorithm in AT_LARGE_LENGTHS:
        program = definition.read()
        with_text(program, path, old, new)
        try:
            every_length.show(module, algorithm, program)
            yield False, f"{title}: shown"
        except REFUSALS as error:
            yield True, f"{title}: {type(error).__name__}: {error}"


def with_text(program, path, old, new):
    """Replaces a text of a clause by another one."""
    old_tokens, others = ([word for word, _ in antt.tokens(text)] for text in (old, new))
    for changed in program.order:
        for number, (left, right) in enumerate(changed.clauses if changed.module.path == f"Rattle.{path}" else ()):
            line = [changed.name] + [word for word, _ in left] + ["="] + [word for word, _ in right]
            places = [k for k in range(len(line)) if line[k : k + len(old_tokens)] == old_tokens]
            if places:
                line[places[0] : places[0] + len(old_tokens)] = others
                sides = [[word for word, _ in side] for _, side in changed.clauses]
                sides[number] = line[line.index("=") + 1 :]
                program.code[changed] = program.python(changed, sides)
                return
    raise SystemExit(f"no such text: {old}")


def by_hand(module: Module) -> Iterator[tuple[bool, str]]:
    """Yields for each change by hand: whether the result is the expected one, and a line."""
    for path, old, new, hashes, is_equal in BY_HAND:
        nodes.forget()
        program = definition.read()
        with_text(program, path, old, new)
        entries, others, asked_lengths, point = program.run(), 0, 0, None
        for name in hashes:
            for n in HAND_LENGTHS[name]:
                request = Request(name, "seed", n)
                a, b = request.of_definition(entries), reference.of_reference(request, module)
                asked_lengths += 1
                if not nodes.is_same(a, b):
                    point = point or not others and differing_point(request, a, b)  # tested once
                    others += 1
        found = f"another term at {others} of {asked_lengths} lengths" + (", and a point was found" if point else "")
        yield ((others == 0) == is_equal, f"{old}  ->  {new}{' (equal)' if is_equal else ''}: {found}")
