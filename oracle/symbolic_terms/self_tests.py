"""Tests the verifier itself: random operations against numbers, algebraic laws, the reference's terms on the cases of
the test vectors, and each use of a rule with an independent solver (z3)."""
import glob
import os
import random
import re
import sys

from oracle import table

from . import comparison, definition, halves, nodes, operations, reference
from .machine import Module
from .requests import Request
from .modular import BINARY
from .nodes import BITS, NODES, SUM, SYMBOL, Node, most_of, symbol, values_at
from .operations import (
    add,
    add_at,
    bits,
    both,
    either,
    monus,
    multiply,
    multiply_at,
    quotient,
    remainder,
    shift_right,
    xor,
)
from .reference import DEBIAN_PYTHON

MANY_POINTS = 8
PRIME = 0x9E3779B185EBCA87
LONGEST_CASE = 1100
MOST_NODES = 1_000_000


# ---- the names of the rules


def rules_are_proved(module: Module) -> tuple[str, list[str]]:
    """Checks that each rule named in this folder is the contract of a function in crates/symbolic_rules."""
    with open(os.path.join(table.TOP, "crates", "symbolic_rules", "src", "lib.rt"), encoding="utf-8") as file:
        proved = set(re.findall(r"^pub fn (\w+)\(", file.read(), re.M))
    named = set()
    for path in glob.glob(os.path.join(os.path.dirname(os.path.abspath(__file__)), "*.py")):
        with open(path, encoding="utf-8") as file:
            named |= set(re.findall(r'\buse\("(\w+)"\)', file.read()))
    return f"{len(named)} names", sorted(named - proved) or ([] if len(named) >= 10 else ["too few names were found"])


# ---- random operations, each compared with numbers at eight points, and laws


def constant(rng):
    return rng.choice(
        (rng.getrandbits(rng.choice((3, 8, 32, 64))), 1 << rng.randrange(70), (1 << rng.randrange(1, 65)) - 1, PRIME)
    )


def rotated(x, k, width=64):
    return either(multiply_at(width, x, 1 << k), bits(x, width - k, k))


def turned(x):
    """Returns a word with its bytes reversed."""
    return sum((bits(x, 8 * k, 8) << 8 * (7 - k) for k in range(8)), 0)


def by_halves(x, y):
    """Returns the upper and the lower word of a product, computed by the steps of halves.py."""

    def step(name, a, b):
        return halves.noted(name, a, b, BINARY[name](64, a, b))

    (a0, a1), (b0, b1) = ((bits(z, 0, 32), bits(z, 32, 32)) for z in (x, y))
    lowest = step("mul", a0, b0)
    first = step("add", step("mul", a1, b0), step("lshr", lowest, 32))
    second = step("add", step("mul", a0, b1), step("and", first, (1 << 32) - 1))
    upper = step("add", step("add", step("mul", a1, b1), step("lshr", first, 32)), step("lshr", second, 32))
    return upper, step("or", bits(lowest, 0, 32), step("shl", second, 32))


def random_operation(rng, pool):
    a, b = rng.choice(pool), rng.choice(pool) if rng.random() < 0.7 else constant(rng)
    width, k = rng.choice((8, 31, 32, 64, 64, 64, 128)), rng.randrange(70)
    return rng.choice(
        (
            lambda: add(a, b),
            lambda: remainder(multiply(a, b), 1 << width),
            lambda: xor(a, b),
            lambda: shift_right(a, k),
            lambda: bits(a, k, rng.randrange(1, 70)),
            lambda: multiply_at(width, a, b),
            lambda: remainder(a, 1 << width),
            lambda: add_at(width, (constant(rng), a), (constant(rng), b), (-1, rng.choice(pool))),
            lambda: monus(1 << max(width, most_of(a).bit_length()), a),
            lambda: both(a, constant(rng)),
            lambda: rotated(bits(a, 0, width), k % width, width),
            lambda: turned(bits(a, 0, 64)),
            lambda: quotient(a, 1 << k),
        )
    )()


def random_operations(module: Module | None, rounds: int) -> tuple[str, list[str]]:
    nodes.POINTS, rng, count, bad = MANY_POINTS, random.Random(1), 0, []
    for _ in range(rounds):
        nodes.forget()
        message = symbol("m", 8 * 64)
        pool = [bits(message, 8 * rng.randrange(40), rng.choice((8, 32, 64))) for _ in range(4)]
        pool.append(symbol("seed", 64))
        for _ in range(40):
            x = random_operation(rng, pool)
            count += 1
            if isinstance(x, Node) and x.width <= 256:
                pool = [*pool, x][-14:]
        bad += [f"law {number}" for number, (a, b) in enumerate(laws(rng, message)) if not nodes.is_same(a, b)]
    return f"{count} operations at {MANY_POINTS} points, {rounds} times each law", bad


def laws(rng, message):
    """Returns pairs of equal values in two forms."""

    def word():
        return bits(message, 8 * rng.randrange(50), 64)

    def wrap(x):
        return remainder(x, 1 << 64)

    x, y, z, c, k = word(), word(), word(), constant(rng) % (1 << 64) | 5, rng.randrange(1, 64)
    s = wrap(add(x, multiply(y, PRIME)))
    v = xor(s, z)
    return [
        (wrap(add(wrap(add(x, y)), z)), wrap(add(x, wrap(add(y, z))))),
        (wrap(multiply(wrap(add(x, y)), c)), wrap(add(multiply(x, c), wrap(multiply(y, c))))),
        (wrap(add(x, monus(1 << 64, x))), 0),
        (xor(xor(s, z), s), z),
        (rotated(rotated(s, k), 64 - k), s),
        (rotated(v, k), xor(rotated(s, k), rotated(z, k))),
        (turned(turned(v)), v),
        (multiply_at(64, x, y), multiply_at(64, y, x)),
        (add(bits(v, 0, k), multiply(shift_right(v, k), 1 << k)), v),
        (bits(multiply(x, y), 0, 64), multiply_at(64, x, y)),
        (
            wrap(add(multiply(bits(v, 0, 32), 0x85EBCA77), multiply(shift_right(v, 32), 1 << 32))),
            wrap(add(v, multiply(bits(v, 0, 32), 0x85EBCA76))),
        ),
        (monus((1 << 64) - 1, s), wrap(add(monus(1 << 64, s), (1 << 64) - 1))),
        (wrap(add(xor(x, (1 << 64) - 1), c)), wrap(add(monus((1 << 64) - 1, x), c))),
        (wrap(add(xor(z, (1 << 64) - 1), x)), wrap(add(x, monus((1 << 64) - 1, z)))),
        (
            shift_right(remainder(multiply(add(multiply(s, 1 << 64), v), c), 1 << 128), 64),
            wrap(add(shift_right(multiply(v, c), 64), multiply(s, c))),
        ),
        *(
            pair
            for b in (s, c | 1 << 40)  # a number whose halves are both nonzero
            for pair in zip(by_halves(v, b), (bits(multiply(v, b), 64, 64), multiply_at(64, v, b)))
        ),
    ]


# ---- the cases of the test vectors


def asked_by(case):
    name = {entry: name for name, entry in table.HASHES.items()}[case.entry]
    if case.is_plain():
        return Request(name, "seed", case.length)
    if case.secret is None:
        return Request(name, "seed", case.length, seed=0 if not case.seed and case.length > 240 else None)
    return Request(name, "secret" if case.seed is None else "both", case.length, case.secret[0])


def table_cases(module: Module) -> tuple[str, list[str]]:
    """Evaluates the reference's terms at the bytes of each case: gcc's compiled code must agree with the header
    here."""
    cases = [case for case in map(table.Case, table.lines()) if case.length <= LONGEST_CASE]
    nodes.forget()
    terms, bad = {}, []
    for case in sorted(cases, key=lambda case: (case.entry, case.length)):
        if len(NODES) > MOST_NODES:
            nodes.forget()
            terms.clear()
        request = asked_by(case)
        if repr(request) not in terms:
            terms[repr(request)] = reference.of_reference(request, module)
        seed = case.seed or 0
        point = {
            "m": bytes(table.generated(case.start, case.length)),
            "seed32": seed % 2**32,
            "seed64": seed,
            "s": bytes(table.generated(case.secret[1], case.secret[0])) if case.secret else b"",
        }
        if values_at([terms[repr(request)]], point) != [case.answer]:
            bad.append(f"disagrees: {case.line}")
    return f"{len(cases)} cases of up to {LONGEST_CASE} bytes", bad


# ---- each use of a rule, checked by z3

SOLVED, EACH = 16, 8  # longest tested length; step between tested operations
SECONDS = 2  # time limit per query
DEEPEST = 6


class Solver:
    """Asks z3 if a result equals the operation on its arguments, for all values. Parts of the terms below some depth
    are free variables: a result that holds for all their values also holds for theirs."""

    def __init__(self):
        sys.path.append(DEBIAN_PYTHON)
        import z3

        self.z3, self.asked, self.bad = z3, {}, []

    def watch(self, name, answer, arguments):
        """Records each operation once."""
        if any(isinstance(x, Node) for x in arguments):
            self.asked[name, key_of(answer), tuple(map(key_of, arguments))] = name, answer, arguments

    def sized(self, x, width):
        """Returns a bit vector truncated or zero-extended to a width."""
        size = x.size()
        if size < width:
            return self.z3.ZeroExt(width - size, x)
        return self.z3.Extract(width - 1, 0, x) if size > width else x

    def number(self, x, width):
        return self.z3.BitVecVal(x, width)

    def term(self, x, depth, known):
        """Returns a value as a bit vector of its width."""
        if isinstance(x, int):
            return self.number(x, max(1, x.bit_length()))
        if x.number not in known:
            if depth == 0 or x.op is SYMBOL:
                known[x.number] = self.z3.BitVec(f"v{x.number}", x.width)
            else:
                known[x.number] = self.structure(x, depth - 1, known)
        return known[x.number]

    def structure(self, x, depth, known):
        if x.op is BITS:
            parts = [self.segment(segment, depth, known) for segment in x.parts]
            return self.z3.Concat(*reversed(parts)) if len(parts) > 1 else parts[0]
        if x.op is SUM:
            out = self.number(x.constant, x.width)
            for c, y in x.parts:
                out = out + self.number(c, x.width) * self.sized(self.term(y, depth, known), x.width)
            return out
        out = self.number(1, x.width)
        for y in x.parts:
            out = out * self.sized(self.term(y, depth, known), x.width)
        return out

    def segment(self, segment, depth, known):
        length, constant, atoms = segment
        out = self.number(constant, length)
        for atom, first in atoms:
            out = out ^ self.z3.Extract(first + length - 1, first, self.term(NODES[atom], depth, known))
        return out

    def meaning(self, name, arguments, width, depth, known):
        """Returns the operation on its arguments, at a width that holds the result."""

        def at(x, size=width):
            return self.sized(self.term(x, depth, known), size)

        if name == "add_at":
            modulus, coefficients, *values = arguments
            return sum(
                (self.number(c, modulus) * at(x, modulus) for c, x in zip(coefficients, values)),
                self.number(0, modulus),
            )
        if name in ("multiply_at", "complement"):
            modulus, *values = arguments
            return at(values[0], modulus) * at(values[1], modulus) if name == "multiply_at" else ~at(values[0], modulus)
        if name == "side_by_side":
            widths, *values = arguments
            parts = [at(x, size) for size, x in zip(widths, values)]
            return self.z3.Concat(*reversed(parts)) if len(parts) > 1 else parts[0]
        if name == "bits":
            a, first, n = arguments
            return self.z3.Extract(first + n - 1, first, at(a, max(width, first + n, a.width)))
        a, b = arguments
        if name == "shift_right":
            return self.z3.LShR(at(a, a.width), b)
        if name == "remainder" and isinstance(b, int) and not b & b - 1:
            return at(a, b.bit_length() - 1)
        operations_of_two = {
            "add": lambda: at(a) + at(b),
            "multiply": lambda: at(a) * at(b),
            "monus": lambda: at(a) - at(b),
            "xor": lambda: at(a) ^ at(b),
            "either": lambda: at(a) | at(b),
            "both": lambda: at(a) & at(b),
            "remainder": lambda: self.z3.URem(at(a), at(b)),
            "quotient": lambda: self.z3.UDiv(at(a), at(b)),
        }
        return operations_of_two[name]()

    def holds(self, name, answer, arguments):
        """True if the result is correct for all values, or None if z3 doesn't decide it in time."""
        numbers = [x for x in [answer, *arguments] if isinstance(x, (int, Node))]
        widths = [x.width if isinstance(x, Node) else x.bit_length() for x in numbers]
        width = sum(widths[1:]) if name == "multiply" else max(widths) + 1
        for depth in range(1, DEEPEST + 1):
            known, solver = {}, self.z3.Solver()
            solver.set("timeout", 1000 * SECONDS)
            theirs, ours = self.meaning(name, arguments, width, depth, known), self.term(answer, depth, known)
            size = max(theirs.size(), ours.size())
            for number, x in known.items():
                if NODES[number].most + 1 < 1 << NODES[number].width:
                    solver.add(self.z3.ULE(x, self.number(NODES[number].most, NODES[number].width)))
            solver.add(self.sized(theirs, size) != self.sized(ours, size))
            found = solver.check()
            if found == self.z3.unsat:
                return True
            if found == self.z3.unknown:
                return None
        return False


def key_of(x):
    return ("node", x.number) if isinstance(x, Node) else x


def by_solver(module: Module) -> tuple[str, list[str]]:
    nodes.forget()
    solver, entries = Solver(), definition.program().run()
    operations.watching.append(solver.watch)
    for name, variant, secret in comparison.algorithms((136,)):
        for length in range(SOLVED + 1):
            request = Request(name, variant, length, secret)
            request.of_definition(entries), reference.of_reference(request, module)
    operations.watching.clear()
    asked = list(solver.asked.values())[::EACH]
    found = [(solver.holds(*question), question) for question in asked]
    undecided = sum(holds is None for holds, _ in found)
    bad = [f"{name} of {arguments}: {answer}" for holds, (name, answer, arguments) in found if holds is False]
    bad += ["half of the operations aren't decided"] if 2 * undecided > len(found) else []
    message = f"{len(found) - undecided} of {len(found)} operations hold for all values"
    return f"{message}, {undecided} weren't decided in {SECONDS} s each", bad
