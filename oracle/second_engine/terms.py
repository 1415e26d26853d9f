"""Bit vectors as terms of the second engine: each has its value at some random points. Terms are kept simple by a few
identities, and each result is compared with its operation at the points. If two terms still differ but agree at the
points, z3 decides whether they are equal; what lies deeper is a variable then."""
import random
import sys
from typing import Iterable

sys.path.append("/usr/lib/python3/dist-packages")  # Debian's z3, also for another Python
import z3

POINTS, LEVELS, EFFORT = 4, (1, 2, 3, 5), 1_000_000  # levels of terms given to z3, one after another; its limit
HALF = 32, 64  # the half of a word of 64 bits
RNG = random.Random(20)


class Term:
    __slots__ = "op", "parts", "width", "values", "number"
    op: str
    parts: tuple
    width: int
    values: tuple[int, ...]
    number: int


class Differs(Exception):
    """Raised if two terms have different values at a point, or z3 doesn't show that they are equal."""


table, by_values, asked = {}, {}, []
uncut = {HALF}  # whose lower half stays one, since its upper half may join it again, as in a scramble


def begin(is_cut: bool) -> None:
    """Forgets all terms. If `is_cut`, the lower half of a sum or a product is that of its operands' lower halves."""
    uncut.clear()
    uncut.update(() if is_cut else {HALF})
    table.clear()
    by_values.clear()
    asked.clear()


def ones(width: int) -> int:
    return (1 << width) - 1


def new_term(op, width, values, *parts):
    """Returns the one term of a kind with these parts."""
    key = op, width, tuple(x.number if isinstance(x, Term) else x for x in parts)
    if key not in table:
        x = Term()
        x.op, x.parts, x.width, x.values, x.number = op, parts, width, tuple(values), len(table)
        table[key] = x
    return table[key]


def constant(value: int, width: int) -> Term:
    value &= ones(width)
    return new_term("constant", width, [value] * POINTS, value)


def variable(name: str, width: int) -> Term:
    key = "variable", width, (name,)
    return (
        table[key]
        if key in table
        else new_term("variable", width, [RNG.getrandbits(width) for _ in range(POINTS)], name)
    )


def checked(x, width, values):
    if x.width != width or x.values != tuple(v & ones(width) for v in values):
        raise AssertionError(f"a wrong identity: {x.op} of {width} bits")
    return x


def at_points(operation, *terms):
    return [operation(*values) for values in zip(*(x.values for x in terms))]


# ---- parts of words


def cut(x: Term, first: int, n: int) -> Term:
    """Returns bits first .. first + n - 1."""
    return checked(cut_of(x, first, n), n, [v >> first for v in x.values])


def cut_of(x, first, n):
    if n == x.width:
        return x
    if x.op == "constant":
        return constant(x.parts[0] >> first, n)
    if x.op == "cut":
        return cut_of(x.parts[0], x.parts[1] + first, n)
    if x.op == "join":
        out, at = [], 0
        for part in x.parts:
            low, high = max(first, at), min(first + n, at + part.width)
            if low < high:
                out.append(cut_of(part, low - at, high - low))
            at += part.width
        return join(*out)
    if x.op in ("and", "or", "xor"):
        return bitwise(x.op, *(cut_of(part, first, n) for part in x.parts))
    if not first and x.op == "sum" and (n, x.width) not in uncut:
        return total(n, [(cut_of(part, 0, n), c) for part, c in zip(x.parts[1::2], x.parts[2::2])], x.parts[0])
    if not first and x.op == "product" and (n, x.width) not in uncut:
        return multiply(*(cut_of(part, 0, n) for part in x.parts))
    return new_term("cut", n, [v >> first & ones(n) for v in x.values], x, first)


def join(*parts: Term) -> Term:
    """Joins words, the lowest first."""
    flat = []
    for x in (y for part in parts for y in (part.parts if part.op == "join" else (part,))):
        last = flat[-1] if flat else None
        if last is not None and last.op == x.op == "constant":
            flat[-1] = constant(last.parts[0] | x.parts[0] << last.width, last.width + x.width)
        elif (
            last is not None
            and last.op == x.op == "cut"
            and last.parts[0] is x.parts[0]
            and last.parts[1] + last.width == x.parts[1]
        ):
            flat[-1] = cut_of(x.parts[0], last.parts[1], last.width + x.width)
        else:
            flat.append(x)
    width = sum(x.width for x in flat)
    values, at = [0] * POINTS, 0
    for part in parts:
        values = [v | w << at for v, w in zip(values, part.values)]
        at += part.width
    return checked(flat[0] if len(flat) == 1 else new_term("join", width, values, *flat), width, values)


def widened(x: Term, width: int) -> Term:
    return x if width == x.width else join(x, constant(0, width - x.width))


def shift_left(x: Term, k: int) -> Term:
    return x if not k else constant(0, x.width) if k >= x.width else join(constant(0, k), cut(x, 0, x.width - k))


def shift_right(x: Term, k: int) -> Term:
    return x if not k else constant(0, x.width) if k >= x.width else join(cut(x, k, x.width - k), constant(0, k))


def rotate_left(x: Term, k: int) -> Term:
    k %= x.width
    return x if not k else join(cut(x, x.width - k, k), cut(x, 0, x.width - k))


def swapped(x: Term) -> Term:
    return join(*(cut(x, k, 8) for k in range(x.width - 8, -8, -8)))


# ---- operations

NUMBERS = {"and": lambda a, b: a & b, "or": lambda a, b: a | b, "xor": lambda a, b: a ^ b}


def bitwise(op: str, a: Term, b: Term, *more: Term) -> Term:
    if more:
        return bitwise(op, bitwise(op, a, b), *more)
    return checked(bitwise_of(op, a, b), a.width, at_points(NUMBERS[op], a, b))


def bitwise_of(op, a, b):
    if a.op == b.op == "constant":
        return constant(NUMBERS[op](a.parts[0], b.parts[0]), a.width)
    a, b = sorted((a, b), key=lambda x: (x.op == "constant", x.number))
    if b.op == "constant":
        runs = in_runs(b.parts[0], b.width)
        if op == "and" or op == "or" or len(runs) == 1 and not b.parts[0]:
            return join(*(of_run(op, cut(a, at, n), bit, n) for at, n, bit in runs))
    if a.op == "join" or b.op == "join":
        found = beside(a, b)
        if found and op != "and":
            return found
    if a is b:
        return constant(0, a.width) if op == "xor" else a
    if op == "xor":
        flat = {}
        for x in (*(a.parts if a.op == "xor" else [a]), *(b.parts if b.op == "xor" else [b])):
            flat.pop(x.number) if x.number in flat else flat.update({x.number: x})
        parts = sorted(flat.values(), key=lambda x: x.number)
        number = [x for x in parts if x.op == "constant"]
        parts = [x for x in parts if x.op != "constant"]
        value = 0
        for x in number:
            value ^= x.parts[0]
        parts += [constant(value, a.width)] if value else []
        if len(parts) < 2:
            return parts[0] if parts else constant(0, a.width)
        return new_term("xor", a.width, at_points(NUMBERS["xor"], a, b), *parts)
    return new_term(op, a.width, at_points(NUMBERS[op], a, b), a, b)


def of_run(op, x, bit, n):
    if op == "and":
        return x if bit else constant(0, n)
    return (constant(ones(n), n) if op == "or" else x) if bit else x


def in_runs(value, width):
    """Returns the runs of equal bits of a number: (first, count, bit)."""
    out, at = [], 0
    while at < width:
        bit, n = value >> at & 1, 1
        while at + n < width and value >> at + n & 1 == bit:
            n += 1
        out.append((at, n, bit))
        at += n
    return out


def beside(a, b):
    """Returns two words side by side if in each place one of them is 0, or None."""
    edges = {0, a.width}
    for x in (a, b):
        at = 0
        for part in x.parts if x.op == "join" else (x,):
            edges.add(at)
            at += part.width
    ends, out = sorted(edges), []
    for low, high in zip(ends, ends[1:]):
        x, y = cut(a, low, high - low), cut(b, low, high - low)
        zero = constant(0, high - low)
        if x is not zero and y is not zero:
            return None
        out.append(y if x is zero else x)
    return join(*out)


def total(width: int, terms: Iterable[tuple[Term, int]], number: int = 0) -> Term:
    """Returns a sum of products with numbers."""
    flat, values = {}, [number] * POINTS
    for x, c in terms:
        values = [v + c * w for v, w in zip(values, x.values)]
        for y, d in summands(x):
            if y is None:
                number += c * d
            else:
                flat[y.number] = y, flat.get(y.number, (y, 0))[1] + c * d & ones(width)
    united(flat, width)
    parts = sorted(((y, c) for y, c in flat.values() if c), key=lambda x: x[0].number)
    number &= ones(width)
    values = [v & ones(width) for v in values]
    if not parts:
        return constant(number, width)
    if not number and len(parts) == 1 and not parts[0][1] & parts[0][1] - 1:
        return checked(shift_left(parts[0][0], parts[0][1].bit_length() - 1), width, values)
    return new_term("sum", width, values, number, *(x for part in parts for x in part))


def summands(x):
    """Yields the words of a sum with their factors, and its number with no word."""
    if x.op == "constant":
        yield None, x.parts[0]
    elif x.op == "sum":
        yield None, x.parts[0]
        yield from zip(x.parts[1::2], x.parts[2::2])
    elif x.op == "join" and len(x.parts) == 2 and x.parts[0] is constant(0, x.parts[0].width):
        for y, d in summands(x.parts[1]):  # a word that is shifted: the bits above don't matter
            yield y and widened(y, x.width), d << x.parts[0].width
    else:
        yield x, 1


def united(flat, width):
    """Replaces c * low + (c << 32) * high, of halves of 64 bits, by c times the word of both."""
    halves = {
        y: c for y, c in flat.values() if c and width == 64 and y.op == "join" and cut(y, 32, 32) is constant(0, 32)
    }
    for low, c in halves.items():
        high = next(
            (y for y, d in halves.items() if y is not low and d == c << 32 & ones(64) and flat[y.number][1]), None
        )
        if high and flat[low.number][1]:
            flat[low.number], flat[high.number] = (low, 0), (high, 0)
            whole = representative(join(cut(low, 0, 32), cut(high, 0, 32)))
            flat[whole.number] = whole, flat.get(whole.number, (whole, 0))[1] + c & ones(64)


def add(*terms: Term) -> Term:
    return total(terms[0].width, [(x, 1) for x in terms])


def subtract(a: Term, b: Term) -> Term:
    return total(a.width, [(a, 1), (b, -1)])


def multiply(a: Term, b: Term) -> Term:
    if a.op == "constant" or b.op == "constant":
        a, b = (b, a) if a.op == "constant" else (a, b)
        return total(a.width, [(a, b.parts[0])])
    a, b = sorted((a, b), key=lambda x: x.number)
    return new_term("product", a.width, [v & ones(a.width) for v in at_points(lambda x, y: x * y, a, b)], a, b)


def product(a: Term, b: Term) -> tuple[Term, Term]:
    """Returns the low and the high word of a product."""
    whole = multiply(widened(a, 2 * a.width), widened(b, 2 * b.width))
    return multiply(a, b), cut(whole, a.width, a.width)


# ---- equality


def representative(x: Term) -> Term:
    """Returns the first known term that equals this one, as z3 shows, or this one."""
    if x.op in ("constant", "variable"):
        return x
    known = by_values.setdefault((x.width, x.values), x)
    return known if known is x or are_equal(x, known) else x


def are_equal(x, y):
    """True if z3 shows that two terms are equal, with what lies deeper as variables."""
    for level in LEVELS:
        solver = z3.SolverFor("QF_UFBV")
        solver.set("rlimit", EFFORT)
        names = {}
        solver.add(in_z3(x, level, names) != in_z3(y, level, names))
        asked.append(level)
        if solver.check() == z3.unsat:
            return True
    return False


def in_z3(x, level, names):
    if x.op == "constant":
        return z3.BitVecVal(x.parts[0], x.width)
    if x.op == "variable" or not level and x.op not in ("join", "cut"):
        return names.setdefault(x.number, z3.BitVec(f"x{x.number}", x.width))
    if x.op == "cut":
        inner = in_z3(x.parts[0], level, names)
        return z3.Extract(x.parts[1] + x.width - 1, x.parts[1], inner)
    if x.op == "join":
        return z3.Concat(*(in_z3(part, level, names) for part in reversed(x.parts)))
    if x.op == "sum":
        out = z3.BitVecVal(x.parts[0], x.width)
        for part, c in zip(x.parts[1::2], x.parts[2::2]):
            out += in_z3(part, level - 1, names) * z3.BitVecVal(c, x.width)
        return out
    parts = [in_z3(part, level - 1, names) for part in x.parts]
    if x.op == "product":  # any function of two words
        word = z3.BitVecSort(x.width)
        return z3.Function(f"product{x.width}", word, word, word)(*parts)
    out = parts[0]
    for part in parts[1:]:
        out = out & part if x.op == "and" else out | part if x.op == "or" else out ^ part
    return out


def expect_equal(what: str, ours: Term, theirs: Term) -> None:
    """Raises if two terms aren't shown to be equal."""
    if ours is theirs:
        return
    if ours.values != theirs.values:
        raise Differs(f"{what}: another value")
    if not are_equal(ours, theirs):
        raise Differs(f"{what}: z3 doesn't show that they are equal")
