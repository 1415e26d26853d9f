"""Semantics of vector instructions. A vector is two lanes of 64 bits."""
import functools

from oracle.symbolic_terms import Undecided, Unsupported, Value

from ..values import WORD, arithmetic, bits, joined, low
from .objects import Register, Vector
from .processor import form

HALF = 32


def quarters_of(lanes: list[Value]) -> list[Value]:
    """Returns the four 32-bit words of a vector."""
    return [part for lane in lanes for part in (low(lane, HALF), arithmetic("lshr", WORD, lane, HALF))]


def of_quarters(parts: list[Value]) -> list[Value]:
    """Returns a vector of four words, or of fewer with zeros above."""
    parts = [*parts, 0, 0, 0][:4]
    return [joined((parts[k], HALF), (parts[k + 1], HALF)) for k in (0, 2)]


def read(cpu, x):
    lanes = cpu.vectors[x.number]
    return quarters_of(lanes)[: int(x.arrangement[0])] if x.arrangement in ("4s", "2s") else list(lanes)


def write(cpu, x, parts):
    cpu.vectors[x.number] = of_quarters(parts) if x.arrangement in ("4s", "2s") else list(parts)


def width_of(x):
    return HALF if x.arrangement in ("4s", "2s") else WORD


# ---- the same on each part


def each(mnemonics, forms, function, with_to=False):
    """Adds instructions that compute each part from its width and the sources' parts, or their number. `with_to` makes
    the destination the first source."""

    def run(cpu, x, to, *sources):
        parts = [read(cpu, y) if isinstance(y, Vector) else [y.value] * 4 for y in ([to] * with_to + [*sources])]
        write(cpu, to, [function(width_of(to), *found) for found in zip(*parts)])

    form(mnemonics, forms)(run)


def add_product(width, r, p, q):
    return arithmetic("add", width, r, arithmetic("mul", width, p, q))


def shift_by(width, x, k):
    """Shifts by the lowest byte of a lane, as a signed number."""
    if not isinstance(k, int):
        raise Undecided("the amount of a shift")
    k = (k + 128) % 256 - 128
    if not -width < k < width:
        return 0
    return arithmetic("shl", width, x, k) if k >= 0 else arithmetic("lshr", width, x, -k)


for mnemonic, word, forms in (
    ("add", "add", "4s 4s 4s, 2d 2d 2d"),
    ("sub", "sub", "4s 4s 4s, 2d 2d 2d"),
    ("mul", "mul", "4s 4s 4s, 2s 2s 2s"),
    ("eor", "xor", "16b 16b 16b"),
    ("orr", "or", "16b 16b 16b"),
    ("shl", "shl", "4s 4s i"),
    ("ushr", "lshr", "2d 2d i, 4s 4s i"),
):
    each(mnemonic, forms, functools.partial(arithmetic, word))
each("neg", "2d 2d", lambda width, p: arithmetic("sub", width, 0, p))
each("mla", "4s 4s 4s", add_product, with_to=True)
each("umlal", "2d 2s 2s", add_product, with_to=True)
each("xtn", "2s 2d", lambda width, p: low(p, width))
each("shrn", "2s 2d i", lambda width, p, k: low(arithmetic("lshr", WORD, p, k), width))
each("shll", "2d 2s i", lambda width, p, k: joined((0, HALF), (p, HALF)))  # by a word's width, the only amount
each(
    "usra", "4s 4s i", lambda width, r, p, k: arithmetic("add", width, r, arithmetic("lshr", width, p, k)), with_to=True
)
each("ushl", "2d 2d 2d, 4s 4s 4s", shift_by)


# ---- moves


def moved(mnemonic, forms, function):
    """Adds an instruction that computes its parts from the lists of the sources' parts."""

    @form(mnemonic, forms)
    def run(cpu, x, to, *sources):
        write(cpu, to, function(*(read(cpu, y) for y in sources)))


moved("uzp1", "4s 4s 4s", lambda a, b: [*a[::2], *b[::2]])
moved("uzp2", "4s 4s 4s", lambda a, b: [*a[1::2], *b[1::2]])
moved("zip1", "2d 2d 2d", lambda a, b: [a[0], b[0]])
moved("zip2", "2s 2s 2s", lambda a, b: [a[1], b[1]])
moved("mov", "16b 16b", lambda a: a)


@form("ext", "16b 16b 16b i")
def extract(cpu, x, to, a, b, k):
    if k.value != 8:
        raise Unsupported(f"ext by {k.value} bytes")
    write(cpu, to, [cpu.vectors[a.number][1], cpu.vectors[b.number][0]])


@form("dup", "2d x, 4s w, 2s w, 2d d[], 4s s[], 2s s[]")
def repeat(cpu, x, to, a):
    write(cpu, to, [cpu.get(a) if isinstance(a, Register) else lane_of(cpu, a)] * int(to.arrangement[0]))


def lane_of(cpu, x):
    lanes = cpu.vectors[x.number]
    return quarters_of(lanes)[x.lane] if x.arrangement == "s" else lanes[x.lane]


@form("mov", "d[] d[], s[] s[], d[] x")
def put_lane(cpu, x, to, a):
    whole = quarters_of(cpu.vectors[to.number]) if to.arrangement == "s" else list(cpu.vectors[to.number])
    whole[to.lane] = cpu.get(a) if isinstance(a, Register) else lane_of(cpu, a)
    cpu.vectors[to.number] = of_quarters(whole) if to.arrangement == "s" else whole


@form("mov", "x d[]")
def get_lane(cpu, x, to, a):
    cpu.put(to, lane_of(cpu, a))


@form("movi", "2d i")
def set_lanes(cpu, x, to, k):
    write(cpu, to, [k.value % (1 << WORD)] * 2)


@form("fmov", "x d, w s")
def get_low(cpu, x, to, a):
    cpu.put(to, low(cpu.vectors[a.number][0], to.width))


@form("fmov", "d x, d d")
def set_low(cpu, x, to, a):
    """Sets the upper lane to 0."""
    cpu.vectors[to.number] = [cpu.get(a) if isinstance(a, Register) else cpu.vectors[a.number][0], 0]


@form("uzp1", "8h 8h 8h, 16b 16b 16b")
def even_parts(cpu, x, to, a, b):
    """Concatenates the even-numbered parts of both, of 16 or 8 bits."""
    width = 16 if to.arrangement == "8h" else 8
    lanes = [*cpu.vectors[a.number], *cpu.vectors[b.number]]
    parts = [(bits(lane, k, width), width) for lane in lanes for k in range(0, WORD, 2 * width)]
    half = len(parts) // 2
    cpu.vectors[to.number] = [joined(*parts[:half]), joined(*parts[half:])]


@form("addv", "s 4s")
def add_across(cpu, x, to, a):
    cpu.vectors[to.number] = of_quarters([functools.reduce(functools.partial(arithmetic, "add", HALF), read(cpu, a))])
