"""Semantics of instructions on words, control flow and memory."""
from oracle.symbolic_terms import Unsupported, Value, lifted, ones, plus
from oracle.symbolic_terms.signs_and_rotations import rotated

from ..flags import is_equal

from ..values import WORD, address, arithmetic, bits, high_and_low, joined, low, place_of
from .objects import Register, Shift, Vector
from .processor import RETURN, Page, ReturnTo, form
from .vectors import of_quarters, quarters_of

SIZES = {"b": 1, "h": 2}  # suffixes of ldrb, strh and others
OPERATIONS = {
    "add": "add",
    "sub": "sub",
    "adds": "add",
    "subs": "sub",
    "cmp": "sub",
    "cmn": "add",
    "mul": "mul",
    "and": "and",
    "ands": "and",
    "orr": "or",
    "eor": "xor",
    "udiv": "udiv",
}


def value(cpu, x, width):
    return cpu.get(x) if isinstance(x, Register) else x.value % (1 << width)


def shifted(x: Value, width: int, shift: Shift) -> Value:
    if shift.op == "ror":
        return rotation(x, width, shift.amount)
    word, k = "shl" if shift.op == "lsl" else "lshr", shift.amount % width
    return arithmetic(word, width, x, k) if k else x


def rotation(x, width, k):
    """Rotates right by k bits."""
    k = -k % width
    if isinstance(x, int):
        return (x << k | x >> width - k) & ones(width)
    return rotated(width, lifted(x), lifted(x), k)


def operands(cpu, x):
    """Returns (width, first, second) of an instruction on two values, of which the last may be shifted."""
    *found, last = x.operands
    if not isinstance(last, Shift):
        found, last = x.operands, None
    width = found[0].width
    a, b = (value(cpu, y, width) for y in found[-2:])
    return width, a, shifted(b, width, last) if last else b


# ---- arithmetic and logic


@form("add sub", "x x x, x x i, x x x lsl, x x x lsr, w w w, w w w lsl, w w i")
@form("eor orr", "x x x, x x x lsl, x x x lsr, x x x ror, w w w, w w w lsl, w w w lsr, w w w ror")
@form("and orr", "x x i")
@form("mul udiv", "x x x, w w w")
def binary(cpu, x, to, *_):
    width, a, b = operands(cpu, x)
    cpu.put(to, 0 if x.mnemonic == "udiv" and b == 0 else arithmetic(OPERATIONS[x.mnemonic], width, a, b))


@form("add", "x x")
def add_low(cpu, x, to, source):
    """Completes the address of a page."""
    page = cpu.registers[source.name]
    if not isinstance(page, Page) or page.target != x.target:
        raise Unsupported("the rest of another address than the page's")
    name, at = page.target
    cpu.put(to, address(cpu.constants[name], at))


@form("adrp", "x")
def page(cpu, x, to):
    cpu.registers[to.name] = Page(x.target)


@form("adds subs", "x x x, x x i, x x x lsr, w w w")
@form("ands", "x x i")
@form("cmp", "x x, x i, x x lsr, w w, w i")
@form("cmn", "x i")
def with_flags(cpu, x, to, *_):
    width, a, b = operands(cpu, x)
    word = OPERATIONS[x.mnemonic]
    answer = None if x.mnemonic == "cmp" else arithmetic(word, width, a, b)
    if x.mnemonic not in ("cmp", "cmn"):
        cpu.put(to, answer)
    cpu.flags = word, width, a, b, answer


@form("madd msub", "x x x x, w w w w")
@form("umaddl", "x w w x")
def multiply_add(cpu, x, to, a, b, c):
    product = arithmetic("mul", to.width, cpu.get(a), cpu.get(b))
    cpu.put(to, arithmetic("sub" if x.mnemonic == "msub" else "add", to.width, cpu.get(c), product))


@form("umulh", "x x x")
def high_product(cpu, x, to, a, b):
    cpu.put(to, high_and_low(cpu.get(a), cpu.get(b))[0])


@form("neg mvn", "x x, w w")
def from_all(cpu, x, to, a):
    start = 0 if x.mnemonic == "neg" else ones(to.width)
    cpu.put(to, arithmetic("sub", to.width, start, cpu.get(a)))


@form("lsl lsr ror", "x x i, w w i")
def shift(cpu, x, to, a, k):
    cpu.put(to, shifted(cpu.get(a), to.width, Shift(x.mnemonic, k.value)))


@form("ubfx", "x x i i, w w i i")
def field(cpu, x, to, a, first, n):
    cpu.put(to, low(arithmetic("lshr", to.width, cpu.get(a), first.value), n.value))


@form("rev", "x x, w w")
def turned(cpu, x, to, a):
    cpu.put(to, joined(*((bits(cpu.get(a), to.width - 8 * k - 8, 8), 8) for k in range(to.width // 8))))


# ---- moves


@form("mov", "x x, w w, x i, w i")
def move(cpu, x, to, source):
    cpu.put(to, value(cpu, source, to.width))


@form("movk", "x i lsl, w i lsl")
def move_part(cpu, x, to, part, where):
    old, first = cpu.get(to), where.amount
    cpu.put(
        to,
        joined(
            (bits(old, 0, first), first),
            (part.value, 16),
            (bits(old, first + 16, to.width - first - 16), to.width - first - 16),
        ),
    )


@form("csel csinc csinv", "x x x c, w w w c")
def choose(cpu, x, to, a, b, condition):
    if cpu.test(condition):
        return cpu.put(to, cpu.get(a))
    found = cpu.get(b)
    if x.mnemonic == "csinc":
        found = arithmetic("add", to.width, found, 1)
    return cpu.put(to, arithmetic("sub", to.width, ones(to.width), found) if x.mnemonic == "csinv" else found)


@form("cset", "x c, w c")
def set_by(cpu, x, to, condition):
    cpu.put(to, int(cpu.test(condition)))


# ---- memory


def width_of(x):
    """Returns the bytes of each loaded or stored register."""
    register = x.operands[0]
    if isinstance(register, Vector):
        return {"q": 16, "d": 8, "s": 4}[register.arrangement]
    return SIZES.get(x.mnemonic[-1], register.width // 8)


@form("ldr ldur", "x m, w m, q m, d m, s m")
@form("ldp", "x x m, w w m, q q m, d d m")
@form("ldrb ldrh ldurb ldurh", "w m")
def load(cpu, x, *operands):
    (*registers, where), n = operands, width_of(x)
    memory, at = cpu.place(where, x)
    found = [
        load_lanes(memory, at, n, k) if isinstance(r, Vector) else memory.load(moved(at, n * k), n)
        for k, r in enumerate(registers)
    ]
    for register, what in zip(registers, found):
        if isinstance(register, Vector):
            cpu.vectors[register.number] = what
        else:
            cpu.put(register, what)


def moved(at, n):
    return at + n if isinstance(at, int) else arithmetic("add", WORD, at, n)


def load_lanes(memory, at, n, k):
    first = moved(at, n * k)
    return [memory.load(first, min(n, 8)), memory.load(moved(first, 8), 8) if n == 16 else 0]


@form("str stur", "x m, w m, q m, d m")
@form("stp", "x x m, w w m, q q m, d d m")
@form("strb strh sturb sturh", "w m")
def store(cpu, x, *operands):
    (*registers, where), n = operands, width_of(x)
    found = [cpu.vectors[r.number] if isinstance(r, Vector) else cpu.get(r) for r in registers]
    memory, at = cpu.place(where, x)
    for k, what in enumerate(found):
        first = moved(at, n * k)
        if isinstance(what, list):
            cpu.store(memory, first, 8, what[0])
            if n == 16:
                cpu.store(memory, moved(first, 8), 8, what[1])
        else:
            cpu.store(memory, first, n, what if n == 8 or n == 4 and registers[k].width == 32 else low(what, 8 * n))


@form("sbcs", "x x x")
def subtract_with_borrow(cpu, x, to, a, b):
    a, b = cpu.get(a), plus(cpu.get(b), int(cpu.test("cc")))
    answer = arithmetic("sub", WORD, a, low(b, WORD))
    cpu.put(to, answer)
    cpu.flags = "borrow", WORD, a, b, answer


@form("ccmp", "x x i c")
def compare_if(cpu, x, a, b, given, condition):
    """Compares if a condition holds. Otherwise sets the given flags: only 0, "unequal", is supported."""
    if cpu.test(condition):
        a, b = cpu.get(a), cpu.get(b)
        cpu.flags = "sub", WORD, a, b, None
    elif given.value == 0:
        cpu.flags = "sub", WORD, 0, 1, None
    else:
        raise Unsupported(f"the flags {given.value:#x}")


@form("ld1", "s[] m")
def load_into_lane(cpu, x, to, where):
    memory, at = cpu.place(where, x)
    parts = quarters_of(cpu.vectors[to.number])
    parts[to.lane] = memory.load(at, 4)
    cpu.vectors[to.number] = of_quarters(parts)


@form("brk", "i")
def never(cpu, x, *_):
    raise Unsupported("brk")


@form("nop", "")
def nothing(cpu, x, *_):
    pass


@form("prfm", "p m")
def prefetch(cpu, x, _, place):
    step = cpu.get(place.index) if place.index else place.offset % (1 << WORD)
    place_of(arithmetic("add", WORD, cpu.registers[place.base.name], step))  # in or near an object, and by no symbol


# ---- control


@form("b", "")
def jump(cpu, x):
    return x.target


@form("bl", "")
def call(cpu, x):
    cpu.registers[cpu.LINK] = ReturnTo(x.section, x.end)
    return x.target


@form("ret", "")
def give_back(cpu, x):
    return cpu.return_place() or RETURN


@form("b.eq b.ne b.cs b.cc b.hi b.ls b.ge b.lt b.gt b.le", "")
def jump_if(cpu, x):
    return x.target if cpu.test(x.mnemonic[2:]) else None


@form("cbz cbnz", "x, w")
def jump_if_zero(cpu, x, register):
    return x.target if is_equal(cpu, cpu.get(register), 0) == (x.mnemonic == "cbz") else None


@form("tbz", "w i, x i")
def jump_if_bit(cpu, x, register, k):
    bit = bits(cpu.get(register), k.value, 1)
    return x.target if is_equal(cpu, bit, 0) else None
