"""Forms of instructions that compilers of C use and the assembly sources don't. Importing this module adds them to the
table."""
from oracle.symbolic_terms import Node, Unsupported, ones

from .. import lanes, scalar
from ..flags import carry
from ..instructions import V1, V2, V3, form
from ..lanes import halves, lanes_count, of_halves, read, two, write
from ..memory import ReturnTo
from ..values import WORD, Address, arithmetic, bits, combined, joined, low_bits, place_of

HIGHEST = 1 << WORD - 1

for name, op in (("add", "add"), ("sub", "sub"), ("xor", "logic"), ("or", "logic"), ("and", "logic")):
    form(V1, name, "lm qm")(scalar.binary(name, op))
    form(V1, f"{name}l {name}q", "im")(scalar.binary(name, op))
form(V1, "testb", "im")(scalar.test)
form(V1, "movb", "im")(scalar.move)
form(V1, "mov", "mb")(scalar.move)
form(V3, "vmovdqa", "xx")(lanes.move)
form(V3, "vpblendd", "imyy imxx")(lanes.blend)
form(V3, "vpshufd", "imx imy")(lanes.shuffle)
form(V1, "movq", "xm")(lanes.move_low)
form(V3, "vmovq", "xm")(lanes.move_low)
form(V1, "movd", "lx mx")(lanes.move_narrow)


@form(V1, "and", "il iq")
def mask(cpu, x, number, to):
    """Also takes the low bits of an address, or rounds it down."""
    width, value = cpu.width(x), cpu.whole(to)
    if not isinstance(value, Address):
        return scalar.binary("and", "logic")(cpu, x, number, to)
    is_down = width == WORD and number.value & HIGHEST
    below = low_bits(value, -number.value % (1 << WORD) - 1 if is_down else number.value)
    cpu.put(to, width, combined(value, below, -1) if is_down else below, x)
    cpu.forget_flags()


@form(V1, "mov", "bm")
def store_byte(cpu, x, source, to):
    """Stores a register's lowest byte as bits of its word, which the bytes of a word then make up again."""
    word = cpu.whole(source)
    cpu.put(to, 8, bits(word, 0, 8) if isinstance(word, Node) else cpu.get(source, 8, x), x)


@form(V1, "push", "m")
def push(cpu, x, source):
    """Also copies a return address, as gcc does where it aligns the stack: no instruction returns to the copy."""
    memory, at = cpu.place(source, x)
    cpu.push(memory.load(at, 8))


@form(V1, "pop", "q")
def pop(cpu, x, to):
    """Also pops what an earlier call left, to move the stack pointer: a place to return to has any value."""
    value = cpu.pop()
    cpu.put(to, WORD, cpu.fresh("a return address") if isinstance(value, ReturnTo) else value, x)


@form(V1, "leave", "")
def leave(cpu, x):
    cpu.move_stack(cpu.registers["rbp"])
    value = cpu.pop()
    if isinstance(value, ReturnTo):
        raise Unsupported("a place to return to as a value")
    cpu.registers["rbp"] = value


@form(V1, "rep-movsq", "")
def copy_upwards(cpu, x):
    """Copies rcx words upwards: the direction flag is 0 at each call, by the calling convention."""
    count = cpu.registers["rcx"]
    if not isinstance(count, int):
        raise Unsupported("a copy of a number of words that is no number")
    for _ in range(count):
        (source, first), (to, at) = (place_of(cpu.registers[name]) for name in ("rsi", "rdi"))
        cpu.store(to, at, 8, cpu.load(source, first, 8))
        cpu.registers.update({name: arithmetic("add", WORD, cpu.registers[name], 8) for name in ("rsi", "rdi")})
    cpu.registers["rcx"] = 0


@form(V1, "sbb", "ll qq")
def subtract_with_borrow(cpu, x, source, to):
    """Also subtracts a register, with any content, from itself."""
    if source != to:
        return scalar.subtract_with_borrow(cpu, x, source, to)
    width, borrow = cpu.width(x), int(carry(cpu))
    cpu.put(to, width, -borrow & ones(width), x)
    cpu.set_flags("borrow", width, 0, borrow, -borrow & ones(width))


@form(V1, "ror", "il iq l q")
def rotate_right(cpu, x, *operands):
    (*amount, to), width = operands, cpu.width(x)
    k, value = amount[0].value % width if amount else 1, cpu.get(to, width, x)
    cpu.put(to, width, scalar.side_shifted(width, value, value, -k % width), x)
    cpu.forget_flags()


@form(V1, "movd", "xl xm")
@form(V3, "vmovd", "xl xm")
def move_low_half(cpu, x, source, to):
    cpu.put(to, 32, bits(cpu.lanes(source)[0], 0, 32), x)


@form(V1, "movhlps", "xx")
def move_high_to_low(cpu, x, source, to):
    write(cpu, to, x, [cpu.lanes(source, 2)[1], cpu.lanes(to, 2)[1]])


@form(V1, "movhps", "xm")
@form(V3, "vmovhps", "xm")
def store_high(cpu, x, source, to):
    cpu.put(to, WORD, cpu.lanes(source, 1, 1)[0], x)


@form(V1, "movhps", "mx")
def load_high(cpu, x, source, to):
    write(cpu, to, x, [cpu.lanes(to)[0], cpu.get(source, WORD, x)])


@form(V1, "punpckhdq", "xx mx")
@form(V3, "vpunpckhdq", "xxx mxx")
def unpack_high_halves(cpu, x, *_):
    (_, a), (_, b) = two(cpu, x)
    write(cpu, x.operands[-1], x, of_halves([half for pair in zip(halves(a), halves(b)) for half in pair]))


@form(V2, "pextrd", "ixl")
@form(V3, "vpextrd", "ixl")
def extract_half(cpu, x, k, source, to):
    cpu.put(to, 32, bits(cpu.lanes(source, 2)[k.value >> 1 & 1], 32 * (k.value & 1), 32), x)


@form(V2, "pinsrd", "ilx imx")
@form(V3, "vpinsrd", "ilxx imxx")
def insert_half(cpu, x, k, source, *rest):
    parts = [half for lane in cpu.lanes(rest[0], 2) for half in halves(lane)]
    parts[k.value & 3] = cpu.get(source, 32, x)
    write(cpu, rest[-1], x, of_halves(parts))


@form(V2, "pinsrq", "iqx imx")
@form(V3, "vpinsrq", "iqxx imxx")
def insert_lane(cpu, x, k, source, *rest):
    parts = [*cpu.lanes(rest[0], 2)]
    parts[k.value & 1] = cpu.get(source, WORD, x)
    write(cpu, rest[-1], x, parts)


@form(V3, "vperm2i128", "iyyy imyy")
def permute_parts(cpu, x, order, second, first, to):
    a, b = read(cpu, first, x, 4), read(cpu, second, x, 4)
    parts = [a[:2], a[2:], b[:2], b[2:]]
    chosen = [[0, 0] if order.value >> at & 8 else parts[order.value >> at & 3] for at in (0, 4)]
    write(cpu, to, x, [lane for part in chosen for lane in part])


@form(V3, "vpsrlvd vpsllvd", "mxx xxx")
@form(V3, "vpsrlvq vpsllvq", "mxx xxx myy yyy")
def shift_each(cpu, x, amounts, source, to):
    """Shifts each word of 32 or 64 bits by its own amount."""
    word, width, count = "lshr" if "srl" in x.mnemonic else "shl", {"d": 32, "q": WORD}[x.mnemonic[-1]], lanes_count(x)
    values, counts = (lanes_in(read(cpu, operand, x, count), width) for operand in (source, amounts))
    if not all(isinstance(k, int) for k in counts):
        raise Unsupported("an amount that is no number")
    out = [arithmetic(word, width, a, k) if k < width else 0 for a, k in zip(values, counts)]
    write(cpu, to, x, out if width == WORD else of_halves(out))


def lanes_in(lanes, width):
    """Splits lanes into words of a width."""
    return [bits(lane, first, width) for lane in lanes for first in range(0, WORD, width)]


def of_quarters(parts):
    """Joins words of 16 bits into lanes."""
    return [joined(*((word, 16) for word in parts[k : k + 4])) for k in range(0, len(parts), 4)]


@form(V2, "pblendw", "ixx")
def blend_quarters(cpu, x, mask, source, to):
    a, b = (lanes_in(cpu.lanes(operand, 2), 16) for operand in (to, source))
    write(cpu, to, x, of_quarters([(b if mask.value >> k & 1 else a)[k] for k in range(8)]))


@form(V3, "vpunpcklwd", "xxx")
def unpack_low_quarters(cpu, x, *_):
    a, b = (lanes_in(lanes, 16) for lanes in two(cpu, x))
    write(cpu, x.operands[-1], x, of_quarters([word for pair in zip(a[:4], b[:4]) for word in pair]))


@form(V1, "movddup", "xx mx")
def duplicate(cpu, x, source, to):
    write(cpu, to, x, 2 * [cpu.lanes(source)[0] if lanes.is_vector(source) else cpu.get(source, WORD, x)])
