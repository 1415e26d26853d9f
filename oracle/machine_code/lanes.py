"""Semantics of vector instructions. A register of 512 bits is eight lanes of 64 bits, each a value. The older forms
keep a register's upper lanes and require aligned memory; forms with a `v` set these lanes to 0."""
from oracle.symbolic_terms import Unsupported, Value, plus

from .instructions import OLDER, V1, V2, V3, V4, VECTORS, form
from .objects import Immediate, Instruction, Place, Register
from .values import WORD, Cpu, arithmetic, bits, joined

LANE = 8     # bytes
WIDTHS = {"x": 2, "y": 4, "z": 8}     # in lanes


def is_vector(operand: object) -> bool:
    return isinstance(operand, Register) and operand.name in VECTORS


def lanes_count(x: Instruction) -> int:
    """Returns the number of lanes, 2, 4 or 8, by the widest register."""
    return max((WIDTHS[y.name[0]] for y in x.operands if is_vector(y)), default=2)


def is_new(x):
    return x.mnemonic[0] == "v"


def read(cpu: Cpu, operand: Place | Register, x: Instruction, count: int, alignment: int = 1) -> list[Value]:
    if is_vector(operand):
        return cpu.lanes(operand, count)
    memory, at = cpu.place(operand, x, alignment)
    return [cpu.load(memory, plus(at, LANE * k), LANE) for k in range(count)]


def write(cpu: Cpu, operand: Place | Register, x: Instruction, lanes: list[Value], alignment: int = 1) -> None:
    if not is_vector(operand):
        memory, at = cpu.place(operand, x, alignment)
        for k, lane in enumerate(lanes):
            cpu.store(memory, plus(at, LANE * k), LANE, lane)
        return
    register = cpu.vectors[VECTORS[operand.name]]
    register[:len(lanes)] = lanes
    if is_new(x):
        register[len(lanes):] = [0] * (len(register) - len(lanes))


def two(cpu: Cpu, x: Instruction) -> tuple[list[Value], list[Value]]:
    """Returns the two sources, the first operand's last. In the older form the destination is a source too."""
    b, a = x.operands[:-1] if is_new(x) else x.operands
    count = lanes_count(x)
    alignment = 1 if is_new(x) else LANE * count
    return read(cpu, a, x, count), read(cpu, b, x, count, alignment)


def halves(lane: Value) -> tuple[Value, Value]:
    return bits(lane, 0, 32), bits(lane, 32, 32)


def of_halves(parts: list[Value]) -> list[Value]:
    """Joins 32-bit words into lanes."""
    return [joined((parts[k], 32), (parts[k + 1], 32)) for k in range(0, len(parts), 2)]


# ---- moves

@form(V1, "movdqu movups movdqa movaps", "mx xm xx")
@form(V3, "vmovdqu vmovups vmovdqa vmovaps", "mx xm my ym")
@form(V3, "vmovdqa", "yy")
@form(V4, "vmovdqu64", "mz zm zz ym")
@form(V4, "vmovdqa64", "mz zm zz yy")
def move(cpu: Cpu, x: Instruction, source: Place | Register, to: Place | Register) -> None:
    count = lanes_count(x)
    alignment = LANE * count if x.mnemonic.strip("v64") in ("movdqa", "movaps") else 1
    write(cpu, to, x, read(cpu, source, x, count, alignment), alignment)


@form(V1, "movq", "qx xq mx")
@form(V3, "vmovq", "qx xq xx mx")
@form(V1, "movsd", "mx")
@form(V3, "vmovsd", "mx")
def move_low(cpu: Cpu, x: Instruction, source: Place | Register, to: Place | Register) -> None:
    """Moves 64 bits. A vector destination's next 64 bits become 0."""
    word = cpu.lanes(source)[0] if is_vector(source) else cpu.get(source, WORD, x)
    if is_vector(to):
        write(cpu, to, x, [word, 0])
    else:
        cpu.put(to, WORD, word, x)


@form(V3, "vmovd", "lx mx")
def move_narrow(cpu: Cpu, x: Instruction, source: Place | Register, to: Register) -> None:
    write(cpu, to, x, [cpu.get(source, 32, x), 0])


@form(V2, "pextrq", "ixq")
@form(V3, "vpextrq", "ixq")
def extract(cpu, x, k, source, to):
    cpu.put(to, WORD, cpu.lanes(source, 1, k.value & 1)[0], x)


@form(V3, "vextracti128 vextractf128", "iyx")
@form(V4, "vextracti64x4", "izy")
def extract_part(cpu, x, k, source, to):
    count, parts = WIDTHS[to.name[0]], WIDTHS[source.name[0]] // WIDTHS[to.name[0]]
    write(cpu, to, x, cpu.lanes(source, count, count * (k.value % parts)))


@form(V3, "vinserti128", "ixyy")
@form(V4, "vinserti64x4", "iyzz")
def insert_half(cpu, x, k, source, other, to):
    count = lanes_count(x) // 2
    at = count * (k.value & 1)
    half, others = read(cpu, source, x, count), cpu.lanes(other, count, count - at)
    write(cpu, to, x, half + others if not at else others + half)


@form(V3, "vpbroadcastq", "mx my xy xx")
def broadcast(cpu, x, source, to):
    word = cpu.lanes(source)[0] if is_vector(source) else cpu.get(source, WORD, x)
    write(cpu, to, x, [word] * lanes_count(x))


@form(V3, "vpbroadcastd", "mx my xx xy")
def broadcast_half(cpu, x, source, to):
    word = halves(cpu.lanes(source)[0])[0] if is_vector(source) else cpu.get(source, 32, x)
    write(cpu, to, x, of_halves([word] * 2 * lanes_count(x)))


@form(V3, "vzeroupper", "")
def zero_upper(cpu, x):
    for lanes in cpu.vectors[:OLDER]:
        lanes[2:] = [0] * (len(lanes) - 2)


# ---- sums, products, bits

def by_lane(word):
    """Returns an operation on each 64-bit lane."""
    def operation(cpu, x, a, b, *_):
        if word == "xor" and a == b:     # 0 for any content
            return write(cpu, x.operands[-1], x, [0] * lanes_count(x))
        return write(cpu, x.operands[-1], x, [arithmetic(word, WORD, p, q) for p, q in zip(*two(cpu, x))])
    return operation


def by_half(word):
    """Returns an operation on each 32-bit word."""
    def operation(cpu, x, *_):
        pairs = [pair for lanes in zip(*two(cpu, x)) for pair in zip(*map(halves, lanes))]
        write(cpu, x.operands[-1], x, of_halves([arithmetic(word, 32, p, q) for p, q in pairs]))
    return operation


NEW, WIDE = "mxx xxx myy yyy", "mzz zzz"
for mnemonic, word in (("paddq", "add"), ("psubq", "sub"), ("pxor", "xor"), ("xorps", "xor"), ("por", "or"),
                       ("pand", "and")):
    form(V1, mnemonic, "mx xx")(by_lane(word))
    form(V3, "v" + mnemonic, NEW)(by_lane(word))
for mnemonic, word in (("vpaddq", "add"), ("vpsubq", "sub"), ("vpxorq", "xor"), ("vporq", "or"), ("vpmullq", "mul")):
    form(V4, mnemonic, WIDE)(by_lane(word))
for mnemonic, word in (("paddd", "add"), ("psubd", "sub"), ("pmulld", "mul")):
    form(V2 if mnemonic == "pmulld" else V1, mnemonic, "mx xx")(by_half(word))
    form(V3, "v" + mnemonic, NEW)(by_half(word))


@form(V1, "pmuludq", "mx xx")
@form(V3, "vpmuludq", NEW)
@form(V4, "vpmuludq", WIDE)
def products(cpu, x, *_):
    pairs = zip(*two(cpu, x))
    write(cpu, x.operands[-1], x, [arithmetic("mul", WORD, halves(p)[0], halves(q)[0]) for p, q in pairs])


def shifted(word):
    def operation(cpu, x, k, *rest):
        lanes = read(cpu, rest[0], x, lanes_count(x))
        write(cpu, rest[-1], x, [arithmetic(word, WORD, lane, k.value) if k.value < WORD else 0 for lane in lanes])
    return operation


for mnemonic, word in (("psrlq", "lshr"), ("psllq", "shl")):
    form(V1, mnemonic, "ix")(shifted(word))
    form(V3, "v" + mnemonic, "ixx iyy")(shifted(word))
    form(V4, "v" + mnemonic, "izz")(shifted(word))


@form(V4, "vpmullq{1to8}", "mzz")
def products_by_one(cpu, x, source, other, to):
    """Multiplies all lanes by one word of memory."""
    factor = cpu.get(source, WORD, x)
    write(cpu, to, x, [arithmetic("mul", WORD, lane, factor) for lane in cpu.lanes(other, lanes_count(x))])


@form(V4, "vpternlogq", "izzz imzz")
def logic_of_three(cpu, x, table, c, b, a):
    """Implements only the truth table of a three-way xor."""
    if table.value != 0x96:
        raise Unsupported(f"the table {table.value:#x} of three bits")
    lanes = zip(*(read(cpu, y, x, lanes_count(x)) for y in (a, b, c)))
    write(cpu, a, x, [arithmetic("xor", WORD, arithmetic("xor", WORD, p, q), r) for p, q, r in lanes])


# ---- permutations

@form(V1, "pshufd", "ixx")
@form(V3, "vpshufd", "ixx iyy")
@form(V4, "vpshufd", "izz")
def shuffle(cpu: Cpu, x: Instruction, order: Immediate, source: Place | Register, to: Register) -> None:
    lanes, out = read(cpu, source, x, lanes_count(x)), []
    for first in range(0, len(lanes), 2):
        parts = [word for lane in lanes[first:first + 2] for word in halves(lane)]
        out += of_halves([parts[order.value >> 2 * k & 3] for k in range(4)])
    write(cpu, to, x, out)


@form(V1, "shufps", "ixx")
@form(V3, "vshufps", "ixxx")
def shuffle_two(cpu, x, order, second, first, *_):
    """Selects two words of the first source, and two of the second."""
    first, second = ([word for lane in cpu.lanes(y, 2) for word in halves(lane)] for y in (first, second))
    parts = [(first if k < 2 else second)[order.value >> 2 * k & 3] for k in range(4)]
    write(cpu, x.operands[-1], x, of_halves(parts))


@form(V1, "punpckldq", "xx mx")
@form(V3, "vpunpckldq", "xxx mxx")
def unpack_halves(cpu, x, *_):
    (a, _), (b, _) = two(cpu, x)
    write(cpu, x.operands[-1], x, of_halves([half for pair in zip(halves(a), halves(b)) for half in pair]))


@form(V1, "punpcklqdq punpckhqdq", "xx mx")
@form(V3, "vpunpcklqdq vpunpckhqdq", NEW)
@form(V1, "movlhps", "xx")
@form(V3, "vmovlhps", "xxx")
def unpack(cpu, x, *_):
    is_high, (a, b) = "hqdq" in x.mnemonic, two(cpu, x)
    write(cpu, x.operands[-1], x, [side[k + is_high] for k in range(0, len(a), 2) for side in (a, b)])


@form(V3, "vpalignr", "ixxx imxx iyyy imyy")
def align(cpu, x, k, second, first, to):
    """Shifts each pair of 128-bit parts of both sources by 64 bits."""
    if k.value != LANE:
        raise Unsupported("a shift that is no word")
    second, first = (read(cpu, y, x, lanes_count(x)) for y in (second, first))
    write(cpu, to, x, [word for k in range(0, len(second), 2) for word in (second[k + 1], first[k])])


@form(V2, "pshufb", "mx xx")
@form(V3, "vpshufb", NEW)
def shuffle_bytes(cpu, x, *_):
    (lanes, order), out = two(cpu, x), []
    for first in range(0, len(lanes), 2):
        whole = [bits(lane, 8 * k, 8) for lane in lanes[first:first + 2] for k in range(8)]
        picked = [bits(lane, 8 * k, 8) for lane in order[first:first + 2] for k in range(8)]
        if not all(isinstance(k, int) for k in picked):
            raise Unsupported("an order that is no number")
        moved = [0 if k & 128 else whole[k & 15] for k in picked]
        out += [joined(*((byte, 8) for byte in moved[at:at + 8])) for at in (0, 8)]
    write(cpu, x.operands[-1], x, out)


@form(V3, "vpblendd", "iyyy ixxx")
def blend(cpu: Cpu, x: Instruction, mask: Immediate, second: Place | Register, first: Register, to: Register) -> None:
    a, b = ([word for lane in read(cpu, y, x, lanes_count(x)) for word in halves(lane)] for y in (first, second))
    write(cpu, to, x, of_halves([(b if mask.value >> k & 1 else a)[k] for k in range(len(a))]))


@form(V3, "vpermq", "iyy")
def permute(cpu, x, order, source, to):
    lanes = read(cpu, source, x, 4)
    write(cpu, to, x, [lanes[order.value >> 2 * k & 3] for k in range(4)])


@form(V1, "pslldq psrldq", "ix")
@form(V3, "vpslldq vpsrldq", "ixx iyy")
def shift_bytes(cpu, x, k, *rest):
    lanes, out = read(cpu, rest[0], x, lanes_count(x)), []
    for first in range(0, len(lanes), 2):
        out += bytes_moved(lanes[first:first + 2], min(k.value, 16), "sll" in x.mnemonic)
    write(cpu, rest[-1], x, out)


def bytes_moved(pair, count, is_left):
    """Shifts two lanes by `count` bytes to the left or to the right, and fills with zeros."""
    moved = [bits(lane, 8 * k, 8) for lane in pair for k in range(8)]
    moved = [0] * count + moved[:16 - count] if is_left else moved[count:] + [0] * count
    return [joined(*((byte, 8) for byte in moved[at:at + 8])) for at in (0, 8)]


@form(V3, "vptest", "xx yy")
def test(cpu, x, a, b):
    """Sets the zero flag if the operands have no common bit."""
    result = 0
    for p, q in zip(*(cpu.lanes(y, lanes_count(x)) for y in (a, b))):
        result = arithmetic("or", WORD, result, p if p is q else arithmetic("and", WORD, p, q))
    cpu.set_flags("shift", WORD, None, None, result)
