"""The instructions of the second engine's processor, by their mnemonics in objdump's text."""
from typing import Callable

from .machine import LANES, Processor, Refused, width_of
from .terms import (
    add,
    bitwise,
    constant,
    cut,
    join,
    multiply,
    product,
    rotate_left,
    shift_left,
    shift_right,
    subtract,
    swapped,
    widened,
)

SCALARS, VECTORS = {}, {}


def of(table, names):
    def put(function):
        table.update(dict.fromkeys(names.split(), function))
        return function

    return put


# ---- words


@of(SCALARS, "mov movabs movq movl movb movw movzbl movzwl movbe")
def move(cpu, mnemonic, operands, target):
    if any(x.startswith(("%xmm", "%ymm")) for x in operands):
        return NotImplemented
    narrow = {"movzbl": 8, "movzwl": 16}.get(mnemonic)
    width = width_of(mnemonic, operands)
    x = cpu.get(operands[0], narrow or width, target)
    cpu.put(operands[1], swapped(x) if mnemonic == "movbe" else widened(x, width), target)


@of(SCALARS, "bswap")
def swap(cpu, _, operands, __):
    width = width_of("", operands)
    cpu.put(operands[0], swapped(cpu.get(operands[0], width)))


@of(SCALARS, "lea")
def load_address(cpu, mnemonic, operands, target):
    cpu.put(operands[1], cut(cpu.address(operands[0], target), 0, width_of(mnemonic, operands)))


@of(SCALARS, "push pop")
def on_stack(cpu, mnemonic, operands, _):
    if mnemonic == "push":
        cpu.push(cpu.get(operands[0], 64))
    else:
        cpu.put(operands[0], cpu.pop())


BINARY: dict[str, Callable] = {
    "add": add,
    "sub": subtract,
    "cmp": subtract,
    "and": lambda a, b: bitwise("and", a, b),
    "or": lambda a, b: bitwise("or", a, b),
    "xor": lambda a, b: bitwise("xor", a, b),
    "test": lambda a, b: bitwise("and", a, b),
}


@of(SCALARS, " ".join(f"{name}{size}" for name in BINARY for size in ("", "b", "w", "l", "q")))
def binary(cpu, mnemonic, operands, target):
    name = mnemonic if mnemonic in BINARY else mnemonic[:-1]
    width = width_of(mnemonic, operands)
    b, a = (cpu.get(x, width, target) for x in operands)
    result = BINARY[name](a, b)
    cpu.flags = ({"add": "add", "sub": "sub", "cmp": "sub"}.get(name, "logic"), a, b, result)
    if name not in ("cmp", "test"):
        cpu.put(operands[1], result, target)


@of(SCALARS, "inc dec neg not incq decq")
def unary(cpu, mnemonic, operands, target):
    width = width_of(mnemonic, operands)
    x = cpu.get(operands[0], width, target)
    if mnemonic == "not":
        cpu.put(operands[0], bitwise("xor", x, constant(-1, width)), target)
        return
    a, b = (constant(0, width), x) if mnemonic == "neg" else (x, constant(1, width))
    result = add(a, b) if mnemonic.startswith("inc") else subtract(a, b)
    cpu.flags = ("sub" if mnemonic == "neg" else "step", a, b, result)
    cpu.put(operands[0], result, target)


@of(SCALARS, "shl shr rol ror rorx")
def shift(cpu, mnemonic, operands, target):
    width = width_of(mnemonic, operands[-1:])
    by = cpu.number(cpu.get(operands[0], 8)) % width if len(operands) > 1 else 1
    x = cpu.get(operands[-2] if mnemonic == "rorx" else operands[-1], width, target)
    result = {"shl": shift_left, "shr": shift_right, "rol": rotate_left}.get(mnemonic, lambda x, k: rotate_left(x, -k))(
        x, by
    )
    cpu.flags = ("shift", None, None, result) if mnemonic in ("shl", "shr") else None
    cpu.put(operands[-1], result, target)


@of(SCALARS, "shld shrd")
def double_shift(cpu, mnemonic, operands, target):
    width = width_of(mnemonic, operands[1:])
    by, b, a = cpu.number(cpu.get(operands[0], 8)) % width, *(cpu.get(x, width, target) for x in operands[1:])
    whole = join(b, a) if mnemonic == "shld" else join(a, b)
    cpu.put(operands[2], cut(whole, width - by if mnemonic == "shld" else by, width), target)
    cpu.flags = None


@of(SCALARS, "imul mul mulx div")
def multiplied(cpu, mnemonic, operands, target):
    width = width_of(mnemonic, operands)
    if mnemonic == "div":
        whole = (
            cpu.number(cpu.registers["rax"]) + (cpu.number(cpu.registers["rdx"]) << 64)
            if width == 64
            else cpu.number(cut(cpu.registers["rax"], 0, 32)) + (cpu.number(cut(cpu.registers["rdx"], 0, 32)) << 32)
        )
        quotient, rest = divmod(whole, cpu.number(cpu.get(operands[0], width, target)))
        cpu.registers |= {"rax": constant(quotient, 64), "rdx": constant(rest, 64)}
    elif mnemonic == "mul" and width == 64:
        cpu.registers["rax"], cpu.registers["rdx"] = product(cpu.registers["rax"], cpu.get(operands[0], 64, target))
    elif mnemonic == "mulx" and width == 64:
        low, high = product(cpu.registers["rdx"], cpu.get(operands[0], 64, target))
        cpu.put(operands[1], low)
        cpu.put(operands[2], high)
    elif mnemonic == "imul" and len(operands) > 1:
        cpu.put(operands[-1], multiply(cpu.get(operands[0], width, target), cpu.get(operands[1], width, target)))
    else:
        raise Refused(f"{mnemonic} of {width} bits")
    cpu.flags = None if mnemonic != "mulx" else cpu.flags


CONDITIONS = "e", "ne", "b", "ae", "a", "be"


@of(SCALARS, " ".join(f"set{x} cmov{x}" for x in CONDITIONS))
def by_condition(cpu, mnemonic, operands, target):
    if mnemonic.startswith("set"):
        cpu.put(operands[0], constant(cpu.condition(mnemonic[3:]), 8), target)
        return
    width = width_of("", operands)
    there, here = (cpu.get(x, width, target) for x in operands)
    cpu.put(operands[1], there if cpu.condition(mnemonic[4:]) else here)


# ---- vectors


def count_of(operands):
    return max(LANES[x[1]] for x in operands if x[0] == "%" and x[1:4] in ("xmm", "ymm", "zmm"))


def in_halves(operation):
    return lambda a, b: join(operation(cut(a, 0, 32), cut(b, 0, 32)), operation(cut(a, 32, 32), cut(b, 32, 32)))


def of_low_halves(a, b):
    return multiply(widened(cut(a, 0, 32), 64), widened(cut(b, 0, 32), 64))


LANEWISE = {
    "paddq": add,
    "psubq": subtract,
    "pxor": BINARY["xor"],
    "xorps": BINARY["xor"],
    "pxorq": BINARY["xor"],
    "pmuludq": of_low_halves,
    "pmulld": in_halves(multiply),
    "paddd": in_halves(add),
    "pmullq": multiply,
}


@of(VECTORS, " ".join(f"{v}{name}{b}" for v in ("", "v") for name in LANEWISE for b in ("", "{1to8}")))
def lanewise(cpu, mnemonic, operands, target):
    is_wide, name = mnemonic[0] == "v", mnemonic.removeprefix("v").removesuffix("{1to8}")
    count = count_of(operands)
    second = [cpu.lanes(operands[0], 1, target)[0]] * count if mnemonic.endswith("}") else None
    if operands[0] == operands[1] and name in ("pxor", "xorps", "pxorq"):
        found = [constant(0, 64)] * count
    else:
        second = second or cpu.lanes(operands[0], count, target)
        found = [LANEWISE[name](a, b) for a, b in zip(cpu.lanes(operands[1], count), second)]
    cpu.put_lanes(operands[-1], found, not is_wide)


@of(VECTORS, "movaps movups movdqa movdqu vmovaps vmovups vmovdqa vmovdqu vmovdqa64 vmovdqu64")
def move_vector(cpu, mnemonic, operands, target):
    cpu.put_lanes(operands[1], cpu.lanes(operands[0], count_of(operands), target), mnemonic[0] != "v", target)


@of(VECTORS, "movq vmovq")
def move_word(cpu, mnemonic, operands, target):
    if operands[1].startswith("%xmm"):
        x = cpu.lanes(operands[0], 1)[0] if operands[0].startswith("%xmm") else cpu.get(operands[0], 64, target)
        cpu.put_lanes(operands[1], [x, constant(0, 64)], mnemonic[0] != "v")
    else:
        cpu.put(operands[1], cpu.lanes(operands[0], 1)[0], target)


@of(VECTORS, "pextrq vpextrq")
def extract_word(cpu, _, operands, target):
    cpu.put(operands[2], cpu.lanes(operands[1], 2)[int(operands[0][1:], 16) & 1], target)


@of(VECTORS, "psllq psrlq vpsllq vpsrlq")
def shift_lanes(cpu, mnemonic, operands, _):
    by, shift_one = int(operands[0][1:], 16), shift_left if "sll" in mnemonic else shift_right
    found = [shift_one(x, by) for x in cpu.lanes(operands[-1 if mnemonic[0] == "p" else 1], count_of(operands))]
    cpu.put_lanes(operands[-1], found, mnemonic[0] != "v")


@of(VECTORS, "pshufd vpshufd")
def shuffle(cpu, mnemonic, operands, target):
    by, lanes = int(operands[0][1:], 16), cpu.lanes(operands[1], count_of(operands), target)
    found = []
    for k in range(0, len(lanes), 2):
        parts = [cut(lanes[k + j // 2], 32 * (j % 2), 32) for j in range(4)]
        chosen = [parts[by >> 2 * j & 3] for j in range(4)]
        found += [join(*chosen[:2]), join(*chosen[2:])]
    cpu.put_lanes(operands[-1], found, mnemonic[0] != "v")


@of(VECTORS, "vshufps")
def shuffle_two(cpu, mnemonic, operands, target):
    """Takes two words of the first source, which is written last, and two of the second."""
    by, (second, first) = int(operands[0][1:], 16), (cpu.lanes(x, count_of(operands), target) for x in operands[1:3])
    parts = [
        cut(lanes[k // 2], 32 * (k % 2), 32)
        for lanes, places in ((first, (0, 2)), (second, (4, 6)))
        for k in (by >> place & 3 for place in places)
    ]
    if len(first) != 2:
        raise Refused(f"{mnemonic} of {len(first)} lanes")
    cpu.put_lanes(operands[-1], [join(*parts[:2]), join(*parts[2:])], False)


@of(VECTORS, "punpcklqdq punpckhqdq vpunpcklqdq vpunpckhqdq")
def unpack(cpu, mnemonic, operands, target):
    count, at = count_of(operands), int("hqdq" in mnemonic)
    second, first = (cpu.lanes(x, count, target) for x in operands[:2])
    cpu.put_lanes(
        operands[-1], [x for k in range(0, count, 2) for x in (first[k + at], second[k + at])], mnemonic[0] != "v"
    )


@of(VECTORS, "vextracti128 vextractf128 vextracti64x4")
def extract_half(cpu, mnemonic, operands, target):
    half = 2 if mnemonic.endswith("128") else 4
    at = half * (int(operands[0][1:], 16) & 1)
    cpu.put_lanes(operands[2], cpu.lanes(operands[1], 2 * half)[at : at + half], False, target)


@of(VECTORS, "vinserti64x4 vinserti128")
def insert_half(cpu, mnemonic, operands, target):
    half = 2 if mnemonic.endswith("128") else 4
    whole, at = cpu.lanes(operands[2], 2 * half), half * (int(operands[0][1:], 16) & 1)
    cpu.put_lanes(operands[3], whole[:at] + cpu.lanes(operands[1], half, target) + whole[at + half :])


@of(VECTORS, "movd vmovd")
def move_half(cpu, mnemonic, operands, target):
    if not operands[1].startswith("%xmm"):
        cpu.put(operands[1], cut(cpu.lanes(operands[0], 1)[0], 0, 32), target)
        return
    x = cpu.get(operands[0], 32, target)
    cpu.put_lanes(operands[1], [widened(x, 64), constant(0, 64)], mnemonic[0] != "v")


@of(VECTORS, "vpbroadcastd vpbroadcastq")
def broadcast(cpu, mnemonic, operands, target):
    width = 32 if mnemonic.endswith("d") else 64
    source = operands[0]
    x = cut(cpu.lanes(source, 1)[0], 0, width) if source.startswith("%xmm") else cpu.get(source, width, target)
    cpu.put_lanes(operands[1], [join(x, x) if width == 32 else x] * count_of(operands[1:]))


@of(VECTORS, "vpternlogq")
def ternary(cpu, _, operands, target):
    """Combines three vectors by a table of eight bits, as a sum modulo 2 of products."""
    by, count = int(operands[0][1:], 16), count_of(operands)
    vectors = [cpu.lanes(operands[3], count), cpu.lanes(operands[2], count), cpu.lanes(operands[1], count, target)]
    terms = [bin(sum((by >> k & 1) << k for k in range(8) if k & m == k)).count("1") & 1 for m in range(8)]
    found = []
    for parts in zip(*vectors):
        out = constant(0, 64)
        for m in range(8):
            if terms[m]:
                chosen = [x for x, bit in zip(parts, (4, 2, 1)) if m & bit]
                out = bitwise("xor", out, bitwise("and", constant(-1, 64), *chosen) if chosen else constant(-1, 64))
        found.append(out)
    cpu.put_lanes(operands[3], found)


@of(VECTORS, "vzeroupper")
def zero_upper(cpu, *_):
    for lanes in cpu.vectors.values():
        lanes[2:] = [constant(0, 64)] * 6


@of(VECTORS, "pshufb vpshufb")
def shuffle_bytes(cpu, mnemonic, operands, target):
    """Chooses bytes by a number, in each 16 bytes."""
    count = count_of(operands)
    chosen, lanes = cpu.lanes(operands[0], count, target), cpu.lanes(operands[1], count)
    found = []
    for k in range(0, count, 2):
        numbers, whole = [cpu.number(cut(x, 8 * j, 8)) for x in chosen[k : k + 2] for j in range(8)], join(
            *lanes[k : k + 2]
        )
        parts = [constant(0, 8) if at & 128 else cut(whole, 8 * (at & 15), 8) for at in numbers]
        found += [join(*parts[:8]), join(*parts[8:])]
    cpu.put_lanes(operands[-1], found, mnemonic[0] != "v")


Processor.tables = SCALARS, VECTORS
