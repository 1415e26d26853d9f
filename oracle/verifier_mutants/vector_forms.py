"""Tests each form of the vector instructions on numbers, beside the processor's manual on Python's integers: the
result, what else is changed, alignments, and the instruction set that has the form. Each takes a random generator and
raises Wrong."""

import functools
import itertools
import operator
import types

from oracle.machine_code import lanes
from oracle.machine_code.instructions import NAMES, TABLE, V1, V2, V3, V4, known
from oracle.machine_code.memory import WordMemory
from oracle.machine_code.objects import Immediate, Place, Register
from oracle.machine_code.values import address
from oracle.symbolic_terms import Undecided, Unsupported, symbol

from .processors import instruction, new_processor
from .values import Wrong, expect, refuses

SIZES = {"x": 128, "y": 256, "z": 512}
WHOLE, BASE = 512, 64  # bits of a register; offset of the memory operand
REFUSED = Unsupported, Undecided
# Mnemonics of SSSE3 and SSE4.1, and those that AVX-512 has for narrower vectors too. AVX and AVX2 have a `v`.
OF_V2 = "pshufb", "pmulld", "pextrq"
OF_V4 = "vmovdqu64", "vmovdqa64", "vpmullq", "vpternlogq", "vpxorq", "vporq", "vextracti64x4", "vinserti64x4"
ALIGNED = "movdqa", "movaps", "vmovdqa", "vmovaps", "vmovdqa64"
UNALIGNED = "movdqu", "movups", "vmovdqu", "vmovups", "vmovdqu64"


# ---- the manual


def split(x, width, size):
    """Returns the elements of a width, the lowest first."""
    return [x >> at & (1 << width) - 1 for at in range(0, size, width)]


def whole(parts, width):
    return sum(part << width * k for k, part in enumerate(parts))


def elements(width, of_two):
    """Returns an operation on each element of a width."""
    return lambda size, _, a, b: whole(
        [of_two(p, q) % (1 << width) for p, q in zip(split(a, width, size), split(b, width, size))], width
    )


def in_parts(of_part):
    """Returns an operation on each 128-bit part of the sources."""
    return lambda size, k, *sources: whole(
        [of_part(k, *parts) for parts in zip(*(split(x, 128, size) for x in sources))], 128
    )


def dwords_of(x):
    return split(x, 32, 128)


def selected(order, dwords):
    return [dwords[order >> 2 * k & 3] for k in range(4)]


def bytes_selected(_, x, order):
    data, picked = split(x, 8, 128), split(order, 8, 128)
    return whole([0 if k & 128 else data[k & 15] for k in picked], 8)


def interleaved(a, b):
    return [part for pair in zip(a, b) for part in pair]


def blended(size, mask, a, b):
    pairs = zip(split(a, 32, size), split(b, 32, size))
    return whole([pair[mask >> k & 1] for k, pair in enumerate(pairs)], 32)


def shifted(by):
    return lambda size, k, x: whole([by(part, k) % (1 << 64) if k < 64 else 0 for part in split(x, 64, size)], 64)


LOWER = in_parts(lambda _, a, b: whole([split(a, 64, 128)[0], split(b, 64, 128)[0]], 64))
XOR = elements(64, operator.xor)
# The result by the number of bits, the immediate operand, and the sources, the older form's destination first.
TWO = {
    "paddq": elements(64, operator.add),
    "psubq": elements(64, operator.sub),
    "pmullq": elements(64, operator.mul),
    "paddd": elements(32, operator.add),
    "psubd": elements(32, operator.sub),
    "pmulld": elements(32, operator.mul),
    "pmuludq": elements(64, lambda p, q: p % (1 << 32) * (q % (1 << 32))),
    **dict.fromkeys(("pxor", "xorps", "pxorq"), XOR),
    **dict.fromkeys(("por", "porq"), elements(64, operator.or_)),
    "pand": elements(64, operator.and_),
    "punpckldq": in_parts(lambda _, a, b: whole(interleaved(dwords_of(a)[:2], dwords_of(b)[:2]), 32)),
    "punpcklqdq": LOWER,
    "movlhps": LOWER,
    "punpckhqdq": in_parts(lambda _, a, b: whole([split(a, 64, 128)[1], split(b, 64, 128)[1]], 64)),
    "pshufb": in_parts(bytes_selected),
    "palignr": in_parts(lambda k, a, b: ((a << 128 | b) >> 8 * k) % (1 << 128)),
    "pblendd": blended,
    "shufps": in_parts(lambda k, a, b: whole(selected(k, dwords_of(a))[:2] + selected(k, dwords_of(b))[2:], 32)),
    "pternlogq": lambda size, _, a, b, c: a ^ b ^ c,
}
ONE = {
    "psrlq": shifted(operator.rshift),
    "psllq": shifted(operator.lshift),
    "pshufd": in_parts(lambda k, x: whole(selected(k, dwords_of(x)), 32)),
    "permq": lambda size, k, x: whole(selected(k, split(x, 64, size)), 64),
    "pslldq": in_parts(lambda k, x: (x << 8 * min(k, 16)) % (1 << 128)),
    "psrldq": in_parts(lambda k, x: x >> 8 * min(k, 16)),
    **dict.fromkeys((name.removeprefix("v") for name in ALIGNED + UNALIGNED), lambda size, _, x: x),
}
SHIFTS, ORDERS = (0, 1, 13, 32, 63, 64, 200), (0, 0x1B, 0x4E, 0xB1, 0xD8, 0xFF)
NUMBERS: dict[str, tuple[int, ...]] = {
    "pternlogq": (0x96,),
    "palignr": (8,),
    **dict.fromkeys(("psrlq", "psllq"), SHIFTS),
}
NUMBERS.update(dict.fromkeys(("pslldq", "psrldq"), (0, 1, 5, 8, 15, 16, 17, 200)))
# Moves of one word, of a part, and repeated words: the letters of the forms, and bits.
ELEMENTS = {
    **dict.fromkeys(("movq", "vmovq"), (64, "qx xq mx xx")),
    **dict.fromkeys(("movsd", "vmovsd"), (64, "mx")),
    "vmovd": (32, "lx mx"),
}
EXTRACTED = {"vextracti128": ("iyx", 128), "vextractf128": ("iyx", 128), "vextracti64x4": ("izy", 256)}
INSERTED = {"vinserti128": ("ixyy", 128), "vinserti64x4": ("iyzz", 256)}
REPEATED = {"vpbroadcastq": 64, "vpbroadcastd": 32}


# ---- a processor with numbers


def built(mnemonic, letters, k=0):
    """Returns an instruction of a form, whose vectors are registers 1, 2, .. and whose memory is at rdi."""
    others = {"i": Immediate(k), "m": Place(0, "rdi", None, 1), "q": Register("rbx"), "l": Register("ebx")}
    vectors = (f"mm{number}" for number in itertools.count(1))
    return instruction(mnemonic, *(others[one] if one in others else Register(one + next(vectors)) for one in letters))


def state(rng, at=BASE):
    """Returns a processor whose vectors and memory are random numbers, the vectors, and the memory."""
    cpu = new_processor()
    vectors = [rng.getrandbits(WHOLE) for _ in cpu.vectors]
    cpu.vectors = [split(x, 64, WHOLE) for x in vectors]
    stored = rng.getrandbits(3 * WHOLE)
    memory = WordMemory("m", 192, [(8 * k, 8, x) for k, x in enumerate(split(stored, 64, 3 * WHOLE))], alignment=64)
    cpu.registers["rdi"] = address(memory, at)
    return cpu, vectors, stored >> 8 * at


def read(operand, vectors, stored, size):
    return (stored if isinstance(operand, Place) else vectors[int(operand.name[3:])]) % (1 << size)


def expect_vectors(cpu, vectors, what, changed=None, value=0, is_new=True, size=128):
    """Checks that only one vector has changed: to a value, below which lie the other bits or 0."""
    for number, before in enumerate(vectors):
        above = 0 if is_new else before >> size << size
        expected = value | above if number == changed else before
        if whole(cpu.vectors[number], 64) != expected:
            raise Wrong(f"{what}: {whole(cpu.vectors[number], 64):#x} and not {expected:#x} in vector {number}")


def run(cpu, x, letters):
    TABLE[x.mnemonic, letters][1](cpu, x)


# ---- the tests


def results(rng):
    """Compares the forms with a result in each element or part with the manual."""
    for mnemonic, letters in TABLE:
        base, is_new = mnemonic.removeprefix("v"), mnemonic[0] == "v"
        if base not in {**TWO, **ONE} or letters[-1] == "m":
            continue
        for k in NUMBERS.get(base, ORDERS) if "i" in letters else (0, 0):
            cpu, vectors, stored = state(rng)
            x = built(mnemonic, letters, k)
            *sources, to = x.operands[letters.count("i") :]
            is_source = base in TWO and (not is_new or base == "pternlogq") or not sources
            sources, size = [*([to] if is_source else []), *reversed(sources)], SIZES[to.name[0]]
            values = [read(y, vectors, stored, size) for y in sources]
            run(cpu, x, letters)
            value = {**TWO, **ONE}[base](size, k, *values)
            expect_vectors(cpu, vectors, f"{mnemonic} {letters} {k}", int(to.name[3:]), value, is_new, size)


def each_form(_):
    """Tests that each form with a vector has a test here."""
    others = {*ELEMENTS, "pextrq", "vpextrq", "vptest", "vpmullq{1to8}", *EXTRACTED, *INSERTED, *REPEATED}
    for mnemonic, letters in TABLE:
        is_tested = mnemonic in others or mnemonic.removeprefix("v") in {**TWO, **ONE}
        expect(is_tested or not any(one in SIZES for one in letters), True, f"a test of {mnemonic} {letters}")
    for mnemonic in (*TWO, *ONE):
        is_there = any(name.removeprefix("v") == mnemonic for name, _ in TABLE)
        expect(is_there, True, f"a form of {mnemonic}")


def stores(rng):
    """Compares what moves store with the source, and refuses places that aren't aligned if the form requires it."""
    for mnemonic, letters in TABLE:
        size = max(SIZES.get(one, 0) for one in letters or "i")
        base = mnemonic.removeprefix("v")
        if not size or "m" not in letters or base not in {**TWO, **ONE} or "{" in mnemonic:
            continue
        is_aligned = mnemonic in ALIGNED or mnemonic[0] != "v" and mnemonic not in UNALIGNED
        for at in (0, 64, size // 16, 8, 3 if letters[-1] != "m" else 8):
            cpu, vectors, stored = state(rng, at)
            x = built(mnemonic, letters, {"palignr": 8, "pternlogq": 0x96}.get(base, 1))
            if is_aligned and at % (size // 8):
                refuses(lambda: run(cpu, x, letters), f"{mnemonic} {letters} at {at}", REFUSED)
                continue
            run(cpu, x, letters)
            if letters[-1] == "m":
                memory, _ = cpu.registers["rdi"].place()
                found = whole([memory.load(at + 8 * k, 8) for k in range(size // 64)], 64)
                expect(found == vectors[1] % (1 << size), True, f"{mnemonic} stored")
                expect(memory.load(at + size // 8, 8) == stored >> size & (1 << 64) - 1, True, f"behind {mnemonic}")
                expect_vectors(cpu, vectors, f"{mnemonic} {letters}")


def single_elements(rng):
    """Tests moves of one word between vectors, registers and memory: the other bits of a vector become 0."""
    for mnemonic, (width, forms) in ELEMENTS.items():
        for letters in forms.split():
            if (mnemonic, letters) not in TABLE:
                continue
            cpu, vectors, stored = state(rng)
            source = {"m": stored, "x": vectors[1]}.get(letters[0], cpu.registers["rbx"]) % (1 << width)
            run(cpu, built(mnemonic, letters), letters)
            if letters == "xq":
                expect(cpu.registers["rbx"], source, f"{mnemonic} to a register")
                expect_vectors(cpu, vectors, mnemonic)
            else:
                number = letters.count("x")
                expect_vectors(cpu, vectors, f"{mnemonic} {letters}", number, source, mnemonic[0] == "v")
    for mnemonic, k in ((name, k) for name in ("pextrq", "vpextrq") for k in (0, 1, 2, 3)):
        cpu, vectors, _ = state(rng)
        run(cpu, built(mnemonic, "ixq", k), "ixq")
        expect(cpu.registers["rbx"], split(vectors[1], 64, WHOLE)[k % 2], f"{mnemonic} of element {k}")


def parts(rng):
    """Tests extracted, inserted and repeated parts, and the upper parts that are cleared."""
    for mnemonic, (letters, size) in EXTRACTED.items():
        for k in range(4):
            cpu, vectors, _ = state(rng)
            run(cpu, built(mnemonic, letters, k), letters)
            expect_vectors(cpu, vectors, mnemonic, 2, vectors[1] >> size * (k % 2) & (1 << size) - 1)
    for mnemonic, (letters, size) in INSERTED.items():
        for k in range(4):
            cpu, vectors, _ = state(rng)
            run(cpu, built(mnemonic, letters, k), letters)
            both = split(vectors[2], size, 2 * size)
            both[k % 2] = vectors[1] % (1 << size)
            expect_vectors(cpu, vectors, mnemonic, 3, whole(both, size))
    for mnemonic, width in REPEATED.items():
        for letters in ("mx", "my", "xx", "xy"):
            cpu, vectors, stored = state(rng)
            run(cpu, built(mnemonic, letters), letters)
            word = (stored if letters[0] == "m" else vectors[1]) % (1 << width)
            expect_vectors(
                cpu,
                vectors,
                mnemonic,
                letters.count("x") + letters.count("y"),
                whole([word] * (SIZES[letters[1]] // width), width),
            )
    cpu, vectors, _ = state(rng)
    run(cpu, built("vzeroupper", ""), "")
    expect_vectors(cpu, [x % (1 << 128) if k < 16 else x for k, x in enumerate(vectors)], "vzeroupper")
    cpu, vectors, stored = state(rng)
    run(cpu, built("vpmullq{1to8}", "mzz"), "mzz")
    products = [x * (stored % (1 << 64)) % (1 << 64) for x in split(vectors[1], 64, WHOLE)]
    expect_vectors(cpu, vectors, "vpmullq by one word", 2, whole(products, 64))


def equal_operands(_):
    """Tests that an exclusive or of a register with itself is 0 for any content, also one that isn't set."""
    for mnemonic, letters in (("pxor", "xx"), ("xorps", "xx"), ("vpxor", "xxx"), ("vxorps", "yyy"), ("vpxorq", "zzz")):
        for content, other in ((None, 1), (None, 2), (symbol("lane64", 64), 1)):
            cpu = new_processor()
            cpu.vectors[1] = [content] * 8
            names = [f"{letters[0]}mm{k}" for k in (1, other, 3)[: len(letters)]]
            x = instruction(mnemonic, *map(Register, names))
            if content is None and other == 2:
                refuses(lambda: run(cpu, x, letters), f"{mnemonic} of a vector that isn't set", REFUSED)
                continue
            run(cpu, x, letters)
            lanes_of = cpu.vectors[1 if len(letters) == 2 else 3]
            expect(
                lanes_of[: SIZES[letters[0]] // 64] == [0] * (SIZES[letters[0]] // 64), True, f"{mnemonic} of itself"
            )
    for mnemonic, letters in (("por", "xx"), ("paddq", "xx"), ("vpand", "xxx")):
        cpu = new_processor()
        x = instruction(mnemonic, *[Register("xmm1")] * len(letters))
        refuses(lambda: run(cpu, x, letters), f"{mnemonic} of a vector that isn't set", REFUSED)


def refused_operands(rng):
    """Refuses shifts of two vectors by another number than 8, other tables of three bits, unknown orders of bytes."""
    for mnemonic, letters, numbers in (
        ("vpalignr", "ixxx", (0, 4, 7, 9, 16)),
        ("vpternlogq", "izzz", (0x95, 0x97, 0, 0x69)),
    ):
        for k in numbers:
            refuses(lambda: run(state(rng)[0], built(mnemonic, letters, k), letters), f"{mnemonic} by {k}", REFUSED)
    for mnemonic, letters in (("pshufb", "xx"), ("vpshufb", "yyy")):
        for lane in range(SIZES[letters[0]] // 64):
            cpu = state(rng)[0]
            cpu.vectors[1][lane] = symbol("order64", 64)
            refuses(lambda: run(cpu, built(mnemonic, letters), letters), f"{mnemonic} by an unknown order", REFUSED)


def common_bits(rng):
    """Tests the zero flag of vptest: true if no bit is set in both. The other flags aren't modelled."""
    for letters, size in (("xx", 128), ("yy", 256)):
        for a, b in [
            (1 << k, 1 << j) for k in (0, 63, 64, 127, 128, 255, 256) for j in (0, 63, 64, 127, 128, 255, 256)
        ]:
            cpu = new_processor()
            cpu.vectors[1], cpu.vectors[2] = split(a, 64, WHOLE), split(b, 64, WHOLE)
            run(cpu, built("vptest", letters), letters)
            expect(cpu.condition("e"), not a & b & (1 << size) - 1, f"bits of {a:#x} and {b:#x}")
            for name in ("b", "a", "l"):
                refuses(functools.partial(cpu.condition, name), f"{name} after vptest", REFUSED)


def sets_of_forms(_):
    """Tests which instruction sets have the forms, and that x86-64-v4's registers need it."""
    for mnemonic, letters in TABLE:
        if not any(one in SIZES for one in letters) and mnemonic != "vzeroupper":
            continue
        name = mnemonic.partition("{")[0]
        level = V4 if "z" in letters or name in OF_V4 else V3 if name[0] == "v" else V2 if name in OF_V2 else V1
        x = built(mnemonic, letters)
        for processor in NAMES:
            if NAMES.index(processor) >= NAMES.index(level):
                known(x, processor)
            else:
                refuses(lambda: known(x, processor), f"{mnemonic} {letters} of {processor}", REFUSED)
    for register, holds in (("xmm15", True), ("xmm16", False), ("ymm31", False)):
        x = instruction("vmovdqa" if register[0] == "y" else "vmovdqu", Place(0, "rdi", None, 1), Register(register))
        known(x, V4)
        known(x, V3) if holds else refuses(lambda: known(x, V3), f"{register} of {V3}", REFUSED)


def sizes(_):
    """Tests the width of an instruction: its widest vector, or 128 bits without one."""
    for names, expected in ((("xmm1",), 2), (("xmm1", "ymm2"), 4), (("zmm1", "xmm2"), 8), ((), 2), (("rax",), 2)):
        x = types.SimpleNamespace(operands=[*map(Register, names), Immediate(3), Place(0, "rdi", None, 1)])
        expect(lanes.lanes_count(x), expected, f"the width of {names}")


ALL = [
    results,
    each_form,
    stores,
    single_elements,
    parts,
    equal_operands,
    refused_operands,
    common_bits,
    sets_of_forms,
    sizes,
]
