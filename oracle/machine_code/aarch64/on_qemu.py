"""Compares the table of instructions with qemu's processor: each form on edge cases and random numbers, in registers,
vectors, flags and memory."""
import random
import re
import struct
import subprocess
import tempfile

from ..memory import WordMemory
from ..values import Address, address
from .objects import CONDITIONS, Program
from .table import TABLE, Processor

SETS = 24  # inputs per test
REGISTERS = range(3, 8)  # x3 .. x7; x8 is the address
LANES = range(1, 5)  # v1 .. v4
MEMORY, BASE = 96, 24  # bytes of memory, and x8's offset in it
INPUT = 8 * 6 + 16 * 4 + MEMORY
OUTPUT = 8 * 8 + 16 * 4 + MEMORY
NZCV = {
    "eq": lambda n: n >> 30 & 1,
    "cs": lambda n: n >> 29 & 1,
    "hi": lambda n: (n >> 29 & 1) & ~(n >> 30) & 1,
    "ge": lambda n: n >> 31 & 1 == n >> 28 & 1,
    "gt": lambda n: not n >> 30 & 1 and n >> 31 & 1 == n >> 28 & 1,
}
NOT = {"eq": "ne", "cs": "cc", "hi": "ls", "ge": "lt", "gt": "le"}
IMMEDIATES = {
    "movi": ["0xff00ff0000ffff00"],
    "shrn": ["32", "7"],
    "ext": ["8"],
    "mov": ["0x1234"],
    "and": ["0xf0", "0xfffffffffffffff0"],
    "ands": ["0xf0"],
    "orr": ["0x8", "0xfffffffffffffff0"],
    "ubfx": ["3, #7"],
    "shll": ["32"],
}
LANES_OF = {"d[]": range(2), "s[]": range(4)}
PLACES = ["[x8]", "[x8, #16]", "[x8, #16]!", "[x8], #16"]
UNTRIED = {("adrp", "x"), ("add", "x x"), ("brk", "i"), ("prfm", "p m"), ("b", ""), ("bl", ""), ("ret", "")}
BEGIN = """
	adrp x20, inputs
	add x20, x20, :lo12:inputs
	mov x21, #{sets}
1:	ldp x3, x4, [x20]
	ldp x5, x6, [x20, #16]
	ldr x7, [x20, #32]
	ldp q1, q2, [x20, #48]
	ldp q3, q4, [x20, #80]
	ldp q16, q17, [x20, #112]
	ldp q18, q19, [x20, #144]
	ldp q20, q21, [x20, #176]
	adrp x8, memory
	add x8, x8, :lo12:memory
	stp q16, q17, [x8]
	stp q18, q19, [x8, #32]
	stp q20, q21, [x8, #64]
	add x8, x8, #{base}
"""
END = """
	mrs x10, nzcv
	adrp x9, memory
	add x9, x9, :lo12:memory
	sub x8, x8, x9
	stp x3, x4, [x19], #16
	stp x5, x6, [x19], #16
	stp x7, x8, [x19], #16
	stp x10, xzr, [x19], #16
	stp q1, q2, [x19], #32
	stp q3, q4, [x19], #32
	ldp q16, q17, [x9]
	ldp q18, q19, [x9, #32]
	ldp q20, q21, [x9, #64]
	stp q16, q17, [x19], #32
	stp q18, q19, [x19], #32
	stp q20, q21, [x19], #32
	add x20, x20, #{size}
	subs x21, x21, #1
	b.ne 1b
"""
FRAME = """	.globl _start
_start:
	adrp x19, outputs
	add x19, x19, :lo12:outputs
{tests}
	adrp x1, outputs
	add x1, x1, :lo12:outputs
	sub x2, x19, x1
5:	mov x0, #1
	mov x8, #64
	svc #0
	add x1, x1, x0
	subs x2, x2, x0
	b.ne 5b
	mov x0, #0
	mov x8, #93
	svc #0
	.data
	.balign 16
inputs:	.incbin "{inputs}"
	.bss
	.balign 16
memory:	.space {memory}
outputs: .space {outputs}
"""


# ---- tests


def immediates(mnemonic, word):
    if mnemonic in IMMEDIATES:
        return IMMEDIATES[mnemonic]
    return ["1", "13", "31"] if word != "m" else ["8"]


def operand(word, number, mnemonic):
    """Returns an operand's text; operand 0 is the destination."""
    if word in ("x", "w"):
        return f"{word}{3 + number}"
    if word in ("q", "d", "s"):
        return f"{word}{1 + number}"
    if word in LANES_OF:
        return f"{{v{1 + number}.{word[0]}}}[1]" if mnemonic == "ld1" else f"v{1 + number}.{word[0]}[1]"
    return f"v{1 + number}.{word}"


def texts(mnemonic, form):
    """Returns the tests of a form."""
    if mnemonic == "ccmp":
        return [f"cmp x3, x4; ccmp x5, x6, #0x0, {condition}; cset x7, eq" for condition in ("eq", "ne")]
    if mnemonic == "sbcs":
        return ["cmp x5, x6; sbcs x3, x4, x5"]
    parts = [operand(word, number, mnemonic) for number, word in enumerate(form.split())]
    if mnemonic == "dup" and form.split()[1] in LANES_OF:
        return [f"dup {parts[0]}, v2.{form.split()[1][0]}[{k}]" for k in LANES_OF[form.split()[1]]]
    if form in ("d[] d[]", "s[] s[]"):
        return [f"mov v1.{form[0]}[{k}], v2.{form[0]}[{n}]" for k in LANES_OF[form[:3]] for n in LANES_OF[form[:3]]]
    before = "cmp x5, x6; " if "c" in form.split() else ""
    for word in form.split():
        if word == "m":
            return [f"{mnemonic} {', '.join([*parts[:-1], place])}" for place in places(mnemonic)] + with_index(
                mnemonic, parts
            )
    if mnemonic.startswith(("b.", "cb", "tb")):
        bit = ", #5" if mnemonic.startswith("tb") else ""
        compared = "cmp x5, x6; " if mnemonic.startswith("b.") else ""
        return [f"{compared}{mnemonic} {parts[0] + bit + ', ' if parts else ''}2f; mov x4, x5; 2:"]
    return [before + f"{mnemonic} {', '.join(found)}" for found in filled(mnemonic, form.split(), parts)]


def filled(mnemonic, form, parts):
    """Returns the lists of operands with all choices of numbers, shifts and conditions."""
    choices = {
        "i": [f"#{n}" for n in immediates(mnemonic, None)],
        "c": CONDITIONS,
        "lsl": ["lsl #16", "lsl #48"][: 1 + (form[0] == "x")] if mnemonic == "movk" else ["lsl #3", "lsl #17"],
        "lsr": ["lsr #5", "lsr #31"],
        "ror": ["ror #5", "ror #31"],
    }
    fixed = [part for word, part in zip(form, parts) if word not in choices]
    free = [word for word in form if word in choices]
    if mnemonic == "ubfx":
        return [[*fixed, "#3, #7"]]
    if free == ["i", "lsl"]:
        return [[*fixed, "#0x1234", shift] for shift in choices["lsl"]]
    return [[*fixed, choice] for choice in choices[free[0]]] if free else [fixed]


def places(mnemonic):
    if "ur" in mnemonic:
        return ["[x8, #3]", "[x8, #-7]"]
    return PLACES[:1] if mnemonic == "ld1" else PLACES


def with_index(mnemonic, parts):
    if mnemonic.endswith("p") or "ur" in mnemonic or mnemonic == "ld1":
        return []
    return [f"and x7, x7, #15; {mnemonic} {parts[0]}, [x8, x7]"]


def all_tests():
    return [(key, text) for key in sorted(TABLE) if key not in UNTRIED for text in texts(*key)]


# ---- both runs


def inputs(rng):
    """Yields edge cases and random numbers for x3 .. x7, v1 .. v4 and the memory."""
    edges = [0, 1, 2, 63, 64, 1 << 31, (1 << 32) - 1, 1 << 32, 1 << 63, (1 << 64) - 1]
    for _ in range(SETS):
        numbers = [
            rng.choice([*edges, rng.getrandbits(64), rng.getrandbits(64), rng.getrandbits(32)]) for _ in range(5)
        ]
        if rng.random() < 0.3:
            numbers[3] = numbers[2]
        lanes = [rng.choice([*edges, *(rng.getrandbits(64) for _ in range(6))]) for _ in range(8)]
        yield numbers, lanes, rng.randbytes(MEMORY)


def lines(text):
    return "\n".join("\t" + part.strip() for part in text.split(";"))


def assembled(text, path):
    with open(f"{path}.s", "w", encoding="utf-8") as file:
        file.write(text)
    subprocess.run(["aarch64-linux-gnu-as", "-o", f"{path}.o", f"{path}.s"], check=True)
    return f"{path}.o"


def by_qemu(tests, sets, workdir):
    with open(f"{workdir}/inputs", "wb") as file:
        for numbers, lanes, memory in sets:
            file.write(struct.pack("<14Q", *numbers, 0, *lanes) + memory)
    body = "".join(BEGIN.format(sets=SETS, base=BASE) + lines(text) + END.format(size=INPUT) for _, text in tests)
    path = assembled(
        FRAME.format(tests=body, inputs=f"{workdir}/inputs", memory=MEMORY, outputs=OUTPUT * SETS * len(tests)),
        f"{workdir}/program",
    )
    subprocess.run(["aarch64-linux-gnu-ld", "-o", f"{workdir}/program", path], check=True)
    output = subprocess.run(["qemu-aarch64", f"{workdir}/program"], check=True, stdout=subprocess.PIPE).stdout
    if len(output) != OUTPUT * SETS * len(tests):
        raise SystemExit(f"the program told {len(output)} bytes")
    for at in range(0, len(output), OUTPUT):
        values = struct.unpack_from("<16Q", output, at)
        yield values[:6], values[6], values[8:], output[at + OUTPUT - MEMORY : at + OUTPUT]


class Tests(Program):
    """A program of tests: its contents aren't checked against the list."""

    def expect_listed(self):
        pass


def by_table(tests, sets, workdir):
    """Yields the results by the table: the tests follow one another in an object."""
    text = "\t.text\n" + "".join(f"t{k}:\n{lines(text)}\n" for k, (_, text) in enumerate(tests)) + "end:\n\tnop\n"
    program = Tests(assembled(text, f"{workdir}/tests"))
    begins = [symbol.value for symbol in program.object.symbols if re.fullmatch(r"t\d+|end", symbol.name)]
    for first, end in zip(sorted(begins), sorted(begins)[1:]):
        for numbers, lanes, memory in sets:
            yield run(program, (".text", first), (".text", end), numbers, lanes, memory)


def run(program, place, end, numbers, lanes, memory):
    cpu = Processor(program)
    cpu.prepare()
    buffer = WordMemory("memory", MEMORY, [(k, 1, byte) for k, byte in enumerate(memory)], alignment=16)
    cpu.registers.update({f"x{k}": x for k, x in zip(REGISTERS, numbers)}, x8=address(buffer, BASE))
    for k, pair in zip(LANES, zip(lanes[::2], lanes[1::2])):
        cpu.vectors[k] = list(pair)
    while place != end:
        place = cpu.step(place)
    where = cpu.registers["x8"]
    registers = [cpu.registers[f"x{k}"] for k in REGISTERS] + [where.offset if isinstance(where, Address) else where]
    return registers, cpu, [x for k in LANES for x in cpu.vectors[k]], bytes(buffer.load(k, 1) for k in range(MEMORY))


def same_flags(cpu, nzcv):
    """True if the flags are unset, or each condition has the same value on qemu."""
    if cpu.flags is None:
        return True
    names = ["eq", "cs"] if cpu.flags[0] in ("add", "borrow") else list(NZCV)
    if cpu.flags[2:4] == (0, 1):  # after ccmp, only eq is used
        names = ["eq"]
    return all(bool(NZCV[name](nzcv)) == cpu.test(name) and cpu.test(name) != cpu.test(NOT[name]) for name in names)


def report() -> tuple[str, list[str]]:
    """Compares each form of the table with qemu. Returns the counts and the failures."""
    tests, sets = all_tests(), list(inputs(random.Random(5)))
    with tempfile.TemporaryDirectory(prefix="on-qemu-") as workdir:
        outputs = zip(by_qemu(tests, sets, workdir), by_table(tests, sets, workdir), strict=True)
        bad, count = [], 0
        for (registers, nzcv, lanes, memory), (ours, cpu, our_lanes, our_memory) in outputs:
            is_same = list(registers) == ours and list(lanes) == our_lanes and memory == our_memory
            if not is_same or not same_flags(cpu, nzcv):
                bad.append(f"{tests[count // SETS][1]}: {ours} {our_lanes} here and {registers} {lanes} by qemu")
            count += 1
    forms = {key for key, _ in tests}
    bad += [f"{key} has no test" for key in TABLE.keys() - forms - UNTRIED]
    return (
        f"{len(forms)} forms, {len(tests)} tests of {SETS} inputs; {len(UNTRIED)} forms are of control or addresses",
        bad,
    )
