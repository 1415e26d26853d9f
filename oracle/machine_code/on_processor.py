"""Compares the table of instructions with this processor on inputs with edge cases: all registers, memory, and the
flags that the table defines. Instructions of x86-64-v4 are left out if the processor lacks that level.

Each instruction is in its own function, which loads all registers, runs it, and stores them. The processor runs that
function. The same object is also read like the sources, and the instruction runs on concrete numbers."""
import ctypes
import functools
import os
import random
import struct
import subprocess
from typing import Iterable

from oracle.symbolic_terms import NotShown, ones

from .disassembly import NOPS
from .instructions import OLDER, PARTS, SETS, TABLE, V3, V4, WIDE, letters, needs_v4
from .memory import ENTRY, Stack, WordMemory
from .objects import Immediate, Instruction, Place, Program, Register
from .processor import CALLEE_SAVED, LANES, VECTORS_COUNT, Processor
from .scalar import CONDITIONS
from .values import address

ROUNDS = 40  # inputs per instruction
EDGES = bytes((0, 1, 127, 128, 255)[byte % 5] for byte in range(256))  # maps a random byte to one of these
MOSTLY = bytes(255 if byte < 180 else 0 for byte in range(256))
FEATURES = {V3: {"avx2", "bmi2", "movbe"}, V4: {"avx512f", "avx512bw", "avx512cd", "avx512dq", "avx512vl"}}
BEHIND = "jmp", "call", "ret", "push", "pop", "nop", "ud2", "vzeroupper", "j"  # mnemonics that SNIPPETS tests
LOADED = [name for name in WIDE if name != "rsp"]
# Offsets in a function's buffer: registers, vectors, the word that sets the flags, the instruction's memory operand,
# and then the registers, vectors and flags afterwards.
REGISTERS, VECTORS, COMPARED, MEMORY, AFTER, VECTORS_AFTER, FLAGS_AFTER, SIZE = (
    0,
    128,
    2176,
    2240,
    2368,
    2496,
    4544,
    4608,
)
WHOLE = 8 * LANES  # bytes of a vector
FLAGS = "b", "e", "a"
SOME_FLAGS = {
    # The flags that are set.
    **dict.fromkeys(("imul", "mul", "mulq", "div", "divl", "divq", "shld", "shrd", "rol", "ror", "bzhi"), ""),
    **dict.fromkeys(("shl", "shr", "vptest"), "e"),
}
BASES = "rdi", "rsi", "r9", "r10"
SAMPLE = {
    "b": ["cl", "al", "dl"],
    "h": ["ah"],
    "w": ["ax", "cx", "dx"],
    "l": ["eax", "ecx", "ebx"],
    "q": ["rax", "rcx", "rbx"],
    "x": ["xmm1", "xmm2", "xmm3"],
    "y": ["ymm1", "ymm2", "ymm3"],
    "z": ["zmm1", "zmm2", "zmm31"],
}
NUMBERS = {"vpternlogq": 0x96, "vpalignr": 8}  # the only values that the table has
# Branches, calls and the stack.
SNIPPETS = [
    *(
        [f"cmp %{other},%rax", f"j{name} 1f", "not %rax", "1: not %rcx"]
        for name in CONDITIONS
        for other in ("rax", "rbx")
    ),
    ["jmp 1f", "not %rax", "1: not %rcx"],
    ["push %rax", "not %rax", "pop %rbx"],
    ["vzeroupper"],
    ["nop"],
    ["call 1f", "jmp 2f", "1: not %rax", "ret", "2: not %rcx"],
    ["prefetcht0 (%rsp)"],
    *([".byte " + ",".join(map(str, raw))] for raw in sorted(NOPS)),
]


# ---- the instructions


def asked(programs: Iterable[Program], each: bool) -> dict[str, tuple[str, str]]:
    """Maps text to form: each instruction of the programs, or one of each form; and one of each form of the table that
    no program has. Omits instructions that this processor lacks."""
    out, forms, sets = {}, set(), SETS[processor_here()]
    for program in programs:
        for code in program.sections.values():
            for x in code.values():
                key = form_of(x)
                is_here = TABLE[key][0] in sets and not (needs_v4(x) and V4 not in sets)
                if is_here and not x.mnemonic.startswith(BEHIND) and (each or key not in forms):
                    out[written(x.mnemonic, x.operands)] = key
                forms.add(key)
    for mnemonic, form in TABLE:
        is_here = TABLE[mnemonic, form][0] in sets
        if is_here and (mnemonic, form) not in forms and not mnemonic.startswith(BEHIND):
            out[sampled(mnemonic, form)] = mnemonic, form
    return out


def sampled(mnemonic: str, form: str) -> str:
    """Returns an instruction of a form, as text."""
    return written(mnemonic, sample(mnemonic, form))


def form_of(x: Instruction) -> tuple[str, str]:
    return x.mnemonic, letters(x)


def sample(mnemonic, form):
    used: dict[str, int] = {}
    out: list = []
    for letter in form:
        if letter in SAMPLE:
            used[letter] = used.get(letter, -1) + 1
            out.append(Register(SAMPLE[letter][used[letter]]))
        else:
            out.append(Immediate(NUMBERS.get(mnemonic, 5)) if letter == "i" else Place(0, "rax", None, 1))
    return out


def written(mnemonic: str, operands: Iterable[Immediate | Place | Register]) -> str:
    """Returns an instruction as text, with rbx for the stack pointer, and its memory operand in the buffer."""
    operands = [Register("rbx") if x == Register("rsp") else x for x in operands]
    names = {PARTS[x.name][0] for x in operands if isinstance(x, Register) and x.name in PARTS}
    base = next(name for name in BASES if name not in names)
    is_lea = mnemonic == "lea"
    word, _, broadcast = mnemonic.partition("{")
    text = ",".join(operand_written(x, base, is_lea) for x in operands)
    return f"{word} {text.replace(')', '){' + broadcast, 1) if broadcast else text}"


def bases_of(lines):
    """Returns the registers that hold the buffer's address."""
    is_lea = lines[0].startswith("lea ")
    return [name for name in BASES if not is_lea and f"{MEMORY:#x}(%{name})" in lines[0]]


def operand_written(x, base, is_lea):
    if isinstance(x, Register):
        return f"%{x.name}"
    if isinstance(x, Immediate):
        return f"${x.value:#x}"
    if not is_lea:
        return f"{MEMORY:#x}(%{base})"
    names = ["rbx" if name in ("rip", "rsp") else name for name in (x.base, x.index) if name]
    parts = ",".join(f"%{name}" for name in names) if x.base else f",%{names[0]}"
    return f"{x.displacement:#x}({parts}" + (f",{x.scale})" if x.index else ")")


# ---- the functions


def function(number, lines):
    """Yields a function that loads all registers, runs the lines, and stores all registers and flags. A base register
    of the lines holds the buffer's address."""
    bases = bases_of(lines)
    rest = [name for name in LOADED if name not in (*bases, "rdi")]
    yield from (f".globl t{number}", f".type t{number},@function", f"t{number}:")
    yield from (f"push %{name}" for name in (*CALLEE_SAVED, "rdi"))
    yield f"cmpl $1,{COMPARED}(%rdi)"
    yield from moves("{place},{vector}", VECTORS)
    yield from (f"mov {REGISTERS + 8 * LOADED.index(name)}(%rdi),%{name}" for name in rest)
    yield from (f"mov %rdi,%{name}" for name in bases if name != "rdi")
    yield from [] if "rdi" in bases else [f"mov {REGISTERS + 8 * LOADED.index('rdi')}(%rdi),%rdi"]
    yield from (f"b{number}:", *lines, f"e{number}:", "push %rdi", "mov 8(%rsp),%rdi")
    yield from (f"mov %{name},{AFTER + 8 * LOADED.index(name)}(%rdi)" for name in LOADED if name not in (*bases, "rdi"))
    yield from moves("{vector},{place}", VECTORS_AFTER)
    yield "pop %rax"
    yield from [] if "rdi" in bases else [f"mov %rax,{AFTER + 8 * LOADED.index('rdi')}(%rdi)"]
    for k, name in enumerate(SOME_FLAGS.get(lines[0].split()[0], FLAGS)):
        yield from (f"set{name} %al", f"mov %al,{FLAGS_AFTER + k}(%rdi)")
    yield from (f"pop %{name}" for name in ("rdi", *reversed(CALLEE_SAVED)))
    yield from ("vzeroupper", "ret")


def moves(operands, first):
    """Yields loads or stores of all vectors. Without x86-64-v4 these are the lower halves of the 16 older ones."""
    word, letter, count = ("vmovdqu64", "z", VECTORS_COUNT) if is_v4() else ("vmovdqu", "y", OLDER)
    for k in range(count):
        yield f"{word} " + operands.format(place=f"{first + WHOLE * k}(%rdi)", vector=f"%{letter}mm{k}")


class Snippets(Program):
    """A program of test functions: its contents aren't checked against the list."""

    def expect_listed(self):
        pass


def assembled(
    snippets: Iterable[Iterable[str]], workdir: str, reader: type[Program] = Snippets
) -> tuple[ctypes.CDLL, Program]:
    """Returns the functions as a shared library to run, and as a program to read."""
    with open(f"{workdir}/snippets.s", "w", encoding="utf-8") as file:
        print('.section .note.GNU-stack,"",@progbits', ".text", sep="\n", file=file)
        for number, lines in enumerate(snippets):
            print(*function(number, lines), sep="\n", file=file)
    for options in (["-c", "-o", f"{workdir}/snippets.o"], ["-shared", "-o", f"{workdir}/snippets.so"]):
        subprocess.run(["gcc", *options, f"{workdir}/snippets.s"], check=True)
    return ctypes.CDLL(f"{workdir}/snippets.so"), reader(f"{workdir}/snippets.o")


# ---- both runs


def inputs(mnemonic: str, lines: list[str], rng: random.Random) -> bytearray:
    data = bytearray(rng.randbytes(SIZE))
    if rng.random() < 0.4:
        data = with_edges(data, rng)
    data[COMPARED : COMPARED + 4] = rng.randrange(3).to_bytes(4, "little")
    if rng.random() < 0.2:
        rax, rbx = (8 * LOADED.index(name) for name in ("rax", "rbx"))
        data[rbx : rbx + 8] = data[rax : rax + 8]
    if mnemonic.startswith("div"):  # a dividend of one word, and an odd divisor
        at, name = 8 * LOADED.index("rdx"), lines[0].split("%")[1]
        data[at : at + 8] = bytes(8)
        data[MEMORY if "(" in lines[0] else 8 * LOADED.index(PARTS[name][0])] |= 1
    return data


def with_edges(data, rng):
    """Replaces most bytes by edge cases."""
    old, edges, mask = (
        int.from_bytes(x, "little")
        for x in (data, rng.randbytes(SIZE).translate(EDGES), rng.randbytes(SIZE).translate(MOSTLY))
    )
    return bytearray((old & ~mask | edges & mask).to_bytes(SIZE, "little"))


def word(data, at):
    return int.from_bytes(data[at : at + 8], "little")


def by_table(cpu: Processor, number: int, lines: list[str], data: bytes) -> bytes:
    """Returns the expected contents of the buffer afterwards, by the table."""
    state = WordMemory("state", SIZE, [(at, 8, word(data, at)) for at in range(MEMORY, AFTER, 8)], alignment=64)
    cpu.registers = {name: word(data, REGISTERS + 8 * k) for k, name in enumerate(LOADED)}
    bases = bases_of(lines)
    cpu.registers.update({name: address(state) for name in bases})
    cpu.stack = Stack()
    cpu.registers["rsp"] = address(cpu.stack, ENTRY)
    lanes = struct.unpack_from(f"<{LANES * VECTORS_COUNT}Q", data, VECTORS)
    cpu.vectors = [list(lanes[first : first + LANES]) for first in range(0, len(lanes), LANES)]
    cpu.set_flags("sub", 32, word(data, COMPARED) & ones(32), 1, None)
    run_to(cpu, cpu.program.labels[f"b{number}"], cpu.program.labels[f"e{number}"])
    out = bytearray(data)
    for at in range(MEMORY, AFTER, 8):
        out[at : at + 8] = state.load(at, 8).to_bytes(8, "little")
    for k, name in enumerate(LOADED):
        if name not in bases:
            out[AFTER + 8 * k : AFTER + 8 * k + 8] = cpu.registers[name].to_bytes(8, "little")
    put_vectors(out, cpu.vectors)
    for k, name in enumerate(SOME_FLAGS.get(lines[0].split()[0], FLAGS)):
        out[FLAGS_AFTER + k] = cpu.condition(name)
    return bytes(out)


def put_vectors(out, vectors):
    """Writes the part of each vector that the function stores."""
    count, lanes_count = (VECTORS_COUNT, LANES) if is_v4() else (OLDER, LANES // 2)
    for k, lanes in enumerate(vectors[:count]):
        struct.pack_into(f"<{lanes_count}Q", out, VECTORS_AFTER + WHOLE * k, *lanes[:lanes_count])


def run_to(cpu, place, end):
    while place != end:
        operation, instruction = cpu.code[place[0]][place[1]]
        place = operation(cpu, instruction) or (place[0], instruction.end)


def own_bytes(programs: Iterable[Program]) -> dict[str, bytes]:
    """Maps text to bytes, of the programs' instructions without memory operands, which the tests change."""
    return {
        written(x.mnemonic, x.operands): program.object.body(program.heads[section])[at : x.end]
        for program in programs
        for section, code in program.sections.items()
        for at, x in code.items()
        if x.operands and not any(isinstance(y, Place) or y == Register("rsp") for y in x.operands)
    }


def compare(
    texts: dict,
    workdir: str,
    own: dict[str, bytes] | None = None,
    snippets: list[list[str]] = SNIPPETS,
    reader: type[Program] = Snippets,
    processor: type[Processor] = Processor,
) -> tuple[int, list[str]]:
    """Tests instructions, each with its form, and snippets. Returns their number and the differences. `own` maps
    instructions to the bytes that they must have."""
    forms, snippets = [*texts.values(), *[None] * len(snippets)], [*([text] for text in texts), *snippets]
    library, program = assembled(snippets, workdir, reader)
    cpu, rng, wrong = processor(program, processor_here()), random.Random(1), []
    whole = ctypes.create_string_buffer(SIZE + 64)
    first = -ctypes.addressof(whole) % 64
    state = (ctypes.c_ubyte * SIZE).from_buffer(whole, first)
    for number, (lines, form) in enumerate(zip(snippets, forms)):
        section, at = program.labels[f"b{number}"]
        raw = program.object.body(program.heads[section])[at : program.labels[f"e{number}"][1]]
        if len(lines) == 1 and raw != (own or {}).get(lines[0], raw):
            wrong.append(f"{lines[0]} has other bytes in a text than {raw.hex()}")
        if form not in (None, form_of(program.sections[section][at])):
            wrong.append(f"{lines[0]} isn't of the form {' '.join(form)}")
        run = getattr(library, f"t{number}")
        for _ in range(ROUNDS):
            data = inputs(lines[0].split()[0], lines, rng)
            ctypes.memmove(state, bytes(data), SIZE)
            run(ctypes.byref(state))
            if ctypes.string_at(state, SIZE) != by_table(cpu, number, lines, bytes(data)):
                wrong.append(f"{'; '.join(lines)} on {data.hex()[:64]}..")
                break
    return len(snippets), wrong


@functools.cache
def has(name):
    with open("/proc/cpuinfo", encoding="utf-8") as file:
        return FEATURES[name] <= set(file.read().split())


def is_v4() -> bool:
    return has(V3) and has(V4)


def processor_here() -> str:
    return V4 if is_v4() else V3


def expect_processor() -> None:
    if os.uname().machine != "x86_64" or not has(V3):
        raise NotShown("this processor isn't x86-64-v3: the table isn't compared")
