"""Compares the table of instructions with Node's engine: instructions on edge cases and random numbers, memory and
control flow in small functions, and which modules the reader and the validator accept or refuse."""
import json
import os
import random
import shutil
import subprocess

from . import assembler
from .assembler import PAGES, STACK_END
from .machine import STACK, Machine
from .module import PAGE, Malformed, Module
from .opcodes import BY_NAME
from .validator import Invalid, validate
from .values import Trap

HERE = os.path.dirname(os.path.abspath(__file__))
STACK_BEGIN = STACK_END - STACK
RESULT, PATTERN = STACK_BEGIN + 2048, STACK_BEGIN + 4096  # addresses
RANDOM = 24  # runs of an instruction on random numbers
ANSWER = f"i32.const {RESULT}; v128.const 0 0; v128.store 0; i32.const {RESULT}; "
STORES = {32: "i32.store 0", 64: "i64.store 0", 128: "v128.store 0"}


def edges(width):
    top = 1 << width - 1
    return [
        0,
        1,
        2,
        width // 2 - 1,
        width // 2,
        width - 1,
        width,
        width + 1,
        top - 1,
        top,
        top + 1,
        2 * top - 2,
        2 * top - 1,
    ]


def pushed(width, rng):
    if width == 128:
        lanes = [rng.choice(edges(64) + [rng.getrandbits(64)] * 8) for _ in range(2)]
        return f"v128.const {lanes[0]} {lanes[1]}"
    value = rng.choice(edges(width) + [rng.getrandbits(width)] * 8)
    return f"i{width}.const {value}"


def behind(opcode, rng):
    """Returns random immediates of an instruction that takes values and leaves one."""
    if opcode.behind == "lanes":
        first = rng.randrange(32)
        in_order = [str((first + k) % 32) for k in range(16)]
        return " ".join(rng.choice((in_order, [str(rng.randrange(32)) for _ in range(16)])))
    return str(rng.randrange(int(opcode.behind[len("lane") :]))) if opcode.behind else ""


def of_values(opcode, rng):
    """Yields functions that run an instruction on all edge cases of words, and on random numbers."""
    widths = opcode.takes
    samples = [[pushed(width, rng) for width in widths] for _ in range(RANDOM * (3 if 128 in widths else 1))]
    if 128 not in widths:
        several = [[f"i{width}.const {value}" for value in edges(width)] for width in widths]
        samples += [[a] for a in several[0]] if len(several) == 1 else [[a, b] for a in several[0] for b in several[1]]
    for operands in samples:
        yield ANSWER + "; ".join([*operands, f"{opcode.name} {behind(opcode, rng)}", STORES[opcode.leaves[0]]])


def pattern(rng):
    return "; ".join(f"i32.const {PATTERN}; i64.const {rng.getrandbits(64)}; i64.store {at}" for at in range(0, 32, 8))


def of_memory(opcode, rng):
    """Yields functions that load from, or store to, a pattern in memory at any alignment, and past the memory's end."""
    size, is_load = int(opcode.behind[len("bytes") :]), opcode.leaves
    for _ in range(RANDOM):
        at, offset = rng.randrange(16), rng.choice((0, 0, 1, 7, 300))
        place = f"i32.const {PATTERN + at - offset}"
        if is_load:
            yield f"{pattern(rng)}; {ANSWER}{place}; {opcode.name} {offset}; {STORES[opcode.leaves[0]]}"
        else:
            access = f"{place}; {pushed(opcode.takes[1], rng)}; {opcode.name} {offset}"
            yield f"{pattern(rng)}; {access}; {ANSWER}i32.const {PATTERN}; v128.load {max(0, at - 3)}; v128.store 0"
    for end in (PAGES * PAGE - size + 1, PAGES * PAGE, (1 << 32) - 1):
        for offset in (0, 5, (1 << 32) - 1):
            value = "" if is_load else pushed(opcode.takes[1], rng) + "; "
            answer = f"{STORES[opcode.leaves[0]]}" if is_load else "drop"
            yield f"{ANSWER}i32.const {end}; {value}{opcode.name} {offset}; {answer}"


def of_constant(opcode, rng):
    width = opcode.leaves[0]
    for _ in range(RANDOM):
        yield f"{ANSWER}{pushed(width, rng)}; {STORES[width]}"
    for value in [*edges(64), *(1 << k for k in range(64))] if width < 128 else []:
        yield f"{ANSWER}i{width}.const {value % (1 << width)}; {STORES[width]}"


NUMBERS = "0", "1", "2", "3", "7", "0xffffffff"
SHOW = f"{ANSWER}local.get 2; i64.store 0"
COUNT = "local.get 2; i64.const {}; i64.add; local.set 2"
# Functions with control flow and variables, for an i32 %. They report local variable 2, an i64.
BODIES = {
    "block": f"block i64; i64.const 4; i64.const 9; i32.const %; br_if 0; i64.add; end; local.set 2; {SHOW}",
    "br": f"i64.const 40; block i64; i64.const 1; i64.const 2; br 0; end; i64.sub; local.set 2; {SHOW}",
    "br_if": f"block; block; i32.const %; br_if 1; {COUNT.format(1)}; end; {COUNT.format(2)}; end; "
    f"{COUNT.format(4)}; {SHOW}",
    "br_table": f"block; block; block; i32.const %; br_table 0 2 1; end; {COUNT.format(1)}; end; "
    f"{COUNT.format(2)}; end; {SHOW}",
    "loop": f"loop; {COUNT.format(3)}; local.get 2; i64.const 20; i64.lt_u; br_if 0; end; {SHOW}",
    "if": f"i32.const %; if; {COUNT.format(5)}; end; {COUNT.format(8)}; {SHOW}",
    "end": f"block; loop; {COUNT.format(1)}; block; i32.const %; br_if 2; end; end; end; {SHOW}",
    "return": f"{SHOW}; block; i64.const 5; i32.const %; if; return; end; drop; end; i64.const 6; local.set 2; {SHOW}",
    "call": f"i64.const 100; i64.const %; call 0; i64.const 1; call 0; local.set 2; {SHOW}",
    "drop": f"i64.const 1; i64.const %; drop; local.set 2; {SHOW}",
    "select": f"i64.const 11; i64.const 22; i32.const %; select; local.set 2; {SHOW}",
    "unreachable": "i32.const %; if; unreachable; end; " + SHOW,
    "local.get": f"{ANSWER}local.get 5; local.get 2; i64x2.replace_lane 0; v128.store 0",
    "local.set": f"i64.const %; local.set 3; i64.const 1; local.set 2; local.get 3; local.set 4; local.get 4; "
    f"local.set 2; {SHOW}",
    "local.tee": f"i64.const %; local.tee 2; i64.const 1; i64.add; local.set 2; {SHOW}",
    "global.get": f"global.get 0; i64.const %; i64.add; local.set 2; {SHOW}",
    "global.set": f"i32.const %; global.set 1; global.get 1; i64.extend_i32_u; local.set 2; i32.const 0; "
    f"global.set 1; {SHOW}",
    "memory.copy": f"i32.const {PATTERN}; i64.const 0; i64.store 0; i32.const {PATTERN}; i64.const 0; i64.store 8; "
    f"i32.const {PATTERN + 1}; i32.const {STACK_END + 3}; i32.const %; memory.copy; "
    f"{ANSWER}i32.const {PATTERN}; v128.load 0; v128.store 0",
    "memory.fill": f"i32.const {PATTERN}; i64.const 0; i64.store 0; i32.const {PATTERN}; i64.const 0; i64.store 8; "
    f"i32.const {PATTERN + 2}; i32.const 0x1234; i32.const %; memory.fill; "
    f"{ANSWER}i32.const {PATTERN}; v128.load 0; v128.store 0; "
    f"i32.const {RESULT}; i32.const {PATTERN}; i64.load8_u 3; i64.store 8",
}


def functions(opcode, rng):
    if opcode.name in BODIES:
        return [BODIES[opcode.name].replace("%", number) for number in NUMBERS]
    if opcode.behind.startswith("bytes"):
        return list(of_memory(opcode, rng))
    return list(of_values(opcode, rng) if opcode.takes else of_constant(opcode, rng))


# ---- both runs


def by_machine(whole, calls):
    vm, out = Machine(Module(whole)), []
    for k in range(calls):
        try:
            vm.call(f"f{k}", [])
            out.append(vm.stack.load(RESULT - STACK_BEGIN, 16).to_bytes(16, "little").hex())
        except Trap:
            out.append("trap")
    return out


def by_engine(asked):
    """Runs (module, number of calls) on the engine. Returns the words of its output line for each."""
    lines = "\n".join(json.dumps({"module": whole.hex(), "calls": calls, "place": RESULT}) for whole, calls in asked)
    done = subprocess.run(
        [shutil.which("node") or "node", os.path.join(HERE, "engine.mjs")],
        input=lines,
        text=True,
        check=True,
        stdout=subprocess.PIPE,
    )
    outputs = [line.split() for line in done.stdout.splitlines()]
    if len(outputs) != len(asked):
        raise SystemExit("the engine told of other modules than it was asked")
    return outputs


def compare_instructions(machines: dict[str, Machine]) -> tuple[str, list[str]]:
    """Compares each instruction of the table on the machine and on the engine."""
    rng, asked = random.Random(3), []
    for opcode in BY_NAME.values():
        asked.append((opcode.name, functions(opcode, rng)))
    outputs, bad, count = by_engine([(assembler.module(texts), len(texts)) for _, texts in asked]), [], 0
    for (name, texts), (is_valid, *theirs) in zip(asked, outputs, strict=True):
        ours = by_machine(assembler.module(texts), len(texts))
        count += len(ours)
        bad += [
            f"{name}: {a} here and {b} by the engine: {text}"
            for text, a, b in zip(texts, ours, theirs, strict=True)
            if a != b
        ]
        bad += [f"{name} was not tried" for _ in range(not texts or is_valid != "true")]
    return f"{len(asked)} instructions, {count} runs", bad


def verdict(whole):
    """Returns "true" if the module is valid, "false" if it is invalid, and None if it isn't read."""
    try:
        validate(Module(whole))
    except Invalid:
        return "false"
    except Malformed:
        return None
    return "true"


def compare_validity(machines: dict[str, Machine], count: int) -> tuple[str, list[str]]:
    """Compares the validity of `count` changed modules of each machine: the engine must accept modules that are valid
    here, and refuse those that are invalid here."""
    rng, asked = random.Random(4), []
    for vm in machines.values():
        for _ in range(count):
            whole = bytearray(vm.module.whole)
            place = rng.randrange(8, len(whole))
            whole[place] = rng.choice((whole[place] ^ 1 << rng.randrange(8), rng.randrange(256)))
            asked.append((bytes(whole), 0))
    ours, bad = [verdict(changed) for changed, _ in asked], []
    for (changed, _), mine, (theirs,) in zip(asked, ours, by_engine(asked), strict=True):
        if mine is not None and mine != theirs:
            bad.append(f"a module of {len(changed)} bytes is valid here: {mine}, and by the engine: {theirs}")
    return f"{ours.count('true')} valid, {ours.count('false')} invalid, {ours.count(None)} not read", bad
