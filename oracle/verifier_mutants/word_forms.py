"""Tests each form of the instructions on words on numbers, beside the processor's manual on Python's integers: the
result, the flags, what else is changed, and the instruction set that has the form. Each takes a random generator and
raises Wrong."""

import functools
import itertools
import operator
from typing import Any

from oracle.machine_code.instructions import NAMES, PARTS, TABLE, V1, V3, WIDE, known
from oracle.machine_code.memory import WordMemory
from oracle.machine_code.objects import Immediate, Place, Register
from oracle.machine_code.values import address
from oracle.symbolic_terms import Undecided, Unsupported, symbol

from .processors import instruction, new_processor
from .values import expect, number, refuses

WIDTHS = {"b": 8, "h": 8, "w": 16, "l": 32, "q": 64}
REFUSED = Unsupported, Undecided
STORED, PLACED = 24, Place(8, "rdi", None, 1)  # bytes of the memory object, and the operand in it
NEW = "movbe", "mulx", "shlx", "shrx", "rorx"  # of BMI2 and MOVBE, which x86-64-v3 has
CONDITIONS = {
    "e": lambda f: f["z"],
    "ne": lambda f: not f["z"],
    "b": lambda f: f["c"],
    "ae": lambda f: not f["c"],
    "a": lambda f: not f["c"] and not f["z"],
    "be": lambda f: f["c"] or f["z"],
    "l": lambda f: f["s"] != f["o"],
    "ge": lambda f: f["s"] == f["o"],
    "g": lambda f: not f["z"] and f["s"] == f["o"],
    "le": lambda f: f["z"] or f["s"] != f["o"],
}
# The conditions that the verifier decides for numbers after an instruction, by what sets the flags.
DECIDED: dict[str, Any] = {
    "all": {*CONDITIONS},
    "unsigned": {"e", "ne", "b", "ae", "a", "be"},
    "zero": {"e", "ne"},
    "none": set(),
}


# ---- the manual


def signed(x, width):
    return x - (x >> width - 1 << width)


def of_sum(a, b, carry, width):
    """Returns a + b + carry and its flags."""
    total, result = a + b + carry, (a + b + carry) % (1 << width)
    overflow = signed(a, width) + signed(b, width) + carry != signed(result, width)
    return result, {**of_result(result, width), "c": total >= 1 << width, "o": overflow}


def of_difference(a, b, borrow, width):
    """Returns a - b - borrow and its flags."""
    result = (a - b - borrow) % (1 << width)
    overflow = signed(a, width) - signed(b, width) - borrow != signed(result, width)
    return result, {**of_result(result, width), "c": a < b + borrow, "o": overflow}


def of_result(result, width):
    """Returns the flags of a logical operation's result."""
    return {"z": result == 0, "s": bool(result >> width - 1), "c": False, "o": False}


def of_logic(operation, a, b, width):
    result = operation(a, b)
    return result, of_result(result, width)


# The result and the flags, by the operands (destination, source), the width and the flags before; and what is decided.
ARITHMETIC = {
    "add": (lambda a, b, width, _: of_sum(a, b, 0, width), "unsigned"),
    "sub": (lambda a, b, width, _: of_difference(a, b, 0, width), "all"),
    "cmp": (lambda a, b, width, _: (None, of_difference(a, b, 0, width)[1]), "all"),
    "sbb": (lambda a, b, width, flags: of_difference(a, b, flags["c"], width), "unsigned"),
    "xor": (lambda a, b, width, _: of_logic(operator.xor, a, b, width), "all"),
    "or": (lambda a, b, width, _: of_logic(operator.or_, a, b, width), "all"),
    "and": (lambda a, b, width, _: of_logic(operator.and_, a, b, width), "all"),
    "test": (lambda a, b, width, _: (None, of_logic(operator.and_, a, b, width)[1]), "all"),
    "inc": (lambda a, _, width, flags: stepped(of_sum(a, 1, 0, width), flags), "unsigned"),
    "dec": (lambda a, _, width, flags: stepped(of_difference(a, 1, 0, width), flags), "unsigned"),
    "neg": (lambda a, _, width, __: of_difference(0, a, 0, width), "all"),
}


def stepped(found, flags):
    """Returns the result and the flags of an instruction that keeps the carry."""
    return found[0], {**found[1], "c": flags["c"]}


def rotated(x, k, width):
    k %= width
    return (x << k | x >> width - k) % (1 << width)


def turned(x, width):
    return int.from_bytes(x.to_bytes(width // 8, "little"), "big")


# ---- a processor with numbers


class State:
    """A processor whose registers, memory and flags are known numbers. `flags` are those of a comparison."""

    def __init__(self, rng):
        self.cpu = new_processor()
        self.cpu.registers.update({name: number(rng) for name in WIDE if name not in ("rsp", "rdi")})
        self.stored = [number(rng) for _ in range(STORED // 8)]
        memory = WordMemory("m", STORED, [(8 * k, 8, x) for k, x in enumerate(self.stored)], alignment=8)
        self.cpu.registers["rdi"], self.memory = address(memory), memory
        a, b = number(rng), number(rng)
        self.cpu.set_flags("sub", 64, a, b, None)
        self.flags, self.before = of_difference(a, b, 0, 64)[1], dict(self.cpu.registers)

    def value(self, operand, width):
        if isinstance(operand, Immediate):
            return operand.value % (1 << width)
        if isinstance(operand, Place):
            return self.stored[1] % (1 << width)
        name, first, _ = PARTS[operand.name]
        return self.before[name] >> first & (1 << width) - 1

    def run(self, x, letters):
        return TABLE[x.mnemonic, letters][1](self.cpu, x)

    def expect(self, what, results):
        """Checks that these operands, (operand, width) -> value, have changed and no others."""
        expected, stored = dict(self.before), self.stored[1]
        for (operand, width), x in results.items():
            if isinstance(operand, Place):
                stored = stored >> width << width | x
            elif width >= 32:  # 32 bits clear the upper half
                expected[PARTS[operand.name][0]] = x
            else:
                name = PARTS[operand.name][0]
                expected[name] = expected[name] >> width << width | x
        for name in WIDE:
            if name not in ("rsp", "rdi"):
                expect(self.cpu.registers[name], expected[name], f"{name} after {what}")
        for k, x in enumerate((self.stored[0], stored, self.stored[2])):
            expect(self.memory.load(8 * k, 8), x, f"memory after {what}")
        expect(self.cpu.registers["rsp"] is self.before["rsp"], True, f"the stack pointer after {what}")

    def expect_flags(self, what, flags, decided):
        for name, holds in CONDITIONS.items():
            if name in DECIDED[decided]:
                expect(self.cpu.condition(name), holds(flags), f"the condition {name} after {what}")
            else:
                refuses(functools.partial(self.cpu.condition, name), f"the condition {name} after {what}", REFUSED)

    def expect_same_flags(self, what):
        self.expect_flags(what, self.flags, "all")


def operands(letters, k=0, names=("ax", "cx", "dx", "bx")):
    """Returns operands of a form: rax, rcx, .. by their widths, memory at 8(%rdi), and an immediate number."""
    left = iter(names)
    parts = {"b": "{0[0]}l", "w": "{0}", "l": "e{0}", "q": "r{0}", "h": "{0[0]}h"}
    return [
        Immediate(k) if one == "i" else PLACED if one == "m" else Register(parts[one].format(next(left)))
        for one in letters
    ]


def forms(*mnemonics):
    """Yields (mnemonic, letters, width) of the forms of some mnemonics."""
    for mnemonic, letters in TABLE:
        if mnemonic in mnemonics:
            sizes = [one for one in letters if one in WIDTHS]
            yield mnemonic, letters, WIDTHS[sizes[-1] if sizes else mnemonic[-1]]


# ---- the tests


def arithmetic_forms(rng):
    """Tests sums, differences, logic and comparisons, with numbers and with the same register twice."""
    for mnemonic, letters, width in forms(*ARITHMETIC, "cmpl", "cmpq"):
        of_two, decided = ARITHMETIC[mnemonic.rstrip("lq") if mnemonic.startswith("cmp") else mnemonic]
        for turn in range(12):
            state = State(rng)
            names = ("ax", "ax") if turn == 0 and "i" not in letters else ("ax", "cx", "dx", "bx")
            if turn == 1:  # equal operands
                state.before["rcx"] = state.cpu.registers["rcx"] = state.before["rax"]
            found = operands(letters, number(rng, 31), names)
            to, source = found[-1], found[0]
            a, b = state.value(to, width), state.value(source, width)
            state.run(instruction(mnemonic, *found), letters)
            result, flags = of_two(a, b, width, state.flags)
            what = f"{mnemonic} {letters} of {a:#x} and {b:#x}"
            state.expect(what, {} if result is None else {(to, width): result})
            state.expect_flags(what, flags, decided)


def moves(rng):
    """Tests moves, which keep the flags."""
    sources = {"movzbl": 8, "movzwl": 16, "movsbl": 8}
    for mnemonic, letters, width in forms("mov", "movabs", "movl", *sources, "movbe", "not"):
        for _ in range(4):
            state, found = State(rng), operands(letters, number(rng, 31))
            source = state.value(found[0], sources.get(mnemonic, width))
            state.run(instruction(mnemonic, *found), letters)
            x = turned(source, width) if mnemonic == "movbe" else source
            x = (
                signed(source, 8) % (1 << 32)
                if mnemonic == "movsbl"
                else source ^ (1 << width) - 1
                if mnemonic == "not"
                else x
            )
            state.expect(f"{mnemonic} {letters}", {(found[-1], width): x})
            state.expect_same_flags(f"{mnemonic} {letters}")
    for letters, width in (("l", 32), ("q", 64)):
        state, to = State(rng), operands(letters)[0]
        state.run(instruction("bswap", to), letters)
        state.expect("bswap", {(to, width): turned(state.value(to, width), width)})
        state.expect_same_flags("bswap")
        for displacement, scale in ((5, 4), (-3 % (1 << 64), 1)):
            state = State(rng)
            state.run(instruction("lea", Place(displacement, "rcx", "rdx", scale), to), "m" + letters)
            x = displacement + state.before["rcx"] + scale * state.before["rdx"]
            state.expect("lea", {(to, width): x % (1 << width)})
            state.expect_same_flags("lea")
    state, to = State(rng), Place(8, "rdi", None, 1)
    state.run(instruction("movq", Immediate(-5 % (1 << 64)), to), "im")
    state.expect("movq", {(to, 64): -5 % (1 << 64)})


def conditional_forms(rng):
    """Tests moves and bytes by a condition."""
    for name, holds in CONDITIONS.items():
        for letters, width in (("qq", 64), ("mq", 64), ("ll", 32), ("ml", 32)):
            for _ in range(6):
                state, (source, to) = State(rng), operands(letters)
                state.run(instruction(f"cmov{name}", source, to), letters)
                x = state.value(source if holds(state.flags) else to, width)
                state.expect(f"cmov{name} {letters}", {(to, width): x})
                state.expect_same_flags(f"cmov{name}")
        state, (to,) = State(rng), operands("b")
        state.run(instruction(f"set{name}", to), "b")
        state.expect(f"set{name}", {(to, 8): int(holds(state.flags))})
        state.expect_same_flags(f"set{name}")


def product_forms(rng):
    """Tests products and quotients. Afterwards the flags are undefined, except after mulx, which keeps them."""
    for mnemonic, letters, width in forms("imul"):
        for k in (0, 3, -2 % (1 << 64), number(rng)):
            state, found = State(rng), operands(letters, k)
            a, b = (signed(state.value(y, width), width) for y in found[:2])
            state.run(instruction(mnemonic, *found), letters)
            state.expect(f"{mnemonic} {letters}", {(found[-1], width): a * b % (1 << width)})
            state.expect_flags(mnemonic, {}, "none")
    for _ in range(4):
        state, factor = State(rng), Register("rcx")
        state.run(instruction("mul", factor), "q")
        product = state.before["rax"] * state.before["rcx"]
        state.expect("mul", {(Register("rax"), 64): product % (1 << 64), (Register("rdx"), 64): product >> 64})
        state.expect_flags("mul", {}, "none")
    for letters, (lower, upper) in itertools.product(("qqq", "mqq"), (("rax", "rbx"), ("rdx", "rax"), ("rax", "rax"))):
        state, source = State(rng), PLACED if letters[0] == "m" else Register("rcx")
        state.run(instruction("mulx", source, Register(lower), Register(upper)), letters)
        product = state.before["rdx"] * state.value(source, 64)
        state.expect("mulx", {(Register(lower), 64): product % (1 << 64), (Register(upper), 64): product >> 64})
        state.expect_same_flags("mulx")
    for letters, width in (("w", 16), ("l", 32), ("q", 64)):
        for b in (1, 2, 7, (1 << width) - 1, rng.randrange(1, 1 << width)):
            state = State(rng)
            state.before["rdx"] = state.cpu.registers["rdx"] = 0 if width > 16 else 5 << 16
            state.before["rcx"] = state.cpu.registers["rcx"] = b | 1 << 64 - 1 if width < 64 else b
            state.run(instruction("div", *operands(letters, names=["cx"])), letters)
            a, (quotient, rest) = state.before["rax"] % (1 << width), (
                operands(letters, names=[name])[0] for name in ("ax", "dx")
            )
            state.expect("div", {(quotient, width): a // b, (rest, width): a % b})
            state.expect_flags("div", {}, "none")


def shift_forms(rng):
    """Tests shifts by a number, by 1 without one, or by cl: modulo the width. A shift by 0 keeps the flags."""
    shifts: dict[str, Any] = {"shl": operator.lshift, "shr": operator.rshift, "rol": None}
    for mnemonic, letters, width in forms(*shifts):
        for k in (0, 1, 7, width - 1, width, width + 3, 255) if len(letters) > 1 else (1,):
            state, found = State(rng), operands(letters, k, ("cx", "ax") if letters[0] == "b" else ("ax",))
            if letters[0] == "b":
                state.before["rcx"] = state.cpu.registers["rcx"] = k | 0xABCD00
            a, moved = state.value(found[-1], width), k % width
            state.run(instruction(mnemonic, *found), letters)
            x = rotated(a, k, width) if mnemonic == "rol" else shifts[mnemonic](a, moved) % (1 << width)
            what = f"{mnemonic} {letters} by {k}"
            state.expect(what, {(found[-1], width): x})
            if not moved:
                state.expect_same_flags(what)
            else:
                state.expect_flags(what, of_result(x, width), "none" if mnemonic == "rol" else "zero")
    for mnemonic, letters, width in forms("shlx", "shrx", "rorx"):
        for k in (0, 1, 13, width - 1, width, width + 5, 200):
            state, found = State(rng), operands(letters, k)
            if mnemonic != "rorx":
                state.before["rax"] = state.cpu.registers["rax"] = k | 7 << 20
            a = state.value(found[1], width)
            state.run(instruction(mnemonic, *found), letters)
            x = {"shlx": a << k % width, "shrx": a >> k % width, "rorx": rotated(a, -k, width)}[mnemonic] % (1 << width)
            state.expect(f"{mnemonic} {letters} by {k}", {(found[-1], width): x})
            state.expect_same_flags(mnemonic)


def double_shifts(rng):
    """Tests shifts that take their bits from another register."""
    for mnemonic, letters, width in forms("shld", "shrd"):
        for k in (0, 1, 9, width - 1, width, width + 2):
            state, found = State(rng), operands(letters, k)
            source, to = (state.value(y, width) for y in found[1:])
            state.run(instruction(mnemonic, *found), letters)
            moved, both = k % width, to << width | source if mnemonic == "shld" else source << width | to
            x = both << moved >> width if mnemonic == "shld" else both >> moved
            state.expect(f"{mnemonic} {letters} by {k}", {(found[-1], width): x % (1 << width)})
            if moved:
                state.expect_flags(mnemonic, {}, "none")
            else:
                state.expect_same_flags(mnemonic)


def prefetches(rng):
    """Tests that a prefetch changes nothing, and that its place is an address."""
    state = State(rng)
    for at in (0, 400, -64 % (1 << 64)):
        state.run(instruction("prefetcht0", Place(at, "rdi", None, 1)), "m")
    state.expect("prefetcht0", {})
    state.expect_same_flags("prefetcht0")
    for x in (5, symbol("at64", 64)):
        state.cpu.registers["rdi"] = x
        refuses(lambda: state.run(instruction("prefetcht0", PLACED), "m"), "a prefetch of no object", REFUSED)


def sets_of_forms(_):
    """Tests which instruction sets have the forms, and that each form has a test."""
    tested = {
        *ARITHMETIC,
        "cmpl",
        "cmpq",
        "mov",
        "movabs",
        "movl",
        "movq",
        "movzbl",
        "movzwl",
        "movsbl",
        "bswap",
        "lea",
    }
    tested |= {"not", "imul", "mul", "div", "shl", "shr", "rol", "shld", "shrd", "prefetcht0", *NEW}
    tested |= {prefix + name for prefix in ("set", "cmov") for name in CONDITIONS}
    control = {"nop", "ud2", "push", "pop", "ret", "call", "jmp", *("j" + name for name in CONDITIONS)}
    for mnemonic, letters in TABLE:
        if any(one in "xyz" for one in letters) or mnemonic == "vzeroupper":
            continue
        expect(mnemonic in tested | control, True, f"a test of {mnemonic} {letters}")
        x, level = instruction(mnemonic, *operands(letters)), V3 if mnemonic in NEW else V1
        for processor in NAMES:
            if NAMES.index(processor) >= NAMES.index(level):
                known(x, processor)
            else:
                refuses(lambda: known(x, processor), f"{mnemonic} {letters} of {processor}", REFUSED)


ALL = [arithmetic_forms, moves, conditional_forms, product_forms, shift_forms, double_shifts, prefetches, sets_of_forms]
