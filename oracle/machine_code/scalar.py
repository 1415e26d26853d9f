"""Semantics of instructions on words."""
from typing import Callable

from oracle.symbolic_terms import BINARY, Poly, Unsupported, Value, is_same_number, lifted, ones, operations, plus

from .flags import carry
from .instructions import V1, V3, form
from .memory import ReturnTo
from .objects import Immediate, Instruction, Place, Register
from .values import WORD, Cpu, arithmetic, bits, high_and_low, is_term, joined, low, place_of

CONDITIONS = "e", "ne", "b", "ae", "a", "be", "l", "ge", "g", "le"
TWO = "il iq ml mq ll qq"          # operands of additions and comparisons


# ---- moves

@form(V1, "nop", "")
def nothing(cpu, x, *_):
    pass


@form(V1, "prefetcht0", "m")
def prefetch(cpu, x, place):
    place_of(cpu.effective(place, x))      # in or near an object, and by no symbol


@form(V1, "ud2", "")
def never(cpu, x):
    raise Unsupported("ud2")


@form(V1, "mov", "ib il iq ml mq wm lm ll qm qq bm hm bb")
@form(V1, "movl movq", "im")
@form(V1, "movabs", "iq")
def move(cpu: Cpu, x: Instruction, source: Immediate | Place | Register, to: Place | Register) -> None:
    width = cpu.width(x)
    cpu.put(to, width, cpu.get(source, width, x), x)


@form(V1, "movzbl", "ml bl")
@form(V1, "movzwl", "ml wl")
def move_widened(cpu, x, source, to):
    cpu.put(to, cpu.width(x), cpu.get(source, {"b": 8, "w": 16}[x.mnemonic[4]], x), x)


@form(V1, "movsbl", "bl")
def move_with_sign(cpu, x, source, to):
    byte = cpu.get(source, 8, x)
    if not isinstance(byte, int):
        raise Unsupported("the sign of a byte that is no number")
    cpu.put(to, 32, (byte ^ 0x80) - 0x80 & ones(32), x)


@form(V3, "movbe", "ml mq lm qm")
@form(V1, "bswap", "l q")
def move_turned(cpu, x, source, to=None):
    width = cpu.width(x)
    cpu.put(to or source, width, turned(cpu.get(source, width, x), width), x)


def turned(x: Value, width: int) -> Value:
    """Returns the bytes in reverse order."""
    return joined(*((bits(x, k, 8), 8) for k in range(width - 8, -8, -8)))


@form(V1, "lea", "ml mq")
def load_address(cpu, x, place, to):
    width = cpu.width(x)
    cpu.put(to, width, low(cpu.effective(place, x), width), x)


@form(V1, "push", "q")
def push(cpu, x, source):
    cpu.push(cpu.get(source, WORD, x))


@form(V1, "pop", "q")
def pop(cpu, x, to):
    value = cpu.pop()
    if isinstance(value, ReturnTo):
        raise Unsupported("a place to return to as a value")
    cpu.put(to, WORD, value, x)


# ---- branches

@form(V1, "ret", "")
def leave(cpu, x):
    to = cpu.pop()
    if not isinstance(to, ReturnTo):
        raise Unsupported("a return to no return address")
    return to


@form(V1, "call", "")
def call(cpu, x):
    cpu.push(ReturnTo(x.section, x.end))
    return x.target


@form(V1, "jmp", "")
def jump(cpu, x):
    return x.target


def with_condition(prefix):
    return " ".join(prefix + condition for condition in CONDITIONS)


@form(V1, with_condition("j"), "")
def jump_where(cpu, x):
    return x.target if cpu.condition(x.mnemonic[len("j"):]) else None


@form(V1, with_condition("set"), "b")
def set_where(cpu, x, to):
    cpu.put(to, 8, int(cpu.condition(x.mnemonic[len("set"):])), x)


@form(V1, with_condition("cmov"), "qq mq ll ml")
def move_where(cpu, x, source, to):
    """Moves if a condition holds. A memory operand is read in either case."""
    width = cpu.width(x)
    there, here = cpu.get(source, width, x), cpu.get(to, width, x)
    cpu.put(to, width, there if cpu.condition(x.mnemonic[len("cmov"):]) else here, x)


# ---- addition, subtraction, logic

def binary(word: str, op: str) -> Callable:
    def operation(cpu, x, source, to):
        width = cpu.width(x)
        if word in ("xor", "sub") and source == to:     # 0 for any content
            cpu.set_flags("logic", width, 0, 0, 0)
            return cpu.put(to, width, 0, x)
        a, b = cpu.get(to, width, x), cpu.get(source, width, x)
        if word == "or" and source == to:
            result = a
        elif word == "and" and isinstance(b, int) and isinstance(cpu.whole(to), Poly):
            result = arithmetic(word, WORD, cpu.whole(to), b)     # the mask has no bit above the width
        else:
            result = arithmetic(word, width, a, b)
        cpu.set_flags(op, width, a, b, result)
        return cpu.put(to, width, result, x)
    return operation


for mnemonic, op in (("add", "add"), ("sub", "sub"), ("xor", "logic"), ("or", "logic"), ("and", "logic")):
    form(V1, mnemonic, TWO)(binary(mnemonic, op))
form(V1, "or", "bb")(binary("or", "logic"))


@form(V1, "cmp", TWO + " ib lm qm")
@form(V1, "cmpl cmpq", "im")
def compare(cpu: Cpu, x: Instruction, source: Immediate | Place | Register, to: Place | Register) -> None:
    width = cpu.width(x)
    cpu.set_flags("sub", width, cpu.get(to, width, x), cpu.get(source, width, x), None)


@form(V1, "test", "ib il iq bb ll qq")
def test(cpu: Cpu, x: Instruction, source: Immediate | Register, to: Place | Register) -> None:
    width = cpu.width(x)
    a, b = cpu.get(to, width, x), cpu.get(source, width, x)
    cpu.set_flags("logic", width, a, b, a if source == to else arithmetic("and", width, a, b))


@form(V1, "sbb", "ib ll qq")
def subtract_with_borrow(cpu: Cpu, x: Instruction, source: Immediate | Register, to: Register) -> None:
    width = cpu.width(x)
    borrow, a, b = int(carry(cpu)), cpu.get(to, width, x), cpu.get(source, width, x)
    if is_term(a, b):
        raise Unsupported("a borrow of symbols")
    result = arithmetic("sub", width, arithmetic("sub", width, a, b), borrow)
    cpu.put(to, width, result, x)
    cpu.set_flags("borrow", width, a, plus(b, borrow), result)


@form(V1, "inc dec", "l q")
def step(cpu: Cpu, x: Instruction, to: Place | Register) -> None:
    width, saved = cpu.width(x), cpu.carry
    result = arithmetic("add" if x.mnemonic == "inc" else "sub", width, cpu.get(to, width, x), 1)
    cpu.set_flags("step", width, None, None, result)
    cpu.carry = saved
    cpu.put(to, width, result, x)


@form(V1, "neg", "b l q")
def negate(cpu, x, to):
    width = cpu.width(x)
    a = cpu.get(to, width, x)
    result = arithmetic("sub", width, 0, a)
    cpu.set_flags("sub", width, 0, a, result)
    cpu.put(to, width, result, x)


@form(V1, "not", "l q")
def complement(cpu, x, to):
    width = cpu.width(x)
    cpu.put(to, width, arithmetic("xor", width, cpu.get(to, width, x), ones(width)), x)


# ---- multiplication and division

@form(V1, "imul", "qq ll mq ml iml imq ill iqq")
def product(cpu, x, a, b, *_):
    width = cpu.width(x)
    cpu.put(x.operands[-1], width, arithmetic("mul", width, cpu.get(a, width, x), cpu.get(b, width, x)), x)
    cpu.forget_flags()


@form(V1, "mul", "q")
def whole_product(cpu: Cpu, x: Instruction, source: Place | Register) -> None:
    factor = cpu.get(source, WORD, x)
    cpu.registers["rdx"], cpu.registers["rax"] = high_and_low(cpu.registers["rax"], factor)
    cpu.forget_flags()


@form(V3, "mulx", "qqq mqq")
def whole_product_apart(cpu, x, source, lower, upper):
    above, below = high_and_low(cpu.registers["rdx"], cpu.get(source, WORD, x))
    cpu.put(lower, WORD, below, x)
    cpu.put(upper, WORD, above, x)


@form(V1, "div", "w l q")
def divide(cpu: Cpu, x: Instruction, source: Place | Register) -> None:
    width = cpu.width(x)
    above, a, b = low(cpu.registers["rdx"], width), low(cpu.registers["rax"], width), cpu.get(source, width, x)
    if not is_same_number(above, 0) or is_same_number(b, 0):
        raise Unsupported("a quotient of two words, or by 0")
    for letter, word in (("a", "udiv"), ("d", "urem")):
        cpu.put(Register({16: "", 32: "e", 64: "r"}[width] + letter + "x"), width, arithmetic(word, width, a, b), x)
    cpu.forget_flags()


# ---- shifts

def count(cpu, x, amount):
    k = cpu.get(amount, 8, x)
    if not isinstance(k, int):
        raise Unsupported("a shift by an amount that is no number")
    return k % cpu.width(x)


def shift(word):
    """Returns a shift or rotation, by 1 without an amount."""
    def operation(cpu, x, *operands):
        (*amount, to), width = operands, cpu.width(x)
        k, a = count(cpu, x, amount[0]) if amount else 1, cpu.get(to, width, x)
        result = side_shifted(width, a, a, k) if word == "rol" else arithmetic(word, width, a, k) if k else a
        cpu.put(to, width, result, x)
        if k and word == "rol":
            cpu.forget_flags()
        elif k:
            cpu.set_flags("shift", width, a, k, result)
    return operation


for mnemonic, word in (("shl", "shl"), ("shr", "lshr"), ("rol", "rol")):
    form(V1, mnemonic, "il iq l q" if word == "rol" else "il iq l q bl bq")(shift(word))


@form(V3, "shlx shrx", "lll qqq")
def shift_to(cpu, x, amount, source, to):
    k, a, width = count(cpu, x, amount), cpu.get(source, cpu.width(x), x), cpu.width(x)
    cpu.put(to, width, arithmetic({"shlx": "shl", "shrx": "lshr"}[x.mnemonic], width, a, k) if k else a, x)


def side_shifted(width: int, a: Value, b: Value, k: int) -> Value:
    """Returns a shifted left by k bits, with the upper bits of b below."""
    if not k:
        return a
    return operations.either(BINARY["shl"](width, lifted(a), k), bits(b, width - k, k))


@form(V1, "shld shrd", "ill iqq")
def shift_in(cpu, x, k, source, to):
    width = cpu.width(x)
    k, a, b = k.value % width, cpu.get(to, width, x), cpu.get(source, width, x)
    is_right = k and x.mnemonic == "shrd"
    cpu.put(to, width, side_shifted(width, b, a, width - k) if is_right else side_shifted(width, a, b, k), x)
    if k:
        cpu.forget_flags()


@form(V3, "rorx", "iml imq ill iqq")
def rotate(cpu, x, k, source, to):
    width = cpu.width(x)
    a = cpu.get(source, width, x)
    cpu.put(to, width, side_shifted(width, a, a, -k.value % width), x)
