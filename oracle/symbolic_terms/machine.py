"""Runs functions of LLVM code symbolically. Addresses, lengths and branches are numbers, or polynomials that the facts
decide; bytes of an input are terms. A vector is one number, with its first lane in the lowest bits."""
from typing import Callable

from . import halves, operations
from .llvm_text import (
    NOTHING,
    Array,
    FunctionName,
    Pointer,
    Reader,
    Register,
    Struct,
    Vector,
    alignment_of,
    instruction,
    place_of,
)
from .memory import Input, Memory, taken
from .nodes import Node, Value, symbol
from .operations import bits, side_by_side
from .polynomials import Poly, constant_of, is_natural, is_number, lifted, minus, plus
from .refusals import Undecided, Unsupported
from .modular import BINARY, signed
from .signs_and_rotations import compare_numbers, rotated


WORD = 64
HALF = 1 << WORD - 1
DIVISIONS = "udiv", "urem", "sdiv"
NOTED = "add", "mul", "and", "or", "shl", "lshr"  # operations of a product by halves


def is_address(x):
    return isinstance(x, tuple) and len(x) == 2 and isinstance(x[0], (Input, Memory)) and is_number(x[1])


def pointed(x):
    """Returns an address, which must not be null."""
    if not isinstance(x, tuple):
        raise Unsupported("an access through null")
    return x


def binary(module, value, word, t, a, b):
    a, b = value(a), value(b)
    if word == "sub" and is_address(a) and is_address(b):  # the difference of two addresses in one object
        if a[0] is not b[0]:
            raise Unsupported("the difference of two objects")
        a, b = a[1], b[1]
    if word in ("and", "urem") and is_address(a):  # a test of alignment
        size = b + 1 if word == "and" else b
        if not isinstance(size, int) or size < 1 or size & size - 1 or a[0].alignment % size:
            raise Unsupported("the bits of an address")
        a = a[1]
    if is_address(a) or is_address(b):
        raise Unsupported(f"{word} of an address")
    if word in DIVISIONS and isinstance(b, int) and not b:
        raise Unsupported("a division by 0")
    result = BINARY[word](t.bits, a, b)
    return (
        halves.noted(word, a, b, result) if module.multiplies_by_halves and t.bits == WORD and word in NOTED else result
    )


# ---- vectors


def lanes_of(x, t):
    return [bits(0 if x is None else x, t.bits * k, t.bits) for k in range(t.lanes)]


def vector(lanes, width):
    return side_by_side(*((lane, width) for lane in lanes))


def on_lanes(module, value, word, t, a, b):
    pairs = zip(lanes_of(value(a), t), lanes_of(value(b), t))
    return vector([BINARY[word](t.bits, x, y) for x, y in pairs], t.bits)


def insert_lane(module, value, t, a, operands):
    (_, b), (_, k) = operands
    out = lanes_of(value(a), t)
    out[value(k)] = value(b)
    return vector(out, t.bits)


def shuffle(module, value, t, a, operands):
    (_, b), (to, order) = operands
    out = lanes_of(value(a), t) + lanes_of(value(b), t)
    return vector([out[k] for k in lanes_of(value(order), to)], t.bits)


# ---- comparisons


def compare(module, value, test, t, a, b):
    a, b = value(a), value(b)
    try:
        if isinstance(t, Pointer):
            return compare_addresses(module, test, a, b)
        if is_number(a) and is_number(b):
            return int(compare_numbers(test, t.bits, a, b))
        return compare_terms(module, test, lifted(a), lifted(b))
    except Undecided:
        if not module.allows_unknown_bits:
            raise
        return symbol(module.fresh("bit"), 1)


def compare_addresses(module, test, a, b):
    if a == 0 or b == 0:
        if test not in ("eq", "ne"):
            raise Unsupported("an order of null")
        return int((is_number(a) and is_number(b)) == (test == "eq"))
    if a[0] is not b[0]:
        raise Unsupported("a comparison of addresses in two objects")
    for memory, at in (a, b):
        inside = is_natural(plus(at, module.beside)) and is_natural(plus(minus(memory.length, at), module.beside))
        if not inside:
            raise Unsupported(f"a comparison of {at}, which is too far from {memory.name}")
    return int(compare_numbers(test, WORD, a[1], b[1]))


def key_of(x):
    return ("node", x.number) if isinstance(x, Node) else x


def compare_terms(module, test, a, b):
    if test in ("eq", "ne"):
        if a is b:
            return int(test == "eq")
        if {key_of(a), key_of(b)} in module.different:
            return int(test == "ne")
    if test == "ult":
        return int(operations.is_below(a, b))
    raise Undecided(f"{a} {test} {b}")


# ---- loads, stores, calls


def load(module, value, t, operands):
    ((_, address),) = operands
    memory, at = pointed(value(address))
    if isinstance(t, (Array, Struct)):
        return tuple(memory.load(at + t.offset(k), part.size()) for k, part in enumerate(t.parts))
    return memory.load(at, t.size())


def store(module, value, t, a, operands):
    ((_, address),) = operands
    (memory, at), a = pointed(value(address)), value(a)
    if isinstance(t, (Array, Struct)):
        for k, part in enumerate(t.parts):
            memory.store(at + t.offset(k), part.size(), a[k])
    else:
        memory.store(at, t.size(), a)


def address(module, value, t, operands):
    (_, base), *steps = operands
    numbers = [signed(x, u.bits) if isinstance(x, int) else x for u, x in ((u, value(x)) for u, x in steps)]
    if not all(is_number(x) for x in numbers):
        raise Undecided("an address")
    memory, at = place_of(t, pointed(value(base)), *numbers)
    if constant_of(at) >= HALF and is_natural(minus(at, HALF)):  # offsets are numbers modulo 2 ^ 64
        at = minus(at, 1 << WORD)
    return memory, at


def call(module, value, callee, arguments):
    callee = value(callee)
    if not isinstance(callee, FunctionName):
        raise Unsupported("a call of no function")
    return module.call(callee.name, [value(x) for x in arguments])


def allocate(module, value, name, size, alignment):
    memory = Memory(name, size, alignment=alignment)
    module.live.append(memory)
    return memory, 0


# ---- LLVM's intrinsics


def intrinsic(name, arguments):
    if name == NOTHING:
        return arguments[0]
    if name.startswith("@llvm.memcpy"):
        return copy(*arguments[:3])
    if name.startswith("@llvm.memset"):
        (memory, at), byte, n = arguments[:3]
        return memory.fill(at, n, byte)
    if name.startswith("@llvm.fshl.i"):
        return rotated(int(name[len("@llvm.fshl.i") :]), *arguments)
    if name.startswith("@llvm.x86.") and name.endswith((".psrli.q", ".pslli.q")):
        word, count = "lshr" if "psrl" in name else "shl", 4 if "avx2" in name else 2
        lanes = [bits(arguments[0], WORD * k, WORD) for k in range(count)]
        return vector([BINARY[word](WORD, x, arguments[1]) for x in lanes], WORD)
    if name == "@llvm.aarch64.neon.umull.v2i64":
        pairs = [[bits(x, 32 * k, 32) for x in arguments] for k in (0, 1)]
        return vector([BINARY["mul"](WORD, *pair) for pair in pairs], WORD)
    if name.startswith("@llvm.prefetch"):
        return None
    if name == "@llvm.assume":
        if arguments[0] != 1:
            raise Unsupported("an assumption that doesn't hold")
        return None
    raise Unsupported(name)


def copy(to: Value, source: Value, n: Value) -> None:
    """Performs memcpy. A copy of symbolic length, or to an area that keeps runs, is stored as a run of an input."""
    (memory, at), (source, first) = pointed(to), pointed(source)
    area = memory.run_area
    if not (isinstance(n, int) and isinstance(at, int)) or area and area[0] <= at < area[1]:
        if isinstance(source, Input):
            if not is_natural(n) or not is_natural(first) or not is_natural(minus(source.length, plus(first, n))):
                raise Unsupported(f"{n} bytes at {first} of {source.name}, which has {source.length}")
            return memory.put_run(at, n, *source.origin(first))
        return memory.put_run(at, n, *source.origin(first, n))
    parts = list(taken(source, first, n))
    memory.clear(at, n)
    for k, size, x in parts:
        memory.store(at + k, size, x)
    return None


# ---- all operations


def truncate(module, value, t, a, to):
    a = value(a)
    if isinstance(t, Vector):
        return vector([bits(lane, 0, to.bits) for lane in lanes_of(a, t)], to.bits)
    return a % (1 << to.bits) if isinstance(a, Poly) else bits(a, 0, to.bits)


def extend_sign(module, value, t, a, to):
    a = value(a)
    if not isinstance(a, int):
        raise Undecided("a sign")
    return signed(a, t.bits) % (1 << to.bits)


def insert_part(module, value, t, a, _, b, k):
    n, a = len(t.parts), value(a)
    out = [None] * n if a is None else list(a)
    if not 0 <= k < n:
        raise Unsupported(f"part {k} of {n}")
    out[k] = value(b)
    return tuple(out)


def extract_part(module, value, _, a, k):
    a = value(a)
    if not 0 <= k < len(a):
        raise Unsupported(f"part {k} of {len(a)}")
    return a[k]


def select(module, value, _, condition, operands):
    condition, ((_, a), (_, b)) = value(condition), operands
    if not isinstance(condition, int):
        raise Undecided("a select")
    return value(a if condition else b)


OPERATIONS: dict[str, Callable] = {
    "binary": binary,
    "lanes": on_lanes,
    "insertelement": insert_lane,
    "shufflevector": shuffle,
    "icmp": compare,
    "load": load,
    "store": store,
    "getelementptr": address,
    "call": call,
    "alloca": allocate,
    "select": select,
    **dict.fromkeys(("zext", "bitcast", "ptrtoint"), lambda module, value, t, a, to: value(a)),
    "trunc": truncate,
    "sext": extend_sign,
    "insertvalue": insert_part,
    "extractvalue": extract_part,
}


# ---- functions and modules


class Function:
    """A function of a module: blocks of instructions, by label."""

    loops: dict[str, set[str]]  # of loops.py

    def __init__(self, module, lines):
        head = Reader(module, lines[0][len("define ") :])
        self.module, self.result, self.name = module, head.type(), head.next()
        head.expect("(")
        self.parameters = [x.name for _, x in head.typed_list(")")]
        self.blocks, self.first = {}, None
        for line in lines[1:]:
            label, colon, _ = line.partition(":")
            if colon and " " not in label:
                block = self.blocks.setdefault("%" + label, [])
                self.first = self.first or "%" + label
            elif line.strip():
                block.append(instruction(module, line.strip()))

    def run(self, arguments):
        live = len(self.module.live)
        try:
            return self.walk(dict(zip(self.parameters, arguments)), None, self.first)
        finally:
            del self.module.live[live:]

    def walk(self, registers, before, block, body=None, stop=None):
        """Runs from a block to the function's end, and returns its value. With `body`, the blocks of a loop with this
        head, runs to the block `stop` or out of the loop, and returns (before, block)."""
        is_first = True
        while True:
            if body is None or not is_first:
                if body and (block == stop or block not in body):
                    return before, block
                loops = self.module.loops
                behind = loops.pass_by(self, registers, before, block) if loops else (before, block)
                if behind != (before, block):
                    before, block = behind
                    continue
            is_first = False
            target, result = self.run_block(registers, before, block)
            if target is None:
                return result
            before, block = block, target

    def run_block(self, registers, before, block):
        """Returns the target of a block's branch and None, or None and the function's value."""

        def value(x):
            return registers[x.name] if x.__class__ is Register else x.value

        for target, operation, parts in self.blocks[block]:
            if operation == "br":
                condition = 1 if parts[0] is None else value(parts[0])
                if not isinstance(condition, int):
                    raise Undecided("a branch")
                return parts[1] if condition else parts[2], None
            if operation == "ret":
                return None, None if parts[0] is None else value(parts[0])
            result = (
                value(parts[0][before]) if operation == "phi" else OPERATIONS[operation](self.module, value, *parts)
            )
            if target is not None:
                registers[target] = result
        raise Unsupported(f"{block} of {self.name} has no end")


class Module:
    """A module of LLVM code, and the assumptions while its functions run.

    multiplies_by_halves whether the code has no products of 128 bits, and computes them from products of halves
    different            pairs of values assumed to differ, if the library tests a seed for 0
    allows_unknown_bits  whether an undecided comparison of terms is an unknown bit instead of an error
    beside               how far outside of its object a compared address may be
    live                 the live memories
    instead              function's name -> Python function called instead
    loops                called at each block; may prove a loop by induction (loops.py)
    called               names of the functions called so far
    """

    def __init__(self, text):
        self.types, self.functions, self.globals, self.fresh_count, self.called = {}, {}, {}, 0, set()
        self.lines, self.multiplies_by_halves = text.split("\n"), " i128 " not in text
        self.reset()
        for line in self.lines:
            name, _, rest = line.partition(" = type ")
            if rest:
                self.types[name] = Reader(self, rest).type()
        for line in self.lines:
            if line.startswith("@"):
                self.read_global(line)
        for first in range(len(self.lines)):
            if self.lines[first].startswith("define "):
                function = Function(self, self.lines[first : self.lines.index("}", first)])
                self.functions[function.name] = function

    def reset(self):
        self.different, self.allows_unknown_bits, self.beside = [], False, 0
        self.live, self.instead, self.loops = [], {}, None

    def suppose_different(self, a, b):
        self.different.append({key_of(a), key_of(b)})

    def read_global(self, line):
        name, _, rest = line.partition(" = ")
        reader = Reader(self, rest)
        while reader.next() not in ("constant", "global"):
            pass
        t = reader.type()
        self.globals[name] = Memory(name, t.size(), reader.initial(t), alignment=alignment_of(reader))

    def address_of(self, name):
        return (self.globals[name], 0) if name in self.globals else FunctionName(name)

    def fresh(self, prefix):
        """Returns a symbol name not used before."""
        self.fresh_count += 1
        return f"{prefix}#{self.fresh_count}"

    def call(self, name, arguments):
        if name == NOTHING or name.startswith("@llvm."):
            return intrinsic(name, arguments)
        self.called.add(name)
        return self.instead[name](arguments) if name in self.instead else self.functions[name].run(arguments)
