"""Reads LLVM code as clang 14 writes it at -O0: types, constants, and instructions as (target, operation, parts).

Anything else is Unsupported: only attributes, alignments and metadata are skipped silently."""
import collections
import re
from dataclasses import dataclass
from typing import Any

from .refusals import Unsupported
from .modular import signed
from .nodes import Value

TOKEN = re.compile(r'c"[^"]*"|"[^"]*"|[%@][-\w.$]+|-?\d+|[\w.]+|\.\.\.|[][(){}<>,*=]|![\w.]*|#\d+')
ATTRIBUTES = {
    "noundef",
    "noalias",
    "nocapture",
    "readonly",
    "writeonly",
    "immarg",
    "inbounds",
    "nuw",
    "nsw",
    "exact",
    "dso_local",
    "internal",
    "private",
    "unnamed_addr",
    "signext",
    "zeroext",
    "volatile",
    "tail",
    "local_unnamed_addr",
}
POINTER_BYTES = 8


@dataclass(frozen=True)
class Int:
    bits: int

    def size(self):
        return max(1, (self.bits + 7) // 8)

    alignment = size


@dataclass(frozen=True)
class Pointer:
    def size(self):
        return POINTER_BYTES

    alignment = size


@dataclass(frozen=True)
class Array:
    count: int
    element: Any

    def size(self):
        return self.count * self.element.size()

    def alignment(self):
        return self.element.alignment()

    def offset(self, index):
        return index * self.element.size()

    @property
    def parts(self):
        return (self.element,) * self.count


@dataclass(frozen=True)
class Vector:
    lanes: int
    bits: int

    def size(self):
        return self.lanes * self.bits // 8

    alignment = size


@dataclass(frozen=True)
class Struct:
    parts: tuple
    is_packed: bool

    def alignment(self):
        return 1 if self.is_packed else max([part.alignment() for part in self.parts] or [1])

    def size(self):
        return rounded_up(self.offset(len(self.parts)), self.alignment())

    def offset(self, index):
        at = 0
        for k, part in enumerate(self.parts):
            at = rounded_up(at, 1 if self.is_packed else part.alignment())
            if k == index:
                break
            at += part.size()
        return at


Register = collections.namedtuple("Register", "name")
Constant = collections.namedtuple("Constant", "value")
FunctionName = collections.namedtuple("FunctionName", "name")
POINTER, VOID = Pointer(), "void"
NOTHING = "@no.operation"  # callee of an empty `asm`


def rounded_up(n, k):
    return (n + k - 1) // k * k


class Reader:
    """Reads one line."""

    def __init__(self, module, line):
        self.module, self.tokens, self.at = module, TOKEN.findall(line), 0

    def peek(self):
        while self.at < len(self.tokens) and self.tokens[self.at] in ATTRIBUTES:
            self.at += 1
        return self.tokens[self.at] if self.at < len(self.tokens) else None

    def next(self):
        word = self.peek()
        self.at += 1
        return word

    def take(self, word):
        if self.peek() == word:
            self.at += 1
            return True
        return False

    def expect(self, word):
        if self.next() != word:
            raise Unsupported(f"no {word} in {' '.join(self.tokens)}")

    # ---- types

    def type(self):
        t = self.plain_type()
        while True:
            if self.take("*"):
                t = POINTER
            elif self.peek() == "(":  # a function's parameters, always behind a pointer
                self.skip_brackets()
            else:
                return t

    def skip_brackets(self):
        depth = 0
        while True:
            depth += {"(": 1, ")": -1}.get(self.next(), 0)
            if not depth:
                return

    def plain_type(self):
        word = self.next()
        if re.fullmatch(r"i\d+", word):
            return Int(int(word[1:]))
        if word == "void":
            return VOID
        if word[0] == "%":
            return self.module.types[word]
        if word == "[":
            count, element = self.counted("]")
            return Array(count, element)
        if word == "<" and self.peek() != "{":
            count, element = self.counted(">")
            return Vector(count, element.bits)
        if word in ("{", "<"):
            return self.struct(word == "<")
        raise Unsupported(f"the type {word} in {' '.join(self.tokens)}")

    def counted(self, end):
        """Parses `8 x i64` and the closing bracket."""
        count = int(self.next())
        self.expect("x")
        element = self.type()
        self.expect(end)
        return count, element

    def struct(self, is_packed):
        if is_packed:
            self.expect("{")
        parts = []
        while not self.take("}"):
            parts.append(self.type())
            self.take(",")
        if is_packed:
            self.expect(">")
        return Struct(tuple(parts), is_packed)

    # ---- operands

    def operand(self, t):
        """Reads an operand: a Register or a Constant."""
        word = self.next()
        if word[0] == "%":
            return Register(word)
        if word[0] == "@":
            return Constant(self.module.address_of(word))
        if word in ("null", "zeroinitializer"):
            return Constant(0)
        if word in ("undef", "poison"):
            return Constant(None)
        if word in ("true", "false"):
            return Constant(int(word == "true"))
        if re.fullmatch(r"-?\d+", word):
            return Constant(int(word) % (1 << t.bits))
        if word == "<":
            return Constant(sum(x.value << t.bits * k for k, (_, x) in enumerate(self.typed_list(">"))))
        if word == "asm":
            return self.empty_assembly()
        if word == "getelementptr":
            self.expect("(")
            base = self.type()
            self.expect(",")
            (_, address), *steps = self.typed_list(")")
            return Constant(place_of(base, address.value, *(signed(x.value, t.bits) for t, x in steps)))
        if word == "bitcast":
            self.expect("(")
            inner = self.operand(self.type())
            self.expect("to")
            self.type()
            self.expect(")")
            return inner
        raise Unsupported(f"the operand {word} in {' '.join(self.tokens)}")

    def empty_assembly(self):
        """Reads inline assembly without instructions, the compiler's guard. It returns its argument."""
        self.take("sideeffect")
        if self.peek() != '""':
            raise Unsupported(" ".join(self.tokens))
        while self.peek() != "(":
            self.next()
        return Constant(FunctionName(NOTHING))

    def typed(self):
        t = self.type()
        if self.take("align"):
            self.next()
        return t, self.operand(t)

    def typed_list(self, end):
        out = []
        while not self.take(end):
            out.append(self.typed())
            self.take(",")
        return out

    def rest(self):
        """Reads operands, each after a comma, to the line's end or to `align 8` or metadata."""
        out = []
        while self.take(","):
            if self.peek() == "align" or self.peek()[0] == "!":
                break
            out.append(self.typed())
        return out

    # ---- initial values

    def initial(self, t):
        """Returns the initial value of a global: [(offset, size, value)]."""
        word = self.peek()
        if word.startswith('c"'):
            self.next()
            escaped = re.findall(r"\\([0-9A-F]{2})|(.)", word[2:-1])
            return [(k, 1, int(code, 16) if code else ord(letter)) for k, (code, letter) in enumerate(escaped)]
        if word == "zeroinitializer":
            self.next()
            return [(k, 1, 0) for k in range(t.size())]
        if word == "[":
            self.next()
            out, at = [], 0
            while not self.take("]"):
                inner = self.type()
                out += [(at + offset, n, x) for offset, n, x in self.initial(inner)]
                at += inner.size()
                self.take(",")
            return out
        return [(0, t.size(), self.operand(t).value)]


def place_of(t: Any, address: tuple, *steps: Value) -> tuple[Any, Value]:
    """Returns the result of getelementptr. The steps are signed numbers."""
    memory, at = address
    for k, index in enumerate(steps):
        if k and isinstance(t, Struct):
            if not 0 <= index < len(t.parts):
                raise Unsupported(f"part {index} of a struct of {len(t.parts)}")
            at = at + t.offset(index)
            t = t.parts[index]
            continue
        if k:
            t = t.element
        at = at + index * t.size()
    return memory, at


# ---- instructions

BINARY = {"add", "sub", "mul", "xor", "or", "and", "shl", "lshr", "udiv", "urem", "sdiv"}
# What follows an operation: `typed` is a type and an operand, `operand` one of the type before.
PATTERNS = {
    **dict.fromkeys(BINARY, "typed , operand"),
    **dict.fromkeys(("zext", "sext", "trunc", "bitcast", "ptrtoint"), "typed to type"),
    "icmp": "word typed , operand",
    "load": "type rest",
    "store": "typed rest",
    "getelementptr": "type rest",
    "extractvalue": "typed , number",
    "insertvalue": "typed , typed , number",
    "insertelement": "typed rest",
    "shufflevector": "typed rest",
    "select": "typed rest",
    "unreachable": "",
}


def instruction(module: Any, line: str) -> tuple[str | None, str, tuple]:
    """Returns an instruction: (target or None, operation, parts)."""
    reader, target = Reader(module, line), None
    if reader.tokens[1:2] == ["="]:
        target = reader.next()
        reader.next()
    word = reader.next()
    if word in READERS:
        return target, word, READERS[word](reader, target)
    if word not in PATTERNS:
        raise Unsupported(line)
    parts = read(reader, PATTERNS[word])
    if word in BINARY:
        return target, "lanes" if isinstance(parts[0], Vector) else "binary", (word, *parts)
    return target, word, parts


def read(reader, pattern):
    """Returns the parts of an instruction, as a pattern lists them."""
    out, readers = [], {
        "type": reader.type,
        "word": reader.next,
        "rest": reader.rest,
        "number": lambda: int(reader.next()),
    }
    for item in pattern.split():
        if item in (",", "to"):
            reader.expect(item)
        elif item == "typed":
            out += reader.typed()
        else:
            out.append(reader.operand(out[-2]) if item == "operand" else readers[item]())
    return tuple(out)


def read_br(reader, _):
    """Returns (condition or None, target, target if the condition is 0)."""
    if reader.take("label"):
        return None, reader.next(), None
    _, condition = reader.typed()
    labels = []
    while reader.take(",") and reader.take("label"):
        labels.append(reader.next())
    return condition, *labels


def read_ret(reader, _):
    t = reader.type()
    return (None if t == VOID else reader.operand(t),)


def read_call(reader, _):
    reader.type()
    callee = reader.operand(POINTER)
    reader.expect("(")
    return callee, [x for _, x in reader.typed_list(")")]


def read_alloca(reader, target):
    t = reader.type()
    return target, t.size(), alignment_of(reader)


def alignment_of(reader: "Reader") -> int:
    """Returns the number after `align`, or 1."""
    rest = reader.tokens[reader.at :]
    return int(rest[rest.index("align") + 1]) if "align" in rest else 1


def read_phi(reader, _):
    t, out = reader.type(), {}
    while not out or reader.take(","):
        reader.expect("[")
        a = reader.operand(t)
        reader.expect(",")
        out[reader.next()] = a
        reader.expect("]")
    return (out,)


READERS = {"br": read_br, "ret": read_ret, "alloca": read_alloca, "call": read_call, "phi": read_phi}
