"""Assembles small modules to compare with an engine: instructions as text, `i32.const 5; local.set 0`, by the codes of
the table. Each module has the memory, globals and constants that the stack machine expects."""
from .opcodes import BY_NAME, TYPES

CODES = {f"{'v' if width == 128 else 'i'}{width}": code for code, width in TYPES.items()}
STACK_END, PAGES = 1 << 20, 17
CONSTANTS = bytes(range(1, 193))
END = b"\x0b"


def unsigned(n: int) -> bytes:
    out = []
    while True:
        n, group = n >> 7, n & 127
        out.append(group | (128 if n else 0))
        if not n:
            return bytes(out)


def signed(n: int) -> bytes:
    out = []
    while True:
        n, group = n >> 7, n & 127
        if n == (-1 if group & 64 else 0):
            return bytes([*out, group])
        out.append(group | 128)


def vector(items: list[bytes]) -> bytes:
    return unsigned(len(items)) + b"".join(items)


def section(section_id: int, body: bytes) -> bytes:
    return bytes([section_id]) + unsigned(len(body)) + body


def with_sign(n, width):
    return n - (n >> width - 1 << width)


def given(behind, operands):
    """Returns the immediates of an instruction, encoded."""
    numbers = [int(word, 0) for word in operands if word not in CODES]
    if behind == "block":
        return bytes([CODES[operands[0]] if operands else 0x40])
    if behind in ("i32", "i64"):
        return signed(with_sign(numbers[0], int(behind[1:])))
    if behind.startswith("bytes"):  # an alignment and an offset
        return unsigned(0) + unsigned(numbers[0])
    if behind == "labels":
        return vector([unsigned(n) for n in numbers[:-1]]) + unsigned(numbers[-1])
    if behind == "v128":
        return b"".join(n.to_bytes(8, "little") for n in numbers)
    if behind.startswith("zeros"):
        return bytes(int(behind[len("zeros") :]))
    return b"".join(map(unsigned, numbers))


def assembled(text: str) -> bytes:
    out = b""
    for line in filter(None, map(str.strip, text.split(";"))):
        name, *operands = line.split()
        opcode = BY_NAME[name]
        code = unsigned(opcode.code) if opcode.prefix is None else bytes([opcode.prefix]) + unsigned(opcode.code)
        out += (bytes([opcode.code]) if opcode.prefix is None else code) + given(opcode.behind, operands)
    return out


# A function that the others call: it returns the difference of two numbers.
HELPER = "local.get 0; local.get 1; i64.sub"
LOCALS = ("i32", 2), ("i64", 3), ("v128", 2)


def function(text, locals_=LOCALS):
    body = vector([unsigned(count) + bytes([CODES[word]]) for word, count in locals_]) + assembled(text) + END
    return unsigned(len(body)) + body


def module(texts: list[str]) -> bytes:
    """Returns a module with the functions f0, f1, .., without parameters and results, after HELPER, function 0."""
    word = bytes([CODES["i64"]])
    types = [b"\x60" + vector([word, word]) + vector([word]), b"\x60\0\0"]
    globals_ = [word + b"\1\x42" + signed(STACK_END) + END, bytes([CODES["i32"]]) + b"\1\x41\0" + END]
    exports = [unsigned(6) + b"memory\2\0"]
    for k in range(len(texts)):
        name = f"f{k}".encode()
        exports.append(unsigned(len(name)) + name + b"\0" + unsigned(k + 1))
    constants = b"\0\x41" + signed(STACK_END) + END + vector([bytes([b]) for b in CONSTANTS])
    return b"\0asm\1\0\0\0" + b"".join(
        [
            section(1, vector(types)),
            section(3, vector([unsigned(0)] + [unsigned(1)] * len(texts))),
            section(5, vector([b"\0" + unsigned(PAGES)])),
            section(6, vector(globals_)),
            section(7, vector(exports)),
            section(10, vector([function(HELPER, ())] + [function(text) for text in texts])),
            section(11, vector([constants])),
        ]
    )
