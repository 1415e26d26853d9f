"""Reads the parts of WebAssembly's binary format that the two modules use. Refuses everything else."""
import collections

from .opcodes import BY_CODE, PREFIXES, TYPES

FUNCTION, MEMORY, GLOBAL = 0, 2, 3  # types of exports
PAGE = 65536
MOST_LOCALS = 1000
Signature = collections.namedtuple("Signature", "takes leaves")
Global = collections.namedtuple("Global", "width is_mutable value")
# `at` and `end` are offsets in the file.
Function = collections.namedtuple("Function", "index signature locals code at end")
Instruction = collections.namedtuple("Instruction", "opcode given at end")


class Malformed(Exception):
    """Raised if the bytes are no module, or use a feature that the two modules don't."""


class Reader:
    """Reads the bytes of a part of the file in order."""

    def __init__(self, whole, at=0, end=None):
        self.whole, self.at, self.end = whole, at, len(whole) if end is None else end

    def take(self, n):
        if n > self.end - self.at:
            raise Malformed(f"the part that ends at {self.end} is too short")
        self.at += n
        return self.whole[self.at - n : self.at]

    def byte(self):
        return self.take(1)[0]

    def groups(self, most):
        """Reads the 7-bit groups of a number of at most `most` bits. Returns the number and the groups' bits."""
        value = size = 0
        while True:
            b = self.byte()
            value |= (b & 127) << size
            size += 7
            if b < 128:
                return value, size
            if size >= most:
                raise Malformed("a number of too many bytes")

    def unsigned(self):
        value, _ = self.groups(32)
        if value >> 32:
            raise Malformed("a number that is too large")
        return value

    def signed(self, width):
        """Reads a signed number."""
        value, size = self.groups(width)
        value -= value >> size - 1 << size
        if not -1 << width - 1 <= value < 1 << width - 1:
            raise Malformed("a number that is too large")
        return value

    def many(self, what):
        return [what() for _ in range(self.unsigned())]

    def name(self):
        try:
            return self.take(self.unsigned()).decode()
        except UnicodeDecodeError as error:
            raise Malformed(f"a name: {error}") from None

    def one_of(self, known, what):
        """Reads a byte, and returns the value that `known` maps it to."""
        b = self.byte()
        if b not in known:
            raise Malformed(f"{what} {b:#x}")
        return known[b]

    def type(self):
        return self.one_of(TYPES, "the type")

    def constant(self):
        """Reads an initial value: (width, value)."""
        width = self.one_of({0x41: 32, 0x42: 64}, "an initial value by")
        value = self.signed(width) % (1 << width)
        self.one_of({0x0B: None}, "an initial value goes on with")
        return width, value


class Module:
    """A module: types, functions, globals, exports, size of the memory and its initial contents."""

    def __init__(self, whole):
        self.whole = whole
        self.types, self.signatures, self.globals, self.exports = [], [], [], {}
        self.pages, self.segments, self.count_of_segments, self.functions = None, [], None, []
        reader, order = Reader(whole), 0
        if reader.take(8) != b"\0asm\1\0\0\0":
            raise Malformed("no module of version 1")
        while reader.at < reader.end:
            section_id, size = reader.byte(), reader.unsigned()
            part = Reader(whole, reader.at, reader.at + len(reader.take(size)))
            place, read = self.sections().get(section_id, (0, None))
            if place <= order:
                raise Malformed(f"section {section_id}, where none is expected")
            order = place
            read(part)
            if part.at != part.end:
                raise Malformed(f"section {section_id} has another length")
        if len(self.functions) != len(self.signatures):
            raise Malformed("functions without a body")

    def sections(self):
        """Maps a section's type to its position in the order, and its reader. Other sections are refused: imports,
        tables, elements, start functions and custom sections."""
        return {
            1: (1, self.read_types),
            3: (2, self.read_signatures),
            5: (3, self.read_memory),
            6: (4, self.read_globals),
            7: (5, self.read_exports),
            12: (6, self.read_count_of_segments),
            10: (7, self.read_functions),
            11: (8, self.read_segments),
        }

    def read_types(self, part):
        def one():
            part.one_of({0x60: None}, "the type")
            return Signature(*(tuple(part.many(part.type)) for _ in range(2)))

        self.types = part.many(one)

    def read_signatures(self, part):
        self.signatures = [self.type(k) for k in part.many(part.unsigned)]

    def type(self, k):
        if not 0 <= k < len(self.types):
            raise Malformed(f"type {k}")
        return self.types[k]

    def read_memory(self, part):
        def one():
            part.one_of({0x00: None}, "a memory with the flags")
            return part.unsigned()

        sizes = part.many(one)
        if len(sizes) != 1 or sizes[0] > PAGE:
            raise Malformed(f"memories of {sizes} pages")
        self.pages = sizes[0]

    def read_globals(self, part):
        def one():
            width, is_mutable = part.type(), part.one_of({0: False, 1: True}, "a global with the flag")
            of_value, value = part.constant()
            if width != of_value:
                raise Malformed("a global whose value has another type")
            return Global(width, is_mutable, value)

        self.globals = part.many(one)

    def read_exports(self, part):
        exports = part.many(lambda: (part.name(), (part.byte(), part.unsigned())))
        self.exports = dict(exports)
        if len(self.exports) != len(exports):
            raise Malformed("an export that is there twice")
        count = {FUNCTION: len(self.signatures), MEMORY: int(self.pages is not None), GLOBAL: len(self.globals)}
        for name, (export_type, index) in exports:
            if index >= count.get(export_type, 0):
                raise Malformed(f"the export {name} of nothing")

    def read_count_of_segments(self, part):
        self.count_of_segments = part.unsigned()

    def read_segments(self, part):
        """Reads the initial contents of the memory: (address, bytes)."""

        def one():
            part.one_of({0: None}, "a segment of the kind")
            width, place = part.constant()
            if width != 32 or self.pages is None:
                raise Malformed("a segment's place")
            return place, part.take(part.unsigned())

        self.segments = part.many(one)
        ends = [0, *(place + len(content) for place, content in self.segments)]
        if any(place < end or not content for end, (place, content) in zip(ends, self.segments)):
            raise Malformed("segments of no bytes, in another order, or over one another")
        if self.count_of_segments not in (None, len(self.segments)):
            raise Malformed("another number of segments")

    def read_functions(self, part):
        self.place_of_functions = part.at, part.end
        if part.unsigned() != len(self.signatures):
            raise Malformed("another number of functions")
        for index in range(len(self.signatures)):
            function = self.read_function(part, index)
            part.take(function.end - part.at)
            self.functions.append(function)

    def read_function(self, part, index):
        at, size = part.at, part.unsigned()
        body = Reader(self.whole, part.at, part.at + size)
        if body.end > part.end:
            raise Malformed("a function that is too long")
        counted = body.many(lambda: (body.unsigned(), body.type()))
        if sum(count for count, _ in counted) > MOST_LOCALS:
            raise Malformed("too many variables")
        own = [width for count, width in counted for _ in range(count)]
        return Function(index, self.signatures[index], own, list(self.code(body)), at, body.end)

    def code(self, body):
        while body.at < body.end:
            at = body.at
            opcode, given = self.instruction(body)
            yield Instruction(opcode, given, at, body.at)

    def instruction(self, body):
        """Reads an instruction: its opcode and its immediates."""
        prefix, code = None, body.byte()
        if code in PREFIXES:
            prefix, code = code, body.unsigned()
        opcode = BY_CODE.get((prefix, code))
        if opcode is None:
            raise Malformed(f"the table has no instruction {code:#x}" + (f" behind {prefix:#x}" if prefix else ""))
        return opcode, self.given(body, opcode.behind)

    def given(self, body, behind):
        if not behind:
            return None
        if behind in ("label", "function", "local", "global"):
            return body.unsigned()
        if behind in ("i32", "i64"):
            width = int(behind[1:])
            return body.signed(width) % (1 << width)
        if behind.startswith("bytes"):  # bytes loaded or stored: (alignment, offset)
            return body.unsigned(), body.unsigned()
        return {
            "block": lambda: self.block_type(body),
            "v128": lambda: body.take(16),
            "labels": lambda: [*body.many(body.unsigned), body.unsigned()],
            "lanes": lambda: body.take(16),
            "lane2": body.byte,
            "lane4": body.byte,
            "zeros1": lambda: body.take(1),
            "zeros2": lambda: body.take(2),
        }[behind]()

    def block_type(self, body):
        b = body.whole[body.at] if body.at < body.end else 0x40
        if b == 0x40 or b in TYPES:
            body.byte()
            return Signature((), () if b == 0x40 else (TYPES[b],))
        return self.type(body.signed(33))

    def exported(self, name):
        """Returns an exported function by its name."""
        export_type, index = self.exports[name]
        if export_type != FUNCTION:
            raise Malformed(f"{name} is no function")
        return self.functions[index]

    def end_of_segments(self):
        return max((place + len(content) for place, content in self.segments), default=0)
