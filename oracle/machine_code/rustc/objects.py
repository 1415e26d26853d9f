"""Reads the object that rustc makes of the crate. It accepts more than the reader of assembly sources:

- on x86-64 a call through the global offset table, directly or by a register, leads to the target of its relocation,
  and a load from that table returns an address;
- a function of `core` that panics, `ud2` and `brk` end a run with a refusal, so a finished run reaches none;
- sections that only panics read, of strings and addresses, are left out: a read of them is refused;
- a place in a mergeable section is a constant, named by its section and offset, and an offset in the constant;
- the global allocator's calls return new memory, and expect freed memory to be what they returned;
- the processor's level is a byte that one function writes; `cpuid` and `xgetbv` return given numbers."""
import collections
import functools
import re
from typing import Callable

from oracle.symbolic_terms import Unsupported, is_natural, is_number, is_same_number, minus, ones
from oracle.symbolic_terms.memory import Unset

from .. import lanes
from ..instructions import NAMES, V1, V3, V4, known, letters
from ..object_contents import (
    CODE,
    CONSTANTS,
    FRAMES,
    FUNCTION,
    LOADED,
    MERGEABLE,
    NOBITS,
    NOTE,
    WRITTEN,
    Loaded,
    is_global,
)
from ..memory import ReturnTo, WordMemory
from ..objects import PC32, PLT32, Instruction, Program, Register, split
from ..processor import Processor
from ..scalar import binary, compare, divide, step, test, whole_product
from ..values import WORD, address, arithmetic, low
from ..stream_state import State
from .library import ForRust

TABLES = (lanes,)  # imported because it fills the table of instructions
BY_TABLE = 9, 41, 42  # relocations by the global offset table
STRINGS = 0x20  # section flag
NOWHERE = "nowhere", 0
LEVEL = "9processor5KNOWN"  # part of the name of the variable that has the processor's level
UNKNOWN, BASE = 0, 1  # its values
LEVELS = {BASE: V1, 2: V3, 3: V4}  # and the instruction sets that they are
Function = collections.namedtuple("Function", "place")  # value of a register loaded from the global offset table
LOAD, CALL = "load of an address", "call by a register"  # instructions that only this reader creates
LOADED_FUNCTION, BY_REGISTER = re.compile(r"mov +0x0\(%rip\),%(r\w+)"), re.compile(r"\*%(r\w+)")
ALLOCATOR = re.compile(r"_R\w+7___rustc\d+___rust_(\w+)|__rust_(\w+)")


class OfRustc(Loaded):
    """Overrides for the reader of an object, for either processor."""

    def expect_listed(self):
        pass

    def loaded_sections(self):
        found = {}
        self.left_out = {head.name for head in self.object.heads if head.flags & LOADED}
        self.level = next(
            (
                head.name
                for head in self.object.heads
                if (head.kind, head.flags, head.size) == (NOBITS, WRITTEN, 1) and LEVEL in head.name
            ),
            None,
        )
        for head in self.object.heads:
            if not head.flags & LOADED or not head.size or head.kind == NOTE or head.name == FRAMES:
                continue
            if head.flags in (CODE, CONSTANTS) or head.flags == MERGEABLE and head.entry and not head.flags & STRINGS:
                if head.name in found:
                    raise Unsupported(f"two sections are named {head.name}")
                found[head.name] = head
        self.left_out -= found.keys()
        return found

    def names(self):
        functions, exports = {}, {}
        for symbol in self.object.symbols:
            if symbol.section and symbol.section < len(self.object.heads) and symbol.info & 15 == FUNCTION:
                functions[symbol.name] = self.place_of(symbol)
                if is_global(symbol):
                    exports[symbol.name] = functions[symbol.name]
        return functions, exports

    def allocator(self):
        """Yields the names of the allocator's functions that the object calls, with their short names."""
        for symbol in self.object.symbols:
            if not symbol.section and (found := ALLOCATOR.match(symbol.name)):
                yield symbol.name, found[1] or found[2]

    def target_of(self, symbol, addend):
        if not symbol.section:
            return symbol.name, 0
        name, value = self.place_of(symbol)
        if name not in self.heads or self.heads[name].flags != MERGEABLE:
            return name, value + addend
        entry = self.heads[name].entry
        at = (value + addend) // entry * entry
        return f"{name}+{at}", value + addend - at


class RustProgram(OfRustc, Program):
    RELOCATIONS = PC32, PLT32, *BY_TABLE

    def __init__(self, name, path):
        self.name, self.by_table = name, set()
        super().__init__(path)

    def relocations_of(self, section):
        if section.flags != CODE:
            return {}
        self.by_table |= {
            (section.name, place) for place, r_type, *_ in self.relocations_in(section) if r_type in BY_TABLE
        }
        return super().relocations_of(section)

    def instruction(self, section, at, end, text, places):
        mnemonic, rest = split(text)
        loaded, called = LOADED_FUNCTION.fullmatch(text.split("#")[0].strip()), BY_REGISTER.fullmatch(rest)
        if places == [end - 4] and (section, end - 4) in self.by_table:
            symbol, addend = self.relocations[section][places[0]]
            target = self.target_of(symbol, addend + end - places[0])
            if mnemonic in ("call", "jmp") and rest.startswith("*0x0(%rip)"):
                return Instruction(section, at, end, mnemonic, (), target)
            if loaded:
                return Instruction(section, at, end, LOAD, (Register(loaded[1]),), target)
            return Instruction(section, at, end, "a read of the global offset table", (), None)
        if mnemonic == "call" and called:
            return Instruction(section, at, end, CALL, (Register(called[1]),), None)
        if mnemonic == "ud2" or mnemonic in ("call", "jmp") and rest.startswith("*"):
            return Instruction(section, at, end, "jmp", (), NOWHERE)
        return super().instruction(section, at, end, text, places)


# ---- instructions that only rustc's object has


def load_address(cpu, x):
    name, at = x.target
    found = address(cpu.constants[name], at) if name in cpu.constants else Function(x.target)
    cpu.registers[x.operands[0].name] = found


def call_function(cpu, x):
    found = cpu.registers[x.operands[0].name]
    if not isinstance(found, Function):
        raise Unsupported("a call of no known function")
    cpu.push(ReturnTo(x.section, x.end))
    return found.place


def ask_processor(cpu, _):
    leaf, further = (low(cpu.registers[name], 32) for name in ("rax", "rcx"))
    for name, value in zip(("rax", "rbx", "rcx", "rdx"), cpu.features.leaf(leaf, further), strict=True):
        cpu.registers[name] = value


def ask_system(cpu, _):
    if low(cpu.registers["rcx"], 32) != 0:
        raise Unsupported("another register than 0")
    cpu.registers["rax"], cpu.registers["rdx"] = cpu.features.saved(), 0


def exchange(cpu, x):
    first, second = (operand.name for operand in x.operands)
    cpu.registers[first], cpu.registers[second] = cpu.registers[second], cpu.registers[first]


def keep_bits(cpu, x, count, source, to):
    """Clears the bits from a number on, the low byte of `count`."""
    k, word = low(cpu.get(count, WORD, x), 8), cpu.get(source, WORD, x)
    if not isinstance(k, int):
        raise Unsupported("a number of bits that is no number")
    cpu.put(to, WORD, arithmetic("and", WORD, word, ones(min(k, WORD))), x)
    cpu.forget_flags()


def store_half(cpu, x, k, source, place):
    """Stores the lower or upper half of a vector of 256 bits."""
    lanes.write(cpu, place, x, cpu.lanes(source, 2, 2 * (k.value & 1)))


def with_operands(function):
    return lambda cpu, x: function(cpu, x, *x.operands)


# Forms that the table of the assembly sources lacks.
OWN = {
    (LOAD, "q"): load_address,
    (CALL, "q"): call_function,
    ("cpuid", ""): ask_processor,
    ("xgetbv", ""): ask_system,
    ("xchg", "qq"): exchange,
    **{
        key: with_operands(function)
        for key, function in {
            ("add", "qm"): binary("add", "add"),
            ("sub", "qm"): binary("sub", "sub"),
            ("cmpb", "im"): compare,
            ("divl", "m"): divide,
            ("divq", "m"): divide,
            ("mulq", "m"): whole_product,
            ("dec", "b"): step,
            ("testl", "im"): test,
            ("or", "ib"): binary("or", "logic"),
            ("bzhi", "qmq"): keep_bits,
            ("vextracti128", "iym"): store_half,
        }.items()
    },
}


@functools.cache
def known_where_reached(instruction: Instruction, name: str) -> Callable:
    """Returns the function of an instruction. One that the table lacks is refused when a run reaches it: rustc's object
    has functions that no call reaches."""
    own = OWN.get((instruction.mnemonic, letters(instruction)))
    if own:
        return own
    try:
        return known(instruction, name)
    except Unsupported as refusal:

        def refuse(*_, why=str(refusal)):
            raise Unsupported(why)

        return refuse


# ---- the allocator


class Allocator:
    """The calls of the global allocator. `blocks` has the memory in use, with its size and alignment."""

    def __init__(self, cpu):
        self.cpu, self.blocks, self.count = cpu, [], 0

    def call(self, name, arguments):
        """Runs a call, and returns its value."""
        if name == "no_alloc_shim_is_unstable_v2":
            return None
        if name in ("alloc", "alloc_zeroed"):
            return address(self.allocate(arguments[0], arguments[1], name == "alloc_zeroed"))
        if name == "dealloc":
            return self.free(*arguments[:3])
        raise Unsupported(f"a call of the allocator's {name}")

    def allocate(self, size, alignment, is_zero):
        is_known = isinstance(size, int)
        if (
            not isinstance(alignment, int)
            or is_zero
            and not is_known
            or not is_number(size)
            or not is_natural(minus(size, 1))
        ):
            raise Unsupported(f"memory of {size} bytes")
        cells = [(at, 1, 0 if is_zero else self.cpu.fresh("a byte", 8)) for at in range(size)] if is_known else []
        self.count += 1
        block = State(f"block {self.count}", size, cells, [], (0, 0), alignment)
        self.blocks.append((block, alignment))
        self.cpu.live = [*self.cpu.live, block]
        return block

    def free(self, place, size, alignment):
        memory, at = place.place()
        found = [pair for pair in self.blocks if pair[0] is memory]
        if not found or (at, alignment) != (0, found[0][1]) or not is_same_number(size, memory.length):
            raise Unsupported(f"a release of {size} bytes at {at} of {memory.name}")
        self.blocks.remove(found[0])
        self.cpu.live = [other for other in self.cpu.live if other is not memory]
        memory.cells = {}


class RustProcessor(Processor):
    """A processor of a level, which the crate detects. `features` has the results of `cpuid`."""

    known = staticmethod(known_where_reached)
    features = None

    def __init__(self, found, level=BASE):
        sets = [LEVELS.get(level, V1), *({found.name} & {*NAMES})]  # of the level, and of the compiler's target
        super().__init__(found, max(sets))
        self.allocator = Allocator(self)
        if found.level:
            self.constants[found.level] = WordMemory("level", 1, [(0, 1, level)])
        for name, short in found.allocator():
            self.code[name] = {0: (functools.partial(run_of_allocator, short), None)}
        self.library = ForRust(self)

    def load(self, memory, at, n):
        """Loads bytes. Unset bytes of the stack, which a copy of a value may include, have any content."""
        try:
            return super().load(memory, at, n)
        except Unset:
            if memory is not self.stack:
                raise
            for byte in range(at, at + n):
                if not memory.has(byte):
                    memory.cells[byte] = 1, self.fresh("an unset byte", 8)
            return super().load(memory, at, n)


def run_of_allocator(short, cpu, _):
    arguments = [cpu.registers[name] for name in cpu.ARGUMENTS[:3]]
    place = cpu.return_from_another()
    if (value := cpu.allocator.call(short, arguments)) is not None:
        cpu.registers["rax"] = value
    return place
