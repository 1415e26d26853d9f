"""Planted faults in modules that only the reader of sections or the task of exports refuses: the code is unchanged."""
from . import tasks
from .assembler import END, assembled, section, signed, unsigned, vector
from .machine import Machine
from .module import FUNCTION, GLOBAL, Malformed, Module, Reader
from .opcodes import TYPES as CODES

TYPES, IMPORTS, SIGNATURES, TABLES, MEMORY, GLOBALS, EXPORTS, STARTS, ELEMENTS, CODE, DATA = (
    1,
    2,
    3,
    4,
    5,
    6,
    7,
    8,
    9,
    10,
    11,
)


def sections_of(whole):
    """Returns (type, content) of each section."""
    reader, out = Reader(whole, 8), []
    while reader.at < reader.end:
        section_id = reader.byte()
        out.append((section_id, reader.take(reader.unsigned())))
    return out


def joined(whole, sections):
    return whole[:8] + b"".join(section(section_id, content) for section_id, content in sections)


def segment(place, content, flag=b"\0"):
    return flag + (b"\x41" + signed(place) + b"\x0b" if flag == b"\0" else b"") + vector([bytes([x]) for x in content])


def with_segments(make):
    """Returns a change that replaces the segments by those that `make` makes of the one segment's (address, bytes)."""

    def change(module, sections):
        return [
            (section_id, vector(make(*module.segments[0])) if section_id == DATA else content)
            for section_id, content in sections
            if section_id != DATA + 1
        ]  # without the number of segments

    return change


def put(section_id, content, behind):
    """Returns a change that inserts a section after the section of type `behind`."""
    return lambda module, sections: [
        x for one in sections for x in ([one, (section_id, content)] if one[0] == behind else [one])
    ]


def in_place(section_id, make):
    return lambda module, sections: [(x, make(content) if x == section_id else content) for x, content in sections]


# ---- exports of another type


def more(content, item):
    """Returns a vector with one more item."""
    reader = Reader(content)
    count = reader.unsigned()
    return unsigned(count + 1) + content[reader.at :] + item


def type_of(*signature):
    codes = {width: bytes([code]) for code, width in CODES.items()}
    return b"\x60" + b"".join(vector([codes[width] for width in widths]) for widths in signature)


def of_type(name, signature):
    """Returns a change after which the export is a new function of another type, which only traps."""

    def change(module, sections):
        added = {TYPES: type_of(*signature), SIGNATURES: unsigned(len(module.types)), CODE: FUNCTION_BODY}
        out = [
            (section_id, more(content, added[section_id]) if section_id in added else content)
            for section_id, content in sections
        ]
        return [
            (section_id, exported(module, name, FUNCTION, len(module.signatures)) if section_id == EXPORTS else content)
            for section_id, content in out
        ]

    return change


FUNCTION_BODY = vector([bytes([x]) for x in b"\0" + assembled("unreachable") + END])


def exported(module, other, export_type, index):
    """Returns the section of exports, one of which is another thing."""
    return vector(
        [
            vector([bytes([x]) for x in name.encode()])
            + bytes([export_type if name == other else old[0]])
            + unsigned(index if name == other else old[1])
            for name, old in module.exports.items()
        ]
    )


def with_heap_base(make):
    """Returns a change of the global __heap_base: `make` returns (width's code, flag, value's opcode, value) of the
    value."""

    def change(module, sections):
        base = module.globals[module.exports["__heap_base"][1]].value
        code, flag, opcode, value = make(base)
        item = bytes([code, flag, opcode]) + signed(value) + END
        return [
            (
                section_id,
                more(content, item)
                if section_id == GLOBALS
                else exported(module, "__heap_base", GLOBAL, len(module.globals))
                if section_id == EXPORTS
                else content,
            )
            for section_id, content in sections
        ]

    return change


def of_other_types():
    """Yields a change for each argument and each result of each export: 32 bits for 64, or the other way round; and a
    function with one argument more, and with one result less or more."""
    for name, (takes, leaves) in tasks.signatures().items():
        for k in range(len(takes)):
            yield f"{name}: another type of argument {k}", of_type(
                name, ((*takes[:k], 96 - takes[k], *takes[k + 1 :]), leaves)
            )
        yield f"{name}: another result", of_type(name, (takes, (96 - leaves[0],) if leaves else (32,)))
        yield f"{name}: one argument more", of_type(name, ((*takes, 32), leaves))


I32, I64 = (0x7F, 0, 0x41), (0x7E, 0, 0x42)
WRONG = [
    ("a __heap_base far behind the constants", with_heap_base(lambda base: (*I64, 0xFFFF0000))),
    ("a __heap_base before the constants' end", with_heap_base(lambda base: (*I64, base - 16))),
    ("a __heap_base in the next page", with_heap_base(lambda base: (*I64, base + 65536))),
    ("a __heap_base of 32 bits", with_heap_base(lambda base: (*I32, base))),
    ("a __heap_base that may change", with_heap_base(lambda base: (0x7E, 1, 0x42, base))),
    ("a memory without the last page", in_place(MEMORY, lambda content: b"\1\0\x10")),
    ("a memory of one page more", in_place(MEMORY, lambda content: b"\1\0\x12")),
    ("a second segment over the first", with_segments(lambda at, data: [segment(at, data), segment(at + 30, b"\x55")])),
    (
        "segments in another order",
        with_segments(lambda at, data: [segment(at + 96, data[96:]), segment(at, data[:96])]),
    ),
    (
        "segments that meet, of which one has no bytes",
        with_segments(lambda at, data: [segment(at, data), segment(at, b"")]),
    ),
    ("a segment that lies on the stack", with_segments(lambda at, data: [segment(at - 8, b"\x55"), segment(at, data)])),
    (
        "a segment that code puts into the memory",
        with_segments(lambda at, data: [segment(0, data, b"\1"), segment(at, data)]),
    ),
    ("data that is there twice", lambda module, sections: [*sections, sections[-1]]),
    (
        "code that is there twice",
        lambda module, sections: [x for one in sections for x in [one] * (2 if one[0] == CODE else 1)],
    ),
    ("a function that starts", put(STARTS, b"\0", 7)),
    ("a table", put(TABLES, b"\1\x70\0\1", SIGNATURES)),
    (
        "a table with elements",
        lambda module, sections: put(ELEMENTS, b"\1\0\x41\0\x0b\1\0", 7)(
            module, put(TABLES, b"\1\x70\0\1", SIGNATURES)(module, sections)
        ),
    ),
    ("a function that another module has", put(IMPORTS, b"\1\1e\1f\0\0", TYPES)),
    ("names", put(0, b"\4name\0\1\0", DATA)),
    ("branches that an engine takes for likely", put(0, b"\x19metadata.code.branch_hint\0", MEMORY)),
    ("a memory that ends", in_place(MEMORY, lambda content: b"\1\1" + content[2:] + b"\x11")),
    ("a memory that threads share", in_place(MEMORY, lambda content: b"\1\3" + content[2:] + b"\x11")),
    ("two memories", in_place(MEMORY, lambda content: b"\2" + content[1:] + content[1:])),
]


def refusal(whole):
    """Returns the reason why the reader or the task of exports refuses a module, or None."""
    try:
        machine = Machine(Module(whole))
    except Malformed as error:
        return str(error)
    return next(iter(tasks.of_memory(machine, machine.module.exports)), None)


def report(machines: dict[str, Machine], each: int = 1) -> tuple[str, list[str]]:
    """Tests each module with each planted fault, or with every `each`-th type of an export. Returns faults that pass,
    and unchanged modules that fail. The functions of a module with a fault only trap, so that reading it is short."""
    bad = []
    for name, vm in machines.items():
        whole = vm.module.whole
        sections = sections_of(whole)
        bad += [f"{name} is refused: {why}" for why in [refusal(joined(whole, sections))] if why]
        sections = in_place(CODE, lambda _, count=len(vm.module.functions): vector([FUNCTION_BODY] * count))(
            vm.module, sections
        )
        bad += [f"{name} without its code is refused: {why}" for why in [refusal(joined(whole, sections))] if why]
        asked = [*WRONG, *list(of_other_types())[::each]]
        bad += [
            f"{name} passes with {what}"
            for what, change in asked
            if not refusal(joined(whole, change(vm.module, sections)))
        ]
    return f"{len(asked) * len(machines)} planted modules, each refused", bad
