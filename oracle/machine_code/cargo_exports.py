"""Lists the exports of the cargo crate's sources with their tasks, and finds functions shared by two sources."""
import re
from typing import Collection, Mapping

from .cargo import OfCargo, export_name
from .objects import Program

BEGIN = "cargo: "                 # beginning of each task's title
WIDEST = 64                       # bytes that an instruction reads, at most


def shown_by() -> dict[str, str]:
    """Maps each export to the beginning of a task's title."""
    out = {"interface": "the number of the interface", "xxh32_write": "pieces of XXH32", "xxh3_write": "pieces of XXH3",
           **{f"{export_name(name)}_long": f"XXH{name}, secret" for name in ("3-64", "3-128")}}
    return {name: BEGIN + title for name, title in out.items()}


def exports_left_out(texts: Mapping[str, OfCargo], titles: Collection[str]) -> tuple[int, list[str]]:
    known, bad = shown_by(), []
    for name, program in texts.items():
        bad += [f"{name}: {export}" for export in program.exports
                if export not in known or not any(title.startswith(known[export]) for title in titles)]
        bad += [f"{name} has no {export}" for export in known if export not in program.exports]
    return len(known) * len(texts) - len(bad), bad


# ---- functions that are equal in another source

def shape(program: Program, section: str) -> tuple[bytes, list]:
    """Returns a section's bytes, and the targets of its instructions outside of it."""
    code = program.sections[section]
    led = [(at, led_to(program, x)) for at, x in sorted(code.items()) if x.target and x.target[0] != section]
    return program.object.body(program.heads[section]), led


def led_to(program, instruction):
    """Returns a target: a function's name and offset, or the bytes of a constant that an instruction reads."""
    name, at = instruction.target
    if name not in program.constants:
        return bare(name), at
    data, alignment = program.constants[name]
    return (data, alignment, at) if instruction.mnemonic == "lea" else (data[at:at + WIDEST], alignment, at % WIDEST)


def bare(section):
    """Returns a section's name without the interface's number."""
    return re.sub(r"\.i\d+(_v[34])?$", "", section)


def shared(program: Program, other: Program) -> set[str]:
    """Returns the functions that equal another source's byte for byte, with everything that they reach."""
    found = {name: place for name, place in program.functions.items() if other.functions.get(name, (0, 1))[1] == 0}
    shapes = {name: shape(program, place[0]) for name, place in found.items()}
    equal = {name for name in found if shapes[name] == shape(other, other.functions[name][0])}
    while True:
        left = {name for name in equal if all(to[0][6:] in equal for _, to in shapes[name][1]
                                              if isinstance(to[0], str) and to[0].startswith(".text."))}
        if left == equal:
            return equal
        equal = left
