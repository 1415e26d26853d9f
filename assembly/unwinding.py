"""Checks the frames that a source declares: its table against the flow of the instructions, and by the unwinder of
libgcc at each executed instruction."""
import os
import re
from typing import Any, Callable

from assembly import frames
from assembly.eh_frame import Table
from assembly.same_bytes import Object
from assembly.text import Text
from checks.lib.report import check, last_line
from checks.lib.tools import TOP, ran, text_of, write

ASSEMBLY, C = os.path.join(TOP, 'assembly'), os.path.join(TOP, 'c')
# On x86-64 the return address also has a number and a place.
RETURN_ADDRESS = {62: {16: -8}}


def differences(path: str) -> tuple[int, list[str]]:
    """The instructions of an object at which its table has another frame than the flow, and the number of all."""
    object_, text = Object(path), Text(path, '')
    table, processor, count, found = Table(object_), frames.BY_MACHINE[object_.machine], 0, []
    for section, instructions in text.listing(path).items():
        for at, frame in frames.frames(processor, text.steps(section, instructions)).items():
            expected = frame.depth, {**dict(frame.saved), **RETURN_ADDRESS.get(object_.machine, {})}
            described = table.at(section, instructions[at].at)
            count += 1
            found += (
                [f'{section} at {instructions[at].at:#x}: {described}, not {expected}'] if described != expected else []
            )
    return count, found


def are_reported(assembler: Any, text: str, workdir: str) -> str:
    out = os.path.join(workdir, 'framed.o')
    assembler.assemble(text, out)
    count, found = differences(out)
    check(count and not found, f'{len(found)} of {count}: {found[:1]}')
    return f'{count} instructions'


def wrong_ones(lines):
    """Sources with one wrong directive: a description, and the lines."""
    at = next(at for at, line in enumerate(lines) if line.startswith('\t.cfi_def_cfa_offset'))
    depth = int(lines[at].split()[1])
    restored = next(at for at, line in enumerate(lines) if line.startswith('\t.cfi_restore'))
    yield 'another depth', [*lines[:at], f'\t.cfi_def_cfa_offset {depth + 8}', *lines[at + 1 :]]
    yield 'a directive less', [*lines[:at], *lines[at + 1 :]]
    behind = next(k for k in range(at, len(lines)) if re.match(r'\t[^.]', lines[k]))
    yield 'one that comes late', [*lines[:at], *lines[at + 1 : behind + 1], lines[at], *lines[behind + 1 :]]
    yield 'a register that stays away', [*lines[:restored], *lines[restored + 1 :]]


def wrong_ones_are_noticed(assembler: Any, text: str, workdir: str, is_noticed: Callable[[str], Any]) -> str:
    out, count = os.path.join(workdir, 'framed.o'), 0
    for what, wrong in wrong_ones(text_of(text).splitlines()):
        assembler.assemble(write(os.path.join(workdir, 'wrong.s'), '\n'.join(wrong) + '\n'), out)
        check(is_noticed(out), f'{what} is not noticed')
        count += 1
    return f'{count} of {count}'


def program(framed, workdir):
    """unwind.c over an object of the library for C."""
    out, sources = os.path.join(workdir, 'unwind'), [
        os.path.join(C, name) for name in ('states.c', 'guards.c', 'streams.c')
    ]
    command = [
        *'gcc -O1 -I'.split(),
        os.path.join(C, 'include'),
        '-I',
        os.path.join(C, 'asm'),
        os.path.join(ASSEMBLY, 'unwind.c'),
        *sources,
        framed,
        '-Wl,-T,' + os.path.join(ASSEMBLY, 'unwind.ld'),
        '-o',
        out,
    ]
    done = ran(command)
    check(done.returncode == 0, last_line(done.stdout))
    return out


def run(framed, workdir):
    return ran([program(framed, workdir)], timeout=300)


def unwinds(assembler: Any, text: str, workdir: str) -> str:
    """The unwinder finds the caller from each executed instruction, and from one with a wrong frame it doesn't."""
    out = os.path.join(workdir, 'framed.o')
    assembler.assemble(text, out)
    done = run(out, workdir)
    check(done.returncode == 0, f'status {done.returncode}: {last_line(done.stdout)}')
    _, lines = next(wrong_ones(text_of(text).splitlines()))
    assembler.assemble(write(os.path.join(workdir, 'wrong.s'), '\n'.join(lines) + '\n'), out)
    check(run(out, workdir).returncode == 1, 'a wrong frame is not noticed')
    return last_line(done.stdout)
