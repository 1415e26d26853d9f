"""Compares the forms of instructions of the objects with this processor, as the assembly sources' are."""
import tempfile
from typing import Iterable

from .. import on_processor
from ..instructions import TABLE
from ..objects import Program
from .objects import COPY, copy_of

FEWEST = 240
# Instructions on the stack, and copies of words in the test's buffer, by several instructions.
MEMORY = f"{on_processor.MEMORY:#x}(%rdi)"
SNIPPETS = [
    ["push %rbp", "mov %rsp,%rbp", "push %rax", "leave", "not %rcx"],
    ["push %rax", "push (%rsp)", "pop %rbx", "pop %rcx"],
    ["sbb %eax,%eax"],
    ["sbb %rbx,%rbx"],
    *(
        [
            f"mov {MEMORY},%rax",
            f"lea {MEMORY},%rsi",
            f"lea {distance:#x}(%rsi),%rdi",
            "mov $5,%ecx",
            "rep movsq",
            "mov %rax,%rsi",
        ]
        for distance in (8, 16, 40, 64)
    ),
]
TESTED_ELSEWHERE = "leave", COPY, "sbb"


class Snippets(on_processor.Snippets):
    def instruction(self, section, at, end, text, places):
        return copy_of(section, at, end, text) or super().instruction(section, at, end, text, places)


def compare(programs: Iterable[Program]) -> tuple[int, list[str]]:
    """Returns the number of instructions, one of each form, and messages on those that differ."""
    on_processor.expect_processor()
    asked = {}
    for x in (x for program in programs for code in program.sections.values() for x in code.values()):
        form = on_processor.form_of(x)
        is_tested = form in TABLE and not x.mnemonic.startswith((*on_processor.BEHIND, *TESTED_ELSEWHERE))
        if is_tested and form not in asked.values():
            asked[on_processor.written(x.mnemonic, x.operands)] = form
    with tempfile.TemporaryDirectory(prefix="c-object-") as workdir:
        return on_processor.compare(asked, workdir, snippets=[*on_processor.SNIPPETS, *SNIPPETS], reader=Snippets)
