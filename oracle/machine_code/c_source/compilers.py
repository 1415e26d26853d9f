"""Compiles c/source/xxhash.c, or a changed header, as a user of the C source does."""
import collections
import os
import shutil
import subprocess
import tempfile

from oracle.symbolic_terms import TOP

from ..instructions import V2, V3
from .objects import CProcessor, CProgram

HEADERS, SOURCE = os.path.join(TOP, "c", "include"), os.path.join(TOP, "c", "source", "xxhash.c")
PACKAGES = {"gcc": "gcc", "clang": "clang", "objdump": "binutils"}


class Compiler(collections.namedtuple("Compiler", "name command processor_name")):
    """A compiler with the instruction set that it compiles for."""

    def program(self, edit=lambda header: header):
        """Compiles the source, with the header changed by `edit`, and reads the object."""
        with tempfile.TemporaryDirectory(prefix="c-object-") as workdir:
            header, built = os.path.join(workdir, "xxhash.h"), os.path.join(workdir, "made.o")
            shutil.copy(os.path.join(HEADERS, "xxhash.h"), header)
            with open(header, encoding="utf-8") as file:
                text = edit(file.read())
            with open(header, "w", encoding="utf-8") as file:
                file.write(text)
            subprocess.run([*self.command, "-I", workdir, "-c", SOURCE, "-o", built], check=True)
            return CProgram(self.processor_name, built)

    def processor(self, program):
        return CProcessor(program)


def compilers() -> list[Compiler]:
    return [
        Compiler(f"{command} {name}", (command, "-O2", f"-march={name}"), name)
        for command in ("gcc", "clang")
        for name in (V2, V3)
    ]
