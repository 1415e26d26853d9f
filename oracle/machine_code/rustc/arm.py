"""Reads rustc's object for 64-bit ARM."""
from oracle.symbolic_terms import Unsupported

from ..aarch64.objects import Immediate, Instruction, Program, Shift
from ..aarch64.processor import form
from ..aarch64.table import Processor
from ..aarch64.scalar import shifted
from .library import ForRust
from .objects import Allocator, OfRustc


class RustProgram(OfRustc, Program):
    name = "aarch64"

    def instruction(self, section, at, text, relocation):
        """Replaces an instruction by `brk` if it refers to a section that is left out."""
        if relocation and relocation[1][0] in self.left_out:
            return Instruction(section, at, at + 4, "brk", "i", (Immediate(0),), None)
        return super().instruction(section, at, text, relocation)


@form("lsl lsr", "x x x, w w w")
def shift_by_register(cpu, x, to, source, amount):
    """Shifts by a number in a register, which no assembly source does."""
    k = cpu.get(amount)
    if not isinstance(k, int):
        raise Unsupported("a shift by an amount that is no number")
    cpu.put(to, shifted(cpu.get(source), to.width, Shift(x.mnemonic, k % to.width)))


class RustProcessor(Processor):
    """A processor. It has one level."""

    def __init__(self, found, _=1):
        super().__init__(found)
        self.allocator = Allocator(self)
        for name, short in found.allocator():
            self.replaced[name, 0] = lambda short=short: self.run_of_allocator(short)
        self.library = ForRust(self)

    def run_of_allocator(self, short):
        arguments = [self.registers[name] for name in self.ARGUMENTS[:3]]
        place = self.return_from_another()
        if (value := self.allocator.call(short, arguments)) is not None:
            self.registers["x0"] = value
        return place
