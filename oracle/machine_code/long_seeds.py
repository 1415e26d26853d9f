"""Proves the secrets generated from seeds of 2 ^ 32 bytes and more, by induction over the loops of their hash. For such
lengths a source divides positions with another instruction."""
from oracle.symbolic_terms import (LONGEST, Bytes, Input, NotShown, at_most, definition, given, is_same, minus,
                                   suppositions, variable)

from .every_length import TURNS, EveryLength, xxh3_case
from .memory import WordMemory
from .streams import OK, expect_answer
from .values import Cpu, address

MAKE, WRITES = "proved_XXH3_generateSecret", "twox_c.secrets.write_secret"      # the export and its callee
BLOCK = 1024                      # bytes of a block under the default secret


class LongSeeds(EveryLength):
    def __init__(self, cpu):
        super().__init__(cpu, "3-128:default")

    def read(self):
        """Runs the definition's program on symbols."""
        suppositions.clear()
        self.texts = definition.program(("twox_c",), ("generated_secret", "default_secret")).run(traced=suppositions)

    def show(self, size):
        """Proves a secret of `size` bytes, generated from whole blocks and 1 to 64 bytes."""
        turns = variable(TURNS)
        case = xxh3_case(turns, 0, minus(turns, (1 << 32) // BLOCK))
        with given(*case.facts, at_most(case.length, LONGEST)):
            source = Input("m", case.length)
            message, default = Bytes(source, 0, case.length), self.texts["default_secret"]()
            after = self.texts["Long.accumulator_after"]
            buffer = WordMemory("secret", size, [(k, 1, self.cpu.fresh("a byte", 8)) for k in range(size)], alignment=1)
            self.cpu.not_zero, self.cpu.live = [], [buffer]
            answer = self.proved(lambda: self.cpu.call(MAKE, address(buffer), size, address(source), case.length),
                                 case, 64, 8, lambda k: lambda i: after(default, message, i, k))
            expect_answer(answer, OK)
            expected = self.texts["generated_secret"](message, size)
            if not all(is_same(buffer.load(k, 1), byte) for k, byte in zip(range(size), expected, strict=True)):
                raise NotShown(f"a secret of {size} bytes of {case.length}: another value")


def generated_secrets(cpu: Cpu, sizes: tuple[int, ...] | list[int]) -> int:
    """Proves the secrets of these sizes, and returns their number."""
    proof = LongSeeds(cpu)
    for size in sizes:
        proof.show(size)
    return len(sizes)
