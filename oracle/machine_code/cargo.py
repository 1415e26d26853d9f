"""Models the assembly sources of the cargo crate, rust/asm, and calls of their exports as in
rust/src/kernels/assembly.rs. Names here omit the interface's number and the instruction set.

Each call of an XXH3 stream takes the secret as an argument. The stream begins with the accumulators, like a C state."""
import os
import re

from oracle.symbolic_terms import TOP, NotShown, Unsupported, is_same, nodes

from . import layouts
from .object_contents import HIDDEN, WEAK, Loaded
from .memory import WordMemory
from .objects import TEXT, Program
from .one_shots import is_plain
from .processor import Processor
from .values import Cpu, address, joined, low

FOLDER = os.path.join(TOP, "rust", "asm")
NAMED = re.compile(r"twox_rust_\d+_(\w+?)(?:_v[34])?|(.+)\.i\d+(?:_v[34])?|twox_rust_(interface)(?:_v[34])?")
DONE, TOO_SHORT, NO_STREAM, FEW = 0, 1, 2, 3  # return codes
SHORTEST = 136  # bytes of a secret
LONGEST_WITHOUT = 240  # bytes of a message that needs no secret if there is a seed


class OfCargo(Loaded):
    """Overrides for the reader of a source, for either processor."""

    EXPORT = WEAK, HIDDEN  # versions of the crate with the same interface share one copy of the code

    def all_names(self):
        """Returns all symbol names in the source."""
        return {symbol.name for symbol in self.object.symbols}

    def names(self):
        return ({plain(name): place for name, place in found.items()} for found in super().names())


class CargoProgram(OfCargo, Program):
    """The assembly source of an instruction set, read from the file of that name."""

    def __init__(self, name, path):
        self.name = name
        super().__init__(path)

    @staticmethod
    def title_of(section):
        return TEXT + plain(section[len(TEXT) :])


def plain(name: str) -> str:
    found = NAMED.fullmatch(name)
    if not found:
        raise Unsupported(f"the name {name}")
    return found[1] or found[2] or found[3]


def export_name(hash_name: str) -> str:
    return "xxh" + hash_name.replace("-", "_")


class CargoProcessor(Processor):
    def __init__(self, program):
        super().__init__(program, program.name)


class Value(WordMemory):
    """Memory object for a call's 128-bit result, with any content before the call."""

    def __init__(self, cpu):
        self.before = [cpu.fresh("a value") for _ in range(2)]
        super().__init__("value", 16, [(8 * k, 8, x) for k, x in enumerate(self.before)], alignment=8)

    def parts(self):
        return [self.load(8 * k, 8) for k in range(2)]


def call_into(cpu: Cpu, hash_name: str, name: str, *arguments: nodes.Value) -> tuple[nodes.Value, nodes.Value]:
    """Returns (code, value) of a call that may be refused. A 64-bit value is returned in a register. A 128-bit value is
    written to memory, and a refusal writes nothing."""
    if hash_name != "3-128":
        code, value = cpu.call(name, *arguments)
        return low(code, 32), value
    value = Value(cpu)
    cpu.live = [*cpu.live, value]
    try:
        code = low(cpu.call(name, *arguments, address(value))[0], 32)
    finally:
        cpu.live = [other for other in cpu.live if other is not value]
    parts = value.parts()
    if is_same(code, DONE):
        return code, joined(*((word, 64) for word in parts))
    if not all(map(is_same, parts, value.before)):
        raise NotShown(f"{name}: a refusal writes a value")
    return code, 0


def expect_code(name: str, code: nodes.Value, expected: int) -> None:
    if not is_same(code, expected):
        raise NotShown(f"{name}: the code {code} and not {expected}")


class ForCargo:
    SIZES = {"32": layouts.PLAIN["32"].size, "3": layouts.CORE.size}  # of states, in bytes

    @staticmethod
    def has(request):
        """True if the source has a call for a request: a long input with a secret."""
        return request.variant == "secret" and request.cuts is None and request.length > LONGEST_WITHOUT

    @staticmethod
    def one_shot(cpu, hash_name, variant, *arguments):
        """Returns the hash, or 0 if the secret is too short and the call refuses it."""
        if variant != "secret":
            raise Unsupported(f"no export hashes with {variant}")
        secret_length = arguments[3]
        is_short = isinstance(secret_length, int) and secret_length < SHORTEST
        code, value = call_into(cpu, hash_name, f"{export_name(hash_name)}_long", *arguments)
        expect_code(hash_name, code, TOO_SHORT if is_short else DONE)
        return value

    @staticmethod
    def update(cpu, hash_name, state, piece):
        name = write_of(hash_name)
        secret = () if is_plain(hash_name) else (address(state.secret), state.secret.length)
        piece = (address(piece), piece.length) if piece else (0, 0)
        expect_code(name, low(cpu.call(name, address(state), *secret, *piece)[0], 32), DONE)


def write_of(hash_name: str) -> str:
    return "xxh32_write" if is_plain(hash_name) else "xxh3_write"


CargoProcessor.library = ForCargo
