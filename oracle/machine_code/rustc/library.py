"""Calls the exports of exports.rs.in: the one-shots, and the streams of each public type by each way to start one."""
import collections

from ..cargo import DONE, LONGEST_WITHOUT, SHORTEST, TOO_SHORT, call_into, expect_code, export_name
from ..one_shots import is_plain, value_of
from ..values import address, low

ONE_SHOTS = {"default": "", "seed": "_with_seed", "secret": "_with_secret", "both": "_with_seed_and_secret"}

# A way to start a stream: the kind of requests that it serves, the beginning of its exports' names, and its start.
Way = collections.namedtuple("Way", "variant prefix start")
PLAIN = [Way("seed", "xxh{}_", "start"), Way("seed", "xxh{}_", "build"), Way("zero", "xxh{}_", "default")]
OF_XXH3 = [
    Way("default", "xxh{}_", "new"),
    Way("seed", "xxh{}_", "with_seed"),
    Way("both", "raw_given_{}_", "new"),
    Way("default", "xxh{}_", "default"),
    Way("both", "xxh{}_", "with_seed_and_secret"),
    Way("seed", "raw_array_{}_", "with_seed"),
    Way("default", "raw_fixed_{}_", "default"),
    Way("default", "raw_boxed_{}_", "allocate_default"),
    Way("seed", "raw_boxed_{}_", "allocate_with_seed"),
    Way("both", "raw_boxed_{}_", "allocate_with_seed_and_secret"),
]


def ways(hash_name: str) -> list[Way]:
    """Returns the ways to start a stream, with the names of its exports."""
    found = PLAIN if is_plain(hash_name) else OF_XXH3
    return [way._replace(prefix=way.prefix.format(hash_name.replace("-", "_"))) for way in found]


class ForRust:
    """Calls one-shots, and streams that begin in a way: by default the first one for a request's kind. With `is_cloned`
    each chunk is written to a clone of the stream."""

    def __init__(self, cpu, hash_name=None, way=None, is_cloned=False):
        self.way, self.is_cloned = way, is_cloned
        self.SIZES = {name: size(cpu, f"xxh{name}_") for name in ("32", "64")}
        if way:
            self.SIZES[hash_name.split("-")[0]] = size(cpu, way.prefix)

    @staticmethod
    def one_shot(cpu, hash_name, variant, *arguments):
        """Returns the hash, or 0 if the secret is too short and the call refuses it."""
        name = f"{export_name(hash_name)}_oneshot" + ("" if is_plain(hash_name) else ONE_SHOTS[variant])
        if variant not in ("secret", "both"):
            return value_of(hash_name, cpu.call(name, *arguments))
        length, secret_length = arguments[1], arguments[3]
        is_short = isinstance(secret_length, int) and secret_length < SHORTEST
        is_refused = is_short and (variant == "secret" or length > LONGEST_WITHOUT)
        code, value = call_into(cpu, hash_name, name, *arguments)
        expect_code(name, code, TOO_SHORT if is_refused else DONE)
        return value

    def reset(self, cpu, request, state):
        """Starts an empty stream."""
        way, seed = self.way or ways(request.hash_name)[0], request.seed()
        arguments = [address(request.secret), request.secret.length] if request.secret else []
        if way.variant in ("seed", "both"):
            arguments.append((seed, int(request.hash_name)) if is_plain(request.hash_name) else seed)
        expect_done(cpu, way.prefix + way.start, address(state), *arguments)

    def update(self, cpu, hash_name, state, piece):
        prefix = self.prefix(hash_name)
        if self.is_cloned:
            clone = copy_of(state)
            expect_done(cpu, f"{prefix}clone", address(state), address(clone))
        piece = (address(piece), piece.length) if piece else (0, 0)
        cpu.call(f"{prefix}write", address(state), *piece)

    def digest(self, cpu, hash_name, state):
        """Returns the hash of everything written to a stream."""
        answer = cpu.call(f"{self.prefix(hash_name)}finish", address(state))
        return low(answer[0], 64) if is_plain(hash_name) else value_of(hash_name, answer)

    def prefix(self, hash_name):
        return (self.way or ways(hash_name)[0]).prefix


def size(cpu, prefix):
    """Returns the size of a stream's type in bytes."""
    return cpu.call(f"{prefix}size")[0]


def expect_done(cpu, name, *arguments):
    expect_code(name, low(cpu.call(name, *arguments)[0], 32), DONE)


def copy_of(state):
    """Moves a state's content to another object, and makes every word of the state unset."""
    clone = state.__class__("original", state.length, [], alignment=state.alignment)
    clone.cells, state.cells = state.cells, {}
    return clone
