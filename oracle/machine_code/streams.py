"""Runs the streams of a source: reset, updates that end at given offsets, digest. A state has any content before its
reset. Each update gets its chunk as a separate memory object. No digest changes the state."""
from oracle.symbolic_terms import Input, Piece, Request, Unsupported, Value, is_same, is_same_number

from . import layouts
from .memory import WordMemory
from .one_shots import NAMES, WAYS, is_plain, name_of, of_seed, suppose_seed, value_of
from .values import Cpu, address, low

OK, ERROR = 0, 1
ALIGNMENT = {"32": 4}             # of a state, by the header; 8 for the others


def state_name(hash_name: str) -> str:
    return hash_name.split("-")[0]


def new_state(cpu: Cpu, hash_name: str, library: object = None) -> WordMemory:
    """Returns memory of a state's size, with any content."""
    size = (library or cpu.library).SIZES[state_name(hash_name)]
    cells = [(at, 8, cpu.fresh("a state's word")) for at in range(0, size, 8)]
    return WordMemory("state", size, cells, alignment=ALIGNMENT.get(hash_name, 8))


def contents(memory: WordMemory, size: int = 8) -> list[Value]:
    return [memory.load(at, size) for at in range(0, memory.length, size)]


def expect_same(what: str, before: list[Value], memory: WordMemory, size: int = 8) -> None:
    """Checks that the memory is unchanged."""
    if not all(is_same(x, y) or is_same_number(x, y) for x, y in zip(before, contents(memory, size), strict=True)):
        raise Unsupported(f"{what} changes the state")


def expect_answer(answer: tuple[Value, Value], code: int) -> None:
    if not is_same(low(answer[0], 32), code):
        raise Unsupported(f"an answer of {answer[0]}")


def reset(cpu: Cpu, request: Request, state: WordMemory) -> tuple[Value, Value]:
    """Resets a state by the functions behind c/guards.c. A secret of another length than OWN stays the caller's."""
    name, state.secret = f"{NAMES[request.hash_name]}_reset", None
    if not request.secret:
        name = name if is_plain(request.hash_name) else f"proved_{name}{WAYS[request.variant]}"
        return cpu.call(name, address(state), *of_seed(request))
    if request.secret_length != layouts.OWN:
        state.secret = request.secret
    name = "twox_c_reset_xxh3_secret" + ("_and_seed" if request.variant == "both" else "")
    return cpu.call(name, address(state), address(request.secret), request.secret_length, cpu.fresh("an address"),
                    *of_seed(request))


def update(cpu: Cpu, hash_name: str, state: WordMemory, piece: Input | None) -> tuple[Value, Value]:
    """Updates a state: one with a secret of the caller as c/streams.c does, which reads the address in it."""
    chunk = (address(piece), piece.length) if piece else (0, 0)
    if getattr(state, "secret", None):
        return cpu.call("twox_c_update_xxh3", address(state), *chunk, address(state.secret), state.secret.length)
    return cpu.call(f"{proved(hash_name)}_update", address(state), *chunk)


def proved(hash_name: str) -> str:
    """Returns the beginning of the names of a hash's calls that the library's C files may wrap."""
    return NAMES[hash_name] if is_plain(hash_name) else f"proved_{NAMES[hash_name]}"


def digest(cpu: Cpu, hash_name: str, state: WordMemory) -> Value:
    """Returns the hash of everything written to a state. Checks that the state stays unchanged."""
    before = contents(state)
    value = cpu.library.digest(cpu, hash_name, state)
    expect_same("a digest", before, state)
    return value


def of_text(cpu: Cpu, request: Request) -> Value:
    suppose_seed(cpu, request)
    library, state, at = cpu.library, new_state(cpu, request.hash_name), 0
    library.reset(cpu, request, state)
    for end in [*request.cuts, request.length]:
        library.update(cpu, request.hash_name, state, Piece(request.message, at, end - at))
        at = end
    return digest(cpu, request.hash_name, state)


class ForC:
    """Calls the exports of the C library. cargo.py does this for the cargo crate."""
    SIZES = {"3": layouts.STATE.size, **{name: layout.size for name, layout in layouts.PLAIN.items()}}     # of states

    @staticmethod
    def has(request):
        return True

    @staticmethod
    def one_shot(cpu, hash_name, variant, *arguments):
        """Returns the hash. Arguments: the message's address and length, the secret's if there is one, the seed."""
        return value_of(hash_name, cpu.call(name_of(hash_name, variant), *arguments))

    @staticmethod
    def reset(cpu, request, state):
        expect_answer(reset(cpu, request, state), OK)

    @staticmethod
    def update(cpu, hash_name, state, piece):
        expect_answer(update(cpu, hash_name, state, piece), OK)

    @staticmethod
    def digest(cpu, hash_name, state):
        """Returns the hash of everything written to a state."""
        if getattr(state, "secret", None):
            name, secret = f"twox_c_digest_{hash_name[2:]}", (address(state.secret), state.secret.length)
            return value_of(hash_name, cpu.call(name, address(state), *secret))
        return value_of(hash_name, cpu.call(f"{proved(hash_name)}_digest", address(state)))
