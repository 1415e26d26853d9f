"""Compares both sides for one length after another: for all bytes, all seeds and all bytes of a secret."""
from typing import Callable, Iterable, Iterator, Mapping

from . import definition, nodes
from .refusals import REFUSALS
from .requests import Request, differing_point
from .nodes import WrongRule

MOST_NODES = 1_500_000
SECRETS = 136, 137, 143, 144, 192, 256
PLAIN: list[tuple[str, str, int | None]] = [("32", "seed", None), ("64", "seed", None)]
EDGES_FROM, LONGEST = 1101, 10_241

def algorithms(secrets: tuple[int, ...]) -> list[tuple[str, str, int | None]]:
    """Returns the algorithms: (hash, variant, length of the secret)."""
    of_secret = [(way, n) for way in ("secret", "both") for n in secrets]
    ways = [("default", None), ("seed", None), *of_secret]
    return PLAIN + [(name, *way) for name in ("3-64", "3-128") for way in ways]


def title_of(hash_name: str, variant: str, secret: int | None) -> str:
    return f"XXH{hash_name}, {variant}" + (f" of {secret} bytes" if secret else "")


def edges(secret_length: int | None) -> list[int]:
    """Returns lengths above 1,100 at the edges of blocks."""
    block = 64 * (((secret_length or 192) - 64) // 8)
    ends = [b * block + d for b in range(1, LONGEST // block + 1) for d in (0, 1)]
    return sorted({n for n in [*ends, 2048, 2049, 4096, 4097, LONGEST - 1, LONGEST] if EDGES_FROM <= n <= LONGEST})


def requests(hash_name: str, variant: str, secret_length: int | None, lengths: Iterable[int]) -> Iterator[Request]:
    for length in lengths:
        request = Request(hash_name, variant, length, secret_length)
        yield from [request, *request.with_seed_0()]


def complaint(request: Request, name: str, ours: nodes.Value, theirs: nodes.Value) -> str:
    """Returns the message if the definition's term differs from another side's."""
    found = differing_point(request, ours, theirs)
    if not found:
        return f"{request}: {name} gives another term, though no point was found at which they differ"
    point, x, y = found
    shown = ", ".join(f"{name} {value.hex()[:80] if isinstance(value, bytes) else hex(value)}" for name,
                      value in point.items())
    return f"{request}: {x:#x} by the definition and {y:#x} by {name}, where {shown}"


def compare(sides: Mapping[str, Callable], asked: Iterable[Request]) -> tuple[int, list[str]]:
    """Compares requests of `sides`, name -> function. Returns how many values equal the definition's, and messages."""
    texts, equal, complaints = {}, 0, []
    nodes.forget()
    entries = definition.program().run()
    for request in asked:
        if len(nodes.NODES) > MOST_NODES:
            nodes.forget()
            texts.clear()
            entries = definition.program().run()
        key = request.hash_name, request.variant, request.length, request.secret_length, request.fixed_seed
        if key not in texts:          # a stream has the term of the whole message
            texts = {key: request.of_definition(entries)}
        messages = [found for name, ask in sides.items() if (found := difference(request, name, texts[key], ask))]
        equal += len(sides) - len(messages)
        complaints += messages
    return equal, complaints


def difference(request: Request, name: str, ours: nodes.Value, ask: Callable) -> str | None:
    """Returns the message on a side's value, or None if it equals the definition's term."""
    try:
        theirs = ask(request)
    except (*REFUSALS, WrongRule) as error:
        return f"{request}: {name}: {type(error).__name__}: {error}"
    return None if nodes.is_same(ours, theirs) else complaint(request, name, ours, theirs)
