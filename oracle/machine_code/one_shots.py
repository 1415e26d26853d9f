"""Runs the one-shots of a source: calls an export for a request and returns the result as a term."""
from oracle.symbolic_terms import Node, Request, Value

from .values import Cpu, address, joined, low

NAMES = {"32": "XXH32", "64": "XXH64", "3-64": "XXH3_64bits", "3-128": "XXH3_128bits"}
WAYS = {"default": "", "seed": "_withSeed", "secret": "_withSecret", "both": "_withSecretandSeed"}


def is_plain(hash_name: str) -> bool:
    return hash_name in ("32", "64")


def name_of(hash_name: str, variant: str) -> str:
    return NAMES[hash_name] + ("" if is_plain(hash_name) else WAYS[variant])


def of_seed(request: Request) -> list:
    """Returns a request's seed as a list of one argument, or an empty list."""
    if not request.has_seed():
        return []
    return [(request.seed(), 32) if request.hash_name == "32" else request.seed()]


def suppose_seed(cpu: Cpu, request: Request) -> None:
    """Assumes that a symbolic seed is nonzero if, and only if, the request has a twin with the seed 0."""
    seed = request.seed()
    cpu.not_zero = [seed] if isinstance(seed, Node) and request.with_seed_0() else []


def value_of(hash_name: str, answer: tuple[Value, Value] | list[Value]) -> Value:
    """Returns the hash from rax and rdx."""
    rax, rdx = answer
    if hash_name == "3-128":
        return joined((rax, 64), (rdx, 64))
    return low(rax, 32) if hash_name == "32" else rax


def of_text(cpu: Cpu, request: Request) -> Value:
    suppose_seed(cpu, request)
    arguments = [address(request.message), request.length]
    if request.secret:
        arguments += [address(request.secret), request.secret_length]
    return cpu.library.one_shot(cpu, request.hash_name, request.variant, *arguments, *of_seed(request))
