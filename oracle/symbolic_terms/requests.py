"""A request for a hash, and the definition's value of it as a term."""
import os
import random

from . import definition
from .definition import Bytes
from .memory import Input
from .nodes import Node, Value, symbol, values_at

TOP = os.path.dirname(os.path.dirname(os.path.dirname(os.path.abspath(__file__))))
LONGEST, LONGEST_SECRET = (1 << 64) - 1, 1 << 60        # maximum bytes of a message and of a secret


def seed_symbol(hash_name: str) -> Value:
    return symbol("seed32", 32) if hash_name == "32" else symbol("seed64", 64)


class Request:
    """A hash, a function (seed, default, secret, both), a length, and the secret's length if needed. `seed` is a
    number, or None for a symbol. `cuts` are the ends of a stream's chunks but the last, or None for a one-shot."""

    def __init__(self, hash_name, variant, length, secret_length=None, seed=None, cuts=None):
        self.hash_name, self.variant, self.length, self.secret_length = hash_name, variant, length, secret_length
        self.fixed_seed, self.cuts = seed, cuts
        self.message = Input("m", length)
        self.secret = None if secret_length is None else Input("s", secret_length)

    def __repr__(self):
        parts = [f"XXH{self.hash_name}", "stream" if self.cuts is not None else "one-shot", self.variant]
        parts += [f"secret of {self.secret_length}"] if self.secret else []
        parts += [f"seed {self.fixed_seed:#x}"] if self.fixed_seed is not None else []
        parts += [f"{self.length} bytes"] + ([f"cut at {self.cuts}"] if self.cuts else [])
        return " ".join(parts)

    def has_seed(self):
        return self.variant in ("seed", "both")

    def seed(self):
        if not self.has_seed():
            return 0
        return seed_symbol(self.hash_name) if self.fixed_seed is None else self.fixed_seed

    def of_definition(self, entries):
        secret = self.secret and Bytes(self.secret, 0, self.secret_length)
        return definition.value(entries, self.hash_name, self.variant, self.seed(), secret,
                                Bytes(self.message, 0, self.length))

    def with_seed_0(self):
        """Returns the case with the seed 0 in a list, if of_reference leaves it out, else an empty list."""
        is_long = self.length > 240 or self.cuts is not None
        asks = self.hash_name.startswith("3-") and self.fixed_seed is None and is_long
        if not asks or not self.has_seed() or self.variant == "both" and self.cuts is None:
            return []
        if self.variant == "both" and self.hash_name == "3-128" and self.length <= 240:
            return []     # release 0.8.1 differs here: see xxh3_streams.py
        return [Request(self.hash_name, self.variant, self.length, self.secret_length, 0, self.cuts)]

    def points(self, count, rng):
        """Yields values of the symbols: some at the ends of their ranges, then random ones."""
        n, k = self.length, self.secret_length or 0
        for byte in (0, 255):
            for seed in (0, 2 ** 64 - 1, 2 ** 63):
                yield {"m": bytes([byte]) * n, "s": bytes([255 - byte]) * k, "seed32": seed >> 32, "seed64": seed}
        for _ in range(count):
            yield {"m": rng.randbytes(n), "s": rng.randbytes(k), "seed32": rng.getrandbits(32),
                   "seed64": rng.getrandbits(64)}


def differing_point(request: Request, a: int | Node, b: int | Node, count: int = 20) -> tuple[dict, int, int] | None:
    """Returns (symbols, value of a, value of b) at a point where two terms differ, or None if none is found."""
    for point in request.points(count, random.Random(7)):
        x, y = values_at([a, b], point)
        if x != y:
            return point, x, y
    return None
