"""The test cases of the oracle's table, and the definition's value for each."""
import os

from oracle.specs import CRATES, ENTRIES, HASHES, TOP

FOLDER = os.path.dirname(os.path.abspath(__file__))
__all__ = ["CRATES", "ENTRIES", "HASHES", "TOP"]


def generated(start: int, length: int) -> memoryview:
    """Returns the bytes of a test case, as defined in oracle/vectors.c."""
    out, x = bytearray(), start
    for _ in range(length):
        x = (x * 6364136223846793005 + 1442695040888963407) % 2**64
        out.append(x >> 56)
    return memoryview(bytes(out))


class Case:
    """A request and the reference library's value. `seed` and `secret` are None if the case has none."""

    def __init__(self, line):
        self.line = line.strip()
        hash_name, seed, secret, length, start, answer = line.split()
        self.entry = HASHES[hash_name]
        self.seed = None if seed == "-" else int(seed, 16)
        self.secret = None if secret == "-" else (int(secret.split(":")[0]), int(secret.split(":")[1], 16))
        self.length, self.start, self.answer = int(length), int(start, 16), int(answer, 16)

    def is_plain(self):
        return self.entry in ("xxh32", "xxh64")

    def ask(self, entries):
        """Returns the definition's value, by the rule for the effective seed and secret."""
        message, seed = generated(self.start, self.length), self.seed or 0
        if self.is_plain():
            return entries[self.entry](seed, message)
        secret = None if self.secret is None else generated(self.secret[1], self.secret[0])
        if self.seed is None and secret is not None:
            return entries[self.entry](0, secret, message)
        own = entries["derived_secret"](seed) if secret is None else secret
        return entries[self.entry](seed, entries["effective_secret"](own, message), message)

    def agrees(self, entries):
        return self.ask(entries) == self.answer


def lines() -> list[str]:
    with open(os.path.join(FOLDER, "vectors.txt"), encoding="utf-8") as file:
        return [line for line in file if not line.startswith("#")]


def heading() -> str:
    """Returns the table's first line, which names the reference library's version."""
    with open(os.path.join(FOLDER, "vectors.txt"), encoding="utf-8") as file:
        return file.readline().lstrip("# ").strip()
