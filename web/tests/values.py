"""Sources of the expected values: Debian's xxhsum, and the reference library's values of one input."""
import os
import re
import subprocess
import tempfile
from typing import Container, Iterator, NamedTuple, Optional

from checks.lib.tools import TOP

# The four hashes of "some bytes" under the seed 1234, by the reference library.
SOME_BYTES = {
    "xxh32": "92f68bd9",
    "xxh64": "eab55659a496d78b",
    "xxh3_64": "582ee33d9ad8c6e9",
    "xxh3_128": "d13af43e9c4507cfc327b2ddc4f87078",
}
XXHSUM = {"xxh32": "-H0", "xxh64": "-H1", "xxh3_64": "-H3", "xxh3_128": "-H2"}


def reference(path: str) -> dict[str, str]:
    """The digests by xxhsum."""
    lines = {algorithm: line_of(path, algorithm).split() for algorithm in XXHSUM}
    return {
        algorithm: next(
            word for word in fields if re.fullmatch("[0-9a-f]+", word) and len(word) == len(SOME_BYTES[algorithm])
        )
        for algorithm, fields in lines.items()
    }


def line_of(path: str, algorithm: str, *args: str, folder: Optional[str] = None) -> str:
    """The line that xxhsum prints for a file."""
    return subprocess.run(
        ["xxhsum", XXHSUM[algorithm], *args, path], capture_output=True, text=True, check=True, cwd=folder
    ).stdout


class Vector(NamedTuple):
    """A request of oracle/vectors.txt, and the reference library's value."""

    algorithm: str
    seed: Optional[int]
    secret: Optional[bytes]
    input: bytes
    value: int


def generated(start, length):
    """The bytes of a request: oracle/vectors.c defines them."""
    out, x = bytearray(), start
    for _ in range(length):
        x = (x * 6364136223846793005 + 1442695040888963407) % 2**64
        out.append(x >> 56)
    return bytes(out)


def vectors(lengths: Container[int]) -> Iterator[Vector]:
    """The requests of XXH3 with a secret, whose inputs have these lengths."""
    with open(os.path.join(TOP, "oracle", "vectors.txt"), encoding="utf-8") as file:
        for line in file:
            name, seed, secret, length, start, value = line.split()[:6] if not line.startswith("#") else "-" * 6
            if name.startswith("3-") and secret != "-" and int(length) in lengths:
                size, begin = secret.split(":")
                yield Vector(
                    f"xxh3_{name[2:]}",
                    None if seed == "-" else int(seed, 16),
                    generated(int(begin, 16), int(size)),
                    generated(int(start, 16), int(length)),
                    int(value, 16),
                )


def long_digests() -> dict[str, str]:
    """xxhsum's digests of the long input of the module's tests."""
    with tempfile.NamedTemporaryFile() as file:
        file.write(bytes(i % 251 for i in range(1_000_003)))
        file.flush()
        return reference(file.name)
