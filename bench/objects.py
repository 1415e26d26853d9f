"""The code that each measurement ran, and whether it has changed since.

bench/data/objects.tsv has a checksum of the measured code for each measurement, or `unknown`. A measurement is older
than this version if the checksum of the code differs."""
import glob
import hashlib
import os
from typing import Optional

from checks.lib.tools import TOP

FILE = f"{TOP}/bench/data/objects.tsv"
LIBRARY = [f"crates/{it}/src/**/*.rt" for it in ("twox_words", "twox_plain", "twox_core", "twox_hash", "bench_exports")]
CRATE = ["rust/src/**/*.rs", "rust/asm/*.s"]
# The name of each measurement, and its code: a file of bench/data, or a part of measured.tsv.
CODE = {
    "library": LIBRARY,
    "c": ["c/asm/x86-64-*.s"],
    "xxh": [*LIBRARY[:-1], "crates/xxh/src/**/*.rt", "crates/xxh_io/src/**/*.rt", "crates/xxh_program/src/**/*.rt"],
    "dispatch": ["c/asm/x86-64-v4.s"],
    "header": ["c/include/xxhash.h"],
    "xxhsum": [
        *LIBRARY[:-1],
        "crates/xxh_io/src/**/*.rt",
        "crates/xxh_program/src/**/*.rt",
        "crates/xxhsum/src/**/*.rt",
        *(f"crates/xxhsum_{it}/src/**/*.rt" for it in ("app", "audit", "fs", "line", "options", "output", "program")),
    ],
    "cargo": CRATE,
    "cargo_programs": [*CRATE, "rust/programs/src/**/*.rs"],
    "python": ["python/native/*", "python/src/twox_hash/*.py", "c/asm/x86-64-*.s"],
    "web": ["web/twox_hash.js", "web/*.wasm"],
    "arm_instructions": ["c/asm/aarch64.s"],
}


def files(name, top=TOP):
    return sorted(
        {
            os.path.relpath(path, top)
            for it in CODE[name]
            for path in glob.glob(f"{top}/{it}", recursive=True)
            if os.path.isfile(path)
        }
    )


def checksum(name: str, top: str = TOP) -> str:
    """The SHA-256 of the names and the bytes of the measured code."""
    whole = hashlib.sha256()
    for path in files(name, top):
        with open(os.path.join(top, path), "rb") as file:
            whole.update(path.encode() + b"\0" + hashlib.sha256(file.read()).digest())
    return whole.hexdigest()


def stored(file: str = FILE) -> dict[str, str]:
    with open(file) as lines:
        return dict(line.rstrip("\n").split("\t") for line in lines if not line.startswith("#"))


def store(sums: dict[str, str], file: str = FILE) -> None:
    with open(file, "w") as out:
        out.write(
            "# The SHA-256 of the code that each measurement ran, by bench/page --record. Columns: measurement, "
            "checksum.\n"
        )
        out.writelines(f"{name}\t{sums[name]}\n" for name in CODE)


def is_older(name: str, sums: Optional[dict[str, str]] = None) -> bool:
    """True if the code of a measurement has changed since, or nobody knows which code it was."""
    return (stored() if sums is None else sums)[name] != checksum(name)
