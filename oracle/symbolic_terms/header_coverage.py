"""Checks that each public function of c/include/xxhash.h has a proof, which calls it."""
import re
from typing import Callable

from . import every_length, header_calls, plain_streams, xxh3_streams
from .machine import Module
from .reference import PREFIX

DEFINED = re.compile(r"define (?!internal ).*?@(\w+)\(")
OWN = "once_", "stream_"  # functions of reference.c
WAYS = {
    "default": "",
    "seed": "_withSeed",
    "seed 0": "_withSeed",
    "secret": "_withSecret",
    "both": "_withSecretandSeed",
}
# By the place of the secret.
RESETS = {"outside": ("_withSecret", "_withSecretandSeed"), "inside": ("", "_withSeed")}


def public_functions(lines):
    """Returns the names of the functions that LLVM code exports, except those of reference.c."""
    names = (found[1] for found in map(DEFINED.match, lines) if found)
    return {name for name in names if not name.startswith(OWN)}


def compared(show, case):
    """Returns the public functions whose values a proof compares."""
    name, _, way = case.partition(":")
    if show is xxh3_streams.show:
        ways = *(f"reset{reset}" for reset in RESETS[case]), "update", "digest"
        names = [f"XXH3_{width}bits_{way}" for width in xxh3_streams.WIDTHS for way in ways]
    elif show is plain_streams.show:
        names = [f"XXH{case}_{way}" for way in ("reset", "update", "digest")]
    elif show in header_calls.CHECKS:
        names = header_calls.COMPARED.get(show, "").format(case).split()
    else:
        names = [f"XXH3_{name[2:]}bits{WAYS[way]}" if name in every_length.XXH3 else f"XXH{name}"]
    return {PREFIX + name for name in names}


def proved(show: Callable, case: str, module: Module) -> tuple[str, list[str]]:
    """Runs a proof. Returns the counts, and messages on functions that it should have called."""
    found = show(module, case)
    left = [name for name in sorted(compared(show, case)) if f"@{name}" not in module.called]
    counted = f"{found} values" if isinstance(found, int) else f"{found.cases} cases"
    return counted, [f"it doesn't call {name}" for name in left]


def without_proof(proofs, names):
    """Returns the names of public functions that no proof compares."""
    return names - {name for _, show, case, _ in proofs for name in compared(show, case)}


def all_compared(proofs: list[tuple], module: Module) -> tuple[str, list[str]]:
    names = public_functions(module.lines)
    return f"{len(names)} functions", [f"no task compares {name}" for name in sorted(without_proof(proofs, names))]


def planted(proofs: list[tuple], module: Module) -> tuple[str, list[str]]:
    """Checks that a function is missed if its proofs are taken away, or if it is new."""
    names, bad = public_functions(module.lines), []
    for taken in sorted(names):
        left = [proof for proof in proofs if taken not in compared(*proof[1:3])]
        if taken not in without_proof(left, names):
            bad.append(f"{taken} isn't missed")
    for line in ("define dso_local i32 @XXH_INLINE_XXH32_new(i8* noundef %bytes) #0 {", "define void @new() #0 {"):
        if not without_proof(proofs, public_functions([*module.lines, line])):
            bad.append(f"nothing is missed with {line}")
    return f"{len(names) + 2} changes", bad
