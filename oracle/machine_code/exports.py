"""Lists the exports of the sources for C with the beginnings of the titles of tasks that prove them. A source with
another name, or without one of these, fails."""
from typing import Collection

from oracle.symbolic_terms import NotShown

from . import streams
from .cargo_exports import shared
from .objects import Loaded, Program
from .one_shots import NAMES, WAYS, is_plain, name_of

SAME = "names of another's code"
STREAMS, FORGET = "streams", "freed states"


def shown_by(program: Loaded | None = None) -> dict[str, str]:
    """Maps each name to the beginning of a task's title."""
    out = {"XXH_versionNumber": "the version", "XXH128_isEqual": "equal hashes", "XXH128_cmp": "the order of hashes",
           "proved_XXH3_generateSecret": "made secrets", "XXH3_generateSecret_fromSeed": "the derived secret"}
    for name in ("XXH32", "XXH64", "XXH128"):
        out.update({f"{name}_canonicalFromHash": "canonical forms", f"{name}_hashFromCanonical": "canonical forms"})
    for name in ("32", "64", "3"):
        out.update({f"XXH{name}_copyState": "copies of states", f"twox_c_forget_xxh{name}": FORGET})
    for hash_name in NAMES:
        variants = ["seed"] if is_plain(hash_name) else WAYS
        out.update({name_of(hash_name, variant): f"XXH{hash_name}, {variant}" for variant in variants})
        ways = ["reset", "update", "digest", *([] if is_plain(hash_name) else ["reset_withSeed"])]
        out.update({f"{streams.proved(hash_name)}_{way}": STREAMS for way in ways})
    ways = ["reset_xxh3_secret", "reset_xxh3_secret_and_seed", "update_xxh3", "digest_64", "digest_128"]
    out.update({f"twox_c_{way}": STREAMS for way in ways})
    return {**out, **dict.fromkeys(twins(program), SAME)}


def twins(program: Loaded | None = None) -> dict[str, str]:
    """Maps names to the name with the same code: calls with two names, and `_dispatch` variants, unwrapped on ARM."""
    out = {"XXH128": "XXH3_128bits_withSeed"}
    for name in ("XXH3_64bits", "XXH3_128bits"):
        for way in ("", "_withSeed", "_withSecret"):
            out[f"{name}{way}_dispatch"] = name + way
        update = f"{name}_update_dispatch"
        out[update if program and update in program.exports else f"proved_{update}"] = f"proved_{name}_update"
    return out


def expect_all(program: Loaded, titles: Collection[str]) -> int:
    """Checks that the source exports exactly the names of the table, and that each has its task."""
    known = shown_by(program)
    for name in sorted({*known, *program.exports}):
        if name not in known:
            raise NotShown(f"{name} is exported, and no task shows it")
        if name not in program.exports:
            raise NotShown(f"{name} isn't exported")
        if not any(title.startswith(known[name]) for title in titles):
            raise NotShown(f"there is no task {known[name]} for {name}")
    return len(known)


def expect_twins(program: Loaded) -> int:
    """Checks that each twin has the same instructions as the other name."""
    for name, other in twins(program).items():
        if code_of(program, name) != code_of(program, other):
            raise NotShown(f"{name} has other code than {other}")
    return len(twins(program))


# ---- the exports of x86-64-v4 that have the code of x86-64-v3

def is_of_v3(name: str) -> bool:
    """True for all exports of XXH32 and XXH64, and for calls without a message."""
    task = {**shown_by(), **dict.fromkeys(twins(), STREAMS)}[name]
    return name.startswith(("XXH32_", "XXH64_")) or task.startswith(("XXH32,", "XXH64,", *OTHERS))


OTHERS = ("the version", "equal hashes", "the order of hashes", "canonical forms", "copies of states", FORGET,
          "the derived secret")


def expect_code_of_v3(program: Program, other: Program) -> int:
    """Checks that these exports, with all that they reach, equal the other source's byte for byte."""
    found = {name for name in program.exports if is_of_v3(name)}
    left = found - shared(program, other)
    if left:
        raise NotShown(f"{min(left)} has other code")
    return len(found)


def code_of(program: Loaded, name: str) -> list[tuple]:
    """Returns the instructions of a function's section, with their offsets."""
    if name not in program.exports:
        raise NotShown(f"{name} isn't exported")
    section, _ = program.exports[name]
    code = program.sections[section]
    return [(at, x.end, x.mnemonic, x.operands, ("here", x.target[1]) if x.target and x.target[0] == section
             else x.target) for at, x in sorted(code.items())]
