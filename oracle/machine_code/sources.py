"""Assembles the sources. A source must follow the grammar. GNU as, clang and rustc, with which users assemble it, must
make the same object of it. The verifier reads GNU as's object."""
import os
import struct
import subprocess
import tempfile
from typing import Any, Callable

from assembly.same_bytes import Object, Part, difference, differences
from oracle.symbolic_terms import NotShown, Unsupported

from .grammar import expect_grammar

GNU = {"x86-64": "as", "aarch64": "aarch64-linux-gnu-as"}
TARGETS = {"x86-64": ("x86_64-linux-gnu", "x86_64-unknown-linux-gnu", "att_syntax, raw"),
           "aarch64": ("aarch64-linux-gnu", "aarch64-unknown-linux-gnu", "raw")}
# The crate declares these macros itself: a machine has `core` only for its own processor.
CRATE = """#![feature(no_core, rustc_attrs)]
#![no_core]
#![allow(internal_features)]
#[rustc_builtin_macro]
macro_rules! global_asm {{ () => {{}} }}
#[rustc_builtin_macro]
macro_rules! include_str {{ () => {{}} }}
global_asm!(include_str!("{source}"), options({options}));
"""
ASSEMBLERS = "GNU as", "clang", "rustc"


def assembled(source: str, arch: str, read: Callable) -> Any:
    """Assembles a source and returns `read`'s result for the object's path."""
    expect_grammar(source, arch)
    with tempfile.TemporaryDirectory(prefix="machine-text-") as workdir:
        return read(by_gnu(source, arch, workdir))


def by_gnu(source: str, arch: str, workdir: str) -> str:
    built = os.path.join(workdir, "gnu.o")
    run([GNU[arch], "--no-warn", source, "-o", built])
    return built


def by_clang(source: str, arch: str, workdir: str) -> str:
    built = os.path.join(workdir, "clang.o")
    run(["clang", "-c", f"--target={TARGETS[arch][0]}", source, "-o", built])
    return built


def by_rustc(source: str, arch: str, workdir: str) -> str:
    built, crate = os.path.join(workdir, "rustc.o"), os.path.join(workdir, "rustc.rs")
    _, target, options = TARGETS[arch]
    with open(crate, "w", encoding="utf-8") as file:
        file.write(CRATE.format(source=os.path.abspath(source), options=options))
    run(["rustc", "--crate-type=lib", "--emit=obj", f"--target={target}", crate, "-o", built], RUSTC_BOOTSTRAP="1")
    return built


def run(command, **more):
    done = subprocess.run(command, capture_output=True, text=True, env={**os.environ, **more})
    if done.returncode:
        raise Unsupported(f"{command[0]} refuses the text: {done.stderr.strip()[:300]}")


def expect_alike(sources: list[tuple[str, str]]) -> int:
    """Compares each source's objects by the three assemblers: bytes, relocations, names, notes and frames. `sources`
    are (path, kind). Returns the number of equal objects."""
    for source, arch in sources:
        with tempfile.TemporaryDirectory(prefix="machine-text-") as workdir:
            first, *others = [parts_of(by(source, arch, workdir)) for by in (by_gnu, by_clang, by_rustc)]
        for name, other in zip(ASSEMBLERS[1:], others):
            found = next(differences(first, other, difference), None)
            if found:
                raise NotShown(f"{os.path.basename(source)} by GNU as and by {name}: {found}")
    return 2 * len(sources)


def parts_of(path: str) -> dict[str, Part]:
    object_ = Object(path)
    try:
        return {**object_.parts(), **object_.added()}
    except (ValueError, LookupError, struct.error) as fault:
        raise Unsupported(f"an object that isn't read: {fault}") from None
