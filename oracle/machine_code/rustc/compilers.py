"""Compiles the crate with a program that uses it, as cargo does, for each verified build."""
import collections
import functools
import os
import shutil
import subprocess
import tempfile

from oracle.symbolic_terms import TOP

from ..instructions import V1, V3
from . import arm, objects

CRATE = os.path.join(TOP, "rust")
PROGRAM = os.path.join(os.path.dirname(os.path.abspath(__file__)), "exports.rs.in")
FEATURES = "xxhash32", "xxhash64", "xxhash3_64", "xxhash3_128", "std", "alloc"  # the default ones except `random`
FLAGS = (
    "--edition",
    "2021",
    "--crate-type",
    "lib",
    "--emit",
    "obj",
    "-C",
    "opt-level=3",
    "-C",
    "panic=abort",
    "-C",
    "codegen-units=1",
    "-C",
    "force-unwind-tables=no",
    "--cap-lints",
    "allow",
    "--crate-name",
    "twox_hash",
    *(word for name in FEATURES for word in ("--cfg", f'feature="{name}"')),
)
SOURCE = "--cfg", "twox_hash_no_assembly"
# Miri's build has no vectors: its kernel is the one of targets without SSE2 and NEON.
SCALAR = ("--cfg", "miri", "-A", "explicit_builtin_cfgs_in_flags", "-C", "no-vectorize-loops", "-C", "no-vectorize-slp")
ASSEMBLY, SCALAR_BUILD = "assembly", "scalar"
ARM, DEBIANS_RUSTC = "aarch64-unknown-linux-gnu", "/usr/bin/rustc"


class Compiler(collections.namedtuple("Compiler", "name command program processor")):
    """A rustc with the options of a build, the reader of its object, and the processor that runs it."""

    def program_of(self, edits=()):
        """Compiles a copy of the crate with the program added, and reads the object. `edits` are (file, old, new)."""
        with tempfile.TemporaryDirectory(prefix="rust-object-") as workdir:
            for folder in ("src", "asm"):
                shutil.copytree(os.path.join(CRATE, folder), os.path.join(workdir, folder))
            shutil.copy(os.path.join(CRATE, "README.md"), workdir)
            shutil.copy(PROGRAM, os.path.join(workdir, "src", "program.rs"))
            root, built = os.path.join(workdir, "src", "lib.rs"), os.path.join(workdir, "made.o")
            with open(root, "a", encoding="utf-8") as file:
                file.write("\nmod program;\n")
            for name, old, new in edits:
                edit(os.path.join(workdir, "src", name), old, new)
            subprocess.run([*self.command, *FLAGS, root, "-o", built], check=True)
            return self.program(built)


def edit(path, old, new):
    """Replaces a text that a file has once."""
    with open(path, encoding="utf-8") as file:
        text = file.read()
    if text.count(old) != 1:
        raise ValueError(f"{path} has {text.count(old)} times: {old}")
    with open(path, "w", encoding="utf-8") as file:
        file.write(text.replace(old, new))


def for_x86() -> list[Compiler]:
    """Returns the builds by the machine's own rustc: the Rust source for two instruction sets and without vectors, and
    the assembly source, whose functions for all instruction sets are in one object."""

    def build(name, flags, target):
        command = "rustc", "-C", f"target-cpu={target}", *flags
        return Compiler(name, command, functools.partial(objects.RustProgram, name), objects.RustProcessor)

    return [build(V1, SOURCE, V1), build(V3, SOURCE, V3), build(SCALAR_BUILD, SCALAR, V1), build(ASSEMBLY, (), V1)]


def for_arm(root: str, workdir: str) -> list[Compiler]:
    """Returns Debian's rustc with Debian's libraries for 64-bit ARM, unpacked below `root`."""
    libraries = os.path.join("lib", "rustlib")
    os.makedirs(os.path.join(workdir, libraries))
    os.symlink(os.path.join(root, "usr", libraries, ARM), os.path.join(workdir, libraries, ARM))
    command = DEBIANS_RUSTC, "--target", ARM, "--sysroot", workdir, *SOURCE
    return [Compiler("aarch64", command, arm.RustProgram, arm.RustProcessor)]
