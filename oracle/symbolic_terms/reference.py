"""The reference's code as LLVM code, and its result for a request."""
import hashlib
import os
import shutil
import subprocess
import tempfile

from checks.lib import tools

from .machine import Module
from .memory import Memory
from .nodes import Node, Value
from .requests import Request

FOLDER = os.path.dirname(os.path.abspath(__file__))
HEADERS = "/usr/include"  # folder of Debian's libxxhash-dev
VECTORS = {"scalar": ["-DXXH_VECTOR=0"], "sse2": ["-DXXH_VECTOR=1"], "avx2": ["-DXXH_VECTOR=2", "-mavx2"]}
# Forms of c/include/xxhash.h: also without products of 128 bits, with words that are read byte by byte, as on
# processors that store the highest byte first, and for 64-bit ARM, without the headers of its C library.
FORMS = {
    **VECTORS,
    "halves": ["-DXXH_VECTOR=0", "-U__SIZEOF_INT128__"],
    "bytes": ["-DXXH_VECTOR=0", "-DXXH_CPU_LITTLE_ENDIAN=0", "-U__SIZEOF_INT128__"],
    "neon": ["-DXXH_VECTOR=4", "--target=aarch64-linux-gnu", "-ffreestanding", "-DXXH_NO_STDLIB"],
}
MARK = "XXHASH_H_TWOX_HASH"  # a name that only c/include/xxhash.h has
PREFIX = "XXH_INLINE_"  # of the names of public functions in LLVM code
ALL_PUBLIC = ["-DXXH_IMPLEMENTATION", f"-DXXH_NAMESPACE={PREFIX}"]
CLANG = "clang-14"
DEBIAN_PYTHON = "/usr/lib/python3/dist-packages"
BESIDE = 512  # bytes around a chunk within which streams compare addresses


def install(headers: str, with_solver: bool) -> None:
    """Installs missing packages: clang, Debian's header if it is used, and z3."""
    is_there = {
        CLANG: shutil.which(CLANG),
        "libxxhash-dev": headers != HEADERS or os.path.exists(f"{HEADERS}/xxhash.h"),
        "python3-z3": not with_solver or os.path.exists(f"{DEBIAN_PYTHON}/z3"),
    }
    tools.install({package for package, there in is_there.items() if not there})


def is_ours(headers: str) -> bool:
    with open(f"{headers}/xxhash.h", encoding="utf-8") as file:
        return MARK in file.read()


def llvm_text(headers: str = HEADERS, vector: str = "scalar") -> str:
    """Returns the LLVM code of the header in a folder, written by clang's front end without optimiser: of ours, all
    public functions. The header is copied to a separate folder: clang ignores `-I /usr/include`, and could use a header
    of another folder."""
    flags = FORMS[vector] + (ALL_PUBLIC if is_ours(headers) else [])
    with tempfile.TemporaryDirectory(prefix="symbolic-") as workdir:
        out = f"{workdir}/reference.ll"
        shutil.copy(f"{headers}/xxhash.h", workdir)
        subprocess.run(
            [
                CLANG,
                "-O0",
                "-w",
                "-fno-discard-value-names",
                "-S",
                "-emit-llvm",
                *flags,
                "-I",
                workdir,
                f"{FOLDER}/reference.c",
                "-o",
                out,
            ],
            check=True,
        )
        with open(out, encoding="utf-8") as file:
            return file.read()


def module(headers: str = HEADERS, vector: str = "scalar") -> Module:
    return Module(llvm_text(headers, vector))


def release_of(headers: str) -> tuple[str, str]:
    """Returns the header's version, and its SHA-256."""
    with open(f"{headers}/xxhash.h", "rb") as file:
        text = file.read()
    numbers = [
        line.split()[2].decode()
        for line in text.splitlines()
        if line.startswith((b"#define XXH_VERSION_MAJOR", b"#define XXH_VERSION_MINOR", b"#define XXH_VERSION_RELEASE"))
    ]
    return ".".join(numbers), hashlib.sha256(text).hexdigest()


def of_reference(request: Request, module: Module) -> Value:
    """Returns the library's result. Assumes that a symbolic seed is nonzero; with_seed_0 has that case."""
    seed, out = request.seed(), Memory("out", 16)
    arguments = [(request.message, 0), request.length]
    arguments += [(request.secret, 0), request.secret_length] if request.secret else []
    arguments += [seed] if request.has_seed() else []
    arguments += [(out, 0)] if request.hash_name == "3-128" else []
    if request.cuts is not None:
        cuts = Memory("cuts", 8 * len(request.cuts), [(8 * k, 8, cut) for k, cut in enumerate(request.cuts)])
        arguments += [(cuts, 0), len(request.cuts)]
    module.reset()
    module.beside = 0 if request.cuts is None else BESIDE
    if isinstance(seed, Node):
        module.suppose_different(seed, 0)
    way = "once" if request.cuts is None else "stream"
    value = module.call(f"@{way}_{request.hash_name.replace('-', '_')}_{request.variant}", arguments)
    return out.load(0, 16) if request.hash_name == "3-128" else value
