"""The toolchain's program `rt` as a module: it knows how to check a crate, and how to try an edit separately."""
import contextlib
import glob
import importlib.machinery
import importlib.util
import json
import os
import re
import shutil
import sys
import tempfile
import threading
from typing import Any

from checks.lib.tools import TOP

from . import source

# rt's message for an edit at which the prover reached a limit of its own.
BY_LIMIT = "only by a limit of the prover"
# The functions of rt that this program calls. A new release may name these differently.
USED = ("checked", "must_fail", "read_edit", "unread", "rtlib")


def load():
    path = shutil.which("rt") or sys.exit("wrong-bodies: there is no rt")
    loader = importlib.machinery.SourceFileLoader("rt", os.path.realpath(path))
    module: Any = importlib.util.module_from_spec(importlib.util.spec_from_loader("rt", loader))
    loader.exec_module(module)
    lost = [name for name in USED if not hasattr(module, name)]
    if lost:
        sys.exit(f"wrong-bodies: this rt has no {', '.join(lost)}")
    # Its first call sets a signal's handler, which only the main thread may do.
    module.rtlib.guarded()
    module.rtlib.guarded = with_closed_files(module.rtlib.guarded)
    module.checked = with_whole_messages(module.checked)
    return module


# Whether the children of this thread may write no file.
CLOSED = threading.local()
# Runs a command that may write no file: it gets an error and is not killed.
WRITES_NO_FILE = ["sh", "-c", 'trap "" XFSZ; ulimit -f 0; exec "$@"', "sh"]


def with_closed_files(guarded):
    """The arguments before each command that rt starts, and after them those that stop it from writing files."""
    return lambda: [*guarded(), *(WRITES_NO_FILE if is_closed_now() else ())]


@contextlib.contextmanager
def closed(is_closed):
    before = is_closed_now()
    CLOSED.is_closed = is_closed
    try:
        yield
    finally:
        CLOSED.is_closed = before


def is_closed_now():
    return getattr(CLOSED, "is_closed", False)


def no_file_written():
    """Meanwhile a check over cached proofs writes no file. Its own are not cached; and if it can't cache them, rattle
    doesn't load all modules a second time, which it does to print the file that each refused function wants."""
    return closed(True)


def with_whole_messages(checked):
    """A check whose output has each message on one line. The prover continues in a further line, which begins with a
    space, if a message has a long name; rt reads line by line, and so does everything here. A check without cached
    proofs writes files in any case: it can't use a library's build without."""

    def check(crate, texts, flags, cache):
        with closed(is_closed_now() and cache is not None):
            ran = checked(crate, texts, flags, cache)
        ran.stdout = re.sub(r"\n +", " ", ran.stdout)
        return ran

    return check


rt = load()


def identity():
    """Identifies this toolchain's prover: its logic's checksum, and its size. Releases of other names may have the
    same."""
    return f"{re.search('logic .*', read(f'{rt.rtlib.KIT}/KIT-ID'))[0]}, {os.path.getsize(rt.rtlib.RATTLE)} bytes"


def one_job():
    return ["--jobs", "1"]


def crates():
    """The repository's crates by name, lowest first."""
    return {it.name: it for it in rt.rtlib.crates_below(TOP)}


def read(path):
    with open(path, encoding="utf-8", errors="replace") as file:
        return file.read()


def write(path, text):
    with open(path, "w", encoding="utf-8") as file:
        file.write(text)


def check(crate, texts, cache, only=()):
    """Checks the crate with these texts in place of its own, over the cached proofs, if there are any: its status and
    its lines."""
    args = [*one_job(), *(arg for name in only for arg in ("--only", name))]
    ran = rt.checked(crate, texts, args, cache)
    # An error of the machine is no refusal.
    if unusable := UNUSABLE.search(ran.stdout):
        sys.exit(f"wrong-bodies: {crate.name}: a built library can't be used: {unusable[0][:200]}")
    return ran.returncode, ran.stdout.rstrip("\n").split("\n")


@contextlib.contextmanager
def copy_of(cache):
    """A copy of cached proofs, or None if there are none. Proofs are linked: a check replaces such a file, and writes
    into none."""
    if not os.path.isdir(cache):
        yield None
        return
    with tempfile.TemporaryDirectory(dir=os.path.dirname(cache)) as workdir:
        yield shutil.copytree(cache, f"{workdir}/cache", copy_function=linked_or_copied)


def linked_or_copied(file, to):
    try:
        os.link(file, to) if file.endswith(".oantt") else shutil.copy2(file, to)
    except OSError:
        shutil.copy2(file, to)


def listing(folder):
    """Shows whether a file of the folder was changed, lost or added."""
    files = [f"{at}/{name}" for at, _, names in os.walk(folder) for name in names]
    return {it: (found.st_ino, found.st_size, found.st_mtime_ns) for it in files for found in [os.lstat(it)]}


def try_alone(crate, edit_file, cache):
    """True if the prover refuses the edit, with a message: over cached proofs, if there are any, and if that passes
    from nothing."""
    outcome, message = rt.must_fail(crate, edit_file, one_job(), cache)
    if cache and not is_refusal(outcome):
        outcome, message = rt.must_fail(crate, edit_file, one_job())
    return is_refusal(outcome), message.partition(": ")[2]


def is_refusal(outcome):
    """True for rt's outcomes of an edit that isn't proved: release 13b returns a flag, release 13f an outcome."""
    return outcome if isinstance(outcome, bool) else outcome in (rt.REFUSED, rt.AT_LIMIT)


def is_built(crate):
    """True if the library's build is up to date. A library is built only if it is proved."""
    # `rt ci` leaves a library with no stamp, so its folder's time determines whether it is up to date. The files inside
    # may be older, of an earlier run that proved the same.
    if not os.path.isdir(crate.rlib) or os.path.exists(f"{os.path.dirname(crate.rlib)}/stamp"):
        return crate.is_built()
    files = [file for it in [crate, *crate.below()] for file in rt.rtlib.files_of(it.folder)]
    return os.path.getmtime(crate.rlib) > max(map(os.path.getmtime, files))


def build_library(crate):
    """Builds a library, unless `rt ci` or an earlier run has built it."""
    if not is_built(crate) and crate.build_rlib(one_job(), anew=False):
        sys.exit(f"wrong-bodies: {crate.name} is not proved")


def is_library(crate):
    return not crate.is_program and not crate.is_static


def names_of_functions(crate):
    """The functions of a crate, named as in a check: for a library from its build, otherwise from its source, since
    programs and static libraries have no methods of a type with parameters."""
    if is_library(crate):
        return {name for name, _ in json.loads(read(f"{crate.rlib}/toolchain/mir.json")) if not name.endswith("+decl")}
    paths = [os.path.relpath(file, crate.folder) for file in glob.glob(f"{crate.folder}/src/**/*.rt", recursive=True)]
    found = [it for path in paths for it in source.functions(path, read(f"{crate.folder}/{path}").split("\n"))]
    return {"::".join([crate.name, *it.module, it.owner + it.name]) for it in found}


def is_front_end_error(line, texts):
    return rt.unread(line, texts)


# A check's message if it can't use the build of a library.
UNUSABLE = re.compile(rf"{rt.rtlib.STALE.pattern}|checked file .* cannot be used.*")
LINE = re.compile(r"(fn|impl|closure|struct|enum|trait) (\S+): (.*)")
PLACE = re.compile(r"(?:\./)?(\S+?):(\d+):\d+: error(.*)")
OPEN_GOAL = re.compile(r"note: (?:\./)?(\S+?):(\d+):\d+: it is not proved (.*)")
