"""Puts a mutant into the running process: gives the functions that it changes their other code, or imports the modules
again if it changes what a module does when it is imported."""
import gc
import importlib.abc
import importlib.util
import os
import sys
import types

from . import edits

TOP = os.path.dirname(os.path.dirname(os.path.dirname(os.path.abspath(__file__))))
PACKAGE = "oracle.verifier_mutants"
NEVER_RELOADED = PACKAGE, *(f"{PACKAGE}.{name}" for name in ("patches", "edits", "runs")), "checks.lib.tools"


class Loader(importlib.abc.MetaPathFinder, importlib.abc.SourceLoader):
    """Loads the repository's modules, and keeps the code of each: the functions have parts of it. A module of `changed`
    gets that code instead."""

    def __init__(self):
        self.codes, self.paths, self.changed = {}, {}, {}

    def find_spec(self, name, path, target=None):
        base = os.path.join(TOP, *name.split("."))
        for end in (".py", "/__init__.py"):
            if os.path.isfile(base + end):
                self.paths[name] = base + end
                inside = [base] if end.startswith("/") else None
                return importlib.util.spec_from_file_location(
                    name, base + end, loader=self, submodule_search_locations=inside
                )
        return None

    def get_filename(self, name):
        return self.paths[name]

    def get_data(self, path):
        with open(path, "rb") as file:
            return file.read()

    def get_code(self, name):
        path = self.paths[name]
        if path in self.changed:
            return self.changed[path]
        if path not in self.codes:
            self.codes[path] = compile(self.get_data(path), path, "exec")
        return self.codes[path]


def inner(code):
    return [x for x in code.co_consts if isinstance(x, types.CodeType)]


def within(code):
    """Yields the code objects inside a code object."""
    for x in inner(code):
        yield x
        yield from within(x)


def own(code):
    """Returns what a code object does itself, without the functions in it."""
    numbers = [(x.__class__, repr(x)) for x in code.co_consts if not isinstance(x, types.CodeType)]
    return (
        code.co_code,
        numbers,
        code.co_names,
        code.co_varnames,
        code.co_freevars,
        code.co_cellvars,
        len(inner(code)),
        code.co_exceptiontable,
        code.co_argcount,
    )


def differing(old, new):
    """Yields the code objects (old, new) that differ themselves, the outermost ones, and before each one the functions
    around it: functions that these define later get the other code too."""
    if own(old) != own(new):
        yield old, new
        return
    found = [pair for a, b in zip(inner(old), inner(new)) for pair in differing(a, b)]
    if found and old.co_flags & 2:
        yield old, new
    yield from found


def key_of(code: types.CodeType) -> tuple[str, str]:
    return code.co_filename, code.co_qualname


def functions_by_code() -> dict[int, list[types.FunctionType]]:
    """Maps each code object to the functions that have it."""
    out = {}
    for x in gc.get_objects():
        if isinstance(x, types.FunctionType):
            out.setdefault(id(x.__code__), []).append(x)
    return out


class Patch:
    """A mutant's code. `keys` names the code objects that differ; `is_inside` is true if all of them are functions'."""

    def __init__(self, loader, one):
        self.path = os.path.join(TOP, one.path)
        self.code = compile(edits.applied(one, TOP), self.path, "exec")
        self.pairs = list(differing(loader.codes[self.path], self.code))
        self.keys = {key_of(old) for old, _ in self.pairs}
        self.is_inside = bool(self.pairs) and all(
            old.co_flags & 2 for old, _ in self.pairs
        )  # a function's locals are optimized

    def put(self, by_code):
        """Gives the functions their other code. Returns whether there were any for the outermost code objects, and none
        inside a changed one that exist already and keep their code."""
        changed = {id(old) for old, _ in self.pairs}
        for old, new in self.pairs:
            for function in by_code.get(id(old), ()):
                function.__code__ = new
        inside = {id(x) for old, _ in self.pairs for x in within(old)}
        rewritten = {id(x) for old, new in self.pairs if own(old) != own(new) for x in within(old)}
        return all(by_code.get(code) for code in changed - inside) and not any(map(by_code.get, rewritten))


def import_again(loader: "Loader", patch: "Patch") -> types.ModuleType:
    """Imports all of the repository's modules again, one of them changed. Returns the checks' module."""
    loader.changed[patch.path] = patch.code
    for name in [*loader.paths]:
        if name not in NEVER_RELOADED:
            sys.modules.pop(name, None)
            package, _, last = name.rpartition(".")
            if package in sys.modules:
                vars(sys.modules[package]).pop(last, None)
    return importlib.import_module(f"{PACKAGE}.checks")
