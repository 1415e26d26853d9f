"""Disables the verifier's checks one by one, and requires that a planted fault detects it: the faulty source that the
check refuses is then accepted, or refused for another reason.

A check is a statement that only raises under an `if`, a `require`, or a line that the grammar accepts. The traceback of
a refusal shows the check. A check that no planted fault reaches or detects needs a line in unplanted.txt with the
reason. A line whose check a planted fault detects fails too. Each result without a check is computed in a separate
process, which compiles the module without that statement."""
import ast
import concurrent.futures
import importlib.abc
import importlib.util
import os
import re
import resource
import signal
import subprocess
import sys
import tempfile
import traceback

HERE = os.path.dirname(os.path.abspath(__file__))
TOP = os.path.dirname(os.path.dirname(HERE))
UNPLANTED = os.path.join(HERE, "unplanted.txt")
MODULES = (
    "grammar",
    "object_contents",
    "objects",
    "disassembly",
    "sources",
    "unwinding",
    "processor",
    "memory",
    "stream_state",
    "streams",
    "calls",
    "cargo",
    "exports",
    "instructions",
    "any_updates",
    "every_length",
    "xxh3_updates",
    "xxh3_states",
    "aarch64.objects",
    "aarch64.processor",
    "induction",
    "stripes",
    "values",
    "flags",
    "../symbolic_terms/memory",
    "../symbolic_terms/induction",
)
TAKING = {"take": "lines.number += 1", "take_exactly": "lines.number += {count}", "refuse": "pass", "require": "pass"}
THEMSELVES = "require", "refuse", "take", "take_exactly", "has"
FEW = 36  # step of planted faults, without --all
LONGEST = 20  # CPU seconds; a source that doesn't end without a check uses them all


def path_of(module):
    return (
        os.path.normpath(
            os.path.join(HERE, *module.replace(".", "/" if not module.startswith(".") else ".").split("/"))
        )
        + ".py"
    )


def name_of(module):
    return (
        "oracle.symbolic_terms." + module.split("/")[-1] if module.startswith(".") else "oracle.machine_code." + module
    )


# ---- the checks


def checks_of(module):
    """Maps a key to the lines (first, last) of each check of a module. A key has the module, function and statement."""
    with open(path_of(module), encoding="utf-8") as file:
        source = file.read()
    out = {}
    for function, node in statements(ast.parse(source)):
        if is_check(node):
            code = " ".join(ast.unparse(node).split())
            key = f"{name_of(module)} {function}: {code}"
            while key in out:
                key += " again"
            out[key] = node.lineno, node.end_lineno
    return out


def statements(tree, function=""):
    """Yields (function, statement) of each statement, in order."""
    for node in ast.iter_child_nodes(tree):
        name = node.name if isinstance(node, ast.FunctionDef) else function
        if isinstance(node, ast.stmt) and function not in THEMSELVES:
            yield function, node
        yield from statements(node, name)


def is_check(node):
    if isinstance(node, ast.If):
        return len(node.body) == 1 and isinstance(node.body[0], ast.Raise) and not node.orelse
    return isinstance(node, ast.Expr) and isinstance(node.value, ast.Call) and called(node.value) in TAKING


def called(call):
    """Returns the name of a called function, or of a called method of `lines`."""
    of_lines = isinstance(call.func, ast.Attribute) and getattr(call.func.value, "id", None) == "lines"
    return call.func.attr if of_lines else getattr(call.func, "id", None)


def without(tree, line):
    """Returns the module's tree without the check at a line."""

    class Off(ast.NodeTransformer):
        def generic_visit(self, node):
            super().generic_visit(node)
            if isinstance(node, ast.stmt) and node.lineno == line and is_check(node):
                call = node.value if isinstance(node, ast.Expr) and isinstance(node.value, ast.Call) else None
                text = TAKING[called(call)].format(count=len(call.args)) if call else "pass"
                return ast.copy_location(ast.parse(text).body[0], node)
            return node

    return ast.fix_missing_locations(Off().visit(tree))


class Loader(importlib.abc.MetaPathFinder, importlib.abc.SourceLoader):
    """Loads one module without the check at a line."""

    def __init__(self, module, line):
        self.module, self.line = module, line

    def find_spec(self, name, path, target=None):
        return (
            importlib.util.spec_from_loader(name, self, origin=path_of(self.module))
            if name == name_of(self.module)
            else None
        )

    def get_filename(self, name):
        return path_of(self.module)

    def get_data(self, path):
        with open(path, "rb") as file:
            return file.read()

    def source_to_code(self, data, path, *, _optimization=-1):
        return compile(without(ast.parse(data), self.line), path, "exec")


# ---- planted faults


def every_text() -> list:
    """Returns all planted faults, in a fixed order."""
    from oracle.machine_code import (
        cargo_planted,
        planted,
        planted_checks,
        planted_lines,
        planted_objects,
        planted_values,
        tasks,
    )

    assert tasks
    return [
        *planted_lines.X86_ASKED,
        *planted_lines.ARM_ASKED,
        *planted_lines.X86_ALIKE,
        *planted_objects.X86_ASKED,
        *planted_objects.ARM_ASKED,
        *planted.ASKED,
        *cargo_planted.ASKED,
        *planted_checks.X86_ASKED,
        *planted_checks.ARM_ASKED,
        *planted_values.ASKED,
    ]


def refusal(one):
    """Returns the refusal of a planted fault, or None."""
    from oracle.symbolic_terms.refusals import REFUSALS

    try:
        one.ask()
    except REFUSALS as error:
        return error
    return None


def place_of(error, known):
    """Returns the innermost of the known checks in a refusal's traceback, or None."""
    for frame in reversed(traceback.extract_tb((error.__cause__ or error).__traceback__)):
        file = os.path.normpath(frame.filename)
        for key, (path, first, last) in known.items():
            if path == file and first <= frame.lineno <= last:
                return key
    return None


def output_without(cache, module, line, number):
    """Tests a planted fault in a separate process with the check at a line disabled. Returns its output. The processes
    share the other modules' compiled code, in the folder `cache`."""
    command = [sys.executable, TOP, __name__, "", module, str(line), str(number)]
    known = {**os.environ, "PYTHONPYCACHEPREFIX": cache, "PYTHONDONTWRITEBYTECODE": ""}
    done = subprocess.run(command, capture_output=True, text=True, env=known)
    return "no end" if done.returncode == -signal.SIGXCPU else done.stdout


def main():
    module, line, number = sys.argv[1:]
    resource.setrlimit(resource.RLIMIT_CPU, (LONGEST, LONGEST + 1))
    sys.meta_path.insert(0, Loader(module, int(line)))
    print(refusal(every_text()[int(number)]), end="")
    return 0


def plain(text):
    """Returns a refusal without temporary names of folders and symbols."""
    return re.sub(r"machine-text-\w+|#\d+", "", text)


# ---- the task


def unplanted():
    """Maps each check of unplanted.txt to the reason why no planted fault detects it."""
    with open(UNPLANTED, encoding="utf-8") as file:
        return dict(line.rstrip("\n").split(" | ") for line in file if line.strip() and not line.startswith("#"))


def report(is_all: bool, jobs: int = 1) -> tuple[int, list[str]]:
    """Returns the number of tested checks, and the messages on the undetected ones. Without `is_all` tests a few."""
    where = {module: checks_of(module) for module in MODULES}
    known = {key: (path_of(module), *lines) for module, found in where.items() for key, lines in found.items()}
    refused, listed, bad = {}, unplanted(), []
    for number, one in list(enumerate(every_text()))[:: 1 if is_all else FEW]:
        error = refusal(one)
        if error and (key := place_of(error, known)):
            refused.setdefault(key, (number, str(error)))
    if is_all:
        bad += [f"no wrong text is refused by {key}" for key in known if key not in refused and key not in listed]
        bad += [f"{key} has a reason, and isn't there" for key in listed if key not in known]
    asked = [
        (module, found[key][0], *refused[key], key)
        for module, found in where.items()
        for key in found
        if key in refused
    ]
    module, _, number, before, _ = asked[0]
    with tempfile.TemporaryDirectory(prefix="machine-text-") as cache, concurrent.futures.ThreadPoolExecutor(
        jobs
    ) as pool:
        if plain(output_without(cache, module, 0, number)) != plain(before):
            bad.append("with no check switched off the refusal is another")
        for (*_, before, key), output in zip(asked, pool.map(lambda one: output_without(cache, *one[:3]), asked)):
            is_noticed = plain(output) != plain(before)
            bad += [f"{key}: switched off, and not noticed"] if not is_noticed and key not in listed else []
            bad += [f"{key}: it is noticed, and has a reason"] if is_noticed and key in listed else []
    return len(asked), bad
