"""Counts the lines of Python on which a passing task of oracle/machine-text depends: all imported files, except those
that can only make it fail, or that install packages.

  oracle/lines-to-trust             the number of lines and of files, as in docs/VERIFICATION.md
  oracle/lines-to-trust --files     each file with its lines
  oracle/lines-to-trust --c-header  the same for oracle/symbolic --headers c/include, and the lines of that header
  oracle/lines-to-trust --c-object  the same for oracle/c-object"""
import ast
import os
import sys

TOP = os.path.dirname(os.path.dirname(os.path.abspath(__file__)))
# The verifier's own tests, and the module that installs packages.
LEFT_OUT = {
    "oracle.machine_code.c_source.beside_processor",
    "oracle.machine_code.c_source.planted",
    "oracle.machine_code.self_tests",
    "oracle.symbolic_terms.header_faults",
    "oracle.symbolic_terms.mutation",
    "oracle.symbolic_terms.self_tests",
    "checks.lib.tools",
}
OF_HEADER = {"--c-header": "symbolic", "--c-object": "c_object"}
HEADER = os.path.join(TOP, "c", "include", "xxhash.h")


def file_of(module):
    """Returns the file of a module of this repository, or None."""
    path = os.path.join(TOP, *module.split("."))
    return next((path + end for end in (".py", "/__init__.py") if os.path.isfile(path + end)), None)


def imported(path):
    """Yields the names of the imported modules, and of the names imported from them, which may be modules too."""
    package = os.path.relpath(os.path.dirname(path), TOP).replace(os.sep, ".").split(".")
    with open(path, encoding="utf-8") as file:
        tree = ast.parse(file.read())
    for node in ast.walk(tree):
        if isinstance(node, ast.Import):
            yield from (name.name for name in node.names)
        elif isinstance(node, ast.ImportFrom):
            above = package[: len(package) - node.level + 1] if node.level else []
            module = ".".join([*above, *([node.module] if node.module else [])])
            yield module
            yield from (f"{module}.{name.name}" for name in node.names)


def trusted(first):
    """Maps each file to its number of lines: that of a command, what starts it, and all that they import."""
    found, waiting = {}, [first, os.path.join(TOP, "__main__.py")]
    while waiting:
        path = waiting.pop()
        if path not in found:
            with open(path, encoding="utf-8") as file:
                found[path] = len(file.readlines())
            waiting += filter(None, map(file_of, {name for name in imported(path) if name not in LEFT_OUT}))
    return found


def of_header(program):
    """Prints the lines for the header: the program's, and those of the header's code after the declarations."""
    found = trusted(os.path.join(TOP, "oracle", f"{program}.py"))
    with open(HEADER, encoding="utf-8") as file:
        _, _, code = file.read().partition("/* ==== Code ====")
    print(
        f"{sum(found.values()):,} lines of Python in {sum(map(bool, found.values()))} files, for "
        f"{len(code.splitlines()):,} lines of C"
    )


def main():
    if sys.argv[1:] in ([option] for option in OF_HEADER):
        return of_header(OF_HEADER[sys.argv[1]])
    found = trusted(os.path.join(TOP, "oracle", "machine_text.py"))
    if sys.argv[1:] == ["--files"]:
        for path, count in sorted(found.items()):
            print(f"{count:5} {os.path.relpath(path, TOP)}")
    elif sys.argv[1:]:
        sys.exit(__doc__)
    files = [path for path, count in found.items() if count]
    print(f"{sum(found.values()):,} lines of Python in {len(files)} files")
