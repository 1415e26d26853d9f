"""Functions of Python that another module calls, and that have an argument or a result without a type."""
import ast
import os
from typing import Iterator

from checks.lib.tools import TOP, text_of

# The record of each mutant's refusal depends on the text of these files.
LEFT_OUT = {f'checks.mutants.{name}' for name in 'copies edits proofs source toolchain trial'.split()}


def module_of(path: str) -> str:
    """The name by which others import a file: from the tree's top, or outside of the tree its own."""
    below = os.path.relpath(path, TOP)
    name = os.path.basename(path) if below.startswith(os.pardir) else below
    return os.path.splitext(name)[0].replace(os.sep, '.').removesuffix('.__init__')


def imported(module: str, tree: ast.Module) -> Iterator[tuple[str, str]]:
    """The names that a module imports, each with its whole name."""
    for node in ast.walk(tree):
        if isinstance(node, ast.Import):
            yield from ((it.asname or it.name, it.name) for it in node.names)
        elif isinstance(node, ast.ImportFrom):
            package = module.split('.')[: -node.level] if node.level else []
            base = '.'.join([*package, *(node.module or '').split('.')]).rstrip('.')
            yield from ((it.asname or it.name, f'{base}.{it.name}') for it in node.names)


def used(module: str, tree: ast.Module) -> Iterator[str]:
    """The whole names of what a module imports, and of the parts of imported modules that it names."""
    names = dict(imported(module, tree))
    yield from names.values()
    for node in ast.walk(tree):
        if isinstance(node, ast.Attribute) and isinstance(node.value, ast.Name) and node.value.id in names:
            yield f'{names[node.value.id]}.{node.attr}'


def lacks_types(node: ast.FunctionDef) -> bool:
    of = node.args
    every = [*of.posonlyargs, *of.args, *of.kwonlyargs, *filter(None, (of.vararg, of.kwarg))]
    return node.returns is None or any(it.annotation is None for it in every)


def functions_without_types(*paths: str) -> Iterator[str]:
    trees = {module_of(path): (path, ast.parse(text_of(path))) for path in paths}
    called = {name for module, (_, tree) in trees.items() for name in used(module, tree)}
    for module in trees.keys() - LEFT_OUT:
        path, tree = trees[module]
        for node in tree.body:
            if isinstance(node, ast.FunctionDef) and f'{module}.{node.name}' in called and lacks_types(node):
                yield f'{path}:{node.lineno}: {node.name} is called by another module and lacks types'
