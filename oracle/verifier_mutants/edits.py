"""Derives mutants of a module of the verifier from its syntax tree.

A mutant changes one node: a comparison is decided or moved by one, a condition loses a part, an operation returns one
of its operands, a number is one more, a call returns its argument or gets two of them swapped, a statement is dropped,
a loop leaves out its last turn. Each comparison and each condition has all its mutants, each other line one. Names,
messages and imports have none."""
import ast
import collections
import hashlib

# A mutant: the module's path below the repository, the line, its function, how the node was and is written, the numbers
# of the node and of the change, whether the node decides something, and the check whose condition it drops.
Mutant = collections.namedtuple("Mutant", "path line function before after node number decides check")
NEXT = {ast.Lt: ast.LtE, ast.LtE: ast.Lt, ast.Gt: ast.GtE, ast.GtE: ast.Gt}
NAMES = ast.JoinedStr, ast.Import, ast.ImportFrom, ast.arguments
UNNAMED = ("__repr__",)
TYPES = "annotation", "returns"  # fields of types, which change no value
# Functions whose result doesn't depend on the order of two arguments: they aren't swapped.
COMMUTE = {
    "plus",
    "times",
    "add",
    "multiply",
    "xor",
    "either",
    "both",
    "is_same",
    "is_same_number",
    "same",
    "agree",
    "max",
    "min",
}


def parsed(path):
    with open(path, encoding="utf-8") as file:
        return ast.parse(file.read())


def with_places(tree):
    """Yields (node, parent, field, index, function) of each node that can have mutants, in order."""

    def inside(parent, function):
        for field, value in ast.iter_fields(parent):
            for index, node in enumerate(value if isinstance(value, list) else [value]):
                if not isinstance(node, ast.AST) or isinstance(node, NAMES) or field in TYPES:
                    continue
                name = (
                    ".".join(filter(None, (function, node.name)))
                    if isinstance(node, (ast.FunctionDef, ast.ClassDef))
                    else function
                )
                if name.endswith(UNNAMED):
                    continue
                yield node, parent, field, index, name
                if not isinstance(node, ast.Raise):
                    yield from inside(node, name)

    return inside(tree, "")


def decides(node, parent, field):
    """True if a node's value decides between two ways."""
    is_test = field == "test" and isinstance(parent, (ast.If, ast.IfExp, ast.While)) or field == "ifs"
    return (
        isinstance(node, (ast.Compare, ast.BoolOp))
        or isinstance(node, ast.UnaryOp)
        and isinstance(node.op, ast.Not)
        or is_test
    )


def changes(node, parent, field):
    """Yields the nodes that replace a node in its mutants."""
    if isinstance(node, ast.stmt):
        yield from changed_statement(node)
    elif decides(node, parent, field):
        yield from changed_decision(node)
    elif isinstance(node, ast.BinOp):
        yield from (node.left, node.right) if not isinstance(node.left, ast.Constant) or not isinstance(
            node.left.value, str
        ) else ()
    elif isinstance(node, ast.UnaryOp):
        yield node.operand
    elif isinstance(node, ast.Constant):
        if isinstance(node.value, bool):
            yield ast.Constant(not node.value)
        elif isinstance(node.value, int):
            yield ast.Constant(node.value + 1)
    elif isinstance(node, ast.IfExp):
        yield from (node.body, node.orelse)
    elif isinstance(node, ast.Call):
        yield from changed_call(node, parent)


def changed_statement(node):
    targets = node.targets if isinstance(node, ast.Assign) else [node.target] if isinstance(node, ast.AnnAssign) else []
    is_assigned = isinstance(node, ast.AugAssign) or not all(isinstance(x, (ast.Name, ast.Tuple)) for x in targets)
    is_called = isinstance(node, ast.Expr) and isinstance(node.value, (ast.Call, ast.Yield, ast.YieldFrom))
    if is_assigned or is_called or isinstance(node, (ast.Raise, ast.Delete)):
        yield ast.Pass()
    elif isinstance(node, (ast.Break, ast.Continue)):
        yield ast.Continue() if isinstance(node, ast.Break) else ast.Break()
    elif isinstance(node, ast.For):
        few = ast.Subscript(
            ast.Call(ast.Name("list", ast.Load()), [node.iter], []),
            ast.Slice(None, ast.UnaryOp(ast.USub(), ast.Constant(1))),
            ast.Load(),
        )
        yield ast.For(node.target, few, node.body, node.orelse)


def changed_decision(node):
    yield from (ast.Constant(True), ast.Constant(False))
    if isinstance(node, ast.Compare) and len(node.ops) == 1 and type(node.ops[0]) in NEXT:
        yield ast.Compare(node.left, [NEXT[type(node.ops[0])]()], node.comparators)
    elif isinstance(node, ast.Compare) and len(node.ops) > 1:
        parts = [node.left, *node.comparators]
        for k, op in enumerate(node.ops):
            if type(op) in NEXT:
                yield ast.Compare(node.left, [*node.ops[:k], NEXT[type(op)](), *node.ops[k + 1 :]], node.comparators)
            yield ast.Compare(parts[k], [op], [parts[k + 1]])
    elif isinstance(node, ast.BoolOp) and len(node.values) > 2:
        for k in range(len(node.values)):
            yield ast.BoolOp(node.op, [*node.values[:k], *node.values[k + 1 :]])
    elif isinstance(node, ast.BoolOp):
        yield from node.values


def changed_call(node, parent):
    is_plain = not any(isinstance(x, ast.Starred) for x in node.args)
    if is_plain and node.args and not isinstance(parent, ast.Expr):
        yield node.args[0]
    name = getattr(node.func, "attr", getattr(node.func, "id", ""))
    is_ordered = name not in COMMUTE or len(node.args) > 2 and name != "plus"
    if is_plain and len(node.args) > 1 and is_ordered:
        yield ast.Call(node.func, [node.args[1], node.args[0], *node.args[2:]], node.keywords)


def is_text(node):
    """True if a statement is only a documentation string, or belongs to a command's start."""
    return isinstance(node, ast.Expr) and isinstance(node.value, ast.Constant)


def mutants_of(path: str, short: str, seed: int) -> list[Mutant]:
    """Returns the mutants of a module: all of its decisions, and one of each other line."""
    out, lines = [], collections.defaultdict(list)
    for number, (node, parent, field, _, function) in enumerate(with_places(parsed(path))):
        if not hasattr(node, "lineno") or is_text(node):
            continue
        for k, changed in enumerate(changes(node, parent, field)):
            is_check = (
                isinstance(parent, ast.If) and field == "test" and isinstance(parent.body[0], ast.Raise) and k == 1
            )
            one = Mutant(
                short,
                node.lineno,
                function,
                written(node),
                written(changed),
                number,
                k,
                decides(node, parent, field),
                " ".join(ast.unparse(parent).split()) if is_check else "",
            )
            if one.before != one.after:
                (out if one.decides else lines[node.lineno]).append(one)
    out += [min(some, key=lambda one: hash_of(seed, one)) for some in lines.values()]
    return sorted(out, key=lambda one: (one.line, one.node, one.number))


def hash_of(seed, one):
    return hashlib.sha256(f"{seed} {one.path} {one.function} {one.before} {one.after}".encode()).hexdigest()


def part_of(seed: int, one: Mutant, parts: int) -> int:
    """Returns to which of so many parts a mutant belongs. Other lines of its file don't change that."""
    return int(hash_of(seed, one), 16) % parts


def written(node):
    ast.fix_missing_locations(node)
    text = " ".join(ast.unparse(node).split())
    return text if len(text) <= 70 else text[:67] + ".."


def applied(one: Mutant, top: str) -> ast.Module:
    """Returns the tree of the module with this mutant."""
    tree = parsed(f"{top}/{one.path}")
    found = next(x for number, x in enumerate(with_places(tree)) if number == one.node)
    node, parent, field, index, _ = found
    new = next(x for k, x in enumerate(changes(node, parent, field)) if k == one.number)
    new = ast.copy_location(new, node)
    old = getattr(parent, field)
    if isinstance(old, list):
        old[index] = new
    else:
        setattr(parent, field, new)
    return ast.fix_missing_locations(tree)


def title_of(one: Mutant) -> str:
    return f"{one.path} {one.function or 'module'}: {one.before} -> {one.after}"
