"""Reads the definitions of the hashes in the crates' specs/ and evaluates them. Supports only the part of the language
that they use. A definition, found by its name and its file's imports, becomes a Python function of its operations."""
import functools
import glob
import os
import re
import sys
from typing import Any, Callable

# Names that the definitions import from the library, with the library's semantics.


def from_le_bytes(bits, xs):
    return sum((xs[i] if i < len(xs) else 0) << 8 * i for i in range(bits // 8))


def to_le_bytes(bits, n):
    return tuple(n >> 8 * i & 255 for i in range(bits // 8))


def rotate_left(bits, n, k):
    k %= bits
    return (n << k) % 2 ** bits | n >> bits - k


def power(a, b):
    if b > 4096:
        raise Unreadable(f"a power of {b}")
    return a ** b


LIBRARY = {
    "w32": 32, "w64": 64, "w128": 128,
    "bits": (1, lambda w: w),
    "byte_len": (1, lambda w: w // 8),
    "take": (2, lambda n, xs: xs[:n]),
    "drop": (2, lambda n, xs: xs[n:]),
    "length": (1, len),
    "slice_index": (2, lambda xs, i: xs[i] if i < len(xs) else 0),
    "bit_xor": (2, lambda a, b: a ^ b),
    "min": (2, min),
    "max": (2, max),
    "nat_lt": (2, lambda a, b: a < b),
    "nat_eq": (2, lambda a, b: a == b),
    "from_le_bytes": (2, from_le_bytes),
    "to_le_bytes": (2, to_le_bytes),
    "to_be_bytes": (2, lambda w, n: to_le_bytes(w, n)[::-1]),
    "rotate_left": (3, rotate_left),
    "swap_bytes": (2, lambda w, n: from_le_bytes(w, to_le_bytes(w, n)[::-1])),
}
OPERATORS = {
    "+": lambda a, b: a + b,
    "-": lambda a, b: a - b if a > b else 0,
    "*": lambda a, b: a * b,
    "/": lambda a, b: a // b if b else 0,
    "%": lambda a, b: a % b if b else a,
    "^": power,
    "==": lambda a, b: a == b,
    "∷": lambda a, b: (a,) + tuple(b),
    "++": lambda a, b: tuple(a) + tuple(b),
}
# From the lowest precedence to the highest; those with True are right-associative.
LEVELS = [(("==",), False), (("∷", "++"), True), (("+", "-"), False), (("*", "/", "%"), False), (("^",), True)]
ENDS = {")", "then", "else", "in", "=", None} | set(OPERATORS)


class Unreadable(Exception):
    """Raised for text outside the supported part of the language."""


def tokens(text: str) -> list[tuple[str, int]]:
    """Returns the tokens of a text with their positions. As in the language, a name ends at a space or bracket."""
    out = []
    for m in re.finditer(r"--[^\n]*|[()]|λ|[^\s()λ]+", text):
        word, at = m.group(0), m.start()
        if word.startswith("--"):
            continue
        if word.endswith(".") and len(word) > 1:
            out += [(word[:-1], at), (".", at + len(word) - 1)]
        else:
            out.append((word, at))
    return out


class Reader:
    """Parses an expression to a tree of tuples. Leaves and operators have the token's index."""

    def __init__(self, token_list):
        self.tokens, self.at = token_list, 0

    def peek(self):
        return self.tokens[self.at] if self.at < len(self.tokens) else None

    def next(self):
        self.at += 1
        if self.at > len(self.tokens):
            raise Unreadable("the text ends early")
        return self.tokens[self.at - 1]

    def expect(self, word):
        if self.next() != word:
            raise Unreadable(f"no {word} at {' '.join(self.tokens[max(0, self.at - 4):self.at + 3])}")

    def expression(self):
        word = self.peek()
        if word == "let":
            self.next()
            name = self.next()
            if self.peek() == ":":
                while self.peek() != "=":
                    self.next()
            self.expect("=")
            value = self.expression()
            self.expect("in")
            return "let", name, value, self.expression()
        if word == "λ":
            self.next()
            names = []
            while self.peek() != ".":
                names.append(self.next())
            self.next()
            return "lambda", names, self.expression()
        if word == "if":
            self.next()
            parts = [self.expression()]
            for between in ("then", "else"):
                self.expect(between)
                parts.append(self.expression())
            return ("if", *parts)
        return self.level(0)

    def level(self, n):
        if n == len(LEVELS):
            return self.application()
        operators, to_the_right = LEVELS[n]
        left = self.level(n + 1)
        while self.peek() in operators:
            at, word = self.at, self.next()
            if self.peek() in ("let", "λ", "if"):
                right = self.expression()
            else:
                right = self.level(n if to_the_right else n + 1)
            left = "operator", word, left, right, at
        return left

    def application(self):
        function, arguments = self.atom(), []
        while self.peek() not in ENDS:
            arguments.append(self.atom())
        return ("apply", function, arguments) if arguments else function

    def atom(self):
        at, word = self.at, self.next()
        if word == "(":
            inner = self.expression()
            self.expect(")")
            return inner
        if word == "[]":
            return ("nil",)
        if re.fullmatch(r"0x[0-9a-fA-F]+|[0-9]+", word):
            return "number", int(word, 0), at
        if word in ENDS or word in ("let", "λ", "if", ".", "?", "_", "→", ":"):
            raise Unreadable(f"{word} at {' '.join(self.tokens[max(0, self.at - 4):self.at + 3])}")
        return "name", word, at


class Definition:
    """A definition of a file: its type as written, whether it must be unfolded by name, and its clauses, each as tokens
    of the patterns and of the right-hand side."""

    def __init__(self, module, name, type_tokens, is_unfoldable):
        self.module, self.name, self.type_tokens, self.is_unfoldable = module, name, type_tokens, is_unfoldable
        self.clauses = []

    def __repr__(self):
        return f"{self.module.path}.{self.name}"

    def arity(self):
        return len(self.patterns(0))

    def patterns(self, number):
        """Returns the patterns of a clause: ("name", n), ("zero",), ("suc", n) or ("constructor", n)."""
        token_list, at = [word for word, _ in self.clauses[number][0]], 0
        out: list[tuple[str, ...]] = []
        while at < len(token_list):
            if token_list[at] == "(":
                if token_list[at + 1] != "suc" or token_list[at + 3] != ")":
                    raise Unreadable(f"the pattern of {self}")
                out.append(("suc", token_list[at + 2]))
                at += 4
                continue
            word = token_list[at]
            out.append(("zero",) if word == "zero" else ("constructor", word) if word[0].isupper() else ("name", word))
            at += 1
        return out


class Module:
    """A file of specs/: its definitions, its constructors, and the origins of its imported names."""

    def __init__(self, path, file):
        self.path, self.file = path, file
        self.definitions, self.constructors, self.names, self.modules = {}, {}, {}, {}
        self.text = open(file, encoding="utf-8").read()
        starts = [m.start() for m in re.finditer(r"^(?=[^\s-])", self.text, re.M)] + [len(self.text)]
        for start, end in zip(starts, starts[1:]):
            self.block([(word, at + start) for word, at in tokens(self.text[start:end])])

    def block(self, token_list):
        first, second = token_list[0][0], token_list[1][0] if len(token_list) > 1 else ""
        if "use" in (first, second):
            self.imports(" ".join(word for word, _ in token_list).split("use ", 1)[1])
        elif "mod" in (first, second):
            pass
        elif "data" in (first, second):
            names = [word for word, _ in token_list]
            data = names[names.index("data") + 1]
            for before, colon in zip(names[names.index("where"):], names[names.index("where") + 1:]):
                if colon == ":":
                    self.constructors[before] = data
        elif first in ("abbrev", "unfoldable", "record", "pub") or second == ":":
            names = [word for word, _ in token_list if word not in ("abbrev", "unfoldable", "pub", "record")]
            self.definitions[names[0]] = Definition(self, names[0], names[2:], first == "unfoldable")
        elif first in self.definitions:
            for k, (word, _) in enumerate(token_list):
                if word == "=":
                    self.definitions[first].clauses.append((token_list[1:k], token_list[k + 1:]))
                    break

    def imports(self, text):
        m = re.match(r"([\w.]+?)(?:\.\s*\{(.*)\}\s*|\s+as\s+(\w+)\s*)?$", text, re.S)
        if not m:
            raise Unreadable(f"the import {text} of {self.file}")
        path, names, other = m.groups()
        if names is None:
            self.modules[other or path.split(".")[-1]] = path
        for name in (names or "").split(","):
            parts = name.split()
            if parts:
                self.names[parts[-1]] = path, parts[0]


class Definitions:
    """The modules of specs/ in some crates."""

    def __init__(self, top, crates):
        self.modules = {}
        for crate in crates:
            for file in sorted(glob.glob(os.path.join(top, "crates", crate, "specs", "*.antt"))):
                path = f"Rattle.{crate}.specs.{os.path.basename(file)[:-5]}"
                if not path.endswith(".Lib"):
                    self.modules[path] = Module(path, file)

    def entry(self, name):
        """Returns the only definition with that name."""
        found = [m.definitions[name] for m in self.modules.values()
                 if name in m.definitions and m.definitions[name].clauses]
        if len(found) != 1:
            raise Unreadable(f"{len(found)} definitions of {name}")
        return found[0]

    def resolve(self, module, name):
        """Returns the meaning of a name in a module: a definition, ("library", name) or ("constructor", data, name)."""
        if name in module.definitions:
            return module.definitions[name]
        if name in module.constructors:
            return "constructor", module.constructors[name], name
        if "." in name:
            head, last = name.rsplit(".", 1)
            return self.member(module.modules.get(head), last, module)
        if name in module.names:
            path, original = module.names[name]
            return self.member(path, original, module)
        raise Unreadable(f"{name} in {module.file} is not imported")

    def member(self, path, name, module):
        if path in self.modules:
            return self.resolve(self.modules[path], name)
        if path and path.rsplit(".", 1)[0] in self.modules:
            return self.resolve(self.modules[path.rsplit(".", 1)[0]], name)
        if name in LIBRARY:
            return "library", name
        raise Unreadable(f"{name} of {path}, which {module.file} imports, is not known here")


class Function:
    """A partially applied function."""

    __slots__ = "arity", "body", "given"

    def __init__(self, arity, body, given=()):
        self.arity, self.body, self.given = arity, body, given


def call(function: Function, *arguments: Any) -> Any:
    arguments = function.given + arguments
    if len(arguments) < function.arity:
        return Function(function.arity, function.body, arguments)
    result = function.body(*arguments[:function.arity])
    return call(result, *arguments[function.arity:]) if len(arguments) > function.arity else result


class Program:
    """The entries and everything that they reach, compiled to Python functions. `run` can replace right-hand sides."""

    def __init__(self, definitions, entries):
        self.definitions, self.ids, self.order, self.code, self.cached = definitions, {}, [], {}, {}
        self.entries = {name: definitions.entry(name) for name in entries}
        for definition in self.entries.values():
            self.reach(definition)

    def reach(self, definition):
        if definition in self.ids:
            return self.ids[definition]
        self.ids[definition] = f"f{len(self.ids)}"
        self.order.append(definition)
        sides = [[word for word, _ in right] for _, right in definition.clauses]
        self.code[definition] = self.python(definition, sides)
        return self.ids[definition]

    def python(self, definition, sides):
        """Returns the Python code of a definition, with these right-hand sides of the clauses."""
        name, arity = self.ids[definition], definition.arity()
        lines = [f"def {name}({', '.join(f'a{k}' for k in range(arity))}):"]
        for number, side in enumerate(sides):
            tests, sets, local = [], [], {}
            for k, pattern in enumerate(definition.patterns(number)):
                if pattern[0] == "zero":
                    tests.append(f"a{k} == 0")
                elif pattern[0] == "constructor":
                    tests.append(f"a{k} == {pattern[1]!r}")
                elif pattern[0] == "suc":
                    tests.append(f"a{k} > 0")
                    local[pattern[1]] = f"p{k}"
                    sets.append(f"p{k} = a{k} - 1")
                else:
                    local[pattern[1]] = f"a{k}"
            reader = Reader(side)
            tree = reader.expression()
            if reader.at != len(side):
                raise Unreadable(f"{side[reader.at]} in {definition}")
            lines += [f"  if {' and '.join(tests) or 'True'}:"] + [f"    {s}" for s in sets]
            lines.append(f"    return {self.text(tree, definition.module, local)}")
        return "\n".join(lines)

    def text(self, tree, module, local):
        form = tree[0]
        if form == "number":
            return str(tree[1])
        if form == "nil":
            return "()"
        if form == "name":
            return self.value(tree[1], module, local)
        if form == "let":
            inner = f"v{len(local)}"
            return (f"(lambda {inner}: {self.text(tree[3], module, {**local, tree[1]: inner})})"
                    f"({self.text(tree[2], module, local)})")
        if form == "lambda":
            names = [f"v{len(local) + k}" for k in range(len(tree[1]))]
            body = self.text(tree[2], module, {**local, **dict(zip(tree[1], names))})
            return f"Function({len(names)}, lambda {', '.join(names)}: {body})"
        if form == "if":
            test, yes, no = (self.text(part, module, local) for part in tree[1:])
            return f"({yes} if {test} else {no})"
        if form == "operator":
            left, right = self.text(tree[2], module, local), self.text(tree[3], module, local)
            if tree[1] in "+*":
                return f"({left} {tree[1]} {right})"
            return f"OPERATORS[{tree[1]!r}]({left}, {right})"
        function, arguments = tree[1], [self.text(part, module, local) for part in tree[2]]
        if function[0] == "name" and function[1] not in local:
            meaning = self.definitions.resolve(module, function[1])
            if isinstance(meaning, Definition) and meaning.arity() == len(arguments):
                return f"{self.reach(meaning)}({', '.join(arguments)})"
            if isinstance(meaning, tuple) and meaning[0] == "library" and LIBRARY[meaning[1]][0] == len(arguments):
                return f"LIBRARY[{meaning[1]!r}][1]({', '.join(arguments)})"
        return f"call({self.text(function, module, local)}, {', '.join(arguments)})"

    def value(self, name, module, local):
        if name in local:
            return local[name]
        if name == "zero":
            return "0"
        meaning = self.definitions.resolve(module, name)
        if isinstance(meaning, Definition):
            return f"{self.reach(meaning)}()" if meaning.arity() == 0 else \
                f"Function({meaning.arity()}, {self.reach(meaning)})"
        if meaning[0] == "constructor":
            return repr(meaning[2])
        known = LIBRARY[meaning[1]]
        return f"Function({known[0]}, LIBRARY[{meaning[1]!r}][1])" if isinstance(known, tuple) else str(known)

    def run(self, changed=None, traced=None):
        """Returns the entries as functions. `changed` maps definitions to other right-hand sides; `traced` collects the
        definitions that calls reach."""
        space: dict[str, Any] = {"OPERATORS": OPERATORS, "LIBRARY": LIBRARY, "Function": Function, "call": call}
        for definition in self.order:
            exec(self.compiled(definition, changed or {}), space)
        for definition in self.order:
            name = self.ids[definition]
            if definition.arity() == 0:
                space[name] = functools.cache(space[name])      # a constant
            if traced is not None:
                space[name] = noted(space[name], definition, traced)
        return {name: space[self.ids[definition]] for name, definition in self.entries.items()}

    def compiled(self, definition, changed):
        if definition in changed:
            return compile(self.python(definition, changed[definition]), str(definition), "exec")
        if definition not in self.cached:
            self.cached[definition] = compile(self.code[definition], str(definition), "exec")
        return self.cached[definition]


def noted(function: Callable, definition: Definition, traced: Any) -> Callable:
    def with_note(*arguments):
        traced.add(definition)
        return function(*arguments)
    return with_note


def with_deep_recursion(function: Callable, *arguments: Any) -> Any:
    """Runs a function in a thread with a large stack, for recursion over 100,000 bytes."""
    import threading
    result = []
    sys.setrecursionlimit(10 ** 6)
    threading.stack_size(1 << 29)
    thread = threading.Thread(target=lambda: result.append(function(*arguments)))
    thread.start()
    thread.join()
    if not result:
        sys.exit(1)
    return result[0]
