"""Makes one-token changes of the definitions, and tests if a test case detects them."""
import os
import sys

from oracle import antt
from oracle import table
from oracle.reasons import Reasons

OTHERS = {word: [other for other in "+ - * / %".split() if other != word] for word in "+ - * / %".split()}
OTHERS["^"] = ["*"]
LIBRARY_PAIRS = {
    "w32": "w64",
    "take": "drop",
    "from_le_bytes": "to_le_bytes",
    "rotate_left": "swap_bytes",
    "min": "max",
}
LIBRARY_PAIRS.update({other: word for word, other in list(LIBRARY_PAIRS.items())})


class Change:
    """Another word at one place of a definition's clause. Holds the definition's name only, so that it can be sent to
    other processes."""

    def __init__(self, definition, clause, place, word):
        names = [w for w, _ in definition.clauses[clause][1]]
        self.path, self.name, self.clause, self.place, self.word = (
            definition.module.path,
            definition.name,
            clause,
            place,
            word,
        )
        marked = names[:place] + [f"[{names[place]} -> {word}]"] + names[place + 1 :]
        line = definition.module.text.count("\n", 0, definition.clauses[clause][1][place][1]) + 1
        file = definition.module.path.replace("Rattle.", "").replace(".", "/") + ".antt"
        near = " ".join(marked[max(0, place - 8) : place + 9])
        self.text = f"{file}:{line} {definition.name}: {near}"


def types_of(definition):
    """Returns the types of a definition's arguments, as written."""
    parts, depth, part = [], 0, []
    for word in definition.type_tokens:
        depth += (word == "(") - (word == ")")
        if word == "→" and depth == 0:
            parts.append(" ".join(part))
            part = []
        else:
            part.append(word)
    return parts


def meaning_of(program, module, name):
    """Returns the meaning of a name in a module, or None if it has none."""
    try:
        return program.definitions.resolve(module, name)
    except antt.Unreadable:
        return None


def reachable(program):
    """Maps each definition to everything that it reaches."""
    direct = {}
    for definition in program.order:
        names = {word for _, right in definition.clauses for word, _ in right}
        meanings = {meaning_of(program, definition.module, word) for word in names}
        direct[definition] = {meaning for meaning in meanings if isinstance(meaning, antt.Definition)}
    reached = {}
    for definition in program.order:
        seen, todo = set(), [definition]
        while todo:
            for other in direct.get(todo.pop(), ()):
                if other not in seen:
                    seen.add(other)
                    todo.append(other)
        reached[definition] = seen
    return reached


def in_scope(program, definition):
    """Returns the definitions that the definition's file contains or imports, by name."""
    module = definition.module
    found = {name: d for name, d in module.definitions.items() if d.clauses}
    for name in module.names:
        meaning = meaning_of(program, module, name)
        if isinstance(meaning, antt.Definition):
            found[name] = meaning
    return found


def changes_of(program, reached, definition):
    scope, types, out = in_scope(program, definition), types_of(definition), []
    for number, (_, right) in enumerate(definition.clauses):
        local = {}
        for k, pattern in enumerate(definition.patterns(number)):
            if pattern[0] in ("name", "suc"):
                local[pattern[1]] = types[k] if k < len(types) else "ℕ"
        names = [word for word, _ in right]
        for place, word in enumerate(names):
            if place and names[place - 1] in ("let", "λ"):
                local[word] = "ℕ"
        for place, word in enumerate(names):
            bound = place and names[place - 1] in ("let", "λ")
            for other in [] if bound else others(program, reached, definition, scope, local, word):
                out.append(Change(definition, number, place, other))
    return out


def others(program, reached, definition, scope, local, word):
    """Returns the words that may replace a word: for a number the next and the previous one, for an operator other
    operators, for a name names of the same type."""
    if word in OTHERS:
        return OTHERS[word]
    if word[0].isdigit():
        value = int(word, 0)
        return [str(value + d) for d in (1, -1) if value + d >= 0]
    if word in local:
        return [name for name, local_type in local.items() if name != word and local_type == local[word]]
    meaning = meaning_of(program, definition.module, word)
    if meaning is None:
        return []
    if isinstance(meaning, antt.Definition):
        return [
            name
            for name, d in scope.items()
            if d is not meaning
            and d.type_tokens == meaning.type_tokens
            and d is not definition
            and definition not in reached.get(d, ())
        ]
    if meaning[0] == "constructor":
        return [name for name, data in definition.module.constructors.items() if data == meaning[1] and name != word]
    other = LIBRARY_PAIRS.get(meaning[1])
    return [other] if other in definition.module.names else []


def all_changes(program: antt.Program) -> list["Change"]:
    reached = reachable(program)
    return [change for definition in program.order for change in changes_of(program, reached, definition)]


def cases_by_definition(program: antt.Program, cases: list) -> dict[antt.Definition, list]:
    """Maps each definition to the test cases that reach it, the shortest first."""
    table = {}
    for case in sorted(cases, key=lambda case: case.length):
        traced = set()
        case.agrees(program.run(traced=traced))
        for definition in traced:
            table.setdefault(definition, []).append(case)
    return table


def reasons() -> Reasons:
    """Returns the reasons of changes that change no value."""
    return Reasons(os.path.join(table.FOLDER, "equivalent_mutants.txt"))


def outcome(program: antt.Program, cases: dict[antt.Definition, list], change: "Change") -> str:
    """Returns `"noticed"`, `"unnoticed"` or `"unreadable"` for a change."""
    definition = program.definitions.modules[change.path].definitions[change.name]
    sides = [[word for word, _ in right] for _, right in definition.clauses]
    sides[change.clause][change.place] = change.word
    known = len(program.order)
    try:
        entries = program.run({definition: sides})
    except antt.Unreadable:
        return "unreadable"
    if len(program.order) != known:  # it reaches a definition not reached before
        entries = program.run({definition: sides})
    sys.setrecursionlimit(8000)
    for case in cases.get(definition, ()):
        try:
            if not case.agrees(entries):
                return "noticed"
        except (
            antt.Unreadable,
            TypeError,
            AttributeError,
            IndexError,
            OverflowError,
            ValueError,
            RecursionError,
            NameError,
            MemoryError,
        ):
            return "noticed"
    return "unnoticed"
