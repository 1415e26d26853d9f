"""Derives from a source's exports which functions tasks must detect: each export's body, and each function that is
reached from an export, is replaced by an instruction that ends a run with a refusal. Some task that shows one of these
exports must fail then.

The tasks are those that the check runs. A task ends at its first failure here. Comparisons of code count only for what
they show: a second name, and x86-64-v4's exports with the code of x86-64-v3."""
import collections
import contextlib
import unittest.mock
from typing import Callable

from oracle.symbolic_terms import REFUSALS, WrongRule, comparison
from oracle.symbolic_terms.processes import Task

from . import tasks
from .cargo_exports import BEGIN
from .instructions import V2, V3, V4
from .object_contents import Loaded
from .objects import Instruction
from .one_shots import NAMES, WAYS

SETS, CARGO = (V2, V3, V4), "cargo's "
LATE = (
    "any updates",
    "every length to",
    "any other length",
    "any length",
    "resets and digests",
    "that take stripes",
)  # titles of tasks that take longer


class Noticed(Exception):
    """Raised at a task's first failure."""


# ---- a source's functions


def reached(program, section):
    """Returns the sections that are reached from a section's code."""
    found, left = set(), [section]
    while left:
        at = left.pop()
        if at not in found:
            found.add(at)
            left += {x.target[0] for x in program.sections[at].values() if x.target and x.target[0] in program.sections}
    return found


def functions(program):
    """Maps each section that exports reach to the exports that reach it."""
    out = collections.defaultdict(set)
    for name, (section, _) in program.exports.items():
        for other in reached(program, section):
            out[other].add(name)
    return out


def never(section):
    """Returns the body that ends a run on x86-64."""
    return {0: Instruction(section, 0, 2, "ud2", (), None)}


@contextlib.contextmanager
def without(program, section, body):
    """Context manager that replaces a function's body, and makes its bytes others."""
    before, head = program.sections[section], program.heads[section]
    program.sections[section], program.heads[section] = body, head._replace(size=1)
    try:
        yield
    finally:
        program.sections[section], program.heads[section] = before, head


# ---- the tasks


class Known:
    """What shows an export of a library, given the name of a source: `titles` maps exports to the beginnings of titles;
    `twins` has the names with another's code; `is_of_v3` is true for exports of x86-64-v4 that are compared with
    x86-64-v3's, by the task `of_v3`."""

    def __init__(self, titles, twins, is_of_v3, of_v3):
        self.titles, self.twins, self.is_of_v3, self.of_v3 = titles, twins, is_of_v3, of_v3

    @staticmethod
    def shared(name):
        """Returns the title of the comparison with another library's functions, which this one's tasks show."""
        return [f"{BEGIN}functions of {name[len(CARGO):]}"] if name.startswith(CARGO) else []

    def beginnings(self, name, names):
        """Returns the beginnings of the titles of the tasks that show some exports of a source."""
        found = {self.titles[one] for one in names if one not in self.twins or {*names} <= {*self.twins}}
        return (*found, *[self.of_v3] * (name.endswith(V4) and any(map(self.is_of_v3, names))), *self.shared(name))


def in_order(asked, name, names, beginnings):
    """Returns the tasks that show some exports of a source: those that take longer last, and first those whose titles
    have most of the exports' hash and way."""

    def key(task):
        return [
            any(late in task.title for late in LATE),
            not task.title.startswith("streams: "),
            -max(len([tag for tag in tags(one) if tag in task.title]) for one in names),
        ]

    others = [f", {text}" for text in SETS if not name.endswith(text)]
    return sorted(
        (
            task
            for task in asked
            if task.title.startswith(beginnings) and not any(text in task.title for text in others)
        ),
        key=key,
    )


def tags(export):
    """Returns what titles have of an export's hash and way."""
    name = export.replace("twox_rust_", "").replace("xxh3_64", "XXH3_64bits").replace("xxh3_128", "XXH3_128bits")
    matches = [(f"XXH{hash_name}", name.split(text, 1)[1]) for hash_name, text in NAMES.items() if text in name]
    return (
        [matches[0][0], *[f", {way}" for way, text in WAYS.items() if text and matches[0][1].endswith(text)][-1:]]
        if matches
        else []
    )


def first_failure() -> contextlib.ExitStack:
    """Returns the context in which a task ends at its first failure."""
    difference = comparison.difference

    def stop(*asked):
        found = difference(*asked)
        if found:
            raise Noticed(found)

    def all_shown(proof, asked):
        for ask in asked:
            if len(tasks.nodes.NODES) > tasks.MOST_NODES:
                proof.forget()
            ask()
        return len(asked), []

    stack = contextlib.ExitStack()
    stack.enter_context(unittest.mock.patch.object(comparison, "difference", stop))
    stack.enter_context(unittest.mock.patch.object(tasks, "count_shown", all_shown))
    return stack


def fails(task: Task) -> bool:
    """True if a task fails. A crash doesn't count: it ends this one."""
    try:
        return bool(task.ask()[1])
    except (Noticed, *REFUSALS, WrongRule):
        return True


def unnoticed(
    name: str, program: Loaded, asked: list[Task], known: Known, body: Callable = never, each: int = 1
) -> tuple[str, list[str]]:
    """Removes each function of a source, or every `each`-th export if that isn't 1. Returns how many exports and others
    it removed, and those that no task detects."""
    exported, bad = {section for section, _ in program.exports.values()}, []
    found = [
        (section, names) for section, names in sorted(functions(program).items()) if each == 1 or section in exported
    ]
    found = found[each // 2 % len(found) :: each]
    with first_failure():
        for section, names in found:
            with without(program, section, body(section)):
                if not any(map(fails, in_order(asked, name, names, known.beginnings(name, names)))):
                    bad.append(f"{name}: no task notices that {section} is removed")
    count = sum(section in exported for section, _ in found)
    return f"{count} exports and {len(found) - count} other functions removed, {len(bad)} unnoticed", bad
