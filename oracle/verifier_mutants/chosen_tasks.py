"""Tests how tasks are put together: the processors that they share, the steps of samples, lengths without a case, and
the titles by which exports find their tasks. Each takes a random generator, which it doesn't use, and raises Wrong."""

import functools
import itertools
import random
import types
import unittest.mock
from typing import Any

from oracle.machine_code import cargo_exports, cargo_tasks, coverage, every_length, exports, tasks
from oracle.machine_code.cargo import CargoProcessor, CargoProgram, OfCargo
from oracle.machine_code.object_contents import Loaded
from oracle.symbolic_terms import variable

from . import choices
from .values import expect

patched = unittest.mock.patch.object
GROUPS = "one_shot_tasks", "secret_tasks", "every_length_tasks", "stream_tasks", "call_tasks"


def shared_processors(_):
    """Tests that all groups of tasks get the processors that `makers` returns, made once, and in this order."""
    texts, built = {"x86-64-v3": "a program"}, {"x86-64-v3": "a processor's maker"}
    for is_all in (False, True):
        asked = []

        def tasks_of(group, *given):
            asked.append((group, *given))
            return [types.SimpleNamespace(title=f"{group} {k}") for k in range(2)]

        def of_exports(*of):
            asked.append(("exports", *of))
            return types.SimpleNamespace(title="exports")

        replaced: Any = {group: functools.partial(tasks_of, group) for group in GROUPS}
        with unittest.mock.patch.multiple(tasks, **replaced, makers=lambda of: built if of is texts else None):
            with patched(tasks, "export_task", of_exports):
                found = run_choose(is_all, texts)
        groups = [(group, *([texts] if group == "call_tasks" else []), built, is_all) for group in GROUPS]
        expect(asked[:-1] == groups, True, f"the processors of tasks, {is_all=}")
        titles = [f"{group} {k}" for group in GROUPS for k in range(2)]
        expect(asked[-1] == ("exports", texts, [*titles, "assemblers"]), True, "the titles of tasks")
        expect([task.title for task in found] == ["exports", *titles, "assemblers"], True, "the order of tasks")


def run_choose(is_all, texts):
    """Returns the tasks of c/asm, of which the one of assemblers is only a title."""
    found: Any
    with patched(tasks, "assembler_task", lambda sources: types.SimpleNamespace(title="assemblers", sources=sources)):
        found = tasks.choose(types.SimpleNamespace(all=is_all), texts)
    expect(found[-1].sources == [(f"{tasks.FOLDER}/{name}.s", "x86-64") for name in texts], True, "assembled sources")
    return found


def steps_of_samples(_):
    """Tests the steps between cases of any secret: 1 with --all, else 5 for the first hash and 7 for the others."""
    names = {"x86-64-v3": "maker 3", "x86-64-v4": "maker 4"}
    counted = lambda title, least, *asked: types.SimpleNamespace(title=title, least=least, asked=asked)
    first: Any
    found: Any
    for is_all in (False, True):
        with patched(tasks, "counted", counted), patched(tasks, "of_every_length", lambda *of: []):
            first, *found = tasks.any_secret_tasks(names, is_all, ["3-64:secret", "3-64:both", "3-128:secret"])
        expect(first.least, 3000 if is_all else 90, "points")
        expect(first.asked == (tasks.secrets_left_out, names, is_all), True, "the task of points")
        algorithms = itertools.product(("3-64:secret", "3-64:both", "3-128:secret"), names.values())
        for task, (algorithm, make) in zip(found, algorithms, strict=True):
            step = 1 if is_all else 5 if algorithm == "3-64:secret" else 7
            expect(task.asked == (tasks.any_secrets, make, algorithm, step), True, f"the step of {task.title}")
            expect(task.title.endswith(", some cases"), not is_all, "the title of a sample")


def lengths_without_cases(_):
    """Tests that each length of XXH3 has a case, except the one with its own task, and that a missing case is found."""
    cases, of_secret = every_length.cases("3-64:seed"), every_length.of_secret()
    expect(tasks.xxh3_left_out() == (2, []), True, "lengths without a case")
    for k, k_secret, count in ((3, None, 1), (31, 20, 2)):
        some = [case for at, case in enumerate(cases) if at != k]
        others = [case for at, case in enumerate(of_secret) if at // 2 != (k_secret or -2) // 2]
        with patched(every_length, "cases", lambda _: some), patched(every_length, "of_secret", lambda: others):
            found = tasks.xxh3_left_out()
        expect(found[0] == 2 and len(found[1]) == count, True, f"the missing cases {k} and {k_secret}: {found}")


def chosen_points(_):
    """Tests from which length on points of one-shots with any secret are tested, and for which blocks."""
    for q, n, is_there in ((9, 240, False), (9, 241, True), (16, 241, False), (17, 241, True), (9, 239, False)):
        numbers = iter([q, n, 10, 5000])
        rng = types.SimpleNamespace(choice=lambda _: next(numbers), randrange=lambda *_: 0)
        with patched(coverage.random, "Random", lambda _: rng):
            found = list(coverage.without_one_shot([], [], 1))
        expect(found == [(q, n) if is_there else (10, 5000)], True, f"the point {n} of {q} stripes in a block")
    case = types.SimpleNamespace(facts=[], blocks=variable("B"), more=variable("J"))
    expect(list(coverage.without_one_shot([case], [], 20)) == [], True, "points in a case of all lengths")


def titles_of_exports(_):
    """Tests that each export finds a task by its title, in the list of tasks with and without --all."""
    for is_all in (False, True):
        titles = [task.title for task in choices.tasks_with(is_all)]
        for known in (exports.shown_by(), cargo_exports.shown_by()):
            for name, begin in known.items():
                expect(any(title.startswith(begin) for title in titles), True, f"a task of {name}, {begin}")
        for begin in cargo_exports.shown_by().values():
            expect(begin.startswith("cargo: "), True, "the title of a task of cargo's")
    hashes = {f"xxh3_{width}_long" for width in (64, 128)}
    expect({*cargo_exports.shown_by()} == {"interface", "xxh32_write", "xxh3_write", *hashes}, True, "cargo's exports")
    names = cargo_exports.shown_by()
    program = types.SimpleNamespace(exports={name: 0 for name in names})
    titles = [*names.values()]
    for change in ("none", "export", "title", "other"):
        of = {**program.exports, **({"xxh9": 0} if change == "other" else {})}
        of = {name: 0 for name in of if change != "export" or name != "xxh3_write"}
        asked = titles[1:] if change == "title" else titles
        count, bad = cargo_exports.exports_left_out({"a": types.SimpleNamespace(exports=of)}, asked)
        expect(count + len(bad) == 5 and len(bad) == (change != "none"), True, f"exports with another {change}")


def names_of_cargo(_):
    """Tests that functions and exports of a cargo source lose the interface's number and the instruction set."""
    found = [{"twox_rust_7_xxh3_write_v3": 1, "core.fold.i7_v4": 2}, {"twox_rust_interface": 3}]
    base = type("Base", (Loaded,), {"names": lambda self: iter(found), "__init__": lambda self: None})
    program = type("OfTest", (OfCargo, base), {})()
    expect([*program.names()] == [{"xxh3_write": 1, "core.fold": 2}, {"interface": 3}], True, "names of functions")
    program.object = types.SimpleNamespace(symbols=[types.SimpleNamespace(name=name) for name in "aba"])
    expect(program.all_names() == {"a", "b"}, True, "names of symbols")
    expect(CargoProgram.title_of(".text.core.fold.i7_v4") == ".text.core.fold", True, "the title of a section")
    with patched(CargoProgram.__mro__[2], "__init__", lambda self, path: setattr(self, "path", path)):
        program = CargoProgram("x86-64-v3", "a path")
    expect((program.name, program.path) == ("x86-64-v3", "a path"), True, "a program of cargo's")
    created = []
    with patched(CargoProcessor.__mro__[1], "__init__", lambda self, *of: created.append(of)):
        CargoProcessor(program)
    expect(created == [(program, "x86-64-v3")], True, "a processor of cargo's")


def sampled_cases(_):
    """Tests that a sample has the first case, each step's, and the last one; and one of each function."""
    asked = [*range(25)]
    expect(tasks.sample("any updates", asked, 4) == [0, 6, 12, 18, 24, 24], True, "a sample")
    rng = random.Random(1)
    cases = [types.SimpleNamespace(args=(0, (types.SimpleNamespace(name=rng.choice("abc")),))) for _ in range(20)]
    found = tasks.sample("functions that take stripes", cases, 2)
    expect(sorted(one.args[1][0].name for one in found) == ["a", "b", "c"], True, "a sample of functions")
    expect(len(cargo_tasks.NAMES) == len({*cargo_tasks.NAMES}), True, "names of sources")


ALL = [
    *(shared_processors, steps_of_samples, lengths_without_cases, chosen_points, titles_of_exports, names_of_cargo),
    sampled_cases,
]
