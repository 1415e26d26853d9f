"""Derives from a module's exports which functions tasks must detect, like ../removed.py: each function that an export
reaches is replaced by `unreachable`, and some task that shows one of these exports must fail then."""
from .. import removed
from .machine import DOES, Machine
from .values import Trap

LATE = "every length", "any updates", "streams, "


def functions(module):
    """Maps the index of each function that exports reach to these exports."""
    out = {}
    for name, (export_type, index) in module.exports.items():
        found, left = set(), [index] if export_type == 0 else []
        while left:
            at = left.pop()
            if at not in found:
                found.add(at)
                left += [x.given for x in module.functions[at].code if x.opcode.name == "call"]
        for at in found:
            out.setdefault(at, set()).add(name)
    return out


def fails(ask, machines):
    try:
        return removed.fails(removed.tasks.Task("", lambda: ask(machines)))
    except Trap:
        return True


def unnoticed(
    machines: dict[str, Machine], asked: list[tuple], titles_of: dict[str, list[str]], each: int = 1
) -> tuple[str, list[str]]:
    """Removes each function of each module, or every `each`-th export if that isn't 1. Returns how many exports and
    others it removed, and those that no task detects. `asked` has titles and tasks, `titles_of` the words of an
    export's titles."""
    bad, count = [], {True: 0, False: 0}
    with removed.first_failure():
        for module, vm in machines.items():
            exported = {index for export_type, index in vm.module.exports.values() if export_type == 0}
            found = [
                (index, names)
                for index, names in sorted(functions(vm.module).items())
                if each == 1 or index in exported
            ]
            for index, names in found[each // 2 :: each]:
                before, vm.code[index] = vm.code.get(index), [(DOES["unreachable"], None)]
                if not any(
                    fails(ask, machines) for ask in in_order(asked, module, [titles_of[name] for name in names])
                ):
                    bad.append(
                        f"{module}: no task notices that function {index} is removed, which {min(names)} reaches"
                    )
                vm.code.pop(index)
                vm.code.update({} if before is None else {index: before})
                count[index in exported] += 1
    return f"{count[True]} exports and {count[False]} other functions removed, {len(bad)} unnoticed", bad


def in_order(asked, module, titles):
    """Returns the tasks that show one of some exports, those that take longer last."""
    shown = [
        (title, ask)
        for title, ask in asked
        if any(is_shown(title, *some) for some in titles) and (".wasm" not in title or f"{module}:" in title)
    ]
    return [ask for _, ask in sorted(shown, key=lambda one: any(late in one[0] for late in LATE))]


def is_shown(title, algorithm, what=""):
    """True if a task shows an export with these words: by samples, or by induction."""
    is_stream = what == "streams" and algorithm.startswith("XXH3") and title.startswith("XXH3, ")
    return is_stream or algorithm in title and (what in title or what == "one-shots" and "every length" in title)
