"""A crate with copies of its functions: an edit of a copy leaves the function unchanged, so one check may try all
edits of a function, and those of the functions that call it. A copy has the function's contract and its proof
answers, under another name, and nothing calls it."""
import copy
import os
import re
import shutil

from . import edits, toolchain


def with_copies(crate, tried, folder):
    """The crate, written to the folder with its copies, and the functions that other changed ones may call. The
    further edits of a function now change its copies, and the first too if it may be called, since callers of a
    refused function may have no line of their own."""
    for part in toolchain.rt.rtlib.PARTS:
        if os.path.isdir(f"{crate.folder}/{part}"):
            shutil.copytree(f"{crate.folder}/{part}", f"{folder}/{part}")
    twin = copy.copy(crate)
    twin.folder = folder
    of_functions = {}
    for it in tried:
        of_functions.setdefault(it.function, []).append(it)
    bodies = {function: text_of_body(crate, its[0]) for function, its in of_functions.items()}
    called = [function for function, its in of_functions.items() if is_called(function, its[0].body.name, bodies)]
    for function, its in of_functions.items():
        if len(its) > 1:
            give_copies(folder, its, 0 if function in called else 1)
    return twin, called


def is_called(function, name, bodies):
    """True if another of these bodies may call the function."""
    word = re.compile(rf"\b{name}\b")
    return any(word.search(text) for other, text in bodies.items() if other != function)


def text_of_body(crate, edit):
    lines = toolchain.read(f"{crate.folder}/{edit.path}").split("\n")
    return "\n".join(lines[edit.body.first : edit.body.last])


def give_copies(folder, its, first):
    """Makes each of these edits of one function, from the first on, change a copy of its own, if the function can
    have copies. One more copy stays unchanged: their control."""
    control, *others = (add_copy(folder, its[0], number) for number in range(len(its) - first + 1))
    if control:
        for edit, (name, body, by) in zip(its[first:], others):
            edit.turn_to(name, body, by, control[0])


def add_copy(folder, edit, number):
    """Adds a copy of the function that the edit changes: its name, its position, and its offset in characters. Or
    None."""
    name = f"{edit.body.name}_copy_{number}"
    found = edit.body.copied(toolchain.read(f"{folder}/{edit.path}").rstrip("\n").split("\n"), name)
    if not found:
        return None
    body, lines = found
    toolchain.write(f"{folder}/{edit.path}", "\n".join(lines) + "\n")
    name = f"{edit.function.rpartition('::')[0]}::{name}"
    copy_answers(folder, edit.function, name)
    # The brace may be on the line of `fn`, which the copy's longer name makes longer.
    return name, body, start_of(lines, body.first + 1) - start_of(lines, edit.body.first + 1)


def start_of(lines, number):
    return sum(len(it) + 1 for it in lines[:number])


def copy_answers(folder, function, name):
    old, new = (f"{folder}/{edits.proof_folder(it)}" for it in (function, name))
    for file in os.listdir(old) if os.path.isdir(old) else ():
        os.makedirs(new, exist_ok=True)
        toolchain.write(
            new + file, toolchain.read(old + file).replace(edits.proof_module(function), edits.proof_module(name))
        )
