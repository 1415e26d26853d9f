"""An edit: the position of each change in the source, and the only function whose body it changes, if there is one."""
import glob
import os
import re
import sys

from . import source, toolchain


class Edit:
    def __init__(self, file, crate, names):
        self.file, self.name, self.function, self.body, self.spots = file, os.path.basename(file), None, None, []
        named = re.search(r"^refused by: (\S+)$", toolchain.read(file), re.M)
        self.refused_by = named and f"{crate.name}::{named[1]}"
        # Functions whose edits hid this one in a check: it isn't tried together with them again.
        self.apart = set()
        # If it changes a copy of its function, another copy, which no edit changes.
        self.control = None
        self.path, pairs = parsed(toolchain.read(file))
        if toolchain.rt.read_edit(file, crate.folder)[1] or not self.path or not self.path.startswith("src/"):
            return
        text = toolchain.read(f"{crate.folder}/{self.path}")
        if any(text.count(old) != 1 for old, _ in pairs):
            return
        self.spots = [(text.index(old), old, new) for old, new in pairs]
        changed = [text[:at].count("\n") for at, _, _ in self.spots]
        around = [it for it in source.functions(self.path, text.split("\n")) if all(map(it.has_inside, changed))]
        if around:
            self.body, self.function = around[-1], around[-1].checked_name(names)
            self.refused_by = self.refused_by or self.function

    def fits_beside(self, chosen):
        """True if it and none of those chosen, by their functions, hid one another before."""
        return not self.apart & chosen.keys() and not any(self.function in it.apart for it in chosen.values())

    def turn_to(self, copy, body, by, control):
        """Makes the edit change a copy of the function, at this offset in characters."""
        self.function, self.body, self.control = copy, body, control
        self.spots = [(at + by, old, new) for at, old, new in self.spots]


def proof_module(function):
    """The prefix of the names of a function's proofs."""
    crate, *path = function.split("::")
    return f"Rattle.{crate}.proofs.{'.'.join(path)}."


def proof_folder(function):
    """The folder of a function's proof answers, as a check names it."""
    return f"proofs/{'/'.join(function.split('::')[1:])}/"


def parsed(text):
    """The only file of an edit, or None, and its pairs of old and new texts."""
    lines = text.split("\n")
    paths = {it[len("file: ") :].strip() for it in lines if it.startswith("file: ")}
    olds = [it[len("old: ") :] for it in lines if it.startswith("old: ")]
    news = [re.sub(r"\A ", "", it[len("new:") :]) for it in lines if it.startswith("new:")]
    return (paths.pop() if len(paths) == 1 and len(olds) == len(news) else None), list(zip(olds, news))


def files_of(crate, workdir):
    """The blocks of the crate's mutants.edits, each written to a folder as a file for `rt must-fail`."""
    return sorted(written(f"{crate.folder}/mutants.edits", f"{workdir}/{crate.name}"), key=os.path.basename)


def written(path, folder):
    """The blocks of a file, each as a file of the folder, which is created."""
    os.makedirs(folder)
    for name, text in blocks_of(path):
        toolchain.write(f"{folder}/{name}.edit", text)
    return glob.glob(f"{folder}/*.edit")


def blocks_of(path):
    """The edits of a file, by name. A line `= PATH` begins those of a source file, and `== NAME` each of these."""
    blocks, source_file, lines = {}, None, None
    for line in toolchain.read(path).rstrip("\n").split("\n") if os.path.exists(path) else ():
        if line.startswith("= "):
            source_file, lines = line[2:], None
        elif line.startswith("== ") and source_file:
            name = line[3:]
            if name in blocks:
                sys.exit(f"wrong-bodies: {path} has {name} twice")
            lines = blocks[name] = [f"file: {source_file}"]
        elif lines:
            lines.append(line)
        else:
            sys.exit(f"wrong-bodies: {path}: a line outside of any mutant: {line}")
    return [(name, "\n".join([*lines, ""])) for name, lines in blocks.items()]


def texts_with(crate, edits):
    """The texts of the changed files with all these edits, each of a function of its own."""
    texts = {it.path: toolchain.read(f"{crate.folder}/{it.path}") for it in edits}
    spots = sorted(((*spot, it.path) for it in edits for spot in it.spots), reverse=True)
    # From the end of each file on, so that each position stays valid.
    for at, old, new, path in spots:
        texts[path] = texts[path][:at] + new + texts[path][at + len(old) :]
    return texts
