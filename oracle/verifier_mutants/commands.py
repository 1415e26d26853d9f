"""Tests the command assembly/same-bytes on files of ELF: what it prints, and its exit status. Each takes a random
generator, which it doesn't use, and raises Wrong."""

import contextlib
import io
import os
import sys
import tempfile
import unittest.mock
from typing import Any

from assembly import same_bytes

from .readers import CODE, DATA, SECTIONS, SYMBOLS, elf
from .values import expect

PARTS = [".text.f", ".rodata.cst16", ".bss", "names"]
SIZE = len(CODE) + len(DATA)  # bytes of the sections that have any


@contextlib.contextmanager
def files():
    """Yields a function that writes a file and returns its path."""
    with tempfile.TemporaryDirectory() as folder:

        def write(name, data):
            path = os.path.join(folder, name)
            with open(path, "wb") as file:
                file.write(data)
            return path

        yield write


def printed(ask, *arguments):
    """Returns the result of a call, and what it prints to both streams, as lines."""
    out, error = io.StringIO(), io.StringIO()
    with contextlib.redirect_stdout(out), contextlib.redirect_stderr(error):
        result = ask(*arguments)
    return result, out.getvalue().splitlines(), error.getvalue().splitlines()


def changed(k, **fields):
    """Returns the sections, with other fields of number k, by their position."""
    one = list(SECTIONS[k])
    for name, x in fields.items():
        one[("name", "type", "flags", "data", "link", "info", "align", "entry").index(name)] = x
    return [*SECTIONS[:k], tuple(one), *SECTIONS[k + 1 :]]


def compared_objects(_):
    """Tests the comparison of two objects: the same ones, another byte, another name, and a lost section."""
    other_code = bytes([CODE[0] ^ 1]) + CODE[1:]
    with files() as write:
        proved = write("proved.o", elf(SECTIONS, SYMBOLS))
        same = write("same.o", elf(SECTIONS, [*SYMBOLS, ("another", 0, 0, 1, 3, 0)]))
        code = write("code.o", elf(changed(0, data=other_code), SYMBOLS))
        named = write("named.o", elf(SECTIONS, [*SYMBOLS, ("h", 0x12, 0, 1, 3, 0)]))
        lost = write("lost.o", elf(SECTIONS[:3] + SECTIONS[4:], SYMBOLS))
        ours: Any
        parts: Any
        for ours, parts in (
            (proved, []),
            (same, []),
            (code, [".text.f"]),
            (named, ["names"]),
            (lost, [".bss", "names"]),
        ):
            found = same_bytes.compare(proved, ours)
            expect(sorted(line.split(":")[0] for line in found) == sorted(parts), True, f"the differences {found}")
            status, lines, errors = printed(same_bytes.run, [proved, ours])
            expect((status, lines[:-1], errors) == (int(bool(parts)), found, []), True, f"what is printed: {lines}")
            last = f"differ: {len(parts)} parts" if parts else f"same: {len(PARTS) - 1} sections, {SIZE} bytes"
            expect(lines[-1] == last, True, f"the last line: {lines[-1]}")


def compared_sums(_):
    """Tests that only an object with the same parts has the sums that were printed: they cover notes and frames too."""
    with files() as write:
        proved = write("proved.o", elf(SECTIONS, SYMBOLS))
        status, lines, errors = printed(same_bytes.run, ["--sums", proved])
        expect((status, errors) == (0, []), True, "the status of sums")
        names = [line.split("  ")[1] for line in lines]
        expect(names == [*PARTS, "notes", "frames"], True, f"the parts of sums: {names}")
        expect(all(len(line.split("  ")[0]) == 64 for line in lines), True, "the lengths of sums")
        expect(len({line.split("  ")[0] for line in lines}), len(lines), "different sums")
        sums = write("sums", ("\n".join(lines) + "\n").encode())
        expect(same_bytes.read_sums(sums) == same_bytes.sums(same_bytes.Object(proved)), True, "the sums of a file")
        other_note = changed(4, data=SECTIONS[4][3][:-24] + bytes(24))
        sections: Any
        parts: Any
        for sections, parts in ((SECTIONS, []), (changed(0, data=CODE[::-1]), [".text.f"]), (other_note, ["notes"])):
            ours = write("ours.o", elf(sections, SYMBOLS))
            found = same_bytes.compare_sums(sums, ours)
            expect([line.split(":")[0] for line in found] == parts, True, f"the differences {found}")
            status, lines, _ = printed(same_bytes.run, ["--against", sums, ours])
            expect((status, lines[:-1]) == (int(bool(parts)), found), True, f"what is printed: {lines}")
            last = f"differ: {len(parts)} parts" if parts else f"same: 3 sections, {SIZE} bytes"
            expect(lines[-1] == last, True, f"the last line: {lines[-1]}")


def arguments(_):
    """Tests the exit status 2, without output, for other arguments and for files that aren't objects."""
    with files() as write:
        proved, text = write("proved.o", elf(SECTIONS, SYMBOLS)), write("text", b"no object")
        short = write("short.o", elf(SECTIONS, SYMBOLS)[:200])
        calls = [["--sums"], [proved], [], ["--against"], [proved, proved, proved], ["--sums", proved, proved]]
        for args in calls:
            status, lines, errors = printed(same_bytes.run, args)
            expect((status, lines) == (2, []) and len(errors) > 1, True, f"the arguments {args}")
        missing = os.path.join(os.path.dirname(text), "missing.o")
        for ours in (text, short, missing):
            with unittest.mock.patch.object(sys, "argv", ["same-bytes", proved, ours]):
                status, lines, errors = printed(same_bytes.main)
            expect((status, lines, len(errors)) == (2, [], 1), True, f"the file {ours}")
            expect(errors[0].startswith("same-bytes: "), True, "a message")
        with unittest.mock.patch.object(sys, "argv", ["same-bytes", proved, proved]):
            status, lines, _ = printed(same_bytes.main)
        expect((status, lines) == (0, [f"same: 3 sections, {SIZE} bytes"]), True, "the command")


ALL = [compared_objects, compared_sums, arguments]
