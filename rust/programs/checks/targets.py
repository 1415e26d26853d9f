"""The programs for other targets, run by emulators: 64-bit ARM by qemu, and Windows by wine."""
import os
import re
import shutil

from checks.lib.report import check, last_line
from checks.lib.tools import TOP, must, ran, write
from rust.checks.workspace import ARM_PACKAGES, FURTHER, SOURCE_PACKAGES, ArmWorkspace, install_packages

PROGRAMS = ('xxh', 'xxhsum')
RIGHT = re.compile(r'(\d+) (?:cases|rows on \w+) as expected, (\d+) otherwise')


def emulated(workspace, programs, runner):
    """A script for each program that runs it by an emulator, under the name by which the script is called."""
    found = {}
    for name, program in programs.items():
        found[name] = write(
            os.path.join(workspace.path, f'{name}-emulated'),
            f'#!/bin/sh\nexec {" ".join(runner)} {program} "$@"\n',
            0o755,
        )
    return found


def cases_of_xxhsum(program):
    """The cases and rows of checks/xxhsum. Its planted faults depend on times, which an emulator stretches."""
    done = ran([os.path.join(TOP, 'checks', 'xxhsum'), '--stored', program])
    counts = RIGHT.findall(done.stdout)
    check(len(counts) == 3 and all(wrong == '0' for _, wrong in counts), f'{counts}: {last_line(done.stdout)}')
    return f'{sum(int(right) for right, _ in counts)} cases and rows'


def check_arm(report, path, built):
    install_packages(ARM_PACKAGES)
    workspace = ArmWorkspace(path)
    programs = emulated(workspace, built(workspace), [workspace.runner[0], '-0', '"$0"', *workspace.runner[1:]])
    report.attempt("xxh's table", lambda: last_line(must([os.path.join(TOP, 'checks', 'program'), programs['xxh']])))
    report.attempt("xxhsum's table", cases_of_xxhsum, programs['xxhsum'])


# A command, its input, its output, and its status. {a} and {b} are the lines of Debian's xxhsum, {32} that of XXH32.
ON_WINDOWS = (
    ('xxh hash 64 1234', 'some bytes', 'eab55659a496d78b', 0),
    ('xxhsum a folder/b', '', '{a}\n{b}', 0),
    ('xxhsum -r folder', '', '{b}', 0),
    ('xxh32sum a', '', '{32}', 0),
    ('xxhsum nowhere', '', "Error: Could not open 'nowhere': No such file or directory. ", 1),
    ('xxhsum no/where', '', "Error: Could not open 'no/where': No such file or directory. ", 1),
    ('xxhsum -c list', '', 'a: OK\nfolder/b: OK', 0),
    ('xxhsum -c --ignore-missing missing', '', 'a: OK', 0),
)


def on_windows(wine, folder, args, given, message, status):
    name, *arguments = args.split()
    done = ran([*wine, os.path.join(folder, f'{name}.exe'), *arguments], input=given, cwd=folder)
    found = '\n'.join(line for line in done.stdout.splitlines() if not line.startswith('wine:'))
    check((found.rstrip('\n'), done.returncode) == (message, status), f'{found}, {done.returncode}')


def lay_out_for_windows(programs, folder):
    """Files, lists of Debian's xxhsum, and the programs under three names."""
    for name, text in (('a', 'some bytes'), ('folder/b', 'other bytes')):
        write(os.path.join(folder, name), text)
    listed = must(['xxhsum', '-q', 'a', 'folder/b'], cwd=folder)
    for name, text in (('list', listed), ('missing', listed.splitlines(True)[0] + listed.split()[0] + '  no/where\n')):
        write(os.path.join(folder, name), text)
    for name, program in (('xxh', 'xxh'), ('xxhsum', 'xxhsum'), ('xxh32sum', 'xxhsum')):
        shutil.copy(programs[program], os.path.join(folder, f'{name}.exe'))
    return listed


def check_windows(report, path, built):
    make_workspace, packages = FURTHER['windows']
    install_packages({**SOURCE_PACKAGES, **packages})
    workspace = make_workspace(path)
    folder = os.path.join(path, 'on-windows')
    a, b = lay_out_for_windows(built(workspace), folder).splitlines()
    lines = {'{a}': a, '{b}': b, '{32}': must(['xxhsum', '-q', '-H0', 'a'], cwd=folder).strip()}
    for args, given, message, status in ON_WINDOWS:
        message = re.sub(r'\{\w+\}', lambda found: lines[found[0]], message)
        report.attempt(
            f'on Windows: {args}', on_windows, workspace.runner.split(), folder, args, given, message, status
        )


TARGETS = {'aarch64': check_arm, 'windows': check_windows}
