"""Gives a program `xxhsum` the lines of checks/lines.json, and compares how it parses them with what is there.

    checks/xxhsum-lines PROGRAM             ours, which parses lines as release 0.8.3 does, except a carriage return at
                                            the end
    checks/xxhsum-lines --older PROGRAM     one that parses them as 0.8.1 does

A test case has a line and its meaning: a hash, its digits and a name, or that it is a comment or malformed. If 0.8.1
parses it differently, `older` has that meaning. Each line is checked in a folder with one more file, and with a file of
the name that it has, with the content `some bytes`: so a line counts as parsed like its test case only if the hash, the
digits and the name are the test case's. The page reads the same table (web/tests/lines_test.mjs).

A changed test case must fail. The last line is "N passed, M failed"."""
import json
import os
import subprocess
import tempfile

from checks.lib import command
from checks.lib.report import Report
from checks.lib.tools import text_of, write

from . import messages
from .runs import marked

CONTENT = b'some bytes'
# The line of the other file in each folder: a tagged one, which is the same with --little-endian.
OTHER = b'XXH64 (other) = 55cfd3deadcabb2a\n'


def meaning(case, is_older):
    """The meaning of a test case: a name, or the word for a line without one."""
    older = case.get('older') if is_older else None
    if older is None:
        return case.get('is'), case.get('name')
    return (None, older['name']) if isinstance(older, dict) else (older, None)


def expected(word, name, is_older):
    """Standard output, standard error, and the status of a strict check of the line and of the other one."""
    good, bad = b'other: OK\n', messages.in_line('L', 1)
    if word == 'a comment':
        return good, b'', 0
    if word == 'nothing':
        return good + messages.counts(improper=1), bad, 1
    if not name:
        gone = messages.unread_listed('L', 1, '')
        return gone + good + messages.counts(unread=1), b'', 1
    return (name if is_older else marked(name)) + b': OK\n' + good, b'', 0


def found(program, case, name):
    """The result of the program for the test case's line and the other one."""
    with tempfile.TemporaryDirectory() as workdir:
        for file_name in (b'other', name):
            if file_name:
                write(os.path.join(workdir.encode(), file_name), CONTENT)
        write(f'{workdir}/L', case['line'].encode() + b'\n' + OTHER)
        little = ['--little-endian'] if case.get('little') else []
        done = subprocess.run(
            [program, *little, '-c', '--strict', '-w', 'L'],
            cwd=workdir,
            stdin=subprocess.DEVNULL,
            capture_output=True,
            check=False,
        )
    return done.stdout, done.stderr, done.returncode


def is_as_recorded(program, case, is_older):
    word, name = meaning(case, is_older)
    name = None if name is None else name.encode()
    out, err, status = found(program, case, name)
    return (out, err, status) == expected(word, name, is_older), (out, err, status)


def changed(case, is_older):
    """The test case with another meaning."""
    word, name = meaning(case, is_older)
    other = {'name': name + 'x'} if word is None else {'is': 'nothing' if word == 'a comment' else 'a comment'}
    return {'line': case['line'], 'little': case.get('little'), **other}


def main():
    parser = command.parser(__doc__)
    parser.add_argument('--older', action='store_true', help='what 0.8.1 takes a line for')
    parser.add_argument('program', help='the program that reads the lines')
    given = parser.parse_args()
    program = os.path.abspath(given.program)
    cases = json.loads(text_of('checks/lines.json'))
    report = Report()
    for case in cases:
        is_same, answer = is_as_recorded(program, case, given.older)
        fault = None if is_same else f'it was taken for {answer!r}'
        if is_as_recorded(program, changed(case, given.older), given.older)[0]:
            fault = 'it passed with another meaning'
        report.record(repr(case['line']), fault)
    return report.end()
