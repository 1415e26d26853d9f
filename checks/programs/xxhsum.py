"""Compares `xxhsum` with the table of checks/programs/cases.py.

    checks/xxhsum ORIGINAL OURS          runs both, and prints which cases differ, and how
    checks/xxhsum --stored PROGRAM..     compares each program with the stored results, runs it on terminals
                                         (terminals.py) and into pipes (pipes.py), plants wrong programs, and
                                         compares the options of the pages (options.py) and of the completions
                                         (completions.py) with the help's
    checks/xxhsum --store OLDER NEWER    writes the stored results, by the originals of both releases
    checks/xxhsum --completions PROGRAM  writes docs/completions from the program's help

    --only WORD                          runs the cases whose name contains the word

Each case runs a program in a folder of its own, with its arguments and its standard input, and compares standard
output, standard error and the status byte for byte. An original is 0.8.1 (Debian's package xxhash) or 0.8.3 (`make
xxhsum` in its sources); its version identifies it. The stored results are 0.8.3's, except for the cases for which
the table has others. The last line is "N passed, M failed"; against an original, cases that differ as documented
pass, and fail if they no longer differ."""
import hashlib
import json
import os
import subprocess
import sys
import tempfile

from checks.lib import command
from checks.lib.report import Report
from checks.lib.tools import TOP, install_packages, text_of, write

from .cases import CASES, FILES, NEWER_DIFFERS, OLDER_DIFFERS, one_line
from .completions import over_completions, write_files
from .options import over_pages
from .pipes import PLANTED_ON_PIPES, cases_on_pipes
from .runs import SETTINGS, plant
from .terminals import PLANTED_ON_TERMINALS, cases_on_terminals

SHOWN = 400
ANSWERS = os.path.join(TOP, 'checks', 'programs', 'answers.json')
# Of a longer text the stored results have the beginning, the length and the SHA-256.
LONGEST = 2000
# Each program has its own usage text, after a line of these, and in ours the wrong argument.
WRONG = b'Wrong parameters'
# What 0.8.1 writes after its last name, to clear a line of progress that it never showed.
CLEARED = b'\r' + b' ' * 70 + b'\r'
SECONDS = 20
# Programs that do one thing wrong with the real one, which is at $REAL and under its other name xxhsum in the same
# folder.
PLANTED = {
    'a status that is always 0': '"$REAL" "$@"; exit 0',
    'a last word that is forgotten': 'n=$#; for word do shift; [ $((n -= 1)) = 0 ] || set -- "$@" "$word"; done; '
    'exec "$REAL" "$@"',
    'errors that are not told': 'exec "$REAL" "$@" 2>/dev/null',
    'a last line that is lost': '"$REAL" "$@" >"$0.out"; status=$?; head -n -1 "$0.out"; exit $status',
    'another kind than the name says': 'exec "${REAL%/*}/xxhsum" "$@"',
}


def in_bytes(name):
    return name if isinstance(name, bytes) else name.encode()


def lay_out(folder, files):
    """Creates the folder d, these files and some links."""
    os.mkdir(os.path.join(folder, b'd'))
    for name, text in files.items():
        write(os.path.join(folder, in_bytes(name)), text)
    for target, name in ((b'a', b'link'), (b'd', b'linked-folder'), (b'nowhere', b'broken'), (b'loop', b'loop')):
        os.symlink(target, os.path.join(folder, name))


def called_by_name(program, case, workdir):
    """The program under the case's name; a planted one is a script of that name."""
    called = os.path.join(workdir, case.called)
    if callable(program):
        program(called, case)
    else:
        os.symlink(os.path.abspath(program), called)
    return called


def found_in(workdir, program, case):
    """The result of the program in this folder: its standard output and error, and its status."""
    called = called_by_name(program, case, workdir)
    folder = in_bytes(os.path.join(workdir, 'folder'))
    os.mkdir(folder)
    lay_out(folder, {**FILES, **case.files})
    args = ['sh', '-c', case.shell] if case.shell else [in_bytes(word) for word in (called, *case.args)]
    try:
        done = subprocess.run(
            args, input=case.given, capture_output=True, cwd=folder, timeout=SECONDS, env={**SETTINGS, 'X': called}
        )
    except subprocess.TimeoutExpired:
        return {'out': b'', 'err': b'', 'status': f'not ended after {SECONDS} s'}
    return {'out': done.stdout, 'err': done.stderr, 'status': done.returncode}


def found(program, case):
    """The result of the program, without its own usage text."""
    with tempfile.TemporaryDirectory() as workdir:
        did = found_in(workdir, program, case)
    if did['err'].lstrip(b'\\').startswith(WRONG):
        did['err'] = did['err'].split(b'\n')[0] + b'\n'
    return did


def named(expected, case):
    """The result of an original, with the wrong argument that ours names if it has none."""
    if expected.get('err') != WRONG + b'\n':
        return expected
    return {**expected, 'err': one_line(WRONG + b": '" + in_bytes(case.wrong or case.args[0]) + b"'")}


def answer(original, case):
    """The result of an original, in the parts that are compared."""
    did = found(original, case)
    did['err'] = did['err'].replace(CLEARED, b'')
    return {part: did[part] for part in case.compared}


def differences(expected, had):
    """The parts that differ, with the expected and the found one."""
    return [(part, expected[part], had[part]) for part in expected if expected[part] != had[part]]


def shown(value):
    return f'{value[:SHOWN]!r}' if isinstance(value, bytes) else value


def print_difference(title, case, parts):
    for part, expected, had in parts:
        print(f'{title}{case.name}: {part}\n  expected {shown(expected)}\n  found    {shown(had)}')


# ---- against an original


def release(original):
    """The release of an original."""
    done = subprocess.run([os.path.abspath(original), '--version'], capture_output=True, text=True, check=False)
    for number in ('0.8.1', '0.8.3'):
        if number in done.stdout + done.stderr:
            return number
    sys.exit(f'{original} is neither of 0.8.1 nor of 0.8.3')


def beside(original, ours, cases, report):
    """Compares two programs, prints undocumented differences, and counts the cases."""
    differs = OLDER_DIFFERS if release(original) == '0.8.1' else NEWER_DIFFERS
    faults = 0
    for case in cases:
        parts = differences(case.expected, found(ours, case)) if case.expected else []
        print_difference('', case, parts)
        faults += bool(parts)
        if case.expected:
            continue
        parts = differences(named(answer(original, case), case), found(ours, case))
        if bool(parts) == (case.name in differs):
            continue
        faults += 1
        print_difference('', case, parts)
        if not parts:
            print(f'{case.name}: differs no more, as docs/XXHSUM.md says that it does')
    report.count(len(cases) - faults, faults)


# ---- stored results


def as_stored(value):
    """A part of a result in JSON: bytes as the characters of the same numbers."""
    if not isinstance(value, bytes):
        return value
    if len(value) <= LONGEST:
        return value.decode('latin-1')
    return {'begins': value[:40].decode('latin-1'), 'bytes': len(value), 'sha256': hashlib.sha256(value).hexdigest()}


def store(older, newer, report):
    """Writes the results of the originals, one case per line, and counts the cases. If they disagree, the table must
    choose one."""
    records, faults = [], 0
    for case in CASES:
        if case.expected:
            continue
        by_older, by_newer = answer(older, case), answer(newer, case)
        if (by_older != by_newer) != (case.name in OLDER_DIFFERS or case.name in NEWER_DIFFERS):
            faults += 1
            print_difference('the originals, ', case, [(part, by_older[part], by_newer[part]) for part in by_older])
        taken = by_older if case.name in NEWER_DIFFERS else by_newer
        records.append(json.dumps({'name': case.name, **{part: as_stored(taken[part]) for part in taken}}))
    write(ANSWERS, '[\n' + ',\n'.join(records) + '\n]\n')
    report.count(len(records) - faults, faults)


def expected_of(case, answers):
    """The expected result of ours: the case's, or the stored one."""
    if case.expected:
        return {part: as_stored(value) for part, value in case.expected.items()}
    answer = answers[case.name]
    if not isinstance(answer.get('err'), str):
        return answer
    return {**answer, 'err': as_stored(named({'err': answer['err'].encode('latin-1')}, case)['err'])}


def faults_of(program, cases, answers):
    """The cases in which a program has another result than expected, each with its parts."""
    for case in cases:
        expected = expected_of(case, answers)
        parts = differences(expected, {part: as_stored(value) for part, value in found(program, case).items()})
        if parts:
            yield case, parts


def planted(program, script):
    """Writes a program that does what the script does with the real one."""

    def planted_as(called, case):
        real = os.path.join(os.path.dirname(called), 'real')
        os.mkdir(real)
        for name in {case.called, 'xxhsum'}:
            os.symlink(os.path.abspath(program), os.path.join(real, name))
        plant(called, f'{real}/{case.called}', script)

    return planted_as


def over_streams(programs, report, where, cases_of, wrong_ones):
    """The results of the programs on terminals or pipes, and of the planted ones, each of which a test must detect.
    Counts the tests."""
    for program in programs:
        wrong = 0
        records = list(cases_of(os.path.abspath(program)))
        for name, fault in records:
            wrong += bool(fault)
            if fault:
                print(f'{program}: on {where}, {name}: {fault}')
        print(f'{program}: {len(records) - wrong} rows on {where} as expected, {wrong} otherwise')
        report.count(len(records) - wrong, wrong)
    for title, (script, names) in wrong_ones.items():
        with tempfile.TemporaryDirectory() as workdir:
            called = os.path.join(workdir, 'xxhsum')
            planted(programs[0], script)(called, CASES[0])
            silent = [name for name, fault in cases_of(called, names) if not fault]
        report.record(f'planted, {title}', silent and f'not noticed by {silent}', f'{len(names)} rows')


def over_stored(programs, cases, report):
    """Compares the programs with the stored results, plants wrong ones, and counts the tests."""
    answers = {record.pop('name'): record for record in json.loads(text_of(ANSWERS))}
    for program in programs:
        faults = 0
        for case, parts in faults_of(program, cases, answers):
            print_difference(f'{program}: ', case, parts)
            faults += 1
        print(f'{program}: {len(cases) - faults} cases as expected, {faults} otherwise')
        report.count(len(cases) - faults, faults)
    for title, script in PLANTED.items():
        notices = next(faults_of(planted(programs[0], script), cases, answers), None)
        report.record(f'planted, {title}', not notices and 'nothing notices it', notices and notices[0].name)
    over_pages(programs[0], report)
    over_completions(programs[0], report)
    over_streams(programs, report, 'terminals', cases_on_terminals, PLANTED_ON_TERMINALS)
    over_streams(programs, report, 'pipes', cases_on_pipes, PLANTED_ON_PIPES)


def main():
    parser = command.parser(__doc__, 'cases')
    parser.add_argument('programs', nargs='+', help='the programs to test')
    way = parser.add_mutually_exclusive_group()
    way.add_argument('--stored', action='store_true', help='compare with the stored answers')
    way.add_argument('--store', action='store_true', help='write the stored answers')
    way.add_argument('--completions', action='store_true', help='write the completions')
    given = parser.parse_args()
    cases, report = [case for case in CASES if given.only in case.name], Report()
    if given.stored:
        install_packages({'gcc': 'gcc', '/usr/include/dlfcn.h': 'libc6-dev', 'zsh': 'zsh', 'fish': 'fish'})
        over_stored(given.programs, cases, report)
    elif given.completions:
        report.attempt('docs/completions', write_files, given.programs[0])
    elif len(given.programs) != 2:
        parser.error('two programs are compared')
    elif given.store:
        store(given.programs[0], given.programs[1], report)
    else:
        beside(given.programs[0], given.programs[1], cases, report)
    return report.end()
