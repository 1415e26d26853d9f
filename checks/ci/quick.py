"""Runs the tests of every crate with no proof, and some hundred vectors: the check to run while working.

    checks/quick [CRATE..]

It proves nothing: `rt check` and `checks/all` do. A crate's tests are compiled and run by `rt try --test`, some
crates at a time, and the program `vectors` by `rt try`, on every seventh test case of CI's table of the reference
library and on all that must fail. Two tests that hash four gibibytes take longer than it waits. If another test
takes longer, for example on a busy machine, the crate's tests are run again with four times the limit, and once
more. A line for each; the last one is "N passed, M failed". It needs `rt`."""
import concurrent.futures
import glob
import os
import re
import shutil
import sys
import time

from checks.lib import command
from checks.lib.report import Report
from checks.lib.tools import TOP, ran, text_of

CRATES = os.path.join(TOP, 'crates')
AT_A_TIME = min(4, len(os.sched_getaffinity(0)))
# `rt try` interprets each step, so the longest tests would take minutes. It also counts the time that a test waits for
# a processor.
LIMITS = 20, 80, 320
LATE = re.compile(r'^test (\S+) \.\.\. FAILED\n +checked: no-answer: .*within the time limit\n', re.M)
LEFT_TO_THE_GATE = '_past_four_gibibytes'


def crates_with_tests():
    sources = glob.glob(os.path.join(CRATES, '*', 'src', '**', '*.rt'), recursive=True)
    return sorted({os.path.relpath(path, CRATES).split(os.sep)[0] for path in sources if '#[test]' in text_of(path)})


def tried(crate, *args, given=''):
    return ran(['rt', 'try', *args], cwd=os.path.join(CRATES, crate), input=given)


def tests_of(crate):
    """How many tests passed and failed, and the lines that show why."""
    for seconds in LIMITS:
        done = tried(crate, '--test', '--seconds', str(seconds))
        late = LATE.findall(done.stdout)
        if all(name.endswith(LEFT_TO_THE_GATE) for name in late):
            break
    too_long = sum(name.endswith(LEFT_TO_THE_GATE) for name in late)
    counts = re.findall(r'^test result: .*?(\d+) passed; (\d+) failed', done.stdout, re.M)
    if not counts:
        return 0, 1, done.stdout.strip().splitlines()[-10:]
    passed, failed = (sum(map(int, column)) for column in zip(*counts))
    shown = LATE.sub(lambda late: '' if late[1].endswith(LEFT_TO_THE_GATE) else late[0], done.stdout)
    lines = [line for line in shown.splitlines() if re.match(r'test .* \.\.\. (?!ok)', line)]
    lines += [f'{too_long} tests of four gibibytes were left to the gate'] * (too_long > 0)
    return passed, failed - too_long or int(done.returncode != 0 and not too_long), lines


def vectors():
    """The program's result for every seventh test case, and for those that must fail."""
    stored = os.path.join(CRATES, 'vectors')
    lines = text_of(os.path.join(stored, 'stdin')).splitlines(keepends=True)
    start = next(i for i, line in enumerate(lines) if i and line.startswith('#'))
    good, wrong = lines[1:start:7], lines[start + 1 :]
    expected = [f'disagrees: {line}' for line in wrong] + [f'{len(good)} rows agree, {len(wrong)} do not\n']
    done = tried('vectors', given=''.join(good + wrong))
    reported = [
        line for line in done.stdout.splitlines(keepends=True) if re.search(r'^disagrees: | rows agree, ', line)
    ]
    if reported == expected:
        return len(good) + len(wrong), 0, []
    return 0, 1, [line.rstrip() for line in reported if line not in expected] or done.stdout.splitlines()[-10:]


def main():
    parser = command.parser(__doc__)
    parser.add_argument('crates', nargs='*', metavar='CRATE', help='the crates to test, by default all')
    named = parser.parse_args().crates
    if not shutil.which('rt'):
        sys.exit('checks/quick: no rt, which compiles the tests')
    known = crates_with_tests()
    unknown = [name for name in named if name not in [*known, 'vectors']]
    if unknown:
        sys.exit(f'checks/quick: {unknown[0]} has no tests; there are {", ".join(known)} and vectors')
    began, report = time.monotonic(), Report()
    with concurrent.futures.ThreadPoolExecutor(AT_A_TIME) as pool:
        jobs = {
            name: pool.submit(vectors) if name == 'vectors' else pool.submit(tests_of, name)
            for name in ['vectors', *known]
            if not named or name in named
        }
        for name, job in jobs.items():
            good, bad, failures = job.result()
            report.count(good, bad)
            print(f'{name}: {good} passed, {bad} failed', *failures, sep='\n  ', flush=True)
    print(f'{time.monotonic() - began:.0f} s; nothing was proved')
    return report.end()
