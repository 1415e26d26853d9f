"""Faults that CI itself must detect:

    checks/planted

A part that prints nothing, one without counts, one with too few checks, one that reports success and ends with another
status, and one that is killed each fail; the standard error of a part is in its output. An installation waits for
another one, and completes one that was killed. checks/quick distinguishes a slow test from one that never ends and from
one that fails. The last line is "N passed, M failed"; it runs as root on Debian."""
import contextlib
import fcntl
import io
import os
import subprocess
import tempfile
import time

from checks.lib import command
from checks.lib.report import Report, check
from checks.lib.tools import TOP, ran, write

from .parts import Part

# A part's name, its script, and whether it passes.
PARTS = {
    'a part that is well': ('echo 3 passed, 0 failed', True),
    'one that prints nothing': ('true', False),
    'one without counts': ('echo all is well', False),
    'one with too few checks': ('echo 1 passed, 0 failed', False),
    'one that ends with another status': ('echo 3 passed, 0 failed; exit 1', False),
    'one that is killed': ('echo 3 passed, 0 failed; kill -9 $$', False),
}
# The output of `rt try --test --seconds N`, in which $4 is the limit: the name of one test, when it fails, and why; and
# then the last line of checks/quick.
LATE = """echo 'test one ... ok'
if WRONG; then printf 'test %s ... FAILED\\n    checked: CHECKED\\n' NAME
    echo 'test result: FAILED. 1 passed; 1 failed'; exit 1; fi
printf 'test %s ... ok\\n' NAME; echo 'test result: ok. 2 passed; 0 failed'
"""
NO_ANSWER = 'no-answer: the program did not end within the time limit'
TESTS = {
    'checks/quick: a test that is late on a busy machine': ('late', '[ $4 -lt 80 ]', NO_ANSWER, '2 passed, 0 failed'),
    'checks/quick: a test that never ends': ('late', 'true', NO_ANSWER, '1 passed, 1 failed'),
    'checks/quick: a test of four gibibytes': ('it_past_four_gibibytes', 'true', NO_ANSWER, '1 passed, 0 failed'),
    'checks/quick: one that is wrong': ('it_past_four_gibibytes', 'true', 'failed', '1 passed, 1 failed'),
}
LISTS = '/var/lib/apt/lists/lock'


def is_judged(script, passes):
    printed = io.StringIO()
    with contextlib.redirect_stdout(printed):
        message, _, failed = Part(TOP, 'planted', 2, 'sh', '-c', f'echo a fault >&2; {script}').follow()
    check('a fault' in printed.getvalue(), 'what it says of an error is lost')
    check((failed == 0) == passes, f'{failed} failed: {message}')
    check(passes or ';' in message.split(' failed', 1)[1].split('processor time')[1], f'it does not say why: {message}')


def is_counted(name, wrong, checked, last):
    """The last line of checks/quick with this output of `rt`."""
    with tempfile.TemporaryDirectory() as workdir:
        text = LATE.replace('WRONG', wrong).replace('NAME', name).replace('CHECKED', checked)
        write(f'{workdir}/rt', f'#!/bin/sh\n{text}', 0o755)
        done = subprocess.run(
            [os.path.join(TOP, 'checks', 'quick'), 'twox_tests'],
            stdout=subprocess.PIPE,
            text=True,
            env={**os.environ, 'PATH': f'{workdir}:{os.environ["PATH"]}'},
        )
    check(
        done.stdout.splitlines()[-1:] == [last] and (done.returncode == 0) == last.endswith(' 0 failed'),
        f'status {done.returncode}: {done.stdout}',
    )


def installation_waits():
    """While another process holds the lock of apt's lists."""
    with open(LISTS, 'a') as lock:
        fcntl.lockf(lock, fcntl.LOCK_EX)
        done = subprocess.Popen(
            [os.path.join(TOP, 'checks', 'install'), 'apt'], stdout=subprocess.PIPE, stderr=subprocess.STDOUT, text=True
        )
        time.sleep(3)
        check(done.poll() is None, f'it did not wait: {done.stdout.read() if done.poll() is not None else ""}')
    check(done.wait(300) == 0, f'it ended with status {done.returncode}: {done.stdout.read()[-300:]}')


# A dpkg that was killed in the middle of an installation, as apt-get reports it, and that is repaired or not.
KILLED = """#!/bin/sh
cd "$(dirname "$0")" || exit 1
case $0,$* in
*/dpkg,--configure\\ -a) REPAIR ;;
*/dpkg,*) exit 1 ;;
*) [ -e repaired ] || { echo "E: dpkg was interrupted, you must manually run 'dpkg --configure -a'"; exit 100; } ;;
esac
"""


def killed_installation(repair, passes):
    """With commands in the place of apt-get and dpkg."""
    with tempfile.TemporaryDirectory() as folder:
        for name in ('apt-get', 'dpkg'):
            write(os.path.join(folder, name), KILLED.replace('REPAIR', repair), 0o755)
        path = f'{folder}:{os.environ["PATH"]}'
        done = ran([os.path.join(TOP, 'checks', 'install'), 'apt'], env={**os.environ, 'PATH': path})
        check((done.returncode == 0) == passes, f'it ended with status {done.returncode}: {done.stdout[-300:]}')


def main():
    command.parser(__doc__).parse_args()
    report = Report()
    for name, args in PARTS.items():
        report.attempt(name, is_judged, *args)
    for name, test in TESTS.items():
        report.attempt(name, is_counted, *test)
    report.attempt('an installation waits for another one', installation_waits)
    report.attempt('an installation after one that was killed', killed_installation, 'touch repaired', True)
    report.attempt('one that dpkg can not complete', killed_installation, 'exit 1', False)
    return report.end()
