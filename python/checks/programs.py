"""Programs of Debian that import the module xxhash, with ours in its place and with the original."""
import os
import random
import re

from checks.lib.report import Report, check
from checks.lib.tools import write
from python.checks.environment import DEBIANS, PYTHON, Built, must, run

HERE = os.path.dirname(os.path.abspath(__file__))
STAND_IN = 'import sys\n\nimport twox_hash\n\nsys.modules["xxhash"] = twox_hash\n'
# Another module of that name, whose hashes are wrong: each program must detect it.
WRONG = (
    STAND_IN
    + '''
class Wrong(twox_hash.__class__):
    def __getattr__(self, name):
        made = getattr(twox_hash, name)
        return (lambda *args, **keys: made(*args, seed=1, **keys)) if name.startswith('xxh') else made
sys.modules["xxhash"] = Wrong('twox_hash')
'''
)


class Sides:
    """The value of PYTHONPATH for each module."""

    def __init__(self, built):
        self.theirs = DEBIANS
        self.ours, self.wrong = (
            f'{self.folder(built, name, text)}:{built.site}'
            for name, text in (('stand-in-clients', STAND_IN), ('wrong-clients', WRONG))
        )

    @staticmethod
    def folder(built, name, text):
        return os.path.dirname(write(os.path.join(built.workdir, name, 'xxhash.py'), text))


def agrees(sides, args, folder=None):
    """The program, which may import modules of a folder, prints the same with both modules except the module's name in
    the first line, and other lines with a wrong one."""
    theirs, ours, wrong = (
        must([PYTHON, *args], PYTHONPATH=f'{path}:{folder}' if folder else path).splitlines()
        for path in (sides.theirs, sides.ours, sides.wrong)
    )
    names = (theirs.pop(0), ours.pop(0), wrong.pop(0))
    check(names[:2] == ('xxhash', 'twox_hash'), f'the modules are {names}')
    check(theirs and ours == theirs, 'it prints other lines')
    check(wrong != theirs, 'a wrong module is not noticed')
    return f'{len(theirs)} lines are the same; a wrong module is noticed'


def dasks_own_tests(sides):
    """dask's own tests of its hashing, with our module."""
    done = run(
        [PYTHON, '-m', 'pytest', '-q', '-p', 'no:cacheprovider', f'{DEBIANS}/dask/tests/test_hashing.py'],
        '/',
        PYTHONPATH=sides.ours,
    )
    passed = re.search(r'(\d+) passed', done.stdout)
    check(done.returncode == 0 and passed, done.stdout[-300:])
    return f'{passed[1]} tests'


def duplicates(sides, built):
    """dupeGuru's search for files of equal contents."""
    folder, package = os.path.join(built.workdir, 'files'), os.path.join(built.workdir, 'dupeguru')
    os.makedirs(folder)
    os.makedirs(package)
    must(['/usr/bin/apt-get', 'download', '-qq', 'dupeguru'], package)
    must(['/usr/bin/dpkg-deb', '-x', os.path.join(package, os.listdir(package)[0]), package])
    rng = random.Random(1)
    for number, length in enumerate((10, 1000, 70000, 4000000)):
        data = rng.randbytes(length)
        for name, text in (('one', data), ('two', data), ('other', data[:-1] + bytes([data[-1] ^ 1]))):
            write(os.path.join(folder, f'{number}-{name}'), text)
    return agrees(
        sides, [os.path.join(HERE, 'find_duplicates.py'), folder], os.path.join(package, 'usr/share/dupeguru')
    )


def check_all(report: Report, built: Built) -> None:
    sides = Sides(built)
    report.attempt('dask: tokens of arrays', agrees, sides, [os.path.join(HERE, 'dask_tokens.py')])
    report.attempt("dask: its own tests of hashing", dasks_own_tests, sides)
    report.attempt('dupeGuru: files of equal contents', duplicates, sides, built)
