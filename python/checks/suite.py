"""The package's own tests, run by one Python or another over one build or another."""
import glob
import os
import re
import shutil
import subprocess
from typing import Any, Iterable, Sequence

from checks.lib.report import Fault, check, last_line
from checks.lib.tools import text_of, write
from python.checks.environment import DEBUG, PYTHON, PYTHON_FOLDER, Built, copied, must, packed, run, site

VALGRIND = ('/usr/bin/valgrind', '-q', '--error-exitcode=9', PYTHON)
ALL = ('values', 'interface', 'objects', 'files', 'many', 'threads', 'leaks')


def tests(path: str, *names: str, python: Sequence[str] = (PYTHON,), **more: Any) -> subprocess.CompletedProcess[str]:
    """Runs tests, all without names, over the build in a folder."""
    command = [*python, '-B', '-W', 'error', '-m', 'unittest', *(f'tests.test_{name}' for name in names or ALL)]
    return run(command, PYTHON_FOLDER, PYTHONPATH=path, **more)


def pass_all(path: str, *names: str, **more: Any) -> str:
    """The tests pass, and there are some."""
    done = tests(path, *names, **more)
    ran = re.search(r'^Ran (\d+) tests', done.stdout, re.M)
    if done.returncode or not ran or not int(ran[1]):
        raise Fault(first_failure(done.stdout))
    return f'{ran[1]} tests'


def first_failure(output: str) -> str:
    """The first test that failed, and why; or valgrind's first report."""
    report = re.search(r'^.*==\d+== (.*)', output, re.M)
    if report:
        return report[1]
    name = re.search(r'^(?:FAIL|ERROR): (\S+)', output, re.M)
    why = re.search(r'^(?:\w+\.)*(?:\w*(?:Error|Exception|Fault))\b.*', output[name.end() :], re.M) if name else None
    return f'{name[1]}: {why[0][:200] if why else "failed"}' if name else last_line(output)


def of_set(built: Built, instructions: str) -> str:
    """The tests pass with one instruction set."""
    found = must(
        [PYTHON, '-c', 'import twox_hash; print(twox_hash.instruction_set)'],
        PYTHONPATH=built.site,
        TWOX_HASH_INSTRUCTIONS=instructions,
    )
    check(found.strip() == instructions, f'{found.strip()} runs in place of {instructions}')
    return pass_all(built.site, TWOX_HASH_INSTRUCTIONS=instructions)


def under_valgrind(built: Built) -> str:
    """No call reads or writes memory that isn't its own. Fewer objects are made, since each step takes fifty times
    as long."""
    return pass_all(built.site, 'interface', 'objects', 'files', 'many', python=VALGRIND, PYTHONMALLOC='malloc')


def leaks_under_valgrind(built: Built) -> str:
    return pass_all(built.site, 'leaks', python=VALGRIND, PYTHONMALLOC='malloc', TWOX_HASH_OBJECTS='2000')


def of_debug_build(built: Built) -> str:
    """The tests pass with a build by Debian's debug Python, which tests its own rules and counts references."""
    wheel = packed(copied(os.path.join(built.workdir, 'debug')), DEBUG)[1]
    counts = must([DEBUG, '-c', 'import sys; print(sys.gettotalrefcount() > 0)'])
    check(counts.strip() == 'True', f'{DEBUG} counts no references')
    return pass_all(site(built.workdir, 'debug', wheel), python=(DEBUG,), TWOX_HASH_OBJECTS='100000')


def of_clang(built: Built) -> str:
    """The tests of values pass when compiled by clang."""
    wheel = packed(copied(os.path.join(built.workdir, 'clang')), CC='clang')[1]
    return pass_all(site(built.workdir, 'clang', wheel), 'values', 'objects')


def of_source(built: Built) -> str:
    """The tests pass over the code of xxhash.h. The build states once that it isn't proved, and the wheel claims no
    proof."""
    folder = copied(os.path.join(built.workdir, 'source'))
    output = must([os.path.join(folder, 'build'), PYTHON], TWOX_HASH_SOURCE='1')
    check(output.count('compiled from xxhash.h, which is not proved: TWOX_HASH_SOURCE=1\n') == 1, last_line(output))
    path = site(built.workdir, 'source', glob.glob(os.path.join(folder, 'out', '*.whl'))[0])
    found = must([PYTHON, '-c', 'import twox_hash; print(twox_hash.instruction_set)'], PYTHONPATH=path)
    check(found == 'source\n', f'{found.strip()} runs')
    (about,) = glob.glob(os.path.join(path, '*.dist-info', 'METADATA'))
    lines = [line for line in text_of(about).splitlines() if line.startswith(('Summary: ', 'Keywords: '))]
    check(
        'compiled from C' in lines[0] and not any(word in line for line in lines for word in ('proved', 'verified')),
        lines,
    )
    return pass_all(path)


def in_another_python(built, path, python):
    """The tests pass in another Python. The package replaces the original there: of the values only the reference
    library's table is left, and of the interface nothing."""
    folder = os.path.join(built.workdir, 'stand-in')
    write(os.path.join(folder, 'xxhash.py'), 'import sys\n\nimport twox_hash\n\nsys.modules["xxhash"] = twox_hash\n')
    names = [name for name in ALL if name != 'interface']
    return pass_all(f'{path}:{folder}', *names, python=(python,), TWOX_HASH_OBJECTS='200000')


def of_another_python(built: Built, python: str) -> str:
    """The tests pass in another Python, with its own build."""
    name = os.path.abspath(python).strip('/').replace('/', '-')
    return in_another_python(
        built, site(built.workdir, name, packed(copied(os.path.join(built.workdir, name)), python)[1]), python
    )


def of_limited_interface(built: Built, pythons: Iterable[str]) -> str:
    """The tests pass with the wheel of the limited interface, in this Python and in others that it supports."""
    path = site(built.workdir, 'limited', packed(copied(os.path.join(built.workdir, 'limited')), '--limited')[1])
    found = must([PYTHON, '-c', 'import twox_hash; print(twox_hash._native.__file__)'], PYTHONPATH=path).strip()
    check(found.endswith('_native.abi3.so'), f'{found} runs')
    later = [
        python
        for python in pythons
        if run([python, '-c', 'import sys; sys.exit(sys.version_info < (3, 11))']).returncode == 0
    ]
    return ', '.join(
        [pass_all(path, TWOX_HASH_OBJECTS='200000'), *(in_another_python(built, path, it) for it in later)]
    )


def with_xxh(built: Built, xxh: str) -> str:
    """States are passed to the program xxh and back."""
    found = shutil.which(xxh)
    if not found:
        raise Fault(f'there is no program {xxh}')
    return pass_all(built.site, 'objects', XXH=os.path.abspath(found))
