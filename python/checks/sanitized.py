"""The C of the package under AddressSanitizer and UndefinedBehaviorSanitizer, called with hostile buffers (fuzz.py)."""
import os

from checks.lib.report import Report, check, last_line
from checks.lib.tools import replace_once
from python.checks.environment import PYTHON, PYTHON_FOLDER, copied, must, packed, run, site

HERE = os.path.dirname(os.path.abspath(__file__))
TURNS, SEED = 60000, 1
FLAGS = '-g -fsanitize=address,undefined -fno-sanitize-recover=all'
# Python and its memory are not instrumented: its leaks are ignored, and failed allocations return null.
OPTIONS = 'detect_leaks=0:allocator_may_return_null=1'


def built_so(workdir, name, file='', *change, **more):
    """A folder for PYTHONPATH with the package built with the sanitizers, and with the module hostile. `change` is a
    mistake in a file."""
    clone = os.path.join(workdir, name)
    folder = copied(clone)
    if change:
        replace_once(os.path.join(clone, file), *change)
    path = site(workdir, name, packed(folder, CFLAGS=FLAGS, **more)[1])
    must(
        [
            *'/usr/bin/gcc -shared -fPIC -O1 -I'.split(),
            must([PYTHON, '-c', 'import sysconfig; ' 'print(sysconfig.get_path("include"))']).strip(),
            os.path.join(HERE, 'hostile.c'),
            '-o',
            os.path.join(path, 'hostile.so'),
        ]
    )
    return path


def sanitized(path, *args):
    """Runs Python with the runtimes of the sanitizers."""
    runtimes = [must(['/usr/bin/gcc', f'-print-file-name=lib{name}.so']).strip() for name in ('asan', 'ubsan')]
    return run(
        [PYTHON, '-B', *args],
        PYTHON_FOLDER,
        PYTHONPATH=path,
        PYTHONMALLOC='malloc',
        LD_PRELOAD=':'.join(runtimes),
        ASAN_OPTIONS=OPTIONS,
    )


def fuzz(path):
    return sanitized(path, os.path.join(HERE, 'fuzz.py'), str(TURNS), str(SEED))


def first_error(done):
    return next(
        (line for line in done.stdout.splitlines() if 'ERROR' in line or 'error' in line), last_line(done.stdout)
    )


def passes(workdir):
    done = fuzz(built_so(workdir, 'sanitized'))
    check(done.returncode == 0, first_error(done))
    return last_line(done.stdout)


def source_refuses_forged_states(workdir, *change):
    """Objects over the code of xxhash.h, with forged states too."""
    name = 'sanitized-source-wrong' if change else 'sanitized-source'
    return sanitized(built_so(workdir, name, *change, TWOX_HASH_SOURCE='1'), '-m', 'unittest', 'tests.test_objects')


def source_passes(workdir):
    done = source_refuses_forged_states(workdir)
    check(done.returncode == 0, first_error(done))


def source_notices(workdir):
    """Without the test of the buffer's usage, the sanitizer ends the process."""
    done = source_refuses_forged_states(
        workdir, 'python/native/source.c', ' && saved->waiting <= sizeof saved->buffer', ''
    )
    check(done.returncode and 'Sanitizer' in done.stdout, f'it is not noticed: {last_line(done.stdout)}')


def notices(workdir):
    """Without the test of the number of digests, the sanitizer ends the process."""
    done = fuzz(
        built_so(
            workdir,
            'sanitized-wrong',
            'python/native/many.c',
            'digests > PY_SSIZE_T_MAX / algorithm->digest_bytes',
            '0',
        )
    )
    check(done.returncode and 'AddressSanitizer' in done.stdout, f'it is not noticed: {last_line(done.stdout)}')


def check_all(report: Report, workdir: str) -> None:
    report.attempt('hostile shapes, strides and buffers under ASan and UBSan', passes, workdir)
    report.attempt('noticed there: sizes that wrap', notices, workdir)
    report.attempt('objects over the code of xxhash.h there', source_passes, workdir)
    report.attempt('noticed there: a usage beyond the buffer', source_notices, workdir)
