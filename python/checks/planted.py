"""Wrong builds, each of which the tests must detect."""
import os
import subprocess
from typing import Iterable, NamedTuple

from checks.lib.report import Report, check, last_line
from checks.lib.tools import replace_once, text_of, write
from python.checks.environment import copied, packed, site
from python.checks.suite import first_failure, tests


class Mistake(NamedTuple):
    """A wrong text in place of one that a file below a clone has once, and the tests that must detect it."""

    name: str
    file: str
    old: str
    new: str
    tests: str


PLANTED = [
    Mistake(
        'one function exchanged for another',
        'python/native/algorithms.c',
        '.hash = hash_3_##bits,',
        '.hash = hash_64,',
        'values',
    ),
    Mistake(
        'a seed that has no effect',
        'python/native/algorithms.c',
        'withSeed(input, length, key->seed)',
        'withSeed(input, length, 0)',
        'values',
    ),
    Mistake(
        'halves of 128 bits exchanged',
        'python/native/values.c',
        'write_word(digest, value.high64);',
        'write_word(digest, value.low64);',
        'values',
    ),
    Mistake(
        'a secret that is never looked at',
        'python/native/algorithms.c',
        'if (!key->secret) return as_##bits',
        'if (1) return as_##bits',
        'values',
    ),
    Mistake(
        'short secrets are let through', 'python/native/arguments.c', 'bytes->view.len >= LEAST_SECRET', '1', 'values'
    ),
    Mistake(
        'a seed that is a float',
        'python/native/arguments.c',
        'else if (PyLong_Check(seed))',
        'else if (1)',
        'interface',
    ),
    Mistake('two names exchanged', 'python/native/arguments.c', '(name, "input")', '(name, "data")', 'interface'),
    Mistake(
        'a copy that is the object itself',
        'python/native/hasher.c',
        'return (PyObject *)copy;',
        'Py_DECREF(copy); return Py_NewRef((PyObject *)hasher);',
        'objects',
    ),
    Mistake(
        'a reset that forgets the seed',
        'python/native/hasher.c',
        'hasher->algorithm->start(hasher->state, &key);',
        'hasher->algorithm->start(hasher->state, &(struct key){0});',
        'objects',
    ),
    Mistake(
        'forged states are let through',
        'python/src/twox_hash/_states.py',
        'if usage >= self.stripe or total < WORD - 1 and usage != total % self.stripe:',
        'if False:',
        'objects',
    ),
    Mistake(
        'buffers that are never given back',
        'python/native/arguments.h',
        'if (bytes->is_view) PyBuffer_Release',
        'if (0) PyBuffer_Release',
        'leaks',
    ),
    Mistake('objects that are never freed', 'python/native/hasher.c', 'PyObject_Free(hasher);', '', 'leaks'),
    Mistake('a reference that is never given back', 'python/native/saved.c', 'Py_XDECREF(state);', '', 'leaks'),
    Mistake(
        'the interpreter is held in a long call',
        'python/native/values.h',
        'if (length < LONG_INPUT)',
        'if (1)',
        'threads',
    ),
    Mistake(
        'an object is not locked in a long update',
        'python/native/hasher.c',
        'PyThread_acquire_lock(hasher->lock, WAIT_LOCK);\n    hasher->algorithm->take(hasher->state, start, length);\n'
        '    PyThread_release_lock(hasher->lock);',
        'hasher->algorithm->take(hasher->state, start, length);',
        'threads',
    ),
    Mistake(
        'the last piece of a file is left out',
        'python/src/twox_hash/_files.py',
        'hasher.update(buffer[:length])',
        'hasher.update(buffer[:length - 1])',
        'files',
    ),
    Mistake(
        'rows without their odd byte',
        'python/native/many.c',
        'rows->width, rows->width, key)',
        'rows->width, rows->width & ~(size_t)1, key)',
        'many',
    ),
    Mistake(
        'a wrong row leaves digests behind',
        'python/native/many.c',
        'destination->has_view && !may_fail',
        'destination->has_view',
        'many',
    ),
    Mistake(
        'sizes that wrap', 'python/native/many.c', 'digests > PY_SSIZE_T_MAX / algorithm->digest_bytes', '0', 'many'
    ),
    Mistake(
        'a stripe too few is counted',
        'python/native/source.c',
        '(saved->waiting + length - state->buffered) / 64',
        '0',
        'objects',
    ),
    Mistake(
        'a secret of a stream that is never looked at',
        'python/native/source.c',
        'state->secret = secret;',
        'state->secret = saved->secret;',
        'objects',
    ),
    Mistake(
        'a reader that lies is believed',
        'python/src/twox_hash/_files.py',
        'not 0 < length <= PIECE_BYTES',
        'False',
        'files',
    ),
]


def noticed(done: subprocess.CompletedProcess[str]) -> str:
    """The test that failed first, if one did."""
    check(done.returncode == 1 and 'FAILED (' in done.stdout, f'no test fails: {last_line(done.stdout)}')
    return first_failure(done.stdout).split(':')[0]


def notices(workdir, number, mistake):
    """A build with the mistake fails its tests."""
    clone = os.path.join(workdir, f'planted-{number}')
    folder = copied(clone)
    replace_once(os.path.join(clone, mistake.file), mistake.old, mistake.new)
    source = {'TWOX_HASH_SOURCE': '1'} if mistake.file.endswith('source.c') else {}
    wheel = packed(folder, CFLAGS='-Wno-unused-variable -Wno-unused-parameter', **source)[1]
    return noticed(tests(site(workdir, f'planted-{number}', wheel), mistake.tests, TWOX_HASH_OBJECTS='200000'))


def constant_is_noticed(workdir, instructions):
    """The first prime of XXH64, changed in the assembly source of an instruction set."""
    clone = os.path.join(workdir, f'planted-{instructions}')
    folder = copied(clone)
    path = os.path.join(clone, 'c', 'asm', f'{instructions}.s')
    text = text_of(path)
    check('0x9e3779b185ebca87' in text, f'{path} has no such constant')
    write(path, text.replace('0x9e3779b185ebca87', '0x9e3779b185ebca89'))
    path = site(workdir, f'planted-{instructions}', packed(folder)[1])
    return noticed(tests(path, 'values', TWOX_HASH_INSTRUCTIONS=instructions))


def check_all(report: Report, workdir: str, sets: Iterable[str]) -> None:
    for number, mistake in enumerate(PLANTED):
        report.attempt(f'noticed: {mistake.name}', notices, workdir, number, mistake)
    for instructions in sets:
        report.attempt(f'noticed: a constant of {instructions}', constant_is_noticed, workdir, instructions)
