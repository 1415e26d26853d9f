"""The types: by mypy --strict, compared with the module itself, and in a program that uses them."""
import os
import re

from checks.lib.report import Report, check, last_line
from checks.lib.tools import write
from python.checks.environment import PYTHON, Built, must, run

MYPY = [PYTHON, '-m', 'mypy', '--strict', '--cache-dir=/dev/null']
RIGHT = '''
import io
import pathlib
import twox_hash as xxhash

whole: bytes = xxhash.xxh64_digest(b'some bytes', seed=1234)
text: str = xxhash.xxh3_128_hexdigest('text', 5, secret=bytes(200))
number: int = xxhash.xxh32_intdigest(memoryview(b'some'))
hasher: xxhash.xxh128 = xxhash.xxh3_128(bytearray(b'some'), secret=None)
hasher.update(b'more')
copied: xxhash.xxh3_128 = hasher.copy()
loaded: xxhash.xxh64 = xxhash.xxh64.from_state(xxhash.xxh64(b'some').state())
one: str = xxhash.file_digest(pathlib.Path('name'), 'xxh64', seed=3).hexdigest()
other: xxhash.xxh32 = xxhash.file_digest(io.BytesIO(b'some'), xxhash.xxh32)
rows: list[bytes] = xxhash.many([b'some', 'rows'])
filled: bytearray = xxhash.many(b'somerows', 'xxh32', width=4, into=bytearray(8))
names: list[str] = sorted(xxhash.algorithms_available) + [xxhash.VERSION, xxhash.XXHASH_VERSION, hasher.name]
sizes: list[int] = [hasher.seed, hasher.digest_size, hasher.digestsize, hasher.block_size, *xxhash.VERSION_TUPLE]
'''
WRONG = [
    "xxhash.xxh64_digest(5)",
    "xxhash.xxh64_digest()",
    "xxhash.xxh64_digest(b'a', 'seed')",
    "xxhash.xxh64_digest(b'a', secret=bytes(200))",
    "xxhash.xxh3_64(data=b'a')",
    "xxhash.xxh3_64(b'a', 1, bytes(200))",
    "xxhash.xxh64().update(5)",
    "xxhash.xxh64().seed = 5",
    "number: int = xxhash.xxh64().digest()",
    "hasher: xxhash.xxh64 = xxhash.xxh32().copy()",
    "xxhash.many(5)",
    "class Mine(xxhash.xxh64): ...",
    "rows: list[str] = xxhash.many([b'a'])",
    "xxhash.file_digest(b'a', 5)",
]


def program(built, name, text):
    return write(os.path.join(built.workdir, f'{name}.py'), text)


def stub_is_the_module(built):
    """Each name of the stub is a name of the extension, with its arguments, and none is missing."""
    done = run(
        [
            PYTHON,
            '-m',
            'mypy.stubtest',
            'twox_hash._native',
            'twox_hash._types',
            'twox_hash._states',
            'twox_hash.version',
        ],
        built.workdir,
        PYTHONPATH=built.site,
        MYPYPATH=built.site,
    )
    check(done.returncode == 0 and 'no issues' in done.stdout, done.stdout[:300])


def users_program(built):
    done = run([*MYPY, program(built, 'right', RIGHT)], built.workdir, MYPYPATH=built.site)
    check(done.returncode == 0, done.stdout[:300])
    lines = [f'{line}\n' for line in WRONG]
    wrong = run(
        [*MYPY, program(built, 'wrong', 'import twox_hash as xxhash\n' + ''.join(lines))],
        built.workdir,
        MYPYPATH=built.site,
    )
    noticed = set(map(int, re.findall(r'wrong\.py:(\d+): error', wrong.stdout)))
    left = [line for number, line in enumerate(WRONG, 2) if number not in noticed]
    check(not left, f'not noticed: {left}')
    return f'{len(WRONG)} wrong lines are noticed'


def check_all(report: Report, built: Built) -> None:
    report.attempt(
        'mypy --strict on the package', lambda: last_line(must([*MYPY, os.path.join(built.site, 'twox_hash')]))
    )
    report.attempt('the stub beside the extension', stub_is_the_module, built)
    report.attempt('mypy --strict on a program that uses it', users_program, built)
