"""The package for other processors under qemu, in Debian's Python for each."""
import os
from typing import NamedTuple

from checks.lib.arm_roots import debian_root
from checks.lib.report import Report, check
from checks.lib.tools import replace_once
from python.checks.builds import text_is_proved
from python.checks.environment import copied, packed, run, site
from python.checks.planted import Mistake, noticed
from python.checks.suite import pass_all, tests


class Target(NamedTuple):
    """A processor by Debian's name: the compiler's prefix, the emulator, the machine as Python and the wheel name it,
    and the calls."""

    architecture: str
    tools: str
    emulator: str
    machine: str
    calls: str


TARGETS = {
    'aarch64': Target('arm64', 'aarch64-linux-gnu-', 'qemu-aarch64', 'aarch64', 'aarch64'),
    'i386': Target('i386', 'i686-linux-gnu-', 'qemu-i386', 'i686', 'source'),
    's390x': Target('s390x', 's390x-linux-gnu-', 'qemu-s390x', 's390x', 'source'),
}
# Mistakes that these processors show.
FAULTS = {
    's390x': [
        Mistake(
            'bytes are swapped on each processor',
            'python/native/values.c',
            'if (IS_LITTLE_ENDIAN) word',
            'word',
            'values',
        ),
        Mistake(
            'a saved state in one byte order',
            'python/src/twox_hash/_states.py',
            "'=5QI4xQ32s'",
            "'<5QI4xQ32s'",
            'objects',
        ),
    ],
    'i386': [
        Mistake('a mark of 32 bits', 'python/native/source.c', '.mark = mark,', '.mark = (size_t)mark,', 'objects')
    ],
}
# Fewer objects are made, since each step takes ten times as long.
FEWER = {'TWOX_HASH_OBJECTS': '10000', 'timeout': 7200}


def packages(target: 'Target') -> dict[str, str]:
    """The packages that build for a target and run its programs, by a file of each."""
    folder = target.tools[:-1]
    return {
        f'/usr/bin/{target.tools}gcc': f'gcc-{folder}',
        f'/usr/bin/{target.emulator}': 'qemu-user',
        f'/usr/{folder}/include/stdio.h': f'libc6-dev-{target.architecture}-cross',
    }


class Emulated:
    """A target with Debian's Python for it, and builds by Debian's cross compiler."""

    def __init__(self, target, workdir):
        self.target, self.workdir = target, workdir
        self.root = debian_root(
            os.path.join(workdir, 'debian'),
            'libc6',
            'python3-xxhash',
            'libpython3.11-dev',
            architecture=target.architecture,
        )
        self.python = (f'/usr/bin/{target.emulator}', '-L', self.root, f'{self.root}/usr/bin/python3.11')

    def built(self, name, mistake=None):
        """The wheel's files, with a mistake in the sources."""
        clone = os.path.join(self.workdir, name)
        folder = copied(clone)
        if mistake:
            replace_once(os.path.join(clone, mistake.file), mistake.old, mistake.new)
        wheel = packed(folder, CC=f'{self.target.tools}gcc', CFLAGS=f'-idirafter {self.root}/usr/include')[1]
        check(wheel.endswith(f'linux_{self.target.machine}.whl'), f'the wheel is {wheel}')
        return site(self.workdir, name, wheel)


def tests_pass(emulated):
    """Compared with Debian's python3-xxhash for the processor."""
    path = emulated.built('plain')
    done = run(
        [*emulated.python, '-c', 'import platform, twox_hash; print(platform.machine(), twox_hash.instruction_set)'],
        PYTHONPATH=path,
    )
    check(done.stdout.split() == [emulated.target.machine, emulated.target.calls], done.stdout[-200:])
    return pass_all(path, python=emulated.python, **FEWER)


def notices(emulated, number, mistake):
    built = emulated.built(f'planted-{number}', mistake)
    return noticed(tests(built, mistake.tests, python=emulated.python, **FEWER))


def check_all(report: Report, name: str, workdir: str) -> None:
    target = TARGETS[name]
    if target.calls != 'source':
        report.attempt(
            'what the assembler makes of the text, beside what was proved',
            text_is_proved,
            workdir,
            target.machine,
            target.tools,
        )
    emulated = Emulated(target, workdir)
    report.attempt(f'the tests on {name} under qemu', tests_pass, emulated)
    for number, mistake in enumerate(FAULTS.get(name, [])):
        report.attempt(f'noticed: {mistake.name}', notices, emulated, number, mistake)
