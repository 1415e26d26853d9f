"""The library's names and values, compared with another's: Debian's, or the reference's header."""
import os
import subprocess
from typing import Sequence

from c.checks.library import C, Built
from checks.lib.report import check
from checks.lib.tools import bytes_of, must, ran

# What release 0.8.3 has in addition to the names of 0.8.1, on x86-64.
NEWER = {'XXH_featureTest'}


def exported(path: str) -> set[str]:
    return {line.split()[-1] for line in must(['nm', '-D', '--defined-only', path]).splitlines()}


def names_are_theirs(path: str, their_path: str) -> str:
    ours, theirs = exported(path), exported(their_path)
    newer = NEWER if 'XXH3_64bits_dispatch' in theirs else set()
    check(not theirs - ours, f'without {", ".join(sorted(theirs - ours))}')
    check(ours - theirs == newer, f'with {", ".join(sorted(ours - theirs))}')
    return f'all {len(theirs)}' + ''.join(f', and {name}' for name in sorted(newer))


def table_agrees(args: list[str]) -> str:
    """A program that prints the oracle's table."""
    done, table = subprocess.run(args, stdout=subprocess.PIPE, timeout=300), bytes_of('oracle/vectors.txt')
    check(done.returncode == 0 and done.stdout == table, 'the table is another')
    return f'{len(table.splitlines()) - 1} rows'


def calls_program(built: Built, name: str, *flags: str) -> str:
    """checks/calls.c, which compares two libraries."""
    return built.program(name, os.path.join(C, 'checks', 'calls.c'), '-pthread', *flags)


def calls(program, their_path, path, count, *args, **variables):
    done = ran([*program, their_path, path, str(count), *args], timeout=1200, env={**os.environ, **variables})
    return done.returncode, done.stdout


def calls_agree(program: Sequence[str], their_path: str, path: str, count: int, *args: str, **variables: str) -> str:
    status, out = calls(program, their_path, path, count, *args, **variables)
    faults = [line.strip() for line in out.splitlines() if ' 0 differ' not in line]
    check(status == 0, ' / '.join(faults)[:400] or f'status {status}')
    groups = [line.strip().split(': ') for line in out.splitlines() if ' 0 differ' in line]
    return '; '.join(f'{name} {found.split()[0]}' for name, found in groups)


def freed_states_are_refused(program: Sequence[str], their_path: str, path: str, count: int) -> str:
    """Memory that held a state and was freed is no state, with the content that free leaves or overwrites."""
    return '; '.join(
        calls_agree(program, their_path, path, count, '--freed', **variables)
        for variables in (dict[str, str](), {'MALLOC_PERTURB_': '170'})
    )


def calls_notice(program: Sequence[str], their_path: str, path: str, count: int) -> str:
    status, out = calls(program, their_path, path, count)
    check(status == 1, f'status {status}')
    return '; '.join(line.strip() for line in out.splitlines() if 'compared' in line)
