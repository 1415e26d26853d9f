"""The installed program xxhsum, compared with Debian's."""
import os
import tempfile

from checks.lib.report import check
from checks.lib.tools import TOP, must


def file_program_agrees(prefix: str) -> str:
    """Compares the xxhsum below this folder by each of its names with Debian's, with lists that one writes and the
    other checks, and tests its manual page."""
    file = os.path.join(TOP, 'LICENSE')
    for name in ('xxhsum', 'xxh32sum', 'xxh64sum', 'xxh128sum'):
        own, theirs = os.path.join(prefix, 'bin', name), f'/usr/bin/{name}'
        line = must([own, '-q', file])
        check(line == must([theirs, '-q', file]), f'{name} prints {line!r}')
        for maker, checker in ((own, theirs), (theirs, own)):
            check(
                must([checker, '-c'], stdin=line_file(must([maker, '-q', '--tag', file]))) == f'{file}: OK\n',
                f'{checker} refuses what {maker} printed',
            )
        check(os.path.isfile(os.path.join(prefix, f'share/man/man1/{name}.1')), f'{name} has no manual page')
    return 'lines and lists of four names'


def line_file(text):
    file = tempfile.TemporaryFile('w+')
    file.write(text)
    file.seek(0)
    return file
