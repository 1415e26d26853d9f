"""Runs the commands of the pages as they are printed, on a copy of this machine whose changes are discarded.

    checks/pages [--list] [PAGE..]

The pages are README.md, docs/*.md and the README of python/, rust/, web/ and examples/. All commands of a page run in
one shell, which begins at the top of a copy of the repository, with only Debian's own commands on PATH. The output that
a page shows after a command must be printed. Sections that need a package which this machine lacks are omitted, and so
is docs/RELEASES.md, which needs archives: `release/check` runs all, on fresh machines of Debian 12 and 13. cargo and a
C compiler are installed first, so that the README's first commands run.

--list names each block, with the reason of each that is never run. One line per page; the last is "N passed, M
failed". It runs as root on Debian, in a folder of its own, and takes a minute."""
import contextlib
import functools
import os
import subprocess
import tempfile

from checks.lib import command
from checks.lib.report import Fault, Report
from checks.lib.roots import CLONE, Root
from checks.lib.tools import clean_copy, install_packages, must

from . import printed

# Sections that must fail: each is wrong in one way.
PLANTED = {
    'a command that fails': 'true\nfalse\ntrue\n',
    'one that fails in front of another': 'false && true\ntrue\n',
    'another value': 'printf "2\\n"   # 1\n',
    'a value of the line before': 'printf "1\\n"\ntrue   # 1\n',
    'an end of the shell': 'exit 0\ntrue\n',
    'a folder that is nowhere': 'cd nowhere\n',
    'a package that no page names': 'command -v a-command-of-no-package\n',
}


@contextlib.contextmanager
def copy_of_machine(workdir):
    """A root with this machine's files, in which all writes are discarded."""
    upper, work, path = (os.path.join(workdir, name) for name in ('upper', 'work', 'root'))
    for folder in (upper, work, path):
        os.mkdir(folder)
    must(['mount', '-t', 'overlay', 'overlay', '-o', f'lowerdir=/,upperdir={upper},workdir={work}', path])
    try:
        must(['mount', '--bind', '/dev', os.path.join(path, 'dev')])
        must(['mount', '-t', 'proc', 'proc', os.path.join(path, 'proc')])
        yield Root(path)
    finally:
        must(['umount', '-R', '-l', path])


def suite_of_this_machine():
    with open('/etc/os-release') as file:
        return dict(line.strip().split('=', 1) for line in file if '=' in line).get('VERSION_CODENAME', '')


def is_installed(package):
    done = subprocess.run(['dpkg-query', '-W', '-f', '${Status}', package], capture_output=True, text=True)
    return done.stdout == 'install ok installed'


def print_list(pages):
    """Prints each block, and the number of each kind."""
    blocks = [
        (it, block) for page in pages for it in printed.sections(page, suite_of_this_machine()) for block in it.blocks
    ]
    for it, block in blocks:
        print(f'{it.page}:{block.line}: {it.heading}: {"not run: " + block.reason if block.reason else "run"}')
    left = sum(bool(block.reason) for _, block in blocks)
    print(f'{len(blocks)} blocks, {len(blocks) - left} of them run, {left} not')


@contextlib.contextmanager
def shell_at_top(workdir):
    """A shell of a copy of the machine, at the top of a copy of the repository."""
    with tempfile.TemporaryDirectory(dir=workdir) as place, copy_of_machine(place) as root:
        clean_copy(root.at(CLONE))
        yield functools.partial(root.run, folder=CLONE)


def runs_here(section):
    return printed.is_run(section) and all(map(is_installed, section.packages))


def check_page(workdir, sections):
    with shell_at_top(workdir) as shell:
        printed.run(sections, shell)
    return f'{sum(not block.reason for it in sections for block in it.blocks)} blocks'


def print_left(sections):
    """Prints what is omitted, and the missing packages for it."""
    for it in sections:
        if printed.is_run(it) and not runs_here(it):
            missing = sorted(package for package in it.packages if not is_installed(package))
            print(f'left out  {it.page}: {it.heading or "the first"}: this machine has no {", ".join(missing)}')


def check_planted(workdir):
    """Each planted section fails."""
    with shell_at_top(workdir) as shell:
        for name, text in PLANTED.items():
            try:
                printed.run(printed.sections('a page', '', f'## Planted\n\n```sh\n{text}```\n'), shell)
            except Fault:
                continue
            raise Fault(f'{name} was not noticed')
    return f'{len(PLANTED)} of them'


def main():
    parser = command.parser(__doc__)
    parser.add_argument('--list', action='store_true', help='list the blocks, and run none')
    parser.add_argument('pages', nargs='*', metavar='PAGE', help='the pages whose commands are run')
    given = parser.parse_args()
    pages = given.pages or printed.PAGES
    if given.list:
        print_list(pages)
        return 0
    cargo = 'cargo-web' if suite_of_this_machine() == 'bookworm' else 'cargo'
    install_packages({'/usr/bin/cargo': cargo, 'gcc': 'gcc', '/usr/include/stdio.h': 'libc6-dev'})
    report = Report()
    with tempfile.TemporaryDirectory(prefix='twox-pages-') as workdir:
        for page in pages:
            sections = printed.sections(page, suite_of_this_machine()) if page != printed.RELEASES else []
            chosen = list(filter(runs_here, sections))
            if chosen:
                report.attempt(page, check_page, workdir, chosen)
            print_left(sections)
        report.attempt('planted commands are noticed', check_planted, workdir)
    print_list(pages)
    return report.end()
