"""The messages of commits: a subject of at most 72 characters, a blank line and a reason, and no absolute path of a
machine. Merges need no reason."""
import os
import re
from typing import Iterator, NamedTuple, Optional

from checks.lib.tools import TOP, must, ran

LONGEST_SUBJECT = 72
# The last commit before this rule, and its time, by which older commits are left out of a shallow clone without it.
BEFORE = '872982a251efeeba082410f927f93f55cc7e1717'
TIME_BEFORE = 1796068798
# Folders that every system has aren't a machine's own.
MACHINE_PATH = re.compile(r'(?:^|(?<=[\s\'"(=]))/(?!(?:dev|proc|sys|usr|etc|bin|lib)\b)[\w.+-]+(?:/[\w.+-]+)+', re.M)
# A line of names, as `Signed-off-by`.
TRAILER = re.compile(r'[\w-]+-by: .*')


class Commit(NamedTuple):
    name: str
    parents: list[str]
    time: int
    message: str


def faults(commit: Commit) -> Iterator[str]:
    """The faults of a commit's message."""
    subject, *body = commit.message.rstrip('\n').split('\n')
    if len(subject) > LONGEST_SUBJECT:
        yield f'a subject of {len(subject)} characters: {subject}'
    has_reason = any(line.strip() and not TRAILER.fullmatch(line) for line in body)
    if len(commit.parents) < 2 and not (has_reason and body[0] == ''):
        yield f'no blank line and reason after the subject: {subject}'
    yield from (f'a path of a machine: {found[0]}' for found in MACHINE_PATH.finditer(commit.message))


def commits(folder: str = TOP) -> Optional[list[Commit]]:
    """The commits since this rule that the clone has. None if it is no clone."""
    if not os.path.exists(os.path.join(folder, '.git')):
        return None
    git = ['git', '-C', folder]
    is_shallow = must([*git, 'rev-parse', '--is-shallow-repository']).strip() == 'true'
    has_older = not is_shallow and ran([*git, 'cat-file', '-e', BEFORE]).returncode == 0
    text = must([*git, 'log', '-z', '--format=%H%n%P%n%ct%n%B', 'HEAD', *([f'^{BEFORE}'] if has_older else [])])
    fields = [entry.split('\n', 3) for entry in text.split('\0') if entry]
    found = [Commit(name, parents.split(), int(time), message) for name, parents, time, message in fields]
    return [commit for commit in found if has_older or commit.time > TIME_BEFORE]
