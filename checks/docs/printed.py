"""The commands of the pages: the fenced blocks, and how they are run as they are printed.

A block is fenced as ```sh. The text after a command, after two spaces and a #, is a line that the command prints,
where `..` matches anything; a remark has a line of its own. All commands of a page are typed into one shell, in
their order. The packages that they need are listed in the text below their heading or above the first one, as
Debian: `gcc make` or, for only one release, as Debian 12: `cargo-web`. A block that can't be run has an invisible
line above it with the reason: <!-- not run: needs rt -->, or for only one release <!-- not run on Debian 12: its
Java lacks the interface -->."""
import os
import re
import subprocess
from typing import Callable, Iterable, Iterator, NamedTuple, Optional

from checks.lib.report import Fault, check, last_line
from checks.lib.tools import TOP, text_of

# The commands of RELEASES run in the folder of the archives, and those of every other page at the top of the
# repository.
RELEASES = 'docs/RELEASES.md'
PAGES = (
    *'README.md python/README.md rust/README.md web/README.md examples/README.md'.split(),
    *sorted(os.path.join('docs', name) for name in os.listdir(os.path.join(TOP, 'docs')) if name.endswith('.md')),
)
SUITES = {'12': 'bookworm', '13': 'trixie'}

PARTS = re.compile(
    r'^(?P<heading>##+ .*)\n'
    r'|^(?:<!-- not run(?: on Debian (?P<without>\d+))?: (?P<reason>.*) -->\n)?```sh\n(?P<text>(?:.*\n)*?)```$'
    r'|\bDebian(?: (?P<release>\d+))?: `(?P<packages>[^`]+)`',
    re.M,
)
SHOWN = re.compile(r'  +# (.+)$')
MARK = 'the-status-of-a-printed-command'


class Block(NamedTuple):
    """A block as it is printed, the number of the line above it, and why it can't be run, or None."""

    line: int
    text: str
    reason: Optional[str]


class Section(NamedTuple):
    """The blocks below a heading, and the packages that they need."""

    page: str
    heading: str
    blocks: list[Block]
    packages: set[str]


class Command(NamedTuple):
    """A command, its location, and its expected output or None."""

    where: str
    text: str
    shown: Optional[str]


def sections(page: str, suite: str, text: Optional[str] = None) -> list[Section]:
    """The sections of a page that have commands, in its form for a release of Debian."""
    text = text_of(page) if text is None else text
    found = [Section(page, '', [], set())]
    for part in PARTS.finditer(text):
        if part['heading']:
            found.append(Section(page, part['heading'].lstrip('# '), [], set(found[0].packages)))
        elif part['text'] is not None:
            reason = part['reason'] if SUITES.get(part['without'], suite) == suite else None
            found[-1].blocks.append(Block(text[: part.start('text')].count('\n'), part['text'], reason))
        elif SUITES.get(part['release'], suite) == suite:
            found[-1].packages.update(part['packages'].split())
    return [it for it in found if it.blocks]


def section_of(page: str, heading: str, suite: str) -> Section:
    for section in sections(page, suite):
        if section.heading == heading:
            return section
    raise Fault(f'{page} has no commands below {heading}')


def is_run(section: Section) -> bool:
    return not all(block.reason for block in section.blocks)


def is_whole(text: str) -> bool:
    """True if a shell accepts these lines without waiting for more, such as the end of a here-document."""
    done = subprocess.run(['bash', '-n'], input=text, capture_output=True, text=True, env={**os.environ, 'LC_ALL': 'C'})
    return done.returncode == 0 and 'here-document' not in done.stderr and not text.endswith('\\\n')


def commands(section: Section) -> Iterator[Command]:
    """The commands of a section that can be run."""
    for block in section.blocks:
        text = ''
        for number, line in enumerate(() if block.reason else block.text.splitlines(), block.line + 1):
            text += line + '\n'
            if is_whole(text):
                shown = SHOWN.search(line)
                if text.strip() and not text.lstrip().startswith('#'):
                    yield Command(
                        f'{section.page}:{number}: {line.strip()[:90]}', text, shown[1].strip() if shown else None
                    )
                text = ''
        check(not text.strip(), f'{section.page}:{block.line}: the shell waits for more')


def script(typed: Iterable[Command]) -> str:
    """A script of bash that runs the commands unchanged. It ends at the first that fails, and prints each one's
    status."""
    lines = [
        f"status_of_printed() {{ local status=$?; printf '\\n{MARK} %s\\n' $status; [ $status = 0 ] || exit $status; }}"
    ]
    for it in typed:
        lines += [it.text.rstrip('\n'), 'status_of_printed']
    return '\n'.join(lines) + '\n'


def is_printed(out: str, shown: str) -> bool:
    """True if a line of the output matches the page."""
    pattern = '.*'.join(map(re.escape, shown.split('..')))
    return any(re.fullmatch(pattern, line.strip()) for line in out.splitlines())


def run(
    sections_of_page: Iterable[Section],
    shell: Callable[[str], tuple[int, str]],
    installation: Callable[[list[str]], Optional[str]] = lambda packages: None,
) -> str:
    """Types sections into a shell, a function that runs a script and returns its status and its output. Returns the
    whole output. A command that fails, or prints something else than the page shows, is an error. The installation
    is a command that installs the packages of a section, or None."""
    typed = []
    for it in sections_of_page:
        first = installation(sorted(it.packages)) if is_run(it) else None
        typed += [Command(f'{it.page}, {it.heading}: {first}', first, None)] if first else []
        typed += commands(it)
    _, out = shell(script(typed))
    parts, statuses = re.split(rf'\n{MARK} \d+\n', out), re.findall(rf'\n{MARK} (\d+)\n', out)
    for number, one in enumerate(typed):
        status = statuses[number] if number < len(statuses) else 'none, since the shell ended'
        check(status == '0', f'{one.where}: status {status}: {last_line(parts[number])}')
        is_shown = not one.shown or is_printed(parts[number], one.shown)
        check(is_shown, f'{one.where}: prints {last_line(parts[number])!r}')
    return ''.join(parts)
