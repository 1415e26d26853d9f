"""`xxhsum` with streams that are terminals: tests of checks/xxhsum.

Each test runs the program with some of its streams on pseudo-terminals, which are read to their end after the
program has ended. Its clock is that of known_clock.c, so progress is compared byte by byte. A test is its
name, and its error, or nothing."""
import concurrent.futures
import contextlib
import itertools
import os
import pty
import re
import signal
import subprocess
import tempfile
import threading
import time
from typing import Any, Collection, Iterator, Optional, Sequence, Union

from checks.lib.tools import TOP, must, write

from . import messages, runs

# The time after which a program that hangs is killed. On a busy machine a long file takes a minute.
SECONDS = 300
KIB, MIB = 1 << 10, 1 << 20
STEP = 64 * MIB
LONG = 130 * MIB
# Files with no bytes on the disk: one so long that the rest takes many seconds, and one of more than a tebibyte.
VAST = 1 << 38
TEBIBYTE_AND_MORE = (1 << 40) + (1 << 36)
# The rate of the known clock in KiB per second, and that of one that fails or goes back, which counts as a
# millisecond.
RATE, RATE_OF_NO_TIME = 128000, STEP // KIB * 1000
# The line of progress from which on the program's start time is negligible.
SETTLED = 2048
WIDTHS = (80, 40, 20, 10)
# A cleared row, no wrapping from here on, and wrapping again.
EMPTY_ROW, ONE_ROW, ROW_END = b'\r\x1b[K', b'\x1b[?7l', b'\x1b[?7h\r'
SETTINGS = {**runs.SETTINGS, 'TERM': 'xterm'}


def line_of_progress(count, size, rate=RATE):
    """The output to a terminal after this many bytes: for a file of this size, or for one of unknown size."""
    left = b', %d s left' % ((size - count) // KIB // rate) if size else b''
    return EMPTY_ROW + ONE_ROW + b'%d MiB, %d MiB/s' % (count // MIB, rate // KIB) + left + ROW_END


def progress_of(length, is_known):
    """The output to a terminal for a file of this length, or for an input."""
    lines = [line_of_progress(count, length if is_known else 0) for count in range(STEP, length + 1, STEP)]
    return b''.join([*lines, EMPTY_ROW]) if lines else b''


OF_INPUT, OF_FILE, NOTHING = progress_of(LONG, False), progress_of(LONG, True), b''


def known_clock(folder):
    """The clock, compiled as a library to preload."""
    library, source = os.path.join(folder, 'clock.so'), os.path.join(TOP, 'checks', 'programs', 'known_clock.c')
    must(['gcc', '-O1', '-shared', '-fPIC', '-o', library, source, '-ldl'])
    return {**SETTINGS, 'LD_PRELOAD': library}


def read_to_end(stream):
    """Everything from a pipe or a terminal, up to its end, which is an error if no process has the terminal open."""
    parts = []
    with contextlib.suppress(OSError):
        while part := os.read(stream, 65536):
            parts.append(part)
    return b''.join(parts)


class Ends:
    """The two sides of a stream of the program: its own, and ours, which is read to its end while it runs."""

    def __init__(self, is_terminal):
        self.ours, self.theirs = pty.openpty() if is_terminal else os.pipe()
        self.reader = concurrent.futures.ThreadPoolExecutor(1)
        self.all = self.reader.submit(read_to_end, self.ours)

    def close(self):
        """The output of the program, after it has ended."""
        os.close(self.theirs)
        text = self.all.result()
        self.reader.shutdown()
        os.close(self.ours)
        return text


def run(
    program: str, args: Sequence[Any], terminals: Any = ('err',), given: Any = os.devnull, settings: Any = SETTINGS
) -> tuple[bytes, bytes, Union[int, str]]:
    """The output and errors of the program, and its status, with these streams on terminals. Its input is this file,
    or a terminal without input."""
    ends = {name: Ends(name in terminals) for name in ('out', 'err')}
    keyboard = pty.openpty() if 'in' in terminals else (os.open(given, os.O_RDONLY),)
    try:
        status: Union[int, str] = subprocess.run(
            [program, *args],
            stdin=keyboard[-1],
            stdout=ends['out'].theirs,
            stderr=ends['err'].theirs,
            env=settings,
            timeout=SECONDS,
            check=False,
        ).returncode
    except subprocess.TimeoutExpired:
        status = f'not ended after {SECONDS} s'
    finally:
        for end in keyboard:
            os.close(end)
    return ends['out'].close(), ends['err'].close(), status


# ---- progress


class Rows:
    """A terminal of this many columns: the rows that it shows, as far as the output of `xxhsum` controls them."""

    def __init__(self, columns):
        self.columns, self.rows, self.column, self.wraps = columns, [[]], 0, True

    def put(self, letter):
        if self.column == self.columns and self.wraps:
            self.rows.append([])
            self.column = 0
        self.column = min(self.column, self.columns - 1)
        row = self.rows[-1]
        row.extend(' ' * (self.column + 1 - len(row)))
        row[self.column] = letter
        self.column += 1

    def show(self, text):
        for sequence in re.findall(rb'\x1b\[[?0-9]*[A-Za-z]|[^\x1b]', text):
            if sequence == b'\r':
                self.column = 0
            elif sequence == b'\x1b[K':
                del self.rows[-1][self.column :]
            elif sequence in (b'\x1b[?7l', b'\x1b[?7h'):
                self.wraps = sequence.endswith(b'h')
            else:
                self.put(sequence.decode('latin-1'))


def rows_left(sent, columns):
    """The error on a terminal of this many columns after this output: more rows than one, or something left there."""
    terminal = Rows(columns)
    terminal.show(sent)
    rows = [''.join(row).rstrip() for row in terminal.rows]
    return '' if rows == [''] and terminal.wraps else f'at {columns} columns {rows!r} is left'


def shows(program, args, expected, given, settings):
    """The error in the progress of a run whose standard error is a terminal: in the output, in what is left on a
    terminal of any width, or in the output and the status compared with those of a run without."""
    out, sent, status = run(program, args, given=given, settings=settings)
    silent = run(program, args, terminals=(), given=given)
    if sent != expected:
        return f'expected {expected!r}, found {sent!r}'
    if (out, b'', status) != silent:
        return f'found {(out, status)!r}, and with no terminal {silent!r}'
    return ''.join(rows_left(sent, columns) for columns in WIDTHS)


def shown_until(program, args, is_enough, settings):
    """The output of a run to a terminal; the run is ended as soon as that is enough."""
    ours, theirs = pty.openpty()
    sent = b''
    process = subprocess.Popen(
        [program, *args], stdin=subprocess.DEVNULL, stdout=subprocess.DEVNULL, stderr=theirs, env=settings
    )
    os.close(theirs)
    limit = threading.Timer(SECONDS, process.kill)
    limit.start()
    with contextlib.suppress(OSError):
        while not is_enough(sent) and (part := os.read(ours, 65536)):
            sent += part
    limit.cancel()
    process.kill()
    process.wait()
    os.close(ours)
    return sent


def settled_line(sent):
    """The numbers of the first settled line of progress, or None."""
    lines = re.findall(rb'([0-9]+) MiB, ([0-9]+) MiB/s, ([0-9]+) s left', sent)
    return next((tuple(map(int, line)) for line in lines if int(line[0]) >= SETTLED), None)


def begins_with(program, size, lines, settings):
    """The error in the first lines of progress of a file of this size."""
    expected = b''.join(lines)
    with tempfile.NamedTemporaryFile() as file:
        file.truncate(size)
        sent = shown_until(program, ['-H3', file.name], lambda sent: len(sent) >= len(expected), settings)
    return '' if sent.startswith(expected) else f'expected {expected!r}, found {sent!r}'


def shows_of(program, size, expected, settings):
    """The error in the progress of a file of this size, which is read to its end."""
    with tempfile.NamedTemporaryFile() as file:
        file.truncate(size)
        _, sent, _ = run(program, ['-H3', file.name], settings=settings)
    return '' if sent == expected else f'expected {expected!r}, found {sent!r}'


def keeps_time(program):
    """The error in the rate of a long file and in the time left: compared with our clock, and with its size."""
    began = time.monotonic()
    with tempfile.NamedTemporaryFile() as file:
        file.truncate(VAST)
        found = settled_line(shown_until(program, ['-H3', file.name], settled_line, SETTINGS))
    if not found:
        return 'no line of progress'
    count, rate, left = found
    seconds = time.monotonic() - began
    by_clock, rest = count / seconds, (VAST // MIB - count) / max(rate, 1)
    if not by_clock / 4 < rate < by_clock * 4:
        return f'{rate} MiB/s are told, and by the clock it is {by_clock:.0f}'
    if not rest * 0.9 - 1 < left < rest * 1.1 + 1:
        return f'{left} s left are told, and by rate and size it is {rest:.0f}'
    return ''


def clears_at(program, number, settings):
    """The error in what is left on the terminal if a signal ends the program in the middle of a file. The programs that
    `rt` builds have no handler."""
    version = subprocess.run([program, '--version'], stdout=subprocess.PIPE, check=True).stdout
    if b'compiled by rustc' not in version:
        return ''
    ours, theirs = pty.openpty()
    with tempfile.NamedTemporaryFile() as file:
        file.truncate(VAST)
        process = subprocess.Popen(
            [program, '-H3', file.name],
            stdin=subprocess.DEVNULL,
            stdout=subprocess.DEVNULL,
            stderr=theirs,
            env=settings,
            preexec_fn=lambda: signal.signal(number, signal.SIG_DFL),
        )
        os.close(theirs)
        sent = b''
        while ROW_END not in sent:
            sent += os.read(ours, 65536)
        process.send_signal(number)
        sent += read_to_end(ours)
    os.close(ours)
    if process.wait(SECONDS) != -number:
        return f'the status is {process.returncode}'
    return ''.join(rows_left(sent, columns) for columns in WIDTHS)


# ---- which of the streams are terminals


def does(program, args, terminals, given, expected, settings=SETTINGS):
    """The error in the output, the errors and the status of a run with these streams on terminals. For a usage error
    the first line is compared."""
    out, err, status = run(program, args, terminals, given, settings)
    if err.startswith(b'Wrong parameters'):
        err = err.split(b'\n')[0] + b'\n'
    had = (out.replace(b'\r\n', b'\n'), err.replace(b'\r\n', b'\n'), status)
    return '' if had == expected else f'expected {expected!r}, found {had!r}'


# ---- control characters

# Names that control a terminal: by an escape sequence, a control character of two bytes, and DEL; and one that does
# not.
PAINTING = (b'esc\x1b[2K\x07', b'\xc3\xa9\x1b[1A', b'c1\xc2\x9b2K', b'del\x7f', b'plain \xc3\x80')


def visible(name):
    """A name as it is sent to a terminal."""
    if not re.search(rb'[\x00-\x1f\x7f]|\xc2[\x80-\x9f]', name):
        return name
    return re.sub(rb'[^\x20-\x7e]', lambda byte: b'\\x%02x' % byte[0][0], name)


def painting_cases(program, workdir):
    """Messages on standard error, checks and audits on standard output, with names that control a terminal: made
    visible on a terminal, and unchanged elsewhere."""
    names = [os.fsencode(workdir) + b'/' + name for name in PAINTING]
    gone = [name + b'-gone' for name in names]
    for name in names:
        write(name, b'hello')
    lines = write(os.path.join(workdir, 'painting'), b''.join(b'26c7827d889f6da3  %s\n' % name for name in names))
    counts = b'%d same, 0 changed, 0 moved, 0 copied, 0 new, 0 missing, 0 unreadable\n' % len(names)
    for terminals in ((), ('out',), ('err',), ('out', 'err')):
        on_out, on_err = (visible if stream in terminals else bytes for stream in ('out', 'err'))
        where = ', '.join(terminals) or 'none'
        unopened = b''.join(messages.unopened(on_err(name)) for name in gone)
        checked = b''.join(on_out(name) + b': OK\n' for name in names)
        audited = b''.join(on_out(name) + b': same\n' for name in sorted(names))
        for title, args, expected in (
            ('messages', gone, (b'', unopened, 1)),
            ('a check', ['-c', lines], (checked, b'', 0)),
            ('an audit', ['--audit', lines, *names], (audited + counts, b'', 0)),
        ):
            yield f'control characters in {title}, terminals: {where}', (
                does,
                program,
                args,
                terminals,
                os.devnull,
                expected,
            )


def combinations_over(program, long, settings):
    """Progress on each combination of terminals: only on standard error, and with the same output as without any."""
    out, _, status = run(program, ['-H3', long], ())
    for chosen in itertools.product((False, True), repeat=3):
        terminals = tuple(itertools.compress(('in', 'out', 'err'), chosen))
        expected = (out, OF_FILE if 'err' in terminals else NOTHING, status)
        yield f'progress of a file, terminals: {", ".join(terminals) or "none"}', (
            does,
            program,
            ['-H3', long],
            terminals,
            os.devnull,
            expected,
            settings,
        )


def progress_cases(program, short, long, lists):
    """Runs with progress, and without any."""
    (names, digests), folder = lists, os.path.dirname(long)
    cases = {
        'progress of input': (['-'], OF_INPUT, long),
        'progress of input, -H2': (['-H2', '-'], OF_INPUT, long),
        'progress of a file': (['-H3', long], OF_FILE, short),
        'progress below a folder': (['-rH3', folder], OF_FILE, short),
        'progress of the names in a list': (['-H3', '--files-from', names], OF_FILE, short),
        'progress of an audit': (['--audit', digests, long], OF_FILE, short),
        'progress of an audit below a folder': (['-r', '--audit', digests, folder], OF_FILE, short),
        'progress of an audit of the names in a list': (['--audit', '--files-from', digests, names], OF_FILE, short),
        'no progress below a folder under -q': (['-qrH3', folder], NOTHING, short),
        'no progress of an audit under -q': (['-q', '--audit', digests, long], NOTHING, short),
        'no progress of an audit under --status': (['--status', '--audit', digests, long], NOTHING, short),
        'no progress under -q': (['-q', '-'], NOTHING, long),
        'no progress of a file under -q': (['-qH3', long], NOTHING, short),
        'no progress under --status': (['--status', '-'], NOTHING, long),
        'no progress of a short file': ([short], NOTHING, short),
    }
    return {name: (shows, program, *case) for name, case in cases.items()}


def time_cases(program, settings):
    """The rate and the time left, by a known clock."""
    tebibyte = TEBIBYTE_AND_MORE
    first = [line_of_progress(count, tebibyte) for count in (STEP, 2 * STEP, 3 * STEP)]
    unknown = [line_of_progress(STEP, LONG, RATE_OF_NO_TIME)]
    failing, going_back = ({**settings, name: '1'} for name in ('CLOCK_FAILS', 'CLOCK_GOES_BACK'))
    return {
        'the rate and the time left': (keeps_time, program),
        'the rate and the time left of more than a tebibyte': (begins_with, program, tebibyte, first, settings),
        'the rate by a clock that fails': (begins_with, program, LONG, unknown, failing),
        'the rate by a clock that goes back': (begins_with, program, LONG, unknown, going_back),
    }


def terminal_cases(program, short, long, lists, settings):
    """Each test by its name: its function and arguments. The files have `hello`, and LONG bytes; one of the lists
    names the long file, and one has a wrong digest for it."""
    of_short, refused = (b'26c7827d889f6da3  stdin\n', b'', 0), (b'', messages.wrong(), 1)
    return {
        **progress_cases(program, short, long, lists),
        **time_cases(program, settings),
        'no progress on a dumb terminal': (shows_of, program, STEP, NOTHING, {**settings, 'TERM': 'dumb'}),
        'SIGINT clears the line of progress': (clears_at, program, signal.SIGINT, SETTINGS),
        'SIGTERM clears the line of progress': (clears_at, program, signal.SIGTERM, SETTINGS),
        'no progress below 64 MiB': (shows_of, program, STEP - 1, NOTHING, settings),
        'progress from 64 MiB on': (shows_of, program, STEP, progress_of(STEP, True), settings),
        'nobody types': (does, program, [], ('in',), short, refused),
        'nobody types, and all are terminals': (does, program, [], ('in', 'out', 'err'), short, refused),
        'a file as input, and errors are a terminal': (does, program, [], ('err',), short, of_short),
        'a file as input, and the output is a terminal': (does, program, [], ('out',), short, of_short),
        'a file as input, and both are terminals': (does, program, [], ('out', 'err'), short, of_short),
        **dict(combinations_over(program, long, settings)),
        **dict(painting_cases(program, os.path.dirname(short))),
    }


def cases_on_terminals(program: str, names: Optional[Collection[str]] = None) -> Iterator[tuple[str, Optional[str]]]:
    """The tests, or those of these names: each by its name, with its error, or nothing."""
    with tempfile.TemporaryDirectory() as workdir:
        os.mkdir(os.path.join(workdir, 'folder'))
        long = os.path.join(workdir, 'folder', 'long')
        with open(long, 'wb') as file:
            file.truncate(LONG)
        short, names_list, digests = (os.path.join(workdir, name) for name in ('short', 'names', 'digests'))
        for path, text in (
            (short, 'hello'),
            (names_list, f'{long}\n'),
            (digests, f'XXH3 ({long}) = 0123456789abcdef\n'),
        ):
            write(path, text)
        settings = known_clock(workdir)
        for name, (check, *given) in terminal_cases(program, short, long, (names_list, digests), settings).items():
            if names is None or name in names:
                yield name, check(*given, settings) if check is shows else check(*given)


# Programs that do one thing wrong with the real one, and the tests that must detect it.
PLANTED_ON_TERMINALS = {
    'a line that nobody wants': (
        'echo seen >&2; exec "$REAL" "$@"',
        {
            'no progress under -q',
            'no progress of a file under -q',
            'no progress under --status',
            'no progress of a short file',
            'no progress below a folder under -q',
            'no progress of an audit under -q',
            'no progress of an audit under --status',
            'progress of a file, terminals: in, out',
        },
    ),
    'no line at all': (
        'exec "$REAL" "$@" 2>/dev/null',
        {
            'progress of input',
            'progress of a file',
            'progress below a folder',
            'progress of the names in a list',
            'progress of an audit',
            'progress of an audit below a folder',
            'progress of an audit of the names in a list',
        },
    ),
    'a line that comes late': (
        '"$REAL" "$@"; status=$?; sleep 0.3; echo late >&2; exit $status',
        {'no progress under -q', 'no progress of a file under -q', 'no progress under --status'},
    ),
    'a rate that no machine has': ('printf "2048 MiB, 4000000000 MiB/s, 0 s left" >&2', {'the rate and the time left'}),
    'a clock that is not asked': (
        'unset LD_PRELOAD; exec "$REAL" "$@"',
        {'progress of a file', 'progress of input', 'the rate and the time left of more than a tebibyte'},
    ),
    'names that paint': (
        'exec 3>&1; "$REAL" "$@" 2>&1 >&3 | cat >&2',
        {'control characters in messages, terminals: err'},
    ),
    'no progress where the output is a terminal': (
        '[ -t 1 ] && exec 2>/dev/null; exec "$REAL" "$@"',
        {'progress of a file, terminals: out, err', 'progress of a file, terminals: in, out, err'},
    ),
}
