"""Plants faults in the erased source of the programs, one at a time, and prints which of them the checks detect:

    rust/programs/checks/faults [--count N] [--seed N] [--only WORD]

A fault is one change of an operator, a constant, a byte or a statement, at a random place of the files that the
programs run. Then each of HANDWRITTEN is planted in src/rattle. Each program with a fault is compiled, and then checked
until something detects it: by checks/program, by random runs and refused memory compared with the program without a
fault, by checks/xxhsum --stored, by checks/failing_calls if it is there, and by cargo's tests. A check that crashes
ends this one. A fault that no run can show has its reason in EQUAL. It takes a minute for each of N faults, by default
30, so no other check runs it. --only tries those whose line contains the word. It needs what rust/programs/check needs,
and no rt. One line per fault; the last is "N passed, M failed"."""
import glob
import os
import random
import re
import resource
import shutil
import subprocess
import sys
import tempfile

from checks.lib import command
from checks.lib.report import Fault, Report, check, last_line
from checks.lib.tools import TOP, text_of, write
from rust.checks.workspace import Workspace
from rust.programs.checks import random_runs, refused

RUST = os.path.join(TOP, 'rust')
PROGRAMS = os.path.join(RUST, 'programs')

RULES = (
    (r' < ', ' <= '),
    (r' > ', ' >= '),
    (r' == ', ' != '),
    (r' && ', ' || '),
    (r' \+ 1\b', ' + 2'),
    (r'\btrue\b', 'false'),
    (r'\bfalse\b', 'true'),
    (r' - ', ' + '),
    (r'return Ok\(\w+\);', ''),
    (r'\b1\b', '0'),
    (r"b'([a-z])'", r"b'\1' ^ 1"),
    (r'(?m)^    +self\.\w+ [+-]?= [^;]+;', ';'),
    (r'if !', 'if '),
    (r'\.is_empty\(\)', '.len() == 1'),
    (r'return Err\(', 'let _ = ('),
)
# Files that the programs don't run: lemmas, which have no code, and streams in memory, which the tests of the crates
# use.
NOT_RUN = {'laws', 'script_sink', 'script_source', 'memory', 'good_lists', 'printed_lists'}
# Faults that no run can show: their lines, and the reason.
EQUAL = {'`self.end = len;` as `;`': 'a read that succeeds sets it again, and after one that fails the list ends'}
# Faults of the handwritten files: the file of src/rattle, the text, which it has once, and the faulty one.
ON_LINUX = 'let count = usize::try_from(count).map_err(|_| Error::last_os_error())?;'
RECORD = '        let name = records.get(NAME..usize::from(length))?;'
SYSTEMS = 'call(path).map_err(as_of_posix)'
HANDWRITTEN = {
    'a short write whose rest is dropped': (
        'io',
        'self.inner().write(bytes)',
        'self.inner().write(bytes).map(|_| bytes.len())',
    ),
    'EAGAIN is the end of the input': (
        'io',
        'self.inner().read(buf)',
        'match self.inner().read(buf) { Err(e) if e.raw_os_error() == Some(11) => Ok(0), it => it }',
    ),
    'each failed read has one reason': (
        'io',
        'self.inner().read(buf)',
        'self.inner().read(buf).map_err(|_| Error::from_raw_os_error(5))',
    ),
    'ESTALE is a missing file': (
        'fs',
        SYSTEMS,
        'call(path).map_err(|e| if e.raw_os_error() == Some(116) { Error::from_raw_os_error(2) } else { e })',
    ),
    'ENXIO is a missing file': (
        'fs',
        SYSTEMS,
        'call(path).map_err(|e| if e.raw_os_error() == Some(6) { Error::from_raw_os_error(2) } else { e })',
    ),
    'a removed folder is empty': (
        'fs',
        ON_LINUX,
        'if count < 0 && Error::last_os_error().raw_os_error() == Some(2) { return Ok(0); } ' + ON_LINUX,
    ),
    'a name of 236 bytes ends a folder': (
        'fs',
        'u16::from_ne_bytes(*records.get(LENGTH..)?.first_chunk()?)',
        'u16::from(*records.get(LENGTH)?)',
    ),
    'a record of type 0 ends a folder': ('fs', RECORD, 'if records.get(18) == Some(&0) { return None; } ' + RECORD),
    'a record of inode 0 ends a folder': ('fs', RECORD, 'if records.starts_with(&[0; 8]) { return None; } ' + RECORD),
    'a clock that may go back': ('clock', 'CLOCK_MONOTONIC: c_int = 1', 'CLOCK_MONOTONIC: c_int = 0'),
    'bytes after a JSON value are ignored': ('json_reader', 'if self.next_mark().is_some() {', 'if false {'),
}
# A check that takes longer has detected something.
SECONDS = 300
MEMORY = 2 * 2**30
QUICK = """
    --config profile.release.lto=false --config profile.release.codegen-units=16 --config
    profile.release.opt-level=1
""".split()


def sites(folder):
    """Each place of a fault: the file, its beginning and end, and the faulty text."""
    for path in sorted(glob.glob(os.path.join(folder, 'xxh*', '**', '*.rs'), recursive=True)):
        if os.path.basename(path).removesuffix('.rs') in NOT_RUN:
            continue
        text = text_of(path)
        for old, new in RULES:
            for found in re.finditer(old, text):
                line = text[text.rfind('\n', 0, found.start()) + 1 : text.find('\n', found.end())].strip()
                if not line.startswith(('//', 'use ', '#', 'pub mod', 'const')):
                    yield path, found.start(), found.end(), found.expand(new)


def line_at(text, begin, end):
    return ' '.join(text[text.rfind('\n', 0, begin) + 1 : text.find('\n', end)].split())


def planted(site, tree):
    """The text of the file, the one with the fault, and the place and the description of it."""
    path, begin, end, new = site
    text = text_of(path)
    wrong = text[:begin] + new + text[end:]
    where = f'{os.path.relpath(path, tree)}:{text.count(chr(10), 0, begin) + 1}'
    return text, wrong, f'{where}: `{line_at(text, begin, end)}` as `{line_at(wrong, begin, begin + len(new))}`'


def built(workspace, folder):
    """Both programs of a folder, by name, or None if they don't compile."""
    if workspace.cargo(folder, 'build', '--release', *QUICK).returncode:
        return None
    return {name: os.path.join(workspace.build_dir, name) for name in ('xxh', 'xxhsum')}


def limited():
    resource.setrlimit(resource.RLIMIT_AS, (MEMORY, MEMORY))


def fails(*args):
    """True if a check ends with failures, or doesn't end. A check that crashes ends this one."""
    try:
        done = subprocess.run(
            args,
            stdout=subprocess.PIPE,
            stderr=subprocess.PIPE,
            text=True,
            errors='replace',
            timeout=SECONDS,
            preexec_fn=limited,
        )
    except subprocess.TimeoutExpired:
        return True
    counts = re.fullmatch(r'\d+ passed, (\d+) failed', last_line(done.stdout))
    if not counts:
        sys.exit(f'{args[0]} crashed:\n{done.stderr[-2000:]}')
    return int(counts[1]) > 0


def differs(call, *args):
    """True if a comparison finds a difference, or a run doesn't end."""
    try:
        call(*args)
    except (Fault, subprocess.TimeoutExpired):
        return True
    return False


def refusals(programs, path):
    """True if a run without memory doesn't end as it should."""
    report = Report()
    os.mkdir(path)
    with open(os.devnull, 'w') as silent:
        there, sys.stdout = sys.stdout, silent
        try:
            refused.check_all(report, programs, path)
        finally:
            sys.stdout = there
    check(not report.failed, 'it fails')


def noticed_by(programs, right, path):
    """The check that detects the programs, or ''."""
    at_top = lambda name: os.path.join(TOP, 'checks', name)
    random_workdir = tempfile.mkdtemp(dir=path)
    if differs(random_runs.compare_runs, programs, right, 500, 7, random_workdir):
        return 'drawn runs'
    if fails(at_top('program'), programs['xxh']):
        return "xxh's table"
    if fails(at_top('xxhsum'), '--stored', programs['xxhsum']):
        return "xxhsum's table"
    if differs(refusals, programs, os.path.join(random_workdir, 'refusals')):
        return 'refused memory'
    failing = at_top('failing_calls')
    return 'failing calls' if os.path.exists(failing) and fails(failing, programs['xxhsum'], programs['xxh']) else ''


def handwritten_site(folder, file, old, new):
    """The place of a fault in src/rattle."""
    path = os.path.join(folder, 'src', 'rattle', f'{file}.rs')
    text = text_of(path)
    check(text.count(old) == 1, f'{file}.rs has {old!r} {text.count(old)} times')
    return path, text.index(old), text.index(old) + len(old), new


def tests_fail(workspace, folder):
    """True if a test of the package fails."""
    done = workspace.cargo(folder, 'test')
    check('test result: ' in done.stdout, last_line(done.stdout))
    return done.returncode != 0


def attempt(workspace, folder, site, right, report, only, name=''):
    """True if the fault compiled, and so was tried."""
    text, wrong, title = planted(site, os.path.join(folder, 'src'))
    if only not in (name or title):
        return False
    write(site[0], wrong)
    programs = built(workspace, folder)
    if programs:
        reason = EQUAL.get(title.split(': ', 1)[1])
        by = 'a fault that no run can show' if reason else noticed_by(programs, right, workspace.path)
        by = by or ("cargo's tests" if tests_fail(workspace, folder) else '')
        title = f'{name} ({title})' if name else title
        report.record(
            title, None if by else 'nothing notices it', f'{"because " if reason else "noticed by "}{reason or by}'
        )
    write(site[0], text)
    return bool(programs)


def main():
    parser = command.parser(__doc__)
    parser.add_argument('--count', metavar='N', type=int, default=30, help='how many faults are tried')
    parser.add_argument('--seed', metavar='N', type=int, default=1, help='the seed of the choice')
    parser.add_argument('--only', metavar='WORD', default='', help='the faults whose line contains the word')
    chosen, report = parser.parse_args(), Report()
    with tempfile.TemporaryDirectory(prefix='twox-faults-') as path:
        workspace = Workspace(path)
        folder, unchanged = os.path.join(workspace.rust, 'programs'), os.path.join(path, 'right')
        right = built(workspace, folder)
        check(right, 'the programs do not compile')
        os.mkdir(unchanged)
        right = {name: shutil.copy(program, unchanged) for name, program in right.items()}
        check(not noticed_by(right, right, path), 'the programs without a fault fail')
        random_sites = list(sites(os.path.join(folder, 'src', 'erased')))
        random.Random(chosen.seed).shuffle(random_sites)
        tried = 0
        for site in random_sites:
            if tried < chosen.count:
                tried += attempt(workspace, folder, site, right, report, chosen.only)
        for name, fault in HANDWRITTEN.items():
            attempt(workspace, folder, handwritten_site(folder, *fault), right, report, chosen.only, name)
    sys.exit(report.end())
