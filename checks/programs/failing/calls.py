"""Makes each system call of `xxhsum` and `xxh` fail in turn.

    checks/failing_calls XXHSUM XXH [--all] [--no-memory] [--readdir] [--only WORD] [--jobs N]

Each scenario is run once unchanged, and then with one call failing, by strace: each call from `main` on that opens,
reads, writes, looks up, lists a directory, closes or tests for a terminal, with each error of its kind; and each
call for memory, with all those after it. A run must end as scenarios.py and judge.py expect: with the correct output
and status, or with a message that names what failed, and only true lines. A failed close or look-up of a terminal
changes nothing; `xxhsum` repeats an interrupted read. It tries some calls of each scenario, of each kind the first
and one at random, or each with --all. Wrong results are planted, which must be detected. It takes any two programs
by their paths, and installs Debian's strace and xxhash. The last line is "N passed, M failed"."""
import concurrent.futures
import os
import random
import subprocess
import tempfile

from checks.lib import command
from checks.lib.report import Report, check
from checks.lib.tools import install_packages

from .. import messages
from . import judge, planted, scenarios, traces, worlds

PACKAGES = {'strace': 'strace', 'xxhsum': 'xxhash'}
# One seed, so that each run tries the calls of the run before.
SEED = 20261129
VANISHED = 'a name that vanishes before it is looked up'
# The maximum length of a fault's output.
SHOWN = 1500


def streams_of(scenario, world):
    """The streams of a run, as arguments for `subprocess`, and those to close afterwards."""
    given = scenarios.input_of(scenario, world)
    errors = subprocess.STDOUT if scenario.out == 'merged' else subprocess.PIPE
    streams = {'stdin': given, 'stdout': subprocess.PIPE, 'stderr': errors}
    opened = [given]
    if scenario.given == 'closed' or scenario.out == 'closed':
        number = 0 if scenario.given == 'closed' else 1
        streams['preexec_fn'] = lambda: os.close(number)
    if scenario.out == 'full':
        streams['stdout'] = open('/dev/full', 'wb')
        opened.append(streams['stdout'])
    elif scenario.out == 'broken':
        reads, writes = os.pipe()
        os.close(reads)
        streams['stdout'] = os.fdopen(writes, 'wb')
        opened.append(streams['stdout'])
    return streams, opened


def run(scenario, programs, world, injections=()):
    """A run of the scenario, with these faults."""
    streams, opened = streams_of(scenario, world)
    with tempfile.NamedTemporaryFile() as trace:
        try:
            args = [programs[scenario.program], *scenario.args]
            return traces.traced(args, injections, streams, world.folder, trace.name)
        finally:
            for file in opened:
                file.close()


def chosen(tries, is_all, rng):
    """All tries, or of each call's name and error the first and one more."""
    if is_all:
        return tries
    groups = {}
    for at, name, error in tries:
        groups.setdefault((name, error), []).append((at, name, error))
    return [it for group in groups.values() for it in dict.fromkeys((group[0], rng.choice(group)))]


def is_left_out(call, error, given):
    """True if the options leave out this error. For POSIX's `readdir`, a removed directory is an empty one."""
    return given.no_memory and error == 'ENOMEM' or given.readdir and (call.name, error) == ('getdents64', 'ENOENT')


def tries_of(scenario, calls, given):
    """Each call that is to fail, by its index and name, with each error. Memory fails from the call on, if it does."""
    return [
        (at, call.name, error)
        for at, call in enumerate(calls)
        if judge.is_tried(scenario, calls, at)
        for error in judge.errors_of(call)
        if not is_left_out(call, error, given)
    ]


def injections_of(done, at, error):
    if error == 'ENOMEM':
        return traces.memory_injections(done.before, done.calls, at)
    return traces.injection(done.before, done.calls, at, error)


def shown(scenario, at, name, error, fault, failed):
    detail = f'{fault}\n  found {(failed.out, failed.err, failed.status)!r}'
    return f'{scenario.name}: call {at + 1} of `main`, {name}, {error}: {detail:.{SHOWN}}'


def over_calls(scenario, programs, world, given):
    """The runs of a scenario: their number, and the errors of each."""
    done = run(scenario, programs, world)
    right = judge.right_of(scenario, done)
    if (done.out, done.err, done.status) != judge.text(right):
        return 1, [f'{scenario.name}: expected {judge.text(right)!r:.{SHOWN}}, found {done[:3]!r:.{SHOWN}}']
    if not done.calls:
        return 1, [f'{scenario.name}: no call after `main` began']
    tries = chosen(tries_of(scenario, done.calls, given), given.all, random.Random(f'{SEED} {scenario.name}'))
    faults = []
    for at, name, error in tries:
        failed = run(scenario, programs, world, injections_of(done, at, error))
        fault = judge.fault_in(scenario, right, done.calls, at, error, failed)
        if fault:
            faults.append(shown(scenario, at, name, error, fault, failed))
    return len(tries), faults


def detects(title, programs, world, selected):
    """True if a planted result is detected, and the result that it replaces is not."""
    name, call, error, wrong = planted.PLANTED[title]
    scenario = selected[name]
    done = run(scenario, programs, world)
    right = judge.right_of(scenario, done)
    at = planted.failing_call(done.calls, call, error, judge.errors_of)
    failed = run(scenario, programs, world, injections_of(done, at, error))
    check(
        not judge.fault_in(scenario, right, done.calls, at, error, failed),
        'the result without it is not as it has to be',
    )
    check(judge.fault_in(scenario, right, done.calls, at, error, wrong(failed)), 'it is not detected')


def vanishes(programs, world):
    """A name that vanishes between the listing of its directory and its look-up is unreadable, as one that vanishes
    later, and the audit goes on."""
    args, gone = [programs['xxhsum'], '-r', '--audit', 'below', 'd'], 'd/inner'
    with scenarios.input_of(scenarios.Scenario('', (), None), world) as given, tempfile.NamedTemporaryFile() as trace:
        streams = {'stdin': given, 'stdout': subprocess.PIPE, 'stderr': subprocess.PIPE}
        done = traces.traced(args, (), streams, world.folder, trace.name)
        calls = [at for at, call in enumerate(done.calls) if call.target == gone]
        failed = traces.traced(
            args, traces.vanishing(done.before, done.calls, calls), streams, world.folder, trace.name
        )
    lines = done.out.decode().splitlines(keepends=True)
    counts = lines[-1].replace('4 same', '3 same').replace('0 unreadable', '1 unreadable')
    out = ''.join([*lines[1:-1], f'{gone}: unreadable\n', counts])
    err = messages.unopened(gone).decode()
    check(lines[0] == f'{gone}: same\n' and len(calls) > 1, f'the run without it prints {lines}')
    check((failed.out.decode(), failed.err.decode(), failed.status) == (out, err, 1), f'{failed[:3]}')


def main():
    parser = command.parser(__doc__, 'scenarios')
    parser.add_argument('xxhsum', help='the program xxhsum')
    parser.add_argument('xxh', help='the program xxh')
    parser.add_argument('--all', action='store_true', help='try each call')
    parser.add_argument('--no-memory', action='store_true', help='leave out the calls for memory')
    parser.add_argument(
        '--readdir', action='store_true', help="the programs list directories by the C library's `readdir`"
    )
    parser.add_argument('--jobs', type=int, default=2, help='how many runs at a time')
    given = parser.parse_args()
    install_packages(PACKAGES)
    programs = {'xxhsum': os.path.abspath(given.xxhsum), 'xxh': os.path.abspath(given.xxh)}
    report = Report()
    with tempfile.TemporaryDirectory() as workdir, concurrent.futures.ThreadPoolExecutor(given.jobs) as pool:
        world = worlds.World(os.path.join(workdir, 'files'))
        every = [scenario for group in scenarios.GROUPS for scenario in group(world)]
        selected = [it for it in every if given.only in it.name]
        for scenario, (count, faults) in zip(
            selected, pool.map(lambda scenario: over_calls(scenario, programs, world, given), selected)
        ):
            for fault in faults:
                print(f'FAILED  {fault}')
            print(f'{scenario.name}: {count} failing calls, {len(faults)} wrong', flush=True)
            report.count(count - len(faults), len(faults))
        if given.only in VANISHED:
            report.attempt(VANISHED, vanishes, programs, world)
        for title in planted.PLANTED if not given.only else ():
            report.attempt(f'planted, {title}', detects, title, programs, world, {it.name: it for it in every})
    return report.end()
