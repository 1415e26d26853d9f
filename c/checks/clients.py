"""Debian's own programs on our library, compared with the original. Each check runs a program on both, and on a
wrong library, which it must detect. Everything is done in folders of the check's own."""
import os
import shutil
import signal
import socket
import subprocess
import tempfile
import time
from typing import NamedTuple, Optional

from c.checks.sides import Side, check_library, loaded, run
from checks.lib.report import Fault, Report, check, last_line
from checks.lib.tools import free_port, write

HERE = os.path.dirname(os.path.abspath(__file__))
PYTHON = '/usr/bin/python3'


class Sides(NamedTuple):
    """The original, ours, ours with changed results, and ours with hashes that end the process."""

    theirs: Side
    ours: Side
    wrong: Side
    stopping: Optional[Side]


# ---- python3-xxhash ----


def python_hashes(sides: 'Sides') -> str:
    command = [PYTHON, '-B', os.path.join(HERE, 'python_hashes.py')]
    theirs, ours, wrong = (run(side, command) for side in (sides.theirs, sides.ours, sides.wrong))
    check(theirs.status == 0, last_line(theirs.out))
    check(ours.out == theirs.out, 'hashes differ from the original')
    check(wrong.out != theirs.out, 'a wrong library is not noticed')
    return f'{len(ours.out.splitlines())} lines are the same; a wrong library is noticed'


# ---- rsync ----


def rsync_source(folder):
    """Files of several lengths, and their destinations: older copies of them with some bytes changed."""
    source, target = os.path.join(folder, 'source'), os.path.join(folder, 'target')
    for length in (0, 1, 700, 5000, 300000, 3000000):
        write(os.path.join(source, f'file-{length}'), os.urandom(length))
    shutil.copytree(source, target)
    for name in os.listdir(target):
        path = os.path.join(target, name)
        with open(path, 'r+b') as file:
            file.seek(os.path.getsize(path) // 2)
            file.write(b'changed')
        os.utime(path, (0, 0))
    return source, target, write(os.path.join(folder, 'shell'), '#!/bin/sh\nshift\nexec sh -c "$*"\n', 0o755)


def rsync_run(folder, choice, sender, receiver):
    """Sends with one library and receives with the other. Returns how the sender ended, whether all files are equal,
    and what the receiver loaded."""
    source, target, shell = rsync_source(folder)
    logs = os.path.join(folder, 'receiver')
    set_here = ' '.join(f"{name}='{value}'" for name, value in receiver.variables(logs).items())
    remote = f'env -u LD_LIBRARY_PATH -u GLIBC_TUNABLES {set_here} rsync'
    done = run(
        sender,
        [
            *'rsync -a --checksum --no-whole-file'.split(),
            f'--checksum-choice={choice}',
            '--stats',
            '-e',
            shell,
            f'--rsync-path={remote}',
            source + '/',
            f'host:{target}/',
        ],
    )
    same = subprocess.run(['diff', '-rq', source, target], stdout=subprocess.DEVNULL).returncode == 0
    return done, same, loaded(logs)


def rsync_pair(choice, sender, receiver):
    with tempfile.TemporaryDirectory() as folder:
        done, same, files = rsync_run(folder, choice, sender, receiver)
        check(done.status == 0, last_line(done.out))
        check_library(receiver, files)
        check(same, 'the files differ')
        matched = [line for line in done.out.splitlines() if line.startswith('Matched data')]
        check(matched and 'Matched data: 0 ' not in matched[0], 'no block was matched')
        return matched[0]


def rsync_control(choice, sender, receiver):
    with tempfile.TemporaryDirectory() as folder:
        done, _, _ = rsync_run(folder, choice, sender, receiver)
        check(done.status != 0, 'a wrong library is not noticed')
        return f'noticed: {last_line(done.out)}'


# ---- borgbackup ----


def borg(side, folder, *args):
    return run(
        side,
        ['borg', *args],
        folder=folder,
        BORG_BASE_DIR=os.path.join(folder, side.name),
        BORG_UNKNOWN_UNENCRYPTED_REPO_ACCESS_IS_OK='yes',
        BORG_RELOCATED_REPO_ACCESS_IS_OK='yes',
    )


def borg_archive(folder, writer):
    source = os.path.join(folder, 'source')
    for length in (0, 10, 100000, 4000000):
        write(os.path.join(source, f'file-{length}'), os.urandom(length))
    for args in (['init', '-e', 'none', 'repository'], ['create', 'repository::one', 'source']):
        done = borg(writer, folder, *args)
        check(done.status == 0, last_line(done.out))


def borg_pair(writer, reader):
    """One side writes an archive; the other checks it, adds to it and extracts it."""
    with tempfile.TemporaryDirectory() as folder:
        borg_archive(folder, writer)
        os.mkdir(os.path.join(folder, 'out'))
        for side, where, args in (
            (reader, '', ['check', '--verify-data', 'repository']),
            (reader, '', ['create', 'repository::two', 'source']),
            (writer, '', ['check', 'repository']),
            (reader, 'out', ['extract', '../repository::one']),
        ):
            done = borg(side, os.path.join(folder, where), *args)
            check(done.status == 0 and 'ntegrity' not in done.out, last_line(done.out))
        same = subprocess.run(['diff', '-rq', 'source', 'out/source'], cwd=folder, stdout=subprocess.DEVNULL)
        check(same.returncode == 0, 'what was taken out differs')


def borg_control(writer, reader):
    with tempfile.TemporaryDirectory() as folder:
        borg_archive(folder, writer)
        done = borg(reader, folder, 'create', 'repository::two', 'source')
        lines = [line for line in done.out.splitlines() if 'ntegrity' in line]
        check(done.status != 0 or lines, 'a wrong library is not noticed')
        return f'noticed: {lines[0] if lines else last_line(done.out)}'


def borg_tests(sides):
    command = [PYTHON, '-B', os.path.join(HERE, 'borg_tests.py')]
    with tempfile.TemporaryDirectory() as folder:
        ours, wrong = (run(side, command, folder=folder, HOME=folder) for side in (sides.ours, sides.wrong))
    check(ours.status == 0, last_line(ours.out))
    check(wrong.status != 0, 'a wrong library is not noticed')
    return f'{last_line(ours.out)}; on a wrong library {last_line(wrong.out)}'


# ---- apt ----


def apt_root(folder):
    """A root for apt with a repository of test packages. Returns the environment variable with its path."""
    for part in ('etc/apt.conf.d', 'etc/preferences.d', 'repository', 'lists/partial', 'cache/archives/partial'):
        os.makedirs(os.path.join(folder, part))
    write(
        os.path.join(folder, 'repository/Packages'),
        ''.join(
            f'Package: made-up-{i}\nVersion: 1.{i}\nArchitecture: all\nMaintainer: nobody\nDepends: '
            f'made-up-{i // 2 + 1}\n'
            f'Filename: ./made-up-{i}.deb\nSize: {i}\nSHA256: {i:064d}\nDescription: package {i}\n\n'
            for i in range(300)
        ),
    )
    write(os.path.join(folder, 'etc/sources.list'), f'deb [trusted=yes] file:{folder}/repository ./\n')
    write(os.path.join(folder, 'etc/status'), '')
    settings = {
        'Dir::Etc': 'etc',
        'Dir::Etc::parts': 'etc/apt.conf.d',
        'Dir::Etc::main': 'etc/none',
        'Dir::State': '',
        'Dir::State::lists': 'lists',
        'Dir::State::status': 'etc/status',
        'Dir::Cache': 'cache',
    }
    return write(
        os.path.join(folder, 'conf'),
        'APT::Sandbox::User "root";\nDebug::pkgCacheGen "1";\n'
        + ''.join(f'{name} "{os.path.join(folder, path)}";\n' for name, path in settings.items()),
    )


def apt_accepts(side, conf):
    """True if apt accepts the existing cache, by the hash in it."""
    done = run(side, ['apt-cache', 'depends', 'made-up-7'], APT_CONFIG=conf)
    check(done.status == 0 and 'Depends: made-up-4' in done.out, last_line(done.out))
    return 'pkgcache.bin is valid' in done.out


def apt_pair(sides, writer, reader):
    """One side reads the lists and writes the cache; the other accepts it, and a wrong library doesn't."""
    with tempfile.TemporaryDirectory() as folder:
        conf = apt_root(folder)
        done = run(writer, ['apt-get', 'update'], APT_CONFIG=conf)
        check(done.status == 0, last_line(done.out))
        check(run(writer, ['apt-cache', 'gencaches'], APT_CONFIG=conf).status == 0, 'no cache was written')
        check(apt_accepts(reader, conf), 'the cache of the other side is not valid')
        check(not apt_accepts(sides.wrong, conf), 'a wrong library is not noticed')
        return 'the cache is valid; a wrong library is noticed'


# ---- gdb ----

PROGRAM = '''struct point { int across; double up; };
static int twice(int value) { return 2 * value; }
int main(void) { struct point p = { twice(21), 0.5 }; return p.across != 42; }
'''


def gdb_session(sides):
    with tempfile.TemporaryDirectory() as folder:
        write(os.path.join(folder, 'program.c'), PROGRAM)
        built = subprocess.run(['gcc', '-g', '-O0', 'program.c', '-o', 'program'], cwd=folder)
        check(built.returncode == 0, 'the program was not built')
        asked = (
            'info line twice',
            'ptype struct point',
            'info scope main',
            'info functions twice',
            'disassemble /s twice',
        )
        session = ['gdb', '-nx', '-batch', *[word for command in asked for word in ('-ex', command)], 'program']
        theirs, ours, stopped = (
            run(side, session, folder=folder) for side in (sides.theirs, sides.ours, sides.stopping)
        )
    check(theirs.status == 0 and 'double up;' in theirs.out, last_line(theirs.out))
    check(ours.out == theirs.out, 'the session differs')
    check(stopped.status != 0, 'gdb never asks the library')
    return f'{len(ours.out.splitlines())} lines are the same; a library that stops at each hash is noticed'


# ---- lighttpd ----


def listens(port):
    with socket.socket() as probe:
        return probe.connect_ex(('127.0.0.1', port)) == 0


def start_lighttpd(side, folder, port):
    """A server of the folder's pages that listens."""
    conf = os.path.join(folder, 'conf')
    write(
        conf,
        f'server.document-root = "{folder}/pages"\nserver.bind = "127.0.0.1"\nserver.port = {port}\n'
        'server.feature-flags = ("server.h2c" => "enable", "server.h2proto" => "enable")\n'
        'mimetype.assign = (".txt" => "text/plain")\n',
    )
    server = subprocess.Popen(
        ['lighttpd', '-D', '-f', conf],
        env=side.environment(os.path.join(folder, side.name)),
        stdout=subprocess.DEVNULL,
        stderr=subprocess.DEVNULL,
    )
    for _ in range(200):
        if listens(port):
            return server
        time.sleep(0.05)
    server.kill()
    raise Fault('lighttpd does not listen')


def lighttpd_answer(side, folder, *headers):
    """Requests a page from a server on this side by HTTP/2, whose headers lighttpd packs by XXH32. Returns the lines
    of the status and the ETag."""
    port = free_port()
    server = start_lighttpd(side, folder, port)
    page = f'http://127.0.0.1:{port}/page.txt'
    try:
        with open(f'/proc/{server.pid}/maps') as maps:
            files = {os.path.realpath(line.split()[-1]) for line in maps if 'libxxhash' in line}
        done = subprocess.run(
            ['curl', '-sI', '--noproxy', '*', '--http2-prior-knowledge', *headers, page],
            stdout=subprocess.PIPE,
            text=True,
            timeout=30,
        )
    finally:
        server.send_signal(signal.SIGTERM)
        server.wait(timeout=20)
    check_library(side, files)
    return [line.strip() for line in done.stdout.splitlines() if line.lower().startswith(('http/2', 'etag'))]


def lighttpd_tags(sides):
    with tempfile.TemporaryDirectory() as folder:
        os.mkdir(os.path.join(folder, 'pages'))
        write(os.path.join(folder, 'pages', 'page.txt'), 'a page\n')
        theirs = lighttpd_answer(sides.theirs, folder)
        check(len(theirs) == 2 and theirs[0] == 'HTTP/2 200', f'the original answers {theirs}')
        ours = lighttpd_answer(sides.ours, folder)
        check(ours == theirs, f'{ours} in place of {theirs}')
        tag = theirs[1].split(': ', 1)[1]
        known = lighttpd_answer(sides.ours, folder, '-H', f'If-None-Match: {tag}')
        check(known and known[0] == 'HTTP/2 304', f'a page that is known by the tag of the original: {known}')
        check(not lighttpd_answer(sides.stopping, folder), 'lighttpd never asks the library')
    return f'ETag {tag} on both; a library that stops at each hash is noticed'


def check_all(report: Report, sides: 'Sides') -> None:
    theirs, ours, wrong = sides.theirs, sides.ours, sides.wrong
    report.attempt('python3-xxhash', python_hashes, sides)
    for choice in ('xxh64', 'xxh3', 'xxh128'):
        for sender, receiver in ((ours, theirs), (theirs, ours), (ours, ours)):
            name = f'rsync {choice}: {sender.name} sends, {receiver.name} receives'
            report.attempt(name, rsync_pair, choice, sender, receiver)
        report.attempt(f'rsync {choice}: a wrong library sends', rsync_control, choice, wrong, theirs)
    report.attempt('borgbackup: ours writes, theirs checks', borg_pair, ours, theirs)
    report.attempt('borgbackup: theirs writes, ours checks', borg_pair, theirs, ours)
    report.attempt('borgbackup: a wrong library writes', borg_control, wrong, theirs)
    report.attempt("borgbackup's own tests", borg_tests, sides)
    report.attempt('apt: ours writes, theirs reads', apt_pair, sides, ours, theirs)
    report.attempt('apt: theirs writes, ours reads', apt_pair, sides, theirs, ours)
    report.attempt('gdb', gdb_session, sides)
    report.attempt('lighttpd', lighttpd_tags, sides)
