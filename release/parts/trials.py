"""Acts as each user of a release, or of a clone of the repository, on a separate machine, by the commands of the pages
as they are printed."""
import functools
import os
import re
from typing import Any, Callable, Iterable, NamedTuple, Optional

from checks.docs import printed
from checks.lib.report import Fault, check
from checks.lib.roots import CLONE, TAKEN
from checks.lib.tools import TOP, four_hashes, must, text_of
from release.parts import outputs
from release.parts.packing import read_tar

LICENSE = os.path.join(TOP, 'LICENSE')
OURS = {'The library for C': '/opt/{stem}-c-x86_64/lib/', 'The Debian package': '/usr/lib/twox-hash/lib/'}
NODE_PROGRAM = b'''import { load, toHex, xxh64 } from "twox_hash";
await load();
console.log(toHex(xxh64(new TextEncoder().encode("some bytes"), 1234n), "xxh64"));
'''
SOME_BYTES = 'eab55659a496d78b'
# Prints the completions of `xxhsum --rec` by bash, from the archive's folder `share`.
COMPLETED = (
    '. {}/bash-completion/completions/xxh32sum; COMP_WORDS=(xxhsum --rec); COMP_CWORD=1; _xxhsum; '
    'printf %s "${{COMPREPLY[@]}}"'
)
SERVED = '''import sys, urllib.request
for name in sys.argv[1:]:
    answer = urllib.request.urlopen('http://localhost:8642/' + name)
    print(name, len(answer.read()), answer.headers['Content-Type'])
'''


class Trial(NamedTuple):
    """A user: the trial's name, its releases of Debian, its heading in docs/RELEASES.md, or None, and its function."""

    name: str
    suites: tuple[str, ...]
    heading: Optional[str]
    check: Callable[..., Any]


def typed(root, heading, *numbers, **variables):
    """Runs the blocks of docs/RELEASES.md below a heading, or some of them, as they are printed, and returns their
    output."""
    section = printed.section_of(printed.RELEASES, heading, root.suite)
    blocks = [section.blocks[number] for number in numbers] or section.blocks
    return printed.run([section._replace(blocks=blocks)], functools.partial(root.run, **variables))


def runs_on_ours(root, heading, *numbers):
    """Programs of Debian, as on the page, that load only our library."""
    out = typed(root, heading, *numbers, LD_DEBUG='libs', LD_DEBUG_OUTPUT='/tmp/loaded')
    found = re.findall(r'calling init: (\S*libxxhash\S*)', root.must('cat /tmp/loaded.*; rm -f /tmp/loaded.*'))
    ours = OURS[heading].format(stem=root.stem)
    check(found and all(path.startswith(ours) for path in found), f'{set(found)} is loaded')
    return f'{len(found)} programs on it', out


def copies(root, name):
    """Checks that rsync has written the bytes of a file to /tmp."""
    root.must(f'cmp {name} /tmp/{os.path.basename(name)}')


def library(root):
    before = root.files()
    note, out = runs_on_ours(root, 'The library for C')
    hashes = four_hashes(LICENSE)
    check(out.count(hashes) == 2, f'the four hashes are printed {out.count(hashes)} times, not twice')
    copies(root, f'/opt/{root.stem}-c-x86_64/LICENSE')
    root.must(f'rm -r /opt/{root.stem}-c-x86_64')
    check(root.files() == before, f'{sorted(root.files() ^ before)[:3]} is left')
    return f'by pkg-config and by CMake; {note}; nothing is left'


def package(root):
    before, heading = root.files(), 'The Debian package'
    typed(root, heading, 0)
    note, _ = runs_on_ours(root, heading, 1)
    copies(root, 'SHA256SUMS')
    check('PROVENANCE' in root.must('ls /usr/share/doc/twox-hash'), 'without PROVENANCE')
    typed(root, heading, 2)
    check(root.files() == before, f'{sorted(root.files() ^ before)[:3]} is left')
    return f'{note}; nothing is left'


def glibc_of(root):
    """The oldest glibc for the programs, as on the page."""
    folder = root.at(f'{TAKEN}/{root.stem}-programs-x86_64/libexec')
    files = [os.path.join(place, name) for place, _, names in os.walk(folder) for name in names]
    names = set(re.findall(r'GLIBC_([\d.]+)', must(['objdump', '-T', *files])))
    oldest = max(names, key=lambda name: tuple(map(int, name.split('.'))))
    check(
        f'glibc {oldest} or later' in text_of(printed.RELEASES),
        f'they need glibc {oldest}, and the page says something else',
    )
    return oldest


def runs_anywhere(root):
    """The static programs in an otherwise empty root, and all on a processor without AVX2."""
    folder = root.at(f'{TAKEN}/{root.stem}-programs-x86_64')
    static = os.path.join(folder, 'static')
    for command in (
        ['chroot', static, '/xxh'],
        ['qemu-x86_64', '-cpu', 'Nehalem', f'{static}/xxh'],
        ['qemu-x86_64', '-cpu', 'Nehalem', f'{folder}/bin/xxh'],
    ):
        check(
            must([*command, 'hash', '64', '1234'], input='some bytes').strip() == SOME_BYTES,
            f'{command} prints another',
        )
    line = must([f'{static}/xxhsum', '-q', LICENSE])
    check(line == must(['xxhsum', '-q', LICENSE]), f'static/xxhsum prints {line}')


def cargo_programs(root):
    """The programs that cargo built, which are static, in an empty root, and on a processor without AVX2."""
    typed(root, 'The programs, by cargo')
    folder = root.at(f'{TAKEN}/{root.stem}-cargo-programs-x86_64/bin')
    for command in (['chroot', folder, '/xxh'], ['qemu-x86_64', '-cpu', 'Nehalem', f'{folder}/xxh']):
        check(
            must([*command, 'hash', '64', '1234'], input='some bytes').strip() == SOME_BYTES,
            f'{command} prints another',
        )
    path = f'PATH={TAKEN}/{root.stem}-cargo-programs-x86_64/bin:$PATH'
    for name in ('xxhsum', 'xxh32sum', 'xxh64sum', 'xxh128sum', 'xxh3sum'):
        root.must(f'{path} {name} /etc/passwd > list; {path} {name} -c list')
    found = must(['bash', '-c', COMPLETED.format(root.at(f'{TAKEN}/{root.stem}-cargo-programs-x86_64/share'))])
    check(found == '--recursive', f'bash completes --rec to {found}')
    version = must([f'{folder}/xxhsum', '--version']).strip()
    check('compiled by rustc from proved source' in version, version)
    return version


def programs(root):
    """The programs in an empty root, and lists of Debian's xxhsum, which is installed afterwards."""
    typed(root, 'The programs')
    root.install('xxhash')
    path = f'PATH={TAKEN}/{root.stem}-programs-x86_64/bin:$PATH'
    files = '/etc/passwd /bin/bash "a name"'
    for flags in ('', '-H0', '-H2', '--tag -H3'):
        root.must(
            f'echo some > "a name"; /usr/bin/xxhsum {flags} {files} > theirs; {path} xxhsum -c theirs; '
            f'{path} xxhsum {flags} {files} > ours; /usr/bin/xxhsum -c ours'
        )
    for name in ('xxhsum', 'xxh32sum', 'xxh64sum', 'xxh128sum', 'xxh3sum'):
        root.must(f'{path} {name} /etc/passwd')
    runs_anywhere(root)
    status, out = root.run(f'sed s/^./x/ theirs > wrong; {path} xxhsum -c --strict wrong')
    check(status == 1, f'a wrong list has the status {status}')
    return f'lists of both, by four hashes; glibc {glibc_of(root)} or later'


def crate(root):
    """examples/rust, with the page's lines instead of its patch."""
    typed(root, 'The crate for cargo')
    root.must(
        'cd twox-hash-2.1.5; find . -type f ! -name PROVENANCE -printf "%P\\n" | sort > ../held; cargo package --list '
        '--allow-dirty --offline '
        '| grep -vx "Cargo.lock\\|Cargo.toml.orig" | sort | diff ../held - >&2'
    )
    root.copy(os.path.join(TOP, 'examples', 'rust'), 'program')
    manifest = text_of(os.path.join(TOP, 'examples', 'rust', 'Cargo.toml')).split('[patch.')[0]
    (patch,) = re.findall(r'```toml\n(\[patch.*?)```', text_of(printed.RELEASES), re.S)
    root.write('program/Cargo.toml', (manifest + patch.replace('"twox-hash', '"../twox-hash')).encode())
    root.copy(LICENSE, 'LICENSE')
    out = root.must('cd program; rm -f Cargo.lock; cargo run -q --offline --release ../LICENSE')
    check(out == four_hashes(LICENSE), f'the four hashes are not printed, but {out[-200:]}')
    return root.must('rustc --version').strip()


def python(heading, root):
    typed(root, heading)
    return removed_by_pip(root)


def removed_by_pip(root):
    root.must('env/bin/pip uninstall -q -y twox-hash')
    left = root.must("find env -iname '*twox*'")
    check(not left, f'{left.split()[:3]} is left')
    return root.must('env/bin/python --version').strip() + '; nothing is left'


def node(root):
    root.write('package.json', b'{ "private": true, "type": "module" }')
    typed(root, 'The package for Node')
    root.write('program.mjs', NODE_PROGRAM)
    flags, (status, out) = '', root.run('node program.mjs')
    if status:
        check('unsupported' in out or 'memory64' in out, out[-200:])
        flags = ' --experimental-wasm-memory64'
        out = root.must(f'node{flags} program.mjs')
    check(out.strip().endswith(SOME_BYTES), out[-100:])
    root.must('npm uninstall twox_hash')
    check(not root.must("find node_modules -path '*twox*' 2> /dev/null || true"), 'files are left')
    return f'Node {root.must("node --version").strip()}{flags}; nothing is left'


def static_page(root):
    """Each file of the page as Python's server serves it."""
    names = [name.split('/', 1)[1] for name in read_tar(root.at(f'{TAKEN}/{root.stem}-page.tar.gz'))]
    root.write('served.py', SERVED.encode())
    (block,) = printed.section_of(printed.RELEASES, 'The page', root.suite).blocks
    out = root.must(
        f'set -m\n({block.text}) > log 2>&1 &\nserver=$!\ntrap "kill -- -$server" EXIT\nsleep 3\n'
        f'python3 served.py {" ".join(names)}'
    )
    check(len(out.splitlines()) == len(names), out[-200:])
    check('.wasm' in out and 'application/wasm' in out and 'web/index.html' in out, 'without its module')
    return f'{len(names)} files'


def built_without_rt(root):
    """release/make --without-rt with the packages of the page, by a user who may install nothing, with only Debian's
    cargo, under umask 077 in a path with a space: everything it writes equals the full release, except PROVENANCE."""
    (packages,) = re.findall(r"It needs Debian 12's packages `(.*?)`", text_of(printed.RELEASES))
    root.install(*packages.split())
    clone = root.at('/srv/a clone')
    must(['git', 'clone', '-q', TOP, clone])
    must(['git', '-C', clone, 'checkout', '-q', outputs.commit_of(root.at(TAKEN))])
    root.must(
        'chown -R nobody /srv; umask 077; runuser -u nobody -- env HOME=/srv TMPDIR="/srv/a clone" '
        '"/srv/a clone/release/make" --without-rt /srv/made'
    )
    outputs.all_users_can_read(root.at('/srv/made'))
    # The Debian packages of the whole release have the programs that rt built.
    has_rt = 'none: release/make --without-rt' not in text_of(root.at(f'{TAKEN}/PROVENANCE'))
    names = sorted(
        name
        for name in set(os.listdir(root.at('/srv/made'))) - {'PROVENANCE', 'SHA256SUMS'}
        if not (has_rt and name.endswith('.deb'))
    )
    other = [
        name
        for name in names
        if not os.path.exists(root.at(f'{TAKEN}/{name}'))
        or outputs.members(root.at(f'/srv/made/{name}')) != outputs.members(root.at(f'{TAKEN}/{name}'))
    ]
    check(names and not other, f'other than the whole release has them: {", ".join(other)}')
    return f'{len(names)} files, {root.must("cargo --version").strip()}'


def sums(root):
    return f'{len(typed(root, "What an archive is made of").splitlines())} files'


def installation(packages: Iterable[str]) -> Optional[str]:
    """The command that installs the packages of a page: Debian's, and the release's own."""
    names = [f'{TAKEN}/twox-hash_*_amd64.deb' if name == 'twox-hash' else name for name in packages]
    return f'apt-get install -y -qq {" ".join(names)} > /dev/null' if names else None


def page_as_printed(page, root):
    """The commands of a page, in a clone of the repository."""
    must(['git', 'clone', '-q', TOP, root.at(CLONE)])
    found = printed.sections(page, root.suite)
    printed.run(found, functools.partial(root.run, folder=CLONE), installation)
    return f'{sum(not block.reason for it in found for block in it.blocks)} blocks'


def wrong_pages_are_noticed(root):
    """A page with another value than its commands print, and one that lacks a package."""
    section = printed.section_of(printed.RELEASES, 'The programs', root.suite)
    (wrong,) = [
        block._replace(text=block.text.replace("printf 'some bytes'", "printf 'other bytes'"))
        for block in section.blocks
    ]
    check(fails([section._replace(blocks=[wrong])], root.run), 'another value is not detected')
    must(['git', 'clone', '-q', TOP, root.at(CLONE)])
    found = printed.sections('docs/C.md', root.suite)
    check(fails(found, functools.partial(root.run, folder=CLONE)), 'a missing package name is not detected')
    return 'another value, a package that is not named'


def fails(found, shell):
    try:
        printed.run(found, shell)
    except Fault:
        return True
    return False


def pages_of(suite):
    """The pages that have commands to run on a release."""
    return [
        page
        for page in printed.PAGES
        if page != printed.RELEASES and any(map(printed.is_run, printed.sections(page, suite)))
    ]


def headings_without_trial() -> list[str]:
    """The headings of docs/RELEASES.md whose commands are never run."""
    tried = {trial.heading for trial in TRIALS}
    return [
        it.heading for it in printed.sections(printed.RELEASES, '') if printed.is_run(it) and it.heading not in tried
    ]


BOTH = ('bookworm', 'trixie')
TRIALS = (
    Trial('the sums', ('bookworm',), 'What an archive is made of', sums),
    Trial('release/make --without-rt', ('bookworm',), None, built_without_rt),
    Trial('the library for C', BOTH, 'The library for C', library),
    Trial('the Debian package', BOTH, 'The Debian package', package),
    Trial('the programs', BOTH, 'The programs', programs),
    Trial('the programs that cargo built', BOTH, 'The programs, by cargo', cargo_programs),
    Trial('the crate, with cargo', BOTH, 'The crate for cargo', crate),
    *(
        Trial(name, suites, heading, functools.partial(python, heading))
        for name, suites, heading in (
            ('the wheel, with no compiler', ('bookworm',), 'The Python package'),
            ('the wheel for each version, with no compiler', BOTH, 'Python of any version'),
            ('the source package for Python', BOTH, 'Python from source'),
        )
    ),
    Trial('the package for Node, with npm', BOTH, 'The package for Node', node),
    Trial('the page', ('bookworm',), 'The page', static_page),
    *(
        Trial(f'{page} as it is printed', (suite,), None, functools.partial(page_as_printed, page))
        for suite in BOTH
        for page in pages_of(suite)
    ),
    Trial('wrong pages are detected', ('bookworm',), None, wrong_pages_are_noticed),
)
