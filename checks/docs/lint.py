"""Checks what the proofs don't cover: scripts, Python, Rust, JavaScript, and wording.

    checks/lint

- shellcheck reads the shell scripts, pyflakes and mypy the Python, rustfmt and clippy the Rust, and node the
  JavaScript;
- black has formatted the Python; no line of Python, shell, C or JavaScript has more than 120 columns, except in the
  files of LONG_LINES;
- pages, comments, help texts and error messages have none of the words of checks/docs/words.txt, and doc comments
  don't begin with "Whether" or "What";
- each argument of a command has a help text, and no function of Python has more than 40 lines, except in the files of
  LONG_FUNCTIONS;
- functions of Python that another module calls have types (checks/docs/hints.py);
- identifiers of Python, shell, C and JavaScript have none of the words of checks/docs/identifiers.txt;
- the pages of checks/docs/plain.py have sentences of at most 30 words;
- docs/CONTRACTS.md names each file of `specs/`;
- commits since this rule have a subject of at most 72 characters, a blank line and a reason, and no absolute path of a
  machine in their message (checks/docs/commits.py); of a shallow clone, those that it has.

Each check must first detect planted mistakes. A check that fails without a message, or whose tool fails, counts as
failed. One line per check, with what it found; the last line is "N passed, M failed". It takes a minute, and
installs missing packages: Debian's shellcheck, pyflakes3, mypy, black, rustfmt, rust-clippy and nodejs."""
import ast
import contextlib
import fnmatch
import functools
import io
import os
import re
import tempfile

import tomllib

from checks.lib import command
from checks.lib.report import Report, check
from checks.lib.tools import TOP, install_packages, must, ran, text_of, write

from . import commits, hints, identifiers, plain, words

PACKAGES = {
    'black': 'black',
    'mypy': 'mypy',
    'shellcheck': 'shellcheck',
    'pyflakes3': 'pyflakes3',
    'rustfmt': 'rustfmt',
    'clippy-driver': 'rust-clippy',
    'node': 'nodejs',
}
LEFT_OUT = {'out', 'target', '.git', '__pycache__', 'node_modules'}
# Copies that a program writes, data, and texts of others.
GENERATED = re.compile(
    r'/(src/erased|asm|docs/history)/|/(refused|words|saved_by_xxh|vectors|api)\.txt$|/OutsideVectors[0-9]+\.antt$'
    r'|/(LICENSE|HANDLES|stdin|stdout)$'
)
# Python, shell, C and JavaScript.
CODE = ('.py', '.pyi', '.sh', *identifiers.LIKE_C)
MOST_COLUMNS = 120
# Files with longer lines, and why.
LONG_LINES = {
    'c/include/xxhash.h': 'the verifier has run over this file',
    'web/bench_c/large.py': 'scripts in JavaScript',
    'web/tests/*.py': 'scripts in JavaScript',
    'web/*.js': 'not wrapped yet',
    'web/*.mjs': 'not wrapped yet',
    'web/*.ts': 'not wrapped yet',
}
MOST_LINES = 40
LONG_FUNCTIONS = ('oracle/*', 'checks/programs/cases*.py')
FEATURES = ('random', 'xxhash32', 'xxhash64', 'xxhash3_64', 'xxhash3_128', 'std', 'alloc')


def files():
    """The files of the tree, without build output."""
    for folder, folders, names in os.walk(TOP):
        folders[:] = sorted(set(folders) - LEFT_OUT)
        yield from (os.path.join(folder, name) for name in sorted(names))


def first_line(path):
    with open(path, 'rb') as file:
        return file.readline(100).decode(errors='replace')


def of_kind(paths, ending, interpreter):
    """The files whose name has the ending, if there is one, or that the interpreter runs."""
    return [
        path
        for path in paths
        if ending
        and path.endswith(ending)
        or '.' not in os.path.basename(path)
        and re.match(rf'#!.*{interpreter}(?: -B)?\s*$', first_line(path))
    ]


def pages(paths):
    """The pages and manual pages, except the changelog."""
    return [path for path in paths if path.endswith(('.md', '.1')) and os.path.basename(path) != 'CHANGELOG.md']


def sources(paths):
    """The sources and scripts, except generated copies and data."""
    return [
        path
        for path in paths
        if not GENERATED.search(path)
        and not words.is_page(path)
        and '\0' not in first_line(path)
        and (os.path.splitext(path)[1] in (*words.LIKE_C, *words.LIKE_SHELL, '.py', '.pyi', '.antt', '.html'))
    ]


def documented(paths):
    """The sources whose comments are documentation."""
    return [path for path in sources(paths) if is_one_of(path, words.DOCUMENTED)]


def found(*command):
    """The lines of a tool's output, if it fails."""
    done = ran(command, cwd=TOP)
    return [line for line in done.stdout.splitlines() if line.strip()] if done.returncode else []


def shellcheck(*paths):
    """Reads scripts, each with the files that it sources."""
    return found(
        'shellcheck', '--external-sources', '--source-path=SCRIPTDIR', '--severity=warning', '--format=gcc', *paths
    )


pyflakes = functools.partial(found, 'pyflakes3')
black = functools.partial(found, 'black', '--check')
mypy = functools.partial(found, 'mypy', '--cache-dir', os.devnull)
rustfmt = functools.partial(found, 'rustfmt', '--check', '-l', '--edition', '2021')


def clippy(*roots):
    """Reads the root of each crate that needs no other crate. Those of the programs have no features."""
    features = [word for name in FEATURES for word in ('--cfg', f'feature="{name}"')]
    command = 'clippy-driver --edition 2021 --crate-type lib --crate-name twox_hash --emit metadata -D warnings'.split()
    with tempfile.TemporaryDirectory() as workdir:
        command += ['--out-dir', workdir]
        return sum((found(*command, *([] if '/programs/' in root else features), root) for root in roots), [])


def typed(paths):
    """The Python that mypy reads: all except what pyproject.toml excludes."""
    excluded = re.compile(tomllib.loads(text_of('pyproject.toml'))['tool']['mypy']['exclude'])
    return [path for path in paths if not excluded.match(os.path.relpath(path, TOP))]


def is_one_of(path, patterns):
    return any(fnmatch.fnmatch(words.name_of(path), pattern) for pattern in patterns)


def long_lines(*paths):
    for path in paths:
        if not is_one_of(path, LONG_LINES):
            for number, line in enumerate(text_of(path).splitlines(), 1):
                if len(line) > MOST_COLUMNS:
                    yield f'{path}:{number}: {len(line)} columns'


def arguments_without_help(*paths):
    for path in paths:
        for node in ast.walk(ast.parse(text_of(path))):
            if isinstance(node, ast.Call) and getattr(node.func, 'attr', '') == 'add_argument':
                if not any(word.arg == 'help' for word in node.keywords):
                    yield f'{path}:{node.lineno}: an argument without help'


def long_functions(*paths):
    """Each function with too many lines, its docstring not counted."""
    for path in paths:
        for node in ast.walk(ast.parse(text_of(path))):
            if isinstance(node, (ast.FunctionDef, ast.AsyncFunctionDef)) and not is_one_of(path, LONG_FUNCTIONS):
                first = node.body[1] if ast.get_docstring(node) and node.body[1:] else node.body[0]
                count = node.body[0].lineno - node.lineno + (node.end_lineno or 0) - first.lineno + 1
                if count > MOST_LINES:
                    yield f'{path}:{node.lineno}: {node.name} has {count} lines'


def node(*paths):
    return sum((found('node', '--check', path) for path in paths), [])


def unnamed(*specs):
    """The files of definitions that no row of the page names."""
    rows = [line for line in text_of('docs/CONTRACTS.md').splitlines() if line.startswith('| ')]
    named = set(re.findall(r'\w+', ' '.join(rows)))
    return [
        f'{path} is in no row of docs/CONTRACTS.md'
        for path in specs
        if os.path.basename(path).removesuffix('.antt') not in named
    ]


# For each check a file name and a mistake; several for the words, which are looked for in several places.
WRONG = {
    shellcheck: [('wrong.sh', '#!/bin/bash\nrm -rf "$nowhere/"*\n')],
    pyflakes: [('wrong.py', 'import os\n')],
    black: [('wrong.py', 'x  = 1\n')],
    mypy: [
        ('wrong.py', 'import os\n\n\ndef f():\n    return os.no_such_name\n'),
        ('wrong.py', 'def f(a):\n    return a\n\n\nf(1, 2)\n'),
        ('wrong.py', "import subprocess\n\nsubprocess.run(['true'], test=True)\n"),
        ('wrong.py', "import os\n\nos.listdir([''])\n"),
    ],
    arguments_without_help: [('wrong.py', "parser.add_argument('--all', action='store_true')\n")],
    long_functions: [
        ('wrong.py', 'def f():\n' + '    f()\n' * MOST_LINES),
        ('wrong.py', 'class A:\n    async def f(self):\n        """Doc."""\n' + '        f()\n' * MOST_LINES),
    ],
    hints.functions_without_types: [
        ('wrong.py', 'import wrong\n\n\ndef f(a) -> None:\n    wrong.f(a)\n'),
        ('oracle/wrong.py', 'from wrong import f\n\n\ndef f(*, a: int):\n    pass\n'),
        ('wrong.py', 'from .wrong import f\n\n\ndef f(**a) -> None:\n    pass\n'),
    ],
    long_lines: [(name, 'x' * 121) for name in ('wrong.py', 'wrong.sh', 'wrong.c', 'wrong.js', 'oracle/wrong.py')],
    rustfmt: [('wrong.rs', 'fn  main(){}\n')],
    clippy: [('wrong.rs', 'pub fn one(a: bool) -> bool { a == true }\n')],
    node: [('wrong.js', 'let = ;\n')],
    words.lines_with_words: [
        ('wrong.md', 'It `tells` what it tells.\n'),
        ('wrong.rt', '/// Works but for zero.\nfn f() {}\n'),
        ('wrong.antt', 'use a\n\n-- the piece\n'),
        ('wrong.c', 'int a;\n/* Used by\n * whoever calls. */\n'),
        ('wrong.js', 'let a = "//"; // made anew\n'),
        ('wrong.py', '"""Answers no."""\n'),
        ('Makefile', '# kit\n'),
        ('wrong.py', 'A = 1  # by lot\n'),
        ('wrong.sh', '#!/bin/bash\necho a # the gate\n'),
        ('message.sh', 'fail "is right"\n'),
        ('message.py', 'print(f"nobody was told of {fault}")\n'),
        ('message.html', '<p>tells</p>\n'),
        ('message.js', 'throw new Error("handed over");\n'),
    ],
    words.puzzles: [
        ('wrong.rt', '/// Whether it fits.\nfn f() {}\n'),
        ('wrong.h', 'int a;\n\n/** What it is. */\n'),
        ('wrong.py', 'def f():\n    """Whether it fits."""\n'),
    ],
    identifiers.wrong_names: [
        ('wrong.py', 'def told():\n    pass\n'),
        ('wrong.py', "print(f'{self.room}')\n"),
        ('wrong.py', 'WANTED = 1\n'),
        ('wrong.sh', '#!/bin/bash\nlocal words=("$@")\n'),
        ('wrong.sh', '#!/bin/sh\necho "${made}"\n'),
        ('wrong.c', 'int max_words; /* the words */\n'),
        ('wrong.js', 'const hasRoom = `${a}`;\n'),
        ('wrong.mjs', 'f(`${said.it}`);\n'),
        ('wrong.d.ts', 'type KindOf = 1;\n'),
    ],
    plain.long_sentences: [
        ('wrong.md', 'It is short. A' + ' word' * 30 + '.\n'),
        ('wrong.md', '- `one`: a' + ' word' * 29 + '\n- two\n'),
    ],
    unnamed: [('OfNoRow.antt', '')],
}
WRONG_MESSAGES = (
    'A' * 73 + '\n\nWhy.',
    "Merge branch 'main' of /work/main\n\nWhy.",
    'Fix it\n\nSee (/home/a/b.c).',
    'Fix it',
    'Fix it\nWhy.',
    'Fix it\n\nSigned-off-by: A <a@b.org>\n',
)


def is_clean(tool, paths):
    for name, text in WRONG[tool]:
        with tempfile.TemporaryDirectory() as workdir:
            check(list(tool(write(os.path.join(workdir, name), text))), f'it does not detect {text!r}')
    check(paths, 'no file')
    lines = [line.replace(TOP + os.sep, '') for line in tool(*paths)]
    check(not lines, '\n  '.join([f'{len(lines)} lines', *lines[:20]]))
    return f'{len(paths)} files'


def faults_of_commits(found):
    return [f'{commit.name[:12]}: {fault}' for commit in found for fault in commits.faults(commit)]


def commits_are_clean():
    for message in WRONG_MESSAGES:
        planted = commits.Commit('', [''], 0, message)
        check(list(commits.faults(planted)), f'it does not detect {message!r}')
    right = [('Fix it\n\nRead /proc/self/mem and /usr/lib.\n', ['']), ("Merge branch 'main'\n", ['', ''])]
    for message, parents in right:
        check(not list(commits.faults(commits.Commit('', parents, 0, message))), f'it refuses {message!r}')
    found = commits.commits()
    if found is None:
        return 'skipped: no history of git'
    wrong = faults_of_commits(found)
    check(not wrong, '\n  '.join(wrong))
    return f'{len(found)} commits'


def shallow_clones_are_read():
    """A shallow clone without history is refused only for the commits since this rule that it has."""
    with tempfile.TemporaryDirectory() as workdir:
        full, git = os.path.join(workdir, 'full'), ['git', '-c', 'user.name=a', '-c', 'user.email=a@b.org']
        must([*git, 'init', '-q', full])
        for message, seconds in (('First', -2), ('An older one', -1), ('Wrong', 1), ('Fix it\n\nWhy.', 2)):
            env = {**os.environ, 'GIT_COMMITTER_DATE': f'@{commits.TIME_BEFORE + seconds} +0000'}
            must([*git, '-C', full, 'commit', '-q', '--allow-empty', '-m', message], env=env)
        for depth, names in ((1, []), (2, ['Wrong']), (3, ['Wrong'])):
            clone = os.path.join(workdir, str(depth))
            must([*git, 'clone', '-q', '--depth', str(depth), f'file://{full}', clone])
            wrong = faults_of_commits(commits.commits(clone))
            check([fault.split(': ')[-1] for fault in wrong] == names, f'a clone of {depth} commits: {wrong}')


def empty_faults_count():
    """A fault without a text, as of a program that fails and prints nothing, counts."""
    report = Report()
    with contextlib.redirect_stdout(io.StringIO()):
        report.attempt('a check', check, False, '')
    check((report.passed, report.failed) == (0, 1), 'a fault without a text counts as passed')


def failed_tools_count():
    """A check whose tool fails counts as failed, with the tool's output, and the next check runs."""
    report, printed = Report(), io.StringIO()
    with contextlib.redirect_stdout(printed):
        report.attempt('a check', must, ['sh', '-c', 'echo "a message"; exit 1'])
        report.attempt('the next check', list)
    check((report.passed, report.failed) == (1, 1) and 'a message' in printed.getvalue(), printed.getvalue())


def check_code(report, every):
    python = of_kind(every, '.py', 'python3')
    # The erased source has the layout of its source.
    rust = [path for path in every if path.endswith('.rs') and '/src/erased/' not in path]
    roots = [os.path.join(TOP, 'rust', *folder, 'src', 'lib.rs') for folder in ((), ('programs',))]
    report.attempt('shellcheck', is_clean, shellcheck, of_kind(every, None, 'sh'))
    report.attempt('pyflakes', is_clean, pyflakes, python)
    report.attempt('black', is_clean, black, python)
    report.attempt('mypy', is_clean, mypy, typed(python))
    report.attempt('help of arguments', is_clean, arguments_without_help, typed(python))
    report.attempt('types of shared functions', is_clean, hints.functions_without_types, typed(python))
    report.attempt('lengths of functions', is_clean, long_functions, python)
    report.attempt('rustfmt', is_clean, rustfmt, rust)
    report.attempt('clippy', is_clean, clippy, roots)
    report.attempt('node', is_clean, node, [path for path in every if path.endswith(('.js', '.mjs'))])


def check_wording(report, every):
    code = [path for path in sources(every) if path.endswith(CODE) or first_line(path)[:2] == '#!']
    short = [os.path.join(TOP, name) for name in plain.SHORT_SENTENCES]
    specs = [path for path in every if '/specs/' in path and not path.endswith('/Lib.antt')]
    report.attempt('columns', is_clean, long_lines, code)
    report.attempt('identifiers', is_clean, identifiers.wrong_names, code)
    report.attempt('words of pages', is_clean, words.lines_with_words, pages(every))
    report.attempt('words of comments and messages', is_clean, words.lines_with_words, sources(every))
    report.attempt('beginnings of doc comments', is_clean, words.puzzles, documented(every))
    report.attempt('sentences', is_clean, plain.long_sentences, short)
    report.attempt('files of definitions', is_clean, unnamed, specs)
    report.attempt('commits', commits_are_clean)
    report.attempt('commits of a shallow clone', shallow_clones_are_read)


def main():
    command.parser(__doc__).parse_args()
    install_packages(PACKAGES)
    report, every = Report(), list(files())
    check_code(report, every)
    check_wording(report, every)
    report.attempt('faults without a text', empty_faults_count)
    report.attempt('checks whose tool fails', failed_tools_count)
    return report.end()
