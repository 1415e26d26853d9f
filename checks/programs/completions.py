"""The completions of `xxhsum` for bash, zsh and fish, written from its help, and their test: each file is what the help
gives, and the shells offer exactly the options of the help."""
import os
import re
import subprocess

from checks.lib.report import Fault, Report, check
from checks.lib.tools import TOP, text_of, write

NAMES = ('xxhsum', 'xxh32sum', 'xxh64sum', 'xxh128sum', 'xxh3sum')
FOLDER = 'docs/completions'
FILES = {'bash': 'xxhsum.bash', 'zsh': '_xxhsum', 'fish': 'xxhsum.fish'}
# The help has one line for the option of the algorithm, with a number in place of #.
ALGORITHM = '-H#'
ALGORITHMS = {'-H0': 'XXH32', '-H1': 'XXH64', '-H2': 'XXH3 of 128 bits', '-H3': 'XXH3 of 64 bits'}
# The options that an argument follows, and its name in the help.
VALUES = {'--exclude': 'PATTERN', '--format': 'FORMAT', '-C': 'DIR', '--directory': 'DIR'}
WRITTEN = 'Written from the help by checks/xxhsum --completions.'


def help_of(program):
    return subprocess.run([program, '--help'], stdout=subprocess.PIPE, text=True, check=True).stdout


def options_of(text):
    """The options of a help: for each its names, and its description. A line that begins with more spaces continues."""
    lines = re.sub(r'\n {10,}', '  ', text).splitlines()
    found = [re.split(r' {2,}', line.strip(), maxsplit=1) for line in lines if line.startswith('  -')]
    options = [(re.sub(r' [A-Z]+$', '', names).split(', '), ' '.join(about.split())) for names, about in found]
    algorithms = [([name], about) for name, about in ALGORITHMS.items()]
    return [option for names, about in options for option in (algorithms if names == [ALGORITHM] else [(names, about)])]


def quoted(text):
    """A word for bash and zsh."""
    return "'" + text.replace("'", "'\\''") + "'"


def for_bash(options):
    args = ' '.join(name for names, _ in options for name in names)
    return f'''# Completions of xxhsum for bash. {WRITTEN}
_xxhsum() {{
    local word=${{COMP_WORDS[COMP_CWORD]}}
    COMPREPLY=()
    if [[ $word == -* && " ${{COMP_WORDS[*]:0:COMP_CWORD}} " != *' -- '* ]]; then
        mapfile -t COMPREPLY < <(compgen -W '{args}' -- "$word")
    fi
}}
complete -o default -F _xxhsum {' '.join(NAMES)}
'''


def for_zsh(options):
    """`_arguments` offers an option once, whichever of its names is given."""
    specs = []
    for names, about in options:
        about = re.sub(r'([\\\[\]])', r'\\\1', about)
        group = f'({" ".join(names)})' if len(names) > 1 else ''
        for name in names:
            value = VALUES.get(name, '').lower()
            if value == 'dir':
                specs.append(quoted(f'{group}{name}{"=" * (len(name) > 2)}[{about}]:{value}:_files -/'))
            else:
                specs.append(quoted(f'*{name}=[{about}]:{value}:' if value else f'{group}{name}[{about}]'))
    return (
        f'#compdef {" ".join(NAMES)}\n# Completions of xxhsum for zsh. {WRITTEN}\n_arguments -s -S \\\n'
        + ''.join(f'    {spec} \\\n' for spec in specs)
        + "    '*:file:_files'\n"
    )


def fish_switch(name):
    """A name as fish's `complete` takes it: long, a single letter, or longer after a single dash. `-x` if it needs an
    argument, `-r` if that is a directory."""
    needs = {'': '', 'DIR': '-r '}.get(VALUES.get(name, ''), '-x ')
    return needs + (
        f'-l {name[2:]}' if name.startswith('--') else f'-s {name[1:]}' if len(name) == 2 else f'-o {name[1:]}'
    )


def for_fish(options):
    lines = []
    for names, about in options:
        about = about.replace('\\', '\\\\').replace("'", "\\'")
        lines.append(f"    complete -c $program {' '.join(map(fish_switch, names))} -d '{about}'\n")
    return f'# Completions of xxhsum for fish. {WRITTEN}\nfor program in {" ".join(NAMES)}\n{"".join(lines)}end\n'


WRITERS = {'bash': for_bash, 'zsh': for_zsh, 'fish': for_fish}


def write_files(program: str) -> None:
    options = options_of(help_of(program))
    for shell, writer in WRITERS.items():
        write(os.path.join(TOP, FOLDER, FILES[shell]), writer(options))


BASH = '. "$1"; COMP_WORDS=(xxhsum %s); COMP_CWORD=%d; _xxhsum; printf "%%s\\n" "${COMPREPLY[@]}"'
ZSH = '_arguments() { for word; do [[ $word == *\\[* ]] && print -r -- ${${${${word%%\\[*}##*\\)}#\\*}%=}; done }; . $1'
FISH = 'source $argv[1]; complete -C "xxhsum %s-"; complete -C "xxhsum %s--"'
# What each shell offers for an argument that begins with `-`, one word per line. zsh has no completions without a
# terminal, so its function for arguments prints the options that it is given.
OFFERS = {
    'bash': ['bash', '--norc', '-c', BASH % ('-', 1), 'bash'],
    'zsh': ['zsh', '-f', '-c', ZSH, 'zsh'],
    'fish': ['fish', '--no-config', '-c', FISH % ('', '')],
}
# The same after `--`, where each argument is a name.
NO_OPTIONS = {
    'bash': ['bash', '--norc', '-c', BASH % ('-- -', 2), 'bash'],
    'fish': ['fish', '--no-config', '-c', FISH % ('-- ', '-- ')],
}


def offered(args, path):
    done = subprocess.run([*args, path], stdout=subprocess.PIPE, stderr=subprocess.PIPE, text=True, check=False)
    check(not done.stderr, f'{args[0]} prints {done.stderr.strip()[:200]}')
    return {line.split('\t')[0] for line in done.stdout.splitlines()} - {''}


def check_file(shell, text):
    check(
        text_of(f'{FOLDER}/{FILES[shell]}') == WRITERS[shell](options_of(text)),
        f'{FOLDER}/{FILES[shell]} is not what the help gives: run checks/xxhsum --completions PROGRAM',
    )


def check_shell(shell, text):
    path = os.path.join(TOP, FOLDER, FILES[shell])
    expected = {name for names, _ in options_of(text) for name in names}
    found = offered(OFFERS[shell], path)
    check(found == expected, f'{shell} offers other options: {", ".join(sorted(found ^ expected))}')
    if shell in NO_OPTIONS:
        check(not offered(NO_OPTIONS[shell], path), f'{shell} offers options after --')
    return f'{len(found)} options'


def is_detected(test, shell, text):
    try:
        test(shell, text)
    except Fault:
        return
    check(False, 'it was not detected')


def over_completions(program: str, report: Report) -> None:
    """Tests the files, and that each test detects an option more and one less."""
    text = help_of(program)
    planted = {
        'an option more': text.replace('  -c, ', '  --planted           planted\n  -c, '),
        'an option less': re.sub(r'\n {2}-w, .*', '', text),
    }
    for shell in FILES:
        report.attempt(f'completions for {shell}, as the help has them', check_file, shell, text)
        report.attempt(f'completions by {shell}', check_shell, shell, text)
        for title, other in planted.items():
            report.attempt(f'planted, {title} in the help, file for {shell}', is_detected, check_file, shell, other)
            report.attempt(f'planted, {title} in the help, {shell}', is_detected, check_shell, shell, other)
