"""The options of `xxhsum` in its help, its page, its manual page and the cases: the manual page and the cases have
those of the help, the page some of them."""
import re
import subprocess

from checks.lib.report import Report
from checks.lib.tools import text_of

from .cases import CASES

# What the pages have besides the options: standard input, and the end of the options.
MARKS = {'-', '--'}


def section(path, begins, ends):
    """A section of a page, from the line that begins it to the next one with the same beginning."""
    return text_of(f'docs/{path}').split(begins, 1)[1].split(ends, 1)[0]


def of_help(program):
    """The first words of the lines of the help, the algorithm's without its number."""
    text = subprocess.run([program, '--help'], stdout=subprocess.PIPE, text=True, check=True).stdout
    return {
        word
        for line in text.splitlines()
        if line.startswith('  -')
        for word in re.findall(r'(?:^|, )(--?[\w-]+)', line[2:].split('  ')[0].replace('#', ''))
    }


def of_page():
    """The options that the page names. Their numbers are those of algorithms."""
    lines = re.findall(r'^- (`-.*?`):', section('XXHSUM.md', '## Options\n', '\n## '), re.M)
    return {re.sub(r'^-H\d+$', '-H', word) for line in lines for word in re.findall(r'`(.*?)`', line)} - MARKS


def of_manual():
    heads = re.findall(r'^\.TP\n\.BR? (.*)$', section('xxhsum.1', '.SH OPTIONS\n', '\n.SH '), re.M)
    options = {word for head in heads for word in re.findall(r'--?[\w-]*', head.replace('\\', ''))}
    return {re.sub(r'^-H\d+$', '-H', word) for word in options} - MARKS


def of_cases():
    """The options of the cases' arguments, letter by letter."""
    options = {word for case in CASES for word in case.args if isinstance(word, str) and word.startswith('-')}
    return options | {f'-{letter}' for word in options if re.fullmatch(r'-\w+', word) for letter in word[1:]}


def differences(of_program):
    """The places whose options differ from the program's, and the differences."""
    of_the_page = of_page()
    for place, found in (
        ('docs/XXHSUM.md', of_the_page and of_the_page | of_program),
        ('docs/xxhsum.1', of_manual()),
        ('the cases', of_cases() & of_program),
    ):
        if found != of_program:
            yield place, sorted(found ^ of_program)


def over_pages(program: str, report: Report) -> None:
    """Compares the three with the help, and with helps that have one option more or one less, which each must
    detect."""
    asked = of_help(program)
    wrong = dict(differences(asked))
    for place, options in wrong.items():
        print(f'{program}: the options of {place} are not those of the help: {", ".join(options)}')
    noticed = {
        place for planted in (asked | {'--planted'}, asked - {'--recursive'}) for place, _ in differences(planted)
    }
    print(
        f'the options of the help: {len(asked)}, which {3 - len(wrong)} of 3 places have; {len(noticed)} detect one '
        f'more or one less'
    )
    passed = (3 - len(wrong)) + len(noticed)
    report.count(passed, 6 - passed)
