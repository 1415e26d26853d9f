"""Converts a module for x86-64-v3 to one for x86-64-v4, in text of LLVM, and back:

    python3 -B . assembly.wide wide check OBJECT

`widen` changes only what determines no value: `Kernel` returns true for eight lanes (`is_widened`, whose result no
clause fixes, so that each caller is proved for both), and the functions of WIDE are compiled for x86-64-v4 with vectors
of 512 bits. All others stay unchanged. `narrow` reverts that.

`check` tests an object's instructions: those of the functions of WIDE must be in mnemonics.txt, and no other
function may have vectors of 512 bits, masks or registers that x86-64-v3 lacks. The compiler isn't trusted for such
processors: its code for them is accepted because oracle/machine-text verifies it, which supports only these
instructions."""
import os
import re
import subprocess
import sys
from typing import Iterator

from assembly.names import plain

MNEMONICS = os.path.join(os.path.dirname(os.path.abspath(__file__)), 'mnemonics.txt')
ANSWER = 'twox_core::xxhash3::large::lanes4::ImplVector::is_widened'
WIDE = ('twox_core::xxhash3::stripes::take_widened', 'twox_core::xxhash3::stripes::start_widened')
FOR_V3, FOR_V4, WIDTH = '"target-cpu"="x86-64-v3"', '"target-cpu"="x86-64-v4"', '"prefer-vector-width"="512" '
HEAD = re.compile(r'^(define [^@\n]*@(?:"([^"]*)"|([\w.]+))\(.*) #(\d+) \{$', re.M)
# The body that returns a constant, the one number in it that may change.
BODY = re.compile(
    rf'^(define [^\n]*@"{ANSWER}"\([^\n]*\{{\n(?:(?!\}}).*\n)*?  %\w+ = zext i1 )(true|false)'
    r'( to i8\n(?:(?!\}|.* i1 (?:true|false)).*\n)*\})$',
    re.M,
)
TAG = re.compile(r'\.i\d+(_v\d)?$')  # behind a local name of the cargo crate's text
NEW = 90_000  # numbers from here on are of no group of attributes
# What x86-64-v3 lacks, in an instruction as objdump prints it.
LACKED = re.compile(r'%zmm|%[xy]mm(1[6-9]|2\d|3[01])|%k[0-7]\b|\{')


def refuse(why):
    raise ValueError(why)


def is_wide(name):
    return re.sub(r'::<[#=][^>]*>', '', name) in WIDE


def with_answer(text, old, new):
    found = BODY.findall(text)
    if len(found) != 1 or found[0][1] != old:
        refuse(f'{ANSWER} does not answer {old}')
    return BODY.sub(rf'\g<1>{new}\g<3>', text)


def widen(text: str) -> str:
    """The module with the other result, whose wide functions have groups of attributes of their own."""
    if FOR_V4 in text or WIDTH in text:
        refuse('the module is a wide one already')
    found, groups = set(), {}

    def with_group(head):
        name = head[2] or head[3]
        if not is_wide(name):
            return head[0]
        found.add(re.sub(r'::<[#=][^>]*>', '', name))
        groups[head[4]] = NEW + int(head[4])
        return f'{head[1]} #{groups[head[4]]} {{'

    text = HEAD.sub(with_group, with_answer(text, 'false', 'true'))
    if found != set(WIDE):
        refuse(f'the module has no {", ".join(sorted(set(WIDE) - found))}')
    for old, new in groups.items():
        group = re.search(rf'^attributes #{old} = (.*)$', text, re.M)[1]
        if FOR_V3 not in group:
            refuse('a wide function is for another processor than x86-64-v3')
        text += f'\nattributes #{new} = {group.replace(FOR_V3, WIDTH + FOR_V4)}\n'
    return text


def narrow(text: str) -> str:
    """The module without the changes of `widen`: clang then numbers equal groups of attributes alike again."""
    return with_answer(text.replace(WIDTH, '').replace(FOR_V4, FOR_V3), 'true', 'false')


def faults(path: str, allowed: set[str]) -> Iterator[str]:
    """The instructions of an object that are not allowed."""
    out = subprocess.run(
        ['objdump', '-d', '-w', '--no-show-raw-insn', path], check=True, capture_output=True, text=True
    ).stdout
    wide, found = {plain(name) for name in WIDE}, set()
    for name, lines in re.findall(r'^[0-9a-f]+ <(.*)>:\n((?: .*\n)*)', out, re.M):
        own = TAG.sub('', plain(name))
        is_one = own in wide
        found |= {own} & wide
        for text in re.findall(r'^ *[0-9a-f]+:\t(.*)', lines, re.M):
            if is_one and text.split()[0] not in allowed:
                yield f'{name} has {text}, which is not in mnemonics.txt'
            if not is_one and LACKED.search(text.split('#')[0]):
                yield f'{name} has {text}, which x86-64-v3 lacks'
    if found != wide:
        yield f'there is no {", ".join(sorted(wide - found))}'


def mnemonics() -> set[str]:
    with open(MNEMONICS, encoding='ascii') as file:
        return set(re.sub('#.*', '', file.read()).split())


def main():
    if len(sys.argv) != 3 or sys.argv[1] != 'check':
        sys.exit(__doc__)
    found = list(faults(sys.argv[2], mnemonics()))
    print('\n'.join(found), end='\n' if found else '')
    return 1 if found else 0
