"""Checks the assembly source of the library for C and of the cargo crate against the proved code:

    assembly/check [--target aarch64] [--of-ci] [c] [rust]

It proves and builds both, or the given one; with --of-ci over the libraries that `rt ci` left in this tree. For each
source it checks that

- assembly source and sums generated from the proved object equal the committed ones;
- each assembler on the machine (GNU as, clang, rustc) makes that object from the source, by the comparison of
  same_bytes.py;
- the prefetches of its module are those of prefetch.py, and a module that lacks one of their places is refused;
- a module that differs in one number or one line other than the additions is not compiled (tested with two of them);
- the code compiled for x86-64-v4 has only instructions of mnemonics.txt, and another is detected;
- 18 wrong sources are detected, by the object and by the sums: a constant, a register, an offset, a jump, a word of
  data, a place in a mergeable section;
- it declares the frame at each instruction, and wrong directives are detected; for the library for C on x86-64 the
  unwinder of libgcc finds the caller from each executed instruction.

It needs rt, and uses the assemblers of the machine. One line per check; the status is 1 if one failed."""
import filecmp
import os
import random
import re
import shutil
import sys
import tempfile
from typing import Sequence

from assembly import compile as compiling
from assembly import prefetch, unwinding, wide
from assembly.same_bytes import compare, compare_sums
from assembly.webassembly import clang_of_kit
from checks.lib import command
from checks.lib.instruction_sets import sets_here
from checks.lib.report import Fault, Report, check
from checks.lib.tools import TOP, ran, text_of, write

ASSEMBLY = os.path.join(TOP, 'assembly')

BUILDS = {'c': 'c/build', 'rust': 'rust/build-library'}
SETS = {
    ('c', 'x86-64'): ('x86-64-v2', 'x86-64-v3', 'x86-64-v4'),
    ('rust', 'x86-64'): ('x86-64', 'x86-64-v3', 'x86-64-v4'),
    ('c', 'aarch64'): ('aarch64',),
    ('rust', 'aarch64'): ('aarch64',),
}
WIDE = 'x86-64-v4'
WRONG_TEXTS = 18


def run(command, **more):
    done = ran(command, **more)
    check(done.returncode == 0, f'{" ".join(command[:3])}: {done.stdout.strip()[-300:]}')
    return done.stdout


# ---- the assemblers ----


class As:
    name = 'GNU as'

    def __init__(self, target):
        self.command = ['as' if target == 'x86-64' else 'aarch64-linux-gnu-as']

    def is_there(self):
        return shutil.which(self.command[0])

    def assemble(self, text, out):
        run([*self.command, text, '-o', out])


class Clang(As):
    name = 'clang'

    def __init__(self, target):
        self.command = ['clang', '-c', f'--target={"x86_64" if target == "x86-64" else target}-linux-gnu']


class Rustc(As):
    name = 'rustc'

    def __init__(self, target):
        arch, self.options = ('x86_64', 'att_syntax, raw') if target == 'x86-64' else (target, 'raw')
        self.command = ['rustc', '--crate-type=lib', '--emit=obj', f'--target={arch}-unknown-linux-gnu']

    def is_there(self):
        """With the library `core` of the target."""
        if not super().is_there():
            return False
        with tempfile.TemporaryDirectory() as workdir:
            try:
                self.assemble(write(os.path.join(workdir, 'empty.s'), ''), os.path.join(workdir, 'empty.o'))
            except Fault:
                return False
        return True

    def assemble(self, text, out):
        source = f'#![no_std]\ncore::arch::global_asm!(include_str!("{text}"), options({self.options}));\n'
        run([*self.command, write(os.path.splitext(out)[0] + '.rs', source), '-o', out])


def assemblers_for(target):
    """Those that are on the machine."""
    return [it for it in (As(target), Clang(target), Rustc(target)) if it.is_there()]


# ---- wrong sources ----


# How a source is made wrong: the pattern's group is what changes, and the function returns the replacement.
def other_number(word, _):
    return hex(int(word, 16) ^ 1)


def other_register(digit, _):
    return str((int(digit) + 1) % 8)


def other_offset(word, _):
    return str(int(word) + 32)


def other_label(label, lines):
    """Another label of the same function."""
    function = label.split('_')[0]
    others = sorted({line[:-1] for line in lines if line.startswith(f'{function}_') and line[:-1] != label})
    return others[0] if others else f'{label}+1'


def place_from_first(label, _):
    """The same address, from the first label of its section."""
    section, place, tag = re.fullmatch(r'(\.L\d+_)([0-9a-f]+)(.*)', label).groups()
    return f'{section}0{tag}+0x{place}'


WORD_OF_DATA = r'\t\.quad (0x[0-9a-f]+)', other_number
# A constant of 16 bytes: only the mergeable data sections have labels within them.
CONSTANT = r'(\.L\d+_[0-9a-f]*[1-9a-f]0[.\w]*)'
WRONG = {
    'x86-64': {
        'a constant': (r'\tmovabs \$(0x[0-9a-f]+),', other_number),
        'a register': (r'\t\w+ .*%[xy]mm(\d)$', other_register),
        'an offset': (r'\t\w+ (0x[0-9a-f]+)\(%r', other_number),
        'a jump': (r'\tj\w+ (\.L[\w.]+)', other_label),
        'a word of data': WORD_OF_DATA,
        'a place in a mergeable section': (rf'\t\S+ {CONSTANT}\(%rip\)', place_from_first),
    },
    'aarch64': {
        'a constant': (r'\tmovk? \w+, #(0x[0-9a-f]+)', other_number),
        'a register': (r'\t\w+ v(\d)\.', other_register),
        'an offset': (r'\tldp .*, #(\d+)\]', other_offset),
        'a jump': (r'\tb\.\w+ (\.L[\w.]+)', other_label),
        'a word of data': WORD_OF_DATA,
        'a place in a mergeable section': (rf'\tldr q\d+, \[x\d+, #:lo12:{CONSTANT}\]', place_from_first),
    },
}


def wrong_texts(lines, target, count):
    """Sources with one word changed: a description, the section of the change, and the lines. They are chosen at
    random, with a fixed seed."""
    rng = random.Random(1)
    for turn in range(count):
        what, (pattern, change) = list(WRONG[target].items())[turn % len(WRONG[target])]
        places = [at for at, line in enumerate(lines) if re.match(pattern, line)]
        check(places, f'the text has no {what}')
        at = rng.choice(places)
        found = re.match(pattern, lines[at])
        line = lines[at][: found.start(1)] + change(found[1], lines) + lines[at][found.end(1) :]
        section = next(line.split()[1].split(',')[0] for line in reversed(lines[:at]) if line.startswith('\t.section'))
        yield f'{what}, line {at + 1}', section, [*lines[:at], line, *lines[at + 1 :]]


def wrong_texts_are_noticed(text, proved, target, workdir):
    out = os.path.join(workdir, 'wrong.o')
    for what, section, wrong in wrong_texts(text_of(text).splitlines(), target, WRONG_TEXTS):
        As(target).assemble(write(os.path.join(workdir, 'wrong.s'), '\n'.join(wrong) + '\n'), out)
        for found in (compare(proved, out), compare_sums(sums_beside(text), out)):
            check(any(line.startswith(f'{section}:') for line in found), f'{what}: it was not noticed in {section}')
    return f'{WRONG_TEXTS} of {WRONG_TEXTS}'


# ---- the checks ----


def module_of(library, name):
    """The text of the module that a source's object was compiled from, without prefetches and with them."""
    with open(os.path.join(TOP, library, 'out', 'module', name, 'module.ll'), encoding='latin-1') as file:
        annotated = file.read()
    return prefetch.strip(annotated), annotated


def has_prefetches(library, name):
    module, annotated = module_of(library, name)
    check(module != annotated and prefetch.add(module) == annotated, 'its prefetches are others')
    found = prefetch.Module(module)
    places = [place for place in prefetch.PLACES[found.processor()] if found.has_hash_of(place)]
    for place in places:
        try:
            prefetch.add(module.replace(place.function, place.function + '_of_another_name'))
        except ValueError:
            continue
        check(False, f'without {place.function} it was taken')
    return f'{annotated.count("call void @llvm.prefetch")} of them, {len(places)} places'


def other_modules_are_refused(library, name):
    module, annotated = module_of(library, name)
    args = text_of(f'{library}/out/module/{name}/args').splitlines()
    is_wide = name == WIDE
    module = wide.narrow(module) if is_wide else module
    for what, pattern, new in (
        ('a number', r'(\n  %\w+ = add i64 %\w+, )\d+', r'\g<1>77'),
        ('a line less', r'\n  store .*', ''),
    ):
        wrong = re.sub(pattern, new, annotated, count=1)
        check(wrong != annotated and is_refused(module, args, wrong, is_wide), f'{what}: it was compiled')
    check(not is_refused(module, args, annotated, is_wide), 'the module itself is refused')
    return '2 of 2'


def is_refused(module, args, annotated, is_wide):
    """True if a module is refused when this text is presented as the annotated one."""
    here, with_changes = os.getcwd(), compiling.with_changes
    with tempfile.TemporaryDirectory() as workdir:
        os.chdir(workdir)
        with open('module.bc', 'w', encoding='latin-1') as file:
            file.write(module)
        compiling.with_changes = lambda text, wide: annotated if wide == is_wide else with_changes(text, wide)
        try:
            compiling.run_clang(clang_of_kit(), '', os.path.join(workdir, 'wide') if is_wide else '', *args)
        except SystemExit as why:
            return 'is not the one that was proved' in str(why)
        finally:
            compiling.with_changes = with_changes
            os.chdir(here)
    return False


def sums_beside(text):
    return os.path.splitext(text)[0] + '.sums'


def is_built(library, target, of_ci):
    run([os.path.join(TOP, BUILDS[library]), '--target', target, *['--of-ci'] * of_ci])


def is_regenerated(text, built):
    for path in (text, sums_beside(text)):
        check(
            text_of(path) == text_of(os.path.join(built, os.path.basename(path))),
            f'{os.path.relpath(path, TOP)} is another: {built} has the new one',
        )


def are_all_regenerated(library, target):
    """Everything else that is generated from the proved object, or from its module."""
    built, committed = os.path.join(library, 'out', 'asm', target), os.path.join(library, 'asm')
    files = [
        (os.path.join(built, name), os.path.join(committed, name))
        for name in sorted(os.listdir(os.path.join(TOP, built)))
    ]
    other = [
        committed
        for built, committed in files
        if not filecmp.cmp(os.path.join(TOP, built), os.path.join(TOP, committed), shallow=False)
    ]
    check(files and not other, f'{", ".join(other)}: {library}/out has the new one')
    return f'{len(files)} files'


def is_same(assembler, text, proved, workdir):
    has_sums(assembler, text, workdir)
    found = compare(proved, os.path.join(workdir, 'assembled.o'))
    check(not found, ' / '.join(line[:200] for line in found[:3]))


def check_texts(report: Report, library: str, target: str) -> None:
    """The sources of a library that was proved and built."""
    out = os.path.join(TOP, library, 'out')
    assemblers = assemblers_for(target)
    report.attempt(f'all that is made of {library} for {target}', are_all_regenerated, library, target)
    for name in SETS[library, target]:
        text, proved = os.path.join(TOP, library, 'asm', f'{name}.s'), os.path.join(out, 'proved', f'{name}.o')
        shown = os.path.relpath(text, TOP)
        report.attempt(f'{shown} and its sums, regenerated', is_regenerated, text, os.path.join(out, 'asm', target))
        if target == 'x86-64':
            report.attempt(f'{shown}: the prefetches of its module', has_prefetches, library, name)
        if library == 'c' and name in ('x86-64-v3', WIDE):
            report.attempt(f'{shown}: another module is refused', other_modules_are_refused, library, name)
        with tempfile.TemporaryDirectory() as workdir:
            for assembler in assemblers:
                report.attempt(f'{shown} by {assembler.name}', is_same, assembler, text, proved, workdir)
            report.attempt(f'{shown} made wrong is noticed', wrong_texts_are_noticed, text, proved, target, workdir)
            if name == WIDE:
                report.attempt(
                    f'{shown}: instructions of mnemonics.txt alone', other_instructions_are_noticed, text, workdir
                )
            check_frames(report, library, target, text, workdir)


def other_instructions_are_noticed(text, workdir):
    """The source itself has none; an instruction that the list lacks is detected in each wide function, and a wide
    vector in another."""
    right = text_of(text)
    check(not faults_of(right, workdir), 'it has others')
    for name, line in (
        *((re.escape(wide.plain(name)) + r'(?:\.i\w+)?', 'vpcmpeqb %zmm0,%zmm1,%k1') for name in wide.WIDE),
        (r'(?:XXH64|twox_rust_\d+_xxh32_write_v4)', 'vpaddq %zmm0,%zmm1,%zmm2'),
    ):
        wrong, count = re.subn(rf'^{name}:\n', rf'\g<0>\t{line}\n', right, flags=re.M)
        check(count == 1 and faults_of(wrong, workdir), f'{name}: it was not noticed')
    return f'{len(wide.WIDE)} functions, {len(wide.mnemonics())} mnemonics'


def faults_of(text, workdir):
    out = os.path.join(workdir, 'wide.o')
    As('x86-64').assemble(write(os.path.join(workdir, 'wide.s'), text), out)
    return list(wide.faults(out, wide.mnemonics()))


def check_frames(report, library, target, text, workdir):
    shown, assembler = os.path.relpath(text, TOP), As(target)
    report.attempt(f'{shown}: the frames', unwinding.are_reported, assembler, text, workdir)
    report.attempt(
        f'{shown}: wrong frames are noticed',
        unwinding.wrong_ones_are_noticed,
        assembler,
        text,
        workdir,
        lambda out: unwinding.differences(out)[1],
    )
    if (library, target) != ('c', 'x86-64'):
        return
    if os.path.basename(text) == f'{WIDE}.s' and WIDE not in sets_here():
        print(f'left out: {shown}: unwound at each instruction, since this processor lacks {WIDE}')
    else:
        report.attempt(f'{shown}: unwound at each instruction', unwinding.unwinds, assembler, text, workdir)


def has_sums(assembler, text, workdir):
    out = os.path.join(workdir, 'assembled.o')
    assembler.assemble(text, out)
    found = compare_sums(sums_beside(text), out)
    check(not found, ' / '.join(line[:200] for line in found[:3]))


def check_sums(report: Report, folder: str, sets: Sequence[str]) -> None:
    """Sources for x86-64 against their sums, if no proved object is available."""
    with tempfile.TemporaryDirectory() as workdir:
        for assembler in assemblers_for('x86-64'):
            for name in sets:
                report.attempt(
                    f'the sums of {name}.s by {assembler.name}',
                    has_sums,
                    assembler,
                    os.path.join(folder, f'{name}.s'),
                    workdir,
                )


def main():
    parser = command.parser(__doc__)
    parser.add_argument(
        '--target', choices=('x86-64', 'aarch64'), default='x86-64', help='the processor of the assembly source'
    )
    parser.add_argument('--of-ci', action='store_true', help='use what rt ci has proved')
    parser.add_argument('libraries', nargs='*', metavar='c|rust', help='the folders to check, by default both')
    chosen, report = parser.parse_args(), Report()
    for library in chosen.libraries or list(BUILDS):
        if library not in BUILDS:
            parser.error(f'{library} is neither c nor rust')
        report.attempt(f'{BUILDS[library]} --target {chosen.target}', is_built, library, chosen.target, chosen.of_ci)
        check_texts(report, library, chosen.target)
    sys.exit(report.end())
