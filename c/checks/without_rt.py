"""Checks the library for C without a toolchain: from a clean copy of the repository, only by make, with rt hidden.
`c/check --without-rt` runs this."""
import os
import re
import shutil
import tempfile
import time
from typing import Callable

from c.checks import aarch64, installed, launcher, values
from c.checks.library import Built
from c.checks.sides import THEIRS, Side
from checks.lib import arm_roots
from checks.lib.report import Fault, Report, check, last_line
from checks.lib.tools import clean_copy, hide_rt, install_packages, must, path_without, ran, text_of, write

PACKAGES = {
    'gcc': 'gcc',
    'g++': 'g++',
    '/usr/include/stdio.h': 'libc6-dev',
    'nm': 'binutils',
    'make': 'make',
    'python3': 'python3',
    'pkg-config': 'pkg-config',
    'cmake': 'cmake',
    'clang': 'clang',
    'musl-gcc': 'musl-tools',
    'qemu-x86_64': 'qemu-user',
    'xxhsum': 'xxhash',
    THEIRS: 'libxxhash0',
    '/usr/lib/x86_64-linux-gnu/libxxhash.a': 'libxxhash-dev',
}
ARM_PACKAGES = {**aarch64.PACKAGES, 'gcc': 'gcc', 'make': 'make', 'python3': 'python3'}
ARM_GCC, ON_ARM = 'aarch64-linux-gnu-gcc', 'run=qemu-aarch64 -L /usr/aarch64-linux-gnu'
# A function, the text in its source in place of a constant, the goal that detects it, and a word of its message.
WRONG_TEXTS = (
    ('XXH64', '$0x9e3779b185ebca87', '$0x9e3779b185ebca89', 'check-values', 'differ'),
    ('XXH64_reset', '$0x60ea27eeadc0b5d6', '$0x60ea27eeadc0b5d7', 'check-names', 'a stream of XXH64'),
)
# What isn't a function's bytes: a word of the source, another in its place, and the part that then differs, or the
# section of the word.
OTHER_TEXTS = {
    'a place in a mergeable section': (r'(\.L\d+_)10\(%rip\)', r'\g<1>0+0x10(%rip)', None),
    'a function that chooses another': (
        r'(\.type \S+\.products_of_block),@function',
        r'\1,@gnu_indirect_function',
        '.text.twox_plain.xxhash32.rounds.impl_from_128',
    ),
    "a section's flags": (r'(\.section \.rodata\.static\.0),"a"', r'\1,"aw"', '.rodata.static.0'),
    'the visibility of a name': (r'\.globl XXH64\n', r'\g<0>\t.hidden XXH64\n', 'names'),
    'a note': ('0xc0000002,4,2,0', '0xc0000002,4,3,0', 'notes'),
    'a frame': (r'\.cfi_def_cfa_offset 16\n', '.cfi_def_cfa_offset 24\n', 'frames'),
}
COMPILERS = ('clang', 'g++', 'clang++', 'gcc -flto', 'clang -flto=thin', 'gcc -std=c89 -pedantic -Werror')


def run_make(copy, *args, **variables):
    return ran(['make', '-s', '-C', os.path.join(copy, 'c'), *args], env={**os.environ, **variables})


def make(copy, *args):
    done = run_make(copy, *args)
    check(done.returncode == 0, last_line(done.stdout))
    return done.stdout


def is_built(copy):
    begin = time.monotonic()
    make(copy)
    return f'{time.monotonic() - begin:.1f} s'


def passes_make_check(copy, compiler, out, *args):
    """make check succeeds, having compared each source and called each name."""
    output = make(copy, f'CC={compiler}', f'out={out}', *args, 'check')
    same, names = re.findall(r'^same: .*', output, re.M), re.findall(r'^all \d+ names', output, re.M)
    check('all values' in output and same and names, f'it says {last_line(output)}')
    check('pragma' not in output and 'warning' not in output, f'it warns: {output[:300]}')
    return '; '.join([*names, *same])


def passes_in_a_folder(copy, folder):
    """make check with a path that has characters at which make and the shell split words."""
    shutil.copytree(copy, folder, ignore=shutil.ignore_patterns('out'))
    return passes_make_check(folder, 'cc', 'out')


def is_refused(copy, word, *args, **variables):
    """make stops with one line that states the reason."""
    done = run_make(copy, *args, **variables)
    check(done.returncode != 0 and word in done.stdout, f'status {done.returncode}: {last_line(done.stdout)}')
    return word


# ---- wrong copies ----


class Changed:
    """A file of the copy with another text in it, during a test."""

    def __init__(self, copy, name, change):
        self.path = os.path.join(copy, 'c', name)
        self.right = text_of(self.path)
        self.wrong = change(self.right)

    def __enter__(self):
        write(self.path, self.wrong)

    def __exit__(self, *_):
        write(self.path, self.right)


def wrong_text_is_noticed(copy, function, right, wrong, goal, word):
    """A wrong constant in the source: the function's result is wrong, and the sums name its section."""
    sections = []

    def change(text):
        at = text.index(right, text.index(f'\n{function}:'))
        sections[:] = re.findall(r'\.section (\S+?),"ax"', text[:at])
        return text[:at] + wrong + text[at + len(right) :]

    with Changed(copy, 'asm/x86-64-v2.s', change):
        is_refused(copy, word, 'out=out/wrong', goal)
        is_refused(copy, f'{sections[-1]}: other than what was proved', 'out=out/wrong', 'check-bytes')
    return sections[-1]


def other_text_is_noticed(copy, right, wrong, part):
    """A source whose functions have the same bytes, and from which a linker makes another program."""
    sections = []

    def change(text):
        found = re.search(right, text)
        sections[:] = re.findall(r'\.section (\S+?),"ax"', text[: found.start()])
        return text[: found.start()] + found.expand(wrong) + text[found.end() :]

    with Changed(copy, 'asm/x86-64-v2.s', change):
        return is_refused(copy, f'{part or sections[-1]}: other than what was proved', 'out=out/other', 'check-bytes')


def uncalled_name_is_noticed(copy):
    """A program that omits a call prints other names than the library has."""

    def change(text):
        return text.replace('        values_of_128(lengths[i]);\n', '').replace('static void values', 'void values')

    with Changed(copy, 'checks/names.c', change):
        return is_refused(copy, 'differ', 'out=out/uncalled', 'check-names')


def foreign_compiler(workdir, machine):
    """A compiler for another machine, which reports that machine."""
    return write(os.path.join(workdir, 'cc-' + machine), f'#!/bin/sh\necho {machine}\n', 0o755)


def is_from_source(copy, word, *args):
    """make prints in one line that it compiles C, and why."""
    done = run_make(copy, '-n', *args)
    first = done.stdout.splitlines()[0]
    check(done.returncode == 0 and word in first and ' -c source/xxhash.c ' in done.stdout, last_line(done.stdout))
    return first


def is_no_folder(copy, script):
    """An option that a script doesn't have is refused, and no folder of that name is written."""
    done = ran([os.path.join(copy, 'c', script), '--help'])
    check(done.returncode == 2 and done.stdout.startswith(f'usage: c/{script} '), last_line(done.stdout))


def check_refusals(report, copy, workdir):
    for machine in ('riscv64-linux-gnu', 'aarch64-linux-android', 'x86_64-linux-gnux32', 'arm64-apple-darwin22'):
        message = f'which is not proved: no assembly source for {machine}, only for Linux on'
        report.attempt(f'{machine}: from C', is_from_source, copy, message, f'CC={foreign_compiler(workdir, machine)}')
    report.attempt('no compiler', is_refused, copy, "no C compiler: CC is '/nowhere/cc'", 'CC=/nowhere/cc')
    report.attempt(
        'gcc -m32: from C', is_from_source, copy, 'no assembly source for pointers of 32 bits', 'CC=gcc -m32'
    )
    report.attempt(
        'a PREFIX that is no whole path', is_refused, copy, 'PREFIX must begin with /', 'install', 'PREFIX=here'
    )
    for goal in ('install', 'uninstall'):
        report.attempt(
            f'{goal} without PREFIX',
            is_refused,
            copy,
            f'PREFIX is required: make -C c {goal} PREFIX=/opt/twox_hash',
            goal,
            f'DESTDIR={workdir}/nowhere',
        )
    report.attempt('uninstall of another library', other_library_stays, copy, workdir)
    for script in ('install', 'package'):
        report.attempt(f'c/{script} --help', is_no_folder, copy, script)
    report.attempt(
        'make check without python3',
        lambda: is_refused(
            copy, 'python3 not found', 'out=out/no-python', 'check-bytes', PATH=path_without(workdir, 'python3')
        ),
    )


# ---- folders ----


def names_of(copy, lib):
    return len(values.exported(os.path.join(copy, 'c', lib, 'libxxhash.so.0')))


def folders_stay_apart(copy):
    """The library is complete even if its folder has the name of an instruction set, or of any other folder of the
    build."""
    places = ('x86-64-v2', '.', 'made/x86_64-linux-gnu', 'made/x86_64-linux-gnu/x86-64-v2')
    for number, place in enumerate(places):
        out = f'out/apart-{number}'
        make(copy, f'out={out}', f'lib={out}/{place}', 'all', 'check-values', 'check-bytes')
        found = names_of(copy, f'{out}/{place}')
        check(found == 58, f'with lib={out}/{place} it has {found} names')
    return f'{len(places)} folders'


def processors_stay_apart(copy):
    """Two processors in one tree, in any order and with one folder: each library has the names of its processor."""
    arm = f'CC={ARM_GCC}'
    turns: list[tuple[list[str], int]] = [
        ([arm], 49),
        ([], 58),
        ([arm], 49),
        ([arm, 'lib=out/arm'], 49),
        (['lib=out/other'], 58),
        (['lib=out/arm'], 58),
        ([arm, 'lib=out/arm'], 49),
    ]
    for args, names in turns:
        make(copy, *args)
        lib = next((word[4:] for word in args if word.startswith('lib=')), 'out/lib')
        check(names_of(copy, lib) == names, f'{args}: {names_of(copy, lib)} names')
    return '49 and 58 names, in turns'


def files_below(folder):
    return sorted(os.path.relpath(f'{where}/{name}', folder) for where, _, names in os.walk(folder) for name in names)


def is_taken_away(copy, workdir):
    """uninstall removes exactly what install creates. install prints where that is, and which programs load it."""
    root = os.path.join(workdir, "a user's destination, 1")
    place = os.path.join(root, 'opt/twox_hash')
    output = make(copy, 'install', 'PREFIX=/opt/twox_hash', f'DESTDIR={root}')
    check(f'{place}/lib and include: no program runs on it unless' in output, f'install says {last_line(output)}')
    put = files_below(place)
    check(len(put) >= 10, f'it puts {put}')
    write(os.path.join(place, 'lib', 'other.so'), '')
    make(copy, 'uninstall', 'PREFIX=/opt/twox_hash', f'DESTDIR={root}')
    check(files_below(root) == ['opt/twox_hash/lib/other.so'], f'it leaves {files_below(root)}')
    output = make(copy, 'install', 'PREFIX=/usr/local', f'DESTDIR={root}')
    check('after ldconfig each program of this machine' in output, f'install to /usr/local says {last_line(output)}')
    make(copy, 'uninstall', 'PREFIX=/usr/local/', f'DESTDIR={root}')
    check(not os.path.exists(os.path.join(root, 'usr/local')), 'a folder is left')
    return f'{len(put)} files'


def sources_take_turns(copy, workdir):
    """A library from C replaces those in the loader's folders, which the loader would prefer, in a build and where it
    is installed. uninstall removes them from whichever source."""
    root, args = os.path.join(workdir, 'turns'), ['out=out/turns', 'PREFIX=/opt', f'DESTDIR={workdir}/turns']
    folders = (os.path.join(copy, 'c/out/turns/lib/glibc-hwcaps'), os.path.join(root, 'opt/lib/glibc-hwcaps'))
    turns: list[tuple[list[str], int]] = [([], 2), (['SOURCE=1'], 0), ([], 2)]
    for source, count in turns:
        make(copy, *args, *source, 'check-values', 'install')
        left = [len(files_below(folder)) for folder in folders]
        check(left == [count, count], f'{source}: {left} libraries for better processors')
    make(copy, *args, 'SOURCE=1', 'uninstall')
    check(not files_below(root), f'uninstall leaves {files_below(root)}')
    return 'proved, from C, proved'


def other_library_stays(copy, workdir):
    """uninstall removes nothing if the header is another library's."""
    include = os.path.join(workdir, 'theirs/opt/include')
    os.makedirs(include)
    shutil.copy('/usr/include/xxhash.h', include)
    word = is_refused(copy, 'there is no twox_hash in', 'uninstall', 'PREFIX=/opt', f'DESTDIR={workdir}/theirs')
    check(files_below(include) == ['xxhash.h'], 'the header is gone')
    return word


# ---- all ----


def static_table_agrees(copy, workdir, compiler, out, run=()):
    """The oracle's table by a static program, with musl's loader or none."""
    make(copy, f'CC={compiler}', f'out={out}')
    program = os.path.join(workdir, f'table-{os.path.basename(out)}')
    source, library = os.path.join(copy, 'oracle', 'vectors.c'), os.path.join(copy, 'c', out, 'lib', 'libtwox_hash.a')
    must([compiler, '-O2', '-static', '-w', '-I', os.path.join(copy, 'c', 'include'), source, library, '-o', program])
    check('INTERP' not in must(['readelf', '-lW', program]), 'the program asks for a loader')
    return values.table_agrees([*run, program])


def check_makefile(report, copy, workdir):
    report.attempt('make', is_built, copy)
    report.attempt('make check', passes_make_check, copy, 'cc', 'out')
    for number, compiler in enumerate(COMPILERS):
        report.attempt(f'make check by {compiler}', passes_make_check, copy, compiler, f'out/by-{number}')
    report.attempt('make check in a path with a space', passes_in_a_folder, copy, f"{workdir}/a user's copy, 1")
    report.attempt(
        "musl: the oracle's table by a static program", static_table_agrees, copy, workdir, 'musl-gcc', 'out/musl'
    )
    report.attempt('folders of one name', folders_stay_apart, copy)
    report.attempt('install and uninstall', is_taken_away, copy, workdir)
    report.attempt('the proved library and one from C, in turns', sources_take_turns, copy, workdir)
    for wrong in WRONG_TEXTS:
        report.attempt(f'a wrong text of {wrong[0]} is noticed', wrong_text_is_noticed, copy, *wrong)
    for what, args in OTHER_TEXTS.items():
        report.attempt(f'{what} is noticed', other_text_is_noticed, copy, *args)
    report.attempt('a name that is not called is noticed', uncalled_name_is_noticed, copy)
    check_refusals(report, copy, workdir)


def check_x86(report, copy, workdir, has_v3, examples):
    check_makefile(report, copy, workdir)
    built = Built.by_make(workdir, copy)
    every, paths = built.libraries()
    for path in every:
        report.attempt(f'names of {os.path.relpath(path, built.folder)}', values.names_are_theirs, path, THEIRS)
    installed.check_all(report, built, paths)
    for compiler in ('gcc', 'clang'):
        report.attempt(f'the launcher of two builds by {compiler}', launcher.launches, workdir, has_v3, compiler)
    program = values.calls_program(built, 'calls')
    report.attempt('states after freeState', values.freed_states_are_refused, [program], THEIRS, built.plain, 1000)
    for path in paths:
        report.attempt(
            f'calls of {os.path.relpath(path, built.folder)}', values.calls_agree, [program], THEIRS, path, 10000
        )
    examples(report, built, Side('make install', built.folder, paths[-1]))


def check_arm(report, copy, workdir):
    report.attempt('make check for 64-bit ARM', passes_make_check, copy, ARM_GCC, 'out', 'lib=out/aarch64', ON_ARM)
    report.attempt('two processors in one tree', processors_stay_apart, copy)
    report.attempt(
        "musl for 64-bit ARM: the oracle's table by a static program",
        static_table_agrees,
        copy,
        workdir,
        arm_roots.musl_gcc(workdir),
        'out/arm-musl',
        ['qemu-aarch64'],
    )


def check_all(report: Report, target: str, has_v3: bool, examples: Callable[..., None]) -> None:
    install_packages(PACKAGES if target == 'x86-64' else ARM_PACKAGES)
    with tempfile.TemporaryDirectory() as workdir:
        hide_rt(workdir)
        copy = os.path.join(workdir, 'copy')
        clean_copy(copy)
        try:
            check_x86(report, copy, workdir, has_v3, examples) if target == 'x86-64' else check_arm(
                report, copy, workdir
            )
        except Fault as fault:
            report.record('make install', str(fault))
