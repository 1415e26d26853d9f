"""Programs with the installed library: states of their own, and a choice by the processor."""
import os
import shutil
import subprocess
from typing import Sequence

from c.checks.library import C, Built
from c.checks.sides import THEIRS
from checks.lib.report import Report, check
from checks.lib.tools import must, ran, text_of, write

HEADER = '/usr/include/xxhash.h'
# Faults of the C around the proved code, each of which own_states_3 must detect: a file, its text, and another one. An
# address that is passed without its mark changes no value, since the proved call tests the mark too.
FAULTS = (
    ('states.c', 'aligned_alloc(XXH3_ALIGNMENT, XXH3_STATE_BYTES)', 'malloc(XXH3_STATE_BYTES)'),
    ('streams.c', 'state->mark == MARK_ADDRESS ||', ''),
    ('streams.c', '|| state->mark == MARK_ADDRESS_AND_SEED', ''),
    ('streams.c', '#define MARK_ADDRESS 0x9', '#define MARK_ADDRESS 0x8'),
    ('streams.c', 'uint64_t mark, seed;', 'uint64_t seed, mark;'),
    ('streams.c', 'size_t secret_length;\n    const void *secret;', 'const void *secret;\n    size_t secret_length;'),
    (
        'streams.c',
        'members->secret, members->secret_length); \\\n    }\n#define',
        'members->secret, 136); \\\n    }\n#define',
    ),
    ('streams.c', 'twox_c_digest_##width(state, members->secret,', 'twox_c_digest_##width(state, members->others,'),
    ('guards.c', 'length, (uintptr_t)secret);', 'length, (uintptr_t)secret + 8);'),
    ('guards.c', '(uintptr_t)secret, seed);', '(uintptr_t)secret, seed + 1);'),
    (
        'guards.c',
        'twox_c_reset_xxh3_secret(state, secret, length,',
        'twox_c_reset_xxh3_secret(state, secret, length / 2,',
    ),
)
# The word comes after the header was included once, for example by another header.
IN_CPP = '''#include <xxhash.h>
#define XXH_STATIC_LINKING_ONLY
#include <xxhash.h>
int main()
{
    XXH32_state_t first;
    XXH64_state_t second;
    XXH3_state_t third;
    XXH32_reset(&first, 7);
    XXH64_reset(&second, 7);
    XXH3_INITSTATE(&third);
    XXH3_64bits_reset_withSeed(&third, 7);
    return XXH32_digest(&first) != XXH32("", 0, 7) || XXH64_digest(&second) != XXH64("", 0, 7)
        || XXH3_64bits_digest(&third) != XXH3_64bits_withSeed("", 0, 7) || sizeof third != 576;
}
'''
ASKS = '#include <xxh_x86dispatch.h>\nint main(void) { return XXH_featureTest(); }\n'


def own_states_agree(
    built: Built, theirs: str, paths: Sequence[str], compiler: str, folder: str, run: Sequence[str] = ()
) -> str:
    """States by a header, between bytes that must not change, and memory that was never reset."""
    found = []
    for name in ('own_states', 'own_states_3'):
        program = os.path.join(built.workdir, name)
        must([compiler, '-O2', '-Wall', '-Wextra', '-I', folder, os.path.join(C, 'checks', name + '.c'), '-o', program])
        for path in paths:
            done = ran([*run, program, theirs, path])
            check(done.returncode == 0, done.stdout[-300:])
            found.append(done.stdout.split()[0])
    return f'{", ".join(found)} compared'


def with_fault(built, folder, file, text, other):
    """The shared library with a fault in a C file."""
    source = text_of(os.path.join(C, file))
    check(source.count(text) == 1, f'{file} has {source.count(text)} times {text}')
    path, objects = os.path.join(folder, file), os.path.join(folder, 'objects')
    write(path, source.replace(text, other))
    os.mkdir(objects)
    must(['ar', 'x', '--output', objects, built.archive])
    must(
        [
            *'gcc -O2 -fPIC -I'.split(),
            built.include,
            '-I',
            os.path.join(C, 'asm'),
            '-c',
            path,
            '-o',
            os.path.join(objects, file.replace('.c', '.o')),
        ]
    )
    library = os.path.join(folder, 'libxxhash.so.0')
    must(
        [
            'gcc',
            '-shared',
            *(os.path.join(objects, name) for name in sorted(os.listdir(objects))),
            '-Wl,-Bsymbolic-functions',
            '-o',
            library,
        ]
    )
    return library


def faults_are_detected(built):
    """own_states_3 fails on each library with a fault, also by stopping."""
    program = os.path.join(built.workdir, 'own_states_3')
    must(['gcc', '-O2', '-I', built.include, os.path.join(C, 'checks', 'own_states_3.c'), '-o', program])
    for number, fault in enumerate(FAULTS):
        folder = os.path.join(built.workdir, f'fault-{number}')
        os.mkdir(folder)
        done = ran([program, THEIRS, with_fault(built, folder, *fault)])
        check(done.returncode, f'{fault[0]} with {fault[2]} is not detected')
    return f'{len(FAULTS)} faults'


def their_header(workdir: str) -> str:
    """Debian's header in a folder of its own, so that none of another folder is used instead."""
    folder = os.path.join(workdir, 'their-header')
    os.makedirs(folder)
    shutil.copy(HEADER, folder)
    return folder


def states_in_cpp(built, compiler):
    path = os.path.join(built.workdir, 'in-cpp')
    must([compiler, '-x', 'c++', '-', '-I', built.include, '-x', 'none', built.archive, '-o', path], input=IN_CPP)
    must([path])


def features_are_known(built):
    """XXH_featureTest, compared with what the system reports of its processor, and on others that qemu emulates."""
    path = os.path.join(built.workdir, 'asks')
    must(['gcc', '-x', 'c', '-', '-I', built.include, '-x', 'none', built.archive, '-o', path], input=ASKS)
    flags = set(text_of('/proc/cpuinfo').split())
    here = 3 if 'avx512f' in flags else 2 if 'avx2' in flags else 1
    others = {'Nehalem': 1, 'max': 2, 'max,-avx2': 1, 'max,-xsave': 1}
    for args, expected in (
        ((), here),
        *((('qemu-x86_64', '-cpu', name), expected) for name, expected in others.items()),
    ):
        found = subprocess.run([*args, path], stderr=subprocess.DEVNULL).returncode
        check(found == expected, f'{args}: {found} in place of {expected}')
    return f'{here} here, and on {len(others)} others'


def check_all(report: Report, built: Built, paths: Sequence[str]) -> None:
    headers = {'theirs': their_header(built.workdir), 'ours': built.include}
    for compiler in ('gcc', 'clang'):
        for name, folder in headers.items():
            report.attempt(
                f'states of a program by {compiler} and the header of {name}',
                own_states_agree,
                built,
                THEIRS,
                paths,
                compiler,
                folder,
            )
    for compiler in ('g++', 'clang++'):
        report.attempt(f'states of a program in C++ by {compiler}', states_in_cpp, built, compiler)
    report.attempt('faults in c/streams.c and c/guards.c are detected', faults_are_detected, built)
    report.attempt('XXH_featureTest', features_are_known, built)
