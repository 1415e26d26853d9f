"""c/launch.c with a program that is built twice: it runs the processor's build, with the same arguments."""
import os
import subprocess

from c.checks.library import C
from checks.lib.report import check
from checks.lib.tools import must, write

SHOWS = '''#include <stdio.h>
int main(int count, char **argv)
{
    printf("%s", SET);
    for (int i = 0; i < count; i++)
        printf("[%s]", argv[i]);
    return count;
}
'''
SETS = ('x86-64-v2', 'x86-64-v3')
BUILDS = 'libexec/twox-hash'
# A processor without AVX2, one with everything that qemu has, and the requirements of x86-64-v3.
OLD = ['qemu-x86_64', '-cpu', 'Nehalem']
FULL = ['qemu-x86_64', '-cpu', 'max']
OF_V3 = ('avx2', 'bmi1', 'bmi2', 'f16c', 'fma', 'abm', 'movbe', 'xsave')


def lay_out(workdir, compiler):
    """Two builds that print which one they are and their arguments, a launcher, and a link to it with another name,
    in a folder that was moved since. Its name has characters that are special in a shell or C."""
    first, folder = os.path.join(workdir, 'first'), os.path.join(workdir, compiler, 'launched "$(here)\\')
    os.mkdir(os.path.dirname(folder))
    source = write(os.path.join(workdir, 'shows.c'), SHOWS)
    for name in SETS:
        os.makedirs(os.path.join(first, BUILDS, name))
        must(['gcc', f'-DSET="{name}"', source, '-o', os.path.join(first, BUILDS, name, 'shows')])
    os.mkdir(os.path.join(first, 'bin'))
    must(
        [
            compiler,
            *'-O2 -Wall -Wextra -Werror -static-pie'.split(),
            '-DPROGRAM="shows"',
            os.path.join(C, 'launch.c'),
            '-o',
            os.path.join(first, 'bin', 'launcher'),
        ]
    )
    os.symlink('launcher', os.path.join(first, 'bin', 'other-name'))
    os.rename(first, folder)
    return folder


def runs(args, message=b'', **more):
    done = subprocess.run(args, capture_output=True, **more)
    check(done.stderr == message, f'{args} tells {done.stderr!r}')
    return done.returncode, done.stdout


def launches(workdir: str, v3: bool, compiler: str) -> str:
    """Name, arguments, exit status and standard streams are those of the build; if that is missing, it prints a
    one-line error."""
    folder = lay_out(workdir, compiler)
    launcher = os.path.join(folder, 'bin', 'launcher')
    best, plain = SETS[v3].encode(), SETS[0].encode()
    tried: list[list[str | bytes]] = [[], ['-q', '', 'a b'], [b'\xff', '\n', 'x' * 100000]]
    for args in tried:
        shown = b''.join(b'[%s]' % (word if isinstance(word, bytes) else word.encode()) for word in args)
        for name in (launcher, os.path.join(folder, 'bin', 'other-name'), 'any name'):
            found = runs([name, *args], executable=launcher)
            check(found == (1 + len(args), best + b'[%s]' % name.encode() + shown), f'as {name}: {found}'[:300])
        found = runs([*OLD, launcher, *args])
        check(found == (1 + len(args), plain + b'[%s]' % launcher.encode() + shown), f'{OLD}: {found}'[:300])
    for lacking in ('', *OF_V3):
        args = [*FULL[:-1], f'{FULL[-1]},-{lacking}', launcher] if lacking else [*FULL, launcher]
        found = runs(args)[1]
        check(found.startswith(SETS[not lacking].encode()), f'{args}: {found}')
    missing = os.path.join(folder, BUILDS, SETS[v3], 'shows')
    os.remove(missing)
    found = runs([launcher], message=f'shows: {missing}: No such file or directory\n'.encode())
    check(found == (127, b''), f'without its build: {found}')
    return f'{SETS[v3]} here, {SETS[0]} under {" ".join(OLD)}; a missing build is told'
