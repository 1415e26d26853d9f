"""The packages: built without rt and without a network, complete, and installed on a machine without a compiler."""
import os
import re
import tarfile
import zipfile

from assembly.same_bytes import Object, compare_sums
from checks.lib.report import Report, check
from checks.lib.tools import write
from python import backend
from python.checks.environment import DEBIANS, PATH, PYTHON, PYTHON_FOLDER, TOP, Built, copied, must, run

OF_TABLE = '-m unittest tests.test_values tests.test_objects tests.test_many tests.test_files'.split()


def built_without_rt(built):
    check(run(['/bin/sh', '-c', 'command -v rt']).returncode != 0, f'rt is in {PATH}')
    return ', '.join(os.path.basename(path) for path in (built.source, built.wheel))


def source_is_complete(built):
    """The source package builds the same library in a folder of its own, and has no build output."""
    folder = os.path.join(built.workdir, 'unpacked')
    with tarfile.open(built.source) as archive:
        names = archive.getnames()
        archive.extractall(folder)
    wrong = [name for name in names if name.endswith(('.so', '.pyc', '.o')) or name.count('/') > 3]
    check(not wrong, f'it holds {wrong}')
    (top,) = os.listdir(folder)
    must([PYTHON, '-m', 'pip', 'wheel', '-q', '--no-deps', '-w', folder, os.path.join(folder, top)])
    wheel = next(name for name in os.listdir(folder) if name.endswith('.whl'))
    with zipfile.ZipFile(os.path.join(folder, wheel)) as one, zipfile.ZipFile(built.wheel) as other:
        check(one.namelist() == other.namelist(), 'its wheel has other files')
        for name in one.namelist():
            check(one.read(name) == other.read(name), f'{name} is another')
    return f'{len(names)} files, the same wheel'


def venv(built, name):
    folder = os.path.join(built.workdir, name)
    must([PYTHON, '-m', 'venv', folder])
    return os.path.join(folder, 'bin')


def pip_builds(built):
    """`pip install .` in a fresh environment, as a user types it, without a network."""
    programs = venv(built, 'fresh-source')
    must([os.path.join(programs, 'pip'), 'install', '-q', '.'], copied(os.path.join(built.workdir, 'for-pip')))
    found = must([os.path.join(programs, 'python'), '-c', 'import twox_hash; print(twox_hash.__file__)'], '/')
    check(found.startswith(os.path.dirname(programs)), f'it is {found}')


def pip_builds_in_place(built):
    """`pip install -e .` imports the sources in place."""
    programs = venv(built, 'fresh-editable')
    clone = copied(os.path.join(built.workdir, 'for-pip-editable'))
    must([os.path.join(programs, 'pip'), 'install', '-q', '-e', '.'], clone)
    found = must([os.path.join(programs, 'python'), '-c', 'import twox_hash; print(twox_hash.__file__)'], '/')
    check(found.startswith(clone), f'it is {found}')


def pages_agree(built):
    """The lines of Python in the pages run, one page after another, and a value after one is its result."""
    lines, values = ['import os', f'os.chdir({TOP!r})'], 0
    for page in ('python/README.md', 'docs/PYTHON.md'):
        with open(os.path.join(TOP, page), encoding='utf-8') as file:
            for block in re.findall(r'```python\n(.*?)```', file.read(), re.S):
                tested, count = re.subn(r'^(\S.*?) +# (["\'].*)$', r'assert \1 == \2', block, flags=re.M)
                lines, values = [*lines, tested], values + count
    check(len(lines) >= 5 and values >= 2, f'{len(lines)} blocks with {values} values')
    must([PYTHON, '-c', '\n'.join(lines)], PYTHONPATH=built.site)
    return f'{values} values'


def wheel_installs(built):
    """The wheel in a fresh environment with neither rt nor a compiler in PATH: the tests pass there."""
    programs = venv(built, 'fresh-wheel')
    theirs = os.path.join(built.workdir, 'theirs')
    os.makedirs(theirs)
    os.symlink(f'{DEBIANS}/xxhash', os.path.join(theirs, 'xxhash'))
    must([os.path.join(programs, 'pip'), 'install', '-q', built.wheel], PATH=programs)
    check(
        run(['/bin/sh', '-c', 'command -v cc || command -v gcc || command -v rt'], PATH=programs).returncode != 0,
        'there is a compiler',
    )
    done = run([os.path.join(programs, 'python'), *OF_TABLE], PYTHON_FOLDER, PATH=programs, PYTHONPATH=theirs)
    ran = re.search(r'^Ran (\d+) tests', done.stdout, re.M)
    check(done.returncode == 0 and ran, done.stdout[-300:])
    must([os.path.join(programs, 'pip'), 'uninstall', '-q', '-y', 'twox-hash'], PATH=programs)
    left = run([os.path.join(programs, 'python'), '-c', 'import twox_hash'], '/', PATH=programs)
    check('ModuleNotFoundError' in left.stdout, 'it is still there after pip uninstall')
    return f'{ran[1]} tests'


def refusals(built):
    """A build that can't be made prints the reason in one line."""
    clone = copied(os.path.join(built.workdir, 'refusals'))
    compiler = write(os.path.join(built.workdir, 'foreign-cc'), '#!/bin/sh\necho arm64-apple-darwin\n', 0o755)
    for cc, message in (
        ('/none/cc', 'a C compiler is needed'),
        (compiler, 'the package is for Linux, and this compiler is for arm64-apple-darwin'),
    ):
        done = run([os.path.join(clone, 'build'), PYTHON], CC=cc)
        check(done.returncode and message in done.stdout, f'{cc}: {done.stdout[-200:]}')
        check('Traceback' not in done.stdout, f'{cc}: a traceback')


def python_in_the_callers_folder(built):
    """A relative path of Python is one from the caller's folder."""
    clone, folder = copied(os.path.join(built.workdir, 'relative')), os.path.join(built.workdir, 'caller')
    write(os.path.join(folder, 'bin', 'python'), '#!/bin/sh\necho "$0" runs\n', 0o755)
    done = run([os.path.join(clone, 'build'), 'bin/python'], folder)
    check(done.stdout == f'{folder}/bin/python runs\n' * 2, done.stdout[-200:])


def names_are_hidden(built):
    """The file exports only its init function, and imports no name of libxxhash."""
    shown = must(['/usr/bin/nm', '-D', '--defined-only', built.library]).split()[2::3]
    check(shown == ['PyInit__native'], f'it shows {shown}')
    asked = [line.split()[-1] for line in must(['/usr/bin/nm', '-D', '-u', built.library]).splitlines()]
    wrong = [
        name for name in asked if 'XXH' in name or not re.match(r'_?Py|_Py|mem|str|getenv|pthread_mutex|__|_ITM', name)
    ]
    check(not wrong, f'it asks for {wrong}')
    check(re.search(r'GNU_STACK.* RW ', must(['/usr/bin/readelf', '-lW', built.library])), 'its stack is executable')
    return f'1 name is shown, {len(asked)} are asked for'


def parts_that_differ(workdir, tools, instructions, prefix, change: tuple[str, str] = ('', '')):
    """The source of an instruction set with its names changed as in the build, assembled, with its names changed
    back: the parts that differ from the proved object, and the number of sections. `change` replaces a correct word
    by a wrong one."""
    text = backend.read(backend.proved(f'asm/{instructions}.s')).decode()
    path = os.path.join(workdir, f'renamed-{instructions}')
    write(f'{path}.s', backend.renamed(text, prefix).replace(*change, 1))
    back = [f'{prefix}{name.removeprefix("proved_")}={name}' for name in re.findall(r'^\s*\.globl (\S+)$', text, re.M)]
    must([f'/usr/bin/{tools}gcc', '-c', f'{path}.s', '-o', f'{path}.o'])
    must([f'/usr/bin/{tools}objcopy', *(word for pair in back for word in ('--redefine-sym', pair)), f'{path}.o'])
    sums = os.path.join(TOP, 'c', 'asm', f'{instructions}.sums')
    return [line.split(':')[0] for line in compare_sums(sums, f'{path}.o')], len(Object(f'{path}.o').parts()) - 1


def text_is_proved(workdir: str, machine: str, tools: str = '') -> str:
    """Each section of the package's code is that of the proved object. The names differ only in being hidden. A
    wrong constant is detected."""
    compared = 0
    for instructions, prefix in backend.SETS[machine].items():
        others, sections = parts_that_differ(workdir, tools, instructions, prefix)
        check(others == ['names'], f'{instructions}: {others[:3]}')
        wrong, _ = parts_that_differ(workdir, tools, instructions, prefix, ('0x9e3779b1', '0x9e3779b3'))
        check(len(wrong) == 2, f'{instructions}: of a wrong constant {wrong}')
        compared += sections
    return f'{compared} sections'


def sets_are_chosen(built):
    """The processor's best instruction set is used, or the requested one; a missing one is refused by name."""
    ask = [PYTHON, '-c', 'import twox_hash; print(twox_hash.instruction_set, twox_hash.xxh3_64_hexdigest(b"a" * 500))']
    answers = set()
    # qemu has nothing of what x86-64-v4 adds.
    for processor, instructions in (
        ('max', 'x86-64-v3'),
        ('Haswell', 'x86-64-v3'),
        ('Nehalem', 'x86-64-v2'),
        ('max,avx2=off', 'x86-64-v2'),
        ('max,bmi2=off', 'x86-64-v2'),
        ('max,movbe=off', 'x86-64-v2'),
        ('max,xsave=off', 'x86-64-v2'),
    ):
        found = must(['/usr/bin/qemu-x86_64', '-cpu', processor, *ask], PYTHONPATH=built.site).split()
        check(found[-2] == instructions, f'{processor}: {found}')
        answers.add(found[-1])
    check(len(answers) == 1, f'{answers}')
    old = run(['/usr/bin/qemu-x86_64', '-cpu', 'core2duo', *ask], PYTHONPATH=built.site).stdout
    check('ImportError: twox_hash: this processor lacks x86-64-v2' in old, old[-200:])
    lacking = run(
        ['/usr/bin/qemu-x86_64', '-cpu', 'Nehalem', *ask], PYTHONPATH=built.site, TWOX_HASH_INSTRUCTIONS='x86-64-v3'
    ).stdout
    check('ImportError: twox_hash: x86-64-v3: this processor lacks it' in lacking, lacking[-200:])
    lacking = run(
        ['/usr/bin/qemu-x86_64', '-cpu', 'max', *ask], PYTHONPATH=built.site, TWOX_HASH_INSTRUCTIONS='x86-64-v4'
    ).stdout
    check('ImportError: twox_hash: x86-64-v4: this processor lacks it' in lacking, lacking[-200:])
    unknown = run(ask, PYTHONPATH=built.site, TWOX_HASH_INSTRUCTIONS='sparc').stdout
    check('ImportError: twox_hash: sparc: there is no such instruction set' in unknown, unknown[-200:])
    return '7 processors, and one that is too old'


def check_all(report: Report, built: Built) -> None:
    report.attempt('python/build without rt and without a network', built_without_rt, built)
    report.attempt('the source package builds the same wheel', source_is_complete, built)
    report.attempt('pip install . in a fresh environment', pip_builds, built)
    report.attempt('pip install -e .', pip_builds_in_place, built)
    report.attempt('the lines of Python in the pages', pages_agree, built)
    report.attempt('the wheel where rt and compilers are hidden', wheel_installs, built)
    report.attempt('no compiler, and one for another machine', refusals, built)
    report.attempt('a relative path of Python', python_in_the_callers_folder, built)
    report.attempt('names of the extension', names_are_hidden, built)
    report.attempt(
        'what the assembler makes of the text, beside what was proved', text_is_proved, built.workdir, 'x86_64'
    )
    report.attempt('the set of instructions', sets_are_chosen, built)
