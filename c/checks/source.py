"""Checks the code of c/include/xxhash.h, compiled in all its forms by several compilers, here or for another processor.
`c/check --source` runs this."""
import itertools
import os
import re
import tempfile

from c.checks.library import C
from checks.lib.debian_apt import sources
from checks.lib.report import Report, check, last_line
from checks.lib.tools import TOP, bytes_of, four_hashes, install_packages, must, ran, replace_once, text_of, write

HEADER, SOURCE = os.path.join(C, 'include', 'xxhash.h'), os.path.join(C, 'source', 'xxhash.c')
THEIRS, VECTORS = '/usr/include/xxhash.h', os.path.join(TOP, 'oracle', 'vectors.c')
VALUES, EXAMPLE = os.path.join(C, 'checks', 'source_values.c'), os.path.join(TOP, 'examples', 'c', 'hash-file.c')
LICENSE = os.path.join(TOP, 'LICENSE')
PACKAGES = {
    'gcc': 'gcc',
    '/usr/include/stdio.h': 'libc6-dev',
    'make': 'make',
    'cmake': 'cmake',
    'pkg-config': 'pkg-config',
    'xxhsum': 'xxhash',
    'dpkg-source': 'dpkg-dev',
    THEIRS: 'libxxhash-dev',
}
PACKAGES_HERE = {**PACKAGES, 'g++': 'g++', 'clang': 'clang', 'tcc': 'tcc', 'nm': 'binutils'}
WARNINGS = ('-Wall', '-Wextra', '-Wpedantic', '-Wconversion', '-Wshadow', '-Wcast-align', '-Wundef', '-Werror')
# Compilers with the flags of a form of the code.
FORMS = {
    'scalar': ['-DXXH_VECTOR=XXH_SCALAR'],
    'halves': ['-DXXH_VECTOR=XXH_SCALAR', '-U__SIZEOF_INT128__'],
    'bytes': ['-DXXH_CPU_LITTLE_ENDIAN=0'],
    'sse2': ['-DXXH_VECTOR=XXH_SSE2'],
    'avx2': ['-mavx2'],
}
STANDARDS = {
    'gcc': ('c99', 'c11', 'c17'),
    'clang': ('c99', 'c11', 'c17'),
    'g++': ('c++11', 'c++17', 'c++20'),
    'clang++': ('c++11', 'c++17', 'c++20'),
}
# Other processors: the prefix of the compiler's name, Debian's packages, the emulator and the compiler's flags.
TARGETS = {
    'i386': ('i686-linux-gnu-', ('gcc-i686-linux-gnu', 'libc6-dev-i386-cross'), 'qemu-i386'),
    'arm64': ('aarch64-linux-gnu-', ('gcc-aarch64-linux-gnu', 'libc6-dev-arm64-cross'), 'qemu-aarch64'),
    'armhf': ('arm-linux-gnueabihf-', ('gcc-arm-linux-gnueabihf', 'libc6-dev-armhf-cross'), 'qemu-arm'),
    'ppc64el': ('powerpc64le-linux-gnu-', ('gcc-powerpc64le-linux-gnu', 'libc6-dev-ppc64el-cross'), 'qemu-ppc64le'),
    'riscv64': ('riscv64-linux-gnu-', ('gcc-riscv64-linux-gnu', 'libc6-dev-riscv64-cross'), 'qemu-riscv64'),
    's390x': ('s390x-linux-gnu-', ('gcc-s390x-linux-gnu', 'libc6-dev-s390x-cross'), 'qemu-s390x'),
    'windows': ('x86_64-w64-mingw32-', ('gcc-mingw-w64-x86-64', 'mingw-w64-x86-64-dev'), '/usr/lib/wine/wine64'),
}
OF_TARGET = {
    'i386': {'sse2': ['-msse2'], 'avx2': ['-mavx2']},
    'armhf': {'neon': ['-mfpu=neon']},
    'windows': {'sse2': FORMS['sse2'], 'avx2': FORMS['avx2']},
}
# Symbols that gcc adds on i386, ppc64el and armhf.
OF_COMPILER = r'\.get_pc_thunk\.|_GLOBAL_OFFSET_TABLE_|\.TOC\.$|__aeabi_'
# A function inside xxhash.h that is in each program which contains its code.
MARK = 'xxh3_accumulate_blocks'
# A call of the header that a fault makes wrong: old text, new text, and a function that the values name.
FAULTS = (
    ('hash ^ hash >> 15', 'hash ^ hash >> 14', 'XXH32'),
    ('state->is_large = 1;', '', 'XXH32_digest'),
    ('hash ^ hash >> 29', 'hash ^ hash >> 28', 'XXH64'),
    ('secret + 119', 'secret + 118', 'XXH3_64bits'),
    ('secret_length - 75', 'secret_length - 74', 'XXH3_128bits'),
    ('capacity - 64, bytes - 64, 64)', 'capacity - 64, bytes - 63, 64)', 'digest'),
    ('i % custom_seed_length', '(i + 1) % custom_seed_length', 'XXH3_generateSecret'),
    ('a->low64 < b->low64 ? -1', 'a->low64 > b->low64 ? -1', 'XXH128_cmp'),
    ('bytes->digest + 8, hash.low64', 'bytes->digest + 8, hash.high64', 'XXH128_canonicalFromHash'),
    ('secret_length < XXH3_SECRET_SIZE_MIN || (!source', '(!source', 'refused secrets'),
)


class Source:
    """The header under test in a folder of its own, and what is compiled from it."""

    def __init__(self, workdir, prefix='', run=()):
        self.workdir, self.prefix, self.run = workdir, prefix, run
        self.system = 'Windows' if 'mingw' in prefix else 'Linux'
        self.include = os.path.join(workdir, 'include')
        write(os.path.join(self.include, 'xxhash.h'), text_of(HEADER))
        self.count = 0

    def path(self, end):
        self.count += 1
        return os.path.join(self.workdir, f'{self.count}{end}')

    def forms(self):
        """The forms of the library that make builds: outside Linux only the static one."""
        return ['shared', 'static'] if self.system == 'Linux' else ['static']

    def is_x86_linux(self):
        """True where the C library has functions that choose the instruction set at run time."""
        return self.prefix in ('', 'i686-linux-gnu-')

    def compiler(self, name):
        return [self.prefix + name] if self.prefix else [name]

    def object(self, compiler, text, *flags, language='c'):
        """Compiles a text, without a message of the compiler."""
        path = self.path('.o')
        command = [*self.compiler(compiler), *flags, '-I', self.include]
        source = write(self.path('.cpp' if language == 'c++' else '.c'), text)
        done = ran([*command, '-c', source, '-o', path])
        check(done.returncode == 0 and not done.stdout, done.stdout[:300] or f'status {done.returncode}')
        return path

    def global_names(self, path):
        """The symbols that an object defines for others, and those that it needs, without the compiler's own."""
        lines = [
            line.split() for line in must([self.prefix + 'nm', path]).splitlines() if not re.search(OF_COMPILER, line)
        ]
        return ({line[-1] for line in lines if line[-2] in 'TDBRC'}, {line[-1] for line in lines if line[-2] == 'U'})

    def theirs(self):
        """The reference's header as an object whose names begin with theirs_."""
        return self.object(
            'gcc',
            f'#define XXH_NAMESPACE theirs_\n#define XXH_STATIC_LINKING_ONLY\n'
            f'#define XXH_IMPLEMENTATION\n#include "{self.their_header()}"\n',
            '-O2',
        )

    def their_header(self):
        return write(os.path.join(self.workdir, 'theirs', 'reference.h'), text_of(THEIRS))

    def program(self, compiler, source, *args):
        path = self.path('.out')
        language = 'c++' if compiler.endswith('++') else 'c'
        objects = [word for word in args if word.endswith('.o')]
        flags = [word for word in args if not word.endswith('.o')]
        must(
            [
                *self.compiler(compiler),
                *flags,
                '-I',
                self.include,
                '-x',
                language,
                source,
                '-x',
                'none',
                *objects,
                '-o',
                path,
            ]
        )
        return [*self.run, path]


# ---- symbols ----

PLAIN, TAKES_STATE = 'XXH_versionNumber', ('createState', 'freeState', 'copyState', 'reset', 'update', 'digest')


def public_names():
    """The functions that the header declares."""
    return set(re.findall(r'^#define (XXH\w+) XXH_NAME\(\1\)$', text_of(HEADER), re.M))


def expected_names(macros):
    names = public_names()
    if 'XXH_NO_STREAM' in macros:
        names = {name for name in names if not any(f'_{word}' in name for word in TAKES_STATE)}
    if 'XXH_NO_XXH3' in macros:
        names = {name for name in names if not name.startswith(('XXH3_', 'XXH128'))}
    return {f'my_{name}' for name in names} if 'XXH_NAMESPACE=my_' in macros else names


def combinations():
    macros = ('XXH_NO_STREAM', 'XXH_NO_XXH3', 'XXH_NO_STDLIB', 'XXH_NAMESPACE=my_')
    return [chosen for count in range(len(macros) + 1) for chosen in itertools.combinations(macros, count)]


def object_has_names(source, compiler):
    """c/source/xxhash.c defines the functions that are left, and needs malloc and free, or not."""
    for macros in combinations():
        path = source.object(compiler, text_of(SOURCE), '-O2', *(f'-D{macro}' for macro in macros))
        defined, needed = source.global_names(path)
        check(defined == expected_names(macros), f'{macros}: {sorted(defined ^ expected_names(macros))[:4]}')
        allocates = {'XXH_NO_STREAM', 'XXH_NO_STDLIB'}.isdisjoint(macros)
        check(({'malloc', 'free'} <= needed) == allocates, f'{macros}: it needs {sorted(needed)}')
        check(needed <= {'malloc', 'free', 'memcpy', 'memmove', 'memset'}, f'{macros}: it needs {sorted(needed)}')
    return f'{len(combinations())} combinations of macros'


USES = 'uint64_t program(const void *bytes, size_t length)\n{\n    %sreturn XXH64(bytes, length, 1)%s;\n}\n'
IN_ANY_ORDER = {
    'inlined': ['XXH_INLINE_ALL'],
    'plainly before': [None, 'XXH_INLINE_ALL'],
    'plainly afterwards': ['XXH_INLINE_ALL', None],
    'states before': ['XXH_STATIC_LINKING_ONLY', 'XXH_INLINE_ALL'],
    'twice': ['XXH_INLINE_ALL', 'XXH_INLINE_ALL'],
    'states afterwards': ['XXH_INLINE_ALL', 'XXH_STATIC_LINKING_ONLY'],
    'with a prefix before': ['XXH_NAMESPACE my_', 'XXH_INLINE_ALL'],
    'private': ['XXH_PRIVATE_API'],
    'private, plainly before': [None, 'XXH_PRIVATE_API'],
    'both macros': ['XXH_INLINE_ALL', 'XXH_PRIVATE_API'],
}
HASH_OF_STREAM = 'XXH3_state_t state; XXH3_64bits_reset(&state); XXH3_64bits_update(&state, bytes, length); '


def inclusions(macros):
    return ''.join((f'#define {macro}\n' if macro else '') + '#include "xxhash.h"\n' for macro in macros)


def no_name_leaves(source, compiler):
    """A program that includes the code defines only its own function, and needs none of the library."""
    language = 'c++' if compiler.endswith('++') else 'c'
    for name, macros in IN_ANY_ORDER.items():
        for more in combinations() if compiler == 'gcc' else [()]:
            if 'XXH_NAMESPACE=my_' in more:
                continue
            stream = {'XXH_NO_STREAM', 'XXH_NO_XXH3'}.isdisjoint(more)
            body = USES % ((HASH_OF_STREAM, ' + XXH3_64bits_digest(&state)') if stream else ('', ''))
            text = inclusions(macros) + ('extern "C" ' if language == 'c++' else '') + body
            flags = ['-O1', *(f'-D{macro}' for macro in more)]
            defined, needed = source.global_names(source.object(compiler, text, *flags, language=language))
            if compiler == 'tcc':  # it emits each function
                defined, needed = defined & {'program', *public_names()}, needed - {'malloc', 'free'}
            check(defined == {'program'}, f'{name} {more}: it defines {sorted(defined)[:5]}')
            check(
                needed <= {'memcpy', 'memmove', 'memset', '__stack_chk_fail'},
                f'{name} {more}: it needs {sorted(needed)}',
            )
    return f'{len(IN_ANY_ORDER)} orders of inclusion'


# A header of the program that uses a type, and a file that inlines the code.
SHARED = (
    '#include "xxhash.h"\nXXH128_hash_t shared(void);\n#define XXH_INLINE_ALL\n#include "xxhash.h"\n'
    'XXH128_hash_t shared(void) { return XXH3_128bits("abc", 3); }\n'
)


def types_are_shared(source, compiler):
    source.object(compiler, SHARED, '-O2', language='c++' if compiler.endswith('++') else 'c')


# ---- the library ----


def make(source, *args):
    done = ran(['make', '-s', '-C', C, f'out={source.workdir}/out', *args])
    check(done.returncode == 0, done.stdout[-300:])
    return done.stdout


def library_is_built(source, *args):
    """make compiles a library, tests and installs it; a program of the installed files allocates its own states."""
    run, prefix = ' '.join(source.run), f'{source.workdir}/prefix'
    output = make(source, f'CC={source.prefix}gcc', f'run={run}', *args, 'check')
    libraries, names = len(source.forms()), 58 if source.is_x86_linux() else 49
    check('compiled from source/xxhash.c, which is not proved' in output, output[-300:])
    check(f'all {names} names work in {libraries} libraries' in output, output[-300:])
    make(source, f'CC={source.prefix}gcc', *args, 'install', f'PREFIX={prefix}')
    text = text_of(f'{prefix}/lib/pkgconfig/libxxhash.pc')
    check('proved' not in text, 'its pkg-config file says that it is proved')
    path = source.path('.out')
    must(
        [
            source.prefix + 'gcc',
            '-w',
            '-DXXH_STATIC_LINKING_ONLY',
            VECTORS,
            '-I',
            f'{prefix}/include',
            f'{prefix}/lib/libxxhash.a',
            '-o',
            path,
        ]
    )
    check(ran([*source.run, path]).stdout.encode() == bytes_of('oracle/vectors.txt'), 'the table is another')
    serves_programs(source, prefix)
    make(source, f'CC={source.prefix}gcc', *args, 'uninstall', f'PREFIX={prefix}')
    check(not os.path.exists(prefix), f'uninstall leaves {os.listdir(prefix) if os.path.exists(prefix) else ""}')
    return output.splitlines()[0]


def serves_programs(source, prefix):
    """Programs by pkg-config and by CMake, with the shared and the static library, hash a file as xxhsum does."""
    programs = [*by_pkg_config(source, prefix), *by_cmake(source, prefix)]
    for form, path in zip(source.forms() * 2, programs, strict=True):
        done = ran([*source.run, path, LICENSE])
        check(done.returncode == 0 and done.stdout == four_hashes(LICENSE), f'{path}: {last_line(done.stdout)}')
        if form == 'shared':
            loaded = ran([*source.run, path, LICENSE], env={**os.environ, 'LD_DEBUG': 'libs'}).stdout
            check(f'calling init: {prefix}/lib/libxxhash.so.0' in loaded, f'{path} loads another library')
        else:
            check(MARK in must([source.prefix + 'nm', path]), f"{path} has another library's code")
    replace_once(
        f'{prefix}/lib/cmake/xxHash/xxHashConfig.cmake', 'lib/libxxhash.a"\n    INTERFACE', 'lib/none.a"\n    INTERFACE'
    )
    check(built_by_cmake(source, prefix).returncode != 0, 'CMake finds a library that does not exist')


def by_pkg_config(source, prefix):
    for form in source.forms():
        command = ['pkg-config', '--cflags', '--libs', *(['--static'] if form == 'static' else []), 'libxxhash']
        flags = must(command, env={**os.environ, 'PKG_CONFIG_PATH': f'{prefix}/lib/pkgconfig'}).split()
        path = source.path('.exe')
        link = ['-static'] if form == 'static' else [f'-Wl,-rpath,{prefix}/lib']
        must([source.prefix + 'gcc', EXAMPLE, *flags, *link, '-o', path])
        yield path


def built_by_cmake(source, prefix):
    """Configures and builds examples/cmake with find_package(xxHash)."""
    folder = f'{source.workdir}/by-cmake'
    cross = [f'-DCMAKE_C_COMPILER={source.prefix}gcc', f'-DCMAKE_SYSTEM_NAME={source.system}'] if source.prefix else []
    done = ran(
        ['cmake', '-S', os.path.join(TOP, 'examples', 'cmake'), '-B', folder, f'-DCMAKE_PREFIX_PATH={prefix}', *cross]
    )
    return done if done.returncode else ran(['cmake', '--build', folder])


def by_cmake(source, prefix):
    done = built_by_cmake(source, prefix)
    check(done.returncode == 0, last_line(done.stdout))
    names = {'shared': 'hash-file', 'static': 'hash-file-static'}
    end = '.exe' if source.system == 'Windows' else ''
    return [f'{source.workdir}/by-cmake/{names[form]}{end}' for form in source.forms()]


# ---- warnings ----


def has_no_warning(source, compiler):
    """The object and inlined code, in each form and standard, without a warning."""
    language = 'c++' if compiler.endswith('++') else 'c'
    inlined, warnings = text_of(VALUES), [*WARNINGS, *(['-Wc++-compat'] if language == 'c' else [])]
    for number, standard in enumerate(STANDARDS[compiler]):
        for flags in [[], *FORMS.values()][: 1 if number else None]:
            source.object(compiler, text_of(SOURCE), f'-std={standard}', '-O2', *flags, *warnings, language=language)
    for flags in FORMS.values():
        source.object(
            compiler, inlined, f'-std={standard}', '-O3', *flags, '-Wall', '-Wextra', '-Werror', language=language
        )
    return f'{len(STANDARDS[compiler])} standards, {len(FORMS)} forms'


def a_warning_is_detected(source):
    write(
        os.path.join(source.include, 'xxhash.h'),
        text_of(HEADER).replace('(uint32_t)length, bytes, length % 16', 'length, bytes, length % 16'),
    )
    done = ran(['gcc', '-std=c99', '-O2', *WARNINGS, '-I', source.include, '-c', SOURCE, '-o', '/dev/null'])
    write(os.path.join(source.include, 'xxhash.h'), text_of(HEADER))
    check(done.returncode != 0 and 'onversion' in done.stdout, f'status {done.returncode}')


def is_freestanding(source, compiler):
    """Without a C library: only memcpy, memmove and memset are needed, which compilers call by themselves."""
    path = source.object(compiler, text_of(SOURCE), '-O2', '-ffreestanding', '-nostdlib', '-DXXH_NO_STDLIB')
    _, needed = source.global_names(path)
    check(needed <= {'memcpy', 'memmove', 'memset'}, f'it needs {sorted(needed)}')
    return ', '.join(sorted(needed)) or 'nothing'


# ---- values ----


def table_agrees(source, compiler, *flags):
    """The oracle's table, inlined."""
    program = source.program(compiler, VECTORS, '-w', '-DXXH_INLINE_ALL', *flags)
    done = ran(program)
    check(done.returncode == 0 and done.stdout.encode() == bytes_of('oracle/vectors.txt'), 'the table is another')
    return f'{len(done.stdout.splitlines()) - 1} rows'


def linked_table_agrees(source, compiler):
    """The same with an object of c/source/xxhash.c, under a prefix and without one."""
    for flags in ([], ['-DXXH_NAMESPACE=my_']):
        object_file = source.object(compiler, text_of(SOURCE), '-O2', *flags)
        done = ran(source.program(compiler, VECTORS, '-w', '-O2', *flags, object_file))
        check(done.stdout.encode() == bytes_of('oracle/vectors.txt'), f'{flags}: the table is another')


def values(source, compiler, rounds, theirs, *flags):
    done = ran([*source.program(compiler, VALUES, theirs, *flags), str(rounds)])
    return done.returncode, done.stdout


def values_agree(source, compiler, rounds, theirs, *flags):
    status, out = values(source, compiler, rounds, theirs, *flags)
    check(status == 0 and out.endswith(' 0 differ\n'), out[-300:] or f'status {status}')
    return out.strip()


def fault_is_detected(source, theirs, old, new, call):
    header = os.path.join(source.include, 'xxhash.h')
    replace_once(header, old, new)
    try:
        status, out = values(source, 'gcc', 300, theirs, '-O1', '-DXXH_VECTOR=XXH_SCALAR')
    finally:
        write(header, text_of(HEADER))
    check(status == 1 and call in out, f'status {status}: {out[-200:]}')
    return out.strip().splitlines()[-1]


SANITIZERS = ('-O1', '-g', '-fsanitize=address,undefined', '-fno-sanitize-recover=all')


def check_symbols(report, source):
    for compiler in ('gcc', 'clang', 'tcc'):
        report.attempt(f'names of an object by {compiler}', object_has_names, source, compiler)
    for compiler in ('gcc', 'clang', 'g++', 'clang++', 'tcc'):
        report.attempt(f'names of inlined code by {compiler}', no_name_leaves, source, compiler)
        report.attempt(f'types of both inclusions by {compiler}', types_are_shared, source, compiler)
    for compiler in STANDARDS:
        report.attempt(f'warnings of {compiler}', has_no_warning, source, compiler)
    report.attempt('a planted warning is detected', a_warning_is_detected, source)
    for compiler in ('gcc', 'clang'):
        report.attempt(f'-ffreestanding by {compiler}', is_freestanding, source, compiler)


# ---- the tests of xxHash ----


def their_tests_pass(source, change=('', '')):
    """xxHash's own `make check`, with sanity_test, from Debian's source of 0.8.3, over this header."""
    folder = os.path.join(source.workdir, 'upstream')
    if not os.path.exists(folder):
        os.rename(sources(os.path.join(source.workdir, 'sources')).source('xxhash'), folder)
    write(os.path.join(folder, 'xxhash.h'), text_of(HEADER).replace(*change))
    # What the tests take from xxHash's own header: a macro and <string.h>.
    compiler = f'{source.prefix}gcc -include string.h -DXXH3_MIDSIZE_MAX=240'
    return ran(
        [
            *'make -s -C'.split(),
            folder,
            f'CC={compiler}',
            f'RUN_ENV={" ".join(source.run)}',
            'DISPATCH=0',
            *(['EXT=.exe'] if source.system == 'Windows' else []),
            'clean',
            'check',
        ]
    )


def passes_their_tests(source):
    done = their_tests_pass(source)
    check(done.returncode == 0 and 'checks completed successfully' in done.stdout, last_line(done.stdout))
    return re.search(r'passes \d+ tests', done.stdout)[0]


def their_tests_notice(source):
    done = their_tests_pass(source, ('hash ^ hash >> 29', 'hash ^ hash >> 28'))
    check(done.returncode != 0 and 'sanity' in done.stdout.lower(), last_line(done.stdout))


def check_here(report, rounds):
    install_packages(PACKAGES_HERE)
    with tempfile.TemporaryDirectory() as workdir:
        source = Source(workdir)
        theirs = source.theirs()
        check_symbols(report, source)
        for compiler, level, (form, flags) in itertools.product(('gcc', 'clang'), ('-O2', '-O3'), FORMS.items()):
            report.attempt(f'table by {compiler} {level}, {form}', table_agrees, source, compiler, level, *flags)
            report.attempt(
                f'calls by {compiler} {level}, {form}', values_agree, source, compiler, rounds, theirs, level, *flags
            )
        for compiler in ('tcc', 'g++', 'clang++'):
            report.attempt(f'calls by {compiler}', values_agree, source, compiler, rounds, theirs)
        for compiler in ('gcc', 'clang', 'tcc'):
            report.attempt(f'table with an object by {compiler}', linked_table_agrees, source, compiler)
        for compiler, (form, flags) in itertools.product(('gcc', 'clang'), FORMS.items()):
            report.attempt(
                f'calls by {compiler} with sanitizers, {form}',
                values_agree,
                source,
                compiler,
                rounds // 4,
                theirs,
                *SANITIZERS,
                *flags,
            )
        for fault in FAULTS:
            report.attempt(
                f'a fault is detected: {fault[1] or "without " + fault[0]}', fault_is_detected, source, theirs, *fault
            )
        report.attempt('the library with SOURCE=1', library_is_built, source, 'SOURCE=1')
        check_their_tests(report, source)


def check_their_tests(report, source):
    report.attempt("xxHash's own tests", passes_their_tests, source)
    report.attempt("xxHash's own tests detect a fault", their_tests_notice, source)


def emulated(target, workdir):
    """The compiler's prefix and the command that runs programs of another processor or system."""
    prefix, _, emulator = TARGETS[target]
    if target == 'windows':
        wine = ['env', 'WINEDEBUG=-all', f'WINEPREFIX={workdir}/wine', emulator]
        ran([*wine, 'wineboot'])  # its first run prints messages
        return prefix, wine
    return prefix, [emulator, '-L', f'/usr/{prefix[:-1]}']


def check_target(report, target, rounds):
    """The code for another processor, under an emulator, or for Windows, under wine."""
    prefix, packages, emulator = TARGETS[target]
    install_packages(
        {
            **PACKAGES,
            f'{prefix}gcc': packages[0],
            f'/usr/{prefix[:-1]}/include/stdio.h': packages[1],
            emulator: 'wine64' if target == 'windows' else 'qemu-user',
        }
    )
    with tempfile.TemporaryDirectory() as workdir:
        source = Source(workdir, *emulated(target, workdir))
        theirs = source.theirs()
        forms = {'its own': [], 'scalar': FORMS['scalar'], **OF_TARGET.get(target, {})}
        report.attempt('names of an object', object_has_names, source, 'gcc')
        for level, (form, flags) in itertools.product(('-O2', '-O3'), forms.items()):
            report.attempt(f'table, {level}, {form}', table_agrees, source, 'gcc', level, *flags)
            report.attempt(f'calls, {level}, {form}', values_agree, source, 'gcc', rounds, theirs, level, *flags)
        report.attempt('table with an object', linked_table_agrees, source, 'gcc')
        report.attempt('the library', library_is_built, source, *(['SOURCE=1'] if target == 'arm64' else []))
        for fault in FAULTS:
            report.attempt(
                f'a fault is detected: {fault[1] or "without " + fault[0]}', fault_is_detected, source, theirs, *fault
            )
        check_their_tests(report, source)


def check_all(report: Report, target: str, rounds: int) -> None:
    check_target(report, target, rounds) if target in TARGETS else check_here(report, rounds)
