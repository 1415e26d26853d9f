"""Programs that are built with the installed files: the headers, pkg-config with -static, CMake."""
import os

from c.checks.library import Built
from checks.lib.report import Report, check
from checks.lib.tools import TOP, must, ran, write

DISPATCHED = (
    '#include <xxh_x86dispatch.h>\n' 'int main(void) { return XXH3_64bits_dispatch("", 0) != XXH3_64bits("", 0); }\n'
)
EXAMPLE_C = os.path.join(TOP, 'examples', 'c', 'hash-file.c')
# A name inside twox_c that is in each program which contains its code.
MARK = 'twox_c'


def package_path(built: Built) -> dict[str, str]:
    return {**os.environ, 'PKG_CONFIG_PATH': os.path.join(built.folder, 'pkgconfig')}


def compiled(built, text, compiler, *flags):
    """Compiles a source, and returns the status, the lines with an error, and the whole output."""
    language = 'c++' if compiler == 'g++' else 'c'
    done = ran([built.tools + compiler, *flags, '-I', built.include, '-fsyntax-only', '-x', language, '-'], input=text)
    return done.returncode, [line for line in done.stdout.splitlines() if 'error: ' in line], done.stdout


def refuses(built, text, word, compiler, *flags):
    """The compiler refuses a source with one error, whose message has the word."""
    status, errors, output = compiled(built, text, compiler, *flags)
    check(status != 0, 'it is compiled')
    check(len(errors) == 1, f'{len(errors)} errors')
    check(word in output, f'without {word}: {errors[0]}')
    return next(line for line in output.splitlines() if word in line).split(': ', 1)[-1]


def dispatch_header_serves(built):
    path = os.path.join(built.workdir, 'dispatched')
    must(
        [built.tools + 'gcc', '-x', 'c', '-', '-I', built.include, '-x', 'none', built.archive, '-o', path],
        input=DISPATCHED,
    )
    must([path])


def dispatch_header_is_refused(built: Built, *flags: str, word: str) -> str:
    return refuses(built, DISPATCHED.split('\n')[0], word, 'gcc', *flags)


def holds(built, program):
    return MARK in must([built.tools + 'nm', program])


def static_by_pkg_config(built: Built) -> list[str]:
    """A program that is linked with -static by pkg-config contains our code, also if Debian's archive is installed.
    With Debian's own pkg-config file it doesn't."""
    flags = must(['pkg-config', '--cflags', '--libs', '--static', 'libxxhash'], env=package_path(built)).split()
    path = os.path.join(built.workdir, 'hash-file-static')
    must(['gcc', '-static', EXAMPLE_C, *flags, '-o', path])
    check(holds(built, path), "it holds another library's code")
    theirs = os.path.join(built.workdir, 'hash-file-theirs')
    must(['gcc', '-static', EXAMPLE_C, '-lxxhash', '-o', theirs])
    check(not holds(built, theirs), "Debian's archive isn't told from ours")
    return [path]


def by_cmake(built: Built) -> tuple[list[str], list[str]]:
    """examples/cmake, which finds the package xxHash. Returns its two programs."""
    folder = os.path.join(built.workdir, 'example-cmake')
    must(['cmake', '-S', os.path.join(TOP, 'examples', 'cmake'), '-B', folder, f'-DCMAKE_PREFIX_PATH={built.prefix}'])
    must(['cmake', '--build', folder])
    path = os.path.join(folder, 'hash-file-static')
    check(holds(built, path), "it holds another library's code")
    return [os.path.join(folder, 'hash-file')], [path]


# Versions and ranges that a program may request.
REQUESTS = (
    *('', '0.7', '0.8', '0.8.1', '0.8.2', '1', '0.8.0 EXACT', '0.8.1 EXACT'),
    *('0.7...0.8', '0.7...0.8.1', '0.7...<0.8.1', '0.8.1...0.8.1', '0.8.0...<0.8.2', '0.8...1', '0.8.2...1'),
)
# A project that writes a line for each request: whether it found the package.
REQUESTING = """cmake_minimum_required(VERSION 3.19)
project(requests NONE)
include(CMakePackageConfigHelpers)
write_basic_package_version_file(
  ${CMAKE_BINARY_DIR}/theirs/xxHashConfigVersion.cmake VERSION 0.8.1 COMPATIBILITY AnyNewerVersion ARCH_INDEPENDENT)
file(WRITE ${CMAKE_BINARY_DIR}/theirs/xxHashConfig.cmake "")
foreach(request IN LISTS REQUESTS)
  foreach(place ${CMAKE_BINARY_DIR}/theirs ${OURS})
    unset(xxHash_DIR CACHE)
    separate_arguments(words UNIX_COMMAND "${request}")
    find_package(xxHash ${words} QUIET CONFIG PATHS ${place} NO_DEFAULT_PATH)
    message(STATUS "'${request}': ${xxHash_FOUND}")
  endforeach()
endforeach()
"""


def versions_are_found(built: Built) -> str:
    """find_package finds the package for the same requests as a package 0.8.1 with the file that CMake generates."""
    folder = os.path.join(built.workdir, 'requests')
    os.makedirs(folder, exist_ok=True)
    write(os.path.join(folder, 'CMakeLists.txt'), REQUESTING)
    ours = os.path.join(built.prefix, 'lib', 'cmake', 'xxHash')
    command = ['cmake', '-S', folder, '-B', f'{folder}/build', f'-DREQUESTS={";".join(REQUESTS)}', f'-DOURS={ours}']
    lines = [line for line in must(command).splitlines() if line.startswith("-- '")]
    check(len(lines) == 2 * len(REQUESTS) and len(set(lines)) > len(REQUESTS) // 2, '\n'.join(lines))
    wrong = [line for expected, line in zip(lines[::2], lines[1::2]) if line != expected]
    check(not wrong, ', '.join(wrong))
    return f'{len(REQUESTS)} requests'


def cpp_by_cmake(built: Built) -> list[str]:
    """examples/cpp, which wraps the states in classes."""
    folder = os.path.join(built.workdir, 'example-cpp')
    must(['cmake', '-S', os.path.join(TOP, 'examples', 'cpp'), '-B', folder, f'-DCMAKE_PREFIX_PATH={built.prefix}'])
    must(['cmake', '--build', folder])
    return [os.path.join(folder, 'hash-file')]


def check_all(report: Report, built: Built) -> None:
    report.attempt('xxh_x86dispatch.h', dispatch_header_serves, built)
    report.attempt(
        'xxh_x86dispatch.h with XXH_INLINE_ALL is refused',
        lambda: dispatch_header_is_refused(built, '-DXXH_INLINE_ALL', word='library to link'),
    )
