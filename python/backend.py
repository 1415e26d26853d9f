"""The build of the package, as pip and build call it (PEP 517). It needs Python with its headers and a C compiler, so
`pip install .` works without a network.

The proved code is assembly source. In the repository that is c/asm; a source package has copies in its folder
proved/. Where there is none for the machine, or with TWOX_HASH_SOURCE=1, the code of xxhash.h is compiled, which isn't
proved. CC, CFLAGS and LDFLAGS of the environment are used. The wheel is for the machine that CC compiles for."""
import ast
import base64
import csv
import gzip
import hashlib
import io
import os
import re
import shlex
import subprocess
import sysconfig
import tarfile
import tempfile
import zipfile

HERE = os.path.dirname(os.path.abspath(__file__))
C = os.path.join(os.path.dirname(HERE), 'c')
# The instruction sets of each machine, and the prefix of an instruction set's names.
SETS = {'x86_64': {f'x86-64-v{k}': f'v{k}_' for k in (2, 3, 4)}, 'aarch64': {'aarch64': 'arm_'}}
# The other machines whose names differ: by GNU's name, in a wheel's tag and in the names of Debian's folders.
TAGS, FOLDERS = {'arm': 'armv7l', 'powerpc64le': 'ppc64le'}, {'i686': 'i386'}
PROVED = [*(f'asm/{name}.s' for sets in SETS.values() for name in sets), 'asm/state_sizes.h', 'include/xxhash.h']
FLAGS = """
    -std=c11 -O2 -g0 -fPIC -fvisibility=hidden -Wall -Wextra -Wno-cast-function-type
    -Wno-missing-field-initializers
""".split()
# The interface of this Python, as in tags of wheels: cp311, or cp311d of a debug build. And the limited one: a file
# built with it serves each CPython from 3.11 on, with slower calls.
ABI = 'cp' + sysconfig.get_config_var('SOABI').split('-')[1]
LIMITED, LIMITED_FLAG = 'abi3', '-DPy_LIMITED_API=0x030B0000'
# A debug build of Python also tests in its own macros.
ASSERTIONS = [] if sysconfig.get_config_var('Py_DEBUG') else ['-DNDEBUG']
# No name or number of the build is in the file, so that one source gives one file.
LINKS = ['-s', '-Wl,--build-id=none', '-Wl,-z,noexecstack']


def project():
    """The table [project] of pyproject.toml, whose values have the same syntax in Python, except inline tables:
    Python has tomllib from 3.11 on, and a build uses no other package."""
    with open(os.path.join(HERE, 'pyproject.toml'), encoding='utf-8') as file:
        table = file.read().partition('[project]\n')[2].partition('\n[')[0]
    lines = re.findall(r'^([\w-]+) = (\[\n.*?^\]|.*?)$', table, re.M | re.S)
    return {name: ast.literal_eval(re.sub(r'^\{ (\w+) = ', r'{"\1": ', value)) for name, value in lines}


PROJECT = project()
STEM = f'{PROJECT["name"].replace("-", "_")}-{PROJECT["version"]}'


def read(*path: str) -> bytes:
    with open(os.path.join(*path), 'rb') as file:
        return file.read()


def proved(path: str) -> str:
    """The path of a file of the proved library: in a source package, or otherwise in the repository."""
    packed = os.path.join(HERE, 'proved', os.path.basename(path))
    return packed if os.path.exists(packed) else os.path.join(C, path)


# ---- the extension ----


def renamed(text: str, prefix: str) -> str:
    """The source with a prefix before each name that the linker sees, so that two instruction sets fit into one
    file, and with these names hidden, so that no library in the process sees them. The names that c/guards.c guards
    lose their mark: the extension passes no null."""
    names = {name: prefix + name.removeprefix('proved_') for name in re.findall(r'^\s*\.globl (\S+)$', text, re.M)}
    text = re.sub(r'(?<![\w.$])[A-Za-z_]\w*(?![\w.$])', lambda word: names.get(word[0], word[0]), text)
    return re.sub(r'^(\s*)\.globl (\S+)$', r'\1.globl \2\n\1.hidden \2', text, flags=re.M)


def compiler():
    return shlex.split(os.environ.get('CC') or 'cc')


def machine():
    """The machine that the compiler compiles for, by GNU's name, and why the code of xxhash.h is compiled for it, or
    an empty reason."""
    try:
        done = subprocess.run([*compiler(), '-dumpmachine'], stdout=subprocess.PIPE, text=True, check=True)
    except (OSError, subprocess.CalledProcessError) as fault:
        raise SystemExit(f'twox-hash: a C compiler is needed, for example Debian\'s package gcc: {fault}')
    name, system = done.stdout.strip().partition('-')[::2]
    if 'linux' not in system:
        raise SystemExit(f'twox-hash: the package is for Linux, and this compiler is for {done.stdout.strip()}')
    if os.environ.get('TWOX_HASH_SOURCE') == '1':
        return name, 'TWOX_HASH_SOURCE=1'
    # Android reserves the register x18, and the other two have pointers of 32 bits.
    if name not in SETS or any(word in system for word in ('android', 'gnux32', 'ilp32')):
        return name, f'no assembly source for {done.stdout.strip()}, only for Linux on {" and ".join(SETS)}'
    return name, ''


def texts(workdir, name):
    """The machine's instruction sets of the proved calls, as files of assembly source."""
    paths = []
    for instructions, prefix in SETS[name].items():
        paths.append(os.path.join(workdir, f'{instructions}.s'))
        with open(paths[-1], 'w') as file:
            file.write(renamed(read(proved(f'asm/{instructions}.s')).decode(), prefix))
    return paths


def library(name, abi=ABI):
    """The extension's place in a package for a machine: Python finds the file by the end of its name."""
    if abi == LIMITED:
        return f'twox_hash/_native.{LIMITED}.so'
    folder = FOLDERS.get(name, name)
    return 'twox_hash/_native' + sysconfig.get_config_var('EXT_SUFFIX').replace(os.uname().machine, folder)


def compile_extension(path, name, reason, abi=ABI):
    """Compiles the extension for a machine to a file, with the code of xxhash.h if there is a reason."""
    native = os.path.join(HERE, 'native')
    sources = sorted(os.path.join(native, file) for file in os.listdir(native) if file.endswith('.c'))
    includes = [sysconfig.get_path('include'), *dict.fromkeys(os.path.dirname(proved(file)) for file in PROVED)]
    flags = [*FLAGS, *ASSERTIONS, *[LIMITED_FLAG] * (abi == LIMITED), *shlex.split(os.environ.get('CFLAGS', ''))]
    if reason:
        print(f'twox-hash: compiled from xxhash.h, which is not proved: {reason}', flush=True)
    with tempfile.TemporaryDirectory() as workdir:
        calls = ['-DTWOX_HASH_SOURCE'] if reason else texts(workdir, name)
        done = subprocess.run(
            [
                *compiler(),
                '-shared',
                *flags,
                *(f'-I{folder}' for folder in includes),
                *sources,
                *calls,
                *LINKS,
                *shlex.split(os.environ.get('LDFLAGS', '')),
                '-o',
                path,
            ]
        )
    if done.returncode:
        raise SystemExit('twox-hash: cannot compile the extension')


# ---- packages ----


def metadata(reason=''):
    """The package's description. A wheel of the code of xxhash.h claims no proof."""
    summary = PROJECT['description'].replace('that is proved equal to the xxHash definition', 'compiled from C')
    keywords = [word for word in PROJECT['keywords'] if not reason or word != 'verified']
    lines = [
        'Metadata-Version: 2.1',
        f'Name: {PROJECT["name"]}',
        f'Version: {PROJECT["version"]}',
        f'Summary: {summary if reason else PROJECT["description"]}',
        f'License: {PROJECT["license"]["text"]}',
        f'Keywords: {",".join(keywords)}',
        *(f'Classifier: {line}' for line in PROJECT['classifiers']),
        f'Requires-Python: {PROJECT["requires-python"]}',
        'Description-Content-Type: text/markdown',
        '',
    ]
    return '\n'.join(lines).encode() + b'\n' + read(HERE, PROJECT['readme'])


def sources(folder, name):
    """A folder's own files, by their names in a folder of a package: nothing that was built."""
    found = sorted(os.listdir(os.path.join(HERE, folder)))
    suffixes = ('.py', '.pyi', '.typed', '.c', '.h')
    return {f'{name}/{file}': read(HERE, folder, file) for file in found if file.endswith(suffixes)}


def documents():
    """The licence, which in the repository is in the parent folder; and PROVENANCE, if release/make passes it."""
    licence = next(
        path for path in (os.path.join(HERE, 'LICENSE'), os.path.join(HERE, '..', 'LICENSE')) if os.path.exists(path)
    )
    provenance = os.path.join(HERE, 'PROVENANCE')
    return {'LICENSE': read(licence), **({'PROVENANCE': read(provenance)} if os.path.exists(provenance) else {})}


def write_wheel(folder, name, reason, files, abi=ABI):
    """Writes a wheel of the files by name, whose bytes depend only on theirs. Returns its name."""
    about = f'{STEM}.dist-info'
    tag = f'{"cp311" if abi == LIMITED else ABI.rstrip("dt")}-{abi}-linux_{TAGS.get(name, name)}'
    wheel = f'Wheel-Version: 1.0\nGenerator: twox-hash\nRoot-Is-Purelib: false\nTag: {tag}\n'
    files |= {f'{about}/METADATA': metadata(reason), f'{about}/WHEEL': wheel.encode()}
    files |= {f'{about}/{file}': text for file, text in documents().items()}
    record = io.StringIO()
    lines = csv.writer(record, lineterminator='\n')
    for path, text in files.items():
        digest = base64.urlsafe_b64encode(hashlib.sha256(text).digest()).rstrip(b'=').decode()
        lines.writerow([path, f'sha256={digest}', len(text)])
    lines.writerow([f'{about}/RECORD', '', ''])
    files[f'{about}/RECORD'] = record.getvalue().encode()
    with zipfile.ZipFile(os.path.join(folder, f'{STEM}-{tag}.whl'), 'w', zipfile.ZIP_DEFLATED) as archive:
        for path, text in files.items():
            entry = zipfile.ZipInfo(path)
            entry.external_attr, entry.compress_type = 0o100644 << 16, zipfile.ZIP_DEFLATED
            archive.writestr(entry, text)
    return f'{STEM}-{tag}.whl'


def build_wheel(wheel_directory, config_settings=None, metadata_directory=None):
    """Builds a wheel; with the setting `abi=abi3` by the limited interface."""
    abi = (config_settings or {}).get('abi', ABI)
    if abi not in (ABI, LIMITED):
        raise SystemExit(f'twox-hash: the abi must be {ABI} or {LIMITED}, not {abi}')
    name, reason = machine()
    with tempfile.TemporaryDirectory() as workdir:
        path = os.path.join(workdir, 'library.so')
        compile_extension(path, name, reason, abi)
        files = sources('src/twox_hash', 'twox_hash') | {library(name, abi): read(path)}
        return write_wheel(wheel_directory, name, reason, files, abi)


def build_editable(wheel_directory, config_settings=None, metadata_directory=None):
    name, reason = machine()
    compile_extension(os.path.join(HERE, 'src', library(name)), name, reason)
    return write_wheel(wheel_directory, name, reason, {'twox_hash.pth': f'{HERE}/src\n'.encode()})


def build_sdist(sdist_directory, config_settings=None):
    files = {
        'PKG-INFO': metadata(),
        **documents(),
        **sources('src/twox_hash', 'src/twox_hash'),
        **sources('native', 'native'),
    }
    files |= {name: read(HERE, name) for name in ('README.md', 'backend.py', 'pyproject.toml')}
    files |= {f'proved/{os.path.basename(path)}': read(proved(path)) for path in PROVED}
    # No time and no name of the build is in the file.
    with open(os.path.join(sdist_directory, f'{STEM}.tar.gz'), 'wb') as out, gzip.GzipFile(
        '', 'wb', 9, out, 0
    ) as packed, tarfile.open(fileobj=packed, mode='w', format=tarfile.PAX_FORMAT) as archive:
        for path, text in files.items():
            entry = tarfile.TarInfo(f'{STEM}/{path}')
            entry.size, entry.mode = len(text), 0o644
            archive.addfile(entry, io.BytesIO(text))
    return f'{STEM}.tar.gz'
