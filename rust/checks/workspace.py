"""Shared by rust/check, rust/bench and rust/count: packages, and a folder in which cargo finds only Debian's crates."""
import os
import re
import shutil
import subprocess
import sys
from typing import Any, Optional, Sequence

from checks.lib import arm_roots
from checks.lib.report import check, last_line
from checks.lib.tools import TOP, install, ran, text_of, write

RUST = os.path.join(TOP, 'rust')

CRATES = '/usr/share/cargo/registry'
PACKAGES = {
    'gcc': 'gcc',
    'nm': 'binutils',
    'git': 'git',
    'valgrind': 'valgrind',
    'xxhsum': 'xxhash',
    '/usr/lib/x86_64-linux-gnu/libxxhash.so': 'libxxhash-dev',
    f'{CRATES}/serde_derive-1.0.152': 'librust-serde-derive-dev',
    f'{CRATES}/serde-1.0.152': 'librust-serde-dev',
    f'{CRATES}/serde_json-1.0.87': 'librust-serde-json-dev',
    f'{CRATES}/rand-0.8.5': 'librust-rand-dev',
    f'{CRATES}/xxhash-rust-0.8.5': 'librust-xxhash-rust-dev',
}
# Debian's newest cargo: its plain one is older than the crate's rust-version.
CARGO = 'cargo-web'
DEBIANS_RUST = {'/usr/bin/rustc': 'rustc-web', '/usr/bin/cargo': CARGO}
# Builds and runs programs for 64-bit ARM: Debian's compiler for its standard library for that processor.
ARM = 'aarch64-unknown-linux-gnu'
ARM_PACKAGES = {
    'aarch64-linux-gnu-gcc': 'gcc-aarch64-linux-gnu',
    'aarch64-linux-gnu-objcopy': 'binutils-aarch64-linux-gnu',
    '/usr/aarch64-linux-gnu/include/stdio.h': 'libc6-dev-arm64-cross',
    'qemu-aarch64': 'qemu-user',
    **DEBIANS_RUST,
}
# Runs a program on a processor without features that this one has.
OLDER_PACKAGES = {'qemu-x86_64': 'qemu-user'}
# The sources of Rust's standard library, to build it for targets for which Debian has none.
SOURCES = '/usr/lib/rustlib/src/rust/library'
SOURCE_PACKAGES = {
    **DEBIANS_RUST,
    SOURCES: 'rust-web-src',
    'musl-gcc': 'musl-tools',
    'make': 'make',
    '/usr/lib/llvm-14/lib/libunwind.a': 'libunwind-14-dev',
}
# The original's manifest, for sources that come without one.
ORIGINAL = '''[package]
name = "twox-hash"
version = "2.1.5"
edition = "2021"

[features]
default = ["random", "xxhash32", "xxhash64", "xxhash3_64", "xxhash3_128", "std"]
xxhash32 = []
xxhash64 = []
xxhash3_64 = []
xxhash3_128 = []
random = ["dep:rand"]
serialize = ["dep:serde"]
std = ["alloc"]
alloc = []

[dependencies]
rand = { version = "0.8", optional = true }
serde = { version = "1.0", features = ["derive"], optional = true }
'''


def must(command: Sequence[Any], **more: Any) -> str:
    """Runs a tool of the check itself, which must succeed."""
    done = subprocess.run(command, capture_output=True, text=True, **more)
    if done.returncode:
        sys.exit(f'rust/{os.path.basename(sys.argv[0])}: {" ".join(command)}:\n{(done.stdout + done.stderr)[-2000:]}')
    return done.stdout


def install_packages(packages: dict[str, str] = PACKAGES) -> None:
    missing = {package for name, package in packages.items() if not (shutil.which(name) or os.path.exists(name))}
    version = shutil.which('cargo') and re.match(r'cargo 1\.(\d+)', must(['cargo', '--version']))
    if not version or int(version[1]) < 81:
        missing.add(CARGO)
    install(missing)


class Workspace:
    """The check's own folder: a copy of the crate's sources and assembly source, and cargo's output."""

    cargo_program = 'cargo'
    target: Optional[str] = None
    # The suffix of programs' names.
    ending = ''

    def __init__(self, path, crate=RUST):
        self.path = path
        # A copy, so that cargo writes no lock files in a folder of the repository.
        self.rust = os.path.join(path, 'rust')
        shutil.copytree(crate, self.rust, ignore=shutil.ignore_patterns('out', 'target', 'Cargo.lock'))
        self.use_registry(CRATES)
        os.makedirs(os.path.join(path, 'programs'))

    def use_registry(self, folder):
        write(
            os.path.join(self.path, '.cargo', 'config.toml'),
            f'[source.crates-io]\nreplace-with = "debian"\n[source.debian]\ndirectory = "{folder}"\n',
        )

    def environment(self, flags='', **more):
        inherited = {name: value for name, value in os.environ.items() if name != 'RUSTFLAGS'}
        found = {'CARGO_TARGET_DIR': os.path.join(self.path, 'target'), 'CARGO_NET_OFFLINE': 'true'}
        return {**inherited, **found, 'RUSTFLAGS': flags, **more}

    def cargo(self, folder, command, *args, environment=None):
        return ran([self.cargo_program, command, *args], cwd=folder, env=environment or self.environment())

    def must(self, folder, command, *args, environment=None):
        """The output of cargo, which must succeed."""
        done = self.cargo(folder, command, *args, environment=environment)
        check(done.returncode == 0, last_line(errors_of(done.stdout)))
        return done.stdout

    def build(self, folder, name, *args, environment=None):
        """A program of a package, under a name of its own."""
        self.must(folder, 'build', '--release', *args, environment=environment)
        path = os.path.join(self.path, 'programs', name + self.ending)
        shutil.copy(os.path.join(self.build_dir, os.path.basename(name).split('@')[0] + self.ending), path)
        return path

    @property
    def build_dir(self):
        return os.path.join(self.path, 'target', *([self.target] if self.target else []), 'release')

    def changed(self, name, change):
        """A copy of the crate with a changed source: `change` returns the new text of a file."""
        crate = os.path.join(self.path, name)
        shutil.copytree(self.rust, crate, ignore=shutil.ignore_patterns('target', 'Cargo.lock'))
        folder = os.path.join(crate, 'asm')
        for file in os.listdir(folder):
            write(os.path.join(folder, file), change(text_of(os.path.join(folder, file))))
        return crate

    def add_original(self, package, sources):
        """Makes the original, from its sources, a crate of a package."""
        copy = os.path.join(self.path, 'original')
        shutil.copytree(sources, copy)
        manifest = os.path.join(copy, 'Cargo.toml')
        text = text_of(manifest) if os.path.exists(manifest) else ORIGINAL
        # Two packages of one name and version can't be linked into one program.
        write(manifest, re.sub(r'^version = "2\.1\.5"', 'version = "2.1.5-original"', text, flags=re.M))
        with open(os.path.join(package, 'Cargo.toml'), 'a') as file:
            file.write(
                f'original = {{ package = "twox-hash", path = "{copy}", version = "=2.1.5-original", '
                'features = ["serialize"] }\n'
            )


class ArmWorkspace(Workspace):
    """A folder for 64-bit ARM: programs are built by Debian's compiler and run under qemu."""

    cargo_program = '/usr/bin/cargo'
    target = ARM

    def __init__(self, path):
        super().__init__(path)
        self.root = arm_roots.debian_root(os.path.join(path, 'debian'), 'libc6', 'libxxhash-dev', 'libstd-rust-web-dev')
        self.sysroot = os.path.join(path, 'sysroot')
        os.makedirs(os.path.join(self.sysroot, 'lib', 'rustlib'))
        os.symlink(
            os.path.join(self.root, 'usr', 'lib', 'rustlib', ARM), os.path.join(self.sysroot, 'lib', 'rustlib', ARM)
        )
        self.runner = ['qemu-aarch64', '-L', self.root]

    def environment(self, flags='', **more):
        libraries = os.path.join(self.root, 'usr', 'lib', 'aarch64-linux-gnu')
        return super().environment(
            f'--sysroot {self.sysroot} -L native={libraries} {flags}',
            **{
                'CARGO_BUILD_TARGET': ARM,
                'RUSTC': '/usr/bin/rustc',
                **for_target(ARM, LINKER='aarch64-linux-gnu-gcc', RUNNER=' '.join(self.runner)),
                **more,
            },
        )


class SourceWorkspace(Workspace):
    """A folder for a target whose standard library is built from Debian's sources, for example with musl. A program
    is linked by `linker`, and run by `runner` if that isn't empty. Debian's static unwinder is in the root `root`."""

    cargo_program = '/usr/bin/cargo'

    def __init__(self, path, target, linker='false', runner='', root=''):
        super().__init__(path)
        self.target, self.linker, self.runner = target, linker, runner
        self.libraries = os.path.join(path, 'native')
        registry = os.path.join(path, 'registry')
        for folder in (self.libraries, registry):
            os.mkdir(folder)
        # Debian's packages of crates are there only if a check needs one.
        for folder in filter(os.path.isdir, (CRATES, os.path.join(SOURCES, 'vendor'))):
            for name in os.listdir(folder):
                os.symlink(os.path.join(folder, name), os.path.join(registry, name))
        self.use_registry(registry)
        if linker != 'false':
            self.add_unwinder(root)

    def add_unwinder(self, root):
        """Debian's unwinder, which is compiled for glibc, and the function of glibc that it needs: to print a
        message before it stops."""
        os.symlink(f'{root}/usr/lib/llvm-14/lib/libunwind.a', os.path.join(self.libraries, 'libunwind.a'))
        must(
            [self.linker, '-O2', '-x', 'c', '-', '-c', '-o', os.path.join(self.libraries, 'chk.o')],
            input='void abort(void); int __fprintf_chk(void *f, int n, const char *s, ...) { abort(); }',
        )

    def environment(self, flags='', **more):
        native = (
            f'-C link-self-contained=no -L native={self.libraries} -C link-arg={self.libraries}/chk.o '
            '-C link-arg=-lgcc'
        )
        return super().environment(
            f'{native} {flags}',
            **{
                # The switch for `-Z build-std`, which a released compiler also has.
                'RUSTC_BOOTSTRAP': '1',
                'RUSTC': '/usr/bin/rustc',
                'RUSTDOC': '/usr/bin/rustdoc',
                **for_target(self.target, LINKER=self.linker, RUNNER=self.runner),
                **more,
            },
        )

    def cargo(self, folder, command, *args, environment=None):
        parts = 'core' if self.linker == 'false' else 'std,panic_abort'
        return super().cargo(
            folder, command, '-Z', f'build-std={parts}', '--target', self.target, *args, environment=environment
        )


class FurtherWorkspace(SourceWorkspace):
    """A target that the toolchain doesn't support, whose programs an emulator runs. Its libxxhash is the reference's
    header, compiled for it."""

    def __init__(self, path, target, linker, runner, ending=''):
        self.ending = ending
        super().__init__(path, target, linker, runner)

    def add_unwinder(self, root):
        object_file = os.path.join(self.libraries, 'xxhash.o')
        header = '#define XXH_STATIC_LINKING_ONLY\n#define XXH_IMPLEMENTATION\n#include "/usr/include/xxhash.h"\n'
        must([self.linker, '-O2', '-x', 'c', '-', '-c', '-o', object_file], input=header)
        must([self.linker.replace('gcc', 'ar'), 'rcs', os.path.join(self.libraries, 'libxxhash.a'), object_file])

    def environment(self, flags='', **more):
        return Workspace.environment(
            self,
            f'-L native={self.libraries} {flags}',
            **{
                'RUSTC_BOOTSTRAP': '1',
                'RUSTC': '/usr/bin/rustc',
                **for_target(self.target, LINKER=self.linker, RUNNER=self.runner),
                **more,
            },
        )


# The function of Windows that Rust's standard library calls for random seeds, and Debian's wine lacks.
RANDOM_DLL = '''#include <windows.h>
BOOLEAN NTAPI SystemFunction036(PVOID buffer, ULONG length);
__declspec(dllexport) BOOL WINAPI ProcessPrng(PBYTE buffer, SIZE_T length)
{
    return SystemFunction036(buffer, (ULONG)length);
}
'''


def windows_workspace(path):
    folder = os.path.join(path, 'wine')
    os.makedirs(folder)
    must(
        [
            *'x86_64-w64-mingw32-gcc -shared -O2 -x c - -o'.split(),
            os.path.join(folder, 'bcryptprimitives.dll'),
            '-ladvapi32',
        ],
        input=RANDOM_DLL,
    )
    os.environ.update(
        WINEPATH='Z:' + folder.replace('/', '\\'), WINEPREFIX=os.path.join(folder, 'prefix'), WINEDEBUG='-all'
    )
    return FurtherWorkspace(path, 'x86_64-pc-windows-gnu', 'x86_64-w64-mingw32-gcc', '/usr/lib/wine/wine64', '.exe')


RISCV = 'riscv64gc-unknown-linux-gnu', 'riscv64-linux-gnu-gcc', 'qemu-riscv64 -L /usr/riscv64-linux-gnu'
FURTHER = {
    'riscv64': (
        lambda path: FurtherWorkspace(path, *RISCV),
        {
            'riscv64-linux-gnu-gcc': 'gcc-riscv64-linux-gnu',
            'qemu-riscv64': 'qemu-user',
            '/usr/riscv64-linux-gnu/include/stdio.h': 'libc6-dev-riscv64-cross',
        },
    ),
    'windows': (
        windows_workspace,
        {'x86_64-w64-mingw32-gcc': 'gcc-mingw-w64-x86-64', '/usr/lib/wine/wine64': 'wine64'},
    ),
}


def for_target(target, **variables):
    """cargo's variables for a target."""
    begin = f'CARGO_TARGET_{target.upper().replace("-", "_")}_'
    return {begin + name: value for name, value in variables.items() if value}


def errors_of(text: str) -> str:
    return '\n'.join(line for line in text.splitlines() if line.startswith('error')) or text


def has(name: str) -> bool:
    """True if this processor has an instruction set, for example x86-64-v3."""
    done = subprocess.run(['/lib64/ld-linux-x86-64.so.2', '--help'], stdout=subprocess.PIPE, text=True)
    return f'{name} (supported' in done.stdout
