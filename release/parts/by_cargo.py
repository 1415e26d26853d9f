"""The programs as cargo builds them: static, for each machine for which there is a compiler."""
import functools
import os
import shutil
from typing import Optional

from checks.lib.arm_roots import debian_root
from checks.lib.tools import must
from release.parts.commit import Commit
from release.parts.packing import tree_of

TARGETS = {'x86_64': 'x86_64-unknown-linux-gnu', 'aarch64': 'aarch64-unknown-linux-gnu'}
COMPILERS = {'x86_64': 'gcc', 'aarch64': 'aarch64-linux-gnu-gcc'}
# They need no other file, and don't contain their build path.
FLAGS = ('-Ctarget-feature=+crt-static', '-Cstrip=symbols')
# The other names of xxhsum, under which it uses another algorithm.
NAMES = ('xxh32sum', 'xxh64sum', 'xxh128sum', 'xxh3sum')
# The completions of docs/completions, and their names in share, where each shell looks for them. bash and fish look
# for a file of each command's name.
COMPLETIONS = {
    'xxhsum.bash': 'bash-completion/completions/{}',
    '_xxhsum': 'zsh/site-functions/_xxhsum',
    'xxhsum.fish': 'fish/vendor_completions.d/{}.fish',
}


def sysroot_flags(commit, machine):
    """Debian's compiler uses the standard library for another processor from a folder of that processor's packages."""
    if machine == 'x86_64':
        return ()
    sysroot, libraries = os.path.join(commit.workdir, 'sysroot'), os.path.join('lib', 'rustlib')
    root = debian_root(os.path.join(commit.workdir, 'rust-arm'), 'libstd-rust-web-dev')
    os.makedirs(os.path.join(sysroot, libraries))
    os.symlink(
        os.path.join(root, 'usr', libraries, TARGETS[machine]), os.path.join(sysroot, libraries, TARGETS[machine])
    )
    return '--sysroot', sysroot


@functools.cache
def installed(commit: Commit, machine: str) -> Optional[str]:
    """A folder with bin and share, in the layout of `cargo install` and its users. Or None if there is no compiler."""
    if not shutil.which(COMPILERS[machine]):
        print(f'no {COMPILERS[machine]}: the programs for {machine} are omitted')
        return None
    target, build_dir = TARGETS[machine], os.path.join(commit.workdir, 'cargo')
    variables = {
        'CARGO_TARGET_DIR': build_dir,
        'CARGO_NET_OFFLINE': 'true',
        'RUSTC': '/usr/bin/rustc',
        'CARGO_ENCODED_RUSTFLAGS': '\x1f'.join([*FLAGS, *sysroot_flags(commit, machine)]),
        f'CARGO_TARGET_{target.upper().replace("-", "_")}_LINKER': COMPILERS[machine],
    }
    must(
        ['/usr/bin/cargo', 'build', '-q', '--release', '--target', target],
        cwd=commit.path('rust', 'programs'),
        env={**os.environ, **variables},
    )
    return laid_out(
        commit, os.path.join(build_dir, target, 'release'), os.path.join(commit.workdir, f'cargo-{machine}')
    )


def put_completions(commit: Commit, share: str) -> None:
    for file, pattern in COMPLETIONS.items():
        path = os.path.join(share, pattern.format('xxhsum'))
        os.makedirs(os.path.dirname(path))
        shutil.copy(commit.path('docs', 'completions', file), path)
        for name in NAMES:
            link = os.path.join(share, pattern.format(name))
            if link != path:
                os.symlink(os.path.basename(path), link)


def laid_out(commit, built, folder):
    manual = os.path.join(folder, 'share', 'man', 'man1')
    for path in (os.path.join(folder, 'bin'), manual):
        os.makedirs(path)
    for name in ('xxh', 'xxhsum'):
        shutil.copy(os.path.join(built, name), os.path.join(folder, 'bin', name))
        shutil.copy(commit.path('docs', f'{name}.1'), manual)
    for name in NAMES:
        os.symlink('xxhsum', os.path.join(folder, 'bin', name))
        os.symlink('xxhsum.1', os.path.join(manual, f'{name}.1'))
    put_completions(commit, os.path.join(folder, 'share'))
    return folder


def files(commit: Commit, machine: str) -> dict[str, str]:
    """The files of an archive, or none if there is no compiler."""
    folder = installed(commit, machine)
    return tree_of(folder) if folder else {}
