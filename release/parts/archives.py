"""The archives of a release. Each function makes a part of a commit in a folder, and returns its files' names."""
import glob
import itertools
import json
import os
import re
import shlex
import shutil

import tomllib

from checks.lib.arm_roots import debian_root
from checks.lib.tools import bytes_of, must
from release.parts import by_cargo, provenance
from release.parts.packing import read_tar, tree_of, write_tar

PREFIX = 'usr/lib/twox-hash'
EXAMPLES = tuple(f'examples/{name}' for name in ('c', 'cmake', 'cpp', 'go', 'java', 'python'))
# The machines of the library for C and the Debian packages: by Linux's, Debian's and c/build's names.
MACHINES = {'x86_64': ('amd64', 'x86-64'), 'aarch64': ('arm64', 'aarch64')}
TOOLS = {'x86_64': '', 'aarch64': 'aarch64-linux-gnu-'}


def new_files(folder, step):
    """The names that a step puts into a folder."""
    before = set(os.listdir(folder))
    step()
    return sorted(set(os.listdir(folder)) - before)


def documents(commit, build_dir):
    """The documents that each archive has besides its files."""
    return {'LICENSE': commit.path('LICENSE'), 'PROVENANCE': os.path.join(build_dir, 'PROVENANCE')}


def plain_text(commit, heading):
    """The section of docs/RELEASES.md on an archive, as its README, without links to other pages, which aren't
    there."""
    (part,) = re.findall(
        rf'^## {re.escape(heading)}\n(.*?)(?=^## |\Z)', commit.read('docs', 'RELEASES.md'), re.M | re.S
    )
    text = re.sub(r'\[([^]]*)\]\([^)]*\)', r'\1', part.strip())
    return f'# {heading}\n\n{text}\n'.encode()


def write_archive(commit, build_dir, name, files):
    stem = f'{commit.stem}-{name}'
    inside = {f'{stem}/{path}': file for path, file in files.items()}
    write_tar(os.path.join(build_dir, f'{stem}.tar.gz'), inside, commit.seconds)
    return [f'{stem}.tar.gz']


def unpacked(commit, architecture):
    """The folder of a Debian package's files."""
    return os.path.join(commit.workdir, architecture, PREFIX)


def debian(commit, build_dir):
    """The Debian packages, from which the archive of the programs is made."""
    names = []
    for architecture, target in MACHINES.values():
        command = [
            commit.path('c', 'package'),
            '--target',
            target,
            '--of-ci',
            '--provenance',
            f'{build_dir}/PROVENANCE',
            build_dir,
        ]
        (name,) = new_files(build_dir, lambda command=command: must(command))
        must(['dpkg-deb', '-x', os.path.join(build_dir, name), os.path.join(commit.workdir, architecture)])
        names.append(name)
    return names


def installed(commit, machine):
    """The folder of the library that make installs, without what no program links to. Or None if there is no
    compiler."""
    tools, root = TOOLS[machine], os.path.join(commit.workdir, f'c-{machine}')
    if not shutil.which(tools + 'gcc'):
        print(f'no {tools}gcc: the library for {machine} is omitted')
        return None
    must(
        [
            *'make -s -C'.split(),
            commit.path('c'),
            f'CC={tools}gcc',
            f'out=out/release-{machine}',
            f'DESTDIR={root}',
            'PREFIX=/prefix',
            'install',
        ]
    )
    files = [path for path in tree_of(root).values() if not os.path.islink(path)]
    must([tools + 'strip', '--strip-unneeded', '-R', '.comment', *(path for path in files if '.so.' in path)])
    must(
        [
            tools + 'strip',
            *'--strip-debug --enable-deterministic-archives -R .comment'.split(),
            *(path for path in files if path.endswith('.a')),
        ]
    )
    return os.path.join(root, 'prefix')


def library(commit, build_dir):
    names = []
    for machine in MACHINES:
        folder = installed(commit, machine)
        if folder:
            files = {
                **documents(commit, build_dir),
                'README.md': plain_text(commit, 'The library for C'),
                **tree_of(folder),
            }
            for part in EXAMPLES:
                files |= tree_of(commit.path(part), part)
            names += write_archive(commit, build_dir, f'c-{machine}', files)
    return names


def static_programs(commit):
    """The object of each program that c/install built last, for every processor, linked with Debian's libc.a."""
    kit, found = provenance.kit_folder(), {}
    for name in ('xxh', 'xxhsum'):
        path = os.path.join(commit.workdir, f'{name}-static')
        must(
            [
                *'gcc -static -s'.split(),
                commit.path('crates', name, 'out', f'{name}.o'),
                f'{kit}/c/liblibc_c.a',
                f'{kit}/c/libos_c.a',
                '-o',
                path,
            ]
        )
        found[f'static/{name}'] = path
    return found


def programs(commit, build_dir):
    folder = unpacked(commit, 'amd64')
    files = {**documents(commit, build_dir), 'README.md': plain_text(commit, 'The programs')}
    for part in ('bin', 'libexec', 'share'):
        files |= tree_of(os.path.join(folder, part), part)
    share = os.path.join(commit.workdir, 'completions')
    by_cargo.put_completions(commit, share)
    files |= {
        'share/man/man1/xxh.1': commit.path('docs', 'xxh.1'),
        **tree_of(share, 'share'),
        **static_programs(commit),
    }
    return write_archive(commit, build_dir, 'programs-x86_64', files)


def cargo_programs(commit, build_dir):
    names = []
    for machine in MACHINES:
        files = by_cargo.files(commit, machine)
        if files:
            files |= {**documents(commit, build_dir), 'README.md': plain_text(commit, 'The programs, by cargo')}
            names += write_archive(commit, build_dir, f'cargo-programs-{machine}', files)
    return names


def debian_without_rt(commit, build_dir):
    """The Debian packages with the programs that cargo builds, if there is dpkg-deb."""
    names = []
    for machine, (_, target) in MACHINES.items():
        programs = shutil.which('dpkg-deb') and by_cargo.installed(commit, machine)
        if programs:
            command = [
                commit.path('c', 'package'),
                '--target',
                target,
                '--programs',
                programs,
                '--provenance',
                f'{build_dir}/PROVENANCE',
                build_dir,
            ]
            names += new_files(build_dir, lambda command=command: must(command))
    return names


def crate(commit, build_dir):
    """The crate: the files that its manifest includes, as cargo packs them. cargo itself would request serde from a
    registry, to write a lock file."""
    folder = commit.path('rust')
    with open(os.path.join(folder, 'Cargo.toml'), 'rb') as file:
        package = tomllib.load(file)['package']
    files = {'Cargo.toml': os.path.join(folder, 'Cargo.toml'), **documents(commit, build_dir)}
    for pattern in package['include']:
        for path in glob.glob(folder + pattern):
            name = os.path.relpath(path, folder)
            files |= tree_of(path, name) if os.path.isdir(path) else {name: os.path.realpath(path)}
    stem = f'{package["name"]}-{package["version"]}'
    write_tar(
        os.path.join(build_dir, f'{stem}.crate'),
        {f'{stem}/{name}': path for name, path in files.items()},
        commit.seconds,
    )
    return [f'{stem}.crate']


def python_machines(commit):
    """The variables of the builds of wheels, for each machine for which there is a compiler."""
    yield {}
    if shutil.which(TOOLS['aarch64'] + 'gcc'):
        root = debian_root(os.path.join(commit.workdir, 'python-arm'), 'libpython3.11-dev')
        yield {'CC': TOOLS['aarch64'] + 'gcc', 'CFLAGS': f'-idirafter {shlex.quote(root)}/usr/include'}


def python(commit, build_dir):
    """The source package, and for each machine a wheel for Debian's Python and one for each from 3.11 on."""
    shutil.copy(os.path.join(build_dir, 'PROVENANCE'), commit.path('python'))
    names = set()
    for variables, options in itertools.product(python_machines(commit), ([], ['--limited'])):
        must([commit.path('python', 'build'), *options, '/usr/bin/python3'], env={**os.environ, **variables})
        for path in glob.glob(commit.path('python', 'out', '*')):
            shutil.copy(path, build_dir)
            names.add(os.path.basename(path))
    return sorted(names)


def node(commit, build_dir):
    """The package as npm packs it with the scripts of web/, with the project's version and PROVENANCE."""
    folder = os.path.join(commit.workdir, 'npm')
    os.mkdir(folder)
    must(['npm', 'pack', '--silent', '--pack-destination', folder], cwd=commit.path('web'))
    (path,) = glob.glob(os.path.join(folder, '*.tgz'))
    files = read_tar(path)
    manifest = {**json.loads(files['package/package.json']), 'version': commit.version}
    files['package/package.json'] = json.dumps(manifest, indent=2).encode() + b'\n'
    files['package/PROVENANCE'] = bytes_of(os.path.join(build_dir, 'PROVENANCE'))
    write_tar(os.path.join(build_dir, f'{commit.stem}.tgz'), files, commit.seconds)
    return [f'{commit.stem}.tgz']


def page(commit, build_dir):
    """The page by web/folder: one folder of static files."""
    folder = os.path.join(commit.workdir, 'page')
    must([commit.path('web', 'folder'), folder])
    return write_archive(commit, build_dir, 'page', {**documents(commit, build_dir), **tree_of(folder, 'web')})


PARTS_OF_BOTH = (library, cargo_programs, crate, python, node, page)
PARTS_WITHOUT_RT = (debian_without_rt, *PARTS_OF_BOTH)
PARTS = (debian, programs, *PARTS_OF_BOTH)
