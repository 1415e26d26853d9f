"""What the last run of rust/erase read and wrote, by checksum (stored.txt), so that `--check` needs no toolchain where
nothing has changed, and no proof where a crate is the same. For each crate it has the functions of other crates that it
calls, as the toolchain resolved them: `mir.json` of the proved library. Each must be in callees.txt, the functions with
one meaning in both languages."""
import hashlib
import json
import os
import re
import subprocess

from rust.eraser.packages import Package
from rust.eraser.tokens import Refused, rattle

HERE = os.path.dirname(os.path.abspath(__file__))
# The sums of the files of `main`: a program has no `mir.json`. They call the crates below, the streams of the process,
# and of the standard library `is_terminal`, `alloc` and `var`.
PROGRAMS_READ = {'1672933e99ffd7604939f2872a2ebfc3', 'acdd16c9a538985f3d82804cfc66ad94'}
# The sections of stored.txt by name: the sum, and the lines.
Sections = dict[str, tuple[str, list[str]]]
STORED, CALLEES = os.path.join(HERE, 'stored.txt'), os.path.join(HERE, 'callees.txt')


def sum_of(files: dict[str, str]) -> str:
    """A sum of names and texts."""
    return hashlib.sha256(json.dumps(sorted(files.items())).encode()).hexdigest()[:32]


def read(path):
    with open(path, encoding='utf-8', newline='') as file:
        return file.read()


def eraser_files() -> dict[str, str]:
    folder = [os.path.join(HERE, name) for name in sorted(os.listdir(HERE)) if name.endswith(('.py', 'callees.txt'))]
    return {os.path.basename(path): read(path) for path in folder}


def stored() -> Sections:
    """The sections of stored.txt: each name, its sum, and its lines."""
    sections = {}
    for line in read(STORED).splitlines() if os.path.exists(STORED) else ():
        if line and not line.startswith(('#', ' ')):
            name, total = line.rsplit(' ', 1)
            found = sections[name] = total, []
        elif line.startswith(' '):
            found[1].append(line.strip())
    return sections


def write(sections: Sections) -> None:
    with open(STORED, 'w', encoding='utf-8') as file:
        file.write(
            '# Written by rust/erase: sums of what it read and wrote, and what each crate calls of other crates.\n'
        )
        for name, (total, lines) in sorted(sections.items()):
            file.write(''.join([f'\n{name} {total}\n', *(f'    {line}\n' for line in sorted(lines))]))


def below(crates, crate):
    """A crate and those of the repository below it."""
    uses = dict(
        re.findall(r'^(\w+)(?: staticlib)?:(.*)', read(os.path.join(os.path.dirname(crates), 'crates.txt')), re.M)
    )
    found, waiting = set(), [crate]
    while waiting:
        name = waiting.pop()
        if name in uses and name not in found:
            found.add(name)
            waiting += uses[name].split()
    return found


def sum_of_crate(crates, crate, texts):
    used = below(crates, crate)
    return sum_of({file: text for file, text in texts.items() if file.split('/')[0] in used})


# ---- what a crate calls ----


def names_in(tree, found):
    """Adds the functions, impls and bounds that a function of `mir.json` names."""
    if isinstance(tree, list):
        for part in tree:
            names_in(part, found)
    elif isinstance(tree, dict):
        if 'Fn' in tree:
            found.add(tree['Fn'][0])
        found |= {one['name'] for one in tree.get('impls', ())}
        found |= {f'trait {one["of"]}' for one in tree.get('bounds', ()) if isinstance(one, dict)}
        for part in tree.values():
            names_in(part, found)


def callees(mir, package):
    """What the functions of a library call of other crates, each with the functions that do."""
    left_out = tuple(
        file.removesuffix('.rt').replace('/src/', '::').replace('/', '::') + '::' for file in package.left_out
    )
    found = {}
    for function, body, *_ in mir:
        names = set()
        if not function.startswith(left_out):
            names_in(body, names)
        for name in names:
            if re.match(r'(?:trait )?(\w+)', name)[1] not in package.read:
                found.setdefault(name, []).append(function)
    return found


def place_of(function, callee, texts):
    """The file and the line of a function that calls another, or where the function begins."""
    modules = function.split('::')
    for count in range(len(modules), 0, -1):
        crate, inside = modules[0], '/'.join(modules[1:count])
        file = f'{crate}/src/{inside or "lib"}.rt'
        if file in texts:
            lines = texts[file].split('\n')
            for word in (callee.split('::')[-1], modules[-1]):
                for number, line in enumerate(lines, 1):
                    if re.search(rf'\b{re.escape(word)}\b', line.split('//')[0]):
                        return f'crates/{file}: line {number}'
            return f'crates/{file}: line 1'
    return function


def check_callees(found, texts):
    """Refuses a function of another crate that is not known to have one meaning, with its file and line."""
    known = {line for line in read(CALLEES).split('\n') if not line.startswith('#')}
    unknown = [
        f'{place_of(functions[0], callee, texts)}: `{functions[0]}` calls `{callee}`'
        for callee, functions in sorted(found.items())
        if callee not in known
    ]
    if unknown:
        raise Refused('\n'.join(['what is called is not in callees.txt:', *unknown]))


def is_of_ci(crates, crate, library):
    """True if `rt ci` has built a library after the last change of its files and of those below it. Files in its folder
    may be older."""
    folders = [os.path.join(crates, name, part) for name in below(crates, crate) for part in ('src', 'specs', 'proofs')]
    files = [os.path.join(at, name) for folder in folders for at, _, names in os.walk(folder) for name in names]
    return os.path.isdir(library) and os.path.getmtime(library) > max(map(os.path.getmtime, files))


def proved_mir(crates, crate, of_ci=False):
    """The code of a library as the toolchain resolved it. The library is proved first, unless `rt ci` has done so."""
    folder = os.path.join(crates, crate)
    library = os.path.join(folder, 'out', 'rlib', f'{crate}.rlib')
    if of_ci and not is_of_ci(crates, crate, library):
        raise Refused(f'`rt ci` has not proved {crate} since its last change')
    if not of_ci:
        done = subprocess.run(
            [os.path.join(os.path.dirname(rattle()), 'rt'), 'lib'],
            cwd=folder,
            stdout=subprocess.PIPE,
            stderr=subprocess.STDOUT,
            text=True,
        )
        if done.returncode:
            raise Refused(f'{crate} is not proved, so what it calls is not known: {done.stdout[-300:]}')
    with open(os.path.join(library, 'toolchain', 'mir.json'), encoding='utf-8') as file:
        return json.load(file)


def calls(crates: str, texts: dict[str, str], package: Package, sections: Sections, of_ci: bool = False) -> Sections:
    """The section of each crate of a package: from stored.txt if its sources are the same, else of the proved
    library."""
    found = {}
    for crate in package.read:
        total = sum_of_crate(crates, crate, texts)
        if program := {file: text for file, text in texts.items() if file == f'{crate}/src/main.rt'}:
            if sum_of(program) not in PROGRAMS_READ:
                raise Refused(
                    f'crates/{crate}/src/main.rt: read what it calls, and state {sum_of(program)} in stored.py'
                )
            found[f'crate {crate}'] = total, []
        elif sections.get(f'crate {crate}', ('',))[0] == total:
            found[f'crate {crate}'] = sections[f'crate {crate}']
        else:
            named = callees(proved_mir(crates, crate, of_ci), package)
            check_callees(named, texts)
            found[f'crate {crate}'] = total, list(named)
    check_callees(
        {line: [crate.removeprefix('crate ')] for crate, (_, lines) in found.items() for line in lines}, texts
    )
    return found
