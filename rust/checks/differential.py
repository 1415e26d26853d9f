"""Runs `case()` of each planted source in Rattle and, if it is erased, in Rust: all in one program of each language."""
import os
import re
import subprocess

from checks.lib.report import check, last_line
from checks.lib.tools import write
from rust.checks.erasers import RUST

ROOT = (
    '#![tactic(auto)]\n\n{modules}\nuse std::io;\n\n'
    'fn main(rt: HostRuntime) -> Result<(), io::Error> {{\n{calls}    Ok(())\n}}\n'
)
# With the crate's replacements of names of Rattle's library.
MAIN = (
    '#[path = "{rust}/src"] mod crate_files {{ pub mod rattle; }}\nuse crate_files::rattle;\n{modules}\n'
    'fn main() {{\n{calls}}}\n'
)


def values(text):
    return {int(number): int(value) for number, value in re.findall(r'^(\d+) (\d+)$', text, re.M)}


def in_rattle(sources: dict[int, str], folder: str) -> dict[int, str]:
    """The value of each source, by its number, as `rt try` runs it."""
    modules = ''.join(f'mod case_{number};\n' for number in sources)
    calls = ''.join(f'    println!(rt; "{number} {{}}", case_{number}::case())?;\n' for number in sources)
    crate = os.path.join(folder, 'crates', 'planted')
    write(os.path.join(folder, 'crates.txt'), 'planted:\n')
    write(os.path.join(crate, 'src', 'main.rt'), ROOT.format(modules=modules, calls=calls))
    for number, source in sources.items():
        write(os.path.join(crate, 'src', f'case_{number}.rt'), source)
    done = subprocess.run(['rt', 'try'], cwd=crate, capture_output=True, text=True)
    check(done.returncode == 0, last_line(done.stderr))
    return values(done.stdout)


def in_rust(sources: dict[int, str], folder: str, *flags: str) -> dict[int, str]:
    """The same as rustc compiles them."""
    modules = ''.join(f'#[path = "case_{number}.rs"] mod case_{number};\n' for number in sources)
    calls = ''.join(f'    println!("{number} {{}}", case_{number}::case());\n' for number in sources)
    for number, source in sources.items():
        write(os.path.join(folder, f'case_{number}.rs'), source)
    path = write(os.path.join(folder, 'main.rs'), MAIN.format(rust=RUST, modules=modules, calls=calls))
    program = os.path.join(folder, 'main')
    done = subprocess.run(
        ['rustc', '--edition', '2021', '-Awarnings', *flags, path, '-o', program], capture_output=True, text=True
    )
    check(done.returncode == 0, last_line(done.stderr))
    return values(subprocess.run([program], stdout=subprocess.PIPE, text=True, check=True).stdout)
