"""The output folder of a release. Files of other programs or users stay: release/make deletes only files that it
wrote itself, by the sums that it left."""
import hashlib
import os
import re
import shutil
import stat
import sys
import tempfile

SUMS = 'SHA256SUMS'
# The first line of the sums, which sha256sum -c ignores.
MARK = '# Written by release/make, which deletes these files before it writes here again\n'


def sum_of(path: str) -> str:
    with open(path, 'rb') as file:
        return hashlib.file_digest(file, 'sha256').hexdigest()


def write_sums(folder: str) -> int:
    """The sums of all files in a folder, and their number."""
    names = sorted(set(os.listdir(folder)) - {SUMS})
    with open(os.path.join(folder, SUMS), 'w', encoding='utf-8') as file:
        file.write(MARK)
        file.writelines(f'{sum_of(os.path.join(folder, name))}  {name}\n' for name in names)
    return len(names)


def is_file(path):
    return stat.S_ISREG(os.lstat(path).st_mode)


def sums_in(folder):
    """Name -> sum, of a release that was written to a folder. Empty for other folders."""
    path = os.path.join(folder, SUMS)
    if not os.path.lexists(path) or not is_file(path):
        return {}
    with open(path, encoding='utf-8', errors='surrogateescape') as file:
        lines = file.readlines()
    if lines[:1] != [MARK]:
        return {}
    return {name: total for total, name in re.findall(r'^([0-9a-f]{64})  ([^/\n]+)$', ''.join(lines), re.M)}


def earlier_files(folder: str) -> list[str]:
    """The files of an earlier release in a folder. Stops if anything else is there."""
    if not os.path.lexists(folder):
        return []
    if not os.path.isdir(folder):
        sys.exit(f'release/make: {folder} is not a folder')
    sums, names = sums_in(folder), sorted(os.listdir(folder))
    foreign = [name for name in names if name not in (sums and {SUMS}) and not is_written(folder, name, sums)]
    if foreign:
        more = f' and {len(foreign) - 5} more' if len(foreign) > 5 else ''
        sys.exit(
            f'release/make: {folder} has files that release/make did not write, or that have changed since: '
            f'{", ".join(map(ascii, foreign[:5]))}{more}. Use another folder, or delete them'
        )
    return names


def is_written(folder, name, sums):
    path = os.path.join(folder, name)
    return name in sums and is_file(path) and sum_of(path) == sums[name]


def replace(folder: str, build_dir: str) -> None:
    """Writes the files of a folder, replacing those of an earlier release. A run that is killed leaves whole files,
    which are in the sums."""
    earlier, names = earlier_files(folder), sorted(os.listdir(build_dir), key=lambda name: name != SUMS)
    os.makedirs(folder, exist_ok=True)
    with tempfile.TemporaryDirectory(prefix='.release-make-', dir=folder) as workdir:
        for name in names:
            shutil.copy(os.path.join(build_dir, name), workdir)
        for name in set(earlier) - {SUMS}:
            os.remove(os.path.join(folder, name))
        for name in names:
            os.replace(os.path.join(workdir, name), os.path.join(folder, name))
