"""Runs the search of dupeGuru for files of equal contents: find_duplicates.py FOLDER, with dupeGuru on
PYTHONPATH. Prints each group's files, and their digests by the module xxhash."""
import pathlib
import sys

from core import fs
from core.directories import Directories
from core.scanner import ScanType
from core.se.scanner import ScannerSE


def main():
    folder = pathlib.Path(sys.argv[1])
    fs.filesdb.connect(':memory:')
    directories = Directories()
    directories.add_path(folder)
    files = list(directories.get_files())
    scanner = ScannerSE()
    scanner.scan_type = ScanType.CONTENTS
    scanner.big_file_size_threshold = 0
    groups = [sorted(file.path.name for file in group) for group in scanner.get_dupe_groups(files)]
    print(fs.hasher.__module__)
    for group in sorted(groups):
        print(*group)
    for file in sorted(files, key=lambda file: file.path.name):
        print(file.path.name, file.digest.hex(), file.digest_partial.hex(), file.digest_samples.hex())


main()
