"""Archives whose bytes depend only on the files: sorted, owned by root, with the commit's time."""
import gzip
import io
import os
import tarfile
from typing import Mapping, Union


def tree_of(folder: str, below: str = '') -> dict[str, str]:
    """The files and links below a folder, by their names in an archive."""
    found = {}
    for place, folders, names in os.walk(folder):
        for name in [*names, *(it for it in folders if os.path.islink(os.path.join(place, it)))]:
            path = os.path.join(place, name)
            found[os.path.normpath(os.path.join(below, os.path.relpath(path, folder)))] = path
    return found


def entry(name, source, seconds):
    """A file, a link, or bytes, as an entry of an archive, and its content."""
    member = tarfile.TarInfo(name)
    member.mtime, member.uname, member.gname, member.mode = seconds, 'root', 'root', 0o644
    if isinstance(source, bytes):
        member.size = len(source)
        return member, source
    if os.path.islink(source):
        member.type, member.linkname, member.mode = tarfile.SYMTYPE, os.readlink(source), 0o777
        return member, None
    with open(source, 'rb') as file:
        data = file.read()
    member.size, member.mode = (
        len(data),
        0o755 if os.access(source, os.X_OK) and os.stat(source).st_mode & 0o100 else 0o644,
    )
    return member, data


def write_tar(path: str, files: Mapping[str, Union[str, bytes]], seconds: int) -> None:
    """A tar.gz of files by name: each is a path or bytes."""
    with open(path, 'wb') as out, gzip.GzipFile('', 'wb', 9, out, seconds) as packed, tarfile.open(
        fileobj=packed, mode='w', format=tarfile.GNU_FORMAT
    ) as archive:
        for name in sorted(files):
            member, data = entry(name, files[name], seconds)
            archive.addfile(member, None if data is None else io.BytesIO(data))


def read_tar(path: str) -> dict[str, bytes]:
    """The bytes of each file of a tar.gz, by name."""
    with tarfile.open(path, 'r:gz') as archive:
        return {member.name: archive.extractfile(member).read() for member in archive if member.isfile()}
