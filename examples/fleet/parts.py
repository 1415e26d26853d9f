"""An unfinished run on disk: the folder MANIFEST.parts.

    tree     the tree of the run
    lock     held while a run is active
    before   records of earlier runs
    kept     records of `before` whose files haven't changed, in this run
    0, 1 ..  records of this run, a file for each task, in the order of the names

Each file except `kept` is written under another name and renamed, so it is complete or missing. A run that finds the
folder continues from it, and the folder is removed when the manifest is there. A folder with any other file is refused:
it isn't a run's."""
import fcntl
import os
import re

from files import newest, records_of

NAMES = re.compile(r'lock|kept|(tree|before|[0-9]+)(\.part)?')


class Parts:
    def __init__(self, manifest, tree, since, is_fresh=False):
        """Begins a run, or continues one. `since` is the manifest of an earlier run, whose records are also used. If
        it `is_fresh`, no earlier record is used."""
        self.manifest, self.folder = manifest, manifest + '.parts'
        os.makedirs(self.folder, exist_ok=True)
        self.refuse_others()
        self.lock = open(self.path('lock'), 'wb')
        fcntl.flock(self.lock, fcntl.LOCK_EX | fcntl.LOCK_NB)
        self.hold_to(tree)
        earlier = [records_of(since + '.files')] if since else []
        known = [] if is_fresh else [*earlier, records_of(self.path('before')), self.in_parts()]
        write(self.path('before'), (it.record() for it in newest(*known)))
        for number in self.numbers():
            os.remove(self.path(number))
        self.reused = open(self.path('kept'), 'wb')

    def path(self, name):
        return os.path.join(self.folder, str(name))

    def refuse_others(self):
        """Refuses a folder with a file that no run writes."""
        for name in os.listdir(self.folder):
            if not NAMES.fullmatch(name):
                raise ValueError(f'{self.folder} has {name!r}, which no run wrote: rename the folder, or the manifest')

    def hold_to(self, tree):
        """Refuses to continue a run of another tree."""
        if not os.path.exists(self.path('tree')):
            write(self.path('tree'), [os.fsencode(tree)])
        with open(self.path('tree'), 'rb') as file:
            if (other := os.fsdecode(file.read())) != tree:
                raise ValueError(f'{self.folder} is of a run over {other}: go on with that, or remove the folder')

    def numbers(self):
        return sorted(int(name) for name in os.listdir(self.folder) if name.isdecimal())

    def in_parts(self):
        """The entries of the parts, which follow one another in the order of the names."""
        for number in self.numbers():
            yield from records_of(self.path(number))

    def before(self):
        """The entries of earlier runs."""
        return records_of(self.path('before'))

    def keep(self, entry):
        """An entry of an earlier run whose file hasn't changed."""
        self.reused.write(entry.record())

    def add(self, number, entries):
        """The results of the task of this number."""
        if entries:
            write(self.path(number), (it.record() for it in entries))

    def join(self):
        """Writes the manifest, and the records, of everything that was kept and added."""
        self.reused.close()
        found = newest(records_of(self.path('kept')), self.in_parts())
        files = self.manifest + '.files'
        with open(self.manifest + '.part', 'wb') as lines, open(files + '.part', 'wb') as records:
            for entry in found:
                lines.write(entry.line())
                records.write(entry.record())
            to_disk(lines)
            to_disk(records)
        os.replace(files + '.part', files)
        os.replace(self.manifest + '.part', self.manifest)
        self.remove()

    def remove(self):
        """Removes the folder. NFS keeps a removed file there under another name until it is closed."""
        for name in os.listdir(self.folder):
            os.remove(self.path(name))
        self.lock.close()
        os.rmdir(self.folder)


def write(path, lines, is_lasting=False):
    """The file appears when it is complete. One that `is_lasting` is complete also after a loss of power."""
    os.makedirs(os.path.dirname(path), exist_ok=True)
    with open(path + '.part', 'wb') as file:
        file.writelines(lines)
        if is_lasting:
            to_disk(file)
    os.replace(path + '.part', path)


def to_disk(file):
    file.flush()
    os.fsync(file.fileno())
