"""The commit that is packed: a clone of it, proved, its version and its time."""
import os
import re
import sys

from checks.lib.tools import must, text_of


class Commit:
    """`tree` is a clone in a working folder. Everything packed is made there, and has the commit's time."""

    def __init__(self, top, workdir):
        self.workdir, self.tree = workdir, os.path.join(workdir, 'twox_hash')
        must(['git', 'clone', '-q', top, self.tree])
        if must(['git', '-C', top, 'status', '--porcelain', '--untracked-files=no']):
            print('release/make: uncommitted changes are omitted', file=sys.stderr)
        self.name, seconds, self.date = self.git('log', '-1', '--format=%H %ct %cI').split()
        self.seconds = int(seconds)
        self.version = self.read('VERSION').strip()
        self.stem = f'twox_hash-{self.version}'
        os.environ['SOURCE_DATE_EPOCH'] = seconds

    def prove(self):
        """Proves the clone by `rt ci`, which reuses the proofs of an earlier run of the same files on this machine.
        Its libraries stay in the clone."""
        # rt runs the tests as nobody, who can't read the working folder of release/check.
        elsewhere = {name: value for name, value in os.environ.items() if name != 'TMPDIR'}
        last = must(['rt', 'ci'], cwd=self.tree, env=elsewhere).splitlines()[-1]
        if not re.match(r'[1-9]\d* passed, 0 failed', last):
            sys.exit(f'release/make: rt ci: {last}')

    def git(self, *args):
        return must(['git', '-C', self.tree, *args])

    def path(self, *names):
        return os.path.join(self.tree, *names)

    def read(self, *names):
        return text_of(self.path(*names))
