"""The crates that are proved, so that their edits may be tried, and the number of concurrent checks."""
import os
import re
import sys
import threading

from . import toolchain

# rt ci's message for a crate that it has proved, now or in an earlier run on this machine.
PROVED = re.compile(r"rt: (\w+) (?:proved$|is kept:)")


class Built:
    """All crates: each library by its build."""

    is_ended = True

    def __init__(self, crates, jobs):
        self.jobs = jobs
        for it in dict.fromkeys(
            library for crate in crates for library in [*crate.below(), crate] if toolchain.is_library(library)
        ):
            toolchain.build_library(it)

    def at_a_time(self):
        """The number of checks that may run."""
        return self.jobs

    def has(self, crate):
        """True if the edits of the crate may be tried."""
        return True

    def stands_for(self, crate):
        """True if the unchanged crate is proved, or must be at the end."""
        return toolchain.is_library(crate)


class Heard:
    """The output of `rt ci` on standard input. It has priority: while it runs, half as many checks do."""

    def __init__(self, jobs):
        os.nice(19)
        self.jobs, self.names, self.is_ended = jobs, set(), False
        threading.Thread(target=self.read, daemon=True).start()

    def read(self):
        for line in sys.stdin:
            if proved := PROVED.match(line):
                self.names.add(proved[1])
        self.is_ended = True

    def at_a_time(self):
        return self.jobs if self.is_ended else max(self.jobs // 2, 1)

    def has(self, crate):
        return crate.name in self.names

    def stands_for(self, crate):
        return True
