"""The parts of CI: each is a command that ends with the counts of its checks."""
import contextlib
import queue
import re
import resource
import subprocess
import threading
import time
from typing import Optional

COUNTS = re.compile(r"(\d+) passed, (\d+) failed")


def processor_time() -> float:
    used = resource.getrusage(resource.RUSAGE_CHILDREN)
    return used.ru_utime + used.ru_stime


class Part:
    """A part of CI that was started: its title, its minimum number of checks, and its command. Its output, with
    standard error, is kept until the part is followed."""

    def __init__(self, top: str, title: str, least: int, *args: str) -> None:
        self.title, self.least, self.args = title, least, args
        self.began = self.ended = time.monotonic()
        self.lines: queue.SimpleQueue[Optional[str]] = queue.SimpleQueue()
        pipe = subprocess.PIPE
        self.process = subprocess.Popen(
            args, cwd=top, stdin=pipe, stdout=pipe, stderr=subprocess.STDOUT, text=True, errors="replace"
        )
        threading.Thread(target=self.read, daemon=True).start()

    def read(self) -> None:
        for line in self.process.stdout:
            self.lines.put(line)
        self.ended = time.monotonic()
        self.lines.put(None)

    def hear(self, line: str) -> None:
        with contextlib.suppress(BrokenPipeError):
            self.process.stdin.write(line)
            self.process.stdin.flush()

    def follow(self, hearer: Optional['Part'] = None) -> tuple[str, int, int]:
        """Prints the output as it comes, and passes it to a part that reads it. Returns the summary of the part, and
        how many checks passed and failed."""
        print(f"== {self.title}: {' '.join(self.args)}", flush=True)
        last, used = "", processor_time()
        for line in iter(self.lines.get, None):
            print(line, end="", flush=True)
            last = line.strip() or last
            if hearer:
                hearer.hear(line)
        for it in [self, hearer] if hearer else [self]:
            with contextlib.suppress(BrokenPipeError):
                it.process.stdin.close()
        passed, failed, why = self.judged(self.process.wait(), last)
        took = f"{self.ended - self.began:.0f} s, {processor_time() - used:.0f} s of processor time"
        return f"{self.title}: {passed} passed, {failed} failed; {took}{why and '; ' + why}", passed, failed

    def judged(self, status: int, last: str) -> tuple[int, int, str]:
        """How many checks passed and failed, and why the part failed if its own counts don't show it."""
        counts = COUNTS.search(last)
        passed, failed = map(int, counts.groups()) if counts else (0, 0)
        why = (
            "" if counts else "its last line has no counts: " + (last[:200] or "it printed nothing"),
            status and not failed and f"it ended with status {status}",
            passed + failed < self.least and f"it has {passed + failed} checks, and {self.least} at least are expected",
        )
        message = "; ".join(str(part) for part in why if part)
        return passed, failed or int(bool(message)), message
