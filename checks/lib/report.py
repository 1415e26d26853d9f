"""One line per check, and the counts at the end."""
import subprocess
from typing import Any, Callable, Optional


class Report:
    def __init__(self) -> None:
        self.passed, self.failed = 0, 0

    def record(self, name: str, fault: Optional[str] = None, note: str = '') -> None:
        """A check that passed, or its error."""
        if fault:
            self.failed += 1
            print(f'FAILED  {name}: {fault}', flush=True)
        else:
            self.passed += 1
            print(f'passed  {name}' + (f' ({note})' if note else ''), flush=True)

    def attempt(self, name: str, test: Callable[..., Any], *args: Any) -> None:
        """A check that returns a note, or raises its error."""
        try:
            self.record(name, None, test(*args) or '')
        except SystemExit as stop:
            # A tool of the check failed. A status without a message is that of a signal, which ends the program.
            if not isinstance(stop.code, str):
                raise
            self.record(name, ' '.join(stop.code.split()))
        except Exception as fault:
            known = isinstance(fault, (Fault, subprocess.TimeoutExpired))
            message = str(fault) if known else f'{type(fault).__name__}: {fault}'
            self.record(name, message or 'it failed, and printed nothing')

    def count(self, passed: int, failed: int) -> None:
        """Checks without a line of their own."""
        self.passed += passed
        self.failed += failed

    def repeat(self, line: str) -> None:
        """A line of another program's report, which is also counted here."""
        if line.startswith(('passed  ', 'FAILED  ')):
            self.passed += line.startswith('passed  ')
            self.failed += line.startswith('FAILED  ')
            print(line, end='', flush=True)

    def end(self) -> int:
        """Prints the counts, and returns the program's status. A run without a check fails."""
        print(f'{self.passed} passed, {self.failed} failed')
        return 0 if self.passed and not self.failed else 1


class Fault(Exception):
    """An error, in one line."""


def check(condition: Any, message: Any) -> None:
    """Raises the message as an error, unless the condition is true."""
    if not condition:
        raise Fault(message)


def last_line(text: str) -> str:
    """The last line of a program's output, for an error."""
    lines = text.strip().splitlines()
    return lines[-1][:300] if lines else 'no output'
