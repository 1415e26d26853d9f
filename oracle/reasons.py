"""Reasons why undetected changes break no guarantee, and which outcomes are faults. Shared by all programs that test
changes. Each has its own file of lines `words | reason`. Words joined by `&` must all be in the change's text.

Where changed code can run, random calls replace the reasons: an undetected change must change none of their results."""
UNNOTICED = "unnoticed"
CRASH, WRONG_RULE = "A CRASH", "A RULE IS WRONG"
# Step between the detected changes that are called too, the most part of these that calls miss, and of all changes that
# neither detects.
EACH_CALLED, MOST_MISSED, MOST_HARMLESS = 4, 0.1, 0.05


class Reasons(dict):
    """Maps words to a reason."""

    def __init__(self, path):
        with open(path, encoding="utf-8") as file:
            super().__init__(line.strip().split(" | ") for line in file if line.strip() and not line.startswith("#"))

    def of(self, text):
        """Returns the words of the reasons that fit a change."""
        return [pattern for pattern in self if all(word in text for word in pattern.split(" & "))]

    def unused(self, texts):
        """Returns the words of the reasons that fit none of the changes."""
        return [pattern for pattern in self if not any(pattern in self.of(text) for text in texts)]


def is_fault(what: str, has_reason: bool, must_fit: bool = True) -> bool:
    """True if the outcome is a fault: an undetected change without a reason; a crash of the checker or a wrong rule;
    or, with `must_fit`, a detected change with a reason."""
    return (
        what.startswith((CRASH, WRONG_RULE, "WrongRule", f"{UNNOTICED}, but"))
        or (what == UNNOTICED and not has_reason)
        or must_fit
        and has_reason
        and what != UNNOTICED
    )


class Called:
    """Counts what random calls of changed code find."""

    def __init__(self):
        self.detected, self.found, self.called, self.harmless = 0, 0, 0, 0

    def outcome(self, what, first_difference):
        """Returns the outcome of a change, given that of the comparisons. `first_difference` makes the calls."""
        self.detected += what != UNNOTICED
        if what != UNNOTICED and self.detected % EACH_CALLED:
            return what
        call = first_difference()
        if what != UNNOTICED:
            self.called, self.found = self.called + 1, self.found + bool(call)
            return what
        self.harmless += not call
        return f"{UNNOTICED}, but {call}" if call else "no changed result"

    def summary(self):
        return f"{self.harmless} change no result of any call; calls find {self.found} of {self.called} detected ones"

    def faults(self):
        """Returns messages if the calls find too few of the detected changes, or too many changes have no result."""
        is_weak = self.called - self.found > max(1, MOST_MISSED * self.called)
        is_vague = self.harmless > max(2, MOST_HARMLESS * (self.detected + self.harmless))
        return [self.summary()] if is_weak or is_vague else []
