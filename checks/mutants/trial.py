"""A crate's edits while they are tried: those that wait, and the messages of each."""
import contextlib
import math
import os
import re
import sys
import threading
import time

from . import edits, toolchain
from .copies import with_copies

# Maximum number of edits that share a check: a long batch fills one processor while others idle.
MOST = 120
# An error of a proof file that names what the edit removed, which shows little of the contract.
GONE = re.compile(r"has no field|is not in scope|has no `|was not admitted")
# The message for an edit that no other error refuses, here and by rt.
BY_NAMES = "only because a proof file names what the edit took away"
# The message for an edit of a function whose proof answers no longer fit its goals: that can also happen to a correct
# body.
BY_ANSWERS = "only because an answer no longer fits"
# rt's first message for an edit at which a proof answer no longer fits.
OF_AN_ANSWER = re.compile(r": (?:\./)?proofs/\S+: error")
# A function's line about its own goals. The part about its callees, as `it calls`, comes after it.
OWN_GOALS = re.compile(r"no proof: expected .*`search` did not prove ")


class Trial:
    def __init__(self, crate, workdir, files, is_proved, memory):
        self.crate, self.workdir, self.files, self.is_proved, self.memory = crate, workdir, files, is_proved, memory
        self.cache = f"{workdir}/cache"
        # The crate with its copies, and the changed functions that others may call.
        self.twin, self.called = None, []
        self.lock = threading.Lock()
        self.waiting, self.alone, self.results, self.is_ended = [], [], {}, False
        # The edits with a remembered refusal, and the checksum under which that of each other one will be stored.
        self.remembered, self.sums = set(), {}
        # The proofs that the check of the unchanged crate has cached, once it has ended, if there is one.
        self.cached_files = None
        # Each check: its time, and its edits.
        self.checks = []

    def begin(self):
        """Sorts the edits of the crate."""
        names = toolchain.names_of_functions(self.crate)
        for it in (edits.Edit(file, self.crate, names) for file in self.files):
            self.sums[it] = self.memory.sum_of(it, self.crate)
            if message := self.memory.recall(self.sums[it]):
                self.results[it] = True, message
                self.remembered.add(it)
            elif it.function:
                self.waiting.append(it)
            else:
                self.alone.append((it, "it changes no body, or more than one"))
        self.twin, self.called = with_copies(self.crate, self.waiting, f"{self.workdir}/crate")

    def give_up(self):
        """Reports that none was tried, if the crate isn't proved."""
        self.results = {edits.Edit(it, self.crate, set()): (False, "the crate is not proved") for it in self.files}
        self.is_ended = True

    def has_more(self):
        """True if edits wait."""
        return bool(self.waiting or self.alone)

    def batches(self):
        return math.ceil(len(self.waiting) / MOST)

    def prove(self):
        """Proves the unchanged functions that edits change and others may call, those that edits name, a copy of
        each that has any, and everything that they depend on. Each edit is then tried over a copy of what this check
        keeps."""
        named = [it.refused_by for it, _ in self.alone if it.refused_by]
        self.check_as_it_stands(self.twin, dict.fromkeys([*self.called, *named, *self.controls(self.waiting)]))
        self.cached_files = toolchain.listing(self.cache)

    def controls(self, batch):
        """The copies that show that those of these edits are proved if no edit changes them."""
        return list(dict.fromkeys(it.control for it in batch if it.control))

    def check_as_it_stands(self, crate, only):
        os.makedirs(self.cache, exist_ok=True)
        status, lines = self.timed("as it stands", toolchain.check, crate, {}, self.cache, only)
        if status:
            why = [
                it for it in lines if toolchain.PLACE.match(it) or ": not proved" in it or ": no proof" in it
            ] or lines[-5:]
            sys.exit("\n".join([f"wrong-bodies: {crate.name} is not proved as it stands", *why[:5]]))

    def check(self, what, crate, texts, only):
        """Checks the crate with these texts over a copy of the cached proofs."""
        with toolchain.no_file_written(), toolchain.copy_of(self.cache) as cache:
            return self.timed(what, toolchain.check, crate, texts, cache, only)

    def timed(self, what, work, *args):
        began = time.monotonic()
        result = work(*args)
        with self.lock:
            self.checks.append((time.monotonic() - began, what))
        return result

    def seconds(self):
        return sum(took for took, _ in self.checks)

    def end(self):
        """Checks that no check of an edit has changed the cached proofs, and proves the whole crate over it if nothing
        else has."""
        if toolchain.listing(self.cache) != (self.cached_files or {}):
            sys.exit(f"wrong-bodies: {self.crate.name}: a check of an edit has changed the work that others begin with")
        if not self.is_proved:
            self.check_as_it_stands(self.crate, ())
        for it, (well, message) in self.results.items():
            if well and it not in self.remembered:
                self.memory.keep(self.sums[it], message)
        self.is_ended = True

    def batch(self):
        """The next edits to try together: one of a function, first those of functions that have the most left, and
        none together with an edit that hid it before."""
        with self.lock:
            left = {}
            for it in self.waiting:
                left.setdefault(it.function, []).append(it)
            # The fewest batches that hold them all, of equal size.
            most = math.ceil(len(self.waiting) / max(1, self.batches()))
            chosen = {}
            for its in sorted(left.values(), key=len, reverse=True):
                fits = [it for it in its if it.fits_beside(chosen)]
                chosen.update({it.function: it for it in fits[:1] if len(chosen) < most})
            self.waiting = [it for it in self.waiting if it not in chosen.values()]
            return [*chosen.values()]

    def taken_alone(self):
        """The edits that must be tried separately and weren't tried yet, each with the reason. One that others hid,
        and that would be a batch by itself, is among them: its function's own check shows as much, and is the last
        that it may need."""
        with self.lock:
            if len(self.waiting) == 1 and self.waiting[0].apart:
                self.alone.append((self.waiting.pop(), "another edit of its check hid it"))
            taken, self.alone = self.alone, []
            return taken

    def try_batch(self, batch):
        """Tries these edits in one check. What it can't judge waits again, or waits to be tried separately."""
        texts = edits.texts_with(self.twin, batch)
        status, lines = self.check(f"{len(batch)} edits", self.twin, texts, [it.function for it in batch])
        with self.lock:
            if (
                status not in (0, 1)
                or not lines[-1].startswith("only=")
                or any(toolchain.is_front_end_error(it, texts) for it in lines)
            ):
                self.without_verdict(batch, lines)
            else:
                self.judge(batch, lines)

    def without_verdict(self, batch, lines):
        """The check has no verdict on any edit. Those at whose places it has errors are tried separately, the others
        again."""
        places = [(it[1], int(it[2]) - 1) for it in map(toolchain.PLACE.match, lines) if it]
        named = [it for it in batch if any(it.path == path and it.body.has_inside(line) for path, line in places)]
        self.alone += [(it, "a check with it has no verdict") for it in named or batch]
        self.waiting += [it for it in batch if named and it not in named]

    def judge(self, batch, lines):
        messages = {it[2]: it[3] for it in map(toolchain.LINE.fullmatch, lines) if it}
        functions = {it.function for it in batch}
        errors = [it for it in map(toolchain.PLACE.match, lines) if it]
        goals = [it for it in map(toolchain.OPEN_GOAL.match, lines) if it]
        # Each function that no edit changes is a control: it is proved, or would be except for its callees.
        of_values = [it for it in errors if not GONE.search(it[3])]
        loose = [
            name
            for name, message in messages.items()
            if name not in functions and not is_well(name, message, of_values)
        ]
        if loose:
            self.alone += [(it, f"{loose[0]}, which no edit changes, is not proved either") for it in batch]
            return
        for it in batch:
            message = messages.get(it.function, "nothing")
            own = [error for error in errors if error[1].startswith(edits.proof_folder(it.function))]
            open_goals = [goal[0] for goal in goals if goal[1] == it.path and it.body.has_inside(int(goal[2]) - 1)]
            if why := refusal(message, own, open_goals):
                self.results[it] = True, why
            elif not it.apart and (hidden_by := called(it.function, messages) & functions - {it.function}):
                it.apart = hidden_by
                self.waiting.append(it)
            else:
                self.alone.append((it, f"its line in a check with others: {message}"))

    def try_alone(self, edit, why):
        status, message = self.by_one(edit, why) if edit.refused_by else (None, None)
        if message:
            self.results[edit] = True, message
            return
        # What its function's own check has let through is tried from nothing at once.
        copied = contextlib.nullcontext() if status == 0 else toolchain.copy_of(self.cache)
        with toolchain.no_file_written(), copied as cache:
            refused, message = self.timed(
                f"{edit.name} as rt must-fail does", toolchain.try_alone, self.crate, edit.file, cache
            )
        if refused and OF_AN_ANSWER.search(message) and BY_NAMES not in message:
            message = f"{BY_ANSWERS}: {message}"
        with self.lock:
            self.results[edit] = refused, f"{message} ({why})"

    def by_one(self, edit, why):
        """The status of a check of only the edit's function, or of the one that it names, and what refuses the edit
        there."""
        texts, _ = toolchain.rt.read_edit(edit.file, self.crate.folder)
        if not texts:
            return None, None
        status, lines = self.check(f"{edit.name} alone: {why}", self.crate, texts, [edit.refused_by])
        messages = {it[2]: it[3] for it in map(toolchain.LINE.fullmatch, lines) if it}
        message = messages.get(edit.refused_by, "")
        if (
            status != 1
            or not lines[-1].startswith("only=")
            or any(toolchain.is_front_end_error(it, texts) for it in lines)
        ):
            return status, None
        errors = [it for it in map(toolchain.PLACE.match, lines) if it]
        why = refusal(message, errors, [it[0] for it in map(toolchain.OPEN_GOAL.match, lines) if it])
        # A check of the whole crate has this error too, so `rt must-fail` would report the edit as refused, with this
        # message.
        by_names = [f"{BY_NAMES}: {it[0]}" for it in errors if message.startswith("not proved")]
        return status, why or next(iter(by_names), None)


def refusal(message, errors, open_goals):
    """Why a function is refused, by its line in a check, the errors of its proof answers, and its open goals; or
    None. A goal counts only if every proof answer still fits: another shape of a body gives goals other names, and
    proof answers other goals."""
    of_values = [it[0] for it in errors if not GONE.search(it[3])]
    is_open = OWN_GOALS.match(message) or message.startswith("not proved") and open_goals
    if is_open and not errors:
        return message if OWN_GOALS.match(message) else open_goals[0]
    if is_open or message.startswith("not proved") and of_values:
        return f"{BY_ANSWERS}: {[*of_values, *(it[0] for it in errors)][0]}"
    return None


def called(name, messages):
    """The functions that a function's line blames, those that their lines blame, and so on."""
    found, left = set(), [name]
    while left:
        blamed = re.findall(r"`([^`]+)`", messages.get(left.pop(), "").partition("it calls ")[2])
        left += [it for it in blamed if it not in found]
        found.update(blamed)
    return found


def is_well(name, message, errors):
    """True if a function is proved, or would be except for its callees: its line names no goal, and its folder has
    no error."""
    if message.startswith(("proved", "assumed")):
        return True
    return (
        "it calls" in message
        and not OWN_GOALS.match(message)
        and not any(it[1].startswith(edits.proof_folder(name)) for it in errors)
    )
