"""Runs the checks on each mutant of the verifier, in a process of its own, until one fails."""
import collections
import gc
import importlib
import json
import multiprocessing.connection
import os
import resource
import signal
import sys
import tempfile
import time
import traceback
from typing import Any, Iterator, Optional

from oracle import antt

from . import edits, patches

LONGEST, MOST_MEMORY = 120, 5 << 30  # CPU seconds and bytes of memory of a mutant: more than all checks in BUDGET take
WAITING = 600  # seconds until a mutant whose processes wait for each other ends
BUDGET = {"value": 60, "processor": 3, "right": 5, "planted": 5}  # CPU seconds of the checks of a kind, for a mutant
UNDETECTED, EQUAL = "undetected", "equal code"

# The mutant's title, whether it is of a decision, what detected it and by which check, whether it was put into the
# running functions, and the CPU seconds.
Outcome = collections.namedtuple("Outcome", "title place decides check what by is_warm seconds")


class Known:
    """The checks, and the functions of the modules as they are."""

    def __init__(self, loader, folder):
        self.loader, self.objects = loader, {}
        self.module = importlib.import_module("oracle.verifier_mutants.checks")
        self.checks = self.module.prepare(folder, self.objects)
        self.by_code = patches.functions_by_code()
        gc.collect()
        gc.freeze()


# ---- which checks may detect a mutant


class Coverage:
    """What each check of some types calls, and where each planted file is refused."""

    def __init__(self, known, types=tuple(BUDGET)):
        self.called, self.seconds, self.frames = {}, {}, {}
        files = {*known.loader.paths.values()}
        for k, one in enumerate(known.checks):
            if one.type not in types:
                continue
            known.module.begin()
            began = time.process_time()
            if one.type == "planted":
                self.frames[k] = frames_of(one.ask.args[0])
            else:
                self.called[k] = codes_called(one.ask, files)
            self.seconds[k] = time.process_time() - began

    def can_put(self, patch):
        names = {name.rpartition(".")[2] for _, name in patch.keys}
        return any(called & patch.keys for called in self.called.values()) or any(
            path == patch.path and function in names for frames in self.frames.values() for path, function, _ in frames
        )

    def chosen(self, checks, patch, one, is_warm):
        """Yields the numbers of the checks that may detect a mutant, the most likely ones first."""
        ranks: Any
        for check_type in BUDGET:
            found = [
                k for k in self.called if checks[k].type == check_type and (not is_warm or self.called[k] & patch.keys)
            ]
            yield from self.within_budget(sorted(found, key=lambda k: self.seconds[k]), check_type)
        function, ranks = one.function.rpartition(".")[2], {}
        for k, frames in self.frames.items():
            here = [
                (at != one.line, name != function, i) for i, (path, name, at) in enumerate(frames) if path == patch.path
            ]
            if here and (not is_warm or min(here)[:2] != (True, True)):
                ranks[k] = min(here)
        yield from self.within_budget(sorted(ranks, key=ranks.get), "planted")

    def within_budget(self, numbers, check_type):
        used: Any
        used = 0
        for count, k in enumerate(numbers):
            used += self.seconds[k]
            if count and used > BUDGET[check_type]:
                return
            yield k


def codes_called(ask, files):
    """Runs a check. Returns the code objects in these files that it calls."""
    found = set()

    def called(frame, event, _):
        if event == "call" and frame.f_code.co_filename in files:
            found.add(frame.f_code)

    sys.setprofile(called)
    try:
        ask()
    finally:
        sys.setprofile(None)
    return {patches.key_of(code) for code in found}


def frames_of(planted):
    """Runs a planted file's test. Returns where the refusal was raised: (file, function, line), the innermost first."""
    error: Optional[BaseException]
    from oracle.symbolic_terms import REFUSALS

    found = []
    try:
        planted.ask()
    except REFUSALS as refusal:
        error = refusal
        while error:
            found += [
                (frame.filename, frame.name, frame.lineno)
                for frame in reversed(traceback.extract_tb(error.__traceback__))
            ]
            error = error.__cause__ or error.__context__
    return found


# ---- one mutant


def place_of(one):
    return f"{one.path} {one.function or 'module'}"


def outcome(known, coverage, one):
    """Returns which check detects a mutant, its title, and whether the mutant was put into the running functions."""
    patch = patches.Patch(known.loader, one)
    if not patch.pairs:
        return EQUAL, "", True
    checks, module = known.checks, known.module
    is_warm = patch.is_inside and coverage.can_put(patch) and patch.put(known.by_code)
    if not is_warm:
        try:
            module = patches.import_again(known.loader, patch)
            with tempfile.TemporaryDirectory() as folder:
                checks = module.prepare(folder, known.objects)
        except Exception as error:
            return "right", f"reading the sources: {type(error).__name__}", False
    for k in coverage.chosen(checks, patch, one, is_warm):
        module.begin()
        try:
            checks[k].ask()
        except BaseException:
            return checks[k].type, checks[k].title, is_warm
    return UNDETECTED, "", is_warm


def in_process(known, coverage, one):
    """Runs the checks on a mutant in a process of its own. One that doesn't end in time is detected: a task that
    doesn't end doesn't pass."""
    ours, theirs = os.pipe()
    child = os.fork()
    if not child:
        try:
            resource.setrlimit(resource.RLIMIT_CPU, (LONGEST, LONGEST + 1))
            signal.alarm(WAITING)
            resource.setrlimit(resource.RLIMIT_AS, (MOST_MEMORY, MOST_MEMORY))
            nothing = os.open(os.devnull, os.O_WRONLY)
            os.dup2(nothing, 1)
            os.dup2(nothing, 2)
            os.write(theirs, json.dumps(antt.with_deep_recursion(outcome, known, coverage, one)).encode())
        finally:
            os._exit(0)
    os.close(theirs)
    with os.fdopen(ours, "rb") as pipe:
        data = pipe.read()
    used = os.wait4(child, 0)[2]
    what, by, is_warm = json.loads(data) if data else ("right", "no end", True)
    return Outcome(
        edits.title_of(one), place_of(one), one.decides, one.check, what, by, is_warm, used.ru_utime + used.ru_stime
    )


def run_all(
    known: Known, coverage: Coverage, mutants: list[edits.Mutant], jobs: int, seconds: float | None = None
) -> Iterator[Outcome]:
    """Yields the outcomes of mutants, by several processes at once, until the CPU seconds are used."""
    data: Any
    pipe: Any
    pipes: Any
    pipes = {}
    for k in range(jobs):
        ours, theirs = os.pipe()
        if not os.fork():
            used = 0
            for one in mutants[k::jobs]:
                found = in_process(known, coverage, one)
                os.write(theirs, (json.dumps(found) + "\n").encode())
                used += found.seconds
                if seconds is not None and used > seconds / jobs:
                    break
            os._exit(0)
        os.close(theirs)
        pipes[ours] = b""
    while pipes:
        for pipe in multiprocessing.connection.wait([*pipes]):
            data = os.read(pipe, 1 << 16)
            *lines, pipes[pipe] = (pipes[pipe] + data).split(b"\n")
            yield from (Outcome(*json.loads(line)) for line in lines)
            if not data:
                os.close(pipe)
                del pipes[pipe]
                os.wait()
