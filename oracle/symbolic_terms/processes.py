"""Runs the tasks of a check, each in its own process and several at once, prints their results, and parses options."""
import argparse
import concurrent.futures
import gc
import multiprocessing
import resource
import threading
import time
import traceback

from oracle import antt

from . import definition, mutation
from .refusals import REFUSALS
from .nodes import WrongRule

SHOWN = 30                   # printed failures of a task
YOUNG = 20_000               # new objects after which the collector looks at them
OWN = resource.RUSAGE_SELF, resource.RUSAGE_CHILDREN       # of a task's process
FORK, STARTING = multiprocessing.get_context("fork"), threading.Lock()


class Task:
    """A task: its title, and a function that returns the counts, and the failures as lines."""

    def __init__(self, title, ask, is_deep=True):
        self.title, self.ask = title, ask
        self.is_deep = is_deep     # deep recursions need a thread with a large stack; time limits need the main thread


def options(description: str | None, jobs: int = 2) -> argparse.ArgumentParser:
    """Returns a parser of a check's options: --all, --only WORD, --skip NUMBER and --jobs NUMBER."""
    out = argparse.ArgumentParser(description=description, formatter_class=argparse.RawDescriptionHelpFormatter)
    out.add_argument("--all", action="store_true", help="run all cases")
    out.add_argument("--only", default="", help="run only the tasks with this word")
    out.add_argument("--skip", type=int, default=0, help="leave out so many of these tasks: an earlier run had them")
    out.add_argument("--jobs", type=int, default=jobs, help="number of processes")
    return out


def chosen(tasks: list, given: argparse.Namespace) -> list:
    """Returns the tasks that the options ask for."""
    return [task for task in tasks if given.only in task.title][given.skip:]


def run(tasks: list[Task], jobs: int) -> int:
    """Runs the tasks and prints their results. Returns the exit status. The processes share the parsed definitions."""
    began, passed = time.monotonic(), 0
    definition.program().run()
    gc.freeze()                 # sources and definitions stay: a task's process doesn't look through them
    gc.set_threshold(YOUNG)
    with concurrent.futures.ThreadPoolExecutor(jobs) as pool:
        for line, is_good in pool.map(in_process, tasks):
            passed += is_good
            print(line, flush=True)
    print(f"in {time.monotonic() - began:.0f} s, {processor_time(resource.RUSAGE_CHILDREN):.0f} s of processor time")
    print(f"{passed} passed, {len(tasks) - passed} failed")
    return 1 if passed < len(tasks) or not tasks else 0


def processor_time(of: int) -> float:
    used = resource.getrusage(of)
    return used.ru_utime + used.ru_stime


def in_process(task: Task) -> tuple[str, bool]:
    """Runs a task. Returns its output, and whether it passed. A process that is killed fails."""
    with STARTING:     # so that no other process inherits the pipe's end
        ours, theirs = FORK.Pipe(duplex=False)
        process = FORK.Process(target=answer, args=(task, theirs))
        process.start()
        theirs.close()
    try:
        report = ours.recv()
    except EOFError:
        report = None
    process.join()
    return report or (f"FAILED {task.title}: its process ended with status {process.exitcode}", False)


def answer(task: Task, pipe: "multiprocessing.connection.Connection") -> None:
    began = time.monotonic()
    if task.is_deep:
        what, bad = antt.with_deep_recursion(outcome, task)
    else:
        with mutation.limits():
            what, bad = outcome(task)
    used = f"{time.monotonic() - began:.1f} s, {sum(map(processor_time, OWN)):.1f} s of processor time, " \
           f"{resource.getrusage(resource.RUSAGE_SELF).ru_maxrss // 1024} MB"
    lines = [f"{'FAILED' if bad else 'ok'} {task.title}: {what}; {used}", *(f"    {line}" for line in bad[:SHOWN])]
    pipe.send(("\n".join(lines), not bad))


def outcome(task: Task) -> tuple[str, list[str]]:
    try:
        return task.ask()
    except (*REFUSALS, WrongRule) as error:
        return "", [f"{type(error).__name__}: {error}"]
    except (Exception, SystemExit):          # a tool that fails ends the check
        return "", traceback.format_exc().splitlines()
