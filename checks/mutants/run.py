"""Tries the edits of the crates in parallel, and prints the results."""
import argparse
import concurrent.futures
import functools
import os
import resource
import subprocess
import sys
import tempfile
import time
from typing import Any, Callable

from . import aims, edits, hard, memory, source, toolchain
from .proofs import Built, Heard
from .trial import BY_ANSWERS, BY_NAMES, Trial

# Refusals that show little of a contract.
WEAK = (BY_ANSWERS, BY_NAMES, toolchain.BY_LIMIT)


def main(given: argparse.Namespace) -> int:
    os.chdir(toolchain.TOP)
    with tempfile.TemporaryDirectory(prefix="wrong-bodies-edits-") as workdir:
        files = {it: found for it in chosen_crates(given) if (found := edits.files_of(it, workdir))}
        if given.unaimed:
            return aims.main(files)
        if given.hard:
            return hard.main(given, files)
        proofs: Any = Heard(given.jobs) if given.beside_ci else Built(files, given.jobs)
        trials = try_all(files, proofs, given.jobs, lambda it: print_result(it, given.v), memory.Memory(given.anew))
    if given.write:
        memory.write(refusals(trials))
    refused = [well for trial in trials for well, _ in trial.results.values()]
    used = resource.getrusage(resource.RUSAGE_CHILDREN)
    remembered = sum(len(it.remembered) for it in trials)
    reasons = [reason for trial in trials for _, reason in trial.results.values()]
    weak = "; ".join(f"{sum(phrase in it for it in reasons)} {phrase}" for phrase in WEAK)
    print(f"{len(reasons)} wrong bodies, {remembered} of whose refusals were remembered; {weak}")
    print(f"{used.ru_utime + used.ru_stime:.0f} seconds of processor time")
    print(f"{refused.count(True)} passed, {refused.count(False)} failed")
    return 0 if all(refused) else 1


def refusals(trials):
    """(edit, its checksum, reason) of each that was refused."""
    return [
        (f"{trial.crate.name}/{edit.name.removesuffix('.edit')}", trial.sums[edit], weakness(why))
        for trial in trials
        for edit, (well, why) in trial.results.items()
        if well
    ]


def weakness(text):
    return next((phrase for phrase in WEAK if phrase in text), "by a clause's goal")


def chosen_crates(given):
    crates = toolchain.crates()
    unknown = [it for it in given.crates if it not in crates]
    if unknown:
        sys.exit(f"wrong-bodies: crates.txt has no {unknown[0]}")
    chosen = [it for name, it in crates.items() if not given.crates or name in given.crates]
    return [it for it in chosen if not given.since or has_changed(it, given.since)]


def print_result(trial, is_verbose):
    """Prints the results of a crate's edits."""
    verdicts = sorted(trial.results.items(), key=lambda of: of[0].name)
    for edit, (well, why) in verdicts:
        if is_verbose or not well:
            print(f"{trial.crate.name}/{edit.name}: {'refused' if well else 'FAILED'}: {why[:300]}")
    refused = [well for _, (well, _) in verdicts].count(True)
    weak = {phrase: [edit.name for edit, (_, why) in verdicts if phrase in why] for phrase in WEAK}
    count = refused - sum(map(len, weak.values()))
    print(
        f"{trial.crate.name}: {refused} of {len(verdicts)} refused, {count} of them by a clause's goal, "
        f"{len(trial.remembered)} "
        f"remembered, in {len(trial.checks)} checks of {trial.seconds():.0f} s",
        *(f"  {phrase}: {len(names)}: {', '.join(names)}" for phrase, names in weak.items() if names),
        *(f"  {took:.0f} s: {what[:200]}" for took, what in trial.checks if is_verbose),
        sep="\n",
        flush=True,
    )


def try_all(files: dict, proofs: Any, jobs: int, print_end: Callable[..., None], remembered: memory.Memory) -> list:
    """Tries the edits of each crate that is proved, with as many concurrent checks as fit. Of those that are ready,
    a crate's first check comes before all others, since its edits wait for it; then those of crates that took the
    longest, so that none is left for the end."""
    with tempfile.TemporaryDirectory(prefix="wrong-bodies-") as workdir, concurrent.futures.ThreadPoolExecutor(
        jobs
    ) as pool:
        ordered = sorted(files, key=lambda it: -it.count(rb"\n"))
        trials = [Trial(it, f"{workdir}/{it.name}", files[it], proofs.stands_for(it), remembered) for it in ordered]
        waiting, ready, running = list(trials), [], {}
        while waiting or ready or running or not proofs.is_ended:
            is_last = proofs.is_ended
            for trial in [it for it in waiting if proofs.has(it.crate) or is_last]:
                waiting.remove(trial)
                ready.append((trial, trial.begin if proofs.has(trial.crate) else trial.give_up))
            ready.sort(key=lambda it: (it[0].cached_files is not None, -it[0].seconds(), -len(it[0].files)))
            while ready and len(running) < proofs.at_a_time():
                trial, check = ready.pop(0)
                running[pool.submit(check)] = trial
            done, _ = concurrent.futures.wait(running, timeout=1, return_when=concurrent.futures.FIRST_COMPLETED)
            for future in done:
                trial = running.pop(future)
                future.result()
                at_work = [*running.values(), *(it for it, _ in ready)].count(trial)
                ready += [(trial, it) for it in next_checks(trial, at_work)]
                if trial.is_ended:
                    print_end(trial)
            if not running:
                time.sleep(1)
            print_progress(trials)
    return trials


def next_checks(trial, at_work):
    """The trial's next checks. First, by itself, that of their common part, since they begin with what it keeps; then
    the separate ones, each of which may take minutes, and the batches; finally the end."""
    if trial.is_ended or at_work and trial.cached_files is None:
        return []
    if trial.cached_files is None and trial.has_more():
        return [trial.prove]
    started = [functools.partial(trial.try_alone, *it) for it in trial.taken_alone()]
    while batch := trial.batch():
        started.append(functools.partial(trial.try_batch, batch))
    return started or ([] if at_work else [trial.end])


def print_progress(trials):
    if sys.stderr.isatty():
        verdicts = [well for it in trials for well, _ in it.results.values()]
        whole = sum(len(it.files) for it in trials)
        print(
            f"\r{len(verdicts)} of {whole} tried, {verdicts.count(False)} not refused ",
            end="",
            file=sys.stderr,
            flush=True,
        )


def has_changed(crate, since):
    """True if the crate's own files, or what it may depend on in its libraries, have changed since the revision."""
    own = os.path.relpath(crate.folder, toolchain.TOP)
    if git("diff", "--name-only", since, "--", own) or git("ls-files", "-o", "--exclude-standard", "--", own):
        return True
    return any(has_other_contracts(it, since) for it in crate.below())


def has_other_contracts(library, since):
    folder = os.path.relpath(library.folder, toolchain.TOP)
    if git("diff", "--name-only", since, "--", f"{folder}/specs"):
        return True
    for path in git("diff", "--name-only", since, "--", f"{folder}/src").split():
        inside = os.path.relpath(path, folder)
        old = git("show", f"{since}:{path}", is_needed=False)
        new = toolchain.read(path) if os.path.exists(path) else ""
        if source.without_bodies(inside, old) != source.without_bodies(inside, new):
            return True
    return False


def git(*args, is_needed=True):
    ran = subprocess.run(["git", *args], cwd=toolchain.TOP, capture_output=True, text=True)
    if ran.returncode and is_needed:
        sys.exit(f"wrong-bodies: git {args[0]}: {ran.stderr.strip()}")
    return ran.stdout if not ran.returncode else ""
