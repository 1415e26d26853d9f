"""Compares the C library's assembly sources for x86-64 with the specification of xxHash, by an engine that shares no
code with oracle/machine-text: another processor, other terms, the hashes written from the specification, and z3.

  oracle/second                  every 16th length of 0 to 240 bytes, and one step of each loop
  oracle/second --all            each length
  oracle/second --only WORD      only the tasks with that word
  oracle/second --jobs NUMBER    number of processes (default: 2)

Every byte of the message, the seed and every byte of a secret of 136 bytes is a variable. Terms are kept simple by
identities, each of whose results is compared at four random points. Terms that still differ are given to z3, with a
product as any function of its operands. Planted faults must be refused. It needs binutils and z3, and installs missing
packages with apt-get. The last line is "N passed, M failed"; the exit status is 1 if one failed."""
import argparse
import concurrent.futures
import os
import subprocess
import sys
import tempfile
import time


from checks.lib import tools

TOP = os.path.dirname(os.path.dirname(os.path.abspath(__file__)))

SOURCES = os.path.join(TOP, "c", "asm")
EACH, LENGTHS = 16, range(241)
DEBIAN = "/usr/lib/python3/dist-packages/z3"
# Planted faults: the function that begins with other lines, those lines, the task that must refuse it, and why it does.
WRONG = [
    ("XXH64", ("movzbl (%rdi),%eax", "add %rax,%rdx"), ("one_shot", "64", "seed", 40), "another value"),
    ("XXH64", ("xor $0x1,%rdx",), ("one_shot", "64", "seed", 0), "another value"),
    ("XXH32", ("mov 0x1(%rdi),%rax",), ("one_shot", "32", "seed", 8), "a read at"),
    ("XXH32", ("cmpq $0x0,(%rdi)", "jne 1f", "1:"), ("one_shot", "32", "seed", 40), "a place or a branch by a symbol"),
    ("XXH32", ("movl $0x0,(%rdi)",), ("one_shot", "32", "seed", 40), "a store at"),
    (
        "XXH3_64bits_withSeed",
        ("test %rdx,%rdx", "jne 1f", "1:", "inc %rdx"),
        ("one_shot", "3-64", "seed", 17),
        "another value",
    ),
    ("XXH3_128bits_withSecret", ("inc %rdx",), ("one_shot", "3-128", "secret", 100), "."),
    ("XXH3_64bits", ("xor %ebx,%ebx",), ("one_shot", "3-64", "default", 5), "isn't the caller's"),
    ("XXH64_update", ("xorl $0x1,(%rsi)",), ("plain_step", "64", 2), "a store at|another value"),
    (
        "twox_c.xxh3_state.Xxh3State.update",
        ("push %rdi", "call 1f", "pop %rdi", "xorq $0x1,(%rdi)", "ret", "1:"),
        ("xxh3_step", "3-64", 1200),
        "another number of stripes|another value|places",
    ),
]


def object_of(path, folder):
    built = os.path.join(folder, "made.o")
    subprocess.run(["as", "--no-warn", path, "-o", built], check=True)
    return built


def ask(path, task):
    """Runs a task in this process. Returns the refusal, or None."""
    from oracle.second_engine import machine, tasks, terms

    sys.setrecursionlimit(100_000)
    with tempfile.TemporaryDirectory(prefix="second-") as folder:
        calls = tasks.Calls(machine.Code(object_of(path, folder)))
    what, *arguments = task
    try:
        if what == "one_shots":
            for n in arguments[2]:
                calls.one_shot(arguments[0], arguments[1], n)
        else:
            getattr(calls, what)(*arguments)
    except (terms.Differs, machine.Refused) as refusal:
        return f"{type(refusal).__name__}: {refusal}"
    return None


def show(title, path, task):
    began = time.process_time()
    refusal = ask(path, task)
    return (
        f"{'FAILED' if refusal else 'ok'} {title}; {time.process_time() - began:.1f} s"
        f"{refusal and '; ' + refusal or ''}",
        not refusal,
    )


def show_vectors(title, each):
    from oracle.second_engine import tasks, terms

    sys.setrecursionlimit(100_000)
    try:
        return f"ok {title}: {tasks.compare_vectors(each, 300)} results", True
    except terms.Differs as fault:
        return f"FAILED {title}: {fault}", False


def refuse(title, path, name, lines, task, reason):
    """Plants a fault at the beginning of a function, which must be refused for the reason."""
    import re

    with open(path, encoding="utf-8") as file:
        text = file.read()
    head = f"\n{name}:\n\t.cfi_startproc\n"
    if text.count(head) != 1:
        return f"FAILED {title}: {name} isn't there once", False
    with tempfile.TemporaryDirectory(prefix="second-") as folder:
        wrong = os.path.join(folder, "wrong.s")
        with open(wrong, "w", encoding="utf-8") as file:
            file.write(text.replace(head, head + "".join(f"\t{line}\n" for line in lines)))
        refusal = ask(wrong, task) or "not refused"
    is_good = re.search(reason, refusal) is not None and refusal != "not refused"
    return f"{'ok' if is_good else 'FAILED'} {title}: {refusal[:120]}", is_good


def choose(is_all):
    """Yields the tasks: (function, title, arguments)."""
    from oracle.second_engine.tasks import ALGORITHMS

    yield show_vectors, "the specification beside the reference library's results", (1 if is_all else 29,)
    paths = [
        os.path.join(SOURCES, name)
        for name in sorted(os.listdir(SOURCES))
        if name.startswith("x86-64") and name.endswith(".s")
    ]
    for path in paths:
        name = os.path.basename(path)[: -len(".s")]
        lengths = LENGTHS if is_all else sorted({*LENGTHS[::EACH], 1, 3, 4, 8, 9, 17, 129})
        for algorithm in ALGORITHMS:
            yield show, f"{name}: XXH{', '.join(algorithm)}: {len(lengths)} lengths to 240 bytes", (
                path,
                ("one_shots", *algorithm, lengths),
            )
        for hash_name in ("32", "64"):
            yield show, f"{name}: XXH{hash_name}: stripes from any accumulators", (path, ("plain_step", hash_name, 3))
        for hash_name in ("3-64", "3-128"):
            yield show, f"{name}: XXH{hash_name}: stripes, scramble and end from any accumulators", (
                path,
                ("xxh3_step", hash_name, 1200),
            )
        yield show, f"{name}: XXH3-64, default: blocks", (path, ("one_shots", "3-64", "default", [241, 1025, 2100]))
    for name, lines, task, reason in WRONG:
        yield refuse, f"a wrong {name}: {'; '.join(lines)}", (paths[0], name, lines, task, reason)


def main():
    options = argparse.ArgumentParser(usage=__doc__)
    options.add_argument("--all", action="store_true", help="run all cases")
    options.add_argument("--only", default="", help="run only the tasks with this word")
    options.add_argument("--jobs", type=int, default=2, help="number of processes")
    given, passed = options.parse_args(), 0
    tools.install_packages({"as": "binutils"})
    tools.install(set() if os.path.exists(DEBIAN) else {"python3-z3"})
    asked = [task for task in choose(given.all) if given.only in task[1]]
    with concurrent.futures.ProcessPoolExecutor(given.jobs) as pool:
        for found in [pool.submit(function, title, *arguments) for function, title, arguments in asked]:
            line, is_good = found.result()
            passed += is_good
            print(line, flush=True)
    print(f"{passed} passed, {len(asked) - passed} failed")
    return 1 if passed < len(asked) or not asked else 0
