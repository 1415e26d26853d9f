"""Tests that single-instruction changes of an assembly source are detected: another register, operand, number,
condition or shift, an instruction left out, or two neighbours swapped.

A change is tested by requests that run the instruction (queries.py). It is detected if the source's term differs from
the definition's, or if the source does something that no call may do. A crash of this program doesn't count as
detection.

An undetected change of the C library's sources fails if random calls of the built library find a result that it changes
(executions.py). How many of the detected changes these calls find shows what they are worth. Those of the cargo crate's
source are listed in equivalent_mutants with their reasons. A listed change that is detected fails. With --all an
unneeded reason fails too."""
import collections
import functools
import hashlib
import itertools
import os
import random
import tempfile
from typing import Callable, Iterator

from oracle.reasons import CRASH, UNNOTICED, Called, Reasons, is_fault
from oracle.symbolic_terms import definition, nodes, signed

from .executions import Library
from .instructions import PARTS, SETS, TABLE, VECTORS, letters
from .objects import TEXT, Immediate, Place, Register
from .one_shots import is_plain
from .queries import FOR_C, Beside, Call, are_long, by_induction, further, near, queries, reaching, takes_stripes
from .values import Cpu

FOLDER = os.path.join(os.path.dirname(os.path.abspath(__file__)), "equivalent_mutants")
LIMIT = 40_000  # instructions of a changed source's call
MOST, NEAR, FEWEST = 200, 40, 10  # shortest requests; generated requests near them; requests tested on symbols
SEEDS = 10  # random seeds with --all; one otherwise
TASKS = 4  # tasks into which the changes of the sources for ARM are split, with --all
IDLE = "nop", "prefetcht0", "vzeroupper", "ud2"
ALIKE = [
    ("je", "jne"),
    ("jb", "jbe"),
    ("ja", "jae"),
    ("jb", "jae"),
    ("sete", "setne"),
    ("cmovb", "cmovae"),
    ("add", "sub"),
    ("xor", "or"),
    ("and", "or"),
    ("inc", "dec"),
    ("neg", "not"),
    ("shl", "shr"),
    ("mul", "div"),
    ("movzbl", "movsbl"),
    ("imul", "add"),
    ("movq", "movl"),
    ("paddq", "psubq"),
    ("paddq", "pxor"),
    ("pxorq", "porq"),
    ("psrlq", "psllq"),
    ("punpcklqdq", "punpckhqdq"),
    ("pmuludq", "paddq"),
    ("pmulld", "paddd"),
    ("pslldq", "psrldq"),
]


# ---- outcome of a change


def outcome(cpu, instructions, asked, rng, near_to, more):
    """Returns the outcome of changed instructions: tests the requests that run them, requests near those, a few on
    symbols, and `more` queries. If only long requests run them, `more` comes first. A query that detects a change
    must accept the unchanged source: otherwise its result says nothing about the change."""
    before = [cpu.program.sections[x.section][x.at] for x in instructions]
    requests = [query for query in asked if query.request]
    few = rng.sample(requests[:MOST], min(FEWEST, len(requests[:MOST])))
    with_near = itertools.chain(requests, near_to(requests, rng=rng))
    by_requests = itertools.chain((query.twice for query in with_near), (query.over_symbols for query in few))
    ways = itertools.chain(*((more, by_requests) if are_long(requests) else (by_requests, more)))
    try:
        for x in instructions:
            cpu.change(x)
        message, ask = next(((message, ask) for ask in ways if (message := ask(cpu))), (UNNOTICED, None))
    finally:
        for x in before:
            cpu.change(x)
    refused = ask and ask(cpu)
    return f"{CRASH}: {ask.__self__.title} refuses the text as it is: {refused}" if refused else message


# ---- changes


def other_register(name, rng):
    if name in VECTORS:
        return f"{name[:3]}{(VECTORS[name] + rng.randrange(1, 16)) % 16}"
    whole, first, width = PARTS[name]
    return rng.choice(
        [other for other, (to, at, n) in PARTS.items() if (at, n) == (first, width) and to not in (whole, "rsp")]
        or [name]
    )


def with_operand(x, k, operand):
    return x._replace(operands=(*x.operands[:k], operand, *x.operands[k + 1 :]))


def of_operand(x, k, rng):
    """Yields replacements of one operand: (description, instruction)."""
    operand = x.operands[k]
    if isinstance(operand, Register):
        yield "register", with_operand(x, k, Register(other_register(operand.name, rng)))
    elif isinstance(operand, Immediate):
        yield "number", with_operand(x, k, Immediate(operand.value + rng.choice((1, -1))))
        if operand.value > 255:
            bit = 1 << rng.randrange(operand.value.bit_length())
            yield "number", with_operand(x, k, Immediate(operand.value ^ bit))
    elif operand.base == "rip":
        yield "constant", x._replace(target=(x.target[0], x.target[1] + 8))
    else:
        further = operand.displacement + rng.choice((1, -1, 8, -8, 16))
        yield "displacement", with_operand(x, k, operand._replace(displacement=further))
        if operand.base:
            yield "base", with_operand(x, k, operand._replace(base=other_register(operand.base, rng)))
        if operand.index:
            yield "scale", with_operand(x, k, operand._replace(scale=operand.scale % 8 * 2 or 1))


def of_instruction(x, rng):
    """Yields all changes of one instruction: (description, instructions)."""
    yield "left out", [x._replace(mnemonic="nop", operands=(), target=None)]
    for pair in ALIKE:
        for name, other in (pair, pair[::-1]):
            for prefix in ("", "v"):
                if x.mnemonic == prefix + name:
                    yield f"{prefix}{other}", [x._replace(mnemonic=prefix + other)]
    for k in range(len(x.operands)):
        yield from ((what, [changed]) for what, changed in of_operand(x, k, rng))


def swapped(x, y):
    """Yields the swap of two neighbours, if the second uses the result of the first."""
    is_plain = all(z.target is None and z.operands and z.mnemonic not in ("push", "pop") for z in (x, y))
    result = x.operands[-1] if is_plain else None
    if isinstance(result, Register) and result in y.operands[:-1] and result != y.operands[-1]:
        yield "after the next", [y._replace(at=x.at, end=x.end), x._replace(at=y.at, end=y.end)]


def is_form(x, name):
    return TABLE.get((x.mnemonic, letters(x)), (None,))[0] in SETS[name]


def has_encoding(x):
    """True if an instruction can hold its numbers: 32 bits, extended by their sign, except in movabs."""
    numbers = [signed(y.value, 64) for y in x.operands if isinstance(y, Immediate)]
    return x.mnemonic == "movabs" or all(-(1 << 31) <= number < 1 << 32 for number in numbers)


def anywhere(_):
    return True


def random_changes(cpu, is_selected, places, rng):
    """Yields (place, text, instructions) of random changes in some sections. The order depends only on functions and
    instructions: an unchanged function gets the same changes, whatever happens to the others."""
    salt, selected = rng.getrandbits(32), {place for place in places if is_selected(place[0])}
    for key, place in sorted((key, place) for key, place in keys(cpu, selected, salt) if place in selected):
        yield from changed_at(cpu, place, random.Random(key))


def keys(cpu, places, salt):
    """Yields (hash, place) of each instruction of the places' functions."""
    seen = collections.Counter()
    for section, at, x in (
        (section, at, x)
        for section in sorted({section for section, _ in places})
        for at, x in sorted(cpu.program.sections[section].items())
    ):
        what = f"{cpu.program.title_of(section)} {written(x)}"
        seen[what] += 1
        yield hashlib.sha256(f"{salt} {what} {seen[what]}".encode()).hexdigest(), (section, at)


def changed_at(cpu, place, rng):
    """Yields a random change at a place, or nothing. Instructions that compute nothing aren't changed."""
    section, at = place
    x = cpu.program.sections[section][at]
    if x.mnemonic in IDLE:
        return
    ways = list(of_instruction(x, rng))
    if x.end in cpu.program.sections[section]:
        ways += swapped(x, cpu.program.sections[section][x.end])
    what, instructions = rng.choice(ways)
    if all(is_form(y, cpu.name) and has_encoding(y) for y in instructions) and instructions != [x]:
        title = cpu.program.title_of(section)[len(TEXT) :]
        text = f"{title} {written(x)}: {what} {'; '.join(map(written, instructions))} (at {at:#x})"
        yield place, text, instructions


def written(x):
    """Returns an instruction as objdump prints it, without its address."""
    parts = []
    for y in x.operands:
        if isinstance(y, Place):
            index = f",%{y.index},{y.scale}" if y.index else ""
            parts.append(f"{y.displacement:#x}({'%' + y.base if y.base else ''}{index})")
        else:
            parts.append(f"%{y.name}" if isinstance(y, Register) else f"${y.value:#x}")
    parts += [f"{x.target[1]:#x}" if x.target[0] == x.section else x.target[0]] if x.target and not parts else []
    return f"{x.mnemonic} {','.join(parts)}".strip()


# ---- the task


def more_ways(cpu, reached, asked, entries, is_all, section, beside):
    """Yields further queries about a change in a section: calls without a request, inductions with --all, and further
    requests. A function that takes many stripes always gets inductions: its requests take long. If no request reaches
    the change, those of XXH32's and XXH64's streams are used."""
    requests = [query for query in reached if query.request] or [
        query for query in asked if query.request and query.request.cuts and is_plain(query.request.hash_name)
    ]
    yield from (query.over_symbols for query in reached if not query.request)
    if beside.updates and (is_all or takes_stripes(cpu.program, section)):
        yield from (query.over_symbols for query in by_induction(cpu.program, requests, section, beside.updates))
    yield from (query.twice for query in further(requests, entries, beside.shortest))
    yield from (Call(call).over_symbols for call in beside.more(cpu))


def noticed(
    name: str, make: Callable, count: int, is_all: bool, is_selected: Callable = anywhere, beside: Beside = FOR_C
) -> tuple:
    """Returns the number of tested changes of a source, the failures, and remarks. `is_selected` selects sections."""
    cpu = make()
    some = of_seeds(functools.partial(random_changes, cpu, is_selected), count, SEEDS if is_all else 1)
    if beside is FOR_C:
        return noticed_by_library(name, cpu, some, is_all)
    known = Reasons(os.path.join(FOLDER, f"{name}.txt"))
    texts, bad = noticed_of(cpu, some, known, is_all, beside)
    return len(texts), bad + [
        f"no change needs the reason of {pattern}" for pattern in (known.unused(texts) if is_all else ())
    ]


def noticed_by_library(name, cpu, changes, is_all):
    """The same for a source of the C library, which is built and called."""

    def call(_, after):
        return library.first_difference([cpu.program.sections[x.section][x.at] for x in after], after)

    with tempfile.TemporaryDirectory(prefix="machine-text-") as workdir:
        library = Library(name, cpu.program, os.path.join(workdir, "library"))
        return noticed_by_calls(cpu, changes, is_all, call)


def of_seeds(one: Callable[..., Iterator], count: int, seeds: int = 1) -> Callable[[list], Iterator]:
    """Returns a function of places, as `noticed_of` takes it: `count` changes of each of `seeds` random seeds."""
    return lambda places: itertools.chain.from_iterable(
        itertools.islice(one(places, random.Random(1 + number)), count) for number in range(seeds)
    )


def part_of(changes: Callable[..., Iterator], part: int) -> Callable[[list], Iterator]:
    """Returns a function of places that yields every TASKS-th change, starting at `part`."""
    return lambda places: itertools.islice(changes(places), part, None, TASKS)


def noticed_by_calls(cpu: Cpu, changes: Callable, is_all: bool, call: Callable) -> tuple[int, list[str], str]:
    """Returns the number of tested changes, messages for undetected ones that change a result, and the counts of calls.
    `call` returns the first difference of a change's text and instructions."""
    count, bad, called = 0, [], Called()
    for text, instructions, what in tested(cpu, changes, is_all, FOR_C):
        what = called.outcome(what, functools.partial(call, text, instructions))
        count, bad = count + 1, bad + [f"{what}: {text}"] * is_fault(what, False)
    return count, bad + called.faults(), called.summary()


def noticed_of(cpu, changes, known, is_all, beside=FOR_C):
    """Returns the texts of the tested changes, and the messages for undetected ones without a reason in `known`."""
    bad, texts = [], []
    for text, _, what in tested(cpu, changes, is_all, beside, known.of):
        has_reason = bool(known.of(text))
        texts.append(text)
        if is_fault(what, has_reason):
            bad.append(f"{what}{', and has a reason' if has_reason else ''}: {text}")
    return texts, bad


def tested(cpu, changes, is_all, beside, has_reason=lambda text: False):
    """Yields (text, instructions, outcome) of each change that `changes` draws from a source's places. Those with a
    reason are tested by fewer queries. The queries about a change don't depend on other changes."""
    nodes.forget()
    cpu.limit = LIMIT
    entries = definition.program().run()
    asked = queries(entries, is_all, beside.calls, cpu.library)
    found = reaching(cpu, asked)
    near_to = functools.partial(near, entries=entries, count=NEAR, shortest=beside.shortest)
    for place, text, instructions in changes(sorted(found)):
        reached = [query for k, query in enumerate(asked) if found[place] >> k & 1]
        more = () if has_reason(text) else more_ways(cpu, reached, asked, entries, is_all, place[0], beside)
        yield text, instructions, outcome(cpu, instructions, reached, random.Random(text), near_to, more)
