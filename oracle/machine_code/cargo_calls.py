"""Tests the refusals of the cargo crate's exports. calls.py tests those of the C library."""
import itertools
import re
from typing import Callable, Iterator

from oracle.symbolic_terms import Input, Value, at_most, given, is_natural, is_same_number, minus, plus, variable

from . import layouts
from .calls import LIMITS, callers_secret, expect, invalid_fields
from .cargo import FEW, LONGEST_WITHOUT, NO_STREAM, SHORTEST, TOO_SHORT, call_into, expect_code, export_name, write_of
from .memory import WordMemory
from .streams import contents, expect_same, new_state
from .values import Cpu, address, low

HASHES = "3-64", "3-128"
FEW_BYTES = 64                    # of a chunk, up to which a write has a separate path
CAPACITY = layouts.CORE.capacity


def interface(cpu: Cpu) -> int:
    """Tests that `interface` returns the number in the exports' names."""
    names = cpu.program.all_names()
    numbers = {int(found[1]) for name in names if (found := re.match(r"twox_rust_(\d+)_", name))}
    rax, _ = cpu.call("interface")
    expect_code("interface", low(rax, 32), *numbers)
    return 1


# ---- refused long inputs

def long_input(cpu, hash_name, message, n, secret, size, code):
    """Tests that a call with n bytes and a secret of `size` bytes returns a code, and the value 0."""
    name = f"{export_name(hash_name)}_long"
    actual, value = call_into(cpu, hash_name, name, message, n, secret, size)
    expect_code(name, actual, code)
    expect(name, value, 0)


def lengths_of(most, least=0):
    """Yields the lengths from `least` to `most` as (address or null, length) with facts: of any length, and null."""
    n = plus(variable(f"n{most}"), least)
    yield lambda name: address(Input(name, n)), n, [at_most(n, most)]
    if not least:
        yield lambda name: 0, 0, []


def refused_inputs(cpu, message, secret, code):
    """Tests all inputs and secrets of two spans of lengths: (least, most)."""
    count = 0
    for hash_name, (m, n, of_n), (s, size, of_size) in itertools.product(HASHES, [*lengths_of(*message)],
                                                                         [*lengths_of(*secret)]):
        with given(*of_n, *of_size):
            long_input(cpu, hash_name, m("m"), n, s("s"), size, code)
            count += 1
    return count


def few_bytes(cpu: Cpu) -> int:
    """Tests inputs of 0 to 240 bytes, with secrets of any length."""
    return refused_inputs(cpu, (LONGEST_WITHOUT,), (LIMITS[64],), FEW)


def secrets_of_long_inputs(cpu: Cpu) -> int:
    """Tests inputs of 241 bytes and more, with secrets of fewer than 136 bytes."""
    return refused_inputs(cpu, (LIMITS[64], LONGEST_WITHOUT + 1), (SHORTEST - 1,), TOO_SHORT)


# ---- refused chunks

def chunks(waiting: Value) -> Iterator[tuple[Callable, Value, list[Value]]]:
    """Yields the lengths of a chunk by the paths of a write: another one for a few bytes that fit in the buffer."""
    (place, n, facts), *few = lengths_of(FEW_BYTES)
    more = minus(plus(n, waiting), CAPACITY + 1)
    is_split = not is_same_number(waiting, 0) and is_natural(minus(CAPACITY, waiting))
    yield place, n, [*facts, *([at_most(plus(n, waiting), CAPACITY)] if is_split else [])]
    yield from [*([(place, n, [*facts, more])] if is_split else []), *few, *lengths_of(LIMITS[64], FEW_BYTES + 1)]


def refused(cpu: Cpu, hash_name: str, state: WordMemory, code: int, secret: tuple = (), waiting: Value = 0) -> None:
    """Tests that a write of any length returns a code and writes nothing."""
    name, before = write_of(hash_name), contents(state)
    for piece, n, facts in chunks(waiting):
        with given(*facts):
            rax, _ = cpu.call(name, address(state), *secret, piece("m"), n)
        expect_code(name, low(rax, 32), code)
        expect_same(name, before, state)


def not_marked(mark: int, stripe: int) -> Iterator[tuple[Value, list[Value]]]:
    """Yields words that aren't marks, with facts: all below the marks and above a stripe's marks, of either sign."""
    v, first, half = variable("v"), mark + stripe, 1 << 31
    yield v, [at_most(v, mark - 1)]
    yield first, []
    yield plus(v, first, 1), [at_most(v, half - first - 2)]
    yield plus(v, half), [at_most(v, mark - 1)]
    yield plus(v, half, mark), [at_most(v, LIMITS[32] - half - mark)]


def without_mark(cpu: Cpu) -> int:
    """Tests records of XXH32 with any content, and any word in the mark's place that isn't a mark."""
    layout, count = layouts.PLAIN["32"], 0
    for word, facts in not_marked(layout.first_mark, layout.capacity):
        with given(*facts):
            state = new_state(cpu, "32")
            state.store(layout.marked, 4, word)
            refused(cpu, "32", state, NO_STREAM)
            count += 1
    return count


def out_of_range(cpu: Cpu) -> int:
    """Tests streams of XXH3 with a secret of any length from 136 bytes on and fields that no call leaves."""
    count, (secret, valid) = 0, callers_secret()
    for fields, facts in invalid_fields(layouts.CORE, variable("q")):
        with given(*valid, *facts):
            state = new_state(cpu, "3-64")
            for at, value in fields:
                state.store(at, 8, value)
            refused(cpu, "3-64", state, NO_STREAM, (address(secret), secret.length),
                    dict(fields)[layouts.CORE.buffer_usage])
            count += 1
    return count


def secrets_of_streams(cpu: Cpu) -> int:
    """Tests secrets of fewer than 136 bytes, for streams with any content."""
    count = 0
    for secret, size, facts in lengths_of(SHORTEST - 1):
        with given(*facts):
            refused(cpu, "3-64", new_state(cpu, "3-64"), TOO_SHORT, (secret("s"), size))
            count += 1
    return count
