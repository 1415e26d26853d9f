"""Tests the layouts of states in memory, bytes that become unset, and calls that reset a state. Each takes a random
generator, which it doesn't use, and raises Wrong."""

import types
import unittest.mock
from typing import Any

from oracle.machine_code import cargo_exports, layouts, streams, xxh3_states
from oracle.machine_code.memory import WordMemory
from oracle.machine_code.wasm.layouts import PLAIN_RECORDS, RECORD
from oracle.symbolic_terms import LONGEST, Memory, Request, is_natural, minus, nodes, operations, polynomials, symbol

from . import processors
from .values import expect, value_of

patched = unittest.mock.patch.object
WORD = 8
# The sizes of the fields of XXH3's layouts, except the buffer, the secret and the accumulators.
FIELDS = "current_stripe", "count", "buffer_usage", "total_bytes", "mark", "seed", "secret_length", "address", "seeds"


def fields_of_xxh3(layout):
    """Yields (offset, bytes) of each field of a layout of XXH3."""
    yield layout.accumulator, 8 * WORD
    if layout.capacity:
        yield layout.buffer, layout.capacity
    if hasattr(layout, "secret"):
        yield layout.secret, layouts.OWN
    yield from ((getattr(layout, name), WORD) for name in FIELDS if hasattr(layout, name))


def fields_of_plain(name, layout, marked):
    """Yields (offset, bytes) of each field of a layout of XXH32 or XXH64, with so many bytes of a mark."""
    size = int(name) // 8
    yield from ((at, size) for at in layout.accumulators)
    yield from ((layout.seed, size), (layout.total, WORD), (layout.buffer, 4 * size), (layout.marked, marked))


def partitions(_):
    """Tests that the fields of each layout are aligned and fill it, except for 4 bytes before an aligned last word."""
    found = [
        (f"XXH3 {k}", one, [*fields_of_xxh3(one)])
        for k, one in enumerate((layouts.STATE, layouts.CORE, RECORD, layouts.TAKEN))
    ]
    found += [(f"XXH{name}", one, [*fields_of_plain(name, one, int(name) // 8)]) for name, one in layouts.PLAIN.items()]
    found += [
        (f"a record of XXH{name}", one, [*fields_of_plain(name, one, WORD)]) for name, one in PLAIN_RECORDS.items()
    ]
    for title, layout, fields in found:
        end = 0
        for at, size in sorted(fields):
            gap = 4 if title == "a record of XXH32" and at == layout.marked else 0
            expect(at, end + gap, f"the offset of {size} bytes of {title}")
            expect(at % min(size, 4), 0, f"the alignment of {title}")
            end = at + size
        expect(layout.size, end, f"the size of {title}")
    for name, layout in {**layouts.PLAIN, **PLAIN_RECORDS}.items():
        expect(layout.capacity, int(name) // 2, f"the bytes of a stripe of XXH{name}")
    for known in layouts.PLAIN, PLAIN_RECORDS:
        expect({*known} == {"32", "64"}, True, "hashes")
    marks = [*layouts.OWN_MARKS, *layouts.CALLERS_MARKS]
    expect(len({*marks}) == 4 and 0 not in marks and max(marks) < 1 << 64, True, "the marks")


def unset_bytes(_):
    """Tests that each byte that is cleared becomes unset, and that all others keep their values."""
    word = symbol("word64", 64)
    for memory_type in (Memory, WordMemory):
        for at, n in ((0, 8), (8, 8), (10, 4), (8, 1), (15, 1), (6, 4), (0, 24), (3, 18), (16, 8)):
            memory = memory_type("m", 24, [(0, 8, word), (8, 8, 0x1122334455667788), (16, 4, 7), (20, 1, 9)])
            before = {k: memory.load(k, 1) for k in range(21)}
            memory.clear(at, n)
            for k in range(21):
                is_cleared = at <= k < at + n
                expect(memory.has(k), not is_cleared, f"byte {k} after {n} at {at} are cleared")
                for point in range(nodes.POINTS) if not is_cleared else ():
                    expect(value_of(memory.load(k, 1), point), value_of(before[k], point), f"byte {k} of {n} at {at}")


def joined_runs(_):
    """Tests sums of bits of one value with a gap between them, whose coefficients would continue each other."""
    x, y = symbol("x64", 64), symbol("y64", 64)
    for first, n, next_one, m in ((0, 8, 16, 8), (0, 8, 8, 8), (4, 8, 12, 20), (4, 8, 13, 20)):
        parts = (1, operations.bits(x, first, n)), (1 << n, operations.bits(x, next_one, m)), (1, y)
        found = operations.add_at(64, *parts)
        for k in range(nodes.POINTS):
            expected = sum(c * value_of(part, k) for c, part in parts) % (1 << 64)
            expect(value_of(found, k), expected, f"{n} bits at {first} and {m} at {next_one}")


def resets(_):
    """Tests the call that resets a state with the caller's secret: its address in the state may be any word."""
    called = []
    cpu = types.SimpleNamespace(call=lambda *of: called.append(of), fresh=lambda name: ("any word", name))
    for variant, end in (("secret", ""), ("both", "_and_seed")):
        for size, is_callers in ((layouts.OWN, False), (200, True)):
            state: Any = WordMemory("state", 576, alignment=8)
            request = Request("3-64", variant, 300, size)
            streams.reset(cpu, request, state)
            name, place, secret, length, word, *seed = called.pop()
            expect(name == f"twox_c_reset_xxh3_secret{end}" and place.place() == (state, 0), True, "the call")
            expect(secret.place() == (request.secret, 0) and length == size, True, "the secret of a call")
            expect(word[0] == "any word" and len(seed) == (variant == "both"), True, "the address in a state")
            expect(state.secret is request.secret if is_callers else state.secret is None, True, "the caller's secret")


def shared_functions(_):
    """Tests that a function which calls another library's is shared, and one that calls a changed function isn't."""

    def program(body, **targets):
        sections = {f".text.{name}": {0: processors.instruction("jmp", target=(to, 0))} for name, to in targets.items()}
        return types.SimpleNamespace(
            sections=sections,
            heads={name: name for name in sections},
            constants={},
            functions={name: (f".text.{name}", 0) for name in targets},
            object=types.SimpleNamespace(body=lambda name: body if name == ".text.h" else name.encode()),
        )

    targets = {"f": "memcpy", "g": ".text.h", "h": "memset", "i": ".text.f"}
    first = program(b"h", **targets)
    expect(cargo_exports.shared(first, program(b"h", **targets)) == {*"fghi"}, True, "the same functions")
    expect(cargo_exports.shared(first, program(b"other", **targets)) == {*"fi"}, True, "functions with another callee")
    lacking = {name: to for name, to in targets.items() if name != "f"}
    expect(cargo_exports.shared(first, program(b"h", **lacking)) == {*"gh"}, True, "functions without their callee")


def lengths_of_messages(_):
    """Tests that a proof of a chunk that doesn't fit is for messages of at most 2 ^ 64 - 1 bytes."""
    proof: Any = xxh3_states.CallersSecret(processors.new_processor())
    case, seen = next(iter(proof.long_pieces())), []

    def run(*_, **__):
        seen.append(is_natural(minus(LONGEST, proof.source.length)))
        raise InterruptedError

    for is_lost in (False, True):
        with patched(proof, "run", run, create=True):
            for one in ([*proof.long_pieces()][-1], case)[: 1 if is_lost else 2]:
                try:
                    proof.long_update(*one, is_lost)
                except InterruptedError:
                    pass
    expect(seen == [True] * 3, True, "the lengths of messages")
    expect(polynomials.facts == [], True, "facts that remain")


ALL = [partitions, unset_bytes, joined_runs, resets, shared_functions, lengths_of_messages]
