"""Tests of memory objects: which places a load or store may have, what bytes of stored values are, copies, fills, and
runs of an input's bytes. Each takes a random generator and raises Wrong."""
import itertools
from typing import Any

from oracle.machine_code import memory
from oracle.machine_code.memory import (
    ENTRY,
    STACK,
    Constants,
    Numbers,
    OnlyRead,
    Stack,
    WordMemory,
    copy,
    fill,
    is_apart,
    lie_apart,
)
from oracle.machine_code.stream_state import Source, State, source_of, union, united
from oracle.machine_code.values import address
from oracle.symbolic_terms import (
    RUNS,
    Input,
    Memory,
    Piece,
    Unsupported,
    at_most,
    given,
    in_order,
    is_inside,
    is_same,
    is_same_number,
    is_within,
    lifted,
    minus,
    nodes,
    operations,
    outside,
    plus,
    symbol,
    taken,
    times,
    variable,
)
from oracle.symbolic_terms import memory as symbolic_memory
from oracle.symbolic_terms.memory import Unset

from .values import expect, refuses, value_of


def places(_):
    """Tests the bounds of loads and stores, and that a store's offset is a number."""
    space: Any
    n = variable("n")
    for make in (lambda: Memory("space", 64), lambda: WordMemory("space", 64)):
        for at, size, holds in (
            (0, 8, True),
            (56, 8, True),
            (57, 8, False),
            (64, 1, False),
            (63, 1, True),
            (-1, 1, False),
            (-1, 2, False),
            (0, 32, True),
            (33, 32, False),
        ):
            space = make()
            if holds:
                space.store(at, size, 5)
                expect(space.load(at, size), 5, "a stored value")
            else:
                for ask in (
                    lambda: space.store(at, size, 5),
                    lambda: space.load(at, size),
                    lambda: space.fill(at, size, 5),
                    lambda: space.check(at, size),
                ):
                    refuses(ask, f"{size} bytes at {at}")
                expect(space.cells == {}, True, "a refused store")
        with given(at_most(n, 8)):
            for at in (n, plus(n, 3)):
                refuses(lambda: make().store(at, 8, 5), "a store at a symbolic offset")
    for at, size, length, holds in (
        (0, 0, 0, True),
        (0, 1, 0, False),
        (n, 0, n, True),
        (0, n, n, True),
        (n, n, times(2, n), True),
        (n, plus(n, 1), times(2, n), False),
        (minus(n, 1), 1, n, False),
        (5, minus(n, 5), n, True),
        (-1, n, n, False),
        (0, plus(n, 1), n, False),
    ):
        expect(is_inside(at, size, length), holds, f"{size} bytes at {at} of {length}")
    for first, end, low, high, holds in (
        (0, 5, 0, 5, True),
        (1, 5, 0, 5, True),
        (0, 4, 0, 5, True),
        (-1, 5, 0, 5, False),
        (0, 6, 0, 5, False),
        (n, plus(n, 3), n, plus(n, 3), True),
        (n, plus(n, 4), n, plus(n, 3), False),
        (minus(n, 1), n, n, plus(n, 3), False),
    ):
        expect(is_within(first, end, low, high), holds, f"{first} to {end} within {low} to {high}")
    stack = Stack()
    expect((stack.length, stack.alignment, stack.lowest, ENTRY % 16) == (STACK, 16, ENTRY, 0), True, "a stack")
    for at, size, holds in (
        (ENTRY - 8, 8, True),
        (ENTRY - 7, 8, False),
        (ENTRY, 1, False),
        (0, 8, True),
        (-8, 8, False),
        (n, 8, False),
    ):
        if holds:
            Stack().store(at, size, 5)
        else:
            refuses(lambda: Stack().store(at, size, 5), f"a store of {size} bytes at {at} of the stack")
    for space in (
        OnlyRead("o", 8, [(0, 8, 5)]),
        Constants("c", b"12345678", 8),
        Numbers("m", b"12345678"),
        Input("i", 8),
    ):
        refuses(lambda: space.store(0, 8, 5), f"a store to {space.name}")
    expect(
        Constants("c", b"12345678", 16).alignment == 16 and Constants("c", b"12", 1).load(1, 1) == ord("2"),
        True,
        "constants",
    )


def overlaps(rng):
    """Compares stores and loads that overlap with those of bytes, for each pair of places and sizes of two stores."""
    count: Any
    covered: Any
    data: Any
    for make in (Memory, WordMemory):
        for at, size, first, n in itertools.product((0, 3), (1, 8, 32), (0, 1, 7, 8), (1, 8, 32)):
            space, data = make("space", 64), [None] * 64
            for k, (place, count) in enumerate(((at, size), (first, n))):
                x = symbol(f"o{k}:{count}", 8 * count) if count <= 8 else rng.getrandbits(8 * count)
                space.store(place, count, x)
                data[place : place + count] = value_of(x).to_bytes(count, "little")
            for k in range(64):
                expect(space.has(k), data[k] is not None, "a stored byte")
                if data[k] is None:
                    refuses(lambda: space.load(k, 1), "a byte that was never stored", (Unset,))
                else:
                    expect(value_of(space.load(k, 1)), data[k], "a byte")
            covered = sorted({at, first})[0]
            for count in (2, 4, 8):
                if None not in data[covered : covered + count]:
                    expect(
                        value_of(space.load(covered, count)),
                        int.from_bytes(bytes(data[covered : covered + count]), "little"),
                        "bytes of two stores",
                    )
                else:
                    refuses(lambda: space.load(covered, count), "bytes that weren't all stored")
    space = Memory("space", 64, [(0, 8, 1), (8, 4, 2), (12, 1, 3), (32, 32, 4)])
    for at, n, found in (
        (0, 8, [0]),
        (7, 1, [0]),
        (7, 2, [0, 8]),
        (8, 1, [8]),
        (12, 1, [12]),
        (13, 1, []),
        (11, 3, [8, 12]),
        (63, 1, [32]),
        (31, 1, []),
        (31, 2, [32]),
    ):
        expect(space.cells_near(at, n) == found, True, f"cells near {at}")
        expect(space.cell_with(at) == (found[0] if found and found[0] <= at else None), True, f"the cell with {at}")


def bits_of_numbers(_):
    """Tests bytes of a stored polynomial, of an address, and of numbers beside each other."""
    n, space, x = variable("n"), WordMemory("space", 64, alignment=8), symbol("x64", 64)
    with given(at_most(n, 1 << 40)):
        word = symbol("n", 64)
        for at, size in itertools.product(range(8), (1, 2, 4, 8)):
            space.store(0, 8, n)
            space.store(8, 8, x)
            if at + size <= 8:
                found = space.load(at, size)
                for k in range(nodes.POINTS):
                    expect(
                        value_of(lifted(found), k) if not isinstance(found, int) else found,
                        word.values[k] >> 8 * at & (1 << 8 * size) - 1
                        if isinstance(found, nodes.Node) or size == 8 and at == 0
                        else 0,
                        f"{size} bytes at {at} of a number",
                    )
            else:
                found = space.load(at, size)
                whole = word.values[0] | x.values[0] << 64
                expect(
                    value_of(found),
                    whole >> 8 * at & (1 << 8 * size) - 1,
                    f"{size} bytes at {at} of a number and a term",
                )
        expect(is_same_number(space.load(0, 8), n), True, "a number")
        for k in range(8):
            space.store(16 + k, 1, space.load(k, 1))
        expect(is_same_number(space.load(16, 8), n), True, "a number from its bytes")
        space.store(24, 4, space.load(0, 4))
        expect(isinstance(space.load(24, 4), nodes.Node), True, "the lower half of a number")
    with given(at_most(n, 200)):
        space.store(0, 8, plus(times(256, n), 7))
        for at, size, found in (
            (0, 1, 7),
            (1, 1, n),
            (1, 7, n),
            (0, 2, plus(times(256, n), 7)),
            (2, 6, 0),
            (0, 8, plus(times(256, n), 7)),
        ):
            expect(is_same_number(space.load(at, size), found), True, f"{size} bytes at {at} of a number")
        space.store(3, 1, 9)
        expect(
            value_of(space.load(0, 4)),
            (256 * symbol("n", 64).values[0] + 7) % (1 << 24) | 9 << 24,
            "a number with another byte",
        )
    space.store(32, 8, address(space, 8))
    for at, size in ((32, 4), (33, 1), (28, 8), (36, 8)):
        space.store(24, 8, 1)
        space.store(40, 8, 2)
        refuses(lambda: space.load(at, size), "a part of an address")


def lost_addresses(_):
    """Tests that a byte stored over an address loses the others."""
    space = WordMemory("space", 64, alignment=8)
    space.store(32, 8, address(space, 8))
    space.store(33, 1, 5)
    refuses(lambda: space.load(32, 1), "a byte of a lost address")
    expect(space.load(33, 1), 5, "a byte over an address")
    refuses(lambda: WordMemory("w", 8, [(0, 8, 5)]).load(variable("n"), 1), "a load at a symbolic offset")


def spelled_numbers(_):
    """Tests that bytes of a number that are put together again are the number, if it fits in them."""
    n = variable("n")
    for most, size, is_number in (
        (255, 1, True),
        (256, 1, False),
        (65535, 2, True),
        (65536, 2, False),
        ((1 << 64) - 1, 8, True),
    ):
        with given(at_most(n, most)):
            found = memory.numbered(memory.spell(n, 8 * size))
            expect(is_same_number(found, n), is_number, f"{size} bytes of a number up to {most}")
            expect(
                is_number or value_of(found) == symbol("n", 64).values[0] % (1 << 8 * size), True, "bytes of a number"
            )
    with given(minus(n, 1), at_most(n, 300)):
        expect(
            value_of(memory.spell(minus(n, 1))) == (symbol("n", 64).values[0] - 1) % (1 << 64),
            True,
            "a number as a term",
        )
    x = symbol("x64", 64)
    for value in (5, x, address(Input("m", 9))):
        expect(memory.spell(value) is value and memory.numbered(value) is value, True, "another value")


def copied_bytes(_):
    """Tests copies within one object and between two, at each distance, and fills of each number of bytes."""
    for at, first, n, may_overlap in itertools.product((0, 8, 9, 16), (0, 8, 16), (0, 1, 8, 9, 16), (False, True)):
        space = WordMemory("space", 64, [(k, 1, k) for k in range(64)], alignment=8)
        data = [*range(64)]
        is_refused = not may_overlap and n and abs(at - first) < n
        ask = lambda: copy(address(space, at), address(space, first), n, may_overlap)
        if is_refused:
            refuses(ask, f"a copy of {n} bytes from {first} to {at}")
        else:
            ask()
            data[at : at + n] = data[first : first + n]
        expect([space.load(k, 1) for k in range(64)] == data, True, f"a copy of {n} bytes from {first} to {at}")
    for n, byte in itertools.product((0, 1, 7, 8, 9, 15, 17), (0, 5, 255)):
        space = WordMemory("space", 32, [(k, 1, 100 + k) for k in range(32)])
        fill(address(space, 3), byte, n)
        expect(
            [space.load(k, 1) for k in range(32)] == [byte if 3 <= k < 3 + n else 100 + k for k in range(32)],
            True,
            f"{n} filled bytes",
        )
    space, x, n = WordMemory("space", 32, [(0, 32, 5)]), symbol("x8", 8), variable("n")
    for byte, count in ((x, 8), (5, n), (x, n), (n, 8)):
        refuses(lambda: fill(address(space), byte, count), "a fill that isn't of numbers")
    refuses(lambda: fill(address(space, 30), 0, 3), "a fill behind the end")
    source = WordMemory("source", 32, [(0, 8, 1), (8, 1, 2), (10, 1, 3), (16, 8, address(space))])
    to = WordMemory("to", 64, [(k, 1, 9) for k in range(32)])
    copy(address(to), address(source), 24, False)
    expect(
        [*map(to.has, (7, 8, 9, 10, 11, 15, 24))] == [True, True, False, True, False, False, True],
        True,
        "copied bytes that are unset",
    )
    expect(to.load(16, 8).place()[0] is space and to.load(24, 1) == 9, True, "a copied address")
    for at, size in ((60, 8), (-1, 4)):
        refuses(lambda: copy(address(to, at), address(source), size, False), "a copy beyond the end")
    for n_bytes in (n, 8):
        with given(at_most(n, 8), minus(n, 1)):
            refuses(lambda: copy(address(to, n), address(source), n_bytes, False), "a copy to a symbolic place")
    with given(at_most(n, 8)):
        refuses(lambda: copy(address(to), address(source), n, False), "a copy of symbolic length")
    copy(5, 7, 0, False)


def places_apart(_):
    """Tests which places, objects and copies are apart, and which copies are runs."""
    n = variable("n")
    for a, b, size, holds in (
        (0, 8, 8, True),
        (8, 0, 8, True),
        (0, 7, 8, False),
        (7, 0, 8, False),
        (0, 0, 0, True),
        (n, plus(n, 8), 8, True),
        (plus(n, 8), n, 8, True),
        (n, plus(n, 7), 8, False),
        (0, n, n, True),
        (n, 0, n, True),
        (n, 1, n, False),
    ):
        expect(is_apart(a, b, size), holds, f"{size} bytes at {a} and {b}")
    expect([*taken(Memory("m", 9, [(0, 8, 5), (8, 1, 6)]), 0, 9)] == [(0, 8, 5), (8, 1, 6)], True, "bytes by 8")
    expect(
        [*taken(Memory("m", 19, [(3, 8, 5), (11, 8, 6)]), 3, 16)] == [(0, 8, 5), (8, 8, 6)],
        True,
        "bytes from a place on",
    )
    expect(memory.WordMemory("w", 9).keeps_runs(3, 5), False, "a copy of a number of bytes")
    for at, size in ((n, 5), (3, n), (n, n)):
        expect(memory.WordMemory("w", 9).keeps_runs(at, size), True, "a symbolic copy")
    for first, second, holds in (
        (WordMemory("a", 1), WordMemory("b", 1), True),
        (WordMemory("a", 1), Input("b", 1), True),
        (Input("a", 1), Stack(), True),
        (OnlyRead("a", 1), WordMemory("b", 1), True),
        (OnlyRead("a", 1), Input("b", 1), False),
        (Input("a", 1), Input("b", 1), False),
        (Constants("a", b"1", 1), OnlyRead("b", 1), False),
    ):
        expect(lie_apart(first, second), holds, "objects apart")


def windows(_):
    """Tests the windows of inputs: at the beginning, near a symbolic place, and of a chunk."""
    n = variable("n")
    longest, reach = symbolic_memory.LONGEST, symbolic_memory.REACH
    source = Input("m", plus(n, 1 << 20))
    for at, size, name, first in ((0, 8, "m", 0), (longest - 8, 8, "m", longest - 8)):
        whole, place = source.window(at, size)
        expect(whole.parts == (name,) and whole.width == 8 * longest and place == first, True, f"the window of {at}")
    with given(minus(n, 1 << 14), at_most(n, 1 << 30)):
        for at, size, base, first in (
            (n, 8, "n", reach),
            (plus(n, 5), 8, "n", reach + 5),
            (plus(n, -reach), 8, "n", 0),
            (plus(n, reach - 8), 8, "n", 2 * reach - 8),
        ):
            whole, place = source.window(at, size)
            expect(
                whole.parts == (f"m@{base}",) and whole.width == 16 * reach and place == first,
                True,
                f"the window of {at}",
            )
            expect(is_same(source.load(at, size), operations.bits(whole, 8 * first, 8 * size)), True, "a load")
        for at, size in ((plus(n, -reach - 1), 8), (plus(n, reach - 7), 8), (longest - 7, 8), (longest, 1)):
            refuses(lambda: source.window(at, size), f"the window of {at}", (Unsupported,))
        for at, size in ((plus(n, 1 << 20), 1), (-1, 1), (plus(n, (1 << 20) - 7), 8)):
            refuses(lambda: source.load(at, size), f"{size} bytes at {at}", (Unsupported,))
        piece = Piece(source, n, 100)
        for at, size, holds in ((0, 8, True), (92, 8, True), (93, 8, False), (-1, 1, False), (100, 1, False)):
            if holds:
                expect(is_same(piece.load(at, size), source.load(plus(n, at), size)), True, "bytes of a chunk")
            else:
                refuses(lambda: piece.load(at, size), f"{size} bytes at {at} of a chunk", (Unsupported,))
        expect(
            piece.origin(7)[0] is source
            and is_same_number(piece.origin(7)[1], plus(n, 7))
            and source.origin(7) == (source, 7),
            True,
            "origins",
        )
        expect(piece.name == "m" and piece.length == 100, True, "a chunk")
    numbers = Numbers("m", bytes(range(16)))
    for at, size, holds in ((0, 16, True), (8, 8, True), (9, 8, False), (16, 1, False), (-1, 1, False)):
        if holds:
            expect(numbers.load(at, size), int.from_bytes(bytes(range(16))[at : at + size], "little"), "numbers")
        else:
            refuses(lambda: numbers.load(at, size), f"{size} bytes at {at} of numbers")


def sources_of_values(_):
    """Tests which values are known to be bytes of an input."""
    source, other, n = Source("m", 4000), Input("o", 4000), variable("n")
    for at, size in ((0, 8), (3, 4), (100, 32)):
        found, first = source_of(source.load(at, size), size)
        expect(found is source and first == at, True, f"{size} bytes at {at}")
    with given(minus(n, 100), at_most(n, 1000)):
        for at in (n, plus(n, 3), plus(n, -5)):
            found, first = source_of(source.load(at, 8), 8)
            expect(found is source and is_same_number(first, at), True, f"bytes at {at}")
    whole = source.load(8, 8)
    for value, size in (
        (5, 8),
        (n, 8),
        (symbol("x64", 64), 8),
        (other.load(0, 8), 8),
        (whole, 4),
        (whole, 16),
        (operations.xor(whole, 1), 8),
        (operations.xor(whole, source.load(16, 8)), 8),
        (operations.bits(whole, 4, 32), 4),
        (operations.add_at(64, (1, whole), (1, 1)), 8),
        (operations.side_by_side((whole, 64), (source.load(24, 8), 64)), 16),
        (operations.multiply_at(64, whole, whole), 8),
        (operations.side_by_side((operations.bits(whole, 0, 32), 32), (0, 1), (operations.bits(whole, 0, 31), 31)), 8),
        (address(source), 8),
    ):
        refuses(lambda: source_of(value, size), f"{size} bytes of {value}", (Unsupported,))


def runs_of_states(_):
    """Tests which stores and copies of a state are runs, and what remains beside them."""
    source, n, place = Source("m", 4000), variable("n"), Input("p", 4000)
    expect(RUNS in State("s", 64, [], [], (8, 40)).cells, False, "a state without runs")
    first = State("s", 64, [(0, 8, 5)], [(8, 16, source, 3)], (8, 40))
    expect(
        first.runs() == ((8, 16, source, 3),) and first.buffer == (8, 40) and first.alignment == 8,
        True,
        "a state with a run",
    )
    with given(minus(n, 8), at_most(n, 32)):
        for at, size, holds in (
            (8, 8, True),
            (32, 8, True),
            (33, 8, False),
            (7, 8, False),
            (0, 8, False),
            (40, 8, False),
            (n, 8, True),
            (8, n, True),
            (0, n, True),
            (8, 32, True),
            (8, 33, False),
        ):
            expect(first.keeps_runs(at, size), holds, f"{size} bytes at {at} as a run")
    first.store(16, 8, source.load(100, 8))
    expect(first.has_run((16, 24, source, 84)) and first.load(0, 8) == 5, True, "a stored run")
    first.store(0, 8, 6)
    expect(first.load(0, 8), 6, "a store outside of the buffer")
    refuses(lambda: first.store(16, 8, 7), "a store to the buffer that is no run", (Unsupported,))
    for at, size, other, begin in (
        (8, 4, WordMemory("w", 8, [(0, 8, 1)]), 0),
        (8, 4, place, 3997),
        (8, 4, place, -1),
        (62, 4, place, 0),
    ):
        refuses(lambda: first.take(at, size, other, begin), "a copy that a state can't take", (Unsupported,))
    first.take(8, 4, place, 3996)
    expect(
        first.has_run((8, 12, place, 3988))
        and not first.has_run((8, 16, source, 3))
        and first.has_run((12, 16, source, 3)),
        True,
        "a copy over a run",
    )
    first.take(12, 4, Piece(source, 200, 100), 5)
    expect(first.has_run((12, 16, source, 193)), True, "a copy of a chunk")
    for at, size, left in ((0, 8, False), (8, 8, True), (4, 8, False), (2, 4, False), (48, 8, True), (0, 0, True)):
        state = State("s", 64, [(0, 8, 5), (56, 8, 9)], [], (8, 56))
        state.put_run(at, size, source, 0)
        expect(0 in state.cells, left, f"a cell beside {size} bytes at {at}")
        expect(56 in state.cells, True, "another cell")
    with given(minus(n, 8), at_most(n, 48)):
        state = State("s", 64, [(0, 8, 5), (8, 8, 6), (56, 8, 9)], [], (8, 56))
        state.put_run(8, n, source, 0)
        expect([at for at in state.cells if at != RUNS] == [0, 56], True, "cells beside a run of symbolic length")
        state.put_run(plus(n, 8), 8, source, n)
        expect(state.has_run((8, plus(n, 16), source, -8)), True, "a run that goes on")
        refuses(lambda: state.put_run(plus(n, 9), 8, source, 0), "a run behind the end", (Unsupported,))
        refuses(lambda: state.put_run(-1, 8, source, 0), "a run before the beginning", (Unsupported,))


def unions(_):
    """Tests which spans touch or overlap, and their unions."""
    expected: Any
    found: Any
    n = variable("n")
    with given(minus(n, 4), at_most(n, 8)):
        for a, b, whole in (
            ((0, 4), (4, 8), (0, 8)),
            ((0, 4), (5, 8), None),
            ((4, 8), (0, 4), (0, 8)),
            ((0, 8), (2, 4), (0, 8)),
            ((2, 4), (0, 8), (0, 8)),
            ((0, n), (4, 8), (0, 8)),
            ((0, n), (9, 12), None),
            ((0, n), (n, 12), (0, 12)),
            ((0, 3), (n, 12), None),
            ((n, 12), (0, n), (0, 12)),
            ((0, 5), (n, 12), None),
            ((0, 5), (5, n), None),
            ((n, plus(n, 4)), (6, 9), None),
        ):
            found = union(a, b)
            expect(
                found is None if whole is None else found is not None and all(map(is_same_number, found, whole)),
                True,
                f"the union of {a} and {b}",
            )
        for spans, expected in (
            ([(0, 4), (8, 12), (4, 8)], [(0, 12)]),
            ([(0, 4), (8, 12)], [(0, 4), (8, 12)]),
            ([(0, 2), (2, 4), (6, 8), (8, 9)], [(0, 4), (6, 9)]),
            ([(0, n), (n, 9)], [(0, 9)]),
            ([], []),
        ):
            found = united(spans)
            expect(
                len(found) == len(expected)
                and all(
                    all(map(is_same_number, one, other))
                    for one, other in zip(sorted(found, key=repr), sorted(expected, key=repr))
                ),
                True,
                f"united spans: {found}",
            )
        expect(
            all(map(is_same_number, in_order(n, 9), (n, 9))) and all(map(is_same_number, in_order(9, n), (n, 9))),
            True,
            "the order of two",
        )
        for a, b in ((n, 5), (5, n), (n, 7)):
            refuses(lambda: in_order(a, b), "an undecided order", (Unsupported,))


def runs_of_memory(_):
    """Tests runs of a memory object that overlap, touch, or are of another input or place."""
    source, other, n = Input("m", 4000), Input("o", 4000), variable("n")
    for at, size, what, place, runs in (
        (16, 8, source, 16, [(8, 24, source, 0)]),
        (16, 8, source, 17, [(8, 16, source, 0), (16, 24, source, 1)]),
        (16, 8, other, 16, [(8, 16, source, 0), (16, 24, other, 0)]),
        (24, 8, source, 24, [(8, 16, source, 0), (24, 32, source, 0)]),
        (0, 8, source, 0, [(0, 16, source, 0)]),
        (10, 2, other, 0, [(8, 10, source, 0), (12, 16, source, 0), (10, 12, other, -10)]),
        (8, 8, other, 0, [(8, 16, other, -8)]),
        (0, 9, source, 0, [(0, 16, source, 0)]),
        (9, 2, source, 9, [(8, 16, source, 0)]),
        (0, 20, source, 0, [(0, 20, source, 0)]),
        (0, 7, source, 0, [(8, 16, source, 0), (0, 7, source, 0)]),
    ):
        for make in (lambda: Memory("space", 64), lambda: State("space", 64, [], [], (0, 64))):
            space = make()
            space.put_run(8, 8, source, 8)
            space.put_run(at, size, what, place)
            expect(
                sorted(map(repr, space.runs())) == sorted(map(repr, runs)),
                True,
                f"runs after {size} bytes at {at}: {space.runs()}",
            )
    space = Memory("space", 64, [(0, 8, 1)], [(8, 16, source, 0)])
    for at, size, holds in ((0, 8, True), (16, 8, True), (8, 1, False), (15, 1, False), (7, 2, False)):
        if holds:
            space.store(at, size, 5)
        else:
            refuses(lambda: space.store(at, size, 5), f"a store of {size} bytes at {at} into a run", (Unsupported,))
    for at, size, holds in ((8, 8, True), (8, 9, False), (7, 2, False), (15, 1, True), (16, 1, False)):
        if holds:
            expect(space.origin(at, size) == (source, at), True, "the origin of bytes")
            expect(is_same(space.load(at, size), source.load(at, size)), True, "bytes of a run")
        else:
            refuses(lambda: space.origin(at, size), f"the origin of {size} bytes at {at}", (Unset,))
    for run, holds in (
        ((8, 16, source, 0), True),
        ((9, 15, source, 0), True),
        ((8, 17, source, 0), False),
        ((7, 16, source, 0), False),
        ((8, 16, other, 0), False),
        ((8, 16, source, 1), False),
    ):
        expect(space.has_run(run), holds, f"the run {run}")
    expect(
        Memory("m", 8).runs() == () and RUNS not in Memory("m", 8).cells and Memory("m", 8).residue == 0,
        True,
        "memory without runs",
    )
    with given(minus(n, 4), at_most(n, 8)):
        for at, end, left in (
            (50, 60, [(0, plus(n, 40))]),
            (2, 4, [(0, 2), (4, plus(n, 40))]),
            (0, 4, [(4, plus(n, 40))]),
            (45, 60, []),
        ):
            found = outside((0, plus(n, 40), source, 0), at, end)
            expect(repr([part[:2] for part in found]) == repr(left), True, f"the rest of a run beside {at}: {found}")


ALL = [
    places,
    overlaps,
    bits_of_numbers,
    lost_addresses,
    spelled_numbers,
    copied_bytes,
    places_apart,
    windows,
    sources_of_values,
    runs_of_states,
    unions,
    runs_of_memory,
]
