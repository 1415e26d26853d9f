"""Tests the exports other than one-shots and streams: canonical forms, comparisons, copies, generated secrets,
refusals. Each function runs a processor, returns its number of cases, and raises an exception on any mismatch."""
import functools
import itertools
import random
from typing import Iterator

from oracle.symbolic_terms import (LONGEST_SECRET, Bytes, Input, NotShown, Request, Value, at_most, definition, given,
                                   is_same, minus, nodes, plus, symbol, times, variable)

from . import layouts, one_shots, streams
from .memory import Numbers, OnlyRead, WordMemory
from .streams import ERROR, OK, contents, digest, expect_answer, expect_same, new_state, reset, update
from .values import Cpu, address, arithmetic, bits, low

WIDTHS = {"XXH32": 32, "XXH64": 64, "XXH128": 128}
AT, SHORTEST = layouts.STATE, 136       # the layout of XXH3's states; bytes of a secret
# A message and a secret in one memory object: the offset and length of each.
ONE_PLACE = [(0, 136, 0, 136), (0, 300, 0, 192), (64, 240, 0, 136), (0, 1100, 8, 200), (1, 17, 0, 136),
             (130, 16, 0, 136), (100, 700, 36, 143), (0, 129, 128, 136)]
MOST_NODES = 500_000                    # between two cases
LIMITS = {32: (1 << 32) - 1, 64: (1 << 64) - 1}


def expect(what: str, ours: Value, theirs: Value) -> None:
    if not is_same(ours, theirs):
        raise NotShown(f"{what}: another value")


# ---- canonical forms and comparisons

def parts_of(width, name):
    """Returns a symbolic hash as the registers that pass it: one of up to 64 bits, or two."""
    return [(symbol(f"{name}{k} of {width}", min(width, 64)), min(width, 64)) for k in range(max(1, width // 64))]


def canonical_forms(cpu: Cpu) -> int:
    """Tests the conversion of a hash to big-endian bytes and back. The bytes are unaligned."""
    for name, width in WIDTHS.items():
        parts, size = parts_of(width, "hash"), width // 8
        of_hash, source = WordMemory("canonical", size, alignment=1), Input("canonical", size)
        cpu.call(f"{name}_canonicalFromHash", address(of_hash), *parts)
        registers = cpu.call(f"{name}_hashFromCanonical", address(source))
        for k in range(size):
            at = 8 * (size - 1 - k)
            expect(f"{name}_canonicalFromHash", of_hash.load(k, 1), bits(parts[at // 64][0], at % 64, 8))
            expect(f"{name}_hashFromCanonical", bits(registers[at // 64], at % 64, 8), source.load(k, 1))
    return 2 * len(WIDTHS)


def is_equal(cpu: Cpu) -> int:
    """Tests equal hashes, and hashes that differ in the low word, in the high word, or in both."""
    low_word, high_word = symbol("low", 64), symbol("high", 64)
    for differs in ((), (0,), (1,), (0, 1)):
        cpu.not_zero = [symbol(f"difference{k}", 64) for k in differs]
        other = [arithmetic("xor", 64, word, symbol(f"difference{k}", 64)) if k in differs else word
                 for k, word in enumerate((low_word, high_word))]
        rax, _ = cpu.call("XXH128_isEqual", low_word, high_word, *other)
        expect("XXH128_isEqual", low(rax, 32), int(not differs))
    return 4


def compare(cpu: Cpu) -> int:
    """Tests each word of the first hash above, equal to, and below the second hash's word."""
    order = {1: 1, 0: 0, -1: LIMITS[32]}
    for high, under in itertools.product(order, order):
        a, b, more, rest = (variable(name) for name in ("a", "b", "more", "less"))
        with given(at_most(plus(a, more, 1), LIMITS[64]), at_most(plus(b, rest, 1), LIMITS[64])):
            pairs = [(plus(x, d, 1) if side > 0 else x, plus(x, d, 1) if side < 0 else x)
                     for x, d, side in ((b, rest, under), (a, more, high))]
            first, second = (OnlyRead(name, 16, [(8 * k, 8, pairs[k][j]) for k in (0, 1)], alignment=8)
                             for j, name in enumerate(("first", "second")))
            rax, _ = cpu.call("XXH128_cmp", address(first), address(second))
        expect("XXH128_cmp", low(rax, 32), order[high or under])
    return len(order) ** 2


def compare_in_one_place(cpu: Cpu) -> int:
    """Tests a hash against itself, and two hashes that overlap in one word, for each order of the three values."""
    order, count = {1: 1, 0: 0, -1: LIMITS[32]}, 0
    a, d, e = (variable(name) for name in ("a", "d", "e"))
    values = a, plus(a, d, 1), plus(a, d, e, 2)
    for ranks in itertools.product(range(3), repeat=3):
        with given(at_most(values[2], LIMITS[64])):
            hashes = OnlyRead("hashes", 24, [(8 * k, 8, values[rank]) for k, rank in enumerate(ranks)], alignment=8)
            for i, j in itertools.product((0, 1), repeat=2):
                rax, _ = cpu.call("XXH128_cmp", address(hashes, 8 * i), address(hashes, 8 * j))
                above = ranks[i + 1] - ranks[j + 1] or ranks[i] - ranks[j]
                expect("XXH128_cmp of hashes in one place", low(rax, 32), order[(above > 0) - (above < 0)])
                count += 1
    return count


def version(cpu: Cpu) -> int:
    rax, _ = cpu.call("XXH_versionNumber")
    expect("XXH_versionNumber", low(rax, 32), 801)
    return 1


# ---- states

def copies(cpu: Cpu) -> int:
    """Tests that a copy has all bytes of its original, and that the original is unchanged."""
    for hash_name in ("32", "64", "3-64"):
        original, other = new_state(cpu, hash_name), new_state(cpu, hash_name)
        other.name, before = "copy", contents(original)
        cpu.call(f"XXH{streams.state_name(hash_name)}_copyState", address(other), address(original))
        expect_same("a copy", before, original)
        expect_same("a copy of another value", before, other)
    return 3


def mark_of(hash_name):
    """Returns the offset and the bytes of the mark of a state."""
    return (layouts.PLAIN[hash_name].marked, 4) if one_shots.is_plain(hash_name) else (AT.mark, 8)


def forgotten(cpu: Cpu) -> int:
    """Tests that a freed state is refused, also with a caller's secret, and that `forget` changes only the mark."""
    for hash_name in ("32", "64", "3-64", "3-128"):
        state, (at, n) = new_state(cpu, hash_name), mark_of(hash_name)
        expect_answer(reset(cpu, Request(hash_name, "seed" if one_shots.is_plain(hash_name) else "default", 0), state),
                      OK)
        before = contents(state, 4)
        cpu.call(f"twox_c_forget_xxh{streams.state_name(hash_name)}", address(state))
        before[at // 4:(at + n) // 4] = contents(state, 4)[at // 4:(at + n) // 4]
        expect_same("forgetting", before, state, 4)
        refused(cpu, hash_name, state)
        if not one_shots.is_plain(hash_name):
            secret, facts = callers_secret()
            with given(*facts):
                refused(cpu, hash_name, state, secret)
    return 6


def callers_secret() -> tuple[Input, list[Value]]:
    """Returns a secret of any length that isn't too short, with the facts of this length."""
    length = plus(64, times(8, variable("q")), variable("u"))
    return Input("s", length), [at_most(variable("u"), 7), minus(variable("q"), 9), at_most(length, LONGEST_SECRET)]


def refused(cpu: Cpu, hash_name: str, state: WordMemory, secret: Input | None = None) -> None:
    """Tests that an update of any length and a digest of memory without a valid state return an error and 0, and change
    nothing. With a secret these are the calls for a state with a secret of the caller."""
    before, n, state.secret = contents(state), variable("n"), secret
    with given(at_most(n, LIMITS[64])):
        for piece in (Input("m", n), None):
            expect_answer(update(cpu, hash_name, state, piece), ERROR)
            expect_same("a refused update", before, state)
    expect("a refused digest", digest(cpu, hash_name, state), 0)


def forms():
    """Yields the forms of states of XXH3: hash, marks, the caller's secret or None, facts, and a block's stripes."""
    for hash_name in ("3-64", "3-128"):
        yield hash_name, layouts.OWN_MARKS, None, [], 16
        yield hash_name, layouts.CALLERS_MARKS, *callers_secret(), variable("q")


def without_mark(cpu: Cpu) -> int:
    """Tests memory with any content, and words that aren't a mark in its place: below the first, between, above."""
    count, v = 0, variable("v")
    plain = [(name, [(at.first_mark, at.capacity)], None, []) for name, at in layouts.PLAIN.items()]
    for hash_name, marks, secret, facts in [*plain, *((name, [(mark, 1) for mark in sorted(marks)], secret, facts)
                                                      for name, marks, secret, facts, _ in forms())]:
        (at, n), first = mark_of(hash_name), 0
        for mark, some in [*marks, (1 << 8 * n, 0)]:
            with given(at_most(v, mark - first - 1), *facts):
                state = new_state(cpu, hash_name)
                state.store(at, n, plus(v, first))
                refused(cpu, hash_name, state, secret)
            first, count = mark + some, count + 1
    return count


def invalid_fields(at: layouts.Layout, q: Value) -> Iterator[tuple[list[tuple[int, Value]], list[Value]]]:
    """Yields the invalid fields of streams of XXH3 of a layout, with q stripes in a block: (offset, value), .., with
    facts: a position behind the secret's end, more buffered bytes than the buffer holds, or none although the total
    isn't 0. All other fields are any words."""
    v, w, most, capacity = variable("v"), variable("w"), LIMITS[64], at.capacity
    usage, total = at.buffer_usage, at.total_bytes
    places = [(False, v, [minus(q, plus(v, 1))]), (True, plus(v, q), [at_most(plus(v, q), most)])]
    waiting = [(False, [(usage, 0), (total, 0)], []), (True, [(usage, 0), (total, plus(w, 1))], [at_most(w, most - 1)]),
               (False, [(usage, plus(w, 1))], [at_most(w, capacity - 2)]), (False, [(usage, capacity)], []),
               (True, [(usage, plus(w, capacity + 1))], [at_most(w, most - capacity - 1)])]
    for (is_behind, place, of_place), (is_wrong, fields, of_fields) in itertools.product(places, waiting):
        if is_behind or is_wrong:
            yield [(at.current_stripe, place), *fields], [*of_place, *of_fields]


def out_of_range(cpu: Cpu) -> int:
    """Tests states of XXH3 with a mark and fields that no call leaves, and secrets of the caller that are too short."""
    count, v = 0, variable("v")
    for hash_name, marks, secret, of_secret, q in forms():
        asked = [(secret, fields, [*of_secret, *facts]) for fields, facts in invalid_fields(AT, q)]
        if secret:
            asked += [(Input("s", v), [], [at_most(v, SHORTEST - 1)])]
        for mark, (given_secret, fields, facts) in itertools.product(marks, asked):
            with given(*facts):
                state = new_state(cpu, hash_name)
                for at, value in [(AT.mark, mark), *fields]:
                    state.store(at, 8, value)
                refused(cpu, hash_name, state, given_secret)
                count += 1
    return count


def refused_resets(cpu: Cpu) -> int:
    """Tests that a reset refuses a secret of each length that is too short. The state stays unchanged."""
    for variant in ("secret", "both"):
        with given(at_most(variable("v"), SHORTEST - 1)):
            state, request = new_state(cpu, "3-64"), Request("3-64", variant, 0, variable("v"))
            before = contents(state)
            expect_answer(reset(cpu, request, state), ERROR)
            expect_same("a refused reset", before, state)
    return 2


# ---- secrets

def short_secrets(cpu: Cpu, hash_name: str) -> int:
    """Tests one-shots of each length with a secret of each length that is too short. The result is 0 if the secret is
    needed: always without a seed, and above 240 bytes with a seed. Otherwise it is the seed's hash."""
    entries, n, size = definition.program().run(), variable("n"), variable("v")
    cases = [("secret", n, 0), ("both", plus(n, 241), 0), *(("both", k, None) for k in range(241))]
    for variant, length, value in cases:
        with given(at_most(length, LIMITS[64]), at_most(size, SHORTEST - 1)):
            request = Request(hash_name, variant, length, size)
            theirs = request.of_definition(entries) if value is None else value
            expect(f"{request}", one_shots.of_text(cpu, request), theirs)
    return len(cases)


def null_pointers(cpu: Cpu) -> int:
    """Tests that an input and a secret of length 0 may be null."""
    entries, count = definition.program().run(), 0
    for hash_name, variant in (("32", "seed"), ("64", "seed"), *((name, variant) for name in ("3-64", "3-128")
                                                                for variant in one_shots.WAYS)):
        for size in (0, SHORTEST) if variant in ("secret", "both") else (None,):
            request = Request(hash_name, variant, 0, size)
            secret = [] if size is None else [address(request.secret) if size else 0, size]
            theirs = 0 if variant == "secret" and not size else request.of_definition(entries)
            cpu.not_zero = []
            ours = cpu.library.one_shot(cpu, hash_name, variant, 0, 0, *secret, *one_shots.of_seed(request))
            expect(f"{request} at null", ours, theirs)
            count += 1
    return count


def in_one_place(cpu: Cpu) -> int:
    """Tests one-shots of concrete messages and secrets that overlap or are equal. The tasks with symbols show that no
    branch depends on their addresses."""
    entries, count, rng = definition.program().run(), 0, random.Random(3)
    cpu.not_zero = []
    for hash_name, variant, (first, n, own, size) in itertools.product(("3-64", "3-128"), ("secret", "both"),
                                                                       ONE_PLACE):
        if not cpu.library.has(Request(hash_name, variant, n, size)):
            continue
        data = rng.randbytes(max(first + n, own + size))
        whole, seed = Numbers("m", data), rng.getrandbits(64) if variant == "both" else 0
        ours = cpu.library.one_shot(cpu, hash_name, variant, address(whole, first), n, address(whole, own), size,
                                    *([seed] if variant == "both" else []))
        theirs = definition.value(entries, hash_name, variant, seed, memoryview(data)[own:own + size],
                                  memoryview(data)[first:first + n])
        expect(f"XXH{hash_name}, {variant}: {n} bytes from {first}, secret of {size} from {own}", ours, theirs)
        count += 1
    return count


def updates_of_nothing(cpu: Cpu) -> int:
    """Tests that a null chunk of length 0, before, between and after other chunks, leaves the digest unchanged."""
    entries, count = definition.program().run(), 0
    for hash_name, variant, size in (("32", "seed", None), ("64", "seed", None), ("3-64", "default", None),
                                     ("3-128", "default", None), ("3-64", "secret", SHORTEST),
                                     ("3-128", "both", SHORTEST)):
        for n in (0, 5, 33, 300, 700):
            request = Request(hash_name, variant, n, size)
            state = new_state(cpu, hash_name)
            expect_answer(reset(cpu, request, state), OK)
            for piece in (None, request.message, None):
                expect_answer(update(cpu, hash_name, state, piece), OK)
            expect(f"{request} beside null pieces", digest(cpu, hash_name, state), request.of_definition(entries))
            count += 1
    return count


def derived_secret(cpu: Cpu) -> int:
    """Tests the 192 bytes of the secret derived from a seed."""
    entries = definition.program().run()
    for seed in (symbol("seed64", 64), 0):
        cpu.not_zero = []
        buffer = WordMemory("secret", 192, alignment=1)
        cpu.call("XXH3_generateSecret_fromSeed", address(buffer), seed)
        for k, byte in enumerate(entries["derived_secret"](seed)):
            expect("XXH3_generateSecret_fromSeed", buffer.load(k, 1), byte)
    return 2


def generated_secrets(cpu: Cpu, asked: list[tuple[int, int]]) -> int:
    """Tests secrets of given sizes, generated from seeds of given lengths. A refusal of a small size writes nothing."""
    program = definition.program(("twox_c",), ("generated_secret",))
    entries = program.run()
    for size, length in asked:
        if len(nodes.NODES) > MOST_NODES:
            nodes.forget()
            entries = program.run()
        buffer = WordMemory("secret", size, [(k, 1, cpu.fresh("a byte", 8)) for k in range(size)], alignment=1)
        before, source = [buffer.load(k, 1) for k in range(size)], Input("m", length)
        answer = cpu.call("proved_XXH3_generateSecret", address(buffer), size, address(source) if length else 0, length)
        expect_answer(answer, OK if size >= SHORTEST else ERROR)
        expected = entries["generated_secret"](Bytes(source, 0, length), size) if size >= SHORTEST else before
        for k, byte in zip(range(size), expected, strict=True):
            expect(f"a secret of {size} bytes of {length}", buffer.load(k, 1), byte)
    return len(asked)


def some_secrets(cpu: Cpu) -> int:
    return generated_secrets(cpu, [(SHORTEST - 1, 3), (SHORTEST, 0), (143, 3), (200, 17), (256, 241)])


# Titles, minimum numbers of cases, and test functions: of calls that take no message, and of calls that take one.
WITHOUT_MESSAGE = [("canonical forms and back", 6, canonical_forms), ("equal hashes", 4, is_equal),
                   ("the order of hashes", 9, compare), ("the order of hashes in one place", 108, compare_in_one_place),
                   ("the version", 1, version), ("copies of states", 3, copies),
                   ("freed states are refused", 6, forgotten), ("the derived secret", 2, derived_secret)]
OF_MESSAGES = [("streams: memory without the mark of a reset", 16, without_mark),
               ("streams: states of XXH3 that no call leaves", 60, out_of_range),
               ("streams: resets with secrets that are too short", 2, refused_resets),
               ("streams: null pieces of no bytes", 30, updates_of_nothing),
               ("null inputs and secrets of no bytes", 14, null_pointers),
               ("a message and a secret in one place", 32, in_one_place)]
SHORT_SECRETS = [(f"XXH{name}, secrets that are too short, every length", 243,
                  functools.partial(short_secrets, hash_name=name)) for name in ("3-64", "3-128")]
OTHERS = [*WITHOUT_MESSAGE, *OF_MESSAGES, ("made secrets", 5, some_secrets)]
