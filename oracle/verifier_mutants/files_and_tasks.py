"""Tests sources, objects and tasks: repeated sections, seeds of calls, and the tasks of a sample. Each takes a random
generator and raises Wrong."""

import types
import unittest.mock
from typing import Any

from assembly import eh_frame
from oracle.machine_code import calls, cargo_calls, cargo_streams, disassembly, every_length, object_contents
from oracle.machine_code import objects as program_objects
from oracle.machine_code import xxh3_states
from oracle.machine_code.memory import WordMemory
from oracle.symbolic_terms import LONGEST, REFUSALS, NotShown, at_most, definition, is_natural, is_same_number, minus
from oracle.symbolic_terms import names_of, plus, processes, symbol, times, value_at, variable

from .processors import new_processor
from .readers import RIGHT, followed
from .values import expect, refuses

patched = unittest.mock.patch.object


# ---- sources


def repeated_sections(_):
    """Tests that a source with two functions in one section, or with a section twice, is refused."""
    plain = RIGHT.replace("\t.ifndef f\n", "").replace("\t.endif\n", "").replace("\t.weak f\n\t.hidden f\n", "")
    begin, end = plain.index("\t.section .text.f"), plain.index("\t.section .rodata")
    function = plain[begin:end]
    for other, is_right in (
        (function.replace("f,", "g,").replace("f:", "g:").replace(".-f", ".-g"), True),
        (function, False),
    ):
        text = plain[:end] + other + plain[end:]
        followed(text) if is_right else refuses(lambda: followed(text), "a section twice", REFUSALS)


def bytes_of_arm(_):
    """Tests that instructions of another processor are compared with its own bytes."""
    program = types.SimpleNamespace(
        object=types.SimpleNamespace(machine=object_contents.AARCH64),
        listing={".text.f": [(0, (0x14000001).to_bytes(4, "little"), "b 4")]},
        is_relocated=lambda *_: False,
    )
    assembled = {("nop", "aarch64"): b""}
    with patched(disassembly, "assembled_alone", lambda texts, arch: assembled):
        disassembly.expect_bytes(program)
        program.listing[".text.f"][0] = (0, bytes(4), "b 4")
        refuses(lambda: disassembly.expect_bytes(program), "other bytes of a jump", REFUSALS)


def long_texts(_):
    """Tests that a text of more bytes than a slot is refused, since the slots of other texts would move."""
    for size, is_right in ((15, True), (16, True), (17, False), (40, False)):
        with patched(disassembly, "assembled", {}):
            ask = lambda: disassembly.assembled_alone({f".skip {size}", "ret"}, "x86-64")
            ask() if is_right else refuses(ask, f"a text of {size} bytes", (ValueError,))


def prefixes(_):
    """Tests which prefixes an instruction that does nothing may have."""
    for text, expected in (
        ("data16 nop", ("nop", "")),
        ("data16 cs nopw 0x0(%rax,%rax,1)", ("nopw", "0x0(%rax,%rax,1)")),
        ("lock nop", ("lock", "nop")),
        ("repz nop", ("repz", "nop")),
        ("cs", ("cs", "")),
    ):
        expect(program_objects.split(text) == expected, True, text)


def notes(_):
    """Tests the length of a note's property, with 4 bytes of padding at most, and numbers of tables with a sign."""
    whole = object_contents.SHADOW_STACK
    for content, is_right in ((whole, True), (whole + bytes(4), True), (whole + bytes(5), False), (bytes(12), False)):
        head = types.SimpleNamespace(kind=object_contents.NOTE)
        found = types.SimpleNamespace(heads=[head], machine=object_contents.X86_64, body=lambda _: b"")
        with patched(object_contents, "notes_of", lambda *_: [(object_contents.PROPERTIES, b"")]):
            with patched(object_contents, "properties_of", lambda _: [content]):
                ask = lambda: object_contents.expect_notes(found)
                ask() if is_right else refuses(ask, f"the property {content.hex()}", REFUSALS)
    for data, is_signed, expected in (((0x40,), False, 64), ((0x40,), True, -64), ((0xC0, 0x40), False, 64 + 8192)):
        expect(eh_frame.number(bytes(data), 0, is_signed) == (expected, len(data)), True, f"the number {data}")


# ---- calls


def seeds_in_one_place(_):
    """Tests that calls with a message and a secret in one place have a seed of 64 bits, if they have one."""
    seeds = []

    def one_shot(cpu, hash_name, variant, message, n, own, size, *seed):
        expect(len(seed), int(variant == "both"), f"the seeds of {variant}")
        seeds.extend(seed)
        return seed[0] if seed else 0

    cpu = types.SimpleNamespace(library=types.SimpleNamespace(one_shot=one_shot, has=lambda request: True))
    with patched(definition, "program", lambda: types.SimpleNamespace(run=dict)):
        with patched(definition, "value", lambda entries, hash_name, variant, seed, own, message: seed):
            calls.in_one_place(cpu)
    expect(len({*seeds}), 2 * len(calls.ONE_PLACE), "different seeds")
    expect(all(0 < seed < 1 << 64 for seed in seeds) and max(seeds) >= 1 << 32, True, "seeds")


def variants_of_forgotten(_):
    """Tests that the states of XXH32 and XXH64 are reset with a seed before they are freed, those of XXH3 with none."""
    asked: Any = []
    with unittest.mock.patch.multiple(
        calls,
        reset=lambda cpu, request, state: asked.append((request.hash_name, request.variant)) or (calls.OK, 0),
        contents=lambda *_: [0] * 200,
        expect_same=lambda *_: None,
        expect_answer=lambda *_: None,
        refused=lambda *_: None,
        new_state=lambda *_: WordMemory("state", 576),
    ):
        calls.forgotten(types.SimpleNamespace(call=lambda *_: None))
    expected = [("32", "seed"), ("64", "seed"), ("3-64", "default"), ("3-128", "default")]
    expect(asked == expected, True, "resets")


def refused_chunks(_):
    """Tests the lengths of refused chunks: a few bytes fit in the buffer beside the waiting ones, or don't."""
    capacity = cargo_calls.CAPACITY
    for waiting, is_split in ((0, False), (5, True), (capacity, True), (capacity + 1, False)):
        found = [(n, facts) for _, n, facts in cargo_calls.chunks(waiting)]
        for k in (1, 30, 64):
            inside = [
                all(value_at(fact, {name: k for name in names_of(n)}) >= 0 for fact in facts)
                for n, facts in found
                if "n64" in names_of(n)
            ]
            fits = k + waiting <= capacity
            expect(inside == ([fits, not fits] if is_split else [True]), True, f"{k} bytes beside {waiting}")


# ---- updates of XXH3


def empty_chunks(_):
    """Tests that a chunk of no bytes has a separate case for a full buffer, and no other chunk has one."""
    proof = cargo_streams.CargoUpdates(new_processor())
    found = [(start[1], length, facts) for start, _, length, facts in proof.small_pieces()]
    full = [(f, length) for f, length, _ in found if is_same_number(f, proof.capacity)]
    expect(full == [(proof.capacity, 0)], True, "a full buffer")
    for f, length, facts in found:
        if is_same_number(length, 0) and not isinstance(f, int):
            values = [k for k in (1, proof.capacity - 1, proof.capacity) if has(facts, {"f": k})]
            expect(values == [1, proof.capacity - 1], True, "other buffers")


def has(facts, point):
    """True if facts about the variables of a point hold there."""
    return all(value_at(fact, point) >= 0 for fact in facts if names_of(fact) <= {*point})


def large_chunks(_):
    """Tests what an update by a large chunk assumes of the total, and of the bytes by which it was less."""
    proof, n, lost = xxh3_states.CallersSecret(new_processor()), variable("n"), variable("lost")
    b, j, f = (variable(name) for name in "bjf")
    begun = plus(times(64, proof.stripes((b, j))), f)
    facts = [minus(minus(proof.q, 1), j), minus(f, 1), at_most(f, 64), minus(n, 500)]
    for is_lost in (False, True):
        seen = []

        def run(live, ask, parts, state, piece):
            total = state.load(proof.at.total_bytes, 8)
            seen.append(is_natural(minus(minus(n, 1), lost)))
            expect(is_same_number(total, minus(LONGEST, lost) if is_lost else begun), True, "the total before")
            state.store(proof.at.total_bytes, 8, LONGEST if is_lost else plus(begun, n))
            ask.args[0].append((True, dict(state.cells)))

        with patched(proof, "run", run):
            proof.long_update((b, j), f, n, facts, True, is_lost)
        expect(seen == [is_lost] * len(proof.HAS_SEED), True, "the bound of lost bytes")


def resets_of_states(_):
    """Tests that a reset must set each field of a state, and the secret if the state stores it."""
    for proof_class, name, seed in (
        (xxh3_states.CallersSecret, xxh3_states.RESET, None),
        (xxh3_states.CallersSecret, f"{xxh3_states.RESET}_and_seed", "seed"),
        (xxh3_states.OwnSecret, "proved_XXH3_64bits_reset_withSeed", "seed"),
        (xxh3_states.OwnSecret, "proved_XXH3_64bits_reset", 0),
        (xxh3_states.OwnSecret, f"{xxh3_states.RESET}_and_seed", "seed"),
    ):
        proof = proof_class(new_processor())
        own, value = proof_class is xxh3_states.OwnSecret, symbol("seed64", 64) if seed == "seed" else seed
        secret = proof.secret if name.startswith(xxh3_states.RESET) else proof.texts["derived_secret"](value)
        fields = {
            8 * k + proof.at.accumulator: proof.texts["Long.accumulator_after"](proof.secret, b"", k, 0)
            for k in range(8)
        }
        fields |= {
            at: 0 for at in (proof.at.current_stripe, proof.at.count, proof.at.buffer_usage, proof.at.total_bytes)
        }
        fields |= {proof.at.mark: proof.MARKS[int(seed is not None)]}
        fields |= (
            {proof.at.address: 0}
            if own
            else {proof.at.secret_length: proof.secret_length, proof.at.address: symbol("address", 64)}
        )
        fields |= {proof.at.seed: value} if seed is not None else {}
        fields |= {proof.at.secret + k: proof.texts["word64"](secret, k) for k in range(0, 192, 8)} if own else {}
        for wrong in (None, *list(fields)[::5], proof.at.mark, proof.at.seed, proof.at.secret + 8):

            def run(live, *_, **__):
                for at, x in fields.items():
                    live[0].store(at, 8, x)
                live[0].store(wrong, 8, symbol("other", 64)) if wrong is not None else None
                return calls.OK, 0

            with patched(proof, "run", run), patched(xxh3_states.streams, "expect_answer", lambda *_: None):
                ask = lambda: proof.reset(name, seed)
                refuses(ask, f"another word at {wrong}", (NotShown,)) if wrong in fields else ask()


def turns_of_lengths(_):
    """Tests the spans of lengths in a case with a bounded and an unbounded number of turns."""
    turns = variable(every_length.TURNS)
    for facts, last in (([at_most(turns, 3)], 13), ([], None)):
        case = every_length.Case(plus(100, times(10, turns)), 0, facts, {})
        expect(dict(every_length.spans([case], 10)) == {0: [(10, last)]}, True, "the spans of a case")


# ---- tasks


def chosen_by_options(_):
    """Tests which tasks the options choose."""
    tasks = [types.SimpleNamespace(title=title) for title in ("one a", "two", "three a")]
    for only, skip, expected in (("", 0, tasks), (" a", 0, [tasks[0], tasks[2]]), (" a", 1, [tasks[2]]), ("x", 0, [])):
        found = processes.chosen(tasks, types.SimpleNamespace(only=only, skip=skip))
        expect(found == expected, True, f"the tasks with {only!r} after {skip}")


ALL = [
    *(repeated_sections, bytes_of_arm, long_texts, prefixes, notes, seeds_in_one_place, variants_of_forgotten),
    *(refused_chunks, empty_chunks, large_chunks, resets_of_states, turns_of_lengths, chosen_by_options),
]
