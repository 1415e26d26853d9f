"""Tests of values at the edges of comparisons: jumps, requests, lengths, and files or copies that are refused. Each
test takes a random generator and raises Wrong."""
import contextlib
import operator
import struct
import types
import unittest.mock
from typing import Any

from oracle import antt
from oracle.machine_code import (
    disassembly,
    flags,
    instructions,
    object_contents,
    scalar,
    stream_state,
    unwinding,
    whole_blocks,
)
from oracle.machine_code.instructions import TABLE
from oracle.machine_code.memory import WordMemory
from oracle.machine_code.objects import Immediate, Place, Register
from oracle.machine_code.values import address, arithmetic
from oracle.symbolic_terms import (
    Request,
    Unsupported,
    at_most,
    comparison,
    definition,
    given,
    is_same_number,
    minus,
    nodes,
    operations,
    plus,
    polynomials,
    rules,
    symbol,
    times,
    variable,
)
from oracle.symbolic_terms import mutation
from oracle.symbolic_terms.induction import Induction

from . import processors
from .values import Wrong, expect, refuses, value_of

assert scalar  # imported because it fills the table of instructions

SHORT, LONG = {"jmp": b"\xeb", "jb": b"\x72"}, {"jmp": b"\xe9", "jb": b"\x0f\x82"}  # opcodes
AT, SIZE = 0x1000, 2  # address and bytes of a jump


def jumps(_):
    """Tests the required bytes of jumps at the ends of the short form."""
    for mnemonic in SHORT:
        for distance, is_short in ((-128, True), (127, True), (-129, False), (128, False)):
            actual = disassembly.led_on_x86(AT, bytes(SIZE), f"{mnemonic} {AT + SIZE + distance:x}", False)
            opcode, size = (SHORT, "<b") if is_short else (LONG, "<i")
            expected = opcode[mnemonic] + struct.pack(size, distance)
            if actual != expected:
                raise Wrong(f"{mnemonic} over {distance} bytes: {actual.hex()} and not {expected.hex()}")


def jumps_of_arm(_):
    """Tests the required words of jumps and of an address for 64-bit ARM, by its manual."""
    for at, text, word in (
        (0, "b 8 <f>", 0x14000002),
        (8, "bl 4", 0x97FFFFFF),
        (0, "b.ne 10", 0x54000081),
        (0, "cbz x3, 8", 0xB4000043),
        (8, "cbnz w5, 4", 0x35FFFFE5),
        (0, "tbz w1, #3, c", 0x36180061),
        (16, "tbnz x2, #33, 8", 0xB70FFFC2),
    ):
        actual = disassembly.led_on_arm(at, b"", text, False)
        expect(int.from_bytes(actual, "little"), word, text)
    for text, word in (("bl 0", 0x94000000), ("adrp x7, 0", 0x90000007)):
        expect(
            int.from_bytes(disassembly.led_on_arm(4, b"", text, True), "little"), word, f"{text}, which is relocated"
        )
    expect(
        int.from_bytes(disassembly.led_on_arm(4, b"", "adrp x7, 0", False), "little"),
        0,
        "an address without a relocation",
    )
    expect(disassembly.led_on_arm(0, b"", "add x1, x2, x3", False) is None, True, "no jump")


def forms(_):
    """Tests that the table lacks a form that no source has, and whose flags differ."""
    expect(("rol", "bl") in TABLE, False, "a rotation by a register")
    expect(("shl", "bl") in TABLE, True, "a shift by a register")


def narrow_sums(_):
    """Tests that a sum of 32 bits in a register that holds a number isn't one of 64 bits."""
    n, x = variable("n"), processors.instruction("add", Immediate(1), Register("eax"))
    with given(at_most(n, (1 << 32) - 1)):
        for is_small in (True, False):
            cpu = processors.new_processor()
            cpu.registers["rax"] = n
            with given(at_most(n, 5)) if is_small else contextlib.nullcontext():
                TABLE["add", "il"][1](cpu, x)
            expect(is_same_number(cpu.registers["rax"], plus(n, 1)), is_small, "the sum of a number and 1")


def lost_flags(_):
    """Tests that no condition holds after a shift that takes bits of another register."""
    cpu, x = processors.new_processor(), processors.instruction("shld", Immediate(4), Register("rax"), Register("rbx"))
    cpu.set_flags("logic", 64, 0, 0, 1)
    TABLE["shld", "iqq"][1](cpu, x)
    refuses(lambda: cpu.condition("e"), "a condition after shld")


def unions(_):
    """Tests the bitwise or of a term and a number that has all of its bits, in both orders."""
    x = symbol("three bits", 3)
    for found in (operations.either(x, 7), operations.either(7, x)):
        expect(found, 7, "a term or all of its bits")


def remainders(_):
    """Tests that a number of unknown size has no remainder but by a power of two."""
    n = variable("n")
    expect(polynomials.remainder(n, 8).width, 3, "a remainder")
    refuses(lambda: polynomials.remainder(n, 6), "a remainder by 6")


def replaced_variables(_):
    """Tests a polynomial with another one in place of a variable."""
    n, m = variable("n"), variable("m")
    found = whole_blocks.with_value(plus(times(2, times(n, m)), 3), "n", plus(m, 1))
    expect(
        is_same_number(found, plus(times(2, times(m, m)), times(2, m), 3)), True, "a polynomial with another variable"
    )


def identities(_):
    """Tests that two functions with other code are two values of an argument."""
    first, second = (antt.Function(1, body) for body in (lambda x: x, lambda x: x + 1))
    known = definition.Suppositions()
    expect(known.identity(first) == known.identity(first), True, "one function")
    expect(known.identity(first) == known.identity(second), False, "two functions")


def sections(_):
    """Tests that a symbol of a section beyond the last one is refused."""
    heads = [types.SimpleNamespace(name=".text.f", size=4, flags=object_contents.CODE)]
    for section in (1, 2):
        named = types.SimpleNamespace(
            name="f", section=section, info=object_contents.FUNCTION, other=0, value=0, size=4
        )
        built = types.SimpleNamespace(heads=heads)
        refuses(
            lambda named=named, built=built: object_contents.expect_symbol(built, named, (1, 0), set()),
            f"a symbol of section {section}",
            (Unsupported,),
        )


def copies_of_memory(_):
    """Tests that a state takes copies only of inputs."""
    state = stream_state.State("state", 64, [], [], (0, 64))
    refuses(
        lambda: state.take(0, 4, WordMemory("other", 8, [(0, 8, 1)]), 0), "a copy of memory to a state", (Unsupported,)
    )


def seeds(_):
    """Tests which requests have a twin with the seed 0: those of XXH3 above 240 bytes or of streams, with two
    exceptions if there is a secret."""
    for name, variant, length, cuts, count in (
        ("3-64", "seed", 240, None, 0),
        ("3-64", "seed", 241, None, 1),
        ("3-64", "seed", 5, [], 1),
        ("3-64", "both", 300, None, 0),
        ("3-64", "both", 300, [], 1),
        ("3-64", "both", 240, [], 1),
        ("3-128", "both", 240, [], 0),
        ("3-128", "both", 241, [], 1),
        ("3-64", "default", 300, None, 0),
        ("64", "seed", 300, None, 0),
    ):
        secret = 136 if variant == "both" else None
        twins = Request(name, variant, length, secret, cuts=cuts).with_seed_0()
        expect(len(twins), count, f"twins of {name}, {variant}, {length}")


def lengths(_):
    """Tests that the lengths at edges begin after those that are tested one by one."""
    for secret in (None, 136, 192):
        found = comparison.edges(secret)
        expect(min(found) >= comparison.EDGES_FROM and max(found) == comparison.LONGEST, True, f"edges for {secret}")


def orders(_):
    """Tests comparisons of a byte with itself, and with numbers above all bytes."""
    byte, other = (symbol(name, 8) for name in ("a byte", "the other byte"))
    for found, expected in (
        (byte >= byte, True),
        (byte > byte, False),
        (byte <= byte, True),
        (byte < byte, False),
        (byte >= 256, False),
        (byte < 256, True),
        (byte > 255, False),
        (byte <= 255, True),
    ):
        expect(found, expected, "the order of a byte")
    refuses(lambda: byte >= other, "the order of two bytes")


def stored_values(_):
    """Tests that a word has a size if its cell has one."""
    cell: Any
    expected: Any
    proof: Any
    proof = types.SimpleNamespace(start={"sized": (4, 1), "plain": 1})
    for cell, expected in (("sized", (4, 7)), ("plain", 7)):
        if Induction.as_stored(proof, cell, 7) != expected:
            raise Wrong(f"the word of a {cell} cell")


def bounds(_):
    """Compares operations of a term and a number near its greatest value with Python's, at each end of both."""
    for width in (1, 8, 13, 63, 64):
        name, top = f"e{width}", (1 << width) - 1
        x = symbol(name, width)
        for b in sorted({1, 2, 3, 10, top // 2 + 1, top - 1, top, top + 1} - {0}):
            for what, found, expected in (
                ("remainder", operations.remainder(x, b), lambda a: a % b),
                ("quotient", operations.quotient(x, b), lambda a: a // b),
                ("difference", operations.monus(b, x), lambda a: max(0, b - a)),
                ("or", operations.either(x, b), lambda a: a | b),
                ("and", operations.both(x, b), lambda a: a & b),
                ("xor", operations.xor(x, b), lambda a: a ^ b),
                ("sum", operations.add(x, b), lambda a: a + b),
                ("product", operations.multiply(x, b), lambda a: a * b),
                (
                    "sum of two",
                    operations.add_at(64, (b, x), (1, operations.xor(operations.add(x, 1), b))),
                    lambda a: (b * a + (a + 1 ^ b)) % (1 << 64),
                ),
            ):
                for value in {0, 1, top // 2, top - 1, top} - {-1}:
                    expect(
                        nodes.values_at([found], {name: value})[0], expected(value), f"the {what} of {value} and {b}"
                    )
            for what, found, is_decided, holds in (
                ("below", lambda: operations.is_below(x, b), b > top, True),
                ("above", lambda: operations.is_below(b, x), b >= top, False),
            ):
                if is_decided:
                    expect(found(), holds, f"{width} bits {what} {b}")
                else:
                    refuses(found, f"{width} bits {what} {b}")


def sums_of_parts(rng):
    """Compares sums of xored and shifted parts of sums and products with Python's. Operations compare their values."""
    x, y = (symbol(name, 64) for name in ("p64", "q64"))
    for _ in range(150):
        width, k, n = rng.choice((32, 64, 128)), rng.randrange(64), rng.randrange(1, 65)
        a, b = (rng.choice((operations.add, operations.multiply, operations.xor))(x, y) for _ in range(2))
        a = operations.xor(
            operations.bits(a, rng.choice((0, k)), n), rng.choice((0, 1, (1 << n) - 1, rng.getrandbits(n)))
        )
        found = operations.add_at(
            width, (1 << rng.randrange(width), a), (rng.choice((1, -1, 3)), b), (1, rng.getrandbits(64))
        )
        operations.xor(operations.bits(found, k, n), rng.getrandbits(n))


def no_bits(_):
    """Tests that no bits of a value are no segments, and that a term or itself is the term."""
    x = symbol("r64", 64)
    for value in (5, x, operations.add(x, 1), operations.xor(x, 5)):
        for n in (0, -1):
            expect(rules.bits_of(value, 3, n) == [], True, f"{n} bits")
    for operation in (operations.either, operations.both):
        expect(operation(x, x) is x, True, "a term and itself")


def unset_flags(_):
    """Tests that no condition holds if the flags aren't set."""
    for name in ("e", "ne", "b", "ae", "a", "be", "l", "ge", "g", "le"):
        refuses(lambda: processors.new_processor().condition(name), f"{name} of no flags", (Unsupported,))


def moved_bits(_):
    """Tests that united numbers are only moved by a number, and only masked by one."""
    n = variable("n")
    with given(at_most(n, 100)):
        united = arithmetic("or", 64, n, times(4, n))
        for word, a, b in (
            ("lshr", united, n),
            ("lshr", 5, united),
            ("and", united, n),
            ("and", united, united),
            ("shl", united, 3),
            ("or", united, 1),
            ("xor", united, 1),
            ("sub", united, 1),
        ):
            refuses(lambda: arithmetic(word, 64, a, b), f"{word} of united numbers")
        for found in (arithmetic("and", 64, united, 24), arithmetic("and", 64, 24, united)):
            expect(found.mask, 24, "a mask of united numbers")


def powers(_):
    """Tests that the definitions have no power with an exponent above 4,096."""
    expect(antt.OPERATORS["^"](2, 4096) == 1 << 4096, True, "a power")
    refuses(lambda: antt.OPERATORS["^"](2, 4097), "a power with a greater exponent", antt.Unreadable)


def points_of_facts(rng):
    """Tests where points are drawn that satisfy facts: the known ones first, and until one or enough are found."""
    asked: Any
    names, known = ["a", "b"], [{"a": 10**6 + k, "b": 7 * k} for k in range(polynomials.ENOUGH)]
    expect(polynomials.random_points(names, rng, known, polynomials.NEAR) == known, True, "known points")
    expect(polynomials.random_points(names, rng, (), 1) == [{"a": 0, "b": 0}], True, "the first point")
    a = variable("a")
    with given(minus(a, 5)):
        for around in ((), known, [{"a": 1, "b": 2}]):
            found = polynomials.random_points(["a"], rng, [{"a": point["a"]} for point in around], 100)
            expect(
                len(found) == polynomials.ENOUGH and all(point["a"] >= 5 for point in found), True, "points from 5 on"
            )
    with given(minus(times(3, a), plus(variable("b"), 10)), at_most(a, 100)):
        expect(
            all(3 * point["a"] >= point["b"] + 10 and point["a"] <= 100 for point in polynomials.under.points),
            True,
            "points",
        )
    for late, count, tried in ((0, 8, 8), (50, 8, 58), (58, 4, 62), (80, 1, 81), (400, 0, 90)):
        asked = []
        with unittest.mock.patch.object(
            polynomials, "moved", lambda point, _: asked.append(1) or (point if len(asked) > late else None)
        ):
            expect(
                len(polynomials.random_points(names, rng, (), 90)), count, f"points of which the first {late} don't fit"
            )
        expect(len(asked), tried, f"tried points of which the first {late} don't fit")


def spoiled_stack(_):
    """Tests that an instruction that sets the stack pointer in another way than by a distance spoils it."""
    for mnemonic in ("and", "mov", "or", "xor", "lea", "imul", "shl", "adc", "sbb"):
        x = processors.instruction(mnemonic, Immediate(64), Register("rsp"))
        expect("rsp" in unwinding.X86.effect(x)[3], True, f"{mnemonic} of the stack pointer")
    for mnemonic in ("add", "sub"):
        x = processors.instruction(mnemonic, Immediate(8), Register("esp"))
        expect("rsp" in unwinding.X86.effect(x)[3], True, f"{mnemonic} of the stack pointer's lower half")


def near_offsets(_):
    """Tests which offsets are small enough to compare addresses by them."""
    n, far = variable("n"), 1 << 62
    with given(at_most(n, 8)):
        for at, holds in (
            (0, True),
            (far, True),
            (-far, True),
            (far + 1, False),
            (-far - 1, False),
            (n, True),
            (plus(n, far - 8), True),
            (plus(n, far - 7), False),
            (plus(n, -far), True),
            (plus(n, -far - 1), False),
        ):
            expect(flags.is_near(at), holds, f"the offset {at}")


def lost_flags_of_shifts(_):
    """Tests which flags a shift or rotation leaves: none of a rotation, the zero flag of a shift, all by no bits."""
    for mnemonic, key, k, unchanged in (
        ("rol", "iq", 3, ""),
        ("rol", "iq", 0, "e b"),
        ("rol", "iq", 64, "e b"),
        ("shl", "iq", 3, "e"),
        ("shr", "iq", 3, "e"),
        ("shl", "iq", 64, "e b"),
        ("shld", "iqq", 4, ""),
        ("shrd", "iqq", 4, ""),
        ("shld", "iqq", 64, "e b"),
        ("shrd", "iqq", 0, "e b"),
    ):
        cpu = processors.new_processor()
        cpu.set_flags("logic", 64, 0, 0, 0)
        registers = [Register(name) for name in ("rbx", "rax")][-len(key[1:]) :]
        TABLE[mnemonic, key][1](cpu, processors.instruction(mnemonic, Immediate(k), *registers))
        for name in ("e", "b"):
            if name in unchanged.split():
                expect(cpu.condition(name), name == "e" and k % 64 == 0, f"{name} after {mnemonic} by {k}")
            else:
                refuses(lambda: cpu.condition(name), f"{name} after {mnemonic} by {k}")


def forms_of_operands(_):
    """Tests the letters of operands, by which the table has its forms."""
    for operand, letter in (
        (Immediate(1), "i"),
        (Register("al"), "b"),
        (Register("ah"), "h"),
        (Register("ax"), "w"),
        (Register("eax"), "l"),
        (Register("rax"), "q"),
        (Register("xmm1"), "x"),
        (Register("ymm1"), "y"),
        (Register("zmm1"), "z"),
        (Register("st"), "?"),
        (Place(0, "rax", None, 1), "m"),
        (Place(0, "rip", None, 1), "m"),
        (Place(0, None, None, 1), "m"),
        (Place(0, None, "r9", 4), "m"),
        (Place(0, "eax", None, 1), "?"),
        (Place(0, "rax", "ecx", 1), "?"),
        (Place(0, "eip", None, 1), "?"),
        (Place(0, "fs", "rax", 1), "?"),
    ):
        expect(instructions.letter(operand) == letter, True, f"the letter of {operand}")


def tables_of_bits(_):
    """Tests that of the functions of three bits only xor is run."""
    names = [Register(f"zmm{k}") for k in range(3)]
    for table in (0x96, 0x95, 0x97, 0, 0xFF, 0x69):
        cpu, x = processors.new_processor(), processors.instruction("vpternlogq", Immediate(table), *names)
        for k in range(3):
            cpu.vectors[k] = [1 << k] * 8
        if table == 0x96:
            TABLE["vpternlogq", "izzz"][1](cpu, x)
            expect(cpu.vectors[2][0], 7, "three bits")
        else:
            refuses(lambda: TABLE["vpternlogq", "izzz"][1](cpu, x), f"the table {table:#x}", (Unsupported,))


def masks_of_numbers(_):
    """Compares masked numbers with all of their values."""
    n = variable("n")
    for most in (1, 3, 5, 7, 8, 100):
        with given(at_most(n, most)):
            for mask in (*range(17), 24, 96, 0xF0, 255, 256):
                for x in (n, plus(times(8, n), 3)):
                    found = arithmetic("and", 64, x, mask)
                    for value in range(most + 1) if not isinstance(found, nodes.Node) else ():
                        point = {"n": value}
                        expect(
                            polynomials.value_at(found, point),
                            polynomials.value_at(x, point) & mask,
                            f"{x} under {mask}",
                        )


def numbers_and_terms(_):
    """Compares operators of a term and a number that facts bound, in both orders, and of two terms."""
    n, x = variable("n"), symbol("x64", 64)
    with given(at_most(n, 100)):
        a, b = symbol("n", 64).values[0], x.values[0]
        for what, of in (
            ("+", operator.add),
            ("*", operator.mul),
            ("^", operator.xor),
            ("|", operator.or_),
            ("&", operator.and_),
            ("%", operator.mod),
            ("//", operator.floordiv),
        ):
            expect(value_of(of(x, n)), of(b, a), f"{what} of a term and a number")
            expect(value_of(of(x, operations.add(x, 1))), of(b, b + 1), f"{what} of terms")
            expect(value_of(of(n, x)), of(a, b), f"{what} of a number and a term") if what not in "%//" else None


def forgotten_terms(_):
    """Tests that terms made since a mark are forgotten everywhere."""
    x = symbol("x64", 64)
    point = mutation.mark()
    for k in range(20):
        operations.add_at(64, (k, x), (3, operations.multiply_at(64, x, operations.xor(operations.add(x, k), 9))))
    mutation.release(point)
    expect(mutation.mark() == point, True, "the tables after a release")


def far_places(_):
    """Tests that addresses are only compared by their offsets if both are within their object, or near to it."""
    n, buffer = variable("n"), WordMemory("room", 1 << 20, alignment=8)
    with given(minus(n, 1), at_most(n, 100)):
        near, far = address(buffer, n), address(buffer, times(1 << 63, n))
        for a, b in ((near, far), (far, near)):
            refuses(lambda: flags.are_one_place(a, b), "places of which one is far away")
        expect(flags.are_one_place(near, address(buffer, plus(n, 1))), False, "two places")


def quotients(_):
    """Tests that a quotient of two words, or by 0, is refused."""
    for above, b, is_right in ((0, 7, True), (1, 7, False), (0, 0, False)):
        cpu, x = processors.new_processor(), processors.instruction("div", Register("rcx"))
        cpu.registers.update(rdx=above, rax=100, rcx=b)
        if is_right:
            TABLE["div", "q"][1](cpu, x)
            expect((cpu.registers["rax"], cpu.registers["rdx"]) == (14, 2), True, "a quotient and a remainder")
        else:
            refuses(lambda: TABLE["div", "q"][1](cpu, x), f"a quotient of {above} and {b}", (Unsupported,))


def selected_parts(_):
    """Tests which words of two vectors shufps selects."""
    for order in (0b11100100, 0b00011011, 0):
        cpu, x = processors.new_processor(), processors.instruction(
            "shufps", Immediate(order), Register("xmm1"), Register("xmm2")
        )
        source, to = [10, 11, 12, 13], [20, 21, 22, 23]
        for k, values in ((1, source), (2, to)):
            cpu.vectors[k][:2] = [values[0] | values[1] << 32, values[2] | values[3] << 32]
        TABLE["shufps", "ixx"][1](cpu, x)
        picked = [some[order >> 2 * k & 3] for k, some in enumerate((to, to, source, source))]
        expect(
            cpu.vectors[2][:2] == [picked[0] | picked[1] << 32, picked[2] | picked[3] << 32],
            True,
            f"words by {order:#x}",
        )


def patterns(_):
    """Tests the patterns of a definition's clause."""
    built = antt.Definition(types.SimpleNamespace(path="a"), "f", [], False)
    for values, expected in (
        ("( suc n )", [("suc", "n")]),
        ("zero n Some", [("zero",), ("name", "n"), ("constructor", "Some")]),
        ("( Some n )", None),
        ("( suc n m )", None),
    ):
        built.clauses = [([(word, 0) for word in values.split()], [])]
        if expected:
            expect(built.patterns(0) == expected, True, f"the pattern {values}")
        else:
            refuses(lambda: built.patterns(0), f"the pattern {values}", antt.Unreadable)


def runs_of_sources(_):
    """Tests that runs of two inputs stay two, also if they continue each other."""
    first, second = stream_state.Source("a", 600), stream_state.Source("b", 600)
    state = stream_state.State("state", 600, [], [], (0, 512))
    for at, source in ((0, first), (64, second), (128, second)):
        state.put_run(at, 64, source, at)
    for run, holds in (
        ((0, 64, first, 0), True),
        ((64, 192, second, 0), True),
        ((0, 128, first, 0), False),
        ((0, 128, second, 0), False),
    ):
        expect(state.has_run(run), holds, f"the run {run}")


def names_as_values(_):
    """Tests that equal names agree, whichever strings they are."""
    expect(polynomials.agree("a name", " ".join(["a", "name"])), True, "a name")
    expect(polynomials.agree(("a name", 5), (" ".join(["a", "name"]), 5)), True, "a name and a number")
    expect(polynomials.agree("a name", "names"), False, "another name")


ALL = [
    jumps,
    jumps_of_arm,
    forms,
    narrow_sums,
    lost_flags,
    unions,
    remainders,
    replaced_variables,
    identities,
    sections,
    copies_of_memory,
    seeds,
    lengths,
    orders,
    stored_values,
    bounds,
    sums_of_parts,
    no_bits,
    unset_flags,
    moved_bits,
    powers,
    points_of_facts,
    spoiled_stack,
    near_offsets,
    lost_flags_of_shifts,
    forms_of_operands,
    tables_of_bits,
    masks_of_numbers,
    numbers_and_terms,
    forgotten_terms,
    far_places,
    quotients,
    selected_parts,
    patterns,
    runs_of_sources,
    names_as_values,
]
