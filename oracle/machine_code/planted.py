"""Planted faults in sources, which must be detected: one for each way in which such a check missed an error. Each is
the committed source with inserted lines, and must be refused for the named reason."""
import collections
import os
import re
import subprocess
import tempfile
import unittest.mock
from typing import Any, Callable, Collection

from oracle.symbolic_terms import REFUSALS, TOP, NotShown, Request, WrongRule, definition, nodes, operations, variable

from . import (
    any_updates,
    calls,
    coverage,
    every_length,
    exports,
    layouts,
    on_processor,
    one_shots,
    source_layouts,
    streams,
    values,
    xxh3_states,
    xxh3_updates,
)
from .instructions import TABLE, V1, V2
from .objects import Program
from .processor import Processor
from .sources import by_gnu
from .values import Cpu
from .wasm import layouts as record_layouts

SOURCE = os.path.join(TOP, "c", "asm", f"{V2}.s")
# A planted fault: its title, the change of the source, the test, and a pattern of the refusal's message.
Wrong = collections.namedtuple("Wrong", "what change ask message")


# ---- changes of a source


def field(at: int, register: str = "%rdi") -> str:
    """Returns the operand of a place in a state, whose address a register has."""
    return f"{at:#x}({register})"


def begun(name: str, *lines: str) -> Callable[[str], str]:
    """Returns a change that inserts lines at the start of a function."""
    return lambda text: with_lines(text, rf"^{re.escape(name)}:\n\t.cfi_startproc\n", "", lines)


def with_lines(text, place, before, lines):
    """Inserts lines after the one match of a pattern, and `before` ahead of the match."""
    found = list(re.finditer(place, text, re.M))
    if len(found) != 1:
        raise NotShown(f"{len(found)} places like {place}")
    at, end = found[0].span()
    return text[:at] + before + text[at:end] + "".join(f"\t{line}\n" for line in lines) + text[end:]


def in_loop(text):
    """Changes an accumulator in XXH64's loop over stripes in iterations at least 2 ^ 40 bytes after the start and
    before the end. The first iterations and the last one are correct."""
    name = "twox_plain.xxhash64.rounds.impl_long"
    function = text[text.index(f"\n{name}:") :]
    head = re.search(r"^\.L\w+:\n", function, re.M)[0]
    return with_lines(
        text,
        re.escape(head),
        "\tmov %rsi,-0x10(%rsp)\n",
        (
            "mov %rsi,%r8",
            "sub -0x10(%rsp),%r8",
            "shr $0x28,%r8",
            "mov %r9,%r10",
            "shr $0x28,%r10",
            "and %r10,%r8",
            "add %r8,%r12",
        ),
    )


def hidden_register(text):
    """Changes XXH64's reset and digest to read a caller's register."""
    text = begun("XXH64_reset", "xor %r11,%rsi")(text)
    function = text.index("\nXXH64_digest:")
    old = f"\tmov {field(layouts.PLAIN['64'].seed)},%r8\n"
    return text[:function] + text[function:].replace(old, f"{old}\txor %r11,%r8\n", 1)


def substituted(pattern: str, new: str, count: int = 1) -> Callable[[str], str]:
    """Returns a change of the first matches of a pattern, or of all if `count` is 0."""
    return lambda text: re.sub(pattern, new, text, count=count, flags=re.M)


def ended(*lines: str) -> Callable[[str], str]:
    return lambda text: text + "".join(f"\t{line}\n" for line in lines)


def function(name: str, *more: str) -> tuple[str, ...]:
    """Returns the lines of a function that only returns, with `more` directives before its name."""
    return (
        f'.section .text.{name},"ax",@progbits',
        *more,
        f".type {name},@function",
        f"{name}:",
        "ret",
        f".size {name},.-{name}",
    )


# ---- tests


def request(*args: Any, **more: Any) -> Callable[[Cpu], None]:
    """Returns a test that compares a request and its twin with the definition."""

    def ask(cpu):
        entries, one = definition.program().run(), Request(*args, **more)
        for each in [one, *one.with_seed_0()]:
            side = one_shots if each.cuts is None else streams
            calls.expect(repr(each), side.of_text(cpu, each), each.of_definition(entries))

    return ask


def raising_limit(cpu: Cpu) -> None:
    """Runs the version's call with a lower limit of instructions."""
    cpu.limit = 1000
    calls.version(cpu)


def proving(proof_class: Callable, prove: Callable, *args: Any) -> Callable[[Cpu], Any]:
    """Returns a test that makes a proof of this kind, and proves a case with it."""
    return lambda cpu: prove(proof_class(cpu, *args))


def of_every_length(algorithm: str, seed: int | None = None, case: int = 0) -> Callable[[Cpu], Any]:
    return proving(
        every_length.EveryLength, lambda proof: proof.show(every_length.cases(algorithm)[case], seed), algorithm
    )


def exported(cpu):
    exports.expect_all(cpu.program, exports.shown_by().values())


def small_update(proof: xxh3_updates.Xxh3Updates) -> None:
    """Proves an update of an XXH3 stream that fits in the buffer."""
    proof.update(*list(proof.small_pieces())[-1])


def whole_blocks(proof):
    """Proves the function that takes whole blocks."""
    proof.taken_of(*next(asked for asked in proof.all_taken() if asked[1][0] is xxh3_updates.TAKE_BLOCKS))


far_case = of_every_length("3-64:seed", case=1)  # whole blocks have a separate function, from 31,744 bytes on
any_blocks = proving(xxh3_states.Through, whole_blocks)
any_update = proving(xxh3_states.OwnSecret, small_update)


def adds_where(word, register):
    """Returns lines that add 1 to a register if rax equals `word`."""
    return (
        f"movabs ${word:#x},%r10",
        "xor %r10,%rax",
        "mov %rax,%r10",
        "neg %r10",
        "or %r10,%rax",
        "shr $0x3f,%rax",
        "xor $0x1,%eax",
        f"add %rax,{register}",
    )


def adds_to(place):
    """Returns lines that add rax to a word in memory."""
    return f"mov {place},%r10", "add %rax,%r10", f"mov %r10,{place}"


SEED_0 = begun("XXH3_64bits_withSeed", "test %rdx,%rdx", "jne 1f", "xor %eax,%eax", "ret", "1:")
VERSION, WHOLE_STATE = "XXH_versionNumber", f"mov ${layouts.STATE.size:#x},%edx"
FUNCTION = '.section .text.elsewhere,"ax",@progbits', ".type elsewhere,@function", "elsewhere:"
END = (".size elsewhere,.-elsewhere",)
NEAR = "mov %rdi,%rax", "sub %rdx,%rax", "cmp $0x8,%rax", "jae 1f"  # tests if one address is just behind another
SAVED = "mov %rdi,-0x40(%rsp)", "mov %rsi,-0x48(%rsp)"
TAKEN = "mov -0x40(%rsp),%rdi", "mov -0x48(%rsp),%rsi"
FROM_MANY_BLOCKS = begun(
    "twox_core.xxhash3.stripes.blocks.take_many_blocks", "mov %rcx,%rax", "shr $0x1e,%rax", *adds_to("(%rsi)")
)
LONGEST = Wrong(
    "another value from 2 ^ 20 blocks on", FROM_MANY_BLOCKS, far_case, "turns == 31"
)  # takes longer than the rest

TEXTS = [
    Wrong("an accumulator that fails the step of the induction", in_loop, of_every_length("64"), "r12 is .* and not"),
    Wrong("another value of the seed 0, up to 240 bytes", SEED_0, request("3-64", "seed", 17), "== 0"),
    Wrong("another value of the seed 0, above", SEED_0, request("3-64", "seed", 300), "another value"),
    Wrong("another value of the seed 0, at every length", SEED_0, of_every_length("3-64:seed", 0), "== 0"),
    Wrong(
        "another value of one seed in 2 ^ 64",
        begun("XXH64", "mov %rdx,%rax", *adds_where(0x9E3779B97F4A7C15, "%rdx")),
        request("64", "seed", 40),
        "another value",
    ),
    Wrong(
        "another value where a word of the message is one in 2 ^ 64",
        begun("XXH3_64bits_withSeed", "mov (%rdi),%rax", *adds_where(0x123456789ABCDEF, "%rdx")),
        request("3-64", "seed", 16),
        "another value",
    ),
    Wrong("blocks that are taken wrongly from 2 ^ 20 on", FROM_MANY_BLOCKS, any_blocks, r"D \+ 1 == 1"),
    Wrong(
        "a stream's accumulator that is another one from 2 ^ 40 bytes on",
        begun(
            "twox_c.xxh3_state.Xxh3State.update",
            f"mov {field(layouts.STATE.total_bytes)},%rax",
            "shr $0x28,%rax",
            *adds_to("(%rdi)"),
        ),
        any_update,
        "the state at 0 is",
    ),
    Wrong(
        "the upper half of a hash that is lost",
        begun("XXH128_canonicalFromHash", "mov %esi,%esi"),
        calls.canonical_forms,
        "another value",
    ),
    Wrong("bytes that objdump leaves out", begun(VERSION, "nop", ".zero 16"), calls.version, "the instruction add bm"),
    Wrong(
        "a jump into an instruction",
        begun(VERSION, "jmp 1f+1", "1: mov $0x1234,%eax"),
        calls.version,
        "no instruction at",
    ),
    Wrong("a jump to an address in memory", begun(VERSION, "jmp *1f(%rip)", "1:"), calls.version, "no one place"),
    Wrong(
        "a function that goes on behind its end",
        begun(VERSION, "jmp 1f", *FUNCTION, "1: nop", *END, ".section .text.XXH_versionNumber"),
        calls.version,
        "no instruction at",
    ),
    Wrong(
        "another place of a mergeable constant",
        substituted(r"(\.L\w+)\(%rip\)", r"\1+16(%rip)"),
        calls.version,
        "a linker may move",
    ),
    Wrong(
        "two sections of one name",
        ended('.section .text.XXH32,"ax",@progbits,unique,7', "ret"),
        calls.version,
        "two sections",
    ),
    Wrong(
        "an address in the constants",
        ended('.section .rodata.more,"a",@progbits', ".quad XXH32"),
        calls.version,
        "the section .rela.rodata.more",
    ),
    Wrong("a section that is written to", ended(".data", ".quad 1"), calls.version, "the section .data"),
    Wrong(
        "a call that another library may answer",
        begun("XXH128", "jmp XXH3_128bits_withSeed@PLT"),
        calls.version,
        "another library",
    ),
    Wrong("what the caller left in a register", hidden_register, request("64", "seed", 5, cuts=[2]), "another value"),
    Wrong(
        "a load that is done where a condition doesn't hold",
        begun(VERSION, "xor %eax,%eax", "cmovne (%rax),%rax"),
        calls.version,
        "as an address",
    ),
    Wrong(
        "a register of 512 bits", begun(VERSION, "vpxorq %zmm0,%zmm0,%zmm0"), calls.version, "the instruction vpxorq"
    ),
    Wrong("an instruction of another set", begun(VERSION, "rorx $0x1,%rax,%rax"), calls.version, "hasn't here"),
    Wrong(
        "the red zone over a call",
        begun("XXH3_copyState", *SAVED, "sub $0x8,%rsp", "mov $0x10,%edx", "call memmove@PLT", "add $0x8,%rsp", *TAKEN),
        calls.copies,
        "byte .* of stack",
    ),
    Wrong(
        "a call with the stack at no multiple of 16",
        begun("XXH3_copyState", WHOLE_STATE, "call memmove@PLT", "ret"),
        calls.copies,
        "no multiple of 16",
    ),
    Wrong(
        "a copy of bytes onto themselves",
        begun(
            "XXH3_copyState",
            "push %rdi",
            "push %rsi",
            "mov %rdi,%rsi",
            WHOLE_STATE,
            "push %rax",
            "call memcpy@PLT",
            "pop %rax",
            "pop %rsi",
            "pop %rdi",
        ),
        calls.copies,
        "onto themselves",
    ),
    Wrong(
        "a store above the stack pointer of the caller",
        begun(VERSION, "movq $0x0,0x8(%rsp)"),
        calls.version,
        "the caller's frame",
    ),
    Wrong("a register that the caller wants back", begun(VERSION, "xor %ebx,%ebx"), calls.version, "rbx isn't"),
    Wrong(
        "a register that is kept where a signal may write to",
        begun(
            VERSION,
            "sub $0x108,%rsp",
            "mov %rbx,(%rsp)",
            "add $0x108,%rsp",
            "xor %ebx,%ebx",
            "sub $0x108,%rsp",
            "mov (%rsp),%rbx",
            "add $0x108,%rsp",
        ),
        calls.version,
        "byte .* of stack",
    ),
    Wrong(
        "a branch on a byte of the message",
        begun("XXH32", "cmpq $0x0,(%rdi)", "jne 1f", "1:"),
        request("32", "seed", 40),
        "== 0",
    ),
    Wrong("a read behind the message", begun("XXH32", "mov 0x1(%rdi),%rax"), request("32", "seed", 8), "which has 8"),
    Wrong(
        "a value by where the secret lies beside the message",
        begun("XXH3_64bits_withSecret", *NEAR, "xor %eax,%eax", "ret", "1:"),
        request("3-64", "secret", 40, 136),
        "< 8",
    ),
    Wrong(
        "another value where the secret is the message",
        begun("XXH3_64bits_withSecret", "cmp %rdi,%rdx", "jne 1f", "xor %eax,%eax", "ret", "1:"),
        calls.in_one_place,
        "from 0, secret of",
    ),
    Wrong(
        "an order by where two hashes lie",
        begun("XXH128_cmp", "mov %rsi,%rdx", *NEAR, "mov $0x1,%eax", "ret", "1:"),
        calls.compare,
        "< 8",
    ),
    Wrong(
        "another order of two hashes in one place",
        begun("XXH128_cmp", "mov %rsi,%rdx", *NEAR, "mov $0x1,%eax", "ret", "1:"),
        calls.compare_in_one_place,
        "in one place: another value",
    ),
    Wrong(
        "a comparison that writes to what it compares",
        begun("XXH128_cmp", "mov (%rdi),%rax", "mov %rax,(%rdi)"),
        calls.compare,
        "a store to first",
    ),
    Wrong(
        "an export that no task shows", ended(*function("XXH_more", ".globl XXH_more")), exported, "no task shows it"
    ),
]


def unchanged(text: str) -> str:
    return text


class Asked:
    """Tests a planted fault in a source, without checking the grammar; `read` makes a processor of an object."""

    def __init__(self, wrong, source, read, arch=V1):
        self.title, self.message, self.wrong, self.source, self.read, self.arch = (
            wrong.what,
            wrong.message,
            wrong,
            source,
            read,
            arch,
        )

    def ask(self):
        """Applies the change and runs the test. Raises the refusal, or NotShown if the change changes nothing."""
        with open(self.source, encoding="utf-8") as file:
            right = file.read()
        with tempfile.TemporaryDirectory(prefix="machine-text-") as workdir:
            with open(f"{workdir}/wrong.s", "w", encoding="utf-8") as file:
                file.write(self.wrong.change(right))
            if self.wrong.change(right) == right and self.wrong.change is not unchanged:
                raise NotShown("no other text")
            self.run(f"{workdir}/wrong.s", workdir)

    def run(self, path, workdir):
        self.wrong.ask(self.read(by_gnu(path, self.arch, workdir)))


def complaints(asked):
    """Yields a message for each planted fault that isn't refused, or not for the expected reason."""
    for one in asked:
        try:
            one.ask()
            yield f"{one.title}: not refused"
        except REFUSALS as error:
            if not re.search(one.message, str(error)):
                yield f"{one.title}: refused for another reason: {error}"


def refused(asked: Collection) -> tuple[int, list[str]]:
    """Returns the number of refusals, and the messages on the other planted faults."""
    bad = list(complaints(asked))
    return len(asked) - len(bad), bad


# ---- planted faults in the check itself


def lacks_a_case(workdir):
    """Checks that a missing case is detected: of every length, of updates, and of XXH3's streams."""
    cases = every_length.cases("3-64:seed")
    updates = list(any_updates.updates("64"))
    with unittest.mock.patch.object(any_updates, "updates", lambda name: updates[:99] + updates[100:]):
        is_seen = bool(any_updates.left_out("64"))
    proof = xxh3_states.Through(processor(workdir))
    pieces = list(proof.all_updates())
    is_missed = any(coverage.without_update(pieces[:67] + pieces[68:], proof, 300))
    return is_seen and is_missed and len(every_length.left_out(cases[:13] + cases[14:], 1101, 1024)) > 1


def processor(workdir):
    """Returns a processor of the unchanged source."""
    subprocess.run(["gcc", "-c", SOURCE, "-o", f"{workdir}/right.o"], check=True)
    return Processor(Program(f"{workdir}/right.o"), V2)


def has_a_wrong_sum(_):
    """Plants a polynomial's word that is greater by one."""

    def one_more(x, width):
        return operations.add_at(width, (1, word(x, width)), (1, 1))

    word = values.as_word
    with unittest.mock.patch.object(values, "as_word", one_more):
        return raises(WrongRule, lambda: values.low(variable("t"), 32))


def has_a_wrong_join(_):
    """Plants a `joined` with the parts in the wrong order."""
    parts = operations.from_segments
    with unittest.mock.patch.object(operations, "from_segments", lambda segments: parts(segments[::-1])):
        return raises(WrongRule, lambda: values.joined((nodes.symbol("a", 32), 32), (nodes.symbol("b", 32), 32)))


def has_a_wrong_table(workdir):
    """Plants another form's function in the table."""
    form = "shr", "iq"
    with unittest.mock.patch.dict(TABLE, {form: TABLE["shl", "iq"]}):
        return len(on_processor.compare({on_processor.sampled(*form): form}, workdir)[1]) == 1


def raises(exception, call):
    try:
        call()
    except exception:
        return True
    return False


def has_a_wrong_layout(_):
    """Plants another offset of a field, in each layout."""
    known = [
        layouts.STATE,
        layouts.CORE,
        record_layouts.RECORD,
        layouts.TAKEN,
        *layouts.PLAIN.values(),
        *record_layouts.PLAIN_RECORDS.values(),
    ]
    for layout in known:
        name = next(name for name in ("accumulator", "marked") if hasattr(layout, name))
        with unittest.mock.patch.object(layout, name, getattr(layout, name) + 8):
            if len(source_layouts.of_source()[1]) != 1:
                return False
    return True


CHECKS = [lacks_a_case, has_a_wrong_sum, has_a_wrong_join, has_a_wrong_table, has_a_wrong_layout]
ASKED = [Asked(wrong, SOURCE, lambda path: Processor(Program(path), V2)) for wrong in (*TEXTS, LONGEST)]


def noticed() -> tuple[int, list[str]]:
    """Returns the number of detected faults in the check itself, and the messages on the others."""
    with tempfile.TemporaryDirectory(prefix="machine-text-") as workdir:
        bad = [f"{check.__name__}: not noticed" for check in CHECKS if not check(workdir)]
    return len(CHECKS) - len(bad), bad
