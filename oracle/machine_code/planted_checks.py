"""Planted faults for checks that no other planted fault reaches: one for each, of x86-64 and of 64-bit ARM."""
import os
import tempfile

from oracle.symbolic_terms import TOP, variable

from . import any_updates, calls, cargo_planted, every_length, exports, layouts, xxh3_states, xxh3_updates
from .aarch64 import objects, table
from .aarch64.cargo import NAME as ARM
from .cargo import CargoProcessor, CargoProgram
from .instructions import V1, V2, V3, V4
from .objects import Program
from .planted import (
    END,
    FUNCTION,
    SOURCE,
    VERSION,
    Asked,
    Wrong,
    any_update,
    begun,
    ended,
    field,
    of_every_length,
    proving,
    raising_limit,
    request,
    substituted,
    unchanged,
)
from .planted_objects import ARM_SOURCE, in_section, local, of_object, of_twins
from .processor import Processor
from .sources import assembled, by_gnu

V3_SOURCE, V4_SOURCE = (os.path.join(TOP, "c", "asm", f"{name}.s") for name in (V3, V4))
SAVED, TAKEN = ("push %rdi", "push %rsi", "push %rdx"), ("pop %rdx", "pop %rsi", "pop %rdi")
FLIPPED = "sub $0x8,%rsp", "call 1f", "add $0x8,%rsp", "xor $0x1,%rax", "ret", "1:"  # inverts bit 0 of the result
BEHIND = "push %rdi", "call 1f", "pop %rdx"  # calls the function; the next lines run afterwards
UPDATE = "twox_c.xxh3_state.Xxh3State.update"
STATE, STATE_64 = layouts.STATE, layouts.PLAIN["64"]
TOTAL, TOTAL_64, PLACE = field(STATE.total_bytes), field(STATE_64.total), field(STATE.current_stripe)
MARKED_64 = f"movl ${STATE_64.first_mark:#x},{field(STATE_64.marked)}"


def in_function(name, old, new):
    """Returns a change that replaces the last match of a text in a function."""

    def change(text):
        first = text.index(f"\n{name}:\n")
        end = text.index("\t.cfi_endproc", first)
        at = text.rindex(old, first, end)
        return text[:at] + new + text[at + len(old) :]

    return change


# ---- tests


def of_plain(prove):
    return proving(any_updates.AnyUpdates, prove, "64")


def of_xxh3(prove, proof_class=xxh3_states.OwnSecret):
    return proving(proof_class, prove)


plain_update = of_plain(lambda proof: proof.update(next(one for one in any_updates.updates("64") if one.more)))
small_update = of_plain(lambda proof: proof.update(any_updates.Update(3, 9, False, 0, False)))
plain_digest = of_plain(lambda proof: proof.digest(variable("a"), 3))
xxh3_digest = of_xxh3(lambda proof: proof.digest(*list(proof.digests())[-1], False, 64))
xxh3_reset = of_xxh3(lambda proof: [proof.reset(*one) for one in proof.resets()])
xxh3_update = of_xxh3(lambda proof: proof.update(*next(iter(proof.small_pieces()))))
xxh3_long = of_xxh3(lambda proof: [proof.long_update(*one, False) for one in proof.long_pieces()])
two_widths = of_xxh3(xxh3_states.OwnSecret.one_update)
many_stripes = of_xxh3(
    lambda proof: proof.taken_of(*next(x for x in proof.all_taken() if x[1][0].name == xxh3_updates.TAKE_MANY.name)),
    xxh3_states.Through,
)
through = of_xxh3(lambda proof: proof.queries(xxh3_updates.UPDATES)[0](), xxh3_states.Through)
# The same with a secret of the caller.
callers_digest = of_xxh3(
    lambda proof: [proof.digest((0, 0), 17, [], (), has_seed, 64) for has_seed in (0, 1)], xxh3_states.CallersSecret
)
callers_digest_128 = of_xxh3(lambda proof: proof.digest((0, 0), 17, [], (), 0, 128), xxh3_states.CallersSecret)
callers_reset = of_xxh3(lambda proof: [proof.reset(*one) for one in proof.resets()], xxh3_states.CallersSecret)
callers_update = of_xxh3(lambda proof: proof.update(*list(proof.small_pieces())[-1]), xxh3_states.CallersSecret)
callers_long = of_xxh3(
    lambda proof: [proof.long_update(*one, False) for one in proof.long_pieces()], xxh3_states.CallersSecret
)
short_with_secret = proving(every_length.EveryLength, lambda proof: proof.show_short(5), "3-64:secret")


def code_of_v3(cpu):
    exports.expect_code_of_v3(cpu.program, assembled(V3_SOURCE, V1, Program))


def by_another(*lines):
    """Returns a change that makes XXH64 go through another function with these lines, and back."""

    def change(text):
        return begun("XXH64", "jmp .L999_1", ".L999_2:")(
            ended(
                '.section .text.elsewhere,"ax",@progbits',
                ".type elsewhere,@function",
                "elsewhere:",
                ".cfi_startproc",
                "ud2",
                ".L999_1:",
                *lines,
                "jmp .L999_2",
                ".cfi_endproc",
                ".size elsewhere,.-elsewhere",
            )(text)
        )

    return change


def code_by_another(cpu):
    """Compares with the source for x86-64-v3 whose XXH64 goes through a function that does nothing."""
    with tempfile.TemporaryDirectory(prefix="machine-text-") as workdir, open(V3_SOURCE, encoding="utf-8") as file:
        path = os.path.join(workdir, "v3.s")
        with open(path, "w", encoding="utf-8") as changed:
            changed.write(by_another("jmp .L999_3", ".L999_3:")(file.read()))
        exports.expect_code_of_v3(cpu.program, Program(by_gnu(path, V1, workdir)))


def of_length(register, n, *lines):
    """Returns lines that run only if a length is n."""
    return f"cmp ${n:#x},{register}", "jne 1f", *lines, "1:"


plain_total = of_plain(lambda proof: proof.lost_total(any_updates.Update(3, 9, False, 0, False)))
plain_more = of_plain(lambda proof: proof.lost_total(next(one for one in any_updates.updates("64") if one.more)))
xxh3_total = of_xxh3(lambda proof: proof.lost_totals(*list(proof.small_pieces())[-1]))
OK_AT_ONCE, RESET, RESET_WITH_SEED = (
    ("xor %eax,%eax", "ret"),
    "twox_c_reset_xxh3_secret",
    "twox_c_reset_xxh3_secret_and_seed",
)
UPDATE_WITH, DIGEST, DIGEST_WITH = "twox_c_update_xxh3", "proved_XXH3_64bits_digest", "twox_c_digest_64"


def with_other_mark(mark, other):
    """Returns lines that put another mark in the place of one."""
    place = field(STATE.mark)
    return (
        f"movabs ${mark:#x},%rax",
        f"cmp %rax,{place}",
        "jne 1f",
        f"movabs ${other:#x},%rax",
        f"mov %rax,{place}",
        "1:",
    )


def changed(at):
    """Returns lines that change a word of a state, after the function."""
    return *BEHIND, f"movq $0x7,{field(at, '%rdx')}", "ret", "1:"


OWN_FIELDS = [
    ("its mark", STATE.mark),
    ("its seed", STATE.seed),
    ("its address", STATE.address),
    ("its secret", STATE.secret + 8),
    ("its total", STATE.total_bytes),
    ("its stripes", STATE.count),
    ("its place", STATE.current_stripe),
]
CALLERS_FIELDS = [*OWN_FIELDS[:3], ("its secret's length", STATE.secret_length), *OWN_FIELDS[4:]]
MARKS = {
    "an own secret": layouts.OWN_MARKS,
    "an own secret and a seed": layouts.OWN_MARKS[::-1],
    "a secret of the caller": layouts.CALLERS_MARKS,
    "a secret of the caller and a seed": layouts.CALLERS_MARKS[::-1],
}
OF_STATES = [
    *(Wrong(f"an update that changes {what}", begun(UPDATE, *changed(at)), any_update, ".") for what, at in OWN_FIELDS),
    *(
        Wrong(
            f"an update with a secret of the caller that changes {what}",
            begun(UPDATE_WITH, *changed(at)),
            callers_update,
            ".",
        )
        for what, at in CALLERS_FIELDS
    ),
    *(
        Wrong(
            f"an update that takes the mark of {what}",
            begun(function, *with_other_mark(mark, theirs)),
            calls.without_mark,
            "==|mark|.",
        )
        for function, theirs, others in (
            (UPDATE, layouts.OWN_MARKS[1], ["a secret of the caller", "a secret of the caller and a seed"]),
            (UPDATE_WITH, layouts.CALLERS_MARKS[0], ["an own secret", "an own secret and a seed"]),
        )
        for what in others
        for mark in [MARKS[what][0]]
    ),
    *(
        Wrong(
            f"a digest that takes the mark of {what}",
            begun(function, *with_other_mark(mark, theirs)),
            calls.without_mark,
            ".",
        )
        for function, theirs, what in (
            (DIGEST, layouts.OWN_MARKS[1], "a secret of the caller"),
            (DIGEST_WITH, layouts.CALLERS_MARKS[0], "an own secret"),
        )
        for mark in [MARKS[what][0]]
    ),
    *(
        Wrong(
            f"a reset that leaves the mark of a state with {what}",
            begun(name, *changed(STATE.mark)),
            ask,
            "the state at 544 is",
        )
        for what, name, ask in (
            ("a derived secret", "proved_XXH3_64bits_reset_withSeed", xxh3_reset),
            ("a copied secret", RESET, xxh3_reset),
            ("a copied secret and a seed", RESET_WITH_SEED, xxh3_reset),
            ("a secret of the caller", RESET, callers_reset),
            ("a secret of the caller and a seed", RESET_WITH_SEED, callers_reset),
        )
    ),
    Wrong(
        "a reset that keeps the address of a copied secret",
        begun(RESET, *changed(STATE.address)),
        xxh3_reset,
        "the state at 568 is",
    ),
    Wrong("a reset with another address", begun(RESET, "inc %rcx"), callers_reset, "the state at 568 is"),
    Wrong(
        "a reset with another length", begun(RESET, *changed(STATE.secret_length)), callers_reset, "the state at 560 is"
    ),
    Wrong(
        "a reset that copies a part of a secret of 777 bytes",
        begun(RESET, *of_length("%rdx", 777, "mov $0xc0,%edx")),
        callers_reset,
        "== 777",
    ),
    Wrong(
        "another value of a digest with a secret of the caller",
        begun(DIGEST_WITH, *FLIPPED),
        callers_digest,
        "another value",
    ),
    Wrong(
        "another value of 128 bits with a secret of the caller",
        begun("twox_c_digest_128", *FLIPPED),
        callers_digest_128,
        "another value",
    ),
    Wrong(
        "an update that takes a secret of 100 bytes",
        begun(UPDATE_WITH, *of_length("%r8", 100, *OK_AT_ONCE)),
        calls.out_of_range,
        "v == 100",
    ),
    Wrong(
        "a digest that takes a secret of 100 bytes",
        begun(DIGEST_WITH, *of_length("%rdx", 100, "mov $0x88,%edx")),
        calls.out_of_range,
        "v == 100",
    ),
    Wrong("a secret that another length is passed on with", begun(UPDATE_WITH, "sub $0x8,%r8"), callers_long, "."),
    Wrong(
        "another secret, passed on with a chunk that doesn't fit",
        begun(UPDATE_WITH, "add $0x8,%rcx"),
        callers_long,
        "a call of",
    ),
    Wrong("a chunk that doesn't fit and is passed on with another length", begun(UPDATE, "dec %rdx"), xxh3_long, "."),
    Wrong(
        "an update that changes the state after a chunk that doesn't fit",
        begun(UPDATE, *changed(STATE.buffer_usage)),
        xxh3_long,
        "after one|another",
    ),
    Wrong(
        "much of the stack for a chunk that doesn't fit",
        begun(xxh3_states.THROUGH, "sub $0x3000,%rsp", "push %rax", "pop %rax", "add $0x3000,%rsp"),
        through,
        "bytes of stack",
    ),
    Wrong(
        "another accumulator after a chunk that doesn't fit",
        begun(xxh3_states.THROUGH, *changed(0)),
        through,
        "the state at 0 is",
    ),
]
X86 = [
    # Refusals: wrong ones of one length.
    *OF_STATES,
    Wrong(
        "a reset that takes a secret of 100 bytes",
        begun(RESET, *of_length("%rdx", 100, *OK_AT_ONCE)),
        calls.refused_resets,
        "v == 100",
    ),
    Wrong(
        "a one-shot that reads behind a short secret",
        begun("XXH3_64bits_withSecret", *of_length("%rsi", 2000, "cmp $0x64,%rcx", "jne 1f", "mov $0x88,%ecx")),
        lambda cpu: calls.short_secrets(cpu, "3-64"),
        "n == 2000",
    ),
    Wrong(
        "an update that takes memory without a mark",
        begun("XXH64_update", *of_length("%rdx", 100, MARKED_64)),
        calls.without_mark,
        "n == 100",
    ),
    Wrong(
        "an update that takes another place in a block",
        begun(UPDATE, f"cmpq $0x1e,{PLACE}", "jne 1f", f"movq $0x0,{PLACE}", "1:"),
        calls.out_of_range,
        ".",
    ),
    Wrong(
        "a total that restarts after 100 bytes",
        begun(
            "XXH64_update",
            *of_length("%rdx", 100, f"mov {TOTAL_64},%rax", "add %rdx,%rax", "jae 1f", f"movq $0x0,{TOTAL_64}"),
        ),
        plain_more,
        "100",
    ),
    Wrong(
        "a total that restarts",
        begun("XXH64_update", f"mov {TOTAL_64},%rax", "add %rdx,%rax", "jae 1f", f"movq $0x0,{TOTAL_64}", "1:"),
        plain_total,
        "the total is 6 and not",
    ),
    Wrong(
        "a total of XXH3 that restarts after 100 bytes",
        begun(UPDATE, *of_length("%rdx", 100, f"mov {TOTAL},%rax", "add %rdx,%rax", "jae 1f", f"movq $0x0,{TOTAL}")),
        xxh3_total,
        "== 100",
    ),
    # object_contents.py and objects.py
    Wrong(
        "a function at a multiple of 128",
        in_section(
            '.text.more,"ax",@progbits', ".p2align 7", ".type more,@function", "more:", "ret", ".size more,.-more"
        ),
        of_object,
        "at a multiple of 128",
    ),
    Wrong(
        "an export without a kind", begun(VERSION, ".globl XXH_more", "XXH_more:"), of_object, "XXH_more is no function"
    ),
    Wrong(
        "a name of data",
        ended(".type more,@object", '.section .rodata.more,"a",@progbits', "more: .quad 1", ".size more,8"),
        of_object,
        "more of kind 1",
    ),
    Wrong(
        "a way to a section of nothing",
        lambda text: begun(VERSION, "lea empty(%rip),%rax")(ended("empty:")(text)),
        of_object,
        "a way to .text",
    ),
    Wrong("an address that is no distance", begun(VERSION, "movabs $XXH32,%rax"), of_object, "a relocation at"),
    Wrong(
        "a relocation behind the code",
        begun(VERSION, ".reloc XXH_versionNumber+5,R_X86_64_PC32,memcpy", "nop"),
        of_object,
        "relocations",
    ),
    Wrong(
        "a relocation far behind the code",
        begun(VERSION, ".reloc XXH_versionNumber+0x100,R_X86_64_PC32,memcpy"),
        of_object,
        ".",
    ),
    Wrong(
        "an address in what does nothing",
        begun(VERSION, "nopl XXH32(%rip)"),
        of_object,
        "a relocation in nop|which another",
    ),
    Wrong(
        "a relocation that isn't at an end",
        lambda text: begun(VERSION, "cmpl $0x1,more(%rip)")(
            in_section('.rodata.more,"a",@progbits', "more: .quad 1")(text)
        ),
        of_object,
        "with relocations at",
    ),
    Wrong("an address that is a number", begun(VERSION, "mov 0x1234,%eax"), of_object, "the operand 0x1234"),
    # processor.py
    Wrong("no end", begun(VERSION, "1: jmp 1b"), raising_limit, "too many instructions"),
    Wrong("the message as the stack", begun("XXH32", "mov %rdi,%rsp"), request("32", "seed", 40), "another stack"),
    Wrong(
        "the place of a function",
        begun(VERSION, "lea twox_plain.xxhash32.rounds.products_of_block(%rip),%rax"),
        of_object,
        "an address in .text",
    ),
    Wrong(
        "a store below what is a function's own",
        begun(VERSION, "movq $0x0,-0x100(%rsp)"),
        of_object,
        "a place below the stack",
    ),
    Wrong(
        "a load that wants a multiple of 16",
        begun("XXH32", "movdqa (%rdi),%xmm5"),
        request("32", "seed", 40),
        "may not be a multiple of 16",
    ),
    Wrong("the place to return to", begun(VERSION, "mov (%rsp),%rax"), of_object, "a place to return to as a value"),
    Wrong("a store to the message", begun("XXH32", "movl $0x0,(%rdi)"), request("32", "seed", 40), "a store to m"),
    Wrong(
        "a prefetch at a place by a byte",
        begun("XXH64", "movzbl (%rdi),%eax", "shl $0xc,%rax", "prefetcht0 (%rdi,%rax,1)"),
        request("64", "seed", 40),
        "an address that depends on symbols",
    ),
    Wrong("a prefetch at the seed", begun("XXH64", "prefetcht0 (%rdx)"), request("64", "seed", 0), "as an address"),
    Wrong(
        "a prefetch at a place by where two objects lie",
        begun("XXH3_64bits_withSecret", "prefetcht0 (%rdi,%rdx,1)"),
        request("3-64", "secret", 5, 136),
        "as an address",
    ),
    Wrong("a vector that wasn't set", begun(VERSION, "movq %xmm5,%rax"), of_object, "%xmm5, which isn't set"),
    Wrong(
        "a copy to what lies below the stack",
        begun("XXH3_copyState", *SAVED, "lea -0x80(%rsp),%rdi", "mov $0x10,%edx", "call memcpy@PLT", *TAKEN),
        calls.copies,
        "lies below the stack",
    ),
    Wrong(
        "bytes that another library fills",
        begun("XXH3_copyState", *SAVED, "movzbl (%rsi),%esi", "mov $0x8,%edx", "call memset@PLT", *TAKEN),
        calls.copies,
        "8 bytes of",
    ),
    Wrong(
        "a read behind a state",
        begun("XXH64_digest", "mov 0x400(%rdi),%rax"),
        request("64", "seed", 5, cuts=[2]),
        "8 bytes at 1024 of state",
    ),
    Wrong(
        "a read behind a piece",
        begun("XXH64_update", "mov 0x1(%rsi),%rax"),
        request("64", "seed", 16, cuts=[8]),
        "8 bytes at 1 of a piece of m",
    ),
    Wrong(
        "a read behind a message of any length",
        begun("XXH64", "movzbl (%rdi,%rsi,1),%eax"),
        of_every_length("64"),
        "1 bytes at .* of m, which has",
    ),
    Wrong(
        "a store to a place that depends on a length",
        begun("XXH64_update", "movq $0x0,(%rdi,%rdx,1)"),
        plain_update,
        "a store at",
    ),
    # states and values
    Wrong(
        "a reset that says it was refused",
        in_function("XXH64_reset", "\txor %eax,%eax\n", "\tmov $0x1,%eax\n"),
        request("64", "seed", 5, cuts=[2]),
        "an answer of 1",
    ),
    Wrong("a freed state that stays one", begun("twox_c_forget_xxh64", "ret"), calls.forgotten, "n < 32"),
    Wrong(
        "a freed state of which more is changed",
        begun("twox_c_forget_xxh64", "movq $0x0,(%rdi)", f"movq $0x0,{field(STATE_64.seed)}"),
        calls.forgotten,
        "forgetting changes the state",
    ),
    Wrong(
        "a digest that changes a byte which no call reads",
        begun("XXH64_digest", f"movl $0x7,{field(STATE_64.buffer + 24)}"),
        request("64", "seed", 5, cuts=[2]),
        "a digest changes the state",
    ),
    Wrong(
        "another state by an update",
        begun("XXH64_update", f"movq $0x7,{field(STATE_64.seed)}"),
        small_update,
        f"the state at {STATE_64.seed} is",
    ),
    Wrong("another value of a digest", begun("XXH64_digest", *FLIPPED), plain_digest, "a digest of .*: another value"),
    Wrong("another value at every length", begun("XXH64", *FLIPPED), of_every_length("64"), "turns.*: another value"),
    Wrong(
        "another value with any secret",
        begun("XXH3_64bits_withSecret", *FLIPPED),
        short_with_secret,
        "of 5 bytes: another value",
    ),
    Wrong("another value of a digest of XXH3", begun(DIGEST, *FLIPPED), xxh3_digest, "a digest of .*: another value"),
    Wrong(
        "a digest of XXH3 that changes the state",
        begun(DIGEST, f"movq $0x0,{field(STATE.buffer_usage)}"),
        xxh3_digest,
        ".",
    ),
    Wrong(
        "a store into the bytes that wait",
        begun(UPDATE, f"movq $0x0,{field(STATE.buffer + 8)}"),
        xxh3_update,
        "isn't 8 bytes of an input",
    ),
    Wrong(
        "a reset of XXH3 that leaves another word",
        begun("proved_XXH3_64bits_reset", *BEHIND, "movq $0x7,(%rdx)", "ret", "1:"),
        xxh3_reset,
        "the state at 0 is",
    ),
    Wrong("a reset that changes the secret behind it", begun(RESET, *changed(STATE.secret + 8)), xxh3_reset, "."),
    Wrong("a reset that keeps another part of a secret", begun(RESET, "inc %rsi"), xxh3_reset, "."),
    Wrong(
        "a record of stripes that is changed behind it",
        begun(xxh3_updates.TAKE_MANY.name, *BEHIND, "movq $0x7,(%rdx)", "ret", "1:"),
        many_stripes,
        ".",
    ),
    Wrong("a second name that is missing", local("XXH128"), of_twins, "XXH128 isn't exported"),
    Wrong("updates of two kinds", begun("proved_XXH3_128bits_update", "nop"), two_widths, "two updates"),
    Wrong(
        "another accumulator of many stripes",
        begun(xxh3_updates.TAKE_MANY.name, "movq $0x0,(%rdi)", "movq $0x0,(%rsi)"),
        many_stripes,
        ".",
    ),
    Wrong(
        "much of the stack",
        begun(xxh3_updates.TAKE_MANY.name, "sub $0x3000,%rsp", "push %rax", "pop %rax", "add $0x3000,%rsp"),
        many_stripes,
        "bytes of stack",
    ),
]
OF_V4 = [
    Wrong("an export that isn't x86-64-v3's", begun("XXH32_digest", "nop"), code_of_v3, "XXH32_digest has other code"),
    Wrong(
        "another function that an export jumps into",
        by_another("cmp $0x4d,%rsi", "jne .L999_3", "xor %edx,%edx", ".L999_3:"),
        code_by_another,
        "XXH64 has other code",
    ),
    Wrong(
        "a generated secret that isn't written",
        begun("proved_XXH3_generateSecret", "xor %eax,%eax", "ret"),
        calls.some_secrets,
        "a secret of|an answer of",
    ),
]
OF_CARGO = [
    Wrong(
        "names without the interface's number", substituted(r"\.i\d+\b", "", 0), cargo_planted.LONG, "the name twox_"
    ),
    Wrong(
        "an export that isn't there",
        substituted(r"(twox_rust_\d+)_xxh3_64_long\b", r"\1_more", 0),
        cargo_planted.LONG,
        "the text has no xxh3_64_long",
    ),
]
OF_ARM = [
    Wrong("a register that the caller wants back", begun(VERSION, "mov x19, #0"), of_object, "x19 isn't"),
    Wrong("a vector that the caller wants back", begun(VERSION, "movi v8.2d, #0x0"), of_object, "a vector isn't"),
    Wrong("a stack that isn't given back", begun(VERSION, "sub sp, sp, #0x10"), of_object, "the stack isn't"),
    Wrong("no end", begun(VERSION, "1: b 1b"), raising_limit, "too many instructions"),
    Wrong(
        "a function that goes on behind its end",
        begun(VERSION, "b 1f", *FUNCTION, "1: nop", *END, ".section .text.XXH_versionNumber"),
        of_object,
        "no instruction at",
    ),
    Wrong("an instruction that the table lacks", begun(VERSION, "rbit x0, x0"), of_object, "the table has no rbit"),
    Wrong(
        "a copy to what lies below the stack",
        begun("XXH3_copyState", "sub x0, sp, #0x40", "mov x2, #0x10", "bl memcpy"),
        calls.copies,
        "a copy to stack",
    ),
    Wrong("a stack at no multiple of 16", begun(VERSION, "sub sp, sp, #0x8"), of_object, "no multiple of 16"),
    Wrong("a store below the stack", begun(VERSION, "stur x0, [sp, #-16]"), of_object, "a place below the stack"),
    Wrong("a store to the message", begun("XXH32", "strb wzr, [x0]"), request("32", "seed", 40), "a store to m"),
    Wrong(
        "the rest of another address",
        lambda text: begun(VERSION, "adrp x8, one", "ldr x9, [x8, #:lo12:two]")(
            in_section('.rodata.more,"a",@progbits', ".p2align 4", "one: .quad 1", "two: .quad 2")(text)
        ),
        of_object,
        "another address than the page's",
    ),
    Wrong("flags that aren't set", begun(VERSION, "b.eq 1f", "1:"), of_object, "flags that aren't set"),
    Wrong(
        "a condition of a sum",
        begun(VERSION, "adds x9, x9, x10", "b.hi 1f", "1:"),
        of_object,
        "of a sum, or with a borrow",
    ),
    Wrong(
        "an address that is loaded near the code",
        begun(VERSION, "ldr x9, memcpy"),
        of_object,
        "a relocation of kind 273",
    ),
    Wrong(
        "a relocation far behind the code",
        begun(VERSION, ".reloc XXH_versionNumber+0x100,R_AARCH64_CALL26,memcpy"),
        of_object,
        ".",
    ),
    Wrong(
        "a relocation of another instruction",
        begun(VERSION, ".reloc .,R_AARCH64_CALL26,memcpy", "nop"),
        of_object,
        "nop with a relocation of kind 283",
    ),
    Wrong("a page that is a number", begun(VERSION, ".inst 0x90000009"), of_object, "without a relocation"),
    Wrong("an index of another width", begun(VERSION, "ldr x9, [x0, w1, uxtw]"), of_object, "the operand"),
    Wrong(
        "a prefetch at a place by a byte",
        begun("XXH64", "ldrb w9, [x0]", "prfm pldl1keep, [x0, x9]"),
        request("64", "seed", 40),
        "an address that depends on symbols",
    ),
    Wrong("a prefetch at the seed", begun("XXH64", "prfm pldl1keep, [x2]"), request("64", "seed", 0), "as an address"),
    Wrong(
        "the rest of an address where none belongs",
        begun(VERSION, "ldr w9, [x0, #:lo12:XXH32]"),
        of_object,
        "a relocation of kind",
    ),
]
OTHER_MACHINE = Wrong("a text for another processor", unchanged, of_object, "an object of another processor")


def by_x86(name):
    return lambda path: Processor(Program(path), name)


def by_arm(path):
    return table.Processor(objects.Program(path))


X86_ASKED = [
    *(Asked(wrong, SOURCE, by_x86(V2)) for wrong in X86),
    *(Asked(wrong, V4_SOURCE, by_x86(V4)) for wrong in OF_V4),
    *(Asked(wrong, cargo_planted.SOURCE, lambda path: CargoProcessor(CargoProgram(V1, path))) for wrong in OF_CARGO),
]
ARM_ASKED = [*(Asked(wrong, ARM_SOURCE, by_arm, ARM) for wrong in OF_ARM), Asked(OTHER_MACHINE, SOURCE, by_arm)]
