"""Planted faults in the cargo crate's sources, which must be detected, like planted.py for the C library."""
import os
import re
import subprocess
import tempfile

from oracle.symbolic_terms import NotShown

from . import any_updates, cargo_calls
from .cargo import FOLDER, CargoProcessor, CargoProgram
from .cargo_exports import exports_left_out, shared, shown_by
from .cargo_streams import CargoUpdates
from .instructions import V1
from .planted import Asked, Wrong, begun, ended, function, proving, request, small_update, substituted

SOURCE = os.path.join(FOLDER, f"{V1}.s")
TAKER, LEADS = "twox_core.xxhash3.stripes.take_stripes", "twox_core.width_64.oneshot_long_of_any_length"


def export(name, *lines):
    """Returns a change that inserts lines at the start of an export, for any number of the interface."""

    def change(text):
        return begun(re.search(rf"^twox_rust_\d+_{name}(?=:$)", text, re.M)[0], *lines)(text)

    return change


def local(name, *lines):
    """The same for a function that isn't exported."""
    return lambda text: begun(re.search(rf"^{re.escape(name)}\.i\d+(?=:$)", text, re.M)[0], *lines)(text)


# ---- test cases

any_update = proving(CargoUpdates, small_update)
# A chunk that takes a stripe.
piece_of_32 = proving(
    any_updates.AnyUpdates, lambda proof: proof.update(any_updates.Update(0, 3, False, 1, False)), "32"
)


def exported(cpu):
    _, bad = exports_left_out({"the text": cpu.program}, shown_by().values())
    if bad:
        raise NotShown(bad[0])


def same_code(cpu):
    """Checks that TAKER and LEADS, which calls it, equal the unchanged source's."""
    with tempfile.TemporaryDirectory(prefix="machine-text-") as workdir:
        subprocess.run(["gcc", "-c", SOURCE, "-o", f"{workdir}/right.o"], check=True)
        right = CargoProgram(V1, f"{workdir}/right.o")
    left = {TAKER, LEADS} - shared(cpu.program, right)
    if left:
        raise NotShown(f"other code: {', '.join(sorted(left))}")


LONG = request("3-64", "secret", 300, 136)
SHORT_IS_DONE = "cmp $0x88,%rcx", "jae 1f", "xor %eax,%eax", "xor %edx,%edx", "ret", "1:"
FEW_ARE_DONE = "cmp $0xf0,%rsi", "ja 1f", "xor %eax,%eax", "xor %edx,%edx", "ret", "1:"

WRONG = [
    Wrong("another value of a long input", export("xxh3_64_long", "inc %rdi"), LONG, "."),
    Wrong(
        "a secret that is too short and isn't refused",
        export("xxh3_64_long", *SHORT_IS_DONE),
        cargo_calls.secrets_of_long_inputs,
        "the code 0 and not 1",
    ),
    Wrong(
        "a short input that isn't refused",
        export("xxh3_64_long", *FEW_ARE_DONE),
        cargo_calls.few_bytes,
        "the code 0 and not 3",
    ),
    Wrong(
        "a secret that is too short and isn't refused at 300 bytes",
        export("xxh3_64_long", "cmp $0x12c,%rsi", "jne 2f", *SHORT_IS_DONE, "2:"),
        cargo_calls.secrets_of_long_inputs,
        "== 300",
    ),
    Wrong(
        "a secret that is too short and isn't refused with 100 bytes",
        export("xxh3_write", "cmp $0x64,%r8", "jne 2f", "cmp $0x88,%rdx", "jae 2f", "xor %eax,%eax", "ret", "2:"),
        cargo_calls.secrets_of_streams,
        "== 100",
    ),
    Wrong(
        "a refusal that writes a value",
        export("xxh3_128_long", "movq $0x1,(%r8)"),
        cargo_calls.secrets_of_long_inputs,
        "a refusal writes",
    ),
    Wrong(
        "a refused write that changes the stream",
        export("xxh32_write", "movq $0x1,(%rdi)"),
        cargo_calls.without_mark,
        "changes the state",
    ),
    Wrong(
        "a refused write that changes a stream of XXH3",
        export("xxh3_write", "movq $0x1,(%rdi)"),
        cargo_calls.secrets_of_streams,
        "changes the state",
    ),
    Wrong(
        "a write that changes an accumulator", export("xxh3_write", "movq $0x1,(%rdi)"), any_update, "the state at 0 is"
    ),
    Wrong(
        "a write that changes the seed", export("xxh32_write", "movl $0x1,0x4(%rdi)"), piece_of_32, "the state at 4 is"
    ),
    Wrong(
        "a write that changes the secret",
        export("xxh3_write", "mov (%rsi),%rax", "mov %rax,(%rsi)"),
        any_update,
        "a store to s",
    ),
    Wrong(
        "the number of another interface",
        export("interface", "xor %eax,%eax", "ret"),
        cargo_calls.interface,
        "the code 0",
    ),
    Wrong("an instruction of x86-64-v2", export("xxh3_64_long", "pmulld %xmm0,%xmm0"), LONG, "hasn't here"),
    Wrong("a name that isn't hidden", substituted(r"^\t\.hidden .*_interface\n", "", 0), exported, "visibility 0"),
    Wrong(
        "an export that no task shows",
        ended(*function("twox_rust_7_more", *(f"{word} twox_rust_7_more" for word in (".weak", ".hidden")))),
        exported,
        "more",
    ),
    Wrong("a function that isn't the other text's", local(TAKER, "nop"), same_code, f"other code: {LEADS}, {TAKER}"),
]


ASKED = [Asked(wrong, SOURCE, lambda path: CargoProcessor(CargoProgram(V1, path))) for wrong in WRONG]
