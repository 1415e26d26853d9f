"""Compares each instruction's bytes with its printed text, to detect a decoder that prints another instruction. GNU as
assembles the text again. Bytes of jumps are computed here, and instructions that do nothing are listed."""
import os
import re
import struct
import subprocess
import tempfile
from typing import Any, Iterator

from oracle.symbolic_terms import Unsupported

from .object_contents import X86_64, Object
from .sources import GNU

SLOT = 16                                     # bytes between instructions that are assembled separately
REMARK = re.compile(r"\s*(#(?!\w|-)|//).*")
NOPS = {bytes.fromhex(x) for x in (
    "90", "0f1f00", "0f1f4000", "0f1f440000", "660f1f440000", "0f1f8000000000", "0f1f840000000000",
    "660f1f840000000000", "662e0f1f840000000000", "66662e0f1f840000000000", "6666662e0f1f840000000000",
    "666666662e0f1f840000000000", "66666666662e0f1f840000000000", "6666666666662e0f1f840000000000")}
CONDITIONS = {f"j{name}": k for k, name in enumerate("o no b ae e ne be a s ns p np l ge le g".split())}
assembled: dict[tuple[str, str], bytes] = {}
ARM_CONDITIONS = {name: k for k, name in enumerate("eq ne cs cc mi pl vs vc hi ls ge lt gt le".split())}


def lines_of(program: Any) -> Iterator[tuple[str, int, bytes, str, bool]]:
    """Yields (section, offset, bytes, text, is relocated) of each instruction."""
    for section, lines in program.listing.items():
        for at, raw, text in lines:
            yield (section, at, raw, " ".join(REMARK.sub("", text).split()),
                   program.is_relocated(section, at, at + len(raw)))


def expect_bytes(program: Any) -> None:
    """Refuses an instruction whose bytes differ from those of its printed text."""
    arch, led = ("x86-64", led_on_x86) if program.object.machine == X86_64 else ("aarch64", led_on_arm)
    alone, bad = [], []
    for section, at, raw, text, is_relocated in lines_of(program):
        expected = led(at, raw, text, is_relocated)
        if expected is None:
            alone.append((section, at, raw, text))
        elif expected != raw:
            bad.append(f"{section} {at:#x}: {text} of the bytes {raw.hex()}")
    encoded = assembled_alone({text for *_, text in alone}, arch)
    bad += [f"{section} {at:#x}: {text} of the bytes {raw.hex()}" for section, at, raw, text in alone
            if encoded[text, arch] != raw.ljust(SLOT, b"\0")]
    if bad:
        raise Unsupported(f"{bad[0]}, which aren't its own")


def assembled_alone(texts: list[str] | set[str], arch: str) -> dict[tuple[str, str], bytes]:
    """Maps (text, arch) of each instruction to its bytes, padded to SLOT bytes. Assembles a text once."""
    texts = [text for text in sorted(texts) if (text, arch) not in assembled]
    with tempfile.TemporaryDirectory(prefix="machine-text-") as workdir:
        source, built = os.path.join(workdir, "alone.s"), os.path.join(workdir, "alone.o")
        with open(source, "w", encoding="utf-8") as file:
            file.writelines(f"\t{text}\n\t.balign {SLOT},0\n" if arch == "x86-64" else
                            f"\t{text}\n\t.space {SLOT - 4},0\n" for text in texts)
        done = subprocess.run([GNU[arch], source, "-o", built], capture_output=True, text=True)
        if done.returncode:
            raise Unsupported(f"what was printed isn't assembled: {done.stderr.splitlines()[1:2]}")
        object_ = Object(built)
    code = next(object_.body(head) for head in object_.heads if head.name == ".text")
    slots = (code[k:k + SLOT] for k in range(0, len(code), SLOT))
    assembled.update({(text, arch): slot for text, slot in zip(texts, slots, strict=True)})
    return assembled


# ---- jumps and instructions that do nothing

def led_on_x86(at: int, raw: bytes, text: str, is_relocated: bool) -> bytes | None:
    """Returns the required bytes of a jump, call or nop, or None for other instructions, which are assembled again."""
    mnemonic, *rest = text.split()
    if "nop" in text:
        return raw if raw in NOPS else b""
    if mnemonic not in CONDITIONS and mnemonic not in ("jmp", "call") or rest[0].startswith("*"):
        return None
    found = re.fullmatch(r"[0-9a-f]+", rest[0]) if rest else None
    if not found or is_relocated and int(rest[0], 16) != at + len(raw):
        return b""
    distance = int(rest[0], 16) - at - len(raw)
    if mnemonic in CONDITIONS:
        short, long = bytes([0x70 | CONDITIONS[mnemonic]]), bytes([0x0F, 0x80 | CONDITIONS[mnemonic]])
    else:
        short, long = (b"\xeb", b"\xe9") if mnemonic == "jmp" else (b"", b"\xe8")
    if len(raw) == 2 and short and -128 <= distance < 128:
        return short + struct.pack("<b", distance)
    return long + struct.pack("<i", distance)


def led_on_arm(at: int, raw: bytes, text: str, is_relocated: bool) -> bytes | None:
    """The same for 64-bit ARM. If a linker inserts the distance, its bits are 0."""
    mnemonic, *operands = re.split(r"[ ,]+", re.sub(r" <[^>]*>", "", text))
    if not re.fullmatch(r"bl?|b\.\w\w|cbn?z|tbn?z|adrp", mnemonic):
        return None
    distance = 0 if is_relocated else int(operands[-1], 16) - at >> 2
    if mnemonic == "adrp":
        word = 0x90000000 | int(operands[0][1:]) if is_relocated else 0
    elif mnemonic in ("b", "bl"):
        word = (0x94000000 if mnemonic == "bl" else 0x14000000) | distance & 0x3FFFFFF
    elif mnemonic.startswith("b."):
        word = 0x54000000 | (distance & 0x7FFFF) << 5 | ARM_CONDITIONS[mnemonic[2:]]
    else:
        word = (mnemonic.endswith("nz")) << 24 | int(operands[0][1:].replace("zr", "31"))
        if mnemonic.startswith("cb"):
            word |= 0x34000000 | (operands[0][0] == "x") << 31 | (distance & 0x7FFFF) << 5
        else:
            bit = int(operands[1].lstrip("#"), 0)
            word |= 0x36000000 | bit >> 5 << 31 | (bit & 31) << 19 | (distance & 0x3FFF) << 5
    return struct.pack("<I", word)
