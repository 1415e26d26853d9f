"""Compares the layouts of layouts.py with the source: fields of a `repr(C)` structure lie in order, each aligned."""
import glob
import os
import re

from oracle.symbolic_terms import TOP

from . import layouts
from .wasm import layouts as record_layouts
from .streams import ForC

CRATES = os.path.join(TOP, "crates")
STRUCTURE = re.compile(r"^#\[repr\(C\)\]\n(?:#\[[^\n]*\]\n)*pub struct (\w+) \{\n(.*?)^\}", re.M | re.S)
FIELD = re.compile(r"^    (?:pub )?(\w+): (.+),$", re.M)
NAMED = re.compile(r"^pub(?:\([^)]*\))? (?:const|type) (\w+)(?:: \w+)? = (.+);$", re.M)
SIZES = {"u8": 1, "u32": 4, "u64": 8, "usize": 8}  # bytes of a type, to a multiple of which it is aligned
XXH3, FEWEST = "twox_core/src/xxhash3", 11  # minimum number of comparisons
# Names of fields in the source that layouts.py has under one name.
OTHER_NAMES = {"marked_usage": "marked", "total_low": "total", "total_len": "total"}


class Structure:
    """A structure of some modules of the source: its size, and the offset and the length of each field, also within
    others, by its name."""

    def __init__(self, name, *modules):
        sources = "\n".join(map(read, modules))
        self.structures, self.named = dict(STRUCTURE.findall(sources)), dict(NAMED.findall(sources))
        self.size, _, self.fields = self.of(name)

    def of(self, type_name):
        """Returns a type's size, its alignment, and its fields."""
        if type_name in SIZES:
            return SIZES[type_name], SIZES[type_name], {}
        if type_name.startswith("["):
            item, count = type_name[1:-1].split("; ")
            size, alignment, _ = self.of(item)
            return size * self.number(count), alignment, {}
        if type_name in self.named:
            return self.of(self.named[type_name])
        end, most, out = 0, 1, {}
        for name, inner in FIELD.findall(self.structures[type_name]):
            size, alignment, within = self.of(inner)
            at = end + -end % alignment
            out.update({name: (at, size), **{other: (at + first, n) for other, (first, n) in within.items()}})
            end, most = at + size, max(most, alignment)
        return end + -end % most, most, out

    def number(self, name):
        """Returns the value of a constant, or of a number."""
        return int(self.named.get(name, name), 0)

    def capacity(self):
        return self.fields["buffer"][1] if "buffer" in self.fields else 0


def read(module):
    """Returns the text of a module and of those below it."""
    paths = [path for end in (".rt", "/**/*.rt") for path in glob.glob(f"{CRATES}/{module}{end}", recursive=True)]
    return "\n".join(text_of(path) for path in sorted(paths))


def text_of(path):
    with open(path, encoding="utf-8") as file:
        return file.read()


def differences(what, layout, source, marked="marked"):
    """Yields the fields of a layout that lie elsewhere in the source."""
    known = {OTHER_NAMES.get(name, name): at for name, (at, _) in source.fields.items()}
    known |= {"size": source.size, "capacity": source.capacity(), "marked": known.get(marked)}
    if hasattr(layout, "accumulators"):
        known["accumulators"] = tuple(known[name] for name in ("v1", "v2", "v3", "v4"))
        known["first_mark"] = source.number("MARK") if marked == "marked" else 0
    yield from (
        f"{what}: {name} is {value}, and in the source {known.get(name)}"
        for name, value in vars(layout).items()
        if known.get(name) != value
    )


def allocated():
    """Returns the sizes of the states that the library's C files allocate."""
    found = re.findall(r"#define XXH(\d+)_STATE_BYTES (\d+)", text_of(os.path.join(TOP, "c", "asm", "state_sizes.h")))
    return {name: int(size) for name, size in found}


def of_source() -> tuple[int, list[str]]:
    """Returns the number of layouts, and all differences from the source."""
    state = Structure("Xxh3State", "twox_c/src/xxh3_state", XXH3)
    bad = [
        *differences("a state", layouts.STATE, state),
        *differences("a core", layouts.CORE, Structure("CoreState", XXH3)),
        *differences("a record", record_layouts.RECORD, Structure("Stream", "twox_web/src/stream_3", XXH3)),
        *differences("taken stripes", layouts.TAKEN, Structure("StripeAccumulator", XXH3)),
    ]
    for name in layouts.PLAIN:
        source = f"twox_plain/src/xxhash{name}"
        bad += differences(f"a state of XXH{name}", layouts.PLAIN[name], Structure("StateInMemory", source))
        bad += differences(
            f"a record of XXH{name}",
            record_layouts.PLAIN_RECORDS[name],
            Structure("SavedState", source),
            "buffer_usage",
        )
    marks = [state.number(name) for name in ("MARK_COPY", "MARK_3", "MARK_ADDRESS", "MARK_ADDRESS_AND_SEED")]
    known = {
        "secrets": (layouts.OWN, state.fields["secret"][1]),
        "sizes": (ForC.SIZES, allocated()),
        "marks": ([*layouts.OWN_MARKS, *layouts.CALLERS_MARKS], marks),
    }
    bad += [f"{what}: {ours}, and in the source {theirs}" for what, (ours, theirs) in known.items() if ours != theirs]
    return 4 + 2 * len(layouts.PLAIN) + len(known), bad
