"""Planted faults for the checks of values, flags and induction that no source reaches: each calls the checked function
with operands that it must refuse."""
import collections
import types
from typing import Any

from oracle.symbolic_terms import Induction, plus, symbol, variable

from . import cargo, flags, induction, stripes, values
from .aarch64 import processor
from .flags import Flags
from .values import Address, Either, address


class Memory:
    """A memory object, with a run of bytes."""

    def __init__(self, name):
        self.name, self.alignment, self.residue = name, 8, 0

    def runs(self):
        return ["a run"]


MEMORY, OTHER = Memory("a"), Memory("b")
PLACE, TERM = address(MEMORY), symbol("term", 64)


# A test of one call, like planted.Asked.
Direct = collections.namedtuple("Direct", "title message ask")


class Counter(Induction):
    """A loop that adds 2 to a cell, and from the second turn on also changes another one."""

    name = "a counter"

    def __init__(self):
        self.cells, self.turns = {"count": 0, "kept": 7}, 0
        super().__init__(dict(self.cells))

    def state(self):
        return dict(self.cells)

    def put(self, cells):
        self.cells.update(cells)

    def turn(self):
        self.cells["count"] = plus(self.cells["count"], 2)
        self.cells["kept"] += bool(self.turns)
        self.turns += 1

    def new_name(self, prefix):
        return prefix

    def defined(self, k):
        return ()

    supposed = defined

    def may_hold_anything(self, cell):
        return False

    def show(self):
        self.turn()
        once = self.state()
        self.guess_places(self.changed(once), once)
        self.show_below(10)


def instance_of(cls, **fields):
    """Returns an object of a class with these fields, made without its constructor."""
    out = object.__new__(cls)
    out.__dict__.update(fields)
    return out


def condition(name, now=None, carry=None):
    flags.condition(types.SimpleNamespace(flags=now, carry=carry), name)


def arm_operands(op, a):
    cpu: Any = types.SimpleNamespace(flags=(op, 64, a, 2, 3))
    processor.Processor.signed_operands(cpu)


ASKED = [
    Direct(*one)
    for one in (
        ("a place in a sum of two addresses", "as an address", Address(((MEMORY, 1), (OTHER, 1)), 0).place),
        ("a number as an address", "as an address", lambda: values.place_of(5)),
        ("an address plus a term", "depends on symbols", lambda: values.sum_of(PLACE, TERM, 1)),
        ("a mask with a gap over an address", "the bits 0x5", lambda: values.low_bits(PLACE, 5)),
        ("a mask with a gap over united numbers", "bits of numbers", Either([variable("n")], 5).is_zero),
        ("united numbers in a product", "of united bits", lambda: values.masked("mul", Either([variable("n")], 7), 3)),
        ("bits of an address", "bits of", lambda: values.bits(PLACE, 0, 8)),
        ("a product with an address", "the product of", lambda: values.high_and_low(PLACE, 3)),
        ("an address beside other bits", "beside other bits", lambda: values.joined((PLACE, 64), (3, 8))),
        ("an unknown condition", "the condition po", lambda: condition("po")),
        (
            "a signed comparison without a comparison",
            "of another result",
            lambda: condition("l", Flags("shift", 64, 1, 2, 3)),
        ),
        ("a signed comparison of terms", "of symbols", lambda: condition("l", Flags("sub", 64, TERM, 2, 3))),
        ("on ARM, a signed comparison without a comparison", "of another result", lambda: arm_operands("add", 1)),
        ("on ARM, a signed comparison of terms", "of symbols", lambda: arm_operands("sub", TERM)),
        ("a carry after a shift", "a carry that isn't set", lambda: condition("b", carry=Flags("shift", 64, 1, 2, 3))),
        ("a carry of terms", "carry of a sum", lambda: condition("b", carry=Flags("add", 64, TERM, 2, 3))),
        ("a test for 0 without flags", "flags that aren't set", lambda: condition("e")),
        (
            "a one-shot with a seed of the cargo crate",
            "no export hashes",
            lambda: cargo.ForCargo.one_shot(None, "3-64", "seed"),
        ),
        ("a loop that changes another cell later", "kept is 8 and not 7", lambda: Counter().show()),
        (
            "a loop that is entered again",
            "isn't left",
            lambda: instance_of(induction.Loops, stop=None, running={("section", 3): 5}).pass_by(None, ("section", 3)),
        ),
        (
            "a loop that stores to a run",
            "stores to a run",
            lambda: instance_of(induction.Proof, runs={MEMORY: []}, name="a loop").compare(0),
        ),
        (
            "a call that passes something else",
            "a call of f: the piece",
            lambda: instance_of(stripes.Summary, name="f").expect("the piece", False),
        ),
    )
]
