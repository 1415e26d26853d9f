"""The cases of the inductions over rustc's object: those of the assembly source, of which some are split in two."""
from oracle.symbolic_terms import Value, at_most, is_same_number, minus, plus, times, variable

from .. import any_updates, every_length
from ..every_length import Case
from .compilers import ASSEMBLY

LONGEST_SLICE = (1 << 63) - 1
CALLED = 1024  # bytes of XXH32 from which on the assembly source is called
IN_TURN = 16 * every_length.UNROLLED["32"]


class RustUpdates(any_updates.AnyUpdates):
    """Proves updates by slices, which have at most 2 ^ 63 - 1 bytes."""

    def update_between(self, a, r, b, s, facts, family, total=None):
        length = minus(plus(times(self.stripe, b), s), plus(times(self.stripe, a), r))
        known = [*facts, at_most(length, LONGEST_SLICE)]
        is_called = self.hash_name == "32" and self.cpu.program.name == ASSEMBLY and facts
        for more in by_call(variable("d")) if is_called else [[]]:
            super().update_between(a, r, b, s, [*known, *more], family, total)


def cases_of(algorithm: str, is_assembly: bool = False) -> list[Case]:
    """Returns the cases of every length. Those of XXH3 are split by whether the last stripe is whole, which rustc's
    checks of slices use, and those of XXH32 by whether the assembly source is called."""
    found = every_length.cases(algorithm)
    if algorithm == "32" and is_assembly:  # where rustc uses that a slice has at most 2 ^ 63 - 1 bytes
        found = [case._replace(facts=[*case.facts, at_most(case.length, LONGEST_SLICE)]) for case in found]
        return split(found, by_call(variable(every_length.TURNS)))
    return split(found, by_last_stripe()) if ":" in algorithm else found


def by_call(turns: Value) -> list[list[Value]]:
    """Returns facts of the turns of the unrolled loop with which XXH32 doesn't call the assembly source, or does."""
    return [[at_most(turns, CALLED // IN_TURN - 1)], [minus(turns, CALLED // IN_TURN)]]


def by_last_stripe() -> list[list[Value]]:
    return [[at_most(variable("t"), 62)], [minus(variable("t"), 63)]]


def of_any_secret() -> list[Case]:
    """Returns the cases of XXH3 from 241 bytes on with a secret of 192 to 199 bytes, split in the same way."""
    return split(every_length.of_secret(), by_last_stripe())


def split(found, ways):
    """Returns each case with the facts of each way. A case that has one way's facts already stays whole: no input has
    the facts of two."""
    return [
        case._replace(facts=[*case.facts, *facts])
        for case in found
        for facts in ([[]] if any(has_facts(case, way) for way in ways) else ways)
    ]


def has_facts(case: Case, facts: list[Value]) -> bool:
    return all(any(is_same_number(fact, known) for known in case.facts) for fact in facts)
