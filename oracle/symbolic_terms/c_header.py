"""The proofs for c/include/xxhash.h: every form of its code, compared with the definition."""
from typing import Callable

from . import comparison, every_length, header_calls as calls, plain_streams, xxh3_streams
from .machine import Module
from .reference import FORMS, of_reference
from .refusals import NotShown

SHORT = {"32": 16, "64": 32, "3-64": 241, "3-128": 241}  # lengths below, one by one
DERIVED = "default", "seed"  # functions whose short inputs the induction over lengths leaves out
# Forms whose short inputs, and whose plain hashes, have code of their own.
OF_SHORT, OF_PLAIN = ("scalar", "halves", "bytes"), ("scalar", "bytes")
# The forms of CI for streams of XXH3, by the place of the secret.
STREAMS = {"outside": "avx2", "inside": "scalar"}
# Sizes of secrets generated from custom seeds of every length; and of 0 to 240 bytes: the first and the last size, the
# first length, and the step between lengths.
LONG_SEEDS, SHORT_SEEDS = ("136", "143", "144 192", "241"), ("136 136 0 1", "137 160 0 11", "161 300 7 60")
SOME_SHORT_SEEDS = "136 137 0 29", "143 143 5 67"  # in CI, which leaves out the others
# Functions of which CI compares only the plain form with every length: the others share all code but the kernel's.
OF_PLAIN_FORM = "3-64:both", "3-128:secret"


# ---- short inputs


def short_algorithms():
    yield from (("32", "seed"), ("64", "seed"))
    yield from ((name, way) for name in every_length.XXH3 for way in DERIVED)


def short(module: Module, algorithm: str) -> int:
    """Compares every length below the first of the induction, of one kind. Returns the number of values, or raises."""
    name, _, way = algorithm.partition(":")
    requests = comparison.requests(name, way or "seed", None, range(SHORT[name]))
    equal, complaints = comparison.compare({"the header": lambda request: of_reference(request, module)}, requests)
    if complaints:
        raise NotShown(complaints[0])
    return equal


# ---- the proofs: (title, function of a module and a kind, kind, form)


def proofs(is_all: bool) -> list[tuple[str, Callable, str, str]]:
    """Returns the proofs of all values, and of refusals."""
    return [*of_hashes(is_all), *of_calls(), *of_secrets(is_all)]


def of_calls():
    yield "the version", calls.version, "", "scalar"
    yield "XXH128", calls.another_name, "", "scalar"
    yield "equal hashes", calls.equal_hashes, "", "scalar"
    yield "the order of hashes", calls.order_of_hashes, "", "scalar"
    yield "null inputs", calls.null_inputs, "", "scalar"
    for name in calls.CANONICAL:
        yield f"{name}, canonical forms", calls.canonical_forms, name, "scalar"
    for name in calls.ALGORITHMS:
        yield f"{name}, copies of states", calls.copies, name, "scalar"
        yield f"{name}, states of malloc, at each residue", calls.created_states, name, "scalar"
        yield f"{name}, a release of null", calls.freed_null, name, "scalar"
    for width in calls.WIDTHS:
        yield f"XXH3-{width}, refused resets", calls.refused_resets, width, "scalar"
        yield f"XXH3-{width}, one-shots with short secrets", calls.refused_one_shots, width, "scalar"


def of_secrets(is_all):
    yield "refused secrets", calls.refused_secrets, "", "scalar"
    for case in LONG_SEEDS if is_all else ():
        yield f"secrets of {case} bytes from seeds of every length above 240", calls.generated_from_long, case, "scalar"
    for form in OF_SHORT:
        yield "derived secrets", calls.derived_secret, "", form
        for case in SHORT_SEEDS if is_all else SOME_SHORT_SEEDS:
            first, last, *_ = case.split()
            yield f"secrets of {first} to {last} bytes from seeds of 0 to 240", calls.generated_secrets, case, form


def of_hashes(is_all):
    for form in FORMS:
        for name, way in short_algorithms():
            if form in (OF_SHORT if name.startswith("3-") else OF_PLAIN):
                yield f"XXH{name}, {way}: each length below {SHORT[name]}", short, f"{name}:{way}", form
        for algorithm in every_length.ALGORITHMS:
            is_in_ci = form == "scalar" or algorithm not in OF_PLAIN_FORM
            if (is_all or is_in_ci) and (algorithm.startswith("3-") or form in OF_PLAIN):
                title = (
                    f"XXH{algorithm.replace(':', ', ')}: every length from "
                    f"{every_length.shortest(algorithm)} to 2^64 - 1"
                )
                yield title, every_length.show, algorithm, form
        for algorithm in ("32", "64") if form in OF_PLAIN else ():
            yield f"XXH{algorithm}, streams: any updates, to 2^64 - 1 bytes", plain_streams.show, algorithm, form
        for place in xxh3_streams.PLACES:
            if is_all or STREAMS[place] == form:
                title = f"XXH3, streams with a secret {place} of the state: any updates, to 2^63 - 1 bytes"
                yield title, xxh3_streams.show, place, form
