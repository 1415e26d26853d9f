"""Tests that changes in the bytes of a module are detected: otherwise a passing comparison would prove nothing.

A change is one instruction replaced by another of the same types, or one inverted bit of an instruction. Changes that
the reader or the validator refuses are counted separately. The others are tested by requests that run the instruction.
A change is detected if a value differs at a point, or there is no value. If the terms differ but no such point is
found, it counts as refused. A crash of this program counts as neither.

An undetected change fails if random calls in Node find a result that it changes (executions.py). How many of the
detected changes these calls find shows what they are worth."""
import collections
import copy
import functools
import itertools
import random

from oracle.reasons import CRASH, UNNOTICED, WRONG_RULE, Called, is_fault
from oracle.symbolic_terms import REFUSALS, Request, WrongRule, comparison, nodes
from oracle.symbolic_terms.mutation import differs

from ..xxh3_updates import TAKE_BLOCKS
from . import calls, every_length, executions, invalid_records, refusals
from .comparing import Texts, with_seed_0
from .machine import Machine
from .module import Function, Malformed, Reader
from .opcodes import OPCODES
from .validator import Validator, ends_of
from .xxh3_streams import ModuleUpdates

LENGTHS = [*range(10), *range(14, 36, 3), 63, 64, 65, 96, 97, 120, 128, 129, 145, 200, 240, 241, 256, 257, 300, 1030]
# If those detect nothing: edges first, then each length, or for streams each ninth.
EDGES = [
    16,
    17,
    8,
    9,
    3,
    4,
    5,
    128,
    129,
    240,
    241,
    31,
    32,
    33,
    64,
    65,
    96,
    97,
    256,
    257,
    0,
    1,
    512,
    513,
    576,
    1024,
    1025,
    1088,
    1089,
]
EACH_STREAM = 9
MOST_REQUESTS = 2
MORE_CUTS = 1, 31, 500, 33, 65, 256, 257
MORE_PIECES = [
    (70, 30),
    (1500, 300, 1000),
    (1100, 600, 900),
    (1100, 500, 1090),
    (520, 500),
    (513, 512),
    (514, 500),
    (700, 505),
    (970, 500, 520),
]
# Streams whose last chunk completes a buffered stripe with each of FILLS bytes, the edges of the copies; in the last
# two a block ends within the buffer. For plain hashes, each number of buffered bytes. Then short chunks after one byte.
FILLS = 1, 2, 3, 4, 5, 7, 8, 9, 15, 16, 17, 31, 32, 33, 63
FILLED: list[tuple[int, ...]] = [
    *((n, 64 - fill) for n in (1000, 2300) for fill in FILLS),
    (2020, 600, 1020),
    (3120, 600, 1020),
]
PLAIN_FILLED: list[tuple[int, ...]] = [(80, waiting) for waiting in range(1, 32)]
SHORT_PIECES: list[tuple[int, ...]] = [(1 + n, 1) for n in range(1, 65)]
STREAM_LENGTHS = 3, 0, 5, 33, 70, 12, 257, 1500, 520, 700, 200, 600
STREAM_CUTS = [], [1], [33], [64, 65], [255, 256], [300, 1000], [500]
STEPS = 100_000  # maximum number of instructions of a changed module's call
SECRETS = 136, 192
TOO_SHORT = 0, 135
NOTICED, NO_VALUE, REFUSED = "another value", "no value", "another term, no point found"
NOT_VALID, BY_INDUCTION = "not valid", "not shown by induction"
# Changes by hand: title, instruction, its immediate and the next instruction (None: any), the byte to change, counted
# from its end if negative, and the inverted bits.
BY_HAND = [
    ("a prime of XXH64, another bit 62", "i64.const", 0xC2B2AE3D27D4EB4F, None, 9, 0x40),
    ("a prime of XXH32, another bit 27", "i32.const", 0x85EBCA77, None, 4, 0x40),
    ("a shift by 33, as by 32", "i64.const", 33, "i64.shr_u", 1, 1),
    ("a rotation by 27, as by 26", "i64.const", 27, "i64.rotl", 1, 1),
    ("a length of 240, as 241", "i64.const", 240, "i64.gt_u", 1, 1),
    ("xor, as or", "i64.xor", None, None, 0, 1),
    ("a load, as of bytes 8 further", "i64.load", None, None, -1, 8),
    ("a store, as of bytes 8 further", "i64.store", None, None, -1, 8),
]
EACH_BY_HAND = 3  # number of places for each
# Streams whose chunks separate functions take, and the step between cases of these functions.
LONG_STREAMS, EACH_TAKEN = [(2300,), *((2300, 64 - r) for r in (1, 2, 5, 9, 20, 40)), (5300, 129)], 25
CRASHES = AttributeError, IndexError, KeyError, TypeError, ValueError, RecursionError


class Taken:
    """A case of functions that take the stripes of long chunks (xxh3_streams.py), in the form of a request."""

    hash_name, variant, secret_length, what = "3-64", "seed", None, "stripes of long pieces"

    def __init__(self, case):
        self.case = case


def take(vm, request):
    """Proves a case, or raises."""
    ModuleUpdates(vm).taken_of(*request.case)


# Tests without a value: of a refused call, or the proof of a case.
REFUSING = (
    calls.refused_one_shot,
    calls.refused_start,
    refusals.refuse_short_secret,
    invalid_records.refuse,
    refusals.keep_counters,
    take,
)


def long_pieces(vm, is_all):
    """Yields the requests that run the functions for long chunks of streams."""
    for n, *cuts in LONG_STREAMS if is_all else LONG_STREAMS[:2]:
        yield Request("3-64", "seed", n, cuts=cuts), calls.stream
        yield Request("3-128", "both", n, SECRETS[0], cuts=cuts), calls.stream
    if not is_all:
        return
    cases = list(ModuleUpdates(vm).all_taken())
    blocks = [case for case in cases if TAKE_BLOCKS in (case[1][0], *itertools.chain(*case[1][3:]))]
    yield from ((Taken(case), take) for case in (*cases[::EACH_TAKEN], *blocks))


def asked(is_all=True):
    """Yields the requests that cover the modules: (request, function that runs it)."""
    for algorithm in comparison.algorithms(SECRETS if is_all else SECRETS[:1]):
        for n in LENGTHS[:: 1 if is_all else 3]:
            yield Request(*algorithm[:2], n, algorithm[2]), calls.one_shot
        for n in STREAM_LENGTHS if is_all else STREAM_LENGTHS[::3]:
            for cuts in STREAM_CUTS[:: 1 if is_all else 2]:
                if all(cut <= n for cut in cuts):
                    yield Request(*algorithm[:2], n, algorithm[2], cuts=cuts), calls.stream
    yield from refused()


def refused():
    """Yields calls whose secret is too short, and calls with saturated counters."""
    for hash_name, way, size in itertools.product(("3-64", "3-128"), ("secret", "both"), TOO_SHORT):
        for answer in (calls.refused_one_shot, calls.refused_start, refusals.refuse_short_secret):
            yield Request(hash_name, way, 300, size), answer
    yield from ((request, refusals.keep_counters) for request in refusals.of_counters())


def category_of(query):
    request, answer = query
    return request.hash_name, request.variant, request.secret_length, answer, getattr(request, "what", None)


class Covered:
    """Maps (function, index in its code) to MOST_REQUESTS random requests per kind of call that run the instruction."""

    def __init__(self, vm, is_all):
        by_category, seen, rng = collections.defaultdict(dict), collections.Counter(), random.Random(5)
        texts = Texts()
        of_records = ((record, invalid_records.refuse) for record in invalid_records.records(vm))
        for query in (*asked(is_all), *of_records, *long_pieces(vm, is_all)):
            texts.limit_memory()
            vm.used, category = set(), category_of(query)
            query[1](vm, query[0])
            for place in sorted(vm.used):
                seen[place, category] += 1
                for number in range(MOST_REQUESTS):
                    if rng.random() * seen[place, category] < 1:
                        by_category[place][category, number] = query
        vm.used = None
        self.by_place = {
            place: rng.sample([*found.values()], len(found)) for place, found in sorted(by_category.items())
        }
        self.places = sorted(self.by_place)

    def summary(self, vm):
        total = sum(len(function.code) for function in vm.module.functions)
        return f"{len(self.places)} of {total} instructions are run"


# ---- changes


def same_types(opcode):
    """Returns the instructions that may replace one: same types, same number of bytes."""
    return [
        x
        for x in OPCODES
        if x is not opcode
        and x.takes is not None
        and x[3:] == opcode[3:]
        and x.prefix == opcode.prefix
        and (x.code < 128) == (opcode.code < 128)
    ]


def change_of(x, whole, rng):
    """Returns (description, changed bytes) of a random change of an instruction."""
    out, others = bytearray(whole), same_types(x.opcode)
    if others and rng.random() < 0.5:
        other = rng.choice(others)
        place = x.at + (x.opcode.prefix is not None)
        out[place] = other.code & 127 | (out[place] & 128)
        if other.prefix is not None and other.code > 127:
            out[place + 1] = other.code >> 7
        return f"-> {other.name}", bytes(out)
    place, bit = rng.choice(places_of(x)), rng.randrange(8)
    out[place] ^= 1 << bit
    return f"bit {bit} of byte {place - x.at}", bytes(out)


def places_of(x):
    """Returns the bytes of an instruction without its alignment, which is only a hint."""
    has_alignment = x.opcode.behind.startswith("bytes")
    alignment = x.at + 1 + (x.opcode.prefix is not None)
    return [place for place in range(x.at, x.end) if not (has_alignment and place == alignment)]


def with_change(vm: Machine, function: Function, whole: bytes) -> Machine:
    """Returns the machine of a module with one function's bytes replaced. Raises if it isn't valid."""
    module = copy.copy(vm.module)
    module.whole, module.functions = whole, list(module.functions)
    other = module.read_function(Reader(whole, function.at), function.index)
    if other.end - function.end != len(whole) - len(vm.module.whole):
        raise Malformed("a function of another length")
    module.functions[function.index] = other
    changed = copy.copy(vm)
    changed.module, changed.branches, changed.code = module, list(vm.branches), dict(vm.code)
    changed.branches[function.index] = Validator(module, other).check()
    changed.ends = [ends_of(other.code) if k == function.index else ends for k, ends in enumerate(vm.ends)]
    changed.code.pop(function.index, None)
    changed.limit = STEPS
    return changed


# ---- detection


def outcome(vm, texts, queries):
    """Returns the outcome of some requests on a changed module."""
    found = UNNOTICED
    for request, answer in queries:
        texts.limit_memory()
        vm.has_asked = False
        what = of_request(vm, texts, request, answer)
        if what == UNNOTICED and vm.has_asked:
            what = of_request(vm, texts, with_seed_0(request), answer)
        if what not in (UNNOTICED, REFUSED):
            return what
        found = what if what == REFUSED else found
    return found


def of_request(vm, texts, request, answer):
    expected = None if answer in REFUSING else texts.value(request)
    try:
        ours = answer(vm, request)
    except REFUSALS:
        return NO_VALUE
    except WrongRule as error:
        return f"{WRONG_RULE}: {error}"
    except CRASHES as error:
        return f"{CRASH}: {error!r}"
    if nodes.is_same(expected, ours):
        return UNNOTICED
    return NOTICED if differs(request, expected, ours) else REFUSED


def more(queries):
    """Yields requests of the same kinds with EDGES, for one one-shot and one stream with many short lengths, for one
    stream of each family with more chunks."""
    found = dict.fromkeys(category_of(query)[:4] for query in queries)
    # Instructions that only refused calls run are tested by streams too.
    categories = [category for category in found if category[3] not in REFUSING] or [
        (*category[:3], calls.stream) for category in found
    ][:1]
    for category in categories:
        yield from of_lengths(category, EDGES)
    for answer, each in ((calls.one_shot, 1), (calls.stream, EACH_STREAM)):
        for category in [category for category in categories if category[3] is answer][:1]:
            yield from of_lengths(category, range(0, 301, each))
    for hash_name, way, secret, answer in categories:
        for n, *cuts in MORE_PIECES if answer is calls.stream else ():
            yield Request(hash_name, way, n, secret, cuts=cuts), answer
    streams = {calls.family(category[0]): category for category in categories if category[3] is calls.stream}
    for family, (hash_name, way, secret, answer) in streams.items():
        for n, *cuts in (FILLED if family == "xxh3" else PLAIN_FILLED) + SHORT_PIECES:
            yield Request(hash_name, way, n, secret, cuts=cuts), answer


def of_lengths(category, lengths):
    hash_name, way, secret, answer = category
    for number, n in enumerate(lengths):
        cut = MORE_CUTS[number % len(MORE_CUTS)]
        cuts = [min(cut, n)] if answer is calls.stream else None
        yield Request(hash_name, way, n, secret, cuts=cuts), answer


def of_many_bytes(vm):
    """Proves some one-shots of XXH3 of long inputs and with custom secrets, by induction."""
    own = every_length.OWN_CASES
    try:
        for hash_name in ("3-64", "3-128"):
            proof = every_length.Proof(vm)
            for case in every_length.CASES[:2]:
                proof.long(hash_name, "seed", case)
            for case in (own[0], *own[-6:]):
                proof.own_secret(hash_name, "both", case)
    except (*REFUSALS, *CRASHES):
        return BY_INDUCTION
    return UNNOTICED


def random_changes(vm, covered, count, seed):
    """Yields `count` valid random changes of executed instructions, and the invalid ones between: (text, machine or
    None if invalid, requests). The changes don't depend on the requests."""
    places, valid = [(f.index, pc) for f in vm.module.functions for pc in range(len(f.code))], 0
    for number in itertools.count():
        rng = random.Random(f"{seed} {number}")
        place = rng.choice(places)
        if valid == count:
            return
        if place not in covered.by_place:
            continue
        function = vm.module.functions[place[0]]
        x = function.code[place[1]]
        what, whole = change_of(x, vm.module.whole, rng)
        try:
            changed = with_change(vm, function, whole)
        except Malformed:
            changed = None
        if changed and is_same_amount(function, changed.module.functions[place[0]], place[1]):
            continue
        valid += changed is not None
        text = f"function {place[0]}, instruction {place[1]}: {x.opcode.name} {shown(x.given)}: {what}"
        yield text, changed, covered.by_place[place]


def is_same_amount(function, other, pc):
    """True if the change replaces the amount of a shift or rotation by an equal one modulo the width."""
    x, y, then = function.code[pc], other.code[pc], function.code[pc + 1 : pc + 2]
    word, _, name = then[0].opcode.name.partition(".") if then else ("", "", "")
    if x.opcode is not y.opcode or x.opcode.name not in ("i32.const", "i64.const"):
        return False
    return name in ("shl", "shr_u", "rotl", "rotr") and (x.given - y.given) % (64 if "64" in word else 32) == 0


def changes_by_hand(vm, covered):
    """Yields the changes by hand, each at some executed places, in the form of `random_changes`."""
    rng = random.Random(7)
    for what, *where, byte, bits in BY_HAND:
        places = [place for place in covered.places if is_there(vm.module.functions[place[0]].code, place[1], *where)]
        for place in rng.sample(places, min(EACH_BY_HAND, len(places))):
            function = vm.module.functions[place[0]]
            x, whole = function.code[place[1]], bytearray(vm.module.whole)
            whole[(x.at if byte >= 0 else x.end) + byte] ^= bits
            changed = with_change(vm, function, bytes(whole))
            yield f"function {place[0]}, instruction {place[1]}: {what}", changed, covered.by_place[place]


def is_there(code, pc, name, given, then):
    return (
        code[pc].opcode.name == name
        and given in (None, code[pc].given)
        and (then is None or code[pc + 1].opcode.name == then)
    )


def shown(given):
    return given.hex() if isinstance(given, bytes) else "" if given is None else str(given)


def report(machines: dict[str, Machine], name: str, count: int, seed: int, is_all: bool) -> tuple[str, list[str]]:
    """Tests `count` random changes of a module and those by hand. Returns the counts of outcomes, and the failures."""
    vm = machines[name]
    covered, texts, called = Covered(vm, is_all), Texts(), Called()
    counts, bad = collections.Counter(), []
    for number, (text, changed, queries) in enumerate(
        (*changes_by_hand(vm, covered), *random_changes(vm, covered, count, seed))
    ):
        what = NOT_VALID if changed is None else outcome(changed, texts, queries)
        if what == UNNOTICED:
            what = outcome(changed, texts, more(queries))
            what = of_many_bytes(changed) if what == UNNOTICED else what
            texts.forget()
        if what in (NOTICED, UNNOTICED):
            what = called.outcome(
                what, functools.partial(executions.first_difference, vm.module.whole, changed.module.whole, number)
            )
        elif changed is not None:
            called.detected += 1
        counts[what.partition(":")[0]] += 1
        if is_fault(what, False):
            bad.append(f"{what}: {text}")
    message = ", ".join(f"{n} {what}" for what, n in counts.most_common())
    return f"{covered.summary(vm)}; {message}; {called.summary()}", bad + called.faults()
