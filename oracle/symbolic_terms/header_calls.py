"""Compares the functions of c/include/xxhash.h that are no one-shot and no stream with the definition: secrets,
canonical forms, comparisons, copies, memory and refusals. Each check runs a module and returns its number of cases, or
raises."""
import itertools

from . import definition, nodes
from .definition import Bytes, suppositions
from .every_length import DEFAULT_STRIPES, Proof, long_loops
from .machine import Module
from .memory import Input, Memory
from .nodes import is_same, symbol
from .operations import bits
from .polynomials import at_most, given, minus, plus, times, variable
from .reference import PREFIX
from .refusals import NotShown
from .requests import LONGEST, seed_symbol

OK, ERROR = 0, 1
VERSION = 801
WIDTHS = "64", "128"
ALGORITHMS = {"XXH32": 48, "XXH64": 88, "XXH3": 576}  # bytes of a state
CANONICAL = {"XXH32": 32, "XXH64": 64, "XXH128": 128}
SHORTEST, DERIVED = 136, 192  # bytes of a secret, at least and from a seed
LIMIT = (1 << 64) - 1
ALIGNMENT = 64  # of a state of XXH3
MOST_NODES = 500_000


def call(module, name, *arguments):
    return module.call(f"@{PREFIX}{name}", list(arguments))


def expect(what, ours, theirs):
    if not is_same(ours, theirs):
        raise NotShown(f"{what}: another value")


def expect_bytes(what, memory, theirs):
    for k, byte in enumerate(theirs):
        expect(f"{what}: byte {k}", memory.load(k, 1), byte)


def call_keeping(module, memory, name, *arguments):
    """Returns the value of a call that must not change a memory."""
    before = dict(memory.cells)
    value = call(module, name, *arguments)
    if before != memory.cells:
        raise NotShown(f"{name} changes {memory.name}")
    return value


def symbols_in(memory_name, size, word=8):
    """Returns a memory whose words are symbols."""
    return Memory(memory_name, size, [(k, word, symbol(f"{memory_name} {k}", 8 * word)) for k in range(0, size, word)])


# ---- canonical forms and comparisons


def canonical_forms(module: Module, name: str) -> int:
    """The conversion of a hash to bytes, the highest first, and back."""
    module.reset()
    width, size = CANONICAL[name], CANONICAL[name] // 8
    parts = [symbol(f"hash {k} of {width}", min(width, 64)) for k in range(max(1, width // 64))]
    memory, source = Memory("canonical", size), Input("canonical", size)
    call(module, f"{name}_canonicalFromHash", (memory, 0), *parts)
    back = call(module, f"{name}_hashFromCanonical", (source, 0))
    back = back if width == 128 else (back,)
    for k in range(size):
        word, first = divmod(8 * (size - 1 - k), 64)
        expect(f"byte {k} of the form of {name}", memory.load(k, 1), bits(parts[word], first, 8))
        expect(f"byte {k} of a hash of {name}", bits(back[word], first, 8), source.load(k, 1))
    return 2


def equal_hashes(module: Module, _case: str) -> int:
    """Equal hashes, and hashes that differ in the low word, in the high word, or in both."""
    one, others = [symbol(f"word {k}", 64) for k in (0, 1)], [symbol(f"other {k}", 64) for k in (0, 1)]
    for differs in itertools.product((False, True), repeat=2):
        module.reset()
        other = [b if is_other else a for a, b, is_other in zip(one, others, differs)]
        for a, b, is_other in zip(one, other, differs):
            if is_other:
                module.suppose_different(a, b)
        expect("XXH128_isEqual", call(module, "XXH128_isEqual", *one, *other), int(not any(differs)))
    return 4


def in_order(name, sign):
    """Returns two words: the first is above (1), equal to (0) or below (-1) the second."""
    word, above = variable(name), plus(variable(name), variable(f"more {name}"), 1)
    return {1: (above, word), 0: (word, word), -1: (word, above)}[sign]


def order_of_hashes(module: Module, _case: str) -> int:
    """Each word of the first hash above, equal to, and below the second hash's word."""
    values = {1: 1, 0: 0, -1: (1 << 32) - 1}
    for high, low in itertools.product(values, values):
        module.reset()
        pairs = in_order("low", low), in_order("high", high)
        with given(*(at_most(word, LIMIT) for pair in pairs for word in pair)):
            first, second = (Memory(f"hash {k}", 16, [(0, 8, pairs[0][k]), (8, 8, pairs[1][k])]) for k in (0, 1))
            expect("XXH128_cmp", call(module, "XXH128_cmp", (first, 0), (second, 0)), values[high or low])
    return len(values) ** 2


# ---- the version, another name, copies


def version(module: Module, _case: str) -> int:
    expect("XXH_versionNumber", call(module, "XXH_versionNumber"), VERSION)
    return 1


def another_name(module: Module, _case: str) -> int:
    """XXH128 is one call of XXH3_128bits_withSeed with its arguments, for an input of any length."""
    module.reset()
    n, seed, value = variable("n"), seed_symbol("3-128"), (symbol("low", 64), symbol("high", 64))
    asked, given_arguments = [], [(Input("m", n), 0), n, seed]

    def noted(arguments):
        asked.append(arguments)
        return value

    module.instead[f"@{PREFIX}XXH3_128bits_withSeed"] = noted
    with given(at_most(n, LONGEST)):
        if call(module, "XXH128", *given_arguments) != value or asked != [given_arguments]:
            raise NotShown("XXH128 is another call")
    return 1


def copies(module: Module, algorithm: str) -> int:
    """A copy has all bytes of its original, which stays as it was."""
    module.reset()
    original, copy = symbols_in("original", ALGORITHMS[algorithm]), Memory("copy", ALGORITHMS[algorithm])
    call_keeping(module, original, f"{algorithm}_copyState", (copy, 0), (original, 0))
    expect_bytes("a copy", copy, [original.load(k, 1) for k in range(original.length)])
    return 1


# ---- memory


def reset_state(module, algorithm):
    state = Memory("state", ALGORITHMS[algorithm], alignment=ALIGNMENT)
    call(
        module,
        f"{algorithm}_64bits_reset" if algorithm == "XXH3" else f"{algorithm}_reset",
        (state, 0),
        *([] if algorithm == "XXH3" else [0]),
    )
    return state


def created_states(module: Module, algorithm: str) -> int:
    """A state in a block at each residue modulo 64 that malloc returns, or null if it does. The state has the content
    of one that was reset, and is freed as the block."""
    for residue in range(ALIGNMENT if algorithm == "XXH3" else 1):
        module.reset()
        blocks, freed = [], []

        def allocate(arguments, residue=residue, blocks=blocks):
            blocks.append(Memory("block", residue + arguments[0], alignment=ALIGNMENT))
            return blocks[-1], residue

        module.instead.update({"@malloc": allocate, "@free": lambda arguments, freed=freed: freed.append(*arguments)})
        state = call(module, f"{algorithm}_createState")
        if not isinstance(state, tuple):
            raise NotShown(f"{algorithm}_createState refuses memory")
        memory, start = state
        expect_created(algorithm, blocks, memory, start, residue, reset_state(module, algorithm))
        expect("a release", call(module, f"{algorithm}_freeState", (memory, start)), OK)
        if freed != [(memory, residue)]:
            raise NotShown(f"{algorithm}_freeState releases {freed}")
    module.instead["@malloc"] = lambda _: 0
    expect("a state without memory", call(module, f"{algorithm}_createState"), 0)
    return residue + 2


def expect_created(algorithm, blocks, memory, start, residue, state):
    size = ALGORITHMS[algorithm]
    if blocks != [memory] or any(at < residue for at in memory.cells) or start + size > memory.length:
        raise NotShown(f"{algorithm}_createState leaves its block")
    if algorithm == "XXH3" and start % ALIGNMENT:
        raise NotShown("a state that isn't aligned")
    cells = {at - start: cell for at, cell in memory.cells.items() if at >= start}
    if cells != state.cells:
        raise NotShown(f"{algorithm}_createState: another state than that of a reset")


def freed_null(module: Module, algorithm: str) -> int:
    """A release of null does nothing, or is C's release of null."""
    module.reset()
    freed = []
    module.instead["@free"] = lambda arguments: freed.append(*arguments)
    expect("a release of null", call(module, f"{algorithm}_freeState", 0), OK)
    if freed not in ([], [0]):
        raise NotShown(f"{algorithm}_freeState of null releases {freed}")
    return 1


# ---- secrets


def derived_secret(module: Module, _case: str) -> int:
    """The 192 bytes of the secret derived from a seed."""
    entries = definition.program().run()
    for seed in (seed_symbol("3-64"), 0):
        module.reset()
        memory = Memory("secret", DERIVED)
        call(module, "XXH3_generateSecret_fromSeed", (memory, 0), seed)
        expect_bytes("a derived secret", memory, entries["derived_secret"](seed))
    return 2


def generated(module, entries, size, seed, is_null=False):
    """Compares a secret of `size` bytes generated from the bytes of a custom seed, or from null if that has none."""
    memory = Memory("secret", size)
    place = 0 if is_null else (seed.source, 0)
    expect("a generated secret", call(module, "XXH3_generateSecret", (memory, 0), size, place, seed.end), OK)
    expect_bytes(f"a secret of {size} bytes from {seed.end}", memory, entries["generated_secret"](seed, size))


def generated_secrets(module: Module, case: str) -> int:
    """Secrets of some sizes, generated from null and from seeds of 0 to 240 bytes. `case` has the first and the last
    size, the first length and the step between lengths."""
    first, last, shortest, step = map(int, case.split())
    program, count = definition.program(("twox_c",), ("generated_secret",)), 0
    entries = program.run()
    for size in range(first, last + 1):
        for length in [None, *range(shortest, 241, step)]:
            if len(nodes.NODES) > MOST_NODES:
                nodes.forget()
                entries = program.run()
            module.reset()
            generated(module, entries, size, Bytes(Input("m", length or 0), 0, length or 0), length is None)
            count += 1
    return count


def generated_from_long(module: Module, case: str) -> int:
    """Secrets of the sizes of `case`, up to 241 bytes, generated from seeds of every length from 241 on: by induction
    over the loops of their hash."""
    sizes, blocks, rest = [*map(int, case.split())], variable("B"), variable("t")
    proof = Proof(module, definition.program(("twox_c",), ("generated_secret",)))
    default, after = proof.texts["default_secret"](), proof.texts["Long.accumulator_after"]
    for size, stripes in itertools.product(sizes, range(DEFAULT_STRIPES)):
        n = plus(times(64 * DEFAULT_STRIPES, blocks), 64 * stripes, rest, 1)
        with given(at_most(n, LONGEST), minus(n, 241), at_most(rest, 63)):
            suppositions.clear()
            seed = Bytes(Input("m", n), 0, n)
            proof.prepare(long_loops(proof.names, after, DEFAULT_STRIPES, blocks, stripes, default, seed))
            generated(module, proof.texts, size, seed)
    return len(sizes) * DEFAULT_STRIPES


# ---- refusals


def refused_secrets(module: Module, _case: str) -> int:
    """Generated secrets of each size that is too short, into null, and from null as more than 0 bytes: nothing is
    written."""
    size, length = variable("size"), variable("length")
    memory, large = Memory("secret", SHORTEST), plus(size, SHORTEST)
    place, source = (memory, 0), (Input("m", length), 0)
    cases = [
        (place, size, source, length, at_most(size, SHORTEST - 1)),
        (0, size, source, length, at_most(size, LIMIT)),
        (place, large, 0, plus(length, 1), at_most(large, LIMIT)),
    ]
    for *arguments, fact in cases:
        module.reset()
        with given(fact, at_most(plus(length, 1), LIMIT)):
            expect("a refused secret", call_keeping(module, memory, "XXH3_generateSecret", *arguments), ERROR)
    return len(cases)


def refused_resets(module: Module, width: str) -> int:
    """Resets of null, with null as a secret, and with a secret of each length that is too short: the state stays."""
    size, seed, state = variable("size"), seed_symbol("3-64"), symbols_in("state", ALGORITHMS["XXH3"])
    large, place = plus(size, SHORTEST), (state, 0)
    secret = Input("s", large), 0
    cases = [(f"{width}bits_reset", 0), (f"{width}bits_reset_withSeed", 0, seed)]
    for way, more in (("withSecret", ()), ("withSecretandSeed", (seed,))):
        refused = (0, secret, large), (place, 0, large), (place, secret, size)
        cases += [(f"{width}bits_reset_{way}", *arguments, *more) for arguments in refused]
    for name, *arguments in cases:
        module.reset()
        with given(at_most(size, SHORTEST - 1)):
            expect(f"a refused {name}", call_keeping(module, state, f"XXH3_{name}", *arguments), ERROR)
    return len(cases)


def joined(value):
    """Returns a hash as a tuple of words."""
    return value if isinstance(value, tuple) else (value,)


def refused_one_shots(module: Module, width: str) -> int:
    """One-shots with a secret of each length that is too short: 0 if it is needed, otherwise the seed's hash."""
    n, size, seed = variable("n"), variable("size"), seed_symbol("3-64")
    name, secret, both = f"XXH3_{width}bits", Input("s", size), "_withSecretandSeed"
    cases = [("_withSecret", n, ()), (both, plus(n, 241), (seed,)), *((both, k, (seed,)) for k in range(241))]
    for way, length, more in cases:
        module.reset()
        with given(at_most(plus(n, 241), LONGEST), at_most(size, SHORTEST - 1)):
            message = Input("m", length), 0
            ours = joined(call(module, name + way, message, length, (secret, 0), size, *more))
            theirs = (0,) * len(ours)
            if isinstance(length, int):
                theirs = joined(call(module, f"{name}_withSeed", message, length, seed))
            for a, b in zip(ours, theirs, strict=True):
                expect(f"{name}{way} of {length} bytes", a, b)
    return len(cases)


def null_inputs(module: Module, _case: str) -> int:
    """One-shots of no bytes at null: the value of no bytes elsewhere."""
    seed, secret = seed_symbol("3-64"), ((Input("s", SHORTEST), 0), SHORTEST)
    cases: list[tuple] = [("XXH32", seed_symbol("32")), ("XXH64", seed)]
    for width, (way, more) in itertools.product(
        WIDTHS, {"": (), "_withSeed": (seed,), "_withSecret": secret, "_withSecretandSeed": (*secret, seed)}.items()
    ):
        cases.append((f"XXH3_{width}bits{way}", *more))
    for name, *more in cases:
        module.reset()
        values = [joined(call(module, name, place, 0, *more)) for place in (0, (Input("m", 0), 0))]
        for a, b in zip(*values, strict=True):
            expect(f"{name} of null", a, b)
    return len(cases)


# The public functions whose values a check compares, by its kind.
COMPARED = {
    canonical_forms: "{0}_canonicalFromHash {0}_hashFromCanonical",
    equal_hashes: "XXH128_isEqual",
    order_of_hashes: "XXH128_cmp",
    version: "XXH_versionNumber",
    another_name: "XXH128",
    copies: "{0}_copyState",
    created_states: "{0}_createState {0}_freeState",
    derived_secret: "XXH3_generateSecret_fromSeed",
    generated_secrets: "XXH3_generateSecret",
    generated_from_long: "XXH3_generateSecret",
}
REFUSALS = freed_null, refused_secrets, refused_resets, refused_one_shots, null_inputs
CHECKS = *COMPARED, *REFUSALS
