"""The tasks of the second engine: one-shots of each length, and one step of each loop from any accumulators."""
import os

from . import hashes, instructions, terms
from .hashes import Plain, of_bytes
from .machine import OBJECTS, Processor
from .terms import constant, cut, expect_equal, join, variable, widened

assert instructions  # imported because it fills the processor's tables
MESSAGE, SECRET, STATE = OBJECTS, OBJECTS + (1 << 32), OBJECTS + (2 << 32)
NAMES = {"32": "XXH32", "64": "XXH64", "3-64": "XXH3_64bits", "3-128": "XXH3_128bits"}
WAYS = {"default": "", "seed": "_withSeed", "secret": "_withSecret", "both": "_withSecretandSeed"}
ALGORITHMS = [("32", "seed"), ("64", "seed"), *((name, way) for name in ("3-64", "3-128") for way in WAYS)]
STATE_BYTES = {"32": 64, "64": 128, "3": 1024}  # upper bounds of the sizes of states


def word_of(x):
    return lambda at, n: cut(x, 8 * at, 8 * n)


def proved(name):
    """Returns the beginning of the names of a hash's calls that the library's C files may wrap."""
    return NAMES[name] if name in ("32", "64") else f"proved_{NAMES[name]}"


def no_word(at, n):
    raise AssertionError("a read of an empty message")


class Calls:
    """Calls of a source's functions with a symbolic message, seed and secret."""

    def __init__(self, code):
        self.code = code

    def one_shot(self, name, way, n, size=136, seed=None):
        """Compares one length with the definition, with the given seed or a symbolic one."""
        terms.begin(name == "32" or n <= 240)
        width, read, arguments, message, secret = 32 if name == "32" else 64, [], [MESSAGE, n], no_word, None
        if n:
            whole = variable(f"message of {n}", 8 * n)
            read, message = [(MESSAGE, whole)], word_of(whole)
        seed = variable("seed", width) if seed is None else constant(seed, width)
        if way in ("secret", "both"):
            key = variable(f"secret of {size}", 8 * size)
            read.append((SECRET, key))
            arguments, secret = [*arguments, SECRET, size], word_of(key)
        if way in ("seed", "both"):
            arguments.append(join(seed, variable("above the seed", 32)) if width == 32 else seed)
        expected = self.definition(name, way, n, message, seed, secret, size)
        cpu = Processor(self.code, read)
        cpu.nonzero = [seed]
        found = cpu.call(NAMES[name] + ("" if name in ("32", "64") else WAYS[way]), *arguments)
        found = [cut(found[0], 0, 32)] if name == "32" else found
        for ours, theirs in zip(found, expected):
            expect_equal(f"{NAMES[name]}, {way}, {n} bytes", ours, theirs)

    @staticmethod
    def definition(name, way, n, message, seed, secret, size):
        if name in ("32", "64"):
            return [Plain(int(name)).hash(message, n, seed)]
        width, default = int(name[2:]), of_bytes(hashes.DEFAULT_SECRET)
        if way in ("default", "seed"):
            is_long, seeded = n > 240, way == "seed"
            secret = hashes.derived(seed) if seeded and is_long else default
            return hashes.xxh3(width, message, n, secret, 192, seed if seeded and not is_long else None)
        return hashes.xxh3(width, message, n, secret, size, seed if way == "both" and n <= 240 else None)

    # ---- one step of each loop

    def started(self, name, seed):
        """Returns a processor, and the state of a new stream as terms by offset, found by their values."""
        family = name.split("-")[0]
        size = STATE_BYTES[family]
        before = variable(f"state {name}", 8 * size)
        cpu = Processor(self.code, (), [(STATE, before)])
        cpu.call(f"{proved(name)}_reset", STATE, *([seed] if family != "3" else []))
        return cpu, size

    def places(self, name, seed, initial):
        """Returns the offsets of the accumulators in a state: they have their initial values, and an update of a block
        changes them."""
        cpu, size = self.started(name, seed)
        n, found = initial[0].width // 8, [[] for _ in initial]
        known = {at: cpu.load(STATE + at, n) for at in range(0, size - n + 1, 4)}
        self.updated(cpu, name, (), (), 2048)
        for at, x in known.items():
            for k, value in enumerate(initial):
                if x is value and cpu.load(STATE + at, n) is not x:
                    found[k].append(at)
        if any(len(places) != 1 for places in found):
            raise terms.Differs(f"places of accumulators in a state: {found}")
        return [at for at, in found]

    def plain_step(self, name, count):
        """Compares an update of `count` stripes, from any accumulators, with the rounds of the definition."""
        terms.begin(name == "32")
        plain = Plain(int(name))
        seed = variable("seed", plain.width)
        places = self.places(name, widened(seed, 64), plain.initial(seed))
        cpu, _ = self.started(name, widened(seed, 64))
        before = [variable(f"accumulator {k}", plain.width) for k in range(4)]
        message = self.updated(cpu, name, places, before, count * plain.stripe)
        expected = plain.stripes(before, message, 0, count)
        for at, x in zip(places, expected):
            expect_equal(f"{NAMES[name]}_update of {count} stripes", cpu.load(STATE + at, plain.word), x)

    def updated(self, cpu, name, places, before, n):
        """Runs an update with other accumulators. Returns the message."""
        for at, x in zip(places, before):
            cpu.put_bytes(STATE + at, x)
        whole = variable(f"message of {n}", 8 * n)
        cpu.put_bytes(MESSAGE, whole)
        cpu.call(f"{proved(name)}_update", STATE, MESSAGE, n)
        return word_of(whole)

    def xxh3_step(self, name, n):
        """Compares an update of n bytes, from any accumulators, with the stripes that the definition takes, and the
        digest with the definition's end."""
        terms.begin(False)
        places = self.places(name, None, [constant(x, 64) for x in hashes.INITIAL])
        cpu, _ = self.started(name, None)
        before = [variable(f"accumulator {k}", 64) for k in range(8)]
        message, secret = self.updated(cpu, name, places, before, n), of_bytes(hashes.DEFAULT_SECRET)
        found = [cpu.load(STATE + at, 8) for at in places]
        counts = [
            k
            for k in range(n // 64 + 1)
            if all(x.values == y.values for x, y in zip(found, hashes.stripes(before, message, k, secret, 192)))
        ]
        if len(counts) != 1 or not counts[0]:
            raise terms.Differs(f"{NAMES[name]}_update of {n} bytes takes another number of stripes")
        for ours, theirs in zip(found, hashes.stripes(before, message, counts[0], secret, 192)):
            expect_equal(f"{NAMES[name]}_update of {n} bytes", ours, theirs)
        value = cpu.call(f"{proved(name)}_digest", STATE)
        taken = hashes.stripes(before, message, (n - 1) // 64, secret, 192)
        for ours, theirs in zip(value, hashes.ended(taken, message, n, secret, 192, int(name[2:]))):
            expect_equal(f"{NAMES[name]}_digest of {n} bytes", ours, theirs)
        return counts[0]


# ---- the specification and the reference library's results


def value_of(fields, message, secret):
    """Returns the definition's value for a line of oracle/vectors.txt."""
    name, seed, _, n = fields[0], fields[1], fields[2], int(fields[3])
    number = None if seed == "-" else constant(int(seed, 16), 32 if name == "32" else 64)
    if name in ("32", "64"):
        return [Plain(int(name)).hash(message, n, number)]
    if secret is None:
        return Calls.definition(name, "default" if number is None else "seed", n, message, number, None, 192)
    return Calls.definition(
        name, "secret" if number is None else "both", n, message, number, of_bytes(secret), len(secret)
    )


def generated(start, length):
    """Returns the bytes of a test case, as defined in oracle/vectors.c."""
    out, x = bytearray(), start
    for _ in range(length):
        x = (x * 6364136223846793005 + 1442695040888963407) % 2**64
        out.append(x >> 56)
    return bytes(out)


def compare_vectors(each: int, longest: int) -> int:
    """Compares the definitions with every `each`-th result of the reference library, up to some length."""
    with open(
        os.path.join(os.path.dirname(os.path.dirname(os.path.abspath(__file__))), "vectors.txt"), encoding="utf-8"
    ) as file:
        lines = [line.split() for line in file if line[0] != "#"]
    asked = [fields for fields in lines if int(fields[3]) <= longest][::each]
    for fields in asked:
        terms.begin(False)
        size, _, start = fields[2].partition(":")
        secret = None if fields[2] == "-" else generated(int(start, 16), int(size))
        found = value_of(fields, of_bytes(generated(int(fields[4], 16), int(fields[3]))), secret)
        if sum(x.parts[0] << 64 * k for k, x in enumerate(found)) != int(fields[5], 16):
            raise terms.Differs(f"another value of {' '.join(fields)}")
    return len(asked)
