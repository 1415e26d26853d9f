"""The hashes on terms, from the specification of xxHash. A message and a secret are functions: byte offset and number
of bytes -> word, the lowest byte first."""
from typing import Callable

from .terms import (
    Term,
    add,
    bitwise,
    constant,
    cut,
    join,
    multiply,
    product,
    representative,
    rotate_left,
    shift_right,
    subtract,
    swapped,
    total,
    widened,
)

P32 = 0, 0x9E3779B1, 0x85EBCA77, 0xC2B2AE3D, 0x27D4EB2F, 0x165667B1
P64 = 0, 0x9E3779B185EBCA87, 0xC2B2AE3D27D4EB4F, 0x165667B19E3779F9, 0x85EBCA77C2B2AE63, 0x27D4EB2F165667C5
AVALANCHE, MX = 0x165667919E3779F9, 0x9FB21C651E98DF25
DEFAULT_SECRET = bytes.fromhex(
    "b8fe6c3923a44bbe7c01812cf721ad1cded46de9839097db7240a4a4b7b3671fcb79e64eccc0e578825ad07dccff7221b8084674f743248e"
    "e03590e6813a264c3c2852bb91c300cb88d0658b1b532ea371644897a20df94e3819ef46a9deacd8a8fa763fe39c343ff9dcbbc7c70b4f1d"
    "8a51e04bcdb45931c89f7ec9d9787364eac5ac8334d3ebc3c581a0fffa1363eb170ddd51b7f0da49d316552629d4689e2b16be587d47a1fc"
    "8ff8b8d17ad031ce45cb3a8f95160428afd7fbcabb4b407e"
)
INITIAL = P32[3], P64[1], P64[2], P64[3], P64[4], P32[2], P64[5], P32[1]
R = representative


def of_bytes(data: bytes) -> Callable[[int, int], Term]:
    return lambda at, n: constant(int.from_bytes(data[at : at + n], "little"), 8 * n)


def number(value, width=64):
    return constant(value, width)


def xor(*terms):
    return R(bitwise("xor", *terms))


def shifted_xor(x, k):
    return xor(x, shift_right(x, k))


def times(x, n):
    return R(multiply(x, constant(n, x.width)))


def plus(*terms):
    return R(add(*terms))


# ---- XXH32 and XXH64


class Plain:
    """XXH32 or XXH64: the width, the primes, and the numbers of bits of its steps."""

    def __init__(self, width):
        self.width, self.p, self.word, self.stripe = width, (P32 if width == 32 else P64), width // 8, width // 2
        self.round_bits, self.lanes = (13 if width == 32 else 31), (1, 7, 12, 18)

    def initial(self, seed):
        p, w = self.p, self.width
        return [R(total(w, [(seed, 1)], c)) for c in (p[1] + p[2], p[2], 0, -p[1])]

    def round(self, accumulator, word):
        return times(
            R(rotate_left(R(total(self.width, [(accumulator, 1), (word, self.p[2])])), self.round_bits)), self.p[1]
        )

    def stripes(self, accumulators, message, first, count):
        for k in range(count):
            accumulators = [
                self.round(x, message(first + k * self.stripe + j * self.word, self.word))
                for j, x in enumerate(accumulators)
            ]
        return accumulators

    def hash(self, message, n, seed):
        count = n // self.stripe
        if count:
            accumulators = self.stripes(self.initial(seed), message, 0, count)
            h = plus(*(rotate_left(x, k) for x, k in zip(accumulators, self.lanes)))
            if self.width == 64:
                for x in accumulators:
                    h = R(total(64, [(xor(h, self.round(number(0), x)), self.p[1])], self.p[4]))
        else:
            h = R(total(self.width, [(seed, 1)], self.p[5]))
        h = R(total(self.width, [(h, 1)], n))
        return (self.end_32 if self.width == 32 else self.end_64)(h, message, count * self.stripe, n)

    def end_64(self, h, message, at, n):
        p = self.p
        while n - at >= 8:
            h = R(total(64, [(rotate_left(xor(h, self.round(number(0), message(at, 8))), 27), p[1])], p[4]))
            at += 8
        if n - at >= 4:
            h = R(total(64, [(rotate_left(xor(h, times(widened(message(at, 4), 64), p[1])), 23), p[2])], p[3]))
            at += 4
        while at < n:
            h = times(rotate_left(xor(h, times(widened(message(at, 1), 64), p[5])), 11), p[1])
            at += 1
        return avalanche_64(h)

    def end_32(self, h, message, at, n):
        p = self.p
        while n - at >= 4:
            h = times(rotate_left(R(total(32, [(h, 1), (message(at, 4), p[3])])), 17), p[4])
            at += 4
        while at < n:
            h = times(rotate_left(R(total(32, [(h, 1), (widened(message(at, 1), 32), p[5])])), 11), p[1])
            at += 1
        return shifted_xor(times(shifted_xor(times(shifted_xor(h, 15), p[2]), 13), p[3]), 16)


def avalanche_64(h):
    return shifted_xor(times(shifted_xor(times(shifted_xor(h, 33), P64[2]), 29), P64[3]), 32)


# ---- XXH3 of up to 240 bytes


def avalanche(h):
    return shifted_xor(times(shifted_xor(h, 37), AVALANCHE), 32)


def folded(a, b):
    low, high = product(a, b)
    return xor(R(low), R(high))


def mixed(message, at, secret, place, seed):
    """Mixes 16 bytes with 16 bytes of the secret."""
    return folded(
        xor(message(at, 8), plus(secret(place, 8), seed)),
        xor(message(at + 8, 8), R(subtract(secret(place + 8, 8), seed))),
    )


def with_swapped(seed):
    return xor(seed, join(constant(0, 32), swapped(cut(seed, 0, 32))))


def of_three(message, n):
    a, b, c = message(0, 1), message(n >> 1, 1), message(n - 1, 1)
    return join(c, constant(n, 8), a, b)


def pair(secret, at, n=8):
    return xor(secret(at, n), secret(at + n, n))


def short_64(message, n, secret, seed):
    if not n:
        return avalanche_64(xor(seed, pair(secret, 56)))
    if n <= 3:
        return avalanche_64(xor(widened(of_three(message, n), 64), plus(widened(pair(secret, 0, 4), 64), seed)))
    if n <= 8:
        word = join(message(n - 4, 4), message(0, 4))
        h = xor(word, R(subtract(pair(secret, 8), with_swapped(seed))))
        h = times(xor(h, rotate_left(h, 49), rotate_left(h, 24)), MX)
        h = times(xor(h, R(total(64, [(shift_right(h, 35), 1)], n))), MX)
        return shifted_xor(h, 28)
    if n <= 16:
        low = xor(message(0, 8), plus(pair(secret, 24), seed))
        high = xor(message(n - 8, 8), R(subtract(pair(secret, 40), seed)))
        return avalanche(R(total(64, [(swapped(low), 1), (high, 1), (folded(low, high), 1)], n)))
    h = number(n * P64[1])
    if n <= 128:
        for i in range((n - 1) // 32, -1, -1):
            h = plus(
                h,
                mixed(message, 16 * i, secret, 32 * i, seed),
                mixed(message, n - 16 * (i + 1), secret, 32 * i + 16, seed),
            )
        return avalanche(h)
    h = avalanche(plus(h, *(mixed(message, 16 * i, secret, 16 * i, seed) for i in range(8))))
    rest = [mixed(message, 16 * i, secret, 16 * (i - 8) + 3, seed) for i in range(8, n // 16)]
    return avalanche(plus(h, *rest, mixed(message, n - 16, secret, 136 - 17, seed)))


def short_128(message, n, secret, seed):
    if not n:
        return [avalanche_64(xor(seed, pair(secret, at))) for at in (64, 80)]
    if n <= 3:
        low = of_three(message, n)
        high = rotate_left(swapped(low), 13)
        return [
            avalanche_64(xor(widened(low, 64), plus(widened(pair(secret, 0, 4), 64), seed))),
            avalanche_64(xor(widened(high, 64), R(subtract(widened(pair(secret, 8, 4), 64), seed)))),
        ]
    if n <= 8:
        word = xor(join(message(0, 4), message(n - 4, 4)), plus(pair(secret, 16), with_swapped(seed)))
        low, high = map(R, product(word, number(P64[1] + (n << 2))))
        high = R(total(64, [(high, 1), (low, 2)]))
        low = xor(low, shift_right(high, 3))
        return [shifted_xor(times(shifted_xor(low, 35), MX), 28), avalanche(high)]
    if n <= 16:
        return nine_to_16(message, n, secret, seed)
    sums = number(n * P64[1]), number(0)
    if n <= 128:
        for i in range((n - 1) // 32, -1, -1):
            sums = mixed_32(sums, message, 16 * i, n - 16 * (i + 1), secret, 32 * i, seed)
    else:
        for i in range(4):
            sums = mixed_32(sums, message, 32 * i, 32 * i + 16, secret, 32 * i, seed)
        sums = avalanche(sums[0]), avalanche(sums[1])
        for i in range(4, n // 32):
            sums = mixed_32(sums, message, 32 * i, 32 * i + 16, secret, 3 + 32 * (i - 4), seed)
        sums = mixed_32(sums, message, n - 16, n - 32, secret, 136 - 17 - 16, subtract(number(0), seed))
    low, high = sums
    combined = R(total(64, [(low, P64[1]), (high, P64[4]), (seed, -P64[2])], n * P64[2]))
    return [avalanche(plus(low, high)), R(subtract(number(0), avalanche(combined)))]


def nine_to_16(message, n, secret, seed):
    first, last = message(0, 8), message(n - 8, 8)
    low, high = map(R, product(xor(first, last, R(subtract(pair(secret, 32), seed))), number(P64[1])))
    low = R(total(64, [(low, 1)], n - 1 << 54))
    last = xor(last, plus(pair(secret, 48), seed))
    high = R(total(64, [(high, 1), (last, 1), (widened(cut(last, 0, 32), 64), P32[2] - 1)]))
    low = xor(low, swapped(high))
    first, second = map(R, product(low, number(P64[2])))
    return [avalanche(first), avalanche(R(total(64, [(second, 1), (high, P64[2])])))]


def mixed_32(sums, message, a, b, secret, place, seed):
    low, high = sums
    low = xor(plus(low, mixed(message, a, secret, place, seed)), plus(message(b, 8), message(b + 8, 8)))
    high = xor(plus(high, mixed(message, b, secret, place + 16, seed)), plus(message(a, 8), message(a + 8, 8)))
    return low, high


# ---- XXH3 of more bytes


def accumulate(accumulators, message, at, secret, place):
    out = list(accumulators)
    for i in range(8):
        word = message(at + 8 * i, 8)
        key = xor(word, secret(place + 8 * i, 8))
        low, high = (widened(cut(key, k, 32), 64) for k in (0, 32))
        out[i ^ 1] = add(out[i ^ 1], word)
        out[i] = add(out[i], multiply(low, high))
    return [R(x) for x in out]


def scramble(accumulators, secret, place):
    return [times(xor(x, shift_right(x, 47), secret(place + 8 * i, 8)), P32[1]) for i, x in enumerate(accumulators)]


def stripes(
    accumulators: list[Term], message: Callable, count: int, secret: Callable, size: int, first: int = 0
) -> list[Term]:
    """Takes `count` stripes of a message; `first` of the block are taken already."""
    block = (size - 64) // 8
    for k in range(count):
        at = (first + k) % block
        accumulators = accumulate(accumulators, message, 64 * k, secret, 8 * at)
        if at == block - 1:
            accumulators = scramble(accumulators, secret, size - 64)
    return accumulators


def merged(accumulators, secret, place, start):
    return avalanche(
        plus(
            start,
            *(
                folded(
                    xor(accumulators[2 * i], secret(place + 16 * i, 8)),
                    xor(accumulators[2 * i + 1], secret(place + 16 * i + 8, 8)),
                )
                for i in range(4)
            )
        )
    )


def ended(accumulators: list[Term], message: Callable, n: int, secret: Callable, size: int, width: int) -> list[Term]:
    """The value for accumulators after all stripes but the last."""
    accumulators = accumulate(accumulators, message, n - 64, secret, size - 64 - 7)
    low = merged(accumulators, secret, 11, number(n * P64[1]))
    return [low] if width == 64 else [low, merged(accumulators, secret, size - 64 - 11, number(~(n * P64[2])))]


def xxh3(
    width: int,
    message: Callable[[int, int], Term],
    n: int,
    secret: Callable[[int, int], Term],
    size: int,
    seed: Term | None,
) -> list[Term]:
    """Returns the words of XXH3 with a secret, of `size` bytes, or with a seed, if that isn't None."""
    if n <= 240:
        secret, seed = (secret, number(0)) if seed is None else (of_bytes(DEFAULT_SECRET), seed)
        return [short_64(message, n, secret, seed)] if width == 64 else short_128(message, n, secret, seed)
    accumulators = stripes([number(x) for x in INITIAL], message, (n - 1) // 64, secret, size)
    return ended(accumulators, message, n, secret, size, width)


def derived(seed: Term) -> Callable[[int, int], Term]:
    """Returns the secret derived from a seed."""
    default, parts = of_bytes(DEFAULT_SECRET), []
    for i in range(12):
        parts += [R(add(default(16 * i, 8), seed)), R(subtract(default(16 * i + 8, 8), seed))]
    whole = join(*parts)
    return lambda at, n: cut(whole, 8 * at, 8 * n)
