"""Semantics of the instructions that only pop values and push one: PURE maps each to a function of its immediates and
these values."""
from oracle.symbolic_terms import ones

from .values import HALF, WORD, Address, binary, compare, condition, decided, high, low, side_by_side


def on_scalars(operation, width):
    return lambda given, a, b: binary(operation, width, a, b)


def of_test(test, width):
    return lambda given, a, b: compare(test, width, a, b)


# ---- vectors


def on_lanes(operation):
    return lambda given, a, b: tuple(binary(operation, WORD, x, y) for x, y in zip(a, b))


def halves_of(lane):
    return low(lane, HALF), high(lane, HALF)


def of_halves(parts):
    """Returns a vector of four 32-bit words."""
    return tuple(side_by_side([(parts[k], HALF), (parts[k + 1], HALF)]) for k in (0, 2))


def with_half(k, a, x):
    """Returns a vector with another word k."""
    parts = [word for lane in a for word in halves_of(lane)]
    parts[k] = x
    return of_halves(parts)


def products(lane):
    return lambda given, a, b: tuple(binary("mul", WORD, x, y) for x, y in zip(halves_of(a[lane]), halves_of(b[lane])))


def shuffled(order, a, b):
    lanes = *a, *b
    return tuple(bytes_side_by_side([(lanes[k >> 3], k & 7) for k in half]) for half in (order[:8], order[8:]))


def bytes_side_by_side(picked):
    """Returns a lane of eight bytes, each (lane, byte's index). Joins runs of consecutive bytes of a lane."""
    runs = []
    for x, k in picked:
        if runs and runs[-1][0] is x and runs[-1][1] + runs[-1][2] == k:
            runs[-1][2] += 1
        else:
            runs.append([x, k, 1])
    if runs[0][1:] == [0, 8]:
        return runs[0][0]
    return side_by_side([(low(high(x, 8 * k), 8 * n), 8 * n) for x, k, n in runs])


PURE = {
    **{f"i32.{name}": on_scalars(name, HALF) for name in "add sub mul rem_u and or xor shl shr_u rotl rotr".split()},
    **{f"i64.{name}": on_scalars(name, WORD) for name in "add sub mul rem_u and or xor shl shr_u rotl".split()},
    **{f"i64.{name}": of_test(name, WORD) for name in "eq ne lt_s lt_u gt_u le_s le_u ge_s ge_u".split()},
    **{f"i32.{name}": of_test(name, HALF) for name in ("ne", "ge_u")},
    **dict.fromkeys(("i32.const", "i64.const"), lambda given: given),
    "i32.eqz": lambda given, a: compare("eq", HALF, a, 0),
    "i64.eqz": lambda given, a: compare("eq", WORD, a, 0),
    "i32.wrap_i64": lambda given, a: a if a.__class__ is Address else low(a, HALF),
    "i64.extend_i32_u": lambda given, a: a.near() if a.__class__ is Address else a,
    "select": lambda given, a, b, chosen: a if condition(chosen, "a selection") else b,
    **{f"i64x2.{name}": on_lanes(name) for name in ("add", "sub", "mul")},
    "v128.xor": on_lanes("xor"),
    "v128.const": lambda given: (int.from_bytes(given[:8], "little"), int.from_bytes(given[8:], "little")),
    "v128.any_true": lambda given, a: int(any([decided(lane, "a test of bits") for lane in a])),
    "i64x2.shr_u": lambda given, a, k: tuple(binary("shr_u", WORD, x, k) for x in a),
    "i64x2.ne": lambda given, a, b: tuple(ones(WORD) * compare("ne", WORD, x, y) for x, y in zip(a, b)),
    "i32x4.splat": lambda given, a: of_halves([a] * 4),
    "i64x2.splat": lambda given, a: (a, a),
    "i64x2.extract_lane": lambda k, a: a[k],
    "i64x2.replace_lane": lambda k, a, x: (x, a[1]) if k == 0 else (a[0], x),
    "i32x4.replace_lane": with_half,
    "i64x2.extend_low_i32x4_u": lambda given, a: halves_of(a[0]),
    "i64x2.extmul_low_i32x4_u": products(0),
    "i64x2.extmul_high_i32x4_u": products(1),
    "i8x16.shuffle": shuffled,
}
