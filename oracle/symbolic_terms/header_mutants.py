"""Planted faults in the header, and a few equivalent changes: the induction must refuse the faults, and prove the
others. Many of them differ only at lengths that no test can reach."""
import os
import tempfile
from typing import Callable, Iterable, Iterator

from . import every_length, plain_streams, xxh3_streams
from .refusals import REFUSALS
from .reference import HEADERS, module

LONG, ACCUMULATE = "XXH3_hashLong_internal_loop", "XXH3_accumulate("
LOOP_64, LOOP_32 = "XXH64_endian_align", "XXH32_endian_align"
UPDATE_64, DIGEST_64, UPDATE_32, UPDATE_3 = "XXH64_update (", "XXH64_digest(const", "XXH32_update(", "XXH3_update("
SCRAMBLE = "f_scramble(acc, secret + secretSize - XXH_STRIPE_LEN);"
SECOND_ROUND = "v2 = XXH64_round(v2, XXH_get64bits(input)); input+=8;"
ONCE, STREAM, STREAM_3 = every_length.show, plain_streams.show, xxh3_streams.show
BY_SECRET = "3-64:secret", "3-128:both"

# Proof function, kinds, function to change, old text, new text, whether the value stays the same.
CHANGES = [
    (ONCE, ["64"], LOOP_64, "input<limit", "input<=limit", False),
    (ONCE, ["64"], LOOP_64, "bEnd - 31", "bEnd - 32", False),
    (ONCE, ["64"], LOOP_64, "bEnd - 31", "bEnd - 30", False),
    (
        ONCE,
        ["64"],
        LOOP_64,
        SECOND_ROUND,
        SECOND_ROUND.replace("input+=8", "if (bEnd - input != ((size_t)1 << 40)) input+=8"),
        False,
    ),
    (ONCE, ["64"], LOOP_64, SECOND_ROUND, SECOND_ROUND.replace("(v2,", "(v2 + ((size_t)(bEnd - input) >> 50),"), False),
    (ONCE, ["64"], LOOP_64, "h64 += (xxh_u64) len;", "h64 += (xxh_u32) len;", False),
    (
        ONCE,
        ["64"],
        LOOP_64,
        "XXH64_finalize(h64, input, len, align)",
        "XXH64_finalize(h64, input, (xxh_u32)len, align)",
        True,
    ),
    (ONCE, ["64"], "XXH64_finalize(xxh_u64", "len &= 31;", "len &= 15;", False),
    (ONCE, ["32"], LOOP_32, "input < limit", "input <= limit", False),
    (ONCE, ["32"], LOOP_32, "bEnd - 15", "bEnd - 16", False),
    (
        ONCE,
        ["32"],
        LOOP_32,
        "h32 += (xxh_u32)len;",
        "h32 += (xxh_u32)len + (xxh_u32)((unsigned long long)len >> 32);",
        False,
    ),
    (ONCE, BY_SECRET, LONG, "(len - 1) / block_len", "len / block_len", False),
    (
        ONCE,
        BY_SECRET,
        LONG,
        "size_t const nb_blocks = (len - 1) / block_len",
        "unsigned const nb_blocks = (unsigned)((len - 1) / block_len)",
        False,
    ),
    (ONCE, BY_SECRET, LONG, "n < nb_blocks", "n + 1 < nb_blocks", False),
    (ONCE, BY_SECRET, LONG, "input + n*block_len", "input + (unsigned)(n*block_len)", False),
    (ONCE, BY_SECRET, LONG, SCRAMBLE, "if ((n & 0xFFFFF) != 0xFFFFF) " + SCRAMBLE, False),
    (ONCE, BY_SECRET, LONG, SCRAMBLE, SCRAMBLE.replace("XXH_STRIPE_LEN", "XXH_STRIPE_LEN - (n >> 20)"), False),
    (ONCE, BY_SECRET, LONG, "- XXH_SECRET_LASTACC_START", "- 8", False),
    (ONCE, BY_SECRET, LONG, "((len - 1) - (block_len * nb_blocks))", "((len - 1) % block_len)", True),
    (ONCE, BY_SECRET, ACCUMULATE, "n < nbStripes", "n + 1 < nbStripes", False),
    (ONCE, BY_SECRET, ACCUMULATE, "input + n*XXH_STRIPE_LEN", "input + (unsigned)n*XXH_STRIPE_LEN", False),
    (ONCE, BY_SECRET, ACCUMULATE, "XXH_PREFETCH(in + XXH_PREFETCH_DIST);", "XXH_PREFETCH(in);", True),
    (
        ONCE,
        ["3-64:seed"],
        "XXH3_hashLong_64b_withSeed_internal",
        "f_initSec(secret, seed);",
        "f_initSec(secret, seed & ~((XXH64_hash_t)1 << 63));",
        False,
    ),
    (STREAM, ["64"], UPDATE_64, "while (p<=limit)", "while (p<limit)", False),
    (STREAM, ["64"], UPDATE_64, "state->memsize + len < 32", "(xxh_u32)(state->memsize + len) < 32", False),
    (
        STREAM,
        ["64"],
        UPDATE_64,
        "state->total_len += len;",
        "state->total_len = (xxh_u32)(state->total_len + len);",
        False,
    ),
    (STREAM, ["64"], UPDATE_64, "p += 32 - state->memsize;", "p += 31 - state->memsize;", False),
    (
        STREAM,
        ["64"],
        UPDATE_64,
        "state->memsize = (unsigned)(bEnd-p);",
        "state->memsize = (unsigned char)(bEnd-p);",
        True,
    ),
    (STREAM, ["64"], DIGEST_64, "state->total_len >= 32", "(xxh_u32)state->total_len >= 32", False),
    (STREAM, ["32"], UPDATE_32, "state->large_len |=", "state->large_len =", False),
    (STREAM, ["32"], UPDATE_32, "(len>=16) | (state->total_len_32>=16)", "state->total_len_32>=16", False),
]
DEAR = [
    (
        STREAM_3,
        ["inside"],
        UPDATE_3,
        "state->totalLen += len;",
        "state->totalLen = (xxh_u32)(state->totalLen + len);",
        False,
    ),
    (
        STREAM_3,
        ["inside"],
        UPDATE_3,
        "state->bufferedSize + len <= XXH3_INTERNALBUFFER_SIZE",
        "state->bufferedSize + len < XXH3_INTERNALBUFFER_SIZE",
        False,
    ),
    (
        STREAM_3,
        ["inside"],
        UPDATE_3,
        "nbStripes >= state->nbStripesPerBlock",
        "nbStripes > state->nbStripesPerBlock",
        False,
    ),
    (STREAM_3, ["inside"], UPDATE_3, "state->nbStripesSoFar = nbStripes;", "state->nbStripesSoFar = 0;", False),
    (STREAM_3, ["inside"], UPDATE_3, "state->nbStripesSoFar = 0;", ";", True),
    (STREAM_3, ["inside"], "XXH3_consumeStripes(", "<= nbStripes)", "< nbStripes)", False),
    (
        STREAM_3,
        ["inside"],
        "XXH3_consumeStripes(",
        "*nbStripesSoFarPtr = nbStripesAfterBlock;",
        "*nbStripesSoFarPtr = 0;",
        False,
    ),
    (
        STREAM_3,
        ["inside"],
        "XXH3_digest_long (",
        "(state->bufferedSize - 1) / XXH_STRIPE_LEN",
        "state->bufferedSize / XXH_STRIPE_LEN",
        False,
    ),
]


def changed(header: str, function: str, old: str, new: str) -> str:
    """Returns the header with a text in a function's body replaced."""
    start = header.index(function)
    while ";" in header[start : header.index("{", start)]:  # a declaration or a call
        start = header.index(function, start + 1)
    at = header.index(old, header.index("{", start))
    return header[:at] + new + header[at + len(old) :]


def outcome(header: str, show: Callable, case: str, vector: str = "scalar") -> str | None:
    """Returns the refusal of a header, or None if the kind is proved."""
    with tempfile.TemporaryDirectory(prefix="symbolic-") as workdir:
        with open(os.path.join(workdir, "xxhash.h"), "w", encoding="utf-8") as file:
            file.write(header)
        wrong = module(workdir, vector)
    try:
        show(wrong, case)
    except REFUSALS as error:
        return f"{type(error).__name__}: {error}"
    return None


def report(changes: Iterable[tuple]) -> Iterator[tuple[bool, str]]:
    """Yields for each change and kind: whether it has the expected result, and a line."""
    with open(os.path.join(HEADERS, "xxhash.h"), encoding="utf-8") as file:
        header = file.read()
    for show, cases, function, old, new, is_equal in changes:
        for case in cases:
            refused = outcome(changed(header, function, old, new), show, case)
            message = f"{case}, {function} {old}  ->  {new}{' (equal)' if is_equal else ''}: {refused or 'shown'}"
            yield (refused is None) == is_equal, message
