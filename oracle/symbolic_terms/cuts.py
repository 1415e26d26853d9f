"""Chooses where to cut the message of a stream into chunks."""
import random
from typing import Iterable, Iterator

from .requests import Request

STREAMED = [
    *range(17),
    31,
    32,
    33,
    63,
    64,
    65,
    70,
    127,
    128,
    129,
    200,
    239,
    240,
    241,
    242,
    255,
    256,
    257,
    258,
    300,
    321,
    513,
    700,
    1088,
]
CUTS = [
    1,
    31,
    32,
    33,
    63,
    64,
    65,
    127,
    128,
    129,
    192,
    239,
    240,
    241,
    255,
    256,
    257,
    258,
    319,
    320,
    321,
    511,
    512,
    513,
    576,
    1024,
    1025,
]
PAIRS = 6


def cuts_of(length: int) -> list:
    """Returns the cuts for streams of a length: none, one or two of the edges, counted from the start and from the
    end."""
    ends = sorted({end for end in [*CUTS, *(length - end for end in CUTS), 0, length] if 0 <= end <= length})
    rng = random.Random(length)
    pairs = [sorted(rng.sample(ends, 2)) for _ in range(PAIRS)] if len(ends) > 2 else []
    return [[], *([end] for end in ends), *pairs]


def streams(hash_name: str, variant: str, secret_length: int | None, lengths: Iterable[int]) -> Iterator[Request]:
    """Yields the requests of streams of some lengths, with all their cuts."""
    for length in lengths:
        for cuts in cuts_of(length):
            request = Request(hash_name, variant, length, secret_length, cuts=cuts)
            yield from [request, *request.with_seed_0()]
