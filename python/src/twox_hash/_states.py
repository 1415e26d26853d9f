"""Saved objects: their JSON, which for XXH32 and XXH64 is that of the program `xxh`, and what is refused."""
import json
import struct
import sys
from typing import Any, Union

from ._native import xxh3_64, xxh3_128, xxh32, xxh64
from ._types import Hasher, HasherType

WORD = 1 << 64
USAGE = 'The buffer usage does not match the total length'
CORE = ('v1', 'v2', 'v3', 'v4')


def text_of(hasher: Hasher) -> str:
    """Returns everything that the object holds, as JSON."""
    record = _FORMS[type(hasher)].record_of(hasher._memory())
    return json.dumps(record, separators=(',', ':'), sort_keys=True)


def from_text(algorithm: HasherType, text: Union[str, bytes]) -> Hasher:
    """Restores a saved object. ValueError: the text is no saved state; for XXH32 and XXH64 also one that no bytes
    lead to, and for XXH3 one whose parts don't fit each other."""
    if not isinstance(text, (str, bytes)):
        raise TypeError(f'a saved state is a str, not {type(text).__name__!r}')
    return _FORMS[algorithm].hasher_of(algorithm, _read(text))


# ---- JSON ----


def _not_a_state() -> ValueError:
    return ValueError('The text is not a saved state')


def _whole_number(digits: str) -> Union[int, float]:
    """Parses an integer of JSON. One with a sign is never valid in a state, so it becomes another type."""
    return float(digits) if digits.startswith('-') else int(digits)


def _constant(name: str) -> None:
    raise ValueError(f'{name} is not JSON')


def _read(text: Union[str, bytes]) -> dict[str, Any]:
    """Returns the members of a text's object."""
    try:
        decoded = text.decode() if isinstance(text, bytes) else text
        record = json.loads(decoded, parse_int=_whole_number, parse_constant=_constant)
    except (ValueError, RecursionError):
        raise _not_a_state() from None
    return _object(record)


def _object(value: Any) -> dict[str, Any]:
    if not isinstance(value, dict):
        raise _not_a_state()
    return value


def _number(value: Any, limit: int = WORD) -> int:
    """Returns an integer below the limit. True is none."""
    if type(value) is not int or value >= limit:
        raise _not_a_state()
    return value


def _numbers(value: Any, least: int, most: int, limit: int = 256) -> list[int]:
    """Returns a list of this many integers below the limit."""
    if not isinstance(value, list) or not least <= len(value) <= most:
        raise _not_a_state()
    return [_number(number, limit) for number in value]


# ---- the state in memory, in the machine's byte order, and when bytes lead to it ----


def _with_fields(hasher: Hasher, layout: struct.Struct, *fields: Any) -> Hasher:
    """Returns the object, which is new, with these fields at the start of its state."""
    memory = bytearray(hasher._memory())
    layout.pack_into(memory, 0, *fields)
    hasher._set_memory(bytes(memory))
    return hasher


class _Plain:
    """XXH32 and XXH64: a state is accepted if and only if it represents some bytes, as by `from_state` of the proved
    hashers. In memory one field is the mark of a state plus the number of bytes buffered."""

    def __init__(self, bits: int, stripe: int, mark: bytes, layout: str, fields: str):
        self.limit, self.stripe, self.mark = 1 << bits, stripe, int.from_bytes(mark, 'little')
        self.layout, self.fields = struct.Struct(layout), fields.split()

    def record_of(self, memory: bytes) -> dict[str, Any]:
        state = dict(zip(self.fields, self.layout.unpack_from(memory)))
        core = {name: state[name] for name in CORE}
        return {
            'buffer': list(state['buffer']),
            'buffer_usage': state['marked_usage'] - self.mark,
            'core': core,
            'seed': state['seed'],
            'total_len': state['total_len'],
        }

    def hasher_of(self, algorithm: Any, record: dict[str, Any]) -> Hasher:
        buffer = bytes(_numbers(record.get('buffer'), self.stripe, self.stripe))
        usage, total = _number(record.get('buffer_usage')), _number(record.get('total_len'))
        members = _object(record.get('core'))
        core = {name: _number(members.get(name), self.limit) for name in CORE}
        seed = _number(record.get('seed'), self.limit)
        # A length from 2^64 - 1 on is counted as that, so it doesn't determine the number of bytes buffered.
        if usage >= self.stripe or total < WORD - 1 and usage != total % self.stripe:
            raise ValueError(USAGE)
        hasher = algorithm(seed=seed)
        if total < self.stripe and core != self.record_of(hasher._memory())['core']:
            raise ValueError('The core does not match the seed')
        state = {**core, 'seed': seed, 'total_len': total, 'marked_usage': self.mark + usage, 'buffer': buffer}
        return _with_fields(hasher, self.layout, *(state[name] for name in self.fields))


class _Stream:
    """XXH3 of both widths: a state is accepted if its parts fit each other and the secret. Whether some bytes lead
    to its accumulators is known only for those of no stripe. `seed` is null in one that was made with only a secret."""

    taken = struct.Struct('=8QQQQQ256s')
    # The seed, the length, the end of the buffer and the secrets aren't written if they have no meaning.
    whole = struct.Struct('=8QQQQQ256s192sQ8s8s8x256s')
    # The end of a state's buffer, and that of earlier versions.
    buffer_size, greatest, stripe = 256, 512, 64
    # The marks of a state whose secret is behind it: without a seed and with one. Of one that has its secret, without.
    behind, behind_with_seed, copied = 0x9B4ED3712AC8F516, 0x68D7B5AEC13F0E9B, 0xC5A16E0F93D24B87

    def record_of(self, memory: bytes) -> dict[str, Any]:
        *accumulators, place, stripes, usage, total, buffer, own, mark, seed, length, other = self.whole.unpack(memory)
        secret = other[: int.from_bytes(length, sys.byteorder)] if mark in (self.behind, self.behind_with_seed) else own
        has_seed = mark not in (self.behind, self.copied)
        return {
            'accumulators': accumulators,
            'buffer': list(buffer[:usage]),
            'last_stripe': self._last_stripe(stripes, buffer, usage),
            'place': place,
            'secret': list(secret),
            'seed': int.from_bytes(seed, sys.byteorder) if has_seed else None,
            'stripes': stripes,
            'total_len': total,
        }

    def _last_stripe(self, stripes: int, buffer: bytes, usage: int) -> list[int]:
        """Returns the last stripe taken, with which the buffer ends if fewer bytes than a stripe are in use, and zeros
        if it has no meaning."""
        return list(buffer[-self.stripe :]) if stripes and usage < self.stripe else [0] * self.stripe

    def hasher_of(self, algorithm: Any, record: dict[str, Any]) -> Hasher:
        accumulators = _numbers(record.get('accumulators'), 8, 8, WORD)
        buffer = _numbers(record.get('buffer'), 0, self.greatest)
        last = _numbers(record.get('last_stripe'), self.stripe, self.stripe)
        secret = bytes(_numbers(record.get('secret'), 136, 256))
        place, stripes, total = (_number(record.get(name)) for name in ('place', 'stripes', 'total_len'))
        if 'seed' not in record:
            raise _not_a_state()
        key = {} if record['seed'] is None else {'seed': _number(record['seed'])}
        hasher = algorithm(secret=secret, **key)
        if total != min(64 * stripes + len(buffer), WORD - 1) or stripes and not buffer:
            raise ValueError(USAGE)
        self._test_place(place, stripes, secret)
        if not stripes and accumulators != self.record_of(hasher._memory())['accumulators']:
            raise ValueError('The accumulators are not those of no stripe')
        end = bytes(last) if len(buffer) < self.stripe else b''
        first, rest = bytes(buffer[: self.buffer_size]), bytes(buffer[self.buffer_size :])
        filled = first.ljust(self.buffer_size - len(end), b'\0') + end
        total = min(64 * stripes + len(first), WORD - 1)
        loaded = _with_fields(hasher, self.taken, *accumulators, place, stripes, len(first), total, filled)
        loaded.update(rest)
        return loaded

    @staticmethod
    def _test_place(place: int, stripes: int, secret: bytes) -> None:
        """Each stripe advances eight bytes in the secret, and after the last place comes the first one. From 2^64 -
        1 stripes on they are counted as that."""
        places = (len(secret) - 64) // 8
        if place >= places or stripes < WORD - 1 and place != stripes % places:
            raise ValueError('The place in the secret does not match the stripes')


_FORMS: dict[HasherType, Union[_Plain, _Stream]] = {
    xxh32: _Plain(32, 16, b'XX32', '=5IQI16s', 'v1 seed v2 marked_usage v3 total_len v4 buffer'),
    xxh64: _Plain(64, 32, b'XX64', '=5QI4xQ32s', 'v1 seed v2 total_len v3 marked_usage v4 buffer'),
    xxh3_64: _Stream(),
    xxh3_128: _Stream(),
}
