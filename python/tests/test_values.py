"""Values: compared with the reference library's table, and with the package xxhash at every length."""
import os
import random
import unittest

from .both import FORMS, LONG_LENGTHS, NAMES, SEEDS, WITH_SECRET, bytes_of, ours, pieces_of, theirs

TABLE = os.path.join(os.path.dirname(os.path.abspath(__file__)), '..', '..', 'oracle', 'vectors.txt')
ALGORITHMS = {'32': 'xxh32', '64': 'xxh64', '3-64': 'xxh3_64', '3-128': 'xxh3_128'}


def bytes_from(start, length):
    """The bytes of a test case of the table: oracle/vectors.c defines them."""
    out, x = bytearray(length), start
    for i in range(length):
        x = x * 6364136223846793005 + 1442695040888963407 & 0xFFFFFFFFFFFFFFFF
        out[i] = x >> 56
    return bytes(out)


class Case:
    """A request of the table, and the reference library's value."""

    def __init__(self, line):
        name, seed, secret, length, start, answer = line.split()
        self.name, self.answer = ALGORITHMS[name], int(answer, 16)
        self.key = {} if seed == '-' else {'seed': int(seed, 16)}
        if secret != '-':
            secret_length, secret_start = secret.split(':')
            self.key['secret'] = bytes_from(int(secret_start, 16), int(secret_length))
        self.input = bytes_from(int(start, 16), int(length))


def cases():
    with open(TABLE) as file:
        yield from (Case(line) for line in file if not line.startswith('#'))


class Table(unittest.TestCase):
    def test_each_row_at_once_and_in_pieces(self):
        rng, at_once, in_pieces = random.Random(7), 0, 0
        for case in cases():
            self.assertEqual(getattr(ours, case.name + '_intdigest')(case.input, **case.key), case.answer)
            at_once += 1
            if len(case.key.get('secret', b'')) > 256:
                continue
            hasher = getattr(ours, case.name)(**case.key)
            for piece in pieces_of(case.input, rng, 700):
                hasher.update(piece)
            self.assertEqual(hasher.intdigest(), case.answer)
            in_pieces += 1
        self.assertGreater(at_once, 20000)
        self.assertGreater(in_pieces, 15000)


class BesideTheOriginal(unittest.TestCase):
    def compare(self, data, *seed):
        for name in NAMES:
            for form in FORMS:
                call = f'{name}_{form}'
                self.assertEqual(getattr(ours, call)(data, *seed), getattr(theirs, call)(data, *seed), (call, seed))
            one, other = (getattr(module, name)(data, *seed) for module in (ours, theirs))
            for form in FORMS:
                self.assertEqual(getattr(one, form)(), getattr(other, form)(), (name, form, seed))

    def test_every_length_to_1100(self):
        for length in range(1101):
            data = bytes_of(length)
            self.compare(data)
            self.compare(data, length * 0x9E3779B97F4A7C15)

    def test_long_ones(self):
        for length in LONG_LENGTHS:
            self.compare(bytes_of(length))
            self.compare(bytes_of(length), 1 << 63 | length)

    def test_seeds(self):
        for seed in SEEDS:
            for length in (0, 3, 16, 100, 241, 2000):
                self.compare(bytes_of(length), seed)

    def test_every_type_of_input(self):
        data = bytes_of(300)
        for name in NAMES:
            call = getattr(ours, name + '_digest')
            for one in (bytearray(data), memoryview(data), memoryview(data).cast('B', (3, 100))):
                self.assertEqual(call(one), call(data))
            for text in ('', 'abc', 'ä€😀\0', 'x' * 1000):
                self.assertEqual(call(text), getattr(theirs, name + '_digest')(text))
                self.assertEqual(call(text), call(text.encode()))


class Secrets(unittest.TestCase):
    def test_a_seed_with_a_secret(self):
        """Up to 240 bytes only the seed takes effect, and above only the secret; with only a secret it does at every
        length. A seed of 0 that is given is a seed."""
        secret = bytes_of(192, 5)
        for name in WITH_SECRET:
            call = getattr(ours, name + '_digest')
            for length in (0, 5, 16, 100, 240):
                data = bytes_of(length)
                self.assertEqual(call(data, 77, secret=secret), getattr(theirs, name + '_digest')(data, 77))
                self.assertEqual(call(data, 0, secret=secret), getattr(theirs, name + '_digest')(data))
                self.assertNotEqual(call(data, secret=secret), call(data))
            for length in (241, 2000):
                data = bytes_of(length)
                self.assertEqual(call(data, 77, secret=secret), call(data, secret=secret))

    def test_none_is_no_secret(self):
        for name in WITH_SECRET:
            expected = getattr(theirs, name + '_digest')(b'a', 3)
            self.assertEqual(getattr(ours, name + '_digest')(b'a', 3, secret=None), expected)
            self.assertEqual(getattr(ours, name)(b'a', 3, secret=None).digest(), expected)

    def test_lengths_of_secrets(self):
        for name in WITH_SECRET:
            call, algorithm = getattr(ours, name + '_digest'), getattr(ours, name)
            for length in (0, 1, 135):
                for function in (call, algorithm):
                    for seed in ({}, {'seed': 5}):
                        with self.assertRaises(ValueError) as caught:
                            function(b'abc', secret=bytes(length), **seed)
                        self.assertEqual(str(caught.exception), 'The secret must have at least 136 bytes')
            for length in (136, 137, 256):
                secret = bytes_of(length)
                self.assertEqual(algorithm(b'a' * 1000, secret=secret).digest(), call(b'a' * 1000, secret=secret))
            self.assertEqual(len(call(b'a', secret=bytes(5000))), algorithm().digest_size)
            with self.assertRaisesRegex(ValueError, 'at most 256'):
                algorithm(secret=bytes(257))

    def test_what_no_secret_is(self):
        for secret in ('x' * 200, 5, [1] * 200):
            with self.assertRaises(TypeError):
                ours.xxh3_64_digest(b'', secret=secret)
        with self.assertRaises(BufferError):
            ours.xxh3_64_digest(b'', secret=memoryview(bytes(400))[::2])
        for name in ('xxh32', 'xxh64'):
            with self.assertRaises(TypeError):
                getattr(ours, name + '_digest')(b'', secret=bytes(200))
            with self.assertRaises(TypeError):
                getattr(ours, name)(secret=bytes(200))
