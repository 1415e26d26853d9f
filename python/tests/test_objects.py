"""Objects: chunks, copies, resets, saved states, pickles."""
import copy
import json
import os
import pickle
import random
import subprocess
import unittest

from .both import NAMES, WITH_SECRET, bytes_of, ours, pieces_of, theirs

SECRET = bytes_of(192, 1)
LENGTHS = (0, 1, 15, 16, 31, 32, 63, 64, 239, 240, 241, 511, 512, 513, 1024, 5000, 70000, 300000)
SAVED = os.path.join(os.path.dirname(os.path.abspath(__file__)), 'saved_by_xxh.txt')


def keys(name):
    """Each way to create an object of the hash."""
    plain = [{}, {'seed': 0x123456789ABCDEF}]
    return plain + [{'secret': SECRET}, {'secret': SECRET, 'seed': 9}, {'secret': bytes_of(256), 'seed': 0}] * (
        name in WITH_SECRET
    )


def each():
    for name in NAMES:
        for key in keys(name):
            yield getattr(ours, name), getattr(ours, name + '_digest'), key


class Pieces(unittest.TestCase):
    def test_pieces_of_any_lengths(self):
        rng = random.Random(3)
        for algorithm, digest, key in each():
            for longest in (1, 7, 65, 300, 600, 5000):
                data = bytes_of(rng.randint(0, 40 * longest))
                hasher = algorithm(**key)
                for piece in pieces_of(data, rng, longest):
                    hasher.update(piece)
                self.assertEqual(hasher.digest(), digest(data, **key))

    def test_pieces_from_64_kib_on(self):
        for algorithm, digest, key in each():
            hasher, data = algorithm(b'first', **key), b'first'
            for length in (70000, 5, 200000, 65536, 100, 65535):
                piece = bytes_of(length)
                hasher.update(piece)
                data += piece
                self.assertEqual(hasher.digest(), digest(data, **key))

    def test_a_copy_goes_on_alone(self):
        for algorithm, digest, key in each():
            for length in LENGTHS:
                data = bytes_of(length)
                hasher = algorithm(data, **key)
                for other in (hasher.copy(), copy.copy(hasher), copy.deepcopy(hasher)):
                    other.update(b'more')
                    self.assertEqual(other.digest(), digest(data + b'more', **key))
                    self.assertEqual(other.seed, hasher.seed)
                self.assertEqual(hasher.digest(), digest(data, **key))

    def test_reset_keeps_the_seed_and_the_secret(self):
        for algorithm, digest, key in each():
            for hasher in (
                algorithm(b'some', **key),
                algorithm(b'some', **key).copy(),
                algorithm.from_state(algorithm(b'some', **key).state()),
            ):
                hasher.update(bytes(1000))
                hasher.reset()
                self.assertEqual(hasher.digest(), digest(b'', **key))
                hasher.update(bytes(700))
                self.assertEqual(hasher.digest(), digest(bytes(700), **key))

    def test_a_fresh_start(self):
        for algorithm, digest, key in each():
            hasher = algorithm(b'some', **key)
            hasher.__init__()
            self.assertEqual((hasher.digest(), hasher.seed), (digest(b''), 0))
            hasher.__init__(b'other', **key)
            self.assertEqual(hasher.digest(), digest(b'other', **key))

    def test_the_secret_is_the_objects_own(self):
        for name in WITH_SECRET:
            secret = bytearray(SECRET)
            hasher = getattr(ours, name)(secret=secret)
            secret[:] = bytes(len(secret))
            hasher.update(bytes(500))
            self.assertEqual(hasher.digest(), getattr(ours, name + '_digest')(bytes(500), secret=SECRET))

    def test_an_input_may_be_changed_afterwards(self):
        for algorithm, digest, key in each():
            data = bytearray(b'abc')
            hasher = algorithm(data, **key)
            data += b'd'  # no buffer of it is held any more
            data[0] = 0
            self.assertEqual(hasher.digest(), digest(b'abc', **key))


class Saved(unittest.TestCase):
    def test_what_was_saved_goes_on(self):
        for algorithm, digest, key in each():
            for length in LENGTHS:
                data = bytes_of(length)
                hasher = algorithm(data, **key)
                text = hasher.state()
                loaded = algorithm.from_state(text)
                self.assertIs(type(loaded), algorithm)
                self.assertEqual((loaded.state(), loaded.seed), (text, hasher.seed))
                self.assertEqual(algorithm.from_state(text.encode()).state(), text)
                loaded.update(b'and more' * 100)
                self.assertEqual(loaded.digest(), digest(data + b'and more' * 100, **key))
                self.assertEqual(hasher.digest(), digest(data, **key))

    def test_pickles(self):
        for algorithm, digest, key in each():
            for length in LENGTHS[::3]:
                data = bytes_of(length)
                for protocol in range(pickle.HIGHEST_PROTOCOL + 1):
                    loaded = pickle.loads(pickle.dumps(algorithm(data, **key), protocol))
                    loaded.update(b'more')
                    self.assertEqual(loaded.digest(), digest(data + b'more', **key))

    def test_the_width_of_a_stream(self):
        """Both widths of XXH3 have the same states, and each returns its own hash."""
        hasher = ours.xxh3_64(b'a' * 1000, 5)
        self.assertEqual(ours.xxh3_128.from_state(hasher.state()).digest(), ours.xxh3_128_digest(b'a' * 1000, 5))

    def test_the_last_stripe_of_a_stream(self):
        """It is saved if fewer bytes than a stripe follow it. With more, it may be any stripe, or zeros."""
        data = bytes_of(2000)
        hasher = ours.xxh3_64(data[:256])
        hasher.update(data[256:264])
        record = json.loads(hasher.state())
        self.assertEqual((record['last_stripe'], record['buffer']), (list(data[192:256]), list(data[256:264])))
        self.assertEqual(ours.xxh3_64.from_state(json.dumps(record)).digest(), theirs.xxh3_64_digest(data[:264]))
        hasher = ours.xxh3_64(data[:448])
        hasher.update(data[448:520])
        record = json.loads(hasher.state())
        taken = 64 * record['stripes']
        self.assertTrue(0 < taken <= 520 - 64)
        self.assertEqual(record['buffer'], list(data[taken:520]))
        for last in (data[taken - 64 : taken], bytes(64)):
            loaded = ours.xxh3_64.from_state(json.dumps(record | {'last_stripe': list(last)}))
            self.assertEqual(loaded.digest(), theirs.xxh3_64_digest(data[:520]))
            loaded.update(data[520:])
            self.assertEqual(loaded.digest(), theirs.xxh3_64_digest(data))

    def test_the_longer_buffer_of_earlier_versions(self):
        """They saved up to 512 bytes that no stripe had taken."""
        data = bytes_of(3000)
        for algorithm, digest in ((ours.xxh3_64, theirs.xxh3_64_digest), (ours.xxh3_128, theirs.xxh3_128_digest)):
            for taken in (200, 1000):
                for length in (256, 257, 300, 400):
                    record = json.loads(algorithm(data[:taken]).state())
                    end = taken + length - len(record['buffer'])
                    record |= {'buffer': list(data[end - length : end]), 'total_len': end}
                    loaded = algorithm.from_state(json.dumps(record))
                    self.assertEqual(loaded.digest(), digest(data[:end]))
                    loaded.update(data[end:])
                    self.assertEqual(loaded.digest(), digest(data))

    def test_states_that_xxh_saved(self):
        """Each case has a seed, the length of the input, whose bytes are 0, 1, 2 .. 250, repeated, and the state
        saved by the program xxh."""
        with open(SAVED) as file:
            rows = [line.split() for line in file if not line.startswith('#')]
        self.assertGreater(len(rows), 20)
        for bits, seed, length, text in rows:
            algorithm = getattr(ours, 'xxh' + bits)
            data = bytes(i % 251 for i in range(int(length)))
            whole, loaded = algorithm(data, int(seed)), algorithm.from_state(text)
            self.assertEqual(loaded.state(), text)
            self.assertEqual(json.loads(whole.state()) | {'buffer': 0}, json.loads(text) | {'buffer': 0})
            loaded.update(b'more')
            self.assertEqual(loaded.digest(), getattr(theirs, f'xxh{bits}_digest')(data + b'more', int(seed)))

    @unittest.skipUnless(os.environ.get('XXH'), 'XXH names no program xxh')
    def test_xxh_goes_on(self):
        for bits in ('32', '64'):
            for length in LENGTHS:
                algorithm, data = getattr(ours, 'xxh' + bits), bytes_of(length)
                text, xxh = algorithm(data, length).state(), os.environ['XXH']
                done = subprocess.run([xxh, 'resume', bits, text], input=b'more', stdout=subprocess.PIPE, check=True)
                self.assertEqual(done.stdout.decode().split()[0], algorithm(data + b'more', length).hexdigest())
                saved = subprocess.run([xxh, 'save', bits, str(length)], input=data, stdout=subprocess.PIPE, check=True)
                self.assertEqual(algorithm.from_state(saved.stdout).digest(), algorithm(data, length).digest())


class Forged(unittest.TestCase):
    def refused(self, algorithm, text, message):
        with self.assertRaises(ValueError) as caught:
            algorithm.from_state(text)
        self.assertEqual(str(caught.exception), message)

    def changed(self, algorithm, message, data=b'a' * 100, **members):
        """The state with other members is refused with this text."""
        self.refused(algorithm, json.dumps(json.loads(algorithm(data, 3).state()) | members), message)

    def test_what_is_no_saved_text(self):
        message = 'The text is not a saved state'
        for algorithm in map(ours.__dict__.get, NAMES):
            for text in (
                '',
                ' ',
                '{',
                '{}',
                '[]',
                '1',
                'null',
                'NaN',
                '"a"',
                '{"a":1}',
                b'\xff',
                '[' * 100000,
                algorithm().state()[:-1],
                algorithm().state() + ',',
                algorithm().state().replace('0', '-1', 1),
                algorithm().state().replace('0', '0.0', 1),
                algorithm().state().replace('0', 'true', 1),
                algorithm().state().replace('total_len', 'length'),
                algorithm().state().replace('[', '[256,', 1),
                algorithm().state().replace('0', '1' * 5000, 1),
                algorithm().state().replace('seed', 'Seed'),
                algorithm().state().replace('buffer', 'Buffer'),
            ):
                self.refused(algorithm, text, message)
            for other in (None, 5, [], algorithm()):
                with self.assertRaises(TypeError):
                    algorithm.from_state(other)
        self.refused(ours.xxh64, ours.xxh32(b'a').state(), message)
        self.refused(ours.xxh32, ours.xxh64(b'a').state(), message)
        self.refused(ours.xxh3_64, ours.xxh64(b'a').state(), message)
        for bits, algorithm in ((32, ours.xxh32), (64, ours.xxh64)):
            self.changed(algorithm, message, seed=1 << bits)
            self.changed(algorithm, message, core={'v1': 1 << bits, 'v2': 0, 'v3': 0, 'v4': 0})
            self.changed(algorithm, message, core=[])
            self.changed(algorithm, message, total_len=1 << 64)

    def test_what_may_stand_beside(self):
        """Other members, another order and white space are accepted, as by xxh."""
        for algorithm in map(ours.__dict__.get, NAMES):
            record = json.loads(algorithm(b'a' * 300, 3).state())
            text = json.dumps({'more': [-1, 0.5, None], **dict(reversed(record.items()))}, indent=2)
            self.assertEqual(algorithm.from_state(text).digest(), algorithm(b'a' * 300, 3).digest())

    def test_plain_states_that_no_bytes_lead_to(self):
        usage, core = 'The buffer usage does not match the total length', 'The core does not match the seed'
        for algorithm, stripe in ((ours.xxh32, 16), (ours.xxh64, 32)):
            waiting = 100 % stripe
            for number in {0, 1, stripe - 1, stripe, 1 << 40, (1 << 64) - 1} - {waiting}:
                self.changed(algorithm, usage, buffer_usage=number)
            self.changed(algorithm, usage, total_len=101)
            self.changed(algorithm, usage, total_len=(1 << 64) - 1, buffer_usage=stripe)
            self.changed(algorithm, core, data=b'a', seed=4)
            self.changed(algorithm, core, data=b'a', core={'v1': 1, 'v2': 2, 'v3': 3, 'v4': 4})
            self.changed(algorithm, usage, data=b'a', core={'v1': 1, 'v2': 2, 'v3': 3, 'v4': 4}, buffer_usage=2)
            # From 2^64 - 1 bytes on the length doesn't determine the number of bytes buffered.
            record = json.loads(algorithm(b'a' * 100, 3).state()) | {'total_len': (1 << 64) - 1}
            algorithm.from_state(json.dumps(record)).update(b'more')

    def test_streams_that_no_bytes_lead_to(self):
        usage = 'The buffer usage does not match the total length'
        place = 'The place in the secret does not match the stripes'
        for algorithm in (ours.xxh3_64, ours.xxh3_128):
            long = {'data': b'a' * 3000}
            self.changed(algorithm, usage, total_len=101)
            stripes = json.loads(algorithm(b'a' * 3000).state())['stripes']
            self.changed(algorithm, usage, **long, buffer=[], total_len=64 * stripes)
            self.changed(algorithm, usage, **long, stripes=0)
            self.changed(algorithm, place, **long, place=1000)
            self.changed(algorithm, place, **long, place=json.loads(algorithm(b'a' * 3000).state())['place'] ^ 1)
            self.changed(algorithm, place, data=b'a', place=1)
            self.changed(algorithm, 'The accumulators are not those of no stripe', accumulators=[0] * 8)
            for members in (
                {'secret': [0] * 135},
                {'secret': [0] * 257},
                {'accumulators': [0] * 7},
                {'seed': -1},
                {'last_stripe': [0] * 63},
                {'buffer': [0] * 513},
                {'seed': '5'},
                {'place': None},
            ):
                self.changed(algorithm, 'The text is not a saved state', **members)

    def test_forged_memory_does_no_harm(self):
        """The private call that writes a state to memory accepts any bytes: no call continues from invalid ones."""
        rng = random.Random(11)
        for algorithm in map(ours.__dict__.get, NAMES):
            memory = algorithm(b'a' * 1000)._memory()
            for wrong in (b'', memory + b'a', memory[1:]):
                with self.assertRaises(ValueError):
                    algorithm()._set_memory(wrong)
            for _ in range(300):
                forged, hasher = bytearray(memory), algorithm()
                for _ in range(rng.randint(1, 4)):
                    forged[rng.randrange(len(forged))] = rng.choice((0, 1, 127, 255))
                try:
                    hasher._set_memory(bytes(forged))
                except ValueError:
                    continue
                hasher.update(b'b' * 700)
                hasher.reset()
                self.assertEqual(len(hasher.digest()), hasher.digest_size)
