"""Memory: nothing is left of objects, of calls, and of calls that are refused."""
import os
import sys
import tempfile
import unittest

from .both import NAMES, bytes_of, ours

PAGE = os.sysconf('SC_PAGE_SIZE')
# Number of objects of each hash: a million in all, or TWOX_HASH_OBJECTS, for example under valgrind.
OBJECTS = int(os.environ.get('TWOX_HASH_OBJECTS', 1000000)) // len(NAMES)
SECRET, VIEW = bytes_of(192), memoryview(bytes(100))
# This many bytes may be left after all calls: a leak of a few bytes per call is more than that. Valgrind's own data
# takes more, so with few objects only buffers that are held are detected, and what valgrind reports.
LEAST = max(OBJECTS, 1 << 20) if OBJECTS >= 2000 else 1 << 26


def memory():
    with open('/proc/self/statm') as file:
        return int(file.read().split()[1]) * PAGE


def refused(call, *args, **keywords):
    try:
        call(*args, **keywords)
    except (TypeError, ValueError, BufferError):
        return
    raise AssertionError(f'{call} took {args} and {keywords}')


class Leaks(unittest.TestCase):
    def leaves_nothing(self, call, times):
        for _ in range(min(times, 2000)):
            call()
        before = memory()
        for _ in range(times):
            call()
        self.assertLess(memory() - before, LEAST)
        if hasattr(sys, 'gettotalrefcount'):
            self.leaves_no_references(call)

    def leaves_no_references(self, call):
        """A debug build of Python counts all references."""

        def count():
            before = sys.gettotalrefcount()
            for _ in range(100):
                call()
            return sys.gettotalrefcount() - before

        count()
        self.assertLess(min(count() for _ in range(3)), 50)

    def test_a_million_objects(self):
        for name in NAMES:
            algorithm, piece = getattr(ours, name), bytearray(b'a' * 100)

            def call():
                hasher = algorithm(piece, 3)
                hasher.update(piece)
                hasher.copy().hexdigest()
                hasher.digest(), hasher.intdigest(), hasher.seed, hasher.name

            self.leaves_nothing(call, OBJECTS)

    def test_functions(self):
        for name in NAMES:
            call, data = getattr(ours, name + '_intdigest'), bytearray(b'a' * 100)
            self.leaves_nothing(lambda: [call(data, 1 << 70), call('abc', seed=-5), call(input=VIEW)], OBJECTS // 4)

    def test_refusals(self):
        for name in NAMES:
            algorithm, call, hasher = getattr(ours, name), getattr(ours, name + '_digest'), getattr(ours, name)()
            data = bytearray(b'a' * 100)

            def calls():
                for function in (algorithm, call):
                    for args in ((VIEW[::2],), (data, 'x'), (data, 1, 2), (1,), ('\ud800',)):
                        refused(function, *args)
                    for keywords in ({'foo': 1}, {'input': data}, {'secret': b'short'}, {'secret': VIEW}):
                        refused(function, data, **keywords)
                refused(hasher.update, VIEW[::2])
                refused(algorithm.from_state, '{}')
                refused(algorithm.from_state, hasher.state().replace('0', '1'))

            self.leaves_nothing(calls, OBJECTS // 100)
            data += b'a'  # no buffer of it is held any more

    def test_secrets_and_states(self):
        for algorithm in (ours.xxh3_64, ours.xxh3_128):

            def calls():
                hasher = algorithm(b'abc', secret=SECRET)
                hasher.reset()
                algorithm(b'a' * 300, 5, secret=bytearray(SECRET))
                ours.xxh3_64_digest(b'abc', secret=memoryview(SECRET))
                algorithm.from_state(hasher.state()).__reduce__()

            self.leaves_nothing(calls, OBJECTS // 20)

    def test_long_inputs(self):
        data = bytearray(70000)
        for name in NAMES:
            self.leaves_nothing(lambda: getattr(ours, name)(data).update(data), OBJECTS // 100)
        data += b'a'

    def test_many_rows(self):
        data, into = bytearray(1600), bytearray(800)

        def calls():
            ours.many(data, width=16)
            ours.many(data, width=16, into=into)
            ours.many([data, 'abc', VIEW])
            refused(ours.many, [data, 5])
            refused(ours.many, data, width=16, into=VIEW)
            refused(ours.many, data, width=16, into=data)
            refused(ours.many, [data], into=into)

        self.leaves_nothing(calls, OBJECTS // 100)
        data += b'a'
        into += b'a'

    def test_files(self):
        with tempfile.NamedTemporaryFile() as file:
            file.write(bytes(300000))
            file.flush()
            self.leaves_nothing(lambda: ours.file_digest(file.name), OBJECTS // 500)
