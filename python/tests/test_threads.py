"""Threads: long inputs let others run, and an object may be shared by several threads."""
import hashlib
import os
import signal
import subprocess
import sys
import tempfile
import threading
import time
import unittest
import warnings
from concurrent.futures import ThreadPoolExecutor

from .both import NAMES, bytes_of, ours

LONG = bytes_of(1 << 25)
# Interpreters with a GIL of their own, each in a thread, import the package concurrently in a process that hadn't.
INTERPRETERS = """
import threading
try:
    import _interpreters as interpreters
except ImportError:
    import _xxsubinterpreters as interpreters
CODE = (
    'import twox_hash; assert twox_hash.xxh64_hexdigest(b"some bytes", 1234) == "eab55659a496d78b"; '
    'import os; os.write(1, b"hashed ")'
)
made, start = [interpreters.create() for _ in range(8)], threading.Barrier(8)
def run(each):
    start.wait()
    interpreters.run_string(each, CODE)
threads = [threading.Thread(target=run, args=(each,)) for each in made]
[thread.start() for thread in threads]
[thread.join() for thread in threads]
"""


class Clock:
    """A thread that records, about each millisecond, how long the thread that created it has computed so far."""

    def __enter__(self):
        self.seen, self.ends, self.clock = [], False, time.pthread_getcpuclockid(threading.get_ident())
        self.thread = threading.Thread(target=self.tick)
        self.thread.start()
        return self

    def tick(self):
        while not self.ends:
            time.sleep(0.001)
            self.seen.append(time.clock_gettime(self.clock))

    def __exit__(self, *_):
        self.ends = True
        self.thread.join()


class Threads(unittest.TestCase):
    def lets_others_run(self, call):
        """The clock continues during one call: the call is repeated if the machine was too busy to decide. Before
        and after a call others may always run, however long the machine lets this thread wait there."""
        with Clock() as clock:
            for _ in range(50):
                before = time.thread_time()
                call()
                after = time.thread_time()
                quarter = (after - before) / 4
                if any(before + quarter < seen < after - quarter for seen in clock.seen):
                    return
        self.fail('no other thread ran')

    def test_others_run_meanwhile(self):
        for name in NAMES:
            hasher = getattr(ours, name)()
            self.lets_others_run(lambda: getattr(ours, name + '_digest')(LONG))
            self.lets_others_run(lambda: getattr(ours, name + '_hexdigest')(memoryview(LONG), 5))
            self.lets_others_run(lambda: hasher.update(LONG))
            self.lets_others_run(lambda: getattr(ours, name)(LONG))
            self.lets_others_run(lambda: ours.many([LONG], name))
            self.lets_others_run(lambda: ours.many(LONG, name, width=256))

    def test_files_beside_each_other(self):
        with tempfile.TemporaryDirectory() as folder:
            paths = [os.path.join(folder, str(i)) for i in range(8)]
            for i, path in enumerate(paths):
                with open(path, 'wb') as file:
                    file.write(bytes_of(3000000, i))
            with ThreadPoolExecutor(8) as pool:
                found = [hasher.hexdigest() for hasher in pool.map(ours.file_digest, paths)]
        self.assertEqual(found, [ours.xxh3_64_hexdigest(bytes_of(3000000, i)) for i in range(8)])

    def test_objects_beside_each_other(self):
        def digest_of(number):
            name = NAMES[number % len(NAMES)]
            hasher, data = getattr(ours, name)(seed=number), bytes_of(300000, number)
            for at in range(0, len(data), 70000):
                hasher.update(data[at : at + 70000])
            return hasher.digest() == getattr(ours, name + '_digest')(data, number)

        with ThreadPoolExecutor(8) as pool:
            self.assertTrue(all(pool.map(digest_of, range(200))))

    def test_one_object_in_many_threads(self):
        """Each chunk is hashed whole, in some order: equal chunks have one hash whatever the order. Others read,
        copy and save the object meanwhile."""
        for name in NAMES:
            piece, short, algorithm = b'ab' * 50000, b'ab' * 3, getattr(ours, name)
            hasher, ends = algorithm(), threading.Event()
            failed = []

            def read():
                while not ends.is_set():
                    copy = hasher.copy()
                    if algorithm.from_state(copy.state()).digest() != copy.digest():
                        failed.append(name)
                    hasher.digest(), hasher.seed

            readers = [threading.Thread(target=read) for _ in range(2)]
            writers = [
                threading.Thread(target=lambda: [hasher.update(one) for one in (piece, short) * 100]) for _ in range(6)
            ]
            for thread in readers + writers:
                thread.start()
            for thread in writers:
                thread.join()
            ends.set()
            for thread in readers:
                thread.join()
            self.assertEqual(failed, [])
            self.assertEqual(hasher.digest(), getattr(ours, name + '_digest')((piece + short) * 600))

    def test_resets_and_starts_beside_updates(self):
        """Whatever the order, the result is the hash of some chunks since the last start."""
        for name in NAMES:
            algorithm = getattr(ours, name)
            hasher, piece = algorithm(seed=3), b'a' * 70000
            expected = {getattr(ours, name + '_digest')(piece * count, 3) for count in range(200)}

            def update():
                for _ in range(50):
                    hasher.update(piece)

            def begin():
                for _ in range(50):
                    hasher.reset()
                    hasher.__init__(piece, 3)

            threads = [threading.Thread(target=call) for call in (update, update, begin)]
            for thread in threads:
                thread.start()
            for thread in threads:
                thread.join()
            self.assertIn(hasher.digest(), expected)

    def status_of_a_child(self, hasher, call, seconds):
        """The status of a process that is forked while a thread updates the object, and makes the call for at most
        this long."""
        thread = threading.Thread(target=hasher.update, args=(bytes(1 << 30),))
        thread.start()
        time.sleep(0.03)
        with warnings.catch_warnings():
            warnings.simplefilter('ignore')
            child = os.fork()
        if not child:
            signal.alarm(seconds)
            call()
            os._exit(0)
        status = os.waitpid(child, 0)[1]
        thread.join()
        return os.waitstatus_to_exitcode(status)

    def test_a_fork_during_a_long_update(self):
        """As with hashlib, the child waits forever for that object, and can use all others."""
        piece = bytes_of(100000)
        for make in (hashlib.sha256, ours.xxh64):
            hasher = make()
            hasher.update(LONG)
            # On a busy machine the update may be over before the fork.
            waits = (self.status_of_a_child(hasher, lambda: hasher.update(b'a'), 2) for _ in range(20))
            self.assertIn(-signal.SIGALRM, waits)
            self.assertEqual(self.status_of_a_child(hasher, lambda: make(piece).copy().update(piece), 100), 0)

    @unittest.skipIf(sys.version_info < (3, 12), 'before 3.12 all interpreters of a process have one lock')
    @unittest.skipIf(
        '.abi3.' in ours._native.__file__, 'the limited interface of 3.11 has no word for such interpreters'
    )
    def test_first_imports_in_many_interpreters(self):
        for _ in range(10):
            done = subprocess.run([sys.executable, '-c', INTERPRETERS], capture_output=True, text=True)
            self.assertEqual((done.returncode, done.stdout.split()), (0, ['hashed'] * 8), done.stderr)

    def test_an_input_that_is_held_can_not_move(self):
        data = bytearray(LONG)
        with ThreadPoolExecutor(1) as pool:
            done = pool.submit(ours.xxh32_digest, data)
            while not done.done():
                try:
                    data += b'x'
                    del data[-1:]
                except BufferError:
                    pass
        self.assertIn(done.result(), {ours.xxh32_digest(LONG), ours.xxh32_digest(LONG + b'x')})
