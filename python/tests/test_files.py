"""Digests of files."""
import io
import os
import pathlib
import socket
import tempfile
import threading
import unittest
import zipfile

from .both import NAMES, bytes_of, ours, theirs

LENGTHS = (0, 1, 1000, (1 << 18) - 1, 1 << 18, (1 << 18) + 1, 2000000)


class Files(unittest.TestCase):
    def setUp(self):
        folder = tempfile.TemporaryDirectory()
        self.addCleanup(folder.cleanup)
        self.folder = folder.name

    def file(self, data, name='file'):
        path = os.path.join(self.folder, name)
        with open(path, 'wb') as file:
            file.write(data)
        return path

    def test_every_type_of_path_and_file(self):
        for length in LENGTHS:
            data = bytes_of(length)
            path = self.file(data)
            for name in NAMES:
                expected = getattr(theirs, name)(data).hexdigest()
                for algorithm in (name, getattr(ours, name)):
                    for file in (path, os.fsencode(path), pathlib.Path(path)):
                        self.assertEqual(ours.file_digest(file, algorithm).hexdigest(), expected)
                for buffering in (0, -1):
                    with open(path, 'rb', buffering=buffering) as file:
                        self.assertEqual(ours.file_digest(file, name).hexdigest(), expected)
                        self.assertFalse(file.closed)
                self.assertEqual(ours.file_digest(io.BytesIO(data), name).hexdigest(), expected)

    def test_the_default_and_the_keys(self):
        data = bytes_of(300000)
        path, secret = self.file(data), bytes_of(192)
        self.assertEqual(ours.file_digest(path).digest(), ours.xxh3_64_digest(data))
        self.assertEqual(ours.file_digest(path, algorithm='xxh64', seed=-7).digest(), theirs.xxh64_digest(data, -7))
        self.assertEqual(
            ours.file_digest(path, 'xxh128', secret=secret).digest(), ours.xxh128_digest(data, secret=secret)
        )
        self.assertEqual(
            ours.file_digest(path, 'xxh3_64', seed=4, secret=secret).digest(),
            ours.xxh3_64_digest(data, 4, secret=secret),
        )

    def test_from_a_files_place_to_its_end(self):
        data = bytes_of(300000)
        with open(self.file(data), 'rb') as file:
            file.seek(1234)
            self.assertEqual(ours.file_digest(file, 'xxh64').digest(), theirs.xxh64_digest(data[1234:]))
            self.assertEqual(file.read(), b'')

    def test_more_may_follow(self):
        hasher = ours.file_digest(self.file(b'abc'), 'xxh64')
        hasher.update(b'def')
        self.assertEqual(hasher.digest(), theirs.xxh64_digest(b'abcdef'))

    def test_a_pipe_a_socket_and_an_archive(self):
        data = bytes_of(500000)
        reader, writer = os.pipe()
        thread = threading.Thread(
            target=lambda: [os.write(writer, data[:70000]), os.write(writer, data[70000:]), os.close(writer)]
        )
        thread.start()
        with open(reader, 'rb', buffering=0) as file:
            self.assertEqual(ours.file_digest(file).digest(), ours.xxh3_64_digest(data))
        thread.join()
        one, other = socket.socketpair()
        with one, other, one.makefile('rb') as file:
            other.sendall(b'abc')
            other.shutdown(socket.SHUT_WR)
            self.assertEqual(ours.file_digest(file).digest(), ours.xxh3_64_digest(b'abc'))
        memory = io.BytesIO()
        with zipfile.ZipFile(memory, 'w') as archive:
            archive.writestr('name', data)
        with zipfile.ZipFile(memory) as archive, archive.open('name') as file:
            self.assertEqual(ours.file_digest(file).digest(), ours.xxh3_64_digest(data))

    def test_a_reader_without_readinto(self):
        class Reader:
            def __init__(self, pieces):
                self.pieces = iter(pieces)

            def read(self, size):
                return next(self.pieces, b'')

        self.assertEqual(ours.file_digest(Reader([b'ab', b'c'])).digest(), ours.xxh3_64_digest(b'abc'))
        with self.assertRaises(BlockingIOError):
            ours.file_digest(Reader([b'ab', None]))

    def test_a_pipe_that_has_nothing_yet(self):
        reader, writer = os.pipe()
        os.set_blocking(reader, False)
        with open(reader, 'rb', buffering=0) as file, open(writer, 'wb'):
            with self.assertRaises(BlockingIOError):
                ours.file_digest(file)

    def test_errors(self):
        path = self.file(b'abc')
        for wrong, error in (
            (os.path.join(self.folder, 'none'), FileNotFoundError),
            (self.folder, IsADirectoryError),
            (os.path.join(path, 'below'), NotADirectoryError),
            ('a\0b', ValueError),
            (5, TypeError),
            (None, TypeError),
            (io.StringIO('abc'), TypeError),
            (io.StringIO(''), TypeError),
        ):
            with self.assertRaises(error):
                ours.file_digest(wrong)
        with open(path) as file, self.assertRaises(TypeError):
            ours.file_digest(file)
        with open(path, 'ab') as file, self.assertRaises(io.UnsupportedOperation):
            ours.file_digest(file)
        with open(path, 'rb') as file:
            pass
        with self.assertRaises(ValueError):
            ours.file_digest(file)
        for arguments, error in (
            ({'algorithm': 'sha1'}, ValueError),
            ({'algorithm': 'XXH64'}, ValueError),
            ({'algorithm': int}, TypeError),
            ({'algorithm': None}, TypeError),
            ({'secret': b'short'}, ValueError),
            ({'seed': 1.5}, TypeError),
            ({'algorithm': 'xxh32', 'secret': bytes(200)}, TypeError),
            ({'foo': 1}, TypeError),
        ):
            with self.assertRaises(error):
                ours.file_digest(path, **arguments)

    def test_a_file_that_vanishes(self):
        """A missing file is reported by its name; one that is deleted while it is open is read to its end, and one
        that becomes shorter up to there."""
        path = self.file(bytes_of(600000))
        with open(path, 'rb', buffering=0) as file:
            os.remove(path)
            self.assertEqual(ours.file_digest(file).digest(), ours.xxh3_64_digest(bytes_of(600000)))
        with self.assertRaises(FileNotFoundError) as caught:
            ours.file_digest(path)
        self.assertEqual(caught.exception.filename, path)
        path = self.file(bytes_of(600000))

        class Shorter(io.FileIO):
            def readinto(self, buffer):
                length = super().readinto(buffer)
                os.truncate(path, 1000)
                return length

        with Shorter(path) as file:
            self.assertEqual(ours.file_digest(file).digest(), ours.xxh3_64_digest(bytes_of(600000)[: 1 << 18]))

    def test_a_reader_that_fails(self):
        class Failing(io.RawIOBase):
            def readinto(self, buffer):
                raise OSError(5, 'it fails')

        with self.assertRaisesRegex(OSError, 'it fails'):
            ours.file_digest(Failing())

    def test_a_reader_that_lies(self):
        """It can only report a number of bytes read from 0 to the buffer's size."""
        for answer in (-1, (1 << 18) + 1, 1 << 70):
            answers = iter((answer, 0))

            class Lying(io.RawIOBase):
                def readinto(self, buffer):
                    return next(answers)

            with self.assertRaisesRegex(OSError, 'readinto'):
                ours.file_digest(Lying())

    def test_keys_are_a_seed_and_a_secret(self):
        with self.assertRaisesRegex(TypeError, 'input'):
            ours.file_digest(self.file(b'abc'), input=b'before')

    def test_a_file_that_was_opened_is_closed(self):
        before = len(os.listdir('/proc/self/fd'))
        for _ in range(50):
            ours.file_digest(self.file(b'abc'))
            with self.assertRaises(IsADirectoryError):
                ours.file_digest(self.folder)
        self.assertEqual(len(os.listdir('/proc/self/fd')), before)
