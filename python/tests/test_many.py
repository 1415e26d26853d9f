"""Digests of many rows in one call."""
import array
import ctypes
import os
import sys
import unittest

from .both import NAMES, WITH_SECRET, bytes_of, ours

SECRET = bytes_of(200)


class Matrix:
    """Rows of bytes as a buffer of two dimensions, like numpy's arrays."""

    def __init__(self, rows, width):
        self.data = bytes_of(rows * width, 7)
        self.rows = [self.data[i * width : (i + 1) * width] for i in range(rows)]
        self.view = memoryview(self.data).cast('B', (rows, width))


class Many(unittest.TestCase):
    def test_rows_of_one_length(self):
        for name in NAMES:
            digest = getattr(ours, name + '_digest')
            for rows, width in ((1, 1), (3, 16), (1000, 8), (100, 300), (5, 100000)):
                matrix = Matrix(rows, width)
                expected = [digest(row) for row in matrix.rows]
                self.assertEqual(ours.many(matrix.view, name), expected)
                self.assertEqual(ours.many(matrix.data, name, width=width), expected)
                self.assertEqual(ours.many(bytearray(matrix.data), getattr(ours, name), width=width), expected)
                self.assertEqual(ours.many(matrix.rows, name), expected)
                into = bytearray(b''.join(expected)[::-1])
                self.assertIs(ours.many(matrix.view, name, into=into), into)
                self.assertEqual(into, b''.join(expected))

    def test_rows_of_many_lengths(self):
        rows = [bytes_of(length) for length in (*range(300), 70000, 200000)]
        for name in NAMES:
            expected = [getattr(ours, name + '_digest')(row) for row in rows]
            for given in (rows, tuple(rows), iter(rows), (bytearray(row) for row in rows), map(memoryview, rows)):
                self.assertEqual(ours.many(given, name), expected)
            self.assertEqual(
                ours.many(rows, name, into=bytearray(len(expected) * len(expected[0]))), b''.join(expected)
            )

    def test_items_of_several_bytes_are_rows(self):
        numbers = array.array('Q', [1, 2, 1 << 60])
        expected = [ours.xxh3_64_digest(word.to_bytes(8, sys.byteorder)) for word in numbers]
        self.assertEqual(ours.many(numbers), expected)
        self.assertEqual(ours.many((ctypes.c_uint64 * 3)(*numbers)), expected)

    def test_text_and_mixed_rows(self):
        rows = ['ä', b'b', bytearray(b'c')]
        self.assertEqual(ours.many(rows), [ours.xxh3_64_digest(row) for row in rows])

    def test_seeds_and_secrets(self):
        matrix = Matrix(50, 260)
        for rows in (matrix.rows, [row[:20] for row in matrix.rows]):
            for name in NAMES:
                for key in [{'seed': -3}] + [{'secret': SECRET}, {'secret': SECRET, 'seed': 4}] * (name in WITH_SECRET):
                    expected = [getattr(ours, name + '_digest')(row, **key) for row in rows]
                    self.assertEqual(ours.many(rows, name, **key), expected)
                    self.assertEqual(ours.many(b''.join(rows), name, width=len(rows[0]), **key), expected)

    def test_no_rows_and_rows_of_no_bytes(self):
        self.assertEqual(ours.many([]), [])
        self.assertEqual(ours.many(b'', width=5), [])
        self.assertEqual(ours.many((ctypes.c_char * 0 * 4)()), [ours.xxh3_64_digest(b'')] * 4)
        self.assertEqual(ours.many([], into=bytearray()), bytearray())

    def test_widths_that_are_no_int(self):
        """Integers of other types are widths. They compute nothing, since their type may be too narrow."""

        class Index:
            def __index__(self):
                return 16

        data = bytes_of(1600)
        self.assertEqual(ours.many(data, width=Index()), ours.many(data, width=16))
        for wrong in (16.0, '16', b'16'):
            with self.assertRaisesRegex(TypeError, 'cannot be interpreted as an integer'):
                ours.many(data, width=wrong)

    def test_numpy(self):
        try:
            import numpy
        except ImportError:
            self.skipTest('no numpy')
        table = numpy.arange(600, dtype='u2').reshape(100, 6)
        self.assertEqual(ours.many(table, 'xxh64'), [ours.xxh64_digest(row.tobytes()) for row in table])
        self.assertEqual(ours.many(table, width=numpy.uint8(12)), ours.many(table))
        into = numpy.empty(100, '>u8')
        self.assertIs(ours.many(table, 'xxh64', into=into), into)
        self.assertEqual(into.tolist(), [ours.xxh64_intdigest(row.tobytes()) for row in table])
        names = numpy.array([b'one', b'three'])
        self.assertEqual(ours.many(names), [ours.xxh3_64_digest(name) for name in (b'one\0\0', b'three')])
        objects = numpy.array([b'one', 'three'], dtype=object)
        self.assertEqual(ours.many(objects), [ours.xxh3_64_digest(name) for name in (b'one', b'three')])
        records = numpy.array([(1, 2)], dtype=[('Offset', 'u4'), ('width', 'u4')])
        for width in (None, 8):
            self.assertEqual(ours.many(records, width=width), [ours.xxh3_64_digest(records.tobytes())])
        for wrong in (numpy.array(['one', 'three']), numpy.array([('a', 1)], dtype=[('name', 'U3'), ('n', 'u4')])):
            with self.assertRaisesRegex(TypeError, r'text .*tolist\(\)'):
                ours.many(wrong)
        self.assertEqual(ours.many(wrong['n']), [ours.xxh3_64_digest(wrong['n'].tobytes())])
        for wrong in (objects.reshape(2, 1), numpy.array([('a', 1)], dtype=[('name', 'O'), ('n', 'u4')])):
            with self.assertRaisesRegex(TypeError, 'objects'):
                ours.many(wrong)
        numbers = numpy.empty(100, 'u8')
        self.assertIs(ours.many(table, 'xxh64', into=numbers), numbers)
        self.assertEqual(numbers.tolist(), into.tolist())
        for wrong in (numpy.empty(200, 'u8')[::2], numpy.frombuffer(bytes(800), 'u8')):
            with self.assertRaises(BufferError):
                ours.many(table, 'xxh64', into=wrong)
        for wrong in (table[:, ::2], table.T, table[::2], numpy.asfortranarray(table)):
            with self.assertRaises(BufferError):
                ours.many(wrong)

    def test_errors(self):
        rows = Matrix(4, 8)
        for error, calls in (
            (
                TypeError,
                (
                    "'abc'",
                    "[b'a'], width=1",
                    '5',
                    'None',
                    "[b'a', 5]",
                    "[b'a', None]",
                    "[b'a'], int",
                    "[b'a'], into=5",
                    "[b'a'], 'xxh64', secret=SECRET",
                    "[b'a'], seed=None",
                    "[b'a'], foo=1",
                ),
            ),
            (
                ValueError,
                (
                    "b'abc'",
                    'bytearray(8), width=3',
                    "b'abc', width=0",
                    "b'abc', width=-3",
                    "[b'a'], 'md5'",
                    "[b'a'], into=bytearray(7)",
                    'rows.view, into=bytearray(31)',
                    "[b'a'], secret=b'short'",
                ),
            ),
            (BufferError, ('rows.view[::2]', "[b'a'], into=bytes(8)")),
            (UnicodeEncodeError, (r"['\ud800']",)),
        ):
            for arguments in calls:
                with self.subTest(call=arguments), self.assertRaises(error):
                    eval(f'ours.many({arguments})', {'ours': ours, 'rows': rows, 'SECRET': SECRET})

    def test_digests_over_their_own_rows(self):
        """They would overwrite rows that aren't read yet."""
        memory = bytearray(80)
        with self.assertRaises(ValueError):
            ours.many(memoryview(memory)[:40], width=8, into=memoryview(memory)[:40])
        with self.assertRaises(ValueError):
            ours.many(memoryview(memory)[:40], width=8, into=memoryview(memory)[39:79])
        ours.many(memoryview(memory)[:40], width=8, into=memoryview(memory)[40:])
        rows = [memoryview(memory)[at : at + 8] for at in range(0, 40, 8)]
        before = bytes(memory)
        for start in (0, 8, 39):
            with self.assertRaisesRegex(ValueError, 'into overlaps row'):
                ours.many(rows, into=memoryview(memory)[start : start + 40])
        self.assertEqual(memory, before)
        ours.many(rows, into=memoryview(memory)[40:])
        ours.many([memoryview(memory)[4:4], b'a'], into=memoryview(memory)[:16])

    def test_more_digests_than_memory_has(self):
        """Rows of no bytes are as many as their shape has. A process of its own makes the call, since it may crash."""
        sizes = sys.maxsize + 1
        for count, name, into in (
            (sizes // 4, 'xxh64', bytearray(0)),
            (sizes // 2, 'xxh32', bytearray(0)),
            (sizes // 8, 'xxh128', bytearray(0)),
            (sizes // 4 + 1, 'xxh64', bytearray(8)),
            (sizes - 1, 'xxh64', None),
        ):
            child = os.fork()
            if not child:
                try:
                    ours.many((ctypes.c_char * 0 * count)(), name, into=into)
                except OverflowError as fault:
                    os._exit(not str(fault).startswith(f'{count} digests'))
                finally:
                    os._exit(2)
            self.assertEqual(os.waitstatus_to_exitcode(os.waitpid(child, 0)[1]), 0, (count, name))

    def test_an_error_leaves_into_as_it_was(self):
        into = bytearray(b'before' * 4)
        for wrong, error in ((5, TypeError), ('\ud800', UnicodeEncodeError), (memoryview(bytes(4))[::2], BufferError)):
            for row in range(3):
                rows = [b'a', 'b', bytearray(b'c')]
                rows[row] = wrong
                with self.assertRaisesRegex(error, f'row {row}'):
                    ours.many(rows, into=into)
                with self.assertRaisesRegex(error, f'row {row}'):
                    ours.many(rows)
                self.assertEqual(into, b'before' * 4)

    def test_keys_are_a_seed_and_a_secret(self):
        for key in ({'input': b'a'}, {'input': 'a', 'seed': 1}, {'data': b'a'}):
            with self.assertRaisesRegex(TypeError, next(iter(key))):
                ours.many([b'a'], **key)

    def test_integers_of_a_digests_size_get_the_numbers(self):
        rows = [b'one', b'two', b'three']
        together = b'a' * 4 + b'b' * 4 + b'c' * 4
        long = 'L' if array.array('L').itemsize == 8 else 'Q'
        for code, name in (('Q', 'xxh64'), (long, 'xxh3_64'), ('I', 'xxh32'), ('q', 'xxh64')):
            digits = getattr(ours, name + '_intdigest')
            into = array.array(code, [0] * 3)
            self.assertIs(ours.many(rows, name, into=into), into)
            mask = (1 << 8 * into.itemsize) - 1
            self.assertEqual([number & mask for number in into], [digits(row) for row in rows])
            ours.many(together, name, width=4, into=into)
            self.assertEqual([number & mask for number in into], [digits(row * 4) for row in (b'a', b'b', b'c')])
        into = (ctypes.c_uint64 * 3)()
        ours.many(rows, into=into)
        self.assertEqual(list(into), [ours.xxh3_64_intdigest(row) for row in rows])

    def test_other_items_of_into(self):
        """Bytes and integers in the other byte order get the digests. Native ones of another size are refused."""
        other = ctypes.c_uint64.__ctype_be__ if sys.byteorder == 'little' else ctypes.c_uint64.__ctype_le__
        rows, digests = [b'one', b'two'], b''.join(ours.xxh3_128_digest(row) for row in (b'one', b'two'))
        for into in ((ctypes.c_char * 32)(), (ctypes.c_ubyte * 16 * 2)(), (other * 4)(), (ctypes.c_double * 4)()):
            self.assertEqual(bytes(ours.many(rows, 'xxh128', into=into)), digests)
        for name, into in (
            ('xxh128', array.array('Q', [1] * 4)),
            ('xxh64', array.array('I', [1] * 4)),
            ('xxh32', array.array('Q', [1])),
            ('xxh32', (ctypes.c_uint16 * 4)()),
        ):
            before = bytes(into)
            with self.assertRaisesRegex(ValueError, 'into has integers of'):
                ours.many(rows, name, into=into)
            self.assertEqual(bytes(into), before)

    def test_a_stored_error_holds_no_rows(self):
        """The buffer of the rows can be resized while the exception with its frames is there."""
        letters = 'w' if sys.version_info >= (3, 13) else 'u'
        errors = []
        for rows, more in ((bytearray(8), {'width': 7}), (bytearray(8), {}), (array.array(letters, 'abc'), {})):
            try:
                ours.many(rows, **more)
            except (TypeError, ValueError) as fault:
                errors.append(fault)
            rows.extend(rows)
        self.assertEqual(len(errors), 3)

    def test_rows_of_text_in_memory(self):
        """UTF-32 is never meant as a row."""
        letters = 'w' if sys.version_info >= (3, 13) else 'u'
        for rows in (array.array(letters, 'abc'), (ctypes.c_wchar * 3)()):
            with self.assertRaisesRegex(TypeError, 'text'):
                ours.many(rows)

    def test_rows_of_addresses(self):
        """Pointers of each kind are refused, also in a record; complex numbers and fields of such names are no
        pointers."""

        class Record(ctypes.Structure):
            _fields_ = (('number', ctypes.c_int), ('text', ctypes.c_wchar_p), ('d', ctypes.c_double))

        class Plain(ctypes.Structure):
            _fields_ = (('zPXZ', ctypes.c_int), ('P', ctypes.c_double))

        for pointer in (
            ctypes.c_char_p,
            ctypes.c_wchar_p,
            ctypes.c_void_p,
            ctypes.POINTER(ctypes.c_int),
            ctypes.CFUNCTYPE(ctypes.c_int),
            ctypes.POINTER(Plain),
            Record,
        ):
            for width in (None, 8):
                with self.assertRaisesRegex(TypeError, 'not addresses'):
                    ours.many((pointer * 3)(), width=width)
        with self.assertRaisesRegex(TypeError, 'not addresses'):
            ours.many(memoryview(bytes(16)).cast('P'))
        self.assertEqual(ours.many((Plain * 2)()), [ours.xxh3_64_digest(bytes(ctypes.sizeof(Plain)))] * 2)

    def test_rows_of_complex_numbers(self):
        try:
            import numpy
        except ImportError:
            self.skipTest('no numpy')
        for dtype in ('c8', 'c16'):
            table = numpy.arange(3).astype(dtype)
            self.assertEqual(ours.many(table), [ours.xxh3_64_digest(number.tobytes()) for number in table])

    def test_rows_that_change_while_they_are_hashed(self):
        """The rows of a list are collected before the first one is hashed."""
        rows = [b'a', b'b', b'c']

        def changing():
            for row in list(rows):
                rows.clear()
                yield row

        self.assertEqual(ours.many(changing()), [ours.xxh3_64_digest(row) for row in (b'a', b'b', b'c')])
