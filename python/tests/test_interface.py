"""The interface of the package xxhash: each expression is evaluated with both modules, and has one outcome."""
import array
import ctypes
import io
import mmap
import pickle
import unittest
import weakref

from .both import FORMS, NAMES, ours, theirs

VIEW = memoryview(bytes(range(100)))


class Index:
    def __index__(self):
        return 7


class Int:
    def __int__(self):
        return 7


class Broken:
    def __index__(self):
        raise RuntimeError('broken')


class Text(str):
    pass


class Bytes(bytes):
    pass


def released():
    view = memoryview(b'abc')
    view.release()
    return view


def mapped():
    memory = mmap.mmap(-1, 4096)
    memory[:3] = b'abc'
    return memory


# The names in the expressions below.
NAMED = {
    'VIEW': VIEW,
    'Index': Index,
    'Int': Int,
    'Broken': Broken,
    'Text': Text,
    'Bytes': Bytes,
    'released': released,
    'mapped': mapped,
    'array': array,
    'ctypes': ctypes,
    'io': io,
    'pickle': pickle,
    'weakref': weakref,
}

# Arguments of a call that hashes something: positional and keyword.
ARGUMENTS = '''
()
(b'abc')
('abc')
('ä€')
('a\\0b')
('\\ud800')
(Text('abc'))
(Bytes(b'abc'))
(bytearray(b'abc'))
(VIEW[1:4])
(VIEW[::2])
(VIEW[::-1])
(VIEW.cast('B', (10, 10)))
(memoryview(b''))
(released())
(mapped())
(array.array('i', [1, 2]))
(ctypes.create_string_buffer(b'ab'))
(ctypes.c_int(3))
(io.BytesIO(b'abc').getbuffer())
(1)
(None)
(1.5)
([1])
(object())
(module)
(memoryview)
(b'a', 1)
(b'a', True)
(b'a', -1)
(b'a', -2**63)
(b'a', -2**64 - 5)
(b'a', 2**32)
(b'a', 2**32 + 1)
(b'a', 2**64 - 1)
(b'a', 2**64)
(b'a', 2**200 + 3)
(b'a', 1.0)
(b'a', None)
(b'a', '1')
(b'a', b'1')
(b'a', Index())
(b'a', Int())
(b'a', Broken())
(b'a', seed=1)
(b'a', seed=-1)
(b'a', seed=None)
(b'a', seed=1.5)
(input=b'a')
(input='a', seed=1)
(seed=1, input=b'a')
(seed=1)
(seed=None)
(input=None)
(data=b'a')
(foo=1)
(foo=1, bar=2)
(seed=1, foo=2)
(b'a', foo=1)
(b'a', sed=1)
(b'a', **{'': 1})
(1, foo=1)
(1, None)
(None, 1.5)
(VIEW[::2], 1.5)
(VIEW[::2], foo=1)
(b'a', input=b'b')
(1, input=b'b')
(b'a', 1, seed=2)
(b'a', 1, input=b'b')
(b'a', 1, 2)
(b'a', 1, 2, 3)
(b'a', 1, foo=3)
(b'a', input=b'b', seed=3)
(input=b'a', seed=1, foo=3)
(b'a', usedforsecurity=False)
'''.strip().splitlines()

# Operations of an object. Each has an object of its own, h, of the type T.
OBJECT = '''
h.name
h.seed
h.digest_size
h.digestsize
h.block_size
T.__name__
T.__qualname__
type(h.digest()), type(h.hexdigest()), type(h.intdigest())
h.update(b'd'), h.hexdigest()
h.update('d'), h.hexdigest()
h.update(''), h.hexdigest()
h.update(VIEW[1:3]), h.hexdigest()
h.update(array.array('i', [1, 2])), h.hexdigest()
h.update(None)
h.update(1)
h.update(VIEW[::2])
h.update(released())
h.update('\\ud800')
h.update()
h.update(b'a', b'b')
h.update(input=b'd')
h.update(data=b'd')
h.update(b'a', foo=1)
h.digest(1)
h.digest(x=1)
h.hexdigest(1)
h.intdigest(1)
h.copy(1)
h.copy(foo=1)
h.reset(1)
h.reset(seed=1)
h.reset(), h.seed, h.hexdigest()
h.reset(), h.update(b'abc'), h.hexdigest() == T(b'abc', 5).hexdigest()
h.copy().seed, h.copy().hexdigest()
h.copy() == h
h == h, h != h.copy(), hash(h) == hash(h)
h < h
type(h.copy()) is T
isinstance(h, T)
setattr(h, 'seed', 3)
setattr(h, 'name', 3)
setattr(h, 'foo', 3)
delattr(h, 'seed')
setattr(T, 'foo', 3)
h.foo
T.foo
weakref.ref(h)
h.__init__(b'zz', 9), h.seed, h.hexdigest()
h.__init__(), h.seed, h.hexdigest()
h.__init__(seed=8), h.seed, h.hexdigest()
h.__init__(b'q'), h.seed, h.hexdigest()
h.__init__(1)
h.__init__(seed='a')
T.__new__(T, 1, 2, 3, 4).digest_size
T.__new__(int)
T.copy(3)
T.digest(1)
T.update(h, b'x'), h.hexdigest()
T()(b'x')
len(h)
bytes(h)
bool(h)
str(h).startswith('<MODULE.' + T.__name__ + ' object at ')
type('Sub', (T,), {})
pickle.loads(pickle.dumps(T)) is T
h.update.__self__ is h
T.update.__name__
type(T.name).__name__, type(T.update).__name__
'''.strip().splitlines()

MODULE = '''
module.XXHASH_VERSION
sorted(module.algorithms_available), type(module.algorithms_available)
module.xxh128 is module.xxh3_128
module.xxh128_digest is module.xxh3_128_digest
module.xxh128_hexdigest is module.xxh3_128_hexdigest
module.xxh128_intdigest is module.xxh3_128_intdigest
type(module.VERSION), type(module.VERSION_TUPLE)
module.VERSION == '.'.join(map(str, module.VERSION_TUPLE))
module.version.VERSION == module.VERSION, module.version.VERSION_TUPLE == module.VERSION_TUPLE
type(module.xxh64_digest), module.xxh64_digest.__name__
'''.strip().splitlines()

# Python's own error text differs here, since the call is made in another way.
OTHER_ARGUMENTS = {'h.update()', "h.update(b'a', b'b')"}


class Interface(unittest.TestCase):
    def outcome(self, module, expression, **names):
        """The value of an expression with a module, or the type and text of its exception."""
        try:
            source = expression.replace('MODULE', module.__name__)
            return 'value', eval(source, {**NAMED, 'module': module, **names})
        except Exception as error:
            source = '' if expression in OTHER_ARGUMENTS else str(error).replace(module.__name__ + '.', '')
            return type(error), source

    def compare(self, expression, names=lambda module: {}):
        one, other = (self.outcome(module, expression, **names(module)) for module in (ours, theirs))
        self.assertEqual(one, other, expression)

    def test_functions(self):
        for name in NAMES:
            for form in FORMS:
                for arguments in ARGUMENTS:
                    with self.subTest(call=f'{name}_{form}{arguments}'):
                        self.compare(f'module.{name}_{form}{arguments}')

    def test_starts_of_objects(self):
        for name in NAMES:
            for arguments in ARGUMENTS:
                with self.subTest(call=name + arguments):
                    self.compare(f'[(h.hexdigest(), h.seed) for h in [module.{name}{arguments}]]')

    def test_objects(self):
        for name in NAMES:

            def names(module):
                return {'h': getattr(module, name)(b'abc', 5), 'T': getattr(module, name)}

            for expression in OBJECT:
                with self.subTest(hash=name, expression=expression):
                    self.compare(expression, names)

    def test_the_module(self):
        for expression in MODULE:
            with self.subTest(expression=expression):
                self.compare(expression)

    def test_every_name_is_there(self):
        self.assertEqual(set(theirs.__all__) - set(ours.__all__), set())
        self.assertEqual([name for name in ours.__all__ if not hasattr(ours, name)], [])
        for name in NAMES:
            algorithm, other = getattr(ours, name), getattr(theirs, name)
            self.assertEqual([word for word in dir(other) if not hasattr(algorithm, word)], [])

    def test_a_refused_start_changes_nothing(self):
        for name in NAMES:
            hasher = getattr(ours, name)(b'abc', 5)
            before = hasher.hexdigest()
            for arguments in ((1,), (b'a', 'x'), (b'a', 1, 2), (VIEW[::2],)):
                with self.assertRaises((TypeError, BufferError)):
                    hasher.__init__(*arguments)
                with self.assertRaises((TypeError, BufferError)):
                    hasher.update(*arguments[:1] if arguments[0] != b'a' else (None,))
                self.assertEqual((hasher.hexdigest(), hasher.seed), (before, 5))

    def test_a_state_that_never_began(self):
        """An object before __init__ is one of no bytes and the seed 0."""
        for name in NAMES:
            algorithm = getattr(ours, name)
            self.assertEqual(algorithm.__new__(algorithm).hexdigest(), algorithm().hexdigest())

    def test_documentation(self):
        for name in NAMES:
            self.assertIn('seed=0', getattr(ours, name + '_digest').__text_signature__)
            for member in ('update', 'digest', 'copy', 'reset', 'state', 'from_state', 'seed', 'block_size'):
                self.assertTrue(getattr(getattr(ours, name), member).__doc__, member)


if __name__ == '__main__':
    unittest.main()
