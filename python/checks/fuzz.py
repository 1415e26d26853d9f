"""Calls the package with hostile shapes, strides and buffers: `fuzz.py TURNS SEED`. An input is refused, or has the
digest of its actual bytes. Otherwise the sanitizers, or a guard page after the memory, end the process."""
import array
import ctypes
import random
import sys

import hostile
import twox_hash

REFUSALS = (TypeError, ValueError, BufferError, OverflowError, MemoryError, OSError)
NAMES = ('xxh32', 'xxh64', 'xxh3_64', 'xxh3_128')
# No number is between them: with that many rows the list itself would fill the memory.
SIZES = (
    *range(9),
    15,
    16,
    17,
    64,
    240,
    241,
    256,
    300,
    2**59,
    2**60,
    2**60 + 1,
    2**61,
    2**61 + 1,
    2**62,
    2**63 - 1,
)
FORMATS = (None, 'B', 'c', 'Q', '<Q', '>Q', 'I', 'd', 'O', '3w', '8s', 'T{I:Offset:I:x:}', 'T{', ':', '', 'ä')


class Reader:
    """A file that returns wrong numbers of bytes read."""

    def __init__(self, answers):
        self.answers = iter(answers)

    def readinto(self, buffer):
        return next(self.answers, 0)


class Fuzz:
    def __init__(self, seed):
        self.rng = random.Random(seed)
        self.taken = self.refused = 0

    def size(self):
        return self.rng.choice(SIZES) * self.rng.choice((1, 1, 1, 1, 1, 1, -1))

    def sizes(self):
        count = self.rng.choice((0, 1, 1, 2, 2, 3, 64))
        return tuple(self.size() for _ in range(count))

    def hostile(self):
        """Memory of up to 300 bytes, which exposes all, fewer, or a negative length."""
        rng, bytes_there = self.rng, self.rng.randrange(301)
        shape = rng.choice((None, (bytes_there,), self.sizes(), (self.size(), bytes_there), (rng.randrange(40), 8)))
        strides = rng.choice((None, None, shape and tuple(self.size() for _ in shape)))
        length = rng.choice(
            (bytes_there, bytes_there, bytes_there, rng.randrange(bytes_there + 1), -self.rng.randrange(9))
        )
        # Without a shape Python itself divides by the size of an item.
        itemsize = rng.choice((1, 1, 8, 4, self.size())) or bool(shape is None)
        return hostile.Buffer(
            bytes_there, length, itemsize, rng.choice(FORMATS), shape, strides, rng.choice((False, False, True))
        )

    def huge(self):
        """Rows of no bytes, as in ctypes."""
        return (ctypes.c_char * 0 * self.rng.choice([size for size in SIZES if size < 2**63]))()

    def rows(self):
        return self.rng.choice(
            (
                self.hostile,
                self.huge,
                lambda: bytes(self.rng.randrange(300)),
                lambda: [self.hostile() for _ in range(self.rng.randrange(5))],
            )
        )()

    def into(self, rows):
        length = self.rng.choice((0, 4, 8, 16, 24, 32, self.rng.randrange(300)))
        return self.rng.choice(
            (
                None,
                None,
                rows,
                self.hostile(),
                bytearray(length),
                memoryview(bytearray(length))[::-1],
                array.array(self.rng.choice('QIqdB'), bytes(length // 8 * 8)),
            )
        )

    def many(self, name):
        rows, width = self.rows(), self.rng.choice((None, None, self.size()))
        answer = twox_hash.many(rows, name, width=width, into=self.into(rows))
        if isinstance(answer, list) and not isinstance(rows, list) and answer:
            whole, digest = bytes(rows), getattr(twox_hash, f'{name}_digest')
            width = len(whole) // len(answer)
            assert answer == [digest(whole[i * width : (i + 1) * width]) for i in range(len(answer))]

    def rows_by_number(self, name):
        hasher, numbers = getattr(twox_hash, name)(), self.rng.choice((False, True))
        hasher._many_of_width(self.rows(), self.size(), self.into(None), numbers)

    def function(self, name):
        getattr(twox_hash, f'{name}_digest')(self.rows(), self.size(), **self.secret())

    def object(self, name):
        hasher = getattr(twox_hash, name)(self.rows(), **self.secret())
        hasher.update(self.rows())
        hasher.copy().hexdigest()

    def secret(self):
        return self.rng.choice(({}, {'secret': self.hostile()}, {'secret': self.huge()}))

    def memory(self, name):
        """A forged state: its value is arbitrary, and it reads only its own memory."""
        hasher = getattr(twox_hash, name)()
        forged = bytearray(hasher._memory())
        for _ in range(self.rng.randrange(1, 20)):
            forged[self.rng.randrange(len(forged))] = self.rng.choice((0, 1, 127, 255, self.rng.randrange(256)))
        hasher._set_memory(
            bytes(forged[: self.rng.choice((len(forged), len(forged), self.rng.randrange(len(forged))))])
        )
        hasher.update(bytes(self.rng.randrange(600)))
        hasher.digest(), hasher.reset(), hasher.state()

    def file(self, name):
        twox_hash.file_digest(Reader([self.size() for _ in range(self.rng.randrange(4))]), name)

    def turn(self):
        call = self.rng.choice(
            (self.many, self.many, self.rows_by_number, self.function, self.object, self.memory, self.file)
        )
        try:
            call(self.rng.choice(NAMES))
            self.taken += 1
        except REFUSALS:
            self.refused += 1


def main(turns, seed):
    fuzz = Fuzz(seed)
    for _ in range(turns):
        fuzz.turn()
    assert min(fuzz.taken, fuzz.refused) > turns // 20, (fuzz.taken, fuzz.refused)
    print(f'{fuzz.taken} taken, {fuzz.refused} refused')


if __name__ == '__main__':
    main(int(sys.argv[1]), int(sys.argv[2]))
