"""The frames in an object's table .eh_frame, read here without binutils."""
import struct

CFA_OFFSET, OFFSET, RESTORE, ADVANCE = 0x0e, 0x80, 0xc0, 0x40
WIDE_ADVANCES = {0x02: '<B', 0x03: '<H', 0x04: '<I'}
DEF_CFA, NOTHING = 0x0c, 0x00


def number(data: bytes, at: int, is_signed: bool = False) -> tuple[int, int]:
    """A number of the form LEB128, and its end."""
    value = shift = 0
    while True:
        byte = data[at]
        value, shift, at = value | (byte & 127) << shift, shift + 7, at + 1
        if byte < 128:
            return (value - (1 << shift) if is_signed and byte & 64 else value), at


# By ELF's number of the processor: the relocation of a distance, the stack pointer, the return address's register.
PROCESSORS = {62: (2, 7, 16), 183: (261, 31, 30)}


class Table:
    """`functions` has the frames of each function, a whole section: pairs of a place and the frame from there on. A
    frame is the distance from the stack pointer to the CFA, and pairs of a register's number and its place below it."""

    def __init__(self, object_):
        self.heads, self.functions = {}, {}
        self.distance, self.stack, self.returns = PROCESSORS[object_.machine]
        tables = [head for head in object_.heads if head.name == '.eh_frame']
        if [head.flags for head in tables] not in ([], [2]):
            raise ValueError('.eh_frame is there twice, or is not a table to read')
        for head in tables:
            self.read(object_, head)

    def read(self, object_, table):
        self.data, at = object_.body(table), 0
        leads = {place: target for place, *target in object_.relocations_of(table)}
        sizes = {head.name: head.size for head in object_.heads}
        places = {symbol.name: (object_.heads[symbol.section].name, symbol.value) for symbol in object_.symbols
                  if symbol.section and symbol.info >> 4}
        while at < len(self.data):
            size, pointer = struct.unpack_from('<II', self.data, at)
            if pointer:
                relocation, name, offset, add = leads.pop(at + 8)
                section, offset = places.get(name, (name, offset))
                length, = struct.unpack_from('<I', self.data, at + 12)
                if (relocation, offset, add, length) != (self.distance, 0, 0, sizes[section]) \
                        or section in self.functions:
                    raise ValueError(f'.eh_frame has at {at:#x} another place than a whole section')
                self.functions[section] = self.function(at, at + 4 - pointer, at + 4 + size)
            else:
                self.heads[at] = self.head(at, at + 4 + size)
            at += 4 + size
        if at != len(self.data) or leads:
            raise ValueError('.eh_frame has more than functions')

    def head(self, at, end):
        """The common data of the functions of one CIE: the units of places, and the frame after a call."""
        if self.data[at + 8:at + 12] != b'\x01zR\0':
            raise ValueError(f'.eh_frame has a head of another kind at {at:#x}')
        code, at = number(self.data, at + 12)
        units, at = number(self.data, at, is_signed=True)
        # The return address, how the places of functions are encoded, and the first directive.
        if self.data[at:at + 4] != bytes((self.returns, 1, 0x1b, DEF_CFA)):
            raise ValueError(f'.eh_frame has a head of another kind at {at:#x}')
        frame, _ = self.followed(at + 3, end, code, units, (0, {}), {})
        return code, units, frame[-1][1]

    def function(self, at, head, end):
        code, units, entry = self.heads[head]
        if self.data[at + 16]:
            raise ValueError(f'.eh_frame has a function with data of its own at {at:#x}')
        return self.followed(at + 17, end, code, units, (entry[0], dict(entry[1])), dict(entry[1]))[0]

    def followed(self, at, end, code, units, frame, entry):
        """The frames of a sequence of directives, from the entry's on."""
        place, (depth, saved), records = 0, frame, []
        while at < end:
            records = [record for record in records if record[0] != place] + [(place, (depth, dict(saved)))]
            opcode, low, at = self.data[at] & 0xc0, self.data[at] & 0x3f, at + 1
            if opcode == ADVANCE:
                place += low * code
            elif opcode == OFFSET or (opcode, low) == (0, 0x05):
                name, at = (low, at) if opcode else number(self.data, at)
                value, at = number(self.data, at)
                saved[name] = value * units
            elif opcode == RESTORE:
                saved.pop(low, None)
                saved.update({low: entry[low]} if low in entry else {})
            elif low in WIDE_ADVANCES:
                step, = struct.unpack_from(WIDE_ADVANCES[low], self.data, at)
                place, at = place + step * code, at + struct.calcsize(WIDE_ADVANCES[low])
            elif low in (CFA_OFFSET, DEF_CFA):
                base, at = number(self.data, at) if low == DEF_CFA else (self.stack, at)
                if base != self.stack:
                    raise ValueError(f'.eh_frame has a frame that register {base} leads to')
                depth, at = number(self.data, at)
            elif low in (0x06, 0x08):
                name, at = number(self.data, at)
                saved.pop(name, None)
            elif low != NOTHING:
                raise ValueError(f'.eh_frame has a directive {low:#x}, which is not read here')
        records = [record for record in records if record[0] != place] + [(place, (depth, dict(saved)))]
        return records, at

    def sorted_frames(self):
        """Each function and its frames, sorted."""
        return [(name, [(place, depth, sorted(saved.items())) for place, (depth, saved) in records])
                for name, records in sorted(self.functions.items())]

    def at(self, section, place):
        return [frame for begin, frame in self.functions[section] if begin <= place][-1]
