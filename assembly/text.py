"""Prints the assembly source of an object, from which every assembler makes its bytes again:

    python3 -B . assembly.text text OBJECT TITLE [TAG]

It is made only from the object, by binutils' objdump and as, for x86-64 and 64-bit ARM. Written as bytes are the
padding before loops, which differs between assemblers; instructions that GNU as would encode differently from the
compiler; and long jumps where a short one would reach. TITLE is the description of the functions in the first line.
Labels end in .TAG.

This program need not be trusted: same_bytes.py compares the assembled source with the object."""
import os
import re
import subprocess
import sys
import tempfile
from collections import defaultdict
from typing import NamedTuple

from assembly import frames
from assembly.names import FUNCTION, MERGED, TOOLS
from assembly.same_bytes import EXECUTED, Object, is_global

WEAK, HIDDEN = 2, 2


class Instruction(NamedTuple):
    """Its place in its section, its bytes, and its text by objdump."""

    at: int
    raw: bytes
    text: str


class X86:
    """The parts of a source that depend on the processor: x86-64."""

    comment = re.compile(r'\s#.*')
    filling = re.compile(r'.*\bnop|data16|xchg %ax,%ax')
    # Instructions that refer to another place, and have no meaning by themselves.
    leads = re.compile(r'j|call|.*%rip')
    # Number of bytes that an instruction gets when it is assembled by itself, and the directive that fills them.
    slot, fill = 16, '.balign 16,0'
    # Marks support for a shadow stack: every function returns only to its caller. It begins with no endbr64, so
    # indirect branch tracking is not declared.
    notes = (
        '\t.section .note.gnu.property,"a",@note',
        '\t.p2align 3',
        '\t.long 4,16,5',
        '\t.asciz "GNU"',
        '\t.long 0xc0000002,4,2,0',
    )

    def bytes(self, raw):
        return '.byte ' + ','.join(map(str, raw))

    def outside(self, name):
        return f'{name}@PLT'

    def end_of_relocation(self, instruction, at):
        """An instruction's offset counts from its end, and a relocation's from the relocation."""
        return instruction.at + len(instruction.raw) - at

    def relocated(self, text, there):
        if self.leads.match(text) and '%rip' not in text:
            return f'{text.split()[0]} {there}'
        return text.replace('0x0(%rip)', f'{there}(%rip)')

    def jump(self, instruction, end, label):
        """A jump within a section. If a short one reaches, an assembler uses that, and counts ahead from after the
        jump."""
        name = instruction.text.split()[0]
        if len(instruction.raw) > 2 and name != 'call' and -126 <= end - instruction.at <= 127 + len(instruction.raw):
            return f'{self.bytes(instruction.raw[:-4])}\n\t.long {label}-.-4'
        return f'{name} {label}'


class Arm:
    """And 64-bit ARM."""

    comment = re.compile(r'//.*')
    filling = re.compile('(?!)')
    leads = re.compile(r'b |b\.|bl |[ct]bn?z|adrp? |.*:lo12:')
    slot, fill, notes = 16, '.space 12', ()

    def bytes(self, raw):
        return f'.inst 0x{raw[::-1].hex()}'

    def outside(self, name):
        return name

    def end_of_relocation(self, instruction, at):
        return 0

    def relocated(self, text, there):
        """A whole address, or the lowest bits of one: of an ADD, or of a load or store."""
        if self.leads.match(text):
            return self.led(text, there)
        if '#0x0' in text:
            return text.replace('#0x0', f':lo12:{there}')
        return f'{text[:-1]}, #:lo12:{there}]'

    def jump(self, instruction, end, label):
        return self.led(instruction.text, label)

    def led(self, text, there):
        return re.sub(r'[0-9a-f]+ <.*>$', '', text) + there


PROCESSORS: dict[int, X86 | Arm] = {62: X86(), 183: Arm()}


class Text:
    def __init__(self, path, tag):
        self.object = Object(path)
        self.processor, self.tools = PROCESSORS[self.object.machine], TOOLS[self.object.machine]
        self.tag = f'.{tag}' if tag else ''
        self.sections = {head.name: head for head in self.object.loaded()}
        self.numbers = {name: number for number, name in enumerate(self.sections, 1)}
        self.functions = {
            (self.object.heads[symbol.section].name, symbol.value): symbol
            for symbol in self.object.symbols
            if symbol.info & 15 == FUNCTION and symbol.section
        }
        # The referenced places in each section.
        self.marks = defaultdict(set)
        listing = self.listing(path)
        processor = frames.BY_MACHINE[self.object.machine]
        self.frames = {
            name: list(frames.directives(processor, self.steps(name, instructions)))
            for name, instructions in listing.items()
        }
        self.code = {name: self.written(name, instructions) for name, instructions in listing.items()}
        self.otherwise = self.written_otherwise()

    def listing(self, path):
        """The instructions of each section of code."""
        command = [self.tools + 'objdump', '-d', '-w', '-z', '--no-show-raw-insn', path]
        out = subprocess.run(command, check=True, stdout=subprocess.PIPE, text=True).stdout
        found = {}
        for section, lines in re.findall(r'^Disassembly of section (.*):\n((?:.*\n)*?)(?=Disassembly|\Z)', out, re.M):
            head = self.sections[section]
            body = self.object.body(head)
            instructions = [
                (int(at, 16) - head.address, text) for at, text in re.findall(r'^ *([0-9a-f]+):\t(.*)', lines, re.M)
            ]
            ends = [at for at, _ in instructions[1:]] + [len(body)]
            found[section] = [
                Instruction(at, body[at:end], ' '.join(self.processor.comment.sub('', text).split()))
                for (at, text), end in zip(instructions, ends)
            ]
        return found

    def steps(self, section, instructions):
        """The instructions of a section for the analysis of frames."""
        processor = frames.BY_MACHINE[self.object.machine]
        leaving = {at for at, *_ in self.object.relocations_of(self.sections[section])}
        numbers, steps = {instruction.at: number for number, instruction in enumerate(instructions)}, []
        for instruction in instructions:
            is_jump = processor.jumps.match(instruction.text)
            jump = re.search(r'\b([0-9a-f]+) <.*>$', instruction.text) if is_jump else None
            own = range(instruction.at, instruction.at + len(instruction.raw))
            target = None
            if jump and any(at in leaving for at in own):
                target = frames.OUTSIDE
            elif jump:
                target = numbers[int(jump[1], 16) - self.sections[section].address]
            steps.append(frames.Step(instruction.text, target))
        return steps

    def label(self, section, at):
        self.marks[section].add(at)
        return f'.L{self.numbers[section]}_{at:x}{self.tag}'

    def target(self, where, offset, add):
        """The name of a place: a local function, a label, or a global name. A place in a mergeable section is a
        label and an addend, since a linker moves the label first."""
        if where not in self.sections:
            name = where if where in self.globals() else self.processor.outside(where)
        elif self.sections[where].flags & MERGED:
            name = self.label(where, offset)
        else:
            function = self.functions.get((where, offset + add))
            return function.name if function and not is_global(function) else self.label(where, offset + add)
        return name + (f'{add:+#x}' if add else '')

    def globals(self):
        return {symbol.name for symbol in self.object.symbols if is_global(symbol) and symbol.section}

    def written(self, section, instructions):
        """The instructions as assembly source. Without a text they are written as bytes."""
        hits = {at: target for at, _, *target in self.object.relocations_of(self.sections[section])}
        return [instruction._replace(text=self.assembled(section, instruction, hits)) for instruction in instructions]

    def assembled(self, section, instruction, hits):
        hit = next((at for at in range(instruction.at, instruction.at + len(instruction.raw)) if at in hits), None)
        if self.processor.filling.match(instruction.text):
            return None
        if hit is not None:
            where, offset, add = hits[hit]
            end = self.processor.end_of_relocation(instruction, hit)
            return self.processor.relocated(instruction.text, self.target(where, offset, add + end))
        jump = self.processor.leads.match(instruction.text) and re.search(r'\b([0-9a-f]+) <.*>$', instruction.text)
        if jump:
            end = int(jump[1], 16) - self.sections[section].address
            return self.processor.jump(instruction, end, self.label(section, end))
        return instruction.text

    def written_otherwise(self):
        """The instructions that GNU as encodes differently: each is assembled in a separate slot."""
        alone = [
            (name, instruction)
            for name, instructions in self.code.items()
            for instruction in instructions
            if instruction.text
            and not instruction.text.startswith('.')
            and not self.processor.leads.match(instruction.text)
        ]
        with tempfile.TemporaryDirectory() as workdir:
            source, object_file = os.path.join(workdir, 'alone.s'), os.path.join(workdir, 'alone.o')
            with open(source, 'w') as file:
                file.writelines(f'{instruction.text}\n{self.processor.fill}\n' for _, instruction in alone)
            subprocess.run([self.tools + 'as', source, '-o', object_file], check=True)
            object_ = Object(object_file)
        body = next(object_.body(head) for head in object_.heads if head.name == '.text')
        slot = self.processor.slot
        return {
            (name, instruction.at)
            for at, (name, instruction) in enumerate(alone)
            if body[slot * at : slot * (at + 1)] != instruction.raw.ljust(slot, b'\0')
        }

    def lines(self, title):
        yield f'/* {title} Generated of what is proved: not to be changed by hand. SPDX-License-Identifier: MIT */'
        # A second source with weak names, which an optimizer has put into the same module, has nothing to add.
        guard = next((symbol.name for symbol in self.functions.values() if symbol.info >> 4 == WEAK), None)
        yield from [f'\t.ifndef {guard}'] if guard else []
        for name, head in self.sections.items():
            yield from self.lines_of_code(name) if head.flags & EXECUTED else self.lines_of_data(name, head)
        yield from ['\t.endif'] if guard else []
        yield from ('\t.section .note.GNU-stack,"",@progbits', *self.processor.notes, '\t.text')

    def lines_of_code(self, section):
        yield from (f'\t.section {section},"ax",@progbits', aligned(self.sections[section]))
        function = None
        for instruction, frame in zip(self.code[section], self.frames[section]):
            begun = self.functions.get((section, instruction.at))
            if begun:
                function = begun
                yield from self.lines_of_name(begun)
                yield '\t.cfi_startproc'
            yield from frame
            if instruction.at in self.marks[section]:
                yield f'{self.label(section, instruction.at)}:'
            as_bytes = instruction.text is None or (section, instruction.at) in self.otherwise
            yield '\t' + (self.processor.bytes(instruction.raw) if as_bytes else instruction.text)
        yield '\t.cfi_endproc'
        yield f'\t.size {function.name},.-{function.name}'

    def lines_of_name(self, function):
        if is_global(function):
            yield f'\t.{"weak" if function.info >> 4 == WEAK else "globl"} {function.name}'
        if function.other == HIDDEN:
            yield f'\t.hidden {function.name}'
        yield from (f'\t.type {function.name},@function', f'{function.name}:')

    def lines_of_data(self, section, head):
        """The bytes in rows of 16, which end at labels."""
        if self.object.relocations_of(head):
            raise ValueError(f'{section} has addresses in it, which is not written here')
        yield f'\t.section {section},' + (f'"aM",@progbits,{head.entry}' if head.flags & MERGED else '"a",@progbits')
        yield aligned(head)
        data, marks = self.object.body(head), self.marks[section]
        begins = sorted({*range(0, len(data), 16), *marks})
        for at, end in zip(begins, [*begins[1:], len(data)]):
            if at in marks:
                yield f'{self.label(section, at)}:'
            yield '\t' + operands_of(data[at:end])


def aligned(head):
    return f'\t.p2align {head.align.bit_length() - 1}'


def operands_of(data):
    if len(data) % 8:
        return '.byte ' + ','.join(map(str, data))
    return '.quad ' + ','.join(f'{int.from_bytes(data[at:at + 8], "little"):#x}' for at in range(0, len(data), 8))


def main():
    if len(sys.argv) not in (3, 4):
        sys.exit(__doc__)
    path, title, *tag = sys.argv[1:]
    print('\n'.join(Text(path, *tag or ['']).lines(title)))
