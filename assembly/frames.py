"""The frame of a function at each of its instructions, and the directives that declare it to an assembler.

A frame is the distance of the stack pointer below the CFA, which is where it was before the call, and the places below
the CFA of the registers that the caller needs back. It is computed by following the instructions and their jumps, since
LLVM's own tables are wrong for 64-bit ARM. The code that is framed here moves the stack pointer only by constants.
Anything else that writes it is refused, and so is a place that two paths reach with different frames, and a function
that returns with a frame.

Unwinders, debuggers and profilers depend on these directives; no value does."""
import re
from typing import Iterator, NamedTuple, Optional, Sequence

OUTSIDE = -1


class Frame(NamedTuple):
    """The distance to the CFA, and pairs of a register's number and its place below the CFA."""

    depth: int
    saved: tuple[tuple[int, int], ...]


class Step(NamedTuple):
    """An instruction: its text, and the number of its jump's target, OUTSIDE, or None if it doesn't jump."""

    text: str
    target: Optional[int]


class Processor:
    """The parts of frames that depend on the processor. `numbers` are DWARF's numbers of the registers that a caller
    needs back, `jumps` the text of a jump, `entry` the depth of a frame at its function's start."""

    numbers: dict[str, int]
    jumps: re.Pattern[str]
    entry: int

    def moved(self, text, depth, saved):
        """The depth after an instruction, whose stores of registers are written to `saved`."""
        raise NotImplementedError

    def after(self, text, frame):
        """The frame after an instruction."""
        depth, saved = frame.depth, dict(frame.saved)
        depth = self.moved(text, depth, saved)
        if any(at < -depth for at in saved.values()):
            raise ValueError(f'{text}: what it leaves below the stack pointer is no longer the frame\'s')
        return Frame(depth, tuple(sorted(saved.items())))

    def keep(self, saved, name, at):
        """A register is stored: the first time counts, since a later store may be of another value."""
        if name in self.numbers:
            saved.setdefault(self.numbers[name], at)

    def take_back(self, saved, name, at):
        if saved.get(self.numbers.get(name)) == at:
            del saved[self.numbers[name]]


class X86(Processor):
    """x86-64, as objdump and as clang write it."""

    entry = 8  # the address to return to
    returns, ends, jumps = re.compile(r'repz? ret|ret'), re.compile(r'jmp|ud2|int3|hlt'), re.compile(r'j\w+ ')
    numbers = {'rbx': 3, 'rbp': 6, 'r12': 12, 'r13': 13, 'r14': 14, 'r15': 15}
    writes = re.compile(
        r'(?!cmp|test)\S+ .*,%[er]?spl?$|(leave|enter|pushf|popf)|xchg .*%[er]?spl?\b'
        r'|(inc|dec|neg|not|pop|bswap|set\w+) %[er]?spl?$'
    )

    def moved(self, text, depth, saved):
        if found := re.fullmatch(r'pushq? %(\w+)', text):
            self.keep(saved, found[1], -depth - 8)
            return depth + 8
        if (found := re.fullmatch(r'popq? %(\w+)', text)) and found[1] != 'rsp':
            if found[1] in self.numbers and saved.get(self.numbers[found[1]]) != -depth:
                raise ValueError(f'{text}: it was not pushed there')
            self.take_back(saved, found[1], -depth)
            return depth - 8
        if found := re.fullmatch(r'(add|sub)q? \$(-?\w+), ?%rsp', text):
            return depth + int(found[2], 0) * (1 if found[1] == 'sub' else -1)
        if self.writes.match(text.replace(', ', ',')):
            raise ValueError(f'{text}: it moves the stack pointer')
        return depth


class Arm(Processor):
    entry = 0
    returns, ends = re.compile(r'ret'), re.compile(r'b |br |udf|brk')
    jumps = re.compile(r'(b|b\.\w+|cbn?z|tbn?z) ')
    numbers = {**{f'x{n}': n for n in range(19, 31)}, **{f'd{n}': 64 + n for n in range(8, 16)}}
    writes = re.compile(r'(?!cmp|cmn|tst|st|prfm)\S+ w?sp\b|.*\[sp\], |.*\[sp, #?[^\]]*\]!')
    access = re.compile(r'(st|ld)(?:r|p|ur) ((?:\w+, )+)\[sp(?:, #(-?\w+))?\](!)?(?:, #(-?\w+))?')

    def moved(self, text, depth, saved):
        if found := re.fullmatch(r'(add|sub) sp, sp, #(\w+)(?:, lsl #(12))?', text):
            return depth + (int(found[2], 0) << int(found[3] or 0)) * (1 if found[1] == 'sub' else -1)
        if found := self.access.fullmatch(text):
            kind, registers, offset, is_before, behind = found.groups()
            offset = int(offset or '0', 0)
            depth, offset = (depth - offset, 0) if is_before else (depth, offset)
            for name in registers.rstrip(', ').split(', '):
                (self.keep if kind == 'st' else self.take_back)(saved, name, offset - depth)
                offset += {'q': 16, 's': 4, 'w': 4}.get(name[0], 8)
            return depth - int(behind or '0', 0)
        if self.writes.match(text):
            raise ValueError(f'{text}: it moves the stack pointer')
        return depth


# By the machine's number in ELF.
BY_MACHINE = {62: X86(), 183: Arm()}


def frames(processor: Processor, steps: Sequence[Step]) -> dict[int, Frame]:
    """The frame before each instruction, by its number; unreachable ones have none."""
    entry = Frame(processor.entry, ())
    found, waiting = {}, [(0, entry)]
    while waiting:
        number, frame = waiting.pop()
        if found.setdefault(number, frame) != frame:
            raise ValueError(f'{steps[number].text}: it is reached with {found[number]} and with {frame}')
        for following, after in followed(processor, steps, number, frame, entry):
            if found.get(following) != after:
                waiting.append((following, after))
    return found


def followed(processor, steps, number, frame, entry):
    """The successors of an instruction, with its frame."""
    text, target = steps[number]
    leaves = processor.returns.match(text) or target == OUTSIDE
    if leaves and frame != entry:
        raise ValueError(f'{text}: the function is left with {frame}')
    if target is None and processor.jumps.match(text):
        raise ValueError(f'{text}: it leads to no one place')
    if target not in (None, OUTSIDE):
        yield target, frame
    if not processor.returns.match(text) and not processor.ends.match(text):
        if number + 1 == len(steps):
            raise ValueError(f'{text}: the function is run over its end')
        yield number + 1, processor.after(text, frame)


def directives(processor: Processor, steps: Sequence[Step]) -> Iterator[list[str]]:
    """For each instruction the lines before it."""
    found = frames(processor, steps)
    current = Frame(processor.entry, ())
    for number in range(len(steps)):
        frame = found.get(number, current)
        before, now = dict(current.saved), dict(frame.saved)
        lines = [f'\t.cfi_def_cfa_offset {frame.depth}'] if frame.depth != current.depth else []
        lines += [f'\t.cfi_offset {name}, {at}' for name, at in now.items() if before.get(name) != at]
        lines += [f'\t.cfi_restore {name}' for name in before if name not in now]
        current = frame
        yield lines
