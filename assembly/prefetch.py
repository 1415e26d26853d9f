"""Adds prefetches to a module of LLVM in text, or removes them again.

A prefetch hints to the processor to load a line of 64 bytes. By LLVM's definition it does nothing else, also if its
address is invalid. `add` writes them where the functions of PLACES request the next bytes of an input, and refuses a
module that lacks a place of a hash that it has. `strip` removes what `add` writes, and nothing else."""
import re
from typing import NamedTuple, Optional, Sequence


class Place(NamedTuple):
    """Where a module gets prefetches: in a function, before each call of one of `callees`. The argument `bytes` of
    these, counted from 0, points to `lines` lines of an input, and the prefetched lines are `ahead` bytes after them.
    If `apart` is true the address is computed as a number: in a loop LLVM then has a pointer to the input and one to
    the secret, instead of one index for both, by which some processors split an instruction in two. With `within` only
    the instance of that function counts that the named function calls: a generic function is in a module once for each
    use."""

    function: str
    callees: list[str]
    bytes: int
    lines: int
    ahead: int
    apart: bool = False
    within: Optional[str] = None


STRIPES = 'xxhash3::stripes::StripeAccumulator::'
BLOCKS = 'xxhash3::stripes::blocks::'
FOUR_STRIPES = [f'xxhash3::large::lanes{count}::ImplVector::accumulate_four_stripes' for count in (4, 8)]
BYTES_OF_SINGLE_STRIPES, BYTES_OF_MANY = 320, 1024
EVERYWHERE = [
    Place(STRIPES + 'process_stripes', [STRIPES + 'process_stripe'], 1, 1, BYTES_OF_SINGLE_STRIPES),
    Place(STRIPES + 'process_four', FOUR_STRIPES, 2, 4, BYTES_OF_MANY),
    Place('xxhash64::Core::write_many', ['xxhash64::Core::write'], 1, 1, BYTES_OF_MANY),
    Place('xxhash32::Core::write_blocks', ['xxhash32::Core::write_block'], 1, 2, BYTES_OF_MANY),
]
# By the processor of the module. With few blocks a prefetch costs at x86-64-v2 what it gains.
IN_MANY_BLOCKS = Place(BLOCKS + 'process_block', FOUR_STRIPES, 2, 4, BYTES_OF_MANY, within=BLOCKS + 'take_many_blocks')
IN_BLOCKS = Place(BLOCKS + 'process_block', FOUR_STRIPES, 2, 4, BYTES_OF_MANY, apart=True)
# By eight lanes: the stripes around whole blocks, and as a one-shot's last.
IN_PARTS_OF_BLOCKS = Place(
    'xxhash3::stripes::within::accumulate_within',
    ['lanes8::ImplVector::accumulate'],
    2,
    1,
    BYTES_OF_SINGLE_STRIPES,
    within='xxhash3::stripes::take_widened',
)
PLACES: dict[str, list[Place]] = {
    'x86-64': [*EVERYWHERE, IN_MANY_BLOCKS],
    'x86-64-v2': [*EVERYWHERE, IN_MANY_BLOCKS],
    'x86-64-v3': [*EVERYWHERE, IN_BLOCKS, IN_PARTS_OF_BLOCKS],
    'generic': [*EVERYWHERE, IN_MANY_BLOCKS],
    'lime1': [],  # WebAssembly has no prefetch
}

LINE = 64
NAME = '%prefetch.'
ADDRESS = f'  {NAME}{{n}} = getelementptr i8, ptr {{bytes}}, i64 {{ahead}}\n'
ADDRESS_APART = f'''\
  {NAME}{{n}}.bytes = ptrtoint ptr {{bytes}} to i64
  {NAME}{{n}}.ahead = add i64 {NAME}{{n}}.bytes, {{ahead}}
  {NAME}{{n}} = inttoptr i64 {NAME}{{n}}.ahead to ptr
'''
PREFETCH = f'  call void @llvm.prefetch.p0(ptr {NAME}{{n}}, i32 0, i32 3, i32 1)\n'
WRITTEN = re.compile(
    rf'  ({re.escape(NAME)}[\w.]+ = (getelementptr i8,|ptrtoint|add i64|inttoptr) '
    r'|call void @llvm\.prefetch\.p0\().*\n'
)
DECLARED = re.compile(r'\n(; Function Attrs: .*\n)?declare void @llvm\.prefetch\.p0\(.*\)( #(?P<group>\d+))?\n')
CALL = re.compile(r'(?:%\S+ = )?call [^@]*@(?:"([^"]*)"|([\w.]+))\((.*)\)')


def refuse(why):
    raise ValueError(why)


def plain(name):
    """A function's name without the mark of a generic's arguments."""
    return re.sub(r'::<[#=][^>]*>', '', name)


class Module:
    def __init__(self, text):
        if NAME in text or 'llvm.prefetch' in text:
            refuse('the module has prefetches already')
        self.text = text
        self.bodies = {}
        for found in re.finditer(r'^define [^@\n]*@(?:"([^"]*)"|([\w.]+))\(.*\n((?:(?!\}).*\n)*)\}$', text, re.M):
            self.bodies[found[1] or found[2]] = found
        self.count = 0

    def processor(self):
        """The processor of the functions that get prefetches: those that start a program are for another one."""
        found = {self.processor_of(name) for place in EVERYWHERE for name in self.functions(place)}
        return found.pop() if len(found) == 1 else refuse(f'the functions are for {sorted(found)}')

    def processor_of(self, name):
        group = re.search(r'(#\d+) \{\n', self.bodies[name][0])[1]
        return re.search(rf'^attributes {group} = .*"target-cpu"="([^"]*)"', self.text, re.M)[1]

    def calls(self, body):
        """Each call in a function's body: its place, its callee, and the arguments."""
        for at, line in enumerate(body.splitlines()):
            found = CALL.match(line.strip())
            if found:
                yield at, found[1] or found[2], found[3].split(', ')

    def leads_to(self, first):
        """A function, and those that it calls."""
        found, left = set(), [name for name in self.bodies if plain(name).endswith(first)]
        while left:
            name = left.pop()
            if name in self.bodies and name not in found:
                found.add(name)
                left += [callee for _, callee, _ in self.calls(self.bodies[name][3])]
        return found

    def functions(self, place):
        """In the module's order, so that a module's output is deterministic."""
        within = self.leads_to(place.within) if place.within else self.bodies
        return [name for name in self.bodies if name in within and plain(name).endswith(place.function)]

    def has_hash_of(self, place):
        """True if the module has functions of the hash that a place belongs to."""
        return any(f'::{place.function.split("::")[0]}::' in f'::{name}' for name in self.bodies)

    def written(self, place, argument):
        for line in range(place.lines):
            form = (ADDRESS_APART if place.apart else ADDRESS) + PREFETCH
            yield form.format(n=self.count, bytes=argument.split()[-1], ahead=place.ahead + LINE * line)
            self.count += 1

    def annotated(self, name, place):
        """A function's body with the prefetches of a place, which it must have."""
        body = self.bodies[name][3]
        before = {
            at: ''.join(self.written(place, arguments[place.bytes]))
            for at, callee, arguments in self.calls(body)
            if plain(callee).endswith(tuple(place.callees))
        }
        if not before:
            refuse(f'{name} calls none of {place.callees}')
        return ''.join(before.get(at, '') + line for at, line in enumerate(body.splitlines(keepends=True)))


def add(text: str, places: Optional[Sequence[Place]] = None) -> str:
    module = Module(text)
    places = PLACES[module.processor()] if places is None else places
    if not places:
        return text
    bodies = {}
    for place in places:
        names = module.functions(place)
        if not names and module.has_hash_of(place):
            refuse(f'the module has no {place.function}')
        for name in names:
            bodies[module.bodies[name].span(3)] = module.annotated(name, place)
    for (begin, end), body in sorted(bodies.items(), reverse=True):
        text = text[:begin] + body + text[end:]
    return text + '\ndeclare void @llvm.prefetch.p0(ptr, i32, i32, i32)\n'


def strip(text: str) -> str:
    text = WRITTEN.sub('', text)
    declared = DECLARED.search(text)
    if declared:
        text = text.replace(declared[0], '', 1)
        if declared['group']:
            text = re.sub(rf'^attributes #{declared["group"]} = .*\n', '', text, flags=re.M)
    return text
