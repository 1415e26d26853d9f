"""Models a module's functions that take stripes, whose effects are assumed at their calls, like ../stripes.py for an
assembly source.

The functions have no names: the call graph identifies them. They get the names of an assembly source."""
import functools

from oracle.symbolic_terms import RUNS, NotShown

from .. import values as of_text
from ..stripes import DEEP
from ..xxh3_updates import TAKE, TAKE_BLOCKS, TAKE_MANY
from .machine import STACK, STACK_POINTER
from .values import Address, address

UPDATE = "twox_xxh3_update"
FRAME = "global.get", "i64.const", "i64.sub"  # beginning of a function that reserves stack


def called(function):
    """Returns the indices of the functions that a function calls."""
    return sorted({x.given for x in function.code if x.opcode.name == "call"})


def frame_size(function):
    """Returns the bytes of the stack that a function reserves at its start."""
    first = function.code[: len(FRAME)]
    return first[1].given if tuple(x.opcode.name for x in first) == FRAME else 0


class Takers:
    """The functions with which an update takes stripes: name -> (function, stack pointer at its call)."""

    def __init__(self, vm):
        functions, self.vm = vm.module.functions, vm
        (far,) = called(vm.module.exported(UPDATE))
        (self.long_pieces,) = (functions[k] for k in called(functions[far]) if called(functions[k]))
        (many,) = called(self.long_pieces)
        one, blocks = sorted((functions[k] for k in called(functions[many])), key=loops_in)
        end = vm.end_of_stack - frame_size(functions[many])
        self.found = {
            TAKE_MANY.name: (functions[many], vm.end_of_stack),
            TAKE.name: (one, end),
            TAKE_BLOCKS.name: (blocks, end),
        }

    def place_of_end(self, name):
        """Returns the offset of the stack pointer in the stack when such a function is called."""
        return self.found[name][1] - (self.vm.end_of_stack - STACK)

    def call(self, name, *arguments):
        """Calls such a function. All globals except the stack pointer are unconstrained."""
        function, end = self.found[name]
        others = [self.vm.fresh("a global", x.width) for x in self.vm.module.globals[STACK_POINTER + 1 :]]
        self.vm.call_function(function, list(map(of_module, arguments)), [end, *others])

    def expect_stack(self, name):
        """Checks that it used at most DEEP bytes below the stack pointer, and none above."""
        end, cells = self.place_of_end(name), self.vm.stack.cells
        if not all(at != RUNS and end - DEEP <= at and at + n <= end for at, (n, _) in cells.items()):
            raise NotShown(f"{name}: a place outside of {DEEP} bytes of stack")

    def replaced(self, summaries, family, source, secret):
        """Maps functions' indices to their replacements: a call takes parts of the family, from the inputs `source` and
        `secret`."""
        return {
            self.found[summary.name][0].index: functools.partial(self.take, summary, family, source, secret)
            for summary in summaries
        }

    def take(self, summary, family, source, secret, *arguments):
        vm, floor = self.vm, self.place_of_end(summary.name)
        summary.expect("the stack", vm.globals[STACK_POINTER] == self.found[summary.name][1])
        places = [self.place_of(x) for x in arguments[:-4]]
        summary.take(vm, family, source, secret, [*places, *map(near, arguments[-4:])], vm.stack, floor)
        vm.stack.cells = {at: cell for at, cell in vm.stack.cells.items() if at == RUNS or at >= floor}
        return []

    def place_of(self, x):
        """Returns the address of a record. On the stack, whose address is a number, x is a number."""
        return address(self.vm.stack, x - (self.vm.end_of_stack - STACK)) if isinstance(x, int) else near(x)


def loops_in(function):
    return sum(x.opcode.name == "loop" for x in function.code)


def near(x):
    return x.near() if isinstance(x, Address) else x


def of_module(x):
    """Converts an address of the verifier for assembly sources to an address in a module."""
    return Address(x.bases, x.offset) if isinstance(x, of_text.Address) else x
