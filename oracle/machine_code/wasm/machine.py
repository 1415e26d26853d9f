"""The stack machine: runs the exports of a module symbolically. Branches, shift amounts and addresses are numbers, or
decided by facts; bytes of an input are terms.

Memory consists of objects: the stack and the module's constants at concrete addresses, and a call's arguments at
unknown addresses (Address). Each access must be provably inside one object."""
import operator

from oracle.symbolic_terms import Memory, Node, Unsupported, is_inside, is_natural, is_same_number, minus, plus
from oracle.symbolic_terms.machine import copy

from ..values import Names
from .semantics import PURE
from .module import PAGE
from .opcodes import BY_NAME
from .validator import ends_of, validate
from .values import Address, Trap, condition, decided, low

STACK_POINTER = 0  # index of the global
STACK = 1 << 16  # bytes of stack that a call may use
MOST_STEPS = 1_000_000  # maximum number of instructions of a call


class TooLong(Unsupported):
    """Raised if a call runs too many instructions."""


class Constants:
    """Read-only bytes of the module."""

    def __init__(self, content):
        self.name, self.content, self.length = "the constants", content, len(content)

    def load(self, at, n):
        if not is_inside(at, n, self.length):
            raise Unsupported(f"{n} bytes at {at} of {self.name}")
        return int.from_bytes(self.content[at : at + n], "little")

    def store(self, at, n, value):
        raise Unsupported("a store to the constants")


class Frame:
    """A call of a function: its stack, its variables, and the index of the next instruction."""

    __slots__ = "function", "stack", "variables", "pc"

    def __init__(self, function, variables):
        self.function, self.stack, self.pc = function, [], 0
        self.variables = variables + [(0, 0) if width == 128 else 0 for width in function.locals]


class Machine(Names):
    """Runs a module.

    seed        the symbol that is assumed to be nonzero if the module tests it for 0, or None
    has_asked   whether it was tested: then the seed 0 is a separate case
    used        the executed instructions as (function, index), or None if not recorded
    loops       called at each loop; may prove it by induction (induction.py)
    replaced    Python functions that run instead of the module's functions, by index
    """

    LIMIT_OF_CASE, TOGETHER = MOST_STEPS, (1,)

    def __init__(self, module):
        self.module, self.branches, self.code = module, validate(module), {}
        self.ends = [ends_of(function.code) for function in module.functions]
        self.constants = [(place, Constants(content)) for place, content in module.segments]
        self.end_of_stack = module.globals[STACK_POINTER].value
        self.seed, self.has_asked, self.used, self.loops, self.replaced = None, False, None, None, {}
        self.limit, self.steps, self.stack, self.globals, self.objects = MOST_STEPS, 0, None, [], []

    # ---- calls

    def call(self, name, arguments):
        """Calls an export, and returns its results."""
        return self.call_function(self.module.exported(name), arguments, [x.value for x in self.module.globals])

    def call_function(self, function, arguments, globals_):
        """Calls a function with these values of the globals, which must be unchanged afterwards. The stack is empty at
        first."""
        if len(arguments) != len(function.signature.takes):
            raise Unsupported(f"{len(arguments)} arguments of function {function.index}")
        self.stack = Memory("the stack", STACK)
        self.objects = [(self.end_of_stack - STACK, self.stack), *self.constants]
        self.globals, self.steps = list(globals_), 0
        results = self.run(function, list(arguments))
        if self.globals != globals_:
            raise Unsupported("a global that isn't as it was")
        return results

    def run(self, function, arguments):
        if function.index in self.replaced:
            return self.replaced[function.index](*arguments)
        frame, code = Frame(function, arguments), self.prepared(function)
        while frame.pc < len(code):
            self.step(frame, code)
        return frame.stack

    def step(self, frame, code):
        does, given = code[frame.pc]
        if self.used is not None:
            self.used.add((frame.function.index, frame.pc))
        self.steps += 1
        if self.steps > self.limit:
            raise TooLong("a call of too many instructions")
        frame.pc += 1
        does(self, frame, given)

    def prepared(self, function):
        """Returns the Python function and the immediates of each instruction of a function."""
        if function.index not in self.code:
            branches = self.branches[function.index]
            self.code[function.index] = [
                (DOES[x.opcode.name], (branches[pc], x.given) if pc in branches else x.given)
                for pc, x in enumerate(function.code)
            ]
        return self.code[function.index]

    # ---- tests

    def test(self, name, given, operands):
        """Runs a test. Assumes that a symbolic seed is nonzero."""
        if name == "i64.eqz":
            name, operands = "i64.eq", [*operands, 0]
        a, b = operands
        if isinstance(a, Node) and a is self.seed and is_same_number(b, 0) and name in ("i64.eq", "i64.ne"):
            self.has_asked = True
            return int(name == "i64.ne")
        return PURE[name](given, a, b)

    # ---- memory

    def place(self, at, offset, n):
        """Returns the object that contains n bytes, and their offset in it."""
        if at.__class__ is Address:
            memory, at = at.near().place()
            return memory, plus(at, offset)
        at = decided(at, "a place in memory") + offset
        if not isinstance(n, int) or at + n > self.module.pages * PAGE:
            raise Trap(f"{n} bytes at {at}, which go out of the memory")
        for first, memory in self.objects:
            if first <= at and at + n <= first + memory.length:
                return memory, at - first
        raise Unsupported(f"{n} bytes at {at}, which are in no object")


# ---- semantics of the instructions

DOES = {}


def does(*names):
    def put(function):
        DOES.update(dict.fromkeys(names, function))
        return function

    return put


def of_stack(meaning, count):
    """Returns an instruction that pops `count` values from the stack, and pushes one."""

    def run(vm, frame, given):
        stack = frame.stack
        first = len(stack) - count
        stack[first:] = [meaning(given, *stack[first:])]

    return run


def of_test(name, count):
    def run(vm, frame, given):
        stack = frame.stack
        first = len(stack) - count
        stack[first:] = [vm.test(name, given, stack[first:])]

    return run


for name, meaning in PURE.items():
    takes = BY_NAME[name].takes
    DOES[name] = of_stack(meaning, 3 if takes is None else len(takes))  # the table has no types for select
for name in ("i64.eq", "i64.ne", "i64.eqz"):
    DOES[name] = of_test(name, len(BY_NAME[name].takes))


def loading(n):
    def load(vm, frame, given):
        memory, at = vm.place(frame.stack[-1], given[1], n)
        frame.stack[-1] = memory.load(at, n)

    return load


def storing(n, width):
    def store(vm, frame, given):
        value = frame.stack.pop()
        memory, at = vm.place(frame.stack.pop(), given[1], n)
        memory.store(at, n, value if 8 * n == width else low(value, 8 * n))

    return store


for name, x in BY_NAME.items():
    if name.startswith(("i32.load", "i64.load")):
        DOES[name] = loading(int(x.behind[len("bytes") :]))
    elif name.startswith(("i32.store", "i64.store")):
        DOES[name] = storing(int(x.behind[len("bytes") :]), x.takes[1])


@does("v128.load")
def load_vector(vm, frame, given):
    memory, at = vm.place(frame.stack[-1], given[1], 16)
    frame.stack[-1] = memory.load(at, 8), memory.load(plus(at, 8), 8)


@does("v128.store")
def store_vector(vm, frame, given):
    lanes = frame.stack.pop()
    memory, at = vm.place(frame.stack.pop(), given[1], 16)
    memory.store(at, 8, lanes[0])
    memory.store(plus(at, 8), 8, lanes[1])


@does("memory.copy")
def memory_copy(vm, frame, given):
    n, source, to = (frame.stack.pop() for _ in range(3))
    (memory, at), (other, first) = vm.place(to, 0, n), vm.place(source, 0, n)
    is_apart = memory is not other or is_natural(minus(at, plus(first, n))) or is_natural(minus(first, plus(at, n)))
    if not is_apart or not isinstance(memory, Memory):
        raise Unsupported(f"a copy from {other.name} to {memory.name}")
    if not (is_inside(at, n, memory.length) and is_inside(first, n, other.length)):
        raise Unsupported(f"a copy of {n} bytes, which go out of their object")
    if not is_same_number(n, 0):
        copy((memory, at), (other, first), n)


@does("memory.fill")
def memory_fill(vm, frame, given):
    n, byte, to = (frame.stack.pop() for _ in range(3))
    memory, at = vm.place(to, 0, n)
    if not isinstance(memory, Memory):
        raise Unsupported(f"a store to {memory.name}")
    memory.fill(at, decided(n, "a length"), low(byte, 8))


# ---- variables and control flow

DOES.update(
    {
        "local.get": lambda vm, frame, index: frame.stack.append(frame.variables[index]),
        "local.set": lambda vm, frame, index: operator.setitem(frame.variables, index, frame.stack.pop()),
        "local.tee": lambda vm, frame, index: operator.setitem(frame.variables, index, frame.stack[-1]),
        "global.get": lambda vm, frame, index: frame.stack.append(vm.globals[index]),
        "global.set": lambda vm, frame, index: operator.setitem(vm.globals, index, frame.stack.pop()),
        "drop": lambda vm, frame, given: frame.stack.pop(),
        "loop": lambda vm, frame, given: vm.loops and vm.loops.pass_by(vm, frame),
        **dict.fromkeys(("block", "end"), lambda vm, frame, given: None),
    }
)


@does("unreachable")
def unreachable(vm, frame, given):
    raise Trap("unreachable")


def go(frame, branch):
    if branch.keeps:
        frame.stack[branch.height :] = frame.stack[-branch.keeps :]
    else:
        del frame.stack[branch.height :]
    frame.pc = branch.target


@does("br", "return")
def br(vm, frame, given):
    go(frame, given[0])


@does("br_if")
def br_if(vm, frame, given):
    if condition(frame.stack.pop(), "a branch"):
        go(frame, given[0])


@does("br_table")
def br_table(vm, frame, given):
    branches, _ = given
    go(frame, branches[min(decided(frame.stack.pop(), "a branch"), len(branches) - 1)])


@does("if")
def if_(vm, frame, given):
    if not condition(frame.stack.pop(), "a branch"):
        frame.pc = given[0].target


@does("call")
def call(vm, frame, index):
    function = vm.module.functions[index]
    first = len(frame.stack) - len(function.signature.takes)
    arguments = frame.stack[first:]
    frame.stack[first:] = vm.run(function, arguments)
