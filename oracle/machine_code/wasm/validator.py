"""Validates a module's functions, by the algorithm in the appendix of the WebAssembly specification. Computes for each
branch its target, how many values it keeps, and the height above which it drops others."""
import collections

from .module import PAGE, Instruction, Malformed, Module

UNKNOWN = None  # any type, of a value in unreachable code
BOOLEAN = ADDRESS = 32
Block = collections.namedtuple("Block", "opcode takes leaves height pc end")
Branch = collections.namedtuple("Branch", "target keeps height")


class Invalid(Malformed):
    """Raised for a module that the specification rejects."""


def require(holds, why):
    if not holds:
        raise Invalid(why)


class Validator:
    """Checks one function. `branches` maps an instruction's index to its branches."""

    def __init__(self, module, function):
        self.module, self.function, self.code = module, function, function.code
        self.variables = [*function.signature.takes, *function.locals]
        self.ends = ends_of(self.code)
        self.types, self.blocks, self.is_unreachable, self.branches = [], [], [], {}

    def check(self):
        self.enter("function", (), self.function.signature.leaves, -1)
        for pc, x in enumerate(self.code):
            require(self.blocks, "code behind the function's end")
            if x.opcode.takes is not None:
                self.check_given(x)
                self.pop_all(x.opcode.takes)
                self.types += x.opcode.leaves
            else:
                getattr(self, "check_" + x.opcode.name.replace(".", "_"))(x.given, pc)
        require(not self.blocks, "a function without an end")
        return self.branches

    # ---- the stack of types, and the blocks

    def pop(self, expected=UNKNOWN):
        height = self.blocks[-1].height
        if len(self.types) == height and self.is_unreachable[-1]:
            return expected
        require(len(self.types) > height, "too few values")
        found = self.types.pop()
        require(
            UNKNOWN in (found, expected) or found == expected, f"a value of {found} bits, where {expected} are taken"
        )
        return expected if found is UNKNOWN else found

    def pop_all(self, expected):
        for width in reversed(expected):
            self.pop(width)

    def enter(self, opcode, takes, leaves, pc):
        self.blocks.append(Block(opcode, takes, leaves, len(self.types), pc, self.ends[pc]))
        self.is_unreachable.append(False)
        self.types += takes

    def leave(self):
        block = self.blocks[-1]
        self.pop_all(block.leaves)
        require(len(self.types) == block.height, "too many values at a block's end")
        self.is_unreachable.pop()
        return self.blocks.pop()

    def cut_off(self):
        """Marks the rest of the block as unreachable."""
        del self.types[self.blocks[-1].height :]
        self.is_unreachable[-1] = True

    def block(self, label):
        require(label < len(self.blocks), f"a branch out of {label} blocks")
        return self.blocks[-1 - label]

    def taken_to(self, label):
        """Returns the types of the values that a branch keeps."""
        block = self.block(label)
        return block.takes if block.opcode == "loop" else block.leaves

    def branch(self, label):
        block = self.block(label)
        target = block.pc if block.opcode == "loop" else block.end + 1
        return Branch(target, len(self.taken_to(label)), block.height)

    # ---- instructions

    def check_given(self, x):
        """Checks the immediates of an instruction whose types are in the table."""
        behind = x.opcode.behind
        if behind.startswith("bytes"):
            require(self.module.pages is not None, "no memory")
            require(x.given[0] < 5 and 1 << x.given[0] <= int(behind[len("bytes") :]), "an alignment")
        elif behind.startswith("lane") and behind != "lanes":
            require(x.given < int(behind[len("lane") :]), "a lane that is not there")
        elif behind == "lanes":
            require(all(k < 32 for k in x.given), "a lane that is not there")
        elif behind.startswith("zeros"):
            require(self.module.pages is not None and not any(x.given), "another memory")

    def check_unreachable(self, given, pc):
        self.cut_off()

    def check_block(self, given, pc):
        self.pop_all(given.takes)
        self.enter(self.code[pc].opcode.name, given.takes, given.leaves, pc)

    check_loop = check_block

    def check_if(self, given, pc):
        """Checks an `if`. The table has no `else`: if the condition is 0, the block's parameters are its results."""
        self.pop(BOOLEAN)
        require(given.takes == given.leaves, "an if that leaves other values than it takes")
        self.check_block(given, pc)
        self.branches[pc] = self.branch(0)

    def check_end(self, given, pc):
        self.types += self.leave().leaves

    def check_br(self, label, pc):
        self.pop_all(self.taken_to(label))
        self.branches[pc] = self.branch(label)
        self.cut_off()

    def check_br_if(self, label, pc):
        self.pop(BOOLEAN)
        self.pop_all(self.taken_to(label))
        self.branches[pc] = self.branch(label)
        self.types += self.taken_to(label)

    def check_br_table(self, labels, pc):
        self.pop(BOOLEAN)
        require(len({self.taken_to(label) for label in labels}) == 1, "a table of branches that take other values")
        self.pop_all(self.taken_to(labels[0]))
        self.branches[pc] = [self.branch(label) for label in labels]
        self.cut_off()

    def check_return(self, given, pc):
        self.check_br(len(self.blocks) - 1, pc)

    def check_call(self, index, pc):
        require(index < len(self.module.signatures), f"function {index}")
        takes, leaves = self.module.signatures[index]
        self.pop_all(takes)
        self.types += leaves

    def check_drop(self, given, pc):
        self.pop()

    def check_select(self, given, pc):
        self.pop(BOOLEAN)
        first = self.pop()
        self.types.append(self.pop(first))

    def variable(self, index):
        require(index < len(self.variables), f"variable {index}")
        return self.variables[index]

    def check_local_get(self, index, pc):
        self.types.append(self.variable(index))

    def check_local_set(self, index, pc):
        self.pop(self.variable(index))

    def check_local_tee(self, index, pc):
        self.types.append(self.pop(self.variable(index)))

    def check_global_get(self, index, pc):
        require(index < len(self.module.globals), f"global {index}")
        self.types.append(self.module.globals[index].width)

    def check_global_set(self, index, pc):
        require(
            index < len(self.module.globals) and self.module.globals[index].is_mutable, f"a store to global {index}"
        )
        self.pop(self.module.globals[index].width)


def ends_of(code: list[Instruction]) -> dict[int, int]:
    """Maps a block's index in the code to its end's index; the function's own index is -1."""
    open_ones, ends = [-1], {-1: len(code) - 1}
    for pc, x in enumerate(code):
        if x.opcode.behind == "block":
            open_ones.append(pc)
        elif x.opcode.name == "end":
            require(open_ones, "code behind the function's end")
            ends[open_ones.pop()] = pc
    require(not open_ones and ends[-1] == len(code) - 1, "a function without an end, or with code behind it")
    return ends


def validate(module: Module) -> list[dict]:
    """Validates a module, and returns the branches of each function."""
    for place, content in module.segments:
        require(place + len(content) <= (module.pages or 0) * PAGE, "a segment outside of the memory")
    return [Validator(module, function).check() for function in module.functions]
