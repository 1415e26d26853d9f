"""An x86-64 processor on terms, for objects as objdump prints them. Lengths and addresses are numbers."""
import re
import subprocess

from .terms import Term, add, constant, cut, join, ones, representative, shift_left, subtract, variable, widened

REGISTERS = "rax rcx rdx rbx rsp rbp rsi rdi r8 r9 r10 r11 r12 r13 r14 r15".split()
CALLEE_SAVED = "rbx", "rbp", "r12", "r13", "r14", "r15"
ARGUMENTS = "rdi", "rsi", "rdx", "rcx", "r8", "r9"
STACK, STACK_BYTES, CONSTANTS, OBJECTS, OUT = 0x7FFF00000000, 1 << 14, 1 << 32, 1 << 36, ("out", 0)
LANES, MOST = {"x": 2, "y": 4, "z": 8}, 200_000
LINE = re.compile(r"\s+([0-9a-f]+):\t((?:[0-9a-f]{2} )+)\s*\t?(.*)")
RELOCATION = re.compile(r"\t([0-9a-f]+): R_X86_64_(?:PC32|PLT32)\s+([\w.]+?)([-+]0x[0-9a-f]+)?(?=\t|$)")
SIZES = {"b": 8, "w": 16, "l": 32, "q": 64}
OUTER = "memcpy", "memmove", "memset"


class Refused(Exception):
    """Raised if the code does what this processor doesn't model."""


def names():
    out = {}
    for r in REGISTERS:
        out[r] = r, 64
        if r[1:].isdigit():
            out |= {r + "d": (r, 32), r + "w": (r, 16), r + "b": (r, 8)}
        else:
            out |= {"e" + r[1:]: (r, 32), r[1:]: (r, 16), (r[1] if r[2] == "x" else r[1:]) + "l": (r, 8)}
    return out


NAMES = names()


class Code:
    """The instructions of an object, (section, address) -> (next, mnemonic, operands, target), and its constants."""

    def __init__(self, path):
        self.at, self.symbols, self.constants = {}, {}, {}
        self.read_symbols(path)
        self.read_constants(path)
        section = None
        for line in printed(path, "-drwz"):
            if line.startswith("Disassembly of section "):
                section = line[len("Disassembly of section ") : -1]
            elif match := LINE.match(line):
                self.read(section, *match.groups())

    def read_symbols(self, path):
        for line in printed(path, "-t"):
            found = re.fullmatch(r"([0-9a-f]+) .{7} (\S+)\t[0-9a-f]+ (?:\.hidden )?(\S+)", line)
            if found and found[2] != "*UND*":
                self.symbols[found[3]] = found[2], int(found[1], 16)

    def read_constants(self, path):
        name = None
        for line in printed(path, "-s"):
            if line.startswith("Contents of section "):
                name = line[len("Contents of section ") : -1]
                name = name if name.startswith(".rodata") else None
            elif name and (match := re.match(r" ([0-9a-f]+) ((?:[0-9a-f]+ )+)", line[:43] + " ")):
                self.constants[name] = self.constants.get(name, b"") + bytes.fromhex(match[2].replace(" ", ""))
        self.places = {name: CONSTANTS + (k << 20) for k, name in enumerate(self.constants)}

    def read(self, section, at, raw, rest):
        at, end = int(at, 16), int(at, 16) + len(raw.split())
        moved = RELOCATION.search(rest)
        text = re.sub(r"\t[0-9a-f]+: R_.*|#.*|<.*?>", "", rest).strip()
        text = re.sub(r"^((cs|data16|notrack) )+(?=nop)", "", text)
        mnemonic, _, operands = text.partition(" ")
        target = None
        if mnemonic[:1] == "j" or mnemonic == "call":
            target = section, int(operands, 16)
            operands = ""
        if moved:
            name, offset = self.symbols.get(moved[2], (moved[2], 0))
            target = name, offset + int(moved[3] or "0", 16) + end - int(moved[1], 16)
        broadcast = re.search(r"\{1to\d+\}", operands)
        parts = [
            x.strip()
            for x in re.split(r",(?![^(]*\))", operands.replace(broadcast[0] if broadcast else "{", ""))
            if x.strip()
        ]
        self.at[section, at] = (
            (section, end),
            mnemonic + (broadcast[0] if broadcast else ""),
            [] if mnemonic.startswith("nop") else parts,
            target,
        )


def printed(path, option):
    return subprocess.run(["objdump", option, path], check=True, capture_output=True, text=True).stdout.splitlines()


class Processor:
    tables: tuple[dict, ...] = ()  # of functions by mnemonics; instructions.py sets them

    def __init__(self, code, read_only=(), writable=()):
        """`read_only` and `writable` map addresses to terms: the bytes from there on."""
        self.code, self.bytes, self.writable = code, {}, []
        for at, x in [
            *read_only,
            *(
                (code.places[name], constant(int.from_bytes(data, "little"), 8 * len(data)))
                for name, data in code.constants.items()
            ),
        ]:
            self.put_bytes(at, x)
        for at, x in writable:
            self.put_bytes(at, x)
            self.writable.append((at, at + x.width // 8))
        self.vectors, self.flags, self.nonzero = {}, None, []
        self.registers: dict = {name: variable(f"in {name}", 64) for name in REGISTERS}

    def call(self, name, *arguments):
        """Calls a function. Returns rax and rdx."""
        if name not in self.code.symbols:
            raise Refused(f"no function {name}")
        saved = {r: self.registers[r] for r in CALLEE_SAVED}
        for register, x in zip(ARGUMENTS, arguments):
            self.registers[register] = x if isinstance(x, Term) else constant(x, 64)
        self.registers["rsp"] = constant(STACK, 64)
        self.returns, place, count = [OUT], self.code.symbols[name], 0
        self.push(variable("return address", 64))
        while place != OUT:
            place, count = self.step(place), count + 1
            if count > MOST:
                raise Refused("no end")
        if any(self.registers[r] is not x for r, x in saved.items()) or self.number(self.registers["rsp"]) != STACK:
            raise Refused("a register isn't the caller's")
        return self.registers["rax"], self.registers["rdx"]

    # ---- memory

    def put_bytes(self, at, x):
        for k in range(x.width // 8):
            self.bytes[at + k] = x, k

    def load(self, at, n):
        parts = []
        for k in range(at, at + n):
            if k not in self.bytes:
                raise Refused(f"a read at {k:#x}")
            x, index = self.bytes[k]
            if parts and parts[-1][0] is x and parts[-1][1] + parts[-1][2] == index:
                parts[-1][2] += 1
            else:
                parts.append([x, index, 1])
        return join(*(cut(x, 8 * first, 8 * count) for x, first, count in parts))

    def store(self, at, x):
        end = at + x.width // 8
        if not (STACK - STACK_BYTES <= at and end <= STACK) and not any(
            first <= at and end <= last for first, last in self.writable
        ):
            raise Refused(f"a store at {at:#x}")
        self.put_bytes(at, x)

    def number(self, x):
        if x.op != "constant":
            raise Refused("a place or a branch by a symbol")
        return x.parts[0]

    def address(self, text, target):
        match = re.fullmatch(r"(-?0x[0-9a-f]+)?\((%\w+)?(?:,(%\w+),(\d))?\)", text)
        if not match:
            raise Refused(f"the operand {text}")
        offset, base, index, scale = match.groups()
        if base == "%rip":
            if target is None or target[0] not in self.code.places:
                raise Refused("an address of no constant")
            return constant(self.code.places[target[0]] + target[1], 64)
        out = [constant(int(offset or "0", 16), 64)]
        out += [self.registers[base[1:]]] if base else []
        out += [shift_left(self.registers[index[1:]], int(scale).bit_length() - 1)] if index else []
        return add(*out)

    # ---- operands

    def get(self, text, width, target=None):
        if text[0] == "$":
            return constant(int(text[1:], 16), width)
        if text[0] == "%" and text[1:] in NAMES:
            return cut(self.registers[NAMES[text[1:]][0]], 0, width)
        return self.load(self.number(self.address(text, target)), width // 8)

    def put(self, text, x, target=None):
        if text[0] == "%":
            name, width = NAMES[text[1:]]
            old = self.registers[name]
            x = cut(x, 0, width)
            self.registers[name] = (
                representative(x)
                if width == 64
                else widened(x, 64)
                if width == 32
                else join(x, cut(old, width, 64 - width))
            )
        else:
            self.store(self.number(self.address(text, target)), x)

    def push(self, x):
        self.registers["rsp"] = subtract(self.registers["rsp"], constant(8, 64))
        self.store(self.number(self.registers["rsp"]), x)

    def pop(self):
        at = self.number(self.registers["rsp"])
        self.registers["rsp"] = constant(at + 8, 64)
        return self.load(at, 8)

    def lanes(self, text, count, target=None):
        """Returns a vector's lanes of 64 bits, from a register or from memory."""
        if text[0] == "%":
            found = self.vectors.get(int(text[4:]), [None] * 8)[:count]
            if None in found:
                raise Refused(f"{text}, which isn't set")
            return found
        at = self.number(self.address(text, target))
        return [self.load(at + 8 * k, 8) for k in range(count)]

    def put_lanes(self, text, lanes, is_old=False, target=None):
        """Sets a vector. Without `is_old` the lanes above are 0."""
        lanes = [representative(x) for x in lanes]
        if text[0] == "%":
            old = self.vectors.get(int(text[4:]), [None] * 8)
            above = old[len(lanes) :] if is_old else [constant(0, 64)] * (8 - len(lanes))
            self.vectors[int(text[4:])] = lanes + above
        else:
            at = self.number(self.address(text, target))
            for k, x in enumerate(lanes):
                self.store(at + 8 * k, x)

    # ---- flags

    def condition(self, name):
        if self.flags is None:
            raise Refused("flags that aren't set")
        op, a, b, result = self.flags
        if name in ("e", "ne") and any(result is x for x in self.nonzero):
            return name == "ne"
        if name in ("e", "ne"):
            return (not self.number(result)) == (name == "e")
        if op == "step" or op == "shift":
            raise Refused("a carry that isn't set")
        below = {
            "sub": lambda: self.number(a) < self.number(b),
            "logic": lambda: False,
            "add": lambda: self.number(a) + self.number(b) > ones(a.width),
        }[op]()
        if name in ("b", "ae"):
            return below == (name == "b")
        if name in ("a", "be"):
            return (below or not self.number(result)) == (name == "be")
        raise Refused(f"the condition {name}")

    # ---- instructions

    def step(self, place):
        section, _ = place
        if section in OUTER:
            return self.outer(section)
        if place not in self.code.at:
            raise Refused(f"no instruction at {place}")
        end, mnemonic, operands, target = self.code.at[place]
        if mnemonic == "ret":
            self.pop()
            return self.returns.pop()
        if mnemonic == "call":
            self.push(variable("return address", 64))
            self.returns.append(end)
            return target
        if mnemonic == "jmp":
            return target
        if mnemonic[0] == "j":
            return target if self.condition(mnemonic[1:]) else end
        if mnemonic.startswith(("nop", "prefetch")) or mnemonic == "xchg" and operands[:1] == operands[1:]:
            return end
        for known in self.tables:
            if (function := known.get(mnemonic)) and function(self, mnemonic, operands, target) is not NotImplemented:
                return end
        raise Refused(f"the instruction {mnemonic} {','.join(operands)}")

    def outer(self, name):
        to, source, n = (self.registers[r] for r in ARGUMENTS[:3])
        to, n = self.number(to), self.number(n)
        copied = (
            [cut(source, 0, 8)] * n if name == "memset" else [self.load(self.number(source) + k, 1) for k in range(n)]
        )
        if n and name != "memset":
            copied = [self.load(self.number(source), n)]
        for k, x in enumerate(copied):
            self.store(to + k, x)
        for r in set(REGISTERS) - {*CALLEE_SAVED, "rsp"}:
            self.registers[r] = variable(f"after {name} {r}", 64)
        self.vectors, self.flags = {}, None
        self.registers["rax"] = constant(to, 64)
        self.pop()
        return self.returns.pop()


def width_of(mnemonic: str, operands: list[str]) -> int:
    """Returns the width of an instruction on words."""
    found = [NAMES[x[1:]][1] for x in operands if x[0] == "%" and x[1:] in NAMES]
    return found[-1] if found else SIZES[mnemonic[-1]]
