"""The effects of instructions for 64-bit ARM on frames, for ../unwinding.py."""
from ..unwinding import ANYWHERE, NOTHING


class Arm:
    NUMBERS = {**{f"x{n}": n for n in range(19, 31)}, **{f"d{n}": 64 + n for n in range(8, 16)}}
    ENTRY = 0, {}
    RETURNS, ENDS = ("ret",), ("ret", "b", "br", "brk", "udf")
    BYTES = {"q": 16, "d": 8, "s": 4, "h": 2, "b": 1}

    @staticmethod
    def is_jump(x):
        return x.target is not None and x.mnemonic not in ("bl", "adrp", "add", "ldr")

    @staticmethod
    def name_of(operand):
        """Returns the name of a register, or of a vector's lower half, or None."""
        if hasattr(operand, "arrangement"):
            return f"d{operand.number}"
        return operand.name if hasattr(operand, "width") else None

    @classmethod
    def effect(cls, x):
        used = [name for name in map(cls.name_of, x.operands) if name] + (["x30"] if x.mnemonic == "bl" else [])
        place = x.operands[-1] if x.operands and hasattr(x.operands[-1], "mode") else None
        if x.mnemonic in ("add", "sub") and used == ["sp", "sp"] and x.form.split()[2] == "i":
            shift = x.operands[3].amount if len(x.operands) > 3 else 0
            return (x.operands[2].value << shift) * (1 if x.mnemonic == "sub" else -1), {}, {}, [], NOTHING
        if x.mnemonic in ("add", "mov") and used[1:] == ["sp"] and used[0] != "sp":
            used = used[:1]  # only read
        if not place or place.base.name != "sp":
            return 0, {}, {}, [] if x.mnemonic in ("cmp", "cmn", "tst") else used, NOTHING
        return cls.access(x, place, used)

    @classmethod
    def access(cls, x, place, used):
        """Returns the effect of a load or a store by the stack pointer. Registers of 64 bits are stored and loaded."""
        lowered = 0 if place.mode == "offset" else -place.offset
        at = end = 0 if place.mode == "after" else place.offset
        there = {}
        for y in x.operands[:-1]:
            if getattr(y, "width", 0) == 64 or getattr(y, "arrangement", "") in ("d", "q"):
                there[cls.name_of(y)] = end
            end += cls.BYTES[y.arrangement] if hasattr(y, "arrangement") else y.width // 8
        if x.mnemonic in ("str", "stp", "stur") and not place.index:
            return lowered, there, {}, [], (at, end)
        is_load = x.mnemonic in ("ldr", "ldp", "ldur") and not place.index
        return lowered, {}, there if is_load else {}, used, NOTHING if is_load else ANYWHERE
