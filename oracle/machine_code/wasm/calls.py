"""Calls a module for a request like web/twox_hash.js: one-shots, and streams whose record is saved and restored after
an update. A call that succeeds must write its value; a refused one must write nothing."""
from oracle.symbolic_terms import Memory, Node, Piece, Request, Unsupported, Value

from . import layouts
from .machine import Machine
from .values import address

DONE, SECRET_TOO_SHORT, NOT_A_STREAM = 0, 1, 2
BYTES = {"32": 4, "64": 8, "3-64": 8, "3-128": 16}  # of a hash
WAYS = {"default": "", "seed": "_with_seed", "secret": "_with_secret", "both": "_with_seed_and_secret"}
OF_32 = layouts.PLAIN_RECORDS["32"]
# Layouts of streams' records, and bytes that the JavaScript sets to 0 in a saved state.
RECORDS = {"xxh32": OF_32, "xxh64": layouts.PLAIN_RECORDS["64"], "xxh3": layouts.RECORD}
PADDING = {"xxh32": range(OF_32.buffer + OF_32.capacity, OF_32.marked)}
DERIVED = 192  # bytes of the secret derived from a seed


def is_plain(hash_name: str) -> bool:
    return hash_name in ("32", "64")


def family(hash_name: str) -> str:
    return f"xxh{hash_name}" if is_plain(hash_name) else "xxh3"


def export(hash_name):
    return "twox_xxh" + hash_name.replace("-", "_")


def name_of_one_shot(request):
    return export(request.hash_name) + ("" if is_plain(request.hash_name) else WAYS[request.variant])


def begin(vm: Machine, request: Request) -> Value:
    """Returns a request's seed. If it is a symbol, the machine records if the module tests it for 0."""
    seed = request.seed()
    vm.seed, vm.has_asked = seed if isinstance(seed, Node) else None, False
    return seed


def answered(results: list[Value], code: int = DONE) -> None:
    if results != [code]:
        raise Unsupported(f"the code {results}")


def of_secret(request: Request) -> list[Value]:
    return [address(request.secret), request.secret_length] if request.secret else []


# ---- one-shots


def call_one_shot(vm, request, out):
    seed = begin(vm, request)
    arguments = [seed] if is_plain(request.hash_name) or request.has_seed() else []
    arguments += [*of_secret(request), address(request.message), request.length]
    return vm.call(name_of_one_shot(request), arguments + ([address(out)] if out else []))


def new_value(vm, hash_name):
    """Returns memory for a hash, which a call may write to."""
    out = Memory("the value", BYTES[hash_name])
    if vm.loops:
        vm.loops.live.append(out)
    return out


def one_shot(vm: Machine, request: Request) -> Value:
    """Returns the hash of a one-shot. With a secret, and for 128 bits, the call writes it to memory."""
    out = new_value(vm, request.hash_name) if request.secret or request.hash_name == "3-128" else None
    results = call_one_shot(vm, request, out)
    if out is None:
        return results[0]
    if request.secret:
        answered(results)
    return out.load(0, out.length)


def refused_one_shot(vm: Machine, request: Request) -> None:
    """Tests a one-shot whose secret is too short."""
    out = Memory("the value", BYTES[request.hash_name])
    answered(call_one_shot(vm, request, out), SECRET_TOO_SHORT)
    expect_unchanged("the value", out, {})


def refused_start(vm: Machine, request: Request) -> None:
    """Tests the start of a stream whose secret is too short."""
    Stream(vm, request).refused_start()


def expect_unchanged(what: str, memory: Memory, cells: dict | None) -> None:
    """Checks that the memory is unchanged."""
    if memory.cells != cells:
        raise Unsupported(f"{what} isn't as it was")


class Page:
    """Calls the exports for streams like a page's JavaScript. `vm.loops` proves loops."""

    SIZES = {name[3:]: layout.size for name, layout in RECORDS.items()}

    @staticmethod
    def of_stream(state):
        secret = getattr(state, "secret", None)
        return [address(state), *([address(secret), secret.length] if secret else [])]

    @staticmethod
    def reset(vm, request, state):
        vm.call(f"twox_{family(request.hash_name)}_start", [address(state), begin(vm, request)])

    @classmethod
    def update(cls, vm, hash_name, state, piece):
        answered(vm.call(f"twox_{family(hash_name)}_update", [*cls.of_stream(state), address(piece), piece.length]))

    @classmethod
    def digest(cls, vm, hash_name, state):
        out = new_value(vm, hash_name)
        answered(vm.call(export(hash_name) + "_digest", [*cls.of_stream(state), address(out)]))
        return out.load(0, out.length)


# ---- streams


def anything(vm, name, size):
    """Returns memory with any content."""
    return Memory(name, size, [(at, 8, vm.fresh(name)) for at in range(0, size, 8)])


class Stream:
    """A stream's record in the module's memory, with the secret that each call takes."""

    def __init__(self, vm, request):
        self.vm, self.request, self.family = vm, request, family(request.hash_name)
        (size,) = vm.call(f"twox_{self.family}_stream_size", [])
        if size != RECORDS[self.family].size:
            raise Unsupported(f"a record of {size} bytes")
        self.record, self.derived = anything(vm, "the record", size), None
        self.secret = of_secret(request)

    def start(self):
        if self.request.secret:
            answered(self.start_with_secret())
        elif self.family == "xxh3":
            self.derived = anything(self.vm, "the derived secret", DERIVED)
            self.secret, seed = [address(self.derived), DERIVED], begin(self.vm, self.request)
            self.vm.call("twox_xxh3_start_with_seed", [address(self.record), self.secret[0], seed])
        else:
            Page.reset(self.vm, self.request, self.record)

    def start_with_secret(self):
        seed, name = begin(self.vm, self.request), "twox_xxh3_start" + WAYS[self.request.variant]
        seeds = [seed] if self.request.variant == "both" else []
        return self.vm.call(name, [address(self.record), *seeds, *self.secret])

    def refused_start(self):
        """Tests a start whose secret is too short."""
        before = dict(self.record.cells)
        answered(self.start_with_secret(), SECRET_TOO_SHORT)
        expect_unchanged("the record", self.record, before)

    def update(self, first, end):
        piece = Piece(self.request.message, first, end - first)
        return self.vm.call(
            f"twox_{self.family}_update", [address(self.record), *self.secret, address(piece), end - first]
        )

    def digest(self, out, hash_name=None):
        return self.vm.call(
            export(hash_name or self.request.hash_name) + "_digest", [address(self.record), *self.secret, address(out)]
        )

    def save_and_restore(self):
        """Continues in another record, as the JavaScript does: copies all bytes to a newly started stream's record,
        with zeros as padding."""
        saved = dict(self.record.cells)
        self.record = Memory("the restored record", self.record.length)
        self.record.cells = saved
        for at in PADDING.get(self.family, ()):
            self.record.store(at, 1, 0)


def stream(vm: Machine, request: Request) -> Value:
    """Returns the hash of a stream, saved and restored after its first update. A digest must write only its value."""
    it, at = Stream(vm, request), 0
    it.start()
    for end in [*request.cuts, request.length]:
        derived_before = dict(it.derived.cells) if it.derived else None
        answered(it.update(at, end))
        if it.derived:
            expect_unchanged("the derived secret", it.derived, derived_before)
        if at == 0 and request.cuts:
            it.save_and_restore()
        at = end
    return digest_of(it)


def digest_of(it):
    out, before = Memory("the value", BYTES[it.request.hash_name]), dict(it.record.cells)
    derived_before = dict(it.derived.cells) if it.derived else None
    answered(it.digest(out))
    expect_unchanged("the record, at a digest,", it.record, before)
    if it.derived:
        expect_unchanged("the derived secret", it.derived, derived_before)
    return out.load(0, out.length)
