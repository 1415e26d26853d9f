"""The layouts of streams in memory, by the names of the source, with which source_layouts.py compares them."""
from types import SimpleNamespace as Layout

OF_CORE = {"accumulator": 0, "current_stripe": 64, "count": 72, "buffer_usage": 80, "total_bytes": 88, "buffer": 96}
# XXH3: a state of C, the core of the crate's streams, and accumulators with a place in a block.
STATE = Layout(size=576, capacity=256, **OF_CORE, secret=352, mark=544, seed=552, secret_length=560, address=568)
CORE = Layout(size=608, capacity=512, **OF_CORE)
TAKEN = Layout(size=72, capacity=0, accumulator=0, current_stripe=64)
OWN = 192                                                             # bytes of a state's own secret
# Marks of states of C without a seed, and with one: with an own secret, or a secret of the caller.
OWN_MARKS, CALLERS_MARKS = (0xc5a16e0f93d24b87, 0x33485858786f7774), (0x9b4ed3712ac8f516, 0x68d7b5aec13f0e9b)
# XXH32 and XXH64: states of C and of the crate; to the mark the number of buffered bytes is added.
PLAIN = {"32": Layout(size=48, capacity=16, accumulators=(0, 8, 16, 28), seed=4, marked=12, total=20, buffer=32,
                      first_mark=0x32335858),
         "64": Layout(size=88, capacity=32, accumulators=(0, 16, 32, 48), seed=8, marked=40, total=24, buffer=56,
                      first_mark=0x34365858)}
