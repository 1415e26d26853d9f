"""The layouts of the modules' records, like ../layouts.py."""
from types import SimpleNamespace as Layout

from ..layouts import OF_CORE

RECORD = Layout(size=624, capacity=512, seeds=0, seed=8, **{name: 16 + at for name, at in OF_CORE.items()})
# Their marks are 0, to which the number of buffered bytes is added.
PLAIN_RECORDS = {
    "32": Layout(
        size=56, capacity=16, accumulators=(12, 16, 20, 24), seed=8, marked=48, total=0, buffer=28, first_mark=0
    ),
    "64": Layout(
        size=88, capacity=32, accumulators=(16, 24, 32, 40), seed=8, marked=80, total=0, buffer=48, first_mark=0
    ),
}
