"""The eraser as it is, or with changed parts: its modules, loaded from their sources."""
import contextlib
import functools
import os
import signal
import sys
import types
from collections import Counter
from typing import Iterator

RUST = os.path.dirname(os.path.dirname(os.path.abspath(__file__)))
CRATES = os.path.join(os.path.dirname(RUST), 'crates')
# In an order in which each imports only those before it.
PARTS = ('tokens', 'contracts', 'forms', 'items', 'edits', 'names', 'own', 'packages', 'stored', 'erase')
SECONDS = 2


def path_of(part):
    return os.path.join(RUST, 'eraser', f'{part}.py')


@functools.cache
def source_of(part: str) -> str:
    with open(path_of(part), encoding='utf-8') as file:
        return file.read()


@functools.cache
def code_of(part, source):
    return compile(source, path_of(part), 'exec')


@contextlib.contextmanager
def limits() -> Iterator[None]:
    """A weakened eraser may not end, and may take all memory."""

    def stop(*_):
        raise TimeoutError

    signal.signal(signal.SIGALRM, stop)
    signal.setitimer(signal.ITIMER_REAL, SECONDS)
    try:
        yield
    finally:
        signal.setitimer(signal.ITIMER_REAL, 0)


class Eraser:
    """The modules of rust/eraser."""

    tokens: types.ModuleType
    contracts: types.ModuleType
    forms: types.ModuleType
    items: types.ModuleType
    edits: types.ModuleType
    names: types.ModuleType
    own: types.ModuleType
    packages: types.ModuleType
    stored: types.ModuleType
    erase: types.ModuleType

    def __init__(self, **changed):
        """`changed` has the source of each changed part."""
        names = {part: f'rust.eraser.{part}' for part in PARTS}
        others = {name: sys.modules.pop(name, None) for name in names.values()}
        for part, name in names.items():
            module = sys.modules[name] = types.ModuleType(name)
            module.__file__ = path_of(part)
            exec(code_of(part, changed.get(part, source_of(part))), module.__dict__)
            setattr(self, part, module)
        for name, other in others.items():
            sys.modules.pop(name)
            if other:
                sys.modules[name] = other

    def package_of(self, file):
        return self.packages.PROGRAM_PACKAGE if file.startswith('xxh') else self.packages.LIBRARY_PACKAGE

    def one(self, file, source, spans):
        """'erased' and the Rust of a source that is read as a file of this name, or 'refused' and the reason. `spans`
        are the toolchain's tokens, or its refusal."""
        try:
            if isinstance(spans, str):
                raise self.tokens.Refused(spans)
            with limits():
                tokens, items = self.erase.read(file, source, spans), self.items.Items()
                items.learn(file, tokens)
                return 'erased', self.erase.as_rust(file, tokens, Counter(), items, self.package_of(file))
        except self.tokens.Refused as reason:
            return 'refused', str(reason)
        except Exception as fault:
            return 'failed', repr(fault)

    def tree(self, texts, spans, package):
        """The files of a tree, or the refusal as a text."""
        setattr(self.erase, 'toolchain_tokens', lambda _: spans)
        try:
            return self.erase.erased(texts, package)
        except self.tokens.Refused as reason:
            return str(reason)


def spans_of(eraser: 'Eraser', sources: dict[str, str]) -> dict:
    """The toolchain's tokens of each source, by name, or its refusal."""
    try:
        return eraser.tokens.toolchain_tokens(sources)
    except eraser.tokens.Refused as reason:
        if len(sources) == 1:
            return {name: str(reason) for name in sources}
    names = list(sources)
    half = len(names) // 2
    return {
        **spans_of(eraser, {name: sources[name] for name in names[:half]}),
        **spans_of(eraser, {name: sources[name] for name in names[half:]}),
    }
