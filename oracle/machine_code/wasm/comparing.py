"""Compares the modules with the definition: for each request both must compute the same term."""
from typing import Callable, Iterable, Iterator

from oracle.symbolic_terms import Request, comparison, definition, nodes
from oracle.symbolic_terms.cuts import cuts_of

from .machine import Machine

MOST_NODES = 300_000


class Texts:
    """The definition's value of requests, each computed once, from a table that is cleared when it grows."""

    def __init__(self):
        self.forget()

    def forget(self):
        nodes.forget()
        self.entries, self.known = definition.program().run(), {}

    def limit_memory(self):
        if len(nodes.NODES) > MOST_NODES:
            self.forget()

    def value(self, request):
        key = request.hash_name, request.variant, request.length, request.secret_length, request.fixed_seed
        if key not in self.known:
            self.known[key] = request.of_definition(self.entries)
        return self.known[key]


def requests(algorithm: tuple[str, str, int | None], lengths: Iterable[int], is_stream: bool) -> Iterator[Request]:
    """Yields the requests of a kind, (hash, function, length of the secret). A symbolic seed is nonzero if a module
    tests it."""
    for length in lengths:
        for cuts in cuts_of(length) if is_stream else [None]:
            yield Request(algorithm[0], algorithm[1], length, algorithm[2], cuts=cuts)


def with_seed_0(request: Request) -> Request:
    return Request(request.hash_name, request.variant, request.length, request.secret_length, 0, request.cuts)


def compare(machines: dict[str, Machine], asked: Iterable[Request], answer: Callable) -> tuple[int, list[str]]:
    """Compares each machine's values with the definition. Returns the number of equal terms, and the messages on the
    others. If a module tests the seed for 0, the request is repeated with the seed 0."""
    texts, equal, complaints = Texts(), 0, []
    for request in asked:
        texts.limit_memory()
        for name, vm in machines.items():
            vm.has_asked = False
            messages = [messages_of(texts, name, vm, request, answer)]
            if vm.has_asked:
                messages.append(messages_of(texts, name, vm, with_seed_0(request), answer))
            equal += messages.count(None)
            complaints += [line for line in messages if line]
    return equal, complaints


def messages_of(texts, name, vm, request, answer):
    """Returns the message on a machine's value, or None."""
    return comparison.difference(request, name, texts.value(request), lambda asked: answer(vm, asked))
