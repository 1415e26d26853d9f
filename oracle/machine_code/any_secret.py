"""Proves the one-shots of XXH3 above 240 bytes with a secret of any length, by induction over the loops. The input has
64 (q B + J) + t + 1 bytes: q stripes per block, B blocks, J < q, t < 64. The secret has 64 + 8 q + u bytes, u < 8. The
sources have separate paths for q = 16 (see every_length.py), from 31,744 bytes on, and from 2 ^ 32 stripes on."""
import collections
import functools

from oracle.symbolic_terms import LONGEST, NotShown, at_most, given, is_same, minus, plus, symbol, times, variable

from .every_length import DERIVED, FAR, MANY, PREFETCHED
from .stripes import Part
from .values import address
from .xxh3_updates import LEAST, TAKE, Xxh3Updates

# A case: B, J, t, and facts about them.
Case = collections.namedtuple("Case", "blocks more rest facts")


class AnySecret(Xxh3Updates):
    def length(self, case):
        return plus(times(64, self.stripes((case.blocks, case.more))), case.rest, 1)

    def cases(self):
        """Yields the cases for each q except DERIVED."""
        q, B, J, t = (variable(name) for name in "qBJt")
        below, above = [minus(q, LEAST), at_most(q, DERIVED - 1)], [minus(q, DERIVED + 1)]
        of_t, of_J = at_most(t, 63), minus(minus(q, 1), J)
        for of_q in (below, above):
            yield Case(0, 3, t, [*of_q, of_t, minus(t, 48)])
            yield Case(0, J, t, [*of_q, of_t, of_J, minus(J, 4), self.near(0, J)])
            for more, facts in ((0, []), (J, [of_J, minus(J, 1)])):
                here, K = [*of_q, of_t, *facts, minus(B, 1)], self.stripes((B, more))
                whole = minus(times(q, B), DERIVED)        # true for more than half of K
                yield Case(B, more, t, [*here, self.near(B, more)])
                yield Case(B, more, t, [*here, *self.far(B, more), whole, at_most(K, MANY - 1)])
                yield Case(B, more, t, [*here, minus(K, MANY), whole])
        yield Case(0, J, t, [*above, of_t, of_J, *self.far(0, J)])

    def near(self, B, J):
        return at_most(self.length(Case(B, J, variable("t"), [])), PREFETCHED - 1)

    def far(self, B, J):
        return [minus(self.length(Case(B, J, variable("t"), [])), PREFETCHED), minus(self.stripes((B, J)), FAR - 1)]

    def show(self, case, way, width):
        n, B, J = self.length(case), case.blocks, case.more
        self.begin(n)
        seed = [symbol("seed64", 64)] if way == "both" else []
        parts = [Part((0, 0), times(self.q, B), (B, 0)), Part((B, 0), J, (B, J))]
        with given(*self.facts, *case.facts, at_most(n, LONGEST)):
            ask = functools.partial(self.cpu.library.one_shot, self.cpu, f"3-{width}", way)
            value = self.run([], ask, parts, address(self.source), n, address(self.secret_source), self.secret_length,
                             *seed, summaries=[TAKE])
            expected = self.texts[f"xxh3_{width}"](seed[0] if seed else 0, self.secret, self.message)
            if not is_same(value, expected):
                raise NotShown(f"{n} bytes with a secret of {self.secret_length}: another value")

    def queries(self, way, width):
        return [functools.partial(self.show, case, way, width) for case in self.cases()]
