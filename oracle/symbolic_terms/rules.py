"""The canonical form of terms: segments, sums and products, by rules that crates/symbolic_rules proves.

Each rule has its name there; `use` counts its uses here. For naturals, with widths w, j and k and a coefficient c:

    parts_of_a_number     v = v mod 2^k + 2^k (v / 2^k): a number is its segments
    concatenation         (a + 2^k b) mod 2^k = a and (a + 2^k b) / 2^k = b for a < 2^k
    bits_of_bits          (v mod 2^(j + k)) / 2^k = (v / 2^k) mod 2^j
    xor_of_parts          (a + 2^k b) xor (c + 2^k d) = (a xor c) + 2^k (b xor d) for a, c < 2^k
    joined_coefficients   c (v mod 2^k) + c 2^k (v / 2^k) = c v
    narrowed_factor       c 2^k (v mod 2^j) = c 2^k v, mod 2^w, for w <= j + k: a factor keeps only the bits that
                          count, and a sum that wasn't narrowed below these is taken apart
    narrowed_twice        (v mod 2^j) mod 2^w = v mod 2^w for w <= j
    narrowed_sum, narrowed_product    a sum and a product mod 2^w are those of the parts mod 2^w
    high_of_a_sum         ((r + 2^k y) mod 2^w) / 2^k = ((r mod 2^w) / 2^k + y) mod 2^(w - k) for k <= w

The rules of operations.py are xor_in_any_order, bits_apart, mask, union_with_ones, complement (used here for a part of
a sum too), and small_remainder."""
from .nodes import BITS, NODES, OPAQUE, PRODUCT, SUM, SYMBOL, Node, Value, memo, node, use

SPLIT_AT = 64            # bits of a sum from this one on are split off the parts of the sum above it
STANDARD = (64, 128)     # widths to which sums and products are narrowed

bits_memo, sum_memo = memo(), memo()


def ones(n: int) -> int:
    return (1 << n) - 1


def zeros_below(c: int) -> int:
    """Returns the number of trailing 0 bits of c."""
    return (c & -c).bit_length() - 1


# ---- segments

def segments_of(x: int | Node) -> tuple[tuple[int, int, tuple], ...]:
    if isinstance(x, int):
        return ((x.bit_length(), x, ()),) if x else ()
    return x.segments


def from_segments(segments: list | tuple) -> Value:
    """Returns the value of segments. Joins neighbours that continue each other, and drops zeros at the top."""
    out = []
    for segment in segments:
        joined = out and joined_with(out[-1], segment)
        if joined:
            out[-1] = joined
        elif segment[0]:
            out.append(segment)
    drop_zeros(out)
    if not out:
        return 0
    if len(out) == 1:
        length, constant, atoms = out[0]
        if not atoms:
            return constant
        if len(atoms) == 1 and not constant and not atoms[0][1] and NODES[atoms[0][0]].width == length:
            return NODES[atoms[0][0]]
    width = most = 0
    for length, constant, atoms in out:
        most |= (ones(length) if atoms else constant) << width
        width += length
    return node(BITS, tuple(out), width, most)


def drop_zeros(segments: list[tuple[int, int, tuple]]) -> None:
    """Removes the zeros at the top."""
    while segments and not segments[-1][2]:
        length, constant, _ = segments.pop()
        if constant:
            segments.append((constant.bit_length(), constant, ()))
            return


def joined_with(low: tuple[int, int, tuple], high: tuple[int, int, tuple]) -> tuple[int, int, tuple] | None:
    """Returns two neighbouring segments joined, or None."""
    (n, constant, atoms), (m, above, others) = low, high
    if len(atoms) != len(others):
        return None
    if any(atom != other or first + n != second for (atom, first), (other, second) in zip(atoms, others)):
        if lower_neighbours(others, n) != low[2]:
            return None
        atoms = tuple(sorted((other, second - n) for other, second in others))
    return n + m, constant | above << n, atoms


def lower_neighbours(atoms: tuple, n: int) -> tuple | None:
    """Returns the atoms of the n bits below some atoms, or None. A sum's low bits may be a narrower sum's."""
    out = []
    for atom, first in atoms:
        low = bits_of(NODES[atom], first - n, n) if first >= n else ()
        if len(low) != 1 or len(low[0][2]) != 1 or low[0][1]:
            return None
        out.append(low[0][2][0])
    use("narrowed_twice")
    return tuple(sorted(out))


def xor_segments(a: list | tuple, b: list | tuple) -> list[tuple[int, int, tuple]]:
    """Returns the xor of two values, segment by segment (xor_of_parts)."""
    out, a, b = [], list(reversed(a)), list(reversed(b))
    while a and b:
        n = min(a[-1][0], b[-1][0])
        for side in (a, b):
            if side[-1][0] > n:
                segment = side.pop()
                side += reversed(cut_segment(segment, 0, n) + cut_segment(segment, n, segment[0] - n))
        if a[-1][0] == b[-1][0]:   # a narrower sum may have become several segments
            (n, constant, atoms), (_, other, others) = a.pop(), b.pop()
            out.append((n, constant ^ other, differing_atoms(atoms, others)))
    return out + list(reversed(a or b))


def differing_atoms(a: tuple[tuple[int, int], ...], b: tuple[tuple[int, int], ...]) -> tuple[tuple[int, int], ...]:
    return tuple(sorted(set(a) ^ set(b))) if a and b else a or b


def cut_segment(segment: tuple[int, int, tuple], first: int, n: int) -> list[tuple[int, int, tuple]]:
    """Returns bits first .. first + n - 1 of a segment."""
    length, constant, atoms = segment
    if first == 0 and n == length:
        return [segment]
    use("bits_of_bits")
    out: list = [(n, constant >> first & ones(n), ())]
    for atom, at in atoms:
        out = xor_segments(out, bits_of(NODES[atom], at + first, n))
    return out


def bits_of(x: int | Node, first: int, n: int) -> list[tuple[int, int, tuple]]:
    """Returns bits first .. first + n - 1 of a value, as segments of n bits together."""
    if n <= 0:
        return []
    if isinstance(x, int):
        return [(n, x >> first & ones(n), ())]
    have = max(0, min(n, x.width - first))
    if x.op is BITS:
        out = bits_of_segments(x.parts, first, have)
    else:
        out = bits_of_atom(x, first, have) if have else []
    return out + [(n - have, 0, ())] if have < n else out


def bits_of_segments(segments, first, n):
    out, at = [], 0
    for segment in segments:
        if at >= first + n:
            break
        start, end = max(first, at), min(first + n, at + segment[0])
        if start < end:
            out += cut_segment(segment, start - at, end - start)
        at += segment[0]
    return out


def bits_of_atom(x, first, n):
    if first == 0 and n == x.width or x.op in (SYMBOL, OPAQUE):
        return [(n, 0, ((x.number, first),))]
    key = x.number, first, n
    if key not in bits_memo:
        bits_memo[key] = bits_of_sum(x, first, n)
    return bits_memo[key]


def bits_of_sum(x, first, n):
    """Returns bits of a sum or product, from the narrowest one of a standard width that has them."""
    for width in STANDARD:
        if first + n <= width < x.width:
            return bits_of(narrow(x, width), first, n)
    if x.op is SUM and first >= SPLIT_AT:
        split = high_of_a_sum(x, first)
        if split is not None:
            return bits_of(split, 0, n)
    return [(n, 0, ((x.number, first),))]


def high_of_a_sum(x: Node, k: int) -> int | Node | None:
    """Returns x / 2^k if a part of the sum is a multiple of 2^k, else None."""
    above = [(c >> k, y) for c, y in x.parts if not c % (1 << k)]
    if not above and not x.constant >> k:
        return None
    rest = sum_at(x.width, x.constant % (1 << k), [(c, y) for c, y in x.parts if c % (1 << k)])
    if rest is x:
        return None
    use("high_of_a_sum")
    high = from_segments(bits_of(rest, k, x.width - k))
    return sum_at(x.width - k, x.constant >> k, above + [(1, high)])


def narrow(x: int | Node, width: int) -> int | Node:
    """Returns a value modulo 2 ^ width."""
    if isinstance(x, int):
        return x % (1 << width)
    if x.width <= width or x.most < 1 << width:
        return x
    if x.op is SUM:
        use("narrowed_sum")
        return sum_at(width, x.constant, x.parts)
    if x.op is PRODUCT:
        use("narrowed_product")
        return product_at(width, x.parts)
    return from_segments(bits_of(x, 0, width))


def places(x: int | Node) -> int:
    """Returns a mask of the bits that may be 1."""
    if isinstance(x, int):
        return x
    out = at = 0
    for length, constant, atoms in x.segments:
        out |= (ones(length) if atoms else constant) << at
        at += length
    return out


# ---- sums

def sum_at(width: int, constant: int, parts: list[tuple[int, Value]] | tuple[tuple[int, Value], ...]) -> Value:
    """Returns (constant + sum of coefficient * value) modulo 2 ^ width."""
    mask = ones(width)
    constant += sum(c * x for c, x in parts if isinstance(x, int))
    parts = [(c & mask, x) for c, x in parts if not isinstance(x, int) and c & mask]
    key = width, constant & mask, tuple((c, x.number) for c, x in parts)
    if key not in sum_memo:
        sum_memo[key] = new_sum(width, constant & mask, parts)
    return sum_memo[key]


def new_sum(width, constant, parts):
    apart = concatenation(width, constant, parts)
    if apart is not None:
        return apart
    collected = Collected(width, constant)
    collected.take_all(parts)
    constant, parts, is_cut = collected.constant & ones(width), *collected.joined()
    if is_cut:
        return sum_at(width, constant, parts)
    if not parts:
        return constant
    apart = concatenation(width, constant, parts)
    if apart is not None:
        return apart
    most = constant + sum(c * x.most for c, x in parts)
    is_exact = most < 1 << width
    width = most.bit_length() if is_exact else width
    return node(SUM, tuple(sorted(parts, key=lambda part: part[1].number)), width, min(most, ones(width)), constant,
                is_exact)


def concatenation(width: int, constant: int, parts: list[tuple[int, Node]]) -> int | Node | None:
    """Returns the sum as segments if no two of its parts have a common bit, else None."""
    seen = constant
    for c, x in parts:
        if c & c - 1:
            return None
        place = places(x) << zeros_below(c)
        if place & seen or place >> width:
            return None
        seen |= place
    out: list | tuple = segments_of(constant)
    for c, x in parts:
        k = zeros_below(c)
        out = xor_segments(out, [(k, 0, ()), *segments_of(x)] if k else segments_of(x))
    use("concatenation")
    return from_segments(out)


class Collected:
    """Collects the parts of a sum modulo 2 ^ width, each a run of bits with its coefficient, by the run's atoms."""

    def __init__(self, width, constant):
        self.width, self.constant, self.waiting, self.runs = width, constant, [], {}

    def take_all(self, parts):
        self.waiting += parts
        while self.waiting:
            c, x = self.waiting.pop()
            if isinstance(x, int):
                self.constant += c * x
            elif x.op is SUM and (x.is_exact or zeros_below(c) + x.width >= self.width):
                self.take_apart(c, x)
            else:
                self.take_segments(c, x)

    def take_apart(self, c, x):
        """Adds the parts of an inner sum, whose own width drops no bit that counts."""
        use("narrowed_factor")
        self.constant += c * x.constant
        mask = ones(self.width)
        self.waiting += [(c * d & mask, y) for d, y in x.parts if c * d & mask]

    def take_segments(self, c, x):
        """Adds the segments of x, each times its place value."""
        use("parts_of_a_number")
        mask = ones(self.width)
        for segment in x.segments:
            if not c:
                return
            if segment[2]:
                self.take_segment(c, segment)
            else:
                self.constant += c * segment[1]
            c = c << segment[0] & mask

    def take_segment(self, c, segment):
        length, constant, atoms = segment
        available = self.width - zeros_below(c)   # number of bits of the segment that count
        whole = NODES[atoms[0][0]]
        is_low = len(atoms) == 1 and not constant and not atoms[0][1] and whole.op is SUM
        if is_low and (min(length, whole.width) >= available or whole.is_exact and length == whole.width):
            self.take_apart(c, whole)
        elif length == self.width and constant == ones(length) and available == length:
            use("complement")
            self.constant += c * constant
            self.put(-c, (length, 0, atoms))
        elif length <= available:
            self.put(c, segment)
        else:
            use("narrowed_factor")
            low = from_segments(cut_segment(segment, 0, available))
            if isinstance(low, Node) and len(low.segments) == 1 and low.op is not SUM:
                self.put(c, low.segments[0])
            else:
                self.waiting.append((c, low))

    def put(self, c, segment):
        length, constant, atoms = segment
        first = min(at for _, at in atoms)
        key = tuple((atom, at - first) for atom, at in atoms)
        self.runs.setdefault(key, []).append((first, length, constant, c))

    def joined(self) -> tuple[list, bool]:
        """Returns the parts, with runs of the same bits joined, and whether a part was cut to the bits that count."""
        out, is_cut, mask = [], False, ones(self.width)
        for key, runs in self.runs.items():
            for first, length, constant, c in joined_runs(runs, mask) if len(runs) > 1 else runs:
                segment = length, constant, tuple((atom, at + first) for atom, at in key)
                available = self.width - zeros_below(c & mask)
                is_cut = is_cut or length > available
                out.append((c & mask, from_segments(cut_segment(segment, 0, min(length, available)))))
        return out, is_cut


def joined_runs(runs, mask):
    """Splits runs of the same atoms (first, length, constant, coefficient) at their common ends, adds them up, and
    joins neighbours if the coefficient continues like a place value."""
    out = []
    for cluster in agreeing(sorted(runs)):
        ends = sorted({end for first, length, *_ in cluster for end in (first, first + length)})
        joined = []
        for start, end in zip(ends, ends[1:]):
            over = [run for run in cluster if run[0] <= start < run[0] + run[1]]
            c = sum(run[3] << (start - run[0]) for run in over) & mask
            if c:
                add_run(joined, start, end - start, over[0][2] >> (start - over[0][0]) & ones(end - start), c, mask)
        if joined != cluster:
            use("joined_coefficients")
        out += joined
    return out


def add_run(runs: list, start: int, length: int, constant: int, c: int, mask: int) -> None:
    if runs:
        first, n, low, d = runs[-1]
        if first + n == start and d << n & mask == c:
            runs[-1] = first, n + length, low | constant << n, d
            return
    runs.append((start, length, constant, c))


def agreeing(runs):
    """Returns clusters of runs that are xored with the same bits where they overlap."""
    clusters = []   # [mask, bits in it, runs]
    for run in runs:
        first, length, constant, _ = run
        here, bits = ones(length) << first, constant << first
        for cluster in clusters:
            if not cluster[0] & here & (cluster[1] ^ bits):
                break
        else:
            cluster = [0, 0, []]
            clusters.append(cluster)
        cluster[0] |= here
        cluster[1] |= bits
        cluster[2].append(run)
    return [cluster[2] for cluster in clusters]


# ---- products

def product_at(width: int, factors: list | tuple) -> int | Node:
    """Returns the product of values modulo 2 ^ width."""
    constant, nodes = 1, []
    for x in factors:
        x = narrow(x, width)
        if isinstance(x, int):
            constant = constant * x & ones(width)
        else:
            nodes.append(x)
    if not constant or not nodes:
        return constant
    if len(nodes) > 1:
        out = product_of_nodes(width, nodes)
    elif constant & constant - 1:
        out = nodes[0]
    else:                           # a shift keeps the bits together
        k = zeros_below(constant)
        return from_segments([(k, 0, ()), *bits_of(nodes[0], 0, min(nodes[0].width, width - k))])
    return out if constant == 1 else sum_at(width, 0, [(constant, out)])


def product_of_nodes(width, nodes):
    nodes = tuple(sorted(nodes, key=lambda x: x.number))
    most = 1
    for x in nodes:
        most *= x.most
    is_exact = most < 1 << width
    width = most.bit_length() if is_exact else width
    return node(PRODUCT, nodes, width, min(most, ones(width)), 0, is_exact)
