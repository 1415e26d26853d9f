"""What the crate for cargo has in a form of its own, for its compiler and its processors: items with the contracts of
those in their places, where a call is inlined, and where a bound is written."""
from rust.eraser.tokens import Refused, Token, closing, following, preceding

WORD = 'rustc leaves a test of bounds for each byte: one test and one load'
MIDDLE = 'rustc leaves a test of bounds for each word: one test of both lengths'
CHUNKS = '`as_chunks` is stable only since rustc 1.88'
ENDS = 'rustc leaves two tests of bounds for the last bytes, and LLVM then keeps the record of a stream in memory'
KERNEL = (
    'the kernel that is fastest on a target, or the proved function as assembly source: all are proved to '
    'compute the same'
)
BLOCKS = 'the products of a block are slow without an instruction for them: blocks are for the proved function'
PAIRS = 'rustc makes faster code of pairs'
CHANGED = "an `unsafe impl` can break its promise: the message names the secret's length"
# The item that an item of a file calls, or is, and the reason. A function's body is a call of it with the same
# arguments: what it does is stated by the contract in the source.
ITEMS = {
    'twox_words/src/words.rt': {'u32_at': ('crate::rattle::u32_at', WORD), 'u64_at': ('crate::rattle::u64_at', WORD)},
    'twox_words/src/words/chunks.rt': {'bp_as_chunks': ('crate::rattle::as_chunks', CHUNKS)},
    'twox_words/src/copies.rt': {'copy_ends': ('crate::rattle::copy_ends', ENDS)},
    'twox_plain/src/xxhash32/rounds.rt': {
        'write_blocks': ('crate::kernels::write_blocks_32', BLOCKS),
        'BYTES_FOR_BLOCKS': ('crate::kernels::BYTES_FOR_BLOCKS', BLOCKS),
        'IN_PAIRS': ('crate::kernels::IN_PAIRS', PAIRS),
    },
    'twox_plain/src/xxhash64/rounds.rt': {'IN_PAIRS': ('crate::kernels::IN_PAIRS', PAIRS)},
    'twox_core/src/width_64.rt': {
        'oneshot_long': ('crate::kernels::long_64', KERNEL),
        'oneshot_long_derived': ('crate::kernels::long_derived_64', KERNEL),
        'second_word': ('crate::rattle::second_word', MIDDLE),
    },
    'twox_core/src/width_128.rt': {
        'oneshot_long': ('crate::kernels::long_128', KERNEL),
        'oneshot_long_derived': ('crate::kernels::long_derived_128', KERNEL),
    },
    'twox_core/src/xxhash3/parts.rt': {'expect_middle': ('crate::kernels::expect_middle', MIDDLE)},
    'twox_core/src/xxhash3/large.rt': {'Kernel': ('crate::kernels::Kernel', KERNEL)},
    'twox_core/src/xxhash3/streaming/core_state.rt': {'write_by_default': ('crate::kernels::write', KERNEL)},
    'twox_core/src/xxhash3/streaming/secret_buffer.rt': {'secret_of': ('crate::buffers::secret_of', CHANGED)},
}
ALWAYS = 'inline(always)'
# The attribute of a function that rustc inlines otherwise than the toolchain. A function with target features holds the
# code of what it calls only if that is inlined, and rustc calls a function of another crate through a table of
# addresses.
INLINED = {
    'twox_core/src/xxhash3/large/four.rt': dict.fromkeys(('accumulate_four', 'sum', 'sum_with_exchange'), ALWAYS),
    'twox_core/src/xxhash3/large/lanes4.rt': dict.fromkeys(
        ('scramble_four', 'times_prime', 'halves_of', 'joined'), ALWAYS
    ),
    'twox_core/src/xxhash3/stripes.rt': dict.fromkeys(('take_stripes', 'take_many_stripes'), ALWAYS),
    'twox_core/src/xxhash3/stripes/blocks.rt': {'take_many_blocks': ALWAYS},
    'twox_core/src/xxhash3/streaming/stream_counts.rt': {'write_through': ALWAYS},
    'twox_core/src/width_64.rt': {'impl_129_to_240_bytes': 'inline'},
    'twox_plain/src/xxhash64/rounds.rt': {'impl_long': ALWAYS},
}
# The functions that have the bound of their type, which itself has none: so it is with the types of the original.
BOUND = 'FixedBuffer'
BOUNDS = {
    'twox_core/src/xxhash3/streaming/secret_buffer.rt': ('new', 'with_secret', 'checked', 'secret'),
    'twox_core/src/xxhash3/streaming/raw.rt': ('write', 'write_array', 'write_with', 'finish', 'finish_with'),
    'twox_hash/src/streams.rt': ('write', 'write_array'),
}


def places_of(tokens, *texts):
    """The places of words that follow each other."""
    found = []
    for i, token in enumerate(tokens):
        after = following(tokens, i)
        if token.kind == 'word' and token.text == texts[0] and after < len(tokens) and tokens[after].text == texts[1]:
            found.append(i)
    return found


def place_of(tokens, name):
    """The keyword of the one item of a name."""
    found = [i for keyword in ('fn', 'const', 'type') for i in places_of(tokens, keyword, name)]
    if len(found) != 1:
        raise Refused(f'{len(found)} items named `{name}`, not 1')
    return found[0]


def parameters(tokens, i):
    """The names in a list of parameters, generic or not, and the place of its last bracket."""
    opener, names, depth, is_first = tokens[i].text, [], 0, True
    while True:
        token = tokens[i]
        if token.text in ('<', '(', '[', '{'):
            depth += 1
        elif token.text in ('>', ')', ']', '}') and tokens[preceding(tokens, i)].text != '-':
            depth -= 1
            if not depth:
                return names, i
        elif depth == 1 and is_first and token.kind == 'word' and token.text not in ('const', 'mut'):
            names.append(token.text)
        is_first = depth == 1 and (
            token.text in (',', '(', '<', '&')
            or is_first
            and (token.is_blank() or token.text in ('const', 'mut') or opener == '(' and token.kind == 'life')
        )
        i += 1


def body_of(tokens, i, path):
    """The braces of a function's body, and the call of an item with the function's arguments."""
    name = following(tokens, i)
    i, generic = following(tokens, name), []
    if tokens[i].text == '<':
        generic, end = parameters(tokens, i)
        i = following(tokens, end)
    names, i = parameters(tokens, i)
    while tokens[i].text != '{':
        i += 1
    turbofish = f'::<{", ".join(generic)}>' if generic else ''
    return i, closing(tokens, i), f'{path}{turbofish}({", ".join(names)})'


def replace_items(tokens: list[Token], file: str) -> None:
    """Gives each listed item of a file its form in the crate."""
    for name, (path, _) in ITEMS.get(file, {}).items():
        i = place_of(tokens, name)
        if tokens[i].text == 'fn':
            first, last, text = body_of(tokens, i, path)
            indent = tokens[last - 1].text.rsplit('\n', 1)[-1] if tokens[last - 1].kind == 'space' else ''
            text = f'{{\n{indent}    {text}\n{indent}}}'
        else:
            first = next(k for k in range(i, len(tokens)) if tokens[k].text == '=')
            last, text = next(k for k in range(i, len(tokens)) if tokens[k].text == ';'), f'= {path};'
        for k in range(first, last + 1):
            tokens[k] = Token('gone', '', tokens[k].line)
        tokens[first] = Token('edited', text, tokens[first].line)


def inline_functions(tokens: list[Token], file: str) -> None:
    """Gives each listed function of a file its attribute."""
    for name, attribute in INLINED.get(file, {}).items():
        i = place_of(tokens, name)
        first = next(k for k in range(i, -1, -1) if tokens[k].text in ('inline', ';', '}', '{'))
        if tokens[first].text != 'inline':
            raise Refused(f'line {tokens[i].line}: `{name}` has no attribute `inline`')
        last = closing(tokens, preceding(tokens, first))
        for k in range(first, last):
            tokens[k] = Token('gone', '', tokens[k].line)
        tokens[first] = Token('edited', attribute, tokens[first].line)


def move_bounds(tokens: list[Token], file: str) -> None:
    """Moves the bound of a type and of its methods to the methods that need it."""
    for i in places_of(tokens, 'S', ':') if file in BOUNDS else ():
        colon = following(tokens, i)
        bound = following(tokens, colon)
        first = next(k for k in range(i, -1, -1) if tokens[k].text in ('struct', 'impl', 'fn', 'trait'))
        begin = next(k for k in range(i, len(tokens)) if tokens[k].text == '{')
        is_of_trait = any(token.text == 'for' for token in tokens[first:begin])
        if tokens[bound].text != BOUND or tokens[first].text not in ('struct', 'impl') or is_of_trait:
            continue
        for k in (colon, bound):
            tokens[k] = Token('gone', '', tokens[k].line)
        tokens[colon + 1 : bound] = [Token('gone', '', tokens[k].line) for k in range(colon + 1, bound)]
        for k in range(begin, closing(tokens, begin)):
            if tokens[k].text == 'fn' and tokens[following(tokens, k)].text in BOUNDS[file]:
                body, *_ = body_of(tokens, k, '')
                tokens[body] = Token('edited', f'where S: {BOUND} {{', tokens[body].line)
