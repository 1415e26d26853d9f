"""Makes a module for WebAssembly, whose addresses were lowered to 32 bits, use numbers of 32 bits for them:

    assembly/narrow.py IN.wat OUT.wat SOURCE..

IN is the text that wasm-opt writes. Two things change:

- An address is the lower half of a number of 64 bits. The lower half of a sum is the sum of the lower halves, so the
  truncation moves from a sum to its parts, and wasm-opt can put a constant among them into the load.
- An export's addresses and lengths are parameters of 32 bits, which are JavaScript's own numbers, and are extended
  to 64 bits at its beginning. Its other parameters stay: SOURCE are the Rattle files that define which parameter is
  which."""
import re
import sys

CUT, WIDEN = 'i32.wrap_i64', 'i64.extend_i32_u'
NARROW = {'i64.add': 'i32.add', 'i64.sub': 'i32.sub'}
TOKEN = re.compile(r'"(?:\\.|[^"\\])*"|;;[^\n]*|[^\s()";]+|[()]')
EXPORT = re.compile(r'extern "C" fn (\w+)\(([^)]*)\)')


def stop(why):
    sys.exit(f'assembly/narrow.py: {why}')


def parsed(text):
    """The text's lists, each a Python list of words and lists."""
    open_lists = [[]]
    for token in TOKEN.findall(text):
        if token == '(':
            open_lists.append([])
        elif token == ')':
            open_lists[-2].append(open_lists.pop())
        elif not token.startswith(';;'):
            open_lists[-1].append(token)
    return open_lists[0]


def written(it):
    return it if isinstance(it, str) else f'({" ".join(map(written, it))})'


def cut(number):
    """The lower half of a number of 64 bits, without truncations below."""
    match number:
        case [word, left, right] if word in NARROW:
            return [NARROW[word], cut(left), cut(right)]
        case ['i64.const', value]:
            return ['i32.const', str(int(value, 0) % 2**32)]
    return [CUT, number]


def with_cuts_below(it):
    if isinstance(it, str):
        return it
    parts = [with_cuts_below(part) for part in it]
    return cut(parts[1]) if parts[0] == CUT else parts


def types_of_parameters(sources):
    """By an export's name the width of each of its parameters, and whether it is an address or a length."""
    found = {}
    for path in sources:
        with open(path, encoding='utf-8') as file:
            for name, parameters in EXPORT.findall(file.read()):
                found[name] = [
                    type_name
                    for it in parameters.split(',')
                    if it.strip()
                    for type_name in crossing(name, it.split(':')[1].strip())
                ]
    return found


def crossing(name, type_name):
    if type_name in ('u32', 'u64'):
        return [(f'i{type_name[1:]}', False)]
    if type_name.startswith('&'):
        return [('i64', True)] * (2 if type_name.startswith('&[') else 1)
    stop(f'{name} takes {type_name}, of which it is not known how it crosses')


def with_numbers(function, types, name):
    """The function with parameters of 32 bits for addresses and lengths."""
    given = [it for it in function if it[0] == 'param']
    if [it[2:] for it in given] != [[width] for width, _ in types]:
        stop(f'{name} has other parameters than its source says')
    new, locals_, begin = [], [], []
    for (_, number, width), (_, is_address) in zip(given, types):
        if is_address:
            new.append(['param', f'{number}.n', 'i32'])
            locals_.append(['local', number, width])
            begin.append(['local.set', number, [WIDEN, ['local.get', f'{number}.n']]])
        else:
            new.append(['param', number, width])
    head = [it for it in function[2:] if it[0] in ('result', 'local')]
    body = [it for it in function[2:] if it[0] not in ('param', 'result', 'local')]
    return [*function[:2], *new, *head, *locals_, *begin, *body]


def narrow_module(source, out, *sources):
    with open(source, encoding='utf-8') as file:
        [module] = parsed(file.read())
    types = types_of_parameters(sources)
    exported = {it[2][1]: it[1].strip('"') for it in module[1:] if it[0] == 'export' and it[2][0] == 'func'}
    if set(exported.values()) != set(types):
        stop(f'the module has other exports than the sources: {set(exported.values()) ^ set(types)}')
    functions = []
    for it in module[1:]:
        if it[0] == 'func' and it[1] in exported:
            it = with_numbers(it, types[exported[it[1]]], exported[it[1]])
        functions.append(written(with_cuts_below(it)))
    with open(out, 'w', encoding='utf-8') as file:
        file.write('(module\n' + '\n'.join(functions) + '\n)\n')


def main():
    if len(sys.argv) < 4:
        sys.exit(__doc__)
    sys.setrecursionlimit(100_000)
    narrow_module(*sys.argv[1:])
