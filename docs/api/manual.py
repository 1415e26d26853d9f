"""docs/MANUAL.md: both manual pages, for readers without `man`."""
import re
import shlex

from docs.api.rattle import text_of

PAGES = ('xxhsum.1', 'xxh.1')
HEAD = '# Manual pages\n\nWritten from [xxhsum.1](xxhsum.1) and [xxh.1](xxh.1) by `docs/api/make`.\n'
PLAIN = {r'\-': '-', r'\e': '\\', r'\&': ''}


def plain(text):
    """A text without its fonts."""
    text = re.sub(r'\\f[A-Z]', '', text)
    return re.sub(r'\\[-e&]', lambda found: PLAIN[found[0]], text)


def code(text):
    return f'`{plain(text)}`' if plain(text).strip(' ,.:;()[]|') else plain(text)


def fonts(text):
    """A text whose words in italics keep their font."""
    text = re.sub(r'\\fI(.*?)\\f[RPB]', lambda found: f'*{found[1]}*', text)
    return plain(text).replace('|', r'\|')


def parts_of(tokens):
    """The arguments of a request, of which those in quotes may have spaces."""
    return shlex.split(tokens.replace('\\', '\\\\').replace("'", "\\'"))


def styled(request, tokens):
    """A line in a font, or in two that alternate from word to word."""
    if request in ('B', 'I'):
        text = ' '.join(parts_of(tokens))
        return code(text) if request == 'B' else f'*{plain(text)}*'
    shown = {'B': code, 'I': lambda text: f'*{plain(text).strip()}*', 'R': fonts}
    return ''.join(shown[request[number % 2]](text) for number, text in enumerate(parts_of(tokens)))


def markdown_of(lines):
    """A manual page as Markdown."""
    out, is_term, is_example = [], False, False
    for line in lines:
        request, _, tokens = line[1:].partition(' ') if line.startswith('.') else ('', '', line)
        if request == 'TH':
            out.append(f'\n## {parts_of(tokens)[0].lower()}({parts_of(tokens)[1]})\n')
        elif request == 'SH':
            out.append(f'\n**{tokens}**\n')
        elif request == 'PP':
            out.append('')
            out.append('')
        elif request == 'br':
            out[-1] += '\\'
        elif request in ('EX', 'EE'):
            is_example = request == 'EX'
            out += ['', '```'] if is_example else ['```', '']
        elif request == 'TP':
            is_term = True
        else:
            text = plain(line) if is_example else styled(request, tokens) if request else fonts(tokens)
            out.append(f'- {text}:' if is_term else text)
            is_term = False
    return '\n'.join(out)


def text() -> str:
    pages = [markdown_of(text_of('docs', name).splitlines()) for name in PAGES]
    return re.sub(r'\n{3,}', '\n\n', '\n'.join([HEAD, *pages])).rstrip('\n') + '\n'
