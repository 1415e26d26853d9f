"""The types, traits and methods of all sources, so that a call has one candidate in both languages."""
import os

from rust.eraser.forms import ADDED_METHODS, TWICE, refuse
from rust.eraser.tokens import closing

# The types of Rattle's library for which the sources implement traits. A slice and an array are `[`.
FOREIGN = {'u8', 'u16', 'u32', 'u64', 'u128', 'usize', 'bool', 'char', 'str', '[', 'BoxedSlice'}


def behind_parameters(code, i):
    """The place after the parameters that begin at `i`, if any do, and their names."""
    names, depth = [], 0
    if code[i].text != '<':
        return i, names
    while True:
        depth += {'<': 1, '>': -1 if code[i - 1].text not in ('-', '=') else 0}.get(code[i].text, 0)
        if (
            depth == 1
            and code[i].text in ('<', ',', 'const')
            and code[i + 1].text != 'const'
            and code[i + 1].kind == 'word'
        ):
            names.append(code[i + 1])
        i += 1
        if not depth:
            return i, names


def methods_in(code, begin):
    """The functions of a block: each name, and the places of its body's braces, which are equal if it has none."""
    end, i = closing(code, begin), begin + 1
    while i < end:
        if code[i].text == 'fn':
            name = code[i + 1]
            while code[i].text not in ('{', ';'):
                i = closing(code, i) + 1 if code[i].text in ('(', '[') else i + 1
            last = closing(code, i) if code[i].text == '{' else i
            yield name, i, last
            i = last
        i += 1


class Items:
    def __init__(self):
        self.types, self.aliases, self.traits, self.methods = {}, {}, {}, {}

    def learn(self, file, tokens):
        """Collects a file's types, what other names they have, and the methods of its traits."""
        code = [token for token in tokens if not token.is_blank()]
        for i, token in enumerate(code):
            if token.kind != 'word' or code[i + 1 :] and code[i + 1].kind != 'word':
                continue
            if token.text in ('struct', 'enum'):
                self.types.setdefault(code[i + 1].text, []).append(file)
            elif token.text == 'use':
                end = next(k for k in range(i, len(code)) if code[k].text == ';')
                self.aliases.update({code[k + 1].text: code[k - 1] for k in range(i, end) if code[k].text == 'as'})
            elif token.text == 'type' and code[i + 1].text != 'Output':
                place, _ = behind_parameters(code, i + 2)
                if code[place].text == '=':
                    self.aliases[code[i + 1].text] = head_of(code, place + 1)
            elif token.text == 'trait':
                begin = next(k for k in range(i, len(code)) if code[k].text == '{')
                self.traits[code[i + 1].text] = [name for name, *_ in methods_in(code, begin)]

    def check(self, file, code):
        """Refuses what lets a call have two candidates, or other ones in Rust, in a file's code."""
        for i, token in enumerate(code):
            if token.kind != 'word' or i + 1 == len(code):
                continue
            first = i + 1 if token.text == 'impl' else i + 2
            if token.text in ('fn', 'struct', 'enum', 'trait', 'type', 'impl') and first < len(code):
                for name in behind_parameters(code, first)[1]:
                    if name.text in self.types:
                        refuse(name, f'the parameter `{name.text}`, which is the name of a type')
            if token.text == 'trait':
                check_defaults(code, next(k for k in range(i, len(code)) if code[k].text == '{'))
            if (
                token.text == 'impl'
                and code[i - 1].text in ('}', ';', ']', '{', 'unsafe')
                or i == 0
                and token.text == 'impl'
            ):
                self.check_impl(file, code, first)

    def type_of(self, name):
        """What a name is an alias of."""
        seen = set()
        while name.text not in self.types and name.text in self.aliases and name.text not in seen:
            seen.add(name.text)
            name = self.aliases[name.text]
        return name.text

    def check_impl(self, file, code, first):
        place, _ = behind_parameters(code, first)
        begin = next(k for k in range(place, len(code)) if code[k].text == '{')
        split = next((k for k in range(place, begin) if code[k].text == 'for'), None)
        trait = '' if split is None else last_name(code, place, split)
        name = head_of(code, place if split is None else split + 1)
        kind = self.type_of(name)
        if kind not in self.types and kind not in FOREIGN:
            refuse(name, f'an `impl` for `{name.text}`, which is no type of the sources')
        own = [method.text for method, *_ in methods_in(code, begin)]
        for method in own:
            where = max(self.types.get(kind, ['']), key=lambda one: len(os.path.commonprefix([one, file])))
            if self.methods.setdefault((where, kind, method), trait) != trait and method not in TWICE:
                refuse(name, f'`{kind}` has the method `{method}` twice')
        for method in {*own, *(one.text for one in self.traits.get(trait, ()))} if kind in FOREIGN else ():
            if method not in ADDED_METHODS:
                refuse(name, f'the method `{method}` of a type of the standard library')


def head_of(code, i):
    """The first name of a type, after references."""
    while (
        code[i].text in ('&', 'mut')
        or code[i].kind == 'life'
        or [one.text for one in code[i + 1 : i + 3]] == [':', ':']
    ):
        i += 3 if code[i].kind == 'word' and code[i].text != 'mut' else 1
    return code[i]


def last_name(code, i, end):
    """The name of a trait, without its path and its arguments."""
    while i + 2 < end and code[i + 1].text == ':':
        i += 3
    return code[i].text


def check_defaults(code, begin):
    """Refuses a call in a trait's body whose receiver is not `self`, since its type may name `Self`."""
    for _, first, last in methods_in(code, begin):
        for i in range(first, last):
            is_call = code[i].text == '.' and code[i + 1].kind == 'word' and code[i + 2].text in ('(', ':')
            if is_call and (code[i - 1].text != 'self' or code[i - 2].text == '.'):
                refuse(code[i], f'the call of `{code[i + 1].text}` in a body of a trait')
