"""The functions of a source file: the positions of their bodies, and their names in a check.

It reads files in the layout of `rt fmt`, in which an item ends with the brace in the column in which it starts."""
import itertools
import re

HEAD = re.compile(r'( *)(?:pub(?:\([^)]*\))? |const |unsafe |extern "C" )*(fn|impl|mod|trait)\b(.*)')


class Function:
    """A function with a body: the line of its `fn`, and those of the two braces around its body, all counted from 0."""

    def __init__(self, module, owners, name, head, first, last):
        self.module, self.owners, self.name, self.head, self.first, self.last = module, owners, name, head, first, last
        self.owner = "".join(it.name for it in owners)

    def has_inside(self, line):
        return self.first < line < self.last

    def copied(self, lines, name):
        """The function under another name at the end of its file's lines, with these. Or None: the methods of a
        trait are in one block, and a symbol is exported once."""
        attributes = list(
            itertools.takewhile(lambda it: it.lstrip().startswith(("#[", "//")), reversed(lines[: self.head]))
        )
        if not all(it.header for it in self.owners) or len(self.owners) > 1 or "no_mangle" in "".join(attributes):
            return None
        before = [*lines, *(self.owners[0].header if self.owners else ()), *reversed(attributes)]
        down = len(before) - self.head
        copy = Function(self.module, self.owners, name, self.head + down, self.first + down, self.last + down)
        head = re.sub(rf"\bfn {self.name}\b", f"fn {name}", lines[self.head], count=1)
        after = ["}"] if self.owners else []
        return copy, [*before, head, *lines[self.head + 1 : self.last + 1], *after]

    def checked_name(self, names):
        """Its name in a check, if only one of `names` fits. A method is in the module of its type, possibly above."""
        shortest = len(self.module) if not self.owner else 0
        for end in range(len(self.module), shortest - 1, -1):
            path = "::".join([*self.module[:end], self.owner])
            start = re.escape(path) + ("" if not path or path.endswith("::") else r"\w*::")
            # `Hasher+A::finish` is a method of `Hasher<A>`.
            found = [it for it in names if re.fullmatch(rf"\w+::{start}{self.name}", re.sub(r"\+.*(?=::)", "", it))]
            if found:
                return found[0] if len(found) == 1 else None
        return None


def name_of_type(type_, variables, has_arguments=True):
    """A type as in the names of its methods in a check: `&mut [u8; N]` is RefMutArrayU8, and
    `RawHasher<DefaultSecret>` with its arguments RawHasherDefaultSecret, in which variables of the impl are left
    out."""
    type_ = re.sub(r"'\w+\s*", "", type_).strip()
    for start, word in (("&mut ", "RefMut"), ("&", "Ref")):
        if type_.startswith(start):
            return word + name_of_type(type_[len(start) :], variables)
    if type_.startswith("["):
        element, is_array, _ = type_[1:-1].partition(";")
        return ("Array" if is_array else "Slice") + name_of_type(element, variables)
    name, _, inner = type_.partition("<")
    name = name.split("::")[-1].strip()
    arguments = [it.strip() for it in inner.rpartition(">")[0].split(",")] if has_arguments else []
    return (
        name[:1].upper()
        + name[1:]
        + "".join(name_of_type(it, variables) for it in arguments if it and it not in variables)
    )


def owner_of_impl(text):
    """The prefix of a method's name: `SavedState::`, or with a trait `SavedStateDebug::`."""
    generics = re.match(r"<((?:[^<>]|<[^<>]*>)*)>", text)
    variables = re.findall(r"(?:^|,)\s*(?:const )?(\w+)", re.sub(r"<[^<>]*>", "", generics[1])) if generics else []
    text = text[generics.end() :] if generics else text
    trait, _, type_ = re.split(r" where\b|\{", text)[0].strip().rpartition(" for ")
    return name_of_type(type_, variables, bool(trait)) + (name_of_type(trait, variables) if trait else "") + "::"


class Owner:
    """A block around functions: its part of their names, its last line, and its first lines if it is that of a
    type's own methods."""

    def __init__(self, name, last, header=()):
        self.name, self.last, self.header = name, last, header


def functions(path, lines):
    """The functions of the file that have a body."""
    module = [it for it in path[len("src/") : -len(".rt")].split("/") if it not in ("lib", "main", "mod")]
    owners = []
    for at, line in enumerate(lines):
        head = HEAD.match(line)
        last = next((i for i in range(at + 1, len(lines)) if head and lines[i] == head[1] + "}"), None)
        if last is None or line.endswith((";", "}")):
            continue
        owners = [it for it in owners if it.last > at]
        word = re.match(r"\s*(\w*)", head[3])[1]
        if head[2] == "fn":
            openings = [i for i in range(at, last) if lines[i].endswith("{")]
            opening = next((i for i in openings if lines[i] == head[1] + "{"), openings[0])
            yield Function(module, owners, word, at, opening, last)
        elif head[2] == "impl":
            opening = next(i for i in range(at, last) if lines[i].endswith("{"))
            # What the block brings into scope is at its beginning.
            inside = itertools.takewhile(lambda it: it.startswith(head[1] + "    ghost use "), lines[opening + 1 :])
            header = [*lines[at : opening + 1], *inside]
            is_of_trait = re.search(r" for \S", " ".join(header).partition(" where ")[0])
            name = owner_of_impl(" ".join([head[3], *lines[at + 1 : at + 9]]))
            owners = [*owners, Owner(name, last, () if is_of_trait else header)]
        else:
            owners = [*owners, Owner(word + "::", last)]


def without_bodies(path, text):
    """The text without function bodies: what other crates may depend on."""
    lines = text.split("\n")
    hidden = {i for it in functions(path, lines) for i in range(it.first + 1, it.last)}
    return "\n".join(it for i, it in enumerate(lines) if i not in hidden)
