"""Derives the crate's public names from its source, and compares them with the program that uses them."""
import os
import re
from typing import Iterable, Iterator

from .compilers import CRATE, PROGRAM

SOURCE = os.path.join(CRATE, "src")
PRIVATE = "buffers.rs", "kernels.rs", "processor.rs", "rattle.rs"  # modules without a public name of their own
COMMENT = re.compile(r"//[^\n]*|#\[doc[^\n]*|\$?\(?#\[doc[^\n]*")
ITEM = re.compile(r"\bpub (?:(?:const|unsafe|async) )*(?:fn|struct|enum|union|trait|type|static|const|mod) (\w+)")
REEXPORTED = re.compile(r"\bpub use ([^;]*);")
IMPLEMENTED = re.compile(r"\bimpl(?:<[^{;]*?>)? (?:\w+::)*(\w+)(?:<[^{;]*?>)? for ")
DERIVED = re.compile(r"#\[derive\(([^)]*)\)\]\s*(?:#\[[^]]*\]\s*)*pub struct")
INTEGER = re.compile(r"\b(write_[ui]\w+) ")
# How the program uses a trait.
TRAITS = {"Clone": "clone", "Default": "default", "PartialEq": "equal"}
# Names without a use: features that the build lacks, and texts.
UNUSED = {
    "RandomState": "the feature `random`",
    "Serialize": "the feature `serialize`",
    "Deserialize": "the feature `serialize`",
    "Debug": "a text",
    "FixedMutBuffer": "a bound, which arrays have",
}


def public_names(texts):
    """Returns the names of public items, of methods, and of implemented traits, in texts of Rust."""
    found = set()
    for text in map(without_comments, texts):
        found |= {*ITEM.findall(text), *IMPLEMENTED.findall(text), *INTEGER.findall(text)}
        found |= {name.strip() for names in DERIVED.findall(text) for name in names.split(",")}
        for use in REEXPORTED.findall(text):
            names = re.sub(r".*\{|\}", "", use, flags=re.S).split(",")
            found |= {name.split(" as ")[-1].split("::")[-1].strip() for name in names}
    return found - {""}


def without_comments(text):
    return COMMENT.sub("", text)


def texts_of_crate() -> Iterator[str]:
    for name in sorted(os.listdir(SOURCE)):
        if name.endswith(".rs") and name not in PRIVATE:
            with open(os.path.join(SOURCE, name), encoding="utf-8") as file:
                yield file.read()


def left_out(texts: Iterable[str] | None = None) -> tuple[int, list[str]]:
    """Returns how many names the program uses, and messages on the others."""
    with open(PROGRAM, encoding="utf-8") as file:
        used = set(re.findall(r"\w+", without_comments(file.read())))
    names = public_names(texts if texts is not None else texts_of_crate())
    left = [name for name in sorted(names) if name not in UNUSED and TRAITS.get(name, name) not in used]
    return len(names) - len(left), [f"the program doesn't use {name}" for name in left]
