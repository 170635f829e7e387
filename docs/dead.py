#!/usr/bin/env python3
"""Prints each definition and lemma of crates/ that nothing needs; the status is 1 if there is any.

Needed is what the sources name, what a proof of a function proves, and all that these name in turn. Names are resolved
file by file. An import alone needs nothing: `rt tidy` drops it."""
import argparse
import re
import sys
from pathlib import Path

from antt import TOP, Book, Name, bare, uses

PATH = re.compile(r"\b((?:crate|[a-z]\w+)(?:::\w+)*::specs::\w+)::([\w-]+)")


def sources(book: Book) -> set[Name]:
    """What the contracts name, and the attributes of functions. A name that a file brings in twice counts as both."""
    found: set[Name] = set()
    for path in sorted(book.top.glob("crates/*/src/**/*.rt")):
        crate = path.relative_to(book.top / "crates").parts[0]
        plain = bare(path.read_text(encoding="utf-8"))
        text = re.sub(r"^ *ghost use [^;]*;", "", plain, flags=re.M)
        found |= book.named(text, uses(plain))
        for module, name in PATH.findall(text):
            found.add(book.meant((".".join(["Rattle", *module.replace("crate", crate).split("::")]), name)))
    return found


def needed(book: Book) -> set[Name]:
    names: dict[Name, set[Name]] = {}
    for file in book.files.values():
        shared = book.named(file.parameters, file.scope.items())
        for item in file.items:
            names[item.name] = shared | book.named(item.text, file.scope.items())
    left = sources(book) | {item.name for file in book.files.values() if file.is_of_function
                            for item in file.items if item.is_public}
    found: set[Name] = set()
    while left:
        found |= left
        left = set().union(*(names.get(name, ()) for name in left)) - found
    return found


def dead(top: Path = TOP) -> list[str]:
    """Each item that nothing needs, by its file and line."""
    book = Book(top)
    of_use = needed(book)
    return [f"{file.path.relative_to(top)}:{item.line}: nothing needs {item.name[1]}"
            for file in book.files.values() for item in file.items if item.name not in of_use]


if __name__ == "__main__":
    argparse.ArgumentParser(description=__doc__, formatter_class=argparse.RawDescriptionHelpFormatter).parse_args()
    sys.exit("\n".join(dead()) or 0)
