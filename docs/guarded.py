#!/usr/bin/env python3
"""Finds definitions that stand left of an arrow, or in what does, and that nothing guards.

docs/guarded.py         names those that docs/guarded.txt does not list, and those listed without need; the status is 1
                        if there is any.
docs/guarded.py --list  prints those that nothing guards, by crate.
docs/guarded.py --by    prints what guards each of the others.

A premise, or a function in one, could be changed with all that speaks of it, and each proof would still pass. So each
is guarded. A law says what it is, as one side of `↔` or of an equation, or in numbers, in a part without variables. Or
a law concludes it, or says that there is one. Or a call or an instance promises it, by itself or with what it stands
in. `docs/laws.py --check` asks less: that something is concluded from it, or from something in it."""
import argparse
import sys
from collections.abc import Iterable, Iterator
from itertools import groupby
from pathlib import Path

import pins
import rust
from antt import TOP
from terms import Group, Tree, split, tree, words

Scope = dict[str, pins.Name]


def ends(term: Tree) -> Iterator[Tree]:
    """The parts of what stands right of all arrows."""
    for part in split(split(term, "→")[-1], "×"):
        if len(part) == 1 and isinstance(part[0], Group):
            yield from ends(part[0].inner)
        else:
            yield part


def sides(term: Tree) -> Iterator[Tree]:
    """The sides of each `↔` and of each equation, at any depth."""
    for part in (part for arrow in split(term, "→") for part in split(arrow, "×")):
        for sign in ("↔", "≡"):
            halves = split(part, sign)
            yield from halves if len(halves) == 2 else []
    for one in term:
        if isinstance(one, Group):
            yield from sides(one.inner)


def named(part: Tree, scope: Scope) -> list[pins.Name]:
    return [scope.get(word.partition(".")[0], pins.NOTHING) for word in words(part)]


class Guards:
    """What guards each definition: the first law or call that is found."""

    def __init__(self, top: Path = TOP) -> None:
        self.book = pins.Book(top)
        self.by: dict[pins.Name, str] = {}
        for item in rust.read(top):
            if item.is_of_use and item.kind == "fn":
                self.read(item)
            elif item.is_of_use and item.kind == "ghost" and item.owner and " for " in item.owner.text:
                # (what an instance gives for a word of its trait stands in the promises of its calls)
                term = tree(item.text.partition("{")[2].rpartition("}")[0])
                self.add_all(named(term, pins.scope_of(item.scope)), item.owner.full_name)

    def read(self, item: rust.Item) -> None:
        scope = pins.scope_of(item.scope)
        is_law = item.is_law or item.path.name == "worked.rt"
        for text in (text for kind, _, text in item.clauses if kind == "ensures"):
            term = tree(text)
            if is_law:
                self.read_law(term, scope, item.full_name, set())
            if not is_law or "->" in item.text:
                self.add_all((name for part in ends(term) for name in named(part, scope)), item.full_name)

    def add(self, names: Iterable[pins.Name], guard: str) -> None:
        for name in names:
            if name in self.book.definitions:
                self.by.setdefault(name, guard)

    def add_all(self, names: Iterable[pins.Name], guard: str) -> None:
        """What is promised, with what stands in it."""
        self.add((inner for name in names for inner in self.book.within(name, True)), guard)

    def read_law(self, term: Tree, scope: Scope, law: str, seen: set[pins.Name]) -> None:
        """What a law says whole or in numbers, and what the statements say that it names."""
        self.add([name for side in sides(term) for name in named(side, scope)[:1]], law)
        premises = {name for premise in split(term, "→")[:-1] for name in named(premise, scope)}
        for part in ends(term):
            names = named(part, scope)
            # (of `(x : D) × ..` the law says that there is a D)
            head = named(part[part.index(":") + 1:], scope) if ":" in part else names
            self.add([name for name in head[:1] if name not in premises], law)
            if not any(word[0].islower() and name == pins.NOTHING for word, name in zip(words(part), names)):
                self.add(names, law)
            one = self.book.definitions.get(names[0]) if names else None
            if one and one.kind in ("statement", "relation") and one.name not in seen:
                for inner in one.parts:
                    self.read_law(tree(" ".join(inner)), self.book.known[one.name], law, {*seen, one.name})

    def wanted(self) -> list[pins.Name]:
        """The relations and functions that stand left of an arrow, or in what does."""
        left = self.book.sides[0]
        return sorted(name for name in self.book.of_kind("relation", "value") if left[name])

    def missing(self) -> list[pins.Name]:
        return [name for name in self.wanted() if name not in self.by]


def faults(top: Path = TOP) -> Iterator[str]:
    listed = set((top / "docs/guarded.txt").read_text(encoding="utf-8").split())
    missing = {".".join(name) for name in Guards(top).missing()}
    yield from (f"nothing guards {name}" for name in sorted(missing - listed))
    yield from (f"docs/guarded.txt lists {name}, which is guarded or gone" for name in sorted(listed - missing))


def main() -> None:
    parser = argparse.ArgumentParser(description=__doc__, formatter_class=argparse.RawDescriptionHelpFormatter)
    either = parser.add_mutually_exclusive_group()
    either.add_argument("--list", action="store_true", help="print those that nothing guards, by crate")
    either.add_argument("--by", action="store_true", help="print what guards each of the others")
    options = parser.parse_args()
    if options.list:
        for crate, names in groupby(Guards().missing(), key=lambda name: name[0]):
            print(f"{crate}: {', '.join('.'.join(name[1:]) for name in names)}")
    elif options.by:
        guards = Guards()
        print("\n".join(f"{'.'.join(name)}: {guards.by[name]}" for name in guards.wanted() if name in guards.by))
    else:
        sys.exit("\n".join(faults()) or 0)


if __name__ == "__main__":
    main()
