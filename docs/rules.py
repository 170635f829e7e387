#!/usr/bin/env python3
"""Prints what is wrong with laws, exports and premises, as far as their text shows it; the status is 1 if anything is.

- A law, a guard or an export of squitter_c asks nothing of its caller: it has no `requires`.
- A premise, or a part of one, names a variable, and is not false: a law behind `1 ≤ 0` or `⊥` says nothing. So do the
  parts of a relation that has variables: one that names none holds of all or of none.
- A bound is met: of the traits that a law asks of a type, one type has all that are traits of these crates."""
import argparse
import re
import sys
from collections.abc import Iterator
from pathlib import Path

import pins
import rust
from antt import TOP, Item, Name, clauses_of
from statement import Statement, trait_of
from terms import Group, Tree, split, tree, words, written

LOWER = "abcdefghijklmnopqrstuvwxyz0123456789"
FALSE = re.compile(r"(\S+) (?:<|≢|≺) \1")


def owed(items: list[rust.Item]) -> Iterator[str]:
    """Laws and exports with a `requires`."""
    for one in items:
        if (one.is_law or one.is_export) and any(kind == "requires" for kind, *_ in one.clauses):
            yield f"{one.full_name} asks something of its caller"


def unmet(items: list[rust.Item]) -> Iterator[str]:
    """Laws with a bound that no type meets."""
    traits = {one.name for one in items if one.kind == "trait"}
    met: dict[str, set[str]] = {}
    for one in items:
        if one.kind == "impl" and one.is_of_use:
            met.setdefault(f"{one.crate}::{one.name}", set()).add(trait_of(one))
    for one in items:
        generics = re.match(r".*?fn \w+<(.*?)>\(", " ".join(one.text.split())) if one.is_law else None
        for bound in generics[1].split(",") if generics else ():
            asked = set(re.findall(r"\w+", bound.partition(":")[2])) & traits
            if not any(asked <= found for found in met.values()):
                yield f"{one.full_name}: no type meets {bound.strip()}"


class Premises:
    """Finds premises and parts of relations that name no variable."""

    def __init__(self, state: Statement) -> None:
        self.state = state
        book = pins.Book(state.top)
        # (one without arguments that is no statement is a type: of values with laws, or a list of such)
        told = {(f"Rattle.{crate}.specs.{module}", name): one
                for (crate, module, name), one in book.definitions.items()}
        self.facts = {name for name, one in told.items() if self.says(book, one)
                      and (one.kind == "statement" or one.kind == "relation" and one.takes)}
        self.relations = {name for name in self.facts if told[name].kind == "relation"}

    @staticmethod
    def says(book: pins.Book, one: pins.Definition) -> bool:
        """Whether a relation, or what stands in it, compares values."""
        inner = [book.definitions[name] for name in book.within(one.name, False)]
        return any(word in pins.FACTS for part in (part for other in inner for part in other.parts) for word in part)

    def is_fact(self, inner: Tree, scope: dict[str, Name]) -> bool:
        """Whether a term says something: it has a relation."""
        for word in words(inner):
            targets = [self.state.book.meant(target) for target, _ in self.state.targets(word, scope)]
            if word in pins.FACTS or any(target in self.facts for target in targets):
                return True
        return False

    def wrong(self, inner: Tree, scope: dict[str, Name], variables: set[str]) -> bool:
        """Whether a part names no variable, or is false for all of them."""
        names = {word.strip("λ.").partition(".")[0] for word in words(inner)}
        is_false = FALSE.fullmatch(written(inner).strip("()")) is not None
        return (not names & variables or is_false) and self.is_fact(inner, scope)

    def premises(self, inner: Tree) -> Iterator[Tree]:
        """What stands left of an arrow, part by part, also as the type of a variable."""
        *left, right = split(inner, "→")
        for part in left:
            if all(isinstance(one, Group) and ":" in one.inner for one in part):
                # (a type of types alone, as `List Side`, is no premise)
                types = [one.inner[one.inner.index(":") + 1:] for one in part]
                yield from (one for one in types if any(word in pins.FACTS or word[0] in LOWER
                            for word in words(one)))
            else:
                yield from split(part, "×")
        for one in (one for part in (*left, right) for one in part if isinstance(one, Group)):
            yield from self.premises(one.inner[one.inner.index(":") + 1:] if ":" in one.inner else one.inner)

    def in_term(self, where: str, term: Tree, scope: dict[str, Name], variables: set[str]) -> Iterator[str]:
        for part in self.premises(term):
            if self.wrong(part, scope, variables):
                yield f"{where}: the premise {written(part)}"

    def in_definition(self, name: Name, item: Item) -> Iterator[str]:
        """The premises in a definition, and the parts of a relation."""
        scope, where = self.state.book.files[name[0]].scope, ".".join(name)
        variables = self.state.entry(where).variables | fields_of(item)
        for term in terms_of(item):
            yield from self.in_term(where, term, scope, variables)
            parts = split(term, "×")
            for part in parts if name in self.relations and (len(parts) > 1 or item.kind == "record") else ():
                if "→" not in part and self.wrong(part, scope, variables):
                    yield f"{where}: the part {written(part)}"

    def in_contract(self, item: rust.Item) -> Iterator[str]:
        """The premises in the clauses of a call: of what it promises, and what it asks."""
        scope = dict(reversed(item.scope))
        variables = self.state.entry(item.full_name).variables | {"self", "result"}
        for kind, _, text in item.clauses:
            term = tree(text)
            yield from self.in_term(item.full_name, term, scope, variables)
            if kind == "requires":
                yield from (f"{item.full_name}: requires {written(part)}" for part in split(term, "×")
                            if self.wrong(part, scope, variables))

    def faults(self, items: list[rust.Item]) -> Iterator[str]:
        for name, item in self.state.book.items.items():
            if ".specs." in name[0] and item.kind not in ("lemma", "ruleset"):
                yield from self.in_definition(name, item)
        for one in items:
            if one.kind == "fn" and one.is_of_use and self.state.sources.get(one.full_name) is one:
                yield from self.in_contract(one)


def fields_of(item: Item) -> set[str]:
    return set(re.findall(r"(?m)^  (?:pub )?(\S+) :", item.text)) if item.kind in ("record", "data") else set()


def terms_of(item: Item) -> Iterator[Tree]:
    """The right sides of a definition, or the types of its fields."""
    if item.kind in ("record", "data"):
        yield from (tree(one.partition(" :")[2]) for one in re.split(r"\n(?=  [^\s)}\]])", item.text)[1:])
    else:
        yield from (tree(clause.partition("=")[2]) for clause in clauses_of(item.text)[1:])


def faults(top: Path = TOP) -> list[str]:
    state = Statement(top)
    items = list(state.items)
    return [*owed(items), *unmet(items), *Premises(state).faults(items)]


if __name__ == "__main__":
    argparse.ArgumentParser(description=__doc__, formatter_class=argparse.RawDescriptionHelpFormatter).parse_args()
    sys.exit("\n".join(faults()) or 0)
