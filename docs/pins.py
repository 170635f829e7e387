"""Where each definition of specs/ stands in contracts, and what pins it.

A contract is worth what its definitions say. A definition that stands left of an arrow, a premise, must not shrink
unseen: it is pinned where something concludes it, from premises that are themselves pinned. One that stands as an
answer must not grow unseen: it is read where something is concluded from it. Both are found here from the text of
the contracts and of the definitions; `laws.py` prints the table and makes the check.

An arrow, `¬` and `requires` turn left and right; `↔` has both sides on both. What stands in brackets, as an argument
or as a part of `×` and `⊎`, counts as what it stands in."""
import re
from collections.abc import Iterable, Iterator
from dataclasses import dataclass, field, replace
from functools import cached_property
from pathlib import Path
from typing import Union

import antt
import rust
from antt import TOP

Name = tuple[str, str, str]
NOTHING = ("", "", "")
FACTS = set("≡ ≢ ≤ < ≤ℤ <ℤ ≼ ≺ ≃ ↔ ¬ ⊤ ⊥ IsTrue All Contains IfSome IfNone IfOk IfErr OnOk OnErr IsDistinct T".split())
FACTS |= set("Appends Consumes Keeps IsAtEnd MatchResult MatchOption MatchBool IsSome IsNone Any".split())
# What only a law concludes, below its premises: sq_commands::pins::broken_aside_exactly.
SAID = {("sq_commands", "BrokenOff", "FailedInside")}
CONTAINERS = {"List", "Option", "Result"}
WORD = re.compile(r'"(?:\\.|[^"\\])*"|[(){}]|[^\s(){};,"]+|[;,]')


@dataclass(frozen=True)
class Conclusion:
    """What is concluded from a premise: the relations that it names, and whether a part of it names none."""

    names: frozenset[Name] = frozenset()
    is_plain: bool = True


@dataclass(frozen=True)
class Place:
    """One place where a definition stands: after how many turns from right to left, below which premises, and what is
    concluded from it."""

    name: Name
    turns: int
    below: frozenset[Name]
    conclusion: Conclusion

    @property
    def left(self) -> bool:
        return self.turns % 2 == 1


RIGHT = Place(NOTHING, 0, frozenset(), Conclusion())


@dataclass
class Definition:
    """A definition of specs/: its kind is a relation, a statement, a type or a value."""

    name: Name
    parts: list[list[str]]
    is_type: bool
    takes: bool
    kind: str = "value"
    places: list[Place] = field(default_factory=list)


@dataclass
class Contract:
    """A public call, or a trait's, with its clauses."""

    crate: str
    call: str
    is_law: bool = False
    places: list[Place] = field(default_factory=list)
    whole: list[Name] = field(default_factory=list)


def words(text: str) -> list[str]:
    """The words of a text without its comments; strings are left out."""
    text = re.sub(r"(?m)(^|\s)--.*$", "", text)
    return [word for word in WORD.findall(text) if not word.startswith('"')]


def split(tokens: list[str], at: set[str]) -> list[list[str]]:
    """The parts between the words `at` that stand outside brackets."""
    parts: list[list[str]] = [[]]
    depth = 0
    for token in tokens:
        depth += (token in "({") - (token in ")}")
        if depth == 0 and token in at:
            parts.append([])
        else:
            parts[-1].append(token)
    return parts


def groups(tokens: list[str]) -> Iterator[Union[str, list[str]]]:
    """The words outside brackets, and what stands in each pair of brackets."""
    depth, inner = 0, []
    for token in tokens:
        depth -= token in ")}"
        if depth:
            inner.append(token)
        elif token in ")}":
            yield inner
            inner = []
        elif token not in "({":
            yield token
        depth += token in "({"


def colon(tokens: list[str]) -> int:
    """Where the colon stands that gives variables their type, or -1."""
    depth = 0
    for index, token in enumerate(tokens):
        depth += (token in "({") - (token in ")}")
        if depth == 0 and token == ":":
            return index
    return -1


def bound(tokens: list[str]) -> set[str]:
    """The variables that these words bind: before a colon in brackets, after a lambda and after `let`."""
    names: set[str] = set()
    for index, token in enumerate(tokens):
        if token == "let" and index + 1 < len(tokens):
            names.add(tokens[index + 1])
        if token.startswith("λ"):
            rest = tokens[index:]
            end = next((k for k, word in enumerate(rest) if word.endswith(".")), 0)
            names |= {word.strip("λ.") for word in rest[:end + 1]}
    for group in groups(tokens):
        if isinstance(group, list):
            names |= set(group[:max(colon(group), 0)])
            names |= bound(group)
    return names - {"(", ")", "{", "}", ""}


class Walk:
    """Finds where definitions stand in a term."""

    def __init__(self, known: dict[str, Name], hidden: set[str], kinds: dict[Name, str]) -> None:
        self.known = known
        self.hidden = hidden
        self.kinds = kinds

    def named(self, token: str) -> Name:
        word = token.strip(".")
        return self.known.get(word, NOTHING) if word not in self.hidden else NOTHING

    def relations(self, tokens: Iterable[str]) -> frozenset[Name]:
        """The relations among these words."""
        found = {self.named(token) for token in tokens}
        return frozenset(name for name in found if self.kinds.get(name) == "relation")

    def conclusion(self, tokens: list[str]) -> Conclusion:
        parts = [self.relations(part) for part in split(tokens, {"×", "⊎", "↔"})]
        return Conclusion(frozenset().union(*parts), any(not part for part in parts))

    def term(self, tokens: list[str], at: Place) -> Iterator[Place]:
        if tokens and tokens[0].startswith("λ"):
            end = next((k for k, word in enumerate(tokens) if word.endswith(".")), 0)
            yield from self.term(tokens[end + 1:], at)
            return
        parts = split(tokens, {"→"})
        for part in parts[:-1]:
            yield from self.term(part, replace(at, turns=at.turns + 1, conclusion=self.conclusion(parts[-1])))
            at = replace(at, below=at.below | self.relations(part))
        yield from self.sides(parts[-1], at)

    def sides(self, tokens: list[str], at: Place) -> Iterator[Place]:
        sides = split(tokens, {"↔"})
        if len(sides) == 1:
            for part in split(tokens, {"×", "⊎"}):
                yield from self.part(part, at)
            return
        for side, other in ((sides[0], sides[1]), (sides[1], sides[0])):
            for part in split(side, {"×", "⊎"}):
                yield from self.part(part, replace(at, below=at.below | self.relations(other)))
                yield from self.part(part, replace(at, turns=at.turns + 1, conclusion=self.conclusion(other)))

    def part(self, tokens: list[str], at: Place) -> Iterator[Place]:
        if tokens and tokens[0] == "¬":
            yield from self.part(tokens[1:], replace(at, turns=at.turns + 1, conclusion=Conclusion()))
            return
        for group in groups(tokens):
            if isinstance(group, list):
                yield from self.term(group[colon(group) + 1:], at)
            else:
                name = self.named(group)
                if self.kinds.get(name) in {"relation", "statement", "value"}:
                    yield replace(at, name=name)


def scope_of(names: Iterable[tuple[str, antt.Name]]) -> dict[str, Name]:
    """What a file brings in from specs/, by the name that the file calls it; what comes first counts."""
    found: dict[str, Name] = {}
    for name, (module, own) in names:
        parts = module.split(".")
        if len(parts) == 4 and parts[2] == "specs" and own:
            found.setdefault(name.strip("◌"), (parts[1], parts[3], own))
    return found


def definition_of(item: antt.Item) -> Definition:
    """A definition with its terms: the right sides of its equations, or the types of its fields or constructors."""
    _, crate, _, module = item.name[0].split(".")
    head, *clauses = antt.clauses_of(item.text)
    is_type = item.kind in ("record", "data")
    if is_type:
        start, _, fields = "\n".join([head, *clauses]).partition(" where")
        parts = [words(one) for one in re.split(r"(?m)^  (?:pub )?[\w' ]+ :(?=\s)", fields)[1:]]
    else:
        start, parts = head, [words(clause.split("=", 1)[1]) for clause in clauses]
    start = start.partition(item.name[1])[2]
    signature = split(words(start), {"→"})
    takes = len(signature) > 1 or "(" in signature[0] or "{" in signature[0]
    one = Definition((crate, module, item.name[1]), parts, is_type, takes)
    one.kind = "Type" if signature[-1][-2:-1] == ["Type"] else "value"
    return one


class Book:
    """All definitions and contracts of the repository, and what pins each definition."""

    def __init__(self, top: Path = TOP) -> None:
        self.definitions: dict[Name, Definition] = {}
        self.known: dict[Name, dict[str, Name]] = {}
        self.contracts: list[Contract] = []
        self.reached: dict[tuple[Name, bool], frozenset[Name]] = {}
        for path in sorted(top.glob("crates/*/specs/*.antt")):
            file = antt.File(path, f"Rattle.{path.parent.parent.name}.specs.{path.stem}")
            known = scope_of((name, target) for name, target in file.scope.items() if name not in file.constructors)
            for item in file.items:
                if item.kind not in ("lemma", "ruleset"):
                    one = definition_of(item)
                    self.definitions[one.name] = one
                    self.known[one.name] = known
        self.sort_out()
        kinds = {name: one.kind for name, one in self.definitions.items()}
        for one in self.definitions.values():
            for part in one.parts:
                walk = Walk(self.known[one.name], bound(part), kinds)
                one.places += walk.term(part, RIGHT)
        for item in rust.read(top):
            if not item.crate.endswith("_tests"):
                self.contracts += contract_of(item, kinds)

    def sort_out(self) -> None:
        """Which definitions are relations, statements, types of plain data, and values.

        A record is a relation where a field says something; what abbreviates a type of the library is as its parts, and
        so is what abbreviates one type or another by cases."""
        types = {name: one for name, one in self.definitions.items() if one.kind == "Type"}
        plain_types = {name for name, one in types.items() if one.is_type or one.parts[0][0] in CONTAINERS}
        plain_types |= {name for name, one in types.items()
                        if all(len(part) == 1 and self.is_plain(part[0], self.known[name], plain_types)
                               for part in one.parts)}
        facts = types.keys() - plain_types
        while True:
            more = {name for name, one in types.items() if name not in facts and self.is_fact(one, facts)}
            if not more:
                break
            facts |= more
        for name, one in types.items():
            plain = one.is_type or one.parts[0][0] in CONTAINERS
            one.kind = "type" if name not in facts else "relation" if one.takes or plain else "statement"

    @staticmethod
    def is_plain(word: str, known: dict[str, Name], plain_types: set[Name]) -> bool:
        """Whether the word is a type of plain data, of specs/ or of the code."""
        return known[word] in plain_types if word in known else word[0].isupper() and word not in FACTS

    def is_fact(self, one: Definition, facts: set[Name]) -> bool:
        known = self.known[one.name]
        return any(word in FACTS or known.get(word) in facts for part in one.parts for word in part)

    @cached_property
    def all_places(self) -> list[tuple[str, Name, Place]]:
        """Each place of a definition, with the call or the definition whose text it stands in."""
        return [(f"{contract.crate}::{contract.call}", NOTHING, place)
                for contract in self.contracts for place in contract.places] + [
                    ("", one.name, place) for one in self.definitions.values() for place in one.places]

    @cached_property
    def held(self) -> tuple[dict[Name, str], dict[Name, str]]:
        """What cannot shrink unseen and what cannot grow unseen, each with a call that would be refused.

        Of a definition that stands in another one, the two go together: what shrinks the one shrinks or grows the
        other. What stands below a premise counts once that premise is pinned; what is concluded from a definition
        counts where it says something by itself, or names a relation that is read. Of what stands in both, nothing is
        concluded: it could grow in both alike."""
        pinned: dict[Name, str] = {}
        read: dict[Name, str] = {}
        size = -1
        while size < len(pinned) + len(read):
            size = len(pinned) + len(read)
            for call, inside, place in self.all_places:
                names = place.conclusion.names
                firm = place.conclusion.is_plain or any(name in read for name in names)
                open_to = all(name in pinned for name in place.below)
                concluded = call or pinned.get(inside)
                statement = not call and self.definitions[inside].kind == "statement"
                if concluded and place.turns == 1 and firm:
                    for name in self.within(place.name, True) - self.said_by(names):
                        read.setdefault(name, concluded)
                for found in (concluded if place.turns == 0 and open_to else None,
                              read.get(inside) if place.turns == 1 and not statement else None):
                    if found and place.name in self.definitions:
                        pinned.setdefault(place.name, found)
            for name, parts in self.abbreviations.items():
                if all(part in pinned for part in parts):
                    pinned.setdefault(name, pinned[parts[0]])
        return pinned, read

    def within(self, name: Name, right: bool) -> frozenset[Name]:
        """The definition and those that stand in it, at any depth; with `right` those alone that stand right in it."""
        if (name, right) not in self.reached:
            found, open_ones = {name}, [name]
            while open_ones:
                one = self.definitions.get(open_ones.pop())
                more = {place.name for place in one.places if not (right and place.turns)} if one else set()
                open_ones += more - found
                found |= more
            self.reached[name, right] = frozenset(found & self.definitions.keys())
        return self.reached[name, right]

    def said_by(self, names: Iterable[Name]) -> set[Name]:
        return {inner for name in names for inner in self.within(name, False)}

    @cached_property
    def abbreviations(self) -> dict[Name, list[Name]]:
        """What abbreviates a type of the library, as a list, with the relations that it is made of."""
        found = {name: [place.name for place in self.definitions[name].places if place.name in self.of_kind("relation")]
                 for name in self.of_kind("relation") if self.definitions[name].parts[0][0] in CONTAINERS}
        return {name: parts for name, parts in found.items() if parts}

    @cached_property
    def sides(self) -> tuple[dict[Name, set[str]], dict[Name, set[str]]]:
        """The calls in whose contracts a definition stands left of an arrow, and those in which it stands right."""
        left: dict[Name, set[str]] = {name: set() for name in self.definitions}
        right: dict[Name, set[str]] = {name: set() for name in self.definitions}
        size = -1
        while size < sum(len(calls) for side in (left, right) for calls in side.values()):
            size = sum(len(calls) for side in (left, right) for calls in side.values())
            for call, inside, place in self.all_places:
                if place.name in self.definitions:
                    for side, other in ((left, right), (right, left)):
                        calls = ({call} if side is right else set()) if call else side[inside]
                        (other if place.left else side)[place.name] |= calls
        return left, right

    def of_kind(self, *kinds: str) -> list[Name]:
        return [name for name, one in self.definitions.items() if one.kind in kinds]

    def said(self) -> set[Name]:
        """The relations that are a whole clause of a law, or the whole of a statement: what the law says."""
        laws = [contract.whole for contract in self.contracts if contract.is_law]
        found = {name for whole in laws for name in whole} | SAID
        size = -1
        while size < len(found):
            size = len(found)
            found |= {name for one in list(found) for name in whole_names(self.definitions, self.known, one)}
        return found

    def unpinned(self) -> list[Name]:
        """The premises that could shrink unseen."""
        pinned, read = self.held
        left = self.sides[0]
        return [name for name in self.of_kind("relation") if left[name] and name not in pinned] + [
            name for name in self.of_kind("value") if left[name] and name not in pinned and name not in read]

    def unread(self) -> list[Name]:
        """The answers that could grow unseen; what a law says, its reader reads."""
        read = self.held[1]
        right, said = self.sides[1], self.said()
        return [name for name in self.of_kind("relation") if right[name] and name not in read and name not in said]


def whole_names(definitions: dict[Name, Definition], known: dict[Name, dict[str, Name]], name: Name) -> list[Name]:
    """The relations that stand by themselves in a definition: all of it, or a part of its `×`."""
    if name not in definitions:
        return []
    parts = [piece for part in definitions[name].parts for piece in split(part, {"×"})]
    return [known[name][piece[0]] for piece in parts
            if piece and piece[0] in known[name] and not {"→", "↔"} & set(piece)]


def contract_of(item: rust.Item, kinds: dict[Name, str]) -> Iterator[Contract]:
    """The contract of a public call, of a trait's, or what an `impl` gives for a word of its trait.

    The invariant of a type is concluded by whatever makes a value, and a call that takes one may conclude from it."""
    owner = re.sub(r"^(pub )?(impl(<[^>]*(<[^>]*>)*[^>]*>)?|trait) *", "", item.owner.text) if item.owner else ""
    is_shared = item.owner is not None and (item.owner.kind == "trait" or " for " in item.owner.text)
    known = scope_of(item.scope)
    ghost = re.match(r"ghost (\w+) ?= ?(?=\{)", item.text)
    if ghost is not None and is_shared:
        term = words(item.text[ghost.end() + 1:rust.closing(item.text, ghost.end()) - 1])
        one = Contract(item.crate, f"{owner}: {ghost[1]}")
        for turns in (0, 1) if ghost[1] == "invariant" else (0,):
            one.places += Walk(known, bound(term), kinds).term(term, replace(RIGHT, turns=turns))
        yield one
    elif item.kind == "fn" and (item.text.startswith("pub ") or is_shared):
        one = Contract(item.crate, f"{owner.split('<')[0]}::{item.name}" if owner else item.name, item.is_law)
        add_clauses(one, [(kind, words(term)) for kind, _, term in item.clauses], known, kinds)
        yield one


def add_clauses(one: Contract, clauses: list[tuple[str, list[str]]], known: dict[str, Name],
                kinds: dict[Name, str]) -> None:
    """The places of the clauses: what is required stands left, and above all that is ensured."""
    below: frozenset[Name] = frozenset()
    for kind, term in clauses:
        if kind == "requires":
            walk = Walk(known, bound(term), kinds)
            one.places += walk.term(term, replace(RIGHT, turns=1))
            below |= walk.relations(term)
    for kind, term in clauses:
        if kind == "ensures":
            one.places += Walk(known, bound(term), kinds).term(term, replace(RIGHT, below=below))
            *variables, last = split(term, {"→"})
            if all(tokens[0] == "(" and colon(tokens[1:-1]) > 0 for tokens in variables):
                one.whole += [known[part[0]] for part in split(last, {"×"}) if part and part[0] in known]


HEAD_OF_PAGE = """# What pins each premise

A law says "where the premise holds, the conclusion does". It says nothing if its premise never holds, and a narrower
premise holds less often, while each proof still passes. So each definition of `specs/` left of an arrow, in a public
contract or in a definition that one names, is pinned: something concludes it from premises that are themselves pinned.
The pin is a call that promises it of its result, or a law that says when it holds. If the definition were emptied, this
promise or law would have no proof. docs/THEOREMS.md, "What stands left of an arrow", names the pins that say a premise
whole.

The table is read from the text of contracts and definitions; nothing is proved. An arrow, `¬` and `requires` turn left
and right, and `↔` has both sides on both. A part in brackets, an argument, and a part of `×` or `⊎` count as the term
around them. A premise that is an equation or an order of numbers counts as one that is met.

A definition in the place of an answer could say less, and each proof of a contract that names it would still pass. So
something is concluded from each answer too. `docs/laws.py --check` refuses a premise without a pin, and an answer from
which nothing is concluded."""


def title(name: Name) -> str:
    return f"{name[0]}/{name[1]}.{name[2]}"


def few(calls: Iterable[str], crate: str, most: int = 3) -> str:
    """Some calls by name, and how many more there are; those of other crates with their crate."""
    names = sorted({call.removeprefix(f"{crate}::") for call in calls}, key=lambda call: ("::" in call, call))
    shown = ", ".join(f"`{name}`" for name in names[:most])
    return shown + (f" and {len(names) - most} more" if len(names) > most else "")


def page(book: Book) -> str:
    """The table of premises, crate by crate."""
    pinned = book.held[0]
    left, right = book.sides
    lines = [HEAD_OF_PAGE]
    crate = ""
    for name in sorted(book.of_kind("relation")):
        if not left[name]:
            continue
        if name[0] != crate:
            crate = name[0]
            lines += ["", f"## `{crate}`", "", "| Definition | Left of an arrow in | Right in | Pinned by |"]
            lines.append("|---|---|---|---|")
        pin = few([pinned[name]], crate) if name in pinned else "**nothing**"
        lines.append(f"| `{name[1]}.{name[2]}` | {few(left[name], crate)} | {few(right[name], crate)} | {pin} |")
    return "\n".join(lines)


def faults(book: Book) -> list[str]:
    """Premises that nothing pins, and answers from which nothing is concluded."""
    return [f"nothing pins the premise {title(name)}" for name in sorted(book.unpinned())] + [
        f"nothing is concluded from the answer {title(name)}" for name in sorted(book.unread())]
