#!/usr/bin/env python3
"""Makes docs/STATEMENT.md: all that a reader has to read to know what is proved, in reading order.

docs/statement.py           fails if docs/STATEMENT.md is not what the sources say, and names the first difference.
docs/statement.py --write   writes docs/STATEMENT.md.
docs/statement.py --sizes   prints how many lines each part has, and how many of them are comments.

Spaces, the names of variables, and the place of a definition make no difference."""
import argparse
import hashlib
import re
import sys
import textwrap
from collections.abc import Iterator
from dataclasses import dataclass, field
from functools import cached_property
from pathlib import Path
from typing import Optional

import rust
from antt import TOP, Book, Item, Name, clauses_of, parts_of
from terms import TOKEN, WIDTH, Group, Tree, Walk, equation, laid_out, split, tree, words, written

# What the language of terms has without an import.
NOTATION = {"¬", "⊥", "Unit", "∥", "∥₁", "tt"}
WORDS_OF_CONTRACTS = {"Ok", "Err", "Some", "None", "true", "false"}
# Of an instance of a trait of Rust: what it proves, which the trait states, and how a model is made of fields.
PROOFS = {"laws", "total", "matches_partial_cmp", "matches_eq", "view", "inverse", "inverse_ok", "promises"}
DERIVED = {"PartialEq", "Eq", "PartialOrd", "Ord", "Hash"}


@dataclass
class Entry:
    """What the page shows of a definition, a type or a call, and the keys of what it names, in order."""

    key: str
    comment: str
    lines: list[str]
    names: list[str] = field(default_factory=list)
    variables: set[str] = field(default_factory=set)


class Names:
    """What the words of definitions and contracts mean, and how the page writes them."""

    def __init__(self, top: Path = TOP) -> None:
        self.top = top
        self.book = Book(top)
        self.definitions = {f"{module}.{name}": item for (module, name), item in self.book.items.items()}
        self.sources: dict[str, rust.Item] = {}
        self.types: dict[str, list[rust.Item]] = {}
        self.impls: list[rust.Item] = []
        self.items = rust.read(top)
        for item in self.items:
            self.impls += [item] if item.kind == "impl" and item.is_of_use else []
            self.sources.setdefault(item.full_name, item)
            if item.owner is None and item.kind in ("struct", "enum", "trait", "type") and item.is_of_use:
                self.types.setdefault(item.name, []).append(item)
        # The crate from which a crate has a name that it passes on.
        self.passed_on = {(path.parent.parent.name, name): crate for path in top.glob("crates/*/src/lib.rt")
                          for name, crate in rust.brought_in(path.read_text(encoding="utf-8")).items()
                          if self.is_crate(crate, path.parent)}
        self.shown: dict[str, str] = {}
        self.given: dict[str, set[str]] = {}
        # (the page has operators as files write them, so none may stand for another one)
        scopes = [(where, file.scope.items()) for where, file in self.book.files.items()]
        scopes += [(item.full_name, item.scope) for item in self.items]
        self.unknown = {f"{where}: {target[1]} as {name}": None for where, names in scopes for name, target in names
                        if "◌" in name + target[1] and name != target[1] and not target[0].count(".proofs.")}

    def is_crate(self, name: str, folder: Path) -> bool:
        """Whether a source in this folder means a crate by the name, and no module of its own."""
        return (self.top / "crates" / name).is_dir() and not (folder / f"{name}.rt").exists()

    def targets(self, word: str, scope: dict[str, Name]) -> list[tuple[Name, str]]:
        """What a word names, and its projections: a name, one of a module, or each operator with such a part."""
        front, _, rest = word.partition(".")
        if word in scope:
            return [(scope[word], "")]
        if front in scope and scope[front][1]:
            return [(scope[front], f".{rest}")]
        if front in scope:
            name, _, rest = rest.partition(".")
            return [((scope[front][0], name), f".{rest}" if rest else "")]
        return [(target, "") for name, target in scope.items() if "◌" in name and word in parts_of(name)]

    def owner(self, target: Name, where: str) -> tuple[str, str]:
        """The key of what a name stands for, or none, and the constructor that it is, if it is one."""
        module, name = target
        while (module, name) in self.book.passed_on and name not in self.book.files[module].constructors:
            module, name = self.book.passed_on[module, name]
        if module in self.book.files and name in self.book.files[module].constructors:
            return ".".join(self.book.files[module].constructors[name]), name
        parts = module.split(".")
        if (module, name) in self.book.items:
            return f"{module}.{name}", ""
        if parts[0] != "Rattle" or not (self.top / "crates" / parts[1]).is_dir():
            self.given.setdefault(module, set()).add(name)
            return "", ""
        path = [part for part in parts[4:] if part != "TheVariants"]
        key = "::".join([parts[1], *(part for part in path if part not in ("lib", "main"))])
        if parts[3:4] not in (["declared"], ["contracts"]) or key not in self.sources:
            self.unknown[f"{where}: {module}.{name}"] = None
            return "", ""
        is_part = parts[3] == "contracts" or name == "Ghosts"
        return key, "" if name == path[-1] else f".{name}" if is_part else name

    def plain_name(self, key: str) -> str:
        return self.definitions[key].name[1] if key in self.definitions else self.sources[key].name

    def written(self, key: str, constructor: str, variables: set[str]) -> str:
        """How the page writes a name: with its crate or its type if another one has it."""
        name = self.shown.get(key, self.plain_name(key))
        if constructor:
            is_part = constructor.startswith(".")
            return name + constructor if is_part else self.shown.get(f"{key} {constructor}", constructor)
        return f"{crate_of(key)}.{name}" if name in variables else name

    def type_named(self, name: str, item: rust.Item) -> str:
        """The key of a type or a trait that a source names, or none."""
        found = self.types.get(name, [])
        crate = item.crates.get(name, item.crate)
        crate = crate if self.is_crate(crate, self.top / "crates" / item.crate / "src") else item.crate
        while (crate, name) in self.passed_on:
            crate = self.passed_on[crate, name]
        near = [one for one in found if (one.crate, one.path) == (item.crate, item.path)] or \
            [one for one in found if one.crate == crate]
        if len(near) == 1:
            return near[0].full_name
        if near or found and name in item.crates:
            self.unknown[f"{item.full_name}: {name} of {crate}"] = None
        else:
            self.given.setdefault("Rust", set()).add(name)
        return ""


def crate_of(key: str) -> str:
    return key.split(".")[1] if key.startswith("Rattle.") else key.partition("::")[0]


class Statement(Names):
    """The entries of the page."""

    def __init__(self, top: Path = TOP) -> None:
        super().__init__(top)
        self.entries: dict[str, Entry] = {}
        self.hidden: dict[str, set[str]] = {}

    def entry(self, key: str) -> Entry:
        if key not in self.entries:
            one = Entry(key, "", [])
            if key in self.definitions:
                self.definition(self.definitions[key], one)
            else:
                self.source(self.sources[key], one)
            self.entries[key] = one
        return self.entries[key]

    def walk(self, entry: Entry, scope: dict[str, Name], item: Optional[rust.Item] = None,
             variables: frozenset[str] = frozenset()) -> Walk:
        """What goes through the terms of an entry, and keeps what they name."""
        hidden = self.hidden.get(entry.key, set())

        def named(word: str) -> str:
            if word.startswith("⟦") and item is not None:
                return self.with_types(word.replace("␣", " "), item, entry)
            found = self.targets(word, scope)
            front, _, rest = word.partition(".")
            if not found and item is not None and front in self.types:
                self.add(entry, key := self.type_named(front, item))
                return self.shown.get(key, front) + word[len(front):]
            if not found and word not in NOTATION and (item is None or word not in WORDS_OF_CONTRACTS):
                self.unknown[f"{entry.key}: {word}"] = None
            for target, rest in found:
                key, constructor = self.owner(target, entry.key)
                self.add(entry, key)
                if len(found) == 1 and target[1] and "◌" not in target[1]:
                    own = f"{target[0].rpartition('.')[2]}.{target[1]}" if target[1] in hidden else target[1]
                    return (self.written(key, constructor, hidden) if key else own) + rest
            return word

        return Walk(named, variables)

    def add(self, entry: Entry, key: str) -> None:
        if key and key != entry.key and key not in entry.names:
            entry.names.append(key)

    # ---- definitions

    def definition(self, item: Item, entry: Entry) -> None:
        file = self.book.files[item.name[0]]
        entry.comment = item.comment
        walk = self.walk(entry, file.scope)
        below = [walk.text(found) for found in re.findall(r"(?s)module _ (.*?)\s*where", file.parameters_of(item))]
        walk.variables = frozenset(walk.all_variables)
        entry.lines = [f"-- for {found}" for found in below]
        head, *clauses = clauses_of(item.text)
        if item.kind in ("record", "data"):
            self.fields(item, "\n".join([head, *clauses]), entry, walk)
        elif item.kind == "ruleset":
            entry.lines += laid_out(walk.text(head))
        else:
            self.equations(item, head, clauses, entry, walk)
        entry.variables = walk.all_variables

    def fields(self, item: Item, text: str, entry: Entry, walk: Walk) -> None:
        """A record or a type by cases: its head, and a line for each field or constructor."""
        head, _, rest = re.sub(r"\bpub ", "", text).partition(" where")
        inner = tree(head)
        own = walk.term(inner[2:], walk.variables)
        kind, name, *parts = inner
        line = written([kind, self.shown.get(entry.key, name), *parts, "where"]).replace(": Type 0 ", "")
        fields: list[str] = []
        for one in re.split(r"\n(?=  [^\s)}\]])", rest)[1:]:
            field_tree = tree(one.strip())
            at = field_tree.index(":") + 1
            term = field_tree[at:]
            walk.term(term, own)
            own |= frozenset(words(field_tree[:at - 1])) if item.kind == "record" else frozenset()
            fields.append(written([*field_tree[:at], *term]))
        at_once = f"{line} {'; '.join(fields)}"
        entry.lines += [at_once] if len(at_once) <= WIDTH else laid_out(line) + [
            part for one in fields for part in laid_out(one, "  ")]

    def equations(self, item: Item, head: str, clauses: list[str], entry: Entry, walk: Walk) -> None:
        """A definition by equations: on one line with its type if it has one equation for all arguments."""
        name = self.shown.get(entry.key, item.name[1])
        signature = tree(re.sub(r"^(?:abbrev |unfoldable )?(?:pub )?", "", head))[2:]
        walk.term(signature, walk.variables)
        if item.kind == "lemma":
            entry.lines += laid_out(written([name, ":", *signature]))
            return
        own = set(parts_of(item.name[1]))
        sides: list[tuple[Tree, Tree]] = []
        for clause in clauses:
            inner = tree(clause)
            at = inner.index("=")
            left = inner[:at]
            bound = walk.pattern(left, lambda word: word not in own and self.is_variable(word, item), own)
            right = inner[at + 1:]
            walk.term(right, walk.variables | bound)
            sides.append(([name if one == item.name[1] else one for one in left], right))
        at_once = one_line(signature, sides[0][0][1:]) if len(sides) == 1 and "◌" not in name else None
        if at_once is not None:
            entry.lines += equation([name, *at_once], sides[0][1])
            return
        entry.lines += laid_out(written([name, ":", *signature]))
        for left, right in sides:
            entry.lines += equation(left, right)

    def is_variable(self, word: str, item: Item) -> bool:
        """Whether a word of the left side of an equation is a variable: all words are, except for constructors."""
        file = self.book.files[item.name[0]]
        if not re.match(r"[^\W\d][^.]*$", word) or word in file.constructors:
            return False
        module, name = file.scope.get(word, ("", ""))
        return not module or module in self.book.files and (module, name) not in self.book.passed_on


    # ---- sources

    def source(self, item: rust.Item, entry: Entry) -> None:
        entry.comment = " ".join(" ".join(item.doc).split())
        if item.kind == "fn":
            self.function(item, entry, "")
        elif item.kind in ("trait", "impl"):
            entry.lines += laid_out(self.with_types(re.sub(r"^pub ", "", item.text), item, entry))
            for one in item.inner:
                self.part(one, entry)
        else:
            self.type_of(item, entry)
        parts = "; ".join(line.strip() for line in entry.lines[1:])
        at_once = f"{entry.lines[0]}{' where' if item.kind in ('trait', 'impl') else ''} {parts}"
        if parts and len(at_once) <= WIDTH and not any(line.startswith("   ") for line in entry.lines):
            entry.lines = [at_once]
        instances = [one for one in self.impls if one.crate == item.crate and one.name == item.name
                     and trait_of(one) == "Model" or item.kind == "trait" and trait_of(one) == item.name]
        for one in instances if item.kind in ("struct", "enum", "trait") else []:
            self.add(entry, one.full_name)

    def part(self, item: rust.Item, entry: Entry) -> None:
        """A part of a trait or an impl: a ghost value, a type, a contract."""
        if item.kind == "fn":
            if re.search(r"\b(requires|ensures)\b", item.text):
                self.function(item, entry, "  ")
            return
        text = re.sub(r"^(pub )?", "", " ".join(rust.bare(item.text).split())).rstrip(";")
        if item.kind != "ghost":
            entry.lines += laid_out(self.with_types(text, item, entry), "  ")
        elif item.name not in PROOFS:
            front, sign, term = re.match(r"(ghost \w+ ?)([:=]) \{(.*)\}$", text).groups()
            entry.lines += laid_out(f"{front.strip()} {sign} {self.clause(term.strip(), item, entry, set())}", "  ")

    def type_of(self, item: rust.Item, entry: Entry) -> None:
        """A struct or an enum: its fields, with what holds of them, and the traits that it derives."""
        text = re.sub(r"(?s)#\[.*?\]\n|\bpub(\([a-z]+\))? ", "", rust.bare(item.text))
        ghosts = re.findall(r"(?s)\bghost (\w+): \{(.*?)\}(?: by \{.*?\})?,?\n", text)
        plain = " ".join(re.sub(r"(?s)\bghost \w+: \{.*?\}(?: by \{.*?\})?,?\n", "", text).split())
        if any(trait_of(one) == "Model" for one in self.impls if (one.crate, one.name) == (item.crate, item.name)):
            plain, ghosts = re.sub(r" ?[{(].*", "", plain), []
        derived = [one for one in re.findall(r"\w+", " ".join(item.marks)) if one in DERIVED]
        head, _, rest = plain.partition("{" if item.kind == "enum" else "\0")
        rest = re.sub(r"\(.*?\)|\{.*?\}", lambda found: self.with_types(found[0], item, entry), rest)
        line = self.with_types(head, item, entry) + (f"{{{rest}" if rest else "")
        line = line.rstrip(";").replace("{ ", "{").replace(", }", "}").replace(" }", "}")
        entry.lines += laid_out(line + (f" derives {', '.join(derived)}" if derived else ""))
        fields = set(re.findall(r"(\w+):", text))
        for name, term in ghosts:
            entry.lines += laid_out(f"ghost {name}: {self.clause(term.strip(), item, entry, fields)}", "  ")

    def with_types(self, text: str, item: rust.Item, entry: Entry) -> str:
        """A text of Rust; the types and traits that it names are kept."""
        own = generics(text) | generics(item.owner.text if item.owner else "") | {"Self"}

        def named(found: re.Match[str]) -> str:
            key = "" if found[0] in own else self.type_named(found[0], item)
            self.add(entry, key)
            return self.shown.get(key, found[0])

        return re.sub(r"\b[A-Z]\w*\b", named, text)

    def clause(self, term: str, item: rust.Item, entry: Entry, variables: set[str]) -> str:
        owner = item.owner
        parts = {one.name for one in owner.inner if one.kind != "fn"} | generics(owner.text) if owner else set()
        walk = self.walk(entry, dict(reversed(item.scope)), item, frozenset(variables | parts | {"Self"}))
        line = walk.text(re.sub("⟦.*?⟧", lambda found: found[0].replace(" ", "␣"), term))
        entry.variables |= walk.all_variables - parts - {"self", "result", "Self"}
        return line

    def function(self, item: rust.Item, entry: Entry, front: str) -> None:
        """A signature, and a line for each clause."""
        signature = re.split(r"\n\s*(?:requires|ensures)\b", item.text)[0]
        plain = re.sub(r'^(pub(\([a-z]+\))? )?(unsafe )?(extern "C" )?', "", " ".join(signature.split()))
        plain = self.with_types(plain.replace("( ", "(").replace(", )", ")"), item, entry)
        name = item.name if front else f"{item.crate}::" + (f"{item.owner.name}::" if item.owner else "") + item.name
        entry.lines += laid_out(plain.replace(f"fn {item.name}", f"fn {name}", 1), front)
        variables = set(re.findall(r"(\w+):", plain)) | {"result", "self"} | generics(plain)
        for kind, name, term in item.clauses:
            clause = self.clause(term, item, entry, variables)
            entry.lines += laid_out(f"{f'{kind} {name}'.strip()}: {clause}", front + "  ")


def generics(text: str) -> set[str]:
    """The parameters of types of a head, and the names of a trait's own types."""
    found = re.match(r"[^(]*?(?:fn \w+|impl|trait \w+|struct \w+|enum \w+)<(.*)", text)
    return set(re.findall(r"\b[A-Z]\b", text)) | (set(re.findall(r"const (\w+):", found[1])) if found else set())


def trait_of(item: rust.Item) -> str:
    """The trait that an impl is of, if it is."""
    found = re.match(r"(?:unsafe )?impl(?:<.*?>)? (\w+)(?:<.*>)? for ", item.text)
    return found[1] if found else ""


def one_line(signature: Tree, left: Tree) -> Optional[Tree]:
    """The arguments of an equation with the types of a signature, if each is a variable with the signature's name."""
    *types, result = split(signature, "→")
    found: Tree = []
    left = list(left)
    for one in types:
        group = one[0] if len(one) == 1 and isinstance(one[0], Group) and ":" in one[0].inner else None
        names = group.inner[:group.inner.index(":")] if group else left[:1]
        if group and group.opening == "{":
            found.append(group)
            continue
        if not names or left[:len(names)] != names or any(isinstance(name, Group) or name == "_" for name in names):
            return None
        left = left[len(names):]
        found.append(group or Group("(", [*names, ":", *one]))
    if left:
        return None
    return found if written(result) == "Type 0" else [*found, ":", *result]


HEAD_OF_PAGE = """# What is proved, in full

[THEOREMS.md](THEOREMS.md) says in plain words what is proved. This page says it in full: each contract, and below its
first use each definition that it reaches. Lines with `--` are comments, and with `---` those of a whole file, if they
name a standard. `docs/statement.py --write` makes the page of the sources. The gate fails if the two differ, except in
spaces, names of variables, and the files where definitions stand.

- A call (`fn`) promises what `ensures` says, if its caller meets what `requires` says. `old`, `new` and `now` are
  values before, after and during a call. A law is a call that does nothing.
- `(x : A) → B` says B for each x, and `(x : A) × B` for some x. `×` is and, `⊎` or, `↔` exactly if, `¬` not. A
  `record` says all of its lines.
- `ghost` below a type says what holds of each value. A type with a `Model` is shown by its model alone, since no
  contract names its fields. Tests are left out, and so is what a proof alone names.
- A name that two things have is written with its crate, and a constructor with its type."""

# The parts of the page: what each begins with, and a sentence.
ROOTS = {
    "The headline": (["sq_message::laws::headline"], "Frames and the positions that they were sent from."),
    "Worlds": (["sq_track::listening::hear_each", "sq_track::laws::*"], "The results of a tracker."),
    "One run": (["sq_tool::program::run", "sq_tool::program::run_live", "sq_tool::laws::*"],
                "What the program `squitter` writes, for what it reads."),
    "Feeds": (["sq_feed::laws::*"], "Receivers' streams and tables: what is sent is found, and timestamps stay near."),
    "Calls of C": (["clib/squitter.h"], "The calls in the order of clib/squitter.h."),
    "Calls of Rust": (["docs/LIBRARY.md"], "The calls in the order of docs/LIBRARY.md, and instances of operators."),
}
LAWS = """Each file of laws and of guards, with a checksum of what these say, down to all definitions. So none can be
deleted or changed unseen. A guard keeps a definition from shrinking."""
GIVEN = "What the page names and does not define: the toolchain's library, its other crates, and types of Rust."
STANDARD = re.compile("RTCA|ICAO")
# How many lines would be few enough.
GOALS = {"The headline": 150, "Total": 1200}
OPERATORS = {"PartialEq", "PartialOrd", "Ord", "From"}


class Page:
    """The page: its parts, each with entries, once and below their first use."""

    def __init__(self, top: Path = TOP, roots: dict[str, tuple[list[str], str]] = ROOTS) -> None:
        self.top, self.roots_of = top, roots
        self.told: set[str] = set()
        self.statement = Statement(top)
        self.parts = self.made()
        self.statement.shown = self.names()
        self.statement.hidden = {key: one.variables for key, one in self.statement.entries.items()}
        self.statement.entries = {}
        self.parts = self.made()

    def made(self) -> dict[str, list[Entry]]:
        seen: set[str] = set()
        return {title: list(self.reached(self.roots(roots), seen)) for title, (roots, _) in self.roots_of.items()}

    def reached(self, keys: list[str], seen: set[str]) -> Iterator[Entry]:
        left = keys[::-1]
        while left:
            key = left.pop()
            if key not in seen:
                seen.add(key)
                entry = self.statement.entry(key)
                yield entry
                left += entry.names[::-1]

    def roots(self, names: list[str]) -> list[str]:
        """The keys of what the page names: calls, all laws of a crate, and the calls of a header or of a page."""
        found: list[str] = []
        for name in names:
            if name.endswith("*"):
                found += [key for key, one in self.statement.sources.items() if one.kind == "fn" and one.is_public
                          and one.owner is None and key.startswith(name[:-1])]
            elif name == "clib/squitter.h":
                found += self.exports((self.top / name).read_text(encoding="utf-8"))
            elif name == "docs/LIBRARY.md":
                found += self.calls((self.top / name).read_text(encoding="utf-8"))
                found += [one.full_name for one in self.statement.impls if trait_of(one) in OPERATORS]
            else:
                found.append(name)
        return found

    def exports(self, header: str) -> list[str]:
        """The exports of squitter_c that the header declares; one that it has not is unknown, and so is the reverse."""
        own = {one.name: key for key, one in self.statement.sources.items() if one.crate == "squitter_c"
               and one.is_export}
        named = list(dict.fromkeys(re.findall(r"^\w+ (squitter_\w+)\(", header, re.M)))
        self.statement.unknown.update({f"clib/squitter.h: {name}": None for name in set(own) ^ set(named)})
        return [own[name] for name in named if name in own]

    def calls(self, page: str) -> list[str]:
        """The calls, types and traits of the table in LIBRARY.md: of the crates in the row, or passed on by these."""
        found = []
        for cells, row in re.findall(r"^\| [^|]* \| ([^|]*) \| ([^|]*) \|$", page, re.M):
            crates = re.findall(r"`(\w+)`", row)
            for name in re.findall(r"`(\w+(?:::\w+)?)`", cells):
                of = {*crates, *(self.statement.passed_on.get((crate, name.partition(":")[0]), "") for crate in crates)}
                keys = [key for key, one in self.statement.sources.items() if one.is_public and one.crate in of
                        and key.endswith(f"::{name}") and one.kind in ("fn", "struct", "enum", "trait")]
                keys = keys or [key for key, one in self.statement.sources.items() if key.endswith(f"::{name}")
                                and one.is_of_use]
                if len(keys) != 1:
                    self.statement.unknown[f"docs/LIBRARY.md: {name} is one of {keys}"] = None
                found += keys
        return found

    def names(self) -> dict[str, str]:
        """How names are written that two things have: with the crate, or the file too; constructors with the type."""
        state = self.statement
        having: dict[str, list[str]] = {name: [""] for names in state.given.values() for name in names}
        kinds = ("struct", "enum", "trait", "type")
        for key in state.entries:
            if key in state.definitions or state.sources[key].kind in kinds:
                having.setdefault(state.plain_name(key), []).append(key)
        shown = {}
        for name, keys in having.items():
            for key in filter(None, keys if len(keys) > 1 else []):
                is_alone = [crate_of(one) for one in keys if one].count(crate_of(key)) == 1
                module = "" if is_alone else f"{re.split(r'[.]|::', key)[-2]}."
                shown[key] = f"{crate_of(key)}.{module}{name}"
        makers = [(name, key) for key in state.entries for name in self.constructors(key)]
        for name, key in makers:
            if name in having or [one for one, _ in makers].count(name) > 1:
                shown[f"{key} {name}"] = f"{shown.get(key, state.plain_name(key))}.{name}"
        return shown

    def laws(self) -> Iterator[str]:
        """The laws and guards of each file, and a checksum of what they say, with all definitions that they reach."""
        state = self.statement
        files: dict[str, list[str]] = {}
        for key, one in state.sources.items():
            if one.is_law:
                files.setdefault(key.rpartition("::")[0], []).append(key)
        for file, keys in sorted(files.items()):
            text = "\n".join(canonical(one) for one in self.reached(keys, set()))
            checksum = hashlib.sha256(text.encode()).hexdigest()[:8]
            names = ", ".join(f"`{key.rpartition('::')[2]}`" for key in keys)
            yield f"- `{file}` ({checksum}): {names}"

    @cached_property
    def chunks(self) -> list[tuple[str, str, set[str]]]:
        """The page in pieces: what each is of, its text, and the variables in it."""
        return list(self.pieces())

    def standard_of(self, key: str) -> str:
        """The comment of a definition's file, above the first definition, if it names a section of a standard."""
        module = key.rpartition(".")[0] if key in self.statement.definitions else ""
        if module not in self.statement.book.files or module in self.told:
            return ""
        self.told.add(module)
        comment = self.statement.book.files[module].comment_at_top
        return commented(comment, "--- ") if STANDARD.search(comment) else ""

    def pieces(self) -> Iterator[tuple[str, str, set[str]]]:
        yield "the head", f"{HEAD_OF_PAGE}\n", set()
        for title, entries in self.parts.items():
            yield title, f"\n## {title}\n\n{self.roots_of[title][1]}\n\n```text\n", set()
            for one in entries:
                yield from self.pieces_of(one)
            yield title, "```\n", set()
        laws = "\n".join(self.laws())
        yield "the laws", f"\n## All laws and guards\n\n{LAWS}\n\n{laws}\n", set()
        given = [f"- `{module}`: {', '.join(f'`{name}`' for name in sorted(names))}\n"
                 for module, names in sorted(self.statement.given.items())]
        yield "what is given", f"\n## Names of the toolchain\n\n{GIVEN}\n\n{''.join(given)}", set()

    def pieces_of(self, entry: Entry) -> Iterator[tuple[str, str, set[str]]]:
        """An entry with its comment above it, or behind it if both have room on one line."""
        yield entry.key, self.standard_of(entry.key), set()
        code = "\n".join(entry.lines)
        if entry.comment and len(entry.lines) == 1 and len(f"{code}  -- {entry.comment}") <= WIDTH:
            yield entry.key, code, entry.variables
            yield entry.key, f"  -- {entry.comment}\n", set()
        else:
            yield entry.key, commented(entry.comment, "-- "), set()
            yield entry.key, f"{code}\n", entry.variables

    @property
    def text(self) -> str:
        return "".join(text for _, text, _ in self.chunks)

    def differences(self, page: str) -> Iterator[str]:
        """What the page has otherwise than the sources: the first difference."""
        standards, others = (set(re.findall("^--- .*", text, re.M)) for text in (self.text, page))
        yield from sorted(f"only one of the page and the sources has: {line}" for line in standards ^ others)
        left = TOKEN.findall(re.sub("(?m)^--- .*", "", page))
        for name, text, variables in self.chunks:
            tokens = TOKEN.findall(re.sub("(?m)^--- .*", "", text))
            there, left = left[:len(tokens)], left[len(tokens):]
            if not are_same(tokens, there, variables):
                yield f"{name}: the sources say\n{text}and the page:\n{' '.join(there)}"
                return
        if left:
            yield f"the page goes on: {' '.join(left[:40])}"

    def constructors(self, key: str) -> list[str]:
        state = self.statement
        if key in state.definitions:
            file = state.book.files[state.definitions[key].name[0]]
            return [name for name, owner in file.constructors.items() if owner == state.definitions[key].name]
        one = state.sources.get(key)
        return re.findall(r"(?m)^    (\w+)[(,{ ]", rust.bare(one.text)) if one and one.kind == "enum" else []


def commented(text: str, front: str) -> str:
    lines = textwrap.wrap(text, WIDTH, initial_indent=front, subsequent_indent=front)
    return "".join(f"{line}\n" for line in lines)


def canonical(entry: Entry) -> str:
    """An entry in a form that does not depend on the names of variables: each is numbered by its first place."""
    numbers: dict[str, str] = {}
    found = []
    for token in TOKEN.findall("\n".join(entry.lines)):
        front, sign, rest = token.partition(".")
        is_variable = front in entry.variables
        found.append(numbers.setdefault(front, f"?{len(numbers)}") + sign + rest if is_variable else token)
    return " ".join(found)


def are_same(tokens: list[str], others: list[str], variables: set[str]) -> bool:
    """Whether two texts are equal but for the names of variables: each name of one stands for one of the other. A
    variable of an entry has the name of nothing else in it, so the two then say the same."""
    there: dict[str, str] = {}
    back: dict[str, str] = {}
    for token, other in zip(tokens, others):
        (front, _, rest), (other_front, _, other_rest) = token.partition("."), other.partition(".")
        if front not in variables:
            front, other_front, rest, other_rest = token, other, "", ""
        is_one = there.setdefault(front, other_front) == other_front and back.setdefault(other_front, front) == front
        if not is_one or rest != other_rest or front not in variables and front != other_front:
            return False
    return len(tokens) == len(others)


def sizes(page: Page) -> str:
    """How many lines each part has, and how many of these are comments alone."""
    rows = []
    for title, entries in page.parts.items():
        text = page.text.partition(f"\n## {title}\n")[2].partition("```text\n")[2].partition("```\n")[0]
        rows.append((title, len(entries), text.count("\n"), len(re.findall("^--", text, re.M))))
    rows.append(("Total", *(sum(row[at] for row in rows) for at in (1, 2, 3))))
    return "\n".join(f"{title:16}{entries:6} entries{lines:6} lines, of these comments alone{comments:6}"
                     + (f"; the goal is {GOALS[title]}" if title in GOALS else "")
                     for title, entries, lines, comments in rows)


def main() -> None:
    parser = argparse.ArgumentParser(description=__doc__, formatter_class=argparse.RawDescriptionHelpFormatter)
    either = parser.add_mutually_exclusive_group()
    either.add_argument("--write", action="store_true", help="write docs/STATEMENT.md")
    either.add_argument("--sizes", action="store_true", help="print how many lines each part has")
    words = parser.parse_args()
    page, path = Page(), TOP / "docs/STATEMENT.md"
    text = page.text
    if page.statement.unknown:
        sys.exit("unknown names:\n" + "\n".join(page.statement.unknown))
    if words.sizes:
        print(sizes(page))
    elif words.write:
        path.write_text(text, encoding="utf-8")
    else:
        sys.exit("\n".join(page.differences(path.read_text(encoding="utf-8") if path.exists() else "")) or 0)


if __name__ == "__main__":
    main()
