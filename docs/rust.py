"""Reads the types, traits, impls and contracts of the sources in crates/ from their text."""
import re
import textwrap
from collections.abc import Iterator
from dataclasses import dataclass, field
from pathlib import Path
from typing import Optional

from antt import Name, bare, uses

HEAD = re.compile(r"(pub(?:\([a-z]+\))? )?(?:const |unsafe |extern \"C\" )*"
                  r"(fn|struct|enum|trait|impl|type|const|static)\b"
                  r"(?:<[^{;]*?> (?=[\w&(]))? ?(.*)")
GHOST = re.compile(r"(pub )?ghost (\w+) ?[:=]")
CLAUSES = re.compile(r"^\s+(requires|ensures) ?(\w*)\s*\{", re.M)
CLAUSE = re.compile(r"\b(?:requires|ensures|where|reads:|decreases)(?:\s+\w+)?\s*\Z")
IMPL = re.compile(r"(?:(?P<trait>[\w:]+)(?:<.*?>)? for )?(?P<type>&?[\w:]+)")


@dataclass
class Item:
    """An item of a source: what it says, without bodies."""

    crate: str
    path: Path
    kind: str
    name: str
    is_public: bool
    doc: list[str]
    marks: list[str]
    text: str
    scope: list[tuple[str, Name]]
    crates: dict[str, str]
    owner: "Optional[Item]" = None
    inner: list["Item"] = field(default_factory=list)

    @property
    def is_law(self) -> bool:
        """Whether it is a law or a guard."""
        is_call = self.kind == "fn" and self.is_public and self.owner is None
        return is_call and self.path.name.endswith(("laws.rt", "pins.rt"))

    @property
    def is_export(self) -> bool:
        return any("no_mangle" in mark for mark in self.marks)

    @property
    def is_of_use(self) -> bool:
        """Whether its crate is neither tests nor measurements."""
        return not self.crate.endswith("_tests") and self.crate != "workloads"

    @property
    def clauses(self) -> Iterator[tuple[str, str, str]]:
        """The clauses of a contract: the kind, the name if it has one, and the term."""
        for found in CLAUSES.finditer(self.text):
            yield found[1], found[2], self.text[found.end():closing(self.text, found.end() - 1) - 1].strip()

    @property
    def full_name(self) -> str:
        """The crate, the module or the type, and the name; of an impl its head."""
        if self.kind == "impl":
            return f"{self.crate}::{self.text}"
        if self.owner is not None:
            return f"{self.crate}::{self.owner.name}::{self.name}"
        module = [part for part in self.path.with_suffix("").parts if part not in ("lib", "main")]
        return "::".join([self.crate, *module, self.name])


def header(text: str) -> str:
    """What stands of a function before its body."""
    at = 0
    while (opening := text.find("{", at)) >= 0:
        if not CLAUSE.search(text[:opening]):
            return text[:opening].rstrip()
        at = closing(text, opening)
    return text.rstrip().rstrip(";")


def closing(text: str, opening: int) -> int:
    """Where the block ends that begins there."""
    depth = 0
    for at in range(opening, len(text)):
        depth += (text[at] == "{") - (text[at] == "}")
        if depth == 0:
            return at + 1
    return len(text)


def blocks(text: str) -> Iterator[tuple[list[str], list[str], str]]:
    """The items of a text, each with its lines of documentation and its attributes."""
    doc: list[str] = []
    marks: list[str] = []
    item: list[str] = []
    for line in text.split("\n"):
        if not item and line.startswith("///"):
            doc.append(line[3:].strip())
        elif not item and (line.startswith("#[") or marks and not marks[-1].endswith("]")):
            marks.append(line.strip())
        elif item or HEAD.match(line) or GHOST.match(line):
            item.append(line)
            is_one = line.endswith((";", ",", "{}")) and "\n".join(item).count("{") == "\n".join(item).count("}")
            if line.startswith(("}", "{}")) or is_one and (line[:1] not in " )" or line.endswith(";")):
                yield doc, marks, "\n".join(item)
                doc, marks, item = [], [], []
        elif line.strip() and not line.startswith("//"):
            doc, marks = [], []


def brought_in(text: str) -> dict[str, str]:
    """The crate of each name that a source brings in, as its lines `use` have it."""
    return {name: crate for crate, names in re.findall(r"(?ms)^(?:pub )?use (\w+)::(.*?);", text)
            for name in re.findall(r"\w+", names)}


def items_of(text: str, crate: str, path: Path, owner: Optional[Item] = None) -> Iterator[Item]:
    """The items of a source, or of a trait or an impl."""
    scope = uses("\n".join(re.findall(r"(?ms)^(?:pub )?ghost use .*?;", text))) + (owner.scope if owner else [])
    crates = owner.crates if owner else brought_in(text)
    for doc, marks, item in blocks(text):
        head, ghost = HEAD.match(item), GHOST.match(item)
        kind = "ghost" if head is None else head[2]
        name = ghost[2] if head is None else re.match(r"\w*", head[3])[0]
        if kind == "impl":
            name = IMPL.match(head[3])["type"].lstrip("&")
        is_public = bool((head or ghost)[1]) or owner is not None and owner.kind == "trait"
        one = Item(crate, path, kind, name, is_public, doc, marks, item, scope, crates, owner)
        if kind == "fn":
            one.text = header(bare(item))
        elif kind in ("trait", "impl"):
            opening = item.index("{\n") if "{\n" in item else item.index("{}")
            one.text = " ".join(bare(item[:opening]).split())
            one.inner = list(items_of(textwrap.dedent(item[opening + 1:item.rindex("}")]), crate, path, one))
        yield one


def read(top: Path) -> list[Item]:
    """The items of all sources, with those in traits and impls."""
    found: list[Item] = []
    for path in sorted(top.glob("crates/*/src/**/*.rt")):
        crate, _, *rest = path.relative_to(top / "crates").parts
        for item in items_of(path.read_text(encoding="utf-8"), crate, Path(*rest)):
            found += [item, *item.inner]
    return found
