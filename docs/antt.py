"""Reads the definitions and lemmas of crates/ from their text: which items stand where, and what a text names."""
import re
from collections.abc import Iterable, Iterator
from dataclasses import dataclass
from functools import cached_property
from pathlib import Path

TOP = Path(__file__).resolve().parent.parent
Name = tuple[str, str]  # a module, as Rattle.sq_bits.specs.Frames, and a name in it; none for the module itself
HEAD = re.compile(r"^( *)(?:(abbrev|unfoldable) )?(pub )?(record |data |ruleset )?(?!use |mod |module |let |-)"
                  r"([^\s:(){}]+)(?= :\s|(?<=[^=]) [({=])", re.M)
USE = re.compile(r"^ *(pub )?(?:ghost )?use ([\w.+«»-]+?)(?:\.\{([^}]*)\}| as (\w+));?$", re.M)
CONSTRUCTOR = re.compile(r"^ +(\S+) : ", re.M)
WORD = re.compile(r'"(?:\\.|[^"\\])*"|[^\s(){}\[\],;"|`]+')
QUALIFIED = re.compile(r"\b([\w-]+)\.([^\s(){}\[\],;.]+)")
COMMENT = re.compile(r'("(?:\\.|[^"\\\n])*")|(?:^|(?<=\s))(?:--|//).*$', re.M)


@dataclass(frozen=True)
class Item:
    """A definition or a lemma: where it stands, and its text without comments."""

    name: Name
    line: int
    text: str
    is_public: bool
    kind: str
    comment: str = ""


def bare(text: str) -> str:
    """The text without comments, each line in its place."""
    return COMMENT.sub(lambda found: found[1] or "", text)


def parts_of(name: str) -> list[str]:
    """The words by which a text names it: those between the places of an operator's arguments."""
    return [part for part in name.split("◌") if part] or [name]


def uses(text: str, is_public: bool = False) -> list[tuple[str, Name]]:
    """What the lines `use` of a text bring in, or those `pub use` alone, each with the name that the text calls it."""
    found: list[tuple[str, Name]] = []
    for public, module, names, alias in USE.findall(text):
        if public or not is_public:
            found += [(alias, (module, ""))] if alias else []
            for one in filter(None, (word.strip() for word in names.split(","))):
                name, _, own = one.partition(" as ")
                found.append((own or name, (module, name)))
    return found


def clauses_of(text: str) -> list[str]:
    """The head of a definition and its equations: a line with a deeper indentation goes on, and so does a bracket."""
    lines = text.rstrip().split("\n")
    indent = len(lines[0]) - len(lines[0].lstrip())
    found: list[str] = []
    for line in (line[indent:] for line in lines):
        if re.match(r"infix|unfolding ", line):
            continue
        if found and (not line[:1].strip() or line[0] in ")}]"):
            found[-1] += f"\n{line}"
        else:
            found.append(line)
    return found


def indents_below(plain: str) -> dict[int, str]:
    """The lines that stand below `module _ .. where`, by their number, each with the indentation of its module."""
    found: dict[int, str] = {}
    inner: list[str] = []
    is_head = is_first = False
    for number, line in enumerate(plain.split("\n"), 1):
        indent = line[:len(line) - len(line.lstrip())]
        if line.strip() and not is_head:
            inner += [indent] if is_first else []
            is_first = False
            while inner and not indent.startswith(inner[-1]):
                inner.pop()
        if inner:
            found[number] = inner[-1]
        is_head = is_head or line.startswith((inner[-1] if inner else "") + "module ")
        if is_head and line.endswith("where"):
            is_head, is_first = False, True
    return found


class File:
    """A file of specs/ or proofs/."""

    def __init__(self, path: Path, module: str) -> None:
        self.path, self.module = path, module
        text = path.read_text(encoding="utf-8")
        self.lines = text.split("\n")
        self.plain = bare(text)
        self.scope = dict(uses(self.plain))
        self.items = list(self.read())
        self.scope.update({item.name[1]: item.name for item in self.items})
        self.constructors = {one: item.name for item in self.items if item.kind == "data"
                             for one in CONSTRUCTOR.findall(item.text)}
        self.scope.update({one: (module, one) for one in self.constructors})

    def read(self) -> Iterator[Item]:
        indents = indents_below(self.plain)
        heads = []
        for head in HEAD.finditer(self.plain):
            is_head = head[2] or head[3] or head[4] or self.plain.startswith(" :", head.end())
            if is_head and head[1] == indents.get(self.line_at(head), ""):
                heads.append(head)
        for head, end in zip(heads, [head.start() for head in heads[1:]] + [len(self.plain)]):
            kind = (head[4] or head[2] or "lemma").strip()
            text = self.plain[head.start():end]
            line = self.line_at(head)
            yield Item((self.module, head[5]), line, text, bool(head[3]), kind, self.comment_at(line))

    def comment_at(self, line: int) -> str:
        """The comment above a line; none may stand between."""
        found: list[str] = []
        while (above := self.lines[line - 2].strip()).startswith("-- ") and line > 1:
            found.insert(0, above[3:])
            line -= 1
        return " ".join(found)

    def line_at(self, head: re.Match[str]) -> int:
        return self.plain.count("\n", 0, head.start()) + 1

    @property
    def comment_at_top(self) -> str:
        count = next((at for at, line in enumerate(self.lines) if not line.startswith("-- ")), len(self.lines))
        return " ".join(line[3:] for line in self.lines[:count])

    @property
    def is_of_function(self) -> bool:
        """Whether the prover reads it as the proof of a function: of what is public there, a goal has the name."""
        return self.path.name in {"Answers.antt", "Invariants.antt", "Proof.antt"}

    @property
    def parameters(self) -> str:
        """The heads of its modules, which each item below them has."""
        return " ".join(re.findall(r"(?ms)^ *module _ .*?where$", self.plain))

    def parameters_of(self, item: Item) -> str:
        """The heads of its modules, if the item stands in one."""
        return self.parameters if item.text.startswith(" ") else ""


class Book:
    """All definitions and lemmas of the repository."""

    def __init__(self, top: Path = TOP) -> None:
        self.top = top
        self.files: dict[str, File] = {}
        for folder in ("specs", "proofs"):
            for path in sorted(top.glob(f"crates/*/{folder}/**/*.antt")):
                module = ".".join(["Rattle", *path.relative_to(top / "crates").with_suffix("").parts])
                self.files[module] = File(path, module)
        self.items = {item.name: item for file in self.files.values() for item in file.items}

    @cached_property
    def passed_on(self) -> dict[Name, Name]:
        """What a name stands for that its module only has from another one, or that makes a value of a type."""
        found = {(file.module, name): target for file in self.files.values()
                 for name, target in uses(file.plain, is_public=True)}
        return {**found, **{(file.module, name): target for file in self.files.values()
                            for name, target in file.constructors.items()}}

    def meant(self, name: Name) -> Name:
        while name in self.passed_on:
            name = self.passed_on[name]
        return name

    def named(self, text: str, scope: Iterable[tuple[str, Name]]) -> set[Name]:
        """All of a scope that a text may name: a local name counts as what it hides."""
        words = {part for word in set(WORD.findall(text)) for whole in [word.lstrip("λ@")]
                 for part in (word, whole, whole.rstrip(".:"), whole.partition(".")[0])}
        found = {target for name, target in scope if words.issuperset(parts_of(name))}
        modules = {name: module for name, (module, inner) in scope if not inner}
        found |= {(modules[front], name) for front, name in QUALIFIED.findall(text) if front in modules}
        return {self.meant(name) for name in found}
