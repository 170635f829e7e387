"""The wrong bodies of crates/*/must-fail and crates/*/wrong-bodies as tests/wrong-bodies reads them: which functions
each changes, and where these stand."""
import re
from dataclasses import dataclass, field
from pathlib import Path
from typing import Dict, Iterator, List, Optional, Sequence, Set, Tuple

TOP = Path(__file__).resolve().parent.parent
FOLDERS = ("must-fail", "wrong-bodies")
HEADER = re.compile(r"^( *)(?:pub(?:\([a-z]+\))? )?(?:const )?(?:unsafe )?(?:extern \"C\" )?fn (\w+)", re.M)
IMPL = re.compile(r"^impl(?:<[^{]*?>)? (?:(?P<trait>[\w:]+)(?P<arguments><[^{]*?>)? for )?(?P<type>&?[\w:]+)", re.M)
# What stands before the block of a clause. Any other block of a function is its body.
CLAUSE = re.compile(r"\b(?:requires|ensures|ghost|where|reads:|decreases)(?:\s+\w+)?\s*\Z")


@dataclass(frozen=True)
class Function:
    """A function of a crate, by its module, the impl that it stands in (a type and a trait, or none) and its name."""
    module: Tuple[str, ...]
    block: Tuple[str, ...]
    name: str

    def printed(self) -> str:
        """How a check prints it, or the end of that: what stands in an impl is printed below the module of its type."""
        return "::".join(["".join(self.block), self.name] if self.block else [*self.module, self.name])


@dataclass(frozen=True)
class Stretch:
    """Where a function stands in a text: its first line's start, the name within that line, and its end."""
    start: int
    name: Tuple[int, int]
    end: int


@dataclass(eq=False)
class Edit:
    """A wrong body: its name, the new texts by file, and the functions that it changes, or the one at which it is
    refused where it changes something else too."""
    name: str
    pairs: List[Tuple[str, str, str]]
    functions: Set[Function] = field(default_factory=set)
    lemma: str = ""
    is_alone: bool = False
    is_of_contract: bool = False
    fault: str = ""

    def shares_check(self) -> bool:
        """Whether its check can have other edits in it: nothing of them depends on a body."""
        return not self.is_alone and not self.is_of_contract


def pairs_of(text: str) -> Iterator[Tuple[str, str, str]]:
    """The file, the old and the new text of each replacement."""
    path = old = ""
    for line in text.split("\n"):
        word, _, value = line.partition(":")
        value = value[1:] if value.startswith(" ") else value
        if word == "file":
            path = value.strip()
        elif word == "old":
            old = value
        elif word == "new":
            yield path, old, value


def named_in(text: str) -> Tuple[Set[Function], str]:
    """The function and the lemma that a line `at: FUNCTION [LEMMA]` names."""
    found = re.search(r"^at: (\S+)(?: (\S+))?$", text, re.M)
    if found is None:
        return set(), ""
    *module, name = found[1].split("::")
    return {Function(tuple(module), (), name)}, found[2] or ""


def named_at(path: str, text: str, found: "re.Match[str]") -> Function:
    """The function or the constant with this indentation and name."""
    block: Tuple[str, ...] = ()
    if found[1]:
        for block_here in IMPL.finditer(text, 0, found.start()):
            trait = (block_here["trait"] or "").rpartition("::")[2]
            block = tuple(re.findall(r"\w+", f"{block_here['type']} {trait} {block_here['arguments'] or ''}"))
    module = tuple(part for part in Path(path).with_suffix("").parts[1:] if part not in ("lib", "main", "mod"))
    return Function(module, block, found[2])


def standing_at(path: str, text: str, position: int) -> Optional[Tuple[Function, Stretch]]:
    """The function whose body, contract or signature stands there, and where it stands."""
    found = None
    for found_here in HEADER.finditer(text):
        if found_here.start() > position:
            break
        found = found_here
    if found is None:
        return None
    end = re.compile(rf"^{found[1]}{{?}}", re.M).search(text, found.end())
    if end is None or end.start() <= position:
        return None
    return named_at(path, text, found), Stretch(found.start(), found.span(2), end.end())


def function_at(path: str, text: str, position: int) -> Optional[Function]:
    """The function whose body, contract or signature stands there."""
    standing = standing_at(path, text, position)
    return standing and standing[0]


def stretch_of(path: str, text: str, function: Function) -> Optional[Stretch]:
    """Where a function stands in a text, if it does."""
    for found in HEADER.finditer(text):
        standing = standing_at(path, text, found.start())
        if standing and standing[0] == function:
            return standing[1]
    return None


def head_of(text: str, function: Stretch) -> str:
    """The signature and the contract of a function: all before its body."""
    at = function.name[1]
    while True:
        opening = text.find("{", at, function.end)
        if opening < 0:
            return text[function.start:function.end]
        if not CLAUSE.search(text[at:opening]):
            return text[function.start:opening].rstrip()
        depth, at = 1, opening + 1
        while depth:
            depth += {"{": 1, "}": -1}.get(text[at], 0)
            at += 1


def files_of(crate: Path, folders: Sequence[str] = FOLDERS) -> List[Path]:
    """Returns the files of a crate's wrong bodies in these folders, by name."""
    return sorted((file for folder in folders for file in (crate / folder).glob("*.edit")), key=lambda file: file.name)


def edits_of(crate: Path, folders: Sequence[str] = FOLDERS) -> List[Edit]:
    """Returns the wrong bodies of a crate in these folders, each with what it changes."""
    edits: List[Edit] = []
    for file in files_of(crate, folders):
        written = file.read_text(encoding="utf-8")
        edit = Edit(file.stem, list(pairs_of(written)))
        if edits and edits[-1].name == edit.name:
            edit.fault = f"it stands in {' and in '.join(FOLDERS)}"
        named, edit.lemma = named_in(written)
        texts: Dict[str, str] = {}
        for path, old, new in edit.pairs:
            text = texts.get(path) or (crate / path).read_text(encoding="utf-8")
            if text.count(old) != 1:
                edit.fault = f"an old text stands in {path} {text.count(old)} times, and not once: {old}"
                break
            function = function_at(path, text, text.index(old)) if path.startswith("src/") else None
            edit.is_alone = edit.is_alone or function is None
            texts[path] = text.replace(old, new)
            if function is not None:
                edit.functions.add(function)
                heads = [at and head_of(one, at) for one in (text, texts[path])
                         for at in [stretch_of(path, one, function)]]
                edit.is_of_contract = edit.is_of_contract or heads[0] != heads[1]
        if not edit.pairs:
            edit.fault = "it has no old and new text"
        if edit.is_alone:
            edit.functions = named
            unnamed = "it changes no function alone, and no line `at:` names the one that is refused"
            edit.fault = edit.fault or ("" if named else unnamed)
        elif named:
            edit.fault = "it changes functions alone, so no line `at:` is wanted"
        edits.append(edit)
    return edits
