"""Looks whether wrong bodies fit their files, name their functions and compile, without proving anything."""
import re
import shutil
import subprocess
import tempfile
from pathlib import Path
from typing import Dict, Iterator, List, Set, Tuple

from edits import HEADER, TOP, Edit, Function, edits_of, function_at, head_of, named_at, standing_at, stretch_of

# The compiler reads types before borrows, and proves nothing where it finds a wrong borrow. So a crate above all others
# has one, which is the only error once it has read all.
LAST = """#![tactic(auto)]

pub fn last(a: u8) -> u8 {
    let mut v = a;
    let first = &mut v;
    let second = &mut v;
    *first = 1;
    *second = 2;
    v
}
"""
LAST_ERROR = "src/lib.rt:6:9: error[borrow-e0499]"
ITEM = re.compile(r"^ *(?:pub(?:\([a-z]+\))? )?(?:const|static|struct|enum|trait) (\w+)"
                  r"|^impl.*?(\w+)(?:<.*>)? \{", re.M)
CONSTANT = re.compile(r"^( *)(?:pub(?:\([a-z]+\))? )?(?:const|static) (\w+): (?:\[[^\]]*\]|[^;=\[]*) =[^;]*;", re.M)
DEFINITION = re.compile(r"^(?:(?:abbrev|unfoldable|record|data|pub) )+(\S+)", re.M)
Place = Tuple[str, Edit]


def words_of(text: str) -> Set[str]:
    return set(re.findall(r"\w+", text))


class Names:
    """The names of a crate: which words stand in the statement of each, and in the whole of each function."""

    def __init__(self, crate: Path) -> None:
        self.crate = crate
        self.stated: Dict[str, Set[str]] = {}
        self.whole: Dict[Function, Set[str]] = {}
        for file in sorted(crate.glob("specs/**/*.antt")):
            for block in file.read_text(encoding="utf-8").split("\n\n"):
                self.state(DEFINITION.findall(block), block)
        for file in sorted(crate.glob("src/**/*.rt")):
            self.read(str(file.relative_to(crate)), file.read_text(encoding="utf-8"))

    def state(self, names: List[str], text: str) -> None:
        for name in names:
            self.stated.setdefault(name, set()).update(words_of(text))

    def read(self, path: str, text: str) -> None:
        for found in HEADER.finditer(text):
            standing = standing_at(path, text, found.start())
            if standing:
                function, stretch = standing
                self.state([function.name], head_of(text, stretch))
                self.add(function, text[stretch.start:stretch.end])
        for found in CONSTANT.finditer(text):
            self.state([found[2]], found[0])
            self.add(named_at(path, text, found), found[0])

    def add(self, function: Function, text: str) -> None:
        self.whole.setdefault(function, set()).update(words_of(text), function.block)

    def changed_by(self, edit: Edit) -> Set[str]:
        """What an edit changes: the last constant, type, impl or definition that begins at or before an old text."""
        for path, old, _ in edit.pairs:
            text = (self.crate / path).read_text(encoding="utf-8")
            pattern = ITEM if path.startswith("src/") else DEFINITION
            end = text.find("\n", text.index(old) + len(old))
            if old.startswith("#["):
                end = text.find("\n", end + 1)
            names = [name for found in pattern.finditer(text, 0, end) for name in found.groups() if name]
            if names:
                return {names[-1]}
        return set()

    def own(self, named: Function) -> Set[str]:
        """The words of the functions that a line `at:` names, which has the module of a type and no file."""
        own: Set[str] = set()
        for function, words in self.whole.items():
            of_type = bool(function.block) and named.module[-1:] == ("".join(function.block),)
            if function.name == named.name and (of_type or not function.block and function.module == named.module):
                own |= words
        return own

    def wrong(self, edit: Edit) -> str:
        """What is wrong with the line `at:` of an edit that changes more than a function."""
        function, = edit.functions
        at = "::".join([*function.module, function.name])
        own = self.own(function)
        if not own:
            return f"its line `at:` names {at}, which is no function"
        if edit.lemma and not any(edit.lemma in words_of(file.read_text(encoding="utf-8"))
                                  for file in self.crate.glob("proofs/**/*.antt")):
            return f"its line `at:` names {edit.lemma}, which is in no proof"
        reached, left = set(), own
        while left:
            reached |= left
            left = set().union(*(self.stated.get(name, ()) for name in left)) - reached
        changed = self.changed_by(edit)
        return "" if changed & reached else f"its line `at:` names {at}, which does not use {' or '.join(changed)}"


class Sources:
    """A copy of the sources of all crates, in which edits are compiled."""

    def __init__(self, folder: Path, kit: Path) -> None:
        self.folder, self.kit = folder, kit
        lines = (TOP / "crates.txt").read_text(encoding="utf-8").splitlines()
        rows = [line.partition(":") for line in lines if not line.startswith("#")]
        self.uses = {name.split()[0]: ["core", "std", *names.split()] for name, _, names in rows if name.split()}
        (folder / "src").mkdir()
        (folder / "src/lib.rt").write_text(LAST, encoding="utf-8")
        for crate in self.uses:
            shutil.copytree(TOP / "crates" / crate / "src", folder / "crates" / crate / "src")

    def own(self, place: str) -> str:
        """The text of a file, which is named by its path below crates/."""
        return (TOP / "crates" / place).read_text(encoding="utf-8")

    def errors(self, texts: Dict[str, str]) -> List[str]:
        """The errors of the compiler with these texts in place of the files' own, with paths below crates/."""
        for place, text in texts.items():
            (self.folder / "crates" / place).write_text(text, encoding="utf-8")
        kits = sorted({name for names in self.uses.values() for name in names} - set(self.uses))
        words = [f"--extern={name}={self.kit}/rlibs/{name}.rlib" for name in kits] + [f"-Ldependency={self.kit}/rlibs"]
        for crate, names in self.uses.items():
            src = self.folder / "crates" / crate / "src"
            root = src / ("lib.rt" if (src / "lib.rt").exists() else "main.rt")
            words.append(f"--lib={crate}:{','.join(names)}={root}")
        words += [f"--antt-project={self.kit}/rattle/logic/antt-project.json", f"--logic-built={self.kit}/logic_built"]
        said = subprocess.run([self.kit / "bin/rattle", "check", "--crate-name=everything", "src/lib.rt", "--jobs=1",
                               "--only=", *words], cwd=self.folder, text=True, errors="replace",
                              stdout=subprocess.PIPE, stderr=subprocess.STDOUT).stdout
        for place in texts:
            (self.folder / "crates" / place).write_text(self.own(place), encoding="utf-8")
        found = [line.replace(f"{self.folder}/crates/", "") for line in said.splitlines()
                 if re.search(r":\d+:\d+: error\b", line)]
        if not found:
            return [f"the compiler found no error where one is: {said[-300:]}"]
        return [line for line in found if not line.startswith(LAST_ERROR)]


class Laid:
    """As many edits as have room in one copy: in twins of their functions, or in place if they change more than a
    body, or a method of a trait."""

    def __init__(self, sources: Sources, edits: List[Place]) -> None:
        self.sources = sources
        self.texts: Dict[str, str] = {}
        self.twins: Dict[str, Place] = {}
        self.in_place: List[Place] = []
        taken: Set[Tuple[str, Function]] = set()
        twinned = []
        for crate, edit in edits:
            own = {(crate, function) for function in edit.functions}
            if edit.shares_check() and len(own) == 1 and self.has_twin(crate, edit):
                twinned.append((crate, edit))
            elif not own & taken and self.replaces(crate, edit):
                self.in_place.append((crate, edit))
                taken |= set() if edit.is_alone else own
        for number, (crate, edit) in enumerate(twinned):
            self.add_twin(crate, edit, f"_twin{number}")

    def text(self, place: str) -> str:
        return self.texts.get(place) or self.sources.own(place)

    def has_twin(self, crate: str, edit: Edit) -> bool:
        (path, *_), (function,) = edit.pairs[0], edit.functions
        text = self.sources.own(f"{crate}/{path}")
        is_method = text[stretch_of(path, text, function).start] == " "
        return len(function.block) == is_method

    def replaces(self, crate: str, edit: Edit) -> bool:
        """Puts an edit in place, if what others put there leaves its old texts as they are."""
        laid: Dict[str, str] = {}
        for path, old, new in edit.pairs:
            place = f"{crate}/{path}"
            text = laid.get(place) or self.text(place)
            if text.count(old) != 1:
                return False
            laid[place] = text.replace(old, new)
        self.texts.update({place: text for place, text in laid.items() if "/src/" in place})
        return True

    def add_twin(self, crate: str, edit: Edit, ending: str) -> None:
        path, (function,) = edit.pairs[0][0], edit.functions
        place, wrong = f"{crate}/{path}", self.sources.own(f"{crate}/{path}")
        for _, old, new in edit.pairs:
            wrong = wrong.replace(old, new)
        text, here = self.text(place), stretch_of(path, wrong, function)
        there = stretch_of(path, text, function)
        attributes = re.search(r"(?:^ *#\[.*\]\n)*\Z", wrong[:here.start], re.M)[0]
        body = attributes + wrong[here.start:here.name[0]] + function.name + ending + wrong[here.name[1]:here.end]
        self.texts[place] = f"{text[:there.end]}\n\n{body}{text[there.end:]}"
        self.twins[function.name + ending] = crate, edit

    def places(self) -> List[Place]:
        return [*self.twins.values(), *self.in_place]

    def faults(self) -> Dict[Place, str]:
        """The edits in which the compiler finds errors, each with its first one. An error elsewhere is laid on each
        edit in place."""
        found: Dict[Place, str] = {}
        for error in self.sources.errors(self.texts):
            place, line = (error.split(":") + ["0"])[:2]
            crate, _, path = place.partition("/")
            text = self.text(place) if (TOP / "crates" / place).is_file() else ""
            position = sum(len(above) + 1 for above in text.split("\n")[:int(line) - 1]) if text else 0
            function = function_at(path, text, position)
            if function and function.name in self.twins:
                blamed = [self.twins[function.name]]
            else:
                blamed = [place for place in self.in_place if place[0] == crate and function in place[1].functions]
            for one in blamed or self.in_place or self.places():
                found.setdefault(one, error)
        return found


def compiled(edits: List[Place], kit: Path) -> Iterator[Tuple[Place, str]]:
    """Yields each edit that does not compile, with the compiler's error."""
    with tempfile.TemporaryDirectory(prefix="wrong-bodies-") as folder:
        sources = Sources(Path(folder), kit)
        while edits:
            laid = Laid(sources, edits)
            faults = laid.faults()
            yield from faults.items()
            done = faults or laid.places()
            edits = [place for place in edits if place not in done]


def fitting(words: List[str]) -> int:
    """Looks whether these wrong bodies fit and compile, and prints those that do not."""
    faults, fit = [], []
    for word in words:
        crate, _, name = word.partition("/")
        names = Names(TOP / "crates" / crate)
        for edit in edits_of(TOP / "crates" / crate):
            if name in ("", edit.name):
                fault = edit.fault or (names.wrong(edit) if edit.is_alone else "")
                faults += [f"{crate}/{edit.name}: FAILED: {fault}"] if fault else []
                fit += [] if fault else [(crate, edit)]
    rt = shutil.which("rt")
    if rt is None:
        print("none is compiled: the command rt of the Rattle toolchain is not on PATH")
    else:
        wrong = dict(compiled(fit, Path(rt).resolve().parent.parent))
        faults += [f"{crate}/{edit.name}: FAILED: {error}" for (crate, edit), error in wrong.items()]
        fit = [place for place in fit if place not in wrong]
    print("\n".join([*faults, f"{len(fit)} passed, {len(faults)} failed"]))
    return 1 if faults else 0
