"""Tests tests/check and .ci/run in a tree where stand-ins take the place of the scripts of the parts and of rt."""
import os
import re
import shutil
import subprocess
from pathlib import Path
from typing import Dict, Iterator, List, NamedTuple

TOP = Path(__file__).resolve().parent.parent
# A stand-in notes its name and environment, leaves a file in HOME, and prints the line that `says` has for it. A line
# with a tilde at its end has status 1.
STAND_IN = """#!/bin/sh
echo "NAME|$PATH|$(ls -A "$HOME" | paste -sd " ")|${CALLERS-}" >> "NOTES"
touch "$HOME/left"
sed -n 's:^NAME|\\(.*[^~]\\)~*$:\\1:p' SAYS | grep . || echo '1 passed, 0 failed'
! grep -q '^NAME|.*~$' SAYS
"""
SCRIPTS = ("dist/os-test dist/os-same dist/check dist/witnesses tests/launcher tests/module tests/portable "
           "tests/program tests/static tests/platforms tests/layout tests/run tests/feeds tests/page tests/npm "
           "tests/wheels tests/rust tests/bench tests/aarch64 tests/packages tests/release tests/planted.py "
           "tests/wrong-bodies tests/stamps hostile/run hostile/faces hostile/growths vectors/check "
           "bench/instructions bench/peers clib/made").split()
MAKEFILE = "all:\ncheck check-own:\n\t@./made\n"
# The parts that call rt. All others run as a user has them.
BY_RT = set("layout fits proofs dist os_same own_compiler wrong_bodies witnesses growths".split())
USERS_PATH = "/usr/bin:/bin"


class Note(NamedTuple):
    """What a stand-in saw: PATH, the files in HOME, and a variable of the caller."""
    name: str
    path: str
    home: str
    callers: str


class Ran(NamedTuple):
    """How a run ended: its status, its lines, and the notes of the stand-ins."""
    status: int
    lines: List[str]
    notes: List[Note]


class Tree:
    """A tree with tests/check, .ci/run and the Makefile, and stand-ins for what these call."""

    def __init__(self, folder: str) -> None:
        self.top, self.bin, self.home = Path(folder, "tree"), Path(folder, "bin"), Path(folder, "home")
        self.notes, self.says = Path(folder, "notes"), Path(folder, "says")
        for path in (*(self.top / name for name in SCRIPTS), self.bin / "rt"):
            text = STAND_IN.replace("NOTES", str(self.notes)).replace("SAYS", str(self.says))
            self.put(path, text.replace("NAME", str(path.relative_to(path.parent.parent))))
        self.put(self.top / "dist/program", "#!/bin/sh\necho /program\n")
        self.put(self.top / "clib/Makefile", MAKEFILE)
        for name in ("tests/check", ".ci/run", "Makefile"):
            (self.top / name).parent.mkdir(exist_ok=True)
            shutil.copy(TOP / name, self.top / name)

    def put(self, path: Path, text: str) -> None:
        """Writes a file that can be called."""
        path.parent.mkdir(parents=True, exist_ok=True)
        path.write_text(text, encoding="utf-8")
        path.chmod(0o755)

    def run(self, command: List[str], said: Dict[str, str], **more: str) -> Ran:
        """Runs a script of the tree, with what its stand-ins print."""
        shutil.rmtree(self.home, ignore_errors=True)
        (self.home / "of-the-caller").mkdir(parents=True)
        self.notes.write_text("")
        self.says.write_text("".join(f"{name}|{text}\n" for name, text in said.items()))
        environment = {"PATH": f"{self.bin}:{os.environ['PATH']}", "HOME": str(self.home), "CALLERS": "one", **more}
        done = subprocess.run([str(self.top / command[0]), *command[1:]], env=environment, text=True, timeout=300,
                              stdin=subprocess.DEVNULL, stdout=subprocess.PIPE, stderr=subprocess.STDOUT)
        noted = [Note(*line.split("|")) for line in self.notes.read_text().splitlines()]
        return Ran(done.returncode, done.stdout.splitlines(), noted)


def parts() -> List[str]:
    """The names of all parts, as tests/check has them."""
    text = (TOP / "tests/check").read_text(encoding="utf-8")
    return [name for line in re.findall(r"^(?:proving|building|refusing|last|trying)=\((.*?)\)", text, re.M | re.S)
            for name in line.split()]


def skipped(ran: Ran, path: str) -> List[str]:
    """The tools for want of which a run skipped parts, if they are not on this PATH."""
    tools = [line.rpartition(" needs ")[2] for line in ran.lines if ": skipped, needs " in line]
    return [tool for tool in tools if not shutil.which(tool, path=path)]


def of_environments(tree: Tree) -> Iterator[str]:
    """Each part that calls no rt has the PATH that USERS_PATH names, an empty HOME and no variable of the caller.
    Without USERS_PATH each part has the caller's."""
    own_path = f"{tree.bin}:{os.environ['PATH']}"
    for users in (USERS_PATH, ""):
        for part in parts():
            ran = tree.run(["tests/check", part], {}, **({"USERS_PATH": users} if users else {}))
            is_user = bool(users) and part not in BY_RT
            wanted = (users, "", "") if is_user else (own_path, "of-the-caller", "one")
            if skipped(ran, wanted[0]):
                continue
            if not ran.notes or ran.notes[0][1:] != wanted:
                yield f"{part} with USERS_PATH={users!r}: {ran.notes[:1]}, where {wanted} is expected"
            if is_user and any(note.name.endswith("/rt") for note in ran.notes):
                yield f"{part} calls rt, and stands among the parts that do not"
            if (ran.status, ran.lines[-1]) != (0, "1 passed, 0 failed"):
                yield f"{part} with USERS_PATH={users!r}: status {ran.status}, {ran.lines}"


def of_counts(tree: Tree) -> Iterator[str]:
    """A part counts what its last line says. It has failed if its status says so, or if it has no last line."""
    rows = {
        "7 passed, 0 failed": (0, "7 passed, 0 failed", "pages: 7 passed, 0 failed ("),
        "7 passed, 0 failed, 3 skipped": (0, "7 passed, 0 failed, 3 skipped", "pages: 7 passed, 0 failed, 3 skipped ("),
        "7 passed, 2 failed": (1, "7 passed, 2 failed", "pages: 7 passed, 2 failed ("),
        "7 passed, 0 failed~": (1, "7 passed, 1 failed", "pages: 7 passed, 1 failed ("),
        "all is well": (1, "0 passed, 1 failed", "pages: 0 passed, 1 failed ("),
        "FAILED: 7 passed, 0 failed": (1, "0 passed, 1 failed", "pages: FAILED: 7 passed, 0 failed"),
    }
    for said, (status, last, shown) in rows.items():
        ran = tree.run(["tests/check", "pages"], {"tests/run": said})
        times = r"\d+ min \d\d s, processor \d+ min \d\d s\)|[^(]*"
        found = [line for line in ran.lines if line.startswith(shown) and re.fullmatch(times, line[len(shown):])]
        if (ran.status, ran.lines[-1]) != (status, last) or not found:
            yield f"a part that prints {said!r}: status {ran.status}, {ran.lines}"
    ran = tree.run(["tests/check", "pages", "feeds", "hostile"], {
        "tests/run": "3 passed, 0 failed, 2 skipped", "tests/feeds": "4 passed, 1 failed", "hostile/run": "crash"})
    if (ran.status, ran.lines[-1]) != (1, "7 passed, 2 failed, 2 skipped"):
        yield f"three parts: status {ran.status}, {ran.lines[-1]}"
    if [line for line in ran.lines[-3:-1]] != ["feeds: 4 passed, 1 failed", "hostile: crash"]:
        yield f"three parts: {ran.lines[-3:-1]} before the last line"


def of_words(tree: Tree) -> Iterator[str]:
    """A part that is not there is refused by name, and no part runs then. One that lacks its tool is skipped."""
    ran = tree.run(["tests/check", "pages", "nonesuch"], {})
    if ran.status != 2 or ran.notes or not ran.lines[-1].startswith("tests/check: there is no part nonesuch; there "):
        yield f"a part that is not there: {ran}"
    (tree.bin / "rt").rename(tree.bin / "hidden")
    ran = tree.run(["tests/check", "layout", "os"], {}, PATH=f"{tree.bin}:{USERS_PATH}")
    (tree.bin / "hidden").rename(tree.bin / "rt")
    if "layout: skipped, needs rt" not in ran.lines or ran.lines[-1] != "1 passed, 0 failed, 1 skipped":
        yield f"without rt: {ran}"


def of_gate(tree: Tree) -> Iterator[str]:
    """The gate runs every part once: with rt as the caller has it, without rt as a user has it. It ends as they do."""
    for said, status in (("1 passed, 0 failed", 0), ("0 passed, 1 failed", 1)):
        ran = tree.run([".ci/run"], {"tests/feeds": said})
        paths = {note.name: note.path for note in ran.notes}
        seen = [note.name for note in ran.notes if "/made" not in note.name and "/rt" not in note.name]
        wanted = sorted([*SCRIPTS[:-1], "dist/os-test", "tests/wrong-bodies"])
        left_out = skipped(ran, f"{tree.bin}:{os.environ['PATH']}")
        if len(seen) + len(left_out) != len(wanted) or set(seen) - set(wanted):
            yield f"the gate runs {sorted(seen)}, where {wanted} are expected, but for what needs {left_out}"
        if paths.get("tests/run") != USERS_PATH or paths.get("bin/rt") == USERS_PATH:
            yield f"the gate has these paths: {paths}"
        if (ran.status != 0) != (status != 0) or not re.match(rf"\d+ passed, {status} failed", ran.lines[-1]):
            # (make adds its own line below that of a failure)
            if status == 0 or not any(re.match(r"\d+ passed, 1 failed", line) for line in ran.lines[-3:]):
                yield f"the gate, where a part says {said!r}: status {ran.status}, {ran.lines[-3:]}"


def differences(folder: str) -> Iterator[str]:
    """Yields what is wrong with tests/check and .ci/run, tried below this folder."""
    for found in (of_environments, of_counts, of_words, of_gate):
        os.mkdir(f"{folder}/{found.__name__}")
        yield from found(Tree(f"{folder}/{found.__name__}"))
