"""Tests how tests/wrong-bodies keeps refusals, on four crates with a stand-in for rt."""
import os
import shutil
import subprocess
from pathlib import Path
from typing import Iterator

TOP = Path(__file__).resolve().parent.parent
FILES = {
    "crates.txt": "# crate: the libraries that it stands on\nlow: thiserror\nmid staticlib: low\nother: mid\nmore:\n",
    "HANDLES": "Handles allowed: none.\n",
    "crates/low/src/lib.rt": "pub fn one() -> u8 {\n    1\n}\n",
    "crates/low/specs/One.antt": "one\n",
    "crates/low/proofs/One.antt": "one\n",
    "crates/mid/src/lib.rt": "pub fn two() -> u8 {\n    2\n}\n",
    "crates/mid/wrong-bodies/three.edit": "file: src/lib.rt\nold:     2\nnew:     3\n",
    "crates/other/src/lib.rt": "pub fn four() -> u8 {\n    4\n}\n",
    "crates/more/src/lib.rt": "pub fn five() -> u8 {\n    5\n}\n",
}
SCRIPTS = ("tests/wrong-bodies", "tests/edits.py", "tests/fits.py")
# A stand-in for the prover. It counts its checks in the file `calls`, and prints the file `said`, or follows `rule`.
PROVER = """#!/bin/sh
[ "$1" = version ] && exec cat "$TREE/version"
echo check >> "$TREE/calls"
[ ! -e "$TREE/rule" ] || exec sh "$TREE/rule"
cat "$TREE/said"
[ ! -s "$TREE/said" ]
"""
REFUSED = "fn mid::two: no proof: expected 2 ≡ 2; `search` did not prove 3 ≡ 2\nlogic=not-proved\n"
# A crate in which `six` relies on the contract of `five`, an edit of that contract, and an edit of the body of `six`.
RELYING = {
    "crates/mid/src/lib.rt": ("pub fn five() -> u8\n    ensures value { result ≡ 5 }\n{\n    5\n}\n\n"
                              "pub fn six() -> u8\n    requires { 1 ≡ 1 }\n    ensures { result ≡ 6 }\n{\n"
                              "    five() + 1\n}\n"),
    "crates/mid/wrong-bodies/any_number.edit":
        "file: src/lib.rt\nold:     ensures value { result ≡ 5 }\nnew:     ensures value { 5 ≡ 5 }\n",
    "crates/mid/wrong-bodies/turned.edit": "file: src/lib.rt\nold:     five() + 1\nnew:     1 + five()\n",
}
# The prover refuses each function beside the other contract, and nothing beside its own.
RULE = """grep -q '5 ≡ 5' src/lib.rt || exit 0
for name in five six; do echo "fn mid::$name: no proof: expected 6 ≡ 6; \\`search\\` did not prove 3 ≡ 2"; done
echo logic=not-proved
exit 1
"""


class Tree:
    """The four crates below a folder, with the prover."""

    def __init__(self, folder: str) -> None:
        self.top = Path(folder)
        self.top.mkdir(parents=True)
        for name, text in {**FILES, "version": "kit 1\n", "said": REFUSED, "calls": "", "bin/rt": PROVER}.items():
            self.put(name, text)
        (self.top / "bin/rt").chmod(0o755)
        (self.top / "tests").mkdir()
        for name in SCRIPTS:
            shutil.copy(TOP / name, self.top / name)

    def put(self, name: str, text: str) -> None:
        (self.top / name).parent.mkdir(parents=True, exist_ok=True)
        (self.top / name).write_text(text, encoding="utf-8")

    def says(self, *words: str) -> str:
        """Runs the script. Returns how many checks it made, its last line and its status."""
        before = (self.top / "calls").read_text()
        environment = {**os.environ, "TREE": str(self.top), "PATH": f"{self.top}/bin:{os.environ['PATH']}"}
        done = subprocess.run([self.top / "tests/wrong-bodies", *words, "mid"], env=environment, text=True,
                              stdout=subprocess.PIPE, stderr=subprocess.STDOUT, timeout=60)
        count = ((self.top / "calls").read_text().count("\n") - before.count("\n"))
        return f"{count} checks, {done.stdout.splitlines()[-1]}, status {done.returncode}"


def of_contracts(folder: str) -> Iterator[str]:
    """A body that is proved is told as proved, also beside an edit of a contract that it relies on, and without it."""
    tree, kept = Tree(folder), f"--kept={folder}/notes"
    (tree.top / "crates/mid/wrong-bodies/three.edit").unlink()
    for name, text in {**RELYING, "rule": RULE}.items():
        tree.put(name, text)
    for wanted in ("2 checks, 1 passed, 1 failed, status 1", "1 checks, 1 passed, 1 failed, status 1"):
        if (got := tree.says(kept)) != wanted:
            yield f"beside an edit of a contract: {got}, where expected is: {wanted}"
    (tree.top / "crates/mid/wrong-bodies/any_number.edit").unlink()
    if (got := tree.says(kept)) != "1 checks, 0 passed, 1 failed, status 1":
        yield f"without that edit: {got}"


def differences(folder: str) -> Iterator[str]:
    """Runs the script below a folder. Yields each result that differs from the expected one."""
    yield from of_notes(f"{folder}/notes")
    yield from of_contracts(f"{folder}/contracts")


def of_notes(folder: str) -> Iterator[str]:
    """What is tried again: all whose check reads something else than before."""
    tree, kept = Tree(folder), f"--kept={folder}/notes/kept"
    good, known = "1 checks, 1 passed, 0 failed, status 0", "0 checks, 1 passed, 0 failed, status 0"

    def told(what: str, wanted: str, *words: str) -> Iterator[str]:
        if (got := tree.says(*words)) != wanted:
            yield f"{what}: {got}, where expected is: {wanted}"

    yield from told("at first", good, kept)
    yield from told("again", known, kept)
    yield from told("without a folder", good)
    for name, text in [*FILES.items(), ("version", "kit 1\n"), ("tests/wrong-bodies", None)]:
        is_read = not name.startswith(("crates/other", "crates/more")) and name not in ("HANDLES", "crates.txt")
        own = (tree.top / name).read_text(encoding="utf-8") if text is None else text
        # (a blank line changes the sources, and leaves the edit's own texts the same)
        tree.put(name, f"{own}\n")
        yield from told(f"{name} changed", good if is_read and not name.endswith(".edit") else known, kept)
        tree.put(name, own)
        yield from told(f"{name} as before", known, kept)
    for library in ("more", "hex"):
        tree.put("crates.txt", FILES["crates.txt"].replace("low: thiserror", f"low: thiserror {library}"))
        yield from told("a library more below", good, kept)
    tree.put("crates.txt", FILES["crates.txt"])
    tree.put("crates/low/specs/Two.antt", "")
    yield from told("a file more below", good, kept)
    (tree.top / "crates/low/specs/Two.antt").unlink()
    tree.put("crates/mid/wrong-bodies/three.edit", FILES["crates/mid/wrong-bodies/three.edit"].replace("3", "5"))
    yield from told("another wrong body", good, kept)
    tree.put("said", "")
    tree.put("crates/mid/wrong-bodies/three.edit", FILES["crates/mid/wrong-bodies/three.edit"].replace("3", "7"))
    for what in ("proved", "proved again"):
        yield from told(what, "1 checks, 0 passed, 1 failed, status 1", kept)
