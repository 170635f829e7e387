#!/usr/bin/env python3
"""planted.py: tests which edits `tests/wrong-bodies --fits` refuses, on a crate with right and wrong ones. Without rt
on PATH it leaves out those that only the compiler refuses."""
import argparse
import shutil
import subprocess
import sys
import tempfile
from pathlib import Path
from typing import Iterator

TOP = Path(__file__).resolve().parent.parent
SOURCE = """#![tactic(auto)]

const LIMIT: u8 = 3;
const OTHER: u8 = 4;

pub struct Pair {
    pub one: u8,
    pub two: u8,
}

pub trait Second {
    fn second(&self) -> u8;
}

impl Second for Pair {
    fn second(&self) -> u8 {
        self.two
    }
}

pub fn pair() -> Pair {
    Pair { one: LIMIT, two: 2 }
}

pub fn nothing()
    ensures { Nothing }
{}

pub fn other() -> u8 {
    OTHER
}
"""
DEFINITION = "abbrev pub Nothing : Type 0\nNothing = All\n\nabbrev pub All : Type 0\nAll = Unit {0}\n"
LIMIT, BODY, METHOD = "const LIMIT: u8 = 3;", "    Pair { one: LIMIT, two: 2 }", "        self.two"
# For each edit: its line `at:`, its file, the old and the new text, and the words by which it is refused, if it is.
EDITS = {
    "another_limit": ("at: pair", "src/lib.rt", LIMIT, "const LIMIT: u8 = 4;", ""),
    "another_limit_again": ("at: pair", "src/lib.rt", LIMIT, "const LIMIT: u8 = 5;", ""),
    "another_pair": ("", "src/lib.rt", BODY, "    Pair { one: LIMIT, two: 3 }", ""),
    "the_first": ("", "src/lib.rt", METHOD, "        self.one", ""),
    "a_definition": ("at: nothing", "specs/Says.antt", "All = Unit {0}", "All = Unit", ""),
    "limit_at_other": ("at: other", "src/lib.rt", LIMIT, "const LIMIT: u8 = 4;", "other, which does not use LIMIT"),
    "limit_at_no_function": ("at: pairs", "src/lib.rt", LIMIT, "const LIMIT: u8 = 4;", "pairs, which is no function"),
    "limit_at_no_lemma": ("at: pair lemma", "src/lib.rt", LIMIT, "const LIMIT: u8 = 4;", "lemma, which is in no proof"),
    "definition_at_other": ("at: other", "specs/Says.antt", "All = Unit {0}", "All = Unit", "does not use All"),
    "body_that_is_not_there": ("", "src/lib.rt", "Pair { one: 1", "Pair { one: 2", "stands in src/lib.rt 0 times"),
}
COMPILED = {
    "missing_field": ("", "src/lib.rt", BODY, "    Pair { one: LIMIT }", "missing field"),
    "no_such_name": ("", "src/lib.rt", BODY, "    Pair { one: LIMIT, two: THREE }", "cannot find value `THREE`"),
    "missing_field_of_method": ("", "src/lib.rt", METHOD, "        self.three", "three"),
    "borrowed_twice": ("", "src/lib.rt", BODY, "    let mut a = 1; let b = &mut a; let c = &mut a; *b = 2; *c = 3; "
                       "Pair { one: LIMIT, two: a }", "error[borrow-"),
    "limit_of_text": ("at: pair", "src/lib.rt", LIMIT, 'const LIMIT: u8 = "3";', "expected `u8`"),
}


def written(tree: Path, edits: dict) -> None:
    """Writes the crate with these edits, and the script."""
    files = {"crates.txt": "low:\n", "crates/low/src/lib.rt": SOURCE, "crates/low/specs/Says.antt": DEFINITION}
    for name, (at, path, old, new, _) in edits.items():
        files[f"crates/low/wrong-bodies/{name}.edit"] = f"{at}\nfile: {path}\nold: {old}\nnew: {new}\n".lstrip()
    for name, text in files.items():
        (tree / name).parent.mkdir(parents=True, exist_ok=True)
        (tree / name).write_text(text, encoding="utf-8")
    (tree / "tests").mkdir()
    for name in ("wrong-bodies", "edits.py", "fits.py"):
        shutil.copy(TOP / "tests" / name, tree / "tests")


def differences(folder: str) -> Iterator[str]:
    """Runs the script below a folder. Yields each edit that it judges wrongly."""
    edits = {**EDITS, **(COMPILED if shutil.which("rt") else {})}
    written(Path(folder), edits)
    done = subprocess.run([f"{folder}/tests/wrong-bodies", "--fits"], text=True, stdout=subprocess.PIPE,
                          stderr=subprocess.STDOUT, timeout=300)
    said = dict(line.partition(": FAILED: ")[::2] for line in done.stdout.splitlines() if ": FAILED: " in line)
    for name, (*_, wanted) in edits.items():
        got = said.get(f"low/{name}", "")
        if bool(got) != bool(wanted) or wanted not in got:
            yield f"{name}: {got or 'fits'}, where expected is: {wanted or 'fits'}"
    refused = sum(bool(wanted) for *_, wanted in edits.values())
    wanted = f"{len(edits) - refused} passed, {refused} failed, status 1"
    if (got := f"{done.stdout.splitlines()[-1]}, status {done.returncode}") != wanted:
        yield f"the last line: {got}, where expected is: {wanted}"


def main() -> int:
    argparse.ArgumentParser(description=__doc__, formatter_class=argparse.RawDescriptionHelpFormatter).parse_args()
    with tempfile.TemporaryDirectory() as folder:
        wrong = list(differences(f"{folder}/planted"))
    count = len(EDITS) + len(COMPILED) + 1 if shutil.which("rt") else len(EDITS) + 1
    print("\n".join([*(f"FAILED: {line}" for line in wrong), f"{count - len(wrong)} passed, {len(wrong)} failed"]))
    return 1 if wrong else 0


if __name__ == "__main__":
    sys.exit(main())
