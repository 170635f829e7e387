#!/usr/bin/env python3
"""Prints the laws, what pins them, or what is wrong with them; nothing is written to a file.

docs/laws.py          prints each law and each guard with the lemma files that its proof cites, read from its imports.
docs/laws.py --pins   prints what pins each premise, read from the contracts and definitions by pins.py.
docs/laws.py --check  names each premise without a pin and each answer from which nothing is concluded; the status is
                      1 if there is any."""
import argparse
import glob
import os
import re
import signal
import sys
from collections.abc import Iterator

import pins

TOP = os.path.dirname(os.path.dirname(os.path.abspath(__file__)))
HEAD = """# The laws and their lemmas

A law is a public function of `src/laws.rt`, or of a file that ends so. Its contract is the statement. A guard is one of
`src/pins.rt`, or of a file that ends so: it keeps a definition from shrinking. For each crate, this list has the laws
and the guards, grouped by the lemma files that their proofs cite. Then it has each lemma file of `proofs/` with its
first comment and, after the arrow, the files that it cites. A file of another crate is written with the crate's name.
One under "no file" has a proof that cites no lemma file."""


def imports(path: str) -> list[tuple[str, str]]:
    """The lemma files that a proof cites."""
    with open(path, encoding="utf-8") as file:
        found = re.findall(r"Rattle\.(\w+)\.proofs\.([A-Z]\w*(?:\.[A-Z]\w*)?)\.\{", file.read())
    found = [(name, lemma.replace(".", "/")) for name, lemma in found]
    own = [(name, lemma) for name, lemma in found if os.path.exists(f"{TOP}/crates/{name}/proofs/{lemma}.antt")]
    return list(dict.fromkeys(own))


def shown(files: list[tuple[str, str]], crate: str) -> str:
    return ", ".join(f"`{lemma}`" if name == crate else f"`{name}/{lemma}`" for name, lemma in files)


def laws_of(crate: str, module: str) -> list[str]:
    """Returns the laws of a crate (`laws`), or its guards (`pins`), by the files that their proofs cite."""
    groups: dict[str, list[str]] = {}
    for path in sorted(glob.glob(f"{TOP}/crates/{crate}/src/*{module}.rt")):
        stem = os.path.basename(path)[:-3]
        with open(path, encoding="utf-8") as file:
            laws = re.findall(r"^pub fn (\w+)", file.read(), re.M)
        for law in laws:
            proofs = sorted(glob.glob(f"{TOP}/crates/{crate}/proofs/{stem}/{law}/*.antt"))
            cited = list(dict.fromkeys(one for proof in proofs for one in imports(proof)))
            groups.setdefault(shown(cited, crate) or "no file", []).append(f"`{law}`")
    return [f"- {files}: {', '.join(laws)}" for files, laws in groups.items()]


def files_of(crate: str) -> Iterator[str]:
    """The lemma files of a crate, with their first line and what they cite."""
    top = f"{TOP}/crates/{crate}/proofs/"
    for path in sorted(glob.glob(f"{top}[A-Z]*.antt") + glob.glob(f"{top}[A-Z]*/*.antt")):
        name = path[len(top):-5]
        if name == "Lib":
            continue
        with open(path, encoding="utf-8") as file:
            comment = re.match(r"((?:-- .*\n)*)", file.read())[1].replace("-- ", "").replace("\n", " ").strip()
        cited = shown([one for one in imports(path) if one != (crate, name)], crate)
        yield f"- `{name}`: {comment}" + (f" → {cited}" if cited else "")


def main() -> None:
    signal.signal(signal.SIGPIPE, signal.SIG_DFL)  # `| head` ends the output without a traceback
    parser = argparse.ArgumentParser(description=__doc__, formatter_class=argparse.RawDescriptionHelpFormatter)
    either = parser.add_mutually_exclusive_group()
    either.add_argument("--pins", action="store_true", help="print what pins each premise")
    either.add_argument("--check", action="store_true", help="name each premise without a pin")
    words = parser.parse_args()
    if words.pins:
        print(pins.page(pins.Book()))
        return
    if words.check:
        found = pins.faults(pins.Book())
        sys.exit("\n".join(found) if found else 0)
    lines = [HEAD]
    for path in sorted(glob.glob(f"{TOP}/crates/*/proofs")):
        crate = path.split("/")[-2]
        files = list(files_of(crate))
        laws, guards = laws_of(crate, "laws"), laws_of(crate, "pins")
        if files or laws or guards:
            lines += ["", f"## `{crate}`"]
            lines += ["", "Laws:", "", *laws] if laws else []
            lines += ["", "Guards:", "", *guards] if guards else []
            lines += ["", "Files:", "", *files] if files else []
    print("\n".join(lines))


if __name__ == "__main__":
    main()
