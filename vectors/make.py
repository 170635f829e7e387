#!/usr/bin/env python3
"""vectors/make.py [--program PATH] [--library FOLDER] [--compare]: makes the vectors.

Two sources answer each case: the definitions in cases/, in whole fractions, and the proved program and library, which
are given the questions alone. Where they differ, or where no proved source answers a case, the cases are listed and
nothing is written. With --compare nothing is written either: what the definitions come to is compared byte for byte
with the files that are there, and no program is asked."""
from __future__ import annotations

import argparse
import json
import os
import sys
from typing import Any, Dict, List

HERE = os.path.dirname(os.path.abspath(__file__))
sys.path.insert(0, HERE)

from asking import adapter_command, ask  # noqa: E402
from cases.all import chosen  # noqa: E402
from judging import judge  # noqa: E402

PROVED = ("squitter", "libsquitter-python")


def texts() -> Dict[str, str]:
    """Each file of vectors, by its name, as the definitions make it."""
    found = {}
    for operation, collection in chosen().items():
        lines = [json.dumps(case, separators=(",", ":"), ensure_ascii=True) for case in collection.cases]
        found[f"{operation}.jsonl"] = "".join(line + "\n" for line in lines)
    return found


def compare(made: Dict[str, str]) -> List[str]:
    """How the files that are there differ from those that were made."""
    differing = []
    for name, text in made.items():
        path = os.path.join(HERE, name)
        there = ""
        if os.path.exists(path):
            with open(path, encoding="utf-8", newline="") as file:
                there = file.read()
        if there == text:
            continue
        pairs = zip(there.splitlines(), text.splitlines())
        number = next(
            (number for number, (old, new) in enumerate(pairs, 1) if old != new),
            min(there.count("\n"), text.count("\n")) + 1,
        )
        differing.append(f"{name}: line {number} is not what the definitions make")
    extra = {name for name in os.listdir(HERE) if name.endswith(".jsonl")} - set(made)
    return differing + [f"{name}: no operation has this name" for name in sorted(extra)]


def second_source(made: Dict[str, str], environment: Dict[str, str]) -> List[str]:
    """Where a proved program or library does not answer as the definitions do, or none answers at all."""
    faults = []
    for name, text in made.items():
        cases: List[Dict[str, Any]] = [json.loads(line) for line in text.splitlines()]
        answered = set()
        for adapter in PROVED:
            result = ask(adapter_command(adapter), cases, environment=environment)
            faults += [f"{adapter}: {name}: {remark}" for remark in result.remarks]
            for case in cases:
                given = result.answers.get(case["id"])
                if given is None or given.get("unsupported") is True:
                    continue
                answered.add(case["id"])
                verdict = judge(case, given, exact=True)
                if verdict.kind != "passed":
                    faults.append(
                        f"{case['id']}: the definitions come to {json.dumps(case['answer'])}, "
                        f"{adapter} to {json.dumps(given)}"
                    )
        faults += [f"{case['id']}: no proved source answers it" for case in cases if case["id"] not in answered]
    return faults


def main() -> int:
    parser = argparse.ArgumentParser(description=__doc__, formatter_class=argparse.RawDescriptionHelpFormatter)
    parser.add_argument("--program", help="the proved program (default: PROGRAM, or what dist/program says)")
    parser.add_argument("--library", help="the folder with libsquitter.so.0 (default: LIBRARY, or clib)")
    parser.add_argument(
        "--compare", action="store_true", help="compare with the files that are there, and write nothing"
    )
    words = parser.parse_args()
    made = texts()
    if words.compare:
        faults = compare(made)
    else:
        environment = dict(os.environ)
        environment.update(
            {
                name: os.path.abspath(value)
                for name, value in (("PROGRAM", words.program), ("LIBRARY", words.library))
                if value
            }
        )
        faults = second_source(made, environment)
    for fault in faults[:20]:
        print(f"make.py: {fault}", file=sys.stderr)
    if faults:
        print(f"make.py: {len(faults)} differences; nothing is written", file=sys.stderr)
        return 1
    if not words.compare:
        for name, text in made.items():
            with open(os.path.join(HERE, name), "w", encoding="utf-8", newline="\n") as file:
                file.write(text)
    count = sum(text.count("\n") for text in made.values())
    print(f"{count} cases in {len(made)} files, {sum(map(len, made.values()))} bytes")
    return 0


if __name__ == "__main__":
    sys.exit(main())
