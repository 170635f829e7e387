#!/usr/bin/env python3
"""portable.py [LINES [ROUNDS]]: the time of dist/squitter.c, by gcc and by clang, beside that of the assembly.

A log of a million LINES (bench/gen.c) is heard as structs and as text, and its feeds are read as lines and as frames. A
row has the least processor time of nine ROUNDS of a C program that stands on each, in nanoseconds a line. All three
have to give the same answers. A compiler that is not installed is left out."""
import shutil
import subprocess
import sys
import tempfile
from typing import Dict, List, Tuple

from surfaces import CLIB, TOP, Inputs, numbers, of_process

LIBRARIES: Dict[str, List[str]] = {
    "assembly": ["cc", str(CLIB / "libsquitter.a")], "gcc": ["gcc", str(TOP / "dist" / "squitter.c")],
    "clang": ["clang", str(TOP / "dist" / "squitter.c")]}
ROWS: Tuple[Tuple[str, str, Tuple[str, ...], str], ...] = (
    ("squitter_log_take", "log", (), "log"), ("squitter_log_take_text", "log", ("0",), "log"),
    ("squitter_feed_take, Beast", "feed", ("beast", "frames"), "beast"),
    ("squitter_feed_take_text, Beast", "feed", ("beast", "text"), "beast"),
    ("squitter_feed_take, AVR", "feed", ("avr", "frames"), "avr"),
    ("squitter_feed_take, CSV", "feed", ("csv", "frames"), "csv"))


def programs(folder: str) -> Dict[str, Dict[str, str]]:
    """Returns the programs by the library that they stand on, and by their name."""
    made: Dict[str, Dict[str, str]] = {}
    for name, (compiler, library) in LIBRARIES.items():
        if not shutil.which(compiler):
            print(f"{name}: left out, it is not installed")
            continue
        made[name] = {program: f"{folder}/{program}.{name}" for program in ("log", "feed")}
        if library.endswith(".c"):
            subprocess.run([compiler, "-O2", f"-I{CLIB}", "-c", "-o", f"{folder}/{name}.o", library], check=True)
            library = f"{folder}/{name}.o"
        for program, path in made[name].items():
            source = TOP / "bench" / f"{program}.c"
            subprocess.run([compiler, "-O2", f"-I{CLIB}", "-o", path, str(source), library], check=True)
    return made


def main() -> None:
    count, rounds = numbers(LINES=1_000_000, ROUNDS=9)
    subprocess.run(["make", "-s", "-C", str(CLIB), "libsquitter.a"], check=True)
    with tempfile.TemporaryDirectory() as folder:
        inputs, made = Inputs(folder, count), programs(folder)
        print("| | assembly, ns a line |" + "".join(f" {name} |" for name in made if name != "assembly"))
        print("|---|---|" + "---|" * (len(made) - 1))
        for row, program, given, form in ROWS:
            path = inputs.log if form == "log" else inputs.feeds[form]
            runs = {name: of_process([paths[program], *given], path) for name, paths in made.items()}
            turns = [{name: run() for name, run in runs.items()} for _ in range(rounds)]
            if len({took.answers for turn in turns for took in turn.values()}) != 1:
                sys.exit(f"portable.py: {row}: the answers differ")
            least = {name: min(turn[name].processor for turn in turns) for name in made}
            first = least.pop("assembly")
            print(f"| {row} | {1e9 * first / count:.0f} |" +
                  "".join(f" {time / first:.2f} |" for time in least.values()))


if __name__ == "__main__":
    main()
