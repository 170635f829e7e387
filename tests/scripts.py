"""The scripts of the repository, and how they refuse unknown words."""
import argparse
import glob
import os
import re
import subprocess
import tempfile
from concurrent.futures import ThreadPoolExecutor
from typing import Iterator, List, Optional, Tuple

TOP = os.path.dirname(os.path.dirname(os.path.abspath(__file__)))
FOLDERS = ".ci bench clib completions dist docs examples feeds hostile man tests vectors web".split()
SECONDS = 30
OPTION, PLAIN = "--nonesuch", "nonesuch-x"

# Scripts that are not called, and why. The launcher `squitter` is in none of the folders, because its words are those
# of the program. Nor is debian/, because the tools of Debian call its scripts.
EXEMPT = {
    ".ci/run": "installs packages, and then runs make check",
}
# Scripts that accept any plain word, or refuse it in another way. The text says what the word means.
FREE = {
    **{f"clib/tests/test_{name}.py": "a test; unittest says with status 1 that it is not there"
       for name in ("archive", "batch", "frames", "quick", "squitter")},
    "dist/differs": "a crate, which dist/sources refuses",
    "clib/rust/pack": "a new folder",
    "dist/make": "a new folder",
    "dist/release": "a new folder",
    "feeds/squitter-feed": "a file; the status is 3 if it is not there",
    "feeds/squitter-geojson": "a file too",
    "feeds/squitter-live": "a file too",
    "tests/packages": "a new folder",
    "web/pack": "a new folder",
    "vectors/run": "a command; the table says that it cannot be started",
}
# Scripts that import these modules before they read their words. They are not called if one is missing.
IMPORTS = {
    "clib/tests/test_archive.py": "numpy, dask, distributed",
    "clib/tests/test_batch.py": "numpy",
    "clib/tests/test_frames.py": "numpy",
}


def script_files() -> Iterator[str]:
    """Yields the path of each file in Python and for a shell."""
    for folder in FOLDERS:
        for path in glob.glob(f"{TOP}/{folder}/**", recursive=True):
            if os.path.isfile(path) and not re.search("/(out|build|__pycache__)/", path[len(TOP):]):
                with open(path, "rb") as file:
                    if path.endswith((".py", ".sh")) or file.read(2) == b"#!":
                        yield path


def is_program(word: str) -> str:
    """Returns the whole path of a program, for argparse. Refuses a word that names no executable file."""
    if not (os.path.isfile(word) and os.access(word, os.X_OK)):
        raise argparse.ArgumentTypeError(f"no program: {word}")
    return os.path.abspath(word)


def can_import(names: str) -> bool:
    return subprocess.run(["python3", "-c", f"import {names}"], stderr=subprocess.DEVNULL).returncode == 0


def calls() -> List[Tuple[str, str]]:
    """Returns each script that is called, and its word: an unknown option for all, and a plain word for most."""
    names = sorted(os.path.relpath(path, TOP) for path in script_files() if os.access(path, os.X_OK))
    names = [name for name in names if name not in EXEMPT and (name not in IMPORTS or can_import(IMPORTS[name]))]
    return [(name, word) for name in names for word in (OPTION, PLAIN) if word == OPTION or name not in FREE]


def trouble_of(program: str, name: str, word: str) -> Optional[str]:
    """Calls a script in an empty folder. Returns an error text if it ends in a wrong way, or None."""
    with tempfile.TemporaryDirectory() as folder:
        environment = {**os.environ, "PROGRAM": program, "TMPDIR": folder, "PYTHONDONTWRITEBYTECODE": "1"}
        try:
            ran = subprocess.run([f"{TOP}/{name}", word], cwd=folder, env=environment, stdin=subprocess.DEVNULL,
                                 capture_output=True, text=True, errors="replace", timeout=SECONDS)
        except subprocess.TimeoutExpired:
            return f"{name} {word}: no end within {SECONDS} seconds"
        left = os.listdir(folder)
    told = f"{name} {word}: status {ran.returncode}, {ran.stdout[:200]!r}, {ran.stderr[-300:]!r}"
    said_by = [line for line in ran.stderr.splitlines() if os.path.basename(name) in line]
    if ran.returncode != 2 or ran.stdout or not said_by or "Traceback" in ran.stderr:
        return told
    return f"{told}, leaves {' '.join(left)}" if left else None


def refused_badly(program: str) -> Tuple[int, List[str]]:
    """Calls all scripts, some at once. Returns the number of calls, and a line for each that is not refused as it must.

    PROGRAM is set, so that no script builds the program."""
    all_calls = calls()
    with ThreadPoolExecutor(2 * (os.cpu_count() or 1)) as pool:
        return len(all_calls), [told for told in pool.map(lambda one: trouble_of(program, *one), all_calls) if told]
