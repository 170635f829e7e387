"""Calls of the scripts of examples/ that are refused: the input, the status and what is reported."""
import subprocess
from typing import Iterator, List, NamedTuple

TRUTH = "flights.truth"
A_FIX = "1 fix 4B1001 1.0 2.0\n"


class Call(NamedTuple):
    """A call, with FOLDER for the folder of the scripts; the status; and what it reports, among other words."""

    words: List[str]
    given: str
    status: int
    said: str


def of_truth(text: str, status: int, said: str) -> Call:
    return Call(["FOLDER/compare-truth.py", "/dev/stdin"], text, status, said)


def of_answers(text: str, status: int, said: str) -> Call:
    return Call(["FOLDER/compare-truth.py", f"FOLDER/{TRUTH}"], text, status, said)


# A truth or answers that are something else, and answers to lines that the truth lacks.
COMPARED = [
    Call(["FOLDER/compare-truth.py", "FOLDER/flights.log"], "", 2, "line 1 of TRUTH is '0 *8D4B"),
    Call(["FOLDER/compare-truth.py", "FOLDER/flights.png"], "", 2, "line 1 of TRUTH is '\\\\x89PNG', not NUMBER"),
    *(of_truth(f"{text}\n", 2, "line 1 of TRUTH is ") for text in (
        "", "1 A 52 4", "1 A x y -", "1 A 1/0 4 -", "1 A nan 4 -", "1 A 52 4 - -")),
    *(of_answers(f"1 waiting 4B1001\n{text}\n", 2, "line 2 of ANSWERS is ") for text in (
        "", "6", "6 fix", "6 fix 4B1001", "6 fix 4B1001 1.0", "6 fix 4B1001 1.0 2.0 3", "x fix 4B1001 1.0 2.0",
        "line,moment,answer", "\u00fc")),
    of_answers(f"{A_FIX}9999999 fix 4B1001 1.0 2.0\n", 1, "not true: 9999999 fix 4B1001 1.0 2.0\n"),
    Call(["FOLDER/compare-truth.py", "/dev/null"], A_FIX, 1, f"not true: {A_FIX}"),
    Call(["sh", "-c", f"FOLDER/compare-truth.py FOLDER/{TRUTH} > /dev/full"], A_FIX, 3,
         "compare-truth.py: No space left on device\n"),
]
# Programs that print no frame.
MADE = [Call(["FOLDER/make-flights.py", program], "", 1, f"nothing is written: {program} encode printed '{printed}")
        for program, printed in (("/bin/true", "', which is no frame"), ("/bin/echo", "encode --kind=air"))]
# Lines that `track` does not print, and pictures that cannot be written.
DRAWN = [
    *(Call(["FOLDER/plot", "FOLDER/drawn.svg"], f"{A_FIX}{text}\n", 1, "plot: line 2 is ") for text in (
        "", "1", "1 fix", "1 fix 4B1001", "1 fix 4B1001 x y", "1 fix 4B1001 nan nan", "1 fix 4B1001 1e400 2.0",
        "1 fix A\" 1.0 2.0", "line,moment,answer", "\u00fc")),
    Call(["FOLDER/plot", "/nonexistent/drawn.svg"], A_FIX, 1, "plot: cannot write /nonexistent/drawn.svg: No "),
    *(Call(["FOLDER/plot", f"FOLDER/{name}.svg"], A_FIX, 0, "") for name in (
        "a b", "a\"b", "a'b", "`exit 1`", "a\\nb")),
]


def differences(folder: str, calls: List[Call]) -> Iterator[str]:
    """Yields what is wrong with these calls of the scripts in a folder."""
    for words, given, status, said in calls:
        command = [word.replace("FOLDER", folder) for word in words]
        ran = subprocess.run(command, input=given, capture_output=True, text=True)
        if ran.returncode != status or said not in ran.stderr or "Traceback" in ran.stderr:
            yield f"{command} with {given!r}: status {ran.returncode}, {ran.stderr[-500:]}"
