#!/usr/bin/env python3
"""surfaces.py [LINES [ROUNDS]]: the time of each way to hear one log, beside `squitter track`: C, NumPy, data
frames, Python, Node and the page, and feeds by their format.

The log has a million LINES of 900 aircraft (bench/gen.c). Each row has the least time and the least processor time of
five ROUNDS, in nanoseconds a line. Rows of Python count the calls alone; all others count their whole process, and a
pipe counts both of its programs. Calls for one frame get the first twentieth of the log. `squitter-geojson` gets the
results of the whole log as rows of CSV. `read_many` and `hear_many` make no result, since none is asked for. The
answers of the program, also behind `squitter feed` and `squitter-feed`, of Python, Node and the page are compared, and
the logs of the feeds too. Needs NumPy, pandas and a C compiler; skips Node and Chromium if missing. With ROWS in the
environment, only rows with these words are timed, beside `track`: ROWS=squitter-feed."""
import contextlib
import hashlib
import os
import re
import shlex
import subprocess
import sys
import tempfile
import time
from fractions import Fraction
from pathlib import Path
from typing import Any, Callable, Dict, List, Mapping, NamedTuple, Optional, Sequence, Tuple

TOP = Path(__file__).resolve().parent.parent
CLIB = TOP / "clib"
sys.path[:0] = [str(CLIB), str(TOP / "tests" / "browser")]
import chromium  # noqa: E402
from trying import Missing, Tries  # noqa: E402
from using import typed  # noqa: E402

SITE = ("52.1", "4.7")
AIRCRAFT, PIECE, TEXT_PIECE, PART = 900, 100, 1 << 16, 20
EPOCH = 1_700_000_000_000  # the Unix time (ms) at which the rows of CSV start
DIGEST = """squitterLog.texts()
  .then((texts) => crypto.subtle.digest("SHA-256", new TextEncoder().encode(texts.join(""))))
  .then((sum) => Array.from(new Uint8Array(sum), (byte) => byte.toString(16).padStart(2, "0")).join(""))"""


class Took(NamedTuple):
    """The time of a run and its processor time in seconds, and the SHA-256 of its answers, if it tells them."""

    seconds: float
    processor: float
    answers: str = ""


class Way(NamedTuple):
    """A row: how many lines it hears, and a run of it."""

    count: int
    run: Callable[[], Took]


class Inputs:
    """The log in each form, in a folder."""

    def __init__(self, folder: str, count: int, aircraft: int = AIRCRAFT) -> None:
        self.folder, self.count, self.part = Path(folder), count, max(count // PART, 1)
        words = [self.built("gen", "-lm"), "track", str(count), "1", str(aircraft)]
        self.lines = subprocess.run(words, check=True, capture_output=True).stdout.splitlines(keepends=True)
        parts = map(bytes.split, self.lines)
        self.squitters = [(int(moment), bytes.fromhex(frame.decode())) for moment, frame in parts]
        self.log = self.written("log", b"".join(self.lines))
        self.feeds = {name: self.written(name, b"".join(spelled(*one) for one in self.squitters))
                      for name, spelled in (("beast", beast), ("avr", avr), ("csv", csv))}

    def written(self, name: str, data: bytes) -> Path:
        path = self.folder / name
        path.write_bytes(data)
        return path

    def built(self, name: str, *words: str) -> str:
        """A C program of this folder, compiled."""
        program = str(self.folder / f"{name}.out")
        subprocess.run(["cc", "-O2", f"-I{CLIB}", "-o", program, str(TOP / "bench" / f"{name}.c"), *words], check=True)
        return program


def beast(moment: int, frame: bytes) -> bytes:
    body = (12_000 * moment).to_bytes(6, "big") + b"\x80" + frame
    return b"\x1a3" + body.replace(b"\x1a", b"\x1a\x1a")


def avr(moment: int, frame: bytes) -> bytes:
    return f"@{12_000 * moment:012X}{frame.hex().upper()};\n".encode()


def csv(moment: int, frame: bytes) -> bytes:
    millis = EPOCH + moment
    return f"{millis // 1000}.{millis % 1000:03},{frame[1:4].hex()},{frame.hex()}\n".encode()


def of_pipe(first: Sequence[str], second: Sequence[str], path: Path) -> Callable[[], Took]:
    """A run of two programs, with a file as the input of the first and a pipe between them."""
    # The shell waits for both, so its processor time has theirs.
    return of_process(["sh", "-c", f"{shlex.join(first)} | {shlex.join(second)}"], path)


def of_process(words: Sequence[str], path: Optional[Path]) -> Callable[[], Took]:
    """A run of a program with a file as its input. Its statuses are 0 and 1."""
    def run() -> Took:
        with open(path or os.devnull, "rb") as given, tempfile.TemporaryFile() as answers:
            start = time.perf_counter()
            child = subprocess.Popen(words, stdin=given, stdout=answers, stderr=subprocess.DEVNULL)
            _, status, used = os.wait4(child.pid, 0)
            seconds = time.perf_counter() - start
            child.returncode = os.waitstatus_to_exitcode(status)
            if child.returncode not in (0, 1):
                sys.exit(f"{words[0]} ended with status {child.returncode}")
            answers.seek(0)
            return Took(seconds, used.ru_utime + used.ru_stime, hashlib.sha256(answers.read()).hexdigest())
    return run


def of_calls(call: Callable[[], Optional[bytes]]) -> Callable[[], Took]:
    """A run of Python calls, which may return answers as text."""
    def run() -> Took:
        start, used = time.perf_counter(), time.process_time()
        answers = call()
        seconds, processor = time.perf_counter() - start, time.process_time() - used
        return Took(seconds, processor, "" if answers is None else hashlib.sha256(answers).hexdigest())
    return run


def of_page(browser: chromium.Chromium, path: Path) -> Callable[[], Took]:
    """A run of the page, from the choice of the file to the last row."""
    def run() -> Took:
        browser.open(f"file://{TOP}/web/index.html#log")
        typed(browser, log_lat=SITE[0], log_lon=SITE[1])
        before = browser.processor_seconds()
        browser.give("#log-file", str(path))
        # (the page is asked seldom, because each question costs it time)
        while not browser.evaluate("Boolean(squitterLog.name) && squitterLog.worker === null"):
            time.sleep(0.1)
        processor = browser.processor_seconds() - before
        return Took(float(browser.evaluate("squitterLog.seconds")), processor, str(browser.evaluate(DIGEST)))
    return run


def ways_of_python(inputs: Inputs) -> Dict[str, Way]:
    """The rows of the module."""
    import numpy as np
    import squitter
    from squitter import batch

    site, count = squitter.Position(*map(Fraction, SITE)), inputs.count
    moments = np.array([moment for moment, _ in inputs.squitters], np.uint64)
    frames = np.frombuffer(b"".join(frame for _, frame in inputs.squitters), np.uint8).reshape(-1, 14)
    text, data, first = inputs.log.read_bytes(), frames.tobytes(), inputs.squitters[:inputs.part]

    def in_pieces() -> None:
        tracker = batch.Tracker(site=site)
        for at in range(0, count, PIECE):
            tracker.hear(moments[at:at + PIECE], frames[at:at + PIECE])

    def as_log() -> bytes:
        with squitter.Log(site=site) as log:
            pieces = [log.take_text(text[at:at + TEXT_PIECE]) for at in range(0, len(text), TEXT_PIECE)]
            return b"".join([*pieces, log.finish_text()])

    def one_by_one() -> None:
        with squitter.Tracker(site=site) as tracker:
            for moment, frame in first:
                tracker.hear(moment, frame)

    calls: Dict[str, Tuple[int, Callable[[], Any]]] = {
        "batch.track": (count, lambda: batch.track(moments, frames, site=site) and None),
        "batch.Tracker, 100 lines a call": (count, in_pieces),
        "batch.dataframe": (count, lambda: batch.dataframe(inputs.log, site=site) is None or None),
        "squitter.Log": (count, as_log),
        "squitter.read_many": (count, lambda: squitter.read_many(data) and None),
        "squitter.Tracker.hear_many": (count, lambda: squitter.Tracker(site=site).hear_many(moments, data) and None),
        "squitter.read, one by one": (len(first), lambda: [squitter.read(frame) for _, frame in first] and None),
        "squitter.Tracker.hear, one by one": (len(first), one_by_one),
    }
    calls.update({f"batch.feed of {name}": (count, lambda path=path: batch.feed(path) and None)
                  for name, path in inputs.feeds.items()})
    return {name: Way(lines, of_calls(call)) for name, (lines, call) in calls.items()}


def ways_of_programs(inputs: Inputs, program: str) -> Dict[str, Way]:
    """The rows of the program, of C and of the scripts of feeds/."""
    library, count = str(CLIB / "libsquitter.a"), inputs.count
    log, feed = inputs.built("log", library), inputs.built("feed", library)
    site = [f"--lat={SITE[0]}", f"--lon={SITE[1]}"]
    table = [program, "track", "--format=csv", *site]
    results = inputs.written("rows.csv", subprocess.run(
        table, stdin=open(inputs.log, "rb"), stdout=subprocess.PIPE, check=True).stdout)
    rows = {
        "squitter track": Way(count, of_process([program, "track", *site], inputs.log)),
        "squitter track --format=csv": Way(count, of_process(table, inputs.log)),
        "squitter_log_take, C": Way(count, of_process([log], inputs.log)),
        "squitter_log_take_text, C": Way(count, of_process([log, "0"], inputs.log)),
    }
    rows.update({f"squitter_feed_take_text of {name}, C": Way(count, of_process([feed, name, "text"], path))
                 for name, path in inputs.feeds.items()})
    for name, path in inputs.feeds.items():
        feeding = [program, "feed", f"--format={name}"]
        rows[feed_row(name)] = Way(count, of_process(feeding, path))
        rows[pipe_row(name)] = Way(count, of_pipe(feeding, [program, "track", *site], path))
        script = [f"{TOP}/feeds/squitter-feed", str(path)]
        rows[script_row(name)] = Way(count, of_process(script, None))
        rows[behind_script(name)] = Way(count, of_pipe(script, [program, "track", *site], Path(os.devnull)))
    rows["squitter-geojson"] = Way(count, of_process([f"{TOP}/feeds/squitter-geojson", str(results)], None))
    return rows


def feed_row(name: str) -> str:
    return f"squitter feed --format={name}"


def script_row(name: str) -> str:
    return f"squitter-feed of {name}"


def behind_script(name: str) -> str:
    return f"{script_row(name)} \\| squitter track"


def pipe_row(name: str) -> str:
    return f"{feed_row(name)} \\| squitter track"


def ways_of_browsers(inputs: Inputs, program: str, closing: contextlib.ExitStack) -> Dict[str, Way]:
    """The rows of Node and of the page. The browser is closed by `closing`."""
    rows = {}
    try:
        node = Tries(program, str(inputs.folder)).node
        for form in ("columns", "texts"):
            words = [*node, str(TOP / "bench" / "log.mjs"), form, *SITE]
            rows[f"Node, {form}"] = Way(inputs.count, of_process(words, inputs.log))
    except Missing as tool:
        print(f"Node: skipped, needs {tool}")
    if chromium.installed():
        browser = chromium.Chromium()
        closing.callback(browser.close)
        rows["the page"] = Way(inputs.count, of_page(browser, inputs.log))
    else:
        print("the page: skipped, needs chromium")
    return rows


def chosen(ways: Mapping[str, Way], words: str) -> Dict[str, Way]:
    """Returns the rows that have these words, and that of `track`."""
    found = {name: way for name, way in ways.items() if words in name or name == "squitter track"}
    if words and len(found) < 2:
        sys.exit(f"surfaces.py: no row has {words}")
    return found


def digest(text: str) -> str:
    return hashlib.sha256(text.encode()).hexdigest()


def feeds_differ(inputs: Inputs, runs: Mapping[str, Sequence[Took]]) -> bool:
    """Whether a feed's log is not the log that its source was made of. The times of CSV are those since 1970."""
    late = b"".join(b"%d %s\n" % (EPOCH + moment, frame.hex().upper().encode()) for moment, frame in inputs.squitters)
    logs = {name: late if name == "csv" else b"".join(inputs.lines) for name in inputs.feeds}
    sums = {row(name): hashlib.sha256(log).hexdigest() for name, log in logs.items() for row in (feed_row, script_row)}
    return any(run.answers != wanted for row, wanted in sums.items() for run in runs.get(row, ()))


def least(runs: Sequence[Took], count: int) -> Tuple[float, float]:
    """Returns the least time and processor time of some runs, in nanoseconds a line."""
    return tuple(1e9 * min(some) / count for some in list(zip(*runs))[:2])  # type: ignore[return-value]


def numbers(**usual: int) -> List[int]:
    """Returns the numbers of the command line, and the usual ones for those that it lacks. Other words end the run."""
    words = sys.argv[1:]
    wrong = [f"{word} is no number from 1 on" for word in words if not re.fullmatch("[1-9][0-9]*", word)]
    wrong += [f"takes {' and '.join(usual)}, and no more words"] * (len(words) > len(usual))
    if wrong:
        print(f"{os.path.basename(sys.argv[0])}: {wrong[0]}", file=sys.stderr)
        sys.exit(2)
    return [*map(int, words), *list(usual.values())[len(words):]]


def main() -> None:
    count, rounds = numbers(LINES=1_000_000, ROUNDS=5)
    program = os.environ.get("PROGRAM") or subprocess.run(
        [f"{TOP}/dist/program"], check=True, stdout=subprocess.PIPE, text=True).stdout.strip()
    subprocess.run(["make", "-s", "-C", str(CLIB), "libsquitter.a", "libsquitter.so.0"], check=True)
    with tempfile.TemporaryDirectory() as folder, contextlib.ExitStack() as closing:
        inputs = Inputs(folder, count)
        ways = {**ways_of_programs(inputs, program), **ways_of_python(inputs),
                **ways_of_browsers(inputs, program, closing)}
        ways = chosen(ways, os.environ.get("ROWS", ""))
        turns = [[way.run() for way in ways.values()] for _ in range(rounds)]
    runs = dict(zip(ways, zip(*turns)))
    pipes = [row(name) for name in inputs.feeds for row in (pipe_row, behind_script)]
    compared = ("squitter track", *pipes, "squitter.Log", "Node, texts", "the page")
    counted = {run.answers for run in runs.get("Node, columns", [])}
    if len({run.answers for name in compared for run in runs.get(name, [])}) != 1 or counted - {digest(f"{count}\n")}:
        sys.exit("surfaces.py: the answers differ")
    if feeds_differ(inputs, runs):
        sys.exit("surfaces.py: the log of a feed differs")
    print(f"{count} lines of {AIRCRAFT} aircraft, the least of {rounds} rounds")
    print("| | ns a line | beside `track` | processor ns a line | beside `track` |\n|---|---|---|---|---|")
    beside = least(runs["squitter track"], count)
    for name, some in runs.items():
        seconds, processor = least(some, ways[name].count)
        print(f"| {name} | {seconds:.0f} | {seconds / beside[0]:.2f} | {processor:.0f} | {processor / beside[1]:.2f} |")


if __name__ == "__main__":
    main()
