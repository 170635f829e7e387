#!/usr/bin/env python3
"""batch.py [FRAMES [ROUNDS]]: squitter.batch beside the calls and the program that do the same: the nanoseconds of a
frame, and frames a second, of `read` beside C's squitter_read_many, and of `track` beside C's
squitter_tracker_hear_many, by itself and with the degrees that `track` answers, and beside `squitter track`.

A million frames (or so many FRAMES) of 900 aircraft, made by gen.c. Each is run in turn for five ROUNDS (or so many),
`read` ten times a round as C's is, and the fastest counts, so that what else the machine does weighs on all alike.
Needs NumPy and a C compiler."""
from __future__ import annotations

import argparse
import os
import re
import subprocess
import sys
import tempfile
import time
from fractions import Fraction
from typing import Any, Callable, Dict, Tuple

try:
    import numpy as np
    from numpy.typing import NDArray
except ImportError:
    np = None  # main reads the words first

HERE = os.path.dirname(os.path.abspath(__file__))
CLIB = os.path.join(HERE, "..", "clib")
sys.path.insert(0, CLIB)
AIRCRAFT = 900


def number(word: str) -> int:
    """Returns a number from 1 on, or refuses the word."""
    if not re.fullmatch("[1-9][0-9]*", word):
        raise argparse.ArgumentTypeError(f"{word} is no number from 1 on")
    return int(word)


def built(folder: str, name: str, *words: str) -> str:
    """A C program of this folder."""
    path = os.path.join(folder, name)
    subprocess.run(["cc", "-O2", f"-I{CLIB}", "-o", path, os.path.join(HERE, f"{name}.c"), *words], check=True)
    return path


def timed(count: int, call: Callable[[], object], times: int = 1) -> float:
    """The nanoseconds of a frame, of so many calls in the fastest."""
    best = float("inf")
    for _ in range(times):
        start = time.perf_counter()
        call()
        best = min(best, time.perf_counter() - start)
    return best * 1e9 / count


def log_of(folder: str, count: int) -> Tuple[NDArray[Any], NDArray[Any], NDArray[Any]]:
    """A log: its moments, the texts of its frames, and these as bytes. It stays in the folder, as do its
    frames and its moments."""
    words = [built(folder, "gen", "-lm"), "track", str(count), "1", str(AIRCRAFT)]
    log = subprocess.run(words, stdout=subprocess.PIPE, check=True).stdout
    with open(f"{folder}/log", "wb") as file:
        file.write(log)
    parts = log.split()
    moments, texts = np.array(parts[::2], "S20").astype(np.uint64), np.array(parts[1::2], "S28")
    frames = np.frombuffer(bytes.fromhex(b"".join(parts[1::2]).decode()), np.uint8).reshape(-1, 14)
    frames.tofile(f"{folder}/frames")
    moments.tofile(f"{folder}/moments")
    return moments, texts, frames


def figures(folder: str, count: int) -> Dict[str, Callable[[], float]]:
    """What is measured, by the line that says it: each answers the nanoseconds of a frame."""
    import squitter
    from squitter import batch

    moments, texts, frames = log_of(folder, count)
    from_c, tracker = (built(folder, name, os.path.join(CLIB, "libsquitter.a")) for name in ("read_many", "track_many"))
    program = subprocess.run([f"{HERE}/../dist/program"], stdout=subprocess.PIPE, text=True, check=True).stdout.strip()
    site = squitter.Position(Fraction(521, 10), Fraction(47, 10))
    fields, faults = batch.read(frames)
    heard, told = batch.track(moments, frames, site=site)
    ones = [frame.tobytes() for frame in frames[:20_000]]

    def by_c() -> float:
        return float(subprocess.run([from_c, f"{folder}/frames"], stdout=subprocess.PIPE, check=True).stdout)

    def by_tracker(place: int) -> Callable[[], float]:
        words = [tracker, f"{folder}/moments", f"{folder}/frames"]
        return lambda: float(subprocess.run(words, stdout=subprocess.PIPE, check=True).stdout.split()[place])

    def by_program() -> None:
        with open(f"{folder}/log", "rb") as source, open(f"{folder}/answers", "wb") as answers:
            subprocess.run([program, "track", "--lat=52.1", "--lon=4.7"], stdin=source, stdout=answers)

    by_program()
    with open(f"{folder}/answers", "rb") as answers:
        if answers.read() != batch.lines(heard, told):
            sys.exit("batch.py: `track` and the program differ")
    return {
        "squitter_read_many, C": by_c,
        "batch.read, arrays given": lambda: timed(count, lambda: batch.read(frames, fields, faults), 10),
        "batch.read, new arrays": lambda: timed(count, lambda: batch.read(frames), 10),
        "batch.read of S28": lambda: timed(count, lambda: batch.read(texts), 10),
        "squitter.read, one by one": lambda: timed(len(ones), lambda: [squitter.read(one) for one in ones]),
        "squitter_tracker_hear_many": by_tracker(0),
        "and degrees, C": by_tracker(1),
        "squitter track": lambda: timed(count, by_program),
        "batch.track, arrays given": lambda: timed(
            count, lambda: batch.track(moments, frames, site=site, out=heard, faults=told)),
        "batch.track, new arrays": lambda: timed(count, lambda: batch.track(moments, frames, site=site)),
        "batch.track and lines": lambda: timed(count, lambda: batch.lines(*batch.track(moments, frames, site=site))),
    }


def main() -> None:
    parser = argparse.ArgumentParser(description=__doc__, formatter_class=argparse.RawDescriptionHelpFormatter)
    parser.add_argument("frames", nargs="?", default=1_000_000, type=number, metavar="FRAMES")
    parser.add_argument("rounds", nargs="?", default=5, type=number, metavar="ROUNDS")
    words = parser.parse_args()
    if np is None:
        sys.exit("batch.py: needs NumPy")
    count, rounds = words.frames, words.rounds
    subprocess.run(["make", "-s", "-C", CLIB, "libsquitter.a", "libsquitter.so.0"], check=True)
    with tempfile.TemporaryDirectory() as folder:
        measured = figures(folder, count)
        best = {name: min(times) for name, times in zip(measured, zip(*(
            [run() for run in measured.values()] for _ in range(rounds))))}
    print(f"{count} frames of {AIRCRAFT} aircraft, the fastest of {rounds} rounds")
    for name, took in best.items():
        beside = best["squitter_tracker_hear_many" if "track" in name or "degrees" in name else "squitter_read_many, C"]
        print(f"{name:26} {took:8.1f} ns {1e9 / took:12,.0f} a second {beside / took:6.2f}")


if __name__ == "__main__":
    main()
