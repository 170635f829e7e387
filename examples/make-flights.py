#!/usr/bin/env python3
"""make-flights.py PROGRAM: writes flights.log and flights.truth, a log of five flights and their true positions.

Each line of the log has a timestamp (ms) and a frame. PROGRAM's `encode` makes the frames. Each line of the truth has
the number of its line in the log, the address, the encoded position, and the altitude in feet, or - on the ground. Some
lines of the log are damaged or out of order; the truth leaves these out. Both files are written once all is encoded."""
import argparse
import contextlib
import os
import re
import shutil
import subprocess
from typing import List, Tuple

STEP = 500  # milliseconds between the frames of one aircraft


def track(address, start, count, lat, lon, north, east, kind="air", silent=range(0), feet=0, up=0):
    """Positions of one aircraft in ten-millionths of a degree, so many to the north and to the east a step; and its
    altitude, so many feet up a step."""
    for step in range(count):
        if step not in silent:
            place = (lat + north * step, (lon + east * step + 1_800_000_000) % 3_600_000_000 - 1_800_000_000)
            height = feet + up * step if kind == "air" else None
            yield start + step * STEP, address, kind, "odd" if step % 2 else "even", place, height


def flights():
    # over a border of zone counts, at 10.4704713 degrees
    yield from track("4B1001", 0, 400, 104_000_000, 80_000_000, 4_001, 1_003, feet=38_000)
    # near the north pole, where degrees of longitude are short
    yield from track("A00002", 120, 400, 885_000_000, -1_200_000_000, 1_501, 400_007, feet=41_000)
    # over 180 degrees
    yield from track("7C0003", 240, 400, -170_000_000, 1_797_000_000, -2_003, 15_011, feet=28_000, up=25)
    # taxies, takes off and flies away
    yield from track("484004", 310, 200, 523_080_000, 47_630_000, 211, 307, kind="ground")
    yield from track("484004", 310 + 200 * STEP, 200, 523_122_200, 47_691_400, 5_003, 9_001, feet=-25, up=25)
    # falls silent for longer than the window, twice
    silent = [*range(120, 160), *range(300, 330)]
    yield from track("3C0005", 430, 460, 480_000_000, 110_000_000, -3_001, 12_007, silent=silent, feet=19_000, up=-25)


def degrees(ten_millionths):
    whole, part = divmod(abs(ten_millionths), 10_000_000)
    return f"{'-' if ten_millionths < 0 else ''}{whole}.{part:07}"


def written(program: str) -> Tuple[List[str], List[str]]:
    """Returns the lines of the log and those of the truth."""
    log: List[str] = []
    truth: List[str] = []
    for count, (moment, address, kind, parity, (lat, lon), feet) in enumerate(sorted(flights())):
        words = [f"--kind={kind}", f"--parity={parity}", f"--address={address}"]
        words += [] if feet is None else [f"--feet={feet}"]
        words += [f"--lat={degrees(lat)}", f"--lon={degrees(lon)}"]
        encoded = subprocess.run([program, "encode", *words], capture_output=True, text=True, check=True)
        frame = encoded.stdout.strip()
        if not re.fullmatch("[0-9A-F]{28}", frame):
            raise ValueError(f"{program} encode printed {frame[:60]!r}, which is no frame")
        log.append(f"{moment} *{frame};\n")
        truth.append(f"{len(log)} {address} {degrees(lat)} {degrees(lon)} {'-' if feet is None else feet}\n")
        if count % 97 == 50:  # the same frame with a damaged digit
            log.append(f"{moment} *{frame[:20]}{'0' if frame[20] != '0' else '1'}{frame[21:]};\n")
        if count % 151 == 100:  # the same frame with an earlier timestamp
            log.append(f"{moment - 3 * STEP} *{frame};\n")
    return log, truth


def main() -> None:
    parser = argparse.ArgumentParser(description="Writes flights.log and flights.truth beside this script.")
    parser.add_argument("program", metavar="PROGRAM", help="the program squitter, which encodes the positions")
    program = parser.parse_args().program
    if not shutil.which(program):
        parser.error(f"no program: {program}")
    here = os.path.dirname(os.path.abspath(__file__))
    files = [f"{here}/{name}" for name in ("flights.log", "flights.truth")]
    try:
        for path, lines in zip(files, written(program)):
            with open(f"{path}.part", "w", encoding="ascii") as file:
                file.writelines(lines)
        for path in files:
            os.replace(f"{path}.part", path)
    except (OSError, ValueError, subprocess.CalledProcessError) as why:
        for path in files:
            with contextlib.suppress(OSError):
                os.remove(f"{path}.part")
        parser.exit(1, f"{parser.prog}: nothing is written: {why}\n")


if __name__ == "__main__":
    main()
