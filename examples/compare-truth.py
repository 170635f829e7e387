#!/usr/bin/env python3
"""compare-truth.py TRUTH < ANSWERS: compares each position that `track` printed with the truth.

A position has to be the grid point nearest to the true position, to seven decimals. The grid is the even or the odd
one, in the air or on the ground. The script computes the points with exact fractions, from the standard alone. The
status is 1 if a position is not true, or if there is none, 2 if a line cannot be read, and 3 if the output fails."""
import argparse
import os
import sys
from fractions import Fraction
from math import floor

sys.path.insert(0, f"{os.path.dirname(os.path.abspath(__file__))}/../hostile")
from rules import CODES, decimals, east_of, lon_zones  # noqa: E402


def nearest(x, step):
    return floor(x / step + Fraction(1, 2)) * step


def points(lat, lon):
    """The points to which a position rounds: in the air and on the ground, even and odd."""
    for span in (360, 90):
        for parity in (0, 1):
            point_lat = nearest(lat, Fraction(span, (60 - parity) * CODES))
            point_lon = nearest(lon, Fraction(span, lon_zones(point_lat, parity) * CODES))
            yield decimals(point_lat), decimals(east_of(point_lon, -180))


class Unreadable(Exception):
    """A line that cannot be compared."""


def truth_of(lines):
    """The address and the points of each line of the log, by its number."""
    truth = {}
    for count, line in enumerate(lines, 1):
        try:
            number, address, lat, lon, _ = line.split()
            truth[number] = (address, set(points(Fraction(lat), Fraction(lon))))
        except (ValueError, ZeroDivisionError):
            raise Unreadable(f"line {count} of TRUTH is {line.strip()[:80]!r}, not NUMBER ADDRESS LAT LON FEET as in "
                             "examples/flights.truth") from None
    return truth


def compared(truth, answers):
    """Compares each answer. Returns how many places there are, how many are not true, and how many lines have none."""
    places = wrong = waiting = refused = 0
    for count, line in enumerate(answers, 1):
        number, word, *rest = [*line.split(), "", ""]
        is_place = word in ("fix", "followed")
        if not number.isdigit() or not word or (is_place and len(rest) != 5):
            raise Unreadable(f"line {count} of ANSWERS is {line.strip()[:80]!r}, and no line of 'squitter track'")
        if is_place:
            places += 1
            address, known = truth.get(number, ("", ()))
            if rest[0] != address or (rest[1], rest[2]) not in known:
                wrong += 1
                print("not true:", line.strip(), file=sys.stderr)
        elif number in truth:
            waiting += 1
        else:
            refused += 1
    return places, wrong, waiting, refused


def main():
    parser = argparse.ArgumentParser(description="Compares the answers of 'squitter track' with the true positions.",
                                     usage="%(prog)s [-h] TRUTH < ANSWERS")
    parser.add_argument("truth", metavar="TRUTH", type=argparse.FileType(encoding="ascii", errors="backslashreplace"),
                        help="the true positions, as examples/flights.truth has them")
    words = parser.parse_args()
    sys.stdin.reconfigure(errors="backslashreplace")
    try:
        places, wrong, waiting, refused = compared(truth_of(words.truth), sys.stdin)
    except Unreadable as why:
        parser.error(str(why))
    told = f"{places} places compared, {wrong} not true; {waiting} lines without a place, {refused} refused"
    try:
        print(told, flush=True)
    except OSError as why:
        print(f"compare-truth.py: {why.strerror}", file=sys.stderr, flush=True)
        os._exit(3)  # At a normal end Python would write once more what the output has refused.
    sys.exit(0 if places and not wrong else 1)


if __name__ == "__main__":
    main()
