#!/usr/bin/env python3
"""hostile_log.py [KIND]: prints a log that readers stumble over, the same each time. KIND is by default `oddities`:
carriage returns, empty and long lines, bytes that are no text, moments at their limits and back, more addresses than a
table holds, and no line feed at the end. LOGS has the other kinds; --kinds prints their names."""
import argparse
import random
import sys
from typing import Iterator

import squitter
from squitter import AirHead, Position


def frame(address: int, odd: int, tenths: int) -> str:
    """The frame of an aircraft that stands at so many tenths of a degree."""
    return squitter.frame_text(squitter.encode(AirHead(address, odd=odd), Position(tenths % 80, tenths % 170)))


def many_aircraft(rng: random.Random) -> Iterator[bytes]:
    """Crowds that fill the table, each of which is forgotten when the next comes, and one that overfills it."""
    for crowd in range(4):
        for k in range(900 if crowd < 3 else 1300):
            address = 1 + 2000 * crowd + k
            yield b"%d %s" % (100_000 * crowd + 2 * k, frame(address, k % 2, k).encode())
            if rng.random() < 0.3:
                yield b"%d %s" % (100_000 * crowd + 2 * k + 1, frame(address, 1 - k % 2, k).encode())


def oddities(moment: int) -> Iterator[bytes]:
    """Lines that are refused, or read with care."""
    good = frame(0x40621D, 0, 7).encode()
    other = b"8D406B902015A678D4D220AA4BDA"
    yield from (b"", b"\r", b"\r\r", b" ", b"  ", b"\0", b"%d" % moment, b"%d " % moment)
    yield from (b"%d %s\r" % (moment, good), b"%d  %s" % (moment, good))
    yield from (b"%d %s " % (moment, good), b"%d *%s;" % (moment, good))
    yield from (b"-1 " + good, b"+1 " + good, b"1.5 " + good, b" %d %s" % (moment, good), "\u0663 ".encode() + good)
    yield from (b"0" * 20 + b" " + good, b"0" * 21 + b" " + good)
    yield from (b"18446744073709551616 " + good, b"99999999999999999999 " + good)
    yield from (b"%020d %s" % (moment, good), b"%d %s" % (moment, other), b"%d %s" % (moment, other[:-1] + b"\xff"))
    yield from (b"%d %s" % (moment, b"\xe2\x82" + good), b"%d %s\0" % (moment, good))
    yield b"%d %s" % (moment, "\u00e9".encode())
    yield from (b"%d " % moment + b"x" * (length - len(b"%d" % moment)) for length in (63, 64))
    yield from (b"x" * 63 + b"\r", b"x" * 64 + b"\r", b"x" * 64, b"x" * 65, b"x" * 100_000)
    yield from (b"%d %s" % (moment - 1, good), b"18446744073709551615 " + good, b"%d %s" % (moment, good))


def oddities_of_all() -> bytes:
    """Crowds, and then all oddities."""
    return b"\n".join([*many_aircraft(random.Random(7)), *oddities(1_000_000)])


GOOD = b"5 8D40621D58C382D690C8AC2863A7"
LOGS = {
    "oddities": oddities_of_all,
    "empty": lambda: b"",
    "empty_lines": lambda: b"\n" * 200_000,
    # The answers are longer than their lines, so a piece has more of them than an output buffer holds.
    "short_lines": lambda: b"x\n" * 100_000,
    "short_line": lambda: b"x",
    "one_line": lambda: GOOD + b"\n",
    "no_line_feed": lambda: GOOD,
    # Exactly one piece of the examples, and a piece that ends in the middle of a line.
    "whole_piece": lambda: (GOOD + b"\n") * 2114 + b"x\n",
    "cut_line": lambda: (GOOD + b"\n") * 2114 + GOOD + b"\n",
    "long_line": lambda: b"x" * 200_000,
    "zeros": lambda: bytes(200_000),
}


def main() -> None:
    parser = argparse.ArgumentParser(description=__doc__, formatter_class=argparse.RawDescriptionHelpFormatter)
    parser.add_argument("kind", nargs="?", choices=LOGS, default="oddities", metavar="KIND")
    parser.add_argument("--kinds", action="store_true", help="print the names of all kinds")
    words = parser.parse_args()
    if words.kinds:
        print(*LOGS, sep="\n")
    else:
        sys.stdout.buffer.write(LOGS[words.kind]())


if __name__ == "__main__":
    main()
