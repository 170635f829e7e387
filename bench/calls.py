#!/usr/bin/env python3
"""calls.py: calls a second of the module squitter: the fastest of five runs."""
import os
import sys
import timeit
from fractions import Fraction

sys.path.insert(0, os.path.join(os.path.dirname(os.path.abspath(__file__)), "..", "clib"))
import squitter  # noqa: E402

EVEN, ODD = "8D40621D58C382D690C8AC2863A7", "8D40621D58C386435CC412692AD6"
PLACE = squitter.Position(Fraction(428091, 8192), Fraction(64215, 16384))
FRAMES = squitter.frame(ODD), squitter.frame(EVEN)
HEAD = squitter.AirHead(0x40621D, 0xC38)
CONTACT = squitter.Contact(10_000)


def main():
    calls = {
        "read (text)": lambda: squitter.read(EVEN), "read (bytes)": lambda: squitter.read(FRAMES[1]),
        "local": lambda: squitter.local(FRAMES[1], PLACE), "pair": lambda: squitter.pair(*FRAMES),
        "hear": lambda: CONTACT.hear(1, FRAMES[1]), "encode": lambda: squitter.encode(HEAD, PLACE),
        "angle_text": lambda: squitter.angle_text(PLACE.lat),
    }
    for name, call in calls.items():
        best = min(timeit.repeat(call, number=5000, repeat=5)) / 5000
        print(f"{name:18} {best * 1e9:9.0f} ns {1 / best:12.0f} a second")


if __name__ == "__main__":
    main()
