#!/usr/bin/env python3
"""damaged.py [--streams N]: squitter-feed beside the definitions of a feed (vectors/cases/feeds.py).

The feeds of vectors/, and for each format N random streams (2000), most of them damaged, are heard as they are cut and
in other pieces. The lines, the counts and the words of a refusal must be those of the definitions."""
from __future__ import annotations

import argparse
import json
import os
import random
import re
import sys
from collections import Counter
from typing import Any, Dict, List, Optional, Tuple

TOP = os.path.dirname(os.path.dirname(os.path.dirname(os.path.abspath(__file__))))
sys.dont_write_bytecode = True
sys.path[:0] = [f"{TOP}/feeds", f"{TOP}/feeds/tests", f"{TOP}/clib", f"{TOP}/vectors"]

from cases import feeds
from squitter import FeedFormat, Stranger
from squitter_feed import REFUSALS, Feed, Refused
from streams import FORMS, made
from trying import expect, same

STREAMS = 2000
# Text before the first line of AVR text, and before each frame.
FRONTS = (b"\r", b"\n", b"x\n", b"8D40;", b"*2040;", b'MSG,3,1,1,4840D6\n', b'{"now":1}\n', b"time;icao24;rawmsg\n")
PREFIXES = (b"\r", b"  ", b"\t", b"rx1: ", b"2026-11-29 22:00:00 ", b"a,b,", b'{"a":1} ', b"5 x ")


def number(word: str) -> int:
    """Returns a number from 1 on, or refuses the word."""
    if not re.fullmatch("[1-9][0-9]*", word):
        raise argparse.ArgumentTypeError(f"{word} is no number from 1 on")
    return int(word)


# ---- what is heard


def of_script(asked: Dict[str, Any]) -> Optional[Dict[str, Any]]:
    """Returns a feed as squitter-feed hears it: a last line has the arrival of its piece, and frames that are held when
    the source ends are printed. Returns `None` if the script cannot be asked: `late` is its --reorder."""
    if asked.get("late", 0) != asked.get("reorder", 0):
        return None
    calls, arrival = [], 0
    for call in asked["calls"]:
        arrival = call.get("arrival", 0) if "bytes" in call else arrival
        calls.append({"end": arrival} if "end" in call else call)
    return {**asked, "calls": calls}


def heard(asked: Dict[str, Any], cut: int, room: Optional[int]) -> Tuple[int, str, Dict[str, int], Optional[str]]:
    """Returns after how many calls a feed ends or is refused, its lines, its counts that are not 0, and the refusal."""
    form = FeedFormat[asked.get("format", "auto").upper()]
    feed = Feed(asked.get("live", False), lambda _: None, int(asked.get("reorder", 0)), int(asked.get("leap", 600_000)),
                asked.get("by_arrival", False), asked.get("all_formats", False), form,
                None if room is None else bytearray(room))
    lines, refusal, count = b"", None, 0
    try:
        for count, call in enumerate(asked["calls"], 1):
            data, arrival = feeds.take_of(call), int(call.get("arrival", 0))
            if "lost" in call:
                feed.disconnected()
            elif "end" in call:
                lines += feed.end(int(call["end"]))
            for place in range(0, len(data) if "bytes" in call else 0, cut or len(data) or 1):
                lines += feed.hear(data[place : place + (cut or len(data))], arrival)
            if feed.refusal is not None:
                raise feed.refusal
    except Refused as why:
        refusal = str(why)
    counts = feed.feed.counts._asdict()
    counts.update({f"DF{number}": one for number, one in enumerate(counts.pop("formats"))})
    counts["late"] = feed.order.late if feed.order is not None else 0
    return count, lines.decode(), {name: int(one) for name, one in sorted(counts.items()) if one}, refusal


def compared(name: object, asked: Dict[str, Any], cuts: Tuple[int, ...]) -> Dict[str, Any]:
    """Compares squitter-feed with the definitions, with pieces of each size. Returns what the definitions come to."""
    wanted = feeds.answer(asked)
    for cut in (0, *cuts):
        count, lines, counts, refusal = heard(asked, cut, (None, 120)[cut % 2])
        if count < len(asked["calls"]):
            wanted = feeds.answer({**asked, "calls": asked["calls"][:count]})
        source = wanted["after"][-1][1]
        words = REFUSALS[Stranger[source.upper()]] if source not in (None, *FORMS) else None
        same((lines.splitlines(), counts, refusal), (wanted["lines"], wanted["counts"], words), name, "by", cut, asked)
    return wanted


def vectors() -> None:
    """All feeds of vectors/ but those that are late by other than --reorder."""
    with open(f"{TOP}/vectors/feed.jsonl", encoding="utf-8") as file:
        cases = [json.loads(line) for line in file]
    asked = {case["id"]: of_script(case["input"]) for case in cases}
    for name, one in asked.items():
        if one is not None:
            # (many bytes one by one take long)
            compared(name, one, (1,) if sum(call.get("times", 1) for call in one["calls"]) < 9000 else (997,))
    left = sorted(name for name, one in asked.items() if one is None)
    classes = {name.split("/")[1] for name in left}
    expect(len(left) < 80 and classes <= {"late", "largest", "order", "back", "turn"}, "left out:", left)
    print(f"{len(cases) - len(left)} feeds, {len(left)} left out, with another --reorder")


def case(form: str, draw: random.Random) -> Dict[str, Any]:
    """Returns a stream in calls, with settings."""
    data = made(form, draw).data
    if form == "avr" and draw.randrange(4) == 0:
        data = draw.choice(FRONTS) + data.replace(b"\n", b"\n" + draw.choice(PREFIXES))
    asked: Dict[str, Any] = {"format": form} if draw.randrange(2) else {}
    asked.update({name: True for name in ("live", "all_formats", "by_arrival") if draw.randrange(8) == 0})
    if draw.randrange(4) == 0:
        asked["late"] = asked["reorder"] = draw.choice((1, 300, 999, 1000, 1001, 2000, 10**6))
    if draw.randrange(4) == 0:
        asked["leap"] = draw.choice((0, 1, 1000, 4999, 10**7, 2**64 - 1))
    now, place = draw.choice((0, 10**6, 17 * 10**11)), 0
    calls: List[Dict[str, Any]] = []
    while place < len(data):
        size = draw.randrange(draw.choice((1, 7, 50, 300, 3000, 20_000))) + 1
        calls.append({"bytes": data[place : place + size].hex(), "arrival": now})
        now, place = now + draw.choice((0, 0, 1, 100, 5000, 700_000)), place + size
        if draw.randrange(20) == 0:
            calls.append({"lost": True})
    return {**asked, "calls": [*calls, {"end": now}]}


def streams(form: str) -> None:
    """Compares the streams of a format. Most show it, and some frames of all kinds are among them."""
    seen = Counter[str]()
    for number in range(STREAMS):
        draw = random.Random(f"{form} {number}")
        asked = of_script(case(form, draw))
        assert asked is not None
        wanted = compared(number, asked, (draw.randrange(1, 100),))
        shown = next((source for _, source in wanted["after"] if source), None)
        seen.update({**wanted["counts"], f"as {shown}": 1})
    print(f"{form}: " + ", ".join(f"{count} {name}" for name, count in seen.items()))
    expect(seen[f"as {form}"] > STREAMS // 2 and all(seen[name] > STREAMS // 50 for name in ("damaged", "aside")), seen)


def beast_streams() -> None:
    """Beast, with any clocks, ids of receivers and damage."""
    streams("beast")


def avr_streams() -> None:
    """AVR text, with each mark, and with other text before its frames."""
    streams("avr")


def csv_streams() -> None:
    """Tables, with their columns in any order."""
    streams("csv")


def log_streams() -> None:
    """Logs, with wrapped frames."""
    streams("log")


if __name__ == "__main__":
    parser = argparse.ArgumentParser(description=__doc__, formatter_class=argparse.RawDescriptionHelpFormatter)
    parser.add_argument("--streams", type=number, default=STREAMS, metavar="N", help="streams of each format")
    STREAMS = parser.parse_args().streams
    for one in (vectors, beast_streams, avr_streams, csv_streams, log_streams):
        one()
