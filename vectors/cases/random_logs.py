"""Random logs: a few addresses near a border of zone counts, steps of time around the window, now and then back."""
from __future__ import annotations

from fractions import Fraction
from typing import Any, Dict, List

from cases import frames
from cases.case import AIR, GROUND, Place, answer, codes_of, pick

SITE = {"lat": "10.47", "lon": "10.1"}


def frame_of(name: str, number: int) -> str:
    """A frame of one of four addresses: sent from near a border, with a code of no place, or of no position."""
    address, odd, what = (pick(f"{name} {of}", number, count) for of, count in (("who", 4), ("odd", 2), ("what", 8)))
    here = Place(Fraction(10_469 + pick(f"{name} north", number, 4), 1000), Fraction(10))
    if what == 0:
        return frames.head(address, 5, 0)
    if what == 1:
        own = (pick(f"{name} lat", number, 2**17), pick(f"{name} lon", number, 2**17))
        return frames.air_frame(address, odd, own)
    if what <= 3:
        return frames.ground_frame(address, odd, codes_of(GROUND, odd, here))
    return frames.air_frame(address, odd, codes_of(AIR, odd, here))


def step_of(name: str, number: int, window: int) -> int:
    """Milliseconds to the next line: often none or one, and now and then about the window."""
    roll = pick(f"{name} step", number, 8)
    return window + roll if roll < 3 else 0 if roll < 5 else 1


def random_log(name: str, lines: int) -> Dict[str, Any]:
    """A case, as Collection.add makes it."""
    window, limit = 2 + pick(f"{name} window", 0, 8), 1 + pick(f"{name} limit", 0, 4)
    asked: Dict[str, Any] = {"lines": [], "window": window, "limit": limit}
    if pick(f"{name} site", 0, 2):
        asked["site"] = SITE
    moment = 1000 + pick(f"{name} start", 0, 1000)
    for number in range(lines):
        moment += step_of(name, number, window)
        back = 2 if pick(f"{name} back", number, 16) == 0 else 0
        asked["lines"].append(f"{moment - back} {frame_of(name, number)}")
    return {
        "id": f"log/random/{name}",
        "op": "log",
        "flags": ["SeveralAircraft"],
        "input": asked,
        "answer": answer("log", asked),
        "tolerance": "place",
    }


def random_logs(count: int, lines: int) -> List[Dict[str, Any]]:
    """So many logs of so many lines, the same each time."""
    return [random_log(f"{number:03}", lines) for number in range(1, count + 1)]
