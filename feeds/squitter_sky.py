"""The aircraft of a live view. The tracker of a log says who is present and where; what only a view knows hangs on the
address: the trail, the doubt of the last place, the callsign and the like."""
from __future__ import annotations

import json
from collections import Counter, deque
from typing import Any, Deque, Dict, List, Optional, Tuple, Union

import squitter
from squitter import Doubt, LastFix, Position
from squitter_extras import Extras, extras_of
from squitter_why import Why

GONE = 60_000  # milliseconds after which an aircraft is no longer shown
TAIL = 180_000  # milliseconds of a trail
STEP = 2_000  # milliseconds between two points of a trail, at least
NO_SIGNAL = -49.5  # dBFS: lines of a log have no level, and the page of dump1090-mutability fails without a number
RANGE, SPEED = 300, 2000  # nautical miles and knots beyond which a place cannot be true, as on the page
SURE = Doubt(0)
DOUBTS = {Doubt.BEYOND_RANGE: f"beyond {RANGE} NM", Doubt.TOO_FAST: f"faster than {SPEED} knots"}

Feet = Union[int, str, None]
Point = Tuple[int, float, float, Feet, int]


def is_near(place: Tuple[float, float], other: Optional[Tuple[float, float]], miles: float) -> bool:
    """Returns whether two places are within so many nautical miles in latitude and longitude, if a degree of both has
    60: then `Watch` has no doubt. Without another place they are."""
    if other is None:
        return True
    least, apart = miles / 60.001, abs(place[1] - other[1])
    return abs(place[0] - other[0]) <= least and min(apart, 360 - apart) <= least


class Plane:
    """An aircraft: what the tracker keeps of it, and what the view adds. The doubts are those of its last place."""

    __slots__ = ("address", "doubts", "extras", "feet", "fix", "heard", "messages", "place", "tick", "trail",
                 "why")

    def __init__(self, address: int) -> None:
        self.address = f"{address:06X}"
        self.feet: Feet = None
        self.fix: Optional[LastFix] = None
        self.place: Tuple[float, float] = (0.0, 0.0)  # in degrees, with seven decimals
        self.doubts = SURE
        self.extras: Extras = {}
        self.heard = self.messages = 0
        self.tick = 0  # the event that tells of it
        self.trail: Deque[Point] = deque()
        self.why = Why()

    def take(self, moment: int, place: Tuple[float, float], sky: Sky) -> None:
        """Takes a place at a timestamp (ms)."""
        before = self.fix
        # The library is asked only about places that are further away than so many miles can be.
        is_sure = is_near(place, sky.here, RANGE) and (before is None or is_near(place, self.place, 1))
        self.doubts = SURE if is_sure else sky.watch.doubts(moment, place, before)
        self.fix, self.place = LastFix(moment, Position(*place)), place
        if not self.trail or self.doubts != self.trail[-1][-1] or moment - self.trail[-1][0] >= STEP:
            self.trail.append(self.point())
        while moment - self.trail[0][0] > TAIL:
            self.trail.popleft()

    def point(self) -> Point:
        return (self.fix.moment if self.fix else 0, *self.place, self.feet, int(self.doubts))

    def row(self) -> List[Any]:
        """Returns what an event tells of it. Without a place the moment is 0."""
        return [self.address, *self.point(), self.extras]


class Sky:
    """All aircraft that are shown."""

    def __init__(self, site: Optional[Tuple[str, str]], limit: int) -> None:
        self.log = squitter.Log(site=site, limit=limit, format="csv")
        self.log.take_text(b"")  # the header
        self.watch = squitter.Watch(site, RANGE, SPEED)
        self.site = site
        self.here = (float(site[0]), float(site[1])) if site else None
        self.planes: Dict[int, Plane] = {}
        self.answers: Dict[str, int] = Counter()
        self.doubtful: Dict[Doubt, int] = Counter()
        self.last = 0  # timestamp of the last frame (ms)
        self.tick = 1  # the number of the next event

    def hear(self, lines: bytes) -> None:
        """Takes lines of a log, whole ones."""
        for line, row in zip(lines.splitlines(), self.log.take_text(lines).decode().splitlines()):
            _, moment, answer, address, kind, lat, lon, feet = row.split(",")
            word = answer if answer.isalpha() else " ".join(word for word in answer.split() if word.islower())
            self.answers[word] += 1
            if not address or not moment:
                continue
            self.last = int(moment)
            plane = self.count(int(address, 16))
            if kind == "other":
                frame = line.split()[1].strip(b"*;").decode()
                plane.extras = {**plane.extras, **extras_of(squitter.read(frame).raw)}
                continue
            plane.why.take(line, answer, kind, lat, lon)
            plane.feet = kind if kind == "ground" else int(feet) if feet else None
            if lat:
                plane.take(self.last, (float(lat), float(lon)), self)
                for doubt in DOUBTS if plane.doubts else ():
                    self.doubtful[doubt] += doubt in plane.doubts

    def count(self, address: int) -> Plane:
        """Counts a message of an aircraft. Returns the aircraft."""
        plane = self.planes.get(address)
        if plane is None:
            plane = self.planes[address] = Plane(address)
        plane.heard, plane.tick = self.last, self.tick
        plane.messages += 1
        return plane

    def forget(self, now: int) -> None:
        """Drops aircraft that were not heard for a while."""
        for address in [address for address, plane in self.planes.items() if now - plane.heard > GONE]:
            del self.planes[address]

    def shown(self, now: int) -> List[Plane]:
        """Returns the aircraft that have a place of the last minute."""
        return [plane for plane in self.planes.values() if plane.fix and now - plane.fix.moment <= GONE]

    def event(self, now: int, state: str, since: int) -> str:
        """Returns what an event tells: the rows of aircraft that were heard at or after an earlier event."""
        rows = [plane.row() for plane in self.planes.values() if plane.tick >= since]
        return dumped({"now": now, "state": state, "squitters": sum(self.answers.values()), "rows": rows,
                       "doubtful": self.told_doubts()})

    def told_doubts(self) -> Dict[str, int]:
        """Returns how many places cannot be true, by the reason."""
        return {text: self.doubtful[doubt] for doubt, text in DOUBTS.items()}

    def why(self, address: int) -> Optional[str]:
        """Returns why an aircraft is where it is, or None if it is not present or has sent no position frame."""
        plane = self.planes.get(address)
        if plane is None or not plane.why.line:
            return None
        doubts = [text for doubt, text in DOUBTS.items() if doubt in plane.doubts]
        return dumped({"address": plane.address, "doubts": doubts, **plane.why.told(self.site)})

    def trails(self) -> str:
        return dumped({plane.address: list(plane.trail) for plane in self.planes.values() if plane.trail})

    def aircraft(self, now: int) -> str:
        """Returns the aircraft as readsb writes them. `altitude`, `speed`, `vert_rate` and `rssi` are for the page of
        dump1090-mutability. A place that cannot be true is left out."""
        rows = []
        for plane in self.planes.values():
            told: Dict[str, Any] = {"hex": plane.address.lower(), "type": "adsb_icao", **plane.extras}
            if plane.feet is not None:
                told.update(alt_baro=plane.feet, altitude=plane.feet)
            names = {"speed": "gs", "vert_rate": "baro_rate" if "baro_rate" in told else "geom_rate"}
            told.update({name: round(told[of]) for name, of in names.items() if of in told})
            if plane.fix and not plane.doubts:
                told.update(lat=plane.place[0], lon=plane.place[1], seen_pos=age(now, plane.fix.moment))
            told.update(seen=age(now, plane.heard), messages=plane.messages, rssi=NO_SIGNAL, mlat=[], tisb=[])
            rows.append(told)
        return dumped({"now": now / 1000, "messages": sum(self.answers.values()), "aircraft": rows})


def age(now: int, moment: int) -> float:
    """Returns how many seconds ago a moment was."""
    return round(max(0, now - moment) / 1000, 1)


def dumped(told: Any) -> str:
    return json.dumps(told, separators=(",", ":"))
