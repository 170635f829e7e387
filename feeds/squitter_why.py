"""Why an aircraft is where it is: the last answer, the frames of its place, and the command that gives it again."""
from __future__ import annotations

from typing import Any, Dict, List, NamedTuple, Optional, Tuple

import squitter
from squitter import Fault, Position

ODD = b"4567CDEF"  # digit 14 of an odd frame, the last but 14: it has bit 54 (F)
Place = Tuple[str, str]  # latitude and longitude, as the log prints them
Site = Optional[Place]


class Shown(NamedTuple):
    """The last place: the answer, kind and line of its frame, the newest line of that kind and the other parity, and
    the place before it of that kind, if there was one."""

    answer: str
    kind: str
    line: bytes
    other: bytes
    near: Optional[Place]
    place: Place


class Why:
    """The position frames of an aircraft, as lines of the log, and what the last place is made of."""

    __slots__ = ("answer", "kept", "line", "shown")

    def __init__(self) -> None:
        self.answer, self.line = "", b""
        # of each kind the newest even line, the newest odd one, and the last place
        self.kept: Dict[str, List[Any]] = {"air": [b"", b"", None], "ground": [b"", b"", None]}
        self.shown: Optional[Tuple[Any, ...]] = None  # a `Shown`, which takes longer to make

    def take(self, line: bytes, answer: str, kind: str, lat: str, lon: str) -> None:
        """Takes a line with a position frame, and what the log says of it."""
        is_odd, kept = line[-15] in ODD, self.kept[kind]
        self.answer, self.line, kept[is_odd] = answer, line, line
        if lat:
            self.shown = answer, kind, line, kept[not is_odd], kept[2], (lat, lon)
            kept[2] = lat, lon

    def told(self, site: Site) -> Dict[str, Any]:
        """Returns what is told."""
        place = place_told(Shown(*self.shown), site) if self.shown else None
        return {"answer": self.answer, **frame_told(self.line), "place": place}


def frame_told(line: bytes) -> Dict[str, Any]:
    moment, frame = line.split()
    return {"frame": frame.decode(), "moment": int(moment), "parity": "odd" if frame[-15] in ODD else "even"}


def degrees(place: Place) -> str:
    return f"--lat={place[0]} --lon={place[1]}"


def place_told(shown: Shown, site: Site) -> Dict[str, Any]:
    """Returns how a place is made, by the library once more: what is told is what the command prints."""
    frame = frame_told(shown.line)
    if shown.answer == "fix":
        frames, near = [frame_told(shown.other), frame], site if shown.kind == "ground" else None
        texts = [one["frame"] for one in frames]
        position = squitter.pair(*texts, near)
        words = ["pair", *texts, *([degrees(near)] if near else [])]
    else:
        frames, near = [frame], shown.near or shown.place
        # (half a zone away from the place before, its decimals may give another place)
        if not is_at(near_to(frame["frame"], near), shown.place):
            near = shown.place
        position = squitter.local(frame["frame"], near)
        words = ["local", frame["frame"], degrees(near)]
    return {"answer": shown.answer, "frames": frames, "near": near, "lat": fraction(position.lat),
            "lon": fraction(position.lon), "command": " ".join(["squitter", *words])}


def near_to(frame: str, near: Place) -> Optional[Position]:
    try:
        return squitter.local(frame, near)
    except Fault:
        return None


def is_at(position: Optional[Position], place: Place) -> bool:
    """Returns whether a position is the one that the log printed. Others that a frame may mean are degrees away."""
    return position is not None and all(abs(float(one) - float(text)) < 1e-6 for one, text in zip(position, place))


def fraction(angle: Any) -> str:
    return f"{angle.numerator}/{angle.denominator}"
