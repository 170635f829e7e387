"""What is heard of each line of a log, by the list of everything that was heard before it, newest first."""
from __future__ import annotations

import re
from fractions import Fraction
from typing import Callable, Dict, List, NamedTuple, Optional, Union

from cases.definitions import Place, Refused, decimal7, local, pair, ratio
from cases.frames import Squitter, read

Answer = Dict[str, Union[int, str, List[str]]]


class Entry(NamedTuple):
    """A frame that was heard, its moment, and the place where it was answered with one."""

    moment: int
    squitter: Squitter
    place: Optional[Place]


class Settings(NamedTuple):
    """What a tracker is told."""

    window: int = 10_000
    limit: int = 1000
    site: Optional[Place] = None


def place_answer(place: Place) -> Answer:
    """A place as the vectors have it: in lowest terms and with seven decimals."""
    return {"lat": ratio(place.lat), "lon": ratio(place.lon), "decimal": [decimal7(place.lat), decimal7(place.lon)]}


def place_of_pair(older: Squitter, newer: Squitter, site: Optional[Place], **profile) -> Place:
    """The place of the newer of two squitters, or the first fault of a pair."""
    if "other" in (older.kind, newer.kind):
        raise Refused("not a position")
    if older.address != newer.address:
        raise Refused("other address")
    if older.kind != newer.kind:
        raise Refused("other kind")
    if older.odd == newer.odd:
        raise Refused("same parity")
    codes = [older.code, newer.code] if newer.odd else [newer.code, older.code]
    return pair(newer.span, codes, newer.odd, site, **profile)


def text_fault(text: str) -> Optional[str]:
    """The first fault of a frame text."""
    if (text[:1] == "*") != (text[-1:] == ";") or text in ("*", ";"):
        return "bad wrapping"
    body = text[1:-1] if text[:1] == "*" else text
    if len(body) != 28:
        return "short frame" if len(body) == 14 else f"bad length {len(body)}"
    bad = [place for place, digit in enumerate(body, 1) if digit not in "0123456789abcdefABCDEF"]
    return f"bad digit {bad[0]}" if bad else None


class History:
    """Everything that was heard, newest first."""

    def __init__(self, settings: Settings) -> None:
        self.settings = settings
        self.entries: List[Entry] = []

    def newest(self, moment: int, fits: Callable[[Entry], bool]) -> Optional[Entry]:
        """The newest entry that fits, if it is at most the window older."""
        fitting = [entry for entry in self.entries if fits(entry)][:1]
        return fitting[0] if fitting and moment - fitting[0].moment <= self.settings.window else None

    def recent_addresses(self, moment: int) -> set:
        """The addresses that have a position at most the window older."""
        return {
            entry.squitter.address
            for entry in self.entries
            if entry.squitter.kind != "other" and moment - entry.moment <= self.settings.window
        }

    def heard(self, moment: int, new: Squitter) -> Answer:
        """What is heard of one frame more."""
        if self.entries and moment < self.entries[0].moment:
            raise Refused(f"moment back {self.entries[0].moment}")
        if new.kind != "other" and len(self.recent_addresses(moment) - {new.address}) >= self.settings.limit:
            raise Refused("table full")
        answer, place = self.answered(moment, new)
        self.entries.insert(0, Entry(moment, new, place))
        return {**answer, "address": f"{new.address:06X}", **(place_answer(place) if place else {})}

    def answered(self, moment: int, new: Squitter):
        """What is heard, and the place where there is one."""
        if new.kind == "other":
            return {"heard": "no position"}, None

        def of_sender(entry: Entry) -> bool:
            return (entry.squitter.address, entry.squitter.kind) == (new.address, new.kind)

        counterpart = self.newest(moment, lambda entry: of_sender(entry) and entry.squitter.odd != new.odd)
        why = "waiting"
        if counterpart:
            try:
                return {"heard": "fix"}, place_of_pair(counterpart.squitter, new, self.settings.site)
            except Refused as refused:
                why = str(refused)
        if why == "waiting" or why.startswith("zone counts"):
            last_fix = self.newest(moment, lambda entry: of_sender(entry) and entry.place is not None)
            if last_fix and last_fix.place:
                try:
                    return {"heard": "followed"}, local(new.span, new.odd, new.code, last_fix.place)
                except Refused:
                    pass
        if why.startswith("zone counts"):
            even, odd = why.split()[2:]
            return {"heard": "split", "even": int(even), "odd": int(odd)}, None
        return {"heard": "far" if why == "latitude out of range" else why}, None

    def line(self, number: int, line: str) -> Optional[Answer]:
        """The answer to a line, None where it is empty."""
        if len(line) > 64:
            return {"line": number, "refused": "long line"}
        line = line[:-1] if line.endswith("\r") else line
        if not line:
            return None
        try:
            moment, space, text = line.partition(" ")
            if not space or not re.fullmatch("[0-9]{1,20}", moment) or int(moment) >= 2**64:
                raise Refused("bad moment")
            fault = text_fault(text)
            if fault:
                raise Refused(fault)
            body = text[1:-1] if text[0] == "*" else text
            return {"line": number, **self.heard(int(moment), read(body))}
        except Refused as refused:
            return {"line": number, "refused": str(refused)}


def answers(lines: List[str], settings: Settings) -> List[Answer]:
    """The answers to the lines of a log, from the first on."""
    history = History(settings)
    found = [history.line(number, line) for number, line in enumerate(lines, 1)]
    return [answer for answer in found if answer is not None]


def position(lat: str, lon: str) -> Place:
    """A position of two texts, decimals or num/den."""
    return Place(Fraction(lat), Fraction(lon))
