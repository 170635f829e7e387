"""Worked cases: tables of questions and answers that were written down by hand, apart from the definitions.

A table stands in worked/, a row a line; what stands after # is a comment. Each row is asked as a case, and the
definitions must come to the answer that is written there.
"""
from __future__ import annotations

import os
from fractions import Fraction
from typing import Any, Dict, Iterator, List, Tuple

from cases import frames
from cases.case import AIR, GROUND, Collection, Place, answer, codes_of, words
from cases.definitions import Span

HERE = os.path.dirname(os.path.abspath(__file__))
WORKED = {
    "air-even": "8D40621D58C382D690C8AC2863A7",
    "air-odd": "8D40621D58C386435CC412692AD6",
    "ground-even": "8C4841753AAB238733C8CD4020B1",
    "ground-odd": "8C4841753A8A35323FAEBDAC702D",
    "identity": "8D406B902015A678D4D220AA4BDA",
}
REFUSALS = {
    "out": "latitude out of range",
    "out-of-range": "latitude out of range",
    "not-position": "not a position",
    "other-address": "other address",
    "other-kind": "other kind",
    "same-parity": "same parity",
    "no-site": "no site",
}


class Wrong(Exception):
    """The definitions do not come to the answer of a row."""


def rows(name: str) -> Iterator[str]:
    """The lines of a table; an empty one stays as it is."""
    with open(f"{HERE}/worked/{name}.txt", encoding="utf-8") as file:
        for line in file:
            if not line.startswith("#"):
                yield line.rstrip("\n")


def add(collection: Collection, name: str, flags: List[str], asked: Dict[str, Any], row: str, given: Any) -> None:
    """A case of a row, if the definitions come to what the row gives."""
    found = answer(collection.operation, asked)
    if any(found.get(key) != value for key, value in given.items()) or not given:
        raise Wrong(f"worked/{name}: {row!r}: the definitions come to {found}")
    collection.add("worked", ["Worked", *flags], asked)


# ---- words of the rows


def degrees(asked: Iterator[str]) -> Place:
    """A latitude and a longitude."""
    lat, lon = Fraction(next(asked)), Fraction(next(asked))
    return Place(lat, lon)


def code(asked: Iterator[str]) -> Tuple[int, int]:
    """A latitude and a longitude code."""
    lat, lon = int(next(asked)), int(next(asked))
    return lat, lon


def parity(word: str) -> int:
    return ("even", "odd").index(word)


def decoded(text: str) -> Dict[str, Any]:
    """A place, or a refusal."""
    first, *rest = text.replace("at ", "").split()
    if first in ("zones", "zone-counts"):
        return {"refused": f"zone counts {' '.join(rest)}"}
    if first in REFUSALS:
        return {"refused": REFUSALS[first]}
    return {"lat": whole(first), "lon": whole(rest[0])}


def whole(text: str) -> str:
    """A fraction in lowest terms as a case has it."""
    found = Fraction(text)
    return f"{found.numerator}/{found.denominator}"


def squitter(asked: Iterator[str]) -> str:
    """A worked frame by its name, or one that is made: its kind, address, parity, and its code or where it was sent."""
    kind = next(asked)
    if kind in WORKED:
        return WORKED[kind]
    address = int(next(asked), 0)
    if kind == "other":
        return frames.head(address, 5, 0)
    odd = parity(next(asked))
    if kind in ("airborne", "surface"):
        make = frames.air_frame if kind == "airborne" else frames.ground_frame
        return make(address, odd, code(asked))
    in_air = kind == "sent-in-air"
    own = codes_of(AIR if in_air else GROUND, odd, degrees(asked))
    return frames.air_frame(address, odd, own, field=0) if in_air else frames.ground_frame(address, odd, own)


# ---- places


def made(span: Span, address: int, odd: int, own: Tuple[int, int]) -> str:
    return frames.air_frame(address, odd, own) if span is AIR else frames.ground_frame(address, odd, own)


def add_near(local: Collection, name: str, span: Span) -> None:
    """Codes near a reference."""
    for row in filter(None, rows(name)):
        question, given = row.split(" -> ")
        asked = iter(question.split())
        own, odd = code(asked), parity(next(asked))
        frame = made(span, local.address(), odd, own)
        add(local, name, [], {"frame": frame, "reference": words(degrees(asked))}, row, decoded(given))


def add_codes(pair: Collection, name: str, span: Span) -> None:
    """The codes of pairs, the even one first, with the newest parity and on the ground the site."""
    for row in filter(None, rows(name)):
        question, given = row.split(" -> ")
        asked = iter(question.split())
        address, even, odd, newest = pair.address(), code(asked), code(asked), parity(next(asked))
        both = [made(span, address, 0, even), made(span, address, 1, odd)]
        case: Dict[str, Any] = {"older": both[1 - newest], "newer": both[newest]}
        if span is GROUND:
            case["site"] = words(degrees(asked))
        add(pair, name, [], case, row, decoded(given))


def add_squitters(local: Collection, pair: Collection, ground: Collection) -> None:
    """Squitters near a reference and in pairs, each fault in its order."""
    for row in filter(None, rows("near")):
        question, given = row.split(" -> ")
        asked = iter(question.split())
        case: Dict[str, Any] = {"frame": squitter(asked), "reference": words(degrees(asked))}
        add(local, "near", [], case, row, decoded(given))
    for row in filter(None, rows("pairs")):
        question, given = row.split(" -> ")
        asked = iter(question.split())
        case = {"older": squitter(asked), "newer": squitter(asked)}
        if next(asked, None) == "site":
            case["site"] = words(degrees(asked))
        on_ground = "ground" in question or "surface" in question
        add(ground if on_ground else pair, "pairs", [], case, row, decoded(given))


# ---- fields

UNSET: Dict[str, Dict[str, Any]] = {
    "other": {"address": "000000", "ca": 0, "type": 0, "kind": "other", "me": "0" * 14},
    "air": {
        "address": "000000",
        "ca": 0,
        "type": 11,
        "kind": "air",
        "status": 0,
        "flag": 0,
        "altitude": "none",
        "time": 0,
        "parity": "even",
        "lat": 0,
        "lon": 0,
    },
    "ground": {
        "address": "000000",
        "ca": 0,
        "type": 7,
        "kind": "ground",
        "movement": 0,
        "track status": 0,
        "track": 0,
        "time": 0,
        "parity": "even",
        "lat": 0,
        "lon": 0,
    },
}
NAMES = {"capability": "ca", "type-code": "type", "latitude": "lat", "longitude": "lon", "track-status": "track status"}
# The feet of a field of one bit, where that is Q; each other bit alone is raw.
Q_ALONE = {0x010: "-1000 ft"}


def set_field(kind: str, field: str, value: int, message: str) -> Dict[str, Any]:
    """The fields of a frame in which one alone is set."""
    given = dict(UNSET[kind])
    if field == "address":
        given["address"] = f"{value:06X}"
    elif field == "altitude":
        given["altitude"] = Q_ALONE.get(value, f"raw {value:03X}")
    elif field == "odd":
        given["parity"] = "odd"
    else:
        given[NAMES.get(field, field)] = value
    if kind == "air" and given["type"] >= 20:
        given["altitude"] = "raw 000"  # a GNSS height is kept as it is
    if kind == "other":
        given["me"] = message
    return given


def add_layout(fields: Collection) -> None:
    """Frames in which one bit of one field is set: their parity was worked out by hand."""
    for kind in UNSET:
        name = f"layout-{kind}"
        for row in filter(None, rows(name)):
            field, value, *digits = row.split()
            given = set_field(kind, field, int(value, 0), digits[1])
            add(fields, name, ["RawFields"], {"frame": "".join(digits)}, row, given)


# ---- logs


def told(heard: List[str], number: int) -> Dict[str, Any]:
    """What is answered to a line, but for the address and the decimals."""
    first, *rest = heard
    given: Dict[str, Any] = {"line": number}
    if first in ("fix", "followed"):
        return {**given, "heard": first, "lat": whole(rest[0]), "lon": whole(rest[1])}
    if first == "split":
        return {**given, "heard": first, "even": int(rest[0]), "odd": int(rest[1])}
    if first in ("full", "back"):
        return {**given, "refused": "table full" if first == "full" else f"moment back {rest[0]}"}
    names = {"not-position": "no position", "no-site": "no site", "fix-anywhere": "fix"}
    return {**given, "heard": names.get(first, first)}


def add_logs(log: Collection) -> None:
    """Runs of a tracker."""
    for run in "\n".join(rows("logs")).strip("\n").split("\n\n"):
        first, *calls = run.strip("\n").split("\n")
        limit, window, *site = first.split()
        lines, given = [], []
        for number, call in enumerate(calls, 1):
            moment, *question = call.split()
            asked = iter(question)
            lines.append(f"{moment} {squitter(asked)}")
            given.append(told(list(asked), number))
        case: Dict[str, Any] = {"lines": lines, "window": int(window), "limit": int(limit)}
        if site:
            case["site"] = words(degrees(iter(site[1:])))
        found = answer("log", case)["lines"]
        for call, one, other in zip(calls, given, found):
            if any(other.get(key) != value for key, value in one.items()):
                raise Wrong(f"worked/logs: {first!r}: {call!r}: the definitions come to {other}")
        if len(found) != len(given):
            raise Wrong(f"worked/logs: {first!r}: {len(found)} answers to {len(given)} lines")
        log.add("worked", ["Worked"], case)


def add_places(local: Collection, pair: Collection, ground: Collection) -> None:
    """All worked places."""
    add_near(local, "near-in-air", AIR)
    add_near(local, "near-on-ground", GROUND)
    add_codes(pair, "pairs-in-air", AIR)
    add_codes(ground, "pairs-on-ground", GROUND)
    add_squitters(local, pair, ground)
