"""A case: what is asked, what it is about, and by the definitions what must come out."""
from __future__ import annotations

import hashlib
from fractions import Fraction
from typing import Any, Dict, List, Optional, Tuple

from cases import feeds, frames, gillham, history
from cases.definitions import (
    AIR,
    CODES,
    GROUND,
    OURS,
    TRANSITIONS,
    Place,
    Profile,
    Refused,
    Span,
    lat_step,
    local,
    lon_step,
    lon_zones,
    rounded,
    zone_count,
)

OPERATIONS = ("parity", "fields", "altitude", "nl", "encode", "local", "pair", "surface-pair", "log", "feed")

# Other decoders' choices, each with the profile whose answer is then 'by policy'.
POLICIES = {
    "one-zone-at-87": Profile(one_zone_at_87=True),
    "out-of-range": Profile(out_of_range=True),
    "latitude-in-range": Profile(in_range=True),
    "zone-counts": Profile(zone_counts=True),
    "lower-end": Profile(lower_end=True),
}


def pick(name: str, number: int, count: int) -> int:
    """A number below `count` that looks random and is the same each time."""
    return int.from_bytes(hashlib.sha256(f"{name} {number}".encode()).digest()[:8], "big") % count


def between(name: str, number: int, low: int, high: int) -> Fraction:
    """A latitude or a longitude of seven decimals, from low to high degrees, that looks random and is the same each
    time."""
    return low + Fraction(pick(name, number, (high - low) * 10**7 + 1), 10**7)


def text_of(x: Fraction, decimals: int = 12) -> str:
    """A number of degrees as a decimal text, or as num/den where so many decimals do not suffice."""
    scaled = x * 10**decimals
    if scaled.denominator != 1:
        return f"{x.numerator}/{x.denominator}"
    whole, part = divmod(abs(scaled.numerator), 10**decimals)
    digits = f"{part:0{decimals}}".rstrip("0")
    return f"{'-' if x < 0 else ''}{whole}{'.' if digits else ''}{digits}"


def words(place: Place) -> Dict[str, str]:
    """A position as a case has it."""
    return {"lat": text_of(place.lat), "lon": text_of(place.lon)}


def place_of(given: Optional[Dict[str, str]]) -> Optional[Place]:
    """The position that a case has."""
    return None if not given else Place(Fraction(given["lat"]), Fraction(given["lon"]))


def in_range(lat: Fraction, lon: Fraction) -> Place:
    """A position on Earth: a latitude beyond a pole goes to the pole, a longitude around."""
    return Place(max(min(lat, Fraction(90)), Fraction(-90)), (lon + 180) % 360 - 180)


# ---- the expected answers, by operation


def answer_parity(asked: Dict[str, Any], profile: Profile) -> Dict[str, Any]:
    rest = frames.remainder(int(asked["frame"], 16))
    return {"correct": rest == 0, "remainder": f"{rest:06X}"}


def answer_fields(asked: Dict[str, Any], profile: Profile) -> Dict[str, Any]:
    return frames.fields(asked["frame"])


def answer_altitude(asked: Dict[str, Any], profile: Profile) -> Dict[str, Any]:
    return frames.altitude(asked["frame"])


def answer_nl(asked: Dict[str, Any], profile: Profile) -> Dict[str, Any]:
    return {"zones": zone_count(Fraction(asked["lat"]), profile)}


def span_of(kind: str) -> Span:
    return AIR if kind == "air" else GROUND


def answer_encode(asked: Dict[str, Any], profile: Profile) -> Dict[str, Any]:
    odd = int(asked["parity"] == "odd")
    code = rounded(span_of(asked["kind"]), odd, Place(Fraction(asked["lat"]), Fraction(asked["lon"])), profile).code()
    address = int(asked["address"], 16)
    if asked["kind"] == "ground":
        frame = frames.ground_frame(address, odd, code)
    else:
        frame = frames.air_frame(
            address, odd, code, field=frames.FIELD_OF_FEET[asked["feet"]] if "feet" in asked else 0
        )
    return {"code": list(code), "frame": frame}


def answer_local(asked: Dict[str, Any], profile: Profile) -> Dict[str, Any]:
    squitter = frames.read(asked["frame"])
    if squitter.kind == "other":
        raise Refused("not a position")
    reference = place_of(asked["reference"])
    assert reference is not None
    return history.place_answer(local(squitter.span, squitter.odd, squitter.code, reference, profile))


def answer_pair(asked: Dict[str, Any], profile: Profile) -> Dict[str, Any]:
    older, newer = (frames.read(asked[which]) for which in ("older", "newer"))
    return history.place_answer(history.place_of_pair(older, newer, place_of(asked.get("site")), profile=profile))


def answer_log(asked: Dict[str, Any], profile: Profile) -> Dict[str, Any]:
    settings = history.Settings(asked.get("window", 10_000), asked.get("limit", 1000), place_of(asked.get("site")))
    return {"lines": history.answers(asked["lines"], settings)}


def answer_feed(asked: Dict[str, Any], profile: Profile) -> Dict[str, Any]:
    return feeds.answer(asked)


ANSWERS = {
    "parity": answer_parity,
    "fields": answer_fields,
    "altitude": answer_altitude,
    "nl": answer_nl,
    "encode": answer_encode,
    "local": answer_local,
    "pair": answer_pair,
    "surface-pair": answer_pair,
    "log": answer_log,
    "feed": answer_feed,
}


def answer(operation: str, asked: Dict[str, Any], profile: Profile = OURS) -> Dict[str, Any]:
    """What must come out: the answer, or the named refusal."""
    try:
        return ANSWERS[operation](asked, profile)
    except Refused as refused:
        return {"refused": str(refused)}


def policies_of(operation: str, asked: Dict[str, Any], expected: Dict[str, Any]) -> Dict[str, Any]:
    """The other answers that decoders of another policy give, by the name of the policy."""
    found: Dict[str, Any] = {}
    if operation in ("nl", "encode", "local", "pair", "surface-pair"):
        for name, profile in POLICIES.items():
            other = answer(operation, asked, profile)
            if other != expected:
                found[name] = other
    if expected.get("lat") in ("90/1", "-90/1"):
        found["pole-longitude"] = {"lat": expected["lat"], "any": "lon"}
    if operation == "nl" and any(
        abs(abs(Fraction(asked["lat"])) - limit) <= Fraction(1, 2 * 10**8) for limit in TRANSITIONS[:-1]
    ):
        beside = Fraction(1, 10**8)
        zones = {zone_count(abs(Fraction(asked["lat"])) + side) for side in (-beside, beside)} - {expected["zones"]}
        found["unrounded-transitions"] = {"zones": zones.pop()}
    if operation == "altitude" and expected.get("form") == "raw":
        found.update(gillham.policies(asked["frame"]))
    if operation == "feed":
        own = feeds.answer({**asked, "leap": feeds.MOST, "late": feeds.MOST})
        if own["lines"] != expected["lines"]:
            found["own-times"] = {"lines": own["lines"], "counts": own["counts"]}
    if operation == "log" and any(line.get("heard") == "followed" for line in expected["lines"]):
        found["no-following"] = {"lines": unfollowed(asked)}
    return found


def unfollowed(asked: Dict[str, Any]) -> List[Dict[str, Any]]:
    """The answers to a log of a tracker that decodes pairs alone."""

    class Pairs(history.History):
        def answered(self, moment, new):
            kept = self.entries
            self.entries = [entry._replace(place=None) for entry in kept]
            found = super().answered(moment, new)
            self.entries = kept
            return found

    settings = history.Settings(asked.get("window", 10_000), asked.get("limit", 1000), place_of(asked.get("site")))
    pairs = Pairs(settings)
    lines = [pairs.line(number, line) for number, line in enumerate(asked["lines"], 1)]
    return [line for line in lines if line is not None]


def hemispheres(operation: str, asked: Dict[str, Any]) -> List[str]:
    """Whether a place, or what it is decoded near, lies south of the equator or west of the meridian."""
    found = answer(operation, asked) if operation in ("local", "pair") else asked if operation == "encode" else {}
    if "lat" not in found:
        return []
    names = (("Southern", found["lat"]), ("Western", found["lon"]))
    return [name for name, degrees in names if Fraction(degrees) < 0]


class Collection:
    """The cases of one operation, in order."""

    def __init__(self, operation: str) -> None:
        self.operation = operation
        self.cases: List[Dict[str, Any]] = []
        self.counts: Dict[str, int] = {}
        self.asked_already: Dict[str, str] = {}
        self.last_address = 0x400000 + OPERATIONS.index(operation) * 0x8000

    def address(self) -> int:
        """An address of its own for a case, so that a receiver which keeps aircraft apart keeps cases apart."""
        self.last_address += 1
        return self.last_address

    def add(
        self,
        group: str,
        flags: List[str],
        asked: Dict[str, Any],
        note: str = "",
        source: str = "",
        beside: Optional[Dict[str, Any]] = None,
        policies: Optional[Dict[str, Any]] = None,
    ) -> None:
        """One case more. What was asked before is not asked again."""
        key = repr(asked)
        if key in self.asked_already:
            return
        flags = flags + hemispheres(self.operation, asked)
        number = self.counts[group] = self.counts.get(group, 0) + 1
        self.asked_already[key] = name = f"{self.operation}/{group}/{number:03}"
        expected = answer(self.operation, asked)
        case: Dict[str, Any] = {
            "id": name,
            "op": self.operation,
            "flags": flags,
            "input": asked,
            "answer": expected,
            "tolerance": tolerance_of(self.operation, beside),
        }
        if beside:
            case["beside"] = beside
        others = {**policies_of(self.operation, asked, expected), **(policies or {})}
        # (at an edge the answer on its other side passes already)
        others = {name: other for name, other in others.items() if name != "lower-end" or other != beside}
        if others:
            case["policies"] = others
        if note:
            case["note"] = note
        if source:
            case["source"] = source
        self.cases.append(case)


def tolerance_of(operation: str, beside: Optional[Dict[str, Any]]) -> str:
    """What a decoder in doubles may answer: whole numbers are exact, places are near, at an edge either side will do.
    """
    if beside:
        return "edge"
    return "place" if operation in ("local", "pair", "surface-pair", "log") else "exact"


def codes_of(span: Span, odd: int, position: Place) -> Tuple[int, int]:
    """The code of the point to which a position rounds."""
    return rounded(span, odd, position).code()


def steps_at(span: Span, odd: int, lat: Fraction) -> Tuple[Fraction, Fraction]:
    """The steps of latitude and of longitude at a latitude."""
    return lat_step(span, odd), lon_step(span, lon_zones(lat, odd))


def nudged(
    operation: str, asked: Dict[str, Any], key: Optional[str], expected: Dict[str, Any]
) -> Optional[Dict[str, Any]]:
    """The answer beside an edge: to the same question with the position at `key` moved a little, where that differs."""
    near = Fraction(1, 10**11)
    zero = Fraction(0)
    for lat, lon in ((near, zero), (-near, zero), (zero, near), (zero, -near)):
        given = asked[key] if key else asked
        moved = {"lat": str(Fraction(given["lat"]) + lat), "lon": str(Fraction(given["lon"]) + lon)}
        other = answer(operation, {**asked, key: moved} if key else {**asked, **moved})
        if other != expected:
            return other
    return None


__all__ = [
    "AIR",
    "CODES",
    "GROUND",
    "TRANSITIONS",
    "Collection",
    "Place",
    "between",
    "codes_of",
    "in_range",
    "pick",
    "steps_at",
    "text_of",
    "words",
    "answer",
    "place_of",
]
