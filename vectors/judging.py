"""What an answer is worth beside the expected one. Places of decoders in doubles are compared here, with a tolerance.
"""
from __future__ import annotations

import re
from fractions import Fraction
from math import asin, cos, radians, sin, sqrt
from typing import Any, Dict, List, NamedTuple, Optional

TOLERANCE = Fraction(11, 10**7)  # degrees: what a decoder prints with six decimals, and a little
PLAIN_NUMBER = re.compile(r"\s*[-+]?[0-9._]{1,1000}(?:/[0-9_]{1,1000}|[eE][-+]?[0-9]{1,3})?\s*")
SOURCES = (None, "beast", "avr", "csv", "log")  # what a source may be that is read
KINDS = ("passed", "wrong", "none", "policy", "unsupported", "lost")


class Verdict(NamedTuple):
    """passed, wrong, none (refused where there is an answer), policy, unsupported, or lost (no line came)."""

    kind: str
    metres: Optional[float] = None  # how far off a wrong place is, where it is a place on Earth
    policy: str = ""


def number(value: Any) -> Fraction:
    """A number that an adapter writes: a JSON number, a decimal text, or num/den."""
    if isinstance(value, bool) or not isinstance(value, (int, float, str)):
        raise ValueError("no number")
    if isinstance(value, str) and not PLAIN_NUMBER.fullmatch(value):
        raise ValueError("no number")  # or one that takes hours, such as 1e999999999
    return Fraction(value if isinstance(value, str) else repr(value))


def degrees_apart(place: Dict[str, Any], other: Dict[str, Any]) -> List[Fraction]:
    """By how many degrees two places differ, in latitude and, modulo 360, in longitude."""
    lat = abs(number(place["lat"]) - number(other["lat"]))
    lon = abs(number(place["lon"]) - number(other["lon"])) % 360
    return [lat, min(lon, 360 - lon)]


def metres_apart(place: Dict[str, Any], other: Dict[str, Any]) -> Optional[float]:
    """Metres between two places on a sphere, None where one is not on Earth."""
    if abs(number(other["lat"])) > 90:
        return None
    lat, lon, lat2, lon2 = (
        radians(float(number(value))) for value in (place["lat"], place["lon"], other["lat"], other["lon"])
    )
    half = sin((lat2 - lat) / 2) ** 2 + cos(lat) * cos(lat2) * sin((lon2 - lon) / 2) ** 2
    return 2 * 6_371_008.8 * asin(min(1.0, sqrt(half)))


def is_place(answer: Dict[str, Any]) -> bool:
    """An answer with a place on a grid."""
    return "lat" in answer and "lon" in answer and "decimal" in answer


def same_place(expected: Dict[str, Any], given: Dict[str, Any], exact: bool) -> bool:
    """The same place: by value and by its decimals where the adapter is exact, else within the tolerance."""
    if exact:
        told = [key for key in ("lat", "lon", "decimal") if key in given]
        whole = "decimal" in told or {"lat", "lon"} <= set(told)
        return whole and all(given[key] == expected[key] for key in told)
    return all(apart <= TOLERANCE for apart in degrees_apart(expected, given))


def same_lines(expected: List[Dict[str, Any]], given: Any, exact: bool) -> bool:
    """The same answers to the lines of a log. Who is not exact says where a place is and where none is."""
    if not isinstance(given, list) or len(given) != len(expected):
        return False
    for wanted, line in zip(expected, given):
        if (
            not isinstance(line, dict)
            or line.get("line") != wanted["line"]
            or is_place(wanted) != ("lat" in line or "decimal" in line)
        ):
            return False
        if is_place(wanted) and not same_place(wanted, line, exact):
            return False
        if exact and any(line.get(key) != wanted.get(key) for key in ("heard", "refused", "address", "even", "odd")):
            return False
    return True


def same_feed(expected: Dict[str, Any], given: Dict[str, Any], exact: bool) -> bool:
    """The same lines of a feed. Who is exact gives its counts, and names a source without frames, at least at last."""
    told = {**expected, "source": expected["after"][-1][1]} if "after" in expected else expected
    needed = {"lines", "counts", *["source"] * (told.get("source") not in SOURCES)} if exact else {"lines"}
    if "after" in given:
        needed.discard("source")
    return all(given.get(key) == told[key] for key in needed | set(told) & set(given))


def matches(expected: Dict[str, Any], given: Dict[str, Any], exact: bool) -> bool:
    """The answer is the expected one. Who is not exact may leave out what is beside the point, and words of refusals.
    """
    if expected.get("any") == "lon":
        return "lat" in given and abs(number(given["lat"]) - number(expected["lat"])) <= TOLERANCE
    if expected.get("any"):
        return "refused" not in given
    if "refused" in expected or "refused" in given:
        return "refused" in expected and "refused" in given and (not exact or expected["refused"] == given["refused"])
    if "counts" in expected:
        return same_feed(expected, given, exact)
    if "lines" in expected:
        return same_lines(expected["lines"], given.get("lines"), exact)
    if is_place(expected):
        return same_place(expected, given, exact)
    wanted = set(expected) if exact else needed(expected) | set(expected) & set(given)
    return all(key in given and given[key] == expected[key] for key in wanted)


def needed(expected: Dict[str, Any]) -> set:
    """The parts of an answer that everybody has to give."""
    for parts in (
        {"correct"},
        {"zones"},
        {"code"},
        {"form", *({"feet", "metres"} & set(expected))},
        {"type", "lat", "lon"},
        {"type"},
    ):
        if parts <= set(expected):
            return parts
    return set(expected)


def judge(case: Dict[str, Any], given: Optional[Dict[str, Any]], exact: bool) -> Verdict:
    """What an answer to a case is worth."""
    if given is None:
        return Verdict("lost")
    if given.get("unsupported") is True:
        return Verdict("unsupported")
    if given.get("unsupported", False) is not False:
        return Verdict("wrong")  # NaN and texts are true in Python, and would hide a case
    expected = case["answer"]
    try:
        if matches(expected, given, exact):
            return Verdict("passed")
        if not exact:
            if "beside" in case and matches(case["beside"], given, exact):
                return Verdict("passed")
            for name, other in case.get("policies", {}).items():
                if matches(other, given, exact):
                    return Verdict("policy", policy=name)
        if "refused" in given:
            return Verdict("wrong" if "refused" in expected else "none")
        metres = metres_apart(expected, given) if is_place(expected) else None
        return Verdict("wrong", metres)
    except (ArithmeticError, KeyError, TypeError, ValueError):
        return Verdict("wrong")
