"""Cases of zone counts, and of positions that are encoded."""
from __future__ import annotations

from fractions import Fraction
from typing import Any, Dict, Iterator, List, Optional, Tuple

from cases.case import (
    AIR,
    GROUND,
    TRANSITIONS,
    Collection,
    Place,
    answer,
    between,
    in_range,
    nudged,
    pick,
    steps_at,
    text_of,
)
from cases.definitions import CODES, lat_step, lon_step, lon_zones, nearest

BILLIONTH, TRILLIONTH = Fraction(1, 10**9), Fraction(1, 10**12)


def sides(x: Fraction) -> Iterator[Tuple[int, Fraction]]:
    """North and south."""
    for sign in (1, -1):
        yield sign, sign * x


def border_flags(limit: Fraction) -> List[str]:
    """What a border between zone counts is about."""
    return ["ZoneBorder"] + (["Latitude87"] if limit == 87 else [])


def pole_flags(sign: int) -> List[str]:
    """Which pole."""
    return ["PoleNorth" if sign > 0 else "PoleSouth"]


NL_SOURCE = "DO-260B appendix A.1.7.2 and Doc 9871 appendix C, of NL: 59 at 0, 2 at 87 and -87, 1 beyond these"


def add_zone_counts(nl: Collection) -> None:
    """Each transition on both sides and signs, exactly, a billionth and a trillionth beside it, and at the
    grid's own latitudes."""
    for text in ("0", "87", "-87", "87.1", "-87.1"):
        flags = ["Equator"] if text == "0" else ["Latitude87", "ZoneBorder"]
        nl.add("printed", ["Printed"] + flags, {"lat": text}, source=NL_SOURCE)
    for limit in TRANSITIONS:
        for sign, lat in sides(limit):
            for offset in (0, BILLIONTH, -BILLIONTH, TRILLIONTH, -TRILLIONTH):
                nl.add("border", border_flags(limit), {"lat": text_of(lat + offset)})
            index = nearest(lat, lat_step(AIR, 0))
            below = index if index * lat_step(AIR, 0) <= lat else index - 1
            for step in (below, below + 1):
                nl.add(
                    "grid",
                    border_flags(limit),
                    {"lat": text_of(step * lat_step(AIR, 0), 12)},
                    note="a latitude of the even grid in the air",
                )
    for above, limit in zip([Fraction(0), *TRANSITIONS], TRANSITIONS):
        nl.add("middle", ["Ordinary"], {"lat": text_of(Fraction(round((above + limit) / 2 * 10**4), 10**4))})
    for sign, _ in sides(Fraction(1)):
        for lat in (
            "0.000000000001",
            "0.5",
            "10",
            "45",
            "60",
            "86.9",
            "87.000000000001",
            "87.1",
            "89.999999999999",
            "90",
        ):
            flags = ["Equator"] if lat < "1" else pole_flags(sign) if lat >= "89" else ["Ordinary"]
            nl.add("ends", flags, {"lat": f"{'-' if sign < 0 else ''}{lat}"})
    nl.add("ends", ["Equator"], {"lat": "0"})
    nl.add("ends", ["Equator"], {"lat": "-0.0"})


def add_encode(encode: Collection) -> None:
    """Positions beside borders, between steps, at poles and around the Earth."""
    add_borders(encode)
    add_ties(encode)
    add_round_the_earth(encode)
    add_altitudes(encode)


def add(
    encode: Collection,
    group: str,
    flags: List[str],
    kind: str,
    odd: int,
    lat: Fraction,
    lon: Fraction,
    note: str = "",
    edge: bool = False,
    feet: Optional[int] = 38_000,
) -> None:
    """One position."""
    place = in_range(lat, lon)
    asked: Dict[str, Any] = {
        "kind": kind,
        "parity": ("even", "odd")[odd],
        "address": f"{encode.address():06X}",
        **({"feet": feet} if kind == "air" and feet is not None else {}),
        "lat": text_of(place.lat),
        "lon": text_of(place.lon),
    }
    beside = nudged("encode", asked, None, answer("encode", asked)) if edge else None
    encode.add(group, flags, asked, note=note, beside=beside)


def add_borders(encode: Collection) -> None:
    """Where the position and the latitude that is sent have different zone counts, and where latitude zones end."""
    for number, limit in enumerate(TRANSITIONS):
        for sign, lat in sides(limit):
            odd = (number + (sign < 0)) % 2
            lon = between("border", 2 * number + (sign < 0), -180, 180)
            for beyond in (-1, 1):
                add(encode, "border", border_flags(limit), "air", odd, lat + beyond * Fraction(1, 10**5), lon)
            index = nearest(lat, lat_step(AIR, odd))
            sent = index * lat_step(AIR, odd)
            across = lat + (BILLIONTH if sent <= lat else -BILLIONTH)
            add(
                encode,
                "sent",
                border_flags(limit) + ["ZoneOfSentLatitude"],
                "air",
                odd,
                across,
                lon,
                note="the position lies on one side of the border, the latitude that is sent on the other",
            )
            ground_index = nearest(lat, lat_step(GROUND, 1 - odd))
            ground_sent = ground_index * lat_step(GROUND, 1 - odd)
            across = lat + (BILLIONTH if ground_sent <= lat else -BILLIONTH)
            add(encode, "sent", border_flags(limit) + ["ZoneOfSentLatitude"], "ground", 1 - odd, across, lon)
    for zone in range(-14, 15):
        for odd in (0, 1):
            lat = Fraction(360 * zone, 60 - odd)
            for offset in (-Fraction(1, 10**5), Fraction(1, 10**6)):
                add(
                    encode,
                    "latitude-zone",
                    ["LatitudeZoneBorder"],
                    "air",
                    odd,
                    Fraction(nearest(lat + offset, Fraction(1, 10**9)), 10**9),
                    between("latitude zone", zone, -180, 180),
                )


def add_ties(encode: Collection) -> None:
    """Half way between two steps, exactly, where a tie goes north and east on both signs; and 10^-12 degree beside
    it."""
    for number in range(32):
        kind, span = ("air", AIR) if number % 4 < 3 else ("ground", GROUND)
        odd = number % 2
        step = lat_step(span, odd)
        index = nearest(between("tie", number, -80, 80), step)
        add(
            encode,
            "tie-latitude",
            ["HalfStepTie"],
            kind,
            odd,
            (index + Fraction(1, 2)) * step,
            between("tie east", number, -180, 180),
            edge=True,
        )
        lat = Fraction(nearest(index * step, BILLIONTH), 10**9)
        own = lon_step(span, lon_zones(nearest(lat, step) * step, odd))
        lon = (nearest(between("tie lon", number, -179, 179), own) + Fraction(1, 2)) * own
        add(encode, "tie-longitude", ["HalfStepTie"], kind, odd, lat, lon, edge=True)
        for sign in (1, -1):
            beside = (index + Fraction(1, 2)) * step
            digits = Fraction(nearest(beside, Fraction(1, 10**12)) + (sign if sign > 0 else 0), 10**12)
            if abs(digits - beside) <= Fraction(1, 10**12):
                add(
                    encode,
                    "near-tie",
                    ["NearTie"],
                    kind,
                    odd,
                    digits,
                    between("near tie", number, -180, 180),
                    edge=True,
                )


def add_round_the_earth(encode: Collection) -> None:
    """Poles, 87 degrees, 180 degrees, the equator and the meridian, each quadrant, and ordinary places."""
    for number in range(24):
        kind, odd = ("air", "ground")[number // 2 % 2], number % 2
        lon = between("far north", number, -180, 180)
        for sign, pole in sides(Fraction(90)):
            add(encode, "pole", pole_flags(sign), kind, odd, pole, lon)
            add(
                encode,
                "pole",
                pole_flags(sign),
                kind,
                odd,
                pole - sign * Fraction(pick("pole", number, 10**4), 10**7),
                lon,
            )
            add(encode, "at-87", ["Latitude87", "ZoneBorder"], kind, odd, sign * Fraction(87), lon)
    for number in range(40):
        kind, odd, lat = ("air", "ground")[number // 2 % 2], number % 2, between("lat at 180", number, -80, 80)
        for lon in (
            Fraction(180),
            Fraction(-180),
            180 - Fraction(1, 10**7),
            Fraction(pick("180", number, 2000) - 1000, 10**7) - 180,
        ):
            add(encode, "antimeridian", ["Antimeridian"], kind, odd, lat, lon)
    for number, small in enumerate((0, 1, -1, 100, -100, 228, -228, 229, -229)):
        for odd in (0, 1):
            x = Fraction(small, 10**7)
            add(encode, "equator", ["Equator"], "air", odd, x, between("equator", number, -180, 180))
            add(encode, "meridian", ["PrimeMeridian"], "air", odd, between("meridian", number, -80, 80), x)
            add(encode, "meridian", ["PrimeMeridian", "Equator"], "ground", odd, x, -x)
    for number in range(96):
        kind, odd = ("air", "ground")[number // 2 % 2], number % 2
        add(
            encode,
            "ordinary",
            ["Ordinary", "Rounding"],
            kind,
            odd,
            between("lat", number, -85, 85),
            between("lon", number, -180, 180),
        )


def add_altitudes(encode: Collection) -> None:
    """Altitudes at their ends, and none."""
    for number, feet in enumerate((None, -1000, -975, 0, 25, 2175, 38_000, 50_150, 50_175)):
        flags = ["AltitudeMissing"] if feet is None else ["AltitudeQ1"]
        add(encode, "altitude", flags, "air", number % 2, Fraction(52), Fraction(4 + number), feet=feet)


__all__ = ["CODES", "Place", "add_encode", "add_zone_counts", "border_flags", "pole_flags", "sides", "steps_at"]
