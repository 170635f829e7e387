"""Cases of one frame that is decoded near a reference."""
from __future__ import annotations

from fractions import Fraction
from typing import List, Optional

from cases import frames
from cases.case import (
    AIR,
    GROUND,
    TRANSITIONS,
    Collection,
    Place,
    answer,
    between,
    codes_of,
    in_range,
    nudged,
    pick,
    text_of,
    words,
)
from cases.definitions import Span, lat_step, lon_step, lon_zones, nearest
from cases.zone_cases import border_flags, pole_flags, sides

# References of whole degrees on a border of zones of longitude.
WHOLE_DEGREES = [(33, 36), (36, 45), (41, 48), (47, 27), (52, 30), (59, 24), (66, 45), (75, 72)]


def frame_of(local: Collection, span: Span, odd: int, place: Place, type_code: Optional[int] = None) -> str:
    """The frame that is sent of a position."""
    code = codes_of(span, odd, place)
    if span is AIR:
        return frames.air_frame(local.address(), odd, code, type_code=type_code or 11)
    return frames.ground_frame(local.address(), odd, code, type_code=type_code or 7)


def add(
    local: Collection,
    group: str,
    flags: List[str],
    span: Span,
    odd: int,
    place: Place,
    reference: Place,
    note: str = "",
    edge: bool = False,
    type_code: Optional[int] = None,
) -> None:
    """One frame of a position and one reference."""
    asked = {"frame": frame_of(local, span, odd, in_range(*place), type_code), "reference": words(in_range(*reference))}
    if span is GROUND:
        flags = flags + ["Surface"]
    beside = nudged("local", asked, "reference", answer("local", asked)) if edge else None
    local.add(group, flags, asked, note=note, beside=beside)


def beside(name: str, number: int, place: Place, far: Fraction) -> Place:
    """A place within so many degrees."""
    return Place(
        place.lat + between(f"{name} lat", number, -1, 1) * far, place.lon + between(f"{name} lon", number, -1, 1) * far
    )


def add_local(local: Collection) -> None:
    """All of them."""
    add_whole_degrees(local)
    add_borders(local)
    add_closest(local)
    add_half_zones(local)
    add_ends_of_the_earth(local)
    add_kinds(local)


def add_whole_degrees(local: Collection) -> None:
    """References on borders of zones, where doubles put the reference into the zone beside."""
    for lat, lon in WHOLE_DEGREES:
        for number in range(20):
            reference = Place(Fraction(lat), Fraction(lon))
            add(
                local,
                f"reference-{lat}-{lon}",
                ["ReferenceOnZoneBorder"],
                AIR,
                number % 2,
                beside(f"{lat} {lon}", number, reference, Fraction(1, 3)),
                reference,
            )
    for zone in range(-14, 15):
        reference = Place(Fraction(6 * zone), between("reference", zone, -179, 179))
        add(
            local,
            "reference-latitude",
            ["ReferenceOnZoneBorder"],
            AIR,
            0,
            beside("zone", zone, reference, Fraction(1, 2)),
            reference,
        )
        ground = Place(Fraction(3 * zone, 2), Fraction(round(reference.lon)))
        add(
            local,
            "reference-latitude",
            ["ReferenceOnZoneBorder"],
            GROUND,
            0,
            beside("zone", zone, ground, Fraction(1, 4)),
            ground,
        )


def add_borders(local: Collection) -> None:
    """A border of zone counts between the reference and the aircraft: the aircraft's own count is meant."""
    for number, limit in enumerate(TRANSITIONS):
        for sign, lat in sides(limit):
            odd = (number + (sign < 0)) % 2
            lon = between("near border", 2 * number + (sign < 0), -180, 180)
            inside, outside = (Place(lat - way * sign * Fraction(1, 200), lon) for way in (1, -1))
            flags = border_flags(limit) + ["ReferenceInOtherCount"]
            add(local, "border", flags, AIR, odd, inside, outside)
            add(local, "border", flags, AIR, 1 - odd, outside, inside)
            if number % 3 == 0:
                add(local, "border", flags, GROUND, odd, outside, inside)


def add_closest(local: Collection) -> None:
    """The point of a grid that is the closest to a border of zone counts: five billionths of a degree, on the odd
    grid of the ground."""
    limit = TRANSITIONS[17]
    step = lat_step(GROUND, 1)
    for sign in (1, -1):
        for index in (-1, 0):
            place = Place(sign * (nearest(limit, step) + index) * step, Fraction(7))
            add(local, "closest", ["ZoneBorder"], GROUND, 1, place, Place(sign * Fraction("45.5"), Fraction(7)))


def add_half_zones(local: Collection) -> None:
    """A reference exactly half a zone from the point: the window is open at its lower end and closed at its upper
    end."""
    for number in range(16):
        odd = number % 2
        step = lat_step(AIR, odd)
        index = (16 * 59 if odd else 16) * nearest(between("half", number, -70, 70), (16 * 59 if odd else 16) * step)
        lat, half = index * step, Fraction(180, 60 - odd)
        lon = between("half zone", number, -179, 179)
        for way in (-1, 1):
            add(
                local,
                "half-latitude",
                ["HalfZoneEdge"],
                AIR,
                odd,
                Place(lat, lon),
                Place(lat + way * half, lon),
                edge=True,
            )
            for offset in (-1, 1):
                near = Fraction(nearest(lat + way * half, Fraction(1, 10**9)), 10**9) + Fraction(offset, 10**7)
                add(local, "near-half", ["NearHalfZone"], AIR, odd, Place(lat, lon), Place(near, lon))
    for number, zones in enumerate((50, 48, 45, 40, 36, 32, 30, 25, 24, 20, 18, 16, 15, 12, 10, 6, 4, 3, 2, 1)):
        odd = number % 2
        limits = [Fraction(0), *TRANSITIONS, Fraction(90)]
        count = zones + odd
        lat = (limits[59 - count] + limits[60 - count]) / 2
        lat = nearest(lat, lat_step(AIR, odd)) * lat_step(AIR, odd)
        assert lon_zones(lat, odd) == zones
        lon = Fraction(45 * (4 * number + 3), 4096)
        for way in (-1, 1):
            add(
                local,
                "half-longitude",
                ["HalfZoneEdge"],
                AIR,
                odd,
                Place(lat, lon),
                Place(Fraction(nearest(lat, Fraction(1, 10**6)), 10**6), lon + way * Fraction(180, zones)),
                edge=True,
            )


def add_ends_of_the_earth(local: Collection) -> None:
    """Poles, a latitude beyond them, 87 degrees, 180 degrees, the equator and the meridian."""
    for number in range(16):
        odd, lon = number % 2, between("pole", number, -180, 180)
        for sign, pole in sides(Fraction(90)):
            place = Place(pole - sign * Fraction(pick("near pole", number, 2 * 10**6), 10**7), lon)
            add(local, "pole", pole_flags(sign), AIR, odd, place, Place(pole - sign * Fraction(number, 8), lon + 1))
            add(local, "pole", pole_flags(sign), GROUND, odd, place, Place(pole - sign * Fraction(number, 32), lon + 1))
            near = Place(sign * (87 + Fraction(number - 8, 10**4)), lon)
            add(local, "at-87", ["Latitude87", "ZoneBorder"], AIR, odd, near, Place(sign * Fraction(87), lon + 1))
            add(
                local,
                "at-87",
                ["Latitude87", "ZoneBorder"],
                AIR,
                0,
                Place(sign * Fraction(87), lon),
                Place(near.lat, lon - 1),
            )
            code = (pick("beyond", number, 40_000) + 10_000, 0)
            frame = frames.air_frame(local.address(), odd, code if sign > 0 else (131_071 - code[0], 0))
            local.add(
                "beyond",
                ["OutOfRange"] + pole_flags(sign),
                {"frame": frame, "reference": words(Place(sign * (90 - Fraction(number, 16)), lon))},
            )
    for number in range(24):
        odd, lat = number % 2, between("lat across", number, -80, 80)
        for lon in (Fraction(180), Fraction(-180), Fraction(17999, 100)):
            place = in_range(lat, lon + Fraction(pick("across", number, 4 * 10**6) - 2 * 10**6, 10**7))
            add(local, "antimeridian", ["Antimeridian"], (AIR, GROUND)[number // 2 % 2], odd, place, Place(lat, lon))
    for number in range(12):
        odd, x = number % 2, Fraction(pick("zero", number, 2 * 10**6) - 10**6, 10**7)
        add(
            local,
            "equator",
            ["Equator"],
            (AIR, GROUND)[number // 2 % 2],
            odd,
            Place(x, Fraction(20 * number)),
            Place(-x, Fraction(20 * number)),
        )
        add(
            local,
            "meridian",
            ["PrimeMeridian"],
            (AIR, GROUND)[number // 2 % 2],
            odd,
            Place(Fraction(5 * number - 30), x),
            Place(Fraction(5 * number - 30), -x),
        )
        add(
            local,
            "zero",
            ["SiteZeroZero"],
            (AIR, GROUND)[number // 2 % 2],
            odd,
            Place(x, -x),
            Place(Fraction(0), Fraction(0)),
        )


def add_kinds(local: Collection) -> None:
    """Each type code, what is no position, damaged frames, and ordinary places in each quadrant."""
    for type_code in range(32):
        place = beside("type", type_code, Place(Fraction(52), Fraction(4)), Fraction(1))
        flags = ["EachTypeCode"] + (["TypeCode20to22"] if 20 <= type_code <= 22 else [])
        reference = Place(Fraction(52), Fraction(4))
        if type_code in frames.AIR_TYPES or type_code in frames.GROUND_TYPES:
            span = AIR if type_code in frames.AIR_TYPES else GROUND
            near = place if span is AIR else Place(52 + (place.lat - 52) / 4, 4 + (place.lon - 4) / 4)
            add(local, "type", flags, span, type_code % 2, near, reference, type_code=type_code)
        else:
            frame = frames.head(local.address(), 5, type_code << 51 | 0xC382D690C8AC)
            local.add("type", flags + ["NotAPosition"], {"frame": frame, "reference": words(reference)})
    for number, frame in enumerate(("8D40621D58C382D690C8AC2863A6", "9040621D58C382D690C8AC2863A7")):
        local.add(
            "damaged",
            ["OneBitError"] if number == 0 else ["OtherFormat"],
            {"frame": frame, "reference": words(Place(Fraction(52), Fraction(4)))},
        )
    for number in range(96):
        span = (AIR, GROUND)[number // 2 % 2]
        place = Place(between("ordinary lat", number, -85, 85), between("ordinary lon", number, -180, 180))
        reference = beside("ordinary", number, place, Fraction(1, 2))
        reference = Place(
            Fraction(nearest(reference.lat, Fraction(1, 100)), 100),
            Fraction(nearest(reference.lon, Fraction(1, 100)), 100),
        )
        add(local, "ordinary", ["Ordinary"], span, number % 2, place, reference)


__all__ = ["add_local", "lon_step", "text_of"]
