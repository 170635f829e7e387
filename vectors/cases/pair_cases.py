"""Cases of an even and an odd frame in the air."""
from __future__ import annotations

from fractions import Fraction
from typing import Dict, List, Optional, Tuple

from cases import frames
from cases.case import AIR, CODES, TRANSITIONS, Collection, Place, between, codes_of, in_range, pick, words
from cases.definitions import close_zones, lat_step, nearest
from cases.zone_cases import border_flags, pole_flags, sides

Codes = Tuple[int, int]


def add_codes(
    pair: Collection,
    group: str,
    flags: List[str],
    even: Codes,
    odd: Codes,
    newest: int,
    note: str = "",
    types: Tuple[int, int] = (11, 11),
    site: Optional[Place] = None,
) -> None:
    """A pair of these codes, even first; `newest` says which is the newer one."""
    address = pair.address()
    both = [frames.air_frame(address, parity, code, type_code=types[parity]) for parity, code in enumerate((even, odd))]
    asked: Dict[str, object] = {"older": both[1 - newest], "newer": both[newest]}
    if site:
        asked["site"] = words(site)
    pair.add(group, flags, asked, note=note)


def add(
    pair: Collection,
    group: str,
    flags: List[str],
    newest: int,
    older: Place,
    newer: Place,
    note: str = "",
    types: Tuple[int, int] = (11, 11),
    site: Optional[Place] = None,
) -> None:
    """A pair of an older and a newer position."""
    places = {newest: in_range(*newer), 1 - newest: in_range(*older)}
    codes = [codes_of(AIR, parity, places[parity]) for parity in (0, 1)]
    counted = flags + (["DifferentZoneCounts"] if differ(places) and "DifferentZoneCounts" not in flags else [])
    add_codes(pair, group, counted, codes[0], codes[1], newest, note, types, site)


def differ(places: Dict[int, Place]) -> bool:
    """The two latitudes that are sent lie on either side of a border of zone counts."""
    sent = [abs(nearest(places[odd].lat, lat_step(AIR, odd)) * lat_step(AIR, odd)) for odd in (0, 1)]
    return any(min(sent) <= limit < max(sent) for limit in TRANSITIONS)


def moved(name: str, number: int, place: Place, far: Fraction = Fraction(1, 500)) -> Place:
    """A place within so many degrees, a few hundred metres by default."""
    lat, lon = (between(f"{name} {way}", number, -1, 1) * far for way in ("north", "east"))
    return Place(place.lat + lat, place.lon + lon)


def add_pairs(pair: Collection) -> None:
    """All of them."""
    add_borders(pair)
    add_latitude_zones(pair)
    add_windows(pair)
    add_ends_of_the_earth(pair)
    add_faults(pair)
    add_kinds(pair)


def add_borders(pair: Collection) -> None:
    """Each border of zone counts, both signs: both frames below, both above, and one on either side."""
    small = Fraction(1, 10_000)
    for number, limit in enumerate(TRANSITIONS):
        for sign, lat in sides(limit):
            newest = (number + (sign < 0)) % 2
            lon = between("pair at a border", 2 * number + (sign < 0), -180, 180)
            below, above = Place(lat - sign * small, lon), Place(lat + sign * small, lon)
            flags = border_flags(limit)
            add(pair, "border", flags, newest, below, Place(below.lat, lon + small))
            add(pair, "border", flags, 1 - newest, above, Place(above.lat, lon + small))
            add(pair, "straddle", flags, newest, below, above)
            add(pair, "straddle", flags, 1 - newest, above, below)


def add_latitude_zones(pair: Collection) -> None:
    """Each border of zones of latitude, of the even and of the odd grid."""
    for zone in range(-14, 15):
        for odd in (0, 1):
            lat = Fraction(360 * zone, 60 - odd)
            place = Place(lat, between("pair at a zone", zone, -180, 180))
            add(
                pair,
                "latitude-zone",
                ["LatitudeZoneBorder"] + (["Equator"] if zone == 0 else []),
                odd,
                moved("older", zone, place),
                moved("newer", zone, place),
            )
            add(
                pair,
                "latitude-zone",
                ["LatitudeZoneBorder"] + (["Equator"] if zone == 0 else []),
                1 - odd,
                Place(lat - Fraction(1, 20_000), place.lon),
                Place(lat + Fraction(1, 20_000), place.lon),
            )


def add_windows(pair: Collection) -> None:
    """Codes whose latitudes, or longitudes, differ by just as much as is still close: -k <= even - odd < k."""
    for half in (-CODES // 2, CODES // 2 - 1, CODES // 2):
        for number in range(16):
            even = pick("even window", number, CODES // 4) * 4 + half * 3 % 4
            odd = edge_code(60, even, half)
            assert odd is not None
            if abs((close_zones((60, 59), even, odd)[0] * 6 + 180) % 360 - 180) >= 84:
                continue
            for newest in (0, 1):
                add_codes(
                    pair,
                    "latitude-window",
                    ["PairWindowEdge"],
                    (even, 1000),
                    (odd, 1000),
                    newest,
                    note="the latitudes differ by what is just close, or by one step more",
                )
    add_codes(pair, "latitude-window", ["PairWindowEdge"], (1124, 0), (13, 0), 0, note="they differ by 3/59 degree")
    for number, half in enumerate((-CODES // 2, CODES // 2 - 1, CODES // 2) * 8):
        lat = between("window of longitude", number, -80, 80)
        codes = [codes_of(AIR, parity, Place(lat, Fraction(0))) for parity in (0, 1)]
        places = {0: Place(lat, Fraction(0)), 1: Place(lat, Fraction(0))}
        if differ(places):
            continue
        count = 1 + sum(abs(lat) <= limit for limit in TRANSITIONS)
        even = pick("even longitude", number, CODES)
        odd = edge_code(count, even, half)
        if odd is not None:
            for newest in (0, 1):
                add_codes(pair, "longitude-window", ["PairWindowEdge"], (codes[0][0], even), (codes[1][0], odd), newest)


def edge_code(zones: int, even: int, half: int) -> Optional[int]:
    """The odd code whose number differs from the even one's by this edge, up to whole zones, where there is one."""
    return next((code for code in range(CODES) if ((zones - 1) * even - zones * code - half) % CODES == 0), None)


def add_ends_of_the_earth(pair: Collection) -> None:
    """Poles, 87 degrees, 180 degrees, the equator, the meridian, and latitudes beyond the poles."""
    for number in range(40):
        newest, lon = number % 2, between("pair far north", number, -180, 180)
        for sign, pole in sides(Fraction(90)):
            place = Place(pole - sign * Fraction(pick("pair at a pole", number, 1 + 30 * number**2), 10**7), lon)
            add(pair, "pole", pole_flags(sign), newest, place, Place(place.lat, lon + Fraction(1, 1000)))
            near = Place(
                sign * (87 + Fraction(pick("pair at 87", number, 1 + 40 * number) - 20 * number, 10**7)), lon
            )
            add(
                pair,
                "at-87",
                ["Latitude87", "ZoneBorder"],
                newest,
                near,
                moved("beside 87", number, near, Fraction(1, 20_000)),
            )
    for sign, lat in sides(Fraction(87)):
        for number in range(8):
            place = Place(lat, between("exactly 87", number, -180, 180))
            add(
                pair,
                "at-87",
                ["Latitude87", "ZoneBorder"],
                number % 2,
                place,
                place,
                note="the even grid has a latitude of exactly 87 degrees",
            )
    for number in range(60):
        lat = between("pair across", number, -80, 80)
        older, newer = (
            Place(lat, 180 + Fraction(pick(which, number, 8000) - 4000, 10**6)) for which in ("west", "east")
        )
        add(pair, "antimeridian", ["Antimeridian"], number % 2, older, newer)
    for number in range(20):
        x = Fraction(pick("pair at zero", number, 4000) - 2000, 10**6)
        add(pair, "equator", ["Equator"], number % 2, Place(x, Fraction(17 * number)), Place(-x, Fraction(17 * number)))
        add(
            pair,
            "meridian",
            ["PrimeMeridian"],
            number % 2,
            Place(Fraction(8 * number - 80), x),
            Place(Fraction(8 * number - 80), -x),
        )
    for number in range(24):
        zone = 15 + pick("beyond the pole", number, 29)
        lat = zone * Fraction(6) + between("further", number, 0, 5)
        even = nearest(lat, lat_step(AIR, 0)) % CODES
        odd = nearest(lat, lat_step(AIR, 1)) % CODES
        zones = close_zones((60, 59), even, odd)
        assert 90 < (even + CODES * zones[0]) * lat_step(AIR, 0) < 270, lat
        add_codes(
            pair, "beyond", ["OutOfRange"], (even, 77), (odd, 88), number % 2, note="the latitude is beyond a pole"
        )


def add_faults(pair: Collection) -> None:
    """What is no pair, and what is at fault first."""
    even, odd = (
        frames.air_frame(0x40621D, parity, code) for parity, code in enumerate(((93000, 51372), (74158, 50194)))
    )
    stranger = frames.air_frame(0x40621E, 1, (74158, 50194))
    ground = frames.ground_frame(0x40621D, 1, (74158, 50194))
    other = frames.head(0x40621D, 5, 0x2015A678D4D220)
    damaged, format_18 = even[:-1] + "6", frames.head(0x40621D, 5, 0x58C382D690C8AC, 18)
    assert frames.remainder(int(damaged, 16))
    rows = [
        ("SameParity", even, even),
        ("SameParity", odd, odd),
        ("OtherAddress", even, stranger),
        ("OtherAddress", stranger, even),
        ("OtherKind", even, ground),
        ("OtherKind", ground, even),
        ("NotAPosition", even, other),
        ("NotAPosition", other, odd),
        ("NotAPosition", other, stranger),
        ("OneBitError", damaged, odd),
        ("OneBitError", odd, damaged),
        ("OtherFormat", format_18, odd),
        ("OtherFormat", odd, format_18),
        ("OneBitError", damaged, format_18),
    ]
    for flag, older, newer in rows:
        pair.add("fault", [flag], {"older": older, "newer": newer})
    codes = frames.air_frame(0x40621D, 0, (97659, 80100)), frames.air_frame(0x40621D, 1, (93846, 80100))
    pair.add("fault", ["DifferentZoneCounts", "ZoneBorder"], {"older": codes[0], "newer": codes[1]})


def add_kinds(pair: Collection) -> None:
    """Both orders, each type code, mixed ones, a site that is not looked at, and ordinary places in each quadrant."""
    for number in range(32):
        place = Place(between("order lat", number, -80, 80), between("order lon", number, -180, 180))
        other = moved("order", number, place, Fraction(1, 50))
        codes = [codes_of(AIR, parity, (place, other)[parity]) for parity in (0, 1)]
        address = pair.address()
        both = [frames.air_frame(address, parity, code) for parity, code in enumerate(codes)]
        flags = ["EvenOddOrder"] + (["DifferentZoneCounts"] if differ({0: place, 1: other}) else [])
        for older, newer in (both, both[::-1]):
            pair.add("order", flags, {"older": older, "newer": newer})
    for number, type_code in enumerate(frames.AIR_TYPES):
        for second in (type_code, 11, 22):
            place = Place(Fraction(number * 5 - 30), between("type of a pair", number, -180, 180))
            flags = ["EachTypeCode"] + (["TypeCode20to22"] if max(type_code, second) >= 20 else [])
            flags += ["MixedTypeCodes"] if second != type_code else []
            add(pair, "type", flags, number % 2, place, moved("type", number, place), types=(type_code, second))
    for number in range(12):
        place = Place(Fraction(40), Fraction(10 * number))
        site = (Place(Fraction(0), Fraction(0)), Place(Fraction(-80), Fraction(170)), place)[number % 3]
        add(pair, "site", ["SiteIgnored"], number % 2, place, moved("site", number, place), site=site)
    for number in range(96):
        place = Place(between("ordinary pair lat", number, -85, 85), between("ordinary pair lon", number, -180, 180))
        add(pair, "ordinary", ["Ordinary"], number % 2, place, moved("ordinary", number, place))
