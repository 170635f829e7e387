"""Cases of an even and an odd frame on the ground, with a site."""
from __future__ import annotations

from fractions import Fraction
from typing import Any, Dict, List, Optional

from cases import frames
from cases.case import GROUND, TRANSITIONS, Collection, Place, answer, between, codes_of, in_range, nudged, words
from cases.definitions import lat_step, nearest
from cases.pair_cases import moved
from cases.zone_cases import border_flags, pole_flags, sides

# Sites of each quadrant, and on the borders between them.
SITES = [
    ("52.31", "4.76"),
    ("61.17", "-149.99"),
    ("40.64", "-73.78"),
    ("35.55", "139.78"),
    ("1.36", "103.99"),
    ("78.25", "15.47"),
    ("-33.97", "18.6"),
    ("-37.67", "144.84"),
    ("-23.43", "-46.47"),
    ("-36.99", "-174.79"),
    ("-54.84", "-68.3"),
    ("-17.75", "179.95"),
    ("51.87", "-179.9"),
    ("0", "0"),
    ("0", "100"),
    ("0.05", "9.41"),
    ("-0.02", "-78.36"),
    ("48.72", "0"),
    ("5.6", "-0.17"),
    ("45", "90"),
    ("-45", "-90"),
    ("45", "-45"),
    ("20", "180"),
    ("-20", "-180"),
]


def quadrant_flags(lat: Fraction, lon: Fraction) -> List[str]:
    """The quarter of the Earth, and what else is special about a place."""
    flags = [f"Quadrant{'North' if lat >= 0 else 'South'}{'East' if lon >= 0 else 'West'}"]
    flags += ["SouthernSurface"] if lat < 0 else []
    return flags


def site_flags(site: Place) -> List[str]:
    """What is special about a site."""
    flags = ["SiteZeroZero"] if site == (0, 0) else []
    flags += ["Antimeridian"] if abs(site.lon) >= 179 else []
    flags += ["Equator"] if abs(site.lat) < 1 else []
    return flags + (["PrimeMeridian"] if abs(site.lon) < 1 else [])


def add(
    ground: Collection,
    group: str,
    flags: List[str],
    newest: int,
    older: Place,
    newer: Place,
    site: Optional[Place],
    note: str = "",
    type_code: int = 7,
    edge: bool = False,
) -> None:
    """A pair of an older and a newer position, and a site."""
    address = ground.address()
    places = {newest: in_range(*newer), 1 - newest: in_range(*older)}
    both = [
        frames.ground_frame(address, parity, codes_of(GROUND, parity, places[parity]), type_code=type_code)
        for parity in (0, 1)
    ]
    asked: Dict[str, object] = {"older": both[1 - newest], "newer": both[newest]}
    if site:
        asked["site"] = words(site)
    sent = [abs(nearest(places[odd].lat, lat_step(GROUND, odd)) * lat_step(GROUND, odd)) for odd in (0, 1)]
    if any(min(sent) <= limit < max(sent) for limit in TRANSITIONS):
        flags = flags + ["DifferentZoneCounts"]
    beside = nudged("surface-pair", asked, "site", answer("surface-pair", asked)) if edge else None
    ground.add(group, list(dict.fromkeys(flags)), asked, note=note, beside=beside)


def add_surface_pairs(ground: Collection) -> None:
    """All of them."""
    add_sites(ground)
    add_far_sites(ground)
    add_borders(ground)
    add_poles(ground)
    add_kinds(ground)


def add_sites(ground: Collection) -> None:
    """Each site, with aircraft on all sides of it."""
    for lat, lon in SITES:
        site = Place(Fraction(lat), Fraction(lon))
        for number in range(12):
            place = in_range(*moved(f"{lat} {lon}", number, site, Fraction(3, 10)))
            flags = quadrant_flags(*place) + site_flags(site)
            add(
                ground,
                f"site-{lat}-{lon}",
                flags,
                number % 2,
                place,
                moved("taxi", number, place, Fraction(1, 5000)),
                site,
            )


def add_far_sites(ground: Collection) -> None:
    """A site 45 degrees away: the window of the site is open at its lower end and closed at its upper end."""
    for number in range(12):
        newest = number % 2
        unit = 64 * 59 if newest else 64  # so that the site has a dozen decimals
        index = unit * nearest(between("far site", number, -40, 40), unit * lat_step(GROUND, newest))
        lat = index * lat_step(GROUND, newest)
        lon = Fraction(round(between("far site east", number, -180, 180)))
        place = Place(lat, lon)
        for way in (-1, 1):
            for offset in (0, 1, -1):
                site = Place(lat + 45 * way + Fraction(offset, 10**4), lon + 1)
                if abs(site.lat) <= 90:
                    add(
                        ground,
                        "far-latitude",
                        ["SiteWindowEdge"],
                        newest,
                        place,
                        place,
                        site,
                        note="the site is 45 degrees north or south",
                        edge=offset == 0,
                    )
                east = in_range(lat + 1, lon + 45 * way + Fraction(offset, 10**3))
                add(
                    ground,
                    "far-longitude",
                    ["SiteWindowEdge"],
                    newest,
                    place,
                    place,
                    east,
                    note="the site is about 45 degrees east or west",
                )
    for number in range(12):
        place = Place(between("ground beyond", number, 0, 40), Fraction(30 * number - 180))
        for sign in (1, -1):
            site = Place(sign * Fraction(89), place.lon)
            add(
                ground,
                "beyond",
                ["OutOfRange"] + pole_flags(sign),
                number % 2,
                Place(sign * place.lat, place.lon),
                Place(sign * place.lat, place.lon),
                site,
                note="near this site the latitude would be beyond the pole",
            )


def add_borders(ground: Collection) -> None:
    """Each border of zone counts, both signs, below, above and across, in turn."""
    small = Fraction(1, 40_000)
    for number, limit in enumerate(TRANSITIONS):
        for sign, lat in sides(limit):
            newest = (number + (sign < 0)) % 2
            lon = between("ground at a border", number, -180, 180)
            below, above = Place(lat - sign * small, lon), Place(lat + sign * small, lon)
            site = Place(Fraction(sign * (number + 20)) if number < 60 else lat, Fraction(round(lon)))
            flags = border_flags(limit) + quadrant_flags(lat, lon)
            older, newer = ((below, below), (above, above), (below, above))[number % 3]
            add(ground, "border", flags, newest, older, newer, site)
            if limit == 87:
                add(ground, "border", flags, newest, below, below, site)
                add(ground, "border", flags, newest, Place(lat, lon), Place(lat, lon), site)


def add_poles(ground: Collection) -> None:
    """Aircraft at a pole, and the site there."""
    for number in range(12):
        lon = Fraction(30 * number - 175)
        for sign, pole in sides(Fraction(90)):
            place = Place(pole - sign * Fraction(number * number, 10**4), lon)
            site = Place(pole, Fraction(0)) if number % 3 == 0 else Place(pole - sign * Fraction(number, 8), lon)
            add(ground, "pole", pole_flags(sign) + quadrant_flags(*place), number % 2, place, place, site)


def add_kinds(ground: Collection) -> None:
    """Both orders, each type code, no site, and what is no pair."""
    site = Place(Fraction("51.99"), Fraction("4.375"))
    for number in range(16):
        place = moved("ground order", number, site, Fraction(1, 4))
        other = moved("ground other", number, place, Fraction(1, 2000))
        address = ground.address()
        both = [
            frames.ground_frame(address, parity, codes_of(GROUND, parity, (place, other)[parity])) for parity in (0, 1)
        ]
        for older, newer in (both, both[::-1]):
            ground.add("order", ["EvenOddOrder"], {"older": older, "newer": newer, "site": words(site)})
    for type_code in frames.GROUND_TYPES:
        for number in range(3):
            place = moved("ground type", 10 * type_code + number, site, Fraction(1, 5))
            add(ground, "type", ["EachTypeCode"], number % 2, place, place, site, type_code=type_code)
    for number in range(8):
        place = moved("no site", number, site, Fraction(1, 5))
        add(ground, "no-site", ["NoSite"], number % 2, place, place, None)
    even, odd = (
        frames.ground_frame(0x484175, parity, code) for parity, code in enumerate(((115609, 116941), (39199, 110269)))
    )
    air = frames.air_frame(0x484175, 1, (74158, 50194))
    stranger = frames.ground_frame(0x484176, 1, (39199, 110269))
    for flag, older, newer, given in (
        ("SameParity", even, even, site),
        ("SameParity", odd, odd, None),
        ("OtherKind", even, air, site),
        ("OtherAddress", even, stranger, site),
        ("OtherAddress", even, stranger, None),
        ("OneBitError", even[:-1] + "0", odd, site),
    ):
        asked: Dict[str, Any] = {"older": older, "newer": newer, **({"site": words(given)} if given else {})}
        ground.add("fault", [flag], asked)
