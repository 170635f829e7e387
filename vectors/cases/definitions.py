"""Positions, grids, codes and zone counts by their definitions: whole fractions, intervals that are searched, and no
floats.

None of this is a decoder's formula. A number is looked for among all that could be meant, by the interval in which
the standard places it, and that there is exactly one is asserted each time.

The standard is RTCA DO-260B, appendix A section A.1.7 (compact position reporting), and ICAO Doc 9871, appendix C.
"""
from __future__ import annotations

from fractions import Fraction
from functools import lru_cache
from typing import List, NamedTuple, Optional, Sequence, Tuple

CODES = 2**17  # a zone has so many steps
HALF = Fraction(1, 2)

# The transition latitudes rounded to 10^-8 degree: up to the first there are 59 zones of longitude, up to the last 2.
TRANSITIONS = [
    Fraction(text)
    for text in """
10.47047130 14.82817437 18.18626357 21.02939493 23.54504487 25.82924707 27.93898710 29.91135686 31.77209708 33.53993436
35.22899598 36.85025108 38.41241892 39.92256684 41.38651832 42.80914012 44.19454951 45.54626723 46.86733252 48.16039128
49.42776439 50.67150166 51.89342469 53.09516153 54.27817472 55.44378444 56.59318756 57.72747354 58.84763776 59.95459277
61.04917774 62.13216659 63.20427479 64.26616523 65.31845310 66.36171008 67.39646774 68.42322022 69.44242631 70.45451075
71.45986473 72.45884545 73.45177442 74.43893416 75.42056257 76.39684391 77.36789461 78.33374083 79.29428225 80.24923213
81.19801349 82.13956981 83.07199445 83.99173563 84.89166191 85.75541621 86.53536998 87.00000000""".split()
]


class Refused(Exception):
    """Why there is no answer, in the words of the command `squitter`."""


class Profile(NamedTuple):
    """Choices that decoders make differently. As it stands, it is the profile whose answers the vectors expect."""

    one_zone_at_87: bool = False  # a latitude of exactly 87 degrees has one zone of longitude, not two
    out_of_range: bool = False  # a latitude beyond 90 degrees is answered, not refused
    in_range: bool = False  # on the ground, of the latitudes up to 90 degrees the one nearest to the site
    zone_counts: bool = False  # a pair whose zone counts differ is answered by the newer frame's own count
    lower_end: bool = False  # on the ground, of two candidates that are 45 degrees from the site the lower one


OURS = Profile()


class Place(NamedTuple):
    """Exact degrees, north and east."""

    lat: Fraction
    lon: Fraction


class Span(NamedTuple):
    """360 degrees in the air, 90 on the ground."""

    degrees: int


AIR, GROUND = Span(360), Span(90)


def zone_count(lat: Fraction, profile: Profile = OURS) -> int:
    """NL: one, and one more for each transition that the latitude's magnitude does not pass."""
    if profile.one_zone_at_87 and abs(lat) == 87:
        return 1
    return 1 + len([limit for limit in TRANSITIONS if abs(lat) <= limit])


def lon_zones(lat: Fraction, odd: int, profile: Profile = OURS) -> int:
    """The zones of longitude at a latitude of the even or of the odd grid."""
    return max(zone_count(lat, profile) - odd, 1)


def lat_step(span: Span, odd: int) -> Fraction:
    """Degrees from one latitude of a grid to the next."""
    return Fraction(span.degrees, (60 - odd) * CODES)


def lon_step(span: Span, zones: int) -> Fraction:
    """Degrees from one longitude of a grid to the next, where there are so many zones."""
    return Fraction(span.degrees, zones * CODES)


def nearest(x: Fraction, step: Fraction) -> int:
    """The one whole number a with (a - 1/2) step <= x < (a + 1/2) step, by halving the interval in which it lies."""
    left, right = 2 * x.numerator * step.denominator, step.numerator * x.denominator  # x / step is left / (2 right)
    low, high = -(2**62), 2**62
    while high - low > 1:
        middle = (low + high) // 2
        low, high = (middle, high) if (2 * middle - 1) * right <= left else (low, middle)
    assert (low - HALF) * step <= x < (low + HALF) * step
    return low


def only(found: Sequence) -> Optional[object]:
    """The one thing that was found, None where there is none. That there are two is a mistake of a definition."""
    assert len(found) <= 1, found
    return found[0] if found else None


def around(x: Fraction, center: Fraction, turn: int) -> Fraction:
    """The one number that differs from x by whole turns and lies in (center - turn / 2, center + turn / 2]."""
    half = Fraction(turn, 2)
    guess = (center - x) // turn
    found = only([x + turn * t for t in range(guess - 2, guess + 3) if center - half < x + turn * t <= center + half])
    assert found is not None
    return found


def eastward(lon: Fraction) -> Fraction:
    """A longitude in [-180, 180)."""
    return -around(-lon, Fraction(0), 360)


class Point(NamedTuple):
    """A point of a grid: its indices, and the zones of longitude at its latitude."""

    span: Span
    odd: int
    lat_index: int
    zones: int
    lon_index: int

    def place(self) -> Place:
        """Where it lies."""
        return Place(
            self.lat_index * lat_step(self.span, self.odd), eastward(self.lon_index * lon_step(self.span, self.zones))
        )

    def code(self) -> Tuple[int, int]:
        """What is sent: both indices modulo 2^17."""
        return self.lat_index % CODES, self.lon_index % CODES


def rounded(span: Span, odd: int, position: Place, profile: Profile = OURS) -> Point:
    """The point to which a position rounds. The longitude's zones are those of the latitude that is sent."""
    lat_index = nearest(position.lat, lat_step(span, odd))
    zones = lon_zones(lat_index * lat_step(span, odd), odd, profile)
    return Point(span, odd, lat_index, zones, nearest(position.lon, lon_step(span, zones)))


def windowed(code: int, step: Fraction, reference: Fraction) -> Fraction:
    """The one number (code + 2^17 j) step in (reference - half a zone, reference + half a zone]."""
    zone = CODES * step
    low, high = reference - zone / 2, reference + zone / 2
    unit = step.denominator * low.denominator * high.denominator
    grid, one_zone = int(code * step * unit), int(zone * unit)
    least, most = int(low * unit), int(high * unit)
    middle = int(reference / zone)
    found = only([j for j in range(middle - 3, middle + 4) if least < grid + j * one_zone <= most])
    assert found is not None
    return (code + CODES * found) * step


def local(span: Span, odd: int, code: Tuple[int, int], reference: Place, profile: Profile = OURS) -> Place:
    """The place with this code near a reference."""
    lat = windowed(code[0], lat_step(span, odd), reference.lat)
    if abs(lat) > 90 and not profile.out_of_range:
        raise Refused("latitude out of range")
    zones = lon_zones(lat, odd, profile)
    return Place(lat, eastward(windowed(code[1], lon_step(span, zones), reference.lon)))


@lru_cache(maxsize=None)
def close_zones(zones: Tuple[int, int], even: int, odd: int) -> Tuple[int, int]:
    """The zones of an even and an odd index whose numbers p and q are close: -k <= p - q < k, up to whole spans.

    There are `zones` of them in a span, even first, and k is half of what an even zone and an odd zone differ by. In
    units of a span over (even zones * odd zones * 2^17), p is its index times the odd zones, q its index times the
    even zones, and k is 2^16.
    """
    span = zones[0] * zones[1] * CODES
    found = [
        (zone, other)
        for zone in range(zones[0])
        for other in range(zones[1])
        if ((even + CODES * zone) * zones[1] - (odd + CODES * other) * zones[0] + CODES // 2) % span < CODES
    ]
    close = only(found)
    assert close is not None
    return close


def representative(lat: Fraction, span: Span, site: Optional[Place], profile: Profile) -> Fraction:
    """The latitude that is meant by one that is known up to whole spans."""
    if span is GROUND:
        assert site is not None
        chosen = around(lat, site.lat, 90)
        if profile.lower_end and chosen - site.lat == 45 and chosen - 90 >= -90:
            chosen -= 90
        if profile.in_range and abs(chosen) > 90:
            chosen = min(
                (lat + 90 * t for t in range(-2, 3) if abs(lat + 90 * t) <= 90), key=lambda x: abs(x - site.lat)
            )
        within: Optional[Fraction] = chosen if abs(chosen) <= 90 or profile.out_of_range else None
    else:
        within = only([lat + 360 * t for t in (-1, 0, 1) if abs(lat + 360 * t) <= 90])
        if within is None and profile.out_of_range:
            within = lat if lat < 270 else lat - 360
    if within is None:
        raise Refused("latitude out of range")
    return within


def pair(
    span: Span, codes: Sequence[Tuple[int, int]], newest: int, site: Optional[Place], profile: Profile = OURS
) -> Place:
    """The place of the newest of an even and an odd code."""
    if span is GROUND and site is None:
        raise Refused("no site")
    zones = close_zones((60, 59), codes[0][0], codes[1][0])
    lats: List[Fraction] = []
    for odd in (0, 1):
        lat = (codes[odd][0] + CODES * zones[odd]) * lat_step(span, odd)
        lats.append(representative(lat, span, site, profile))
    counts = [zone_count(lat, profile) for lat in lats]
    if counts[0] != counts[1] and not profile.zone_counts:
        raise Refused(f"zone counts {counts[0]} {counts[1]}")
    count = counts[newest]
    if count == 1:
        lon = codes[newest][1] * lon_step(span, 1)
    else:
        chosen = close_zones((count, count - 1), codes[0][1], codes[1][1])[newest]
        lon = (codes[newest][1] + CODES * chosen) * lon_step(span, count - newest)
    if span is GROUND:
        assert site is not None
        lon = nearest_turn(lon, site.lon)
        if profile.lower_end and lon - site.lon == 45:
            lon -= 90
    return Place(lats[newest], eastward(lon))


def nearest_turn(lon: Fraction, center: Fraction) -> Fraction:
    """The longitude that differs by whole spans of 90 degrees and lies in (center - 45, center + 45]."""
    return around(lon, center, 90)


def decimal7(x: Fraction) -> str:
    """Seven decimals, a tie away from zero, `-` only where a digit is not 0."""
    millionths = nearest(abs(x) * 10**7, Fraction(1))
    return f"{'-' if x < 0 < millionths else ''}{millionths // 10**7}.{millionths % 10**7:07}"


def ratio(x: Fraction) -> str:
    """Lowest terms, as `num/den`."""
    return f"{x.numerator}/{x.denominator}"
