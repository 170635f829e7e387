"""Frames by their layout and their parity: 112 bits as one number, bit 1 being the highest.

Sources: ICAO Annex 10 volume IV section 3.1.2.3.3 (the parity); RTCA DO-260B section 2.2.3.2 and ICAO Doc 9871
registers 0,5 and 0,6 (the fields).
"""
from __future__ import annotations

from typing import Dict, NamedTuple, Tuple, Union

from cases.definitions import AIR, GROUND, Refused, Span

GENERATOR = 0x1FFF409
AIR_TYPES = (*range(9, 19), 20, 21, 22)
GROUND_TYPES = (5, 6, 7, 8)

Fields = Dict[str, Union[int, str]]


def product(left: int, right: int) -> int:
    """The product of two polynomials over the field of two elements."""
    sum_of_shifts = 0
    while right:
        if right & 1:
            sum_of_shifts ^= left
        left, right = left << 1, right >> 1
    return sum_of_shifts


def remainder(bits: int) -> int:
    """The one number below 2^24 whose sum with the frame is a multiple of the generator; the quotient is found first.
    """
    quotient = rest = 0
    for place in range(87, -1, -1):
        if (bits ^ rest) >> (place + 24) & 1:
            quotient |= 1 << place
            rest ^= GENERATOR << place
    found = bits ^ product(quotient, GENERATOR)
    assert 0 <= found < 2**24
    return found


def sealed(front: int) -> str:
    """The frame of these 88 bits and of the parity that makes it a multiple."""
    return f"{front << 24 | remainder(front << 24):028X}"


def head(address: int, ca: int, me: int, df: int = 17) -> str:
    """The correct frame with these fields."""
    return sealed(df << 83 | ca << 80 | address << 56 | me)


def altitude_feet(field: int) -> int:
    """Feet of a field with Q set: 25 N - 1000, N being the eleven bits around Q."""
    bits = f"{field:012b}"
    return 25 * int(bits[:7] + bits[8:], 2) - 1000


# Each field with Q set, by the feet that it means.
FIELD_OF_FEET = {altitude_feet(field): field for field in range(4096) if field & 0x10}
assert len(FIELD_OF_FEET) == 2048


def air_frame(
    address: int,
    odd: int,
    code: Tuple[int, int],
    type_code: int = 11,
    field: int = 0xC38,
    ca: int = 5,
    status: int = 0,
    flag: int = 0,
    time: int = 0,
) -> str:
    """An airborne position."""
    me = type_code << 51 | status << 49 | flag << 48 | field << 36 | time << 35 | odd << 34 | code[0] << 17 | code[1]
    return head(address, ca, me)


def ground_frame(
    address: int,
    odd: int,
    code: Tuple[int, int],
    type_code: int = 7,
    movement: int = 0,
    track_status: int = 0,
    track: int = 0,
    time: int = 0,
    ca: int = 4,
) -> str:
    """A surface position."""
    me = (
        type_code << 51
        | movement << 44
        | track_status << 43
        | track << 36
        | time << 35
        | odd << 34
        | code[0] << 17
        | code[1]
    )
    return head(address, ca, me)


class Squitter(NamedTuple):
    """What a correct frame says of a position."""

    address: int
    type_code: int
    kind: str
    odd: int
    code: Tuple[int, int]

    @property
    def span(self) -> Span:
        """The span of its grids."""
        return AIR if self.kind == "air" else GROUND


def taken(bits: int, first: int, count: int) -> int:
    """The bits from `first` on, so many, as a number; bit 1 is the highest of 112."""
    return int(f"{bits:0112b}"[first - 1 : first - 1 + count], 2)


def kind_of(type_code: int) -> str:
    """air, ground or other."""
    return "air" if type_code in AIR_TYPES else "ground" if type_code in GROUND_TYPES else "other"


def read(frame: str) -> Squitter:
    """The squitter that a frame spells, or its first fault."""
    bits = int(frame, 16)
    if taken(bits, 1, 5) != 17:
        raise Refused(f"not DF17 {taken(bits, 1, 5)}")
    if remainder(bits):
        raise Refused(f"parity {remainder(bits):06X}")
    type_code = taken(bits, 33, 5)
    return Squitter(
        taken(bits, 9, 24),
        type_code,
        kind_of(type_code),
        taken(bits, 54, 1),
        (taken(bits, 55, 17), taken(bits, 72, 17)),
    )


def altitude(frame: str) -> Fields:
    """What the altitude field of an airborne position means."""
    squitter, field = read(frame), taken(int(frame, 16), 41, 12)
    if squitter.type_code >= 20:
        return {"form": "raw", "field": f"{field:03X}"}
    if field == 0:
        return {"form": "none"}
    if field & 0x10:
        return {"form": "feet", "feet": altitude_feet(field)}
    return {"form": "raw", "field": f"{field:03X}"}


def fields(frame: str) -> Fields:
    """Every field of a squitter, by its layout."""
    squitter, bits = read(frame), int(frame, 16)
    found: Fields = {
        "address": f"{squitter.address:06X}",
        "ca": taken(bits, 6, 3),
        "type": squitter.type_code,
        "kind": squitter.kind,
    }
    if squitter.kind == "other":
        return {**found, "me": f"{taken(bits, 33, 56):014X}"}
    if squitter.kind == "air":
        means = altitude(frame)
        text = {"none": "none", "feet": f"{means.get('feet')} ft", "raw": f"raw {means.get('field')}"}[
            str(means["form"])
        ]
        found.update(status=taken(bits, 38, 2), flag=taken(bits, 40, 1), altitude=text)
    else:
        found.update({"movement": taken(bits, 38, 7), "track status": taken(bits, 45, 1), "track": taken(bits, 46, 7)})
    return {
        **found,
        "time": taken(bits, 53, 1),
        "parity": ("even", "odd")[squitter.odd],
        "lat": squitter.code[0],
        "lon": squitter.code[1],
    }
