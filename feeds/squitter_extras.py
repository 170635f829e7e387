"""What a live view shows of messages without a position: callsign, speed, track, vertical rate and squawk.

This part is tested, not proved. It reads the 56 bits of a message (the field ME of DO-260B), whose frame the library
has accepted. The keys of the result are those of readsb's aircraft.json."""
from __future__ import annotations

import math
from typing import Dict, Union

Extras = Dict[str, Union[str, float]]

LETTERS = "?ABCDEFGHIJKLMNOPQRSTUVWXYZ????? ???????????????0123456789??????"  # of six bits (DO-260B 2.2.3.2.5)
# Where the digits A, B, C and D of a squawk have their bits, those of 4, 2 and 1, in the 13 bits of a Mode A code:
# C1 A1 C2 A2 C4 A4 0 B1 D1 B2 D2 B4 D4 (DO-260B 2.2.3.2.7.8).
SQUAWK = ((5, 3, 1), (11, 9, 7), (4, 2, 0), (12, 10, 8))


def bits(message: int, first: int, last: int) -> int:
    """Returns the bits of a message from the first to the last, counted from 1 as the standard does."""
    return message >> 56 - last & (1 << last - first + 1) - 1


def extras_of(message: int) -> Extras:
    """Returns what a message says, or nothing. A value that the aircraft does not know is left out."""
    code, subtype = bits(message, 1, 5), bits(message, 6, 8)
    if 1 <= code <= 4:
        return callsign(message)
    if code == 19 and subtype in (1, 2):
        return velocity(message, 1 if subtype == 1 else 4)
    if code == 28 and subtype == 1:
        return {"squawk": squawk(bits(message, 12, 24))}
    return {}


def callsign(message: int) -> Extras:
    """Returns the callsign of an identification message (type codes 1 to 4, DO-260B 2.2.3.2.5)."""
    text = "".join(LETTERS[bits(message, at, at + 5)] for at in range(9, 57, 6))
    return {} if "?" in text or not text.strip() else {"flight": text.strip()}


def velocity(message: int, unit: int) -> Extras:
    """Returns the speed over ground (knots), the track (degrees from north) and the vertical rate (ft/min) of a message
    of velocity (type code 19, subtypes 1 and 2, DO-260B 2.2.3.2.6). Its speeds count so many knots."""
    told: Extras = {}
    east, north, rate = bits(message, 15, 24), bits(message, 26, 35), bits(message, 38, 46)
    if east and north:
        along = unit * (east - 1) * (-1 if bits(message, 14, 14) else 1)
        up = unit * (north - 1) * (-1 if bits(message, 25, 25) else 1)
        told["gs"] = round(math.hypot(along, up), 2)
        if along or up:
            told["track"] = round(math.degrees(math.atan2(along, up)) % 360, 2)
    if rate:
        source = "baro_rate" if bits(message, 36, 36) else "geom_rate"
        told[source] = 64 * (rate - 1) * (-1 if bits(message, 37, 37) else 1)
    return told


def squawk(code: int) -> str:
    """Returns the four digits of 13 bits of a Mode A code."""
    return "".join(str(sum((code >> 12 - at & 1) << 2 - place for place, at in enumerate(digit))) for digit in SQUAWK)
