"""What decoders of another policy make of an altitude field that the profile keeps raw.

With Q = 0 the field is the altitude code in steps of 100 feet (ICAO Annex 10 volume IV section 3.1.1.7.12.2.3), with M
left out. The code of each altitude is made, and the one that equals the field is looked for.
"""
from __future__ import annotations

from typing import Any, Dict

from cases import frames

# A pulse of a Mode C reply has a letter and a weight of 1, 2 or 4. In the order of the field, where the Q bit stands in
# place of the letter D with weight 1:
ORDER = tuple(zip("CACACABQBDBD", (1, 1, 2, 2, 4, 4, 1, 0, 2, 2, 4, 4)))
# Those that count steps of 500 feet, the highest first:
EIGHT = tuple(zip("DDAAABBB", (2, 4, 1, 2, 4, 1, 2, 4)))
# The weights of the letter C, from 200 feet below a multiple of 500 to 200 above it:
HUNDREDS = ({4}, {2, 4}, {2}, {1, 2}, {1})


def field_of_feet(feet: int) -> int:
    """The field of an altitude, a multiple of 100 feet: a Gray code of 500 feet, and within these five pulses."""
    five_hundreds, part = divmod(feet + 1200, 500)
    gray = five_hundreds ^ five_hundreds >> 1
    pulses = {pulse for place, pulse in enumerate(EIGHT) if gray >> (7 - place) & 1}
    pulses |= {("C", weight) for weight in HUNDREDS[4 - part // 100 if five_hundreds % 2 else part // 100]}
    return int("".join(str(int(pulse in pulses)) for pulse in ORDER), 2)


FEET_OF_FIELD = {field_of_feet(feet): feet for feet in range(-1200, 126_701, 100)}


def policies(frame: str) -> Dict[str, Any]:
    """The other answers to a field that is kept raw."""
    bits = int(frame, 16)
    type_code, field = frames.taken(bits, 33, 5), frames.taken(bits, 41, 12)
    if type_code < 20:
        feet = FEET_OF_FIELD.get(field)
        return {"hundred-feet": {"form": "none"} if feet is None else {"form": "feet", "feet": feet}}
    if field & 0x10:
        found = {"form": "feet", "feet": frames.altitude_feet(field)}
    else:
        found = {"form": "none"} if field not in FEET_OF_FIELD else {"form": "feet", "feet": FEET_OF_FIELD[field]}
    return {"gnss-height-by-altitude-code": found, "gnss-height-in-metres": {"form": "metres", "metres": field}}
