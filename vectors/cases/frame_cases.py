"""Cases of frames: parity, fields and altitude."""
from __future__ import annotations

from typing import List

from cases import frames, gillham
from cases.case import Collection, pick

AIR_EVEN = "8D40621D58C382D690C8AC2863A7"
AIR_ODD = "8D40621D58C386435CC412692AD6"
GROUND_EVEN = "8C4841753AAB238733C8CD4020B1"
OTHER = "8D406B902015A678D4D220AA4BDA"
SAMPLES = (AIR_EVEN, AIR_ODD, GROUND_EVEN, OTHER)


def flipped(frame: str, *places: int) -> str:
    """The frame with these bits turned, bit 1 being the first."""
    bits = int(frame, 16)
    for place in places:
        bits ^= 1 << (112 - place)
    return f"{bits:028X}"


def add_parity(parity: Collection) -> None:
    """Correct frames and damaged ones. Bits 1 to 5 stay, since another format is refused before its parity."""
    for place in range(6, 113):
        parity.add("one-bit", ["OneBitError"], {"frame": flipped(AIR_EVEN, place)}, note=f"bit {place} turned")
    for number in range(40):
        frame = SAMPLES[number % 4]
        first = 6 + pick("two bits", number, 106)
        second = first + 1 + pick("apart", number, 112 - first)
        parity.add(
            "two-bits",
            ["TwoBitError"],
            {"frame": flipped(frame, first, second)},
            note=f"bits {first} and {second} turned",
        )
    for number in range(40):
        length = 2 + pick("length of a burst", number, 23)
        first = 6 + pick("start of a burst", number, 107 - length)
        inner = [first + k for k in range(1, length - 1) if pick(f"burst {number}", k, 2)]
        frame = flipped(SAMPLES[number % 4], first, *inner, first + length - 1)
        parity.add("burst", ["BurstError"], {"frame": frame}, note=f"a burst of {length} bits from bit {first} on")
    for number in range(24):
        shift = pick("multiple", number, 80)
        frame = f"{int(SAMPLES[number % 4], 16) ^ frames.GENERATOR << shift:028X}"
        parity.add(
            "multiple", ["GeneratorMultiple"], {"frame": frame}, note=f"the generator, shifted by {shift}, is added"
        )
    for frame in SAMPLES:
        bits, address = int(frame, 16), int(frame[2:8], 16)
        parity.add(
            "overlaid",
            ["OverlaidParity"],
            {"frame": f"{bits ^ address:028X}"},
            note="the address is laid over the parity, as in replies",
        )
        parity.add("overlaid", ["OverlaidParity"], {"frame": f"{bits >> 24 << 24:028X}"}, note="a parity field of 0")
        parity.add("overlaid", ["OverlaidParity"], {"frame": f"{bits | 0xFFFFFF:028X}"}, note="a parity field of ones")
        for code in (1, 63, 127):
            parity.add(
                "overlaid",
                ["OverlaidParity"],
                {"frame": f"{bits ^ code:028X}"},
                note=f"an interrogator code of {code} is laid over the parity",
            )
    for number in range(40):
        bits = 17 << 107 | pick("any", number, 2**64) << 43 | pick("any more", number, 2**43)
        parity.add("any", ["Ordinary"], {"frame": f"{bits:028X}"}, note="bits that look random")
        parity.add(
            "any", ["Ordinary"], {"frame": frames.sealed(bits >> 24)}, note="bits that look random, with their parity"
        )
    for bits in (
        17 << 107,
        (17 << 107) + 1,
        (17 << 107) + (1 << 24),
        (17 << 107) + (1 << 23),
        (1 << 112) - 1 ^ 14 << 107,
    ):
        parity.add("ends", ["BitOrder"], {"frame": f"{bits:028X}"}, note="almost all bits alike")


def flags_of(type_code: int) -> List[str]:
    """What a type code is about."""
    return ["EachTypeCode"] + (["TypeCode20to22"] if 20 <= type_code <= 22 else [])


def add_fields(fields: Collection) -> None:
    """Each type code, each other field at its ends, other formats and damage."""
    for type_code in range(32):
        for low in (0, 2**51 - 1, 0x2A54AAAAD5555, 0x1234567898765, 0x3C38300018000):
            fields.add(
                "type",
                flags_of(type_code),
                {"frame": frames.head(fields.address(), 5, type_code << 51 | low & 2**51 - 1)},
            )
    for ca in range(8):
        fields.add("ca", ["RawFields"], {"frame": frames.air_frame(fields.address(), 0, (1, 2), ca=ca)})
        fields.add("ca", ["RawFields"], {"frame": frames.ground_frame(fields.address(), 1, (1, 2), ca=ca)})
    for status in range(4):
        for flag in (0, 1):
            for time in (0, 1):
                fields.add(
                    "status",
                    ["RawFields"],
                    {
                        "frame": frames.air_frame(
                            fields.address(), time ^ flag, (3, 4), status=status, flag=flag, time=time
                        )
                    },
                )
    for movement in (0, 1, 2, 8, 9, 38, 39, 93, 94, 108, 109, 123, 124, 125, 127):
        fields.add(
            "movement",
            ["RawFields"],
            {
                "frame": frames.ground_frame(
                    fields.address(),
                    movement % 2,
                    (5, 6),
                    movement=movement,
                    track_status=movement % 2,
                    track=127 - movement,
                )
            },
        )
    for bit in range(17):
        for parity in (0, 1):
            fields.add("code", ["CodeEnds"], {"frame": frames.air_frame(fields.address(), parity, (1 << bit, 0))})
            fields.add("code", ["CodeEnds"], {"frame": frames.ground_frame(fields.address(), parity, (0, 1 << bit))})
    for code in ((0, 0), (131071, 131071), (131071, 0), (0, 131071), (65536, 65535)):
        for parity in (0, 1):
            fields.add("code", ["CodeEnds"], {"frame": frames.air_frame(fields.address(), parity, code)})
    for address in (0, 1, 0x800000, 0x7FFFFF, 0xFFFFFF, 0xABCDEF):
        fields.add("address", ["AddressEnds"], {"frame": frames.air_frame(address, 0, (7, 8))})
    for df in range(32):
        if df != 17:
            frame = frames.head(0x40621D, 5, int(AIR_EVEN[8:22], 16), df)
            fields.add(
                "format",
                ["OtherFormat"],
                {"frame": frame},
                note="another downlink format with a correct parity",
                policies={"other-formats": {"any": True}},
            )
    for df in (0, 16, 18, 19, 31):
        frame = flipped(frames.head(0x40621D, 5, int(AIR_EVEN[8:22], 16), df), 100)
        fields.add(
            "format",
            ["OtherFormat"],
            {"frame": frame},
            note="another downlink format with a damaged parity: the format is looked at first",
            policies={"other-formats": {"any": True}},
        )
    for number in range(24):
        place = 6 + pick("damage", number, 107)
        frame = SAMPLES[number % 4]
        fields.add(
            "damaged",
            ["OneBitError"],
            {"frame": flipped(frame, place)},
            note=f"bit {place} turned",
            policies={"repair": frames.fields(frame)},
        )


def add_altitude(altitude: Collection) -> None:
    """Each form of the altitude field, in each type code of the air."""

    def add(group: str, flags: List[str], type_code: int, field: int, note: str = "") -> None:
        more = ["TypeCode20to22"] if type_code >= 20 else []
        altitude.add(
            group,
            flags + more,
            {
                "frame": frames.air_frame(
                    altitude.address(), field % 2, (93000, 51372), type_code=type_code, field=field
                )
            },
            note=note,
        )

    for number in sorted(
        {0, 1, 39, 40, 41, 2046, 2047, *(1 << k for k in range(11)), *(2047 ^ 1 << k for k in range(11))}
    ):
        field = number >> 4 << 5 | 0x10 | number & 15
        for type_code in (11, 9 + number % 10):
            add("feet", ["AltitudeQ1"], type_code, field)
    for number in range(80):
        field = pick("altitude", number, 4096)
        add("any", ["AltitudeQ1" if field & 0x10 else "AltitudeQ0"], 9 + number % 10, field)
    for type_code in frames.AIR_TYPES:
        add("missing", ["AltitudeMissing"], type_code, 0)
        add("forms", ["AltitudeQ1"], type_code, 0xC38)
        add("forms", ["AltitudeQ0"], type_code, 0x00F)
        add("forms", ["AltitudeQ0"], type_code, gillham.field_of_feet(35_000))
        add("forms", ["AltitudeQ1"], type_code, 0xFFF)
    for bit in range(12):
        add("bit", ["AltitudeQ1" if bit == 4 else "AltitudeQ0"], 9 + bit % 10, 1 << bit)
        add("bit", ["AltitudeQ0" if bit == 4 else "AltitudeQ1"], 9 + bit % 10, 4095 ^ 1 << bit)
    for feet in (
        -1200,
        -1100,
        -1000,
        -200,
        -100,
        0,
        100,
        200,
        300,
        400,
        500,
        600,
        10_000,
        29_900,
        50_100,
        50_200,
        50_300,
        62_700,
        62_800,
        100_000,
        126_700,
    ):
        add("hundreds", ["AltitudeQ0"], 9 + feet // 100 % 10, gillham.field_of_feet(feet), f"the code of {feet} feet")
    for number in range(30):
        add("gnss", ["GnssHeight"], 20 + number % 3, pick("height", number, 4096))
