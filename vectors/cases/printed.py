"""Frames that textbooks and other decoders' tests print, with where. Each is checked by its parity, each code by its
frame."""
from __future__ import annotations

from cases import frames
from cases.case import Collection

RIDDLE = "Sun, The 1090 Megahertz Riddle, "
GUIDE = "Page, ADS-B decoding guide (lll.lu), the worked pair"
PYMODES = "tests of pyModeS"
CPRTESTS = "cprtests.c of dump1090"

FRAMES = [
    ("8D4840D6202CC371C32CE0576098", RIDDLE + "identification"),
    ("8D406B902015A678D4D220AA4BDA", RIDDLE + "parity and identification"),
    ("8D40621D58C382D690C8AC2863A7", RIDDLE + "airborne position, even"),
    ("8D40621D58C386435CC412692AD6", RIDDLE + "airborne position, odd"),
    ("8C4841753AAB238733C8CD4020B1", RIDDLE + "surface position, even"),
    ("8C4841753A8A35323FAEBDAC702D", RIDDLE + "surface position, odd"),
    ("8C4841753A9A153237AEF0F275BE", PYMODES),
    ("8D485020994409940838175B284F", RIDDLE + "velocity over ground"),
    ("8DA05F219B06B6AF189400CBC33F", RIDDLE + "airspeed"),
    ("8D75804B580FF2CF7E9BA6F701D0", GUIDE),
    ("8D75804B580FF6B283EB7A157117", GUIDE),
    ("8D40058B58C901375147EFD09357", PYMODES),
    ("8D40058B58C904A87F402D3B8C59", PYMODES),
    ("8D8960ED58BF053CF11BC5932B7D", PYMODES),
    ("8D45CAB390C39509496CA9A32912", PYMODES),
    ("8D49D3D4E1089D00000000744C3B", PYMODES),
    ("8D74802958C904E6EF4BA0184D5C", PYMODES),
    ("8D4400CD9B0000B4F87000E71A10", PYMODES),
    ("8D4065DE58A1054A7EF0218E226A", PYMODES),
]

AIR_PAIRS = [
    ("8D40621D58C382D690C8AC2863A7", "8D40621D58C386435CC412692AD6", RIDDLE + "airborne position"),
    ("8D75804B580FF2CF7E9BA6F701D0", "8D75804B580FF6B283EB7A157117", GUIDE),
    ("8D40058B58C901375147EFD09357", "8D40058B58C904A87F402D3B8C59", PYMODES),
]
GROUND_PAIRS = [
    ("8C4841753AAB238733C8CD4020B1", "8C4841753A8A35323FAEBDAC702D", ("51.990", "4.375"), RIDDLE + "surface position"),
    ("8C4841753AAB238733C8CD4020B1", "8C4841753A9A153237AEF0F275BE", ("51.990", "4.375"), PYMODES),
]
REFERENCES = [
    ("8D40621D58C382D690C8AC2863A7", ("52.258", "3.918"), RIDDLE + "airborne position with a reference"),
    ("8D40058B58C901375147EFD09357", ("49.0", "6.0"), PYMODES),
    ("8D40058B58C904A87F402D3B8C59", ("49.0", "6.0"), PYMODES),
    ("8C4841753A8A35323FAEBDAC702D", ("51.990", "4.375"), RIDDLE + "surface position with a reference"),
]
# Codes that are printed without their frames: even, odd.
AIR_CODES = [((80536, 9432), (61720, 9192)), ((80534, 9413), (61714, 9144))]
GROUND_CODES = [((105730, 9259), (29693, 8997), ("52.00", "0.00"))]


def add_frames(parity: Collection, fields: Collection, altitude: Collection) -> None:
    """Each printed frame, by its parity, its fields and its altitude."""
    for frame, source in FRAMES:
        assert frames.remainder(int(frame, 16)) == 0, frame
        parity.add("printed", ["Printed"], {"frame": frame}, source=source)
        fields.add("printed", ["Printed"], {"frame": frame}, source=source)
        if frames.read(frame).kind == "air":
            altitude.add("printed", ["Printed"], {"frame": frame}, source=source)


def add_places(local: Collection, pair: Collection, ground: Collection) -> None:
    """Each printed pair, in both orders, and each frame with its reference."""
    for even, odd, source in AIR_PAIRS:
        for older, newer in ((even, odd), (odd, even)):
            pair.add("printed", ["Printed", "EvenOddOrder"], {"older": older, "newer": newer}, source=source)
    for even_code, odd_code in AIR_CODES:
        address = pair.address()
        both = [frames.air_frame(address, parity, code) for parity, code in enumerate((even_code, odd_code))]
        for older, newer in (both, both[::-1]):
            pair.add(
                "printed",
                ["Printed", "EvenOddOrder"],
                {"older": older, "newer": newer},
                source=CPRTESTS,
                note="the codes are printed, the rest of the frame is ours",
            )
    for even, odd, (lat, lon), source in GROUND_PAIRS:
        for older, newer in ((even, odd), (odd, even)):
            ground.add(
                "printed",
                ["Printed", "EvenOddOrder"],
                {"older": older, "newer": newer, "site": {"lat": lat, "lon": lon}},
                source=source,
            )
    for even_code, odd_code, (lat, lon) in GROUND_CODES:
        address = ground.address()
        both = [frames.ground_frame(address, parity, code) for parity, code in enumerate((even_code, odd_code))]
        for older, newer in (both, both[::-1]):
            ground.add(
                "printed",
                ["Printed", "EvenOddOrder"],
                {"older": older, "newer": newer, "site": {"lat": lat, "lon": lon}},
                source=CPRTESTS,
                note="the codes are printed, the rest of the frame is ours",
            )
    for frame, (lat, lon), source in REFERENCES:
        local.add("printed", ["Printed"], {"frame": frame, "reference": {"lat": lat, "lon": lon}}, source=source)
