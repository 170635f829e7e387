"""Cases of logs: lines of a moment and a frame text, heard one after the other."""
from __future__ import annotations

from fractions import Fraction
from typing import Any, Dict, List, Optional

from cases import frames
from cases.case import AIR, GROUND, TRANSITIONS, Collection, Place, between, codes_of, pick, words
from cases.pair_cases import moved

EVEN, ODD = "8D40621D58C382D690C8AC2863A7", "8D40621D58C386435CC412692AD6"
SPLIT_EVEN, SPLIT_ODD = "8D40621D58C382FAF738E411B0AA", "8D40621D58C386DD2D38E486BD11"
OTHER = "8D406B902015A678D4D220AA4BDA"
GROUND_EVEN, GROUND_ODD = "8C4841753AAB238733C8CD4020B1", "8C4841753A8A35323FAEBDAC702D"
SITE = Place(Fraction("51.99"), Fraction("4.375"))


def add(
    log: Collection,
    group: str,
    flags: List[str],
    lines: List[str],
    note: str = "",
    window: Optional[int] = None,
    limit: Optional[int] = None,
    site: Optional[Place] = None,
) -> None:
    """One log."""
    asked: Dict[str, Any] = {
        "lines": lines,
        **({"window": window} if window is not None else {}),
        **({"limit": limit} if limit is not None else {}),
        **({"site": words(site)} if site else {}),
    }
    log.add(group, flags, asked, note=note)


def add_logs(log: Collection) -> None:
    """All of them."""
    add_windows(log)
    add_orders(log)
    add_line_faults(log)
    add_following(log)
    add_flights(log)


def add_windows(log: Collection) -> None:
    """A pair as old as the window, and one older by a millisecond."""
    for window in (None, 0, 1, 500, 10_000, 25_000, 2**64 - 1):
        size = 10_000 if window is None else window
        for age in sorted({0, 1, max(size - 1, 0), size, size + 1}):
            if age < 2**64:
                add(log, "window", ["StalePair"], [f"0 {EVEN}", f"{age} {ODD}"], window=window)
                if age < 2**63:
                    add(log, "window", ["StalePair"], [f"1000000 {ODD}", f"{1_000_000 + age} {EVEN}"], window=window)
    add(log, "window", ["StalePair"], [f"{2**64 - 1} {EVEN}", f"{2**64 - 1} {ODD}"], window=0, limit=1)
    add(
        log,
        "counterpart",
        ["StalePair", "NewestCounterpart"],
        [f"0 {EVEN}", f"9000 {EVEN}", f"15000 {ODD}"],
        note="the newest even frame counts, and it is recent enough",
    )
    add(
        log,
        "counterpart",
        ["NewestCounterpart"],
        [f"0 {EVEN}", f"1 {SPLIT_EVEN}", f"2 {ODD}", f"3 {SPLIT_ODD}"],
        note="the newest even frame counts, although an older one would fit better",
    )


def add_orders(log: Collection) -> None:
    """Moments that go back, tables that are full, other addresses and kinds between."""
    add(log, "order", ["MomentBack"], [f"0 {EVEN}", f"9000 {EVEN}", f"15000 {ODD}", f"14999 {EVEN}", f"15000 {EVEN}"])
    add(
        log,
        "order",
        ["MomentBack"],
        [f"10 {OTHER}", f"9 {EVEN}", f"10 {EVEN}", f"10 {ODD}"],
        note="a message without a position sets the moment too",
    )
    add(
        log,
        "order",
        ["MomentBack", "OneBitError"],
        [f"10 {EVEN[:-1]}6", f"9 {EVEN}", f"9 {ODD}"],
        note="a refused line sets none",
    )
    add(
        log,
        "full",
        ["TableFull"],
        [f"0 {EVEN}", f"10000 {GROUND_EVEN}", f"10001 {GROUND_EVEN}", f"10001 {GROUND_ODD}"],
        limit=1,
    )
    add(log, "full", ["TableFull"], [f"0 {EVEN}", f"1 {GROUND_EVEN}", f"2 {OTHER}", f"3 {ODD}"], limit=1)
    third = frames.air_frame(0x123456, 0, (1, 2))
    add(
        log,
        "full",
        ["TableFull"],
        [f"0 {EVEN}", f"1 {GROUND_EVEN}", f"2 {third}", f"10001 {third}", f"10002 {ODD}"],
        limit=2,
    )
    add(log, "kinds", ["NoSite"], [f"0 {GROUND_EVEN}", f"1 {GROUND_ODD}"])
    add(log, "kinds", ["Surface"], [f"0 {GROUND_EVEN}", f"1 {GROUND_ODD}", f"2 {GROUND_EVEN}"], site=SITE)
    same = frames.ground_frame(0x40621D, 1, (39199, 110269))
    add(
        log,
        "kinds",
        ["OtherKind"],
        [f"0 {EVEN}", f"1 {same}", f"2 {ODD}", f"3 {EVEN}"],
        site=SITE,
        note="an aircraft that lands keeps its two kinds apart",
    )
    for split in ([SPLIT_EVEN, SPLIT_ODD], [SPLIT_ODD, SPLIT_EVEN]):
        add(log, "split", ["DifferentZoneCounts"], [f"{number} {frame}" for number, frame in enumerate(split)])
    far = [frames.air_frame(0x40621D, 0, (0, 0)), frames.air_frame(0x40621D, 1, (87381, 0))]
    for order in (far, far[::-1]):
        add(log, "far", ["OutOfRange"], [f"{number} {frame}" for number, frame in enumerate(order)])


def add_line_faults(log: Collection) -> None:
    """Lines as receivers write them, and broken ones. Each log ends in a pair that is heard as if nothing had been."""
    good = [f"7 {EVEN}", f"8 {ODD}"]
    rows = [
        f"1 *{EVEN};",
        f"1 {EVEN.lower()}",
        f"1 {EVEN}\r",
        "",
        "\r",
        f"1 *{EVEN}",
        f"1 {EVEN};",
        "1 *;",
        "1 ",
        "1 *",
        "1 ;",
        f"1  {EVEN}",
        f" 1 {EVEN}",
        EVEN,
        f"x {EVEN}",
        f"-1 {EVEN}",
        f"1.5 {EVEN}",
        f"18446744073709551616 {EVEN}",
        f"000000000000000000001 {EVEN}",
        f"00000000000000000001 {EVEN}",
        "1 5D40621D000000",
        "1 *5D40621D000000;",
        f"1 {EVEN[:-1]}",
        f"1 {EVEN}0",
        f"1 {EVEN[:-1]}G",
        f"1 g{EVEN[1:]}",
        f"1 @{EVEN}",
        f"1 {EVEN} ",
        f"1 {EVEN}" + " " * 40,
        "1" * 65,
        "1" * 64,
        f"1 {'9' + EVEN[1:]}",
        f"1 {EVEN[:-1]}6",
        f"1 {OTHER}",
        "MSG,3,1,1,40621D",
        "1 ~",
    ]
    for row in rows:
        add(log, "line", ["LineFaults"], [row] + good)
    add(log, "line", ["LineFaults"], ["", "", good[0], "", good[1]], note="empty lines are counted and not answered")


def add_following(log: Collection) -> None:
    """A fix that is followed, as long as it is recent, and one that is not."""
    add(
        log,
        "follow",
        ["Followed"],
        [f"0 {EVEN}", f"6000 {ODD}", f"12000 {ODD}", f"22000 {ODD}", f"32001 {ODD}", f"32001 {EVEN}"],
    )
    add(log, "follow", ["Followed"], [f"0 {EVEN}", f"1 {ODD}", f"10001 {EVEN}", f"20001 {ODD}", f"40000 {ODD}"])
    for number, limit in enumerate(TRANSITIONS[::4]):
        sign = 1 - 2 * (number % 2)
        lon = between("followed", number, -180, 180)
        lats = [sign * (limit + Fraction(k, 5000)) for k in (-3, -2, -1, 1, 2, 3)]
        address = log.address()
        lines = [
            f"{1000 * k} " + frames.air_frame(address, k % 2, codes_of(AIR, k % 2, Place(lat, lon)))
            for k, lat in enumerate(lats)
        ]
        add(
            log,
            "across",
            ["Followed", "ZoneBorder", "DifferentZoneCounts"],
            lines,
            note="a flight across a border of zone counts",
        )
    for number in range(6):
        address = log.address()
        places = [Place(Fraction(40 - 15 * number), 180 + Fraction(k - 3, 500)) for k in range(6)]
        lines = [
            f"{4000 * k} "
            + frames.air_frame(
                address,
                (k // 2) % 2,
                codes_of(AIR, (k // 2) % 2, Place(place.lat, place.lon - 360 * (place.lon > 180))),
            )
            for k, place in enumerate(places)
        ]
        add(
            log,
            "across",
            ["Followed", "Antimeridian"],
            lines,
            note="a flight across 180 degrees, two frames of a parity at a time",
        )


def add_flights(log: Collection) -> None:
    """Several aircraft in one log, with lines that are damaged or lost."""
    for number in range(12):
        settings = Place(Fraction(5 * number - 30), Fraction(14 * number - 80))
        lines = []
        flights = [(log.address(), moved("flight", 10 * number + k, settings, Fraction(1, 2))) for k in range(3)]
        for step in range(10):
            address, place = flights[pick(f"who {number}", step, 3)]
            kind = GROUND if address == flights[2][0] else AIR
            place = Place(place.lat + Fraction(step, 2000), place.lon + Fraction(step, 3000))
            odd = pick(f"parity {number}", step, 2)
            make = frames.air_frame if kind is AIR else frames.ground_frame
            frame = make(address, odd, codes_of(kind, odd, place))
            if pick(f"damage {number}", step, 8) == 0:
                frame = f"{int(frame, 16) ^ 1 << pick('bit of a log', step, 100):028X}"
            lines.append(f"{step * 1500 + pick('when', step, 1000)} {frame}")
        add(log, "flights", ["SeveralAircraft"], lines, site=settings)
