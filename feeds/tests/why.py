"""/why of squitter-live: the answer of the last position frame, and what the place that is shown is made of. Each
command that is told is run by the program."""
from __future__ import annotations

import shlex
import subprocess
from fractions import Fraction
from itertools import product
from typing import Any, Dict, List, Tuple

import squitter
from live import FAST, LOG, Run, log_with, piped, served
from process import program
from squitter import AirHead, GroundHead
from squitter_why import frame_told
from trying import AIR_EVEN, AIR_ODD, expect, same

ADDRESS, CALLSIGN = "40621D", "8D4840D6202CC371C32CE0576098"
# The pair of the textbook (The 1090 Megahertz Riddle), in that order and the other way round.
EVEN_PLACE, ODD_PLACE = ("428091/8192", "64215/16384"), ("25261515/483328", "225873/57344")
NEAR = ["52.2572021", "3.9193726"]
Rows = List[Tuple[int, str]]


def told_after(run: Run, rows: Rows, address: str = ADDRESS) -> Dict[str, Any]:
    """What is told of an aircraft once the last of these lines, which is of it, was heard."""
    before = run.told("/stats.json")["squitters"]
    piped(run, log_with(*rows))
    run.wait(lambda stats: stats["squitters"] == before + len(rows), "the last frame")
    return dict(run.told(f"/why/{address}"))


def by_program(place: Dict[str, Any]) -> Dict[str, Any]:
    """Fails unless the program prints the fractions that are told, by the command that is told. Returns the place."""
    first, *words = shlex.split(place["command"])
    done = subprocess.run([program(), *words], check=True, capture_output=True, text=True)
    same([first, *done.stdout.splitlines()[1].split()], ["squitter", place["lat"], place["lon"]], words)
    return place


def framed(frame: str, moment: int) -> Dict[str, Any]:
    parity = "odd" if squitter.read(frame).odd else "even"
    return {"frame": frame, "moment": moment, "parity": parity}


def made_of(told: Dict[str, Any], answer: str, place: Tuple[str, str], *frames: Dict[str, Any]) -> None:
    """Fails unless the place shown is that of these frames."""
    shown = by_program(told["place"])
    same((shown["answer"], (shown["lat"], shown["lon"]), shown["frames"]), (answer, place, list(frames)), told)


def each_answer() -> None:
    """From the first frame on, at the borders of the window of 10 s: what is told of the last frame, and of the place
    that is shown, which may be that of an earlier frame."""
    with served("-", "--every=50", stdin=subprocess.PIPE) as run:
        same(run.get(f"/why/{ADDRESS}")[0], 404, "before its first frame")
        told = told_after(run, [(0, CALLSIGN), (0, AIR_ODD)])
        same(told, {"address": ADDRESS, "doubts": [], "answer": "waiting", **framed(AIR_ODD, 0), "place": None})
        told = told_after(run, [(400, AIR_EVEN)])
        made_of(told, "fix", EVEN_PLACE, framed(AIR_ODD, 0), framed(AIR_EVEN, 400))
        same((told["answer"], told["frame"], told["place"]["near"]), ("fix", AIR_EVEN, None))
        same(told["place"]["command"], f"squitter pair {AIR_ODD} {AIR_EVEN}")
        told = told_after(run, [(10_000, AIR_EVEN)])
        made_of(told, "fix", EVEN_PLACE, framed(AIR_ODD, 0), framed(AIR_EVEN, 10_000))
        told = told_after(run, [(10_001, AIR_EVEN)])
        made_of(told, "followed", EVEN_PLACE, framed(AIR_EVEN, 10_001))
        same((told["answer"], told["place"]["near"]), ("followed", NEAR))
        same(told["place"]["command"], f"squitter local {AIR_EVEN} --lat={NEAR[0]} --lon={NEAR[1]}")
        told = told_after(run, [(20_001, AIR_EVEN)])
        made_of(told, "followed", EVEN_PLACE, framed(AIR_EVEN, 20_001))
        told = told_after(run, [(30_002, AIR_EVEN)])
        same((told["answer"], told["moment"]), ("waiting", 30_002))
        made_of(told, "followed", EVEN_PLACE, framed(AIR_EVEN, 20_001))
        # many lines in one piece, and frames of one timestamp
        told = told_after(run, [(31_000, AIR_ODD), (31_500, AIR_EVEN), (41_001, AIR_EVEN), (51_002, AIR_EVEN)])
        same((told["answer"], told["moment"]), ("waiting", 51_002))
        made_of(told, "followed", EVEN_PLACE, framed(AIR_EVEN, 41_001))
        told = told_after(run, [*((60_000, frame) for frame in (AIR_ODD, AIR_EVEN, AIR_ODD)), (70_001, AIR_ODD)])
        same((told["answer"], told["parity"]), ("waiting", "odd"))
        made_of(told, "fix", ODD_PLACE, framed(AIR_EVEN, 60_000), framed(AIR_ODD, 60_000))


def asked() -> None:
    """An address has six hexadecimal digits of either case. What is malformed, not present, or without a position frame
    is not found."""
    with served("-", "--every=50", stdin=subprocess.PIPE) as run:
        told = told_after(run, [(0, CALLSIGN), *pair_of("1", "1", 0), (1, AIR_ODD), (2, AIR_EVEN)])
        same(run.get("/why/000001")[0], 200)
        for name in (ADDRESS.lower(), "40621d?since=5"):
            same(run.told(f"/why/{name}"), told, name)
        same(run.get(f"/why/{ADDRESS}")[1]["Content-Type"], "application/json")
        status, fields, body = run.get(f"/why/{ADDRESS}", "HEAD")
        same((status, body, int(fields["Content-Length"])), (200, b"", len(run.get(f"/why/{ADDRESS}")[2])))
        same(run.get(f"/why/{ADDRESS}", "POST")[0], 405)
        for name in ("", "/", "/1", "/00001", "/0000001", "/0000_1", "/+00001", "/0x0001", "/40621D0", "/40621G",
                     "/40621D/", "/40621D%0A", "/%340621D", "/40621E", "/4840D6", "/../live"):
            for method in ("GET", "HEAD"):
                same(run.get(f"/why{name}", method)[0], 404, method, name)
        piped(run, log_with((60_003, CALLSIGN)))
        run.wait(lambda stats: stats["aircraft"] == 1, "it is gone")
        same(run.get(f"/why/{ADDRESS}")[0], 404, "a minute later")


def pair_of(lat: str, lon: str, moment: int, address: int = 1) -> Rows:
    """An even and an odd frame of a place in the air."""
    return [(moment + odd, squitter.encode(AirHead(address=address, odd=odd), (lat, lon)).hex().upper())
            for odd in (0, 1)]


def on_the_ground() -> None:
    """A pair on the ground is checked by the receiver position; without one the frame has no place, and the one in the
    air is shown."""
    ground = [(10 + odd, squitter.encode(GroundHead(address=1, odd=odd), ("52.3", "4.7")).hex().upper())
              for odd in (0, 1)]
    air = pair_of("52.4", "4.8", 0)
    # (for a receiver in the south the latitude is 90 degrees less)
    sites: List[Tuple[List[str], Rows, str]] = [([], air, "52.4"), (["51.99", "4.375"], ground, "52.3"),
                                                (["-51.99", "4.375"], ground, "-37.7")]
    for site, pair, lat in sites:
        words = [f"--{name}={text}" for name, text in zip(("lat", "lon"), site)]
        with served("-", "--every=50", *words, stdin=subprocess.PIPE) as run:
            told = told_after(run, [*air, *ground], "000001")
            place = by_program(told["place"])
            same(place["frames"], [framed(frame, moment) for moment, frame in pair], site)
            same((told["answer"], place["near"]), ("fix" if site else "no site", site or None))
            same(place["command"], " ".join(["squitter pair", *(frame for _, frame in pair), *words]))
            expect(abs(Fraction(place["lat"]) - Fraction(lat)) < Fraction(1, 1000), place, lat)
            told = told_after(run, [(10_011, ground[1][1])], "000001")
            same((told["answer"], told["place"]["answer"]), ("followed", "followed") if site else ("waiting", "fix"))
            by_program(told["place"])
            (_, even), (_, odd) = air
            told = told_after(run, [(30_000, odd), (30_001, ground[1][1]), (30_002, even)], "000001")
            same(by_program(told["place"])["frames"], [framed(odd, 30_000), framed(even, 30_002)], "the kinds apart")


def parities() -> None:
    """Each digit of a frame that has the bit of the parity, with the three beside it."""
    digits = set()
    for odd, time, zone in product((0, 1), (0, 1), range(4)):
        frame = squitter.encode(AirHead(address=1, odd=odd, time=time), (str(zone * 1.5 + 0.5), "0")).hex().upper()
        digits.add(frame[13])
        same(frame_told(f"5 {frame}".encode()), {"frame": frame, "moment": 5, "parity": ("even", "odd")[odd]})
    same(len(digits), 16, digits)


def split_pairs() -> None:
    """A pair on both sides of a zone border (NL is 59 up to 10.47047130 degrees, and 58 beyond) has no place; after a
    place it is followed, by its own frame alone."""
    (_, even), (_, odd) = pair_of("10.471", "3", 0)[0], pair_of("10.47", "3", 0)[1]
    with served("-", "--every=50", stdin=subprocess.PIPE) as run:
        told = told_after(run, [(0, even), (1, odd)], "000001")
        same((told["answer"], told["place"]), ("split", None))
        told = told_after(run, [*pair_of("10.469", "3", 2), (4, even)], "000001")
        same((told["answer"], told["place"]["frames"]), ("followed", [framed(even, 4)]))
        # of the odd frame: multiples of 360 / (59 2^17) and 360 / (58 2^17) degrees
        same(by_program(told["place"])["near"], ["10.4689931", "2.9999779"])


def half_a_zone_away() -> None:
    """A frame exactly half a zone north of the place before is followed to there. The decimals of that place are below
    it, and would give the place half a zone south, or none beyond the pole. So the command has those of the frame's own
    place."""
    # An index has 6 / 2^17 degrees, and half a zone of an even frame 3; the indices before are 3 and -1955003.
    rows = (("0.000137329101", "3.000137329101", "196617/65536", "3.0001373"),
            ("-89.492935180664", "-86.492935180664", "-5668401/65536", "-86.4929352"))
    for before, after, lat, near in rows:
        frames = [squitter.encode(AirHead(address=1, odd=odd), (text, "0")).hex().upper()
                  for odd, text in ((1, before), (0, before), (0, after))]
        with served("-", "--every=50", stdin=subprocess.PIPE) as run:
            told = told_after(run, list(zip((0, 1000, 10_500), frames)), "000001")
            place = by_program(told["place"])
            same((place["answer"], place["lat"], place["near"][0]), ("followed", lat, near), told)


def wild() -> None:
    """A place that cannot be true says so, with both reasons."""
    with served("-", "--every=50", "--lat=52.31", "--lon=4.76", stdin=subprocess.PIPE) as run:
        for at, (lat, lon, doubts) in enumerate((
                ("52.5", "4.5", []), ("-38", "-165", ["beyond 300 NM", "faster than 2000 knots"]),
                ("52.52", "4.5", ["faster than 2000 knots"]), ("52.53", "4.5", []))):
            told = told_after(run, pair_of(lat, lon, 20_000 * at), "000001")
            same((told["doubts"], by_program(told["place"])["near"]), (doubts, None), lat, lon)


def of_the_example() -> None:
    """Of each aircraft of the example, the command gives the place that is served as decimals."""
    with served(LOG, *FAST, "--lat=52.31", "--lon=4.76") as run:
        run.wait(lambda stats: stats["state"] == "ended", "the log is played")
        planes = [one for one in run.told("/data/aircraft.json")["aircraft"] if "lat" in one]
        for one in planes:
            place = by_program(run.told(f"/why/{one['hex']}")["place"])
            same([round(float(Fraction(place[name])), 7) for name in ("lat", "lon")], [one["lat"], one["lon"]], one)
        expect(len(planes) >= 2, planes)
