"""Streams of each format: what receivers send, and damage to it."""
from __future__ import annotations

import random
import re
from typing import Dict, Iterator, List, NamedTuple, Set

from trying import beast

FORMS = ("beast", "avr", "csv", "log")
TURN = 1 << 48  # ticks after which a clock starts again
MLAT = 0xFF004D4C4154  # the clock of frames that a server computed
DAY = 86_400_000  # milliseconds
MARK = b"\xef\xbb\xbf"  # of the byte order
GARBAGE = (b"\x1a", b"\x1a1", b"\x1a4", b"\x1a9", b"*", b";", b"@", b"\r", b"\n", b" ", b'"', b",", b"\xb5", b"\x00",
           b"8D")


class Sent(NamedTuple):
    """A line or a message: its frame, and its clock (ticks) or its own time (ms)."""

    data: bytes
    frame: str = ""
    time: int = 0
    is_wild: bool = False


class Stream(NamedTuple):
    data: bytes
    sent: Dict[str, Sent]
    forms: Set[str]  # of the sources that are joined


def new_frame(draw: random.Random, addresses: List[int]) -> str:
    """Returns a frame: of DF17 in the air, on the ground or with a velocity, of another format, or of Mode A/C."""
    kind, rest, address = draw.choice("AAAAGVSLCM"), draw.getrandbits(104), draw.choice(addresses)
    if kind in "AGV":
        code = {"A": draw.randrange(9, 19), "G": draw.randrange(5, 9), "V": 19}[kind]
        return f"{'8C' if kind == 'G' else '8D'}{address:06X}{code << 3 | rest & 7:02X}{rest >> 32:018X}"
    return {"S": f"5D{address:06X}{rest & 0xFFFFFF:06X}", "L": f"{draw.choice((0xA0, 0xA8)):02X}{rest:026X}",
            "C": f"{draw.choice((2, 32)):02X}{rest:026X}"[:14], "M": f"{rest & 0xFFFF:04X}"}[kind]


def healthy(form: str, draw: random.Random, is_named: bool) -> Iterator[Sent]:
    """Yields what is sent: dense or sparse traffic of some aircraft. A few times are wild, and the clock may jump. A
    table that `is_named` has a header, and any other may have one."""
    end, marks = draw.choice(("\n", "\n", "\r\n")), draw.choice(("*", "@", "@", "%", "<", "*@<", "b"))
    has_clock, is_gps, front = draw.randrange(5) > 0, draw.randrange(4) == 0, "18:40 " * (draw.randrange(10) == 0)
    if form == "avr" and draw.randrange(4) == 0:
        end = draw.choice(("\n\r", "\r", "" if marks != "b" else "\n"))
    phase = draw.choice((0, draw.getrandbits(48), TURN - draw.randrange(1, 10**9)))
    names = ["time", "icao24", "rawmsg"]
    if form == "csv" and draw.randrange(2):
        names = [draw.choice(("time", "mintime", "timestamp")), "rawmsg", *draw.sample("wxyz", draw.randrange(4))]
        draw.shuffle(names)
    if form == "csv" and (is_named or names[1:2] != ["icao24"]):
        yield Sent((",".join(names) + end).encode())

    def spelled(millis: int, frame: str, is_wild: bool) -> Sent:
        digits, ticks = draw.choice((frame, frame.lower())), 12_000 * millis + draw.randrange(12_000) + phase
        if is_gps:
            ticks = (millis // 1000 << 30) + millis % 1000 * 10**6 + 1
        ticks = (MLAT if draw.randrange(60) == 0 else ticks % TURN) if has_clock else 0
        if form == "beast":
            return Sent(beast(frame, ticks, draw.choice((0, 0x1A, draw.randrange(256)))), frame, ticks, is_wild)
        if form == "avr":
            mark = draw.choice(marks)
            lead = {"*": "*", "b": ""}.get(mark, f"{mark}{ticks:012X}{'80' * (mark == '<')}")
            text = f"{front}{lead}{digits};" if mark != "b" else digits
            return Sent(f"{text}{end}".encode(), frame, ticks * (mark not in "*b"), is_wild)
        cells = {"rawmsg": digits, "icao24": frame[2:8], "w": "", "x": "5", "y": "a b", "z": '"q,r"'}
        text = (f"{millis} {draw.choice((digits, f'*{digits};'))}" if form == "log" else
                ",".join(cells.get(name, f"{millis // 1000}.{millis % 1000:03d}") for name in names))
        return Sent(f"{text}{end}".encode(), frame, millis, is_wild)

    addresses = [draw.getrandbits(24) for _ in range(draw.randrange(1, 6))]
    gaps = draw.choice(((0, 1, 5, 40), (0, 40, 400, 1000), (500, 5000, 60_000), (1000, 500_000, 3_600_000)))
    now = draw.choice((0, 1, draw.randrange(10**6), draw.randrange(10**9), draw.randrange(15 * 10**11, 18 * 10**11)))
    for _ in range(draw.randrange(3, 40)):
        now += draw.randrange(draw.choice(gaps) + 1)
        said, kind = now, draw.randrange(60)
        if kind == 0:
            said = draw.choice((0, 7, 10**9, 10**12, now * 1000, now + DAY, now + 10**7, now + 700_000))
        elif kind == 1:
            said = max(0, now - draw.choice((1, 500, 1500, 10_000, 700_000)))
        elif kind == 2 and draw.randrange(4) == 0:
            now = said = max(0, now + draw.choice((-DAY, -10_000, 700_000, 9 * 10**7, 10**9)))
        yield spelled(said, new_frame(draw, addresses), kind < 2)


def harmed_anywhere(data: bytes, draw: random.Random) -> bytes:
    """The stream with one damage: bytes lost, doubled, changed or cut out; garbage, stray escapes; line feeds that are
    missing; a line that is too long."""
    place = draw.randrange(len(data) + 1)
    count = draw.choice((1, 1, 2, 5, 20))
    kind = draw.randrange(7)
    if kind == 0:
        return data[:place] + data[place + count :]
    if kind == 1:
        return data[: place + count] + data[place:]
    if kind == 2:
        return data[:place] + bytes([draw.randrange(256)]) + data[place + 1 :]
    if kind == 3:
        return data[:place] + draw.randbytes(count) + data[place:]
    if kind == 4:
        return data[:place] + draw.choice(GARBAGE) * draw.choice((1, 1, 2, 3)) + data[place:]
    if kind == 5:
        ends = [found.start() for found in re.finditer(b"\n", data)] or [place]
        end = draw.choice(ends)
        return data[:end] + data[end + 1 :]
    if draw.randrange(8):
        return data[:place]
    return data[:place] + draw.choice((b" ", b"x", b"8", b",")) * draw.choice((480, 520, 4200)) + data[place:]


def harmed(data: bytes, draw: random.Random) -> bytes:
    """Returns the stream with one damage."""
    place, size = draw.randrange(len(data) + 1), draw.choice((60, 2000, 20_000))
    kind, size = draw.randrange(12), draw.randrange(size + 1)
    if kind == 0:
        return data[:place] + b"\x1a\xe3" + draw.randbytes(8).replace(b"\x1a", b"\x1a\x1a") + data[place:]
    if kind == 1:
        return data[:place] + data[place:].replace(b"\n", b"\r\n", 1)
    if kind in (2, 3):
        return MARK + data if kind == 2 else data[place // 8 :]
    if kind == 4:
        text = bytes(draw.choices(b"abc 12,;\n\r*@", k=size))
        return draw.choice((draw.randbytes(size), bytes(size), text)) + data
    return harmed_anywhere(data, draw)


def made(form: str, draw: random.Random) -> Stream:
    """Returns a stream of one source, or of two that are joined, with up to three damages."""
    forms = [form, *[draw.choice((form, form, *FORMS))] * (draw.randrange(10) == 0)]
    sent = [one for place, name in enumerate(forms) for one in healthy(name, draw, place > 0)]
    data = b"".join(one.data for one in sent)
    for _ in range(draw.choice((0, 1, 1, 1, 2, 3))):
        data = harmed(data, draw)
    return Stream(data, {one.frame: one for one in sent if len(one.frame) > 4}, set(forms))
