"""The class Feed of squitter-feed: what it tells and holds, and the room of its lines. What it reads: damaged.py."""
from __future__ import annotations

import gzip
import random
from typing import List, Sequence, Tuple
from unittest import mock

from squitter_feed import Feed
from squitter_sample import Sample
from squitter_unpack import Unpacking
from trying import AIR_EVEN, REPLY, beast, clocked, expect, same

FAR = (1 << 64) - 1  # milliseconds: no time jumps, and none is late


def rows_of(lines: bytes) -> List[Tuple[int, str]]:
    """The timestamps and frames of lines."""
    return [(int(moment), frame) for moment, frame in (line.split() for line in lines.decode().splitlines())]


def fed(
    data: Sequence[Tuple[bytes, int]], live: bool, **options: object
) -> Tuple[List[Tuple[int, str]], Feed, List[str]]:
    """What a feed prints of pieces, each with its arrival; the feed, and what it tells."""
    told: List[str] = []
    feed = Feed(live, told.append, **options)  # type: ignore[arg-type]
    lines = b"".join(feed.hear(piece, arrival) for piece, arrival in data)
    lines += feed.end(data[-1][1] if data else 0)
    return rows_of(lines), feed, told


def in_a_room() -> None:
    """Pieces in a reused buffer give the same lines and words, in a room that has them all or not, and a gzip archive
    too. Lines in the room are those of the last piece."""
    plain = b"".join(beast(AIR_EVEN[:22] + f"{n:06X}", 6_000_000 * n) for n in range(3000))
    lines = [b"%d %s%06X\n" % (500 * n, AIR_EVEN[:22].encode(), n) for n in range(3000)]
    for source, size, most, fits in ((plain, 1 << 12, 1 << 14, True), (plain, 1 << 12, 4000, False),
                                     (plain, 1 << 18, 50, False), (gzip.compress(plain), 1 << 12, 1 << 18, True)):
        told: List[str] = []
        feed, unpacking, printed, count = Feed(False, told.append, room=bytearray(most)), Unpacking(), b"", 0
        buffer = memoryview(bytearray(size))
        for at in range(0, len(source), size):
            piece = source[at:at + size]
            buffer[:len(piece)] = piece
            for part in unpacking.pieces(buffer[:len(piece)]):
                heard = feed.hear(part, 5)
                printed += heard
                count += isinstance(heard, memoryview)
                buffer[:] = bytes(size)  # the feed keeps no bytes of a piece in the buffer
        printed += feed.end(5)
        same((printed == b"".join(lines), told, feed.summary()), (True, [], "3000 written"), size, most)
        expect((count > 0) == fits, size, most, count, "pieces have their lines in the room")


def log(*millis: int) -> bytes:
    return b"".join(b"%d %s\n" % (moment, AIR_EVEN.encode()) for moment in millis)


def advised() -> None:
    """If frames were set aside, a --reorder of two seconds is advised to those with a shorter one."""
    for reorder, advice in ((0, "; try --reorder=2000"), (1999, "; try --reorder=2000"), (2000, "")):
        told = fed([(log(1000, 1001, 10**9, 1002), 0)], False, reorder=reorder)[1].summary()
        same(told, f"3 written, 1 set aside{advice}")
        same(fed([(log(1000, 1001), 0)], False, reorder=reorder)[1].summary(), "2 written")


def other_formats() -> None:
    """Frames of other downlink formats are counted in the summary, those that are printed too."""
    last = b"*%s;*%s;*%s;" % (b"FF" * 14, b"C0" * 14, b"B8" * 14)
    for all_formats, wanted in ((False, "0 written, 3 of other downlink formats (DF23 1, DF24 2)"),
                                (True, "3 written, 3 of other downlink formats (DF23 1, DF24 2) among them")):
        same(fed([(last, 0)], True, all_formats=all_formats)[1].summary(), wanted)
        same(fed([(last, 0)], True, all_formats=all_formats, reorder=5)[1].summary(), wanted)


def large_order() -> None:
    """An order holds as many frames as come, and none is late: as if each came before all others, and in rows that are
    grouped by aircraft."""
    for count in (4095, 4096, 4097, 5462, 5463, 20_000):
        rows, feed, _ = fed([(log(*range(count, 0, -1)), 0)], False, reorder=3_600_000)
        same([moment for moment, _ in rows], [*range(1, count + 1)], count)
        same(feed.summary(), f"{count} written", count)
    grouped = [1000 * at + aircraft for aircraft in range(20) for at in range(1000)]
    rows, feed, _ = fed([(log(*grouped), 0)], False, reorder=3_600_000)
    same(([moment for moment, _ in rows], feed.summary()), (sorted(grouped), "20000 written"))


def late_in(feed: Feed) -> int:
    """Returns how many frames came late, with an order."""
    assert feed.order is not None
    return feed.order.late


def silence() -> None:
    """Live, held frames are printed once no frame has come for --reorder milliseconds. A frame that comes then, with an
    earlier timestamp, is late."""
    feed = Feed(True, print, 500)
    same(feed.wait(0), None, "nothing is held")
    same(feed.hear(log(1000), 1000) + feed.hear(log(900), 1010), b"")
    same((feed.wait(1200), feed.due(1200), feed.wait(1600)), (310, b"", 0))
    same(feed.hear(b"junk\n", 1300) + feed.due(1509), b"", "bytes without a frame are none that come")
    same((feed.due(1510), feed.wait(1510)), (log(900, 1000), None))
    same((feed.hear(log(950, 999), 1520), feed.wait(1520), feed.due(2020), late_in(feed)), (b"", None, b"", 2))
    same(feed.summary(), "2 written, 2 late, 1 damaged; try --reorder=2000")
    file = Feed(False, print, 500)
    same((file.hear(log(1000), 1000), file.wait(9999), file.due(9999)), (b"", None, b""))
    at_once = Feed(True, print)
    same((at_once.hear(log(7, 7), 0), at_once.wait(0), at_once.due(10**9)), (log(7, 7), None, b""), "without --reorder")
    several = Feed(True, print, 500)
    same(several.hear(log(100, 200, 300), 1000) + several.due(1500), log(100, 200, 300), "three at once")
    same((several.hear(log(299), 1600) + several.due(2100), late_in(several)), (b"", 1), "before the last of three")
    same((several.hear(log(300), 2200) + several.due(2700), late_in(several)), (log(300), 1), "with the last of three")


def spaced(gap: int, count: int = 8, address: str = "40621D", twice: bool = False) -> List[str]:
    """Lines of a log with frames of one aircraft, all at this distance. If two receivers heard them, a second line of
    each is one millisecond later."""
    return [f"{100_000 + gap * number + copy} 8D{address}58C382D690C8AC{number:06X}\n"
            for number in range(count) for copy in range(1 + twice)]


def told_of(lines: Sequence[str], form: str = "log", **options: object) -> List[str]:
    """What a feed tells of these lines, as a log or as a table with the same numbers."""
    rows = [f"{time},,{frame}" for time, frame in map(str.split, lines)]
    text = "".join(lines) if form == "log" else "\n".join(["time,icao24,rawmsg", *rows, ""])
    return fed([(text.encode(), 5)], False, leap=FAR, **options)[2]


SECONDS = "the timestamps of this log seem to be seconds; they have to be milliseconds"
MICROS = "the timestamps seem to be microseconds; a log has milliseconds, and a table has seconds"
NANOS = "the timestamps seem to be nanoseconds; a log has milliseconds, and a table has seconds"
ZEROS = "all frames of this file have the timestamp 0, as without times: old ones pair with new"


def units() -> None:
    """Timestamps that are too dense or too sparse for milliseconds are reported once. Sixteen gaps are the fewest."""
    for gap, said in ((0, [SECONDS]), (49, [SECONDS]), (50, []), (500, []), (99_999, []), (100_000, [MICROS]),
                      (43_200_000, []), (99_999_999, []), (100_000_000, [NANOS])):
        same(told_of(spaced(gap, 17)), said, gap)
        same(told_of(spaced(gap, 16)), [], gap, "too few gaps")
    # (in a table the numbers are seconds)
    for gap, said in ((1, []), (99, []), (100, [MICROS]), (500, [MICROS])):
        same(told_of(spaced(gap, 17), "csv"), said, "a table", gap)
    same(told_of(spaced(500, 17, twice=True)), [], "what two receivers heard, in milliseconds")
    rare = [f"{1_795_965_328_000 + int(time)} {frame}\n" for time, frame in map(str.split, spaced(500_000, 17))]
    same(told_of(rare), [], "milliseconds since 1970 of a receiver that hears little")
    # Ten aircraft of a table in seconds, heard for four minutes, and again twelve hours later.
    flights = [f"{start + 30 * number}.{plane} 8D40{plane:02X}1D58C382D690C8AC{start + number:06X}\n"
               for start in (0, 43_200) for number in range(8) for plane in range(10)]
    same(told_of(flights, "csv"), [], "twelve hours between two flights")
    same(told_of(spaced(1, 17), reorder=1000), [SECONDS], "sorted")
    same(told_of([f"0 {line.split()[1]}\n" for line in spaced(1, 2)]), [ZEROS], "two frames without times")
    # As many zeros as the sample has do not show that the rest has none.
    zeros = [f"0 {AIR_EVEN}\n"] * 16_384
    for rest, said in ((zeros[:2], [ZEROS]), (spaced(1, 17), [SECONDS]), (spaced(50, 17), [])):
        same(fed([("".join(lines).encode(), 5) for lines in (zeros, rest)], False, leap=FAR)[2], said, "after zeros")
    # The first 16,384 squitters show it: with the piece that has the last of them, and not at the end.
    told: List[str] = []
    feed = Feed(False, told.append, leap=FAR)
    lines = spaced(1, 20_000)
    feed.hear("".join(lines[:16_383]).encode(), 5)
    same(told, [], "before the sample is full")
    feed.hear(lines[16_383].encode(), 5)
    same(told, [SECONDS], "once the sample is full")
    feed.hear("".join(lines[16_384:]).encode(), 5)
    feed.end(5)
    same(told, [SECONDS], "at the end")
    same(fed([(b"".join(beast(line.split()[1], 12_000 * n) for n, line in enumerate(spaced(1))), 5)], False)[2], [],
         "a clock has one unit")


def no_times() -> None:
    """A file without times is reported once at its end, and a live source is not. Its frames have the timestamp 0."""
    bare = b"*%s;\n" % AIR_EVEN.encode()
    for live, count, moment in ((False, 1, 0), (True, 0, 5)):
        rows, _, said = fed([(bare * 3, 5)], live=live)
        same((rows, len(said)), ([(moment, AIR_EVEN)] * 3, count), live)
    for data, options in ((beast(AIR_EVEN) * 3, {}), (clocked(AIR_EVEN, 10**9) * 2, {"by_arrival": True}),
                          (bare * 3, {"reorder": 5})):
        same(len(fed([(data, 5)], False, **options)[2]), 1, data)
    for data in (bare, clocked(AIR_EVEN, 11_999) + clocked(AIR_EVEN, 12_000), log(0, 1)):
        same(fed([(data, 5)], False)[2], [], data)
    same(len(fed([(log(0, 0, 0), 5)], True)[2]), 1, "a live log of zeros")


def sampled() -> None:
    """The sample of a log has the timestamps and addresses of its squitters, also of a first line alone and behind a
    jump, in pieces: at most 16,384."""
    def seen(lines: Sequence[Tuple[int, str]], clocked: bool) -> Tuple[List[int], List[int], object]:
        sample = Sample()
        for moment, start in lines:
            sample.add(memoryview(f"{moment} {start}{'0' * (28 - len(start))}\n".encode()))
        with mock.patch("squitter.unit_of") as asked:
            sample.unit(clocked)
        moments, addresses, told = asked.call_args.args
        return list(moments), [list(addresses).index(one) for one in addresses], told

    same(seen([], True), ([], [], True))
    same(seen([(5, "8D")], False), ([5], [0], False))
    lines = [(0, "8D000001"), (5, "88000100"), (10**12, "8F010000"), (2**64 - 1, "8D000001"), (2**64 - 1, "8D010000")]
    same(seen(lines, False), ([0, 5, 10**12, 2**64 - 1, 2**64 - 1], [0, 1, 2, 0, 2], False))
    same(seen([(10**9 * number, "8D") for number in range(8)], False)[0], [10**9 * number for number in range(8)])
    same(seen([(1, "8D"), (2, "90"), (3, "80"), (4, "A0"), (5, "8D")], True), ([1, 5], [0, 0], True))
    many = [(number, f"8D{number:06X}") for number in range(16_386)]
    same(seen(many, False), (list(range(16_384)), list(range(16_384)), False))
    sample = Sample()
    for count, is_full in ((16_383, False), (1, True), (1, True)):
        sample.add(f"5 {AIR_EVEN}\n".encode() * count)
        same(sample.is_full(), is_full, count)


def clocks_of_other_kinds() -> None:
    """GPS time in place of a count at 12 MHz is reported, and so are several clocks in one source."""
    def recording(ticks: Sequence[int], **options: object) -> Tuple[bytes, str, List[str]]:
        told: List[str] = []
        feed = Feed(False, told.append, **options)
        data = b"".join(beast(AIR_EVEN[:22] + f"{number:06X}", count) for number, count in enumerate(ticks))
        lines = feed.hear(data, 0) + feed.end(0)
        return lines, feed.summary(), told

    chance = random.Random(5)
    # Seconds of the day in the upper 18 bits, nanoseconds in the lower 30: four frames a second.
    gps = [second << 30 | nano for second in range(40_000, 40_100)
           for nano in sorted(chance.randrange(10**9) for _ in range(4))]
    counted = [12_000_000 * 89 * number + 12_000_000 * part * 22 for number in range(100) for part in range(4)]
    told = ["the clock of this source seems to be GPS time (Radarcape): set it to 12 MHz, or read its port with "
            "--arrival"]
    same(recording(gps)[2], told)
    same(recording(counted)[2], [], "a count at 12 MHz")
    same(recording(gps[:16])[2], [], "too few frames")
    same(recording(gps[:17])[2], told, "enough frames")
    same(recording(gps, by_arrival=True)[2], [ZEROS])
    for nano, said in ((999_999_999, told), (1_006_700_000, []), (1_073_700_000, [])):
        last = gps[203] >> 30 << 30 | nano
        same(recording([*gps[:203], last, *gps[204:]])[2], said, nano, "nanoseconds")
    # A second receiver's clock, an hour behind, has one message in three.
    two = [12_000_000 * (7200 + number) - (12_000_000 * 3600) * (number % 3 == 2) for number in range(300)]
    expect("try --arrival: the source seems to have several clocks" in recording(two)[1], recording(two)[1])
    expect("try" not in recording(two, by_arrival=True)[1], recording(two, by_arrival=True)[1])
    # Another connection, to a source of another kind, does not take that away.
    feed = Feed(True, print)
    feed.hear(b"".join(beast(AIR_EVEN, ticks) for ticks in two), 5000)
    feed.disconnected()
    feed.hear(b"9000 %s\n" % AIR_EVEN.encode(), 9000)
    expect("try --arrival" in feed.summary(), feed.summary())
    # Single jumps, five of 105 messages and of 104.
    for count, said in ((105, "100 written, 5 set aside; try --reorder=2000"),
                        (104, "99 written, 5 set aside; try --arrival: the source seems to have several clocks"),
                        (24, "20 written, 4 set aside; try --reorder=2000")):
        once = [12_000_000 * number for number in range(7200, 7200 + count)]
        for place in range(4, 4 + 4 * (5 if count > 24 else 4), 4):
            once[place] -= 12_000_000 * 60
        same(recording(once)[1], said)


def tables_without_rows() -> None:
    """A table of milliseconds since 1970 has no row that can be read. If all items are damaged, the summary says what
    to try; one frame, or none at all, is no reason for it."""
    good, bad = f"1700000000.000,,{AIR_EVEN}\n", f"1700000000000,,{AIR_EVEN}\n"
    advice = ": try another --format, or none; the times of a table are seconds"
    for rows in (bad, bad * 3, bad + good, good + bad, good):
        lines, feed, _ = fed([(f"time,icao24,rawmsg\n{rows}".encode(), 5)], False)
        same([feed.is_damaged, len(lines)], [good not in rows, rows.count(".000")], rows)
        same(feed.summary().endswith(advice), feed.is_damaged, rows)
        same(feed.refusal, None, rows)
    same(fed([(b"time,icao24,rawmsg\n1,,\n", 5)], False)[1].summary(), f"0 written, 1 damaged{advice}", "an empty cell")
    same(fed([(b"time,icao24,rawmsg\n", 5)], False)[1].summary(), "0 written", "a table without rows")
    # (a short frame of a downlink format of long ones, and one of another format)
    _, feed, _ = fed([(f"*{AIR_EVEN[:14]};\n".encode(), 5)], False)
    same(feed.summary(), f"0 written, 1 damaged{advice}", "another length")
    _, feed, _ = fed([(f"*{AIR_EVEN[:14]};\n*{REPLY};\n".encode(), 5)], False)
    same(feed.summary(), "0 written, 1 of other downlink formats (DF11 1), 1 damaged", "another format")
