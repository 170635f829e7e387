#!/usr/bin/env python3
"""Tests the class Feed of the module squitter: types of pieces, rooms, ends, errors, threads and signals. The feeds of
vectors/ test what it reads of which bytes, and when."""
import copy
import doctest
import os
import pickle
import signal
import struct
import sys
import threading
import unittest

sys.path.insert(0, os.path.join(os.path.dirname(os.path.abspath(__file__)), ".."))
import squitter  # noqa: E402
from squitter import Code, Counts, Fault, Feed, FeedFormat, Log, Stranger, Tracker, What  # noqa: E402

EVEN = "8D40621D58C382D690C8AC2863A7"
ODD = "8D40621D58C386435CC412692AD6"
ALL_CALL = "5D4840D6F83D31"


def message(kind, ticks, frame):
    """Returns a Beast message: each 1A after its type is doubled."""
    body = struct.pack(">Q", ticks)[2:] + b"\x1a" + bytes.fromhex(frame)
    return b"\x1a" + kind + body.replace(b"\x1a", b"\x1a\x1a")


# A source with a short frame, a reply of Mode A/C and one piece of damage.
SOURCE = (b"x" + message(b"3", 12_000 * 6682 + 5, EVEN) + message(b"1", 1, "2040") + message(b"2", 2, ALL_CALL)
          + message(b"3", 84_000_000, ODD) + message(b"3", 88_800_000, EVEN) + message(b"3", 88_800_001, ODD))
MOMENTS = [6682, 7000, 7400, 7400]
FRAMES = bytes.fromhex(EVEN + ODD) * 2
LINES = f"6682 {EVEN}\n7000 {ODD}\n7400 {EVEN}\n7400 {ODD}\n".encode()
COUNTS = Counts(7, 4, 1, 0, 0, 1, 0, (*[0] * 11, 1, *[0] * 13), 0, False)
KINDS = (bytes, bytearray, memoryview, lambda piece: memoryview(bytearray(piece)))


class Feeds(unittest.TestCase):
    def refused(self, code, call, *arguments, **named):
        with self.assertRaises(Fault) as raised:
            call(*arguments, **named)
        self.assertEqual(raised.exception.code, code)

    def test_pieces(self):
        """Pieces of each type give the same lines, or an array of timestamps and frames for a tracker."""
        for asked in ("beast", FeedFormat.BEAST, "auto"):
            for kind in KINDS:
                with Feed(asked) as feed, Tracker() as tracker:
                    self.assertEqual(feed.take_text(kind(SOURCE)) + feed.finish_text(), LINES)
                    self.assertEqual((feed.counts, feed.finish_text()), (COUNTS, b""))
                    self.assertIs(feed.counts.ahead, False)
                    times, frames = Feed(asked).take(kind(SOURCE))
                    self.assertEqual((times.typecode, times.tolist(), frames), ("Q", MOMENTS, FRAMES))
                    heard = tracker.hear_many(times, frames)
                    self.assertEqual([one.what for one in heard], [What.WAITING, What.FIX, What.FIX, What.FIX])

    def test_ends(self):
        """The end of a text completes its last line, and the next piece belongs to another source."""
        for name, last in (("avr", EVEN), ("csv", f"0,,{EVEN}"), ("log", f"0 {EVEN}")):
            feed = Feed(name)
            for _ in range(2):
                self.assertEqual(feed.take_text(last.encode()), b"")
                self.assertEqual(feed.finish_text(), f"0 {EVEN}\n".encode())
                self.assertEqual(feed.finish_text(), b"")
                self.assertEqual(feed.take(last.encode()), feed.take(b""))
                times, frames = feed.finish()
                self.assertEqual((list(times), frames), ([0], bytes.fromhex(EVEN)))
                times, frames = feed.finish()
                self.assertEqual((list(times), frames), ([], b""))

    def test_arrivals(self):
        """An arrival is a whole number below 2**64."""
        feed = Feed("avr", live=True)
        self.assertEqual(list(feed.take(f"*{EVEN};".encode(), 2**64 - 1)[0]), [2**64 - 1])
        for wrong in (-1, 2**64):
            for call in (feed.take_text, feed.take):
                with self.assertRaises(ValueError):
                    call(b"", wrong)
            for call in (feed.finish_text, feed.finish):
                with self.assertRaises(ValueError):
                    call(wrong)
        for wrong in (1.0, "1", None):
            with self.assertRaises(TypeError):
                feed.take_text(b"", wrong)
        self.assertEqual(feed.counts.found, 1)

    def test_formats(self):
        for wrong in ("BEAST", "beast ", "", 5, -1, None, 1.5):
            with self.assertRaises(ValueError):
                Feed(wrong)
        for name in ("leap", "late"):
            for wrong, error in ((-1, ValueError), (2**64, ValueError), (1.0, TypeError), ("1", TypeError)):
                with self.assertRaises(error):
                    Feed(**{name: wrong})
        with self.assertRaises(TypeError):
            Feed(late=None)
        with self.assertRaises(TypeError):
            Feed("log", 600_000, False, 0)
        for wrong in ("text", 3, None):
            with self.assertRaises(TypeError):
                Feed().take_text(wrong)
        self.assertEqual([form.value for form in (*FeedFormat, *Stranger)], list(range(17)))
        self.assertEqual((Feed().format, Feed().stranger, Feed("csv").format), (None, None, FeedFormat.CSV))

    def test_rooms(self):
        """All lines and squitters are returned, however many calls of the library they take."""
        line = f"12345678901234567890 {EVEN}\n"[1:].encode()
        self.assertEqual(len(line), 49)
        for count in (1, 1335, 1336, 1337, 1338, 4095, 4096, 4097, 8192, 10_000):
            feed = Feed("log")
            self.assertEqual((feed.take_text(line), feed.take_text(line)), (b"", line * 2))
            self.assertEqual(feed.take_text(line * count), line * count)
            times, frames = feed.take(line * count)
            self.assertEqual((set(times), len(times)), ({2345678901234567890}, count))
            self.assertEqual(frames, bytes.fromhex(EVEN) * count)
            self.assertEqual(feed.counts.written, 2 * count + 2)
        # After the first call, one byte too few is left for the longest line.
        lines = line[1:] * 26 + line * 1312
        self.assertEqual(len(lines) - len(line), (1 << 16) - 49)
        self.assertEqual(Feed("log", leap=2**64 - 1).take_text(lines), lines)

    def test_into_a_room(self):
        """The lines of a piece are written to a room, which is returned as a view, or as bytes if they do not fit."""
        for kind in KINDS:
            for size in (1, 7, len(SOURCE)):
                feed, told, room = Feed(), b"", bytearray(1000)
                for at in range(0, len(SOURCE), size):
                    told += feed.take_text_into(kind(SOURCE[at:at + size]), room)
                self.assertEqual((told + feed.finish_text(), feed.counts), (LINES, COUNTS))
        line = f"7 {EVEN}\n".encode()  # 31 bytes
        for count, size, fits in ((1, 81, True), (1, 80, False), (2, 112, True), (2, 111, False), (0, 50, True),
                                  (1, 50, False), (9, 50, False), (3000, 50, False), (3000, 93_050, True)):
            feed, room = Feed("log"), bytearray(b"x" * (size + 9))
            self.assertEqual(feed.take_text(line * 2), line * 2)
            told = feed.take_text_into(line * count, memoryview(room)[4:4 + size])
            self.assertEqual((bytes(told), type(told)), (line * count, memoryview if fits else bytes), (count, size))
            if fits:
                self.assertIs(told.obj, room)
                self.assertEqual(room[4:], line * count + b"x" * (size + 5 - len(told)))
            self.assertEqual((room[:4], room[-5:]), (b"xxxx", b"xxxxx"))
            told = None
            room.append(0)  # the feed keeps no view of it
        live, wide = Feed("avr", live=True), memoryview(bytearray(64)).cast("Q")
        self.assertEqual(live.take_text_into(f"{EVEN}\n".encode(), wide, 5), f"5 {EVEN}\n".encode())
        self.assertEqual(live.take_text_into(b"", wide, 6), b"")
        for room in (b"7" * 99, memoryview(b"7" * 99), memoryview(bytearray(200))[::2], "7" * 99, None, 99):
            with self.assertRaisesRegex(TypeError, "a room is a writable buffer of at least 50 bytes, such as a bytea"):
                live.take_text_into(line, room)
        for room in (bytearray(49), memoryview(bytearray(49)), bytearray()):
            with self.assertRaisesRegex(ValueError, "a room is a writable buffer of at least 50 bytes"):
                live.take_text_into(line, room)
        with self.assertRaisesRegex(TypeError, "a piece is bytes"):
            live.take_text_into("7", bytearray(50))
        for arrival, error in ((-1, ValueError), (1 << 64, ValueError), (1.0, TypeError)):
            with self.assertRaises(error):
                live.take_text_into(b"", bytearray(50), arrival)
        self.assertEqual(live.counts.found, 1)

    def test_log_of_a_feed(self):
        with Feed() as feed, Log() as log:
            self.assertEqual(log.take_text(feed.take_text(SOURCE)).split(b"\n")[0], b"1 waiting 40621D")
            self.assertEqual(log.tally, (4, 0))

    def test_signal_handler(self):
        """A signal handler may use the feed between two calls of the library; the outer call returns the same."""
        feed, told, texts = Feed("log"), [], squitter._feed.ctypes.string_at
        line = f"7 {EVEN}\n".encode()

        def interrupted(*words):
            """Runs the handler before the module copies the library's output."""
            squitter._feed.ctypes.string_at = texts
            signal.raise_signal(signal.SIGALRM)
            return texts(*words)

        was = signal.signal(signal.SIGALRM, lambda *_: told.append(feed.take_text(f"\n7 {ODD}\n".encode())))
        self.addCleanup(signal.signal, signal.SIGALRM, was)
        self.addCleanup(setattr, squitter._feed.ctypes, "string_at", texts)
        squitter._feed.ctypes.string_at = interrupted
        outer = feed.take_text(line * 10)
        self.assertEqual((outer, told), (line * 10, [f"7 {ODD}\n".encode()]))

    def test_threads(self):
        feed, told = Feed("log"), []

        def take():
            told.extend(feed.take_text(f"7 {EVEN}\n".encode()) for _ in range(200))

        threads = [threading.Thread(target=take) for _ in range(4)]
        for thread in threads:
            thread.start()
        for thread in threads:
            thread.join()
        self.assertEqual((feed.counts.written, b"".join(told)), (800, f"7 {EVEN}\n".encode() * 800))

    def test_closed(self):
        feed = Feed()
        feed.take_text(SOURCE[:40])
        for _ in range(2):
            feed.close()
            for call in (lambda it: it.take_text(b""), lambda it: it.take_text(3), lambda it: it.finish_text(),
                         lambda it: it.counts, lambda it: it.format, lambda it: it.stranger,
                         lambda it: it.take_text_into(b"", bytearray(50)),
                         lambda it: it.take(b""), lambda it: it.finish(), lambda it: it.disconnected(),
                         lambda it: it.__enter__()):
                self.refused(Code.NO_TRACKER, call, feed)
        with Feed() as feed:
            self.assertEqual(feed.take_text(SOURCE), LINES)
        self.refused(Code.NO_TRACKER, feed.finish_text)
        for taken in (copy.copy, copy.deepcopy, pickle.dumps):
            with self.assertRaisesRegex(TypeError, "a feed cannot be copied or pickled"):
                taken(Feed())

    def test_no_memory(self):
        lend = squitter._feed._lend
        self.addCleanup(setattr, squitter._feed, "_lend", lend)
        squitter._feed._lend = lambda size: lend(size - 1)
        self.refused(Code.NO_MEMORY, Feed)
        squitter._feed._lend = lambda size: (squitter._library._Block(0, None), None)
        self.refused(Code.NO_MEMORY, Feed)

    def test_examples(self):
        self.assertEqual(doctest.testmod(squitter._feed, extraglobs=vars(squitter)).failed, 0)


if __name__ == "__main__":
    unittest.main()
