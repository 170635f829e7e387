#!/usr/bin/env python3
"""Arrays for squitter.batch: those that are wrong, empty, read-only, not contiguous or of the other byte order, missing
values, dates, and what errors say. Needs NumPy."""
import os
import sys
import time
import unittest
from datetime import datetime, timedelta, timezone
from fractions import Fraction
from typing import Any, Callable
from unittest import mock

import numpy as np

HERE = os.path.dirname(os.path.abspath(__file__))
sys.path.insert(0, os.path.join(HERE, ".."))
import squitter  # noqa: E402
from squitter import AirHead, Code, Position, What, _parts, batch  # noqa: E402
from test_batch import EVEN, ODD, PLACE, SITE  # noqa: E402

try:
    import pandas
except ImportError:
    pandas = None
NA = [] if pandas is None else [pandas.NA, pandas.NaT]  # what pandas has in the place of a missing value


class Arrays(unittest.TestCase):
    frames = np.frombuffer(bytes.fromhex(EVEN + ODD) * 3, np.uint8).reshape(-1, 14)

    def refused(self, words: str, call: Callable[..., Any], *arguments: Any, **named: Any) -> None:
        with self.assertRaisesRegex(ValueError, words):
            call(*arguments, **named)

    def test_texts_as_bytes(self) -> None:
        """Bytes of hexadecimal digits are refused, here and in squitter.read_many. Among other frames, a frame of
        digits is decoded."""
        for data in (EVEN.encode(), EVEN.lower().encode() * 3, f"*{EVEN};".encode(), f"{EVEN}\r\n".encode() * 7):
            for call in (batch.read, squitter.read_many):
                for source in (data, bytearray(data), memoryview(data)):
                    self.refused("frames are 14 bytes each.*hexadecimal digits.*a frame text is a str", call, source)
        mixed = b"8D40621D58C382" + bytes.fromhex(EVEN)
        self.assertEqual(batch.read(mixed)[1]["code"].tolist(), [Code.NOT_DF17, 0])
        self.assertEqual(len(squitter.read_many(mixed)), 2)
        self.refused(", not 13 bytes", batch.read, bytes(13))
        self.refused(", not 29 bytes", squitter.read_many, bytes.fromhex(EVEN) * 2 + b"8")
        with self.assertRaisesRegex(TypeError, "frames are 14 bytes each, one after the other, not list"):
            squitter.read_many([EVEN])
        for empty in (np.zeros(0), np.zeros(0, "S28"), [], b"", np.zeros((0, 14), np.uint8), np.ma.zeros(0)):
            self.assertEqual([len(part) for part in batch.read(empty)], [0, 0])
        self.refused("float64", batch.read, np.zeros(1))
        self.refused("float64", batch.read, np.zeros((0, 14)))
        self.assertEqual(batch.read([EVEN] * 20_000 + ["", EVEN])[1]["code"][-2:].tolist(), [Code.LENGTH, 0])

    def test_frames(self) -> None:
        fields, _ = batch.read(self.frames)
        self.assertEqual(fields["odd"].tolist(), [0, 1] * 3)
        wide = np.zeros((6, 20), np.uint8)
        wide[:, 3:17] = self.frames
        strided = np.repeat(self.frames, 2, axis=0)[::2]
        backwards = self.frames[::-1].copy()[::-1]
        aside = np.frombuffer(b"x" + self.frames.tobytes(), np.uint8)[1:].reshape(-1, 14)
        row, texts = self.frames.tobytes(), np.array([EVEN, ODD] * 3)
        for same in (wide[:, 3:17], strided, backwards, aside, np.asfortranarray(self.frames), row, bytearray(row),
                     memoryview(row), self.frames.view("V14").reshape(-1), texts, texts.astype("S"),
                     texts.astype(object), texts.astype(">U28"), np.repeat(texts.astype("S"), 2)[::2],
                     texts.tolist(), tuple(texts.tolist())):
            np.testing.assert_array_equal(batch.read(same)[0], fields)
        for empty in (b"", [], (), np.zeros((0, 14), np.uint8), np.zeros(0, "S28"), np.zeros(0, object), bytearray()):
            self.assertEqual([len(array) for array in batch.read(empty)], [0, 0])
            self.assertEqual(len(batch.pair(empty, empty)[0]), 0)
            self.assertEqual(len(batch.local(empty, SITE)[0]), 0)
            self.assertEqual(len(batch.track([], empty)[0]), 0)

    def test_wrong_frames(self) -> None:
        frames = self.frames
        for wrong in (EVEN, 5, None, frames[0], frames[:, :13], frames.astype(np.int64), frames.view(np.int8),
                      frames.reshape(3, 2, 14), np.zeros((2, 2), "S28"), np.zeros(3), np.zeros(3, "V13"), b"x" * 15,
                      np.zeros(3, "M8[s]"), [EVEN, b"x" * 14], [EVEN, 1.5], [EVEN, True], [[0] * 14],
                      np.array([EVEN, 5], object), memoryview(np.zeros(14, "u2")), np.zeros(2, batch.FIELDS)):
            self.refused("frames", batch.read, wrong)
            self.refused("older", batch.pair, wrong, self.frames)
            self.refused("newer", batch.pair, self.frames, wrong)
        self.refused("newer are 5, and older 6", batch.pair, self.frames, self.frames[:5])
        self.refused(r"frames\[1\] is no str, but of type bytes", batch.read, [EVEN, b""])

    def told(self, text: str, call: Callable[..., Any], *arguments: Any, **named: Any) -> None:
        """The call raises a ValueError with this text in one line."""
        with self.assertRaises(ValueError) as raised:
            call(*arguments, **named)
        self.assertEqual((str(raised.exception), type(raised.exception)), (text, ValueError))
        self.assertNotIn("\n", text)

    def test_told_of_frames(self) -> None:
        """An error says in one line what is wanted and what was given."""
        wanted = "frames are a list, an array of one dimension or bytes, not "
        for given, text in ((None, "None"), ({"a": 1}, "{'a': 1}"),
                            (np.zeros((2, 2), "S28"), "an array of 2 dimensions"),
                            (np.zeros((1, 1, 1), object), "an array of 3 dimensions")):
            self.told(wanted + text, batch.read, given)
        element = "frames[1] is no str, but of type "
        of_text = "bytes; decode() makes a str of bytes"
        for given, text in ((self.frames[0].tobytes(), 'bytes; join frames with b"".join(frames)'),
                            (EVEN.encode(), of_text), (bytes(13), of_text), (bytes(15), of_text), (5, "int"),
                            (1.5, "float"), ([EVEN], "list")):
            self.told(element + text, batch.read, [EVEN, given])
        self.told('older[0] is no str, but of type bytes; join frames with b"".join(older)', batch.pair, [bytes(14)],
                  [EVEN])
        references = "references are an array of POSITION, or one squitter.Position for all, not an array of "
        for near, text in (((52, 4), "dtype('int64') of the shape (2,)"), (None, "dtype('O') of the shape ()"),
                           (np.zeros(2, batch.FAULT), "FAULT of the shape (2,)")):
            self.told(references + text, batch.local, self.frames, near)
        self.told("places are an array of POSITION, not an array of dtype('int64') of the shape ()", batch.position_e7,
                  5)
        self.told("lat_e7 are a list or an array of whole numbers of 64 bits, in units of 10^-7 degree, not float64 of "
                  "the shape (1,)", batch.positions, [52.5], [4])

    def test_told_of_moments(self) -> None:
        frames, seconds = [ODD, EVEN], "; for seconds use round(1000 * seconds)"
        wanted = "moments are whole numbers of milliseconds from 0, below 2**64, or dates since 1970, not "
        for given, text in (
            ([0.5, 1], f"0.5{seconds}"), ([0, 1.5], f"1.5{seconds}"), (np.array([0, 1.5]), f"1.5{seconds}"),
            (np.array([np.nan, 0.5]), f"0.5{seconds}"), ([0, float("inf")], f"inf{seconds}"),
            (np.array([0, np.inf]), f"inf{seconds}"), (np.array([2.0**53, 2.0**54]), f"{2.0**54}{seconds}"),
            ([0, -1], "-1"), (np.array([5, -7]), "-7"), (np.array([5.0, -7.0]), "-7"), ([0, 1 << 64], str(1 << 64)),
            (["0", "4"], "'0'"), (np.array(["0", "4"]), "'0'"), ([0, [4]], "[4]"), ([[0, 4]] * 2, "[0, 4]"),
            (np.array([True, False]), "dtype('bool')"),
            ([0, datetime(1969, 12, 31)], "datetime.datetime(1969, 12, 31, 0, 0)"),
            (np.array([5, -1], "M8[ms]"), "-1"), ([0, np.datetime64(-1, "ms")], repr(np.datetime64(-1, "ms"))),
            ([0, float(1 << 60)], f"{float(1 << 60)}{seconds}"), (np.array([1, 2], "m8[ms]"), "datetime.timedelta"),
        ):
            with self.assertRaises(ValueError) as raised:
                batch.track(given, frames)
            self.assertEqual(str(raised.exception)[:len(wanted + text)], wanted + text)
            self.assertTrue(text == "datetime.timedelta" or str(raised.exception) == wanted + text)
        for count in (0, 1, 3):
            self.told(f"2 frames and {count} moments: there has to be a moment for each frame", batch.track,
                      [0] * count, frames)
        for given, text in ((None, "None"), (5, "5"), ({"a": 1}, "{'a': 1}"),
                            (np.zeros((2, 1)), "array([[0.], [0.]])")):
            self.told(f"moments are a list or an array with one for each frame, not {text}", batch.track, given, frames)
        self.assertEqual(batch.track(np.array([0.0, float(1 << 53)]), frames)[1]["code"].tolist(), [0, 0])

    def test_told_of_settings(self) -> None:
        window = "a window is a whole number of milliseconds from 0, below 2**64, not "
        limit = "a limit is None, or a whole number of addresses from 1, below 2**32, not "
        for call in (batch.Tracker, lambda **named: batch.track([], [], **named)):
            for name, wanted, largest in (("window", window, (1 << 64) - 1), ("limit", limit, (1 << 32) - 1)):
                for given in (-1, largest + 1, *([0] if name == "limit" else [])):
                    self.told(f"{wanted}{given}", call, **{name: given})
                for given, advice in (("5", ""), (1.5, "; for seconds use round(1000 * seconds)"), ([], "")):
                    with self.assertRaises(TypeError) as raised:
                        call(**{name: given})
                    self.assertEqual(str(raised.exception), f"{wanted}{given!r}{advice if name == 'window' else ''}")
                call(**{name: 1}), call(**{name: largest})
        call(limit=None)

    def test_told_of_results(self) -> None:
        heard, faults = batch.track([0, 1], [ODD, EVEN])
        wanted = "is an array of another type than batch."
        for given, text in (([0], "list"), (np.zeros(2), "an array of dtype('float64')"),
                            (faults, "an array of FAULT")):
            self.told(f"out {wanted}TRACKED: {text}", batch.track, [0, 1], [ODD, EVEN], out=given)
        for dtype, name in ((batch.FIELDS, "FIELDS"), (batch.TRACKED, "TRACKED"), (batch.DEGREES, "DEGREES"),
                            (batch.POSITION, "POSITION")):
            self.told(f"faults {wanted}FAULT: an array of {name}", batch.read, [EVEN], faults=np.zeros(1, dtype))
        for given, text in ((None, "NoneType"), (faults, "an array of FAULT"),
                            (heard.reshape(2, 1), "an array of TRACKED")):
            self.told(f"heard {wanted}TRACKED, or of more dimensions: {text}; track returns heard and faults",
                      batch.lines, given, faults)
        for given, text in ((heard, "an array of TRACKED"), (None, "NoneType")):
            self.told(f"faults {wanted}FAULT, or of more dimensions: {text}; track returns heard and faults",
                      batch.lines, heard, given)
        for given, text in ((None, "NoneType"), ([], "list"), (5, "int"), ((heard, faults), "tuple"),
                            (faults, "an array of FAULT"), (heard["lat_e7"], "an array of dtype('int64')"),
                            (heard.reshape(1, 2), "an array of TRACKED")):
            self.told(f"heard is an array of TRACKED or POSITION, as track returns first, not {text}", batch.fractions,
                      given)
        self.assertEqual(batch.fractions(heard[["lon_den", "lon_num", "lat_num", "lat_den", "what"]]),
                         batch.fractions(heard))

    def test_moments(self) -> None:
        told = batch.lines(*batch.track([0, 1, 2, 3, 4, 5], self.frames))
        for same in (range(6), tuple(range(6)), np.arange(6), np.arange(6, dtype=">i4"), np.arange(6, dtype="u1"),
                     np.repeat(np.arange(6, dtype=">u8"), 2)[::2], np.arange(6)[::-1].copy()[::-1], list(np.arange(6))):
            self.assertEqual(batch.lines(*batch.track(same, self.frames)), told)
        last = [(1 << 64) - 1] * 6
        for same in (last, np.array(last, np.uint64), np.array(last, ">u8")):
            self.assertEqual(batch.lines(*batch.track(same, self.frames)), told)
        for wrong in (np.arange(5), np.arange(6) / 2, -np.arange(6), np.arange(6).reshape(2, 3), [0] * 5 + [-1], 5,
                      None, [0] * 5 + [1 << 64], [0] * 5 + [5.5], np.array([-1] * 6, "M8[ms]"), np.zeros(6, bool),
                      "012345", np.array([np.inf] * 6), [0] * 5 + ["5"], [0] * 5 + [float(1 << 60)], [np.inf] * 6,
                      np.full(6, float(1 << 54)), [datetime(1969, 12, 31)] * 6, np.arange(6).astype("M8[s]") + 10**17,
                      np.full(6, 10**9, "M8[Y]"), [0] * 5 + [np.datetime64(10**17, "s")], np.full(6, 2**62, "M8[8ns]")):
            self.refused("moments", batch.track, wrong, self.frames)

    def test_one_row(self) -> None:
        """Views of one row or one record, whose stride may be any."""
        frames, big = self.frames, np.zeros(6, batch.TRACKED)
        wanted = batch.track([7], frames[:1])
        of_columns = np.asfortranarray(frames)[:1]
        for one in (frames[0][None], frames[::2][:1], frames[::-1][-1:], frames[::5][:1], of_columns):
            for call in (batch.track, batch.Tracker().hear):
                heard, faults = call([7], one)
                np.testing.assert_array_equal(heard, wanted[0])
                out, told = big[::3][:1], np.zeros(4, batch.FAULT)[::2][:1]
                heard, faults = (batch.track if call is batch.track else batch.Tracker().hear)([7], one, out=out,
                                                                                               faults=told)
                np.testing.assert_array_equal(big[:1], wanted[0])
                big.fill(0)
            np.testing.assert_array_equal(batch.read(one)[0], batch.read(frames[:1])[0])
        self.assertEqual(batch.lines(big[::3][:1], np.ones(3, batch.FAULT)[::3], 5), b"5 bad wrapping\n")

    def test_missing(self) -> None:
        """A missing moment or frame is a fault at its row, and the others are answered as without it."""
        texts = [ODD, EVEN, ODD, EVEN, "*", ODD]
        wanted = batch.lines(*batch.track([0, 2, 3, 5], [ODD, ODD, EVEN, ODD]))
        missing = [None, float("nan"), np.float64("nan"), np.datetime64("NaT"), *NA]
        for none in missing:
            for moments in ([0, none, 2, 3, none, 5], np.array([0, none, 2, 3, none, 5], object)):
                for call in (batch.track, batch.Tracker().hear):
                    heard, faults = call(moments, texts)
                    self.assertEqual(faults["code"].tolist(), [0, Code.BAD_MOMENT, 0, 0, Code.BAD_MOMENT, 0])
                    kept = [0, 2, 3, 5]
                    renumbered = batch.lines(heard[kept], faults[kept])
                    self.assertEqual(renumbered, wanted)
                    self.assertEqual(heard[1], np.zeros((), batch.TRACKED))
                    rows = batch.csv_rows(moments, heard, faults).split(b"\n")
                    self.assertEqual((rows[1], rows[4]), (b"2,,bad moment,,,,,", b"5,,bad moment,,,,,"))
            for given in ([ODD, none, EVEN], np.array([ODD, none, EVEN], object)):
                for call in (batch.track, batch.Tracker().hear):
                    heard, faults = call([0, 1, 2], given)
                    self.assertEqual(faults.tolist(), [(0, 0, 0), (Code.LENGTH, 0, 0), (0, 0, 0)])
                    self.assertEqual(heard["what"].tolist(), [What.WAITING, 0, What.FIX])
                self.assertEqual(batch.read(given)[1]["code"].tolist(), [0, Code.LENGTH, 0])
        floats = np.array([0, np.nan, 2, 3, np.nan, 5])
        self.assertEqual(batch.track(floats, texts)[1]["code"].tolist(), [0, 41, 0, 0, 41, 0])
        self.assertEqual(batch.track(np.array([0.0, float(1 << 53)]), [ODD, EVEN])[1]["code"].tolist(), [0, 0])
        whole = batch.track(floats, texts)
        for size in (1, 2, 3):
            with mock.patch.object(_parts, "PART", size):
                for ours, theirs in zip(batch.Tracker().hear(floats, texts), whole):
                    np.testing.assert_array_equal(ours, theirs)

    def test_masked(self) -> None:
        """A masked value of an array is missing, whatever is beneath the mask."""
        texts, mask = [ODD, EVEN, EVEN], [False, True, False]
        for beneath, last in ((np.array([0, 9, 400]), 0), (np.array([0, -1, 400], object), 0),
                              (np.array([0, 9, 400], "M8[ms]"), 0), (np.array([0, 9, np.nan]), Code.BAD_MOMENT)):
            moments = np.ma.MaskedArray(beneath, mask)
            for given in (moments, list(moments)):
                self.assertEqual(batch.track(given, texts)[1]["code"].tolist(), [0, Code.BAD_MOMENT, last])
        for frames in (np.array(texts, "S28"), np.array(texts), np.array([ODD, 5, EVEN], object), self.frames[:3],
                       self.frames[:3].view("V14").reshape(-1)):
            masks = np.arange(frames.size).reshape(frames.shape) == frames.size // 3
            faults = batch.read(np.ma.MaskedArray(frames, masks))[1]
            self.assertEqual(faults.tolist(), [(0, 0, 0), (Code.LENGTH, 0, 0), (0, 0, 0)])
        columns = batch.columns(range(3), *batch.track(range(3), texts[::2] + ["*"]))
        near = batch.positions(columns["lat_e7"], columns["lon_e7"])
        self.assertEqual(near["lat_den"].tolist(), [0, 10**7, 0])
        self.assertEqual(batch.local([EVEN] * 3, near)[1]["code"].tolist(), [Code.BAD_POSITION, 0, Code.BAD_POSITION])

    def test_dates(self) -> None:
        """Dates are milliseconds since 1970, rounded down; NaT is missing."""
        wanted = batch.lines(*batch.track([0, 1999, 2000], [ODD, EVEN, ODD]))
        late = timezone(timedelta(hours=2))
        aware = [datetime(1970, 1, 1, 2, 0, second, micro, late) for second, micro in ((0, 0), (1, 999_999), (2, 0))]
        naive = [one.replace(tzinfo=None) - timedelta(hours=2) for one in aware]
        nanos = np.array([0, 1_999_999_999, 2_000_000_000], "M8[ns]")
        given = [nanos, nanos.astype("M8[us]"), nanos.astype("M8[ms]"), aware, naive, list(nanos),
                 np.array(aware, object), np.array([0, 1999, 2000], "M8[1000us]")]
        if pandas is not None:
            given += [pandas.Series(nanos), pandas.Series(nanos).dt.tz_localize("UTC"), pandas.to_datetime(aware)]
        for moments in given:
            self.assertEqual(batch.lines(*batch.track(moments, [ODD, EVEN, ODD])), wanted, repr(moments))
            heard, faults = batch.Tracker().hear(moments, [ODD, EVEN, ODD])
            self.assertEqual(batch.lines(heard, faults), wanted)
            rows = batch.csv_rows(moments, heard, faults).splitlines()
            self.assertEqual([row.split(b",")[1] for row in rows], [b"0", b"1999", b"2000"], repr(moments))
        gap = np.array(["1970-01-01", "NaT", "1970-01-02"], "M8[D]")
        self.assertEqual(batch.track(gap, [ODD, EVEN, ODD])[1]["code"].tolist(), [0, Code.BAD_MOMENT, 0])
        heard, faults = batch.track(gap, [ODD, EVEN, ODD])
        self.assertEqual(batch.csv_rows(gap, heard, faults).splitlines()[2], b"3,86400000,waiting,40621D,air,,,38000")

    def test_dates_of_another_zone(self) -> None:
        """A date without a zone is one of UTC, whatever the zone of the machine."""
        self.addCleanup(time.tzset)
        for zone in ("Asia/Tokyo", "America/Lima"):
            with mock.patch.dict(os.environ, {"TZ": zone}):
                time.tzset()
                for given in ([datetime(1970, 1, 1, 12, 0, 5)], np.array(["1970-01-01T12:00:05"], "M8[s]")):
                    tracker = batch.Tracker()
                    tracker.hear(given, [ODD])
                    self.assertEqual(tracker.last, 43_205_000)

    def test_numbers_of_lines(self) -> None:
        """The first number is whole, from 0, and the last below 2**64."""
        heard, faults = batch.track([0, 1], [ODD, EVEN])
        for first in (0, 1, (1 << 63) - 1, 1 << 63, (1 << 64) - 2, np.uint64(7), np.int8(7), True):
            numbers = [int(row.split(b" ")[0]) for row in batch.lines(heard, faults, first).splitlines()]
            self.assertEqual(numbers, [int(first), int(first) + 1])
            rows = batch.csv_rows([0, 1], heard, faults, first).splitlines()
            self.assertEqual([int(row.split(b",")[0]) for row in rows], numbers)
        last = (1 << 64) - 1
        self.assertEqual(batch.lines(heard[:1], faults[:1], last), b"18446744073709551615 waiting 40621D\n")
        for wrong in (-1, (1 << 64) - 1, 1 << 64, 1.5, 1.0, "1", None, float("nan")):
            for call in (batch.lines, lambda *given: batch.csv_rows([0, 1], *given)):
                self.refused("first number", call, heard, faults, wrong)
        self.assertEqual(batch.lines(heard[:0], faults[:0], last), b"")
        self.refused("first number", batch.lines, heard[:0], faults[:0], last + 1)

    def test_columns(self) -> None:
        """Columns have a mask where a line has no value."""
        told = batch.columns([0, 1, None, 400], *batch.track([0, 1, None, 400], [ODD, "*", EVEN, EVEN]), first=7)
        self.assertEqual(list(told), [*batch.COLUMNS, "lat_e7", "lon_e7", "fault"])
        self.assertEqual({name: column.tolist() for name, column in told.items()}, {
            "line": [7, 8, 9, 10], "moment": [0, None, None, 400],
            "answer": ["waiting", "bad wrapping", "bad moment", "fix"], "address": ["40621D", None, None, "40621D"],
            "kind": ["air", None, None, "air"], "lat": [None, None, None, 52.2572021],
            "lon": [None, None, None, 3.9193726], "feet": [38000, None, None, 38000],
            "lat_e7": [None, None, None, 522572021], "lon_e7": [None, None, None, 39193726],
            "fault": [0, Code.WRAP, Code.BAD_MOMENT, 0]})
        self.assertEqual([len(column) for column in batch.columns([], *batch.track([], [])).values()], [0] * 11)

    def test_public_names(self) -> None:
        """A prompt completes the public names, and no imports or helpers."""
        self.assertEqual([name for name in dir(batch) if not name.startswith("__")], sorted(batch.__all__))

    def test_columns_are_the_callers(self) -> None:
        """The caller may write to the values and to the mask of each column: no other column, argument or later result
        changes."""
        moments, frames = np.array([0, 1, 2, 400], "u8"), [ODD, "*", EVEN, EVEN]
        heard, faults = batch.track(moments, frames)
        wanted = {name: column.tolist() for name, column in batch.columns(moments, heard, faults).items()}
        for written in wanted:
            told = batch.columns(moments, heard, faults)
            given = [array.copy() for array in (moments, heard, faults)]
            told[written].mask[:] = True
            told[written].data[:] = 0 if told[written].dtype != object else "written"
            for name, column in told.items():
                if name != written:
                    self.assertEqual(column.tolist(), wanted[name], (written, name))
            for array, before in zip((moments, heard, faults), given):
                np.testing.assert_array_equal(array, before)
            later = {name: column.tolist() for name, column in batch.columns(moments, heard, faults).items()}
            self.assertEqual(later, wanted, written)

    def test_fractions(self) -> None:
        heard, _ = batch.track([0, 1], [ODD, EVEN])
        place = Position(Fraction(428091, 8192), Fraction(64215, 16384))
        self.assertEqual(batch.fractions(heard), [None, place])
        self.assertEqual(batch.fractions(batch.local([EVEN, "*"], Position(52, 4))[0]), [place, None])
        self.assertEqual(batch.fractions(heard[:0]), [])
        frames = [squitter.encode(AirHead(5, odd=odd), Position(0, 0)) for odd in (0, 1)]
        self.assertEqual(batch.fractions(batch.track([0, 1], b"".join(frames))[0]), [None, Position(0, 0)])

    def test_references(self) -> None:
        near = batch.positions([520_000_000] * 6, np.full(6, 40_000_000, ">i8"))
        places, _ = batch.local(self.frames, near)
        self.assertEqual(places[0].tolist(), PLACE)
        swapped = [("lat_num", ">i8"), ("lat_den", ">u8"), ("lon_num", ">i8"), ("lon_den", ">u8")]
        other = np.zeros(6, [("name", "S3"), *swapped])
        for name in batch.POSITION.names or ():
            other[name] = near[name]
        for same in (other, np.repeat(near, 2)[::2], Position(52, 4)):
            np.testing.assert_array_equal(batch.local(self.frames, same)[0], places)
        heard, _ = batch.track(range(6), self.frames)
        degrees, faults = batch.position_e7(heard)
        np.testing.assert_array_equal(degrees["lat_e7"], heard["lat_e7"])
        self.assertEqual(faults["code"].tolist(), [Code.BAD_POSITION] + [0] * 5)
        floats = np.zeros(6, [(name, float) for name in batch.POSITION.names or ()])
        for wrong in (near[:5], near.reshape(2, 3), floats, np.zeros(6), [(52, 1, 4, 1)] * 6, (52, 4)):
            self.refused("references", batch.local, self.frames, wrong)
        for wrong in (([0.5], [1]), ([1], [1, 2]), ([[1]], [[1]]), ([1], [1 << 63]), (["1"], ["1"])):
            self.refused("lat|lon", batch.positions, *wrong)
        self.assertEqual(batch.local(self.frames, Position(52.25, 4.0))[0].tolist(),
                         batch.local(self.frames, Position("52.25", 4))[0].tolist())

    def test_given_arrays(self) -> None:
        frames, near = self.frames, batch.positions([1] * 6, [2] * 6)
        for dtype, call, given in ((batch.FIELDS, batch.read, (frames,)), (batch.POSITION, batch.local, (frames, SITE)),
            (batch.POSITION, batch.pair, (frames, frames)), (batch.POSITION, batch.pair_at, (frames, frames, SITE)),
            (batch.DEGREES, batch.position_e7, (near,)), (batch.TRACKED, batch.track, (range(6), frames)),
        ):
            out, faults = np.zeros(6, dtype), np.zeros(6, batch.FAULT)
            got = call(*given, out=out, faults=faults)
            self.assertTrue(got[0] is out and got[1] is faults)
            np.testing.assert_array_equal(call(*given)[0], out)
            still = np.zeros(6, dtype)
            still.flags.writeable = False
            for words, wrong in (("another type", np.zeros(6)), ("another type", [0] * 6),
                ("another type", np.zeros(6, dtype.newbyteorder(">"))), ("shape", np.zeros(5, dtype)),
                ("shape", np.zeros((6, 1), dtype)), ("read-only", still), ("masked", np.ma.zeros(6, dtype)),
                ("not contiguous", np.zeros(12, dtype)[::2]), ("not contiguous", aside(dtype, 6)),
            ):
                self.refused(f"out .*{words}", call, *given, out=wrong)
            self.refused("faults .*another type", call, *given, faults=out)
            room = np.zeros(6 * 200, np.uint8)
            ours, theirs = room[:6 * dtype.itemsize].view(dtype), room[:6 * 16].view(batch.FAULT)
            self.refused("overlap", call, *given, out=ours, faults=theirs)
        room = np.zeros(6 * 40, np.uint8)
        room[:84] = self.frames.reshape(-1)
        self.refused("overlap", batch.read, room[:84].reshape(6, 14), out=room.view(batch.FIELDS))

    def test_answers(self) -> None:
        heard, faults = batch.track(range(6), self.frames)
        self.assertEqual(batch.lines(heard[::2], faults[::2], 7).splitlines(), [
            b"7 waiting 40621D", b"8 fix 40621D 52.2572021 3.9193726", b"9 fix 40621D 52.2572021 3.9193726"])
        self.assertEqual((batch.lines(heard[:0], faults[:0]), batch.csv_rows([], heard[:0], faults[:0])), (b"", b""))
        self.refused("heard", batch.lines, faults, faults)
        self.refused("faults is a masked array; pass its data", batch.lines, heard, np.ma.array(faults))
        self.refused("faults", batch.lines, heard, heard)
        self.refused("heard are 6, and faults 5", batch.lines, heard, faults[:5])
        self.refused("moments", batch.csv_rows, range(5), heard, faults)

    def test_left_as_it_was(self) -> None:
        damaged = self.frames.copy()
        damaged[2, 5] ^= 1
        for dtype, call, given in ((batch.FIELDS, batch.read, ()), (batch.POSITION, batch.local, (SITE,)),
                                   (batch.TRACKED, lambda frames, **rooms: batch.track(range(6), frames, **rooms), ())):
            out = np.full(6 * dtype.itemsize, 0x55, np.uint8).view(dtype)
            was = out[2].tobytes()
            _, faults = call(damaged, *given, out=out)
            self.assertEqual(faults["code"].tolist(), [0, 0, Code.PARITY, 0, 0, 0])
            self.assertEqual(out[2].tobytes(), was)
            self.assertNotEqual(out[3].tobytes(), was)


def aside(dtype: np.dtype, count: int) -> np.ndarray:
    """An array that is not aligned."""
    return np.zeros(dtype.itemsize * count + 1, np.uint8)[1:].view(dtype)


if __name__ == "__main__":
    unittest.main()
