#!/usr/bin/env python3
"""What receivers record, as arrays and as data frames: each format by a file's name, open, and as bytes; archives, what
has no times, and what is no recording. Needs NumPy, and pandas for the data frames."""
import array
import bz2
import gzip
import io
import itertools
import lzma
import mmap
import os
import pathlib
import re
import sys
import tempfile
import unittest
import warnings
from typing import Any, Callable, Iterator, List, Type
from unittest import mock

import numpy as np

HERE = os.path.dirname(os.path.abspath(__file__))
sys.path.insert(0, os.path.join(HERE, ".."))
import test_feed  # noqa: E402
from squitter import FeedFormat, _source, batch  # noqa: E402
from test_feed import ALL_CALL, EVEN, FRAMES, LINES, MOMENTS, ODD, SOURCE  # noqa: E402

try:
    import pandas
except ImportError:
    pandas = None

ALL_AT_0 = "all frames of this file have the timestamp 0, as without times: old ones pair with new"
NO_FRAME = ("no frame is in the first 16384 bytes: try format=beast, avr, csv or log"
            "; a table has the columns time (seconds), icao24 and rawmsg")
NO_SQUITTER = "no extended squitter (DF17) is in it"
# A source of each format, with the squitters of MOMENTS and FRAMES, a short frame, and one piece of damage.
SOURCES = {
    "beast": SOURCE,
    "avr": f"*2040;\n@{6682 * 12_000:012X}{EVEN};<{84_000_000:012x}1a{ODD.lower()};\r\n*{ALL_CALL};*12;\n"
    f"%{88_800_000:012X}{EVEN};\n@{88_800_001:012X}{ODD};".encode(),
    "csv": (f'time,icao24,rawmsg\n6.682,x,{EVEN}\n7,,"{ODD}"\r\n7.1,,{ALL_CALL}\nx,,{EVEN}\n\n7.4,,{EVEN}\n'
            f"7.4009,,{ODD}\n").encode(),
    "log": f"6682 {EVEN}\n7000 *{ODD};\r\n7001 {ALL_CALL}\n7400 {EVEN}0\n7400 {EVEN.lower()}\n7400 {ODD}\n".encode(),
}
UNTIMED = {
    "avr": f"*{ODD};\r\n*{EVEN};\r\n".encode(),
    "beast": b"".join(test_feed.message(b"3", 0, frame) for frame in (ODD, EVEN, ODD)),
}


class Recordings(unittest.TestCase):
    """The sources are those of test_feed, which has their timestamps by hand."""

    def setUp(self) -> None:
        folder = tempfile.TemporaryDirectory()
        self.addCleanup(folder.cleanup)
        self.path = pathlib.Path(folder.name) / "recording"

    def given(self, data: bytes) -> Iterator[Any]:
        """The same recording in each form."""
        self.path.write_bytes(data)
        yield from (self.path, str(self.path), io.BytesIO(data), data, bytearray(data), memoryview(data))
        with open(self.path, "rb") as file:
            yield file

    def same(self, squitters: _source.Squitters) -> None:
        moments, frames = squitters
        self.assertEqual((moments.dtype, moments.tolist()), (np.uint64, MOMENTS))
        self.assertEqual((frames.dtype, frames.shape, frames.tobytes()), (np.uint8, (4, 14), FRAMES))

    def test_formats(self) -> None:
        """The squitters of each format, found or named, also if pieces and the end cut a message or a line."""
        for name, data in SOURCES.items():
            for source in self.given(data):
                self.same(batch.feed(source))
            for form in (name, FeedFormat[name.upper()]):
                self.same(batch.feed(data, form))
            for size in (1, 7, 40, len(data) - 1, len(data), len(data) + 1):
                with mock.patch.object(_source, "_PIECE", size):
                    self.same(batch.feed(data))
            if name != "beast":
                self.same(batch.feed(data.rstrip()))
        for data, moments in ((f"7 {ODD}".encode(), [7]), (f"1.5,,{ODD}".encode(), [1500]),
                              (test_feed.message(b"3", 12_000, ODD), [1]),
                              (test_feed.message(b"3", 12_000, ODD) * 2, [1, 1])):
            self.assertEqual(batch.feed(data)[0].tolist(), moments)

    def test_buffers(self) -> None:
        """Frames in a buffer of any kind: an array of Python, a file that is mapped into memory, and a read-only array
        with a mask."""
        self.path.write_bytes(FRAMES)
        wanted = batch.read(FRAMES)
        masked = np.ma.MaskedArray(np.frombuffer(FRAMES, np.uint8).reshape(-1, 14), False)
        with open(self.path, "rb") as file, mmap.mmap(file.fileno(), 0, access=mmap.ACCESS_READ) as mapped:
            for buffer in (array.array("B", FRAMES), array.array("b", FRAMES), mapped, masked):
                np.testing.assert_array_equal(batch.read(buffer)[0], wanted[0])
                np.testing.assert_array_equal(batch.track(MOMENTS, buffer)[0], batch.track(MOMENTS, FRAMES)[0])
        for wrong in (array.array("H", FRAMES), array.array("B", FRAMES[1:])):
            with self.assertRaisesRegex(ValueError, "^frames are 14 bytes each, one after the other, not "):
                batch.read(wrong)

    def test_damaged_front(self) -> None:
        """Messages before damage are read, with a format and without."""
        rows = list(zip(MOMENTS, (EVEN, ODD) * 2))
        first, *rest = (test_feed.message(b"3", 12_000 * moment, frame) for moment, frame in rows)
        for damage in (b"\x1a9", b"x" * 40):
            data = first + damage + b"".join(rest)
            for form in (None, "auto", "beast"):
                self.same(batch.feed(data, form))
            if pandas is not None:
                self.assertEqual(batch.dataframe(data)["moment"].tolist(), MOMENTS)

    def test_leap(self) -> None:
        """Gaps beyond the leap are kept, unless another frame contradicts them."""
        cases = {4999: [1, 2], 5000: [1, 5001], 5001: [1, 5001]}
        for moments, told in (((1, 5001, 2), cases), ((1, 5001, 10_001), dict.fromkeys(cases, [1, 5001, 10_001]))):
            data = b"".join(f"@{12_000 * moment:012X}{ODD};".encode() for moment in moments) + b"\n"
            for leap in cases:
                self.assertEqual(batch.feed(data, "avr", leap)[0].tolist(), told[leap], (moments, leap))

    def test_without_times(self) -> None:
        """Frames without times get the timestamp 0, as `squitter feed` gives them to a file, and a warning says so. A
        single one needs no time."""
        for name, data in UNTIMED.items():
            for source in self.given(data):
                with self.assertWarnsRegex(UserWarning, f"^{ALL_AT_0}$") as warned:
                    self.assertEqual(set(batch.feed(source)[0].tolist()), {0})
                self.assertEqual(warned.filename, __file__)
            for form in (name, FeedFormat[name.upper()]):
                with self.assertWarnsRegex(UserWarning, ALL_AT_0):
                    batch.feed(data, form)
        with warnings.catch_warnings():
            warnings.simplefilter("error")
            for one in (f"*{ODD};", f"*{ODD};\n", ODD, f"{ODD}\n", f"@{0:012X}{ODD};\n"):
                moments, frames = batch.feed(one.encode())
                self.assertEqual((moments.tolist(), frames.tobytes().hex().upper()), ([0], ODD))
        for zeros in (f"0 {ODD}\n0 {EVEN}\n", f"0,x,{ODD}\n0,x,{EVEN}\n", f"{ODD}\n{EVEN}"):
            with self.assertWarnsRegex(UserWarning, ALL_AT_0):
                self.assertEqual(batch.feed(zeros.encode())[0].tolist(), [0, 0])

    def test_other_units(self) -> None:
        """A warning says what timestamps seem to be, once for each call, of a log, a table and a recording."""
        def warned(call: Callable[[], object]) -> List[str]:
            with warnings.catch_warnings(record=True) as found:
                warnings.simplefilter("always")
                call()
            self.assertLessEqual({one.filename for one in found}, {__file__})
            return [str(one.message) for one in found]

        def log(step: int) -> bytes:
            return b"".join(b"%d %s\n" % (step * at, (ODD, EVEN)[at % 2].encode()) for at in range(17))

        gps = b"".join(b"@%012X%s;\n" % (at << 30 | 5, ODD.encode()) for at in range(1, 18))
        seconds = "the timestamps of this log seem to be seconds; they have to be milliseconds"
        micros = "the timestamps seem to be microseconds; a log has milliseconds, and a table has seconds"
        clock = ("the clock of this source seems to be GPS time (Radarcape): set it to 12 MHz, or read its port with "
                 "--arrival")
        for data, told in ((log(1), [seconds]), (log(500_000), [micros]), (log(500), []), (gps, [clock])):
            self.assertEqual(warned(lambda: batch.feed(data)), told)
            self.assertEqual(warned(lambda: batch.dataframe(data)), told)
        table = {"moment": list(range(17)), "frame": [ODD] * 17}
        self.assertEqual(warned(lambda: batch.dataframe(table)), [seconds])

    def test_few(self) -> None:
        """One message or two, also without a line feed at the end, by each form of source and by a pipe."""
        both = {"avr": f"@{12_000:012X}{ODD};", "csv": f"0.001,x,{ODD}", "log": f"1 {ODD}"}
        for end in ("\n", ""):
            for text in both.values():
                for count in (1, 2):
                    data = "\n".join([text] * count).encode() + end.encode()
                    for source in itertools.chain(self.given(data), self.piped(data)):
                        moments, frames = batch.feed(source)
                        self.assertEqual(moments.tolist(), [1] * count)
                        self.assertEqual(frames.tobytes(), bytes.fromhex(ODD) * count)

    def piped(self, data: bytes) -> Iterator[Any]:
        """A pipe that holds the data, by its name and open."""
        for is_named in (True, False):
            reader, writer = os.pipe()
            os.write(writer, data)
            os.close(writer)
            with open(reader, "rb") as pipe:
                yield f"/dev/fd/{reader}" if is_named else pipe

    def test_no_squitter(self) -> None:
        """A source without squitters is refused, with what it is, what is in it and what to do."""
        short = b"*5D40621D000000;\n"
        for data, form, told in (
            (b"", None, "it is empty"), (b"", "beast", "it is empty"),
            *((data, None, NO_FRAME) for data in (b"x\n", b"x", bytes(100), b"\n", b"0 x\n", b"x\n" * (1 << 13))),
            (b"time,icao24,rawmsg\n", None, NO_SQUITTER), (b"x\n", "log", f"{NO_SQUITTER}, 1 damaged"),
            (short * 3, None, f"{NO_SQUITTER}, 3 of other downlink formats"),
            (b"MSG,3,,,40621D,,,,,,,38000,,,52.2,3.9\n", None, "the input is SBS (BaseStation) text, which has no "
             "frames: read port 30005 or 30002"),
            (b'{"now": 1}\n', None, "the input is lines of JSON, which have no frames"),
            (f"1,5;;{EVEN}\n".encode(), None, "the table has semicolons between its columns: they have "
             "to be commas, and its decimal commas points"),
            (b"time,icao24,lat\n5,40621D,52\n", None, "the table has no column rawmsg, so it has no frames: take one "
             "that has them"),
            (f"1700000000000,40621d,{EVEN}\n".encode(), None, "the first column of the table has no times in seconds, "
             "as 1700000000.25: milliseconds and dates are not read"),
            ("5 x\n".encode("utf-16"), None, "the input is UTF-16: try iconv -f UTF-16 -t UTF-8 FILE | squitter feed"),
        ):
            calls = [lambda source: batch.feed(source, form)]
            calls += [batch.dataframe] if pandas is not None and form is None else []
            for call in calls:
                for source in self.given(data):
                    with self.assertRaises(ValueError) as raised:
                        call(source)
                    name, _, said = str(raised.exception).partition(": ")
                    self.assertEqual((name, said), (_source.name_of(source), told))

    def test_no_format(self) -> None:
        late = b"x\n" * (1 << 13)  # as long as the bytes that may show a format
        with self.assertRaisesRegex(ValueError, re.escape(NO_FRAME)):
            batch.feed(late + SOURCES["log"])
        self.same(batch.feed(late[:-len(f"6682 {EVEN}\n") - 1] + b"\n" + SOURCES["log"]))
        for form in ("xml", 5, -1):
            with self.assertRaises(ValueError):
                batch.feed(SOURCES["log"], form)
        with self.assertRaises(ValueError):
            batch.feed(SOURCES["log"], leap=1 << 64)
        with self.assertRaises(FileNotFoundError):
            batch.feed("/nonesuch")
        with self.assertRaisesRegex(TypeError, "open for bytes"):
            batch.feed(io.StringIO("5 x\n"))


PACKED = {"gzip": gzip.compress, "bzip2": bz2.compress, "xz": lzma.compress}


class Errors(unittest.TestCase):
    """What is said of a source that is none, in full."""

    def setUp(self) -> None:
        folder = tempfile.TemporaryDirectory()
        self.addCleanup(folder.cleanup)
        self.path = pathlib.Path(folder.name) / "recording"
        self.calls = [batch.feed, *([batch.dataframe] if pandas else [])]

    def told(self, kind: Type[Exception], text: str, call: Callable[..., Any], *arguments: Any) -> None:
        """The call raises an error of this type, and no other, with this text in one line."""
        with self.assertRaises(Exception) as raised:
            call(*arguments)
        self.assertEqual((type(raised.exception), str(raised.exception)), (kind, text))
        self.assertNotIn("\n", text)

    def test_archives(self) -> None:
        """An archive is read whatever its name: several members, also cut anywhere, and zeros behind them."""
        front, back = LINES[:70], LINES[70:]
        for packed in PACKED.values():
            for data in (packed(LINES), packed(front) + packed(back), packed(b"") + packed(LINES) + packed(b""),
                         packed(LINES) + bytes(1), packed(front) + bytes(4096) + packed(back) + bytes(1 << 17)):
                self.path.write_bytes(data)
                with open(self.path, "rb") as file:
                    for given in (self.path, str(self.path), file, io.BytesIO(data), data, bytearray(data)):
                        self.assertEqual(batch.feed(given)[0].tolist(), MOMENTS)
                if pandas is not None:
                    self.assertEqual(batch.dataframe(self.path)["moment"].tolist(), MOMENTS)
                for size in (1, 40, len(data) - 1, len(data)):
                    with mock.patch.object(_source, "_PACKED", size):
                        self.assertEqual(batch.feed(data)[0].tolist(), MOMENTS)
            self.assertEqual(batch.feed(packed(SOURCES["beast"]), "beast")[0].tolist(), MOMENTS)
            members = b"".join(packed(LINES[at:at + 1]) for at in range(len(LINES)))
            self.assertEqual(batch.feed(members)[0].tolist(), MOMENTS)

    def test_damaged_archives(self) -> None:
        """An archive that ends early, is damaged or has something else behind it is refused with its name."""
        for name, packed in PACKED.items():
            data = packed(LINES)
            for damaged, what in (
                (data[:-1], "ends early"), (data[:len(data) // 2], "ends early"), (data[:6], "ends early"),
                (data + data[:-1], "ends early"), (data + b"x", "is damaged at its end"),
                (data + bytes(9) + b"5 x\n", "is damaged at its end"),
                (data[:len(data) // 2] + b"x" * 9 + data[len(data) // 2 + 9:], "is damaged"),
            ):
                self.path.write_bytes(damaged)
                for call in (*self.calls, lambda given: batch.feed(given, "log")):
                    self.told(ValueError, f"{self.path}: the {name} archive {what}", call, self.path)
                    self.told(ValueError, f"this: the {name} archive {what}", call, damaged)
            for call in self.calls:
                self.told(ValueError, "this: it is empty", call, packed(b""))
        for call in self.calls:
            for data, told in ((b"\x28\xb5\x2f\xfd" + bytes(9), "zstd: unpack it first"),
                               (b"PK\3\4" + bytes(9), "a zip archive: unpack it first"),
                               (gzip.compress(gzip.compress(LINES)), "gzip: unpack it with gzip.decompress first")):
                self.told(ValueError, f"this: the input is {told}", call, data)
            for data in (b"\x1f", b"BZ", b"x\x1f\x8b"):
                self.told(ValueError, f"this: {NO_FRAME}", call, data)

    def test_archives_as_arrays(self) -> None:
        """A file, also an archive, or its name in place of moments or frames."""
        wanted = {"frames": "frames are a list, an array or bytes", "moments":
                  "moments are a list or an array with one for each frame"}
        calls = {"frames": lambda given: batch.track([0], given), "moments": lambda given: batch.track(given, [ODD])}
        for name, call in calls.items():
            of_file = f"{wanted[name]}, not a file: batch.feed reads it, as in track(*batch.feed("
            self.path.write_bytes(gzip.compress(LINES))
            self.told(ValueError, f"{of_file}'{self.path}'))", call, self.path)
            self.path.write_bytes(LINES)
            for given in (self.path, str(self.path), open(self.path, "rb"), open(self.path)):
                self.told(ValueError, f"{of_file}'{self.path}'))", call, given)
                getattr(given, "close", list)()
            self.told(ValueError, f"{of_file}file))", call, io.BytesIO(LINES))
            self.told(ValueError, f"{of_file}'{self.path.parent}'))", call, str(self.path.parent))
            self.told(ValueError, f"{wanted[name]}, not a single text: '{EVEN}'", call, EVEN)
            with open(os.pipe()[0], "rb") as pipe:
                self.told(ValueError, f"{of_file}file))", call, pipe)
        os.mkfifo(self.path.parent / "pipe")
        pipe_path = self.path.parent / "pipe"
        self.told(ValueError, f"{of_file}'{pipe_path}'))", call, pipe_path)
        data = gzip.compress(LINES)
        data += bytes(14 - len(data) % 14 + 1)
        self.told(ValueError, f"frames are 14 bytes each, one after the other, not {len(data)} bytes of gzip: unpack "
                  "it with gzip.decompress first", batch.track, [0], data)

    def test_names(self) -> None:
        """A name of no file, and data in place of a name."""
        advice = "; a str is the name of a file, and data are bytes, as encode() makes them"
        for call in self.calls:
            self.told(FileNotFoundError, "[Errno 2] No such file or directory: 'nonesuch'", call, "nonesuch")
            for given in (f"0 {ODD}", f"*{EVEN};", "time,icao24", "5 x\n", LINES.decode()):
                self.told(FileNotFoundError, f"[Errno 2] No such file or directory{advice}: {given!r}", call, given)
            path = pathlib.Path(f"0 {ODD}")
            self.told(FileNotFoundError, f"[Errno 2] No such file or directory: '{path}'", call, path)
            long = "5 x\n" * 1024
            self.told(OSError, f"[Errno 36] File name too long{advice}: {long[:60] + '...'!r}", call, long)
            with self.assertRaises(FileNotFoundError) as raised:
                call("a,b" * 85)
            self.assertEqual((raised.exception.errno, raised.exception.filename), (2, "a,b" * 85))
        self.path.write_bytes(LINES)
        self.assertEqual(batch.feed(str(self.path.rename(self.path.parent / "0,1;2")))[0].tolist(), MOMENTS)

    def test_types(self) -> None:
        for given in (None, 5, 1.5, [], ["log"], (1, 2), {}):
            self.told(TypeError, f"a source is a file, by its name or open for bytes ('rb'), or bytes, not {given!r}",
                      batch.feed, given)
        for call in self.calls:
            for given in (io.StringIO("5 x"), open(__file__)):
                self.told(TypeError, "a source is a file that is open for bytes ('rb'), not for text", call, given)
                given.close()
        self.told(ValueError, "a format is one of 'beast', 'avr', 'csv', 'log', 'auto', or of FeedFormat, not 'xml'",
                  batch.feed, LINES, "xml")


@unittest.skipUnless(pandas is not None, "needs pandas")
class DataFrames(unittest.TestCase):
    def test_no_pandas(self) -> None:
        wanted = "batch.dataframe needs pandas: pip install pandas, or apt install python3-pandas"
        with mock.patch.dict(sys.modules, {"pandas": None}):
            with self.assertRaises(ModuleNotFoundError) as raised:
                batch.dataframe(LINES)
        self.assertEqual((str(raised.exception), raised.exception.name), (wanted, "pandas"))
        self.assertEqual(len(batch.dataframe(LINES)), 4)

    def test_recordings(self) -> None:
        """A data frame of a recording is that of the log of its squitters, with exact positions too."""
        wanted = batch.dataframe(LINES, exact=True)
        self.assertEqual(wanted["answer"].tolist(), ["waiting", "fix", "fix", "fix"])
        for name, data in SOURCES.items():
            if name != "log":
                for source in (data, io.BytesIO(data)):
                    self.assertTrue(batch.dataframe(source, exact=True).equals(wanted), name)
        # A table may have the time 0 in all rows.
        with self.assertWarnsRegex(UserWarning, ALL_AT_0):
            zeros = batch.dataframe(f"time,icao24,rawmsg\n0,,{ODD}\n0.0,,{EVEN}\n".encode())
        self.assertEqual((zeros["moment"].tolist(), zeros["answer"].tolist()), ([0, 0], ["waiting", "fix"]))
        limited = batch.dataframe(SOURCES["csv"], window=100)
        self.assertEqual(limited["answer"].tolist(), ["waiting", "waiting", "waiting", "fix"])
        for data in UNTIMED.values():
            with self.assertWarnsRegex(UserWarning, f"^{ALL_AT_0}$") as warned:
                self.assertEqual(set(batch.dataframe(data)["moment"].tolist()), {0})
            self.assertEqual(warned.filename, __file__)

    def test_logs_with_faults(self) -> None:
        """A log with a good line is taken, whatever stands before it; so is one with damaged frames alone."""
        log = f"0 {ODD}\n400 {EVEN}\n".encode()
        avr, csv = f"*{ODD};\r\n*{EVEN};\r\n".encode(), f"moment,frame\n0,{ODD}\n".encode()
        # (a line without its time is a bad moment of a log, and not a recording of AVR)
        self.assertEqual(batch.dataframe(f"{ODD}\n400 {EVEN}\n".encode())["answer"].tolist(), ["bad moment", "waiting"])
        for data in (avr + log, csv + log, b"x\n" * (1 << 13) + log):
            self.assertEqual(batch.dataframe(io.BytesIO(data))["answer"].tolist()[-2:], ["waiting", "fix"])
        damaged = f"0 {ODD[:-1]}0\n1 {ODD[:-1]}1\n".encode()
        self.assertEqual(batch.dataframe(damaged)["answer"].tolist(), ["parity 000006", "parity 000007"])
        for one in (ODD, f"*{ODD};", f"{ODD}\n"):
            row = batch.dataframe(one.encode()).iloc[0]
            self.assertEqual((row["line"], row["moment"], row["answer"]), (1, 0, "waiting"))
        # One message of Beast is a recording, with or without a time.
        for count, moment in ((0, 0), (12_000, 1)):
            message = b"\x1a3" + count.to_bytes(6, "big") + b"\x80" + bytes.fromhex(ODD)
            self.assertEqual(batch.dataframe(message)["moment"].tolist(), [moment])


if __name__ == "__main__":
    unittest.main()
