#!/usr/bin/env python3
"""Data frames of squitter.batch beside the program's rows of CSV, value by value, and results that a caller changed.
PROGRAM is the program, by default that of dist/program. Needs NumPy; data frames need pandas."""
import io
import os
import pathlib
import subprocess
import sys
import tempfile
import threading
import unittest
from fractions import Fraction
from typing import Any

import numpy as np

sys.path[:0] = [os.path.dirname(os.path.abspath(__file__))]
from test_arrays import pandas  # noqa: E402
from test_batch import EVEN, ODD, PROGRAM, SITE, TOP  # noqa: E402

import squitter  # noqa: E402
from squitter import AirHead, Code, Position, batch  # noqa: E402


@unittest.skipUnless(pandas is not None, "needs pandas")
class Frames(unittest.TestCase):
    log = os.path.join(TOP, "examples", "flights.log")

    def table(self, text: bytes) -> Any:
        """A table of the program, as pandas reads it."""
        known = {name: "string" for name in ("answer", "address", "kind")}
        whole = {"line": "UInt64", "moment": "UInt64", "feet": "Int64"}
        return pandas.read_csv(io.BytesIO(text), dtype={**known, **whole})

    def test_borders(self) -> None:
        """The results of a call fill its array, nearly or more than fully. Each has the right line, timestamp and
        address, even if most lines are empty, or the file is a pipe."""
        for count in (1, 8191, 8192, 8193, 2 * 8192 + 1):
            heads = [AirHead(address=n // 2 % 5000, odd=n % 2) for n in range(count)]
            frames = [squitter.encode(head, SITE).hex() for head in heads]
            for end in ("\n", "\r\n\n\n"):
                log = "".join(f"{7 * n} {text}{end}" for n, text in enumerate(frames)).encode()
                frame = batch.dataframe(io.BytesIO(log), limit=None)
                self.assertEqual(frame["line"].tolist(), [1 + n * end.count("\n") for n in range(count)])
                self.assertEqual(frame["moment"].tolist(), [7 * n for n in range(count)])
                self.assertTrue(frame["address"].tolist() == [f"{n // 2 % 5000:06X}" for n in range(count)])
                self.assertEqual(frame["fault"].tolist(), [0] * count)
                self.assertEqual(frame["lat_e7"].notna().tolist(), [n % 2 == 1 for n in range(count)])
        with tempfile.TemporaryDirectory() as folder:
            os.mkfifo(f"{folder}/pipe")
            writer = threading.Thread(target=lambda: pathlib.Path(f"{folder}/pipe").write_bytes(log))
            writer.start()
            self.assertTrue(batch.dataframe(f"{folder}/pipe", limit=None).equals(frame))
            writer.join()

    def test_as_program(self) -> None:
        """The columns are those of the program, name by name and value by value."""
        with open(self.log, "rb") as log:
            data = log.read()
        data += b"".join(b"5 %s%s\n" % (b"8" * count, end) for count in (60, 61, 62, 63) for end in (b"", b"\r"))
        data = data.replace(b"\n", b"\r\n\n", 5) + b"\nx\n7 8D\n" + b"9" * 65 + b"\n" + b"1" * 21 + b" x\n*\n99999 \xff"
        got = subprocess.run([PROGRAM, "track", "--format=csv", "--lat=52.31", "--lon=4.76"], input=data,
                             stdout=subprocess.PIPE).stdout
        wanted = self.table(got)
        with tempfile.NamedTemporaryFile() as file:
            file.write(data)
            file.flush()
            for source in (file.name, pathlib.Path(file.name), io.BytesIO(data)):
                frame = batch.dataframe(source, site=SITE)
                self.assertEqual(list(frame.columns), [*batch.COLUMNS, "lat_e7", "lon_e7", "fault"])
                for name in batch.COLUMNS:
                    ours, theirs = frame[name], wanted[name]
                    # (to show how two thousand values differ takes minutes)
                    self.assertTrue(ours.isna().tolist() == theirs.isna().tolist(), name)
                    self.assertTrue(ours.dropna().tolist() == theirs.dropna().tolist(), name)
        for name, kind in (("lat", "float64"), ("lon", "float64"), ("feet", "Int64"), ("lat_e7", "Int64"),
                           ("moment", "UInt64"), ("lon_e7", "Int64"), ("line", "uint64"), ("fault", "int64")):
            self.assertEqual(str(frame[name].dtype), kind, name)

    def test_sites_of_floats(self) -> None:
        """A site may be any floats, also computed ones. Other values are refused as they are elsewhere."""
        wanted = batch.dataframe(self.log, site=SITE)
        for site in ((52.31000000000001, 4.76 + 1e-13), (np.float64(52.31) + 1e-14, 4.76), [52.31, "4.76"],
                     np.array([52.31, 4.7600000000000001])):
            self.assertTrue(batch.dataframe(self.log, site=site).equals(wanted), site)
        # 1/3 has no end: the table is that of its first 12 decimals
        thirds = batch.dataframe(self.log, site=(157 / 3, 14.3 / 3))
        self.assertTrue(thirds.equals(batch.dataframe(self.log, site=("52.333333333333", "4.766666666667"))))
        for site in ((float("nan"), 4), (52, float("inf")), (90.1, 4), ("52.31000000000001", 4)):
            with self.assertRaises(squitter.Fault) as raised:
                batch.dataframe(self.log, site=site)
            self.assertIn(raised.exception.code, (Code.BAD_POSITION, Code.TOO_MANY_DECIMALS))
        for site in (5, (52.31,), "52.31 4.76"):
            with self.assertRaises((TypeError, ValueError)):
                batch.dataframe(self.log, site=site)

    def test_without_a_place(self) -> None:
        """A row without a place has none in any column, and one at 0, 0 has it."""
        frame = batch.dataframe(self.log, site=SITE)
        placed = frame["answer"].isin(["fix", "followed"])
        for name in ("lat", "lon", "lat_e7", "lon_e7"):
            self.assertTrue(frame[name].notna().tolist() == placed.tolist(), name)
        self.assertFalse(((frame["lat"] == 0) & (frame["lon"] == 0)).any())
        refused = frame["fault"] != 0
        for name in ("moment", "address", "kind", "feet"):
            self.assertTrue(frame.loc[refused, name].isna().all(), name)
        frames = [squitter.frame_text(squitter.encode(AirHead(5, odd=odd), Position(0, 0))) for odd in (0, 1)]
        one = batch.dataframe({"moment": [1, 2], "frame": frames})
        self.assertEqual(one[["lat", "lon", "lat_e7", "lon_e7"]].iloc[1].tolist(), [0, 0, 0, 0])
        self.assertEqual(one["feet"].isna().tolist(), [True, True])

    def test_positions_of_columns(self) -> None:
        """The columns of a data frame are references, and a row without a place has none."""
        frame = batch.dataframe(self.log)
        near = batch.positions(frame["lat_e7"], frame["lon_e7"])
        self.assertEqual(near[5].tolist(), (104_004_217, 10**7, 80_000_831, 10**7))
        self.assertEqual((near["lat_den"] != 0).tolist(), frame["lat"].notna().tolist())
        placed = frame.dropna(subset=["lat"])
        self.assertEqual(batch.positions(placed["lat_e7"], placed["lon_e7"])["lon_num"][0], 80_000_831)
        nowhere, (lat, lon) = (0, 0, 0, 0), ([5, None, 6, 7], [8, 9, None, 1])
        wanted = [(5, 10**7, 8, 10**7), nowhere, nowhere, (7, 10**7, 1, 10**7)]
        for kind in ("Int64", "Int32", object):
            given = (pandas.array(part, kind) for part in (lat, lon))
            self.assertEqual(batch.positions(*given).tolist(), wanted, kind)
        self.assertEqual(batch.positions(lat, lon).tolist(), wanted)
        self.assertEqual(batch.positions(pandas.array([None], "Int64"), [3]).tolist(), [nowhere])
        for wrong in (pandas.array([0.5, None], "Float64"), [True, None], ["1", None], [1 << 63, None]):
            with self.assertRaisesRegex(ValueError, "^lat_e7 are a list or an array of whole numbers of 64 bits"):
                batch.positions(wrong, [1, 2])

    def test_tables(self) -> None:
        """A table with moments and frames, of which some are missing; exact fractions behind."""
        dates = pandas.to_datetime([0, None, 400], unit="ms")
        rows = {"moment": dates, "frame": [ODD, EVEN, EVEN]}
        for source in (rows, pandas.DataFrame(rows), {**rows, "moment": pandas.array([0, None, 400], "Int64")}):
            frame = batch.dataframe(source, exact=True)
            self.assertEqual(frame["answer"].tolist(), ["waiting", "bad moment", "fix"])
            self.assertEqual(frame["line"].tolist(), [1, 2, 3])
            self.assertEqual(frame["fault"].tolist(), [0, Code.BAD_MOMENT, 0])
            self.assertEqual(list(frame.columns)[-2:], ["lat_exact", "lon_exact"])
            self.assertEqual(frame["lat_exact"].tolist(), [None, None, Fraction(428091, 8192)])
            self.assertEqual(frame["lon_exact"].tolist(), [None, None, Fraction(64215, 16384)])
            self.assertEqual(frame["address"].tolist(), ["40621D", None, "40621D"])
        empty = batch.dataframe({"moment": [], "frame": []}, exact=True)
        self.assertEqual((len(empty), len(empty.columns)), (0, 13))
        # As many results as a call writes, one less and one more. The last line has a line feed or none.
        for count in (8191, 8192, 8193, 16384, 16385):
            for end in (b"", b"\n"):
                many = batch.dataframe(io.BytesIO(b"\n".join([b"5 " + EVEN.encode()] * count) + end), limit=None)
                self.assertEqual(many["line"].tolist(), list(range(1, count + 1)))
                self.assertEqual(set(many["answer"]), {"waiting"})
        limited = {"moment": [0, 0], "frame": [ODD, squitter.frame_text(squitter.encode(AirHead(5), Position(0, 0)))]}
        self.assertEqual(batch.dataframe(limited, limit=1)["answer"].tolist(), ["waiting", "table full"])
        apart = {"moment": [0, 11], "frame": [ODD, EVEN]}
        self.assertEqual(batch.dataframe(apart, 10)["answer"].tolist(), ["waiting", "waiting"])
        for table in ({"moment": []}, {"frame": [], "time": []}, pandas.DataFrame({"frame": [ODD]})):
            names = ", ".join(table.keys())
            with self.assertRaisesRegex(KeyError, f"moment and frame, not a table with the columns {names}"):
                batch.dataframe(table)
        for table, name in (({}, "dict"), (pandas.DataFrame(), "DataFrame")):
            with self.assertRaisesRegex(KeyError, f"moment and frame, not a {name} without columns'$"):
                batch.dataframe(table)
        for table in (5, [1, 2], None):
            with self.assertRaisesRegex(TypeError, f"columns moment and frame, not {type(table).__name__}"):
                batch.dataframe(table)
        with self.assertRaisesRegex(TypeError, "open for bytes"):
            batch.dataframe(io.StringIO("5 x\n"))
        self.assertEqual(len(batch.dataframe(pandas.DataFrame({"moment": [], "frame": []}))), 0)
        with self.assertRaises(FileNotFoundError):
            batch.dataframe("/nonesuch")
        for wrong in ({"limit": 0}, {"limit": 1 << 32}, {"window": -1}):
            with self.assertRaises(ValueError):
                batch.dataframe(self.log, **wrong)
        with self.assertRaises(TypeError):
            batch.dataframe(io.StringIO("5 x"))
        with self.assertRaises(squitter.Fault):
            batch.dataframe(self.log, site=Position(91, 0))


class Results(unittest.TestCase):
    """Results and faults that a caller made or changed."""

    calls = (batch.lines, lambda *given: batch.csv_rows([0], *given), lambda *given: batch.columns([0], *given))

    def test_neither_result_nor_fault(self) -> None:
        """A line needs a result or a fault."""
        wrongs = (("what", 0, "from 1 to 7"), ("what", 8, "from 1 to 7"), ("what", 99, "from 1 to 7"),
                  ("kind", 3, "from 0 to 2"), ("address", 1 << 24, "from 0 to 16777215"))
        for call in self.calls:
            with self.assertRaisesRegex(ValueError, "^line 1 has no fault, so its what is from 1 to 7, not 0; track "):
                call(np.zeros(1, batch.TRACKED), np.zeros(1, batch.FAULT))
            for name, wrong, wanted in wrongs:
                heard, faults = batch.track([0], [ODD])
                heard[name] = wrong
                with self.assertRaisesRegex(ValueError, f"line 7 has no fault, so its {name} is {wanted}, not {wrong}"):
                    call(heard, faults, 7)

    def test_records_of_refused_lines(self) -> None:
        """The record of a refused line may have any value, because `track` does not write it in a caller's array."""
        out = np.frombuffer(b"\xff" * (3 * batch.TRACKED.itemsize), batch.TRACKED).copy()
        given = batch.track([0, 1, 2], [ODD, "*", EVEN], out=out)
        self.assertEqual(int(out["what"][1]), 255)
        self.assertEqual(batch.lines(*given), b"1 waiting 40621D\n2 bad wrapping\n3 fix 40621D 52.2572021 3.9193726\n")
        self.assertEqual(batch.csv_rows([0, 1, 2], *given).splitlines()[1], b"2,,bad wrapping,,,,,")
        columns = batch.columns([0, 1, 2], *given)
        self.assertEqual(columns["answer"].tolist(), ["waiting", "bad wrapping", "fix"])
        self.assertEqual(columns["kind"].tolist(), ["air", None, "air"])


if __name__ == "__main__":
    unittest.main()
