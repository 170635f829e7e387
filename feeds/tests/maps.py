"""squitter-geojson: maps of what track answered, read again by readers that are not ours."""
from __future__ import annotations

import json
import os
import re
import shutil
import subprocess
import tempfile
import xml.etree.ElementTree as ElementTree
from typing import Any, Dict, List, Tuple

from process import SITE, TOP, program
from trying import BUFFERED, UNBUFFERED, Missing, expect, same

MAPS = f"{TOP}/feeds/squitter-geojson"
LOG = f"{TOP}/examples/flights.log"
KML = {"": "http://www.opengis.net/kml/2.2", "gx": "http://www.google.com/kml/ext/2.2"}


def answers() -> str:
    with open(LOG, "rb") as log:
        return subprocess.run([program(), "track", *SITE], stdin=log, stdout=subprocess.PIPE).stdout.decode()


def drawn(log: str, text: str, *words: str) -> Tuple[int, str, str]:
    """The status, the map and the report of answers to a log, both given as texts. No speed is too fast."""
    with tempfile.TemporaryDirectory() as work:
        with open(f"{work}/log", "w") as file:
            file.write(log)
        told = [MAPS, f"{work}/log", "--speed=0", *words]
        done = subprocess.run(told, input=text, capture_output=True, text=True, timeout=60)
    return done.returncode, done.stdout, done.stderr


def features(text: str) -> Dict[str, Any]:
    found = json.loads(text, parse_float=str)
    same((sorted(found), found["type"]), (["features", "type"], "FeatureCollection"))
    return {one["properties"]["address"]: one for one in found["features"]}


def lines_of(one: Any) -> List[List[List[Any]]]:
    """The lines of a feature, each position with its moment."""
    shape, moments = one["geometry"]["coordinates"], one["properties"]["moment"]
    kind = one["geometry"]["type"]
    if kind == "LineString":
        shape, moments = [shape], [moments]
    elif kind == "Point":
        shape, moments = [[shape]], [[moments]]
    same([len(part) for part in shape], [len(part) for part in moments], "moments beside coordinates")
    return [[[*place, moment] for place, moment in zip(*both)] for both in zip(shape, moments)]


def log_of_places(*places: Tuple[int, str, str, str]) -> Tuple[str, str]:
    """A log and its answers, by hand: moment, address, latitude and longitude of each place."""
    log = "".join(f"{moment} 8D{address}{'0' * 20}\n" for moment, address, _, _ in places)
    text = "".join(f"{number} fix {row[1]} {row[2]} {row[3]}\n" for number, row in enumerate(places, 1))
    return log, text


def flights() -> None:
    """The log of the examples: each place as it was answered, with its moment, in lines that end at 180 degrees."""
    text = answers()
    with open(LOG) as file:
        log = file.read().splitlines()
    wanted: Dict[str, List[List[Any]]] = {}
    for number, word, *rest in (line.split() for line in text.splitlines()):
        if word in ("fix", "followed"):
            moment = int(log[int(number) - 1].split()[0])
            wanted.setdefault(rest[0], []).append([rest[2], rest[1], moment])
    found = features(drawn("\n".join(log), text)[1])
    same(list(found), list(wanted))
    crossings = 0
    for address, one in found.items():
        lines = lines_of(one)
        same(one["properties"]["places"], len(wanted[address]))
        crossings += sum(abs(float(line[0][0])) == 180 for line in lines)
        kept = [place for line in lines for place in line if abs(float(place[0])) != 180]
        same(kept, wanted[address], address)
        for line in lines:
            for before, after in zip(line, line[1:]):
                expect(abs(float(before[0]) - float(after[0])) < 180 and after[2] - before[2] <= 10_000, before, after)
    expect(crossings == 1, crossings, "lines begin at 180 degrees")


COLUMNS = ["line", "moment", "answer", "address", "kind", "lat", "lon", "feet"]
HEADER = ",".join(COLUMNS) + "\n"
GOOD = "1,0,fix,40621D,air,52.0000000,4.0000000,-25\n"
OF_JSON = dict(zip(COLUMNS, (1, 0, "fix", "40621D", "air", 52.5, 4, 75)))


def of_rows(text: str, *words: str) -> Tuple[int, str, str]:
    """The status, the map and the report of rows. No speed is too fast."""
    return watched(text, "--speed=0", *words)


def watched(text: str, *words: str) -> Tuple[int, str, str]:
    """The status, the map and the report of rows, whose doubtful places are told."""
    done = subprocess.run([MAPS, "-", *words], input=text.encode(), capture_output=True, timeout=60)
    return done.returncode, done.stdout.decode(), done.stderr.decode()


def without(text: str, *names: str) -> Any:
    """A map without some properties."""
    found = json.loads(text, parse_float=str)
    for one in found["features"]:
        for name in names:
            one["properties"].pop(name, None)
    return found


def rows() -> None:
    """Of rows in either form the map is that of the lines, with kinds and altitudes; there it needs no log."""
    with open(LOG) as file:
        log = file.read()
    wanted = drawn(log, answers())
    same(wanted[0], 0)
    for form in ("csv", "json"):
        with open(LOG, "rb") as given:
            words = [program(), "track", f"--format={form}", *SITE]
            told = subprocess.run(words, stdin=given, stdout=subprocess.PIPE).stdout.decode()
        for text in (told, told.replace("\n", "\r\n")):
            status, drawing, said = of_rows(text)
            same((status, said), (0, ""), form)
            same(without(drawing, "kind", "feet"), json.loads(wanted[1], parse_float=str), form)
    table = HEADER + ("1,0,fix,40621D,air,52.0000000,179.9999999,-25\n2,1,waiting,40621D,air,,,\n"
                      "3,9,followed,40621D,air,52.0000002,-179.9999999,\n4,,bad moment,,,,,\n")
    one = features(of_rows(table)[1])["40621D"]
    same(one["geometry"]["type"], "MultiLineString")
    same(list(one["properties"]), ["line", "moment", "answer", "address", "kind", "feet", "places"])
    same(one["properties"], {
        "line": [[1, None], [None, 3]], "moment": [[0, 5], [5, 9]], "answer": [["fix", None], [None, "followed"]],
        "address": "40621D", "kind": [["air", None], [None, "air"]], "feet": [[-25, None], [None, None]], "places": 2})
    same(drawn(table, "", "-")[0], 2)
    same(list(features(of_rows(HEADER + GOOD[:-4] + "\n")[1])["40621D"]["properties"]),
         ["line", "moment", "answer", "address", "kind", "places"], "no altitude")
    for text in (HEADER, ""):
        same((of_rows(text)[0], json.loads(of_rows(text)[1])["features"]), (0, []))


def columns() -> None:
    """Columns are found by their names, in any order and among others; members of JSON too."""
    wanted = features(of_rows(HEADER + GOOD)[1])["40621D"]
    cells = dict(zip(COLUMNS, GOOD.strip().split(",")))
    orders = [COLUMNS[::-1], COLUMNS[3:] + COLUMNS[:3], ["x", *COLUMNS, "lat_e7", "fault"]]
    for order in orders:
        for end in ("\n", "\r\n"):
            text = ",".join(order) + end + ",".join(cells.get(name, "a b") for name in order) + end
            same(features(of_rows(text)[1])["40621D"], wanted, order)
            same(features(of_rows(f"\ufeff{text}")[1])["40621D"], wanted, "a mark of UTF-8")
    quoted = 'note,"' + '","'.join(COLUMNS) + '"\n"two\nlines","' + '","'.join(cells.values()) + '"\n'
    same(features(of_rows(quoted)[1])["40621D"], wanted, "quotes")
    for names in (["line"], ["kind", "feet"], ["line", "kind", "feet"]):
        left = [name for name in COLUMNS if name not in names]
        status, drawing, said = of_rows(",".join(left) + "\n" + ",".join(cells[name] for name in left) + "\n")
        same((status, said), (0, ""), names)
        same(list(features(drawing)["40621D"]["properties"]),
             [name for name in [*COLUMNS[:5], "feet", "places"] if name not in names])
    same(of_rows(HEADER.replace(",", " , ") + GOOD), of_rows(HEADER + GOOD), "spaces in the header")
    expect("the header has no moment, answer, address, lat, lon; " in of_rows("kind,feet\nair,5\n")[2], "two columns")
    for name in ("moment", "answer", "address", "lat", "lon"):
        left = [other for other in COLUMNS if other != name]
        status, drawing, said = of_rows(",".join(left) + "\n" + ",".join(cells[other] for other in left) + "\n")
        same((status, drawing), (1, ""), name)
        expect(f"has no {name}; expected {HEADER.strip()}" in said, said)
        row = {other: value for other, value in OF_JSON.items() if other != name}
        same(of_rows(json.dumps(row) + "\n")[:2], (1, ""), "JSON without", name)
    for row in (dict(reversed(OF_JSON.items())), {"x": [1], **OF_JSON}, {**OF_JSON, "y": None}):
        got = features(of_rows(json.dumps(row) + "\n")[1])["40621D"]
        same(got["geometry"]["coordinates"], ["4.0000000", "52.5000000"], row)
        same(got["properties"]["feet"], 75)


def foreign() -> None:
    """A file that has neither rows nor a log says what was expected; a row that is none of track's is named."""
    for text in ("id;moment\n", "time,icao24,rawmsg\n1.5,x,8D\n", GOOD, "x\n" * 200, "\xff\x00\n", "1,0,fix\n"):
        for given in (of_rows(text), drawn(text, "")):
            expect(given[:2] == (1, "") and HEADER.strip() in given[2] and "Traceback" not in given[2], text, given)
    same(drawn("x\n" * 99 + f"5 8D40621D{'0' * 20}\n", "")[0], 0, "a log whose first lines are damaged")
    same(drawn("x\n" * 100 + f"5 8D40621D{'0' * 20}\n", "")[0], 1, "a log whose first lines are all damaged")
    bad_cells = {
        "lat": ["", "x", "90.0000001", "-90.0000001", "1234", "1.12345678", "\u0665.0000000", "1e1", "nan",
                "9" * 400],
        "lon": ["", "180.0000001", "-180.0000001", "+1"], "moment": ["", "-1", "1.5", "1" * 21, "\u0665"],
        "address": ["", "x", "40621d", "40621DD"], "kind": ["x"], "feet": ["high", "1.5", "1234567"],
        "line": ["x", "-1"],
        "answer": ["", "x", "Fix", "bad", "fixed", "parity 12", "moment back"],
    }
    cells = dict(zip(COLUMNS, GOOD.strip().split(",")))
    rows = [",".join({**cells, name: cell}.values()) + "\n" for name, bad in bad_cells.items() for cell in bad]
    rows += ["1,0,fix\n", "\n", GOOD.strip() + ",x\n", '"' + "x" * 200_000 + '"\n', "1,0,fix,40621D,air,52,4\n"]
    for row in rows:
        for before in (0, 2):
            status, text, report = of_rows(HEADER + GOOD * before + row)
            expect((status, text) == (1, "") and f"row {before + 1} is no answer of track" in report, row, report)
    for name, cell in (("lat", "90.0000000"), ("lat", "-90"), ("lon", "-180.0000000"), ("lon", "180"), ("feet", ""),
                       ("kind", ""), ("line", ""), ("lat", "5.1"), ("moment", "9" * 20), ("kind", "ground")):
        same(of_rows(HEADER + ",".join({**cells, name: cell}.values()) + "\n")[0], 0, name, cell)
    for answer in ("waiting", "split", "far", "no site", "no position", "bad wrapping", "short frame",
                   "bad length 70", "bad digit 10", "not DF17 11", "parity 0000FF", "long line", "bad moment",
                   "moment back 5", "table full"):
        same(of_rows(f"{HEADER}1,,{answer},,,,,\n")[0], 0, answer)


def as_floats() -> None:
    """A table that pandas has written gives the same map: whole numbers as floats, degrees without trailing zeros."""
    rows = [("1", "0", "fix", "40621D", "air", "52.2572021", "3.9193726", "38000"),
            ("2", "400", "followed", "40621D", "air", "52.5000000", "-0.0000004", "-25"),
            ("3", "500", "followed", "40621E", "", "0.0000000", "4.0000000", "")]
    as_track = HEADER + "".join(f"{','.join(row)}\n" for row in rows)
    wanted = of_rows(as_track)
    same((wanted[0], wanted[2]), (0, ""))
    as_pandas = (HEADER + "1.0,0.0,fix,40621D,air,52.2572021,3.9193726,38000.0\n"
                 "2.0,400.0,followed,40621D,air,52.5,-4e-07,-25.0\n3.0,500.0,followed,40621E,,0.0,4.0,\n")
    same(of_rows(as_pandas), wanted)
    same(of_rows(as_pandas.replace("52.2572021", "52.257202099999995")), wanted, "another float than the nearest")
    mixed = as_pandas.splitlines(True)[:2] + as_track.splitlines(True)[2:]
    same(of_rows("".join(mixed)), wanted, "some of both")
    same(of_rows(as_pandas.replace("\n", "\r\n")), wanted)
    same(of_rows(as_pandas[:-1]), wanted, "no last line feed")
    same(of_rows(as_pandas.replace(",fix,", ',"fix",')), wanted, "quotes")
    in_front = (HEADER + "01,000,fix,40621D,air,052.2572021,03.9193726,038000\n"
                "002,0400,followed,40621D,air,052.5000000,-00.0000004,-025\n"
                "3,500,followed,40621E,,-0.0000000,4.0000000,\n")
    same(of_rows(in_front), wanted, "zeros in front")
    spelled = {"line": ("1", "01", "1.0"), "moment": ("0", "00", "0.0"), "feet": ("-25", "-025", "-25.0"),
               "lat": ("52.0000000", "052.0000000", "52"), "lon": ("4.0000000", "004.0000000", "4.0")}
    for name, cells in spelled.items():
        rows = [",".join({**dict(zip(COLUMNS, GOOD.strip().split(","))), name: cell}.values()) + "\n" for cell in cells]
        same([of_rows(HEADER + row) for row in rows], [of_rows(HEADER + GOOD)] * 3, name)
    late = GOOD.replace(",0,", f",{10**20 - 1},")
    same(of_rows(HEADER + late.replace("9,fix", "9.0,fix")), of_rows(HEADER + late), "the longest timestamp as a float")
    many = of_rows(HEADER + GOOD.replace("fix", '"fix"') + GOOD * 3000)
    same(features(many[1])["40621D"]["properties"]["places"], 3001, "rows after a quote")
    for cell, feet in (("-0", 0), ("0", 0), ("-000025", -25), ("999999", 999_999), ("-999999", -999_999)):
        same(features(of_rows(HEADER + GOOD.replace("-25", cell))[1])["40621D"]["properties"]["feet"], feet, cell)
    zero = features(of_rows(HEADER + GOOD.replace("52.0000000,4.0000000", "0.0000000,-0.0000000"))[1])["40621D"]
    same(zero["geometry"]["coordinates"], ["0.0000000", "0.0000000"])


def named() -> None:
    """The message for an invalid row has its number, the column, the cell and what is expected, wherever the row is."""
    cells = dict(zip(COLUMNS, GOOD.strip().split(",")))
    bad = [("feet", "500.5", "a whole number of at most 6 digits"), ("feet", "1000000", "at most 6 digits"),
           ("feet", "-1000000.0", "at most 6 digits"), ("line", "1.5", "a whole number from 0 of at most 20 digits"),
           ("moment", "-1", "from 0"), ("lat", "90.0000001", "degrees from -90 to 90 of at most seven decimals"),
           ("lon", "1.00000001", "degrees from -180 to 180"), ("lon", "4e7", "degrees"), ("lat", "1e-0x", "degrees"),
           ("address", "40621d", "six hexadecimal digits in upper case"), ("kind", "Air", "air, ground or nothing"),
           ("answer", "FIX", "an answer of track")]
    for before in (0, 1, 2000, 5000):
        for name, cell, wanted in bad if before < 2 else bad[:1] + bad[-1:]:
            text = HEADER + GOOD * before + ",".join({**cells, name: cell}.values()) + "\n" + GOOD * 3
            status, printed, said = of_rows(text)
            told = f"row {before + 1} is no answer of track: {name} is {cell!r}, expected "
            expect((status, printed) == (1, "") and told in said and wanted in said, text[-200:], said)
            expect(said.count("\n") == 1, said)
    for text, cell in ((GOOD.strip() + ",x\n", 9), ("1,0\n", 2), ("\n", 0), ("1,0,waiting,40621D,air,,\n", 7),
                       ("1,0,waiting,40621D,air,,,,\n", 9)):
        said = of_rows(HEADER + GOOD + text + GOOD)[2]
        told = f"row 2 is no answer of track: it has {cell} cells, expected 8: {HEADER.strip()}"
        expect(told in said, said)
    said = of_rows(HEADER + GOOD.replace("fix", '"fix"') * 5000 + "\n")[2]
    expect("row 5001 is no answer of track: it has 0 cells" in said, "rows with quotes", said)
    same(of_rows(HEADER + GOOD + "1,0,fix,40621D,air,52,4\n" + GOOD.strip() + ",x\n")[0], 1, "one less and one more")
    big = GOOD.replace(",0,", f",{10**20 - 1},", 1)
    found = features(of_rows(HEADER + GOOD * 3 + big + GOOD)[1])["40621D"]
    same(found["properties"]["moment"][0][:3] + found["properties"]["moment"][1], [0, 0, 0, 10**20 - 1, 0])


def small() -> None:
    """A position takes some 40 bytes, and a row without a position takes none."""
    rows = 100_000
    usual = "".join(f"{n},{n},fix,{n % 50:06X},air,52.0000000,4.{n % 10**7:07d},-25\n" for n in range(rows))
    waiting, more = ("".join(f"{n},{n},waiting,{n % 50:06X},air,,,-25\n" for n in range(times * rows))
                     for times in (1, 3))
    took = []
    for text in (waiting, more, usual):
        words = ["/usr/bin/env", "python3", "-c", MEASURED, MAPS]
        done = subprocess.run(words, input=(HEADER + text).encode(), stdout=subprocess.PIPE, check=True)
        took.append(int(done.stdout))
    # (buffers are the same for all; the rows that are more have 5,600 kilobytes)
    expect(took[1] - took[0] < 2_000, "kilobytes of rows without a place:", took)
    expect(took[2] - took[0] < 12_000, "kilobytes of places:", took)


MEASURED = """import resource, subprocess, sys
subprocess.run([sys.argv[1], "-"], stdout=subprocess.DEVNULL, check=True)
print(resource.getrusage(resource.RUSAGE_CHILDREN).ru_maxrss)"""


def foreign_objects() -> None:
    """Rows of JSON that are none of track's are named."""
    texts = [json.dumps({**OF_JSON, name: value}) for name, value in (
        ("lat", True), ("address", ["x"]), ("lat", "\u0665.0"), ("answer", None), ("answer", 5), ("feet", {}),
        ("moment", -1), ("lon", 1e300), ("lat", float("nan")), ("line", False))]
    texts += ['{"line":1,"moment":0,"answer":"waiting","address":"40621D"}']
    texts += ['{"line":1}', '{"line":1', "null", "[]", "{}", '{"x":' + "[" * 200_000, "5", "\xff", ""]
    for text in texts:
        status, printed, said = of_rows(json.dumps(OF_JSON) + f"\n{text}\n")
        expect((status, printed) == (1, "") and "row 2 is no answer of track" in said, text[:50], said)
        status, printed, said = of_rows(f"{text}\n")
        expect(status == 1 and not printed and "Traceback" not in said, text[:50], said)
    same(of_rows(json.dumps({**OF_JSON, "feet": None, "line": None}) + "\n")[0], 0)
    told = "it is no object of JSON with moment, answer, address, lat, lon, each a number, a text or null"
    for text in ('{"line":1}', json.dumps({**OF_JSON, "lat": float("nan")}), json.dumps({**OF_JSON, "kind": True}), ""):
        said = of_rows(json.dumps(OF_JSON) + f"\n{text}\n")[2]
        same(said, f"squitter-geojson: row 2 is no answer of track: {told}\n", text)
    expect("row 1 is no answer of track: it has 0 cells" in of_rows(f"{HEADER}\n")[2], "an empty row of CSV")


def cut() -> None:
    """Lines that are cut at 180 degrees, both ways, with the point between, and where an aircraft fell silent."""
    log, text = log_of_places(
        (0, "4B1001", "10.0000000", "179.9000000"), (3000, "4B1001", "13.0000000", "-179.8000000"),
        (6000, "4B1001", "10.0000000", "179.9000000"), (16_001, "4B1001", "10.0000000", "179.8000000"),
        (16_002, "4B1001", "-0.0000001", "179.7000000"), (16_003, "A00002", "-33.9000000", "-0.5000000"),
    )  # fmt: skip
    found = features(drawn(log, text)[1])
    east, west = ["180.0000000", "11.0000000", 1000], ["-180.0000000", "11.0000000", 1000]
    back_west, back_east = ["-180.0000000", "11.0000000", 5000], ["180.0000000", "11.0000000", 5000]
    start, far = ["179.9000000", "10.0000000"], ["-179.8000000", "13.0000000", 3000]
    last = [["179.8000000", "10.0000000", 16_001], ["179.7000000", "-0.0000001", 16_002]]
    same(lines_of(found["4B1001"]), [[[*start, 0], east], [west, far, back_west], [back_east, [*start, 6000]], last])
    same(found["A00002"]["geometry"], {"type": "Point", "coordinates": ["-0.5000000", "-33.9000000"]})
    same(found["A00002"]["properties"]["moment"], 16_003)
    same(len(lines_of(features(drawn(log, text, "--silence=10001")[1])["4B1001"])), 3, "--silence")
    log, text = log_of_places((0, "4B1001", "0.0000000", "179.0000000"), (2, "4B1001", "0.0000000", "-179.0000000"))
    same([line[at] for line, at in zip(lines_of(features(drawn(log, text)[1])["4B1001"]), (1, 0))],
         [["180.0000000", "0.0000000", 1], ["-180.0000000", "0.0000000", 1]], "on the equator")
    for gap, east, at in ((10_000, "179.0000000", ("11.0000000", 5000)), (2, "180.0000000", ("10.0000000", 0))):
        west = f"-{east}"
        log, text = log_of_places((0, "4B1001", "10.0000000", east), (gap, "4B1001", "12.0000000", west))
        lines = lines_of(features(drawn(log, text)[1])["4B1001"])
        same((lines[0][1], lines[1][0]), (["180.0000000", *at], ["-180.0000000", *at]), gap, east)
    same(features(drawn("", "")[1]), {}, "nothing")


def rows_of(*places: Tuple[int, str, str]) -> str:
    """Rows of one aircraft: moment, latitude and longitude of each place."""
    return HEADER + "".join(f",{moment},fix,4B1001,,{lat},{lon},\n" for moment, lat, lon in places)


def doubted(text: str, *words: str) -> Any:
    """Which places of an aircraft are doubtful, each in its line, or None, and how many are for each reason."""
    status, drawing, said = watched(text, *words)
    same(status, 0, said)
    counts = [int(count) for count in re.findall(r"(\d+) positions? (?:more than|reached)", said)]
    same(said.count("\n"), 1 if counts else 0, said)
    return features(drawing)["4B1001"]["properties"].get("doubtful"), counts


def doubts_at_borders() -> None:
    """Places at the range and at the speed are true, and those just beyond are doubtful. Computed by hand: 60 nautical
    miles are a degree of latitude, and as many as the zone count, 59 at the equator, are a degree of longitude."""
    site = ("--lat=0", "--lon=0")
    for lat, lon, reach, is_far in (
        ("1.0000000", "0.0000000", 60, False), ("-1.0000001", "0.0000000", 60, True),
        ("1.0000001", "0.0000000", 61, False), ("0.0000000", "-1.0000000", 59, False),
        ("0.0000000", "1.0000001", 59, True), ("5.0000000", "0.0000000", 300, False),
        ("5.0000001", "0.0000000", None, True), ("90.0000000", "180.0000000", 0, False),
    ):
        words = [*site, *([] if reach is None else [f"--range={reach}"])]
        wanted = (True, [1]) if is_far else (None, [])
        same(doubted(rows_of((5, lat, lon)), *words), wanted, lat, lon, reach)
    # within a second 3,600 knots are a nautical mile, and one more is allowed: two are 0.0333333.. degrees
    for gap, lat, speed, is_fast in ((1000, "0.0333333", 3600, False), (1000, "0.0333334", 3600, True),
                                     (1000, "0.0333334", 0, False), (0, "0.0166666", 3600, False),
                                     (0, "0.0166667", 3600, True), (-5, "0.0166667", 3600, True),
                                     (3600, "0.0499999", None, False), (3600, "0.0500001", None, True)):
        words = [] if speed is None else [f"--speed={speed}"]
        text = rows_of((10, "0.0000000", "0.0000000"), (10 + gap, lat, "0.0000000"))
        same(doubted(text, *words), ([[False, False], [True, True]] if is_fast else None, [1] if is_fast else []), lat)
    near = rows_of((7, "0.0000000", "179.9999999"), (7, "0.0000000", "-179.9999999"))
    same(doubted(near), (None, []), "the shorter way round")
    polar = rows_of((7, "89.9000000", "0.0000000"), (7, "89.9000000", "180.0000000"))
    same(doubted(polar, "--lat=88", "--lon=-90"), (None, []), "where the zone count is 1, longitudes are not compared")
    late = rows_of((2**64 - 1, "0.0000000", "0.0000000"), (10**20 - 1, "0.0166666", "0.0000000"))
    same(doubted(late), (None, []), "timestamps of 20 digits")
    late = rows_of((10**20 - 2, "0.0000000", "0.0000000"), (10**20 - 1, "80.0000000", "0.0000000"))
    same(doubted(late), ([[False, False], [True, True]], [1]), "timestamps above those of a log are the last one")


def doubts_told() -> None:
    """An exchanged site, seconds for milliseconds, and two aircraft with one address: no line joins a doubtful place,
    and it is counted and told."""
    pair = rows_of((500, "52.2657802", "3.9389125"))
    same(doubted(pair, "--lat=52.31", "--lon=4.76"), (None, []))
    same(doubted(pair, "--lat=4.76", "--lon=52.31"), (True, [1]))
    # half a nautical mile in a second is 1,800 knots, and in a millisecond it is not
    seconds = rows_of(*((second, f"{second / 60:.7f}", "4.0000000") for second in range(3)))
    same(doubted(seconds), (None, []), "a mile more is allowed")
    seconds = rows_of(*((second, f"{second / 30:.7f}", "4.0000000") for second in range(3)))
    same(doubted(seconds), ([[False, False], [True, True], [True, True]], [2]))
    both = rows_of((0, "1.0000000", "2.0000000"), (1, "1.0000000", "2.0000001"), (2, "50.0000000", "-100.0000000"),
                   (3, "1.0000000", "2.0000002"), (4, "1.0000000", "2.0000003"))
    status, drawing, said = watched(both, "--lat=1", "--lon=2", "--range=100")
    one = features(drawing)["4B1001"]
    same(one["properties"]["doubtful"], [[False, False], [True, True], [True, True], [False, False]])
    same([[place[0] for place in line] for line in one["geometry"]["coordinates"]],
         [["2.0000000", "2.0000001"], ["-100.0000000"] * 2, ["2.0000002"] * 2, ["2.0000003"] * 2])
    same(one["properties"]["places"], 5)
    same(said, "squitter-geojson: doubtful: 1 position more than 100 nautical miles from the site and 2 positions "
               "reached faster than 2000 knots; are the timestamps milliseconds, is --lat the latitude, or have two "
               "aircraft one address?\n")
    across = watched(rows_of((5, "1.0000000", "179.0000000"), (6, "1.0000000", "-100.0000000")))[1]
    same(features(across)["4B1001"]["geometry"]["coordinates"],
         [[["179.0000000", "1.0000000"]] * 2, [["-100.0000000", "1.0000000"]] * 2], "no line to 180 degrees")
    drawing = watched(both, "--kml")[1]
    expect("<description>5 places, 2 doubtful</description>" in drawing and drawing.count("<gx:Track>") == 4, drawing)


def doubts_refused() -> None:
    """Half a site, a range without one, and words that are no numbers have status 2. Without the library nothing is
    doubted, and words that ask for it are refused."""
    for words, told in (
        (["--lat=5"], "site needs lat and lon"), (["--lon=5"], "site needs lat and lon"),
        (["--range=5"], "--range needs a site, --lat and --lon"), (["--speed=1e3"], "--speed: 1e3 is no whole number"),
        (["--lat=5", "--lon=5", "--range=-1"], "--range: -1 is no whole number of at most 9 digits"),
        (["--speed=1000000000"], "--speed: 1000000000 is no whole number of at most 9 digits"),
        (["--lat=x", "--lon=5"], "not a number"), (["--lat=91", "--lon=5"], "bad position"),
    ):
        status, drawing, said = watched(HEADER + GOOD, *words)
        expect((status, drawing) == (2, "") and told in said and "Traceback" not in said, words, said)
    same(watched(HEADER + GOOD, "--speed=999999999", "--lat=52", "--lon=4", "--range=999999999")[0], 0)
    without = {**os.environ, "LIBSQUITTER": "/nonesuch"}
    far = rows_of((0, "0.0000000", "0.0000000"), (1, "50.0000000", "0.0000000")).encode()
    for words, status in (([], 0), (["--speed=5"], 2), (["--lat=5", "--lon=5"], 2)):
        done = subprocess.run([MAPS, "-", *words], input=far, capture_output=True, env=without, timeout=60)
        expect(done.returncode == status and b"Traceback" not in done.stderr and b"doubtful" not in done.stdout, words)
        expect(b"need libsquitter" in done.stderr if status else not done.stderr, words, done)


def one_place() -> None:
    """A line that stays at one place has it twice; places half a turn apart are not cut, and more than that are."""
    log, text = log_of_places((0, "4B1001", "1.0000000", "2.0000000"), (20_000, "4B1001", "1.0000000", "3.0000000"),
                              (21_000, "4B1001", "1.0000000", "4.0000000"))
    one = features(drawn(log, text)[1])["4B1001"]
    same(one["geometry"]["coordinates"][0], [["2.0000000", "1.0000000"]] * 2)
    same((one["properties"]["moment"][0], one["properties"]["line"][0]), ([0, 0], [1, 1]))
    same(one["properties"]["places"], 3)
    for east, kind in (("89.9999999", "LineString"), ("90.0000000", "LineString"), ("90.0000001", "MultiLineString")):
        log, text = log_of_places((0, "4B1001", "1.0000000", "-90.0000000"), (1, "4B1001", "1.0000000", east))
        same(features(drawn(log, text)[1])["4B1001"]["geometry"]["type"], kind, east)


def many_answers() -> None:
    """Each of thousands of answers, as rows and beside their log, has its place. One that is wrong has its number."""
    places = [(1000 * k, f"{0x400000 + k % 7:06X}", f"{k % 90}.0000000", "1.0000000") for k in range(9000)]
    log, text = log_of_places(*places)
    rows = HEADER + "".join(f"{line},{moment},fix,{address},,{lat},{lon},\n"
                            for line, (moment, address, lat, lon) in enumerate(places, 1))
    for drawing in (drawn(log, text), of_rows(rows)):
        same((drawing[0], drawing[2]), (0, ""))
        for address, one in features(drawing[1]).items():
            wanted = [[lon, lat, moment] for moment, of, lat, lon in places if of == address]
            same(lines_of(one), [wanted], address)
            same(one["properties"]["line"], [moment // 1000 + 1 for _, _, moment in wanted])
    for number in (1, 4096, 4097, 9000):
        lines = text.splitlines(True)
        lines[number - 1] = lines[number - 1].replace(".0000000 1.", ".0000000 181.")
        told = f"row {number} is no answer of track: lon is '181.0000000', expected degrees from -180 to 180"
        status, printed, said = drawn(log, "".join(lines))
        expect((status, printed) == (1, "") and told in said, number, said)


def date_of(moment: int) -> str:
    """A moment of the first hour of 1970."""
    return f"1970-01-01T00:{moment // 60_000:02d}:{moment % 60_000 / 1000:06.3f}Z"


def kml() -> None:
    """KML: the same lines, and moments as dates."""
    text = answers()
    with open(LOG) as file:
        log = file.read()
    lines = {address: lines_of(one) for address, one in features(drawn(log, text)[1]).items()}
    root = ElementTree.fromstring(drawn(log, text, "--kml")[1])
    found = {}
    for mark in root.iterfind(".//Placemark", KML):
        parts = []
        for track in mark.iterfind(".//gx:Track", KML):
            dates = [when.text for when in track.iterfind("when", KML)]
            points = [(point.text or "").split()[:2] for point in track.iterfind("gx:coord", KML)]
            parts.append([[*point, date] for point, date in zip(points, dates)])
        found[mark.findtext("name", "", KML)] = parts
    wanted = {
        address: [[[*place[:2], date_of(int(place[2]))] for place in part] for part in parts]
        for address, parts in lines.items()
    }
    same(found, wanted)
    for moment, wanted in ((2**64 - 1, "9999-12-31T23:59:59.999Z"), (200_000_000_000_000, "8307-10-01T19:33:20.000Z"),
                           (253_402_300_799_999, "9999-12-31T23:59:59.999Z"), (0, "1970-01-01T00:00:00.000Z"),
                           (253_402_300_799_998, "9999-12-31T23:59:59.998Z")):
        drawing = drawn(*log_of_places((moment, "4B1001", "1.0000000", "2.0000000")), "--kml")[1]
        expect(f"<when>{wanted}</when>" in drawing, moment, drawing)


def refusals() -> None:
    """Answers that are of another log, what are no answers, files that are not there, and a closed pipe."""
    log, text = log_of_places((0, "4B1001", "1.0000000", "2.0000000"), (5, "4B1001", "1.0000000", "2.0000000"))
    for other in (log[:2] + log[3:], "", log.replace("4B1001", "4B1002"), f"x\n{log}", log.splitlines(True)[0]):
        status, printed, said = drawn(other, text)
        expect((status, printed) == (1, "") and "not of this log" in said, other, status, said)
    same(drawn(log.lower(), text), drawn(log, text), "a log in lower case")
    said = drawn(log, f"{10**18} fix 4B1001 1.0000000 2.0000000\n")[2]
    expect(f"answer {10**18} is not of this log" in said, "an answer beyond the log", said)
    for wrong in ("no answers\n", "{}\n", "\n", log):
        same(drawn("", wrong)[:2], (1, ""), wrong)
    same(drawn(log, text.replace("2 fix", "1 fix"))[0], 0, "an answer twice is no matter")
    same(drawn(log, "2 waiting 4B1001\n3 moment back 7\n")[0], 0)
    rows: List[Tuple[List[str], int]] = [
        (["/nonesuch"], 3),
        ([LOG, "/nonesuch"], 3),
        ([], 2),
        ([LOG, "--silence=-1"], 2),
    ]
    for words, wanted in rows:
        done = subprocess.run([MAPS, *words], stdin=subprocess.DEVNULL, capture_output=True)
        expect(done.returncode == wanted and done.stdout == b"" and b"Traceback" not in done.stderr, words, done)
    for closed, status in ((">&-", 3), ("2>&-", 0), ("<&-", 0)):
        with tempfile.TemporaryDirectory() as work:
            with open(f"{work}/rows.csv", "w") as file:
                file.write(HEADER + GOOD)
            done = subprocess.run(["sh", "-c", f'"$0" {work}/rows.csv {closed}', MAPS], capture_output=True)
            expect(done.returncode == status and b"Traceback" not in done.stderr, closed, done)
            if status:
                same(done.stderr, b"squitter-geojson: standard output is closed\n")
    done = subprocess.run(["sh", "-c", f'"$0" - <&-', MAPS], capture_output=True)
    expect(done.returncode == 3 and b"Bad file descriptor" in done.stderr, done)
    done = subprocess.run(["bash", "-c", f'set -o pipefail; "$0" {LOG} | head -c 1', MAPS], input=answers().encode(),
                          capture_output=True)
    same((done.returncode, done.stdout, done.stderr), (0, b"{", b""), "a closed pipe")


def no_room() -> None:
    """A full output has status 3, with an empty map and with one."""
    with open("/dev/full", "wb") as full:
        for environment in (BUFFERED, UNBUFFERED):
            for data in (b"", answers().encode()):
                done = subprocess.run([MAPS, LOG], input=data, stdout=full, stderr=subprocess.PIPE, env=environment)
                same((done.returncode, done.stderr), (3, b"squitter-geojson: No space left on device\n"),
                     environment is BUFFERED)


def swapped() -> None:
    """Results in place of the log, and rows beside a log, are named with what to do."""
    log, text = log_of_places((0, "4B1001", "1.0000000", "2.0000000"))
    rows_hint = "; these are rows, which are read without a log"
    for first, second, said in (
        (text, log, "has results of track, not a log; the log is the first file: LOG "),
        ("1 parity 00A1B2\n", log, "has results of track, not a log; the log is the first file: LOG "),
        (log, HEADER + GOOD, f"squitter-geojson: line 1 is no answer of track{rows_hint}\n"),
        (log, '{"line":1}\n', f"squitter-geojson: line 1 is no answer of track{rows_hint}\n"),
        (log, text + HEADER, "squitter-geojson: line 2 is no answer of track\n"),
        (log, "no answers\n", "squitter-geojson: line 1 is no answer of track\n"),
        (log, "1 waiting\n", "squitter-geojson: line 1 is no answer of track\n"),
    ):
        status, printed, reported = drawn(first, second)
        expect((status, printed) == (1, "") and said in reported, first, second, reported)


def by_geojson() -> None:
    """Debian's python3-geojson finds the map valid, with all of its places."""
    reader = "/usr/bin/python3"
    if (
        not os.path.exists(reader)
        or subprocess.run([reader, "-c", "import geojson"], stderr=subprocess.DEVNULL).returncode
    ):
        raise Missing("python3-geojson")
    places = "sum(1 for one in read.features for _ in geojson.utils.coords(one))"
    script = f"import geojson, sys; read = geojson.load(sys.stdin); print(read.is_valid, {places})"
    with open(LOG) as file:
        drawing = drawn(file.read(), answers())[1]
    got = subprocess.run([reader, "-c", script], input=drawing, capture_output=True, text=True)
    same(
        got.stdout,
        f"True {sum(len(line) for one in features(drawing).values() for line in lines_of(one))}\n",
        got.stderr,
    )


def by_ogrinfo() -> None:
    """gdal's ogrinfo reads both maps: five aircraft, between the same ends."""
    if shutil.which("ogrinfo") is None:
        raise Missing("ogrinfo")
    with open(LOG) as file:
        log = file.read()
    with tempfile.TemporaryDirectory() as work:
        for name in ("map.geojson", "map.kml"):
            with open(f"{work}/{name}", "w") as drawing:
                drawing.write(drawn(log, answers(), *["--kml"] * (name == "map.kml"))[1])
            said = subprocess.run(["ogrinfo", "-ro", "-al", "-so", f"{work}/{name}"], capture_output=True, text=True)
            expect("Feature Count: 5\n" in said.stdout and not said.stderr, name, said)
            expect(
                "Extent: (-180.000000, -17.0799" in said.stdout and "(180.000000, 88.5599" in said.stdout,
                name,
                said.stdout,
            )
