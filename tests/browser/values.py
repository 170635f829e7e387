"""Parts of tests/page about what functions of the page return: each beside a value that is worked out by hand, at the
borders, just below and just above them."""
import json
import math
from typing import Any, List, Sequence, Tuple

from chromium import Chromium
from trying import AIR_EVEN, AIR_ODD, GROUND_EVEN, GROUND_ODD, Tries, expect
from using import clicked, says, shown, texts_of, typed, value_of

Rows = Sequence[Tuple[str, Any]]
STEPS, METRES = 1 << 17, 111195  # of a zone, each way; of a degree of a great circle, rounded


def compared(browser: Chromium, rows: Rows, before: str = "") -> int:
    """Fails unless each script returns what is wanted. Numbers may differ by 10^-9. Returns how many scripts there
    are."""
    for script, wanted in rows:
        got = browser.evaluate(f"(() => {{ {before}; return {script} }})()")
        expect(is_near(got, wanted), script, "is", got, "and not", wanted)
    return len(rows)


def is_near(got: Any, wanted: Any) -> bool:
    if isinstance(wanted, (list, tuple)):
        return isinstance(got, list) and len(got) == len(wanted) and all(map(is_near, got, wanted))
    if isinstance(wanted, dict):
        return isinstance(got, dict) and got.keys() == wanted.keys() and all(is_near(got[key], wanted[key])
                                                                             for key in wanted)
    if isinstance(wanted, float) or isinstance(got, float):
        return isinstance(got, (int, float)) and abs(got - wanted) < 1e-9
    return bool(got == wanted)


def mercator(lat: float) -> float:
    """The height of a latitude in the Mercator projection, as textbooks have it, in degrees of longitude."""
    return math.degrees(math.log(math.tan(math.pi / 4 + math.radians(lat) / 2)))


TEXTS = "{ labels } = found; return labels.map(({ text }) => text)"
WORLD = "{ left: -200, right: 200, low: -100, high: 100 }"
BEYOND = "{ left: -300, right: 300, low: -300, high: 300 }"
OVER = "{ left: -5, right: 5, low: 10, high: 20 }"

PROJECTED: Rows = (
    ("degreesLabel(-0.5, 0.1, 'W', 'E')", "0.5W"),
    ("degreesLabel(0.02, 0.02, 'S', 'N')", "0.02N"),
    ("degreesLabel(0.05, 0.05, 'S', 'N')", "0.05N"),
    ("degreesLabel(-0.001, 0.001, 'S', 'N')", "0.001S"),
    ("degreesLabel(-45, 45, 'S', 'N')", "45S"),
    ("degreesLabel(5, 5, 'W', 'E')", "5E"),
    ("degreesLabel(0, 0.1, 'W', 'E')", "0.0"),
    ("[-180, 180].map((at) => degreesLabel(at, 30, 'W', 'E'))", ["180", "180"]),
    ("multiples(10, -20, 20)", [-20, -10, 0, 10, 20]),
    ("multiples(10, -19.9, 19.9)", [-10, 0, 10]),
    ("multiples(0.1, 0.1, 0.3)", [0.1, 0.2, 0.3]),
    ("multiples(0.1, 0.3, 0.5)", [0.3, 0.4, 0.5]),
    ("[multiples(1, 0.5, 0.9), multiples(1, 5, 3)]", [[], []]),
    ("multiples(1, 0, 5000).length", 2000),
    ("[90, 90.0000001, -90, -90.0000001].map((lat) => PROJECTIONS.plain.shows(lat))", [True, False, True, False]),
    ("[85, 85.0000001, -85, -85.0000001].map((lat) => PROJECTIONS.mercator.shows(lat))", [True, False, True, False]),
    ("[0, 0.0000001, -0.0000001].map((lat) => PROJECTIONS.north.shows(lat))", [True, True, False]),
    ("[0, 0.0000001, -0.0000001].map((lat) => PROJECTIONS.south.shows(lat))", [True, False, True]),
    ("[45, -60, 85, 89].map((lat) => PROJECTIONS.mercator.y(7, lat))",
     [mercator(45), mercator(-60), mercator(85), mercator(85)]),
    ("PROJECTIONS.mercator.latitude(PROJECTIONS.mercator.y(0, -71.5))", -71.5),
    ("PROJECTIONS.mercator.world", {"left": -180, "right": 180, "low": -mercator(85), "high": mercator(85)}),
    ("[0, 60, 89].map((lat) => PROJECTIONS.mercator.stretch(lat))", [1, 2, 1 / math.cos(math.radians(85))]),
    ("[PROJECTIONS.plain.stretch(60), PROJECTIONS.north.stretch(60)]", [1, math.pi / 2]),
    ("PROJECTIONS.mercator.around({ west: 1, east: 2, south: -3, north: 4 })",
     {"left": 1, "right": 2, "low": mercator(-3), "high": mercator(4)}),
    ("[[90, 60], [0, 60], [180, 60]].map(([lon, lat]) => [PROJECTIONS.north.x(lon, lat), PROJECTIONS.north.y(lon, "
     "lat)])", [[30, 0], [0, -30], [0, 30]]),
    ("[[90, -60], [0, -60], [180, -60]].map(([lon, lat]) => [PROJECTIONS.south.x(lon, lat), "
     "PROJECTIONS.south.y(lon, lat)])", [[30, 0], [0, 30], [0, -30]]),
    ("[PROJECTIONS.north.degrees({ x: 0, y: -30 }), PROJECTIONS.south.degrees({ x: 30, y: 0 })]",
     [{"lon": 0, "lat": 60}, {"lon": 90, "lat": -60}]),
    # the bounds of all tracks; around the north pole without those of the south
    ("PROJECTIONS.plain.box(tracks)", {"left": -90, "right": 90, "low": -80, "high": 70}),
    ("PROJECTIONS.north.box(tracks)", {"left": 0, "right": 20, "low": -30, "high": 0}),
    ("PROJECTIONS.south.box(tracks)", {"left": -10, "right": -10, "low": 0, "high": 0}),
    ("PROJECTIONS.north.box(new Tracks(0)).left > 0", True),
    ("PROJECTIONS.north.seen({ left: 10, right: 20, low: -5, high: 5 })",
     {"near": 10, "far": math.hypot(20, 5), "middle": {"lon": 90, "lat": 75}, "isIn": False,
      "wide": math.degrees(math.atan2(5, 10))}),
    (f"(({{ near, far, middle, wide, isIn }}) => [near, far, middle.lon, wide, isIn])(PROJECTIONS.north.seen({OVER}))",
     [10, math.hypot(5, 20), 180, math.degrees(math.atan2(5, 10)), False]),
    (f"(({{ near, far, wide, isIn }}) => [near, far, wide, isIn])(PROJECTIONS.south.seen({BEYOND}))",
     [0, 90, 180, True]),
    ("PROJECTIONS.north.seen({ left: -2, right: 2, low: 3, high: 4 }).near", 3),
    ("PROJECTIONS.north.seen({ left: -9, right: -6, low: -4, high: 8 }).near", 6),
    ("PROJECTIONS.north.seen({ left: -2, right: 2, low: -9, high: -3 }).near", 3),
    # lines are more than 70 points apart
    (f"[69.9, 70, 70.1].map((scale) => PROJECTIONS.plain.graticule({WORLD}, scale).step)", [2, 2, 1]),
    (f"PROJECTIONS.plain.graticule({WORLD}, 0.7).step", 90),
    (f"((found) => {{ const {TEXTS} }})(PROJECTIONS.plain.graticule({WORLD}, 2))",
     ["180", "135W", "90W", "45W", "0", "45E", "90E", "135E", "180", "90S", "45S", "0", "45N", "90N"]),
    (f"(({{ lines, labels }}) => [lines[1], lines[13], labels[1], labels[13], lines.length])("
     f"PROJECTIONS.plain.graticule({WORLD}, 2))",
     [[{"x": -135, "y": -90}, {"x": -135, "y": 90}], [{"x": -180, "y": 90}, {"x": 180, "y": 90}],
      {"x": -133.5, "y": -97.5, "text": "135W"}, {"x": -198.5, "y": 91.5, "text": "90N"}, 14]),
    (f"((found) => {{ const {TEXTS} }})(PROJECTIONS.mercator.graticule({BEYOND}, 2))",
     ["180", "135W", "90W", "45W", "0", "45E", "90E", "135E", "180", "45S", "0", "45N"]),
    ("((found) => { const " + TEXTS + " })(PROJECTIONS.plain.graticule({ left: 1, right: 4, low: 5, high: 7 }, 71))",
     ["1E", "2E", "3E", "4E", "5N", "6N", "7N"]),
    ("((found) => { const " + TEXTS + " })(PROJECTIONS.north.graticule("
     "{ left: -100, right: 100, low: -100, high: 100 }, 3))",
     ["150W", "120W", "90W", "60W", "30W", "0", "30E", "60E", "90E", "120E", "150E", "180", "90N", "60N", "30N", "0"]),
    ("((found) => { const " + TEXTS + " })(PROJECTIONS.south.graticule("
     "{ left: -100, right: 100, low: -100, high: 100 }, 3)).slice(12)", ["90S", "60S", "30S", "0"]),
    ("(({ lines }) => lines.map((line) => line.length))(PROJECTIONS.north.graticule("
     "{ left: -100, right: 100, low: -100, high: 100 }, 3))", [2] * 12 + [129] * 3),
    (f"((found) => {{ const {TEXTS} }})(PROJECTIONS.north.graticule({OVER}, 50))",
     ["160E", "170E", "180", "170W", "160W", "80N", "78N", "76N", "74N", "72N", "70N"]),
    (f"(({{ labels }}) => Math.hypot(labels[0].x, labels[0].y))(PROJECTIONS.north.graticule({BEYOND}, 1))", 88),
    *((f"suitingProjection({{ south: {south}, north: {north} }}).title", title) for south, north, title in (
        (70.0000001, 89, "around the north pole"), (70, 79, "Mercator"), (-89, -70.0000001, "around the south pole"),
        (-79, -70, "Mercator"), (-79.9999999, 10, "Mercator"), (-80, 10, "equal degrees"), (0, 80, "equal degrees"),
        (0, 79.9999999, "Mercator"), ("Infinity", "-Infinity", "equal degrees"))),
)

# Two aircraft near the north pole, and one near the south pole.
POLAR_TRACKS = """const tracks = new Tracks(1000);
tracks.addPlace(1, 90, 70, 0, 1, Kind.AIR);
tracks.addPlace(2, 0, 60, 0, 2, Kind.AIR);
tracks.addPlace(3, -90, -80, 0, 3, Kind.AIR)"""


# A map of 400 by 200 points with a box of 10 by 10 in it.
ONE_BOX = "const places = new LabelPlaces(400, 200); places.block({ x: 40, y: 20, wide: 10, high: 10 })"


def is_free(x: float, y: float, wide: float = 5, high: float = 5) -> str:
    return f"places.isFree({{ x: {x}, y: {y}, wide: {wide}, high: {high} }})"


LABELLED: Rows = (
    *((is_free(*box), wanted) for box, wanted in (
        # within the map
        ((0, 0), True), ((-0.1, 0), False), ((0, -0.1), False), ((395, 195), True), ((395.1, 195), False),
        ((395, 195.1), False), ((390, 186, 10, 14), True),
        # two points from the box on each side
        ((52, 22), True), ((51.9, 22), False), ((33, 22), True), ((33.1, 22), False), ((42, 32), True),
        ((42, 31.9), False), ((42, 13), True), ((42, 13.1), False), ((0, 0, 400, 200), False))),
    # boxes at the border of a cell, which has 64 by 16 points, and over several cells
    *((f"(places.block({{ x: {x}, y: {y}, wide: {wide}, high: {high} }}), {is_free(*box)})", wanted)
      for x, y, wide, high, box, wanted in (
          (110, 95, 16.5, 0.5, (128.1, 95), False), (110, 95, 16, 0.5, (128, 95), True),
          (110, 80, 5, 15, (110, 96.9), False), (110, 80, 5, 14, (110, 96), True),
          (130, 100, 10, 10, (123.1, 100), False), (110, 114, 10, 10, (110, 107.1), False),
          (100, 150, 250, 14, (300, 152), False), (300, 40, 10, 100, (302, 100), False))),
    ("[0, 0].map(() => places.take({ x: 100, y: 100, wide: 20, high: 14 }))", [True, False]),
    ("[1, 2, 3, 4, 5].map(() => places.beside(200, 100, 20, 14))",
     [{"x": 209, "y": 93, "wide": 20, "high": 14}, {"x": 171, "y": 93, "wide": 20, "high": 14},
      {"x": 190, "y": 109, "wide": 20, "high": 14}, {"x": 190, "y": 77, "wide": 20, "high": 14}, None]),
    ("places.beside(395, 100, 20, 14).x", 366),
)


# Tracks of a window of a second. Aircraft 1 is cut by its kind, by silence and at 180 degrees; 2 has one position.
CUT_TRACKS = """const tracks = new Tracks(1000), place = (...words) => tracks.addPlace(...words);
place(1, 178, 10, 5000, 1, Kind.GROUND);
place(1, 179, 11, 6000, 2, Kind.GROUND);
place(1, 179.5, 12, 6500, 3, Kind.AIR);
place(2, -20, -30, 4000, 4, Kind.AIR);
place(1, -179.5, 13, 7500, 5, Kind.AIR);
place(1, -179, 14, 7600, 6, Kind.AIR);
place(1, -178, 9, 7700, 7, Kind.AIR);
place(1, -177, 15, 8701, 8, Kind.AIR)"""

PIECES = "tracks.pieces(1).map(({ lines, joined, kind }) => [[...lines], joined, kind])"

TRACKED: Rows = (
    (PIECES, [[[1, 2], False, 2], [[3], True, 1], [[5, 6, 7], True, 1], [[8], False, 1]]),
    ("[tracks.first, tracks.last, tracks.count(), tracks.count(7600), tracks.count(3999)]", [4000, 8701, 8, 6, 0]),
    ("[8701, 8700, 7599, 6499, 5000, 4999].map((until) => tracks.newest(1, until)?.line ?? null)",
     [8, 7, 5, 2, 1, None]),
    ("tracks.newest(2)", {"address": 2, "lon": -20, "lat": -30, "moment": 4000, "line": 4, "kind": 1}),
    ("tracks.bounds(1)", {"west": -179.5, "east": -178, "south": 9, "north": 14}),
    ("tracks.bounds(2)", {"west": -20, "east": -20, "south": -30, "north": -30}),
    ("tracks.bounds()", {"west": -179.5, "east": 179.5, "south": -30, "north": 15}),
    ("tracks.latitudes(1)", {"south": 9, "north": 15}),
    ("tracks.latitudes()", {"south": -30, "north": 15}),
    ("tracks.geojson().features.map(({ geometry, properties }) => [geometry.type, geometry.coordinates, properties])",
     [["LineString", [[178, 10], [179, 11], [179.5, 12]],
       {"line": [1, 2, 3], "moment": [5000, 6000, 6500], "address": "000001"}],
      ["LineString", [[-179.5, 13], [-179, 14], [-178, 9]],
       {"line": [5, 6, 7], "moment": [7500, 7600, 7700], "address": "000001"}],
      ["Point", [-177, 15], {"line": 8, "moment": 8701, "address": "000001"}],
      ["Point", [-20, -30], {"line": 4, "moment": 4000, "address": "000002"}]]),
    ("(place(7, 0, 0, 3000, 9, 1), [tracks.first, tracks.last])", [3000, 8701]),
    # take-off ends a piece, and the line goes on
    ("(place(7, -100, 0, 1, 1, 2), place(7, 0, 0, 2, 2, 2), place(7, 90, 0, 3, 3, 2), place(7, 100, 0, 4, 4, 1), "
     "place(8, -90, 0, 1, 1, 2), place(8, 90, 0, 2, 2, 1), [7, 8].map((one) => runsOf(tracks.pieces(one)).length))",
     [1, 1]),
    # half a turn is no cut, and a little more is one, either way
    *((f"(place(3, {lon}, 0, 0, 1, 1), place(3, {other}, 0, 1, 2, 1), tracks.pieces(3).length)", count)
      for lon, other, count in ((-90, 90, 1), (-90, 90.0000001, 2), (90, -90, 1), (90.0000001, -90, 2))),
    # west and east of positions that go one way
    *((f"({lons}.forEach((lon, at) => place(4, lon, lon / 2, at, at, 1)), tracks.bounds(4))",
       {"west": -3, "east": 2, "south": -1.5, "north": 1}) for lons in ("[2, 1, -3]", "[-3, 1, 2]", "[1, -3, 2]")),
    # columns that have grown
    ("(() => { for (let at = 0; at < 40; at++) place(5, at, -at, 100 + at, 1000 + at, 1);const [{ lons, lats, moments, "
     "lines, room }] = tracks.pieces(5); return [lons, lats, moments, lines].map((column) => [column.length, "
     "column[0], column[7], column[8], column[39], column.reduce((sum, one) => sum + one)]) })()",
     [[40, 0, 7, 8, 39, 780], [40, 0, -7, -8, -39, -780], [40, 100, 107, 108, 139, 4780],
      [40, 1000, 1007, 1008, 1039, 40_780]]),
    ("(() => { const piece = new Piece(false, 1); [0, 500, 500, 1000].forEach((at) => piece.add(0, 0, at, 0));"
     "return [-1, 0, 499, 500, 999, 1000, Infinity].map((until) => heardBy(piece, until)) })()",
     [0, 1, 1, 3, 3, 4, 4]),
    ("(() => { const { version } = tracks; tracks.change(); return [tracks.version > version, "
     "new Tracks(0).version > tracks.version] })()", [True, True]),
    # of answers, those with a position are added, with timestamps above 2^32
    ("(tracks.add({ whats: [0, 1, 2, 3, 7], addresses: [9, 9, 9, 9, 9], kinds: [1, 1, 1, 1, 1], lons: [1, 2, 3, 4, 5], "
     "lats: [6, 7, 8, 9, 10], moments: BigUint64Array.of(1n, 12884901893n, 12884901894n, 4n, 5n), "
     "numbers: [11, 12, 13, 14, 15] }), [...tracks.all.get(9).pieces[0].moments, tracks.count(), "
     "tracks.newest(9).line])", [12_884_901_893, 12_884_901_894, 10, 13]),
)


# Eight results in three pieces, one of which is empty.
ANSWERED = """const answers = new LogAnswers(squitterLog.library), none = NaN;
const add = (rows) => answers.add(Object.fromEntries(["numbers", "whats", "addresses", "moments", "lats", "lons",
  "evens", "odds", "codes", "firsts", "feet"].map((name, at) => [name, name === "moments"
    ? BigUint64Array.from(rows, (row) => BigInt(row[at])) : rows.map((row) => row[at])])));
add([[1, 0, 0, 0, none, none, 0, 0, Code.BAD_MOMENT, 0, none]]);
add([[3, 1, 0xABC, 5000, 1.5, -2.25, 0, 0, 0, 0, 100], [4, 2, 0x40621D, 5250, 3, 4, 0, 0, 0, 0, 0],
  [5, 3, 0xABC, 6000, none, none, 0, 0, 0, 0, none]]);
add([]);
add([[7, 4, 0xABC, 6500, none, none, 36, 35, 0, 0, -25], [8, 5, 0xABC, 7000, none, none, 0, 0, 0, 0, none],
  [9, 6, 0xABC, 8000, none, none, 0, 0, 0, 0, none], [10, 7, 0xABC, 9000, none, none, 0, 0, 0, 0, 50]])"""

LISTED: Rows = (
    ("[answers.count, answers.places, answers.refused, answers.withoutSite, answers.withoutTime]", [8, 2, 1, 1, 1]),
    ("answers.left", [0, 1, 2, 3, 4, 5, 6, 7]),
    ("Array.from(byId('filter-what').options, (one) => `${one.value}: ${one.text}`)",
     [": all results", "places: positions", "1: fix", "2: followed", "3: waiting", "4: split", "5: far", "6: no site",
      "7: no position", "0: refused"]),
    ("[0, 1, 2, 3, 4, 5, 6, 7].map((index) => answers.row(index))",
     [["1", "", "refused: bad moment", "", "", "", ""],
      ["3", "0:00:00.000", "fix", "000ABC", "1.5000000", "-2.2500000", "100 ft"],
      ["4", "0:00:00.250", "followed", "40621D", "3.0000000", "4.0000000", "0 ft"],
      ["5", "0:00:01.000", "waiting", "000ABC", "", "", ""],
      ["7", "0:00:01.500", "split 36 35", "000ABC", "", "", "-25 ft"],
      ["8", "0:00:02.000", "far", "000ABC", "", "", ""],
      ["9", "0:00:03.000", "no site", "000ABC", "", "", ""],
      ["10", "0:00:04.000", "no position", "000ABC", "", "", "50 ft"]]),
    ("[0, 1, 2, 3, 4, 5, 6, 7, 10, 11].map((line) => feetText(answers.feetOfLine(line)))",
     ["", "", "", "100 ft", "0 ft", "", "", "-25 ft", "50 ft", ""]),
    ("feetText(new LogAnswers(squitterLog.library).feetOfLine(1))", ""),
    ("(answers.filter((what) => what === 1 || what === 4), answers.left)", [1, 4]),
    ("(answers.filter((what, address) => address === 0x40621D), answers.left)", [2]),
    ("(answers.filter((what) => what > 3), add([[12, 5, 1, 9999, none, none, 0, 0, 0, 0, none]]), answers.left)",
     [4, 5, 6, 7, 8]),
    # the clock starts at the first timestamp, and lines without one have none
    ("(answers.isTimed = false, add([[12, 0, 0, 0, none, none, 0, 0, Code.BAD_MOMENT, 0, none], [13, 5, 1, 9500, none, "
     "none, 0, 0, 0, 0, none]]), [answers.row(7)[1], answers.row(9)[1]])", ["-0:00:00.500", "0:00:00.000"]),
    ("(add([[12, 0, 0, 0, none, none, 0, 0, 6, 255, none]]), answers.row(8)[2])", "refused: parity 0000FF"),
)


# Degrees as points of each plane, grids of lines with their labels, and which projection suits a log; labels that keep
# two points apart, within the map; where tracks are cut, their bounds, positions and GeoJSON; the results of a log.
TABLES = ((PROJECTED, POLAR_TRACKS), (LABELLED, ONE_BOX), (TRACKED, CUT_TRACKS), (LISTED, ANSWERED))


def tables_of_values(tries: Tries) -> str:
    """What functions of the page return, in each table beside values that are worked out by hand."""
    return f"{sum(compared(tries.page('log'), rows, before) for rows, before in TABLES)} values"


NOT_DECODED = "(not decoded)"
PLACE_FIELDS = [["T, time", "53", "0", "1 if synchronised to UTC"]]
IN_ZONE = "where in its zone, in steps of 1/131072"
FIELDS = (
    (AIR_EVEN, [
        ["DF, downlink format", "1-5", "17", "extended squitter"],
        ["CA, capability", "6-8", "5", f"capability of the transponder {NOT_DECODED}"],
        ["AA, address", "9-32", "40621D", "ICAO address"], ["type code", "33-37", "11", "airborne position"],
        ["surveillance status", "38-39", "0", NOT_DECODED],
        ["flag", "40", "0", f"single antenna, or NIC supplement B {NOT_DECODED}"],
        ["altitude", "41-52", "C38", "38000 feet"], *PLACE_FIELDS, ["F, parity", "54", "0", "even format"],
        ["latitude code", "55-71", "93000", IN_ZONE], ["longitude code", "72-88", "51372", IN_ZONE],
        ["PI, parity", "89-112", "2863A7", "the remainder is 000000: no bit is damaged"]]),
    (GROUND_ODD, [
        ["DF, downlink format", "1-5", "17", "extended squitter"],
        ["CA, capability", "6-8", "4", f"capability of the transponder {NOT_DECODED}"],
        ["AA, address", "9-32", "484175", "ICAO address"], ["type code", "33-37", "7", "surface position"],
        ["movement", "38-44", "40", f"speed on the ground {NOT_DECODED}"],
        ["track status", "45", "1", "the track is valid"],
        ["track", "46-52", "35", f"heading, or track over ground {NOT_DECODED}"], *PLACE_FIELDS,
        ["F, parity", "54", "1", "odd format"], ["latitude code", "55-71", "39199", IN_ZONE],
        ["longitude code", "72-88", "110269", IN_ZONE],
        ["PI, parity", "89-112", "AC702D", "the remainder is 000000: no bit is damaged"]]),
    ("8D4840D6202CC371C32CE0576098", [
        ["DF, downlink format", "1-5", "17", "extended squitter"],
        ["CA, capability", "6-8", "5", f"capability of the transponder {NOT_DECODED}"],
        ["AA, address", "9-32", "4840D6", "ICAO address"], ["type code", "33-37", "4", "another message"],
        ["the rest of ME", "38-88", "ME 202CC371C32CE0", NOT_DECODED],
        ["PI, parity", "89-112", "576098", "the remainder is 000000: no bit is damaged"]]),
    (f"{AIR_EVEN[:-1]}6", [
        ["DF, downlink format", "1-5", "17", ""], ["CA, capability", "6-8", "5", ""],
        ["AA, address", "9-32", "40621D", ""], ["ME, message", "33-88", "58C382D690C8AC", ""],
        ["PI, parity", "89-112", "2863A6",
         "the remainder is 000001, not 000000: a bit is damaged, or this is not a squitter"]]),
    ("920621DA58C382D690C8AC286001", [
        ["DF, downlink format", "1-5", "18", "only format 17 is decoded"], ["CA, capability", "6-8", "2", ""],
        ["AA, address", "9-32", "0621DA", ""], ["ME, message", "33-88", "58C382D690C8AC", ""],
        ["PI, parity", "89-112", "286001", ""]]),
)
ANSWER_CELLS = ("[...document.querySelectorAll('#{0} tbody tr')].map((row) => "
                "[...row.cells].map((one) => one.textContent))")
# The names of the runs of bits with their titles and bits.
RUNS = ("[...document.querySelectorAll('#frame-answer .run')].map((run) => [run.className, run.title, "
        "...[...run.children].map((one) => one.textContent)])")

LACKING = "A frame has * before it and ; after it, or neither. One is missing at the mark."
FAULTS = (
    # the text, what is said of it, and the index of the character that is marked
    (f"*{AIR_EVEN[:7]}G{AIR_EVEN[8:]};", "bad digit 8", "Character 9 is not a hexadecimal digit.", 8),
    ("*8D40621D58C382D690G8AC2863A7;", "bad digit", "Character 20 is not a hexadecimal digit.", 19),
    ("8D40621D58C382D690G8AC2863A7", "bad digit", "Character 19 is not a hexadecimal digit.", 18),
    ("G" + AIR_EVEN[1:], "bad digit", "Character 1 is not a hexadecimal digit.", 0),
    (f"*{AIR_EVEN}", "bad wrapping", LACKING, 29), (f"{AIR_EVEN};", "bad wrapping", LACKING, 0),
    (f"{AIR_EVEN[:-1]}6", "parity 000001", "the remainder is 000001", None), ("<b>", "bad length 3", "", None),
    ("", "bad length 0", "", None), ("5D40621D58C382", "short frame", "", None),
)


def frame_tables(tries: Tries) -> str:
    """The fields of frames with their bits, values and meanings; where the mark of an error stands."""
    browser = tries.page("frame")
    for frame, fields in FIELDS:
        typed(browser, frame_text=f"  {frame} ")
        wanted = [[f"{number} {name}", *rest] for number, (name, *rest) in enumerate(fields, 1)]
        got = browser.evaluate(ANSWER_CELLS.format("frame-answer"))
        expect(got == wanted, frame, "has", got, "and not", wanted)
        bits, runs = f"{int(frame, 16):0112b}", []
        for number, (name, places, *_) in enumerate(fields):
            first, last = int(places.split("-")[0]), int(places.split("-")[-1])
            runs.append([f"run tint{number % 8}", f"{name}, bits {first} to {last}", str(number + 1),
                         bits[first - 1:last]])
        expect(browser.evaluate(RUNS) == runs, frame, browser.evaluate(RUNS), runs)
    for head, wanted in zip(("40621D: airborne position", "484175: surface position", "4840D6: another message"),
                            FIELDS):
        typed(browser, frame_text=wanted[0])
        expect(browser.evaluate("document.querySelector('#frame-answer .answer').textContent") == head, head)
    for text, words, said, at in FAULTS:
        typed(browser, frame_text=text)
        says(browser, words, said, of="#frame-answer")
        marked = texts_of(browser, "#frame-answer mark") + texts_of(browser, "#frame-answer .marked")
        if at is None:
            expect(marked == [], text, "marks", marked)
            continue
        mark = text[at:at + 1] or " "
        expect(marked == [mark, f"{text[:at]}{mark}{text[at + 1:]}{' ' * at}^"], text, marked)
        expect(shown(browser, "#frame-answer").endswith(said), text, shown(browser, "#frame-answer"))
    clicked(browser, f"[data-link='#frame={GROUND_ODD}']")
    expect(shown(browser, "#frame-answer").startswith("484175: surface"), "an example is not shown at once")
    count = compared(browser, (
        ("[ROWS[0][1].value({ address: 0xAB }), ROWS[0][3].value({ raw: 0xABn })]", ["0000AB", "ME 000000000000AB"]),
        ("[[0, 0], [1, -25], [2, 0]].map(([altitudeForm, feet]) => altitudeMeans({ altitudeForm, feet }))",
         ["no altitude", "-25 feet", f"another form, or a height above the ellipsoid {NOT_DECODED}"]),
        ("ROWS[2].find(({ name }) => name === 'track status').means({ trackStatus: 0 })", "the track is not valid"),
        ("ROWS[1].find(({ name }) => name === 'T, time').number({ time: 1, odd: 0 })", 1),
    ))
    return f"{len(FIELDS)} tables, {len(FAULTS)} faults, {count} meanings"


# The pair of the textbook (The 1090 Megahertz Riddle), as its formulas have it: for each frame its zones and point.
PAIR_STEPS = [["parity", "even", "odd"], ["latitude code", "93000", "74158"], ["longitude code", "51372", "50194"],
              ["latitude zone (j)", "8", "8"], ["latitude, exact", "428091/8192", "25261515/483328"],
              ["latitude", "52.2572021", "52.2657802"], ["longitude zones (NL)", "36", "36"],
              ["longitude zone (m)", "0", "0"], ["longitude, exact", "64215/16384", "225873/57344"],
              ["longitude", "3.9193726", "3.9389125"]]
COSINE = math.cos(math.radians(25261515 / 483328))
ODD_ZONE = [["latitude zones", "59"], ["latitude zone (j)", "8"], ["zone height", "6.1016949 degrees, 360/59"],
            ["zone height, a step of 131072", f"0.000046552 degrees, about {360 / 59 / STEPS * METRES:.2f} m"],
            ["longitude zones (NL) of the even format", "36"], ["longitude zones of this format", "35"],
            ["longitude zone (m)", "0"], ["zone width", "10.2857143 degrees, 72/7"],
            ["zone width, a step of 131072", f"0.000078473 degrees, about {72 / 7 / STEPS * METRES * COSINE:.2f} m"]]
EVEN_ZONE = [
    ["latitude zones", "60"], ["latitude zone (j)", "8"], ["zone height", "6.0000000 degrees, 6/1"],
    ["zone height, a step of 131072", f"0.000045776 degrees, about {6 / STEPS * METRES:.2f} m"],
    ["longitude zones (NL) of the even format", "36"], ["longitude zones of this format", "36"],
    ["longitude zone (m)", "0"], ["zone width", "10.0000000 degrees, 10/1"],
    ["zone width, a step of 131072",
     f"0.000076293 degrees, about {10 / STEPS * METRES * math.cos(math.radians(428091 / 8192)):.2f} m"],
]


def place_tables(tries: Tries) -> str:
    """Each step of a pair and of a frame near a reference, by the formulas; what is said of pairs without a position;
    pairs on the ground by a receiver in each quarter."""
    browser = tries.page("place")
    typed(browser, place_older=f" {AIR_EVEN} ", place_newer=f" {AIR_ODD} ", place_lat=" ", place_lon="")
    got = browser.evaluate(ANSWER_CELLS.format("place-answer"))
    point = [["latitude", "52.2657802", "25261515/483328"], ["longitude", "3.9389125", "225873/57344"]]
    expect(got == [*point, *PAIR_STEPS, *ODD_ZONE], got)
    typed(browser, place_older=AIR_ODD, place_newer=AIR_EVEN)
    got = browser.evaluate(ANSWER_CELLS.format("place-answer"))
    expect(got[2:] == [*([name, new, old] for name, old, new in PAIR_STEPS), *EVEN_ZONE], got)
    clicked(browser, "[data-link^='#local']")
    got = browser.evaluate(ANSWER_CELLS.format("place-answer"))
    first = [["parity", "even"], ["latitude code", "93000"], ["longitude code", "51372"],
             ["longitude zones (NL) at the reference", "36"], *EVEN_ZONE]
    point = [["latitude", "52.2572021", "428091/8192"], ["longitude", "3.9193726", "64215/16384"]]
    expect(got == [*point, *first], got)
    expect(shown(browser, "#place-hint") == "The reference must be within half a zone: 3 degrees of latitude in the "
                                            "air, 0.75 on the ground.", shown(browser, "#place-hint"))
    expect(browser.evaluate("[...document.querySelectorAll('#place-older-field, #place-lat-label, #place-lon-label, "
                            "#place-newer-label')].map((one) => one.hidden || one.textContent)") ==
           [True, "Frame", "Latitude of the reference", "Longitude of the reference"], "the labels of one frame")
    expect(value_of(browser, "place-older") == AIR_ODD, "the older frame is kept")
    clicked(browser, "[data-link*='8D43029E']")
    expect([value_of(browser, f"place-{name}") for name in ("lat", "lon")] == ["", ""], "an example without a receiver")
    expect(browser.evaluate("document.querySelector('[name=place-from]:checked').value") == "pair", "two frames")
    # 54.5 degrees are in zone 9 of the even frame and in zone 8 of the odd one, 43 degrees east in 4 and 3
    even, odd = browser.evaluate("[0, 1].map((odd) => squitterLog.library.frameText(squitterLog.library.encode("
                                 "new AirHead({ address: 1, odd }), { lat: 54.5, lon: 43 })))")
    typed(browser, place_older=even, place_newer=odd)
    steps = {row[0]: row[1:] for row in browser.evaluate(ANSWER_CELLS.format("place-answer"))[2:12]}
    wanted = [[str(int(at // (360 / zones))) for zones in pair] for at, pair in ((54.5, (60, 59)), (43, (34, 33)))]
    expect([steps["latitude zone (j)"], steps["longitude zone (m)"]] == wanted, steps, wanted)
    count = ground_tables(browser) + refused_pairs(browser)
    return f"3 tables, {count} more answers"


def ground_tables(browser: Chromium) -> int:
    """The positions of a pair on the ground for receivers in each quarter, a quarter turn apart."""
    clicked(browser, "[data-link^='#pair=8C4841']")
    cells = browser.evaluate(ANSWER_CELLS.format("place-answer"))
    lat, lon = cells[0][1], float(cells[1][1])
    expect(abs(float(lat) - 52.3206) < 1e-3 and abs(lon - 4.7347) < 1e-3, cells[:2])
    found = {row[0]: row[1:] for row in cells if row[0] in ("-135", "-45", "45", "135")}
    for receiver, turn in (("-135", -180), ("-45", -90), ("45", 0), ("135", 90)):
        expect(found[receiver] == [lat, f"{lon + turn:.7f}"], receiver, found[receiver], lat, lon + turn)
    hint = "Only a pair on the ground needs the position of your receiver."
    expect(shown(browser, "#place-hint") == hint, shown(browser, "#place-hint"))
    return len(found)


def refused_pairs(browser: Chromium) -> int:
    """What is said of pairs without a position: no receiver, zone counts that differ, and two even frames."""
    site = "Frames from the ground fit four positions. Type the position of your receiver."
    even, odd = browser.evaluate("[0, 1].map((odd) => squitterLog.library.frameText(squitterLog.library.encode("
                                 "new AirHead({ address: 1, odd }), { lat: odd ? 10.47 : 10.471, lon: 3 })))")
    border = ("The latitude of the even frame has {} longitude zones, and that of the odd frame has {}. The aircraft "
              "crossed a zone border between them, so the pair has no longitude.")
    rows: List[Tuple[str, str, str, str, str, List[str]]] = [
        (GROUND_EVEN, GROUND_ODD, "", "", site, []),
        (GROUND_EVEN, GROUND_ODD, "1", "", "Refused: ", []),
        (GROUND_EVEN, GROUND_ODD, "", "1", "Refused: ", []),
        (AIR_EVEN, AIR_EVEN, "", "", "No position: ", []),
    ]
    # NL is 59 up to 10.47047130 degrees, and 58 beyond.
    rows += [(older, newer, "", "", border.format(58, 59), counts)
             for older, newer, counts in ((even, odd, ["58", "59"]), (odd, even, ["59", "58"]))]
    for older, newer, lat, lon, said, counts in rows:
        typed(browser, place_older=older, place_newer=newer, place_lat=lat, place_lon=lon)
        text = shown(browser, "#place-answer")
        expect(said in text and (said == site) == (site in text), older, newer, text)
        expect(("crossed a zone border" in text) == bool(counts), older, newer, text)
        steps = {row[0]: row[1:] for row in browser.evaluate(ANSWER_CELLS.format("place-answer"))}
        expect(steps.get("longitude zones (NL)", []) == counts, older, newer, steps)
        wants_steps = said == site or bool(counts)
        expect(bool(steps) == wants_steps and len(steps) == (3 + bool(counts)) * wants_steps, older, newer, steps)
    return len(rows)


SENT: Rows = (
    ("text(difference({ num: 1n, den: 2n }, { num: 1n, den: 3n }))", "1/6"),
    *((f"billionths({{ num: {num}n, den: {den}n }})", wanted) for num, den, wanted in (
        (1, 3, "0.333333333"), (-1, 3, "-0.333333333"), (-1, 10**10, "0.000000000"), (5, 2, "2.500000000"),
        (-5, 2, "-2.500000000"), (1, 10**9, "0.000000001"), (-1, 10**9, "-0.000000001"), (0, 1, "0.000000000"))),
    *((f"aboutMetres({{ num: {num}n, den: {den}n }}, {factor})", f"about {wanted} m")
      for num, den, factor, wanted in (
          (1, 1, 1, "111195"), (-2, 1, 1, "222390"), (1, 1, 0.25, "27799"), (1, 10**6, 1, "0.11"),
          (10, METRES, 1, "10"), (899, 10**7, 1, "10.00"), (8992, 10**8, 1, "10.00"), (9, 10**5, 1, "10"),
          (1, 10_000, 1, "11"))),
    *((f"text(aroundTheCircle({{ num: {num}n, den: {den}n }}))", wanted) for num, den, wanted in (
        (180, 1, "180/1"), (181, 1, "-179/1"), (-180, 1, "-180/1"), (-181, 1, "179/1"), (361, 2, "-359/2"),
        (0, 1, "0/1"), (359, 2, "359/2"))),
    ("text(reduced({ num: 6n, den: 4n }))", "3/2"), ("text(reduced({ num: -6n, den: 4n }))", "-3/2"),
    ("text(reduced({ num: 0n, den: 5n }))", "0/1"), ("text(sum({ num: 1n, den: 6n }, { num: 1n, den: 3n }))", "1/2"),
    ("orNull(() => { throw Object.assign(new Error(), { code: 5 }) })", None),
    ("(() => { try { orNull(() => { throw new TypeError('other') }) } catch (error) { return error.message } })()",
     "other"),
)

HEADS = (
    # the kind, what is typed as address and altitude, and the altitude or the error that is shown
    ("air", "40621d", "38000", "38000 feet"), ("air", "40621D", "", "no altitude"),
    ("air", "40621D", "-1000", "-1000 feet"), ("air", "40621D", "50175", "50175 feet"),
    ("air", "40621D", " 25 ", "25 feet"), ("ground", "40621D", "x", None), ("air", "4062", "25", "six hexadecimal"),
    ("air", "40621G", "25", "six hexadecimal"), ("air", "40621D", "2x", "a multiple of 25 from -1000"),
    ("air", "40621D", "123456", "a multiple of 25 from -1000"), ("air", "40621D", "50200", "Refused"),
    ("air", "40621D", "26", "Refused"), ("air", "40621D", "-1025", "Refused"),
)


def sent_tables(tries: Tries) -> str:
    """Fractions, metres and differences around the circle; the frames of a position, and how far each is from it."""
    browser = tries.page("send")
    count = compared(browser, SENT, "const text = ({ num, den }) => `${num}/${den}`")
    got = browser.evaluate(ANSWER_CELLS.format("send-steps"))
    # 93000 and 51372 are the codes of the even frame; 428091/8192 is 48.4375 billionths above 52.2572021.
    even = [row[1] for row in got]
    expect(even == ["93000 51372", "52.2572021", "428091/8192", "3.9193726", "64215/16384",
                    "0.000000048 degrees, about 0.01 m", "-0.000000041 degrees, about 0.00 m"], got)
    heads = [row[0] for row in got]
    expect(heads == ["latitude and longitude code", "latitude", "latitude, exact", "longitude", "longitude, exact",
                     "latitude error", "longitude error"], heads)
    for lat, lon in ((60.0000123, 10.0000456), (-70.0000789, -179.9999999), (10.0001, 179.9999999)):
        typed(browser, send_lat=str(lat), send_lon=str(lon))
        rows = browser.evaluate(ANSWER_CELLS.format("send-steps"))
        for column in (1, 2):
            for at, factor in ((5, 1.0), (6, math.cos(math.radians(lat)))):
                given, point = (lat, lon)[at - 5], float(rows[at - 4 + (at == 6)][column])
                error, metres = (float(rows[at][column].split(" ")[part]) for part in (0, 3))
                turned = (point - given + 540) % 360 - 180
                expect(abs(turned - error) < 1e-7, rows[at], point, given)
                expect(abs(abs(error) * METRES * factor - metres) < 0.0051, rows[at][column], factor)
        expect([row[1:] for row in rows] != [row[:0:-1] for row in rows], "both frames have the same steps")
        count += 4
    count += sent_heads(browser)
    typed(browser, send_feet="25")
    heads = texts_of(browser, "#send-answer h3")
    expect(heads == ["Even frame", "Odd frame"], heads)
    return f"{count} values"


def sent_heads(browser: Chromium) -> int:
    """The frames of heads, or why there are none. Returns how many heads there are."""
    for kind, address, feet, said in HEADS:
        clicked(browser, f"[name=send-kind][value={kind}]")
        typed(browser, send_lat="1", send_lon="2", send_address=address, send_feet=feet)
        frames = texts_of(browser, "#send-answer code")
        expect(browser.evaluate("document.getElementById('send-feet-field').hidden") == (kind == "ground"), kind)
        if said is None or "feet" in said or "no " in said:
            read = browser.evaluate(f"{json.dumps(frames)}.map((frame) => [squitterLog.library.read(frame), "
                                    "document.querySelectorAll('#send-steps tr').length]).map(([read, rows]) => "
                                    "[read.odd, read.address, read.kind, read.kind === 1 ? altitudeMeans(read) : null, "
                                    "rows])")
            kinds = {"air": 1, "ground": 2}
            expect(read == [[odd, 0x40621D, kinds[kind], said, 8] for odd in (0, 1)], kind, address, feet, read)
        else:
            parts = browser.evaluate("['send-near', 'send-steps'].map((id) => byId(id).children.length)")
            expect(frames == [] and said in shown(browser, "#send-answer") and parts == [0, 0], feet, frames, parts)
    return len(HEADS)
