"""Parts of tests/page about the map of a log: the land, the labels, and the aircraft that is selected."""
import functools
import json
import math
from typing import List, Tuple

from chromium import Chromium
from logs import NEAR, flights, tracked
from trying import Tries, expect
from using import changed, clicked, example_page, heard, value_of

# Places, off the lines of the grid, and whether they are on land: inside countries, in seas, and in a sea within the
# land.
PLACES = (
    ("France", 2.5, 46.6, True), ("Kansas", -98.4, 38.6, True), ("Australia", 134.3, -24.2, True),
    ("Chukotka, east of 180 degrees", -178.3, 67.6, True), ("Russia, on the Black Sea", 40.2, 44.6, True),
    ("Atlantic", -33.3, 43.7, False), ("Bay of Biscay", -6.3, 45.6, False), ("Pacific", -153.2, 12.4, False),
    ("Caspian Sea", 50.7, 41.4, False), ("Congo, north of the equator", 26.3, 1.4, True),
    ("Congo, south of the equator", 21.4, -1.7, True), ("Antarctica", 63.3, -76.4, True),
    ("Antarctica, near the pole", 140.5, -85.3, True), ("Arctic", 7.3, 87.3, False),
)

# A copy of the map, to be read.
PEN = """(() => {
  const { canvas } = squitterLog.map, { width, height } = canvas;
  const copy = Object.assign(document.createElement("canvas"), { width, height });
  const pen = copy.getContext("2d", { willReadFrequently: true });
  pen.drawImage(canvas, 0, 0);
  return pen;
})()"""

# What the map shows at a place: the colour of the pixel there, by its name in style.css.
PIXEL = f"(() => {{ const pen = {PEN}; return " + """(lon, lat) => {
  const { map } = squitterLog, canvas = map.canvas, { x, y } = map.spot({ lon, lat });
  const style = getComputedStyle(canvas);
  if (x < 1 || y < 1 || x > canvas.clientWidth - 1 || y > canvas.clientHeight - 1) return "outside";
  const [red, green, blue] = pen.getImageData(Math.round(x), Math.round(y), 1, 1).data;
  const color = "#" + [red, green, blue].map((part) => part.toString(16).padStart(2, "0")).join("");
  return ["sea", "land", "coast"].find((name) => style.getPropertyValue(`--${name}`).trim() === color) ?? color;
} })()"""

# The map around a place, in a projection, with so many points of the page for a degree.
AROUND = """((name, lon, lat, scale) => {
  const { map } = squitterLog;
  map.wanted = name;
  map.fit();
  map.center = { x: map.projection.x(lon, lat), y: map.projection.y(lon, lat) };
  map.scale = scale;
  map.draw();
})"""


def land(tries: Tries) -> str:
    """Land is drawn where land is, and sea elsewhere: in each projection, with both levels of detail, in light and
    dark, and after the map was moved. Where the coast would be wrong by many points it is not drawn."""
    browser, count = tries.page("log"), 0
    for dark in (False, True):
        browser.look(dark=dark)
        for view in ("plain", "mercator", "north", "south"):
            for scale in (3, 30):
                count += sum(is_shown(browser, place, view, scale) for place in PLACES)
    expect(count > 80, "only", count, "places are shown")
    browser.evaluate(f"{AROUND}('plain', 2.5, 46.6, 20)")
    before = browser.evaluate("squitterLog.map.land.drawings")
    for step in range(6):
        browser.evaluate("squitterLog.map.move(-20, 12); squitterLog.map.draw()")
        expect(browser.evaluate(f"{PIXEL}(2.5, 46.6)") == "land", "France after a move")
        expect(browser.evaluate(f"{PIXEL}(-6.3, 45.6)") == "sea", "the sea after a move")
    drawings = browser.evaluate("squitterLog.map.land.drawings") - before
    expect(drawings <= 1, "the land was drawn", drawings, "times for six moves")
    browser.evaluate("squitterLog.map.move(-900, 0); squitterLog.map.draw()")
    expect(browser.evaluate(f"{PIXEL}(66.4, 48.3)") == "land", "Kazakhstan after a long move")
    browser.evaluate(f"{AROUND}('plain', 2.5, 46.6, 3000)")
    # (off the lines of the grid, which are 0.05 degrees apart)
    expect(browser.evaluate(f"{PIXEL}(2.512, 46.612)") not in ("land", "sea"), "land on a map that is too close for it")
    for view, lon, lat in (("plain", 0.7, 93), ("north", 44, -20), ("south", 44, 20)):
        browser.evaluate(f"{AROUND}('{view}', {lon} + 1, {lat} + 0.3, 3)")
        expect(browser.evaluate(f"{PIXEL}({lon}, {lat})") not in ("land", "sea", "outside"), "sea beyond the map of",
               view)
    pictures = pictured_land(browser)
    return f"{count} places, {pictures} pictures"


def is_shown(browser: Chromium, place: Tuple[str, float, float, bool], view: str, scale: int) -> bool:
    """Whether a view shows a place; then it has the right colour."""
    name, lon, lat, on_land = place
    seen = abs(lat) < 84 if view == "mercator" else view == "plain" or (lat > 0) == (view == "north")
    if seen:
        browser.evaluate(f"{AROUND}('{view}', {lon} - 1, {lat} + 0.3, {scale})")
        got = browser.evaluate(f"{PIXEL}({lon}, {lat})")
        expect(got == ("land" if on_land else "sea"), name, "is", got, "in", view, "at scale", scale)
    return seen


# Whether the path of the land in a picture has a place in it; the picture is a grid of equal degrees.
IN_PICTURE = """((selector, lon, lat, middle, wide, high) => {
  const picture = document.querySelector(selector), path = picture.querySelector(".way-land");
  if (!path) return null;
  const { width, height } = picture.viewBox.baseVal;
  const at = { x: width / 2 * (1 + (lon - middle.lon) / wide), y: height / 2 * (1 - (lat - middle.lat) / high) };
  return path.isPointInFill(Object.assign(picture.createSVGPoint(), at));
})"""


def pictured_land(browser: Chromium) -> int:
    """Land is in the pictures of a position and of what is encoded; a picture of some metres has none. Returns how
    many pictures there are."""
    whole = "{ lon: 0, lat: 0 }, 180, 90"
    shown_whole = (("place", "[data-link^='#pair=8C4841']", "#place-answer"), ("send", "#tab-send", "#send-map"))
    for tab, example, picture in shown_whole:
        clicked(browser, f"#tab-{tab}")
        clicked(browser, example)
        for name, lon, lat, on_land in PLACES:
            got = browser.evaluate(f"{IN_PICTURE}('{picture} svg', {lon}, {lat}, {whole})")
            expect(got == on_land, name, "is", got, "in", picture)
    clicked(browser, "#tab-place")
    clicked(browser, "[data-link^='#local']")
    local = "{ lon: 3.918, lat: 52.258 }, 16, 9.6"
    for lon, lat, on_land in ((2.5, 46.6, True), (3, 55, False), (-2, 53, True)):
        got = browser.evaluate(f"{IN_PICTURE}('#place-answer svg', {lon}, {lat}, {local})")
        expect(got == on_land, lon, lat, "is", got, "near the reference")
    browser.evaluate("byId('place-answer').replaceChildren(wayPicture('', [], { middle: { lon: 179, lat: 67 }, "
                     "wide: 20, high: 10 }))")
    for lon, on_land in ((170, True), (181.7, True), (191, False)):
        got = browser.evaluate(f"{IN_PICTURE}('#place-answer svg', {lon}, 67.6, {{ lon: 179, lat: 67 }}, 20, 10)")
        expect(got == on_land, lon, "is", got, "in a picture over 180 degrees")
    expect(browser.evaluate("document.querySelector('#send-near .way-land')") is None, "land in a picture of metres")
    clicked(browser, "#tab-log")
    return 5


# Aircraft that fly close together, each from a place of its own; every tenth is on the ground.
CROWD = """((count) => {
  const tracks = new Tracks(10000);
  let seed = 1;
  const random = () => (seed = seed * 16807 % 2147483647) / 2147483647;
  for (let aircraft = 0; aircraft < count; aircraft++) {
    let lon = 5 + 4 * random(), lat = 48 + 2 * random();
    const turn = 2 * Math.PI * random(), kind = 1 + (aircraft % 10 === 0);
    for (let step = 0; step < 50; step++) {
      lon += 0.01 * Math.cos(turn);
      lat += 0.01 * Math.sin(turn);
      tracks.addPlace(0x400000 + 4321 * aircraft, lon, lat, 500 * step, step, kind);
    }
  }
  tracks.change();
  squitterLog.tracks = tracks;
  squitterLog.map.show(tracks);
  squitterLog.map.draw();
})"""

LABELS = "squitterLog.map.labels.map(({ text, box: { x, y, wide, high } }) => [text, x, y, wide, high])"

# Which labels have no ink in their boxes.
BARE = f"(() => {{ const pen = {PEN};" + """
  const ink = getComputedStyle(squitterLog.map.canvas).getPropertyValue("--ink").trim();
  const wanted = [1, 3, 5].map((at) => parseInt(ink.slice(at, at + 2), 16));
  return squitterLog.map.labels.filter(({ box: { x, y, wide, high } }) => {
    const { data } = pen.getImageData(x, y, wide, high);
    return !data.some((part, at) => at % 4 === 0 && wanted.every((one, of) => Math.abs(data[at + of] - one) < 40));
  }).map(({ text }) => text);
})()"""


# The labels of the grid, as they are drawn.
GRID_LABELS = """(() => {
  const { map } = squitterLog, { prototype } = CanvasRenderingContext2D, { fillText } = prototype, found = [];
  prototype.fillText = function (text, x, y) {
    if (this.canvas === map.canvas) found.push([text, x, y - 9, this.measureText(text).width, 9]);
    return fillText.call(this, text, x, y);
  };
  map.draw();
  prototype.fillText = fillText;
  return found;
})()"""


def overlapping(labels: List[list]) -> List[Tuple[str, str]]:
    """The labels that share a point, by their boxes."""
    return [(a[0], b[0]) for at, a in enumerate(labels) for b in labels[:at]
            if a[1] < b[1] + b[3] and b[1] < a[1] + a[3] and a[2] < b[2] + b[4] and b[2] < a[2] + a[4]]


def labels(tries: Tries) -> str:
    """No label of a crowded map overlaps another or the buttons, each is drawn in its box, and the selected aircraft
    has one wherever it is."""
    browser, count = tries.page("log"), 0
    browser.evaluate(f"{CROWD}(400)")
    for scale in (None, 200, 1000):
        if scale:
            browser.evaluate(f"squitterLog.map.scale = {scale}; squitterLog.map.draw()")
        got = browser.evaluate(LABELS)
        expect(len(got) > 10, "only", len(got), "labels at", scale)
        expect(not overlapping(got), "labels overlap:", overlapping(got))
        size = browser.evaluate("squitterLog.map.size")
        for text, x, y, wide, high in got:
            expect(wide > 30 and high > 8, text, "is", wide, "by", high)
            expect(x >= 0 and y >= 0 and x + wide <= size["width"] and y + high <= size["height"], text, "is cut")
            expect(x + wide < size["width"] - 44 or y > 140, text, "is below the buttons")
        bare = browser.evaluate(BARE)
        expect(bare == [], "not where their boxes are:", bare)
        count += len(got)
        grid = browser.evaluate(GRID_LABELS)
        expect(len(grid) > 3, "the grid has only", grid)
        expect(not overlapping(got + grid), "labels and the grid's overlap:", overlapping(got + grid))
    left_out = browser.evaluate(
        "squitterLog.map.fit(), squitterLog.map.draw(), [...squitterLog.tracks.all.keys()].filter((address) =>"
        " !squitterLog.map.labels.some(({ text }) => text === hexadecimal(address, 6)))"
    )
    expect(len(left_out) > 100, "only", len(left_out), "labels are left out")
    for address in left_out[:20]:
        browser.evaluate(f"squitterLog.map.select({address}); squitterLog.map.draw()")
        first = browser.evaluate(LABELS)[0][0]
        expect(first == f"{address:06X}", "the first label is", first)
    return f"{count} labels"


def selected(tries: Tries) -> str:
    """The example opens on one flight, which is selected and fills a part of the map. The map comes into view, and the
    focus stays. A click on a track selects another, and the map is drawn again for it."""
    browser = tries.page("log")
    for width, height in ((1280, 800), (390, 844)):
        browser.look(width, height, False)
        browser.evaluate("scrollTo(0, 0); document.getElementById('log-example').focus()")
        clicked(browser, "#log-example")
        heard(browser)
        expect(browser.evaluate("document.activeElement.id") == "log-example", "the focus has moved")
        box = browser.evaluate("(({ top, bottom }) => [top, bottom])(document.getElementById('map')"
                               ".getBoundingClientRect())")
        expect(0 <= box[0] and box[1] <= height, "the map is at", box, "of", height)
        chosen = value_of(browser, "map-address")
        expect(chosen == "484004" and browser.evaluate("squitterLog.map.address") == 0x484004, "selected is", chosen)
        spots = browser.evaluate("squitterLog.tracks.pieces(0x484004).flatMap(({ lons, lats }) => "
                                 "Array.from(lons, (lon, at) => squitterLog.map.spot({ lon, lat: lats[at] })))")
        size = browser.evaluate("squitterLog.map.size")
        for name, most in (("x", size["width"]), ("y", size["height"])):
            seen = [spot[name] for spot in spots]
            expect(0 < min(seen) and max(seen) < most, name, "goes from", min(seen), "to", max(seen), "of", most)
        shares = [(max(spot[name] for spot in spots) - min(spot[name] for spot in spots)) / size[side]
                  for name, side in (("x", "width"), ("y", "height"))]
        expect(max(shares) > 0.3, "the flight fills", shares, "of the map")
    kinds = browser.evaluate("squitterLog.tracks.pieces(0x484004).map(({ kind, joined }) => [kind, joined])")
    expect(kinds == [[2, False], [1, True]], "the pieces of a take-off are", kinds)
    browser.look()
    clicked(browser, "[data-map=fit]")
    changed(browser, map_address="")
    expect(browser.evaluate("Number.isNaN(squitterLog.map.address)"), "all is not shown")
    wide = [browser.evaluate(f"squitterLog.map.draw(), {LINE_WIDE}(0x3C0005)") for _ in range(2)]
    browser.evaluate("squitterLog.map.choose(squitterLog.tracks.newest(0x3C0005))")
    browser.evaluate("squitterLog.map.choose(null)")
    wide += [browser.evaluate(f"squitterLog.map.draw(), {LINE_WIDE}(0x3C0005)") for _ in range(2)]
    expect(wide[0] == wide[1] and wide[2] == wide[3] > wide[0], "the mark is", wide, "points wide")
    expect(value_of(browser, "map-address") == "3C0005", "the field stays")
    return "an example on a desktop and on a phone"


# How many points the mark of an aircraft is wide on the map: those that are neither land nor sea.
LINE_WIDE = f"(() => {{ const pen = {PEN}; return " + """(address) => {
  const { map, tracks } = squitterLog, { x, y } = map.spot(tracks.newest(address));
  const style = getComputedStyle(map.canvas), below = ["sea", "land", "coast", "grid"].map((name) =>
    [1, 3, 5].map((at) => parseInt(style.getPropertyValue(`--${name}`).trim().slice(at, at + 2), 16)));
  const { data } = pen.getImageData(Math.round(x) - 10, Math.round(y), 20, 1);
  const isBelow = (at) => below.some((color) => color.every((part, of) => Math.abs(data[at + of] - part) < 3));
  return Array.from({ length: 20 }, (_, at) => 4 * at).filter((at) => !isBelow(at)).length;
} })()"""


# Four aircraft: one in the air and one on the ground go along a line each, one flies around a circle, and one over 180
# degrees. A degree has 100 points of the page, and the middle of the map is a point of it.
FOUR = """(() => {
  const { map } = squitterLog, tracks = squitterLog.tracks = new Tracks(10000);
  for (let step = 0; step <= 40; step++) {
    tracks.addPlace(1, -2 + step / 10, 1, 500 * step, step, Kind.AIR);
    tracks.addPlace(2, -2 + step / 10, -1, 500 * step, step, Kind.GROUND);
    const turn = step / 20 * Math.PI;
    tracks.addPlace(3, 3 + 0.3 * Math.cos(turn), 0.3 * Math.sin(turn), 500 * step, step, Kind.AIR);
    tracks.addPlace(4, (step < 20 ? 178 : -182) + step / 10, -1.5, 500 * step, step, Kind.AIR);
  }
  tracks.change();
  map.show(tracks);
  map.wanted = "plain";
  map.fit();
  map.center = { x: 0, y: 0 };
  map.scale = 100;
})()"""

# Whether points of the map, from a place to the right and down, have the colour of a track. The middle of a map with an
# even size is the corner of four points.
IN_COLOR = f"(() => {{ squitterLog.map.draw(); const pen = {PEN}; return " + """(index, lon, lat, points) => {
  const { map } = squitterLog, { x, y } = map.spot({ lon, lat });
  const color = getComputedStyle(map.canvas).getPropertyValue(`--track${index}`).trim();
  const wanted = [1, 3, 5].map((at) => parseInt(color.slice(at, at + 2), 16));
  return points.map(([right, down]) => {
    const { data } = pen.getImageData(Math.floor(x + right), Math.floor(y + down), 1, 1);
    return wanted.every((part, at) => Math.abs(data[at] - part) < 25);
  });
} })()"""


def in_color(browser: Chromium, index: int, lon: float, lat: float, points: List[Tuple[int, int]]) -> List[bool]:
    """Whether points to the right of a place and below it have the colour of a track."""
    return list(browser.evaluate(f"{IN_COLOR}({index}, {lon}, {lat}, {json.dumps(points)})"))


def drawn_tracks(tries: Tries) -> str:
    """An aircraft in the air has a circle and a whole line, and one on the ground a square and a dashed line. A curve
    has all its corners. Nothing goes across the map at 180 degrees. A silent aircraft has a hollow mark in a replay."""
    browser = tries.page("log")
    browser.evaluate(FOUR)

    colored = functools.partial(in_color, browser)
    for index, lat, is_ground in ((0, 1, False), (1, -1, True)):
        corner, middle = colored(index, 2, lat, [(3, 3), (1, 1)])
        expect(middle and corner == is_ground, index, "has a mark with", middle, corner)
        line = colored(index, -2, lat, [(at, 0) for at in range(20, 320)])
        share = sum(line) / len(line)
        expect(0.3 < share < 0.75 if is_ground else share > 0.99, index, "has a line with", share)
    corners = [(round(30 * math.cos(turn / 20 * math.pi)), round(-30 * math.sin(turn / 20 * math.pi)))
               for turn in range(40)]
    near = [any(colored(2, 3, 0, [(x + right, y + down) for right in (-1, 0) for down in (-1, 0)]))
            for x, y in corners]
    expect(sum(near) >= 38, "the circle has", sum(near), "of its corners")
    across = colored(3, -3, -1.5, [(at, down) for at in range(0, 600, 7) for down in (-1, 0)])
    expect(not any(across), "a line goes across the map")
    browser.evaluate("(() => { const fewer = new Tracks(10000); fewer.addPlace(1, -2, 1, 0, 1, Kind.AIR); "
                     "fewer.addPlace(1, 2, 1, 20000, 2, Kind.AIR); fewer.change(); squitterLog.map.draw(); "
                     "squitterLog.tracks = squitterLog.map.tracks = fewer; squitterLog.map.draw() })()")
    line = colored(0, -2, 1, [(at, 0) for at in range(20, 320)])
    expect(not any(line), "tracks of another log are drawn where it was silent")
    browser.evaluate(FOUR)
    for until, is_silent in ((15_000, False), (29_999, False), (30_001, True)):
        browser.evaluate(f"squitterLog.map.until = {until}; 0")
        lon = -2 + min(until // 500, 40) / 10
        middle, side = colored(1, lon, -1, [(0, 0), (4, 0)])
        expect(middle != is_silent, "the middle of a mark at", until, "is", middle)
        expect(side or not is_silent, "the border of a hollow mark is not drawn")
    return "four aircraft"


def saved_rows(tries: Tries) -> str:
    """The example as CSV is what the program prints for it, and each row of the table has the altitude that is there,
    below a header that stays."""
    browser = example_page(tries)
    clicked(browser, "#log-csv")
    got, wanted = tries.downloaded("answers.csv"), tracked(tries.program, flights(), NEAR, "csv")
    expect(got == wanted, got[:300], wanted[:300])
    expect(browser.evaluate("document.querySelectorAll('a[download]').length") == 0, "a link to the file is left")
    rows = [line.split(",") for line in wanted.decode().splitlines()[1:]]
    count = 0
    while True:
        shown_rows = browser.evaluate("[...document.querySelectorAll('#log-table tbody tr')].map((row) => "
                                      "[...row.cells].map((cell) => cell.textContent))")
        for line, time, answer, address, lat, lon, feet in shown_rows:
            row = rows[int(line) - 1]
            expect([address, lat, lon] == [row[3], *row[5:7]], line, "has", address, lat, lon, "and not", row)
            expect(feet == (f"{row[7]} ft" if row[7] else ""), line, "has the altitude", feet, "and not", row[7])
            expect(answer.split(" ")[0] == (row[2].split(" ")[0] if row[3] else "refused:"), line, answer, row)
            count += 1
        if browser.evaluate("document.getElementById('log-on').disabled"):
            break
        clicked(browser, "#log-on")
    expect(count == len(rows), count, "rows of", len(rows))
    clicked(browser, "#log-back")
    tops = browser.evaluate(
        "(() => { const box = document.getElementById('log-rows-box'), head = box.querySelector('th');"
        "const top = () => head.getBoundingClientRect().top - box.getBoundingClientRect().top;"
        "const before = top(); box.scrollTop = 300; return [before, top(), box.scrollTop, box.clientHeight] })()"
    )
    expect(abs(tops[0] - tops[1]) < 2 and tops[2] == 300 and tops[3] < 500, "the header moves:", tops)
    return f"{count} rows"


CLOCKS = (
    # first moment, moment, title, exact text, text
    (0, 0, "Time", "0:00:00.000", "0:00:00"),
    (0, 999, "Time", "0:00:00.999", "0:00:00"),
    (0, 1_000_000, "Time", "0:16:40.000", "0:16:40"),
    (0, 3_599_999, "Time", "0:59:59.999", "0:59:59"),
    (0, 3_600_000, "Time", "1:00:00.000", "1:00:00"),
    (1_000_000, 1_000_000, "Time", "0:00:00.000", "0:00:00"),
    (1_000_000, 1_060_050, "Time", "0:01:00.050", "0:01:00"),
    (1_000_000, 938_950, "Time", "-0:01:01.050", "-0:01:01"),
    (0, 2**64 - 1, "Time", "5124095576030:25:51.615", "5124095576030:25:51"),
    (946_684_799_999, 946_684_800_000, "Time", "0:00:00.001", "0:00:00"),
    (946_684_800_000, 946_684_800_000, "Time (UTC)", "2000-01-01 00:00:00.000", "2000-01-01 00:00:00"),
    (1_700_000_000_123, 1_700_000_000_123, "Time (UTC)", "2023-11-14 22:13:20.123", "2023-11-14 22:13:20"),
    (1_700_000_000_123, 1_709_251_199_999, "Time (UTC)", "2024-02-29 23:59:59.999", "2024-02-29 23:59:59"),
    (4_102_444_799_999, 4_102_444_799_999, "Time (UTC)", "2099-12-31 23:59:59.999", "2099-12-31 23:59:59"),
    (4_102_444_800_000, 4_102_444_800_500, "Time", "0:00:00.500", "0:00:00"),
    # moments outside 2000 to 2100 of a log that has dates, and one within of a log that has none
    (946_684_800_000, 946_684_799_999, "Time (UTC)", "-0:00:00.001", "-0:00:00"),
    (4_102_444_799_999, 4_102_444_800_000, "Time (UTC)", "0:00:00.001", "0:00:00"),
    (0, 1_700_000_000_123, "Time", "472222:13:20.123", "472222:13:20"),
)


def times(tries: Tries) -> str:
    """Moments as times: since the first one, or of UTC if they count from 1970; in the table, below the map and beside
    the slider."""
    browser = tries.page("log")
    for first, moment, *wanted in CLOCKS:
        got = browser.evaluate(f"((clock) => [clock.title, clock.text({moment}n), clock.text({moment}n, false)])("
                               f"new LogClock({first}n))")
        expect(got == wanted, first, moment, "is", got, "and not", wanted)
        got = browser.evaluate(f"[true, false].map((isExact) => new LogClock({first}n).named({moment}n, isExact))")
        expect(got == [text + (" UTC" if text[4] == "-" else "") for text in wanted[1:]], first, moment, "is", got)
    log = flights().decode().splitlines()
    for later, titles, first, last, end in (
        (0, "Time", "0:00:00.000", "0:03:49.930", "0:03:49"),
        (5000, "Time", "0:00:00.000", "0:03:49.930", "0:03:49"),
        (1_700_000_000_000, "Time (UTC)", "2023-11-14 22:13:20.000", "2023-11-14 22:17:09.930", "2023-11-14 22:17:09"),
    ):
        moved = "\n".join(f"{int(line.split()[0]) + later} {line.split()[1]}" for line in ["x", *log][1:])
        browser.evaluate(f"squitterLog.hear(new Blob([{json.dumps(moved)}]), 'moved')")
        heard(browser)
        title, cell = browser.evaluate("[document.getElementById('log-time').textContent, "
                                       "document.querySelector('#log-table tbody .cell-time').textContent]")
        browser.evaluate("squitterLog.map.choose(squitterLog.tracks.newest(0x3C0005))")
        spot, output = browser.evaluate("[document.getElementById('map-spot').textContent, "
                                        "document.getElementById('play-moment').textContent]")
        unit = " UTC" if later > 10_000 else ""
        expect([title, cell, output] == [titles, first, end + unit], later, title, cell, output)
        expect(f", {last}{unit}, " in spot and ", 7525 ft, " in spot, spot)
    return f"{len(CLOCKS)} moments, 3 logs"
