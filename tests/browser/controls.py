"""Parts of tests/page about its controls: how the map and the small map are moved, what a replay shows, the settings
and words of a log, its table, and the tabs. Values are worked out by hand, at the borders and beside them."""
import math

from chromium import Chromium
from trying import Tries, expect
from using import changed, clicked, dropped, given_log, heard, pressed, says, shown, typed
from values import Rows, compared

# The map of the panel with tracks of its own, in equal degrees, 100 points for a degree around 0 degrees.
MOVED = """const { map } = squitterLog, tracks = new Tracks(1000), place = (...words) => tracks.addPlace(...words);
place(1, 1, 0.5, 1000, 1, 1); place(1, 2, 1, 1500, 2, 1); place(2, 3, -1, 5000, 3, 1); place(3, -4, 0, 100, 4, 1);
tracks.change(); squitterLog.tracks = tracks; map.wanted = "plain"; map.show(tracks);
const { width, height } = map.size, look = () => { map.center = { x: 0, y: 0 }; map.scale = 100; };
const key = (name, more = {}) => { const event = new KeyboardEvent("keydown", { key: name, cancelable: true, ...more });
  map.canvas.dispatchEvent(event); return [map.center.x, map.center.y, map.scale, event.defaultPrevented]; };
const near = (lon, lat, right, down) => { const { x, y } = map.spot({ lon, lat }); return map.nearest(x + right,
  y + down)?.line ?? null; };
const pointer = (name, pointerId, offsetX, offsetY) => { const { left, top } = map.canvas.getBoundingClientRect();
  map.canvas.dispatchEvent(new PointerEvent(name, { pointerId, clientX: left + offsetX, clientY: top + offsetY })); };
map.canvas.setPointerCapture = () => {}"""

# Tracks of one aircraft with places (latitude, longitude, ms), watched near a site: the doubts, and the pieces.
WATCHED = """const here = { lat: { num: 0n, den: 1n }, lon: { num: 0n, den: 1n } };
const doubted = (site, ...places) => { const tracks = new Tracks(9e9, new PlaceWatch(squitterLog.library, site));
  places.forEach(([lat, lon, moment], at) => tracks.addPlace(1, lon, lat, moment, at, 1));
  const found = tracks.pieces().map(({ doubts, joined, count }) => [doubts, joined, count]);
  return [tracks.far, tracks.fast, ...found]; };"""
JOINED = [0, 0, [0, False, 2]]

WATCHED_ROWS: Rows = (
    # 2000 knots and a mile: 2001 miles in an hour are 33.35 degrees
    ("doubted(null, [0, 0, 0], [33.35, 0, 3600000])", JOINED),
    ("doubted(null, [0, 0, 0], [33.3500001, 0, 3600000])", [0, 1, [0, False, 1], [2, False, 1]]),
    ("doubted(null, [0, 0, 0], [33.35, 0, 3599999])", [0, 1, [0, False, 1], [2, False, 1]]),
    ("doubted(null, [0, 0, 0], [0.0166666, 0, 0])", JOINED),
    ("doubted(null, [0, 0, 0], [0.0166667, 0, 0])", [0, 1, [0, False, 1], [2, False, 1]]),
    ("doubted(null, [0, 179.99, 0], [0, -179.99, 1000])", [0, 0, [0, False, 1], [0, True, 1]]),
    # 300 miles: 5 degrees of latitude, 300 / 59 of longitude at the equator
    ("doubted(here, [5, 0, 0], [5, 0, 1])", JOINED),
    ("doubted(here, [5.0000001, 0, 0], [5, 0, 1])", [1, 0, [1, False, 1], [0, False, 1]]),
    ("doubted(here, [0, 5.0847457, 0])", [0, 0, [0, False, 1]]),
    ("doubted(here, [0, -5.0847458, 0])", [1, 0, [1, False, 1]]),
    ("doubted(here, [80, 0, 0], [-80, 0, 1])", [2, 1, [1, False, 1], [3, False, 1]]),
    # a track goes on after a doubtful place without a line to it
    ("doubted(null, [0, 0, 0], [9, 0, 1000], [9, 0, 2000], [9, 0, 3000])",
     [0, 1, [0, False, 1], [2, False, 1], [0, False, 2]]),
    ("(doubted(here, [9, 0, 0]), new Tracks(0).far)", 0),
)

FIT = "[map.center.x, map.center.y, map.scale / Math.min(width / {0}, height / {1})]"

MAP_ROWS: Rows = (
    # all tracks fill 85 percent of the map and one fills 40; 0.02 degrees are the fewest; without tracks all is shown
    (f"(map.fit(), {FIT.format(7, 2)})", [-0.5, 0, 0.85]),
    (f"(map.fit(1), [map.address, ...{FIT.format(1, 0.5)}])", [1, 1.5, 0.75, 0.4]),
    (f"(map.fit(2), {FIT.format(0.02, 0.02)})", [3, -1, 0.4]),
    (f"(map.show(new Tracks(0)), {FIT.format(360, 180)})", [0, 0, 1]),
    ("(map.fit(1), map.want('mercator'), [map.address, map.projection.title])", [1, "Mercator"]),
    # the projection suits the track that is shown
    ("(place(4, 0, 75, 1, 5, 1), map.wanted = '', [NaN, 1, 4].map((address) => (map.fit(address), "
     "map.projection.title)))",
     ["Mercator", "Mercator", "around the north pole"]),
    # other tracks are shown from the start, without a choice
    ("(map.choose(tracks.newest(1)), map.until = 5, map.moved = true, map.show(tracks), [map.until === Infinity, "
     "map.chosen, Number.isNaN(map.address), map.moved, byId('map-spot').textContent])",
     [True, None, True, False, "Click or tap on a track to read a position."]),
    ("(map.choose(tracks.newest(1)), [map.address, map.chosen.line])", [1, 2]),
    # zoomed around a point, between half a point and two million for a degree
    ("(look(), [1e9, 1e-12].map((factor) => (map.zoom(factor), map.scale)))", [2_000_000, 0.5]),
    ("(look(), map.zoom(2, width / 2 + 100, height / 2 - 50), [map.center, map.scale, map.moved])",
     [{"x": 0.5, "y": 0.25}, 200, True]),
    # moved by points, to the farthest point of the projection
    ("(look(), map.move(50, 20), [map.center, map.moved])", [{"x": -0.5, "y": 0.2}, True]),
    *((f"(map.want('{name}'), [[-1e9, 1e9], [1e9, -1e9]].map(([x, y]) => (map.move(x, y), [map.center.x, map.center.y, "
       f"map.projection.world.high])))", [[x, y, high], [-x, -y, high]]) for name, x, y, high in (
           ("plain", 200, 95, 90), ("north", 95, 95, 90))),
    ("(map.want('mercator'), map.move(-1e9, 1e9), [map.center.x, map.center.y - map.projection.y(0, 85)])", [200, 0]),
    # the keys
    *((f"(look(), key({words}))", wanted) for words, wanted in (
        ("'ArrowLeft'", [-0.4, 0, 100, True]), ("'ArrowRight'", [0.4, 0, 100, True]),
        ("'ArrowUp'", [0, 0.4, 100, True]), ("'ArrowDown'", [0, -0.4, 100, True]), ("'+'", [0, 0, 150, True]),
        ("'='", [0, 0, 150, True]), ("'-'", [0, 0, 100 / 1.5, True]), ("'x'", [0, 0, 100, False]),
        ("'ArrowLeft', { ctrlKey: true }", [0, 0, 100, False]), ("'+', { metaKey: true }", [0, 0, 100, False]),
        ("'-', { altKey: true }", [0, 0, 100, False]))),
    ("(look(), key('Enter'), [map.chosen.line, map.address, (key('Escape'), map.chosen), map.address])",
     [1, 1, None, 1]),
    ("(map.center = { x: -170, y: 80 }, map.scale = 100, key('Enter'), map.chosen.line)", 4),
    # a position is meant within 16 points, and only if it is shown
    *((f"(look(), near({words}))", wanted) for words, wanted in (
        ("1, 0.5, 16, 0", 1), ("1, 0.5, -16.1, 0", None), ("1, 0.5, 0, 16", 1), ("1, 0.5, 0, -16.1", None),
        ("2, 1, 11, 11", 2), ("2, 1, 12, 12", None))),
    ("(look(), map.scale = 2, [near(1, 0.5, 0, 0), near(2, 1, 0, 0), near(3, -1, 0, 0), near(3, -1, 9, 0)])",
     [1, 2, 3, 3]),
    ("(look(), map.until = 1499, [near(2, 1, 0, 0), near(1, 0.5, 0, 0), near(3, -1, 0, 0)])", [None, 1, None]),
    ("(map.want('south'), look(), [near(1, 0.5, 0, 0), near(3, -1, 0, 0)])", [None, 3]),
    # a map that the reader has moved stays where it is while a log is decoded
    ("(map.took = 0, look(), map.moved = true, map.follow(), map.center.x)", 0),
    ("(map.took = 0, look(), map.moved = false, map.follow(), map.center.x)", -0.5),
    ("(map.took = 1e9, look(), map.moved = false, map.follow(), map.center.x)", 0),
    # a finger moves the map, and two zoom it; a click chooses
    ("(look(), pointer('pointerdown', 1, 100, 50), pointer('pointermove', 1, 130, 40), pointer('pointerup', 1, 130, "
     "40), pointer('pointermove', 1, 200, 200), [map.center.x, map.center.y, map.chosen])", [-0.3, -0.1, None]),
    ("(look(), pointer('pointerdown', 1, 100, 50), pointer('pointermove', 1, 130, 40), pointer('pointermove', 1, 140, "
     "40), pointer('pointerup', 1, 140, 40), [map.center.x, map.center.y])", [-0.4, -0.1]),
    ("(look(), pointer('pointerdown', 1, width / 2 - 50, 80), pointer('pointerdown', 2, width / 2 + 50, 80), "
     "pointer('pointermove', 2, width / 2 + 150, 80), pointer('pointermove', 1, width / 2 - 50, 80), "
     "pointer('pointerup', 1, 0, 0), pointer('pointerup', 2, 0, 0), map.scale)", 200),
    ("(look(), pointer('pointerdown', 1, 10, 10), pointer('pointercancel', 1, 10, 10), pointer('pointermove', 1, 20, "
     "20), map.center.x)", 0),
    *((f"(look(), (({{ x, y }}) => {{ pointer('pointerdown', 1, x, y); pointer('pointerup', 1, x + {right}, y); }})("
       "map.spot({ lon: 1, lat: 0.5 })), map.chosen?.line ?? null)", wanted)
      for right, wanted in ((3, 1), (4.1, None))),
    ("(look(), (({ x, y }) => { pointer('pointerdown', 2, 9, 9); pointer('pointerdown', 1, x, y); "
     "pointer('pointerup', 1, x, y); pointer('pointerup', 2, 9, 9); })(map.spot({ lon: 1, lat: 0.5 })), map.chosen)",
     None),
    *((f"(look(), map.canvas.dispatchEvent(new WheelEvent('wheel', {{ deltaY: {delta}, clientX: map.canvas"
       ".getBoundingClientRect().left + width / 2, clientY: map.canvas.getBoundingClientRect().top + height / 2, "
       "cancelable: true })), map.scale)", wanted) for delta, wanted in (
           (400, 100 / math.e), (-400, 100 * math.e))),
    ("(look(), map.canvas.dispatchEvent(new WheelEvent('wheel', { deltaY: -800, clientX: "
     "map.canvas.getBoundingClientRect().left + width / 2 + 100, clientY: map.canvas.getBoundingClientRect().top + "
     "height / 2, cancelable: true })), [map.center.x > 0.8, Math.abs(map.center.y) < 0.01])", [True, True]),
    ("(look(), map.view({ x: 30, y: 10 }))",
     "{ left: -(width / 2 + 30) / 100, right: (width / 2 + 30) / 100, low: -(height / 2 + 10) / 100, "
     "high: (height / 2 + 10) / 100 }"),
    # the buttons
    *((f"(look(), document.querySelector('[data-map={name}]').click(), map.scale)", wanted)
      for name, wanted in (("in", 150), ("out", 100 / 1.5))),
)

# How often the map is drawn again in two frames after a change.
REDRAWN = """(async (change) => {
  const { map } = squitterLog, { draw } = map, frame = () => new Promise(requestAnimationFrame);
  await frame(); await frame();
  let count = 0;
  map.draw = () => { count++; draw.call(map); };
  change(); change();
  await frame(); await frame();
  delete map.draw;
  return count;
})"""


def map_moved(tries: Tries) -> str:
    """The map is fitted, zoomed, moved and clicked on; it is drawn again once for several changes, and shows no more
    than it has to."""
    browser = tries.page("log")
    for script, wanted in MAP_ROWS:
        wanted = browser.evaluate(f"(() => {{ {MOVED}; return {wanted} }})()") if isinstance(wanted, str) and \
            wanted.startswith("{") else wanted
        compared(browser, ((script, wanted),), MOVED)
    for change in ("squitterLog.map.redraw()", "squitterLog.map.select(5)", "dispatchEvent(new Event('resize'))"):
        times = [browser.evaluate(f"{REDRAWN}(() => {change})") for _ in range(2)]
        expect(times == [1, 1], change, "draws", times)
    drawn = browser.evaluate("squitterLog.map.drawn")
    browser.look(dark=True)
    browser.wait(f"squitterLog.map.drawn > {drawn}", 5)
    ratios = browser.evaluate("(() => { const { map } = squitterLog, found = []; for (const ratio of [2, 1]) { "
                              "Object.defineProperty(window, 'devicePixelRatio', { value: ratio, configurable: true "
                              "}); "
                              "map.draw(); found.push(map.canvas.width / map.canvas.clientWidth); } return found })()")
    expect(ratios == [2, 1], "pixels for a point:", ratios)
    said = browser.evaluate("(() => { const { map } = squitterLog, { say } = map.told, found = []; map.told.say = "
                            "(text) => found.push(text); map.say('a'); map.say('a'); map.say('b'); map.told.say = say; "
                            "return found })()")
    expect(said == ["a", "b"], "the map says", said)
    browser.look()
    red = browser.evaluate("(() => { const { map } = squitterLog, { width, height } = map.canvas, copy = Object.assign("
                           "document.createElement('canvas'), { width, height }).getContext('2d', { "
                           "willReadFrequently: true }), pen = map.canvas.getContext('2d'); map.scale = 3000; "
                           "pen.fillStyle = '#f00'; pen.fillRect(0, 0, width, height); map.draw(); "
                           "copy.drawImage(map.canvas, 0, 0); const { data } = copy.getImageData(0, 0, width, height); "
                           "let count = 0; for (let at = 0; at < data.length; at += 4) count += data[at] === 255 && "
                           "data[at + 1] === 0 && data[at + 3] === 255; return count })()")
    expect(red == 0, red, "points of the drawing before are left")
    return f"{len(MAP_ROWS)} values"


def places_watched(tries: Tries) -> str:
    """Places that cannot be true are told from others, at the borders and beside them; no line joins them."""
    browser = tries.page("log")
    compared(browser, WATCHED_ROWS, WATCHED)
    # an even frame from 52 4 and an odd one from 53.5 9, of two aircraft with one address
    typed(browser, log_lat="52.31", log_lon="4.76")
    given_log(browser, tries, b"0 8D4840D658C382AAAACCCDB6CB17\n400 8D4840D658C387127FB3335D4BDB\n")
    expect(heard(browser) == b"1 waiting 4840D6\n2 fix 4840D6 -38.0254041 -165.5217511\n", "another ocean")
    says(browser, "Doubtful, drawn hollow: 1 position more than 300 nautical miles from your receiver.")
    expect("doubtful\":true" in browser.evaluate("JSON.stringify(squitterLog.tracks.geojson())"), "no doubt is saved")
    return f"{len(WATCHED_ROWS)} values"


PLAYED = """const { playback, map } = squitterLog, tracks = new Tracks(1000), asked = [];
tracks.addPlace(1, 0, 0, 1000, 1, 1); tracks.addPlace(1, 0, 0, 5000, 2, 1);
playback.pause(); playback.take(tracks, new LogClock(1000n));
const shown = () => [playback.moment, map.until === Infinity ? null : map.until, byId("play-slider").value,
  byId("play-moment").textContent, byId("play-slider").getAttribute("aria-valuetext") ===
    byId("play-moment").textContent];
const button = () => byId("play-button").textContent, disabled = () => ["play-button", "play-slider", "play-speed"].map(
  (name) => byId(name).disabled);
window.requestAnimationFrame = (call) => { asked.push(call); return 0; };
byId("play-speed").value = "60";
const slid = (value) => { byId("play-slider").value = value; byId("play-slider").dispatchEvent(new Event("input"));
  return shown(); }"""

PLAY_ROWS: Rows = (
    ("[shown(), disabled(), button()]", [[5000, None, "1000", "0:00:04", True], [False, False, False], "Play"]),
    *((f"(playback.go({moment}), shown())", wanted) for moment, wanted in (
        (3000, [3000, 3000, "500", "0:00:02", True]), (999, [1000, 1000, "0", "0:00:00", True]),
        (4999, [4999, 4999, "999", "0:00:03", True]), (9999, [5000, None, "1000", "0:00:04", True]),
        (1003.9, [1003.9, 1003.9, "0", "0:00:00", True]), (1004, [1004, 1004, "1", "0:00:00", True]))),
    ("[slid('250'), slid('0'), slid('1000')]",
     [[2000, 2000, "250", "0:00:01", True], [1000, 1000, "0", "0:00:00", True], [5000, None, "1000", "0:00:04", True]]),
    # from the end it plays from the start: by the moment of each frame and the speed, and never backwards
    ("(playback.play(), [playback.moment, button(), asked.length])", [1000, "Pause", 1]),
    ("(playback.go(2000), playback.play(), playback.moment)", 2000),
    ("(playback.play(), playback.before = 100, playback.tick(110), [playback.moment, (playback.tick(115), "
     "playback.moment), (playback.tick(90), playback.moment), asked.length])", [1600, 1900, 1900, 4]),
    ("(byId('play-speed').value = '10', playback.play(), playback.before = 100, playback.tick(110), playback.moment)",
     1100),
    ("(playback.play(), playback.before = 100, playback.tick(1000), [...shown().slice(0, 3), button(), "
     "playback.playing, asked.length])", [5000, None, "1000", "Play", False, 1]),
    ("(playback.play(), playback.pause(), playback.before = 100, playback.tick(110), [playback.moment, asked.length])",
     [1000, 1]),
    ("(playback.play(), slid('500'), [playback.playing, button()])", [False, "Play"]),
    ("(byId('play-button').click(), [button(), (byId('play-button').click(), button())])", ["Pause", "Play"]),
    ("(playback.before = -1e9, playback.play(), playback.tick(performance.now()) , playback.moment < 4000)", True),
    # other tracks stop it, and one moment is nothing to play
    ("(playback.play(), playback.take(tracks, new LogClock(1_700_000_000_000n)), [playback.playing, button()])",
     [False, "Play"]),
    ("(() => { const one = new Tracks(0); one.addPlace(1, 0, 0, 7, 1, 1); playback.take(one, new LogClock(7n)); return "
     "[shown(), disabled()] })()", [[0, None, "1000", "", True], [True, True, True]]),
    ("(() => { const dated = new Tracks(0), first = 1_700_000_000_000; dated.addPlace(1, 0, 0, first, 1, 1); "
     "dated.addPlace(1, 0, 0, first + 1500, 1, 1); playback.take(dated, new LogClock(BigInt(first))); return "
     "shown().slice(2, 4) })()", ["1000", "2023-11-14 22:13:21 UTC"]),
    ("(() => { let count = 0; const { redraw } = map; map.redraw = () => count++; playback.go(3000); delete "
     "map.redraw; return count })()", 1),
)


def replayed(tries: Tries) -> str:
    """What a replay shows at each moment, by the slider, by the clock and at its ends."""
    browser = tries.page("log")
    count = compared(browser, PLAY_ROWS, PLAYED)
    return f"{count} values"


SPOT = """const told = [], holder = byId("send-map"), map = new SpotMap(holder, (lat, lon) => told.push([lat, lon]));
const circle = () => { const one = map.picture.querySelector(".way-place"); return [Number(one.getAttribute("cx")),
  Number(one.getAttribute("cy"))]; };
const land = () => map.picture.querySelector(".way-land")?.getAttribute("d");
const key = (name, shiftKey = false) => { const event = new KeyboardEvent("keydown", { key: name, shiftKey, cancelable:
  true });
  told.length = 0; map.picture.dispatchEvent(event); return [...told, event.defaultPrevented]; };
const pointer = (name, x, y) => { const box = map.picture.getBoundingClientRect(), part = box.width / 400;
  map.picture.dispatchEvent(new PointerEvent(name, { pointerId: 1, clientX: box.left + x * part, clientY:
    box.top + y * part }));
  return told.splice(0).map((one) => one.map(Number).map((number) => Math.round(number * 100) / 100)); };
map.picture.setPointerCapture = () => {}; map.show({ lon: 18, lat: 9 })"""

SPOT_ROWS: Rows = (
    ("[circle(), map.middle, (map.show({ lon: -180, lat: 90 }), map.middle)]",
     [[220, 90], {"lon": 0, "lat": 0}, {"lon": 0, "lat": 0}]),
    # 20 degrees are shown, around the position: it stays in view while it moves to ten points from the side
    ("(map.zoom(20), [circle(), map.middle])", [[200, 100], {"lon": 18, "lat": 9}]),
    *((f"(map.zoom(20), map.show({{ lon: 18 + {east}, lat: 9 + {north} }}), circle())", wanted)
      for east, north, wanted in (
          (18.9, 0, [389, 100]), (19, 0, [200, 100]), (-18.9, 0, [11, 100]), (-19, 0, [200, 100]),
          (0, 8.9, [200, 11]), (0, 9, [200, 100]), (0, -8.9, [200, 189]), (0, -9, [200, 100]))),
    ("(map.zoom(20), map.isHeld = true, map.show({ lon: 37.5, lat: 9 }), circle())", [395, 100]),
    ("(map.zoom(20), map.zoom(180), [circle(), map.middle])", [[220, 90], {"lon": 0, "lat": 0}]),
    # the land is that of the view
    ("(() => { const whole = land(); map.zoom(20); const near = land(); map.show({ lon: 60, lat: 9 }); const other = "
     "land();map.show({ lon: 60, lat: 40 }); const north = land(); map.show({ lon: 61, lat: 41 }); return [whole === "
     "near, near === other, other === north, north === land(), near.length > 0] "
     "})()", [False, False, False, True, True]),
    ("(() => { map.zoom(20); const near = land(); map.zoom(10); return near === land() })()", False),
    # a step of the keys is a degree on the whole Earth and ten with Shift; nearer it is as many parts of the view
    *((f"key({words})", [[lat, lon], True]) for words, lat, lon in (
        ("'ArrowLeft'", "9.0000000", "17.0000000"), ("'ArrowRight'", "9.0000000", "19.0000000"),
        ("'ArrowUp'", "10.0000000", "18.0000000"), ("'ArrowDown'", "8.0000000", "18.0000000"),
        ("'ArrowUp', true", "19.0000000", "18.0000000"), ("'ArrowLeft', true", "9.0000000", "8.0000000"))),
    ("(map.zoom(20), [key('ArrowUp'), key('ArrowUp', true)])",
     [[["9.1111111", "18.0000000"], True], [["10.1111111", "18.0000000"], True]]),
    ("key('Tab')", [False]),
    *((f"(map.put({lon}, {lat}), told)", [[wanted_lat, wanted_lon]]) for lon, lat, wanted_lat, wanted_lon in (
        (180, 90, "90.0000000", "180.0000000"), (180.1, 90.1, "90.0000000", "180.0000000"),
        (-180.1, -90.1, "-90.0000000", "-180.0000000"), (179.99999994, 0, "0.0000000", "179.9999999"))),
    # it follows the pointer from where it is pressed until it is released
    ("[pointer('pointermove', 100, 50), pointer('pointerdown', 100, 50), pointer('pointermove', 300, 150), "
     "pointer('pointerup', 300, 150), pointer('pointermove', 10, 10)]",
     [[], [[45, -90]], [[-45, 90]], [], []]),
    ("[pointer('pointerdown', 100, 50).length, pointer('pointercancel', 100, 50).length, pointer('pointermove', 1, 1)"
     ".length]", [1, 0, 0]),
    ("(map.zoom(20), pointer('pointerdown', 300, 50))", [[[14, 28]]][0]),
)


def spot_moved(tries: Tries) -> str:
    """The small map: where the position is drawn, and where it goes by keys and by the pointer."""
    browser = tries.page("send")
    count = compared(browser, SPOT_ROWS, SPOT)
    browser = tries.page("send")
    typed(browser, send_lat="12.5", send_lon="-20.25")
    browser.evaluate("(() => { const field = document.getElementById('send-span'); field.value = '1'; "
                     "field.dispatchEvent(new Event('change')) })()")
    pressed_at = browser.evaluate("(() => { const map = document.querySelector('#send-map .spot'); map.dispatchEvent("
                                  "new KeyboardEvent('keydown', { key: 'ArrowUp', shiftKey: true })); return ['lat', "
                                  "'lon'].map((name) => document.getElementById(`send-${name}`).value) })()")
    expect(pressed_at == ["12.5555556", "-20.2500000"], pressed_at)
    return f"{count} values"


SETTINGS = """const set = (window, limit, lat = "", lon = "") => { for (const [name, text] of Object.entries({ window,
  limit,
  lat, lon })) byId(`log-${name}`).value = text; try { const { window, limit, site } = squitterLog.settings();
  return [String(window), limit, site && `${site.lat} ${site.lon}`]; } catch (error) { return error.message; } }"""

SETTING_ROWS: Rows = (
    ("set('10000', '1000')", ["10000", 1000, None]), ("set(' 0 ', ' 1 ')", ["0", 1, None]),
    ("set('18446744073709551615', '1048576')", ["18446744073709551615", 1_048_576, None]),
    ("set('18446744073709551616', '1')", "bad window"), ("set('00000000000000000001', '1')", ["1", 1, None]),
    ("set('000000000000000000001', '1')", "bad window"), ("set('', '1')", "bad window"),
    ("set('-1', '1')", "bad window"),
    ("set('1', '1048577')", "bad limit"), ("set('1', '0')", "limit is 0"), ("set('1', '1.5')", "bad limit"),
    ("set('1', '1', '52.5', '-4')", ["1", 1, "52.5000000 -4.0000000"]),
    ("[set('1', '1', '52', ''), set('1', '1', '', '4'), set('1', '1', 'x', '4')].map((text) => text.split(' ')[0])",
     ["longitude", "latitude", "latitude"]),
    ("[set('1', '1', '90', '180'), set('1', '1', '90.1', '0'), set('1', '1', '0', '180.1')].map((one) => one.length > "
     "3 ? 'refused' : one[2])", ["90.0000000 180.0000000", "refused", "refused"]),
)

SUMMARY = """const told = (answers, feed) => { Object.assign(squitterLog, { name: "a.log", seconds: 1.25,
  answers: { count: 2, places: 1, refused: 1, withoutSite: 0, withoutTime: 0, ...answers } });
  return squitterLog.summary("decoded", feed); }"""
SUMMED = "a.log: decoded. 2 lines, 1 position, 1 refused, in 1.3 s."

SUMMARY_ROWS: Rows = (
    ("told({})", SUMMED),
    ("told({ count: 1 })", SUMMED.replace("2 lines", "1 line")),
    ("told({ count: 0, places: 3, refused: 4 })", "a.log: decoded. 0 lines, 3 positions, 4 refused, in 1.3 s."),
    ("told({}, { found: 9n, written: 7n, damaged: 2n })", f"{SUMMED} The file has 9 frames: 7 squitters, 2 damaged."),
    ("told({}, { found: 1n, written: 1n, damaged: 0n })", f"{SUMMED} The file has 1 frame: 1 squitter, 0 damaged."),
    ("told({}, { found: 9n, written: 7n, damaged: 2n, aside: 0n })",
     f"{SUMMED} The file has 9 frames: 7 squitters, 2 damaged."),
    ("told({}, { found: 9n, written: 1n, damaged: 0n, aside: 8n })",
     f"{SUMMED} The file has 9 frames: 1 squitter, 0 damaged. It has 8 squitters out of order, set aside. Is it sorted "
     "by time?"),
    ("told({ withoutSite: 1 })",
     f"{SUMMED} 1 frame from the ground has no position: type the position of your receiver."),
    ("told({ withoutSite: 2 })",
     f"{SUMMED} 2 frames from the ground have no position: type the position of your receiver."),
    ("told({ withoutTime: 1 })", SUMMED),
    ("told({ withoutTime: 2 })",
     f"{SUMMED} No line has a timestamp. Put a time in milliseconds and a space before each frame."),
    ("(Object.assign(squitterLog, { answers: { clock: new LogClock(1000n), feetOfLine: (line) => line === 7 ? 250 : "
     "NaN } }),"
     "[7, 8].map((line) => squitterLog.spotText({ address: 0xABC, lat: 1.5, lon: -2, moment: 62_500, line })))",
     ["000ABC at 1.5000000 -2.0000000, 250 ft, 0:01:01.500, line 7.",
      "000ABC at 1.5000000 -2.0000000, 0:01:01.500, line 8."]),
)

TABLE = """({ rows: [...document.querySelectorAll("#log-table tbody tr")].map((row) => row.cells[0].textContent),
  said: byId("log-rows").textContent, back: byId("log-back").disabled, on: byId("log-on").disabled })"""


def log_words(tries: Tries) -> str:
    """The settings of a log at their borders, what is said at its end and of a position, and the pages of its table."""
    browser = tries.page("log")
    count = compared(browser, SETTING_ROWS, SETTINGS) + compared(browser, SUMMARY_ROWS, SUMMARY)
    browser = tries.page("log")
    pages_of_table(browser, tries)
    filters(browser)
    addresses(browser)
    while_decoding(browser)
    left_alone(browser)
    drops(browser)
    return f"{count} values"


def pages_of_table(browser: Chromium, tries: Tries) -> None:
    """A page of the table has 100 results."""
    for size, pages in ((0, [0]), (1, [1]), (100, [100]), (101, [100, 1]), (200, [100, 100]), (205, [100, 100, 5])):
        given_log(browser, tries, "".join(f"{line} x\n" for line in range(size)).encode())
        start = 0
        for number, rows in enumerate(pages):
            got = browser.evaluate(TABLE)
            wanted = f"Results {start + 1} to {start + rows} of {size}." if size else "No results."
            expect(got == {"rows": [str(line) for line in range(start + 1, start + rows + 1)], "said": wanted,
                           "back": number == 0, "on": number == len(pages) - 1}, size, number, got)
            start += rows
            browser.evaluate("byId('log-rows-box').scrollTop = 60")
            if number < len(pages) - 1:
                clicked(browser, "#log-on")
        expect(browser.evaluate("['csv', 'text', 'geojson'].map((name) => byId(`log-${name}`).disabled)") ==
               [size == 0] * 3, size, "results to save")
        if len(pages) > 1:
            clicked(browser, "#log-back")
            expect(browser.evaluate("byId('log-rows-box').scrollTop") == 0, "a page starts below its top")
    expect(browser.evaluate("(squitterLog.turn(-1000), squitterLog.at)") == 0, "a page before the first")
    given_log(browser, tries, b"0 x\n1 x")
    expect(browser.evaluate(TABLE)["said"] == "Results 1 to 2 of 2.", "a last line without a line feed")
    given_log(browser, tries, b"0 x\n" * 205)
    clicked(browser, "#log-on")
    typed(browser, filter_what="0")
    expect(browser.evaluate(TABLE)["said"] == "Results 1 to 100 of 205.", browser.evaluate(TABLE)["said"])
    typed(browser, filter_what="")


def filters(browser: Chromium) -> None:
    """The results that a filter shows: by kind, and by an address in hexadecimal."""
    left = "squitterLog.answers.left.length"
    clicked(browser, "#log-example")
    heard(browser)
    counts = browser.evaluate("squitterLog.answers.chunks.flatMap(({ whats }) => [...whats]).reduce((sums, what) => "
                              "(sums[what]++, sums), new Array(8).fill(0))")
    of_one = browser.evaluate("squitterLog.answers.chunks.flatMap(({ addresses, whats }) => "
                              "[...addresses].filter((one, at) => whats[at] && one === 0x484004)).length")
    rows = [("filter_what", "", sum(counts)), ("filter_what", "places", counts[1] + counts[2]),
            *(("filter_what", str(at), counts[at]) for at in range(8)), ("filter_what", "", sum(counts)),
            *(("filter_address", text, of_one) for text in ("484004", " 484004 ")),
            *(("filter_address", text, 0) for text in ("48400", "x")), ("filter_address", "", sum(counts))]
    for name, text, wanted in rows:
        typed(browser, **{name: text})
        expect(browser.evaluate(left) == wanted, name, repr(text), "shows", browser.evaluate(left), "and not", wanted)
    typed(browser, filter_what="places")
    clicked(browser, "#log-example")
    heard(browser)
    expect(browser.evaluate(left) == counts[1] + counts[2], "another log shows", browser.evaluate(left), "positions")
    typed(browser, filter_what="")


def addresses(browser: Chromium) -> None:
    """The aircraft that can be chosen are sorted, and are 5000 at most."""
    names = "[...byId('map-address').options].map((one) => one.value)"
    listed = browser.evaluate(names)
    expect(listed[:1] == [""] and listed[1:] == sorted(listed[1:]) and len(listed) == 6, listed)
    for count in (5000, 5001):
        listed = browser.evaluate("(() => { const tracks = squitterLog.tracks = new Tracks(0); for (let at = 0; at < "
                                  f"{count}; at++) tracks.addPlace(({count} - at) * 16, 0, 0, 1, 1, 1); "
                                  f"squitterLog.nameTracks(); return {names} }})()")
        expect(listed == ["", *(f"{16 * at:06X}" for at in range(1, 5001))], count, len(listed), listed[:3])


# A panel that decodes, and answers to it: positions in lines from a number on, and a last one that waits.
DECODING = """(() => {
  squitterLog.hear(exampleLog(), "example");
  squitterLog.stop();
  Object.assign(squitterLog, { worker: { terminate() {} }, name: "a.log" });
  byId("log-progress").value = 0;
  window.positions = (from, count) => {
    const all = (value) => new Array(count).fill(value), numbers = Array.from({ length: count }, (_, at) => from + at);
    return { numbers, whats: all(1).fill(3, -1), addresses: all(1),
      kinds: all(1), lats: all(1), lons: all(2), evens: all(0),
      odds: all(0), codes: all(0), firsts: all(0), feet: all(NaN), moments: BigUint64Array.from(numbers, BigInt) };
  };
  return [byId("play-button").disabled, byId("log-cancel").disabled, byId("log-state").textContent];
})()"""


def while_decoding(browser: Chromium) -> None:
    """What the page shows of a log while it is decoded, and once it is cancelled."""
    told = browser.evaluate(DECODING)
    expect(told == [True, False, "Decoding example."], "at the start:", told)
    look = "[byId('log-rows').textContent, byId('log-progress').value, byId('log-state').textContent, " \
           "squitterLog.tracks.count()]"
    rows = (
        ("told({ answers: positions(1, 3) })", ["Results 1 to 3 of 3.", 0, "Decoding example.", 2]),
        ("told({ done: 0.25 })", ["Results 1 to 3 of 3.", 0.25, "Decoding a.log: 3 results.", 2]),
        ("told({ answers: positions(4, 2) })", ["Results 1 to 3 of 3.", 0.25, "Decoding a.log: 3 results.", 3]),
        ("told({ done: 0.5 })", ["Results 1 to 3 of 3.", 0.5, "Decoding a.log: 5 results.", 3]),
        ("map.select(1)", ["Results 1 to 3 of 3.", 0.5, "Decoding a.log: 5 results.", 3]),
        ("end('cancelled')", ["Results 1 to 5 of 5.", 0.5, None, 3]),
    )
    for call, wanted in rows:
        got = browser.evaluate(f"(squitterLog.{call}, {look})")
        expect(got[:2] == wanted[:2] and got[3] == wanted[3] and wanted[2] in (None, got[2]), call, got, wanted)
    expect(got[2].startswith("a.log: cancelled. 5 lines, 3 positions, 0 refused, in "), got)
    shown_now = browser.evaluate("['play-button', 'log-cancel', 'log-csv'].map((name) => byId(name).disabled)")
    expect(shown_now == [False, True, False], "a cancelled log:", shown_now)
    names = browser.evaluate("[...byId('map-address').options].map((one) => one.value)")
    expect(names == ["", "000001"], "the aircraft of a cancelled log:", names)
    chosen = browser.evaluate("[squitterLog.map.address, byId('map-address').value]")
    expect(chosen == [1, "000001"], "selected while it is decoded:", chosen)
    failed = browser.evaluate("(squitterLog.told({ failed: 'why' }), byId('log-state').textContent)")
    expect(failed.startswith("a.log: not decoded to its end (why). 5 lines"), failed)


def left_alone(browser: Chromium) -> None:
    """A map that the reader has moved stays as its log ends; a cancelled log says so; one that cannot be decoded
    again says that it was not saved."""
    browser.evaluate("squitterLog.hear(new Blob(['1 x\\n'.repeat(300_000)]), 'long')")
    clicked(browser, "#log-example")
    browser.evaluate("(() => { const { map } = squitterLog; map.center = { x: 1, y: 2 }; map.moved = true })()")
    heard(browser)
    expect(browser.evaluate("squitterLog.map.center") == {"x": 1, "y": 2}, "the map has moved")
    expect(browser.evaluate("squitterLog.answers.count") == 2023, "a log that was left goes on")
    expect(browser.evaluate("document.getElementById('log-progress').value") == 1, "the progress of a log at its end")
    browser.evaluate("squitterLog.task.file = new Blob(['BZh', 'x'.repeat(100)])")
    clicked(browser, "#log-csv")
    browser.wait("document.getElementById('log-state').textContent.includes('not saved')", 10)
    says(browser, "(unpack it first")
    browser.evaluate("void (squitterLog.hear(exampleLog(), 'cut', { where: ['52.31', '4.76'] }), "
                     "squitterLog.end('cancelled'))")
    says(browser, "cut: cancelled. 0 lines")
    expect(browser.evaluate("[byId('log-cancel').disabled, byId('log-csv').disabled]") == [True, True], "cancelled")


def drops(browser: Chromium) -> None:
    """A dropped text is left to its field; a file is heard wherever it is dropped, and of several the first."""
    taken = [one for one, _ in dropped(browser, "log-paste", ("dragover", "drop", "dragleave"), "x")]
    expect(taken == [False] * 3, "a text that is dropped is", taken)
    over = [one for _, one in dropped(browser, "tab-send", ("dragover", "dragleave", "dragover", "drop"), "1 x",
                                      "one.log")]
    expect(over == [True, False, True, False], "the place to drop a file is marked:", over)
    clicked(browser, "#tab-send")
    dropped(browser, "", ["drop"], "1 x", "two.log")
    heard(browser)
    expect(browser.evaluate("squitterLog.name === 'two.log' && !byId('panel-log').hidden"), "a file dropped elsewhere")
    dropped(browser, "", ["drop"], "1 x\n", "a", "b", "c")
    heard(browser)
    state = shown(browser, "#log-state")
    expect(state.startswith("a, the first of 3 files: decoded. 1 line, 0 positions, 1 refused"), state)
    browser.evaluate("squitterLog.name = ''")
    changed(browser, log_paste="  ")
    expect(browser.evaluate("squitterLog.name") == "", "spaces are decoded")


HELPERS: Rows = (
    ("element('a', { href: '#x', title: 5 }, 'b', element('i')).outerHTML", '<a href="#x" title="5">b<i></i></a>'),
    ("[cellOf('5', 0, 'h'), cellOf('5 F/-.', 1, 'h'), cellOf('5x', 1, 'h')].map((one) => one.outerHTML)",
     ['<th scope="row">5</th>', '<td class="number" data-head="h">5 F/-.</td>', '<td data-head="h">5x</td>']),
    ("[['', 'a'], ['', 'a', 'b']].map((heads) => tableOf('c', heads, [['1', '2', '3']])).map((one) => "
     "one.querySelector('table').className)", ["rows", "cards"]),
    ("tableOf('c', ['', 'a'], [['1', '2']]).outerHTML",
     '<div class="scroll" tabindex="0" role="region" aria-label="c"><table class="rows"><caption>c</caption><thead><tr>'
     '<th scope="col"></th><th scope="col">a</th></tr></thead><tbody><tr><th scope="row">1</th>'
     '<td class="number" data-head="a">2</td></tr></tbody></table></div>'),
    ("[hexadecimal(0xab, 6), hexadecimal(0xabcdef, 6), hexadecimal(10n, 1)]", ["0000AB", "ABCDEF", "A"]),
    ("refusal('Refused', new Error('x')).outerHTML", '<p class="refusal"><strong>Refused: </strong>x</p>'),
    ("((one) => `${one.lat} ${one.lon}`)(positionOf(squitterLog.library, ' 1 ', ' -2 '))", "1.0000000 -2.0000000"),
    ("[['x', '1'], ['1', 'x']].map((words) => { try { positionOf(squitterLog.library, ...words) } catch (error) { "
     "return error.message.split(' ')[0] } })", ["latitude", "longitude"]),
    ("moduleBytes() === moduleBytes()", True),
    ("['frame', 'place', 'send'].map((name) => byId(`${name}-answer`).children.length > 0)", [True] * 3),
    ("byId('version').textContent === squitterLog.library.version() && byId('version').textContent.length > 4", True),
)

TABS = """[...document.querySelectorAll('[role=tab]')].map((one) => [one.getAttribute('aria-selected'), one.tabIndex,
  byId(one.getAttribute('aria-controls')).hidden])"""


def tabs(tries: Tries) -> str:
    """Parts of tables and texts; the tabs by clicks, by keys and by the address of the page."""
    browser = tries.page("send")
    count = compared(browser, HELPERS)

    def is_open(index: int, why: str) -> None:
        names = ("frame", "place", "send", "log")
        wanted = [["true", 0, False] if at == index else ["false", -1, True] for at in range(4)]
        got, address = browser.evaluate(TABS), browser.evaluate("location.hash")
        expect(got == wanted and address == f"#{names[index]}", why, got, address)

    is_open(2, "by the address")
    keys = (("ArrowRight", 3), ("ArrowRight", 0), ("ArrowLeft", 3), ("ArrowLeft", 2), ("Home", 0),
            ("ArrowRight", 1), ("ArrowRight", 2), ("End", 3))
    for key, index in keys:
        browser.evaluate("document.querySelector('[aria-selected=true]').focus()")
        pressed(browser, key)
        is_open(index, key)
        expect(browser.evaluate("document.activeElement.getAttribute('aria-selected')") == "true", key, "is lost")
    browser.evaluate("document.activeElement.blur()")
    clicked(browser, "#tab-place")
    is_open(1, "a click")
    for go, index in (("location.hash = 'log'", 3), ("location.hash = 'frame'", 0), ("history.back()", 3),
                      ("history.back()", 1), ("location.hash = 'place'; location.hash = 'send'", 2)):
        browser.evaluate("new Promise((done) => { addEventListener('hashchange', () => setTimeout(done), "
                         f"{{ once: true }}); {go}; }})")
        is_open(index, go)
    clicked(browser, "#tab-place")
    expect(browser.evaluate("document.activeElement === document.body"), "a click moves the focus")
    submitted = browser.evaluate("['frame-form', 'place-form', 'send-form', 'log-form', 'filter-form'].map((id) => { "
                                 "const event = new Event('submit', { cancelable: true }); "
                                 "byId(id).dispatchEvent(event); return event.defaultPrevented })")
    expect(submitted == [True] * 5, "forms are submitted:", submitted)
    resized = browser.evaluate("(() => { let count = 0; addEventListener('resize', () => count++); "
                               "byId('tab-log').click();return count })()")
    expect(resized == 1, "the map of a tab that opens is not measured")
    browser = tries.page("elsewhere")
    is_open(0, "an address that names no tab")
    return f"{count} texts"
