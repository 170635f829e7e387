"""Parts of tests/page about what is drawn: the calls of a pen that records them, and the shapes of pictures, each
beside numbers that are worked out by hand."""
import math
from typing import Any, List

from chromium import Chromium
from trying import AIR_EVEN, AIR_ODD, GROUND_EVEN, GROUND_ODD, POLE_EVEN, POLE_ODD, Tries, expect
from using import clicked, typed
from values import METRES, STEPS, Rows, compared


def zone_count(lat: float) -> int:
    """The number of longitude zones (NL) of a latitude, by the formula of DO-260B."""
    part = (1 - math.cos(math.pi / 30)) / math.cos(math.radians(lat)) ** 2
    return math.floor(2 * math.pi / math.acos(1 - part))


# A pen that records its calls. Strokes and fills have the colour, the width and the dashes with them.
RECORDER = """const recorder = () => {
  const calls = [], state = { dashes: [] };
  const does = { measureText: (text) => ({ width: 6 * text.length }), setLineDash: (dashes) => { state.dashes = dashes;
    },
    stroke: () => calls.push(["stroke", state.strokeStyle, state.lineWidth, state.dashes.length]),
    fill: () => calls.push(["fill", state.fillStyle]) };
  return new Proxy({}, {
    get: (_, name) => name === "calls" ? calls : does[name] ?? state[name] ?? ((...words) => { calls.push([name,
      ...words]); }),
    set: (_, name, value) => { state[name] = value; return true; },
  });
};
const copied = (canvas) => {
  const { width, height } = canvas, pen = Object.assign(document.createElement("canvas"), { width,
    height }).getContext("2d",
    { willReadFrequently: true });
  pen.drawImage(canvas, 0, 0);
  return pen;
}"""

# A map of 400 by 200 points with ten of them for a degree, and the tracks of a window of a second.
SMALL_MAP = RECORDER + """;
const pen = recorder(), tracks = new Tracks(1000), place = (...words) => tracks.addPlace(...words);
const map = Object.assign(Object.create(TrackMap.prototype), { canvas: squitterLog.map.canvas, center: { x: 0, y: 0 },
  scale: 10, measured: { width: 400, height: 200 }, projection: PROJECTIONS.plain, until: Infinity, address: NaN,
    tracks,
  sprites: { wide: (text) => 8 * text.length, use() {}, draw() {} } });
const chart = () => new Chart(map, pen, 1);
const drawing = () => new TrackDrawing(pen, map, map.view({ x: 0, y: 0 }));
const piece = (...places) => { const made = new Piece(true, places.kind ?? 1); places.forEach(([lon, lat,
  moment = 0]) =>
  made.add(lon, lat, moment, 1)); return made; };
const line = (...places) => (drawing().piece(piece(...places)), pen.calls.slice(1, -1));
const seam = (before, after) => (drawing().seam(before, after), pen.calls);
const mark = (x, y, isGround, isSilent) => ({ x, y, isGround, isSilent })"""

BEGIN, STROKE = ["beginPath"], ["stroke", None, None, 0]
OVER_SEAM = [BEGIN, ["moveTo", 1990, 0], ["lineTo", 2000, -10], ["moveTo", -1600, -10], ["lineTo", -1580, -30], STROKE]

LINES: Rows = (
    # a position that is less than 1.5 points away is left out, but for the last one
    ("line([0, 0], [0.14, 0], [0.16, 0], [5, 0], [5.01, 0])",
     [["moveTo", 200, 100], ["lineTo", 201.6, 100], ["lineTo", 250, 100], ["lineTo", 250.1, 100]]),
    ("line([0, 0], [0, -0.14], [0.1, -0.1], [0, 5])",
     [["moveTo", 200, 100], ["lineTo", 201, 101], ["lineTo", 200, 50]]),
    ("line([3, 4])", [["moveTo", 230, 60], ["fillRect", 228, 58, 4, 4]]),
    ("(map.until = 1000, line([0, 0, 0], [1, 0, 1000], [2, 0, 1001]))", [["moveTo", 200, 100], ["lineTo", 210, 100]]),
    ("(map.until = -1, drawing().piece(piece([0, 0])), pen.calls)", []),
    # at 60 degrees a step of Mercator is two degrees of latitude high
    ("(map.projection = PROJECTIONS.mercator, map.center = { x: 0, y: map.projection.y(0, 60) }, "
     "line([0, 60], [0.1, 60], [1, 60]).map(([name, x]) => [name, x]))",
     [["moveTo", 200], ["lineTo", 201], ["lineTo", 210]]),
    # around the north pole what is south of the equator is not drawn, and the line goes on behind it
    ("(map.projection = PROJECTIONS.north, map.scale = 1, line([90, 10], [90, -10], [90, 20], [90, 30]).map(([name, "
     "x]) => [name, x]))", [["moveTo", 280], ["moveTo", 270], ["lineTo", 260]]),
    # a piece beyond one side is left out, and one at the border is drawn: it shows from -20 to 20 and -10 to 10
    *((f"(drawing().piece(piece([{lon}, {lat}])), pen.calls.length > 0)", wanted)
      for lon, lat, wanted in ((20, 0, True), (20.1, 0, False), (-20, 0, True), (-20.1, 0, False), (0, 10, True),
                               (0, 10.1, False), (0, -10, True), (0, -10.1, False))),
    ("(drawing().piece(piece([-30, 0], [30, 0])), pen.calls.length)", 4),
    ("(drawing().piece(piece([0, -30], [0, 30])), pen.calls.length)", 4),
    # over 180 degrees: to the one side and from the other, where the shorter way crosses
    ("seam(piece([179, 10]), piece([-178, 13]))",
     [BEGIN, ["moveTo", 1990, 0], ["lineTo", 2000, -10], ["moveTo", -1600, -10], ["lineTo", -1580, -30], STROKE]),
    ("seam(piece([-178, 13]), piece([179, 10]))",
     [BEGIN, ["moveTo", -1580, -30], ["lineTo", -1600, -10], ["moveTo", 2000, -10], ["lineTo", 1990, 0], STROKE]),
    ("seam(piece([1, 2]), piece([3, 4]))", [BEGIN, ["moveTo", 210, 80], ["lineTo", 230, 60], STROKE]),
    ("(map.projection = PROJECTIONS.north, seam(piece([179, 10]), piece([-178, 13])).map(([name]) => name))",
     ["beginPath", "moveTo", "lineTo", "stroke"]),
    ("(map.until = 4, seam(piece([1, 2, 3]), piece([3, 4, 5])))", []),
    ("(map.projection = PROJECTIONS.mercator, seam(piece([1, 84]), piece([1, 86])))", []),
    ("(map.projection = PROJECTIONS.mercator, seam(piece([1, 86]), piece([1, 84])))", []),
    # a joined piece is joined by a seam, and another is not; the ground is dashed, and the air after it is not
    ("(place(1, 0, 0, 0, 1, 2), place(1, 1, 0, 500, 2, 1), place(1, 2, 0, 2000, 3, 1), drawing().track("
     "tracks.pieces(1), '#123456', 3), pen.calls.filter(([name]) => name === 'stroke' || name === 'lineTo'))",
     [["stroke", "#123456", 3, 2], ["lineTo", 210, 100], ["stroke", "#123456", 3, 0], ["stroke", "#123456", 3, 0],
      ["stroke", "#123456", 3, 0]]),
    ("(place(1, 0, 0, 0, 1, 2), drawing().track(tracks.pieces(1), '#123456', 3, false), pen.calls.at(-1))",
     ["stroke", "#123456", 3, 0]),
    ("(drawing().marks([mark(50, 60, false, false), mark(70, 80, true, false), mark(1, 2, true, true)], '#654321', 4), "
     "pen.calls)",
     [BEGIN, ["moveTo", 54, 60], ["arc", 50, 60, 4, 0, 7], ["moveTo", 74, 80], ["rect", 66, 76, 8, 8],
      ["fill", "#654321"], BEGIN, ["moveTo", 5, 2], ["rect", -3, -2, 8, 8], ["stroke", "#654321", 2, 0]]),
)

# Three aircraft: the first two in the air, the last on the ground, and silent since a second and a bit at 2001.
THREE = "place(1, 0, 0, 1000, 1, 1), place(2, 5, 5, 1500, 2, 1), place(3, -5, 5, 1000, 3, 2)"
MANY = "for (let at = 1; at <= {}; at++) place(at, at / 10, 0, 1, 1, 1)"
WIDTHS = "pen.calls.filter(([name]) => name === 'stroke').map((call) => call[2])"

CHARTS: Rows = (
    (f"({THREE}, chart().marks().map(({{ address, x, y, isGround, isSilent }}) => [address, x, y, isGround, "
     f"isSilent]))",
     [[1, 200, 100, False, False], [2, 250, 50, False, False], [3, 150, 50, True, False]]),
    (f"({THREE}, map.until = 2000, chart().marks().map(({{ isSilent }}) => isSilent))", [False, False, False]),
    (f"({THREE}, map.until = 2001, chart().marks().map(({{ isSilent }}) => isSilent))", [True, False, True]),
    (f"({THREE}, map.until = 1499, chart().marks().map(({{ address }}) => address))", [1, 3]),
    (f"({THREE}, place(4, 9, -9, 1000, 4, 1), map.projection = PROJECTIONS.north, chart().marks().length)", 3),
    # the colours go around, and are those of the marks
    ("(() => { for (let at = 0; at < 8; at++) place(at, at, 0, 1, 1, 1); const { tracks: colors } = chart();"
     "return chart().marks().map(({ color }) => colors.indexOf(color)) })()", [0, 1, 2, 3, 4, 5, 0, 1]),
    ("(() => { for (let at = 0; at < 8; at++) place(at, at, 0, 1, 1, 1); const one = chart(), { tracks: colors } = one;"
     "map.address = 7; one.drawTracks(pen, map.view({ x: 0, y: 0 }), one.marks()); const ink = one.color('--ink');"
     "return pen.calls.filter(([name]) => name === 'stroke').map(([, color, wide]) => [color === ink ? 'ink' : "
     "colors.indexOf(color), wide]) })()",
     # seven tracks, the hollow marks of each colour (there are none), then the border, the selected track, and marks
     [[0, 2], [1, 2], [2, 2], [3, 2], [4, 2], [5, 2], [0, 2], *([at, 2] for at in range(6)), ["ink", 7], [1, 4],
      ["ink", 2], [1, 2]]),
    # the selected track has a whole border, and its mark one that is full, also if it is dashed and silent
    ("(() => { place(1, 0, 0, 1, 1, 2); const one = chart(), ink = one.color('--ink'); map.address = 1; map.until = "
     "5000;one.drawTracks(pen, map.view({ x: 0, y: 0 }), one.marks()); return pen.calls.filter(([name]) => ['rect', "
     "'fill', 'stroke'].includes(name)).slice(-8).map(([name, color, ...more]) => [name, color === ink ? 'ink' : color "
     "=== one.tracks[0] ? 0 : color, ...more]) })()",
     [["stroke", "ink", 7, 0], ["stroke", 0, 4, 2], ["rect", 193, 93, 14, 14], ["fill", "ink"], ["stroke", "ink", 2, 0],
      ["fill", 0], ["rect", 195, 95, 10, 10], ["stroke", 0, 2, 0]]),
    ("(() => { const used = [], one = chart(); map.sprites.use = (...words) => used.push(words); one.drawNames([]); "
     "return used[0].map((word) => word === one.color('--ink') ? 'ink' : word === one.color('--ground') ? 'ground' : "
     "word) })()",
     [1, "ink", "ground"]),
    *((f"(() => {{ {MANY.format(count)}; const one = chart(); one.drawTracks(pen, map.view({{ x: 0, y: 0 }}), []);"
       f"return {WIDTHS}[0] }})()", wide) for count, wide in ((100, 2), (101, 1))),
    ("(chart().drawGrid([[{ x: 1, y: 2 }, { x: 3, y: 4 }, { x: 5, y: 6 }]]), pen.calls.slice(0, -1))",
     [BEGIN, ["moveTo", 210, 80], ["lineTo", 230, 60], ["lineTo", 250, 40]]),
    # labels of the grid are apart from others and within the map
    ("(chart().drawGridLabels([{ x: 0, y: 0, text: 'A' }, { x: 0, y: 0, text: 'B' }, { x: 5, y: 8.9, text: 'C' }, "
     "{ x: 6, y: 8.95, text: 'D' }, { x: 7, y: -9.7, text: 'E' }, { x: 10, y: -9.75, text: 'F' }]), pen.calls)",
     [["fillText", "A", 200, 100], ["fillText", "C", 250, 11], ["fillText", "E", 270, 197]]),
    # the buttons are 58 points wide and 156 high
    ("(({ places }) => [[332, 0], [332.1, 0], [380, 158], [380, 157.9]].map(([x, y]) => places.isFree({ x, y, wide: 8, "
     "high: 8 })))(chart())", [True, False, True, False]),
    # the cross around the chosen position
    ("(chart().drawChosen({ lon: 1, lat: 2 }), pen.calls.slice(0, -1))",
     [BEGIN, ["moveTo", 203, 80], ["lineTo", 196, 80], ["moveTo", 217, 80], ["lineTo", 224, 80],
      ["moveTo", 210, 73], ["lineTo", 210, 66], ["moveTo", 210, 87], ["lineTo", 210, 94]]),
    ("(map.projection = PROJECTIONS.north, chart().drawChosen({ lon: 1, lat: -2 }), pen.calls)", []),
    # marks just beyond the sides have labels, if these fit in, and others have none
    ("(chart().drawNames([[-4, 50], [-3.9, 70], [404, 190], [403.9, 170], [30, -4], [30, -3.9]].map(([x, y], at) => "
     "({ address: at + 1, x, y }))), map.labels.map(({ text, box: { x, y } }) => [text, x, y]))",
     [["000002", 5.1, 63], ["000004", 346.9, 163], ["000006", 6, 5.1]]),
    ("(map.address = 3, chart().drawNames([1, 2, 3].map((address) => ({ address, x: 100 * address, y: 100 }))), "
     "map.labels.map(({ text, font }) => [text, font.startsWith('bold')]))",
     [["000003", True], ["000001", False], ["000002", False]]),
    *((f"(map.measured = {{ width: 9000, height: 9000 }}, chart().drawNames(Array.from({{ length: {count} }}, (_, at) "
       f"=> ({{ address: at, x: 100 * (at % 50 + 1), y: 50 * Math.floor(at / 50 + 5) }}))), map.labels.length)", wanted)
      for count, wanted in ((149, 149), (150, 150), (151, 150))),
)

# What the map says, and the keys of its layers: those of the land and of the tracks.
KEYS = """const keys = [], layer = { paint: (pen, map, ratio, key) => keys.push(key) }, said = [];
Object.assign(map, { land: layer, lines: layer, chosen: null, say: (text) => said.push(text) });
const keysNow = () => { keys.length = 0; chart().draw(); return [...keys]; }"""

CHANGES = ("tracks.change()", "map.until = 5", "map.address = 7", "map.projection = PROJECTIONS.mercator")


def recorded(tries: Tries) -> str:
    """Tracks, seams, marks, labels and the grid, by the calls of a pen; what makes the map draw a layer again."""
    browser = tries.page("log")
    count = compared(browser, [*LINES, *CHARTS], SMALL_MAP)
    for change in CHANGES:
        script = f"[keysNow(), ({change}, keysNow())]"
        (land, lines), (new_land, new_lines) = browser.evaluate(f"(() => {{ {SMALL_MAP}; {KEYS}; return {script} }})()")
        expect(lines != new_lines and (land != new_land) == ("projection" in change), change, lines, new_lines)
    light = browser.evaluate(f"(() => {{ {SMALL_MAP}; {KEYS}; return keysNow() }})()")
    browser.look(dark=True)
    dark = browser.evaluate(f"(() => {{ {SMALL_MAP}; {KEYS}; return keysNow() }})()")
    expect(light[0] != dark[0] and light[1].split(" ")[-1] != dark[1].split(" ")[-1], light, dark)
    browser.look()
    count += compared(browser, (
        ("(chart().draw(), map.scale = 2500, chart().draw(), map.scale = 2500.1, chart().draw(), said)",
         ["equal degrees, lines every 10°", "equal degrees, lines every 0.05°",
          "equal degrees, lines every 0.05°, too close for the coast"]),
        ("(map.chosen = { lon: 1, lat: 2 }, chart().draw(), pen.calls.filter(([name, x]) => name === 'lineTo' && "
         "x === 196).length)", 1),
    ), f"{SMALL_MAP}; {KEYS}")
    return f"{count + len(CHANGES) + 1} drawings"


# A layer that notes the views that it draws, on a map of 400 by 200 points.
LAYERED = RECORDER + """;
const layer = new Layer(), pen = recorder(), views = [];
const map = Object.assign(Object.create(TrackMap.prototype), { measured: { width: 400, height: 200 }, scale: 10,
  center: { x: 0, y: 0 } });
let ratio = 1, key = "a", rectangle = [0, 0, 400, 200], transform = null;
const draw = (pen, view) => {
  views.push([view.left, view.right, view.low, view.high]);
  if (pen instanceof CanvasRenderingContext2D) { pen.fillRect(...rectangle); transform = pen.getTransform(); }
};
const paint = (x = map.center.x, y = map.center.y) => { map.center = { x, y }; pen.calls.length = views.length = 0;
  layer.paint(pen, map, ratio, key, draw);
  return [[...views], pen.calls.map(([, , x, y, wide, high]) => [x, y, wide, high])]; };
const alpha = (x, y) => copied(layer.canvas).getImageData(x, y, 1, 1).data[3]"""

WHOLE, WIDER = [[-20, 20, -10, 10]], [[-30, 30, -15, 15]]
PAINTED: Rows = (
    # a new key is drawn at once, and one that comes again on the layer, a quarter wider on each side
    ("[paint(), paint(), paint()]", [[WHOLE, []], [WIDER, [[-100, -50, 600, 300]]], [[], [[-100, -50, 600, 300]]]]),
    # moved up to the margin, the layer is drawn from its canvas
    ("(paint(), paint(), [paint(5, 2), paint(-10, -5), paint(10, 5), layer.drawings])",
     [[[], [[-150, -30, 600, 300]]], [[], [[0, -100, 600, 300]]], [[], [[-200, 0, 600, 300]]], 1]),
    *((f"(paint(), paint(), [paint({x}, {y})[1], layer.drawings])", [[[-100, -50, 600, 300]], 2])
      for x, y in ((10.1, 0), (-10.1, 0), (0, 5.1), (0, -5.1))),
    ("(paint(), paint(), paint(10.1, 0), [paint(12.1, 0), paint(0, 0), layer.drawings])",
     [[[], [[-120, -50, 600, 300]]], [WIDER, [[-100, -50, 600, 300]]], 3]),
    # whole pixels of the screen, of which a dense one has two for each point
    ("(paint(), paint(), [paint(0.03, 0)[1], paint(0.06, 0)[1]])", [[[-100, -50, 600, 300]], [[-101, -50, 600, 300]]]),
    ("(ratio = 2, paint(), paint(), [paint(0.03, 0)[1], layer.canvas.width, layer.canvas.height])",
     [[[-100.5, -50, 600, 300]], 1200, 600]),
    ("[1, 2].map((one) => (ratio = one, paint(), paint(), ['a', 'd', 'e', 'f'].map((name) => transform[name])))",
     [[1, 1, 100, 50], [2, 2, 200, 100]]),
    # each of these is drawn again
    *((f"(paint(), paint(), paint(), {change}, paint(), paint(), layer.drawings)", 2)
      for change in ("key = 'b'", "ratio = 2", "map.scale = 20", "map.measured = { width: 500, height: 200 }",
                     "map.measured = { width: 400, height: 300 }")),
    ("(paint(), paint(), key = 'b', [paint(), (key = 'c', paint()), layer.drawings])", [[WHOLE, []], [WHOLE, []], 1]),
    # what was drawn before is gone, on all of the canvas
    ("(rectangle = [-100, -50, 600, 300], paint(), paint(), rectangle = [0, 0, 0, 0], paint(10.1, 0), "
     "[[0, 0], [599, 299], [300, 150]].map(([x, y]) => alpha(x, y)))", [0, 0, 0]),
    ("(rectangle = [0, 0, 10, 10], paint(), paint(), [[99, 50], [100, 49], [100, 50], [109, 59]].map(([x, y]) => "
     "alpha(x, y)))", [0, 0, 255, 255]),
)

# Labels of a font, drawn from the canvas of sprites.
SPRITES = RECORDER + """;
const sprites = new LabelSprites(), pen = recorder(), font = "12px sans-serif", bold = "bold 13px sans-serif";
const label = (text, x = 10, y = 20, of = font) => ({ text, font: of, box: { x, y, wide: 40, high: 14 } });
const labels = (from, count) => Array.from({ length: count }, (_, at) => label(hexadecimal(from + at, 6)));
const colors = (slot) => { const { data } = copied(sprites.canvas).getImageData(slot * 72, 0, 72, 18),
  found = new Set();
  for (let at = 0; at < data.length; at += 4) if (data[at + 3] === 255) found.add([...data.slice(at, at + 3)].join());
  return ["0,0,255", "255,255,0"].map((one) => found.has(one)); };
sprites.use(1, "#0000ff", "#ffff00")"""

SPRITED: Rows = (
    ("(sprites.draw(pen, labels(0, 18)), [0, 1, 15, 16, 17].map((at) => pen.calls[at].slice(2, 6)))",
     [[0, 0, 72, 18], [72, 0, 72, 18], [1080, 0, 72, 18], [0, 18, 72, 18], [72, 18, 72, 18]]),
    ("(sprites.draw(pen, [label('AAAAAA', 10.4, 20.6)]), pen.calls[0].slice(6))", [8, 19, 72, 18]),
    ("(sprites.use(2, '#0000ff', '#ffff00'), sprites.draw(pen, [label('A'), label('B', 10.3, 20)]), "
     "[pen.calls[1].slice(2), sprites.canvas.width, sprites.canvas.height, sprites.pen.getTransform().a])",
     [[144, 0, 144, 36, 8.5, 18, 72, 18], 2304, 1152, 2]),
    # the ink has a halo around it
    ("(sprites.draw(pen, [label('88')]), [colors(0), colors(1)])", [[True, True], [False, False]]),
    # the same text in two fonts has two pictures, and again none
    ("(sprites.draw(pen, [label('A'), label('A', 0, 0, bold), label('A')]), [sprites.slots.size, pen.calls.map((call) "
     "=> call[2])])", [2, [0, 72, 0]]),
    ("(sprites.draw(pen, [label('A')]), sprites.draw(pen, [label('A', 0, 0, bold)]), pen.calls.map((call) => call[2]))",
     [0, 72]),
    # 512 labels fit, and one more begins again
    ("(sprites.draw(pen, labels(0, 512)), [sprites.slots.size, (sprites.draw(pen, labels(0, 512)), "
     "sprites.slots.size), (sprites.draw(pen, labels(600, 1)), sprites.slots.size)])", [512, 512, 1]),
    ("(sprites.draw(pen, labels(0, 511)), sprites.draw(pen, labels(600, 1)), sprites.slots.size)", 512),
    ("(sprites.draw(pen, labels(0, 512)), sprites.draw(pen, [label('000001', 0, 0, bold)]), sprites.slots.size)", 1),
    # pictures that are there are not made again
    ("(sprites.draw(pen, labels(0, 300)), sprites.make = null, sprites.draw(pen, labels(0, 300)), sprites.slots.size)",
     300),
    # the same colours keep them, and others make them again
    *((f"(sprites.draw(pen, labels(0, 3)), sprites.use({words}), sprites.slots.size)", wanted) for words, wanted in (
        ("1, '#0000ff', '#ffff00'", 3), ("2, '#0000ff', '#ffff00'", 0), ("1, '#0000fe', '#ffff00'", 0),
        ("1, '#0000ff', '#ffff01'", 0))),
    ("(sprites.draw(pen, labels(0, 3)), sprites.use(1, '#000', '#fff'), sprites.draw(pen, [label('88')]), colors(0))",
     [False, False]),
    ("(() => { const own = document.createElement('canvas').getContext('2d'); return [font, bold, font].map((of) => {"
     "own.font = of; return Math.abs(sprites.wide('A1A1', of) - 2 * own.measureText('A').width - "
     "2 * own.measureText('1').width) < 0.01 && sprites.wide('A1A1', of) > 20 }) })()", [True, True, True]),
)


def kept_layers(tries: Tries) -> str:
    """A layer is drawn again when it has to be, and moved else; labels are drawn once, in their colours."""
    browser = tries.page("log")
    count = compared(browser, PAINTED, LAYERED) + compared(browser, SPRITED, SPRITES)
    return f"{count} drawings"


RING = RECORDER + """;
const pen = recorder(), box = { left: 0, right: 100, low: 0, high: 100 }, flat = { x: 0, y: 0, right: 1, up: 1 };
const ring = (...points) => ({ lons: Float64Array.from(points, ([lon]) => lon), lats: Float64Array.from(points,
  ([, lat]) => lat) });
const list = (ring) => ring && Array.from(ring.lons, (lon, at) => [lon, ring.lats[at]]);
const traced = (isCoastOnly, ...points) => (traceShape(pen, landShape(ring(...points), PROJECTIONS.plain), flat, box,
  isCoastOnly), pen.calls);
const land = (wide, high) => (traceLand(pen, [landShape(ring([10, 10], [10 + wide, 10], [10, 10 + high]),
  PROJECTIONS.plain)], flat, box), pen.calls.length > 0);
const at = (left, low) => (traceLand(pen, [landShape(ring([left, low], [left + 10, low], [left, low + 10]),
  PROJECTIONS.plain)], flat, box), pen.calls.length > 0);
const picture = (scale, view) => landPicture(scale, view).map((part) => Object.fromEntries([...part.attributes].map(
  ({ name, value }) => [name, name === "d" ? value.length > 0 : value])))"""

END = ["closePath"]
EQUATOR = [[float(lon), 0] for lon in range(11)]
LANDS: Rows = (
    # three points: 1.00 -0.50, and 0.01 to the north of it, and 1.00 to the east of that; then one more ring
    ("ringsOfText('GoGlDACoGA\\nCAA\\n').map(list)", [[[1, -0.5], [1, -0.49], [2, -0.49]], [[0, 0]]]),
    ("list(hemisphere(ring([0, -10], [10, -10], [10, 10], [0, 10]), 1))",
     [[10, 0], [10, 10], [0, 10], *EQUATOR]),
    ("list(hemisphere(ring([0, -10], [10, -10], [10, 10], [0, 10]), -1))",
     [[0, -10], [10, -10], *EQUATOR[::-1], [0, -10]]),
    ("list(hemisphere(ring([0, -10], [10, 30], [10, -10]), 1))?.slice(0, 4)",
     [[2.5, 0], [10, 30], [10, 0], [10 - 7.5 / 8, 0]]),
    ("[1, -1].map((side) => hemisphere(ring([0, 5], [1, 6], [2, 5]), side)?.lons.length ?? null)", [4, None]),
    ("landShape(ring([180, 10], [180, 0], [-180, 0], [-180, 10], [5, -20]), PROJECTIONS.plain).isCoast",
     [False, False, False, True, True]),
    ("landShape(ring([0, 0], [10, 0], [5, 5]), PROJECTIONS.plain).isCoast", [False, True, True]),
    ("landShape(ring([3, 10], [7, 0], [5, -20]), PROJECTIONS.plain).box",
     {"left": 3, "right": 7, "low": -20, "high": 10}),
    ("[6.9, 7, 2500, 2500.1].map((scale) => LAND.level(scale))", ["wide", "near", "near", ""]),
    ("[LAND.shapes('wide', PROJECTIONS.plain), LAND.shapes('near', PROJECTIONS.plain)].map((shapes) => shapes.reduce("
     "(sum, { xs }) => sum + xs.length, 0)).reduce((wide, near) => near > 2 * wide)", True),
    # a corner is left out where both its neighbours lie beyond the same side
    ("traced(false, [-10, 50], [-20, 60], [-10, 70], [50, 50])",
     [["moveTo", -10, -50], ["lineTo", -10, -70], ["lineTo", 50, -50], END]),
    ("traced(false, [-10, 50], [110, 60], [-10, 70], [50, 50])",
     [["moveTo", -10, -50], ["lineTo", 110, -60], ["lineTo", -10, -70], ["lineTo", 50, -50], END]),
    ("traced(false, [50, -10], [60, 110], [70, -10], [50, 50])",
     [["moveTo", 50, 10], ["lineTo", 60, -110], ["lineTo", 70, 10], ["lineTo", 50, -50], END]),
    # so is one that is nearer than 0.7 points both ways
    ("traced(false, [10, 10], [10.69, 10.69], [10.71, 10], [20, 10], [20, 10.71], [20.5, 10.9], [30, 30])",
     [["moveTo", 10, -10], ["lineTo", 10.71, -10], ["lineTo", 20, -10], ["lineTo", 20, -10.71], ["lineTo", 30, -30],
      END]),
    # the coast without the edge of the map
    ("(Object.assign(box, { right: 200 }), traced(true, [90, 10], [180, 20], [180, 40], [90, 50]))",
     [["moveTo", 90, -10], ["lineTo", 180, -20], ["moveTo", 180, -40], ["lineTo", 90, -50], END]),
    ("(Object.assign(box, { right: 200 }), traced(true, [180, 20], [90, 10], [90, 50], [180, 40]))",
     [["moveTo", 180, -20], ["lineTo", 90, -10], ["lineTo", 90, -50], ["lineTo", 180, -40]]),
    ("[[0.6, 0.6], [0.6, 0.8], [0.8, 0.6]].map(([wide, high]) => (pen.calls.length = 0, land(wide, high)))",
     [False, True, True]),
    ("[[-10, 0], [-10.1, 0], [100, 0], [100.1, 0], [0, -10], [0, -10.1], [0, 100], [0, 100.1]].map(([left, low]) => "
     "(pen.calls.length = 0, at(left, low)))", [True, False, True, False, True, False, True, False]),
    # a picture beyond the poles has sea between them
    ("picture({ x: 200, y: 100, right: 1, up: 1 }, { left: -180, right: 180, low: -100, high: 100 })",
     [{"x": "20", "y": "10", "width": "360", "height": "180", "class": "way-sea"}, {"d": True, "class": "way-land"},
      {"d": True, "class": "way-coast"}]),
    ("((parts) => parts[1].getAttribute('d') !== parts[2].getAttribute('d'))(landPicture({ x: 200, y: 100, right: 1, "
     "up: 1 },{ left: -180, right: 180, low: -90, high: 90 }))", True),
    ("picture({ x: 0, y: 0, right: 2, up: 2 }, { left: 10, right: 20, low: 40, high: 60 })[0]",
     {"x": "20", "y": "-120", "width": "20", "height": "40", "class": "way-sea"}),
    ("[[2500, 2501], [2501, 2500], [2500, 2500]].map(([right, up]) => picture({ x: 0, y: 0, right, up }, "
     "{ left: 10, right: 11, low: 40, high: 41 }).length)", [0, 0, 3]),
    ("(() => { const path = new PathText(); path.moveTo(1.26, -2); path.lineTo(3, 4); path.closePath(); "
     "return path.text })()", "M1.3 -2.0L3.0 4.0Z"),
)

WAY = """const library = squitterLog.library, shapes = (picture,
  name) => [...picture.querySelectorAll(name)].map((one) =>
  Object.fromEntries([...one.attributes].map(({ name, value }) => [name, Number.isNaN(Number(value)) ? value :
    Number(value)])));
const around = { middle: { lon: 179, lat: 0 }, wide: 10, high: 5 };
const drawnWay = (marks, box) => wayPicture("title", marks, around, box);
const words = (picture) => [...picture.querySelectorAll("text")].map((one) => one.textContent)"""

WAYS: Rows = (
    ("shapes(drawnWay([{ lon: -179, lat: 0, shape: 'place', text: '' }]), 'circle')",
     [{"cx": 240, "cy": 125, "r": 5, "class": "way-place"}]),
    ("shapes(drawnWay([{ lon: 178, lat: 1, shape: 'other', text: '' }]), '.way-other')",
     [{"x": 176, "y": 96, "width": 8, "height": 8, "class": "way-other"}]),
    ("shapes(drawnWay([{ lon: 179, lat: 0, shape: 'given', text: '' }]), '.way-given')",
     [{"d": "M193 125h14M200 118v14", "class": "way-given"}]),
    ("shapes(drawnWay([], { lon: -179, lat: 1, wide: 2, high: 1 }), '.way-box')",
     [{"x": 200, "y": 75, "width": 80, "height": 50, "class": "way-box"}]),
    ("words(drawnWay([]))", ["170E", "175E", "180", "175W", "4S", "2S", "0", "2N", "4N"]),
    ("shapes(drawnWay([]), '.way-line').map(({ d }) => d.match(/[0-9.]+/g).map(Number))",
     [*([at, 0, 250] for at in (20, 120, 220, 320)), *([0, at, 400] for at in (225, 175, 125, 75, 25))]),
    ("[words(wayPicture('', [], { middle: { lon: -179, lat: 88 }, wide: 10, high: 5 })), "
     "shapes(wayPicture('', [], { middle: { lon: 0, lat: -88 }, wide: 10, high: 5 }), '.way-line').length]",
     [["175E", "180", "175W", "84N", "86N", "88N", "90N"], 9]),
    ("words(wayPicture('', [], { middle: { lon: 0, lat: 0 }, wide: 10, high: 0.5 })).slice(-2)", ["0.2N", "0.4N"]),
    # a label stands to the right of its mark, and one without room is left out
    ("((found) => [found[0].textContent, found[0].getAttribute('x'), found[0].getAttribute('y')])("
     "drawnWay([{ lon: 179, lat: 1, shape: 'place', text: 'position' }]).querySelectorAll('text'))",
     ["position", "209", "104"]),
    ("pictureLabels(Array.from({ length: 6 }, () => ({ x: 50, y: 50, text: 'A' })), [], 100, 100).length", 4),
    ("pictureLabels([], [{ x: 5, y: 30, text: 'A' }, { x: 8, y: 30, text: 'B' }, { x: 5, y: 11, text: 'C' }], 100, 100)"
     ".map((one) => [one.textContent, one.getAttribute('y')])", [["A", "28"]]),
    ("pictureLabels([{ x: 50, y: 50, text: '' }], [[34, 56], [32, 56], [46, 72], [46, 70]].map(([x, y], at) => ({ x, "
     "y, text: String(at) })), 100, 100).map((one) => one.textContent)", ["1", "2"]),
    # one frame near a reference: the box of half a zone, the reference in the middle, and nine points a zone apart
    (f"((picture) => [shapes(picture, '.way-box'), shapes(picture, '.way-given'), shapes(picture, "
     f"'.way-other').length, shapes(picture, '.way-place').length, words(picture)[0]])(localPicture(library, "
     f"library.frame('{AIR_EVEN}'), library.local(library.frame('{AIR_EVEN}'), {{ lat: 52, lon: 4 }}), {{ lat: {{ num: "
     f"52n, den: 1n }}, lon: {{ num: 4n, den: 1n }} }}))",
     [[{"x": 137.5, "y": 125 - 78.125 / 2, "width": 125, "height": 78.125, "class": "way-box"}],
      [{"d": "M193 125h14M200 118v14", "class": "way-given"}], 9, 1, "position"]),
    (f"((picture) => [shapes(picture, '.way-place')[0].cx, shapes(picture, '.way-place')[0].cy])(localPicture(library, "
     f"library.frame('{AIR_EVEN}'), library.local(library.frame('{AIR_EVEN}'), {{ lat: 52, lon: 4 }}), "
     f"{{ lat: {{ num: 52n, den: 1n }}, lon: {{ num: 4n, den: 1n }} }}))",
     [200 * (1 + (64215 / 16384 - 4) / 16), 125 * (1 - (428091 / 8192 - 52) / 9.6)]),
    # the points of the older and of the newer frame, around each of both; a zone is 6 by 10 degrees, or less
    (f"((library, older, newer) => zoneMarks(library, older, library.pair(newer, older), 'given', 'text').map(({{ lon, "
     f"lat, text }}) => [lon, lat, text]))(library, library.frame('{AIR_EVEN}'), library.frame('{AIR_ODD}')).filter("
     "([lon]) => lon > 0 && lon < 10)",
     [[51372 / STEPS * 360 / zone_count(428091 / 8192 + north), 428091 / 8192 + north, "" if north else "text"]
      for north in (-6, 0, 6)]),
    (f"((older, newer) => {{ const [picture] = pairPicture(library, older, newer, library.pair(older, newer)); return "
     f"[shapes(picture, '.way-given').length, shapes(picture, '.way-other').length, shapes(picture, 'circle')[0].cx, "
     f"shapes(picture, '.way-given')[4].d.slice(0, 7), shapes(picture, '.way-other')[4].x, words(picture)[0]] }})("
     f"library.frame('{AIR_EVEN}'), library.frame('{AIR_ODD}'))", [9, 9, 200, "M192.74", 196, "position"]),
    # over 180 degrees there are nine points too, and at a pole the picture goes around the Earth once
    ("((frame) => zoneMarks(library, frame, library.local(frame, { lat: 10, lon: 179.99 }), 'other', '').length)("
     "library.encode(new AirHead({ address: 1 }), { lat: 10, lon: 179.99 }))", 9),
    ("((older, newer) => pairPicture(library, older, newer, library.pair(older, newer)).map((picture) => "
     "shapes(picture, '.way-line').filter(({ d }) => d.endsWith('V250')).length))("
     f"library.frame('{POLE_EVEN}'), library.frame('{POLE_ODD}'))", [4]),
    ("((older, newer) => { const site = { lat: library.angle('51.990'), lon: library.angle('4.375') }, picture = "
     "groundPicture(library, older, newer, site, library.pair(older, newer, site)); return [shapes(picture, "
     "'.way-other').map(({ x, y }) => [x < 0, Math.round((x + 4) / 50), y < 121]), shapes(picture, '.way-box')] })("
     f"library.frame('{GROUND_EVEN}'), library.frame('{GROUND_ODD}'))",
     [[[False, at, north] for at in (4, 6, 0, 2) for north in (True, False)],
      [{"x": 200 * (1 + (4.375 - 45) / 180), "y": 125 * (1 - (51.99 + 45) / 90), "width": 100, "height": 125,
        "class": "way-box"}]]),
)


def pictures(tries: Tries) -> str:
    """Coasts as they are read, cut at the equator and traced; the marks, boxes, grids and labels of pictures."""
    browser = tries.page("place")
    count = compared(browser, LANDS, RING) + compared(browser, WAYS, WAY)
    clicked(browser, "#tab-send")
    for kind, lat, lon in (("air", "52.2572021", "3.9193726"), ("ground", "10.0001", "20.0001"),
                           ("air", "-60.00001", "-30.00002")):
        clicked(browser, f"[name=send-kind][value={kind}]")
        typed(browser, send_lat=lat, send_lon=lon)
        count += close_picture(browser)
    return f"{count} drawings"


def close_picture(browser: Chromium) -> int:
    """The square stands where the even frame rounds the position to, the cross where the odd one does, and the picture
    is as high as it says."""
    rows = browser.evaluate("[...document.querySelectorAll('#send-steps tbody tr')].map((row) => "
                            "[...row.cells].slice(1).map((one) => parseFloat(one.textContent)))")
    errors: List[List[float]] = [rows[6], rows[5]]
    told: List[Any] = browser.evaluate("(() => { const near = document.getElementById('send-near'), square = "
                                       "near.querySelector('.way-other'), cross = near.querySelector('.way-given');"
                                       "return [near.textContent.match(/is about ([0-9.]+) m high/)[1], "
                                       "+square.getAttribute('x') + 4, +square.getAttribute('y') + 4, "
                                       "...cross.getAttribute('d').match(/^M([0-9.]+) ([0-9.]+)h/).slice(1)] })()")
    high, *spots = map(float, told)
    spots[2] += 7
    cosine = browser.evaluate("Math.cos(parseFloat(byId('send-lat').value) * Math.PI / 180)")
    for at in (0, 1):
        east, north = (error[at] * METRES * factor for error, factor in zip(errors, (cosine, 1)))
        right, up = ((spots[2 * at] - 200) / 250 * high, (125 - spots[2 * at + 1]) / 250 * high)
        expect(abs(right - east) < 0.02 and abs(up - north) < 0.02, "a frame of", east, north, "is at", right, up)
    return 2
