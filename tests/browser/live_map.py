"""Parts of tests/page about the live map, which squitter-live serves: what it draws, its list, and its end."""
import json
import os
import re
import shlex
import signal
import subprocess
from contextlib import closing, contextmanager
from typing import Any, Dict, Iterator, List, Tuple

import firefox
from chromium import Chromium
from trying import TOP, Missing, Tries, expect
from using import clicked, pressed, shown, texts_of

NEAR, FAR = "484004", "4B1001"  # aircraft of the example: near the site, and beyond 300 NM
# The colour of the middle of an aircraft's mark, and whether it is that of its altitude.
MARK = """new Promise((done) => requestAnimationFrame(() => requestAnimationFrame(() => {
  const { map } = live, plane = map.tracks.plane(0x%s), { x, y } = map.spot(plane), { canvas } = map;
  const of = (draw) => {
    const pen = new OffscreenCanvas(1, 1).getContext("2d", { willReadFrequently: true });
    draw(pen);
    return [...pen.getImageData(0, 0, 1, 1).data].join(" ");
  };
  const colors = getComputedStyle(canvas), color = (name) => of((pen) => {
    pen.fillStyle = colors.getPropertyValue(name);
    pen.fillRect(0, 0, 1, 1);
  });
  const drawn = of((pen) => pen.drawImage(canvas, -Math.round(x), -Math.round(y)));
  done(drawn === color(`--${feetName(plane.feet)}`) ? "full" : drawn === color("--ground") ? "hollow" : drawn);
})))"""


@contextmanager
def example() -> Iterator[str]:
    """The address of a live map that plays the example fast. Its server is ended after the use."""
    words = [f"{TOP}/feeds/squitter-live", f"{TOP}/examples/flights.log", "--speed=10000", "--port=0", "--every=50",
             "--lat=52.31", "--lon=4.76"]
    with subprocess.Popen(words, stderr=subprocess.PIPE, text=True) as process:
        try:
            assert process.stderr is not None
            yield process.stderr.readline().split()[-1]
            process.send_signal(signal.SIGTERM)
            expect(process.wait(10) == 0, "squitter-live ends with", process.returncode)
        finally:
            process.kill()


@contextmanager
def live(tries: Tries) -> Iterator[Chromium]:
    """The live map of the example at its end, in the browser. Its server is ended before the use is over."""
    browser = tries.browser
    try:
        with example() as address:
            browser.look()
            browser.open(address)
            browser.wait("byId('state').textContent === 'ended'")
            yield browser
            tries.silent()
        browser.wait("byId('state').textContent === 'server lost' && byId('state').className === 'bad'", 10)
        browser.problems.clear()  # what it says of the server that is gone
    finally:
        browser.call("Page.navigate", url="about:blank")


def first_cells(browser: Chromium) -> List[str]:
    return texts_of(browser, "#list tbody td:first-child")


def live_list(tries: Tries) -> str:
    """The list has the aircraft by distance, or by a column. A row, by click or key, and a click on the map select."""
    with live(tries) as browser:
        expect(first_cells(browser) == [NEAR, "3C0005", "A00002", FAR, "7C0003"], first_cells(browser))
        expect(shown(browser, "[aria-sort]") == "NM", shown(browser, "[aria-sort]"))
        wanted = {"feet": "A00002", "name": "3C0005", "age": "3C0005"}
        for column, address in wanted.items():
            clicked(browser, f"[data-by={column}]")
            expect(first_cells(browser)[0] == address, column, first_cells(browser))
        said = shown(browser, "#counts")
        wild = r"Positions that cannot be true: \d+ beyond 300 NM"
        expect(re.fullmatch(rf"5 aircraft, 2010 squitters\. {wild}", said), said)
        clicked(browser, "#list tbody tr:nth-child(2)")
        card = shown(browser, "#chosen")
        expect(card.startswith("484004") and "52.4117680, 4.9482422" in card and "4950 ft" in card, card)
        browser.evaluate("document.querySelectorAll('#list tbody tr')[4].focus()")
        pressed(browser, "Enter")
        card = shown(browser, "#chosen")
        expect(card.startswith(FAR) and "too far from the receiver" in card, card)
        spot = f"Object.values(live.map.spot(live.tracks.plane(0x{NEAR})))"
        browser.evaluate(f"live.map.choose(live.map.nearest(...{spot}))")
        expect(shown(browser, "#chosen").startswith(NEAR), shown(browser, "#chosen"))
    return "5 aircraft, 4 columns"


def live_marks(tries: Tries) -> str:
    """A mark has the colour of its altitude. It is hollow after 15 seconds or where it cannot be true, and is gone
    after a minute. A tail has no line to a position that cannot be true."""
    with live(tries) as browser:
        def mark(address: str, age: int) -> str:
            browser.evaluate(f"live.take = () => {{}}; live.map.now = live.tracks.plane(0x{address}).moment + {age};"
                             f"live.map.center = {{ x: live.map.projection.x(live.tracks.plane(0x{address}).lon, 0),"
                             f"y: live.map.projection.y(0, live.tracks.plane(0x{address}).lat) }}; live.map.redraw()")
            return str(browser.evaluate(MARK % address))
        got = [mark(NEAR, 0), mark(NEAR, 15_000), mark(NEAR, 15_001), mark(FAR, 0)]
        expect(got == ["full", "full", "hollow", "hollow"], got)
        names = browser.evaluate("[-9999, -9998, 0, 1999, 2000, 38999, 39000].map(feetName).join(' ')")
        expect(names == "feet-none feet-none feet0 feet0 feet1 feet6 feet7", names)
        left = browser.evaluate("live.tracks.forget(229930 + 30000); live.tracks.shown().length")
        expect(left == 1, left, "aircraft after a minute")
        pieces = browser.evaluate("""(() => {
          const tracks = new LiveTracks();
          [[1000, 52, 4, 38000, 0], [2000, 52.01, 4, 38000, 0], [3000, 60, 4, 38000, 2], [4000, 52.02, 4, 38000, 2],
            [5000, 52.03, 4, 38000, 0], [4999, 1, 1, 1, 0], [40000, 52.1, 4, "ground", 0],
          ].forEach((row) => tracks.take(1, row));
          return tracks.pieces(1).map(({ joined, doubts, count }) => `${joined} ${doubts} ${count}`);
        })()""")
        wanted = ["false 0 2", "false 2 1", "false 2 1", "false 0 1", "true 0 1"]
        expect(pieces == wanted, pieces)
    return "4 marks, 5 pieces"


EVEN = {"frame": "E", "moment": 1000, "parity": "even"}
ODD = {"frame": "O", "moment": 1400, "parity": "odd"}
FIX = {"answer": "fix", "frames": [EVEN, ODD], "near": None, "lat": "1/2", "lon": "-3/4", "command": "c"}
FOLLOWED = {**FIX, "answer": "followed", "frames": [EVEN], "near": ["1.5", "-2.5"]}
EVEN_LINE, ODD_LINE = ["even frame, at 1000 ms", "E"], ["odd frame, at 1400 ms", "O"]
LAST = [["latitude", "1/2"], ["longitude", "-3/4"], ["This command gives it again:"]]
FIX_LINES = [["fix: the position of the newer of two frames."], EVEN_LINE, ODD_LINE, *LAST]
FOLLOWED_LINES = [["followed: the position of one frame near the one before, 1.5 -2.5."], EVEN_LINE, *LAST]
EARLIER = ["The position shown is of an earlier frame."]
REASONS = {"waiting": "within 10 s there is no frame of the other parity, and no position to follow",
           "split": "the pair lies on both sides of a zone border, and within 10 s there is no position to follow",
           "far": "a latitude of the pair lies beyond a pole",
           "no site": "a pair on the ground needs the position of the receiver: --lat and --lon"}
WHY_ROWS: List[Tuple[Dict[str, Any], List[List[str]]]] = [
    ({**ODD, "answer": "fix", "place": FIX}, FIX_LINES),
    ({**EVEN, "answer": "followed", "place": FOLLOWED}, FOLLOWED_LINES),
    ({**ODD, "answer": "fix", "place": FIX, "doubts": ["a", "b"]}, [FIX_LINES[0], ["doubtful: a, b."], *FIX_LINES[1:]]),
    *(({**ODD, "answer": answer, "place": FOLLOWED},
       [[f"{answer}: the last position frame has no position, because {reason}."], ODD_LINE, EARLIER, *FOLLOWED_LINES])
      for answer, reason in REASONS.items()),
    ({**EVEN, "answer": "waiting", "place": None},
     [[f"waiting: the last position frame has no position, because {REASONS['waiting']}."], EVEN_LINE]),
]
# Requests that are answered by hand: those that were sent, and what answers one. The stream tells of nothing new.
ASKED = """window.sent = [];
window.fetch = (path) => new Promise((done) => sent.push({ path, done }));
window.tell = async (at, command) => {
  const told = %s;
  sent[at].done({ ok: command !== "", json: async () => ({ ...told, place: { ...told.place, command } }) });
  await new Promise((done) => setTimeout(done));
  return [byId("why").hidden, byId("why-command").textContent, byId("why").lastElementChild.hidden];
};
window.event = (...names) => {
  const rows = names.map((name) => [name, 0, 0, 0, null, 0, {}]);
  live.take({ now: live.map.now, state: "ended", squitters: 1, doubtful: {}, rows }, false);
  return sent.length;
}; 0""" % json.dumps({**ODD, "answer": "fix", "doubts": [], "place": FIX})


def live_why(tries: Tries) -> str:
    """The selected aircraft says why it is where it is, with the command that the program answers alike. The page asks
    at a selection and at each event that tells of the aircraft, and only the last question is answered."""
    with live(tries) as browser:
        for address, doubt in ((NEAR, ""), (FAR, "doubtful: beyond 300 NM.")):
            browser.evaluate(f"live.map.select(0x{address})")
            browser.wait(f"live.why.address === 0x{address} && !byId('why').hidden", 10)
            said, command = shown(browser, "#why-said"), shown(browser, "#why-command")
            first, *words = shlex.split(command)
            done = subprocess.run([tries.program, *words], capture_output=True, text=True, check=True)
            lat, lon = done.stdout.splitlines()[1].split()
            wanted = ("fix: ", f"latitude {lat}", f"longitude {lon}", "even frame", "odd frame", *words[1:], doubt)
            expect(first == "squitter" and all(one in said for one in wanted), said, wanted)
            decimals = done.stdout.splitlines()[0].replace(" ", ", ")
            expect(decimals in shown(browser, "#chosen"), decimals, shown(browser, "#chosen"))
        browser.evaluate("void (window.copyText = async (text) => { window.taken = text; return true })")
        clicked(browser, "#why button")
        expect(browser.evaluate("taken") == command, "copied is", browser.evaluate("taken"))
        for told, lines in WHY_ROWS:
            got = browser.evaluate(f"whyLines({json.dumps({'doubts': [], **told})})")
            expect(got == lines, told, got, lines)
        asked_by_hand(browser)
    return f"{len(WHY_ROWS)} answers"


def asked_by_hand(browser: Chromium) -> None:
    """When the page asks, and which answer it shows."""
    browser.evaluate(ASKED)
    browser.evaluate(f"live.map.select(0x{NEAR}); live.map.select(0x{FAR})")
    expect(browser.evaluate("sent.map(({ path }) => path)") == [f"why/{NEAR}", f"why/{FAR}"], "asked for")
    rows = (
        ("tell(1, 'new')", [False, "new", False]), ("tell(0, 'old')", [False, "new", False]),
        (f"event('{NEAR}')", 2), ("event()", 2), (f"event('{NEAR}', '{FAR}')", 3),
        ("[byId('why').hidden, byId('why-command').textContent]", [False, "new"]),  # until it is answered
        ("tell(2, 'then')", [False, "then", False]),
        (f"(live.map.select(0x{NEAR}), byId('why').hidden)", True), ("tell(3, '')", [False, "", True]),
        ("byId('why-said').textContent", "The server has no position frame of it."),
        ("(live.map.select(NaN), [sent.length, byId('why').hidden])", [4, True]),
        (f"event('{NEAR}')", 4),
        (f"(live.map.select(0x{NEAR}), tell(4, 'x'))", [False, "x", False]),
        (f"(live.tracks.planes.delete(0x{NEAR}), live.list(), byId('why').hidden)", True),
    )
    for script, wanted in rows:
        got = browser.evaluate(script)
        expect(got == wanted, script, got, wanted)


def live_layout(tries: Tries) -> str:
    """The map fills the window beside the list; on a phone the list is below. Nothing is wider than the window."""
    boxes = """(() => ["map", "list-box"].map((name) => {
      const { left, top, right, bottom } = byId(name).getBoundingClientRect();
      return [left, top, right, bottom].map(Math.round);
    }))()"""
    with live(tries) as browser:
        for width, height, dark in ((1280, 800, False), (1280, 800, True), (390, 800, False), (320, 568, True)):
            browser.look(width, height, dark)
            (left, top, right, bottom), (list_left, list_top, _, list_bottom) = browser.evaluate(boxes)
            expect((left, top) == (0, 0) and list_bottom <= height, width, left, top, list_bottom)
            beside = bottom == height and list_left >= right
            expect(beside if width > 700 else right == width and list_top >= bottom > height / 2, width, right, bottom)
            browser.evaluate(f"live.map.select(0x{NEAR})")
            browser.wait("!byId('why').hidden", 10)
            sizes = "(({ scrollWidth, scrollHeight }) => [scrollWidth, scrollHeight])(document.documentElement)"
            expect(browser.evaluate(sizes) == [width, height], "the page in", width, height, browser.evaluate(sizes))
            high = browser.evaluate("byId('list-box').clientHeight")
            expect(high >= 80, "beside a selected aircraft the list is", high, "high in", width, height)
            browser.evaluate("live.map.select(NaN)")
            if os.environ.get("SHOTS"):
                browser.picture(f"{os.environ['SHOTS']}/live-{width}{'-dark' * dark}.png")
        browser.look()
    return "4 windows"


# The altitude colours of aircraft that a map has, by their numbers.
COLOURS = """(() => {
  const pixels = (pen, wide, high) => new Uint32Array(pen.getImageData(0, 0, wide, high).data.buffer);
  const canvas = document.querySelector("canvas"), spot = new OffscreenCanvas(1, 1).getContext("2d");
  const drawn = new Set(pixels(canvas.getContext("2d"), canvas.width, canvas.height));
  return [0, 1, 2, 3, 4, 5, 6, 7].filter((at) => {
    spot.fillStyle = getComputedStyle(canvas).getPropertyValue(`--feet${at}`);
    spot.fillRect(0, 0, 1, 1);
    return drawn.has(pixels(spot, 1, 1)[0]);
  });
})()"""


def live_in_firefox(tries: Tries) -> str:
    """Firefox shows the list, the aircraft that is clicked and the map, and says that the server is lost."""
    if not firefox.installed():
        raise Missing("firefox-esr")
    with closing(firefox.Firefox()) as browser:
        with example() as address:
            browser.open(address)
            browser.wait("document.getElementById('state').textContent === 'ended'")
            browser.evaluate("document.querySelector('#list tbody tr').click()")
            said, colours = browser.evaluate("document.body.innerText"), browser.evaluate(COLOURS)
            expect("5 aircraft, 2010 squitters" in said and "52.4117680, 4.9482422" in said, said)
            expect(colours == [0, 1, 2], colours)  # 484004 climbs to 4,950 feet, and 3C0005 is at 7,525
        browser.wait("document.getElementById('state').textContent === 'server lost'", 10)
        return f"Firefox {browser.version}"
