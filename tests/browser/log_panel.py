"""Parts of tests/page about its panel of a log: what it hears, and the tracks on its map."""
import bz2
import gzip
import json
import lzma
import os
import re
import subprocess
from pathlib import Path
from typing import Dict, Tuple

from chromium import Chromium
from log_map import in_color
from logs import NEAR, PIECE_BYTES, USUAL, Settings, damaged, flights, hostile_logs, of_address, tracked
from trying import AIR_EVEN, AIR_ODD, SITE, Tries, bytes_of, expect, first_difference
from using import (changed, clicked, dropped, example_page, given_file, given_log, heard, heard_right, pressed, says,
                   shown, texts_of, typed, value_of)


def example(tries: Tries) -> str:
    """The example by its button: its text is what the program answers, and its tracks are cut at 180 degrees."""
    browser = example_page(tries)
    clicked(browser, "#log-text")
    text, wanted = tries.downloaded("answers.txt"), tracked(tries.program, flights(), NEAR)
    expect(text == wanted, first_difference(text, wanted))
    clicked(browser, "#log-geojson")
    features = json.loads(tries.downloaded("tracks.geojson"))["features"]
    lines = [one["geometry"]["coordinates"] for one in features if one["geometry"]["type"] == "LineString"]
    points = sum(map(len, lines)) + len(features) - len(lines)
    expect(points == len(re.findall(rb"^\d+ (?:fix|followed) ", wanted, re.M)), points, "places")
    expect(all(abs(a[0] - b[0]) < 180 for line in lines for a, b in zip(line, line[1:])),
           "a line goes around the Earth")
    expect({one["properties"]["address"] for one in features} >= {"7C0003", "A00002"}, features)
    log_lines = flights().splitlines()
    for one in features:
        expect(list(one["properties"]) == ["line", "moment", "address"], one["properties"])
        is_line = one["geometry"]["type"] == "LineString"
        numbers, moments = (one["properties"][name] if is_line else [one["properties"][name]]
                            for name in ("line", "moment"))
        expect(len(numbers) == len(one["geometry"]["coordinates"]) if is_line else 1, one)
        expect([int(log_lines[number - 1].split()[0]) for number in numbers] == moments, one["properties"])
    typed(browser, filter_what="0")
    refused = len(re.findall(rb"(bad|parity|short|not DF17|moment)", wanted))
    expect(shown(browser, "#log-rows").endswith(f"of {refused}."), shown(browser, "#log-rows"))
    typed(browser, filter_what="places", filter_address="7c0003")
    rows = texts_of(browser, "#log-table tbody td:nth-child(4)")
    expect(len(rows) == 100 and set(rows) == {"7C0003"}, rows)
    places = len(re.findall(rb"^\d+ (?:fix|followed) 7C0003 ", wanted, re.M))
    expect(shown(browser, "#log-rows") == f"Results 1 to 100 of {places}.", shown(browser, "#log-rows"), places)
    return f"{len(wanted.splitlines())} answers, {len(features)} pieces of tracks"


def logs_in_browser(tries: Tries) -> str:
    """Hostile logs as files, beside the program."""
    browser = tries.page("log")
    count = 0
    for name, log, (window, limit, site) in hostile_logs():
        lat, lon = site or ("", "")
        typed(browser, log_window=str(window), log_limit=str(limit), log_lat=lat, log_lon=lon)
        given_file(browser, f"{tries.work}/given.log", log)
        heard_right(tries, log, (window, limit, site), name)
        count += 1
    typed(browser, log_window="10000", log_limit="1000", log_lat=SITE[0], log_lon=SITE[1])
    dropped(browser, "log-table", ["drop"], flights().decode(), "dropped.log")
    heard_right(tries, flights(), NEAR)
    says(browser, "dropped.log")
    for field, bad in (("log_window", "x"), ("log_limit", "0"), ("log_lat", "91"), ("log_lon", "")):
        typed(browser, log_window="10000", log_limit="1000", log_lat="1", log_lon="1")
        typed(browser, **{field: bad})
        dropped(browser, "log-table", ["drop"], flights().decode(), "dropped.log")
        expect(shown(browser, "#log-state").startswith("Refused: "), field, shown(browser, "#log-state"))
    # a setting that is refused ends the log that is being decoded, and then there is nothing to cancel
    typed(browser, log_window="10000", log_limit="1000", log_lat="", log_lon="")
    buttons = browser.evaluate(REFUSED_MEANWHILE)
    expect(buttons == [False, True, True], "nothing to cancel:", buttons)
    return f"{count} logs, and one dropped"


# Whether Cancel is disabled while a log is decoded and after a wrong limit, and whether the worker is gone then.
REFUSED_MEANWHILE = """(() => {
  const cancel = byId("log-cancel"), limit = byId("log-limit");
  squitterLog.hear(exampleLog(), "example");
  const told = [cancel.disabled];
  limit.value = "x";
  limit.dispatchEvent(new Event("change", { bubbles: true }));
  return [...told, cancel.disabled, squitterLog.worker === null];
})()"""


def receiver_files(tries: Tries) -> str:
    """Beast, AVR with times and CSV are heard as the log of their squitters, also if a MiB cuts a message, and if the
    last line has no line feed. AVR without times is a log of bad moments, and Beast without times is refused."""
    browser, path = tries.page("log"), f"{tries.work}/given"
    flown = re.findall(r"^\d+ \*?(8[C-F][0-9A-F]{26});?$", flights().decode(), re.M)
    frames = flown * (50_000 // len(flown))
    timed = list(zip(range(0, 10**9, 20), frames))
    log = "".join(f"{moment} {frame}\n" for moment, frame in timed).encode()
    files = {
        "beast": b"".join(beast(frame, 12_000 * moment) for moment, frame in timed),
        "avr": "".join(f"@{12_000 * moment:012X}{frame};\n" for moment, frame in timed).encode(),
        "csv": "time,icao24,rawmsg".encode() + "".join(
            f"\n{moment // 1000}.{moment % 1000:03},{frame[2:8].lower()},{frame.lower()}" for moment, frame in timed
        ).encode(),
    }
    typed(browser, log_lat=SITE[0], log_lon=SITE[1])
    for name, data in files.items():
        expect(len(data) > PIECE_BYTES, name, "has one piece")
        given_file(browser, f"{path}.{name}", data)
        heard_right(tries, log, NEAR, name)
        says(browser, f"The file has {len(timed)} frames: {len(timed)} squitters, 0 damaged.")
    untimed = "".join(f"*{frame};\n" for frame in frames[:100]).encode()
    given_file(browser, f"{path}.raw", untimed)
    heard_right(tries, untimed, NEAR)
    expect("The file has" not in shown(browser, "#log-state"), shown(browser, "#log-state"))
    given_file(browser, f"{path}.tail", f"5 {AIR_ODD}\n405 {AIR_EVEN}".encode())
    rows = browser.evaluate("[squitterLog.answers.count, squitterLog.answers.places]")
    expect(rows == [2, 1], "the rows of a log whose last line has no line feed:", rows)
    late_squitters(browser, path)
    packed_files(tries, path, files["beast"], log)
    strange_files(tries, browser, path)
    rows = [f"{(9 - hour) * 3600},40621d,{AIR_EVEN}\n" for hour in range(9)]
    given_file(browser, f"{path}.unsorted", "".join(["time,icao24,rawmsg\n", *rows]).encode())
    says(browser, "8 squitters out of order, set aside.")
    given_file(browser, f"{path}.zero", b"".join(map(beast, frames[:100])))
    says(browser, "(its frames have no times)")
    return f"{len(timed)} frames in {len(files)} formats"


def late_squitters(browser: Chromium, path: str) -> None:
    """A receiver's file is decoded even if its first MiB has only Mode A/C or frames of other downlink formats."""
    for name, other, count in (("beast", "5D40621D1E3A51", 70_000), ("beast", "2000", 100_000),
                               ("avr", "5D40621D1E3A51", 40_000)):
        timed = [*((moment, other) for moment in range(count)), (count, AIR_ODD), (count + 400, AIR_EVEN)]
        data = (b"".join(beast(frame, 12_000 * moment) for moment, frame in timed) if name == "beast" else
                "".join(f"@{12_000 * moment:012X}{frame};\n" for moment, frame in timed).encode())
        expect(len(data) > PIECE_BYTES, name, "has one piece")
        given_file(browser, f"{path}.{count}.{name}", data)
        got = heard(browser)
        expect(got == b"1 waiting 40621D\n2 fix 40621D 52.2572021 3.9193726\n", name, got[:200])
        says(browser, f"The file has {count + 2} frames: 2 squitters, 0 damaged.")


def packed_files(tries: Tries, path: str, data: bytes, log: bytes) -> None:
    """A file that is compressed with gzip is unpacked, and refused if it is cut. Other archives are refused."""
    browser, packed, damaged_line = tries.browser, gzip.compress(data), b"\x1f\n" + flights()
    for name, given, as_log in (("gz", packed, log), ("log", damaged_line, damaged_line)):  # as gzip does, by one byte
        given_file(browser, f"{path}.{name}", given)
        heard_right(tries, as_log, NEAR, name)
    other, broken = "unpack it first: only gzip is unpacked here", "its gzip data is damaged or ends early"
    for name, given, told in (("bz2", bz2.compress(data), other), ("xz", lzma.compress(data), other),
                              ("zip", b"PK\3\4" + data, other), ("cut", packed[:-9], broken),
                              ("cut", b"\x1f\x8b" + data[:99], broken)):
        given_file(browser, f"{path}.{name}", given)
        says(browser, f"not decoded to its end ({told})")


SEMICOLONS = "The table has semicolons between its columns: they have to be commas, and its decimal commas points."
TABS = "The table has tabs between its columns: they have to be commas."
NO_TIME = "The table has no column time (seconds): name its columns time, icao24 and rawmsg in the first row."
NO_RAWMSG = "The table has no column rawmsg, so it has no frames: take one that has them."
NO_SECONDS = ("The first column of the table has no times in seconds, as 1700000000.25: milliseconds and dates are not "
              "read.")
NO_NAMES = ("The third column of the table has no frames: name its columns time (seconds), icao24 and rawmsg in the "
            "first row.")
NO_FRAMES = "It has no frames: a frame has 28 hexadecimal digits."
NO_MOMENTS = "No line has a timestamp. Put a time in milliseconds and a space before each frame."
# Tables and texts without a valid line, each with the page's message.
TABLES = [
    ("time;icao24;rawmsg\n1.5;40621d;8d40621d58c382d690c8ac2863a7\n", SEMICOLONS), (f"{AIR_EVEN};1.5\n", SEMICOLONS),
    (f'"rawmsg";"time"\r\n"{AIR_EVEN}";"1.5"\r\n', SEMICOLONS), (f"time\trawmsg\n1.5\t{AIR_EVEN}\n", TABS),
    (f"1.5\t\t{AIR_EVEN}", TABS), (f"icao24,rawmsg\n40621d,{AIR_EVEN}\n", NO_TIME),
    (f"1700000000000,40621d,{AIR_EVEN}\n", NO_SECONDS), (f"1.5,{AIR_EVEN}\n", NO_NAMES),
    ("time,icao24,lat,lon\n1700000000,40621d,52.3,4.7\n", NO_RAWMSG), ("time,lat\n5,52.3\n", NO_FRAMES),
    ("x" * 20_000 + "\n", NO_FRAMES), (f"{AIR_EVEN[:27]}\n", NO_FRAMES), (f"{AIR_EVEN}\n", NO_MOMENTS),
    (f"*{AIR_EVEN};\n", NO_MOMENTS), (f"x {AIR_EVEN}\n", NO_MOMENTS), (f"1,5;{AIR_EVEN};x\n", SEMICOLONS),
    (f"*{AIR_EVEN};{AIR_EVEN}\n", NO_MOMENTS),  # AVR, with a frame between semicolons
]


def strange_files(tries: Tries, browser: Chromium, path: str) -> None:
    """If all lines of a file are refused, the page names the kind of file. A log is still a log if its first line looks
    like another kind."""
    line = f"5 {AIR_EVEN}\n"
    rows = (("sbs", b"MSG,3,1,1,4840D6\n" * 3, "It is SBS (BaseStation) text, which has no frames."),
            ("json", b'{"now": 1}\n', "It is JSON, which has no frames."),
            ("utf16", line.encode("utf-16"), "It is UTF-16: save it as UTF-8."),
            ("tar", b"a.log".ljust(257, b"\0") + b"ustar\0", "It is a tar archive: unpack it first."),
            *((f"table{number}", text.encode(), told) for number, (text, told) in enumerate(TABLES)),
            ("twice", gzip.compress(gzip.compress(line.encode())),
             "It is compressed: only gzip is unpacked here, and once."))
    for name, data, told in rows:
        given_file(browser, f"{path}.{name}", data)
        heard_right(tries, gzip.decompress(data) if name == "twice" else data, USUAL, name)
        expect(shown(browser, "#log-state").endswith(f" s. {told}"), name, shown(browser, "#log-state"))
    for first in ("MSG,3\n", "{}\n"):
        given_file(browser, f"{path}.{len(first)}", (first + line).encode())
        state = shown(browser, "#log-state")
        expect(heard(browser) == b"1 bad moment\n2 waiting 40621D\n" and " s." == state[-3:], first, state)


def beast(frame: str, ticks: int = 0) -> bytes:
    """A Beast message of type 3, of type 2 for seven bytes, or of type 1 for two: the clock, a signal strength and the
    frame, with each escape doubled."""
    body = ticks.to_bytes(6, "big") + b"\x80" + bytes.fromhex(frame)
    return {28: b"\x1a3", 14: b"\x1a2", 4: b"\x1a1"}[len(frame)] + body.replace(b"\x1a", b"\x1a\x1a")


def own_site(tries: Tries) -> str:
    """The site starts empty and is that of the user: the example's is for the example alone, and typed or not a file
    is heard with what is typed. Frames from the ground without a site say in words what is wanted."""
    browser = tries.page("log")
    here = [value_of(browser, name) for name in ("log-lat", "log-lon")]
    expect(here == ["", ""], "the site starts as", here)
    sydney, words = ("-33.95", "151.18"), [tries.program, "encode", "--kind=ground", "--address=7C1234"]
    pair = b"".join(b"%d %s" % (moment, subprocess.run([*words, f"--parity={parity}", *map("--{}={}".format,
                    ("lat", "lon"), sydney)], check=True, stdout=subprocess.PIPE).stdout)
                    for moment, parity in enumerate(("even", "odd")))
    for before in (False, True):
        if before:
            clicked(browser, "#log-example")
            heard_right(tries, flights(), NEAR, "the example")
            says(browser, "near 52.31, 4.76")
            expect("from the ground" not in shown(browser, "#log-state"), shown(browser, "#log-state"))
        given_log(browser, tries, pair)
        got = heard_right(tries, pair, USUAL, before)
        expect(got.endswith(b"no site 7C1234\n"), before, got)
        says(browser, "1 frame from the ground has no position: type the position of your receiver.")
    typed(browser, log_lat=sydney[0], log_lon=sydney[1])
    given_log(browser, tries, pair)
    got = heard_right(tries, pair, (10_000, 1000, sydney))
    expect(b" fix " in got, got)
    clicked(browser, "#log-example")
    heard_right(tries, flights(), NEAR, "the example, with another site")
    return "two lines from Sydney, with and without a site"


def chosen_again(browser: Chromium, path: str) -> None:
    """Opens the dialog of the file field by the mouse, and chooses a file."""
    browser.call("Page.setInterceptFileChooserDialog", enabled=True)
    middle = browser.evaluate(
        "(() => { squitterLog.name = ''; const field = document.getElementById('log-file'); field.scrollIntoView();"
        "const { x, y, width, height } = field.getBoundingClientRect(); return [x + width / 4, y + height / 2] })()"
    )
    for kind in ("mousePressed", "mouseReleased"):
        browser.call("Input.dispatchMouseEvent", type=kind, x=middle[0], y=middle[1], button="left", clickCount=1)
    browser.evaluate("new Promise((done) => setTimeout(done, 50))")
    browser.give("#log-file", path)
    browser.wait("squitterLog.name === 'again.log'")
    browser.call("Page.setInterceptFileChooserDialog", enabled=False)


# Fields with their new values, and the settings after the change.
CHANGES: Tuple[Tuple[Dict[str, str], Settings], ...] = (
    ({"log_window": "400"}, (400, 1000, SITE)), ({"log_limit": "2"}, (400, 2, SITE)),
    ({"log_limit": "1000", "log_window": "10000"}, NEAR), ({"log_lat": "-33.9"}, (10_000, 1000, ("-33.9", SITE[1]))),
    ({"log_lat": "", "log_lon": ""}, USUAL))


def heard_again(tries: Tries) -> str:
    """A log is heard again when the site, the window or the limit changes, and when the same file is chosen once more;
    with half a site typed it waits for the other half, and a refused site leaves it to the next change."""
    browser = tries.page("log")
    path, log = f"{tries.work}/again.log", flights()
    with open(path, "wb") as file:
        file.write(log)
    changed(browser, log_lat="1", log_lon="2")
    expect(shown(browser, "#log-state") == "No log yet.", "a site without a log:", shown(browser, "#log-state"))
    changed(browser, log_lat="", log_lon="")
    chosen_again(browser, path)
    heard_right(tries, log, USUAL, "the first time")
    says(browser, "type the position of your receiver")
    changed(browser, log_lat=SITE[0])
    expect(browser.evaluate("squitterLog.worker === null"), "half a site")
    expect(shown(browser, "#log-state").startswith("again.log: decoded"), shown(browser, "#log-state"))
    changed(browser, log_lon=SITE[1])
    near = heard_right(tries, log, NEAR, "another site:")
    for fields, settings in CHANGES:
        changed(browser, **fields)
        heard_right(tries, log, settings, fields)
        expect(browser.evaluate("squitterLog.tracks.window") == settings[0], "the gap of a track with", fields)
    changed(browser, log_lat="91", log_lon="4")
    expect(shown(browser, "#log-state").startswith("Refused: "), shown(browser, "#log-state"))
    changed(browser, log_lat=SITE[0], log_lon=SITE[1])
    heard_right(tries, log, NEAR, "after a site that was refused")
    with open(path, "ab") as file:
        file.write(b"999999 " + AIR_EVEN.encode() + b"\n")
    chosen_again(browser, path)
    expect(heard_right(tries, bytes_of(path), NEAR, "the same file, which has grown:") != near, "it has not grown")
    one = of_address(log, "484004")
    given_log(browser, tries, one)
    changed(browser, log_window="400")
    heard_right(tries, one, (400, 1000, SITE), "another file since:")
    count = example_again(tries, browser)
    return f"{10 + count} times"


def example_again(tries: Tries, browser: Chromium) -> int:
    """The example keeps its own site and its flight when a setting changes, whatever site is typed. Returns how often
    it was heard again."""
    away, log = ("-33.9", "151.2"), flights()
    # With a shorter window no frame from the ground has a position, so all sites would give the same answers.
    answers = {tracked(tries.program, log, (1000, 1000, site)) for site in (SITE, away, None)}
    expect(len(answers) == 3, "the example does not depend on its site")
    typed(browser, log_window="10000", log_limit="1000", log_lat="", log_lon="")
    clicked(browser, "#log-example")
    heard(browser)
    steps = (({"log_window": "1000"}, (1000, 1000)), ({"log_lat": away[0], "log_lon": away[1]}, (1000, 1000)),
             ({"log_window": "300"}, (300, 1000)), ({"log_limit": "3"}, (300, 3)),
             ({"log_window": "1000"}, (1000, 3)), ({"log_lat": "", "log_lon": ""}, (1000, 3)))
    for fields, (window, limit) in steps:
        changed(browser, **fields)
        got = heard_right(tries, log, (window, limit, SITE), "the example after", fields)
        says(browser, "near 52.31")
        is_placed = re.search(rb" (?:fix|followed) 484004 ", got) is not None
        expect(browser.evaluate("squitterLog.map.address === 0x484004") == is_placed, "the flight after", fields)
    return len(steps)


def huge_line(tries: Tries) -> str:
    """A hundred million bytes without a line feed, and a good line after them: the page keeps no more than a line."""
    browser = tries.page("log")
    path, good = f"{tries.work}/huge.log", b"\n1 " + AIR_EVEN.encode() + b"\n"
    with open(path, "wb") as file:
        for _ in range(100):
            file.write(b"8D" * 500_000)
        file.write(good)
    typed(browser, log_window="10000", log_limit="1000", log_lat="", log_lon="")
    given_file(browser, path)
    got = heard_right(tries, bytes_of(path))
    expect(got.count(b"\n") == 2, got[:200])
    return f"{os.path.getsize(path)} bytes, {got.count(10)} answers"


# The words of a worker that fails with these messages.
FAILED = """((messages) => {
  const { Worker } = window, made = [], told = [];
  window.Worker = class {
    constructor() { made.push(this); }
    postMessage(task) { told.push(Object.keys(task).sort().join()); }
  };
  startHearing({ file: null, settings: null }, (said) => told.push(said));
  window.Worker = Worker;
  for (const message of messages) made[0].onerror({ message });
  return told;
})(["x is not defined", ""])"""


def failed_worker(tries: Tries) -> str:
    """A worker that fails, or does not start, is told. An empty file is decoded to its end."""
    browser = tries.page("log")
    told = browser.evaluate(FAILED)
    expect(told == ["file,settings,wasm", {"failed": "x is not defined"}, {"failed": "the worker did not start"}], told)
    browser.evaluate("document.getElementById('log-progress').value = 0.5")
    given_file(browser, f"{tries.work}/empty.log", b"")
    told = [shown(browser, "#log-state"), browser.evaluate("document.getElementById('log-progress').value")]
    expect(told[0].startswith("empty.log: decoded. 0 lines, 0 positions, 0 refused, in ") and told[1] == 1, told)
    return "two errors, and an empty file"


# Counts the workers that were started and have not been ended.
COUNTED = """(() => {
  const Real = Worker;
  window.working = 0;
  window.Worker = class extends Real {
    #isEnded = false;
    constructor(...words) {
      super(...words);
      window.working += 1;
    }
    terminate() {
      if (!this.#isEnded) window.working -= 1;
      this.#isEnded = true;
      super.terminate();
    }
  };
})()"""


def workers_ended(tries: Tries) -> str:
    """No worker is left after a log, after each way to save it, after a log and a save that fail, after a log that is
    cancelled, and after one that another took the place of."""
    browser, count = tries.page("log"), 0
    browser.evaluate(COUNTED)

    def ended(what: str) -> None:
        nonlocal count
        browser.wait("squitterLog.worker === null")
        left = browser.evaluate("window.working")
        expect(left == 0, left, "workers are left after", what)
        count += 1
    clicked(browser, "#log-example")
    ended("a log")
    for name, file in (("csv", "answers.csv"), ("text", "answers.txt"), ("geojson", "tracks.geojson")):
        clicked(browser, f"#log-{name}")
        tries.downloaded(file)
        ended(f"a save as {name}")
    # A file of bzip2 is refused by the worker.
    browser.evaluate("squitterLog.task = { ...squitterLog.task, file: new Blob(['BZh9']) }; 0")
    clicked(browser, "#log-csv")
    browser.wait("document.getElementById('log-state').textContent.includes('not saved')")
    ended("a save that fails")
    given_file(browser, f"{tries.work}/refused.bz2", b"BZh9")
    ended("a log that fails")
    for stop in ("#log-cancel", "#log-example"):
        given_file(browser, f"{tries.work}/long.log", damaged(100_000), until="worker !== null")
        clicked(browser, stop)
        ended(f"a log that is left by {stop}")
    return f"{count} ends"


# Keeps each share of a file that its worker says is done, and how long the page did nothing else.
PROGRESS = """{
  const { told } = squitterLog;
  window.progressTold = [];
  window.longest = 0;
  window.begun = performance.now();
  new PerformanceObserver((list) => {
    window.longest = Math.max(window.longest, ...list.getEntries().map((one) => one.duration));
  }).observe({ type: "longtask" });
  squitterLog.told = (said) => {
    if (said.done !== undefined) progressTold.push(said.done);
    told.call(squitterLog, said);
  };
}"""


# Cancels the next log once it has results.
CANCELS = """{
  const { told } = squitterLog;
  squitterLog.told = (said) => {
    told.call(squitterLog, said);
    if (!said.answers) return;
    delete squitterLog.told;
    document.getElementById("log-cancel").click();
  };
}"""


def long_log(tries: Tries) -> str:
    """Two hundred thousand lines: the page answers meanwhile, can cancel, and hears them all."""
    browser = tries.page("log")
    path, log = f"{tries.work}/long.log", damaged(200_000)
    Path(path).write_bytes(log)
    browser.evaluate(PROGRESS)
    given_file(browser, path)
    # A page that decoded the log by itself would do nothing else until the end, however long that takes.
    longest, whole = browser.evaluate("[longest, performance.now() - begun]")
    expect(longest < whole / 2, "the page did nothing else for", longest, "of", whole, "milliseconds")
    ends = [*range(PIECE_BYTES, len(log), PIECE_BYTES), len(log)]
    told = browser.evaluate("delete squitterLog.told && [progressTold, document.getElementById('log-progress').value]")
    expect(told == [[end / len(log) for end in ends], 1], "progress:", told)
    wanted = heard_right(tries, log)
    # The button is clicked in the page, at the first results: the log may end before a click from here arrives.
    browser.evaluate(CANCELS)
    given_file(browser, path)
    says(browser, "cancelled")
    expect(wanted.startswith(heard(browser)), "other results than before")
    return f"{len(wanted.splitlines())} answers"


PLANES = """Object.values(PROJECTIONS).map((one) => {
  let worst = 0;
  for (let lat = -89.5; lat < 90; lat += 3.7) {
    for (let lon = -179.5; lon < 180; lon += 7.3) {
      if (!one.shows(lat)) continue;
      const back = one.degrees({ x: one.x(lon, lat), y: one.y(lon, lat) });
      worst = Math.max(worst, Math.abs(back.lon - lon), Math.abs(back.lat - lat));
    }
  }
  return worst;
})"""


def maps(tries: Tries) -> str:
    """Tracks near a pole are shown around it, by themselves or as it is chosen; places are where they are drawn."""
    browser = tries.page("log")
    worst = browser.evaluate(PLANES)
    expect(max(worst) < 1e-9, "there and back:", worst)
    south = of_address(flights(), "A00002").decode().splitlines()
    count = 0
    for address, title in (("A00002", "around the north pole"), ("7C0003", "Mercator")):
        given_log(browser, tries, of_address(flights(), address))
        browser.wait(f"document.getElementById('map-state').innerText.includes('{title}')")
        spots = browser.evaluate(
            "squitterLog.tracks.pieces().sort((a, b) => b.lons.length - a.lons.length)"
            ".slice(0, 1).map(({ lons, lats }) => [lons[1], lats[1]])"
        )
        browser.evaluate(f"squitterLog.map.fit(0x{address})")
        for lon, lat in sorted(spots)[:1]:
            around = [(right, down) for right in range(-2, 3) for down in range(-2, 3)]
            expect(any(in_color(browser, 0, lon, lat, around)), address, lon, lat, "is not drawn")
            count += 1
    clicked(browser, "#log-example")
    heard(browser)
    chosen(browser, map_address="")
    expect("equal degrees" in shown(browser, "#map-state"), shown(browser, "#map-state"))
    count += zoomed_views(browser)
    clicked(browser, "[data-map=fit]")
    chosen_spot(tries)
    seam = browser.evaluate("squitterLog.tracks.pieces(0x7C0003).map(({ joined }) => joined)")
    expect(seam == [False, True], "7C0003 is cut", seam)
    return f"{count} views and places, {len(south)} lines near the pole"


def chosen(browser: Chromium, **fields: str) -> None:
    """Chooses options of fields, and waits until the map is drawn."""
    changed(browser, **fields)
    browser.evaluate("new Promise((done) => requestAnimationFrame(() => requestAnimationFrame(done)))")


def zoomed_views(browser: Chromium) -> int:
    """The point under the pointer stays there in each view, from far and from near; how many views there are."""
    count = 0
    views = (("north", "north pole"), ("south", "south pole"), ("mercator", "Mercator"), ("plain", "equal degrees"))
    for view, title in views:
        chosen(browser, map_view=view)
        expect(title in shown(browser, "#map-state"), view, shown(browser, "#map-state"))
        for factor in (1, 40, 4000, 1 / 1e6):
            browser.evaluate(f"squitterLog.map.zoom({factor}); squitterLog.map.draw()")
            moved = browser.evaluate(
                "(() => { const { map } = squitterLog, at = map.pointAt(30, 40); map.zoom(1.7, 30, 40);"
                "const then = map.pointAt(30, 40); return Math.hypot(at.x - then.x, at.y - then.y) * map.scale })()"
            )
            expect(moved < 0.01, view, "the point under the pointer moves by", moved)
            count += 1
    return count


def chosen_spot(tries: Tries) -> None:
    """The newest place of an aircraft is chosen by the pointer near it, and told as the program answers it."""
    browser = tries.browser
    spot = "squitterLog.map.spot(squitterLog.tracks.newest(0xA00002))"
    told = browser.evaluate(
        f"(() => {{ const {{ x, y }} = {spot}; const map = squitterLog.map;"
        "map.choose(map.nearest(x + 3, y - 2)); return document.getElementById('map-spot').innerText })()"
    )
    answers = tracked(tries.program, flights(), NEAR).decode().splitlines()
    newest = [line for line in answers if "A00002" in line][-1]
    number, _, address, lat, lon = newest.split(" ")
    expect(told.startswith(f"{address} at {lat} {lon}, 41000 ft, 0:03:") and told.endswith(f", line {number}."), told)
    expect(browser.evaluate("squitterLog.map.nearest(-500, -500)") is None, "a place far away is chosen")


def played(tries: Tries) -> str:
    """The log played again: places up to the moment alone, by the button, the slider and its keys."""
    browser = example_page(tries)
    answers = [line.split(b" ") for line in tracked(tries.program, flights(), NEAR).splitlines()]
    moments = [int(line.split(b" ")[0]) for line in flights().splitlines()]
    places = sorted(moments[int(number) - 1] for number, what, *_ in answers if what in (b"fix", b"followed"))
    expect(browser.evaluate("squitterLog.map.until === Infinity"), "not all is shown at first")
    count = 0
    for value in (0, 1, 250, 500, 999, 1000):
        typed(browser, play_slider=str(value))
        moment = browser.evaluate("squitterLog.playback.moment")
        expect(abs(moment - places[0] - (places[-1] - places[0]) * value / 1000) < 1, value, "is moment", moment)
        drawn = browser.evaluate("squitterLog.tracks.count(squitterLog.map.until)")
        expect(drawn == sum(place <= moment for place in places), drawn, "places up to", moment)
        count += 1
    browser.evaluate("document.getElementById('play-slider').focus()")
    for key, wanted in (("Home", places[0]), ("End", places[-1])):
        pressed(browser, key)
        expect(browser.evaluate("squitterLog.playback.moment") == wanted, key)
    before = browser.evaluate("squitterLog.playback.moment")
    pressed(browser, "ArrowLeft")
    expect(browser.evaluate("squitterLog.playback.moment") < before, "the arrow does nothing")
    typed(browser, play_slider="0", play_speed="10")
    clicked(browser, "#play-button")
    browser.wait("squitterLog.playback.moment > squitterLog.playback.first")
    expect(shown(browser, "#play-button") == "Pause", shown(browser, "#play-button"))
    clicked(browser, "#play-button")
    paused = browser.evaluate("new Promise((done) => setTimeout(() => done(squitterLog.playback.moment), 100))")
    expect(browser.evaluate("squitterLog.playback.moment") == paused, "goes on while it pauses")
    typed(browser, play_speed="3600")
    clicked(browser, "#play-button")
    browser.wait("!squitterLog.playback.playing")
    expect(browser.evaluate("squitterLog.map.until === Infinity"), "not all is shown at the end")
    given_log(browser, tries, b"0 " + AIR_EVEN.encode())
    expect(browser.evaluate("document.getElementById('play-button').disabled"), "nothing is played")
    return f"{count} moments"
