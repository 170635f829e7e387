"""squitter-live behind Debian's dump1090-mutability, over loopback, and under the page of that package.

The page brings its map library along. Only its tiles come from the network, which the browser may not use here."""
from __future__ import annotations

import functools
import http.server
import os
import re
import socket
import subprocess
import sys
import threading
import time
from contextlib import closing, contextmanager
from typing import Any, Dict, Iterator, NamedTuple, Tuple

import squitter
from live import Run, log_with, piped, served
from peer import HOLD, daemon
from process import SITE, TOP
from squitter_sky import DOUBTS
from trying import Missing, beast, expect, same, took

sys.path.append(f"{TOP}/tests/browser")  # at the end: tests there have a `trying` of their own
from chromium import Chromium, installed  # noqa: E402

PAGE = "/usr/share/dump1090-mutability/html"
SECONDS = int(os.environ.get("SECONDS", "44"))  # of traffic: the test takes a minute
AWAY = 8  # seconds that the daemon is away: the pauses of squitter-feed would be 1, 2, 4 and 8 s
AIRCRAFT, EACH = 60, 2  # each sends so many frames a second
CALLSIGN = "8D4840D6202CC371C32CE0576098"  # KLM1023, as https://mode-s.org/decode has it


class Plane(NamedTuple):
    """An aircraft that flies straight on: its place in degrees, and how far it comes in a second."""

    address: int
    feet: object
    lat: float
    lon: float
    north: float
    east: float

    def place(self, seconds: float) -> Tuple[float, float]:
        return round(self.lat + seconds * self.north, 6), round(self.lon + seconds * self.east, 6)

    def frame(self, seconds: float, odd: int) -> str:
        head: Any = squitter.GroundHead(address=self.address, odd=odd)
        if isinstance(self.feet, int):
            steps = (self.feet + 1000) // 25  # with the Q bit between its upper bits and its lower four
            head = squitter.AirHead(address=self.address, odd=odd, altitude=steps >> 4 << 5 | 16 | steps & 15)
        return squitter.encode(head, self.place(seconds)).hex().upper()

    def is_at(self, told: Dict[str, Any], place: Tuple[float, float]) -> bool:
        """Returns whether a place is at most half a step of the grid from the true one. South of 54 degrees an odd
        frame has at least 34 zones of longitude."""
        degrees = 90 if self.feet == "ground" else 360
        steps = degrees / 59 / 2**17, degrees / 34 / 2**17
        apart = abs(told["lat"] - place[0]), abs(told["lon"] - place[1])
        return place[0] < 54 and all(one <= step / 2 + 1e-7 for one, step in zip(apart, steps))


class Traffic:
    """Aircraft around the receiver, every tenth on the ground. They send in turn, and odd frames after even ones."""

    def __init__(self) -> None:
        self.planes = [self.plane(at) for at in range(AIRCRAFT)]
        self.sent = 0
        self.last: Dict[str, Tuple[Plane, Tuple[float, float]]] = {}  # where an aircraft was at its last frame

    @staticmethod
    def plane(at: int) -> Plane:
        lat, lon = 52 + 0.01 * at, 4.3 + 0.015 * at
        north, east = (at % 7 - 3) * 4e-4, (at % 5 - 2) * 6e-4
        if at % 10 == 9:
            return Plane(0x484000 + at, "ground", lat, lon, north / 100, east / 100)
        return Plane(0x484000 + at, 600 * at, lat, lon, north, east)

    def next(self) -> Tuple[float, str]:
        """Returns the time of the next frame, in seconds, and the frame."""
        turn, at = divmod(self.sent, AIRCRAFT)
        seconds, plane = self.sent / AIRCRAFT / EACH, self.planes[at]
        self.sent += 1
        self.last[f"{plane.address:06x}"] = plane, plane.place(seconds)
        return seconds, plane.frame(seconds, turn % 2)

    def send(self, link: socket.socket, seconds: float) -> None:
        """Sends for so long as Beast, each frame at its time."""
        begun, end = time.monotonic() - self.sent / AIRCRAFT / EACH, self.sent + round(seconds * AIRCRAFT * EACH)
        while self.sent < end:
            due, frame = self.next()
            time.sleep(max(0.0, begun + due - time.monotonic()))
            link.sendall(beast(frame, round(12e6 * (1 + due))))


def heard_all(run: Run, traffic: Traffic) -> Dict[str, Any]:
    """Waits until all frames are heard, and looks where each aircraft is. Returns the counts."""
    stats = run.wait(lambda stats: sum(stats[name] for name in stats if name.startswith("answer ")) >= traffic.sent,
                     f"{traffic.sent} frames")
    same([stats[name] for name in ("frames", "squitters", "set aside", "damaged", "aircraft", *DOUBTS.values())],
         [traffic.sent, traffic.sent, 0, 0, AIRCRAFT, 0, 0], stats)
    told = {one["hex"]: one for one in run.told("/data/aircraft.json")["aircraft"]}
    same(set(told), set(traffic.last))
    for name, (plane, place) in traffic.last.items():
        one = told[name]
        expect(plane.is_at(one, place), one, "is not at", place)
        same((one["alt_baro"], one["messages"]), (plane.feet, traffic.sent // AIRCRAFT), one)
    return stats


def behind_the_daemon() -> None:
    """Frames at their own pace, for SECONDS: none is lost, and each aircraft is where it sends from. Half-way the
    daemon is away for a while. That is told, and squitter-live goes on within five seconds of its return."""
    traffic = Traffic()
    with daemon() as one, served(one.place("bo"), HOLD, *SITE) as run:
        one.wait_for_feed("bo")
        traffic.send(one.binary, SECONDS / 2)
        heard_all(run, traffic)
        one.stop()
        run.wait(lambda stats: stats["state"] == "not connected", "the loss is told")
        time.sleep(AWAY)
        one.start()
        begun = time.monotonic()
        run.wait(lambda stats: stats["state"] == "connected", "connected again")
        took(begun, 0, 5, "connected again")
        one.wait_for_feed("bo")
        traffic.send(one.binary, SECONDS / 2)
        same(heard_all(run, traffic)["connections lost"], 1)


class Handler(http.server.SimpleHTTPRequestHandler):
    """Serves the files of the daemon's page, and what a run has of data."""

    def __init__(self, run: Run, *words: Any) -> None:
        self.run = run
        super().__init__(*words, directory=PAGE)

    def do_GET(self) -> None:
        if not self.path.startswith("/data/"):
            return super().do_GET()
        status, fields, body = self.run.get(self.path)
        self.send_response(status)
        self.send_header("Content-Type", fields["Content-Type"])
        self.end_headers()
        self.wfile.write(body)

    def log_message(self, *_words: Any) -> None:
        pass


@contextmanager
def page_over(run: Run) -> Iterator[Chromium]:
    """The daemon's page over the data of a run, in a browser that finds no other host."""
    server = http.server.ThreadingHTTPServer(("127.0.0.1", 0), functools.partial(Handler, run))
    threading.Thread(target=server.serve_forever, daemon=True).start()
    with server, closing(Chromium("--host-resolver-rules=MAP * ~NOTFOUND, EXCLUDE 127.0.0.1")) as browser:
        browser.call("Page.navigate", url=f"http://127.0.0.1:{server.server_port}/gmap.html")
        yield browser
        server.shutdown()


# The cells of the aircraft in the table, and what the page says of each one that is clicked.
ROWS = "[...document.querySelectorAll('#tableinfo tbody tr.plane_table_row:not(.hidden)')]"
CELLS = f"""{ROWS}.map((row) => {{
  row.click();
  const place = document.getElementById("selected_position").textContent;
  return [...[...row.cells].map((cell) => cell.textContent.trim()), place];
}})"""


def under_its_page() -> None:
    """The daemon's page lists the aircraft of a run with address, altitude and position, and one without a position by
    its callsign."""
    if not os.path.isfile(f"{PAGE}/gmap.html") or not installed():
        raise Missing("dump1090-mutability and chromium")
    traffic = Traffic()
    rows = [traffic.next() for _ in range(4 * AIRCRAFT)]
    with served("-", "--every=50", *SITE, stdin=subprocess.PIPE) as run:
        piped(run, log_with(*((round(1000 * seconds), frame) for seconds, frame in rows), (2000, CALLSIGN)))
        run.wait(lambda stats: stats["aircraft"] == AIRCRAFT + 1, "all aircraft")
        with page_over(run) as browser:
            browser.wait(f"{ROWS}.length === {AIRCRAFT + 1}", 30)
            listed = {cells[0]: cells for cells in browser.evaluate(CELLS)}
            faults = [text for text in browser.problems if "\n    at " in text]
    same(faults, [], "what its scripts throw")
    cells = listed.pop(CALLSIGN[2:8].lower())
    same((cells[2], cells[4], cells[-1]), ("KLM1023", "", "n/a"))
    same(set(listed), set(traffic.last))
    for name, (plane, (lat, lon)) in traffic.last.items():
        found = re.match(r"(\S+)°,\s(\S+)°", listed[name][-1])
        expect(found and abs(float(found[1]) - lat) < 0.0006 > abs(float(found[2]) - lon), listed[name], lat, lon)
        same(listed[name][4], str(plane.feet))
