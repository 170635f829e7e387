"""squitter-live as a process: what it serves, what it refuses, how it ends, and its table."""
from __future__ import annotations

import json
import os
import re
import runpy
import selectors
import signal
import socket
import struct
import subprocess
import tempfile
import time
from contextlib import contextmanager
from typing import Any, Callable, Dict, Iterator, List, Tuple
from unittest import mock

import squitter
import squitter_server
from process import TOP, flights, listening, log_of
from squitter_extras import extras_of
from squitter_server import Server
from squitter_sky import Sky
from trying import AIR_EVEN, AIR_ODD, GROUND, Late, beast, expect, same, took

LIVE = f"{TOP}/feeds/squitter-live"
LOG = f"{TOP}/examples/flights.log"
FAST = ["--speed=10000", "--every=50"]
Answer = Tuple[int, Dict[str, str], bytes]


class Run:
    """A run that serves at a free port."""

    def __init__(self, process: subprocess.Popen[bytes], port: int) -> None:
        self.process, self.port = process, port

    def ask(self, text: str) -> Answer:
        """Sends a request as it is. Returns the status, the header fields and the body."""
        with socket.create_connection(("127.0.0.1", self.port), 10) as link:
            link.sendall(text.encode())
            return answer_of(link)

    def get(self, path: str, method: str = "GET") -> Answer:
        return self.ask(f"{method} {path} HTTP/1.1\r\nHost: 127.0.0.1:{self.port}\r\n\r\n")

    def told(self, path: str) -> Any:
        return json.loads(self.get(path)[2])

    def wait(self, good: Callable[[Dict[str, Any]], Any], what: str, path: str = "/stats.json") -> Dict[str, Any]:
        """Waits until what is served there is as wanted."""
        end = time.monotonic() + 20
        while not good(found := self.told(path)):
            if time.monotonic() > end:
                raise Late(f"{what}: {found}")
            time.sleep(0.05)
        return dict(found)


def answer_of(link: socket.socket) -> Answer:
    data = b""
    while piece := link.recv(1 << 16):
        data += piece
    begin, _, body = data.partition(b"\r\n\r\n")
    first, *fields = begin.decode().split("\r\n")
    return int(first.split()[1]), dict(field.split(": ", 1) for field in fields), body


@contextmanager
def served(source: str, *words: str, **options: Any) -> Iterator[Run]:
    """A run of squitter-live, which is ended after its use. Its end has status 0."""
    process = subprocess.Popen([LIVE, source, "--port=0", *words], stderr=subprocess.PIPE, **options)
    try:
        assert process.stderr is not None
        said = process.stderr.readline().decode()
        found = re.fullmatch(r"squitter-live: http://127\.0\.0\.1:(\d+)/\n", said)
        assert found, said
        yield Run(process, int(found[1]))
        process.send_signal(signal.SIGTERM)
        same(process.wait(10), 0)
    finally:
        process.kill()
        process.communicate()


class Stream:
    """A client of /live."""

    def __init__(self, port: int, buffer: int = 0) -> None:
        self.link = socket.socket()
        if buffer:
            self.link.setsockopt(socket.SOL_SOCKET, socket.SO_RCVBUF, buffer)
        self.link.settimeout(10)
        self.link.connect(("127.0.0.1", port))
        self.link.sendall(b"GET /live HTTP/1.1\r\nHost: localhost\r\n\r\n")
        self.data = b""

    def next(self) -> Tuple[str, Any]:
        """Returns the name of the next event and what it tells."""
        while not (found := re.search(rb"event: (\w+)\ndata: (.*)\n\n", self.data)):
            piece = self.link.recv(1 << 16)
            expect(piece, "the stream has ended")
            self.data += piece
        self.data = self.data[found.end():]
        return found[1].decode(), json.loads(found[2])

    def until(self, good: Callable[[str, Any], Any]) -> Any:
        while not good(*(event := self.next())):
            pass
        return event[1]


def published() -> None:
    """Frames of which others say what they tell: pyModeS and its guide, https://mode-s.org/decode."""
    rows: List[Tuple[str, Dict[str, object]]] = [
        ("8D4840D6202CC371C32CE0576098", {"flight": "KLM1023"}),
        ("8D406B902015A678D4D220AA4BDA", {"flight": "EZY85MH"}),
        ("8D485020994409940838175B284F", {"gs": 159.2, "track": 182.88, "geom_rate": -832}),
        ("8DA05F219B06B6AF189400CBC33F", {}),  # an airspeed, subtype 3
        ("8DA2C1B6E112B600000000760759", {"squawk": "6513"}),
        (AIR_EVEN, {}),
    ]
    for frame, wanted in rows:
        same(extras_of(squitter.read(frame).raw if wanted else int(frame[8:22], 16)), wanted, frame)


def message(*fields: Tuple[int, int, int]) -> int:
    """The 56 bits of a message: values at the first to the last bit, counted from 1."""
    return sum(value << 56 - last for _, last, value in fields)


def by_hand() -> None:
    """Messages that are made of the standard's tables: each direction, values that are not known, and borders."""
    def speed(subtype: int, *fields: Tuple[int, int, int]) -> Dict[str, object]:
        return dict(extras_of(message((1, 5, 19), (6, 8, subtype), *fields)))

    same(speed(1), {}, "nothing is known")
    same(speed(1, (15, 24, 5)), {}, "one part alone")
    same(speed(1, (15, 24, 1), (26, 35, 1)), {"gs": 0.0}, "standing still")
    same(speed(1, (15, 24, 4), (26, 35, 5)), {"gs": 5.0, "track": 36.87}, "north-east")
    same(speed(1, (14, 14, 1), (15, 24, 4), (26, 35, 5)), {"gs": 5.0, "track": 323.13}, "north-west")
    same(speed(1, (15, 24, 4), (25, 25, 1), (26, 35, 5)), {"gs": 5.0, "track": 143.13}, "south-east")
    same(speed(2, (15, 24, 4), (26, 35, 5)), {"gs": 20.0, "track": 36.87}, "four knots a unit")
    same(speed(1, (15, 24, 1023), (26, 35, 1)), {"gs": 1022.0, "track": 90.0}, "the greatest")
    same(speed(1, (38, 46, 1)), {"geom_rate": 0}, "level")
    same(speed(1, (36, 36, 1), (38, 46, 511)), {"baro_rate": 32640}, "up")
    same(speed(1, (36, 36, 1), (37, 37, 1), (38, 46, 2)), {"baro_rate": -64}, "down")
    for subtype in (0, 3, 4, 5):
        same(speed(subtype, (15, 24, 4), (26, 35, 5)), {}, "subtype", subtype)
    digits = {0o4000: 7, 0o2000: 9, 0o1000: 11}  # the places of A4, A2 and A1, of 12 to 0 from C1 on
    for code, place in digits.items():
        same(extras_of(message((1, 5, 28), (6, 8, 1), (12, 24, 1 << place))), {"squawk": f"{code:04o}"})
    for wanted, place in (("0400", 1), ("0200", 3), ("0100", 5), ("0040", 8), ("0020", 10), ("0010", 12), ("0004", 0),
                          ("0002", 2), ("0001", 4)):
        same(extras_of(message((1, 5, 28), (6, 8, 1), (12, 24, 1 << place))), {"squawk": wanted}, place)
    same(extras_of(message((1, 5, 28), (6, 8, 2), (12, 24, 1))), {}, "another subtype of 28")
    for code in range(32):
        text = extras_of(message((1, 5, code), *((at, at + 5, 32 if at > 9 else 26) for at in range(9, 57, 6))))
        same(text.get("flight"), "Z" if 1 <= code <= 4 else None, code)
    spaces = [(at, at + 5, 32) for at in range(9, 57, 6)]
    for letter, wanted in ((0, None), (27, None), (31, None), (33, None), (47, None), (48, "0"), (57, "9"), (58, None),
                           (63, None), (1, "A"), (32, None)):
        told = extras_of(message((1, 5, 4), (9, 14, letter), *spaces[1:]))
        same(told.get("flight"), wanted, "letter", letter)


def routes() -> None:
    """Each document, with its type and without what a page could misuse; HEAD has the same head and no body."""
    types = {"/": "text/html; charset=utf-8", "/live.js": "text/javascript; charset=utf-8",
             "/style.css": "text/css; charset=utf-8", "/data/aircraft.json": "application/json",
             "/data/receiver.json": "application/json", "/stats.json": "application/json",
             "/stats": "text/plain; charset=utf-8"}
    with served(LOG, *FAST, "--lat=52.31", "--lon=4.76") as run:
        run.wait(lambda stats: stats["state"] == "ended", "the log is played")
        for path, kind in types.items():
            for asked in (path, f"{path}?since=5"):
                status, fields, body = run.get(asked)
                same((status, fields["Content-Type"], int(fields["Content-Length"])), (200, kind, len(body)), asked)
            policy = fields["Content-Security-Policy"]
            expect("default-src 'none'" in policy and "unsafe" not in policy, policy)
            same((fields["X-Content-Type-Options"], fields["Cache-Control"]), ("nosniff", "no-store"))
            status, head, body = run.get(path, "HEAD")
            same((status, body, head["Content-Type"]), (200, b"", kind), path)
        page = run.get("/")[2].decode()
        for name in re.findall(r'(?:src|href)="([^":]+)"', page):
            same(run.get(f"/{name}")[0], 200, name)
        expect(not re.search(r"<script>|<style|style=| on\w+=", page), "the page has a script or a style in it")
        same(run.get("/live", "HEAD")[1]["Content-Type"], "text/event-stream")
        receiver = run.told("/data/receiver.json")
        same((receiver["lat"], receiver["lon"], receiver["refresh"]), (52.31, 4.76, 50))
        stats = dict(line.split(": ") for line in run.get("/stats")[2].decode().splitlines())
        same((stats["frames"], stats["squitters"], stats["aircraft"]), ("2023", "2010", "5"), stats)


def refusals() -> None:
    """What is refused, with its status. The next request is answered all the same."""
    own = "Host: 127.0.0.1\r\n"
    rows = [
        (f"POST / HTTP/1.1\r\n{own}\r\n", 405), (f"OPTIONS / HTTP/1.1\r\n{own}\r\n", 405),
        (f"PUT / HTTP/1.1\r\n{own}\r\n", 405), ("GET / HTTP/1.1\r\n\r\n", 421),
        ("GET / HTTP/1.1\r\nHost: example.org\r\n\r\n", 421), ("GET / HTTP/1.1\r\nHost: localhost.org:80\r\n\r\n", 421),
        (f"GET / HTTP/1.1\r\n{own}{own}\r\n", 421), ("GET / HTTP/1.1\r\nHost:\r\n\r\n", 421),
        (f"GET /nothing HTTP/1.1\r\n{own}\r\n", 404), (f"GET /../feeds/squitter-live HTTP/1.1\r\n{own}\r\n", 404),
        (f"GET /%2e%2e/VERSION HTTP/1.1\r\n{own}\r\n", 404), (f"GET //live.js HTTP/1.1\r\n{own}\r\n", 404),
        (f"GET /live.js/ HTTP/1.1\r\n{own}\r\n", 404), (f"GET http://x/ HTTP/1.1\r\n{own}\r\n", 404),
        ("GET /\r\n\r\n", 400), ("\r\n\r\n", 400), (f"GET / HTTP/2\r\n{own}\r\n", 400),
        (f"GET  / HTTP/1.1\r\n{own}\r\n", 400),
        (f"GET /{'x' * 2048} HTTP/1.1\r\n{own}\r\n", 414), ("GET /" + "x" * 100_000, 414),
        (f"GET / HTTP/1.1\r\n{own}" + "".join(f"A{at}: b\r\n" for at in range(100)) + "\r\n", 431),
        (f"GET / HTTP/1.1\r\n{own}A: {'b' * 100_000}\r\n\r\n", 431),
    ]
    with served(LOG) as run, socket.create_connection(("127.0.0.1", run.port), 10) as silent:
        for text, wanted in rows:
            status, fields, body = run.ask(text)
            same((status, fields["Content-Type"]), (wanted, "text/plain; charset=utf-8"), text[:60])
            expect(body.startswith(str(wanted).encode()) and "unsafe" not in fields["Content-Security-Policy"], body)
            same(fields.get("Allow"), "GET, HEAD" if wanted == 405 else None)
        name = socket.gethostname()
        for host in ("localhost", "LOCALHOST:80", "127.0.0.1:9", "[::1]", "[::1]:8090", name, f"{name}.local:80"):
            same(run.ask(f"GET / HTTP/1.0\r\nhOST:  {host} \r\n\r\n")[0], 200, host)
        fields = "".join(f"A{at}: b\r\n" for at in range(99))
        same(run.ask(f"GET /stats HTTP/1.1\r\n{own}{fields}\r\n")[0], 200, "a hundred fields")
        same(run.ask(f"GET /stats HTTP/1.1\r\n{own}\r\nGET / HTTP/1.1\r\n{own}\r\n")[0], 200, "two requests at once")
        same(run.told("/stats.json")["refused"], len(rows))
        same(silent.recv(1), b"", "silence is cut off")


def beside_the_truth() -> None:
    """aircraft.json of the example: the aircraft are where the log was made from, and have the altitudes of there."""
    truth: Dict[str, List[str]] = {}
    with open(f"{TOP}/examples/flights.truth") as file:
        for line in file:
            _, address, *place = line.split()
            truth[address.lower()] = place
    with served(LOG, *FAST) as run:
        run.wait(lambda stats: stats["state"] == "ended", "the log is played")
        told = run.told("/data/aircraft.json")
        stats = run.told("/stats.json")
    same({one["hex"] for one in told["aircraft"]}, set(truth))
    same((told["now"], told["messages"]), (229.93, 2010))
    for one in told["aircraft"]:
        lat, lon, feet = truth[one["hex"]]
        apart = abs(one["lon"] - float(lon))
        near = abs(one["lat"] - float(lat)) < 1e-4 and min(apart, 360 - apart) < 1e-4 / (1 - abs(float(lat)) / 90)
        expect(near, one, "is not at", lat, lon)
        expect(abs(one["alt_baro"] - float(feet)) <= 12.5 and one["altitude"] == one["alt_baro"], one, feet)
        expect(one["seen"] == one["seen_pos"] < 60 and one["messages"] > 10 and one["rssi"] == -49.5, one)
    same([stats[name] for name in stats if name.startswith(("beyond", "faster"))], [0, 0])


def log_with(*rows: Tuple[int, str]) -> bytes:
    return log_of(rows).encode()


def piped(run: Run, data: bytes) -> None:
    assert run.process.stdin is not None
    run.process.stdin.write(data)
    run.process.stdin.flush()


def all_members() -> None:
    """The members that callsign, velocity and squawk have, by a pipe. An aircraft without a place has none."""
    address = "4840D6"
    same(AIR_EVEN[2:8], "40621D")
    data = log_with((0, "8D4840D6202CC371C32CE0576098"), (10, "8D485020994409940838175B284F"),
                    (20, "8DA2C1B6E112B600000000760759"), (30, AIR_ODD))
    with served("-", "--every=50", stdin=subprocess.PIPE) as run:
        piped(run, data)
        found = {one["hex"]: one for one in run.wait(lambda told: len(told["aircraft"]) == 4, "four aircraft",
                                                     "/data/aircraft.json")["aircraft"]}
        same(found[address.lower()]["flight"], "KLM1023")
        one = found["485020"]
        names = ("gs", "track", "geom_rate", "speed", "vert_rate")
        same([one[name] for name in names], [159.2, 182.88, -832, 159, -832])
        same(found["a2c1b6"]["squawk"], "6513")
        one = found["40621d"]
        same((one["alt_baro"], "lat" in one, "seen_pos" in one), (38000, False, False))
        client = Stream(run.port)
        piped(run, log_with((400, AIR_EVEN)))
        rows = client.until(lambda _, told: told.get("rows") and told["rows"][-1][1])["rows"]
        same(rows[-1], ["40621D", 400, 52.2572021, 3.9193726, 38000, 0, {}])
        same(client.until(lambda name, _: name == "new")["rows"], [], "told once")
        piped(run, log_with((500, GROUND)))
        rows = client.until(lambda _, told: told.get("rows"))["rows"]
        same(rows, [["484175", 0, 0.0, 0.0, "ground", 0, {}]])
        one = run.told("/data/aircraft.json")["aircraft"][-1]
        same((one["hex"], one["alt_baro"], one["altitude"]), ("484175", "ground", "ground"))
        piped(run, log_with((600, "8D4840D6202CC371C32CE0576098"))[:-1])
        assert run.process.stdin is not None
        run.process.stdin.close()
        run.process.stdin = None
        stats = run.wait(lambda stats: stats["state"] == "ended", "the pipe ends")
        same(stats["answer no position"], 4, "the last line has no line feed")


def wild_places() -> None:
    """A place that is too far from the site, or too far from the one before, is told and counted, and is in no
    aircraft.json. A place that follows a wild one is wild too, and the next one is not."""
    def pair(moment: int, lat: str, lon: str) -> List[Tuple[int, str]]:
        heads = [squitter.AirHead(address=0x123456, altitude=3128, odd=odd) for odd in (0, 1)]
        return [(moment + 10 * at, squitter.encode(head, (lat, lon)).hex().upper()) for at, head in enumerate(heads)]

    places = [("52.5", "4.5"), ("52.51", "4.5"), ("-38", "-165"), ("52.52", "4.5"), ("52.53", "4.5"), ("58", "4.5")]
    wanted = [0, 0, 3, 2, 0, 3]
    with served("-", "--every=50", "--lat=52.31", "--lon=4.76", stdin=subprocess.PIPE) as run:
        stream = Stream(run.port)
        for at, ((lat, lon), doubts) in enumerate(zip(places, wanted)):
            piped(run, log_with(*pair(20_000 * at, lat, lon)))  # beyond the window, so that no place helps the next
            told = stream.until(lambda _, told: told.get("rows") and told["rows"][0][1] == 20_000 * at + 10)
            same(told["rows"][0][5], doubts, lat, lon)
            told = run.told("/data/aircraft.json")["aircraft"][0]
            same("lat" in told, not doubts, told)
        stats = run.told("/stats.json")
        same((stats["beyond 300 NM"], stats["faster than 2000 knots"]), (2, 3), stats)
        trail = Stream(run.port).next()
        piped(run, log_with(*pair(200_000, *places[-1]), *pair(200_020, *places[-1])))
        stats = run.wait(lambda stats: stats["squitters"] == 16, "four frames at once")
        same((stats["beyond 300 NM"], stats["faster than 2000 knots"]), (5, 3), "each place is counted", stats)
        same((trail[0], [point[-1] for point in trail[1]["123456"]]), ("trails", wanted))


def stream() -> None:
    """A client gets the trails once, then the whole state, and then what is new: nothing where nothing is."""
    with served(LOG, *FAST) as run:
        run.wait(lambda stats: stats["state"] == "ended", "the log is played")
        client = Stream(run.port)
        name, trails = client.next()
        same((name, len(trails)), ("trails", 5))
        for points in trails.values():
            moments = [point[0] for point in points]
            expect(moments == sorted(moments) and moments[-1] - moments[0] <= 180_000 and len(moments) > 30, moments)
            steps = [after - before for before, after in zip(moments, moments[1:])]
            expect(min(steps) >= 2000, steps)
        name, told = client.next()
        same((name, told["state"], told["now"], len(told["rows"])), ("all", "ended", 229_930, 5))
        for _ in range(3):
            name, told = client.next()
            same((name, told["rows"]), ("new", []))


def forgotten() -> None:
    """An aircraft is gone a minute after its last frame. The clock of a pipe goes on between its lines."""
    with served("-", "--every=50", stdin=subprocess.PIPE) as run:
        piped(run, log_with((0, AIR_ODD), (400, AIR_EVEN)))
        run.wait(lambda stats: stats["aircraft"] == 1, "one aircraft")
        client = Stream(run.port)
        first = client.until(lambda name, _: name == "new")["now"]
        then = client.until(lambda name, told: told["now"] > first)["now"]
        expect(first < then < 60_000, first, then)
        for moment, count in ((60_300, 2), (61_000, 1)):
            piped(run, log_with((moment, "8D4840D6202CC371C32CE0576098")))
            run.wait(lambda stats: stats["aircraft"] == count, f"{count} aircraft")


def lost_and_back() -> None:
    """A receiver that is lost is told in the next event, and so is its return, after at most four seconds."""
    with listening() as listener:
        port = listener.getsockname()[1]
        listener.settimeout(20)
        with served(f"127.0.0.1:{port}", "--every=50") as run:
            client = Stream(run.port)
            link, _ = listener.accept()
            link.sendall(beast(AIR_ODD, 12_000_000) + beast(AIR_EVEN, 12_006_000) + beast(AIR_EVEN, 12_007_000)[:9])
            told = client.until(lambda _, told: told.get("rows") and told["rows"][0][1])
            same((told["state"], told["rows"][0][0]), ("connected", "40621D"))
            expect(abs(told["now"] - 1000 * time.time()) < 5000, "the time is", told["now"])
            link.close()
            client.until(lambda _, told: told.get("state") == "not connected")
            link, _ = listener.accept()
            client.until(lambda _, told: told.get("state") == "connected")
            link.close()
            same(run.wait(lambda stats: stats["connections lost"] == 2, "lost twice")["damaged"], 1)


def signals() -> None:
    """Each signal ends the run within half a second with status 0, also while clients are there."""
    for number in (signal.SIGINT, signal.SIGTERM, signal.SIGHUP):
        with served(LOG) as run:
            clients = [Stream(run.port) for _ in range(3)]
            for client in clients:
                client.next()
            with socket.create_connection(("127.0.0.1", run.port)):
                begun = time.monotonic()
                run.process.send_signal(number)
                same(run.process.wait(10), 0)
                took(begun, 0, 0.5 if "COVERAGE_PROCESS_START" not in os.environ else 3, "the run ends")
            run.process.send_signal = lambda _number: None  # type: ignore[method-assign]


def outcome(*words: str, **options: Any) -> Tuple[int, str]:
    done = subprocess.run([LIVE, *words], capture_output=True, text=True, timeout=20, **options)
    return done.returncode, done.stderr.replace("squitter-live: ", "").partition("\nusage:")[0].strip()


def misused() -> None:
    """What is wrong is said in a sentence, with its status."""
    with listening() as taken, tempfile.TemporaryDirectory() as work:
        port = taken.getsockname()[1]
        with open(f"{work}/text", "w") as file:
            file.write("nothing\n" * 3000)
        with open(f"{work}/short", "w") as file:
            file.write("x")
        rows: List[Tuple[List[str], int, str]] = [
            ([LOG, f"--port={port}"], 3, f"cannot serve at 127.0.0.1 port {port}: Address already in use; --port=N "
                                         "names another port, and --port=0 takes a free one"),
            ([], 2, "the following arguments are required: SOURCE; give HOST:PORT of a receiver, or a file"),
            ([LOG, "--port=0", "--address=no address"], 3, "cannot serve at no address port 0: "),
            ([LOG, "--port=65536"], 2, "argument --port: 65536 is no number from 0 to 65535"),
            ([LOG, "--port=1.5"], 2, "argument --port: 1.5 is no whole number"),
            ([LOG, "--speed=0"], 2, "argument --speed: 0 is no number from 0.001 to 10000"),
            ([LOG, "--every=49"], 2, "argument --every: 49 is no number from 50 to 60000"),
            ([LOG, "--lat=5"], 2, "--lat and --lon are given together"),
            ([LOG, "--lat=91", "--lon=5"], 2, "--lat and --lon: "),
            ([LOG, "--save=x"], 2, "unrecognized arguments: --save=x; squitter-feed saves"),
            (["/nonesuch"], 3, "cannot read /nonesuch: No such file or directory; a port is given as HOST:PORT"),
            ([f"{work}/text", "--port=0"], 1, f"{work}/text: "),
            ([f"{work}/short", "--port=0"], 1, f"{work}/short: no "),
        ]
        for words, status, wanted in rows:
            got, said = outcome(*words)
            expect(got == status and said.splitlines()[-1].startswith(wanted), words, got, said)
        got, said = outcome(LOG, env={**os.environ, "LIBSQUITTER": "/nonesuch"})
        expect(got == 3 and said.startswith("this needs libsquitter for Python ("), said)


@contextmanager
def server(**limits: Any) -> Iterator[Tuple[Server, Callable[[], None]]]:
    """A server in this process, with limits that are short enough to see, and what has it work for a moment."""
    with mock.patch.multiple(squitter_server, **limits), selectors.DefaultSelector() as selector:
        made = Server(selector, "127.0.0.1", 0, {"/": ("text/plain", b"x" * 1_000_000)}.get, "/live", lambda: b"")

        def work() -> None:
            for _ in range(50):
                for key, events in selector.select(0.001):
                    key.data(events)
        yield made, work
        made.end()
        same((made.clients, len(selector.get_map())), ({}, 0))


def falls_behind() -> None:
    """A client that does not take its events misses them, and holds up neither memory nor the others. Once it has
    taken what was sent, it gets the whole state. One that takes nothing at all is cut off."""
    with server(TAKING=0.2, BUFFER=4096) as (made, work):
        slow, good = Stream(made.port, 4096), Stream(made.port)
        work()
        event = b'event: new\ndata: "' + b"x" * 30_000 + b'"\n\n'
        for at in range(20):
            made.broadcast(lambda: event, lambda: b'event: all\ndata: "whole"\n\n')
            work()
            if at < 10:
                same(good.next()[0], "new", "event", at)
        held = sum(len(piece) for client in made.clients.values() for piece in client.left)
        expect(held < 60_000 and made.counts["events missed"] > 15, held, made.counts)
        names: List[str] = []
        slow.link.settimeout(0.05)
        while "all" not in names:
            try:
                names.append(slow.next()[0])
            except socket.timeout:
                made.broadcast(lambda: event, lambda: b'event: all\ndata: "whole"\n\n')
            work()
        same(names[:2], ["new", "all"], names)
        for _ in range(3):
            made.broadcast(lambda: event, lambda: b"")
            work()
        time.sleep(0.3)
        made.cut_off()
        same((len(made.streams()), made.counts["cut off"]), (0, 2))


def shared_text() -> None:
    """Clients that come between two events share the text that they get at first, and so does one that is stuck."""
    view = runpy.run_path(LIVE)["View"](Sky(None, 5), mock.Mock(now=lambda: 0, state=lambda: "playing"), 50)
    first = view.first()
    expect(view.first() is first, "the text is made again")
    view.sky.hear(log_with((0, AIR_EVEN)))
    view.tick()
    same(view.first(), first.replace(b'"squitters":0,"rows":[]',
                                     b'"squitters":1,"rows":[["40621D",0,0.0,0.0,38000,0,{}]]'))
    text = bytes(1_000_000)
    with server(BUFFER=4096) as (made, work):
        made.first = lambda: text
        streams = [Stream(made.port, 4096) for _ in range(2)]
        work()
        same([client.left[-1].obj is text for client in made.streams()], [True] * len(streams))
        expect(b"\r\n\r\nretry: 2000\n\n\0" in streams[0].link.recv(2000), "the text does not follow the head")


def silence() -> None:
    """A connection that does not ask in time is closed, and so is one that stays after its response. At the limit of
    connections the silent ones give way, and one that is streamed to does not."""
    with server(ASKING=0.2, LEAVING=0.2, CLIENTS=3) as (made, work):
        streamed = Stream(made.port)
        work()
        silent = [socket.create_connection(("127.0.0.1", made.port), 5) for _ in range(4)]
        silent[3].sendall(b"GET / HT")
        work()
        same((len(made.clients), made.counts["cut off"]), (3, 2))
        same([link.recv(1) for link in silent[:2]], [b"", b""])
        made.cut_off()
        same(len(made.clients), 3, "in time")
        time.sleep(0.25)
        made.cut_off()
        same(len(made.clients), 1, "too late")
        others = [Stream(made.port) for _ in range(3)]
        work()
        same((len(made.streams()), made.counts["cut off"]), (3, 5), "the last finds no room")
        streamed.link.close()
        others[0].link.close()
        work()
        same(len(made.clients), 1, "those that leave")
        staying = socket.create_connection(("127.0.0.1", made.port), 5)
        staying.sendall(b"GET /none HTTP/1.1\r\nHost: localhost\r\n\r\n")
        work()
        same(staying.recv(1000)[:12], b"HTTP/1.1 404")
        staying.sendall(b"more")
        work()
        time.sleep(0.25)
        made.cut_off()
        same((len(made.clients), made.counts["cut off"]), (1, 5))


def broken_links() -> None:
    """A client that resets its connection, at any time, is forgotten; so is one that is gone before it is accepted."""
    with server(BUFFER=4096) as (made, work):
        for text in (b"", *(b"GET %b HTTP/1.1\r\nHost: localhost\r\n\r\n" % path for path in (b"/", b"/live"))):
            link = socket.create_connection(("127.0.0.1", made.port), 5)
            link.sendall(text)
            work()
            link.setsockopt(socket.SOL_SOCKET, socket.SO_LINGER, struct.pack("ii", 1, 0))
            link.close()
            for client in list(made.clients.values()):
                made.put(client, b"x" * 100_000)
            work()
            same(made.clients, {}, text)
        with mock.patch.object(made, "listener", mock.Mock(accept=mock.Mock(side_effect=OSError))):
            made.accept(0)
        same(made.clients, {})
