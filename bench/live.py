#!/usr/bin/env python3
"""live.py [SECONDS [ROUNDS]]: what squitter-live takes of a core and of memory, and how soon it tells of a frame.

A Beast source in this script sends 3,000 frames a second of 1,000 aircraft (bench/gen.c) at their own pace. Each row is
measured for 30 SECONDS. Its clients are of /live: some read, and some are stuck and read nothing. The share of a core
is processor time over wall time; memory is what is resident at the end. The time of a frame runs from its sending to
the first event that tells a client of it, or of a later frame of the same aircraft. With ROUNDS all rows are measured
so many times, and each figure is the least. The script stops if squitter-live does not count every frame, or if it cuts
off a client that reads."""
import contextlib
import json
import math
import os
import selectors
import socket
import statistics
import subprocess
import sys
import tempfile
import time
import urllib.request
from collections import Counter, defaultdict, deque
from typing import Any, DefaultDict, Deque, Dict, List, NamedTuple, Sequence, Tuple

from surfaces import CLIB, TOP, Inputs, beast, numbers

AIRCRAFT, RATE = 1000, 3000
OF_GEN = 2000  # frames a second in a log of gen.c
WARM, SETTLED = 5, 2  # seconds until the aircraft have positions, and until clients have what they get at first
ROWS = {"no client": (0, 0), "1 client": (1, 0), "100 clients": (100, 0), "1 client, 100 stuck": (1, 100)}


class Took(NamedTuple):
    """What a row has: percent of a core, MB of memory, and the median and the largest time of a frame (ms)."""

    share: float
    memory: float
    median: float
    largest: float


class Source:
    """A receiver with a Beast port. It is silent until `begun` is set."""

    def __init__(self, squitters: Sequence[Tuple[int, bytes]]) -> None:
        self.left = deque((moment * OF_GEN // RATE, frame) for moment, frame in squitters)
        self.sent: DefaultDict[str, Deque[Tuple[int, float]]] = defaultdict(deque)  # of an address, until it is told
        self.begun = math.inf
        self.listener = socket.create_server(("127.0.0.1", 0))
        self.place = f"127.0.0.1:{self.listener.getsockname()[1]}"

    def connected(self) -> None:
        self.link, _ = self.listener.accept()

    def send(self) -> None:
        """Sends the frames that are due."""
        now, due = time.monotonic(), bytearray()
        while self.left[0][0] <= 1000 * (now - self.begun):
            moment, frame = self.left.popleft()
            self.sent[frame[1:4].hex().upper()].append((moment, now))
            due += beast(moment, frame)
        self.link.sendall(due)


class Clients:
    """Clients of /live in one thread with the source. The events of the first are read, if it is not stuck."""

    def __init__(self, source: Source, port: int, reading: int, stuck: int) -> None:
        self.source, self.offset, self.rest = source, 0, b""
        self.times: List[float] = []
        self.selector, self.links = selectors.DefaultSelector(), [socket.socket() for _ in range(reading + stuck)]
        for at, link in enumerate(self.links):
            if at < reading:
                self.selector.register(link, selectors.EVENT_READ, self.read if at == 0 else self.received)
            else:
                link.setsockopt(socket.SOL_SOCKET, socket.SO_RCVBUF, 4096)
            link.connect(("127.0.0.1", port))
            link.sendall(b"GET /live HTTP/1.1\r\nHost: localhost\r\n\r\n")

    def close(self) -> None:
        for one in (self.selector, *self.links):
            one.close()

    def work(self, seconds: float) -> None:
        """Sends and reads for so long."""
        end = time.monotonic() + seconds
        while time.monotonic() < end:
            self.source.send()
            for key, _ in self.selector.select(0.005):
                key.data(key.fileobj)

    def received(self, link: socket.socket) -> bytes:
        return link.recv(1 << 18) or sys.exit("live.py: a client was cut off")

    def read(self, link: socket.socket) -> None:
        *events, self.rest = (self.rest + self.received(link)).split(b"\n\n")
        now = time.monotonic()
        for event in events:
            name, _, told = event.partition(b"\ndata: ")
            if name == b"event: new":
                self.take(json.loads(told)["rows"], now)

    def take(self, rows: Sequence[Any], now: float) -> None:
        """Keeps the times of the frames that rows tell of. The timestamps of squitter-live start at the first arrival:
        they are later than those of the source by one number, which the most rows agree on."""
        sent = self.source.sent
        if rows and not self.offset:
            apart = Counter(moment - before for address, moment, *_ in rows for before, _ in sent[address])
            self.offset = apart.most_common(1)[0][0]
        for address, moment, *_ in rows:
            while sent[address] and sent[address][0][0] + self.offset <= moment:
                self.times.append(1000 * (now - sent[address].popleft()[1]))


def processor(process: int) -> float:
    """Returns the processor time of a process so far, in seconds."""
    with open(f"/proc/{process}/stat") as file:
        fields = file.read().rpartition(")")[2].split()
    return (int(fields[11]) + int(fields[12])) / os.sysconf("SC_CLK_TCK")


def resident(process: int) -> float:
    """Returns the memory of a process, in MB."""
    with open(f"/proc/{process}/statm") as file:
        return int(file.read().split()[1]) * os.sysconf("SC_PAGE_SIZE") / 1e6


def measured(clients: Clients, process: int, seconds: float) -> Took:
    """Measures for so many seconds."""
    clients.work(SETTLED)
    clients.times.clear()
    clients.source.sent.clear()
    begun, before = time.monotonic(), processor(process)
    clients.work(seconds)
    share = 100 * (processor(process) - before) / (time.monotonic() - begun)
    times = clients.times or [math.nan]
    return Took(share, resident(process), statistics.median(times), max(times))


def a_round(squitters: Sequence[Tuple[int, bytes]], seconds: float) -> Dict[str, Took]:
    """Measures all rows by one run of squitter-live."""
    source = Source(squitters)
    words = [f"{TOP}/feeds/squitter-live", source.place, "--port=0"]
    with source.listener, subprocess.Popen(words, stderr=subprocess.PIPE, text=True) as run:
        try:
            assert run.stderr is not None
            port = int(run.stderr.readline().rpartition(":")[2].strip("/\n"))
            source.connected()

            def row(reading: int, stuck: int, seconds: float = seconds) -> Took:
                with contextlib.closing(Clients(source, port, reading, stuck)) as clients:
                    return measured(clients, run.pid, seconds)

            told = {"no client, no frames": row(0, 0)}
            source.begun = time.monotonic()
            row(0, 0, WARM)
            told.update({name: row(*clients) for name, clients in ROWS.items()})
            time.sleep(2)  # (what is sent is read by then)
            with urllib.request.urlopen(f"http://127.0.0.1:{port}/stats.json") as answer:
                lost = len(squitters) - len(source.left) - json.load(answer)["squitters"]
            return told if not lost else sys.exit(f"live.py: {lost} frames are lost")
        finally:
            run.terminate()


def main() -> None:
    seconds, rounds = numbers(SECONDS=30, ROUNDS=1)
    subprocess.run(["make", "-s", "-C", str(CLIB), "libsquitter.so.0"], check=True)
    with tempfile.TemporaryDirectory() as folder:
        most = WARM + SETTLED + len(ROWS) * (seconds + SETTLED + 5)
        squitters = Inputs(folder, most * RATE, AIRCRAFT).squitters
    turns = [a_round(squitters, seconds) for _ in range(rounds)]
    print(f"{AIRCRAFT} aircraft, {RATE} frames a second, {seconds} s, the least of {rounds} rounds")
    print("| | of a core | memory | median to event | largest |\n|---|---|---|---|---|")
    for name in turns[0]:
        share, memory, *times = map(min, zip(*(turn[name] for turn in turns)))
        late = [f"{time:.0f} ms" if time == time else "" for time in times]
        print(" | ".join([f"| {name}", f"{share:.1f} %", f"{memory:.0f} MB", *late]), "|")


if __name__ == "__main__":
    main()
