"""squitter-feed between Debian's dump1090-mutability, over loopback, and `squitter track`."""
from __future__ import annotations

import re
import shutil
import signal
import socket
import subprocess
import threading
import time
from contextlib import ExitStack, contextmanager
from typing import Callable, Dict, Iterator, List, Sequence, Tuple

from process import listening, log_of, reported, started, track, whole_flights
from squitter_feed import AHEAD
from trying import Failed, Missing, beast, expect, same

DAEMON = "dump1090-mutability"
HOLD = "--reorder=1500"  # the daemon holds the first frame of an address until the second comes


def free_ports(*names: str) -> Dict[str, int]:
    """Returns a port for each name. All are held until the last one is known, so no two are the same."""
    with ExitStack() as held:
        listeners = [held.enter_context(listening()) for _ in names]
        return {name: listener.getsockname()[1] for name, listener in zip(names, listeners)}


class Daemon:
    """dump1090-mutability without a radio: frames go in by its ports, and come out by others."""

    def __init__(self, *words: str) -> None:
        if shutil.which(DAEMON) is None:
            raise Missing(DAEMON)
        self.words = words
        self.ports: Dict[str, int] = {}
        for more in range(7, -1, -1):
            self.ports = free_ports("ri", "ro", "bi", "bo")
            try:
                return self.start()
            except Failed:
                self.run.kill()
                self.run.wait()
                if not more:
                    raise

    def start(self) -> None:
        """Starts the daemon. Raises `Failed` if it does not listen, as where another program has taken a port."""
        words = [
            DAEMON,
            "--net-only",
            "--quiet",
            "--net-bind-address",
            "127.0.0.1",
            "--net-sbs-port",
            "0",
            "--net-buffer",
            "2",
            *self.words,
        ]
        for name, port in self.ports.items():
            words += [f"--net-{name}-port", str(port)]
        self.run = subprocess.Popen(words, stdout=subprocess.DEVNULL, stderr=subprocess.DEVNULL)
        self.raw = self.link("ri")
        self.binary = self.link("bi")

    def link(self, name: str) -> socket.socket:
        for _ in range(1200):
            try:
                return socket.create_connection(("127.0.0.1", self.ports[name]))
            except ConnectionRefusedError:
                if self.run.poll() is not None:
                    break
                time.sleep(0.05)
        raise Failed(f"{DAEMON} does not listen")

    def place(self, name: str) -> str:
        return f"127.0.0.1:{self.ports[name]}"

    def wait_for_feed(self, name: str) -> None:
        """Until a connection to a port of it is there, and the daemon, which looks ten times a second, has seen it."""
        connection = re.compile(rf"^ *\d+: \S+ 0100007F:{self.ports[name]:04X} 01 ", re.M)
        for _ in range(1200):
            with open("/proc/net/tcp") as table:
                if connection.search(table.read()):
                    time.sleep(0.7)
                    return
            time.sleep(0.05)
        raise Failed("the feed does not connect")

    def stop(self) -> None:
        self.raw.close()
        self.binary.close()
        self.run.terminate()
        self.run.wait()


@contextmanager
def daemon(*words: str) -> Iterator[Daemon]:
    one = Daemon(*words)
    try:
        yield one
    finally:
        one.stop()


class Printed:
    """What a feed prints, read as it comes."""

    def __init__(self, run: subprocess.Popen[bytes]) -> None:
        self.run = run
        self.lines: List[str] = []
        self.thread = threading.Thread(target=self.read, daemon=True)
        self.thread.start()

    def read(self) -> None:
        for line in self.run.stdout or ():
            self.lines.append(line.decode())

    def wait(self, count: int, seconds: float = 10) -> None:
        end = time.monotonic() + seconds
        while len(self.lines) < count and time.monotonic() < end:
            time.sleep(0.02)

    def end(self) -> str:
        self.run.send_signal(signal.SIGINT)
        self.run.wait(timeout=30)
        self.thread.join(timeout=30)
        return "".join(self.lines)


def send(link: socket.socket, pieces: Sequence[bytes]) -> None:
    for start in range(0, len(pieces), 100):
        link.sendall(b"".join(pieces[start : start + 100]))
        time.sleep(0.01)


def frames_of(log: str) -> List[str]:
    return [line.split()[1] for line in log.splitlines()]


def as_forwarded(frames: Sequence[str]) -> List[str]:
    """The order in which the daemon passes frames on: the first of an address is held until its second comes."""
    held: dict[str, str] = {}
    passed: List[str] = []
    for frame in frames:
        address = frame[2:8]
        if address not in held:
            held[address] = frame
            continue
        passed += [held[address]] * bool(held[address]) + [frame]
        held[address] = ""
    return passed


def heard_by(run: subprocess.Popen[bytes], link: socket.socket, pieces: Sequence[bytes]) -> str:
    """What a feed that has connected prints of pieces that the daemon gets."""
    printed = Printed(run)
    send(link, pieces)
    printed.wait(len(pieces))
    return printed.end()


def raw() -> None:
    """Frames in by its raw port: AVR and Beast out, without a clock, as of a log whose frames come together."""
    frames = [frame for _, frame in whole_flights()[:600]]
    passed = as_forwarded(frames)
    wanted = track(log_of([(0, frame) for frame in passed]))
    for name in ("ro", "bo"):
        with daemon() as one, started([one.place(name)]) as run:
            one.wait_for_feed(name)
            log = heard_by(run, one.raw, [b"*%s;\n" % frame.encode() for frame in frames])
        same(frames_of(log), passed, name)
        same(track(log), wanted, name)


def binary_rows(rows: Sequence[Tuple[int, str]]) -> List[bytes]:
    return [beast(frame, 12_000 * moment + 1) for moment, frame in rows]


def clock() -> None:
    """Frames in with a clock: AVR with `@` and Beast out, into track with the answers of the log itself."""
    rows = whole_flights()
    wanted = track(log_of(rows))
    for name in ("ro", "bo"):
        with daemon("--mlat") as one, started([one.place(name), HOLD]) as run:
            one.wait_for_feed(name)
            log = heard_by(run, one.binary, binary_rows(rows))
        same(
            [int(line.split()[0]) - int(log.split()[0]) for line in log.splitlines()],
            [moment - rows[0][0] for moment, _ in rows],
            name,
        )
        same(track(log), wanted, name)


def hour() -> None:
    """An hour of frames, ten thousand a second, by the raw port and by the Beast port: none is lost, and each has its
    time."""
    once = whole_flights()
    span = once[-1][0] - once[0][0] + 1000
    rows = [(moment + turn * span, frame) for turn in range(3_600_000 // span + 1) for moment, frame in once]
    expect(rows[-1][0] - rows[0][0] >= 3_600_000 and len(rows) > 28_000, len(rows))
    pieces = binary_rows(rows)
    for name in ("ro", "bo"):
        with daemon("--mlat") as one, started([one.place(name), HOLD]) as run:
            one.wait_for_feed(name)
            printed = Printed(run)
            send(one.binary, pieces)
            printed.wait(len(rows) - 1)
            log = printed.end()
            said = reported(run)
        same(frames_of(log), [frame for _, frame in rows], name)
        first = int(log.split()[0])
        same([int(line.split()[0]) - first for line in log.splitlines()], [moment - rows[0][0] for moment, _ in rows])
        # (the hour comes in seconds)
        same(said, f"squitter-feed: {AHEAD}\nsquitter-feed: {len(rows)} written\n", name)


def restarted() -> None:
    """The daemon is stopped and started again in the run, its clock too: all frames, and the same places."""
    rows = whole_flights()
    half = 500
    rows = rows[: 2 * half]
    # (the break is some seconds, so the window is a minute, in both)
    wanted = track(log_of(rows), "--window=60000")
    with daemon() as one, started([one.place("bo"), HOLD]) as run:
        one.wait_for_feed("bo")
        printed = Printed(run)
        send(one.binary, binary_rows(rows[:half]))
        printed.wait(half)
        one.stop()
        one.start()
        one.wait_for_feed("bo")
        send(one.binary, binary_rows([(moment - rows[half][0] + 5, frame) for moment, frame in rows[half:]]))
        printed.wait(2 * half)
        log = printed.end()
        said = reported(run)
    expect("again in 1 s" in said and "connected" in said, said)
    same(frames_of(log), [frame for _, frame in rows])
    same(track(log, "--window=60000"), wanted)


def proxied(target: Tuple[str, int], harm: Callable[[bytes, int], bytes]) -> Tuple[socket.socket, threading.Thread]:
    """A port that passes on what another gives, each piece as `harm` has it, which sees how many bytes came before."""
    listener = listening()

    def pass_on() -> None:
        link, _ = listener.accept()
        count = 0
        with link, socket.create_connection(target) as source:
            while True:
                data = source.recv(4096)
                if not data:
                    return
                link.sendall(harm(data, count))
                count += len(data)

    thread = threading.Thread(target=pass_on, daemon=True)
    thread.start()
    return listener, thread


def harmed() -> None:
    """Between daemon and feed a proxy loses a byte, and puts garbage between frames: one frame is lost."""
    rows = whole_flights()[:400]
    pieces = binary_rows(rows)
    lost = len(b"".join(pieces[:150])) + 12
    between = len(b"".join(pieces[:250]))

    def harm(data: bytes, count: int) -> bytes:
        """The last place first, so that those before it stay where they are."""
        if count <= between < count + len(data):
            data = data[: between - count] + b"\x00\xff garbage \x1a\x1a\x1a9" + data[between - count :]
        if count <= lost < count + len(data):
            data = data[: lost - count] + data[lost - count + 1 :]
        return data

    wanted = rows[:150] + rows[151:]
    with daemon() as one:
        listener, _ = proxied(("127.0.0.1", one.ports["bo"]), harm)
        with listener, started([f"127.0.0.1:{listener.getsockname()[1]}", HOLD]) as run:
            one.wait_for_feed("bo")
            printed = Printed(run)
            send(one.binary, pieces)
            printed.wait(len(wanted))
            log = printed.end()
            said = reported(run)
    same(frames_of(log), [frame for _, frame in wanted])
    same(track(log), track(log_of(wanted)))
    expect(f"{len(wanted)} written, 3 damaged" in said, said)  # (the garbage is two pieces)
