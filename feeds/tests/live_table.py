"""The table of squitter-live: in a terminal, in a pipe, and by its keys."""
from __future__ import annotations

import fcntl
import math
import os
import pty
import re
import select
import signal
import struct
import subprocess
import sys
import tempfile
import termios
import time
from contextlib import closing, contextmanager, suppress
from pathlib import Path
from typing import Dict, Iterator, List, Tuple

from live import FAST, LIVE, LOG, Stream, served
from process import TOP
from squitter_sky import Plane
from squitter_table import height
from trying import Late, expect, same


def table_in_a_terminal() -> None:
    """The table is drawn in place, as high and wide as the terminal, and there is no server."""
    for high, wide, shown in ((10, 100, "5 aircraft, ended"), (5, 60, "5 aircraft, ended, 3 shown")):
        ours, theirs = pty.openpty()
        fcntl.ioctl(theirs, termios.TIOCSWINSZ, struct.pack("HHHH", high, wide, 0, 0))
        with subprocess.Popen([LIVE, LOG, "--table", *FAST], stdout=theirs, stderr=subprocess.PIPE) as process:
            data, end = b"", time.monotonic() + 20
            while shown.encode() not in data and time.monotonic() < end:
                data += os.read(ours, 65_536)
            process.send_signal(signal.SIGINT)
            same(process.wait(10), 0)
            assert process.stderr is not None
            same(process.stderr.read(), b"squitter-live: 2010 written, 13 set aside; try --reorder=2000\n")
        expect(shown.encode() in data, data[-300:])
        last = data.rpartition(b"\x1b[H")[2].decode().replace("\r", "").split("\n")
        same(len(last), min(high, 7), last)
        expect(all(len(line.replace("\x1b[K", "").replace("\x1b[J", "")) <= wide for line in last), last)
        found = re.match(r"3C0005 +7525 +47\.8622643 ", last[1])
        expect(last[0].startswith("ICAO ") and found, last)
        os.close(ours)
        os.close(theirs)


def table_that_is_stuck() -> None:
    """A terminal that takes nothing holds up neither the map nor the end. One that is gone ends the run."""
    ours, theirs = pty.openpty()
    fcntl.ioctl(theirs, termios.TIOCSWINSZ, struct.pack("HHHH", 10, 100, 0, 0))
    with served(LOG, "--table", *FAST, stdout=theirs) as run:
        stats = run.wait(lambda stats: stats["state"] == "ended", "the log is played")
        client = Stream(run.port)
        for _ in range(200):  # of more bytes than the terminal holds
            client.next()
        same(stats["aircraft"], 5)
    os.close(ours)
    os.close(theirs)
    ours, theirs = pty.openpty()
    with subprocess.Popen([LIVE, LOG, "--table", *FAST], stdout=theirs, stderr=subprocess.PIPE) as process:
        os.close(theirs)
        os.read(ours, 100)
        os.close(ours)
        same(process.wait(10), 0)


def table_in_a_pipe() -> None:
    """Without a terminal each new place is a line. The end of its reader ends the run."""
    with subprocess.Popen([LIVE, LOG, "--table", "--speed=20", "--every=50"], stdout=subprocess.PIPE,
                          stderr=subprocess.PIPE) as process:
        assert process.stdout is not None
        lines = [process.stdout.readline().decode() for _ in range(20)]
        rows = [re.fullmatch(r"(\w{6}) {9} +(\d+|ground)? {14} +(-?\d+\.\d{7}) +(-?\d+\.\d{7}) +\d+\.\d\n", line)
                for line in lines]
        expect(all(rows), lines)
        places = {found.groups() for found in rows if found}
        same(len(places), 20, "each place once", lines)
        process.stdout.close()
        same(process.wait(10), 0)


class Terminal:
    """A terminal of a session of its own, and what a program in it draws."""

    def __init__(self) -> None:
        self.ours, self.theirs = pty.openpty()
        fcntl.ioctl(self.theirs, termios.TIOCSWINSZ, struct.pack("HHHH", 10, 150, 0, 0))
        self.modes = termios.tcgetattr(self.theirs)

    def close(self) -> None:
        os.close(self.ours)
        os.close(self.theirs)

    @contextmanager
    def started(self, *words: str) -> Iterator[subprocess.Popen[bytes]]:
        process = subprocess.Popen(words, stdin=subprocess.PIPE, stdout=self.theirs, stderr=subprocess.PIPE,
                                   start_new_session=True, preexec_fn=lambda: fcntl.ioctl(1, termios.TIOCSCTTY, 0))
        try:
            yield process
        finally:
            for number in of_session(process.pid):
                os.kill(number, signal.SIGKILL)
            process.stdin = None
            process.communicate()

    def drawn(self, foot: str) -> List[str]:
        """Waits for a new table whose foot begins so. Returns its addresses, from the first line on."""
        while select.select([self.ours], [], [], 0)[0]:
            os.read(self.ours, 65_536)
        data, end = b"", time.monotonic() + 20
        while time.monotonic() < end:
            data = data[-9000:] + os.read(self.ours, 65_536)
            table = data.rpartition(b"\x1b[J")[0].rpartition(b"\x1b[H")[2].decode().replace("\r", "")
            lines = table.split("\x1b[K\n")
            if lines[-1].startswith(foot):
                return [line.split()[0] for line in lines[1:-1]]
        raise Late(f"{foot}: {data[-900:]!r}")

    def has_its_modes(self, why: str) -> None:
        same(termios.tcgetattr(self.theirs), self.modes, why)


def nearest_first() -> List[str]:
    """Returns the aircraft of the example by how far their true places are from the site, by the angle between them."""
    def point(lat: float, lon: float) -> Tuple[float, ...]:
        up, over = math.radians(lat), math.radians(lon)
        return math.cos(up) * math.cos(over), math.cos(up) * math.sin(over), math.sin(up)

    with open(f"{TOP}/examples/flights.truth") as file:
        places = {address: point(float(lat), float(lon)) for _, address, lat, lon, _ in map(str.split, file)}
    site = point(52.31, 4.76)
    return sorted(places, key=lambda name: math.acos(sum(one * other for one, other in zip(places[name], site))))


def keys_of_a_table() -> None:
    """In front of its terminal, the key o takes the next order, also after a stop, and q ends the run. The terminal has
    its modes again at the end, after a signal, after two and after a fault too."""
    nearest, foot = nearest_first(), "5 aircraft, ended; {} first (o: order, q: quit)"
    highest = ["A00002", "4B1001", "7C0003", "3C0005", "484004"]
    latest = ["3C0005", "484004", "7C0003", "A00002", "4B1001"]
    with closing(Terminal()) as terminal:
        with terminal.started(LIVE, LOG, "--table", *FAST, "--lat=52.31", "--lon=4.76") as process:
            same(terminal.drawn(foot.format("nearest")), nearest)
            same(termios.tcgetattr(terminal.theirs)[3] & (termios.ECHO | termios.ICANON), 0, "keys are shown")
            process.send_signal(signal.SIGSTOP)
            termios.tcsetattr(terminal.theirs, termios.TCSANOW, terminal.modes)
            process.send_signal(signal.SIGCONT)
            for wanted, addresses in (("address", sorted(nearest)), ("highest", highest), ("latest", latest),
                                      ("nearest", nearest)):
                os.write(terminal.ours, b"xo")
                same(terminal.drawn(foot.format(wanted)), addresses)
                process.send_signal(signal.SIGCONT)
            os.write(terminal.ours, b"ooq")
            same(process.wait(10), 0)
        terminal.has_its_modes("after q")
        with terminal.started(LIVE, LOG, "--table", *FAST) as process:
            terminal.drawn(foot.format("address"))
            process.send_signal(signal.SIGTERM)
            same(process.wait(10), 0)
        terminal.has_its_modes("after a signal")
        with terminal.started(LIVE, LOG, "--table", *FAST) as process:
            terminal.drawn(foot.format("address"))
            for number in (signal.SIGSTOP, signal.SIGINT, signal.SIGTERM, signal.SIGCONT):
                process.send_signal(number)
            same(process.wait(10), 128 + signal.SIGTERM)
        terminal.has_its_modes("after two signals")
        with tempfile.NamedTemporaryFile() as file:
            file.write(b"nothing\n" * 9)
            file.flush()
            with terminal.started(LIVE, file.name, "--table", *FAST) as process:
                same(process.wait(10), 1)
        terminal.has_its_modes("after a fault")


# The leader of a session: it starts a program in the background, and moves it where each line of its input says.
LEADER = """import os, signal, subprocess, sys
signal.signal(signal.SIGTTIN, signal.SIG_DFL)
signal.signal(signal.SIGTTOU, signal.SIG_IGN)
run = subprocess.Popen(sys.argv[1:], preexec_fn=os.setpgrp, stdin=subprocess.DEVNULL)
for line in sys.stdin:
    os.tcsetpgrp(1, run.pid if line == "front\\n" else os.getpgrp())
    run.send_signal(signal.SIGCONT)
sys.exit(run.wait())
"""


def heights() -> None:
    """On the ground, and without an altitude, an aircraft is below all that have one."""
    planes = [Plane(at) for at in range(4)]
    planes[0].feet, planes[1].feet, planes[2].feet = -1000, "ground", 50175
    same(sorted(range(4), key=lambda at: -height(planes[at])), [2, 0, 1, 3])


def keys_in_the_background() -> None:
    """Keys are for the program in front. A table in the background hears none, is drawn all the same, and takes no more
    time for them. In front again it hears them."""
    foot = "5 aircraft, ended; {} first (o: order, q: quit)"
    with closing(Terminal()) as terminal, terminal.started(
            sys.executable, "-c", LEADER, LIVE, LOG, "--table", *FAST) as leader:
        def move(where: str) -> None:
            assert leader.stdin is not None
            leader.stdin.write(f"{where}\n".encode())
            leader.stdin.flush()

        terminal.drawn("5 aircraft, ended")
        terminal.has_its_modes("in the background")
        move("front")
        terminal.drawn(foot.format("address"))
        move("back")
        time.sleep(0.5)
        before = sum(of_session(leader.pid).values())
        os.write(terminal.ours, b"qo")
        time.sleep(1)
        terminal.drawn(foot.format("address"))
        expect(sum(of_session(leader.pid).values()) - before < 0.7, "it works for keys that it may not read")
        termios.tcflush(terminal.theirs, termios.TCIFLUSH)  # the program in front has read them
        move("front")
        time.sleep(0.5)
        os.write(terminal.ours, b"o")
        terminal.drawn(foot.format("highest"))
        os.write(terminal.ours, b"q")
        assert leader.stdin is not None
        leader.stdin.close()
        same(leader.wait(10), 0)


def of_session(leader: int) -> Dict[int, float]:
    """Returns the processes of a session, with the processor time (s) that each has taken."""
    found = {}
    for path in Path("/proc").glob("[0-9]*/stat"):
        with suppress(OSError):  # (it has ended meanwhile)
            fields = path.read_text().rpartition(")")[2].split()
            if int(fields[3]) == leader:
                found[int(path.parent.name)] = (int(fields[11]) + int(fields[12])) / os.sysconf("SC_CLK_TCK")
    return found
