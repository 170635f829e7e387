"""How squitter-feed waits and connects: its clock, its patience, and the settings of a connection."""
from __future__ import annotations

import os
import select
import socket
import subprocess
import time
from types import SimpleNamespace
from typing import List, Optional, Tuple
from unittest import mock

from ending import held_in, is_waiting, wait_until
from process import FEED, line_of, listening, parts, put, reported, started
from squitter_feed import Feed
from trying import AIR_EVEN, AIR_ODD, Late, expect, same, took


def arrivals() -> None:
    """Arrivals are milliseconds since 1970 at the start. From there on they follow a clock that is never set, and that
    goes on while the machine sleeps."""
    clocks = {time.CLOCK_BOOTTIME: 5_000_000_000, time.CLOCK_MONOTONIC: 3_000_000_000, time.CLOCK_REALTIME: 0}
    with mock.patch("time.clock_gettime_ns", clocks.__getitem__), mock.patch("time.time_ns") as since_1970:
        since_1970.return_value = 1_700_000_000_123_999_999
        arrival = parts()["Arrival"]()
        same(arrival.now(), 1_700_000_000_123)
        since_1970.return_value = 1
        clocks[time.CLOCK_REALTIME], clocks[time.CLOCK_MONOTONIC] = -1, 3_000_000_001
        clocks[time.CLOCK_BOOTTIME] += 60_000_000_001
        same(arrival.now(), 1_700_000_060_124)


def seconds_of_ready() -> None:
    """A wait takes the given seconds, at least 0, and no processor time. It ends as soon as a descriptor is ready. The
    seconds may be many, as with a long `--reorder`."""
    ready = parts()["ready"]
    reader, writer = os.pipe()
    begun, worked = time.monotonic(), time.process_time()
    same(ready({reader: select.POLLIN}, 0.3), {})
    took(begun, 0.29, 5, "ready returns")
    if time.process_time() - worked >= 0.1:
        raise Late("it worked while it waited")
    begun = time.monotonic()
    same(ready({reader: select.POLLIN}, -1), {})
    os.write(writer, b"x")
    for seconds in (None, 60, 2**31 / 1000, 10**12):
        same(ready({reader: select.POLLIN}, seconds), {reader: select.POLLIN})
    took(begun, 0, 5, "ready returns")
    for number in (reader, writer):
        os.close(number)


def patience() -> None:
    """A connection may take ten seconds. If it fails, the system's reason is reported. An address with
    colons is named as it is given."""
    told: List[str] = []
    network = parts()["NetworkSource"]
    network.lost.__globals__["tell"] = told.append
    same(network("::1", 5, SimpleNamespace()).name, "[::1]:5")
    source = network("host", 5, SimpleNamespace(readable=lambda *_: True))
    faults = ((TimeoutError("timed out"), "timed out"), (OSError(113, "No route to host"), "No route to host"),
              (UnicodeError("label too long"), "label too long"))
    for fault, words in faults:
        with mock.patch("socket.create_connection", side_effect=fault) as made:
            source.dial()
        same((made.call_args.args, made.call_args.kwargs), ((("host", 5), 10), {}))
        source.connected()
        expect(told[-1].startswith(f"cannot connect to host:5: {words}; again in "), told)


def options_of_a_connection() -> None:
    """A peer that is gone is noticed after two minutes: asked after one, and four times more, each 15 seconds. A
    connection waits without an end."""
    with listening() as listener:
        source = parts()["NetworkSource"](*listener.getsockname(), SimpleNamespace())
        source.dial()
        source.connected()
        link = source.link
        same(link.gettimeout(), None)
        expect(link.getsockopt(socket.SOL_SOCKET, socket.SO_KEEPALIVE), "no keepalive")
        same([link.getsockopt(socket.IPPROTO_TCP, getattr(socket, f"TCP_KEEP{name}"))
              for name in ("IDLE", "INTVL", "CNT")], [60, 15, 4])
        # One byte is written for each dial, and taken by its end.
        same(select.select([source.answered], [], [], 0)[0], [])
        link.close()


class Waits:
    """Stands for what a source waits by: keeps what it is asked for, and says that nothing has come."""

    def __init__(self, readable: bool = False) -> None:
        self.asked: List[Tuple[Optional[int], Optional[float]]] = []
        self.found = readable

    def readable(self, source: Optional[int], seconds: Optional[float]) -> bool:
        self.asked.append((source, seconds))
        return self.found


def in_a_pause() -> None:
    """Before it connects again, a source waits for what is left of the pause, but not longer than it was asked to."""
    source = parts()["NetworkSource"]("host", 5, Waits())
    for seconds, wanted in ((None, 50), (0.5, 0.5), (200, 50)):
        source.again = time.monotonic() + 50
        same(source.read(seconds), None)
        number, waited = source.waiting.asked.pop()
        same(number, None)
        expect(wanted - 1 < waited <= wanted, seconds, "waits for", waited)


def until_silence() -> None:
    """A first connection without a byte is reported once, ten seconds after it was made, and a later one never."""
    told: List[str] = []
    with listening() as listener, mock.patch("time.monotonic") as now:
        network = parts()["NetworkSource"]
        network.lost.__globals__["tell"] = told.append
        source = network(*listener.getsockname(), Waits())
        for first in (True, False):
            now.return_value = 1000.0
            source.dial()
            source.connected()
            told.clear()
            # What it may wait for at most, when that is, and for how long it waits.
            for seconds, moment, waited in ((None, 1000.0, 10.0), (3, 1000.0, 3), (3, 1009.0, 1.0), (30, 1009.0, 1.0),
                                            (None, 1010.5, 0.0), (3, 1011.0, 3), (None, 1099.0, None)):
                now.return_value = moment
                same(source.read(seconds), None)
                wanted = waited if first else seconds
                same(source.waiting.asked.pop(), (source.link.fileno(), wanted), first, seconds, moment)
                same(len(told), int(first and moment >= 1010), first, moment)
            source.lost("gone")
        same(source.connections, 2)


def told_again() -> None:
    """A connection is reported where one was lost or could not be made before, and not else."""
    told: List[str] = []
    with listening() as listener:
        network = parts()["NetworkSource"]
        network.lost.__globals__["tell"] = told.append
        place = listener.getsockname()
        for losses, count in ((["lost"], 1), ([], 0), (["failed"], 1), (["lost", "failed"], 2)):
            told.clear()
            source = network(*place, Waits())
            for loss in losses:
                if loss == "lost":
                    source.dial()
                    source.connected()
                source.lost(loss)
            source.dial()
            source.connected()
            wanted = [f"connected to {place[0]}:{place[1]}"] if losses else []
            same([line for line in told if "connected" in line], wanted, losses)
            same(len(told), len(losses) + len(wanted), told)


def nothing_after_all() -> None:
    """A file that was ready and has nothing yet is waited for again. It has not ended."""
    reader, writer = os.pipe()
    source = parts()["FileSource"](f"/dev/fd/{reader}", Waits(readable=True))
    expect(source.live, "a pipe is live")
    with mock.patch("os.read", side_effect=BlockingIOError):
        same(source.read(5), None)
    os.write(writer, b"x")
    same(source.read(5), b"x")
    for number in (reader, writer, source.number):
        os.close(number)
    same(source.waiting.asked, [(source.number, 5)] * 2)


def closed_socket() -> None:
    """A run whose output is a socket ends when its reader goes away, also while nothing comes."""
    ours, theirs = socket.socketpair()
    run = subprocess.Popen([FEED, "-"], stdin=subprocess.PIPE, stdout=theirs, stderr=subprocess.PIPE)
    theirs.close()
    ours.settimeout(20)
    assert run.stdin and run.stderr
    run.stdin.write(b"*%s;\n" % AIR_EVEN.encode())
    run.stdin.flush()
    expect(ours.recv(100).endswith(AIR_EVEN.encode() + b"\n"), "no line")
    ours.close()
    try:
        same(run.wait(timeout=30), 0)
        same(run.stderr.read(), b"squitter-feed: 1 written\n")
    finally:
        run.kill()
        run.communicate()


def held_by_time() -> None:
    """A frame that --reorder holds is printed once its time is up, and not much later."""
    with started(["-", "--reorder=1500"]) as run:
        put(run, b"*%s;\n" % AIR_EVEN.encode())
        begun = time.monotonic()
        expect(line_of(run), "no line")
        took(begun, 1.3, 10, "the line comes")


def last_line_in_order() -> None:
    """A last line without a line feed has the arrival of its piece, also where frames are sorted."""
    for reorder in (0, 500):
        feed = Feed(True, print, reorder)
        lines = feed.hear(b"*%s;\n%s" % (AIR_EVEN.encode(), AIR_ODD.encode()), 1000) + feed.end(31_000)
        same(lines, b"1000 %s\n1000 %s\n" % (AIR_EVEN.encode(), AIR_ODD.encode()), reorder)


def closed_table() -> None:
    """A table is not refused where the output was closed before its end, though no row was good so far."""
    for ends, status in ((False, 0), (True, 1)):
        with started(["-"]) as run:
            put(run, b"time,icao24,rawmsg\nx,,\n")
            wait_until(lambda: not held_in(run.stdin), "reading")
            wait_until(lambda: is_waiting(run.pid), "waiting")
            pipe = run.stdin if ends else run.stdout
            assert pipe is not None
            pipe.close()
            same(run.wait(timeout=30), status)
            said = reported(run)
            advice = ": try another --format, or none; the times of a table are seconds" if ends else ""
            same(said, f"squitter-feed: 0 written, 1 damaged{advice}\n")
            run.stdin = None  # (it is closed, and would be flushed)
