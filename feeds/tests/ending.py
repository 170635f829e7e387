"""How a run of squitter-feed ends: by signals, wherever it waits, and where its output or its file takes no more."""
from __future__ import annotations

import fcntl
import gzip
import os
import re
import select
import signal
import socket
import subprocess
import sys
import tempfile
import threading
import time
from contextlib import contextmanager
from types import SimpleNamespace
from typing import Callable, Iterator, List, Optional, Tuple
from unittest import mock

from process import (
    FEED, fault_of, held_in, is_waiting, line_of, listening, parts, put, ran, reported, started, wait_for_more,
    wait_until,
)
from trying import AIR_EVEN, AIR_ODD, beast, expect, same, took

LINE = b"*%s;\n" % AIR_EVEN.encode()
ALL = (signal.SIGTERM, signal.SIGINT, signal.SIGHUP)
NO_TIMES = "squitter-feed: all frames of this file have the timestamp 0, as without times: old ones pair with new\n"
SOON = 2  # seconds within which a signal ends a run, on a busy machine


def reading(path: str) -> Callable[[int], bool]:
    """Whether a process has this file open."""
    real = os.path.realpath(path)

    def is_open(process: int) -> bool:
        try:
            return any(os.path.realpath(f"/proc/{process}/fd/{number}") == real
                       for number in os.listdir(f"/proc/{process}/fd"))
        except OSError:
            return False

    return is_open


def end_by(run: subprocess.Popen[bytes], number: int, *words: object) -> None:
    """Sends a signal to a run that waits. Fails unless it ends soon."""
    wait_until(lambda: is_waiting(run.pid), "waiting")
    begun = time.monotonic()
    run.send_signal(number)
    run.wait(timeout=60)
    took(begun, 0, SOON, "ends", *words)


def while_opening() -> None:
    """A signal ends a run that waits for a writer of a named pipe; one that comes is read to its end."""
    with tempfile.TemporaryDirectory() as work:
        path = f"{work}/pipe"
        os.mkfifo(path)
        for number in ALL:
            with started([path]) as run:
                end_by(run, number, number)
                same((run.returncode, *run.communicate()), (0, b"", b"squitter-feed: 0 written\n"))
        with started([path]) as run:
            wait_until(lambda: reading(path)(run.pid), "the pipe")
            with open(path, "wb", buffering=0) as pipe:
                pipe.write(LINE)
                expect(line_of(run).endswith(AIR_EVEN.encode() + b"\n"), "a line of the pipe")
                pipe.write(LINE)
            same((run.wait(timeout=30), run.communicate()[0].count(b"\n")), (0, 1))


@contextmanager
def full_backlog() -> Iterator[int]:
    """A port at which connections are neither made nor refused."""
    with socket.socket() as listener:
        listener.bind(("127.0.0.1", 0))
        listener.listen(0)
        tried = [socket.socket() for _ in range(4)]
        for one in tried:
            one.setblocking(False)
            one.connect_ex(listener.getsockname())
        yield listener.getsockname()[1]
        for one in tried:
            one.close()


def while_connecting() -> None:
    """A signal ends a run that connects, or that waits before it connects again; and a closed output does."""
    for number in ALL:
        with full_backlog() as port, started([f"127.0.0.1:{port}"]) as run:
            time.sleep(0.3)
            end_by(run, number, number, "while connecting")
            same((run.returncode, *run.communicate()), (0, b"", b"squitter-feed: 0 written\n"))
    with full_backlog() as port, started([f"127.0.0.1:{port}"]) as run:
        if run.stdout:
            run.stdout.close()
        same(run.wait(timeout=30), 0, "a closed output while connecting")
    with listening() as listener:
        port = listener.getsockname()[1]
    with started([f"127.0.0.1:{port}"]) as run:
        expect("again in 1 s" in fault_of(run), "no pause")
        expect("again in 2 s" in fault_of(run), "no second pause")
        end_by(run, signal.SIGTERM, "in a pause")
    with started(["no-host.invalid:1"]) as run:
        said = fault_of(run)
        expect("cannot connect to no-host.invalid:1" in said, said)


def while_reading() -> None:
    """A signal ends a run that waits for more, and prints what is held and what is set aside."""
    log = b"1 %s\n2 %s\n" % (AIR_EVEN.encode(), AIR_ODD.encode())
    unended = LINE + b"*%s;" % AIR_ODD.encode()
    held = (LINE * 3, ["--reorder=60000"], 3)
    for data, words, lines in (held, (log, [], 2), (unended, [], 2), (beast(AIR_EVEN), [], 1)):
        for number in ALL:
            with started(["-", *words]) as run:
                put(run, data)
                wait_for_more(run)
                end_by(run, number, number, words)
                printed, said = run.communicate()
                same((run.returncode, printed.count(b"\n")), (0, lines), data)
                same(said, b"squitter-feed: %d written\n" % lines)


def numbers_of(said: bytes) -> Tuple[int, ...]:
    """How many lines were printed, not written and not saved, by a report."""
    found = [re.search(rb"(\d+) " + word, said) for word in (b"written", b"not written", b"not saved")]
    return tuple(int(one[1]) if one else 0 for one in found)


def offer(run: subprocess.Popen[bytes], data: bytes) -> None:
    """Gives a run data, for as long as it takes any."""
    try:
        put(run, data)
    except BrokenPipeError:
        pass


def full_output(count: int, words: List[str], nonblocking: bool) -> None:
    """A run of so many lines with a pipe that takes 4 KiB: by a signal, the rest is counted as not written."""
    reader, writer = os.pipe()
    fcntl.fcntl(writer, fcntl.F_SETPIPE_SZ, 4096)
    os.set_blocking(writer, not nonblocking)
    run = subprocess.Popen([FEED, "-", *words], stdin=subprocess.PIPE, stdout=writer, stderr=subprocess.PIPE)
    os.close(writer)
    feeder = threading.Thread(target=offer, args=[run, LINE * count], daemon=True)
    feeder.start()
    try:
        wait_until(lambda: held_in(reader) > 4000, "full")
        end_by(run, signal.SIGTERM, "while the output is full")
        printed = b""
        os.set_blocking(reader, True)
        while True:
            piece = os.read(reader, 65_536)
            if not piece:
                break
            printed += piece
    finally:
        run.kill()
        os.close(reader)
    said = run.stderr.read() if run.stderr else b""
    same(run.returncode, 0, said)
    lines = printed.splitlines(True)
    expect(lines and all(re.fullmatch(rb"\d+ %s\n" % AIR_EVEN.encode(), line) for line in lines), "torn lines")
    same(numbers_of(said)[0], len(lines), said)
    expect(numbers_of(said)[1] > 0 and sum(numbers_of(said)[:2]) <= count, said)
    feeder.join(timeout=30)


def while_output_is_full() -> None:
    """What a full output takes at once is printed in whole lines, and the rest is counted as not written."""
    for nonblocking in (False, True):
        full_output(200, [], nonblocking)
        full_output(50_000, [], nonblocking)
    with tempfile.TemporaryDirectory() as work:
        full_output(200, [f"--save={work}/log"], False)
        with open(f"{work}/log", "rb") as log:
            same(log.read().count(b"\n"), 200, "all is saved")


def is_full(pipe: int, process: int) -> bool:
    """Whether a pipe takes no more of a process. How much it holds then depends on how its pages are filled."""
    held = held_in(pipe)
    time.sleep(0.3)
    return held_in(pipe) == held > 4096 and is_waiting(process)


def of_a_file_while_output_is_full() -> None:
    """A file goes to a pipe in large pieces, which are never torn: not by a signal while the output is full, whatever
    its reader took before."""
    with tempfile.NamedTemporaryFile() as file:
        file.write(LINE * 200_000)
        file.flush()
        for before in ((), (1,), (70_001, 3, 500_000, 4096, 1 << 20)):
            reader, writer = os.pipe()
            run = subprocess.Popen([FEED, file.name], stdout=writer, stderr=subprocess.PIPE)
            os.close(writer)
            printed = b""
            try:
                for number in before:
                    wait_until(lambda: held_in(reader) >= min(number, 60_000), "more")
                    printed += os.read(reader, number)
                wait_until(lambda: is_full(reader, run.pid), "full")
                expect(held_in(reader) > 500_000, "a large pipe holds", held_in(reader))
                end_by(run, signal.SIGTERM, "while the output of a file is full")
                while piece := os.read(reader, 1 << 20):
                    printed += piece
            finally:
                run.kill()
                os.close(reader)
            said = run.stderr.read() if run.stderr else b""
            same((run.returncode, set(printed.splitlines(True))), (0, {b"0 %s\n" % AIR_EVEN.encode()}), "torn lines")
            expect(numbers_of(said)[0] == printed.count(b"\n") and numbers_of(said)[1] > 0, said)


def in_large_pieces() -> None:
    """Lines of a file are written in few pieces, to a file and to a pipe with room; those of a live source are not."""
    found = parts()
    signals = SimpleNamespace(reader=os.pipe()[0], ended=False)
    with tempfile.TemporaryFile() as file:
        for number, is_recorded, count, most in ((file.fileno(), True, 20_000, 3), (file.fileno(), False, 20_000, 200),
                                                 (os.pipe()[1], True, 20_000, 1), (os.pipe()[1], False, 1000, 10)):
            sink, sizes, write = found["Sink"](number, signals), [], os.write
            if is_recorded:
                sink.record()
                if number != file.fileno():
                    same(fcntl.fcntl(number, fcntl.F_GETPIPE_SZ), 1 << 20, "the room of a pipe")
            with mock.patch("os.write", lambda to, data: sizes.append(len(data)) or write(to, data)):
                sink.write(LINE * count)
            same((sum(sizes), sink.left, sink.fault), (len(LINE) * count, 0, None))
            expect(len(sizes) <= most, is_recorded, len(sizes), "pieces")
            expect(is_recorded or max(sizes) <= 4096, "pieces of", max(sizes))


def room_in_a_pipe() -> None:
    """While the reader of a pipe takes bytes, a file's lines wait for room for many of them. If it takes none, or the
    run ends, as many are written as fit without a torn line, at least a page."""
    size, page = 1 << 20, 4096
    for ended, helds, wanted, naps, most in (
        (False, [0], 200_000, 0, size - 2 * page), (False, [400_000], 200_000, 0, 240_384),
        (False, [500_000, 450_000, 421_000, 400_000], 200_000, 3, 240_384),
        (False, [500_000, 500_000], 200_000, 1, 40_384), (False, [600_000, 600_000], 200_000, 1, page),
        (False, [1 << 20, 700_000, 300_000], 200_000, 2, 440_384), (False, [500_000, 300_000], 900_000, 1, 440_384),
        (True, [500_000], 200_000, 0, 40_384), (False, [500_000, 510_000], 200_000, 1, 20_384),
        (False, [500_000], 40_384, 0, 40_384), (False, [500_000, 0], 40_385, 1, size - 2 * page),
    ):
        number, signals, left, asked = os.pipe()[1], SimpleNamespace(reader=7, ended=ended), list(helds), []
        found = parts()
        sink = found["Sink"](number, signals)
        sink.record()
        with mock.patch("fcntl.ioctl", lambda *_: left.pop(0).to_bytes(4, sys.byteorder)), \
                mock.patch("squitter_output.ready", lambda *words: asked.append(words) or {}):
            same((sink._most(wanted), left), (most, []), helds, wanted)
        same(asked, [({7: select.POLLIN}, 0.001)] * naps, helds, wanted)


def whole_lines_of_a_file() -> None:
    """The lines of a file are whole and in order behind a slow reader and a fast one, with room for a piece or not."""
    lines = [b"%d %s\n" % (500 * number, AIR_EVEN.encode()) for number in range(100_000)]
    with tempfile.NamedTemporaryFile() as file:
        file.write(b"".join(lines))
        file.flush()
        for most, pause in ((1 << 20, 0.0), (1 << 16, 0.002), (1000, 0.0)):
            run = subprocess.Popen([FEED, file.name], stdout=subprocess.PIPE, stderr=subprocess.PIPE, bufsize=0)
            printed = []
            while piece := os.read(run.stdout.fileno(), most) if run.stdout else b"":
                printed.append(piece)
                time.sleep(pause)
            _, said = run.communicate()
            same((b"".join(printed) == b"".join(lines), run.returncode), (True, 0), most, pause)
            same(said, b"squitter-feed: 100000 written\n")


def all_that_is_left() -> None:
    """All lines count that an output does not take, also those that come after it failed."""
    sink = parts()["Sink"]
    reader, writer = os.pipe()
    os.close(reader)
    broken = sink(writer, SimpleNamespace(reader=os.pipe()[0], ended=False))
    for count, left in ((2, 2), (3, 5), (1, 6)):
        broken.write(LINE * count)
        same((broken.left, type(broken.fault)), (left, BrokenPipeError))
    # The line feed alone is left of a line.
    torn = sink(writer, SimpleNamespace(reader=os.pipe()[0], ended=False))
    with mock.patch("os.write", side_effect=[len(LINE) - 1, OSError(5, "Input/output error")]):
        torn.write(LINE)
    same((torn.left, str(torn.fault)), (1, "[Errno 5] Input/output error"))
    os.close(writer)


def second_signal() -> None:
    """A second signal ends a run at once, though it waits for what cannot be interrupted."""
    reader, writer = os.pipe()
    script = (
        "import os, runpy, sys, time\n"
        "sys.argv = [sys.argv[1], '-']\n"
        "found = runpy.run_path(sys.argv[0])\n"
        "signals = found['Signals']()\n"
        f"os.write({writer}, b'x')\n"
        "while True: time.sleep(60)\n"
    )
    for number in ALL:
        run = subprocess.Popen(["python3", "-c", script, FEED], pass_fds=[writer], stderr=subprocess.PIPE)
        try:
            os.read(reader, 1)
            run.send_signal(number)
            wait_until(lambda: is_waiting(run.pid), "waiting again")
            same(run.poll(), None, "one signal alone does not end what does not look")
            run.send_signal(number)
            same(run.wait(timeout=30), 128 + number)
        finally:
            run.kill()
            run.communicate()
    os.close(reader)
    os.close(writer)


def full_file() -> None:
    """A file that takes no more is an error, with what was printed and what was not saved; the lines are printed."""
    status, printed, said = ran(["-", "--save=/dev/full"], LINE * 3)
    same((status, printed.count("\n")), (3, 3))
    fault = "cannot write /dev/full: No space left on device"
    same(said, f"squitter-feed: {fault}\nsquitter-feed: 3 written, 3 not saved\n")
    status, printed, said = ran(["-", "--save=/dev/full", "--reorder=60000"], LINE * 3)
    same((status, printed.count("\n"), numbers_of(said.encode())), (3, 3, (3, 0, 3)), "held until the end")
    with tempfile.TemporaryDirectory() as work:
        path = f"{work}/log"
        script = f"ulimit -f 1; trap '' XFSZ; exec {FEED} - --save={path}"
        done = subprocess.run(["bash", "-c", script], input=LINE * 50, capture_output=True, timeout=30)
        with open(path, "rb") as log:
            saved = log.read()
        same((done.returncode, done.stdout.count(b"\n"), len(saved)), (3, 50, 1024), done.stderr)
        same(numbers_of(done.stderr), (50, 0, 50 - saved.count(b"\n")), done.stderr)
        same(ran(["-", f"--save={path}"], LINE)[0], 0)
        with open(path, "rb") as log:
            same(log.read().count(b"\n"), saved.count(b"\n") + 2, "a half line is ended by the next run")
    with open("/dev/full", "wb") as full, tempfile.TemporaryDirectory() as work:
        done = subprocess.run([FEED, "-", f"--save={work}/log"], input=LINE * 3, stdout=full, stderr=subprocess.PIPE)
        same((done.returncode, numbers_of(done.stderr)), (3, (0, 3, 0)), done.stderr)
        with open(f"{work}/log", "rb") as log:
            same(log.read().count(b"\n"), 3, "what is not printed is saved")


def saved_to_a_pipe() -> None:
    """If a pipe for --save loses its reader, that is an error, and the lines are still printed. A pipe without a reader
    is refused at the start."""
    count = 4000  # lines: more than a pipe holds
    with tempfile.TemporaryDirectory() as work:
        path, source = f"{work}/pipe", f"{work}/source"
        os.mkfifo(path)
        with open(source, "wb") as file:
            file.write(LINE * count)
        hint = "No such device or address; nobody reads this pipe"
        same(ran([source, f"--save={path}"]), (3, "", f"squitter-feed: cannot write {path}: {hint}\n"))
        reader = os.open(path, os.O_RDONLY | os.O_NONBLOCK)
        with started(["-", f"--save={path}"]) as run:
            put(run, LINE)
            wait_until(lambda: held_in(reader) > 0, "a saved line")
            expect(line_of(run).endswith(AIR_EVEN.encode() + b"\n"), "a line of both")
            os.close(reader)
            put(run, LINE)
            expect(line_of(run).endswith(AIR_EVEN.encode() + b"\n"), "a line that is not saved")
            same(run.wait(timeout=30), 3)
            said = run.communicate()[1].decode()
        same(said, f"squitter-feed: cannot write {path}: Broken pipe\nsquitter-feed: 2 written, 1 not saved\n")
        done = subprocess.run(["bash", "-c", f'"$0" {source} --save=>(cat > {work}/log) | wc -l; wait $!', FEED],
                              capture_output=True, text=True, timeout=30)
        same((done.stdout.strip(), done.stderr), (str(count), f"{NO_TIMES}squitter-feed: {count} written\n"))
        wait_until(lambda: os.path.getsize(f"{work}/log") == count * len(f"0 {AIR_EVEN}\n"), "all lines in the log")


def source_is_output() -> None:
    """A file is not read and written at once: the run would read its own lines without an end. The file is left as it
    was, also without a line feed at its end."""
    with tempfile.TemporaryDirectory() as work:
        path, other, kept = f"{work}/log", f"{work}/other", f"5 {AIR_EVEN}\n" * 2 + f"5 {AIR_EVEN}"
        os.symlink(path, other)
        for script, name in (
            (f'"$0" {path} --save={path} > /dev/null', path),
            (f'"$0" {path} --save={other} > /dev/null', other),
            (f'"$0" - --save={path} < {path} > /dev/null', path),
            (f'"$0" {path} >> {path}', "standard output"),
            (f'"$0" - < {path} >> {other}', "standard output"),
            (f'LIBSQUITTER=/nonesuch "$0" {path} >> {path}', "standard output"),
        ):
            with open(path, "w") as log:
                log.write(kept)
            done = subprocess.run(["sh", "-c", f"ulimit -f 1000; {script}", FEED], capture_output=True, timeout=30)
            told = f"squitter-feed: cannot write {name}: it is the source\n"
            same((done.returncode, done.stderr.decode()), (3, told), script)
            with open(path) as log:
                same(log.read(), kept, script)
        same(ran(["/dev/null", "--save=/dev/null"])[0], 0, "a device")


def short_writes() -> None:
    """An output that takes less than it is given is given the rest: a socket, with a reader that is slow."""
    ours, theirs = socket.socketpair()
    ours.setsockopt(socket.SOL_SOCKET, socket.SO_RCVBUF, 4096)
    theirs.setsockopt(socket.SOL_SOCKET, socket.SO_SNDBUF, 4096)
    theirs.setblocking(False)
    run = subprocess.Popen([FEED, "-"], stdin=subprocess.PIPE, stdout=theirs, stderr=subprocess.PIPE)
    theirs.close()
    feeder = threading.Thread(target=run.communicate, args=[LINE * 20_000], daemon=True)
    feeder.start()
    data = b""
    while True:
        piece = ours.recv(3000)
        if not piece:
            break
        data += piece
    feeder.join(timeout=30)
    lines = data.splitlines(True)
    same((len(lines), run.returncode), (20_000, 0))
    expect(all(line.endswith(b" %s\n" % AIR_EVEN.encode()) for line in lines), "torn lines")
    ours.close()


def full_after_all() -> None:
    """An output that is full although there was room is waited for again."""
    sink_of = parts()["Sink"]
    (reader, writer), (never, other) = os.pipe(), os.pipe()
    sink, write, sizes = sink_of(writer, SimpleNamespace(reader=never, ended=False)), os.write, []

    def full_at_first(number: int, data: bytes) -> int:
        sizes.append(len(data))
        if len(sizes) == 1:
            raise BlockingIOError
        return write(number, data[:3] if len(sizes) == 2 else data)

    os.set_blocking(reader, False)
    with mock.patch("os.write", full_at_first):
        sink.write(b"5 first\n6 second\n")
    same((os.read(reader, 100), sizes, sink.left), (b"5 first\n6 second\n", [17, 17, 14], 0))
    for number in (reader, writer, never, other):
        os.close(number)


def ports() -> None:
    """A source is a port where it ends with a number from 1 to 65535, and a file otherwise."""
    place_of = parts()["place_of"]
    for number, is_port in ((0, False), (1, True), (65_535, True), (65_536, False), (99_999, False)):
        same(place_of(f"host:{number}"), ("host", number) if is_port else None)
        same(place_of(f"[::1]:{number}"), ("::1", number) if is_port else None)
    for name in ("host", "host:", "a/b:5", ":5", "host:123456", "a:b:5", "host:-1", "host:\u0663", "[]:80", "[:80",
                 "]:80", "[::1:80", "[[::1]]:80", "[ ]:80", " :80", "a b:80", "host :80", "host\n:80"):
        same(place_of(name), None, name)


def pauses() -> None:
    """A source is tried again after 1, 2, 4, 8, 16 and 32 seconds, and then after 60 each time."""
    network = parts()["NetworkSource"]
    told: List[str] = []
    network.lost.__globals__["tell"] = told.append
    source = network("host", 5, None)
    for _ in range(9):
        source.lost("gone")
    same(told, [f"gone; again in {seconds} s" for seconds in (1, 2, 4, 8, 16, 32, 60, 60, 60)])


def closed_output() -> None:
    """Where the reader of the output goes away, what it did not take is counted; the status is 0."""
    with tempfile.TemporaryDirectory() as work:
        with open(f"{work}/feed", "wb") as file:
            file.write(LINE * 50_000)
        script = f"{FEED} {work}/feed 2> {work}/said | head -n 1; echo ${{PIPESTATUS[0]}}"
        done = subprocess.run(["bash", "-c", script], capture_output=True, timeout=30)
        with open(f"{work}/said", "rb") as file:
            said = file.read()
        same(done.stdout.splitlines()[1:], [b"0"])
        expect(numbers_of(said)[1] > 0, said)
        # The piece that was read last ends within a frame, and that is no damage.
        expect(len(LINE) * 1000 % 65_536 and b"damaged" not in said, said)
        # Nor does a part of the file show that all of it has no times.
        expect(b"timestamp 0" not in said, said)


def closed_in_an_archive() -> None:
    """A run whose output is closed unpacks no more of the bytes that it has."""
    with tempfile.TemporaryDirectory() as work:
        with open(f"{work}/feed.gz", "wb") as file:
            file.write(gzip.compress(LINE * 300_000))
        expect(os.path.getsize(file.name) < 65_536, "the archive has more than one piece")
        script = f"{FEED} {work}/feed.gz 2> {work}/said | head -n 1; echo ${{PIPESTATUS[0]}}"
        done = subprocess.run(["bash", "-c", script], capture_output=True, timeout=60)
        with open(f"{work}/said", "rb") as file:
            said = file.read()
        same(done.stdout.splitlines()[1:], [b"0"])
        expect(0 < sum(numbers_of(said)[:2]) < 100_000, said)


def closed_while_waiting() -> None:
    """Where the reader of the output goes away, a frame that has not come whole is no damage, and what is held is
    saved and counted as not written."""
    of_beast = beast(AIR_EVEN, 12_000_000)
    for words, printed, data in (([], 3, LINE * 3 + LINE[:9]), (["--reorder=60000"], 0, LINE * 3 + LINE[:9]),
                                 ([], 3, of_beast * 3 + of_beast[:9]), ([], 0, LINE[:9])):
        with tempfile.TemporaryDirectory() as work, started(["-", f"--save={work}/log", *words]) as run:
            put(run, data)
            wait_until(lambda: os.path.exists(f"{work}/log") and not held_in(run.stdin), "reading")
            wait_until(lambda: is_waiting(run.pid), "waiting")
            if run.stdout:
                run.stdout.close()
            same(run.wait(timeout=30), 0)
            saved = 3 if len(data) > 50 else 0
            left = f", {saved - printed} not written" if saved > printed else ""
            same(reported(run), f"squitter-feed: {printed} written{left}\n", words, data)
            with open(f"{work}/log", "rb") as log:
                same(log.read().count(b"\n"), saved, words, data)


def keepalive() -> None:
    """A connection asks from time to time whether its peer is still there."""
    with listening() as listener, started([f"127.0.0.1:{listener.getsockname()[1]}"]) as run:
        listener.settimeout(20)
        link, _ = listener.accept()
        link.sendall(LINE)
        line_of(run)
        port = link.getpeername()[1]
        with open("/proc/net/tcp") as table:
            rows = [line.split() for line in table]
        timers: List[Optional[str]] = [row[5] for row in rows if row[1].endswith(f":{port:04X}")]
        # (02 is the timer of keepalive)
        expect(timers and timers[0] and timers[0].startswith("02:"), timers)
        link.close()
