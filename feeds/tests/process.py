"""squitter-feed as a process: what it prints, saves, refuses, how it ends, and how it connects again."""
from __future__ import annotations

import fcntl
import glob
import gzip
import os
import re
import resource
import runpy
import shutil
import signal
import socket
import subprocess
import tempfile
import termios
import threading
import time
from contextlib import ExitStack, contextmanager
from typing import IO, Any, Callable, Dict, Iterator, List, Sequence, Tuple, Union

import squitter_output
import squitter_port
import squitter_source
from trying import AIR_EVEN, AIR_ODD, REPLY, Late, beast, clocked, expect, row, same, took

TOP = os.path.dirname(os.path.dirname(os.path.dirname(os.path.abspath(__file__))))
FEED = f"{TOP}/feeds/squitter-feed"
SITE = ["--lat=52.31", "--lon=4.76"]


def parts() -> Dict[str, Any]:
    """The classes and functions of the script and of its modules."""
    return {**vars(squitter_output), **vars(squitter_port), **vars(squitter_source), **runpy.run_path(FEED)}


def program() -> str:
    return subprocess.run([f"{TOP}/dist/program"], check=True, stdout=subprocess.PIPE, text=True).stdout.strip()


def ran(words: List[str], data: bytes = b"") -> Tuple[int, str, str]:
    done = subprocess.run([FEED, *words], input=data, capture_output=True, timeout=30)
    return done.returncode, done.stdout.decode(), done.stderr.decode()


OF_TRACK = ("lat", "lon", "limit", "window")


def track(log: str, *words: str) -> str:
    heard = subprocess.run([program(), "track", *SITE, *words], input=log.encode(), stdout=subprocess.PIPE, timeout=60)
    return heard.stdout.decode()


def flights() -> List[Tuple[int, str]]:
    """The lines of the log that give a frame whose moment does not go back: read here, and not by the program."""
    kept: List[Tuple[int, str]] = []
    with open(f"{TOP}/examples/flights.log") as log:
        for line in log:
            found = re.fullmatch(r"(\d+) \*?([0-9A-Fa-f]{28});?\n", line)
            if found and int(found[2][:2], 16) >> 3 == 17 and (not kept or int(found[1]) >= kept[-1][0]):
                kept.append((int(found[1]), found[2].upper()))
    expect(len(kept) > 1900, "examples/flights.log has", len(kept), "lines")
    return kept


def is_whole(frame: str) -> bool:
    """Whether its parity is right: the daemon passes no other on."""
    bits = int(frame, 16)
    for place in range(111, 23, -1):
        if bits >> place & 1:
            bits ^= 0x1FFF409 << place - 24
    return bits == 0


def whole_flights() -> List[Tuple[int, str]]:
    return [(moment, frame) for moment, frame in flights() if is_whole(frame)]


def log_of(rows: Sequence[Tuple[int, str]]) -> str:
    return "".join(f"{moment} {frame}\n" for moment, frame in rows)


def files() -> None:
    """A log as each format, in a file and by a pipe: its lines again, and the answers of track to them."""
    rows = flights()
    log = log_of(rows)
    wanted = track(log)
    expect(wanted.count(" fix ") > 1000, "there are few places")
    # (a clock of 0 is none)
    forms = {
        "avr": b"".join(clocked(frame, 12_000 * moment + 1) for moment, frame in rows),
        "beast": b"".join(beast(frame, 12_000 * moment + 1) for moment, frame in rows),
        "csv": b"time,icao24,rawmsg\n" + b"".join(row(f"{moment / 1000:.3f}", frame) for moment, frame in rows),
        "log": log.encode(),
    }
    with tempfile.TemporaryDirectory() as work:
        for name, data in forms.items():
            with open(f"{work}/{name}", "wb") as file:
                file.write(data)
            status, printed, said = ran([f"{work}/{name}"])
            same((status, printed), (0, log), name, "in a file")
            same(said, f"squitter-feed: {len(rows)} written\n", name)
            status, printed, _ = ran(["-"], data)
            same(status, 0)
            same(track(printed), wanted, name, "by a pipe")


def options() -> None:
    """Each option by itself, and what is the rule without it."""
    both = clocked(AIR_EVEN, 12_000 * 5000) + clocked(REPLY, 12_000 * 5001)
    near, far = (log_of([(5000, AIR_EVEN), (5001, AIR_ODD), (5002, AIR_EVEN), (moment, AIR_ODD), (5003, AIR_EVEN)])
                 .encode() for moment in (605_002, 605_003))
    # A row that leaps is left out once another fits; if it does not leap, the other goes back and is left out.
    all_but = [lambda rows, k=k: "".join(line for at, line in enumerate(rows.decode().splitlines(True)) if at != k)
               for k in (3, 4)]
    late = log_of([(5000, AIR_EVEN), (5001, AIR_ODD), (4999, AIR_ODD)]).encode()
    for data, words, wanted in (
        (both, [], f"5000 {AIR_EVEN}\n"), (both, ["--all"], f"5000 {AIR_EVEN}\n5001 {REPLY}\n"),
        (both, ["--arrival"], f"0 {AIR_EVEN}\n"), (both, ["--arrival", "--all"], f"0 {AIR_EVEN}\n0 {REPLY}\n"),
        (near, [], all_but[1](near)), (far, [], all_but[0](far)),
        (far, ["--leap=600001"], all_but[1](far)), (near, ["--leap=599999"], all_but[0](near)),
        (late, [], f"5000 {AIR_EVEN}\n5001 {AIR_ODD}\n5001 {AIR_ODD}\n"),
        (late, ["--reorder=2"], f"4999 {AIR_ODD}\n5000 {AIR_EVEN}\n5001 {AIR_ODD}\n"),
    ):
        with tempfile.NamedTemporaryFile() as file:
            file.write(data)
            file.flush()
            same(ran([file.name, *words])[:2], (0, wanted), words)


def refusals() -> None:
    """Statuses and texts: SBS, what is no feed, files that are not there, devices that are full, bad command lines."""
    status, printed, said = ran(["-"], b"MSG,3,1,1,4B1001,1,2026/11/23,22:00:00.000,,,,38000,,,52.1,4.2,,,0,0,0,0\n")
    expect((status, printed) == (1, "") and "SBS" in said and "30005" in said, said)
    expect(said.startswith("squitter-feed: -: the input is SBS"), said)
    rows: List[Tuple[List[str], int, str]] = [
        (["/nonesuch"], 3, "cannot read /nonesuch: No such file or directory; a port is given as HOST:PORT"),
        (["/dev/null/x"], 3, "cannot read /dev/null/x: Not a directory"),
        (["/proc/self/mem"], 3, "cannot read /proc/self/mem: Input/output error"),
        (["localhost"], 3, "cannot read localhost: No such file or directory; a port is given as HOST:PORT"),
        ([":30005"], 3, "a port is given as HOST:PORT"),
        (["http://localhost:8080"], 3, "a port is given as HOST:PORT"),
        (["localhost:300055"], 3, "cannot read localhost:300055: No such file or directory; a port is from 1 to 65535"),
        (["localhost:0"], 3, "a port is from 1 to 65535"),
        (["[::1]:0"], 3, "a port is from 1 to 65535"),
        (["::1:30005"], 3, "a port of an address with colons is given as [HOST]:PORT"),
        (["[]:80"], 3, "cannot read []:80: No such file or directory; a port is given as HOST:PORT\n"),
        (["/nonesuch:5"], 3, "cannot read /nonesuch:5: No such file or directory; a port is given as HOST:PORT\n"),
        ([], 2, "the following arguments are required: SOURCE; give - for standard input"),
        (["-", "--lat=52.3"], 2, "unrecognized arguments: --lat=52.3; --lat is an option of squitter track"),
        *((["-", f"--{name}=5"], 2, f"--{name} is an option of squitter track") for name in OF_TRACK),
        (["-", "--limits=5"], 2, "unrecognized arguments: --limits=5\n"),
        (["/"], 3, "Is a directory"),
        ([], 2, "SOURCE"),
        (["a", "b"], 2, "usage"),
        (["-", "--reorder=-1"], 2, "milliseconds"),
        (["-", "--format=json"], 2, "argument --format: invalid choice: 'json'"),
        (["-", "--leap=1.5"], 2, "milliseconds"),
        (["-", "--lea=5"], 2, "\nusage: squitter-feed SOURCE [--format=NAME] [--reorder=MS]"),
        (["-", "--reorder="], 2, "milliseconds"),
        (["-", f"--leap={10**15}"], 2, "1000000000000000 is no number of milliseconds\n"),
        (["-", "--save=/nonesuch/log"], 3, "/nonesuch/log"),
    ]
    for words, wanted, part in rows:
        status, printed, said = ran(words)
        expect((status, printed) == (wanted, "") and part in said and "Traceback" not in said, words, status, said)
    same(ran(["-"])[:2], (0, ""), "nothing")
    same(ran(["-", f"--leap={10**15 - 1}"])[:2], (0, ""), "the longest leap")
    same(ran(["--help"])[0], 0, "help")
    status, printed, said = ran(["--version"])
    expect(status == 0 and re.fullmatch(r"squitter-feed \d+\.\d+\.\d+\n", printed) and not said, printed, said)
    frame = b"*%s;\n" % AIR_EVEN.encode()
    same(ran(["-", "--save=/dev/full"], frame)[0], 3, "a full disk")
    with open("/dev/full", "wb") as full:
        done = subprocess.run([FEED, "-"], input=frame, stdout=full, stderr=subprocess.PIPE)
    expect(done.returncode == 3 and b"No space" in done.stderr, done)
    for closed, wanted in ((">&-", 3), ("<&-", 3), ("2>&-", 0), ("2>/dev/full", 0)):
        done = subprocess.run(["sh", "-c", f'"$0" - {closed}', FEED], input=frame, capture_output=True)
        expect(done.returncode == wanted and done.stdout.count(b"\n") == (wanted == 0), closed, done)


def without_library() -> None:
    """Without the library, a plain file and standard input go to `squitter feed`, and all else is status 3, with what
    is missing and how to install it."""
    log = log_of(flights()[:50])
    with tempfile.TemporaryDirectory() as work:
        for folder in ("bin", "share/squitter", "stub", "programs"):
            os.makedirs(f"{work}/{folder}")
        shutil.copy(FEED, f"{work}/bin")
        for path in glob.glob(f"{TOP}/feeds/squitter_*.py"):
            shutil.copy(path, f"{work}/share/squitter")
        with open(f"{work}/stub/squitter.py", "w") as stub:
            stub.write("raise ImportError('no such module')\n")
        os.symlink(program(), f"{work}/programs/squitter")
        with open(f"{work}/log", "w") as plain:
            plain.write(log)
        in_order = f"4 {AIR_ODD}\n5 {AIR_EVEN}\n6 5D40621D000000\n"
        with open(f"{work}/late", "w") as late:
            late.write(f"5 {AIR_EVEN}\n4 {AIR_ODD}\n6 5D40621D000000\n")
        with open(f"{work}/jump", "w") as jump:
            jump.write(f"5 {AIR_EVEN}\n99 {AIR_ODD}\n6 {AIR_ODD}\n")
        with open(f"{work}/log.gz", "wb") as packed:
            packed.write(gzip.compress(log.encode()))
        installed = {**os.environ, "PYTHONPATH": f"{work}/stub", "PATH": f"{work}/programs:/usr/bin:/bin"}
        bare = {**installed, "PATH": f"{os.path.dirname(shutil.which('python3') or '')}:/usr/bin:/bin"}
        checkout = {**os.environ, "LIBSQUITTER": "/nonesuch"}

        def tried(feed: str, environment: Dict[str, str], *words: str, path: str = os.devnull) -> Tuple[int, str, str]:
            with open(path, "rb") as given:
                done = subprocess.run([feed, *words], stdin=given, capture_output=True, text=True, env=environment)
            return done.returncode, done.stdout, done.stderr

        for feed, environment in ((f"{work}/bin/squitter-feed", installed), (FEED, checkout)):
            same(tried(feed, environment, f"{work}/log"), (0, log, "50 written\n"))
            same(tried(feed, environment, "-", path=f"{work}/log"), (0, log, "50 written\n"))
            same(tried(feed, environment, "-"), (0, "", "0 written\n"))
            same(tried(feed, environment, f"{work}/late", "--reorder=1", "--all"), (0, in_order, "3 written\n"))
            sorted_late = tried(feed, environment, "--all", "-", "--reorder=1", path=f"{work}/late")
            same(sorted_late, (0, in_order, "3 written\n"))
            same(tried(feed, environment, f"{work}/late", "--all")[1].split()[2], "5")
            same(tried(feed, environment, f"{work}/jump", "--leap=93")[2], "2 written, 1 set aside\n")
            same(tried(feed, environment, f"{work}/jump", "--leap=94")[2], "3 written\n")
            same(tried(feed, environment, f"{work}/late", "--format=csv"),
                 (1, "", "0 written, 3 damaged: try another --format, or none; the times of a table are seconds\n"))
            same(tried(feed, environment, f"{work}/late", "--arrival", "--reorder=1", "--all"),
                 (0, in_order, "3 written\n"))
            for words, what in ((["--save=x"], "--save"), (["--all", "--leap=5", "--save=x"], "--save")):
                status, printed, said = tried(feed, environment, f"{work}/log", *words)
                expect((status, printed) == (3, "") and said.startswith(f"squitter-feed: {what} needs "), said)
                expect("python3-squitter" in said and "make -C clib" in said and said.count("\n") == 1, said)
            for words, path, what in ((["localhost:30005"], os.devnull, "a port"),
                                      (["-"], f"{work}/log.gz", "an archive"),
                                      ([f"{work}/log.gz"], os.devnull, "an archive")):
                status, printed, said = tried(feed, environment, *words, path=path)
                expect((status, printed) == (3, "") and said.startswith(f"squitter-feed: {what} needs"), said)
            status, printed, said = tried(feed, environment, "/nonesuch")
            same((status, printed, said), (3, "", "squitter-feed: cannot read /nonesuch: No such file or directory\n"))
            same(tried(feed, environment, "--version")[0], 0)
            same(tried(feed, environment, "-", "--nonesuch")[0], 2)
        if shutil.which("squitter", path=bare["PATH"]) is None:
            status, printed, said = tried(f"{work}/bin/squitter-feed", bare, "-", path=f"{work}/log")
            expect((status, printed) == (3, "") and said.startswith("squitter-feed: this needs libsquitter"), said)


@contextmanager
def started(words: List[str]) -> Iterator[subprocess.Popen[bytes]]:
    pipe = subprocess.PIPE
    run = subprocess.Popen([FEED, *words], stdin=pipe, stdout=pipe, stderr=pipe)
    too_long = threading.Timer(40, run.kill)
    too_long.start()
    try:
        yield run
    finally:
        too_long.cancel()
        if run.poll() is None:
            run.kill()
        run.communicate()


def put(run: subprocess.Popen[bytes], data: bytes) -> None:
    if run.stdin:
        run.stdin.write(data)
        run.stdin.flush()


def wait_until(good: Callable[[], bool], what: str) -> None:
    for _ in range(3000):
        if good():
            return
        time.sleep(0.02)
    expect(False, "it never comes to", what)


def is_waiting(process: int) -> bool:
    """Returns whether a process has its handlers of signals, has had all that were sent, and sleeps."""
    with open(f"/proc/{process}/status") as status:
        text = status.read()
    caught, *pending = (int(re.findall(rf"{name}:\s*(\w+)", text)[0], 16) for name in ("SigCgt", "SigPnd", "ShdPnd"))
    return bool(caught >> (signal.SIGTERM - 1) & 1) and not any(pending) and "State:\tS" in text


def held_in(pipe: Union[int, IO[bytes], None]) -> int:
    """Returns how many bytes a pipe holds."""
    assert pipe is not None
    return int.from_bytes(fcntl.ioctl(pipe, termios.FIONREAD, bytes(4)), "little")


def wait_for_more(run: subprocess.Popen[bytes]) -> None:
    """Waits until a run has read all that was written to it, and waits for more."""
    wait_until(lambda: held_in(run.stdin) == 0, "reading all")
    wait_until(lambda: is_waiting(run.pid), "waiting for more")


def line_of(run: subprocess.Popen[bytes]) -> bytes:
    return run.stdout.readline() if run.stdout else b""


def fault_of(run: subprocess.Popen[bytes]) -> str:
    return run.stderr.readline().decode() if run.stderr else ""


def reported(run: subprocess.Popen[bytes]) -> str:
    return run.stderr.read().decode() if run.stderr else ""


def at_once() -> None:
    """A line is there before the next one comes; a run ends well on SIGINT, SIGTERM and SIGHUP."""
    frame = b"*%s;\n" % AIR_EVEN.encode()
    for number in (signal.SIGINT, signal.SIGTERM, signal.SIGHUP):
        with tempfile.TemporaryDirectory() as work, started(["-", f"--save={work}/log"]) as run:
            put(run, frame)
            line = line_of(run)
            put(run, frame[:12])
            wait_for_more(run)
            run.send_signal(number)
            rest, said = run.communicate(timeout=30)
            same((run.returncode, rest, said), (0, b"", b"squitter-feed: 1 written, 1 damaged\n"), number)
            with open(f"{work}/log", "rb") as log:
                same(log.read(), line)
            now = time.time_ns() // 1_000_000
            expect(now - 60_000 < int(line.split()[0]) <= now, "the moment", line)


def ends_well() -> None:
    """A closed pipe is seen while nothing comes, an ignored interrupt stays so, what is held comes in time."""
    frame = b"*%s;\n" % AIR_EVEN.encode()
    with started(["-"]) as run:
        put(run, frame)
        line_of(run)
        if run.stdout:
            run.stdout.close()
        same(
            (run.wait(timeout=30), reported(run)),
            (0, "squitter-feed: 1 written\n"),
            "a closed pipe while it waits",
        )
    ignoring = subprocess.Popen(
        ["sh", "-c", 'trap "" INT; exec "$0" -', FEED],
        stdin=subprocess.PIPE,
        stdout=subprocess.PIPE,
        stderr=subprocess.PIPE,
    )
    put(ignoring, frame)
    first = line_of(ignoring)
    ignoring.send_signal(signal.SIGINT)
    same(
        (first.count(b"\n"), ignoring.communicate(frame, timeout=30)[0].count(b"\n")), (1, 1), "an interrupt is ignored"
    )
    with started(["-", "--reorder=300"]) as run:
        put(run, frame)
        begun = time.monotonic()
        expect(line_of(run), "no line")
        took(begun, 0.2, 5, "a line that is held comes")
    done = subprocess.run(
        ["sh", "-c", '"$0" "$1" | head -n 1', FEED, f"{TOP}/examples/flights.log"], capture_output=True
    )
    expect(done.stdout.count(b"\n") == 1 and b"Traceback" not in done.stderr, done)


def saved() -> None:
    """--save adds to a file, ends a half line of an earlier run, and has whole lines where the run is killed."""
    frame = AIR_EVEN.encode()
    with tempfile.TemporaryDirectory() as work:
        path = f"{work}/log"
        with open(path, "wb") as log:
            log.write(b"5 8D40")
        printed = ran(["-", f"--save={path}"], b"7 %s\n" % frame)[1]
        same(printed, f"7 {AIR_EVEN}\n")
        printed += ran(["-", "--save", path], b"8 %s\n" % frame)[1]
        with open(path) as log:
            same(log.read(), f"5 8D40\n{printed}")
        with started(["-", f"--save={path}"]) as run:
            put(run, b"*%s;\n" % frame * 1000)
            for _ in range(1000):
                line_of(run)
            run.kill()
        with open(path) as log:
            lines = log.read().splitlines(True)
        expect(len(lines) == 1003 and all(line.endswith(f" {AIR_EVEN}\n") for line in lines[1:]), lines[-2:])


def listening(port: int = 0) -> socket.socket:
    listener = socket.socket()
    listener.setsockopt(socket.SOL_SOCKET, socket.SO_REUSEADDR, 1)
    listener.bind(("127.0.0.1", port))
    listener.listen()
    return listener


def cut_off() -> None:
    """A connection that is lost in a message of Beast or of AVR text: the message is left out and counted once, and the
    next connection's frames are printed, whatever their format."""
    avr = b"*%s;\n" % AIR_EVEN.encode()
    rows = [(beast(AIR_EVEN, 12_000_000) * 3, beast(AIR_ODD, 24_000_000)), (avr * 3, b"*%s;" % AIR_ODD.encode())]
    for whole, half in rows:
        with listening() as listener, started([f"127.0.0.1:{listener.getsockname()[1]}"]) as run:
            listener.settimeout(20)
            for again in (avr, beast(AIR_EVEN) * 3):
                link, _ = listener.accept()
                link.sendall(whole + half[: len(half) // 2])
                printed = [line_of(run) for _ in range(3)]
                link.close()
                link, _ = listener.accept()
                link.sendall(again)
                printed += [line_of(run) for _ in range(again.count(bytes.fromhex(AIR_EVEN)) or 1)]
                expect(all(line.endswith(b" %s\n" % AIR_EVEN.encode()) for line in printed), printed)
                link.close()
            run.send_signal(signal.SIGINT)
            rest, said = run.communicate(timeout=30)
        expect(said.endswith(b"squitter-feed: 10 written, 2 damaged\n") and not rest, said)


def connects_again() -> None:
    """A port that is not there yet, that closes and comes back: pauses of 1 and 2 seconds, and 1 after success."""
    with listening() as listener:
        port = listener.getsockname()[1]
    with started([f"127.0.0.1:{port}"]) as run:
        said = "".join(fault_of(run) for _ in range(2))  # refused at once, and after a second
        begun = time.monotonic()
        with listening(port) as listener:
            listener.settimeout(20)
            link, _ = listener.accept()
            took(begun, 1.5, 9, "connected")
            link.sendall(beast(AIR_EVEN, 12_000_000) * 3 + beast(AIR_ODD, 24_000_000)[:5])
            first = [line_of(run).split() for _ in range(3)][0]
            link.close()
            begun = time.monotonic()
            link, _ = listener.accept()
            took(begun, 0.7, 8, "connected again")
            link.sendall(clocked(AIR_ODD, 12_000))
            second = line_of(run).split()
            passed = int(second[0]) - int(first[0])
            expect(700 < passed < 60_000, "the moments are", passed, "apart")
            run.send_signal(signal.SIGINT)
            same(run.wait(timeout=30), 0)
            said += reported(run)
            link.close()
    same(re.findall(r"again in (\d+) s", said), ["1", "2", "1"], said)
    expect("4 written, 1 damaged" in said, said)


def silent_port() -> None:
    """A port that sends nothing for 10 seconds is reported once, and is read on. One that has sent a frame is not."""
    frame = b"*%s;\n" % AIR_EVEN.encode()
    with listening() as silent, listening() as other, ExitStack() as both:
        begun = time.monotonic()
        run, quiet = (both.enter_context(started([f"127.0.0.1:{one.getsockname()[1]}"])) for one in (silent, other))
        links = []
        for listener in (silent, other):
            listener.settimeout(20)
            links.append(listener.accept()[0])
        links[1].sendall(frame)
        same(fault_of(run), f"squitter-feed: 127.0.0.1:{silent.getsockname()[1]} has sent nothing for 10 s: frames "
             "come from port 30005 or 30002 of a dump1090, while it hears aircraft\n")
        took(begun, 9.9, 15, "reported")
        time.sleep(1)
        links[0].sendall(frame)
        line_of(run)
        for process in (run, quiet):
            process.send_signal(signal.SIGINT)
        said = [process.communicate(timeout=30)[1] for process in (run, quiet)]
        for link in links:
            link.close()
    same(said, [b"squitter-feed: 1 written\n"] * 2)


ENOUGH = 1_000_000  # rows in a second of processor time, on a busy machine; alone it is several times as many


def fast_rows() -> None:
    """At least so many rows of CSV in a second of processor time, and lines of a log."""
    count, start = 200_000, 1_495_231_231_000
    rows = b"".join(b"%d.%03d,40621d,%s\n" % (*divmod(start + k, 1000), AIR_EVEN.encode()) for k in range(count))
    log = b"".join(b"%d %s\n" % (start + k, AIR_EVEN.encode()) for k in range(count))
    environment = {name: text for name, text in os.environ.items() if name != "COVERAGE_PROCESS_START"}
    with tempfile.TemporaryDirectory() as work:
        for data in (rows, log):
            with open(f"{work}/feed", "wb") as file:
                file.write(data)
            taken = []
            for source in (f"{work}/feed", "/dev/null", f"{work}/feed", "/dev/null", f"{work}/feed"):
                before = resource.getrusage(resource.RUSAGE_CHILDREN)
                done = subprocess.run([FEED, source], capture_output=True, env=environment)
                after = resource.getrusage(resource.RUSAGE_CHILDREN)
                taken.append(after.ru_utime + after.ru_stime - before.ru_utime - before.ru_stime)
                same(done.stdout.count(b"\n"), count * (source != "/dev/null"))
            # (a start takes longer than the rows, and not the same each time: the difference may be below 0)
            rows_alone = min(taken[::2]) - min(taken[1::2])
            if rows_alone > count / ENOUGH:
                raise Late(f"{count} rows took {rows_alone:.3f} s of processor time")
