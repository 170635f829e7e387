"""What squitter-feed reports: at once, in one piece, and which of two errors; and what it does without the library."""
from __future__ import annotations

import bz2
import glob
import gzip
import io
import lzma
import os
import shutil
import subprocess
import sys
import tempfile
from contextlib import contextmanager
from typing import Iterator, List, Tuple
from unittest import mock

import squitter_words
from process import FEED, TOP, program, ran
from trying import AIR_EVEN, AIR_ODD, BUFFERED, UNBUFFERED, expect, same

LOG = b"5 %s\n6 %s\n" % (AIR_EVEN.encode(), AIR_ODD.encode())
PACKS = {"gzip": gzip.compress, "bzip2": bz2.compress, "xz": lzma.compress}
FULL = "No space left on device"


class Raw(io.RawIOBase):
    """A device that keeps what is written to it."""

    def __init__(self) -> None:
        super().__init__()
        self.writes: List[bytes] = []

    def writable(self) -> bool:
        return True

    def write(self, data: object) -> int:
        self.writes.append(bytes(data))  # type: ignore[call-overload]
        return len(self.writes[-1])


def told_at_once() -> None:
    """A report is there once it is told, and in one piece, whether standard error is buffered or not."""
    for is_buffered in (True, False):
        raw = Raw()
        lower = io.BufferedWriter(raw) if is_buffered else raw
        with mock.patch.object(sys, "stderr", io.TextIOWrapper(lower, write_through=not is_buffered)):  # type: ignore
            squitter_words.tell("squitter-feed", "5 written")
            same(raw.writes, [b"squitter-feed: 5 written\n"])
            squitter_words.tell("squitter-geojson", "a: b")
            same(raw.writes[1:], [b"squitter-geojson: a: b\n"])


def outcome(words: List[str], data: bytes, full: bool = False) -> Tuple[int, List[str]]:
    """The status and the reports of a run, with an output that is full where that is wanted."""
    with open("/dev/full" if full else os.devnull, "wb") as output:
        done = subprocess.run([FEED, *words], input=data, stdout=output, stderr=subprocess.PIPE, timeout=30)
    return done.returncode, done.stderr.decode().splitlines()


def which_first() -> None:
    """Of two errors the one that comes first is told, and the status is its own."""
    held, two = "--reorder=60000", "squitter-feed: 0 written, 2 not written"
    of_source = "cannot read /nonesuch: No such file or directory; a port is given as HOST:PORT"
    of_save, of_output = "cannot write /nonesuch/log: No such file or directory", f"cannot write: {FULL}"
    table = gzip.compress(b"time,icao24,rawmsg\n" + b"".join(b"x,%d,\n" % (k * k) for k in range(3000)))
    rows = [
        # The source is opened before the file that is saved.
        (["/nonesuch", "--save=/nonesuch/log"], b"", False, 3, [of_source]),
        (["-", "--save=/nonesuch/log"], LOG, False, 3, [of_save]),
        (["-", "--save=/dev/full"], LOG, True, 3, [f"cannot write /dev/full: {FULL}", f"{two}, 2 not saved"]),
        # An archive is refused while it is read, and the lines that are held cannot be written at the end.
        (["-", held], gzip.compress(LOG) + b"x", True, 1, ["-: the gzip archive is damaged at its end", two]),
        # An output that is full while lines come is told alone.
        (["-"], LOG, True, 3, [of_output, two]),
        # An archive ends early, and the table in it has no row that can be read.
        (["-"], table[:-9], False, 1, ["-: the gzip archive ends early", None]),
        (["-"], table, False, 1, ["squitter-feed: 0 written, 3000 damaged: try another --format, or none; the "
                                  "times of a table are seconds"]),
    ]
    for words, data, full, status, wanted in rows:
        got, said = outcome(words, data, full)
        same((got, len(said)), (status, len(wanted)), words, said)
        for line, text in zip(said, wanted):
            expect(text is None or line == (text if text.startswith("squitter-feed") else f"squitter-feed: {text}"),
                   words, "says", line, "where wanted is", text)


def nothing_saved() -> None:
    """No file is made to save in if the source cannot be opened, is a folder, or is standard output. A file that is
    there stays as it is, also without a line feed at its end."""
    with tempfile.TemporaryDirectory() as work:
        new, old, source, kept = f"{work}/new", f"{work}/old", f"{work}/source", LOG[:-1]
        for path in (old, source):
            with open(path, "wb") as file:
                file.write(kept)
        for script, wanted in (
            (f'"$0" {work}/none --save=$1', f"cannot read {work}/none: No such file or directory; a port is given as "
                                            "HOST:PORT"),
            (f'"$0" {work} --save=$1', f"cannot read {work}: Is a directory"),
            ('"$0" - --save=$1 <&-', "cannot read -: standard input is closed"),
            (f'"$0" {source} --save=$1 >> {source}', "cannot write standard output: it is the source"),
        ):
            for path in (new, old):
                done = subprocess.run(["sh", "-c", script, FEED, path], capture_output=True, text=True, timeout=30)
                same((done.returncode, done.stdout, done.stderr), (3, "", f"squitter-feed: {wanted}\n"), script)
            same(sorted(os.listdir(work)), ["old", "source"], script)
            with open(old, "rb") as file:
                same(file.read(), kept, script)


@contextmanager
def given(data: bytes, at: int) -> Iterator[io.BufferedReader]:
    """A file with these data that is open at an offset."""
    with tempfile.TemporaryFile() as file:
        file.write(data)
        file.flush()
        os.lseek(file.fileno(), at, os.SEEK_SET)
        yield file  # type: ignore[misc]


def at_an_offset() -> None:
    """Standard input is read from where it stands, with the library and without it: there an archive is refused."""
    bare = {**os.environ, "LIBSQUITTER": "/nonesuch"}
    for name, pack in PACKS.items():
        packed, plain = pack(LOG), LOG
        for environment in (os.environ, bare):
            with given(packed + plain, len(packed)) as file:
                done = subprocess.run([FEED, "-"], stdin=file, capture_output=True, env=environment)
            same((done.returncode, done.stdout), (0, LOG), name, "before a log", done.stderr)
            with given(plain + packed, len(plain)) as file:
                done = subprocess.run([FEED, "-"], stdin=file, capture_output=True, env=environment)
            if environment is not bare:
                same((done.returncode, done.stdout), (0, LOG), name, "behind a log", done.stderr)
                continue
            same((done.returncode, done.stdout), (3, b""), name, "behind a log, without the library")
            expect(done.stderr.startswith(b"squitter-feed: an archive needs libsquitter for Python ("), done.stderr)


def archives_without_library() -> None:
    """Without the library each kind of archive is refused, by its first bytes and not by its name."""
    bare = {**os.environ, "LIBSQUITTER": "/nonesuch"}
    with tempfile.TemporaryDirectory() as work:
        path = f"{work}/log"
        for name, data in [*((name, pack(LOG)) for name, pack in PACKS.items()), ("plain", LOG), ("empty", b"")]:
            with open(path, "wb") as file:
                file.write(data)
            done = subprocess.run([FEED, path], capture_output=True, env=bare)
            if name in PACKS:
                same((done.returncode, done.stdout), (3, b""), name)
                expect(done.stderr.startswith(b"squitter-feed: an archive needs libsquitter for Python ("), done.stderr)
            else:
                same((done.returncode, done.stdout), (0, data), name)
        for words, lines in (([], LOG), (["--all"], LOG + b"7 5D40621D000000\n")):
            done = subprocess.run([FEED, "-", *words], input=LOG + b"7 5D40621D000000\n", capture_output=True, env=bare)
            same((done.returncode, done.stdout), (0, lines), words)


def other_libraries() -> None:
    """A library that lacks a call counts as none. A checkout that is not built takes the library of the system, and an
    installed script takes no program but that of PATH."""
    old = {**os.environ, "LIBSQUITTER": "libc.so.6"}
    done = subprocess.run([FEED, "-"], input=LOG, capture_output=True, env=old)
    same((done.returncode, done.stdout, done.stderr), (0, LOG, b"2 written\n"))
    done = subprocess.run([FEED, "-", "--save=/nonesuch/log"], input=LOG, capture_output=True, env=old)
    same((done.returncode, done.stdout), (3, b""))
    expect(b"libc.so.6 lacks squitter_" in done.stderr, done.stderr)
    with tempfile.TemporaryDirectory() as work:
        for folder in ("feeds", "programs"):
            os.mkdir(f"{work}/{folder}")
        for path in (f"{TOP}/feeds/squitter-feed", *glob.glob(f"{TOP}/feeds/squitter_*.py")):
            shutil.copy(path, f"{work}/feeds")
        shutil.copytree(f"{TOP}/clib/squitter", f"{work}/clib/squitter")
        feed, system = f"{work}/feeds/squitter-feed", {**os.environ, "PYTHONPATH": f"{TOP}/clib"}
        done = subprocess.run([feed, "-", "--leap=5"], input=LOG, capture_output=True, env=system)
        same((done.returncode, done.stdout, done.stderr), (0, LOG, b"squitter-feed: 2 written\n"), "not built")
        # Beside an installed script there may be a file of that name.
        shutil.rmtree(f"{work}/clib")
        with open(f"{work}/squitter", "w") as other:
            other.write("#!/bin/sh\nexit 9\n")
        os.chmod(f"{work}/squitter", 0o755)
        os.symlink(program(), f"{work}/programs/squitter")
        bare = {**os.environ, "LIBSQUITTER": "/nonesuch", "PATH": f"{work}/programs:{os.environ['PATH']}"}
        done = subprocess.run([feed, "-"], input=LOG, capture_output=True, env=bare)
        same((done.returncode, done.stdout, done.stderr), (0, LOG, b"2 written\n"), "another file")


def without_xz() -> None:
    """Where Python has no lzma, a plain file is read by `squitter feed`, and what is missing is told."""
    with tempfile.TemporaryDirectory() as work:
        with open(f"{work}/lzma.py", "w") as stub:
            stub.write("raise ModuleNotFoundError(\"No module named '_lzma'\", name='_lzma')\n")
        bare = {**os.environ, "PYTHONPATH": work}
        done = subprocess.run([FEED, "-"], input=LOG, capture_output=True, env=bare)
        same((done.returncode, done.stdout, done.stderr), (0, LOG, b"2 written\n"))
        with given(lzma.compress(LOG), 0) as file:
            done = subprocess.run([FEED, "-"], stdin=file, capture_output=True, env=bare)
        same((done.returncode, done.stdout), (3, b""))
        expect(b"No module named '_lzma'" in done.stderr and done.stderr.count(b"\n") == 1, done.stderr)


def refused_at_the_end() -> None:
    """A source that shows no format until its end, or a table without a row, has status 1."""
    for data in (b"x", b"\n"):
        status, printed, said = ran(["-"], data)
        same((status, printed), (1, ""), data, said)
        expect(said.startswith("squitter-feed: -: no ") and said.count("\n") == 2, said)
        expect(said.endswith("\nsquitter-feed: 0 written, 1 damaged\n"), "what to try is told once", said)
    said = "squitter-feed: 0 written, 1 damaged: try another --format, or none; the times of a table are seconds\n"
    same(ran(["-"], b"time,icao24,rawmsg\nx,,\n"), (1, "", said))


def misused() -> None:
    """A bad command line is told in two lines: what is wrong with what to do, and the usage."""
    usage = "usage: squitter-feed SOURCE [--format=NAME] [--reorder=MS] [--leap=MS] [--arrival] [--all] [--save=FILE]\n"
    rows: List[Tuple[List[str], str]] = [
        ([], "the following arguments are required: SOURCE; give - for standard input"),
        (["-", "--limit=5"], "unrecognized arguments: --limit=5; --limit is an option of squitter track"),
        (["-", "--limits=5"], "unrecognized arguments: --limits=5"),
        (["-", "--leap=x"], "argument --leap: x is no number of milliseconds"),
    ]
    for words, what in rows:
        same(ran(words), (2, "", f"squitter-feed: {what}\n{usage}"))


def help_that_is_not_taken() -> None:
    """Help and version have status 3 if standard output is full, and 0 if it is a pipe without a reader."""
    for name in ("squitter-feed", "squitter-geojson"):
        for words in (["--help"], ["--version"]):
            for environment in (BUFFERED, UNBUFFERED):
                for output, wanted in ((full_output(), (3, f"{name}: {FULL}\n")), (closed_output(), (0, ""))):
                    done = subprocess.run([f"{TOP}/feeds/{name}", *words], stdout=output, stderr=subprocess.PIPE,
                                          env=environment, text=True)
                    os.close(output)
                    same((done.returncode, done.stderr), wanted, name, words, environment is BUFFERED)


def full_output() -> int:
    return os.open("/dev/full", os.O_WRONLY)


def closed_output() -> int:
    """Returns a pipe without a reader."""
    reader, writer = os.pipe()
    os.close(reader)
    return writer
