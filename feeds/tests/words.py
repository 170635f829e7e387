"""What squitter-feed says is what `squitter feed` says: the same refusals and counts, read from the program."""
from __future__ import annotations

import subprocess
import tarfile
import tempfile
from io import BytesIO
from typing import List, Tuple

from process import program, ran
from squitter import Stranger, Unit
from squitter._made import STRANGERS, UNITS
from trying import AIR_EVEN, AIR_ODD, COMM_B, REPLY, beast, clocked, same

MLAT = int.from_bytes(b"\xff\x00MLAT", "big")  # in the place of a clock


def said_by_program(words: List[str], data: bytes) -> Tuple[int, str]:
    """The status of `squitter feed` and what it says of a file."""
    with tempfile.TemporaryFile() as file:
        file.write(data)
        file.seek(0)
        done = subprocess.run([program(), "feed", *words], stdin=file, stdout=subprocess.DEVNULL,
                              stderr=subprocess.PIPE, text=True, timeout=60)
    return done.returncode, done.stderr


def archive_of_tar() -> bytes:
    tar = BytesIO()
    with tarfile.open(fileobj=tar, mode="w") as archive:
        archive.addfile(tarfile.TarInfo("feed.csv"))
    return tar.getvalue()


def refusals_alike() -> None:
    """A source without frames is refused in the program's words, behind the source's name. Only of an archive the
    program says less: it unpacks none."""
    sources = {
        Stranger.SBS: b"MSG,3,1,1,4B1001,1,2026/11/23,22:00:00.000,,,,38000,,,52.1,4.2,,,0,0,0,0\n",
        Stranger.TAR: archive_of_tar(), Stranger.UTF16: f"5 {AIR_ODD}\n".encode("utf-16"),
        Stranger.JSON: b'{"hex":"40621d"}\n', Stranger.NO_FRAME: b"x\n" * 5,
        Stranger.PACKED: b"\x1f\x8b\x08" + bytes(99), Stranger.SEMICOLONS: f"1,5;40621d;{AIR_ODD}\n".encode(),
        Stranger.TABS: b"time\ticao24\trawmsg\n", Stranger.NO_TIME: f"icao24,rawmsg\n40621d,{AIR_ODD}\n".encode(),
        Stranger.NO_RAWMSG: b"time,icao24,lat,lon\n1.5,40621d,52.25,3.92\n",
        Stranger.NO_SECONDS: f"1700000000000,40621d,{AIR_ODD}\n".encode(),
        Stranger.NO_NAMES: f"1.5,{AIR_ODD}\n".encode(),
    }
    same(set(sources), set(Stranger), "sources")
    for stranger, data in sources.items():
        status, said = said_by_program([], data)
        same((status, said), (1, f"{STRANGERS[stranger]}\n"), stranger)
        if stranger is not Stranger.PACKED:
            status, printed, told = ran(["-"], data)
            same((status, printed, told.splitlines()[0]), (1, "", f"squitter-feed: -: {said.strip()}"), stranger)


def counts_alike() -> None:
    """The last line has the program's counts, and behind these what the program does not say."""
    short = b"\x1a1" + bytes(6) + b"\x80\x12\x34"
    messages = b"".join(beast(frame, 12_000 * at) for at, frame in enumerate([REPLY, REPLY, COMM_B, AIR_ODD, AIR_EVEN]))
    others, reorder = "3 of other downlink formats (DF11 2, DF20 1)", "; try --reorder=2000"
    cases: List[Tuple[List[str], bytes, str, str]] = [
        ([], b"", "0 written", ""),
        ([], messages, f"2 written, {others}", ""),
        (["--all"], messages, "5 written", f", {others} among them"),
        (["--all"], beast(f"87{AIR_ODD[2:]}", 12_000) + beast(f"88{AIR_ODD[2:]}", 24_000), "2 written",
         ", 1 of other downlink formats (DF16 1) among them"),
        ([], short * 3 + beast(AIR_ODD, 12_000), "1 written, 3 of Mode A/C", ""),
        ([], beast(AIR_ODD, MLAT) + beast(AIR_ODD), "1 written, 1 multilaterated", ""),
        ([], b"\x1a\xe3" + bytes(8) + beast(AIR_ODD, 12_000), "1 written, 1 receiver ids", ""),
        ([], b"".join(clocked(AIR_ODD, at) for at in (12_000, 24_000, 10**12, 36_000)), "3 written, 1 set aside",
         reorder),
        ([], f"*{AIR_ODD};\n*8D;\nxx\n".encode(), "1 written, 2 damaged", ""),
        ([], b"".join(b"%d %s\n" % (at, AIR_ODD.encode()) for at in (9000, 9001, 1, 2, 3)), "5 written, 1 jumps back"
         "; timestamps behind a jump back are moved on: try --leap and --reorder to sort them", ""),
        (["--reorder=1000"], f"9000 {AIR_ODD}\n8500 {AIR_ODD}\n5000 {AIR_ODD}\n".encode(), "2 written, 1 set aside",
         reorder),
    ]
    for words, data, wanted, more in cases:
        same(said_by_program(words, data), (0, f"{wanted}\n"), words, data)
        with tempfile.NamedTemporaryFile() as file:
            file.write(data)
            file.flush()
            status, _, said = ran([file.name, *words])
        same((status, said), (0, f"squitter-feed: {wanted}{more}\n"), words, data)


def units_alike() -> None:
    """A line before the counts says what timestamps are that are no milliseconds, in the program's words. Both say what
    to do with several clocks."""
    far = ["--leap=999999999999999"]  # the longest leap

    def log(step: int, times: int = 1) -> bytes:
        return b"".join(b"%d %s\n" % (step * number * times, (AIR_ODD, AIR_EVEN)[number % 2].encode())
                        for number in range(17))

    seconds = [second << 30 | nano for second in range(40_000, 40_010) for nano in (0, 500_000_000)]
    clocks = [12_000_000 * (7200 + number) - 12_000_000 * 3600 * (number % 3 == 2) for number in range(300)]
    cases = {
        Unit.SECONDS: log(1), Unit.MICROSECONDS: log(500_000), Unit.NANOSECONDS: log(500_000_000),
        Unit.ALL_ZERO: f"*{AIR_ODD};\n".encode() * 2, Unit.GPS: b"".join(beast(AIR_ODD, ticks) for ticks in seconds),
        Unit.MILLISECONDS: log(500), None: b"".join(beast(AIR_ODD, ticks) for ticks in clocks),
    }
    same(set(cases) - {None}, set(Unit), "units")
    for unit, data in cases.items():
        status, said = said_by_program(far * (unit is not None), data)
        *told, counts = said.splitlines()
        same((status, told), (0, [UNITS[unit]] if unit in UNITS else []), unit)
        same(counts.endswith("; try --arrival: the source seems to have several clocks"), unit is None, counts)
        with tempfile.NamedTemporaryFile() as file:
            file.write(data)
            file.flush()
            status, _, said = ran([file.name, *far * (unit is not None)])
        same((status, said.splitlines()), (0, [f"squitter-feed: {line}" for line in (*told, counts)]), unit)
    for start in (b"88", b"8F"):  # the first and the last byte of DF17
        said = ran(["-"], log(1).replace(b" 8D", b" " + start))[2]
        same(said.splitlines()[0], f"squitter-feed: {UNITS[Unit.SECONDS]}", start)
