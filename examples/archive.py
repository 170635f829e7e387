#!/usr/bin/env python3
"""archive.py [OPTIONS] FOLDER HOUR..: what `squitter track` says to an archive, by as many processes as there are.

An archive is files of CSV, plain or compressed by gzip, in the order of their time, as one for each hour: rows of
time, in seconds with any decimals, icao24 and rawmsg, or of the columns that a first row names. For each file FOLDER
gets one of the same name with the answers, in order: the rows of `squitter track --format=csv`, byte for byte. With
--parquet there is a file of Parquet beside it (needs pyarrow), with the same columns and the exact fractions behind
them. The lines are numbered over the whole archive, rows of names left out. A file that is there is whole.

Why it is right: what `track` answers to a line that it accepts depends on what it accepted of the same address
before, and of no other (docs/THEOREMS.md, `one_address_alone`). So the lines are cut by address, and each part is
heard by a tracker of its own. What this asks: that the lines of an address come to its part in the order of the
archive, all of them, and no refused one. Other addresses count where a moment goes back: a line is refused if one
before it, of whatever address, was later. That is the greatest moment of all frames before, which each file tells the
next one. They count as well where the table is full, and here it never is: the answers are those of `squitter track
--limit=16777216`.

Dask (Debian's python3-dask and python3-distributed) runs it: on processes of this machine, or with --scheduler on a
cluster that sees the same files. Some hours are read at once; the parts of each are heard one hour after the other,
and what a part keeps, 192 bytes for an address, goes on to its next hour. If a process is lost, its tasks are run
again: each depends on its arguments alone."""
import argparse
import contextlib
import copy
import csv
import gzip
import importlib.util
import os
import re
import sys
import zlib
from dataclasses import dataclass, replace
from typing import Any, List, Optional, Sequence, Tuple


def parser_of() -> argparse.ArgumentParser:
    """The parser of the command line."""
    parser = argparse.ArgumentParser(description="what `squitter track` says to an archive of CSV, by many processes")
    parser.add_argument("folder", help="where the answers go")
    parser.add_argument("files", nargs="+", help="files of CSV in the order of their time, plain or .gz")
    parser.add_argument("--lat", help="the site's latitude in degrees, for aircraft on the ground")
    parser.add_argument("--lon", help="the site's longitude in degrees")
    parser.add_argument("--window", type=int, default=10_000, help="as that of `track`, in milliseconds")
    parser.add_argument("--workers", type=int, default=os.cpu_count() or 1, help="processes on this machine")
    parser.add_argument("--scheduler", help="the address of a scheduler of Dask, in the place of these")
    parser.add_argument("--parts", type=int, help="parts into which addresses are cut (2 for each process)")
    parser.add_argument("--hours", type=int, help="files that are in memory at once (2 for each process)")
    parser.add_argument("--parquet", action="store_true", help="write files of Parquet too")
    return parser


def words_of(words: Optional[Sequence[str]] = None) -> argparse.Namespace:
    """The command line, as far as it can be judged without the modules below."""
    parser = parser_of()
    options = parser.parse_args(words)
    if (options.lat is None) != (options.lon is None):
        parser.error("a site is --lat and --lon")
    if any(number is not None and number < 1 for number in (options.workers, options.parts, options.hours)):
        parser.error("workers, parts and hours are numbers from 1")
    if options.parquet and importlib.util.find_spec("pyarrow") is None:
        parser.error("--parquet needs pyarrow, which is not installed")
    names = [os.path.basename(path) for path in options.files]
    if len(set(names)) < len(names):
        parser.error("two files have one name")
    if os.path.realpath(options.folder) in {os.path.realpath(os.path.dirname(path) or ".") for path in options.files}:
        parser.error("the answers would take the place of the files: another folder is wanted")
    return options


if __name__ == "__main__":
    words_of()  # Help and refused words need no module.

NEEDED = {"numpy": "python3-numpy", "dask": "python3-dask", "distributed": "python3-distributed"}
missing = [package for name, package in NEEDED.items() if importlib.util.find_spec(name) is None]
if missing:
    sys.exit(f"archive.py: needs {', '.join(missing)} of Debian")
try:
    import squitter
except (ImportError, OSError) as fault:
    sys.exit(f"archive.py: needs squitter for Python, as `make -C clib` and PYTHONPATH=clib give it: {fault}")
import dask.config  # noqa: E402
import numpy as np  # noqa: E402
from dask.base import compute, persist  # noqa: E402
from dask.delayed import delayed  # noqa: E402
from distributed import progress  # noqa: E402
from numpy.typing import NDArray  # noqa: E402
from squitter import batch  # noqa: E402

HEADER = ",".join(batch.COLUMNS).encode() + b"\n"
# Dask has its processes give memory back at once: arrays that come and go then cost as much as what is done with them.
MEMORY = {"MALLOC_TRIM_THRESHOLD_": 1 << 30, "MALLOC_MMAP_THRESHOLD_": 1 << 25, "MALLOC_ARENA_MAX": 1}
BOM = b"\xef\xbb\xbf"  # a byte order mark, which squitter-feed leaves out too
SECONDS = re.compile(r"([0-9]{1,12})(?:\.([0-9]*))?")


@dataclass(frozen=True)
class Hour:
    """The lines of a file: what each is before others are looked at."""

    moments: NDArray[np.uint64]  # in milliseconds, 0 where there is none
    frames: NDArray[np.bytes_]  # texts
    addresses: NDArray[np.uint32]  # 0 where the line is refused
    faults: NDArray[np.void]  # why it is


@dataclass(frozen=True)
class Cut:
    """An hour, cut by address: of each part the places of its lines."""

    faults: NDArray[np.void]
    parts: List[NDArray[np.intp]]


class Failed(Exception):
    """A file cannot be read or written, or the scheduler cannot be reached."""


# ---- reading ----


def read_hour(path: str) -> Hour:
    """The lines of a file. As `track` reads it, a line is a moment, a space and a frame, and at most 64 bytes."""
    try:
        with (gzip.open if path.endswith(".gz") else open)(path, "rb") as file:
            data = file.read().replace(b"\r\n", b"\n")
    except (OSError, EOFError, zlib.error) as fault:
        raise Failed(f"cannot read {path}: {fault}") from None
    data = data[len(BOM):] if data.startswith(BOM) else data
    columns = columns_of(data.partition(b"\n")[0])
    if columns:
        data = data.partition(b"\n")[2]
    data = data if data.endswith(b"\n") else data + b"\n"
    time, frame = columns or (0, 2)
    return plain_hour(data, time, frame) or any_hour(data, time, frame)


def columns_of(head: bytes) -> Optional[Tuple[int, int]]:
    """Where time and frame stand, if this is a row of names."""
    names = [field.strip().lower() for field in fields_of(head.decode("utf-8", "surrogateescape"))]
    times = [name for name in ("time", "mintime") if name in names]
    return (names.index(times[0]), names.index("rawmsg")) if times and "rawmsg" in names else None


def hour_of(moments: NDArray[np.int64], texts: Any) -> Hour:
    """An hour of these moments, -1 where there is none, and texts of frames."""
    fields, faults = batch.read(texts)
    faults[moments < 0] = squitter.Code.BAD_MOMENT, 0, 0
    good = faults["code"] == 0
    addresses = np.where(good, fields["address"], 0).astype(np.uint32)
    return Hour(np.maximum(moments, 0).astype(np.uint64), np.asarray(texts), addresses, faults)


def plain_hour(data: bytes, time: int, frame: int) -> Optional[Hour]:
    """The lines of plain rows, many at once. None where a row is not plain: it has not as many commas as the first, a
    time that is more than digits and a point, a frame of more than 30 bytes, or a blank, a quote or a zero byte."""
    buffer = np.frombuffer(data, np.uint8)
    count = data.count(b",", 0, data.index(b"\n")) + 1
    ends = np.flatnonzero((buffer == ord(",")) | (buffer == ord("\n")))
    if len(ends) % count or max(time, frame) >= count or any(byte in data for byte in b'" \t\r\v\f\0'):
        return None
    ends = ends.reshape(-1, count)
    if (buffer[ends[:, :-1]] != ord(",")).any() or (buffer[ends[:, -1]] != ord("\n")).any():
        return None
    moments, frames = np.empty(len(ends), np.int64), np.zeros((len(ends), 30), np.uint8)
    for at in range(0, len(ends), 1 << 16):
        some = ends[at:at + (1 << 16)]
        starts = np.append(ends[at - 1, -1] if at else -1, some.reshape(-1)[:-1]).reshape(some.shape) + 1
        times = plain_moments(field_of(buffer, starts[:, time], some[:, time], 24))
        texts = field_of(buffer, starts[:, frame], some[:, frame], 30)
        if times is None or texts is None:
            return None
        moments[at:at + len(some)], frames[at:at + len(some), :texts.shape[1]] = times, texts
    # (28 is what a frame without marks has, and is read fastest)
    width = 30 if frames[:, 28:].any() else 28
    return hour_of(moments, np.ascontiguousarray(frames[:, :width]).view(f"S{width}").reshape(-1))


def field_of(
    buffer: NDArray[np.uint8], starts: NDArray[np.intp], ends: NDArray[np.intp], most: int
) -> Optional[NDArray[np.uint8]]:
    """The bytes between these places, a row for each, with zeros after them. None where there are more than so many."""
    width = int((ends - starts).max())
    if width > most:
        return None
    places = np.arange(max(width, 1))
    rows = buffer[np.minimum(starts[:, np.newaxis] + places, len(buffer) - 1)]
    rows[places >= (ends - starts)[:, np.newaxis]] = 0
    return rows


def plain_moments(rows: Optional[NDArray[np.uint8]]) -> Optional[NDArray[np.int64]]:
    """Seconds with decimals in whole milliseconds, rounded down. None where one of them is spelled otherwise."""
    if rows is None:
        return None
    is_digit, is_point = (rows - ord("0")) < 10, rows == ord(".")
    passed = np.cumsum(is_point, axis=1) > 0
    seconds = (is_digit & ~passed).sum(axis=1)
    if not (is_digit | is_point | (rows == 0)).all() or (is_point.sum(axis=1) > 1).any() or not (
            (seconds >= 1) & (seconds <= 12)).all():
        return None
    moments, decimals = np.zeros(len(rows), np.int64), np.zeros(len(rows), np.int64)
    for column in range(rows.shape[1]):
        counts = is_digit[:, column] & (decimals < 3)
        moments = np.where(counts, moments * 10 + (rows[:, column] - ord("0")), moments)
        decimals += counts & passed[:, column]
    return np.asarray(moments * 10 ** (3 - decimals), np.int64)


def any_hour(data: bytes, time: int, frame: int) -> Hour:
    """The lines of rows of all kinds, one by one. Each line of the file is a row; what it lacks is empty."""
    moments, texts, long = [], [], []
    for line in data.decode("utf-8", "surrogateescape").split("\n"):
        fields = [field.strip() for field in fields_of(line)]
        if any(fields):
            fields += [""] * (max(time, frame) + 1 - len(fields))
            moments.append(milliseconds(fields[time]))
            said = f"{fields[time] if moments[-1] < 0 else moments[-1]} {fields[frame]}"
            long.append(len(said) > 64 or len(said.encode("utf-8", "surrogateescape")) > 64)
            texts.append("" if long[-1] else fields[frame])
    hour = hour_of(np.array(moments, np.int64), texts)
    hour.faults[np.array(long, bool)] = squitter.Code.LONG_LINE, 0, 0
    good = hour.faults["code"] == 0
    return replace(hour, frames=np.array([text if is_good else "" for text, is_good in zip(texts, good)], "S"))


def fields_of(line: str) -> List[str]:
    """The fields of a line; where a quote has no end, or is too long, the line stands where a frame may stand."""
    try:
        return next(csv.reader([line], strict=True)) if '"' in line else line.split(",")
    except csv.Error:
        return ["", "", line]


def milliseconds(seconds: str) -> int:
    """Seconds with decimals in whole milliseconds, rounded down: by digits, since a float has too few. -1 for none."""
    parts = SECONDS.fullmatch(seconds)
    return int(parts[1]) * 1000 + int((parts[2] or "").ljust(3, "0")[:3]) if parts else -1


# ---- hearing ----


@dataclass(frozen=True)
class Before:
    """What an hour has to know of those before it: the last moment that was heard, and how many lines there were."""

    last: int
    lines: int


def following(before: Before, hour: Hour) -> Before:
    """The same for the next hour."""
    heard = hour.moments[hour.faults["code"] == 0]
    return Before(max(before.last, int(heard.max(initial=0))), before.lines + len(hour.moments))


def cut(hour: Hour, before: Before, parts: int) -> Cut:
    """The hour, cut by address into so many parts, without the lines that are refused."""
    faults, good = hour.faults.copy(), hour.faults["code"] == 0
    latest = np.maximum.accumulate(np.append(np.uint64(before.last), np.where(good, hour.moments, np.uint64(0))))[:-1]
    back = np.flatnonzero(good & (hour.moments < latest))
    faults["code"][back], faults["first"][back] = squitter.Code.MOMENT_BACK, latest[back]
    accepted = np.flatnonzero(faults["code"] == 0)
    part_of = hour.addresses[accepted] % np.uint32(parts)
    return Cut(faults, [accepted[part_of == part] for part in range(parts)])


def piece(hour: Hour, cut_hour: Cut, part: int) -> Tuple[NDArray[np.uint64], NDArray[np.bytes_]]:
    """What goes to a part: the moments and frames of its lines."""
    places = cut_hour.parts[part]
    return hour.moments[places], hour.frames[places]


def hear(
    tracker: batch.Tracker, lines: Tuple[NDArray[np.uint64], NDArray[np.bytes_]]
) -> Tuple[batch.Tracker, NDArray[np.void]]:
    """The tracker of a part after these lines, and what it heard. The one that is given stays: a task may run again."""
    after = copy.deepcopy(tracker)
    heard, faults = after.hear(*lines)
    if faults["code"].any():
        raise RuntimeError("a line that was accepted is refused")
    return after, heard


# ---- writing ----


def write(
    path: str, hour: Hour, before: Before, cut_hour: Cut, heard: Sequence[NDArray[np.void]], parquet: bool
) -> int:
    """Writes the answers of an hour, and answers how many there are."""
    answers = np.zeros(len(hour.moments), batch.TRACKED)
    for places, told in zip(cut_hour.parts, heard):
        answers[places] = told
    try:
        with open(f"{path}.part", "wb") as plain:
            # (without a name and a time in it, so that a task that runs again writes the same bytes)
            with gzip.GzipFile("", "wb", 6, plain, 0) if path.endswith(".gz") else plain as file:
                file.write(HEADER)
                file.write(batch.csv_rows(hour.moments, answers, cut_hour.faults, before.lines + 1))
        os.replace(f"{path}.part", path)
    except OSError as fault:
        with contextlib.suppress(OSError):
            os.remove(f"{path}.part")
        raise Failed(f"cannot write {path}: {fault.strerror}") from None
    if parquet:
        write_parquet(f"{path}.parquet", hour.moments, answers, cut_hour.faults, before.lines + 1)
    return len(answers)


def write_parquet(
    path: str, moments: NDArray[np.uint64], answers: NDArray[np.void], faults: NDArray[np.void], first: int
) -> None:
    """The same as a table: the columns of `batch.columns`, the exact fractions, and the numbers of splits and faults.
    What a line has not is null."""
    import pyarrow
    import pyarrow.parquet

    columns = batch.columns(moments, answers, faults, first)
    nowhere = np.ma.getmaskarray(columns["lat"])
    for name in batch.POSITION.names or ():
        columns[name] = np.ma.MaskedArray(answers[name], nowhere)
    whole = answers["what"] != squitter.What.SPLIT
    columns.update({name: np.ma.MaskedArray(answers[name], whole) for name in ("even", "odd")})
    good = faults["code"] == 0
    columns.update({f"fault_{name}": np.ma.MaskedArray(faults[name], good) for name in ("first", "second")})
    table = pyarrow.table({
        name: pyarrow.array(np.ascontiguousarray(column.data), mask=np.ma.getmaskarray(column))
        for name, column in columns.items()})
    pyarrow.parquet.write_table(table, f"{path}.part")
    os.replace(f"{path}.part", path)


# ---- the tasks ----


def run(paths: Sequence[str], folder: str, options: argparse.Namespace) -> int:
    """Hears the archive, some hours at once, and answers how many lines it has."""
    trackers: List[Any] = [batch.Tracker(options.window, site_of(options), None) for _ in range(options.parts)]
    before = Before(0, 0)
    for at in range(0, len(paths), options.hours):
        before, trackers = hours(paths[at:at + options.hours], folder, before, trackers, options.parquet)
    return before.lines


def hours(
    paths: Sequence[str], folder: str, before: Any, trackers: List[Any], parquet: bool
) -> Tuple[Before, List[Any]]:
    """Hears these hours: what is known after them, and the trackers of the parts."""
    written = []
    for path in paths:
        hour = delayed(read_hour)(path)
        pieces = delayed(cut)(hour, before, len(trackers))
        told = [
            delayed(hear, nout=2)(tracker, delayed(piece)(hour, pieces, part)) for part, tracker in enumerate(trackers)]
        to = os.path.join(folder, os.path.basename(path))
        written.append(delayed(write)(to, hour, before, pieces, [heard for _, heard in told], parquet))
        trackers = [tracker for tracker, _ in told]
        before = delayed(following)(before, hour)
    # (the bar of dask.diagnostics is for schedulers within one process; this one is of its kind)
    begun = persist(*written, before, *trackers)
    with contextlib.redirect_stdout(sys.stderr):
        progress(begun, notebook=False)
    print(file=sys.stderr)
    _, after, *kept = compute(begun[:len(written)], *begun[len(written):])
    return after, kept


def options_of(words: Optional[Sequence[str]] = None) -> argparse.Namespace:
    """The command line, with angles in place of texts."""
    options = words_of(words)
    for name in ("lat", "lon"):
        text = getattr(options, name)
        try:
            setattr(options, name, None if text is None else squitter.angle(text))
        except ValueError as fault:
            parser_of().error(f"argument --{name}: {fault}")
    try:
        batch.Tracker(options.window, site_of(options), None)
    except ValueError as fault:
        parser_of().error(str(fault))
    return options


def site_of(options: argparse.Namespace) -> Optional[squitter.Position]:
    return None if options.lat is None else squitter.Position(options.lat, options.lon)


def main() -> None:
    from distributed import Client, LocalCluster

    options = options_of()
    for path in options.files:
        if not os.path.isfile(path):
            sys.exit(f"archive.py: there is no file {path}")
    try:
        os.makedirs(options.folder, exist_ok=True)
    except OSError as fault:
        sys.exit(f"archive.py: cannot make {options.folder}: {fault.strerror}")
    dask.config.set({f"distributed.nanny.pre-spawn-environ.{name}": value for name, value in MEMORY.items()})
    where = options.scheduler or LocalCluster(
        n_workers=options.workers, threads_per_worker=1, processes=True, dashboard_address=None)
    try:
        client = Client(where)
    except (OSError, ValueError) as fault:
        sys.exit(f"archive.py: no scheduler: {fault}")
    try:
        with client:
            count = len(client.scheduler_info()["workers"]) or 1
            options.parts, options.hours = options.parts or 2 * count, options.hours or 2 * count
            lines = run(options.files, options.folder, options)
    except Failed as fault:
        sys.exit(f"archive.py: {fault}")
    print(f"{lines} lines of {len(options.files)} files", file=sys.stderr)


if __name__ == "__main__":
    main()
