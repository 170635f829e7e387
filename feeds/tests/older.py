#!/usr/bin/env python3
"""older.py [--streams N] [--seed N] [FORMAT ...]: `squitter feed` beside the older feed, which was Python alone.

Gives N streams (20000) of each format to the program and to the feed of commit 8038e13. Most of them are damaged. Their
format is named, and then found. Each difference gets a class, by a rule that recognises its reason. In a class `cost`
the program follows its pages, and the older feed did better. A difference without a rule is a loss: a whole frame is
left out, damage is not counted, or a timestamp is worse. A loss is printed with its stream. A line for each class has
the number of its streams, and the last line counts the streams without and with a loss.

Run it by hand: it needs the git history and the library (make -C clib), and takes a quarter of an hour."""
from __future__ import annotations

import argparse
import itertools
import os
import random
import re
import subprocess
import sys
import tempfile
from collections import Counter
from types import ModuleType
from typing import IO, Any, Callable, Dict, Iterator, List, NamedTuple, Optional, Set, Tuple

if __name__ == "__main__":
    sys.dont_write_bytecode = True
    TOP = os.path.dirname(os.path.dirname(os.path.dirname(os.path.abspath(__file__))))
    sys.path[:0] = [f"{TOP}/feeds", f"{TOP}/feeds/tests", f"{TOP}/clib"]

from damaged import number
from process import TOP, program
from streams import DAY, MARK, MLAT, TURN, Stream, made

OLDER = "8038e13"
READERS = {"beast": "BeastBinary", "avr": "AvrText", "csv": "CsvText", "log": "LogText"}
CLOCKED = ("beast", "avr")
LEAP, JITTER = 600_000, 1000  # milliseconds
FOUND_WITHIN = 16_384  # bytes that show a format


class Result(NamedTuple):
    """The rows (ms, frame) and the counts that a feed gives for a stream, and whether it refuses the stream."""

    rows: List[Tuple[int, str]]
    counts: Dict[str, int]
    is_refused: bool


class Timed(NamedTuple):
    """The time (ms) of a frame that was read, beside the time that was sent."""

    right: int  # the right timestamp
    jump: str  # how the time jumps from that of the frame before it, if it does
    is_wild: bool  # not as it was sent, or sent with a wrong time
    is_anew: bool  # right times went back before it, so that no timestamp is right
    is_late: bool  # before an earlier frame by more than it may be


# ---- both feeds


def older_feed() -> Any:
    """Returns the module of the older feed, from the history."""
    text = subprocess.run(["git", "-C", TOP, "show", f"{OLDER}:feeds/squitter_feed.py"], check=True,
                          stdout=subprocess.PIPE, text=True).stdout
    module = sys.modules["older_feed"] = ModuleType("older_feed")
    exec(compile(text, "older_feed", "exec"), module.__dict__)
    return module


def result(lines: str, summary: str, is_refused: bool) -> Result:
    rows = [(int(time), frame) for time, frame in (line.split() for line in lines.splitlines())]
    parts = re.findall(r"(\d+) ([a-zA-Z/ ]+)", re.sub(r" \(.*?\)", "", re.split("[;:] try", summary)[0]))
    return Result(rows, {what: int(count) for count, what in parts}, is_refused)


class Feeds:
    """The program and the older feed. A stream is a file to both."""

    def __init__(self, file: IO[bytes]) -> None:
        self.file, self.program, self.module = file, program(), older_feed()

    def newer(self, form: str, data: bytes, reorder: int) -> Result:
        self.file.seek(0)
        self.file.truncate()
        self.file.write(data)
        self.file.seek(0)
        words = [self.program, "feed", "--all", f"--format={form}", f"--reorder={reorder}"]
        done = subprocess.run(words, stdin=self.file, capture_output=True, text=True)
        said = done.stderr.splitlines()[-1]
        return result(done.stdout, said, not re.match(r"\d+ written", said))

    def older(self, form: str, data: bytes, reorder: int) -> Result:
        feed = self.module.Feed(self.module.Options(reorder, all_formats=True), False, lambda _: None)
        feed.format = None if form == "auto" else getattr(self.module, READERS[form])()
        lines, is_refused = [], False
        try:
            lines += feed.hear(data, 0)
        except self.module.Refused:
            is_refused = True
        lines += feed.end(0)
        return result("".join(lines), feed.summary(), is_refused or feed.refusal is not None)

    def read(self, form: str, data: bytes) -> Tuple[List[Any], Counter[str]]:
        """Returns the frames of Mode S that the older feed finds, and the counts of all else."""
        reader = getattr(self.module, READERS[form])()
        frames, counts = [], Counter[str]()
        for one in [*reader.split(data), *reader.last()]:
            is_sound = len(one.frame) > 4 and (int(one.frame[0], 16) < 8) == (len(one.frame) == 14)
            if is_sound and one.ticks != MLAT:
                frames.append(one)
            else:
                counts["of Mode A/C" if len(one.frame) == 4 else "multilaterated" if is_sound else "damaged"] += 1
        counts["damaged"] += reader.damaged
        return frames, counts


# ---- rules

Rewrite = Callable[[bytes], bytes]
SPACES = b"\t\x0b\x0c \x1c\x1d\x1e\x1f"
NO_SPACE = bytes(ord("_") if byte in SPACES else byte for byte in range(256))
ASCII = bytes(ord("_") if byte >= 0x80 or byte == 0 else byte for byte in range(256))
MARK_ENDS = bytes(ord("\n") if byte in b"\xef\xbb\xbf" else byte for byte in range(256))


def by_line(change: Rewrite) -> Rewrite:
    return lambda data: b"\n".join(map(change, data.split(b"\n")))


def kept_ends(line: bytes) -> bytes:
    """Spaces around a line are no longer stripped, nor are carriage returns but one at the end."""
    line = line[:-1] if line.endswith(b"\r") else line
    return line if line == line.strip() else b"_" + line


def wrapped(line: bytes) -> bytes:
    """A star and a semicolon belong together: one without the other is damage."""
    word = line.removesuffix(b"\r").partition(b" ")[2]
    return line if word.startswith(b"*") == word.endswith(b";") else b"_" + line


def cells_of(line: bytes) -> Iterator[bytes]:
    """The cells of a row. A comma ends a cell, but for one between the quotes of a cell that begins with a quote."""
    start, quoted = 0, False
    for place, byte in enumerate(line + b","):
        if byte == 0x22 and line[start : start + 1] == b'"':
            quoted = not quoted
        if byte == 0x2C and not quoted:
            yield line[start:place]
            start = place + 1
    if quoted:
        yield line[start:]


def bare(line: bytes) -> bytes:
    """Spaces around a cell are left out, and then quotes around it. Other quotes are bytes of the cell, and so are the
    spaces within quotes."""
    cells = []
    for cell in cells_of(line.removesuffix(b"\r")):
        cell = cell.strip(b" \t\n\r\f")
        cell = cell[1:-1] if len(cell) > 1 and cell[:1] == cell[-1:] == b'"' else cell
        for byte in (b'"', b",", b"\r"):
            cell = cell.replace(byte, b"_")
        text = cell.decode("latin-1")  # (whose strip takes more bytes for spaces)
        cells.append(cell if text == text.strip() else b"_" + cell)
    return b",".join(cells)


def short(line: bytes) -> bytes:
    """A row of more than 512 bytes is damage."""
    return line if len(line) <= 512 else b"x"


SPACED = "spaces belong to a line and to a cell"
BOM = {"a byte order mark at the start of a line is left out": by_line(lambda line: line.removeprefix(MARK))}
READ_RULES: Dict[str, Dict[str, Rewrite]] = {
    "beast": {"an id of a receiver is no damage": lambda data: re.sub(
        rb"\x1a(\x1a|\xe3)", lambda one: one[0] if one[1] == b"\x1a" else b"\x1a4", data)},
    "avr": {
        "a carriage return ends a line": lambda data: data.replace(b"\r", b"\n"),
        "each byte of a byte order mark ends a line": lambda data: data.translate(MARK_ENDS),
        "a bare frame may follow a semicolon": lambda data: data.replace(b";", b";\n"),
        SPACED: lambda data: data.translate(NO_SPACE),
        "a frame is found on a line of any length": by_line(
            lambda line: line if len(line) <= 4096 else re.sub(rb"([*:@%<][0-9A-Fa-f]+;)", rb"\n\1\n", line))},
    "csv": {
        **BOM,
        "only spaces and quotes around a cell are left out": by_line(bare),
        "bytes that are not ASCII do no harm in another column": lambda data: data.translate(ASCII),
        "a row has at most 512 bytes": by_line(short),
        "a column timestamp is a time": by_line(
            lambda line: line.replace(b"timestamp", b"time") if b"rawmsg" in line else line)},
    "log": {**BOM, SPACED: by_line(kept_ends), "a star and a semicolon belong together": by_line(wrapped)},
}


def readings(feeds: Feeds, form: str, stream: Stream, new: Result) -> Iterator[Tuple[Set[str], bytes]]:
    """Yields rules, and the stream that they rewrite. With them the older feed finds as many frames as the program, and
    damages if the program does. The fewest rules come first."""
    rules, counts, (data, sent, _) = READ_RULES[form], Counter(new.counts), stream
    wanted, in_all = Counter(frame for _, frame in new.rows), len(new.rows) + counts["set aside"]
    for names in itertools.chain(*(itertools.combinations(rules, count) for count in range(len(rules) + 1))):
        rewritten = data
        for name in names:
            rewritten = rules[name](rewritten)
        frames, found = feeds.read(form, rewritten)
        # (A lone escape at the end is no damage. The program may count more damages in a line of text.)
        is_alike = (found["damaged"] - counts["damaged"] in (0, data.endswith(b"\x1a")) if form == "beast" else
                    found["damaged"] <= counts["damaged"])
        if (is_alike and len(frames) == in_all and not wanted - Counter(one.frame for one in frames)
                and all(found[what] == counts[what] for what in ("of Mode A/C", "multilaterated"))):
            lost = Counter(one.frame for one in feeds.read(form, data)[0]) - Counter(one.frame for one in frames)
            yield {f"{'cost' if set(lost) & set(sent) else 'read'}: {name}" for name in names}, rewritten


def timed(stream: Stream, frames: List[Any], reorder: int) -> Dict[str, Timed]:
    """Returns the frames that have a time, in order, by their digits."""
    found: Dict[str, Timed] = {}
    last, sound, right, newest, is_anew, late = None, None, 0, 0, False, max(reorder, JITTER)
    for one in frames:
        if one.millis is None and not one.ticks:
            continue
        time, raw, turn = (one.millis, one.millis, 1 << 80) if one.ticks is None else (
            one.ticks // 12_000, one.ticks, TURN // 12_000)
        gap, step = (0 if was is None else (time - was + turn // 2) % turn - turn // 2 for was in (last, sound))
        sent = stream.sent.get(one.frame)
        is_wild = sent is None or sent.is_wild or sent.time != raw
        if not is_wild:
            is_anew = is_anew or step < -late
            right, sound = time if sound is None else right + step, time
            newest = max(newest, right)
        jump = "back" if gap < -late else "" if gap <= LEAP else "ahead" if gap <= DAY else "a day ahead"
        found.setdefault(one.frame, Timed(right, jump, is_wild, is_anew, newest - right > late))
        last = time
    return found


def why_fewer(one: Optional[Timed], near: List[Timed], is_believed: bool) -> str:
    """Returns why the program set a frame aside that the older feed wrote."""
    jumps, are_wild = {each.jump for each in near}, any(each.is_wild or each.is_late for each in near)
    if one is not None and one.is_wild:
        return "fewer: a wild time is set aside"
    if one is not None and (one.is_late or is_believed):
        return "cost: a frame is set aside that is late " + ("by more than a second and --reorder" if one.is_late else
                                                             "beside a wild one, which is believed")
    if one is not None and jumps != {""} and are_wild:
        return "cost: a frame that jumps is set aside, as one near it is wild or late"
    return "LOSS: a frame"


def why_moved(form: str, one: Timed, mine: int, other: int, is_believed: bool) -> str:
    """Returns why the program gave a frame another timestamp than the older feed did."""
    if one.is_wild:
        return "time: of a frame with a wild time"
    if one.is_anew:
        return "time: both are after times that went back"
    if abs(mine - one.right) <= 1:
        return "time: right, and that of the older feed is wrong"
    if abs(other - one.right) > 1:
        return "time: neither is right after a wild time"
    if is_believed:
        return "cost: later ones go on from a wild " + (
            "clock, which was believed as it was less than a day ahead" if form in CLOCKED else
            "row, which was believed: within --leap, or as the last of three that go ahead")
    return "time: late by at most a second" if 0 < mine - one.right <= JITTER else "LOSS: a timestamp"


def differences(form: str, order: Dict[str, Timed], new: Result, old: Result) -> Iterator[str]:
    """Yields the classes of the differences between both results for the same frames."""
    frames, before = list(order), {frame: time for (time, _), (_, frame) in zip([(0, ""), *new.rows], new.rows)}
    ours, theirs = ({frame: sorted(time for time, other in rows if other == frame) for _, frame in rows}
                    for rows in (new.rows, old.rows))
    for frame in {**ours, **theirs}:
        mine, other, one = ours.get(frame, []), theirs.get(frame, []), order.get(frame)
        at = frames.index(frame) if one else 0
        is_believed = any(order[name].is_wild and ours[name][0] - order[name].right > JITTER
                          for name in frames[: at + 1] if name in ours)
        if len(mine) > len(other):
            is_known = old.counts.get("late") or old.counts.get("that leap in time")
            yield "more: of frames that are late or jump" if is_known else "LOSS: too many"
        elif mine and len(other) > 1:
            yield f"{'fewer' if len(mine) < len(other) else 'time'}: of a frame that is there twice"
        elif not mine:
            near = [order[name] for name in frames[max(0, at - 3) : at + 4]]
            yield why_fewer(one, near, is_believed)
        elif mine != other and one is None:  # (it has the timestamp before it)
            yield "time: of a frame without a time" if mine[0] == before[frame] else "LOSS: a timestamp"
        elif mine != other:
            yield why_moved(form, one, mine[0], other[0], is_believed)


def of_auto(feeds: Feeds, form: str, stream: Stream, reorder: int, new: Result) -> Iterator[str]:
    """Yields the class of the difference without a named format, if there is one."""
    data = stream.data
    auto, old = feeds.newer("auto", data, reorder), feeds.older("auto", data, reorder)
    if auto[:2] == new[:2]:
        if old.rows != feeds.older(form, data, reorder).rows:
            yield "auto: the older feed found another format, or later"
    elif not new.rows or {frame for _, frame in old.rows} <= {frame for _, frame in auto.rows}:
        yield "auto: both find another format, or none"
    elif len(stream.forms) > 1:
        yield "auto: two formats are joined, and each feed finds another one"
    elif auto.is_refused and not feeds.read(form, data[:FOUND_WITHIN])[0]:
        yield "auto: no frame is in the first 16,384 bytes"
    elif auto.is_refused:
        yield "LOSS: refused"
    elif re.match(rb"\x1a[1234\xe3]", data):
        yield "cost: a start of a Beast message in front of a text shows Beast"
    else:
        front = data[: min(data.find(one.data) % len(data) for one in stream.sent.values())]
        is_shown = not feeds.newer("auto", front, 0).is_refused
        yield "cost: garbage in front shows another format by its own frame" if is_shown else "LOSS: of the format"


def compared(feeds: Feeds, form: str, stream: Stream, reorder: int) -> Set[str]:
    """Returns the classes of all differences for a stream, with its format named and found."""
    new, least = feeds.newer(form, stream.data, reorder), {"LOSS: frames, or damages that are not counted"}
    for names, data in readings(feeds, form, stream, new):
        order = timed(stream, feeds.read(form, data)[0], reorder)
        least = {*names, *differences(form, order, new, feeds.older(form, data, reorder))}
        if not any(name.startswith("LOSS") for name in least):
            break
    return {*least, *of_auto(feeds, form, stream, reorder, new)}


def known_format(word: str) -> str:
    if word not in READERS:
        raise argparse.ArgumentTypeError(f"{word} is no format: {', '.join(READERS)}")
    return word


def main() -> int:
    parser = argparse.ArgumentParser(description=__doc__, formatter_class=argparse.RawDescriptionHelpFormatter)
    parser.add_argument("formats", nargs="*", type=known_format, metavar="FORMAT", help="beast, avr, csv or log")
    parser.add_argument("--streams", type=number, default=20_000, metavar="N", help="streams of each format")
    parser.add_argument("--seed", type=number, default=1, metavar="N", help="another seed gives other streams")
    words, lost = parser.parse_args(), 0
    forms = words.formats or list(READERS)
    with tempfile.TemporaryFile() as file:
        feeds = Feeds(file)
        for form in forms:
            classes = Counter[str]()
            for count in range(words.streams):
                draw = random.Random(f"{words.seed} {form} {count}")
                stream, reorder = made(form, draw), draw.choice((0, 0, 0, 2000))
                found = compared(feeds, form, stream, reorder)
                classes.update(found or {"no difference"})
                bad = sorted(name for name in found if name.startswith("LOSS"))
                if bad:
                    lost += 1
                    print(f"{form} {count}: --reorder={reorder}: {', '.join(bad)}: {stream.data[:4000].hex()}")
            for name, many in classes.most_common():
                print(f"{form}: {many} {name}", flush=True)
    print(f"{len(forms) * words.streams - lost} passed, {lost} failed")
    return 1 if lost else 0


if __name__ == "__main__":
    sys.exit(main())
