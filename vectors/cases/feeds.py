"""The definitions of a feed, by docs/FORMATS.md: the items in the bytes of a source, and their timestamps.

A source is read as a whole, so the definitions do not know how it is cut into pieces. Each item says how many bytes
show it. The calls of a case say when these bytes came."""
from __future__ import annotations

import re
from typing import Any, Dict, Iterator, List, NamedTuple, Optional, Tuple

FORMATS = ("beast", "avr", "csv", "log")
LIMIT = 16_384  # bytes within which a source has to show its format
LONGEST = 512  # bytes of a row
TAR_AT = 257  # bytes before the word `ustar`

ESCAPE, STATUS, RECEIVER = b"\x1a", b"4", b"\xe3"
LEAD, BEAST_LEAD = {b"": 0, b"*": 0, b":": 0, b"@": 12, b"%": 12, b"<": 14}, 7  # digits or bytes before a frame
MODE_AC, SHORT, LONG = 2, 7, 14  # bytes of a frame
SIZES = {b"1": MODE_AC, b"2": SHORT, b"3": LONG}
MULTILATERATED = 0xFF004D4C4154

SYMBOL = re.compile(rb"\x1a(.)|[^\x1a]", re.S)
EDGE = re.compile(rb"[*:@%<;\r\n\xef\xbb\xbf]")
HEXADECIMAL = re.compile(rb"[0-9A-Fa-f]*")
SECONDS = re.compile(rb"([0-9]{1,12})(?:\.([0-9]*))?")
LOGGED = re.compile(rb"([0-9]{1,20}) (?:\*([^;]*);|([^*;]*))", re.S)
SBS = (b"MSG,", b"SEL,", b"ID,", b"AIR,", b"STA,", b"CLK,")
PACKED = (b"\x1f\x8b\x08", b"BZh", b"\xfd7zXZ", b"\x28\xb5\x2f\xfd", b"PK\x03\x04")
MARK = b"\xef\xbb\xbf"


class Item(NamedTuple):
    """A frame, or what is counted in its place."""

    end: int  # bytes of the source that show it; one more than there are if its end shows it
    fate: str  # "frame", or the name of a count
    frame: bytes = b""
    ticks: Optional[int] = None  # of its clock
    millis: Optional[int] = None  # its own time


# ---- Beast


def beast(data: bytes, is_lost: bool = False) -> Iterator[Item]:
    """Yields the items of Beast. An escape and another byte start something, and two escapes are a byte."""
    started: List[Tuple[bytes, int, List[Tuple[bytes, int]]]] = [(b"", 0, [])]
    for symbol in SYMBOL.finditer(data):
        if symbol[1] in (None, ESCAPE):
            started[-1][2].append((symbol[0][-1:], symbol.end()))
        else:
            started.append((symbol[1], symbol.end(), []))
    ends = [at for _, at, _ in started[1:]] + [len(data) + 1]
    for (kind, _, symbols), next_start in zip(started, ends):
        whole = BEAST_LEAD + SIZES[kind] if kind in SIZES else 0
        body = b"".join(byte for byte, _ in symbols[:whole])
        if kind == RECEIVER:
            yield Item(next_start, "receiver_ids")
        elif len(body) < whole or kind not in (b"", STATUS, *SIZES):
            yield Item(next_start, "damaged")
        elif kind != STATUS:
            if whole:
                yield Item(symbols[whole - 1][1], "frame", body[BEAST_LEAD:], int.from_bytes(body[:6], "big"))
            if len(symbols) > whole:
                yield Item(symbols[whole][1], "damaged")


# ---- AVR text


def word_item(end: int, mark: bytes, word: bytes) -> Item:
    """Returns the item of a word behind a mark, or of a word that is a line."""
    lead = LEAD[mark]
    size, odd = divmod(len(word) - lead, 2)
    if odd or size not in SIZES.values() or not HEXADECIMAL.fullmatch(word):
        return Item(end, "damaged")
    return Item(end, "frame", bytes.fromhex(word[lead:].decode()), int(word[:12], 16) if lead else None)


def avr(data: bytes, is_lost: bool = False) -> Iterator[Item]:
    """Yields the items of AVR text. A mark, a semicolon and the end of a line end a word, and so does the source."""
    mark, start = b"", 0
    for edge in (*EDGE.finditer(data), None):
        word, by = (data[start : edge.start()], edge[0]) if edge else (data[start:], b"*" if is_lost else b"\n")
        end = edge.end() if edge else len(data) + 1
        if mark and by == b";" or not mark and word and by != b";" and by not in LEAD:
            yield word_item(end, mark, word)
        elif mark or word or by == b";":
            yield Item(end, "damaged")
        mark, start = by if by in LEAD else b"", end


# ---- rows


def cells_of(row: bytes) -> List[bytes]:
    """Returns the cells of a row. A cell that begins with a quote goes on behind a comma while a quote is open."""
    cells: List[bytes] = []
    for part in row.split(b","):
        if cells and cells[-1].startswith(b'"') and cells[-1].count(b'"') % 2:
            cells[-1] += b"," + part
        else:
            cells.append(part)
    return cells


def content(cell: bytes) -> bytes:
    """Returns a cell without spaces around it, and then without quotes around it."""
    cell = cell.strip(b" \t\r\n\f")
    return cell[1:-1] if len(cell) > 1 and cell[:1] == cell[-1:] == b'"' else cell


def frame_of(word: bytes) -> Optional[bytes]:
    found = word_item(0, b"", word)
    return found.frame if found.fate == "frame" else None


def has_mode_s(word: bytes) -> bool:
    return len(frame_of(word) or b"") > MODE_AC


def names_of(row: bytes) -> List[bytes]:
    return [content(cell).lower() for cell in cells_of(row)]


def time_name(names: List[bytes]) -> Optional[bytes]:
    return next((name for name in (b"time", b"mintime", b"timestamp") if name in names), None)


def logged(row: bytes) -> Optional[Tuple[int, bytes]]:
    """Returns the timestamp and the frame of a line of a log, if it is one."""
    found = LOGGED.fullmatch(row)
    frame = found and frame_of(found[3] if found[2] is None else found[2])
    return (int(found[1]), frame) if found and frame and int(found[1]) < 1 << 64 else None


def tabled(row: bytes, columns: Tuple[int, int]) -> Optional[Tuple[int, bytes]]:
    """Returns the timestamp and the frame of a row of a table, if it has both in these columns."""
    cells = [content(cell) for cell in cells_of(row)]
    if len(cells) <= max(columns):
        return None
    seconds, frame = SECONDS.fullmatch(cells[columns[0]]), frame_of(cells[columns[1]])
    if not seconds or not frame:
        return None
    return int(seconds[1]) * 1000 + int(((seconds[2] or b"") + b"000")[:3]), frame


def columns_of(row: bytes) -> Optional[Tuple[int, int]]:
    names = names_of(row)
    time = time_name(names)
    return (names.index(time), names.index(b"rawmsg")) if time and b"rawmsg" in names else None


def without_mark(line: bytes) -> bytes:
    """Returns a line without a byte order mark at its start."""
    return line[len(MARK) :] if line.startswith(MARK) else line


def row_of(line: bytes) -> bytes:
    """Returns a line without a byte order mark at its start, and without a carriage return at its end."""
    return without_mark(line[:-1] if line.endswith(b"\r") else line)


FIRST_COLUMNS = (0, 2)  # of the time and the frame, before a row of names


def rows(form: str, data: bytes, is_lost: bool) -> Iterator[Item]:
    """Yields the items of a table or of a log: one a line, but for empty ones and names of columns."""
    columns, end = FIRST_COLUMNS, 0
    lines = data.split(b"\n")
    for number, line in enumerate(lines, 1):
        end += len(line) + 1
        row = row_of(line) if len(line) <= LONGEST else b"too long"
        found = logged(row) if form == "log" else tabled(row, columns)
        if number == len(lines) and is_lost:
            if line:
                yield Item(end, "damaged")
        elif found:
            yield Item(end, "frame", found[1], millis=found[0])
        elif form == "csv" and columns_of(row):
            columns = columns_of(row) or columns
        elif row:
            yield Item(end, "damaged")


def items(form: str, data: bytes, is_lost: bool = False) -> Iterator[Item]:
    """Yields the items of a source of a format. A connection that is lost reads no last line."""
    if form in ("csv", "log"):
        return rows(form, data, is_lost)
    return beast(data) if form == "beast" else avr(data, is_lost)


# ---- what the first bytes show


def is_row_of(separator: bytes, row: bytes, first: int = 0) -> bool:
    """A row has this separator, and from this column on a cell with a frame or with the name of its column."""
    cells = [content(cell) for cell in row.split(separator)]
    return len(cells) > 1 and any(cell.lower() == b"rawmsg" or has_mode_s(cell) for cell in cells[first:])


def is_framed(line: bytes) -> bool:
    """A line has a frame, read as AVR text. That would read the last column of a table with semicolons."""
    return not is_row_of(b";", line, 1) and any(len(item.frame) > MODE_AC for item in avr(line))


def unread(row: bytes) -> str:
    """Returns why a table with this row is not read, if that is known."""
    if len(row) > LONGEST:
        return ""
    names, cells = names_of(row), [content(cell) for cell in cells_of(row)]
    for stranger, shows in (
        ("semicolons", is_row_of(b";", row)),
        ("tabs", is_row_of(b"\t", row)),
        ("no_time", b"rawmsg" in names and not time_name(names)),
        ("no_rawmsg", time_name(names) and b"icao24" in names and b"rawmsg" not in names),
        ("no_seconds", len(cells) > 2 and has_mode_s(cells[2])),
        ("no_names", is_row_of(b",", row)),
    ):
        if shows:
            return stranger
    return ""


def line_sign(line: bytes, is_second: bool) -> str:
    """Returns what a line shows: a format, another kind of source, or nothing. Two lines with frames show AVR text."""
    row, plain = row_of(line), without_mark(line)
    if len(line) <= LONGEST and logged(row):
        return "log"
    if len(line) <= LONGEST and (tabled(row, FIRST_COLUMNS) or columns_of(row)):
        return "csv"
    if is_framed(line) and (is_second or has_mode_s(row)):
        return "avr"
    return "sbs" if plain.startswith(SBS) else "json" if plain.startswith(b"{") else unread(plain)


def start_sign(start: bytes) -> str:
    """Returns what the last of these first bytes shows."""
    if len(start) == 2 and start[:1] == ESCAPE and start[1:] in (STATUS, RECEIVER, *SIZES):
        return "beast"
    if start in PACKED:
        return "packed"
    if len(start) == 4 and (start[:2] == b"\xff\xfe" and start[3:] == b"\0" or start[:3] == b"\xfe\xff\0"):
        return "utf16"
    return "tar" if len(start) == TAR_AT + 5 and start[TAR_AT:] == b"ustar" else ""


def messages_in_a_row(data: bytes) -> Iterator[Tuple[int, int]]:
    """Yields the bytes behind each item of Beast, and how many messages come in a row up to there."""
    count = 0
    for item in beast(data):
        count = count + 1 if item.fate == "frame" else count if item.fate == "receiver_ids" else 0
        yield item.end, count


def shown(data: bytes, is_ended: bool) -> Tuple[int, str]:
    """Returns the source that the first bytes show, and how many bytes show it. The name is empty if none do."""
    seen, start, other, framed = data[:LIMIT], 0, "", False
    two = min((end for end, count in messages_in_a_row(seen) if count > 1), default=LIMIT + 2)
    for at in range(1, len(seen) + 1):
        byte, line = seen[at - 1 : at], seen[start : at - 1]
        sign = line_sign(line, framed) if byte == b"\n" else "" if start else start_sign(seen[:at])
        if byte == b";":
            mark, word = without_mark(line)[:1], without_mark(line)[1:]
            sign = "avr" if mark and mark in LEAD and word_item(at, mark, word).fate == "frame" else ""
        if byte == b"\n":
            start, framed = at, framed or is_framed(line)
        if at == two or sign in FORMATS:
            return at, "beast" if at == two else sign
        other = other or sign
    sign = line_sign(seen[start:], True)
    if len(seen) < LIMIT and (not is_ended or not seen):
        return len(data) + 1, ""
    if sign not in FORMATS and len(seen) < LIMIT and [0, *(count for _, count in messages_in_a_row(seen))][-1]:
        sign = "beast"
    elif sign not in FORMATS and framed:
        sign = "avr"
    return min(LIMIT, len(data) + 1), sign if sign in FORMATS else other or sign or "no_frame"


# ---- timestamps

RATE, TURN = 12_000, 1 << 48  # ticks of a clock in a millisecond, and until it starts again
MOST = (1 << 64) - 1
TOLERANCE = 1000  # milliseconds by which any time may be late


class Waiting(NamedTuple):
    moment: int
    frame: bytes


class Times:
    """The timestamps of frames, by their own times, by a receiver's clock or by their arrival."""

    def __init__(self, leap: int, late: int, live: bool, by_arrival: bool) -> None:
        self.leap, self.late, self.live, self.by_arrival = leap, late, live, by_arrival
        self.latest = self.arrival = 0  # of the latest frame (ms)
        self.clock: Optional[Tuple[int, int]] = None  # the last value that is believed, and its count
        self.is_begun, self.first = False, []  # type: bool, List[Waiting]
        self.run: List[Waiting] = []  # frames that jump
        self.is_torn = False  # whether two of them do not follow each other
        self.shift = self.breaks = self.aside = 0

    def hear(self, item: Item, arrival: int) -> Iterator[Tuple[int, bytes]]:
        """Yields the timestamps and frames that are decided with this frame."""
        if item.millis is not None:
            return self._judged(Waiting(item.millis, item.frame), arrival, None)
        if not item.ticks or self.by_arrival:
            return iter([self._told(self._due(arrival), item.frame, arrival)])
        is_new, count = self.clock is None, self._count(item.ticks, arrival)
        one = Waiting(count // RATE, item.frame)
        if not is_new:
            return self._judged(one, arrival, (item.ticks, count))
        self.aside += len(self.first) + len(self.run)
        self.is_begun, self.first, self.run, self.shift = True, [], [], 0
        self.clock = item.ticks, count
        return self._believed([one], arrival)

    def end(self) -> Iterator[Tuple[int, bytes]]:
        """Yields the frames that wait, if they are believed without others."""
        run, self.run = self.run, []
        if len(run) == 1 and self._is_ahead(run[0]) or len(run) == 2 and not self.is_torn:
            return self._confirmed(run, self.arrival)
        self.aside += len(run)
        return self._believed([], self.arrival)

    def lost(self) -> Iterator[Tuple[int, bytes]]:
        told = list(self.end())
        self.clock = None
        return iter(told)

    # -- what times are

    def _own(self, one: Waiting) -> int:
        return min(one.moment + self.shift, MOST)

    def _base(self) -> int:
        return self._own(self.first[0]) if self.first else self.latest

    def _due(self, arrival: int) -> int:
        """Returns the timestamp of now: as much after the latest one as the arrivals of a live source are apart."""
        return min(self.latest + (max(arrival - self.arrival, 0) if self.live else 0), MOST)

    def _anew(self, arrival: int) -> int:
        """Returns the timestamp at which a clock goes on that starts again."""
        is_ahead = self.arrival + self.leap < self.latest
        return self._due(arrival) if self.live and not is_ahead else min(self.latest + self.leap + 1, MOST)

    def _count(self, ticks: int, arrival: int) -> int:
        """Returns the count of a clock's value: from the last one that is believed by the shorter way."""
        if self.clock is None:
            return min(self._anew(arrival) * RATE, MOST) if self.live or self.latest else ticks
        last, count = self.clock
        ahead = (ticks - last) % TURN
        return min(count + ahead, MOST) if ahead < TURN // 2 else max(count + ahead - TURN, 0)

    def _is_beyond_zero(self, ticks: int) -> bool:
        """A clock's value counts back beyond 0, by more than times may be late."""
        last, count = self.clock or (ticks, 0)
        back = TURN - (ticks - last) % TURN
        return count < back <= TURN // 2 and back // RATE > max(self.late, TOLERANCE)

    def _is_near(self, base: int, moment: int) -> bool:
        return base <= moment + max(self.late, TOLERANCE) and moment <= base + self.leap

    def _fits(self, one: Waiting, arrival: int) -> bool:
        own, due = self._own(one), self._due(arrival)
        is_awaited = self.live and not self.first and self.latest <= own and abs(own - due) <= self.leap
        return self._is_near(self._base(), own) or is_awaited

    def _is_ahead(self, one: Waiting) -> bool:
        return self._own(one) >= self._base()

    def _is_beside(self, one: Waiting, other: Waiting) -> bool:
        return self._is_near(self._own(one), self._own(other))

    def _follows(self, one: Waiting, other: Waiting) -> bool:
        """The other is near, or later in the same direction."""
        is_later = self._own(one) <= self._own(other)
        return self._is_beside(one, other) or is_later and self._is_ahead(one) == self._is_ahead(other)

    # -- which are believed

    def _judged(self, one: Waiting, arrival: int, clock: Optional[Tuple[int, int]]) -> Iterator[Tuple[int, bytes]]:
        if not self.is_begun:
            self.is_begun, self.first = True, [one]
            return iter(())
        if self._fits(one, arrival) and not (clock and self._is_beyond_zero(clock[0])):
            self.aside += len(self.run)
            self.run, self.clock = [], clock or self.clock
            return self._believed([one], arrival)
        if len(self.run) < 2:
            self._wait([*self.run, one])
            return iter(())
        a, b = self.run
        if self.is_torn or not self._follows(b, one):
            self.aside += 1
            goes_on = self._is_beside(a, one) or self._follows(a, one) and not self._follows(b, one)
            self._wait([a, one] if goes_on else [b, one])
            return iter(())
        if not self._is_beside(b, one):
            self._wait([one])
            return self._confirmed([a, b], arrival)
        self.run = []
        told = self._confirmed([a, b, one], arrival)
        self.clock = clock or self.clock
        return told

    def _wait(self, run: List[Waiting]) -> None:
        self.run, self.is_torn = run, len(run) == 2 and not self._follows(*run)

    def _confirmed(self, told: List[Waiting], arrival: int) -> Iterator[Tuple[int, bytes]]:
        """Frames that jump are believed. If they go back, a first one that waits was wrong, and they may start anew."""
        if not self._is_ahead(told[0]):
            self.aside += len(self.first)
            self.first = []
            if self._own(told[0]) < self.latest:
                anew = self._anew(arrival) if self.clock else min(self.latest + self.leap + 1, MOST)
                self.shift = min(self.shift + max(anew - self._own(told[0]), 0), MOST)
                self.breaks += 1
        return self._believed(told, arrival)

    def _believed(self, told: List[Waiting], arrival: int) -> Iterator[Tuple[int, bytes]]:
        told, self.first = self.first + told, []
        return iter([self._told(self._own(one), one.frame, arrival) for one in told])

    def _told(self, moment: int, frame: bytes, arrival: int) -> Tuple[int, bytes]:
        if moment >= self.latest:
            self.latest, self.arrival = moment, arrival
            return moment, frame
        return max(moment, self.latest - self.late), frame


# ---- a feed


class Order:
    """Sorts frames, and holds each until one has come that is `reorder` milliseconds later."""

    def __init__(self, reorder: int) -> None:
        self.reorder, self.held, self.latest, self.given, self.late = reorder, [], 0, 0, 0

    def put(self, one: Tuple[int, bytes]) -> List[Tuple[int, bytes]]:
        if one[0] < self.given:
            self.late += 1
            return []
        self.latest = max(self.latest, one[0])
        self.held = sorted([*self.held, one], key=lambda held: held[0])
        return self.flush(self.latest - self.reorder)

    def flush(self, until: int) -> List[Tuple[int, bytes]]:
        due = [one for one in self.held if one[0] <= until]
        self.held = self.held[len(due) :]
        self.given = due[-1][0] if due else self.given
        return due


def fate_of(item: Item, all_formats: bool) -> str:
    """Returns the count that an item belongs to, or an empty text for a frame that gets a timestamp."""
    number = item.frame[0] >> 3 if item.frame else 0
    if item.fate != "frame":
        return item.fate
    if len(item.frame) == MODE_AC:
        return "mode_ac"
    if (number < 16) != (len(item.frame) == SHORT):
        return "damaged"
    if item.ticks == MULTILATERATED:
        return "multilaterated"
    return "" if number == 17 or all_formats else f"DF{min(number, 24)}"


def line_of(told: Tuple[int, bytes]) -> str:
    return f"{told[0]} {told[1].hex().upper()}"


def take_of(call: Dict[str, Any]) -> bytes:
    """Returns the bytes of a call."""
    return bytes.fromhex(call.get("bytes", "")) * call.get("times", 1)


class Feed:
    """A feed of these settings, over sources."""

    def __init__(self, asked: Dict[str, Any]) -> None:
        self.asked = asked.get("format", "auto")
        self.all_formats = asked.get("all_formats", False)
        self.times = Times(int(asked.get("leap", 600_000)), int(asked.get("late", 0)), asked.get("live", False),
                           asked.get("by_arrival", False))
        self.order = Order(int(asked["reorder"])) if "reorder" in asked else None
        self.counts: Dict[str, int] = {}
        self.stranger = ""
        self.ready: List[Tuple[int, bytes]] = []
        self.lines: List[str] = []
        self.after: List[List[Any]] = []

    def count(self, name: str) -> None:
        self.counts[name] = self.counts.get(name, 0) + 1

    def hear(self, item: Item, arrival: int) -> None:
        fate = fate_of(item, self.all_formats)
        if fate:
            self.count(fate)
        else:
            self.tell(self.times.hear(item, arrival))

    def tell(self, told: Iterator[Tuple[int, bytes]]) -> None:
        """Takes frames that got their timestamps. The next call gives them."""
        before = len(self.ready)
        self.ready += told
        self.counts["written"] = self.counts.get("written", 0) + len(self.ready) - before

    def give(self, source: str, is_end: bool = False) -> None:
        """Ends a call: its lines are those of the frames that are ready."""
        told, self.ready = self.ready, []
        if self.order is not None:
            told = [due for one in told for due in self.order.put(one)]
            told += self.order.flush(MOST) if is_end else []
        self.lines += map(line_of, told)
        self.after.append([len(told), source or self.stranger or None])

    def source(self, calls: List[Dict[str, Any]]) -> None:
        """Hears a source: the calls that take its bytes, and one that ends it, unless it goes on."""
        data = b"".join(map(take_of, calls))
        last = calls[-1] if "bytes" not in calls[-1] else {}
        is_lost, is_ended = "lost" in last, "end" in last
        at, form = shown(data, is_ended) if self.asked == "auto" else (0, self.asked)
        found = list(items(form, data, is_lost)) if form in FORMATS else []
        if form and form not in FORMATS or is_lost and not form and data:
            found = [Item(at, "damaged")]
        taken = 0
        for call in calls:
            taken += len(take_of(call)) if "bytes" in call else 1
            while found and max(found[0].end, at) <= taken:
                self.hear(found.pop(0), int(call.get("end", call.get("arrival", 0))))
            if at <= taken and form and form not in FORMATS:
                self.stranger = form
            if "lost" in call:
                self.tell(self.times.lost())
                self.after.append([0, self.left()])
            elif "end" in call:
                self.tell(self.times.end())
                self.give(self.left() or "", is_end=True)
            else:
                self.give(form if at <= taken and form in FORMATS else "")

    def left(self) -> Optional[str]:
        """Returns the format between two sources: the one that was asked for."""
        return self.asked if self.asked != "auto" else self.stranger or None

    def all_counts(self) -> Dict[str, int]:
        """Returns the counts, but for those that are 0. `found` is the sum of the items."""
        counts = {**self.counts, "aside": self.times.aside}
        counts["found"] = sum(counts.values())
        counts["late"] = self.order.late if self.order else 0
        counts["breaks"] = self.times.breaks
        counts["ahead"] = int(self.times.live and self.times.arrival + self.times.leap < self.times.latest)
        return {name: counts[name] for name in sorted(counts) if counts[name]}


def answer(asked: Dict[str, Any]) -> Dict[str, Any]:
    """Returns the lines of a feed, its counts, and after each call how many lines it gave and what the source is."""
    feed, source = Feed(asked), []  # type: Feed, List[Dict[str, Any]]
    for call in asked["calls"]:
        source.append(call)
        if "bytes" not in call:
            feed.source(source)
            source = []
    if source:
        feed.source(source)
    return {"lines": feed.lines, "counts": feed.all_counts(), "after": feed.after}
