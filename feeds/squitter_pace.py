"""The pace of a live view: a source as it is heard, or a file at its own speed or faster."""
from __future__ import annotations

import time
from collections import deque
from typing import Deque, Iterator, Optional

from squitter_feed import Feed
from squitter_listening import Listening
from squitter_source import FileSource, Source

READS = 16  # of a live source at once, so that a flood does not hold up the clients
BATCH = 500  # milliseconds of a file that are heard at once
SLICE = 0.1  # seconds that a file may be heard at once


def moment_of(line: bytes) -> int:
    return int(line.split()[0])


def ended(listening: Listening) -> bytes:
    """Returns the lines that are left if the source has ended. Raises `Refused` if it has no format that is read."""
    if not listening.is_over:
        return b""
    lines = listening.feed.end(listening.arrival.now())
    if listening.feed.refusal:
        raise listening.feed.refusal
    return lines


class Heard:
    """A port, a pipe or a device: its lines as they come. Its clock is that of the last line, and goes on after it."""

    def __init__(self, source: Source, feed: Feed) -> None:
        self.source = source
        self.listening = Listening(source, feed)
        self.last, self.came = 0, time.monotonic()

    def batches(self) -> Iterator[bytes]:
        """Yields the lines that have come. Waits for none."""
        for _ in range(READS):
            if self.listening.is_over:
                return
            lines = b"".join(bytes(some) for some in self.listening.lines(0)) + ended(self.listening)
            if not lines:
                return
            self.last, self.came = moment_of(lines[lines.rfind(b"\n", 0, -1) + 1:]), time.monotonic()
            yield lines

    def now(self) -> int:
        is_still = not self.last or self.listening.is_over
        return self.last if is_still else self.last + int(1000 * (time.monotonic() - self.came))

    def state(self) -> str:
        if self.listening.is_over:
            return "ended"
        return "connected" if isinstance(self.source, FileSource) or self.source.link else "not connected"


class Played:
    """A file: its lines at the times that they have, from the first on."""

    def __init__(self, source: FileSource, feed: Feed, speed: float) -> None:
        self.listening = Listening(source, feed)
        self.speed = speed
        self.held: Deque[bytes] = deque()
        self.first: Optional[int] = None
        self.begun = 0.0
        self.last = 0

    def fill(self) -> bool:
        """Reads on until there is a line. Returns whether there is one."""
        while not self.held and not self.listening.is_over:
            for lines in self.listening.lines(0):
                self.held.extend(bytes(lines).splitlines(True))
            self.held.extend(ended(self.listening).splitlines(True))
        if self.held and self.first is None:
            self.first, self.begun = moment_of(self.held[0]), time.monotonic()
        return bool(self.held)

    def batches(self) -> Iterator[bytes]:
        """Yields the lines that are due, those of half a second at once."""
        start = time.monotonic()
        while self.fill() and self.first is not None:
            due = self.first + int((time.monotonic() - self.begun) * 1000 * self.speed)
            begin = moment_of(self.held[0])
            if begin > due or time.monotonic() - start > SLICE:
                self.last = min(begin, due)
                return
            self.last, batch = min(begin + BATCH, due), []
            while self.fill() and moment_of(self.held[0]) <= self.last:
                batch.append(self.held.popleft())
            if not self.held:
                self.last = moment_of(batch[-1])
            yield b"".join(batch)

    def now(self) -> int:
        """Returns the time of the file up to which it is heard."""
        return self.last

    def state(self) -> str:
        return "ended" if self.listening.is_over and not self.held else "playing"
