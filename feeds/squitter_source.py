"""The sources of squitter-feed and squitter-live: a file, a pipe or a port, and the moments of arrival."""
from __future__ import annotations

import errno
import os
import re
import stat
import sys
import time
from typing import TYPE_CHECKING, Optional, Tuple, Union

from squitter_output import RECORDED, Asking, Failure
from squitter_words import PIECE, reason

if TYPE_CHECKING:  # pragma: no cover
    from squitter_port import NetworkSource

Source = Union["FileSource", "NetworkSource"]


class Arrival:
    """Moments of arrival in milliseconds: since 1970 at the start, and by a clock that never goes back after that."""

    def __init__(self) -> None:
        # (the one that goes on while the machine sleeps, where there is one)
        self.clock = getattr(time, "CLOCK_BOOTTIME", time.CLOCK_MONOTONIC)
        self.start = time.time_ns() - time.clock_gettime_ns(self.clock)

    def now(self) -> int:
        return (self.start + time.clock_gettime_ns(self.clock)) // 1_000_000


def hint_of_port(name: str) -> str:
    """Returns a hint about ports, for a source that is not a file."""
    found = re.fullmatch(r"(?:\[[^]/]+\]|[^/:]+):([0-9]+)", name)
    if found and not place_of(f"host:{found[1]}"):
        return "a port is from 1 to 65535"
    if re.fullmatch(r"[^/]*:[^/]*:[0-9]+", name):
        return "a port of an address with colons is given as [HOST]:PORT"
    return "a port is given as HOST:PORT"


class FileSource:
    """A file, a pipe or a device."""

    losses = 0

    def __init__(self, name: str, waiting: Asking) -> None:
        self.name = name
        self.waiting = waiting
        if name == "-" and sys.stdin is None:
            raise Failure("cannot read -: standard input is closed")
        try:
            # (a pipe that nobody writes to is open at once, and is waited for where a signal is heard)
            self.number = sys.stdin.fileno() if name == "-" else os.open(name, os.O_RDONLY | os.O_NONBLOCK)
        except FileNotFoundError as fault:
            raise Failure(f"cannot read {name}: {reason(fault)}; {hint_of_port(name)}") from None
        except OSError as fault:
            raise Failure(f"cannot read {name}: {reason(fault)}") from None
        mode = os.fstat(self.number).st_mode
        if stat.S_ISDIR(mode):
            raise Failure(f"cannot read {name}: {os.strerror(errno.EISDIR)}")
        self.live = not stat.S_ISREG(mode)
        self.room = memoryview(bytearray(RECORDED))

    def read(self, seconds: Optional[float]) -> Union[bytes, memoryview, None]:
        """The next bytes, none at the end; None where the time has passed, or the run is ended. Those of a regular file
        are in a buffer that the next call writes to."""
        if not self.waiting.readable(self.number, seconds):
            return None
        try:
            return os.read(self.number, PIECE) if self.live else self.room[: os.readv(self.number, [self.room])]
        except BlockingIOError:
            return None
        except OSError as fault:
            raise Failure(f"cannot read {self.name}: {reason(fault)}") from None


def place_of(source: str) -> Optional[Tuple[str, int]]:
    """HOST and PORT, where the source is one: [HOST]:PORT with an address that has colons itself. A host has neither
    spaces nor other brackets: it would be looked up for ever."""
    found = re.fullmatch(r"(?:\[([^][/\s]+)\]|([^][/:\s]+)):([0-9]{1,5})", source)
    return (found[1] or found[2], int(found[3])) if found and 0 < int(found[3]) < 65_536 else None


def source_of(name: str, waiting: Asking) -> Source:
    """Returns the source with this name: a port, or a file."""
    place = place_of(name)
    if place is None:
        return FileSource(name, waiting)
    from squitter_port import NetworkSource  # what it needs loads slowly

    return NetworkSource(*place, waiting)
