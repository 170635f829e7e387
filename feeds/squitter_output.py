"""How squitter-feed waits, writes whole lines, and reports."""
from __future__ import annotations

import errno
import fcntl
import os
import select
import signal
import stat
import sys
import termios
from io import FileIO
from typing import Callable, Dict, Optional, Tuple, Union

import squitter_words
from squitter_words import reason

# (Linux and Python 3.10 have these)
F_GETPIPE_SZ, F_SETPIPE_SZ = (getattr(fcntl, f"F_{verb}PIPE_SZ", 0) for verb in ("GET", "SET"))
LARGEST = 1 << 20  # bytes of a pipe
RECORDED = 1 << 18  # bytes that are read and written at once where a file is read
NAP = 0.001  # seconds in which the reader of a pipe may make room
LONGEST = 86_400  # seconds of one wait, because poll takes less than 2^31 milliseconds


program = "squitter-feed"  # the name in front of reports; squitter-live sets its own


def tell(text: str) -> None:
    squitter_words.tell(program, text)


class Failure(Exception):
    """Reading or writing failed."""


class Signals:
    """SIGINT, SIGTERM and SIGHUP end the run between two pieces; a second one ends it at once. What the shell has it
    ignore, as of a command in the background, it ignores."""

    def __init__(self) -> None:
        self.ended = False
        self.at_once: Callable[[], None] = lambda: None  # what a second signal does before the end
        self.reader, writer = os.pipe()
        os.set_blocking(writer, False)
        signal.set_wakeup_fd(writer)
        for number in (signal.SIGINT, signal.SIGTERM, signal.SIGHUP):
            if signal.getsignal(number) != signal.SIG_IGN:
                signal.signal(number, self.heard)

    def heard(self, number: int, _frame: object) -> None:
        if self.ended:
            self.at_once()
            os._exit(128 + number)
        self.ended = True


def ready(polled: Dict[int, int], seconds: Optional[float]) -> Dict[int, int]:
    """Waits until one of these file descriptors is ready for its events, for a day at most; returns those that are."""
    poll = select.poll()
    for number, events in polled.items():
        poll.register(number, events)
    return dict(poll.poll(None if seconds is None else 1000 * min(max(0, seconds), LONGEST)))


class Sink:
    """A file descriptor that takes whole lines. It waits for room, but takes what it can at once when the run ends."""

    def __init__(self, number: int, signals: Signals) -> None:
        self.number = number
        self.signals = signals
        self.is_recorded = False  # whether a file is read, of which many lines come at once
        self.mode = os.fstat(number).st_mode
        self.is_pipe = stat.S_ISFIFO(self.mode) and F_SETPIPE_SZ != 0
        self.polled = select.poll()
        self.polled.register(number, select.POLLOUT)
        self.polled.register(signals.reader, select.POLLIN)
        self.left = 0  # lines that it did not take
        self.fault: Optional[OSError] = None

    def write(self, data: memoryview) -> None:
        """Writes lines, each with its line feed. Those that are not taken whole are counted."""
        at = 0
        try:
            while at < len(data) and self.fault is None and self._has_room():
                some = data[at : at + self._most(len(data) - at)]
                if at + len(some) < len(data):
                    some = some[: bytes(some).rfind(b"\n") + 1 or len(some)]
                at += self._put(some)
        except OSError as fault:
            self.fault = fault
        self.left += bytes(data[at:]).count(b"\n")

    def record(self) -> None:
        """Takes many lines at once from now on, because a file is read. A pipe gets as much room as it may have."""
        self.is_recorded = True
        if self.is_pipe:
            try:
                fcntl.fcntl(self.number, F_SETPIPE_SZ, LARGEST)
            except OSError:
                pass  # (the user's pipes are large enough, or it holds more than that)

    def _most(self, wanted: int) -> int:
        """Returns how many bytes fit where there is room at all, so that no line is torn. While a pipe's reader makes
        room, waits for that of as many as are wanted: a reader that wakes for each page takes twice as long."""
        if self.is_recorded and stat.S_ISREG(self.mode):
            return RECORDED
        if not self.is_recorded or not self.is_pipe or not os.get_blocking(self.number):
            return select.PIPE_BUF
        size = fcntl.fcntl(self.number, F_GETPIPE_SZ)
        room = self._room(size)
        before = room - 1
        while before < room < min(wanted, size // 4) and not self.signals.ended:
            ready({self.signals.reader: select.POLLIN}, NAP)
            room, before = self._room(size), room
        return max(select.PIPE_BUF, room)

    def _room(self, size: int) -> int:
        """Returns how many bytes fit a pipe. A page of it may be half empty, so what it holds counts twice."""
        held = int.from_bytes(fcntl.ioctl(self.number, termios.FIONREAD, bytes(4)), sys.byteorder)
        return size - 2 * held - 2 * select.PIPE_BUF

    def _put(self, data: memoryview) -> int:
        try:
            return os.write(self.number, data)
        except BlockingIOError:
            return 0

    def _has_room(self) -> bool:
        """Waits for room. Returns whether there is any: without, the run has been ended."""
        while True:
            ready = self.polled.poll(0 if self.signals.ended else None)
            if any(number == self.number for number, _ in ready):
                return True
            if self.signals.ended:
                return False


def is_pipe(path: str) -> bool:
    return os.path.exists(path) and stat.S_ISFIFO(os.stat(path).st_mode)


def opened_to_save(path: str) -> FileIO:
    """Opens a file to append lines. A named pipe is opened for writing alone, so that the end of its reader is noticed.
    Raises OSError if a pipe has no reader, because a signal could not end the wait for one."""
    if is_pipe(path):
        return FileIO(os.open(path, os.O_WRONLY | os.O_NONBLOCK), "wb")
    return FileIO(path, "a+b")


def is_same_file(one: int, other: int) -> bool:
    """Returns whether two file descriptors are of one regular file."""
    status = os.fstat(one)
    return stat.S_ISREG(status.st_mode) and os.path.samestat(status, os.fstat(other))


class Output:
    """Standard output, and the file that is saved."""

    def __init__(self, signals: Signals) -> None:
        if sys.stdout is None:
            raise Failure("cannot write: standard output is closed")
        self.number = sys.stdout.fileno()
        self.signals = signals
        self.printed = Sink(self.number, signals)
        self.closed = False
        self.path = ""
        self.saved: Optional[Sink] = None

    def open(self, save: Optional[str], source: Optional[int], is_recorded: bool) -> None:
        """Opens the file that is saved, and ends a line that an earlier run left half written there.

        Raises `Failure` if that fails, or if lines would go to the source: the run would read its own lines without
        end."""
        self.look_apart("standard output", self.number, source)
        if is_recorded:
            self.printed.record()
        if save is None:
            return
        self.path = save
        try:
            file = opened_to_save(save)
        except OSError as fault:
            hint = "; nobody reads this pipe" if fault.errno == errno.ENXIO and is_pipe(save) else ""
            raise Failure(f"cannot write {save}: {reason(fault)}{hint}") from None
        self.look_apart(save, file.fileno(), source)
        self.file = file  # it is closed with the last reference to it
        self.saved = Sink(file.fileno(), self.signals)
        if is_recorded:
            self.saved.record()
        self.end_line()

    def end_line(self) -> None:
        try:
            if self.file.seekable() and self.file.seek(0, os.SEEK_END):
                self.file.seek(-1, os.SEEK_END)
                if self.file.read(1) != b"\n":
                    self.file.write(b"\n")
        except OSError as fault:
            raise Failure(f"cannot write {self.path}: {reason(fault)}") from None

    @staticmethod
    def look_apart(name: str, number: int, source: Optional[int]) -> None:
        if source is not None and is_same_file(source, number):
            raise Failure(f"cannot write {name}: it is the source")

    def write(self, lines: Union[bytes, memoryview]) -> None:
        """Prints and saves lines. Raises `Failure` once both were tried, where one of them failed."""
        if not lines:
            return
        data = memoryview(lines)
        if self.saved is not None:
            self.saved.write(data)
        self.printed.write(data)
        self.closed = self.closed or isinstance(self.printed.fault, BrokenPipeError)
        if self.saved is not None and self.saved.fault:
            raise Failure(f"cannot write {self.path}: {reason(self.saved.fault)}")
        if self.printed.fault and not self.closed:
            raise Failure(f"cannot write: {reason(self.printed.fault)}")

    def left(self) -> Tuple[int, int]:
        """Returns how many lines were not written, and how many were not saved."""
        return self.printed.left, self.saved.left if self.saved else 0


class Asking:
    """Asks whether bytes have come, without waiting for them."""

    def readable(self, source: Optional[int], _seconds: Optional[float]) -> bool:
        return source is not None and source in ready({source: select.POLLIN}, 0)


class Waiting(Asking):
    """Waits for bytes, for a signal, and for the output's reader to go away."""

    def __init__(self, signals: Signals, output: Output) -> None:
        self.signals = signals
        self.output = output

    def readable(self, source: Optional[int], seconds: Optional[float]) -> bool:
        polled = {self.signals.reader: select.POLLIN, self.output.number: 0}
        if source is not None:
            polled[source] = select.POLLIN
        found = ready(polled, seconds)
        if found.get(self.output.number, 0) & (select.POLLERR | select.POLLHUP):
            self.output.closed = True
        return source in found
