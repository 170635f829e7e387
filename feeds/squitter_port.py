"""The port of a receiver, as a source of squitter-feed."""
from __future__ import annotations

import os
import socket
import threading
import time
from typing import Optional, Union

from squitter_output import Asking, tell
from squitter_words import PIECE, reason

PAUSES = (1, 2, 4, 8, 16, 32, 60)  # seconds before the source is tried again
PATIENCE = 10  # seconds for a connection to be made
SILENCE = 10  # seconds without a byte after which a connection is reported as silent
KEEPALIVE = {"TCP_KEEPIDLE": 60, "TCP_KEEPINTVL": 15, "TCP_KEEPCNT": 4}  # a peer that is gone is noticed in two minutes


class NetworkSource:
    """A port of a receiver. It has no end: a connection that is lost comes back."""

    live = True

    def __init__(self, host: str, port: int, waiting: Asking) -> None:
        self.longest = PAUSES[-1]  # seconds before the source is tried again, at most
        self.place = (host, port)
        self.name = f"[{host}]:{port}" if ":" in host else f"{host}:{port}"
        self.waiting = waiting
        self.link: Optional[socket.socket] = None
        self.connections = self.losses = self.failures = 0
        self.again = 0.0
        self.dialling = False
        self.dialled: Union[socket.socket, Exception, None] = None
        self.answered, self.answering = os.pipe()
        self.silent_at: Optional[float] = None  # when silence is reported; never once a byte has come

    def read(self, seconds: Optional[float]) -> Optional[bytes]:
        """The next bytes; None where the time has passed, the run is ended or the connection lost."""
        if self.link is None:
            pause = self.again - time.monotonic()
            if self.dialling:
                if self.waiting.readable(self.answered, seconds):
                    self.connected()
            elif pause > 0:
                self.waiting.readable(None, pause if seconds is None else min(pause, seconds))
            else:
                self.dialling = True
                threading.Thread(target=self.dial, daemon=True).start()
            return None
        if not self.waiting.readable(self.link.fileno(), self.until_silence(seconds)):
            self.report_silence()
            return None
        self.silent_at = None
        data = b""
        try:
            data = self.link.recv(PIECE)
            why = f"{self.name} closed the connection"
        except OSError as fault:
            why = f"lost {self.name}: {reason(fault)}"
        if not data:
            self.losses += 1
            self.lost(why)
            return None
        self.failures = 0
        return data

    def until_silence(self, seconds: Optional[float]) -> Optional[float]:
        """Returns how long to wait: not beyond the time at which silence is reported."""
        if self.silent_at is None:
            return seconds
        left = max(0.0, self.silent_at - time.monotonic())
        return left if seconds is None else min(left, seconds)

    def report_silence(self) -> None:
        """Reports once that the first connection has sent nothing, if that is due."""
        if self.silent_at is not None and time.monotonic() >= self.silent_at:
            self.silent_at = None
            tell(f"{self.name} has sent nothing for {SILENCE} s: frames come from port 30005 or 30002 of a dump1090, "
                 "while it hears aircraft")

    def dial(self) -> None:
        """Connects, beside the run: looking a name up hears no signal."""
        try:
            self.dialled = socket.create_connection(self.place, PATIENCE)
        except (OSError, UnicodeError) as fault:
            self.dialled = fault
        os.write(self.answering, b"\n")

    def connected(self) -> None:
        os.read(self.answered, 1)
        self.dialling = False
        if not isinstance(self.dialled, socket.socket):
            self.lost(f"cannot connect to {self.name}: {reason(self.dialled or OSError())}")
            return
        self.link = self.dialled
        self.link.settimeout(None)
        self.link.setsockopt(socket.SOL_SOCKET, socket.SO_KEEPALIVE, 1)
        for name, value in KEEPALIVE.items():
            if hasattr(socket, name):
                self.link.setsockopt(socket.IPPROTO_TCP, getattr(socket, name), value)
        self.connections += 1
        if self.connections == 1:
            self.silent_at = time.monotonic() + SILENCE
        if self.connections > 1 or self.failures:
            tell(f"connected to {self.name}")

    def lost(self, why: str) -> None:
        if self.link:
            self.link.close()
            self.link = None
        pause = min(self.longest, PAUSES[min(self.failures, len(PAUSES) - 1)])
        self.failures += 1
        self.again = time.monotonic() + pause
        tell(f"{why}; again in {pause} s")
