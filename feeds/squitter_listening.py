"""A source and its feed: bytes are unpacked, told their arrival, and become lines."""
from __future__ import annotations

from typing import Iterator, Optional

from squitter_feed import Feed, Piece
from squitter_source import Arrival, Source
from squitter_unpack import Unpacking


class Listening:
    """The lines of a source, which may be an archive, and which may be lost and come back."""

    def __init__(self, source: Source, feed: Feed) -> None:
        self.source, self.feed = source, feed
        self.arrival = Arrival()
        self.unpacking = Unpacking()
        self.losses = 0
        self.is_over = False  # whether the source has ended

    def lines(self, seconds: Optional[float]) -> Iterator[Piece]:
        """Waits so many seconds for bytes. Yields the lines of them, and those of held frames that are due."""
        data = self.source.read(seconds)
        if self.source.losses > self.losses:
            self.losses = self.source.losses
            self.unpacking = Unpacking()
            self.feed.disconnected()
        self.is_over = data is not None and not len(data)
        arrival = self.arrival.now()
        for piece in self.unpacking.end() if self.is_over else self.unpacking.pieces(data) if data else ():
            yield self.feed.hear(piece, arrival)
        if not self.is_over:
            yield self.feed.due(self.arrival.now())
