"""The feed of squitter-feed: the bytes of a source in, the lines of the log out, over libsquitter.

`squitter.Feed` finds the frames in the bytes and gives them timestamps (ms), and `squitter.Order` sorts them. `Feed`
joins the two, and counts for the summary."""
from __future__ import annotations

import re
from collections import Counter
from typing import Callable, Dict, Optional, Sequence, Union

import squitter
from squitter import FeedFormat, Stranger
from squitter._made import STRANGERS, UNITS
from squitter_sample import Sample
from squitter_unpack import Refused
from squitter_words import PLENTY

FEW, MANY = 4, 20  # so few frames set aside, or one for so many written, show no second clock in a source
FRAME = 14  # bytes of a long frame, and digits of a short one
Piece = Union[bytes, memoryview]
REFUSALS = {**STRANGERS, Stranger.PACKED: "the input is compressed twice: unpack it once, and read the result"}
# What to do if all items are damaged, if many times were set aside, if a live source is ahead of its arrivals, and if
# times went back, in the words of `squitter feed`.
ALL_DAMAGED = ": try another --format, or none; the times of a table are seconds"
CLOCKS = "; try --arrival: the source seems to have several clocks"
AHEAD = "the clock runs ahead of the arrivals: try --arrival, or read a recording from its file"
BACK = "; timestamps behind a jump back are moved on: try --leap and --reorder to sort them"


class Feed:
    """Bytes of a source in, lines of the log out. A source is live if its bytes come as they are heard. The options are
    those of the command line. With a `room`, lines are written there if they fit."""

    def __init__(self, live: bool, tell: Callable[[str], None], reorder: int = 0, leap: int = 600_000,
                 by_arrival: bool = False, all_formats: bool = False, form: FeedFormat = FeedFormat.AUTO,
                 room: Optional[bytearray] = None) -> None:
        self.live, self.tell, self.reorder, self.all_formats, self.room = live, tell, reorder, all_formats, room
        self.feed = squitter.Feed(form, leap, live, late=reorder, all_formats=all_formats, by_arrival=by_arrival)
        self.order = squitter.Order(reorder) if reorder else None
        self.arrival = 0  # of the last piece (ms)
        self.came = 0  # the arrival (ms) of the last frame
        self.others: Dict[int, int] = Counter()  # printed frames of other downlink formats
        self.refusal: Optional[Refused] = None  # why the source was refused at its end
        self.is_damaged = False  # whether all items of a source that ended are damaged
        self.sample: Optional[Sample] = Sample()  # of the first printed lines, until their unit is known
        self.clocked = False  # whether a source had a receiver's clock
        self.was_ahead = False  # whether it was told that the clock runs ahead of the arrivals

    def hear(self, data: Piece, arrival: int) -> Piece:
        """Returns the lines of a piece of the source. They may be in the room, which the lines of the next piece are
        written to. Raises `Refused` if the source has no format that is read."""
        self.arrival = arrival
        if self.order is not None:
            lines: Piece = self._sorted(*self.feed.take(data, arrival), arrival)
        else:
            lines = self._counted(self.feed.take_text(data, arrival) if self.room is None else
                                  self.feed.take_text_into(data, self.room, arrival))
        self.clocked = self.clocked or self.feed.format in (FeedFormat.BEAST, FeedFormat.AVR)
        if self.feed.stranger is not None:
            raise Refused(REFUSALS[self.feed.stranger])
        if self.sample and self.sample.is_full():
            self._look_at_unit(at_end=False)
        if self.live and self.clocked and not self.was_ahead and self.feed.counts.ahead:
            self.was_ahead = True
            self.tell(AHEAD)
        return lines

    def disconnected(self) -> None:
        """Drops a frame that a lost connection cut off, and counts it as damaged. The next piece belongs to another
        connection: its format is found anew, and its clock starts anew."""
        self.feed.disconnected()

    def end(self, now: int, is_left: bool = False) -> bytes:
        """Ends the source. Returns all lines that are left. `refusal` says if the source has no format that is read. A
        source that `is_left` has not ended: a frame that has not come whole is left out, and is not damaged."""
        # A last line without a line feed arrived with the last piece.
        if is_left:
            lines = b""
        elif self.order is None:
            lines = self._counted(self.feed.finish_text(self.arrival))
        else:
            lines = self._sorted(*self.feed.finish(self.arrival), now)
        if self.order is not None:
            lines += self._lines(*self.order.flush())
        stranger = self.feed.stranger
        if stranger is not None:
            self.refusal = Refused(REFUSALS[stranger])
        self.is_damaged = not is_left and 0 < self.feed.counts.found == self.feed.counts.damaged and stranger is None
        self._look_at_unit(at_end=not is_left)
        return lines

    def due(self, now: int) -> bytes:
        """Returns the lines of held frames if the source is live and no frame has come for `reorder` milliseconds."""
        return self._lines(*self.order.flush()) if self.order is not None and self.wait(now) == 0 else b""

    def wait(self, now: int) -> Optional[int]:
        """Returns the milliseconds until `due` returns lines if nothing comes, or `None` if it holds no frames."""
        if self.order is None or not self.live or not self.order.held:
            return None
        return max(0, self.came + self.reorder - now)

    def summary(self, unwritten: int = 0, unsaved: int = 0) -> str:
        """Returns a line on what was printed and what was left out. The output did not take `unwritten` of the lines,
        and the file did not take `unsaved`."""
        counts = self.feed.counts
        late = self.order.late if self.order is not None else 0
        formats = self.others if self.all_formats else dict(enumerate(counts.formats))
        others = ", ".join(f"DF{number} {count}" for number, count in sorted(formats.items()) if count)
        has_several = self.clocked and counts.aside > max(FEW, counts.written // MANY)
        hint = CLOCKS * has_several + f"; {AHEAD}" * (counts.ahead and not self.was_ahead) + BACK * bool(counts.breaks)
        if not hint and (late or counts.aside) and self.reorder < PLENTY:
            hint = f"; try --reorder={PLENTY}"
        parts = [
            (unwritten, "not written"), (unsaved, "not saved"),
            (sum(formats.values()), f"of other downlink formats ({others})" + " among them" * self.all_formats),
            (counts.mode_ac, "of Mode A/C"), (counts.multilaterated, "multilaterated"),
            (counts.receiver_ids, "receiver ids"), (counts.aside, "set aside"), (late, "late"),
            (counts.damaged, "damaged"), (counts.breaks, "jumps back"),
        ]
        counted = [f"{count} {what}" for count, what in parts if count]
        written = f"{counts.written - late - unwritten} written"
        return ", ".join([written, *counted]) + (ALL_DAMAGED if self.is_damaged else hint)

    def _sorted(self, moments: Sequence[int], frames: bytes, arrival: int) -> bytes:
        """Returns the lines of the frames that are due now that these have come."""
        assert self.order is not None
        self.came = arrival if moments else self.came
        return self._lines(*self.order.take(moments, frames))

    def _lines(self, moments: Sequence[int], frames: bytes) -> bytes:
        """Returns the lines of frames from the order."""
        words = frames.hex(" ", FRAME).upper().split()
        # Downlink formats below 16 have frames of seven bytes.
        lines = [f"{moment} {word if word[0] >= '8' else word[:FRAME]}\n" for moment, word in zip(moments, words)]
        return self._counted("".join(lines).encode())

    def _counted(self, lines: Piece) -> Piece:
        """Keeps the first squitters as a sample, and counts frames of other downlink formats."""
        if self.sample:
            self.sample.add(lines)
        if self.all_formats:
            for start, count in Counter(re.findall(rb" ([^8].|8[0-7])", lines)).items():
                self.others[min(int(start, 16) >> 3, 24)] += count
        return lines

    def _look_at_unit(self, at_end: bool) -> None:
        """Reports once if the timestamps of a source seem to have another unit. Those of a live source with a clock go
        on from the arrival of its first frame, so they do not show GPS time."""
        unit = self.sample.unit(self.clocked) if self.sample and not (self.live and self.clocked) else None
        is_part = unit == squitter.Unit.ALL_ZERO and not at_end  # it does not show that the rest has no times either
        self.sample = Sample() if is_part else None
        if unit in UNITS and not is_part:
            self.tell(UNITS[unit])
