"""The table of a live view in a terminal, and its lines where there is no terminal."""
from __future__ import annotations

import math
import os
import selectors
import signal
import termios
from typing import Any, Callable, Dict, List, Optional, Tuple

from squitter_sky import DOUBTS, Plane, Sky, age

TITLE = "ICAO   Callsign   Altitude  Speed  Track     Latitude    Longitude   Age"
MILES = "    NM"  # behind it, if the place of the receiver is known
MODES = 3  # where termios has the modes of lines and echo
ORDER, QUIT = b"oq"
Place = Tuple[float, float]


def miles_between(one: Place, other: Place) -> float:
    """Returns the nautical miles between two places in degrees, on a sphere with 60 for a degree."""
    (lat, lon), (to_lat, to_lon) = (map(math.radians, place) for place in (one, other))
    half = (math.sin((to_lat - lat) / 2) ** 2
            + math.cos(lat) * math.cos(to_lat) * math.sin((to_lon - lon) / 2) ** 2)
    return 60 * math.degrees(2 * math.asin(math.sqrt(min(1.0, half))))


def height(plane: Plane) -> int:
    """Returns the feet of an aircraft; on the ground, or without an altitude, it is below all others."""
    return plane.feet if isinstance(plane.feet, int) else -10_000


def orders(here: Optional[Place]) -> Dict[str, Callable[[Plane], Any]]:
    """Returns the orders of the table, by what each puts first. Aircraft that are alike in it go by their addresses."""
    nearest = {"nearest": lambda plane: miles_between(here, plane.place)} if here else {}
    return {**nearest, "address": lambda plane: 0, "highest": lambda plane: -height(plane),
            "latest": lambda plane: -plane.fix.moment}


def line_of(plane: Plane, now: int, here: Optional[Place]) -> str:
    """Returns the line of an aircraft that has a place. The reason why its place cannot be true is behind it."""
    extras = plane.extras
    miles = f" {miles_between(here, plane.place):5.0f}" if here else ""
    speed, track = (f"{extras[name]:.0f}" if name in extras else "" for name in ("gs", "track"))
    feet = "" if plane.feet is None else str(plane.feet)
    assert plane.fix is not None
    why = "".join(f"  {text}" for doubt, text in DOUBTS.items() if doubt in plane.doubts)
    return (f"{plane.address} {extras.get('flight', ''):8} {feet:>10} {speed:>6} {track:>6} {plane.place[0]:12.7f} "
            f"{plane.place[1]:12.7f} {age(now, plane.fix.moment):5.1f}{miles}{why}")


class Table:
    """Draws the table in place. A terminal that is stopped (Ctrl-S) does not hold up the run. The key o takes the next
    order, and q ends the run."""

    def __init__(self, sky: Sky, number: int, selector: selectors.BaseSelector) -> None:
        self.sky, self.selector = sky, selector
        self.is_terminal = os.isatty(number)
        self.number = number
        self.modes: Optional[List[Any]] = None  # those of the terminal before this run, if it hears keys
        if self.is_terminal:
            # (a description of its own, because others who have this one may want to be held up)
            self.number = os.open(os.ttyname(number), os.O_RDWR | os.O_NONBLOCK | os.O_NOCTTY)
            signal.signal(signal.SIGTTIN, signal.SIG_IGN)  # in the background, a key is no reason to stop
            signal.signal(signal.SIGCONT, lambda *_: self.listen())
            self.listen()
        self.orders = list(orders(sky.here).items())
        self.since = 0  # the timestamp of the last place that was printed (ms)
        self.is_over = False  # whether nobody reads the table, or somebody has ended it

    def is_in_front(self) -> bool:
        """Returns whether the keys of the terminal are for this run, which may be in the background."""
        try:
            return os.tcgetpgrp(self.number) == os.getpgrp()
        except OSError:
            return False  # (it is gone, or it is another one than that of this session)

    def listen(self) -> None:
        """Has the terminal give each key at once, and not show it, if this run is in its foreground."""
        if not self.is_in_front():
            return
        modes = termios.tcgetattr(self.number)
        self.modes = self.modes or list(modes)
        modes[MODES] &= ~(termios.ICANON | termios.ECHO)
        termios.tcsetattr(self.number, termios.TCSANOW, modes)
        if self.number not in self.selector.get_map():
            self.selector.register(self.number, selectors.EVENT_READ, self.press)

    def press(self, _events: int) -> None:
        """Takes the keys that were pressed. In the background there are none, until the run is in front again."""
        try:
            keys = os.read(self.number, 100)
        except BlockingIOError:
            return
        except OSError:
            keys = b""
        if not keys:
            self.selector.unregister(self.number)
        for key in keys:
            self.is_over = self.is_over or key == QUIT
            if key == ORDER:
                self.orders.append(self.orders.pop(0))

    def draw(self, now: int, state: str) -> None:
        """Draws the table, or prints the lines of new places."""
        key = self.orders[0][1]
        planes = sorted(self.sky.shown(now), key=lambda plane: (key(plane), plane.address))
        try:
            text = self.page(planes, now, state) if self.is_terminal else self.new_lines(planes, now)
            os.write(self.number, text.encode())
        except BlockingIOError:
            pass
        except OSError:
            self.is_over = True

    def new_lines(self, planes: List[Plane], now: int) -> str:
        """Returns the lines of new places."""
        new = [plane for plane in planes if plane.fix and plane.fix.moment > self.since]
        self.since = max((plane.fix.moment for plane in new if plane.fix), default=self.since)
        return "".join(f"{line_of(plane, now, self.sky.here)}\n" for plane in new)

    def page(self, planes: List[Plane], now: int, state: str) -> str:
        """Returns what draws the table on a screen: as many lines as fit, between a title and a foot. Raises OSError if
        the terminal is gone."""
        wide, high = os.get_terminal_size(self.number)
        title = TITLE + MILES * (self.sky.here is not None)
        shown = [line_of(plane, now, self.sky.here) for plane in planes[: max(0, high - 2)]]
        foot = f"{len(planes)} aircraft, {state}" + f", {len(shown)} shown" * (len(shown) < len(planes))
        foot += f"; {self.orders[0][0]} first (o: order, q: quit)" * (self.modes is not None)
        return "\x1b[H" + "".join(f"{line[:wide]}\x1b[K\r\n" for line in [title, *shown]) + f"{foot[:wide]}\x1b[J"

    def end(self) -> None:
        """Ends the line of the foot, and gives the terminal its modes back."""
        if not self.is_terminal:
            return
        try:
            if self.modes and self.is_in_front():
                termios.tcsetattr(self.number, termios.TCSANOW, self.modes)
            os.write(self.number, b"\r\n")
        except (OSError, termios.error):
            pass  # (it is stopped or gone)
