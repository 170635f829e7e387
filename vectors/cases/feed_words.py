"""The words of the cases of feeds: frames, messages and rows as receivers write them, and cases with their answers.

A case has its lines and counts by hand. The definitions (feeds.py) have to come to them."""
from __future__ import annotations

from typing import Any, Dict, List, Optional, Sequence, Tuple, Union

from cases import feeds
from cases.case import Collection

# Frames by a letter: an even and an odd position, a velocity, a reply of DF11 and of DF20, one of Mode A/C, and a
# squitter with escapes.
NAMED = {
    "E": "8D40621D58C382D690C8AC2863A7",
    "O": "8D40621D58C386435CC412692AD6",
    "V": "8D485020994409940838175B284F",
    "S": "5D4840D6F83D31",
    "L": "A0001838CA380031440000F24177",
    "M": "2040",
    "X": "8D1A1A1A1A1A33321A1A1A1A1A31",
}
E, O, V, S, L, M, X = NAMED.values()
LOST = {"lost": True}
OPEN: Dict[str, Any] = {}  # the last call: the source goes on
RATE = 12_000  # ticks of a receiver's clock in a millisecond
Call = Union[bytes, Tuple[bytes, int], Dict[str, Any]]


class Wrong(Exception):
    """The definitions do not come to the answer of a case."""


def end(arrival: int) -> Dict[str, Any]:
    """Returns the call that ends a source."""
    return {"end": arrival}


def doubled(data: bytes) -> bytes:
    return data.replace(b"\x1a", b"\x1a\x1a")


def message(frame: str, ticks: int, signal: int = 0x80) -> bytes:
    """Returns a message of Beast: an escape, the kind, six bytes of clock, one of signal, and the frame."""
    kind = {4: b"1", 14: b"2", 28: b"3"}[len(frame)]
    return b"\x1a" + kind + doubled(ticks.to_bytes(6, "big") + bytes([signal]) + bytes.fromhex(frame))


def clocked(frame: str, ticks: int) -> bytes:
    """Returns a frame of AVR text with its clock."""
    return b"@%012X%s;\n" % (ticks, frame.encode())


def clocks(*moments: int) -> bytes:
    """Returns even frames of AVR text with these times (ms) on the clock."""
    return b"".join(clocked(E, RATE * moment) for moment in moments)


def log(*moments: int) -> bytes:
    """Returns lines of a log with these timestamps."""
    return b"".join(b"%d %s\n" % (moment, E.encode()) for moment in moments)


def row(seconds: str, frame: str = E) -> bytes:
    """Returns a row of a table without names."""
    return f"{seconds},40621d,{frame.lower()}\n".encode()


def spelled(line: str) -> str:
    """Returns a line with the digits of the frame that a letter names."""
    moment, frame = line.split(" ")
    return f"{moment} {NAMED.get(frame, frame)}"


def times(moments: Sequence[int], frame: str = "E") -> List[str]:
    """Returns the lines of a frame with these timestamps."""
    return [f"{moment} {frame}" for moment in moments]


def exact(number: int) -> Union[int, str]:
    """Returns a number as a case has it: as a text from 2^53 on, where some readers of JSON round."""
    return number if number < 1 << 53 else str(number)


def call_of(call: Call) -> Dict[str, Any]:
    """Returns a call as a case has it. Bytes that are repeated are there once, with their number."""
    if isinstance(call, dict):
        return {name: value if value is True else exact(value) for name, value in call.items()}
    data, arrival = call if isinstance(call, tuple) else (call, 0)
    first = data[:1] if len(data) > 1 and data == data[:1] * len(data) else data
    repeated = {"times": len(data)} if len(first) < len(data) else {}
    return {"bytes": first.hex(), **repeated, **({"arrival": exact(arrival)} if arrival else {})}


class Cases:
    """The cases of feeds. All cases of a group have its flags."""

    def __init__(self, collection: Collection) -> None:
        self.collection = collection

    def add(self, group: str, flags: str, source: Union[bytes, Sequence[Call]], lines: Sequence[str],
            counts: Optional[Dict[str, int]] = None, gives: Optional[Sequence[int]] = None,
            shows: Union[None, str, Sequence[Optional[str]]] = None, note: str = "", **settings: Any) -> None:
        """Adds a case: the calls, which end with the end of the source, and by hand the lines and the counts. `gives`
        has the number of lines that each call gives, and `shows` what the source is after each call, or at last."""
        calls = [source] if isinstance(source, bytes) else list(source)
        if calls[-1:] == [OPEN]:
            calls.pop()
        elif not calls or not isinstance(calls[-1], dict):
            calls.append(end(0))
        numbers = {name: exact(value) for name, value in settings.items() if type(value) is int}
        asked = {**settings, **numbers, "calls": [call_of(call) for call in calls]}
        wanted = {"written": len(lines), **(counts or {})}
        wanted["written"] += wanted.get("late", 0)
        wanted["found"] = sum(value for name, value in wanted.items() if name not in ("late", "breaks", "ahead"))
        found = feeds.answer(asked)
        after = found["after"]
        right = {
            "lines": [spelled(line) for line in lines],
            "counts": {name: wanted[name] for name in sorted(wanted) if wanted[name]},
            "after": [[after[at][0] if gives is None else gives[at], source]
                      for at, source in enumerate(self.shown(shows, after))],
        }
        if found != right:
            raise Wrong(f"{group}: {note or calls}: by hand {right}, the definitions come to {found}")
        self.collection.add(group, flags.split(), asked, note=note)

    @staticmethod
    def shown(shows: Union[None, str, Sequence[Optional[str]]], after: List[List[Any]]) -> List[Optional[str]]:
        """Returns what the source is after each call: by hand as far as it is given."""
        found = [source for _, source in after]
        if isinstance(shows, str):
            return [*found[:-1], shows]
        return found if shows is None else list(shows)

    def define(self, group: str, flags: str, asked: Dict[str, Any], note: str = "") -> None:
        """Adds a case with the answer of the definitions alone."""
        self.collection.add(group, flags.split(), asked, note=note)
