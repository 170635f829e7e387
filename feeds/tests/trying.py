"""What the tries of squitter-feed share: what is expected, and frames in each format, written here from its words."""
from __future__ import annotations

import inspect
import os
import time
from types import ModuleType
from typing import Callable, Iterator

AIR_EVEN = "8D40621D58C382D690C8AC2863A7"
AIR_ODD = "8D40621D58C386435CC412692AD6"
GROUND = "8C4841753A9A153237AEF0F275BE"
REPLY = "5D40621DA1B2C3"  # 56 bits of DF11
COMM_B = "A0001838CA380031440000F24177"  # 112 bits of DF20
LATER = AIR_EVEN[:26] + "1A"  # an escape at its end; its parity is wrong, which a feed does not look at
ESCAPES = "8D1A1A1A1A1A33321A1A1A1A1A31"
FRAMES = [AIR_EVEN, AIR_ODD, GROUND, ESCAPES, LATER]

# Python reports a full standard output at each write, or only at its exit.
BUFFERED = {name: value for name, value in os.environ.items() if name != "PYTHONUNBUFFERED"}
UNBUFFERED = {**os.environ, "PYTHONUNBUFFERED": "1"}


class Failed(Exception):
    pass


class Missing(Exception):
    pass


class Late(Failed):
    """A test took too long. Other programs may have delayed it, so it is tried again."""


def expect(good: object, *words: object) -> None:
    if not good:
        raise Failed(" ".join(str(word) for word in words))


def took(begun: float, least: float, most: float, *words: object) -> None:
    """Fails unless the seconds since `begun`, a time of time.monotonic, are above `least` and below `most`."""
    passed = time.monotonic() - begun
    expect(passed > least, *words, "after", passed, "seconds, where it takes more than", least)
    if passed >= most:
        raise Late(" ".join(str(word) for word in (*words, "after", passed, "seconds, where it takes less than", most)))


def same(got: object, wanted: object, *words: object) -> None:
    expect(got == wanted, *words, "gives", repr(got)[:600], "where wanted is", repr(wanted)[:600])


def beast(frame: str, ticks: int = 0, signal_byte: int = 0x80) -> bytes:
    """A frame as Beast has it: written here from the format's words, and not by the program."""
    data = ticks.to_bytes(6, "big") + bytes([signal_byte]) + bytes.fromhex(frame)
    kind = {2: b"1", 7: b"2", 14: b"3"}[len(frame) // 2]
    return b"\x1a" + kind + data.replace(b"\x1a", b"\x1a\x1a")


def clocked(frame: str, ticks: int) -> bytes:
    return b"@%012X%s;\n" % (ticks, frame.encode())


def row(seconds: str, frame: str = AIR_EVEN) -> bytes:
    return f"{seconds},40621d,{frame.lower()}\n".encode()


def tests_of(module: ModuleType) -> Iterator[Callable[[], None]]:
    """The tests of a module, in their order: its functions that take no argument and return None.

    One without an annotation could be a test that is never run, and is refused."""
    for name, one in list(vars(module).items()):
        if not inspect.isfunction(one) or one.__module__ != module.__name__:
            continue
        known = inspect.signature(one)
        if known.return_annotation is inspect.Signature.empty:
            raise Failed(f"{module.__name__}.{name} does not say what it returns")
        if not known.parameters and known.return_annotation in (None, "None"):
            yield one
