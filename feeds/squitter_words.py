"""What squitter-feed and squitter-geojson share: the version, and how a command line is read and refused."""
from __future__ import annotations

import argparse
import os
import re
import sys
from typing import Any, Mapping, NoReturn

VERSION = "0.1.0"
REFUSED, MISUSED, FAILED = 1, 2, 3  # statuses
PIECE = 65_536  # bytes that are read at once from a source that is live
PLENTY = 2000  # the --reorder (ms) to try if frames were late or set aside


class Parser(argparse.ArgumentParser):
    """Reads a command line. The first line of the help is the usage, and options are not abbreviated. A hint follows an
    error that has its whole words."""

    def __init__(self, name: str, text: str, hints: Mapping[str, str]) -> None:
        # Without a width, argparse loads a module to find that of the terminal.
        super().__init__(prog=name, allow_abbrev=False,
                         formatter_class=lambda prog: argparse.HelpFormatter(prog, width=80))
        self.text = text
        self.hints = hints
        self.add_argument("--version", action="version", version=f"{name} {VERSION}")

    def format_help(self) -> str:
        return f"{self.text}\n"

    def format_usage(self) -> str:
        return f"usage: {self.text.splitlines()[0]}\n"

    def _print_message(self, message: str, file: Any = None) -> None:
        """Prints a text at once. If standard output does not take the help or the version, the run ends with status 3;
        argparse would ignore that."""
        file = file or sys.stderr
        try:
            file.write(message)
            file.flush()
        except (AttributeError, OSError) as fault:
            if file is sys.stderr:
                drop(2)  # nobody is there to be told
                return
            drop(1)
            if not isinstance(fault, BrokenPipeError):
                tell(self.prog, reason(fault))
                sys.exit(FAILED)

    def error(self, message: str) -> NoReturn:
        hint = next((f"; {hint}" for words, hint in self.hints.items() if re.search(rf"{words}\b", message)), "")
        self.exit(MISUSED, f"{self.prog}: {message}{hint}\n{self.format_usage()}")


def milliseconds(text: str) -> int:
    """Returns a number of milliseconds of 1 to 15 digits."""
    if not re.fullmatch(r"[0-9]{1,15}", text):
        raise argparse.ArgumentTypeError(f"{text} is no number of milliseconds")
    return int(text)


def tell(name: str, text: str) -> None:
    """Reports a line on standard error, where there is one."""
    if sys.stderr is None:
        return  # (it is closed, and print would take standard output instead)
    try:
        # (one write, so that lines of other programs do not come between the text and its end)
        sys.stderr.write(f"{name}: {text}\n")
        sys.stderr.flush()
    except OSError:
        drop(2)  # nobody is there to be told


def drop(number: int) -> None:
    """Drops what standard output (1) or standard error (2) has not taken. Otherwise Python tries again at its exit, and
    ends with status 120."""
    os.dup2(os.open(os.devnull, os.O_WRONLY), number)


def reason(fault: BaseException) -> str:
    """Returns the words of a fault."""
    return getattr(fault, "strerror", None) or str(fault)
