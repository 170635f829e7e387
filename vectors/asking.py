"""Runs an adapter: gives it the questions of the cases, a line each, and takes its answers, whatever it does."""
from __future__ import annotations

import contextlib
import json
import os
import queue
import shlex
import signal
import subprocess
import sys
import tempfile
import threading
import time
from typing import Any, Dict, Iterator, List, NamedTuple, Optional

HERE = os.path.dirname(os.path.abspath(__file__))
SILENCE = 60.0  # seconds without a line, after which an adapter is stopped
LONGEST = 1 << 20  # bytes of a line
SURPLUS = 1000  # lines beyond those asked for, after which an adapter is stopped


class Result(NamedTuple):
    """The answers by the id of their case, what the adapter says of itself, and what went wrong."""

    answers: Dict[str, Dict[str, Any]]
    hello: Dict[str, Any]
    remarks: List[str]


def plain(text: str, most: int) -> str:
    """A text of an adapter's in one line, without what a terminal or a table would take for a command."""
    line = "".join(letter if letter.isprintable() and letter != "|" else " " for letter in text)
    return " ".join(line.split())[:most]


def adapter_command(words: str) -> List[str]:
    """The command of an adapter: a name in adapters/, or a command line."""
    own = os.path.join(HERE, "adapters", words)
    if os.path.isfile(own):
        return [own]
    command = shlex.split(words)
    if not command:
        raise ValueError("an adapter is a name or a command line")
    if os.path.isfile(os.path.join(HERE, "adapters", command[0])):
        command[0] = os.path.join(HERE, "adapters", command[0])
    if os.sep not in command[0] and os.path.isfile(command[0]):
        command[0] = os.path.join(os.curdir, command[0])
    if command[0].endswith(".py") and not os.access(command[0], os.X_OK):
        command.insert(0, sys.executable)
    return command


def questions(cases: List[Dict[str, Any]]) -> bytes:
    """The cases without what must come out."""
    return b"".join(
        json.dumps({"id": case["id"], "op": case["op"], "input": case["input"]}).encode() + b"\n" for case in cases
    )


class Adapter:
    """One run of an adapter over some cases."""

    def __init__(
        self, command: List[str], cases: List[Dict[str, Any]], environment: Optional[Dict[str, str]], silence: float
    ):
        self.asked = {case["id"] for case in cases}
        self.silence = silence
        self.answers: Dict[str, Dict[str, Any]] = {}
        self.hello: Dict[str, Any] = {}
        self.garbage: List[str] = []
        self.strange = self.twice = 0
        self.why = ""
        self.errors = tempfile.TemporaryFile()
        self.process = subprocess.Popen(
            command,
            stdin=subprocess.PIPE,
            stdout=subprocess.PIPE,
            stderr=self.errors,
            env=environment,
            start_new_session=True,
        )
        self.lines: "queue.Queue[Optional[bytes]]" = queue.Queue(10_000)
        self.over = threading.Event()
        for task in (lambda: self.write(questions(cases)), self.read):
            threading.Thread(target=task, daemon=True).start()

    def write(self, text: bytes) -> None:
        """Gives the questions, and the end of them."""
        try:
            with self.process.stdin:  # type: ignore[union-attr]
                self.process.stdin.write(text)  # type: ignore[union-attr]
        except (OSError, ValueError):
            pass

    def put(self, line: Optional[bytes]) -> None:
        """Hands a line over, unless nobody wants it any more."""
        while not self.over.is_set():
            try:
                return self.lines.put(line, timeout=0.5)
            except queue.Full:
                continue
        return None

    def read(self) -> None:
        """Takes the lines as they come, up to the longest."""
        try:
            while not self.over.is_set():
                line = self.process.stdout.readline(LONGEST)  # type: ignore[union-attr]
                if not line:
                    break
                self.put(line)
        except (OSError, ValueError):
            pass
        self.put(None)

    def take(self, line: bytes) -> None:
        """One line of the adapter's."""
        if line.startswith(b"#") or not line.strip():
            return
        try:
            said = json.loads(line)
            name = said.get("id")
            if name is None and "adapter" in said:
                self.hello = said
            elif name not in self.asked:
                self.strange += 1
            elif name in self.answers:
                self.twice += 1
            else:
                self.answers[name] = said
        except (ValueError, AttributeError, TypeError, RecursionError):
            self.garbage.append(line[:60].decode("ascii", "backslashreplace").rstrip("\n"))

    def listen(self) -> None:
        """Takes lines until they end, or until the adapter is silent too long or says too much."""
        last, count = time.monotonic(), 0
        while True:
            try:
                line = self.lines.get(timeout=max(0.01, last + self.silence - time.monotonic()))
            except queue.Empty:
                self.why = f"no line for {self.silence:g} seconds, so it was stopped"
                return
            if line is None:
                return
            self.take(line)
            last, count = time.monotonic(), count + 1
            if count > len(self.asked) + SURPLUS:
                self.why = f"{count} lines for {len(self.asked)} cases, so it was stopped"
                return

    def close(self) -> None:
        """Ends the process, and all that it started."""
        if not self.why:
            try:
                self.process.wait(timeout=5)
            except subprocess.TimeoutExpired:
                self.why = "it closed its output and did not end, so it was stopped"
        self.over.set()
        try:
            os.killpg(self.process.pid, signal.SIGKILL)
        except (ProcessLookupError, PermissionError):
            pass
        self.process.wait()
        status = self.process.returncode
        if not self.why and status:
            self.why = f"it ended with {f'signal {-status}' if status < 0 else f'status {status}'}"

    def remark(self) -> List[str]:
        """What went wrong, in one line."""
        parts = [self.why] if self.why else []
        if self.garbage:
            parts.append(f"{len(self.garbage)} lines are no answers, the first {self.garbage[0]!r}")
        parts += [f"{self.strange} answers to cases that were not asked"] if self.strange else []
        parts += [f"{self.twice} cases answered again"] if self.twice else []
        if len(self.answers) < len(self.asked):
            parts.append(f"{len(self.answers)} of {len(self.asked)} cases answered")
        if not parts:
            return []
        self.errors.seek(0)
        told = self.errors.read(1 << 16).decode("utf-8", "backslashreplace").strip().splitlines()
        return ["; ".join(parts + ([f"it says: {plain(told[-1], 120)}"] if told else []))]


# The signals that end a run.
ENDING = (signal.SIGINT, signal.SIGTERM)


@contextlib.contextmanager
def signals_held() -> Iterator[None]:
    """Holds back the signals that end a run, and raises those that came at the end. Python runs their handlers in the
    main thread, so another thread has none to hold."""
    if threading.current_thread() is not threading.main_thread():
        yield
        return
    came: List[int] = []
    handlers = {number: signal.signal(number, lambda number, _: came.append(number)) for number in ENDING}
    try:
        yield
    finally:
        for number, handler in handlers.items():
            signal.signal(number, handler)
        for number in came:
            signal.raise_signal(number)


def ask(
    command: List[str],
    cases: List[Dict[str, Any]],
    environment: Optional[Dict[str, str]] = None,
    silence: float = SILENCE,
) -> Result:
    """The answers of an adapter to the cases. A signal that ends the run ends the adapter too. Signals wait while the
    adapter starts, because there is nothing yet to end it by."""
    adapter: Optional[Adapter] = None
    try:
        with signals_held():
            adapter = Adapter(command, cases, environment, silence)
        adapter.listen()
    except BaseException as why:
        if adapter is None and isinstance(why, OSError):
            return Result({}, {}, [f"it cannot be started: {why.strerror or why}: {command[0]}"])
        if adapter is not None:
            adapter.why = "the run was interrupted"  # its end is not waited for
        raise
    finally:
        if adapter is not None:
            adapter.close()
    return Result(adapter.answers, adapter.hello, adapter.remark())
