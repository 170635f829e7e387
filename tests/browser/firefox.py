"""firefox.py: a headless Firefox, driven by its own protocol (Marionette, of lengths and JSON over a socket)."""
import json
import os
import shutil
import socket
import subprocess
import tempfile
import time
from typing import Any, Optional


def installed() -> Optional[str]:
    """The browser that is there, if one is."""
    return next((path for path in map(shutil.which, ("firefox-esr", "firefox")) if path), None)


def free_port() -> int:
    with socket.socket() as one:
        one.bind(("127.0.0.1", 0))
        return int(one.getsockname()[1])


class Firefox:
    """A browser with one page."""

    def __init__(self, **preferences: Any) -> None:
        self.folder = tempfile.mkdtemp()
        port, self.number = free_port(), 0
        wanted = {"marionette.port": port, "datareporting.policy.dataSubmissionEnabled": False, **preferences}
        with open(f"{self.folder}/user.js", "w", encoding="ascii") as file:
            file.writelines(f"user_pref({json.dumps(name)}, {json.dumps(value)});\n" for name, value in wanted.items())
        self.process = subprocess.Popen(
            [str(installed()), "--headless", "--marionette", "--no-remote", "--profile", self.folder],
            stdin=subprocess.DEVNULL,
            stdout=subprocess.DEVNULL,
            stderr=subprocess.DEVNULL,
            env={**os.environ, "HOME": self.folder, "MOZ_CRASHREPORTER_DISABLE": "1"},
        )
        self.socket = self.connected(port)
        self.told = self.socket.makefile("rb")
        self.next()
        self.version = str(self.call("WebDriver:NewSession")["capabilities"]["browserVersion"])
        self.call("WebDriver:SetTimeouts", script=120_000)

    def connected(self, port: int) -> socket.socket:
        end = time.monotonic() + 60
        while True:
            try:
                return socket.create_connection(("127.0.0.1", port), 150)
            except OSError:
                if time.monotonic() > end or self.process.poll() is not None:
                    self.process.kill()
                    raise
                time.sleep(0.1)

    def close(self) -> None:
        """Ends the browser."""
        try:
            self.call("Marionette:Quit", flags=["eForceQuit"])
            self.process.wait(15)
        except (OSError, RuntimeError, subprocess.TimeoutExpired):
            self.process.kill()
            self.process.wait()
        self.socket.close()
        shutil.rmtree(self.folder, ignore_errors=True)

    def next(self) -> Any:
        """The next message: its length, a colon, and JSON."""
        digits = b""
        while not digits.endswith(b":"):
            one = self.told.read(1)
            if not one:
                raise OSError("the browser has ended")
            digits += one
        return json.loads(self.told.read(int(digits[:-1])))

    def call(self, method: str, **words: Any) -> Any:
        """Calls a method of the protocol, and answers what it answers."""
        self.number += 1
        message = json.dumps([0, self.number, method, words]).encode()
        self.socket.sendall(b"%d:%s" % (len(message), message))
        while True:
            _, number, error, answer = self.next()
            if number == self.number:
                if error:
                    raise RuntimeError(f"{method}: {error['message']}")
                return answer

    def open(self, address: str) -> None:
        """Opens a page, and waits until it has started."""
        self.call("WebDriver:Navigate", url=address)
        self.wait("document.documentElement.dataset.ready === 'yes' || !document.getElementById('notice').hidden")

    def evaluate(self, script: str) -> Any:
        """What an expression comes to, once it is settled; `page` is the window as its own scripts see it."""
        body = f"const page = window.wrappedJSObject ?? window; return ({script})"
        return self.call("WebDriver:ExecuteScript", script=body, args=[])["value"]

    def wait(self, script: str, seconds: float = 120) -> None:
        """Waits until a piece of JavaScript comes to true."""
        end = time.monotonic() + seconds
        while self.evaluate(script) is not True:
            if time.monotonic() > end:
                raise TimeoutError(f"never true: {script}")
            time.sleep(0.05)
