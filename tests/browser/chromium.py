"""chromium.py: a headless Chromium, driven over a pipe by its own protocol, so that nothing else is wanted."""
import base64
import fcntl
import json
import os
import select
import shutil
import subprocess
import tempfile
import time
from typing import Any, List, Optional

NAMES = ("chromium", "chromium-browser", "google-chrome")


def installed() -> Optional[str]:
    """The browser that is there, if one is."""
    return next((path for path in map(shutil.which, NAMES) if path), None)


class Chromium:
    """A browser with one page. `problems` has what its console said of errors, on all pages that were opened."""

    def __init__(self, *flags: str) -> None:
        self.folder = tempfile.mkdtemp()
        self.problems: List[str] = []
        self.number = 0
        self.rest = b""
        theirs_in, self.to = (fcntl.fcntl(end, fcntl.F_DUPFD, 20) for end in os.pipe())
        self.back, theirs_out = (fcntl.fcntl(end, fcntl.F_DUPFD, 20) for end in os.pipe())
        command = [str(installed()), "--headless=new", "--no-sandbox", "--disable-gpu", "--no-first-run",
                   "--disable-dev-shm-usage", "--remote-debugging-pipe", f"--user-data-dir={self.folder}", *flags,
                   "about:blank"]
        self.process = subprocess.Popen(["bash", "-c", f'exec "$@" 3<&{theirs_in} 4>&{theirs_out}', "-", *command],
                                        pass_fds=(theirs_in, theirs_out), stdin=subprocess.DEVNULL,
                                        stdout=subprocess.DEVNULL, stderr=subprocess.DEVNULL)
        os.close(theirs_in)
        os.close(theirs_out)
        self.session: Optional[str] = None
        target = self.call("Target.createTarget", url="about:blank")["targetId"]
        self.session = self.call("Target.attachToTarget", targetId=target, flatten=True)["sessionId"]
        for domain in ("Page", "Runtime", "Log", "DOM"):
            self.call(f"{domain}.enable")

    def close(self) -> None:
        """Ends the browser."""
        try:
            self.session = None
            self.call("Browser.close")
            self.process.wait(10)
        except (OSError, TimeoutError, subprocess.TimeoutExpired):
            self.process.kill()
            self.process.wait()
        os.close(self.to)
        os.close(self.back)
        shutil.rmtree(self.folder, ignore_errors=True)

    def call(self, method: str, **words: Any) -> Any:
        """Calls a method of the protocol, and answers what it answers."""
        self.number += 1
        message = {"id": self.number, "method": method, "params": words}
        if self.session:
            message["sessionId"] = self.session
        left = json.dumps(message).encode() + b"\0"
        while left:
            left = left[os.write(self.to, left) :]
        while True:
            told = self.next(120)
            if told.get("id") == self.number:
                if "error" in told:
                    raise RuntimeError(f"{method}: {told['error']['message']}")
                return told["result"]

    def next(self, seconds: float) -> Any:
        """The next message of the browser; problems are kept."""
        end = time.monotonic() + seconds
        while b"\0" not in self.rest:
            if not select.select([self.back], [], [], max(0, end - time.monotonic()))[0]:
                raise TimeoutError("the browser is silent")
            read = os.read(self.back, 1 << 20)
            if not read:
                raise OSError("the browser has ended")
            self.rest += read
        text, _, self.rest = self.rest.partition(b"\0")
        told = json.loads(text)
        self.keep(told.get("method"), told.get("params"))
        return told

    def keep(self, method: Optional[str], words: Any) -> None:
        if method == "Runtime.exceptionThrown":
            self.problems.append(str(words["exceptionDetails"].get("exception", {}).get("description", words)))
        elif method == "Log.entryAdded" and words["entry"]["level"] in ("error", "warning"):
            self.problems.append(f"{words['entry']['text']} {words['entry'].get('url', '')}")
        elif method == "Runtime.consoleAPICalled" and words["type"] in ("error", "warning", "assert"):
            self.problems.append(str(words["args"]))

    def open(self, address: str) -> None:
        """Opens a page, and waits until it has started."""
        self.call("Page.navigate", url="about:blank")
        self.call("Page.navigate", url=address)
        self.wait("document.documentElement.dataset.ready === 'yes' || !document.getElementById('notice').hidden")

    def evaluate(self, script: str) -> Any:
        """What a piece of JavaScript comes to, once it is settled."""
        told = self.call("Runtime.evaluate", expression=script, awaitPromise=True, returnByValue=True)
        if "exceptionDetails" in told:
            raise RuntimeError(told["exceptionDetails"].get("exception", {}).get("description", "an exception"))
        return told["result"].get("value")

    def processor_seconds(self) -> float:
        """Returns the processor time of the browser's processes so far, in seconds."""
        page, self.session = self.session, None
        try:
            return sum(float(one["cpuTime"]) for one in self.call("SystemInfo.getProcessInfo")["processInfo"])
        finally:
            self.session = page

    def wait(self, script: str, seconds: float = 120) -> None:
        """Waits until a piece of JavaScript comes to true."""
        end = time.monotonic() + seconds
        while True:
            try:
                if self.evaluate(script) is True:
                    return
            except RuntimeError:
                pass  # the page is on its way
            if time.monotonic() > end:
                raise TimeoutError(f"never true: {script}")
            time.sleep(0.02)

    def give(self, selector: str, path: str) -> None:
        """Chooses a file, as a person does in the dialog."""
        root = self.call("DOM.getDocument")["root"]["nodeId"]
        node = self.call("DOM.querySelector", nodeId=root, selector=selector)["nodeId"]
        self.call("DOM.setFileInputFiles", nodeId=node, files=[path])

    def look(self, width: int = 1100, height: int = 900, dark: bool = False) -> None:
        """The size of the window, and whether the reader likes it dark."""
        self.call("Emulation.setDeviceMetricsOverride", width=width, height=height, deviceScaleFactor=1, mobile=False)
        feature = {"name": "prefers-color-scheme", "value": "dark" if dark else "light"}
        self.call("Emulation.setEmulatedMedia", features=[feature])

    def picture(self, path: str) -> None:
        """A picture of the whole page."""
        data = self.call("Page.captureScreenshot", format="png", captureBeyondViewport=True)["data"]
        with open(path, "wb") as file:
            file.write(base64.b64decode(data))
