"""What the parts of tests/page share: how one fails or is skipped, the repository's files, the vectors, and the page in
a browser."""
import glob
import json
import os
import shutil
import subprocess
import time
from typing import List, Optional

import chromium

HERE = os.path.dirname(os.path.abspath(__file__))
TOP = os.path.dirname(os.path.dirname(HERE))

INDEX = f"file://{TOP}/web/index.html"
SITE = ("52.31", "4.76")
AIR_EVEN, AIR_ODD = "8D40621D58C382D690C8AC2863A7", "8D40621D58C386435CC412692AD6"
GROUND_EVEN, GROUND_ODD = "8C4841753AAB238733C8CD4020B1", "8C4841753A8A35323FAEBDAC702D"
POLE_EVEN, POLE_ODD = "8D43029E58C3850001C89AEDB595", "8D43029E58C3800001C89AE29463"  # at the south pole
NARROW, WIDE = "squitter.wasm", "squitter64.wasm"  # the module with 32-bit memory, and what it is made from


class Failed(Exception):
    pass


class Missing(Exception):
    pass


def expect(good: object, *words: object) -> None:
    if not good:
        raise Failed(" ".join(str(word) for word in words)[:2000])


def bytes_of(path: str) -> bytes:
    with open(path, "rb") as file:
        return file.read()


def read_text(name: str) -> str:
    return bytes_of(f"{TOP}/{name}").decode()


def cases(op: Optional[str] = None) -> List[dict]:
    """The vectors, or those of one question."""
    paths = sorted(glob.glob(f"{TOP}/vectors/*.jsonl"))
    found = [json.loads(line) for path in paths for line in bytes_of(path).splitlines()]
    return [case for case in found if op in (None, case["op"])]


def first_difference(got: bytes, wanted: bytes) -> str:
    for number, (ours, theirs) in enumerate(zip(got.splitlines(True), wanted.splitlines(True)), 1):
        if ours != theirs:
            return f"answer {number}: {ours!r} where {theirs!r} is wanted"
    return f"{len(got.splitlines())} answers where {len(wanted.splitlines())} are wanted"


class Tries:
    def __init__(self, program: str, work: str) -> None:
        self.program = program
        self.work = work
        self.open: Optional[chromium.Chromium] = None

    @property
    def node(self) -> List[str]:
        if shutil.which("node") is None:
            raise Missing("node")
        return ["node"]

    @property
    def wide_node(self) -> List[str]:
        """node, with the flag that it may want for the 64-bit memory of dist/squitter64.wasm."""
        module = (f"WebAssembly.compile(require('fs').readFileSync('{TOP}/dist/{WIDE}')).catch(() => process.exit(3))")
        for words in (self.node, [*self.node, "--experimental-wasm-memory64"]):
            if subprocess.run([*words, "-e", module], capture_output=True).returncode == 0:
                return words
        raise Missing("a node with 64-bit memory")

    @property
    def browser(self) -> chromium.Chromium:
        if not chromium.installed():
            raise Missing("chromium")
        if self.open is None:
            self.open = chromium.Chromium()
            self.open.call("Browser.setDownloadBehavior", behavior="allow", downloadPath=self.work)
        return self.open

    def silent(self) -> None:
        """Fails if the console of the browser has said something since the last call."""
        if self.open:
            self.open.evaluate("new Promise((done) => setTimeout(done, 50))")
            problems, self.open.problems = self.open.problems, []
            expect(not problems, "the console says", problems)

    def page(self, panel: str = "frame", address: str = INDEX) -> chromium.Chromium:
        """The page, opened anew on a panel."""
        browser = self.browser
        browser.look()
        browser.open(f"{address}#{panel}")
        return browser

    def downloaded(self, name: str) -> bytes:
        path = f"{self.work}/{name}"
        end = time.monotonic() + 20
        while not os.path.exists(path) and time.monotonic() < end:
            self.browser.evaluate("new Promise((done) => setTimeout(done, 50))")
        data = bytes_of(path)
        os.unlink(path)
        return data
