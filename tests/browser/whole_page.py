"""Parts of tests/page about all of it: its files, colours, keys, widths and policy, by a web server and in Firefox."""
import http.server
import os
import re
import shutil
import subprocess
import threading
from typing import List, Tuple

import firefox
from chromium import Chromium
from logs import NEAR, flights, tracked
from trying import INDEX, TOP, Missing, Tries, bytes_of, expect, first_difference, read_text
from using import ALT, CONTROL, META, clicked, example_page, heard, heard_right, pressed, shown, typed


# Fails unless library.js and squitter.js have the same names, and the same code once comments and space are left out.
SAME_CODE = r"""
import assert from "node:assert";
import { readFileSync } from "node:fs";
import * as parts from "./squitter.js";
const joined = new Function(`${readFileSync("library.js", "ascii")}; return squitterModule();`)();
const bare = (text) => text.replace(/^ *(\/\*[^]*?\*\/|\/\/.*)$/gm, "").replace(/\s+/g, "");
assert.deepEqual(Object.keys(joined), Object.keys(parts));
for (const name of Object.keys(parts)) {
  if (typeof parts[name] === "function") assert.equal(bare(String(joined[name])), bare(String(parts[name])));
  else assert.deepEqual(joined[name], parts[name]);
}
"""


def embedded(tries: Tries) -> str:
    """The files that web/embed and web/coastlines/make write are up to date, and library.js has the code of
    squitter.js."""
    count = 0
    for script in ("embed", "coastlines/make"):
        done = subprocess.run([f"{TOP}/web/{script}", "--check"], capture_output=True, text=True)
        expect(done.returncode == 0, script, done.stdout, done.stderr)
        count += len(done.stdout.splitlines())
    if shutil.which("node"):
        same = ["node", "--input-type=module", "-e", SAME_CODE]
        done = subprocess.run(same, cwd=f"{TOP}/web", capture_output=True, text=True)
        expect(done.returncode == 0, done.stdout, done.stderr)
    return f"{count} files, {embedded_again(tries.work)} edits"


def embedded_again(work: str) -> int:
    """web/embed in a folder of its own: it names what differs, writes it, and refuses parts in another form. Returns
    how many edits are tried."""
    top = f"{work}/embed"
    shutil.copytree(f"{TOP}/web", f"{top}/web", ignore=shutil.ignore_patterns("coastlines"))
    for name in ("dist/squitter.wasm", "examples/flights.log"):
        os.makedirs(os.path.dirname(f"{top}/{name}"))
        shutil.copy(f"{TOP}/{name}", f"{top}/{name}")

    def ran(*words: str) -> Tuple[int, str]:
        done = subprocess.run([f"{top}/web/embed", *words], capture_output=True, text=True)
        return done.returncode, done.stdout + done.stderr

    other = re.findall(r"^export function (\w+)", read_text("web/squitter_layout.js"), re.M)[0]
    order = "squitter_order.js"
    rows = (
        ("flights.js", "x\n", "web/flights.js: FAILED: web/embed writes something else\n"),
        (order, "const text = `\n`;\n", f"web/{order} has a template literal that spans lines\n"),
        (order, "export default 1;\n", f"web/{order} exports or imports in another form\n"),
        (order, f"function {other}() {{}}\n", f"web/{order} has a function of another part: {other}\n"),
        (order, "async function load() {}\n", "web/squitter.js has a function of another part: load\n"),
    )
    for name, added, said in rows:
        with open(f"{top}/web/{name}", "a", encoding="ascii") as file:
            file.write(added)
        status, told = ran("--check")
        expect(status == 1 and said in told, name, added, status, told)
        if name != "flights.js":
            shutil.copy(f"{TOP}/web/{name}", f"{top}/web/{name}")
            continue
        expect(told.count("as web/embed writes it\n") == 2, told)
        expect(ran() == (0, "") and read_text("web/flights.js") == bytes_of(f"{top}/web/flights.js").decode(),
               "written")
        expect(ran("--check")[0] == 0, "after it is written")
    for words in (("--chek",), ("--check", "x")):
        status, told = ran(*words)
        expect(status == 2 and told.startswith("usage: embed [-h] [--check]\n"), words, status, told)
    return len(rows)


def contrast(tries: Tries) -> str:
    """Words stand out from what is behind them, in light and dark: 4.5 to 1 at least (WCAG 2.1), and tracks 3 to 1."""
    css = bytes_of(f"{TOP}/web/style.css").decode()
    themes = [dict(re.findall(r"--(\w+): (#\w+)", part)) for part in re.findall(r":root \{(.*?)\}", css, re.S)]

    def light(color: str) -> float:
        digits = color[1:] if len(color) == 7 else "".join(2 * digit for digit in color[1:])
        parts = [int(digits[at : at + 2], 16) / 255 for at in (0, 2, 4)]
        linear = [part / 12.92 if part <= 0.04045 else ((part + 0.055) / 1.055) ** 2.4 for part in parts]
        return 0.2126 * linear[0] + 0.7152 * linear[1] + 0.0722 * linear[2]

    count = 0
    expect(len(themes) == 2, "there are", len(themes), "themes")
    for theme in themes:
        pairs = [
            *((name, below, 4.5) for name in ("ink", "dim", "wrong") for below in ("ground", "field")),
            ("accent", "ground", 4.5), *(("ink", f"tint{n}", 4.5) for n in range(8)),
            *((name, below, 4.5) for name in ("ink", "dim") for below in ("sea", "land")),
            *((f"track{n}", below, 3) for n in range(6) for below in ("ground", "sea", "land")),
            *((name, below, 3) for name in ("accent", "wrong") for below in ("sea", "land")),
        ]
        for one, other, least in pairs:
            low, high = sorted((light(theme[one]), light(theme[other])))
            expect((high + 0.05) / (low + 0.05) >= least, one, "on", other, (high + 0.05) / (low + 0.05))
            count += 1
    return f"{count} pairs of colours"


def keyboard(tries: Tries) -> str:
    """The map goes by keys, and every field has a label. (controls.tabs has the keys of the tabs.)"""
    browser = tries.page()
    count = keys_of_the_browser(browser)
    clicked(browser, "#log-example")
    heard(browser)
    browser.evaluate("document.getElementById('map').focus()")
    for key, value in (("+", "scale"), ("-", "scale"), ("ArrowLeft", "center.x"), ("ArrowUp", "center.y")):
        before = browser.evaluate(f"squitterLog.map.{value}")
        pressed(browser, key)
        expect(browser.evaluate(f"squitterLog.map.{value}") != before, key, "changes nothing")
        count += 1
    bare = browser.evaluate(
        "[...document.querySelectorAll('input, select, canvas, progress, button')].filter((one) => "
        "!one.labels?.length && !one.getAttribute('aria-label') && !one.getAttribute('aria-labelledby') && "
        "!one.textContent.trim()).map((one) => one.outerHTML)"
    )
    expect(bare == [], "without a label:", bare)
    return f"{count} keys"


def keys_of_the_browser(browser: Chromium) -> int:
    """End does not also scroll the page away from the tabs. Keys of the browser, such as Alt with an arrow (back), are
    left to it."""
    browser.evaluate("scrollTo(0, 0); document.getElementById('tab-place').focus()")
    pressed(browser, "End")
    place = browser.evaluate("new Promise((done) => setTimeout(() => done([document.activeElement.id, scrollY]), 400))")
    expect(place == ["tab-log", 0], "End:", place)
    typed_place = "[document.activeElement.id, byId('send-lat').value, byId('send-lon').value].join()"
    clicked(browser, "#tab-send")
    for focus in ("byId('tab-send')", "document.querySelector('#send-map svg')"):
        browser.evaluate(f"window.leftAlone = []; addEventListener('keydown', (one) => "
                         f"leftAlone.push(!one.defaultPrevented), {{ once: true }}); {focus}.focus()")
        before = browser.evaluate(typed_place)
        for held in (CONTROL, META, ALT):
            pressed(browser, "ArrowRight", held)
            expect(browser.evaluate(typed_place) == before, focus, held, browser.evaluate(typed_place))
        expect(browser.evaluate("leftAlone.join()") == "true", focus, "keeps a key of the browser")
    clicked(browser, "#tab-log")
    return 7


def forced_colours(tries: Tries) -> str:
    """With the colours of the system (forced colours), the open tab has another line than the others."""
    browser = tries.page("place")
    browser.call("Emulation.setEmulatedMedia", features=[{"name": "forced-colors", "value": "active"}])
    lines = browser.evaluate("Object.fromEntries([...document.querySelectorAll('[role=tab]')].map((one) => "
                             "[one.id.slice(4), getComputedStyle(one).borderBottomColor]))")
    opened = lines.pop("place")
    expect(len(lines) == 3 and len(set(lines.values())) == 1 and opened not in lines.values(), opened, lines)
    return f"{len(lines) + 1} tabs"


def printed(tries: Tries) -> str:
    """On paper, tables are whole: no row or column is behind a scroll bar."""
    browser = example_page(tries)
    browser.look(718, 1000, False)  # the width of A4 without its margins, in CSS pixels
    browser.call("Emulation.setEmulatedMedia", media="print")
    count = 0
    try:
        for panel in PANELS:
            clicked(browser, f"#tab-{panel}")
            cut = browser.evaluate(
                f"[...document.querySelectorAll('#panel-{panel} .scroll')].map((one) => [one.ariaLabel, "
                "one.scrollHeight - one.clientHeight, document.documentElement.scrollWidth > 718 || "
                "one.firstElementChild.getBoundingClientRect().right > 718 ? one.scrollWidth : 0])"
            )
            expect(all(rest == [0, 0] for _, *rest in cut), panel, cut)
            count += len(cut)
    finally:
        browser.call("Emulation.setEmulatedMedia", media="")
    rows = browser.evaluate("document.querySelectorAll('#log-table tbody tr').length")
    expect(rows == 100, rows, "rows")
    return f"{count} tables"


PANELS = ("frame", "place", "send", "log")


def widths(tries: Tries) -> str:
    """Nothing is wider than a phone, in light and dark; pictures are left where SHOTS names a folder."""
    browser, folder, count = example_page(tries), os.environ.get("SHOTS"), 0
    for width in (1100, 390, 320, 280):
        for dark in (False, True):
            browser.look(width, 900, dark)
            for panel in PANELS:
                clicked(browser, f"#tab-{panel}")
                browser.evaluate("squitterLog.map.fit(); new Promise((done) => setTimeout(done, 60))")
                wide = browser.evaluate("document.documentElement.scrollWidth")
                expect(wide <= width, panel, "is", wide, "wide on", width)
                count += 1
                if folder:
                    browser.picture(f"{folder}/{panel}-{width}-{'dark' if dark else 'light'}.png")
        rows = browser.evaluate("(({ scrollWidth, clientWidth }) => [scrollWidth, clientWidth])(byId('log-rows-box'))")
        expect(rows[0] == rows[1], "the results are", rows[0], "wide in a box of", rows[1], "on", width)
    count += narrow_examples(browser)
    return f"{count} views"


def narrow_examples(browser: Chromium) -> int:
    """All examples of the panels, and an error of the last one, on the narrowest phone. Returns how many there are."""
    buttons = "[...document.querySelectorAll('[data-link]')]"
    count = browser.evaluate(f"{buttons}.length")
    for index in range(count):
        wide = browser.evaluate(
            f"(() => {{ {buttons}[{index}].click(); return document.documentElement.scrollWidth }})()"
        )
        expect(wide <= 280, "example", index + 1, "is", wide, "wide")
    clicked(browser, "#tab-log")
    for what in ("0", ""):  # an error has no address, so its text is at the left edge
        typed(browser, filter_what=what)
        left = browser.evaluate("['answer', 'time', 'address'].map((name) => "
                                "document.querySelector(`#log-table .cell-${name}`).getBoundingClientRect().left)")
        expect((left[0] == left[1]) == (what == "0"), "filter", what, "begins at", left)
    clicked(browser, "#tab-send")
    typed(browser, send_lat="1" * 80)
    wide = browser.evaluate("document.documentElement.scrollWidth")
    expect(wide <= 280, "an error is", wide, "wide")
    return int(count) + 1


class Quiet(http.server.SimpleHTTPRequestHandler):
    def log_message(self, *words: object) -> None:
        pass


def served(tries: Tries) -> str:
    """The page from a web server: it asks for its own files alone, and its console stays silent."""
    asked: List[str] = []

    class Folder(Quiet):
        def __init__(self, *words: object) -> None:
            super().__init__(*words, directory=f"{TOP}/web")  # type: ignore[arg-type]

        def do_GET(self) -> None:
            asked.append(self.path)
            super().do_GET()

    server = http.server.ThreadingHTTPServer(("127.0.0.1", 0), Folder)
    threading.Thread(target=server.serve_forever, daemon=True).start()
    try:
        browser = tries.page("log", f"http://127.0.0.1:{server.server_port}/")
        clicked(browser, "#log-example")
        heard_right(tries, flights(), NEAR)
    finally:
        server.shutdown()
    there = {f"/{name}" for name in os.listdir(f"{TOP}/web")} | {"/"}
    expect(set(asked) <= there, asked)
    return f"{len(asked)} files"


BLOCKED = {
    "a text that becomes HTML": "document.body.innerHTML = '<b>x</b>'",
    "a script made by a text": "new Function('return 1')()",
    "a worker from elsewhere": "new Worker('page.js')",
    "a script from elsewhere": "document.createElement('script').src = 'data:text/javascript,1'",
}


def policy(tries: Tries) -> str:
    """The page's content security policy: no text becomes a script or HTML, and nothing is asked for."""
    browser = tries.page()
    for what, script in BLOCKED.items():
        tried = f"(() => {{ try {{ {script}; return 'done' }} catch (error) {{ return error.name }} }})()"
        told = browser.call("Runtime.evaluate", expression=tried, allowUnsafeEvalBlockedByCSP=False)
        expect(told["result"].get("value") in ("TypeError", "EvalError"), what, "is let through:", told)
    asked = browser.evaluate("fetch('http://127.0.0.1:9/').then(() => 'done', (error) => error.name)")
    problems, browser.problems = browser.problems, []
    expect(asked == "TypeError" and any("Content Security Policy" in one for one in problems), problems)
    text = read_text("web/index.html")
    inline = re.findall(r"<script>|<style|\son\w+=|\sstyle=|javascript:", text)
    expect(not inline and "unsafe-inline" not in text and "'unsafe-eval'" not in text, inline)
    return f"{len(BLOCKED) + 1} things blocked"


def without_simd(tries: Tries) -> str:
    """A browser that cannot run the module gets a sentence, and no panels."""
    browser = tries.browser
    script = "WebAssembly.instantiate = () => Promise.reject(new WebAssembly.CompileError('invalid value type'));"
    added = browser.call("Page.addScriptToEvaluateOnNewDocument", source=script)["identifier"]
    try:
        browser = tries.page()
        said = shown(browser, "#notice")
        hidden = browser.evaluate("document.querySelector('main').hidden && document.getElementById('tabs').hidden")
        expect("SIMD" in said and "invalid value type" in said and hidden, said, hidden)
    finally:
        browser.call("Page.removeScriptToEvaluateOnNewDocument", identifier=added)
    return "a sentence"


TEXT = "page.squitterLog.texts().then((texts) => texts.join(''))"


def in_firefox(tries: Tries) -> str:
    """Firefox hears the example as the program does; one that cannot run the module says so."""
    if not firefox.installed():
        raise Missing("firefox-esr")
    browser = firefox.Firefox()
    try:
        browser.open(f"{INDEX}#log")
        browser.evaluate("document.getElementById('log-example').click()")
        browser.wait("document.getElementById('log-state').textContent.includes('decoded. ')")
        got, wanted = browser.evaluate(TEXT).encode(), tracked(tries.program, flights(), NEAR)
        expect(got == wanted, first_difference(got, wanted))
        frame = browser.evaluate("document.getElementById('frame-answer').textContent")
        expect("38000 feet" in frame and "40621D" in frame, frame)
        shutil.copytree(f"{TOP}/web", f"{tries.work}/web")
        with open(f"{tries.work}/web/module.js", "a", encoding="ascii") as file:
            file.write("WebAssembly.instantiate = () => Promise.reject(new WebAssembly.CompileError('type'));\n")
        browser.open(f"file://{tries.work}/web/index.html")
        told = browser.evaluate("document.getElementById('notice').textContent")
        expect("SIMD" in told and browser.evaluate("document.querySelector('main').hidden"), told)
    finally:
        browser.close()
    return f"Firefox {browser.version}, the example, and a sentence without the module"
