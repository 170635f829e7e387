"""A part of tests/page about screen readers: names, descriptions, and live regions."""
import json
from typing import Any, List

from chromium import Chromium
from trying import AIR_EVEN, Tries, expect
from using import clicked, given_file, pressed, shown, typed

# Keeps what the state of the log says, and whether it is read aloud.
STATES = """{
  const state = byId("log-state");
  window.statesTold = [];
  new MutationObserver(() => statesTold.push([state.getAttribute("aria-live"), state.textContent]))
    .observe(state, { childList: true });
}"""


def accessible(browser: Chromium, selector: str) -> List[Any]:
    """Returns the role, name and description of an element, as the browser gives them to a screen reader."""
    root = browser.call("DOM.getDocument")["root"]["nodeId"]
    node = browser.call("DOM.querySelector", nodeId=root, selector=selector)["nodeId"]
    told = browser.call("Accessibility.getPartialAXTree", nodeId=node, fetchRelatives=False)["nodes"][0]
    return [told.get(key, {}).get("value", "") for key in ("role", "name", "description")]


def read_aloud(tries: Tries) -> str:
    """The first line of an answer is read aloud, without its tables. Pages of results are read too, and the progress of
    a long log is not. The names of the map and of the copy buttons say what they do."""
    browser = tries.page("frame")
    said = "[...document.querySelectorAll('#panel-{0} [aria-live]')].map((one) => one.innerText).join('|')"
    rows = (
        ("frame", "[data-link='#frame=8D40621D58C382D690C8AC2863A7']", "40621D: airborne position"),
        ("frame", "[data-link='#frame=*8D40621D58C382D690G8AC2863A7;']", "Refused: "),
        ("place", "[data-link^='#pair=8D40621D']", "Latitude 52.2657802, longitude 3.9389125"),
        ("place", "[data-link^='#local']", "Latitude 52.2572021, longitude 3.9193726"),
        ("place", "[data-link^='#pair=8D43029E']", "Latitude -90.0000000, longitude "),
    )
    for panel, button, wanted in rows:
        clicked(browser, f"#tab-{panel}")
        clicked(browser, button)
        got = browser.evaluate(said.format(panel))
        expect(got.startswith(wanted) and "\n" not in got.strip(), button, json.dumps(got))
        expect(len(shown(browser, f"#{panel}-answer")) > len(got), button, "shows nothing else")
    typed(browser, place_newer="x")
    expect(browser.evaluate(said.format("place")).startswith("Refused: "), browser.evaluate(said.format("place")))
    clicked(browser, "#tab-send")
    copy = "#send-answer .card:nth-child(2) button"
    for text, more in (("Copied", "the odd frame"), ("Press Ctrl+C", "to copy the odd frame")):
        expect(accessible(browser, copy)[1] == "Copy the odd frame", accessible(browser, copy))
        browser.evaluate(f"window.copyText = async () => {json.dumps(text == 'Copied')}; 0")
        clicked(browser, copy)
        browser.wait(f"document.querySelector('{copy}').textContent === {json.dumps(text)}")
        expect(accessible(browser, copy)[1] == f"{text} {more}", accessible(browser, copy))
        browser.wait(f"document.querySelector('{copy}').textContent === 'Copy'")
    return f"{len(rows) + 3} answers, {log_aloud(tries)} states of a log"


def log_aloud(tries: Tries) -> int:
    """What is read aloud of a log that is decoded, and of its map. Returns how often the state changed."""
    browser, path = tries.page("log"), f"{tries.work}/aloud.log"
    role, name, description = accessible(browser, "#map")
    expect((role, name) == ("application", "Map") and "Enter reads the position" in description, role, description)
    browser.evaluate(STATES)
    given_file(browser, path, "".join(f"{moment} {AIR_EVEN}\n" for moment in range(80_000)).encode())
    first, *counts, last = browser.evaluate("statesTold")
    expect(first == ["polite", "Decoding aloud.log."], first)
    expect(len(counts) > 1 and all(live == "off" and text.endswith("results.") for live, text in counts), counts)
    expect(last[0] == "polite" and last[1].startswith("aloud.log: decoded."), last)
    expect(accessible(browser, "#log-rows")[0] == "status", accessible(browser, "#log-rows"))
    for at, button, focused in ((200, "log-back", "log-back"), (100, "log-back", "log-on"),
                                (79_700, "log-on", "log-on"), (79_800, "log-on", "log-back")):
        browser.evaluate(f"squitterLog.at = {at}; squitterLog.showRows(); byId('{button}').focus()")
        pressed(browser, " ")
        expect(browser.evaluate("document.activeElement.id") == focused, button, "at", at,
               browser.evaluate("document.activeElement.id"))
    # Each output is a status by itself, and the moment of a replay changes with each picture.
    others = browser.evaluate("[...document.querySelectorAll('output')].map((one) => one.ariaLive)")
    expect(others == ["off"], "outputs that are read aloud:", others)
    return len(counts) + 2
