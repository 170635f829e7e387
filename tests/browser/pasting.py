"""Parts of tests/page about what is pasted and copied, and about the page on a phone."""
import json
import re
from typing import Any, Dict

from chromium import Chromium
from logs import USUAL, flights
from trying import AIR_EVEN, AIR_ODD, GROUND_ODD, Tries, expect
from using import clicked, heard, heard_right, says, shown, texts_of, typed

PERMISSIONS = ["clipboardReadWrite", "clipboardSanitizedWrite"]


def granted(browser: Chromium, *names: str) -> None:
    """Grants permissions to all pages, and no others."""
    page, browser.session = browser.session, None
    browser.call("Browser.resetPermissions")
    browser.call("Browser.grantPermissions", permissions=list(names))
    browser.session = page


def pasted_into(browser: Chromium, selector: str, text: str) -> None:
    """Pastes a text into a field by the clipboard and the keyboard, as a person does."""
    browser.evaluate(f"document.querySelector('{selector}').focus(); document.querySelector('{selector}').select()")
    pasted_here(browser, text)


def pasted_here(browser: Chromium, text: str) -> None:
    """Pastes a text where the cursor is."""
    browser.evaluate(f"squitterLog.name = ''; navigator.clipboard.writeText({json.dumps(text)})")
    keys: Dict[str, Any] = {"key": "v", "code": "KeyV", "windowsVirtualKeyCode": 86, "modifiers": 2}
    browser.call("Input.dispatchKeyEvent", type="keyDown", commands=["paste"], **keys)
    browser.call("Input.dispatchKeyEvent", type="keyUp", **keys)
    browser.wait("squitterLog.name === 'pasted text'")


def pasted(tries: Tries) -> str:
    """A log, AVR with times and CSV are decoded as they are pasted, with what the program answers to their log. Text
    without times says what is missing; typed text is decoded once its field is left."""
    browser = tries.page("log")
    granted(browser, *PERMISSIONS)
    frames = re.findall(r"^\d+ \*?(8[C-F][0-9A-F]{26});?$", flights().decode(), re.M)[:300]
    timed = list(zip(range(1000, 10**9, 100), frames))
    log = "".join(f"{moment} {frame}\n" for moment, frame in timed)
    texts = {
        "a log": log,
        "AVR": "".join(f"@{12_000 * moment:012X}{frame};\n" for moment, frame in timed),
        "CSV": "time,icao24,rawmsg\n"
        + "".join(f"{moment / 1000:.3f},{frame[2:8].lower()},{frame.lower()}\n" for moment, frame in timed),
    }
    for name, text in texts.items():
        browser.evaluate("scrollTo(0, 0)")
        pasted_into(browser, "#log-paste", text)
        wanted = heard_right(tries, log.encode(), USUAL, name)
        expect(b" fix " in wanted, name, "has no fix")
        expect(shown(browser, "#log-state").startswith("pasted text: decoded."), shown(browser, "#log-state"))
        expect(browser.evaluate("document.activeElement.id") == "log-paste", name, "moves the focus")
    pasted_again(browser, texts["CSV"], wanted)
    untimed = "".join(f"*{frame};\n" for _, frame in timed[:10])
    pasted_into(browser, "#log-paste", untimed)
    heard_right(tries, untimed.encode())
    says(browser, "No line has a timestamp.")
    browser.evaluate("squitterLog.name = ''; document.getElementById('log-paste').select()")
    browser.call("Input.insertText", text=f"1 {AIR_EVEN}\n500 {AIR_ODD}")
    expect(browser.evaluate("squitterLog.name") == "", "text is decoded while it is typed")
    browser.evaluate("document.getElementById('log-paste').blur()")
    browser.wait("squitterLog.name === 'pasted text'")
    expect(b" fix " in heard_right(tries, f"1 {AIR_EVEN}\n500 {AIR_ODD}".encode()), "no fix")
    return f"{len(texts)} formats, text without times, and typed text"


def pasted_again(browser: Chromium, text: str, wanted: bytes) -> None:
    """The text that was pasted last is decoded again if it is pasted again, but not as its field is left."""
    clicked(browser, "#log-example")
    heard(browser)
    pasted_into(browser, "#log-paste", text)
    expect(heard(browser) == wanted, "the same text pasted again")
    browser.evaluate("squitterLog.name = ''; document.getElementById('log-paste').blur()")
    expect(browser.evaluate("squitterLog.name") == "", "pasted text is decoded again as its field is left")


# Notes how many milliseconds pass from the event of a paste to the start of its log.
TIMED_PASTES = """(() => {
  const open = squitterLog.open;
  let begun = 0;
  window.pastes = [];
  document.addEventListener("paste", () => { begun = performance.now(); }, true);
  squitterLog.open = (...words) => {
    window.pastes.push(performance.now() - begun);
    return open.apply(squitterLog, words);
  };
})()"""


def pasted_over(tries: Tries) -> str:
    """A log that is pasted over another is heard as soon as one that is pasted into an empty field. What is not
    selected stays, and the cursor stands behind the text. A file on the clipboard is no text."""
    browser, field = tries.page("log"), "document.getElementById('log-paste')"
    granted(browser, *PERMISSIONS)
    browser.evaluate(TIMED_PASTES)
    for first in (1000, 2000):
        log = "".join(f"{first + number} {AIR_EVEN}\n" for number in range(6000))
        pasted_into(browser, "#log-paste", log)
        expect(heard(browser).startswith(b"1 waiting "), "no answers")
        expect(browser.evaluate(f"{field}.value") == log, "the field has another text")
    before, after = browser.evaluate("window.pastes")
    expect(after < 5 * before + 500, "pasted over a log takes", after, "ms, and at first", before)
    browser.evaluate(f"{field}.value = 'one\\ntwo\\nthree'; {field}.focus(); {field}.setSelectionRange(4, 7)")
    pasted_here(browser, f"5 {AIR_ODD}")
    heard(browser)
    got = browser.evaluate(f"[{field}.value, {field}.selectionStart, {field}.selectionEnd]")
    expect(got == [f"one\n5 {AIR_ODD}\nthree", 34, 34], got)
    got = browser.evaluate(
        f"(() => {{ const clipboardData = new DataTransfer(); clipboardData.items.add(new File(['x'], 'x.png'));"
        f"const event = new ClipboardEvent('paste', {{ clipboardData, cancelable: true, bubbles: true }});"
        f"return [{field}.dispatchEvent(event), {field}.value.length]; }})()")
    expect(got == [True, 40], got)
    return f"6000 lines over 6000 in {after:.0f} ms, at first in {before:.0f} ms"


def copied(tries: Tries) -> str:
    """The button of a frame copies it: by the clipboard, by a selection if that is refused, and if both are refused
    the frame is selected for the reader."""
    browser = tries.page("send")
    for name, refuse in (
        ("clipboard", ""),
        ("selection", "navigator.clipboard.writeText = () => Promise.reject(new DOMException('', 'NotAllowedError'));"),
        ("nothing", "document.execCommand = () => false;"),
    ):
        granted(browser, *PERMISSIONS)
        browser.evaluate(f"{refuse} 0")
        for number, parity in enumerate(("even", "odd")):
            frame = shown(browser, f"#send-answer .card:nth-child({number + 1}) code")
            expect(len(frame) == 28, parity, frame)
            button = f"#send-answer .card:nth-child({number + 1}) button"
            browser.evaluate(f"document.querySelector('{button}').focus(); getSelection().removeAllRanges()")
            browser.call("Runtime.evaluate", expression=f"document.querySelector('{button}').click()", userGesture=True)
            browser.wait(f"document.querySelector('{button}').textContent !== 'Copy'")
            said, there = shown(browser, button), browser.evaluate("navigator.clipboard.readText()")
            chosen = browser.evaluate("getSelection().toString()")
            if name == "nothing":
                expect(said == "Press Ctrl+C" and chosen == frame, parity, said, chosen)
            else:
                expect(said == "Copied" and there == frame, name, parity, said, there, frame)
            expect(browser.evaluate(f"document.activeElement === document.querySelector('{button}')"), "focus", name)
        browser.wait("![...document.querySelectorAll('#send-answer .copy')].some((one) => one.textContent !== 'Copy')")
    left = browser.evaluate("[document.querySelectorAll('body > textarea').length, ...[...document.querySelectorAll("
                            "'#send-answer .copy')].map((one) => one.getAttribute('aria-label'))]")
    expect(left == [0, "Copy the even frame", "Copy the odd frame"], left)
    frames = [shown(browser, f"#send-answer .card:nth-child({at}) code") for at in (1, 2)]
    tops = browser.evaluate("[...document.querySelectorAll('#send-answer .card')].map((one) => "
                            "one.getBoundingClientRect().top)")
    expect(frames[0] != frames[1] and tops[0] == tops[1], "the frames are not side by side:", frames, tops)
    return "two frames in three ways"


# The targets of a finger that are seen and are too small. A radio button is meant by its label too.
SMALL = """[...document.querySelectorAll('button, input, select, textarea, summary, [role=tab]')].filter((one) => {
  const target = one.type === 'radio' ? one.closest('label') : one, { width, height } = target.getBoundingClientRect();
  return width > 0 && (width < 44 || height < 44);
}).map((one) => `${one.outerHTML.slice(0, 80)} ${one.getBoundingClientRect().width} ` +
  `${one.getBoundingClientRect().height}`)"""

# The cells and captions that are cut, and what goes over the sides of the page.
CUT = """[...document.querySelectorAll('main *')].filter((one) => {
  const { left, right, width } = one.getBoundingClientRect();
  return width > 0 && !one.closest('svg, .marked, .away, thead') && (left < -1 || right > innerWidth + 1 ||
    (one.matches('td, th, caption, button, label, p, code') && one.scrollWidth > one.clientWidth + 1 &&
      getComputedStyle(one).display !== 'inline'));
}).map((one) => one.outerHTML.slice(0, 100))"""

STATES = (
    ("frame", "[data-link='#frame=8D40621D58C382D690C8AC2863A7']"),
    ("frame", f"[data-link='#frame={GROUND_ODD}']"),
    ("frame", "[data-link='#frame=8D4840D6202CC371C32CE0576098']"),
    ("frame", "[data-link='#frame=8D40621D58C382D690C8AC2863A6']"),
    ("frame", "[data-link^='#frame=*']"),
    ("place", "[data-link*='8D40621D58C386']"),
    ("place", "[data-link^='#local']"),
    ("place", "[data-link^='#pair=8C4841']"),
    ("place", "[data-link*='8D43029E']"),
    ("send", "[name=send-kind][value=ground]"),
    ("send", "[name=send-kind][value=air]"),
    ("log", "summary"),
)


def phone(tries: Tries) -> str:
    """On a phone no panel goes over the sides of the page or is cut, targets have 44 points each way, and the tabs
    stand in one row; tables of more than two columns are cards."""
    browser, count = tries.page("log"), 0
    browser.look(390, 844, False)
    clicked(browser, "#log-example")
    heard(browser)
    for width in (390, 360):
        browser.look(width, 844, False)
        for panel, state in STATES:
            clicked(browser, f"#tab-{panel}")
            clicked(browser, state)
            browser.evaluate("new Promise((done) => setTimeout(done, 30))")
            wide = browser.evaluate("document.documentElement.scrollWidth")
            expect(wide <= width, panel, state, "is", wide, "wide on", width)
            expect(browser.evaluate(SMALL) == [], panel, "has small targets:", browser.evaluate(SMALL))
            expect(browser.evaluate(CUT) == [], panel, state, "is cut:", browser.evaluate(CUT))
            tables = browser.evaluate("[...document.querySelectorAll('[role=tabpanel]:not([hidden]) table')].filter("
                                      "(one) => one.rows[0].cells.length > 2).map((one) => "
                                      "getComputedStyle(one.tBodies[0].rows[0]).display)")
            expect(set(tables) <= {"block", "grid"}, panel, "has tables that are no cards:", tables)
            count += 1
        tops = browser.evaluate("[...document.querySelectorAll('[role=tab]')].map((one) => "
                                "[one.getBoundingClientRect().top, one.getBoundingClientRect().height])")
        expect(len({top for top, _ in tops}) == 1 and max(high for _, high in tops) < 60, "tabs at", tops)
    return f"{count} states"


FORMS = (("pair", "Older frame", "Newer frame", "Latitude of your receiver"),
         ("local", None, "Frame", "Latitude of the reference"))


def place_form(tries: Tries) -> str:
    """The labels of a position follow the mode, the older frame stands before the newer, and the picture before the
    numbers."""
    browser = tries.page("place")
    for way, older, newer, lat in FORMS:
        clicked(browser, f"[data-link^='#{way}']")
        labels = browser.evaluate("[...document.querySelectorAll('#place-form .fields label')].filter((one) => "
                                  "one.offsetParent).map((one) => one.textContent)")
        expect(labels[:-1] == [text for text in (older, newer, lat) if text], way, labels)
        follows = browser.evaluate("document.querySelector('#place-answer svg').compareDocumentPosition("
                                   "document.querySelector('#place-answer table')) & Node.DOCUMENT_POSITION_FOLLOWING")
        expect(follows, way, "has its numbers before the picture")
        left, right = browser.evaluate("['svg', 'table'].map((name) => document.querySelector(`#place-answer ${name}`)"
                                       ".getBoundingClientRect().top)")
        expect(left <= right + 1, way, "has the picture below the numbers")
    return f"{len(FORMS)} modes"


# The labels of a picture that overlap another one or a mark, and those that are cut at its sides.
OVERLAPS = """((selector) => {
  const picture = document.querySelector(selector), { width, height } = picture.viewBox.baseVal;
  const boxOf = (one) => [one, one.getBBox()], texts = [...picture.querySelectorAll("text")].map(boxOf);
  const marks = [...picture.querySelectorAll(".way-place, .way-other, .way-given")].map(boxOf);
  const isOver = (a, b) => a.x < b.x + b.width && b.x < a.x + a.width && a.y < b.y + b.height - 3 &&
    b.y < a.y + a.height - 3;
  const isCut = (a) => a.x < 0 || a.y < -2 || a.x + a.width > width || a.y + a.height > height + 2;
  const found = texts.filter(([one, box]) => isCut(box) || [...texts, ...marks].some(([other, its]) =>
    other !== one && isOver(box, its)));
  return [texts.length, found.map(([one]) => one.textContent)];
})"""


def picture_labels(tries: Tries) -> str:
    """No label of a picture overlaps another or a mark, or is cut: of positions by the examples, and of frames of
    positions in many places, some of which round to nearly the same point."""
    browser, count = tries.page("place"), 0
    for example in ("[data-link*='8D40621D58C386']", "[data-link^='#local']", "[data-link^='#pair=8C4841']",
                    "[data-link*='8D43029E']"):
        clicked(browser, example)
        labels, found = browser.evaluate(f"{OVERLAPS}('#place-answer svg')")
        expect(found == [] and labels > 3, example, "has labels that overlap:", found, "of", labels)
        count += labels
    clicked(browser, "#tab-send")
    for lat, lon in (("52.2572021", "3.9193726"), ("0", "0"), ("-33.9", "151.2"), ("90", "180"), ("-90", "-180"),
                     ("10.00001", "179.99999"), ("47.1", "-0.00001"), ("64.0", "-21.9")):
        typed(browser, send_lat=lat, send_lon=lon)
        for picture in ("#send-map svg", "#send-near svg"):
            labels, found = browser.evaluate(f"{OVERLAPS}('{picture}')")
            expect(found == [], picture, "of", lat, lon, "has labels that overlap:", found)
            count += labels
        near = texts_of(browser, "#send-near text:not(.way-label)")
        expect(near == ["even", "odd"], lat, lon, "has the labels", near)
    return f"{count} labels"
