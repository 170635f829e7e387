"""Parts of tests/page about its links: what an address fills in and shows, the links that the page gives, and what the
buttons beside an answer copy."""
import json
import re
from typing import List, Sequence, Tuple

from chromium import Chromium
from trying import AIR_EVEN, AIR_ODD, GROUND_EVEN, GROUND_ODD, INDEX, Tries, expect
from using import clicked, heard, says, shown, texts_of, typed, value_of

FIELDS = {"frame": ["frame-text"], "pair": ["place-older", "place-newer", "place-lat", "place-lon"],
          "local": ["place-newer", "place-lat", "place-lon"]}
TABS = {"frame": "frame", "pair": "place", "local": "place"}
# The pairs of the textbook (The 1090 Megahertz Riddle), as far as it prints them.
PLACE, GROUND_PLACE = "Latitude 52.2657802, longitude 3.9389125", "Latitude 52.3206"
Row = Tuple[str, str, List[str], str]

# The kind of a link and what follows it, the fields that it fills in, and how the answer begins.
OPENED: Sequence[Row] = (
    ("frame", GROUND_ODD, [GROUND_ODD], "484175: surface position"),
    ("frame", GROUND_ODD.lower(), [GROUND_ODD.lower()], "484175: surface position"),
    ("frame", f"*{AIR_EVEN}%3B", [f"*{AIR_EVEN};"], "40621D: airborne position"),
    ("frame", f"*{AIR_EVEN};", [f"*{AIR_EVEN};"], "40621D: airborne position"),
    ("frame", AIR_EVEN[:27], [AIR_EVEN[:27]], "Refused: bad length 27:"),
    ("frame", f"{AIR_EVEN}0", [f"{AIR_EVEN}0"], "Refused: bad length 29:"),
    ("frame", "", [""], "Refused: bad length 0:"),
    ("frame", "0" * 100_000, ["0" * 100_000], "Refused: bad length 100000:"),
    ("frame", f"{AIR_EVEN},", [f"{AIR_EVEN},"], "Refused: bad length 29:"),
    ("frame", f"{AIR_EVEN},{AIR_ODD}", [f"{AIR_EVEN},{AIR_ODD}"], "Refused: bad length 57:"),
    ("frame", "<img src=x onerror=alert(1)>", ["<img src=x onerror=alert(1)>"], "Refused: bad digit 1:"),
    ("frame", "%3Cimg src=x%3E", ["<img src=x>"], "Refused: bad length 11:"),
    ("frame", "a=b%3dc#d", ["a=b=c#d"], "Refused: bad length 7:"),
    ("frame", "100%", ["100%"], "Refused: bad length 4:"),
    ("frame", "%C3%A9%c3", ["%C3%A9%c3"], "Refused: bad length 9:"),
    ("frame", "%C3%A9", ["\u00e9"], "Refused: bad length 2:"), ("frame", "%0Ax", ["x"], "Refused: bad length 1:"),
    ("pair", f"{AIR_EVEN},{AIR_ODD}", [AIR_EVEN, AIR_ODD, "", ""], PLACE),
    ("pair", f"{GROUND_EVEN},{GROUND_ODD}", [GROUND_EVEN, GROUND_ODD, "", ""], "No position: no site"),
    ("pair", f"{GROUND_EVEN},{GROUND_ODD},51.990,4.375", [GROUND_EVEN, GROUND_ODD, "51.990", "4.375"],
     GROUND_PLACE),
    ("pair", f"{GROUND_EVEN},{GROUND_ODD},51.990", [GROUND_EVEN, GROUND_ODD, "51.990", ""],
     "Refused: longitude not a number"),
    ("pair", f"{GROUND_EVEN},{GROUND_ODD},1,2,3", [GROUND_EVEN, GROUND_ODD, "1", "2,3"],
     "Refused: longitude not a number"),
    ("pair", f"{AIR_EVEN},{AIR_EVEN}", [AIR_EVEN, AIR_EVEN, "", ""], "No position: same parity"),
    ("pair", AIR_EVEN, [AIR_EVEN, "", "", ""], "Refused: bad length 0:"),
    ("pair", f",{AIR_EVEN}", ["", AIR_EVEN, "", ""],
     "Type the older frame: of the same aircraft, and of the other parity."),
    ("local", f"{AIR_EVEN},52.258,3.918", [AIR_EVEN, "52.258", "3.918"], "Latitude 52.2572021, longitude 3.9193726"),
    ("local", f"{AIR_EVEN},%2052.258%20,3.918", [AIR_EVEN, " 52.258 ", "3.918"],
     "Latitude 52.2572021, longitude 3.9193726"),
    ("local", AIR_EVEN, [AIR_EVEN, "", ""], "Refused: latitude not a number"),
    ("local", f"{AIR_EVEN},52.258,3.918,1", [AIR_EVEN, "52.258", "3.918,1"], "Refused: longitude not a number"),
)


def filled(browser: Chromium, kind: str) -> List[str]:
    return [value_of(browser, name) for name in FIELDS[kind]]


def first_line(browser: Chromium, tab: str) -> str:
    return texts_of(browser, f"#{tab}-answer [aria-live]")[0].strip()


def is_opened(browser: Chromium, row: Row, why: str) -> None:
    """Fails unless the tab of a link is open, its form filled in, and its answer the one that typing gives."""
    kind, _, fields, said = row
    tab = TABS[kind]
    open_tab = texts_of(browser, "[aria-selected=true]")
    expect(open_tab == [{"frame": "Frame", "place": "Position"}[tab]], why, row, open_tab)
    expect(filled(browser, kind) == fields, why, row, filled(browser, kind))
    expect(first_line(browser, tab).startswith(said), why, row, first_line(browser, tab))
    if tab == "place":
        chosen = browser.evaluate("document.querySelector('[name=place-from]:checked').value")
        expect(chosen == kind, why, row, chosen)
    expect(browser.evaluate("document.querySelectorAll('main img').length") == 0, why, row, "makes HTML")
    answer = shown(browser, f"#{tab}-answer")
    typed(browser, **{FIELDS[kind][0].replace("-", "_"): fields[0]})
    expect(shown(browser, f"#{tab}-answer") == answer, why, row, "differs from what is typed")


def moved_to(browser: Chromium, go: str) -> None:
    """Changes the address by a script, and waits until the page has seen it."""
    browser.evaluate(f"new Promise((done) => {{ addEventListener('hashchange', () => done(), {{ once: true }}); {go}; "
                     "})")


def opened(tries: Tries) -> str:
    """A link opens the tab, fills in the form and shows the answer: as the page starts, and while it is open. Input
    that is bad or too long is refused as typed input is."""
    at_start = OPENED[::5]
    for row in at_start:
        browser = tries.page(f"{row[0]}={row[1]}")
        is_opened(browser, row, "at the start")
    browser = tries.page("send")
    for row in OPENED:
        clicked(browser, "#tab-send")
        moved_to(browser, f"location.hash = {json.dumps(f'{row[0]}={row[1]}')}")
        is_opened(browser, row, "while it is open")
    for text in ("pairs=1,2", "constructor=1", "=1", "frame", "#frame=1"):
        browser = tries.page(text)
        expect(filled(browser, "frame") == [AIR_EVEN] and first_line(browser, "frame").startswith("40621D"), text)
        expect(browser.evaluate("location.hash") == "#frame", text, browser.evaluate("location.hash"))
    return f"{len(OPENED)} links, {len(at_start)} at the start"


def kept(tries: Tries) -> str:
    """The address keeps a link until its form changes or another tab opens; an example puts its own link there."""
    browser = tries.page(f"frame={GROUND_ODD}")

    def address(wanted: str, why: str) -> None:
        expect(browser.evaluate("location.hash") == wanted, why, browser.evaluate("location.hash"))
    address(f"#frame={GROUND_ODD}", "at the start")
    typed(browser, frame_text=AIR_EVEN)
    address("#frame", "after a change")
    clicked(browser, "[data-link^='#local']")
    address(f"#local={AIR_EVEN},52.258,3.918", "an example")
    typed(browser, place_lat="52.3")
    address("#place", "after a change of the position")
    clicked(browser, "[data-link^='#pair']")
    clicked(browser, "#tab-log")
    address("#log", "another tab")
    return "5 addresses"


# The clipboard, which takes each text (true) or refuses it (false), and keeps what it took.
CLIPBOARD = """((takes) => {
  window.taken = [];
  const took = (text) => takes ? (taken.push(text), Promise.resolve()) : Promise.reject(new Error("refused"));
  Object.defineProperty(navigator, "clipboard", { value: { writeText: took }, configurable: true });
  document.execCommand = () => false;
})"""


def copied(browser: Chromium, selector: str) -> str:
    """The text that a button copies. If the clipboard refuses, the page shows the same text, and selects it."""
    browser.evaluate(f"{CLIPBOARD}(true)")
    clicked(browser, selector)
    browser.wait("taken.length === 1", 5)
    text = str(browser.evaluate("taken[0]"))
    row = "document.querySelector({0}).parentElement.querySelector('.copied')".format(json.dumps(selector))
    expect(browser.evaluate(f"{row}.getClientRects().length") == 0, selector, "shows what it copied")
    browser.evaluate(f"{CLIPBOARD}(false)")
    clicked(browser, selector)
    browser.wait(f"{row}.textContent !== ''", 5)
    left = browser.evaluate(f"[{row}.textContent, String(getSelection()), {row}.getClientRects().length > 0]")
    expect(left == [text, text, True], selector, left, text)
    return text


def copies(tries: Tries) -> str:
    """Each form copies a link that opens it as it stands, and an answer its position, as the program prints it. A link
    that waits to be copied by hand is gone after a change."""
    browser = tries.page("frame")
    rows = (
        ("frame", {"frame_text": f" *{AIR_EVEN}; "}, f"#frame=*{AIR_EVEN}%3B"),
        ("frame", {"frame_text": "\u00e9, <b>"}, "#frame=%C3%A9%2C%20%3Cb%3E"),
        ("frame", {"frame_text": "\ud800x"}, "#frame=%EF%BF%BDx"),
        ("frame", {"frame_text": ""}, "#frame="),
        ("pair", {"place_older": AIR_EVEN, "place_newer": AIR_ODD}, f"#pair={AIR_EVEN},{AIR_ODD}"),
        ("pair", {"place_older": GROUND_EVEN, "place_newer": GROUND_ODD, "place_lat": "51.990", "place_lon": "-4.5"},
         f"#pair={GROUND_EVEN},{GROUND_ODD},51.990,-4.5"),
        ("pair", {"place_older": "", "place_lat": "", "place_lon": "1"}, f"#pair=,{GROUND_ODD},,1"),
        ("local", {"place_newer": AIR_EVEN, "place_lat": "52.258", "place_lon": "3.918"},
         f"#local={AIR_EVEN},52.258,3.918"),
    )
    for kind, texts, wanted in rows:
        tab = TABS[kind]
        clicked(browser, f"#tab-{tab}")
        if tab == "place":
            clicked(browser, f"[name=place-from][value={kind}]")
        typed(browser, **texts)
        button = f"#{tab}-form button.copy"
        expect(copied(browser, button) == INDEX + wanted, kind, texts, wanted)
        fields, answer = [text.strip() for text in filled(browser, kind)], first_line(browser, tab)
        typed(browser, **{FIELDS[kind][0].replace("-", "_"): "x"})
        expect(shown(browser, f"#{tab}-form .copied") == "", "a link of other input is left")
        if "\ufffd" not in wanted and "%EF" not in wanted:
            moved_to(browser, f"location.hash = {json.dumps(wanted)}")
            expect([filled(browser, kind), first_line(browser, tab)] == [fields, answer], wanted)
    names = browser.evaluate("[...document.querySelectorAll('form button.copy')].map((one) => one.ariaLabel)")
    expect(all(name.endswith(" to what is typed here") for name in names) and len(names) == 2, names)
    copied(browser, "#place-form button.copy")
    clicked(browser, f"[data-link='#pair={AIR_EVEN},{AIR_ODD}']")
    expect(shown(browser, "#place-form .copied") == "", "a link is left beside another example")
    for at, wanted in ((1, "52.2657802 3.9389125"), (2, "25261515/483328 225873/57344")):
        clicked(browser, f"[data-link='#pair={AIR_EVEN},{AIR_ODD}']")
        text = copied(browser, f"#place-answer button.copy:nth-of-type({at})")
        expect(text == wanted, text, wanted)
    return f"{len(rows)} links, 2 texts"


def onward(tries: Tries) -> str:
    """A frame with a position leads to Position, and a pair to the log, which decodes it as the pair was. A frame
    without a position, one that is refused and a frame near a reference do not."""
    browser = tries.page("frame")
    links = "[...document.querySelectorAll('[role=tabpanel]:not([hidden]) a')].map((one) => one.getAttribute('href'))"
    for text, wanted in (("8D4840D6202CC371C32CE0576098", []), ("x", []), (f"*{AIR_ODD};", [f"#pair=,*{AIR_ODD}%3B"]),
                         (AIR_ODD, [f"#pair=,{AIR_ODD}"])):
        typed(browser, frame_text=text)
        expect(browser.evaluate(links) == wanted, text, browser.evaluate(links))
    moved_to(browser, "document.querySelector('#frame-answer a').click()")
    expect(filled(browser, "pair") == ["", AIR_ODD, "", ""], filled(browser, "pair"))
    expect(browser.evaluate(links) == [], "a frame alone leads on")
    typed(browser, place_older=AIR_EVEN)
    expect(first_line(browser, "place") == PLACE, first_line(browser, "place"))
    log = f"#log=0%20{AIR_EVEN}%0A1000%20{AIR_ODD}"
    expect(browser.evaluate(links) == [log], browser.evaluate(links))
    for _ in range(2):  # the second time the field has the same text
        clicked(browser, "#tab-place")
        moved_to(browser, "document.querySelector('#place-answer a').click()")
        says(browser, "pasted text", of="#log-state")
        expect(heard(browser) == b"1 waiting 40621D\n2 fix 40621D 52.2657802 3.9389125\n", heard(browser))
        clicked(browser, "#log-example")
        heard(browser)
    moved_to(browser, f"location.hash = {json.dumps(f'pair={GROUND_EVEN},{GROUND_ODD},51.990,4.375')}")
    moved_to(browser, "document.querySelector('#place-answer a').click()")
    expect([value_of(browser, f"log-{name}") for name in ("lat", "lon")] == ["51.990", "4.375"], "the receiver")
    wanted = rb"1 waiting 484175\n2 fix 484175 52\.3206\d{3} 4\.7347\d{3}\n"
    expect(re.fullmatch(wanted, heard(browser)), heard(browser))
    clicked(browser, "[data-link^='#local']")
    expect(browser.evaluate(links) == [], "a frame near a reference leads on")
    return "2 steps"
