"""The page in use: what is typed, clicked and pressed on it, what it shows, and a log that it hears."""
import json
import os
from typing import List, Optional, Sequence

from chromium import Chromium
from logs import USUAL, Settings, tracked
from trying import Tries, expect, first_difference


def typed(browser: Chromium, **fields: str) -> None:
    """Types into fields, each named as its element is, with _ for -."""
    for name, text in fields.items():
        field = f"document.getElementById('{name.replace('_', '-')}')"
        browser.evaluate(f"{field}.value = {json.dumps(text)}")
        browser.evaluate(f"{field}.dispatchEvent(new Event('input', {{ bubbles: true }}))")


def changed(browser: Chromium, **fields: str) -> None:
    """Types into fields and leaves each, so that the browser reports a change."""
    for name, text in fields.items():
        typed(browser, **{name: text})
        browser.evaluate(f"document.getElementById('{name.replace('_', '-')}').dispatchEvent(new Event('change'))")


def clicked(browser: Chromium, selector: str) -> None:
    browser.evaluate(f"document.querySelector({json.dumps(selector)}).click()")


def shown(browser: Chromium, selector: str) -> str:
    return str(browser.evaluate(f"document.querySelector({json.dumps(selector)}).innerText"))


KEYS = {"Tab": 9, "End": 35, "Home": 36, "ArrowLeft": 37, "ArrowUp": 38, "ArrowRight": 39, "ArrowDown": 40, "Enter": 13}
ALT, CONTROL, META = 1, 2, 4


def pressed(browser: Chromium, key: str, held: int = 0) -> None:
    """Presses a key, as a person does, while other keys are held."""
    words = {"text": key} if len(key) == 1 else {"windowsVirtualKeyCode": KEYS[key]} if key in KEYS else {}
    for kind in ("keyDown", "keyUp"):
        browser.call("Input.dispatchKeyEvent", type=kind, key=key, code=key, modifiers=held, **words)


def heard(browser: Chromium) -> bytes:
    """The text of the answers, once the log is heard."""
    browser.wait("squitterLog.worker === null")
    return str(browser.evaluate("squitterLog.texts().then((texts) => texts.join(''))")).encode()


def heard_right(tries: Tries, log: bytes, settings: Settings = USUAL, *what: object) -> bytes:
    """The text of the answers, once the log is heard: that of the program."""
    got, wanted = heard(tries.browser), tracked(tries.program, log, settings)
    expect(got == wanted, *what, first_difference(got, wanted))
    return got


def example_page(tries: Tries) -> Chromium:
    """The panel of a log, once it has heard the example."""
    browser = tries.page("log")
    clicked(browser, "#log-example")
    heard(browser)
    return browser


def given_file(browser: Chromium, path: str, data: Optional[bytes] = None, until: str = "worker === null") -> None:
    """Gives the page a file, with these bytes if there are any. Waits until it is heard or refused."""
    if data is not None:
        with open(path, "wb") as file:
            file.write(data)
    browser.evaluate("squitterLog.name = ''; document.getElementById('log-file').value = ''")
    browser.give("#log-file", path)
    browser.wait(f"squitterLog.name === {json.dumps(os.path.basename(path))} && squitterLog.{until}")


def says(browser: Chromium, *texts: str, of: str = "#log-state") -> None:
    """Fails unless an element shows these texts."""
    text = shown(browser, of)
    expect(all(one in text for one in texts), of, "says", text, "and not", texts)


def texts_of(browser: Chromium, selector: str) -> List[str]:
    """The texts of all elements of a selector."""
    found = f"[...document.querySelectorAll({json.dumps(selector)})]"
    return list(browser.evaluate(f"{found}.map((one) => one.textContent)"))


def value_of(browser: Chromium, name: str) -> str:
    return str(browser.evaluate(f"document.getElementById('{name}').value"))


def given_log(browser: Chromium, tries: Tries, log: bytes) -> None:
    """Hears a log as a file."""
    given_file(browser, f"{tries.work}/given.log", log)


# Drops what a function adds to the transfer on an element, by events of these names. Returns for each whether the page
# has taken it, and whether the place to drop a file is marked.
DROPPED = """((add, id, names) => names.map((name) => {
  const dataTransfer = new DataTransfer();
  add(dataTransfer);
  const event = new DragEvent(name, { dataTransfer, bubbles: true, cancelable: true });
  (document.getElementById(id) ?? document.body).dispatchEvent(event);
  return [event.defaultPrevented, byId("log-drop").classList.contains("over")];
}))"""


def dropped(browser: Chromium, where: str, names: Sequence[str], text: str, *files: str) -> List[List[bool]]:
    """Drops files of these names, each with this text, or the text itself if there are none."""
    given = "".join(f"to.items.add(new File([{json.dumps(text)}], '{name}'));" for name in files)
    given = given or f"to.setData('text/plain', {json.dumps(text)})"
    return list(browser.evaluate(f"{DROPPED}((to) => {{ {given} }}, '{where}', {json.dumps(names)})"))
