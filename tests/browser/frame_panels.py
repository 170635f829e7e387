"""Parts of tests/page about its panels of a frame, of a place, and of frames that are sent."""
import json
import random
import subprocess

from chromium import Chromium
from trying import AIR_EVEN, AIR_ODD, GROUND_EVEN, GROUND_ODD, POLE_EVEN, POLE_ODD, Tries, cases, expect
from using import clicked, pressed, says, shown, texts_of, typed, value_of


def frames(tries: Tries) -> str:
    """The panel of a frame: each field's bits spell its value. (values.frame_tables has the faults.)"""
    browser = tries.page()
    good = [case["input"]["frame"] for case in cases("fields") if "refused" not in case["answer"]]
    wrong = browser.evaluate(
        "load(moduleBytes()).then((library) => "
        + json.dumps(good)
        + """.filter((text) => {
          const fields = library.read(text), bits = bitsOf(library.frame(text));
          const spelled = ROWS[fields.kind].every(({ from, bits: count, number }) =>
            BigInt("0b" + bits.slice(from - 1, from - 1 + count)) === BigInt(number(fields)));
          let next = 1;
          for (const { from, bits: count } of rowsOf(fields, bits)) next = from === next ? from + count : -1000;
          return !spelled || next !== 113;
        }))"""
    )
    expect(wrong == [], "bits and values differ:", wrong)
    clicked(browser, "[data-link]")
    says(browser, "38000 feet", "93000", "40621D", of="#frame-answer")
    return f"{len(good)} frames"


def places(tries: Tries) -> str:
    """The panel of a place beside the program, and what it says of faults."""
    browser = tries.page("place")
    rows = [
        ("pair", AIR_EVEN, AIR_ODD, "", ""),
        ("local", "", AIR_EVEN, "52.258", "3.918"),
        ("pair", GROUND_EVEN, GROUND_ODD, "51.990", "4.375"),
        ("pair", POLE_EVEN, POLE_ODD, "", ""),
        ("pair", GROUND_EVEN, GROUND_ODD, "", ""),
        ("pair", AIR_EVEN, AIR_EVEN, "", ""),
        ("local", "", AIR_EVEN, "91", "0"),
        ("pair", "x", AIR_EVEN, "", ""),
    ]
    rows += [("pair", case["input"]["older"], case["input"]["newer"], "", "") for case in cases("pair")
             if str(case["answer"].get("refused")).startswith("zone counts")][:3]
    for row in rows:
        answer = answer_beside_program(tries, *row)
    expect("Step by step" in answer, answer)
    return f"{len(rows)} places, {pictures_of_zones(browser)} pictures"


def answer_beside_program(tries: Tries, way: str, older: str, newer: str, lat: str, lon: str) -> str:
    """What the panel of a place says of these words, which is what the program says."""
    browser = tries.browser
    clicked(browser, f"[name=place-from][value={way}]")
    typed(browser, place_older=older, place_newer=newer, place_lat=lat, place_lon=lon)
    near = [f"--lat={lat}", f"--lon={lon}"] if lat else []
    words = [way, *([older] if way == "pair" else []), newer, *near]
    done = subprocess.run([tries.program, *words], capture_output=True, text=True)
    answer = shown(browser, "#place-answer")
    if done.returncode == 0:
        cells = "document.querySelector('#place-answer table').querySelectorAll('td')"
        lat_text, lat_exact, lon_text, lon_exact = browser.evaluate(f"[...{cells}].map((cell) => cell.textContent)")
        got = f"{lat_text} {lon_text}\n{lat_exact} {lon_exact}\n"
        expect(got == done.stdout, words, got, done.stdout)
    # the program refuses the word, the library the number
    refused = "bad position" if lat == "91" else done.stderr.strip()
    wanted = done.stdout.split() if done.returncode == 0 else [refused]
    expect(all(word in answer for word in wanted), words, wanted, answer)
    return answer


def pictures_of_zones(browser: Chromium) -> int:
    """The pictures of zones, by the examples, have the sizes and the marks that they should; how many there are."""
    ways = (
        ("[data-link^='#local']", "6/1", "10/1", 9),
        ("[data-link*='8D40621D58C386']", "360/59", "72/7", 17),
        ("[data-link^='#pair=8C4841']", "90/59", "18/7", 8),
    )
    for example, height, width, squares in ways:
        clicked(browser, example)
        cells = texts_of(browser, "#place-answer td")
        expect(all(any(cell.endswith(f", {size}") for cell in cells) for size in (height, width)), example, cells)
        marks = browser.evaluate("document.querySelectorAll('#place-answer .way-other').length")
        expect(marks in (squares, 9), example, "has", marks, "marks")
    return len(ways)


def sent(tries: Tries) -> str:
    """The panel of frames that are sent beside the program."""
    browser = tries.page("send")
    rng, count = random.Random(7), 0
    for kind in ("air", "ground"):
        clicked(browser, f"[name=send-kind][value={kind}]")
        for lat, lon in [("52.2572021", "3.9193726"), ("-90", "180"), ("90", "-180"), ("0", "0"), *(
                (f"{rng.uniform(-90, 90):.7f}", f"{rng.uniform(-180, 180):.7f}") for _ in range(6))]:
            count += sent_beside_program(tries, kind, lat, lon)
    clicked(browser, "[name=send-kind][value=air]")
    moved_on_picture(browser)
    for bad in ({"send_lat": "91"}, {"send_lat": "x"}, {"send_address": "4062"}):
        typed(browser, **{"send_lat": "1", "send_lon": "1", "send_address": "40621D", **bad})
        expect("Refused" in shown(browser, "#send-answer"), bad, shown(browser, "#send-answer"))
    return f"{count} frames"


def sent_beside_program(tries: Tries, kind: str, lat: str, lon: str) -> int:
    """The even and the odd frame of a place, which are those of the program; how many there are."""
    browser, parities = tries.browser, ("even", "odd")
    typed(browser, send_lat=lat, send_lon=lon, send_address="40621d", send_feet="38000")
    for number, parity in enumerate(parities):
        answer = browser.evaluate(f"[...document.querySelectorAll('#send-answer .card')][{number}].textContent")
        words = ["encode", f"--kind={kind}", f"--parity={parity}", "--address=40621d", f"--lat={lat}", f"--lon={lon}"]
        words += ["--feet=38000"] if kind == "air" else []
        done = subprocess.run([tries.program, *words], capture_output=True, text=True, check=True)
        frame = done.stdout.strip()
        expect(f"{parity.capitalize()} frame" in answer and frame in answer, words, frame, answer)
    return len(parities)


def moved_on_picture(browser: Chromium) -> None:
    """The spot on the picture of what is sent is dragged by the mouse, and moved by a key."""
    box = browser.evaluate(
        "(() => { const { left, top, width, height } = document.querySelector('.spot')"
        ".getBoundingClientRect(); return [left, top, width, height] })()"
    )
    at = [(box[0] + box[2] * part, box[1] + box[3] * part) for part in (0.5, 0.6, 0.75)]
    for kind, (x, y) in zip(("mousePressed", "mouseMoved", "mouseReleased"), at):
        browser.call("Input.dispatchMouseEvent", type=kind, x=x, y=y, button="left", buttons=1, clickCount=1)
    lat, lon = (float(value_of(browser, f"send-{name}")) for name in ("lat", "lon"))
    expect(abs(lat + 18) < 1 and abs(lon - 36) < 2, "dragged to", lat, lon)
    browser.evaluate("document.querySelector('.spot').focus()")
    pressed(browser, "ArrowUp")
    north = float(value_of(browser, "send-lat"))
    expect(abs(north - lat - 1) < 1e-6, "the arrow moves from", lat, "to", north)
    marks = browser.evaluate("document.querySelectorAll('#send-near [class^=way-]').length")
    expect(marks >= 3, "the picture has", marks, "marks")
