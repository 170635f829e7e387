"""A part of tests/page about the colours that a reader sees: each text and each control beside what is behind it."""
import json
from typing import Any, Dict, Iterator, List, Tuple

from chromium import Chromium
from trying import Tries, expect
from using import clicked, example_page, pressed, typed

# Returns [what, selector, colour, background, least, contrast] for each text and each outline that is shown. The
# contrast is that of WCAG 2.1, from 1 to 21. Large text has 24 px, or 18.66 px in bold type. Radio buttons, sliders,
# progress bars and buttons of files are drawn by the browser.
CONTRASTS = """(() => {
  const pen = document.createElement("canvas").getContext("2d", { willReadFrequently: true });
  const parts = (colour) => {
    pen.clearRect(0, 0, 1, 1);
    pen.fillStyle = colour;
    pen.fillRect(0, 0, 1, 1);
    const [r, g, b, a] = pen.getImageData(0, 0, 1, 1).data;
    return { rgb: [r, g, b], alpha: a / 255 };
  };
  const over = ({ rgb, alpha }, below) => rgb.map((part, at) => part * alpha + below[at] * (1 - alpha));
  const linear = (part) => part / 255 <= 0.04045 ? part / 255 / 12.92 : ((part / 255 + 0.055) / 1.055) ** 2.4;
  const light = (rgb) => [0.2126, 0.7152, 0.0722].reduce((sum, share, at) => sum + share * linear(rgb[at]), 0);
  const ratio = (one, other) => {
    const [low, high] = [light(one), light(other)].sort((a, b) => a - b);
    return (high + 0.05) / (low + 0.05);
  };
  const behind = (one) => {
    if (!one) return over(parts("Canvas"), [255, 255, 255]);
    const { backgroundColor } = getComputedStyle(one), colour = parts(backgroundColor);
    return colour.alpha === 1 ? colour.rgb : over(colour, behind(one.parentElement));
  };
  const opacity = (one) => one ? Number(getComputedStyle(one).opacity) * opacity(one.parentElement) : 1;
  const nameOf = (one) => {
    const own = one.localName + (one.id && `#${one.id}`) + [...one.classList].map((name) => `.${name}`).join("");
    return one.id || !one.parentElement ? own : `${nameOf(one.parentElement)} > ${own}`;
  };
  const found = new Map();
  const compare = (what, one, colour, below, least) => {
    const { rgb, alpha } = parts(colour), seen = over({ rgb, alpha: alpha * opacity(one) }, below);
    const row = [what, nameOf(one), seen.map(Math.round).join(), below.map(Math.round).join(), least];
    found.set(row.join(), [...row, ratio(seen, below)]);
  };
  const text = (what, one, style, below) => {
    const size = parseFloat(style.fontSize), isLarge = size >= 24 || (size >= 18.66 && style.fontWeight >= 700);
    const colour = one.closest("svg") ? style.fill : style.color;
    compare(what, one, colour, one.closest("svg") ? parts(style.stroke).rgb : below, isLarge ? 3 : 4.5);
  };
  const isSeen = (one) => one.checkVisibility({ visibilityProperty: true }) && one.getClientRects().length > 0;
  const DRAWN = "[type=radio], [type=range], progress", CONTROLS = "button, input, select, textarea, canvas";
  for (const one of document.body.querySelectorAll("*")) {
    if (!isSeen(one)) continue;
    const style = getComputedStyle(one), below = behind(one), outside = behind(one.parentElement);
    if ([...one.childNodes].some((node) => node.nodeType === 3 && node.data.trim())) text("text", one, style, below);
    if (one.value && !one.matches(DRAWN)) text("value", one, style, below);
    if (one.placeholder) text("placeholder", one, getComputedStyle(one, "::placeholder"), below);
    for (const pseudo of ["::before", "::after"]) {
      const added = getComputedStyle(one, pseudo);
      if (!["none", "normal", '""'].includes(added.content)) text(pseudo, one, added, below);
    }
    if (one.matches(CONTROLS) && !one.matches(DRAWN)) {
      // A control without a border has its text alone, or the background.
      if (style.borderTopWidth !== "0px") compare("border", one, style.borderTopColor, outside, 3);
      one.focus();
      const { outlineColor, outlineStyle } = getComputedStyle(one);
      if (outlineStyle !== "none") compare("focus", one, outlineColor, outside, 3);
    }
    if (one.getAttribute("aria-selected") === "true") compare("tab", one, style.borderBottomColor, outside, 3);
    if (one.matches(".notice, .refusal, .over")) {
      compare("edge", one, one.matches(".over") ? style.outlineColor : style.borderLeftColor, outside, 3);
    }
    if (one.localName === "mark") compare("mark", one, style.outlineColor, outside, 3);
  }
  return [...found.values()];
})()"""


def views(browser: Chromium) -> Iterator[Tuple[str, str]]:
    """Shows the panels one after the other, with results and with errors. Yields their names."""
    for panel in ("frame", "place"):
        clicked(browser, f"#tab-{panel}")
        buttons = f"#panel-{panel} .examples button"
        for index in range(browser.evaluate(f"document.querySelectorAll('{buttons}').length")):
            browser.evaluate(f"document.querySelectorAll('{buttons}')[{index}].click()")
            yield panel, f"example {index + 1}"
        fields: Dict[str, str] = {"frame_text": "8D", "place_older": "x", "place_lat": "91"}
        for name, wrong in fields.items():
            if name.startswith(panel):
                typed(browser, **{name: wrong})
                yield panel, f"{name} is {wrong!r}"
    clicked(browser, "#tab-send")
    for kind in ("air", "ground"):
        clicked(browser, f"[name=send-kind][value={kind}]")
        yield "send", kind
    typed(browser, send_lat="x")
    yield "send", "an error"
    typed(browser, send_lat="52.2572021")
    clicked(browser, "#tab-log")
    yield "log", "its end"
    typed(browser, filter_what="0")
    yield "log", "its errors"
    typed(browser, filter_what="")
    browser.evaluate("document.getElementById('notice').textContent = 'x'; byId('notice').hidden = false; "
                     "byId('log-drop').classList.add('over')")
    yield "log", "a notice, and a file over the page"
    browser.evaluate("document.getElementById('notice').hidden = true; byId('log-drop').classList.remove('over')")


def seen_contrast(tries: Tries) -> str:
    """Computed colours of all panels, in light and dark, wide and narrow: text has a contrast of 4.5 to 1 at least, and
    large text and outlines of controls 3 to 1 (WCAG 2.1). What fails is listed by its selector and its contrast."""
    browser = example_page(tries)
    pressed(browser, "Tab")  # so that a browser shows the focus that a script moves
    count, failing, kinds = 0, [], set()
    for width in (1100, 390):
        for dark in (False, True):
            browser.look(width, 900, dark)
            for panel, view in views(browser):
                rows: List[List[Any]] = browser.evaluate(CONTRASTS)
                count += len(rows)
                kinds |= {row[0] for row in rows}
                failing += [f"\n{panel}, {view}, {'dark' if dark else 'light'}: {what} of {selector}: {ratio:.2f} of "
                            f"{least} ({colour} on {below})"
                            for what, selector, colour, below, least, ratio in rows if ratio < least]
    expect(not failing, *sorted(set(failing)))
    wanted = {"text", "value", "placeholder", "::before", "border", "focus", "tab", "edge", "mark"}
    expect(kinds == wanted, "compared:", json.dumps(sorted(kinds)))
    return f"{count} colours"
