/* why.js: why the selected aircraft of the live map is where it is, as the server tells it. */
"use strict";

/** Why a position frame has no position, by its answer. */
const NO_PLACE = {
  [HEARD[What.WAITING]]: "within 10 s there is no frame of the other parity, and no position to follow",
  [HEARD[What.SPLIT]]: "the pair lies on both sides of a zone border, and within 10 s there is no position to follow",
  [HEARD[What.FAR]]: "a latitude of the pair lies beyond a pole",
  [HEARD[What.WITHOUT_SITE]]: "a pair on the ground needs the position of the receiver: --lat and --lon",
};

const frameLine = ({ parity, frame, moment }) => [`${parity} frame, at ${moment} ms`, frame];

/** Returns what is told: lines of a text and, where there is one, a code. @returns {string[][]} */
function whyLines({ answer, frame, moment, parity, doubts, place }) {
  const lines = [];
  if (answer in NO_PLACE) {
    lines.push([`${answer}: the last position frame has no position, because ${NO_PLACE[answer]}.`]);
    lines.push(frameLine({ parity, frame, moment }));
    if (place) lines.push(["The position shown is of an earlier frame."]);
  }
  if (!place) return lines;
  lines.push([place.answer === HEARD[What.FIX] ? "fix: the position of the newer of two frames."
    : `followed: the position of one frame near the one before, ${place.near.join(" ")}.`]);
  if (doubts.length) lines.push([`doubtful: ${doubts.join(", ")}.`]);
  return [...lines, ...place.frames.map(frameLine), ["latitude", place.lat], ["longitude", place.lon],
    ["This command gives it again:"]];
}

/** What the page tells of the selected aircraft. */
class WhyPanel {
  constructor() {
    this.asked = 0;
    byId("why").append(copyButton(byId("why-command"), "the command"));
  }

  /** Asks the server about an aircraft. Only the last question is answered. */
  async ask(address) {
    const number = ++this.asked, isNone = Number.isNaN(address);
    byId("why").hidden ||= isNone || address !== this.address;
    this.address = address;
    if (isNone) return;
    let told = null;
    try {
      const response = await fetch(`why/${hexadecimal(address, 6)}`);
      if (response.ok) told = await response.json();
    } catch {
      return; // the page says that the server is lost
    }
    if (number === this.asked) this.show(told);
  }

  /** Shows what is told. It keeps the button, so that its focus is not lost. */
  show(told) {
    const lines = told ? whyLines(told) : [["The server has no position frame of it."]];
    byId("why-said").replaceChildren(...lines.map(([text, code]) =>
      element("div", {}, text, ...(code ? [" ", element("code", {}, code)] : []))));
    byId("why-command").textContent = told?.place?.command ?? "";
    byId("why").lastElementChild.hidden = !told?.place;
    byId("why").hidden = false;
  }
}
