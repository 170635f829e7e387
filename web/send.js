/* send.js: encodes a position as an even and an odd frame, and shows how far each one is from it. */
"use strict";

/** Returns a - b, not in lowest terms. */
const difference = (a, b) => ({ num: a.num * b.den - b.num * a.den, den: a.den * b.den });

/** Returns a fraction with nine decimals, rounded towards zero. */
function billionths({ num, den }) {
  const whole = (num < 0n ? -num : num) * 1_000_000_000n / den;
  return `${num < 0n && whole ? "-" : ""}${whole / 1_000_000_000n}.${String(whole % 1_000_000_000n).padStart(9, "0")}`;
}

/** Returns an angle in metres, rounded, on a circle that is smaller than the equator by this factor. */
function aboutMetres({ num, den }, factor) {
  const metres = Math.abs(Number(num) / Number(den)) * 111_195 * factor;
  return `about ${metres < 10 ? metres.toFixed(2) : metres.toFixed(0)} m`;
}

/** Returns a difference of longitudes, the shorter way around. */
function aroundTheCircle(angle) {
  const turn = 360n * angle.den, half = 180n * angle.den;
  if (angle.num > half) return { num: angle.num - turn, den: angle.den };
  return angle.num < -half ? { num: angle.num + turn, den: angle.den } : angle;
}

/** Returns the column of one parity: the frame, and the point to which it decodes near the position. */
function sentRows(library, kind, head, position) {
  const frame = library.encode(kind === "air" ? new AirHead(head) : new GroundHead(head), position);
  const fields = library.read(frame), point = library.local(frame, position);
  const lat = difference(point.lat, position.lat), lon = aroundTheCircle(difference(point.lon, position.lon));
  const narrow = Math.cos(Number(position.lat.num) / Number(position.lat.den) * Math.PI / 180);
  return [
    library.frameText(frame), `${fields.lat} ${fields.lon}`,
    String(point.lat), fractionText(point.lat), String(point.lon), fractionText(point.lon),
    `${billionths(lat)} degrees, ${aboutMetres(lat, 1)}`, `${billionths(lon)} degrees, ${aboutMetres(lon, narrow)}`,
  ];
}

/** Returns the address and altitude that are typed. */
function headTyped(library, kind) {
  const address = byId("send-address").value.trim(), feet = byId("send-feet").value.trim();
  if (!/^[0-9a-f]{6}$/i.test(address)) throw new Error("the address needs six hexadecimal digits");
  const head = { address: parseInt(address, 16) };
  if (kind === "ground" || !feet) return head;
  if (!/^-?\d{1,5}$/.test(feet)) throw new Error("the altitude must be a multiple of 25 from -1000 to 50175");
  return { ...head, altitude: library.fieldOfFeet(Number(feet)) };
}

/** Returns a frame with its parity and a button that copies it. */
function sentCard(parity, frame) {
  const text = element("code", { class: "hex" }, frame);
  return element("section", { class: "card" }, element("h3", {}, `${parity} frame`), text,
    copyButton(text, `the ${parity.toLowerCase()} frame`));
}

/** Returns what the panel shows: the frames, a picture of their points, and the steps. */
function sendAnswer(library, map) {
  const kind = /** @type {HTMLInputElement} */ (document.querySelector("[name=send-kind]:checked")).value;
  byId("send-feet-field").hidden = kind === "ground";
  const position = positionOf(library, byId("send-lat").value, byId("send-lon").value);
  map.show({ lon: position.lon.toNumber(), lat: position.lat.toNumber() });
  const head = headTyped(library, kind);
  const [even, odd] = PARITIES.map((_, at) => sentRows(library, kind, { ...head, odd: at }, position));
  const names = ["latitude and longitude code", "latitude", "latitude, exact", "longitude", "longitude, exact",
    "latitude error", "longitude error"];
  const rows = names.map((name, at) => [name, even[at + 1], odd[at + 1]]);
  return {
    cards: [element("div", { class: "pair" }, sentCard("Even", even[0]), sentCard("Odd", odd[0]))],
    near: [closePicture(library, kind, head, position)],
    steps: [tableOf("What the frames decode to near the position", ["", "Even", "Odd"], rows)],
  };
}

/** @param {Library} library */
function startSend(library) {
  const map = new SpotMap(byId("send-map"), (lat, lon) => {
    byId("send-lat").value = lat;
    byId("send-lon").value = lon;
    answer();
  });
  const answer = () => {
    let shown;
    try {
      shown = sendAnswer(library, map);
    } catch (error) {
      shown = { cards: [refusal("Refused", error)], near: [], steps: [] };
    }
    byId("send-answer").replaceChildren(...shown.cards);
    byId("send-near").replaceChildren(...shown.near);
    byId("send-steps").replaceChildren(...shown.steps);
  };
  answerWith(byId("send-form"), answer);
  byId("send-span").addEventListener("change", () => map.zoom(Number(byId("send-span").value)));
}
