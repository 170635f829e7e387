/* place.js: decodes a frame near a reference, or a pair of frames, and shows the steps. */
"use strict";

const PARITIES = ["even", "odd"];

/** Returns a position: in words, and as a table beside its picture, with seven decimals and as exact fractions. */
function placeShown(place, picture) {
  const row = (name, angle) => [name, String(angle), fractionText(angle)];
  const table = tableOf("The position in degrees", ["", "Decimal", "Exact"],
    [row("latitude", place.lat), row("longitude", place.lon)]);
  const words = element("p", { class: "answer" }, `Latitude ${place.lat}, longitude ${place.lon}`);
  const copied = copyRow([["Copy decimals", "of the position", () => `${place.lat} ${place.lon}`],
    ["Copy fractions", "of the position", () => `${fractionText(place.lat)} ${fractionText(place.lon)}`]]);
  return [words, copied, element("div", { class: "side" }, ...picture, table)];
}

/** Returns the receiver position that is typed, or null if both fields are empty. */
function siteTyped(library, latText, lonText) {
  return latText.trim() || lonText.trim() ? positionOf(library, latText, lonText) : null;
}

/** Returns the result of a call as text, or the text of its error. */
function orFault(call) {
  try {
    return String(call());
  } catch (error) {
    return error.message;
  }
}

/** Returns what the library computes for each of two frames: its code, the position if it were the newer one, and the
 * number of zones (NL) there. */
function pairSteps(library, older, newer, site) {
  const column = (frame, other) => {
    const fields = library.read(frame);
    const code = [PARITIES[fields.odd], String(fields.lat), String(fields.lon)];
    try {
      const place = library.pair(other, frame, site);
      const { latZone, zoneCount, lonZone } = library.localZones(frame, place);
      return [...code, String(latZone), fractionText(place.lat), String(place.lat), String(zoneCount), String(lonZone),
        fractionText(place.lon), String(place.lon)];
    } catch (error) {
      const counts = error.code === 16 ? String(fields.odd ? error.second : error.first) : "";
      return [...code, "", "", "", counts, "", "", ""];
    }
  };
  const names = ["parity", "latitude code", "longitude code", "latitude zone (j)", "latitude, exact", "latitude",
    "longitude zones (NL)", "longitude zone (m)", "longitude, exact", "longitude"];
  const first = column(older, newer), second = column(newer, older);
  const rows = names.map((name, at) => [name, first[at], second[at]]).filter((row) => row[1] || row[2]);
  return tableOf("Step by step", ["", "Older frame", "Newer frame"], rows);
}

/** Returns the positions of a pair on the ground for a receiver in each quarter of the circle. */
function quarters(library, older, newer, site) {
  const rows = ["-135", "-45", "45", "135"].map((text) => {
    const asked = { lat: site.lat, lon: library.angle(text) };
    try {
      const place = library.pair(older, newer, asked);
      return [text, String(place.lat), String(place.lon)];
    } catch (error) {
      return [text, error.message, ""];
    }
  });
  const heads = ["Receiver longitude", "Latitude", "Longitude"];
  return tableOf("The same frames with a receiver elsewhere", heads, rows);
}

/** Returns what is shown of a pair without a position. */
function pairRefused(library, older, newer, site, error) {
  const shown = [refusal("No position", error)];
  if (error.code === Code.NO_SITE) {
    shown.push(element("p", {}, "Frames from the ground fit four positions. Type the position of your receiver."));
  }
  if (error.code === Code.ZONE_COUNTS) {
    shown.push(element("p", {}, `The latitude of the even frame has ${error.first} longitude zones, and that of the ` +
      `odd frame has ${error.second}. The aircraft crossed a zone border between them, so the pair has no longitude.`));
  }
  return error.code < Code.NO_SITE ? shown : [...shown, pairSteps(library, older, newer, site)];
}

/** Returns what is shown of two frames. */
function pairShown(library, olderText, newerText, site) {
  const older = library.frame(olderText), newer = library.frame(newerText);
  let place;
  try {
    place = library.pair(older, newer, site);
  } catch (error) {
    return pairRefused(library, older, newer, site, error);
  }
  const isGround = library.read(newer).kind === Kind.GROUND;
  const picture = isGround ? [groundPicture(library, older, newer, site, place)]
    : pairPicture(library, older, newer, place);
  return [...placeShown(place, picture), pairSteps(library, older, newer, site),
    ...(isGround ? [quarters(library, older, newer, site)] : []),
    tableOf("The zone of the newer frame", ["", "Value"], zoneRows(library, newer, place))];
}

/** Returns what is shown of one frame and a reference. */
function localShown(library, text, reference) {
  const frame = library.frame(text);
  const place = library.local(frame, reference), fields = library.read(frame);
  const rows = [
    ["parity", PARITIES[fields.odd]],
    ["latitude code", String(fields.lat)],
    ["longitude code", String(fields.lon)],
    ["longitude zones (NL) at the reference", orFault(() => library.zoneCount(reference.lat))],
    ...zoneRows(library, frame, place),
  ];
  return [...placeShown(place, [localPicture(library, frame, place, reference)]),
    tableOf("Step by step", ["", "Value"], rows)];
}

/** Returns what is shown of the panel's fields. */
function placeAnswer(library) {
  const one = document.querySelector("[name=place-from]:checked");
  const isPair = /** @type {HTMLInputElement} */ (one).value === "pair";
  byId("place-older-field").hidden = !isPair;
  const whose = isPair ? "your receiver" : "the reference";
  byId("place-newer-label").textContent = isPair ? "Newer frame" : "Frame";
  byId("place-lat-label").textContent = `Latitude of ${whose}`;
  byId("place-lon-label").textContent = `Longitude of ${whose}`;
  byId("place-hint").textContent = isPair ? "Only a pair on the ground needs the position of your receiver."
    : "The reference must be within half a zone: 3 degrees of latitude in the air, 0.75 on the ground.";
  const newer = byId("place-newer").value.trim(), older = byId("place-older").value.trim();
  const lat = byId("place-lat").value, lon = byId("place-lon").value;
  try {
    if (!isPair) return localShown(library, newer, positionOf(library, lat, lon));
    if (!older) return [element("p", {}, "Type the older frame: of the same aircraft, and of the other parity.")];
    const [first, ...others] = pairShown(library, older, newer, siteTyped(library, lat, lon));
    const log = linkOf("log", [`0 ${older}\n1000 ${newer}`, lat, lon]);
    const onward = element("p", {}, element("a", { href: log }, "Decode both as a log, one second apart"));
    return [first, onward, ...others];
  } catch (error) {
    return [refusal("Refused", error)];
  }
}

/** @param {Library} library */
function startPlace(library) {
  answerWith(byId("place-form"), () => showAnswer(byId("place-answer"), placeAnswer(library)));
}
