/* link.js: links that carry what a form holds, such as #pair=OLDER,NEWER. */
"use strict";

/** The tab of each kind of link, and the fields of its form in the order of the link. */
const LINKS = new Map([
  ["frame", { tab: "frame", fields: ["frame-text"] }],
  ["pair", { tab: "place", fields: ["place-older", "place-newer", "place-lat", "place-lon"] }],
  ["local", { tab: "place", fields: ["place-newer", "place-lat", "place-lon"] }],
  ["log", { tab: "log", fields: ["log-paste", "log-lat", "log-lon"] }],
]);

/** Returns a link of a kind with the texts of its fields. Half of a surrogate pair becomes U+FFFD. */
function linkOf(kind, texts) {
  const parts = texts.map((text) => encodeURIComponent(text.trim().replace(/\p{Cs}/gu, "\ufffd")));
  return `#${kind}=${parts.join(",").replace(/,+$/, "")}`;
}

/** Fills in the form of a link, shows its answer, and keeps the link in the address. Ignores any other text. A comma
 * too many belongs to the last field, which refuses it. */
function openLink(link) {
  const [, kind, text] = /^#(\w+)=(.*)$/s.exec(link) ?? [], form = LINKS.get(kind);
  if (!form) return;
  const { tab, fields } = form, last = fields.length - 1, parts = text.split(",");
  const decoded = (part) => {
    try {
      return decodeURIComponent(part);
    } catch {
      return part; // a % without two digits
    }
  };
  byId(`tab-${tab}`).click();
  if (tab === "place") /** @type {any} */ (document.querySelector(`[name=place-from][value=${kind}]`)).checked = true;
  fields.forEach((id, at) => {
    byId(id).value = decoded(at < last ? parts[at] ?? "" : parts.slice(last).join(","));
  });
  forgetLinks();
  byId(fields[0]).form.dispatchEvent(new Event("input"));
  history.replaceState(null, "", link);
}

/** Removes what no longer holds after a change: the input in the address, and links that wait to be copied by hand. */
function forgetLinks() {
  for (const shown of document.querySelectorAll("form .copied")) shown.textContent = "";
  if (location.hash.includes("=")) {
    history.replaceState(null, "", `#${document.querySelector("[aria-selected=true]").id.slice(4)}`);
  }
}

/** Starts the links: in the address, at the examples, and to copy. @param {string} link that of the address */
function startLinks(link) {
  const kindOf = { frame: () => "frame",
    place: () => /** @type {any} */ (document.querySelector("[name=place-from]:checked")).value };
  for (const [tab, kind] of Object.entries(kindOf)) {
    const textOf = () => location.href.split("#")[0] +
      linkOf(kind(), LINKS.get(kind()).fields.map((id) => byId(id).value));
    byId(`${tab}-form`).append(copyRow([["Copy link", "to what is typed here", textOf]]));
  }
  for (const button of document.querySelectorAll("[data-link]")) {
    button.addEventListener("click", () => openLink(/** @type {HTMLElement} */ (button).dataset.link));
  }
  document.addEventListener("input", forgetLinks);
  addEventListener("hashchange", () => openLink(location.hash));
  openLink(link);
}
