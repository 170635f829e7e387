/* page.js: the start of the page: the library, the tabs, and what the panels share. */
"use strict";

/** @typedef {import("./squitter.js").Squitter} Library */
/** @typedef {import("./squitter.js").Fields} Fields */
/** @typedef {import("./squitter.js").Degrees} Degrees */
/** @typedef {import("./squitter.js").Position} Position */
/** @typedef {import("./squitter.js").Place} Place */

/** Returns a cell of a table. The first of a row is its head, and numbers have digits of one width. A narrow page shows
 * the head of the column beside the cell. */
function cellOf(cell, index, head) {
  if (!index) return element("th", { scope: "row" }, cell);
  const isNumber = typeof cell === "string" && /^[-0-9A-F/. ]+$/.test(cell);
  return element("td", { ...(isNumber ? { class: "number" } : {}), "data-head": head }, cell);
}

/** Returns a table with a caption, the heads of its columns, and rows of cells. On a narrow page, rows of more than two
 * cells are cards. */
function tableOf(caption, heads, rows) {
  const head = element("tr", {}, ...heads.map((text) => element("th", { scope: "col" }, text)));
  const body = rows.map((row) => element("tr", {}, ...row.map((cell, at) => cellOf(cell, at, heads[at]))));
  const parts = [element("caption", {}, caption), element("thead", {}, head), element("tbody", {}, ...body)];
  const table = element("table", { class: heads.length > 2 ? "cards" : "rows" }, ...parts);
  return element("div", { class: "scroll", tabindex: 0, role: "region", "aria-label": caption }, table);
}

/** Returns a fraction as text. */
const fractionText = ({ num, den }) => `${num}/${den}`;

/** Returns a paragraph with an error. It says so in words, because not all readers see its colour. */
const refusal = (what, error) => element("p", { class: "refusal" }, element("strong", {}, `${what}: `), error.message);

/** Shows an answer. A screen reader reads only its first part aloud, because each key that is typed gives another one.
 * @param {any} holder @param {HTMLElement[]} answer */
function showAnswer(holder, [first, ...others]) {
  const [said, rest] = holder.children;
  said.replaceChildren(first);
  rest.replaceChildren(...others);
}

/** Parses a position from two texts. An error names the text with it. */
function positionOf(library, latText, lonText) {
  const part = (name, text) => {
    try {
      return library.angle(text.trim());
    } catch (error) {
      throw new Error(`${name} ${error.message}`);
    }
  };
  return { lat: part("latitude", latText), lon: part("longitude", lonText) };
}

/** Saves the parts of a text as a file. */
function save(name, type, parts) {
  const address = URL.createObjectURL(new Blob(parts, { type }));
  const link = element("a", { href: address, download: name });
  document.body.append(link);
  link.click();
  link.remove();
  setTimeout(() => URL.revokeObjectURL(address), 60_000);
}

/** Calls a function at each change of a form, and at once. */
function answerWith(form, answer) {
  form.addEventListener("submit", (event) => event.preventDefault());
  form.addEventListener("input", answer);
  answer();
}

/** @type {Uint8Array | null} */
let moduleRead = null;

/** Returns the bytes of the module. They are decoded once, because the worker of each log needs them. */
function moduleBytes() {
  moduleRead ??= Uint8Array.from(atob(SQUITTER_MODULE), (letter) => letter.charCodeAt(0));
  return moduleRead;
}

/** Starts the tabs. Arrows, Home and End move among them, and the address of the page keeps the open one. */
function startTabs() {
  const tabs = [...document.querySelectorAll("[role=tab]")];
  const choose = (chosen, focus) => {
    for (const tab of tabs) {
      tab.setAttribute("aria-selected", String(tab === chosen));
      tab.tabIndex = tab === chosen ? 0 : -1;
      byId(tab.getAttribute("aria-controls")).hidden = tab !== chosen;
    }
    if (focus) chosen.focus();
    history.replaceState(null, "", `#${chosen.id.slice(4)}`);
    window.dispatchEvent(new Event("resize"));
  };
  tabs.forEach((tab, index) => {
    const next = { ArrowRight: index + 1, ArrowLeft: index - 1 + tabs.length, Home: 0, End: tabs.length - 1 };
    tab.addEventListener("click", () => choose(tab, false));
    tab.addEventListener("keydown", (event) => {
      if (!(event.key in next) || event.ctrlKey || event.metaKey || event.altKey) return;
      choose(tabs[next[event.key] % tabs.length], true);
      event.preventDefault(); // Home and End would also scroll the page
    });
  });
  const named = () => tabs.find((tab) => `#${tab.id.slice(4)}` === location.hash);
  choose(named() ?? tabs[0], false);
  // A link or the address bar may name another tab.
  addEventListener("hashchange", () => named() && choose(named(), false));
}

/** Hides the panels, and says why. */
function refuseBrowser(error) {
  byId("notice").textContent = "This browser has no WebAssembly with SIMD, which the library needs. " +
    `Chrome, Firefox and Safari have had it since 2023. (${error.message})`;
  byId("notice").hidden = false;
  document.querySelector("main").hidden = true;
  byId("tabs").hidden = true;
}

addEventListener("DOMContentLoaded", async () => {
  let library;
  try {
    library = await load(moduleBytes());
  } catch (error) {
    return refuseBrowser(error);
  }
  byId("version").textContent = library.version();
  startFrame(library);
  startPlace(library);
  startSend(library);
  startLog(library);
  const { hash } = location; // before the tabs name themselves in it
  startTabs();
  startLinks(hash);
  document.documentElement.dataset.ready = "yes";
});
