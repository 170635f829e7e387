/* log.js: decodes a log in a worker, and shows its results in a table, on the map and as files. */
"use strict";

const ROWS_SHOWN = 100;

/** The receiver position of the example, which no other log uses, and the flight that it opens on: a take-off. */
const EXAMPLE_SITE = ["52.31", "4.76"], EXAMPLE_FLIGHT = 0x484004;

const NO_SPOT = "Click or tap on a track to read a position.";

/** The cells of a row, for a narrow page without the heads of the columns. */
const CELL_NAMES = ["line", "time", "answer", "address", "lat", "lon", "feet"];

/** Only a text that the page itself has put together may become a script, and only the script of a worker. */
const WORKER_POLICY = /** @type {any} */ (window).trustedTypes?.createPolicy("squitter-worker", {
  createScriptURL(address) {
    if (!address.startsWith("blob:")) throw new TypeError("a worker starts from a blob");
    return address;
  },
}) ?? { createScriptURL: (address) => address };

/** The panel of the log. */
class LogPanel {
  /** @param {Library} library */
  constructor(library) {
    this.library = library;
    this.answers = new LogAnswers(library);
    this.tracks = new Tracks(0);
    this.map = new TrackMap(byId("map"), {
      say: (text) => { byId("map-state").textContent = text; },
      tell: (spot) => { byId("map-spot").textContent = spot ? this.spotText(spot) : NO_SPOT; },
      select: (address) => { byId("map-address").value = Number.isNaN(address) ? "" : hexadecimal(address, 6); },
    });
    this.playback = new Playback(this.map);
    /** @type {Worker | null} */
    this.worker = null;
    /** @type {(() => void) | null} */
    this.again = null;
    /** @type {{file: Blob, settings: HearingSettings} | null} */
    this.task = null;
    this.at = 0;
    this.started = 0;
    this.seconds = 0;
    this.listen();
  }

  /** Returns the settings that are typed, with the site `where` if given.
   * @param {string[]} [where] @returns {HearingSettings} */
  settings(where = [byId("log-lat").value, byId("log-lon").value]) {
    const whole = (name, most) => {
      const text = byId(`log-${name}`).value.trim();
      if (!/^\d{1,20}$/.test(text) || BigInt(text) > most) throw new Error(`bad ${name}`);
      return BigInt(text);
    };
    const window = whole("window", (1n << 64n) - 1n), limit = Number(whole("limit", 1n << 20n));
    if (!limit) throw new Error("limit is 0");
    const [lat, lon] = where;
    const site = lat.trim() || lon.trim() ? positionOf(this.library, lat, lon) : null;
    // An invalid site is refused here, before the worker starts.
    if (site) this.library.encode(new AirHead({ address: 0 }), site);
    return { window, limit, site };
  }

  /** Decodes a log from its beginning, with the site `where` if given, and shows it at the end with the aircraft
   * `selected`. Brings the map into view, but leaves the focus where it is.
   * @param {Blob} file @param {string} name @param {{where?: string[], selected?: number}} [options] */
  hear(file, name, options = {}) {
    this.open(file, name, options);
    byId("log-heard").scrollIntoView();
  }

  /** Starts to decode a log. @param {Blob} file @param {string} name
   * @param {{where?: string[], selected?: number}} options */
  open(file, name, options) {
    this.stop();
    this.again = () => this.open(file, name, options);
    let settings;
    try {
      settings = this.settings(options.where);
    } catch (error) {
      this.say(`Refused: ${error.message}`);
      return this.able();
    }
    this.answers = new LogAnswers(this.library);
    this.setFilter();
    // (the flights of the example are all over the world)
    const site = options.where ? null : settings.site;
    this.tracks = new Tracks(Number(settings.window), new PlaceWatch(this.library, site));
    this.map.show(this.tracks);
    this.playback.take(new Tracks(0));
    this.selected = options.selected ?? NaN;
    this.name = name;
    this.started = performance.now();
    this.task = { file, settings };
    this.worker = startHearing(this.task, (said) => this.told(said));
    this.say(`Decoding ${name}.`);
    this.able();
  }

  /** Decodes the last log again after a change of settings. Waits while only one half of the site is typed. */
  hearAgain() {
    const isWhole = Boolean(byId("log-lat").value.trim()) === Boolean(byId("log-lon").value.trim());
    if (isWhole) this.again?.();
  }

  /** Handles a message of the worker. */
  told({ answers, done, finished, failed, feed, kind, clocked }) {
    if (answers) {
      const first = !this.answers.count;
      this.answers.add(answers);
      this.tracks.add(answers);
      if (first) this.showRows();
      this.map.follow();
    }
    if (done !== undefined) {
      byId("log-progress").value = done;
      this.say(`Decoding ${this.name}: ${this.answers.count} results.`, false);
    }
    if (finished) this.end("decoded", feed, kind, clocked);
    if (failed) this.end(`not decoded to its end (${failed})`);
  }

  /** Ends the log, at its end or because it was left. `feed` has the counts of a receiver's file, and `kind` says what
   * a file of another kind is. A receiver's clock gave the timestamps if they are `clocked`. */
  end(how, feed = null, kind = "", clocked = false) {
    this.stop();
    this.seconds = (performance.now() - this.started) / 1000;
    if (how === "decoded") byId("log-progress").value = 1;
    this.say([this.summary(how, feed, kind), this.answers.unitText(clocked)].filter(Boolean).join(" "));
    this.showRows();
    this.nameTracks();
    if (!this.map.moved) this.map.fit(this.tracks.all.has(this.selected) ? this.selected : this.map.address);
    this.playback.take(this.tracks, this.answers.clock);
    this.able();
  }

  /** Returns what the page says of a log that has ended. */
  summary(how, feed, kind = "") {
    const { count, places, refused, withoutSite, withoutTime } = this.answers;
    const some = (number, what) => `${number} ${what}${Number(number) === 1 ? "" : "s"}`;
    const parts = [`${this.name}: ${how}. ${some(count, "line")}, ${some(places, "position")}, ${refused} refused, ` +
      `in ${this.seconds.toFixed(1)} s.`];
    if (feed) {
      const { found, written, damaged, aside, breaks } = feed;
      parts.push(`The file has ${some(found, "frame")}: ${some(written, "squitter")}, ${damaged} damaged.`);
      if (aside) parts.push(`It has ${some(aside, "squitter")} out of order, set aside. Is it sorted by time?`);
      if (breaks) parts.push(`Its times went back (${some(breaks, "jump")}); timestamps after that are moved on.`);
    }
    if (withoutSite) {
      const what = withoutSite === 1 ? "1 frame from the ground has" : `${withoutSite} frames from the ground have`;
      parts.push(`${what} no position: type the position of your receiver.`);
    }
    const { far, fast } = this.tracks;
    if (far || fast) {
      const reasons = [far && `${some(far, "position")} more than ${WATCHED_RANGE} nautical miles from your receiver`,
        fast && `${some(fast, "position")} reached faster than ${WATCHED_SPEED} knots`].filter(Boolean);
      parts.push(`Doubtful, drawn hollow: ${reasons.join(" and ")}. Are the timestamps milliseconds? Is the latitude ` +
        "the first number of your receiver's position? Or have two aircraft one address?");
    }
    if (kind && refused === count) {
      parts.push(kind);
    } else if (withoutTime && withoutTime === count) {
      parts.push("No line has a timestamp. Put a time in milliseconds and a space before each frame.");
    }
    return parts.join(" ");
  }

  /** Returns a position of the map as text. @param {Spot} spot */
  spotText({ address, lat, lon, moment, line }) {
    const time = this.answers.clock.named(BigInt(moment)), feet = feetText(this.answers.feetOfLine(line));
    const parts = [`${hexadecimal(address, 6)} at ${lat.toFixed(7)} ${lon.toFixed(7)}`, feet, time, `line ${line}`];
    return `${parts.filter(Boolean).join(", ")}.`;
  }

  /** Decodes the log once more. Returns what `squitter track` prints for it in a format.
   * @returns {Promise<string[]>} */
  texts(format = Format.LINES) {
    return new Promise((resolve, reject) => {
      /** @type {string[]} */
      const texts = [];
      const worker = startHearing({ ...this.task, format }, ({ text, finished, failed }) => {
        if (text !== undefined) texts.push(text);
        if (!finished && !failed) return;
        worker.terminate();
        if (finished) resolve(texts);
        else reject(new Error(failed));
      });
    });
  }

  /** Saves the results as a file in a format. */
  async saveText(name, type, format) {
    try {
      save(name, type, await this.texts(format));
    } catch (error) {
      this.say(`The results were not saved (${error.message}).`);
    }
  }

  /** Lists the addresses beside the map. */
  nameTracks() {
    const option = (value, text) => element("option", { value }, text);
    const addresses = [...this.tracks.all.keys()].sort((a, b) => a - b).slice(0, 5000);
    const names = addresses.map((address) => hexadecimal(address, 6));
    byId("map-address").replaceChildren(option("", "all"), ...names.map((name) => option(name, name)));
    this.map.select(this.map.address);
  }

  /** Shows the track that is chosen. */
  fitChosen() {
    this.map.fit(parseInt(byId("map-address").value, 16));
  }

  stop() {
    if (this.worker) this.worker.terminate();
    this.worker = null;
  }

  /** Shows the state. A screen reader does not read the counts of a long log aloud: there is one for each MiB. */
  say(text, isAloud = true) {
    byId("log-state").setAttribute("aria-live", isAloud ? "polite" : "off");
    byId("log-state").textContent = text;
  }

  able() {
    byId("log-cancel").disabled = !this.worker;
    const isSaved = !this.worker && this.answers.count > 0;
    for (const name of ["log-csv", "log-text", "log-geojson"]) byId(name).disabled = !isSaved;
  }

  setFilter() {
    const what = byId("filter-what").value, text = byId("filter-address").value.trim();
    const address = /^[0-9a-f]{1,6}$/i.test(text) ? parseInt(text, 16) : -2;
    const isWanted = (one) => what === "" || (what === "places" ? isPlace(one) : one === Number(what));
    this.answers.filter((one, from) => isWanted(one) && (text === "" || from === address));
    this.at = 0;
    this.showRows();
  }

  /** Shows the rows from `at` on. */
  showRows() {
    const { left } = this.answers, shown = left.slice(this.at, this.at + ROWS_SHOWN);
    const cellOf = (cell, at) => element("td", { class: `cell-${CELL_NAMES[at]}` }, cell);
    const rows = shown.map((index) => element("tr", {}, ...this.answers.row(index).map(cellOf)));
    document.querySelector("#log-table tbody").replaceChildren(...rows);
    byId("log-rows-box").scrollTop = 0;
    byId("log-time").textContent = this.answers.clock.title;
    const which = `Results ${this.at + 1} to ${this.at + shown.length} of ${left.length}.`;
    byId("log-rows").textContent = left.length ? which : "No results.";
    byId("log-back").disabled = this.at === 0;
    byId("log-on").disabled = this.at + ROWS_SHOWN >= left.length;
  }

  /** Shows the next rows, or those before. A disabled button loses the focus, so the other one takes it. */
  turn(by) {
    this.at = Math.max(0, this.at + by);
    this.showRows();
    const [pressed, other] = by > 0 ? ["log-on", "log-back"] : ["log-back", "log-on"];
    if (byId(pressed).disabled) byId(other).focus();
  }

  listen() {
    byId("log-form").addEventListener("submit", (event) => event.preventDefault());
    byId("filter-form").addEventListener("submit", (event) => event.preventDefault());
    for (const what of [...Object.values(What), 0]) {
      byId("filter-what").append(element("option", { value: String(what) }, HEARD[what]));
    }
    byId("filter-form").addEventListener("input", () => this.setFilter());
    for (const name of ["lat", "lon", "window", "limit"]) {
      byId(`log-${name}`).addEventListener("change", () => this.hearAgain());
    }
    // A browser reports a change for the same file only if the field was emptied before.
    byId("log-file").addEventListener("click", () => { byId("log-file").value = ""; });
    byId("log-file").addEventListener("change", () => {
      const [file] = byId("log-file").files;
      if (file) this.hear(file, file.name);
    });
    const near = `examples/flights.log, near ${EXAMPLE_SITE.join(", ")}`;
    byId("log-example").addEventListener("click", () =>
      this.hear(exampleLog(), near, { where: EXAMPLE_SITE, selected: EXAMPLE_FLIGHT }));
    byId("log-cancel").addEventListener("click", () => this.end("cancelled"));
    byId("log-back").addEventListener("click", () => this.turn(-ROWS_SHOWN));
    byId("log-on").addEventListener("click", () => this.turn(ROWS_SHOWN));
    this.listenToSaves();
    this.listenToMap();
    this.listenToDrops();
    this.listenToPastes();
  }

  listenToSaves() {
    byId("log-csv").addEventListener("click", () => this.saveText("answers.csv", "text/csv", Format.CSV));
    byId("log-text").addEventListener("click", () => this.saveText("answers.txt", "text/plain", Format.LINES));
    byId("log-geojson").addEventListener("click", () =>
      save("tracks.geojson", "application/geo+json", [JSON.stringify(this.tracks.geojson()), "\n"]));
  }

  listenToMap() {
    for (const button of document.querySelectorAll("[data-map]")) {
      const does = { in: () => this.map.zoom(1.5), out: () => this.map.zoom(1 / 1.5), fit: () => this.fitChosen() };
      button.addEventListener("click", does[/** @type {HTMLElement} */ (button).dataset.map]);
    }
    byId("map-address").addEventListener("change", () => this.fitChosen());
    byId("map-view").addEventListener("change", () => this.map.want(byId("map-view").value));
  }

  /** A file may be dropped anywhere on the page. */
  listenToDrops() {
    for (const name of ["dragover", "dragleave", "drop"]) {
      document.addEventListener(name, (event) => {
        if (!event.dataTransfer?.types.includes("Files")) return; // a text may be dropped into a field
        event.preventDefault();
        byId("log-drop").classList.toggle("over", name === "dragover");
      });
    }
    document.addEventListener("drop", (event) => {
      const files = event.dataTransfer?.files ?? [], [file] = files;
      if (!file) return;
      byId("tab-log").click();
      this.hear(file, files.length > 1 ? `${file.name}, the first of ${files.length} files` : file.name);
    });
  }

  /** Text that is pasted is decoded at once, and text that is typed once its field is left. */
  listenToPastes() {
    const field = byId("log-paste");
    let heard = "";
    const hearText = () => {
      heard = field.value;
      if (heard.trim()) this.hear(new Blob([heard]), "pasted text");
    };
    field.addEventListener("change", () => field.value === heard || hearText());
    // A link fills in the whole form.
    byId("log-form").addEventListener("input", ({ target, currentTarget }) => target === currentTarget && hearText());
    field.addEventListener("paste", (event) => {
      const text = event.clipboardData?.getData("text/plain");
      if (!text) return;
      // A browser takes minutes to put thousands of lines in the place of others, so it is not left to the browser.
      event.preventDefault();
      const { selectionStart: from, selectionEnd: to, value } = field, before = value.slice(0, from) + text;
      field.value = before + value.slice(to);
      field.setSelectionRange(before.length, before.length);
      hearText();
    });
  }
}

/** Returns the example log as a file. */
function exampleLog() {
  return new Blob([SQUITTER_FLIGHTS.replaceAll("\n", "").replaceAll("|", "\n")]);
}

/** @param {Library} library */
function startLog(library) {
  const panel = new LogPanel(library);
  /** @type {any} */ (window).squitterLog = panel; // the tests look here
}
