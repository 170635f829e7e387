/* clock.js: the moments of a log as times: of UTC if they count from 1970, else since the first one. */
"use strict";

/** Moments from 2000 to 2100 count milliseconds since 1970. */
const UTC_FROM = BigInt(Date.UTC(2000, 0, 1)), UTC_TO = BigInt(Date.UTC(2100, 0, 1));

const padded = (number, digits) => String(number).padStart(digits, "0");

class LogClock {
  /** @param {bigint | number} first the first moment of the log */
  constructor(first) {
    this.first = BigInt(first);
    this.isUtc = this.first >= UTC_FROM && this.first < UTC_TO;
    this.title = this.isUtc ? "Time (UTC)" : "Time";
  }

  /** Whether a moment has a date. @param {bigint} moment */
  isDated(moment) {
    return this.isUtc && moment >= UTC_FROM && moment < UTC_TO;
  }

  /** Returns the time of a moment for a sentence, where no head of a column says that it is UTC.
   * @param {bigint} moment */
  named(moment, isExact = true) {
    return this.text(moment, isExact) + (this.isDated(moment) ? " UTC" : "");
  }

  /** Returns the time of a moment: the date and the time of day, or h:mm:ss since the first moment, with a minus if it
   * is earlier. @param {bigint} moment */
  text(moment, isExact = true) {
    if (this.isDated(moment)) {
      const [day, time] = new Date(Number(moment)).toISOString().split("T");
      return `${day} ${time.slice(0, isExact ? 12 : 8)}`;
    }
    const passed = moment - this.first, size = passed < 0n ? -passed : passed, seconds = size / 1000n;
    const [minute, second] = [seconds / 60n % 60n, seconds % 60n].map((number) => padded(number, 2));
    const fraction = isExact ? `.${padded(size % 1000n, 3)}` : "";
    return `${passed < 0n ? "-" : ""}${seconds / 3600n}:${minute}:${second}${fraction}`;
  }
}
