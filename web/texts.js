/* Made by clib/bindings from clib/squitter.h and clib/texts. Edit these and run the script. */
"use strict";

/** The words of the results, after one for refused lines, which have none. */
const HEARD = ["refused", "fix", "followed", "waiting", "split", "far", "no site", "no position"];

/** What the page says of timestamps that are no milliseconds. */
const UNIT_TEXTS = {
  [Unit.SECONDS]: "The timestamps of this log seem to be seconds; they have to be milliseconds.",
  [Unit.MICROSECONDS]: "The timestamps seem to be microseconds; a log has milliseconds, and a table"
    + " has seconds.",
  [Unit.NANOSECONDS]: "The timestamps seem to be nanoseconds; a log has milliseconds, and a table "
    + "has seconds.",
  [Unit.ALL_ZERO]: "All frames of this file have the timestamp 0, as without times: old ones pair "
    + "with new.",
  [Unit.GPS]: "The clock of this source seems to be GPS time (Radarcape): set it to 12 MHz.",
};
