/* Made by clib/bindings from clib/squitter.h and clib/texts. Edit these and run the script. */

/** The codes of faults. */
export declare const Code: {
  readonly OK: 0;
  /** One of `*` and `;` without the other. */
  readonly WRAP: 1;
  /** The body has 14 bytes: a reply of 56 bits. */
  readonly SHORT: 2;
  /** The body has `first` bytes, neither 28 nor 14. */
  readonly LENGTH: 3;
  /** Byte `first` of the body, from 1, is the first that is not a hexadecimal digit. */
  readonly DIGIT: 4;
  /** The downlink format is `first`, not 17. */
  readonly NOT_DF17: 5;
  /** The remainder of the parity is `first`, not 0. */
  readonly PARITY: 6;
  /** The squitter carries no position. */
  readonly NOT_POSITION: 10;
  /** The addresses of a pair differ. */
  readonly OTHER_ADDRESS: 11;
  /** One of a pair is in the air and one on the ground. */
  readonly OTHER_KIND: 12;
  /** Both of a pair are even, or both are odd. */
  readonly SAME_PARITY: 13;
  /** A surface pair needs a receiver position (site). */
  readonly NO_SITE: 14;
  /** A latitude would lie outside -90 to 90 degrees. */
  readonly OUT_OF_RANGE: 15;
  /** The zone counts (NL) of a pair's latitudes, even `first`, odd `second`, differ. */
  readonly ZONE_COUNTS: 16;
  /** The reference, the site or the position is invalid. */
  readonly BAD_POSITION: 20;
  /** A field of a head, or of an altitude, is out of range. */
  readonly BAD_FIELDS: 21;
  /** The fraction is not a valid angle. */
  readonly BAD_ANGLE: 22;
  /** The fraction is not a valid latitude. */
  readonly BAD_LATITUDE: 23;
  /** No altitude field encodes these feet. */
  readonly BAD_FEET: 24;
  /** The parity is neither 0 nor 1. */
  readonly BAD_PARITY: 25;
  /** Not an optional `-`, one to three digits, and optionally a point and digits. */
  readonly NOT_A_NUMBER: 30;
  /** More than twelve digits after the point. */
  readonly TOO_MANY_DECIMALS: 31;
  /** The magnitude is above 360 degrees. */
  readonly ANGLE_RANGE: 32;
  /** A line has more than 64 bytes. */
  readonly LONG_LINE: 40;
  /** A line does not begin with a timestamp. */
  readonly BAD_MOMENT: 41;
  /** The timestamp is before the last one, `first`. */
  readonly MOMENT_BACK: 42;
  /** As many other addresses as the limit are present. */
  readonly TABLE_FULL: 43;
  /** The block is too small. */
  readonly NO_MEMORY: 44;
  /** The limit is 0. */
  readonly NO_LIMIT: 45;
  /** There is no tracker, log, feed or order. */
  readonly NO_TRACKER: 46;
  /** A log has 2^63 lines, or a piece more than 2^61 bytes. */
  readonly LONG_LOG: 48;
  /** No format has this number, or the bytes show no format. */
  readonly BAD_FORMAT: 49;
  /** No tracker with the same settings can hold the entry at index `first`. */
  readonly BAD_ENTRY: 50;
};
export type Code = (typeof Code)[keyof typeof Code];

/** The kind of a squitter, by its type code. */
export declare const Kind: {
  /** Every other type code: kept raw. */
  readonly OTHER: 0;
  /** An airborne position, type codes 9 to 18 and 20 to 22. */
  readonly AIR: 1;
  /** A surface position, type codes 5 to 8. */
  readonly GROUND: 2;
};
export type Kind = (typeof Kind)[keyof typeof Kind];

/** The meaning of an altitude field. */
export declare const AltitudeForm: {
  /** None is sent. */
  readonly NONE: 0;
  /** Feet, a multiple of 25 from -1000 to 50175. */
  readonly FEET: 1;
  /** A field in another form, or a GNSS height. */
  readonly OTHER: 2;
};
export type AltitudeForm = (typeof AltitudeForm)[keyof typeof AltitudeForm];

/** The result for a frame: the first of these that applies. */
export declare const What: {
  /** Position from this frame and the newest frame of its kind with the other parity. */
  readonly FIX: 1;
  /** Position near the last fix of its kind, instead of WAITING or SPLIT. */
  readonly FOLLOWED: 2;
  /** No frame of its kind with the other parity within the window. */
  readonly WAITING: 3;
  /** The zone counts of the pair's latitudes, `even` and `odd`, differ. */
  readonly SPLIT: 4;
  /** A latitude of the pair would lie outside -90 to 90 degrees. */
  readonly FAR: 5;
  /** The pair is on the ground, and no site is given. */
  readonly WITHOUT_SITE: 6;
  /** The frame carries no position. */
  readonly NO_PLACE: 7;
};
export type What = (typeof What)[keyof typeof What];

/** The formats of `squitter track --format`. */
export declare const Format: {
  readonly LINES: 0;
  readonly CSV: 1;
  readonly JSON: 2;
};
export type Format = (typeof Format)[keyof typeof Format];

/** The formats of a source. */
export declare const FeedFormat: {
  /** Beast binary. */
  readonly BEAST: 0;
  /** AVR text, with clocks or without. */
  readonly AVR: 1;
  /** CSV: columns `time`, `mintime` or `timestamp` (s), and `rawmsg`; without a header 1 and 3. */
  readonly CSV: 2;
  /** A log: a timestamp (ms), a space and a frame on each line. */
  readonly LOG: 3;
  /** The first bytes show the format; not known yet. */
  readonly AUTO: 4;
};
export type FeedFormat = (typeof FeedFormat)[keyof typeof FeedFormat];

/** Sources without frames of a known format. */
export declare const Stranger: {
  /** SBS (BaseStation) text: it has positions and no frames. */
  readonly SBS: 5;
  /** A tar archive. */
  readonly TAR: 6;
  /** Compressed by gzip, bzip2, xz or zstd, or a zip archive. */
  readonly PACKED: 7;
  /** Text in UTF-16. */
  readonly UTF16: 8;
  /** Lines of JSON. */
  readonly JSON: 9;
  /** Bytes without frames. */
  readonly NO_FRAME: 10;
  /** A table with semicolons between its columns. */
  readonly SEMICOLONS: 11;
  /** A table with tabs between its columns. */
  readonly TABS: 12;
  /** A table with a column `rawmsg`, and no column `time`, `mintime` or `timestamp`. */
  readonly NO_TIME: 13;
  /** A table with columns of the time and `icao24`, and no column `rawmsg`. */
  readonly NO_RAWMSG: 14;
  /** A table with frames in its third column, and no seconds in its first one. */
  readonly NO_SECONDS: 15;
  /** A table with frames in another column, and no names of its columns. */
  readonly NO_NAMES: 16;
};
export type Stranger = (typeof Stranger)[keyof typeof Stranger];

/** What timestamps seem to be. */
export declare const Unit: {
  /** Or too few show it. */
  readonly MILLISECONDS: 0;
  readonly SECONDS: 1;
  readonly MICROSECONDS: 2;
  readonly NANOSECONDS: 3;
  /** Several frames, all with the timestamp 0. */
  readonly ALL_ZERO: 4;
  /** A receiver's clock that counts GPS time, and not 12 MHz. */
  readonly GPS: 5;
};
export type Unit = (typeof Unit)[keyof typeof Unit];
