/* Made by clib/bindings from clib/squitter.h and clib/texts. Edit these and run the script. */
static const char *const WHATS[] = {
  [SQUITTER_FIX] = "fix",
  [SQUITTER_FOLLOWED] = "followed",
  [SQUITTER_WAITING] = "waiting",
  [SQUITTER_SPLIT] = "split",
  [SQUITTER_FAR] = "far",
  [SQUITTER_WITHOUT_SITE] = "no site",
  [SQUITTER_NO_PLACE] = "no position",
};
static const char *const KINDS[] = {
  [SQUITTER_OTHER] = "other",
  [SQUITTER_AIR] = "air",
  [SQUITTER_GROUND] = "ground",
};
static const char *const STRANGERS[] = {
  [SQUITTER_FEED_SBS] = "the input is SBS (BaseStation) text, which has no frames: read port 30005 "
        "or 30002",
  [SQUITTER_FEED_TAR] = "the input is a tar archive: try tar -xOf FILE | squitter feed",
  [SQUITTER_FEED_PACKED] = "the input is compressed: try gzip -dc FILE | squitter feed",
  [SQUITTER_FEED_UTF16] = "the input is UTF-16: try iconv -f UTF-16 -t UTF-8 FILE | squitter feed",
  [SQUITTER_FEED_JSON] = "the input is lines of JSON, which have no frames",
  [SQUITTER_FEED_NO_FRAME] = "no frame is in the first 16384 bytes: try --format=beast, avr, csv or "
        "log; a table has the columns time (seconds), icao24 and rawmsg",
  [SQUITTER_FEED_SEMICOLONS] = "the table has semicolons between its columns: they have to be "
        "commas, and its decimal commas points",
  [SQUITTER_FEED_TABS] = "the table has tabs between its columns: they have to be commas",
  [SQUITTER_FEED_NO_TIME] = "the table has no column time (seconds): name its columns time, icao24 "
        "and rawmsg in the first row",
  [SQUITTER_FEED_NO_RAWMSG] = "the table has no column rawmsg, so it has no frames: take one that "
        "has them",
  [SQUITTER_FEED_NO_SECONDS] = "the first column of the table has no times in seconds, as "
        "1700000000.25: milliseconds and dates are not read",
  [SQUITTER_FEED_NO_NAMES] = "the third column of the table has no frames: name its columns time "
        "(seconds), icao24 and rawmsg in the first row",
};
static const char *const UNITS[] = {
  [SQUITTER_UNIT_SECONDS] = "the timestamps of this log seem to be seconds; they have to be "
        "milliseconds",
  [SQUITTER_UNIT_MICROSECONDS] = "the timestamps seem to be microseconds; a log has milliseconds, "
        "and a table has seconds",
  [SQUITTER_UNIT_NANOSECONDS] = "the timestamps seem to be nanoseconds; a log has milliseconds, and "
        "a table has seconds",
  [SQUITTER_UNIT_ALL_ZERO] = "all frames of this file have the timestamp 0, as without times: old "
        "ones pair with new",
  [SQUITTER_UNIT_GPS] = "the clock of this source seems to be GPS time (Radarcape): set it to 12 "
        "MHz, or read its port with --arrival",
};
