/* squitter.h - libsquitter: ADS-B position squitters (DF17), read, decoded and written exactly.
 *
 * Each call is proved to meet its contract; README.md beside this file says what that covers. The library uses
 * no floating point. An angle is a fraction of whole numbers, in degrees; a position is an exact point of the
 * standard's grid.
 *
 * FRAMES. A frame is 14 bytes; byte 0 holds the downlink format. Any 14 bytes may be given.
 *
 * FAULTS. Nearly every call returns a squitter_fault. If its code is SQUITTER_OK (0), the result is in *out. Otherwise
 * the code is the first error, in the order that the call lists them, and *out is unchanged. squitter_text_of_fault
 * writes a fault in words.
 *
 * NUMBERS. Any value of any number may be passed, in arguments and in fields; the call returns a fault if it is out of
 * range.
 *
 * POINTERS. The caller must keep the rules of C:
 *   - no pointer is null (not even that of a text of length 0); each is aligned for its type and points to a whole
 *     object that lives through the call;
 *   - *out overlaps no other argument; while a call runs, nothing else writes its inputs, or reads or writes *out;
 *   - a text has `length` bytes, fewer than 2^63, and needs no zero at its end.
 *
 * No call allocates memory, blocks, has static state or touches errno. Only the _new and _new_at calls keep a pointer:
 * the one to the block. Calls may run in parallel on threads and in signal handlers, but never two on the same tracker,
 * log, feed or order. Structs are laid out as written; padding bytes have no meaning. */
#ifndef SQUITTER_H
#define SQUITTER_H

#include <stddef.h>
#include <stdint.h>

#ifdef __cplusplus
extern "C" {
#define SQUITTER_RESTRICT
#define SQUITTER_BYTES(name, count) *name
#define SQUITTER_CONST_BYTES(name, count) *name
#elif defined __STDC_VERSION__ && __STDC_VERSION__ >= 199901L
#define SQUITTER_RESTRICT restrict
#define SQUITTER_BYTES(name, count) name[restrict static count]
#define SQUITTER_CONST_BYTES(name, count) name[static count]
#else
#define SQUITTER_RESTRICT
#define SQUITTER_BYTES(name, count) *name
#define SQUITTER_CONST_BYTES(name, count) *name
#endif

#if defined __GNUC__
#define SQUITTER_CALL __attribute__((nonnull, warn_unused_result, nothrow))
#define SQUITTER_WRITE __attribute__((nonnull, nothrow))
#define SQUITTER_PURE __attribute__((const, nothrow))
#else
#define SQUITTER_CALL
#define SQUITTER_WRITE
#define SQUITTER_PURE
#endif

/* Structs have the same layout everywhere, but for squitter_block and squitter_done: 64-bit numbers are aligned to 8
 * bytes, also on i386, and the second member of a tracker has 8 bytes, also where a pointer has 4. */
#if defined __GNUC__ && defined __i386__
#define SQUITTER_ALIGNED __attribute__((aligned(8)))
#else
#define SQUITTER_ALIGNED
#endif
#if UINTPTR_MAX > 0xffffffffu
typedef void *squitter_at;
#else
typedef uint64_t squitter_at;
#endif

/* The version of this header: 65536 * major + 256 * minor + patch. squitter_version() returns the library's. */
#define SQUITTER_VERSION 256

#define SQUITTER_FRAME_BYTES 14      /* of a frame */
#define SQUITTER_FRAME_DIGITS 28     /* of a frame's text, without a zero at its end */
#define SQUITTER_ANGLE_TEXT_BYTES 16 /* room for an angle's text and the zeros after it */
#define SQUITTER_FAULT_TEXT_BYTES 64 /* room for a fault's text and the zeros after it */

/* The error that a call returns, or OK. `first` and `second` are 0 unless the code's comment names them. */
typedef struct squitter_fault {
  uint32_t code;   /* one of the codes below */
  uint32_t second;
  uint64_t first;
} squitter_fault;

/* The codes of faults. */
enum {
  SQUITTER_OK = 0,
  /* of frame texts and frames */
  SQUITTER_WRAP = 1,             /* one of `*` and `;` without the other */
  SQUITTER_SHORT = 2,            /* the body has 14 bytes: a reply of 56 bits */
  SQUITTER_LENGTH = 3,           /* the body has `first` bytes, neither 28 nor 14 */
  SQUITTER_DIGIT = 4,            /* byte `first` of the body, from 1, is the first that is not a hexadecimal digit */
  SQUITTER_NOT_DF17 = 5,         /* the downlink format is `first`, not 17 */
  SQUITTER_PARITY = 6,           /* the remainder of the parity is `first`, not 0 */
  /* of positions: the first that applies */
  SQUITTER_NOT_POSITION = 10,    /* the squitter carries no position */
  SQUITTER_OTHER_ADDRESS = 11,   /* the addresses of a pair differ */
  SQUITTER_OTHER_KIND = 12,      /* one of a pair is in the air and one on the ground */
  SQUITTER_SAME_PARITY = 13,     /* both of a pair are even, or both are odd */
  SQUITTER_NO_SITE = 14,         /* a surface pair needs a receiver position (site) */
  SQUITTER_OUT_OF_RANGE = 15,    /* a latitude would lie outside -90 to 90 degrees */
  SQUITTER_ZONE_COUNTS = 16,     /* the zone counts (NL) of a pair's latitudes, even `first`, odd `second`, differ */
  /* of arguments */
  SQUITTER_BAD_POSITION = 20,    /* the reference, the site or the position is invalid */
  SQUITTER_BAD_FIELDS = 21,      /* a field of a head, or of an altitude, is out of range */
  SQUITTER_BAD_ANGLE = 22,       /* the fraction is not a valid angle */
  SQUITTER_BAD_LATITUDE = 23,    /* the fraction is not a valid latitude */
  SQUITTER_BAD_FEET = 24,        /* no altitude field encodes these feet */
  SQUITTER_BAD_PARITY = 25,      /* the parity is neither 0 nor 1 */
  /* of the texts of angles */
  SQUITTER_NOT_A_NUMBER = 30,    /* not an optional `-`, one to three digits, and optionally a point and digits */
  SQUITTER_TOO_MANY_DECIMALS = 31, /* more than twelve digits after the point */
  SQUITTER_ANGLE_RANGE = 32,     /* the magnitude is above 360 degrees */
  /* of timestamps */
  SQUITTER_MOMENT_BACK = 42,     /* the timestamp is before the last one, `first` */
  /* of the lines of a log; these come before the faults of frames and of timestamps */
  SQUITTER_LONG_LINE = 40,       /* a line has more than 64 bytes */
  SQUITTER_BAD_MOMENT = 41,      /* a line does not begin with a timestamp */
  /* of trackers, logs, feeds and orders */
  SQUITTER_TABLE_FULL = 43,      /* as many other addresses as the limit are present */
  SQUITTER_NO_MEMORY = 44,       /* the block is too small */
  SQUITTER_NO_LIMIT = 45,        /* the limit is 0 */
  SQUITTER_NO_TRACKER = 46,      /* there is no tracker, log, feed or order */
  SQUITTER_LONG_LOG = 48,        /* a log has 2^63 lines, or a piece more than 2^61 bytes */
  SQUITTER_BAD_FORMAT = 49,      /* no format has this number, or the bytes show no format */
  SQUITTER_BAD_ENTRY = 50        /* no tracker with the same settings can hold the entry at index `first` */
};

/* num / den degrees. A valid angle has a den from 1 to 10^12 and a magnitude of at most 360 degrees. Calls write angles
 * in lowest terms, with 0 as 0/1, except in the fix of an entry and in a squitter_answer. */
typedef struct squitter_angle {
  SQUITTER_ALIGNED int64_t num;
  uint64_t den;
} squitter_angle;

/* A latitude, north positive, at most 90 degrees, and a longitude, east positive, at most 180, on both sides. */
typedef struct squitter_position {
  squitter_angle lat, lon;
} squitter_position;

/* A latitude and a longitude in units of 10^-7 degree. */
typedef struct squitter_degrees_e7 {
  int32_t lat, lon;
} squitter_degrees_e7;

/* The kind of a squitter, by its type code. */
enum {
  SQUITTER_OTHER = 0,  /* every other type code: kept raw */
  SQUITTER_AIR = 1,    /* an airborne position, type codes 9 to 18 and 20 to 22 */
  SQUITTER_GROUND = 2  /* a surface position, type codes 5 to 8 */
};

/* The meaning of an altitude field. */
enum {
  SQUITTER_NO_ALTITUDE = 0,     /* none is sent */
  SQUITTER_FEET = 1,            /* feet, a multiple of 25 from -1000 to 50175 */
  SQUITTER_OTHER_ALTITUDE = 2   /* a field in another form, or a GNSS height */
};

/* A squitter, field by field. A field that its kind lacks is 0. */
typedef struct squitter_fields {
  uint64_t raw;          /* of kind other: the 56 bits of the message, ME */
  uint32_t address;      /* the ICAO address, below 2^24 */
  uint32_t lat;          /* the CPR code, below 131072 each */
  uint32_t lon;
  int32_t feet;          /* in the air, where altitude_form is SQUITTER_FEET */
  uint16_t altitude;     /* in the air: the altitude field, 12 bits */
  uint8_t altitude_form; /* in the air: SQUITTER_NO_ALTITUDE, SQUITTER_FEET or SQUITTER_OTHER_ALTITUDE */
  uint8_t kind;          /* SQUITTER_OTHER, SQUITTER_AIR or SQUITTER_GROUND */
  uint8_t ca;            /* the capability, below 8 */
  uint8_t type_code;     /* below 32 */
  uint8_t odd;           /* of a position: the parity of its code (F), 0 even, 1 odd */
  uint8_t time;          /* of a position: T, 0 or 1 */
  uint8_t status;        /* in the air: the surveillance status, below 4 */
  uint8_t flag;          /* in the air: ME bit 8, the single antenna flag or NIC supplement-B, 0 or 1 */
  uint8_t movement;      /* on the ground: below 128, raw */
  uint8_t track_status;  /* on the ground: 0 or 1 */
  uint8_t track;         /* on the ground: below 128, raw */
} squitter_fields;

/* The fields of an airborne position squitter, except its position. Ranges are those of squitter_fields; the type code
 * is one of kind air. */
typedef struct squitter_air_head {
  uint32_t address;
  uint16_t altitude;
  uint8_t ca, type_code, status, flag, time, odd;
} squitter_air_head;

/* The fields of a surface position squitter, except its position. Ranges are those of squitter_fields; the type code is
 * one of kind ground. */
typedef struct squitter_ground_head {
  uint32_t address;
  uint8_t ca, type_code, movement, track_status, track, time, odd;
} squitter_ground_head;

/* An altitude: `form` as in squitter_fields, and feet, or 0 in the other forms. */
typedef struct squitter_altitude {
  int32_t feet;
  uint8_t form;
} squitter_altitude;

/* The zones that a position lies in. YZ and XZ are the CPR code of its frame (`lat` and `lon` in squitter_fields). Its
 * latitude is degrees / lat_zones * (lat_zone + YZ / 2^17). Its longitude is
 * degrees / lon_zones * (lon_zone + XZ / 2^17), minus 360 degrees if that is 180 or more. */
typedef struct squitter_zones {
  int32_t lat_zone;    /* the zone of latitude, j: negative in the south */
  uint32_t lon_zone;   /* the zone of longitude, m: from 0, eastwards from the prime meridian */
  uint32_t degrees;    /* the degrees that the zones divide: 360 in the air, 90 on the ground */
  uint8_t lat_zones;   /* 60 even, 59 odd */
  uint8_t zone_count;  /* of the position's latitude, NL */
  uint8_t lon_zones;   /* NL even; odd, one less and at least 1 */
  uint8_t odd;
} squitter_zones;

/* State of one address of a tracker, as squitter_tracker_save and squitter_tracker_present write it. It is plain data,
 * so it may be copied and stored in a file; numbers have the machine's byte order. All bytes of an absent frame or fix
 * are 0. A frame that is not a squitter counts as absent, and so does a position that is out of range. */
typedef struct squitter_received { /* a frame, and its timestamp */
  SQUITTER_ALIGNED uint64_t moment;
  uint8_t frame[14];
} squitter_received;

typedef struct squitter_last_fix { /* the position of the newest fix or followed position, and its timestamp */
  uint64_t moment;
  squitter_position position;
} squitter_last_fix;

typedef struct squitter_side { /* in the air, or on the ground */
  squitter_received even, odd;
  squitter_last_fix fix;
} squitter_side;

typedef struct squitter_entry {
  uint64_t moment; /* timestamp of its newest position */
  uint32_t address;
  squitter_side airborne, surface;
} squitter_entry;

/* What is known of the places of aircraft. 0 means that it is not known. */
typedef struct squitter_watch {
  uint32_t range; /* no aircraft is further from the site than so many nautical miles */
  uint32_t speed; /* no aircraft is faster than so many knots */
} squitter_watch;

/* Why a place cannot be true. */
enum {
  SQUITTER_BEYOND_RANGE = 1, /* it is further from the site than the range */
  SQUITTER_TOO_FAST = 2      /* the aircraft would be faster than the speed */
};

/* Timestamp of the last frame that a tracker accepted. `heard` is 1, or 0 if the tracker has accepted no frame.
 * squitter_tracker_restore takes every other number as 1, and ignores `moment` if `heard` is 0. */
typedef struct squitter_last {
  uint64_t moment;
  uint64_t heard;
} squitter_last;

/* The result for a frame: the first of these that applies. */
enum {
  SQUITTER_FIX = 1,          /* position from this frame and the newest frame of its kind with the other parity */
  SQUITTER_FOLLOWED = 2,     /* position near the last fix of its kind, instead of WAITING or SPLIT */
  SQUITTER_WAITING = 3,      /* no frame of its kind with the other parity within the window */
  SQUITTER_SPLIT = 4,        /* the zone counts of the pair's latitudes, `even` and `odd`, differ */
  SQUITTER_FAR = 5,          /* a latitude of the pair would lie outside -90 to 90 degrees */
  SQUITTER_WITHOUT_SITE = 6, /* the pair is on the ground, and no site is given */
  SQUITTER_NO_PLACE = 7      /* the frame carries no position */
};

typedef struct squitter_heard {
  squitter_position position; /* of FIX and FOLLOWED, in lowest terms; else 0/0 and 0/0, an invalid position */
  uint8_t what;               /* one of the seven results above */
  uint8_t even, odd;          /* of SPLIT; else 0 */
} squitter_heard;

/* Memory that the caller provides: `memory` points to `size` bytes, aligned as malloc aligns them: to 16 bytes on 64-bit
 * processors, to 8 on 32-bit ones. On these a call that returns a size returns SIZE_MAX for one that does not fit. */
typedef struct squitter_block {
  size_t size;
  void *memory;
} squitter_block;

/* A tracker of many addresses, as `squitter track` uses it. Initialise it to zero, which means no tracker:
 * `squitter_tracker tracker = {0, 0};`. From squitter_tracker_new to squitter_tracker_free the caller must not write to
 * these 16 bytes or to the block, or use a copy of them. */
typedef struct squitter_tracker {
  uint64_t full;
  squitter_at at;
} squitter_tracker;

/* A log that is passed in pieces and decoded as by `squitter track`. The rules for squitter_tracker apply. */
typedef struct squitter_log {
  uint64_t full;
  squitter_at at;
} squitter_log;

/* The result for a line of a log. For a refused line, all but `number` and `fault` is 0. */
typedef struct squitter_answer {
  uint64_t number;             /* of the line, from 1 */
  uint64_t moment;
  squitter_heard heard;        /* its position is not in lowest terms */
  squitter_fault fault;        /* why the line is refused; OK for a good line */
  squitter_degrees_e7 degrees; /* the position of FIX and FOLLOWED, in units of 10^-7 degree; else 0 */
  uint32_t address;            /* the ICAO address */
  int32_t feet;                /* the altitude if altitude_form is SQUITTER_FEET; else 0 */
  uint8_t kind;                /* SQUITTER_OTHER, SQUITTER_AIR or SQUITTER_GROUND */
  uint8_t altitude_form;       /* in the air: SQUITTER_NO_ALTITUDE, SQUITTER_FEET or SQUITTER_OTHER_ALTITUDE */
} squitter_answer;

/* Progress of a call on a piece. */
typedef struct squitter_done {
  size_t taken;   /* bytes of the piece */
  size_t written; /* elements of the output */
} squitter_done;

/* Numbers of good lines and of refused lines. */
typedef struct squitter_tally {
  uint64_t good, refused;
} squitter_tally;

/* A feed finds the squitters in a receiver's bytes, with their timestamps. The rules for squitter_tracker apply. */
typedef struct squitter_feed {
  uint64_t full;
  squitter_at at;
} squitter_feed;

/* An order sorts squitters by timestamp. The rules for squitter_tracker apply. */
typedef struct squitter_order {
  uint64_t full;
  squitter_at at;
} squitter_order;

/* Counts of the items of a source. `found` is the sum of the other counts of items; at 2^64 - 1 all of these stop. A
 * frame that waits for others to confirm its time is counted when that is decided. With SQUITTER_FEED_ALL_FORMATS,
 * `written` counts frames of all downlink formats, and `formats` none of these. */
typedef struct squitter_counts {
  uint64_t found;
  uint64_t written;        /* squitters, with a timestamp */
  uint64_t mode_ac;        /* replies of Mode A/C */
  uint64_t multilaterated; /* frames that a server computed by multilateration */
  uint64_t receiver_ids;   /* ids of receivers in a Beast stream, which are no frames */
  uint64_t damaged;        /* bytes outside messages, and frames of the wrong length for their downlink format */
  uint64_t aside;          /* squitters that were set aside because of their time */
  uint64_t formats[25];    /* frames of each downlink format other than 17; [24] counts formats 24 and above */
  uint64_t breaks;         /* how often times went back, so that timestamps are moved on; these are no items */
  uint64_t ahead;          /* 1 if timestamps of a live source are ahead of arrivals by more than `leap`, otherwise 0:
                            * it is a recording, or its clock does not run at 12 MHz */
} squitter_counts;

/* ---- Texts and frames ---- */

/* Parses a frame text: 28 hexadecimal digits of either case, bare or between `*` and `;`.
 * Faults: WRAP, SHORT, LENGTH, DIGIT. */
squitter_fault squitter_frame_of_text(const char *text, size_t length, uint8_t SQUITTER_BYTES(out, 14)) SQUITTER_CALL;

/* Writes the text of a frame: 28 upper-case hexadecimal digits, without a zero at the end. */
void squitter_text_of_frame(const uint8_t SQUITTER_CONST_BYTES(frame, 14), char SQUITTER_BYTES(out, 28)) SQUITTER_WRITE;

/* Reads the fields of a squitter from a frame text. Faults: those of squitter_frame_of_text, then NOT_DF17, PARITY. */
squitter_fault squitter_read_text(const char *text, size_t length,
                                  squitter_fields *SQUITTER_RESTRICT out) SQUITTER_CALL;

/* Reads the fields of a squitter from a frame. Faults: NOT_DF17, PARITY. */
squitter_fault squitter_read_frame(const uint8_t SQUITTER_CONST_BYTES(frame, 14),
                                   squitter_fields *SQUITTER_RESTRICT out) SQUITTER_CALL;

/* ---- Positions ---- */

/* Decodes the position of a frame near a reference: the one point with the frame's code within half a zone of the
 * reference. Faults: BAD_POSITION (the reference), NOT_DF17, PARITY, NOT_POSITION, OUT_OF_RANGE. */
squitter_fault squitter_local(const uint8_t SQUITTER_CONST_BYTES(frame, 14), const squitter_position *reference,
                              squitter_position *SQUITTER_RESTRICT out) SQUITTER_CALL;

/* Writes the zones that the position of squitter_local lies in. Faults: those of squitter_local. */
squitter_fault squitter_local_zones(const uint8_t SQUITTER_CONST_BYTES(frame, 14), const squitter_position *reference,
                                    squitter_zones *SQUITTER_RESTRICT out) SQUITTER_CALL;

/* Decodes the position of the newer of an even and an odd airborne frame. Both have the same address, and were sent
 * from nearly the same position. Faults: NOT_DF17, PARITY (of the older, then of the newer), NOT_POSITION,
 * OTHER_ADDRESS, OTHER_KIND, SAME_PARITY, NO_SITE (for every surface pair), OUT_OF_RANGE, ZONE_COUNTS. */
squitter_fault squitter_pair(const uint8_t SQUITTER_CONST_BYTES(older, 14),
                             const uint8_t SQUITTER_CONST_BYTES(newer, 14),
                             squitter_position *SQUITTER_RESTRICT out) SQUITTER_CALL;

/* The same with a receiver position (the site). A surface pair has four candidate positions; the result is the one
 * within 45 degrees of the site. An airborne pair does not use the site. Faults: BAD_POSITION (the site), then those of
 * squitter_pair except NO_SITE. */
squitter_fault squitter_pair_at(const uint8_t SQUITTER_CONST_BYTES(older, 14),
                                const uint8_t SQUITTER_CONST_BYTES(newer, 14), const squitter_position *site,
                                squitter_position *SQUITTER_RESTRICT out) SQUITTER_CALL;

/* ---- A tracker ---- */

/* Returns the size in bytes of the block for a tracker of up to `limit` addresses: 738 thousand for 1000. */
size_t squitter_tracker_size(uint32_t limit) SQUITTER_PURE;

/* Creates an empty tracker for up to `limit` addresses in the block, without a receiver position. An address is
 * present while its newest position is at most `window` milliseconds older than the last accepted frame. An existing
 * tracker is freed first. After a fault there is no tracker, and the block is the caller's. Faults: NO_LIMIT (the limit
 * is 0), NO_MEMORY (the block is smaller than squitter_tracker_size returns). The program uses a limit of 1000 and a
 * window of 10000. */
squitter_fault squitter_tracker_new(squitter_tracker *tracker, squitter_block block, uint32_t limit,
                                    uint64_t window) SQUITTER_CALL;

/* The same with a receiver position, which surface pairs need. Faults: BAD_POSITION (the site), then those of
 * squitter_tracker_new. */
squitter_fault squitter_tracker_new_at(squitter_tracker *SQUITTER_RESTRICT tracker, squitter_block block,
                                       uint32_t limit, uint64_t window, const squitter_position *site) SQUITTER_CALL;

/* Frees the tracker; its block is the caller's again. Safe to call twice, and on a tracker that was never created. */
void squitter_tracker_free(squitter_tracker *tracker) SQUITTER_WRITE;

/* Adds a frame with its timestamp, and writes the result from this frame and all frames accepted before it. The time of
 * a call does not grow with the number of addresses. After a fault the tracker and *out are unchanged. Faults:
 * NO_TRACKER, NOT_DF17, PARITY, MOMENT_BACK, TABLE_FULL. */
squitter_fault squitter_tracker_hear(squitter_tracker *SQUITTER_RESTRICT tracker, uint64_t moment,
                                     const uint8_t SQUITTER_CONST_BYTES(frame, 14),
                                     squitter_heard *SQUITTER_RESTRICT out) SQUITTER_CALL;

/* Calls squitter_tracker_hear for each frame in turn, and returns the number of frames. The rules under Arrays, below,
 * apply. */
size_t squitter_tracker_hear_many(squitter_tracker *SQUITTER_RESTRICT tracker, const uint64_t *moments,
                                  size_t moments_count, const uint8_t (*frames)[14], size_t frames_count,
                                  squitter_heard *SQUITTER_RESTRICT out, size_t out_count,
                                  squitter_fault *SQUITTER_RESTRICT faults, size_t faults_count) SQUITTER_CALL;

/* Returns the number of present addresses, at most the limit; 0 without a tracker. */
size_t squitter_tracker_len(squitter_tracker *tracker) SQUITTER_CALL;

/* Writes the state of each address that was heard at or after `since`, the last heard first, from index `from` on, as
 * many as fit. Returns the number of entries that it wrote. If it is entries_count, call again with `from` greater by
 * that number. With `since` 0 these are all present addresses; a later time gives those with a position since then.
 * Without a tracker it returns 0 and writes nothing. */
size_t squitter_tracker_present(squitter_tracker *SQUITTER_RESTRICT tracker, uint64_t since, size_t from,
                                squitter_entry *SQUITTER_RESTRICT entries, size_t entries_count) SQUITTER_CALL;

/* Writes the state of a tracker: *last, and the entries of the present addresses, as many as fit, the longest silent
 * first. Returns the number of present addresses. Without a tracker it returns 0 and writes nothing. */
size_t squitter_tracker_save(squitter_tracker *SQUITTER_RESTRICT tracker, squitter_last *SQUITTER_RESTRICT last,
                             squitter_entry *SQUITTER_RESTRICT entries, size_t entries_count) SQUITTER_CALL;

/* Replaces the state of a tracker by one that squitter_tracker_save wrote. The tracker keeps its limit, window and
 * site. Refuses a state that no tracker with these settings and this *last can hold:
 *   - more entries than the limit, or an address twice;
 *   - an address that is not present at last->moment;
 *   - an entry with an earlier timestamp than the entry before it;
 *   - a frame of another address, kind or parity, or newer than the newest position;
 *   - a fix that is no point of its kind's grid, as the fractions that save writes;
 *   - a fix newer than the frame of its point's parity, or without a frame of the other parity.
 * A restored fix may be another point of the grid than the frames gave. The state has no check sum, and many states in
 * which one bit was changed are accepted: keep a check sum of your own if the state goes through a disk or a network.
 * Faults: NO_TRACKER, BAD_ENTRY (`first` is the index). After BAD_ENTRY the tracker is as if it had heard no frame. */
squitter_fault squitter_tracker_restore(squitter_tracker *SQUITTER_RESTRICT tracker, const squitter_last *last,
                                        const squitter_entry *entries, size_t entries_count) SQUITTER_CALL;

/* Returns why a place at `moment` cannot be true: the sum of SQUITTER_BEYOND_RANGE, if the range is known and the place
 * is further from the site, and SQUITTER_TOO_FAST, if the speed is known and the place is further from the one before
 * it than the aircraft comes at this speed, and a nautical mile; 0 if neither is so. Two places are further apart than
 * so many miles if their latitudes differ by more than miles / 60 degrees, or their longitudes, the shorter way round,
 * by more than miles / NL degrees, where NL is the smaller zone count of the two and at least 2. A position that is out
 * of range counts as absent: such a place has no doubts. So zeros mean no site, and no place before. */
uint32_t squitter_doubts(const squitter_watch *watch, const squitter_position *site, const squitter_last_fix *before,
                         uint64_t moment, const squitter_position *place) SQUITTER_CALL;

/* ---- A log ---- */

/* Returns the size in bytes of the block for a log of up to `limit` addresses. */
size_t squitter_log_size(uint32_t limit) SQUITTER_PURE;

/* Creates a log without lines in the block, with a tracker as squitter_tracker_new creates it. Faults: NO_LIMIT,
 * NO_MEMORY. */
squitter_fault squitter_log_new(squitter_log *log, squitter_block block, uint32_t limit, uint64_t window) SQUITTER_CALL;

/* The same with a receiver position, which surface pairs need. Faults: BAD_POSITION (the site), then those of
 * squitter_log_new. */
squitter_fault squitter_log_new_at(squitter_log *SQUITTER_RESTRICT log, squitter_block block, uint32_t limit,
                                   uint64_t window, const squitter_position *site) SQUITTER_CALL;

/* Frees the log; its block is the caller's again. Safe to call twice, and on a log that was never created. */
void squitter_log_free(squitter_log *log) SQUITTER_WRITE;

/* Takes the next piece of the log, of any length, and writes the results of its lines, as many as fit. An empty line
 * has no result. done->taken counts the bytes that were taken, done->written the results. If the call returns OK and
 * done->written < out_count, it took the whole piece and wrote the result of each line with a line feed. Otherwise call
 * again with the bytes that were not taken. Faults: NO_TRACKER (there is no log), LONG_LOG (2^63 lines, or a piece of
 * more than 2^61 bytes). After a fault nothing has changed. */
squitter_fault squitter_log_take(squitter_log *SQUITTER_RESTRICT log, const char *piece, size_t length,
                                 squitter_answer *SQUITTER_RESTRICT out, size_t out_count,
                                 squitter_done *SQUITTER_RESTRICT done) SQUITTER_CALL;

/* Writes the results of the lines that still wait, and of a last line without a line feed. If the call returns OK and
 * done->written < out_count, all results are written; otherwise call again. It ends the line and not the log: the next
 * piece begins a new line, with the next number, and the log keeps its aircraft, its last timestamp and its tally.
 * Faults: those of squitter_log_take. */
squitter_fault squitter_log_finish(squitter_log *SQUITTER_RESTRICT log, squitter_answer *SQUITTER_RESTRICT out,
                                   size_t out_count, squitter_done *SQUITTER_RESTRICT done) SQUITTER_CALL;

/* The formats of `squitter track --format`. */
enum {
  SQUITTER_LINES = 0,
  SQUITTER_CSV = 1,
  SQUITTER_JSON = 2
};

#define SQUITTER_HEADER_BYTES 64       /* room for the header of a format and the zeros after it */
#define SQUITTER_ANSWER_TEXT_BYTES 512 /* the most that the text of one line takes */

/* Writes the header of a format and zeros after it: the line with the column names; empty for a format without one. */
void squitter_log_header(uint32_t format, char SQUITTER_BYTES(out, 64)) SQUITTER_WRITE;

/* Like squitter_log_take, but writes the lines that the program prints, without a zero at the end. A line is started
 * only if there is room for SQUITTER_ANSWER_TEXT_BYTES. If the call returns OK and done->written + 512 <= out_count, it
 * took the whole piece. Faults: NO_TRACKER, BAD_FORMAT, LONG_LOG. */
squitter_fault squitter_log_take_text(squitter_log *SQUITTER_RESTRICT log, uint32_t format, const char *piece,
                                      size_t length, char *SQUITTER_RESTRICT out, size_t out_count,
                                      squitter_done *SQUITTER_RESTRICT done) SQUITTER_CALL;

/* Like squitter_log_finish, but writes the lines that the program prints. If the call returns OK and
 * done->written + 512 <= out_count, all lines are written; otherwise call again. Faults: those of
 * squitter_log_take_text. */
squitter_fault squitter_log_finish_text(squitter_log *SQUITTER_RESTRICT log, uint32_t format,
                                        char *SQUITTER_RESTRICT out, size_t out_count,
                                        squitter_done *SQUITTER_RESTRICT done) SQUITTER_CALL;

/* Writes the numbers of good and of refused lines so far. Fault: NO_TRACKER. */
squitter_fault squitter_log_tally(squitter_log *SQUITTER_RESTRICT log,
                                  squitter_tally *SQUITTER_RESTRICT out) SQUITTER_CALL;

/* Writes the addresses of the log that are present, as squitter_tracker_present does. */
size_t squitter_log_present(squitter_log *SQUITTER_RESTRICT log, uint64_t since, size_t from,
                            squitter_entry *SQUITTER_RESTRICT entries, size_t entries_count) SQUITTER_CALL;

/* ---- A feed ---- */

/* The formats of a source. */
enum {
  SQUITTER_FEED_BEAST = 0, /* Beast binary */
  SQUITTER_FEED_AVR = 1,   /* AVR text, with clocks or without */
  SQUITTER_FEED_CSV = 2,   /* CSV: columns `time`, `mintime` or `timestamp` (s), and `rawmsg`; without a header 1 and 3 */
  SQUITTER_FEED_LOG = 3,   /* a log: a timestamp (ms), a space and a frame on each line */
  SQUITTER_FEED_AUTO = 4   /* the first bytes show the format; not known yet */
};

/* Sources without frames of a known format. */
enum {
  SQUITTER_FEED_SBS = 5,         /* SBS (BaseStation) text: it has positions and no frames */
  SQUITTER_FEED_TAR = 6,         /* a tar archive */
  SQUITTER_FEED_PACKED = 7,      /* compressed by gzip, bzip2, xz or zstd, or a zip archive */
  SQUITTER_FEED_UTF16 = 8,       /* text in UTF-16 */
  SQUITTER_FEED_JSON = 9,        /* lines of JSON */
  SQUITTER_FEED_NO_FRAME = 10,   /* bytes without frames */
  SQUITTER_FEED_SEMICOLONS = 11, /* a table with semicolons between its columns */
  SQUITTER_FEED_TABS = 12,       /* a table with tabs between its columns */
  SQUITTER_FEED_NO_TIME = 13,    /* a table with a column `rawmsg`, and no column `time`, `mintime` or `timestamp` */
  SQUITTER_FEED_NO_RAWMSG = 14,  /* a table with columns of the time and `icao24`, and no column `rawmsg` */
  SQUITTER_FEED_NO_SECONDS = 15, /* a table with frames in its third column, and no seconds in its first one */
  SQUITTER_FEED_NO_NAMES = 16    /* a table with frames in another column, and no names of its columns */
};

/* What timestamps seem to be. */
enum {
  SQUITTER_UNIT_MILLISECONDS = 0, /* or too few show it */
  SQUITTER_UNIT_SECONDS = 1,
  SQUITTER_UNIT_MICROSECONDS = 2,
  SQUITTER_UNIT_NANOSECONDS = 3,
  SQUITTER_UNIT_ALL_ZERO = 4,     /* several frames, all with the timestamp 0 */
  SQUITTER_UNIT_GPS = 5           /* a receiver's clock that counts GPS time, and not 12 MHz */
};

/* How a feed hears its source: a sum of these flags. */
enum {
  SQUITTER_FEED_LIVE = 1,        /* arrivals say when the bytes were received; otherwise they have no effect */
  SQUITTER_FEED_BY_ARRIVAL = 2,  /* the receiver's clock is ignored, so that its frames have their arrivals */
  SQUITTER_FEED_ALL_FORMATS = 4  /* frames of all downlink formats are written; otherwise those of format 17 */
};

#define SQUITTER_LINE_BYTES 50 /* the most that one line of a log takes */

/* Returns the size in bytes of the block for a feed. */
size_t squitter_feed_size(void) SQUITTER_PURE;

/* Creates a feed in the block, at the start of a source. With SQUITTER_FEED_AUTO, the first bytes show the format: the
 * start of a Beast message, or two messages in a row after other bytes; a line of a log, a row of a table or its
 * header; any other line with a frame of AVR text. The first byte that shows a format decides, however the source is
 * cut into pieces. The whole source is then read in that format, from its first byte on. A source that shows none in
 * its first 16384 bytes has no frames. A timestamp may be before the latest one by `late` milliseconds; with 0,
 * timestamps never go back. A time jumps if it is more than `leap` milliseconds after the latest one, or before it by
 * more than a second and `late`. Up to two frames that jump wait until others confirm their times, and so does the first
 * row of a log or a table. They come with later calls, at the latest with the end. `flags` is a sum of
 * SQUITTER_FEED_LIVE, SQUITTER_FEED_BY_ARRIVAL and SQUITTER_FEED_ALL_FORMATS; its other bits are ignored. For a live
 * source, `arrival` is the time (ms) when the bytes were received. A frame without a clock is as much later than the
 * one before it as their arrivals are apart. An existing feed is freed first. After a fault there is no feed, and the
 * block is the caller's. Faults: BAD_FORMAT, NO_MEMORY (the block is smaller than squitter_feed_size returns). squitter
 * feed and squitter-feed use a leap of 600000. */
squitter_fault squitter_feed_new(squitter_feed *feed, squitter_block block, uint32_t format, uint64_t leap,
                                 uint64_t late, uint32_t flags) SQUITTER_CALL;

/* Frees the feed; its block is the caller's again. Safe to call twice, and on a feed that was never created. */
void squitter_feed_free(squitter_feed *feed) SQUITTER_WRITE;

/* Takes the next bytes of the source, of any number. Writes the timestamps (ms) and frames of their squitters, as many
 * as fit both arrays. The arrays can go straight to squitter_tracker_hear_many. No timestamp is before the latest one
 * by more than `late`. A frame of a downlink format below 16 has seven bytes, and seven zeros follow.
 * done->taken counts the bytes that were taken, done->written the squitters. If done->written is below both array
 * lengths, all bytes were taken. Otherwise call again with the bytes that were not taken. The squitters do not depend
 * on how the source is cut into pieces. Fault: NO_TRACKER if there is no feed; nothing is changed then. */
squitter_fault squitter_feed_take(squitter_feed *SQUITTER_RESTRICT feed, const char *piece, size_t length,
                                  uint64_t arrival, uint64_t *SQUITTER_RESTRICT moments, size_t moments_count,
                                  uint8_t (*SQUITTER_RESTRICT frames)[14], size_t frames_count,
                                  squitter_done *SQUITTER_RESTRICT done) SQUITTER_CALL;

/* Ends the source, and writes its last squitters, as many as fit both arrays. Rows that wait are decided: they are
 * written, or counted as set aside. If done->written is below both array lengths, these are all, and the next bytes
 * belong to another source. Otherwise call again. Fault: NO_TRACKER. */
squitter_fault squitter_feed_finish(squitter_feed *SQUITTER_RESTRICT feed, uint64_t arrival,
                                    uint64_t *SQUITTER_RESTRICT moments, size_t moments_count,
                                    uint8_t (*SQUITTER_RESTRICT frames)[14], size_t frames_count,
                                    squitter_done *SQUITTER_RESTRICT done) SQUITTER_CALL;

/* Like squitter_feed_take, but writes the squitters as lines for `squitter track`, without a zero at the end. A line is
 * started only if there is room for SQUITTER_LINE_BYTES. If done->written + 50 <= out_count, all bytes were taken.
 * Fault: NO_TRACKER if there is no feed; nothing is changed then. */
squitter_fault squitter_feed_take_text(squitter_feed *SQUITTER_RESTRICT feed, const char *piece, size_t length,
                                       uint64_t arrival, char *SQUITTER_RESTRICT out, size_t out_count,
                                       squitter_done *SQUITTER_RESTRICT done) SQUITTER_CALL;

/* Like squitter_feed_finish, but writes the squitters as lines. If done->written + 50 <= out_count, these are all.
 * Otherwise call again. Fault: NO_TRACKER. */
squitter_fault squitter_feed_finish_text(squitter_feed *SQUITTER_RESTRICT feed, uint64_t arrival,
                                         char *SQUITTER_RESTRICT out, size_t out_count,
                                         squitter_done *SQUITTER_RESTRICT done) SQUITTER_CALL;

/* Drops an unfinished frame after a lost connection, and counts it as damaged. Frames that wait are decided; those that
 * get timestamps come with the next call. The next bytes belong to a new connection: its clock starts afresh, and
 * timestamps do not go back. Fault: NO_TRACKER. */
squitter_fault squitter_feed_disconnected(squitter_feed *feed) SQUITTER_CALL;

/* Writes what the source is: its format (0 to 3), 5 to 10 for a source without frames, or SQUITTER_FEED_AUTO while this
 * is not known. At the end of a source that has bytes but no format, it is known. Fault: NO_TRACKER. */
squitter_fault squitter_feed_format(squitter_feed *SQUITTER_RESTRICT feed,
                                    uint32_t *SQUITTER_RESTRICT out) SQUITTER_CALL;

/* Writes the counts of the items so far. Fault: NO_TRACKER. */
squitter_fault squitter_feed_counts(squitter_feed *SQUITTER_RESTRICT feed,
                                    squitter_counts *SQUITTER_RESTRICT out) SQUITTER_CALL;

/* Returns what timestamps (ms) seem to be, by the gaps between those of an aircraft: one of the numbers above. Element
 * k of both arrays belongs to one squitter. The shorter length counts, and the first 16,384 elements. `clocked` is not
 * 0 if a receiver's clock gave the timestamps: then only GPS time and zeros are told. */
uint32_t squitter_unit_of(const uint64_t *moments, size_t moments_count, const uint32_t *addresses,
                          size_t addresses_count, uint8_t clocked) SQUITTER_CALL;

/* ---- An order ---- */

/* Returns the size in bytes of the block for an order that holds up to `room` squitters. */
size_t squitter_order_size(uint32_t room) SQUITTER_PURE;

/* Creates an order in the block. It holds each squitter until one has come that is `reorder` milliseconds later, and as
 * many as the block has room for. An existing order is freed first. After a fault there is no order, and the block is
 * the caller's. Fault: NO_MEMORY (the block is smaller than squitter_order_size(0)). */
squitter_fault squitter_order_new(squitter_order *order, squitter_block block, uint64_t reorder) SQUITTER_CALL;

/* Moves the order to another block, with room for more. Its old block is the caller's again. After a fault the order
 * stays in its old block. Faults: NO_TRACKER; NO_MEMORY (the block has no room for the squitters that are held). */
squitter_fault squitter_order_grow(squitter_order *order, squitter_block block) SQUITTER_CALL;

/* Frees the order; its block is the caller's again. Safe to call twice, and on an order that was never created. */
void squitter_order_free(squitter_order *order) SQUITTER_WRITE;

/* Takes squitters, by their timestamps (ms) and frames, in the order of arrival. Writes those that are due, in the
 * order of their timestamps, as many as fit both output arrays. Equal timestamps keep the order of arrival. The
 * timestamps of all calls never go back: a squitter below the last one that was written is late, and is dropped and
 * counted. done->taken counts the squitters that were taken, late ones too; done->written those that were written. If
 * the code is OK and done->written is below both output lengths, all were taken. Otherwise call again with the
 * squitters that were not taken.
 * Faults: NO_TRACKER if there is no order; nothing is changed then. NO_MEMORY if the order is full: *done is written,
 * and the next squitter was not taken. squitter_order_grow makes room; so does squitter_order_flush with short arrays,
 * but squitters below those that it writes are late from then on. */
squitter_fault squitter_order_take(squitter_order *SQUITTER_RESTRICT order, const uint64_t *moments,
                                   size_t moments_count, const uint8_t (*frames)[14], size_t frames_count,
                                   uint64_t *SQUITTER_RESTRICT out_moments, size_t out_moments_count,
                                   uint8_t (*SQUITTER_RESTRICT out_frames)[14], size_t out_frames_count,
                                   squitter_done *SQUITTER_RESTRICT done) SQUITTER_CALL;

/* Writes the squitters that are held, in the order of their timestamps, as many as fit both arrays. If done->written is
 * below both lengths, none is held any more. The order keeps the latest timestamp, so a squitter of an earlier source
 * comes late: use a new order for it. Fault: NO_TRACKER. */
squitter_fault squitter_order_flush(squitter_order *SQUITTER_RESTRICT order, uint64_t *SQUITTER_RESTRICT out_moments,
                                    size_t out_moments_count, uint8_t (*SQUITTER_RESTRICT out_frames)[14],
                                    size_t out_frames_count, squitter_done *SQUITTER_RESTRICT done) SQUITTER_CALL;

/* Writes how many squitters are held. Fault: NO_TRACKER. */
squitter_fault squitter_order_held(squitter_order *SQUITTER_RESTRICT order,
                                   uint64_t *SQUITTER_RESTRICT out) SQUITTER_CALL;

/* Writes how many squitters were late; at 2^64 - 1 the count stops. Fault: NO_TRACKER. */
squitter_fault squitter_order_late(squitter_order *SQUITTER_RESTRICT order,
                                   uint64_t *SQUITTER_RESTRICT out) SQUITTER_CALL;

/* ---- Arrays ---- */

/* One call for many elements. Element k of `out` and of `faults` is what the single call writes and returns for
 * element k of the other arrays; after a fault that element of `out` is unchanged. Each array is followed by its
 * length. The shortest length counts, and is returned; elements beyond it are unchanged. An array may be empty, but
 * its pointer is not null. `out` and `faults` overlap no other argument. */

/* Calls squitter_read_frame for each frame. */
size_t squitter_read_many(const uint8_t (*frames)[14], size_t frames_count, squitter_fields *SQUITTER_RESTRICT out,
                          size_t out_count, squitter_fault *SQUITTER_RESTRICT faults,
                          size_t faults_count) SQUITTER_CALL;

/* Calls squitter_local for each frame and its reference. */
size_t squitter_local_many(const uint8_t (*frames)[14], size_t frames_count, const squitter_position *references,
                           size_t references_count, squitter_position *SQUITTER_RESTRICT out, size_t out_count,
                           squitter_fault *SQUITTER_RESTRICT faults, size_t faults_count) SQUITTER_CALL;

/* Calls squitter_pair for each older frame and its newer one. */
size_t squitter_pair_many(const uint8_t (*older)[14], size_t older_count, const uint8_t (*newer)[14],
                          size_t newer_count, squitter_position *SQUITTER_RESTRICT out, size_t out_count,
                          squitter_fault *SQUITTER_RESTRICT faults, size_t faults_count) SQUITTER_CALL;

/* Calls squitter_pair_at for each pair, with one site. */
size_t squitter_pair_at_many(const uint8_t (*older)[14], size_t older_count, const uint8_t (*newer)[14],
                             size_t newer_count, const squitter_position *site,
                             squitter_position *SQUITTER_RESTRICT out, size_t out_count,
                             squitter_fault *SQUITTER_RESTRICT faults, size_t faults_count) SQUITTER_CALL;

/* Calls squitter_position_e7 for each position. */
size_t squitter_position_e7_many(const squitter_position *positions, size_t positions_count,
                                 squitter_degrees_e7 *SQUITTER_RESTRICT out, size_t out_count,
                                 squitter_fault *SQUITTER_RESTRICT faults, size_t faults_count) SQUITTER_CALL;

/* ---- Sending ---- */

/* Encodes the frame for an airborne position. The frame has the code of the point that the position rounds to.
 * Faults: BAD_FIELDS (the head), BAD_POSITION. */
squitter_fault squitter_encode_air(const squitter_air_head *head, const squitter_position *position,
                                   uint8_t SQUITTER_BYTES(out, 14)) SQUITTER_CALL;

/* The same for a surface position. */
squitter_fault squitter_encode_ground(const squitter_ground_head *head, const squitter_position *position,
                                      uint8_t SQUITTER_BYTES(out, 14)) SQUITTER_CALL;

/* Encodes the frame again with this parity (0 even, 1 odd) and the code of this position; its other fields stay.
 * Faults: BAD_PARITY, BAD_POSITION, NOT_DF17, PARITY, NOT_POSITION. */
squitter_fault squitter_send_again(const uint8_t SQUITTER_CONST_BYTES(frame, 14), uint8_t odd,
                                   const squitter_position *position, uint8_t SQUITTER_BYTES(out, 14)) SQUITTER_CALL;

/* ---- Parts ---- */

/* Writes the number of longitude zones at a latitude (NL), from 1 to 59. Fault: BAD_LATITUDE. */
squitter_fault squitter_zone_count(const squitter_angle *lat, uint8_t *SQUITTER_RESTRICT out) SQUITTER_CALL;

/* Writes an angle with seven decimals, rounded half away from zero: at most 12 bytes, and zeros after them.
 * Fault: BAD_ANGLE. */
squitter_fault squitter_text_of_angle(const squitter_angle *angle, char SQUITTER_BYTES(out, 16)) SQUITTER_CALL;

/* Writes the angle in units of 10^-7 degree, rounded half away from zero like its text with seven decimals.
 * Fault: BAD_ANGLE. */
squitter_fault squitter_angle_e7(const squitter_angle *angle, int64_t *SQUITTER_RESTRICT out) SQUITTER_CALL;

/* The same for both coordinates of a position. Fault: BAD_POSITION. */
squitter_fault squitter_position_e7(const squitter_position *position,
                                    squitter_degrees_e7 *SQUITTER_RESTRICT out) SQUITTER_CALL;

/* Parses an angle: an optional `-`, one to three digits, and optionally a point and one to twelve digits.
 * Faults: NOT_A_NUMBER, TOO_MANY_DECIMALS, ANGLE_RANGE. */
squitter_fault squitter_angle_of_text(const char *text, size_t length,
                                      squitter_angle *SQUITTER_RESTRICT out) SQUITTER_CALL;

/* Decodes an altitude field of 12 bits in an airborne position of this type code. Fault: BAD_FIELDS. */
squitter_fault squitter_feet_of_field(uint8_t type_code, uint16_t field,
                                      squitter_altitude *SQUITTER_RESTRICT out) SQUITTER_CALL;

/* Encodes an altitude as a field in steps of 25 feet. Valid `feet` are multiples of 25 from -1000 to 50175.
 * Fault: BAD_FEET. */
squitter_fault squitter_field_of_feet(int32_t feet, uint16_t *SQUITTER_RESTRICT out) SQUITTER_CALL;

/* Writes the words of a fault, those of the program `squitter` if it has any, and zeros after them. */
void squitter_text_of_fault(const squitter_fault *fault, char SQUITTER_BYTES(out, 64)) SQUITTER_WRITE;

/* Returns the version of the library; SQUITTER_VERSION is the header's. */
uint32_t squitter_version(void) SQUITTER_PURE;

#if defined __STDC_VERSION__ && __STDC_VERSION__ >= 201112L
#define SQUITTER_SIZE(type, size) _Static_assert(sizeof(type) == size, #type " has another size")
#elif defined __cplusplus && __cplusplus >= 201103L
#define SQUITTER_SIZE(type, size) static_assert(sizeof(type) == size, #type " has another size")
#else
#define SQUITTER_SIZE(type, size) struct squitter_sizes_are_stated
#endif
SQUITTER_SIZE(squitter_fault, 16);
SQUITTER_SIZE(squitter_angle, 16);
SQUITTER_SIZE(squitter_position, 32);
SQUITTER_SIZE(squitter_fields, 40);
SQUITTER_SIZE(squitter_air_head, 12);
SQUITTER_SIZE(squitter_ground_head, 12);
SQUITTER_SIZE(squitter_altitude, 8);
SQUITTER_SIZE(squitter_zones, 16);
SQUITTER_SIZE(squitter_received, 24);
SQUITTER_SIZE(squitter_last_fix, 40);
SQUITTER_SIZE(squitter_side, 88);
SQUITTER_SIZE(squitter_entry, 192);
SQUITTER_SIZE(squitter_last, 16);
SQUITTER_SIZE(squitter_watch, 8);
SQUITTER_SIZE(squitter_heard, 40);
SQUITTER_SIZE(squitter_degrees_e7, 8);
SQUITTER_SIZE(squitter_tracker, 16);
SQUITTER_SIZE(squitter_log, 16);
SQUITTER_SIZE(squitter_answer, 96);
SQUITTER_SIZE(squitter_tally, 16);
SQUITTER_SIZE(squitter_feed, 16);
SQUITTER_SIZE(squitter_order, 16);
SQUITTER_SIZE(squitter_counts, 272);
#if UINTPTR_MAX > 0xffffffffu
SQUITTER_SIZE(squitter_block, 16);
SQUITTER_SIZE(squitter_done, 16);
#endif

#ifdef __cplusplus
}
#endif
#endif
