/* libsquitter as a decoder of words, for adapters/plain. */
#include "squitter.h"
#include <inttypes.h>
#include <stdio.h>
#include <stdlib.h>
#include <string.h>

enum { WORDS = 128, LINE = 1 << 12, BYTES = 1 << 15, LEAP = 600000, ROOM = 120, COUNT = 2, HELD = 64 };

/* What a call answered: a fault's words where it has one. */
static int refused(squitter_fault fault) {
  char text[SQUITTER_FAULT_TEXT_BYTES];
  if (!fault.code) return 0;
  squitter_text_of_fault(&fault, text);
  printf("refused %s\n", text);
  return 1;
}

/* An angle of decimals, or of num/den. */
static int read_angle(const char *text, squitter_angle *out) {
  const char *stroke = strchr(text, '/');
  if (!stroke) return !refused(squitter_angle_of_text(text, strlen(text), out));
  out->num = strtoll(text, 0, 10);
  out->den = strtoull(stroke + 1, 0, 10);
  return 1;
}

static int read_position(char **words, squitter_position *out) {
  return read_angle(words[0], &out->lat) && read_angle(words[1], &out->lon);
}

static int read_frame_text(const char *text, uint8_t out[SQUITTER_FRAME_BYTES]) {
  return !refused(squitter_frame_of_text(text, strlen(text), out));
}

static void show_place(squitter_fault fault, const squitter_position *place) {
  char lat[SQUITTER_ANGLE_TEXT_BYTES], lon[SQUITTER_ANGLE_TEXT_BYTES];
  if (refused(fault) || refused(squitter_text_of_angle(&place->lat, lat))) return;
  if (refused(squitter_text_of_angle(&place->lon, lon))) return;
  printf("ok %" PRId64 "/%" PRIu64 " %" PRId64 "/%" PRIu64 " %s %s\n", place->lat.num, place->lat.den, place->lon.num,
         place->lon.den, lat, lon);
}

static void parity(const uint8_t *frame) {
  squitter_fields fields;
  squitter_fault fault = squitter_read_frame(frame, &fields);
  if (fault.code == SQUITTER_PARITY || !fault.code) printf("ok %06" PRIX64 "\n", fault.first);
  else refused(fault);
}

static void altitude_words(const squitter_fields *fields, char *out, size_t size) {
  if (fields->altitude_form == SQUITTER_FEET) snprintf(out, size, "%" PRId32 "_ft", fields->feet);
  else if (fields->altitude_form == SQUITTER_NO_ALTITUDE) snprintf(out, size, "none");
  else snprintf(out, size, "raw_%03X", fields->altitude);
}

static void show_fields(const uint8_t *frame) {
  static const char *const kinds[] = {"other", "air", "ground"};
  squitter_fields f;
  char altitude[32];
  if (refused(squitter_read_frame(frame, &f))) return;
  printf("ok address=%06" PRIX32 " ca=%u type=%u kind=%s", f.address, f.ca, f.type_code, kinds[f.kind]);
  if (f.kind == SQUITTER_OTHER) {
    printf(" me=%014" PRIX64 "\n", f.raw);
    return;
  }
  altitude_words(&f, altitude, sizeof altitude);
  if (f.kind == SQUITTER_AIR) printf(" status=%u flag=%u altitude=%s", f.status, f.flag, altitude);
  else printf(" movement=%u track_status=%u track=%u", f.movement, f.track_status, f.track);
  printf(" time=%u parity=%s lat=%" PRIu32 " lon=%" PRIu32 "\n", f.time, f.odd ? "odd" : "even", f.lat, f.lon);
}

static void show_altitude(const uint8_t *frame) {
  squitter_fields fields;
  squitter_altitude altitude;
  if (refused(squitter_read_frame(frame, &fields))) return;
  if (refused(squitter_feet_of_field(fields.type_code, fields.altitude, &altitude))) return;
  if (altitude.form == SQUITTER_FEET) printf("ok feet %" PRId32 "\n", altitude.feet);
  else if (altitude.form == SQUITTER_NO_ALTITUDE) printf("ok none\n");
  else printf("ok raw %03X\n", fields.altitude);
}

static void zone_count(const char *lat) {
  squitter_angle angle;
  uint8_t zones;
  if (read_angle(lat, &angle) && !refused(squitter_zone_count(&angle, &zones))) printf("ok %u\n", zones);
}

/* encode KIND PARITY ADDRESS FEET LAT LON */
static void encode(char **words) {
  uint32_t address = (uint32_t)strtoul(words[2], 0, 16);
  uint8_t odd = !strcmp(words[1], "odd"), frame[SQUITTER_FRAME_BYTES];
  uint16_t altitude = 0;
  char text[SQUITTER_FRAME_DIGITS];
  squitter_position position;
  squitter_fields fields;
  if (!read_position(words + 4, &position)) return;
  if (strcmp(words[0], "air")) {
    squitter_ground_head head = {.address = address, .ca = 4, .type_code = 7, .odd = odd};
    if (refused(squitter_encode_ground(&head, &position, frame))) return;
  } else {
    if (strcmp(words[3], "-") && refused(squitter_field_of_feet((int32_t)strtol(words[3], 0, 10), &altitude))) return;
    squitter_air_head head = {.address = address, .altitude = altitude, .ca = 5, .type_code = 11, .odd = odd};
    if (refused(squitter_encode_air(&head, &position, frame))) return;
  }
  squitter_text_of_frame(frame, text);
  if (!refused(squitter_read_frame(frame, &fields)))
    printf("ok %" PRIu32 " %" PRIu32 " %.28s\n", fields.lat, fields.lon, text);
}

/* local FRAME LAT LON */
static void local(char **words) {
  uint8_t frame[SQUITTER_FRAME_BYTES];
  squitter_position reference, place;
  if (read_frame_text(words[0], frame) && read_position(words + 1, &reference))
    show_place(squitter_local(frame, &reference, &place), &place);
}

/* pair OLDER NEWER LAT LON */
static void pair(char **words) {
  uint8_t older[SQUITTER_FRAME_BYTES], newer[SQUITTER_FRAME_BYTES];
  squitter_position site, place;
  if (!read_frame_text(words[0], older) || !read_frame_text(words[1], newer)) return;
  if (!strcmp(words[2], "-")) show_place(squitter_pair(older, newer, &place), &place);
  else if (read_position(words + 2, &site)) show_place(squitter_pair_at(older, newer, &site, &place), &place);
}

/* ---- feeds ---- */

/* A source that is heard, as text or as arrays, and the words of the answer so far. `cut` is the size of the pieces, or
 * 0 for those that are given. */
typedef struct hearing {
  squitter_feed feed;
  squitter_order order;
  squitter_fault fault;
  int is_sorted, is_text;
  size_t cut, length;
  char words[BYTES];
} hearing;

static void tell(hearing *to, const char *word, uint64_t number, const char *after) {
  to->length += (size_t)snprintf(to->words + to->length, sizeof to->words - to->length, word, number, after);
}

static void tell_frames(hearing *to, const uint64_t *moments, const uint8_t (*frames)[14], size_t count) {
  char text[SQUITTER_FRAME_DIGITS + 1];
  for (size_t i = 0; i < count; i++) {
    squitter_text_of_frame(frames[i], text);
    text[frames[i][0] < 0x80 ? 14 : 28] = 0;
    tell(to, " %" PRIu64 ":%s", moments[i], text);
  }
}

/* Tells the squitters that are due now that these came, or all that are held, if none came. */
static void sort_frames(hearing *to, const uint64_t *moments, const uint8_t (*frames)[14], size_t count) {
  uint64_t due[COUNT];
  uint8_t of_due[COUNT][14];
  squitter_done done = {0, COUNT};
  for (size_t at = 0; done.written == COUNT && !to->fault.code; at += done.taken) {
    to->fault = count ? squitter_order_take(&to->order, moments + at, count - at, frames + at, count - at, due, COUNT,
                                            of_due, COUNT, &done)
                      : squitter_order_flush(&to->order, due, COUNT, of_due, COUNT, &done);
    if (!to->fault.code) tell_frames(to, due, (const uint8_t (*)[14])of_due, done.written);
  }
}

/* Takes a piece, or ends the source if there is none, in as many calls as its squitters need. */
static void hear(hearing *to, const char *piece, size_t length, uint64_t arrival) {
  char text[ROOM], frame[SQUITTER_FRAME_DIGITS + 1];
  uint64_t moments[COUNT], moment;
  uint8_t frames[COUNT][14];
  squitter_done done = {0, ROOM};
  for (size_t at = 0; to->is_text && done.written + SQUITTER_LINE_BYTES > ROOM && !to->fault.code; at += done.taken) {
    to->fault = piece ? squitter_feed_take_text(&to->feed, piece + at, length - at, arrival, text, ROOM, &done)
                      : squitter_feed_finish_text(&to->feed, arrival, text, ROOM, &done);
    for (size_t from = 0; from < done.written; from = (size_t)((char *)memchr(text + from, '\n', ROOM) - text) + 1)
      if (sscanf(text + from, "%" SCNu64 " %28[0-9A-F]", &moment, frame) == 2)
        tell(to, " %" PRIu64 ":%s", moment, frame);
  }
  done.written = COUNT;
  for (size_t at = 0; !to->is_text && done.written == COUNT && !to->fault.code; at += done.taken) {
    to->fault = piece ? squitter_feed_take(&to->feed, piece + at, length - at, arrival, moments, COUNT, frames, COUNT,
                                           &done)
                      : squitter_feed_finish(&to->feed, arrival, moments, COUNT, frames, COUNT, &done);
    if (!to->is_sorted) tell_frames(to, moments, (const uint8_t (*)[14])frames, done.written);
    else if (done.written) sort_frames(to, moments, (const uint8_t (*)[14])frames, done.written);
  }
  if (to->is_sorted && !piece) sort_frames(to, moments, (const uint8_t (*)[14])frames, 0);
}

static void tell_source(hearing *to) {
  static const char *const names[] = {
    [SQUITTER_FEED_BEAST] = "beast", [SQUITTER_FEED_AVR] = "avr", [SQUITTER_FEED_CSV] = "csv",
    [SQUITTER_FEED_LOG] = "log", [SQUITTER_FEED_AUTO] = "-", [SQUITTER_FEED_SBS] = "sbs",
    [SQUITTER_FEED_TAR] = "tar", [SQUITTER_FEED_PACKED] = "packed", [SQUITTER_FEED_UTF16] = "utf16",
    [SQUITTER_FEED_JSON] = "json", [SQUITTER_FEED_NO_FRAME] = "no_frame",
    [SQUITTER_FEED_SEMICOLONS] = "semicolons", [SQUITTER_FEED_TABS] = "tabs", [SQUITTER_FEED_NO_TIME] = "no_time",
    [SQUITTER_FEED_NO_RAWMSG] = "no_rawmsg", [SQUITTER_FEED_NO_SECONDS] = "no_seconds",
    [SQUITTER_FEED_NO_NAMES] = "no_names"};
  uint32_t number = 0;
  if (!to->fault.code) to->fault = squitter_feed_format(&to->feed, &number);
  tell(to, " =%.0" PRIu64 "%s", 0, names[number]);
}

static void tell_counts(hearing *to) {
  squitter_counts counts;
  uint64_t late = 0;
  if (!to->fault.code) to->fault = squitter_feed_counts(&to->feed, &counts);
  if (!to->fault.code && to->is_sorted) to->fault = squitter_order_late(&to->order, &late);
  if (to->fault.code) return;
  const struct { const char *name; uint64_t count; } all[] = {
    {"found", counts.found}, {"written", counts.written}, {"mode_ac", counts.mode_ac},
    {"multilaterated", counts.multilaterated}, {"receiver_ids", counts.receiver_ids}, {"damaged", counts.damaged},
    {"aside", counts.aside}, {"breaks", counts.breaks}, {"ahead", counts.ahead}, {"late", late}};
  for (size_t i = 0; i < sizeof all / sizeof *all; i++)
    if (all[i].count) tell(to, " %.0" PRIu64 "%s=", 0, all[i].name), tell(to, "%" PRIu64 "%s", all[i].count, "");
  for (size_t i = 0; i < 25; i++)
    if (counts.formats[i]) tell(to, " DF%" PRIu64 "=%s", i, ""), tell(to, "%" PRIu64 "%s", counts.formats[i], "");
}

/* A call: `lost`, `end:ARRIVAL` or `take:ARRIVAL:TIMES:BYTES`. */
static void hear_call(hearing *to, const char *call) {
  static char bytes[BYTES];
  const char *digits = strrchr(call, ':');
  uint64_t arrival = strlen(call) > 4 ? strtoull(strchr(call, ':') + 1, 0, 10) : 0;
  size_t length = 0, times = 1;
  if (*call == 'l') to->fault = squitter_feed_disconnected(&to->feed);
  if (*call == 'e') hear(to, 0, 0, arrival);
  if (*call == 't') {
    times = strtoull(strchr(strchr(call, ':') + 1, ':') + 1, 0, 10);
    unsigned byte;
    for (size_t k = 0; k < times; k++)
      for (const char *at = digits + 1; sscanf(at, "%2x", &byte) == 1 && length < sizeof bytes; at += 2)
        bytes[length++] = (char)byte;
    size_t size = to->cut ? to->cut : length;
    for (size_t at = 0; at < length || !at; at += size ? size : 1)
      hear(to, bytes + at, length - at < size ? length - at : size, arrival);
  }
  tell_source(to);
}

/* feed FORMAT LEAP LATE REORDER FLAGS CALL .., with pieces of `cut` bytes. */
static void hear_source(hearing *to, int count, char **words) {
  static const char *const names[] = {
    [SQUITTER_FEED_BEAST] = "beast", [SQUITTER_FEED_AVR] = "avr", [SQUITTER_FEED_CSV] = "csv",
    [SQUITTER_FEED_LOG] = "log"};
  squitter_block block = {squitter_feed_size(), malloc(squitter_feed_size())};
  squitter_block of_order = {squitter_order_size(HELD), malloc(squitter_order_size(HELD))};
  uint32_t format = SQUITTER_FEED_AUTO, flags = (strchr(words[4], 'l') ? SQUITTER_FEED_LIVE : 0)
    + (strchr(words[4], 'b') ? SQUITTER_FEED_BY_ARRIVAL : 0) + (strchr(words[4], 'a') ? SQUITTER_FEED_ALL_FORMATS : 0);
  for (uint32_t i = 0; i < 4; i++) if (!strcmp(words[0], names[i])) format = i;
  to->is_sorted = words[3][0] != '-';
  to->fault = squitter_feed_new(&to->feed, block, format, words[1][0] == '-' ? LEAP : strtoull(words[1], 0, 10),
                                words[2][0] == '-' ? 0 : strtoull(words[2], 0, 10), flags);
  if (!to->fault.code && to->is_sorted)
    to->fault = squitter_order_new(&to->order, of_order, strtoull(words[3], 0, 10));
  for (int i = 5; i < count && !to->fault.code; i++) hear_call(to, words[i]);
  tell_counts(to);
  squitter_feed_free(&to->feed), squitter_order_free(&to->order);
  free(block.memory), free(of_order.memory);
}

/* Hears a source as text and as arrays, each as it is cut and byte by byte: all have to come to the same. */
static void feed(int count, char **words) {
  static hearing heard[4];
  int is_sorted = words[3][0] != '-';
  for (int i = 0; i < 4; i++) {
    memset(&heard[i], 0, sizeof heard[i]);
    heard[i].is_text = i < 2 && !is_sorted, heard[i].cut = i % 2;
    hear_source(&heard[i], count, words);
    if (refused(heard[i].fault)) return;
    if (strcmp(heard[i].words, heard[0].words)) {
      printf("refused different answers:%s and%s\n", heard[0].words, heard[i].words);
      return;
    }
  }
  printf("ok%s\n", heard[0].words);
}

static void answer(int count, char **words) {
  uint8_t frame[SQUITTER_FRAME_BYTES];
  const char *asked = count ? words[0] : "";
  if (count > 6 && !strcmp(asked, "feed")) feed(count - 1, words + 1);
  else if (count == 7 && !strcmp(asked, "encode")) encode(words + 1);
  else if (count == 4 && !strcmp(asked, "local")) local(words + 1);
  else if (count == 5 && (!strcmp(asked, "pair") || !strcmp(asked, "surface-pair"))) pair(words + 1);
  else if (count == 2 && !strcmp(asked, "nl")) zone_count(words[1]);
  else if (count != 2) printf("unsupported\n");
  else if (!read_frame_text(words[1], frame)) return;
  else if (!strcmp(asked, "parity")) parity(frame);
  else if (!strcmp(asked, "fields")) show_fields(frame);
  else if (!strcmp(asked, "altitude")) show_altitude(frame);
  else printf("unsupported\n");
}

int main(void) {
  static char line[LINE];
  char *words[WORDS];
  printf("adapter exact libsquitter from C\n");
  while (fgets(line, sizeof line, stdin)) {
    int count = 0;
    for (char *word = strtok(line, " \n"); word && count < WORDS; word = strtok(0, " \n")) words[count++] = word;
    answer(count, words);
    fflush(stdout);
  }
  return 0;
}
