/* squitter_main.c - the commands check, track and feed over squitter.c, for systems without assembly in dist/:
 *
 *   cc -std=c11 -O2 -I clib -o squitter portable/squitter_main.c dist/squitter.c
 *
 * Results come from the library. This file reads the command line, cuts lines, and writes rows; it is tested
 * (tests/program), and not proved. Besides C11 it needs read, write, fstat and a clock, of POSIX or of Windows. */
#if !defined _WIN32
#define _POSIX_C_SOURCE 200809L
#endif
#include <signal.h>
#include <stdio.h>
#include <stdlib.h>
#include <string.h>
#include <sys/stat.h>
#include <time.h>
#if defined _WIN32
#include <fcntl.h>
#include <io.h>
#include <windows.h>
#define read(file, to, size) _read(file, to, (unsigned)(size))
#define write(file, from, size) _write(file, from, (unsigned)(size))
#define fstat _fstat64
#define stat _stat64
#if !defined S_ISREG
#define S_ISREG(mode) (((mode) & _S_IFMT) == _S_IFREG)
#endif
#else
#include <unistd.h>
#endif
#include "squitter.h"
#include "squitter_texts.h"

enum { GOOD = 0, REFUSED = 1, BAD_WORDS = 2, FAILED = 3 };
enum { PIECE = 1 << 14, ROOM = 1 << 16, LINE = 64, SAMPLE = 1 << 14, MANY = 512, FIRST_LIMIT = 8, FIRST_ROOM = 256 };

static const char USAGE[] =
  "Usage: squitter check [--format=<lines|csv|json>] < FRAMES\n"
  "       squitter track [--format=<lines|csv|json>] [--limit=<N>] [--window=<MS>]\n"
  "                      [--lat=<DEGREES> --lon=<DEGREES>] < LOG\n"
  "       squitter feed [--format=<auto|beast|avr|csv|log>] [--reorder=<MS>] [--leap=<MS>] [--arrival]\n"
  "                     [--all] < BYTES\n";

static const char HELP[] =
  "Reads ADS-B frames from standard input, and prints their fields (check) or positions (track). feed makes\n"
  "the log that track reads from a receiver's bytes.\n\n%s\n"
  "This is the portable program: it has three of the commands, and all of their options. Decoding is proved.\n"
  "The reading of the command line, the cutting of lines and the texts of rows are not. On a pipe, feed does\n"
  "not tell a clock of GPS time.\n\n"
  "Exit status: 0 success; 1 a line was refused; 2 a bad command line, or help; 3 a read, a write or an\n"
  "allocation failed. Errors and help go to standard error.\n";

/* ---- Bytes in and out ---- */

static char out[ROOM];
static size_t held;

/* Ends the program with a line on standard error. */
_Noreturn static void stop(const char *why, int status) {
  size_t length = strlen(why);
  if (write(2, why, length) >= 0 && write(2, "\n", 1) >= 0) exit(status);
  exit(status);
}

static void flush(void) {
  size_t at = 0;
  while (at < held) {
    long long count = write(1, out + at, held - at);
    if (count <= 0) stop("write failed", FAILED);
    at += (size_t)count;
  }
  held = 0;
}

static void put(const char *bytes, size_t length) {
  if (held + length > ROOM) flush();
  memcpy(out + held, bytes, length);
  held += length;
}

static void put_text(const char *text) { put(text, strlen(text)); }

static void put_number(uint64_t number) {
  char digits[20];
  size_t at = sizeof digits;
  do digits[--at] = (char)('0' + number % 10);
  while ((number /= 10) != 0);
  put(digits + at, sizeof digits - at);
}

static void put_hex(uint64_t number, unsigned count) {
  while (count-- > 0) put(&"0123456789ABCDEF"[number >> 4 * count & 15], 1);
}

static void put_angle(const squitter_angle *angle) {
  char text[SQUITTER_ANGLE_TEXT_BYTES + 1] = {0};
  if (squitter_text_of_angle(angle, text).code == SQUITTER_OK) put_text(text);
}

static size_t next_piece(char *piece) {
  flush();
  long long count = read(0, piece, PIECE);
  if (count < 0) stop("read failed", FAILED);
  return (size_t)count;
}

_Noreturn static void no_memory(void) {
  flush();
  stop("out of memory", FAILED);
}

static squitter_block block_of(size_t size) {
  squitter_block block = {size, size == SIZE_MAX ? NULL : malloc(size)};
  if (block.memory == NULL) no_memory();
  return block;
}

/* ---- The command line ---- */

/* An option: its name, whether it has a value, and what was given. */
typedef struct option {
  const char *name;
  int is_flag;
  const char *value;
} option;

_Noreturn static void refuse_words(const char *what, const char *word) {
  fprintf(stderr, "error: %s '%s'\n\n%s\nFor more information, try '--help'.\n", what, word, USAGE);
  exit(BAD_WORDS);
}

_Noreturn static void help(void) {
  fprintf(stderr, HELP, USAGE);
  exit(BAD_WORDS);
}

static option *option_named(option *options, const char *word, size_t length) {
  for (; options->name != NULL; options++)
    if (strlen(options->name) == length && memcmp(options->name, word, length) == 0) return options;
  return NULL;
}

/* Reads `--NAME=VALUE`, `--NAME VALUE` and `--FLAG`, each at most once. */
static void read_words(char **words, option *options) {
  for (; *words != NULL; words++) {
    if (strcmp(*words, "--help") == 0 || strcmp(*words, "-h") == 0) help();
    const char *name = *words + 2, *value = strchr(*words, '=');
    option *one = strncmp(*words, "--", 2) != 0 ? NULL
      : option_named(options, name, value != NULL ? (size_t)(value - name) : strlen(name));
    if (one == NULL || (one->is_flag && value != NULL)) refuse_words("unexpected argument", *words);
    if (one->value != NULL) refuse_words("an argument is given twice:", *words);
    if (one->is_flag) one->value = "";
    else if (value != NULL) one->value = value + 1;
    else if (words[1] == NULL || words[1][0] == '-') refuse_words("a value is required for", *words);
    else one->value = *++words;
  }
}

/* Reads one to `most` digits of a number up to `limit`. Returns whether it is one. */
static int is_number(const char *text, size_t length, size_t most, uint64_t limit, uint64_t *number) {
  uint64_t read_so_far = 0;
  if (length == 0 || length > most) return 0;
  for (size_t at = 0; at < length; at++) {
    unsigned digit = (unsigned)(unsigned char)text[at] - '0';
    if (digit > 9 || read_so_far > (limit - digit) / 10) return 0;
    read_so_far = 10 * read_so_far + digit;
  }
  *number = read_so_far;
  return 1;
}

static uint64_t number_of(const char *text, size_t most, uint64_t limit, uint64_t usual, const char *fault) {
  uint64_t number = usual;
  if (text != NULL && !is_number(text, strlen(text), most, limit, &number)) stop(fault, BAD_WORDS);
  return number;
}

static uint32_t format_of(const char *text, const char *const *names, uint32_t usual) {
  if (text == NULL) return usual;
  for (uint32_t number = 0; names[number] != NULL; number++)
    if (strcmp(text, names[number]) == 0) return number;
  stop("bad format", BAD_WORDS);
}

static void read_angle(const char *name, const char *text, unsigned most, squitter_angle *angle) {
  char report[4 + SQUITTER_FAULT_TEXT_BYTES + 1] = {0};
  squitter_fault fault = squitter_angle_of_text(text, strlen(text), angle);
  uint64_t size = angle->num < 0 ? -(uint64_t)angle->num : (uint64_t)angle->num;
  if (fault.code == SQUITTER_OK && size > most * angle->den) fault.code = SQUITTER_ANGLE_RANGE;
  if (fault.code == SQUITTER_OK) return;
  memcpy(report, name, 4);
  squitter_text_of_fault(&fault, report + 4);
  stop(report, BAD_WORDS);
}

/* ---- Rows ---- */

static const char *const FORMATS[] = {"lines", "csv", "json", NULL};
static uint32_t format;
static int is_header, has_cells;

static const char *text_of(const squitter_fault *fault) {
  static char text[SQUITTER_FAULT_TEXT_BYTES + 1];
  squitter_text_of_fault(fault, text);
  return text;
}

/* Begins a cell. Returns whether its value follows. */
static int cell(const char *name, int has_value) {
  if (format == SQUITTER_JSON) {
    put_text(has_cells ? ",\"" : "{\"");
    put_text(name);
    put_text(has_value ? "\":" : "\":null");
  } else {
    if (has_cells) put_text(",");
    if (is_header) put_text(name);
  }
  has_cells = 1;
  return has_value && !is_header;
}

static void number_cell(const char *name, int has_value, uint64_t value) {
  if (cell(name, has_value)) put_number(value);
}

static void quote(void) {
  if (format == SQUITTER_JSON) put_text("\"");
}

static void word_cell(const char *name, const char *word) {
  if (!cell(name, word != NULL)) return;
  quote();
  put_text(word);
  quote();
}

static void hex_cell(const char *name, int has_value, uint64_t value, unsigned digits) {
  if (!cell(name, has_value)) return;
  quote();
  put_hex(value, digits);
  quote();
}

static void feet_cell(const char *name, int has_value, int32_t feet) {
  if (!cell(name, has_value)) return;
  if (feet < 0) put_text("-");
  put_number(feet < 0 ? -(uint64_t)feet : (uint64_t)feet);
}

static void end_row(void) {
  put_text(format == SQUITTER_JSON ? "}\n" : "\n");
  has_cells = 0;
}

/* ---- Lines ---- */

static int is_refused;

/* Answers a line without its end: `length` is above LINE for a long one, and then `line` has no more bytes. */
typedef void answer(uint64_t number, const char *line, size_t length);

static void answer_line(answer *to, uint64_t number, const char *line, size_t length) {
  if (length <= LINE && length > 0 && line[length - 1] == '\r') length--;
  if (length > 0) to(number, line, length);
}

/* Answers each line of standard input. An empty line has a number, and no answer. */
static int answer_lines(answer *to) {
  static char piece[PIECE], line[LINE];
  size_t length = 0, count;
  uint64_t number = 1;
  while ((count = next_piece(piece)) > 0) {
    const char *from = piece, *end = piece + count;
    while (from < end) {
      const char *feed = memchr(from, '\n', (size_t)(end - from));
      size_t part = (size_t)((feed != NULL ? feed : end) - from);
      if (length == 0 && feed != NULL) answer_line(to, number++, from, part);
      else {
        if (length + part <= LINE) memcpy(line + length, from, part);
        length = length + part <= LINE ? length + part : LINE + 1;
        if (feed != NULL) answer_line(to, number++, line, length), length = 0;
      }
      from += part + (feed != NULL);
    }
  }
  answer_line(to, number, line, length);
  flush();
  return is_refused ? REFUSED : GOOD;
}

/* ---- check ---- */

static void check_row(uint64_t number, const char *word, const squitter_fields *f) {
  static const squitter_fields none;
  int is = f != NULL, in_air = is && f->kind == SQUITTER_AIR, on_ground = is && f->kind == SQUITTER_GROUND;
  int has_place = in_air || on_ground;
  f = is ? f : &none;
  number_cell("line", 1, number);
  word_cell("answer", word);
  hex_cell("address", is, f->address, 6);
  number_cell("ca", is, f->ca);
  number_cell("type", is, f->type_code);
  word_cell("kind", is ? KINDS[f->kind] : NULL);
  word_cell("parity", !has_place ? NULL : f->odd ? "odd" : "even");
  number_cell("lat_code", has_place, f->lat);
  number_cell("lon_code", has_place, f->lon);
  number_cell("time", has_place, f->time);
  feet_cell("feet", in_air && f->altitude_form == SQUITTER_FEET, f->feet);
  hex_cell("altitude", in_air, f->altitude, 3);
  number_cell("status", in_air, f->status);
  number_cell("flag", in_air, f->flag);
  number_cell("movement", on_ground, f->movement);
  number_cell("track_status", on_ground, f->track_status);
  number_cell("track", on_ground, f->track);
  hex_cell("me", is && !has_place, f->raw, 14);
  end_row();
}

static void check_text(uint64_t number, const char *word, const squitter_fields *f) {
  put_number(number);
  put_text(" ");
  put_text(word);
  if (f != NULL) {
    put_text(" ");
    put_hex(f->address, 6);
    put_text(" ");
    put_text(KINDS[f->kind]);
    if (f->kind != SQUITTER_OTHER) put_text(f->odd ? " odd " : " even ");
    else put_text(" ");
    put_number(f->kind != SQUITTER_OTHER ? f->lat : f->type_code);
    if (f->kind != SQUITTER_OTHER) put_text(" "), put_number(f->lon);
  }
  put_text("\n");
}

static void check_line(uint64_t number, const char *line, size_t length) {
  squitter_fields fields;
  squitter_fault fault = {SQUITTER_LONG_LINE, 0, 0};
  if (length <= LINE) fault = squitter_read_text(line, length, &fields);
  int is_good = fault.code == SQUITTER_OK;
  is_refused |= !is_good;
  (format == SQUITTER_LINES ? check_text : check_row)(number, is_good ? "ok" : text_of(&fault),
                                                      is_good ? &fields : NULL);
}

static int check(char **words) {
  option options[] = {{"format", 0, NULL}, {NULL, 0, NULL}};
  read_words(words, options);
  format = format_of(options[0].value, FORMATS, SQUITTER_LINES);
  if (format == SQUITTER_CSV) is_header = 1, check_row(0, "", NULL), is_header = 0;
  return answer_lines(check_line);
}

/* ---- track ---- */

/* The tracker has room for `room` aircraft, and moves to a larger block as more are present. */
static squitter_tracker tracker;
static squitter_block block;
static uint32_t room, limit;
static uint64_t window;
static squitter_position site;
static int has_site;

/* Makes the tracker anew in a block of its own. Returns the one before. */
static squitter_block new_tracker(uint32_t more) {
  squitter_block old = block, larger = block_of(squitter_tracker_size(more));
  squitter_fault fault = has_site ? squitter_tracker_new_at(&tracker, larger, more, window, &site)
    : squitter_tracker_new(&tracker, larger, more, window);
  if (fault.code != SQUITTER_OK) no_memory();
  block = larger;
  room = more;
  return old;
}

static void grow(void) {
  squitter_last last;
  size_t count = squitter_tracker_len(&tracker);
  squitter_entry *entries = block_of(count * sizeof *entries).memory;
  if (squitter_tracker_save(&tracker, &last, entries, count) != count) no_memory();
  free(new_tracker(limit / 2 < room ? limit : 2 * room).memory);
  if (squitter_tracker_restore(&tracker, &last, entries, count).code != SQUITTER_OK) no_memory();
  free(entries);
}

/* A line that was heard: its timestamp, its squitter and the result. */
typedef struct line_heard {
  uint64_t moment;
  squitter_fields fields;
  squitter_heard heard;
} line_heard;

static void track_row(uint64_t number, const char *word, const line_heard *one) {
  static const line_heard none;
  int is = one != NULL, has_place = is && one->heard.what <= SQUITTER_FOLLOWED;
  one = is ? one : &none;
  number_cell("line", 1, number);
  number_cell("moment", is, one->moment);
  word_cell("answer", word);
  hex_cell("address", is, one->fields.address, 6);
  word_cell("kind", is ? KINDS[one->fields.kind] : NULL);
  if (cell("lat", has_place)) put_angle(&one->heard.position.lat);
  if (cell("lon", has_place)) put_angle(&one->heard.position.lon);
  feet_cell("feet", is && one->fields.altitude_form == SQUITTER_FEET, one->fields.feet);
  end_row();
}

static void track_text(uint64_t number, const char *word, const line_heard *one) {
  put_number(number);
  put_text(" ");
  put_text(word);
  if (one != NULL) {
    put_text(" ");
    put_hex(one->fields.address, 6);
    if (one->heard.what <= SQUITTER_FOLLOWED) {
      put_text(" ");
      put_angle(&one->heard.position.lat);
      put_text(" ");
      put_angle(&one->heard.position.lon);
    } else if (one->heard.what == SQUITTER_SPLIT) {
      put_text(" ");
      put_number(one->heard.even);
      put_text(" ");
      put_number(one->heard.odd);
    }
  }
  put_text("\n");
}

static squitter_fault hear(const char *line, size_t length, line_heard *one) {
  uint8_t frame[SQUITTER_FRAME_BYTES];
  squitter_fault fault = {SQUITTER_LONG_LINE, 0, 0};
  if (length > LINE) return fault;
  const char *space = memchr(line, ' ', length);
  fault.code = SQUITTER_BAD_MOMENT;
  if (space == NULL || !is_number(line, (size_t)(space - line), 20, UINT64_MAX, &one->moment)) return fault;
  fault = squitter_frame_of_text(space + 1, length - (size_t)(space + 1 - line), frame);
  if (fault.code == SQUITTER_OK) fault = squitter_read_frame(frame, &one->fields);
  if (fault.code != SQUITTER_OK) return fault;
  while ((fault = squitter_tracker_hear(&tracker, one->moment, frame, &one->heard)).code == SQUITTER_TABLE_FULL
         && room < limit)
    grow();
  return fault;
}

static void track_line(uint64_t number, const char *line, size_t length) {
  line_heard one;
  squitter_fault fault = hear(line, length, &one);
  int is_good = fault.code == SQUITTER_OK;
  is_refused |= !is_good;
  (format == SQUITTER_LINES ? track_text : track_row)(number, is_good ? WHATS[one.heard.what] : text_of(&fault),
                                                      is_good ? &one : NULL);
}

static int track(char **words) {
  option options[] = {{"format", 0, NULL}, {"limit", 0, NULL}, {"window", 0, NULL}, {"lat", 0, NULL}, {"lon", 0, NULL},
                      {NULL, 0, NULL}};
  read_words(words, options);
  format = format_of(options[0].value, FORMATS, SQUITTER_LINES);
  limit = (uint32_t)number_of(options[1].value, 10, UINT32_MAX, 1000, "bad limit");
  if (limit == 0) stop(text_of(&(squitter_fault){SQUITTER_NO_LIMIT, 0, 0}), BAD_WORDS);
  window = number_of(options[2].value, 20, UINT64_MAX, 10000, "bad window");
  has_site = options[3].value != NULL;
  if (has_site != (options[4].value != NULL)) stop("site needs lat and lon", BAD_WORDS);
  if (has_site) read_angle("lat ", options[3].value, 90, &site.lat);
  if (has_site) read_angle("lon ", options[4].value, 180, &site.lon);
  new_tracker(limit < FIRST_LIMIT ? limit : FIRST_LIMIT);
  if (format == SQUITTER_CSV) is_header = 1, track_row(0, "", NULL), is_header = 0;
  return answer_lines(track_line);
}

/* ---- feed ---- */

static squitter_feed source;
static squitter_order order;
static squitter_block order_block;
static uint32_t order_room;
static int is_sorted, is_live;

/* The first squitters, which show the unit of timestamps. */
static uint64_t sample_moments[SAMPLE];
static uint32_t sample_addresses[SAMPLE];
static size_t sampled;

/* Returns the milliseconds since 1970, or those of a monotonic clock. */
static uint64_t now(int is_since_1970) {
#if defined _WIN32
  FILETIME time;
  if (!is_since_1970) return GetTickCount64();
  GetSystemTimeAsFileTime(&time);
  return (((uint64_t)time.dwHighDateTime << 32 | time.dwLowDateTime) - UINT64_C(116444736000000000)) / 10000;
#else
  struct timespec time;
  if (clock_gettime(is_since_1970 ? CLOCK_REALTIME : CLOCK_MONOTONIC, &time) != 0) return 0;
  return (uint64_t)time.tv_sec * 1000 + (uint64_t)time.tv_nsec / 1000000;
#endif
}

/* Returns the time (ms) since 1970 at the first call, which goes on by a monotonic clock. */
static uint64_t arrival(void) {
  static uint64_t start;
  if (start == 0) start = now(1) - now(0);
  return start + now(0);
}

static void put_frames(const uint64_t *moments, uint8_t (*frames)[14], size_t count) {
  char text[SQUITTER_FRAME_DIGITS];
  for (size_t at = 0; at < count; at++) {
    squitter_text_of_frame(frames[at], text);
    put_number(moments[at]);
    put_text(" ");
    put(text, frames[at][0] >> 3 < 16 ? 14 : SQUITTER_FRAME_DIGITS);
    put_text("\n");
  }
}

static void sample(const uint64_t *moments, uint8_t (*frames)[14], size_t count) {
  for (size_t at = 0; at < count && sampled < SAMPLE; at++) {
    if (frames[at][0] >> 3 != 17) continue;
    sample_moments[sampled] = moments[at];
    sample_addresses[sampled++] = (uint32_t)frames[at][1] << 16 | (uint32_t)frames[at][2] << 8 | frames[at][3];
  }
}

/* Makes room for twice as many squitters that wait. */
static void grow_order(void) {
  if (order_room > UINT32_MAX / 2) no_memory();
  squitter_block larger = block_of(squitter_order_size(order_room *= 2));
  if (squitter_order_grow(&order, larger).code != SQUITTER_OK) no_memory();
  free(order_block.memory);
  order_block = larger;
}

static uint64_t due[MANY];
static uint8_t due_frames[MANY][14];

static void sort_frames(const uint64_t *moments, uint8_t (*frames)[14], size_t count) {
  squitter_done done;
  squitter_fault fault;
  do {
    fault = squitter_order_take(&order, moments, count, (const uint8_t (*)[14])frames, count, due, MANY, due_frames,
                                MANY, &done);
    put_frames(due, due_frames, done.written);
    moments += done.taken, frames += done.taken, count -= done.taken;
    if (fault.code == SQUITTER_NO_MEMORY) grow_order();
  } while (fault.code == SQUITTER_NO_MEMORY || done.written == MANY);
}

static void put_waiting(void) {
  squitter_done done;
  do {
    if (squitter_order_flush(&order, due, MANY, due_frames, MANY, &done).code != SQUITTER_OK) return;
    put_frames(due, due_frames, done.written);
  } while (done.written == MANY);
}

/* Puts the lines of a piece, or of the end, where `piece` is null. */
static void feed_piece(const char *piece, size_t length, uint64_t at) {
  static uint64_t moments[MANY];
  static uint8_t frames[MANY][14];
  squitter_done done;
  do {
    squitter_fault fault = piece != NULL
      ? squitter_feed_take(&source, piece, length, at, moments, MANY, frames, MANY, &done)
      : squitter_feed_finish(&source, at, moments, MANY, frames, MANY, &done);
    if (fault.code != SQUITTER_OK) return;
    if (piece != NULL) piece += done.taken, length -= done.taken;
    sample(moments, frames, done.written);
    (is_sorted ? sort_frames : put_frames)(moments, frames, done.written);
  } while (done.written == MANY);
}

static void part(uint64_t count, const char *name) {
  if (count != 0) fprintf(stderr, ", %llu%s", (unsigned long long)count, name);
}

static void tell_formats(const squitter_counts *counts) {
  uint64_t others = 0;
  const char *comma = "";
  for (size_t at = 0; at < 25; at++) others += counts->formats[at];
  if (others == 0) return;
  part(others, " of other downlink formats (");
  for (size_t at = 0; at < 25; at++) {
    if (counts->formats[at] == 0) continue;
    fprintf(stderr, "%sDF%u %llu", comma, (unsigned)at, (unsigned long long)counts->formats[at]);
    comma = ", ";
  }
  fputs(")", stderr);
}

/* Reports the counts, and what to do. */
static int tell_counts(const squitter_counts *counts, int is_dated) {
  uint32_t unit = squitter_unit_of(sample_moments, sampled, sample_addresses, sampled, !is_dated);
  int is_all_damaged = counts->found != 0 && counts->damaged == counts->found;
  if (UNITS[unit] != NULL) fprintf(stderr, "%s\n", UNITS[unit]);
  fprintf(stderr, "%llu written", (unsigned long long)counts->written);
  tell_formats(counts);
  part(counts->mode_ac, " of Mode A/C");
  part(counts->multilaterated, " multilaterated");
  part(counts->receiver_ids, " receiver ids");
  part(counts->aside, " set aside");
  part(counts->damaged, " damaged");
  part(counts->breaks, " jumps back");
  if (is_all_damaged) fputs(": try another --format, or none; the times of a table are seconds", stderr);
  else {
    if (!is_dated && counts->aside > 4 && counts->aside > counts->written / 20)
      fputs("; try --arrival: the source seems to have several clocks", stderr);
    if (counts->ahead)
      fputs("; the clock runs ahead of the arrivals: try --arrival, or read a recording from its file", stderr);
    if (counts->breaks)
      fputs("; timestamps behind a jump back are moved on: try --leap and --reorder to sort them", stderr);
  }
  fputs("\n", stderr);
  return is_all_damaged ? REFUSED : GOOD;
}

/* Returns the format of the source, or what it is. */
static uint32_t shown(void) {
  uint32_t number = SQUITTER_FEED_AUTO;
  return squitter_feed_format(&source, &number).code == SQUITTER_OK ? number : SQUITTER_FEED_AUTO;
}

static int feed_all(void) {
  static char piece[PIECE];
  squitter_counts counts;
  size_t count;
  while ((count = next_piece(piece)) > 0) {
    feed_piece(piece, count, arrival());
    if (is_live && shown() > SQUITTER_FEED_AUTO) break;
  }
  uint32_t of = shown(); /* before the end, behind which another source begins */
  feed_piece(NULL, 0, arrival());
  if (is_sorted) put_waiting();
  flush();
  if (shown() > SQUITTER_FEED_AUTO) stop(STRANGERS[shown()], REFUSED);
  if (squitter_feed_counts(&source, &counts).code != SQUITTER_OK) return FAILED;
  return tell_counts(&counts, of == SQUITTER_FEED_CSV || of == SQUITTER_FEED_LOG);
}

static int feed(char **words) {
  static const char *const formats[] = {"beast", "avr", "csv", "log", "auto", NULL};
  option options[] = {{"format", 0, NULL}, {"reorder", 0, NULL}, {"leap", 0, NULL}, {"arrival", 1, NULL},
                      {"all", 1, NULL}, {NULL, 0, NULL}};
  struct stat input;
  read_words(words, options);
  uint32_t of = format_of(options[0].value, formats, SQUITTER_FEED_AUTO);
  uint64_t reorder = number_of(options[1].value, 20, UINT64_MAX, 0, "bad reorder");
  uint64_t leap = number_of(options[2].value, 20, UINT64_MAX, 600000, "bad leap");
  is_live = fstat(0, &input) != 0 || !S_ISREG(input.st_mode);
  uint32_t flags = (is_live ? SQUITTER_FEED_LIVE : 0u) | (options[3].value ? SQUITTER_FEED_BY_ARRIVAL : 0u)
    | (options[4].value ? SQUITTER_FEED_ALL_FORMATS : 0u);
  if (squitter_feed_new(&source, block_of(squitter_feed_size()), of, leap, reorder, flags).code != SQUITTER_OK)
    no_memory();
  is_sorted = reorder != 0;
  if (is_sorted) {
    order_block = block_of(squitter_order_size(order_room = FIRST_ROOM));
    if (squitter_order_new(&order, order_block, reorder).code != SQUITTER_OK) no_memory();
  }
  return feed_all();
}

int main(int count, char **words) {
#if defined _WIN32
  for (int file = 0; file < 3; file++)
    if (_setmode(file, _O_BINARY) == -1 && file == 0) stop("read failed", FAILED);
#endif
#if defined SIGPIPE
  signal(SIGPIPE, SIG_IGN);
#endif
  if (count < 2 || strcmp(words[1], "--help") == 0 || strcmp(words[1], "-h") == 0) help();
  if (strcmp(words[1], "check") == 0) return check(words + 2);
  if (strcmp(words[1], "track") == 0) return track(words + 2);
  if (strcmp(words[1], "feed") == 0) return feed(words + 2);
  if (strcmp(words[1], "--version") != 0 && strcmp(words[1], "-V") != 0)
    refuse_words("unrecognized subcommand", words[1]);
  unsigned version = squitter_version();
  fprintf(stderr, "squitter %u.%u.%u\n", version >> 16, version >> 8 & 255, version & 255);
  return BAD_WORDS;
}
