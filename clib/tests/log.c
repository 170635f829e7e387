/* log FILE: tests a log in pieces of any length, with outputs of any size. The text must not depend on the cut, and
 * must have a line for each result. The result of a line comes before the next line is given. A fault must change
 * nothing. */
#include "squitter.h"
#include <stdbool.h>
#include <stdio.h>
#include <stdlib.h>
#include <string.h>

enum { LIMIT = 1000, WINDOW = 10000, MOST = 1 << 22 };

static long tried, wrong;
#define IS(what) (tried++, (what) ? (void)0 : (wrong++, (void)printf("line %d: %s\n", __LINE__, #what)))

static char text[MOST], first[MOST], again[MOST];
static size_t length;
static squitter_block block;
static uint32_t formats; /* the number of formats; as they start at 0, it is the first number that is no format */

static void begin(squitter_log *log) {
  if (squitter_log_new(log, block, LIMIT, WINDOW).code) exit(2);
}

/* Counts the formats that the library takes. */
static void count_formats(void) {
  squitter_log log = {0, 0};
  squitter_done done;
  begin(&log);
  while (formats < UINT8_MAX && !squitter_log_take_text(&log, formats, text, 0, again, MOST, &done).code) formats++;
  IS(formats > SQUITTER_JSON);
  squitter_log_free(&log);
}

/* Writes the text of all results, with pieces and buffers of these sizes. Returns its length. */
static size_t all_texts(uint32_t format, size_t piece, size_t room, char *into) {
  squitter_log log = {0, 0};
  squitter_done done;
  size_t count = 0;
  begin(&log);
  for (size_t from = 0; from < length; from += piece) {
    size_t end = from + piece < length ? from + piece : length, at = from;
    do {
      if (squitter_log_take_text(&log, format, text + at, end - at, into + count, room, &done).code) exit(2);
      at += done.taken, count += done.written;
    } while (done.written + SQUITTER_ANSWER_TEXT_BYTES > room);
    IS(at == end);
  }
  do {
    if (squitter_log_finish_text(&log, format, into + count, room, &done).code) exit(2);
    IS(done.taken == 0);
    count += done.written;
  } while (done.written + SQUITTER_ANSWER_TEXT_BYTES > room);
  squitter_log_free(&log);
  return count;
}

/* Returns the number of results, with pieces and arrays of these sizes. Tests that their line numbers rise. */
static size_t all_answers(size_t piece, size_t room, squitter_tally *tally) {
  static squitter_answer out[4096];
  squitter_log log = {0, 0};
  squitter_done done;
  size_t count = 0;
  uint64_t number = 0;
  begin(&log);
  for (size_t from = 0; from <= length; from += piece) {
    bool is_end = from + piece > length;
    size_t end = is_end ? length : from + piece, at = from;
    do {
      if (squitter_log_take(&log, text + at, end - at, out, room, &done).code) exit(2);
      at += done.taken, count += done.written;
      for (size_t i = 0; i < done.written; i++) IS(out[i].number > number), number = out[i].number;
    } while (done.written == room);
    IS(at == end);
  }
  do {
    if (squitter_log_finish(&log, out, room, &done).code) exit(2);
    count += done.written;
  } while (done.written == room);
  IS(squitter_log_tally(&log, tally).code == SQUITTER_OK);
  squitter_log_free(&log);
  return count;
}

static void try_cuts(void) {
  static const size_t pieces[] = {1, 2, 63, 64, 65, 1000, 1 << 16, 1 << 20}, rooms[] = {512, 513, 1024, 1 << 16},
    arrays[] = {1, 2, 7, 4096};
  for (uint32_t format = 0; format < formats; format++) {
    size_t count = all_texts(format, length, 1 << 16, first), lines = 0;
    squitter_tally tally;
    for (size_t i = 0; i < count; i++) lines += first[i] == '\n';
    for (size_t p = 0; p < sizeof pieces / sizeof *pieces; p++) {
      for (size_t r = 0; r < sizeof rooms / sizeof *rooms; r++)
        IS(all_texts(format, pieces[p], rooms[r], again) == count && !memcmp(first, again, count));
      for (size_t a = 0; a < sizeof arrays / sizeof *arrays; a++)
        IS(all_answers(pieces[p], arrays[a], &tally) == lines && tally.good + tally.refused == lines);
    }
  }
}

/* The result of a line comes with its line feed, and that of the last line at the end. */
static void try_early(void) {
  const char *lines[] = {"0 8D40621D58C386435CC412692AD6\n", "400 8D40621D58C382D690C8AC2863A7\r\n", "\n", "x\n"};
  squitter_log log = {0, 0};
  squitter_answer out[2];
  squitter_done done;
  begin(&log);
  for (size_t i = 0; i < 4; i++) {
    for (size_t at = 0; lines[i][at]; at++) {
      IS(squitter_log_take(&log, lines[i] + at, 1, out, 2, &done).code == SQUITTER_OK && done.taken == 1);
      IS(done.written == (lines[i][at] == '\n' && i != 2));
    }
    if (i == 2) continue;
    IS(out[0].number == i + 1);
    IS(out[0].fault.code == (i == 3 ? SQUITTER_BAD_MOMENT : SQUITTER_OK));
  }
  IS(squitter_log_take(&log, "5", 1, out, 2, &done).code == SQUITTER_OK && done.written == 0);
  IS(squitter_log_finish(&log, out, 2, &done).code == SQUITTER_OK && done.written == 1 && out[0].number == 5);
  IS(squitter_log_finish(&log, out, 2, &done).code == SQUITTER_OK && done.written == 0);
  squitter_log_free(&log);
}

/* Tests the fields of a position, from the worked example of the standard's guides, and of a refused line. */
static void try_fields(void) {
  const char *given = "0 8D40621D58C386435CC412692AD6\n"
                      "400 8D40621D58C382D690C8AC2863A7\n399 8D40621D58C382D690C8AC2863A7\n";
  squitter_log log = {0, 0};
  squitter_answer out[3], zero;
  squitter_done done;
  begin(&log);
  memset(out, 7, sizeof out), memset(&zero, 0, sizeof zero);
  IS(squitter_log_take(&log, given, strlen(given), out, 3, &done).code == SQUITTER_OK && done.written == 3);
  IS(out[0].heard.what == SQUITTER_WAITING && out[0].heard.position.lat.den == 0 && out[0].degrees.lat == 0);
  IS(out[1].heard.what == SQUITTER_FIX && out[1].moment == 400 && out[1].address == 0x40621D);
  IS(out[1].degrees.lat == 522572021 && out[1].degrees.lon == 39193726);
  IS(out[1].heard.position.lat.num * 8192 == 428091 * (int64_t)out[1].heard.position.lat.den);
  IS(out[1].kind == SQUITTER_AIR && out[1].altitude_form == SQUITTER_FEET && out[1].feet == 38000);
  IS(out[2].fault.code == SQUITTER_MOMENT_BACK && out[2].fault.first == 400 && out[2].number == 3);
  IS(out[2].heard.what == 0 && out[2].moment == 0 && out[2].address == 0 && out[2].feet == 0 && out[2].kind == 0);
  squitter_log_free(&log);
}

static size_t commas(const char *in, size_t size) {
  size_t count = 0;
  for (size_t i = 0; i < size; i++) count += in[i] == ',';
  return count;
}

/* Tests the header of each format: a line or nothing, and zeros. The header of CSV has as many columns as a row. */
static void try_headers(void) {
  const char *line = "0 8D40621D58C386435CC412692AD6\n";
  for (uint32_t format = 0; format <= formats; format++) {
    char header[SQUITTER_HEADER_BYTES];
    memset(header, 7, sizeof header);
    squitter_log_header(format, header);
    size_t size = strcspn(header, "\n");
    size += size < sizeof header && header[size] == '\n';
    if (format == SQUITTER_LINES || format == SQUITTER_JSON || format == formats) IS(size == 0);
    for (size_t i = size; i < sizeof header; i++) IS(header[i] == 0);
    if (format == SQUITTER_CSV) {
      squitter_log log = {0, 0};
      squitter_done done;
      begin(&log);
      IS(squitter_log_take_text(&log, format, line, 31, again, MOST, &done).code == SQUITTER_OK && done.written > 0);
      IS(!strncmp(header, "line,", 5) && commas(header, size) == commas(again, done.written));
      squitter_log_free(&log);
    }
  }
}

static void try_faults(void) {
  squitter_log log = {0, 0};
  squitter_answer out[1];
  squitter_done done = {7, 7};
  squitter_tally tally = {7, 7};
  squitter_position nowhere = {{0, 0}, {0, 0}};
  char room[511];
  const char *line = "0 8D40621D58C386435CC412692AD6\n";
  IS(squitter_log_take(&log, line, 31, out, 1, &done).code == SQUITTER_NO_TRACKER && done.taken == 7);
  IS(squitter_log_finish(&log, out, 1, &done).code == SQUITTER_NO_TRACKER && done.written == 7);
  IS(squitter_log_take_text(&log, 9, line, 31, room, 511, &done).code == SQUITTER_NO_TRACKER && done.taken == 7);
  IS(squitter_log_finish_text(&log, 9, room, 511, &done).code == SQUITTER_NO_TRACKER);
  IS(squitter_log_tally(&log, &tally).code == SQUITTER_NO_TRACKER && tally.good == 7);
  IS(squitter_log_new(&log, block, 0, WINDOW).code == SQUITTER_NO_LIMIT);
  IS(squitter_log_new_at(&log, block, LIMIT, WINDOW, &nowhere).code == SQUITTER_BAD_POSITION);
  begin(&log);
  IS(squitter_log_take_text(&log, formats, line, 31, room, 511, &done).code == SQUITTER_BAD_FORMAT && done.taken == 7);
  IS(squitter_log_finish_text(&log, UINT32_MAX, room, 511, &done).code == SQUITTER_BAD_FORMAT && done.taken == 7);
#if SIZE_MAX > UINT32_MAX /* no other piece is that long */
  IS(squitter_log_take(&log, line, ((size_t)1 << 61) + 1, out, 1, &done).code == SQUITTER_LONG_LOG && done.taken == 7);
  IS(squitter_log_take_text(&log, 0, line, ((size_t)1 << 61) + 1, room, 511, &done).code == SQUITTER_LONG_LOG);
#endif
  /* without room no line is started */
  IS(squitter_log_take_text(&log, 0, line, 31, room, 511, &done).code == SQUITTER_OK && !done.taken && !done.written);
  IS(squitter_log_take(&log, line, 31, out, 0, &done).code == SQUITTER_OK && !done.taken && !done.written);
  IS(squitter_log_take(&log, line, 31, out, 1, &done).code == SQUITTER_OK && done.written == 1);
  IS(squitter_log_tally(&log, &tally).code == SQUITTER_OK && tally.good == 1 && tally.refused == 0);
  squitter_log_free(&log), squitter_log_free(&log);
  IS(squitter_log_tally(&log, &tally).code == SQUITTER_NO_TRACKER && tally.good == 1);
}

int main(int argc, char **argv) {
  FILE *file = argc == 2 ? fopen(argv[1], "rb") : 0;
  if (!file) {
    fprintf(stderr, "log: give a log\n");
    return 2;
  }
  length = fread(text, 1, MOST / 4, file);
  fclose(file);
  block.size = squitter_log_size(LIMIT);
  block.memory = malloc(block.size);
  if (!block.memory) return 2;
  count_formats();
  try_cuts();
  try_early();
  try_fields();
  try_headers();
  try_faults();
  free(block.memory);
  printf("log: %zu bytes, %ld of %ld wrong\n", length, wrong, tried);
  return wrong != 0;
}
