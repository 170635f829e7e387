/* faces JOBS: decodes logs with a squitter_log. The file JOBS has a line for each:
 *     LOG OUT WINDOW LIMIT LAT LON FORMAT PIECES
 * The site is LAT and LON, or none if LAT is -. PIECES are the sizes of the pieces, such as 1,64,5; they repeat. OUT
 * gets what `squitter track` prints in a format. FORMAT is its number, or `rows`: rows of CSV, written from structs. */
#include "squitter.h"
#include <inttypes.h>
#include <stdio.h>
#include <stdlib.h>
#include <string.h>

/* The outputs are small, so a piece has more results than fit. */
enum { ANSWERS = 7, ROOM = 1000 };
/* The format of rows that are written from structs. */
#define ROWS UINT32_MAX

static const char *const words[] = {"", "fix", "followed", "waiting", "split", "far", "no site", "no position"};
static const char *const kinds[] = {"other", "air", "ground"};
static char texts[ROOM];
static squitter_answer answers[ANSWERS];

static void die(const char *what) {
  fprintf(stderr, "faces: %s\n", what);
  exit(2);
}

static void put_degrees(FILE *out, int32_t e7) {
  int64_t size = e7 < 0 ? -(int64_t)e7 : e7;
  fprintf(out, "%s%" PRId64 ".%07" PRId64, e7 < 0 ? "-" : "", size / 10000000, size % 10000000);
}

static void put_row(FILE *out, const squitter_answer *it) {
  char text[64];
  if (it->fault.code) {
    squitter_text_of_fault(&it->fault, text);
    fprintf(out, "%" PRIu64 ",,%s,,,,,\n", it->number, text);
    return;
  }
  fprintf(out, "%" PRIu64 ",%" PRIu64 ",%s,%06" PRIX32 ",%s,", it->number, it->moment, words[it->heard.what],
          it->address, kinds[it->kind]);
  int is_place = it->heard.what == SQUITTER_FIX || it->heard.what == SQUITTER_FOLLOWED;
  if (is_place) put_degrees(out, it->degrees.lat);
  fputc(',', out);
  if (is_place) put_degrees(out, it->degrees.lon);
  fputc(',', out);
  if (it->altitude_form == SQUITTER_FEET) fprintf(out, "%" PRId32, it->feet);
  fputc('\n', out);
}

/* Decodes a piece, or the last line if there is no piece, until all results are written. */
static void hear(squitter_log *log, uint32_t format, const char *piece, size_t length, FILE *out) {
  squitter_done done;
  squitter_fault fault;
  int more;
  do {
    if (format == ROWS)
      fault = piece ? squitter_log_take(log, piece, length, answers, ANSWERS, &done)
                    : squitter_log_finish(log, answers, ANSWERS, &done);
    else
      fault = piece ? squitter_log_take_text(log, format, piece, length, texts, ROOM, &done)
                    : squitter_log_finish_text(log, format, texts, ROOM, &done);
    if (fault.code) die("a call failed");
    if (format == ROWS)
      for (size_t at = 0; at < done.written; at++) put_row(out, answers + at);
    else fwrite(texts, 1, done.written, out);
    more = format == ROWS ? done.written == ANSWERS : done.written + SQUITTER_ANSWER_TEXT_BYTES > ROOM;
    if (piece) piece += done.taken, length -= done.taken;
  } while (more);
  if (piece && length) die("a piece was not taken whole");
}

static char *whole(const char *path, size_t *length) {
  FILE *file = fopen(path, "rb");
  if (!file || fseek(file, 0, SEEK_END)) die(path);
  *length = (size_t)ftell(file);
  rewind(file);
  char *bytes = malloc(*length + 1);
  if (!bytes || fread(bytes, 1, *length, file) != *length) die(path);
  fclose(file);
  return bytes;
}

static squitter_angle angle(const char *text) {
  squitter_angle out;
  if (squitter_angle_of_text(text, strlen(text), &out).code) die(text);
  return out;
}

static void make(squitter_log *log, squitter_block block, const char *limit, const char *window, const char *lat,
                 const char *lon) {
  uint32_t most = (uint32_t)strtoul(limit, NULL, 10);
  uint64_t wide = strtoull(window, NULL, 10);
  squitter_fault fault;
  if (strcmp(lat, "-")) {
    squitter_position site = {angle(lat), angle(lon)};
    fault = squitter_log_new_at(log, block, most, wide, &site);
  } else {
    fault = squitter_log_new(log, block, most, wide);
  }
  if (fault.code) die("no log");
}

static void run(char *job) {
  char *word[8], *next = strtok(job, " \n");
  for (int k = 0; k < 8; k++, next = strtok(NULL, " \n"))
    if (!(word[k] = next)) die("a job has eight words");
  uint32_t limit = (uint32_t)strtoul(word[3], NULL, 10);
  uint32_t format = strcmp(word[6], "rows") ? (uint32_t)strtoul(word[6], NULL, 10) : ROWS;
  squitter_log log = {0, 0};
  squitter_block block = {squitter_log_size(limit), malloc(squitter_log_size(limit))};
  size_t length, at = 0;
  char *bytes = whole(word[0], &length), *piece = word[7], header[64];
  FILE *out = fopen(word[1], "wb");
  if (!block.memory || !out) die(word[1]);
  make(&log, block, word[3], word[2], word[4], word[5]);
  squitter_log_header(format == ROWS ? SQUITTER_CSV : format, header);
  fputs(header, out);
  while (at < length) {
    size_t size = (size_t)strtoull(piece, &piece, 10);
    piece = *piece == ',' ? piece + 1 : word[7];
    if (size > length - at) size = length - at;
    hear(&log, format, bytes + at, size, out);
    at += size;
  }
  hear(&log, format, NULL, 0, out);
  squitter_log_free(&log);
  free(block.memory);
  free(bytes);
  if (fclose(out)) die(word[1]);
}

int main(int argc, char **argv) {
  static char job[1 << 16];
  FILE *jobs = argc == 2 ? fopen(argv[1], "r") : NULL;
  if (!jobs) die("faces JOBS");
  while (fgets(job, sizeof job, jobs)) run(job);
  return 0;
}
