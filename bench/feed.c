/* feed FORMAT OUTPUT: feeds a source of a format (`beast`, `avr` or `csv`) from standard input in pieces of 64 KiB, and
 * takes its squitters as lines of a log (`text`) or as arrays (`frames`). Prints the number of squitters, or, for
 * `lines`, the log itself. */
#include "squitter.h"
#include <stdio.h>
#include <stdlib.h>
#include <string.h>
#include <unistd.h>

enum { PIECE = 1 << 16, LEAP = 10000, ROOM = 1 << 16, SQUITTERS = 4096 };

static char piece[PIECE], lines[ROOM];
static uint64_t moments[SQUITTERS];
static uint8_t frames[SQUITTERS][SQUITTER_FRAME_BYTES];

/* The format with this name, or one that no feed has. */
static uint32_t format_of(const char *name) {
  return !strcmp(name, "beast") ? SQUITTER_FEED_BEAST
         : !strcmp(name, "avr") ? SQUITTER_FEED_AVR
         : !strcmp(name, "csv") ? SQUITTER_FEED_CSV
                                : UINT32_MAX;
}

/* Feeds the first bytes of the piece as long as the output is full, or ends the source. Status 1 if a call fails. */
static int feed_piece(squitter_feed *feed, const char *output, size_t length, int ended) {
  int as_text = strcmp(output, "frames") != 0, is_shown = !strcmp(output, "lines");
  size_t at = 0, full = as_text ? ROOM - SQUITTER_LINE_BYTES + 1 : SQUITTERS;
  squitter_done done;
  do {
    squitter_fault fault =
      as_text ? ended ? squitter_feed_finish_text(feed, 0, lines, ROOM, &done)
                      : squitter_feed_take_text(feed, piece + at, length - at, 0, lines, ROOM, &done)
              : ended ? squitter_feed_finish(feed, 0, moments, SQUITTERS, frames, SQUITTERS, &done)
                      : squitter_feed_take(feed, piece + at, length - at, 0, moments, SQUITTERS, frames, SQUITTERS,
                                           &done);
    if (fault.code) return 1;
    if (is_shown) fwrite(lines, 1, done.written, stdout);
    at += done.taken;
  } while (done.written >= full); /* there may be more */
  return 0;
}

int main(int argc, char **argv) {
  squitter_feed feed = {0, 0};
  squitter_block block = {squitter_feed_size(), malloc(squitter_feed_size())};
  squitter_counts counts;
  ssize_t length;
  int wrong;
  if (argc != 3 || !block.memory || squitter_feed_new(&feed, block, format_of(argv[1]), LEAP, 0, 0).code) return 2;
  for (wrong = 0; !wrong && (length = read(0, piece, PIECE)) > 0;)
    wrong = feed_piece(&feed, argv[2], (size_t)length, 0);
  wrong = wrong || feed_piece(&feed, argv[2], 0, 1) || squitter_feed_counts(&feed, &counts).code;
  if (!wrong && strcmp(argv[2], "lines")) printf("%llu squitters\n", (unsigned long long)counts.written);
  squitter_feed_free(&feed);
  free(block.memory);
  return wrong;
}
