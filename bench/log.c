/* log [FORMAT]: decodes a log from standard input with a squitter_log, in pieces of 64 KiB. The results are structs, or
 * text in a format (0, 1, 2). Prints the numbers of good and of refused lines. */
#include "squitter.h"
#include <stdio.h>
#include <stdlib.h>
#include <unistd.h>

enum { PIECE = 1 << 16, MOST = 1000, WINDOW = 10000, ANSWERS = 4096, ROOM = 1 << 16 };

static char piece[PIECE], texts[ROOM];
static squitter_answer answers[ANSWERS];

/* Decodes `length` bytes of the piece, or the last line if `ended`. Returns 1 if a call fails. */
static int hear(squitter_log *log, int format, size_t length, int ended) {
  size_t at = 0, room = format < 0 ? ANSWERS : ROOM - SQUITTER_ANSWER_TEXT_BYTES + 1;
  squitter_done done;
  do {
    squitter_fault fault =
      format < 0 ? ended ? squitter_log_finish(log, answers, ANSWERS, &done)
                         : squitter_log_take(log, piece + at, length - at, answers, ANSWERS, &done)
                 : ended ? squitter_log_finish_text(log, (uint32_t)format, texts, ROOM, &done)
                         : squitter_log_take_text(log, (uint32_t)format, piece + at, length - at, texts, ROOM, &done);
    if (fault.code) return 1;
    at += done.taken;
  } while (done.written >= room); /* more results may be waiting */
  return 0;
}

int main(int argc, char **argv) {
  squitter_log log = {0, 0};
  squitter_block block = {squitter_log_size(MOST), malloc(squitter_log_size(MOST))};
  squitter_tally tally = {0, 0};
  int format = argc > 1 ? atoi(argv[1]) : -1, wrong;
  ssize_t length;
  if (!block.memory || squitter_log_new(&log, block, MOST, WINDOW).code) return 2;
  for (wrong = 0; !wrong && (length = read(0, piece, PIECE)) > 0;) wrong = hear(&log, format, (size_t)length, 0);
  wrong = wrong || hear(&log, format, 0, 1) || squitter_log_tally(&log, &tally).code;
  printf("%llu good, %llu refused\n", (unsigned long long)tally.good, (unsigned long long)tally.refused);
  squitter_log_free(&log);
  free(block.memory);
  return wrong;
}
