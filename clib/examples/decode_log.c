/* decode_log LOG: prints what `squitter track` prints for a log; each line has a timestamp (ms) and a frame. */
#include "squitter.h"
#include <errno.h>
#include <stdio.h>
#include <stdlib.h>
#include <string.h>

enum { MOST = 1000, WINDOW = 10000, PIECE = 1 << 16, ROOM = 1 << 16 };

static char piece[PIECE], out[ROOM];

/* Prints the results for `length` bytes of the piece, or for the last line if `ended`. Returns 1 if that fails. */
static int answer(squitter_log *log, size_t length, int ended) {
  size_t at = 0;
  squitter_done done;
  do {
    squitter_fault fault = ended ? squitter_log_finish_text(log, SQUITTER_LINES, out, ROOM, &done)
      : squitter_log_take_text(log, SQUITTER_LINES, piece + at, length - at, out, ROOM, &done);
    if (fault.code || fwrite(out, 1, done.written, stdout) != done.written) return 1;
    at += done.taken;
  } while (done.written + SQUITTER_ANSWER_TEXT_BYTES > ROOM); /* more results may be waiting */
  return 0;
}

/* Reports an error, and returns the status of the program. */
static int failed(const char *what, int status) {
  fprintf(stderr, "decode_log: %s\n", what);
  return status;
}

int main(int argc, char **argv) {
  squitter_log log = {0, 0}; /* no log yet */
  squitter_block block = {squitter_log_size(MOST), 0};
  size_t length;
  FILE *file = argc == 2 ? fopen(argv[1], "rb") : 0;
  if (!file) return failed(argc == 2 ? strerror(errno) : "give a log", 2);
  block.memory = malloc(block.size);
  if (!block.memory || squitter_log_new(&log, block, MOST, WINDOW).code) return failed("out of memory", 3);
  while ((length = fread(piece, 1, PIECE, file)) > 0) if (answer(&log, length, 0)) return failed("write failed", 3);
  if (ferror(file)) return failed("read failed", 3);
  if (answer(&log, 0, 1) || fflush(stdout) != 0) return failed("write failed", 3);
  squitter_log_free(&log);
  free(block.memory);
  fclose(file);
  return 0;
}
