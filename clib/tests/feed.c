/* feed: tests a source in pieces with outputs of any size, the end of a source, and blocks that are too small. The
 * squitters must not depend on the sizes, and a fault must change nothing. The feeds of vectors/ test how bytes are
 * read, and which timestamps frames get. */
#include "squitter.h"
#include <stdbool.h>
#include <stdio.h>
#include <stdlib.h>
#include <string.h>

enum { LEAP = 10000, GUARD = 64, FILLED = 0xA5, MOST = 4096, TOLD = 4 };

static long tried, wrong;
#define IS(what) (tried++, (what) ? (void)0 : (wrong++, (void)printf("line %d: %s\n", __LINE__, #what)))

typedef uint8_t frame_bytes[SQUITTER_FRAME_BYTES];

static const frame_bytes even = {0x8D, 0x40, 0x62, 0x1D, 0x58, 0xC3, 0x82, 0xD6, 0x90, 0xC8, 0xAC, 0x28, 0x63, 0xA7};
static const frame_bytes odd = {0x8D, 0x40, 0x62, 0x1D, 0x58, 0xC3, 0x86, 0x43, 0x5C, 0xC4, 0x12, 0x69, 0x2A, 0xD6};
#define EVEN "8D40621D58C382D690C8AC2863A7"
#define ODD "8D40621D58C386435CC412692AD6"

/* The squitters of the source below, and their lines. The clocks at 12 MHz are 12,000 times the timestamps. */
static const uint64_t moments_wanted[TOLD] = {0x1A1A, 7000, 7400, 7400};
static const char text_wanted[] = "6682 " EVEN "\n7000 " ODD "\n7400 " EVEN "\n7400 " ODD "\n";

static char bytes[MOST];
static size_t length;
_Alignas(32) static unsigned char block_bytes[32768 + 2 * GUARD];

/* ---- the source ---- */

static void add(const char *text) {
  while (*text) bytes[length++] = *text++;
}

/* Appends a Beast message: each 1A after its type is doubled. */
static void add_message(char type, uint64_t ticks, const uint8_t *frame, size_t size) {
  uint8_t all[21];
  for (int i = 0; i < 6; i++) all[i] = (uint8_t)(ticks >> (40 - 8 * i));
  all[6] = 0x1A;
  memcpy(all + 7, frame, size);
  bytes[length++] = 0x1A, bytes[length++] = type;
  for (size_t i = 0; i < 7 + size; i++) {
    bytes[length++] = (char)all[i];
    if (all[i] == 0x1A) bytes[length++] = 0x1A;
  }
}

static const uint8_t mode_ac[2] = {0x20, 0x40}, all_call[7] = {0x5D, 0x48, 0x40, 0xD6, 0xF8, 0x3D, 0x31};

static void make_source(void) {
  add("xyz"); /* bytes outside messages */
  add_message('3', 12000 * moments_wanted[0] + 5, even, 14);
  add_message('1', 1, mode_ac, 2);
  add_message('2', 2, all_call, 7);
  add_message('3', 12000 * moments_wanted[1], odd, 14);
  add("\x1A" "3abc"); /* a message that is cut off */
  add_message('3', 12000 * moments_wanted[2], even, 14);
  add_message('3', 12000 * moments_wanted[3], odd, 14);
}

/* ---- a feed in a block between guards ---- */

static squitter_block lend(size_t size) {
  squitter_block block = {size, block_bytes + GUARD};
  memset(block_bytes, FILLED, sizeof block_bytes);
  return block;
}

static bool is_guarded(size_t size) {
  for (size_t i = 0; i < sizeof block_bytes; i++)
    if ((i < GUARD || i >= GUARD + size) && block_bytes[i] != FILLED) return false;
  return true;
}

static void begin(squitter_feed *feed, uint32_t format, uint32_t flags) {
  if (squitter_feed_new(feed, lend(squitter_feed_size()), format, LEAP, 0, flags).code) exit(2);
}

static bool are_counts(squitter_feed *feed) {
  squitter_counts counts;
  return !squitter_feed_counts(feed, &counts).code && counts.written == TOLD && counts.mode_ac == 1 &&
         counts.formats[11] == 1 && counts.damaged == 2 && counts.found == TOLD + 4;
}

static bool are_wanted(const uint64_t *moments, frame_bytes *frames, size_t count) {
  if (count != TOLD) return false;
  for (int i = 0; i < TOLD; i++)
    if (moments[i] != moments_wanted[i] || memcmp(frames[i], i % 2 ? odd : even, sizeof even)) return false;
  return true;
}

/* Reads all squitters, with pieces and arrays of these sizes. */
static void try_frames(uint32_t format, size_t piece, size_t moments_room, size_t frames_room) {
  size_t room = moments_room < frames_room ? moments_room : frames_room, count = 0;
  uint64_t moments[128];
  frame_bytes frames[128];
  squitter_feed feed = {0, 0};
  squitter_done done;
  begin(&feed, format, 0);
  for (size_t from = 0; from < length; from += piece) {
    size_t end = from + piece < length ? from + piece : length, at = from;
    do {
      memset(moments + count, FILLED, sizeof(uint64_t) * (room + 1));
      IS(squitter_feed_take(&feed, bytes + at, end - at, 0, moments + count, moments_room, frames + count,
                            frames_room, &done).code == SQUITTER_OK);
      IS(done.written <= room && moments[count + done.written] == 0xA5A5A5A5A5A5A5A5);
      at += done.taken, count += done.written;
    } while (done.written == room);
    IS(at == end);
  }
  IS(are_wanted(moments, frames, count));
  IS(squitter_feed_finish(&feed, 0, moments, moments_room, frames, frames_room, &done).code == SQUITTER_OK);
  IS(done.written == 0 && done.taken == 0);
  IS(are_counts(&feed));
  squitter_feed_free(&feed);
  IS(is_guarded(squitter_feed_size()));
}

static void try_text(uint32_t format, size_t piece, size_t room) {
  char text[MOST];
  size_t count = 0;
  squitter_feed feed = {0, 0};
  squitter_done done;
  begin(&feed, format, 0);
  for (size_t from = 0; from < length; from += piece) {
    size_t end = from + piece < length ? from + piece : length, at = from;
    do {
      memset(text + count, FILLED, room + 1);
      IS(squitter_feed_take_text(&feed, bytes + at, end - at, 0, text + count, room, &done).code == SQUITTER_OK);
      IS(done.written <= room && text[count + done.written] == (char)FILLED);
      at += done.taken, count += done.written;
    } while (done.written + SQUITTER_LINE_BYTES > room);
    IS(at == end);
  }
  IS(count == strlen(text_wanted) && !memcmp(text, text_wanted, count));
  IS(squitter_feed_finish_text(&feed, 0, text, room, &done).code == SQUITTER_OK && !done.written && !done.taken);
  IS(are_counts(&feed));
  squitter_feed_free(&feed);
}

static void try_cuts(void) {
  static const size_t pieces[] = {1, 2, 7, 21, 22, 23, MOST}, rooms[] = {1, 2, 4, 5, 64};
  static const size_t texts[] = {50, 51, 99, 100, 1024};
  for (uint32_t format = SQUITTER_FEED_BEAST; format <= SQUITTER_FEED_AUTO; format += SQUITTER_FEED_AUTO)
    for (size_t p = 0; p < sizeof pieces / sizeof *pieces; p++) {
      for (size_t r = 0; r < sizeof rooms / sizeof *rooms; r++) {
        try_frames(format, pieces[p], rooms[r], rooms[r]);
        try_frames(format, pieces[p], rooms[r], 64);
      }
      try_frames(format, pieces[p], 64, 3);
      for (size_t t = 0; t < sizeof texts / sizeof *texts; t++) try_text(format, pieces[p], texts[t]);
    }
}

/* ---- ends, flags, a tracker ---- */

/* The last line of a text is written once, at the end, as soon as there is room. */
static void try_ends(void) {
  static const char *last[] = {"", EVEN, "7,x," EVEN, "7000 " EVEN};
  static const uint64_t when[] = {0, 0, 7000, 7000};
  char wanted[64], text[64];
  for (uint32_t format = SQUITTER_FEED_AVR; format < SQUITTER_FEED_AUTO; format++) {
    squitter_feed feed = {0, 0};
    squitter_done done = {7, 7};
    uint64_t moments[2] = {5, 5};
    frame_bytes frames[2];
    begin(&feed, format, 0);
    for (int round = 0; round < 2; round++) {
      IS(squitter_feed_take(&feed, last[format], strlen(last[format]), 0, moments, 2, frames, 2, &done).code == 0);
      IS(done.written == 0 && done.taken == strlen(last[format]));
      IS(squitter_feed_finish(&feed, 0, moments, 0, frames, 2, &done).code == 0 && !done.written);
      IS(squitter_feed_finish(&feed, 0, moments, 2, frames, 0, &done).code == 0 && !done.written);
      IS(squitter_feed_finish_text(&feed, 0, text, 49, &done).code == 0 && !done.written && !done.taken);
      if (round) {
        sprintf(wanted, "%d " EVEN "\n", (int)when[format]);
        IS(squitter_feed_finish_text(&feed, 0, text, 50, &done).code == 0 && done.written == strlen(wanted));
        IS(!memcmp(text, wanted, strlen(wanted)));
        IS(squitter_feed_finish_text(&feed, 0, text, 50, &done).code == 0 && done.written == 0);
        continue;
      }
      IS(squitter_feed_finish(&feed, 0, moments, 2, frames, 1, &done).code == 0 && done.written == 1);
      IS(moments[0] == when[format] && moments[1] == 5 && !memcmp(frames[0], even, sizeof even));
      IS(squitter_feed_finish(&feed, 0, moments, 2, frames, 1, &done).code == 0 && done.written == 0);
    }
    squitter_feed_free(&feed);
  }
}

/* Other bits of the flags are ignored. */
static void try_flags(void) {
  static const char source[] = "@0000005B8D80" EVEN ";*5D4840D6F83D31;";
  for (uint32_t flags = 0; flags < 8; flags++) {
    char text[2][150];
    squitter_done done[2];
    for (uint32_t other = 0; other < 2; other++) {
      squitter_feed feed = {0, 0};
      begin(&feed, SQUITTER_FEED_AVR, flags | (other ? UINT32_MAX << 3 : 0));
      IS(squitter_feed_take_text(&feed, source, sizeof source - 1, 77, text[other], 150, &done[other]).code == 0);
      squitter_feed_free(&feed);
    }
    IS(done[0].written == done[1].written && !memcmp(text[0], text[1], done[0].written));
  }
}

/* The arrays of a feed can go straight to a tracker. */
static void try_tracker(void) {
  squitter_tracker tracker = {0, 0};
  squitter_feed feed = {0, 0};
  squitter_block block = {squitter_tracker_size(10), 0};
  squitter_done done;
  uint64_t moments[8];
  frame_bytes frames[8];
  squitter_heard heard[8];
  squitter_fault faults[8];
  block.memory = malloc(block.size);
  if (!block.memory || squitter_tracker_new(&tracker, block, 10, 10000).code) exit(2);
  begin(&feed, SQUITTER_FEED_BEAST, 0);
  IS(squitter_feed_take(&feed, bytes, length, 0, moments, 8, frames, 8, &done).code == 0);
  IS(squitter_tracker_hear_many(&tracker, moments, done.written, (const frame_bytes *)frames, done.written, heard, 8,
                                faults, 8) == TOLD);
  IS(heard[0].what == SQUITTER_WAITING && heard[1].what == SQUITTER_FIX && heard[3].what == SQUITTER_FIX);
  squitter_tracker_free(&tracker), squitter_feed_free(&feed);
  free(block.memory);
}

/* ---- faults ---- */

static void try_blocks(void) {
  size_t size = squitter_feed_size();
  size_t sizes[] = {0, 1, 15, 16, 64, size - 16, size - 1, size, size + 1, size + 15, size + 16};
  for (size_t i = 0; i < sizeof sizes / sizeof *sizes; i++)
    for (size_t shift = 0; shift < 32; shift += 16) { /* an alignment of 16 bytes is enough */
      squitter_block block = lend(sizes[i]);
      squitter_feed feed = {0, 0};
      squitter_counts counts;
      memset(&counts, FILLED, sizeof counts);
      block.memory = block_bytes + GUARD + shift;
      IS(squitter_feed_new(&feed, block, 5, LEAP, 0, 0).code == SQUITTER_BAD_FORMAT);
      IS(squitter_feed_new(&feed, block, UINT32_MAX, LEAP, 0, 0).code == SQUITTER_BAD_FORMAT && !feed.full);
      IS(squitter_feed_new(&feed, block, 3, LEAP, 0, 0).code == (sizes[i] < size ? SQUITTER_NO_MEMORY : SQUITTER_OK));
      IS(squitter_feed_counts(&feed, &counts).code == (sizes[i] < size ? SQUITTER_NO_TRACKER : SQUITTER_OK));
      IS(counts.found == (sizes[i] < size ? 0xA5A5A5A5A5A5A5A5 : 0) && is_guarded(sizes[i] + shift));
      squitter_feed_free(&feed);
    }
}

static void try_none(squitter_feed *feed) {
  squitter_done done = {7, 7};
  uint32_t number = 7;
  squitter_counts counts = {7, 0, 0, 0, 0, 0, 0, {0}, 0, 0};
  uint64_t moments[1] = {7};
  frame_bytes frames[1] = {{7}};
  char text[50] = "7";
  IS(squitter_feed_take(feed, "", 0, 0, moments, 1, frames, 1, &done).code == SQUITTER_NO_TRACKER);
  IS(squitter_feed_finish(feed, 0, moments, 1, frames, 1, &done).code == SQUITTER_NO_TRACKER);
  IS(squitter_feed_take_text(feed, "", 0, 0, text, 50, &done).code == SQUITTER_NO_TRACKER);
  IS(squitter_feed_finish_text(feed, 0, text, 50, &done).code == SQUITTER_NO_TRACKER);
  IS(squitter_feed_disconnected(feed).code == SQUITTER_NO_TRACKER);
  IS(squitter_feed_format(feed, &number).code == SQUITTER_NO_TRACKER && number == 7);
  IS(squitter_feed_counts(feed, &counts).code == SQUITTER_NO_TRACKER);
  IS(done.taken == 7 && done.written == 7 && counts.found == 7 && moments[0] == 7 && frames[0][0] == 7);
  IS(text[0] == '7' && !feed->full && !feed->at);
}

/* Tests calls without a feed, freeing twice, replacing a feed by another, and replacing it by one that is refused. */
static void try_lives(void) {
  squitter_feed feed = {0, 0};
  squitter_done done = {7, 7};
  squitter_counts counts;
  uint64_t moments[1];
  frame_bytes frames[1];
  try_none(&feed);
  squitter_feed_free(&feed);
  try_none(&feed);
  begin(&feed, SQUITTER_FEED_LOG, 0);
  /* The first row waits for the second, and both are given, one to a call. */
  IS(squitter_feed_take(&feed, "7 " ODD "\n7 " ODD "\n8", 63, 0, moments, 1, frames, 1, &done).code == 0);
  IS(done.taken == 62 && done.written == 1);
  IS(squitter_feed_take(&feed, "", 0, 0, moments, 1, frames, 1, &done).code == 0 && !done.taken && done.written == 1);
  IS(squitter_feed_take(&feed, "", 0, 0, moments, 1, frames, 1, &done).code == 0 && !done.taken && !done.written);
  IS(squitter_feed_take(&feed, "9\n", 2, 0, moments, 0, frames, 1, &done).code == 0 && !done.taken && !done.written);
  IS(squitter_feed_take(&feed, "9\n", 2, 0, moments, 1, frames, 0, &done).code == 0 && !done.taken && !done.written);
  begin(&feed, SQUITTER_FEED_LOG, 0);
  IS(squitter_feed_counts(&feed, &counts).code == 0 && counts.found == 0);
  IS(squitter_feed_new(&feed, lend(squitter_feed_size()), 5, LEAP, 0, 0).code == SQUITTER_BAD_FORMAT);
  try_none(&feed);
  begin(&feed, SQUITTER_FEED_LOG, 0);
  IS(squitter_feed_new(&feed, lend(16), SQUITTER_FEED_LOG, LEAP, 0, 0).code == SQUITTER_NO_MEMORY);
  try_none(&feed);
  begin(&feed, SQUITTER_FEED_LOG, 0);
  squitter_feed_free(&feed), squitter_feed_free(&feed);
  try_none(&feed);
}

int main(void) {
  make_source();
  try_cuts();
  try_ends();
  try_flags();
  try_tracker();
  try_blocks();
  try_lives();
  printf("feed: %ld of %ld wrong\n", wrong, tried);
  return wrong != 0;
}
