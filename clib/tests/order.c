/* order: tests squitters that come late, with outputs of any size, at the ends of the timestamps, in a full order that
 * grows, and in blocks that are too small. The result must not depend on the cut into calls. Timestamps must rise. */
#include "squitter.h"
#include <stdbool.h>
#include <stdio.h>
#include <string.h>

enum { MOST = 10000, LIMIT = 4096, GUARD = 64, FILLED = 0xA5 };

static long tried, wrong;
#define IS(what) (tried++, (what) ? (void)0 : (wrong++, (void)printf("line %d: %s\n", __LINE__, #what)))

typedef uint8_t frame_bytes[SQUITTER_FRAME_BYTES];

_Alignas(32) static unsigned char block_bytes[(1 << 18) + 2 * GUARD], larger_bytes[1 << 19];
static uint64_t moments[MOST], sorted[MOST];
static frame_bytes frames[MOST], sorted_frames[MOST];

static squitter_block block(size_t size) { return (squitter_block){size, block_bytes + GUARD}; }

static bool is_ok(squitter_fault fault) { return fault.code == SQUITTER_OK; }
static bool is_fault(squitter_fault fault, uint32_t code) { return fault.code == code; }

/* Makes squitters that come late by at most 19 ms. The number of each is in the first bytes of its frame. */
static void make_squitters(void) {
  for (size_t i = 0; i < MOST; i++) {
    uint64_t number = i * 7919 % 20;
    moments[i] = 1000 + 3 * i - number;
    memset(frames[i], 0, sizeof frames[i]);
    frames[i][0] = (uint8_t)(i >> 8), frames[i][1] = (uint8_t)i;
  }
}

/* Sorts all squitters by the order, in calls of so many squitters and with so much room. Returns how many there are. */
static size_t sort_by(size_t count, size_t room) {
  squitter_order order = {0, 0};
  squitter_done done;
  uint64_t held;
  size_t at = 0, given = 0;
  IS(is_ok(squitter_order_new(&order, block(squitter_order_size(LIMIT)), 20)));
  while (at < MOST) {
    size_t rest = MOST - at < count ? MOST - at : count;
    size_t free = MOST - given < room ? MOST - given : room;
    IS(is_ok(squitter_order_take(&order, moments + at, rest, (const frame_bytes *)frames + at, rest, sorted + given,
                                 free, sorted_frames + given, free, &done)));
    if (done.taken == 0 && done.written == 0) break;
    at += done.taken, given += done.written;
  }
  IS(is_ok(squitter_order_held(&order, &held)) && held == MOST - given);
  do {
    size_t free = MOST - given < room ? MOST - given : room;
    IS(is_ok(squitter_order_flush(&order, sorted + given, free, sorted_frames + given, free, &done)));
    given += done.written;
  } while (done.written > 0);
  IS(is_ok(squitter_order_held(&order, &held)) && held == 0);
  squitter_order_free(&order);
  return given;
}

/* Tests that the squitters are sorted, that equal timestamps keep their order, and that none is lost. */
static void try_cuts(void) {
  static const size_t cuts[][2] = {{1, 1}, {1, 3}, {3, 1}, {100, 100}, {MOST, 1}, {MOST, MOST}};
  for (size_t k = 0; k < sizeof cuts / sizeof *cuts; k++) {
    bool rises = true, same = true;
    IS(sort_by(cuts[k][0], cuts[k][1]) == MOST);
    for (size_t i = 0; i < MOST; i++) {
      size_t number = (size_t)sorted_frames[i][0] << 8 | sorted_frames[i][1];
      same &= moments[number] == sorted[i];
      if (i == 0) continue;
      size_t before = (size_t)sorted_frames[i - 1][0] << 8 | sorted_frames[i - 1][1];
      rises &= sorted[i - 1] < sorted[i] || (sorted[i - 1] == sorted[i] && before < number);
    }
    IS(rises && same);
  }
}

/* Tests squitters below, at and above the last timestamp that was written, and the largest timestamps and delays. */
static void try_late(void) {
  squitter_order order = {0, 0};
  squitter_done done;
  uint64_t held, late, out[3] = {9, 9, 9};
  frame_bytes out_frames[3];
  IS(is_ok(squitter_order_new(&order, block(squitter_order_size(0)), 10)));
  const uint64_t came[2] = {20, 30};
  IS(is_ok(squitter_order_take(&order, came, 2, (const frame_bytes *)frames, 2, out, 3, out_frames, 3, &done)));
  IS(done.taken == 2 && done.written == 1 && out[0] == 20);
  IS(is_ok(squitter_order_late(&order, &late)) && late == 0);
  const uint64_t next[3] = {19, 20, 21};
  IS(is_ok(squitter_order_take(&order, next, 1, (const frame_bytes *)frames, 1, out, 3, out_frames, 3, &done)));
  IS(done.taken == 1 && done.written == 0);
  IS(is_ok(squitter_order_late(&order, &late)) && late == 1);
  IS(is_ok(squitter_order_take(&order, next + 1, 2, (const frame_bytes *)frames, 2, out, 3, out_frames, 3, &done)));
  IS(done.taken == 2 && done.written == 1 && out[0] == 20);
  /* a flush gives 21, which is not due, and 30 stays */
  IS(is_ok(squitter_order_flush(&order, out, 1, out_frames, 1, &done)) && done.written == 1 && out[0] == 21);
  IS(is_ok(squitter_order_take(&order, next + 1, 2, (const frame_bytes *)frames, 2, out, 3, out_frames, 3, &done)));
  IS(done.taken == 2 && done.written == 0);
  IS(is_ok(squitter_order_late(&order, &late)) && late == 2);
  IS(is_ok(squitter_order_held(&order, &held)) && held == 2);
  /* another order in its place, without a delay */
  IS(is_ok(squitter_order_new(&order, block(squitter_order_size(0)), 0)));
  IS(is_ok(squitter_order_held(&order, &held)) && held == 0);
  const uint64_t ends[2] = {UINT64_MAX, 0};
  IS(is_ok(squitter_order_take(&order, ends, 2, (const frame_bytes *)frames, 2, out, 3, out_frames, 3, &done)));
  IS(done.taken == 2 && done.written == 1 && out[0] == UINT64_MAX);
  IS(is_ok(squitter_order_late(&order, &late)) && late == 1);
  /* as many as there are timestamps and frames of, and nothing without room */
  IS(is_ok(squitter_order_take(&order, ends, 2, (const frame_bytes *)frames, 1, out, 3, out_frames, 3, &done)));
  IS(done.taken == 1 && done.written == 1);
  IS(is_ok(squitter_order_take(&order, ends, 2, (const frame_bytes *)frames, 2, out, 0, out_frames, 3, &done)));
  IS(done.taken == 0 && done.written == 0);
  squitter_order_free(&order);
  squitter_order_free(&order);
  IS(is_fault(squitter_order_held(&order, &held), SQUITTER_NO_TRACKER));
  IS(is_fault(squitter_order_late(&order, &late), SQUITTER_NO_TRACKER) && late == 1);
}

/* Tests an order that is full, one in a larger block, and one in a block that is too small. */
static void try_growing(void) {
  squitter_order order = {0, 0};
  squitter_done done;
  const squitter_block larger = {sizeof larger_bytes, larger_bytes};
  uint64_t held, late, first = 0;
  size_t at = 0;
  IS(is_fault(squitter_order_grow(&order, larger), SQUITTER_NO_TRACKER) && order.full == 0);
  IS(is_ok(squitter_order_new(&order, block(squitter_order_size(LIMIT)), UINT64_MAX)));
  for (size_t i = 0; i < MOST; i++) sorted[i] = MOST - i;
  /* the earliest comes last, so that all have to move */
  IS(is_ok(squitter_order_take(&order, sorted, LIMIT, (const frame_bytes *)frames, LIMIT, moments, 1, sorted_frames, 1,
                               &done)));
  IS(done.taken == LIMIT && done.written == 0);
  at = LIMIT;
  IS(is_fault(squitter_order_take(&order, sorted + at, MOST - at, (const frame_bytes *)frames + at, MOST - at, moments,
                                  1, sorted_frames, 1, &done), SQUITTER_NO_MEMORY));
  IS(done.taken < MOST - at && done.written == 0);
  at += done.taken;
  IS(is_ok(squitter_order_held(&order, &held)) && held == at);
  squitter_block few = {squitter_order_size(LIMIT / 2), larger_bytes};
  IS(is_fault(squitter_order_grow(&order, few), SQUITTER_NO_MEMORY));
  few.size = squitter_order_size(0) - 1;
  IS(is_fault(squitter_order_grow(&order, few), SQUITTER_NO_MEMORY));
  IS(is_ok(squitter_order_held(&order, &held)) && held == at);
  IS(is_ok(squitter_order_grow(&order, larger)));
  memset(block_bytes, FILLED, sizeof block_bytes);
  IS(is_ok(squitter_order_take(&order, sorted + at, MOST - at, (const frame_bytes *)frames + at, MOST - at, moments, 1,
                               sorted_frames, 1, &done)));
  IS(at + done.taken == MOST && done.written == 0);
  IS(is_ok(squitter_order_flush(&order, &first, 1, sorted_frames, 1, &done)) && done.written == 1 && first == 1);
  bool rises = true;
  IS(is_ok(squitter_order_flush(&order, moments, MOST, sorted_frames, MOST, &done)) && done.written == MOST - 1);
  for (size_t i = 0; i < MOST - 1; i++) rises &= moments[i] == i + 2;
  IS(rises);
  IS(is_ok(squitter_order_late(&order, &late)) && late == 0);
  squitter_order_free(&order);
}

/* Tests blocks that are too small, and that no byte behind a block is written. */
static void try_blocks(void) {
  squitter_order order = {0, 0};
  size_t size = squitter_order_size(LIMIT);
  bool kept = true;
  memset(block_bytes, FILLED, sizeof block_bytes);
  IS(size + 2 * GUARD <= sizeof block_bytes);
  IS(is_fault(squitter_order_new(&order, block(squitter_order_size(0) - 1), 20), SQUITTER_NO_MEMORY));
  IS(order.full == 0 && size > squitter_order_size(LIMIT - 1));
  IS(is_fault(squitter_order_new(&order, block(0), 20), SQUITTER_NO_MEMORY));
  IS(sort_by(MOST, MOST) == MOST);
  for (size_t i = 0; i < GUARD; i++) kept &= block_bytes[i] == FILLED && block_bytes[GUARD + size + i] == FILLED;
  IS(kept);
}

int main(void) {
  make_squitters();
  try_cuts();
  try_late();
  try_blocks();
  try_growing();
  printf("order: %ld of %ld wrong\n", wrong, tried);
  return wrong != 0;
}
