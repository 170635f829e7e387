/* tracker COUNT: tests trackers in blocks. COUNT new addresses come and go, at limits of 1 to 1000, without NO_MEMORY.
 * No byte outside a block is written, a block can be reused, and two trackers share nothing. A saved tracker is
 * restored, and one with a changed field is refused. */
#include "squitter.h"
#include <stdbool.h>
#include <stdio.h>
#include <stdlib.h>
#include <string.h>

enum { WINDOW = 10000, GUARD = 64, FILLED = 0xA5 };

static long tried, wrong;
#define IS(what) (tried++, (what) ? (void)0 : (wrong++, (void)printf("line %d: %s\n", __LINE__, #what)))

static const squitter_position place = {{52, 1}, {4, 1}}, nowhere = {{0, 0}, {0, 0}};

/* A block between guards. */
typedef struct lent {
  unsigned char *all;
  squitter_block block;
} lent;

static lent lend(size_t size) {
  lent made;
  made.all = malloc(size + 2 * GUARD);
  if (!made.all) exit(2);
  memset(made.all, FILLED, size + 2 * GUARD);
  made.block.size = size;
  made.block.memory = made.all + GUARD;
  return made;
}

static bool is_guarded(const lent *block) {
  const unsigned char *end = block->all + GUARD + block->block.size;
  for (int i = 0; i < GUARD; i++) if (block->all[i] != FILLED || end[i] != FILLED) return false;
  return true;
}

/* Writes a position squitter of this address. */
static void frame_of(uint32_t address, int odd, uint8_t out[SQUITTER_FRAME_BYTES]) {
  squitter_air_head head = {0, 0xC38, 5, 11, 0, 0, 0, 0};
  head.address = address & 0xFFFFFF;
  head.odd = (uint8_t)odd;
  if (squitter_encode_air(&head, &place, out).code) exit(2);
}

static uint32_t random_state = 42;
static uint32_t next_random(void) {
  random_state = random_state * 1664525u + 1013904223u;
  return random_state >> 8;
}

/* Tests `count` new addresses. As many as the limit are present, and each leaves as another comes. Every third step of
 * time has a random length. */
static void try_churn(uint32_t limit, long count) {
  lent block = lend(squitter_tracker_size(limit));
  squitter_tracker tracker = {0, 0};
  squitter_heard heard;
  uint8_t frame[SQUITTER_FRAME_BYTES];
  uint64_t moment = 0;
  long full = 0;
  IS(squitter_tracker_new(&tracker, block.block, limit, WINDOW).code == SQUITTER_OK);
  for (long n = 0; n < count; n++) {
    squitter_fault fault;
    frame_of(next_random(), (int)(n & 1), frame);
    moment += n % 3 ? WINDOW / limit + 1 : next_random() % (2 * WINDOW / limit + 2);
    fault = squitter_tracker_hear(&tracker, moment, frame, &heard);
    full += fault.code == SQUITTER_TABLE_FULL;
    if (fault.code && fault.code != SQUITTER_TABLE_FULL) IS(!"out of memory");
  }
  IS(squitter_tracker_len(&tracker) <= limit && full < count);
  IS(is_guarded(&block));
  squitter_tracker_free(&tracker);
  free(block.all);
}

/* Tests blocks that are too small, by one byte or more. */
static void try_too_small(uint32_t limit) {
  size_t size = squitter_tracker_size(limit), sizes[] = {0, 1, 16, 64, 1279, 1280, 4096, size - 16, size - 1};
  for (size_t i = 0; i < sizeof sizes / sizeof *sizes; i++) {
    if (sizes[i] >= size) continue;
    lent block = lend(sizes[i]);
    squitter_tracker tracker = {0, 0};
    IS(squitter_tracker_new(&tracker, block.block, limit, WINDOW).code == SQUITTER_NO_MEMORY);
    IS(squitter_tracker_new_at(&tracker, block.block, limit, WINDOW, &place).code == SQUITTER_NO_MEMORY);
    IS(squitter_tracker_new(&tracker, block.block, 0, WINDOW).code == SQUITTER_NO_LIMIT);
    IS(squitter_tracker_new_at(&tracker, block.block, limit, WINDOW, &nowhere).code == SQUITTER_BAD_POSITION);
    IS(squitter_tracker_len(&tracker) == 0 && is_guarded(&block));
    free(block.all);
  }
  lent larger = lend(size + 5);
  squitter_tracker tracker = {0, 0};
  IS(squitter_tracker_new(&tracker, larger.block, limit, WINDOW).code == SQUITTER_OK);
  squitter_tracker_free(&tracker);
  IS(is_guarded(&larger));
  free(larger.all);
}

/* Tests one block after the other in the same tracker, and reuse of a block. */
static void try_again(void) {
  size_t size = squitter_tracker_size(10);
  lent one = lend(size), two = lend(size);
  squitter_tracker tracker = {0, 0}, other = {0, 0};
  squitter_heard heard;
  squitter_entry present[3];
  uint8_t even[SQUITTER_FRAME_BYTES], odd[SQUITTER_FRAME_BYTES];
  frame_of(1, 0, even), frame_of(1, 1, odd);
  for (int round = 0; round < 3; round++) {
    IS(squitter_tracker_new(&tracker, one.block, 10, WINDOW).code == SQUITTER_OK);
    IS(squitter_tracker_new(&other, two.block, 10, WINDOW).code == SQUITTER_OK);
    IS(squitter_tracker_len(&tracker) == 0);
    IS(squitter_tracker_hear(&tracker, 1, even, &heard).code == SQUITTER_OK && heard.what == SQUITTER_WAITING);
    IS(squitter_tracker_hear(&other, 2, odd, &heard).code == SQUITTER_OK && heard.what == SQUITTER_WAITING);
    IS(squitter_tracker_hear(&tracker, 3, odd, &heard).code == SQUITTER_OK && heard.what == SQUITTER_FIX);
    IS(squitter_tracker_present(&tracker, 0, 0, present, 3) == 1 && present[0].moment == 3 && present[0].address == 1);
    IS(squitter_tracker_present(&other, 0, 0, present, 3) == 1 && present[0].moment == 2);
    if (round == 1) { /* the tracker is freed before its block is reused */
      squitter_tracker_free(&tracker), squitter_tracker_free(&other);
      memset(one.block.memory, FILLED, size), memset(two.block.memory, 0, size);
    }
  }
  squitter_tracker_free(&tracker), squitter_tracker_free(&tracker), squitter_tracker_free(&other);
  IS(squitter_tracker_hear(&tracker, 4, odd, &heard).code == SQUITTER_NO_TRACKER);
  IS(squitter_tracker_present(&tracker, 0, 0, present, 3) == 0 && squitter_tracker_len(&tracker) == 0);
  IS(is_guarded(&one) && is_guarded(&two));
  free(one.all), free(two.all);
}

/* Tests who is present: the last heard first, since a time, from an index on, and as many as fit. */
static void try_present(void) {
  enum { COUNT = 9 };
  lent place = lend(squitter_tracker_size(COUNT));
  squitter_tracker tracker = {0, 0};
  squitter_heard heard;
  squitter_entry whole[COUNT + 1], part[COUNT + 1];
  uint8_t frame[SQUITTER_FRAME_BYTES];
  IS(squitter_tracker_new(&tracker, place.block, COUNT, WINDOW).code == SQUITTER_OK);
  IS(squitter_tracker_present(&tracker, 0, 0, whole, COUNT) == 0);
  for (uint32_t address = 1; address <= COUNT; address++) { /* two of each moment */
    frame_of(address, address % 2, frame);
    IS(squitter_tracker_hear(&tracker, address / 2, frame, &heard).code == SQUITTER_OK);
  }
  frame_of(3, 0, frame);
  IS(squitter_tracker_hear(&tracker, 4, frame, &heard).code == SQUITTER_OK && heard.what == SQUITTER_FIX);
  static const uint32_t order[COUNT] = {3, 9, 8, 7, 6, 5, 4, 2, 1};
  IS(squitter_tracker_present(&tracker, 0, 0, whole, COUNT + 1) == COUNT);
  for (int at = 0; at < COUNT; at++) IS(whole[at].address == order[at]);
  IS(whole[0].moment == 4 && whole[0].airborne.odd.moment == 1 && whole[0].airborne.even.moment == 4);
  IS(memcmp(whole[0].airborne.even.frame, frame, sizeof frame) == 0 && whole[0].airborne.fix.moment == 4);
  IS(whole[1].airborne.even.moment == 0 && whole[1].airborne.fix.position.lat.den == 0);
  /* Those of 4 and later: at, just below and just above a moment, and beyond all. */
  for (uint64_t since = 3; since < 6; since++)
    IS(squitter_tracker_present(&tracker, since, 0, part, COUNT) == (since == 3 ? 5 : since == 4 ? 3 : 0));
  IS(squitter_tracker_present(&tracker, UINT64_MAX, 0, part, COUNT) == 0);
  /* From each index on, with each room. */
  for (size_t from = 0; from <= COUNT + 1; from++)
    for (size_t room = 0; room <= COUNT; room++) {
      size_t left = from < COUNT ? COUNT - from : 0, count = left < room ? left : room;
      memset(part, FILLED, sizeof part);
      IS(squitter_tracker_present(&tracker, 0, from, part, room) == count);
      IS(count == 0 || memcmp(part, whole + from, count * sizeof *part) == 0);
      for (unsigned char *at = (unsigned char *)(part + count); at < (unsigned char *)(part + COUNT + 1); at++)
        IS(*at == FILLED);
    }
  IS(squitter_tracker_present(&tracker, 0, SIZE_MAX, part, COUNT) == 0);
  IS(squitter_tracker_present(&tracker, 4, 2, part, COUNT) == 1 && part[0].address == 8);
  IS(squitter_tracker_len(&tracker) == COUNT && is_guarded(&place));
  free(place.all);
}

/* Tests that a refused frame leaves its elements unchanged, and that the next frame is accepted. */
static void try_many(void) {
  lent block = lend(squitter_tracker_size(2));
  squitter_tracker tracker = {0, 0};
  uint8_t frames[5][SQUITTER_FRAME_BYTES];
  const uint64_t moments[5] = {5, 4, 6, 7, 8};
  squitter_heard out[5];
  squitter_fault faults[5];
  memset(out, 7, sizeof out), memset(faults, 7, sizeof faults);
  for (int i = 0; i < 5; i++) frame_of(i < 3 ? 1 : (uint32_t)i, i & 1, frames[i]);
  IS(squitter_tracker_new(&tracker, block.block, 2, WINDOW).code == SQUITTER_OK);
  IS(squitter_tracker_hear_many(&tracker, moments, 5, (const uint8_t (*)[SQUITTER_FRAME_BYTES])frames, 5, out, 5,
                                faults, 5) == 5);
  IS(faults[0].code == SQUITTER_OK && out[0].what == SQUITTER_WAITING);
  IS(faults[1].code == SQUITTER_MOMENT_BACK && faults[1].first == 5 && out[1].what == 7);
  IS(faults[2].code == SQUITTER_OK && out[2].what == SQUITTER_WAITING);
  IS(faults[3].code == SQUITTER_OK && faults[4].code == SQUITTER_TABLE_FULL && out[4].what == 7);
  squitter_tracker_free(&tracker);
  faults[0].code = 9;
  IS(squitter_tracker_hear_many(&tracker, moments, 5, (const uint8_t (*)[SQUITTER_FRAME_BYTES])frames, 5, out, 5,
                                faults, 5) == 5);
  IS(faults[0].code == SQUITTER_NO_TRACKER && faults[4].code == SQUITTER_NO_TRACKER);
  free(block.all);
}

/* A saved state of two addresses, for a tracker with a limit of 2 and a window of 100. */
typedef struct state {
  squitter_last last;
  squitter_entry entries[3];
  size_t count;
} state;

static state saved;
static squitter_tracker restored;

static bool is_restored(const state *given) {
  squitter_last last;
  squitter_entry entries[3];
  if (squitter_tracker_restore(&restored, &given->last, given->entries, given->count).code) return false;
  if (squitter_tracker_save(&restored, &last, entries, 3) != given->count) return false;
  return last.heard == given->last.heard && last.moment == (last.heard ? given->last.moment : 0);
}

static bool is_refused(const state *given, uint64_t index) {
  squitter_last last;
  squitter_heard heard;
  uint8_t frame[SQUITTER_FRAME_BYTES];
  squitter_fault fault = squitter_tracker_restore(&restored, &given->last, given->entries, given->count);
  if (fault.code != SQUITTER_BAD_ENTRY || fault.first != index || squitter_tracker_len(&restored)) return false;
  if (squitter_tracker_save(&restored, &last, saved.entries, 0) || last.heard) return false;
  frame_of(9, 0, frame);
  return squitter_tracker_hear(&restored, 0, frame, &heard).code == SQUITTER_OK && heard.what == SQUITTER_WAITING;
}

static void try_times(void) {
  state changed = saved;
  changed.last.moment = 29;
  IS(is_refused(&changed, 1));
  changed.last.moment = 120;
  IS(is_restored(&changed));
  changed.last.moment = 121;
  IS(is_refused(&changed, 0));
  changed = saved, changed.last.heard = 0;
  IS(is_refused(&changed, 0));
  changed.count = 0;
  IS(is_restored(&changed));
  changed = saved, changed.entries[1].moment = changed.entries[1].airborne.even.moment = 20;
  IS(is_restored(&changed));
  changed.entries[1].moment = changed.entries[1].airborne.even.moment = 19;
  IS(is_refused(&changed, 1));
  changed = saved, changed.entries[0].moment = 19;
  IS(is_refused(&changed, 0));
  changed.entries[0].moment = 21;
  IS(is_refused(&changed, 0));
  changed = saved, changed.entries[0].airborne.even.moment = 21;
  IS(is_refused(&changed, 0));
  changed = saved, changed.entries[0].airborne.fix.moment = 21;
  IS(is_refused(&changed, 0));
  changed.entries[0].airborne.fix.moment = 19;
  IS(is_restored(&changed));
}

static void try_frames(void) {
  squitter_received even = saved.entries[0].airborne.even;
  state changed = saved;
  changed.entries[0].address++;
  IS(is_refused(&changed, 0));
  changed = saved, changed.entries[0].airborne.even = changed.entries[0].airborne.odd;
  changed.entries[0].airborne.odd = even;
  IS(is_refused(&changed, 0));
  changed = saved, changed.entries[0].surface = changed.entries[0].airborne;
  IS(is_refused(&changed, 0));
  changed = saved, changed.entries[0].airborne.even.frame[13] ^= 1; /* not a squitter, so absent: a fix needs both */
  IS(is_refused(&changed, 0));
  changed.entries[0].airborne.fix.position.lat.den = 0; /* no fix */
  IS(is_restored(&changed));
  changed = saved, changed.entries[0].airborne.odd.frame[13] ^= 1; /* now the newest position is absent */
  IS(is_refused(&changed, 0));
  changed = saved, changed.entries[0].surface.fix = changed.entries[0].airborne.fix; /* a fix without a position */
  IS(is_refused(&changed, 0));
}

/* The fix is at a point of the odd grid, of the frame at 20. */
static void try_fixes(void) {
  state changed = saved;
  squitter_angle *lat = &changed.entries[0].airborne.fix.position.lat;
  squitter_angle *lon = &changed.entries[0].airborne.fix.position.lon;
  IS(lat->den == 59 << 17 && lat->num % 360 == 0);
  lat->num++;
  IS(is_refused(&changed, 0));
  lat->num += 359; /* the next point of the grid to the north, which no frame gave */
  IS(is_restored(&changed));
  changed = saved, lon->num--;
  IS(is_refused(&changed, 0));
  changed = saved, lat->num /= 2, lat->den /= 2; /* another fraction of the same value */
  IS(is_refused(&changed, 0));
  changed = saved, *lat = *lon = (squitter_angle){1, 3};
  IS(is_refused(&changed, 0));
  changed = saved, lat->den = lon->den = 0, changed.entries[0].surface.fix = saved.entries[0].airborne.fix;
  IS(is_refused(&changed, 0));
  changed = saved, changed.entries[0].airborne.even.moment = 20, changed.entries[0].airborne.odd.moment = 19;
  IS(is_refused(&changed, 0)); /* newer than the frame of its parity */
  changed.entries[0].airborne.fix.moment = 19;
  IS(is_restored(&changed));
}

static void try_entries(void) {
  state changed = saved;
  changed.count = 3;
  IS(is_refused(&changed, 2));
  changed.count = 2, changed.entries[1] = changed.entries[2];
  IS(is_restored(&changed));
  changed.entries[1] = changed.entries[0];
  IS(is_refused(&changed, 1));
  changed.entries[0] = saved.entries[1], changed.entries[1] = saved.entries[0];
  IS(is_refused(&changed, 1));
}

static void try_restoring(void) {
  lent block = lend(squitter_tracker_size(3)), other = lend(squitter_tracker_size(2));
  squitter_tracker tracker = {0, 0};
  squitter_heard heard;
  uint8_t frame[SQUITTER_FRAME_BYTES];
  IS(squitter_tracker_new(&tracker, block.block, 3, 100).code == SQUITTER_OK);
  IS(squitter_tracker_new(&restored, other.block, 2, 100).code == SQUITTER_OK);
  for (int i = 0; i < 4; i++) {
    frame_of(i < 2 ? 1 : (uint32_t)i, i == 1, frame);
    IS(squitter_tracker_hear(&tracker, i < 3 ? (uint64_t)(10 * i + 10) : 30, frame, &heard).code == SQUITTER_OK);
  }
  saved.count = 2;
  IS(squitter_tracker_save(&tracker, &saved.last, saved.entries, 3) == 3 && saved.last.moment == 30);
  IS(is_restored(&saved) && saved.entries[0].airborne.fix.moment == 20);
  try_times();
  try_frames();
  try_fixes();
  try_entries();
  IS(is_guarded(&block) && is_guarded(&other));
  squitter_tracker_free(&tracker), squitter_tracker_free(&restored);
  free(block.all), free(other.all);
}

int main(int argc, char **argv) {
  static const uint32_t limits[] = {1, 2, 3, 4, 5, 8, 9, 10, 17, 18, 30, 35, 60, 100, 140, 250, 500, 501, 999, 1000};
  const size_t many = sizeof limits / sizeof *limits;
  long count = argc == 2 ? atol(argv[1]) : 0;
  if (count < (long)many) {
    fprintf(stderr, "tracker: give a number of addresses\n");
    return 2;
  }
  for (size_t i = 0; i < many; i++) try_churn(limits[i], count / (long)many);
  for (size_t i = 0; i < many; i++) try_too_small(limits[i]);
  try_again();
  try_present();
  try_many();
  try_restoring();
  printf("tracker: %ld addresses, %ld of %ld wrong\n", count, wrong, tried);
  return wrong != 0;
}
