/* calls: nanoseconds and calls a second of each call of libsquitter, on frames of many aircraft: the fastest of five
   runs. calls NAME COUNT: makes one of them so many times and prints nothing, for bench/instructions, which counts what
   it takes. */
#define _POSIX_C_SOURCE 199309L
#include "squitter.h"
#include <stdio.h>
#include <stdlib.h>
#include <string.h>
#include <time.h>

enum { PLACES = 1024, CALLS = 200000, RUNS = 5, BLOCK = 100, BLOCKS = 2 * PLACES / BLOCK, WINDOW = 10000, LEFT = 100 };
static uint8_t frames[2 * PLACES][14], ground[2 * PLACES][14];
static uint8_t elsewhere[PLACES][14]; /* the odd frame of the next place, by the address of this one */
static uint8_t strangers[CALLS][14]; /* each of an address of its own */
static squitter_tracker tracker;
static char texts[2 * PLACES][28];
static squitter_position places[PLACES];
static uint64_t sink;
static const char *wanted; /* the one call that is made, or NULL: each is timed */
static long count_wanted;

static double now(void) {
  struct timespec t;
  clock_gettime(CLOCK_MONOTONIC, &t);
  return t.tv_sec * 1e9 + t.tv_nsec;
}

static void make(void) {
  uint64_t state = 88172645463325252ull;
  for (int i = 0; i < PLACES; i++) {
    squitter_air_head head = {0x400000 + (uint32_t)i, 0xC38, 5, 11, 0, 0, 0, 0};
    uint64_t bits[2];
    for (int k = 0; k < 2; k++) {
      state ^= state << 13;
      state ^= state >> 7;
      bits[k] = state ^= state << 17;
    }
    places[i].lat.num = (int64_t)(bits[0] % 1600000000) - 800000000;
    places[i].lon.num = (int64_t)(bits[1] % 3600000000) - 1800000000;
    places[i].lat.den = places[i].lon.den = 10000000;
    for (int odd = 0; odd < 2; odd++) {
      head.odd = odd;
      if (squitter_encode_air(&head, &places[i], frames[2 * i + odd]).code) exit(2);
      squitter_text_of_frame(frames[2 * i + odd], texts[2 * i + odd]);
      squitter_ground_head slow = {head.address, 5, 7, 20, 1, 33, 0, (uint8_t)odd};
      if (squitter_encode_ground(&slow, &places[i], ground[2 * i + odd]).code) exit(2);
    }
  }
}

static void make_elsewhere(void) {
  for (int i = 0; i < PLACES; i++) {
    squitter_air_head head = {0x400000 + (uint32_t)i, 0xC38, 5, 11, 0, 0, 0, 1};
    if (squitter_encode_air(&head, &places[(i + 1) % PLACES], elsewhere[i]).code) exit(2);
  }
}

static void make_strangers(void) {
  for (int n = 0; n < CALLS; n++) {
    squitter_air_head head = {(uint32_t)n, 0xC38, 5, 11, 0, 0, 0, 0};
    if (squitter_encode_air(&head, &places[n % PLACES], strangers[n]).code) exit(2);
  }
}

/* An empty tracker in the place of the one that was there. */
static void begin(uint32_t limit) {
  squitter_block block = {squitter_tracker_size(limit), NULL};
  block.memory = malloc(block.size);
  if (!block.memory || squitter_tracker_new(&tracker, block, limit, WINDOW).code) exit(2);
}

#define CALLS_OF(count, ...) for (long n = 0; n < (count); n++) { int i = n % PLACES; (void)i; __VA_ARGS__; }

#define RATE(name, ...) do { \
    double best = 0; \
    if (wanted && !strcmp(wanted, name)) CALLS_OF(count_wanted, __VA_ARGS__) \
    if (wanted) break; \
    for (int run = 0; run < RUNS; run++) { \
      double start = now(); \
      CALLS_OF(CALLS, __VA_ARGS__) \
      double took = (now() - start) / CALLS; \
      if (!run || took < best) best = took; \
    } \
    printf("%-18s %9.1f ns %12.0f a second\n", name, best, 1e9 / best); \
  } while (0)

int main(int argc, char **argv) {
  squitter_fields fields;
  squitter_position place;
  squitter_heard heard;
  uint8_t frame[14], count;
  char text[28];
  uint64_t moment = 0;
  static const uint64_t moments[BLOCK];
  static squitter_heard answers[BLOCK];
  static squitter_fault faults[BLOCK];
  if (argc == 3) {
    wanted = argv[1];
    count_wanted = atol(argv[2]);
  }
  make();
  make_elsewhere();
  if (!wanted || strstr(wanted, "_address")) make_strangers();
  RATE("frame_of_text", sink += squitter_frame_of_text(texts[i], 28, frame).code + frame[9]);
  RATE("text_of_frame", (squitter_text_of_frame(frames[i], text), sink += text[9]));
  RATE("read_text", sink += squitter_read_text(texts[i], 28, &fields).code + fields.lat);
  RATE("read_frame", sink += squitter_read_frame(frames[i], &fields).code + fields.lat);
  RATE("local", sink += squitter_local(frames[2 * i], &places[i], &place).code + place.lat.den);
  RATE("pair", sink += squitter_pair(frames[2 * i], frames[2 * i + 1], &place).code + place.lat.den);
  RATE("pair_elsewhere", sink += squitter_pair(frames[2 * i], elsewhere[i], &place).code + place.lat.den);
  RATE("pair_ground",
    sink += squitter_pair_at(ground[2 * i], ground[2 * i + 1], &places[i], &place).code + place.lat.den);
  RATE("new_address",
    if (!n) begin(CALLS);
    sink += squitter_tracker_hear(&tracker, 0, strangers[n], &heard).code + heard.what;
  );
  begin(CALLS);
  moment = 0;
  RATE("leaving_address", /* the one of LEFT calls before leaves */
    sink += squitter_tracker_hear(&tracker, moment += WINDOW / LEFT, strangers[n], &heard).code + heard.what;
  );
  begin(CALLS);
  RATE("hear_many", /* a frame of a block */
    if (n % BLOCK == 0)
      sink += squitter_tracker_hear_many(&tracker, moments, BLOCK, &((const uint8_t (*)[14])frames)[n / BLOCK % BLOCKS * BLOCK],
                                         BLOCK, answers, BLOCK, faults, BLOCK) + answers[0].what;
  );
  squitter_tracker_free(&tracker);
  RATE("encode_air",
    squitter_air_head head = {(uint32_t)i, 0xC38, 5, 11, 0, 0, 0, (uint8_t)(i % 2)};
    sink += squitter_encode_air(&head, &places[i], frame).code + frame[9];
  );
  RATE("send_again", sink += squitter_send_again(frames[2 * i], 1, &places[i], frame).code + frame[9]);
  RATE("zone_count", sink += squitter_zone_count(&places[i].lat, &count).code + count);
  RATE("text_of_angle", sink += squitter_text_of_angle(&places[i].lat, text).code + text[3]);
  return sink == 42;
}
