/* calls_dump1090: the same measure of dump1090's own functions on codes (cpr.c of its source), which answer in doubles.
 * They take the codes of frames that were read before, and look at no parity, address or kind: `squitter_pair` does all
 * of that. */
#define _POSIX_C_SOURCE 199309L
#include "cpr.h"
#include "squitter.h"
#include <stdio.h>
#include <stdlib.h>
#include <time.h>

enum { PLACES = 1024, CALLS = 200000, RUNS = 5 };
static squitter_fields fields[2 * PLACES];
static double lats[PLACES], lons[PLACES], sink;

static double now(void) {
  struct timespec t;
  clock_gettime(CLOCK_MONOTONIC, &t);
  return t.tv_sec * 1e9 + t.tv_nsec;
}

static void make(void) {
  uint64_t state = 88172645463325252ull;
  for (int i = 0; i < PLACES; i++) {
    squitter_position place;
    for (int k = 0; k < 2; k++) {
      squitter_angle *angle = k ? &place.lon : &place.lat;
      state ^= state << 13;
      state ^= state >> 7;
      state ^= state << 17;
      angle->den = 10000000;
      angle->num = (int64_t)(state % (k ? 3600000000u : 1600000000u)) - (k ? 1800000000 : 800000000);
    }
    lats[i] = place.lat.num / 1e7;
    lons[i] = place.lon.num / 1e7;
    for (int odd = 0; odd < 2; odd++) {
      squitter_air_head head = {0x400000 + (uint32_t)i, 0xC38, 5, 11, 0, 0, 0, (uint8_t)odd};
      uint8_t frame[14];
      if (squitter_encode_air(&head, &place, frame).code) exit(2);
      if (squitter_read_frame(frame, &fields[2 * i + odd]).code) exit(2);
    }
  }
}

#define RATE(name, ...) do { \
    double best = 0; \
    for (int run = 0; run < RUNS; run++) { \
      double start = now(); \
      for (long n = 0; n < CALLS; n++) { const squitter_fields *f = &fields[2 * (n % PLACES)]; __VA_ARGS__; } \
      double took = (now() - start) / CALLS; \
      if (!run || took < best) best = took; \
    } \
    printf("%-18s %9.1f ns %12.0f a second\n", name, best, 1e9 / best); \
  } while (0)

int main(void) {
  double lat, lon;
  make();
  RATE("decodeCPRrelative",
    sink += decodeCPRrelative(lats[n % PLACES], lons[n % PLACES], f->lat, f->lon, 0, 0, &lat, &lon) + lat);
  RATE("decodeCPRairborne", sink += decodeCPRairborne(f->lat, f->lon, f[1].lat, f[1].lon, 1, &lat, &lon) + lat);
  return sink == 42;
}
