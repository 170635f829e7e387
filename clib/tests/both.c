/* both [ROUNDS]: the library as LLVM builds it beside the library as the toolchain's own compiler does, whose names
 * begin with r_, on random and nearly good inputs: each answer is the same, what is written is, and at a fault nothing
 * is. A text ends at a page that may not be read. */
#define _DEFAULT_SOURCE
#include "squitter.h"
#include <stdio.h>
#include <stdlib.h>
#include <string.h>
#include <sys/mman.h>

squitter_fault r_squitter_frame_of_text(const char *, size_t, uint8_t *);
void r_squitter_text_of_frame(const uint8_t *, char *);
squitter_fault r_squitter_read_text(const char *, size_t, squitter_fields *);
squitter_fault r_squitter_read_frame(const uint8_t *, squitter_fields *);
squitter_fault r_squitter_local(const uint8_t *, const squitter_position *, squitter_position *);
squitter_fault r_squitter_local_zones(const uint8_t *, const squitter_position *, squitter_zones *);
squitter_fault r_squitter_pair(const uint8_t *, const uint8_t *, squitter_position *);
squitter_fault r_squitter_pair_at(const uint8_t *, const uint8_t *, const squitter_position *, squitter_position *);
size_t r_squitter_tracker_size(uint32_t);
squitter_fault r_squitter_tracker_new_at(squitter_tracker *, squitter_block, uint32_t, uint64_t,
                                         const squitter_position *);
squitter_fault r_squitter_tracker_hear(squitter_tracker *, uint64_t, const uint8_t *, squitter_heard *);
size_t r_squitter_tracker_hear_many(squitter_tracker *, const uint64_t *, size_t, const uint8_t (*)[14], size_t,
                                    squitter_heard *, size_t, squitter_fault *, size_t);
size_t r_squitter_tracker_save(squitter_tracker *, squitter_last *, squitter_entry *, size_t);
squitter_fault r_squitter_tracker_restore(squitter_tracker *, const squitter_last *, const squitter_entry *, size_t);
size_t r_squitter_read_many(const uint8_t (*)[14], size_t, squitter_fields *, size_t, squitter_fault *, size_t);
size_t r_squitter_local_many(const uint8_t (*)[14], size_t, const squitter_position *, size_t, squitter_position *,
                             size_t, squitter_fault *, size_t);
size_t r_squitter_pair_many(const uint8_t (*)[14], size_t, const uint8_t (*)[14], size_t, squitter_position *, size_t,
                            squitter_fault *, size_t);
size_t r_squitter_pair_at_many(const uint8_t (*)[14], size_t, const uint8_t (*)[14], size_t, const squitter_position *,
                               squitter_position *, size_t, squitter_fault *, size_t);
size_t r_squitter_position_e7_many(const squitter_position *, size_t, squitter_degrees_e7 *, size_t, squitter_fault *,
                                   size_t);
squitter_fault r_squitter_angle_e7(const squitter_angle *, int64_t *);
squitter_fault r_squitter_position_e7(const squitter_position *, squitter_degrees_e7 *);
squitter_fault r_squitter_encode_air(const squitter_air_head *, const squitter_position *, uint8_t *);
squitter_fault r_squitter_encode_ground(const squitter_ground_head *, const squitter_position *, uint8_t *);
squitter_fault r_squitter_send_again(const uint8_t *, uint8_t, const squitter_position *, uint8_t *);
squitter_fault r_squitter_zone_count(const squitter_angle *, uint8_t *);
squitter_fault r_squitter_text_of_angle(const squitter_angle *, char *);
squitter_fault r_squitter_angle_of_text(const char *, size_t, squitter_angle *);
squitter_fault r_squitter_feet_of_field(uint8_t, uint16_t, squitter_altitude *);
squitter_fault r_squitter_field_of_feet(int32_t, uint16_t *);
void r_squitter_text_of_fault(const squitter_fault *, char *);
uint32_t r_squitter_version(void);

static uint64_t state = 88172645463325252ull;
static uint64_t next(void) {
  state ^= state << 13;
  state ^= state >> 7;
  return state ^= state << 17;
}
static uint64_t below(uint64_t n) { return next() % n; }

static const squitter_fault none;
static long codes[64], differences;
static uint8_t pool[64][14];
static char *page_end;

/* Calls one build and the other, each with room of its own that is filled with 7s. The arguments are looked at
 * twice. */
#define BOTH(call, out, ...) BOTH_IN(call, out, sizeof out[0], __VA_ARGS__)
#define BOTH_IN(call, out, size, ...) do { \
    memset(&out[0], 7, sizeof out[0]); memset(&out[1], 7, sizeof out[1]); \
    fault = squitter_##call(__VA_ARGS__, (void *)&out[0]); \
    squitter_fault other = r_squitter_##call(__VA_ARGS__, (void *)&out[1]); \
    same(#call, fault, other, &out[0], &out[1], size); \
  } while (0)
/* The bytes up to the end of a last field: those after it mean nothing. */
#define UP_TO(type, last) (offsetof(type, last) + 1)

/* Both answers are one, both wrote the same, and at a fault what stood there before: 7s. */
static void same(const char *call, squitter_fault f, squitter_fault g, const void *a, const void *b, size_t size) {
  int differ = f.code != g.code || f.first != g.first || f.second != g.second || memcmp(a, b, size);
  codes[f.code & 63]++;
  for (size_t i = 0; f.code && i < size; i++) differ |= ((const uint8_t *)a)[i] != 7;
  if (differ && differences++ < 5) printf("%s differs: codes %u and %u\n", call, (unsigned)f.code, (unsigned)g.code);
}

/* An angle: any numbers, a border, or one within the limit. */
static squitter_angle angle(int limit) {
  squitter_angle a;
  switch (below(6)) {
  case 0: a.den = next(); a.num = (int64_t)next(); break;
  case 1: a.den = below(3); a.num = (int64_t)below(400) - 200; break;
  case 2: a.den = 1; a.num = (below(2) ? 1 : -1) * (limit + (int64_t)below(3) - 1); break;
  default:
    a.den = 1 + below(1000000000000ull);
    a.num = (int64_t)below(2 * (uint64_t)limit * a.den + 1) - (int64_t)((uint64_t)limit * a.den);
  }
  return a;
}
static squitter_position position(void) {
  squitter_position p;
  p.lat = angle(90);
  p.lon = angle(180);
  return p;
}

static void send(const squitter_position *p, const squitter_position *q) {
  squitter_air_head h = {below(8) ? below(1 << 24) : next(), below(8) ? below(4096) : next(), below(9), 9 + below(15),
                         below(5), below(9) / 4, below(9) / 4, below(9) / 4};
  squitter_ground_head g = {below(8) ? below(1 << 24) : next(), below(9), 4 + below(6), below(130), below(9) / 4,
                            below(130), below(9) / 4, below(9) / 4};
  uint8_t out[2][14], *frame = pool[below(64)], parity = below(9) / 4;
  squitter_fault fault;
  if (below(2)) h.address = g.address = 0x484175;
  BOTH(encode_air, out, &h, p);
  if (!fault.code) memcpy(pool[below(32)], out[0], 14);
  BOTH(encode_ground, out, &g, q);
  if (!fault.code) memcpy(pool[32 + below(32)], out[0], 14);
  BOTH(send_again, out, frame, parity, p);
  if (!fault.code && below(2)) memcpy(pool[below(64)], out[0], 14);
  if (!below(16)) for (int k = 0; k < 14; k++) pool[below(64)][k] = next();
}

static void decode(const squitter_position *site) {
  const uint8_t *one = pool[below(64)], *two = pool[below(64)];
  squitter_fields fields[2];
  squitter_position place[2];
  squitter_zones zones[2];
  squitter_degrees_e7 degrees[2];
  squitter_fault fault;
  char text[2][28];
  BOTH_IN(read_frame, fields, UP_TO(squitter_fields, track), one);
  BOTH(local, place, one, site);
  BOTH(local_zones, zones, one, site);
  BOTH(position_e7, degrees, site);
  BOTH(pair, place, one, two);
  BOTH(pair_at, place, one, two, site);
  squitter_text_of_frame(one, text[0]);
  r_squitter_text_of_frame(one, text[1]);
  same("text_of_frame", none, none, text[0], text[1], 28);
}

/* A text of a frame, nearly one, or of an angle, that ends at the page. */
static void read_texts(void) {
  size_t length = below(4) ? 28 + 2 * below(2) : below(40);
  char *text = page_end - length;
  squitter_fields fields[2];
  squitter_angle read[2];
  uint8_t frame[2][14];
  squitter_fault fault;
  for (size_t k = 0; k < length; k++) text[k] = "0123456789ABCDEFabcdef"[below(22)];
  if (length == 30) { text[0] = '*'; text[29] = ';'; }
  if (length >= 28 && below(8)) for (int k = 0; k < 14; k++) {
    char digits[3];
    snprintf(digits, sizeof digits, "%02X", (unsigned)pool[below(2) * 32][k]);
    memcpy(text + (length == 30) + 2 * k, digits, 2);
  }
  if (length && !below(4)) text[below(length)] = next();
  BOTH(frame_of_text, frame, text, length);
  BOTH_IN(read_text, fields, UP_TO(squitter_fields, track), text, length);
  length = below(20);
  text = page_end - length;
  for (size_t k = 0; k < length; k++) text[k] = "0123456789"[below(10)];
  if (length > 1 && below(2)) text[0] = '-';
  if (length > 4) text[1 + below(3)] = '.';
  if (length && !below(8)) text[below(length)] = next();
  BOTH(angle_of_text, read, text, length);
}

static void parts(void) {
  squitter_angle lat = angle(90);
  squitter_altitude altitude[2];
  squitter_fault fault, told = {below(4) ? below(50) : next(), next() >> below(64), next() >> below(64)};
  uint8_t count[2], code = below(40);
  int64_t e7[2];
  uint16_t field[2], raw = below(4200);
  int32_t feet = below(8) ? (int32_t)below(60000) / 25 * 25 - 2000 : (int32_t)next();
  char text[2][16], words[2][64];
  BOTH(zone_count, count, &lat);
  BOTH(angle_e7, e7, &lat);
  BOTH(text_of_angle, text, &lat);
  BOTH_IN(feet_of_field, altitude, UP_TO(squitter_altitude, form), code, raw);
  BOTH(field_of_feet, field, feet);
  squitter_text_of_fault(&told, words[0]);
  r_squitter_text_of_fault(&told, words[1]);
  same("text_of_fault", none, none, words[0], words[1], 64);
}

static int are_one_side(const squitter_side *a, const squitter_side *b) {
  return a->even.moment == b->even.moment && a->odd.moment == b->odd.moment && !memcmp(a->even.frame, b->even.frame, 14)
    && !memcmp(a->odd.frame, b->odd.frame, 14) && !memcmp(&a->fix, &b->fix, sizeof a->fix);
}
static int are_one(const squitter_entry *a, const squitter_entry *b) {
  return a->moment == b->moment && a->address == b->address && are_one_side(&a->airborne, &b->airborne)
    && are_one_side(&a->surface, &b->surface);
}

enum { LIMIT = 8 };
static squitter_tracker trackers[2];
static squitter_entry entries[2][LIMIT];
static squitter_last last[2];

/* A tracker of each build, both with the same site. */
static void make_trackers(const squitter_position *site) {
  static squitter_block blocks[2];
  size_t size = squitter_tracker_size(LIMIT);
  for (int i = 0; i < 2 && !blocks[i].memory; i++) {
    blocks[i].size = size;
    if (!(blocks[i].memory = malloc(size))) exit(2);
  }
  same("tracker_new_at", squitter_tracker_new_at(&trackers[0], blocks[0], LIMIT, 1000, site),
       r_squitter_tracker_new_at(&trackers[1], blocks[1], LIMIT, 1000, site), "", "", 0);
}

/* Both trackers save the same state, and restore it alike, as they do any other bytes in its place. */
static void save(void) {
  memset(entries, 7, sizeof entries);
  size_t n = squitter_tracker_save(&trackers[0], &last[0], entries[0], LIMIT);
  size_t m = r_squitter_tracker_save(&trackers[1], &last[1], entries[1], LIMIT);
  int differ = n != m || n > LIMIT || memcmp(&last[0], &last[1], sizeof last[0]);
  for (size_t k = 0; k < n && !differ; k++) differ = !are_one(&entries[0][k], &entries[1][k]);
  if (differ && differences++ < 5) printf("tracker_save differs\n");
  if (n && below(2)) ((uint8_t *)entries[0])[below(n * sizeof entries[0][0])] ^= (uint8_t)next();
  squitter_fault f = squitter_tracker_restore(&trackers[0], &last[0], entries[0], n);
  squitter_fault g = r_squitter_tracker_restore(&trackers[1], &last[0], entries[0], n);
  same("tracker_restore", f, g, "", "", 0);
}

/* Adds a frame to both trackers. */
static void hear(const squitter_position *site) {
  static uint64_t moment;
  squitter_heard heard[2];
  const uint8_t *frame = pool[below(64)];
  if (!trackers[0].full || !below(4096)) make_trackers(site);
  if (!trackers[0].full) return;
  memset(heard, 7, sizeof heard);
  moment += below(40);
  uint64_t at = below(16) ? moment : moment - below(100);
  squitter_fault f = squitter_tracker_hear(&trackers[0], at, frame, &heard[0]);
  squitter_fault g = r_squitter_tracker_hear(&trackers[1], at, frame, &heard[1]);
  same("tracker_hear", f, g, &heard[0], &heard[1], UP_TO(squitter_heard, odd));
  if (!below(64)) save();
}

/* Calls one build and the other with arrays of which each may be the shortest: what they return, each element of `out`
 * up to the end of its last field, and each fault. */
#define MANY(call, out, size, ...) do { \
    memset(out, 7, sizeof out); memset(faults, 7, sizeof faults); \
    size_t n = squitter_##call(__VA_ARGS__, out[0], below(ROOM + 1), faults[0], ROOM); \
    size_t m = r_squitter_##call(__VA_ARGS__, out[1], n, faults[1], ROOM); \
    if (n != m && differences++ < 5) printf("%s differs: %zu and %zu\n", #call, n, m); \
    for (size_t k = 0; k < ROOM; k++) \
      if ((memcmp(&out[0][k], &out[1][k], size) || memcmp(&faults[0][k], &faults[1][k], sizeof faults[0][k])) \
          && differences++ < 5) \
        printf("%s differs at %zu\n", #call, k); \
  } while (0)

static void arrays(const squitter_position *p, const squitter_position *q, const squitter_position *site) {
  enum { ROOM = 4 };
  squitter_position near_all[ROOM] = {*p, *q, *site, *p}, places[2][ROOM];
  uint64_t start = next() >> below(64), moments[ROOM] = {start, start + below(9), start + 5 + below(9), start + 9};
  const uint8_t (*older)[14] = (const uint8_t (*)[14])(pool + below(60));
  const uint8_t (*newer)[14] = (const uint8_t (*)[14])(pool + below(60));
  squitter_fields fields[2][ROOM];
  squitter_fault faults[2][ROOM];
  squitter_heard heard[2][ROOM];
  squitter_degrees_e7 degrees[2][ROOM];
  MANY(read_many, fields, UP_TO(squitter_fields, track), older, ROOM);
  MANY(local_many, places, sizeof places[0][0], older, ROOM, near_all, ROOM);
  MANY(pair_many, places, sizeof places[0][0], older, ROOM, newer, ROOM);
  MANY(pair_at_many, places, sizeof places[0][0], older, ROOM, newer, ROOM, site);
  MANY(position_e7_many, degrees, sizeof degrees[0][0], near_all, ROOM);
  if (!trackers[0].full) return;
  memset(heard, 7, sizeof heard);
  memset(faults, 7, sizeof faults);
  size_t n = squitter_tracker_hear_many(&trackers[0], moments, ROOM, older, ROOM, heard[0], ROOM, faults[0], ROOM);
  size_t m = r_squitter_tracker_hear_many(&trackers[1], moments, ROOM, older, ROOM, heard[1], ROOM, faults[1], ROOM);
  int differ = n != m || memcmp(faults[0], faults[1], sizeof faults[0]);
  for (int k = 0; k < ROOM; k++) differ |= memcmp(&heard[0][k], &heard[1][k], UP_TO(squitter_heard, odd));
  if (differ && differences++ < 5) printf("tracker_hear_many differs\n");
}

int main(int argc, char **argv) {
  long rounds = argc > 1 ? atol(argv[1]) : 2000000;
  char *pages = mmap(0, 3 * 4096, PROT_READ | PROT_WRITE, MAP_PRIVATE | MAP_ANONYMOUS, -1, 0);
  if (pages == MAP_FAILED || mprotect(pages, 4096, PROT_NONE) || mprotect(pages + 8192, 4096, PROT_NONE)) return 2;
  page_end = pages + 8192;
  pool[0][0] = 0x8D;
  for (long round = 0; round < rounds; round++) {
    squitter_position p = position(), q = below(3) ? p : position(), site = below(3) ? p : position();
    send(&p, &q);
    decode(&site);
    read_texts();
    parts();
    hear(&site);
    if (!(round & 7)) arrays(&p, &q, &site);
  }
  if (squitter_version() != r_squitter_version()) differences++;
  printf("both: %ld rounds;", rounds);
  for (int k = 0; k < 64; k++) if (codes[k]) printf(" %d:%ld", k, codes[k]);
  printf("; %ld differ\n", differences);
  return differences != 0;
}
