/* Each call once or more, through the shared object, with buffers of their exact size from malloc, so that a run under
 * valgrind sees each byte that is read or written outside them. */
#include "squitter.h"
#include <stdio.h>
#include <stdlib.h>
#include <string.h>

static int failed;
#define CHECK(what) do { if (!(what)) { printf("line %d: %s\n", __LINE__, #what); failed = 1; } } while (0)

static const char even[] = "8D40621D58C382D690C8AC2863A7", odd[] = "*8D40621D58C386435CC412692AD6;";
static const char ground_older[] = "8C4841753AAB238733C8CD4020B1", ground_newer[] = "8C4841753A8A35323FAEBDAC702D";

/* A copy of exactly so many bytes. */
static void *copy(const void *bytes, size_t length) {
  void *at = malloc(length ? length : 1);
  if (!at) exit(2);
  memcpy(at, bytes, length);
  return at;
}

static uint8_t *frame_of(const char *text) {
  size_t length = strlen(text);
  char *exact = copy(text, length);
  uint8_t *out = malloc(14);
  if (!out) exit(2);
  CHECK(squitter_frame_of_text(exact, length, out).code == SQUITTER_OK);
  free(exact);
  return out;
}

static void check_texts(const uint8_t *frame) {
  char *text = malloc(28);
  squitter_fields *fields = malloc(sizeof *fields), before;
  char *short_text = copy("5D40621D000000", 14);
  if (!text || !fields) exit(2);
  squitter_text_of_frame(frame, text);
  CHECK(!memcmp(text, even, 28));
  CHECK(squitter_read_text(text, 28, fields).code == SQUITTER_OK && fields->lat == 93000 && fields->lon == 51372);
  CHECK(squitter_read_frame(frame, fields).code == SQUITTER_OK);
  CHECK(fields->feet == 38000 && fields->kind == SQUITTER_AIR);
  before = *fields;
  CHECK(squitter_read_text(short_text, 14, fields).code == SQUITTER_SHORT && !memcmp(&before, fields, sizeof before));
  CHECK(squitter_read_text(short_text, 0, fields).code == SQUITTER_LENGTH);
  free(text);
  free(fields);
  free(short_text);
}

static void check_zones(const uint8_t *frame, const squitter_position *here, const squitter_position *bad) {
  squitter_zones *zones = malloc(sizeof *zones);
  if (!zones) exit(2);
  CHECK(squitter_local_zones(frame, here, zones).code == SQUITTER_OK);
  CHECK(zones->lat_zone == 8 && zones->lon_zone == 0 && zones->degrees == 360 && zones->lat_zones == 60);
  CHECK(zones->zone_count == 36 && zones->lon_zones == 36 && zones->odd == 0);
  zones->lat_zone = 5;
  CHECK(squitter_local_zones(frame, bad, zones).code == SQUITTER_BAD_POSITION && zones->lat_zone == 5);
  free(zones);
}

static void check_places(const uint8_t *older, const uint8_t *newer) {
  squitter_position near_it = {{52, 1}, {4, 1}}, bad = {{1, 0}, {0, 1}}, site = {{51990, 1000}, {4375, 1000}};
  squitter_position *here = copy(&near_it, sizeof near_it), *out = malloc(sizeof *out);
  uint8_t *a = frame_of(ground_older), *b = frame_of(ground_newer);
  if (!out) exit(2);
  CHECK(squitter_local(newer, here, out).code == SQUITTER_OK && out->lat.num == 428091 && out->lat.den == 8192);
  CHECK(squitter_local(newer, &bad, out).code == SQUITTER_BAD_POSITION && out->lon.num == 64215);
  check_zones(newer, here, &bad);
  CHECK(squitter_pair(older, newer, out).code == SQUITTER_OK && out->lon.num == 64215 && out->lon.den == 16384);
  CHECK(squitter_pair(a, b, out).code == SQUITTER_NO_SITE);
  CHECK(squitter_pair_at(a, b, &site, out).code == SQUITTER_OK && out->lat.num == 202304115 && out->lat.den == 3866624);
  free(here);
  free(out);
  free(a);
  free(b);
}

static void check_sending(const uint8_t *older, const uint8_t *newer) {
  squitter_position place = {{428091, 8192}, {64215, 16384}};
  squitter_air_head head = {0x40621D, 0xC38, 5, 11, 0, 0, 0, 0};
  squitter_ground_head taxi = {0x484175, 4, 9, 0, 0, 0, 0, 0};
  uint8_t *out = malloc(14);
  if (!out) exit(2);
  CHECK(squitter_encode_air(&head, &place, out).code == SQUITTER_OK && !memcmp(out, newer, 14));
  memset(out, 7, 14);
  CHECK(squitter_encode_ground(&taxi, &place, out).code == SQUITTER_BAD_FIELDS && out[0] == 7 && out[13] == 7);
  taxi.type_code = 7;
  CHECK(squitter_encode_ground(&taxi, &place, out).code == SQUITTER_OK);
  CHECK(squitter_send_again(older, 0, &place, out).code == SQUITTER_OK && !memcmp(out, newer, 14));
  CHECK(squitter_send_again(older, 9, &place, out).code == SQUITTER_BAD_PARITY);
  free(out);
}

static void check_parts(void) {
  squitter_angle half = {-1, 2}, read;
  squitter_altitude altitude;
  squitter_fault zones = {SQUITTER_ZONE_COUNTS, 44, 45};
  uint8_t count = 0;
  uint16_t field = 0;
  char *text = malloc(16), *words = malloc(64), *spelled = copy("-0.50", 5);
  if (!text || !words) exit(2);
  CHECK(squitter_zone_count(&half, &count).code == SQUITTER_OK && count == 59);
  CHECK(squitter_text_of_angle(&half, text).code == SQUITTER_OK && !strcmp(text, "-0.5000000"));
  CHECK(squitter_angle_of_text(spelled, 5, &read).code == SQUITTER_OK && read.num == -1 && read.den == 2);
  CHECK(squitter_feet_of_field(11, 0xC38, &altitude).code == SQUITTER_OK && altitude.feet == 38000);
  CHECK(squitter_field_of_feet(38000, &field).code == SQUITTER_OK && field == 0xC38);
  squitter_text_of_fault(&zones, words);
  CHECK(!strcmp(words, "zone counts 45 44"));
  CHECK(squitter_version() == SQUITTER_VERSION);
  free(text);
  free(words);
  free(spelled);
}

static void check_hearing(const uint8_t *older, const uint8_t *newer) {
  size_t size = squitter_tracker_size(3);
  squitter_block block = {size, malloc(size)};
  squitter_tracker *tracker = calloc(1, sizeof *tracker);
  squitter_entry *entry = malloc(sizeof *entry);
  squitter_last *last = malloc(sizeof *last);
  squitter_heard heard;
  squitter_position site = {{52, 1}, {4, 1}};
  if (!block.memory || !tracker || !entry || !last) exit(2);
  CHECK(squitter_tracker_new_at(tracker, block, 3, 10000, &site).code == SQUITTER_OK);
  CHECK(squitter_tracker_hear(tracker, 5, older, &heard).code == SQUITTER_OK && heard.what == SQUITTER_WAITING);
  CHECK(squitter_tracker_hear(tracker, 9, newer, &heard).code == SQUITTER_OK && heard.what == SQUITTER_FIX);
  CHECK(heard.position.lat.num == 428091 && heard.position.lat.den == 8192);
  CHECK(squitter_tracker_hear(tracker, 8, older, &heard).code == SQUITTER_MOMENT_BACK);
  CHECK(squitter_tracker_save(tracker, last, entry, 1) == 1 && last->moment == 9 && entry->address == 0x40621D);
  CHECK(squitter_tracker_restore(tracker, last, entry, 1).code == SQUITTER_OK && squitter_tracker_len(tracker) == 1);
  CHECK(squitter_tracker_restore(tracker, last, entry, 0).code == SQUITTER_OK && squitter_tracker_len(tracker) == 0);
  memset(entry, 0xFF, sizeof *entry);
  CHECK(squitter_tracker_restore(tracker, last, entry, 1).code == SQUITTER_BAD_ENTRY);
  squitter_tracker_free(tracker);
  free(block.memory), free(tracker), free(entry), free(last);
}

/* Each call of arrays, on arrays of their exact size: what single calls answer, and as it was beyond the shortest. */
static void check_arrays(const uint8_t *older, const uint8_t *newer) {
  squitter_position near_it = {{52, 1}, {4, 1}}, site = {{51990, 1000}, {4375, 1000}};
  squitter_position *places = calloc(3, sizeof *places), *near_all = malloc(2 * sizeof *near_all);
  squitter_fields *fields = calloc(3, sizeof *fields);
  squitter_fault *faults = calloc(3, sizeof *faults);
  squitter_degrees_e7 *degrees = calloc(2, sizeof *degrees);
  uint8_t (*first)[14] = calloc(3, 14), (*second)[14] = calloc(3, 14);
  int64_t number = 0;
  if (!places || !near_all || !fields || !faults || !degrees || !first || !second) exit(2);
  near_all[0] = near_all[1] = near_it;
  memcpy(first[1], older, 14);
  memcpy(second[0], older, 14);
  memcpy(second[1], newer, 14);
  const uint8_t (*olds)[14] = (const uint8_t (*)[14])first, (*news)[14] = (const uint8_t (*)[14])second;
  CHECK(squitter_read_many(news, 3, fields, 3, faults, 2) == 2);
  CHECK(!faults[0].code && !faults[1].code && fields[0].odd == 1 && fields[1].lat == 93000 && !fields[2].address);
  CHECK(squitter_read_many(news, 3, fields, 0, faults, 3) == 0);
  CHECK(squitter_local_many(news, 3, near_all, 2, places, 3, faults, 3) == 2);
  CHECK(!faults[1].code && places[1].lat.num == 428091 && !places[2].lat.den);
  memset(places, 0, 3 * sizeof *places);
  CHECK(squitter_pair_many(olds, 3, news, 2, places, 3, faults, 3) == 2);
  CHECK(faults[0].code == SQUITTER_NOT_DF17 && !places[0].lat.den && !faults[1].code && places[1].lon.den == 16384);
  CHECK(squitter_pair_at_many(olds, 2, news, 3, &site, places, 3, faults, 3) == 2);
  CHECK(!faults[1].code && places[1].lat.num == 428091);
  CHECK(squitter_position_e7_many(places, 3, degrees, 2, faults, 3) == 2);
  CHECK(faults[0].code == SQUITTER_BAD_POSITION && degrees[1].lat == 522572021 && degrees[1].lon == 39193726);
  CHECK(squitter_position_e7(&near_it, degrees).code == SQUITTER_OK && degrees[0].lat == 520000000);
  CHECK(squitter_angle_e7(&near_it.lon, &number).code == SQUITTER_OK && number == 40000000);
  free(places), free(near_all), free(fields), free(faults), free(degrees);
  free(first), free(second);
}

int main(void) {
  uint8_t *older = frame_of(odd), *newer = frame_of(even);
  check_texts(newer);
  check_places(older, newer);
  check_sending(older, newer);
  check_parts();
  check_hearing(older, newer);
  check_arrays(older, newer);
  free(older);
  free(newer);
  return failed;
}
