/* Tests each call once on a worked example, and once on invalid input, which must leave *out unchanged. */
#include "squitter.h"
#include <stddef.h>
#include <stdio.h>
#include <string.h>

static int tried, wrong;
#define IS(what) (tried++, (what) ? (void)0 : (wrong++, (void)printf("line %d: %s\n", __LINE__, #what)))

typedef uint8_t frame_bytes[SQUITTER_FRAME_BYTES];

static const char even_text[] = "8D40621D58C382D690C8AC2863A7", ground_south_text[] = "8C4280A23800038C883EB75816F9";
static const frame_bytes even = {0x8D, 0x40, 0x62, 0x1D, 0x58, 0xC3, 0x82, 0xD6, 0x90, 0xC8, 0xAC, 0x28, 0x63, 0xA7};
static const frame_bytes odd = {0x8D, 0x40, 0x62, 0x1D, 0x58, 0xC3, 0x86, 0x43, 0x5C, 0xC4, 0x12, 0x69, 0x2A, 0xD6};
static const frame_bytes ground_older = {0x8C, 0x48, 0x41, 0x75, 0x3A, 0xAB, 0x23,
                                         0x87, 0x33, 0xC8, 0xCD, 0x40, 0x20, 0xB1};
static const frame_bytes ground_newer = {0x8C, 0x48, 0x41, 0x75, 0x3A, 0x8A, 0x35,
                                         0x32, 0x3F, 0xAE, 0xBD, 0xAC, 0x70, 0x2D};
static const frame_bytes no_squitter;

/* Of the even frame: 428091/8192 is 6 * (8 + 93000/131072), and 64215/16384 is 10 * 51372/131072. */
static const squitter_position place = {{428091, 8192}, {64215, 16384}};
static const squitter_position ground_place = {{202304115, 3866624}, {2172069, 458752}};
static const squitter_position site = {{51990, 1000}, {4375, 1000}}, nowhere = {{7, 0}, {7, 0}};

static int is_fault(squitter_fault fault, uint32_t code, uint64_t first) {
  return fault.code == code && fault.first == first && fault.second == 0;
}
static int is_ok(squitter_fault fault) { return is_fault(fault, SQUITTER_OK, 0); }
static int same_angle(squitter_angle one, squitter_angle other) { return one.num == other.num && one.den == other.den; }
static int same_place(const squitter_position *one, const squitter_position *other) {
  return same_angle(one->lat, other->lat) && same_angle(one->lon, other->lon);
}

/* Outputs are filled before a call; after a fault each byte must be unchanged. Neighbours differ, so that bytes which
 * change places show too. */
static uint8_t untouched(const uint8_t *at) { return (uint8_t)(9 + (uintptr_t)at % 16); }
static void filled(void *at, size_t size) {
  uint8_t *bytes = at;
  for (size_t i = 0; i < size; i++) bytes[i] = untouched(bytes + i);
}
static int is_filled(const void *at, size_t size) {
  const uint8_t *bytes = at;
  for (size_t i = 0; i < size; i++)
    if (bytes[i] != untouched(bytes + i)) return 0;
  return 1;
}

static void try_frame_texts(void) {
  frame_bytes frame;
  char text[SQUITTER_FRAME_DIGITS];
  filled(frame, sizeof frame);
  IS(is_fault(squitter_frame_of_text("8D40621D58C382D690C8AC2863AG", 28, frame), SQUITTER_DIGIT, 28));
  IS(is_fault(squitter_frame_of_text("*", 1, frame), SQUITTER_WRAP, 0));
  IS(is_fault(squitter_frame_of_text("5D40621D000000", 14, frame), SQUITTER_SHORT, 0));
  IS(is_fault(squitter_frame_of_text("", 0, frame), SQUITTER_LENGTH, 0));
  IS(is_filled(frame, sizeof frame));
  IS(is_ok(squitter_frame_of_text("*8d40621d58c382d690c8ac2863a7;", 30, frame)));
  IS(memcmp(frame, even, sizeof even) == 0);
  squitter_text_of_frame(even, text);
  IS(memcmp(text, even_text, sizeof text) == 0);
}

static int is_of_even(const squitter_fields *read) {
  return read->raw == 0 && read->address == 0x40621D && read->lat == 93000 && read->lon == 51372 &&
         read->feet == 38000 && read->altitude == 0xC38 && read->altitude_form == SQUITTER_FEET &&
         read->kind == SQUITTER_AIR && read->ca == 5 && read->type_code == 11 && read->odd == 0 && read->time == 0 &&
         read->status == 0 && read->flag == 0 && read->movement == 0 && read->track_status == 0 && read->track == 0;
}

static void try_reading(void) {
  squitter_fields fields;
  filled(&fields, sizeof fields);
  IS(is_fault(squitter_read_text("8D40621D58C382D690C8AC2863A6", 28, &fields), SQUITTER_PARITY, 1));
  IS(is_fault(squitter_read_frame(no_squitter, &fields), SQUITTER_NOT_DF17, 0));
  IS(is_filled(&fields, sizeof fields));
  IS(is_ok(squitter_read_text(even_text, 28, &fields)) && is_of_even(&fields));
  filled(&fields, sizeof fields);
  IS(is_ok(squitter_read_frame(even, &fields)) && is_of_even(&fields));
}

static void try_near_a_reference(void) {
  squitter_position out, reference = {{52258, 1000}, {3918, 1000}}, beyond_the_pole = {{91, 1}, {0, 1}};
  filled(&out, sizeof out);
  IS(is_fault(squitter_local(even, &beyond_the_pole, &out), SQUITTER_BAD_POSITION, 0) && is_filled(&out, sizeof out));
  IS(is_ok(squitter_local(even, &reference, &out)) && same_place(&out, &place));
}

static int are_zones(const squitter_zones *zones, int32_t lat_zone, uint32_t lon_zone, uint32_t degrees) {
  return zones->lat_zone == lat_zone && zones->lon_zone == lon_zone && zones->degrees == degrees;
}
static int are_counts(const squitter_zones *zones, uint8_t lat_zones, uint8_t zone_count, uint8_t lon_zones,
                      uint8_t is_odd) {
  return zones->lat_zones == lat_zones && zones->zone_count == zone_count && zones->lon_zones == lon_zones &&
         zones->odd == is_odd;
}

/* In the south west, on the ground: 90 / 60 (-15 + 116292 / 2^17) degrees, and 90 / 55 (132 + 16055 / 2^17) - 360. */
static void try_zones(void) {
  squitter_zones out;
  squitter_position reference = {{52, 1}, {4, 1}}, south_west = {{-21, 1}, {-144, 1}};
  frame_bytes ground_south;
  filled(&out, sizeof out);
  IS(is_fault(squitter_local_zones(even, &nowhere, &out), SQUITTER_BAD_POSITION, 0) && is_filled(&out, sizeof out));
  IS(is_ok(squitter_local_zones(even, &reference, &out)) && are_zones(&out, 8, 0, 360) &&
     are_counts(&out, 60, 36, 36, 0));
  IS(is_ok(squitter_local_zones(odd, &reference, &out)) && are_zones(&out, 8, 0, 360) &&
     are_counts(&out, 59, 36, 35, 1));
  IS(is_ok(squitter_frame_of_text(ground_south_text, 28, ground_south)));
  IS(is_ok(squitter_local_zones(ground_south, &south_west, &out)));
  IS(are_zones(&out, -15, 132, 90) && are_counts(&out, 60, 55, 55, 0));
}

static void try_pairs(void) {
  squitter_position out;
  filled(&out, sizeof out);
  IS(is_fault(squitter_pair(even, even, &out), SQUITTER_SAME_PARITY, 0));
  IS(is_fault(squitter_pair(ground_older, ground_newer, &out), SQUITTER_NO_SITE, 0));
  IS(is_fault(squitter_pair_at(ground_older, ground_newer, &nowhere, &out), SQUITTER_BAD_POSITION, 0));
  IS(is_filled(&out, sizeof out));
  IS(is_ok(squitter_pair(odd, even, &out)) && same_place(&out, &place));
  IS(is_ok(squitter_pair_at(ground_older, ground_newer, &site, &out)) && same_place(&out, &ground_place));
}

static void try_sending(void) {
  squitter_air_head air = {0x40621D, 0xC38, 5, 11, 0, 0, 0, 0}, bad_air = air;
  squitter_fields fields;
  frame_bytes frame;
  filled(frame, sizeof frame);
  bad_air.status = 4;
  IS(is_fault(squitter_encode_air(&bad_air, &place, frame), SQUITTER_BAD_FIELDS, 0));
  IS(is_fault(squitter_encode_air(&air, &nowhere, frame), SQUITTER_BAD_POSITION, 0));
  IS(is_fault(squitter_send_again(even, 2, &place, frame), SQUITTER_BAD_PARITY, 0));
  IS(is_fault(squitter_send_again(even, 1, &nowhere, frame), SQUITTER_BAD_POSITION, 0));
  IS(is_fault(squitter_send_again(no_squitter, 1, &place, frame), SQUITTER_NOT_DF17, 0));
  IS(is_filled(frame, sizeof frame));
  IS(is_ok(squitter_encode_air(&air, &place, frame)) && memcmp(frame, even, sizeof even) == 0);
  filled(frame, sizeof frame);
  IS(is_ok(squitter_send_again(odd, 0, &place, frame)) && memcmp(frame, even, sizeof even) == 0);
  IS(is_ok(squitter_read_frame(ground_newer, &fields)));
  squitter_ground_head ground = {0x484175, 4, 7, fields.movement, fields.track_status, fields.track, fields.time, 2};
  IS(is_fault(squitter_encode_ground(&ground, &ground_place, frame), SQUITTER_BAD_FIELDS, 0));
  IS(memcmp(frame, even, sizeof even) == 0);
  ground.odd = fields.odd;
  IS(is_ok(squitter_encode_ground(&ground, &ground_place, frame)) && memcmp(frame, ground_newer, sizeof frame) == 0);
}

static void try_angles(void) {
  squitter_angle lat = {-523, 10}, beyond_the_pole = {91, 1}, eighth = {-1, 8}, none = {7, 0};
  squitter_angle read = {7, 7}, half = {-1, 2};
  char text[SQUITTER_ANGLE_TEXT_BYTES];
  uint8_t count = 99;
  filled(text, sizeof text);
  IS(is_fault(squitter_zone_count(&beyond_the_pole, &count), SQUITTER_BAD_LATITUDE, 0) && count == 99);
  IS(is_ok(squitter_zone_count(&lat, &count)) && count == 36);
  IS(is_fault(squitter_text_of_angle(&none, text), SQUITTER_BAD_ANGLE, 0) && is_filled(text, sizeof text));
  IS(is_ok(squitter_text_of_angle(&eighth, text)) && memcmp(text, "-0.1250000\0\0\0\0\0", sizeof text) == 0);
  IS(is_fault(squitter_angle_of_text("1\xFF", 2, &read), SQUITTER_NOT_A_NUMBER, 0));
  IS(is_fault(squitter_angle_of_text("1.0000000000000", 15, &read), SQUITTER_TOO_MANY_DECIMALS, 0));
  IS(is_fault(squitter_angle_of_text("361", 3, &read), SQUITTER_ANGLE_RANGE, 0) && read.num == 7 && read.den == 7);
  IS(is_ok(squitter_angle_of_text("-0.50", 5, &read)) && same_angle(read, half));
}

static void try_altitudes(void) {
  squitter_altitude altitude = {9, 9};
  uint16_t field = 7;
  IS(is_fault(squitter_feet_of_field(19, 0xC38, &altitude), SQUITTER_BAD_FIELDS, 0) && altitude.feet == 9 &&
     altitude.form == 9);
  IS(is_ok(squitter_feet_of_field(11, 0xC38, &altitude)) && altitude.feet == 38000 && altitude.form == SQUITTER_FEET);
  IS(is_fault(squitter_field_of_feet(38001, &field), SQUITTER_BAD_FEET, 0) && field == 7);
  IS(is_ok(squitter_field_of_feet(38000, &field)) && field == 0xC38);
}

static void try_texts_of_faults(void) {
  squitter_fault zones = {SQUITTER_ZONE_COUNTS, 44, 45}, parity = {SQUITTER_PARITY, 0, 0xA}, unknown = {77, 0, 0};
  squitter_fault entry = {SQUITTER_BAD_ENTRY, 0, UINT64_MAX};
  char text[SQUITTER_FAULT_TEXT_BYTES];
  filled(text, sizeof text);
  squitter_text_of_fault(&zones, text);
  IS(strcmp(text, "zone counts 45 44") == 0 && text[SQUITTER_FAULT_TEXT_BYTES - 1] == 0);
  squitter_text_of_fault(&parity, text);
  IS(strcmp(text, "parity 00000A") == 0);
  squitter_text_of_fault(&unknown, text);
  IS(strcmp(text, "unknown fault") == 0);
  squitter_text_of_fault(&entry, text);
  IS(strcmp(text, "bad entry 18446744073709551615") == 0);
  IS(squitter_version() == SQUITTER_VERSION);
}

static void try_reading_many(void) {
  static const frame_bytes frames[] = {
    {0}, {0x8D, 0x40, 0x62, 0x1D, 0x58, 0xC3, 0x82, 0xD6, 0x90, 0xC8, 0xAC, 0x28, 0x63, 0xA7},
    {0x8D, 0x40, 0x62, 0x1D, 0x58, 0xC3, 0x86, 0x43, 0x5C, 0xC4, 0x12, 0x69, 0x2A, 0xD6}};
  squitter_fields fields[4];
  squitter_fault faults[4];
  filled(fields, sizeof fields), filled(faults, sizeof faults);
  IS(squitter_read_many(frames, 0, fields, 4, faults, 4) == 0);
  IS(is_filled(fields, sizeof fields) && is_filled(faults, sizeof faults));
  IS(squitter_read_many(frames, 3, fields, 4, faults, 4) == 3);
  IS(is_fault(faults[0], SQUITTER_NOT_DF17, 0) && is_filled(&fields[0], sizeof fields[0]));
  IS(is_ok(faults[1]) && fields[1].lat == 93000 && fields[1].odd == 0);
  IS(is_ok(faults[2]) && fields[2].lat == 74158 && fields[2].odd == 1);
  IS(is_filled(&faults[3], sizeof faults[3]) && is_filled(&fields[3], sizeof fields[3]));
}

static void try_places_of_many(void) {
  static const squitter_position near_all[] = {{{52258, 1000}, {3918, 1000}}, {{52258, 1000}, {3918, 1000}}};
  frame_bytes older[2], newer[3];
  squitter_position out[3];
  squitter_fault faults[2];
  filled(out, sizeof out);
  memset(newer[0], 0, sizeof newer[0]), memcpy(newer[1], even, sizeof even), memcpy(newer[2], even, sizeof even);
  IS(squitter_local_many((const frame_bytes *)newer, 3, near_all, 2, out, 3, faults, 2) == 2);
  IS(is_fault(faults[0], SQUITTER_NOT_DF17, 0) && is_filled(&out[0], sizeof out[0]));
  IS(is_ok(faults[1]) && same_place(&out[1], &place) && is_filled(&out[2], sizeof out[2]));
  memcpy(older[0], ground_older, sizeof odd), memcpy(older[1], odd, sizeof odd);
  memcpy(newer[0], ground_newer, sizeof even);
  const frame_bytes *olds = (const frame_bytes *)older, *news = (const frame_bytes *)newer;
  filled(out, sizeof out);
  IS(squitter_pair_many(olds, 2, news, 3, out, 3, faults, 2) == 2);
  IS(is_fault(faults[0], SQUITTER_NO_SITE, 0) && is_filled(&out[0], sizeof out[0]));
  IS(is_ok(faults[1]) && same_place(&out[1], &place));
  IS(squitter_pair_at_many(olds, 2, news, 3, &site, out, 3, faults, 2) == 2);
  IS(is_ok(faults[0]) && same_place(&out[0], &ground_place) && is_ok(faults[1]) && same_place(&out[1], &place));
}

/* 428091/8192 is 52.2572021484375, and 64215/16384 is 3.91937255859375. */
static void try_whole_numbers(void) {
  static const squitter_position places[] = {{{-90, 1}, {-180, 1}}, {{7, 0}, {7, 0}}};
  squitter_angle tie = {-1, 20000000}, turn = {360, 1}, none = {7, 0};
  squitter_degrees_e7 degrees, out[2];
  squitter_fault faults[2];
  int64_t number = 7;
  filled(&degrees, sizeof degrees), filled(out, sizeof out);
  IS(is_fault(squitter_angle_e7(&none, &number), SQUITTER_BAD_ANGLE, 0) && number == 7);
  IS(is_ok(squitter_angle_e7(&tie, &number)) && number == -1);
  IS(is_ok(squitter_angle_e7(&turn, &number)) && number == 3600000000);
  IS(is_fault(squitter_position_e7(&nowhere, &degrees), SQUITTER_BAD_POSITION, 0) &&
     is_filled(&degrees, sizeof degrees));
  IS(is_ok(squitter_position_e7(&place, &degrees)) && degrees.lat == 522572021 && degrees.lon == 39193726);
  IS(squitter_position_e7_many(places, 2, out, 2, faults, 2) == 2);
  IS(is_ok(faults[0]) && out[0].lat == -900000000 && out[0].lon == -1800000000);
  IS(is_fault(faults[1], SQUITTER_BAD_POSITION, 0) && is_filled(&out[1], sizeof out[1]));
}

/* A block for a tracker of nine addresses. */
_Alignas(16) static unsigned char memory[1 << 14];
static const squitter_block block = {sizeof memory, memory};

/* Tests the calls of a tracker; tests/tracker.c tests them in other blocks. */
static void try_a_tracker(void) {
  squitter_tracker tracker = {0, 0};
  squitter_entry present;
  filled(&present, sizeof present);
  squitter_heard heard;
  filled(&heard, sizeof heard);
  IS(is_fault(squitter_tracker_hear(&tracker, 0, even, &heard), SQUITTER_NO_TRACKER, 0) &&
     is_filled(&heard, sizeof heard));
  IS(squitter_tracker_len(&tracker) == 0);
  IS(squitter_tracker_present(&tracker, 0, 0, &present, 1) == 0 && is_filled(&present, sizeof present));
  squitter_tracker_free(&tracker);
  IS(squitter_tracker_size(1000) / 1000 == 738); /* as squitter.h says */
  IS(is_fault(squitter_tracker_new(&tracker, block, 0, 10000), SQUITTER_NO_LIMIT, 0));
  IS(is_fault(squitter_tracker_new_at(&tracker, block, 0, 10000, &nowhere), SQUITTER_BAD_POSITION, 0));
  IS(is_fault(squitter_tracker_new_at(&tracker, block, 0, 10000, &place), SQUITTER_NO_LIMIT, 0));
  IS(is_ok(squitter_tracker_new_at(&tracker, block, 1, 10000, &place)));
  IS(is_ok(squitter_tracker_new(&tracker, block, 1, 10000)));
  IS(is_ok(squitter_tracker_hear(&tracker, 0, odd, &heard)) && heard.what == SQUITTER_WAITING);
  IS(is_ok(squitter_tracker_hear(&tracker, 400, even, &heard)));
  IS(heard.what == SQUITTER_FIX && same_place(&heard.position, &place));
  IS(is_fault(squitter_tracker_hear(&tracker, 399, odd, &heard), SQUITTER_MOMENT_BACK, 400));
  IS(is_fault(squitter_tracker_hear(&tracker, 400, ground_older, &heard), SQUITTER_TABLE_FULL, 0));
  IS(is_fault(squitter_tracker_hear(&tracker, 400, no_squitter, &heard), SQUITTER_NOT_DF17, 0));
  IS(heard.what == SQUITTER_FIX && same_place(&heard.position, &place) && squitter_tracker_len(&tracker) == 1);
  IS(squitter_tracker_present(&tracker, 401, 0, &present, 1) == 0 && is_filled(&present, sizeof present));
  IS(squitter_tracker_present(&tracker, 400, 0, &present, 1) == 1 && present.address == 0x40621D);
  IS(present.moment == 400 && present.airborne.odd.moment == 0 && present.airborne.even.moment == 400);
  IS(memcmp(present.airborne.odd.frame, odd, sizeof odd) == 0 && present.airborne.fix.moment == 400);
  squitter_tracker_free(&tracker);
}

/* Tests why places cannot be true, at borders; tests/test_hearing.py has more. */
static void try_doubts(void) {
  static const squitter_watch watch = {60, 3600}, unknown = {0, 0};
  static const squitter_position equator = {{0, 1}, {0, 1}}, north = {{1, 1}, {0, 1}}, further = {{61, 60}, {0, 1}};
  static const squitter_last_fix before = {1000, {{29, 30}, {0, 1}}}, none = {0, {{0, 0}, {0, 0}}};
  IS(squitter_doubts(&watch, &equator, &none, 0, &north) == 0);
  IS(squitter_doubts(&watch, &equator, &none, 0, &further) == SQUITTER_BEYOND_RANGE);
  IS(squitter_doubts(&watch, &nowhere, &before, 2000, &north) == 0);
  IS(squitter_doubts(&watch, &nowhere, &before, 1999, &north) == SQUITTER_TOO_FAST);
  IS(squitter_doubts(&watch, &equator, &before, 1999, &further) == (SQUITTER_BEYOND_RANGE | SQUITTER_TOO_FAST));
  IS(squitter_doubts(&unknown, &equator, &before, 1999, &further) == 0);
  IS(squitter_doubts(&watch, &equator, &before, 1999, &nowhere) == 0);
}

static void try_a_tracker_with_many(void) {
  static const uint64_t moments[] = {0, 1, 400, 7};
  squitter_tracker tracker = {0, 0};
  frame_bytes frames[3];
  squitter_heard out[4];
  squitter_fault faults[5];
  filled(out, sizeof out), filled(faults, sizeof faults);
  memcpy(frames[0], odd, sizeof odd), memset(frames[1], 0, sizeof frames[1]), memcpy(frames[2], even, sizeof even);
  IS(is_ok(squitter_tracker_new(&tracker, block, 9, 10000)));
  IS(squitter_tracker_hear_many(&tracker, moments, 4, (const frame_bytes *)frames, 3, out, 4, faults, 5) == 3);
  IS(is_ok(faults[0]) && out[0].what == SQUITTER_WAITING);
  IS(is_fault(faults[1], SQUITTER_NOT_DF17, 0) && is_filled(&out[1], sizeof out[1]));
  IS(is_ok(faults[2]) && out[2].what == SQUITTER_FIX && same_place(&out[2].position, &place));
  IS(is_filled(&out[3], sizeof out[3]) && is_filled(&faults[3], 2 * sizeof faults[3]));
  squitter_tracker_free(&tracker);
}

static void try_a_tracker_near_a_site(void) {
  squitter_tracker tracker = {0, 0};
  squitter_heard heard;
  IS(is_ok(squitter_tracker_new(&tracker, block, 9, 10)));
  IS(is_ok(squitter_tracker_hear(&tracker, 1, ground_older, &heard)) && heard.what == SQUITTER_WAITING);
  IS(is_ok(squitter_tracker_hear(&tracker, 2, ground_newer, &heard)) && heard.what == SQUITTER_WITHOUT_SITE);
  IS(is_fault(squitter_tracker_new_at(&tracker, block, 9, 10, &nowhere), SQUITTER_BAD_POSITION, 0));
  IS(is_ok(squitter_tracker_new_at(&tracker, block, 9, 10, &site)));
  IS(is_ok(squitter_tracker_hear(&tracker, 1, ground_older, &heard)) && heard.what == SQUITTER_WAITING);
  IS(is_ok(squitter_tracker_hear(&tracker, 2, ground_newer, &heard)));
  IS(heard.what == SQUITTER_FIX && same_place(&heard.position, &ground_place));
  squitter_tracker_free(&tracker);
}

/* Tests that a tracker returns the same results after saving and restoring; tests/tracker.c tests refused states. */
static void try_saving(void) {
  squitter_tracker tracker = {0, 0};
  squitter_last last = {9, 9};
  squitter_entry entries[2];
  squitter_heard heard;
  filled(entries, sizeof entries);
  IS(squitter_tracker_save(&tracker, &last, entries, 2) == 0 && last.moment == 9 && is_filled(entries, sizeof entries));
  IS(is_fault(squitter_tracker_restore(&tracker, &last, entries, 1), SQUITTER_NO_TRACKER, 0));
  IS(is_ok(squitter_tracker_new(&tracker, block, 9, 10000)));
  IS(squitter_tracker_save(&tracker, &last, entries, 2) == 0 && last.moment == 0 && last.heard == 0);
  IS(is_ok(squitter_tracker_hear(&tracker, 5, odd, &heard)) && is_ok(squitter_tracker_hear(&tracker, 9, even, &heard)));
  IS(squitter_tracker_save(&tracker, &last, entries, 0) == 1 && is_filled(entries, sizeof entries));
  IS(last.moment == 9 && last.heard == 1);
  IS(squitter_tracker_save(&tracker, &last, entries, 2) == 1 && is_filled(&entries[1], sizeof entries[1]));
  IS(entries[0].moment == 9 && entries[0].address == 0x40621D && entries[0].airborne.odd.moment == 5);
  IS(memcmp(entries[0].airborne.odd.frame, odd, sizeof odd) == 0 && entries[0].airborne.even.moment == 9);
  IS(entries[0].airborne.fix.moment == 9 && entries[0].surface.fix.position.lat.den == 0);
  IS(is_ok(squitter_tracker_new(&tracker, block, 9, 10000)));
  IS(is_ok(squitter_tracker_restore(&tracker, &last, entries, 1)) && squitter_tracker_len(&tracker) == 1);
  IS(is_fault(squitter_tracker_hear(&tracker, 8, even, &heard), SQUITTER_MOMENT_BACK, 9));
  IS(is_ok(squitter_tracker_hear(&tracker, 10004, even, &heard)) && heard.what == SQUITTER_FIX);
  IS(same_place(&heard.position, &place));
  const squitter_last as_one = {9, UINT64_MAX}, none = {7, 0};
  IS(is_ok(squitter_tracker_restore(&tracker, &as_one, entries, 1)) && squitter_tracker_len(&tracker) == 1);
  IS(squitter_tracker_save(&tracker, &last, entries, 0) == 1 && last.moment == 9 && last.heard == 1);
  IS(is_ok(squitter_tracker_restore(&tracker, &none, entries, 0)));
  IS(squitter_tracker_save(&tracker, &last, entries, 0) == 0 && last.moment == 0 && last.heard == 0);
  last = (squitter_last){9, 1};
  entries[1] = entries[0];
  IS(is_fault(squitter_tracker_restore(&tracker, &last, entries, 2), SQUITTER_BAD_ENTRY, 1));
  IS(squitter_tracker_len(&tracker) == 0 && is_ok(squitter_tracker_hear(&tracker, 0, even, &heard)));
  squitter_tracker_free(&tracker);
}

/* Tests the calls of a feed; tests/feed.c tests them with each format, in pieces and in other blocks. */
static void try_a_feed(void) {
  /* (where malloc aligns to 8 bytes, a block has as many more) */
  _Alignas(16) static unsigned char feed_memory[20480 + (sizeof(void *) < 8 ? 8 : 0)];
  static const squitter_block feed_block = {sizeof feed_memory, feed_memory};
  static const char log[] = "400 8D40621D58C382D690C8AC2863A7";
  squitter_feed feed = {0, 0};
  squitter_done done;
  squitter_counts counts;
  uint64_t moment = 9;
  uint32_t format = 9;
  frame_bytes frame;
  char text[SQUITTER_LINE_BYTES];
  filled(&done, sizeof done), filled(&counts, sizeof counts), filled(frame, sizeof frame);
  IS(is_fault(squitter_feed_take(&feed, log, 32, 0, &moment, 1, &frame, 1, &done), SQUITTER_NO_TRACKER, 0));
  IS(is_fault(squitter_feed_counts(&feed, &counts), SQUITTER_NO_TRACKER, 0));
  IS(is_fault(squitter_feed_new(&feed, feed_block, 5, 10000, 0, 0), SQUITTER_BAD_FORMAT, 0));
  IS(is_fault(squitter_feed_format(&feed, &format), SQUITTER_NO_TRACKER, 0) && format == 9);
  IS(is_filled(&done, sizeof done) && is_filled(&counts, sizeof counts) && is_filled(frame, sizeof frame));
  IS(squitter_feed_size() == feed_block.size);
  IS(is_ok(squitter_feed_new(&feed, feed_block, SQUITTER_FEED_LOG, 10000, 0, 0)));
  IS(is_ok(squitter_feed_format(&feed, &format)) && format == SQUITTER_FEED_LOG);
  IS(is_ok(squitter_feed_take(&feed, log, 32, 0, &moment, 1, &frame, 1, &done)) && done.taken == 32);
  IS(done.written == 0 && moment == 9);
  IS(is_ok(squitter_feed_finish(&feed, 0, &moment, 1, &frame, 1, &done)) && done.written == 1 && moment == 400);
  IS(memcmp(frame, even, sizeof even) == 0);
  IS(is_ok(squitter_feed_take_text(&feed, log, 32, 0, text, sizeof text, &done)) && done.written == 0);
  IS(is_ok(squitter_feed_finish_text(&feed, 0, text, sizeof text, &done)) && done.written == 33);
  IS(memcmp(text, log, 32) == 0 && text[32] == '\n');
  IS(is_ok(squitter_feed_take(&feed, "x", 1, 0, &moment, 1, &frame, 1, &done)));
  IS(is_ok(squitter_feed_disconnected(&feed)));
  IS(is_ok(squitter_feed_counts(&feed, &counts)) && counts.found == 3 && counts.written == 2 && counts.damaged == 1);
  squitter_feed_free(&feed);
}

/* Tests the calls of an order; tests/order.c tests each border. */
static void try_an_order(void) {
  _Alignas(32) static unsigned char memory[1 << 18], more[1 << 18];
  const squitter_block whole = {sizeof memory, memory}, small = {squitter_order_size(0) - 1, memory};
  const uint64_t moments[2] = {30, 10};
  const frame_bytes frames[2] = {{1}, {2}};
  squitter_order order = {0, 0};
  squitter_done done;
  uint64_t moment = 9, held = 9, late = 9;
  frame_bytes frame;
  filled(&done, sizeof done), filled(frame, sizeof frame);
  IS(is_fault(squitter_order_take(&order, moments, 2, frames, 2, &moment, 1, &frame, 1, &done),
              SQUITTER_NO_TRACKER, 0));
  IS(is_fault(squitter_order_flush(&order, &moment, 1, &frame, 1, &done), SQUITTER_NO_TRACKER, 0));
  IS(is_fault(squitter_order_held(&order, &held), SQUITTER_NO_TRACKER, 0) && held == 9 && moment == 9);
  IS(is_fault(squitter_order_late(&order, &late), SQUITTER_NO_TRACKER, 0) && late == 9);
  IS(is_fault(squitter_order_grow(&order, whole), SQUITTER_NO_TRACKER, 0));
  IS(is_filled(&done, sizeof done) && is_filled(frame, sizeof frame));
  IS(is_fault(squitter_order_new(&order, small, 20), SQUITTER_NO_MEMORY, 0));
  IS(is_ok(squitter_order_new(&order, whole, 20)));
  IS(is_ok(squitter_order_take(&order, moments, 2, frames, 2, &moment, 1, &frame, 1, &done)));
  IS(done.taken == 2 && done.written == 1 && moment == 10 && frame[0] == 2);
  IS(is_ok(squitter_order_held(&order, &held)) && held == 1);
  IS(is_ok(squitter_order_grow(&order, (squitter_block){sizeof more, more})));
  IS(is_ok(squitter_order_flush(&order, &moment, 1, &frame, 1, &done)) && done.written == 1 && moment == 30);
  IS(is_ok(squitter_order_take(&order, moments + 1, 1, frames, 1, &moment, 1, &frame, 1, &done)) && done.taken == 1);
  IS(is_ok(squitter_order_late(&order, &late)) && late == 1 && done.written == 0);
  squitter_order_free(&order);
}

/* Sixteen gaps of a second in a log of seconds show it, and fifteen do not. The address beyond the end counts for
 * nothing. */
static void try_units(void) {
  uint64_t moments[17];
  uint32_t addresses[18] = {[17] = 0xABCDEF};
  for (int at = 0; at < 17; at++) moments[at] = 1795965328 + (uint64_t)at, addresses[at] = 0x40621D;
  IS(squitter_unit_of(moments, 17, addresses, 17, 0) == SQUITTER_UNIT_SECONDS);
  IS(squitter_unit_of(moments, 16, addresses, 17, 0) == SQUITTER_UNIT_MILLISECONDS);
  IS(squitter_unit_of(moments, 17, addresses, 16, 0) == SQUITTER_UNIT_MILLISECONDS);
  IS(squitter_unit_of(moments, 17, addresses, 17, 1) == SQUITTER_UNIT_MILLISECONDS);
  for (int at = 0; at < 17; at++) moments[at] = 500000 * (uint64_t)at;
  IS(squitter_unit_of(moments, 17, addresses, 17, 0) == SQUITTER_UNIT_MICROSECONDS);
  for (int at = 0; at < 17; at++) moments[at] = 500000000 * (uint64_t)at;
  IS(squitter_unit_of(moments, 17, addresses, 17, 0) == SQUITTER_UNIT_NANOSECONDS);
  for (int at = 0; at < 17; at++) moments[at] = ((uint64_t)at << 30) / 12000;
  IS(squitter_unit_of(moments, 17, addresses, 17, 1) == SQUITTER_UNIT_GPS);
  moments[0] = moments[1] = 0;
  IS(squitter_unit_of(moments, 2, addresses, 2, 1) == SQUITTER_UNIT_ALL_ZERO);
}

int main(void) {
  try_frame_texts();
  try_reading();
  try_near_a_reference();
  try_zones();
  try_pairs();
  try_sending();
  try_angles();
  try_altitudes();
  try_texts_of_faults();
  try_reading_many();
  try_places_of_many();
  try_whole_numbers();
  try_a_tracker();
  try_doubts();
  try_a_tracker_with_many();
  try_a_tracker_near_a_site();
  try_saving();
  try_a_feed();
  try_an_order();
  try_units();
  printf("exports: %d of %d wrong\n", wrong, tried);
  return wrong != 0;
}
