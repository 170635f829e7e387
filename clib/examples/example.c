/* A frame read, two frames decoded, and the place sent again. */
#include "squitter.h"
#include <inttypes.h>
#include <stdio.h>
#include <string.h>

/* Tells a fault in the library's words. */
static int refused(const char *what, squitter_fault fault) {
  char words[SQUITTER_FAULT_TEXT_BYTES];
  squitter_text_of_fault(&fault, words);
  printf("%s: %s\n", what, words);
  return 1;
}

static int show_place(const char *what, const squitter_position *place) {
  char lat[SQUITTER_ANGLE_TEXT_BYTES], lon[SQUITTER_ANGLE_TEXT_BYTES];
  squitter_fault fault = squitter_text_of_angle(&place->lat, lat);
  if (!fault.code) fault = squitter_text_of_angle(&place->lon, lon);
  if (fault.code) return refused(what, fault);
  printf("%s: %s %s, exactly %" PRId64 "/%" PRIu64 " %" PRId64 "/%" PRIu64 "\n", what, lat, lon, place->lat.num,
         place->lat.den, place->lon.num, place->lon.den);
  return 0;
}

int main(void) {
  static const char even[] = "8D40621D58C382D690C8AC2863A7", odd[] = "*8D40621D58C386435CC412692AD6;";
  uint8_t older[SQUITTER_FRAME_BYTES], newer[SQUITTER_FRAME_BYTES], again[SQUITTER_FRAME_BYTES];
  squitter_fields fields;
  squitter_position place;
  squitter_fault fault = squitter_frame_of_text(odd, strlen(odd), older);
  if (!fault.code) fault = squitter_frame_of_text(even, strlen(even), newer);
  if (!fault.code) fault = squitter_read_frame(newer, &fields);
  if (fault.code) return refused("frame", fault);
  printf("%06" PRIX32 " at %" PRId32 " feet\n", fields.address, fields.feet);

  fault = squitter_pair(older, newer, &place);
  if (fault.code) return refused("pair", fault);
  if (show_place("pair", &place)) return 1;

  fault = squitter_send_again(older, 0, &place, again);
  if (fault.code) return refused("send again", fault);
  printf("sent again: %s\n", memcmp(again, newer, sizeof again) ? "another frame" : "the same frame");

  fault = squitter_pair(newer, newer, &place);
  return fault.code == SQUITTER_SAME_PARITY ? refused("a pair of one frame", fault) - 1 : 1;
}
