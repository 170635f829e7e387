// The header as C++ reads it, and one answer.
#include "squitter.h"
#include <cstring>

int main() {
  const char *text = "8D40621D58C382D690C8AC2863A7";
  squitter_fields fields;
  squitter_fault fault = squitter_read_text(text, std::strlen(text), &fields);
  if (fault.code != SQUITTER_OK || fields.feet != 38000 || fields.kind != SQUITTER_AIR) return 1;
  unsigned char frame[SQUITTER_FRAME_BYTES];
  fault = squitter_frame_of_text(text, 27, frame);
  return fault.code == SQUITTER_LENGTH && fault.first == 27 && squitter_version() == SQUITTER_VERSION ? 0 : 1;
}
