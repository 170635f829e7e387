/* A decoder in C as an adapter: a template. Put calls of your own where `decode_pair` and `decode_near` are, and
 *
 *   cc -O2 -o mine vectors/templates/function.c && vectors/run 'plain ./mine'
 *
 * `vectors/adapters/plain` gives a line for each question and takes one for each answer; its first lines say which. */
#include <stdio.h>
#include <stdlib.h>
#include <string.h>

enum { WORDS = 8 };

/* An angle of decimals, or of num/den. */
static double degrees(const char *text) {
  const char *stroke = strchr(text, '/');
  return stroke ? strtod(text, 0) / strtod(stroke + 1, 0) : strtod(text, 0);
}

/* The place of the newer of two frames, each of 28 digits; site is 0 where none is given. 1 where there is a place. */
static int decode_pair(const char *older, const char *newer, const double *site, double place[2]) {
  (void)older, (void)newer, (void)site, (void)place;
  return 0;
}

/* The place of a frame near a reference. 1 where there is one. */
static int decode_near(const char *frame, const double *reference, double place[2]) {
  (void)frame, (void)reference, (void)place;
  return 0;
}

int main(void) {
  char line[4096], *words[WORDS]; /* (a question about a feed may have 3,000 bytes) */
  printf("adapter mine\n");
  while (fgets(line, sizeof line, stdin)) {
    double site[2], place[2];
    int count = 0, found;
    for (char *word = strtok(line, " \n"); word && count < WORDS; word = strtok(0, " \n")) words[count++] = word;
    if (count == 5 && (!strcmp(words[0], "pair") || !strcmp(words[0], "surface-pair"))) {
      site[0] = degrees(words[3]), site[1] = degrees(words[4]);
      found = decode_pair(words[1], words[2], strcmp(words[3], "-") ? site : 0, place);
    } else if (count == 4 && !strcmp(words[0], "local")) {
      site[0] = degrees(words[2]), site[1] = degrees(words[3]);
      found = decode_near(words[1], site, place);
    } else {
      printf("unsupported\n");
      continue;
    }
    if (found) printf("ok %.12f %.12f\n", place[0], place[1]);
    else printf("refused no place\n");
  }
  return 0;
}
