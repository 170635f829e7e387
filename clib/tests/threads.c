/* Threads side by side: each runs the same calls on inputs of its own, and all come to one sum. */
#include "squitter.h"
#include <pthread.h>
#include <stdio.h>
#include <stdlib.h>
#include <string.h>

enum { THREADS = 8, ROUNDS = 20000 };
static const char even[] = "8D40621D58C382D690C8AC2863A7", odd[] = "8D40621D58C386435CC412692AD6";

static void *work(void *at) {
  uint64_t sum = 0;
  uint8_t older[14], newer[14], again[14];
  size_t size = squitter_tracker_size(3);
  squitter_block block = {size, malloc(size)};
  squitter_tracker tracker = {0, 0};
  if (!block.memory || squitter_tracker_new(&tracker, block, 3, 100).code) exit(2);
  for (int round = 0; round < ROUNDS; round++) {
    squitter_heard heard;
    squitter_position place, moved;
    squitter_fault fault = squitter_frame_of_text(odd, 28, older);
    if (!fault.code) fault = squitter_frame_of_text(even, 28, newer);
    if (!fault.code) fault = squitter_pair(older, newer, &place);
    moved = place;
    moved.lat.num += round;
    if (!fault.code) fault = squitter_send_again(newer, round % 2, &moved, again);
    if (!fault.code) fault = squitter_tracker_hear(&tracker, (uint64_t)round, again, &heard);
    sum = sum * 31 + fault.code + again[8] + heard.what + (uint64_t)heard.position.lat.num + heard.position.lon.den;
  }
  squitter_tracker_free(&tracker);
  free(block.memory);
  *(uint64_t *)at = sum;
  return 0;
}

int main(void) {
  pthread_t threads[THREADS];
  uint64_t sums[THREADS], alone;
  work(&alone);
  for (int i = 0; i < THREADS; i++) if (pthread_create(&threads[i], 0, work, &sums[i])) return 2;
  for (int i = 0; i < THREADS; i++) if (pthread_join(threads[i], 0)) return 2;
  for (int i = 0; i < THREADS; i++) if (sums[i] != alone) { printf("thread %d differs\n", i); return 1; }
  printf("threads: %d side by side, %d rounds each\n", THREADS, ROUNDS);
  return 0;
}
