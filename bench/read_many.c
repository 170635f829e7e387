/* read_many FRAMES: nanoseconds a frame of squitter_read_many, into arrays that were written before: the fastest of ten
 * runs over a file of frames of 14 bytes each. */
#include <stdio.h>
#include <stdlib.h>
#include <time.h>
#include "squitter.h"

static double now(void) {
    struct timespec t;
    clock_gettime(CLOCK_MONOTONIC, &t);
    return (double)t.tv_sec * 1e9 + (double)t.tv_nsec;
}

int main(int words, char **word) {
    FILE *file = words == 2 ? fopen(word[1], "rb") : NULL;
    if (!file || fseek(file, 0, SEEK_END)) return 2;
    size_t count = (size_t)ftell(file) / 14;
    uint8_t(*frames)[14] = malloc(count * 14);
    squitter_fields *fields = malloc(count * sizeof *fields);
    squitter_fault *faults = malloc(count * sizeof *faults);
    if (!count || !frames || !fields || !faults) return 2;
    rewind(file);
    if (fread(frames, 14, count, file) != count) return 2;
    double best = 1e18;
    for (int round = 0; round < 11; round++) { /* the first writes memory for the first time */
        double start = now();
        if (squitter_read_many((const uint8_t(*)[14])frames, count, fields, count, faults, count) != count) return 1;
        double took = now() - start;
        if (round && took < best) best = took;
    }
    printf("%.2f\n", best / (double)count);
    return 0;
}
