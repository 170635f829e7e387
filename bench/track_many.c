/* track_many MOMENTS FRAMES: nanoseconds a frame of squitter_tracker_hear_many, and of it with
 * squitter_position_e7_many of what was heard, with a site and as many addresses as `track` has, into arrays that were
 * written before: the fastest of five runs over a file of moments of 8 bytes each and one of frames of 14. */
#include <stdio.h>
#include <stdlib.h>
#include <time.h>
#include "squitter.h"

static double now(void) {
    struct timespec t;
    clock_gettime(CLOCK_MONOTONIC, &t);
    return (double)t.tv_sec * 1e9 + (double)t.tv_nsec;
}

static void *read_all(const char *path, size_t size, size_t *count) {
    FILE *file = fopen(path, "rb");
    if (!file || fseek(file, 0, SEEK_END)) return NULL;
    *count = (size_t)ftell(file) / size;
    void *all = malloc(*count * size + 1);
    rewind(file);
    return all && fread(all, size, *count, file) == *count && fclose(file) == 0 ? all : NULL;
}

int main(int words, char **word) {
    size_t count = 0, moments_count = 0;
    uint64_t *moments = words == 3 ? read_all(word[1], 8, &moments_count) : NULL;
    uint8_t(*frames)[14] = words == 3 ? read_all(word[2], 14, &count) : NULL;
    squitter_heard *heard = malloc((count + 1) * sizeof *heard);
    squitter_position *places = malloc((count + 1) * sizeof *places);
    squitter_degrees_e7 *degrees = malloc((count + 1) * sizeof *degrees);
    squitter_fault *faults = malloc((count + 1) * sizeof *faults);
    if (!moments || !frames || !count || count != moments_count || !heard || !places || !degrees || !faults) return 2;
    const squitter_position site = {{521, 10}, {47, 10}};
    squitter_block block = {squitter_tracker_size(1000), NULL};
    if (!(block.memory = malloc(block.size))) return 2;
    double hearing = 1e18, both = 1e18;
    for (int round = 0; round < 6; round++) { /* the first writes memory for the first time */
        squitter_tracker tracker = {0, 0};
        if (squitter_tracker_new_at(&tracker, block, 1000, 10000, &site).code) return 1;
        double start = now();
        const uint8_t(*given)[14] = (const uint8_t(*)[14])frames;
        if (squitter_tracker_hear_many(&tracker, moments, count, given, count, heard, count, faults, count) != count)
            return 1;
        double heard_all = now();
        for (size_t i = 0; i < count; i++) places[i] = heard[i].position;
        if (squitter_position_e7_many(places, count, degrees, count, faults, count) != count) return 1;
        double end = now();
        squitter_tracker_free(&tracker);
        if (round && heard_all - start < hearing) hearing = heard_all - start;
        if (round && end - start < both) both = end - start;
    }
    printf("%.2f %.2f\n", hearing / (double)count, both / (double)count);
    return 0;
}
