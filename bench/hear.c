// The table of a tracker at the machine's speed: one hash table, a list in the order of last hearing, pairs decoded in
// doubles. hear ADDRESSES CALLS ORDER, with the same words and calls as hear.rattle. Prints how many fixes came.
#include <math.h>
#include <stdint.h>
#include <stdio.h>
#include <stdlib.h>
#include <string.h>

typedef uint8_t u8;
typedef uint32_t u32;
typedef uint64_t u64;

typedef struct { u64 moment; double lat, lon; u32 set; u32 pad; } Last;

#define ENTRY Last fix[2];
#include "table.h"

static u32 room;
static u64 limit = 4000000, window = 1000000000000, last;

static void grow(void) {
    u32 wider = room ? room * 2 : 4;
    pool = realloc(pool, (wider + 1) * sizeof *pool);
    free(table);
    u32 size = wider * 2;
    table = calloc(size, sizeof *table);
    if (!pool || !table) exit(3);
    mask = size - 1;
    for (u32 k = oldest; k; k = pool[k].after) table[find(pool[k].address)] = k;
    for (u32 k = room + 1; k <= wider; k++) pool[k].after = k < wider ? k + 1 : 0;
    unused = room + 1;
    room = wider;
}

static int zones(double lat) {
    double a = fabs(lat);
    int low = 0, high = 58;
    while (low < high) {
        int middle = (low + high) / 2;
        if (EDGE[middle] < a) low = middle + 1; else high = middle;
    }
    return 59 - low;
}

enum { FAR, SPLIT, FIX, WAITING, FOLLOWED };

static int decode(const u32 y[2], const u32 x[2], int odd, double *lat, double *lon) {
    int j = (int)floor((59.0 * y[0] - 60.0 * y[1]) / 131072 + 0.5);
    double r[2];
    for (int i = 0; i < 2; i++) {
        int n = 60 - i;
        r[i] = 360.0 / n * ((j % n + n) % n + y[i] / 131072.0);
        if (r[i] >= 270) r[i] -= 360;
        if (r[i] > 90 || r[i] < -90) return FAR;
    }
    int n = zones(r[0]);
    if (n != zones(r[1])) return SPLIT;
    int m = (int)floor((x[0] * (n - 1.0) - x[1] * (double)n) / 131072 + 0.5);
    int ni = n - odd > 1 ? n - odd : 1;
    *lat = r[odd];
    *lon = 360.0 / ni * ((m % ni + ni) % ni + x[odd] / 131072.0);
    if (*lon >= 180) *lon -= 360;
    return FIX;
}

static int near(u32 y, u32 x, int odd, double *lat, double *lon) {
    double d = 360.0 / (60 - odd), v = y / 131072.0;
    double j = floor(*lat / d) + floor(0.5 + (*lat - d * floor(*lat / d)) / d - v);
    double to = d * (j + v);
    if (fabs(to) > 90) return WAITING;
    int ni = zones(to) - odd > 1 ? zones(to) - odd : 1;
    double e = 360.0 / ni, w = x / 131072.0;
    double m = floor(*lon / e) + floor(0.5 + (*lon - e * floor(*lon / e)) / e - w);
    *lat = to;
    *lon = e * (m + w);
    return FOLLOWED;
}

static int hear(u64 moment, u32 address, int kind, int odd, u32 lat, u32 lon, double *to_lat, double *to_lon) {
    if (moment < last) return -1;
    u32 h = mask ? find(address) : 0, k = mask ? table[h] : 0;
    if (!k && count >= limit && (moment - pool[oldest].moment <= window)) return -2;
    last = moment;
    if (!k) {
        if (!unused) grow();
        h = find(address);
        k = unused;
        unused = pool[k].after;
        memset(&pool[k], 0, sizeof pool[k]);
        pool[k].address = address;
        table[h] = k;
        count++;
        append(k);
    } else if (newest != k) {
        unlink_entry(k);
        append(k);
    }
    Entry *en = &pool[k];
    en->moment = moment;
    while (moment - pool[oldest].moment > window) drop(oldest);
    Slot *mine = &en->slot[kind * 2 + odd], *other = &en->slot[kind * 2 + !odd];
    *mine = (Slot){moment, lat, lon, 1, 0};
    int told = WAITING;
    if (other->set && moment - other->moment <= window) {
        u32 y[2], x[2];
        y[odd] = lat; x[odd] = lon;
        y[!odd] = other->lat; x[!odd] = other->lon;
        told = decode(y, x, odd, to_lat, to_lon);
    }
    Last *fix = &en->fix[kind];
    if ((told == WAITING || told == SPLIT) && fix->set && moment - fix->moment <= window) {
        *to_lat = fix->lat;
        *to_lon = fix->lon;
        if (near(lat, lon, odd, to_lat, to_lon) == FOLLOWED) told = FOLLOWED;
    }
    if (told == FIX || told == FOLLOWED) *fix = (Last){moment, *to_lat, *to_lon, 1, 0};
    return told;
}

static u64 state = 1;
static u64 roll(void) {
    state = state * 6364136223846793005ull + 1442695040888963407ull;
    return state >> 33;
}

int main(int n, char **v) {
    if (n < 4) return 2;
    u64 addresses = strtoull(v[1], 0, 10), calls = strtoull(v[2], 0, 10), fixes = 0;
    int order = atoi(v[3]), random = order & 1, dry = order & 2;
    const u32 lat[2] = {(u32)floor(fmod(52.3 / 6, 1) * 131072 + 0.5), (u32)floor(fmod(52.3 / (360.0 / 59), 1) * 131072 + 0.5)};
    const u32 lon[2] = {(u32)floor(fmod(3.9 / 10, 1) * 131072 + 0.5), (u32)floor(fmod(3.9 / (360.0 / 35), 1) * 131072 + 0.5)};
    double a = 0, b = 0, sum = 0;
    for (u64 call = 0; call < calls; call++) {
        u64 rolled = roll();
        u32 address = (u32)(random ? rolled % addresses : call % addresses) & 0xFFFFFF;
        int odd = (int)(roll() & 1);
        fixes += dry ? address & 1 : (u32)(hear(call, address, 0, odd, lat[odd], lon[odd], &a, &b) == FIX);
        sum += a;
    }
    printf("%llu\n", (unsigned long long)fixes);
    return sum == 0.5;
}
