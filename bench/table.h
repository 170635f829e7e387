// Shared by track.c and hear.c: the limits of zone counts, a hash table of addresses, and a list of them in the order
// of last hearing. A program says what more an entry has (ENTRY) before it includes this.
#ifndef ENTRY
#define ENTRY
#endif

static const double EDGE[59] = {
    10.47047130, 14.82817437, 18.18626357, 21.02939493, 23.54504487, 25.82924707, 27.93898710, 29.91135686, 31.77209708, 33.53993436,
    35.22899598, 36.85025108, 38.41241892, 39.92256684, 41.38651832, 42.80914012, 44.19454951, 45.54626723, 46.86733252, 48.16039128,
    49.42776439, 50.67150166, 51.89342469, 53.09516153, 54.27817472, 55.44378444, 56.59318756, 57.72747354, 58.84763776, 59.95459277,
    61.04917774, 62.13216659, 63.20427479, 64.26616523, 65.31845310, 66.36171008, 67.39646774, 68.42322022, 69.44242631, 70.45451075,
    71.45986473, 72.45884545, 73.45177442, 74.43893416, 75.42056257, 76.39684391, 77.36789461, 78.33374083, 79.29428225, 80.24923213,
    81.19801349, 82.13956981, 83.07199445, 83.99173563, 84.89166191, 85.75541621, 86.53536998, 87.00000000, 1000};

typedef struct { u64 moment; u32 lat, lon; u32 set; u32 pad; } Slot;
typedef struct { u32 address, before, after, pad; u64 moment; Slot slot[4]; ENTRY } Entry;

static Entry *pool;
static u32 *table, mask, unused, oldest, newest, count;

static inline u32 hash(u32 a) { return a * 0x9E3779B1u >> 7; }

static u32 find(u32 a) {  // place in table; table[place] is 0 if absent
    u32 h = hash(a) & mask;
    while (table[h] && pool[table[h]].address != a) h = (h + 1) & mask;
    return h;
}

static void unlink_entry(u32 k) {
    Entry *e = &pool[k];
    if (e->before) pool[e->before].after = e->after; else oldest = e->after;
    if (e->after) pool[e->after].before = e->before; else newest = e->before;
}

static void append(u32 k) {
    Entry *e = &pool[k];
    e->before = newest;
    e->after = 0;
    if (newest) pool[newest].after = k; else oldest = k;
    newest = k;
}

static void drop(u32 k) {
    unlink_entry(k);
    u32 h = find(pool[k].address);
    for (u32 g = h;;) {  // close the gap
        table[h] = 0;
        for (;;) {
            g = (g + 1) & mask;
            if (!table[g]) goto done;
            u32 w = hash(pool[table[g]].address) & mask;
            if (((g - w) & mask) >= ((g - h) & mask)) break;
        }
        table[h] = table[g];
        h = g;
    }
done:
    pool[k].after = unused;
    unused = k;
    count--;
}
