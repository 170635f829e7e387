// The `track` job by large blocks and one table: pair decoding in doubles, a hash table, a list in the order of last
// hearing. It follows nothing. track [LIMIT [WINDOW_MS [LAT LON]]], the numbers in plain decimals.
#include "lines.h"
#include <math.h>
#include "table.h"

static u8 FIRST[90 * 8 + 1];  // zone count at each eighth of a degree; at most one entry lies in such a step

static inline int zones(double lat) {
    double a = fabs(lat);
    int n = FIRST[(int)(a * 8)];
    return n - (a > EDGE[59 - n]);
}

static u64 limit = 1000, window = 10000, last;
static int site;
static double slat, slon;

static inline void put_degrees(double scaled) {  // in 10^-7 degree, exact half steps included
    double a = fabs(scaled);
    u64 v = (u64)(a + 0.5);
    if (v > a + 0.5) v--;
    if (scaled < 0 && v) *out++ = '-';
    u32 whole = (u32)(v / 10000000), part = (u32)(v % 10000000);
    put_small(whole);
    *out++ = '.';
    u32 hi = part / 10000, lo = part % 10000;
    memcpy(out, &TRI[hi], 4);
    u32 q = lo / 1000;
    out[3] = (u8)('0' + q);
    memcpy(out + 4, &TRI[lo - q * 1000], 4);
    out += 7;
}

enum { FAR, SPLIT, FIX };

// The pair y[0], x[0] even and y[1], x[1] odd. A fix is given in 10^-7 degree, a split by its counts.
// Indices are exact in doubles; so is a quotient that lies on a half step.
static inline int decode(int kind, const u32 y[2], const u32 x[2], int odd, double *lat, double *lon, int count[2]) {
    int j = (59 * (int)y[0] - 60 * (int)y[1] + 65536) >> 17;  // from -60 to 59
    int j0 = j + (j < 0 ? 60 : 0), j1 = j + (j < 0 ? 59 : 0);
    j1 += j1 < 0 ? 59 : 0;
    j1 -= j1 >= 59 ? 59 : 0;
    double a[2] = {j0 * 131072.0 + y[0], j1 * 131072.0 + y[1]};
    const double w[2] = {60 * 131072.0, 59 * 131072.0};  // one turn
    double r[2];
    if (!kind) {
        a[0] -= a[0] >= 45 * 131072.0 ? w[0] : 0;
        a[1] -= a[1] >= 44.25 * 131072.0 ? w[1] : 0;
        r[0] = a[0] * (360 / w[0]);
        r[1] = a[1] * (360 / w[1]);
    } else {
        // representative modulo 90 in (ref - 45, ref + 45]
        for (int i = 0; i < 2; i++) {
            a[i] += w[i] * floor((slat + 45 - a[i] * 90 / w[i]) / 90);
            r[i] = a[i] * 90 / w[i];
        }
    }
    // the pole is a point of all grids: compare indices, not rounded degrees
    double pole = kind ? 1 : 0.25;
    if (fabs(a[0]) > pole * w[0] || fabs(a[1]) > pole * w[1]) return FAR;
    int n = zones(r[0]), n1 = zones(r[1]);
    if (n != n1) { count[0] = n; count[1] = n1; return SPLIT; }
    int m = ((int)x[0] * (n - 1) - (int)x[1] * n + 65536) >> 17;  // from -n to n
    int ni = n - odd > 1 ? n - odd : 1;
    m += m < 0 ? ni : 0;
    m += m < 0 ? ni : 0;
    m -= m >= ni ? ni : 0;
    m -= m >= ni ? ni : 0;
    double b = m * 131072.0 + x[odd], nb = ni * 131072.0;
    *lat = a[odd] * (kind ? 9e8 : 3.6e9) / w[odd];
    if (!kind) {
        b -= b * 2 >= nb ? nb : 0;
        *lon = b * 3.6e9 / nb;
    } else {
        b += nb * floor((slon + 45 - b * 90 / nb) / 90);
        b -= b >= 2 * nb ? 4 * nb : 0;
        b += b < -2 * nb ? 4 * nb : 0;
        *lon = b * 9e8 / nb;
    }
    return FIX;
}

static const u8 KIND[32] = {0, 0, 0, 0, 0, 2, 2, 2, 2, 1, 1, 1, 1, 1, 1, 1, 1, 1, 1, 0, 1, 1, 1};

static void tail(u64 hi) {
    *out++ = ' ';
    put_address(hi);
    *out++ = '\n';
}

static inline void answer(const u8 *p, const u8 *e) {
    Frame f;
    u32 rem;
    put_number();
    u64 moment = 0;
    const u8 *s = p;
    int bad = 0;
    for (u32 d; s < e && (d = (u32)*s - '0') <= 9 && s - p < 19; s++) moment = moment * 10 + d;
    if (s < e && *s != ' ') {  // a twentieth digit, or no moment
        u32 d = (u32)*s - '0';
        bad = d > 9 || __builtin_mul_overflow(moment, (u64)10, &moment) ||
              __builtin_add_overflow(moment, (u64)d, &moment);
        s++;
        bad |= s < e && *s != ' ';
    }
    if (bad || s == e || s == p) { PUT(" bad moment\n"); refused++; return; }
    if (!frame_text(s + 1, e, &f, &rem)) { refused++; return; }
    if (moment < last) { PUT(" moment back "); put_dec(last); *out++ = '\n'; refused++; return; }
    u32 kind = KIND[f.hi >> 27 & 31];
    u32 address = (u32)(f.hi >> 32) & 0xFFFFFF;
    u32 h = find(address), k = table[h];
    // how many of the others are fresh
    if (kind && count - (k != 0) >= limit) {
        u64 fresh = count - (k != 0);
        for (u32 x = oldest; x && moment - pool[x].moment > window; x = pool[x].after) fresh -= x != k;
        if (fresh >= limit) { PUT(" table full\n"); refused++; return; }
    }
    last = moment;
    good++;
    while (oldest && oldest != k && moment - pool[oldest].moment > window) drop(oldest);
    if (!kind) {
        PUT(" no position");
        tail(f.hi);
        return;
    }
    u64 low = f.lo >> 24;
    u32 odd = (u32)(low >> 34) & 1, lat = (u32)(low >> 17) & 0x1FFFF, lon = (u32)low & 0x1FFFF;
    if (!k) {
        h = find(address);  // drops may have moved the place
        if (!unused) abort();
        k = unused;
        unused = pool[k].after;
        pool[k].address = address;
        for (int x = 0; x < 4; x++) pool[k].slot[x].set = 0;
        table[h] = k;
        count++;
        append(k);
    } else if (newest != k) {
        unlink_entry(k);
        append(k);
    }
    while (oldest != k && moment - pool[oldest].moment > window) drop(oldest);
    Entry *en = &pool[k];
    Slot *mine = &en->slot[(kind - 1) * 2 + odd], *other = &en->slot[(kind - 1) * 2 + !odd];
    en->moment = moment;
    mine->moment = moment;
    mine->lat = lat;
    mine->lon = lon;
    mine->set = 1;
    if (!other->set || moment - other->moment > window) {
        PUT(" waiting");
        tail(f.hi);
        return;
    }
    if (kind == 2 && !site) {
        PUT(" no site");
        tail(f.hi);
        return;
    }
    u32 y[2], x[2];
    y[odd] = lat;
    x[odd] = lon;
    y[!odd] = other->lat;
    x[!odd] = other->lon;
    double la, lo;
    int counts[2];
    switch (decode(kind == 2, y, x, (int)odd, &la, &lo, counts)) {
    case FIX:
        PUT(" fix ");
        put_address(f.hi);
        *out++ = ' ';
        put_degrees(la);
        *out++ = ' ';
        put_degrees(lo);
        *out++ = '\n';
        break;
    case SPLIT:
        PUT(" split ");
        put_address(f.hi);
        *out++ = ' ';
        put_small((u32)counts[0]);
        *out++ = ' ';
        put_small((u32)counts[1]);
        *out++ = '\n';
        break;
    default:
        PUT(" far");
        tail(f.hi);
    }
}

int main(int n, char **v) {
    if (n > 1) limit = strtoull(v[1], 0, 10);
    if (n > 2) window = strtoull(v[2], 0, 10);
    if (n > 4) { site = 1; slat = atof(v[3]); slon = atof(v[4]); }
    for (int d = 0; d <= 90 * 8; d++) {
        int k = 59;
        while (k > 1 && d / 8.0 > EDGE[59 - k]) k--;
        FIRST[d] = (u8)k;
    }
    u64 room = limit < (1 << 24) ? limit + 2 : (1 << 24) + 2;
    u64 size = 1024;
    while (size < room * 2) size *= 2;
    mask = (u32)size - 1;
    table = calloc(size, sizeof *table);
    pool = calloc(room + 1, sizeof *pool);
    if (!table || !pool) { (void)!write(2, "out of memory\n", 14); return 3; }
    for (u64 k = 1; k < room; k++) pool[k].after = (u32)k + 1;
    unused = 1;
    return run();
}
