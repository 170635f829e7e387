// The `track` job written again in C from docs/FORMATS.md and the standard's formulas, with whole numbers of 128 bits
// alone and without a thought of speed: track LIMIT WINDOW [LAT_NUM LAT_DEN LON_NUM LON_DEN].
#define _GNU_SOURCE
#include <stdint.h>
#include <stdio.h>
#include <stdlib.h>
#include <string.h>

typedef unsigned __int128 u128;
typedef __int128 i128;
enum { CODES = 1 << 17, ADDRESSES = 1 << 24, LONG = 64 };
enum kind { OTHER, AIR, GROUND };

// the latitudes, in 10^-8 degree, up to which there are 59, 58, .. 2 zones of longitude
static const int64_t LIMITS[58] = {
    1047047130, 1482817437, 1818626357, 2102939493, 2354504487, 2582924707, 2793898710, 2991135686, 3177209708, 3353993436,
    3522899598, 3685025108, 3841241892, 3992256684, 4138651832, 4280914012, 4419454951, 4554626723, 4686733252, 4816039128,
    4942776439, 5067150166, 5189342469, 5309516153, 5427817472, 5544378444, 5659318756, 5772747354, 5884763776, 5995459277,
    6104917774, 6213216659, 6320427479, 6426616523, 6531845310, 6636171008, 6739646774, 6842322022, 6944242631, 7045450075,
    7145986473, 7245884545, 7345177442, 7443893416, 7542056257, 7639684391, 7736789461, 7833374083, 7929428225, 8024923213,
    8119801349, 8213956981, 8307199445, 8399173563, 8489166191, 8575541621, 8653536998, 8700000000};

struct fraction { i128 num, den; };
struct place { struct fraction lat, lon; };
struct squitter { uint32_t address; enum kind kind; int parity; int lat, lon; };
struct heard { int is; uint64_t moment; struct squitter squitter; };
struct fix { int is; uint64_t moment; struct place place; };
struct contact { struct heard newest[3][2]; struct fix fix[3]; uint64_t moment; };

static struct contact *contacts[ADDRESSES];
static uint32_t present[ADDRESSES];  // the longest unheard first
static size_t presents;
static uint64_t limit, window, last;
static int some_last, some_site;
static struct place site;

static i128 down(i128 n, i128 d) { return n / d - (n % d < 0); }
static i128 mod(i128 n, i128 d) { return n - down(n, d) * d; }
static i128 magnitude(i128 n) { return n < 0 ? -n : n; }

static int zone_count(struct fraction lat) {
    int count = 1;
    for (int k = 0; k < 58; k++) count += magnitude(lat.num) * 100000000 <= LIMITS[k] * lat.den;
    return count;
}

static int lon_zones(int count, int parity) { return count - parity > 1 ? count - parity : 1; }
static int is_latitude(struct fraction x) { return magnitude(x.num) <= 90 * x.den; }
static struct fraction at(int degrees, int zones, i128 index) {
    return (struct fraction){index * degrees, (i128)zones * CODES};
}

// in [-180, 180)
static struct fraction eastwards(struct fraction x) {
    return (struct fraction){mod(x.num + 180 * x.den, 360 * x.den) - 180 * x.den, x.den};
}

// in (center - 45, center + 45], by whole multiples of 90 degrees
static struct fraction around(struct fraction x, struct fraction c) {
    i128 turns = down((c.num + 45 * c.den) * x.den - x.num * c.den, 90 * x.den * c.den);
    return (struct fraction){x.num + 90 * turns * x.den, x.den};
}

// the standard's local decoding in one coordinate: the zone of the reference, and the one next to it where the code is
// nearer there
static struct fraction near(struct fraction x, int degrees, int zones, int code) {
    i128 wide = x.den * degrees, n = down(x.num * zones, wide), part = x.num * zones - n * wide;
    i128 step = down(wide * (CODES / 2) + part * CODES - code * wide, wide * CODES);
    return at(degrees, zones, (n + step) * CODES + code);
}

static int local(struct squitter s, struct place reference, struct place *place) {
    int degrees = s.kind == AIR ? 360 : 90;
    place->lat = near(reference.lat, degrees, 60 - s.parity, s.lat);
    if (!is_latitude(place->lat)) return 0;
    place->lon = eastwards(near(reference.lon, degrees, lon_zones(zone_count(place->lat), s.parity), s.lon));
    return 1;
}

enum pair { FIX, FAR, SPLIT, NO_SITE };

static enum pair pair(struct squitter older, struct squitter newer, struct place *place, int counts[2]) {
    int degrees = newer.kind == AIR ? 360 : 90, count, zones;
    struct squitter s[2];
    struct fraction lats[2];
    if (newer.kind == GROUND && !some_site) return NO_SITE;
    s[older.parity] = older;
    s[newer.parity] = newer;
    i128 j = down(59 * (i128)s[0].lat - 60 * (i128)s[1].lat + CODES / 2, CODES);
    for (int parity = 0; parity < 2; parity++) {
        struct fraction lat = at(degrees, 60 - parity, mod(j, 60 - parity) * CODES + s[parity].lat);
        if (degrees == 360 && lat.num >= 270 * lat.den) lat.num -= 360 * lat.den;
        lats[parity] = degrees == 360 ? lat : around(lat, site.lat);
    }
    if (!is_latitude(lats[0]) || !is_latitude(lats[1])) return FAR;
    for (int parity = 0; parity < 2; parity++) counts[parity] = zone_count(lats[parity]);
    if (counts[0] != counts[1]) return SPLIT;
    count = counts[0];
    i128 m = down((i128)s[0].lon * (count - 1) - (i128)s[1].lon * count + CODES / 2, CODES);
    zones = lon_zones(count, newer.parity);
    place->lat = lats[newer.parity];
    place->lon = at(degrees, zones, mod(m, zones) * CODES + newer.lon);
    place->lon = eastwards(degrees == 360 ? place->lon : around(place->lon, site.lon));
    return FIX;
}

static void print_degrees(struct fraction x) {
    uint64_t v = (uint64_t)((magnitude(x.num) * 20000000 + x.den) / (2 * x.den));
    unsigned long long whole = v / 10000000, part = v % 10000000;
    printf(" %s%llu.%07llu", x.num < 0 && v ? "-" : "", whole, part);
}

static void print_place(const char *word, uint32_t address, struct place place) {
    printf("%s %06X", word, address);
    print_degrees(place.lat);
    print_degrees(place.lon);
    putchar('\n');
}

static int is_recent(uint64_t then, uint64_t moment) { return moment - then <= window; }

static void forget_before(uint64_t moment) {
    size_t stale = 0;
    while (stale < presents && !is_recent(contacts[present[stale]]->moment, moment)) stale++;
    presents -= stale;
    memmove(present, present + stale, presents * sizeof *present);
}

static void enter(uint32_t address) {
    size_t k = 0;
    while (k < presents && present[k] != address) k++;
    if (k < presents) memmove(present + k, present + k + 1, (--presents - k) * sizeof *present);
    present[presents++] = address;
}

static size_t others(uint32_t address, uint64_t moment) {
    size_t count = 0;
    for (size_t k = 0; k < presents; k++)
        count += present[k] != address && is_recent(contacts[present[k]]->moment, moment);
    return count;
}

// Answers the line, and says whether it was heard.
static int hear(uint64_t moment, struct squitter s) {
    struct place place;
    int counts[2];
    if (some_last && moment < last) { printf("moment back %llu\n", (unsigned long long)last); return 0; }
    if (s.kind != OTHER && presents >= limit && others(s.address, moment) >= limit) { puts("table full"); return 0; }
    some_last = 1;
    last = moment;
    forget_before(moment);
    if (s.kind == OTHER) { printf("no position %06X\n", s.address); return 1; }
    if (!contacts[s.address] && !(contacts[s.address] = calloc(1, sizeof **contacts))) abort();
    struct contact *contact = contacts[s.address];
    struct heard *older = &contact->newest[s.kind][!s.parity];
    struct fix *fix = &contact->fix[s.kind];
    int waits = !older->is || !is_recent(older->moment, moment), placed = 0;
    enum pair answer = waits ? FIX : pair(older->squitter, s, &place, counts);
    if ((waits || answer == SPLIT) && fix->is && is_recent(fix->moment, moment) && local(s, fix->place, &place)) {
        print_place("followed", s.address, place);
        placed = 1;
    } else if (waits) printf("waiting %06X\n", s.address);
    else if (answer == SPLIT) printf("split %06X %d %d\n", s.address, counts[0], counts[1]);
    else if (answer == FAR) printf("far %06X\n", s.address);
    else if (answer == NO_SITE) printf("no site %06X\n", s.address);
    else {
        print_place("fix", s.address, place);
        placed = 1;
    }
    contact->moment = moment;
    contact->newest[s.kind][s.parity] = (struct heard){1, moment, s};
    if (placed) *fix = (struct fix){1, moment, place};
    enter(s.address);
    return 1;
}

static int value_of(int digit) {
    if ('0' <= digit && digit <= '9') return digit - '0';
    if ('A' <= digit && digit <= 'F') return digit - 'A' + 10;
    if ('a' <= digit && digit <= 'f') return digit - 'a' + 10;
    return -1;
}

static uint32_t remainder_of(u128 bits) {
    for (int place = 111; place >= 24; place--)
        if (bits >> place & 1) bits ^= (u128)0x1FFF409 << (place - 24);
    return (uint32_t)bits;
}

// Reads a frame text, or answers its fault and says no.
static int read_frame(const unsigned char *text, size_t n, struct squitter *s) {
    int begins = n && text[0] == '*', ends = n && text[n - 1] == ';';
    u128 bits = 0;
    if (begins != ends || (n == 1 && begins)) { puts("bad wrapping"); return 0; }
    if (begins) { text++; n -= 2; }
    if (n == 14) { puts("short frame"); return 0; }
    if (n != 28) { printf("bad length %zu\n", n); return 0; }
    for (int k = 0; k < 28; k++) {
        int digit = value_of(text[k]);
        if (digit < 0) { printf("bad digit %d\n", k + 1); return 0; }
        bits = bits << 4 | (unsigned)digit;
    }
    if (bits >> 107 != 17) { printf("not DF17 %u\n", (unsigned)(bits >> 107)); return 0; }
    if (remainder_of(bits)) { printf("parity %06X\n", remainder_of(bits)); return 0; }
    unsigned type = (unsigned)(bits >> 75) & 31;
    s->address = (uint32_t)(bits >> 80) & 0xFFFFFF;
    s->kind = 5 <= type && type <= 8 ? GROUND : 9 <= type && type <= 22 && type != 19 ? AIR : OTHER;
    s->parity = (int)(bits >> 58) & 1;
    s->lat = (int)(bits >> 41) & (CODES - 1);
    s->lon = (int)(bits >> 24) & (CODES - 1);
    return 1;
}

// Answers a text that is not empty, and says whether it was heard.
static int answer(const unsigned char *text, size_t n) {
    const unsigned char *space = memchr(text, ' ', n);
    size_t digits = space ? (size_t)(space - text) : 0;
    u128 moment = 0;
    struct squitter s;
    int good = 1 <= digits && digits <= 20;
    for (size_t k = 0; good && k < digits; k++) {
        good = '0' <= text[k] && text[k] <= '9';
        moment = moment * 10 + (text[k] - '0');
    }
    if (!good || moment >> 64) { puts("bad moment"); return 0; }
    return read_frame(space + 1, n - digits - 1, &s) && hear((uint64_t)moment, s);
}

int main(int count, char **words) {
    char *line = NULL;
    size_t room = 0;
    ssize_t n;
    int status = 0;
    if (count < 3) return 2;
    limit = strtoull(words[1], NULL, 10);
    window = strtoull(words[2], NULL, 10);
    if (count > 6) {
        some_site = 1;
        site.lat = (struct fraction){atoll(words[3]), atoll(words[4])};
        site.lon = (struct fraction){atoll(words[5]), atoll(words[6])};
    }
    for (unsigned long long number = 1; (n = getline(&line, &room, stdin)) > 0; number++) {
        if (line[n - 1] == '\n') n--;
        if (n > LONG) { printf("%llu long line\n", number); status = 1; continue; }
        if (n && line[n - 1] == '\r') n--;
        if (!n) continue;
        printf("%llu ", number);
        if (!answer((unsigned char *)line, (size_t)n)) status = 1;
    }
    return status;
}
