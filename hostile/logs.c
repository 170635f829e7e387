// Seeded lines for `check` and `track`. logs check SEED LINES, logs track SEED LINES AIRCRAFT: frames of aircraft that
// fly, taxi and jump, some lines damaged in every way, some of random bytes. logs busy SEED SECONDS AIRCRAFT RATE: a
// busy sky, so many aircraft at a time and frames a second, each aircraft for about ten minutes.
#include <math.h>
#include <stdint.h>
#include <stdio.h>
#include <stdlib.h>
#include <string.h>

typedef unsigned __int128 u128;
enum { CODES = 1 << 17, ROOM = 256 };

struct aircraft { uint32_t address; double lat, lon; int ground; };

static uint64_t state;

static uint64_t next(void) {
    uint64_t z = state += 0x9E3779B97F4A7C15u;
    z = (z ^ z >> 30) * 0xBF58476D1CE4E5B9u;
    z = (z ^ z >> 27) * 0x94D049BB133111EBu;
    return z ^ z >> 31;
}

static int below(int n) { return (int)(next() % (uint64_t)n); }
static int chance(int percent) { return below(100) < percent; }
static double between(double low, double high) {
    return low + (high - low) * (double)(next() >> 11) / 9007199254740992.0;
}

static uint32_t remainder_of(u128 bits) {
    for (int place = 111; place >= 24; place--)
        if (bits >> place & 1) bits ^= (u128)0x1FFF409 << (place - 24);
    return (uint32_t)bits;
}

// the standard's formula; a limit that a double misses is no matter here, where any frame will do
static int zone_count(double lat) {
    const double pi = 3.14159265358979323846;
    double a = 1 - cos(pi / 30), c = cos(pi / 180 * fabs(lat));
    if (fabs(lat) >= 87) return fabs(lat) > 87 ? 1 : 2;
    return (int)floor(2 * pi / acos(1 - a / (c * c)));
}

static int code(double x, double zone) {
    return (int)floor(CODES * (x - zone * floor(x / zone)) / zone + 0.5) & (CODES - 1);
}

static void jump(struct aircraft *a) {
    static const double lats[] = {10.47, 86.999, 87, -87.001, 89.99, 0, 52.3, -33.9, 59.9545};
    static const double lons[] = {179.99, -179.99, 4.7, 0};
    a->lat = chance(50) ? between(-90, 90) : lats[below(9)];
    a->lon = chance(50) ? between(-180, 180) : lons[below(4)];
    a->ground = chance(30);
}

static void move(struct aircraft *a) {
    if (chance(1)) jump(a);
    if (chance(2)) a->ground = !a->ground;
    double far = chance(10) ? 3 : 0.02;
    a->lat = fmax(-90, fmin(90, a->lat + between(-far, far)));
    a->lon += between(-far, far);
    a->lon -= 360 * floor((a->lon + 180) / 360);
}

// A frame's 88 bits, sealed.
static u128 frame(struct aircraft *a) {
    move(a);
    int odd = below(2), degrees = a->ground ? 90 : 360;
    int zones = zone_count(a->lat) - odd;
    uint64_t lat = (uint64_t)code(a->lat, (double)degrees / (60 - odd));
    uint64_t lon = (uint64_t)code(a->lon, (double)degrees / (zones > 1 ? zones : 1));
    if (chance(2)) { lat = next() & (CODES - 1); lon = next() & (CODES - 1); }
    static const int air[] = {9, 10, 11, 18, 20, 21, 22}, ground[] = {5, 6, 7, 8};
    uint64_t type = (uint64_t)(a->ground ? ground[below(4)] : air[below(7)]);
    uint64_t message = type << 51 | (next() & 0xFFFF) << 35 | (uint64_t)odd << 34 | lat << 17 | lon;
    if (chance(3)) message = next() & 0xFFFFFFFFFFFFFFu;
    u128 bits = ((u128)(17 << 3 | below(8)) << 24 | a->address) << 80 | (u128)message << 24;
    return bits | remainder_of(bits);
}

static size_t print_frame(char *text, u128 bits) {
    const char *digits = chance(90) ? "0123456789ABCDEF" : "0123456789abcdef";
    for (int k = 0; k < 28; k++) text[k] = digits[(int)(bits >> (108 - 4 * k)) & 15];
    return 28;
}

// Any byte but a line feed, and no digit in a moment: a log that leaps ahead is refused from there on.
static char byte(int in_moment) {
    int b;
    do b = below(256); while (b == '\n' || (in_moment && '0' <= b && b <= '9'));
    return (char)b;
}

static void insert(char *text, size_t *n, size_t at, const char *what, size_t count) {
    memmove(text + at + count, text + at, *n - at);
    memcpy(text + at, what, count);
    *n += count;
}

// Damages a line of n bytes in one of many ways.
static void damage(char *text, size_t *n, size_t frame) {
    char zeros[48];
    memset(zeros, '0', sizeof zeros);
    size_t place = (size_t)below((int)*n);
    char one = byte(place < frame);
    switch (below(12)) {
    case 0: text[frame + (size_t)below((int)(*n - frame))] = byte(0); break;
    case 1: text[place] = one; break;
    case 2: *n = (size_t)below((int)*n + 1); break;
    case 3: *n = (size_t)below(100); for (size_t k = 0; k < *n; k++) text[k] = byte(1); break;
    case 4: insert(text, n, *n, "\r\r", 1 + (size_t)below(2)); break;
    case 5: insert(text, n, *n, zeros, (size_t)below(48)); break;
    case 6: insert(text, n, frame, "*", 1); break;
    case 7: insert(text, n, *n, ";", 1); break;
    case 8: insert(text, n, place, &one, 1); break;
    case 9: text[frame + (size_t)below((int)(*n - frame))] = "0123456789ABCDEF"[below(16)]; break;
    case 10: *n = frame + 14; break;
    default: insert(text, n, 0, chance(50) ? " " : zeros, chance(50) ? 1 : (size_t)below(12)); break;
    }
}

static struct aircraft arrived(void) {
    struct aircraft a = {.address = (uint32_t)(next() & 0xFFFFFF)};
    jump(&a);
    return a;
}

static size_t print_moment(char *text, uint64_t moment) {
    return (size_t)sprintf(text, "%llu ", (unsigned long long)moment);
}

// Lines with every kind of damage; with moments where `timed` says so.
static void print_damaged(int timed, long long lines, struct aircraft *all, int fleet) {
    static const int steps[] = {0, 1, 40, 100, 499, 500, 501};
    char text[ROOM];
    uint64_t moment = chance(50) ? 0 : UINT64_MAX - 40000000000u;
    for (; lines > 0; lines--) {
        moment += (uint64_t)(chance(95) ? steps[below(7)] : below(20000)) * 10 / (uint64_t)fleet;
        size_t n = 0;
        if (timed) n = print_moment(text, moment > 6000 && chance(2) ? moment - (uint64_t)below(6000) : moment);
        size_t at = n;
        int wraps = chance(25);
        if (wraps) text[n++] = '*';
        n += print_frame(text + n, frame(&all[below(fleet)]));
        if (wraps) text[n++] = ';';
        if (chance(10)) damage(text, &n, at);
        text[n++] = '\n';
        fwrite(text, 1, n, stdout);
    }
}

static void print_busy(long long seconds, struct aircraft *all, int fleet, int rate) {
    char text[ROOM];
    for (long long k = 0; k < seconds * rate; k++) {
        int who = below(fleet);
        if (below(600 * rate / fleet) == 0) all[who] = arrived();
        size_t n = print_moment(text, (uint64_t)(k * 1000 / rate));
        n += print_frame(text + n, frame(&all[who]));
        text[n++] = '\n';
        fwrite(text, 1, n, stdout);
    }
}

int main(int count, char **words) {
    if (count < 4) return 2;
    int fleet = count > 4 ? atoi(words[4]) : 50;
    state = strtoull(words[2], NULL, 10);
    struct aircraft *all = calloc((size_t)fleet, sizeof *all);
    if (!all) return 3;
    for (int k = 0; k < fleet; k++) all[k] = arrived();
    all[0].address = 0;
    all[1].address = 0xFFFFFF;
    if (!strcmp(words[1], "busy")) print_busy(atoll(words[3]), all, fleet, count > 5 ? atoi(words[5]) : 2000);
    else print_damaged(!strcmp(words[1], "track"), atoll(words[3]), all, fleet);
    return fflush(stdout) != 0;
}
