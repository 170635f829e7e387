// The `check` job by large blocks, at the machine's speed; with -DSCALAR by one table and no vectors.
#define FAST
#include "lines.h"

static const struct { char s[16]; u32 n; } __attribute__((aligned(32))) WORD[4] = {
    {" air even ", 10}, {" air odd ", 9}, {" ground even ", 13}, {" ground odd ", 12}};

// 0 other, 1 air, 2 ground
static const u8 KIND[32] = {0, 0, 0, 0, 0, 2, 2, 2, 2, 1, 1, 1, 1, 1, 1, 1, 1, 1, 1, 0, 1, 1, 1};

static inline void answer_good(Frame f) {
    good++;
    PUT(" ok ");
    put_address(f.hi);
    // ME is bits 33 to 88: the low 32 bits of hi and bits 65 to 88
    u32 type = (u32)(f.hi >> 27) & 31;
    u32 kind = KIND[type];
    if (!kind) {
        PUT(" other ");
        put_small(type);
        *out++ = '\n';
        return;
    }
    u64 low = f.lo >> 24;  // frame bits 49 to 88
    u32 odd = (u32)(low >> 34) & 1;
    u32 w = (kind - 1) * 2 + odd;
    memcpy(out, WORD[w].s, 16);
    out += WORD[w].n;
    put_small((u32)(low >> 17) & 0x1FFFF);
    *out++ = ' ';
    put_small((u32)low & 0x1FFFF);
    *out++ = '\n';
}

static inline void answer(const u8 *p, const u8 *e) {
    Frame f;
    u32 rem;
    put_number();
    if (frame_text(p, e, &f, &rem)) answer_good(f);
    else refused++;
}

static inline int fast(const u8 *p) {
    Frame f;
    if (!digits28(p, &f) || f.hi >> 59 != 17 || remainder24(&f)) return 0;
    next_number();
    put_number();
    answer_good(f);
    return 1;
}

int main(void) { return run(); }
