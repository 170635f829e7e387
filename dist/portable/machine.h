/* ---- The machine: what the functions below stand on ----
 *
 * Memory of the module is memory of the process, and an address is a number of 64 bits. Memory has the module's byte
 * order, little-endian, whatever the processor's is. There is no state and no heap. */
#include <stdlib.h>
#include <string.h>

typedef uint8_t u8;
typedef int8_t s8;
typedef uint16_t u16;
typedef int16_t s16;
typedef uint32_t u32;
typedef int32_t s32;
typedef uint64_t u64;
typedef int64_t s64;

#if defined __BYTE_ORDER__ && __BYTE_ORDER__ == __ORDER_BIG_ENDIAN__
#define LITTLE 0
#elif defined __BYTE_ORDER__ && __BYTE_ORDER__ == __ORDER_LITTLE_ENDIAN__ || defined _MSC_VER
#define LITTLE 1
#else
#error "squitter.c does not know the byte order of this compiler: define __BYTE_ORDER__"
#endif

#define N(number) UINT64_C(number)
#define AT(pointer) ((u64)(uintptr_t)(pointer))
#define PLACE(at) ((void *)(uintptr_t)(at))
#define DATA(k) (AT(data) + (k))
#define ZERO {0}
#if defined __GNUC__ || defined __clang__
#define INLINE static inline __attribute__((unused))
#else
#define INLINE static inline
#endif
#define TRAP abort()

#if LITTLE
#define LOAD(bits) \
  INLINE u##bits load_##bits(u64 at) { u##bits it; memcpy(&it, PLACE(at), sizeof it); return it; }
INLINE u8 load_8(u64 at) { return *(const u8 *)PLACE(at); }
INLINE void memory_copy(u64 to, u64 from, u64 size) { if (size) memmove(PLACE(to), PLACE(from), (size_t)size); }
#else
/* An array of the caller that a call only reads has the processor's byte order. Its address has a view in its upper
 * bits: loads see it with the bytes of each member turned. An address has at most 54 bits. */
enum { VIEW_PLAIN, VIEW_U64, VIEW_U32, VIEW_ENTRY };
#define VIEW(view, start) ((u64)(view) << 62 | (AT(start) % sizeof(squitter_entry)) << 54 | AT(start))
/* The byte of an entry that the module has in the place of byte k. Numbers of an entry are moments and fixes. */
static u64 entry_byte(u64 k) {
  const u64 side = offsetof(squitter_entry, airborne), of_side = (k - side) % sizeof(squitter_side);
  if (k < side) return k < offsetof(squitter_entry, address) ? k ^ 7 : k < 12 ? k ^ 3 : k;
  if (of_side >= offsetof(squitter_side, fix) || of_side % sizeof(squitter_received) < 8) return k ^ 7;
  return k;
}
INLINE u8 load_8(u64 at) {
  u64 view = at >> 62, place = at & ((N(1) << 54) - 1);
  if (view == VIEW_U64) place ^= 7;
  else if (view == VIEW_U32) place ^= 3;
  else if (view == VIEW_ENTRY) {
    u64 k = (place + sizeof(squitter_entry) - (at >> 54 & 255)) % sizeof(squitter_entry);
    place = place - k + entry_byte(k);
  } else place = at;
  return *(const u8 *)PLACE(place);
}
#define TURNED_16(x) ((u16)((x) << 8 | (x) >> 8))
#define TURNED_32(x) ((x) << 24 | ((x) & 0xFF00) << 8 | ((x) >> 8 & 0xFF00) | (x) >> 24)
#define TURNED_64(x) ((u64)TURNED_32((u32)(x)) << 32 | TURNED_32((u32)((x) >> 32)))
#define LOAD(bits) INLINE u##bits load_##bits(u64 at) { \
  u##bits it = 0; \
  if (at >> 62) for (u64 k = sizeof it; k--;) it = (u##bits)((u64)it << 8 | load_8(at + k)); \
  else { memcpy(&it, PLACE(at), sizeof it); it = TURNED_##bits(it); } \
  return it; }
INLINE void memory_copy(u64 to, u64 from, u64 size) {
  if (from >> 62) for (u64 k = 0; k < size; k++) *(u8 *)PLACE(to + k) = load_8(from + k);
  else if (size) memmove(PLACE(to), PLACE(from), (size_t)size);
}
#endif
LOAD(16)
LOAD(32)
LOAD(64)
INLINE void store_8(u64 at, u8 it) { *(u8 *)PLACE(at) = it; }
#if LITTLE
#define STORE(bits) INLINE void store_##bits(u64 at, u##bits it) { memcpy(PLACE(at), &it, sizeof it); }
#else
#define STORE(bits) \
  INLINE void store_##bits(u64 at, u##bits it) { it = TURNED_##bits(it); memcpy(PLACE(at), &it, sizeof it); }
#endif
STORE(16)
STORE(32)
STORE(64)
INLINE void memory_fill(u64 to, u32 it, u64 size) { if (size) memset(PLACE(to), (int)(it & 255), (size_t)size); }

#if defined __GNUC__
INLINE u64 clz64(u64 x) { return x ? (u64)__builtin_clzll(x) : 64; }
INLINE u64 ctz64(u64 x) { return x ? (u64)__builtin_ctzll(x) : 64; }
#else
INLINE u64 clz64(u64 x) { u64 n = 64; for (; x; x >>= 1) n--; return n; }
INLINE u64 ctz64(u64 x) { u64 n = 0; if (!x) return 64; for (; !(x & 1); x >>= 1) n++; return n; }
#endif
INLINE u32 clz32(u32 x) { return (u32)clz64(x) - 32; }
INLINE u32 ctz32(u32 x) { return x ? (u32)ctz64(x) : 32; }
#define OF_WIDTH(bits) \
  INLINE u##bits rotl##bits(u##bits x, u##bits n) { \
    n &= bits - 1; return n ? x << n | x >> (bits - n) : x; } \
  INLINE u##bits rotr##bits(u##bits x, u##bits n) { return rotl##bits(x, bits - (n & (bits - 1))); } \
  INLINE u##bits sar##bits(u##bits x, u##bits n) { \
    n &= bits - 1; return x >> (bits - 1) ? ~(~x >> n) : x >> n; } \
  INLINE u##bits div_u##bits(u##bits a, u##bits b) { if (!b) { TRAP; } return a / b; } \
  INLINE u##bits rem_u##bits(u##bits a, u##bits b) { if (!b) { TRAP; } return a % b; } \
  INLINE u##bits div_s##bits(u##bits a, u##bits b) { \
    if (!b || (!(b + 1) && a == (u##bits)1 << (bits - 1))) { TRAP; } return (u##bits)((s##bits)a / (s##bits)b); } \
  INLINE u##bits rem_s##bits(u##bits a, u##bits b) { \
    if (!b) { TRAP; } return b + 1 ? (u##bits)((s##bits)a % (s##bits)b) : 0; }
OF_WIDTH(32)
OF_WIDTH(64)

/* 16 bytes at once: by vectors of GNU C, or by plain C, which SQUITTER_PLAIN wants everywhere. */
#if LITTLE && defined __GNUC__ && !defined SQUITTER_PLAIN && (!defined __i386__ || defined __SSE2__)
typedef u8 v128 __attribute__((vector_size(16)));
typedef s8 v128_s8 __attribute__((vector_size(16)));
typedef u32 v128_u32 __attribute__((vector_size(16)));
typedef u64 v128_u64 __attribute__((vector_size(16)));
INLINE v128 load_v128(u64 at) { v128 it; memcpy(&it, PLACE(at), 16); return it; }
INLINE void store_v128(u64 at, v128 it) { memcpy(PLACE(at), &it, 16); }
#define V128(low, high) ((v128)(v128_u64){low, high})
#if defined __clang__ || __GNUC__ >= 12
#define SHUFFLE(a, b, ...) __builtin_shufflevector(a, b, __VA_ARGS__)
#else
#define SHUFFLE(a, b, ...) __builtin_shuffle(a, b, (v128){__VA_ARGS__})
#endif
INLINE v128 i8x16_splat(u32 x) { return (v128){0} + (u8)x; }
#define i8x16_lane(a, k) ((u32)(a)[k])
INLINE u32 i32x4_lane(v128 a, int k) { return ((v128_u32)a)[k]; }
INLINE u64 i64x2_lane(v128 a, int k) { return ((v128_u64)a)[k]; }
INLINE v128 i8x16_with(v128 a, int k, u32 x) { a[k] = (u8)x; return a; }
INLINE v128 i32x4_with(v128 a, int k, u32 x) { v128_u32 b = (v128_u32)a; b[k] = x; return (v128)b; }
INLINE v128 i64x2_with(v128 a, int k, u64 x) { v128_u64 b = (v128_u64)a; b[k] = x; return (v128)b; }
#define i8x16_eq(a, b) ((v128)((a) == (b)))
#define i8x16_ne(a, b) ((v128)((a) != (b)))
#define i8x16_lt_u(a, b) ((v128)((a) < (b)))
#define i8x16_gt_u(a, b) ((v128)((a) > (b)))
#define i8x16_lt_s(a, b) ((v128)((v128_s8)(a) < (v128_s8)(b)))
#define v128_and(a, b) ((a) & (b))
#define v128_or(a, b) ((a) | (b))
#define v128_xor(a, b) ((a) ^ (b))
#define i8x16_add(a, b) ((a) + (b))
#define i8x16_sub(a, b) ((a) - (b))
INLINE v128 i8x16_shl(v128 a, u32 n) { return a << (u8)(n & 7); }
INLINE v128 i8x16_sub_sat_u(v128 a, v128 b) { return (a - b) & (v128)(a > b); }
INLINE v128 i8x16_min_u(v128 a, v128 b) { v128 m = (v128)(a < b); return (a & m) | (b & ~m); }
INLINE v128 i8x16_max_u(v128 a, v128 b) { v128 m = (v128)(a > b); return (a & m) | (b & ~m); }
INLINE v128 i64x2_shr_u(v128 a, u32 n) { return (v128)((v128_u64)a >> (u64)(n & 63)); }
INLINE v128 i64x2_add(v128 a, v128 b) { return (v128)((v128_u64)a + (v128_u64)b); }
INLINE v128 i64x2_mul(v128 a, v128 b) { return (v128)((v128_u64)a * (v128_u64)b); }
#else
typedef struct { u8 b[16]; } v128;
INLINE v128 load_v128(u64 at) { v128 it; memory_copy(AT(it.b), at, 16); return it; }
INLINE void store_v128(u64 at, v128 it) { memcpy(PLACE(at), it.b, 16); }
INLINE u64 i64x2_lane(v128 a, int k) { return load_64(AT(a.b + 8 * k)); }
INLINE u32 i32x4_lane(v128 a, int k) { return load_32(AT(a.b + 4 * k)); }
INLINE u32 i8x16_lane(v128 a, int k) { return a.b[k]; }
INLINE v128 i64x2_with(v128 a, int k, u64 x) { store_64(AT(a.b + 8 * k), x); return a; }
INLINE v128 i32x4_with(v128 a, int k, u32 x) { store_32(AT(a.b + 4 * k), x); return a; }
INLINE v128 i8x16_with(v128 a, int k, u32 x) { a.b[k] = (u8)x; return a; }
INLINE v128 V128(u64 low, u64 high) { v128 it = ZERO; return i64x2_with(i64x2_with(it, 0, low), 1, high); }
INLINE v128 i8x16_splat(u32 x) { v128 it; memset(it.b, (int)(x & 255), 16); return it; }
INLINE v128 shuffled(v128 a, v128 b, const u8 lanes[16]) {
  v128 it;
  for (int k = 0; k < 16; k++) it.b[k] = lanes[k] < 16 ? a.b[lanes[k]] : b.b[lanes[k] - 16];
  return it;
}
#define SHUFFLE(a, b, ...) shuffled(a, b, (const u8[16]){__VA_ARGS__})
#define EACH8(name, what) INLINE v128 name(v128 a, v128 b) { \
  for (int k = 0; k < 16; k++) { u8 x = a.b[k], y = b.b[k]; a.b[k] = (u8)(what); } return a; }
EACH8(i8x16_eq, x == y ? 255 : 0)
EACH8(i8x16_ne, x != y ? 255 : 0)
EACH8(i8x16_lt_u, x < y ? 255 : 0)
EACH8(i8x16_gt_u, x > y ? 255 : 0)
EACH8(i8x16_lt_s, (s8)x < (s8)y ? 255 : 0)
EACH8(v128_and, x & y)
EACH8(v128_or, x | y)
EACH8(v128_xor, x ^ y)
EACH8(i8x16_add, x + y)
EACH8(i8x16_sub, x - y)
EACH8(i8x16_sub_sat_u, x > y ? x - y : 0)
EACH8(i8x16_min_u, x < y ? x : y)
EACH8(i8x16_max_u, x > y ? x : y)
INLINE v128 i8x16_shl(v128 a, u32 n) {
  for (int k = 0; k < 16; k++) a.b[k] = (u8)((u32)a.b[k] << (n & 7));
  return a;
}
#define EACH64(name, type, what) INLINE v128 name(v128 a, type b) { \
  for (int k = 0; k < 2; k++) { u64 x = i64x2_lane(a, k); a = i64x2_with(a, k, what); } return a; }
EACH64(i64x2_shr_u, u32, x >> (b & 63))
EACH64(i64x2_add, v128, x + i64x2_lane(b, k))
EACH64(i64x2_mul, v128, x * i64x2_lane(b, k))
#endif
INLINE v128 i64x2_splat(u64 x) { return V128(x, x); }
INLINE u32 v128_any(v128 a) { return (i64x2_lane(a, 0) | i64x2_lane(a, 1)) != 0; }
#if LITTLE && defined __GNUC__ && defined __SSE2__ && !defined SQUITTER_PLAIN
typedef char v128_char __attribute__((vector_size(16)));
INLINE u32 i8x16_bitmask(v128 a) { return (u32)__builtin_ia32_pmovmskb128((v128_char)a); }
#else
INLINE u32 signs(u64 x) { return (u32)(((x >> 7 & N(0x0101010101010101)) * N(0x0102040810204080)) >> 56); }
INLINE u32 i8x16_bitmask(v128 a) { return signs(i64x2_lane(a, 0)) | signs(i64x2_lane(a, 1)) << 8; }
#endif
INLINE v128 v128_load64_splat(u64 at) { return i64x2_splat(load_64(at)); }
INLINE v128 v128_load32_zero(u64 at) { return V128(load_32(at), 0); }
INLINE v128 v128_load64_zero(u64 at) { return V128(load_64(at), 0); }
