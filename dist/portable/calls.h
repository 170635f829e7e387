/* ---- The calls of squitter.h ---- */

/* The stack of a call, which grows downwards from 16 bytes' alignment. */
#define STACK(size) \
  u64 stack_here[(size) / 8 + 2]; \
  const u64 sp = (AT(stack_here) + sizeof stack_here) & ~N(15)

/* The module has a block at 16 bytes' alignment. Where malloc aligns to 8, the caller's block has 8 bytes more. */
enum { BLOCK_SPARE = sizeof(void *) < 8 ? 8 : 0 };
static size_t size_of_block(u64 size) { return size > SIZE_MAX - BLOCK_SPARE ? SIZE_MAX : (size_t)size + BLOCK_SPARE; }
static void put_block(u64 here, squitter_block block) {
  const size_t spare = BLOCK_SPARE;
  store_64(here, block.size < spare ? 0 : block.size - spare);
  store_64(here + 8, BLOCK_SPARE ? (AT(block.memory) + BLOCK_SPARE) & ~N(15) : AT(block.memory));
}
#define BLOCK(block) u64 block##_here[2]; put_block(AT(block##_here), block)

/* A call writes a squitter_done of two numbers of 64 bits, or leaves it as it is. */
#define DONE(done) u64 done##_here[2]; store_64(AT(done##_here + 1), UINT64_MAX)
static u64 take_done(u64 here, squitter_done *done) {
  const u64 written = load_64(here + 8);
  if (written == UINT64_MAX) return 0;
  done->taken = (size_t)load_64(here);
  done->written = (size_t)written;
  return written;
}

#if LITTLE
#define READ(type, name) const u64 name##_at = AT(name)
#define VIEWED(view, name) AT(name)
#define TURN(type, at, count) (void)(count)
#define TURN_GOOD(type, at, faults, count) (void)(count)
#else
/* A struct that a call reads is copied and turned; one that it may write is turned before and after. Of an array, what
 * a call has written is turned: with faults the elements without one. */
#define READ(type, name) \
  type name##_here = *name; \
  const u64 name##_at = AT(&name##_here); \
  turn_##type(&name##_here)
#define VIEWED(view, name) VIEW(view, name)
#define TURN(type, at, count) for (u64 k_here = 0; k_here < (count); k_here++) turn_##type((at) + k_here)
#define TURN_GOOD(type, at, faults, count) \
  for (u64 k_here = 0; k_here < (count); k_here++) if (!(faults)[k_here].code) turn_##type((at) + k_here)
static void turn(void *at, size_t size) {
  u8 *bytes = at;
  for (size_t k = 0; k < size / 2; k++) {
    u8 it = bytes[k];
    bytes[k] = bytes[size - 1 - k];
    bytes[size - 1 - k] = it;
  }
}
#endif
