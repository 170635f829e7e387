/* bare.c - the library without a C library and without a heap, as on a microcontroller: built with -ffreestanding and
 * -nostdlib, with memory lent from static arrays. What it needs of a board it has below: the start, four functions, and
 * a way to write. Here these are calls of Linux, so that qemu-user can run it. It prints the answers to its log. */
#include "squitter.h"

long write_out(const void *from, size_t size);
_Noreturn void leave(long status);
int raise(int signal);

#if defined __x86_64__
__asm__(".globl _start\n_start: xor %ebp, %ebp\n and $-16, %rsp\n call run\n"
        ".globl call\ncall: mov %rdi, %rax\n mov %rsi, %rdi\n mov %rdx, %rsi\n mov %rcx, %rdx\n syscall\n ret\n");
enum { WRITE = 1, EXIT = 60 };
#elif defined __aarch64__
__asm__(".globl _start\n_start: bl run\n"
        ".globl call\ncall: mov x8, x0\n mov x0, x1\n mov x1, x2\n mov x2, x3\n svc #0\n ret\n");
enum { WRITE = 64, EXIT = 93 };
#elif defined __arm__
__asm__(".globl _start\n_start: bl run\n"
        ".globl call\n.type call, %function\ncall: push {r7, lr}\n mov r7, r0\n mov r0, r1\n mov r1, r2\n mov r2, r3\n"
        " svc #0\n pop {r7, pc}\n");
enum { WRITE = 4, EXIT = 1 };
#endif
long call(long number, long first, long second, long third);

void *memcpy(void *restrict to, const void *restrict from, size_t size) {
  for (size_t at = 0; at < size; at++) ((volatile char *)to)[at] = ((const char *)from)[at];
  return to;
}
void *memmove(void *to, const void *from, size_t size) {
  if ((uintptr_t)to <= (uintptr_t)from) return memcpy(to, from, size);
  while (size-- > 0) ((volatile char *)to)[size] = ((const char *)from)[size];
  return to;
}
void *memset(void *to, int byte, size_t size) {
  for (size_t at = 0; at < size; at++) ((volatile char *)to)[at] = (char)byte;
  return to;
}
_Noreturn void leave(long status) {
  for (;;) call(EXIT, status, 0, 0);
}
_Noreturn void abort(void) { leave(9); }
int raise(int signal) { leave(signal); } /* libgcc wants it on ARM, for a division by zero */
long write_out(const void *from, size_t size) { return call(WRITE, 1, (long)(intptr_t)from, (long)size); }

/* The log of tests/worked with a frame in two pieces, and aircraft beyond the limit of 2. */
static const char LOG[] =
  "0 8D40621D58C382D690C8AC2863A7\n6000 8D40621D58C386435CC412692AD6\n6001 8C4841753AAB238733C8CD4020B1\n"
  "6002 8C4841753A8A35323FAEBDAC702D\n6003 8D406B902015A678D4D220AA4BDA\n6004 8D40621D58C382D690C8AC2863A6";
enum { LIMIT = 2, BLOCK = 4160, ROOM = SQUITTER_ANSWER_TEXT_BYTES };
static _Alignas(16) char block[BLOCK];
static char out[ROOM];

static void put(squitter_log *log, const char *piece, size_t length) {
  squitter_done done;
  do {
    squitter_fault fault = piece ? squitter_log_take_text(log, SQUITTER_LINES, piece, length, out, ROOM, &done)
      : squitter_log_finish_text(log, SQUITTER_LINES, out, ROOM, &done);
    if (fault.code != SQUITTER_OK || write_out(out, done.written) != (long)done.written) leave(2);
    if (piece) piece += done.taken, length -= done.taken;
  } while (done.written + SQUITTER_ANSWER_TEXT_BYTES > ROOM);
}

void run(void);
void run(void) {
  const squitter_position site = {{51990, 1000}, {4375, 1000}};
  squitter_log log = {0, 0};
  squitter_block lent = {squitter_log_size(LIMIT), block};
  if (lent.size > BLOCK || squitter_log_new_at(&log, lent, LIMIT, 10000, &site).code != SQUITTER_OK) leave(1);
  put(&log, LOG, 40);
  put(&log, LOG + 40, sizeof LOG - 41);
  put(&log, 0, 0);
  squitter_log_free(&log);
  leave(0);
}
