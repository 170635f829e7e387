// os-test.c: tries os.c by itself, or what it stands for. dist/os-test builds it, and runs it with the words that it reads.
#include <errno.h>
#include <stdbool.h>
#include <stddef.h>
#include <stdint.h>
#include <stdio.h>
#include <stdlib.h>
#include <string.h>
#include <sys/resource.h>
#include <unistd.h>

struct tried { bool ok; char *at; };
ptrdiff_t rattle_arg(size_t at, char *to, size_t room);
int rattle_errno(void);
void rattle_set_errno(int error);
struct tried rattle_alloc(size_t size, size_t align);
struct tried rattle_realloc(void *old, size_t kept, size_t size, size_t align);
void rattle_dealloc(void *at);

static int failed;
static void expect(bool good, const char *what) {
  if (!good) failed++;
  printf("%s  os: %s\n", good ? "ok  " : "FAIL", what);
}

enum { LONG = 100000 };
static char longest[LONG + 1], buffer[LONG + 1];

static void words(void) {
  memset(longest, 'x', LONG);
  memset(buffer, '.', sizeof buffer);
  expect(rattle_arg(1, buffer, 8) == 4 && memcmp(buffer, "word....", 8) == 0, "a word, without its NUL");
  memset(buffer, '.', 8);
  expect(rattle_arg(1, buffer, 4) == 4 && memcmp(buffer, "word....", 8) == 0, "a word that fits exactly");
  memset(buffer, '.', 8);
  expect(rattle_arg(1, buffer, 3) == -2 && memcmp(buffer, "wor.....", 8) == 0, "a word too long by one: -2, full, no byte beyond");
  expect(rattle_arg(1, buffer, 0) == -2, "a word and no room");
  expect(rattle_arg(2, buffer, 0) == 0 && rattle_arg(2, buffer, 8) == 0, "an empty word, with and without room");
  expect(rattle_arg(3, buffer, LONG) == LONG && memcmp(buffer, longest, LONG) == 0 && buffer[LONG] == '.', "a word of 100000 bytes");
  expect(rattle_arg(3, buffer, LONG - 1) == -2, "a word of 100000 bytes and room for 99999");
  expect(rattle_arg(4, buffer, 8) == 2 && memcmp(buffer, "\xff\x01", 2) == 0, "a word of bytes that are no text");
  expect(rattle_arg(5, buffer, 8) == -1 && rattle_arg(6, buffer, 8) == -1 && rattle_arg(SIZE_MAX, buffer, 8) == -1 &&
           rattle_arg((size_t)1 << 32, buffer, 8) == -1, "no such word: -1");
  expect(rattle_arg(0, buffer, 8) > 0 || rattle_arg(0, buffer, 8) == -2, "the program's own name");
}

static void errors(void) {
  rattle_set_errno(EINTR);
  expect(errno == EINTR && rattle_errno() == EINTR, "errno as it was set");
  ssize_t got = read(-1, buffer, 1);
  expect(got == -1 && rattle_errno() == EBADF, "errno of a failed read");
  char c;
  rattle_arg(1, &c, 1), rattle_arg(9, &c, 1);
  struct tried it = rattle_alloc(1000, 8);
  rattle_dealloc(it.at);
  expect(rattle_errno() == EBADF, "errno kept by words, an allocation and its end");
  rattle_set_errno(0);
  expect(rattle_errno() == 0, "errno 0");
}

static void memory(void) {
  bool good = true;
  for (size_t align = 1; align <= 16; align *= 2)
    for (size_t size = 0; size < 5000; size += 7) {
      struct tried it = rattle_alloc(size, align);
      good = good && it.ok && (uintptr_t)it.at % align == 0;
      memset(it.at, 1, size);
      rattle_dealloc(it.at);
    }
  expect(good, "allocations of 0 to 5000 bytes, aligned to 1 to 16");
  struct tried a = rattle_alloc(0, 1), b = rattle_alloc(0, 1);
  expect(a.ok && b.ok && a.at != b.at, "two allocations of nothing are two places");
  rattle_dealloc(a.at), rattle_dealloc(b.at);
  a = rattle_alloc(100, 8);
  memset(a.at, 7, 100);
  a = rattle_realloc(a.at, 100, 100000, 8);
  good = a.ok;
  for (int k = 0; k < 100; k++) good = good && a.at[k] == 7;
  expect(good, "more memory keeps what was there");
  b = rattle_realloc(a.at, 100000, (size_t)1 << 62, 8);
  for (int k = 0; k < 100; k++) good = good && a.at[k] == 7;
  expect(good && !b.ok && b.at != NULL && b.at != a.at, "more memory refused: not ok, not null, the old block as it was");
  a = rattle_realloc(a.at, 100000, 10, 8);
  for (int k = 0; k < 10; k++) good = good && a.at[k] == 7;
  expect(good && a.ok, "less memory");
  a = rattle_realloc(a.at, 10, 0, 8);
  expect(a.ok && a.at != NULL, "memory for nothing is not freed");
  rattle_dealloc(a.at);
  b = rattle_alloc((size_t)1 << 62, 8);
  expect(!b.ok && b.at != NULL, "memory refused: not ok, not null");
#ifndef UNDER_QEMU
  struct rlimit none = {64 << 20, 64 << 20};
  setrlimit(RLIMIT_AS, &none);
#endif
  static char *block[1000];
  size_t blocks = 0;
  for (; blocks < 1000 && (a = rattle_alloc(1 << 20, 8)).ok; blocks++) memset(block[blocks] = a.at, 1, 1 << 20);
  for (size_t k = 0; k < blocks; k++) rattle_dealloc(block[k]);
#ifndef UNDER_QEMU
  expect(blocks > 0 && blocks < 64, "memory at its limit is refused");
#endif
  rattle_dealloc(NULL);
  expect(true, "the end of nothing");
}

int main(int count, char **given) {
  (void)given;
  if (count != 5) return fputs("os-test: run it by dist/os-test\n", stderr), 2;
  memset(longest, 'x', LONG);
  words(), errors(), memory();
  return failed > 0;
}
