// os.c: what squitter-x86_64.s and squitter-aarch64.s call beside the C library: the words of the command line, errno and the heap.
//
// It stands for libos_c.a and liblibc_c.a of the Rattle toolchain, and says the same as their objects args, errno and heap do:
// dist/os-same compares the instructions. The proofs take the contracts of these functions as written (crates os and libc of the
// toolchain); os-test.c tries them.
#ifdef WORDS_OF_MAIN
#define _GNU_SOURCE
#include <sys/syscall.h>
#include <unistd.h>
#endif
#include <errno.h>
#include <stdbool.h>
#include <stddef.h>
#include <stdlib.h>

static int count;
static char **words;

// glibc hands main's words to each constructor, of a static program too.
#ifndef WORDS_OF_MAIN
__attribute__((constructor))
#endif
static void keep(int argc, char **argv) {
  count = argc;
  words = argv;
}

#ifdef WORDS_OF_MAIN
// musl hands constructors no words. So `main` is wrapped there, with ld's --wrap=main.
int __real_main(int argc, char **argv);
int __wrap_main(int argc, char **argv) {
  keep(argc, argv);
  return __real_main(argc, argv);
}

// musl before 1.2.5 has no statx.
__attribute__((weak)) int statx(int folder, const char *path, int flags, unsigned mask, void *out) {
  return (int)syscall(SYS_statx, folder, path, flags, mask, out);
}
#endif

// Copies word `at` without its NUL to `to`, and returns its length: -1 where there is no such word, and -2 where it is longer than
// `room`, and then `to` is full.
ptrdiff_t rattle_arg(size_t at, char *to, size_t room) {
  if (at >= (size_t)count || words[at] == NULL) return -1;
  const char *word = words[at];
  size_t length = 0;
  for (; word[length] != 0; length++) {
    if (length == room) return -2;
    to[length] = word[length];
  }
  return (ptrdiff_t)length;
}

int rattle_errno(void) { return errno; }

void rattle_set_errno(int error) { errno = error; }

// Whether there is memory, and where: at a byte that nobody uses where there is none, since `at` is never null.
struct tried {
  bool ok;
  char *at;
};

static char nothing;

static struct tried answer(char *at) {
  struct tried it = {at != NULL, at};
  if (!it.ok) it.at = &nothing;
  return it;
}

// malloc aligns to 16 bytes on both processors, and the contract asks for no more. For no bytes it gets `align` bytes, so that
// each answer is a place of its own.
struct tried rattle_alloc(size_t size, size_t align) { return answer(malloc(size == 0 ? align : size)); }

// Where there is no memory, the block at `old` stays as it was.
struct tried rattle_realloc(void *old, size_t kept, size_t size, size_t align) {
  (void)kept;
  return answer(realloc(old, size == 0 ? align : size));
}

void rattle_dealloc(void *at) { free(at); }
