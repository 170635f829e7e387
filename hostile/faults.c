// faults.c: a preloaded library that refuses allocations, shortens and interrupts reads and writes, and lets them fail.
// Each variable of the environment has a number, and what is not set does nothing:
//   FAIL_ALLOC n     the nth call of malloc or realloc has no memory
//   READ_SIZE n      a read of standard input gives at most n bytes
//   READ_END n       standard input ends after n bytes
//   READ_FAIL n      a read of standard input after n bytes fails
//   READ_SIGNAL n    each nth read of standard input is interrupted by a signal
//   WRITE_SIZE n     a write on standard output takes at most n bytes
//   WRITE_FAIL n     a write on standard output after n bytes fails
// COUNT names a file that gets the number of allocations at the end.
#define _GNU_SOURCE
#include <dlfcn.h>
#include <errno.h>
#include <fcntl.h>
#include <stdlib.h>
#include <string.h>
#include <sys/types.h>
#include <unistd.h>

extern void *__libc_malloc(size_t);
extern void *__libc_realloc(void *, size_t);

static long setting(const char *name) {
    const char *text = getenv(name);
    return text ? atol(text) : -1;
}

static long allocations, taken, given, reads;

static int is_refused(void) { return ++allocations == setting("FAIL_ALLOC"); }

void *malloc(size_t size) {
    if (is_refused()) { errno = ENOMEM; return NULL; }
    return __libc_malloc(size);
}

void *realloc(void *old, size_t size) {
    if (is_refused()) { errno = ENOMEM; return NULL; }
    return __libc_realloc(old, size);
}

static size_t least(size_t count, long limit) { return limit >= 0 && (size_t)limit < count ? (size_t)limit : count; }

ssize_t read(int file, void *into, size_t count) {
    static ssize_t (*real)(int, void *, size_t);
    if (!real) real = (ssize_t (*)(int, void *, size_t))dlsym(RTLD_NEXT, "read");
    if (file != 0) return real(file, into, count);
    long end = setting("READ_END"), fail = setting("READ_FAIL"), signal = setting("READ_SIGNAL");
    if (signal > 0 && ++reads % signal == 0) { errno = EINTR; return -1; }
    if (fail >= 0 && taken >= fail) { errno = EIO; return -1; }
    if (end >= 0 && taken >= end) return 0;
    count = least(count, setting("READ_SIZE"));
    if (fail >= 0) count = least(count, fail - taken);
    if (end >= 0) count = least(count, end - taken);
    ssize_t n = real(file, into, count);
    if (n > 0) taken += n;
    return n;
}

ssize_t write(int file, const void *from, size_t count) {
    static ssize_t (*real)(int, const void *, size_t);
    if (!real) real = (ssize_t (*)(int, const void *, size_t))dlsym(RTLD_NEXT, "write");
    if (file != 1) return real(file, from, count);
    long fail = setting("WRITE_FAIL");
    if (fail >= 0 && given >= fail) { errno = ENOSPC; return -1; }
    count = least(count, setting("WRITE_SIZE"));
    if (fail >= 0) count = least(count, fail - given);
    ssize_t n = real(file, from, count);
    if (n > 0) given += n;
    return n;
}

ssize_t __write(int file, const void *from, size_t count) { return write(file, from, count); }

__attribute__((destructor)) static void tell(void) {
    const char *name = getenv("COUNT");
    if (!name) return;
    char text[24];
    int n = 0;
    long left = allocations;
    do { text[n++] = '0' + left % 10; left /= 10; } while (left);
    for (int i = 0; i < n / 2; i++) { char c = text[i]; text[i] = text[n - 1 - i]; text[n - 1 - i] = c; }
    int file = open(name, O_WRONLY | O_CREAT | O_TRUNC, 0600);
    if (file >= 0) { ssize_t done = write(file, text, n); (void)done; close(file); }
}
