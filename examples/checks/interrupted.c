/* Before malloc's kin come read and write: each call is interrupted so many times in a row before it is made, as READS and WRITES say (three where
   they don't), and takes at most as many bytes as BYTES says. How many interruptions there were, and how many calls were made, goes to the
   file that INTERRUPTED names. Loaded by LD_PRELOAD. */
#define _GNU_SOURCE
#include <dlfcn.h>
#include <errno.h>
#include <stdio.h>
#include <stdlib.h>
#include <unistd.h>

static long in_a_row, all, calls;

static long number(const char *name, long otherwise) {
  const char *text = getenv(name);
  return text ? atol(text) : otherwise;
}

static int interrupts(const char *name) {
  if (in_a_row++ == number(name, 3)) { in_a_row = 0; calls++; return 0; }
  all++;
  errno = EINTR;
  return 1;
}

static size_t some(size_t n) {
  size_t most = (size_t)number("BYTES", 0);
  return most && n > most ? most : n;
}

ssize_t read(int fd, void *buf, size_t n) {
  ssize_t (*next)(int, void *, size_t) = dlsym(RTLD_NEXT, "read");
  return interrupts("READS") ? -1 : next(fd, buf, some(n));
}
ssize_t write(int fd, const void *buf, size_t n) {
  ssize_t (*next)(int, const void *, size_t) = dlsym(RTLD_NEXT, "write");
  return interrupts("WRITES") ? -1 : next(fd, buf, some(n));
}

__attribute__((destructor)) static void tell(void) {
  const char *name = getenv("INTERRUPTED");
  FILE *file = name ? fopen(name, "w") : NULL;
  if (file) { fprintf(file, "%ld %ld\n", all, calls); fclose(file); }
}
