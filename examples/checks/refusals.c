/* Counts the allocations of a program, and those that are refused: a library that is loaded before the program's own. The system may refuse, and so
   does this where the environment says: REFUSED is the number, from 1, of an allocation to refuse, and MOST how many bytes may be held at a time. At
   the program's end the file that ASKED names has three numbers: how many allocations were asked for, how many were refused, and how many bytes
   were held at the most. */
#include <fcntl.h>
#include <malloc.h>
#include <stdio.h>
#include <stdlib.h>
#include <unistd.h>

void *__libc_malloc(size_t);
void *__libc_realloc(void *, size_t);
void __libc_free(void *);
static long asked, refusals, to_refuse, most;
static size_t held, peak;

static long number(const char *name) {
  const char *text = getenv(name);
  return text ? atol(text) : 0;
}

__attribute__((constructor)) static void begin(void) { to_refuse = number("REFUSED"); most = number("MOST"); }

/* whether n bytes are refused, where so many are given back for them */
static int refuses(size_t n, size_t back) { return ++asked == to_refuse || (most > 0 && held - back + n > (size_t)most); }

static void *counted(void *p, size_t n, size_t back) {
  if (p == NULL && n > 0) { refusals++; return p; }
  held = held - back + malloc_usable_size(p);
  if (held > peak) peak = held;
  return p;
}

void *malloc(size_t n) { return counted(refuses(n, 0) ? NULL : __libc_malloc(n), n, 0); }

void *realloc(void *p, size_t n) {
  size_t back = malloc_usable_size(p);
  return counted(refuses(n, back) ? NULL : __libc_realloc(p, n), n, back);
}

void free(void *p) {
  held -= malloc_usable_size(p);
  __libc_free(p);
}

__attribute__((destructor)) static void tell(void) {
  const char *name = getenv("ASKED");
  int file = name ? open(name, O_WRONLY | O_CREAT | O_TRUNC, 0600) : -1;
  if (file >= 0) { dprintf(file, "%ld %ld %zu", asked, refusals, peak); close(file); }
}
