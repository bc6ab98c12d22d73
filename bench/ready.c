/* Rows of a predicate whose sites are of one type, half of them degenerate, in random orders of their indices, and the signs of its calls in shared
   libraries. Of the degenerate ones, whose plain value is 0, half are small and half in another size at another place; of some all sites are at one place.
   It writes the rows to a file, after a header, and to standard output a line for each: the sign, or `!` where two calls say something else.
   Built and run by bench/c: ready NAME HEADER SITES COUNT FILE LIBRARY.. with the ends of each coordinate's range on standard input, weights last */
#include <dlfcn.h>
#include <stdint.h>
#include <stdio.h>
#include <stdlib.h>
#include <string.h>

enum { SITES = 5, WIDTH = 4, LIBRARIES = 4 };

typedef int by_arrays(const int64_t *, const int64_t *);
typedef void by_rows(size_t, const int64_t *, const int64_t *, int8_t *);
typedef int by_2(const int64_t *, const int64_t *);
typedef int by_3(const int64_t *, const int64_t *, const int64_t *);
typedef int by_4(const int64_t *, const int64_t *, const int64_t *, const int64_t *);
typedef int by_5(const int64_t *, const int64_t *, const int64_t *, const int64_t *, const int64_t *);
typedef int plain(const int64_t *);

static int sites, width, has_weights;
static int64_t low[WIDTH], high[WIDTH], x[SITES], v[SITES * WIDTH], points[SITES * (WIDTH + 1)];
static uint64_t state = 88172645463325252u;

static uint64_t next(void) {
  state ^= state << 13;
  state ^= state >> 7;
  state ^= state << 17;
  return state;
}

static int64_t within(int64_t least, int64_t most, int c) {
  if (least < low[c]) least = low[c];
  if (most > high[c]) most = high[c];
  return least + (int64_t)(next() % ((uint64_t)most - (uint64_t)least + 1));
}

/* the values in another size and at another place, if they are in range and still degenerate there */
static void moved(plain *is) {
  int64_t far[SITES * WIDTH], size = 1 + (int64_t)(next() % 4000), most = high[0] / 2;
  for (int c = 0; c < width; c++) {
    const int is_weight = has_weights && c == width - 1;
    const int64_t to = is_weight ? within(0, most, c) : within(-most, most, c);
    for (int s = 0; s < sites; s++) {
      const int64_t z = v[s * width + c] * size * (is_weight ? size : 1) + to;
      if (z < low[c] || z > high[c]) return;
      far[s * width + c] = z;
    }
  }
  if (is(far) == 0) memcpy(v, far, sizeof far);
}

static void values(int kind, plain *is) {
  const int near = 1 + (int)(next() % 3), is_degenerate = kind % 2, are_equal = kind % 64 == 1;
  do {
    for (int s = 0; s < sites; s++)
      for (int c = 0; c < width; c++)
        v[s * width + c] = !is_degenerate ? within(low[c], high[c], c) : s && are_equal ? v[c] : within(-near, near, c);
  } while (is_degenerate && is(v) != 0);
  if (is_degenerate && next() % 2) moved(is);
}

static void indices(void) {
  const uint64_t from = next() % 3 ? next() % 2 ? 0 : INT64_MAX - 9 : 0, many = next() % 3 ? 9 : (uint64_t)INT64_MAX;
  for (int s = 0; s < sites; s++) {
    int is_new;
    do {
      x[s] = (int64_t)((from + next() % many) & INT64_MAX);
      is_new = 1;
      for (int t = 0; t < s; t++) is_new = is_new && x[t] != x[s];
    } while (!is_new);
  }
}

static int over_points(void *f) {
  const int w = width + 1;
  const int64_t *p = points;
  if (sites == 2) return ((by_2 *)f)(p, p + w);
  if (sites == 3) return ((by_3 *)f)(p, p + w, p + 2 * w);
  if (sites == 4) return ((by_4 *)f)(p, p + w, p + 2 * w, p + 3 * w);
  return ((by_5 *)f)(p, p + w, p + 2 * w, p + 3 * w, p + 4 * w);
}

static void *found(void *library, const char *name, const char *end) {
  char symbol[120];
  snprintf(symbol, sizeof symbol, "ln_%s%s", name, end);
  void *f = library ? dlsym(library, symbol) : NULL;
  if (!f) fprintf(stderr, "ready: %s\n", dlerror()), exit(2);
  return f;
}

int main(int argc, char **argv) {
  if (argc < 7 || argc > 6 + LIBRARIES) return 2;
  const int count = atoi(argv[4]), libraries = argc - 6;
  void *calls[LIBRARIES][3];
  plain *is = NULL;
  for (int k = 0; k < libraries; k++) {
    void *library = dlopen(argv[6 + k], RTLD_NOW | RTLD_LOCAL);
    calls[k][0] = found(library, argv[1], ""), calls[k][1] = found(library, argv[1], "_rows"), calls[k][2] = found(library, argv[1], "_at");
    is = (plain *)found(library, argv[1], "_plain");
  }
  sites = atoi(argv[3]);
  while (width < WIDTH && scanf("%ld %ld", &low[width], &high[width]) == 2) width++;
  has_weights = width > 1 && low[width - 1] == 0;
  FILE *file = fopen(argv[5], "w");
  if (!file) return 2;
  fprintf(file, "%s\n", argv[2]);
  for (int i = 0; i < count; i++) {
    values(i, is);
    indices();
    for (int s = 0; s < sites; s++) {
      int64_t *p = points + s * (width + 1);
      p[0] = x[s];
      fprintf(file, "%s%ld", s ? "," : "", (long)x[s]);
      for (int c = 0; c < width; c++) fprintf(file, ",%ld", (long)(p[c + 1] = v[s * width + c]));
    }
    fputc('\n', file);
    int said = 0, differ = 0;
    for (int k = 0; k < libraries; k++) {
      int8_t sign;
      ((by_rows *)calls[k][1])(1, x, v, &sign);
      said = ((by_arrays *)calls[k][0])(x, v);
      differ = differ || said != sign || said != over_points(calls[k][2]) || said != ((by_arrays *)calls[0][0])(x, v);
    }
    puts(differ ? "!" : said > 0 ? "+" : said < 0 ? "-" : "0");
  }
  return fclose(file) != 0;
}
