/* Nanoseconds a call of predicates in two shared libraries, on the same rows in one run: seconds of processor of each thousand rows, the best of the
   rounds. Each line of standard input is a predicate: its name, its sites, its coordinates and of each the ends of its range. For each kind of rows it
   prints what a call by arrays takes in the first library and in the second, and what one by points takes. Status 1 where a sign differs or is 0.
   Built and run by bench/c: beside FIRST SECOND ROWS ROUNDS */
#include <dlfcn.h>
#include <stdint.h>
#include <stdio.h>
#include <stdlib.h>
#include <string.h>
#include <time.h>

enum { SITES = 5, WIDTH = 4, MOST = 1000000, EACH = 1000 };
static const char *const KINDS[] = {"random", "near 0", "in a plane", "on a line", "equal"};

static int sites, width, count, rounds;
static int64_t low[WIDTH], high[WIDTH];
static int64_t *xs, *vs, *points;
static signed char *signs[4];
static uint64_t state = 88172645463325252u;

static int64_t below(int64_t most) {
  state ^= state << 13;
  state ^= state >> 7;
  state ^= state << 17;
  return (int64_t)(state % (uint64_t)most);
}

static int64_t within(int64_t least, int64_t most, int c) {
  if (least < low[c]) least = low[c];
  if (most > high[c]) most = high[c];
  return least + below(most - least + 1);
}

/* a coordinate of a site that is at this step of a line */
static int64_t coordinate(int kind, int c, int64_t step) {
  switch (kind) {
  case 0: return within(low[c], high[c], c);
  case 1: return within(-2, 2, c);
  case 2: return c == 1 ? low[c] < 0 ? 0 : low[c] : within(-2, 2, c);
  case 3: return (low[c] < 0 ? -500 : 0) + step * (c + 1);
  default: return within(c + 1, c + 1, c);
  }
}

static void rows(int kind) {
  for (int i = 0; i < count; i++)
    for (int s = 0; s < sites; s++) {
      int64_t *x = xs + i * sites, *v = vs + (i * sites + s) * width, *p = points + (i * sites + s) * (width + 1);
      const int64_t step = below(200);
      int is_new;
      do {
        x[s] = kind == 0 ? below(INT64_MAX) : below(1000000);
        is_new = 1;
        for (int t = 0; t < s; t++) is_new = is_new && x[t] != x[s];
      } while (!is_new);
      p[0] = x[s];
      for (int c = 0; c < width; c++) p[c + 1] = v[c] = coordinate(kind, c, step);
    }
}

static double now(void) {
  struct timespec t;
  clock_gettime(CLOCK_THREAD_CPUTIME_ID, &t);
  return (double)t.tv_sec + 1e-9 * (double)t.tv_nsec;
}

typedef int by_arrays(const int64_t *, const int64_t *);
typedef int by_2(const int64_t *, const int64_t *);
typedef int by_3(const int64_t *, const int64_t *, const int64_t *);
typedef int by_4(const int64_t *, const int64_t *, const int64_t *, const int64_t *);
typedef int by_5(const int64_t *, const int64_t *, const int64_t *, const int64_t *, const int64_t *);

/* the rows from one on, by arrays, or by points */
static void call(void *f, int is_by_points, int from, int to, signed char *said) {
  const int w = width + 1;
  for (int i = from; i < to; i++) {
    const int64_t *p = points + i * sites * w;
    int sign;
    if (!is_by_points) sign = ((by_arrays *)f)(xs + i * sites, vs + i * sites * width);
    else if (sites == 2) sign = ((by_2 *)f)(p, p + w);
    else if (sites == 3) sign = ((by_3 *)f)(p, p + w, p + 2 * w);
    else if (sites == 4) sign = ((by_4 *)f)(p, p + w, p + 2 * w, p + 3 * w);
    else sign = ((by_5 *)f)(p, p + w, p + 2 * w, p + 3 * w, p + 4 * w);
    said[i] = (signed char)sign;
  }
}

/* nanoseconds a call of each of the four functions, which take turns */
static void timed(void **functions, double *each) {
  const int parts = (count + EACH - 1) / EACH;
  double *best = malloc(sizeof(double) * 4 * parts);
  for (int k = 0; k < 4 * parts; k++) best[k] = 1e9;
  for (int round = 0; round < rounds; round++)
    for (int part = 0; part < parts; part++)
      for (int turn = 0; turn < 4; turn++) {
        const int f = (turn + round) % 4, from = part * EACH, to = from + EACH < count ? from + EACH : count;
        const double began = now();
        call(functions[f], f >= 2, from, to, signs[f]);
        const double took = now() - began;
        if (took < best[f * parts + part]) best[f * parts + part] = took;
      }
  for (int f = 0; f < 4; f++) {
    each[f] = 0;
    for (int part = 0; part < parts; part++) each[f] += best[f * parts + part];
    each[f] *= 1e9 / count;
  }
  free(best);
}

int main(int argc, char **argv) {
  if (argc != 5) return 2;
  void *libraries[] = {dlopen(argv[1], RTLD_NOW | RTLD_LOCAL), dlopen(argv[2], RTLD_NOW | RTLD_LOCAL)};
  count = atoi(argv[3]), rounds = atoi(argv[4]);
  if (!libraries[0] || !libraries[1] || count < 1 || count > MOST) return fprintf(stderr, "beside: %s\n", dlerror()), 2;
  xs = malloc(sizeof(int64_t) * count * SITES), vs = malloc(sizeof(int64_t) * count * SITES * WIDTH);
  points = malloc(sizeof(int64_t) * count * SITES * (WIDTH + 1));
  for (int f = 0; f < 4; f++) signs[f] = malloc(count);
  char name[100], symbol[110];
  int bad = 0;
  while (scanf("%99s %d %d", name, &sites, &width) == 3) {
    for (int c = 0; c < width; c++)
      if (scanf("%ld %ld", &low[c], &high[c]) != 2) return 2;
    void *functions[4];
    for (int f = 0; f < 4; f++) {
      snprintf(symbol, sizeof symbol, "ln_%s%s", name, f < 2 ? "" : "_at");
      functions[f] = dlsym(libraries[f % 2], symbol);
      if (!functions[f]) return fprintf(stderr, "beside: no %s\n", symbol), 2;
    }
    for (int kind = 0; kind < 5; kind++) {
      double each[4];
      rows(kind);
      timed(functions, each);
      int differ = 0;
      for (int i = 0; i < count; i++) differ += signs[0][i] == 0 || signs[0][i] != signs[1][i] || signs[0][i] != signs[2][i] || signs[0][i] != signs[3][i];
      printf("%s;%s;%.2f;%.2f;%.2f;%.2f;%d\n", name, KINDS[kind], each[0], each[1], each[2], each[3], differ);
      fflush(stdout);
      bad = bad || differ;
    }
  }
  return bad;
}
