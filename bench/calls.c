/* Nanoseconds a call of the emitted insphere, the best of nine rounds over 20,000 rows: at random, near 0, in a plane, on a line.
   Built and run by bench/c. */
#include <stdint.h>
#include <stdio.h>
#include <time.h>

int ln_insphere(const int64_t *x, const int64_t *v);

enum { ROWS = 20000, ROUNDS = 9 };

static int64_t x[ROWS][5], v[ROWS][15];
static uint64_t state = 88172645463325252u;

static int64_t below(int64_t most) {
  state ^= state << 13;
  state ^= state >> 7;
  state ^= state << 17;
  return (int64_t)(state % (uint64_t)most);
}

static double now(void) {
  struct timespec t;
  clock_gettime(CLOCK_PROCESS_CPUTIME_ID, &t);
  return (double)t.tv_sec + 1e-9 * (double)t.tv_nsec;
}

static int64_t value(int kind, int coordinate, int64_t step) {
  switch (kind) {
  case 0: return below(2097153) - 1048576;
  case 1: return below(5) - 2;
  case 2: return coordinate == 2 ? 0 : below(5) - 2;
  default: return step * (coordinate + 1);
  }
}

int main(void) {
  long sum = 0;
  for (int kind = 0; kind < 4; kind++) {
    for (int i = 0; i < ROWS; i++)
      for (int site = 0; site < 5; site++) {
        int64_t step = below(1000);
        x[i][site] = below(INT64_MAX);
        for (int c = 0; c < 3; c++) v[i][3 * site + c] = value(kind, c, step);
      }
    double best = 1;
    for (int round = 0; round < ROUNDS; round++) {
      double began = now();
      for (int i = 0; i < ROWS; i++) sum += ln_insphere(x[i], v[i]);
      if (now() - began < best) best = now() - began;
    }
    printf("%s%.0f", kind ? " " : "", best / ROWS * 1e9);
  }
  printf("%s\n", sum == INT64_MAX ? "!" : "");
  return 0;
}
