/* Reads grids and points and writes what lnc_grid.h makes of them; examples/checks/grid.py compares. A double is its 64 bits in hexadecimal digits. Of a
   line `make DIMENSION LOW HIGH N` the N points follow, of `over ..` the two ends of a box; then lines `add` and `snap` with a point each, `weight` with
   a double. Compiled as C and as C++ */
#include "lnc_grid.h"
#include <inttypes.h>
#include <stdio.h>

static double number(void) {
  uint64_t bits;
  double value;
  if (scanf("%" SCNx64, &bits) != 1) exit(1);
  memcpy(&value, &bits, sizeof value);
  return value;
}

static void print(double value) {
  uint64_t bits;
  memcpy(&bits, &value, sizeof bits);
  printf(" %016" PRIx64, bits);
}

static void place(const ln_grid *grid, const int64_t *coordinates) {
  double back[LN_GRID_MOST];
  ln_grid_back(grid, coordinates, back);
  for (int i = 0; i < grid->dimension; i++) printf(" %" PRId64, coordinates[i]);
  for (int i = 0; i < grid->dimension; i++) print(back[i]);
}

static void described(const ln_grid *grid) {
  printf(" %d", grid->power);
  for (int i = 0; i < grid->dimension; i++) printf(" %" PRId64, grid->origin[i]);
  printf(" %zu %zu", grid->equal, grid->merged);
  print(grid->move);
}

int main(void) {
  static const char *const ends[] = {"done", "taken", "range", "finite", "memory"};
  static double given[1 << 20];
  ln_grid grid = {0, 0, 0, 0, {0}, 0, 0, 0, 0, 0, 0, 0, 0, 0, 0, 0};
  int64_t coordinates[LN_GRID_MOST];
  size_t n, own = 0;
  char word[16];
  while (scanf("%15s", word) == 1) {
    int end = LN_GRID_DONE;
    if (word[0] == 'm' || word[0] == 'o') {
      int dimension;
      int64_t low, high;
      ln_grid_free(&grid);
      if (scanf("%d %" SCNd64 " %" SCNd64 " %zu", &dimension, &low, &high, &n) != 4) return 1;
      for (size_t k = 0; k < n * (size_t)dimension; k++) given[k] = number();
      end = word[0] == 'm' ? ln_grid_make(&grid, dimension, n, given, low, high) : ln_grid_over(&grid, dimension, given, given + dimension, low, high);
      printf("%s", ends[end]);
      if (end == LN_GRID_DONE) described(&grid);
      else if (word[0] == 'm') printf(" %zu", grid.refused);
      for (size_t k = 0; k < grid.count; k++) {
        printf("\n%zu", grid.first[k]);
        place(&grid, grid.at + k * (size_t)dimension);
      }
    } else if (word[0] == 'w') {
      end = ln_grid_weight(&grid, number(), 0, INT64_C(1) << 60, coordinates);
      printf("%s", ends[end]);
      if (end == LN_GRID_DONE) printf(" %" PRId64, coordinates[0]);
    } else {
      for (int i = 0; i < grid.dimension; i++) given[i] = number();
      end = word[0] == 'a' ? ln_grid_add(&grid, given, &own) : ln_grid_snap(&grid, given, coordinates);
      printf("%s", ends[end]);
      if (word[0] == 'a' && end <= LN_GRID_TAKEN) {
        printf(" %zu", own);
        place(&grid, grid.at + own * (size_t)grid.dimension);
      } else if (end == LN_GRID_DONE) place(&grid, coordinates);
    }
    printf("\n");
  }
  ln_grid_free(&grid);
  return 0;
}
