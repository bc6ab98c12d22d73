/* Calls that check, from C and from C++: a handler of one's own is told the predicate, the argument, the fault and of rows the row; 0 is returned. */
#define LNC_CHECKED
#include "lnc_plane.h"
#include "lnc_weighted_plane.h"
#include <stdio.h>

static void told(const char *predicate, const char *argument, const char *fault, size_t row) {
  printf("%s: %s %s", predicate, argument, fault);
  if (row != SIZE_MAX) printf(", row %zu", row);
  printf("\n");
}

int main(int argc, char **argv) {
  (void)argv;
  const ln_point2 p = {1, 0, 0}, q = {2, 1, 0}, r = {3, 0, 1}, twice = {2, 5, 5}, far = {4, 0, LN_POINT2_Y_MAX + 1}, low = {-1, 0, 0};
  const ln_weighted2 s = {1, 0, 0, 0}, light = {2, 0, 0, -1};
  const int64_t x[] = {1, 2, 3, 1, 2, 1, 7, 8, 9}, v[] = {0, 0, 1, 0, 0, 1, 0, 0, 1, 0, 0, 1, 0, 0, 0, 1, 1, 0};
  int8_t signs[] = {9, 9, 9};
  if (argc == 1) ln_on_refusal = told;
  printf("%d %d\n", ln_orient2_at(&p, &q, &r), ln_orient2_plain_at(&p, &q, &twice));
  printf("%d\n", ln_orient2_at(&p, &q, &twice));
  printf("%d\n", ln_orient2_at(&p, &far, &q));
  printf("%d\n", ln_compare_x2_at(&p, &low));
  printf("%d\n", ln_wcompare_w2_at(&s, &light));
  printf("%d\n", ln_orient2(x, v));
  printf("%d\n", ln_orient2(x + 3, v));
  ln_orient2_rows(3, x, v, signs);
  printf("%d %d %d\n", signs[0], signs[1], signs[2]);
#ifdef __cplusplus
  printf("%d\n", lnc::orient2(p, q, r));
  printf("%d\n", lnc::orient2_plain(p, q, far));
#endif
}
