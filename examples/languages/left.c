/* From C: which way do three points turn? */
#include <stdint.h>
#include <stdio.h>

int ln_orient(const int64_t *x, const int64_t *v);

int main(void) {
  int64_t x[3] = {1, 2, 3};                                          /* the indices of p, q and r */
  int64_t corner[6] = {0, 0, 1, 0, 0, 1}, line[6] = {0, 0, 1, 1, 2, 2}; /* p.x, p.y, q.x, q.y, r.x, r.y */
  printf("%d %d\n", ln_orient(x, corner), ln_orient(x, line));
}
