/* Copied files alone: is a point inside the sphere of four others? The first is, the second is on it, and inside where the points have moved. */
#define LNC_SPACE_IMPLEMENTATION
#include "lnc_space.h"
#include <stdio.h>

int main(void) {
  const ln_point3 a = {1, 0, 0, 0}, b = {2, 0, 4, 0}, c = {3, 4, 0, 0}, d = {4, 0, 0, 4};
  const ln_point3 e[] = {{5, 1, 1, 1}, {6, 4, 4, 4}, {7, 5, 4, 4}};
  for (int i = 0; i < 3; i++) printf("%d %d\n", ln_insphere_plain_at(&a, &b, &c, &d, &e[i]), ln_insphere_at(&a, &b, &c, &d, &e[i]));
}
