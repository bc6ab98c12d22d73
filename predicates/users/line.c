/* From C, with the installed library: three points on a line turn one way, and plainly neither; a point that is out of range. */
#include <lnc_plane.h>
#include <stdio.h>

int main(void) {
  ln_point2 p = {1, 0, 0}, q = {2, 1, 1}, r = {3, 2, 2}, far = {4, LN_POINT2_X_MAX + 1, 0};
  printf("%d %d %d\n", ln_orient2_at(&p, &q, &r), ln_orient2_plain_at(&p, &q, &r), ln_point2_in_range(&far));
}
