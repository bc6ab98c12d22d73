/* The determinants that one would write by hand for the rows that bench/exact.cpp measures: exact in 64 and 128 bits, and not perturbed,
   so they return 0 on degenerate rows. */
#include <stdint.h>

typedef __int128 wide;

static int sign(wide d) { return (d > 0) - (d < 0); }

int plain_orient(const int64_t *x, const int64_t *v) {
  (void)x;
  int64_t d = (v[0] - v[4]) * (v[3] - v[5]) - (v[1] - v[5]) * (v[2] - v[4]);
  return (d > 0) - (d < 0);
}

int plain_wide(const int64_t *x, const int64_t *v) {
  (void)x;
  return sign((wide)(v[0] - v[4]) * (v[3] - v[5]) - (wide)(v[1] - v[5]) * (v[2] - v[4]));
}

int plain_orient3(const int64_t *x, const int64_t *v) {
  (void)x;
  int64_t ax = v[0] - v[9], ay = v[1] - v[10], az = v[2] - v[11];
  int64_t bx = v[3] - v[9], by = v[4] - v[10], bz = v[5] - v[11];
  int64_t cx = v[6] - v[9], cy = v[7] - v[10], cz = v[8] - v[11];
  return sign((wide)ax * (by * cz - bz * cy) + (wide)bx * (cy * az - cz * ay) + (wide)cx * (ay * bz - az * by));
}

int plain_incircle(const int64_t *x, const int64_t *v) {
  (void)x;
  int64_t ax = v[0] - v[6], ay = v[1] - v[7], bx = v[2] - v[6], by = v[3] - v[7], cx = v[4] - v[6], cy = v[5] - v[7];
  int64_t aw = ax * ax + ay * ay, bw = bx * bx + by * by, cw = cx * cx + cy * cy;
  return sign((wide)aw * (bx * cy - by * cx) - (wide)bw * (ax * cy - ay * cx) + (wide)cw * (ax * by - ay * bx));
}

int plain_insphere(const int64_t *x, const int64_t *v) {
  (void)x;
  int64_t ax = v[0] - v[12], ay = v[1] - v[13], az = v[2] - v[14], bx = v[3] - v[12], by = v[4] - v[13], bz = v[5] - v[14];
  int64_t cx = v[6] - v[12], cy = v[7] - v[13], cz = v[8] - v[14], dx = v[9] - v[12], dy = v[10] - v[13], dz = v[11] - v[14];
  int64_t ab = ax * by - bx * ay, bc = bx * cy - cx * by, cd = cx * dy - dx * cy, da = dx * ay - ax * dy;
  int64_t ac = ax * cy - cx * ay, bd = bx * dy - dx * by;
  wide abc = (wide)az * bc - (wide)bz * ac + (wide)cz * ab, bcd = (wide)bz * cd - (wide)cz * bd + (wide)dz * bc;
  wide cda = (wide)cz * da + (wide)dz * ac + (wide)az * cd, dab = (wide)dz * ab + (wide)az * bd + (wide)bz * da;
  int64_t al = ax * ax + ay * ay + az * az, bl = bx * bx + by * by + bz * bz;
  int64_t cl = cx * cx + cy * cy + cz * cz, dl = dx * dx + dy * dy + dz * dz;
  return sign((dl * abc - cl * dab) + (bl * cda - al * bcd));
}
