#include <stdint.h>
static int f(const int64_t *v) {
  int64_t t = (((int64_t)v[0]) * ((int64_t)2));
  if ((((int64_t)t) > ((int64_t)0))) { return ((int)1); }
  return ((int)0);
}
int g(const int64_t *x, const int64_t *v) {
  if ((((int64_t)x[0]) < ((int64_t)x[1]))) { return ((int)f(v)); }
  return (-((int)1));
}
