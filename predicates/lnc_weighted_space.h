/* lnc_weighted_space.h: written by header.py, so change weighted_space.ln and not this file.
   weighted_space.ln has the SHA-256 efa8a0a77af3ec1e7733efebd0d2df430d325b2ac27dca2b807ed2e513dbf45f,
   and weighted_space.c, which lnc_exact turning writes of it, the SHA-256 ce5e31bac3a9ef1942b25d33119e67283736e99a04378f9306de2e4df1723bde.

   Two files are enough, this one and weighted_space.c. In one C file of your program, compiled by gcc or clang for a 64-bit target:

       #define LNC_WEIGHTED_SPACE_IMPLEMENTATION
       #include "lnc_weighted_space.h"

   and in all others, C or C++, the second line alone. For each predicate NAME there are

   ln_NAME_at(&p, ..)           1 or -1, the sign at the moved points; with params it may be 0. The indices of the sites have to differ and are from 0 to
                                2^63 - 1, the values are each in its range. Nothing is checked (but see below). In C++ lnc::NAME(p, ..)
   ln_NAME_plain_at(&p, ..)     1, 0 or -1, the sign at the points themselves, 0 where they are degenerate. In C++ lnc::NAME_plain(p, ..)
   ln_NAME(x, v)                the same of arrays: x has the indices of the sites, v the values, in the order of the comments below; ln_NAME_plain(v)
   ln_NAME_rows(n, x, v, signs) ln_NAME of n rows, each after the other in x and in v, into signs

   and for each type of points SITE, with a member for the index and one for each coordinate, in the order in which the type declares them,

   ln_SITE_in_range(&p)         whether index and coordinates are in range; in C++ lnc::in_range(p). Test each point once, where it is made

   With `#define LNC_CHECKED` before the header is included, all these calls test what they are given. At the first value out of range, negative index or
   index twice they call ln_on_refusal, a pointer that you may set, with the names of predicate and argument; else they print these and abort

   Of worient3, power3, wcompare_x3, wcompare_y3, wcompare_z3, wcompare_w3, wlexicographic3, wcoplanar_xy, wcoplanar_yz,
   wcoplanar_zx
   weighted_space.c has the sign in one order of the sites, la_NAME or ls_NAME, which is proved for rows whose indices rise. ln_NAME puts each row into this order
   (lr_in_order below), by lines that are tested and that no proof reaches */
#ifndef LNC_WEIGHTED_SPACE_H
#define LNC_WEIGHTED_SPACE_H
#include <stddef.h>
#include <stdint.h>

#if defined(LNC_CHECKED) && !defined(LNC_HAS_REFUSAL)
#define LNC_HAS_REFUSAL
#include <stdio.h>
#include <stdlib.h>
#ifdef __cplusplus
extern "C" {
#endif
/* told of the first fault of a call: the predicate, the argument ("p" for its index, "p.x"), what is wrong with it, and of ln_NAME_rows the row,
   from 0, otherwise SIZE_MAX. Where it returns, the call returns 0, or writes 0 for the row. Without another it prints this and aborts */
typedef void ln_refusal(const char *predicate, const char *argument, const char *fault, size_t row);
static inline void lr_aborts(const char *predicate, const char *argument, const char *fault, size_t row) {
  if (row == SIZE_MAX) fprintf(stderr, "lnc: %s: %s %s\n", predicate, argument, fault);
  else fprintf(stderr, "lnc: %s, row %zu: %s %s\n", predicate, row, argument, fault);
  abort();
}
__attribute__((weak)) ln_refusal *ln_on_refusal = lr_aborts;
static inline int lr_is(int right, const char *predicate, const char *argument, const char *fault, size_t row) {
  if (!right) ln_on_refusal(predicate, argument, fault, row);
  return right;
}
#ifdef __cplusplus
}
#endif
#endif

#ifdef __cplusplus
extern "C" {
#endif

#define LN_WEIGHTED3_X_MIN INT64_C(-8388608)
#define LN_WEIGHTED3_X_MAX INT64_C(8388608)
#define LN_WEIGHTED3_Y_MIN INT64_C(-8388608)
#define LN_WEIGHTED3_Y_MAX INT64_C(8388608)
#define LN_WEIGHTED3_Z_MIN INT64_C(-8388608)
#define LN_WEIGHTED3_Z_MAX INT64_C(8388608)
#define LN_WEIGHTED3_W_MIN INT64_C(0)
#define LN_WEIGHTED3_W_MAX INT64_C(70368744177664)
typedef struct ln_weighted3 { int64_t index, x, y, z, w; } ln_weighted3;
static inline int ln_weighted3_in_range(const ln_weighted3 *p) {
  return 0 <= p->index &&
    LN_WEIGHTED3_X_MIN <= p->x && p->x <= LN_WEIGHTED3_X_MAX &&
    LN_WEIGHTED3_Y_MIN <= p->y && p->y <= LN_WEIGHTED3_Y_MAX &&
    LN_WEIGHTED3_Z_MIN <= p->z && p->z <= LN_WEIGHTED3_Z_MAX &&
    LN_WEIGHTED3_W_MIN <= p->w && p->w <= LN_WEIGHTED3_W_MAX;
}

/* + where a, b, c turn clockwise seen from d: the sign of Shewchuk's orient3d, the opposite of CGAL's orientation. */
/* x: a, b, c, d
   v: a.x, a.y, a.z, a.w, b.x, b.y, b.z, b.w, c.x, c.y, c.z, c.w, d.x, d.y, d.z, d.w */
int ln_worient3(const int64_t *x, const int64_t *v);
int ln_worient3_plain(const int64_t *v);
void ln_worient3_rows(size_t n, const int64_t *x, const int64_t *v, int8_t *signs);
int ln_worient3_at(const ln_weighted3 *a, const ln_weighted3 *b, const ln_weighted3 *c, const ln_weighted3 *d);
int ln_worient3_plain_at(const ln_weighted3 *a, const ln_weighted3 *b, const ln_weighted3 *c, const ln_weighted3 *d);

/* + where e is in conflict with a, b, c, d and worient3 of these is +, - where it is -: e's power to the sphere
   orthogonal to theirs is negative. The opposite of CGAL's power_side_of_oriented_power_sphere; where each w is 0,
   the sign of insphere. */
/* x: a, b, c, d, e
   v: a.x, a.y, a.z, a.w, b.x, b.y, b.z, b.w, c.x, c.y, c.z, c.w, d.x, d.y, d.z, d.w, e.x, e.y, e.z, e.w */
int ln_power3(const int64_t *x, const int64_t *v);
int ln_power3_plain(const int64_t *v);
void ln_power3_rows(size_t n, const int64_t *x, const int64_t *v, int8_t *signs);
int ln_power3_at(const ln_weighted3 *a, const ln_weighted3 *b, const ln_weighted3 *c, const ln_weighted3 *d, const ln_weighted3 *e);
int ln_power3_plain_at(const ln_weighted3 *a, const ln_weighted3 *b, const ln_weighted3 *c, const ln_weighted3 *d, const ln_weighted3 *e);

/* + where r is inside the sphere whose diameter is from p to q, whatever the weights. */
/* x: p, q, r
   v: p.x, p.y, p.z, p.w, q.x, q.y, q.z, q.w, r.x, r.y, r.z, r.w */
int ln_wdiametral3(const int64_t *x, const int64_t *v);
int ln_wdiametral3_plain(const int64_t *v);
void ln_wdiametral3_rows(size_t n, const int64_t *x, const int64_t *v, int8_t *signs);
int ln_wdiametral3_at(const ln_weighted3 *p, const ln_weighted3 *q, const ln_weighted3 *r);
int ln_wdiametral3_plain_at(const ln_weighted3 *p, const ln_weighted3 *q, const ln_weighted3 *r);

/* + where p is beyond q along an axis, or has the larger weight. */
/* x: p, q
   v: p.x, p.y, p.z, p.w, q.x, q.y, q.z, q.w */
int ln_wcompare_x3(const int64_t *x, const int64_t *v);
int ln_wcompare_x3_plain(const int64_t *v);
void ln_wcompare_x3_rows(size_t n, const int64_t *x, const int64_t *v, int8_t *signs);
int ln_wcompare_x3_at(const ln_weighted3 *p, const ln_weighted3 *q);
int ln_wcompare_x3_plain_at(const ln_weighted3 *p, const ln_weighted3 *q);

/* x: p, q
   v: p.x, p.y, p.z, p.w, q.x, q.y, q.z, q.w */
int ln_wcompare_y3(const int64_t *x, const int64_t *v);
int ln_wcompare_y3_plain(const int64_t *v);
void ln_wcompare_y3_rows(size_t n, const int64_t *x, const int64_t *v, int8_t *signs);
int ln_wcompare_y3_at(const ln_weighted3 *p, const ln_weighted3 *q);
int ln_wcompare_y3_plain_at(const ln_weighted3 *p, const ln_weighted3 *q);

/* x: p, q
   v: p.x, p.y, p.z, p.w, q.x, q.y, q.z, q.w */
int ln_wcompare_z3(const int64_t *x, const int64_t *v);
int ln_wcompare_z3_plain(const int64_t *v);
void ln_wcompare_z3_rows(size_t n, const int64_t *x, const int64_t *v, int8_t *signs);
int ln_wcompare_z3_at(const ln_weighted3 *p, const ln_weighted3 *q);
int ln_wcompare_z3_plain_at(const ln_weighted3 *p, const ln_weighted3 *q);

/* x: p, q
   v: p.x, p.y, p.z, p.w, q.x, q.y, q.z, q.w */
int ln_wcompare_w3(const int64_t *x, const int64_t *v);
int ln_wcompare_w3_plain(const int64_t *v);
void ln_wcompare_w3_rows(size_t n, const int64_t *x, const int64_t *v, int8_t *signs);
int ln_wcompare_w3_at(const ln_weighted3 *p, const ln_weighted3 *q);
int ln_wcompare_w3_plain_at(const ln_weighted3 *p, const ln_weighted3 *q);

/* + where p is after q by x, by y where x is equal, and by z where both are (the order along the direction (m^2,
   m, 1) with m = 2^24 + 1). */
/* x: p, q
   v: p.x, p.y, p.z, p.w, q.x, q.y, q.z, q.w */
int ln_wlexicographic3(const int64_t *x, const int64_t *v);
int ln_wlexicographic3_plain(const int64_t *v);
void ln_wlexicographic3_rows(size_t n, const int64_t *x, const int64_t *v, int8_t *signs);
int ln_wlexicographic3_at(const ln_weighted3 *p, const ln_weighted3 *q);
int ln_wlexicographic3_plain_at(const ln_weighted3 *p, const ln_weighted3 *q);

/* + where q is farther from p than r is: the sign of CGAL's compare_distance_3; PCK's side1(r, q, p) plainly. */
/* x: p, q, r
   v: p.x, p.y, p.z, p.w, q.x, q.y, q.z, q.w, r.x, r.y, r.z, r.w */
int ln_wcompare_distance3(const int64_t *x, const int64_t *v);
int ln_wcompare_distance3_plain(const int64_t *v);
void ln_wcompare_distance3_rows(size_t n, const int64_t *x, const int64_t *v, int8_t *signs);
int ln_wcompare_distance3_at(const ln_weighted3 *p, const ln_weighted3 *q, const ln_weighted3 *r);
int ln_wcompare_distance3_plain_at(const ln_weighted3 *p, const ln_weighted3 *q, const ln_weighted3 *r);

/* + where p's power to q's circle or sphere is larger than to that of r, whatever p's own weight: the sign of
   CGAL's compare_power_distance_3; PCK's power_side1(r, q, p) plainly. */
/* x: p, q, r
   v: p.x, p.y, p.z, p.w, q.x, q.y, q.z, q.w, r.x, r.y, r.z, r.w */
int ln_compare_power3(const int64_t *x, const int64_t *v);
int ln_compare_power3_plain(const int64_t *v);
void ln_compare_power3_rows(size_t n, const int64_t *x, const int64_t *v, int8_t *signs);
int ln_compare_power3_at(const ln_weighted3 *p, const ln_weighted3 *q, const ln_weighted3 *r);
int ln_compare_power3_plain_at(const ln_weighted3 *p, const ln_weighted3 *q, const ln_weighted3 *r);

/* + where the directions from p to q and from r to s have an acute angle: the sign of CGAL's angle(p, q, r, s),
   and with r = p of PCK's dot. */
/* x: p, q, r, s
   v: p.x, p.y, p.z, p.w, q.x, q.y, q.z, q.w, r.x, r.y, r.z, r.w, s.x, s.y, s.z, s.w */
int ln_wdot3(const int64_t *x, const int64_t *v);
int ln_wdot3_plain(const int64_t *v);
void ln_wdot3_rows(size_t n, const int64_t *x, const int64_t *v, int8_t *signs);
int ln_wdot3_at(const ln_weighted3 *p, const ln_weighted3 *q, const ln_weighted3 *r, const ln_weighted3 *s);
int ln_wdot3_plain_at(const ln_weighted3 *p, const ln_weighted3 *q, const ln_weighted3 *r, const ln_weighted3 *s);

/* + where p, q, r turn left seen along an axis, in the coordinates that are named: the orientation of a triangle
   in space, never 0, as CGAL's coplanar_orientation is asked of points in one plane. */
/* x: p, q, r
   v: p.x, p.y, p.z, p.w, q.x, q.y, q.z, q.w, r.x, r.y, r.z, r.w */
int ln_wcoplanar_xy(const int64_t *x, const int64_t *v);
int ln_wcoplanar_xy_plain(const int64_t *v);
void ln_wcoplanar_xy_rows(size_t n, const int64_t *x, const int64_t *v, int8_t *signs);
int ln_wcoplanar_xy_at(const ln_weighted3 *p, const ln_weighted3 *q, const ln_weighted3 *r);
int ln_wcoplanar_xy_plain_at(const ln_weighted3 *p, const ln_weighted3 *q, const ln_weighted3 *r);

/* x: p, q, r
   v: p.x, p.y, p.z, p.w, q.x, q.y, q.z, q.w, r.x, r.y, r.z, r.w */
int ln_wcoplanar_yz(const int64_t *x, const int64_t *v);
int ln_wcoplanar_yz_plain(const int64_t *v);
void ln_wcoplanar_yz_rows(size_t n, const int64_t *x, const int64_t *v, int8_t *signs);
int ln_wcoplanar_yz_at(const ln_weighted3 *p, const ln_weighted3 *q, const ln_weighted3 *r);
int ln_wcoplanar_yz_plain_at(const ln_weighted3 *p, const ln_weighted3 *q, const ln_weighted3 *r);

/* x: p, q, r
   v: p.x, p.y, p.z, p.w, q.x, q.y, q.z, q.w, r.x, r.y, r.z, r.w */
int ln_wcoplanar_zx(const int64_t *x, const int64_t *v);
int ln_wcoplanar_zx_plain(const int64_t *v);
void ln_wcoplanar_zx_rows(size_t n, const int64_t *x, const int64_t *v, int8_t *signs);
int ln_wcoplanar_zx_at(const ln_weighted3 *p, const ln_weighted3 *q, const ln_weighted3 *r);
int ln_wcoplanar_zx_plain_at(const ln_weighted3 *p, const ln_weighted3 *q, const ln_weighted3 *r);

#ifdef LNC_CHECKED
#define LNC_WEIGHTED_SPACE_CHECKED
static inline int lv_worient3(const int64_t *v, size_t row) {
  return lr_is(LN_WEIGHTED3_X_MIN <= v[0] && v[0] <= LN_WEIGHTED3_X_MAX, "worient3", "a.x", "is out of range", row) &&
    lr_is(LN_WEIGHTED3_Y_MIN <= v[1] && v[1] <= LN_WEIGHTED3_Y_MAX, "worient3", "a.y", "is out of range", row) &&
    lr_is(LN_WEIGHTED3_Z_MIN <= v[2] && v[2] <= LN_WEIGHTED3_Z_MAX, "worient3", "a.z", "is out of range", row) &&
    lr_is(LN_WEIGHTED3_W_MIN <= v[3] && v[3] <= LN_WEIGHTED3_W_MAX, "worient3", "a.w", "is out of range", row) &&
    lr_is(LN_WEIGHTED3_X_MIN <= v[4] && v[4] <= LN_WEIGHTED3_X_MAX, "worient3", "b.x", "is out of range", row) &&
    lr_is(LN_WEIGHTED3_Y_MIN <= v[5] && v[5] <= LN_WEIGHTED3_Y_MAX, "worient3", "b.y", "is out of range", row) &&
    lr_is(LN_WEIGHTED3_Z_MIN <= v[6] && v[6] <= LN_WEIGHTED3_Z_MAX, "worient3", "b.z", "is out of range", row) &&
    lr_is(LN_WEIGHTED3_W_MIN <= v[7] && v[7] <= LN_WEIGHTED3_W_MAX, "worient3", "b.w", "is out of range", row) &&
    lr_is(LN_WEIGHTED3_X_MIN <= v[8] && v[8] <= LN_WEIGHTED3_X_MAX, "worient3", "c.x", "is out of range", row) &&
    lr_is(LN_WEIGHTED3_Y_MIN <= v[9] && v[9] <= LN_WEIGHTED3_Y_MAX, "worient3", "c.y", "is out of range", row) &&
    lr_is(LN_WEIGHTED3_Z_MIN <= v[10] && v[10] <= LN_WEIGHTED3_Z_MAX, "worient3", "c.z", "is out of range", row) &&
    lr_is(LN_WEIGHTED3_W_MIN <= v[11] && v[11] <= LN_WEIGHTED3_W_MAX, "worient3", "c.w", "is out of range", row) &&
    lr_is(LN_WEIGHTED3_X_MIN <= v[12] && v[12] <= LN_WEIGHTED3_X_MAX, "worient3", "d.x", "is out of range", row) &&
    lr_is(LN_WEIGHTED3_Y_MIN <= v[13] && v[13] <= LN_WEIGHTED3_Y_MAX, "worient3", "d.y", "is out of range", row) &&
    lr_is(LN_WEIGHTED3_Z_MIN <= v[14] && v[14] <= LN_WEIGHTED3_Z_MAX, "worient3", "d.z", "is out of range", row) &&
    lr_is(LN_WEIGHTED3_W_MIN <= v[15] && v[15] <= LN_WEIGHTED3_W_MAX, "worient3", "d.w", "is out of range", row);
}
static inline int li_worient3(const int64_t *x, size_t row) {
  return lr_is(0 <= x[0], "worient3", "a", "has a negative index", row) &&
    lr_is(0 <= x[1], "worient3", "b", "has a negative index", row) &&
    lr_is(0 <= x[2], "worient3", "c", "has a negative index", row) &&
    lr_is(0 <= x[3], "worient3", "d", "has a negative index", row) &&
    lr_is(x[0] != x[1], "worient3", "b", "has the index of a too", row) &&
    lr_is(x[0] != x[2], "worient3", "c", "has the index of a too", row) &&
    lr_is(x[1] != x[2], "worient3", "c", "has the index of b too", row) &&
    lr_is(x[0] != x[3], "worient3", "d", "has the index of a too", row) &&
    lr_is(x[1] != x[3], "worient3", "d", "has the index of b too", row) &&
    lr_is(x[2] != x[3], "worient3", "d", "has the index of c too", row);
}
static inline int lc_worient3(const int64_t *x, const int64_t *v) { return lv_worient3(v, SIZE_MAX) && li_worient3(x, SIZE_MAX) ? ln_worient3(x, v) : 0; }
static inline int lc_worient3_plain(const int64_t *v) { return lv_worient3(v, SIZE_MAX) ? ln_worient3_plain(v) : 0; }
static inline void lc_worient3_rows(size_t n, const int64_t *x, const int64_t *v, int8_t *signs) {
  for (size_t i = 0; i < n; i++) {
    signs[i] = 0;
    if (lv_worient3(v + 16 * i, i) && li_worient3(x + 4 * i, i)) ln_worient3_rows(1, x + 4 * i, v + 16 * i, signs + i);
  }
}
static inline int lc_worient3_at(const ln_weighted3 *a, const ln_weighted3 *b, const ln_weighted3 *c, const ln_weighted3 *d) {
  const int64_t x[] = {a->index, b->index, c->index, d->index};
  const int64_t v[] = {a->x, a->y, a->z, a->w, b->x, b->y, b->z, b->w, c->x, c->y, c->z, c->w, d->x, d->y, d->z, d->w};
  return lv_worient3(v, SIZE_MAX) && li_worient3(x, SIZE_MAX) ? ln_worient3_at(a, b, c, d) : 0;
}
static inline int lc_worient3_plain_at(const ln_weighted3 *a, const ln_weighted3 *b, const ln_weighted3 *c, const ln_weighted3 *d) {
  const int64_t v[] = {a->x, a->y, a->z, a->w, b->x, b->y, b->z, b->w, c->x, c->y, c->z, c->w, d->x, d->y, d->z, d->w};
  return lv_worient3(v, SIZE_MAX) ? ln_worient3_plain_at(a, b, c, d) : 0;
}
static inline int lv_power3(const int64_t *v, size_t row) {
  return lr_is(LN_WEIGHTED3_X_MIN <= v[0] && v[0] <= LN_WEIGHTED3_X_MAX, "power3", "a.x", "is out of range", row) &&
    lr_is(LN_WEIGHTED3_Y_MIN <= v[1] && v[1] <= LN_WEIGHTED3_Y_MAX, "power3", "a.y", "is out of range", row) &&
    lr_is(LN_WEIGHTED3_Z_MIN <= v[2] && v[2] <= LN_WEIGHTED3_Z_MAX, "power3", "a.z", "is out of range", row) &&
    lr_is(LN_WEIGHTED3_W_MIN <= v[3] && v[3] <= LN_WEIGHTED3_W_MAX, "power3", "a.w", "is out of range", row) &&
    lr_is(LN_WEIGHTED3_X_MIN <= v[4] && v[4] <= LN_WEIGHTED3_X_MAX, "power3", "b.x", "is out of range", row) &&
    lr_is(LN_WEIGHTED3_Y_MIN <= v[5] && v[5] <= LN_WEIGHTED3_Y_MAX, "power3", "b.y", "is out of range", row) &&
    lr_is(LN_WEIGHTED3_Z_MIN <= v[6] && v[6] <= LN_WEIGHTED3_Z_MAX, "power3", "b.z", "is out of range", row) &&
    lr_is(LN_WEIGHTED3_W_MIN <= v[7] && v[7] <= LN_WEIGHTED3_W_MAX, "power3", "b.w", "is out of range", row) &&
    lr_is(LN_WEIGHTED3_X_MIN <= v[8] && v[8] <= LN_WEIGHTED3_X_MAX, "power3", "c.x", "is out of range", row) &&
    lr_is(LN_WEIGHTED3_Y_MIN <= v[9] && v[9] <= LN_WEIGHTED3_Y_MAX, "power3", "c.y", "is out of range", row) &&
    lr_is(LN_WEIGHTED3_Z_MIN <= v[10] && v[10] <= LN_WEIGHTED3_Z_MAX, "power3", "c.z", "is out of range", row) &&
    lr_is(LN_WEIGHTED3_W_MIN <= v[11] && v[11] <= LN_WEIGHTED3_W_MAX, "power3", "c.w", "is out of range", row) &&
    lr_is(LN_WEIGHTED3_X_MIN <= v[12] && v[12] <= LN_WEIGHTED3_X_MAX, "power3", "d.x", "is out of range", row) &&
    lr_is(LN_WEIGHTED3_Y_MIN <= v[13] && v[13] <= LN_WEIGHTED3_Y_MAX, "power3", "d.y", "is out of range", row) &&
    lr_is(LN_WEIGHTED3_Z_MIN <= v[14] && v[14] <= LN_WEIGHTED3_Z_MAX, "power3", "d.z", "is out of range", row) &&
    lr_is(LN_WEIGHTED3_W_MIN <= v[15] && v[15] <= LN_WEIGHTED3_W_MAX, "power3", "d.w", "is out of range", row) &&
    lr_is(LN_WEIGHTED3_X_MIN <= v[16] && v[16] <= LN_WEIGHTED3_X_MAX, "power3", "e.x", "is out of range", row) &&
    lr_is(LN_WEIGHTED3_Y_MIN <= v[17] && v[17] <= LN_WEIGHTED3_Y_MAX, "power3", "e.y", "is out of range", row) &&
    lr_is(LN_WEIGHTED3_Z_MIN <= v[18] && v[18] <= LN_WEIGHTED3_Z_MAX, "power3", "e.z", "is out of range", row) &&
    lr_is(LN_WEIGHTED3_W_MIN <= v[19] && v[19] <= LN_WEIGHTED3_W_MAX, "power3", "e.w", "is out of range", row);
}
static inline int li_power3(const int64_t *x, size_t row) {
  return lr_is(0 <= x[0], "power3", "a", "has a negative index", row) &&
    lr_is(0 <= x[1], "power3", "b", "has a negative index", row) &&
    lr_is(0 <= x[2], "power3", "c", "has a negative index", row) &&
    lr_is(0 <= x[3], "power3", "d", "has a negative index", row) &&
    lr_is(0 <= x[4], "power3", "e", "has a negative index", row) &&
    lr_is(x[0] != x[1], "power3", "b", "has the index of a too", row) &&
    lr_is(x[0] != x[2], "power3", "c", "has the index of a too", row) &&
    lr_is(x[1] != x[2], "power3", "c", "has the index of b too", row) &&
    lr_is(x[0] != x[3], "power3", "d", "has the index of a too", row) &&
    lr_is(x[1] != x[3], "power3", "d", "has the index of b too", row) &&
    lr_is(x[2] != x[3], "power3", "d", "has the index of c too", row) &&
    lr_is(x[0] != x[4], "power3", "e", "has the index of a too", row) &&
    lr_is(x[1] != x[4], "power3", "e", "has the index of b too", row) &&
    lr_is(x[2] != x[4], "power3", "e", "has the index of c too", row) &&
    lr_is(x[3] != x[4], "power3", "e", "has the index of d too", row);
}
static inline int lc_power3(const int64_t *x, const int64_t *v) { return lv_power3(v, SIZE_MAX) && li_power3(x, SIZE_MAX) ? ln_power3(x, v) : 0; }
static inline int lc_power3_plain(const int64_t *v) { return lv_power3(v, SIZE_MAX) ? ln_power3_plain(v) : 0; }
static inline void lc_power3_rows(size_t n, const int64_t *x, const int64_t *v, int8_t *signs) {
  for (size_t i = 0; i < n; i++) {
    signs[i] = 0;
    if (lv_power3(v + 20 * i, i) && li_power3(x + 5 * i, i)) ln_power3_rows(1, x + 5 * i, v + 20 * i, signs + i);
  }
}
static inline int lc_power3_at(const ln_weighted3 *a, const ln_weighted3 *b, const ln_weighted3 *c, const ln_weighted3 *d, const ln_weighted3 *e) {
  const int64_t x[] = {a->index, b->index, c->index, d->index, e->index};
  const int64_t v[] = {a->x, a->y, a->z, a->w, b->x, b->y, b->z, b->w, c->x, c->y, c->z, c->w, d->x, d->y, d->z, d->w, e->x, e->y, e->z, e->w};
  return lv_power3(v, SIZE_MAX) && li_power3(x, SIZE_MAX) ? ln_power3_at(a, b, c, d, e) : 0;
}
static inline int lc_power3_plain_at(const ln_weighted3 *a, const ln_weighted3 *b, const ln_weighted3 *c, const ln_weighted3 *d, const ln_weighted3 *e) {
  const int64_t v[] = {a->x, a->y, a->z, a->w, b->x, b->y, b->z, b->w, c->x, c->y, c->z, c->w, d->x, d->y, d->z, d->w, e->x, e->y, e->z, e->w};
  return lv_power3(v, SIZE_MAX) ? ln_power3_plain_at(a, b, c, d, e) : 0;
}
static inline int lv_wdiametral3(const int64_t *v, size_t row) {
  return lr_is(LN_WEIGHTED3_X_MIN <= v[0] && v[0] <= LN_WEIGHTED3_X_MAX, "wdiametral3", "p.x", "is out of range", row) &&
    lr_is(LN_WEIGHTED3_Y_MIN <= v[1] && v[1] <= LN_WEIGHTED3_Y_MAX, "wdiametral3", "p.y", "is out of range", row) &&
    lr_is(LN_WEIGHTED3_Z_MIN <= v[2] && v[2] <= LN_WEIGHTED3_Z_MAX, "wdiametral3", "p.z", "is out of range", row) &&
    lr_is(LN_WEIGHTED3_W_MIN <= v[3] && v[3] <= LN_WEIGHTED3_W_MAX, "wdiametral3", "p.w", "is out of range", row) &&
    lr_is(LN_WEIGHTED3_X_MIN <= v[4] && v[4] <= LN_WEIGHTED3_X_MAX, "wdiametral3", "q.x", "is out of range", row) &&
    lr_is(LN_WEIGHTED3_Y_MIN <= v[5] && v[5] <= LN_WEIGHTED3_Y_MAX, "wdiametral3", "q.y", "is out of range", row) &&
    lr_is(LN_WEIGHTED3_Z_MIN <= v[6] && v[6] <= LN_WEIGHTED3_Z_MAX, "wdiametral3", "q.z", "is out of range", row) &&
    lr_is(LN_WEIGHTED3_W_MIN <= v[7] && v[7] <= LN_WEIGHTED3_W_MAX, "wdiametral3", "q.w", "is out of range", row) &&
    lr_is(LN_WEIGHTED3_X_MIN <= v[8] && v[8] <= LN_WEIGHTED3_X_MAX, "wdiametral3", "r.x", "is out of range", row) &&
    lr_is(LN_WEIGHTED3_Y_MIN <= v[9] && v[9] <= LN_WEIGHTED3_Y_MAX, "wdiametral3", "r.y", "is out of range", row) &&
    lr_is(LN_WEIGHTED3_Z_MIN <= v[10] && v[10] <= LN_WEIGHTED3_Z_MAX, "wdiametral3", "r.z", "is out of range", row) &&
    lr_is(LN_WEIGHTED3_W_MIN <= v[11] && v[11] <= LN_WEIGHTED3_W_MAX, "wdiametral3", "r.w", "is out of range", row);
}
static inline int li_wdiametral3(const int64_t *x, size_t row) {
  return lr_is(0 <= x[0], "wdiametral3", "p", "has a negative index", row) &&
    lr_is(0 <= x[1], "wdiametral3", "q", "has a negative index", row) &&
    lr_is(0 <= x[2], "wdiametral3", "r", "has a negative index", row) &&
    lr_is(x[0] != x[1], "wdiametral3", "q", "has the index of p too", row) &&
    lr_is(x[0] != x[2], "wdiametral3", "r", "has the index of p too", row) &&
    lr_is(x[1] != x[2], "wdiametral3", "r", "has the index of q too", row);
}
static inline int lc_wdiametral3(const int64_t *x, const int64_t *v) { return lv_wdiametral3(v, SIZE_MAX) && li_wdiametral3(x, SIZE_MAX) ? ln_wdiametral3(x, v) : 0; }
static inline int lc_wdiametral3_plain(const int64_t *v) { return lv_wdiametral3(v, SIZE_MAX) ? ln_wdiametral3_plain(v) : 0; }
static inline void lc_wdiametral3_rows(size_t n, const int64_t *x, const int64_t *v, int8_t *signs) {
  for (size_t i = 0; i < n; i++) {
    signs[i] = 0;
    if (lv_wdiametral3(v + 12 * i, i) && li_wdiametral3(x + 3 * i, i)) ln_wdiametral3_rows(1, x + 3 * i, v + 12 * i, signs + i);
  }
}
static inline int lc_wdiametral3_at(const ln_weighted3 *p, const ln_weighted3 *q, const ln_weighted3 *r) {
  const int64_t x[] = {p->index, q->index, r->index};
  const int64_t v[] = {p->x, p->y, p->z, p->w, q->x, q->y, q->z, q->w, r->x, r->y, r->z, r->w};
  return lv_wdiametral3(v, SIZE_MAX) && li_wdiametral3(x, SIZE_MAX) ? ln_wdiametral3_at(p, q, r) : 0;
}
static inline int lc_wdiametral3_plain_at(const ln_weighted3 *p, const ln_weighted3 *q, const ln_weighted3 *r) {
  const int64_t v[] = {p->x, p->y, p->z, p->w, q->x, q->y, q->z, q->w, r->x, r->y, r->z, r->w};
  return lv_wdiametral3(v, SIZE_MAX) ? ln_wdiametral3_plain_at(p, q, r) : 0;
}
static inline int lv_wcompare_x3(const int64_t *v, size_t row) {
  return lr_is(LN_WEIGHTED3_X_MIN <= v[0] && v[0] <= LN_WEIGHTED3_X_MAX, "wcompare_x3", "p.x", "is out of range", row) &&
    lr_is(LN_WEIGHTED3_Y_MIN <= v[1] && v[1] <= LN_WEIGHTED3_Y_MAX, "wcompare_x3", "p.y", "is out of range", row) &&
    lr_is(LN_WEIGHTED3_Z_MIN <= v[2] && v[2] <= LN_WEIGHTED3_Z_MAX, "wcompare_x3", "p.z", "is out of range", row) &&
    lr_is(LN_WEIGHTED3_W_MIN <= v[3] && v[3] <= LN_WEIGHTED3_W_MAX, "wcompare_x3", "p.w", "is out of range", row) &&
    lr_is(LN_WEIGHTED3_X_MIN <= v[4] && v[4] <= LN_WEIGHTED3_X_MAX, "wcompare_x3", "q.x", "is out of range", row) &&
    lr_is(LN_WEIGHTED3_Y_MIN <= v[5] && v[5] <= LN_WEIGHTED3_Y_MAX, "wcompare_x3", "q.y", "is out of range", row) &&
    lr_is(LN_WEIGHTED3_Z_MIN <= v[6] && v[6] <= LN_WEIGHTED3_Z_MAX, "wcompare_x3", "q.z", "is out of range", row) &&
    lr_is(LN_WEIGHTED3_W_MIN <= v[7] && v[7] <= LN_WEIGHTED3_W_MAX, "wcompare_x3", "q.w", "is out of range", row);
}
static inline int li_wcompare_x3(const int64_t *x, size_t row) {
  return lr_is(0 <= x[0], "wcompare_x3", "p", "has a negative index", row) &&
    lr_is(0 <= x[1], "wcompare_x3", "q", "has a negative index", row) &&
    lr_is(x[0] != x[1], "wcompare_x3", "q", "has the index of p too", row);
}
static inline int lc_wcompare_x3(const int64_t *x, const int64_t *v) { return lv_wcompare_x3(v, SIZE_MAX) && li_wcompare_x3(x, SIZE_MAX) ? ln_wcompare_x3(x, v) : 0; }
static inline int lc_wcompare_x3_plain(const int64_t *v) { return lv_wcompare_x3(v, SIZE_MAX) ? ln_wcompare_x3_plain(v) : 0; }
static inline void lc_wcompare_x3_rows(size_t n, const int64_t *x, const int64_t *v, int8_t *signs) {
  for (size_t i = 0; i < n; i++) {
    signs[i] = 0;
    if (lv_wcompare_x3(v + 8 * i, i) && li_wcompare_x3(x + 2 * i, i)) ln_wcompare_x3_rows(1, x + 2 * i, v + 8 * i, signs + i);
  }
}
static inline int lc_wcompare_x3_at(const ln_weighted3 *p, const ln_weighted3 *q) {
  const int64_t x[] = {p->index, q->index};
  const int64_t v[] = {p->x, p->y, p->z, p->w, q->x, q->y, q->z, q->w};
  return lv_wcompare_x3(v, SIZE_MAX) && li_wcompare_x3(x, SIZE_MAX) ? ln_wcompare_x3_at(p, q) : 0;
}
static inline int lc_wcompare_x3_plain_at(const ln_weighted3 *p, const ln_weighted3 *q) {
  const int64_t v[] = {p->x, p->y, p->z, p->w, q->x, q->y, q->z, q->w};
  return lv_wcompare_x3(v, SIZE_MAX) ? ln_wcompare_x3_plain_at(p, q) : 0;
}
static inline int lv_wcompare_y3(const int64_t *v, size_t row) {
  return lr_is(LN_WEIGHTED3_X_MIN <= v[0] && v[0] <= LN_WEIGHTED3_X_MAX, "wcompare_y3", "p.x", "is out of range", row) &&
    lr_is(LN_WEIGHTED3_Y_MIN <= v[1] && v[1] <= LN_WEIGHTED3_Y_MAX, "wcompare_y3", "p.y", "is out of range", row) &&
    lr_is(LN_WEIGHTED3_Z_MIN <= v[2] && v[2] <= LN_WEIGHTED3_Z_MAX, "wcompare_y3", "p.z", "is out of range", row) &&
    lr_is(LN_WEIGHTED3_W_MIN <= v[3] && v[3] <= LN_WEIGHTED3_W_MAX, "wcompare_y3", "p.w", "is out of range", row) &&
    lr_is(LN_WEIGHTED3_X_MIN <= v[4] && v[4] <= LN_WEIGHTED3_X_MAX, "wcompare_y3", "q.x", "is out of range", row) &&
    lr_is(LN_WEIGHTED3_Y_MIN <= v[5] && v[5] <= LN_WEIGHTED3_Y_MAX, "wcompare_y3", "q.y", "is out of range", row) &&
    lr_is(LN_WEIGHTED3_Z_MIN <= v[6] && v[6] <= LN_WEIGHTED3_Z_MAX, "wcompare_y3", "q.z", "is out of range", row) &&
    lr_is(LN_WEIGHTED3_W_MIN <= v[7] && v[7] <= LN_WEIGHTED3_W_MAX, "wcompare_y3", "q.w", "is out of range", row);
}
static inline int li_wcompare_y3(const int64_t *x, size_t row) {
  return lr_is(0 <= x[0], "wcompare_y3", "p", "has a negative index", row) &&
    lr_is(0 <= x[1], "wcompare_y3", "q", "has a negative index", row) &&
    lr_is(x[0] != x[1], "wcompare_y3", "q", "has the index of p too", row);
}
static inline int lc_wcompare_y3(const int64_t *x, const int64_t *v) { return lv_wcompare_y3(v, SIZE_MAX) && li_wcompare_y3(x, SIZE_MAX) ? ln_wcompare_y3(x, v) : 0; }
static inline int lc_wcompare_y3_plain(const int64_t *v) { return lv_wcompare_y3(v, SIZE_MAX) ? ln_wcompare_y3_plain(v) : 0; }
static inline void lc_wcompare_y3_rows(size_t n, const int64_t *x, const int64_t *v, int8_t *signs) {
  for (size_t i = 0; i < n; i++) {
    signs[i] = 0;
    if (lv_wcompare_y3(v + 8 * i, i) && li_wcompare_y3(x + 2 * i, i)) ln_wcompare_y3_rows(1, x + 2 * i, v + 8 * i, signs + i);
  }
}
static inline int lc_wcompare_y3_at(const ln_weighted3 *p, const ln_weighted3 *q) {
  const int64_t x[] = {p->index, q->index};
  const int64_t v[] = {p->x, p->y, p->z, p->w, q->x, q->y, q->z, q->w};
  return lv_wcompare_y3(v, SIZE_MAX) && li_wcompare_y3(x, SIZE_MAX) ? ln_wcompare_y3_at(p, q) : 0;
}
static inline int lc_wcompare_y3_plain_at(const ln_weighted3 *p, const ln_weighted3 *q) {
  const int64_t v[] = {p->x, p->y, p->z, p->w, q->x, q->y, q->z, q->w};
  return lv_wcompare_y3(v, SIZE_MAX) ? ln_wcompare_y3_plain_at(p, q) : 0;
}
static inline int lv_wcompare_z3(const int64_t *v, size_t row) {
  return lr_is(LN_WEIGHTED3_X_MIN <= v[0] && v[0] <= LN_WEIGHTED3_X_MAX, "wcompare_z3", "p.x", "is out of range", row) &&
    lr_is(LN_WEIGHTED3_Y_MIN <= v[1] && v[1] <= LN_WEIGHTED3_Y_MAX, "wcompare_z3", "p.y", "is out of range", row) &&
    lr_is(LN_WEIGHTED3_Z_MIN <= v[2] && v[2] <= LN_WEIGHTED3_Z_MAX, "wcompare_z3", "p.z", "is out of range", row) &&
    lr_is(LN_WEIGHTED3_W_MIN <= v[3] && v[3] <= LN_WEIGHTED3_W_MAX, "wcompare_z3", "p.w", "is out of range", row) &&
    lr_is(LN_WEIGHTED3_X_MIN <= v[4] && v[4] <= LN_WEIGHTED3_X_MAX, "wcompare_z3", "q.x", "is out of range", row) &&
    lr_is(LN_WEIGHTED3_Y_MIN <= v[5] && v[5] <= LN_WEIGHTED3_Y_MAX, "wcompare_z3", "q.y", "is out of range", row) &&
    lr_is(LN_WEIGHTED3_Z_MIN <= v[6] && v[6] <= LN_WEIGHTED3_Z_MAX, "wcompare_z3", "q.z", "is out of range", row) &&
    lr_is(LN_WEIGHTED3_W_MIN <= v[7] && v[7] <= LN_WEIGHTED3_W_MAX, "wcompare_z3", "q.w", "is out of range", row);
}
static inline int li_wcompare_z3(const int64_t *x, size_t row) {
  return lr_is(0 <= x[0], "wcompare_z3", "p", "has a negative index", row) &&
    lr_is(0 <= x[1], "wcompare_z3", "q", "has a negative index", row) &&
    lr_is(x[0] != x[1], "wcompare_z3", "q", "has the index of p too", row);
}
static inline int lc_wcompare_z3(const int64_t *x, const int64_t *v) { return lv_wcompare_z3(v, SIZE_MAX) && li_wcompare_z3(x, SIZE_MAX) ? ln_wcompare_z3(x, v) : 0; }
static inline int lc_wcompare_z3_plain(const int64_t *v) { return lv_wcompare_z3(v, SIZE_MAX) ? ln_wcompare_z3_plain(v) : 0; }
static inline void lc_wcompare_z3_rows(size_t n, const int64_t *x, const int64_t *v, int8_t *signs) {
  for (size_t i = 0; i < n; i++) {
    signs[i] = 0;
    if (lv_wcompare_z3(v + 8 * i, i) && li_wcompare_z3(x + 2 * i, i)) ln_wcompare_z3_rows(1, x + 2 * i, v + 8 * i, signs + i);
  }
}
static inline int lc_wcompare_z3_at(const ln_weighted3 *p, const ln_weighted3 *q) {
  const int64_t x[] = {p->index, q->index};
  const int64_t v[] = {p->x, p->y, p->z, p->w, q->x, q->y, q->z, q->w};
  return lv_wcompare_z3(v, SIZE_MAX) && li_wcompare_z3(x, SIZE_MAX) ? ln_wcompare_z3_at(p, q) : 0;
}
static inline int lc_wcompare_z3_plain_at(const ln_weighted3 *p, const ln_weighted3 *q) {
  const int64_t v[] = {p->x, p->y, p->z, p->w, q->x, q->y, q->z, q->w};
  return lv_wcompare_z3(v, SIZE_MAX) ? ln_wcompare_z3_plain_at(p, q) : 0;
}
static inline int lv_wcompare_w3(const int64_t *v, size_t row) {
  return lr_is(LN_WEIGHTED3_X_MIN <= v[0] && v[0] <= LN_WEIGHTED3_X_MAX, "wcompare_w3", "p.x", "is out of range", row) &&
    lr_is(LN_WEIGHTED3_Y_MIN <= v[1] && v[1] <= LN_WEIGHTED3_Y_MAX, "wcompare_w3", "p.y", "is out of range", row) &&
    lr_is(LN_WEIGHTED3_Z_MIN <= v[2] && v[2] <= LN_WEIGHTED3_Z_MAX, "wcompare_w3", "p.z", "is out of range", row) &&
    lr_is(LN_WEIGHTED3_W_MIN <= v[3] && v[3] <= LN_WEIGHTED3_W_MAX, "wcompare_w3", "p.w", "is out of range", row) &&
    lr_is(LN_WEIGHTED3_X_MIN <= v[4] && v[4] <= LN_WEIGHTED3_X_MAX, "wcompare_w3", "q.x", "is out of range", row) &&
    lr_is(LN_WEIGHTED3_Y_MIN <= v[5] && v[5] <= LN_WEIGHTED3_Y_MAX, "wcompare_w3", "q.y", "is out of range", row) &&
    lr_is(LN_WEIGHTED3_Z_MIN <= v[6] && v[6] <= LN_WEIGHTED3_Z_MAX, "wcompare_w3", "q.z", "is out of range", row) &&
    lr_is(LN_WEIGHTED3_W_MIN <= v[7] && v[7] <= LN_WEIGHTED3_W_MAX, "wcompare_w3", "q.w", "is out of range", row);
}
static inline int li_wcompare_w3(const int64_t *x, size_t row) {
  return lr_is(0 <= x[0], "wcompare_w3", "p", "has a negative index", row) &&
    lr_is(0 <= x[1], "wcompare_w3", "q", "has a negative index", row) &&
    lr_is(x[0] != x[1], "wcompare_w3", "q", "has the index of p too", row);
}
static inline int lc_wcompare_w3(const int64_t *x, const int64_t *v) { return lv_wcompare_w3(v, SIZE_MAX) && li_wcompare_w3(x, SIZE_MAX) ? ln_wcompare_w3(x, v) : 0; }
static inline int lc_wcompare_w3_plain(const int64_t *v) { return lv_wcompare_w3(v, SIZE_MAX) ? ln_wcompare_w3_plain(v) : 0; }
static inline void lc_wcompare_w3_rows(size_t n, const int64_t *x, const int64_t *v, int8_t *signs) {
  for (size_t i = 0; i < n; i++) {
    signs[i] = 0;
    if (lv_wcompare_w3(v + 8 * i, i) && li_wcompare_w3(x + 2 * i, i)) ln_wcompare_w3_rows(1, x + 2 * i, v + 8 * i, signs + i);
  }
}
static inline int lc_wcompare_w3_at(const ln_weighted3 *p, const ln_weighted3 *q) {
  const int64_t x[] = {p->index, q->index};
  const int64_t v[] = {p->x, p->y, p->z, p->w, q->x, q->y, q->z, q->w};
  return lv_wcompare_w3(v, SIZE_MAX) && li_wcompare_w3(x, SIZE_MAX) ? ln_wcompare_w3_at(p, q) : 0;
}
static inline int lc_wcompare_w3_plain_at(const ln_weighted3 *p, const ln_weighted3 *q) {
  const int64_t v[] = {p->x, p->y, p->z, p->w, q->x, q->y, q->z, q->w};
  return lv_wcompare_w3(v, SIZE_MAX) ? ln_wcompare_w3_plain_at(p, q) : 0;
}
static inline int lv_wlexicographic3(const int64_t *v, size_t row) {
  return lr_is(LN_WEIGHTED3_X_MIN <= v[0] && v[0] <= LN_WEIGHTED3_X_MAX, "wlexicographic3", "p.x", "is out of range", row) &&
    lr_is(LN_WEIGHTED3_Y_MIN <= v[1] && v[1] <= LN_WEIGHTED3_Y_MAX, "wlexicographic3", "p.y", "is out of range", row) &&
    lr_is(LN_WEIGHTED3_Z_MIN <= v[2] && v[2] <= LN_WEIGHTED3_Z_MAX, "wlexicographic3", "p.z", "is out of range", row) &&
    lr_is(LN_WEIGHTED3_W_MIN <= v[3] && v[3] <= LN_WEIGHTED3_W_MAX, "wlexicographic3", "p.w", "is out of range", row) &&
    lr_is(LN_WEIGHTED3_X_MIN <= v[4] && v[4] <= LN_WEIGHTED3_X_MAX, "wlexicographic3", "q.x", "is out of range", row) &&
    lr_is(LN_WEIGHTED3_Y_MIN <= v[5] && v[5] <= LN_WEIGHTED3_Y_MAX, "wlexicographic3", "q.y", "is out of range", row) &&
    lr_is(LN_WEIGHTED3_Z_MIN <= v[6] && v[6] <= LN_WEIGHTED3_Z_MAX, "wlexicographic3", "q.z", "is out of range", row) &&
    lr_is(LN_WEIGHTED3_W_MIN <= v[7] && v[7] <= LN_WEIGHTED3_W_MAX, "wlexicographic3", "q.w", "is out of range", row);
}
static inline int li_wlexicographic3(const int64_t *x, size_t row) {
  return lr_is(0 <= x[0], "wlexicographic3", "p", "has a negative index", row) &&
    lr_is(0 <= x[1], "wlexicographic3", "q", "has a negative index", row) &&
    lr_is(x[0] != x[1], "wlexicographic3", "q", "has the index of p too", row);
}
static inline int lc_wlexicographic3(const int64_t *x, const int64_t *v) { return lv_wlexicographic3(v, SIZE_MAX) && li_wlexicographic3(x, SIZE_MAX) ? ln_wlexicographic3(x, v) : 0; }
static inline int lc_wlexicographic3_plain(const int64_t *v) { return lv_wlexicographic3(v, SIZE_MAX) ? ln_wlexicographic3_plain(v) : 0; }
static inline void lc_wlexicographic3_rows(size_t n, const int64_t *x, const int64_t *v, int8_t *signs) {
  for (size_t i = 0; i < n; i++) {
    signs[i] = 0;
    if (lv_wlexicographic3(v + 8 * i, i) && li_wlexicographic3(x + 2 * i, i)) ln_wlexicographic3_rows(1, x + 2 * i, v + 8 * i, signs + i);
  }
}
static inline int lc_wlexicographic3_at(const ln_weighted3 *p, const ln_weighted3 *q) {
  const int64_t x[] = {p->index, q->index};
  const int64_t v[] = {p->x, p->y, p->z, p->w, q->x, q->y, q->z, q->w};
  return lv_wlexicographic3(v, SIZE_MAX) && li_wlexicographic3(x, SIZE_MAX) ? ln_wlexicographic3_at(p, q) : 0;
}
static inline int lc_wlexicographic3_plain_at(const ln_weighted3 *p, const ln_weighted3 *q) {
  const int64_t v[] = {p->x, p->y, p->z, p->w, q->x, q->y, q->z, q->w};
  return lv_wlexicographic3(v, SIZE_MAX) ? ln_wlexicographic3_plain_at(p, q) : 0;
}
static inline int lv_wcompare_distance3(const int64_t *v, size_t row) {
  return lr_is(LN_WEIGHTED3_X_MIN <= v[0] && v[0] <= LN_WEIGHTED3_X_MAX, "wcompare_distance3", "p.x", "is out of range", row) &&
    lr_is(LN_WEIGHTED3_Y_MIN <= v[1] && v[1] <= LN_WEIGHTED3_Y_MAX, "wcompare_distance3", "p.y", "is out of range", row) &&
    lr_is(LN_WEIGHTED3_Z_MIN <= v[2] && v[2] <= LN_WEIGHTED3_Z_MAX, "wcompare_distance3", "p.z", "is out of range", row) &&
    lr_is(LN_WEIGHTED3_W_MIN <= v[3] && v[3] <= LN_WEIGHTED3_W_MAX, "wcompare_distance3", "p.w", "is out of range", row) &&
    lr_is(LN_WEIGHTED3_X_MIN <= v[4] && v[4] <= LN_WEIGHTED3_X_MAX, "wcompare_distance3", "q.x", "is out of range", row) &&
    lr_is(LN_WEIGHTED3_Y_MIN <= v[5] && v[5] <= LN_WEIGHTED3_Y_MAX, "wcompare_distance3", "q.y", "is out of range", row) &&
    lr_is(LN_WEIGHTED3_Z_MIN <= v[6] && v[6] <= LN_WEIGHTED3_Z_MAX, "wcompare_distance3", "q.z", "is out of range", row) &&
    lr_is(LN_WEIGHTED3_W_MIN <= v[7] && v[7] <= LN_WEIGHTED3_W_MAX, "wcompare_distance3", "q.w", "is out of range", row) &&
    lr_is(LN_WEIGHTED3_X_MIN <= v[8] && v[8] <= LN_WEIGHTED3_X_MAX, "wcompare_distance3", "r.x", "is out of range", row) &&
    lr_is(LN_WEIGHTED3_Y_MIN <= v[9] && v[9] <= LN_WEIGHTED3_Y_MAX, "wcompare_distance3", "r.y", "is out of range", row) &&
    lr_is(LN_WEIGHTED3_Z_MIN <= v[10] && v[10] <= LN_WEIGHTED3_Z_MAX, "wcompare_distance3", "r.z", "is out of range", row) &&
    lr_is(LN_WEIGHTED3_W_MIN <= v[11] && v[11] <= LN_WEIGHTED3_W_MAX, "wcompare_distance3", "r.w", "is out of range", row);
}
static inline int li_wcompare_distance3(const int64_t *x, size_t row) {
  return lr_is(0 <= x[0], "wcompare_distance3", "p", "has a negative index", row) &&
    lr_is(0 <= x[1], "wcompare_distance3", "q", "has a negative index", row) &&
    lr_is(0 <= x[2], "wcompare_distance3", "r", "has a negative index", row) &&
    lr_is(x[0] != x[1], "wcompare_distance3", "q", "has the index of p too", row) &&
    lr_is(x[0] != x[2], "wcompare_distance3", "r", "has the index of p too", row) &&
    lr_is(x[1] != x[2], "wcompare_distance3", "r", "has the index of q too", row);
}
static inline int lc_wcompare_distance3(const int64_t *x, const int64_t *v) { return lv_wcompare_distance3(v, SIZE_MAX) && li_wcompare_distance3(x, SIZE_MAX) ? ln_wcompare_distance3(x, v) : 0; }
static inline int lc_wcompare_distance3_plain(const int64_t *v) { return lv_wcompare_distance3(v, SIZE_MAX) ? ln_wcompare_distance3_plain(v) : 0; }
static inline void lc_wcompare_distance3_rows(size_t n, const int64_t *x, const int64_t *v, int8_t *signs) {
  for (size_t i = 0; i < n; i++) {
    signs[i] = 0;
    if (lv_wcompare_distance3(v + 12 * i, i) && li_wcompare_distance3(x + 3 * i, i)) ln_wcompare_distance3_rows(1, x + 3 * i, v + 12 * i, signs + i);
  }
}
static inline int lc_wcompare_distance3_at(const ln_weighted3 *p, const ln_weighted3 *q, const ln_weighted3 *r) {
  const int64_t x[] = {p->index, q->index, r->index};
  const int64_t v[] = {p->x, p->y, p->z, p->w, q->x, q->y, q->z, q->w, r->x, r->y, r->z, r->w};
  return lv_wcompare_distance3(v, SIZE_MAX) && li_wcompare_distance3(x, SIZE_MAX) ? ln_wcompare_distance3_at(p, q, r) : 0;
}
static inline int lc_wcompare_distance3_plain_at(const ln_weighted3 *p, const ln_weighted3 *q, const ln_weighted3 *r) {
  const int64_t v[] = {p->x, p->y, p->z, p->w, q->x, q->y, q->z, q->w, r->x, r->y, r->z, r->w};
  return lv_wcompare_distance3(v, SIZE_MAX) ? ln_wcompare_distance3_plain_at(p, q, r) : 0;
}
static inline int lv_compare_power3(const int64_t *v, size_t row) {
  return lr_is(LN_WEIGHTED3_X_MIN <= v[0] && v[0] <= LN_WEIGHTED3_X_MAX, "compare_power3", "p.x", "is out of range", row) &&
    lr_is(LN_WEIGHTED3_Y_MIN <= v[1] && v[1] <= LN_WEIGHTED3_Y_MAX, "compare_power3", "p.y", "is out of range", row) &&
    lr_is(LN_WEIGHTED3_Z_MIN <= v[2] && v[2] <= LN_WEIGHTED3_Z_MAX, "compare_power3", "p.z", "is out of range", row) &&
    lr_is(LN_WEIGHTED3_W_MIN <= v[3] && v[3] <= LN_WEIGHTED3_W_MAX, "compare_power3", "p.w", "is out of range", row) &&
    lr_is(LN_WEIGHTED3_X_MIN <= v[4] && v[4] <= LN_WEIGHTED3_X_MAX, "compare_power3", "q.x", "is out of range", row) &&
    lr_is(LN_WEIGHTED3_Y_MIN <= v[5] && v[5] <= LN_WEIGHTED3_Y_MAX, "compare_power3", "q.y", "is out of range", row) &&
    lr_is(LN_WEIGHTED3_Z_MIN <= v[6] && v[6] <= LN_WEIGHTED3_Z_MAX, "compare_power3", "q.z", "is out of range", row) &&
    lr_is(LN_WEIGHTED3_W_MIN <= v[7] && v[7] <= LN_WEIGHTED3_W_MAX, "compare_power3", "q.w", "is out of range", row) &&
    lr_is(LN_WEIGHTED3_X_MIN <= v[8] && v[8] <= LN_WEIGHTED3_X_MAX, "compare_power3", "r.x", "is out of range", row) &&
    lr_is(LN_WEIGHTED3_Y_MIN <= v[9] && v[9] <= LN_WEIGHTED3_Y_MAX, "compare_power3", "r.y", "is out of range", row) &&
    lr_is(LN_WEIGHTED3_Z_MIN <= v[10] && v[10] <= LN_WEIGHTED3_Z_MAX, "compare_power3", "r.z", "is out of range", row) &&
    lr_is(LN_WEIGHTED3_W_MIN <= v[11] && v[11] <= LN_WEIGHTED3_W_MAX, "compare_power3", "r.w", "is out of range", row);
}
static inline int li_compare_power3(const int64_t *x, size_t row) {
  return lr_is(0 <= x[0], "compare_power3", "p", "has a negative index", row) &&
    lr_is(0 <= x[1], "compare_power3", "q", "has a negative index", row) &&
    lr_is(0 <= x[2], "compare_power3", "r", "has a negative index", row) &&
    lr_is(x[0] != x[1], "compare_power3", "q", "has the index of p too", row) &&
    lr_is(x[0] != x[2], "compare_power3", "r", "has the index of p too", row) &&
    lr_is(x[1] != x[2], "compare_power3", "r", "has the index of q too", row);
}
static inline int lc_compare_power3(const int64_t *x, const int64_t *v) { return lv_compare_power3(v, SIZE_MAX) && li_compare_power3(x, SIZE_MAX) ? ln_compare_power3(x, v) : 0; }
static inline int lc_compare_power3_plain(const int64_t *v) { return lv_compare_power3(v, SIZE_MAX) ? ln_compare_power3_plain(v) : 0; }
static inline void lc_compare_power3_rows(size_t n, const int64_t *x, const int64_t *v, int8_t *signs) {
  for (size_t i = 0; i < n; i++) {
    signs[i] = 0;
    if (lv_compare_power3(v + 12 * i, i) && li_compare_power3(x + 3 * i, i)) ln_compare_power3_rows(1, x + 3 * i, v + 12 * i, signs + i);
  }
}
static inline int lc_compare_power3_at(const ln_weighted3 *p, const ln_weighted3 *q, const ln_weighted3 *r) {
  const int64_t x[] = {p->index, q->index, r->index};
  const int64_t v[] = {p->x, p->y, p->z, p->w, q->x, q->y, q->z, q->w, r->x, r->y, r->z, r->w};
  return lv_compare_power3(v, SIZE_MAX) && li_compare_power3(x, SIZE_MAX) ? ln_compare_power3_at(p, q, r) : 0;
}
static inline int lc_compare_power3_plain_at(const ln_weighted3 *p, const ln_weighted3 *q, const ln_weighted3 *r) {
  const int64_t v[] = {p->x, p->y, p->z, p->w, q->x, q->y, q->z, q->w, r->x, r->y, r->z, r->w};
  return lv_compare_power3(v, SIZE_MAX) ? ln_compare_power3_plain_at(p, q, r) : 0;
}
static inline int lv_wdot3(const int64_t *v, size_t row) {
  return lr_is(LN_WEIGHTED3_X_MIN <= v[0] && v[0] <= LN_WEIGHTED3_X_MAX, "wdot3", "p.x", "is out of range", row) &&
    lr_is(LN_WEIGHTED3_Y_MIN <= v[1] && v[1] <= LN_WEIGHTED3_Y_MAX, "wdot3", "p.y", "is out of range", row) &&
    lr_is(LN_WEIGHTED3_Z_MIN <= v[2] && v[2] <= LN_WEIGHTED3_Z_MAX, "wdot3", "p.z", "is out of range", row) &&
    lr_is(LN_WEIGHTED3_W_MIN <= v[3] && v[3] <= LN_WEIGHTED3_W_MAX, "wdot3", "p.w", "is out of range", row) &&
    lr_is(LN_WEIGHTED3_X_MIN <= v[4] && v[4] <= LN_WEIGHTED3_X_MAX, "wdot3", "q.x", "is out of range", row) &&
    lr_is(LN_WEIGHTED3_Y_MIN <= v[5] && v[5] <= LN_WEIGHTED3_Y_MAX, "wdot3", "q.y", "is out of range", row) &&
    lr_is(LN_WEIGHTED3_Z_MIN <= v[6] && v[6] <= LN_WEIGHTED3_Z_MAX, "wdot3", "q.z", "is out of range", row) &&
    lr_is(LN_WEIGHTED3_W_MIN <= v[7] && v[7] <= LN_WEIGHTED3_W_MAX, "wdot3", "q.w", "is out of range", row) &&
    lr_is(LN_WEIGHTED3_X_MIN <= v[8] && v[8] <= LN_WEIGHTED3_X_MAX, "wdot3", "r.x", "is out of range", row) &&
    lr_is(LN_WEIGHTED3_Y_MIN <= v[9] && v[9] <= LN_WEIGHTED3_Y_MAX, "wdot3", "r.y", "is out of range", row) &&
    lr_is(LN_WEIGHTED3_Z_MIN <= v[10] && v[10] <= LN_WEIGHTED3_Z_MAX, "wdot3", "r.z", "is out of range", row) &&
    lr_is(LN_WEIGHTED3_W_MIN <= v[11] && v[11] <= LN_WEIGHTED3_W_MAX, "wdot3", "r.w", "is out of range", row) &&
    lr_is(LN_WEIGHTED3_X_MIN <= v[12] && v[12] <= LN_WEIGHTED3_X_MAX, "wdot3", "s.x", "is out of range", row) &&
    lr_is(LN_WEIGHTED3_Y_MIN <= v[13] && v[13] <= LN_WEIGHTED3_Y_MAX, "wdot3", "s.y", "is out of range", row) &&
    lr_is(LN_WEIGHTED3_Z_MIN <= v[14] && v[14] <= LN_WEIGHTED3_Z_MAX, "wdot3", "s.z", "is out of range", row) &&
    lr_is(LN_WEIGHTED3_W_MIN <= v[15] && v[15] <= LN_WEIGHTED3_W_MAX, "wdot3", "s.w", "is out of range", row);
}
static inline int li_wdot3(const int64_t *x, size_t row) {
  return lr_is(0 <= x[0], "wdot3", "p", "has a negative index", row) &&
    lr_is(0 <= x[1], "wdot3", "q", "has a negative index", row) &&
    lr_is(0 <= x[2], "wdot3", "r", "has a negative index", row) &&
    lr_is(0 <= x[3], "wdot3", "s", "has a negative index", row) &&
    lr_is(x[0] != x[1], "wdot3", "q", "has the index of p too", row) &&
    lr_is(x[0] != x[2], "wdot3", "r", "has the index of p too", row) &&
    lr_is(x[1] != x[2], "wdot3", "r", "has the index of q too", row) &&
    lr_is(x[0] != x[3], "wdot3", "s", "has the index of p too", row) &&
    lr_is(x[1] != x[3], "wdot3", "s", "has the index of q too", row) &&
    lr_is(x[2] != x[3], "wdot3", "s", "has the index of r too", row);
}
static inline int lc_wdot3(const int64_t *x, const int64_t *v) { return lv_wdot3(v, SIZE_MAX) && li_wdot3(x, SIZE_MAX) ? ln_wdot3(x, v) : 0; }
static inline int lc_wdot3_plain(const int64_t *v) { return lv_wdot3(v, SIZE_MAX) ? ln_wdot3_plain(v) : 0; }
static inline void lc_wdot3_rows(size_t n, const int64_t *x, const int64_t *v, int8_t *signs) {
  for (size_t i = 0; i < n; i++) {
    signs[i] = 0;
    if (lv_wdot3(v + 16 * i, i) && li_wdot3(x + 4 * i, i)) ln_wdot3_rows(1, x + 4 * i, v + 16 * i, signs + i);
  }
}
static inline int lc_wdot3_at(const ln_weighted3 *p, const ln_weighted3 *q, const ln_weighted3 *r, const ln_weighted3 *s) {
  const int64_t x[] = {p->index, q->index, r->index, s->index};
  const int64_t v[] = {p->x, p->y, p->z, p->w, q->x, q->y, q->z, q->w, r->x, r->y, r->z, r->w, s->x, s->y, s->z, s->w};
  return lv_wdot3(v, SIZE_MAX) && li_wdot3(x, SIZE_MAX) ? ln_wdot3_at(p, q, r, s) : 0;
}
static inline int lc_wdot3_plain_at(const ln_weighted3 *p, const ln_weighted3 *q, const ln_weighted3 *r, const ln_weighted3 *s) {
  const int64_t v[] = {p->x, p->y, p->z, p->w, q->x, q->y, q->z, q->w, r->x, r->y, r->z, r->w, s->x, s->y, s->z, s->w};
  return lv_wdot3(v, SIZE_MAX) ? ln_wdot3_plain_at(p, q, r, s) : 0;
}
static inline int lv_wcoplanar_xy(const int64_t *v, size_t row) {
  return lr_is(LN_WEIGHTED3_X_MIN <= v[0] && v[0] <= LN_WEIGHTED3_X_MAX, "wcoplanar_xy", "p.x", "is out of range", row) &&
    lr_is(LN_WEIGHTED3_Y_MIN <= v[1] && v[1] <= LN_WEIGHTED3_Y_MAX, "wcoplanar_xy", "p.y", "is out of range", row) &&
    lr_is(LN_WEIGHTED3_Z_MIN <= v[2] && v[2] <= LN_WEIGHTED3_Z_MAX, "wcoplanar_xy", "p.z", "is out of range", row) &&
    lr_is(LN_WEIGHTED3_W_MIN <= v[3] && v[3] <= LN_WEIGHTED3_W_MAX, "wcoplanar_xy", "p.w", "is out of range", row) &&
    lr_is(LN_WEIGHTED3_X_MIN <= v[4] && v[4] <= LN_WEIGHTED3_X_MAX, "wcoplanar_xy", "q.x", "is out of range", row) &&
    lr_is(LN_WEIGHTED3_Y_MIN <= v[5] && v[5] <= LN_WEIGHTED3_Y_MAX, "wcoplanar_xy", "q.y", "is out of range", row) &&
    lr_is(LN_WEIGHTED3_Z_MIN <= v[6] && v[6] <= LN_WEIGHTED3_Z_MAX, "wcoplanar_xy", "q.z", "is out of range", row) &&
    lr_is(LN_WEIGHTED3_W_MIN <= v[7] && v[7] <= LN_WEIGHTED3_W_MAX, "wcoplanar_xy", "q.w", "is out of range", row) &&
    lr_is(LN_WEIGHTED3_X_MIN <= v[8] && v[8] <= LN_WEIGHTED3_X_MAX, "wcoplanar_xy", "r.x", "is out of range", row) &&
    lr_is(LN_WEIGHTED3_Y_MIN <= v[9] && v[9] <= LN_WEIGHTED3_Y_MAX, "wcoplanar_xy", "r.y", "is out of range", row) &&
    lr_is(LN_WEIGHTED3_Z_MIN <= v[10] && v[10] <= LN_WEIGHTED3_Z_MAX, "wcoplanar_xy", "r.z", "is out of range", row) &&
    lr_is(LN_WEIGHTED3_W_MIN <= v[11] && v[11] <= LN_WEIGHTED3_W_MAX, "wcoplanar_xy", "r.w", "is out of range", row);
}
static inline int li_wcoplanar_xy(const int64_t *x, size_t row) {
  return lr_is(0 <= x[0], "wcoplanar_xy", "p", "has a negative index", row) &&
    lr_is(0 <= x[1], "wcoplanar_xy", "q", "has a negative index", row) &&
    lr_is(0 <= x[2], "wcoplanar_xy", "r", "has a negative index", row) &&
    lr_is(x[0] != x[1], "wcoplanar_xy", "q", "has the index of p too", row) &&
    lr_is(x[0] != x[2], "wcoplanar_xy", "r", "has the index of p too", row) &&
    lr_is(x[1] != x[2], "wcoplanar_xy", "r", "has the index of q too", row);
}
static inline int lc_wcoplanar_xy(const int64_t *x, const int64_t *v) { return lv_wcoplanar_xy(v, SIZE_MAX) && li_wcoplanar_xy(x, SIZE_MAX) ? ln_wcoplanar_xy(x, v) : 0; }
static inline int lc_wcoplanar_xy_plain(const int64_t *v) { return lv_wcoplanar_xy(v, SIZE_MAX) ? ln_wcoplanar_xy_plain(v) : 0; }
static inline void lc_wcoplanar_xy_rows(size_t n, const int64_t *x, const int64_t *v, int8_t *signs) {
  for (size_t i = 0; i < n; i++) {
    signs[i] = 0;
    if (lv_wcoplanar_xy(v + 12 * i, i) && li_wcoplanar_xy(x + 3 * i, i)) ln_wcoplanar_xy_rows(1, x + 3 * i, v + 12 * i, signs + i);
  }
}
static inline int lc_wcoplanar_xy_at(const ln_weighted3 *p, const ln_weighted3 *q, const ln_weighted3 *r) {
  const int64_t x[] = {p->index, q->index, r->index};
  const int64_t v[] = {p->x, p->y, p->z, p->w, q->x, q->y, q->z, q->w, r->x, r->y, r->z, r->w};
  return lv_wcoplanar_xy(v, SIZE_MAX) && li_wcoplanar_xy(x, SIZE_MAX) ? ln_wcoplanar_xy_at(p, q, r) : 0;
}
static inline int lc_wcoplanar_xy_plain_at(const ln_weighted3 *p, const ln_weighted3 *q, const ln_weighted3 *r) {
  const int64_t v[] = {p->x, p->y, p->z, p->w, q->x, q->y, q->z, q->w, r->x, r->y, r->z, r->w};
  return lv_wcoplanar_xy(v, SIZE_MAX) ? ln_wcoplanar_xy_plain_at(p, q, r) : 0;
}
static inline int lv_wcoplanar_yz(const int64_t *v, size_t row) {
  return lr_is(LN_WEIGHTED3_X_MIN <= v[0] && v[0] <= LN_WEIGHTED3_X_MAX, "wcoplanar_yz", "p.x", "is out of range", row) &&
    lr_is(LN_WEIGHTED3_Y_MIN <= v[1] && v[1] <= LN_WEIGHTED3_Y_MAX, "wcoplanar_yz", "p.y", "is out of range", row) &&
    lr_is(LN_WEIGHTED3_Z_MIN <= v[2] && v[2] <= LN_WEIGHTED3_Z_MAX, "wcoplanar_yz", "p.z", "is out of range", row) &&
    lr_is(LN_WEIGHTED3_W_MIN <= v[3] && v[3] <= LN_WEIGHTED3_W_MAX, "wcoplanar_yz", "p.w", "is out of range", row) &&
    lr_is(LN_WEIGHTED3_X_MIN <= v[4] && v[4] <= LN_WEIGHTED3_X_MAX, "wcoplanar_yz", "q.x", "is out of range", row) &&
    lr_is(LN_WEIGHTED3_Y_MIN <= v[5] && v[5] <= LN_WEIGHTED3_Y_MAX, "wcoplanar_yz", "q.y", "is out of range", row) &&
    lr_is(LN_WEIGHTED3_Z_MIN <= v[6] && v[6] <= LN_WEIGHTED3_Z_MAX, "wcoplanar_yz", "q.z", "is out of range", row) &&
    lr_is(LN_WEIGHTED3_W_MIN <= v[7] && v[7] <= LN_WEIGHTED3_W_MAX, "wcoplanar_yz", "q.w", "is out of range", row) &&
    lr_is(LN_WEIGHTED3_X_MIN <= v[8] && v[8] <= LN_WEIGHTED3_X_MAX, "wcoplanar_yz", "r.x", "is out of range", row) &&
    lr_is(LN_WEIGHTED3_Y_MIN <= v[9] && v[9] <= LN_WEIGHTED3_Y_MAX, "wcoplanar_yz", "r.y", "is out of range", row) &&
    lr_is(LN_WEIGHTED3_Z_MIN <= v[10] && v[10] <= LN_WEIGHTED3_Z_MAX, "wcoplanar_yz", "r.z", "is out of range", row) &&
    lr_is(LN_WEIGHTED3_W_MIN <= v[11] && v[11] <= LN_WEIGHTED3_W_MAX, "wcoplanar_yz", "r.w", "is out of range", row);
}
static inline int li_wcoplanar_yz(const int64_t *x, size_t row) {
  return lr_is(0 <= x[0], "wcoplanar_yz", "p", "has a negative index", row) &&
    lr_is(0 <= x[1], "wcoplanar_yz", "q", "has a negative index", row) &&
    lr_is(0 <= x[2], "wcoplanar_yz", "r", "has a negative index", row) &&
    lr_is(x[0] != x[1], "wcoplanar_yz", "q", "has the index of p too", row) &&
    lr_is(x[0] != x[2], "wcoplanar_yz", "r", "has the index of p too", row) &&
    lr_is(x[1] != x[2], "wcoplanar_yz", "r", "has the index of q too", row);
}
static inline int lc_wcoplanar_yz(const int64_t *x, const int64_t *v) { return lv_wcoplanar_yz(v, SIZE_MAX) && li_wcoplanar_yz(x, SIZE_MAX) ? ln_wcoplanar_yz(x, v) : 0; }
static inline int lc_wcoplanar_yz_plain(const int64_t *v) { return lv_wcoplanar_yz(v, SIZE_MAX) ? ln_wcoplanar_yz_plain(v) : 0; }
static inline void lc_wcoplanar_yz_rows(size_t n, const int64_t *x, const int64_t *v, int8_t *signs) {
  for (size_t i = 0; i < n; i++) {
    signs[i] = 0;
    if (lv_wcoplanar_yz(v + 12 * i, i) && li_wcoplanar_yz(x + 3 * i, i)) ln_wcoplanar_yz_rows(1, x + 3 * i, v + 12 * i, signs + i);
  }
}
static inline int lc_wcoplanar_yz_at(const ln_weighted3 *p, const ln_weighted3 *q, const ln_weighted3 *r) {
  const int64_t x[] = {p->index, q->index, r->index};
  const int64_t v[] = {p->x, p->y, p->z, p->w, q->x, q->y, q->z, q->w, r->x, r->y, r->z, r->w};
  return lv_wcoplanar_yz(v, SIZE_MAX) && li_wcoplanar_yz(x, SIZE_MAX) ? ln_wcoplanar_yz_at(p, q, r) : 0;
}
static inline int lc_wcoplanar_yz_plain_at(const ln_weighted3 *p, const ln_weighted3 *q, const ln_weighted3 *r) {
  const int64_t v[] = {p->x, p->y, p->z, p->w, q->x, q->y, q->z, q->w, r->x, r->y, r->z, r->w};
  return lv_wcoplanar_yz(v, SIZE_MAX) ? ln_wcoplanar_yz_plain_at(p, q, r) : 0;
}
static inline int lv_wcoplanar_zx(const int64_t *v, size_t row) {
  return lr_is(LN_WEIGHTED3_X_MIN <= v[0] && v[0] <= LN_WEIGHTED3_X_MAX, "wcoplanar_zx", "p.x", "is out of range", row) &&
    lr_is(LN_WEIGHTED3_Y_MIN <= v[1] && v[1] <= LN_WEIGHTED3_Y_MAX, "wcoplanar_zx", "p.y", "is out of range", row) &&
    lr_is(LN_WEIGHTED3_Z_MIN <= v[2] && v[2] <= LN_WEIGHTED3_Z_MAX, "wcoplanar_zx", "p.z", "is out of range", row) &&
    lr_is(LN_WEIGHTED3_W_MIN <= v[3] && v[3] <= LN_WEIGHTED3_W_MAX, "wcoplanar_zx", "p.w", "is out of range", row) &&
    lr_is(LN_WEIGHTED3_X_MIN <= v[4] && v[4] <= LN_WEIGHTED3_X_MAX, "wcoplanar_zx", "q.x", "is out of range", row) &&
    lr_is(LN_WEIGHTED3_Y_MIN <= v[5] && v[5] <= LN_WEIGHTED3_Y_MAX, "wcoplanar_zx", "q.y", "is out of range", row) &&
    lr_is(LN_WEIGHTED3_Z_MIN <= v[6] && v[6] <= LN_WEIGHTED3_Z_MAX, "wcoplanar_zx", "q.z", "is out of range", row) &&
    lr_is(LN_WEIGHTED3_W_MIN <= v[7] && v[7] <= LN_WEIGHTED3_W_MAX, "wcoplanar_zx", "q.w", "is out of range", row) &&
    lr_is(LN_WEIGHTED3_X_MIN <= v[8] && v[8] <= LN_WEIGHTED3_X_MAX, "wcoplanar_zx", "r.x", "is out of range", row) &&
    lr_is(LN_WEIGHTED3_Y_MIN <= v[9] && v[9] <= LN_WEIGHTED3_Y_MAX, "wcoplanar_zx", "r.y", "is out of range", row) &&
    lr_is(LN_WEIGHTED3_Z_MIN <= v[10] && v[10] <= LN_WEIGHTED3_Z_MAX, "wcoplanar_zx", "r.z", "is out of range", row) &&
    lr_is(LN_WEIGHTED3_W_MIN <= v[11] && v[11] <= LN_WEIGHTED3_W_MAX, "wcoplanar_zx", "r.w", "is out of range", row);
}
static inline int li_wcoplanar_zx(const int64_t *x, size_t row) {
  return lr_is(0 <= x[0], "wcoplanar_zx", "p", "has a negative index", row) &&
    lr_is(0 <= x[1], "wcoplanar_zx", "q", "has a negative index", row) &&
    lr_is(0 <= x[2], "wcoplanar_zx", "r", "has a negative index", row) &&
    lr_is(x[0] != x[1], "wcoplanar_zx", "q", "has the index of p too", row) &&
    lr_is(x[0] != x[2], "wcoplanar_zx", "r", "has the index of p too", row) &&
    lr_is(x[1] != x[2], "wcoplanar_zx", "r", "has the index of q too", row);
}
static inline int lc_wcoplanar_zx(const int64_t *x, const int64_t *v) { return lv_wcoplanar_zx(v, SIZE_MAX) && li_wcoplanar_zx(x, SIZE_MAX) ? ln_wcoplanar_zx(x, v) : 0; }
static inline int lc_wcoplanar_zx_plain(const int64_t *v) { return lv_wcoplanar_zx(v, SIZE_MAX) ? ln_wcoplanar_zx_plain(v) : 0; }
static inline void lc_wcoplanar_zx_rows(size_t n, const int64_t *x, const int64_t *v, int8_t *signs) {
  for (size_t i = 0; i < n; i++) {
    signs[i] = 0;
    if (lv_wcoplanar_zx(v + 12 * i, i) && li_wcoplanar_zx(x + 3 * i, i)) ln_wcoplanar_zx_rows(1, x + 3 * i, v + 12 * i, signs + i);
  }
}
static inline int lc_wcoplanar_zx_at(const ln_weighted3 *p, const ln_weighted3 *q, const ln_weighted3 *r) {
  const int64_t x[] = {p->index, q->index, r->index};
  const int64_t v[] = {p->x, p->y, p->z, p->w, q->x, q->y, q->z, q->w, r->x, r->y, r->z, r->w};
  return lv_wcoplanar_zx(v, SIZE_MAX) && li_wcoplanar_zx(x, SIZE_MAX) ? ln_wcoplanar_zx_at(p, q, r) : 0;
}
static inline int lc_wcoplanar_zx_plain_at(const ln_weighted3 *p, const ln_weighted3 *q, const ln_weighted3 *r) {
  const int64_t v[] = {p->x, p->y, p->z, p->w, q->x, q->y, q->z, q->w, r->x, r->y, r->z, r->w};
  return lv_wcoplanar_zx(v, SIZE_MAX) ? ln_wcoplanar_zx_plain_at(p, q, r) : 0;
}
#endif

#ifdef __cplusplus
}

#include <cstdint>
#ifdef LNC_CHECKED
#define LNC_CALL(name) ::lc_##name
#else
#define LNC_CALL(name) ::ln_##name
#endif
namespace lnc {
typedef ::ln_weighted3 weighted3;
inline bool in_range(const weighted3 &p) { return ::ln_weighted3_in_range(&p) != 0; }
#ifdef LNC_CHECKED
inline namespace checked {
#endif
inline int worient3(const weighted3 &a, const weighted3 &b, const weighted3 &c, const weighted3 &d) {
  return LNC_CALL(worient3_at)(&a, &b, &c, &d);
}
inline int worient3_plain(const weighted3 &a, const weighted3 &b, const weighted3 &c, const weighted3 &d) {
  return LNC_CALL(worient3_plain_at)(&a, &b, &c, &d);
}
inline int power3(const weighted3 &a, const weighted3 &b, const weighted3 &c, const weighted3 &d, const weighted3 &e) {
  return LNC_CALL(power3_at)(&a, &b, &c, &d, &e);
}
inline int power3_plain(const weighted3 &a, const weighted3 &b, const weighted3 &c, const weighted3 &d, const weighted3 &e) {
  return LNC_CALL(power3_plain_at)(&a, &b, &c, &d, &e);
}
inline int wdiametral3(const weighted3 &p, const weighted3 &q, const weighted3 &r) {
  return LNC_CALL(wdiametral3_at)(&p, &q, &r);
}
inline int wdiametral3_plain(const weighted3 &p, const weighted3 &q, const weighted3 &r) {
  return LNC_CALL(wdiametral3_plain_at)(&p, &q, &r);
}
inline int wcompare_x3(const weighted3 &p, const weighted3 &q) {
  return LNC_CALL(wcompare_x3_at)(&p, &q);
}
inline int wcompare_x3_plain(const weighted3 &p, const weighted3 &q) {
  return LNC_CALL(wcompare_x3_plain_at)(&p, &q);
}
inline int wcompare_y3(const weighted3 &p, const weighted3 &q) {
  return LNC_CALL(wcompare_y3_at)(&p, &q);
}
inline int wcompare_y3_plain(const weighted3 &p, const weighted3 &q) {
  return LNC_CALL(wcompare_y3_plain_at)(&p, &q);
}
inline int wcompare_z3(const weighted3 &p, const weighted3 &q) {
  return LNC_CALL(wcompare_z3_at)(&p, &q);
}
inline int wcompare_z3_plain(const weighted3 &p, const weighted3 &q) {
  return LNC_CALL(wcompare_z3_plain_at)(&p, &q);
}
inline int wcompare_w3(const weighted3 &p, const weighted3 &q) {
  return LNC_CALL(wcompare_w3_at)(&p, &q);
}
inline int wcompare_w3_plain(const weighted3 &p, const weighted3 &q) {
  return LNC_CALL(wcompare_w3_plain_at)(&p, &q);
}
inline int wlexicographic3(const weighted3 &p, const weighted3 &q) {
  return LNC_CALL(wlexicographic3_at)(&p, &q);
}
inline int wlexicographic3_plain(const weighted3 &p, const weighted3 &q) {
  return LNC_CALL(wlexicographic3_plain_at)(&p, &q);
}
inline int wcompare_distance3(const weighted3 &p, const weighted3 &q, const weighted3 &r) {
  return LNC_CALL(wcompare_distance3_at)(&p, &q, &r);
}
inline int wcompare_distance3_plain(const weighted3 &p, const weighted3 &q, const weighted3 &r) {
  return LNC_CALL(wcompare_distance3_plain_at)(&p, &q, &r);
}
inline int compare_power3(const weighted3 &p, const weighted3 &q, const weighted3 &r) {
  return LNC_CALL(compare_power3_at)(&p, &q, &r);
}
inline int compare_power3_plain(const weighted3 &p, const weighted3 &q, const weighted3 &r) {
  return LNC_CALL(compare_power3_plain_at)(&p, &q, &r);
}
inline int wdot3(const weighted3 &p, const weighted3 &q, const weighted3 &r, const weighted3 &s) {
  return LNC_CALL(wdot3_at)(&p, &q, &r, &s);
}
inline int wdot3_plain(const weighted3 &p, const weighted3 &q, const weighted3 &r, const weighted3 &s) {
  return LNC_CALL(wdot3_plain_at)(&p, &q, &r, &s);
}
inline int wcoplanar_xy(const weighted3 &p, const weighted3 &q, const weighted3 &r) {
  return LNC_CALL(wcoplanar_xy_at)(&p, &q, &r);
}
inline int wcoplanar_xy_plain(const weighted3 &p, const weighted3 &q, const weighted3 &r) {
  return LNC_CALL(wcoplanar_xy_plain_at)(&p, &q, &r);
}
inline int wcoplanar_yz(const weighted3 &p, const weighted3 &q, const weighted3 &r) {
  return LNC_CALL(wcoplanar_yz_at)(&p, &q, &r);
}
inline int wcoplanar_yz_plain(const weighted3 &p, const weighted3 &q, const weighted3 &r) {
  return LNC_CALL(wcoplanar_yz_plain_at)(&p, &q, &r);
}
inline int wcoplanar_zx(const weighted3 &p, const weighted3 &q, const weighted3 &r) {
  return LNC_CALL(wcoplanar_zx_at)(&p, &q, &r);
}
inline int wcoplanar_zx_plain(const weighted3 &p, const weighted3 &q, const weighted3 &r) {
  return LNC_CALL(wcoplanar_zx_plain_at)(&p, &q, &r);
}
#ifdef LNC_CHECKED
}
#endif
}
#undef LNC_CALL
#endif
#endif

#if defined(LNC_WEIGHTED_SPACE_IMPLEMENTATION) && !defined(LNC_WEIGHTED_SPACE_IMPLEMENTED)
#define LNC_WEIGHTED_SPACE_IMPLEMENTED
#undef ln_worient3
#undef ln_worient3_plain
#undef ln_worient3_rows
#undef ln_worient3_at
#undef ln_worient3_plain_at
#undef ln_power3
#undef ln_power3_plain
#undef ln_power3_rows
#undef ln_power3_at
#undef ln_power3_plain_at
#undef ln_wdiametral3
#undef ln_wdiametral3_plain
#undef ln_wdiametral3_rows
#undef ln_wdiametral3_at
#undef ln_wdiametral3_plain_at
#undef ln_wcompare_x3
#undef ln_wcompare_x3_plain
#undef ln_wcompare_x3_rows
#undef ln_wcompare_x3_at
#undef ln_wcompare_x3_plain_at
#undef ln_wcompare_y3
#undef ln_wcompare_y3_plain
#undef ln_wcompare_y3_rows
#undef ln_wcompare_y3_at
#undef ln_wcompare_y3_plain_at
#undef ln_wcompare_z3
#undef ln_wcompare_z3_plain
#undef ln_wcompare_z3_rows
#undef ln_wcompare_z3_at
#undef ln_wcompare_z3_plain_at
#undef ln_wcompare_w3
#undef ln_wcompare_w3_plain
#undef ln_wcompare_w3_rows
#undef ln_wcompare_w3_at
#undef ln_wcompare_w3_plain_at
#undef ln_wlexicographic3
#undef ln_wlexicographic3_plain
#undef ln_wlexicographic3_rows
#undef ln_wlexicographic3_at
#undef ln_wlexicographic3_plain_at
#undef ln_wcompare_distance3
#undef ln_wcompare_distance3_plain
#undef ln_wcompare_distance3_rows
#undef ln_wcompare_distance3_at
#undef ln_wcompare_distance3_plain_at
#undef ln_compare_power3
#undef ln_compare_power3_plain
#undef ln_compare_power3_rows
#undef ln_compare_power3_at
#undef ln_compare_power3_plain_at
#undef ln_wdot3
#undef ln_wdot3_plain
#undef ln_wdot3_rows
#undef ln_wdot3_at
#undef ln_wdot3_plain_at
#undef ln_wcoplanar_xy
#undef ln_wcoplanar_xy_plain
#undef ln_wcoplanar_xy_rows
#undef ln_wcoplanar_xy_at
#undef ln_wcoplanar_xy_plain_at
#undef ln_wcoplanar_yz
#undef ln_wcoplanar_yz_plain
#undef ln_wcoplanar_yz_rows
#undef ln_wcoplanar_yz_at
#undef ln_wcoplanar_yz_plain_at
#undef ln_wcoplanar_zx
#undef ln_wcoplanar_zx_plain
#undef ln_wcoplanar_zx_rows
#undef ln_wcoplanar_zx_at
#undef ln_wcoplanar_zx_plain_at
#ifndef __SIZEOF_INT128__
#error "no __int128 here: weighted_space.c takes gcc or clang for a 64-bit target"
#endif
#ifdef __cplusplus
#pragma GCC diagnostic push
#pragma GCC diagnostic ignored "-Wold-style-cast"
#endif
static inline __attribute__((always_inline)) int la_worient3(const int64_t *x, const int64_t *v);
static inline __attribute__((always_inline)) int la_power3(const int64_t *x, const int64_t *v);
static inline __attribute__((always_inline)) int la_wcompare_x3(const int64_t *x, const int64_t *v);
static inline __attribute__((always_inline)) int la_wcompare_y3(const int64_t *x, const int64_t *v);
static inline __attribute__((always_inline)) int la_wcompare_z3(const int64_t *x, const int64_t *v);
static inline __attribute__((always_inline)) int la_wcompare_w3(const int64_t *x, const int64_t *v);
static inline __attribute__((always_inline)) int la_wlexicographic3(const int64_t *x, const int64_t *v);
static inline __attribute__((always_inline)) int la_wcoplanar_xy(const int64_t *x, const int64_t *v);
static inline __attribute__((always_inline)) int la_wcoplanar_yz(const int64_t *x, const int64_t *v);
static inline __attribute__((always_inline)) int la_wcoplanar_zx(const int64_t *x, const int64_t *v);
#include "weighted_space.c"
#ifndef LNC_HAS_ORDER
#define LNC_HAS_ORDER
#if defined(__clang__) || __GNUC__ < 8
#define LNC_UNROLLED
#else
#define LNC_UNROLLED _Pragma("GCC unroll 8")
#endif
/* Writes the indices as they rise to y, and of each site as many values alike to w. Returns whether an odd number of pairs of sites was the other way round.
   Two of one index stay as they are. (Without branches, since nothing foretells an order. There are at most 5 sites) */
static inline __attribute__((always_inline)) int lr_in_order(int sites, int many, const int64_t *x, const int64_t *v, int64_t *y, int64_t *w) {
  int turned = 0, rank[] = {0, 1, 2, 3, 4};
  LNC_UNROLLED
  for (int j = 1; j < sites; j++) {
    LNC_UNROLLED
    for (int k = 0; k < j; k++) {
      const int is_turned = x[k] > x[j];
      rank[k] += is_turned;
      rank[j] -= is_turned;
      turned += is_turned;
    }
  }
  LNC_UNROLLED
  for (int j = 0; j < sites; j++) {
    y[rank[j]] = x[j];
    LNC_UNROLLED
    for (int c = 0; c < many; c++) w[many * rank[j] + c] = v[many * j + c];
  }
  return turned % 2;
}
#undef LNC_UNROLLED
#endif
static __attribute__((noinline)) int lm_worient3(const int64_t *x, const int64_t *v) {
  int64_t y[4], w[16];
  const int odd = lr_in_order(4, 4, x, v, y, w);
  if (lb0_worient3(w) != 0) __builtin_unreachable();
  const int sign = la_worient3(y, w);
  return odd ? -sign : sign;
}
int ln_worient3(const int64_t *x, const int64_t *v) {
  const int sign = lb0_worient3(v);
  return sign != 0 ? sign : lm_worient3(x, v);
}
int ln_worient3_plain(const int64_t *v) { return lb0_worient3(v); }
void ln_worient3_rows(size_t n, const int64_t *x, const int64_t *v, int8_t *signs) {
  for (size_t i = 0; i < n; i++) signs[i] = (int8_t)ln_worient3(x + 4 * i, v + 16 * i);
}
static __attribute__((noinline)) int lm_worient3_at(const ln_weighted3 *a, const ln_weighted3 *b, const ln_weighted3 *c, const ln_weighted3 *d) {
  const int64_t x[] = {a->index, b->index, c->index, d->index};
  const int64_t v[] = {a->x, a->y, a->z, a->w, b->x, b->y, b->z, b->w, c->x, c->y, c->z, c->w, d->x, d->y, d->z, d->w};
  return lm_worient3(x, v);
}
__attribute__((flatten)) int ln_worient3_plain_at(const ln_weighted3 *a, const ln_weighted3 *b, const ln_weighted3 *c, const ln_weighted3 *d) {
  const int64_t v[] = {a->x, a->y, a->z, a->w, b->x, b->y, b->z, b->w, c->x, c->y, c->z, c->w, d->x, d->y, d->z, d->w};
  return lb0_worient3(v);
}
__attribute__((flatten)) int ln_worient3_at(const ln_weighted3 *a, const ln_weighted3 *b, const ln_weighted3 *c, const ln_weighted3 *d) {
  const int64_t v[] = {a->x, a->y, a->z, a->w, b->x, b->y, b->z, b->w, c->x, c->y, c->z, c->w, d->x, d->y, d->z, d->w};
  const int sign = lb0_worient3(v);
  return sign != 0 ? sign : lm_worient3_at(a, b, c, d);
}
static __attribute__((noinline)) int lm_power3(const int64_t *x, const int64_t *v) {
  int64_t y[5], w[20];
  const int odd = lr_in_order(5, 4, x, v, y, w);
  if (lb0_power3(w) != 0) __builtin_unreachable();
  const int sign = la_power3(y, w);
  return odd ? -sign : sign;
}
int ln_power3(const int64_t *x, const int64_t *v) {
  const int sign = lb0_power3(v);
  return sign != 0 ? sign : lm_power3(x, v);
}
int ln_power3_plain(const int64_t *v) { return lb0_power3(v); }
void ln_power3_rows(size_t n, const int64_t *x, const int64_t *v, int8_t *signs) {
  for (size_t i = 0; i < n; i++) signs[i] = (int8_t)ln_power3(x + 5 * i, v + 20 * i);
}
static __attribute__((noinline)) int lm_power3_at(const ln_weighted3 *a, const ln_weighted3 *b, const ln_weighted3 *c, const ln_weighted3 *d, const ln_weighted3 *e) {
  const int64_t x[] = {a->index, b->index, c->index, d->index, e->index};
  const int64_t v[] = {a->x, a->y, a->z, a->w, b->x, b->y, b->z, b->w, c->x, c->y, c->z, c->w, d->x, d->y, d->z, d->w, e->x, e->y, e->z, e->w};
  return lm_power3(x, v);
}
__attribute__((flatten)) int ln_power3_plain_at(const ln_weighted3 *a, const ln_weighted3 *b, const ln_weighted3 *c, const ln_weighted3 *d, const ln_weighted3 *e) {
  const int64_t v[] = {a->x, a->y, a->z, a->w, b->x, b->y, b->z, b->w, c->x, c->y, c->z, c->w, d->x, d->y, d->z, d->w, e->x, e->y, e->z, e->w};
  return lb0_power3(v);
}
__attribute__((flatten)) int ln_power3_at(const ln_weighted3 *a, const ln_weighted3 *b, const ln_weighted3 *c, const ln_weighted3 *d, const ln_weighted3 *e) {
  const int64_t v[] = {a->x, a->y, a->z, a->w, b->x, b->y, b->z, b->w, c->x, c->y, c->z, c->w, d->x, d->y, d->z, d->w, e->x, e->y, e->z, e->w};
  const int sign = lb0_power3(v);
  return sign != 0 ? sign : lm_power3_at(a, b, c, d, e);
}
int ln_wdiametral3_plain(const int64_t *v) { return lb0_wdiametral3(v); }
void ln_wdiametral3_rows(size_t n, const int64_t *x, const int64_t *v, int8_t *signs) {
  for (size_t i = 0; i < n; i++) signs[i] = (int8_t)ln_wdiametral3(x + 3 * i, v + 12 * i);
}
static __attribute__((noinline)) int lm_wdiametral3_at(const ln_weighted3 *p, const ln_weighted3 *q, const ln_weighted3 *r) {
  const int64_t x[] = {p->index, q->index, r->index};
  const int64_t v[] = {p->x, p->y, p->z, p->w, q->x, q->y, q->z, q->w, r->x, r->y, r->z, r->w};
  return ln_wdiametral3(x, v);
}
__attribute__((flatten)) int ln_wdiametral3_plain_at(const ln_weighted3 *p, const ln_weighted3 *q, const ln_weighted3 *r) {
  const int64_t v[] = {p->x, p->y, p->z, p->w, q->x, q->y, q->z, q->w, r->x, r->y, r->z, r->w};
  return lb0_wdiametral3(v);
}
__attribute__((flatten)) int ln_wdiametral3_at(const ln_weighted3 *p, const ln_weighted3 *q, const ln_weighted3 *r) {
  const int64_t v[] = {p->x, p->y, p->z, p->w, q->x, q->y, q->z, q->w, r->x, r->y, r->z, r->w};
  const int sign = lb0_wdiametral3(v);
  return sign != 0 ? sign : lm_wdiametral3_at(p, q, r);
}
static __attribute__((noinline)) int lm_wcompare_x3(const int64_t *x, const int64_t *v) {
  int64_t y[2], w[8];
  const int odd = lr_in_order(2, 4, x, v, y, w);
  if (lb0_wcompare_x3(w) != 0) __builtin_unreachable();
  const int sign = la_wcompare_x3(y, w);
  return odd ? -sign : sign;
}
int ln_wcompare_x3(const int64_t *x, const int64_t *v) {
  const int sign = lb0_wcompare_x3(v);
  return sign != 0 ? sign : lm_wcompare_x3(x, v);
}
int ln_wcompare_x3_plain(const int64_t *v) { return lb0_wcompare_x3(v); }
void ln_wcompare_x3_rows(size_t n, const int64_t *x, const int64_t *v, int8_t *signs) {
  for (size_t i = 0; i < n; i++) signs[i] = (int8_t)ln_wcompare_x3(x + 2 * i, v + 8 * i);
}
static __attribute__((noinline)) int lm_wcompare_x3_at(const ln_weighted3 *p, const ln_weighted3 *q) {
  const int64_t x[] = {p->index, q->index};
  const int64_t v[] = {p->x, p->y, p->z, p->w, q->x, q->y, q->z, q->w};
  return lm_wcompare_x3(x, v);
}
__attribute__((flatten)) int ln_wcompare_x3_plain_at(const ln_weighted3 *p, const ln_weighted3 *q) {
  const int64_t v[] = {p->x, p->y, p->z, p->w, q->x, q->y, q->z, q->w};
  return lb0_wcompare_x3(v);
}
__attribute__((flatten)) int ln_wcompare_x3_at(const ln_weighted3 *p, const ln_weighted3 *q) {
  const int64_t v[] = {p->x, p->y, p->z, p->w, q->x, q->y, q->z, q->w};
  const int sign = lb0_wcompare_x3(v);
  return sign != 0 ? sign : lm_wcompare_x3_at(p, q);
}
static __attribute__((noinline)) int lm_wcompare_y3(const int64_t *x, const int64_t *v) {
  int64_t y[2], w[8];
  const int odd = lr_in_order(2, 4, x, v, y, w);
  if (lb0_wcompare_y3(w) != 0) __builtin_unreachable();
  const int sign = la_wcompare_y3(y, w);
  return odd ? -sign : sign;
}
int ln_wcompare_y3(const int64_t *x, const int64_t *v) {
  const int sign = lb0_wcompare_y3(v);
  return sign != 0 ? sign : lm_wcompare_y3(x, v);
}
int ln_wcompare_y3_plain(const int64_t *v) { return lb0_wcompare_y3(v); }
void ln_wcompare_y3_rows(size_t n, const int64_t *x, const int64_t *v, int8_t *signs) {
  for (size_t i = 0; i < n; i++) signs[i] = (int8_t)ln_wcompare_y3(x + 2 * i, v + 8 * i);
}
static __attribute__((noinline)) int lm_wcompare_y3_at(const ln_weighted3 *p, const ln_weighted3 *q) {
  const int64_t x[] = {p->index, q->index};
  const int64_t v[] = {p->x, p->y, p->z, p->w, q->x, q->y, q->z, q->w};
  return lm_wcompare_y3(x, v);
}
__attribute__((flatten)) int ln_wcompare_y3_plain_at(const ln_weighted3 *p, const ln_weighted3 *q) {
  const int64_t v[] = {p->x, p->y, p->z, p->w, q->x, q->y, q->z, q->w};
  return lb0_wcompare_y3(v);
}
__attribute__((flatten)) int ln_wcompare_y3_at(const ln_weighted3 *p, const ln_weighted3 *q) {
  const int64_t v[] = {p->x, p->y, p->z, p->w, q->x, q->y, q->z, q->w};
  const int sign = lb0_wcompare_y3(v);
  return sign != 0 ? sign : lm_wcompare_y3_at(p, q);
}
static __attribute__((noinline)) int lm_wcompare_z3(const int64_t *x, const int64_t *v) {
  int64_t y[2], w[8];
  const int odd = lr_in_order(2, 4, x, v, y, w);
  if (lb0_wcompare_z3(w) != 0) __builtin_unreachable();
  const int sign = la_wcompare_z3(y, w);
  return odd ? -sign : sign;
}
int ln_wcompare_z3(const int64_t *x, const int64_t *v) {
  const int sign = lb0_wcompare_z3(v);
  return sign != 0 ? sign : lm_wcompare_z3(x, v);
}
int ln_wcompare_z3_plain(const int64_t *v) { return lb0_wcompare_z3(v); }
void ln_wcompare_z3_rows(size_t n, const int64_t *x, const int64_t *v, int8_t *signs) {
  for (size_t i = 0; i < n; i++) signs[i] = (int8_t)ln_wcompare_z3(x + 2 * i, v + 8 * i);
}
static __attribute__((noinline)) int lm_wcompare_z3_at(const ln_weighted3 *p, const ln_weighted3 *q) {
  const int64_t x[] = {p->index, q->index};
  const int64_t v[] = {p->x, p->y, p->z, p->w, q->x, q->y, q->z, q->w};
  return lm_wcompare_z3(x, v);
}
__attribute__((flatten)) int ln_wcompare_z3_plain_at(const ln_weighted3 *p, const ln_weighted3 *q) {
  const int64_t v[] = {p->x, p->y, p->z, p->w, q->x, q->y, q->z, q->w};
  return lb0_wcompare_z3(v);
}
__attribute__((flatten)) int ln_wcompare_z3_at(const ln_weighted3 *p, const ln_weighted3 *q) {
  const int64_t v[] = {p->x, p->y, p->z, p->w, q->x, q->y, q->z, q->w};
  const int sign = lb0_wcompare_z3(v);
  return sign != 0 ? sign : lm_wcompare_z3_at(p, q);
}
static __attribute__((noinline)) int lm_wcompare_w3(const int64_t *x, const int64_t *v) {
  int64_t y[2], w[8];
  const int odd = lr_in_order(2, 4, x, v, y, w);
  if (lb0_wcompare_w3(w) != 0) __builtin_unreachable();
  const int sign = la_wcompare_w3(y, w);
  return odd ? -sign : sign;
}
int ln_wcompare_w3(const int64_t *x, const int64_t *v) {
  const int sign = lb0_wcompare_w3(v);
  return sign != 0 ? sign : lm_wcompare_w3(x, v);
}
int ln_wcompare_w3_plain(const int64_t *v) { return lb0_wcompare_w3(v); }
void ln_wcompare_w3_rows(size_t n, const int64_t *x, const int64_t *v, int8_t *signs) {
  for (size_t i = 0; i < n; i++) signs[i] = (int8_t)ln_wcompare_w3(x + 2 * i, v + 8 * i);
}
static __attribute__((noinline)) int lm_wcompare_w3_at(const ln_weighted3 *p, const ln_weighted3 *q) {
  const int64_t x[] = {p->index, q->index};
  const int64_t v[] = {p->x, p->y, p->z, p->w, q->x, q->y, q->z, q->w};
  return lm_wcompare_w3(x, v);
}
__attribute__((flatten)) int ln_wcompare_w3_plain_at(const ln_weighted3 *p, const ln_weighted3 *q) {
  const int64_t v[] = {p->x, p->y, p->z, p->w, q->x, q->y, q->z, q->w};
  return lb0_wcompare_w3(v);
}
__attribute__((flatten)) int ln_wcompare_w3_at(const ln_weighted3 *p, const ln_weighted3 *q) {
  const int64_t v[] = {p->x, p->y, p->z, p->w, q->x, q->y, q->z, q->w};
  const int sign = lb0_wcompare_w3(v);
  return sign != 0 ? sign : lm_wcompare_w3_at(p, q);
}
static __attribute__((noinline)) int lm_wlexicographic3(const int64_t *x, const int64_t *v) {
  int64_t y[2], w[8];
  const int odd = lr_in_order(2, 4, x, v, y, w);
  if (lb0_wlexicographic3(w) != 0) __builtin_unreachable();
  const int sign = la_wlexicographic3(y, w);
  return odd ? -sign : sign;
}
int ln_wlexicographic3(const int64_t *x, const int64_t *v) {
  const int sign = lb0_wlexicographic3(v);
  return sign != 0 ? sign : lm_wlexicographic3(x, v);
}
int ln_wlexicographic3_plain(const int64_t *v) { return lb0_wlexicographic3(v); }
void ln_wlexicographic3_rows(size_t n, const int64_t *x, const int64_t *v, int8_t *signs) {
  for (size_t i = 0; i < n; i++) signs[i] = (int8_t)ln_wlexicographic3(x + 2 * i, v + 8 * i);
}
static __attribute__((noinline)) int lm_wlexicographic3_at(const ln_weighted3 *p, const ln_weighted3 *q) {
  const int64_t x[] = {p->index, q->index};
  const int64_t v[] = {p->x, p->y, p->z, p->w, q->x, q->y, q->z, q->w};
  return lm_wlexicographic3(x, v);
}
__attribute__((flatten)) int ln_wlexicographic3_plain_at(const ln_weighted3 *p, const ln_weighted3 *q) {
  const int64_t v[] = {p->x, p->y, p->z, p->w, q->x, q->y, q->z, q->w};
  return lb0_wlexicographic3(v);
}
__attribute__((flatten)) int ln_wlexicographic3_at(const ln_weighted3 *p, const ln_weighted3 *q) {
  const int64_t v[] = {p->x, p->y, p->z, p->w, q->x, q->y, q->z, q->w};
  const int sign = lb0_wlexicographic3(v);
  return sign != 0 ? sign : lm_wlexicographic3_at(p, q);
}
int ln_wcompare_distance3_plain(const int64_t *v) { return lb0_wcompare_distance3(v); }
void ln_wcompare_distance3_rows(size_t n, const int64_t *x, const int64_t *v, int8_t *signs) {
  for (size_t i = 0; i < n; i++) signs[i] = (int8_t)ln_wcompare_distance3(x + 3 * i, v + 12 * i);
}
static __attribute__((noinline)) int lm_wcompare_distance3_at(const ln_weighted3 *p, const ln_weighted3 *q, const ln_weighted3 *r) {
  const int64_t x[] = {p->index, q->index, r->index};
  const int64_t v[] = {p->x, p->y, p->z, p->w, q->x, q->y, q->z, q->w, r->x, r->y, r->z, r->w};
  return ln_wcompare_distance3(x, v);
}
__attribute__((flatten)) int ln_wcompare_distance3_plain_at(const ln_weighted3 *p, const ln_weighted3 *q, const ln_weighted3 *r) {
  const int64_t v[] = {p->x, p->y, p->z, p->w, q->x, q->y, q->z, q->w, r->x, r->y, r->z, r->w};
  return lb0_wcompare_distance3(v);
}
__attribute__((flatten)) int ln_wcompare_distance3_at(const ln_weighted3 *p, const ln_weighted3 *q, const ln_weighted3 *r) {
  const int64_t v[] = {p->x, p->y, p->z, p->w, q->x, q->y, q->z, q->w, r->x, r->y, r->z, r->w};
  const int sign = lb0_wcompare_distance3(v);
  return sign != 0 ? sign : lm_wcompare_distance3_at(p, q, r);
}
int ln_compare_power3_plain(const int64_t *v) { return lb0_compare_power3(v); }
void ln_compare_power3_rows(size_t n, const int64_t *x, const int64_t *v, int8_t *signs) {
  for (size_t i = 0; i < n; i++) signs[i] = (int8_t)ln_compare_power3(x + 3 * i, v + 12 * i);
}
static __attribute__((noinline)) int lm_compare_power3_at(const ln_weighted3 *p, const ln_weighted3 *q, const ln_weighted3 *r) {
  const int64_t x[] = {p->index, q->index, r->index};
  const int64_t v[] = {p->x, p->y, p->z, p->w, q->x, q->y, q->z, q->w, r->x, r->y, r->z, r->w};
  return ln_compare_power3(x, v);
}
__attribute__((flatten)) int ln_compare_power3_plain_at(const ln_weighted3 *p, const ln_weighted3 *q, const ln_weighted3 *r) {
  const int64_t v[] = {p->x, p->y, p->z, p->w, q->x, q->y, q->z, q->w, r->x, r->y, r->z, r->w};
  return lb0_compare_power3(v);
}
__attribute__((flatten)) int ln_compare_power3_at(const ln_weighted3 *p, const ln_weighted3 *q, const ln_weighted3 *r) {
  const int64_t v[] = {p->x, p->y, p->z, p->w, q->x, q->y, q->z, q->w, r->x, r->y, r->z, r->w};
  const int sign = lb0_compare_power3(v);
  return sign != 0 ? sign : lm_compare_power3_at(p, q, r);
}
int ln_wdot3_plain(const int64_t *v) { return lb0_wdot3(v); }
void ln_wdot3_rows(size_t n, const int64_t *x, const int64_t *v, int8_t *signs) {
  for (size_t i = 0; i < n; i++) signs[i] = (int8_t)ln_wdot3(x + 4 * i, v + 16 * i);
}
static __attribute__((noinline)) int lm_wdot3_at(const ln_weighted3 *p, const ln_weighted3 *q, const ln_weighted3 *r, const ln_weighted3 *s) {
  const int64_t x[] = {p->index, q->index, r->index, s->index};
  const int64_t v[] = {p->x, p->y, p->z, p->w, q->x, q->y, q->z, q->w, r->x, r->y, r->z, r->w, s->x, s->y, s->z, s->w};
  return ln_wdot3(x, v);
}
__attribute__((flatten)) int ln_wdot3_plain_at(const ln_weighted3 *p, const ln_weighted3 *q, const ln_weighted3 *r, const ln_weighted3 *s) {
  const int64_t v[] = {p->x, p->y, p->z, p->w, q->x, q->y, q->z, q->w, r->x, r->y, r->z, r->w, s->x, s->y, s->z, s->w};
  return lb0_wdot3(v);
}
__attribute__((flatten)) int ln_wdot3_at(const ln_weighted3 *p, const ln_weighted3 *q, const ln_weighted3 *r, const ln_weighted3 *s) {
  const int64_t v[] = {p->x, p->y, p->z, p->w, q->x, q->y, q->z, q->w, r->x, r->y, r->z, r->w, s->x, s->y, s->z, s->w};
  const int sign = lb0_wdot3(v);
  return sign != 0 ? sign : lm_wdot3_at(p, q, r, s);
}
static __attribute__((noinline)) int lm_wcoplanar_xy(const int64_t *x, const int64_t *v) {
  int64_t y[3], w[12];
  const int odd = lr_in_order(3, 4, x, v, y, w);
  if (lb0_wcoplanar_xy(w) != 0) __builtin_unreachable();
  const int sign = la_wcoplanar_xy(y, w);
  return odd ? -sign : sign;
}
int ln_wcoplanar_xy(const int64_t *x, const int64_t *v) {
  const int sign = lb0_wcoplanar_xy(v);
  return sign != 0 ? sign : lm_wcoplanar_xy(x, v);
}
int ln_wcoplanar_xy_plain(const int64_t *v) { return lb0_wcoplanar_xy(v); }
void ln_wcoplanar_xy_rows(size_t n, const int64_t *x, const int64_t *v, int8_t *signs) {
  for (size_t i = 0; i < n; i++) signs[i] = (int8_t)ln_wcoplanar_xy(x + 3 * i, v + 12 * i);
}
static __attribute__((noinline)) int lm_wcoplanar_xy_at(const ln_weighted3 *p, const ln_weighted3 *q, const ln_weighted3 *r) {
  const int64_t x[] = {p->index, q->index, r->index};
  const int64_t v[] = {p->x, p->y, p->z, p->w, q->x, q->y, q->z, q->w, r->x, r->y, r->z, r->w};
  return lm_wcoplanar_xy(x, v);
}
__attribute__((flatten)) int ln_wcoplanar_xy_plain_at(const ln_weighted3 *p, const ln_weighted3 *q, const ln_weighted3 *r) {
  const int64_t v[] = {p->x, p->y, p->z, p->w, q->x, q->y, q->z, q->w, r->x, r->y, r->z, r->w};
  return lb0_wcoplanar_xy(v);
}
__attribute__((flatten)) int ln_wcoplanar_xy_at(const ln_weighted3 *p, const ln_weighted3 *q, const ln_weighted3 *r) {
  const int64_t v[] = {p->x, p->y, p->z, p->w, q->x, q->y, q->z, q->w, r->x, r->y, r->z, r->w};
  const int sign = lb0_wcoplanar_xy(v);
  return sign != 0 ? sign : lm_wcoplanar_xy_at(p, q, r);
}
static __attribute__((noinline)) int lm_wcoplanar_yz(const int64_t *x, const int64_t *v) {
  int64_t y[3], w[12];
  const int odd = lr_in_order(3, 4, x, v, y, w);
  if (lb0_wcoplanar_yz(w) != 0) __builtin_unreachable();
  const int sign = la_wcoplanar_yz(y, w);
  return odd ? -sign : sign;
}
int ln_wcoplanar_yz(const int64_t *x, const int64_t *v) {
  const int sign = lb0_wcoplanar_yz(v);
  return sign != 0 ? sign : lm_wcoplanar_yz(x, v);
}
int ln_wcoplanar_yz_plain(const int64_t *v) { return lb0_wcoplanar_yz(v); }
void ln_wcoplanar_yz_rows(size_t n, const int64_t *x, const int64_t *v, int8_t *signs) {
  for (size_t i = 0; i < n; i++) signs[i] = (int8_t)ln_wcoplanar_yz(x + 3 * i, v + 12 * i);
}
static __attribute__((noinline)) int lm_wcoplanar_yz_at(const ln_weighted3 *p, const ln_weighted3 *q, const ln_weighted3 *r) {
  const int64_t x[] = {p->index, q->index, r->index};
  const int64_t v[] = {p->x, p->y, p->z, p->w, q->x, q->y, q->z, q->w, r->x, r->y, r->z, r->w};
  return lm_wcoplanar_yz(x, v);
}
__attribute__((flatten)) int ln_wcoplanar_yz_plain_at(const ln_weighted3 *p, const ln_weighted3 *q, const ln_weighted3 *r) {
  const int64_t v[] = {p->x, p->y, p->z, p->w, q->x, q->y, q->z, q->w, r->x, r->y, r->z, r->w};
  return lb0_wcoplanar_yz(v);
}
__attribute__((flatten)) int ln_wcoplanar_yz_at(const ln_weighted3 *p, const ln_weighted3 *q, const ln_weighted3 *r) {
  const int64_t v[] = {p->x, p->y, p->z, p->w, q->x, q->y, q->z, q->w, r->x, r->y, r->z, r->w};
  const int sign = lb0_wcoplanar_yz(v);
  return sign != 0 ? sign : lm_wcoplanar_yz_at(p, q, r);
}
static __attribute__((noinline)) int lm_wcoplanar_zx(const int64_t *x, const int64_t *v) {
  int64_t y[3], w[12];
  const int odd = lr_in_order(3, 4, x, v, y, w);
  if (lb0_wcoplanar_zx(w) != 0) __builtin_unreachable();
  const int sign = la_wcoplanar_zx(y, w);
  return odd ? -sign : sign;
}
int ln_wcoplanar_zx(const int64_t *x, const int64_t *v) {
  const int sign = lb0_wcoplanar_zx(v);
  return sign != 0 ? sign : lm_wcoplanar_zx(x, v);
}
int ln_wcoplanar_zx_plain(const int64_t *v) { return lb0_wcoplanar_zx(v); }
void ln_wcoplanar_zx_rows(size_t n, const int64_t *x, const int64_t *v, int8_t *signs) {
  for (size_t i = 0; i < n; i++) signs[i] = (int8_t)ln_wcoplanar_zx(x + 3 * i, v + 12 * i);
}
static __attribute__((noinline)) int lm_wcoplanar_zx_at(const ln_weighted3 *p, const ln_weighted3 *q, const ln_weighted3 *r) {
  const int64_t x[] = {p->index, q->index, r->index};
  const int64_t v[] = {p->x, p->y, p->z, p->w, q->x, q->y, q->z, q->w, r->x, r->y, r->z, r->w};
  return lm_wcoplanar_zx(x, v);
}
__attribute__((flatten)) int ln_wcoplanar_zx_plain_at(const ln_weighted3 *p, const ln_weighted3 *q, const ln_weighted3 *r) {
  const int64_t v[] = {p->x, p->y, p->z, p->w, q->x, q->y, q->z, q->w, r->x, r->y, r->z, r->w};
  return lb0_wcoplanar_zx(v);
}
__attribute__((flatten)) int ln_wcoplanar_zx_at(const ln_weighted3 *p, const ln_weighted3 *q, const ln_weighted3 *r) {
  const int64_t v[] = {p->x, p->y, p->z, p->w, q->x, q->y, q->z, q->w, r->x, r->y, r->z, r->w};
  const int sign = lb0_wcoplanar_zx(v);
  return sign != 0 ? sign : lm_wcoplanar_zx_at(p, q, r);
}
#ifdef __cplusplus
#pragma GCC diagnostic pop
#endif
#endif

#ifdef LNC_WEIGHTED_SPACE_CHECKED
#define ln_worient3 lc_worient3
#define ln_worient3_plain lc_worient3_plain
#define ln_worient3_rows lc_worient3_rows
#define ln_worient3_at lc_worient3_at
#define ln_worient3_plain_at lc_worient3_plain_at
#define ln_power3 lc_power3
#define ln_power3_plain lc_power3_plain
#define ln_power3_rows lc_power3_rows
#define ln_power3_at lc_power3_at
#define ln_power3_plain_at lc_power3_plain_at
#define ln_wdiametral3 lc_wdiametral3
#define ln_wdiametral3_plain lc_wdiametral3_plain
#define ln_wdiametral3_rows lc_wdiametral3_rows
#define ln_wdiametral3_at lc_wdiametral3_at
#define ln_wdiametral3_plain_at lc_wdiametral3_plain_at
#define ln_wcompare_x3 lc_wcompare_x3
#define ln_wcompare_x3_plain lc_wcompare_x3_plain
#define ln_wcompare_x3_rows lc_wcompare_x3_rows
#define ln_wcompare_x3_at lc_wcompare_x3_at
#define ln_wcompare_x3_plain_at lc_wcompare_x3_plain_at
#define ln_wcompare_y3 lc_wcompare_y3
#define ln_wcompare_y3_plain lc_wcompare_y3_plain
#define ln_wcompare_y3_rows lc_wcompare_y3_rows
#define ln_wcompare_y3_at lc_wcompare_y3_at
#define ln_wcompare_y3_plain_at lc_wcompare_y3_plain_at
#define ln_wcompare_z3 lc_wcompare_z3
#define ln_wcompare_z3_plain lc_wcompare_z3_plain
#define ln_wcompare_z3_rows lc_wcompare_z3_rows
#define ln_wcompare_z3_at lc_wcompare_z3_at
#define ln_wcompare_z3_plain_at lc_wcompare_z3_plain_at
#define ln_wcompare_w3 lc_wcompare_w3
#define ln_wcompare_w3_plain lc_wcompare_w3_plain
#define ln_wcompare_w3_rows lc_wcompare_w3_rows
#define ln_wcompare_w3_at lc_wcompare_w3_at
#define ln_wcompare_w3_plain_at lc_wcompare_w3_plain_at
#define ln_wlexicographic3 lc_wlexicographic3
#define ln_wlexicographic3_plain lc_wlexicographic3_plain
#define ln_wlexicographic3_rows lc_wlexicographic3_rows
#define ln_wlexicographic3_at lc_wlexicographic3_at
#define ln_wlexicographic3_plain_at lc_wlexicographic3_plain_at
#define ln_wcompare_distance3 lc_wcompare_distance3
#define ln_wcompare_distance3_plain lc_wcompare_distance3_plain
#define ln_wcompare_distance3_rows lc_wcompare_distance3_rows
#define ln_wcompare_distance3_at lc_wcompare_distance3_at
#define ln_wcompare_distance3_plain_at lc_wcompare_distance3_plain_at
#define ln_compare_power3 lc_compare_power3
#define ln_compare_power3_plain lc_compare_power3_plain
#define ln_compare_power3_rows lc_compare_power3_rows
#define ln_compare_power3_at lc_compare_power3_at
#define ln_compare_power3_plain_at lc_compare_power3_plain_at
#define ln_wdot3 lc_wdot3
#define ln_wdot3_plain lc_wdot3_plain
#define ln_wdot3_rows lc_wdot3_rows
#define ln_wdot3_at lc_wdot3_at
#define ln_wdot3_plain_at lc_wdot3_plain_at
#define ln_wcoplanar_xy lc_wcoplanar_xy
#define ln_wcoplanar_xy_plain lc_wcoplanar_xy_plain
#define ln_wcoplanar_xy_rows lc_wcoplanar_xy_rows
#define ln_wcoplanar_xy_at lc_wcoplanar_xy_at
#define ln_wcoplanar_xy_plain_at lc_wcoplanar_xy_plain_at
#define ln_wcoplanar_yz lc_wcoplanar_yz
#define ln_wcoplanar_yz_plain lc_wcoplanar_yz_plain
#define ln_wcoplanar_yz_rows lc_wcoplanar_yz_rows
#define ln_wcoplanar_yz_at lc_wcoplanar_yz_at
#define ln_wcoplanar_yz_plain_at lc_wcoplanar_yz_plain_at
#define ln_wcoplanar_zx lc_wcoplanar_zx
#define ln_wcoplanar_zx_plain lc_wcoplanar_zx_plain
#define ln_wcoplanar_zx_rows lc_wcoplanar_zx_rows
#define ln_wcoplanar_zx_at lc_wcoplanar_zx_at
#define ln_wcoplanar_zx_plain_at lc_wcoplanar_zx_plain_at
#endif
