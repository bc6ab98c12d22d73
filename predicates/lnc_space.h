/* lnc_space.h: written by header.py, so change space.ln and not this file.
   space.ln has the SHA-256 69b465ea7df8e8c1015ad582420a3a00418d25b909ecf85695e10ffca0f6d506,
   and space.c, which lnc_exact turning writes of it, the SHA-256 696862e7452f4523469e3374e7ae3bea73beb39e7b3ecf9ea05ef5ada4fb4bc8.

   Two files are enough, this one and space.c. In one C file of your program, compiled by gcc or clang for a 64-bit target:

       #define LNC_SPACE_IMPLEMENTATION
       #include "lnc_space.h"

   and in all others, C or C++, the second line alone. For each predicate NAME there are

   ln_NAME_at(&p, ..)           1 or -1, the sign at the moved points; with params it may be 0. The indices of the sites have to differ and are from 0 to
                                2^63 - 1, the values are each in its range. Nothing is checked (but see below). In C++ lnc::NAME(p, ..)
   ln_NAME_plain_at(&p, ..)     1, 0 or -1, the sign at the points themselves, 0 where they are degenerate. In C++ lnc::NAME_plain(p, ..)
   ln_NAME(x, v)                the same of arrays: x has the indices of the sites, v the values, in the order of the comments below; ln_NAME_plain(v)
   ln_NAME_rows(n, x, v, signs) ln_NAME of n rows, each after the other in x and in v, into signs

   and for each type of points SITE, with a member for the index and one for each coordinate, in the order in which the type declares them,

   ln_SITE_in_range(&p)         whether index and coordinates are in range; in C++ lnc::in_range(p). Test each point once, where it is made

   With `#define LNC_CHECKED` before the header is included, all these calls test what they are given. At the first value out of range, negative index or
   index twice they call ln_on_refusal, a pointer that you may set, with the names of predicate and argument; else they print these and abort

   Of orient3, insphere, compare_x3, compare_y3, compare_z3, lexicographic3, coplanar_xy, coplanar_yz, coplanar_zx
   space.c has the sign in one order of the sites, la_NAME or ls_NAME, which is proved for rows whose indices rise. ln_NAME puts each row into this order
   (lr_in_order below), by lines that are tested and that no proof reaches */
#ifndef LNC_SPACE_H
#define LNC_SPACE_H
#include <stddef.h>
#include <stdint.h>

#if defined(LNC_CHECKED) && !defined(LNC_HAS_REFUSAL)
#define LNC_HAS_REFUSAL
#include <stdio.h>
#include <stdlib.h>
#ifdef __cplusplus
extern "C" {
#endif
/* told of the first fault of a call: the predicate, the argument ("p" for its index, "p.x"), what is wrong with it, and of ln_NAME_rows the row,
   from 0, otherwise SIZE_MAX. Where it returns, the call returns 0, or writes 0 for the row. Without another it prints this and aborts */
typedef void ln_refusal(const char *predicate, const char *argument, const char *fault, size_t row);
static inline void lr_aborts(const char *predicate, const char *argument, const char *fault, size_t row) {
  if (row == SIZE_MAX) fprintf(stderr, "lnc: %s: %s %s\n", predicate, argument, fault);
  else fprintf(stderr, "lnc: %s, row %zu: %s %s\n", predicate, row, argument, fault);
  abort();
}
__attribute__((weak)) ln_refusal *ln_on_refusal = lr_aborts;
static inline int lr_is(int right, const char *predicate, const char *argument, const char *fault, size_t row) {
  if (!right) ln_on_refusal(predicate, argument, fault, row);
  return right;
}
#ifdef __cplusplus
}
#endif
#endif

#ifdef __cplusplus
extern "C" {
#endif

#define LN_POINT3_X_MIN INT64_C(-8388608)
#define LN_POINT3_X_MAX INT64_C(8388608)
#define LN_POINT3_Y_MIN INT64_C(-8388608)
#define LN_POINT3_Y_MAX INT64_C(8388608)
#define LN_POINT3_Z_MIN INT64_C(-8388608)
#define LN_POINT3_Z_MAX INT64_C(8388608)
typedef struct ln_point3 { int64_t index, x, y, z; } ln_point3;
static inline int ln_point3_in_range(const ln_point3 *p) {
  return 0 <= p->index &&
    LN_POINT3_X_MIN <= p->x && p->x <= LN_POINT3_X_MAX &&
    LN_POINT3_Y_MIN <= p->y && p->y <= LN_POINT3_Y_MAX &&
    LN_POINT3_Z_MIN <= p->z && p->z <= LN_POINT3_Z_MAX;
}

/* + where a, b, c turn clockwise seen from d: the sign of Shewchuk's orient3d, the opposite of CGAL's orientation. */
/* x: a, b, c, d
   v: a.x, a.y, a.z, b.x, b.y, b.z, c.x, c.y, c.z, d.x, d.y, d.z */
int ln_orient3(const int64_t *x, const int64_t *v);
int ln_orient3_plain(const int64_t *v);
void ln_orient3_rows(size_t n, const int64_t *x, const int64_t *v, int8_t *signs);
int ln_orient3_at(const ln_point3 *a, const ln_point3 *b, const ln_point3 *c, const ln_point3 *d);
int ln_orient3_plain_at(const ln_point3 *a, const ln_point3 *b, const ln_point3 *c, const ln_point3 *d);

/* + where e is inside the sphere of a, b, c, d and orient3 of these is +, - where it is -: the sign of Shewchuk's
   insphere, the opposite of CGAL's side_of_oriented_sphere. */
/* x: a, b, c, d, e
   v: a.x, a.y, a.z, b.x, b.y, b.z, c.x, c.y, c.z, d.x, d.y, d.z, e.x, e.y, e.z */
int ln_insphere(const int64_t *x, const int64_t *v);
int ln_insphere_plain(const int64_t *v);
void ln_insphere_rows(size_t n, const int64_t *x, const int64_t *v, int8_t *signs);
int ln_insphere_at(const ln_point3 *a, const ln_point3 *b, const ln_point3 *c, const ln_point3 *d, const ln_point3 *e);
int ln_insphere_plain_at(const ln_point3 *a, const ln_point3 *b, const ln_point3 *c, const ln_point3 *d, const ln_point3 *e);

/* + where r is inside the sphere whose diameter is from p to q (the angle at r is obtuse): the sign of CGAL's
   side_of_bounded_sphere(p, q, r). */
/* x: p, q, r
   v: p.x, p.y, p.z, q.x, q.y, q.z, r.x, r.y, r.z */
int ln_diametral3(const int64_t *x, const int64_t *v);
int ln_diametral3_plain(const int64_t *v);
void ln_diametral3_rows(size_t n, const int64_t *x, const int64_t *v, int8_t *signs);
int ln_diametral3_at(const ln_point3 *p, const ln_point3 *q, const ln_point3 *r);
int ln_diametral3_plain_at(const ln_point3 *p, const ln_point3 *q, const ln_point3 *r);

/* + where p is beyond q along an axis: the sign of CGAL's compare_x, compare_y and compare_z. */
/* x: p, q
   v: p.x, p.y, p.z, q.x, q.y, q.z */
int ln_compare_x3(const int64_t *x, const int64_t *v);
int ln_compare_x3_plain(const int64_t *v);
void ln_compare_x3_rows(size_t n, const int64_t *x, const int64_t *v, int8_t *signs);
int ln_compare_x3_at(const ln_point3 *p, const ln_point3 *q);
int ln_compare_x3_plain_at(const ln_point3 *p, const ln_point3 *q);

/* x: p, q
   v: p.x, p.y, p.z, q.x, q.y, q.z */
int ln_compare_y3(const int64_t *x, const int64_t *v);
int ln_compare_y3_plain(const int64_t *v);
void ln_compare_y3_rows(size_t n, const int64_t *x, const int64_t *v, int8_t *signs);
int ln_compare_y3_at(const ln_point3 *p, const ln_point3 *q);
int ln_compare_y3_plain_at(const ln_point3 *p, const ln_point3 *q);

/* x: p, q
   v: p.x, p.y, p.z, q.x, q.y, q.z */
int ln_compare_z3(const int64_t *x, const int64_t *v);
int ln_compare_z3_plain(const int64_t *v);
void ln_compare_z3_rows(size_t n, const int64_t *x, const int64_t *v, int8_t *signs);
int ln_compare_z3_at(const ln_point3 *p, const ln_point3 *q);
int ln_compare_z3_plain_at(const ln_point3 *p, const ln_point3 *q);

/* + where p is after q by x, by y where x is equal, and by z where both are: the sign of CGAL's compare_xyz. At
   the moved points it is their order along the direction (m^2, m, 1) with m = 2^24 + 1, so a sweep by it is one
   over the same moved points. */
/* x: p, q
   v: p.x, p.y, p.z, q.x, q.y, q.z */
int ln_lexicographic3(const int64_t *x, const int64_t *v);
int ln_lexicographic3_plain(const int64_t *v);
void ln_lexicographic3_rows(size_t n, const int64_t *x, const int64_t *v, int8_t *signs);
int ln_lexicographic3_at(const ln_point3 *p, const ln_point3 *q);
int ln_lexicographic3_plain_at(const ln_point3 *p, const ln_point3 *q);

/* + where q is farther from p than r is: the sign of CGAL's compare_distance_3; PCK's side1(r, q, p) plainly. */
/* x: p, q, r
   v: p.x, p.y, p.z, q.x, q.y, q.z, r.x, r.y, r.z */
int ln_compare_distance3(const int64_t *x, const int64_t *v);
int ln_compare_distance3_plain(const int64_t *v);
void ln_compare_distance3_rows(size_t n, const int64_t *x, const int64_t *v, int8_t *signs);
int ln_compare_distance3_at(const ln_point3 *p, const ln_point3 *q, const ln_point3 *r);
int ln_compare_distance3_plain_at(const ln_point3 *p, const ln_point3 *q, const ln_point3 *r);

/* + where the directions from p to q and from r to s have an acute angle: the sign of CGAL's angle(p, q, r, s),
   and with r = p of PCK's dot. */
/* x: p, q, r, s
   v: p.x, p.y, p.z, q.x, q.y, q.z, r.x, r.y, r.z, s.x, s.y, s.z */
int ln_dot3(const int64_t *x, const int64_t *v);
int ln_dot3_plain(const int64_t *v);
void ln_dot3_rows(size_t n, const int64_t *x, const int64_t *v, int8_t *signs);
int ln_dot3_at(const ln_point3 *p, const ln_point3 *q, const ln_point3 *r, const ln_point3 *s);
int ln_dot3_plain_at(const ln_point3 *p, const ln_point3 *q, const ln_point3 *r, const ln_point3 *s);

/* + where p, q, r turn left seen along an axis, in the coordinates that are named: the orientation of a triangle
   in space, never 0, as CGAL's coplanar_orientation is asked of points in one plane. */
/* x: p, q, r
   v: p.x, p.y, p.z, q.x, q.y, q.z, r.x, r.y, r.z */
int ln_coplanar_xy(const int64_t *x, const int64_t *v);
int ln_coplanar_xy_plain(const int64_t *v);
void ln_coplanar_xy_rows(size_t n, const int64_t *x, const int64_t *v, int8_t *signs);
int ln_coplanar_xy_at(const ln_point3 *p, const ln_point3 *q, const ln_point3 *r);
int ln_coplanar_xy_plain_at(const ln_point3 *p, const ln_point3 *q, const ln_point3 *r);

/* x: p, q, r
   v: p.x, p.y, p.z, q.x, q.y, q.z, r.x, r.y, r.z */
int ln_coplanar_yz(const int64_t *x, const int64_t *v);
int ln_coplanar_yz_plain(const int64_t *v);
void ln_coplanar_yz_rows(size_t n, const int64_t *x, const int64_t *v, int8_t *signs);
int ln_coplanar_yz_at(const ln_point3 *p, const ln_point3 *q, const ln_point3 *r);
int ln_coplanar_yz_plain_at(const ln_point3 *p, const ln_point3 *q, const ln_point3 *r);

/* x: p, q, r
   v: p.x, p.y, p.z, q.x, q.y, q.z, r.x, r.y, r.z */
int ln_coplanar_zx(const int64_t *x, const int64_t *v);
int ln_coplanar_zx_plain(const int64_t *v);
void ln_coplanar_zx_rows(size_t n, const int64_t *x, const int64_t *v, int8_t *signs);
int ln_coplanar_zx_at(const ln_point3 *p, const ln_point3 *q, const ln_point3 *r);
int ln_coplanar_zx_plain_at(const ln_point3 *p, const ln_point3 *q, const ln_point3 *r);

#ifdef LNC_CHECKED
#define LNC_SPACE_CHECKED
static inline int lv_orient3(const int64_t *v, size_t row) {
  return lr_is(LN_POINT3_X_MIN <= v[0] && v[0] <= LN_POINT3_X_MAX, "orient3", "a.x", "is out of range", row) &&
    lr_is(LN_POINT3_Y_MIN <= v[1] && v[1] <= LN_POINT3_Y_MAX, "orient3", "a.y", "is out of range", row) &&
    lr_is(LN_POINT3_Z_MIN <= v[2] && v[2] <= LN_POINT3_Z_MAX, "orient3", "a.z", "is out of range", row) &&
    lr_is(LN_POINT3_X_MIN <= v[3] && v[3] <= LN_POINT3_X_MAX, "orient3", "b.x", "is out of range", row) &&
    lr_is(LN_POINT3_Y_MIN <= v[4] && v[4] <= LN_POINT3_Y_MAX, "orient3", "b.y", "is out of range", row) &&
    lr_is(LN_POINT3_Z_MIN <= v[5] && v[5] <= LN_POINT3_Z_MAX, "orient3", "b.z", "is out of range", row) &&
    lr_is(LN_POINT3_X_MIN <= v[6] && v[6] <= LN_POINT3_X_MAX, "orient3", "c.x", "is out of range", row) &&
    lr_is(LN_POINT3_Y_MIN <= v[7] && v[7] <= LN_POINT3_Y_MAX, "orient3", "c.y", "is out of range", row) &&
    lr_is(LN_POINT3_Z_MIN <= v[8] && v[8] <= LN_POINT3_Z_MAX, "orient3", "c.z", "is out of range", row) &&
    lr_is(LN_POINT3_X_MIN <= v[9] && v[9] <= LN_POINT3_X_MAX, "orient3", "d.x", "is out of range", row) &&
    lr_is(LN_POINT3_Y_MIN <= v[10] && v[10] <= LN_POINT3_Y_MAX, "orient3", "d.y", "is out of range", row) &&
    lr_is(LN_POINT3_Z_MIN <= v[11] && v[11] <= LN_POINT3_Z_MAX, "orient3", "d.z", "is out of range", row);
}
static inline int li_orient3(const int64_t *x, size_t row) {
  return lr_is(0 <= x[0], "orient3", "a", "has a negative index", row) &&
    lr_is(0 <= x[1], "orient3", "b", "has a negative index", row) &&
    lr_is(0 <= x[2], "orient3", "c", "has a negative index", row) &&
    lr_is(0 <= x[3], "orient3", "d", "has a negative index", row) &&
    lr_is(x[0] != x[1], "orient3", "b", "has the index of a too", row) &&
    lr_is(x[0] != x[2], "orient3", "c", "has the index of a too", row) &&
    lr_is(x[1] != x[2], "orient3", "c", "has the index of b too", row) &&
    lr_is(x[0] != x[3], "orient3", "d", "has the index of a too", row) &&
    lr_is(x[1] != x[3], "orient3", "d", "has the index of b too", row) &&
    lr_is(x[2] != x[3], "orient3", "d", "has the index of c too", row);
}
static inline int lc_orient3(const int64_t *x, const int64_t *v) { return lv_orient3(v, SIZE_MAX) && li_orient3(x, SIZE_MAX) ? ln_orient3(x, v) : 0; }
static inline int lc_orient3_plain(const int64_t *v) { return lv_orient3(v, SIZE_MAX) ? ln_orient3_plain(v) : 0; }
static inline void lc_orient3_rows(size_t n, const int64_t *x, const int64_t *v, int8_t *signs) {
  for (size_t i = 0; i < n; i++) {
    signs[i] = 0;
    if (lv_orient3(v + 12 * i, i) && li_orient3(x + 4 * i, i)) ln_orient3_rows(1, x + 4 * i, v + 12 * i, signs + i);
  }
}
static inline int lc_orient3_at(const ln_point3 *a, const ln_point3 *b, const ln_point3 *c, const ln_point3 *d) {
  const int64_t x[] = {a->index, b->index, c->index, d->index};
  const int64_t v[] = {a->x, a->y, a->z, b->x, b->y, b->z, c->x, c->y, c->z, d->x, d->y, d->z};
  return lv_orient3(v, SIZE_MAX) && li_orient3(x, SIZE_MAX) ? ln_orient3_at(a, b, c, d) : 0;
}
static inline int lc_orient3_plain_at(const ln_point3 *a, const ln_point3 *b, const ln_point3 *c, const ln_point3 *d) {
  const int64_t v[] = {a->x, a->y, a->z, b->x, b->y, b->z, c->x, c->y, c->z, d->x, d->y, d->z};
  return lv_orient3(v, SIZE_MAX) ? ln_orient3_plain_at(a, b, c, d) : 0;
}
static inline int lv_insphere(const int64_t *v, size_t row) {
  return lr_is(LN_POINT3_X_MIN <= v[0] && v[0] <= LN_POINT3_X_MAX, "insphere", "a.x", "is out of range", row) &&
    lr_is(LN_POINT3_Y_MIN <= v[1] && v[1] <= LN_POINT3_Y_MAX, "insphere", "a.y", "is out of range", row) &&
    lr_is(LN_POINT3_Z_MIN <= v[2] && v[2] <= LN_POINT3_Z_MAX, "insphere", "a.z", "is out of range", row) &&
    lr_is(LN_POINT3_X_MIN <= v[3] && v[3] <= LN_POINT3_X_MAX, "insphere", "b.x", "is out of range", row) &&
    lr_is(LN_POINT3_Y_MIN <= v[4] && v[4] <= LN_POINT3_Y_MAX, "insphere", "b.y", "is out of range", row) &&
    lr_is(LN_POINT3_Z_MIN <= v[5] && v[5] <= LN_POINT3_Z_MAX, "insphere", "b.z", "is out of range", row) &&
    lr_is(LN_POINT3_X_MIN <= v[6] && v[6] <= LN_POINT3_X_MAX, "insphere", "c.x", "is out of range", row) &&
    lr_is(LN_POINT3_Y_MIN <= v[7] && v[7] <= LN_POINT3_Y_MAX, "insphere", "c.y", "is out of range", row) &&
    lr_is(LN_POINT3_Z_MIN <= v[8] && v[8] <= LN_POINT3_Z_MAX, "insphere", "c.z", "is out of range", row) &&
    lr_is(LN_POINT3_X_MIN <= v[9] && v[9] <= LN_POINT3_X_MAX, "insphere", "d.x", "is out of range", row) &&
    lr_is(LN_POINT3_Y_MIN <= v[10] && v[10] <= LN_POINT3_Y_MAX, "insphere", "d.y", "is out of range", row) &&
    lr_is(LN_POINT3_Z_MIN <= v[11] && v[11] <= LN_POINT3_Z_MAX, "insphere", "d.z", "is out of range", row) &&
    lr_is(LN_POINT3_X_MIN <= v[12] && v[12] <= LN_POINT3_X_MAX, "insphere", "e.x", "is out of range", row) &&
    lr_is(LN_POINT3_Y_MIN <= v[13] && v[13] <= LN_POINT3_Y_MAX, "insphere", "e.y", "is out of range", row) &&
    lr_is(LN_POINT3_Z_MIN <= v[14] && v[14] <= LN_POINT3_Z_MAX, "insphere", "e.z", "is out of range", row);
}
static inline int li_insphere(const int64_t *x, size_t row) {
  return lr_is(0 <= x[0], "insphere", "a", "has a negative index", row) &&
    lr_is(0 <= x[1], "insphere", "b", "has a negative index", row) &&
    lr_is(0 <= x[2], "insphere", "c", "has a negative index", row) &&
    lr_is(0 <= x[3], "insphere", "d", "has a negative index", row) &&
    lr_is(0 <= x[4], "insphere", "e", "has a negative index", row) &&
    lr_is(x[0] != x[1], "insphere", "b", "has the index of a too", row) &&
    lr_is(x[0] != x[2], "insphere", "c", "has the index of a too", row) &&
    lr_is(x[1] != x[2], "insphere", "c", "has the index of b too", row) &&
    lr_is(x[0] != x[3], "insphere", "d", "has the index of a too", row) &&
    lr_is(x[1] != x[3], "insphere", "d", "has the index of b too", row) &&
    lr_is(x[2] != x[3], "insphere", "d", "has the index of c too", row) &&
    lr_is(x[0] != x[4], "insphere", "e", "has the index of a too", row) &&
    lr_is(x[1] != x[4], "insphere", "e", "has the index of b too", row) &&
    lr_is(x[2] != x[4], "insphere", "e", "has the index of c too", row) &&
    lr_is(x[3] != x[4], "insphere", "e", "has the index of d too", row);
}
static inline int lc_insphere(const int64_t *x, const int64_t *v) { return lv_insphere(v, SIZE_MAX) && li_insphere(x, SIZE_MAX) ? ln_insphere(x, v) : 0; }
static inline int lc_insphere_plain(const int64_t *v) { return lv_insphere(v, SIZE_MAX) ? ln_insphere_plain(v) : 0; }
static inline void lc_insphere_rows(size_t n, const int64_t *x, const int64_t *v, int8_t *signs) {
  for (size_t i = 0; i < n; i++) {
    signs[i] = 0;
    if (lv_insphere(v + 15 * i, i) && li_insphere(x + 5 * i, i)) ln_insphere_rows(1, x + 5 * i, v + 15 * i, signs + i);
  }
}
static inline int lc_insphere_at(const ln_point3 *a, const ln_point3 *b, const ln_point3 *c, const ln_point3 *d, const ln_point3 *e) {
  const int64_t x[] = {a->index, b->index, c->index, d->index, e->index};
  const int64_t v[] = {a->x, a->y, a->z, b->x, b->y, b->z, c->x, c->y, c->z, d->x, d->y, d->z, e->x, e->y, e->z};
  return lv_insphere(v, SIZE_MAX) && li_insphere(x, SIZE_MAX) ? ln_insphere_at(a, b, c, d, e) : 0;
}
static inline int lc_insphere_plain_at(const ln_point3 *a, const ln_point3 *b, const ln_point3 *c, const ln_point3 *d, const ln_point3 *e) {
  const int64_t v[] = {a->x, a->y, a->z, b->x, b->y, b->z, c->x, c->y, c->z, d->x, d->y, d->z, e->x, e->y, e->z};
  return lv_insphere(v, SIZE_MAX) ? ln_insphere_plain_at(a, b, c, d, e) : 0;
}
static inline int lv_diametral3(const int64_t *v, size_t row) {
  return lr_is(LN_POINT3_X_MIN <= v[0] && v[0] <= LN_POINT3_X_MAX, "diametral3", "p.x", "is out of range", row) &&
    lr_is(LN_POINT3_Y_MIN <= v[1] && v[1] <= LN_POINT3_Y_MAX, "diametral3", "p.y", "is out of range", row) &&
    lr_is(LN_POINT3_Z_MIN <= v[2] && v[2] <= LN_POINT3_Z_MAX, "diametral3", "p.z", "is out of range", row) &&
    lr_is(LN_POINT3_X_MIN <= v[3] && v[3] <= LN_POINT3_X_MAX, "diametral3", "q.x", "is out of range", row) &&
    lr_is(LN_POINT3_Y_MIN <= v[4] && v[4] <= LN_POINT3_Y_MAX, "diametral3", "q.y", "is out of range", row) &&
    lr_is(LN_POINT3_Z_MIN <= v[5] && v[5] <= LN_POINT3_Z_MAX, "diametral3", "q.z", "is out of range", row) &&
    lr_is(LN_POINT3_X_MIN <= v[6] && v[6] <= LN_POINT3_X_MAX, "diametral3", "r.x", "is out of range", row) &&
    lr_is(LN_POINT3_Y_MIN <= v[7] && v[7] <= LN_POINT3_Y_MAX, "diametral3", "r.y", "is out of range", row) &&
    lr_is(LN_POINT3_Z_MIN <= v[8] && v[8] <= LN_POINT3_Z_MAX, "diametral3", "r.z", "is out of range", row);
}
static inline int li_diametral3(const int64_t *x, size_t row) {
  return lr_is(0 <= x[0], "diametral3", "p", "has a negative index", row) &&
    lr_is(0 <= x[1], "diametral3", "q", "has a negative index", row) &&
    lr_is(0 <= x[2], "diametral3", "r", "has a negative index", row) &&
    lr_is(x[0] != x[1], "diametral3", "q", "has the index of p too", row) &&
    lr_is(x[0] != x[2], "diametral3", "r", "has the index of p too", row) &&
    lr_is(x[1] != x[2], "diametral3", "r", "has the index of q too", row);
}
static inline int lc_diametral3(const int64_t *x, const int64_t *v) { return lv_diametral3(v, SIZE_MAX) && li_diametral3(x, SIZE_MAX) ? ln_diametral3(x, v) : 0; }
static inline int lc_diametral3_plain(const int64_t *v) { return lv_diametral3(v, SIZE_MAX) ? ln_diametral3_plain(v) : 0; }
static inline void lc_diametral3_rows(size_t n, const int64_t *x, const int64_t *v, int8_t *signs) {
  for (size_t i = 0; i < n; i++) {
    signs[i] = 0;
    if (lv_diametral3(v + 9 * i, i) && li_diametral3(x + 3 * i, i)) ln_diametral3_rows(1, x + 3 * i, v + 9 * i, signs + i);
  }
}
static inline int lc_diametral3_at(const ln_point3 *p, const ln_point3 *q, const ln_point3 *r) {
  const int64_t x[] = {p->index, q->index, r->index};
  const int64_t v[] = {p->x, p->y, p->z, q->x, q->y, q->z, r->x, r->y, r->z};
  return lv_diametral3(v, SIZE_MAX) && li_diametral3(x, SIZE_MAX) ? ln_diametral3_at(p, q, r) : 0;
}
static inline int lc_diametral3_plain_at(const ln_point3 *p, const ln_point3 *q, const ln_point3 *r) {
  const int64_t v[] = {p->x, p->y, p->z, q->x, q->y, q->z, r->x, r->y, r->z};
  return lv_diametral3(v, SIZE_MAX) ? ln_diametral3_plain_at(p, q, r) : 0;
}
static inline int lv_compare_x3(const int64_t *v, size_t row) {
  return lr_is(LN_POINT3_X_MIN <= v[0] && v[0] <= LN_POINT3_X_MAX, "compare_x3", "p.x", "is out of range", row) &&
    lr_is(LN_POINT3_Y_MIN <= v[1] && v[1] <= LN_POINT3_Y_MAX, "compare_x3", "p.y", "is out of range", row) &&
    lr_is(LN_POINT3_Z_MIN <= v[2] && v[2] <= LN_POINT3_Z_MAX, "compare_x3", "p.z", "is out of range", row) &&
    lr_is(LN_POINT3_X_MIN <= v[3] && v[3] <= LN_POINT3_X_MAX, "compare_x3", "q.x", "is out of range", row) &&
    lr_is(LN_POINT3_Y_MIN <= v[4] && v[4] <= LN_POINT3_Y_MAX, "compare_x3", "q.y", "is out of range", row) &&
    lr_is(LN_POINT3_Z_MIN <= v[5] && v[5] <= LN_POINT3_Z_MAX, "compare_x3", "q.z", "is out of range", row);
}
static inline int li_compare_x3(const int64_t *x, size_t row) {
  return lr_is(0 <= x[0], "compare_x3", "p", "has a negative index", row) &&
    lr_is(0 <= x[1], "compare_x3", "q", "has a negative index", row) &&
    lr_is(x[0] != x[1], "compare_x3", "q", "has the index of p too", row);
}
static inline int lc_compare_x3(const int64_t *x, const int64_t *v) { return lv_compare_x3(v, SIZE_MAX) && li_compare_x3(x, SIZE_MAX) ? ln_compare_x3(x, v) : 0; }
static inline int lc_compare_x3_plain(const int64_t *v) { return lv_compare_x3(v, SIZE_MAX) ? ln_compare_x3_plain(v) : 0; }
static inline void lc_compare_x3_rows(size_t n, const int64_t *x, const int64_t *v, int8_t *signs) {
  for (size_t i = 0; i < n; i++) {
    signs[i] = 0;
    if (lv_compare_x3(v + 6 * i, i) && li_compare_x3(x + 2 * i, i)) ln_compare_x3_rows(1, x + 2 * i, v + 6 * i, signs + i);
  }
}
static inline int lc_compare_x3_at(const ln_point3 *p, const ln_point3 *q) {
  const int64_t x[] = {p->index, q->index};
  const int64_t v[] = {p->x, p->y, p->z, q->x, q->y, q->z};
  return lv_compare_x3(v, SIZE_MAX) && li_compare_x3(x, SIZE_MAX) ? ln_compare_x3_at(p, q) : 0;
}
static inline int lc_compare_x3_plain_at(const ln_point3 *p, const ln_point3 *q) {
  const int64_t v[] = {p->x, p->y, p->z, q->x, q->y, q->z};
  return lv_compare_x3(v, SIZE_MAX) ? ln_compare_x3_plain_at(p, q) : 0;
}
static inline int lv_compare_y3(const int64_t *v, size_t row) {
  return lr_is(LN_POINT3_X_MIN <= v[0] && v[0] <= LN_POINT3_X_MAX, "compare_y3", "p.x", "is out of range", row) &&
    lr_is(LN_POINT3_Y_MIN <= v[1] && v[1] <= LN_POINT3_Y_MAX, "compare_y3", "p.y", "is out of range", row) &&
    lr_is(LN_POINT3_Z_MIN <= v[2] && v[2] <= LN_POINT3_Z_MAX, "compare_y3", "p.z", "is out of range", row) &&
    lr_is(LN_POINT3_X_MIN <= v[3] && v[3] <= LN_POINT3_X_MAX, "compare_y3", "q.x", "is out of range", row) &&
    lr_is(LN_POINT3_Y_MIN <= v[4] && v[4] <= LN_POINT3_Y_MAX, "compare_y3", "q.y", "is out of range", row) &&
    lr_is(LN_POINT3_Z_MIN <= v[5] && v[5] <= LN_POINT3_Z_MAX, "compare_y3", "q.z", "is out of range", row);
}
static inline int li_compare_y3(const int64_t *x, size_t row) {
  return lr_is(0 <= x[0], "compare_y3", "p", "has a negative index", row) &&
    lr_is(0 <= x[1], "compare_y3", "q", "has a negative index", row) &&
    lr_is(x[0] != x[1], "compare_y3", "q", "has the index of p too", row);
}
static inline int lc_compare_y3(const int64_t *x, const int64_t *v) { return lv_compare_y3(v, SIZE_MAX) && li_compare_y3(x, SIZE_MAX) ? ln_compare_y3(x, v) : 0; }
static inline int lc_compare_y3_plain(const int64_t *v) { return lv_compare_y3(v, SIZE_MAX) ? ln_compare_y3_plain(v) : 0; }
static inline void lc_compare_y3_rows(size_t n, const int64_t *x, const int64_t *v, int8_t *signs) {
  for (size_t i = 0; i < n; i++) {
    signs[i] = 0;
    if (lv_compare_y3(v + 6 * i, i) && li_compare_y3(x + 2 * i, i)) ln_compare_y3_rows(1, x + 2 * i, v + 6 * i, signs + i);
  }
}
static inline int lc_compare_y3_at(const ln_point3 *p, const ln_point3 *q) {
  const int64_t x[] = {p->index, q->index};
  const int64_t v[] = {p->x, p->y, p->z, q->x, q->y, q->z};
  return lv_compare_y3(v, SIZE_MAX) && li_compare_y3(x, SIZE_MAX) ? ln_compare_y3_at(p, q) : 0;
}
static inline int lc_compare_y3_plain_at(const ln_point3 *p, const ln_point3 *q) {
  const int64_t v[] = {p->x, p->y, p->z, q->x, q->y, q->z};
  return lv_compare_y3(v, SIZE_MAX) ? ln_compare_y3_plain_at(p, q) : 0;
}
static inline int lv_compare_z3(const int64_t *v, size_t row) {
  return lr_is(LN_POINT3_X_MIN <= v[0] && v[0] <= LN_POINT3_X_MAX, "compare_z3", "p.x", "is out of range", row) &&
    lr_is(LN_POINT3_Y_MIN <= v[1] && v[1] <= LN_POINT3_Y_MAX, "compare_z3", "p.y", "is out of range", row) &&
    lr_is(LN_POINT3_Z_MIN <= v[2] && v[2] <= LN_POINT3_Z_MAX, "compare_z3", "p.z", "is out of range", row) &&
    lr_is(LN_POINT3_X_MIN <= v[3] && v[3] <= LN_POINT3_X_MAX, "compare_z3", "q.x", "is out of range", row) &&
    lr_is(LN_POINT3_Y_MIN <= v[4] && v[4] <= LN_POINT3_Y_MAX, "compare_z3", "q.y", "is out of range", row) &&
    lr_is(LN_POINT3_Z_MIN <= v[5] && v[5] <= LN_POINT3_Z_MAX, "compare_z3", "q.z", "is out of range", row);
}
static inline int li_compare_z3(const int64_t *x, size_t row) {
  return lr_is(0 <= x[0], "compare_z3", "p", "has a negative index", row) &&
    lr_is(0 <= x[1], "compare_z3", "q", "has a negative index", row) &&
    lr_is(x[0] != x[1], "compare_z3", "q", "has the index of p too", row);
}
static inline int lc_compare_z3(const int64_t *x, const int64_t *v) { return lv_compare_z3(v, SIZE_MAX) && li_compare_z3(x, SIZE_MAX) ? ln_compare_z3(x, v) : 0; }
static inline int lc_compare_z3_plain(const int64_t *v) { return lv_compare_z3(v, SIZE_MAX) ? ln_compare_z3_plain(v) : 0; }
static inline void lc_compare_z3_rows(size_t n, const int64_t *x, const int64_t *v, int8_t *signs) {
  for (size_t i = 0; i < n; i++) {
    signs[i] = 0;
    if (lv_compare_z3(v + 6 * i, i) && li_compare_z3(x + 2 * i, i)) ln_compare_z3_rows(1, x + 2 * i, v + 6 * i, signs + i);
  }
}
static inline int lc_compare_z3_at(const ln_point3 *p, const ln_point3 *q) {
  const int64_t x[] = {p->index, q->index};
  const int64_t v[] = {p->x, p->y, p->z, q->x, q->y, q->z};
  return lv_compare_z3(v, SIZE_MAX) && li_compare_z3(x, SIZE_MAX) ? ln_compare_z3_at(p, q) : 0;
}
static inline int lc_compare_z3_plain_at(const ln_point3 *p, const ln_point3 *q) {
  const int64_t v[] = {p->x, p->y, p->z, q->x, q->y, q->z};
  return lv_compare_z3(v, SIZE_MAX) ? ln_compare_z3_plain_at(p, q) : 0;
}
static inline int lv_lexicographic3(const int64_t *v, size_t row) {
  return lr_is(LN_POINT3_X_MIN <= v[0] && v[0] <= LN_POINT3_X_MAX, "lexicographic3", "p.x", "is out of range", row) &&
    lr_is(LN_POINT3_Y_MIN <= v[1] && v[1] <= LN_POINT3_Y_MAX, "lexicographic3", "p.y", "is out of range", row) &&
    lr_is(LN_POINT3_Z_MIN <= v[2] && v[2] <= LN_POINT3_Z_MAX, "lexicographic3", "p.z", "is out of range", row) &&
    lr_is(LN_POINT3_X_MIN <= v[3] && v[3] <= LN_POINT3_X_MAX, "lexicographic3", "q.x", "is out of range", row) &&
    lr_is(LN_POINT3_Y_MIN <= v[4] && v[4] <= LN_POINT3_Y_MAX, "lexicographic3", "q.y", "is out of range", row) &&
    lr_is(LN_POINT3_Z_MIN <= v[5] && v[5] <= LN_POINT3_Z_MAX, "lexicographic3", "q.z", "is out of range", row);
}
static inline int li_lexicographic3(const int64_t *x, size_t row) {
  return lr_is(0 <= x[0], "lexicographic3", "p", "has a negative index", row) &&
    lr_is(0 <= x[1], "lexicographic3", "q", "has a negative index", row) &&
    lr_is(x[0] != x[1], "lexicographic3", "q", "has the index of p too", row);
}
static inline int lc_lexicographic3(const int64_t *x, const int64_t *v) { return lv_lexicographic3(v, SIZE_MAX) && li_lexicographic3(x, SIZE_MAX) ? ln_lexicographic3(x, v) : 0; }
static inline int lc_lexicographic3_plain(const int64_t *v) { return lv_lexicographic3(v, SIZE_MAX) ? ln_lexicographic3_plain(v) : 0; }
static inline void lc_lexicographic3_rows(size_t n, const int64_t *x, const int64_t *v, int8_t *signs) {
  for (size_t i = 0; i < n; i++) {
    signs[i] = 0;
    if (lv_lexicographic3(v + 6 * i, i) && li_lexicographic3(x + 2 * i, i)) ln_lexicographic3_rows(1, x + 2 * i, v + 6 * i, signs + i);
  }
}
static inline int lc_lexicographic3_at(const ln_point3 *p, const ln_point3 *q) {
  const int64_t x[] = {p->index, q->index};
  const int64_t v[] = {p->x, p->y, p->z, q->x, q->y, q->z};
  return lv_lexicographic3(v, SIZE_MAX) && li_lexicographic3(x, SIZE_MAX) ? ln_lexicographic3_at(p, q) : 0;
}
static inline int lc_lexicographic3_plain_at(const ln_point3 *p, const ln_point3 *q) {
  const int64_t v[] = {p->x, p->y, p->z, q->x, q->y, q->z};
  return lv_lexicographic3(v, SIZE_MAX) ? ln_lexicographic3_plain_at(p, q) : 0;
}
static inline int lv_compare_distance3(const int64_t *v, size_t row) {
  return lr_is(LN_POINT3_X_MIN <= v[0] && v[0] <= LN_POINT3_X_MAX, "compare_distance3", "p.x", "is out of range", row) &&
    lr_is(LN_POINT3_Y_MIN <= v[1] && v[1] <= LN_POINT3_Y_MAX, "compare_distance3", "p.y", "is out of range", row) &&
    lr_is(LN_POINT3_Z_MIN <= v[2] && v[2] <= LN_POINT3_Z_MAX, "compare_distance3", "p.z", "is out of range", row) &&
    lr_is(LN_POINT3_X_MIN <= v[3] && v[3] <= LN_POINT3_X_MAX, "compare_distance3", "q.x", "is out of range", row) &&
    lr_is(LN_POINT3_Y_MIN <= v[4] && v[4] <= LN_POINT3_Y_MAX, "compare_distance3", "q.y", "is out of range", row) &&
    lr_is(LN_POINT3_Z_MIN <= v[5] && v[5] <= LN_POINT3_Z_MAX, "compare_distance3", "q.z", "is out of range", row) &&
    lr_is(LN_POINT3_X_MIN <= v[6] && v[6] <= LN_POINT3_X_MAX, "compare_distance3", "r.x", "is out of range", row) &&
    lr_is(LN_POINT3_Y_MIN <= v[7] && v[7] <= LN_POINT3_Y_MAX, "compare_distance3", "r.y", "is out of range", row) &&
    lr_is(LN_POINT3_Z_MIN <= v[8] && v[8] <= LN_POINT3_Z_MAX, "compare_distance3", "r.z", "is out of range", row);
}
static inline int li_compare_distance3(const int64_t *x, size_t row) {
  return lr_is(0 <= x[0], "compare_distance3", "p", "has a negative index", row) &&
    lr_is(0 <= x[1], "compare_distance3", "q", "has a negative index", row) &&
    lr_is(0 <= x[2], "compare_distance3", "r", "has a negative index", row) &&
    lr_is(x[0] != x[1], "compare_distance3", "q", "has the index of p too", row) &&
    lr_is(x[0] != x[2], "compare_distance3", "r", "has the index of p too", row) &&
    lr_is(x[1] != x[2], "compare_distance3", "r", "has the index of q too", row);
}
static inline int lc_compare_distance3(const int64_t *x, const int64_t *v) { return lv_compare_distance3(v, SIZE_MAX) && li_compare_distance3(x, SIZE_MAX) ? ln_compare_distance3(x, v) : 0; }
static inline int lc_compare_distance3_plain(const int64_t *v) { return lv_compare_distance3(v, SIZE_MAX) ? ln_compare_distance3_plain(v) : 0; }
static inline void lc_compare_distance3_rows(size_t n, const int64_t *x, const int64_t *v, int8_t *signs) {
  for (size_t i = 0; i < n; i++) {
    signs[i] = 0;
    if (lv_compare_distance3(v + 9 * i, i) && li_compare_distance3(x + 3 * i, i)) ln_compare_distance3_rows(1, x + 3 * i, v + 9 * i, signs + i);
  }
}
static inline int lc_compare_distance3_at(const ln_point3 *p, const ln_point3 *q, const ln_point3 *r) {
  const int64_t x[] = {p->index, q->index, r->index};
  const int64_t v[] = {p->x, p->y, p->z, q->x, q->y, q->z, r->x, r->y, r->z};
  return lv_compare_distance3(v, SIZE_MAX) && li_compare_distance3(x, SIZE_MAX) ? ln_compare_distance3_at(p, q, r) : 0;
}
static inline int lc_compare_distance3_plain_at(const ln_point3 *p, const ln_point3 *q, const ln_point3 *r) {
  const int64_t v[] = {p->x, p->y, p->z, q->x, q->y, q->z, r->x, r->y, r->z};
  return lv_compare_distance3(v, SIZE_MAX) ? ln_compare_distance3_plain_at(p, q, r) : 0;
}
static inline int lv_dot3(const int64_t *v, size_t row) {
  return lr_is(LN_POINT3_X_MIN <= v[0] && v[0] <= LN_POINT3_X_MAX, "dot3", "p.x", "is out of range", row) &&
    lr_is(LN_POINT3_Y_MIN <= v[1] && v[1] <= LN_POINT3_Y_MAX, "dot3", "p.y", "is out of range", row) &&
    lr_is(LN_POINT3_Z_MIN <= v[2] && v[2] <= LN_POINT3_Z_MAX, "dot3", "p.z", "is out of range", row) &&
    lr_is(LN_POINT3_X_MIN <= v[3] && v[3] <= LN_POINT3_X_MAX, "dot3", "q.x", "is out of range", row) &&
    lr_is(LN_POINT3_Y_MIN <= v[4] && v[4] <= LN_POINT3_Y_MAX, "dot3", "q.y", "is out of range", row) &&
    lr_is(LN_POINT3_Z_MIN <= v[5] && v[5] <= LN_POINT3_Z_MAX, "dot3", "q.z", "is out of range", row) &&
    lr_is(LN_POINT3_X_MIN <= v[6] && v[6] <= LN_POINT3_X_MAX, "dot3", "r.x", "is out of range", row) &&
    lr_is(LN_POINT3_Y_MIN <= v[7] && v[7] <= LN_POINT3_Y_MAX, "dot3", "r.y", "is out of range", row) &&
    lr_is(LN_POINT3_Z_MIN <= v[8] && v[8] <= LN_POINT3_Z_MAX, "dot3", "r.z", "is out of range", row) &&
    lr_is(LN_POINT3_X_MIN <= v[9] && v[9] <= LN_POINT3_X_MAX, "dot3", "s.x", "is out of range", row) &&
    lr_is(LN_POINT3_Y_MIN <= v[10] && v[10] <= LN_POINT3_Y_MAX, "dot3", "s.y", "is out of range", row) &&
    lr_is(LN_POINT3_Z_MIN <= v[11] && v[11] <= LN_POINT3_Z_MAX, "dot3", "s.z", "is out of range", row);
}
static inline int li_dot3(const int64_t *x, size_t row) {
  return lr_is(0 <= x[0], "dot3", "p", "has a negative index", row) &&
    lr_is(0 <= x[1], "dot3", "q", "has a negative index", row) &&
    lr_is(0 <= x[2], "dot3", "r", "has a negative index", row) &&
    lr_is(0 <= x[3], "dot3", "s", "has a negative index", row) &&
    lr_is(x[0] != x[1], "dot3", "q", "has the index of p too", row) &&
    lr_is(x[0] != x[2], "dot3", "r", "has the index of p too", row) &&
    lr_is(x[1] != x[2], "dot3", "r", "has the index of q too", row) &&
    lr_is(x[0] != x[3], "dot3", "s", "has the index of p too", row) &&
    lr_is(x[1] != x[3], "dot3", "s", "has the index of q too", row) &&
    lr_is(x[2] != x[3], "dot3", "s", "has the index of r too", row);
}
static inline int lc_dot3(const int64_t *x, const int64_t *v) { return lv_dot3(v, SIZE_MAX) && li_dot3(x, SIZE_MAX) ? ln_dot3(x, v) : 0; }
static inline int lc_dot3_plain(const int64_t *v) { return lv_dot3(v, SIZE_MAX) ? ln_dot3_plain(v) : 0; }
static inline void lc_dot3_rows(size_t n, const int64_t *x, const int64_t *v, int8_t *signs) {
  for (size_t i = 0; i < n; i++) {
    signs[i] = 0;
    if (lv_dot3(v + 12 * i, i) && li_dot3(x + 4 * i, i)) ln_dot3_rows(1, x + 4 * i, v + 12 * i, signs + i);
  }
}
static inline int lc_dot3_at(const ln_point3 *p, const ln_point3 *q, const ln_point3 *r, const ln_point3 *s) {
  const int64_t x[] = {p->index, q->index, r->index, s->index};
  const int64_t v[] = {p->x, p->y, p->z, q->x, q->y, q->z, r->x, r->y, r->z, s->x, s->y, s->z};
  return lv_dot3(v, SIZE_MAX) && li_dot3(x, SIZE_MAX) ? ln_dot3_at(p, q, r, s) : 0;
}
static inline int lc_dot3_plain_at(const ln_point3 *p, const ln_point3 *q, const ln_point3 *r, const ln_point3 *s) {
  const int64_t v[] = {p->x, p->y, p->z, q->x, q->y, q->z, r->x, r->y, r->z, s->x, s->y, s->z};
  return lv_dot3(v, SIZE_MAX) ? ln_dot3_plain_at(p, q, r, s) : 0;
}
static inline int lv_coplanar_xy(const int64_t *v, size_t row) {
  return lr_is(LN_POINT3_X_MIN <= v[0] && v[0] <= LN_POINT3_X_MAX, "coplanar_xy", "p.x", "is out of range", row) &&
    lr_is(LN_POINT3_Y_MIN <= v[1] && v[1] <= LN_POINT3_Y_MAX, "coplanar_xy", "p.y", "is out of range", row) &&
    lr_is(LN_POINT3_Z_MIN <= v[2] && v[2] <= LN_POINT3_Z_MAX, "coplanar_xy", "p.z", "is out of range", row) &&
    lr_is(LN_POINT3_X_MIN <= v[3] && v[3] <= LN_POINT3_X_MAX, "coplanar_xy", "q.x", "is out of range", row) &&
    lr_is(LN_POINT3_Y_MIN <= v[4] && v[4] <= LN_POINT3_Y_MAX, "coplanar_xy", "q.y", "is out of range", row) &&
    lr_is(LN_POINT3_Z_MIN <= v[5] && v[5] <= LN_POINT3_Z_MAX, "coplanar_xy", "q.z", "is out of range", row) &&
    lr_is(LN_POINT3_X_MIN <= v[6] && v[6] <= LN_POINT3_X_MAX, "coplanar_xy", "r.x", "is out of range", row) &&
    lr_is(LN_POINT3_Y_MIN <= v[7] && v[7] <= LN_POINT3_Y_MAX, "coplanar_xy", "r.y", "is out of range", row) &&
    lr_is(LN_POINT3_Z_MIN <= v[8] && v[8] <= LN_POINT3_Z_MAX, "coplanar_xy", "r.z", "is out of range", row);
}
static inline int li_coplanar_xy(const int64_t *x, size_t row) {
  return lr_is(0 <= x[0], "coplanar_xy", "p", "has a negative index", row) &&
    lr_is(0 <= x[1], "coplanar_xy", "q", "has a negative index", row) &&
    lr_is(0 <= x[2], "coplanar_xy", "r", "has a negative index", row) &&
    lr_is(x[0] != x[1], "coplanar_xy", "q", "has the index of p too", row) &&
    lr_is(x[0] != x[2], "coplanar_xy", "r", "has the index of p too", row) &&
    lr_is(x[1] != x[2], "coplanar_xy", "r", "has the index of q too", row);
}
static inline int lc_coplanar_xy(const int64_t *x, const int64_t *v) { return lv_coplanar_xy(v, SIZE_MAX) && li_coplanar_xy(x, SIZE_MAX) ? ln_coplanar_xy(x, v) : 0; }
static inline int lc_coplanar_xy_plain(const int64_t *v) { return lv_coplanar_xy(v, SIZE_MAX) ? ln_coplanar_xy_plain(v) : 0; }
static inline void lc_coplanar_xy_rows(size_t n, const int64_t *x, const int64_t *v, int8_t *signs) {
  for (size_t i = 0; i < n; i++) {
    signs[i] = 0;
    if (lv_coplanar_xy(v + 9 * i, i) && li_coplanar_xy(x + 3 * i, i)) ln_coplanar_xy_rows(1, x + 3 * i, v + 9 * i, signs + i);
  }
}
static inline int lc_coplanar_xy_at(const ln_point3 *p, const ln_point3 *q, const ln_point3 *r) {
  const int64_t x[] = {p->index, q->index, r->index};
  const int64_t v[] = {p->x, p->y, p->z, q->x, q->y, q->z, r->x, r->y, r->z};
  return lv_coplanar_xy(v, SIZE_MAX) && li_coplanar_xy(x, SIZE_MAX) ? ln_coplanar_xy_at(p, q, r) : 0;
}
static inline int lc_coplanar_xy_plain_at(const ln_point3 *p, const ln_point3 *q, const ln_point3 *r) {
  const int64_t v[] = {p->x, p->y, p->z, q->x, q->y, q->z, r->x, r->y, r->z};
  return lv_coplanar_xy(v, SIZE_MAX) ? ln_coplanar_xy_plain_at(p, q, r) : 0;
}
static inline int lv_coplanar_yz(const int64_t *v, size_t row) {
  return lr_is(LN_POINT3_X_MIN <= v[0] && v[0] <= LN_POINT3_X_MAX, "coplanar_yz", "p.x", "is out of range", row) &&
    lr_is(LN_POINT3_Y_MIN <= v[1] && v[1] <= LN_POINT3_Y_MAX, "coplanar_yz", "p.y", "is out of range", row) &&
    lr_is(LN_POINT3_Z_MIN <= v[2] && v[2] <= LN_POINT3_Z_MAX, "coplanar_yz", "p.z", "is out of range", row) &&
    lr_is(LN_POINT3_X_MIN <= v[3] && v[3] <= LN_POINT3_X_MAX, "coplanar_yz", "q.x", "is out of range", row) &&
    lr_is(LN_POINT3_Y_MIN <= v[4] && v[4] <= LN_POINT3_Y_MAX, "coplanar_yz", "q.y", "is out of range", row) &&
    lr_is(LN_POINT3_Z_MIN <= v[5] && v[5] <= LN_POINT3_Z_MAX, "coplanar_yz", "q.z", "is out of range", row) &&
    lr_is(LN_POINT3_X_MIN <= v[6] && v[6] <= LN_POINT3_X_MAX, "coplanar_yz", "r.x", "is out of range", row) &&
    lr_is(LN_POINT3_Y_MIN <= v[7] && v[7] <= LN_POINT3_Y_MAX, "coplanar_yz", "r.y", "is out of range", row) &&
    lr_is(LN_POINT3_Z_MIN <= v[8] && v[8] <= LN_POINT3_Z_MAX, "coplanar_yz", "r.z", "is out of range", row);
}
static inline int li_coplanar_yz(const int64_t *x, size_t row) {
  return lr_is(0 <= x[0], "coplanar_yz", "p", "has a negative index", row) &&
    lr_is(0 <= x[1], "coplanar_yz", "q", "has a negative index", row) &&
    lr_is(0 <= x[2], "coplanar_yz", "r", "has a negative index", row) &&
    lr_is(x[0] != x[1], "coplanar_yz", "q", "has the index of p too", row) &&
    lr_is(x[0] != x[2], "coplanar_yz", "r", "has the index of p too", row) &&
    lr_is(x[1] != x[2], "coplanar_yz", "r", "has the index of q too", row);
}
static inline int lc_coplanar_yz(const int64_t *x, const int64_t *v) { return lv_coplanar_yz(v, SIZE_MAX) && li_coplanar_yz(x, SIZE_MAX) ? ln_coplanar_yz(x, v) : 0; }
static inline int lc_coplanar_yz_plain(const int64_t *v) { return lv_coplanar_yz(v, SIZE_MAX) ? ln_coplanar_yz_plain(v) : 0; }
static inline void lc_coplanar_yz_rows(size_t n, const int64_t *x, const int64_t *v, int8_t *signs) {
  for (size_t i = 0; i < n; i++) {
    signs[i] = 0;
    if (lv_coplanar_yz(v + 9 * i, i) && li_coplanar_yz(x + 3 * i, i)) ln_coplanar_yz_rows(1, x + 3 * i, v + 9 * i, signs + i);
  }
}
static inline int lc_coplanar_yz_at(const ln_point3 *p, const ln_point3 *q, const ln_point3 *r) {
  const int64_t x[] = {p->index, q->index, r->index};
  const int64_t v[] = {p->x, p->y, p->z, q->x, q->y, q->z, r->x, r->y, r->z};
  return lv_coplanar_yz(v, SIZE_MAX) && li_coplanar_yz(x, SIZE_MAX) ? ln_coplanar_yz_at(p, q, r) : 0;
}
static inline int lc_coplanar_yz_plain_at(const ln_point3 *p, const ln_point3 *q, const ln_point3 *r) {
  const int64_t v[] = {p->x, p->y, p->z, q->x, q->y, q->z, r->x, r->y, r->z};
  return lv_coplanar_yz(v, SIZE_MAX) ? ln_coplanar_yz_plain_at(p, q, r) : 0;
}
static inline int lv_coplanar_zx(const int64_t *v, size_t row) {
  return lr_is(LN_POINT3_X_MIN <= v[0] && v[0] <= LN_POINT3_X_MAX, "coplanar_zx", "p.x", "is out of range", row) &&
    lr_is(LN_POINT3_Y_MIN <= v[1] && v[1] <= LN_POINT3_Y_MAX, "coplanar_zx", "p.y", "is out of range", row) &&
    lr_is(LN_POINT3_Z_MIN <= v[2] && v[2] <= LN_POINT3_Z_MAX, "coplanar_zx", "p.z", "is out of range", row) &&
    lr_is(LN_POINT3_X_MIN <= v[3] && v[3] <= LN_POINT3_X_MAX, "coplanar_zx", "q.x", "is out of range", row) &&
    lr_is(LN_POINT3_Y_MIN <= v[4] && v[4] <= LN_POINT3_Y_MAX, "coplanar_zx", "q.y", "is out of range", row) &&
    lr_is(LN_POINT3_Z_MIN <= v[5] && v[5] <= LN_POINT3_Z_MAX, "coplanar_zx", "q.z", "is out of range", row) &&
    lr_is(LN_POINT3_X_MIN <= v[6] && v[6] <= LN_POINT3_X_MAX, "coplanar_zx", "r.x", "is out of range", row) &&
    lr_is(LN_POINT3_Y_MIN <= v[7] && v[7] <= LN_POINT3_Y_MAX, "coplanar_zx", "r.y", "is out of range", row) &&
    lr_is(LN_POINT3_Z_MIN <= v[8] && v[8] <= LN_POINT3_Z_MAX, "coplanar_zx", "r.z", "is out of range", row);
}
static inline int li_coplanar_zx(const int64_t *x, size_t row) {
  return lr_is(0 <= x[0], "coplanar_zx", "p", "has a negative index", row) &&
    lr_is(0 <= x[1], "coplanar_zx", "q", "has a negative index", row) &&
    lr_is(0 <= x[2], "coplanar_zx", "r", "has a negative index", row) &&
    lr_is(x[0] != x[1], "coplanar_zx", "q", "has the index of p too", row) &&
    lr_is(x[0] != x[2], "coplanar_zx", "r", "has the index of p too", row) &&
    lr_is(x[1] != x[2], "coplanar_zx", "r", "has the index of q too", row);
}
static inline int lc_coplanar_zx(const int64_t *x, const int64_t *v) { return lv_coplanar_zx(v, SIZE_MAX) && li_coplanar_zx(x, SIZE_MAX) ? ln_coplanar_zx(x, v) : 0; }
static inline int lc_coplanar_zx_plain(const int64_t *v) { return lv_coplanar_zx(v, SIZE_MAX) ? ln_coplanar_zx_plain(v) : 0; }
static inline void lc_coplanar_zx_rows(size_t n, const int64_t *x, const int64_t *v, int8_t *signs) {
  for (size_t i = 0; i < n; i++) {
    signs[i] = 0;
    if (lv_coplanar_zx(v + 9 * i, i) && li_coplanar_zx(x + 3 * i, i)) ln_coplanar_zx_rows(1, x + 3 * i, v + 9 * i, signs + i);
  }
}
static inline int lc_coplanar_zx_at(const ln_point3 *p, const ln_point3 *q, const ln_point3 *r) {
  const int64_t x[] = {p->index, q->index, r->index};
  const int64_t v[] = {p->x, p->y, p->z, q->x, q->y, q->z, r->x, r->y, r->z};
  return lv_coplanar_zx(v, SIZE_MAX) && li_coplanar_zx(x, SIZE_MAX) ? ln_coplanar_zx_at(p, q, r) : 0;
}
static inline int lc_coplanar_zx_plain_at(const ln_point3 *p, const ln_point3 *q, const ln_point3 *r) {
  const int64_t v[] = {p->x, p->y, p->z, q->x, q->y, q->z, r->x, r->y, r->z};
  return lv_coplanar_zx(v, SIZE_MAX) ? ln_coplanar_zx_plain_at(p, q, r) : 0;
}
#endif

#ifdef __cplusplus
}

#include <cstdint>
#ifdef LNC_CHECKED
#define LNC_CALL(name) ::lc_##name
#else
#define LNC_CALL(name) ::ln_##name
#endif
namespace lnc {
typedef ::ln_point3 point3;
inline bool in_range(const point3 &p) { return ::ln_point3_in_range(&p) != 0; }
#ifdef LNC_CHECKED
inline namespace checked {
#endif
inline int orient3(const point3 &a, const point3 &b, const point3 &c, const point3 &d) {
  return LNC_CALL(orient3_at)(&a, &b, &c, &d);
}
inline int orient3_plain(const point3 &a, const point3 &b, const point3 &c, const point3 &d) {
  return LNC_CALL(orient3_plain_at)(&a, &b, &c, &d);
}
inline int insphere(const point3 &a, const point3 &b, const point3 &c, const point3 &d, const point3 &e) {
  return LNC_CALL(insphere_at)(&a, &b, &c, &d, &e);
}
inline int insphere_plain(const point3 &a, const point3 &b, const point3 &c, const point3 &d, const point3 &e) {
  return LNC_CALL(insphere_plain_at)(&a, &b, &c, &d, &e);
}
inline int diametral3(const point3 &p, const point3 &q, const point3 &r) {
  return LNC_CALL(diametral3_at)(&p, &q, &r);
}
inline int diametral3_plain(const point3 &p, const point3 &q, const point3 &r) {
  return LNC_CALL(diametral3_plain_at)(&p, &q, &r);
}
inline int compare_x3(const point3 &p, const point3 &q) {
  return LNC_CALL(compare_x3_at)(&p, &q);
}
inline int compare_x3_plain(const point3 &p, const point3 &q) {
  return LNC_CALL(compare_x3_plain_at)(&p, &q);
}
inline int compare_y3(const point3 &p, const point3 &q) {
  return LNC_CALL(compare_y3_at)(&p, &q);
}
inline int compare_y3_plain(const point3 &p, const point3 &q) {
  return LNC_CALL(compare_y3_plain_at)(&p, &q);
}
inline int compare_z3(const point3 &p, const point3 &q) {
  return LNC_CALL(compare_z3_at)(&p, &q);
}
inline int compare_z3_plain(const point3 &p, const point3 &q) {
  return LNC_CALL(compare_z3_plain_at)(&p, &q);
}
inline int lexicographic3(const point3 &p, const point3 &q) {
  return LNC_CALL(lexicographic3_at)(&p, &q);
}
inline int lexicographic3_plain(const point3 &p, const point3 &q) {
  return LNC_CALL(lexicographic3_plain_at)(&p, &q);
}
inline int compare_distance3(const point3 &p, const point3 &q, const point3 &r) {
  return LNC_CALL(compare_distance3_at)(&p, &q, &r);
}
inline int compare_distance3_plain(const point3 &p, const point3 &q, const point3 &r) {
  return LNC_CALL(compare_distance3_plain_at)(&p, &q, &r);
}
inline int dot3(const point3 &p, const point3 &q, const point3 &r, const point3 &s) {
  return LNC_CALL(dot3_at)(&p, &q, &r, &s);
}
inline int dot3_plain(const point3 &p, const point3 &q, const point3 &r, const point3 &s) {
  return LNC_CALL(dot3_plain_at)(&p, &q, &r, &s);
}
inline int coplanar_xy(const point3 &p, const point3 &q, const point3 &r) {
  return LNC_CALL(coplanar_xy_at)(&p, &q, &r);
}
inline int coplanar_xy_plain(const point3 &p, const point3 &q, const point3 &r) {
  return LNC_CALL(coplanar_xy_plain_at)(&p, &q, &r);
}
inline int coplanar_yz(const point3 &p, const point3 &q, const point3 &r) {
  return LNC_CALL(coplanar_yz_at)(&p, &q, &r);
}
inline int coplanar_yz_plain(const point3 &p, const point3 &q, const point3 &r) {
  return LNC_CALL(coplanar_yz_plain_at)(&p, &q, &r);
}
inline int coplanar_zx(const point3 &p, const point3 &q, const point3 &r) {
  return LNC_CALL(coplanar_zx_at)(&p, &q, &r);
}
inline int coplanar_zx_plain(const point3 &p, const point3 &q, const point3 &r) {
  return LNC_CALL(coplanar_zx_plain_at)(&p, &q, &r);
}
#ifdef LNC_CHECKED
}
#endif
}
#undef LNC_CALL
#endif
#endif

#if defined(LNC_SPACE_IMPLEMENTATION) && !defined(LNC_SPACE_IMPLEMENTED)
#define LNC_SPACE_IMPLEMENTED
#undef ln_orient3
#undef ln_orient3_plain
#undef ln_orient3_rows
#undef ln_orient3_at
#undef ln_orient3_plain_at
#undef ln_insphere
#undef ln_insphere_plain
#undef ln_insphere_rows
#undef ln_insphere_at
#undef ln_insphere_plain_at
#undef ln_diametral3
#undef ln_diametral3_plain
#undef ln_diametral3_rows
#undef ln_diametral3_at
#undef ln_diametral3_plain_at
#undef ln_compare_x3
#undef ln_compare_x3_plain
#undef ln_compare_x3_rows
#undef ln_compare_x3_at
#undef ln_compare_x3_plain_at
#undef ln_compare_y3
#undef ln_compare_y3_plain
#undef ln_compare_y3_rows
#undef ln_compare_y3_at
#undef ln_compare_y3_plain_at
#undef ln_compare_z3
#undef ln_compare_z3_plain
#undef ln_compare_z3_rows
#undef ln_compare_z3_at
#undef ln_compare_z3_plain_at
#undef ln_lexicographic3
#undef ln_lexicographic3_plain
#undef ln_lexicographic3_rows
#undef ln_lexicographic3_at
#undef ln_lexicographic3_plain_at
#undef ln_compare_distance3
#undef ln_compare_distance3_plain
#undef ln_compare_distance3_rows
#undef ln_compare_distance3_at
#undef ln_compare_distance3_plain_at
#undef ln_dot3
#undef ln_dot3_plain
#undef ln_dot3_rows
#undef ln_dot3_at
#undef ln_dot3_plain_at
#undef ln_coplanar_xy
#undef ln_coplanar_xy_plain
#undef ln_coplanar_xy_rows
#undef ln_coplanar_xy_at
#undef ln_coplanar_xy_plain_at
#undef ln_coplanar_yz
#undef ln_coplanar_yz_plain
#undef ln_coplanar_yz_rows
#undef ln_coplanar_yz_at
#undef ln_coplanar_yz_plain_at
#undef ln_coplanar_zx
#undef ln_coplanar_zx_plain
#undef ln_coplanar_zx_rows
#undef ln_coplanar_zx_at
#undef ln_coplanar_zx_plain_at
#ifndef __SIZEOF_INT128__
#error "no __int128 here: space.c takes gcc or clang for a 64-bit target"
#endif
#ifdef __cplusplus
#pragma GCC diagnostic push
#pragma GCC diagnostic ignored "-Wold-style-cast"
#endif
static inline __attribute__((always_inline)) int la_orient3(const int64_t *x, const int64_t *v);
static inline __attribute__((always_inline)) int la_insphere(const int64_t *x, const int64_t *v);
static inline __attribute__((always_inline)) int la_compare_x3(const int64_t *x, const int64_t *v);
static inline __attribute__((always_inline)) int la_compare_y3(const int64_t *x, const int64_t *v);
static inline __attribute__((always_inline)) int la_compare_z3(const int64_t *x, const int64_t *v);
static inline __attribute__((always_inline)) int la_lexicographic3(const int64_t *x, const int64_t *v);
static inline __attribute__((always_inline)) int la_coplanar_xy(const int64_t *x, const int64_t *v);
static inline __attribute__((always_inline)) int la_coplanar_yz(const int64_t *x, const int64_t *v);
static inline __attribute__((always_inline)) int la_coplanar_zx(const int64_t *x, const int64_t *v);
#include "space.c"
#ifndef LNC_HAS_ORDER
#define LNC_HAS_ORDER
#if defined(__clang__) || __GNUC__ < 8
#define LNC_UNROLLED
#else
#define LNC_UNROLLED _Pragma("GCC unroll 8")
#endif
/* Writes the indices as they rise to y, and of each site as many values alike to w. Returns whether an odd number of pairs of sites was the other way round.
   Two of one index stay as they are. (Without branches, since nothing foretells an order. There are at most 5 sites) */
static inline __attribute__((always_inline)) int lr_in_order(int sites, int many, const int64_t *x, const int64_t *v, int64_t *y, int64_t *w) {
  int turned = 0, rank[] = {0, 1, 2, 3, 4};
  LNC_UNROLLED
  for (int j = 1; j < sites; j++) {
    LNC_UNROLLED
    for (int k = 0; k < j; k++) {
      const int is_turned = x[k] > x[j];
      rank[k] += is_turned;
      rank[j] -= is_turned;
      turned += is_turned;
    }
  }
  LNC_UNROLLED
  for (int j = 0; j < sites; j++) {
    y[rank[j]] = x[j];
    LNC_UNROLLED
    for (int c = 0; c < many; c++) w[many * rank[j] + c] = v[many * j + c];
  }
  return turned % 2;
}
#undef LNC_UNROLLED
#endif
static __attribute__((noinline)) int lm_orient3(const int64_t *x, const int64_t *v) {
  int64_t y[4], w[12];
  const int odd = lr_in_order(4, 3, x, v, y, w);
  if (lb0_orient3(w) != 0) __builtin_unreachable();
  const int sign = la_orient3(y, w);
  return odd ? -sign : sign;
}
int ln_orient3(const int64_t *x, const int64_t *v) {
  const int sign = lb0_orient3(v);
  return sign != 0 ? sign : lm_orient3(x, v);
}
int ln_orient3_plain(const int64_t *v) { return lb0_orient3(v); }
void ln_orient3_rows(size_t n, const int64_t *x, const int64_t *v, int8_t *signs) {
  for (size_t i = 0; i < n; i++) signs[i] = (int8_t)ln_orient3(x + 4 * i, v + 12 * i);
}
static __attribute__((noinline)) int lm_orient3_at(const ln_point3 *a, const ln_point3 *b, const ln_point3 *c, const ln_point3 *d) {
  const int64_t x[] = {a->index, b->index, c->index, d->index};
  const int64_t v[] = {a->x, a->y, a->z, b->x, b->y, b->z, c->x, c->y, c->z, d->x, d->y, d->z};
  return lm_orient3(x, v);
}
__attribute__((flatten)) int ln_orient3_plain_at(const ln_point3 *a, const ln_point3 *b, const ln_point3 *c, const ln_point3 *d) {
  const int64_t v[] = {a->x, a->y, a->z, b->x, b->y, b->z, c->x, c->y, c->z, d->x, d->y, d->z};
  return lb0_orient3(v);
}
__attribute__((flatten)) int ln_orient3_at(const ln_point3 *a, const ln_point3 *b, const ln_point3 *c, const ln_point3 *d) {
  const int64_t v[] = {a->x, a->y, a->z, b->x, b->y, b->z, c->x, c->y, c->z, d->x, d->y, d->z};
  const int sign = lb0_orient3(v);
  return sign != 0 ? sign : lm_orient3_at(a, b, c, d);
}
static __attribute__((noinline)) int lm_insphere(const int64_t *x, const int64_t *v) {
  int64_t y[5], w[15];
  const int odd = lr_in_order(5, 3, x, v, y, w);
  if (lb0_insphere(w) != 0) __builtin_unreachable();
  const int sign = la_insphere(y, w);
  return odd ? -sign : sign;
}
int ln_insphere(const int64_t *x, const int64_t *v) {
  const int sign = lb0_insphere(v);
  return sign != 0 ? sign : lm_insphere(x, v);
}
int ln_insphere_plain(const int64_t *v) { return lb0_insphere(v); }
void ln_insphere_rows(size_t n, const int64_t *x, const int64_t *v, int8_t *signs) {
  for (size_t i = 0; i < n; i++) signs[i] = (int8_t)ln_insphere(x + 5 * i, v + 15 * i);
}
static __attribute__((noinline)) int lm_insphere_at(const ln_point3 *a, const ln_point3 *b, const ln_point3 *c, const ln_point3 *d, const ln_point3 *e) {
  const int64_t x[] = {a->index, b->index, c->index, d->index, e->index};
  const int64_t v[] = {a->x, a->y, a->z, b->x, b->y, b->z, c->x, c->y, c->z, d->x, d->y, d->z, e->x, e->y, e->z};
  return lm_insphere(x, v);
}
__attribute__((flatten)) int ln_insphere_plain_at(const ln_point3 *a, const ln_point3 *b, const ln_point3 *c, const ln_point3 *d, const ln_point3 *e) {
  const int64_t v[] = {a->x, a->y, a->z, b->x, b->y, b->z, c->x, c->y, c->z, d->x, d->y, d->z, e->x, e->y, e->z};
  return lb0_insphere(v);
}
__attribute__((flatten)) int ln_insphere_at(const ln_point3 *a, const ln_point3 *b, const ln_point3 *c, const ln_point3 *d, const ln_point3 *e) {
  const int64_t v[] = {a->x, a->y, a->z, b->x, b->y, b->z, c->x, c->y, c->z, d->x, d->y, d->z, e->x, e->y, e->z};
  const int sign = lb0_insphere(v);
  return sign != 0 ? sign : lm_insphere_at(a, b, c, d, e);
}
int ln_diametral3_plain(const int64_t *v) { return lb0_diametral3(v); }
void ln_diametral3_rows(size_t n, const int64_t *x, const int64_t *v, int8_t *signs) {
  for (size_t i = 0; i < n; i++) signs[i] = (int8_t)ln_diametral3(x + 3 * i, v + 9 * i);
}
static __attribute__((noinline)) int lm_diametral3_at(const ln_point3 *p, const ln_point3 *q, const ln_point3 *r) {
  const int64_t x[] = {p->index, q->index, r->index};
  const int64_t v[] = {p->x, p->y, p->z, q->x, q->y, q->z, r->x, r->y, r->z};
  return ln_diametral3(x, v);
}
__attribute__((flatten)) int ln_diametral3_plain_at(const ln_point3 *p, const ln_point3 *q, const ln_point3 *r) {
  const int64_t v[] = {p->x, p->y, p->z, q->x, q->y, q->z, r->x, r->y, r->z};
  return lb0_diametral3(v);
}
__attribute__((flatten)) int ln_diametral3_at(const ln_point3 *p, const ln_point3 *q, const ln_point3 *r) {
  const int64_t v[] = {p->x, p->y, p->z, q->x, q->y, q->z, r->x, r->y, r->z};
  const int sign = lb0_diametral3(v);
  return sign != 0 ? sign : lm_diametral3_at(p, q, r);
}
static __attribute__((noinline)) int lm_compare_x3(const int64_t *x, const int64_t *v) {
  int64_t y[2], w[6];
  const int odd = lr_in_order(2, 3, x, v, y, w);
  if (lb0_compare_x3(w) != 0) __builtin_unreachable();
  const int sign = la_compare_x3(y, w);
  return odd ? -sign : sign;
}
int ln_compare_x3(const int64_t *x, const int64_t *v) {
  const int sign = lb0_compare_x3(v);
  return sign != 0 ? sign : lm_compare_x3(x, v);
}
int ln_compare_x3_plain(const int64_t *v) { return lb0_compare_x3(v); }
void ln_compare_x3_rows(size_t n, const int64_t *x, const int64_t *v, int8_t *signs) {
  for (size_t i = 0; i < n; i++) signs[i] = (int8_t)ln_compare_x3(x + 2 * i, v + 6 * i);
}
static __attribute__((noinline)) int lm_compare_x3_at(const ln_point3 *p, const ln_point3 *q) {
  const int64_t x[] = {p->index, q->index};
  const int64_t v[] = {p->x, p->y, p->z, q->x, q->y, q->z};
  return lm_compare_x3(x, v);
}
__attribute__((flatten)) int ln_compare_x3_plain_at(const ln_point3 *p, const ln_point3 *q) {
  const int64_t v[] = {p->x, p->y, p->z, q->x, q->y, q->z};
  return lb0_compare_x3(v);
}
__attribute__((flatten)) int ln_compare_x3_at(const ln_point3 *p, const ln_point3 *q) {
  const int64_t v[] = {p->x, p->y, p->z, q->x, q->y, q->z};
  const int sign = lb0_compare_x3(v);
  return sign != 0 ? sign : lm_compare_x3_at(p, q);
}
static __attribute__((noinline)) int lm_compare_y3(const int64_t *x, const int64_t *v) {
  int64_t y[2], w[6];
  const int odd = lr_in_order(2, 3, x, v, y, w);
  if (lb0_compare_y3(w) != 0) __builtin_unreachable();
  const int sign = la_compare_y3(y, w);
  return odd ? -sign : sign;
}
int ln_compare_y3(const int64_t *x, const int64_t *v) {
  const int sign = lb0_compare_y3(v);
  return sign != 0 ? sign : lm_compare_y3(x, v);
}
int ln_compare_y3_plain(const int64_t *v) { return lb0_compare_y3(v); }
void ln_compare_y3_rows(size_t n, const int64_t *x, const int64_t *v, int8_t *signs) {
  for (size_t i = 0; i < n; i++) signs[i] = (int8_t)ln_compare_y3(x + 2 * i, v + 6 * i);
}
static __attribute__((noinline)) int lm_compare_y3_at(const ln_point3 *p, const ln_point3 *q) {
  const int64_t x[] = {p->index, q->index};
  const int64_t v[] = {p->x, p->y, p->z, q->x, q->y, q->z};
  return lm_compare_y3(x, v);
}
__attribute__((flatten)) int ln_compare_y3_plain_at(const ln_point3 *p, const ln_point3 *q) {
  const int64_t v[] = {p->x, p->y, p->z, q->x, q->y, q->z};
  return lb0_compare_y3(v);
}
__attribute__((flatten)) int ln_compare_y3_at(const ln_point3 *p, const ln_point3 *q) {
  const int64_t v[] = {p->x, p->y, p->z, q->x, q->y, q->z};
  const int sign = lb0_compare_y3(v);
  return sign != 0 ? sign : lm_compare_y3_at(p, q);
}
static __attribute__((noinline)) int lm_compare_z3(const int64_t *x, const int64_t *v) {
  int64_t y[2], w[6];
  const int odd = lr_in_order(2, 3, x, v, y, w);
  if (lb0_compare_z3(w) != 0) __builtin_unreachable();
  const int sign = la_compare_z3(y, w);
  return odd ? -sign : sign;
}
int ln_compare_z3(const int64_t *x, const int64_t *v) {
  const int sign = lb0_compare_z3(v);
  return sign != 0 ? sign : lm_compare_z3(x, v);
}
int ln_compare_z3_plain(const int64_t *v) { return lb0_compare_z3(v); }
void ln_compare_z3_rows(size_t n, const int64_t *x, const int64_t *v, int8_t *signs) {
  for (size_t i = 0; i < n; i++) signs[i] = (int8_t)ln_compare_z3(x + 2 * i, v + 6 * i);
}
static __attribute__((noinline)) int lm_compare_z3_at(const ln_point3 *p, const ln_point3 *q) {
  const int64_t x[] = {p->index, q->index};
  const int64_t v[] = {p->x, p->y, p->z, q->x, q->y, q->z};
  return lm_compare_z3(x, v);
}
__attribute__((flatten)) int ln_compare_z3_plain_at(const ln_point3 *p, const ln_point3 *q) {
  const int64_t v[] = {p->x, p->y, p->z, q->x, q->y, q->z};
  return lb0_compare_z3(v);
}
__attribute__((flatten)) int ln_compare_z3_at(const ln_point3 *p, const ln_point3 *q) {
  const int64_t v[] = {p->x, p->y, p->z, q->x, q->y, q->z};
  const int sign = lb0_compare_z3(v);
  return sign != 0 ? sign : lm_compare_z3_at(p, q);
}
static __attribute__((noinline)) int lm_lexicographic3(const int64_t *x, const int64_t *v) {
  int64_t y[2], w[6];
  const int odd = lr_in_order(2, 3, x, v, y, w);
  if (lb0_lexicographic3(w) != 0) __builtin_unreachable();
  const int sign = la_lexicographic3(y, w);
  return odd ? -sign : sign;
}
int ln_lexicographic3(const int64_t *x, const int64_t *v) {
  const int sign = lb0_lexicographic3(v);
  return sign != 0 ? sign : lm_lexicographic3(x, v);
}
int ln_lexicographic3_plain(const int64_t *v) { return lb0_lexicographic3(v); }
void ln_lexicographic3_rows(size_t n, const int64_t *x, const int64_t *v, int8_t *signs) {
  for (size_t i = 0; i < n; i++) signs[i] = (int8_t)ln_lexicographic3(x + 2 * i, v + 6 * i);
}
static __attribute__((noinline)) int lm_lexicographic3_at(const ln_point3 *p, const ln_point3 *q) {
  const int64_t x[] = {p->index, q->index};
  const int64_t v[] = {p->x, p->y, p->z, q->x, q->y, q->z};
  return lm_lexicographic3(x, v);
}
__attribute__((flatten)) int ln_lexicographic3_plain_at(const ln_point3 *p, const ln_point3 *q) {
  const int64_t v[] = {p->x, p->y, p->z, q->x, q->y, q->z};
  return lb0_lexicographic3(v);
}
__attribute__((flatten)) int ln_lexicographic3_at(const ln_point3 *p, const ln_point3 *q) {
  const int64_t v[] = {p->x, p->y, p->z, q->x, q->y, q->z};
  const int sign = lb0_lexicographic3(v);
  return sign != 0 ? sign : lm_lexicographic3_at(p, q);
}
int ln_compare_distance3_plain(const int64_t *v) { return lb0_compare_distance3(v); }
void ln_compare_distance3_rows(size_t n, const int64_t *x, const int64_t *v, int8_t *signs) {
  for (size_t i = 0; i < n; i++) signs[i] = (int8_t)ln_compare_distance3(x + 3 * i, v + 9 * i);
}
static __attribute__((noinline)) int lm_compare_distance3_at(const ln_point3 *p, const ln_point3 *q, const ln_point3 *r) {
  const int64_t x[] = {p->index, q->index, r->index};
  const int64_t v[] = {p->x, p->y, p->z, q->x, q->y, q->z, r->x, r->y, r->z};
  return ln_compare_distance3(x, v);
}
__attribute__((flatten)) int ln_compare_distance3_plain_at(const ln_point3 *p, const ln_point3 *q, const ln_point3 *r) {
  const int64_t v[] = {p->x, p->y, p->z, q->x, q->y, q->z, r->x, r->y, r->z};
  return lb0_compare_distance3(v);
}
__attribute__((flatten)) int ln_compare_distance3_at(const ln_point3 *p, const ln_point3 *q, const ln_point3 *r) {
  const int64_t v[] = {p->x, p->y, p->z, q->x, q->y, q->z, r->x, r->y, r->z};
  const int sign = lb0_compare_distance3(v);
  return sign != 0 ? sign : lm_compare_distance3_at(p, q, r);
}
int ln_dot3_plain(const int64_t *v) { return lb0_dot3(v); }
void ln_dot3_rows(size_t n, const int64_t *x, const int64_t *v, int8_t *signs) {
  for (size_t i = 0; i < n; i++) signs[i] = (int8_t)ln_dot3(x + 4 * i, v + 12 * i);
}
static __attribute__((noinline)) int lm_dot3_at(const ln_point3 *p, const ln_point3 *q, const ln_point3 *r, const ln_point3 *s) {
  const int64_t x[] = {p->index, q->index, r->index, s->index};
  const int64_t v[] = {p->x, p->y, p->z, q->x, q->y, q->z, r->x, r->y, r->z, s->x, s->y, s->z};
  return ln_dot3(x, v);
}
__attribute__((flatten)) int ln_dot3_plain_at(const ln_point3 *p, const ln_point3 *q, const ln_point3 *r, const ln_point3 *s) {
  const int64_t v[] = {p->x, p->y, p->z, q->x, q->y, q->z, r->x, r->y, r->z, s->x, s->y, s->z};
  return lb0_dot3(v);
}
__attribute__((flatten)) int ln_dot3_at(const ln_point3 *p, const ln_point3 *q, const ln_point3 *r, const ln_point3 *s) {
  const int64_t v[] = {p->x, p->y, p->z, q->x, q->y, q->z, r->x, r->y, r->z, s->x, s->y, s->z};
  const int sign = lb0_dot3(v);
  return sign != 0 ? sign : lm_dot3_at(p, q, r, s);
}
static __attribute__((noinline)) int lm_coplanar_xy(const int64_t *x, const int64_t *v) {
  int64_t y[3], w[9];
  const int odd = lr_in_order(3, 3, x, v, y, w);
  if (lb0_coplanar_xy(w) != 0) __builtin_unreachable();
  const int sign = la_coplanar_xy(y, w);
  return odd ? -sign : sign;
}
int ln_coplanar_xy(const int64_t *x, const int64_t *v) {
  const int sign = lb0_coplanar_xy(v);
  return sign != 0 ? sign : lm_coplanar_xy(x, v);
}
int ln_coplanar_xy_plain(const int64_t *v) { return lb0_coplanar_xy(v); }
void ln_coplanar_xy_rows(size_t n, const int64_t *x, const int64_t *v, int8_t *signs) {
  for (size_t i = 0; i < n; i++) signs[i] = (int8_t)ln_coplanar_xy(x + 3 * i, v + 9 * i);
}
static __attribute__((noinline)) int lm_coplanar_xy_at(const ln_point3 *p, const ln_point3 *q, const ln_point3 *r) {
  const int64_t x[] = {p->index, q->index, r->index};
  const int64_t v[] = {p->x, p->y, p->z, q->x, q->y, q->z, r->x, r->y, r->z};
  return lm_coplanar_xy(x, v);
}
__attribute__((flatten)) int ln_coplanar_xy_plain_at(const ln_point3 *p, const ln_point3 *q, const ln_point3 *r) {
  const int64_t v[] = {p->x, p->y, p->z, q->x, q->y, q->z, r->x, r->y, r->z};
  return lb0_coplanar_xy(v);
}
__attribute__((flatten)) int ln_coplanar_xy_at(const ln_point3 *p, const ln_point3 *q, const ln_point3 *r) {
  const int64_t v[] = {p->x, p->y, p->z, q->x, q->y, q->z, r->x, r->y, r->z};
  const int sign = lb0_coplanar_xy(v);
  return sign != 0 ? sign : lm_coplanar_xy_at(p, q, r);
}
static __attribute__((noinline)) int lm_coplanar_yz(const int64_t *x, const int64_t *v) {
  int64_t y[3], w[9];
  const int odd = lr_in_order(3, 3, x, v, y, w);
  if (lb0_coplanar_yz(w) != 0) __builtin_unreachable();
  const int sign = la_coplanar_yz(y, w);
  return odd ? -sign : sign;
}
int ln_coplanar_yz(const int64_t *x, const int64_t *v) {
  const int sign = lb0_coplanar_yz(v);
  return sign != 0 ? sign : lm_coplanar_yz(x, v);
}
int ln_coplanar_yz_plain(const int64_t *v) { return lb0_coplanar_yz(v); }
void ln_coplanar_yz_rows(size_t n, const int64_t *x, const int64_t *v, int8_t *signs) {
  for (size_t i = 0; i < n; i++) signs[i] = (int8_t)ln_coplanar_yz(x + 3 * i, v + 9 * i);
}
static __attribute__((noinline)) int lm_coplanar_yz_at(const ln_point3 *p, const ln_point3 *q, const ln_point3 *r) {
  const int64_t x[] = {p->index, q->index, r->index};
  const int64_t v[] = {p->x, p->y, p->z, q->x, q->y, q->z, r->x, r->y, r->z};
  return lm_coplanar_yz(x, v);
}
__attribute__((flatten)) int ln_coplanar_yz_plain_at(const ln_point3 *p, const ln_point3 *q, const ln_point3 *r) {
  const int64_t v[] = {p->x, p->y, p->z, q->x, q->y, q->z, r->x, r->y, r->z};
  return lb0_coplanar_yz(v);
}
__attribute__((flatten)) int ln_coplanar_yz_at(const ln_point3 *p, const ln_point3 *q, const ln_point3 *r) {
  const int64_t v[] = {p->x, p->y, p->z, q->x, q->y, q->z, r->x, r->y, r->z};
  const int sign = lb0_coplanar_yz(v);
  return sign != 0 ? sign : lm_coplanar_yz_at(p, q, r);
}
static __attribute__((noinline)) int lm_coplanar_zx(const int64_t *x, const int64_t *v) {
  int64_t y[3], w[9];
  const int odd = lr_in_order(3, 3, x, v, y, w);
  if (lb0_coplanar_zx(w) != 0) __builtin_unreachable();
  const int sign = la_coplanar_zx(y, w);
  return odd ? -sign : sign;
}
int ln_coplanar_zx(const int64_t *x, const int64_t *v) {
  const int sign = lb0_coplanar_zx(v);
  return sign != 0 ? sign : lm_coplanar_zx(x, v);
}
int ln_coplanar_zx_plain(const int64_t *v) { return lb0_coplanar_zx(v); }
void ln_coplanar_zx_rows(size_t n, const int64_t *x, const int64_t *v, int8_t *signs) {
  for (size_t i = 0; i < n; i++) signs[i] = (int8_t)ln_coplanar_zx(x + 3 * i, v + 9 * i);
}
static __attribute__((noinline)) int lm_coplanar_zx_at(const ln_point3 *p, const ln_point3 *q, const ln_point3 *r) {
  const int64_t x[] = {p->index, q->index, r->index};
  const int64_t v[] = {p->x, p->y, p->z, q->x, q->y, q->z, r->x, r->y, r->z};
  return lm_coplanar_zx(x, v);
}
__attribute__((flatten)) int ln_coplanar_zx_plain_at(const ln_point3 *p, const ln_point3 *q, const ln_point3 *r) {
  const int64_t v[] = {p->x, p->y, p->z, q->x, q->y, q->z, r->x, r->y, r->z};
  return lb0_coplanar_zx(v);
}
__attribute__((flatten)) int ln_coplanar_zx_at(const ln_point3 *p, const ln_point3 *q, const ln_point3 *r) {
  const int64_t v[] = {p->x, p->y, p->z, q->x, q->y, q->z, r->x, r->y, r->z};
  const int sign = lb0_coplanar_zx(v);
  return sign != 0 ? sign : lm_coplanar_zx_at(p, q, r);
}
#ifdef __cplusplus
#pragma GCC diagnostic pop
#endif
#endif

#ifdef LNC_SPACE_CHECKED
#define ln_orient3 lc_orient3
#define ln_orient3_plain lc_orient3_plain
#define ln_orient3_rows lc_orient3_rows
#define ln_orient3_at lc_orient3_at
#define ln_orient3_plain_at lc_orient3_plain_at
#define ln_insphere lc_insphere
#define ln_insphere_plain lc_insphere_plain
#define ln_insphere_rows lc_insphere_rows
#define ln_insphere_at lc_insphere_at
#define ln_insphere_plain_at lc_insphere_plain_at
#define ln_diametral3 lc_diametral3
#define ln_diametral3_plain lc_diametral3_plain
#define ln_diametral3_rows lc_diametral3_rows
#define ln_diametral3_at lc_diametral3_at
#define ln_diametral3_plain_at lc_diametral3_plain_at
#define ln_compare_x3 lc_compare_x3
#define ln_compare_x3_plain lc_compare_x3_plain
#define ln_compare_x3_rows lc_compare_x3_rows
#define ln_compare_x3_at lc_compare_x3_at
#define ln_compare_x3_plain_at lc_compare_x3_plain_at
#define ln_compare_y3 lc_compare_y3
#define ln_compare_y3_plain lc_compare_y3_plain
#define ln_compare_y3_rows lc_compare_y3_rows
#define ln_compare_y3_at lc_compare_y3_at
#define ln_compare_y3_plain_at lc_compare_y3_plain_at
#define ln_compare_z3 lc_compare_z3
#define ln_compare_z3_plain lc_compare_z3_plain
#define ln_compare_z3_rows lc_compare_z3_rows
#define ln_compare_z3_at lc_compare_z3_at
#define ln_compare_z3_plain_at lc_compare_z3_plain_at
#define ln_lexicographic3 lc_lexicographic3
#define ln_lexicographic3_plain lc_lexicographic3_plain
#define ln_lexicographic3_rows lc_lexicographic3_rows
#define ln_lexicographic3_at lc_lexicographic3_at
#define ln_lexicographic3_plain_at lc_lexicographic3_plain_at
#define ln_compare_distance3 lc_compare_distance3
#define ln_compare_distance3_plain lc_compare_distance3_plain
#define ln_compare_distance3_rows lc_compare_distance3_rows
#define ln_compare_distance3_at lc_compare_distance3_at
#define ln_compare_distance3_plain_at lc_compare_distance3_plain_at
#define ln_dot3 lc_dot3
#define ln_dot3_plain lc_dot3_plain
#define ln_dot3_rows lc_dot3_rows
#define ln_dot3_at lc_dot3_at
#define ln_dot3_plain_at lc_dot3_plain_at
#define ln_coplanar_xy lc_coplanar_xy
#define ln_coplanar_xy_plain lc_coplanar_xy_plain
#define ln_coplanar_xy_rows lc_coplanar_xy_rows
#define ln_coplanar_xy_at lc_coplanar_xy_at
#define ln_coplanar_xy_plain_at lc_coplanar_xy_plain_at
#define ln_coplanar_yz lc_coplanar_yz
#define ln_coplanar_yz_plain lc_coplanar_yz_plain
#define ln_coplanar_yz_rows lc_coplanar_yz_rows
#define ln_coplanar_yz_at lc_coplanar_yz_at
#define ln_coplanar_yz_plain_at lc_coplanar_yz_plain_at
#define ln_coplanar_zx lc_coplanar_zx
#define ln_coplanar_zx_plain lc_coplanar_zx_plain
#define ln_coplanar_zx_rows lc_coplanar_zx_rows
#define ln_coplanar_zx_at lc_coplanar_zx_at
#define ln_coplanar_zx_plain_at lc_coplanar_zx_plain_at
#endif
