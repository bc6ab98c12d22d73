/* lnc_plane.h: written by header.py, so change plane.ln and not this file.
   plane.ln has the SHA-256 582ead2d411993a970aabbcb310329108c9a663e073935424f64ca1f3f27ffa5,
   and plane.c, which lnc_exact turning writes of it, the SHA-256 9d1cb8f0895fbf173ec539399637da54759ee38e56b45bbfa0d22ea70a12464f.

   Two files are enough, this one and plane.c. In one C file of your program, compiled by gcc or clang for a 64-bit target:

       #define LNC_PLANE_IMPLEMENTATION
       #include "lnc_plane.h"

   and in all others, C or C++, the second line alone. For each predicate NAME there are

   ln_NAME_at(&p, ..)           1 or -1, the sign at the moved points; with params it may be 0. The indices of the sites have to differ and are from 0 to
                                2^63 - 1, the values are each in its range. Nothing is checked (but see below). In C++ lnc::NAME(p, ..)
   ln_NAME_plain_at(&p, ..)     1, 0 or -1, the sign at the points themselves, 0 where they are degenerate. In C++ lnc::NAME_plain(p, ..)
   ln_NAME(x, v)                the same of arrays: x has the indices of the sites, v the values, in the order of the comments below; ln_NAME_plain(v)
   ln_NAME_rows(n, x, v, signs) ln_NAME of n rows, each after the other in x and in v, into signs

   and for each type of points SITE, with a member for the index and one for each coordinate, in the order in which the type declares them,

   ln_SITE_in_range(&p)         whether index and coordinates are in range; in C++ lnc::in_range(p). Test each point once, where it is made

   With `#define LNC_CHECKED` before the header is included, all these calls test what they are given. At the first value out of range, negative index or
   index twice they call ln_on_refusal, a pointer that you may set, with the names of predicate and argument; else they print these and abort

   Of orient2, incircle, compare_x2, compare_y2, lexicographic2
   plane.c has the sign in one order of the sites, la_NAME or ls_NAME, which is proved for rows whose indices rise. ln_NAME puts each row into this order
   (lr_in_order below), by lines that are tested and that no proof reaches */
#ifndef LNC_PLANE_H
#define LNC_PLANE_H
#include <stddef.h>
#include <stdint.h>

#if defined(LNC_CHECKED) && !defined(LNC_HAS_REFUSAL)
#define LNC_HAS_REFUSAL
#include <stdio.h>
#include <stdlib.h>
#ifdef __cplusplus
extern "C" {
#endif
/* told of the first fault of a call: the predicate, the argument ("p" for its index, "p.x"), what is wrong with it, and of ln_NAME_rows the row,
   from 0, otherwise SIZE_MAX. Where it returns, the call returns 0, or writes 0 for the row. Without another it prints this and aborts */
typedef void ln_refusal(const char *predicate, const char *argument, const char *fault, size_t row);
static inline void lr_aborts(const char *predicate, const char *argument, const char *fault, size_t row) {
  if (row == SIZE_MAX) fprintf(stderr, "lnc: %s: %s %s\n", predicate, argument, fault);
  else fprintf(stderr, "lnc: %s, row %zu: %s %s\n", predicate, row, argument, fault);
  abort();
}
__attribute__((weak)) ln_refusal *ln_on_refusal = lr_aborts;
static inline int lr_is(int right, const char *predicate, const char *argument, const char *fault, size_t row) {
  if (!right) ln_on_refusal(predicate, argument, fault, row);
  return right;
}
#ifdef __cplusplus
}
#endif
#endif

#ifdef __cplusplus
extern "C" {
#endif

#define LN_POINT2_X_MIN INT64_C(-536870912)
#define LN_POINT2_X_MAX INT64_C(536870912)
#define LN_POINT2_Y_MIN INT64_C(-536870912)
#define LN_POINT2_Y_MAX INT64_C(536870912)
typedef struct ln_point2 { int64_t index, x, y; } ln_point2;
static inline int ln_point2_in_range(const ln_point2 *p) {
  return 0 <= p->index &&
    LN_POINT2_X_MIN <= p->x && p->x <= LN_POINT2_X_MAX &&
    LN_POINT2_Y_MIN <= p->y && p->y <= LN_POINT2_Y_MAX;
}

/* + where p, q, r turn left (counterclockwise): the sign of CGAL's orientation and of Shewchuk's orient2d. */
/* x: p, q, r
   v: p.x, p.y, q.x, q.y, r.x, r.y */
int ln_orient2(const int64_t *x, const int64_t *v);
int ln_orient2_plain(const int64_t *v);
void ln_orient2_rows(size_t n, const int64_t *x, const int64_t *v, int8_t *signs);
int ln_orient2_at(const ln_point2 *p, const ln_point2 *q, const ln_point2 *r);
int ln_orient2_plain_at(const ln_point2 *p, const ln_point2 *q, const ln_point2 *r);

/* + where d is inside the circle of a, b, c and these turn left, - where they turn right: the sign of CGAL's
   side_of_oriented_circle and of Shewchuk's incircle. */
/* x: a, b, c, d
   v: a.x, a.y, b.x, b.y, c.x, c.y, d.x, d.y */
int ln_incircle(const int64_t *x, const int64_t *v);
int ln_incircle_plain(const int64_t *v);
void ln_incircle_rows(size_t n, const int64_t *x, const int64_t *v, int8_t *signs);
int ln_incircle_at(const ln_point2 *a, const ln_point2 *b, const ln_point2 *c, const ln_point2 *d);
int ln_incircle_plain_at(const ln_point2 *a, const ln_point2 *b, const ln_point2 *c, const ln_point2 *d);

/* + where r is inside the circle whose diameter is from p to q (the angle at r is obtuse): the sign of CGAL's
   side_of_bounded_circle(p, q, r). */
/* x: p, q, r
   v: p.x, p.y, q.x, q.y, r.x, r.y */
int ln_diametral2(const int64_t *x, const int64_t *v);
int ln_diametral2_plain(const int64_t *v);
void ln_diametral2_rows(size_t n, const int64_t *x, const int64_t *v, int8_t *signs);
int ln_diametral2_at(const ln_point2 *p, const ln_point2 *q, const ln_point2 *r);
int ln_diametral2_plain_at(const ln_point2 *p, const ln_point2 *q, const ln_point2 *r);

/* + where p is beyond q along an axis: the sign of CGAL's compare_x and compare_y. */
/* x: p, q
   v: p.x, p.y, q.x, q.y */
int ln_compare_x2(const int64_t *x, const int64_t *v);
int ln_compare_x2_plain(const int64_t *v);
void ln_compare_x2_rows(size_t n, const int64_t *x, const int64_t *v, int8_t *signs);
int ln_compare_x2_at(const ln_point2 *p, const ln_point2 *q);
int ln_compare_x2_plain_at(const ln_point2 *p, const ln_point2 *q);

/* x: p, q
   v: p.x, p.y, q.x, q.y */
int ln_compare_y2(const int64_t *x, const int64_t *v);
int ln_compare_y2_plain(const int64_t *v);
void ln_compare_y2_rows(size_t n, const int64_t *x, const int64_t *v, int8_t *signs);
int ln_compare_y2_at(const ln_point2 *p, const ln_point2 *q);
int ln_compare_y2_plain_at(const ln_point2 *p, const ln_point2 *q);

/* + where p is after q by x, and by y where x is equal: the sign of CGAL's compare_xy. At the moved points it is
   their order along the direction (2^30 + 1, 1), so a sweep by it is one over the same moved points. */
/* x: p, q
   v: p.x, p.y, q.x, q.y */
int ln_lexicographic2(const int64_t *x, const int64_t *v);
int ln_lexicographic2_plain(const int64_t *v);
void ln_lexicographic2_rows(size_t n, const int64_t *x, const int64_t *v, int8_t *signs);
int ln_lexicographic2_at(const ln_point2 *p, const ln_point2 *q);
int ln_lexicographic2_plain_at(const ln_point2 *p, const ln_point2 *q);

/* + where q is farther from p than r is: the sign of CGAL's compare_distance_2; PCK's side1(r, q, p) plainly. */
/* x: p, q, r
   v: p.x, p.y, q.x, q.y, r.x, r.y */
int ln_compare_distance2(const int64_t *x, const int64_t *v);
int ln_compare_distance2_plain(const int64_t *v);
void ln_compare_distance2_rows(size_t n, const int64_t *x, const int64_t *v, int8_t *signs);
int ln_compare_distance2_at(const ln_point2 *p, const ln_point2 *q, const ln_point2 *r);
int ln_compare_distance2_plain_at(const ln_point2 *p, const ln_point2 *q, const ln_point2 *r);

/* + where the directions from p to q and from r to s have an acute angle: the sign of CGAL's angle(p, q, r, s),
   and with r = p of PCK's dot. */
/* x: p, q, r, s
   v: p.x, p.y, q.x, q.y, r.x, r.y, s.x, s.y */
int ln_dot2(const int64_t *x, const int64_t *v);
int ln_dot2_plain(const int64_t *v);
void ln_dot2_rows(size_t n, const int64_t *x, const int64_t *v, int8_t *signs);
int ln_dot2_at(const ln_point2 *p, const ln_point2 *q, const ln_point2 *r, const ln_point2 *s);
int ln_dot2_plain_at(const ln_point2 *p, const ln_point2 *q, const ln_point2 *r, const ln_point2 *s);

/* + where r is farther than s to the left of the line from p to q: the sign of CGAL's
   compare_signed_distance_to_line. */
/* x: p, q, r, s
   v: p.x, p.y, q.x, q.y, r.x, r.y, s.x, s.y */
int ln_compare_line2(const int64_t *x, const int64_t *v);
int ln_compare_line2_plain(const int64_t *v);
void ln_compare_line2_rows(size_t n, const int64_t *x, const int64_t *v, int8_t *signs);
int ln_compare_line2_at(const ln_point2 *p, const ln_point2 *q, const ln_point2 *r, const ln_point2 *s);
int ln_compare_line2_plain_at(const ln_point2 *p, const ln_point2 *q, const ln_point2 *r, const ln_point2 *s);

#ifdef LNC_CHECKED
#define LNC_PLANE_CHECKED
static inline int lv_orient2(const int64_t *v, size_t row) {
  return lr_is(LN_POINT2_X_MIN <= v[0] && v[0] <= LN_POINT2_X_MAX, "orient2", "p.x", "is out of range", row) &&
    lr_is(LN_POINT2_Y_MIN <= v[1] && v[1] <= LN_POINT2_Y_MAX, "orient2", "p.y", "is out of range", row) &&
    lr_is(LN_POINT2_X_MIN <= v[2] && v[2] <= LN_POINT2_X_MAX, "orient2", "q.x", "is out of range", row) &&
    lr_is(LN_POINT2_Y_MIN <= v[3] && v[3] <= LN_POINT2_Y_MAX, "orient2", "q.y", "is out of range", row) &&
    lr_is(LN_POINT2_X_MIN <= v[4] && v[4] <= LN_POINT2_X_MAX, "orient2", "r.x", "is out of range", row) &&
    lr_is(LN_POINT2_Y_MIN <= v[5] && v[5] <= LN_POINT2_Y_MAX, "orient2", "r.y", "is out of range", row);
}
static inline int li_orient2(const int64_t *x, size_t row) {
  return lr_is(0 <= x[0], "orient2", "p", "has a negative index", row) &&
    lr_is(0 <= x[1], "orient2", "q", "has a negative index", row) &&
    lr_is(0 <= x[2], "orient2", "r", "has a negative index", row) &&
    lr_is(x[0] != x[1], "orient2", "q", "has the index of p too", row) &&
    lr_is(x[0] != x[2], "orient2", "r", "has the index of p too", row) &&
    lr_is(x[1] != x[2], "orient2", "r", "has the index of q too", row);
}
static inline int lc_orient2(const int64_t *x, const int64_t *v) { return lv_orient2(v, SIZE_MAX) && li_orient2(x, SIZE_MAX) ? ln_orient2(x, v) : 0; }
static inline int lc_orient2_plain(const int64_t *v) { return lv_orient2(v, SIZE_MAX) ? ln_orient2_plain(v) : 0; }
static inline void lc_orient2_rows(size_t n, const int64_t *x, const int64_t *v, int8_t *signs) {
  for (size_t i = 0; i < n; i++) {
    signs[i] = 0;
    if (lv_orient2(v + 6 * i, i) && li_orient2(x + 3 * i, i)) ln_orient2_rows(1, x + 3 * i, v + 6 * i, signs + i);
  }
}
static inline int lc_orient2_at(const ln_point2 *p, const ln_point2 *q, const ln_point2 *r) {
  const int64_t x[] = {p->index, q->index, r->index};
  const int64_t v[] = {p->x, p->y, q->x, q->y, r->x, r->y};
  return lv_orient2(v, SIZE_MAX) && li_orient2(x, SIZE_MAX) ? ln_orient2_at(p, q, r) : 0;
}
static inline int lc_orient2_plain_at(const ln_point2 *p, const ln_point2 *q, const ln_point2 *r) {
  const int64_t v[] = {p->x, p->y, q->x, q->y, r->x, r->y};
  return lv_orient2(v, SIZE_MAX) ? ln_orient2_plain_at(p, q, r) : 0;
}
static inline int lv_incircle(const int64_t *v, size_t row) {
  return lr_is(LN_POINT2_X_MIN <= v[0] && v[0] <= LN_POINT2_X_MAX, "incircle", "a.x", "is out of range", row) &&
    lr_is(LN_POINT2_Y_MIN <= v[1] && v[1] <= LN_POINT2_Y_MAX, "incircle", "a.y", "is out of range", row) &&
    lr_is(LN_POINT2_X_MIN <= v[2] && v[2] <= LN_POINT2_X_MAX, "incircle", "b.x", "is out of range", row) &&
    lr_is(LN_POINT2_Y_MIN <= v[3] && v[3] <= LN_POINT2_Y_MAX, "incircle", "b.y", "is out of range", row) &&
    lr_is(LN_POINT2_X_MIN <= v[4] && v[4] <= LN_POINT2_X_MAX, "incircle", "c.x", "is out of range", row) &&
    lr_is(LN_POINT2_Y_MIN <= v[5] && v[5] <= LN_POINT2_Y_MAX, "incircle", "c.y", "is out of range", row) &&
    lr_is(LN_POINT2_X_MIN <= v[6] && v[6] <= LN_POINT2_X_MAX, "incircle", "d.x", "is out of range", row) &&
    lr_is(LN_POINT2_Y_MIN <= v[7] && v[7] <= LN_POINT2_Y_MAX, "incircle", "d.y", "is out of range", row);
}
static inline int li_incircle(const int64_t *x, size_t row) {
  return lr_is(0 <= x[0], "incircle", "a", "has a negative index", row) &&
    lr_is(0 <= x[1], "incircle", "b", "has a negative index", row) &&
    lr_is(0 <= x[2], "incircle", "c", "has a negative index", row) &&
    lr_is(0 <= x[3], "incircle", "d", "has a negative index", row) &&
    lr_is(x[0] != x[1], "incircle", "b", "has the index of a too", row) &&
    lr_is(x[0] != x[2], "incircle", "c", "has the index of a too", row) &&
    lr_is(x[1] != x[2], "incircle", "c", "has the index of b too", row) &&
    lr_is(x[0] != x[3], "incircle", "d", "has the index of a too", row) &&
    lr_is(x[1] != x[3], "incircle", "d", "has the index of b too", row) &&
    lr_is(x[2] != x[3], "incircle", "d", "has the index of c too", row);
}
static inline int lc_incircle(const int64_t *x, const int64_t *v) { return lv_incircle(v, SIZE_MAX) && li_incircle(x, SIZE_MAX) ? ln_incircle(x, v) : 0; }
static inline int lc_incircle_plain(const int64_t *v) { return lv_incircle(v, SIZE_MAX) ? ln_incircle_plain(v) : 0; }
static inline void lc_incircle_rows(size_t n, const int64_t *x, const int64_t *v, int8_t *signs) {
  for (size_t i = 0; i < n; i++) {
    signs[i] = 0;
    if (lv_incircle(v + 8 * i, i) && li_incircle(x + 4 * i, i)) ln_incircle_rows(1, x + 4 * i, v + 8 * i, signs + i);
  }
}
static inline int lc_incircle_at(const ln_point2 *a, const ln_point2 *b, const ln_point2 *c, const ln_point2 *d) {
  const int64_t x[] = {a->index, b->index, c->index, d->index};
  const int64_t v[] = {a->x, a->y, b->x, b->y, c->x, c->y, d->x, d->y};
  return lv_incircle(v, SIZE_MAX) && li_incircle(x, SIZE_MAX) ? ln_incircle_at(a, b, c, d) : 0;
}
static inline int lc_incircle_plain_at(const ln_point2 *a, const ln_point2 *b, const ln_point2 *c, const ln_point2 *d) {
  const int64_t v[] = {a->x, a->y, b->x, b->y, c->x, c->y, d->x, d->y};
  return lv_incircle(v, SIZE_MAX) ? ln_incircle_plain_at(a, b, c, d) : 0;
}
static inline int lv_diametral2(const int64_t *v, size_t row) {
  return lr_is(LN_POINT2_X_MIN <= v[0] && v[0] <= LN_POINT2_X_MAX, "diametral2", "p.x", "is out of range", row) &&
    lr_is(LN_POINT2_Y_MIN <= v[1] && v[1] <= LN_POINT2_Y_MAX, "diametral2", "p.y", "is out of range", row) &&
    lr_is(LN_POINT2_X_MIN <= v[2] && v[2] <= LN_POINT2_X_MAX, "diametral2", "q.x", "is out of range", row) &&
    lr_is(LN_POINT2_Y_MIN <= v[3] && v[3] <= LN_POINT2_Y_MAX, "diametral2", "q.y", "is out of range", row) &&
    lr_is(LN_POINT2_X_MIN <= v[4] && v[4] <= LN_POINT2_X_MAX, "diametral2", "r.x", "is out of range", row) &&
    lr_is(LN_POINT2_Y_MIN <= v[5] && v[5] <= LN_POINT2_Y_MAX, "diametral2", "r.y", "is out of range", row);
}
static inline int li_diametral2(const int64_t *x, size_t row) {
  return lr_is(0 <= x[0], "diametral2", "p", "has a negative index", row) &&
    lr_is(0 <= x[1], "diametral2", "q", "has a negative index", row) &&
    lr_is(0 <= x[2], "diametral2", "r", "has a negative index", row) &&
    lr_is(x[0] != x[1], "diametral2", "q", "has the index of p too", row) &&
    lr_is(x[0] != x[2], "diametral2", "r", "has the index of p too", row) &&
    lr_is(x[1] != x[2], "diametral2", "r", "has the index of q too", row);
}
static inline int lc_diametral2(const int64_t *x, const int64_t *v) { return lv_diametral2(v, SIZE_MAX) && li_diametral2(x, SIZE_MAX) ? ln_diametral2(x, v) : 0; }
static inline int lc_diametral2_plain(const int64_t *v) { return lv_diametral2(v, SIZE_MAX) ? ln_diametral2_plain(v) : 0; }
static inline void lc_diametral2_rows(size_t n, const int64_t *x, const int64_t *v, int8_t *signs) {
  for (size_t i = 0; i < n; i++) {
    signs[i] = 0;
    if (lv_diametral2(v + 6 * i, i) && li_diametral2(x + 3 * i, i)) ln_diametral2_rows(1, x + 3 * i, v + 6 * i, signs + i);
  }
}
static inline int lc_diametral2_at(const ln_point2 *p, const ln_point2 *q, const ln_point2 *r) {
  const int64_t x[] = {p->index, q->index, r->index};
  const int64_t v[] = {p->x, p->y, q->x, q->y, r->x, r->y};
  return lv_diametral2(v, SIZE_MAX) && li_diametral2(x, SIZE_MAX) ? ln_diametral2_at(p, q, r) : 0;
}
static inline int lc_diametral2_plain_at(const ln_point2 *p, const ln_point2 *q, const ln_point2 *r) {
  const int64_t v[] = {p->x, p->y, q->x, q->y, r->x, r->y};
  return lv_diametral2(v, SIZE_MAX) ? ln_diametral2_plain_at(p, q, r) : 0;
}
static inline int lv_compare_x2(const int64_t *v, size_t row) {
  return lr_is(LN_POINT2_X_MIN <= v[0] && v[0] <= LN_POINT2_X_MAX, "compare_x2", "p.x", "is out of range", row) &&
    lr_is(LN_POINT2_Y_MIN <= v[1] && v[1] <= LN_POINT2_Y_MAX, "compare_x2", "p.y", "is out of range", row) &&
    lr_is(LN_POINT2_X_MIN <= v[2] && v[2] <= LN_POINT2_X_MAX, "compare_x2", "q.x", "is out of range", row) &&
    lr_is(LN_POINT2_Y_MIN <= v[3] && v[3] <= LN_POINT2_Y_MAX, "compare_x2", "q.y", "is out of range", row);
}
static inline int li_compare_x2(const int64_t *x, size_t row) {
  return lr_is(0 <= x[0], "compare_x2", "p", "has a negative index", row) &&
    lr_is(0 <= x[1], "compare_x2", "q", "has a negative index", row) &&
    lr_is(x[0] != x[1], "compare_x2", "q", "has the index of p too", row);
}
static inline int lc_compare_x2(const int64_t *x, const int64_t *v) { return lv_compare_x2(v, SIZE_MAX) && li_compare_x2(x, SIZE_MAX) ? ln_compare_x2(x, v) : 0; }
static inline int lc_compare_x2_plain(const int64_t *v) { return lv_compare_x2(v, SIZE_MAX) ? ln_compare_x2_plain(v) : 0; }
static inline void lc_compare_x2_rows(size_t n, const int64_t *x, const int64_t *v, int8_t *signs) {
  for (size_t i = 0; i < n; i++) {
    signs[i] = 0;
    if (lv_compare_x2(v + 4 * i, i) && li_compare_x2(x + 2 * i, i)) ln_compare_x2_rows(1, x + 2 * i, v + 4 * i, signs + i);
  }
}
static inline int lc_compare_x2_at(const ln_point2 *p, const ln_point2 *q) {
  const int64_t x[] = {p->index, q->index};
  const int64_t v[] = {p->x, p->y, q->x, q->y};
  return lv_compare_x2(v, SIZE_MAX) && li_compare_x2(x, SIZE_MAX) ? ln_compare_x2_at(p, q) : 0;
}
static inline int lc_compare_x2_plain_at(const ln_point2 *p, const ln_point2 *q) {
  const int64_t v[] = {p->x, p->y, q->x, q->y};
  return lv_compare_x2(v, SIZE_MAX) ? ln_compare_x2_plain_at(p, q) : 0;
}
static inline int lv_compare_y2(const int64_t *v, size_t row) {
  return lr_is(LN_POINT2_X_MIN <= v[0] && v[0] <= LN_POINT2_X_MAX, "compare_y2", "p.x", "is out of range", row) &&
    lr_is(LN_POINT2_Y_MIN <= v[1] && v[1] <= LN_POINT2_Y_MAX, "compare_y2", "p.y", "is out of range", row) &&
    lr_is(LN_POINT2_X_MIN <= v[2] && v[2] <= LN_POINT2_X_MAX, "compare_y2", "q.x", "is out of range", row) &&
    lr_is(LN_POINT2_Y_MIN <= v[3] && v[3] <= LN_POINT2_Y_MAX, "compare_y2", "q.y", "is out of range", row);
}
static inline int li_compare_y2(const int64_t *x, size_t row) {
  return lr_is(0 <= x[0], "compare_y2", "p", "has a negative index", row) &&
    lr_is(0 <= x[1], "compare_y2", "q", "has a negative index", row) &&
    lr_is(x[0] != x[1], "compare_y2", "q", "has the index of p too", row);
}
static inline int lc_compare_y2(const int64_t *x, const int64_t *v) { return lv_compare_y2(v, SIZE_MAX) && li_compare_y2(x, SIZE_MAX) ? ln_compare_y2(x, v) : 0; }
static inline int lc_compare_y2_plain(const int64_t *v) { return lv_compare_y2(v, SIZE_MAX) ? ln_compare_y2_plain(v) : 0; }
static inline void lc_compare_y2_rows(size_t n, const int64_t *x, const int64_t *v, int8_t *signs) {
  for (size_t i = 0; i < n; i++) {
    signs[i] = 0;
    if (lv_compare_y2(v + 4 * i, i) && li_compare_y2(x + 2 * i, i)) ln_compare_y2_rows(1, x + 2 * i, v + 4 * i, signs + i);
  }
}
static inline int lc_compare_y2_at(const ln_point2 *p, const ln_point2 *q) {
  const int64_t x[] = {p->index, q->index};
  const int64_t v[] = {p->x, p->y, q->x, q->y};
  return lv_compare_y2(v, SIZE_MAX) && li_compare_y2(x, SIZE_MAX) ? ln_compare_y2_at(p, q) : 0;
}
static inline int lc_compare_y2_plain_at(const ln_point2 *p, const ln_point2 *q) {
  const int64_t v[] = {p->x, p->y, q->x, q->y};
  return lv_compare_y2(v, SIZE_MAX) ? ln_compare_y2_plain_at(p, q) : 0;
}
static inline int lv_lexicographic2(const int64_t *v, size_t row) {
  return lr_is(LN_POINT2_X_MIN <= v[0] && v[0] <= LN_POINT2_X_MAX, "lexicographic2", "p.x", "is out of range", row) &&
    lr_is(LN_POINT2_Y_MIN <= v[1] && v[1] <= LN_POINT2_Y_MAX, "lexicographic2", "p.y", "is out of range", row) &&
    lr_is(LN_POINT2_X_MIN <= v[2] && v[2] <= LN_POINT2_X_MAX, "lexicographic2", "q.x", "is out of range", row) &&
    lr_is(LN_POINT2_Y_MIN <= v[3] && v[3] <= LN_POINT2_Y_MAX, "lexicographic2", "q.y", "is out of range", row);
}
static inline int li_lexicographic2(const int64_t *x, size_t row) {
  return lr_is(0 <= x[0], "lexicographic2", "p", "has a negative index", row) &&
    lr_is(0 <= x[1], "lexicographic2", "q", "has a negative index", row) &&
    lr_is(x[0] != x[1], "lexicographic2", "q", "has the index of p too", row);
}
static inline int lc_lexicographic2(const int64_t *x, const int64_t *v) { return lv_lexicographic2(v, SIZE_MAX) && li_lexicographic2(x, SIZE_MAX) ? ln_lexicographic2(x, v) : 0; }
static inline int lc_lexicographic2_plain(const int64_t *v) { return lv_lexicographic2(v, SIZE_MAX) ? ln_lexicographic2_plain(v) : 0; }
static inline void lc_lexicographic2_rows(size_t n, const int64_t *x, const int64_t *v, int8_t *signs) {
  for (size_t i = 0; i < n; i++) {
    signs[i] = 0;
    if (lv_lexicographic2(v + 4 * i, i) && li_lexicographic2(x + 2 * i, i)) ln_lexicographic2_rows(1, x + 2 * i, v + 4 * i, signs + i);
  }
}
static inline int lc_lexicographic2_at(const ln_point2 *p, const ln_point2 *q) {
  const int64_t x[] = {p->index, q->index};
  const int64_t v[] = {p->x, p->y, q->x, q->y};
  return lv_lexicographic2(v, SIZE_MAX) && li_lexicographic2(x, SIZE_MAX) ? ln_lexicographic2_at(p, q) : 0;
}
static inline int lc_lexicographic2_plain_at(const ln_point2 *p, const ln_point2 *q) {
  const int64_t v[] = {p->x, p->y, q->x, q->y};
  return lv_lexicographic2(v, SIZE_MAX) ? ln_lexicographic2_plain_at(p, q) : 0;
}
static inline int lv_compare_distance2(const int64_t *v, size_t row) {
  return lr_is(LN_POINT2_X_MIN <= v[0] && v[0] <= LN_POINT2_X_MAX, "compare_distance2", "p.x", "is out of range", row) &&
    lr_is(LN_POINT2_Y_MIN <= v[1] && v[1] <= LN_POINT2_Y_MAX, "compare_distance2", "p.y", "is out of range", row) &&
    lr_is(LN_POINT2_X_MIN <= v[2] && v[2] <= LN_POINT2_X_MAX, "compare_distance2", "q.x", "is out of range", row) &&
    lr_is(LN_POINT2_Y_MIN <= v[3] && v[3] <= LN_POINT2_Y_MAX, "compare_distance2", "q.y", "is out of range", row) &&
    lr_is(LN_POINT2_X_MIN <= v[4] && v[4] <= LN_POINT2_X_MAX, "compare_distance2", "r.x", "is out of range", row) &&
    lr_is(LN_POINT2_Y_MIN <= v[5] && v[5] <= LN_POINT2_Y_MAX, "compare_distance2", "r.y", "is out of range", row);
}
static inline int li_compare_distance2(const int64_t *x, size_t row) {
  return lr_is(0 <= x[0], "compare_distance2", "p", "has a negative index", row) &&
    lr_is(0 <= x[1], "compare_distance2", "q", "has a negative index", row) &&
    lr_is(0 <= x[2], "compare_distance2", "r", "has a negative index", row) &&
    lr_is(x[0] != x[1], "compare_distance2", "q", "has the index of p too", row) &&
    lr_is(x[0] != x[2], "compare_distance2", "r", "has the index of p too", row) &&
    lr_is(x[1] != x[2], "compare_distance2", "r", "has the index of q too", row);
}
static inline int lc_compare_distance2(const int64_t *x, const int64_t *v) { return lv_compare_distance2(v, SIZE_MAX) && li_compare_distance2(x, SIZE_MAX) ? ln_compare_distance2(x, v) : 0; }
static inline int lc_compare_distance2_plain(const int64_t *v) { return lv_compare_distance2(v, SIZE_MAX) ? ln_compare_distance2_plain(v) : 0; }
static inline void lc_compare_distance2_rows(size_t n, const int64_t *x, const int64_t *v, int8_t *signs) {
  for (size_t i = 0; i < n; i++) {
    signs[i] = 0;
    if (lv_compare_distance2(v + 6 * i, i) && li_compare_distance2(x + 3 * i, i)) ln_compare_distance2_rows(1, x + 3 * i, v + 6 * i, signs + i);
  }
}
static inline int lc_compare_distance2_at(const ln_point2 *p, const ln_point2 *q, const ln_point2 *r) {
  const int64_t x[] = {p->index, q->index, r->index};
  const int64_t v[] = {p->x, p->y, q->x, q->y, r->x, r->y};
  return lv_compare_distance2(v, SIZE_MAX) && li_compare_distance2(x, SIZE_MAX) ? ln_compare_distance2_at(p, q, r) : 0;
}
static inline int lc_compare_distance2_plain_at(const ln_point2 *p, const ln_point2 *q, const ln_point2 *r) {
  const int64_t v[] = {p->x, p->y, q->x, q->y, r->x, r->y};
  return lv_compare_distance2(v, SIZE_MAX) ? ln_compare_distance2_plain_at(p, q, r) : 0;
}
static inline int lv_dot2(const int64_t *v, size_t row) {
  return lr_is(LN_POINT2_X_MIN <= v[0] && v[0] <= LN_POINT2_X_MAX, "dot2", "p.x", "is out of range", row) &&
    lr_is(LN_POINT2_Y_MIN <= v[1] && v[1] <= LN_POINT2_Y_MAX, "dot2", "p.y", "is out of range", row) &&
    lr_is(LN_POINT2_X_MIN <= v[2] && v[2] <= LN_POINT2_X_MAX, "dot2", "q.x", "is out of range", row) &&
    lr_is(LN_POINT2_Y_MIN <= v[3] && v[3] <= LN_POINT2_Y_MAX, "dot2", "q.y", "is out of range", row) &&
    lr_is(LN_POINT2_X_MIN <= v[4] && v[4] <= LN_POINT2_X_MAX, "dot2", "r.x", "is out of range", row) &&
    lr_is(LN_POINT2_Y_MIN <= v[5] && v[5] <= LN_POINT2_Y_MAX, "dot2", "r.y", "is out of range", row) &&
    lr_is(LN_POINT2_X_MIN <= v[6] && v[6] <= LN_POINT2_X_MAX, "dot2", "s.x", "is out of range", row) &&
    lr_is(LN_POINT2_Y_MIN <= v[7] && v[7] <= LN_POINT2_Y_MAX, "dot2", "s.y", "is out of range", row);
}
static inline int li_dot2(const int64_t *x, size_t row) {
  return lr_is(0 <= x[0], "dot2", "p", "has a negative index", row) &&
    lr_is(0 <= x[1], "dot2", "q", "has a negative index", row) &&
    lr_is(0 <= x[2], "dot2", "r", "has a negative index", row) &&
    lr_is(0 <= x[3], "dot2", "s", "has a negative index", row) &&
    lr_is(x[0] != x[1], "dot2", "q", "has the index of p too", row) &&
    lr_is(x[0] != x[2], "dot2", "r", "has the index of p too", row) &&
    lr_is(x[1] != x[2], "dot2", "r", "has the index of q too", row) &&
    lr_is(x[0] != x[3], "dot2", "s", "has the index of p too", row) &&
    lr_is(x[1] != x[3], "dot2", "s", "has the index of q too", row) &&
    lr_is(x[2] != x[3], "dot2", "s", "has the index of r too", row);
}
static inline int lc_dot2(const int64_t *x, const int64_t *v) { return lv_dot2(v, SIZE_MAX) && li_dot2(x, SIZE_MAX) ? ln_dot2(x, v) : 0; }
static inline int lc_dot2_plain(const int64_t *v) { return lv_dot2(v, SIZE_MAX) ? ln_dot2_plain(v) : 0; }
static inline void lc_dot2_rows(size_t n, const int64_t *x, const int64_t *v, int8_t *signs) {
  for (size_t i = 0; i < n; i++) {
    signs[i] = 0;
    if (lv_dot2(v + 8 * i, i) && li_dot2(x + 4 * i, i)) ln_dot2_rows(1, x + 4 * i, v + 8 * i, signs + i);
  }
}
static inline int lc_dot2_at(const ln_point2 *p, const ln_point2 *q, const ln_point2 *r, const ln_point2 *s) {
  const int64_t x[] = {p->index, q->index, r->index, s->index};
  const int64_t v[] = {p->x, p->y, q->x, q->y, r->x, r->y, s->x, s->y};
  return lv_dot2(v, SIZE_MAX) && li_dot2(x, SIZE_MAX) ? ln_dot2_at(p, q, r, s) : 0;
}
static inline int lc_dot2_plain_at(const ln_point2 *p, const ln_point2 *q, const ln_point2 *r, const ln_point2 *s) {
  const int64_t v[] = {p->x, p->y, q->x, q->y, r->x, r->y, s->x, s->y};
  return lv_dot2(v, SIZE_MAX) ? ln_dot2_plain_at(p, q, r, s) : 0;
}
static inline int lv_compare_line2(const int64_t *v, size_t row) {
  return lr_is(LN_POINT2_X_MIN <= v[0] && v[0] <= LN_POINT2_X_MAX, "compare_line2", "p.x", "is out of range", row) &&
    lr_is(LN_POINT2_Y_MIN <= v[1] && v[1] <= LN_POINT2_Y_MAX, "compare_line2", "p.y", "is out of range", row) &&
    lr_is(LN_POINT2_X_MIN <= v[2] && v[2] <= LN_POINT2_X_MAX, "compare_line2", "q.x", "is out of range", row) &&
    lr_is(LN_POINT2_Y_MIN <= v[3] && v[3] <= LN_POINT2_Y_MAX, "compare_line2", "q.y", "is out of range", row) &&
    lr_is(LN_POINT2_X_MIN <= v[4] && v[4] <= LN_POINT2_X_MAX, "compare_line2", "r.x", "is out of range", row) &&
    lr_is(LN_POINT2_Y_MIN <= v[5] && v[5] <= LN_POINT2_Y_MAX, "compare_line2", "r.y", "is out of range", row) &&
    lr_is(LN_POINT2_X_MIN <= v[6] && v[6] <= LN_POINT2_X_MAX, "compare_line2", "s.x", "is out of range", row) &&
    lr_is(LN_POINT2_Y_MIN <= v[7] && v[7] <= LN_POINT2_Y_MAX, "compare_line2", "s.y", "is out of range", row);
}
static inline int li_compare_line2(const int64_t *x, size_t row) {
  return lr_is(0 <= x[0], "compare_line2", "p", "has a negative index", row) &&
    lr_is(0 <= x[1], "compare_line2", "q", "has a negative index", row) &&
    lr_is(0 <= x[2], "compare_line2", "r", "has a negative index", row) &&
    lr_is(0 <= x[3], "compare_line2", "s", "has a negative index", row) &&
    lr_is(x[0] != x[1], "compare_line2", "q", "has the index of p too", row) &&
    lr_is(x[0] != x[2], "compare_line2", "r", "has the index of p too", row) &&
    lr_is(x[1] != x[2], "compare_line2", "r", "has the index of q too", row) &&
    lr_is(x[0] != x[3], "compare_line2", "s", "has the index of p too", row) &&
    lr_is(x[1] != x[3], "compare_line2", "s", "has the index of q too", row) &&
    lr_is(x[2] != x[3], "compare_line2", "s", "has the index of r too", row);
}
static inline int lc_compare_line2(const int64_t *x, const int64_t *v) { return lv_compare_line2(v, SIZE_MAX) && li_compare_line2(x, SIZE_MAX) ? ln_compare_line2(x, v) : 0; }
static inline int lc_compare_line2_plain(const int64_t *v) { return lv_compare_line2(v, SIZE_MAX) ? ln_compare_line2_plain(v) : 0; }
static inline void lc_compare_line2_rows(size_t n, const int64_t *x, const int64_t *v, int8_t *signs) {
  for (size_t i = 0; i < n; i++) {
    signs[i] = 0;
    if (lv_compare_line2(v + 8 * i, i) && li_compare_line2(x + 4 * i, i)) ln_compare_line2_rows(1, x + 4 * i, v + 8 * i, signs + i);
  }
}
static inline int lc_compare_line2_at(const ln_point2 *p, const ln_point2 *q, const ln_point2 *r, const ln_point2 *s) {
  const int64_t x[] = {p->index, q->index, r->index, s->index};
  const int64_t v[] = {p->x, p->y, q->x, q->y, r->x, r->y, s->x, s->y};
  return lv_compare_line2(v, SIZE_MAX) && li_compare_line2(x, SIZE_MAX) ? ln_compare_line2_at(p, q, r, s) : 0;
}
static inline int lc_compare_line2_plain_at(const ln_point2 *p, const ln_point2 *q, const ln_point2 *r, const ln_point2 *s) {
  const int64_t v[] = {p->x, p->y, q->x, q->y, r->x, r->y, s->x, s->y};
  return lv_compare_line2(v, SIZE_MAX) ? ln_compare_line2_plain_at(p, q, r, s) : 0;
}
#endif

#ifdef __cplusplus
}

#include <cstdint>
#ifdef LNC_CHECKED
#define LNC_CALL(name) ::lc_##name
#else
#define LNC_CALL(name) ::ln_##name
#endif
namespace lnc {
typedef ::ln_point2 point2;
inline bool in_range(const point2 &p) { return ::ln_point2_in_range(&p) != 0; }
#ifdef LNC_CHECKED
inline namespace checked {
#endif
inline int orient2(const point2 &p, const point2 &q, const point2 &r) {
  return LNC_CALL(orient2_at)(&p, &q, &r);
}
inline int orient2_plain(const point2 &p, const point2 &q, const point2 &r) {
  return LNC_CALL(orient2_plain_at)(&p, &q, &r);
}
inline int incircle(const point2 &a, const point2 &b, const point2 &c, const point2 &d) {
  return LNC_CALL(incircle_at)(&a, &b, &c, &d);
}
inline int incircle_plain(const point2 &a, const point2 &b, const point2 &c, const point2 &d) {
  return LNC_CALL(incircle_plain_at)(&a, &b, &c, &d);
}
inline int diametral2(const point2 &p, const point2 &q, const point2 &r) {
  return LNC_CALL(diametral2_at)(&p, &q, &r);
}
inline int diametral2_plain(const point2 &p, const point2 &q, const point2 &r) {
  return LNC_CALL(diametral2_plain_at)(&p, &q, &r);
}
inline int compare_x2(const point2 &p, const point2 &q) {
  return LNC_CALL(compare_x2_at)(&p, &q);
}
inline int compare_x2_plain(const point2 &p, const point2 &q) {
  return LNC_CALL(compare_x2_plain_at)(&p, &q);
}
inline int compare_y2(const point2 &p, const point2 &q) {
  return LNC_CALL(compare_y2_at)(&p, &q);
}
inline int compare_y2_plain(const point2 &p, const point2 &q) {
  return LNC_CALL(compare_y2_plain_at)(&p, &q);
}
inline int lexicographic2(const point2 &p, const point2 &q) {
  return LNC_CALL(lexicographic2_at)(&p, &q);
}
inline int lexicographic2_plain(const point2 &p, const point2 &q) {
  return LNC_CALL(lexicographic2_plain_at)(&p, &q);
}
inline int compare_distance2(const point2 &p, const point2 &q, const point2 &r) {
  return LNC_CALL(compare_distance2_at)(&p, &q, &r);
}
inline int compare_distance2_plain(const point2 &p, const point2 &q, const point2 &r) {
  return LNC_CALL(compare_distance2_plain_at)(&p, &q, &r);
}
inline int dot2(const point2 &p, const point2 &q, const point2 &r, const point2 &s) {
  return LNC_CALL(dot2_at)(&p, &q, &r, &s);
}
inline int dot2_plain(const point2 &p, const point2 &q, const point2 &r, const point2 &s) {
  return LNC_CALL(dot2_plain_at)(&p, &q, &r, &s);
}
inline int compare_line2(const point2 &p, const point2 &q, const point2 &r, const point2 &s) {
  return LNC_CALL(compare_line2_at)(&p, &q, &r, &s);
}
inline int compare_line2_plain(const point2 &p, const point2 &q, const point2 &r, const point2 &s) {
  return LNC_CALL(compare_line2_plain_at)(&p, &q, &r, &s);
}
#ifdef LNC_CHECKED
}
#endif
}
#undef LNC_CALL
#endif
#endif

#if defined(LNC_PLANE_IMPLEMENTATION) && !defined(LNC_PLANE_IMPLEMENTED)
#define LNC_PLANE_IMPLEMENTED
#undef ln_orient2
#undef ln_orient2_plain
#undef ln_orient2_rows
#undef ln_orient2_at
#undef ln_orient2_plain_at
#undef ln_incircle
#undef ln_incircle_plain
#undef ln_incircle_rows
#undef ln_incircle_at
#undef ln_incircle_plain_at
#undef ln_diametral2
#undef ln_diametral2_plain
#undef ln_diametral2_rows
#undef ln_diametral2_at
#undef ln_diametral2_plain_at
#undef ln_compare_x2
#undef ln_compare_x2_plain
#undef ln_compare_x2_rows
#undef ln_compare_x2_at
#undef ln_compare_x2_plain_at
#undef ln_compare_y2
#undef ln_compare_y2_plain
#undef ln_compare_y2_rows
#undef ln_compare_y2_at
#undef ln_compare_y2_plain_at
#undef ln_lexicographic2
#undef ln_lexicographic2_plain
#undef ln_lexicographic2_rows
#undef ln_lexicographic2_at
#undef ln_lexicographic2_plain_at
#undef ln_compare_distance2
#undef ln_compare_distance2_plain
#undef ln_compare_distance2_rows
#undef ln_compare_distance2_at
#undef ln_compare_distance2_plain_at
#undef ln_dot2
#undef ln_dot2_plain
#undef ln_dot2_rows
#undef ln_dot2_at
#undef ln_dot2_plain_at
#undef ln_compare_line2
#undef ln_compare_line2_plain
#undef ln_compare_line2_rows
#undef ln_compare_line2_at
#undef ln_compare_line2_plain_at
#ifndef __SIZEOF_INT128__
#error "no __int128 here: plane.c takes gcc or clang for a 64-bit target"
#endif
#ifdef __cplusplus
#pragma GCC diagnostic push
#pragma GCC diagnostic ignored "-Wold-style-cast"
#endif
static inline __attribute__((always_inline)) int la_orient2(const int64_t *x, const int64_t *v);
static inline __attribute__((always_inline)) int la_incircle(const int64_t *x, const int64_t *v);
static inline __attribute__((always_inline)) int la_compare_x2(const int64_t *x, const int64_t *v);
static inline __attribute__((always_inline)) int la_compare_y2(const int64_t *x, const int64_t *v);
static inline __attribute__((always_inline)) int la_lexicographic2(const int64_t *x, const int64_t *v);
#include "plane.c"
#ifndef LNC_HAS_ORDER
#define LNC_HAS_ORDER
#if defined(__clang__) || __GNUC__ < 8
#define LNC_UNROLLED
#else
#define LNC_UNROLLED _Pragma("GCC unroll 8")
#endif
/* Writes the indices as they rise to y, and of each site as many values alike to w. Returns whether an odd number of pairs of sites was the other way round.
   Two of one index stay as they are. (Without branches, since nothing foretells an order. There are at most 5 sites) */
static inline __attribute__((always_inline)) int lr_in_order(int sites, int many, const int64_t *x, const int64_t *v, int64_t *y, int64_t *w) {
  int turned = 0, rank[] = {0, 1, 2, 3, 4};
  LNC_UNROLLED
  for (int j = 1; j < sites; j++) {
    LNC_UNROLLED
    for (int k = 0; k < j; k++) {
      const int is_turned = x[k] > x[j];
      rank[k] += is_turned;
      rank[j] -= is_turned;
      turned += is_turned;
    }
  }
  LNC_UNROLLED
  for (int j = 0; j < sites; j++) {
    y[rank[j]] = x[j];
    LNC_UNROLLED
    for (int c = 0; c < many; c++) w[many * rank[j] + c] = v[many * j + c];
  }
  return turned % 2;
}
#undef LNC_UNROLLED
#endif
static __attribute__((noinline)) int lm_orient2(const int64_t *x, const int64_t *v) {
  int64_t y[3], w[6];
  const int odd = lr_in_order(3, 2, x, v, y, w);
  if (lb0_orient2(w) != 0) __builtin_unreachable();
  const int sign = la_orient2(y, w);
  return odd ? -sign : sign;
}
int ln_orient2(const int64_t *x, const int64_t *v) {
  const int sign = lb0_orient2(v);
  return sign != 0 ? sign : lm_orient2(x, v);
}
int ln_orient2_plain(const int64_t *v) { return lb0_orient2(v); }
void ln_orient2_rows(size_t n, const int64_t *x, const int64_t *v, int8_t *signs) {
  for (size_t i = 0; i < n; i++) signs[i] = (int8_t)ln_orient2(x + 3 * i, v + 6 * i);
}
static __attribute__((noinline)) int lm_orient2_at(const ln_point2 *p, const ln_point2 *q, const ln_point2 *r) {
  const int64_t x[] = {p->index, q->index, r->index};
  const int64_t v[] = {p->x, p->y, q->x, q->y, r->x, r->y};
  return lm_orient2(x, v);
}
__attribute__((flatten)) int ln_orient2_plain_at(const ln_point2 *p, const ln_point2 *q, const ln_point2 *r) {
  const int64_t v[] = {p->x, p->y, q->x, q->y, r->x, r->y};
  return lb0_orient2(v);
}
__attribute__((flatten)) int ln_orient2_at(const ln_point2 *p, const ln_point2 *q, const ln_point2 *r) {
  const int64_t v[] = {p->x, p->y, q->x, q->y, r->x, r->y};
  const int sign = lb0_orient2(v);
  return sign != 0 ? sign : lm_orient2_at(p, q, r);
}
static __attribute__((noinline)) int lm_incircle(const int64_t *x, const int64_t *v) {
  int64_t y[4], w[8];
  const int odd = lr_in_order(4, 2, x, v, y, w);
  if (lb0_incircle(w) != 0) __builtin_unreachable();
  const int sign = la_incircle(y, w);
  return odd ? -sign : sign;
}
int ln_incircle(const int64_t *x, const int64_t *v) {
  const int sign = lb0_incircle(v);
  return sign != 0 ? sign : lm_incircle(x, v);
}
int ln_incircle_plain(const int64_t *v) { return lb0_incircle(v); }
void ln_incircle_rows(size_t n, const int64_t *x, const int64_t *v, int8_t *signs) {
  for (size_t i = 0; i < n; i++) signs[i] = (int8_t)ln_incircle(x + 4 * i, v + 8 * i);
}
static __attribute__((noinline)) int lm_incircle_at(const ln_point2 *a, const ln_point2 *b, const ln_point2 *c, const ln_point2 *d) {
  const int64_t x[] = {a->index, b->index, c->index, d->index};
  const int64_t v[] = {a->x, a->y, b->x, b->y, c->x, c->y, d->x, d->y};
  return lm_incircle(x, v);
}
__attribute__((flatten)) int ln_incircle_plain_at(const ln_point2 *a, const ln_point2 *b, const ln_point2 *c, const ln_point2 *d) {
  const int64_t v[] = {a->x, a->y, b->x, b->y, c->x, c->y, d->x, d->y};
  return lb0_incircle(v);
}
__attribute__((flatten)) int ln_incircle_at(const ln_point2 *a, const ln_point2 *b, const ln_point2 *c, const ln_point2 *d) {
  const int64_t v[] = {a->x, a->y, b->x, b->y, c->x, c->y, d->x, d->y};
  const int sign = lb0_incircle(v);
  return sign != 0 ? sign : lm_incircle_at(a, b, c, d);
}
int ln_diametral2_plain(const int64_t *v) { return lb0_diametral2(v); }
void ln_diametral2_rows(size_t n, const int64_t *x, const int64_t *v, int8_t *signs) {
  for (size_t i = 0; i < n; i++) signs[i] = (int8_t)ln_diametral2(x + 3 * i, v + 6 * i);
}
static __attribute__((noinline)) int lm_diametral2_at(const ln_point2 *p, const ln_point2 *q, const ln_point2 *r) {
  const int64_t x[] = {p->index, q->index, r->index};
  const int64_t v[] = {p->x, p->y, q->x, q->y, r->x, r->y};
  return ln_diametral2(x, v);
}
__attribute__((flatten)) int ln_diametral2_plain_at(const ln_point2 *p, const ln_point2 *q, const ln_point2 *r) {
  const int64_t v[] = {p->x, p->y, q->x, q->y, r->x, r->y};
  return lb0_diametral2(v);
}
__attribute__((flatten)) int ln_diametral2_at(const ln_point2 *p, const ln_point2 *q, const ln_point2 *r) {
  const int64_t v[] = {p->x, p->y, q->x, q->y, r->x, r->y};
  const int sign = lb0_diametral2(v);
  return sign != 0 ? sign : lm_diametral2_at(p, q, r);
}
static __attribute__((noinline)) int lm_compare_x2(const int64_t *x, const int64_t *v) {
  int64_t y[2], w[4];
  const int odd = lr_in_order(2, 2, x, v, y, w);
  if (lb0_compare_x2(w) != 0) __builtin_unreachable();
  const int sign = la_compare_x2(y, w);
  return odd ? -sign : sign;
}
int ln_compare_x2(const int64_t *x, const int64_t *v) {
  const int sign = lb0_compare_x2(v);
  return sign != 0 ? sign : lm_compare_x2(x, v);
}
int ln_compare_x2_plain(const int64_t *v) { return lb0_compare_x2(v); }
void ln_compare_x2_rows(size_t n, const int64_t *x, const int64_t *v, int8_t *signs) {
  for (size_t i = 0; i < n; i++) signs[i] = (int8_t)ln_compare_x2(x + 2 * i, v + 4 * i);
}
static __attribute__((noinline)) int lm_compare_x2_at(const ln_point2 *p, const ln_point2 *q) {
  const int64_t x[] = {p->index, q->index};
  const int64_t v[] = {p->x, p->y, q->x, q->y};
  return lm_compare_x2(x, v);
}
__attribute__((flatten)) int ln_compare_x2_plain_at(const ln_point2 *p, const ln_point2 *q) {
  const int64_t v[] = {p->x, p->y, q->x, q->y};
  return lb0_compare_x2(v);
}
__attribute__((flatten)) int ln_compare_x2_at(const ln_point2 *p, const ln_point2 *q) {
  const int64_t v[] = {p->x, p->y, q->x, q->y};
  const int sign = lb0_compare_x2(v);
  return sign != 0 ? sign : lm_compare_x2_at(p, q);
}
static __attribute__((noinline)) int lm_compare_y2(const int64_t *x, const int64_t *v) {
  int64_t y[2], w[4];
  const int odd = lr_in_order(2, 2, x, v, y, w);
  if (lb0_compare_y2(w) != 0) __builtin_unreachable();
  const int sign = la_compare_y2(y, w);
  return odd ? -sign : sign;
}
int ln_compare_y2(const int64_t *x, const int64_t *v) {
  const int sign = lb0_compare_y2(v);
  return sign != 0 ? sign : lm_compare_y2(x, v);
}
int ln_compare_y2_plain(const int64_t *v) { return lb0_compare_y2(v); }
void ln_compare_y2_rows(size_t n, const int64_t *x, const int64_t *v, int8_t *signs) {
  for (size_t i = 0; i < n; i++) signs[i] = (int8_t)ln_compare_y2(x + 2 * i, v + 4 * i);
}
static __attribute__((noinline)) int lm_compare_y2_at(const ln_point2 *p, const ln_point2 *q) {
  const int64_t x[] = {p->index, q->index};
  const int64_t v[] = {p->x, p->y, q->x, q->y};
  return lm_compare_y2(x, v);
}
__attribute__((flatten)) int ln_compare_y2_plain_at(const ln_point2 *p, const ln_point2 *q) {
  const int64_t v[] = {p->x, p->y, q->x, q->y};
  return lb0_compare_y2(v);
}
__attribute__((flatten)) int ln_compare_y2_at(const ln_point2 *p, const ln_point2 *q) {
  const int64_t v[] = {p->x, p->y, q->x, q->y};
  const int sign = lb0_compare_y2(v);
  return sign != 0 ? sign : lm_compare_y2_at(p, q);
}
static __attribute__((noinline)) int lm_lexicographic2(const int64_t *x, const int64_t *v) {
  int64_t y[2], w[4];
  const int odd = lr_in_order(2, 2, x, v, y, w);
  if (lb0_lexicographic2(w) != 0) __builtin_unreachable();
  const int sign = la_lexicographic2(y, w);
  return odd ? -sign : sign;
}
int ln_lexicographic2(const int64_t *x, const int64_t *v) {
  const int sign = lb0_lexicographic2(v);
  return sign != 0 ? sign : lm_lexicographic2(x, v);
}
int ln_lexicographic2_plain(const int64_t *v) { return lb0_lexicographic2(v); }
void ln_lexicographic2_rows(size_t n, const int64_t *x, const int64_t *v, int8_t *signs) {
  for (size_t i = 0; i < n; i++) signs[i] = (int8_t)ln_lexicographic2(x + 2 * i, v + 4 * i);
}
static __attribute__((noinline)) int lm_lexicographic2_at(const ln_point2 *p, const ln_point2 *q) {
  const int64_t x[] = {p->index, q->index};
  const int64_t v[] = {p->x, p->y, q->x, q->y};
  return lm_lexicographic2(x, v);
}
__attribute__((flatten)) int ln_lexicographic2_plain_at(const ln_point2 *p, const ln_point2 *q) {
  const int64_t v[] = {p->x, p->y, q->x, q->y};
  return lb0_lexicographic2(v);
}
__attribute__((flatten)) int ln_lexicographic2_at(const ln_point2 *p, const ln_point2 *q) {
  const int64_t v[] = {p->x, p->y, q->x, q->y};
  const int sign = lb0_lexicographic2(v);
  return sign != 0 ? sign : lm_lexicographic2_at(p, q);
}
int ln_compare_distance2_plain(const int64_t *v) { return lb0_compare_distance2(v); }
void ln_compare_distance2_rows(size_t n, const int64_t *x, const int64_t *v, int8_t *signs) {
  for (size_t i = 0; i < n; i++) signs[i] = (int8_t)ln_compare_distance2(x + 3 * i, v + 6 * i);
}
static __attribute__((noinline)) int lm_compare_distance2_at(const ln_point2 *p, const ln_point2 *q, const ln_point2 *r) {
  const int64_t x[] = {p->index, q->index, r->index};
  const int64_t v[] = {p->x, p->y, q->x, q->y, r->x, r->y};
  return ln_compare_distance2(x, v);
}
__attribute__((flatten)) int ln_compare_distance2_plain_at(const ln_point2 *p, const ln_point2 *q, const ln_point2 *r) {
  const int64_t v[] = {p->x, p->y, q->x, q->y, r->x, r->y};
  return lb0_compare_distance2(v);
}
__attribute__((flatten)) int ln_compare_distance2_at(const ln_point2 *p, const ln_point2 *q, const ln_point2 *r) {
  const int64_t v[] = {p->x, p->y, q->x, q->y, r->x, r->y};
  const int sign = lb0_compare_distance2(v);
  return sign != 0 ? sign : lm_compare_distance2_at(p, q, r);
}
int ln_dot2_plain(const int64_t *v) { return lb0_dot2(v); }
void ln_dot2_rows(size_t n, const int64_t *x, const int64_t *v, int8_t *signs) {
  for (size_t i = 0; i < n; i++) signs[i] = (int8_t)ln_dot2(x + 4 * i, v + 8 * i);
}
static __attribute__((noinline)) int lm_dot2_at(const ln_point2 *p, const ln_point2 *q, const ln_point2 *r, const ln_point2 *s) {
  const int64_t x[] = {p->index, q->index, r->index, s->index};
  const int64_t v[] = {p->x, p->y, q->x, q->y, r->x, r->y, s->x, s->y};
  return ln_dot2(x, v);
}
__attribute__((flatten)) int ln_dot2_plain_at(const ln_point2 *p, const ln_point2 *q, const ln_point2 *r, const ln_point2 *s) {
  const int64_t v[] = {p->x, p->y, q->x, q->y, r->x, r->y, s->x, s->y};
  return lb0_dot2(v);
}
__attribute__((flatten)) int ln_dot2_at(const ln_point2 *p, const ln_point2 *q, const ln_point2 *r, const ln_point2 *s) {
  const int64_t v[] = {p->x, p->y, q->x, q->y, r->x, r->y, s->x, s->y};
  const int sign = lb0_dot2(v);
  return sign != 0 ? sign : lm_dot2_at(p, q, r, s);
}
int ln_compare_line2_plain(const int64_t *v) { return lb0_compare_line2(v); }
void ln_compare_line2_rows(size_t n, const int64_t *x, const int64_t *v, int8_t *signs) {
  for (size_t i = 0; i < n; i++) signs[i] = (int8_t)ln_compare_line2(x + 4 * i, v + 8 * i);
}
static __attribute__((noinline)) int lm_compare_line2_at(const ln_point2 *p, const ln_point2 *q, const ln_point2 *r, const ln_point2 *s) {
  const int64_t x[] = {p->index, q->index, r->index, s->index};
  const int64_t v[] = {p->x, p->y, q->x, q->y, r->x, r->y, s->x, s->y};
  return ln_compare_line2(x, v);
}
__attribute__((flatten)) int ln_compare_line2_plain_at(const ln_point2 *p, const ln_point2 *q, const ln_point2 *r, const ln_point2 *s) {
  const int64_t v[] = {p->x, p->y, q->x, q->y, r->x, r->y, s->x, s->y};
  return lb0_compare_line2(v);
}
__attribute__((flatten)) int ln_compare_line2_at(const ln_point2 *p, const ln_point2 *q, const ln_point2 *r, const ln_point2 *s) {
  const int64_t v[] = {p->x, p->y, q->x, q->y, r->x, r->y, s->x, s->y};
  const int sign = lb0_compare_line2(v);
  return sign != 0 ? sign : lm_compare_line2_at(p, q, r, s);
}
#ifdef __cplusplus
#pragma GCC diagnostic pop
#endif
#endif

#ifdef LNC_PLANE_CHECKED
#define ln_orient2 lc_orient2
#define ln_orient2_plain lc_orient2_plain
#define ln_orient2_rows lc_orient2_rows
#define ln_orient2_at lc_orient2_at
#define ln_orient2_plain_at lc_orient2_plain_at
#define ln_incircle lc_incircle
#define ln_incircle_plain lc_incircle_plain
#define ln_incircle_rows lc_incircle_rows
#define ln_incircle_at lc_incircle_at
#define ln_incircle_plain_at lc_incircle_plain_at
#define ln_diametral2 lc_diametral2
#define ln_diametral2_plain lc_diametral2_plain
#define ln_diametral2_rows lc_diametral2_rows
#define ln_diametral2_at lc_diametral2_at
#define ln_diametral2_plain_at lc_diametral2_plain_at
#define ln_compare_x2 lc_compare_x2
#define ln_compare_x2_plain lc_compare_x2_plain
#define ln_compare_x2_rows lc_compare_x2_rows
#define ln_compare_x2_at lc_compare_x2_at
#define ln_compare_x2_plain_at lc_compare_x2_plain_at
#define ln_compare_y2 lc_compare_y2
#define ln_compare_y2_plain lc_compare_y2_plain
#define ln_compare_y2_rows lc_compare_y2_rows
#define ln_compare_y2_at lc_compare_y2_at
#define ln_compare_y2_plain_at lc_compare_y2_plain_at
#define ln_lexicographic2 lc_lexicographic2
#define ln_lexicographic2_plain lc_lexicographic2_plain
#define ln_lexicographic2_rows lc_lexicographic2_rows
#define ln_lexicographic2_at lc_lexicographic2_at
#define ln_lexicographic2_plain_at lc_lexicographic2_plain_at
#define ln_compare_distance2 lc_compare_distance2
#define ln_compare_distance2_plain lc_compare_distance2_plain
#define ln_compare_distance2_rows lc_compare_distance2_rows
#define ln_compare_distance2_at lc_compare_distance2_at
#define ln_compare_distance2_plain_at lc_compare_distance2_plain_at
#define ln_dot2 lc_dot2
#define ln_dot2_plain lc_dot2_plain
#define ln_dot2_rows lc_dot2_rows
#define ln_dot2_at lc_dot2_at
#define ln_dot2_plain_at lc_dot2_plain_at
#define ln_compare_line2 lc_compare_line2
#define ln_compare_line2_plain lc_compare_line2_plain
#define ln_compare_line2_rows lc_compare_line2_rows
#define ln_compare_line2_at lc_compare_line2_at
#define ln_compare_line2_plain_at lc_compare_line2_plain_at
#endif
