/* lnc_weighted_plane.h: written by header.py, so change weighted_plane.ln and not this file.
   weighted_plane.ln has the SHA-256 28aa6d5da8cbde82ddb4fe949d99981dd692f29db5c22ba6c864f72456258e2f,
   and weighted_plane.c, which lnc_exact turning writes of it, the SHA-256 9ebc2310814b77682b4212b5ca15ec7d207175472ddcd972e70938b840931b60.

   Two files are enough, this one and weighted_plane.c. In one C file of your program, compiled by gcc or clang for a 64-bit target:

       #define LNC_WEIGHTED_PLANE_IMPLEMENTATION
       #include "lnc_weighted_plane.h"

   and in all others, C or C++, the second line alone. For each predicate NAME there are

   ln_NAME_at(&p, ..)           1 or -1, the sign at the moved points; with params it may be 0. The indices of the sites have to differ and are from 0 to
                                2^63 - 1, the values are each in its range. Nothing is checked (but see below). In C++ lnc::NAME(p, ..)
   ln_NAME_plain_at(&p, ..)     1, 0 or -1, the sign at the points themselves, 0 where they are degenerate. In C++ lnc::NAME_plain(p, ..)
   ln_NAME(x, v)                the same of arrays: x has the indices of the sites, v the values, in the order of the comments below; ln_NAME_plain(v)
   ln_NAME_rows(n, x, v, signs) ln_NAME of n rows, each after the other in x and in v, into signs

   and for each type of points SITE, with a member for the index and one for each coordinate, in the order in which the type declares them,

   ln_SITE_in_range(&p)         whether index and coordinates are in range; in C++ lnc::in_range(p). Test each point once, where it is made

   With `#define LNC_CHECKED` before the header is included, all these calls test what they are given. At the first value out of range, negative index or
   index twice they call ln_on_refusal, a pointer that you may set, with the names of predicate and argument; else they print these and abort

   Of worient2, power2, wcompare_x2, wcompare_y2, wcompare_w2, wlexicographic2
   weighted_plane.c has the sign in one order of the sites, la_NAME or ls_NAME, which is proved for rows whose indices rise. ln_NAME puts each row into this order
   (lr_in_order below), by lines that are tested and that no proof reaches */
#ifndef LNC_WEIGHTED_PLANE_H
#define LNC_WEIGHTED_PLANE_H
#include <stddef.h>
#include <stdint.h>

#if defined(LNC_CHECKED) && !defined(LNC_HAS_REFUSAL)
#define LNC_HAS_REFUSAL
#include <stdio.h>
#include <stdlib.h>
#ifdef __cplusplus
extern "C" {
#endif
/* told of the first fault of a call: the predicate, the argument ("p" for its index, "p.x"), what is wrong with it, and of ln_NAME_rows the row,
   from 0, otherwise SIZE_MAX. Where it returns, the call returns 0, or writes 0 for the row. Without another it prints this and aborts */
typedef void ln_refusal(const char *predicate, const char *argument, const char *fault, size_t row);
static inline void lr_aborts(const char *predicate, const char *argument, const char *fault, size_t row) {
  if (row == SIZE_MAX) fprintf(stderr, "lnc: %s: %s %s\n", predicate, argument, fault);
  else fprintf(stderr, "lnc: %s, row %zu: %s %s\n", predicate, row, argument, fault);
  abort();
}
__attribute__((weak)) ln_refusal *ln_on_refusal = lr_aborts;
static inline int lr_is(int right, const char *predicate, const char *argument, const char *fault, size_t row) {
  if (!right) ln_on_refusal(predicate, argument, fault, row);
  return right;
}
#ifdef __cplusplus
}
#endif
#endif

#ifdef __cplusplus
extern "C" {
#endif

#define LN_WEIGHTED2_X_MIN INT64_C(-536870912)
#define LN_WEIGHTED2_X_MAX INT64_C(536870912)
#define LN_WEIGHTED2_Y_MIN INT64_C(-536870912)
#define LN_WEIGHTED2_Y_MAX INT64_C(536870912)
#define LN_WEIGHTED2_W_MIN INT64_C(0)
#define LN_WEIGHTED2_W_MAX INT64_C(288230376151711744)
typedef struct ln_weighted2 { int64_t index, x, y, w; } ln_weighted2;
static inline int ln_weighted2_in_range(const ln_weighted2 *p) {
  return 0 <= p->index &&
    LN_WEIGHTED2_X_MIN <= p->x && p->x <= LN_WEIGHTED2_X_MAX &&
    LN_WEIGHTED2_Y_MIN <= p->y && p->y <= LN_WEIGHTED2_Y_MAX &&
    LN_WEIGHTED2_W_MIN <= p->w && p->w <= LN_WEIGHTED2_W_MAX;
}

/* + where p, q, r turn left (counterclockwise): the sign of CGAL's orientation and of Shewchuk's orient2d. */
/* x: p, q, r
   v: p.x, p.y, p.w, q.x, q.y, q.w, r.x, r.y, r.w */
int ln_worient2(const int64_t *x, const int64_t *v);
int ln_worient2_plain(const int64_t *v);
void ln_worient2_rows(size_t n, const int64_t *x, const int64_t *v, int8_t *signs);
int ln_worient2_at(const ln_weighted2 *p, const ln_weighted2 *q, const ln_weighted2 *r);
int ln_worient2_plain_at(const ln_weighted2 *p, const ln_weighted2 *q, const ln_weighted2 *r);

/* + where d is in conflict with a, b, c and these turn left, - where they turn right: d's power to the circle
   orthogonal to theirs is negative. The sign of CGAL's power_side_of_oriented_power_circle; where each w is 0,
   that of incircle. */
/* x: a, b, c, d
   v: a.x, a.y, a.w, b.x, b.y, b.w, c.x, c.y, c.w, d.x, d.y, d.w */
int ln_power2(const int64_t *x, const int64_t *v);
int ln_power2_plain(const int64_t *v);
void ln_power2_rows(size_t n, const int64_t *x, const int64_t *v, int8_t *signs);
int ln_power2_at(const ln_weighted2 *a, const ln_weighted2 *b, const ln_weighted2 *c, const ln_weighted2 *d);
int ln_power2_plain_at(const ln_weighted2 *a, const ln_weighted2 *b, const ln_weighted2 *c, const ln_weighted2 *d);

/* + where r is inside the circle whose diameter is from p to q, whatever the weights. */
/* x: p, q, r
   v: p.x, p.y, p.w, q.x, q.y, q.w, r.x, r.y, r.w */
int ln_wdiametral2(const int64_t *x, const int64_t *v);
int ln_wdiametral2_plain(const int64_t *v);
void ln_wdiametral2_rows(size_t n, const int64_t *x, const int64_t *v, int8_t *signs);
int ln_wdiametral2_at(const ln_weighted2 *p, const ln_weighted2 *q, const ln_weighted2 *r);
int ln_wdiametral2_plain_at(const ln_weighted2 *p, const ln_weighted2 *q, const ln_weighted2 *r);

/* + where p is beyond q along an axis, or has the larger weight. */
/* x: p, q
   v: p.x, p.y, p.w, q.x, q.y, q.w */
int ln_wcompare_x2(const int64_t *x, const int64_t *v);
int ln_wcompare_x2_plain(const int64_t *v);
void ln_wcompare_x2_rows(size_t n, const int64_t *x, const int64_t *v, int8_t *signs);
int ln_wcompare_x2_at(const ln_weighted2 *p, const ln_weighted2 *q);
int ln_wcompare_x2_plain_at(const ln_weighted2 *p, const ln_weighted2 *q);

/* x: p, q
   v: p.x, p.y, p.w, q.x, q.y, q.w */
int ln_wcompare_y2(const int64_t *x, const int64_t *v);
int ln_wcompare_y2_plain(const int64_t *v);
void ln_wcompare_y2_rows(size_t n, const int64_t *x, const int64_t *v, int8_t *signs);
int ln_wcompare_y2_at(const ln_weighted2 *p, const ln_weighted2 *q);
int ln_wcompare_y2_plain_at(const ln_weighted2 *p, const ln_weighted2 *q);

/* x: p, q
   v: p.x, p.y, p.w, q.x, q.y, q.w */
int ln_wcompare_w2(const int64_t *x, const int64_t *v);
int ln_wcompare_w2_plain(const int64_t *v);
void ln_wcompare_w2_rows(size_t n, const int64_t *x, const int64_t *v, int8_t *signs);
int ln_wcompare_w2_at(const ln_weighted2 *p, const ln_weighted2 *q);
int ln_wcompare_w2_plain_at(const ln_weighted2 *p, const ln_weighted2 *q);

/* + where p is after q by x, and by y where x is equal (the order along the direction (2^30 + 1, 1)). */
/* x: p, q
   v: p.x, p.y, p.w, q.x, q.y, q.w */
int ln_wlexicographic2(const int64_t *x, const int64_t *v);
int ln_wlexicographic2_plain(const int64_t *v);
void ln_wlexicographic2_rows(size_t n, const int64_t *x, const int64_t *v, int8_t *signs);
int ln_wlexicographic2_at(const ln_weighted2 *p, const ln_weighted2 *q);
int ln_wlexicographic2_plain_at(const ln_weighted2 *p, const ln_weighted2 *q);

/* + where q is farther from p than r is: the sign of CGAL's compare_distance_2; PCK's side1(r, q, p) plainly. */
/* x: p, q, r
   v: p.x, p.y, p.w, q.x, q.y, q.w, r.x, r.y, r.w */
int ln_wcompare_distance2(const int64_t *x, const int64_t *v);
int ln_wcompare_distance2_plain(const int64_t *v);
void ln_wcompare_distance2_rows(size_t n, const int64_t *x, const int64_t *v, int8_t *signs);
int ln_wcompare_distance2_at(const ln_weighted2 *p, const ln_weighted2 *q, const ln_weighted2 *r);
int ln_wcompare_distance2_plain_at(const ln_weighted2 *p, const ln_weighted2 *q, const ln_weighted2 *r);

/* + where p's power to q's circle or sphere is larger than to that of r, whatever p's own weight: the sign of
   CGAL's compare_power_distance_2; PCK's power_side1(r, q, p) plainly. */
/* x: p, q, r
   v: p.x, p.y, p.w, q.x, q.y, q.w, r.x, r.y, r.w */
int ln_compare_power2(const int64_t *x, const int64_t *v);
int ln_compare_power2_plain(const int64_t *v);
void ln_compare_power2_rows(size_t n, const int64_t *x, const int64_t *v, int8_t *signs);
int ln_compare_power2_at(const ln_weighted2 *p, const ln_weighted2 *q, const ln_weighted2 *r);
int ln_compare_power2_plain_at(const ln_weighted2 *p, const ln_weighted2 *q, const ln_weighted2 *r);

/* + where the directions from p to q and from r to s have an acute angle: the sign of CGAL's angle(p, q, r, s),
   and with r = p of PCK's dot. */
/* x: p, q, r, s
   v: p.x, p.y, p.w, q.x, q.y, q.w, r.x, r.y, r.w, s.x, s.y, s.w */
int ln_wdot2(const int64_t *x, const int64_t *v);
int ln_wdot2_plain(const int64_t *v);
void ln_wdot2_rows(size_t n, const int64_t *x, const int64_t *v, int8_t *signs);
int ln_wdot2_at(const ln_weighted2 *p, const ln_weighted2 *q, const ln_weighted2 *r, const ln_weighted2 *s);
int ln_wdot2_plain_at(const ln_weighted2 *p, const ln_weighted2 *q, const ln_weighted2 *r, const ln_weighted2 *s);

/* + where r is farther than s to the left of the line from p to q: the sign of CGAL's
   compare_signed_distance_to_line. */
/* x: p, q, r, s
   v: p.x, p.y, p.w, q.x, q.y, q.w, r.x, r.y, r.w, s.x, s.y, s.w */
int ln_wcompare_line2(const int64_t *x, const int64_t *v);
int ln_wcompare_line2_plain(const int64_t *v);
void ln_wcompare_line2_rows(size_t n, const int64_t *x, const int64_t *v, int8_t *signs);
int ln_wcompare_line2_at(const ln_weighted2 *p, const ln_weighted2 *q, const ln_weighted2 *r, const ln_weighted2 *s);
int ln_wcompare_line2_plain_at(const ln_weighted2 *p, const ln_weighted2 *q, const ln_weighted2 *r, const ln_weighted2 *s);

#ifdef LNC_CHECKED
#define LNC_WEIGHTED_PLANE_CHECKED
static inline int lv_worient2(const int64_t *v, size_t row) {
  return lr_is(LN_WEIGHTED2_X_MIN <= v[0] && v[0] <= LN_WEIGHTED2_X_MAX, "worient2", "p.x", "is out of range", row) &&
    lr_is(LN_WEIGHTED2_Y_MIN <= v[1] && v[1] <= LN_WEIGHTED2_Y_MAX, "worient2", "p.y", "is out of range", row) &&
    lr_is(LN_WEIGHTED2_W_MIN <= v[2] && v[2] <= LN_WEIGHTED2_W_MAX, "worient2", "p.w", "is out of range", row) &&
    lr_is(LN_WEIGHTED2_X_MIN <= v[3] && v[3] <= LN_WEIGHTED2_X_MAX, "worient2", "q.x", "is out of range", row) &&
    lr_is(LN_WEIGHTED2_Y_MIN <= v[4] && v[4] <= LN_WEIGHTED2_Y_MAX, "worient2", "q.y", "is out of range", row) &&
    lr_is(LN_WEIGHTED2_W_MIN <= v[5] && v[5] <= LN_WEIGHTED2_W_MAX, "worient2", "q.w", "is out of range", row) &&
    lr_is(LN_WEIGHTED2_X_MIN <= v[6] && v[6] <= LN_WEIGHTED2_X_MAX, "worient2", "r.x", "is out of range", row) &&
    lr_is(LN_WEIGHTED2_Y_MIN <= v[7] && v[7] <= LN_WEIGHTED2_Y_MAX, "worient2", "r.y", "is out of range", row) &&
    lr_is(LN_WEIGHTED2_W_MIN <= v[8] && v[8] <= LN_WEIGHTED2_W_MAX, "worient2", "r.w", "is out of range", row);
}
static inline int li_worient2(const int64_t *x, size_t row) {
  return lr_is(0 <= x[0], "worient2", "p", "has a negative index", row) &&
    lr_is(0 <= x[1], "worient2", "q", "has a negative index", row) &&
    lr_is(0 <= x[2], "worient2", "r", "has a negative index", row) &&
    lr_is(x[0] != x[1], "worient2", "q", "has the index of p too", row) &&
    lr_is(x[0] != x[2], "worient2", "r", "has the index of p too", row) &&
    lr_is(x[1] != x[2], "worient2", "r", "has the index of q too", row);
}
static inline int lc_worient2(const int64_t *x, const int64_t *v) { return lv_worient2(v, SIZE_MAX) && li_worient2(x, SIZE_MAX) ? ln_worient2(x, v) : 0; }
static inline int lc_worient2_plain(const int64_t *v) { return lv_worient2(v, SIZE_MAX) ? ln_worient2_plain(v) : 0; }
static inline void lc_worient2_rows(size_t n, const int64_t *x, const int64_t *v, int8_t *signs) {
  for (size_t i = 0; i < n; i++) {
    signs[i] = 0;
    if (lv_worient2(v + 9 * i, i) && li_worient2(x + 3 * i, i)) ln_worient2_rows(1, x + 3 * i, v + 9 * i, signs + i);
  }
}
static inline int lc_worient2_at(const ln_weighted2 *p, const ln_weighted2 *q, const ln_weighted2 *r) {
  const int64_t x[] = {p->index, q->index, r->index};
  const int64_t v[] = {p->x, p->y, p->w, q->x, q->y, q->w, r->x, r->y, r->w};
  return lv_worient2(v, SIZE_MAX) && li_worient2(x, SIZE_MAX) ? ln_worient2_at(p, q, r) : 0;
}
static inline int lc_worient2_plain_at(const ln_weighted2 *p, const ln_weighted2 *q, const ln_weighted2 *r) {
  const int64_t v[] = {p->x, p->y, p->w, q->x, q->y, q->w, r->x, r->y, r->w};
  return lv_worient2(v, SIZE_MAX) ? ln_worient2_plain_at(p, q, r) : 0;
}
static inline int lv_power2(const int64_t *v, size_t row) {
  return lr_is(LN_WEIGHTED2_X_MIN <= v[0] && v[0] <= LN_WEIGHTED2_X_MAX, "power2", "a.x", "is out of range", row) &&
    lr_is(LN_WEIGHTED2_Y_MIN <= v[1] && v[1] <= LN_WEIGHTED2_Y_MAX, "power2", "a.y", "is out of range", row) &&
    lr_is(LN_WEIGHTED2_W_MIN <= v[2] && v[2] <= LN_WEIGHTED2_W_MAX, "power2", "a.w", "is out of range", row) &&
    lr_is(LN_WEIGHTED2_X_MIN <= v[3] && v[3] <= LN_WEIGHTED2_X_MAX, "power2", "b.x", "is out of range", row) &&
    lr_is(LN_WEIGHTED2_Y_MIN <= v[4] && v[4] <= LN_WEIGHTED2_Y_MAX, "power2", "b.y", "is out of range", row) &&
    lr_is(LN_WEIGHTED2_W_MIN <= v[5] && v[5] <= LN_WEIGHTED2_W_MAX, "power2", "b.w", "is out of range", row) &&
    lr_is(LN_WEIGHTED2_X_MIN <= v[6] && v[6] <= LN_WEIGHTED2_X_MAX, "power2", "c.x", "is out of range", row) &&
    lr_is(LN_WEIGHTED2_Y_MIN <= v[7] && v[7] <= LN_WEIGHTED2_Y_MAX, "power2", "c.y", "is out of range", row) &&
    lr_is(LN_WEIGHTED2_W_MIN <= v[8] && v[8] <= LN_WEIGHTED2_W_MAX, "power2", "c.w", "is out of range", row) &&
    lr_is(LN_WEIGHTED2_X_MIN <= v[9] && v[9] <= LN_WEIGHTED2_X_MAX, "power2", "d.x", "is out of range", row) &&
    lr_is(LN_WEIGHTED2_Y_MIN <= v[10] && v[10] <= LN_WEIGHTED2_Y_MAX, "power2", "d.y", "is out of range", row) &&
    lr_is(LN_WEIGHTED2_W_MIN <= v[11] && v[11] <= LN_WEIGHTED2_W_MAX, "power2", "d.w", "is out of range", row);
}
static inline int li_power2(const int64_t *x, size_t row) {
  return lr_is(0 <= x[0], "power2", "a", "has a negative index", row) &&
    lr_is(0 <= x[1], "power2", "b", "has a negative index", row) &&
    lr_is(0 <= x[2], "power2", "c", "has a negative index", row) &&
    lr_is(0 <= x[3], "power2", "d", "has a negative index", row) &&
    lr_is(x[0] != x[1], "power2", "b", "has the index of a too", row) &&
    lr_is(x[0] != x[2], "power2", "c", "has the index of a too", row) &&
    lr_is(x[1] != x[2], "power2", "c", "has the index of b too", row) &&
    lr_is(x[0] != x[3], "power2", "d", "has the index of a too", row) &&
    lr_is(x[1] != x[3], "power2", "d", "has the index of b too", row) &&
    lr_is(x[2] != x[3], "power2", "d", "has the index of c too", row);
}
static inline int lc_power2(const int64_t *x, const int64_t *v) { return lv_power2(v, SIZE_MAX) && li_power2(x, SIZE_MAX) ? ln_power2(x, v) : 0; }
static inline int lc_power2_plain(const int64_t *v) { return lv_power2(v, SIZE_MAX) ? ln_power2_plain(v) : 0; }
static inline void lc_power2_rows(size_t n, const int64_t *x, const int64_t *v, int8_t *signs) {
  for (size_t i = 0; i < n; i++) {
    signs[i] = 0;
    if (lv_power2(v + 12 * i, i) && li_power2(x + 4 * i, i)) ln_power2_rows(1, x + 4 * i, v + 12 * i, signs + i);
  }
}
static inline int lc_power2_at(const ln_weighted2 *a, const ln_weighted2 *b, const ln_weighted2 *c, const ln_weighted2 *d) {
  const int64_t x[] = {a->index, b->index, c->index, d->index};
  const int64_t v[] = {a->x, a->y, a->w, b->x, b->y, b->w, c->x, c->y, c->w, d->x, d->y, d->w};
  return lv_power2(v, SIZE_MAX) && li_power2(x, SIZE_MAX) ? ln_power2_at(a, b, c, d) : 0;
}
static inline int lc_power2_plain_at(const ln_weighted2 *a, const ln_weighted2 *b, const ln_weighted2 *c, const ln_weighted2 *d) {
  const int64_t v[] = {a->x, a->y, a->w, b->x, b->y, b->w, c->x, c->y, c->w, d->x, d->y, d->w};
  return lv_power2(v, SIZE_MAX) ? ln_power2_plain_at(a, b, c, d) : 0;
}
static inline int lv_wdiametral2(const int64_t *v, size_t row) {
  return lr_is(LN_WEIGHTED2_X_MIN <= v[0] && v[0] <= LN_WEIGHTED2_X_MAX, "wdiametral2", "p.x", "is out of range", row) &&
    lr_is(LN_WEIGHTED2_Y_MIN <= v[1] && v[1] <= LN_WEIGHTED2_Y_MAX, "wdiametral2", "p.y", "is out of range", row) &&
    lr_is(LN_WEIGHTED2_W_MIN <= v[2] && v[2] <= LN_WEIGHTED2_W_MAX, "wdiametral2", "p.w", "is out of range", row) &&
    lr_is(LN_WEIGHTED2_X_MIN <= v[3] && v[3] <= LN_WEIGHTED2_X_MAX, "wdiametral2", "q.x", "is out of range", row) &&
    lr_is(LN_WEIGHTED2_Y_MIN <= v[4] && v[4] <= LN_WEIGHTED2_Y_MAX, "wdiametral2", "q.y", "is out of range", row) &&
    lr_is(LN_WEIGHTED2_W_MIN <= v[5] && v[5] <= LN_WEIGHTED2_W_MAX, "wdiametral2", "q.w", "is out of range", row) &&
    lr_is(LN_WEIGHTED2_X_MIN <= v[6] && v[6] <= LN_WEIGHTED2_X_MAX, "wdiametral2", "r.x", "is out of range", row) &&
    lr_is(LN_WEIGHTED2_Y_MIN <= v[7] && v[7] <= LN_WEIGHTED2_Y_MAX, "wdiametral2", "r.y", "is out of range", row) &&
    lr_is(LN_WEIGHTED2_W_MIN <= v[8] && v[8] <= LN_WEIGHTED2_W_MAX, "wdiametral2", "r.w", "is out of range", row);
}
static inline int li_wdiametral2(const int64_t *x, size_t row) {
  return lr_is(0 <= x[0], "wdiametral2", "p", "has a negative index", row) &&
    lr_is(0 <= x[1], "wdiametral2", "q", "has a negative index", row) &&
    lr_is(0 <= x[2], "wdiametral2", "r", "has a negative index", row) &&
    lr_is(x[0] != x[1], "wdiametral2", "q", "has the index of p too", row) &&
    lr_is(x[0] != x[2], "wdiametral2", "r", "has the index of p too", row) &&
    lr_is(x[1] != x[2], "wdiametral2", "r", "has the index of q too", row);
}
static inline int lc_wdiametral2(const int64_t *x, const int64_t *v) { return lv_wdiametral2(v, SIZE_MAX) && li_wdiametral2(x, SIZE_MAX) ? ln_wdiametral2(x, v) : 0; }
static inline int lc_wdiametral2_plain(const int64_t *v) { return lv_wdiametral2(v, SIZE_MAX) ? ln_wdiametral2_plain(v) : 0; }
static inline void lc_wdiametral2_rows(size_t n, const int64_t *x, const int64_t *v, int8_t *signs) {
  for (size_t i = 0; i < n; i++) {
    signs[i] = 0;
    if (lv_wdiametral2(v + 9 * i, i) && li_wdiametral2(x + 3 * i, i)) ln_wdiametral2_rows(1, x + 3 * i, v + 9 * i, signs + i);
  }
}
static inline int lc_wdiametral2_at(const ln_weighted2 *p, const ln_weighted2 *q, const ln_weighted2 *r) {
  const int64_t x[] = {p->index, q->index, r->index};
  const int64_t v[] = {p->x, p->y, p->w, q->x, q->y, q->w, r->x, r->y, r->w};
  return lv_wdiametral2(v, SIZE_MAX) && li_wdiametral2(x, SIZE_MAX) ? ln_wdiametral2_at(p, q, r) : 0;
}
static inline int lc_wdiametral2_plain_at(const ln_weighted2 *p, const ln_weighted2 *q, const ln_weighted2 *r) {
  const int64_t v[] = {p->x, p->y, p->w, q->x, q->y, q->w, r->x, r->y, r->w};
  return lv_wdiametral2(v, SIZE_MAX) ? ln_wdiametral2_plain_at(p, q, r) : 0;
}
static inline int lv_wcompare_x2(const int64_t *v, size_t row) {
  return lr_is(LN_WEIGHTED2_X_MIN <= v[0] && v[0] <= LN_WEIGHTED2_X_MAX, "wcompare_x2", "p.x", "is out of range", row) &&
    lr_is(LN_WEIGHTED2_Y_MIN <= v[1] && v[1] <= LN_WEIGHTED2_Y_MAX, "wcompare_x2", "p.y", "is out of range", row) &&
    lr_is(LN_WEIGHTED2_W_MIN <= v[2] && v[2] <= LN_WEIGHTED2_W_MAX, "wcompare_x2", "p.w", "is out of range", row) &&
    lr_is(LN_WEIGHTED2_X_MIN <= v[3] && v[3] <= LN_WEIGHTED2_X_MAX, "wcompare_x2", "q.x", "is out of range", row) &&
    lr_is(LN_WEIGHTED2_Y_MIN <= v[4] && v[4] <= LN_WEIGHTED2_Y_MAX, "wcompare_x2", "q.y", "is out of range", row) &&
    lr_is(LN_WEIGHTED2_W_MIN <= v[5] && v[5] <= LN_WEIGHTED2_W_MAX, "wcompare_x2", "q.w", "is out of range", row);
}
static inline int li_wcompare_x2(const int64_t *x, size_t row) {
  return lr_is(0 <= x[0], "wcompare_x2", "p", "has a negative index", row) &&
    lr_is(0 <= x[1], "wcompare_x2", "q", "has a negative index", row) &&
    lr_is(x[0] != x[1], "wcompare_x2", "q", "has the index of p too", row);
}
static inline int lc_wcompare_x2(const int64_t *x, const int64_t *v) { return lv_wcompare_x2(v, SIZE_MAX) && li_wcompare_x2(x, SIZE_MAX) ? ln_wcompare_x2(x, v) : 0; }
static inline int lc_wcompare_x2_plain(const int64_t *v) { return lv_wcompare_x2(v, SIZE_MAX) ? ln_wcompare_x2_plain(v) : 0; }
static inline void lc_wcompare_x2_rows(size_t n, const int64_t *x, const int64_t *v, int8_t *signs) {
  for (size_t i = 0; i < n; i++) {
    signs[i] = 0;
    if (lv_wcompare_x2(v + 6 * i, i) && li_wcompare_x2(x + 2 * i, i)) ln_wcompare_x2_rows(1, x + 2 * i, v + 6 * i, signs + i);
  }
}
static inline int lc_wcompare_x2_at(const ln_weighted2 *p, const ln_weighted2 *q) {
  const int64_t x[] = {p->index, q->index};
  const int64_t v[] = {p->x, p->y, p->w, q->x, q->y, q->w};
  return lv_wcompare_x2(v, SIZE_MAX) && li_wcompare_x2(x, SIZE_MAX) ? ln_wcompare_x2_at(p, q) : 0;
}
static inline int lc_wcompare_x2_plain_at(const ln_weighted2 *p, const ln_weighted2 *q) {
  const int64_t v[] = {p->x, p->y, p->w, q->x, q->y, q->w};
  return lv_wcompare_x2(v, SIZE_MAX) ? ln_wcompare_x2_plain_at(p, q) : 0;
}
static inline int lv_wcompare_y2(const int64_t *v, size_t row) {
  return lr_is(LN_WEIGHTED2_X_MIN <= v[0] && v[0] <= LN_WEIGHTED2_X_MAX, "wcompare_y2", "p.x", "is out of range", row) &&
    lr_is(LN_WEIGHTED2_Y_MIN <= v[1] && v[1] <= LN_WEIGHTED2_Y_MAX, "wcompare_y2", "p.y", "is out of range", row) &&
    lr_is(LN_WEIGHTED2_W_MIN <= v[2] && v[2] <= LN_WEIGHTED2_W_MAX, "wcompare_y2", "p.w", "is out of range", row) &&
    lr_is(LN_WEIGHTED2_X_MIN <= v[3] && v[3] <= LN_WEIGHTED2_X_MAX, "wcompare_y2", "q.x", "is out of range", row) &&
    lr_is(LN_WEIGHTED2_Y_MIN <= v[4] && v[4] <= LN_WEIGHTED2_Y_MAX, "wcompare_y2", "q.y", "is out of range", row) &&
    lr_is(LN_WEIGHTED2_W_MIN <= v[5] && v[5] <= LN_WEIGHTED2_W_MAX, "wcompare_y2", "q.w", "is out of range", row);
}
static inline int li_wcompare_y2(const int64_t *x, size_t row) {
  return lr_is(0 <= x[0], "wcompare_y2", "p", "has a negative index", row) &&
    lr_is(0 <= x[1], "wcompare_y2", "q", "has a negative index", row) &&
    lr_is(x[0] != x[1], "wcompare_y2", "q", "has the index of p too", row);
}
static inline int lc_wcompare_y2(const int64_t *x, const int64_t *v) { return lv_wcompare_y2(v, SIZE_MAX) && li_wcompare_y2(x, SIZE_MAX) ? ln_wcompare_y2(x, v) : 0; }
static inline int lc_wcompare_y2_plain(const int64_t *v) { return lv_wcompare_y2(v, SIZE_MAX) ? ln_wcompare_y2_plain(v) : 0; }
static inline void lc_wcompare_y2_rows(size_t n, const int64_t *x, const int64_t *v, int8_t *signs) {
  for (size_t i = 0; i < n; i++) {
    signs[i] = 0;
    if (lv_wcompare_y2(v + 6 * i, i) && li_wcompare_y2(x + 2 * i, i)) ln_wcompare_y2_rows(1, x + 2 * i, v + 6 * i, signs + i);
  }
}
static inline int lc_wcompare_y2_at(const ln_weighted2 *p, const ln_weighted2 *q) {
  const int64_t x[] = {p->index, q->index};
  const int64_t v[] = {p->x, p->y, p->w, q->x, q->y, q->w};
  return lv_wcompare_y2(v, SIZE_MAX) && li_wcompare_y2(x, SIZE_MAX) ? ln_wcompare_y2_at(p, q) : 0;
}
static inline int lc_wcompare_y2_plain_at(const ln_weighted2 *p, const ln_weighted2 *q) {
  const int64_t v[] = {p->x, p->y, p->w, q->x, q->y, q->w};
  return lv_wcompare_y2(v, SIZE_MAX) ? ln_wcompare_y2_plain_at(p, q) : 0;
}
static inline int lv_wcompare_w2(const int64_t *v, size_t row) {
  return lr_is(LN_WEIGHTED2_X_MIN <= v[0] && v[0] <= LN_WEIGHTED2_X_MAX, "wcompare_w2", "p.x", "is out of range", row) &&
    lr_is(LN_WEIGHTED2_Y_MIN <= v[1] && v[1] <= LN_WEIGHTED2_Y_MAX, "wcompare_w2", "p.y", "is out of range", row) &&
    lr_is(LN_WEIGHTED2_W_MIN <= v[2] && v[2] <= LN_WEIGHTED2_W_MAX, "wcompare_w2", "p.w", "is out of range", row) &&
    lr_is(LN_WEIGHTED2_X_MIN <= v[3] && v[3] <= LN_WEIGHTED2_X_MAX, "wcompare_w2", "q.x", "is out of range", row) &&
    lr_is(LN_WEIGHTED2_Y_MIN <= v[4] && v[4] <= LN_WEIGHTED2_Y_MAX, "wcompare_w2", "q.y", "is out of range", row) &&
    lr_is(LN_WEIGHTED2_W_MIN <= v[5] && v[5] <= LN_WEIGHTED2_W_MAX, "wcompare_w2", "q.w", "is out of range", row);
}
static inline int li_wcompare_w2(const int64_t *x, size_t row) {
  return lr_is(0 <= x[0], "wcompare_w2", "p", "has a negative index", row) &&
    lr_is(0 <= x[1], "wcompare_w2", "q", "has a negative index", row) &&
    lr_is(x[0] != x[1], "wcompare_w2", "q", "has the index of p too", row);
}
static inline int lc_wcompare_w2(const int64_t *x, const int64_t *v) { return lv_wcompare_w2(v, SIZE_MAX) && li_wcompare_w2(x, SIZE_MAX) ? ln_wcompare_w2(x, v) : 0; }
static inline int lc_wcompare_w2_plain(const int64_t *v) { return lv_wcompare_w2(v, SIZE_MAX) ? ln_wcompare_w2_plain(v) : 0; }
static inline void lc_wcompare_w2_rows(size_t n, const int64_t *x, const int64_t *v, int8_t *signs) {
  for (size_t i = 0; i < n; i++) {
    signs[i] = 0;
    if (lv_wcompare_w2(v + 6 * i, i) && li_wcompare_w2(x + 2 * i, i)) ln_wcompare_w2_rows(1, x + 2 * i, v + 6 * i, signs + i);
  }
}
static inline int lc_wcompare_w2_at(const ln_weighted2 *p, const ln_weighted2 *q) {
  const int64_t x[] = {p->index, q->index};
  const int64_t v[] = {p->x, p->y, p->w, q->x, q->y, q->w};
  return lv_wcompare_w2(v, SIZE_MAX) && li_wcompare_w2(x, SIZE_MAX) ? ln_wcompare_w2_at(p, q) : 0;
}
static inline int lc_wcompare_w2_plain_at(const ln_weighted2 *p, const ln_weighted2 *q) {
  const int64_t v[] = {p->x, p->y, p->w, q->x, q->y, q->w};
  return lv_wcompare_w2(v, SIZE_MAX) ? ln_wcompare_w2_plain_at(p, q) : 0;
}
static inline int lv_wlexicographic2(const int64_t *v, size_t row) {
  return lr_is(LN_WEIGHTED2_X_MIN <= v[0] && v[0] <= LN_WEIGHTED2_X_MAX, "wlexicographic2", "p.x", "is out of range", row) &&
    lr_is(LN_WEIGHTED2_Y_MIN <= v[1] && v[1] <= LN_WEIGHTED2_Y_MAX, "wlexicographic2", "p.y", "is out of range", row) &&
    lr_is(LN_WEIGHTED2_W_MIN <= v[2] && v[2] <= LN_WEIGHTED2_W_MAX, "wlexicographic2", "p.w", "is out of range", row) &&
    lr_is(LN_WEIGHTED2_X_MIN <= v[3] && v[3] <= LN_WEIGHTED2_X_MAX, "wlexicographic2", "q.x", "is out of range", row) &&
    lr_is(LN_WEIGHTED2_Y_MIN <= v[4] && v[4] <= LN_WEIGHTED2_Y_MAX, "wlexicographic2", "q.y", "is out of range", row) &&
    lr_is(LN_WEIGHTED2_W_MIN <= v[5] && v[5] <= LN_WEIGHTED2_W_MAX, "wlexicographic2", "q.w", "is out of range", row);
}
static inline int li_wlexicographic2(const int64_t *x, size_t row) {
  return lr_is(0 <= x[0], "wlexicographic2", "p", "has a negative index", row) &&
    lr_is(0 <= x[1], "wlexicographic2", "q", "has a negative index", row) &&
    lr_is(x[0] != x[1], "wlexicographic2", "q", "has the index of p too", row);
}
static inline int lc_wlexicographic2(const int64_t *x, const int64_t *v) { return lv_wlexicographic2(v, SIZE_MAX) && li_wlexicographic2(x, SIZE_MAX) ? ln_wlexicographic2(x, v) : 0; }
static inline int lc_wlexicographic2_plain(const int64_t *v) { return lv_wlexicographic2(v, SIZE_MAX) ? ln_wlexicographic2_plain(v) : 0; }
static inline void lc_wlexicographic2_rows(size_t n, const int64_t *x, const int64_t *v, int8_t *signs) {
  for (size_t i = 0; i < n; i++) {
    signs[i] = 0;
    if (lv_wlexicographic2(v + 6 * i, i) && li_wlexicographic2(x + 2 * i, i)) ln_wlexicographic2_rows(1, x + 2 * i, v + 6 * i, signs + i);
  }
}
static inline int lc_wlexicographic2_at(const ln_weighted2 *p, const ln_weighted2 *q) {
  const int64_t x[] = {p->index, q->index};
  const int64_t v[] = {p->x, p->y, p->w, q->x, q->y, q->w};
  return lv_wlexicographic2(v, SIZE_MAX) && li_wlexicographic2(x, SIZE_MAX) ? ln_wlexicographic2_at(p, q) : 0;
}
static inline int lc_wlexicographic2_plain_at(const ln_weighted2 *p, const ln_weighted2 *q) {
  const int64_t v[] = {p->x, p->y, p->w, q->x, q->y, q->w};
  return lv_wlexicographic2(v, SIZE_MAX) ? ln_wlexicographic2_plain_at(p, q) : 0;
}
static inline int lv_wcompare_distance2(const int64_t *v, size_t row) {
  return lr_is(LN_WEIGHTED2_X_MIN <= v[0] && v[0] <= LN_WEIGHTED2_X_MAX, "wcompare_distance2", "p.x", "is out of range", row) &&
    lr_is(LN_WEIGHTED2_Y_MIN <= v[1] && v[1] <= LN_WEIGHTED2_Y_MAX, "wcompare_distance2", "p.y", "is out of range", row) &&
    lr_is(LN_WEIGHTED2_W_MIN <= v[2] && v[2] <= LN_WEIGHTED2_W_MAX, "wcompare_distance2", "p.w", "is out of range", row) &&
    lr_is(LN_WEIGHTED2_X_MIN <= v[3] && v[3] <= LN_WEIGHTED2_X_MAX, "wcompare_distance2", "q.x", "is out of range", row) &&
    lr_is(LN_WEIGHTED2_Y_MIN <= v[4] && v[4] <= LN_WEIGHTED2_Y_MAX, "wcompare_distance2", "q.y", "is out of range", row) &&
    lr_is(LN_WEIGHTED2_W_MIN <= v[5] && v[5] <= LN_WEIGHTED2_W_MAX, "wcompare_distance2", "q.w", "is out of range", row) &&
    lr_is(LN_WEIGHTED2_X_MIN <= v[6] && v[6] <= LN_WEIGHTED2_X_MAX, "wcompare_distance2", "r.x", "is out of range", row) &&
    lr_is(LN_WEIGHTED2_Y_MIN <= v[7] && v[7] <= LN_WEIGHTED2_Y_MAX, "wcompare_distance2", "r.y", "is out of range", row) &&
    lr_is(LN_WEIGHTED2_W_MIN <= v[8] && v[8] <= LN_WEIGHTED2_W_MAX, "wcompare_distance2", "r.w", "is out of range", row);
}
static inline int li_wcompare_distance2(const int64_t *x, size_t row) {
  return lr_is(0 <= x[0], "wcompare_distance2", "p", "has a negative index", row) &&
    lr_is(0 <= x[1], "wcompare_distance2", "q", "has a negative index", row) &&
    lr_is(0 <= x[2], "wcompare_distance2", "r", "has a negative index", row) &&
    lr_is(x[0] != x[1], "wcompare_distance2", "q", "has the index of p too", row) &&
    lr_is(x[0] != x[2], "wcompare_distance2", "r", "has the index of p too", row) &&
    lr_is(x[1] != x[2], "wcompare_distance2", "r", "has the index of q too", row);
}
static inline int lc_wcompare_distance2(const int64_t *x, const int64_t *v) { return lv_wcompare_distance2(v, SIZE_MAX) && li_wcompare_distance2(x, SIZE_MAX) ? ln_wcompare_distance2(x, v) : 0; }
static inline int lc_wcompare_distance2_plain(const int64_t *v) { return lv_wcompare_distance2(v, SIZE_MAX) ? ln_wcompare_distance2_plain(v) : 0; }
static inline void lc_wcompare_distance2_rows(size_t n, const int64_t *x, const int64_t *v, int8_t *signs) {
  for (size_t i = 0; i < n; i++) {
    signs[i] = 0;
    if (lv_wcompare_distance2(v + 9 * i, i) && li_wcompare_distance2(x + 3 * i, i)) ln_wcompare_distance2_rows(1, x + 3 * i, v + 9 * i, signs + i);
  }
}
static inline int lc_wcompare_distance2_at(const ln_weighted2 *p, const ln_weighted2 *q, const ln_weighted2 *r) {
  const int64_t x[] = {p->index, q->index, r->index};
  const int64_t v[] = {p->x, p->y, p->w, q->x, q->y, q->w, r->x, r->y, r->w};
  return lv_wcompare_distance2(v, SIZE_MAX) && li_wcompare_distance2(x, SIZE_MAX) ? ln_wcompare_distance2_at(p, q, r) : 0;
}
static inline int lc_wcompare_distance2_plain_at(const ln_weighted2 *p, const ln_weighted2 *q, const ln_weighted2 *r) {
  const int64_t v[] = {p->x, p->y, p->w, q->x, q->y, q->w, r->x, r->y, r->w};
  return lv_wcompare_distance2(v, SIZE_MAX) ? ln_wcompare_distance2_plain_at(p, q, r) : 0;
}
static inline int lv_compare_power2(const int64_t *v, size_t row) {
  return lr_is(LN_WEIGHTED2_X_MIN <= v[0] && v[0] <= LN_WEIGHTED2_X_MAX, "compare_power2", "p.x", "is out of range", row) &&
    lr_is(LN_WEIGHTED2_Y_MIN <= v[1] && v[1] <= LN_WEIGHTED2_Y_MAX, "compare_power2", "p.y", "is out of range", row) &&
    lr_is(LN_WEIGHTED2_W_MIN <= v[2] && v[2] <= LN_WEIGHTED2_W_MAX, "compare_power2", "p.w", "is out of range", row) &&
    lr_is(LN_WEIGHTED2_X_MIN <= v[3] && v[3] <= LN_WEIGHTED2_X_MAX, "compare_power2", "q.x", "is out of range", row) &&
    lr_is(LN_WEIGHTED2_Y_MIN <= v[4] && v[4] <= LN_WEIGHTED2_Y_MAX, "compare_power2", "q.y", "is out of range", row) &&
    lr_is(LN_WEIGHTED2_W_MIN <= v[5] && v[5] <= LN_WEIGHTED2_W_MAX, "compare_power2", "q.w", "is out of range", row) &&
    lr_is(LN_WEIGHTED2_X_MIN <= v[6] && v[6] <= LN_WEIGHTED2_X_MAX, "compare_power2", "r.x", "is out of range", row) &&
    lr_is(LN_WEIGHTED2_Y_MIN <= v[7] && v[7] <= LN_WEIGHTED2_Y_MAX, "compare_power2", "r.y", "is out of range", row) &&
    lr_is(LN_WEIGHTED2_W_MIN <= v[8] && v[8] <= LN_WEIGHTED2_W_MAX, "compare_power2", "r.w", "is out of range", row);
}
static inline int li_compare_power2(const int64_t *x, size_t row) {
  return lr_is(0 <= x[0], "compare_power2", "p", "has a negative index", row) &&
    lr_is(0 <= x[1], "compare_power2", "q", "has a negative index", row) &&
    lr_is(0 <= x[2], "compare_power2", "r", "has a negative index", row) &&
    lr_is(x[0] != x[1], "compare_power2", "q", "has the index of p too", row) &&
    lr_is(x[0] != x[2], "compare_power2", "r", "has the index of p too", row) &&
    lr_is(x[1] != x[2], "compare_power2", "r", "has the index of q too", row);
}
static inline int lc_compare_power2(const int64_t *x, const int64_t *v) { return lv_compare_power2(v, SIZE_MAX) && li_compare_power2(x, SIZE_MAX) ? ln_compare_power2(x, v) : 0; }
static inline int lc_compare_power2_plain(const int64_t *v) { return lv_compare_power2(v, SIZE_MAX) ? ln_compare_power2_plain(v) : 0; }
static inline void lc_compare_power2_rows(size_t n, const int64_t *x, const int64_t *v, int8_t *signs) {
  for (size_t i = 0; i < n; i++) {
    signs[i] = 0;
    if (lv_compare_power2(v + 9 * i, i) && li_compare_power2(x + 3 * i, i)) ln_compare_power2_rows(1, x + 3 * i, v + 9 * i, signs + i);
  }
}
static inline int lc_compare_power2_at(const ln_weighted2 *p, const ln_weighted2 *q, const ln_weighted2 *r) {
  const int64_t x[] = {p->index, q->index, r->index};
  const int64_t v[] = {p->x, p->y, p->w, q->x, q->y, q->w, r->x, r->y, r->w};
  return lv_compare_power2(v, SIZE_MAX) && li_compare_power2(x, SIZE_MAX) ? ln_compare_power2_at(p, q, r) : 0;
}
static inline int lc_compare_power2_plain_at(const ln_weighted2 *p, const ln_weighted2 *q, const ln_weighted2 *r) {
  const int64_t v[] = {p->x, p->y, p->w, q->x, q->y, q->w, r->x, r->y, r->w};
  return lv_compare_power2(v, SIZE_MAX) ? ln_compare_power2_plain_at(p, q, r) : 0;
}
static inline int lv_wdot2(const int64_t *v, size_t row) {
  return lr_is(LN_WEIGHTED2_X_MIN <= v[0] && v[0] <= LN_WEIGHTED2_X_MAX, "wdot2", "p.x", "is out of range", row) &&
    lr_is(LN_WEIGHTED2_Y_MIN <= v[1] && v[1] <= LN_WEIGHTED2_Y_MAX, "wdot2", "p.y", "is out of range", row) &&
    lr_is(LN_WEIGHTED2_W_MIN <= v[2] && v[2] <= LN_WEIGHTED2_W_MAX, "wdot2", "p.w", "is out of range", row) &&
    lr_is(LN_WEIGHTED2_X_MIN <= v[3] && v[3] <= LN_WEIGHTED2_X_MAX, "wdot2", "q.x", "is out of range", row) &&
    lr_is(LN_WEIGHTED2_Y_MIN <= v[4] && v[4] <= LN_WEIGHTED2_Y_MAX, "wdot2", "q.y", "is out of range", row) &&
    lr_is(LN_WEIGHTED2_W_MIN <= v[5] && v[5] <= LN_WEIGHTED2_W_MAX, "wdot2", "q.w", "is out of range", row) &&
    lr_is(LN_WEIGHTED2_X_MIN <= v[6] && v[6] <= LN_WEIGHTED2_X_MAX, "wdot2", "r.x", "is out of range", row) &&
    lr_is(LN_WEIGHTED2_Y_MIN <= v[7] && v[7] <= LN_WEIGHTED2_Y_MAX, "wdot2", "r.y", "is out of range", row) &&
    lr_is(LN_WEIGHTED2_W_MIN <= v[8] && v[8] <= LN_WEIGHTED2_W_MAX, "wdot2", "r.w", "is out of range", row) &&
    lr_is(LN_WEIGHTED2_X_MIN <= v[9] && v[9] <= LN_WEIGHTED2_X_MAX, "wdot2", "s.x", "is out of range", row) &&
    lr_is(LN_WEIGHTED2_Y_MIN <= v[10] && v[10] <= LN_WEIGHTED2_Y_MAX, "wdot2", "s.y", "is out of range", row) &&
    lr_is(LN_WEIGHTED2_W_MIN <= v[11] && v[11] <= LN_WEIGHTED2_W_MAX, "wdot2", "s.w", "is out of range", row);
}
static inline int li_wdot2(const int64_t *x, size_t row) {
  return lr_is(0 <= x[0], "wdot2", "p", "has a negative index", row) &&
    lr_is(0 <= x[1], "wdot2", "q", "has a negative index", row) &&
    lr_is(0 <= x[2], "wdot2", "r", "has a negative index", row) &&
    lr_is(0 <= x[3], "wdot2", "s", "has a negative index", row) &&
    lr_is(x[0] != x[1], "wdot2", "q", "has the index of p too", row) &&
    lr_is(x[0] != x[2], "wdot2", "r", "has the index of p too", row) &&
    lr_is(x[1] != x[2], "wdot2", "r", "has the index of q too", row) &&
    lr_is(x[0] != x[3], "wdot2", "s", "has the index of p too", row) &&
    lr_is(x[1] != x[3], "wdot2", "s", "has the index of q too", row) &&
    lr_is(x[2] != x[3], "wdot2", "s", "has the index of r too", row);
}
static inline int lc_wdot2(const int64_t *x, const int64_t *v) { return lv_wdot2(v, SIZE_MAX) && li_wdot2(x, SIZE_MAX) ? ln_wdot2(x, v) : 0; }
static inline int lc_wdot2_plain(const int64_t *v) { return lv_wdot2(v, SIZE_MAX) ? ln_wdot2_plain(v) : 0; }
static inline void lc_wdot2_rows(size_t n, const int64_t *x, const int64_t *v, int8_t *signs) {
  for (size_t i = 0; i < n; i++) {
    signs[i] = 0;
    if (lv_wdot2(v + 12 * i, i) && li_wdot2(x + 4 * i, i)) ln_wdot2_rows(1, x + 4 * i, v + 12 * i, signs + i);
  }
}
static inline int lc_wdot2_at(const ln_weighted2 *p, const ln_weighted2 *q, const ln_weighted2 *r, const ln_weighted2 *s) {
  const int64_t x[] = {p->index, q->index, r->index, s->index};
  const int64_t v[] = {p->x, p->y, p->w, q->x, q->y, q->w, r->x, r->y, r->w, s->x, s->y, s->w};
  return lv_wdot2(v, SIZE_MAX) && li_wdot2(x, SIZE_MAX) ? ln_wdot2_at(p, q, r, s) : 0;
}
static inline int lc_wdot2_plain_at(const ln_weighted2 *p, const ln_weighted2 *q, const ln_weighted2 *r, const ln_weighted2 *s) {
  const int64_t v[] = {p->x, p->y, p->w, q->x, q->y, q->w, r->x, r->y, r->w, s->x, s->y, s->w};
  return lv_wdot2(v, SIZE_MAX) ? ln_wdot2_plain_at(p, q, r, s) : 0;
}
static inline int lv_wcompare_line2(const int64_t *v, size_t row) {
  return lr_is(LN_WEIGHTED2_X_MIN <= v[0] && v[0] <= LN_WEIGHTED2_X_MAX, "wcompare_line2", "p.x", "is out of range", row) &&
    lr_is(LN_WEIGHTED2_Y_MIN <= v[1] && v[1] <= LN_WEIGHTED2_Y_MAX, "wcompare_line2", "p.y", "is out of range", row) &&
    lr_is(LN_WEIGHTED2_W_MIN <= v[2] && v[2] <= LN_WEIGHTED2_W_MAX, "wcompare_line2", "p.w", "is out of range", row) &&
    lr_is(LN_WEIGHTED2_X_MIN <= v[3] && v[3] <= LN_WEIGHTED2_X_MAX, "wcompare_line2", "q.x", "is out of range", row) &&
    lr_is(LN_WEIGHTED2_Y_MIN <= v[4] && v[4] <= LN_WEIGHTED2_Y_MAX, "wcompare_line2", "q.y", "is out of range", row) &&
    lr_is(LN_WEIGHTED2_W_MIN <= v[5] && v[5] <= LN_WEIGHTED2_W_MAX, "wcompare_line2", "q.w", "is out of range", row) &&
    lr_is(LN_WEIGHTED2_X_MIN <= v[6] && v[6] <= LN_WEIGHTED2_X_MAX, "wcompare_line2", "r.x", "is out of range", row) &&
    lr_is(LN_WEIGHTED2_Y_MIN <= v[7] && v[7] <= LN_WEIGHTED2_Y_MAX, "wcompare_line2", "r.y", "is out of range", row) &&
    lr_is(LN_WEIGHTED2_W_MIN <= v[8] && v[8] <= LN_WEIGHTED2_W_MAX, "wcompare_line2", "r.w", "is out of range", row) &&
    lr_is(LN_WEIGHTED2_X_MIN <= v[9] && v[9] <= LN_WEIGHTED2_X_MAX, "wcompare_line2", "s.x", "is out of range", row) &&
    lr_is(LN_WEIGHTED2_Y_MIN <= v[10] && v[10] <= LN_WEIGHTED2_Y_MAX, "wcompare_line2", "s.y", "is out of range", row) &&
    lr_is(LN_WEIGHTED2_W_MIN <= v[11] && v[11] <= LN_WEIGHTED2_W_MAX, "wcompare_line2", "s.w", "is out of range", row);
}
static inline int li_wcompare_line2(const int64_t *x, size_t row) {
  return lr_is(0 <= x[0], "wcompare_line2", "p", "has a negative index", row) &&
    lr_is(0 <= x[1], "wcompare_line2", "q", "has a negative index", row) &&
    lr_is(0 <= x[2], "wcompare_line2", "r", "has a negative index", row) &&
    lr_is(0 <= x[3], "wcompare_line2", "s", "has a negative index", row) &&
    lr_is(x[0] != x[1], "wcompare_line2", "q", "has the index of p too", row) &&
    lr_is(x[0] != x[2], "wcompare_line2", "r", "has the index of p too", row) &&
    lr_is(x[1] != x[2], "wcompare_line2", "r", "has the index of q too", row) &&
    lr_is(x[0] != x[3], "wcompare_line2", "s", "has the index of p too", row) &&
    lr_is(x[1] != x[3], "wcompare_line2", "s", "has the index of q too", row) &&
    lr_is(x[2] != x[3], "wcompare_line2", "s", "has the index of r too", row);
}
static inline int lc_wcompare_line2(const int64_t *x, const int64_t *v) { return lv_wcompare_line2(v, SIZE_MAX) && li_wcompare_line2(x, SIZE_MAX) ? ln_wcompare_line2(x, v) : 0; }
static inline int lc_wcompare_line2_plain(const int64_t *v) { return lv_wcompare_line2(v, SIZE_MAX) ? ln_wcompare_line2_plain(v) : 0; }
static inline void lc_wcompare_line2_rows(size_t n, const int64_t *x, const int64_t *v, int8_t *signs) {
  for (size_t i = 0; i < n; i++) {
    signs[i] = 0;
    if (lv_wcompare_line2(v + 12 * i, i) && li_wcompare_line2(x + 4 * i, i)) ln_wcompare_line2_rows(1, x + 4 * i, v + 12 * i, signs + i);
  }
}
static inline int lc_wcompare_line2_at(const ln_weighted2 *p, const ln_weighted2 *q, const ln_weighted2 *r, const ln_weighted2 *s) {
  const int64_t x[] = {p->index, q->index, r->index, s->index};
  const int64_t v[] = {p->x, p->y, p->w, q->x, q->y, q->w, r->x, r->y, r->w, s->x, s->y, s->w};
  return lv_wcompare_line2(v, SIZE_MAX) && li_wcompare_line2(x, SIZE_MAX) ? ln_wcompare_line2_at(p, q, r, s) : 0;
}
static inline int lc_wcompare_line2_plain_at(const ln_weighted2 *p, const ln_weighted2 *q, const ln_weighted2 *r, const ln_weighted2 *s) {
  const int64_t v[] = {p->x, p->y, p->w, q->x, q->y, q->w, r->x, r->y, r->w, s->x, s->y, s->w};
  return lv_wcompare_line2(v, SIZE_MAX) ? ln_wcompare_line2_plain_at(p, q, r, s) : 0;
}
#endif

#ifdef __cplusplus
}

#include <cstdint>
#ifdef LNC_CHECKED
#define LNC_CALL(name) ::lc_##name
#else
#define LNC_CALL(name) ::ln_##name
#endif
namespace lnc {
typedef ::ln_weighted2 weighted2;
inline bool in_range(const weighted2 &p) { return ::ln_weighted2_in_range(&p) != 0; }
#ifdef LNC_CHECKED
inline namespace checked {
#endif
inline int worient2(const weighted2 &p, const weighted2 &q, const weighted2 &r) {
  return LNC_CALL(worient2_at)(&p, &q, &r);
}
inline int worient2_plain(const weighted2 &p, const weighted2 &q, const weighted2 &r) {
  return LNC_CALL(worient2_plain_at)(&p, &q, &r);
}
inline int power2(const weighted2 &a, const weighted2 &b, const weighted2 &c, const weighted2 &d) {
  return LNC_CALL(power2_at)(&a, &b, &c, &d);
}
inline int power2_plain(const weighted2 &a, const weighted2 &b, const weighted2 &c, const weighted2 &d) {
  return LNC_CALL(power2_plain_at)(&a, &b, &c, &d);
}
inline int wdiametral2(const weighted2 &p, const weighted2 &q, const weighted2 &r) {
  return LNC_CALL(wdiametral2_at)(&p, &q, &r);
}
inline int wdiametral2_plain(const weighted2 &p, const weighted2 &q, const weighted2 &r) {
  return LNC_CALL(wdiametral2_plain_at)(&p, &q, &r);
}
inline int wcompare_x2(const weighted2 &p, const weighted2 &q) {
  return LNC_CALL(wcompare_x2_at)(&p, &q);
}
inline int wcompare_x2_plain(const weighted2 &p, const weighted2 &q) {
  return LNC_CALL(wcompare_x2_plain_at)(&p, &q);
}
inline int wcompare_y2(const weighted2 &p, const weighted2 &q) {
  return LNC_CALL(wcompare_y2_at)(&p, &q);
}
inline int wcompare_y2_plain(const weighted2 &p, const weighted2 &q) {
  return LNC_CALL(wcompare_y2_plain_at)(&p, &q);
}
inline int wcompare_w2(const weighted2 &p, const weighted2 &q) {
  return LNC_CALL(wcompare_w2_at)(&p, &q);
}
inline int wcompare_w2_plain(const weighted2 &p, const weighted2 &q) {
  return LNC_CALL(wcompare_w2_plain_at)(&p, &q);
}
inline int wlexicographic2(const weighted2 &p, const weighted2 &q) {
  return LNC_CALL(wlexicographic2_at)(&p, &q);
}
inline int wlexicographic2_plain(const weighted2 &p, const weighted2 &q) {
  return LNC_CALL(wlexicographic2_plain_at)(&p, &q);
}
inline int wcompare_distance2(const weighted2 &p, const weighted2 &q, const weighted2 &r) {
  return LNC_CALL(wcompare_distance2_at)(&p, &q, &r);
}
inline int wcompare_distance2_plain(const weighted2 &p, const weighted2 &q, const weighted2 &r) {
  return LNC_CALL(wcompare_distance2_plain_at)(&p, &q, &r);
}
inline int compare_power2(const weighted2 &p, const weighted2 &q, const weighted2 &r) {
  return LNC_CALL(compare_power2_at)(&p, &q, &r);
}
inline int compare_power2_plain(const weighted2 &p, const weighted2 &q, const weighted2 &r) {
  return LNC_CALL(compare_power2_plain_at)(&p, &q, &r);
}
inline int wdot2(const weighted2 &p, const weighted2 &q, const weighted2 &r, const weighted2 &s) {
  return LNC_CALL(wdot2_at)(&p, &q, &r, &s);
}
inline int wdot2_plain(const weighted2 &p, const weighted2 &q, const weighted2 &r, const weighted2 &s) {
  return LNC_CALL(wdot2_plain_at)(&p, &q, &r, &s);
}
inline int wcompare_line2(const weighted2 &p, const weighted2 &q, const weighted2 &r, const weighted2 &s) {
  return LNC_CALL(wcompare_line2_at)(&p, &q, &r, &s);
}
inline int wcompare_line2_plain(const weighted2 &p, const weighted2 &q, const weighted2 &r, const weighted2 &s) {
  return LNC_CALL(wcompare_line2_plain_at)(&p, &q, &r, &s);
}
#ifdef LNC_CHECKED
}
#endif
}
#undef LNC_CALL
#endif
#endif

#if defined(LNC_WEIGHTED_PLANE_IMPLEMENTATION) && !defined(LNC_WEIGHTED_PLANE_IMPLEMENTED)
#define LNC_WEIGHTED_PLANE_IMPLEMENTED
#undef ln_worient2
#undef ln_worient2_plain
#undef ln_worient2_rows
#undef ln_worient2_at
#undef ln_worient2_plain_at
#undef ln_power2
#undef ln_power2_plain
#undef ln_power2_rows
#undef ln_power2_at
#undef ln_power2_plain_at
#undef ln_wdiametral2
#undef ln_wdiametral2_plain
#undef ln_wdiametral2_rows
#undef ln_wdiametral2_at
#undef ln_wdiametral2_plain_at
#undef ln_wcompare_x2
#undef ln_wcompare_x2_plain
#undef ln_wcompare_x2_rows
#undef ln_wcompare_x2_at
#undef ln_wcompare_x2_plain_at
#undef ln_wcompare_y2
#undef ln_wcompare_y2_plain
#undef ln_wcompare_y2_rows
#undef ln_wcompare_y2_at
#undef ln_wcompare_y2_plain_at
#undef ln_wcompare_w2
#undef ln_wcompare_w2_plain
#undef ln_wcompare_w2_rows
#undef ln_wcompare_w2_at
#undef ln_wcompare_w2_plain_at
#undef ln_wlexicographic2
#undef ln_wlexicographic2_plain
#undef ln_wlexicographic2_rows
#undef ln_wlexicographic2_at
#undef ln_wlexicographic2_plain_at
#undef ln_wcompare_distance2
#undef ln_wcompare_distance2_plain
#undef ln_wcompare_distance2_rows
#undef ln_wcompare_distance2_at
#undef ln_wcompare_distance2_plain_at
#undef ln_compare_power2
#undef ln_compare_power2_plain
#undef ln_compare_power2_rows
#undef ln_compare_power2_at
#undef ln_compare_power2_plain_at
#undef ln_wdot2
#undef ln_wdot2_plain
#undef ln_wdot2_rows
#undef ln_wdot2_at
#undef ln_wdot2_plain_at
#undef ln_wcompare_line2
#undef ln_wcompare_line2_plain
#undef ln_wcompare_line2_rows
#undef ln_wcompare_line2_at
#undef ln_wcompare_line2_plain_at
#ifndef __SIZEOF_INT128__
#error "no __int128 here: weighted_plane.c takes gcc or clang for a 64-bit target"
#endif
#ifdef __cplusplus
#pragma GCC diagnostic push
#pragma GCC diagnostic ignored "-Wold-style-cast"
#endif
static inline __attribute__((always_inline)) int la_worient2(const int64_t *x, const int64_t *v);
static inline __attribute__((always_inline)) int la_power2(const int64_t *x, const int64_t *v);
static inline __attribute__((always_inline)) int la_wcompare_x2(const int64_t *x, const int64_t *v);
static inline __attribute__((always_inline)) int la_wcompare_y2(const int64_t *x, const int64_t *v);
static inline __attribute__((always_inline)) int la_wcompare_w2(const int64_t *x, const int64_t *v);
static inline __attribute__((always_inline)) int la_wlexicographic2(const int64_t *x, const int64_t *v);
#include "weighted_plane.c"
#ifndef LNC_HAS_ORDER
#define LNC_HAS_ORDER
#if defined(__clang__) || __GNUC__ < 8
#define LNC_UNROLLED
#else
#define LNC_UNROLLED _Pragma("GCC unroll 8")
#endif
/* Writes the indices as they rise to y, and of each site as many values alike to w. Returns whether an odd number of pairs of sites was the other way round.
   Two of one index stay as they are. (Without branches, since nothing foretells an order. There are at most 5 sites) */
static inline __attribute__((always_inline)) int lr_in_order(int sites, int many, const int64_t *x, const int64_t *v, int64_t *y, int64_t *w) {
  int turned = 0, rank[] = {0, 1, 2, 3, 4};
  LNC_UNROLLED
  for (int j = 1; j < sites; j++) {
    LNC_UNROLLED
    for (int k = 0; k < j; k++) {
      const int is_turned = x[k] > x[j];
      rank[k] += is_turned;
      rank[j] -= is_turned;
      turned += is_turned;
    }
  }
  LNC_UNROLLED
  for (int j = 0; j < sites; j++) {
    y[rank[j]] = x[j];
    LNC_UNROLLED
    for (int c = 0; c < many; c++) w[many * rank[j] + c] = v[many * j + c];
  }
  return turned % 2;
}
#undef LNC_UNROLLED
#endif
static __attribute__((noinline)) int lm_worient2(const int64_t *x, const int64_t *v) {
  int64_t y[3], w[9];
  const int odd = lr_in_order(3, 3, x, v, y, w);
  if (lb0_worient2(w) != 0) __builtin_unreachable();
  const int sign = la_worient2(y, w);
  return odd ? -sign : sign;
}
int ln_worient2(const int64_t *x, const int64_t *v) {
  const int sign = lb0_worient2(v);
  return sign != 0 ? sign : lm_worient2(x, v);
}
int ln_worient2_plain(const int64_t *v) { return lb0_worient2(v); }
void ln_worient2_rows(size_t n, const int64_t *x, const int64_t *v, int8_t *signs) {
  for (size_t i = 0; i < n; i++) signs[i] = (int8_t)ln_worient2(x + 3 * i, v + 9 * i);
}
static __attribute__((noinline)) int lm_worient2_at(const ln_weighted2 *p, const ln_weighted2 *q, const ln_weighted2 *r) {
  const int64_t x[] = {p->index, q->index, r->index};
  const int64_t v[] = {p->x, p->y, p->w, q->x, q->y, q->w, r->x, r->y, r->w};
  return lm_worient2(x, v);
}
__attribute__((flatten)) int ln_worient2_plain_at(const ln_weighted2 *p, const ln_weighted2 *q, const ln_weighted2 *r) {
  const int64_t v[] = {p->x, p->y, p->w, q->x, q->y, q->w, r->x, r->y, r->w};
  return lb0_worient2(v);
}
__attribute__((flatten)) int ln_worient2_at(const ln_weighted2 *p, const ln_weighted2 *q, const ln_weighted2 *r) {
  const int64_t v[] = {p->x, p->y, p->w, q->x, q->y, q->w, r->x, r->y, r->w};
  const int sign = lb0_worient2(v);
  return sign != 0 ? sign : lm_worient2_at(p, q, r);
}
static __attribute__((noinline)) int lm_power2(const int64_t *x, const int64_t *v) {
  int64_t y[4], w[12];
  const int odd = lr_in_order(4, 3, x, v, y, w);
  if (lb0_power2(w) != 0) __builtin_unreachable();
  const int sign = la_power2(y, w);
  return odd ? -sign : sign;
}
int ln_power2(const int64_t *x, const int64_t *v) {
  const int sign = lb0_power2(v);
  return sign != 0 ? sign : lm_power2(x, v);
}
int ln_power2_plain(const int64_t *v) { return lb0_power2(v); }
void ln_power2_rows(size_t n, const int64_t *x, const int64_t *v, int8_t *signs) {
  for (size_t i = 0; i < n; i++) signs[i] = (int8_t)ln_power2(x + 4 * i, v + 12 * i);
}
static __attribute__((noinline)) int lm_power2_at(const ln_weighted2 *a, const ln_weighted2 *b, const ln_weighted2 *c, const ln_weighted2 *d) {
  const int64_t x[] = {a->index, b->index, c->index, d->index};
  const int64_t v[] = {a->x, a->y, a->w, b->x, b->y, b->w, c->x, c->y, c->w, d->x, d->y, d->w};
  return lm_power2(x, v);
}
__attribute__((flatten)) int ln_power2_plain_at(const ln_weighted2 *a, const ln_weighted2 *b, const ln_weighted2 *c, const ln_weighted2 *d) {
  const int64_t v[] = {a->x, a->y, a->w, b->x, b->y, b->w, c->x, c->y, c->w, d->x, d->y, d->w};
  return lb0_power2(v);
}
__attribute__((flatten)) int ln_power2_at(const ln_weighted2 *a, const ln_weighted2 *b, const ln_weighted2 *c, const ln_weighted2 *d) {
  const int64_t v[] = {a->x, a->y, a->w, b->x, b->y, b->w, c->x, c->y, c->w, d->x, d->y, d->w};
  const int sign = lb0_power2(v);
  return sign != 0 ? sign : lm_power2_at(a, b, c, d);
}
int ln_wdiametral2_plain(const int64_t *v) { return lb0_wdiametral2(v); }
void ln_wdiametral2_rows(size_t n, const int64_t *x, const int64_t *v, int8_t *signs) {
  for (size_t i = 0; i < n; i++) signs[i] = (int8_t)ln_wdiametral2(x + 3 * i, v + 9 * i);
}
static __attribute__((noinline)) int lm_wdiametral2_at(const ln_weighted2 *p, const ln_weighted2 *q, const ln_weighted2 *r) {
  const int64_t x[] = {p->index, q->index, r->index};
  const int64_t v[] = {p->x, p->y, p->w, q->x, q->y, q->w, r->x, r->y, r->w};
  return ln_wdiametral2(x, v);
}
__attribute__((flatten)) int ln_wdiametral2_plain_at(const ln_weighted2 *p, const ln_weighted2 *q, const ln_weighted2 *r) {
  const int64_t v[] = {p->x, p->y, p->w, q->x, q->y, q->w, r->x, r->y, r->w};
  return lb0_wdiametral2(v);
}
__attribute__((flatten)) int ln_wdiametral2_at(const ln_weighted2 *p, const ln_weighted2 *q, const ln_weighted2 *r) {
  const int64_t v[] = {p->x, p->y, p->w, q->x, q->y, q->w, r->x, r->y, r->w};
  const int sign = lb0_wdiametral2(v);
  return sign != 0 ? sign : lm_wdiametral2_at(p, q, r);
}
static __attribute__((noinline)) int lm_wcompare_x2(const int64_t *x, const int64_t *v) {
  int64_t y[2], w[6];
  const int odd = lr_in_order(2, 3, x, v, y, w);
  if (lb0_wcompare_x2(w) != 0) __builtin_unreachable();
  const int sign = la_wcompare_x2(y, w);
  return odd ? -sign : sign;
}
int ln_wcompare_x2(const int64_t *x, const int64_t *v) {
  const int sign = lb0_wcompare_x2(v);
  return sign != 0 ? sign : lm_wcompare_x2(x, v);
}
int ln_wcompare_x2_plain(const int64_t *v) { return lb0_wcompare_x2(v); }
void ln_wcompare_x2_rows(size_t n, const int64_t *x, const int64_t *v, int8_t *signs) {
  for (size_t i = 0; i < n; i++) signs[i] = (int8_t)ln_wcompare_x2(x + 2 * i, v + 6 * i);
}
static __attribute__((noinline)) int lm_wcompare_x2_at(const ln_weighted2 *p, const ln_weighted2 *q) {
  const int64_t x[] = {p->index, q->index};
  const int64_t v[] = {p->x, p->y, p->w, q->x, q->y, q->w};
  return lm_wcompare_x2(x, v);
}
__attribute__((flatten)) int ln_wcompare_x2_plain_at(const ln_weighted2 *p, const ln_weighted2 *q) {
  const int64_t v[] = {p->x, p->y, p->w, q->x, q->y, q->w};
  return lb0_wcompare_x2(v);
}
__attribute__((flatten)) int ln_wcompare_x2_at(const ln_weighted2 *p, const ln_weighted2 *q) {
  const int64_t v[] = {p->x, p->y, p->w, q->x, q->y, q->w};
  const int sign = lb0_wcompare_x2(v);
  return sign != 0 ? sign : lm_wcompare_x2_at(p, q);
}
static __attribute__((noinline)) int lm_wcompare_y2(const int64_t *x, const int64_t *v) {
  int64_t y[2], w[6];
  const int odd = lr_in_order(2, 3, x, v, y, w);
  if (lb0_wcompare_y2(w) != 0) __builtin_unreachable();
  const int sign = la_wcompare_y2(y, w);
  return odd ? -sign : sign;
}
int ln_wcompare_y2(const int64_t *x, const int64_t *v) {
  const int sign = lb0_wcompare_y2(v);
  return sign != 0 ? sign : lm_wcompare_y2(x, v);
}
int ln_wcompare_y2_plain(const int64_t *v) { return lb0_wcompare_y2(v); }
void ln_wcompare_y2_rows(size_t n, const int64_t *x, const int64_t *v, int8_t *signs) {
  for (size_t i = 0; i < n; i++) signs[i] = (int8_t)ln_wcompare_y2(x + 2 * i, v + 6 * i);
}
static __attribute__((noinline)) int lm_wcompare_y2_at(const ln_weighted2 *p, const ln_weighted2 *q) {
  const int64_t x[] = {p->index, q->index};
  const int64_t v[] = {p->x, p->y, p->w, q->x, q->y, q->w};
  return lm_wcompare_y2(x, v);
}
__attribute__((flatten)) int ln_wcompare_y2_plain_at(const ln_weighted2 *p, const ln_weighted2 *q) {
  const int64_t v[] = {p->x, p->y, p->w, q->x, q->y, q->w};
  return lb0_wcompare_y2(v);
}
__attribute__((flatten)) int ln_wcompare_y2_at(const ln_weighted2 *p, const ln_weighted2 *q) {
  const int64_t v[] = {p->x, p->y, p->w, q->x, q->y, q->w};
  const int sign = lb0_wcompare_y2(v);
  return sign != 0 ? sign : lm_wcompare_y2_at(p, q);
}
static __attribute__((noinline)) int lm_wcompare_w2(const int64_t *x, const int64_t *v) {
  int64_t y[2], w[6];
  const int odd = lr_in_order(2, 3, x, v, y, w);
  if (lb0_wcompare_w2(w) != 0) __builtin_unreachable();
  const int sign = la_wcompare_w2(y, w);
  return odd ? -sign : sign;
}
int ln_wcompare_w2(const int64_t *x, const int64_t *v) {
  const int sign = lb0_wcompare_w2(v);
  return sign != 0 ? sign : lm_wcompare_w2(x, v);
}
int ln_wcompare_w2_plain(const int64_t *v) { return lb0_wcompare_w2(v); }
void ln_wcompare_w2_rows(size_t n, const int64_t *x, const int64_t *v, int8_t *signs) {
  for (size_t i = 0; i < n; i++) signs[i] = (int8_t)ln_wcompare_w2(x + 2 * i, v + 6 * i);
}
static __attribute__((noinline)) int lm_wcompare_w2_at(const ln_weighted2 *p, const ln_weighted2 *q) {
  const int64_t x[] = {p->index, q->index};
  const int64_t v[] = {p->x, p->y, p->w, q->x, q->y, q->w};
  return lm_wcompare_w2(x, v);
}
__attribute__((flatten)) int ln_wcompare_w2_plain_at(const ln_weighted2 *p, const ln_weighted2 *q) {
  const int64_t v[] = {p->x, p->y, p->w, q->x, q->y, q->w};
  return lb0_wcompare_w2(v);
}
__attribute__((flatten)) int ln_wcompare_w2_at(const ln_weighted2 *p, const ln_weighted2 *q) {
  const int64_t v[] = {p->x, p->y, p->w, q->x, q->y, q->w};
  const int sign = lb0_wcompare_w2(v);
  return sign != 0 ? sign : lm_wcompare_w2_at(p, q);
}
static __attribute__((noinline)) int lm_wlexicographic2(const int64_t *x, const int64_t *v) {
  int64_t y[2], w[6];
  const int odd = lr_in_order(2, 3, x, v, y, w);
  if (lb0_wlexicographic2(w) != 0) __builtin_unreachable();
  const int sign = la_wlexicographic2(y, w);
  return odd ? -sign : sign;
}
int ln_wlexicographic2(const int64_t *x, const int64_t *v) {
  const int sign = lb0_wlexicographic2(v);
  return sign != 0 ? sign : lm_wlexicographic2(x, v);
}
int ln_wlexicographic2_plain(const int64_t *v) { return lb0_wlexicographic2(v); }
void ln_wlexicographic2_rows(size_t n, const int64_t *x, const int64_t *v, int8_t *signs) {
  for (size_t i = 0; i < n; i++) signs[i] = (int8_t)ln_wlexicographic2(x + 2 * i, v + 6 * i);
}
static __attribute__((noinline)) int lm_wlexicographic2_at(const ln_weighted2 *p, const ln_weighted2 *q) {
  const int64_t x[] = {p->index, q->index};
  const int64_t v[] = {p->x, p->y, p->w, q->x, q->y, q->w};
  return lm_wlexicographic2(x, v);
}
__attribute__((flatten)) int ln_wlexicographic2_plain_at(const ln_weighted2 *p, const ln_weighted2 *q) {
  const int64_t v[] = {p->x, p->y, p->w, q->x, q->y, q->w};
  return lb0_wlexicographic2(v);
}
__attribute__((flatten)) int ln_wlexicographic2_at(const ln_weighted2 *p, const ln_weighted2 *q) {
  const int64_t v[] = {p->x, p->y, p->w, q->x, q->y, q->w};
  const int sign = lb0_wlexicographic2(v);
  return sign != 0 ? sign : lm_wlexicographic2_at(p, q);
}
int ln_wcompare_distance2_plain(const int64_t *v) { return lb0_wcompare_distance2(v); }
void ln_wcompare_distance2_rows(size_t n, const int64_t *x, const int64_t *v, int8_t *signs) {
  for (size_t i = 0; i < n; i++) signs[i] = (int8_t)ln_wcompare_distance2(x + 3 * i, v + 9 * i);
}
static __attribute__((noinline)) int lm_wcompare_distance2_at(const ln_weighted2 *p, const ln_weighted2 *q, const ln_weighted2 *r) {
  const int64_t x[] = {p->index, q->index, r->index};
  const int64_t v[] = {p->x, p->y, p->w, q->x, q->y, q->w, r->x, r->y, r->w};
  return ln_wcompare_distance2(x, v);
}
__attribute__((flatten)) int ln_wcompare_distance2_plain_at(const ln_weighted2 *p, const ln_weighted2 *q, const ln_weighted2 *r) {
  const int64_t v[] = {p->x, p->y, p->w, q->x, q->y, q->w, r->x, r->y, r->w};
  return lb0_wcompare_distance2(v);
}
__attribute__((flatten)) int ln_wcompare_distance2_at(const ln_weighted2 *p, const ln_weighted2 *q, const ln_weighted2 *r) {
  const int64_t v[] = {p->x, p->y, p->w, q->x, q->y, q->w, r->x, r->y, r->w};
  const int sign = lb0_wcompare_distance2(v);
  return sign != 0 ? sign : lm_wcompare_distance2_at(p, q, r);
}
int ln_compare_power2_plain(const int64_t *v) { return lb0_compare_power2(v); }
void ln_compare_power2_rows(size_t n, const int64_t *x, const int64_t *v, int8_t *signs) {
  for (size_t i = 0; i < n; i++) signs[i] = (int8_t)ln_compare_power2(x + 3 * i, v + 9 * i);
}
static __attribute__((noinline)) int lm_compare_power2_at(const ln_weighted2 *p, const ln_weighted2 *q, const ln_weighted2 *r) {
  const int64_t x[] = {p->index, q->index, r->index};
  const int64_t v[] = {p->x, p->y, p->w, q->x, q->y, q->w, r->x, r->y, r->w};
  return ln_compare_power2(x, v);
}
__attribute__((flatten)) int ln_compare_power2_plain_at(const ln_weighted2 *p, const ln_weighted2 *q, const ln_weighted2 *r) {
  const int64_t v[] = {p->x, p->y, p->w, q->x, q->y, q->w, r->x, r->y, r->w};
  return lb0_compare_power2(v);
}
__attribute__((flatten)) int ln_compare_power2_at(const ln_weighted2 *p, const ln_weighted2 *q, const ln_weighted2 *r) {
  const int64_t v[] = {p->x, p->y, p->w, q->x, q->y, q->w, r->x, r->y, r->w};
  const int sign = lb0_compare_power2(v);
  return sign != 0 ? sign : lm_compare_power2_at(p, q, r);
}
int ln_wdot2_plain(const int64_t *v) { return lb0_wdot2(v); }
void ln_wdot2_rows(size_t n, const int64_t *x, const int64_t *v, int8_t *signs) {
  for (size_t i = 0; i < n; i++) signs[i] = (int8_t)ln_wdot2(x + 4 * i, v + 12 * i);
}
static __attribute__((noinline)) int lm_wdot2_at(const ln_weighted2 *p, const ln_weighted2 *q, const ln_weighted2 *r, const ln_weighted2 *s) {
  const int64_t x[] = {p->index, q->index, r->index, s->index};
  const int64_t v[] = {p->x, p->y, p->w, q->x, q->y, q->w, r->x, r->y, r->w, s->x, s->y, s->w};
  return ln_wdot2(x, v);
}
__attribute__((flatten)) int ln_wdot2_plain_at(const ln_weighted2 *p, const ln_weighted2 *q, const ln_weighted2 *r, const ln_weighted2 *s) {
  const int64_t v[] = {p->x, p->y, p->w, q->x, q->y, q->w, r->x, r->y, r->w, s->x, s->y, s->w};
  return lb0_wdot2(v);
}
__attribute__((flatten)) int ln_wdot2_at(const ln_weighted2 *p, const ln_weighted2 *q, const ln_weighted2 *r, const ln_weighted2 *s) {
  const int64_t v[] = {p->x, p->y, p->w, q->x, q->y, q->w, r->x, r->y, r->w, s->x, s->y, s->w};
  const int sign = lb0_wdot2(v);
  return sign != 0 ? sign : lm_wdot2_at(p, q, r, s);
}
int ln_wcompare_line2_plain(const int64_t *v) { return lb0_wcompare_line2(v); }
void ln_wcompare_line2_rows(size_t n, const int64_t *x, const int64_t *v, int8_t *signs) {
  for (size_t i = 0; i < n; i++) signs[i] = (int8_t)ln_wcompare_line2(x + 4 * i, v + 12 * i);
}
static __attribute__((noinline)) int lm_wcompare_line2_at(const ln_weighted2 *p, const ln_weighted2 *q, const ln_weighted2 *r, const ln_weighted2 *s) {
  const int64_t x[] = {p->index, q->index, r->index, s->index};
  const int64_t v[] = {p->x, p->y, p->w, q->x, q->y, q->w, r->x, r->y, r->w, s->x, s->y, s->w};
  return ln_wcompare_line2(x, v);
}
__attribute__((flatten)) int ln_wcompare_line2_plain_at(const ln_weighted2 *p, const ln_weighted2 *q, const ln_weighted2 *r, const ln_weighted2 *s) {
  const int64_t v[] = {p->x, p->y, p->w, q->x, q->y, q->w, r->x, r->y, r->w, s->x, s->y, s->w};
  return lb0_wcompare_line2(v);
}
__attribute__((flatten)) int ln_wcompare_line2_at(const ln_weighted2 *p, const ln_weighted2 *q, const ln_weighted2 *r, const ln_weighted2 *s) {
  const int64_t v[] = {p->x, p->y, p->w, q->x, q->y, q->w, r->x, r->y, r->w, s->x, s->y, s->w};
  const int sign = lb0_wcompare_line2(v);
  return sign != 0 ? sign : lm_wcompare_line2_at(p, q, r, s);
}
#ifdef __cplusplus
#pragma GCC diagnostic pop
#endif
#endif

#ifdef LNC_WEIGHTED_PLANE_CHECKED
#define ln_worient2 lc_worient2
#define ln_worient2_plain lc_worient2_plain
#define ln_worient2_rows lc_worient2_rows
#define ln_worient2_at lc_worient2_at
#define ln_worient2_plain_at lc_worient2_plain_at
#define ln_power2 lc_power2
#define ln_power2_plain lc_power2_plain
#define ln_power2_rows lc_power2_rows
#define ln_power2_at lc_power2_at
#define ln_power2_plain_at lc_power2_plain_at
#define ln_wdiametral2 lc_wdiametral2
#define ln_wdiametral2_plain lc_wdiametral2_plain
#define ln_wdiametral2_rows lc_wdiametral2_rows
#define ln_wdiametral2_at lc_wdiametral2_at
#define ln_wdiametral2_plain_at lc_wdiametral2_plain_at
#define ln_wcompare_x2 lc_wcompare_x2
#define ln_wcompare_x2_plain lc_wcompare_x2_plain
#define ln_wcompare_x2_rows lc_wcompare_x2_rows
#define ln_wcompare_x2_at lc_wcompare_x2_at
#define ln_wcompare_x2_plain_at lc_wcompare_x2_plain_at
#define ln_wcompare_y2 lc_wcompare_y2
#define ln_wcompare_y2_plain lc_wcompare_y2_plain
#define ln_wcompare_y2_rows lc_wcompare_y2_rows
#define ln_wcompare_y2_at lc_wcompare_y2_at
#define ln_wcompare_y2_plain_at lc_wcompare_y2_plain_at
#define ln_wcompare_w2 lc_wcompare_w2
#define ln_wcompare_w2_plain lc_wcompare_w2_plain
#define ln_wcompare_w2_rows lc_wcompare_w2_rows
#define ln_wcompare_w2_at lc_wcompare_w2_at
#define ln_wcompare_w2_plain_at lc_wcompare_w2_plain_at
#define ln_wlexicographic2 lc_wlexicographic2
#define ln_wlexicographic2_plain lc_wlexicographic2_plain
#define ln_wlexicographic2_rows lc_wlexicographic2_rows
#define ln_wlexicographic2_at lc_wlexicographic2_at
#define ln_wlexicographic2_plain_at lc_wlexicographic2_plain_at
#define ln_wcompare_distance2 lc_wcompare_distance2
#define ln_wcompare_distance2_plain lc_wcompare_distance2_plain
#define ln_wcompare_distance2_rows lc_wcompare_distance2_rows
#define ln_wcompare_distance2_at lc_wcompare_distance2_at
#define ln_wcompare_distance2_plain_at lc_wcompare_distance2_plain_at
#define ln_compare_power2 lc_compare_power2
#define ln_compare_power2_plain lc_compare_power2_plain
#define ln_compare_power2_rows lc_compare_power2_rows
#define ln_compare_power2_at lc_compare_power2_at
#define ln_compare_power2_plain_at lc_compare_power2_plain_at
#define ln_wdot2 lc_wdot2
#define ln_wdot2_plain lc_wdot2_plain
#define ln_wdot2_rows lc_wdot2_rows
#define ln_wdot2_at lc_wdot2_at
#define ln_wdot2_plain_at lc_wdot2_plain_at
#define ln_wcompare_line2 lc_wcompare_line2
#define ln_wcompare_line2_plain lc_wcompare_line2_plain
#define ln_wcompare_line2_rows lc_wcompare_line2_rows
#define ln_wcompare_line2_at lc_wcompare_line2_at
#define ln_wcompare_line2_plain_at lc_wcompare_line2_plain_at
#endif
