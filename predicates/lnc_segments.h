/* lnc_segments.h: written by header.py, so change segments.ln and not this file.
   segments.ln has the SHA-256 c3e8b11aa2ddfb97016e6ea781bd5fd2bb049e392817fc5ff5570d0f3452bfdd,
   and segments.c, which lnc_exact turning writes of it, the SHA-256 048be4c76e504eebdd290765e8880e900bfe28bbc57791bed3380afee52a1026.

   Two files are enough, this one and segments.c. In one C file of your program, compiled by gcc or clang for a 64-bit target:

       #define LNC_SEGMENTS_IMPLEMENTATION
       #include "lnc_segments.h"

   and in all others, C or C++, the second line alone. For each predicate NAME there are

   ln_NAME_at(&p, ..)           1 or -1, the sign at the moved points; with params it may be 0. The indices of the sites have to differ and are from 0 to
                                2^63 - 1, the values are each in its range. Nothing is checked (but see below). In C++ lnc::NAME(p, ..)
   ln_NAME_plain_at(&p, ..)     1, 0 or -1, the sign at the points themselves, 0 where they are degenerate. In C++ lnc::NAME_plain(p, ..)
   ln_NAME(x, v)                the same of arrays: x has the indices of the sites, v the values, in the order of the comments below; ln_NAME_plain(v)
   ln_NAME_rows(n, x, v, signs) ln_NAME of n rows, each after the other in x and in v, into signs

   and for each type of points SITE, with a member for the index and one for each coordinate, in the order in which the type declares them,

   ln_SITE_in_range(&p)         whether index and coordinates are in range; in C++ lnc::in_range(p). Test each point once, where it is made

   With `#define LNC_CHECKED` before the header is included, all these calls test what they are given. At the first value out of range, negative index or
   index twice they call ln_on_refusal, a pointer that you may set, with the names of predicate and argument; else they print these and abort

   Of turn2, crossings2
   segments.c has the sign in one order of the sites, la_NAME or ls_NAME, which is proved for rows whose indices rise. ln_NAME puts each row into this order
   (lr_in_order below), by lines that are tested and that no proof reaches */
#ifndef LNC_SEGMENTS_H
#define LNC_SEGMENTS_H
#include <stddef.h>
#include <stdint.h>

#if defined(LNC_CHECKED) && !defined(LNC_HAS_REFUSAL)
#define LNC_HAS_REFUSAL
#include <stdio.h>
#include <stdlib.h>
#ifdef __cplusplus
extern "C" {
#endif
/* told of the first fault of a call: the predicate, the argument ("p" for its index, "p.x"), what is wrong with it, and of ln_NAME_rows the row,
   from 0, otherwise SIZE_MAX. Where it returns, the call returns 0, or writes 0 for the row. Without another it prints this and aborts */
typedef void ln_refusal(const char *predicate, const char *argument, const char *fault, size_t row);
static inline void lr_aborts(const char *predicate, const char *argument, const char *fault, size_t row) {
  if (row == SIZE_MAX) fprintf(stderr, "lnc: %s: %s %s\n", predicate, argument, fault);
  else fprintf(stderr, "lnc: %s, row %zu: %s %s\n", predicate, row, argument, fault);
  abort();
}
__attribute__((weak)) ln_refusal *ln_on_refusal = lr_aborts;
static inline int lr_is(int right, const char *predicate, const char *argument, const char *fault, size_t row) {
  if (!right) ln_on_refusal(predicate, argument, fault, row);
  return right;
}
#ifdef __cplusplus
}
#endif
#endif

#ifdef __cplusplus
extern "C" {
#endif

#define LN_SEGMENT2_AX_MIN INT64_C(-536870912)
#define LN_SEGMENT2_AX_MAX INT64_C(536870912)
#define LN_SEGMENT2_AY_MIN INT64_C(-536870912)
#define LN_SEGMENT2_AY_MAX INT64_C(536870912)
#define LN_SEGMENT2_BX_MIN INT64_C(-536870912)
#define LN_SEGMENT2_BX_MAX INT64_C(536870912)
#define LN_SEGMENT2_BY_MIN INT64_C(-536870912)
#define LN_SEGMENT2_BY_MAX INT64_C(536870912)
typedef struct ln_segment2 { int64_t index, ax, ay, bx, by; } ln_segment2;
static inline int ln_segment2_in_range(const ln_segment2 *p) {
  return 0 <= p->index &&
    LN_SEGMENT2_AX_MIN <= p->ax && p->ax <= LN_SEGMENT2_AX_MAX &&
    LN_SEGMENT2_AY_MIN <= p->ay && p->ay <= LN_SEGMENT2_AY_MAX &&
    LN_SEGMENT2_BX_MIN <= p->bx && p->bx <= LN_SEGMENT2_BX_MAX &&
    LN_SEGMENT2_BY_MIN <= p->by && p->by <= LN_SEGMENT2_BY_MAX;
}

/* + where the end t.a, or t.b, is to the left of the line from s.a to s.b. */
/* x: s, t
   v: s.ax, s.ay, s.bx, s.by, t.ax, t.ay, t.bx, t.by */
int ln_side_a2(const int64_t *x, const int64_t *v);
int ln_side_a2_plain(const int64_t *v);
void ln_side_a2_rows(size_t n, const int64_t *x, const int64_t *v, int8_t *signs);
int ln_side_a2_at(const ln_segment2 *s, const ln_segment2 *t);
int ln_side_a2_plain_at(const ln_segment2 *s, const ln_segment2 *t);

/* x: s, t
   v: s.ax, s.ay, s.bx, s.by, t.ax, t.ay, t.bx, t.by */
int ln_side_b2(const int64_t *x, const int64_t *v);
int ln_side_b2_plain(const int64_t *v);
void ln_side_b2_rows(size_t n, const int64_t *x, const int64_t *v, int8_t *signs);
int ln_side_b2_at(const ln_segment2 *s, const ln_segment2 *t);
int ln_side_b2_plain_at(const ln_segment2 *s, const ln_segment2 *t);

/* + where the direction of t is to the left of that of s; never 0, since no two moved segments are parallel. */
/* x: s, t
   v: s.ax, s.ay, s.bx, s.by, t.ax, t.ay, t.bx, t.by */
int ln_turn2(const int64_t *x, const int64_t *v);
int ln_turn2_plain(const int64_t *v);
void ln_turn2_rows(size_t n, const int64_t *x, const int64_t *v, int8_t *signs);
int ln_turn2_at(const ln_segment2 *s, const ln_segment2 *t);
int ln_turn2_plain_at(const ln_segment2 *s, const ln_segment2 *t);

/* Times turn2(s, t) times turn2(s, u): + where the line of t crosses that of s after the line of u does, on the
   way from s.a to s.b. The two places are quotients; this is their difference multiplied by both denominators,
   whose signs turn2 has. */
/* x: s, t, u
   v: s.ax, s.ay, s.bx, s.by, t.ax, t.ay, t.bx, t.by, u.ax, u.ay, u.bx, u.by */
int ln_crossings2(const int64_t *x, const int64_t *v);
int ln_crossings2_plain(const int64_t *v);
void ln_crossings2_rows(size_t n, const int64_t *x, const int64_t *v, int8_t *signs);
int ln_crossings2_at(const ln_segment2 *s, const ln_segment2 *t, const ln_segment2 *u);
int ln_crossings2_plain_at(const ln_segment2 *s, const ln_segment2 *t, const ln_segment2 *u);

#ifdef LNC_CHECKED
#define LNC_SEGMENTS_CHECKED
static inline int lv_side_a2(const int64_t *v, size_t row) {
  return lr_is(LN_SEGMENT2_AX_MIN <= v[0] && v[0] <= LN_SEGMENT2_AX_MAX, "side_a2", "s.ax", "is out of range", row) &&
    lr_is(LN_SEGMENT2_AY_MIN <= v[1] && v[1] <= LN_SEGMENT2_AY_MAX, "side_a2", "s.ay", "is out of range", row) &&
    lr_is(LN_SEGMENT2_BX_MIN <= v[2] && v[2] <= LN_SEGMENT2_BX_MAX, "side_a2", "s.bx", "is out of range", row) &&
    lr_is(LN_SEGMENT2_BY_MIN <= v[3] && v[3] <= LN_SEGMENT2_BY_MAX, "side_a2", "s.by", "is out of range", row) &&
    lr_is(LN_SEGMENT2_AX_MIN <= v[4] && v[4] <= LN_SEGMENT2_AX_MAX, "side_a2", "t.ax", "is out of range", row) &&
    lr_is(LN_SEGMENT2_AY_MIN <= v[5] && v[5] <= LN_SEGMENT2_AY_MAX, "side_a2", "t.ay", "is out of range", row) &&
    lr_is(LN_SEGMENT2_BX_MIN <= v[6] && v[6] <= LN_SEGMENT2_BX_MAX, "side_a2", "t.bx", "is out of range", row) &&
    lr_is(LN_SEGMENT2_BY_MIN <= v[7] && v[7] <= LN_SEGMENT2_BY_MAX, "side_a2", "t.by", "is out of range", row);
}
static inline int li_side_a2(const int64_t *x, size_t row) {
  return lr_is(0 <= x[0], "side_a2", "s", "has a negative index", row) &&
    lr_is(0 <= x[1], "side_a2", "t", "has a negative index", row) &&
    lr_is(x[0] != x[1], "side_a2", "t", "has the index of s too", row);
}
static inline int lc_side_a2(const int64_t *x, const int64_t *v) { return lv_side_a2(v, SIZE_MAX) && li_side_a2(x, SIZE_MAX) ? ln_side_a2(x, v) : 0; }
static inline int lc_side_a2_plain(const int64_t *v) { return lv_side_a2(v, SIZE_MAX) ? ln_side_a2_plain(v) : 0; }
static inline void lc_side_a2_rows(size_t n, const int64_t *x, const int64_t *v, int8_t *signs) {
  for (size_t i = 0; i < n; i++) {
    signs[i] = 0;
    if (lv_side_a2(v + 8 * i, i) && li_side_a2(x + 2 * i, i)) ln_side_a2_rows(1, x + 2 * i, v + 8 * i, signs + i);
  }
}
static inline int lc_side_a2_at(const ln_segment2 *s, const ln_segment2 *t) {
  const int64_t x[] = {s->index, t->index};
  const int64_t v[] = {s->ax, s->ay, s->bx, s->by, t->ax, t->ay, t->bx, t->by};
  return lv_side_a2(v, SIZE_MAX) && li_side_a2(x, SIZE_MAX) ? ln_side_a2_at(s, t) : 0;
}
static inline int lc_side_a2_plain_at(const ln_segment2 *s, const ln_segment2 *t) {
  const int64_t v[] = {s->ax, s->ay, s->bx, s->by, t->ax, t->ay, t->bx, t->by};
  return lv_side_a2(v, SIZE_MAX) ? ln_side_a2_plain_at(s, t) : 0;
}
static inline int lv_side_b2(const int64_t *v, size_t row) {
  return lr_is(LN_SEGMENT2_AX_MIN <= v[0] && v[0] <= LN_SEGMENT2_AX_MAX, "side_b2", "s.ax", "is out of range", row) &&
    lr_is(LN_SEGMENT2_AY_MIN <= v[1] && v[1] <= LN_SEGMENT2_AY_MAX, "side_b2", "s.ay", "is out of range", row) &&
    lr_is(LN_SEGMENT2_BX_MIN <= v[2] && v[2] <= LN_SEGMENT2_BX_MAX, "side_b2", "s.bx", "is out of range", row) &&
    lr_is(LN_SEGMENT2_BY_MIN <= v[3] && v[3] <= LN_SEGMENT2_BY_MAX, "side_b2", "s.by", "is out of range", row) &&
    lr_is(LN_SEGMENT2_AX_MIN <= v[4] && v[4] <= LN_SEGMENT2_AX_MAX, "side_b2", "t.ax", "is out of range", row) &&
    lr_is(LN_SEGMENT2_AY_MIN <= v[5] && v[5] <= LN_SEGMENT2_AY_MAX, "side_b2", "t.ay", "is out of range", row) &&
    lr_is(LN_SEGMENT2_BX_MIN <= v[6] && v[6] <= LN_SEGMENT2_BX_MAX, "side_b2", "t.bx", "is out of range", row) &&
    lr_is(LN_SEGMENT2_BY_MIN <= v[7] && v[7] <= LN_SEGMENT2_BY_MAX, "side_b2", "t.by", "is out of range", row);
}
static inline int li_side_b2(const int64_t *x, size_t row) {
  return lr_is(0 <= x[0], "side_b2", "s", "has a negative index", row) &&
    lr_is(0 <= x[1], "side_b2", "t", "has a negative index", row) &&
    lr_is(x[0] != x[1], "side_b2", "t", "has the index of s too", row);
}
static inline int lc_side_b2(const int64_t *x, const int64_t *v) { return lv_side_b2(v, SIZE_MAX) && li_side_b2(x, SIZE_MAX) ? ln_side_b2(x, v) : 0; }
static inline int lc_side_b2_plain(const int64_t *v) { return lv_side_b2(v, SIZE_MAX) ? ln_side_b2_plain(v) : 0; }
static inline void lc_side_b2_rows(size_t n, const int64_t *x, const int64_t *v, int8_t *signs) {
  for (size_t i = 0; i < n; i++) {
    signs[i] = 0;
    if (lv_side_b2(v + 8 * i, i) && li_side_b2(x + 2 * i, i)) ln_side_b2_rows(1, x + 2 * i, v + 8 * i, signs + i);
  }
}
static inline int lc_side_b2_at(const ln_segment2 *s, const ln_segment2 *t) {
  const int64_t x[] = {s->index, t->index};
  const int64_t v[] = {s->ax, s->ay, s->bx, s->by, t->ax, t->ay, t->bx, t->by};
  return lv_side_b2(v, SIZE_MAX) && li_side_b2(x, SIZE_MAX) ? ln_side_b2_at(s, t) : 0;
}
static inline int lc_side_b2_plain_at(const ln_segment2 *s, const ln_segment2 *t) {
  const int64_t v[] = {s->ax, s->ay, s->bx, s->by, t->ax, t->ay, t->bx, t->by};
  return lv_side_b2(v, SIZE_MAX) ? ln_side_b2_plain_at(s, t) : 0;
}
static inline int lv_turn2(const int64_t *v, size_t row) {
  return lr_is(LN_SEGMENT2_AX_MIN <= v[0] && v[0] <= LN_SEGMENT2_AX_MAX, "turn2", "s.ax", "is out of range", row) &&
    lr_is(LN_SEGMENT2_AY_MIN <= v[1] && v[1] <= LN_SEGMENT2_AY_MAX, "turn2", "s.ay", "is out of range", row) &&
    lr_is(LN_SEGMENT2_BX_MIN <= v[2] && v[2] <= LN_SEGMENT2_BX_MAX, "turn2", "s.bx", "is out of range", row) &&
    lr_is(LN_SEGMENT2_BY_MIN <= v[3] && v[3] <= LN_SEGMENT2_BY_MAX, "turn2", "s.by", "is out of range", row) &&
    lr_is(LN_SEGMENT2_AX_MIN <= v[4] && v[4] <= LN_SEGMENT2_AX_MAX, "turn2", "t.ax", "is out of range", row) &&
    lr_is(LN_SEGMENT2_AY_MIN <= v[5] && v[5] <= LN_SEGMENT2_AY_MAX, "turn2", "t.ay", "is out of range", row) &&
    lr_is(LN_SEGMENT2_BX_MIN <= v[6] && v[6] <= LN_SEGMENT2_BX_MAX, "turn2", "t.bx", "is out of range", row) &&
    lr_is(LN_SEGMENT2_BY_MIN <= v[7] && v[7] <= LN_SEGMENT2_BY_MAX, "turn2", "t.by", "is out of range", row);
}
static inline int li_turn2(const int64_t *x, size_t row) {
  return lr_is(0 <= x[0], "turn2", "s", "has a negative index", row) &&
    lr_is(0 <= x[1], "turn2", "t", "has a negative index", row) &&
    lr_is(x[0] != x[1], "turn2", "t", "has the index of s too", row);
}
static inline int lc_turn2(const int64_t *x, const int64_t *v) { return lv_turn2(v, SIZE_MAX) && li_turn2(x, SIZE_MAX) ? ln_turn2(x, v) : 0; }
static inline int lc_turn2_plain(const int64_t *v) { return lv_turn2(v, SIZE_MAX) ? ln_turn2_plain(v) : 0; }
static inline void lc_turn2_rows(size_t n, const int64_t *x, const int64_t *v, int8_t *signs) {
  for (size_t i = 0; i < n; i++) {
    signs[i] = 0;
    if (lv_turn2(v + 8 * i, i) && li_turn2(x + 2 * i, i)) ln_turn2_rows(1, x + 2 * i, v + 8 * i, signs + i);
  }
}
static inline int lc_turn2_at(const ln_segment2 *s, const ln_segment2 *t) {
  const int64_t x[] = {s->index, t->index};
  const int64_t v[] = {s->ax, s->ay, s->bx, s->by, t->ax, t->ay, t->bx, t->by};
  return lv_turn2(v, SIZE_MAX) && li_turn2(x, SIZE_MAX) ? ln_turn2_at(s, t) : 0;
}
static inline int lc_turn2_plain_at(const ln_segment2 *s, const ln_segment2 *t) {
  const int64_t v[] = {s->ax, s->ay, s->bx, s->by, t->ax, t->ay, t->bx, t->by};
  return lv_turn2(v, SIZE_MAX) ? ln_turn2_plain_at(s, t) : 0;
}
static inline int lv_crossings2(const int64_t *v, size_t row) {
  return lr_is(LN_SEGMENT2_AX_MIN <= v[0] && v[0] <= LN_SEGMENT2_AX_MAX, "crossings2", "s.ax", "is out of range", row) &&
    lr_is(LN_SEGMENT2_AY_MIN <= v[1] && v[1] <= LN_SEGMENT2_AY_MAX, "crossings2", "s.ay", "is out of range", row) &&
    lr_is(LN_SEGMENT2_BX_MIN <= v[2] && v[2] <= LN_SEGMENT2_BX_MAX, "crossings2", "s.bx", "is out of range", row) &&
    lr_is(LN_SEGMENT2_BY_MIN <= v[3] && v[3] <= LN_SEGMENT2_BY_MAX, "crossings2", "s.by", "is out of range", row) &&
    lr_is(LN_SEGMENT2_AX_MIN <= v[4] && v[4] <= LN_SEGMENT2_AX_MAX, "crossings2", "t.ax", "is out of range", row) &&
    lr_is(LN_SEGMENT2_AY_MIN <= v[5] && v[5] <= LN_SEGMENT2_AY_MAX, "crossings2", "t.ay", "is out of range", row) &&
    lr_is(LN_SEGMENT2_BX_MIN <= v[6] && v[6] <= LN_SEGMENT2_BX_MAX, "crossings2", "t.bx", "is out of range", row) &&
    lr_is(LN_SEGMENT2_BY_MIN <= v[7] && v[7] <= LN_SEGMENT2_BY_MAX, "crossings2", "t.by", "is out of range", row) &&
    lr_is(LN_SEGMENT2_AX_MIN <= v[8] && v[8] <= LN_SEGMENT2_AX_MAX, "crossings2", "u.ax", "is out of range", row) &&
    lr_is(LN_SEGMENT2_AY_MIN <= v[9] && v[9] <= LN_SEGMENT2_AY_MAX, "crossings2", "u.ay", "is out of range", row) &&
    lr_is(LN_SEGMENT2_BX_MIN <= v[10] && v[10] <= LN_SEGMENT2_BX_MAX, "crossings2", "u.bx", "is out of range", row) &&
    lr_is(LN_SEGMENT2_BY_MIN <= v[11] && v[11] <= LN_SEGMENT2_BY_MAX, "crossings2", "u.by", "is out of range", row);
}
static inline int li_crossings2(const int64_t *x, size_t row) {
  return lr_is(0 <= x[0], "crossings2", "s", "has a negative index", row) &&
    lr_is(0 <= x[1], "crossings2", "t", "has a negative index", row) &&
    lr_is(0 <= x[2], "crossings2", "u", "has a negative index", row) &&
    lr_is(x[0] != x[1], "crossings2", "t", "has the index of s too", row) &&
    lr_is(x[0] != x[2], "crossings2", "u", "has the index of s too", row) &&
    lr_is(x[1] != x[2], "crossings2", "u", "has the index of t too", row);
}
static inline int lc_crossings2(const int64_t *x, const int64_t *v) { return lv_crossings2(v, SIZE_MAX) && li_crossings2(x, SIZE_MAX) ? ln_crossings2(x, v) : 0; }
static inline int lc_crossings2_plain(const int64_t *v) { return lv_crossings2(v, SIZE_MAX) ? ln_crossings2_plain(v) : 0; }
static inline void lc_crossings2_rows(size_t n, const int64_t *x, const int64_t *v, int8_t *signs) {
  for (size_t i = 0; i < n; i++) {
    signs[i] = 0;
    if (lv_crossings2(v + 12 * i, i) && li_crossings2(x + 3 * i, i)) ln_crossings2_rows(1, x + 3 * i, v + 12 * i, signs + i);
  }
}
static inline int lc_crossings2_at(const ln_segment2 *s, const ln_segment2 *t, const ln_segment2 *u) {
  const int64_t x[] = {s->index, t->index, u->index};
  const int64_t v[] = {s->ax, s->ay, s->bx, s->by, t->ax, t->ay, t->bx, t->by, u->ax, u->ay, u->bx, u->by};
  return lv_crossings2(v, SIZE_MAX) && li_crossings2(x, SIZE_MAX) ? ln_crossings2_at(s, t, u) : 0;
}
static inline int lc_crossings2_plain_at(const ln_segment2 *s, const ln_segment2 *t, const ln_segment2 *u) {
  const int64_t v[] = {s->ax, s->ay, s->bx, s->by, t->ax, t->ay, t->bx, t->by, u->ax, u->ay, u->bx, u->by};
  return lv_crossings2(v, SIZE_MAX) ? ln_crossings2_plain_at(s, t, u) : 0;
}
#endif

#ifdef __cplusplus
}

#include <cstdint>
#ifdef LNC_CHECKED
#define LNC_CALL(name) ::lc_##name
#else
#define LNC_CALL(name) ::ln_##name
#endif
namespace lnc {
typedef ::ln_segment2 segment2;
inline bool in_range(const segment2 &p) { return ::ln_segment2_in_range(&p) != 0; }
#ifdef LNC_CHECKED
inline namespace checked {
#endif
inline int side_a2(const segment2 &s, const segment2 &t) {
  return LNC_CALL(side_a2_at)(&s, &t);
}
inline int side_a2_plain(const segment2 &s, const segment2 &t) {
  return LNC_CALL(side_a2_plain_at)(&s, &t);
}
inline int side_b2(const segment2 &s, const segment2 &t) {
  return LNC_CALL(side_b2_at)(&s, &t);
}
inline int side_b2_plain(const segment2 &s, const segment2 &t) {
  return LNC_CALL(side_b2_plain_at)(&s, &t);
}
inline int turn2(const segment2 &s, const segment2 &t) {
  return LNC_CALL(turn2_at)(&s, &t);
}
inline int turn2_plain(const segment2 &s, const segment2 &t) {
  return LNC_CALL(turn2_plain_at)(&s, &t);
}
inline int crossings2(const segment2 &s, const segment2 &t, const segment2 &u) {
  return LNC_CALL(crossings2_at)(&s, &t, &u);
}
inline int crossings2_plain(const segment2 &s, const segment2 &t, const segment2 &u) {
  return LNC_CALL(crossings2_plain_at)(&s, &t, &u);
}
#ifdef LNC_CHECKED
}
#endif
}
#undef LNC_CALL
#endif
#endif

#if defined(LNC_SEGMENTS_IMPLEMENTATION) && !defined(LNC_SEGMENTS_IMPLEMENTED)
#define LNC_SEGMENTS_IMPLEMENTED
#undef ln_side_a2
#undef ln_side_a2_plain
#undef ln_side_a2_rows
#undef ln_side_a2_at
#undef ln_side_a2_plain_at
#undef ln_side_b2
#undef ln_side_b2_plain
#undef ln_side_b2_rows
#undef ln_side_b2_at
#undef ln_side_b2_plain_at
#undef ln_turn2
#undef ln_turn2_plain
#undef ln_turn2_rows
#undef ln_turn2_at
#undef ln_turn2_plain_at
#undef ln_crossings2
#undef ln_crossings2_plain
#undef ln_crossings2_rows
#undef ln_crossings2_at
#undef ln_crossings2_plain_at
#ifndef __SIZEOF_INT128__
#error "no __int128 here: segments.c takes gcc or clang for a 64-bit target"
#endif
#ifdef __cplusplus
#pragma GCC diagnostic push
#pragma GCC diagnostic ignored "-Wold-style-cast"
#endif
static inline __attribute__((always_inline)) int la_turn2(const int64_t *x, const int64_t *v);
static inline __attribute__((always_inline)) int la_crossings2(const int64_t *x, const int64_t *v);
#include "segments.c"
#ifndef LNC_HAS_ORDER
#define LNC_HAS_ORDER
#if defined(__clang__) || __GNUC__ < 8
#define LNC_UNROLLED
#else
#define LNC_UNROLLED _Pragma("GCC unroll 8")
#endif
/* Writes the indices as they rise to y, and of each site as many values alike to w. Returns whether an odd number of pairs of sites was the other way round.
   Two of one index stay as they are. (Without branches, since nothing foretells an order. There are at most 5 sites) */
static inline __attribute__((always_inline)) int lr_in_order(int sites, int many, const int64_t *x, const int64_t *v, int64_t *y, int64_t *w) {
  int turned = 0, rank[] = {0, 1, 2, 3, 4};
  LNC_UNROLLED
  for (int j = 1; j < sites; j++) {
    LNC_UNROLLED
    for (int k = 0; k < j; k++) {
      const int is_turned = x[k] > x[j];
      rank[k] += is_turned;
      rank[j] -= is_turned;
      turned += is_turned;
    }
  }
  LNC_UNROLLED
  for (int j = 0; j < sites; j++) {
    y[rank[j]] = x[j];
    LNC_UNROLLED
    for (int c = 0; c < many; c++) w[many * rank[j] + c] = v[many * j + c];
  }
  return turned % 2;
}
#undef LNC_UNROLLED
#endif
int ln_side_a2_plain(const int64_t *v) { return lb0_side_a2(v); }
void ln_side_a2_rows(size_t n, const int64_t *x, const int64_t *v, int8_t *signs) {
  for (size_t i = 0; i < n; i++) signs[i] = (int8_t)ln_side_a2(x + 2 * i, v + 8 * i);
}
static __attribute__((noinline)) int lm_side_a2_at(const ln_segment2 *s, const ln_segment2 *t) {
  const int64_t x[] = {s->index, t->index};
  const int64_t v[] = {s->ax, s->ay, s->bx, s->by, t->ax, t->ay, t->bx, t->by};
  return ln_side_a2(x, v);
}
__attribute__((flatten)) int ln_side_a2_plain_at(const ln_segment2 *s, const ln_segment2 *t) {
  const int64_t v[] = {s->ax, s->ay, s->bx, s->by, t->ax, t->ay, t->bx, t->by};
  return lb0_side_a2(v);
}
__attribute__((flatten)) int ln_side_a2_at(const ln_segment2 *s, const ln_segment2 *t) {
  const int64_t v[] = {s->ax, s->ay, s->bx, s->by, t->ax, t->ay, t->bx, t->by};
  const int sign = lb0_side_a2(v);
  return sign != 0 ? sign : lm_side_a2_at(s, t);
}
int ln_side_b2_plain(const int64_t *v) { return lb0_side_b2(v); }
void ln_side_b2_rows(size_t n, const int64_t *x, const int64_t *v, int8_t *signs) {
  for (size_t i = 0; i < n; i++) signs[i] = (int8_t)ln_side_b2(x + 2 * i, v + 8 * i);
}
static __attribute__((noinline)) int lm_side_b2_at(const ln_segment2 *s, const ln_segment2 *t) {
  const int64_t x[] = {s->index, t->index};
  const int64_t v[] = {s->ax, s->ay, s->bx, s->by, t->ax, t->ay, t->bx, t->by};
  return ln_side_b2(x, v);
}
__attribute__((flatten)) int ln_side_b2_plain_at(const ln_segment2 *s, const ln_segment2 *t) {
  const int64_t v[] = {s->ax, s->ay, s->bx, s->by, t->ax, t->ay, t->bx, t->by};
  return lb0_side_b2(v);
}
__attribute__((flatten)) int ln_side_b2_at(const ln_segment2 *s, const ln_segment2 *t) {
  const int64_t v[] = {s->ax, s->ay, s->bx, s->by, t->ax, t->ay, t->bx, t->by};
  const int sign = lb0_side_b2(v);
  return sign != 0 ? sign : lm_side_b2_at(s, t);
}
static __attribute__((noinline)) int lm_turn2(const int64_t *x, const int64_t *v) {
  int64_t y[2], w[8];
  const int odd = lr_in_order(2, 4, x, v, y, w);
  if (lb0_turn2(w) != 0) __builtin_unreachable();
  const int sign = la_turn2(y, w);
  return odd ? -sign : sign;
}
int ln_turn2(const int64_t *x, const int64_t *v) {
  const int sign = lb0_turn2(v);
  return sign != 0 ? sign : lm_turn2(x, v);
}
int ln_turn2_plain(const int64_t *v) { return lb0_turn2(v); }
void ln_turn2_rows(size_t n, const int64_t *x, const int64_t *v, int8_t *signs) {
  for (size_t i = 0; i < n; i++) signs[i] = (int8_t)ln_turn2(x + 2 * i, v + 8 * i);
}
static __attribute__((noinline)) int lm_turn2_at(const ln_segment2 *s, const ln_segment2 *t) {
  const int64_t x[] = {s->index, t->index};
  const int64_t v[] = {s->ax, s->ay, s->bx, s->by, t->ax, t->ay, t->bx, t->by};
  return lm_turn2(x, v);
}
__attribute__((flatten)) int ln_turn2_plain_at(const ln_segment2 *s, const ln_segment2 *t) {
  const int64_t v[] = {s->ax, s->ay, s->bx, s->by, t->ax, t->ay, t->bx, t->by};
  return lb0_turn2(v);
}
__attribute__((flatten)) int ln_turn2_at(const ln_segment2 *s, const ln_segment2 *t) {
  const int64_t v[] = {s->ax, s->ay, s->bx, s->by, t->ax, t->ay, t->bx, t->by};
  const int sign = lb0_turn2(v);
  return sign != 0 ? sign : lm_turn2_at(s, t);
}
static __attribute__((noinline)) int lm_crossings2(const int64_t *x, const int64_t *v) {
  int64_t y[3], w[12];
  const int odd = lr_in_order(3, 4, x, v, y, w);
  if (lb0_crossings2(w) != 0) __builtin_unreachable();
  const int sign = la_crossings2(y, w);
  return odd ? -sign : sign;
}
int ln_crossings2(const int64_t *x, const int64_t *v) {
  const int sign = lb0_crossings2(v);
  return sign != 0 ? sign : lm_crossings2(x, v);
}
int ln_crossings2_plain(const int64_t *v) { return lb0_crossings2(v); }
void ln_crossings2_rows(size_t n, const int64_t *x, const int64_t *v, int8_t *signs) {
  for (size_t i = 0; i < n; i++) signs[i] = (int8_t)ln_crossings2(x + 3 * i, v + 12 * i);
}
static __attribute__((noinline)) int lm_crossings2_at(const ln_segment2 *s, const ln_segment2 *t, const ln_segment2 *u) {
  const int64_t x[] = {s->index, t->index, u->index};
  const int64_t v[] = {s->ax, s->ay, s->bx, s->by, t->ax, t->ay, t->bx, t->by, u->ax, u->ay, u->bx, u->by};
  return lm_crossings2(x, v);
}
__attribute__((flatten)) int ln_crossings2_plain_at(const ln_segment2 *s, const ln_segment2 *t, const ln_segment2 *u) {
  const int64_t v[] = {s->ax, s->ay, s->bx, s->by, t->ax, t->ay, t->bx, t->by, u->ax, u->ay, u->bx, u->by};
  return lb0_crossings2(v);
}
__attribute__((flatten)) int ln_crossings2_at(const ln_segment2 *s, const ln_segment2 *t, const ln_segment2 *u) {
  const int64_t v[] = {s->ax, s->ay, s->bx, s->by, t->ax, t->ay, t->bx, t->by, u->ax, u->ay, u->bx, u->by};
  const int sign = lb0_crossings2(v);
  return sign != 0 ? sign : lm_crossings2_at(s, t, u);
}
#ifdef __cplusplus
#pragma GCC diagnostic pop
#endif
#endif

#ifdef LNC_SEGMENTS_CHECKED
#define ln_side_a2 lc_side_a2
#define ln_side_a2_plain lc_side_a2_plain
#define ln_side_a2_rows lc_side_a2_rows
#define ln_side_a2_at lc_side_a2_at
#define ln_side_a2_plain_at lc_side_a2_plain_at
#define ln_side_b2 lc_side_b2
#define ln_side_b2_plain lc_side_b2_plain
#define ln_side_b2_rows lc_side_b2_rows
#define ln_side_b2_at lc_side_b2_at
#define ln_side_b2_plain_at lc_side_b2_plain_at
#define ln_turn2 lc_turn2
#define ln_turn2_plain lc_turn2_plain
#define ln_turn2_rows lc_turn2_rows
#define ln_turn2_at lc_turn2_at
#define ln_turn2_plain_at lc_turn2_plain_at
#define ln_crossings2 lc_crossings2
#define ln_crossings2_plain lc_crossings2_plain
#define ln_crossings2_rows lc_crossings2_rows
#define ln_crossings2_at lc_crossings2_at
#define ln_crossings2_plain_at lc_crossings2_plain_at
#endif
