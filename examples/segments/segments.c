/* A constrained Delaunay triangulation over predicates/lnc_plane.h: of all triangulations of the points in which each segment is an edge, or a chain of
   edges with the points that are on it, the one whose circles have no point inside that can be seen across the other edges.

   Standard input has the numbers of points and of segments, a pair of doubles for each point, and for each segment the numbers of its ends, from 0.
   Standard output has a line `triangle A B C` for each triangle, counterclockwise, and a line `segment A .. B` for each segment, with the points that it
   passes. Flat triangles, which are all at the hull, are left out; of points at one place the first counts. Status 1: two segments cross where no
   point is, or the input is none.

   All questions are about moved points, which are never on a line or a circle, so none of them has a third answer. One alone is about the points as they
   stand: which of them are on a segment (`is_passed`). These divide it into pieces; a piece is never on a line with another point than its ends, and
   what the moved points say of it holds for the plain ones */
#include <lnc_grid.h>
#define LNC_PLANE_IMPLEMENTATION
#include <lnc_plane.h>
#include <stdio.h>

/* Half edges, three for each triangle: the corner where each begins, the same edge of the triangle on its other side, and whether it is a segment's.
   Beyond each edge of the hull is a triangle too, whose third corner is OUTSIDE. Of each point a half edge that begins there */
enum { OUTSIDE = -1 };
static ln_point2 *site;
static int *from, *twin, *at, made;
static char *kept;

static int next(int h) { return h % 3 == 2 ? h - 2 : h + 1; }
static int last(int h) { return next(next(h)); }
static int to(int h) { return from[next(h)]; }
/* g is on the other side of h, and knows whether the edge is kept */
static void join(int h, int g) {
  twin[h] = g;
  twin[g] = h;
  kept[h] = kept[g];
}
static void set(int h, int a, int b, int c) {
  const int corner[3] = {a, b, c};
  for (int k = 0; k < 3; k++, h = next(h)) {
    from[h] = corner[k];
    kept[h] = 0;
    if (corner[k] != OUTSIDE) at[corner[k]] = h;
  }
}
static int is_left(int a, int b, int p) { return ln_orient2_at(&site[a], &site[b], &site[p]) > 0; }
static int is_inside(int a, int b, int c, int p) { return ln_incircle_at(&site[a], &site[b], &site[c], &site[p]) > 0; }
/* the edge of the hull that the triangle of h is beyond, -1 where it is beyond none */
static int hull(int h) { return from[h] == OUTSIDE ? next(h) : to(h) == OUTSIDE ? last(h) : from[last(h)] == OUTSIDE ? h : -1; }

/* ---- the points: a Delaunay triangulation */

static void begin(int a, int b, int c) {
  if (is_left(a, b, c)) set(0, a, b, c);
  else set(0, b, a, c);
  for (int k = 0; k < 3; k++) set(3 * k + 3, to(k), from[k], OUTSIDE);
  for (int k = 0; k < 3; k++) {
    join(k, 3 * k + 3);
    join(3 * k + 4, 3 * ((k + 2) % 3) + 5);
  }
  made = 12;
}
/* h is across from its triangle's new corner p: where p is in the circle on the other side (of the hull: beyond it), the edge is turned towards p */
static void flip(int h) {
  const int n = next(h), l = last(h), g = twin[h], m = next(g), k = last(g), a = from[h], b = from[n], p = from[l], q = from[k];
  const int beyond = hull(g);
  if (beyond >= 0 ? !is_left(from[beyond], to(beyond), p) : !is_inside(b, a, q, p)) return;
  const int pa = twin[l], aq = twin[m], qb = twin[k];
  set(h, q, b, p);
  set(g, a, q, p);
  join(h, qb);
  join(g, aq);
  join(k, pa);
  join(l, m);
  flip(h);
  flip(g);
}
static void insert(int p) {
  int h = hull(made - 3) < 0 ? made - 3 : twin[hull(made - 3)];
  for (int sides = 0; sides < 3 && hull(h) < 0; sides++, h = next(h))
    if (!is_left(from[h], to(h), p)) {
      h = twin[h];
      sides = 0;
    }
  const int n = next(h), l = last(h), u = made, w = made + 3, a = from[h], b = from[n], c = from[l], bc = twin[n], ca = twin[l];
  made += 6;
  set(h, a, b, p);
  set(u, b, c, p);
  set(w, c, a, p);
  join(u, bc);
  join(w, ca);
  join(n, u + 2);
  join(u + 1, w + 2);
  join(w + 1, l);
  flip(h);
  flip(u);
  flip(w);
}

/* ---- the segments */

/* the points of a side of a piece, from its one end to its other, and for each of its edges a half edge that stands for those of the triangles that were
   removed there; the triangles that were removed, which are used again; and the points that a segment passes */
typedef struct { int *point, *edge, count; } chain;
static chain left, right;
static int *removed, removals, *way;

/* whether p, as it stands, is on the segment from a to b and not at a */
static int is_passed(int a, int b, int p) {
  return p == b || (ln_orient2_plain_at(&site[a], &site[b], &site[p]) == 0 && ln_diametral2_plain_at(&site[a], &site[b], &site[p]) > 0);
}
/* of the edges from a the one to the point that the segment to b passes first, otherwise -1 */
static int first_passed(int a, int b) {
  int found = -1, h = at[a];
  do {
    if (to(h) != OUTSIDE && is_passed(a, b, to(h)) && (found < 0 || is_passed(a, to(found), to(h)))) found = h;
    h = twin[last(h)];
  } while (h != at[a]);
  return found;
}
/* a point of a chain and the edge to it, h of a triangle that is removed. What was on the other side of h then has the half edge that stands for it */
static void link(chain *side, int point, int h, int spare) {
  side->point[++side->count] = point;
  side->edge[side->count] = spare;
  join(spare, twin[h]);
}
/* the triangles to the left of i .. j of a chain: the first has the point whose circle with both ends has none of the others in it */
static int fill(const chain *side, int i, int j) {
  if (i + 1 == j) return twin[side->edge[j]];
  const int a = side->point[i], b = side->point[j], h = removed[--removals];
  int best = -1;
  for (int k = i + 1; k < j; k++)
    if (is_left(a, b, side->point[k]) && (best < 0 || is_inside(a, b, side->point[best], side->point[k]))) best = k;
  set(h, a, b, side->point[best]);
  join(last(h), fill(side, i, best));
  join(next(h), fill(side, best, j));
  return h;
}
/* makes the piece from a to the next point that the segment to b passes, none of which is across an edge from a: that point, or -1 where a segment that is
   there already crosses it */
static int pieced(int a, int b) {
  int h = at[a], spare = made;
  while (to(h) == OUTSIDE || from[last(h)] == OUTSIDE || !is_left(a, to(h), b) || is_left(a, from[last(h)], b)) h = twin[last(h)];
  left.point[0] = right.point[0] = a;
  left.count = right.count = 0;
  removed[0] = h - h % 3;
  removals = 1;
  link(&right, to(h), h, spare++);
  link(&left, from[last(h)], last(h), spare++);
  for (h = next(h);;) {
    if (kept[h]) return -1;
    h = twin[h];
    removed[removals++] = h - h % 3;
    const int apex = from[last(h)], is_end = is_passed(a, b, apex), is_above = !is_end && is_left(a, b, apex);
    if (is_end || is_above) link(&left, apex, last(h), spare++);
    if (is_end || !is_above) link(&right, apex, next(h), spare++);
    if (is_end) return apex;
    h = is_above ? next(h) : last(h);
  }
}
static void turned(chain *side) {
  for (int i = 0, j = side->count; i < j; i++, j--) {
    const int point = side->point[i];
    side->point[i] = side->point[j];
    side->point[j] = point;
  }
  for (int i = 1, j = side->count; i < j; i++, j--) {
    const int edge = side->edge[i];
    side->edge[i] = side->edge[j];
    side->edge[j] = edge;
  }
}
/* keeps the edges of the chain from a to b and writes it, unless another segment crosses it */
static int keep(int a, int b) {
  int points = 1;
  for (*way = a; a != b; way[points++] = a) {
    int h = first_passed(a, b);
    if (h < 0) {
      if (pieced(a, b) < 0) return 0;
      turned(&right);
      h = fill(&left, 0, left.count);
      join(h, fill(&right, 0, right.count));
    }
    kept[h] = kept[twin[h]] = 1;
    a = to(h);
  }
  printf("segment");
  for (int k = 0; k < points; k++) printf(" %d", way[k]);
  return printf("\n"), 1;
}

static int *numbers(size_t n) { return malloc(n * sizeof(int)); }
int main(void) {
  size_t n = 0, segments = 0, read = 0;
  if (scanf("%zu %zu", &n, &segments) != 2 || n > 100000000) return fprintf(stderr, "no numbers of points and segments\n"), 1;
  double *xy = malloc((2 * n + 1) * sizeof *xy);
  while (read < 2 * n && scanf("%lf", &xy[read]) == 1) read++;
  ln_grid grid;
  if (read < 2 * n) return fprintf(stderr, "no point %zu\n", read / 2), 1;
  if (ln_grid_make(&grid, 2, n, xy, LN_POINT2_X_MIN, LN_POINT2_X_MAX) != LN_GRID_DONE) return fprintf(stderr, "point %zu isn't finite\n", grid.refused), 1;
  const size_t halves = 12 * (n + 3);
  site = malloc((n + 3) * sizeof *site);
  from = numbers(halves), twin = numbers(halves), at = numbers(n + 3), way = numbers(n + 3), removed = numbers(halves), kept = calloc(halves, 1);
  left = (chain){numbers(halves), numbers(halves), 0}, right = (chain){numbers(halves), numbers(halves), 0};
  int corner[3], begun = 0;
  for (int i = 0; i < (int)n; i++) {
    site[i] = (ln_point2){i, grid.at[2 * i], grid.at[2 * i + 1]};
    if (grid.first[i] != (size_t)i) continue;
    if (begun == 3) insert(i);
    else if ((corner[begun++] = i, begun) == 3) begin(corner[0], corner[1], corner[2]);
  }
  for (size_t k = 0; k < segments; k++) {
    size_t a, b;
    if (scanf("%zu %zu", &a, &b) != 2 || a >= n || b >= n) return fprintf(stderr, "no segment %zu\n", k), 1;
    if (begun < 3) return fprintf(stderr, "fewer than three places\n"), 1;
    if (!keep((int)grid.first[a], (int)grid.first[b])) return fflush(stdout), fprintf(stderr, "segment %zu is crossed\n", k), 1;
  }
  for (int h = 0; h < made; h += 3)
    if (hull(h) < 0 && ln_orient2_plain_at(&site[from[h]], &site[from[h + 1]], &site[from[h + 2]]))
      printf("triangle %d %d %d\n", from[h], from[h + 1], from[h + 2]);
}
