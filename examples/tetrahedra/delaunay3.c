/* A regular tetrahedralization with no case for degenerate input; where all weights are 0, it is the Delaunay tetrahedralization.

   Its two predicates are ready-made, in predicates/: worient3 and power3 of weighted_space. They never return 0: four points of a plane
   still have an orientation, and of five points on a sphere the fifth is still inside or outside, always in the same way for the same
   points. So nothing here asks what to do on "coplanar" or "cospherical". The weight is moved most, so the points of a sphere come apart
   by their heights first, and a flat tetrahedron lies only along the hull, from where it is peeled off. With -DUNLIFTED the program takes
   orient3 and insphere of space in their place: then some flat ones are inside.

   Points are inserted one by one: the tetrahedra in conflict with the point, whose sphere has it inside, are removed, and the hole is
   filled from the point. A point that no tetrahedron is in conflict with is hidden by the weights of others. Outside of the hull there are
   tetrahedra too, from each face of the hull to the vertex OUTSIDE, whose "sphere" is the half space beyond the face.

   Usage: delaunay3 grid|sphere|random|mixed|weighted [SIZE [cells]] > picture.svg, or with `cells` the points and the tetrahedra in place of
   a picture. What was checked goes to standard error. */
#include <stdint.h>
#include <stdio.h>
#include <stdlib.h>
#include <string.h>

#ifdef UNLIFTED
#include "lnc_space.h"
typedef ln_point3 Point;
#define ORIENT ln_orient3_at
#define INSIDE ln_insphere_at
#define WEIGHT(p) 0
#else
#include "lnc_weighted_space.h"
typedef ln_weighted3 Point;
#define ORIENT ln_worient3_at
#define INSIDE ln_power3_at
#define WEIGHT(p) ((p)->w)
#endif

enum { MOST = 20000, CELLS = 40 * MOST, OUTSIDE = MOST, NONE = -1, FEW = 2000, SLOTS = 1 << 20 };

/* four corners, positively oriented; beside[i] is the cell across from corner i */
typedef struct { int corner[4], beside[4], alive, seen; } Cell;

static Point points[MOST];
static int count;
static Cell cells[CELLS];
static int made, last, spare[CELLS], spares;
static long asked;

static int is_positive(const int *c) {
  asked++;
  return ORIENT(&points[c[0]], &points[c[1]], &points[c[2]], &points[c[3]]) > 0;
}

/* the place of OUTSIDE among the corners of a cell, or 4 */
static int outer(const int *corners) {
  int i = 0;
  while (i < 4 && corners[i] != OUTSIDE) i++;
  return i;
}

/* the orientation of a cell with p in place of one corner */
static int is_positive_with(const Cell *cell, int place, int p) {
  int corners[4];
  memcpy(corners, cell->corner, sizeof corners);
  corners[place] = p;
  return is_positive(corners);
}

/* is the point p in the sphere of this cell? Beyond a face of the hull it is where the cell is positive with p in place of OUTSIDE */
static int is_inside(const Cell *cell, int p) {
  const int *c = cell->corner, place = outer(c);
  if (place < 4) return is_positive_with(cell, place, p);
  asked++;
  return INSIDE(&points[c[0]], &points[c[1]], &points[c[2]], &points[c[3]], &points[p]) > 0;
}

static int add(const int *corners) {
  if (!spares && made == CELLS) { fprintf(stderr, "too many cells\n"); exit(2); }
  Cell cell = {{corners[0], corners[1], corners[2], corners[3]}, {NONE, NONE, NONE, NONE}, 1, NONE};
  last = spares ? spare[--spares] : made++;
  cells[last] = cell;
  return last;
}

/* face i of the cell t and face j of the cell u are the same */
static void join(int t, int i, int u, int j) {
  cells[t].beside[i] = u;
  cells[u].beside[j] = t;
}

static int side_of(int t, int u) {
  for (int i = 0; i < 4; i++) if (cells[t].beside[i] == u) return i;
  abort();
}

/* the new cells of an insertion meet at edges of the hole: the first cell at an edge is kept here until the second one comes, in the first
   slot from the edge's own on that this insertion hasn't taken for another edge */
static struct { int a, b, point, cell, side; } waiting[SLOTS];

static void meet(int t, int side, int a, int b, int p) {
  if (a > b) { int c = a; a = b; b = c; }
  unsigned slot = (unsigned)a * 40503u + (unsigned)b * 9973u;
  for (;; slot++) {
    slot %= SLOTS;
    if (waiting[slot].point != p) break;
    if (waiting[slot].a == a && waiting[slot].b == b) {
      join(t, side, waiting[slot].cell, waiting[slot].side);
      return;
    }
  }
  waiting[slot].a = a;
  waiting[slot].b = b;
  waiting[slot].point = p;
  waiting[slot].cell = t;
  waiting[slot].side = side;
}

/* a new cell from face i of the removed cell t to the point p, beside the cell u that stays */
static void fill(int t, int i, int u, int p) {
  int corners[4];
  memcpy(corners, cells[t].corner, sizeof corners);
  corners[i] = p;
  int fresh = add(corners);
  join(fresh, i, u, side_of(u, t));
  for (int j = 0; j < 4; j++) {
    if (j == i) continue;
    int edge[2], n = 0;
    for (int k = 0; k < 4; k++) if (k != i && k != j) edge[n++] = corners[k];
    meet(fresh, j, edge[0], edge[1], p);
  }
}

/* the cell that has the point p in it, or one of OUTSIDE from whose face it is seen: from cell to cell, across a face that p is beyond */
static int locate(int p) {
  int t = last, i = outer(cells[t].corner);
  if (i < 4) t = cells[t].beside[i];
  for (;;) {
    for (i = 0; i < 4 && is_positive_with(&cells[t], i, p); i++) {}
    if (i == 4) return t;
    t = cells[t].beside[i];
    if (outer(cells[t].corner) < 4) return t;
  }
}

/* removes what has p inside, beginning at one such cell, and fills the hole */
static void insert(int p) {
  static int hole[CELLS];
  int size = 0, first = locate(p);
  if (!is_inside(&cells[first], p)) return;
  hole[size++] = first;
  cells[first].alive = 0;
  for (int k = 0; k < size; k++)
    for (int i = 0; i < 4; i++) {
      int u = cells[hole[k]].beside[i];
      if (!cells[u].alive || cells[u].seen == p) continue;
      if (is_inside(&cells[u], p)) { cells[u].alive = 0; hole[size++] = u; } else cells[u].seen = p;
    }
  for (int k = 0; k < size; k++)
    for (int i = 0; i < 4; i++) {
      int u = cells[hole[k]].beside[i];
      if (cells[u].alive) fill(hole[k], i, u, p);
    }
  for (int k = 0; k < size; k++) spare[spares++] = hole[k];
}

static void tetrahedralize(void) {
  int corners[4] = {0, 1, 2, 3};
  if (!is_positive(corners)) { corners[0] = 1; corners[1] = 0; }
  int first = add(corners), around[4];
  for (int i = 0; i < 4; i++) {
    int face[4];
    memcpy(face, corners, sizeof face);
    face[i] = OUTSIDE;
    /* seen from outside: two corners of the face change places */
    int a = (i + 1) % 4, b = (i + 2) % 4, c = face[a];
    face[a] = face[b];
    face[b] = c;
    around[i] = add(face);
    join(first, i, around[i], i);
  }
  for (int i = 0; i < 4; i++)
    for (int j = 0; j < i; j++)
      for (int k = 0; k < 4; k++) {
        /* across from corners[j] lies, in around[i], the cell around[j] */
        if (cells[around[i]].corner[k] == corners[j])
          for (int m = 0; m < 4; m++) if (cells[around[j]].corner[m] == corners[i]) join(around[i], k, around[j], m);
      }
  for (int p = 4; p < count; p++) insert(p);
}

static int by_place(const void *a, const void *b) {
  const Point *p = a, *q = b;
  if (p->x != q->x) return p->x < q->x ? -1 : 1;
  if (p->y != q->y) return p->y < q->y ? -1 : 1;
  return p->z < q->z ? -1 : p->z > q->z;
}

static Point *put(int64_t x, int64_t y, int64_t z) {
  if (count == MOST) { fprintf(stderr, "too many points\n"); exit(2); }
  points[count] = (Point){.x = x, .y = y, .z = z};
  return &points[count++];
}

static int64_t below(int64_t most) {
  static uint64_t state = 1;
  state = state * 6364136223846793005u + 1442695040888963407u;
  return (int64_t)(state >> 40) % most;
}

/* the points of a scene: a cube's grid, a sphere, random points, or all three; or random points with random weights. They are inserted in the
   order of their places, so that each is near the one before: any order will do, since the index says how a point is moved */
static void scene(const char *name, int size) {
  int mixed = !strcmp(name, "mixed"), weighted = !strcmp(name, "weighted");
  const int64_t step = 800000 / size, magnified = 80000;
  if (mixed || !strcmp(name, "grid"))
    for (int i = 0; i < size; i++)
      for (int j = 0; j < size; j++)
        for (int k = 0; k < size; k++) put(step * i - 400000, step * j - 400000, step * k - 400000);
  /* the 102 points with integer coordinates on the sphere of radius 9, magnified */
  if (mixed || !strcmp(name, "sphere"))
    for (int x = -9; x <= 9; x++)
      for (int y = -9; y <= 9; y++)
        for (int z = -9; z <= 9; z++) if (x * x + y * y + z * z == 81) put(magnified * x, magnified * y, magnified * z);
  if (mixed || weighted || !strcmp(name, "random"))
    for (int i = 0; i < size * size * size; i++) {
      int64_t x = below(800000) - 400000, y = below(800000) - 400000, z = below(800000) - 400000;
      Point *p = put(x, y, z);
#ifndef UNLIFTED
      if (weighted) p->w = below(step) * below(step);
#endif
      (void)p;
    }
  /* no point twice */
  qsort(points, count, sizeof *points, by_place);
  int kept = 0;
  for (int i = 0; i < count; i++) if (!kept || by_place(&points[kept - 1], &points[i])) points[kept++] = points[i];
  count = kept;
  for (int i = 0; i < count; i++) points[i].index = i;
}

/* the plain values, in 128 bits: six times the volume of a tetrahedron, and whether a point lies strictly inside the sphere */
static __int128 det3(const __int128 *a, const __int128 *b, const __int128 *c) {
  return a[0] * (b[1] * c[2] - b[2] * c[1]) + b[0] * (c[1] * a[2] - c[2] * a[1]) + c[0] * (a[1] * b[2] - a[2] * b[1]);
}

static void from(const int *corners, int n, int base, __int128 d[][4]) {
  static const Point origin = {0};
  const Point *o = base == OUTSIDE ? &origin : &points[base];
  for (int i = 0; i < n; i++) {
    const Point *p = &points[corners[i]];
    d[i][0] = p->x - o->x;
    d[i][1] = p->y - o->y;
    d[i][2] = p->z - o->z;
    d[i][3] = d[i][0] * d[i][0] + d[i][1] * d[i][1] + d[i][2] * d[i][2] - (WEIGHT(p) - WEIGHT(o));
  }
}

static __int128 volume(const int *corners, int base) {
  __int128 d[3][4];
  from(corners, 3, base, d);
  return det3(d[0], d[1], d[2]);
}

static int strictly_inside(const int *corners, int p) {
  __int128 d[4][4];
  from(corners, 4, p, d);
  __int128 sum = 0;
  for (int i = 0; i < 4; i++) {
    const __int128 *rest[3];
    for (int k = 0, n = 0; k < 4; k++) if (k != i) rest[n++] = d[k];
    sum += (i % 2 ? 1 : -1) * d[i][3] * det3(rest[0], rest[1], rest[2]);
  }
  return sum > 0;
}

/* how many points are strictly inside the sphere of a cell: of all, or where there are many of the four across its faces, which suffice */
static int intruders(const Cell *cell) {
  int bad = 0;
  for (int p = 0; p < count && count <= FEW; p++) bad += strictly_inside(cell->corner, p);
  for (int i = 0; i < 4; i++) {
    const Cell *u = &cells[cell->beside[i]];
    int p = u->corner[side_of(cell->beside[i], (int)(cell - cells))];
    if (p != OUTSIDE && strictly_inside(cell->corner, p)) bad++;
  }
  return bad;
}

static int is_flat(const Cell *cell) { return outer(cell->corner) == 4 && !volume(cell->corner, cell->corner[3]); }

/* removes flat cells at the hull, and so on with what is then at the hull; how many of the flat ones are left */
static int flat_inside(void) {
  static char gone[CELLS];
  int left, more = 1;
  while (more) {
    more = left = 0;
    for (int t = 0; t < made; t++) {
      if (!cells[t].alive || gone[t] || !is_flat(&cells[t])) continue;
      int open = 0;
      for (int i = 0; i < 4; i++) open |= gone[cells[t].beside[i]] || outer(cells[cells[t].beside[i]].corner) < 4;
      if (open) gone[t] = more = 1; else left++;
    }
  }
  return left;
}

static int by_number(const void *a, const void *b) {
  uint64_t x = *(const uint64_t *)a, y = *(const uint64_t *)b;
  return x < y ? -1 : x > y;
}

static long different(uint64_t *numbers, long n) {
  long found = 0;
  qsort(numbers, n, sizeof *numbers, by_number);
  for (long i = 0; i < n; i++) found += !i || numbers[i] != numbers[i - 1];
  return found;
}

/* vertices - edges + faces - cells is 0, with OUTSIDE; each cell has half of four faces */
static int is_euler(long *vertices) {
  static uint64_t edge[6 * CELLS], corner[4 * CELLS];
  long edges = 0, corners = 0;
  for (int t = 0; t < made; t++) {
    const int *c = cells[t].corner;
    if (!cells[t].alive) continue;
    for (int i = 0; i < 4; i++) {
      corner[corners++] = (uint64_t)c[i];
      for (int j = 0; j < i; j++) edge[edges++] = (uint64_t)(c[i] < c[j] ? c[i] : c[j]) << 32 | (unsigned)(c[i] < c[j] ? c[j] : c[i]);
    }
  }
  long n = corners / 4;
  *vertices = different(corner, corners);
  return *vertices - different(edge, edges) + n == 0;
}

/* Euler's formula holds, every sphere is empty by the plain value, the volumes add up to the hull's, and each face lies between two cells */
static int check(void) {
  int inner = 0, flat = 0, faces = 0, bad = 0;
  __int128 sum = 0, hull = 0;
  for (int t = 0; t < made; t++) {
    const Cell *cell = &cells[t];
    if (!cell->alive) continue;
    for (int i = 0; i < 4; i++) {
      const Cell *u = &cells[cell->beside[i]];
      if (!u->alive || u->beside[side_of(cell->beside[i], t)] != t) bad++;
    }
    int place = outer(cell->corner);
    if (place < 4) {
      int face[4];
      memcpy(face, cell->corner, sizeof face);
      /* with OUTSIDE last the other three are the face; each place that it moves turns the sign */
      for (int k = place; k < 3; k++) face[k] = face[k + 1];
      faces++;
      hull += (place % 2 ? 1 : -1) * -volume(face, OUTSIDE);
      continue;
    }
    __int128 six = volume(cell->corner, cell->corner[3]);
    if (six < 0) bad++;
    if (!six) flat++;
    sum += six;
    inner++;
    bad += intruders(cell);
  }
  if (sum != hull && sum != -hull) bad++;
  long vertices;
  if (!is_euler(&vertices)) bad++;
  fprintf(stderr, "%d points, %ld hidden, %d faces of the hull, %d tetrahedra, %d flat, %d inside after peeling, %ld questions: %s\n", count,
          count + 1 - vertices, faces, inner, flat, flat_inside(), asked,
          bad ? "WRONG" : "Euler's formula holds, every sphere is empty, and the volumes add up to the hull's");
  return bad != 0;
}

/* the points, and the corners of each tetrahedron in order */
static void list(void) {
  printf("%d\n", count);
  for (int i = 0; i < count; i++)
    printf("%lld %lld %lld %lld\n", (long long)points[i].x, (long long)points[i].y, (long long)points[i].z, (long long)WEIGHT(&points[i]));
  for (int t = 0; t < made; t++) {
    const int *c = cells[t].corner;
    if (cells[t].alive && outer(c) == 4) printf("%d %d %d %d\n", c[0], c[1], c[2], c[3]);
  }
}

/* the edges seen from the front and a little from above and the right: those of the hull dark, those within light */
static void picture(void) {
  printf("<svg xmlns=\"http://www.w3.org/2000/svg\" viewBox=\"-10 -10 500 500\" stroke-linecap=\"round\">\n");
  for (int dark = 0; dark < 2; dark++)
    for (int t = 0; t < made; t++) {
      if (!cells[t].alive || (outer(cells[t].corner) < 4) != dark) continue;
      for (int i = 0; i < 4; i++)
        for (int j = 0; j < 4; j++) {
          int a = cells[t].corner[i], b = cells[t].corner[j];
          if (a >= b || b == OUTSIDE) continue;
          double at[2][2];
          for (int k = 0; k < 2; k++) {
            const Point *p = &points[k ? b : a];
            at[k][0] = 240 + (p->x + 0.35 * p->y) * 0.00029;
            at[k][1] = 240 - (p->z + 0.25 * p->y) * 0.00029;
          }
          printf("<path stroke=\"%s\" stroke-width=\"%s\" d=\"M%.1f %.1fL%.1f %.1f\"/>\n", dark ? "#24527a" : "#c9d9ea", dark ? "0.7" : "0.4",
                 at[0][0], at[0][1], at[1][0], at[1][1]);
        }
    }
  for (int p = 0; p < count; p++)
    printf("<circle cx=\"%.1f\" cy=\"%.1f\" r=\"1.6\" fill=\"#b03a2e\"/>\n", 240 + (points[p].x + 0.35 * points[p].y) * 0.00029,
           240 - (points[p].z + 0.25 * points[p].y) * 0.00029);
  printf("</svg>\n");
}

int main(int argc, char **argv) {
  const char *name = argc > 1 ? argv[1] : "grid";
  int size = argc > 2 ? atoi(argv[2]) : 5;
  if (size < 2 || size > 27) { fprintf(stderr, "a size is from 2 to 27\n"); return 2; }
  scene(name, size);
  if (count < 4) { fprintf(stderr, "no such scene: grid, sphere, random, mixed or weighted\n"); return 2; }
  tetrahedralize();
  if (argc > 3) list(); else picture();
  return check();
}
