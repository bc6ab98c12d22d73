/* A Delaunay triangulation with no case for degenerate input.

   The two predicates that it asks, ln_orient and ln_incircle, are emitted by lnc from mesh.ln. They never say 0: three points on a
   line still turn left or right, and of four points on a circle the fourth is still inside or outside, always in the same way for the
   same points. So nothing here asks what to do on "collinear" or "cocircular".

   Usage: delaunay grid|line|circle|mixed [SIZE] > picture.svg. What was checked goes to standard error. */
#include <stdint.h>
#include <stdio.h>
#include <stdlib.h>
#include <string.h>

/* -1, 0 or 1; the first parameter has the index of each site, the second its coordinates in turn */
int ln_orient(const int64_t *x, const int64_t *v);
int ln_incircle(const int64_t *x, const int64_t *v);

enum { MOST = 4096, NONE = -1 };

typedef struct { int64_t x, y; } Point;
/* corners counterclockwise; beside[i] is the triangle across from corner i */
typedef struct { int corner[3], beside[3]; } Triangle;

static Point points[MOST];
static int count;
static Triangle triangles[2 * MOST];
static int made;
/* the hull, counterclockwise: the vertex behind each and before it, and the triangle at the edge to the one behind it */
static int behind[MOST], before[MOST], at_edge[MOST];
static long asked;

/* do a, b, c turn left? */
static int left(int a, int b, int c) {
  int64_t x[3] = {a, b, c};
  int64_t v[6] = {points[a].x, points[a].y, points[b].x, points[b].y, points[c].x, points[c].y};
  asked++;
  return ln_orient(x, v) > 0;
}

/* is d in the circle of a, b, c, which turn left? */
static int inside(int a, int b, int c, int d) {
  int64_t x[4] = {a, b, c, d};
  int64_t v[8] = {points[a].x, points[a].y, points[b].x, points[b].y, points[c].x, points[c].y, points[d].x, points[d].y};
  asked++;
  return ln_incircle(x, v) > 0;
}

static int triangle(int a, int b, int c) {
  Triangle t = {{a, b, c}, {NONE, NONE, NONE}};
  triangles[made] = t;
  return made++;
}

/* which corner of t is this vertex? */
static int corner_of(int t, int vertex) {
  for (int i = 0; i < 3; i++) if (triangles[t].corner[i] == vertex) return i;
  abort();
}

/* which side of t lies across from the triangle u? */
static int side_of(int t, int u) {
  for (int i = 0; i < 3; i++) if (triangles[t].beside[i] == u) return i;
  abort();
}

static void replace(int t, int old, int new) {
  if (t != NONE) triangles[t].beside[side_of(t, old)] = new;
}

/* the edge of t across from its corner i is flipped where the point behind it is in t's circle, and so are the edges that this changes */
static void legalize(int t, int i) {
  int u = triangles[t].beside[i];
  if (u == NONE) return;
  int j = side_of(u, t);
  int p = triangles[t].corner[i], a = triangles[t].corner[(i + 1) % 3], b = triangles[t].corner[(i + 2) % 3], q = triangles[u].corner[j];
  if (!inside(p, a, b, q)) return;
  int beyond_a = triangles[u].beside[(j + 1) % 3], beyond_b = triangles[t].beside[(i + 1) % 3];
  int near_a = triangles[t].beside[(i + 2) % 3], near_b = triangles[u].beside[(j + 2) % 3];
  /* before: t is p, a, b and u is q, b, a; after: t is p, a, q and u is p, q, b */
  Triangle first = {{p, a, q}, {beyond_a, u, near_a}}, second = {{p, q, b}, {near_b, beyond_b, t}};
  triangles[t] = first;
  triangles[u] = second;
  replace(beyond_a, u, t);
  replace(beyond_b, t, u);
  if (near_a == NONE) at_edge[p] = t;
  if (beyond_a == NONE) at_edge[a] = t;
  if (near_b == NONE) at_edge[q] = u;
  if (beyond_b == NONE) at_edge[b] = u;
  legalize(t, 0);
  legalize(u, 0);
}

/* a point outside the hull: a triangle to each edge of the hull that sees it, and then flips */
static void insert(int p, int start) {
  int low = start, high = start;
  while (!left(before[low], low, p)) low = before[low];
  while (!left(high, behind[high], p)) high = behind[high];
  int last = NONE;
  int first = made;
  for (int a = low; a != high; a = behind[a]) {
    int t = triangle(p, behind[a], a);
    triangles[t].beside[0] = at_edge[a];
    int old = at_edge[a], b = behind[a];
    for (int i = 0; i < 3; i++)
      if (triangles[old].corner[i] != a && triangles[old].corner[i] != b) triangles[old].beside[i] = t;
    if (last != NONE) { triangles[t].beside[1] = last; triangles[last].beside[2] = t; }
    last = t;
  }
  /* sides: across from corner 1 lies the edge a p, across from corner 2 the edge p b */
  behind[low] = p; before[p] = low; behind[p] = high; before[high] = p;
  at_edge[low] = first;
  at_edge[p] = last;
  for (int t = first; t <= last; t++) legalize(t, corner_of(t, p));
}

static int by_place(const void *a, const void *b) {
  const Point *p = a, *q = b;
  return p->x != q->x ? (p->x < q->x ? -1 : 1) : (p->y > q->y) - (p->y < q->y);
}

static void triangulate(void) {
  qsort(points, count, sizeof *points, by_place);
  int a = 0, b = 1, c = 2;
  if (!left(a, b, c)) { b = 2; c = 1; }
  int t = triangle(a, b, c);
  behind[a] = b; behind[b] = c; behind[c] = a;
  before[b] = a; before[c] = b; before[a] = c;
  at_edge[a] = at_edge[b] = at_edge[c] = t;
  for (int p = 3; p < count; p++) insert(p, p - 1);
}

/* the points of a scene: a square grid, a line, a circle, or all three */
static void scene(const char *name, int size) {
  int mixed = !strcmp(name, "mixed");
  /* the 108 points with whole coordinates on the circle of radius 5 * 13 * 17, magnified */
  const int64_t radius = 5 * 13 * 17, magnified = 900, step = 800000 / size;
  if (mixed || !strcmp(name, "grid"))
    for (int i = 0; i < size; i++)
      for (int j = 0; j < size; j++) points[count++] = (Point){step * i - 400000, step * j - 400000};
  if (mixed || !strcmp(name, "line"))
    for (int i = 0; i < size; i++) points[count++] = (Point){step * i - 400000, 2 * (step * i - 400000)};
  if (mixed || !strcmp(name, "circle"))
    for (int64_t x = -radius; x <= radius; x++) {
      int64_t square = radius * radius - x * x, y = 0;
      for (int64_t bit = 1 << 10; bit; bit >>= 1) if ((y + bit) * (y + bit) <= square) y += bit;
      if (y * y != square) continue;
      points[count++] = (Point){magnified * x, magnified * y};
      if (y) points[count++] = (Point){magnified * x, -magnified * y};
    }
  /* no point twice */
  qsort(points, count, sizeof *points, by_place);
  int kept = 0;
  for (int i = 0; i < count; i++) if (!kept || by_place(&points[kept - 1], &points[i])) points[kept++] = points[i];
  count = kept;
}

/* Euler's formula, every triangle turns left, and no point lies in the circle of any */
static int check(void) {
  int hull = 0, bad = 0;
  int start = count - 1;
  for (int v = start; ; v = behind[v]) { hull++; if (behind[v] == start) break; }
  if (made != 2 * count - 2 - hull) bad++;
  for (int t = 0; t < made; t++) {
    const int *c = triangles[t].corner;
    if (!left(c[0], c[1], c[2])) bad++;
    for (int d = 0; d < count; d++)
      if (d != c[0] && d != c[1] && d != c[2] && inside(c[0], c[1], c[2], d)) bad++;
  }
  fprintf(stderr, "%d points, %d on the hull, %d triangles, %ld questions: %s\n", count, hull, made, asked,
          bad ? "WRONG" : "Euler's formula holds, and every circle is empty");
  return bad;
}

static void picture(void) {
  int64_t low_x = points[0].x, high_x = low_x, low_y = points[0].y, high_y = low_y;
  for (int i = 0; i < count; i++) {
    if (points[i].x < low_x) low_x = points[i].x;
    if (points[i].x > high_x) high_x = points[i].x;
    if (points[i].y < low_y) low_y = points[i].y;
    if (points[i].y > high_y) high_y = points[i].y;
  }
  double wide = high_x - low_x + 1.0, tall = high_y - low_y + 1.0, scale = 480 / (wide > tall ? wide : tall);
  printf("<svg xmlns=\"http://www.w3.org/2000/svg\" viewBox=\"-10 -10 %.0f %.0f\" stroke-linejoin=\"round\">\n", wide * scale + 20, tall * scale + 20);
  for (int t = 0; t < made; t++) {
    printf("<polygon fill=\"#eef4fb\" stroke=\"#24527a\" stroke-width=\"0.7\" points=\"");
    for (int i = 0; i < 3; i++) {
      Point p = points[triangles[t].corner[i]];
      printf("%.1f,%.1f ", (p.x - low_x) * scale, (high_y - p.y) * scale);
    }
    printf("\"/>\n");
  }
  for (int i = 0; i < count; i++)
    printf("<circle cx=\"%.1f\" cy=\"%.1f\" r=\"1.8\" fill=\"#b03a2e\"/>\n", (points[i].x - low_x) * scale, (high_y - points[i].y) * scale);
  printf("</svg>\n");
}

int main(int argc, char **argv) {
  const char *name = argc > 1 ? argv[1] : "grid";
  int size = argc > 2 ? atoi(argv[2]) : 12;
  if (size < 2 || size > 60) { fprintf(stderr, "a size is from 2 to 60\n"); return 2; }
  scene(name, size);
  if (count < 3) { fprintf(stderr, "no such scene: grid, line, circle or mixed\n"); return 2; }
  triangulate();
  picture();
  return check();
}
