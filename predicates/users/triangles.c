/* A Delaunay triangulation: standard input has pairs of doubles, each line of standard output the numbers of a triangle's corners, from 0 and
   counterclockwise. Of points at one place the first counts. Flat triangles, which are all at the hull, are left out. Points are found fastest in an
   order in which each is near the one before. Over the installed library */
#include <lnc_grid.h>
#include <lnc_plane.h>
#include <stdio.h>

/* half edges, three for each triangle: the corner where each begins, and the same edge of the triangle on its other side. Beyond each edge of the hull
   is a triangle too, whose third corner is OUTSIDE */
static ln_point2 *site;
static int *from, *twin, made;
enum { OUTSIDE = -1 };

static int next(int h) { return h % 3 == 2 ? h - 2 : h + 1; }
static void join(int h, int g) { twin[h] = g; twin[g] = h; }
static void set(int h, int a, int b, int c) { from[h] = a; from[next(h)] = b; from[next(next(h))] = c; }
static int is_left(int h, int p) { return ln_orient2_at(&site[from[h]], &site[from[next(h)]], &site[p]) > 0; }
/* the edge of the hull that the triangle of h is beyond, -1 where it is beyond none */
static int hull(int h) { return from[h] == OUTSIDE ? next(h) : from[next(h)] == OUTSIDE ? next(next(h)) : from[next(next(h))] == OUTSIDE ? h : -1; }

static void begin(int a, int b, int c) {
  set(0, a, b, c);
  if (!is_left(0, c)) set(0, b, a, c);
  for (int k = 0; k < 3; k++) { set(3 * k + 3, from[next(k)], from[k], OUTSIDE); join(k, 3 * k + 3); join(3 * k + 4, 3 * ((k + 2) % 3) + 5); }
  made = 12;
}
/* h is across from its triangle's new corner p: where p is in the circle on the other side (of the hull: beyond it), the edge is turned towards p */
static void flip(int h) {
  const int n = next(h), l = next(n), g = twin[h], m = next(g), k = next(m), a = from[h], b = from[n], p = from[l], q = from[k];
  if (hull(g) >= 0 ? !is_left(hull(g), p) : ln_incircle_at(&site[b], &site[a], &site[q], &site[p]) < 0) return;
  const int pa = twin[l], aq = twin[m], qb = twin[k];
  set(h, q, b, p); set(g, a, q, p);
  join(h, qb); join(g, aq); join(k, pa); join(l, m);
  flip(h); flip(g);
}
static void insert(int p) {
  int h = hull(made - 3) < 0 ? made - 3 : twin[hull(made - 3)];
  for (int sides = 0; sides < 3 && hull(h) < 0; sides++, h = next(h)) if (!is_left(h, p)) { h = twin[h]; sides = 0; }
  const int n = next(h), l = next(n), u = made, w = made + 3, a = from[h], b = from[n], c = from[l], bc = twin[n], ca = twin[l];
  made += 6;
  set(h, a, b, p); set(u, b, c, p); set(w, c, a, p);
  join(u, bc); join(w, ca); join(n, u + 2); join(u + 1, w + 2); join(w + 1, l);
  flip(h); flip(u); flip(w);
}
int main(void) {
  size_t n = 0, room = 0;
  double *xy = NULL, x, y;
  for (; scanf("%lf %lf", &x, &y) == 2; xy[2 * n] = x, xy[2 * n++ + 1] = y) if (n == room) xy = realloc(xy, (room = 2 * room + 8) * 2 * sizeof *xy);
  ln_grid grid;
  if (ln_grid_make(&grid, 2, n, xy, LN_POINT2_X_MIN, LN_POINT2_X_MAX) != LN_GRID_DONE) return fprintf(stderr, "point %zu isn't finite\n", grid.refused), 1;
  site = malloc((n + 3) * sizeof *site); from = malloc(6 * (n + 3) * sizeof *from); twin = malloc(6 * (n + 3) * sizeof *twin);
  int corner[3], begun = 0;
  for (int i = 0; i < (int)n; i++) {
    site[i] = (ln_point2){i, grid.at[2 * i], grid.at[2 * i + 1]};
    if (grid.first[i] == (size_t)i) { if (begun == 3) insert(i); else if ((corner[begun++] = i, begun) == 3) begin(corner[0], corner[1], corner[2]); }
  }
  for (int h = 0; h < made; h += 3)
    if (hull(h) < 0 && ln_orient2_plain_at(&site[from[h]], &site[from[h + 1]], &site[from[h + 2]])) printf("%d %d %d\n", from[h], from[h + 1], from[h + 2]);
}
